//! Trees as XML documents, and steps as XPath expressions over them.

use crate::trees::Node;
use second::Question;

/// The axes by their codes, from 1.
const AXES: [&str; 11] = [
    "self",
    "child",
    "descendant",
    "descendant-or-self",
    "parent",
    "ancestor",
    "ancestor-or-self",
    "following",
    "preceding",
    "following-sibling",
    "preceding-sibling",
];

/// XPath 1.0 has no test for a document, so it is what passes no other.
const NO_OTHER: &str =
    "node()[not(self::*|self::text()|self::comment()|self::processing-instruction())]";

/// The document of a tree. Every node carries its row. Where the root is not a document, the tree
/// stands in an element without a row. Where it is one, an instruction without a row comes first:
/// libxml2 leaves an element with children out of the preceding axis if a document starts with it.
pub fn document(root: &Node) -> String {
    match root.kind {
        0 => format!("<?outside?>{}", written(root)),
        _ => format!("<outside>{}</outside>", written(root)),
    }
}

fn written(node: &Node) -> String {
    let Node { row, kind, name, children } = node;
    let inside: String = children.iter().map(written).collect();
    match kind {
        0 => inside,
        1 => format!("<n{name} r=\"{row}\">{inside}</n{name}>"),
        2 => format!("{row}"),
        3 => format!("<!--{row}-->"),
        _ => format!("<?n{name} {row}?>"),
    }
}

/// The step from these contexts, whose kinds are in the column `kind`.
pub fn query(contexts: &[usize], kind: &[usize], question: Question) -> String {
    let selections: Vec<String> = contexts.iter().map(|&row| selection(row, kind[row])).collect();
    // A document has no parent: so XPath 1.0 writes that there is no context at all.
    let from = if contexts.is_empty() { "/..".to_string() } else { selections.join("|") };
    format!("({from})/{}::{}", AXES[question.axis - 1], test(question))
}

fn selection(row: usize, kind: usize) -> String {
    match kind {
        0 => "/".to_string(),
        1 => format!("//*[@r='{row}']"),
        2 => format!("//text()[.='{row}']"),
        3 => format!("//comment()[.='{row}']"),
        _ => format!("//processing-instruction()[.='{row}']"),
    }
}

fn test(Question { test, test_name, .. }: Question) -> String {
    match test {
        0 => "node()".to_string(),
        1 => "*".to_string(),
        2 => format!("n{test_name}"),
        3 => "text()".to_string(),
        4 => "comment()".to_string(),
        5 => "processing-instruction()".to_string(),
        6 => format!("processing-instruction('n{test_name}')"),
        _ => NO_OTHER.to_string(),
    }
}
