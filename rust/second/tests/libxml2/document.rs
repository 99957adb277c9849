//! A tree as an XML document, and what XPath and the second program say of it.

use crate::trees::Node;
use crate::{xmllint, xpath};
use second::Question;

/// The document of a tree, with steps over it.
pub struct Document<'a> {
    root: &'a Node,
    steps: Vec<Step>,
}

/// A step in the words of XPath, and the rows that the second program answers.
struct Step {
    query: String,
    answer: Vec<usize>,
}

impl Document<'_> {
    /// The document of a tree, without steps.
    pub fn of(root: &Node) -> Document<'_> {
        Document { root, steps: Vec::new() }
    }

    /// Notes a step from some contexts of the table, and the rows that it reached, as far as they
    /// belong to this tree. `kind` is the column of kinds.
    pub fn note(
        &mut self,
        kind: &[usize],
        contexts: &[usize],
        question: Question,
        reached: &[usize],
    ) {
        let [contexts, answer] = [contexts, reached].map(|rows| self.rows_inside(rows));
        // From nowhere nothing is reached, which need not be asked while the program says so too.
        if !contexts.is_empty() || !answer.is_empty() {
            let query = xpath::query(&contexts, kind, question);
            self.steps.push(Step { query, answer });
        }
    }

    fn rows_inside(&self, rows: &[usize]) -> Vec<usize> {
        let inside = self.root.row..self.root.end();
        rows.iter().copied().filter(|row| inside.contains(row)).collect()
    }

    /// Poses all steps to XPath. Gives their number, or the first difference in words.
    pub fn compare(&self) -> Result<usize, String> {
        let text = xpath::document(self.root);
        let row_of_document = (self.root.kind == 0).then_some(self.root.row);
        let queries: Vec<&str> = self.steps.iter().map(|step| step.query.as_str()).collect();
        let answers = xmllint::answers(&text, row_of_document, &queries)
            .map_err(|error| format!("no answer: {error}\n{text}"))?;
        if answers.len() != queries.len() {
            let numbers = format!("{} answers to {} queries", answers.len(), queries.len());
            return Err(format!("{numbers}\n{text}"));
        }
        for (Step { query, answer }, by_xpath) in self.steps.iter().zip(&answers) {
            if answer != by_xpath {
                let document = format!("a difference\ndocument {text}\nquery {query}");
                return Err(format!("{document}\nXPath {by_xpath:?}\nsecond program {answer:?}"));
            }
        }
        Ok(queries.len())
    }
}
