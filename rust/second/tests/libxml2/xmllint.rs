//! Queries put to `xmllint`, and the node sets it prints.

use std::fs::{self, File};
use std::io;
use std::path::Path;
use std::process::{self, Command};

/// What `xmllint` says of its version, on a machine that has one whose shell can be read here.
pub fn version() -> Option<String> {
    let output = Command::new("xmllint").arg("--version").output().ok()?;
    let said = [output.stdout, output.stderr].concat();
    let version = String::from_utf8_lossy(&said).lines().next()?.to_string();
    // It may be built without a shell, or print in other ways.
    let tried = answers("<a r=\"7\"><!--8--></a>", None, &["//*", "//node()"]).ok()?;
    (tried == [vec![7], vec![7, 8]]).then_some(version)
}

/// For each query its node set, as the list of the nodes' rows. They ascend, which is document order;
/// a node set itself has none. Nodes without a row are left out; the document node has one where it
/// is part of the tree.
pub fn answers(
    document: &str,
    document_row: Option<usize>,
    queries: &[&str],
) -> io::Result<Vec<Vec<usize>>> {
    let printed = printed(document, queries)?;
    // Each node set starts with these words, an empty one too.
    let sets = printed.split("Object is a Node Set").skip(1);
    sets.map(|set| rows(set, document_row)).collect()
}

/// What the shell of `xmllint` prints. It takes its commands from a file, so that neither program
/// waits for the other.
fn printed(document: &str, queries: &[&str]) -> io::Result<String> {
    let folder = Path::new(env!("CARGO_TARGET_TMPDIR"));
    let [tree, commands] =
        ["xml", "commands"].map(|end| format!("libxml2-{}.{end}", process::id()));
    let lines: String = queries.iter().map(|query| format!("xpath {query}\n")).collect();
    fs::write(folder.join(&tree), document)?;
    fs::write(folder.join(&commands), lines)?;
    let output = Command::new("xmllint")
        .current_dir(folder)
        .args(["--shell", &tree])
        .stdin(File::open(folder.join(&commands))?)
        .output()?;
    fs::remove_file(folder.join(tree))?;
    fs::remove_file(folder.join(commands))?;
    Ok(String::from_utf8_lossy(&output.stdout).into_owned())
}

/// The rows in a node set. Below the line of an element, a text, a comment or an instruction comes
/// its row as a content; the line of the document node has its number in the set and a slash.
fn rows(set: &str, document_row: Option<usize>) -> io::Result<Vec<usize>> {
    let row = |line: &str| match line.trim_start().strip_prefix("content=") {
        Some(content) => Some(content.parse().map_err(io::Error::other)),
        None if line.ends_with(" /") => document_row.map(Ok),
        None => None,
    };
    let mut rows: Vec<usize> = set.lines().filter_map(row).collect::<io::Result<_>>()?;
    rows.sort_unstable();
    Ok(rows)
}
