//! Answers of the second program held against those of XPath, as libxml2 gives them: every axis
//! with every test, from every node of random trees and from several nodes at once.
//!
//! Several trees are one table in the second program. Each of them is an XML document of its own
//! for `xmllint`, so an axis that left its tree would be seen. Where a machine has no `xmllint`
//! that answers over its shell, this says so and is content.

mod document;
mod posing;
mod random;
mod trees;
mod xmllint;
mod xpath;

use document::Document;
use posing::{questions, reached, roles};
use random::Random;
use std::process::ExitCode;
use trees::{Columns, Node};

/// How many tables of trees are made.
const TABLES: usize = 16;

fn main() -> ExitCode {
    let Some(version) = xmllint::version() else {
        println!("libxml2: skipped, this machine has no xmllint that answers over its shell");
        return ExitCode::SUCCESS;
    };
    let random = &mut Random::new(1);
    match (0..TABLES).map(|_| compare_table(random)).sum::<Result<usize, String>>() {
        Ok(number) => {
            let answers = format!("{} answers of the second program", with_commas(number));
            println!("libxml2: {answers} are those of XPath ({version})");
            ExitCode::SUCCESS
        }
        Err(difference) => {
            println!("libxml2: {difference} ({version})");
            ExitCode::FAILURE
        }
    }
}

/// Makes a table of one to four trees and holds each tree's part of all answers against its
/// document. Gives the number of answers, or the first difference in words.
fn compare_table(random: &mut Random) -> Result<usize, String> {
    let mut trees: Vec<Node> =
        (0..random.within(1, 4)).map(|_| Node::random_tree(random)).collect();
    let columns = Columns::of(&mut trees);
    let roles = roles(random, columns.count());
    let mut documents: Vec<Document<'_>> = trees.iter().map(Document::of).collect();
    for question in questions(random) {
        let reached = reached(random, &columns.table(), &roles, question);
        for (contexts, reached) in roles.iter().zip(&reached) {
            for document in &mut documents {
                document.note(&columns.kind, contexts, question, reached);
            }
        }
    }
    documents.iter().map(Document::compare).sum()
}

/// A number as one reads it, with a comma before every three digits.
fn with_commas(number: usize) -> String {
    let digits = number.to_string();
    let groups: Vec<&str> = digits
        .as_bytes()
        .rchunks(3)
        .rev()
        .map(|group| std::str::from_utf8(group).expect("digits"))
        .collect();
    groups.join(",")
}
