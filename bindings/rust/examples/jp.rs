//! A query over a document, as the program jp does it:
//!
//! ```text
//! jp FORM QUERY [--extended] [--decimals] < document
//! ```
//!
//! FORM is eval, paths, both, canon or check. What is written, on both outputs, and the status are the ones of
//! `jp FORM QUERY`, but for its limits of lengths, its help, and the path of a number that is refused.

use jsonpath_jp::{Error, Nodes, Numbers, Profile, Query};
use std::env;
use std::io::{self, Read, Write};
use std::process::ExitCode;

/// The line of each node.
fn lines(form: &str, nodes: &Nodes) -> String {
    nodes
        .iter()
        .map(|node| match form {
            "eval" => format!("{}\n", node.value()),
            "paths" => format!("{}\n", node.path()),
            _ => format!("{}\t{}\n", node.path(), node.value()),
        })
        .collect()
}

fn asked(form: &str, text: &str, profile: Profile, numbers: Numbers) -> Result<String, Error> {
    let query = Query::parse_with(text, profile, numbers)?;
    match form {
        "canon" => Ok(query.canonical()? + "\n"),
        "check" => Ok("accepted\n".to_owned()),
        _ => {
            let mut document = Vec::new();
            io::stdin()
                .read_to_end(&mut document)
                .expect("standard input is read");
            Ok(lines(form, &query.find(&document)?))
        }
    }
}

fn main() -> ExitCode {
    let (mut profile, mut numbers) = (Profile::Standard, Numbers::Whole);
    let mut words = Vec::new();
    for word in env::args().skip(1) {
        match word.as_str() {
            "--extended" => profile = Profile::Extended,
            "--decimals" => numbers = Numbers::Decimal,
            _ => words.push(word),
        }
    }
    let [form, query] = &words[..] else {
        eprintln!("usage: jp FORM QUERY [--extended] [--decimals] < document");
        return ExitCode::from(2);
    };
    match asked(form, query, profile, numbers) {
        Ok(text) => {
            io::stdout()
                .write_all(text.as_bytes())
                .expect("standard output is written");
            ExitCode::SUCCESS
        }
        Err(Error::Query(fault)) => {
            eprintln!("query refused: {} at {}", fault.kind(), fault.place());
            ExitCode::from(1)
        }
        Err(Error::Document(fault)) => {
            eprintln!("document refused: {}", fault.kind());
            ExitCode::from(3)
        }
        Err(_) => {
            eprintln!("want of memory");
            ExitCode::from(4)
        }
    }
}
