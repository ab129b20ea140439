//! The rows of bindings/rows.jsonl by the calls of this crate: each by way of the bytes, of a document that is kept, of
//! many queries, and one node after another. Or those of the file that `JP_ROWS` names. They come in the plain form of
//! bindings/rows.py, since the standard library reads no JSON.

use jsonpath_jp::{Document, Error, FindIter, Nodes, Numbers, Profile, Queries, Query};
use std::env;
use std::fs;
use std::path::Path;
use std::process::Command;

/// The names of fields with their texts, in the order in which a row has them.
type Fields = Vec<(String, Vec<u8>)>;

/// What a row asks.
const ASKED: [&str; 4] = ["query", "profile", "document", "not"];

/// A text in hexadecimal digits.
fn text(digits: &str) -> Vec<u8> {
    (0..digits.len())
        .step_by(2)
        .map(|at| u8::from_str_radix(&digits[at..at + 2], 16).expect("two digits"))
        .collect()
}

fn fields(line: &str) -> Fields {
    line.split(' ')
        .map(|word| word.split_once('=').expect("a field"))
        .map(|(name, digits)| (name.to_owned(), text(digits)))
        .collect()
}

fn get<'a>(row: &'a Fields, name: &str) -> Option<&'a [u8]> {
    let mut found = row.iter().filter(|(it, _)| it == name);
    found.next().map(|(_, text)| text.as_slice())
}

/// The number of rows that the head tells, and the rows.
fn rows() -> (usize, Vec<Fields>) {
    let text = env::var_os("JP_ROWS").map_or_else(rows_of_file, |file| {
        fs::read_to_string(file).expect("a file of rows")
    });
    let mut lines = text.lines().map(fields);
    let head = lines.next().expect("a head");
    let count = String::from_utf8_lossy(get(&head, "rows").expect("a count")).parse();
    (count.expect("a number"), lines.collect())
}

fn rows_of_file() -> String {
    let script = Path::new(env!("CARGO_MANIFEST_DIR")).join("../rows.py");
    let printed = Command::new("python3")
        .arg(script)
        .output()
        .expect("Python 3 prints the rows");
    assert!(
        printed.status.success(),
        "{}",
        String::from_utf8_lossy(&printed.stderr)
    );
    String::from_utf8(printed.stdout).unwrap()
}

fn field(name: &str, text: impl ToString) -> (String, Vec<u8>) {
    (name.to_owned(), text.to_string().into_bytes())
}

/// What nodes or an error tell, in the fields of a row.
fn told<'a>(answer: Result<impl Iterator<Item = (&'a str, &'a str)>, &Error>) -> Fields {
    let fault = match answer {
        Ok(nodes) => return told_of_nodes(nodes.collect()),
        Err(fault) => fault,
    };
    match fault {
        Error::Query(fault) => vec![
            field("refused", "Query"),
            field("kind", fault.kind()),
            field("place", fault.place()),
            field("sentence", fault.sentence()),
            field("suggestion", fault.suggestion().unwrap_or_default()),
        ],
        Error::Document(fault) => vec![
            field("refused", "Document"),
            field("kind", fault.kind()),
            field("place", fault.offset()),
            field("line", fault.line()),
            field("column", fault.column()),
            field("at", fault.path().unwrap_or_default()),
            field("reason", fault.reason()),
            field("sentence", fault.sentence()),
        ],
        other => panic!("{other}"),
    }
}

fn told_of_nodes(nodes: Vec<(&str, &str)>) -> Fields {
    let mut told = vec![field("nodes", nodes.len())];
    told.extend(nodes.iter().map(|(path, _)| field("path", path)));
    told.extend(nodes.iter().map(|(_, value)| field("value", value)));
    told
}

fn told_of_all(answer: Result<Nodes, Error>) -> Fields {
    match answer {
        Ok(nodes) => told(Ok(nodes.iter().map(|node| (node.path(), node.value())))),
        Err(fault) => told(Err::<std::iter::Empty<_>, _>(&fault)),
    }
}

/// The same of one node after another.
fn told_of_each(nodes: Result<FindIter<'_>, Error>) -> Fields {
    match nodes {
        Ok(nodes) => {
            let nodes: Vec<_> = nodes.map(|node| node.expect("a node")).collect();
            told(Ok(nodes.iter().map(|node| (node.path(), node.value()))))
        }
        Err(fault) => told(Err::<std::iter::Empty<_>, _>(&fault)),
    }
}

/// The functions and the numbers of a row's profile.
fn choices(row: &Fields) -> (Profile, Numbers) {
    match get(row, "profile").expect("a profile") {
        b"Standard" => (Profile::Standard, Numbers::Whole),
        b"Extended" => (Profile::Extended, Numbers::Whole),
        b"Decimal" => (Profile::Standard, Numbers::Decimal),
        b"ExtendedDecimal" => (Profile::Extended, Numbers::Decimal),
        other => panic!("no profile: {}", String::from_utf8_lossy(other)),
    }
}

/// What each way to ask gives.
fn answers(row: &Fields) -> Vec<Fields> {
    let text = String::from_utf8(get(row, "query").expect("a query").to_vec()).unwrap();
    let (profile, numbers) = choices(row);
    let query = Query::parse_with(&text, profile, numbers);
    let Some(document) = get(row, "document") else {
        return vec![match query.and_then(|query| query.canonical()) {
            Ok(canonical) => vec![field("canonical", canonical)],
            Err(fault) => told_of_all(Err(fault)),
        }];
    };
    let many = Queries::with_profile([&text, &text], profile).with_numbers(numbers);
    let mut answers: Vec<_> = many.find(document).into_iter().map(told_of_all).collect();
    match query {
        Ok(query) => {
            let kept = Document::parse_with(document, numbers);
            answers.push(told_of_all(kept.and_then(|kept| query.find_in(&kept))));
            answers.push(told_of_each(query.find_iter(document)));
            let all = query.find(document);
            assert_first(&query, document, &all);
            answers.push(told_of_all(all));
        }
        Err(fault) => answers.push(told_of_all(Err(fault))),
    }
    answers
}

/// Asserts that the first node, and whether there is one, are those of all, or refused as these are.
fn assert_first(query: &Query, document: &[u8], all: &Result<Nodes, Error>) {
    let mut firsts = vec![query.find_first(document)];
    let mut exist = vec![query.exists(document)];
    if let Ok(kept) = Document::parse_with(document, query.numbers()) {
        firsts.push(query.find_first_in(&kept));
        exist.push(query.exists_in(&kept));
    }
    for (first, exists) in firsts.iter().zip(exist) {
        match (first, all) {
            (Ok(first), Ok(all)) => assert_eq!(first.only(), all.first()),
            (first, all) => assert_eq!(first, all),
        }
        assert_eq!(exists, all.clone().map(|all| !all.is_empty()));
    }
}

/// The texts of a field.
fn texts<'a>(fields: &'a Fields, name: &str) -> Vec<&'a [u8]> {
    let found = fields.iter().filter(|(it, _)| it == name);
    found.map(|(_, text)| text.as_slice()).collect()
}

/// Whether an answer has all that a row says, but for the name of a query's reason, which its error does not tell.
fn is_answered(row: &Fields, answer: &Fields) -> bool {
    let is_of_query = get(row, "refused") == Some(b"Query");
    let is_asked = |name: &str| ASKED.contains(&name) || (is_of_query && name == "reason");
    row.iter()
        .filter(|(name, _)| !is_asked(name))
        .all(|(name, _)| texts(row, name) == texts(answer, name))
}

/// A row or an answer as a text.
fn shown(fields: &Fields) -> String {
    let word =
        |(name, text): &(String, Vec<u8>)| format!("{name}={}", String::from_utf8_lossy(text));
    fields.iter().map(word).collect::<Vec<_>>().join(" ")
}

#[test]
fn each_row() {
    let (count, rows) = rows();
    assert_eq!(rows.len(), count);
    let is_skipped = |row: &&Fields| texts(row, "not").contains(&b"rust".as_slice());
    let mut ran = 0;
    for row in rows.iter().filter(|row| !is_skipped(row)) {
        for answer in answers(row) {
            assert!(
                is_answered(row, &answer),
                "{}\n{}",
                shown(row),
                shown(&answer)
            );
        }
        ran += 1;
    }
    println!("{ran} rows by Rust, {} not", count - ran);
}
