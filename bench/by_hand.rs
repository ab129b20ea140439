//! Each task of the benchmark, written out by hand over serde_json's `Value`: what a program does that
//! has no query language. Its word is the task's name; `bench/run` builds it. A task over lines takes
//! each line of its input for a document.
use regex::Regex;
use serde_json::Value;
use std::io::{self, BufRead, BufWriter, Read, Write};

type Lines<'a> = &'a mut dyn Write;

/// Writes a value in a line of its own.
fn line(out: Lines, value: &Value) -> io::Result<()> {
    serde_json::to_writer(&mut *out, value)?;
    out.write_all(b"\n")
}

/// The values one step inside.
fn children(value: &Value) -> Box<dyn Iterator<Item = &Value> + '_> {
    match value {
        Value::Array(items) => Box::new(items.iter()),
        Value::Object(members) => Box::new(members.values()),
        _ => Box::new(std::iter::empty()),
    }
}

/// Writes the members of this name of a value and of all inside it.
fn named(out: Lines, value: &Value, name: &str) -> io::Result<()> {
    if let Some(found) = value.get(name) {
        line(out, found)?;
    }
    children(value).try_for_each(|child| named(out, child, name))
}

/// Writes all values inside.
fn inside(out: Lines, value: &Value) -> io::Result<()> {
    children(value).try_for_each(|child| line(out, child))?;
    children(value).try_for_each(|child| inside(out, child))
}

/// Writes the normalized paths of the members of this name of a value at that path and of all inside it. The
/// names of the benchmark have no character that has to be escaped.
fn paths_of_named(out: Lines, value: &Value, name: &str, path: &mut String) -> io::Result<()> {
    let length = path.len();
    match value {
        Value::Array(items) => {
            for (index, item) in items.iter().enumerate() {
                path.push_str(&format!("[{index}]"));
                paths_of_named(out, item, name, path)?;
                path.truncate(length);
            }
        }
        Value::Object(members) => {
            for (key, member) in members {
                path.push_str(&format!("['{key}']"));
                if key == name {
                    writeln!(out, "{path}")?;
                }
                paths_of_named(out, member, name, path)?;
                path.truncate(length);
            }
        }
        _ => (),
    }
    Ok(())
}

/// Writes what `take` gives of each item.
fn of_each<'v>(
    out: Lines,
    list: &'v Value,
    take: impl Fn(&'v Value) -> Option<&'v Value>,
) -> io::Result<()> {
    children(list).filter_map(take).try_for_each(|value| line(out, value))
}

/// The identifiers of records whose text has a part that the pattern matches.
fn matching(out: Lines, list: &Value, name: &str, pattern: &str) -> io::Result<()> {
    let pattern = Regex::new(pattern).expect("a pattern");
    of_each(out, list, |item| {
        let text = item.get(name)?.as_str()?;
        if pattern.is_match(text) { item.get("id") } else { None }
    })
}

fn run(task: &str, value: &Value, out: Lines) -> io::Result<()> {
    match task {
        "parse and print" | "decimals: print" | "random names: print" => line(out, value),
        "$[*].name" | "decimals: $[*].name" => of_each(out, value, |item| item.get("name")),
        "$..price" => named(out, value, "price"),
        "$..*" => inside(out, value),
        "$[?@.price<10].title" => of_each(out, value, |item| {
            if item.get("price")?.as_u64()? < 10 { item.get("title") } else { None }
        }),
        "decimals: filter" => of_each(out, value, |item| {
            if item.get("price")?.as_f64()? < 10.5 { item.get("title") } else { None }
        }),
        "$[?@.a.b==@.c.d]" => of_each(out, value, |item| {
            let (left, right) = (item.get("a")?.get("b")?, item.get("c")?.get("d")?);
            if left == right { Some(item) } else { None }
        }),
        "match of a time stamp" => {
            matching(out, value, "time", "^2026-(0[1-9]|1[0-2])-..T..:..:..Z$")
        }
        "search in a message" => matching(out, value, "message", "timeout|refused"),
        "$[::-1]" => match value {
            Value::Array(items) => items.iter().rev().try_for_each(|item| line(out, item)),
            _ => Ok(()),
        },
        "$.*" | "random names: $.*" => children(value).try_for_each(|child| line(out, child)),
        "$..leaf" => named(out, value, "leaf"),
        "paths of $..leaf" => paths_of_named(out, value, "leaf", &mut String::from("$")),
        _ => Err(io::Error::new(io::ErrorKind::InvalidInput, "no such task")),
    }
}

/// Writes what stands at a pointer of a document in a cell of its own: a text by its characters, of which those
/// that would end the cell are spelled otherwise.
fn cell(out: Lines, value: &Value, pointer: &str) -> io::Result<()> {
    match value.pointer(pointer) {
        None => Ok(()),
        Some(Value::String(text)) if text.contains(['\t', '\n', '\r', '\\']) => {
            let spelled = text.replace('\\', "\\\\").replace('\t', "\\t");
            let spelled = spelled.replace('\n', "\\n").replace('\r', "\\r");
            out.write_all(spelled.as_bytes())
        }
        Some(Value::String(text)) => out.write_all(text.as_bytes()),
        Some(value) => Ok(serde_json::to_writer(out, value)?),
    }
}

type Task = Box<dyn Fn(&Value, &[u8], Lines) -> io::Result<()>>;

/// What is done with the document of each line, and with the line.
fn task_over_lines(task: &str) -> Option<Task> {
    Some(match task {
        "lines: $.user.name" => Box::new(|value, _, out| match value["user"].get("name") {
            Some(name) => line(out, name),
            None => Ok(()),
        }),
        "lines: filter over items" => Box::new(|value, _, out| {
            of_each(out, &value["items"], |item| {
                if item.get("price")?.as_u64()? < 10 { item.get("sku") } else { None }
            })
        }),
        "lines: search over members" => {
            let pattern = Regex::new("timeout|refused").expect("a pattern");
            Box::new(move |value, _, out| {
                of_each(out, value, |member| {
                    if pattern.is_match(member.as_str()?) { Some(member) } else { None }
                })
            })
        }
        "lines: keep" => Box::new(|value, text, out| {
            let is_error = value["level"].as_str() == Some("error");
            if is_error && value["user"]["id"].as_u64().is_some_and(|id| id < 500_000) {
                out.write_all(text)?;
            }
            Ok(())
        }),
        "lines: columns" => Box::new(|value, _, out| {
            cell(out, value, "/id")?;
            for pointer in ["/level", "/user/name", "/message"] {
                out.write_all(b"\t")?;
                cell(out, value, pointer)?;
            }
            out.write_all(b"\n")
        }),
        _ => return None,
    })
}

fn run_over_lines(task: Task, out: Lines) -> io::Result<()> {
    let mut input = io::BufReader::with_capacity(65_536, io::stdin().lock());
    let mut text = Vec::new();
    while input.read_until(b'\n', &mut text)? > 0 {
        task(&serde_json::from_slice(&text)?, &text, out)?;
        text.clear();
    }
    Ok(())
}

fn main() -> io::Result<()> {
    let task = std::env::args().nth(1).unwrap_or_default();
    let mut out = BufWriter::with_capacity(65_536, io::stdout().lock());
    match task_over_lines(&task) {
        Some(task) => run_over_lines(task, &mut out)?,
        None => {
            let mut bytes = Vec::new();
            io::stdin().lock().read_to_end(&mut bytes)?;
            run(&task, &serde_json::from_slice(&bytes)?, &mut out)?;
        }
    }
    out.flush()
}
