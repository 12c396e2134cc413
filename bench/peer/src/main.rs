//! The commands of odb_batch without options as a plain Rust program over the tree of serde_json, to compare costs.

mod batch;
mod plan;
mod run;

use std::error::Error;
use std::io::{self, BufWriter, Write};
use std::{env, fs, process};

use serde::{Serialize, Serializer};
use serde_json::{Map, Value};

const MAX_BYTES: usize = 16_777_216;

/// A fault is its line.
type Checked<T> = Result<T, Box<dyn Error>>;

/// Names in lower case, in byte order, with their values.
type Headers<'a> = Vec<(String, &'a str)>;

fn whole(rule: &str, document: &str) -> Box<dyn Error> {
    format!("fault {rule} {document}").into()
}

fn at(rule: &str, list: &str, position: usize) -> Box<dyn Error> {
    format!("fault {rule} /{list}/{position}").into()
}

/// The value of a member, unless it is missing or null.
fn present<'a>(members: &'a Map<String, Value>, name: &str) -> Option<&'a Value> {
    members.get(name).filter(|value| !value.is_null())
}

fn text<'a>(members: &'a Map<String, Value>, name: &str) -> Option<&'a str> {
    members.get(name).and_then(Value::as_str)
}

fn is_whole(value: &Value) -> bool {
    match value {
        Value::Number(number) => !number.is_f64(),
        Value::Array(elements) => elements.iter().all(is_whole),
        Value::Object(members) => members.values().all(is_whole),
        _ => true,
    }
}

fn read_headers(value: Option<&Value>) -> Result<Headers<'_>, &'static str> {
    let Some(value) = value else { return Ok(Vec::new()) };
    let given = value.as_object().ok_or("F18 BadHeaders")?;
    let mut headers = Vec::with_capacity(given.len());
    for (name, value) in given {
        headers.push((name.to_ascii_lowercase(), value.as_str().ok_or("F18 BadHeaders")?));
    }
    headers.sort_unstable();
    if headers.windows(2).any(|pair| pair[0].0 == pair[1].0) {
        return Err("F19 HeaderTwice");
    }
    Ok(headers)
}

fn as_map<S: Serializer>(headers: &Headers, serializer: S) -> Result<S::Ok, S::Error> {
    serializer.collect_map(headers.iter().map(|(name, value)| (name, value)))
}

/// Writes a document with one member, an array, without a list of its elements.
fn write_list<T: Serialize>(out: &mut impl Write, name: &str, elements: impl Iterator<Item = T>) -> Checked<()> {
    write!(out, "{{\"{name}\":[")?;
    for (k, element) in elements.enumerate() {
        out.write_all(if k == 0 { b"" } else { b"," })?;
        serde_json::to_writer(&mut *out, &element)?;
    }
    Ok(out.write_all(b"]}\n")?)
}

/// Reads a document, which lives until the program ends.
fn read(path: &str, document: &str) -> Checked<&'static Value> {
    let bytes = fs::read(path)?;
    if bytes.len() > MAX_BYTES {
        return Err(whole("F01 TooLong", document));
    }
    let value = serde_json::from_slice(&bytes).map_err(|_| whole("F02 NotJson", document))?;
    Ok(Box::leak(Box::new(value)))
}

fn answer(words: &[&str], out: &mut impl Write) -> Checked<()> {
    let [command, batch, others @ ..] = words else { return Err("usage: peer COMMAND FILE [SECOND]".into()) };
    let requests = batch::read_batch(read(batch, "batch")?)?;
    let plan = plan::check(requests)?;
    match (*command, others) {
        ("check", []) => Ok(writeln!(out, "ok {} requests {} groups", plan.requests.len(), plan.group_count)?),
        ("plan", []) => plan::write_plan(&plan, out),
        ("canon", []) => batch::write_canonical(&plan.requests, out),
        ("match", [second]) => plan::match_responses(&plan, read(second, "responses")?, out),
        ("replay", [second]) => run::replay(&plan, read(second, "outcomes")?, out),
        ("run", [second]) => run::run(&plan, read(second, "events")?, out),
        _ => Err(format!("{words:?} is not a command with its documents").into()),
    }
}

fn main() {
    let words: Vec<String> = env::args().skip(1).collect();
    let words: Vec<&str> = words.iter().map(String::as_str).collect();
    let mut out = BufWriter::new(io::stdout().lock());
    let refused = answer(&words, &mut out).and_then(|()| Ok(out.flush()?)).err();
    if let Some(fault) = &refused {
        println!("{fault}");
    }
    process::exit(refused.is_some().into());
}
