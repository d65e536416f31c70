//! The same task in plain Rust: `plain_select COLUMN LO HI` reads a table of
//! whole numbers and texts, comma-separated, from standard input, keeps the
//! rows with LO <= COLUMN < HI and writes them in rising order of the first
//! column, every field in quotes. It is the yardstick of `select.sh`.
//!
//! It takes the whole input, splits it at line ends and commas, and keeps the
//! rows in a `BTreeMap`. It reads no quoted fields.

use std::collections::BTreeMap;
use std::fmt;
use std::io::{self, Read, Write};
use std::process::ExitCode;

const LIMIT: u64 = 67_108_864;

#[derive(Clone, Copy)]
enum Kind {
    Int,
    Text,
}

#[derive(Clone, PartialEq, Eq, PartialOrd, Ord)]
enum Cell {
    Int(i64),
    Text(String),
}

impl fmt::Display for Cell {
    fn fmt(&self, f: &mut fmt::Formatter) -> fmt::Result {
        match self {
            Cell::Int(number) => number.fmt(f),
            Cell::Text(text) => text.fmt(f),
        }
    }
}

fn column(field: &[u8]) -> Option<(&[u8], Kind)> {
    match field.strip_suffix(b":int") {
        Some(name) => Some((name, Kind::Int)),
        None => Some((field.strip_suffix(b":text")?, Kind::Text)),
    }
}

fn cell(kind: Kind, field: &[u8]) -> Option<Cell> {
    let text = std::str::from_utf8(field).ok()?;
    match kind {
        Kind::Int => Some(Cell::Int(text.parse().ok()?)),
        Kind::Text => Some(Cell::Text(text.to_string())),
    }
}

fn select(text: &[u8], name: &str, low: i64, high: i64) -> Option<Vec<u8>> {
    let mut lines = text.split(|b| *b == b'\n').filter(|line| !line.is_empty());
    let columns: Option<Vec<_>> = lines.next()?.split(|b| *b == b',').map(column).collect();
    let columns = columns?;
    let place = columns.iter().position(|(label, _)| *label == name.as_bytes())?;
    let mut rows = BTreeMap::new();
    for line in lines {
        let fields = line.split(|b| *b == b',').zip(&columns);
        let row: Option<Vec<Cell>> = fields.map(|(field, (_, kind))| cell(*kind, field)).collect();
        let row = row.filter(|row| row.len() == columns.len())?;
        if rows.insert(row[0].clone(), row).is_some() {
            return None;
        }
    }
    let mut out = Vec::new();
    put_line(&mut out, columns.iter().map(|(label, _)| String::from_utf8_lossy(label)));
    for row in rows.values() {
        if Cell::Int(low) <= row[place] && row[place] < Cell::Int(high) {
            put_line(&mut out, row.iter());
        }
    }
    Some(out)
}

fn put_line<T: fmt::Display>(out: &mut Vec<u8>, fields: impl Iterator<Item = T>) {
    for (i, field) in fields.enumerate() {
        let comma = if i > 0 { "," } else { "" };
        let _ = write!(out, "{comma}\"{field}\"");
    }
    out.push(b'\n');
}

fn main() -> ExitCode {
    let words: Vec<String> = std::env::args().skip(1).collect();
    let [column, low, high] = words.as_slice() else {
        return ExitCode::from(2);
    };
    let (Ok(low), Ok(high)) = (low.parse(), high.parse()) else {
        return ExitCode::from(2);
    };
    let mut text = Vec::new();
    let read = io::stdin().lock().take(LIMIT + 1).read_to_end(&mut text);
    if read.is_err() || text.len() as u64 > LIMIT {
        return ExitCode::from(3);
    }
    match select(&text, column, low, high) {
        Some(out) if io::stdout().lock().write_all(&out).is_ok() => ExitCode::SUCCESS,
        Some(_) => ExitCode::from(4),
        None => ExitCode::from(10),
    }
}
