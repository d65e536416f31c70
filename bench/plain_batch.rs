//! The same task in plain Rust: `plain_batch TIMES` makes the body of a batch of 20,000 lines with the columns
//! `sid:int,station:text,depth:int`, reads it as often as it is told, and writes how many lines there were the last time, or 0
//! where it was none. It is the yardstick of `batch.sh`.
//!
//! It splits the body at line ends and commas, copies each text once, and sorts the keys once. It reads no quoted
//! fields.

use std::hint::black_box;
use std::process::ExitCode;

#[derive(Clone, Copy)]
enum Kind {
    Int,
    Text,
}

const COLUMNS: [(&str, Kind); 3] = [("sid", Kind::Int), ("station", Kind::Text), ("depth", Kind::Int)];

#[derive(PartialEq, Eq, PartialOrd, Ord)]
enum Value {
    Int(i64),
    Text(Vec<u8>),
}

enum Line {
    Put(Vec<Value>),
    Change(Vec<Value>),
    Remove(Value),
}

impl Line {
    fn key(&self) -> &Value {
        match self {
            Line::Put(row) | Line::Change(row) => &row[0],
            Line::Remove(key) => key,
        }
    }
}

fn value(kind: Kind, field: &[u8]) -> Option<Value> {
    match kind {
        Kind::Int => Some(Value::Int(std::str::from_utf8(field).ok()?.parse().ok()?)),
        Kind::Text if field.len() > 65_535 => None,
        Kind::Text => Some(Value::Text(field.to_vec())),
    }
}

fn row(fields: &[&[u8]]) -> Option<Vec<Value>> {
    COLUMNS.iter().zip(fields).map(|((_, kind), field)| value(*kind, field)).collect()
}

fn line<'a>(text: &'a [u8], fields: &mut Vec<&'a [u8]>) -> Option<Line> {
    fields.clear();
    fields.extend(text.split(|b| *b == b','));
    let (op, fields) = fields.split_first()?;
    if fields.len() != COLUMNS.len() {
        return None;
    }
    match *op {
        b"+" => Some(Line::Put(row(fields)?)),
        b"~" => Some(Line::Change(row(fields)?)),
        b"-" if fields[1..].iter().all(|field| field.is_empty()) => {
            Some(Line::Remove(value(COLUMNS[0].1, fields[0])?))
        }
        _ => None,
    }
}

fn read_batch(body: &[u8]) -> Option<Vec<Line>> {
    let mut texts = body.split(|b| *b == b'\n').filter(|text| !text.is_empty());
    let mut head = texts.next()?.split(|b| *b == b',');
    let is_header = head.next() == Some(b"op".as_slice()) && head.eq(COLUMNS.iter().map(|(name, _)| name.as_bytes()));
    if !is_header {
        return None;
    }
    let (mut lines, mut fields) = (Vec::new(), Vec::new());
    for text in texts {
        if lines.len() == 20_000 {
            return None;
        }
        lines.push(line(text, &mut fields)?);
    }
    let mut keys: Vec<&Value> = lines.iter().map(Line::key).collect();
    keys.sort_unstable();
    if lines.is_empty() || keys.windows(2).any(|pair| pair[0] == pair[1]) {
        return None;
    }
    Some(lines)
}

// Lines that put the keys from 0 to 19,999, each with a name and a depth.
fn body() -> Vec<u8> {
    let mut body = b"op,sid,station,depth\n".to_vec();
    for key in 0..20_000u32 {
        body.extend_from_slice(format!("+,{key},Station {key},{}\n", key % 100).as_bytes());
    }
    body
}

fn main() -> ExitCode {
    let Some(Ok(times)) = std::env::args().nth(1).map(|word| word.parse::<u64>()) else {
        return ExitCode::from(2);
    };
    let body = body();
    let mut count = 0;
    for _ in 0..times {
        count = read_batch(black_box(&body)).map_or(0, |lines| black_box(lines).len());
    }
    println!("{count}");
    ExitCode::SUCCESS
}
