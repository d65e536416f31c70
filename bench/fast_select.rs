//! The same task as fast as a plain program does it: `fast_select COLUMN LO HI`. It is the yardstick of
//! `select.sh` for the practical limit, beside `plain_select.rs` for the first program that comes to mind.
//!
//! It reads the fields in place, keeps of each row its key alone, sorts the keys once to find one that
//! comes twice, and keeps and sorts the lines that are chosen. Like `plain_select` it reads no quoted
//! fields, and only says that a table is refused.

use std::io::{self, Read, Write};
use std::process::ExitCode;

const LIMIT: u64 = 67_108_864;

#[derive(Clone, Copy, PartialEq)]
enum Kind {
    Int,
    Text,
}

#[derive(Clone, Copy, PartialEq, Eq, PartialOrd, Ord)]
enum Key<'a> {
    Int(i64),
    Text(&'a [u8]),
}

fn number(field: &[u8]) -> Option<i64> {
    let (negative, digits) = match field {
        [b'-', digits @ ..] => (true, digits),
        [b'+', digits @ ..] => (false, digits),
        digits => (false, digits),
    };
    if digits.is_empty() {
        return None;
    }
    let mut value: i64 = 0;
    for digit in digits {
        let digit = i64::from(digit.wrapping_sub(b'0'));
        if digit > 9 {
            return None;
        }
        let more = if negative { -digit } else { digit };
        value = value.checked_mul(10)?.checked_add(more)?;
    }
    Some(value)
}

fn column(field: &[u8]) -> Option<(&[u8], Kind)> {
    match field.strip_suffix(b":int") {
        Some(name) => Some((name, Kind::Int)),
        None => Some((field.strip_suffix(b":text")?, Kind::Text)),
    }
}

/// The key of a line and the number in a column, where the line is a row.
fn read<'a>(line: &'a [u8], kinds: &[Kind], place: usize) -> Option<(Key<'a>, i64)> {
    let (mut key, mut chosen_by, mut count) = (Key::Int(0), 0, 0);
    for field in line.split(|b| *b == b',') {
        let value = match kinds.get(count)? {
            Kind::Int => Key::Int(number(field)?),
            Kind::Text => Key::Text(field),
        };
        if count == 0 {
            key = value;
        }
        if let (true, Key::Int(number)) = (count == place, value) {
            chosen_by = number;
        }
        count += 1;
    }
    (count == kinds.len()).then_some((key, chosen_by))
}

fn put_line(out: &mut Vec<u8>, line: &[u8], kinds: &[Kind]) -> Option<()> {
    for (place, field) in line.split(|b| *b == b',').enumerate() {
        out.extend_from_slice(if place > 0 { b",\"" } else { b"\"" });
        match kinds[place] {
            Kind::Int => write!(out, "{}", number(field)?).ok()?,
            Kind::Text => out.extend_from_slice(field),
        }
        out.push(b'"');
    }
    out.push(b'\n');
    Some(())
}

fn select(text: &[u8], name: &str, low: i64, high: i64) -> Option<Vec<u8>> {
    let mut lines = text.split(|b| *b == b'\n').filter(|line| !line.is_empty());
    let columns: Option<Vec<_>> = lines.next()?.split(|b| *b == b',').map(column).collect();
    let (labels, kinds): (Vec<&[u8]>, Vec<Kind>) = columns?.into_iter().unzip();
    let place = labels.iter().position(|label| *label == name.as_bytes())?;
    if kinds[place] != Kind::Int {
        return None;
    }
    let (mut keys, mut chosen) = (Vec::new(), Vec::new());
    for line in lines {
        let (key, number) = read(line, &kinds, place)?;
        keys.push(key);
        if low <= number && number < high {
            chosen.push((key, line));
        }
    }
    keys.sort_unstable();
    if keys.windows(2).any(|pair| pair[0] == pair[1]) {
        return None;
    }
    chosen.sort_unstable();
    let mut out = Vec::new();
    put_line(&mut out, &labels.join(&b','), &vec![Kind::Text; labels.len()])?;
    for (_, line) in chosen {
        put_line(&mut out, line, &kinds)?;
    }
    Some(out)
}

fn main() -> ExitCode {
    let words: Vec<String> = std::env::args().skip(1).collect();
    let [column, low, high] = words.as_slice() else {
        return ExitCode::from(2);
    };
    let (Ok(low), Ok(high)) = (low.parse(), high.parse()) else {
        return ExitCode::from(2);
    };
    let mut text = Vec::new();
    let read = io::stdin().lock().take(LIMIT + 1).read_to_end(&mut text);
    if read.is_err() || text.len() as u64 > LIMIT {
        return ExitCode::from(3);
    }
    match select(&text, column, low, high) {
        Some(out) if io::stdout().lock().write_all(&out).is_ok() => ExitCode::SUCCESS,
        Some(_) => ExitCode::from(4),
        None => ExitCode::from(10),
    }
}
