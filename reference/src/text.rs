//! Records as text, for people: one record a line, the name of its kind and
//! then its numbers in decimal, as in `first 1 0 110`. Blank lines and what
//! follows a `#` are skipped.
//!
//! - `line_of`: a record as a line
//! - `record_of`: a line as a record, if it is one
//! - `encode`: text to bytes
//! - `decode`: bytes to text, up to the first damage

use crate::stream::{spaced, Field, Record, Records, FORMS};

const COMMENT: char = '#';

pub fn line_of(record: &Record) -> String {
    format!("{}{}", record.form().name, spaced(&record.numbers()))
}

/// The record on a line, nothing for a blank line, or what is wrong with it.
pub fn record_of(line: &str) -> Result<Option<Record>, String> {
    let mut words = line.split(COMMENT).next().unwrap_or("").split_whitespace();
    let name = match words.next() {
        Some(name) => name,
        None => return Ok(None),
    };
    let form = FORMS
        .iter()
        .find(|form| form.name == name)
        .ok_or_else(|| format!("no kind is called {name}"))?;
    let words: Vec<&str> = words.collect();
    if words.len() != form.fields.len() {
        let wanted: Vec<&str> = form.fields.iter().map(|field| field.name).collect();
        return Err(format!("{name} takes [{}], not {} numbers", wanted.join(" "), words.len()));
    }
    let numbers: Result<Vec<u32>, String> =
        form.fields.iter().zip(words).map(|(field, word)| number_of(field, word)).collect();
    Ok(Some(Record::from_numbers(form, &numbers?)))
}

/// Decimal digits whose number fits the field.
fn number_of(field: &Field, word: &str) -> Result<u32, String> {
    let largest = u32::MAX >> (u32::BITS - 8 * field.bytes as u32);
    let digits_only = word.bytes().all(|byte| byte.is_ascii_digit());
    word.parse()
        .ok()
        .filter(|&number: &u32| digits_only && number <= largest)
        .ok_or_else(|| format!("{} {word} is not a number from 0 to {largest}", field.name))
}

/// The bytes of all records, or the first line that is none.
pub fn encode(text: &str) -> Result<Vec<u8>, String> {
    let mut bytes = Vec::new();
    for (index, line) in text.lines().enumerate() {
        let record = record_of(line).map_err(|fault| format!("line {}: {fault}", index + 1))?;
        bytes.extend(record.iter().flat_map(Record::to_bytes));
    }
    Ok(bytes)
}

/// The lines of all records before any damage, and where the damage is.
pub fn decode(bytes: &[u8]) -> (String, Result<(), String>) {
    let mut text = String::new();
    for (offset, record) in Records::new(bytes) {
        match record {
            Ok(record) => text += &(line_of(&record) + "\n"),
            Err(damage) => return (text, Err(format!("byte {offset}: {damage}"))),
        }
    }
    (text, Ok(()))
}
