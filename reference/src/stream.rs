//! "The stream": bytes to records with their offsets, and the printed lines.
//!
//! - `Field`, `Form`, `FORMS`: the table of kinds
//! - `Record`: a record of any kind
//! - `to_bytes`: records to bytes
//! - `Damage`: why bytes are no record, the two halves of refusal 7
//! - `Records`: the records of a stream one by one, each with its offset
//! - `run`: the program, from the bytes it reads to the lines it prints
//! - `spaced`: numbers as the lines show them

use crate::field::Element;
use crate::refusal::Refusal;
use crate::service::{Finished, Service};
use std::fmt::{self, Display};

/// A number in a body, low byte first.
pub struct Field {
    pub name: &'static str,
    pub bytes: usize,
}

/// One line of the table of kinds.
pub struct Form {
    pub kind: u8,
    pub name: &'static str,
    pub fields: &'static [Field],
}

const fn field(name: &'static str, bytes: usize) -> Field {
    Field { name, bytes }
}

pub const PLAN: u8 = 0x01;
pub const OPEN: u8 = 0x02;
pub const FIRST: u8 = 0x03;
pub const CLOSE: u8 = 0x04;
pub const REPLY: u8 = 0x05;
pub const FINISH: u8 = 0x06;

pub const FORMS: [Form; 6] = [
    Form {
        kind: PLAN,
        name: "plan",
        fields: &[field("K", 1), field("U", 1), field("T", 1), field("M", 1)],
    },
    Form { kind: OPEN, name: "open", fields: &[field("round", 4)] },
    Form {
        kind: FIRST,
        name: "first",
        fields: &[field("airfield", 1), field("place", 2), field("element", 2)],
    },
    Form { kind: CLOSE, name: "close", fields: &[] },
    Form {
        kind: REPLY,
        name: "reply",
        fields: &[field("airfield", 1), field("block", 1), field("element", 2)],
    },
    Form { kind: FINISH, name: "finish", fields: &[] },
];

impl Form {
    pub fn body_length(&self) -> usize {
        self.fields.iter().map(|field| field.bytes).sum()
    }

    fn of_kind(kind: u8) -> Option<&'static Form> {
        FORMS.iter().find(|form| form.kind == kind)
    }
}

#[derive(Clone, Copy, Debug, PartialEq, Eq)]
pub enum Record {
    Plan([u8; 4]),
    Open(u32),
    First { airfield: u8, place: u16, element: Element },
    Close,
    Reply { airfield: u8, block: u8, element: Element },
    Finish,
}

impl Record {
    pub fn kind(&self) -> u8 {
        match self {
            Record::Plan(_) => PLAN,
            Record::Open(_) => OPEN,
            Record::First { .. } => FIRST,
            Record::Close => CLOSE,
            Record::Reply { .. } => REPLY,
            Record::Finish => FINISH,
        }
    }

    pub fn form(&self) -> &'static Form {
        Form::of_kind(self.kind()).expect("every record has a form")
    }

    /// The numbers of the body, in the order of the form's fields.
    pub fn numbers(&self) -> Vec<u32> {
        match *self {
            Record::Plan(numbers) => numbers.map(u32::from).to_vec(),
            Record::Open(round) => vec![round],
            Record::First { airfield, place, element } => {
                vec![airfield.into(), place.into(), element.into()]
            }
            Record::Reply { airfield, block, element } => {
                vec![airfield.into(), block.into(), element.into()]
            }
            Record::Close | Record::Finish => vec![],
        }
    }

    /// The record of a form with these numbers, each within its field's width.
    pub fn from_numbers(form: &Form, numbers: &[u32]) -> Record {
        let byte = |index: usize| numbers[index] as u8;
        let pair = |index: usize| numbers[index] as u16;
        match form.kind {
            PLAN => Record::Plan([byte(0), byte(1), byte(2), byte(3)]),
            OPEN => Record::Open(numbers[0]),
            FIRST => Record::First { airfield: byte(0), place: pair(1), element: pair(2) },
            CLOSE => Record::Close,
            REPLY => Record::Reply { airfield: byte(0), block: byte(1), element: pair(2) },
            FINISH => Record::Finish,
            other => unreachable!("no form has kind {other}"),
        }
    }

    pub fn to_bytes(&self) -> Vec<u8> {
        let body = self
            .form()
            .fields
            .iter()
            .zip(self.numbers())
            .flat_map(|(field, number)| number.to_le_bytes().into_iter().take(field.bytes));
        [self.kind()].into_iter().chain(body).collect()
    }
}

/// All records one after the other.
pub fn to_bytes(records: &[Record]) -> Vec<u8> {
    records.iter().flat_map(Record::to_bytes).collect()
}

#[derive(Clone, Copy, Debug, PartialEq, Eq)]
pub enum Damage {
    UnknownKind(u8),
    CutShort { kind: u8, needed: usize, found: usize },
}

impl Display for Damage {
    fn fmt(&self, out: &mut fmt::Formatter) -> fmt::Result {
        match self {
            Damage::UnknownKind(kind) => write!(out, "unknown kind {kind:02X}"),
            Damage::CutShort { kind, needed, found } => {
                write!(out, "kind {kind:02X} cut short: {found} of {needed} body bytes")
            }
        }
    }
}

/// The records of a stream, each with its byte offset. Damage comes last.
pub struct Records<'a> {
    bytes: &'a [u8],
    offset: usize,
}

impl Records<'_> {
    pub fn new(bytes: &[u8]) -> Records<'_> {
        Records { bytes, offset: 0 }
    }
}

impl Iterator for Records<'_> {
    type Item = (usize, Result<Record, Damage>);

    fn next(&mut self) -> Option<Self::Item> {
        let offset = self.offset;
        let rest = &self.bytes[offset..];
        let (&kind, body) = rest.split_first()?;
        let result = read(kind, body);
        self.offset = match result {
            Ok(record) => offset + 1 + record.form().body_length(),
            Err(_) => self.bytes.len(),
        };
        Some((offset, result))
    }
}

/// The record of this kind at the start of `body`.
fn read(kind: u8, body: &[u8]) -> Result<Record, Damage> {
    let form = Form::of_kind(kind).ok_or(Damage::UnknownKind(kind))?;
    let needed = form.body_length();
    if body.len() < needed {
        return Err(Damage::CutShort { kind, needed, found: body.len() });
    }
    let mut rest = body;
    let mut numbers = Vec::new();
    for field in form.fields {
        let (low_first, after) = rest.split_at(field.bytes);
        numbers.push(low_first.iter().rev().fold(0, |number, &byte| number << 8 | u32::from(byte)));
        rest = after;
    }
    Ok(Record::from_numbers(form, &numbers))
}

/// The lines printed for a whole stream, each ended by a newline. It goes on
/// after a refusal; damage ends it, because nothing follows damage.
pub fn run(bytes: &[u8]) -> String {
    let mut service = Service::default();
    let mut lines = String::new();
    for (offset, record) in Records::new(bytes) {
        let answer = record
            .map_err(|_| Refusal::DamagedRecord)
            .and_then(|record| take(&mut service, record));
        match answer {
            Ok(printed) => lines.extend(printed.iter().map(|line| format!("{line}\n"))),
            Err(refusal) => lines += &format!("refused {} at {offset}\n", refusal.number()),
        }
    }
    lines
}

/// Gives one record to the service; the lines that it prints.
fn take(service: &mut Service, record: Record) -> Result<Vec<String>, Refusal> {
    match record {
        Record::Plan(numbers) => {
            service.plan(numbers)?;
            Ok(vec![format!("plan{}", spaced(&numbers))])
        }
        Record::Open(round) => {
            service.open(round)?;
            Ok(vec![format!("open {round}")])
        }
        Record::First { airfield, place, element } => {
            service.first_element(airfield, place, element)?;
            Ok(vec![])
        }
        Record::Close => {
            let (round, survivors) = service.close()?;
            Ok(vec![format!("survivors {round} {survivors}")])
        }
        Record::Reply { airfield, block, element } => {
            service.reply_element(airfield, block, element)?;
            Ok(vec![])
        }
        Record::Finish => {
            let Finished { round, aside, totals } = service.finish()?;
            let aside = aside.map(|airfield| format!("aside {round} {airfield}"));
            Ok(aside.into_iter().chain([format!("total {round}{}", spaced(&totals))]).collect())
        }
    }
}

/// Numbers in decimal, each led by one space.
pub fn spaced(numbers: &[impl Display]) -> String {
    numbers.iter().map(|number| format!(" {number}")).collect()
}
