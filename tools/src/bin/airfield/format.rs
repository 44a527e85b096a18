//! The text of the files that keep a random list and an airfield's end.
//!
//! The first line names kind and version, then comes a line a field, the last line is a checksum over all bytes before it:
//!
//! ```text
//! cutawheno end 2
//! list 00112233445566778899aabbccddeeff    the list's identity: drawn with the list, not made from it
//! plan 3 2 1 1
//! airfield 1
//! round 7                                  the one that its key belongs to
//! use signed                               of its figures; no such line in an end of counts
//! stage answered 5                         or: fresh, sent
//! key 100 154 220 340
//! message 110                              what was sent; no such line while fresh
//! checksum 89abcdef
//! ```
//!
//! A list has the kind `list`, the fields list, plan, ends (the set of the airfields whose ends were made from it), round (of those ends;
//! no such line while there are none) and elements. The checksum is CRC-32 (ISO 3309), which differs after every change of up to 32 bits in
//! a row, so after every change of one byte. It finds accidents; it keeps out nobody who wants to forge a file.
//! Reading is strict: a file is read only if writing what was read gives the same bytes again. Files of version 1 tell no round, and are
//! not read.
//!
//! - `Identity`, `List`, `Made`, `End`, `Stage`: what the files hold
//! - `List::text`, `List::read`, `End::text`, `End::read`: to bytes and back
//! - `List::head`, `End::head`: how every file of this list or end begins, whatever came after
//! - `known`: whether bytes begin as a list or an end of any version

use cutawheno::{Plan, Use};
use std::fmt;

const LIST: &str = "list";
const END: &str = "end";
const VERSION: &str = "2";
const SIGNED: &str = "use signed\n";
const CHECKSUM: &str = "checksum ";
/// Digits of a checksum and the line's end.
const CHECKSUM_TAIL: usize = 9;
/// The largest element.
pub const LARGEST: u16 = 65520;

/// Of a random list: 16 bytes.
#[derive(Clone, Copy, PartialEq, Eq)]
pub struct Identity(pub [u8; 16]);

impl Identity {
    /// Enough of it to tell a mix-up.
    pub fn short(&self) -> String {
        self.to_string()[..8].to_string()
    }

    fn read(text: &str) -> Option<Identity> {
        u128::from_str_radix(text, 16).ok().map(|number| Identity(number.to_be_bytes()))
    }
}

impl fmt::Display for Identity {
    fn fmt(&self, out: &mut fmt::Formatter) -> fmt::Result {
        self.0.iter().try_for_each(|byte| write!(out, "{byte:02x}"))
    }
}

pub struct List {
    pub identity: Identity,
    pub plan: Plan,
    /// What was made from it, if anything.
    pub made: Option<Made>,
    pub elements: Vec<u16>,
}

/// The ends made from a list: all have one round.
#[derive(Clone, Copy)]
pub struct Made {
    /// The set of their airfields, never empty.
    pub ends: u32,
    pub round: u32,
}

pub struct End {
    pub list: Identity,
    pub plan: Plan,
    pub airfield: u32,
    /// The one that its key belongs to.
    pub round: u32,
    pub usage: Use,
    pub key: Vec<u16>,
    pub stage: Stage,
}

/// An end keeps what it sent, so that the same can be asked again.
pub enum Stage {
    Fresh,
    Sent { message: Vec<u16> },
    Answered { message: Vec<u16>, set: u32 },
}

impl List {
    /// How every file of this list begins, whatever was made from it.
    pub fn head(&self) -> String {
        format!("{}list {}\nplan {}\n", first_line(LIST), self.identity, numbers(&self.plan))
    }

    /// The set of the airfields whose ends were made from it.
    pub fn ends(&self) -> u32 {
        self.made.map_or(0, |made| made.ends)
    }

    pub fn text(&self) -> String {
        let round = self.made.map(|made| format!("round {}\n", made.round)).unwrap_or_default();
        sealed(format!("{}ends {}\n{round}elements{}\n", self.head(), self.ends(), spaced(&self.elements)))
    }

    pub fn read(bytes: &[u8]) -> Result<List, String> {
        let mut fields = Fields::new(bytes, LIST)?;
        let identity = fields.take("list", Identity::read)?;
        let plan = fields.take("plan", plan)?;
        let made = match fields.take("ends", number)? {
            0 => None,
            ends => Some(Made { ends, round: fields.take("round", number)? }),
        };
        let list = List { identity, plan, made, elements: fields.take("elements", elements)? };
        as_written(bytes, &list.text())?;
        wanted_count("elements", list.elements.len(), list.plan.list_len())?;
        match list.ends() >> list.plan.users {
            0 => Ok(list),
            _ => Err(format!("ends {} is no set of its plan", list.ends())),
        }
    }
}

impl End {
    pub fn head(&self) -> String {
        let End { list, plan, airfield, round, .. } = self;
        let usage = match self.usage {
            Use::Counts => "",
            Use::Signed => SIGNED,
        };
        format!("{}list {list}\nplan {}\nairfield {airfield}\nround {round}\n{usage}", first_line(END), numbers(plan))
    }

    pub fn text(&self) -> String {
        let stage = match &self.stage {
            Stage::Fresh => "fresh".to_string(),
            Stage::Sent { .. } => "sent".to_string(),
            Stage::Answered { set, .. } => format!("answered {set}"),
        };
        let message = self.message().map(|message| format!("message{}\n", spaced(message))).unwrap_or_default();
        sealed(format!("{}stage {stage}\nkey{}\n{message}", self.head(), spaced(&self.key)))
    }

    /// What it has sent.
    pub fn message(&self) -> Option<&[u16]> {
        match &self.stage {
            Stage::Fresh => None,
            Stage::Sent { message } | Stage::Answered { message, .. } => Some(message),
        }
    }

    pub fn read(bytes: &[u8]) -> Result<End, String> {
        let mut fields = Fields::new(bytes, END)?;
        let list = fields.take("list", Identity::read)?;
        let plan = fields.take("plan", plan)?;
        let airfield = fields.take("airfield", number)?;
        let round = fields.take("round", number)?;
        let usage = if fields.pass(SIGNED) { Use::Signed } else { Use::Counts };
        let stage = fields.take("stage", |text| Some(text.to_string()))?;
        let key = fields.take("key", elements)?;
        let mut message = || fields.take("message", elements);
        let stage = match stage.split_once(' ') {
            None if stage == "fresh" => Stage::Fresh,
            None if stage == "sent" => Stage::Sent { message: message()? },
            Some(("answered", set)) => Stage::Answered { message: message()?, set: number(set).ok_or("its stage names no set")? },
            _ => return Err("it has no stage that this tool knows".to_string()),
        };
        let end = End { list, plan, airfield, round, usage, key, stage };
        as_written(bytes, &end.text())?;
        end.fits()?;
        Ok(end)
    }

    /// Whether all of it belongs to one plan.
    fn fits(&self) -> Result<(), String> {
        wanted_count("elements of its key", self.key.len(), self.plan.key_len())?;
        if let Some(message) = self.message() {
            wanted_count("elements of its message", message.len(), self.plan.row_len())?;
        }
        if self.airfield == 0 || self.airfield > self.plan.users {
            return Err(format!("airfield {} is not among 1 to {}", self.airfield, self.plan.users));
        }
        match self.stage {
            Stage::Answered { set, .. } if set >> self.plan.users != 0 || set >> (self.airfield - 1) & 1 == 0 => {
                Err(format!("set {set} is none that airfield {} can answer", self.airfield))
            }
            _ => Ok(()),
        }
    }
}

pub fn known(bytes: &[u8]) -> bool {
    [LIST, END].iter().any(|kind| bytes.starts_with(format!("cutawheno {kind} ").as_bytes()))
}

fn first_line(kind: &str) -> String {
    format!("cutawheno {kind} {VERSION}\n")
}

/// The fields of a file, in their order.
struct Fields<'a> {
    lines: std::str::Lines<'a>,
}

impl<'a> Fields<'a> {
    /// Of a file of this kind whose checksum is right.
    fn new(bytes: &'a [u8], kind: &str) -> Result<Fields<'a>, String> {
        kind_and_version(bytes, kind)?;
        let at = bytes.len().saturating_sub(CHECKSUM.len() + CHECKSUM_TAIL);
        let (body, seal) = bytes.split_at(at);
        if !seal.starts_with(CHECKSUM.as_bytes()) || !body.ends_with(b"\n") || !seal.ends_with(b"\n") {
            return Err("it is cut short, or something stands behind its end: its last line is no checksum".to_string());
        }
        if seal != seal_of(body).as_bytes() {
            return Err("it is damaged: its checksum is not that of its bytes".to_string());
        }
        let body = std::str::from_utf8(body).map_err(|_| "it is no text".to_string())?;
        let mut lines = body.lines();
        lines.next();
        Ok(Fields { lines })
    }

    fn take<T>(&mut self, name: &str, read: impl FnOnce(&str) -> Option<T>) -> Result<T, String> {
        let text = self.lines.next().and_then(|line| line.strip_prefix(name)?.strip_prefix(' '));
        text.and_then(read).ok_or_else(|| format!("its field {name} is not where it should be, or not as it should be"))
    }

    /// Whether the next line is this one, which is then passed.
    fn pass(&mut self, line: &str) -> bool {
        let is_next = self.lines.clone().next() == Some(line.trim_end());
        if is_next {
            self.lines.next();
        }
        is_next
    }
}

fn kind_and_version(bytes: &[u8], kind: &str) -> Result<(), String> {
    let wanted = first_line(kind);
    if bytes.starts_with(wanted.as_bytes()) {
        return Ok(());
    }
    let line = bytes.split(|&byte| byte == b'\n').next().unwrap_or_default();
    let words: Vec<&str> = std::str::from_utf8(line).unwrap_or_default().split(' ').collect();
    Err(match words[..] {
        ["cutawheno", found, version] if found == kind && version.bytes().all(|byte| byte.is_ascii_digit()) && version != VERSION => {
            format!("it is of version {version}, and this tool reads version {VERSION}")
        }
        ["cutawheno", found @ (LIST | END), _] if found != kind => format!("it is of the kind {found}, and the kind {kind} is wanted"),
        _ => format!("it is no file of the kind {kind}, or damaged: its first line is not {}", wanted.trim_end()),
    })
}

/// The one text for what was read, to the byte.
fn as_written(bytes: &[u8], text: &str) -> Result<(), String> {
    if bytes == text.as_bytes() {
        Ok(())
    } else {
        Err("it has fields or spaces that this version has not".to_string())
    }
}

fn wanted_count(what: &str, found: usize, wanted: usize) -> Result<(), String> {
    if wanted == 0 {
        Err("its plan is outside its ranges".to_string())
    } else if found != wanted {
        Err(format!("{found} {what}, and its plan has {wanted}"))
    } else {
        Ok(())
    }
}

fn sealed(body: String) -> String {
    let seal = seal_of(body.as_bytes());
    body + &seal
}

fn seal_of(body: &[u8]) -> String {
    format!("{CHECKSUM}{:08x}\n", checksum(body))
}

/// CRC-32 as in ISO 3309: bits from the lowest, begun and ended with ones.
fn checksum(bytes: &[u8]) -> u32 {
    const POLYNOMIAL: u32 = 0xedb88320;
    !bytes.iter().fold(u32::MAX, |sum, &byte| {
        (0..8).fold(sum ^ u32::from(byte), |sum, _| if sum & 1 == 1 { sum >> 1 ^ POLYNOMIAL } else { sum >> 1 })
    })
}

fn plan(text: &str) -> Option<Plan> {
    let numbers: Option<Vec<u32>> = text.split(' ').map(number).collect();
    match numbers?[..] {
        [users, threshold, collusion, blocks] => Some(Plan { users, threshold, collusion, blocks }),
        _ => None,
    }
}

/// K U T M, as the tool writes a plan everywhere.
pub fn numbers(plan: &Plan) -> String {
    let Plan { users, threshold, collusion, blocks } = plan;
    format!("{users} {threshold} {collusion} {blocks}")
}

fn number(text: &str) -> Option<u32> {
    text.parse().ok()
}

fn elements(text: &str) -> Option<Vec<u16>> {
    text.split(' ').map(|word| word.parse().ok().filter(|&element| element <= LARGEST)).collect()
}

/// Each number led by one space.
fn spaced(numbers: &[u16]) -> String {
    numbers.iter().map(|number| format!(" {number}")).collect()
}
