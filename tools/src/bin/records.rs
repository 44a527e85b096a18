//! Records as words, and back.
//!
//! Lines are written as they come: what a line or a record gives is handed on before more input is waited for, so words can feed a
//! running `pool`. A comment that `airfield` writes names the list and the round of a message's key; where two lists meet in one round, or a
//! message is for another round than the one opened last, a warning says so, and the exit status stays as it is: the bytes are right, and
//! whether the messages belong together is not theirs to tell.

use cutawheno_tools::command::{shown, start, Fault, VERSION};
use cutawheno_tools::filter::{each_line, filter, flush, put, Output};
use cutawheno_tools::standard::{self, complain};
use reference::stream::{Damage, Record, Records};
use reference::text::{line_of, record_of};
use std::ffi::OsString;
use std::io::{BufRead, BufReader};
use std::process::ExitCode;

const HELP: &str = "\
records: records of the pooling service as words, and back

  records encode   words on standard input to bytes on standard output
  records decode   bytes on standard input to words on standard output
  records --help, --version

One record a line: its kind and then its numbers in decimal, with white space between.
  plan K U T M | open ROUND | first AIRFIELD PLACE ELEMENT | close | reply AIRFIELD BLOCK ELEMENT | finish
What follows a # is a comment up to the end of its line. Comments and blank lines give no bytes. A record's line has an end, also the
last one: without it the line may have been cut, and is refused.
Each line is handed on as it comes. The first line that is no record, or byte that begins none, ends the run: what stood before it
is written, and nothing behind it. Keys of two lists in one round, and a key of another round than the one opened last, are warned of
where comments of `airfield` tell them.

Exit status: 0 done; 1 a line or record is not right, or reading or writing failed, told on standard error; 2 command line not understood.
";

fn main() -> ExitCode {
    start("records", run)
}

fn run() -> Result<(), Fault> {
    let words: Vec<OsString> = std::env::args_os().skip(1).collect();
    let words: Vec<Option<&str>> = words.iter().map(|word| word.to_str()).collect();
    let convert: fn(&mut Output) -> Result<(), String> = match words[..] {
        _ if words.contains(&Some("--help")) => |output| put(output, HELP.as_bytes()),
        [Some("--version")] => |output| put(output, format!("records {VERSION}\n").as_bytes()),
        [Some("encode")] => encode,
        [Some("decode")] => decode,
        [] => return Err(Fault::usage("no command; records --help tells them".to_string())),
        _ => return Err(Fault::usage("encode or decode is wanted, alone; records --help tells more".to_string())),
    };
    Ok(filter(convert)?)
}

fn encode(output: &mut Output) -> Result<(), String> {
    let mut keys = Keys::default();
    each_line(output, |number, line| {
        let text = String::from_utf8_lossy(line);
        let record = record_of(&text).map_err(|fault| format!("line {number}: {fault}"))?;
        if record.is_some() && !text.ends_with('\n') {
            return Err(format!("line {number} is cut short: it has no end"));
        }
        keys.look(number, &text, &record);
        Ok(record.map(|record| record.to_bytes()).unwrap_or_default())
    })
}

/// The round opened last, and the list that its first comment of `airfield` names, with the lines.
#[derive(Default)]
struct Keys {
    opened: Option<(u64, u32)>,
    named: Option<(u64, String)>,
}

impl Keys {
    fn look(&mut self, number: u64, line: &str, record: &Option<Record>) {
        if let Some(Record::Open(round)) = record {
            *self = Keys { opened: Some((number, *round)), named: None };
        }
        let words: Vec<&str> = line.split_whitespace().collect();
        match words[..] {
            // of an earlier build, which told no round
            ["#", "list", list, "airfield", airfield] => self.look_at_list(number, list, airfield),
            ["#", "list", list, "airfield", airfield, "round", round] => {
                self.look_at_list(number, list, airfield);
                self.look_at_round(number, round, airfield);
            }
            _ => (),
        }
    }

    fn look_at_list(&mut self, number: u64, list: &str, airfield: &str) {
        match &self.named {
            None => self.named = Some((number, list.to_string())),
            Some((_, named)) if named == list => (),
            Some((at, named)) => warn(
                number,
                &format!("airfield {} has a key of list {}, but line {at} names list {}", shown(airfield), shown(list), shown(named)),
                "keys of two lists give no true total",
            ),
        }
    }

    fn look_at_round(&self, number: u64, round: &str, airfield: &str) {
        match self.opened {
            Some((at, opened)) if opened.to_string() != round => warn(
                number,
                &format!("airfield {} has a key for round {}, but line {at} opens round {opened}", shown(airfield), shown(round)),
                "its end answers no set that is announced for this round",
            ),
            _ => (),
        }
    }
}

fn warn(number: u64, found: &str, so: &str) {
    complain(&format!("records: warning: line {number}: {found}: {so}"));
}

fn decode(output: &mut Output) -> Result<(), String> {
    let mut input = BufReader::new(standard::input()?);
    let (mut bytes, mut offset) = (Vec::new(), 0);
    loop {
        let more = input.fill_buf().map_err(|fault| format!("standard input: {fault}"))?;
        let (ended, count) = (more.is_empty(), more.len());
        bytes.extend_from_slice(more);
        input.consume(count);
        let taken = decode_whole(&bytes, offset, ended, output)?;
        offset += taken;
        bytes.drain(..taken);
        flush(output)?;
        if ended {
            return Ok(());
        }
    }
}

/// The lines of the records that are whole, and how many bytes these have. `offset` is that of the first byte.
fn decode_whole(bytes: &[u8], offset: usize, ended: bool, output: &mut Output) -> Result<usize, String> {
    for (at, record) in Records::new(bytes) {
        match record {
            Ok(record) => put(output, (line_of(&record) + "\n").as_bytes())?,
            Err(Damage::CutShort { .. }) if !ended => return Ok(at),
            Err(damage) => return Err(format!("byte {}: {damage}", offset + at)),
        }
    }
    Ok(bytes.len())
}
