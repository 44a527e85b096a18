//! The totals of the pooling service as they are meant.
//!
//! The service knows residues alone, and no line of it tells a use: this reader is told it, and reads each total by the library's call.

use cutawheno::{read_total, Refusal, Use, MOST_PLACES};
use cutawheno_tools::command::{shown, start, use_of, Fault, VERSION};
use cutawheno_tools::filter::{each_line, filter, put};
use reference::scheme::MAX_AIRFIELDS;
use std::ffi::{OsStr, OsString};
use std::os::unix::ffi::OsStrExt;
use std::process::ExitCode;

const HELP: &str = "\
totals: the lines of the pooling service, with the totals as they are meant

  totals counts    lines of `pool` on standard input to the same lines on standard output
  totals signed    the same, and each number behind `total ROUND` that is above 32760 becomes itself less 65521
  totals --help, --version

Say signed where the airfields of the rounds use signed figures (`airfield key LIST AIRFIELD ROUND END signed`): where all do, the numbers
are then their whole-number sums. Where uses are mixed in a round its total has no meaning that can be read off it.
A line `aside ROUND AIRFIELD` passes as it is: the total of that round, which follows it, goes without that airfield's reply, and has its
figures all the same. Lines that begin with another word pass as they are. Each line is handed on as it comes. A line of either kind that
`pool` does not print, with a total above 65520 (3), cut short or otherwise damaged, or an aside without the total of its round behind it,
ends the run: what stood before it is written, and nothing behind it.

Exit status: 0 done; 1 a line is not right, or reading or writing failed, told on standard error; 2 command line not understood.
";

const TOTAL: &str = "total";
const ASIDE: &str = "aside";
const MORE: &str = "totals --help tells more";

fn main() -> ExitCode {
    start("totals", run)
}

fn run() -> Result<(), Fault> {
    let words: Vec<OsString> = std::env::args_os().skip(1).collect();
    if words.iter().any(|word| word == "--help") {
        return Ok(filter(|output| put(output, HELP.as_bytes()))?);
    }
    match &words[..] {
        [word] if word == "--version" => Ok(filter(|output| put(output, format!("totals {VERSION}\n").as_bytes()))?),
        [word] => {
            let usage =
                use_of(word).ok_or_else(|| Fault::usage(format!("counts or signed is wanted, and {} is found; {MORE}", shown(word))))?;
            let mut reader = Reader { usage, awaited: None };
            Ok(filter(|output| {
                each_line(output, |number, line| reader.read(line).map_err(|fault| format!("line {number}: {fault}")))?;
                reader.end()
            })?)
        }
        _ => Err(Fault::usage(format!("counts or signed is wanted, alone; {MORE}"))),
    }
}

/// What a line says.
enum Said {
    /// The round, and the line as it is meant.
    Total(u32, Vec<u8>),
    /// The round.
    Aside(u32),
    Other,
}

/// Reads one line after the other.
struct Reader {
    usage: Use,
    /// The round of an aside: `pool` prints the total of that round right behind it.
    awaited: Option<u32>,
}

impl Reader {
    /// The line as it is meant, or what is wrong with it.
    fn read(&mut self, line: &[u8]) -> Result<Vec<u8>, String> {
        let said = said(self.usage, line)?;
        let is_awaited = |round| matches!(said, Said::Total(of, _) if of == round);
        match self.awaited.take() {
            Some(round) if !is_awaited(round) => return Err(wanted(round)),
            _ => (),
        }
        match said {
            Said::Total(_, read) => return Ok(read),
            Said::Aside(round) => self.awaited = Some(round),
            Said::Other => (),
        }
        Ok(line.to_vec())
    }

    /// Nothing is wrong with the end of the input, or what is.
    fn end(&self) -> Result<(), String> {
        self.awaited.map_or(Ok(()), |round| Err(format!("standard input ends: {}", wanted(round))))
    }
}

fn wanted(round: u32) -> String {
    format!("behind `{ASIDE}` the total of round {round} is wanted")
}

fn said(usage: Use, line: &[u8]) -> Result<Said, String> {
    let first = line.split(u8::is_ascii_whitespace).find(|word| !word.is_empty());
    if first == Some(TOTAL.as_bytes()) {
        total_line(usage, line)
    } else if first == Some(ASIDE.as_bytes()) {
        aside_line(line)
    } else {
        Ok(Said::Other)
    }
}

fn total_line(usage: Use, line: &[u8]) -> Result<Said, String> {
    let (words, end) = words(line)?;
    match &words[..] {
        [word, number, totals @ ..] if *word == TOTAL.as_bytes() && (1..=MOST_PLACES).contains(&totals.len()) => {
            let round = round(number)?;
            let totals = (1..).zip(totals).map(|(at, word)| total(usage, at, word)).collect::<Result<Vec<_>, _>>()?;
            Ok(Said::Total(round, format!("{TOTAL} {round} {}{end}", totals.join(" ")).into_bytes()))
        }
        _ => Err(format!("it is damaged: `{TOTAL}`, a round and 1 to {MOST_PLACES} totals are wanted, with one space between")),
    }
}

fn aside_line(line: &[u8]) -> Result<Said, String> {
    match &words(line)?.0[..] {
        [word, number, airfield] if *word == ASIDE.as_bytes() => {
            let round = round(number)?;
            let airfield = digits("the airfield", airfield)?;
            let known = airfield.parse().map_or(false, |airfield: u8| (1..=MAX_AIRFIELDS).contains(&airfield));
            let told = || format!("it is damaged: the airfield is {}, and one from 1 to {MAX_AIRFIELDS} is wanted", shown(airfield));
            known.then_some(Said::Aside(round)).ok_or_else(told)
        }
        _ => Err(format!("it is damaged: `{ASIDE}`, a round and an airfield are wanted, with one space between")),
    }
}

/// What stands between the spaces of a line, and the line's end.
fn words(line: &[u8]) -> Result<(Vec<&[u8]>, &'static str), String> {
    let text = line.strip_suffix(b"\n").ok_or("it is cut short: it has no end")?;
    let (text, end) = text.strip_suffix(b"\r").map_or((text, "\n"), |text| (text, "\r\n"));
    Ok((text.split(|&byte| byte == b' ').collect(), end))
}

fn round(word: &[u8]) -> Result<u32, String> {
    let digits = digits("the round", word)?;
    digits.parse().map_err(|_| format!("it is damaged: the round is {}, above {}", shown(digits), u32::MAX))
}

/// As it is meant. One too large for 32 bits is refused as the largest of 32 bits is.
fn total(usage: Use, at: usize, word: &[u8]) -> Result<String, String> {
    let digits = digits(&format!("total {at}"), word)?;
    let read = read_total(usage, digits.parse().unwrap_or(u32::MAX));
    let refused = |refusal: Refusal| format!("refused {}: total {at} is {}, above 65520", refusal.number(), shown(digits));
    read.map(|value| value.to_string()).map_err(refused)
}

/// Of a number as `pool` prints it: no zero leads others.
fn digits<'a>(what: &str, word: &'a [u8]) -> Result<&'a str, String> {
    let digits = std::str::from_utf8(word).ok().filter(|word| word.bytes().all(|byte| byte.is_ascii_digit()));
    let digits = digits.filter(|digits| !digits.is_empty() && (*digits == "0" || !digits.starts_with('0')));
    digits.ok_or_else(|| format!("it is damaged: {what} is {}, and a number as `pool` prints it is wanted", shown(OsStr::from_bytes(word))))
}
