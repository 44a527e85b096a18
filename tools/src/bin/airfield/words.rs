//! The command line.
//!
//! - `HELP`: what `--help` prints
//! - `Command`: a command with its words read
//! - `read`: from the words of the command line
//! - `Figures`: where figures come from
//! - `Number`: a number, with the word that gave it; `Figure`: one that may lie below zero
//! - `figures_of`: figures from text, as standard input gives them

use cutawheno::Use;
use cutawheno_tools::command::{shown, use_of};
use std::ffi::{OsStr, OsString};
use std::fmt;
use std::path::PathBuf;

pub const HELP: &str = "\
airfield: the key office and an airfield's end, over the proved library

  airfield list K U T M LIST      draws a random list from the system's source into the new file LIST
  airfield key LIST AIRFIELD ROUND END [counts|signed]
                                  makes the airfield's key for that round, and a fresh end that keeps it in the new file END;
                                  LIST counts it, and makes no second end for that airfield, and none for another round; the
                                  last word tells what its figures are, counts where none is given
  airfield first END [FIGURE..]   prints the first message as records in words; without figures they are read from
                                  standard input, with white space between, so that they show in no list of processes
  airfield again END              prints the first message that END has sent once more, the same bytes, without the figures
  airfield reply END ROUND SET    prints the reply to the set announced for the round, as records in words
  airfield status FILE            tells what an end or a list is, and shows nothing secret
  airfield destroy FILE..         overwrites and removes lists and ends
  airfield --help, --version

K airfields (3 to 8), U of them must answer at least (above T, below K), T may collude at most (from 1), M blocks (1 to 16).
A row has M x (U - T) figures. Counts are whole numbers from 0 to 65520 / K, rounded down. Signed figures are whole numbers within
32760 / K of zero, rounded down, and may have a minus, as -14. `airfield status` tells how many, which, and how far they may go.
Bit k - 1 of a set's number stands for airfield k. A round is a number from 0 to 4294967295: the one that the service will open.
An end sends one first message and answers one set, announced for its own round, as the line survivors ROUND SET of `pool` has both.
The same figures, or the same set, asked again give the same bytes.
`records encode` makes bytes of the records in words; `totals signed` reads the totals of signed figures.

Exit status: 0 done; 1 refused or failed, told on standard error, and a refusal changes nothing; 2 command line not understood.
";

pub enum Command {
    Help,
    Version,
    List { plan: [Number; 4], list: PathBuf },
    Key { list: PathBuf, airfield: Number, round: u32, end: PathBuf, usage: Use },
    First { end: PathBuf, figures: Figures },
    Again { end: PathBuf },
    Reply { end: PathBuf, round: u32, set: Number },
    Status { file: PathBuf },
    Destroy { files: Vec<PathBuf> },
}

pub enum Figures {
    Given(Vec<Figure>),
    FromInput,
}

/// A number, and the word that gave it, which messages show. A number too large for 32 bits is too large for every use of it: the largest
/// stands for it, and is refused as it would be; and so on the other side of zero. A round is none of these.
pub struct Number<T = u32> {
    pub value: T,
    word: String,
}

pub type Figure = Number<i32>;

impl<T> fmt::Display for Number<T> {
    fn fmt(&self, out: &mut fmt::Formatter) -> fmt::Result {
        out.write_str(&self.word)
    }
}

/// The command, or what is not understood.
pub fn read(words: &[OsString]) -> Result<Command, String> {
    if words.iter().any(|word| word == "--help") {
        return Ok(Command::Help);
    }
    let (command, words) = words.split_first().ok_or_else(|| "no command; airfield --help tells them".to_string())?;
    let wanted = |wanted: &str| {
        let command = shown(command);
        Err(format!("{command} takes {wanted}, and {} words are given; airfield --help tells more", words.len()))
    };
    match (command.to_str(), words) {
        (Some("--version"), []) => Ok(Command::Version),
        (Some("list"), [k, u, t, m, list]) => {
            let plan = [number("K", k)?, number("U", u)?, number("T", t)?, number("M", m)?];
            Ok(Command::List { plan, list: list.into() })
        }
        (Some("list"), _) => wanted("K U T M LIST"),
        (Some("key"), [list, airfield, given, end, usage @ ..]) if usage.len() <= 1 => {
            let (airfield, round) = (number("AIRFIELD", airfield)?, round(given)?);
            let usage = usage.first().map_or(Ok(Use::Counts), named_use)?;
            Ok(Command::Key { list: list.into(), airfield, round, end: end.into(), usage })
        }
        (Some("key"), _) => wanted("LIST AIRFIELD ROUND END [counts|signed]"),
        (Some("first"), [end]) => Ok(Command::First { end: end.into(), figures: Figures::FromInput }),
        (Some("first"), [end, figures @ ..]) => {
            let figures = figures.iter().enumerate().map(|(at, word)| figure(at, word)).collect::<Result<_, _>>()?;
            Ok(Command::First { end: end.into(), figures: Figures::Given(figures) })
        }
        (Some("first"), _) => wanted("END [FIGURE..]"),
        (Some("again"), [end]) => Ok(Command::Again { end: end.into() }),
        (Some("again"), _) => wanted("END"),
        (Some("reply"), [end, given, set]) => Ok(Command::Reply { end: end.into(), round: round(given)?, set: number("SET", set)? }),
        (Some("reply"), _) => wanted("END ROUND SET"),
        (Some("status"), [file]) => Ok(Command::Status { file: file.into() }),
        (Some("status"), _) => wanted("FILE"),
        (Some("destroy"), [_, ..]) => Ok(Command::Destroy { files: words.iter().map(PathBuf::from).collect() }),
        (Some("destroy"), _) => wanted("FILE.."),
        _ => Err(format!("no command is called {}; airfield --help tells them", shown(command))),
    }
}

/// Figures from text, with white space between.
pub fn figures_of(text: &[u8]) -> Result<Vec<Figure>, String> {
    let text = String::from_utf8_lossy(text);
    text.split_whitespace().enumerate().map(|(at, word)| figure(at, OsStr::new(word))).collect()
}

fn named_use(word: &OsString) -> Result<Use, String> {
    use_of(word).ok_or_else(|| format!("counts or signed is wanted behind END, and {} is found", shown(word)))
}

/// Decimal digits, behind a minus or not; -0 is 0.
fn figure(at: usize, word: &OsStr) -> Result<Figure, String> {
    let text = word.to_str().unwrap_or_default();
    let (digits, furthest) = text.strip_prefix('-').map_or((text, i32::MAX), |digits| (digits, i32::MIN));
    if !is_decimal(digits) {
        return Err(format!("figure {}: a whole number is wanted, and {} is found", at + 1, shown(word)));
    }
    Ok(Number { value: text.parse().unwrap_or(furthest), word: shown(text) })
}

fn number(what: &str, word: &OsStr) -> Result<Number, String> {
    let digits = word.to_str().filter(|word| is_decimal(word));
    let digits = digits.ok_or_else(|| format!("{what}: a whole number from 0 on is wanted, and {} is found", shown(word)))?;
    Ok(Number { value: digits.parse().unwrap_or(u32::MAX), word: shown(digits) })
}

/// Every number of 32 bits is a round, so that none can stand for those that are larger.
fn round(word: &OsStr) -> Result<u32, String> {
    let round = word.to_str().filter(|word| is_decimal(word)).and_then(|digits| digits.parse().ok());
    round.ok_or_else(|| format!("ROUND: a whole number from 0 to {} is wanted, and {} is found", u32::MAX, shown(word)))
}

fn is_decimal(text: &str) -> bool {
    !text.is_empty() && text.bytes().all(|byte| byte.is_ascii_digit())
}
