//! Words of a command line, and how a program ends.
//!
//! - `VERSION`: of the tools
//! - `FAILED`, `NOT_UNDERSTOOD`: exit statuses beside 0
//! - `Fault`: why a program stops, with its exit status
//! - `start`: runs a program, and gives its outcome as its exit status, a fault told on standard error
//! - `shown`: a word or file name as a message shows it
//! - `use_of`: the use of figures that a word names

use crate::standard::complain;
use crate::system::guard;
use cutawheno::Use;
use std::ffi::OsStr;
use std::os::unix::ffi::OsStrExt;
use std::process::ExitCode;

pub const VERSION: &str = env!("CARGO_PKG_VERSION");

pub const FAILED: u8 = 1;
pub const NOT_UNDERSTOOD: u8 = 2;

/// The longest word that a message shows whole, in bytes.
const LONGEST: usize = 200;

pub struct Fault {
    status: u8,
    message: String,
}

impl Fault {
    /// The command line is none that the program knows.
    pub fn usage(message: String) -> Fault {
        Fault { status: NOT_UNDERSTOOD, message }
    }
}

impl From<String> for Fault {
    /// The call was refused, or failed.
    fn from(message: String) -> Fault {
        Fault { status: FAILED, message }
    }
}

pub fn start(program: &str, run: fn() -> Result<(), Fault>) -> ExitCode {
    guard();
    match run() {
        Ok(()) => ExitCode::SUCCESS,
        Err(fault) => {
            complain(&format!("{program}: {}", fault.message));
            ExitCode::from(fault.status)
        }
    }
}

/// As it is where it is plain; else in quotes, with every byte escaped that is no printable one of ASCII. A long one is cut.
pub fn shown(word: impl AsRef<OsStr>) -> String {
    let bytes = word.as_ref().as_bytes();
    let start = &bytes[..bytes.len().min(LONGEST)];
    let rest = if start.len() < bytes.len() { ".." } else { "" };
    if !start.is_empty() && start.iter().all(u8::is_ascii_graphic) {
        format!("{}{rest}", String::from_utf8_lossy(start))
    } else {
        format!("\"{}\"{rest}", start.escape_ascii())
    }
}

pub fn use_of(word: &OsStr) -> Option<Use> {
    match word.to_str() {
        Some("counts") => Some(Use::Counts),
        Some("signed") => Some(Use::Signed),
        _ => None,
    }
}
