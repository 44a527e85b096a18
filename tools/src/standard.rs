//! Standard input, output and error. Rust's own handles take a closed or unwritable file for an empty one; these tell every fault.
//!
//! - `input`, `output`: as files, whose every fault is told
//! - `write`: all bytes to standard output
//! - `is_output`: whether a file is the one that standard output leads to
//! - `complain`: a line on standard error, if that is possible

use crate::system::was_closed;
use std::fs::{File, Metadata};
use std::io::{self, Write};
use std::os::unix::fs::MetadataExt;
use std::os::unix::io::AsFd;

const INPUT: usize = 0;
const OUTPUT: usize = 1;

pub fn input() -> Result<File, String> {
    opened(INPUT, io::stdin(), "standard input")
}

pub fn output() -> Result<File, String> {
    opened(OUTPUT, io::stdout(), "standard output")
}

fn opened(number: usize, handle: impl AsFd, name: &str) -> Result<File, String> {
    if was_closed(number) {
        return Err(format!("{name} is closed"));
    }
    handle.as_fd().try_clone_to_owned().map(File::from).map_err(|fault| format!("{name}: {fault}"))
}

pub fn write(output: &mut File, bytes: &[u8]) -> Result<(), String> {
    output.write_all(bytes).map_err(|fault| format!("standard output: {fault}"))
}

pub fn is_output(found: &Metadata) -> bool {
    let output = output().ok().and_then(|output| output.metadata().ok());
    output.map_or(false, |output| (output.dev(), output.ino()) == (found.dev(), found.ino()))
}

/// What is no printable character of ASCII is escaped. A fault of standard error itself leaves nobody to tell; the exit status still does.
pub fn complain(line: &str) {
    let plain = |c: char| if c == ' ' || c.is_ascii_graphic() { c.to_string() } else { c.escape_default().to_string() };
    drop(io::stderr().write_all((line.chars().map(plain).collect::<String>() + "\n").as_bytes()));
}
