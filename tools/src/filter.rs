//! Standard input to standard output, as it comes.
//!
//! - `Output`: standard output, with what waits to be handed on
//! - `filter`: a whole run
//! - `put`, `flush`: to standard output
//! - `each_line`: what each line of standard input gives

use crate::standard;
use std::fs::File;
use std::io::{BufRead, BufReader, BufWriter, Read, Write};

/// The longest line, in bytes: far more than a record or an answer needs.
const LONGEST: u64 = 1 << 16;

pub type Output = BufWriter<File>;

/// What stood before a fault is written all the same.
pub fn filter(run: impl FnOnce(&mut Output) -> Result<(), String>) -> Result<(), String> {
    let mut output = BufWriter::new(standard::output()?);
    let outcome = run(&mut output);
    outcome.and(flush(&mut output))
}

pub fn put(output: &mut Output, bytes: &[u8]) -> Result<(), String> {
    output.write_all(bytes).map_err(fault_of_output)
}

pub fn flush(output: &mut Output) -> Result<(), String> {
    output.flush().map_err(fault_of_output)
}

fn fault_of_output(fault: std::io::Error) -> String {
    format!("standard output: {fault}")
}

/// A line comes with its number, from 1, and with its end, which the last may lack. What it gives is handed on before more input is
/// waited for.
pub fn each_line(output: &mut Output, mut gives: impl FnMut(u64, &[u8]) -> Result<Vec<u8>, String>) -> Result<(), String> {
    let mut input = BufReader::new(standard::input()?);
    let mut line = Vec::new();
    for number in 1.. {
        line.clear();
        let read = (&mut input).take(LONGEST).read_until(b'\n', &mut line);
        match read.map_err(|fault| format!("standard input: {fault}"))? as u64 {
            0 => break,
            LONGEST if line.last() != Some(&b'\n') => return Err(format!("line {number} is longer than {LONGEST} bytes")),
            _ => (),
        }
        put(output, &gives(number, &line)?)?;
        // no other line is there yet
        if !input.buffer().contains(&b'\n') {
            flush(output)?;
        }
    }
    Ok(())
}
