//! `generate KIND SEED [COUNT]`: test material on standard output.
//! - `rounds`: a record stream of COUNT rounds
//! - `repeated`: a record stream of COUNT rounds and one more, in which every
//!   record comes twice
//! - `garbled`: a record stream of COUNT rounds with false replies
//! - `damaged`: a record stream that must be refused in many places, with
//!   COUNT random records in it
//! - `calls`: COUNT cases for the key maker and the airfield end,
//! - `announced`: COUNT cases for sets announced for a round,
//! - `drawn`: COUNT cases for random lists from raw bytes,
//! - `found`: COUNT cases for where replies lie in keys,
//! - `read`: COUNT cases for the reader and for residues, and
//! - `whole`: COUNT cases of whole rounds, as text for the program `rounds`;
//!   src/material/vectors.rs sets it out

use reference::material::{
    announced, calls, damaged, drawn, found, garbled, read, repeated, rounds, whole,
};
use reference::stream::to_bytes;
use std::io::{self, BufWriter, Write};
use std::process::ExitCode;

const USAGE: &str = "usage: generate rounds|repeated|garbled|damaged|calls|announced|drawn|found|\
    read|whole SEED [COUNT]";
const DEFAULT_COUNT: u32 = 20;

fn main() -> io::Result<ExitCode> {
    let arguments: Vec<String> = std::env::args().skip(1).collect();
    let (kind, seed, count) = match asked(&arguments) {
        Some(what) => what,
        None => {
            eprintln!("{USAGE}");
            return Ok(ExitCode::FAILURE);
        }
    };
    let mut out = BufWriter::new(io::stdout());
    match kind {
        "rounds" => out.write_all(&to_bytes(&rounds::records(seed, count)))?,
        "repeated" => out.write_all(&to_bytes(&repeated::records(seed, count)))?,
        "garbled" => out.write_all(&to_bytes(&garbled::records(seed, count)))?,
        "damaged" => out.write_all(&damaged::bytes(seed, count))?,
        "calls" => calls::cases(seed, count).try_for_each(|case| write!(out, "{case}"))?,
        "announced" => announced::cases(seed, count).try_for_each(|case| write!(out, "{case}"))?,
        "drawn" => drawn::cases(seed, count).try_for_each(|case| write!(out, "{case}"))?,
        "found" => found::cases(seed, count).try_for_each(|case| write!(out, "{case}"))?,
        "read" => read::cases(seed, count).try_for_each(|case| write!(out, "{case}"))?,
        "whole" => whole::cases(seed, count).try_for_each(|case| write!(out, "{case}"))?,
        _ => {
            eprintln!("{USAGE}");
            return Ok(ExitCode::FAILURE);
        }
    }
    out.flush()?;
    Ok(ExitCode::SUCCESS)
}

fn asked(arguments: &[String]) -> Option<(&str, u64, u32)> {
    match arguments {
        [kind, seed] => Some((kind, seed.parse().ok()?, DEFAULT_COUNT)),
        [kind, seed, count] => Some((kind, seed.parse().ok()?, count.parse().ok()?)),
        _ => None,
    }
}
