//! `compare PROGRAM rounds|repeated|garbled|damaged FIRST LAST`: runs a program
//! on the streams of these seeds, each whole and in random small pieces, and
//! expects the lines of this implementation. Names the first seed that differs,
//! with exit status 1.
//!
//! A piece is one datagram: each read of the program gets one piece, however
//! fast the pieces are sent.

use reference::material::{damaged, garbled, repeated, rounds};
use reference::random::Random;
use reference::stream::{run, to_bytes};
use std::io::{self, Read, Write};
use std::os::unix::io::OwnedFd;
use std::os::unix::net::UnixDatagram;
use std::process::{Child, Command, ExitCode, Stdio};

const USAGE: &str = "usage: compare PROGRAM rounds|repeated|garbled|damaged FIRST LAST";
/// Rounds or random records in a stream, and the longest piece.
const COUNT: u32 = 6;
const LONGEST_PIECE: usize = 12;

fn main() -> io::Result<ExitCode> {
    let arguments: Vec<String> = std::env::args().skip(1).collect();
    let (program, kind, first, last) = match read(&arguments) {
        Some(what) => what,
        None => {
            eprintln!("{USAGE}");
            return Ok(ExitCode::FAILURE);
        }
    };
    for seed in first..=last {
        let stream = match kind {
            Kind::Rounds => to_bytes(&rounds::records(seed, COUNT)),
            Kind::Repeated => to_bytes(&repeated::records(seed, COUNT)),
            Kind::Garbled => to_bytes(&garbled::records(seed, COUNT)),
            Kind::Damaged => damaged::bytes(seed, COUNT),
        };
        let expected = run(&stream);
        for (way, lines) in
            [("whole", whole(program, &stream)?), ("in pieces", in_pieces(program, &stream, seed)?)]
        {
            if lines != expected.as_bytes() {
                eprintln!("{kind:?} {seed} {way}: other lines than expected");
                return Ok(ExitCode::FAILURE);
            }
        }
    }
    println!("{kind:?} {first} to {last}: the same lines, whole and in pieces");
    Ok(ExitCode::SUCCESS)
}

#[derive(Clone, Copy, Debug)]
enum Kind {
    Rounds,
    Repeated,
    Garbled,
    Damaged,
}

fn read(arguments: &[String]) -> Option<(&str, Kind, u64, u64)> {
    let (program, kind, first, last) = match arguments {
        [program, kind, first, last] => (program, kind, first, last),
        _ => return None,
    };
    let kind = match kind.as_str() {
        "rounds" => Kind::Rounds,
        "repeated" => Kind::Repeated,
        "garbled" => Kind::Garbled,
        "damaged" => Kind::Damaged,
        _ => return None,
    };
    Some((program, kind, first.parse().ok()?, last.parse().ok()?))
}

/// Through a pipe, as fast as it goes.
fn whole(program: &str, stream: &[u8]) -> io::Result<Vec<u8>> {
    let mut child = start(program, Stdio::piped())?;
    let mut input = child.stdin.take().expect("the input is a pipe");
    lines_of(child, move || drop(input.write_all(stream)))
}

fn in_pieces(program: &str, stream: &[u8], seed: u64) -> io::Result<Vec<u8>> {
    let (near, far) = UnixDatagram::pair()?;
    let child = start(program, Stdio::from(OwnedFd::from(far)))?;
    let mut random = Random::new(seed);
    let sender = || {
        let mut rest = stream;
        while !rest.is_empty() {
            let (piece, after) = rest.split_at(1 + random.below(LONGEST_PIECE.min(rest.len())));
            if near.send(piece).is_err() {
                return;
            }
            rest = after;
        }
        // an empty datagram is the end of the input
        drop(near.send(&[]));
    };
    lines_of(child, sender)
}

fn start(program: &str, input: Stdio) -> io::Result<Child> {
    Command::new(program).stdin(input).stdout(Stdio::piped()).spawn()
}

/// What the program prints while its input is sent. A program that has
/// stopped behind damage takes no more, which is no fault.
fn lines_of(mut child: Child, sender: impl FnOnce() + Send) -> io::Result<Vec<u8>> {
    let mut output = child.stdout.take().expect("the output is a pipe");
    let mut lines = Vec::new();
    std::thread::scope(|scope| {
        scope.spawn(sender);
        output.read_to_end(&mut lines)
    })?;
    child.wait()?;
    Ok(lines)
}
