//! The program of document 01 in plain Rust: records from standard input, lines to standard output, those of a read behind that read.
mod fast;

use fast::{Plan, Service, MOST_PLACES};
use std::fs::File;
use std::io::{self, ErrorKind, Read, Write};
use std::os::fd::AsFd;

const BUFFER: usize = 65536;

/// Room for what one record prints: the longest is the line of an aside with that of its total.
const LINE: usize = 704;

/// Room for one space and the 20 digits of a number of 64 bits.
const DIGITS: usize = 24;

/// The lines not yet written. A record is taken only where LINE bytes are free.
struct Lines {
    bytes: Box<[u8; BUFFER]>,
    len: usize,
}

/// All decimals of two digits.
const PAIRS: [[u8; 2]; 100] = {
    let mut pairs = [[0; 2]; 100];
    let mut n = 0;
    while n < 100 {
        pairs[n] = [b'0' + n as u8 / 10, b'0' + n as u8 % 10];
        n += 1;
    }
    pairs
};

impl Lines {
    fn text<const N: usize>(&mut self, text: &[u8; N]) {
        self.bytes[self.len..][..N].copy_from_slice(text);
        self.len += N;
    }

    /// One space and the decimal: its digits are made from the last on, and moved with what stands behind them.
    fn number(&mut self, mut n: u64) {
        let mut digits = [b' '; 2 * DIGITS];
        let mut at = DIGITS;
        while 100 <= n {
            at -= 2;
            digits[at..at + 2].copy_from_slice(&PAIRS[(n % 100) as usize]);
            n /= 100;
        }
        at -= 2;
        digits[at..at + 2].copy_from_slice(&PAIRS[n as usize]);
        at -= (10 <= n) as usize;
        digits[at] = b' ';
        self.bytes[self.len..][..DIGITS].copy_from_slice(&digits[at..][..DIGITS]);
        self.len += DIGITS - at;
    }

    fn line<const N: usize>(&mut self, word: &[u8; N], numbers: &[u32]) {
        self.text(word);
        for &n in numbers {
            self.number(n as u64);
        }
        self.text(b"\n");
    }

    fn refused(&mut self, number: u32, offset: u64) {
        self.text(b"refused ");
        let digits = PAIRS[number as usize];
        if number < 10 {
            self.text(&[digits[1]]);
        } else {
            self.text(&digits);
        }
        self.text(b" at");
        self.number(offset);
        self.text(b"\n");
    }

    fn total(&mut self, round: u32, totals: &[u16]) {
        self.text(b"total");
        self.number(round as u64);
        for &total in totals {
            self.number(total as u64);
        }
        self.text(b"\n");
    }

    fn is_full(&self) -> bool {
        BUFFER - self.len < LINE
    }

    fn write(&mut self, out: &mut File) -> io::Result<()> {
        out.write_all(&self.bytes[..self.len])?;
        self.len = 0;
        Ok(())
    }
}

enum Stop {
    Used,
    Unknown,
    Partial,
    Full,
}

/// A record other than an element: its length, or why there is none.
fn take_other(service: &mut Service, record: &[u8], offset: u64, lines: &mut Lines) -> Result<usize, Stop> {
    let (number, len) = match *record {
        [1, users, threshold, collusion, blocks, ..] => {
            let [users, threshold, collusion, blocks] = [users, threshold, collusion, blocks].map(u32::from);
            let number = service.plan(Plan { users, threshold, collusion, blocks });
            if number == 0 {
                lines.line(b"plan", &[users, threshold, collusion, blocks]);
            }
            (number, 5)
        }
        [2, a, b, c, d, ..] => {
            let round = u32::from_le_bytes([a, b, c, d]);
            let number = service.open(round);
            if number == 0 {
                lines.line(b"open", &[round]);
            }
            (number, 5)
        }
        [4, ..] => {
            let number = service.close();
            if number == 0 {
                lines.line(b"survivors", &[service.round, service.survivors]);
            }
            (number, 1)
        }
        [6, ..] => {
            let mut totals = [0; MOST_PLACES];
            let finished = service.finish(&mut totals);
            if let Ok(aside) = finished {
                if aside != 0 {
                    lines.line(b"aside", &[service.round, aside]);
                }
                lines.total(service.round, &totals[..service.places as usize]);
            }
            (finished.err().unwrap_or(0), 1)
        }
        [1..=6, ..] => return Err(Stop::Partial),
        [_, ..] => return Err(Stop::Unknown),
        [] => return Err(Stop::Used),
    };
    if number != 0 {
        lines.refused(number, offset);
    }
    Ok(len)
}

fn two_bytes(low: u8, high: u8) -> u32 {
    u16::from_le_bytes([low, high]).into()
}

/// Takes the whole records in order; answers how many bytes they are, and why it stopped.
fn feed(service: &mut Service, bytes: &[u8], offset: u64, lines: &mut Lines) -> (usize, Stop) {
    let mut at = 0;
    loop {
        if lines.is_full() {
            return (at, if at == bytes.len() { Stop::Used } else { Stop::Full });
        }
        let here = offset + at as u64;
        let record = &bytes[at..];
        let (number, len) = match *record {
            [3, user, a, b, c, d, ..] => (service.first_element(user.into(), two_bytes(a, b), two_bytes(c, d)), 6),
            [5, user, block, c, d, ..] => (service.reply_element(user.into(), block.into(), two_bytes(c, d)), 5),
            _ => match take_other(service, record, here, lines) {
                Ok(len) => (0, len),
                Err(stop) => return (at, stop),
            },
        };
        if number != 0 {
            lines.refused(number, here);
        }
        at += len;
    }
}

fn main() -> io::Result<()> {
    let mut input = File::from(io::stdin().as_fd().try_clone_to_owned()?);
    let mut output = File::from(io::stdout().as_fd().try_clone_to_owned()?);
    let mut buffer = Box::new([0; BUFFER]);
    let mut lines = Lines { bytes: Box::new([0; BUFFER]), len: 0 };
    let mut service = Service::new();
    let (mut have, mut offset, mut hungry) = (0, 0u64, true);
    loop {
        let mut ended = false;
        if hungry {
            match input.read(&mut buffer[have..]) {
                Ok(n) => (have, ended) = (have + n, n == 0),
                Err(e) if e.kind() == ErrorKind::Interrupted => continue,
                Err(e) => return Err(e),
            }
        }
        let (at, stop) = feed(&mut service, &buffer[..have], offset, &mut lines);
        offset += at as u64;
        hungry = !matches!(stop, Stop::Full);
        let cut = matches!(stop, Stop::Unknown) || ended && have != at;
        if cut {
            lines.refused(7, offset);
        }
        lines.write(&mut output)?;
        if cut || ended {
            return Ok(());
        }
        buffer.copy_within(at..have, 0);
        have -= at;
    }
}
