//! `long PROGRAM COUNT`: COUNT rounds in one process, with numbers that rise
//! to 4294967295, and in some of them one garbled reply among U + 2. Expects each
//! line, that reply set aside, the totals summed up plainly from the figures as
//! whole numbers, of which they are the residues, and a peak of memory that stays
//! where it was after the first tenth. Says what differs, with exit status 1.

use reference::field::{add, Element};
use reference::material::{first_records, reply_records, table, totals, Row};
use reference::random::Random;
use reference::scheme::{first_message, holds, members, shares, Plan, RandomList, Set};
use reference::stream::{spaced, to_bytes, Record};
use std::io::{self, BufRead, BufReader, BufWriter, Write};
use std::process::{Command, ExitCode, Stdio};

const USAGE: &str = "usage: long PROGRAM COUNT";
const PLAN: [u8; 4] = [4, 2, 1, 2];
/// In kB: the system's own count is that rough. A byte kept for each round would show as ten times this.
const SLACK: u64 = 64;
/// The sets that can survive under this plan.
const SURVIVORS: [Set; 11] = [3, 5, 6, 7, 9, 10, 11, 12, 13, 14, 15];

fn main() -> io::Result<ExitCode> {
    let arguments: Vec<String> = std::env::args().skip(1).collect();
    let (program, count) = match &arguments[..] {
        [program, count] if count.parse::<u32>().map_or(false, |count| count >= 10) => {
            (program, count.parse().expect("tested"))
        }
        _ => {
            eprintln!("{USAGE}, COUNT from 10 on");
            return Ok(ExitCode::FAILURE);
        }
    };
    let mut child = Command::new(program).stdin(Stdio::piped()).stdout(Stdio::piped()).spawn()?;
    let process = child.id();
    let input = child.stdin.take().expect("the input is a pipe");
    let output = child.stdout.take().expect("the output is a pipe");
    let outcome = std::thread::scope(|scope| {
        scope.spawn(move || drop(send(input, count)));
        check(output, count, process)
    });
    child.kill()?;
    child.wait()?;
    Ok(match outcome {
        Ok(said) => {
            println!("{said}");
            ExitCode::SUCCESS
        }
        Err(said) => {
            eprintln!("{said}");
            ExitCode::FAILURE
        }
    })
}

/// All rounds; then opens that nothing is above. The input stays open until
/// the last line is read, so that the program's memory can be.
fn send(input: impl Write, count: u32) -> io::Result<()> {
    let plan = plan();
    let mut input = BufWriter::new(input);
    input.write_all(&Record::Plan(PLAN).to_bytes())?;
    for round in rounds(count) {
        input.write_all(&to_bytes(&round.records(&plan)))?;
    }
    input.write_all(&to_bytes(&LAST_OPENS))?;
    input.flush()?;
    std::mem::forget(input);
    Ok(())
}

const LAST_OPENS: [Record; 2] = [Record::Open(u32::MAX), Record::Open(0)];

/// Reads and compares the lines, and the memory after the first tenth and at
/// the end.
fn check(output: impl io::Read, count: u32, process: u32) -> Result<String, String> {
    let plan = plan();
    let mut lines = BufReader::new(output).lines();
    let mut expect = |expected: String| match lines.next() {
        Some(Ok(line)) if line == expected => Ok(()),
        other => Err(format!("expected {expected}, got {other:?}")),
    };
    expect(format!("plan{}", spaced(&PLAN)))?;
    let mut offset = Record::Plan(PLAN).to_bytes().len();
    let mut early = 0;
    for (index, round) in rounds(count).enumerate() {
        for line in round.lines(&plan, &mut offset) {
            expect(line)?;
        }
        if index as u32 == count / 10 {
            early = peak_memory(process)?;
        }
    }
    for open in LAST_OPENS {
        expect(format!("refused 17 at {offset}"))?;
        offset += open.to_bytes().len();
    }
    let late = peak_memory(process)?;
    if early + SLACK < late {
        return Err(format!("peak memory grew from {early} kB to {late} kB"));
    }
    Ok(format!(
        "{count} rounds, the last one {}: every line right, peak memory {early} kB after a tenth, {late} kB at the end",
        u32::MAX
    ))
}

/// VmHWM of a running process, in kB.
fn peak_memory(process: u32) -> Result<u64, String> {
    let status = std::fs::read_to_string(format!("/proc/{process}/status"))
        .map_err(|fault| fault.to_string())?;
    let line = status.lines().find_map(|line| line.strip_prefix("VmHWM:"));
    line.and_then(|line| line.trim().strip_suffix(" kB")?.trim().parse().ok())
        .ok_or_else(|| "no peak memory is told".to_string())
}

fn plan() -> Plan {
    Plan::new(PLAN).expect("the plan is good")
}

/// The rounds, drawn alike for the sender and for the checker.
fn rounds(count: u32) -> impl Iterator<Item = Round> {
    let step = u32::MAX / count;
    let plan = plan();
    let mut random = Random::new(u64::from(count));
    (0..count).rev().map(move |left| Round::draw(u32::MAX - left * step, &plan, &mut random))
}

struct Round {
    number: u32,
    list: Vec<Element>,
    table: Vec<Row>,
    survivors: Set,
    answering: Set,
    garbled: Option<u8>,
}

impl Round {
    fn draw(number: u32, plan: &Plan, random: &mut Random) -> Round {
        let list = random.elements(plan.list_length());
        let table = table(plan, random);
        let survivors = random.pick(&SURVIVORS);
        let answering = random.pick(&SURVIVORS.map(|set| set & survivors));
        let answering = if plan.usable(answering) { answering } else { survivors };
        let tells = members(answering).count() >= plan.least() + 2;
        let any = 1 + random.below(usize::from(plan.airfields())) as u8;
        let garbled = random.pick(&[None, Some(any)]).filter(|_| tells);
        Round { number, list, table, survivors, answering, garbled }
    }

    /// The survivors' messages, the close, the others' messages too late, the
    /// replies, the finish.
    fn records(&self, plan: &Plan) -> Vec<Record> {
        let list = RandomList { plan, elements: &self.list };
        let first = |airfield: u8| {
            let figures = self.table[usize::from(airfield - 1)].lent();
            first_records(airfield, &first_message(list.s(airfield), &figures))
        };
        let reply = |airfield| {
            let mut shares = shares(&list, airfield, self.survivors);
            if self.garbled == Some(airfield) {
                shares[0] = add(shares[0], 1);
            }
            reply_records(airfield, &shares)
        };
        let mut records = vec![Record::Open(self.number)];
        records.extend(members(self.survivors).flat_map(first));
        records.push(Record::Close);
        records.extend(self.late(plan).flat_map(first));
        records.extend(members(self.answering).flat_map(reply));
        records.push(Record::Finish);
        records
    }

    fn late<'a>(&'a self, plan: &Plan) -> impl Iterator<Item = u8> + 'a {
        (1..=plan.airfields()).filter(|&airfield| !holds(self.survivors, airfield))
    }

    /// The lines of these records, the first of which stands at the offset;
    /// moves the offset behind them.
    fn lines(&self, plan: &Plan, offset: &mut usize) -> Vec<String> {
        const OPEN: usize = 5;
        const FIRST: usize = 6;
        const REPLY: usize = 5;
        const BARE: usize = 1;
        let mut lines = vec![format!("open {}", self.number)];
        let row = FIRST * plan.row_length();
        *offset += OPEN + members(self.survivors).count() * row + BARE;
        lines.push(format!("survivors {} {}", self.number, self.survivors));
        for _ in 0..self.late(plan).count() * plan.row_length() {
            lines.push(format!("refused 12 at {offset}"));
            *offset += FIRST;
        }
        *offset += members(self.answering).count() * REPLY * plan.blocks() + BARE;
        lines.extend(self.garbled.map(|airfield| format!("aside {} {airfield}", self.number)));
        let totals = totals(plan, &self.table, self.survivors);
        lines.push(format!("total {}{}", self.number, spaced(&totals)));
        lines
    }
}
