//! The program over streams of records: `target/bin/pool`, the plain Rust program in two builds, the frozen one, and `cat`.
use crate::instructions;
use crate::report::{Report, Stream};
use crate::rounds::Records;
use crate::timing::{race, RUNS};
use std::fs::{self, File};
use std::io::Write;
use std::process::{Command, Stdio};
use std::time::Instant;

const OURS: &str = "target/bin/pool";
const BEST: &str = "target/bench/best/pool";
const FROZEN: &str = "target/bench/best/frozen";
const RELEASE: &str = "target/bench/release/pool";
const PROGRAMS: [&str; 5] = [OURS, BEST, FROZEN, RELEASE, "cat"];
const INPUT: &str = "target/bench/records";

/// Bytes of a stream that is timed, and of one of which the instructions are counted.
const SIZE: usize = 48 << 20;
const SHORT: usize = 4 << 20;

pub fn measure(report: &mut Report) {
    measure_stream(report, "accepted", Records::accepted);
    measure_stream(report, "airfields in turn", Records::crossed);
    measure_stream(report, "every record twice", Records::repeated);
    measure_stream(report, "an aside each round", Records::falsified);
    measure_stream(report, "refused", Records::refused);
    let mixed = measure_stream(report, "mixed", Records::mixed);
    report.memory = [OURS, BEST].map(|program| peak_memory(program, &mixed.0));
    fs::remove_file(INPUT).unwrap();
}

fn measure_stream(report: &mut Report, name: &str, records: fn(usize) -> Records) -> Records {
    let counts = count(&records(SHORT).0);
    let records = records(SIZE);
    let bytes = &records.0;
    fs::write(INPUT, bytes).unwrap();
    let lines = lines_of(OURS);
    for program in [BEST, FROZEN, RELEASE] {
        assert!(lines == lines_of(program), "the programs print different lines of the {name} stream");
    }
    let [mut a, mut b, mut c, mut d, mut e] = PROGRAMS.map(|program| move || run_file(program));
    let file = race(RUNS, [&mut a, &mut b, &mut c, &mut d, &mut e]);
    let [mut a, mut b, mut c, mut d, mut e] = PROGRAMS.map(|program| move || run_pipe(program, bytes));
    let pipe = race(RUNS, [&mut a, &mut b, &mut c, &mut d, &mut e]);
    for (from, times, counts) in [("file", file, counts), ("pipe", pipe, [None; 3])] {
        let name = format!("{name}, {from}");
        eprintln!("{name}: {:.2} {:.2}", times[0] / times[1], times[0] / times[2]);
        report.streams.push(Stream { name, times, counts });
    }
    records
}

/// Instructions for each byte, by ours, Rust at its best and the frozen Rust, those of a run without input apart.
fn count(bytes: &[u8]) -> [Option<f64>; 3] {
    [OURS, BEST, FROZEN].map(|program| {
        fs::write(INPUT, []).unwrap();
        let start = instructions::of_run(program, INPUT)?;
        fs::write(INPUT, bytes).unwrap();
        Some((instructions::of_run(program, INPUT)? - start) / bytes.len() as f64)
    })
}

fn lines_of(program: &str) -> Vec<u8> {
    let output = Command::new(program).stdin(File::open(INPUT).unwrap()).output().unwrap();
    assert!(output.status.success(), "{program}");
    output.stdout
}

/// Milliseconds of a run over the file.
fn run_file(program: &str) -> f64 {
    let start = Instant::now();
    let status = Command::new(program).stdin(File::open(INPUT).unwrap()).stdout(Stdio::null()).status().unwrap();
    assert!(status.success(), "{program}");
    start.elapsed().as_secs_f64() * 1e3
}

/// Milliseconds of a run over the bytes through a pipe.
fn run_pipe(program: &str, bytes: &[u8]) -> f64 {
    let start = Instant::now();
    let mut child = Command::new(program).stdin(Stdio::piped()).stdout(Stdio::null()).spawn().unwrap();
    child.stdin.take().unwrap().write_all(bytes).unwrap();
    assert!(child.wait().unwrap().success(), "{program}");
    start.elapsed().as_secs_f64() * 1e3
}

/// The peak of the program's memory in KiB, looked at before its input ends.
fn peak_memory(program: &str, bytes: &[u8]) -> u32 {
    let mut child = Command::new(program).stdin(Stdio::piped()).stdout(Stdio::null()).spawn().unwrap();
    let mut input = child.stdin.take().unwrap();
    input.write_all(bytes).unwrap();
    let status = fs::read_to_string(format!("/proc/{}/status", child.id())).unwrap();
    drop(input);
    assert!(child.wait().unwrap().success(), "{program}");
    let line = status.lines().find(|line| line.starts_with("VmHWM:")).unwrap();
    line.split_whitespace().nth(1).unwrap().parse().unwrap()
}
