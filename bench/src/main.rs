//! Measures the proved code beside plain Rust and FLINT, and writes docs/SPEED.md and docs/speed.svg. Called by bench/run in the
//! repository's root, built at its best. All results are compared before times are taken. `measure times` prints the times of
//! calls alone, so that another build of Rust can be asked for its own; `measure count SIDE` lets a side's calls go to be counted.
mod calls;
#[allow(dead_code)]
#[path = "../../rust/src/lib.rs"]
mod cutawheno;
mod fast;
#[path = "../frozen/fast.rs"]
mod frozen;
mod instructions;
mod program;
mod report;
mod rounds;
mod sides;
mod timing;

use fast::{Plan, Use};
use report::{Call, Report};
use rounds::{named, plan, Random, Round};
use sides::{Fast, Frozen, Ours};
use std::process::Command;
use std::{env, fs};
use timing::{duel, Work, BATCHES, RUNS};

const RELEASE: &str = "target/bench/release/measure";

/// A row of the table: so many calls at a time, of each side.
struct Row {
    name: String,
    calls: usize,
    works: [Work; 3],
}

macro_rules! row {
    ($name:expr, $plan:expr, $calls:expr, $work:ident($($arg:expr),*)) => {
        Row {
            name: format!("{}, {}", $name, named($plan)),
            calls: $calls,
            works: [calls::$work::<Ours>($($arg),*), calls::$work::<Fast>($($arg),*), calls::$work::<Frozen>($($arg),*)],
        }
    };
}

fn main() {
    let args: Vec<String> = env::args().skip(1).collect();
    match args.iter().map(String::as_str).collect::<Vec<_>>()[..] {
        [] => measure(),
        ["times"] => times().iter().for_each(|(name, [ours, fast, _])| println!("{name}\t{ours}\t{fast}")),
        ["count", side] => count(side.parse().unwrap()),
        _ => panic!("usage: measure [times | count SIDE]"),
    }
}

fn measure() {
    let mut report = Report::default();
    let times = times();
    let release = Command::new(RELEASE).arg("times").output().unwrap();
    assert!(release.status.success());
    let release = String::from_utf8(release.stdout).unwrap();
    let counts = [0, 1, 2].map(instructions::of_calls);
    for (i, ((name, times), line)) in times.into_iter().zip(release.lines()).enumerate() {
        let [of, ours, rust] = line.split('\t').collect::<Vec<_>>()[..] else { panic!("{line}") };
        assert_eq!(of, name);
        let release = ours.parse::<f64>().unwrap() / rust.parse::<f64>().unwrap();
        let counts = [0, 1, 2].map(|side| counts[side].get(i).copied());
        report.calls.push(Call { name, times, release, counts });
    }
    for p in [plan(8, 2, 1, 16), plan(8, 7, 1, 16)] {
        let round = Round::new(p, &mut Random(7));
        for replies in [p.threshold, p.users] {
            let times =
                calls::flint(&round, replies).map(|[mut blocks, mut columns]| duel([&mut blocks, &mut columns]));
            report.solver.push((finish_name(p, replies), times));
        }
    }
    program::measure(&mut report);
    report.proofs = proofs();
    report.write(&method());
}

fn finish_name(p: Plan, replies: u32) -> String {
    format!("finish of {replies} replies, {}", named(p))
}

/// Prints for each row how many calls went.
fn count(side: usize) {
    for mut row in rows() {
        println!("{}", row.works[side].count() * row.calls);
    }
}

/// Nanoseconds of a call of each side.
fn times() -> Vec<(String, [f64; 3])> {
    let time = |mut row: Row| {
        let [ours, fast, frozen] = &mut row.works;
        let times = duel([ours, fast, frozen]).map(|time| time / row.calls as f64);
        eprintln!("{}: {:.2} {:.2}", row.name, times[0] / times[1], times[0] / times[2]);
        (row.name, times)
    };
    rows().into_iter().map(time).collect()
}

fn rows() -> Vec<Row> {
    let p = plan(8, 2, 1, 16);
    let mut rows = vec![row!("list from bytes", p, 1, list(p))];
    let growing = (3..=8).map(|users| plan(users, 2, 1, 16));
    for p in growing.chain([plan(8, 7, 1, 16), plan(8, 7, 6, 16), plan(3, 2, 1, 1)]) {
        rows.push(row!("key maker", p, p.users as usize, keys(p)));
    }
    let plans = [p, plan(8, 7, 1, 16)];
    for (name, usage) in [("first message", Use::Counts), ("signed first message", Use::Signed)] {
        rows.extend(plans.map(|p| row!(name, p, 1, first_message(p, usage))));
    }
    rows.extend(plans.map(|p| row!("reply", p, 1, reply(p))));
    rows.extend([3, 255].map(|set| row!(format!("lookup of set {set}"), p, 1, lookup(p, set))));
    rows.extend(plans.map(|p| row!("first element", p, p.users as usize * p.places(), elements(p))));
    for p in [p, plan(8, 7, 1, 16), plan(8, 5, 1, 16)] {
        let round = Round::new(p, &mut Random(7));
        for replies in [p.threshold, p.users] {
            rows.push(row!(format!("finish of {replies} replies"), p, 1, finish(&round, replies, 0)));
        }
    }
    // all users reply, one of them falsely: the first; the last of those from whose replies finish solves at first, for whom it solves most
    // often; the last of all
    for p in [p, plan(8, 5, 1, 16)] {
        let round = Round::new(p, &mut Random(8));
        for user in [1, p.threshold, p.users] {
            rows.push(row!(format!("finish with aside {user}"), p, 1, finish(&round, p.users, user)));
        }
    }
    rows
}

/// What bench/proofs wrote: users and seconds.
fn proofs() -> Vec<(u32, f64)> {
    let lines = fs::read_to_string("target/bench/proofs").unwrap();
    let pair = |line: &str| line.split_once(' ').map(|(users, time)| (users.parse().unwrap(), time.parse().unwrap()));
    lines.lines().filter_map(pair).collect()
}

fn method() -> String {
    let cpus = fs::read_to_string("/proc/cpuinfo").unwrap();
    let model = cpus.lines().find_map(|line| line.strip_prefix("model name")).unwrap_or("an unnamed processor");
    let load = fs::read_to_string("/proc/loadavg").unwrap();
    format!(
        "Measured on {}, with a load of {} at the end (1 is this run alone). The contenders take turns, and of each the least time \
         counts: of {RUNS} runs of a program, of {BATCHES} batches of calls. All are compiled by LLVM at -O3 for plain x86-64.",
        model.trim_start_matches(['\t', ' ', ':']),
        load.split(' ').next().unwrap()
    )
}
