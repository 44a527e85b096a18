//! Instructions, counted by callgrind: unlike times they are the same in every run. Where valgrind is missing there are none.
use std::fs::{self, File};
use std::process::{Command, Stdio};

const MEASURE: &str = "target/bench/best/measure";
const FOLDER: &str = "target/bench/counts";

/// Of a call, for each row, of one side.
pub fn of_calls(side: usize) -> Vec<f64> {
    let _ = fs::remove_dir_all(FOLDER);
    fs::create_dir(FOLDER).unwrap();
    let mut callgrind = callgrind();
    callgrind.args(["--toggle-collect=counted", "--dump-after=counted", MEASURE, "count", &side.to_string()]);
    let Ok(output) = callgrind.output() else { return vec![] };
    assert!(output.status.success());
    let calls = String::from_utf8(output.stdout).unwrap();
    let of_row =
        |(row, calls): (usize, &str)| total(&format!("{FOLDER}/counts.{row}")).unwrap() / calls.parse::<f64>().unwrap();
    (1..).zip(calls.lines()).map(of_row).collect()
}

/// Of a run of a program over a file.
pub fn of_run(program: &str, input: &str) -> Option<f64> {
    let status =
        callgrind().arg(program).stdin(File::open(input).unwrap()).stdout(Stdio::null()).stderr(Stdio::null()).status();
    status.ok().filter(|status| status.success()).and_then(|_| total(&format!("{FOLDER}/counts")))
}

fn callgrind() -> Command {
    let mut command = Command::new("valgrind");
    command.args(["--tool=callgrind", &format!("--callgrind-out-file={FOLDER}/counts")]);
    command
}

fn total(file: &str) -> Option<f64> {
    let text = fs::read_to_string(file).ok()?;
    let line = text.lines().find_map(|line| line.strip_prefix("totals: ").or(line.strip_prefix("summary: ")))?;
    line.trim().parse().ok()
}
