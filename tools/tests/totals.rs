//! `totals`: totals as they are meant, asides and all other lines as they come, with every fault told.
mod common;

use common::{Folder, TOTALS};
use std::io::{Read, Write};
use std::process::Stdio;

const USES: [&str; 2] = ["counts", "signed"];

/// Document 01's example, with a total that no count gives.
const LINES: &str = "plan 3 2 1 1\nopen 7\nsurvivors 7 5\nrefused 12 at 23\ntotal 7 65507\n";
const READ: &str = "plan 3 2 1 1\nopen 7\nsurvivors 7 5\nrefused 12 at 23\ntotal 7 -14\n";

#[test]
fn totals_are_read_by_their_use() {
    let folder = Folder::new("totals");
    for (lines, read) in [
        (LINES, READ),
        ("total 0 0\n", "total 0 0\n"),
        ("total 4294967295 0 1 32760 32761 65520\n", "total 4294967295 0 1 32760 -32760 -1\n"),
        // the round is no total, and neither is an offset
        ("total 65507 14\nrefused 12 at 65507\nopen 65507\n", "total 65507 14\nrefused 12 at 65507\nopen 65507\n"),
        ("total 7 40000 2\r\ntotal 8 2 40000\n", "total 7 -25521 2\r\ntotal 8 2 -25521\n"),
    ] {
        assert_eq!(folder.with_input(TOTALS, &["counts"], lines.as_bytes()).done(), lines);
        assert_eq!(folder.with_input(TOTALS, &["signed"], lines.as_bytes()).done(), read);
    }
}

/// Every total there is, 96 in a line as the longest row has; zero has no minus.
#[test]
fn every_total_is_read() {
    let folder = Folder::new("every");
    let lines_of = |numbers: Vec<i32>| -> String {
        let line = |row: &[i32]| format!("total 1 {}\n", row.iter().map(i32::to_string).collect::<Vec<_>>().join(" "));
        numbers.chunks(96).map(line).collect()
    };
    let residues = lines_of((0..=65520).collect());
    let read = lines_of((0..=32760).chain(-32760..=-1).collect());
    folder.write("lines", residues.as_bytes(), 0o600);
    assert_eq!(folder.shell("\"$TOTALS\" signed < lines").done(), read);
    assert_eq!(folder.shell("\"$TOTALS\" counts < lines").done(), residues);
}

/// Shows that an airfield set aside is told on, with the total of its round as it is meant, whichever the round and the airfield.
#[test]
fn asides_pass_as_they_are() {
    let folder = Folder::new("asides");
    for (lines, read) in [
        ("aside 7 3\ntotal 7 65507\n", "aside 7 3\ntotal 7 -14\n"),
        ("aside 0 1\ntotal 0 0\n", "aside 0 1\ntotal 0 0\n"),
        ("open 9\naside 4294967295 8\ntotal 4294967295 40000 2\n", "open 9\naside 4294967295 8\ntotal 4294967295 -25521 2\n"),
        ("aside 65507 5\r\ntotal 65507 1\r\ntotal 8 65520\n", "aside 65507 5\r\ntotal 65507 1\r\ntotal 8 -1\n"),
        ("aside 1 2\ntotal 1 5\naside 2 2\ntotal 2 65520\n", "aside 1 2\ntotal 1 5\naside 2 2\ntotal 2 -1\n"),
    ] {
        assert_eq!(folder.with_input(TOTALS, &["counts"], lines.as_bytes()).done(), lines);
        assert_eq!(folder.with_input(TOTALS, &["signed"], lines.as_bytes()).done(), read);
    }
}

/// Shows that an aside must have the total of its round right behind it; the aside itself is handed on.
#[test]
fn an_aside_without_its_total_ends_the_run() {
    let folder = Folder::new("alone");
    let behind = "behind `aside` the total of round 7 is wanted";
    let cut = "it is cut short: it has no end";
    for (lines, told) in [
        ("", format!("standard input ends: {behind}")),
        ("open 8\ntotal 7 5\n", format!("line 3: {behind}")),
        ("\n", format!("line 3: {behind}")),
        ("tota", format!("line 3: {behind}")),
        ("refused 12 at 23\n", format!("line 3: {behind}")),
        ("total 8 5\n", format!("line 3: {behind}")),
        ("aside 7 3\ntotal 7 5\n", format!("line 3: {behind}")),
        ("total 7 5", format!("line 3: {cut}")),
        ("total 7 65521\n", "line 3: refused 3: total 1 is 65521, above 65520".to_string()),
    ] {
        for usage in USES {
            let said = folder.with_input(TOTALS, &[usage], format!("open 7\naside 7 3\n{lines}").as_bytes());
            assert_eq!((said.status, said.output.as_str()), (Some(1), "open 7\naside 7 3\n"), "{lines}");
            assert_eq!(said.error, format!("totals: {told}\n"));
        }
    }
}

/// Bytes of every value, no line end or another one, and words that only look like a total's or an aside's.
#[test]
fn other_lines_pass_as_they_are() {
    let folder = Folder::new("other_lines");
    let every: Vec<u8> = (0..=255).collect();
    let long = [vec![b'x'; 65535], b"\n".to_vec()].concat();
    let tails = [&b""[..], b"refused 7 at 40", b"\xff", b"open 1\r", b"tota", b"asid"];
    for tail in tails {
        let looks: &[u8] = b"totals 7 65507\nTotal 7 65507\n\n\n \r\nsubtotal 65507\n# total 7 65507\n\xfftotal 7 65507\n\
            asides 7 3\nAside 7 3\nbeside 7 3\n# aside 7 3\n";
        folder.write("lines", &[LINES.as_bytes(), &every, b"\n", looks, &long, b"total 8 0\n", tail].concat(), 0o600);
        folder.write("wanted", &[READ.as_bytes(), &every, b"\n", looks, &long, b"total 8 0\n", tail].concat(), 0o600);
        folder.shell("\"$TOTALS\" counts < lines | cmp - lines").done();
        folder.shell("\"$TOTALS\" signed < lines | cmp - wanted").done();
    }
}

/// Shows that a bad line ends the run with its number; what stood before it is written, and nothing behind it.
#[test]
fn a_bad_line_ends_the_run() {
    let folder = Folder::new("bad_totals");
    let refused = |line: &[u8], told: &str| {
        for usage in USES {
            let said = folder.with_input(TOTALS, &[usage], &[b"open 1\ntotal 1 5\n", line].concat());
            assert_eq!((said.status, said.output.as_str()), (Some(1), "open 1\ntotal 1 5\n"));
            assert_eq!(said.error, format!("totals: line 3{told}\n"));
        }
    };
    refused(b"total 2 65521\nopen 3\n", ": refused 3: total 1 is 65521, above 65520");
    refused(b"total 2 1 65535 65521\n", ": refused 3: total 2 is 65535, above 65520");
    refused(b"total 2 65536\n", ": refused 3: total 1 is 65536, above 65520");
    refused(b"total 2 0 4294967296\n", ": refused 3: total 2 is 4294967296, above 65520");
    refused(b"total 2 4295032832\n", ": refused 3: total 1 is 4295032832, above 65520");
    refused(b"total 2 99999999999999999999\n", ": refused 3: total 1 is 99999999999999999999, above 65520");
    refused(b"total 2 4", ": it is cut short: it has no end");
    refused(b"total 2 4\r", ": it is cut short: it has no end");
    refused(b"total", ": it is cut short: it has no end");
    let number = |what: &str, found: &str| format!(": it is damaged: {what} is {found}, and a number as `pool` prints it is wanted");
    refused(b"total 2 -14\n", &number("total 1", "-14"));
    refused(b"total 2 5 -0\n", &number("total 2", "-0"));
    refused(b"total 2 +5\n", &number("total 1", "+5"));
    refused(b"total 2 05\n", &number("total 1", "05"));
    refused(b"total 2 00\n", &number("total 1", "00"));
    refused(b"total 2 5 \n", &number("total 2", "\"\""));
    refused(b"total 2  5\n", &number("total 1", "\"\""));
    refused(b"total 2 5\t6\n", &number("total 1", "\"5\\t6\""));
    refused(b"total 2 5\r\r\n", &number("total 1", "\"5\\r\""));
    refused(b"total 2 5\xff\n", &number("total 1", "\"5\\xff\""));
    refused(b"total 2 \xd9\xa1\n", &number("total 1", "\"\\xd9\\xa1\""));
    refused(b"total x 5\n", &number("the round", "x"));
    refused(b"total -1 5\n", &number("the round", "-1"));
    refused(b"total 4294967296 5\n", ": it is damaged: the round is 4294967296, above 4294967295");
    let form = ": it is damaged: `total`, a round and 1 to 96 totals are wanted, with one space between";
    refused(b"total\n", form);
    refused(b"total 2\n", form);
    refused(b" total 2 5\n", form);
    refused(b"total\t2 5\n", form);
    refused(b"\ttotal 2 65507\n", form);
    refused(format!("total 2{}\n", " 1".repeat(97)).as_bytes(), form);
    refused(b"aside 2 3", ": it is cut short: it has no end");
    refused(b"aside", ": it is cut short: it has no end");
    refused(b"aside 2 0\ntotal 2 5\n", ": it is damaged: the airfield is 0, and one from 1 to 8 is wanted");
    refused(b"aside 2 9\ntotal 2 5\n", ": it is damaged: the airfield is 9, and one from 1 to 8 is wanted");
    refused(b"aside 2 257\ntotal 2 5\n", ": it is damaged: the airfield is 257, and one from 1 to 8 is wanted");
    refused(b"aside 2 03\ntotal 2 5\n", &number("the airfield", "03"));
    refused(b"aside 2 +3\ntotal 2 5\n", &number("the airfield", "+3"));
    refused(b"aside x 3\ntotal 2 5\n", &number("the round", "x"));
    refused(b"aside 02 3\ntotal 2 5\n", &number("the round", "02"));
    refused(b"aside 4294967296 3\n", ": it is damaged: the round is 4294967296, above 4294967295");
    let form = ": it is damaged: `aside`, a round and an airfield are wanted, with one space between";
    for line in ["aside\n", "aside 2\n", "aside 2 3 4\n", "aside 2  3\n", "aside 2 3 \n", " aside 2 3\n", "aside\t2 3\n"] {
        refused(format!("{line}total 2 5\n").as_bytes(), form);
    }
    refused(&[b'x'; 100000], " is longer than 65536 bytes");
    refused(format!("total 2{}\n", " 1".repeat(100000)).as_bytes(), " is longer than 65536 bytes");
}

/// Shows that each line comes out while the input is still open.
#[test]
fn lines_are_handed_on_as_they_come() {
    let folder = Folder::new("as_they_come");
    let mut child = folder.command("timeout", &["20", TOTALS, "signed"]).stdin(Stdio::piped()).spawn().unwrap();
    let (mut input, mut output) = (child.stdin.take().unwrap(), child.stdout.take().unwrap());
    for (line, wanted) in LINES.split_inclusive('\n').zip(READ.split_inclusive('\n')) {
        let (start, rest) = line.split_at(2);
        let mut read = vec![0; wanted.len()];
        input.write_all(start.as_bytes()).unwrap();
        input.write_all(rest.as_bytes()).unwrap();
        output.read_exact(&mut read).unwrap();
        assert_eq!(read, wanted.as_bytes());
    }
    drop(input);
    assert_eq!(child.wait_with_output().unwrap().status.code(), Some(0));
}

/// Shows that no failed write or read passes in silence, that input without a line's end is not kept without end, and that a reader that
/// goes away ends the run.
#[test]
fn failed_writes_and_reads_are_told() {
    let folder = Folder::new("totals_writes");
    folder.write("lines", LINES.as_bytes(), 0o600);
    for usage in USES {
        let tool = format!("\"$TOTALS\" {usage}");
        folder.shell(&format!("{tool} < lines > /dev/full")).failed(&["standard output: No space left"]);
        folder.shell(&format!("{tool} < lines >&-")).failed(&["standard output is closed"]);
        folder.shell(&format!("{tool} < lines 1< /dev/null")).failed(&["standard output: Bad file descriptor"]);
        folder.shell(&format!("exec > >(true); wait $!; {tool} < lines")).failed(&["standard output: Broken pipe"]);
        folder.shell(&format!("{tool} < /")).failed(&["standard input: Is a directory"]);
        folder.shell(&format!("{tool} <&-")).failed(&["standard input is closed"]);
        folder.shell(&format!("{tool} 0> file")).failed(&["standard input: Bad file descriptor"]);
        folder.shell(&format!("ulimit -v 100000; timeout 20 {tool} < /dev/zero")).failed(&["line 1 is longer than 65536 bytes"]);
        let ended = folder.shell(&format!("yes 'total 1 65507' | timeout 20 {tool} | head -n 1; exit ${{PIPESTATUS[1]}}"));
        assert_eq!((ended.status, ended.error.contains("Broken pipe")), (Some(1), true), "{}", ended.error);
    }
}

#[test]
fn other_uses_are_not_understood() {
    let folder = Folder::new("totals_usage");
    for words in [&["Signed"][..], &["--signed"], &[""], &["signed", "signed"], &["counts", "file"]] {
        let said = common::Said::from(folder.command(TOTALS, words).output().unwrap());
        said.ended(2, &["totals: counts or signed is wanted", "totals --help tells more"]);
    }
}
