//! The stream's order of refusals, the text form, and the programs.

use reference::stream::{run, to_bytes, Damage, Record, Records};
use reference::text::{decode, encode};
use std::io::Write;
use std::process::{Command, Output, Stdio};

const EXAMPLE: &str = "plan 3 2 1 1\nopen 7\nfirst 1 0 110\nfirst 3 0 330\nclose\nfirst 2 0 220\n\
        reply 1 0 220\nreply 3 0 112\nfinish\n";

/// The lines printed for records given as text.
fn lines(text: &str) -> String {
    run(&encode(text).unwrap())
}

fn program(path: &str, arguments: &[&str], input: &[u8]) -> Output {
    let mut child = Command::new(path)
        .args(arguments)
        .stdin(Stdio::piped())
        .stdout(Stdio::piped())
        .stderr(Stdio::piped())
        .spawn()
        .unwrap();
    child.stdin.take().unwrap().write_all(input).unwrap();
    child.wait_with_output().unwrap()
}

#[test]
fn text_and_bytes_round_trip() {
    let ends = "plan 0 255 0 255\nopen 0\nopen 4294967295\nfirst 255 65535 65535\n\
        reply 255 255 65535\n";
    for text in [EXAMPLE, ends] {
        assert_eq!(decode(&encode(text).unwrap()), (text.to_string(), Ok(())));
    }
    assert_eq!(encode("\n  close # the end\n# only this\n"), Ok(vec![4]));
}

#[test]
fn encode_names_what_does_not_fit() {
    let fault = |text| encode(text).unwrap_err();
    assert_eq!(
        fault("close\nopen 4294967296"),
        "line 2: round 4294967296 is not a number from 0 to 4294967295"
    );
    assert_eq!(fault("first 256 0 0"), "line 1: airfield 256 is not a number from 0 to 255");
    assert_eq!(fault("first 1 0 65536"), "line 1: element 65536 is not a number from 0 to 65535");
    assert_eq!(fault("reply 1 +1 0"), "line 1: block +1 is not a number from 0 to 255");
    assert_eq!(fault("plan 3 2 1"), "line 1: plan takes [K U T M], not 3 numbers");
    assert_eq!(fault("start"), "line 1: no kind is called start");
}

#[test]
fn decode_names_where_the_damage_is() {
    let (text, result) = decode(&[4, 6, 3, 1, 0]);
    assert_eq!(text, "close\nfinish\n");
    assert_eq!(result.unwrap_err(), "byte 2: kind 03 cut short: 2 of 5 body bytes");
    assert_eq!(decode(&[7, 4]).1.unwrap_err(), "byte 0: unknown kind 07");
}

#[test]
fn damage_comes_last() {
    let found: Vec<_> = Records::new(&[4, 9, 4, 4]).collect();
    assert_eq!(found, [(0, Ok(Record::Close)), (1, Err(Damage::UnknownKind(9)))]);
    assert_eq!(run(&[4, 9, 4, 4]), "refused 11 at 0\nrefused 7 at 1\n");
    assert_eq!(run(&[1, 3, 2, 1]), "refused 7 at 0\n");
    assert_eq!(run(&[]), "");
}

#[test]
fn a_refused_plan_leaves_room_for_another() {
    let text = "close\nplan 3 3 1 1\nplan 3 2 1 1\nplan 3 3 1 1\n";
    assert_eq!(lines(text), "refused 11 at 0\nrefused 1 at 1\nplan 3 2 1 1\nrefused 11 at 11\n");
}

#[test]
fn elements_are_refused_in_order() {
    let text = "plan 3 2 1 1\nfirst 0 1 65521\nopen 1\nfirst 0 1 65521\nfirst 1 1 65521\n\
        first 1 0 65521\nfirst 1 0 5\nfirst 1 0 65521\nfirst 1 0 6\n";
    let refused = [(12, 5), (4, 16), (8, 22), (3, 28), (3, 40), (13, 46)];
    let expected: String =
        refused.map(|(number, offset)| format!("refused {number} at {offset}\n")).concat();
    assert_eq!(lines(text).replace("plan 3 2 1 1\n", "").replace("open 1\n", ""), expected);
}

#[test]
fn replies_are_refused_in_order() {
    let closed = "plan 3 2 1 1\nopen 1\nfirst 1 0 5\nfirst 3 0 5\nclose\n";
    let text = "reply 4 1 65521\nreply 2 1 65521\nreply 2 0 65521\nreply 2 0 0\nreply 1 0 0\n\
        reply 1 0 1\n";
    let output = lines(&format!("{closed}{text}"));
    let numbers: Vec<&str> = output
        .lines()
        .filter(|line| line.starts_with("refused"))
        .map(|line| &line[8..10])
        .collect();
    assert_eq!(numbers, ["4 ", "8 ", "3 ", "14", "13"]);
}

#[test]
fn what_was_held_before_is_not_used() {
    let text = "plan 3 2 1 1\nopen 1\nfirst 1 0 110\nfirst 2 0 9\nopen 2\nfirst 1 0 110\nclose\n\
        first 3 0 330\nclose\nreply 1 0 220\nreply 3 0 112\nfinish\nfinish\n";
    let expected = "plan 3 2 1 1\nopen 1\nopen 2\nrefused 15 at 33\nsurvivors 2 5\ntotal 2 40\n\
        refused 12 at 52\n";
    assert_eq!(lines(text), expected);
}

#[test]
fn programs_agree_with_the_library() {
    let bytes = encode(EXAMPLE).unwrap();
    let printed = program(env!("CARGO_BIN_EXE_reference"), &[], &bytes).stdout;
    assert_eq!(printed, run(&bytes).as_bytes());
    let generated = program(env!("CARGO_BIN_EXE_generate"), &["rounds", "5", "3"], &[]).stdout;
    assert_eq!(generated, to_bytes(&reference::material::rounds::records(5, 3)));
}

#[test]
fn generate_fails_with_status_1() {
    let output = program(env!("CARGO_BIN_EXE_generate"), &["rounds"], &[]);
    assert_eq!(output.status.code(), Some(1));
    assert!(!output.stderr.is_empty());
}
