//! `records`: words to bytes and back, as they come, with every fault told.
mod common;

use common::{Folder, RECORDS};
use reference::text::encode;
use std::io::{Read, Write};
use std::process::{ChildStdin, ChildStdout, Stdio};

const EXAMPLE: &str = "plan 3 2 1 1\nopen 7\nfirst 1 0 110\nfirst 3 0 330\nclose\nfirst 2 0 220\n\
        reply 1 0 220\nreply 3 0 112\nfinish\n";
const ENDS: &str = "plan 0 255 0 255\nopen 0\nopen 4294967295\nfirst 255 65535 65535\nreply 255 255 65535\n";

#[test]
fn decode_is_the_inverse_of_encode() {
    let folder = Folder::new("inverse");
    let long = EXAMPLE.repeat(5000);
    for text in [EXAMPLE, ENDS, &long, ""] {
        folder.write("words", text.as_bytes(), 0o600);
        assert_eq!(folder.shell("set -o pipefail; \"$RECORDS\" encode < words > bytes && \"$RECORDS\" decode < bytes").done(), text);
        assert_eq!(folder.read("bytes"), encode(text).unwrap());
    }
    let bytes = folder.with_input(RECORDS, &["encode"], b"\n  close # the end \xff\n# only this\r\n\tclose\r\nfinish\n# no end").done();
    assert_eq!(bytes.as_bytes(), [4, 4, 6]);
}

/// A run of the tool that is fed and read bit by bit, and ends if it keeps something back.
fn alive(folder: &Folder, command: &str) -> (ChildStdin, ChildStdout, std::process::Child) {
    let mut child = folder.command("timeout", &["20", RECORDS, command]).stdin(Stdio::piped()).spawn().unwrap();
    (child.stdin.take().unwrap(), child.stdout.take().unwrap(), child)
}

/// Shows that each line, and each record, comes out while the input is still open.
#[test]
fn lines_and_records_are_handed_on_as_they_come() {
    let folder = Folder::new("alive");
    let (mut input, mut output, child) = alive(&folder, "encode");
    let (mut words, mut bytes, other) = alive(&folder, "decode");
    for line in EXAMPLE.split_inclusive('\n') {
        let mut record = vec![0; encode(line).unwrap().len()];
        input.write_all(line.as_bytes()).unwrap();
        output.read_exact(&mut record).unwrap();
        assert_eq!(record, encode(line).unwrap());
        for byte in record {
            words.write_all(&[byte]).unwrap();
        }
        let mut told = vec![0; line.len()];
        bytes.read_exact(&mut told).unwrap();
        assert_eq!(told, line.as_bytes());
    }
    drop((input, words));
    assert_eq!([child, other].map(|child| child.wait_with_output().unwrap().status.code()), [Some(0); 2]);
}

/// Shows that a bad line ends the run with its number; what stood before it is written, and nothing behind it.
#[test]
fn a_bad_line_or_record_ends_the_run() {
    let folder = Folder::new("bad");
    let encoded = |text: &[u8], told: &str, written: &[u8]| {
        let said = folder.with_input(RECORDS, &["encode"], text);
        assert_eq!((said.status, said.output.as_bytes()), (Some(1), written));
        assert!(said.error.contains(told), "{}", said.error);
    };
    encoded(b"close\nopen 4294967296\nclose\n", "line 2: round 4294967296 is not a number from 0 to 4294967295", &[4]);
    encoded(b"close\nclose\nopen -1", "line 3: round -1 is not a number", &[4, 4]);
    encoded(b"plan 3 2 1\n", "line 1: plan takes [K U T M], not 3 numbers", &[]);
    encoded(b"# x\n\nstart\n", "line 3: no kind is called start", &[]);
    encoded(b"\xff\x1b[2J\n", "line 1: no kind is called", &[]);
    encoded(&[b'x'; 100000], "line 1 is longer than 65536 bytes", &[]);
    // a line that a full disk has cut is no record, though it reads as one
    encoded(b"close\nfirst 1 3 532", "line 2 is cut short: it has no end", &[4]);
    encoded(b"finish", "line 1 is cut short: it has no end", &[]);
    encoded(b"close\nfirst 1 3", "line 2: first takes", &[4]);
    let decoded = |bytes: &[u8], told: &str, written: &str| {
        let said = folder.with_input(RECORDS, &["decode"], bytes);
        assert_eq!((said.status, said.output.as_str()), (Some(1), written));
        assert!(said.error.contains(told), "{}", said.error);
    };
    decoded(&[4, 6, 3, 1, 0], "byte 2: kind 03 cut short: 2 of 5 body bytes", "close\nfinish\n");
    decoded(&[7, 4], "byte 0: unknown kind 07", "");
    decoded(&[vec![4; 20000], vec![9]].concat(), "byte 20000: unknown kind 09", &"close\n".repeat(20000));
}

/// Shows that no failed write or read passes in silence.
#[test]
fn failed_writes_and_reads_are_told() {
    let folder = Folder::new("writes");
    folder.write("words", EXAMPLE.as_bytes(), 0o600);
    folder.write("bytes", &encode(EXAMPLE).unwrap(), 0o600);
    for command in ["encode < words", "decode < bytes"] {
        folder.shell(&format!("\"$RECORDS\" {command} > /dev/full")).failed(&["standard output: No space left"]);
        folder.shell(&format!("\"$RECORDS\" {command} >&-")).failed(&["standard output is closed"]);
        folder.shell(&format!("\"$RECORDS\" {command} 1< /dev/null")).failed(&["standard output: Bad file descriptor"]);
        folder.shell(&format!("exec > >(true); wait $!; \"$RECORDS\" {command}")).failed(&["standard output: Broken pipe"]);
    }
    for command in ["encode", "decode"] {
        folder.shell(&format!("\"$RECORDS\" {command} < /")).failed(&["standard input: Is a directory"]);
        folder.shell(&format!("\"$RECORDS\" {command} <&-")).failed(&["standard input is closed"]);
        folder.shell(&format!("\"$RECORDS\" {command} 0> file")).failed(&["standard input: Bad file descriptor"]);
    }
}

/// Shows that keys of two lists in one round are told, and in two rounds are not; also where a comment names no round, as those of earlier
/// builds. Comments of any other shape name no list.
#[test]
fn a_mixed_up_round_is_warned_of() {
    let folder = Folder::with_ends("mixed");
    folder.airfield(&["list", "3", "2", "1", "1", "other"]).done();
    folder.airfield(&["key", "other", "3", "8", "end"]).done();
    let message = |end: &str| folder.airfield(&["first", end, "1"]).done();
    let [one, two, other] = ["end1", "end2", "end"].map(message);
    assert_eq!(warning(&folder, &format!("plan 3 2 1 1\nopen 7\n{one}{two}open 8\n{other}")), "");
    let other = other.replace(" round 8", "");
    let mixed = warning(&folder, &format!("plan 3 2 1 1\nopen 7\n{one}{other}"));
    assert!(mixed.contains("warning: line 5: airfield 3 has a key of list") && mixed.contains("line 3 names list"), "{mixed}");
    assert!(mixed.ends_with(": keys of two lists give no true total\n") && mixed.lines().count() == 1, "{mixed}");
    for more in ["again", "round", "again 8", "round 8 again"] {
        let comment = format!("# list the airfield 3 {more}\n");
        assert_eq!(warning(&folder, &format!("plan 3 2 1 1\nopen 7\n{comment}{one}{comment}")), "");
    }
}

/// What `records encode` says of records that it takes.
fn warning(folder: &Folder, text: &str) -> String {
    let said = folder.with_input(RECORDS, &["encode"], text.as_bytes());
    assert_eq!((said.status, said.output.len() > 10), (Some(0), true));
    said.error
}

/// Shows that a message under a key of another round than the one opened last is told, also behind its finish: its end will answer no set of
/// this round. Where none was opened there is nothing to compare.
#[test]
fn a_message_for_another_round_is_warned_of() {
    let folder = Folder::with_ends("rounds");
    let message = folder.airfield(&["first", "end1", "1"]).done();
    let told = |line: u32, at: u32, opened: &str| {
        format!(
            "records: warning: line {line}: airfield 1 has a key for round 7, but line {at} opens round {opened}: \
             its end answers no set that is announced for this round\n"
        )
    };
    assert_eq!(warning(&folder, &format!("plan 3 2 1 1\nopen 7\n{message}{message}")), "");
    assert_eq!(warning(&folder, &format!("plan 3 2 1 1\n{message}open 7\n")), "");
    for opened in ["8", "0", "70", "4294967295"] {
        assert_eq!(warning(&folder, &format!("plan 3 2 1 1\nopen {opened}\n{message}")), told(3, 2, opened));
    }
    assert_eq!(warning(&folder, &format!("plan 3 2 1 1\nopen 7\n{message}open 8\n{message}open 7\n{message}")), told(6, 5, "8"));
    assert_eq!(warning(&folder, &format!("plan 3 2 1 1\nopen 8\nclose\nfinish\n{message}")), told(5, 2, "8"));
}
