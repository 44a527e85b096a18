//! The round of an end and of its list, and notices for other rounds, which no end answers.
mod common;

use common::{sealed, Folder, Said};

/// With the list of the example, of which the ends of airfields 1 to 3 are made for a round.
fn with_ends_for(name: &str, round: &str) -> Folder {
    let folder = Folder::new(name);
    let list = format!("cutawheno list 2\nlist {}\nplan 3 2 1 1\nends 0\nelements 100 200 300 12 60 40 120\n", "0".repeat(32));
    folder.write("list", &sealed(&list), 0o600);
    for airfield in ["1", "2", "3"] {
        folder.airfield(&["key", "list", airfield, round, &format!("end{airfield}")]).done();
    }
    folder
}

fn reply(folder: &Folder, end: &str, round: &str, set: &str) -> Said {
    folder.airfield(&["reply", end, round, set])
}

/// Refused with just these words, nothing printed, and no byte of the end changed.
#[track_caller]
fn refused(folder: &Folder, end: &str, round: &str, set: &str, told: &str) {
    let before = (folder.read(end), folder.names());
    let said = reply(folder, end, round, set);
    assert_eq!((said.status, said.output.as_str(), said.error), (Some(1), "", format!("airfield: refused {told}\n")));
    assert_eq!((folder.read(end), folder.names()), before);
}

/// The request's case: a late notice for last week's round names the same airfields. It is refused before the own notice, which is answered
/// afterwards, and after it, also for the very set that was answered; and that one is answered again. The shares are those of document 01.
#[test]
fn a_late_notice_is_not_answered() {
    let folder = with_ends_for("late", "7");
    for (end, figure, message) in [("end1", "10", 110), ("end3", "30", 330)] {
        let airfield = &end[3..];
        let comment = format!("# list 00000000 airfield {airfield} round 7\n");
        assert_eq!(folder.airfield(&["first", end, figure]).done(), format!("{comment}first {airfield} 0 {message}\n"));
    }
    for (end, share) in [("end1", 220), ("end3", 112)] {
        let answer = format!("# list 00000000 airfield {} round 7\nreply {} 0 {share}\n", &end[3..], &end[3..]);
        let wait = "wait for the notice of round 7";
        for (round, set) in [("6", "5"), ("8", "5"), ("0", "7"), ("4294967295", "5"), ("4294967294", "7"), ("65543", "5")] {
            let why = format!("set {set} is announced for round {round}, and {end} is for round 7, the only one that its key serves");
            refused(&folder, end, round, set, &format!("33: {why}; {wait}"));
        }
        assert_eq!(reply(&folder, end, "7", "5").done(), answer);
        for (round, set) in [("6", "5"), ("8", "5"), ("8", "7"), ("4294967295", "5")] {
            let why = format!("set {set} is announced for round {round}, and {end} is for round 7, the only one that its key serves");
            refused(&folder, end, round, set, &format!("33: {why}; of round 7 it has answered set 5"));
        }
        assert_eq!(reply(&folder, end, "7", "5").done(), answer);
    }
}

/// 18, 5, 6, 33, 19: another round tells only where nothing earlier does, and before another set.
#[test]
fn another_round_is_refused_in_its_place() {
    let folder = with_ends_for("place", "7");
    refused(&folder, "end1", "8", "5", "18: end1 has given no first message yet");
    refused(&folder, "end1", "8", "1", "18: end1 has given no first message yet");
    folder.airfield(&["first", "end1", "10"]).done();
    for _ in 0..2 {
        refused(&folder, "end1", "8", "1", "5: set 1 is airfields 1; wanted are at least 2 of 1 to 3");
        refused(&folder, "end1", "8", "9", "5: set 9 is above 7, which is all of airfields 1 to 3");
        refused(&folder, "end1", "8", "6", "6: airfield 1 is not in set 6, which is airfields 2 3");
        reply(&folder, "end1", "8", "5").failed(&["refused 33"]);
        reply(&folder, "end1", "8", "7").failed(&["refused 33"]);
        reply(&folder, "end1", "7", "5").done();
    }
    refused(&folder, "end1", "7", "7", "19: end1 has answered set 5, and a key never answers two");
}

/// Every number of four bytes is a round, the first and the last too; what is larger, or no number, is not understood, and is never taken
/// for another round.
#[test]
fn rounds_go_from_0_to_4294967295() {
    for (name, round, others) in [
        ("first-round", "0", ["1", "4294967295", "2147483648"]),
        ("last-round", "4294967295", ["0", "4294967294", "2147483647"]),
        ("high-round", "65536", ["0", "1", "65537"]),
    ] {
        let folder = with_ends_for(name, round);
        assert_eq!(folder.numbers("end1", "round"), [round.parse().unwrap()]);
        assert!(folder.airfield(&["status", "end1"]).done().starts_with(&format!("end of airfield 1, for round {round}\n")));
        let status = folder.airfield(&["status", "list"]).done();
        assert!(status.ends_with(&format!("ends made: airfields 1 2 3, for round {round}\n")), "{status}");
        folder.airfield(&["first", "end1", "10"]).done();
        for other in others {
            reply(&folder, "end1", other, "5").failed(&["refused 33", &format!("wait for the notice of round {round}\n")]);
        }
        assert_eq!(reply(&folder, "end1", round, "5").done(), format!("# list 00000000 airfield 1 round {round}\nreply 1 0 220\n"));
    }
}

#[test]
fn what_is_no_round_is_not_understood() {
    let folder = with_ends_for("no-round", "4294967295");
    folder.airfield(&["first", "end1", "10"]).done();
    folder.airfield(&["list", "3", "2", "1", "1", "spare"]).done();
    let before = ["end1", "spare"].map(|name| folder.read(name));
    for word in ["4294967296", "4294967302", "8589934591", "18446744073709551623", "99999999999999999999", "-1", "+7", "7.0", "x", "", " 7"]
    {
        let told = ["ROUND: a whole number from 0 to 4294967295 is wanted, and ", "is found"];
        reply(&folder, "end1", word, "5").ended(2, &told);
        folder.airfield(&["key", "spare", "1", word, "new"]).ended(2, &told);
    }
    // the words as they were before there were rounds
    folder.airfield(&["reply", "end1", "5"]).ended(2, &["reply takes END ROUND SET, and 2 words are given"]);
    folder.airfield(&["key", "spare", "1", "new"]).ended(2, &["key takes LIST AIRFIELD ROUND END [counts|signed], and 3 words are given"]);
    folder.airfield(&["key", "spare", "1", "new", "signed"]).ended(2, &["ROUND: a whole number", "new is found"]);
    assert_eq!(["end1", "spare"].map(|name| folder.read(name)), before);
    assert_eq!(folder.names(), ["end1", "end2", "end3", "list", "spare"]);
    // zeros before a number are none of its digits
    assert!(reply(&folder, "end1", "0004294967295", "5").done().contains("round 4294967295\nreply 1 0 220\n"));
}

/// Shows that the first end gives a list its round, and that no end for another one comes from it: its keys are private for one round alone.
#[test]
fn all_ends_of_a_list_have_one_round() {
    let folder = Folder::new("one-round");
    folder.airfield(&["list", "3", "2", "1", "1", "list"]).done();
    assert!(!String::from_utf8(folder.read("list")).unwrap().contains("round"));
    assert!(folder.airfield(&["status", "list"]).done().ends_with("ends made: no airfields\n"));
    // what is refused gives it none
    folder.airfield(&["key", "list", "4", "6", "end4"]).failed(&["refused 4: no airfield 4"]);
    folder.airfield(&["key", "list", "1", "6", "list"]).failed(&["list: something stands there already"]);
    assert!(!String::from_utf8(folder.read("list")).unwrap().contains("round"));
    folder.airfield(&["key", "list", "2", "7", "end2"]).done();
    assert_eq!((folder.numbers("list", "ends"), folder.numbers("list", "round")), (vec![2], vec![7]));
    let list = folder.read("list");
    for (airfield, round) in [("1", "8"), ("2", "8"), ("3", "0"), ("1", "4294967295"), ("1", "6")] {
        let said = folder.airfield(&["key", "list", airfield, round, "other"]);
        said.failed(&["list: its ends are for round 7, and a list serves one round; draw a new list for round ", round]);
        assert!(!said.error.contains("refused"), "{}", said.error);
    }
    folder.airfield(&["key", "list", "4", "8", "other"]).failed(&["refused 4: no airfield 4"]);
    assert_eq!((folder.read("list"), folder.names()), (list, vec!["end2".to_string(), "list".to_string()]));
    folder.airfield(&["key", "list", "1", "7", "end1"]).done();
    folder.airfield(&["key", "list", "2", "7", "other"]).failed(&["list: the end of airfield 2 was made from it already"]);
    folder.airfield(&["key", "list", "3", "7", "end3", "signed"]).done();
    assert!(folder.airfield(&["status", "list"]).done().ends_with("ends made: airfields 1 2 3, for round 7\n"));
    assert_eq!(["end1", "end2", "end3"].map(|end| folder.numbers(end, "round")[0]), [7; 3]);
}

/// Shows that files of version 1, which tell no round, are refused by every command that would use them, and can be destroyed.
#[test]
fn files_of_before_are_refused_and_can_be_destroyed() {
    let folder = Folder::new("before-rounds");
    let head = |kind: &str| format!("cutawheno {kind} 1\nlist {}\nplan 3 2 1 1\n", "0".repeat(32));
    let key = "key 100 154 220 340\n";
    let files = [
        ("list", head("list") + "ends 1\nelements 100 200 300 12 60 40 120\n"),
        ("fresh", head("end") + "airfield 1\nstage fresh\n" + key),
        ("sent", head("end") + "airfield 1\nstage sent\n" + key + "message 110\n"),
        ("answered", head("end") + "airfield 1\nuse signed\nstage answered 5\n" + key + "message 110\n"),
    ];
    for (name, body) in &files {
        folder.write(name, &sealed(body), 0o600);
    }
    let version = |name: &str| format!("airfield: {name}: it is of version 1, and this tool reads version 2\n");
    let old = |words: &[&str], name: &str| {
        let said = folder.airfield(words);
        assert_eq!((said.status, said.output.as_str(), said.error), (Some(1), "", version(name)));
    };
    old(&["status", "list"], "list");
    old(&["key", "list", "2", "7", "new"], "list");
    for name in ["fresh", "sent", "answered"] {
        old(&["status", name], name);
        old(&["first", name, "10"], name);
        old(&["again", name], name);
        for round in ["0", "7"] {
            old(&["reply", name, round, "5"], name);
        }
    }
    assert!(files.iter().all(|(name, body)| folder.read(name) == sealed(body)));
    assert_eq!(folder.names(), ["answered", "fresh", "list", "sent"]);
    folder.airfield(&["destroy", "list", "fresh", "sent", "answered"]).done();
    assert!(folder.names().is_empty());
}
