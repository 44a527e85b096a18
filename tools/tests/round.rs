//! Whole rounds of counts through `airfield` and `records`, and what the tools say.
mod common;

use common::{checksum, sealed, Folder, AIRFIELD, RECORDS, TOTALS};
use reference::client::make_key;
use reference::stream::run;
use std::ffi::OsStr;
use std::os::unix::ffi::OsStrExt;
use std::process::Stdio;

#[test]
fn the_tests_checksum_is_the_one_of_iso_3309() {
    assert_eq!(checksum(b"123456789"), 0xcbf43926);
}

#[test]
fn a_round_gives_the_survivors_total() {
    let folder = Folder::new("round");
    folder.airfield(&["list", "4", "3", "1", "2", "list"]).done();
    let figures = [["12", "0", "7", "310"], ["3", "5", "0", "205"], ["0", "0", "1", "80"], ["9", "1", "2", "16380"]];
    let mut told = "plan 4 3 1 2\nopen 7\n".to_string();
    for (airfield, row) in (1..).zip(figures) {
        let end = format!("end{airfield}");
        folder.airfield(&["key", "list", &airfield.to_string(), "7", &end]).done();
        let message = folder.airfield(&[&["first", &end], &row[..]].concat()).done();
        told += if airfield == 2 { "" } else { &message };
    }
    told += "close\n";
    for end in ["end1", "end3", "end4"] {
        told += &folder.airfield(&["reply", end, "7", "13"]).done();
    }
    told += "finish\n";
    let bytes = folder.with_input(RECORDS, &["encode"], told.as_bytes());
    assert_eq!((bytes.status, bytes.error.as_str()), (Some(0), ""));
    let stream = reference::text::encode(&told).unwrap();
    assert_eq!(run(&stream), "plan 4 3 1 2\nopen 7\nsurvivors 7 13\ntotal 7 21 1 10 16770\n");
}

/// Shows that lists are drawn anew, and that keys are those of the second implementation.
#[test]
fn lists_and_keys_are_those_of_the_plan() {
    let folder = Folder::new("keys");
    for list in ["list1", "list2"] {
        folder.airfield(&["list", "8", "2", "1", "16", list]).done();
    }
    assert_ne!(folder.read("list1"), folder.read("list2"));
    let list: Vec<u16> = folder.numbers("list1", "elements").iter().map(|&element| element.try_into().unwrap()).collect();
    assert!(list.len() == 4080 && list.iter().all(|&element| element <= 65520));
    folder.airfield(&["key", "list1", "8", "7", "end"]).done();
    let mut key = [0; 2048];
    make_key([8, 2, 1, 16], 8, &list, &mut key).unwrap();
    assert_eq!(folder.numbers("end", "key"), key.map(u32::from));
}

/// A stand-in for the system's source: what a list of plan 3 2 1 1 is made of if the source gives these bytes and then fails.
fn list_from(folder: &Folder, source: &[u8]) -> common::Said {
    folder.write("source", source, 0o600);
    let mut run = folder.shimmed(&["list", "3", "2", "1", "1", "list"], "none", "0");
    common::Said::from(run.env("SHIM_RANDOM", folder.at("source")).output().unwrap())
}

fn bytes(numbers: &[u16]) -> Vec<u8> {
    numbers.iter().flat_map(|number| number.to_le_bytes()).collect()
}

/// Shows that identity and elements are the bytes of the system's source in order, numbers that are no element left out; and that nothing
/// is made where the source fails.
#[test]
fn a_list_is_what_the_source_gave() {
    let folder = Folder::new("source");
    let identity: Vec<u8> = (0..16).map(|at| at * 17).collect();
    let drawn = bytes(&[65520, 65521, 7, 65535, 65522, 0, 256, 65519, 40000, 7, 65530, 300]);
    // two bytes for each of the 7 elements, and 64 more
    let source = [identity, drawn, vec![1; 54]].concat();
    list_from(&folder, &source).done();
    assert!(String::from_utf8(folder.read("list")).unwrap().contains("\nlist 00112233445566778899aabbccddeeff\n"));
    assert_eq!(folder.numbers("list", "elements"), [65520, 7, 0, 256, 65519, 40000, 7]);
    folder.airfield(&["destroy", "list"]).done();
    for length in [0, 15, 16, 17, 34, 93] {
        list_from(&folder, &source[..length]).failed(&["the system's source of randomness"]);
        assert_eq!(folder.names(), ["source"]);
    }
}

/// Shows that more bytes are asked for where they run out, all of them new, and that a source that gives no elements is told.
#[test]
fn more_is_drawn_where_bytes_run_out() {
    let folder = Folder::new("more");
    let first = [bytes(&[1, 2, 3, 4, 5, 6]), vec![255; 66]].concat();
    let second = [vec![255; 128], bytes(&[11, 12, 13, 14, 15, 16, 17])].concat();
    let source = [vec![0; 16], first, second].concat();
    list_from(&folder, &source).done();
    assert_eq!(folder.numbers("list", "elements"), [11, 12, 13, 14, 15, 16, 17]);
    folder.airfield(&["destroy", "list"]).done();
    list_from(&folder, &source[..source.len() - 1]).failed(&["the system's source of randomness"]);
    list_from(&folder, &[255; 4096]).failed(&["refused 31: in 4 tries the system's source of randomness gave too few numbers up to 65520"]);
    assert_eq!(folder.names(), ["source"]);
}

/// Shows that a list makes one end for each airfield: a second one would send a second message under the same key.
#[test]
fn a_list_makes_one_end_for_each_airfield() {
    let folder = Folder::new("ends");
    folder.airfield(&["list", "3", "2", "1", "1", "list"]).done();
    assert!(folder.airfield(&["status", "list"]).done().ends_with("ends made: no airfields\n"));
    folder.airfield(&["key", "list", "2", "7", "end"]).done();
    for name in ["end", "other"] {
        folder.airfield(&["key", "list", "2", "7", name]).failed(&["list: the end of airfield 2 was made from it already"]);
    }
    folder.airfield(&["key", "list", "3", "7", "other"]).done();
    assert!(folder.airfield(&["status", "list"]).done().ends_with("ends made: airfields 2 3, for round 7\n"));
    assert_eq!(folder.names(), ["end", "list", "other"]);
}

/// Figures need not stand in the command line, where others see them.
#[test]
fn figures_from_standard_input() {
    let folder = Folder::with_ends("input");
    let message = folder.message("end1", 77);
    assert_eq!(folder.with_input(AIRFIELD, &["first", "end1"], b"\n 77\t\n").done(), message);
    assert_eq!(folder.airfield(&["first", "end1", "77"]).done(), message);
    let from_input = |input: &[u8]| folder.with_input(AIRFIELD, &["first", "end2"], input);
    from_input(b"").failed(&["refused 2", "figures wanted 1, given 0"]);
    from_input(b"5 x").failed(&["standard input: figure 2", "x is found"]);
    from_input(b"\xff\x1b").failed(&["figure 1"]);
    from_input(&[b'1'; 70000]).failed(&["standard input", "65536"]);
    folder.shell("\"$AIRFIELD\" first end2 <&-").failed(&["standard input is closed"]);
    folder.shell("\"$AIRFIELD\" first end2 < /").failed(&["standard input: Is a directory"]);
    assert_eq!(folder.with_input(AIRFIELD, &["first", "end2"], b"0").done(), folder.message("end2", 0));
}

#[test]
fn the_same_asked_again_gives_the_same_bytes_and_another_is_refused() {
    let folder = Folder::with_ends("again");
    folder.airfield(&["reply", "end1", "7", "5"]).failed(&["refused 18", "end1 has given no first message yet"]);
    let message = folder.message("end1", 10);
    for _ in 0..3 {
        assert_eq!(folder.airfield(&["first", "end1", "10"]).done(), message);
    }
    let other = |figures: &[&str]| folder.airfield(&[&["first", "end1"], figures].concat());
    for figures in [&["11"][..], &["65521"], &["10", "10"]] {
        other(figures).failed(&["refused 18: end1 has given its first message with other figures, and a key never sends twice"]);
    }
    other(&["21841"]).failed(&["refused 18: end1 has given its first message, which `airfield again` prints, and a key never sends twice"]);
    folder.airfield(&["reply", "end1", "7", "1"]).failed(&["refused 5", "set 1 is airfields 1; wanted are at least 2 of 1 to 3"]);
    folder.airfield(&["reply", "end1", "7", "6"]).failed(&["refused 6", "airfield 1 is not in set 6, which is airfields 2 3"]);
    folder
        .airfield(&["reply", "end1", "7", "99999999999"])
        .failed(&["refused 5: set 99999999999 is above 7, which is all of airfields 1 to 3"]);
    let reply = folder.airfield(&["reply", "end1", "7", "5"]).done();
    assert_eq!(reply, format!("{}reply 1 0 {}\n", folder.comment("end1"), folder.numbers("end1", "key")[2]));
    assert_eq!(folder.airfield(&["reply", "end1", "7", "5"]).done(), reply);
    folder.airfield(&["reply", "end1", "7", "7"]).failed(&["refused 19", "end1 has answered set 5"]);
    assert_eq!(folder.airfield(&["first", "end1", "10"]).done(), message);
    assert_eq!(folder.airfield(&["reply", "end1", "7", "5"]).done(), reply);
}

/// Shows that the first figure beyond the bound is named, by its position and as it was given, and that the bound itself is taken: here
/// 65520 / 4 is 16380.
#[test]
fn a_figure_beyond_the_bound_is_refused() {
    let folder = Folder::new("bound");
    folder.airfield(&["list", "4", "3", "1", "2", "list"]).done();
    folder.airfield(&["key", "list", "2", "7", "end"]).done();
    let fresh = folder.read("end");
    let refused = |row: &str, told: &str| {
        let words: Vec<&str> = ["first", "end"].into_iter().chain(row.split(' ')).collect();
        for said in [folder.airfield(&words), folder.with_input(AIRFIELD, &["first", "end"], row.as_bytes())] {
            assert_eq!((said.status, said.output.as_str(), said.error), (Some(1), "", format!("airfield: refused {told}\n")));
        }
        assert_eq!((folder.read("end"), folder.names()), (fresh.clone(), vec!["end".to_string(), "list".to_string()]));
    };
    refused("0 0 0 65520", "32: figure 4 is 65520; wanted are counts from 0 to 16380 for 4 airfields");
    refused("16381 0 0 0", "32: figure 1 is 16381; wanted are counts from 0 to 16380 for 4 airfields");
    refused("16380 20000 65520 016381", "32: figure 2 is 20000; wanted are counts from 0 to 16380 for 4 airfields");
    refused("0 0 0 016381", "32: figure 4 is 016381; wanted are counts from 0 to 16380 for 4 airfields");
    refused("16381 0 65521 65522", "3: figure 3 is 65521, above 65520; wanted are counts from 0 to 16380 for 4 airfields");
    refused("65536 16381 0 0", "3: figure 1 is 65536, above 65520; wanted are counts from 0 to 16380 for 4 airfields");
    refused("16381 0 0 99999999999", "3: figure 4 is 99999999999, above 65520; wanted are counts from 0 to 16380 for 4 airfields");
    refused("0 -1 16381 0", "32: figure 2 is -1; wanted are counts from 0 to 16380 for 4 airfields");
    refused("-99999999999 0 0 0", "32: figure 1 is -99999999999; wanted are counts from 0 to 16380 for 4 airfields");
    refused("-1 0 65521 0", "3: figure 3 is 65521, above 65520; wanted are counts from 0 to 16380 for 4 airfields");
    refused("16381 -1 0", "2: figures wanted 4, given 3");
    assert_eq!(folder.airfield(&["first", "end", "16380", "0", "1", "16380"]).done(), folder.row("end", &[16380, 0, 1, 16380]));
}

/// Shows what becomes of an end that has sent a larger figure, as earlier builds let it: it sends nothing else, nothing false is said of
/// its figures, and its round goes on.
#[test]
fn an_end_that_has_sent_a_larger_figure_is_kept() {
    let folder = Folder::with_ends("earlier");
    let message = folder.message("end1", 65520);
    let element = message.trim_end().rsplit(' ').next().unwrap();
    let fresh = String::from_utf8(folder.read("end1")).unwrap();
    let body = fresh[..fresh.rfind("checksum").unwrap()].replace("stage fresh", "stage sent");
    folder.write("end1", &sealed(&format!("{body}message {element}\n")), 0o600);
    folder.airfield(&["first", "end1", "65520"]).failed(&["refused 18: end1 has given its first message, which `airfield again` prints"]);
    assert_eq!(folder.airfield(&["again", "end1"]).done(), message);
    assert!(folder.airfield(&["reply", "end1", "7", "5"]).done().contains("reply 1 0 "));
}

/// Shows that the kept first message needs no figures to be had again, and that nothing else comes by that way.
#[test]
fn the_kept_message_is_printed_again() {
    let folder = Folder::with_ends("kept");
    let fresh = folder.read("end1");
    folder.airfield(&["again", "end1"]).failed(&["refused 18", "end1 has given no first message yet"]);
    assert_eq!(folder.read("end1"), fresh);
    let message = folder.message("end1", 10);
    folder.shell("\"$AIRFIELD\" first end1 10 > /dev/full").failed(&["No space left"]);
    let sent = folder.read("end1");
    assert_eq!(folder.airfield(&["again", "end1"]).done(), message);
    assert_eq!(folder.read("end1"), sent);
    folder.airfield(&["reply", "end1", "7", "5"]).done();
    assert_eq!(folder.airfield(&["again", "end1"]).done(), message);
    folder.shell("\"$AIRFIELD\" again end1 > /dev/full").failed(&["No space left", "end1 has kept the message"]);
    folder.airfield(&["again", "list"]).failed(&["the kind end is wanted"]);
    folder.airfield(&["again", "end1", "10"]).ended(2, &["again takes END"]);
}

/// Shows that messages that are sent again leave the lines as they are, by the second implementation.
#[test]
fn what_is_sent_again_changes_no_line() {
    let folder = Folder::with_ends("repeats");
    let mut told = "plan 3 2 1 1\nopen 7\n".to_string();
    for (end, figure) in [("end1", "10"), ("end3", "30")] {
        told += &folder.airfield(&["first", end, figure]).done();
        told += &folder.airfield(&["again", end]).done();
    }
    told += "close\n";
    for end in ["end1", "end1", "end3", "end3"] {
        told += &folder.airfield(&["reply", end, "7", "5"]).done();
    }
    told += "finish\n";
    let stream = reference::text::encode(&told).unwrap();
    assert_eq!(run(&stream), "plan 3 2 1 1\nopen 7\nsurvivors 7 5\ntotal 7 40\n");
}

/// Shows that a refusal changes nothing, and that its message says what was wanted and what was found.
#[test]
fn refusals_say_what_was_wanted() {
    let folder = Folder::with_ends("refusals");
    let before = folder.read("end1");
    let refused = |words: &[&str], told: &[&str]| folder.airfield(words).failed(told);
    refused(&["list", "3", "3", "1", "1", "x"], &["refused 1: plan 3 3 1 1", "K from 3 to 8"]);
    refused(&["list", "99999999999", "3", "1", "1", "x"], &["refused 1: plan 99999999999 3 1 1"]);
    refused(&["key", "list", "99999999999", "7", "x"], &["refused 4: no airfield 99999999999"]);
    refused(&["key", "list", "4", "7", "x"], &["refused 4: no airfield 4", "1 to 3"]);
    refused(&["key", "end1", "1", "7", "x"], &["end1: it is of the kind end, and the kind list is wanted"]);
    refused(&["first", "list", "1"], &["list: it is of the kind list, and the kind end is wanted"]);
    refused(&["first", "end1", "1", "2"], &["refused 2: figures wanted 1, given 2"]);
    refused(&["first", "end1", "65521"], &["refused 3: figure 1 is 65521, above 65520"]);
    refused(&["first", "end1", "99999999999"], &["refused 3: figure 1 is 99999999999, above 65520"]);
    refused(&["first", "nothing", "1"], &["nothing: No such file"]);
    assert_eq!(folder.read("end1"), before);
    assert_eq!(folder.names(), ["end1", "end2", "end3", "list"]);
}

#[test]
fn status_tells_the_stage_and_nothing_secret() {
    let folder = Folder::with_ends("status");
    let list = String::from_utf8(folder.read("list")).unwrap().lines().nth(1).unwrap().to_string();
    let plan = "plan 3 2 1 1\nairfields 3, of which 2 must answer and 1 may collude; blocks 1\nfigures in a row 1: counts from 0 to 21840";
    let figures = "or signed figures from -10920 to 10920";
    let told = format!("random list of 7 elements\n{list}\n{plan}, {figures}\nends made: airfields 1 2 3, for round 7\n");
    assert_eq!(folder.airfield(&["status", "list"]).done(), told);
    let expect = |stage: &str| {
        let text = format!("end of airfield 2, for round 7\n{list}\n{plan}\nstage {stage}\n");
        assert_eq!(folder.airfield(&["status", "end2"]).done(), text);
    };
    expect("fresh: no first message has been sent");
    folder.airfield(&["first", "end2", "5"]).done();
    expect("sent: the first message has been given, and no set is answered");
    folder.airfield(&["reply", "end2", "7", "6"]).done();
    expect("answered: set 6, airfields 2 3");
}

#[test]
fn help_and_version_are_printed_and_other_words_are_not_understood() {
    let folder = Folder::new("usage");
    for (program, name) in [(AIRFIELD, "airfield"), (RECORDS, "records"), (TOTALS, "totals")] {
        let said = |words: &[&str]| common::Said::from(folder.command(program, words).output().unwrap());
        assert!(said(&["--help"]).done().starts_with(&format!("{name}: ")));
        assert_eq!(said(&["--version"]).done(), format!("{name} {}\n", env!("CARGO_PKG_VERSION")));
        for words in [&[][..], &["other"], &["--version", "x"]] {
            said(words).ended(2, &["--help"]);
        }
        folder.shell(&format!("\"{program}\" --help > /dev/full")).failed(&["No space left"]);
        folder.shell(&format!("\"{program}\" --help >&-")).failed(&["standard output is closed"]);
    }
    for words in [&["list", "3"][..], &["key", "a"], &["first"], &["reply", "a"], &["status"], &["destroy"]] {
        folder.airfield(words).ended(2, &["takes"]);
    }
    folder.airfield(&["first", "end", "1", "+5"]).ended(2, &["figure 2", "+5 is found"]);
    folder.airfield(&["list", "3", "2", "1", "-1", "list"]).ended(2, &["M: a whole number from 0 on is wanted, and -1 is found"]);
    folder.airfield(&["key", "list", "1", "7", "end", "other"]).ended(2, &["counts or signed is wanted behind END, and other is found"]);
    folder
        .airfield(&["key", "list", "1", "7", "end", "signed", "x"])
        .ended(2, &["key takes LIST AIRFIELD ROUND END [counts|signed], and 6 words"]);
    folder.airfield(&["list", "3", "2", "1", "x", "list"]).ended(2, &["M: a whole number", "x is found"]);
    folder.airfield(&["reply", "end", "7", ""]).ended(2, &["SET", "\"\" is found"]);
}

/// Words that are no text, and a standard error that fails or is closed, give no panic.
#[test]
fn strange_words_and_a_failing_standard_error() {
    let folder = Folder::with_ends("strange");
    let strange = OsStr::from_bytes(b"\xff\xfe\n");
    let word = OsStr::new;
    folder.airfield(&[strange]).ended(2, &["no command is called"]);
    folder.airfield(&[word("status"), strange]).failed(&["No such file"]);
    folder.airfield(&[word("first"), word("end1"), strange]).ended(2, &["figure 1"]);
    folder.airfield(&[word("list"), word("3"), word("2"), word("1"), word("1"), strange]).done();
    folder.airfield(&[word("key"), strange, word("1"), word("7"), OsStr::from_bytes(b"\xfd")]).done();
    folder.airfield(&[word("key"), strange, word("2"), strange, word("end")]).ended(2, &["ROUND: a whole number"]);
    assert!(folder.airfield(&[word("first"), OsStr::from_bytes(b"\xfd"), word("3")]).done().contains("first 1 0 "));
    folder.airfield(&["\u{feff}list"]).ended(2, &["no command is called \"\\xef\\xbb\\xbflist\";"]);
    folder.airfield(&["status", "a b\u{202e}"]).failed(&["\"a b\\xe2\\x80\\xae\": No such file"]);
    folder.with_input(RECORDS, &["encode"], "\u{feff}close\n".as_bytes()).failed(&["no kind is called \\u{feff}close"]);
    for program in [RECORDS, TOTALS] {
        folder.command(program, &[strange]).output().map(common::Said::from).unwrap().ended(2, &[]);
    }
    for error in ["/dev/full", "&-"] {
        assert_eq!(folder.shell(&format!("\"$AIRFIELD\" first end1 x 2>{error}")).status, Some(2));
        assert_eq!(folder.shell(&format!("\"$AIRFIELD\" first end1 1 2 2>{error}")).status, Some(1));
        assert_eq!(folder.shell(&format!("\"$AIRFIELD\" 2>{error}")).status, Some(2));
        assert_eq!(folder.shell(&format!("\"$RECORDS\" encode 2>{error} <<< x")).status, Some(1));
        assert_eq!(folder.shell(&format!("\"$TOTALS\" counts 2>{error} <<< total")).status, Some(1));
    }
    let mut child = folder.command(AIRFIELD, &["first", "end1", "1"]).stderr(Stdio::null()).spawn().unwrap();
    assert!(child.wait().unwrap().success());
}
