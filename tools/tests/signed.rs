//! Figures that may lie below zero, through `airfield`, `records`, `pool` and `totals`.
mod common;

use common::{sealed, Folder, Said, AIRFIELD};

/// With a list of a plan, and a signed end of each of these airfields, for round 7.
fn with_signed_ends(name: &str, plan: &str, airfields: &[u32]) -> Folder {
    let folder = Folder::new(name);
    folder.airfield(&[&["list"], &plan.split(' ').collect::<Vec<_>>()[..], &["list"]].concat()).done();
    for airfield in airfields {
        folder.airfield(&["key", "list", &airfield.to_string(), "7", &format!("end{airfield}"), "signed"]).done();
    }
    folder
}

fn first(folder: &Folder, end: &str, row: &str) -> Said {
    let words: Vec<&str> = ["first", end].into_iter().chain(row.split(' ')).collect();
    folder.airfield(&words)
}

/// Sends the rows, closes, and lets the airfields of the set answer; what `pool` prints, and what `totals` makes of it.
fn pooled(folder: &Folder, plan: &str, rows: &[(u32, &str)], set: &str) -> (String, String) {
    let mut told = format!("plan {plan}\nopen 7\n");
    for (airfield, row) in rows {
        told += &first(folder, &format!("end{airfield}"), row).done();
    }
    told += "close\n";
    for (airfield, _) in rows {
        told += &folder.airfield(&["reply", &format!("end{airfield}"), "7", set]).done();
    }
    folder.write("told", (told + "finish\n").as_bytes(), 0o600);
    let read = through_all(folder);
    (String::from_utf8(folder.read("lines")).unwrap(), read)
}

/// What `totals` makes of the records in the file told; what `pool` prints is in the file lines.
fn through_all(folder: &Folder) -> String {
    folder.shell("set -o pipefail; \"$RECORDS\" encode < told | \"$POOL\" | tee lines | \"$TOTALS\" signed").done()
}

/// Airfield 2 is silent; for four airfields a figure lies within 8190 of zero.
#[test]
fn a_round_gives_the_survivors_signed_total() {
    let folder = with_signed_ends("signed_round", "4 3 1 2", &[1, 2, 3, 4]);
    first(&folder, "end2", "-4000 -4000 -4000 -4000").done();
    let rows = [(1, "-14 3 8190 -8190"), (3, "5 -3 8190 -8190"), (4, "-1 -1 8190 -8190")];
    let (lines, read) = pooled(&folder, "4 3 1 2", &rows, "13");
    let opened = "plan 4 3 1 2\nopen 7\nsurvivors 7 13\n";
    assert_eq!(lines, format!("{opened}total 7 65511 65520 24570 40951\n"));
    assert_eq!(read, format!("{opened}total 7 -10 -1 24570 -24570\n"));
    assert_eq!(folder.shell("\"$TOTALS\" counts < lines").done(), lines);
}

/// All airfields at the far end, on either side, and a sum of zero, which has no minus.
#[test]
fn the_furthest_totals_and_zero_are_read() {
    let folder = with_signed_ends("furthest", "3 2 1 4", &[1, 2, 3]);
    let rows = [(1, "-10920 10920 -14 -0"), (2, "-10920 10920 13 0"), (3, "-10920 10920 1 -0")];
    let (lines, read) = pooled(&folder, "3 2 1 4", &rows, "7");
    assert!(lines.ends_with("\ntotal 7 32761 32760 0 0\n"), "{lines}");
    assert!(read.ends_with("\ntotal 7 -32760 32760 0 0\n"), "{read}");
}

/// A reply that is garbled on its way is set aside, and that is told to the reader; its airfield's figures stay in the total.
#[test]
fn a_garbled_reply_is_set_aside() {
    let folder = with_signed_ends("garbled", "4 2 1 1", &[1, 2, 3, 4]);
    let rows = [(1, "-14"), (2, "3"), (3, "-8190"), (4, "5")];
    let (lines, _) = pooled(&folder, "4 2 1 1", &rows, "15");
    let opened = "plan 4 2 1 1\nopen 7\nsurvivors 7 15\n";
    assert_eq!(lines, format!("{opened}total 7 57325\n"));
    let told = String::from_utf8(folder.read("told")).unwrap();
    let garbled = |line: &str| match line.strip_prefix("reply 3 0 ") {
        Some(share) => format!("reply 3 0 {}\n", (share.parse::<u32>().unwrap() + 1) % 65521),
        None => format!("{line}\n"),
    };
    folder.write("told", told.lines().map(garbled).collect::<String>().as_bytes(), 0o600);
    assert_eq!(through_all(&folder), format!("{opened}aside 7 3\ntotal 7 -8196\n"));
}

/// Ends of one list go by the use of each; the example's key, whose mask is 100, shows what is sent.
#[test]
fn each_end_has_its_own_use() {
    let folder = Folder::new("uses");
    let list = format!("cutawheno list 2\nlist {}\nplan 3 2 1 1\nends 0\nelements 100 200 300 12 60 40 120\n", "0".repeat(32));
    folder.write("list", &sealed(&list), 0o600);
    for words in
        [&["key", "list", "1", "7", "end1", "signed"][..], &["key", "list", "2", "7", "end2", "counts"], &["key", "list", "3", "7", "end3"]]
    {
        folder.airfield(words).done();
    }
    for end in ["end2", "end3"] {
        assert!(!String::from_utf8(folder.read(end)).unwrap().contains("use"));
        first(&folder, end, "-1").failed(&["refused 32: figure 1 is -1; wanted are counts from 0 to 21840 for 3 airfields"]);
    }
    first(&folder, "end1", "10921")
        .failed(&["refused 32: figure 1 is 10921; wanted are signed figures from -10920 to 10920 for 3 airfields"]);
    assert_eq!(first(&folder, "end1", "-14").done(), "# list 00000000 airfield 1 round 7\nfirst 1 0 86\n");
    assert_eq!(first(&folder, "end2", "10921").done(), "# list 00000000 airfield 2 round 7\nfirst 2 0 11121\n");
    assert_eq!(first(&folder, "end3", "-0").done(), "# list 00000000 airfield 3 round 7\nfirst 3 0 300\n");
}

/// Shows that an end without a line of its use is an end of counts, at every stage, and what its file holds.
#[test]
fn an_end_without_a_use_is_of_counts() {
    let folder = Folder::new("before");
    let end = |stage: &str| format!("cutawheno end 2\nlist {}\nplan 3 2 1 1\nairfield 1\nround 7\n{stage}", "0".repeat(32));
    folder.write("end", &sealed(&end("stage fresh\nkey 100 154 220 340\n")), 0o600);
    assert!(folder.airfield(&["status", "end"]).done().contains("\nfigures in a row 1: counts from 0 to 21840\n"));
    first(&folder, "end", "-14").failed(&["refused 32: figure 1 is -14; wanted are counts"]);
    first(&folder, "end", "21840").done();
    assert_eq!(folder.read("end"), sealed(&end("stage sent\nkey 100 154 220 340\nmessage 21940\n")));
    folder.airfield(&["reply", "end", "7", "5"]).done();
    assert_eq!(folder.read("end"), sealed(&end("stage answered 5\nkey 100 154 220 340\nmessage 21940\n")));
    assert_eq!(first(&folder, "end", "21840").done(), folder.airfield(&["again", "end"]).done());
}

/// Shows that the first figure beyond the bound is named as it was given, that a residue is no figure, and that nothing changes; both
/// ends of the bound are taken: 32760 / 8 is 4095.
#[test]
fn a_signed_figure_beyond_the_bound_is_refused() {
    let folder = with_signed_ends("signed_bound", "8 3 1 1", &[8]);
    let fresh = folder.read("end8");
    let refused = |row: &str, told: &str| {
        for said in [first(&folder, "end8", row), folder.with_input(AIRFIELD, &["first", "end8"], row.as_bytes())] {
            assert_eq!((said.status, said.output.as_str(), said.error), (Some(1), "", format!("airfield: refused {told}\n")));
        }
        assert_eq!((folder.read("end8"), folder.names().len()), (fresh.clone(), 2));
    };
    let beyond =
        |row: &str, named: &str| refused(row, &format!("32: figure {named}; wanted are signed figures from -4095 to 4095 for 8 airfields"));
    beyond("4096 0", "1 is 4096");
    beyond("-4095 -4096", "2 is -4096");
    beyond("4095 -04096", "2 is -04096");
    beyond("8190 -4096", "1 is 8190");
    for figure in ["65507", "61426", "65520", "65521", "65535", "65536", "99999999999", "-65521", "-61426", "-2147483648", "-99999999999"] {
        beyond(&format!("0 {figure}"), &format!("2 is {figure}"));
    }
    refused("4096", "2: figures wanted 2, given 1");
    refused("-99999999999 1 1", "2: figures wanted 2, given 3");
    assert_eq!(first(&folder, "end8", "-4095 4095").done(), folder.row("end8", &[61426, 4095]));
}

#[test]
fn what_is_no_number_is_told() {
    let folder = with_signed_ends("no_number", "3 2 1 1", &[1]);
    for word in ["-", "--5", "+5", "-+5", "-x", "-5.0", "5-", "-1e3", "\u{2212}14", "-\u{661}"] {
        first(&folder, "end1", word).ended(2, &["figure 1: a whole number is wanted, and "]);
        let said = folder.with_input(AIRFIELD, &["first", "end1"], word.as_bytes());
        said.failed(&["standard input: figure 1: a whole number is wanted, and "]);
    }
    folder.with_input(AIRFIELD, &["first", "end1"], b"- 5").failed(&["standard input: figure 1", "- is found"]);
    assert!(folder.airfield(&["status", "end1"]).done().contains("stage fresh"));
}

#[test]
fn the_same_signed_figures_give_the_same_bytes() {
    let folder = with_signed_ends("signed_again", "3 2 1 1", &[1]);
    let message = folder.message("end1", 65507);
    for _ in 0..2 {
        assert_eq!(folder.with_input(AIRFIELD, &["first", "end1"], b" -14\n").done(), message);
        assert_eq!(first(&folder, "end1", "-14").done(), message);
        assert_eq!(folder.airfield(&["again", "end1"]).done(), message);
        for other in ["14", "-15", "0"] {
            first(&folder, "end1", other).failed(&["refused 18: end1 has given its first message with other figures"]);
        }
        first(&folder, "end1", "65507").failed(&["refused 18"]);
        assert!(folder.airfield(&["reply", "end1", "7", "5"]).done().contains("reply 1 0 "));
        folder.airfield(&["reply", "end1", "7", "7"]).failed(&["refused 19"]);
    }
    let status = folder.airfield(&["status", "end1"]).done();
    assert!(status.contains("\nfigures in a row 1: signed figures from -10920 to 10920\nstage answered: set 5"), "{status}");
}
