//! Two runs at once on one end: at most one message is ever sent.
mod common;

use common::{end_of, send, wait_for_stop, Folder, Said, AIRFIELD};
use std::fs;
use std::io::Read;
use std::process::{Child, ChildStderr};
use std::time::Duration;

/// A run that is stopped before a step, and continued when the test says so.
fn stopped(folder: &Folder, words: &[&str], at: &str) -> Child {
    let child = folder.shimmed(words, "stop", at).spawn().unwrap();
    wait_for_stop(&child);
    child
}

/// Starts a run, and expects it to say that it waits.
fn waiting(folder: &Folder, words: &[&str]) -> Child {
    let mut child = folder.command(AIRFIELD, words).spawn().unwrap();
    let mut said = Vec::new();
    let error: &mut ChildStderr = child.stderr.as_mut().unwrap();
    while !said.ends_with(b"\n") {
        let mut byte = [0];
        error.read_exact(&mut byte).unwrap();
        said.extend(byte);
    }
    assert!(String::from_utf8(said).unwrap().contains("another run works on it; waiting"));
    std::thread::sleep(Duration::from_millis(50));
    assert!(child.try_wait().unwrap().is_none());
    child
}

/// Shows that a run between reading the end and replacing it keeps every other one waiting: two figures, one message.
#[test]
fn a_second_run_waits_and_is_refused() {
    let folder = Folder::with_ends("waits");
    let message = folder.message("end1", 10);
    for at in ["create end1.new", "write end1.new", "sync end1.new", "rename end1"] {
        let folder = folder.copy("waits-copy");
        let one = stopped(&folder, &["first", "end1", "10"], at);
        let other = waiting(&folder, &["first", "end1", "11"]);
        let same = waiting(&folder, &["first", "end1", "10"]);
        send(&one, "-CONT");
        assert_eq!(end_of(one).done(), message);
        end_of(other).failed(&["refused 18"]);
        assert_eq!(end_of(same).done(), message);
    }
}

/// Shows that behind the rename the next run has the new end, though the first has not printed yet.
#[test]
fn a_run_behind_the_rename_sees_the_new_end() {
    let folder = Folder::with_ends("behind");
    let message = folder.message("end1", 10);
    for at in ["sync behind-copy", "write output"] {
        let folder = folder.copy("behind-copy");
        let one = stopped(&folder, &["first", "end1", "10"], at);
        folder.airfield(&["first", "end1", "11"]).failed(&["refused 18"]);
        assert_eq!(folder.airfield(&["first", "end1", "10"]).done(), message);
        send(&one, "-CONT");
        assert_eq!(end_of(one).done(), message);
    }
}

/// Shows that a lock dies with its process: whoever waited finds the old end, and nothing was sent from it.
#[test]
fn a_run_that_is_killed_lets_the_next_one_go_on() {
    let folder = Folder::with_ends("killed");
    let message = folder.message("end1", 11);
    let one = stopped(&folder, &["first", "end1", "10"], "rename end1");
    let other = waiting(&folder, &["first", "end1", "11"]);
    send(&one, "-KILL");
    assert_eq!(end_of(one).output, "");
    assert_eq!(end_of(other).done(), message);
    assert_eq!(folder.names(), ["end1", "end2", "end3", "list"]);
}

/// Shows that nobody waits for a file that is refused anyway, whoever holds its lock.
#[test]
fn a_refused_file_is_not_waited_for() {
    let folder = Folder::with_ends("unwaited");
    let one = stopped(&folder, &["first", "end1", "10"], "create end1.new");
    folder.write("end1", &folder.read("end1"), 0o644);
    for words in [&["first", "end1", "10"][..], &["reply", "end1", "7", "5"], &["status", "end1"], &["key", "end1", "1", "7", "x"]] {
        let said = folder.command("timeout", &[&["10", AIRFIELD], words].concat()).output().unwrap();
        Said::from(said).failed(&["end1: its mode is 0644"]);
    }
    send(&one, "-CONT");
    end_of(one).done();
}

/// Shows that what is put in the way between looking and creating gets no byte of the key.
#[test]
fn what_comes_in_the_way_meanwhile_is_refused() {
    let folder = Folder::with_ends("meanwhile");
    let end = folder.read("end1");
    folder.write("elsewhere", b"elsewhere", 0o600);
    let put: [&dyn Fn(); 2] = [&|| folder.write("end1.new", b"", 0o666), &|| folder.link("elsewhere", "end1.new")];
    for put in put {
        let run = stopped(&folder, &["first", "end1", "10"], "create end1.new");
        put();
        send(&run, "-CONT");
        end_of(run).failed(&["end1.new: File exists"]);
        assert_eq!((folder.read("end1"), folder.read("elsewhere")), (end.clone(), b"elsewhere".to_vec()));
        fs::remove_file(folder.at("end1.new")).unwrap();
    }
}

#[test]
fn two_replies_at_once_answer_one_set() {
    let folder = Folder::with_ends("replies");
    folder.airfield(&["first", "end1", "10"]).done();
    let one = stopped(&folder, &["reply", "end1", "7", "5"], "rename end1");
    let other = waiting(&folder, &["reply", "end1", "7", "7"]);
    send(&one, "-CONT");
    assert!(end_of(one).done().contains("reply 1 0 "));
    end_of(other).failed(&["refused 19"]);
}

/// Shows that two runs of the key office do not make two ends with one key.
#[test]
fn two_keys_at_once_make_one_end() {
    let folder = Folder::new("offices");
    folder.airfield(&["list", "3", "2", "1", "1", "list"]).done();
    let one = stopped(&folder, &["key", "list", "1", "7", "end"], "rename list");
    let other = waiting(&folder, &["key", "list", "1", "7", "other"]);
    send(&one, "-CONT");
    assert_eq!(end_of(one).done(), "");
    end_of(other).failed(&["the end of airfield 1 was made from it already"]);
    assert_eq!(folder.names(), ["end", "list"]);
}

/// Shows that two runs of the key office do not give the ends of one list two rounds.
#[test]
fn two_rounds_at_once_make_one() {
    let folder = Folder::new("two-rounds");
    folder.airfield(&["list", "3", "2", "1", "1", "list"]).done();
    let one = stopped(&folder, &["key", "list", "1", "7", "end"], "rename list");
    let other = waiting(&folder, &["key", "list", "2", "8", "other"]);
    send(&one, "-CONT");
    assert_eq!(end_of(one).done(), "");
    end_of(other).failed(&["list: its ends are for round 7"]);
    assert_eq!((folder.names(), folder.numbers("list", "round")), (vec!["end".to_string(), "list".to_string()], vec![7]));
}

/// Shows that a notice for another round that comes while the own one is answered waits and is refused.
#[test]
fn notices_of_two_rounds_at_once_answer_one() {
    let folder = Folder::with_ends("two-notices");
    folder.airfield(&["first", "end1", "10"]).done();
    let one = stopped(&folder, &["reply", "end1", "7", "5"], "rename end1");
    let other = waiting(&folder, &["reply", "end1", "6", "5"]);
    send(&one, "-CONT");
    assert!(end_of(one).done().contains("reply 1 0 "));
    end_of(other).failed(&["refused 33"]);
    assert_eq!(folder.numbers("end1", "stage answered"), [5]);
}

/// Shows that success is told only of a file that has its name, alone: whatever else happens to it meanwhile is told, and whatever took
/// its place is left alone.
#[test]
fn a_name_that_is_lost_meanwhile_is_told() {
    type Happening<'a> = (&'a str, &'a dyn Fn(&Folder, &str));
    let happens: [Happening; 3] = [
        ("its name was removed meanwhile", &|folder, name| fs::remove_file(folder.at(name)).unwrap()),
        ("another file was put in its place meanwhile", &|folder, name| {
            folder.write("other", b"other", 0o600);
            fs::rename(folder.at("other"), folder.at(name)).unwrap();
        }),
        ("it was given a second name (hard link) meanwhile", &|folder, name| {
            fs::hard_link(folder.at(name), folder.at(&format!("{name}.second"))).unwrap()
        }),
    ];
    for (told, happen) in happens {
        let folder = Folder::new("lost");
        let list = stopped(&folder, &["list", "3", "2", "1", "1", "list"], "write list");
        happen(&folder, "list");
        send(&list, "-CONT");
        end_of(list).failed(&["list: ", told]);
        assert!(fs::read(folder.at("list")).map_or(true, |bytes| bytes == b"other"));
        assert!(fs::read(folder.at("list.second")).map_or(true, |bytes| bytes.len() > 100 && bytes.iter().all(|&byte| byte == 0)));
        folder.airfield(&["list", "3", "2", "1", "1", "spare"]).done();
        let key = stopped(&folder, &["key", "spare", "1", "7", "end"], "write end");
        happen(&folder, "end");
        send(&key, "-CONT");
        end_of(key).failed(&["end: ", told, "spare counts the end as made, so draw a new list"]);
        assert!(fs::read(folder.at("end")).map_or(true, |bytes| bytes == b"other"));
        folder.airfield(&["key", "spare", "2", "7", "end2"]).done();
        let first = stopped(&folder, &["first", "end2", "5"], "sync lost");
        happen(&folder, "end2");
        send(&first, "-CONT");
        end_of(first).failed(&["end2: ", told]);
    }
}

/// Shows that a file that is moved away while it is destroyed is told.
#[test]
fn a_file_that_is_moved_while_it_is_destroyed_is_told() {
    let folder = Folder::with_ends("moved");
    let run = stopped(&folder, &["destroy", "end1"], "write end1");
    fs::rename(folder.at("end1"), folder.at("away")).unwrap();
    send(&run, "-CONT");
    end_of(run).failed(&["end1: its zeros are left under another name"]);
    assert!(folder.read("away").iter().all(|&byte| byte == 0));
}

/// Shows that a list that is destroyed while it is made is not told as made.
#[test]
fn a_list_that_is_destroyed_before_it_is_written_is_told() {
    let folder = Folder::new("unmade");
    let list = stopped(&folder, &["list", "3", "2", "1", "1", "list"], "write list");
    folder.airfield(&["destroy", "list"]).done();
    send(&list, "-CONT");
    end_of(list).failed(&["list: its name was removed meanwhile; nothing is left of the new file"]);
    assert!(folder.names().is_empty());
}

/// Many runs, each with its own figure, and no shim.
#[test]
fn of_many_runs_one_sends() {
    let folder = Folder::with_ends("many");
    let figures: Vec<String> = (0..24).map(|figure: u32| figure.to_string()).collect();
    let runs: Vec<Child> = figures.iter().map(|figure| folder.command(AIRFIELD, &["first", "end1", figure]).spawn().unwrap()).collect();
    let sent: Vec<String> = runs.into_iter().map(end_of).filter(|said| said.status == Some(0)).map(|said| said.output).collect();
    assert_eq!(sent.len(), 1);
    let kept = (0..24).map(|figure| folder.message("end1", figure)).filter(|message| *message == sent[0]);
    assert_eq!(kept.count(), 1);
    assert_eq!(folder.names(), ["end1", "end2", "end3", "list"]);
}
