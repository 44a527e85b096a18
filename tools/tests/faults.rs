//! Loss of power, full disks and outputs that fail: nothing is lost, and nothing is sent twice.
mod common;

use common::{end_of, send, shim, wait_for_stop, Folder, Said, AIRFIELD};
use std::fs;
use std::os::unix::process::ExitStatusExt;

/// The steps of a run, a line each.
fn steps(folder: &Folder, words: &[&str]) -> Vec<String> {
    let log = folder.at("log");
    let said: Said = folder.shimmed(words, "none", "0").env("SHIM_LOG", &log).output().unwrap().into();
    said.done();
    let steps = fs::read_to_string(&log).unwrap();
    fs::remove_file(&log).unwrap();
    steps.lines().map(str::to_string).collect()
}

/// Shows the order that a loss of power needs: a file is synced before its name leads to it, the folder behind it, and only then comes
/// a byte of output, also where the stage was kept by an earlier run that may have been cut off.
#[test]
fn all_is_on_the_disk_before_anything_is_told() {
    let folder = Folder::new("order");
    let on = |name: &str, steps: &[&str]| steps.iter().map(|step| format!("{step} {name}")).collect::<Vec<_>>();
    let created = |name: &str| on(name, &["create", "mode"]);
    let written = |name: &str| [on(name, &["write", "sync"]), on("order", &["sync"])].concat();
    let replaced = |name: &str| {
        let new = on(&format!("{name}.new"), &["create", "mode", "write", "sync"]);
        let old = on(&format!("{name} (deleted)"), &["write", "sync"]);
        [new, on(name, &["rename"]), on("order", &["sync"]), old].concat()
    };
    assert_eq!(steps(&folder, &["list", "3", "2", "1", "1", "list"]), [created("list"), written("list")].concat());
    // the list counts the end as made before the key stands anywhere
    assert_eq!(steps(&folder, &["key", "list", "1", "7", "end"]), [created("end"), replaced("list"), written("end")].concat());
    for words in [&["first", "end", "5"][..], &["reply", "end", "7", "5"]] {
        assert_eq!(steps(&folder, words), [replaced("end"), on("output", &["write"])].concat());
        assert_eq!(steps(&folder, words), ["sync end", "sync order", "write output"]);
    }
    assert_eq!(steps(&folder, &["again", "end"]), ["sync end", "sync order", "write output"]);
    let destroyed = ["write end", "sync end", "remove end", "sync order", "write output"];
    assert_eq!(steps(&folder, &["destroy", "end"]), destroyed);
}

/// Kills, or fails, a run before each of its steps, one after the other, each time from the same start. `look` gets the folder as the
/// run left it, what the run said, and the number of the step.
fn at_each_step(start: &Folder, words: &[&str], act: &str, look: impl Fn(&Folder, &Said, usize)) {
    for step in 1.. {
        let folder = start.copy(&format!("{}-{act}", start.path.file_name().unwrap().to_str().unwrap()));
        let said = end_of(folder.shimmed(words, act, &step.to_string()).spawn().unwrap());
        look(&folder, &said, step);
        if said.signal.is_none() && said.status == Some(0) && said.error.is_empty() {
            assert!(step > 5, "{step} steps are too few");
            return;
        }
    }
}

/// Shows that after a kill the end is the old or the new one, that the same command works, and that no other message comes if a byte of the
/// first one was printed.
#[test]
fn a_kill_before_any_step_of_a_first_message() {
    let start = Folder::with_ends("kill-first");
    let (message, other) = (start.message("end1", 10), start.message("end1", 11));
    at_each_step(&start, &["first", "end1", "10"], "kill", |folder, said, _| {
        assert!(said.output.is_empty() || said.output == message);
        let copy = folder.copy("kill-first-other");
        let again = copy.airfield(&["first", "end1", "11"]);
        if again.status == Some(0) {
            assert_eq!((said.output.as_str(), again.output.as_str()), ("", other.as_str()));
            copy.airfield(&["first", "end1", "10"]).failed(&["refused 18"]);
        } else {
            again.failed(&["refused 18"]);
        }
        assert_eq!(folder.airfield(&["first", "end1", "10"]).done(), message);
        folder.airfield(&["first", "end1", "11"]).failed(&["refused 18"]);
        assert_eq!(folder.names(), start.names());
    });
}

#[test]
fn a_kill_before_any_step_of_a_reply() {
    let start = Folder::with_ends("kill-reply");
    start.airfield(&["first", "end1", "10"]).done();
    let reply = format!("{}reply 1 0 {}\n", start.comment("end1"), start.numbers("end1", "key")[2]);
    at_each_step(&start, &["reply", "end1", "7", "5"], "kill", |folder, said, _| {
        assert!(said.output.is_empty() || said.output == reply);
        let other = folder.copy("kill-reply-other").airfield(&["reply", "end1", "7", "7"]);
        assert!(other.status == Some(1) || said.output.is_empty());
        assert_eq!(folder.airfield(&["reply", "end1", "7", "5"]).done(), reply);
        folder.airfield(&["reply", "end1", "7", "7"]).failed(&["refused 19"]);
        assert_eq!(folder.names(), start.names());
    });
}

/// Shows that a new list is whole, or is refused as cut short and can be destroyed and drawn again.
#[test]
fn a_kill_before_any_step_of_a_new_list() {
    let start = Folder::new("kill-list");
    let words = ["list", "3", "2", "1", "1", "list"];
    at_each_step(&start, &words, "kill", |folder, _, _| {
        if folder.names() == ["list"] && folder.airfield(&["status", "list"]).status != Some(0) {
            folder.airfield(&words).failed(&["list", "stands there already"]);
            folder.airfield(&["destroy", "list"]).done();
        }
        if folder.names().is_empty() {
            folder.airfield(&words).done();
        }
        folder.airfield(&["status", "list"]).done();
    });
}

/// Shows that a list never gives two ends for one airfield, nor ends for two rounds; where the end was lost, the list says that a new one is
/// to be drawn.
#[test]
fn a_kill_before_any_step_of_a_new_end() {
    let start = Folder::new("kill-key");
    start.airfield(&["list", "3", "2", "1", "1", "list"]).done();
    at_each_step(&start, &["key", "list", "1", "7", "end"], "kill", |folder, _, step| {
        let whole = folder.airfield(&["status", "end"]).status == Some(0);
        let again = folder.airfield(&["key", "list", "1", "7", "other"]);
        assert!(!whole || again.status == Some(1), "step {step}: two ends");
        if again.status != Some(0) {
            again.failed(&["list: the end of airfield 1 was made from it already"]);
            let before = (folder.read("list"), folder.names());
            folder.airfield(&["key", "list", "2", "8", "x"]).failed(&["list: its ends are for round 7"]);
            assert_eq!((folder.read("list"), folder.names()), before, "step {step}");
        }
        folder.airfield(&["key", "list", "2", "7", "end2"]).done();
        assert!(!folder.names().contains(&"list.new".to_string()));
        if !whole && folder.names().contains(&"end".to_string()) {
            folder.airfield(&["destroy", "end"]).done();
        }
    });
}

#[test]
fn a_kill_before_any_step_of_a_destruction() {
    let start = Folder::with_ends("kill-destroy");
    start.write("end1.new", &start.read("end1"), 0o600);
    at_each_step(&start, &["destroy", "end1"], "kill", |folder, said, _| {
        if folder.names().contains(&"end1".to_string()) {
            assert_eq!(said.output, "");
            folder.airfield(&["destroy", "end1"]).done();
        }
        assert_eq!(folder.names(), ["end2", "end3", "list"]);
    });
}

/// Shows that a step that fails is told, that the end is the old or the new one, whole, and that the same command then works.
#[test]
fn a_failure_of_any_step() {
    let start = Folder::with_ends("fail");
    let message = start.message("end1", 10);
    at_each_step(&start, &["first", "end1", "10"], "fail", |folder, said, step| {
        assert!(said.output.is_empty() || said.output == message);
        assert!(said.status == Some(0) || said.error.contains("No space left on device"), "step {step}: {said:?}");
        folder.airfield(&["status", "end1"]).done();
        assert_eq!(folder.airfield(&["first", "end1", "10"]).done(), message);
        assert_eq!(folder.names(), start.names());
    });
    start.airfield(&["list", "3", "2", "1", "1", "spare"]).done();
    for words in [&["key", "spare", "1", "7", "new"][..], &["list", "3", "2", "1", "1", "new"]] {
        at_each_step(&start, words, "fail", |folder, said, step| {
            if said.status != Some(0) {
                said.failed(&["No space left on device"]);
                assert_eq!(folder.names(), start.names(), "step {step}");
            }
        });
    }
}

/// A disk without room for the new end: the limit on a file's size acts as one.
#[test]
fn a_full_disk_leaves_the_end_as_it_was() {
    let folder = Folder::with_ends("full");
    folder.airfield(&["list", "3", "2", "1", "1", "spare"]).done();
    let (before, names) = (folder.read("end1"), folder.names());
    let limited = |command: &str| folder.shell(&format!("ulimit -f 0; {command}"));
    limited("\"$AIRFIELD\" first end1 10").failed(&["end1.new: File too large", "end1 is as it was"]);
    limited("\"$AIRFIELD\" key spare 1 7 new").failed(&[
        "spare.new: File too large",
        "spare is as it was",
        "nothing is left of the new file",
    ]);
    limited("\"$AIRFIELD\" list 3 2 1 1 new").failed(&["new: File too large"]);
    limited("echo close | \"$RECORDS\" encode 1<> end2").failed(&["standard output: File too large"]);
    assert_eq!((folder.read("end1"), folder.names()), (before, names));
}

/// Shows that a crash leaves no image of the memory, where the system would keep one.
#[test]
fn a_crash_keeps_no_key() {
    let folder = Folder::with_ends("crash");
    let words = ["-c", "ulimit -c unlimited; exec \"$@\"", "bash", AIRFIELD, "first", "end1", "10"];
    let mut run = folder.command("bash", &words);
    let run = run.env("LD_PRELOAD", shim()).env("SHIM_DO", "stop").env("SHIM_STEP", "rename end1").spawn().unwrap();
    wait_for_stop(&run);
    send(&run, "-ABRT");
    send(&run, "-CONT");
    let status = run.wait_with_output().unwrap().status;
    assert_eq!((status.signal(), status.core_dumped()), (Some(6), false));
    assert_eq!(folder.names(), ["end1", "end1.new", "end2", "end3", "list"]);
}

/// Shows that a print that fails is an error, tells that the message is kept, and costs nothing.
#[test]
fn a_failed_print_costs_nothing() {
    let folder = Folder::with_ends("print");
    let message = folder.message("end1", 10);
    for (output, told) in
        [("> /dev/full", "No space left"), ("> >(true); wait $!", "Broken pipe"), ("< /dev/null >&0", "Bad file descriptor")]
    {
        let said = folder.shell(&format!("exec {output}; \"$AIRFIELD\" first end1 10"));
        said.failed(&["standard output", told, "end1 has kept the message: the same command prints it again"]);
    }
    folder.shell("\"$AIRFIELD\" first end1 10 >&-").failed(&["standard output is closed; nothing was done"]);
    assert_eq!(folder.airfield(&["first", "end1", "10"]).done(), message);
    folder.shell("\"$AIRFIELD\" reply end1 7 5 > /dev/full").failed(&["end1 has kept the message"]);
    assert!(folder.airfield(&["reply", "end1", "7", "5"]).done().contains("reply 1 0 "));
    folder.shell("\"$AIRFIELD\" destroy end3 > /dev/full").failed(&["No space left", "overwritten and removed: end3"]);
    for command in ["status end1", "first end2 5", "destroy end2"] {
        folder.shell(&format!("\"$AIRFIELD\" {command} >&-")).failed(&["standard output is closed"]);
    }
    assert!(folder.airfield(&["status", "end2"]).done().contains("stage fresh"));
}
