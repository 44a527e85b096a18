//! Links, modes, owners, and what stands where a file is to come.
mod common;

use common::{Folder, AIRFIELD};
use std::fs::{self, File};
use std::io::{Read, Seek};
use std::os::unix::fs::{MetadataExt, PermissionsExt};
use std::process::{Command, Stdio};

/// Shows that a list or key is never readable by others, whatever the umask.
#[test]
fn new_files_are_private() {
    let folder = Folder::new("umask");
    for umask in ["0", "077", "0777"] {
        let script =
            format!("umask {umask}; \"$AIRFIELD\" list 3 2 1 1 list && \"$AIRFIELD\" key list 1 7 end && \"$AIRFIELD\" first end 5");
        assert_eq!(folder.shell(&script).done(), folder.message("end", 5));
        assert_eq!([folder.mode("list"), folder.mode("end")], [0o600; 2]);
        folder.airfield(&["destroy", "list", "end"]).done();
    }
    assert!(folder.names().is_empty());
}

/// Shows that a new list or end goes over no file, and through no link.
#[test]
fn new_files_go_over_nothing() {
    let folder = Folder::with_ends("over");
    folder.airfield(&["list", "3", "2", "1", "1", "spare"]).done();
    folder.write("other", b"other", 0o644);
    folder.link("other", "link");
    folder.link("nowhere", "dangling");
    fs::create_dir(folder.at("folder")).unwrap();
    let names = folder.names();
    for name in ["other", "link", "dangling", "folder", "end1"] {
        folder.airfield(&["list", "3", "2", "1", "1", name]).failed(&[name, "stands there already"]);
        folder.airfield(&["key", "spare", "1", "7", name]).failed(&[name, "stands there already"]);
    }
    for name in ["none/list", "folder/", ""] {
        folder.airfield(&["list", "3", "2", "1", "1", name]).failed(&[]);
        folder.airfield(&["key", "spare", "1", "7", name]).failed(&[]);
    }
    // a name that cannot be had costs nothing
    folder.airfield(&["key", "spare", "1", "7", "new"]).done();
    folder.airfield(&["destroy", "new"]).done();
    assert_eq!((folder.read("other"), folder.names()), (b"other".to_vec(), names));
}

/// Shows that a symbolic link leads to the same end: it does not send twice.
#[test]
fn a_link_is_the_same_end() {
    let folder = Folder::with_ends("symbolic");
    fs::create_dir(folder.at("folder")).unwrap();
    folder.link("../end1", "folder/link");
    folder.link("folder/link", "link");
    let message = folder.message("end1", 10);
    assert_eq!(folder.airfield(&["first", "link", "10"]).done(), message);
    folder.airfield(&["first", "end1", "11"]).failed(&["refused 18"]);
    folder.airfield(&["first", "folder/link", "11"]).failed(&["refused 18"]);
    assert_eq!(folder.airfield(&["first", "end1", "10"]).done(), message);
    assert!(fs::symlink_metadata(folder.at("link")).unwrap().is_symlink());
    assert_eq!(fs::read_dir(folder.at("folder")).unwrap().count(), 1);
}

/// Shows that a second name of the same file is found: the old stage cannot live on under it.
#[test]
fn a_hard_link_is_refused() {
    let folder = Folder::with_ends("hard");
    fs::hard_link(folder.at("end1"), folder.at("second")).unwrap();
    let before = folder.read("end1");
    for name in ["end1", "second"] {
        for words in [&["first", name, "10"][..], &["reply", name, "7", "5"], &["status", name], &["destroy", name]] {
            folder.airfield(words).failed(&[name, "2 names"]);
        }
    }
    assert_eq!((folder.read("end1"), folder.read("second")), (before.clone(), before));
    fs::remove_file(folder.at("second")).unwrap();
    folder.airfield(&["first", "end1", "10"]).done();
}

#[test]
fn a_file_that_others_may_read_is_refused() {
    let folder = Folder::with_ends("modes");
    for mode in [0o640, 0o604, 0o602, 0o610] {
        folder.write("end1", &folder.read("end1"), mode);
        folder.airfield(&["first", "end1", "10"]).failed(&["end1", &format!("{mode:04o}"), "chmod 600"]);
        folder.write("list", &folder.read("list"), mode);
        folder.airfield(&["key", "list", "1", "7", "new"]).failed(&["list", &format!("{mode:04o}")]);
    }
    // destroying it is all the more wanted
    folder.airfield(&["destroy", "end1", "list"]).done();
    assert_eq!(folder.names(), ["end2", "end3"]);
}

/// Shows that nothing is kept where everybody could put another file in its place.
#[test]
fn a_folder_that_everybody_may_write_is_refused() {
    let folder = Folder::with_ends("open");
    let before = folder.read("end1");
    let open = |mode: u32| fs::set_permissions(&folder.path, fs::Permissions::from_mode(mode)).unwrap();
    fs::create_dir(folder.at("links")).unwrap();
    folder.link("../end1", "links/end");
    for mode in [0o777, 0o702] {
        open(mode);
        let told = format!("its folder's mode is {mode:04o}");
        for words in [
            &["list", "3", "2", "1", "1", "new"][..],
            &["key", "list", "1", "7", "new"],
            &["first", "end1", "5"],
            &["reply", "end1", "7", "5"],
            &["status", "end1"],
            &["first", "links/end", "5"],
        ] {
            folder.airfield(words).failed(&[&told]);
        }
    }
    assert_eq!((folder.read("end1"), folder.names().len()), (before, 5));
    folder.airfield(&["destroy", "end3"]).done();
    for (mode, end) in [(0o1777, "end1"), (0o770, "end2")] {
        open(mode);
        folder.airfield(&["first", end, "5"]).done();
    }
}

#[test]
fn a_file_of_another_owner_is_refused() {
    let folder = Folder::with_ends("owner");
    let user = fs::metadata(&folder.path).unwrap().uid();
    let given = |name: &str| {
        let taken = Command::new("chown").arg((user + 1).to_string()).arg(folder.at(name)).stderr(Stdio::null()).status();
        taken.unwrap().success()
    };
    if !given("end1") {
        return; // only the system's administrator can give a file away
    }
    folder.airfield(&["first", "end1", "10"]).failed(&["end1", &format!("belongs to user {}", user + 1)]);
    folder.write("end2.new", b"", 0o600);
    assert!(given("end2.new"));
    folder.airfield(&["first", "end2", "10"]).failed(&["end2.new", "stands in the way"]);
}

/// Shows that the key goes into no file that somebody has put in the way, and that the end stays as it was.
#[test]
fn what_stands_in_the_way_of_a_new_version_is_refused() {
    let folder = Folder::with_ends("way");
    let (end, new) = (folder.read("end1"), folder.at("end1.new"));
    folder.write("elsewhere", b"elsewhere", 0o600);
    let put: [(&str, &dyn Fn()); 8] = [
        ("0666", &|| folder.write("end1.new", b"", 0o666)),
        ("0644", &|| folder.write("end1.new", &end, 0o644)),
        ("it is no earlier version of this file", &|| folder.write("end1.new", b"mine", 0o600)),
        ("it is no earlier version of this file", &|| folder.write("end1.new", &folder.read("end2"), 0o600)),
        ("a link", &|| folder.link("elsewhere", "end1.new")),
        ("a folder", &|| fs::create_dir(&new).unwrap()),
        ("a pipe", &|| assert!(Command::new("mkfifo").arg(&new).status().unwrap().success())),
        ("2 names", &|| fs::hard_link(folder.at("elsewhere"), &new).unwrap()),
    ];
    for (told, put) in put {
        put();
        folder.airfield(&["first", "end1", "10"]).failed(&["end1.new stands in the way", told]);
        assert_eq!((folder.read("end1"), folder.read("elsewhere")), (end.clone(), b"elsewhere".to_vec()));
        fs::remove_file(&new).or_else(|_| fs::remove_dir(&new)).unwrap();
    }
    folder.airfield(&["first", "end1", "10"]).done();
}

/// Shows that an end does not take the name that the list's new version needs: it would be removed as a leftover.
#[test]
fn an_end_does_not_take_the_name_of_the_lists_new_version() {
    let folder = Folder::new("own");
    folder.airfield(&["list", "3", "2", "1", "1", "list"]).done();
    folder.link(".", "here");
    folder.link("list", "link");
    let before = folder.read("list");
    for (list, end) in [("list", "list.new"), ("list", "./list.new"), ("list", "here/list.new"), ("link", "list.new")] {
        folder.airfield(&["key", list, "1", "7", end]).failed(&[end, "the list's own new version"]);
        assert_eq!((folder.read("list"), folder.names()), (before.clone(), ["here", "link", "list"].map(String::from).to_vec()));
    }
    folder.airfield(&["key", "link", "1", "7", "link.new"]).done();
    folder.airfield(&["status", "link.new"]).done();
}

/// Shows that a message does not vanish in a file that the tool replaces or removes.
#[test]
fn output_into_the_end_or_its_new_version_is_refused() {
    let folder = Folder::with_ends("into");
    let before = folder.read("end1");
    let said = folder.shell("umask 077; \"$AIRFIELD\" first end1 5 > end1.new");
    said.failed(&["end1.new stands in the way: standard output leads there; lead it elsewhere"]);
    assert_eq!((folder.read("end1"), folder.read("end1.new")), (before.clone(), vec![]));
    folder.shell("\"$AIRFIELD\" first end1 5 >> end1").failed(&["end1: standard output leads into it"]);
    assert_eq!(folder.read("end1"), before);
    assert_eq!(folder.shell("\"$AIRFIELD\" first end1 5 > out; cat out").done(), folder.message("end1", 5));
}

/// Shows that what a killed run leaves is overwritten and removed, and the command works.
#[test]
fn leftovers_of_a_killed_run_are_destroyed() {
    let folder = Folder::with_ends("leftover");
    let end = folder.read("end1");
    let message = folder.message("end1", 10);
    for left in [&[][..], &end[..1], &end[..40], &end[..], &[0; 300]] {
        folder.write("end1.new", left, 0o600);
        let mut leftover = File::open(folder.at("end1.new")).unwrap();
        assert_eq!(folder.airfield(&["first", "end1", "10"]).done(), message);
        assert_eq!(folder.names(), ["end1", "end2", "end3", "list"]);
        let mut bytes = Vec::new();
        leftover.read_to_end(&mut bytes).unwrap();
        assert!(bytes.iter().all(|&byte| byte == 0));
        fs::remove_file(folder.at("end1")).unwrap();
        folder.write("end1", &end, 0o600);
    }
}

/// Shows that a link that comes in between looking and opening is not followed: what it leads to keeps its bytes.
#[test]
fn a_link_that_comes_before_opening_is_not_followed() {
    let folder = Folder::with_ends("swap");
    let end = folder.read("end1");
    folder.write("end1.new", &end, 0o600);
    let run =
        |swapped: &str| common::Said::from(folder.shimmed(&["first", "end1", "5"], "", "").env("SHIM_SWAP", swapped).output().unwrap());
    run("end1.new").failed(&["end1.new stands in the way", "symbolic links"]);
    assert_eq!((folder.read("end1"), folder.read("end1.new.moved")), (end.clone(), end.clone()));
    fs::remove_file(folder.at("end1.new")).unwrap();
    run("end1").failed(&["end1: ", "symbolic links"]);
    assert_eq!(folder.read("end1.moved"), end);
}

/// Shows that a name is refused at once if no new version could ever stand beside it.
#[test]
fn names_too_long_for_a_new_version_are_refused() {
    let folder = Folder::new("long");
    let [fits, long, longer] = [251, 252, 255].map(|length| "n".repeat(length));
    for name in [&long, &longer] {
        folder.airfield(&["list", "3", "2", "1", "1", name]).failed(&["that name is too long"]);
    }
    folder.airfield(&["list", "3", "2", "1", "1", &fits]).done();
    folder.airfield(&["key", &fits, "1", "7", &long]).failed(&["that name is too long"]);
    let end = "e".repeat(251);
    folder.airfield(&["key", &fits, "1", "7", &end]).done();
    folder.airfield(&["first", &end, "5"]).done();
    assert_eq!(folder.names(), [end, fits]);
}

/// Shows that the old version of an end, which holds the key too, is overwritten when a new one has taken its place.
#[test]
fn old_versions_are_overwritten() {
    let folder = Folder::with_ends("old");
    for words in [&["first", "end1", "10"][..], &["reply", "end1", "7", "5"]] {
        let mut old = File::open(folder.at("end1")).unwrap();
        folder.airfield(words).done();
        assert!(all_zero(&mut old));
    }
}

#[test]
fn destroy_overwrites_and_removes() {
    let folder = Folder::with_ends("destroy");
    folder.airfield(&["first", "end1", "10"]).done();
    folder.write("end1.new", &folder.read("end1"), 0o600);
    folder.write("end2.new", b"mine", 0o600);
    folder.write("list.new", &folder.read("list"), 0o600);
    let mut files = ["end1", "end1.new", "end2", "list", "list.new"].map(|name| File::open(folder.at(name)).unwrap());
    assert!(folder.airfield(&["destroy", "end1", "list"]).done().contains("not covered: copies"));
    folder.airfield(&["destroy", "end2"]).failed(&["end2 is destroyed, but", "end2.new remains: it is no earlier version"]);
    assert!(files.iter_mut().all(all_zero));
    assert_eq!(folder.names(), ["end2.new", "end3"]);
    folder.write("damaged", &folder.read("end3")[..60], 0o644);
    folder.write("empty", b"", 0o600);
    folder.write("other", b"cutawheno", 0o600);
    let said = folder.airfield(&["destroy", "other", "none", "damaged", "empty"]);
    said.failed(&["2 of 4", "other: it is neither a list nor an end", "none: No such file", "overwritten and removed: damaged empty"]);
    assert_eq!(folder.names(), ["end2.new", "end3", "other"]);
    assert_eq!(folder.read("other"), b"cutawheno");
}

/// Shows that no key stays behind unsaid: whatever remains beside a file is named, with status 1 and advice that works.
#[test]
fn destroy_names_what_remains() {
    let folder = Folder::with_ends("remains");
    let end = folder.read("end1");
    let damaged = [&end[..], b"x"].concat();
    let put: [(&str, &dyn Fn()); 5] = [
        ("its mode is 0644", &|| folder.write("end1.new", &end, 0o644)),
        ("it is no earlier version", &|| folder.write("end1.new", &folder.read("end2"), 0o600)),
        ("a link", &|| folder.link("end2", "end1.new")),
        ("a folder", &|| fs::create_dir(folder.at("end1.new")).unwrap()),
        ("2 names", &|| fs::hard_link(folder.at("end2"), folder.at("end1.new")).unwrap()),
    ];
    for (told, put) in put {
        put();
        folder.airfield(&["destroy", "end1"]).failed(&["end1 is destroyed, but", "end1.new remains: ", told]);
        assert!(!folder.names().contains(&"end1".to_string()) && folder.names().contains(&"end2".to_string()));
        if told.contains("mode") {
            folder.airfield(&["destroy", "end1.new"]).done();
        } else {
            fs::remove_file(folder.at("end1.new")).or_else(|_| fs::remove_dir(folder.at("end1.new"))).unwrap();
        }
        folder.write("end1", &end, 0o600);
    }
    folder.shell("umask 077; \"$AIRFIELD\" destroy end1 > end1.new").failed(&["end1.new remains: standard output leads there"]);
    // beside a damaged end
    for (left, mode, told) in [(&end[..], 0o600, ""), (&damaged, 0o600, ""), (&end, 0o640, "0640"), (b"mine", 0o600, "no earlier")] {
        folder.write("end1", &damaged, 0o600);
        folder.write("end1.new", left, mode);
        let said = folder.airfield(&["destroy", "end1"]);
        if told.is_empty() {
            said.done();
            assert_eq!(folder.names(), ["end2", "end3", "list"]);
        } else {
            said.failed(&["end1.new remains: ", told]);
            assert_eq!(folder.read("end1.new"), left);
        }
    }
}

#[test]
fn status_tells_what_stands_beside() {
    let folder = Folder::with_ends("beside");
    let told = "end1.new, which a killed run may have left";
    assert!(!folder.airfield(&["status", "end1"]).done().contains(".new"));
    folder.link("nowhere", "end1.new");
    assert!(folder.airfield(&["status", "end1"]).done().ends_with(&format!("beside it stands {told}\n")));
    folder.link("end1", "link");
    let told_of_link = folder.airfield(&["status", "link"]).done();
    assert!(told_of_link.contains("beside/end1.new") && !told_of_link.contains("link.new"));
    folder.write("end1", b"cutawheno end 2", 0o600);
    folder.airfield(&["status", "end1"]).failed(&["end1: it is", told]);
}

/// Shows that `destroy *` takes no empty or zero file that is not as the tool makes them.
#[test]
fn destroy_leaves_other_empty_files() {
    let folder = Folder::new("empty");
    for (name, bytes, mode) in [("a", &b""[..], 0o644), ("b", &[0; 10], 0o644), ("c", b"", 0o400), ("d", b"", 0o600), ("e", &[0; 9], 0o600)]
    {
        folder.write(name, bytes, mode);
    }
    let told = &["3 of 5", "a: it is empty", "b: it is empty", "c: ", "overwritten and removed: d e"];
    folder.airfield(&["destroy", "a", "b", "c", "d", "e"]).failed(told);
    assert_eq!(folder.names(), ["a", "b", "c"]);
}

/// Shows that nothing hangs or is read without bound: pipes, folders, devices and huge files are refused by name.
#[test]
fn what_is_no_file_is_refused() {
    let folder = Folder::with_ends("kinds");
    assert!(Command::new("mkfifo").arg(folder.at("pipe")).status().unwrap().success());
    folder.link("/dev/zero", "device");
    folder.link("loop", "loop");
    fs::create_dir(folder.at("folder")).unwrap();
    folder.write("huge", b"cutawheno end 2\n", 0o600);
    File::options().write(true).open(folder.at("huge")).unwrap().set_len(1 << 40).unwrap();
    for (name, told) in
        [("pipe", "a pipe"), ("device", "a device"), ("folder", "a folder"), ("huge", "longer than 65536 bytes"), ("loop", "levels")]
    {
        for words in [&["first", name, "1"][..], &["key", name, "1", "7", "x"], &["status", name], &["destroy", name]] {
            let said = folder.command("timeout", &[&["10", AIRFIELD], words].concat()).output().unwrap();
            common::Said::from(said).failed(&[name, told]);
        }
    }
}

fn all_zero(file: &mut File) -> bool {
    let mut bytes = Vec::new();
    file.rewind().unwrap();
    file.read_to_end(&mut bytes).unwrap();
    !bytes.is_empty() && bytes.iter().all(|&byte| byte == 0)
}
