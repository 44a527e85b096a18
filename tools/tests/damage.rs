//! Files that are damaged, cut, lengthened or of another version: refused by name, and left as they are.
mod common;

use common::{sealed, Folder};
use std::fs;
use std::os::unix::fs::PermissionsExt;

/// Refused by status and by a call that would use it, with the file's name; the file keeps its bytes.
#[track_caller]
fn refused(folder: &Folder, bytes: &[u8], told: &str) {
    folder.write("file", bytes, 0o600);
    folder.airfield(&["status", "file"]).failed(&["file: ", told]);
    let is_list = bytes.starts_with(b"cutawheno list");
    folder.airfield(if is_list { &["key", "file", "1", "7", "new"][..] } else { &["first", "file", "10"] }).failed(&["file: "]);
    assert_eq!(folder.read("file"), bytes);
    assert!(!folder.names().contains(&"new".to_string()));
}

/// An end that has answered, a list, and a signed end that has answered: every field occurs. All ends are for round 7.
fn files(name: &str) -> (Folder, [Vec<u8>; 3]) {
    let folder = Folder::with_ends(name);
    folder.airfield(&["list", "3", "2", "1", "1", "other"]).done();
    folder.airfield(&["key", "other", "1", "7", "signed", "signed"]).done();
    for end in ["end1", "signed"] {
        folder.airfield(&["first", end, "10"]).done();
        folder.airfield(&["reply", end, "7", "5"]).done();
    }
    let files = ["end1", "list", "signed"].map(|name| folder.read(name));
    (folder, files)
}

#[test]
fn a_change_of_any_byte_is_found() {
    let (folder, files) = files("bytes");
    for file in files {
        for at in 0..file.len() {
            for change in [1, 0x10, 0x80] {
                let mut bytes = file.clone();
                bytes[at] ^= change;
                refused(&folder, &bytes, "");
            }
        }
    }
}

#[test]
fn a_file_cut_at_any_length_is_found() {
    let (folder, files) = files("cut");
    for file in files {
        (0..file.len()).for_each(|length| refused(&folder, &file[..length], ""));
        for added in [&b"\n"[..], b" ", b"0", &file[..]] {
            refused(&folder, &[&file[..], added].concat(), "");
            refused(&folder, &[added, &file[..]].concat(), "");
        }
    }
}

/// Shows that a stage cannot be turned back by swapping single lines between two versions of an end.
#[test]
fn lines_of_two_versions_do_not_mix() {
    let folder = Folder::with_ends("mix");
    let fresh = String::from_utf8(folder.read("end1")).unwrap();
    folder.airfield(&["first", "end1", "10"]).done();
    let sent = String::from_utf8(folder.read("end1")).unwrap();
    refused(&folder, sent.replace("stage sent", "stage fresh").as_bytes(), "checksum");
    refused(&folder, fresh.replace("stage fresh", "stage sent").as_bytes(), "checksum");
    let checksum = |text: &str| text.lines().last().unwrap().to_string();
    refused(&folder, sent.replace(&checksum(&sent), &checksum(&fresh)).as_bytes(), "checksum");
}

/// With a right checksum: what is no end of this version, or does not fit together, is refused all the same.
#[test]
fn what_is_no_end_of_this_version_is_refused() {
    let (folder, files) = files("fields");
    let text = String::from_utf8(files[0].clone()).unwrap();
    let body = &text[..text.rfind("checksum").unwrap()];
    refused(&folder, &sealed(&body.replace("end 2", "end 1")), "it is of version 1, and this tool reads version 2");
    refused(&folder, &sealed(&body.replace("end 2", "end 3")), "it is of version 3, and this tool reads version 2");
    refused(&folder, &sealed(&body.replace("end 2", "purse 2")), "it is no file of the kind");
    for (field, other) in [
        ("plan 3 2 1 1", "plan 3 3 1 1"),
        ("plan 3 2 1 1", "plan 3 2 1 2"),
        ("plan 3 2 1 1", "plan 3 2 1 01"),
        ("plan 3 2 1 1", "plan 3 2 1"),
        ("airfield 1", "airfield 4"),
        ("airfield 1", "airfield 0"),
        ("round 7\n", ""),
        ("round 7\n", "round 7\nround 7\n"),
        ("round 7\n", "round 7\nround 8\n"),
        ("round 7", "round 4294967296"),
        ("round 7", "round 18446744073709551623"),
        ("round 7", "round 07"),
        ("round 7", "round +7"),
        ("round 7", "round -7"),
        ("round 7", "round 7 8"),
        ("round 7", "round  7"),
        ("round 7", "round "),
        ("round 7", "round"),
        ("airfield 1\nround 7\n", "round 7\nairfield 1\n"),
        ("stage answered 5", "stage answered"),
        ("stage answered 5", "stage answered 05"),
        ("stage answered 5", "stage answered 6"),
        ("stage answered 5", "stage answered 9"),
        ("stage answered 5", "stage answered 4294967295"),
        ("stage answered 5", "stage fresh"),
        ("stage answered 5", "stage other"),
        ("key ", "key 1 "),
        ("key ", "key 70000 "),
        ("key ", "key  "),
        ("message ", "message 65521 "),
        ("message ", "message 1 "),
        ("list ", "list 0"),
    ] {
        assert!(body.contains(field));
        refused(&folder, &sealed(&body.replacen(field, other, 1)), "");
    }
    let text = String::from_utf8(files[2].clone()).unwrap();
    let signed = &text[..text.rfind("checksum").unwrap()];
    for other in ["use counts\n", "use other\n", "use\n", "use  signed\n", "use signed \n", "use signed\r\n", "use signed\nuse signed\n"] {
        assert!(signed.contains("use signed\n"));
        refused(&folder, &sealed(&signed.replacen("use signed\n", other, 1)), "");
    }
    for (before, after) in
        [("round 7\nuse signed\n", "use signed\nround 7\n"), ("use signed\nstage answered 5\n", "stage answered 5\nuse signed\n")]
    {
        assert!(signed.contains(before));
        refused(&folder, &sealed(&signed.replacen(before, after, 1)), "");
    }
    let text = String::from_utf8(files[1].clone()).unwrap();
    let list = &text[..text.rfind("checksum").unwrap()];
    for (field, other) in [
        ("list 2", "list 1"),
        ("list 2", "list 3"),
        ("plan 3 2 1 1", "plan 3 3 1 1"),
        ("plan 3 2 1 1", "plan 3 2 1 2"),
        ("ends 7", "ends 8"),
        ("ends 7", "ends 07"),
        ("ends 7", "ends none"),
        ("ends 7\n", ""),
        ("ends 7\n", "ends 0\n"),
        ("round 7\n", ""),
        ("round 7\n", "round 7\nround 7\n"),
        ("round 7", "round 4294967296"),
        ("round 7", "round 07"),
        ("round 7", "round +7"),
        ("round 7", "round none"),
        ("ends 7\nround 7\n", "round 7\nends 7\n"),
        ("elements ", "elements 1 "),
        ("elements ", "elements 65521 "),
    ] {
        assert!(list.contains(field));
        refused(&folder, &sealed(&list.replacen(field, other, 1)), "");
    }
    // and the checksum is made as the tool makes it, by ISO 3309
    folder.write("file", &sealed(body), 0o600);
    folder.airfield(&["status", "file"]).done();
}

/// Bytes that are no text at all.
#[test]
fn other_files_are_refused() {
    let (folder, _) = files("other");
    for bytes in
        [&b""[..], b"\0", b"\xff\xfe\n", b"100 200 300 12 60 40 120\n", b"cutawheno end 2\n", b"cutawheno end 2\nchecksum 00000000\n"]
    {
        refused(&folder, bytes, "");
    }
    folder.write("file", &fs::read("/proc/self/exe").unwrap()[..60000], 0o600);
    folder.airfield(&["status", "file"]).failed(&["file: it is no file"]);
    assert_eq!(fs::metadata(folder.at("file")).unwrap().permissions().mode() & 0o777, 0o600);
}
