//! What the tests of the tools share: real processes on real files, each test in a folder of its own.
//!
//! - `Folder`: a folder for one test, with the tools run in it
//! - `Said`: what a process said, and how it ended
//! - `shim`: the library that stops, kills or fails a process at a step (shim.c)
//! - `checksum`, `sealed`: the checksum line of a file, made a second time
#![allow(dead_code)] // no test uses all of it

use std::ffi::OsStr;
use std::fs;
use std::io::Write;
use std::os::unix::fs::{symlink, PermissionsExt};
use std::os::unix::process::ExitStatusExt;
use std::path::{Path, PathBuf};
use std::process::{Child, Command, Output, Stdio};
use std::sync::Once;

pub const AIRFIELD: &str = env!("CARGO_BIN_EXE_airfield");
pub const RECORDS: &str = env!("CARGO_BIN_EXE_records");
pub const TOTALS: &str = env!("CARGO_BIN_EXE_totals");
/// The proved program, where `tools/prove` leaves it.
pub const POOL: &str = concat!(env!("CARGO_MANIFEST_DIR"), "/../target/bin/pool");
const Q: u32 = 65521;

#[derive(Debug, PartialEq, Eq)]
pub struct Said {
    pub status: Option<i32>,
    pub signal: Option<i32>,
    pub output: String,
    pub error: String,
}

impl From<Output> for Said {
    fn from(output: Output) -> Said {
        Said {
            status: output.status.code(),
            signal: output.status.signal(),
            output: String::from_utf8_lossy(&output.stdout).into_owned(),
            error: String::from_utf8_lossy(&output.stderr).into_owned(),
        }
    }
}

impl Said {
    #[track_caller]
    pub fn done(self) -> String {
        assert_eq!((self.status, self.error.as_str()), (Some(0), ""), "{}", self.output);
        self.output
    }

    /// Failed with status 1, and nothing printed; each of these words is told.
    #[track_caller]
    pub fn failed(&self, words: &[&str]) {
        self.ended(1, words);
    }

    #[track_caller]
    pub fn ended(&self, status: i32, words: &[&str]) {
        assert_eq!((self.status, self.output.as_str()), (Some(status), ""), "{}", self.error);
        for word in words {
            assert!(self.error.contains(word), "{word} is not told: {}", self.error);
        }
        assert!(!self.error.contains("panicked"), "{}", self.error);
    }
}

pub struct Folder {
    pub path: PathBuf,
}

impl Drop for Folder {
    fn drop(&mut self) {
        drop(fs::remove_dir_all(&self.path));
    }
}

impl Folder {
    /// A new empty folder of this name.
    pub fn new(name: &str) -> Folder {
        let path = Path::new(env!("CARGO_TARGET_TMPDIR")).join(name);
        drop(fs::remove_dir_all(&path));
        fs::create_dir(&path).unwrap();
        fs::set_permissions(&path, fs::Permissions::from_mode(0o755)).unwrap();
        Folder { path }
    }

    /// With a list of plan 3 2 1 1 and fresh ends of all three airfields, for round 7.
    pub fn with_ends(name: &str) -> Folder {
        let folder = Folder::new(name);
        folder.airfield(&["list", "3", "2", "1", "1", "list"]).done();
        for airfield in ["1", "2", "3"] {
            folder.airfield(&["key", "list", airfield, "7", &format!("end{airfield}")]).done();
        }
        folder
    }

    pub fn command<W: AsRef<OsStr>>(&self, program: &str, words: &[W]) -> Command {
        let mut command = Command::new(program);
        command.args(words).current_dir(&self.path).stdin(Stdio::null()).stdout(Stdio::piped()).stderr(Stdio::piped());
        command
    }

    pub fn airfield<W: AsRef<OsStr>>(&self, words: &[W]) -> Said {
        self.command(AIRFIELD, words).output().unwrap().into()
    }

    /// The tools through a shell, which sets up what stands in the script for them.
    pub fn shell(&self, script: &str) -> Said {
        let tools = [("AIRFIELD", AIRFIELD), ("RECORDS", RECORDS), ("TOTALS", TOTALS), ("POOL", POOL)];
        self.command("bash", &["-c", script]).envs(tools).output().unwrap().into()
    }

    pub fn with_input(&self, program: &str, words: &[&str], input: &[u8]) -> Said {
        let mut child = self.command(program, words).stdin(Stdio::piped()).spawn().unwrap();
        drop(child.stdin.take().unwrap().write_all(input));
        child.wait_with_output().unwrap().into()
    }

    /// The tool with something done to it at a step, by its number or by the words of its line in the log.
    pub fn shimmed(&self, words: &[&str], act: &str, at: &str) -> Command {
        let mut command = self.command(AIRFIELD, words);
        command.env("LD_PRELOAD", shim()).env("SHIM_DO", act).env("SHIM_STEP", at);
        command
    }

    pub fn at(&self, name: &str) -> PathBuf {
        self.path.join(name)
    }

    pub fn read(&self, name: &str) -> Vec<u8> {
        fs::read(self.at(name)).unwrap()
    }

    pub fn write(&self, name: &str, bytes: &[u8], mode: u32) {
        fs::write(self.at(name), bytes).unwrap();
        fs::set_permissions(self.at(name), fs::Permissions::from_mode(mode)).unwrap();
    }

    pub fn link(&self, to: &str, name: &str) {
        symlink(to, self.at(name)).unwrap();
    }

    pub fn mode(&self, name: &str) -> u32 {
        fs::symlink_metadata(self.at(name)).unwrap().permissions().mode() & 0o7777
    }

    /// The names in it, in order.
    pub fn names(&self) -> Vec<String> {
        let mut names: Vec<String> =
            fs::read_dir(&self.path).unwrap().map(|entry| entry.unwrap().file_name().into_string().unwrap()).collect();
        names.sort();
        names
    }

    /// The numbers of a field in a file.
    pub fn numbers(&self, name: &str, field: &str) -> Vec<u32> {
        let text = String::from_utf8(self.read(name)).unwrap();
        let line = text.lines().find_map(|line| line.strip_prefix(field)?.strip_prefix(' ')).unwrap();
        line.split(' ').map(|number| number.parse().unwrap()).collect()
    }

    /// The lines that the one figure of an end under plan 3 2 1 1 gives, by its key.
    pub fn message(&self, end: &str, figure: u32) -> String {
        self.row(end, &[figure])
    }

    /// The lines that an end's row of figures gives, by its key.
    pub fn row(&self, end: &str, figures: &[u32]) -> String {
        let (key, airfield) = (self.numbers(end, "key"), self.numbers(end, "airfield")[0]);
        let masked = figures.iter().zip(key).map(|(figure, mask)| (figure + mask) % Q);
        let lines = masked.enumerate().map(|(place, element)| format!("first {airfield} {place} {element}\n"));
        self.comment(end) + &lines.collect::<String>()
    }

    /// The line that leads a message.
    pub fn comment(&self, end: &str) -> String {
        let text = String::from_utf8(self.read(end)).unwrap();
        let list = text.lines().find_map(|line| line.strip_prefix("list ")).unwrap();
        format!("# list {} airfield {} round {}\n", &list[..8], self.numbers(end, "airfield")[0], self.numbers(end, "round")[0])
    }

    /// Copies all files into a new folder beside it.
    pub fn copy(&self, name: &str) -> Folder {
        let copy = Folder::new(name);
        for name in self.names() {
            fs::copy(self.at(&name), copy.at(&name)).unwrap();
        }
        copy
    }
}

/// Waits until a process is stopped.
pub fn wait_for_stop(child: &Child) {
    let stat = format!("/proc/{}/stat", child.id());
    loop {
        let state = fs::read_to_string(&stat).unwrap();
        assert!(!state.contains(") Z "), "the process has ended and not stopped");
        if state.contains(") T ") {
            return;
        }
        std::thread::sleep(std::time::Duration::from_millis(2));
    }
}

pub fn send(child: &Child, signal: &str) {
    // bash has kill built in
    let sent = Command::new("bash").args(["-c", "kill \"$0\" \"$1\"", signal, &child.id().to_string()]).status().unwrap();
    assert!(sent.success());
}

pub fn end_of(child: Child) -> Said {
    child.wait_with_output().unwrap().into()
}

/// Compiled once for each program of tests.
pub fn shim() -> PathBuf {
    static COMPILED: Once = Once::new();
    let library = Path::new(env!("CARGO_TARGET_TMPDIR")).join(format!("shim-{}.so", std::process::id()));
    COMPILED.call_once(|| {
        let source = concat!(env!("CARGO_MANIFEST_DIR"), "/tests/common/shim.c");
        let flags = ["-std=c11", "-Wall", "-Wextra", "-Werror", "-O1", "-fPIC", "-shared", "-o"];
        let compiled = Command::new("gcc").args(flags).arg(&library).arg(source).status().unwrap();
        assert!(compiled.success());
    });
    // from the folder of a test, since the system splits what it loads before at spaces and colons
    Path::new("..").join(library.file_name().unwrap())
}

/// CRC-32, by division of the whole bit string: another way than the tool's.
pub fn checksum(bytes: &[u8]) -> u32 {
    let bits = bytes.iter().flat_map(|byte| (0..8).map(move |bit| u32::from(byte >> bit & 1))).chain([0; 32]);
    let rest = bits.enumerate().fold(0u32, |rest, (at, bit)| {
        let shifted = rest << 1 | (bit ^ u32::from(at < 32));
        if rest >> 31 == 1 {
            shifted ^ 0x04c11db7
        } else {
            shifted
        }
    });
    !rest.reverse_bits()
}

/// A file's text with its last line.
pub fn sealed(body: &str) -> Vec<u8> {
    format!("{body}checksum {:08x}\n", checksum(body.as_bytes())).into_bytes()
}
