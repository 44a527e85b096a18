//! The calls of the system that the standard library lacks, and its numbers (Linux, x86-64).
//!
//! - `NOFOLLOW`, `NONBLOCK`: flags for opening a file
//! - `NAME_TOO_LONG`: the number of a fault
//! - `lock_now`, `lock`: an exclusive lock on an opened file, which the system drops when the file is closed or the process ends
//! - `user`: the effective user
//! - `guard`: no signal for a file that gets too long, and no image of the memory after a crash
//! - `draw`: bytes from the system's source of randomness
//! - `was_closed`: whether standard input, output or error was closed when the process began

use std::fs::File;
use std::io;
use std::os::unix::io::AsRawFd;
use std::sync::atomic::{AtomicBool, Ordering};

pub const NOFOLLOW: i32 = 0o400000;
pub const NONBLOCK: i32 = 0o4000;
pub const NAME_TOO_LONG: i32 = 36;

const LOCK_EXCLUSIVE: i32 = 2;
const LOCK_NO_WAIT: i32 = 4;
const GET_FLAGS: i32 = 1;
const FILE_TOO_LONG: i32 = 25;
const IGNORE: usize = 1;
const SET_DUMPABLE: i32 = 4;

extern "C" {
    fn flock(file: i32, operation: i32) -> i32;
    fn geteuid() -> u32;
    fn getrandom(buffer: *mut u8, length: usize, flags: u32) -> isize;
    fn fcntl(file: i32, command: i32, ...) -> i32;
    fn signal(number: i32, handler: usize) -> usize;
    fn prctl(option: i32, ...) -> i32;
}

/// Whether the lock was free, and is now held.
pub fn lock_now(file: &File) -> io::Result<bool> {
    match flocked(file, LOCK_EXCLUSIVE | LOCK_NO_WAIT) {
        Err(fault) if fault.kind() == io::ErrorKind::WouldBlock => Ok(false),
        outcome => outcome.map(|()| true),
    }
}

/// Waits for the lock.
pub fn lock(file: &File) -> io::Result<()> {
    flocked(file, LOCK_EXCLUSIVE)
}

fn flocked(file: &File, operation: i32) -> io::Result<()> {
    loop {
        // SAFETY: numbers alone, the first of an open file.
        if unsafe { flock(file.as_raw_fd(), operation) } == 0 {
            return Ok(());
        }
        let fault = io::Error::last_os_error();
        if fault.kind() != io::ErrorKind::Interrupted {
            return Err(fault);
        }
    }
}

pub fn user() -> u32 {
    // SAFETY: takes nothing and cannot fail.
    unsafe { geteuid() }
}

/// For a program's start. A write past the limit on a file's length is then an error that is told, and keys stay out of core files.
pub fn guard() {
    // SAFETY: numbers alone; to ignore a signal runs nothing of ours.
    unsafe {
        signal(FILE_TOO_LONG, IGNORE);
        prctl(SET_DUMPABLE, 0usize, 0usize, 0usize, 0usize);
    }
}

/// Fills the bytes; waits where the source has not yet gathered enough after the machine's start.
pub fn draw(bytes: &mut [u8]) -> io::Result<()> {
    let mut filled = 0;
    while let Some(rest) = bytes.get_mut(filled..).filter(|rest| !rest.is_empty()) {
        // SAFETY: pointer and length are those of a slice that is borrowed alone.
        let count = unsafe { getrandom(rest.as_mut_ptr(), rest.len(), 0) };
        match usize::try_from(count) {
            Ok(count) => filled += count,
            Err(_) => {
                let fault = io::Error::last_os_error();
                if fault.kind() != io::ErrorKind::Interrupted {
                    return Err(fault);
                }
            }
        }
    }
    Ok(())
}

static CLOSED: [AtomicBool; 3] = [AtomicBool::new(false), AtomicBool::new(false), AtomicBool::new(false)];

/// Runs before Rust's own start, which opens /dev/null in the place of a closed standard file.
extern "C" fn look() {
    for (number, closed) in (0..).zip(&CLOSED) {
        // SAFETY: numbers alone.
        closed.store(unsafe { fcntl(number, GET_FLAGS) } == -1, Ordering::Relaxed);
    }
}

#[used]
#[link_section = ".init_array"]
static LOOK: extern "C" fn() = look;

/// Of a standard file by its number, 0 to 2.
pub fn was_closed(number: usize) -> bool {
    CLOSED.get(number).map_or(false, |closed| closed.load(Ordering::Relaxed))
}
