//! Files that hold secrets. Whatever is said to be done is on the disk, folder included, before anything is said.
//!
//! - `New`: a new private file, never over another: `create`, `write`, `remove`
//! - `Held`: an existing file, locked for the whole call: `open`, `read`, `sync`, `replace`, `destroy`,
//!   `is_private`, `leftover`
//!
//! A file that serves as one end must not serve as two. So a name is resolved first, a file with a second name (a hard link) is
//! refused, and the lock is on the file itself: a run that has waited looks whether the name still leads to the file it has locked.

use cutawheno_tools::command::shown;
use cutawheno_tools::standard::{complain, is_output};
use cutawheno_tools::system::{self, NAME_TOO_LONG, NOFOLLOW, NONBLOCK};
use std::ffi::OsString;
use std::fs::{self, File, Metadata, OpenOptions, Permissions};
use std::io::{self, Read, Seek, Write};
use std::os::unix::fs::{FileTypeExt, MetadataExt, OpenOptionsExt, PermissionsExt};
use std::path::{Path, PathBuf};

/// For the owner alone.
const PRIVATE: u32 = 0o600;
const OTHERS: u32 = 0o077;
const MODE: u32 = 0o7777;
const OTHERS_WRITE: u32 = 0o002;
const STICKY: u32 = 0o1000;
/// More than the longest list has, in bytes.
const LONGEST: u64 = 1 << 16;
/// How often a file may be replaced by other runs while this one waits for its lock.
const PATIENCE: u32 = 1000;

/// A new file, private and still empty: its name is taken.
pub struct New {
    file: File,
    folder: File,
    path: PathBuf,
}

impl New {
    /// Not under a name that a new version of a held file would take.
    pub fn create(path: &Path, held: Option<&Held>) -> Result<New, String> {
        let folder = folder_of(path)?;
        check_folder(path, Purpose::Use).map_err(|fault| format!("{}: {fault}", shown(path)))?;
        check_name(path, held).map_err(|fault| format!("{}: {fault}", shown(path)))?;
        let file = create_private(path).map_err(|fault| match fault.kind() {
            io::ErrorKind::AlreadyExists => {
                format!("{}: something stands there already, and nothing is written over it", shown(path))
            }
            _ => told(path, &fault),
        })?;
        Ok(New { file, folder, path: path.to_path_buf() })
    }

    /// Writes it and has it on the disk under its name, or leaves none.
    pub fn write(mut self, bytes: &[u8]) -> Result<(), String> {
        let written = self.file.write_all(bytes).and_then(|()| self.file.sync_all()).and_then(|()| self.folder.sync_all());
        let stands = written.and_then(|()| stands(&self.file, &self.path));
        stands.map_err(|fault| format!("{}; {}", told(&self.path, &fault), self.remove()))
    }

    /// Removes it again, and says so.
    pub fn remove(self) -> String {
        match remove(&self.file, &self.path) {
            Ok(()) => "nothing is left of the new file".to_string(),
            Err(left) => format!("what is left of it could not be removed: {left}"),
        }
    }
}

/// A file that is there, opened and locked.
pub struct Held {
    file: File,
    given: PathBuf,
    path: PathBuf,
}

/// What a file is opened for.
#[derive(Clone, Copy, PartialEq, Eq)]
pub enum Purpose {
    Use,
    Destruction,
}

impl Held {
    pub fn open(given: &Path, purpose: Purpose) -> Result<Held, String> {
        let mut patient = false;
        for _ in 0..PATIENCE {
            let path = fs::canonicalize(given).map_err(|fault| told(given, &fault))?;
            let file = open_existing(&path).map_err(|fault| format!("{}: {fault}", shown(given)))?;
            let stands = || usable(&file, &path, purpose).map_err(|fault| format!("{}: {fault}", shown(given)));
            // what is refused is waited for no longer: somebody else may hold its lock for ever
            if stands()? {
                wait_for_lock(&file, given, &mut patient)?;
                if stands()? {
                    return Ok(Held { file, given: given.to_path_buf(), path });
                }
            }
        }
        Err(format!("{}: other runs replace it all the time", shown(given)))
    }

    pub fn read(&self) -> Result<Vec<u8>, String> {
        read_all(&self.file).map_err(|fault| format!("{}: {fault}", shown(&self.given)))
    }

    /// Has the file and its name on the disk, as a run that was killed may have left that to do.
    pub fn sync(&self) -> Result<(), String> {
        let synced = self.file.sync_all().map_err(|fault| told(&self.given, &fault));
        synced.and_then(|()| folder_of(&self.path)?.sync_all().map_err(|fault| told(&self.given, &fault)))
    }

    /// Puts new bytes in the place of the old ones, by a file beside it whose name ends in `.new`: at any moment the name leads to
    /// the old bytes or to the new ones, whole. The old ones are then overwritten. What a killed run has left under that name is
    /// destroyed if it begins as the new bytes do up to `head`.
    pub fn replace(&self, bytes: &[u8], head: usize) -> Result<(), String> {
        let folder = folder_of(&self.path)?;
        let new = self.beside();
        let head = &bytes[..head];
        self.remove_leftover(|left| left.starts_with(head) || head.starts_with(left)).map_err(|why| {
            let to_output = fs::symlink_metadata(&new).map_or(false, |found| is_output(&found));
            let advice = if to_output { "lead it elsewhere" } else { "move it and run the same command again" };
            format!("{} stands in the way: {why}; {advice}", self.beside_as_given())
        })?;
        let mut file = create_private(&new).map_err(|fault| format!("{}: {fault}", self.beside_as_given()))?;
        let replaced = file.write_all(bytes).and_then(|()| file.sync_all()).and_then(|()| fs::rename(&new, &self.path));
        if let Err(fault) = replaced {
            drop(remove(&file, &new));
            return Err(format!("{}: {fault}; {} is as it was", self.beside_as_given(), shown(&self.given)));
        }
        folder.sync_all().map_err(|fault| {
            format!("{}; its new stage may not be on the disk yet: run the same command again", told(&self.given, &fault))
        })?;
        if let Err(fault) = erase(&self.file) {
            complain(&format!("{}: its old bytes could not be overwritten: {fault}", shown(&self.given)));
        }
        stands(&file, &self.path).map_err(|fault| format!("{}; nothing was printed", told(&self.given, &fault)))
    }

    /// Overwrites the file and removes it, and what a killed run may have left beside it if its bytes are `ours`; all on the disk. What
    /// remains is told.
    pub fn destroy(self, ours: impl Fn(&[u8]) -> bool) -> Result<(), String> {
        let folder = folder_of(&self.path)?;
        let left = self.remove_leftover(ours);
        let removed = remove(&self.file, &self.path).and_then(|()| folder.sync_all());
        let removed = removed.map_err(|fault| told(&self.given, &fault));
        let left = left.map_err(|why| {
            let new = self.beside_as_given();
            format!("{new} remains: {why}; if it is a list or an end, run airfield destroy {new}, else move it or remove it")
        });
        match (removed, left) {
            (Err(fault), Err(left)) => Err(format!("{fault}; {left}")),
            (Ok(()), Err(left)) => Err(format!("{} is destroyed, but {left}", shown(&self.given))),
            (removed, Ok(())) => removed,
        }
    }

    /// Whether it is as this tool makes files: for its owner alone, who runs it.
    pub fn is_private(&self) -> bool {
        self.file.metadata().map_or(false, |found| found.mode() & MODE == PRIVATE && found.uid() == system::user())
    }

    /// What stands under the name that a new version has until it is whole.
    pub fn leftover(&self) -> Option<String> {
        fs::symlink_metadata(self.beside()).ok().map(|_| self.beside_as_given())
    }

    /// The name that a new version has until it is whole.
    fn beside(&self) -> PathBuf {
        with_new(&self.path)
    }

    /// The same as a message shows it: by the words of the command line, unless these name a link.
    fn beside_as_given(&self) -> String {
        let is_link = resolved(&self.given).map_or(true, |path| path != self.path);
        shown(with_new(if is_link { &self.path } else { &self.given }))
    }

    /// Destroys what stands beside it, if it is private and its bytes are `ours`, or erased; else says why not.
    fn remove_leftover(&self, ours: impl Fn(&[u8]) -> bool) -> Result<(), String> {
        let new = self.beside();
        match fs::symlink_metadata(&new) {
            Err(fault) if fault.kind() == io::ErrorKind::NotFound => return Ok(()),
            Err(fault) => return Err(fault.to_string()),
            Ok(found) if is_output(&found) => return Err("standard output leads there".to_string()),
            Ok(found) if found.is_file() && found.mode() & MODE != PRIVATE => {
                return Err(format!("its mode is {:04o} and not {PRIVATE:04o}", found.mode() & MODE))
            }
            Ok(_) => (),
        }
        let file = open_existing(&new)?;
        check(&file.metadata().map_err(|fault| fault.to_string())?, Purpose::Use)?;
        let bytes = read_all(&file)?;
        if !is_erased(&bytes) && !ours(&bytes) {
            return Err("it is no earlier version of this file".to_string());
        }
        remove(&file, &new).map_err(|fault| fault.to_string())
    }
}

fn with_new(path: &Path) -> PathBuf {
    let mut name = OsString::from(path);
    name.push(".new");
    PathBuf::from(name)
}

/// Nothing but zeros: what stands in a file that was overwritten and not yet removed.
pub fn is_erased(bytes: &[u8]) -> bool {
    bytes.iter().all(|&byte| byte == 0)
}

/// A new file for the owner alone, whatever the umask; a link is not followed.
fn create_private(path: &Path) -> io::Result<File> {
    let file = OpenOptions::new().read(true).write(true).create_new(true).mode(PRIVATE).custom_flags(NOFOLLOW).open(path)?;
    match file.set_permissions(Permissions::from_mode(PRIVATE)) {
        Ok(()) => Ok(file),
        Err(fault) => fs::remove_file(path).and(Err(fault)),
    }
}

/// A regular file; nothing else is opened, since opening a pipe or a device can wait or act.
fn open_existing(path: &Path) -> Result<File, String> {
    let named = fs::symlink_metadata(path).map_err(|fault| fault.to_string())?;
    if !named.is_file() {
        return Err(format!("it is {}, and no file", kind_of(&named)));
    }
    let flags = NOFOLLOW | NONBLOCK;
    OpenOptions::new().read(true).write(true).custom_flags(flags).open(path).map_err(|fault| fault.to_string())
}

fn kind_of(found: &Metadata) -> &'static str {
    let kind = found.file_type();
    if kind.is_dir() {
        "a folder"
    } else if kind.is_symlink() {
        "a link"
    } else if kind.is_fifo() {
        "a pipe"
    } else if kind.is_socket() {
        "a socket"
    } else {
        "a device"
    }
}

/// Whether the name still leads to the file; and if so, all that must hold of it.
fn usable(file: &File, path: &Path, purpose: Purpose) -> Result<bool, String> {
    let found = file.metadata().map_err(|fault| fault.to_string())?;
    let stands = fs::symlink_metadata(path).map_or(false, |named| same_file(&named, &found));
    if stands {
        check(&found, purpose)?;
        check_folder(path, purpose)?;
    }
    Ok(stands)
}

/// What must hold of a file with a secret. One that is to be destroyed may lie open to others.
fn check(found: &Metadata, purpose: Purpose) -> Result<(), String> {
    let mode = found.mode() & MODE;
    if !found.is_file() {
        Err(format!("it is {}, and no file", kind_of(found)))
    } else if found.nlink() != 1 {
        Err(format!("it has {} names (hard links), and one is wanted: remove the others", found.nlink()))
    } else if is_output(found) {
        Err("standard output leads into it; lead it elsewhere".to_string())
    } else if purpose == Purpose::Destruction {
        Ok(())
    } else if found.uid() != system::user() {
        Err(format!("it belongs to user {}, and this is user {}", found.uid(), system::user()))
    } else if mode & OTHERS != 0 {
        Err(format!("its mode is {mode:04o}, so that others than its owner may have read it; if they have not, run chmod 600 on it"))
    } else {
        Ok(())
    }
}

/// Whoever may write a folder can put other files in the place of those in it, unless its sticky bit is set.
fn check_folder(path: &Path, purpose: Purpose) -> Result<(), String> {
    let folder = folder_name(path);
    let mode = fs::metadata(folder).map_err(|fault| told(folder, &fault))?.mode() & MODE;
    if purpose == Purpose::Use && mode & (OTHERS_WRITE | STICKY) == OTHERS_WRITE {
        return Err(format!(
            "its folder's mode is {mode:04o}, so that everybody may put other files in its place; run chmod o-w on the folder"
        ));
    }
    Ok(())
}

/// A run that waits says so once.
fn wait_for_lock(file: &File, given: &Path, patient: &mut bool) -> Result<(), String> {
    let fault = |fault: io::Error| format!("{}: it cannot be locked: {fault}", shown(given));
    if system::lock_now(file).map_err(fault)? {
        return Ok(());
    }
    if !*patient {
        complain(&format!("airfield: {}: another run works on it; waiting", shown(given)));
    }
    *patient = true;
    system::lock(file).map_err(fault)
}

fn same_file(one: &Metadata, other: &Metadata) -> bool {
    (one.dev(), one.ino()) == (other.dev(), other.ino())
}

fn read_all(mut file: &File) -> Result<Vec<u8>, String> {
    let mut bytes = Vec::new();
    file.rewind().and_then(|()| file.take(LONGEST + 1).read_to_end(&mut bytes)).map_err(|fault| fault.to_string())?;
    if bytes.len() as u64 > LONGEST {
        return Err(format!("it is longer than {LONGEST} bytes, which no list and no end is"));
    }
    Ok(bytes)
}

/// The folder that a file's name stands in, to be synced.
fn folder_of(path: &Path) -> Result<File, String> {
    let folder = folder_name(path);
    File::open(folder).map_err(|fault| told(folder, &fault))
}

fn folder_name(path: &Path) -> &Path {
    path.parent().filter(|folder| !folder.as_os_str().is_empty()).unwrap_or(Path::new("."))
}

/// Overwrites a file with zeros where it lies, on the disk.
fn erase(mut file: &File) -> io::Result<()> {
    let mut left = file.metadata()?.len();
    file.rewind()?;
    while left > 0 {
        let zeros = [0; 4096];
        let count = left.min(zeros.len() as u64);
        file.write_all(&zeros[..count as usize])?;
        left -= count;
    }
    file.sync_all()
}

/// Overwrites a file and removes its name, even where it cannot be overwritten. Another file that has that name by now is left alone.
fn remove(file: &File, path: &Path) -> io::Result<()> {
    let erased = erase(file);
    let found = file.metadata()?;
    let removed = match fs::symlink_metadata(path) {
        Err(fault) if fault.kind() == io::ErrorKind::NotFound => 0,
        Err(fault) => return Err(fault),
        Ok(named) if same_file(&named, &found) => fs::remove_file(path).map(|()| 1)?,
        Ok(_) => return Err(lost("another file has its name now")),
    };
    if found.nlink() > removed {
        return erased.and(Err(lost("its zeros are left under another name")));
    }
    erased
}

/// Whether a file has its name, and no other.
fn stands(file: &File, path: &Path) -> io::Result<()> {
    let found = file.metadata()?;
    match fs::symlink_metadata(path) {
        Ok(named) if !same_file(&named, &found) => Err(lost("another file was put in its place meanwhile")),
        Ok(_) if found.nlink() == 1 => Ok(()),
        Ok(_) => Err(lost("it was given a second name (hard link) meanwhile")),
        Err(_) => Err(lost("its name was removed meanwhile")),
    }
}

/// Whether a new file can have this name, and its new versions theirs beside it.
fn check_name(path: &Path, held: Option<&Held>) -> Result<(), String> {
    let resolved = match resolved(path) {
        Some(resolved) => resolved,
        None => return Ok(()), // no name at all, which creating it tells
    };
    if held.map_or(false, |held| held.beside() == resolved) {
        return Err("that is the name of the list's own new version; another is wanted".to_string());
    }
    match fs::symlink_metadata(with_new(&resolved)) {
        Err(fault) if fault.raw_os_error() == Some(NAME_TOO_LONG) => {
            Err("that name is too long: a new version has .new behind it".to_string())
        }
        _ => Ok(()),
    }
}

/// The name in its folder, which is resolved; the name itself is not.
fn resolved(path: &Path) -> Option<PathBuf> {
    fs::canonicalize(folder_name(path)).ok().and_then(|folder| Some(folder.join(path.file_name()?)))
}

fn lost(why: &str) -> io::Error {
    io::Error::new(io::ErrorKind::Other, why)
}

fn told(path: &Path, fault: &io::Error) -> String {
    format!("{}: {fault}", shown(path))
}
