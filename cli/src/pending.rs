//! The new file beside an old one: it is the lock of an edit, too, and takes the old file's place whole or not at all.

use std::ffi::{OsStr, OsString};
use std::fs::{self, File, Metadata, OpenOptions, Permissions, TryLockError};
use std::io::{self, ErrorKind, Write};
use std::os::unix::ffi::OsStrExt;
use std::os::unix::fs::{MetadataExt, OpenOptionsExt, PermissionsExt, fchown};
use std::path::{Path, PathBuf};
use std::thread::sleep;
use std::time::{Duration, Instant};

use crate::fault::Fault;
use crate::limits;
use crate::progress::Progress;

/// Not to follow a symbolic link, and not to wait for a pipe's writer, when a file is opened (Linux).
const O_NOFOLLOW: i32 = 0o400_000;
const O_NONBLOCK: i32 = 0o4_000;

/// The permissions of a new file: nobody else's until it has those of the old one, or those that the umask leaves.
pub const PRIVATE: u32 = 0o600;
pub const USUAL: u32 = 0o666;

/// How long an edit waits for another one of the same file.
const PATIENCE: Duration = Duration::from_secs(10);

/// A new file, locked as long as its owner lives. Whoever has it may edit the file that it stands beside.
pub struct Pending {
    file: File,
    path: PathBuf,
    /// Where it goes.
    target: PathBuf,
    placed: bool,
}

impl Pending {
    /// Makes the new file beside a target, which is no symbolic link, with these permissions at first. While another
    /// edit has one, it waits.
    pub fn begin(target: &Path, mode: u32) -> Result<Pending, Fault> {
        let path = beside(target)?;
        let start = Instant::now();
        let mut progress = Progress::new();
        loop {
            if let Some(file) = attempt(&path, mode).map_err(|error| Fault::trying("cannot write", &path, error))? {
                return Ok(Pending { file, path, target: target.to_path_buf(), placed: false });
            }
            if start.elapsed() > PATIENCE {
                return Err(Fault::System(format!("{}: another edit of it is under way", target.display())));
            }
            progress.show(|| format!("waiting for another edit of {}", target.display()));
            sleep(Duration::from_millis(5));
        }
    }

    /// Writes all bytes, and puts the new file in the old one's place.
    pub fn replace(mut self, bytes: &[u8], old: &Metadata) -> Result<(), Fault> {
        let done = self.fill(bytes, Some(old)).and_then(|()| fs::rename(&self.path, &self.target));
        self.finish(done)
    }

    /// Writes all bytes, and puts the new file where none is.
    pub fn create(mut self, bytes: &[u8]) -> Result<(), Fault> {
        let done = self.fill(bytes, None).and_then(|()| place(&self.path, &self.target));
        self.finish(done)
    }

    fn fill(&mut self, bytes: &[u8], old: Option<&Metadata>) -> io::Result<()> {
        limits::allowed(bytes.len())?;
        if let Some(old) = old {
            take_over(&self.file, old)?;
        }
        self.file.write_all(bytes)?;
        self.file.sync_all()
    }

    /// The new name lasts once its folder is synced.
    fn finish(&mut self, done: io::Result<()>) -> Result<(), Fault> {
        done.map_err(|error| Fault::trying("cannot write", &self.target, error))?;
        self.placed = true;
        // a folder that may not be read cannot be synced
        match self.target.parent().map(File::open) {
            Some(Ok(folder)) => {
                folder.sync_all().map_err(|error| Fault::trying("written, but not synced:", &self.target, error))
            }
            _ => Ok(()),
        }
    }
}

impl Drop for Pending {
    fn drop(&mut self) {
        if !self.placed {
            let _ = fs::remove_file(&self.path);
        }
    }
}

/// The name of the new file. A long name is cut: files that share one wait for each other, and no more.
fn beside(target: &Path) -> Result<PathBuf, Fault> {
    let name = target.file_name().ok_or_else(|| Fault::System(format!("{}: no file's name", target.display())))?;
    let bytes = name.as_bytes();
    let mut hidden = OsString::from(".");
    hidden.push(OsStr::from_bytes(&bytes[..bytes.len().min(200)]));
    hidden.push(".cfb-new");
    Ok(target.with_file_name(hidden))
}

/// Makes and locks the new file; none where another edit has it. One that nobody has locked was left by an edit that
/// was killed: it is removed, never written to, as its name may lead to anything.
fn attempt(path: &Path, mode: u32) -> io::Result<Option<File>> {
    match OpenOptions::new().write(true).create_new(true).mode(mode).open(path) {
        Ok(file) => Ok(if own(&file, path)? { Some(file) } else { None }),
        Err(error) if error.kind() == ErrorKind::AlreadyExists => {
            discard_stale(path)?;
            Ok(None)
        }
        Err(error) => Err(error),
    }
}

/// Removes a new file that nobody has locked.
fn discard_stale(path: &Path) -> io::Result<()> {
    let opened = OpenOptions::new().read(true).custom_flags(O_NOFOLLOW | O_NONBLOCK).open(path);
    match opened {
        Ok(file) if own(&file, path)? => fs::remove_file(path),
        Ok(_) => Ok(()),
        Err(error) if error.kind() == ErrorKind::NotFound => Ok(()),
        Err(error) => Err(error),
    }
}

/// Locks a file, and asks whether its path still leads to it: its last owner may have renamed or removed it.
fn own(file: &File, path: &Path) -> io::Result<bool> {
    match file.try_lock() {
        Ok(()) => {}
        Err(TryLockError::WouldBlock) => return Ok(false),
        Err(TryLockError::Error(error)) => return Err(error),
    }
    let mine = file.metadata()?;
    match fs::symlink_metadata(path) {
        Ok(there) => Ok((there.dev(), there.ino()) == (mine.dev(), mine.ino())),
        Err(error) if error.kind() == ErrorKind::NotFound => Ok(false),
        Err(error) => Err(error),
    }
}

/// Gives a new file the owner and the permissions of the old one. Without the owner the bits that lend his rights go.
fn take_over(file: &File, old: &Metadata) -> io::Result<()> {
    let new = file.metadata()?;
    let same = (new.uid(), new.gid()) == (old.uid(), old.gid());
    let kept = same || fchown(file, Some(old.uid()), Some(old.gid())).is_ok();
    let mode = if kept { old.mode() & 0o7777 } else { old.mode() & 0o777 };
    file.set_permissions(Permissions::from_mode(mode))
}

/// Gives a file a name that none has. Where the file system has no hard links, it is looked first, and then renamed.
fn place(path: &Path, target: &Path) -> io::Result<()> {
    match fs::hard_link(path, target) {
        Ok(()) => fs::remove_file(path),
        Err(error) if error.kind() == ErrorKind::AlreadyExists => Err(error),
        Err(_) if fs::symlink_metadata(target).is_ok() => Err(ErrorKind::AlreadyExists.into()),
        Err(_) => fs::rename(path, target),
    }
}
