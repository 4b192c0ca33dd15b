//! Files that are replaced whole, one command at a time.

use crate::failure::{self, Failure};
use std::ffi::{OsStr, OsString};
use std::fs::{self, File, TryLockError};
use std::io::{self, ErrorKind, Read, Write};
use std::os::unix::fs::{fchown, MetadataExt};
use std::path::{Path, PathBuf};
use std::thread;
use std::time::Duration;

/// The ending of a wall's journal.
pub const JOURNAL: &str = ".journal";

/// The ending of a new file that has not yet taken its name.
const NEW: &str = ".wallmirror-new";

/// The ending of an old file that is about to be put back.
const OLD: &str = ".wallmirror-old";

/// A folder that one command has to itself, as long as the value lives.
pub struct Folder {
    handle: File,
}

impl Folder {
    /// Waits until no other command works in the folder of the file.
    pub fn lock(file: &Path) -> Result<Folder, Failure> {
        let path = folder_of(file);
        let folder = path.display();
        let handle = File::open(&path).map_err(|error| match error.kind() {
            ErrorKind::NotFound => Failure::bad(format!(
                "there is no folder '{folder}'; make it first or give the file another name"
            )),
            _ => Failure::bad(format!("the folder '{folder}' cannot be opened: {}", said(&error))),
        })?;
        match wait_for(&handle) {
            // Some network folders have no locks. The files are still replaced whole.
            Err(error) if has_no_locks(&error) => {}
            Err(error) => {
                let error = said(&error);
                return Err(Failure::bad(format!(
                    "the folder '{folder}' cannot be locked: {error}"
                )));
            }
            Ok(()) => {}
        }
        Ok(Folder { handle })
    }

    /// Replaces files by new ones, in this order. All are written before the first takes its name, so
    /// that a full disk changes nothing; then each name has the old bytes or the new ones at every
    /// moment, and as long as a file has not taken its name, it lies beside. When this returns, the new
    /// ones are on the disk, or the old ones are back, unless a failure says otherwise. A file that was
    /// not there gets the permissions of the one that it is to be like.
    pub fn replace(&self, files: &[(&Path, &[u8])], like: &Path) -> Result<(), Failure> {
        files.iter().try_for_each(|(path, _)| may_be_written(path))?;
        let old = files.iter().map(|(path, _)| read(path, usize::MAX - 1));
        let old = old.collect::<Result<Vec<_>, _>>()?;
        let mut named = 0;
        let Err(failure) = self.write_and_name(files, like, &mut named) else {
            return Ok(());
        };
        if !self.put_back(&files[..named], &old) {
            // What lies beside is needed to finish the change.
            let said = "; nor could the old file be put back: look at it before you go on";
            return Err(failure.adding(said));
        }
        // What is left would be overwritten next time.
        for (path, _) in files {
            let _ = fs::remove_file(new_of(path));
        }
        Err(failure)
    }

    /// Counts those that have taken their names.
    fn write_and_name(
        &self,
        files: &[(&Path, &[u8])],
        like: &Path,
        named: &mut usize,
    ) -> Result<(), Failure> {
        files.iter().try_for_each(|(path, bytes)| write_new(path, bytes, like))?;
        // All lie beside on the disk before the first takes its name.
        self.sync().map_err(|error| cannot_write(like, &error))?;
        files.iter().try_for_each(|(path, _)| {
            let renamed = fs::rename(new_of(path), path).and_then(|()| {
                *named += 1;
                self.sync()
            });
            renamed.map_err(|error| cannot_write(path, &error))
        })
    }

    /// Puts the old files back, the last one first, as if the command had been cut off ever earlier: a
    /// new file lies beside again before the old one takes its name. Answers whether all are there
    /// again.
    fn put_back(&self, named: &[(&Path, &[u8])], old: &[Option<Vec<u8>>]) -> bool {
        // An earlier file must not go back before a later one.
        named.iter().zip(old).rev().all(|((path, new), old)| {
            write_new(path, new, path).is_ok()
                && self.sync().is_ok()
                && match old {
                    None => fs::remove_file(path).is_ok(),
                    Some(bytes) => {
                        write_beside(&beside(path, OLD), bytes, path).is_ok()
                            && fs::rename(beside(path, OLD), path).is_ok()
                    }
                }
                && self.sync().is_ok()
        })
    }

    /// Gives its name to the new file that lies beside.
    pub fn finish(&self, path: &Path) -> Result<(), Failure> {
        may_be_written(path)?;
        let named = fs::rename(new_of(path), path).and_then(|()| self.sync());
        named.map_err(|error| cannot_write(path, &error))
    }

    /// Waits until the names are on the disk.
    fn sync(&self) -> io::Result<()> {
        match self.handle.sync_all() {
            // Some network folders cannot wait.
            Err(error)
                if matches!(error.kind(), ErrorKind::InvalidInput | ErrorKind::Unsupported) =>
            {
                Ok(())
            }
            synced => synced,
        }
    }
}

/// Most commands take far less than two seconds; who waits longer is told why.
fn wait_for(handle: &File) -> io::Result<()> {
    for _ in 0..100 {
        match handle.try_lock() {
            Err(TryLockError::WouldBlock) => thread::sleep(Duration::from_millis(20)),
            Err(TryLockError::Error(error)) => return Err(error),
            Ok(()) => return Ok(()),
        }
    }
    failure::say("waiting for another command that works in this folder");
    handle.lock()
}

fn has_no_locks(error: &io::Error) -> bool {
    // "No locks available" has no kind of its own.
    const ENOLCK: i32 = 37;
    error.kind() == ErrorKind::Unsupported || error.raw_os_error() == Some(ENOLCK)
}

/// A new file could take the name of one that is only to be read, or that is another's.
fn may_be_written(path: &Path) -> Result<(), Failure> {
    let name = path.display();
    if fs::metadata(path).is_ok_and(|file| file.permissions().readonly()) {
        return Err(Failure::bad(format!("'{name}' may not be written; 'chmod u+w' allows it")));
    }
    match File::options().write(true).open(path) {
        Err(error) if error.kind() != ErrorKind::NotFound => Err(cannot_write(path, &error)),
        _ => Ok(()),
    }
}

fn new_of(path: &Path) -> PathBuf {
    beside(path, NEW)
}

/// At most so many bytes, and one more, of the new file of a path that has not yet taken its name.
/// `None` if no such file lies beside, or if it is a link or the like.
pub fn half_made(path: &Path, most: usize) -> Result<Option<Vec<u8>>, Failure> {
    let new = new_of(path);
    match fs::symlink_metadata(&new) {
        Ok(file) if file.is_file() => read(&new, most),
        _ => Ok(None),
    }
}

/// Writes the new file of a path, with owner and permissions of the old one, or of one like it.
fn write_new(path: &Path, bytes: &[u8], like: &Path) -> Result<(), Failure> {
    // What was left there may be another's, or a link to somewhere else.
    let _ = fs::remove_file(beside(path, OLD));
    let like = if fs::metadata(path).is_ok() { path } else { like };
    write_beside(&new_of(path), bytes, like).map_err(|error| cannot_write(path, &error))
}

fn write_beside(path: &Path, bytes: &[u8], like: &Path) -> io::Result<()> {
    let _ = fs::remove_file(path);
    let mut file = File::create_new(path)?;
    if let Ok(old) = fs::metadata(like) {
        // It stays the owner's, where the one who writes it may give it away.
        let _ = fchown(&file, Some(old.uid()), Some(old.gid()));
        file.set_permissions(old.permissions())?;
    }
    file.write_all(bytes)?;
    file.sync_all()
}

pub fn cannot_write(path: &Path, error: &io::Error) -> Failure {
    Failure::bad(format!("'{}' cannot be written: {}", path.display(), said(error)))
}

/// What is wrong, and what to do.
fn said(error: &io::Error) -> String {
    let said = match error.kind() {
        ErrorKind::PermissionDenied => "permission is denied; allow it or use another folder",
        ErrorKind::ReadOnlyFilesystem => "the disk may only be read; copy the wall elsewhere",
        ErrorKind::StorageFull | ErrorKind::QuotaExceeded => "the disk is full; make room",
        ErrorKind::InvalidFilename => "the name is too long; give a shorter one",
        ErrorKind::NotADirectory => "a part of the name is no folder; give another name",
        ErrorKind::IsADirectory => "it is a folder; give the name of a file",
        _ => return format!("{error}; try again or use another folder"),
    };
    said.to_string()
}

/// At most so many bytes of a file, and one more if there are more. `None` if there is no such file.
pub fn read(path: &Path, most: usize) -> Result<Option<Vec<u8>>, Failure> {
    // Others would make the command wait, or never end.
    if fs::metadata(path).is_ok_and(|file| !file.is_file()) {
        let path = path.display();
        return Err(Failure::bad(format!(
            "'{path}' is a folder or a device; give the name of a file"
        )));
    }
    let mut bytes = vec![];
    let read = File::open(path).and_then(|file| file.take(most as u64 + 1).read_to_end(&mut bytes));
    match read {
        Ok(_) => Ok(Some(bytes)),
        Err(error) if error.kind() == ErrorKind::NotFound => Ok(None),
        Err(error) => {
            Err(Failure::bad(format!("'{}' cannot be read: {}", path.display(), said(&error))))
        }
    }
}

/// Whether a name is one that the files beside a wall have.
pub fn is_reserved(path: &Path) -> bool {
    let name = path.file_name().unwrap_or_default().as_encoded_bytes();
    [JOURNAL, NEW, OLD].iter().any(|ending| name.ends_with(ending.as_bytes()))
}

/// The same path with an ending.
pub fn beside(path: &Path, ending: &str) -> PathBuf {
    let mut name: OsString = path.as_os_str().to_owned();
    name.push(ending);
    PathBuf::from(name)
}

/// The path without links, of a file that may not be there yet.
pub fn resolved(path: &Path) -> PathBuf {
    if let Ok(path) = fs::canonicalize(path) {
        return path;
    }
    match (fs::canonicalize(folder_of(path)), path.file_name()) {
        (Ok(folder), Some(name)) => folder.join(name),
        _ => path.to_path_buf(),
    }
}

fn folder_of(file: &Path) -> PathBuf {
    match file.parent() {
        Some(folder) if folder != OsStr::new("") => folder.to_path_buf(),
        _ => PathBuf::from("."),
    }
}
