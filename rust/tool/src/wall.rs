//! A wall in a file, with its journal beside it.
//!
//! A change is written twice: first the journal with its new line, then the wall, each as a new file
//! that takes the old one's name, after both lie beside on the disk. So a command that is cut off
//! leaves both as they were, or both changed, or the one case in between: the journal has one line
//! more than the wall, and the new wall still lies beside. That is found by making the journal's calls
//! once more: the wall is then the one before the last line, and the half-made file the one that the
//! journal leads to. The next command that changes something gives that file its name. Any other wall
//! that the journal does not lead to is left as it is, and the setter says what becomes of it.

use crate::failure::{self, Failure};
use crate::journal::{Journal, Wrong};
use crate::store::{self, Folder};
use crate::words;
use std::ffi::OsStr;
use std::fs;
use std::path::{Path, PathBuf};
use wallmirror::{Call, Lists, Mesh, Refusal, Season, Undone, MAX_FILE_BYTES};

/// A wall that no other command reads or writes as long as the value lives.
pub struct Wall {
    /// As it was given, to speak of it.
    name: String,
    path: PathBuf,
    folder: Folder,
    journal: Journal,
    fit: Fit,
}

/// What lies beside a wall's file.
enum Fit {
    /// A journal that leads to the wall.
    Fits,
    /// No journal: nothing is known of the season. The one in hand begins with the wall as it is.
    NoJournal,
    /// A journal that leads to the wall in the half-made file, as after a command that was cut off.
    HalfMade,
    /// A journal that leads to another wall than the one in the file, which is this.
    Other(Mesh),
}

impl Wall {
    /// Makes the file of a wall, which is not to be there yet, and begins its journal.
    pub fn create(file: &OsStr, mesh: &Mesh) -> Result<(), Failure> {
        let (name, path) = (shown(file), Path::new(file).to_path_buf());
        refuse_name(&path, &name)?;
        let folder = Folder::lock(&path)?;
        let journal = journal_of(&path);
        let taken = [
            (&path, "file", "move it away"),
            (&journal, "journal", "'wallmirror restore' writes its wall, or move it away"),
        ];
        for (there, what, how) in taken {
            if fs::symlink_metadata(there).is_ok() {
                let there = there.display();
                return Err(Failure::bad(format!(
                    "there is a {what} '{there}' already; {how} or give the wall another name"
                )));
            }
        }
        Wall { name, path, folder, journal: begin(mesh.clone())?, fit: Fit::Fits }.keep()
    }

    /// The wall of a file, to be read: nothing is written. Where a command was cut off, it is the one
    /// that the journal leads to.
    pub fn look(file: &OsStr) -> Result<Wall, Failure> {
        let wall = Wall::find(file)?.fitting()?;
        if wall.is_half_made() {
            let name = &wall.name;
            failure::say(&format!("the last change of '{name}' is half-made, as after a command that was cut off; shown is the wall with it, and the next change finishes it first"));
        }
        Ok(wall)
    }

    /// The wall of a file, to be changed. Where a command was cut off, its change is finished first.
    pub fn open(file: &OsStr) -> Result<Wall, Failure> {
        let mut wall = Wall::find(file)?.fitting()?;
        wall.finish()?;
        Ok(wall)
    }

    /// The wall of a file with its journal, if there is one, whether they fit or not.
    fn find(file: &OsStr) -> Result<Wall, Failure> {
        let name = shown(file);
        // The journal lies beside the file itself and not beside a link to it.
        let path = store::resolved(Path::new(file));
        refuse_name(&path, &name)?;
        let folder = Folder::lock(&path)?;
        let journal = read_journal(&path)?;
        let found = read_wall(&name, &path, journal.is_some())?;
        let (journal, fit) = match (journal, found) {
            (None, None) => return Err(missing(&name, false)),
            (None, Some(found)) => (begin(found)?, Fit::NoJournal),
            (Some(journal), found) => {
                let fit = fit(&path, &journal, found)?.ok_or_else(|| missing(&name, true))?;
                (journal, fit)
            }
        };
        Ok(Wall { name, path, folder, journal, fit })
    }

    /// Refuses a wall that its journal does not lead to.
    fn fitting(self) -> Result<Wall, Failure> {
        match &self.fit {
            Fit::Other(found) => Err(self.other(found)),
            _ => Ok(self),
        }
    }

    /// What is seen of a wall that the journal does not lead to, and what can be done.
    fn other(&self, found: &Mesh) -> Failure {
        let name = &self.name;
        if found.plan != self.mesh().plan {
            let journal = journal_of(&self.path);
            let journal = journal.display();
            return Failure::bad(format!("'{name}' has another plan than its journal; put the right file back, or move the wall away and 'wallmirror restore' writes the one of the journal, or move '{journal}' away and nothing is known of the season"));
        }
        let seen = match self.journal.entries_since(found) {
            None => "is no wall of its journal, as after calls of another program".to_string(),
            Some(entries) => {
                let changes = match entries {
                    1 => "change".to_string(),
                    _ => words::count(entries, "change"),
                };
                format!("lacks the last {changes} of its journal, as after calls of another program or with an older copy")
            }
        };
        Failure::bad(format!("'{name}' {seen}; put the right file back, or 'wallmirror accept' keeps the wall and adds calls that lead to it to the journal, or move the wall away and 'wallmirror restore' writes the one of the journal"))
    }

    /// Finishes the change of a command that was cut off.
    fn finish(&mut self) -> Result<(), Failure> {
        if !self.is_half_made() {
            return Ok(());
        }
        let name = &self.name;
        self.folder.finish(&self.path).map_err(|failure| {
            let said = failure.said;
            Failure::bad(format!("the last change of '{name}' is half-made, as after a command that was cut off, and to finish it failed: {said}"))
        })?;
        failure::say(&format!("the last change of '{name}' was half-made, as after a command that was cut off; it is finished now"));
        self.fit = Fit::Fits;
        Ok(())
    }

    /// Keeps the wall of a file as it is, and adds calls to its journal that lead to it, or begins one.
    /// Answers which lines of the journal are new, or `None` if it led there before.
    pub fn accept(file: &OsStr) -> Result<(Wall, Option<usize>), Failure> {
        let mut wall = Wall::find(file)?;
        wall.finish()?;
        let lines = wall.journal.entries().len();
        match std::mem::replace(&mut wall.fit, Fit::Fits) {
            Fit::Other(found) if found.plan != wall.mesh().plan => return Err(wall.other(&found)),
            Fit::Other(found) => {
                let made = wall.journal.lead_to(&found);
                if made.is_err() || *wall.mesh() != found {
                    return Err(wall.fault("lead to"));
                }
            }
            Fit::NoJournal => {}
            Fit::Fits | Fit::HalfMade => return Ok((wall, None)),
        }
        let journal = journal_of(&wall.path);
        wall.folder.replace(&[(&journal, wall.journal.text().as_bytes())], &wall.path)?;
        Ok((wall, Some(lines)))
    }

    /// Writes the wall of a journal whose file is missing.
    pub fn restore(file: &OsStr) -> Result<Wall, Failure> {
        let path = Path::new(file).to_path_buf();
        let name = shown(file);
        refuse_name(&path, &name)?;
        let folder = Folder::lock(&path)?;
        if let Some(failure) = link_to_nothing(&name, &path) {
            return Err(failure);
        }
        if fs::symlink_metadata(&path).is_ok() {
            return Err(Failure::bad(format!(
                "there is a file '{name}'; only a missing one is restored, so move it away first"
            )));
        }
        let journal = read_journal(&path)?.ok_or_else(|| {
            let journal = journal_of(&path);
            let journal = journal.display();
            Failure::bad(format!("there is no journal '{journal}' to restore from; check the name, or make a wall with 'wallmirror new'"))
        })?;
        folder.replace(&[(&path, &file_of(journal.season().mesh())?)], &path)?;
        Ok(Wall { name, path, folder, journal, fit: Fit::Fits })
    }

    /// As it was given.
    pub fn name(&self) -> &str {
        &self.name
    }

    pub fn mesh(&self) -> &Mesh {
        self.season().mesh()
    }

    pub fn season(&self) -> &Season {
        self.journal.season()
    }

    pub fn journal(&self) -> &Journal {
        &self.journal
    }

    /// Whether there was a journal; else nothing is known of the season.
    pub fn has_journal(&self) -> bool {
        !matches!(self.fit, Fit::NoJournal)
    }

    /// Whether the file lacks the last change, as after a command that was cut off.
    pub fn is_half_made(&self) -> bool {
        matches!(self.fit, Fit::HalfMade)
    }

    /// Whether this, without links, is the file of the wall.
    pub fn owns(&self, path: &Path) -> bool {
        path == self.path
    }

    /// Makes a call. Where it is accepted, it is in the journal and in the wall when this returns.
    pub fn make(&mut self, call: Call) -> Result<Result<Lists, Refusal>, Failure> {
        let lists = match self.journal.make(call) {
            Ok(lists) => lists,
            Err(refusal) => return Ok(Err(refusal)),
        };
        self.keep()?;
        if !self.has_journal() {
            let name = &self.name;
            failure::say(&format!("'{name}' had no journal; one begins with the wall as it was found, so that its season is known from here on only"));
        }
        Ok(Ok(lists))
    }

    /// Takes the last calls back, the last one first.
    pub fn back(&mut self, count: usize) -> Result<Vec<Undone>, Failure> {
        let undone = self.journal.back(count).ok_or_else(|| {
            let calls = words::count(count, "call");
            let most = match self.season().calls().len() {
                0 => "there is none".to_string(),
                most => format!("give a number from 1 to {most}"),
            };
            Failure::bad(format!("{calls} cannot be walked back; {most}"))
        })?;
        // This is what the library is proved to do. If it should not, nothing is written.
        let same = undone.iter().all(|undone| undone.lists == undone.made.lists);
        if !same || *self.mesh() != self.journal.made_again() {
            return Err(self.fault("take back"));
        }
        self.keep()?;
        Ok(undone)
    }

    fn fault(&self, did_not: &str) -> Failure {
        let name = &self.name;
        Failure::bad(format!("the calls did not {did_not} '{name}' as they should; it is as it was, and this is a fault of the library to be told to its makers"))
    }

    /// First the journal, then the wall.
    fn keep(&self) -> Result<(), Failure> {
        let (journal, wall) = (journal_of(&self.path), file_of(self.mesh())?);
        let text = self.journal.text().as_bytes();
        self.folder.replace(&[(&journal, text), (&self.path, &wall)], &self.path)
    }

    /// The bytes of the file, as they are on the disk.
    pub fn file(&self) -> Result<Vec<u8>, Failure> {
        store::read(&self.path, MAX_FILE_BYTES)?.ok_or_else(|| missing(&self.name, true))
    }
}

/// What a wall's file and its journal are to each other. `None` if the file is missing.
fn fit(path: &Path, journal: &Journal, found: Option<Mesh>) -> Result<Option<Fit>, Failure> {
    let leads_to = journal.season().mesh();
    if found.as_ref() == Some(leads_to) {
        return Ok(Some(Fit::Fits));
    }
    // Before the journal had a line there was no wall.
    if found.as_ref() == journal.before() {
        let half_made = store::half_made(path, MAX_FILE_BYTES)?;
        if half_made == Some(file_of(leads_to)?) {
            return Ok(Some(Fit::HalfMade));
        }
    }
    Ok(found.map(Fit::Other))
}

/// The journal that begins with a wall.
fn begin(mesh: Mesh) -> Result<Journal, Failure> {
    Journal::begin(mesh).map_err(|refusal| Failure::refused(refusal, None))
}

fn file_of(mesh: &Mesh) -> Result<Vec<u8>, Failure> {
    mesh.to_file().map_err(|refusal| Failure::refused(refusal, None))
}

/// Whether there is a wall or a journal, of whatever wall.
pub fn is_kept(path: &Path) -> bool {
    match store::read(path, MAX_FILE_BYTES) {
        Ok(Some(bytes)) => is_journal(&bytes) || Mesh::from_file(&bytes).is_ok(),
        _ => false,
    }
}

fn is_journal(bytes: &[u8]) -> bool {
    bytes.starts_with(b"wallmirror journal")
}

fn journal_of(path: &Path) -> PathBuf {
    store::beside(path, store::JOURNAL)
}

/// A name as it was given, on one line.
pub fn shown(file: &OsStr) -> String {
    failure::one_line(&Path::new(file).display().to_string())
}

/// A wall has a name, and none of those that the files beside walls have.
fn refuse_name(path: &Path, name: &str) -> Result<(), Failure> {
    if path.file_name().is_none() {
        return Err(Failure::bad(format!("'{name}' is no name for a file; give another one")));
    }
    if store::is_reserved(path) {
        let name = path.display();
        return Err(Failure::bad(format!(
            "'{name}' has the ending of what lies beside a wall; give the wall itself, or another name"
        )));
    }
    Ok(())
}

fn read_journal(path: &Path) -> Result<Option<Journal>, Failure> {
    let has_wall = fs::metadata(path).is_ok();
    let path = journal_of(path);
    // A new journal would take the link's place and not the file's.
    if fs::read_link(&path).is_ok() {
        let path = path.display();
        return Err(Failure::bad(format!(
            "the journal '{path}' is a link; put the file itself there"
        )));
    }
    let Some(text) = store::read(&path, usize::MAX - 1)? else {
        return Ok(None);
    };
    let journal = Journal::read(&text).map_err(|Wrong { said, to_do }| {
        let or = if has_wall { ", or move it away and nothing is known of the season" } else { "" };
        let path = path.display();
        Failure::bad(format!("the journal '{path}' does not fit: {said}; {to_do}{or}"))
    })?;
    Ok(Some(journal))
}

fn read_wall(name: &str, path: &Path, has_journal: bool) -> Result<Option<Mesh>, Failure> {
    let Some(bytes) = store::read(path, MAX_FILE_BYTES)? else {
        return link_to_nothing(name, path).map_or(Ok(None), Err);
    };
    let no_wall = |refusal| no_wall(name, &bytes, refusal, has_journal);
    Mesh::from_file(&bytes).map(Some).map_err(no_wall)
}

/// A journal lies beside the file itself, so a link says where to look.
fn link_to_nothing(name: &str, path: &Path) -> Option<Failure> {
    let target = fs::read_link(path).ok().filter(|_| fs::metadata(path).is_err())?;
    let target = target.display();
    Some(Failure::bad(format!(
        "'{name}' is a link to '{target}', where there is no file; give the file itself"
    )))
}

fn missing(name: &str, has_journal: bool) -> Failure {
    let what = if has_journal {
        "but there is its journal; 'wallmirror restore' writes the wall that it leads to"
    } else {
        "check the name, or make a wall with 'wallmirror new'"
    };
    Failure::bad(format!("there is no file '{name}'; {what}"))
}

fn no_wall(name: &str, bytes: &[u8], refusal: Refusal, has_journal: bool) -> Failure {
    if is_journal(bytes) {
        let wall = name.strip_suffix(".journal").unwrap_or("FILE");
        return Failure::bad(format!("'{name}' is a journal; give the wall beside it, '{wall}'"));
    }
    let what = if has_journal {
        "move it away and let 'wallmirror restore' write that of its journal"
    } else {
        "give one that 'wallmirror new' or the library has written"
    };
    let refusal = words::refusal(refusal);
    Failure::bad(format!("'{name}' is not the file of a wall ({refusal}); {what}"))
}
