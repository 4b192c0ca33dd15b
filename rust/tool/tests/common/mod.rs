//! A temporary folder, and the built command started in it.

// Each file of tests uses a part of this.
#![allow(dead_code)]

use differential::{random_corners, Kind, Random, Tables};
use model::session::Wall;
use model::Plan;
use std::collections::BTreeMap;
use std::ffi::{OsStr, OsString};
use std::fs;
use std::io::ErrorKind;
use std::os::unix::fs::PermissionsExt;
use std::path::{Path, PathBuf};
use std::process::{Command, Output, Stdio};
use std::sync::atomic::{AtomicUsize, Ordering};

/// A folder of its own that is removed in the end.
pub struct Folder(PathBuf);

impl Folder {
    /// In memory where that is there and nothing else was asked for: each change waits for the disk.
    pub fn new() -> Folder {
        let memory = Path::new("/dev/shm");
        let in_memory = std::env::var_os("TMPDIR").is_none().then(|| Folder::within(memory));
        let anywhere = || Folder::within(&std::env::temp_dir());
        in_memory.and_then(Result::ok).map_or_else(anywhere, Ok).expect("a temporary folder")
    }

    pub fn within(folder: &Path) -> std::io::Result<Folder> {
        static COUNT: AtomicUsize = AtomicUsize::new(0);
        // Without links, so that names in messages can be foretold.
        let folder = fs::canonicalize(folder)?;
        loop {
            let count = COUNT.fetch_add(1, Ordering::Relaxed);
            let path = folder.join(format!("wallmirror-tool-{}-{count}", std::process::id()));
            match fs::create_dir(&path) {
                // A process of the same number was ended before it could remove it.
                Err(error) if error.kind() == ErrorKind::AlreadyExists => {}
                made => return made.map(|()| Folder(path)),
            }
        }
    }

    pub fn path(&self, name: impl AsRef<Path>) -> PathBuf {
        self.0.join(name)
    }

    pub fn read(&self, name: impl AsRef<Path>) -> Vec<u8> {
        let path = self.path(name);
        fs::read(&path).unwrap_or_else(|error| panic!("'{}': {error}", path.display()))
    }

    /// The bytes of a file, if it is there.
    pub fn find(&self, name: impl AsRef<Path>) -> Option<Vec<u8>> {
        fs::read(self.path(name)).ok()
    }

    pub fn write(&self, name: impl AsRef<Path>, bytes: impl AsRef<[u8]>) {
        let path = self.path(name);
        fs::write(&path, bytes).unwrap_or_else(|error| panic!("'{}': {error}", path.display()));
    }

    /// Makes a file be there with these bytes, or not at all.
    pub fn put(&self, name: &str, bytes: &Option<Vec<u8>>) {
        match bytes {
            Some(bytes) => self.write(name, bytes),
            None => drop(fs::remove_file(self.path(name))),
        }
    }

    /// All that is in the folder.
    pub fn all(&self) -> BTreeMap<OsString, Content> {
        let mut all = BTreeMap::new();
        collect(&self.0, OsStr::new(""), &mut all);
        all
    }

    /// The names of all that is in the folder.
    pub fn names(&self) -> Vec<OsString> {
        self.all().into_keys().collect()
    }
}

impl Drop for Folder {
    fn drop(&mut self) {
        let _ = fs::remove_dir_all(&self.0);
    }
}

/// What a name in a folder stands for.
#[derive(Clone, Debug, PartialEq, Eq)]
pub enum Content {
    /// The bytes and the permissions of a file.
    File(Vec<u8>, u32),
    Folder,
    Link(PathBuf),
    Device,
}

fn collect(folder: &Path, prefix: &OsStr, all: &mut BTreeMap<OsString, Content>) {
    for entry in fs::read_dir(folder).expect("a folder") {
        let entry = entry.expect("an entry");
        let (name, path) = (Path::new(prefix).join(entry.file_name()), entry.path());
        let metadata = fs::symlink_metadata(&path).expect("it is there");
        let content = if metadata.is_symlink() {
            Content::Link(fs::read_link(&path).expect("a link"))
        } else if metadata.is_dir() {
            collect(&path, name.as_os_str(), all);
            Content::Folder
        } else if !metadata.is_file() {
            Content::Device
        } else {
            Content::File(fs::read(&path).expect("a file"), metadata.permissions().mode())
        };
        all.insert(name.into_os_string(), content);
    }
}

/// The command, to be started in the folder.
pub fn command<A: AsRef<OsStr>>(
    folder: &Folder,
    arguments: impl IntoIterator<Item = A>,
) -> Command {
    let mut command = Command::new(env!("CARGO_BIN_EXE_wallmirror"));
    command.current_dir(&folder.0).args(arguments).stdin(Stdio::null());
    command
}

/// Standard output, standard error, and the exit status.
pub type Ran = (String, String, i32);

/// Runs the command in the folder.
pub fn run<A: AsRef<OsStr>>(folder: &Folder, arguments: impl IntoIterator<Item = A>) -> Ran {
    ran(command(folder, arguments).output().expect("the command starts"))
}

pub fn ran(output: Output) -> Ran {
    let text = |bytes| String::from_utf8(bytes).expect("text");
    let status = output.status.code().unwrap_or_else(|| panic!("{output:?}"));
    (text(output.stdout), text(output.stderr), status)
}

/// The words of a line, one space apart.
pub fn words(line: &str) -> Vec<&str> {
    line.split(' ').collect()
}

/// Runs a line of words, which is to be done without a word on standard error. Answers what it
/// prints.
pub fn done(folder: &Folder, line: &str) -> String {
    let (out, err, status) = run(folder, words(line));
    assert_eq!((err.as_str(), status), ("", 0), "{line}");
    out
}

/// Sees that a line of words is bad input: one line on standard error with all of these parts,
/// nothing on standard output, nothing changed.
pub fn bad(folder: &Folder, line: &str, parts: &[&str]) {
    bad_words(folder, &words(line), parts)
}

pub fn bad_words<A: AsRef<OsStr>>(folder: &Folder, arguments: &[A], parts: &[&str]) {
    let before = folder.all();
    let (out, err, status) = run(folder, arguments);
    let said: Vec<_> = arguments.iter().map(|argument| argument.as_ref().to_owned()).collect();
    assert_eq!((out.as_str(), status), ("", 2), "{said:?}: {err}");
    assert_one_line(&err);
    assert!(parts.iter().all(|part| err.contains(part)), "{said:?}: {err}");
    assert_eq!(folder.all(), before, "{said:?}");
}

/// Sees that a line of words is refused with this number, and that what is said ends so. Nothing is
/// changed.
pub fn refused(folder: &Folder, line: &str, printed: &str, number: u32, end: &str) {
    let before = folder.all();
    let (out, err, status) = run(folder, words(line));
    assert_eq!((out.as_str(), status), (printed, 1), "{line}: {err}");
    assert_one_line(&err);
    let begin = format!("wallmirror: refusal {number}: ");
    assert!(err.starts_with(&begin) && err.ends_with(&format!("{end}\n")), "{line}: {err}");
    assert_eq!(folder.all(), before, "{line}");
}

pub fn assert_one_line(err: &str) {
    assert!(err.starts_with("wallmirror: ") && err.ends_with('\n'), "{err:?}");
    assert_eq!(err.lines().count(), 1, "{err:?}");
}

/// The numbers of a plan, with both corner numbers if there is one.
pub fn numbers(plan: Plan) -> String {
    let Plan { columns, rows, levels, degree_across, degree_up, class, .. } = plan;
    let six = format!("{columns} {rows} {levels} {degree_across} {degree_up} {class}");
    match (plan.corners_across, plan.corners_up) {
        (0, 0) => six,
        (across, up) => format!("{six} {across} {up}"),
    }
}

/// A small plan of this class, with a corner more often than not.
pub fn small_plan(random: &mut Random, class: u32) -> Plan {
    let mut side = |most: usize| random.below(most) as u32 + 1;
    let (columns, rows, levels) = (side(4), side(3), side(2) + 1);
    let (degree_across, degree_up) = (side(4), side(4));
    let corners_across = random_corners(random, columns);
    let corners_up = random_corners(random, rows);
    Plan { columns, rows, levels, degree_across, degree_up, class, corners_across, corners_up }
}

/// The coarsest wall of a plan, by the model.
pub fn opened(plan: Plan) -> Wall {
    let (t, f) = (plan.cell_total(), plan.function_total());
    let (cells, functions) = model::open(plan, t, f).expect("the plan is in range");
    Wall { plan, cells, functions }
}

/// The file of a wall, by the model.
pub fn file(wall: &Wall) -> Vec<u8> {
    model::file::write(wall.plan, &wall.cells, &wall.functions, usize::MAX).expect("a wall")
}

pub const WORDS: [(&str, Kind); 4] = [
    ("split", Kind::RefineCells),
    ("fsplit", Kind::RefineFunctions),
    ("join", Kind::CoarsenCells),
    ("fjoin", Kind::CoarsenFunctions),
];

/// A call that the wall takes, as a line of a session: often one that splits.
pub fn good_call(random: &mut Random, wall: &Wall) -> String {
    let among = if random.once_in(3) { &WORDS[..2] } else { &WORDS[..] };
    let (word, kind) = random.pick(among);
    let markable = markable(wall, kind);
    let count = if markable.is_empty() { 0 } else { random.pick(&[0, 1, 1, 1, 2, 3, 5]) };
    let marks: Vec<u32> = (0..count).map(|_| random.pick(&markable)).collect();
    line(word, &marks)
}

pub fn markable(wall: &Wall, kind: Kind) -> Vec<u32> {
    let Wall { plan, cells, functions } = wall;
    Tables { plan: *plan, cells: cells.clone(), functions: functions.clone() }.markable(kind)
}

pub fn line(word: &str, marks: &[u32]) -> String {
    let marks: String = marks.iter().map(|mark| format!(" {mark}")).collect();
    format!("{word}{marks}")
}

/// A line of a session with the name of a wall's file behind its word.
pub fn with_file(line: &str, file: &str) -> String {
    match line.split_once(' ') {
        None => format!("{line} {file}"),
        Some((word, marks)) => format!("{word} {file} {marks}"),
    }
}

/// A file of the repository.
pub fn document(name: &str) -> String {
    let path = Path::new(env!("CARGO_MANIFEST_DIR")).join("../..").join(name);
    fs::read_to_string(&path).unwrap_or_else(|error| panic!("'{}': {error}", path.display()))
}

/// The blocks of a document that are marked so.
pub fn blocks(text: &str, mark: &str) -> Vec<String> {
    let begin = format!("```{mark}");
    let mut lines = text.lines();
    let mut blocks = vec![];
    while lines.any(|line| line == begin) {
        let block = lines.by_ref().take_while(|line| *line != "```");
        blocks.push(block.map(|line| format!("{line}\n")).collect());
    }
    blocks
}
