//! Walls and journals that others changed, removed or put in the place of each other: what each command
//! says of them, and what it leaves. Commands that read leave every byte as it is.

mod common;

use common::*;
use differential::{plan, Random};
use std::collections::BTreeMap;
use std::ffi::{OsStr, OsString};
use std::fs;
use std::os::unix::fs::symlink;
use wallmirror::{Cell, Mesh, Season};

const WALL: &str = "march.wall";
const JOURNAL: &str = "march.wall.journal";
const HALF_MADE: &str = "march.wall.wallmirror-new";
const HALF_JOURNAL: &str = "march.wall.journal.wallmirror-new";
const NEW: &str = "new march.wall 3 1 3 1 1 2";

/// The walls of a journal, from the one that it begins with to the one that it leads to.
struct Walls {
    files: Vec<Vec<u8>>,
    journal: String,
}

/// Runs the lines in the folder, and answers the walls that they leave.
fn season(folder: &Folder, lines: &[&str]) -> Walls {
    let files = lines.iter().map(|line| {
        done(folder, line);
        folder.read(WALL)
    });
    let files = files.collect();
    Walls { files, journal: String::from_utf8(folder.read(JOURNAL)).expect("text") }
}

/// Three calls. Cell 2 is active in all walls.
fn march(folder: &Folder) -> Walls {
    season(folder, &[NEW, "split march.wall 0", "split march.wall 3 4", "fjoin march.wall 8 9"])
}

/// Another season of the same plan, one that leads to a wall which the first one never has.
fn april() -> Walls {
    season(&Folder::new(), &[NEW, "split march.wall 0", "split march.wall 4"])
}

/// A wall of another plan.
fn may() -> Walls {
    season(&Folder::new(), &["new march.wall 3 1 3 1 1 0", "split march.wall 0"])
}

/// What is to be seen.
#[derive(Clone, Copy, Debug)]
enum Seen {
    Fits,
    NoJournal,
    /// As after a command that was cut off. The journal leads to the wall with this number.
    HalfMade(usize),
    /// The journal leads to another wall; this is said of it.
    Other(&'static str),
    /// Nothing is done, and this is said.
    Bad(&'static str),
    /// The same, and the wall can be restored.
    Missing,
}

const LACKS_ONE: Seen =
    Seen::Other("lacks the last change of its journal, as after calls of another");
const LACKS_TWO: Seen = Seen::Other("lacks the last 2 changes of its journal, as after calls of");
const LACKS_THREE: Seen = Seen::Other("lacks the last 3 changes of its journal, as after calls of");
const NO_WALL_OF_IT: Seen =
    Seen::Other("is no wall of its journal, as after calls of another program");
const OTHER_PLAN: Seen = Seen::Bad("'march.wall' has another plan than its journal; put the right");

/// What another did with the files, and what is to be seen then.
type Foreign = (&'static str, fn(&Folder, &Walls), Seen);

const FOREIGN: [Foreign; 22] = [
    ("nothing", |_, _| (), Seen::Fits),
    ("the wall before the last line", |f, w| f.write(WALL, &w.files[2]), LACKS_ONE),
    ("an older wall", |f, w| f.write(WALL, &w.files[1]), LACKS_TWO),
    ("the oldest wall", |f, w| f.write(WALL, &w.files[0]), LACKS_THREE),
    ("the next wall of another season", |f, _| f.write(WALL, &april().files[2]), NO_WALL_OF_IT),
    ("a wall of another plan", |f, _| f.write(WALL, &may().files[1]), OTHER_PLAN),
    ("a wall cut to nothing", |f, _| f.write(WALL, ""), Seen::Bad("is not the file of a wall")),
    ("a wall cut by a byte", cut_by_a_byte, Seen::Bad("is not the file of a wall (refusal 12: ")),
    ("no wall", |f, _| f.put(WALL, &None), Seen::Missing),
    ("no journal", |f, _| f.put(JOURNAL, &None), Seen::NoJournal),
    ("the journal of another plan", |f, _| f.write(JOURNAL, may().journal), OTHER_PLAN),
    ("the journal of another season", |f, _| f.write(JOURNAL, april().journal), NO_WALL_OF_IT),
    ("a journal one line short", |f, w| f.write(JOURNAL, without_last(w)), NO_WALL_OF_IT),
    (
        "a journal cut by a byte",
        |f, w| f.write(JOURNAL, &w.journal[1..]),
        Seen::Bad("line 1 is not"),
    ),
    ("a half-made wall of another change", |f, w| f.write(HALF_MADE, &w.files[1]), Seen::Fits),
    ("a half-made wall that has its name too", |f, w| f.write(HALF_MADE, &w.files[3]), Seen::Fits),
    ("that, and the wall before", |f, w| half_made(f, &w.files[2], &w.files[1]), LACKS_ONE),
    (
        "that of the journal, and an older wall",
        |f, w| half_made(f, &w.files[1], &w.files[3]),
        LACKS_TWO,
    ),
    ("that as a link", half_made_link, LACKS_ONE),
    (
        "that of the journal, and the wall before",
        |f, w| half_made(f, &w.files[2], &w.files[3]),
        Seen::HalfMade(3),
    ),
    ("a new wall that has no name yet", half_made_new, Seen::HalfMade(0)),
    ("the wall alone with half-made files", alone_with_half_made, Seen::NoJournal),
];

fn cut_by_a_byte(folder: &Folder, walls: &Walls) {
    folder.write(WALL, &walls.files[3][..walls.files[3].len() - 1]);
}

fn without_last(walls: &Walls) -> String {
    let lines: Vec<&str> = walls.journal.split_inclusive('\n').collect();
    lines[..lines.len() - 1].concat()
}

fn half_made(folder: &Folder, wall: &[u8], new: &[u8]) {
    folder.write(WALL, wall);
    folder.write(HALF_MADE, new);
}

fn half_made_link(folder: &Folder, walls: &Walls) {
    folder.write(WALL, &walls.files[2]);
    folder.write("elsewhere", &walls.files[3]);
    symlink("elsewhere", folder.path(HALF_MADE)).expect("a link");
}

/// What `new` leaves that is cut off between its two names.
fn half_made_new(folder: &Folder, walls: &Walls) {
    folder.put(WALL, &None);
    folder.write(HALF_MADE, &walls.files[0]);
    folder.write(
        JOURNAL,
        walls.journal.lines().next().map(|head| format!("{head}\n")).expect("a head"),
    );
}

fn alone_with_half_made(folder: &Folder, walls: &Walls) {
    folder.put(JOURNAL, &None);
    folder.write(HALF_MADE, &walls.files[3]);
    folder.write(HALF_JOURNAL, &walls.journal);
}

type Files = BTreeMap<OsString, Content>;

/// A folder that another changed, with all that is in it.
struct Found {
    what: &'static str,
    seen: Seen,
    walls: Walls,
    folder: Folder,
    files: Files,
}

impl Found {
    fn make((what, change, seen): Foreign) -> Found {
        let folder = Folder::new();
        let walls = march(&folder);
        change(&folder, &walls);
        let files = folder.all();
        Found { what, seen, walls, folder, files }
    }

    /// Runs a line of words. Nothing is ever said of a first wall, since nobody knows it.
    fn run(&self, line: &str) -> Ran {
        let ran = run(&self.folder, words(line));
        assert!(!ran.0.contains("first wall") && !ran.1.contains("first wall"), "{line}: {ran:?}");
        ran
    }

    /// The bytes of a file as the command found it.
    fn bytes(&self, name: &str) -> Vec<u8> {
        match self.files.get(OsStr::new(name)) {
            Some(Content::File(bytes, _)) => bytes.clone(),
            other => panic!("{}: {other:?}", self.what),
        }
    }

    /// A line that is bad: one line says this, and nothing is changed.
    fn bad(&self, line: &str, part: &str) {
        let (out, err, status) = self.run(line);
        assert_eq!((out.as_str(), status), ("", 2), "{line} after {}: {err}", self.what);
        assert_one_line(&err);
        assert!(err.contains(part) && err.contains("; "), "{line} after {}: {err}", self.what);
        assert_eq!(self.folder.all(), self.files, "{line} after {}", self.what);
    }

    /// A line that is done. Answers what is said of it.
    fn done(&self, line: &str) -> String {
        let (_, err, status) = self.run(line);
        assert_eq!(status, 0, "{line} after {}: {err}", self.what);
        err
    }

    /// Wall and journal are these, no half-made file is left, and all else is as it was.
    fn left(&self, line: &str, wall: &[u8], journal: &str) {
        let all = self.folder.all();
        let ours = [WALL, JOURNAL].map(OsString::from);
        let others = |files: &Files| -> Files {
            let beside = |name: &OsStr| name.as_encoded_bytes().ends_with(b".wallmirror-new");
            let other = |name: &OsString| !ours.contains(name) && !beside(name);
            files.clone().into_iter().filter(|(name, _)| other(name)).collect()
        };
        assert_eq!(others(&all), others(&self.files), "{line} after {}", self.what);
        assert_eq!(all.len(), others(&all).len() + 2, "{line} after {}: {all:?}", self.what);
        assert_eq!(self.folder.read(WALL), wall, "{line} after {}", self.what);
        let text = String::from_utf8(self.folder.read(JOURNAL)).expect("text");
        assert_eq!(text, journal, "{line} after {}", self.what);
    }
}

/// All foreign changes, each in a folder of its own.
fn each(run: impl Fn(Found)) {
    FOREIGN.into_iter().for_each(|foreign| run(Found::make(foreign)));
}

fn part(seen: Seen) -> &'static str {
    match seen {
        Seen::Other(part) | Seen::Bad(part) => part,
        Seen::Missing => {
            "there is no file 'march.wall'; but there is its journal; 'wallmirror restore'"
        }
        Seen::Fits | Seen::NoJournal | Seen::HalfMade(_) => unreachable!("{seen:?}"),
    }
}

#[test]
fn commands_that_read_write_nothing() {
    each(|found| {
        for line in ["info", "log", "draw", "draw --functions", "draw --changed", "export"] {
            let line = &format!("{line} {WALL}");
            match found.seen {
                Seen::Fits => assert_eq!(found.done(line), "", "{line} after {}", found.what),
                Seen::NoJournal if !line.contains("--changed") => {
                    assert_eq!(found.done(line), "", "{line} after {}", found.what)
                }
                Seen::NoJournal | Seen::HalfMade(_) => {
                    let said = found.done(line);
                    assert_one_line(&said);
                    let parts = ["nothing is known of the last change", "' is half-made, as after"];
                    assert!(parts.iter().any(|part| said.contains(part)), "{said}");
                }
                seen => found.bad(line, part(seen)),
            }
            assert_eq!(found.folder.all(), found.files, "{line} after {}", found.what);
        }
        for line in ["--help", "help accept", "--version", "split march.wall --help"] {
            assert_eq!(found.done(line), "", "{line}");
            assert_eq!(found.folder.all(), found.files, "{line} after {}", found.what);
        }
    });
}

/// A picture in a file is all that is added.
#[test]
fn pictures_are_all_that_is_written() {
    each(|found| {
        let line = "draw march.wall -o a.svg";
        if let Seen::Fits | Seen::NoJournal | Seen::HalfMade(_) = found.seen {
            found.done(line);
            let mut all = found.folder.all();
            assert!(all.remove(OsStr::new("a.svg")).is_some());
            assert_eq!(all, found.files, "{}", found.what);
        } else {
            found.bad(line, part(found.seen));
        }
    });
}

/// What is shown of a half-made change is the wall with it, as after the change is finished.
#[test]
fn half_made_walls_are_shown_finished() {
    each(|found| {
        let Seen::HalfMade(_) = found.seen else { return };
        let lines = ["log", "draw --functions --changed", "export"];
        let shown = lines.map(|line| found.run(&format!("{line} {WALL}")).0);
        let (info, _, _) = found.run("info march.wall");
        assert!(
            info.contains("\nfile: half-made, and the next change finishes it first\n"),
            "{info}"
        );
        assert!(found.done("accept march.wall").contains("' was half-made, as after a command"));
        for (line, shown) in lines.iter().zip(shown) {
            assert_eq!(done(&found.folder, &format!("{line} {WALL}")), shown, "{line}");
        }
    });
}

/// The file of a wall after cell 2 is split, and the journal's line for it.
fn after_split(file: &[u8]) -> (Vec<u8>, String) {
    let mut mesh = Mesh::from_file(file).expect("a wall");
    let lists = mesh.refine_cells(&[Cell(2)]).expect("an active cell");
    let functions: Vec<String> = lists.functions.iter().map(|f| f.0.to_string()).collect();
    (mesh.to_file().expect("a wall"), format!("split 2;2;{}\n", functions.join(" ")))
}

fn head(file: &[u8]) -> String {
    let bytes: String = file.iter().map(|byte| format!(" {byte:02x}")).collect();
    format!("wallmirror journal 1:{bytes}\n")
}

#[test]
fn changes() {
    let line = "split march.wall 2";
    each(|found| {
        let journal = || String::from_utf8(found.bytes(JOURNAL)).expect("text");
        let (said, old, old_journal) = match found.seen {
            Seen::Fits => ("", found.bytes(WALL), journal()),
            Seen::NoJournal => {
                let wall = found.bytes(WALL);
                let head = head(&wall);
                ("' had no journal; one begins with the wall as it was found, so that", wall, head)
            }
            Seen::HalfMade(at) => ("finished now", found.walls.files[at].clone(), journal()),
            seen => return found.bad(line, part(seen)),
        };
        let err = found.done(line);
        assert!(err.contains(said) && err.is_empty() == said.is_empty(), "{err}");
        let (wall, added) = after_split(&old);
        found.left(line, &wall, &format!("{old_journal}{added}"));
        // The way back goes as far as the journal knows.
        let (out, err, status) = found.run("back march.wall");
        assert_eq!((err.as_str(), status), ("", 0));
        assert!(
            out.contains("march.wall is the wall that its journal begins with, byte for"),
            "{out}"
        );
        let first =
            if matches!(found.seen, Seen::NoJournal) { &old } else { &found.walls.files[0] };
        assert_eq!(&found.folder.read(WALL), first, "{}", found.what);
    });
}

/// Each of the four calls, without marks: the wall stays as it is, and the journal gets the line.
#[test]
fn calls_without_marks() {
    for word in ["split", "join", "fsplit", "fjoin"] {
        each(|found| {
            let line = &format!("{word} {WALL}");
            let journal = || String::from_utf8(found.bytes(JOURNAL)).expect("text");
            let (wall, old) = match found.seen {
                Seen::Fits => (found.bytes(WALL), journal()),
                Seen::NoJournal => (found.bytes(WALL), head(&found.bytes(WALL))),
                Seen::HalfMade(at) => (found.walls.files[at].clone(), journal()),
                seen => return found.bad(line, part(seen)),
            };
            found.done(line);
            found.left(line, &wall, &format!("{old}{word};;\n"));
        });
    }
}

#[test]
fn ways_back() {
    let line = "back march.wall";
    each(|found| match found.seen {
        Seen::Fits | Seen::HalfMade(3) => {
            let (out, _, status) = found.run(line);
            let end =
                "march.wall is the wall that its journal begins with, byte for byte (7 bytes)\n";
            assert!(out.ends_with(end) && status == 0, "{out}");
            found.left(line, &found.walls.files[0], &format!("{}back 3\n", found.walls.journal));
        }
        Seen::HalfMade(_) => {
            assert!(found
                .run(line)
                .0
                .starts_with("nothing to walk back: march.wall is the wall that"));
            found.left(line, &found.walls.files[0], &head(&found.walls.files[0]));
        }
        Seen::NoJournal => {
            let said = "nothing is known of the season of 'march.wall', so nothing was walked back";
            for line in [line, "back march.wall 1", "back march.wall 0"] {
                found.bad(line, said);
            }
        }
        seen => found.bad(line, part(seen)),
    });
}

/// Another wall is kept as it is, with the calls that lead to it behind those of the journal, and all
/// are walked back.
fn is_accepted(found: &Found) {
    let (out, err, status) = found.run("accept march.wall");
    assert_eq!((err.as_str(), status), ("", 0), "{}", found.what);
    let mut all = found.folder.all();
    let journal = String::from_utf8(found.folder.read(JOURNAL)).expect("text");
    let old = String::from_utf8(found.bytes(JOURNAL)).expect("text");
    let added = journal.strip_prefix(&old).unwrap_or_else(|| panic!("{journal}"));
    let count = added.lines().count();
    assert_eq!(out.lines().count(), count + 1, "{out}{added}");
    assert!(out.contains(&format!("march.wall: {count} call")), "{out}{added}");
    assert!(out.contains(" added to its journal that lead"), "{out}");
    let was = found.files[OsStr::new(JOURNAL)].clone();
    all.insert(JOURNAL.into(), was);
    assert_eq!(all, found.files, "{}", found.what);
    done(&found.folder, "info march.wall");
    // The calls that were added are taken back, and then the others.
    let lead_to = old_wall(&old);
    done(&found.folder, &format!("back march.wall {count}"));
    assert_eq!(found.folder.read(WALL), lead_to, "{}", found.what);
    done(&found.folder, "back march.wall");
    assert!(old.starts_with(&head(&found.folder.read(WALL))), "{}", found.what);
}

/// The wall to which a journal leads, as `restore` writes it.
fn old_wall(journal: &str) -> Vec<u8> {
    let folder = Folder::new();
    folder.write(JOURNAL, journal);
    done(&folder, "restore march.wall");
    folder.read(WALL)
}

#[test]
fn walls_that_are_accepted() {
    let line = "accept march.wall";
    each(|found| match found.seen {
        Seen::Fits => {
            let (out, err, status) = found.run(line);
            assert_eq!((err.as_str(), status), ("", 0));
            assert_eq!(
                out,
                "march.wall is the wall that its journal leads to; nothing was added\n"
            );
            assert_eq!(found.folder.all(), found.files);
        }
        Seen::HalfMade(at) => {
            assert!(found.done(line).contains("finished now"));
            let journal = String::from_utf8(found.bytes(JOURNAL)).expect("text");
            found.left(line, &found.walls.files[at], &journal);
        }
        Seen::NoJournal => {
            let (out, err, status) = found.run(line);
            assert_eq!((err.as_str(), status), ("", 0));
            assert_eq!(out, "march.wall: its journal begins with the wall as it is\n");
            let mut all = found.folder.all();
            assert!(all.remove(OsStr::new(JOURNAL)).is_some());
            all.remove(OsStr::new(HALF_JOURNAL));
            let mut files = found.files.clone();
            files.remove(OsStr::new(HALF_JOURNAL));
            assert_eq!(all, files, "{}", found.what);
            assert_eq!(found.folder.read(JOURNAL), head(&found.bytes(WALL)).as_bytes());
        }
        Seen::Other(_) => is_accepted(&found),
        seen => found.bad(line, part(seen)),
    });
}

#[test]
fn walls_that_are_restored_or_made() {
    each(|found| {
        found.bad(NEW, "already; ");
        match found.seen {
            Seen::Missing => {
                assert_eq!(found.done("restore march.wall"), "");
                found.left("restore", &found.walls.files[3], &found.walls.journal);
            }
            Seen::HalfMade(0) => {
                assert_eq!(found.done("restore march.wall"), "");
                found.left("restore", &found.walls.files[0], &head(&found.walls.files[0]));
            }
            _ => {
                found.bad("restore march.wall", "there is a file 'march.wall'; only a missing one")
            }
        }
        // Where the wall is another one, it is moved away first, and nothing is lost.
        if let Seen::Other(_) | Seen::Bad(_) = found.seen {
            if found.what.contains("a journal cut") {
                return;
            }
            fs::rename(found.folder.path(WALL), found.folder.path("moved")).expect("a file");
            assert_eq!(found.done("restore march.wall"), "");
            let journal = String::from_utf8(found.bytes(JOURNAL)).expect("text");
            assert_eq!(found.folder.read(WALL), old_wall(&journal), "{}", found.what);
            assert_eq!(found.folder.read("moved"), found.bytes(WALL), "{}", found.what);
        }
    });
}

/// A wall alone, as after `cp` into another folder: nothing is said of its season but that.
#[test]
fn a_wall_alone() {
    let folder = Folder::new();
    let walls = march(&folder);
    let other = Folder::new();
    fs::copy(folder.path(WALL), other.path("copy.wall")).expect("a copy");
    let before = other.all();
    let info = done(&other, "info copy.wall");
    let said = "\nseason: nothing is known of it, since there is no journal beside the wall\n";
    assert!(info.ends_with(said), "{info}");
    let log = done(&other, "log copy.wall");
    assert!(
        log.ends_with("\nnothing is known of its season: there is no journal beside it\n"),
        "{log}"
    );
    let said =
        ["nothing is known of the season of 'copy.wall'", "no journal beside it; put the right"];
    bad(&other, "back copy.wall", &said);
    refused(&other, "split copy.wall 0", "8;;\n", 8, "cell 0 is split already");
    assert_eq!(other.all(), before);
    // The first change begins a journal, with the wall as it was found, and says so; the next does not.
    let (out, err, status) = run(&other, words("split copy.wall 2"));
    assert_eq!((out.as_str(), status), ("0;2;2 3 6 7\n", 0));
    assert_one_line(&err);
    assert!(err.contains("so that its season is known from here on only"), "{err}");
    done(&other, "join copy.wall 2");
    let back = done(&other, "back copy.wall");
    let bytes = walls.files[3].len();
    let end = format!(
        "copy.wall is the wall that its journal begins with, byte for byte ({bytes} bytes)\n"
    );
    assert!(back.ends_with(&end), "{back}");
    assert_eq!(other.read("copy.wall"), walls.files[3]);
}

/// Files that an earlier version of the command wrote: a wall that it made and never changed, one with
/// a journal whose lists are the same by the rule of before, and what it left when it was cut off.
#[test]
fn files_of_an_earlier_version() {
    let folder = Folder::new();
    folder.write("april.wall", [3, 1, 3, 1, 1, 2, 0]);
    assert!(done(&folder, "info april.wall").contains("season: nothing is known of it"));
    let text =
        "wallmirror journal 1: 03 01 03 01 01 02 00\nsplit 0;0;0 4\nsplit 4;1 4;1 5\nback 1\n";
    let one_split = [3, 1, 3, 1, 1, 2, 1, 0];
    folder.write(WALL, one_split);
    folder.write(JOURNAL, text);
    assert!(done(&folder, "log march.wall").ends_with("      back 1\n1 call to walk back\n"));
    folder.write(WALL, [3, 1, 3, 1, 1, 2, 3, 0, 1, 3]);
    folder.write(HALF_MADE, one_split);
    assert!(run(&folder, words("split march.wall 2")).1.contains("it is finished now"));
    assert_eq!(folder.read(WALL), [3, 1, 3, 1, 1, 2, 2, 0, 2]);
    assert_eq!(folder.read(JOURNAL), format!("{text}split 2;2;3 7\n").as_bytes());
}

/// A wall of some random calls of the library.
fn any_wall(random: &mut Random, mesh: &Mesh) -> Mesh {
    let mut season = Season::new(mesh.clone()).expect("a wall");
    for _ in 0..random.below(6) {
        let cells: Vec<Cell> =
            (0..).zip(&season.mesh().cells).filter(|c| *c.1 == 1).map(|c| Cell(c.0)).collect();
        // Cells of the last level are refused, which does no harm.
        let _ = season.refine_cells(&[random.pick(&cells)]);
    }
    season.into_mesh()
}

/// Any two walls of a plan: the calls that are added lead from the one to the other, each lists its
/// marks and no other cell, and there are at most two for each level but the last.
#[test]
fn any_wall_is_accepted() {
    let mut random = Random::new(93);
    let mut seen = BTreeMap::<usize, usize>::new();
    for turn in 0..60 {
        let plan = plan([[3, 1, 4, 1, 1, 2], [2, 2, 3, 2, 2, 0], [3, 2, 4, 2, 1, 3]][turn % 3]);
        let folder = Folder::new();
        done(&folder, &format!("new {WALL} {}", numbers(plan)));
        let opened = Mesh::from_file(&folder.read(WALL)).expect("a wall");
        let (from, to) = (any_wall(&mut random, &opened), any_wall(&mut random, &opened));
        for wall in [&from, &to] {
            folder.write(WALL, wall.to_file().expect("a wall"));
            run(&folder, ["accept", WALL]);
        }
        let journal = String::from_utf8(folder.read(JOURNAL)).expect("text");
        for line in journal.lines().skip(1) {
            let (call, lists) = line.split_once(';').expect("a call");
            let (word, marks) = call.split_once(' ').expect("marks");
            assert!(
                ["join", "split"].contains(&word) && lists.starts_with(&format!("{marks};")),
                "{line}"
            );
        }
        let calls = journal.lines().count() - 1;
        assert!(calls <= 3 * (plan.levels as usize - 1), "{journal}");
        *seen.entry(calls).or_default() += 1;
        assert_eq!(folder.read(WALL), to.to_file().expect("a wall"));
        let back = done(&folder, &format!("back {WALL}"));
        assert!(back.contains("is the wall that its journal begins with"), "{back}");
        assert_eq!(folder.read(WALL), opened.to_file().expect("a wall"));
    }
    println!("calls: {seen:?}");
    assert!(seen.len() > 5, "{seen:?}");
}
