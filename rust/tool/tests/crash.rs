//! Commands that are cut off, or that a full disk stops, at each of their calls on files.
//!
//! A library that is loaded before the C library, `crash.c`, ends the process at a numbered call or
//! lets that call fail.

mod common;

use common::{assert_one_line, command, done, ran, run, words, Content, Folder};
use std::collections::{BTreeMap, BTreeSet};
use std::ffi::OsString;
use std::fs;
use std::os::unix::fs::PermissionsExt;
use std::os::unix::process::ExitStatusExt;
use std::path::Path;
use std::process::{Command, Output};

const WALL: &str = "march.wall";
const JOURNAL: &str = "march.wall.journal";
const HALF_MADE: &str = "march.wall.wallmirror-new";
const NEW: &str = "new march.wall 3 1 3 1 1 2";

/// A command that changes files, with what is there before.
struct Change {
    before: &'static [&'static str],
    damage: Damage,
    line: &'static str,
}

/// What is removed or put back before the command.
#[derive(Clone, Copy, PartialEq, Eq)]
enum Damage {
    None,
    /// The wall is removed.
    NoWall,
    /// The journal is removed.
    NoJournal,
    /// The wall lacks the last line of the journal, as if another program had taken it back.
    OlderWall,
    /// The same, and the new wall lies beside, as if a command had been cut off.
    HalfMade,
}

const CHANGES: [Change; 13] = [
    Change { before: &[], damage: Damage::None, line: NEW },
    Change { before: &[NEW], damage: Damage::None, line: "split march.wall 0" },
    Change {
        before: &[NEW, "split march.wall 0"],
        damage: Damage::None,
        line: "fsplit march.wall 1",
    },
    Change { before: &TWO, damage: Damage::None, line: "fjoin march.wall 8 9" },
    Change { before: &TWO, damage: Damage::None, line: "back march.wall 1" },
    Change { before: &TWO, damage: Damage::None, line: "back march.wall" },
    Change { before: &TWO, damage: Damage::NoWall, line: "restore march.wall" },
    Change { before: &TWO, damage: Damage::NoJournal, line: "join march.wall 1 3 4" },
    Change { before: &TWO, damage: Damage::NoJournal, line: "accept march.wall" },
    Change { before: &TWO, damage: Damage::OlderWall, line: "accept march.wall" },
    Change { before: &TWO, damage: Damage::HalfMade, line: "accept march.wall" },
    Change { before: &TWO, damage: Damage::HalfMade, line: "join march.wall 1 3 4" },
    Change { before: &TWO, damage: Damage::HalfMade, line: "back march.wall 1" },
];

const TWO: [&str; 3] = [NEW, "split march.wall 0", "split march.wall 3 4"];

/// Wall and journal, where they are there.
#[derive(Clone, Debug, PartialEq, Eq, PartialOrd, Ord)]
struct State {
    wall: Option<Vec<u8>>,
    journal: Option<Vec<u8>>,
}

impl State {
    fn of(folder: &Folder) -> State {
        State { wall: folder.find(WALL), journal: folder.find(JOURNAL) }
    }
}

/// What the command finds, what it leaves when nothing disturbs it, and the wall that the journal
/// begins with.
struct Expected {
    old: State,
    new: State,
    /// The half-made wall that it finds.
    half_made: Option<Vec<u8>>,
    /// The wall that it changes: the one of the old journal, if that is not to be left.
    between: Option<Vec<u8>>,
    first: Option<Vec<u8>>,
}

impl Change {
    fn expected(&self) -> Expected {
        let folder = Folder::new();
        let (mut first, mut older, mut between) = (None, None, None);
        for line in self.before {
            older = between;
            done(&folder, line);
            between = folder.find(WALL);
            first = first.or_else(|| between.clone());
        }
        let half_made = between.clone().filter(|_| self.damage == Damage::HalfMade);
        match self.damage {
            Damage::None => {}
            Damage::NoWall => folder.put(WALL, &None),
            Damage::NoJournal => {
                folder.put(JOURNAL, &None);
                first = between.clone();
            }
            Damage::OlderWall => {
                folder.put(WALL, &older);
                between = older;
            }
            Damage::HalfMade => folder.put(WALL, &older),
        }
        folder.put(HALF_MADE, &half_made);
        let old = State::of(&folder);
        let (_, err, status) = run(&folder, words(self.line));
        assert_eq!(status, 0, "{}: {err}", self.line);
        let new = State::of(&folder);
        assert_eq!(folder.names(), [WALL, JOURNAL], "{}", self.line);
        Expected { first: first.or_else(|| new.wall.clone()), old, new, half_made, between }
    }

    /// Whether the files are as they were and do not fit, so that the command is to be given again.
    fn is_to_be_given(&self, expected: &Expected, found: &State) -> bool {
        let does_not_fit = match self.damage {
            Damage::None => self.before.is_empty(),
            Damage::NoWall | Damage::OlderWall => true,
            Damage::NoJournal | Damage::HalfMade => false,
        };
        does_not_fit && *found == expected.old
    }
}

impl Expected {
    /// What the command finds. What others left beside stays there.
    fn put(&self, folder: &Folder) {
        folder.put(WALL, &self.old.wall);
        folder.put(JOURNAL, &self.old.journal);
        if self.half_made.is_some() {
            folder.put(HALF_MADE, &self.half_made);
        }
    }

    /// After the change of a command that was cut off before is finished.
    fn finished(&self) -> State {
        State { wall: self.between.clone(), ..self.old.clone() }
    }

    /// All that a command may leave that is cut off: a half-made wall is finished first, then the
    /// journal changes, then the wall.
    fn states(&self) -> BTreeSet<State> {
        let ahead = State { wall: self.between.clone(), ..self.new.clone() };
        let restored = self.old.wall.is_none() && self.old.journal.is_some();
        let finished = if restored { self.new.clone() } else { self.finished() };
        [self.old.clone(), finished, ahead, self.new.clone()].into()
    }

    /// Whether the journal is ahead of the wall. Then the wall that it leads to must lie beside.
    fn is_ahead(&self, folder: &Folder) -> bool {
        let found = State::of(folder);
        let leads_to =
            if found.journal == self.new.journal { &self.new.wall } else { &self.between };
        let is_ahead = found.wall != *leads_to && (found != self.old || self.half_made.is_some());
        if is_ahead {
            assert_eq!(folder.find(HALF_MADE), *leads_to);
        }
        is_ahead
    }
}

/// The compiled library, in a folder of its own.
struct Crash {
    folder: Folder,
}

impl Crash {
    fn compile() -> Crash {
        // From a temporary folder it might not be loaded.
        let folder = Folder::within(Path::new(env!("CARGO_TARGET_TMPDIR"))).expect("a folder");
        let compiler = std::env::var_os("CC").unwrap_or("cc".into());
        let source = concat!(env!("CARGO_MANIFEST_DIR"), "/tests/crash.c");
        let compiled = Command::new(&compiler)
            .args(["-shared", "-fPIC", "-O1", "-Wall", "-Wextra", "-Werror", "-o"])
            .arg(folder.path("crash.so"))
            .args([source, "-ldl"])
            .output()
            .unwrap_or_else(|error| panic!("the C compiler {compiler:?}: {error}"));
        assert!(compiled.status.success(), "{compiled:?}");
        Crash { folder }
    }

    /// Runs a line of words that something happens to at its call on files with this number.
    fn run(&self, folder: &Folder, line: &str, how: &str, at: usize) -> Output {
        self.run_with(folder, line, how, &[("CRASH_AT", at)])
    }

    fn run_with(&self, folder: &Folder, line: &str, how: &str, more: &[(&str, usize)]) -> Output {
        command(folder, words(line))
            .env("LD_PRELOAD", self.folder.path("crash.so"))
            .env("CRASH_FOLDER", folder.path(""))
            .env("CRASH_HOW", how)
            .envs(more.iter().map(|(name, number)| (name, number.to_string())))
            .output()
            .expect("the command starts")
    }

    /// The names of the calls on files of a line of words that nothing happens to. Only those that
    /// can fail.
    fn calls(&self, folder: &Folder, line: &str) -> Vec<String> {
        let (_, err, status) = ran(self.run_with(folder, line, "list", &[]));
        assert_eq!(status, 0, "{err}");
        let names = err.lines().filter(|line| !line.starts_with("wallmirror") && *line != "unlink");
        names.map(str::to_string).collect()
    }
}

/// All files of a folder, to be put there again.
type Files = BTreeMap<OsString, Content>;

fn put_all(folder: &Folder, files: &Files) {
    for name in folder.names() {
        fs::remove_file(folder.path(name)).expect("a file");
    }
    for (name, content) in files {
        let Content::File(bytes, _) = content else { panic!("{name:?}") };
        folder.write(name, bytes);
    }
}

/// A command that reads tells what it finds after one that was cut off, and writes nothing.
fn is_read(folder: &Folder, change: &Change, expected: &Expected) {
    let (ahead, files) = (expected.is_ahead(folder), folder.all());
    let to_be_given = change.is_to_be_given(expected, &State::of(folder));
    for command in ["info", "log", "draw", "export"] {
        let (out, err, status) = run(folder, [command, WALL]);
        assert_eq!(folder.all(), files, "{command} after {}", change.line);
        assert_eq!((status, out.is_empty()), if to_be_given { (2, true) } else { (0, false) });
        if ahead || to_be_given {
            assert_one_line(&err);
            let said =
                if ahead { "is half-made, as after a command that was cut off" } else { "; " };
            assert!(err.contains(said), "{command} after {}: {err}", change.line);
        } else {
            assert_eq!(err, "", "{command} after {}", change.line);
        }
    }
}

/// A command that changes something finishes what was cut off, with a word about it, and there is the
/// way back to the wall that the journal begins with.
fn goes_on(folder: &Folder, change: &Change, expected: &Expected) {
    let (ahead, files, found) = (expected.is_ahead(folder), folder.all(), State::of(folder));
    for line in ["split march.wall 2", "accept march.wall", "back march.wall"] {
        put_all(folder, &files);
        let again = change.is_to_be_given(expected, &found);
        if again {
            done(folder, change.line);
        }
        let (_, err, status) = run(folder, words(line));
        let no_journal = found.journal.is_none() && !again;
        let after = format!("{line} after {}: {err}", change.line);
        assert_eq!(status, if no_journal && line.starts_with("back") { 2 } else { 0 }, "{after}");
        if ahead {
            assert_one_line(&err);
            assert!(err.contains("was half-made") && err.contains("finished now"), "{after}");
        } else if no_journal && !line.starts_with("accept") {
            assert_one_line(&err);
            assert!(err.contains("had no journal") || err.contains("nothing is known"), "{after}");
        } else {
            assert_eq!(err, "", "{after}");
        }
        if status == 0 {
            done(folder, "info march.wall");
            done(folder, "back march.wall");
            assert_eq!(folder.find(WALL), expected.first, "{after}");
        }
        // A change leaves nothing beside.
        assert!(!line.starts_with("split") || folder.names() == [WALL, JOURNAL], "{after}");
    }
}

/// Cuts the command off at each call. Answers what it left then, in how many of these the journal was
/// ahead, and how many calls there are.
fn cut_off(crash: &Crash, change: &Change, how: &str) -> (BTreeSet<State>, usize, usize) {
    let expected = change.expected();
    let folder = Folder::new();
    let (mut met, mut ahead) = (BTreeSet::new(), BTreeSet::new());
    for at in 1.. {
        // What earlier ones left behind stays there and is to do no harm.
        expected.put(&folder);
        let output = crash.run(&folder, change.line, how, at);
        let found = State::of(&folder);
        if output.status.success() {
            assert_eq!(found, expected.new, "{}", change.line);
            return (met, ahead.len(), at - 1);
        }
        assert_eq!(output.status.signal(), Some(9), "{} at {at}: {output:?}", change.line);
        assert!(expected.states().contains(&found), "{} at {at}: {found:?}", change.line);
        if expected.is_ahead(&folder) {
            ahead.insert(found.clone());
        }
        let files = folder.all();
        is_read(&folder, change, &expected);
        goes_on(&folder, change, &expected);
        put_all(&folder, &files);
        met.insert(found);
    }
    unreachable!("a command has so many calls")
}

/// The command cut off at each call meets each state that it may leave, the journal ahead among them.
fn cut_off_everywhere(crash: &Crash, change: &Change) {
    let (met, ahead, calls) = cut_off(crash, change, "kill");
    let expected = change.expected();
    assert_eq!(met, expected.states(), "{}", change.line);
    let finishes = usize::from(expected.half_made.is_some());
    let Expected { old, new, between, .. } = &expected;
    let changes = usize::from(old.journal != new.journal && new.wall != *between);
    assert_eq!(ahead, finishes + changes, "{}", change.line);
    let (_, _, writes) = cut_off(crash, change, "half");
    assert_eq!(writes, change.writes(&expected), "{}", change.line);
    println!("{}: cut off at {calls} calls and inside {writes} writes", change.line);
}

impl Change {
    /// How many files it writes: journal and wall, one of them, or none if it only gives a name.
    fn writes(&self, Expected { old, new, .. }: &Expected) -> usize {
        match self.line.split(' ').next() {
            Some("restore") => 1,
            Some("accept") => usize::from(old.journal != new.journal),
            _ => 2,
        }
    }
}

#[test]
fn commands_that_are_cut_off() {
    let crash = Crash::compile();
    std::thread::scope(|scope| {
        for change in &CHANGES {
            scope.spawn(|| cut_off_everywhere(&crash, change));
        }
    });
}

/// The disk is full at one call: nothing is changed, but that a half-made wall may have been finished
/// before, and nothing more is left behind. Answers how many calls there are.
fn fail(crash: &Crash, change: &Change) -> usize {
    let expected = change.expected();
    let folder = Folder::new();
    for at in 1.. {
        expected.put(&folder);
        let mut names = folder.names();
        let (out, err, status) = ran(crash.run(&folder, change.line, "fail", at));
        let found = State::of(&folder);
        if status == 0 {
            assert_eq!(found, expected.new, "{}", change.line);
            return at - 1;
        }
        assert_eq!(status, 2, "{} at {at}", change.line);
        // Only what is read last, after all was written, comes too late.
        let too_late = err.ends_with("; the calls were walked back\n") && found == expected.new;
        assert_eq!(!out.is_empty(), too_late, "{} at {at}", change.line);
        let finished = expected.half_made.is_some() && found != expected.old;
        if finished {
            assert!(too_late || found == expected.finished(), "{} at {at}", change.line);
            assert!(
                err.contains("is finished now") || err.contains("to finish it failed"),
                "{err}"
            );
            names.retain(|name| name != HALF_MADE);
        } else {
            assert!(too_late || found == expected.old, "{} at {at}", change.line);
            assert_one_line(&err);
        }
        assert!(too_late || folder.names() == names, "{} at {at}", change.line);
    }
    unreachable!("a command has so many calls")
}

#[test]
fn a_full_disk() {
    let crash = Crash::compile();
    for change in &CHANGES {
        let calls = fail(&crash, change);
        println!("{}: failed at {calls} calls", change.line);
        assert!(calls > 5);
    }
}

/// A disk that fails for good from one call on. Where the old files cannot be put back, that is said.
/// Answers how often it was.
fn fail_for_good(crash: &Crash, change: &Change, how: &str) -> usize {
    let expected = change.expected();
    let folder = Folder::new();
    let mut times = 0;
    for at in 1.. {
        expected.put(&folder);
        let (out, err, status) = ran(crash.run(&folder, change.line, how, at));
        let found = State::of(&folder);
        if status == 0 {
            return times;
        }
        assert_eq!(status, 2, "{} at {at}", change.line);
        assert!(expected.states().contains(&found), "{} at {at}: {found:?}", change.line);
        let told = err.contains("nor could the old file be put back");
        // What is read last comes too late.
        let too_late = err.ends_with("; the calls were walked back\n") && found == expected.new;
        assert_eq!(!out.is_empty(), too_late, "{} at {at}", change.line);
        let as_it_was = found == expected.old || (found == expected.finished() && !told);
        assert_eq!(told, !as_it_was && !too_late, "{} at {at}: {err}", change.line);
        // What the next command needs lies beside.
        expected.is_ahead(&folder);
        times += usize::from(told);
    }
    unreachable!("a command has so many calls")
}

#[test]
fn a_disk_that_fails_for_good() {
    let crash = Crash::compile();
    for change in &CHANGES {
        for how in ["dead", "full"] {
            let times = fail_for_good(&crash, change, how);
            println!("{}: could not put the old files back {times} times", change.line);
            assert_eq!(times > 0, change.writes(&change.expected()) > 0, "{}", change.line);
        }
    }
}

/// A disk that fails when the files get their names, and a command that is cut off while it puts the
/// old ones back. Answers how often that was.
fn fail_and_cut_off(crash: &Crash, change: &Change, at: usize) -> usize {
    let expected = change.expected();
    let folder = Folder::new();
    for then in at + 1.. {
        expected.put(&folder);
        let more = [("CRASH_AT", at), ("CRASH_THEN", then)];
        let output = crash.run_with(&folder, change.line, "fail", &more);
        let found = State::of(&folder);
        if output.status.signal().is_none() {
            assert_eq!((output.status.code(), &found), (Some(2), &expected.old), "{}", change.line);
            return then - at - 1;
        }
        assert!(expected.states().contains(&found), "{} at {at}, {then}", change.line);
        is_read(&folder, change, &expected);
        let files = folder.all();
        goes_on(&folder, change, &expected);
        put_all(&folder, &files);
    }
    unreachable!("a command has so many calls")
}

#[test]
fn cut_off_while_old_files_are_put_back() {
    let crash = Crash::compile();
    for change in CHANGES.iter().filter(|change| change.line.starts_with("fsplit")) {
        let calls = fail(&crash, change);
        // The two names and the two waits for them: before the first nothing is to be put back, before
        // the third the journal, after it both.
        let cut: Vec<usize> =
            (calls - 3..=calls).map(|at| fail_and_cut_off(&crash, change, at)).collect();
        let [0, one, same, two] = cut[..] else { panic!("{cut:?}") };
        assert!(0 < one && one == same && two == 2 * one, "{cut:?}");
    }
}

/// All files lie beside on the disk before the first gets its name, and the journal has its name there
/// before the wall.
#[test]
fn files_are_on_the_disk_in_order() {
    let crash = Crash::compile();
    for change in &CHANGES {
        let expected = change.expected();
        let folder = Folder::new();
        expected.put(&folder);
        let mut calls = crash.calls(&folder, change.line);
        calls.retain(|name| ["write", "fsync", "rename"].contains(&name.as_str()));
        let mut in_order = vec![];
        if expected.half_made.is_some() {
            in_order.extend(["rename", "fsync"]);
        }
        let writes = change.writes(&expected);
        if writes > 0 {
            in_order.extend(["write", "fsync"].repeat(writes));
            in_order.push("fsync");
            in_order.extend(["rename", "fsync"].repeat(writes));
        }
        assert_eq!(calls, in_order, "{}", change.line);
    }
}

/// Some network folders have no locks and cannot wait for the disk. That is no failure.
#[test]
fn folders_that_cannot_do_all() {
    const UNSUPPORTED: usize = 95;
    const INVALID: usize = 22;
    const NO_LOCKS: usize = 37;
    let crash = Crash::compile();
    let folder = Folder::new();
    let change = &CHANGES[2];
    let expected = change.expected();
    expected.put(&folder);
    let calls = crash.calls(&folder, change.line);
    let mut borne = vec![];
    for (name, at) in calls.iter().zip(1..) {
        for error in [UNSUPPORTED, INVALID, NO_LOCKS] {
            expected.put(&folder);
            let more = [("CRASH_AT", at), ("CRASH_ERROR", error)];
            let (_, err, status) = ran(crash.run_with(&folder, change.line, "fail", &more));
            let left = if status == 0 { &expected.new } else { &expected.old };
            assert_eq!(State::of(&folder), *left, "{name}: {err}");
            borne.extend((status == 0).then_some((name.as_str(), error)));
        }
    }
    let waits = [("fsync", UNSUPPORTED), ("fsync", INVALID)].repeat(3);
    let locks = vec![("flock", UNSUPPORTED), ("flock", NO_LOCKS)];
    assert_eq!(borne, [locks, waits].concat());
}

/// Permissions do not hold for everybody.
#[test]
fn a_folder_that_may_not_be_written() {
    let folder = Folder::new();
    for line in TWO {
        done(&folder, line);
    }
    let before = folder.all();
    let mode = |mode| {
        fs::set_permissions(folder.path(""), fs::Permissions::from_mode(mode)).expect("ours")
    };
    mode(0o555);
    let enforced = fs::write(folder.path("try"), "").is_err();
    if enforced {
        for line in ["split march.wall 2", "back march.wall", "new other.wall 1 1 1 1 1 0"] {
            let (out, err, status) = run(&folder, words(line));
            assert_eq!((out.as_str(), status), ("", 2), "{err}");
            assert_one_line(&err);
        }
        done(&folder, "info march.wall");
        assert_eq!(folder.all(), before);
    } else {
        println!("permissions do not hold here, so this was not tried");
    }
    mode(0o755);
}
