//! Seasons and their journals: the way back, and journals that do not fit. A reader of its own, with
//! the independent model, says what a journal means.

mod common;

use common::*;
use differential::{plan, Random};
use model::session::{answer, Wall};
use model::Plan;
use std::fs;
use wallmirror::{Cell, Mesh};

const FILE: &str = "march.wall";
const JOURNAL: &str = "march.wall.journal";
const HALF_MADE: &str = "march.wall.wallmirror-new";

/// The file of the first wall, and that after each line behind the head.
struct Replayed(Vec<Vec<u8>>);

/// What a journal says, if each of its calls lists what it has there.
fn replay(text: &[u8]) -> Option<Replayed> {
    let text = std::str::from_utf8(text).ok()?.strip_suffix('\n')?;
    let mut lines = text.split('\n');
    let mut wall = Some(first_wall(lines.next()?)?);
    let mut files = vec![file(wall.as_ref()?)];
    // The walls before the calls that were not taken back.
    let mut before = vec![];
    for line in lines {
        if let Some(count) = line.strip_prefix("back ") {
            let count: usize = plain(count)?;
            let left = before.len().checked_sub(count).filter(|_| count > 0)?;
            wall = before.drain(left..).next();
        } else {
            let (call, lists) = line.split_once(';')?;
            let mut fields = call.split(' ');
            let word = fields.next()?;
            WORDS.iter().find(|known| known.0 == word)?;
            fields.try_for_each(|mark| plain(mark).map(drop))?;
            before.push(copy(wall.as_ref()?));
            if answer(&mut wall, call.as_bytes()) != format!("0;{lists}") {
                return None;
            }
        }
        files.push(file(wall.as_ref()?));
    }
    Some(Replayed(files))
}

/// A number below 2^32 without zeros before it.
fn plain(digits: &str) -> Option<usize> {
    let number: u32 = digits.parse().ok()?;
    (number.to_string() == digits).then_some(number as usize)
}

fn copy(wall: &Wall) -> Wall {
    let Wall { plan, cells, functions } = wall;
    Wall { plan: *plan, cells: cells.clone(), functions: functions.clone() }
}

fn first_wall(head: &str) -> Option<Wall> {
    let bytes = head.strip_prefix("wallmirror journal 1: ")?.split(' ');
    let byte = |hex: &str| {
        let byte = u8::from_str_radix(hex, 16).ok()?;
        (format!("{byte:02x}") == hex).then_some(byte)
    };
    let bytes = bytes.map(byte).collect::<Option<Vec<u8>>>()?;
    // The plan is answered where empty tables are refused, so that they can be made.
    let (plan, refused) = model::file::read(&bytes, 0, 0);
    let (t, f) = (refused == Err(3)).then(|| (plan.cell_total(), plan.function_total()))?;
    let (cells, functions) = model::file::read(&bytes, t, f).1.ok()?;
    Some(Wall { plan, cells, functions })
}

/// A season as it is made: the wall by the model, and the journal that there is to be.
struct Season {
    folder: Folder,
    /// The walls before the calls that can be walked back, and the wall as it is.
    walls: Vec<Wall>,
    journal: String,
    /// How many calls were made, also those that were walked back.
    calls: usize,
}

impl Season {
    fn begin(plan: Plan) -> Season {
        let folder = Folder::new();
        done(&folder, &format!("new {FILE} {}", numbers(plan)));
        let wall = opened(plan);
        let hex: String = file(&wall).iter().map(|byte| format!(" {byte:02x}")).collect();
        let journal = format!("wallmirror journal 1:{hex}\n");
        Season { folder, walls: vec![wall], journal, calls: 0 }
    }

    fn wall(&self) -> &Wall {
        self.walls.last().expect("a wall")
    }

    fn first(&self) -> Vec<u8> {
        file(&self.walls[0])
    }

    fn make(&mut self, line: &str) {
        let mut wall = Some(copy(self.wall()));
        let printed = answer(&mut wall, line.as_bytes());
        assert_eq!(done(&self.folder, &with_file(line, FILE)), format!("{printed}\n"), "{line}");
        let lists = printed.strip_prefix("0;").expect("a call that is accepted");
        self.journal += &format!("{line};{lists}\n");
        self.walls.extend(wall);
        self.calls += 1;
    }

    fn back(&mut self, count: usize) {
        let report = done(&self.folder, &format!("back {FILE} {count}"));
        assert_eq!(report.lines().count(), count + 1, "{report}");
        assert_same(&report);
        self.walls.truncate(self.walls.len() - count);
        self.journal += &format!("back {count}\n");
        assert_eq!(self.folder.read(FILE), file(self.wall()));
    }

    /// Calls and, now and then, a way back of some.
    fn go_on(&mut self, random: &mut Random, calls: usize) {
        for _ in 0..calls {
            let line = good_call(random, self.wall());
            self.make(&line);
            if random.once_in(20) {
                let most = (self.walls.len() - 1).min(9);
                self.back(1 + random.below(most));
            }
        }
    }

    /// Wall and journal on the disk are those of the model, at every line of the journal too.
    fn compare(&self) {
        assert_eq!(self.folder.read(FILE), file(self.wall()));
        let text = self.folder.read(JOURNAL);
        assert_eq!(String::from_utf8_lossy(&text), self.journal);
        let Replayed(files) = replay(&text).expect("a journal that fits");
        assert_eq!((&files[0], files.last()), (&self.first(), Some(&file(self.wall()))));
    }

    fn compare_log(&self) {
        let log = done(&self.folder, &format!("log {FILE}"));
        let calls = |line: &&str| line.trim_start().starts_with(|c: char| c.is_ascii_digit());
        let lines: Vec<&str> = log.lines().skip(1).collect();
        let (last, lines) = lines.split_last().expect("a last line");
        assert_eq!(lines.len(), self.journal.lines().count() - 1);
        assert_eq!(lines.iter().filter(|line| calls(line)).count(), self.calls);
        let kept = lines.iter().filter(|line| calls(line) && !line.ends_with("(walked back)"));
        assert_eq!(kept.count(), self.walls.len() - 1);
        let s = if self.walls.len() == 2 { "" } else { "s" };
        assert_eq!(*last, format!("{} call{s} to walk back", self.walls.len() - 1));
    }
}

/// Each call was walked back by one that named the same cells and functions.
fn assert_same(report: &str) {
    let lines: Vec<&str> = report.lines().collect();
    let (last, lines) = lines.split_last().expect("a last line");
    let same = |line: &&&str| line.matches(" the same ").count() == 2;
    assert_eq!(lines.iter().filter(same).count(), lines.len(), "{report}");
    assert!(lines.iter().all(|line| line.starts_with("call ")), "{report}");
    assert!(last.contains(", byte for byte"), "{report}");
}

/// A season there and back. Answers how many calls it had.
fn there_and_back(seed: u64, plan: Plan) -> usize {
    let mut random = Random::new(seed);
    let mut season = Season::begin(plan);
    let first = season.folder.read(FILE);
    assert_eq!(first, season.first());
    season.go_on(&mut random, 200);
    season.compare();
    season.compare_log();
    // The wall is lost, and the journal has it.
    fs::remove_file(season.folder.path(FILE)).expect("the wall");
    done(&season.folder, &format!("restore {FILE}"));
    season.compare();
    let left = season.walls.len() - 1;
    let report = done(&season.folder, &format!("back {FILE}"));
    assert_eq!(report.lines().count(), left + 1);
    assert_same(&report);
    let bytes = first.len();
    let end =
        format!("{FILE} is the wall that its journal begins with, byte for byte ({bytes} bytes)\n");
    assert!(report.ends_with(&end), "{report}");
    assert_eq!(season.folder.read(FILE), first);
    season.calls
}

#[test]
fn seasons_there_and_back() {
    let plans = [
        plan([3, 1, 3, 1, 1, 2]),
        plan([2, 2, 3, 2, 3, 0]),
        plan([3, 2, 3, 2, 2, 2, 2, 0]),
        plan([2, 3, 2, 4, 1, 0, 2, 6]),
        plan([1, 2, 4, 3, 4, 3, 0, 2]),
    ];
    std::thread::scope(|scope| {
        for (plan, seed) in plans.into_iter().zip(900..) {
            scope.spawn(move || assert_eq!(there_and_back(seed, plan), 200));
        }
    });
}

/// Another program makes a call by the library and adds its line. It is walked back like the others.
#[test]
fn lines_of_another_program() {
    let season = short_season();
    let (folder, first) = (&season.folder, season.first());
    let mut mesh = Mesh::from_file(&folder.read(FILE)).expect("a wall");
    let mark = mesh.plan.cells_on(1).expect("a level").find(|&c| mesh.cells[c as usize] == 1);
    let mark = mark.expect("an active cell");
    let lists = mesh.refine_cells(&[Cell(mark)]).expect("a cell that can be split");
    let join = |numbers: Vec<String>| numbers.join(" ");
    let cells = join(lists.cells.iter().map(|cell| cell.0.to_string()).collect());
    let functions = join(lists.functions.iter().map(|f| f.0.to_string()).collect());
    let journal = format!("{}split {mark};{cells};{functions}\n", season.journal);
    folder.write(JOURNAL, journal);
    folder.write(FILE, mesh.to_file().expect("a wall"));
    let report = done(folder, &format!("back {FILE}"));
    assert_same(&report);
    assert!(report.contains(&format!(", split {mark}: join {cells} names the same ")), "{report}");
    assert_eq!(folder.read(FILE), first);
}

/// What a command makes of a wall and a journal.
#[derive(Clone, Copy, Debug, PartialEq, Eq, PartialOrd, Ord)]
enum Meaning {
    /// The journal leads to the wall.
    Fits,
    /// It has one line more than the wall, as if a command had been cut off or the wall taken back.
    Ahead,
    /// Another wall, or a journal that is none: it is found, and nothing is done.
    Found,
}

fn meaning(wall: &[u8], journal: &[u8]) -> Meaning {
    let Some(Replayed(files)) = replay(journal) else {
        return Meaning::Found;
    };
    let last = files.len() - 1;
    if files[last] == wall {
        Meaning::Fits
    } else if files[last.saturating_sub(1)] == wall {
        Meaning::Ahead
    } else {
        Meaning::Found
    }
}

/// Gives the command a wall and a journal, and sees that it makes of them what the reader makes.
fn try_files(folder: &Folder, wall: &[u8], journal: &[u8]) -> Meaning {
    folder.write(FILE, wall);
    folder.write(JOURNAL, journal);
    let meaning = meaning(wall, journal);
    let said = String::from_utf8_lossy(journal);
    if meaning == Meaning::Fits {
        assert_eq!(log_as_it_is(folder).1, ("".to_string(), 0), "{said}");
        return meaning;
    }
    let (out, (err, status)) = log_as_it_is(folder);
    assert_eq!((out.as_str(), status), ("", 2), "{said}{err}");
    assert_one_line(&err);
    assert!(err.contains(" away"), "{err}");
    if meaning == Meaning::Ahead {
        assert!(err.contains(" lacks the last change of its journal, "), "{said}{err}");
        is_finished(folder, wall, journal);
    }
    meaning
}

/// What `log` prints and says. It changes nothing.
fn log_as_it_is(folder: &Folder) -> (String, (String, i32)) {
    let before = folder.all();
    let (out, err, status) = run(folder, ["log", FILE]);
    assert_eq!(folder.all(), before, "{err}");
    (out, (err, status))
}

/// With the half-made wall beside, as a command that was cut off leaves it, the journal is right.
fn is_finished(folder: &Folder, wall: &[u8], journal: &[u8]) {
    let Replayed(files) = replay(journal).expect("a journal");
    let last = files.last().expect("a wall");
    folder.write(HALF_MADE, last);
    let (_, (err, status)) = log_as_it_is(folder);
    assert!(err.contains("is half-made") && status == 0, "{err}");
    let (_, err, status) = run(folder, ["accept", FILE]);
    assert!(err.contains("is finished now") && status == 0, "{err}");
    assert_eq!((folder.read(FILE), folder.read(JOURNAL)), (last.clone(), journal.to_vec()));
    assert_eq!(folder.names(), [FILE, JOURNAL]);
    folder.write(FILE, wall);
}

/// A season of a few lines of all kinds, one of them a way back.
fn short_season() -> Season {
    let mut season = Season::begin(plan([3, 2, 3, 2, 1, 2, 2, 0]));
    for line in ["split 0 1", "fsplit 3", "join", "split 6", "fjoin 3 4 5", "split 8 7"] {
        season.make(line);
        if line == "split 6" {
            season.back(1);
        }
    }
    season.compare();
    season
}

/// What is tried in the place of a byte of a journal: all digits for a digit of a mark, or one byte.
fn other_bytes(random: &mut Random, journal: &[u8], at: usize) -> Vec<u8> {
    let line = journal[..at].rsplit(|&byte| byte == b'\n').next().unwrap_or(&[]);
    if journal[at].is_ascii_digit() && !line.contains(&b';') {
        return b"0123456789".to_vec();
    }
    vec![match random.below(8) {
        0 => random.pick(b" ;\nx\xff"),
        1 => journal[at] ^ 1 << random.below(8),
        _ => random.pick(b"0123456789"),
    }]
}

/// Every change of one byte is found, or the calls are still those of the same walls: then the way
/// back is the same.
#[test]
fn bytes_of_a_journal_that_are_changed() {
    let mut random = Random::new(77);
    let season = short_season();
    let (folder, wall) = (&season.folder, season.folder.read(FILE));
    let journal = folder.read(JOURNAL);
    let mut seen = std::collections::BTreeMap::new();
    for at in 0..journal.len() {
        for byte in other_bytes(&mut random, &journal, at) {
            let changed = [&journal[..at], &[byte], &journal[at + 1..]].concat();
            let meaning = try_files(folder, &wall, &changed);
            if changed != journal {
                *seen.entry(meaning).or_insert(0) += 1;
            }
            if meaning == Meaning::Fits {
                assert_same(&done(folder, &format!("back {FILE}")));
                assert_eq!(folder.read(FILE), season.first());
            }
        }
    }
    println!("{} bytes: {seen:?}", journal.len());
    assert!(seen[&Meaning::Found] > 250 && seen[&Meaning::Fits] > 0, "{seen:?}");
}

/// The journal with its lines changed by a function.
fn with_lines(journal: &str, change: &dyn Fn(&mut Vec<&str>)) -> Vec<u8> {
    let mut lines: Vec<&str> = journal.split_inclusive('\n').collect();
    change(&mut lines);
    lines.concat().into_bytes()
}

/// What a changed journal means. Where it fits, the way back is as ever.
fn tried(season: &Season, wall: &[u8], changed: Vec<u8>) -> Meaning {
    let meaning = try_files(&season.folder, wall, &changed);
    if meaning == Meaning::Fits {
        assert_same(&done(&season.folder, &format!("back {FILE}")));
        assert_eq!(season.folder.read(FILE), season.first());
    }
    meaning
}

/// The lines are the head, split 0 1, fsplit 3, join, split 6, back 1, fjoin 3 4 5, split 8 7. The
/// join without marks changed nothing, so that it may go, stand elsewhere or come twice. Without the
/// split behind it, or where `back 1` comes twice, that join is taken back.
#[test]
fn lines_of_a_journal_that_are_changed() {
    use Meaning::{Fits, Found};
    let season = short_season();
    let (wall, journal) = (season.folder.read(FILE), &season.journal[..]);
    let tried =
        |change: &dyn Fn(&mut Vec<&str>)| tried(&season, &wall, with_lines(journal, change));
    let count = journal.lines().count();
    let dropped: Vec<Meaning> = (0..count).map(|at| tried(&|lines| _ = lines.remove(at))).collect();
    assert_eq!(dropped, [Found, Found, Found, Fits, Fits, Found, Found, Found]);
    let doubled: Vec<Meaning> =
        (0..count).map(|at| tried(&|lines| lines.insert(at, lines[at]))).collect();
    assert_eq!(doubled, [Found, Found, Found, Fits, Found, Fits, Found, Found]);
    let swapped: Vec<Meaning> =
        (1..count).map(|at| tried(&|lines| lines.swap(at - 1, at))).collect();
    assert_eq!(swapped, [Found, Found, Fits, Found, Found, Found, Found]);
}

#[test]
fn journals_that_are_cut_or_longer() {
    use Meaning::{Ahead, Fits, Found};
    let season = short_season();
    let (wall, journal) = (season.folder.read(FILE), &season.journal[..]);
    let tried = |changed: String| tried(&season, &wall, changed.into());
    // The last line feed is cut off, or all is, or line feeds are those of another system.
    assert_eq!(tried(journal.trim_end().into()), Found);
    assert_eq!(tried(String::new()), Found);
    assert_eq!(tried(journal.replace('\n', "\r\n")), Found);
    let more = |line: &str| tried(format!("{journal}{line}\n"));
    assert_eq!(more("split;;"), Fits);
    for line in
        ["", "back 0", "back 6", "back 99999999999", "split 0;0;", "log", "wall 1 1 1 1 1 0;;"]
    {
        assert_eq!(more(line), Found, "{line}");
    }
    // These are lines that a command may write before it is cut off.
    assert_eq!((more("back 1"), more("back 5")), (Ahead, Ahead));
}

/// A journal has one spelling, so that lines are only ever added to it.
#[test]
fn journals_in_another_spelling() {
    let mut season = Season::begin(plan([12, 1, 2, 1, 1, 0]));
    for line in ["split 0 1", "fsplit 5", "join"] {
        season.make(line);
    }
    season.back(1);
    let wall = season.folder.read(FILE);
    for (spelled, other) in [
        ("split 0 1;", "split 00 1;"),
        ("split 0 1;", "split  0 1;"),
        ("split 0 1;", "split 0 1 ;"),
        ("split 0 1;", " split 0 1;"),
        ("split 0 1;", "split 0 +1;"),
        ("split 0 1;0 1;", "split 0 1;0 01;"),
        ("split 0 1;0 1;", "split 0 1;0 1 ;"),
        ("split 0 1;0 1;", "split 0 1;1 0;"),
        ("join;;", "join ;;"),
        ("join;;", "join;;;"),
        ("join;;", "join;"),
        ("back 1", "back 01"),
        ("back 1", "back +1"),
        ("back 1", "back 1 "),
        ("back 1", "back  1"),
        (" 0c ", " 0C "),
        (" 0c ", " c "),
        (" 0c ", " +c "),
        (" 0c ", " 0c  "),
        (" 0c ", " 00c "),
        ("journal 1:", "journal 2:"),
        ("wallmirror", "\u{feff}wallmirror"),
    ] {
        assert_eq!(season.journal.matches(spelled).count(), 1, "{spelled}");
        let changed = season.journal.replace(spelled, other);
        assert_eq!(tried(&season, &wall, changed.into()), Meaning::Found, "{other}");
    }
    assert_eq!(tried(&season, &wall, season.journal.clone().into()), Meaning::Fits);
}

/// An older wall in the place of the wall is found.
#[test]
fn older_walls_and_other_journals() {
    let season = short_season();
    let folder = &season.folder;
    let journal = season.journal.as_bytes();
    let Replayed(files) = replay(journal).expect("a journal");
    let mut seen = std::collections::BTreeSet::new();
    for wall in &files {
        let meaning = try_files(folder, wall, journal);
        if meaning != Meaning::Fits {
            for line in ["info", "split", "back", "draw", "export", "restore"] {
                bad(folder, &format!("{line} {FILE}"), &[" away"]);
            }
        }
        seen.insert(meaning);
    }
    assert_eq!(seen.len(), 3, "{seen:?}");
    // The journal of another wall, and that of the same wall with another beginning.
    let mut other = Season::begin(plan([3, 2, 3, 2, 1, 2]));
    other.make("split 0 1");
    let last = files.last().expect("a wall");
    assert_eq!(try_files(folder, last, other.journal.as_bytes()), Meaning::Found);
    let empty = season.journal.lines().next().map(|head| format!("{head}\n")).expect("a head");
    assert_eq!(try_files(folder, last, empty.as_bytes()), Meaning::Found);
    assert_eq!(try_files(folder, &files[0], empty.as_bytes()), Meaning::Fits);
    // Without its journal any wall begins a new one.
    folder.write(FILE, &files[2]);
    fs::remove_file(folder.path(JOURNAL)).expect("the journal");
    let (out, err, status) = run(folder, ["split", FILE]);
    assert_eq!((out.as_str(), status), ("0;;\n", 0));
    assert!(err.contains("had no journal; one begins with the wall as it was found"), "{err}");
    assert_eq!(replay(&folder.read(JOURNAL)).expect("a journal").0[0], files[2]);
}
