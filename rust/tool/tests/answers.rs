//! What the command prints and writes, against the independent model.

mod common;

use common::*;
use differential::{Kind, Random};
use model::session::{answer, Wall};
use model::Plan;

const FILE: &str = "march.wall";

/// Marks of all kinds: those that the call takes, any, split or deactivated ones, none, ones past the
/// last, repeated ones.
fn marks(random: &mut Random, wall: &Wall, kind: Kind) -> Vec<u32> {
    let mut marks = vec![];
    let markable = markable(wall, kind);
    let table = if kind.by_functions() { &wall.functions } else { &wall.cells };
    let twos: Vec<u32> = (0..).zip(table).filter(|(_, &byte)| byte == 2).map(|(n, _)| n).collect();
    let table = table.len();
    let bad = random.once_in(2);
    for _ in 0..random.pick(&[0, 1, 1, 2, 3, 8, 64]) {
        let two = if twos.is_empty() { 0 } else { random.pick(&twos) };
        let any = [random.below(table) as u32, two, table as u32 - 1, table as u32, u32::MAX];
        let at_fault = bad && random.once_in(4);
        match (at_fault, markable.is_empty()) {
            (true, _) => marks.push(random.pick(&any)),
            (false, false) => marks.push(random.pick(&markable)),
            (false, true) => {}
        }
    }
    marks
}

/// What the model finds wrong with the first mark that it refuses alone.
fn wrong(wall: &Wall, kind: Kind, marks: &[u32]) -> Option<String> {
    let Wall { plan, cells, functions } = wall;
    let alone =
        |mark| kind.of_model()(*plan, cells, functions, &[mark], cells.len(), functions.len());
    let (mark, number) = marks.iter().find_map(|&mark| Some((mark, alone(mark).err()?)))?;
    let (name, table) = if kind.by_functions() { ("function", functions) } else { ("cell", cells) };
    let is = match number {
        7 => return Some(format!("{mark}, where {name}s go from 0 to {}", table.len() - 1)),
        9 => "is of the last level",
        _ => state(kind, table[mark as usize]),
    };
    Some(format!("{name} {mark} {is}"))
}

fn state(kind: Kind, byte: u8) -> &'static str {
    match kind {
        Kind::RefineCells => ["is absent", "", "is split already"][byte as usize],
        Kind::CoarsenCells => {
            ["is absent", "is active, not split", "has a child that is split"][byte as usize]
        }
        Kind::RefineFunctions => ["is passive", "", "is deactivated already"][byte as usize],
        Kind::CoarsenFunctions => [
            "is passive",
            "is active, not deactivated",
            "has no cell of its level in its support that can be joined",
        ][byte as usize],
    }
}

/// The mark as it is, or with zeros before it.
fn padded(random: &mut Random, mark: u32) -> String {
    format!("{}{mark}", "0".repeat(random.pick(&[0, 0, 0, 0, 1, 12])))
}

/// Gives one line to the command and to the model. Answers the number that it got, and what was said
/// of the mark at fault, without its number.
fn compare(folder: &Folder, wall: &mut Option<Wall>, random: &mut Random) -> (u32, String) {
    let (word, kind) = random.pick(&WORDS);
    let before = wall.as_ref().expect("a wall");
    let marks = marks(random, before, kind);
    let wrong = wrong(before, kind, &marks);
    let fields: String = marks.iter().map(|&mark| format!(" {}", padded(random, mark))).collect();
    let line = format!("{word}{fields}");
    let (out, err, status) = run(folder, words(&with_file(&line, FILE)));
    let printed = answer(wall, line.as_bytes());
    assert_eq!(out, format!("{printed}\n"), "{line}");
    let number: u32 = printed.split(';').next().expect("a number").parse().expect("a number");
    match &wrong {
        None => assert_eq!((number, err.as_str(), status), (0, "", 0), "{line}"),
        Some(wrong) => {
            assert_one_line(&err);
            assert_eq!((number == 0, status), (false, 1), "{line}");
            assert!(err.starts_with(&format!("wallmirror: refusal {number}: ")), "{err}");
            assert!(err.ends_with(&format!(": {wrong}\n")), "{line}: {err}{wrong}");
        }
    }
    assert_eq!(folder.read(FILE), file(wall.as_ref().expect("a wall")), "{line}");
    let said = wrong.unwrap_or_default();
    (number, said.split(' ').filter(|word| !word.starts_with(char::is_numeric)).collect())
}

/// A row of the table that `info` prints.
fn row(level: Option<u32>, wall: &Wall) -> Vec<String> {
    let Wall { plan, cells, functions } = wall;
    let of = |of: u32| level.is_none_or(|level| level == of);
    let cells: Vec<u8> =
        plan.cells().zip(cells).filter(|(cell, _)| of(cell.level)).map(|(_, &byte)| byte).collect();
    let functions: Vec<u8> =
        plan.functions().zip(functions).filter(|(f, _)| of(f.level)).map(|(_, &b)| b).collect();
    let count = |table: &[u8], byte: u8| table.iter().filter(|&&b| b == byte).count();
    let numbers = [&cells, &functions].map(|table| [table.len(), count(table, 1), count(table, 2)]);
    let level = level.map_or("all".to_string(), |level| level.to_string());
    [level].into_iter().chain(numbers.concat().iter().map(usize::to_string)).collect()
}

/// What `info` prints has the counts of the model.
fn compare_info(folder: &Folder, wall: &Wall, calls: usize) {
    let text = done(folder, &format!("info {FILE}"));
    let lines: Vec<&str> = text.lines().collect();
    let levels = wall.plan.levels;
    let fields = |line: &str| line.split_whitespace().map(str::to_string).collect::<Vec<_>>();
    for level in 0..levels {
        assert_eq!(fields(lines[2 + level as usize]), row(Some(level), wall), "{text}");
    }
    let rest = &lines[2 + levels as usize..];
    assert_eq!(fields(rest[0]), row(None, wall), "{text}");
    let count = model::count(wall.plan, &wall.cells, &wall.functions).expect("a wall");
    assert_eq!(rest[1], format!("area: {} cells of the last level", count.area));
    assert!(rest[2].starts_with("check: 0, "), "{text}");
    let (bytes, s) = (file(wall).len(), if calls == 1 { "" } else { "s" });
    assert_eq!(
        rest[3..],
        [format!("file: {bytes} bytes"), format!("season: {calls} call{s} to walk back")]
    );
}

/// The plan as it is said in the first line.
fn said(plan: Plan) -> String {
    let Plan { columns, rows, levels, degree_across, degree_up, class, .. } = plan;
    let s = if levels == 1 { "" } else { "s" };
    let corners = [(plan.corners_across, "column"), (plan.corners_up, "row")].map(|(bits, of)| {
        let lines: Vec<String> =
            (0..32).filter(|k| bits & 1 << k != 0).map(|k: u32| k.to_string()).collect();
        match lines.len() {
            0 => String::new(),
            1 => format!(", a corner before {of} {}", lines[0]),
            _ => format!(", corners before {of}s {}", lines.join(" ")),
        }
    });
    format!(
        "{FILE}: {columns} by {rows} cells, {levels} level{s}, degrees {degree_across} and {degree_up}, class {class}{}\n",
        corners.concat()
    )
}

#[test]
fn answers_files_and_counts() {
    let mut random = Random::new(82);
    let mut seen = std::collections::BTreeMap::<(u32, String), usize>::new();
    for turn in 0..40 {
        let plan = small_plan(&mut random, [0, 2, 0, 3, 8][turn % 5]);
        let folder = Folder::new();
        assert_eq!(done(&folder, &format!("new {FILE} {}", numbers(plan))), said(plan));
        let mut wall = Some(opened(plan));
        let mut calls = 0;
        for _ in 0..16 {
            let answered = compare(&folder, &mut wall, &mut random);
            calls += usize::from(answered.0 == 0);
            *seen.entry(answered).or_default() += 1;
        }
        compare_info(&folder, wall.as_ref().expect("a wall"), calls);
    }
    println!("answers: {seen:?}");
    // Too large a number and one of the last level are said of cells and of functions, and each has
    // four states that are wrong.
    let count = |number: u32| seen.keys().filter(|(of, _)| *of == number).count();
    assert_eq!([0, 7, 8, 9].map(count), [1, 2, 8, 2]);
}

/// More marks than a session takes on a line, and the largest walls.
#[test]
fn many_marks() {
    let folder = Folder::new();
    done(&folder, "new march.wall 16 16 4 4 4 2 65534 65534");
    let marks: Vec<u32> = (0..256).rev().chain(0..256).collect();
    let (out, err, status) = run(&folder, words(&with_file(&line("split", &marks), FILE)));
    assert_eq!((err.as_str(), status), ("", 0));
    let cells: Vec<String> = (0..256).map(|cell| cell.to_string()).collect();
    assert!(out.starts_with(&format!("0;{};0 1 2 ", cells.join(" "))), "{out}");
    // The first mark at fault is named, far behind.
    let marks: Vec<u32> = (256..1280).chain([0, 99_999]).collect();
    let before = folder.all();
    let (out, err, status) = run(&folder, words(&with_file(&line("split", &marks), FILE)));
    assert_eq!((out.as_str(), status), ("8;;\n", 1));
    assert!(err.ends_with(": cell 0 is split already\n"), "{err}");
    assert_eq!(folder.all(), before);
    let report = done(&folder, "back march.wall");
    assert!(report.contains("call 1, split 255 254 253"), "{report}");
    assert!(report.contains("(512 in all): join 0 1 2"), "{report}");
    assert!(
        report.ends_with("is the wall that its journal begins with, byte for byte (13 bytes)\n"),
        "{report}"
    );
}
