//! Journals from before version 0.12, with the lists of the grading rule of then: what the command
//! says of them, and that nothing of a season is lost.

mod common;

use common::*;
use differential::Random;
use std::collections::BTreeSet;
use std::process::Command;
use wallmirror::{Call, Cell, Function, Lists, Mesh, Place, Plan};

const WALL: &str = "march.wall";
const JOURNAL: &str = "march.wall.journal";
const OTHER_RULE: &str = "has other lists than its call gives, as after a version before 0.12, which graded by another rule; docs/TOOL.md says how to keep its season";
const PLAIN: &str = "has other lists than its call gives; put the right one back";

/// Runs what docs/TOOL.md says, in the folder.
fn bring_over(folder: &Folder) {
    let blocks = blocks(&document("docs/TOOL.md"), "sh");
    let block = blocks.iter().find(|block| block.contains(JOURNAL)).expect("a block");
    let run = Command::new("sh").args(["-e", "-c", block]).current_dir(folder.path("")).status();
    assert!(run.expect("sh starts").success());
}

/// The season that document 01 has in its walls P7 and P8, by its own rule.
const BEFORE: &str = "\
wallmirror journal 1: 03 01 03 01 01 02 00
split 0;0;0 4
split 3;1 3;1 5 8
join 1;;
fjoin 8;3;8
";

/// Cells 0 and 1 are split.
const LEADS_TO: [u8; 9] = [3, 1, 3, 1, 1, 2, 2, 0, 1];

#[test]
fn a_season_is_kept() {
    let folder = Folder::new();
    folder.write(WALL, LEADS_TO);
    folder.write(JOURNAL, BEFORE);
    // Cell 3 needs cell 0 alone now.
    let said = format!("{JOURNAL}' does not fit: line 3 {OTHER_RULE}, or move it away and nothing");
    for command in ["info", "log", "draw", "export", "back", "accept", "split", "fjoin"] {
        bad(&folder, &format!("{command} {WALL}"), &[&said]);
    }
    bring_over(&folder);
    assert_eq!((folder.read(WALL), folder.read("march.before")), (LEADS_TO.into(), BEFORE.into()));
    let journal = "\
wallmirror journal 1: 03 01 03 01 01 02 00
split 0;0;0 4
split 1 3;1 3;1 5 8
join;;
join 3;3;8
";
    assert_eq!(folder.read(JOURNAL), journal.as_bytes());
    assert!(done(&folder, &format!("info {WALL}")).ends_with("season: 4 calls to walk back\n"));
    let back = done(&folder, &format!("back {WALL}"));
    assert!(back.contains("\ncall 2, split 1 3: join 1 3 names the same 2 cells and"), "{back}");
    assert_eq!(folder.read(WALL), [3, 1, 3, 1, 1, 2, 0]);
    // The wall is lost, and the journal has it.
    folder.put(WALL, &None);
    folder.write(JOURNAL, journal);
    done(&folder, &format!("restore {WALL}"));
    assert_eq!(folder.read(WALL), LEADS_TO);
    folder.put(WALL, &None);
    folder.write(JOURNAL, BEFORE);
    let (_, err, status) = run(&folder, ["restore", WALL]);
    assert!(err.ends_with(&format!(": line 3 {OTHER_RULE}\n")) && status == 2, "{err}");
}

/// The wall alone is a wall as ever, and its journal can be moved away.
#[test]
fn a_wall_without_its_journal() {
    let folder = Folder::new();
    // Cells 0, 1 and 3.
    folder.write(WALL, [3, 1, 3, 1, 1, 2, 3, 0, 1, 2]);
    assert!(done(&folder, &format!("info {WALL}")).contains("\ncheck: 0, the cells are a wall"));
    let (out, err, status) = run(&folder, ["join", WALL, "1"]);
    // By the rule of then cell 3 needed it.
    assert_eq!((out.as_str(), status), ("0;1;1 5\n", 0), "{err}");
}

/// What no rule gave is not said to be of another one.
#[test]
fn lines_of_no_rule() {
    let folder = Folder::new();
    let head = "wallmirror journal 1: 03 01 03 01 01 02 00\n";
    for (lines, said) in [
        // More than the cell needs, as before; and a cell less.
        ("split 0;0;0 4\nsplit 3;1 3;1 5 8\n", OTHER_RULE),
        ("split 0;0;0 4\nsplit 4;4;\n", PLAIN),
        // Another cell, other functions, another order.
        ("split 0;0;0 4\nsplit 3;1;1 5\n", PLAIN),
        ("split 0;0;0 4\nsplit 3;1 3;1 5\n", PLAIN),
        ("split 0;0;0 4\nsplit 3;3 1;1 5 8\n", PLAIN),
        // A join that leaves a marked cell, as before; and one that joins another.
        ("split 0 1;0 1;0 1 4 5\njoin 1;;\n", OTHER_RULE),
        ("split 0 1;0 1;0 1 4 5\njoin 1;0;0 4\n", PLAIN),
    ] {
        folder.write(WALL, [3, 1, 3, 1, 1, 2, 0]);
        folder.write(JOURNAL, format!("{head}{lines}"));
        bad(&folder, &format!("log {WALL}"), &[&format!("' does not fit: line 3 {said}")]);
    }
    // In class 0 there was no other rule.
    folder.write(JOURNAL, "wallmirror journal 1: 03 01 03 01 01 00 00\nsplit 0;0 1;0 1 4 5\n");
    bad(&folder, &format!("log {WALL}"), &[&format!("' does not fit: line 2 {PLAIN}")]);
}

/// The cells that had to be split where this one is, on a plan without corners: those of level j-m+1
/// at most p columns and q rows from its ancestor there.
fn needed(plan: Plan, cell: Cell) -> Vec<Cell> {
    let Place { level, row, column } = plan.place(cell).expect("a cell");
    let by = plan.admissibility_class - 1;
    let Some(level) = level.checked_sub(by) else { return vec![] };
    let near = |at: u32, degree: u32| (at >> by).saturating_sub(degree)..=(at >> by) + degree;
    let rows = near(row, plan.degree_up);
    let places = rows.flat_map(|row| near(column, plan.degree_across).map(move |c| (row, c)));
    // Past the edges there are no cells.
    places.filter_map(|(row, column)| plan.cell_at(Place { level, row, column })).collect()
}

/// The smallest wall of the rule of then with these split cells.
fn closed(plan: Plan, mut split: BTreeSet<Cell>) -> BTreeSet<Cell> {
    let mut open: Vec<Cell> = split.iter().copied().collect();
    while let Some(cell) = open.pop() {
        open.extend(needed(plan, cell).into_iter().filter(|&cell| split.insert(cell)));
    }
    split
}

fn with_byte(table: &[u8], byte: u8) -> Vec<u32> {
    (0..).zip(table).filter(|(_, &b)| b == byte).map(|(n, _)| n).collect()
}

/// A call that the wall takes, and the cells that it split or joined by the rule of then. `None` where
/// the chosen mark is none.
fn call_of_before(random: &mut Random, mesh: &Mesh) -> Option<(Call, Vec<Cell>)> {
    let plan = mesh.plan;
    let split: BTreeSet<Cell> = with_byte(&mesh.cells, 2).into_iter().map(Cell).collect();
    let cell = Cell(random.pick(&with_byte(&mesh.cells, 1)));
    let function = Function(random.pick(&with_byte(&mesh.functions, 1)));
    let (call, marked) = match random.below(5) {
        0 => {
            let cell = random.pick(&split.iter().copied().chain([cell]).collect::<Vec<_>>());
            (Call::CoarsenCells(vec![cell]), vec![cell])
        }
        1 => {
            let support = plan.support(function).expect("a function");
            let places =
                support.rows.flat_map(|row| support.columns.clone().map(move |c| (row, c)));
            let level = support.level;
            let cells =
                places.filter_map(|(row, column)| plan.cell_at(Place { level, row, column }));
            (Call::RefineFunctions(vec![function]), cells.collect())
        }
        _ => (Call::RefineCells(vec![cell]), vec![cell]),
    };
    mesh.clone().make(&call).ok()?;
    let marked: BTreeSet<Cell> = marked.into_iter().collect();
    let after = match call.refines() {
        true => closed(plan, split.union(&marked).copied().collect()),
        false => closed(plan, split.difference(&marked).copied().collect()),
    };
    Some((call, split.symmetric_difference(&after).copied().collect()))
}

fn joined(numbers: impl Iterator<Item = u32>) -> String {
    numbers.map(|number| number.to_string()).collect::<Vec<_>>().join(" ")
}

fn line_of(call: &Call, lists: &Lists) -> String {
    let cells = |cells: &[Cell]| joined(cells.iter().map(|cell| cell.0));
    let functions = |functions: &[Function]| joined(functions.iter().map(|function| function.0));
    let said = match call {
        Call::RefineCells(marks) => format!("split {}", cells(marks)),
        Call::RefineFunctions(marks) => format!("fsplit {}", functions(marks)),
        Call::CoarsenCells(marks) => format!("join {}", cells(marks)),
        Call::CoarsenFunctions(marks) => format!("fjoin {}", functions(marks)),
    };
    format!("{said};{};{}\n", cells(&lists.cells), functions(&lists.functions))
}

/// A season by the rule of then: its first wall and its last, its journal, and the number of the first
/// line that has other lists now.
fn season_of_before(random: &mut Random, plan: Plan) -> (Mesh, Mesh, String, Option<usize>) {
    let first = Mesh::open(plan).expect("a plan");
    let (mut mesh, mut other) = (first.clone(), None);
    let head = first.to_file().expect("a wall");
    let head: String = head.iter().map(|byte| format!(" {byte:02x}")).collect();
    let mut journal = format!("wallmirror journal 1:{head}\n");
    for _ in 0..12 {
        let Some((call, cells)) = call_of_before(random, &mesh) else { continue };
        let now = mesh.clone().make(&call);
        // The cells of a list, as marks, give it by both rules.
        let lists = match call.refines() {
            true => mesh.refine_cells(&cells),
            false => mesh.coarsen_cells(&cells),
        };
        let lists = lists.expect("cells that can be marked");
        assert_eq!(lists.cells, cells);
        journal += &line_of(&call, &lists);
        if now.as_ref() != Ok(&lists) {
            other = other.or(Some(journal.lines().count()));
        }
    }
    (first, mesh, journal, other)
}

/// Any season by the rule of then: the first line with other lists is named, and brought over the
/// journal leads there and back.
#[test]
fn seasons_are_kept() {
    let mut random = Random::new(120);
    let mut others = 0;
    for turn in 0..60 {
        let [columns, rows, levels, degree_across, degree_up, admissibility_class] =
            [[4, 3, 3, 1, 1, 2], [5, 1, 4, 2, 1, 2], [3, 3, 4, 1, 2, 3], [4, 4, 3, 3, 2, 2]]
                [turn % 4];
        let plan = Plan {
            columns,
            rows,
            levels,
            degree_across,
            degree_up,
            admissibility_class,
            ..Plan::SMALLEST
        };
        let (first, last, journal, other) = season_of_before(&mut random, plan);
        let (first, last) = (first.to_file().expect("a wall"), last.to_file().expect("a wall"));
        let folder = Folder::new();
        folder.write(WALL, &last);
        folder.write(JOURNAL, &journal);
        match other {
            None => assert_eq!(run(&folder, ["log", WALL]).2, 0, "{journal}"),
            Some(number) => {
                bad(&folder, &format!("log {WALL}"), &[&format!(": line {number} {OTHER_RULE}")]);
                others += 1;
            }
        }
        bring_over(&folder);
        let calls = journal.lines().count() - 1;
        let log = done(&folder, &format!("log {WALL}"));
        assert_eq!(log.lines().count(), calls + 2, "{log}");
        let back = done(&folder, &format!("back {WALL}"));
        assert_eq!(back.matches(" names the same ").count(), calls, "{back}");
        assert_eq!(folder.read(WALL), first);
    }
    println!("{others} seasons with other lists");
    assert!((20..60).contains(&others), "{others}");
}
