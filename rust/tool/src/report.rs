//! What is said of a wall and of its season.

use crate::failure::Failure;
use crate::journal::Entry;
use crate::wall::Wall;
use crate::words;
use std::ops::Range;
use wallmirror::{Made, Mesh, Plan, Undone};

pub fn info(wall: &Wall) -> Result<String, Failure> {
    let mesh = wall.mesh();
    let count = mesh.count().map_err(|refusal| Failure::refused(refusal, None))?;
    let mut text =
        format!("{}: {}\n{}", wall.name(), words::plan_and_corners(mesh.plan), table(mesh));
    text += &format!("area: {} of the last level\n", words::count(count.area, "cell"));
    text += &match mesh.check() {
        Ok(()) => format!(
            "check: 0, the cells are a wall{}, and the functions are the ones that they fix\n",
            graded(mesh.plan)
        ),
        Err(refusal) => format!("check: {}, {}\n", refusal.number(), words::refusal(refusal)),
    };
    let file = match wall.is_half_made() {
        true => "half-made, and the next change finishes it first".to_string(),
        false => words::count(wall.file()?.len(), "byte"),
    };
    let season = match wall.has_journal() {
        true => calls_left(wall),
        false => "nothing is known of it, since there is no journal beside the wall".to_string(),
    };
    Ok(text + &format!("file: {file}\nseason: {season}\n"))
}

fn calls_left(wall: &Wall) -> String {
    format!("{} to walk back", words::count(wall.season().calls().len(), "call"))
}

fn graded(plan: Plan) -> String {
    match plan.admissibility_class {
        0 => String::new(),
        class => format!(" graded for class {class}"),
    }
}

/// Cells and functions, level by level.
fn table(mesh: &Mesh) -> String {
    let plan = mesh.plan;
    let row = |level: &str, cells: &[u8], functions: &[u8]| {
        let count = |table: &[u8], byte: u8| table.iter().filter(|&&b| b == byte).count();
        let (active, split) = (count(cells, 1), count(cells, 2));
        let (working, deactivated) = (count(functions, 1), count(functions, 2));
        format!(
            "{level:>5}  {:>6} {active:>7} {split:>6}  {:>9} {working:>7} {deactivated:>12}\n",
            cells.len(),
            functions.len()
        )
    };
    let mut text = "level   cells  active  split  functions  active  deactivated\n".to_string();
    for level in 0..plan.levels {
        let cells = part(&mesh.cells, plan.cells_on(level));
        let functions = part(&mesh.functions, plan.functions_on(level));
        text += &row(&level.to_string(), cells, functions);
    }
    text + &row("all", &mesh.cells, &mesh.functions)
}

fn part(table: &[u8], numbers: Option<Range<u32>>) -> &[u8] {
    numbers.and_then(|n| table.get(n.start as usize..n.end as usize)).unwrap_or(&[])
}

pub fn log(wall: &Wall) -> String {
    let head = format!("{}: {}\n", wall.name(), words::plan_and_corners(wall.mesh().plan));
    let end = match wall.has_journal() {
        true => calls_left(wall),
        false => "nothing is known of its season: there is no journal beside it".to_string(),
    };
    format!("{head}{}{end}\n", lines(wall).concat())
}

/// The journal after its head.
fn lines(wall: &Wall) -> Vec<String> {
    let kept = wall.journal().numbers();
    let mut number = 0;
    let mut line = |entry: &Entry| match entry {
        Entry::Back(count) => format!("      back {count}\n"),
        Entry::Call(made) => {
            number += 1;
            let kept = kept.binary_search(&number).is_ok();
            let gone = if kept { "" } else { " (walked back)" };
            format!("{number:>5} {}{gone}\n", call(made))
        }
    };
    wall.journal().entries().iter().map(&mut line).collect()
}

/// The lines of the journal from one on, which lead to the wall as it was found.
pub fn added(wall: &Wall, from: usize) -> String {
    let (name, lines) = (wall.name(), &lines(wall)[from..]);
    let calls = words::count(lines.len(), "call");
    let lead = if lines.len() == 1 { "leads" } else { "lead" };
    format!(
        "{}{name}: {calls} added to its journal that {lead} to it; {}\n",
        lines.concat(),
        calls_left(wall)
    )
}

fn call(Made { call, lists }: &Made) -> String {
    let cells = words::short(&words::cell_numbers(&lists.cells));
    let functions = words::short(&words::function_numbers(&lists.functions));
    format!("{}: cells {cells}; functions {functions}", words::short_line(call))
}

/// A call that was walked back, and by what; the lists of both are the same.
pub fn undone(number: usize, Undone { made, opposite, lists }: &Undone) -> String {
    let cells = words::count(lists.cells.len(), "cell");
    let functions = words::count(lists.functions.len(), "function");
    let (call, opposite) = (words::short_line(&made.call), words::short_line(opposite));
    format!("call {number}, {call}: {opposite} names the same {cells} and the same {functions}\n")
}
