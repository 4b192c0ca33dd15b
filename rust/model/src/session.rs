//! The session program: lines of words and numbers in, a line of answer for each.
//!
//! Its words are those of the scope document: a wall is a mesh, `split` and `join` refine and
//! coarsen, an `f` before them means by functions.

use crate::{Call, Plan};

/// What lies behind so many bytes of the input is ignored.
pub const INPUT_BYTES: usize = 16_384;

/// The most marks on a line.
pub const LINE_MARKS: usize = 64;

/// A wall of more cells is `large`.
pub const WALL_CELLS: usize = 4_096;

/// The plan and both tables of the wall in hand.
pub struct Wall {
    pub plan: Plan,
    pub cells: Vec<u8>,
    pub functions: Vec<u8>,
}

/// The whole output for a whole input.
pub fn session(input: &[u8]) -> Vec<u8> {
    let input = &input[..input.len().min(INPUT_BYTES)];
    let mut wall = None;
    let mut output = vec![];
    // The last line may lack its line feed.
    for line in input.split_inclusive(|&byte| byte == b'\n') {
        let line = line.strip_suffix(b"\n").unwrap_or(line);
        output.extend(answer(&mut wall, line).bytes());
        output.push(b'\n');
    }
    output
}

/// What one line prints. Only an accepted one changes the wall.
pub fn answer(wall: &mut Option<Wall>, line: &[u8]) -> String {
    let Some((word, numbers)) = read(line) else {
        return "?".to_string();
    };
    match word {
        "wall" => open(wall, &numbers),
        "split" => change(wall, crate::refine_cells, &numbers),
        "join" => change(wall, crate::coarsen_cells, &numbers),
        "fsplit" => change(wall, crate::refine_functions, &numbers),
        "fjoin" => change(wall, crate::coarsen_functions, &numbers),
        _ => "?".to_string(),
    }
}

/// A word and numbers, one space apart.
fn read(line: &[u8]) -> Option<(&str, Vec<u32>)> {
    let mut fields = std::str::from_utf8(line).ok()?.split(' ');
    let word = fields.next()?;
    Some((word, fields.map(number).collect::<Option<_>>()?))
}

/// Digits alone, at least one, of a value below 2^32.
fn number(field: &str) -> Option<u32> {
    let digits = !field.is_empty() && field.bytes().all(|byte| byte.is_ascii_digit());
    digits.then(|| field.parse().ok())?
}

/// The line may end in both corner numbers, and not in one.
fn open(wall: &mut Option<Wall>, numbers: &[u32]) -> String {
    let &[columns, rows, levels, degree_across, degree_up, class, ref corners @ ..] = numbers
    else {
        return "?".to_string();
    };
    let (corners_across, corners_up) = match *corners {
        [] => (0, 0),
        [across, up] => (across, up),
        _ => return "?".to_string(),
    };
    let plan =
        Plan { columns, rows, levels, degree_across, degree_up, class, corners_across, corners_up };
    if let Err(number) = crate::refuse_plan(plan) {
        return format!("{number};;");
    }
    let (t, f) = (plan.cell_total(), plan.function_total());
    if t > WALL_CELLS {
        return "large".to_string();
    }
    let (cells, functions) = crate::open(plan, t, f).expect("the plan is in range");
    *wall = Some(Wall { plan, cells, functions });
    "0;;".to_string()
}

/// The lists have T and F entries, so that none is too short.
fn change(wall: &mut Option<Wall>, call: Call, marks: &[u32]) -> String {
    let Some(Wall { plan, cells, functions }) = wall else {
        return "?".to_string();
    };
    if marks.len() > LINE_MARKS {
        return "?".to_string();
    }
    match call(*plan, cells, functions, marks, cells.len(), functions.len()) {
        Err(number) => format!("{number};;"),
        Ok(change) => {
            (*cells, *functions) = (change.cells, change.functions);
            format!("0;{};{}", list(&change.cell_list), list(&change.function_list))
        }
    }
}

fn list(numbers: &[u32]) -> String {
    numbers.iter().map(u32::to_string).collect::<Vec<_>>().join(" ")
}
