//! The words of the tool, which are those of the session program: a wall is a mesh, `split` and
//! `join` refine and coarsen, an `f` before them means by functions.

use wallmirror::{Call, Cell, Function, Lists, Mesh, Plan, Refusal};

/// The call of a word.
pub fn call(word: &str, marks: Vec<u32>) -> Option<Call> {
    let make = match word {
        "split" => split,
        "join" => join,
        "fsplit" => fsplit,
        "fjoin" => fjoin,
        _ => return None,
    };
    Some(make(marks))
}

pub fn split(marks: Vec<u32>) -> Call {
    Call::RefineCells(marks.into_iter().map(Cell).collect())
}

pub fn join(marks: Vec<u32>) -> Call {
    Call::CoarsenCells(marks.into_iter().map(Cell).collect())
}

pub fn fsplit(marks: Vec<u32>) -> Call {
    Call::RefineFunctions(marks.into_iter().map(Function).collect())
}

pub fn fjoin(marks: Vec<u32>) -> Call {
    Call::CoarsenFunctions(marks.into_iter().map(Function).collect())
}

/// The word of a call.
pub fn word(call: &Call) -> &'static str {
    match call {
        Call::RefineCells(_) => "split",
        Call::CoarsenCells(_) => "join",
        Call::RefineFunctions(_) => "fsplit",
        Call::CoarsenFunctions(_) => "fjoin",
    }
}

/// The marks of a call as numbers.
pub fn marks(call: &Call) -> Vec<u32> {
    match call {
        Call::RefineCells(marks) | Call::CoarsenCells(marks) => cell_numbers(marks),
        Call::RefineFunctions(marks) | Call::CoarsenFunctions(marks) => function_numbers(marks),
    }
}

pub fn cell_numbers(cells: &[Cell]) -> Vec<u32> {
    cells.iter().map(|cell| cell.0).collect()
}

pub fn function_numbers(functions: &[Function]) -> Vec<u32> {
    functions.iter().map(|function| function.0).collect()
}

/// A call as a line of a session: the word and the marks, one space apart.
pub fn line(call: &Call) -> String {
    [vec![word(call).to_string()], texts(&marks(call))].concat().join(" ")
}

/// The two lists as a session prints them behind the number of the answer.
pub fn lists(lists: &Lists) -> String {
    let cells = texts(&cell_numbers(&lists.cells)).join(" ");
    let functions = texts(&function_numbers(&lists.functions)).join(" ");
    format!("{cells};{functions}")
}

fn texts(numbers: &[u32]) -> Vec<String> {
    numbers.iter().map(u32::to_string).collect()
}

/// The first numbers of a list for a line that is read by people, and how many they are.
pub fn short(numbers: &[u32]) -> String {
    const MOST: usize = 12;
    match numbers.len() {
        0 => "none".to_string(),
        count if count <= MOST => texts(numbers).join(" "),
        count => format!("{} .. ({count} in all)", texts(&numbers[..MOST]).join(" ")),
    }
}

/// A call in short.
pub fn short_line(call: &Call) -> String {
    match marks(call)[..] {
        [] => format!("{} without marks", word(call)),
        ref marks => format!("{} {}", word(call), short(marks)),
    }
}

/// So many of something.
pub fn count(count: usize, of: &str) -> String {
    format!("{count} {of}{}", if count == 1 { "" } else { "s" })
}

/// The plan of a wall but for its corners.
pub fn plan(plan: Plan) -> String {
    let Plan {
        columns, rows, levels, degree_across, degree_up, admissibility_class: class, ..
    } = plan;
    let levels = count(levels as usize, "level");
    format!("{columns} by {rows} cells, {levels}, degrees {degree_across} and {degree_up}, class {class}")
}

/// The plan of a wall with its corners.
pub fn plan_and_corners(of: Plan) -> String {
    let corners = [("column", of.corners_across), ("row", of.corners_up)].map(|(of, corners)| {
        let lines: Vec<u32> = (1..32).filter(|k| corners >> k & 1 == 1).collect();
        match lines[..] {
            [] => String::new(),
            [line] => format!(", a corner before {of} {line}"),
            _ => format!(", corners before {of}s {}", texts(&lines).join(" ")),
        }
    });
    plan(of) + &corners.concat()
}

/// What a refusal says, in the words of the tool.
pub fn refusal(refusal: Refusal) -> String {
    let said = match refusal {
        Refusal::NotAMesh => "the cells are not a wall",
        Refusal::NotAdmissible => "the wall is not graded for its class",
        Refusal::MarkOfLastLevel => "a mark is of the last level, which cannot be split",
        _ => return refusal.to_string(),
    };
    format!("refusal {}: {said}", refusal.number())
}

/// Digits alone, at least one, of a value below 2^32, as the session program reads them.
pub fn number(text: &str) -> Option<u32> {
    let digits = !text.is_empty() && text.bytes().all(|byte| byte.is_ascii_digit());
    digits.then(|| text.parse().ok())?
}

/// What is wrong with the mark for which a call would be refused. `None` if it would be accepted.
pub fn fault(mesh: &Mesh, call: &Call) -> Option<String> {
    let refusal = mesh.clone().make(call).err()?;
    at_fault(mesh, call, refusal)
}

/// What is wrong with the mark for which a call was refused so.
pub fn at_fault(mesh: &Mesh, refused: &Call, refusal: Refusal) -> Option<String> {
    let mark = marks(refused)[mesh.first_fault(refused)?];
    let (kind, table) = match refused {
        Call::RefineCells(_) | Call::CoarsenCells(_) => ("cell", &mesh.cells),
        Call::RefineFunctions(_) | Call::CoarsenFunctions(_) => ("function", &mesh.functions),
    };
    let is = match refusal {
        Refusal::MarkOutOfRange => {
            return Some(format!("{mark}, where {kind}s go from 0 to {}", table.len() - 1))
        }
        Refusal::MarkOfLastLevel => "is of the last level",
        Refusal::MarkOfWrongKind => state(table[mark as usize], refused),
        _ => return None,
    };
    Some(format!("{kind} {mark} {is}"))
}

/// Why a cell or function of this byte is not of the kind that the call takes.
fn state(byte: u8, call: &Call) -> &'static str {
    match (call, byte) {
        (Call::RefineCells(_) | Call::CoarsenCells(_), 0) => "is absent",
        (Call::RefineCells(_), _) => "is split already",
        (Call::CoarsenCells(_), 1) => "is active, not split",
        (Call::CoarsenCells(_), _) => "has a child that is split",
        (_, 0) => "is passive",
        (Call::RefineFunctions(_), _) => "is deactivated already",
        (_, 1) => "is active, not deactivated",
        _ => "has no cell of its level in its support that can be joined",
    }
}
