//! What each command does. All answer what they print, so that no answer is printed while a wall is
//! locked.

use crate::drawing::{self, Changes, Reach};
use crate::failure::{self, Failure};
use crate::store::{self, Folder};
use crate::wall::{self, Wall};
use crate::{report, vtk, words};
use std::ffi::OsStr;
use std::fs;
use std::io::Write;
use std::path::Path;
use wallmirror::{Call, Cell, Mesh, Plan};

pub fn new(file: &OsStr, plan: Plan) -> Result<String, Failure> {
    let mesh = Mesh::open(plan).map_err(|refusal| Failure::refused(refusal, None))?;
    Wall::create(file, &mesh)?;
    Ok(format!("{}: {}\n", wall::shown(file), words::plan_and_corners(plan)))
}

pub fn info(file: &OsStr) -> Result<String, Failure> {
    report::info(&Wall::look(file)?)
}

pub fn log(file: &OsStr) -> Result<String, Failure> {
    Ok(report::log(&Wall::look(file)?))
}

/// Makes a call, with the answer of the session program.
pub fn change(file: &OsStr, call: Call) -> Result<String, Failure> {
    let mut wall = Wall::open(file)?;
    match wall.make(call.clone())? {
        Ok(lists) => Ok(format!("0;{}\n", words::lists(&lists))),
        Err(refusal) => {
            let at_fault = words::at_fault(wall.mesh(), &call, refusal);
            Err(Failure::refused(refusal, at_fault).printing(format!("{};;\n", refusal.number())))
        }
    }
}

/// Walks the last calls back, or all.
pub fn back(file: &OsStr, count: Option<u32>) -> Result<String, Failure> {
    let mut wall = Wall::open(file)?;
    if !wall.has_journal() {
        return Err(Failure::bad(format!(
            "nothing is known of the season of '{}', so nothing was walked back: there is no journal beside it; put the right one there",
            wall.name()
        )));
    }
    let calls = wall.season().calls().len();
    let count = match count {
        None if calls == 0 => {
            return Ok(format!("nothing to walk back: {}\n", first_again(&wall)?))
        }
        None => calls,
        Some(count) => count as usize,
    };
    let numbers = wall.journal().numbers().to_vec();
    let undone = wall.back(count)?;
    let mut text = String::new();
    for (undone, number) in undone.iter().zip(numbers.iter().rev()) {
        text += &report::undone(*number, undone);
    }
    let compared = match calls - count {
        0 => first_again(&wall),
        left => as_after(&wall).map(|said| {
            let calls = words::count(left, "call");
            format!("{said}; {calls} left to walk back")
        }),
    };
    match compared {
        Ok(said) => Ok(format!("{text}{said}\n")),
        Err(failure) => Err(failure.adding("; the calls were walked back").printing(text)),
    }
}

/// That the bytes on the disk are those of the wall that the journal begins with.
fn first_again(wall: &Wall) -> Result<String, Failure> {
    let bytes = same_bytes(wall, wall.season().first())?;
    let bytes = words::count(bytes, "byte");
    Ok(format!("{} is the wall that its journal begins with, byte for byte ({bytes})", wall.name()))
}

/// That they are those of the wall that the calls left make of that one, as it was compared.
fn as_after(wall: &Wall) -> Result<String, Failure> {
    same_bytes(wall, wall.mesh())?;
    let last = wall.journal().numbers().last().unwrap_or(&0);
    Ok(format!("{} is the wall after call {last}, byte for byte", wall.name()))
}

/// Reads the file once more. Answers how many bytes it has.
fn same_bytes(wall: &Wall, mesh: &Mesh) -> Result<usize, Failure> {
    let bytes = mesh.to_file().map_err(|refusal| Failure::refused(refusal, None))?;
    if wall.file()? == bytes {
        return Ok(bytes.len());
    }
    let name = wall.name();
    Err(Failure::bad(format!("'{name}' was changed meanwhile; its journal has all calls")))
}

pub fn restore(file: &OsStr) -> Result<String, Failure> {
    let wall = Wall::restore(file)?;
    let calls = words::count(wall.season().calls().len(), "call");
    Ok(format!("{}: the wall after {calls} of its journal\n", wall.name()))
}

/// Keeps the wall as it is, and lets its journal lead to it.
pub fn accept(file: &OsStr) -> Result<String, Failure> {
    let (wall, new) = Wall::accept(file)?;
    let name = wall.name();
    Ok(match new {
        None => format!("{name} is the wall that its journal leads to; nothing was added\n"),
        Some(_) if wall.journal().entries().is_empty() => {
            format!("{name}: its journal begins with the wall as it is\n")
        }
        Some(new) => report::added(&wall, new),
    })
}

/// The picture of the wall, or nothing if it went to a file.
pub fn draw(
    file: &OsStr,
    out: Option<&OsStr>,
    functions: bool,
    changed: bool,
    reach: Option<Cell>,
) -> Result<String, Failure> {
    let wall = Wall::look(file)?;
    let reach = reach.map(|cell| reach_of(wall.mesh(), cell)).transpose()?;
    if changed && !wall.has_journal() {
        failure::say(&format!("nothing is known of the last change of '{}', so none is outlined: there is no journal beside it", wall.name()));
    }
    let before = wall.journal().before().filter(|_| changed);
    let [split, joined] = before.map_or([vec![], vec![]], |before| changes(before, wall.mesh()));
    let changed = before.map(|_| Changes { split: &split, joined: &joined });
    let options = drawing::Options { functions, changed, reach };
    let picture = drawing::svg(&short_name(file), wall.mesh(), &options);
    give(wall, out, picture)
}

/// What a split of a cell can reach, whether the wall takes the split or not.
fn reach_of(mesh: &Mesh, cell: Cell) -> Result<Reach, Failure> {
    Reach::of(mesh, cell).ok_or_else(|| {
        let fault = words::fault(mesh, &words::split(vec![cell.0])).unwrap_or_default();
        Failure::bad(format!("the number after '--reach' is not that of a cell: {fault}"))
    })
}

pub fn export(file: &OsStr, out: Option<&OsStr>) -> Result<String, Failure> {
    let wall = Wall::look(file)?;
    let text = vtk::vtk(&short_name(file), wall.mesh());
    give(wall, out, text)
}

/// The name of a file without its folders.
fn short_name(file: &OsStr) -> String {
    Path::new(file).file_name().unwrap_or(file).to_string_lossy().into_owned()
}

/// The cells that became split from one wall to the next, and those that ceased to be.
fn changes(before: &Mesh, after: &Mesh) -> [Vec<Cell>; 2] {
    [(before, after), (after, before)].map(|(from, to)| {
        let pairs = from.cells.iter().zip(&to.cells).zip(0..);
        pairs.filter(|((from, to), _)| **from != 2 && **to == 2).map(|(_, i)| Cell(i)).collect()
    })
}

/// Writes the text to a file, or answers it to be printed.
fn give(wall: Wall, out: Option<&OsStr>, text: String) -> Result<String, Failure> {
    let Some(out) = out.filter(|out| *out != "-") else {
        return Ok(text);
    };
    let (given, path) = (Path::new(out), &store::resolved(Path::new(out)));
    let not_over = |what: &str| {
        let out = given.display();
        Failure::bad(format!("'{out}' is {what}; give '-o' another name"))
    };
    if wall.owns(path) {
        return Err(not_over("the wall's own file"));
    }
    drop(wall);
    if store::is_reserved(path) {
        return Err(not_over("the name of what lies beside a wall"));
    }
    match fs::metadata(given) {
        // A device or a pipe is written to and keeps its name.
        Ok(file) if !file.is_file() => {
            fs::File::create(given)
                .and_then(|mut file| file.write_all(text.as_bytes()))
                .map_err(|error| store::cannot_write(given, &error))?;
        }
        _ => {
            let folder = Folder::lock(path)?;
            if wall::is_kept(path) {
                return Err(not_over("a wall or a journal, which is not written over"));
            }
            folder.replace(&[(path, text.as_bytes())], path)?;
        }
    }
    Ok(String::new())
}
