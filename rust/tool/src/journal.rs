//! The journal of a wall: a text with the file of the wall that it begins with, and a line for each
//! change since.
//!
//! ```text
//! wallmirror journal 1: 03 01 03 01 01 02 00
//! split 0;0;0 4
//! split 4;1 4;1 5
//! back 1
//! ```
//!
//! The head has the bytes of that file. A call has its line as in a session, and its two lists; `back`
//! has how many of the calls before it that were not yet taken back it takes back. A journal is only
//! ever added to. It does not know what was before the wall that it begins with.

use crate::words;
use wallmirror::{Call, Cell, Function, Lists, Made, Mesh, Refusal, Season, Undone};

const HEAD: &str = "wallmirror journal 1:";

/// A line of the journal behind its head.
#[derive(Debug, Clone, PartialEq, Eq)]
pub enum Entry {
    /// A call that was accepted.
    Call(Made),
    /// So many calls were taken back.
    Back(usize),
}

impl Entry {
    fn line(&self) -> String {
        match self {
            Entry::Call(made) => {
                format!("{};{}", words::line(&made.call), words::lists(&made.lists))
            }
            Entry::Back(count) => format!("back {count}"),
        }
    }

    /// The entry of a line. `None` if it is not just as [`Entry::line`] writes it.
    fn read(line: &str) -> Option<Entry> {
        let entry = match line.strip_prefix("back ") {
            Some(count) => Entry::Back(words::number(count)? as usize),
            None => Entry::Call(read_made(line)?),
        };
        (entry.line() == line).then_some(entry)
    }
}

fn read_made(line: &str) -> Option<Made> {
    let [call, cells, functions] = line.split(';').collect::<Vec<_>>()[..] else {
        return None;
    };
    let (word, marks) = call.split_once(' ').unwrap_or((call, ""));
    let call = words::call(word, numbers(marks)?)?;
    let cells = numbers(cells)?.into_iter().map(Cell).collect();
    let functions = numbers(functions)?.into_iter().map(Function).collect();
    Some(Made { call, lists: Lists { cells, functions } })
}

/// Numbers one space apart, also none.
fn numbers(text: &str) -> Option<Vec<u32>> {
    match text {
        "" => Some(vec![]),
        _ => text.split(' ').map(words::number).collect(),
    }
}

/// What is wrong with a journal, and what to do.
#[derive(Debug)]
pub struct Wrong {
    pub said: String,
    pub to_do: &'static str,
}

impl Wrong {
    /// A call that has not its lists now, and may have had them by the rule of before.
    fn other_rule() -> Wrong {
        let said = "has other lists than its call gives, as after a version before 0.12, which graded by another rule";
        Wrong { said: said.to_string(), to_do: "docs/TOOL.md says how to keep its season" }
    }

    fn in_line(self, number: usize) -> Wrong {
        Wrong { said: format!("line {number} {}", self.said), ..self }
    }
}

impl From<String> for Wrong {
    fn from(said: String) -> Wrong {
        Wrong { said, to_do: "put the right one back" }
    }
}

impl From<&str> for Wrong {
    fn from(said: &str) -> Wrong {
        said.to_string().into()
    }
}

/// A season with its journal.
#[derive(Debug)]
pub struct Journal {
    season: Season,
    entries: Vec<Entry>,
    /// How many of the entries are calls.
    made: usize,
    /// Of the season's calls, counted with those that were taken back.
    numbers: Vec<usize>,
    text: String,
    /// The wall before the last entry.
    before: Option<Mesh>,
}

impl Journal {
    /// The journal of a season that begins with this wall.
    pub fn begin(first: Mesh) -> Result<Journal, Refusal> {
        let bytes: Vec<String> =
            first.to_file()?.iter().map(|byte| format!("{byte:02x}")).collect();
        let text = format!("{HEAD} {}\n", bytes.join(" "));
        let season = Season::new(first)?;
        Ok(Journal { season, entries: vec![], made: 0, numbers: vec![], text, before: None })
    }

    /// Makes the calls of a journal once more, and answers the journal if they list what it says, or
    /// else what is wrong with it.
    pub fn read(text: &[u8]) -> Result<Journal, Wrong> {
        let text = std::str::from_utf8(text).map_err(|_| "it is not a text")?;
        let text = text.strip_suffix('\n').ok_or("its last line is cut off")?;
        let mut lines = text.split('\n').zip(1..);
        let head = lines.next().and_then(|(head, _)| first_file(head));
        let first = head.ok_or("line 1 is not the head of a journal")?;
        let first = Mesh::from_file(&first).map_err(|refusal| {
            format!("the wall in line 1 is none ({})", words::refusal(refusal))
        })?;
        let mut journal = Journal::begin(first).map_err(|refusal| refusal.to_string())?;
        let mut lines = lines.peekable();
        while let Some((line, number)) = lines.next() {
            if lines.peek().is_none() {
                journal.before = Some(journal.season.mesh().clone());
            }
            journal.add_read(line).map_err(|wrong| wrong.in_line(number))?;
        }
        Ok(journal)
    }

    /// Does once more what a line says, or answers what is wrong with the line.
    fn add_read(&mut self, line: &str) -> Result<(), Wrong> {
        match Entry::read(line).ok_or("is not one of a journal")? {
            Entry::Back(count) => {
                self.add_back(count).ok_or("takes back too many calls")?;
            }
            Entry::Call(made) => {
                let lists = self.add_call(made.call.clone()).map_err(|refusal| {
                    format!("has a call that gets {}", words::refusal(refusal))
                })?;
                if lists != made.lists {
                    return Err(match self.may_be_of_before(&made, &lists) {
                        true => Wrong::other_rule(),
                        false => "has other lists than its call gives".into(),
                    });
                }
            }
        }
        Ok(())
    }

    /// Whether a call that was just made, with these lists, may have had its own ones before version
    /// 0.12. The rule of then asked for all cells that this one asks for and for more. So a split
    /// listed all that it lists now, a join nothing else, and the cells of a list, as marks, give it
    /// by both rules.
    fn may_be_of_before(&mut self, made: &Made, lists: &Lists) -> bool {
        let cells = made.lists.cells.clone();
        let (by_cells, part, whole) = match made.call.refines() {
            true => (Call::RefineCells(cells), &lists.cells, &made.lists.cells),
            false => (Call::CoarsenCells(cells), &made.lists.cells, &lists.cells),
        };
        let graded = self.season.mesh().plan.admissibility_class != 0;
        let undone = self.season.undo().is_ok();
        graded
            && undone
            && self.season.make(by_cells) == Ok(&made.lists)
            && part.iter().all(|cell| whole.binary_search(cell).is_ok())
    }

    pub fn season(&self) -> &Season {
        &self.season
    }

    pub fn entries(&self) -> &[Entry] {
        &self.entries
    }

    /// The numbers of the calls that were not taken back: the first call of the journal is 1.
    pub fn numbers(&self) -> &[usize] {
        &self.numbers
    }

    /// The wall before the last entry. `None` if there is no entry.
    pub fn before(&self) -> Option<&Mesh> {
        self.before.as_ref()
    }

    /// How many entries came after this was the wall, for the last time. `None` if it never was.
    pub fn entries_since(&self, mesh: &Mesh) -> Option<usize> {
        let mut again = Journal::begin(self.season.first().clone()).ok()?;
        let mut last = (again.season.mesh() == mesh).then_some(0);
        for line in self.text.lines().skip(1) {
            again.add_read(line).ok()?;
            if again.season.mesh() == mesh {
                last = Some(again.entries.len());
            }
        }
        last.map(|last| self.entries.len() - last)
    }

    /// What the calls that were not taken back make of the first wall.
    pub fn made_again(&self) -> Mesh {
        let mut mesh = self.season.first().clone();
        for made in self.season.calls() {
            // They were accepted once, on the same walls.
            let _ = mesh.make(&made.call);
        }
        mesh
    }

    /// What stands in the file.
    pub fn text(&self) -> &str {
        &self.text
    }

    /// Makes a call and adds it, if it is accepted.
    pub fn make(&mut self, call: Call) -> Result<Lists, Refusal> {
        let before = self.season.mesh().clone();
        let lists = self.add_call(call)?;
        self.before = Some(before);
        Ok(lists)
    }

    /// Makes calls by cells that lead to another wall of the same plan, and adds them. The cells that
    /// are split here alone are joined, the finest first; then those that are split there alone are
    /// split, the coarsest first. The cells that are split in both are those of a wall of the class,
    /// so each call changes its marks and nothing else.
    pub fn lead_to(&mut self, mesh: &Mesh) -> Result<(), Refusal> {
        let from = self.season.mesh().clone();
        let levels = 0..mesh.plan.levels;
        let joins = levels.clone().rev().map(|level| words::join(split_in(&from, mesh, level)));
        let splits = levels.map(|level| words::split(split_in(mesh, &from, level)));
        let mut calls = joins.chain(splits).filter(|call| !words::marks(call).is_empty());
        calls.try_for_each(|call| self.make(call).map(drop))
    }

    fn add_call(&mut self, call: Call) -> Result<Lists, Refusal> {
        let lists = self.season.make(call.clone())?.clone();
        self.made += 1;
        self.numbers.push(self.made);
        self.add(Entry::Call(Made { call, lists: lists.clone() }));
        Ok(lists)
    }

    /// Takes the last calls back, the last one first, and adds that. `None` if there are not so many,
    /// or none is asked for.
    pub fn back(&mut self, count: usize) -> Option<Vec<Undone>> {
        let before = self.season.mesh().clone();
        let undone = self.add_back(count)?;
        self.before = Some(before);
        Some(undone)
    }

    fn add_back(&mut self, count: usize) -> Option<Vec<Undone>> {
        if count == 0 || count > self.season.calls().len() {
            return None;
        }
        let undo = |_| self.season.undo().expect("a journal opens no draft");
        let undone = (0..count).map_while(undo).collect();
        self.numbers.truncate(self.season.calls().len());
        self.add(Entry::Back(count));
        Some(undone)
    }

    fn add(&mut self, entry: Entry) {
        self.text += &entry.line();
        self.text.push('\n');
        self.entries.push(entry);
    }
}

/// The cells of a level that are split in the one wall and not in the other.
fn split_in(one: &Mesh, other: &Mesh, level: u32) -> Vec<u32> {
    let cells = one.plan.cells_on(level).unwrap_or(0..0);
    let is_split = |mesh: &Mesh, cell: u32| mesh.cells[cell as usize] == 2;
    cells.filter(|&cell| is_split(one, cell) && !is_split(other, cell)).collect()
}

/// The bytes of the first wall's file in the head.
fn first_file(head: &str) -> Option<Vec<u8>> {
    let bytes = head.strip_prefix(HEAD)?.strip_prefix(' ')?.split(' ');
    let byte = |text: &str| {
        let hex = |b: u8| b.is_ascii_digit() || (b'a'..=b'f').contains(&b);
        (text.len() == 2 && text.bytes().all(hex)).then(|| u8::from_str_radix(text, 16).ok())?
    };
    bytes.map(byte).collect()
}
