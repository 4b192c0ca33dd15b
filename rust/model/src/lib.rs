//! A model of the library, written from the definitions alone and sharing nothing with it.
//!
//! It restates the words: meshes are sets of refined cells, "smallest" is adding what is missing
//! until nothing is, every label is read off the cells of the support, and every support off the
//! knots. Nothing is tuned beyond walking a rectangle instead of searching all cells for it, and
//! keeping the knots of a level.
//!
//! The calls are pure, but for a draft, which is handed in to be changed: a refusal is `Err` with its
//! number, and an accepted call answers the new tables and the two lists. The terms are those of the
//! literature; the scope document calls a mesh a wall, refining and coarsening splitting and joining,
//! admissible graded, reactivable joinable.

use knots::{Direction, Knots};
use std::collections::BTreeSet;
use std::rc::Rc;

mod cost;
pub mod draft;
pub mod file;
pub mod h_rule;
pub mod height;
pub mod knots;
pub mod planes;
pub mod projector;
pub mod rounds;
pub mod session;
pub mod shape;

#[derive(Clone, Copy, Debug, PartialEq, Eq)]
pub struct Plan {
    pub columns: u32,
    pub rows: u32,
    pub levels: u32,
    pub degree_across: u32,
    pub degree_up: u32,
    pub class: u32,
    /// Bit k marks the line of level 0 before column k as a corner.
    pub corners_across: u32,
    /// The same with rows.
    pub corners_up: u32,
}

/// A cell by its place. The order of the fields makes the order of places that of the numbers.
#[derive(Clone, Copy, Debug, PartialEq, Eq, PartialOrd, Ord)]
pub struct Cell {
    pub level: u32,
    pub row: u32,
    pub column: u32,
}

/// A function by its place, ordered as its number.
#[derive(Clone, Copy, Debug, PartialEq, Eq, PartialOrd, Ord)]
pub struct Function {
    pub level: u32,
    pub row: u32,
    pub column: u32,
}

#[derive(Clone, Copy, Debug, Default, PartialEq, Eq)]
pub struct Count {
    pub active_cells: u32,
    pub refined_cells: u32,
    pub active_functions: u32,
    pub area: u32,
}

/// What an accepted refining or coarsening call makes.
#[derive(Clone, Debug, PartialEq, Eq)]
pub struct Change {
    pub cells: Vec<u8>,
    pub functions: Vec<u8>,
    pub cell_list: Vec<u32>,
    pub function_list: Vec<u32>,
}

pub const ABSENT: u8 = 0;
pub const PASSIVE: u8 = 0;
pub const ACTIVE: u8 = 1;
pub const REFINED: u8 = 2;
pub const DEACTIVATED: u8 = 2;

// ---- The plan ----

impl Plan {
    /// Cells across on a level.
    fn width(self, level: u32) -> u32 {
        self.columns * 2u32.pow(level)
    }

    /// Cells up on a level.
    fn height(self, level: u32) -> u32 {
        self.rows * 2u32.pow(level)
    }

    /// The knots across on a level, and with them its functions across.
    pub fn across(self, level: u32) -> Rc<Knots> {
        Knots::of(self.direction_across(level))
    }

    /// The knots up on a level, and with them its functions up.
    pub fn up(self, level: u32) -> Rc<Knots> {
        Knots::of(self.direction_up(level))
    }

    fn direction_across(self, level: u32) -> Direction {
        let (columns, degree, corners) = (self.columns, self.degree_across, self.corners_across);
        Direction { columns, level, degree, corners }
    }

    fn direction_up(self, level: u32) -> Direction {
        let (columns, degree, corners) = (self.rows, self.degree_up, self.corners_up);
        Direction { columns, level, degree, corners }
    }

    /// All cells of all levels in the order of their numbers.
    pub fn cells(self) -> impl Iterator<Item = Cell> {
        (0..self.levels).flat_map(move |level| {
            (0..self.height(level)).flat_map(move |row| {
                (0..self.width(level)).map(move |column| Cell { level, row, column })
            })
        })
    }

    /// All functions of all levels in the order of their numbers.
    pub fn functions(self) -> impl Iterator<Item = Function> {
        (0..self.levels).flat_map(move |level| {
            let (across, up) = (self.across(level).functions(), self.up(level).functions());
            (0..up)
                .flat_map(move |row| (0..across).map(move |column| Function { level, row, column }))
        })
    }

    /// T, the number of cells of all levels. For a plan in range.
    pub fn cell_total(self) -> usize {
        self.cells_before(self.levels)
    }

    /// A·B·(4^k - 1)/3, the number of cells of the levels before k.
    fn cells_before(self, level: u32) -> usize {
        self.columns as usize * self.rows as usize * (4usize.pow(level) - 1) / 3
    }

    /// F, the number of functions of all levels. For a plan in range.
    pub fn function_total(self) -> usize {
        (0..self.levels).map(|level| self.functions_of_level(level)).sum()
    }

    fn functions_of_level(self, level: u32) -> usize {
        self.across(level).functions() as usize * self.up(level).functions() as usize
    }

    pub fn cell_number(self, cell: Cell) -> usize {
        self.cells_before(cell.level)
            + cell.row as usize * self.width(cell.level) as usize
            + cell.column as usize
    }

    pub fn function_number(self, function: Function) -> usize {
        let before: usize = (0..function.level).map(|level| self.functions_of_level(level)).sum();
        let across = self.across(function.level).functions() as usize;
        before + function.row as usize * across + function.column as usize
    }

    /// The cell with that number, which is to be below T.
    pub fn cell_at(self, number: usize) -> Cell {
        let mut level = 0;
        while number >= self.cells_before(level + 1) {
            level += 1;
        }
        let rest = number - self.cells_before(level);
        let width = self.width(level) as usize;
        Cell { level, row: (rest / width) as u32, column: (rest % width) as u32 }
    }

    /// The function with that number, which is to be below F.
    pub fn function_at(self, number: usize) -> Function {
        let mut rest = number;
        let mut level = 0;
        while rest >= self.functions_of_level(level) {
            rest -= self.functions_of_level(level);
            level += 1;
        }
        let across = self.across(level).functions() as usize;
        Function { level, row: (rest / across) as u32, column: (rest % across) as u32 }
    }

    pub fn children(self, cell: Cell) -> [Cell; 4] {
        let (level, row, column) = (cell.level + 1, 2 * cell.row, 2 * cell.column);
        [(0, 0), (0, 1), (1, 0), (1, 1)].map(|(up, across)| Cell {
            level,
            row: row + up,
            column: column + across,
        })
    }

    pub fn parent(self, cell: Cell) -> Option<Cell> {
        let level = cell.level.checked_sub(1)?;
        Some(Cell { level, row: cell.row / 2, column: cell.column / 2 })
    }

    /// The cells of the function's own level that it covers.
    pub fn support(self, function: Function) -> impl Iterator<Item = Cell> {
        let level = function.level;
        let rows = self.up(level).covered(function.row);
        let columns = self.across(level).covered(function.column);
        rows.flat_map(move |row| columns.clone().map(move |column| Cell { level, row, column }))
    }

    /// The functions of the cell's own level that cover it.
    fn functions_over(self, cell: Cell) -> Vec<Function> {
        let level = cell.level;
        let (across, up) = (self.across(level), self.up(level));
        let in_row = |row| {
            across.over(cell.column).iter().map(move |&column| Function { level, row, column })
        };
        up.over(cell.row).iter().flat_map(|&row| in_row(row)).collect()
    }

    /// The cells of this one's level that are covered, together with it, by a common function of that
    /// level.
    fn covered_with(self, cell: Cell) -> BTreeSet<Cell> {
        self.functions_over(cell).into_iter().flat_map(|function| self.support(function)).collect()
    }

    /// The cells that must be refined where this one, of level j, is: those of level j-m+1 that have a
    /// child covered, together with its ancestor at level j-m+2, by a common function of that level.
    pub fn neighbourhood(self, cell: Cell) -> BTreeSet<Cell> {
        if self.class == 0 || cell.level + 1 < self.class {
            return BTreeSet::new();
        }
        let children = self.covered_with(self.ancestor(cell, self.class - 2));
        children.into_iter().filter_map(|child| self.parent(child)).collect()
    }

    /// The points of a cell. Regions of whole cells of any levels are compared by points: these are
    /// the cells of the last level's grid, as row and column.
    pub fn points(self, cell: Cell) -> impl Iterator<Item = (u32, u32)> {
        let scale = 2u32.pow(self.levels - 1 - cell.level);
        let part = move |x: u32| x * scale..(x + 1) * scale;
        part(cell.row).flat_map(move |row| part(cell.column).map(move |column| (row, column)))
    }

    fn ancestor(self, cell: Cell, levels_up: u32) -> Cell {
        (0..levels_up).fold(cell, |cell, _| self.parent(cell).expect("a level above"))
    }
}

/// Whether corners are marked on lines between cells alone: bits 1 to n-1.
fn are_between(corners: u32, n: u32) -> bool {
    (0..32).filter(|bit| corners >> bit & 1 == 1).all(|bit| (1..n).contains(&bit))
}

// ---- The two tables ----

/// Refusals 1 and 2.
pub fn refuse_plan(plan: Plan) -> Result<(), u32> {
    let in_range = (1..=16).contains(&plan.columns)
        && (1..=16).contains(&plan.rows)
        && (1..=8).contains(&plan.levels)
        && (1..=4).contains(&plan.degree_across)
        && (1..=4).contains(&plan.degree_up)
        && (plan.class == 0 || (2..=8).contains(&plan.class))
        && are_between(plan.corners_across, plan.columns)
        && are_between(plan.corners_up, plan.rows);
    if !in_range {
        return Err(1);
    }
    if plan.cell_total() > 21_845 {
        return Err(2);
    }
    Ok(())
}

/// Refusals 1 to 3.
fn refuse_sizes(plan: Plan, cells: usize, functions: usize) -> Result<(), u32> {
    refuse_plan(plan)?;
    if cells != plan.cell_total() || functions != plan.function_total() {
        return Err(3);
    }
    Ok(())
}

/// Whether the bytes, T of them, are a mesh.
pub fn is_mesh(plan: Plan, cells: &[u8]) -> bool {
    let byte = |cell| cells[plan.cell_number(cell)];
    let last = plan.levels - 1;
    cells.iter().all(|&byte| matches!(byte, ABSENT | ACTIVE | REFINED))
        && plan.cells().all(|cell| cell.level != 0 || byte(cell) != ABSENT)
        && plan.cells().all(|cell| cell.level != last || byte(cell) != REFINED)
        && plan.cells().filter(|cell| cell.level != last).all(|cell| {
            let mut children = plan.children(cell).into_iter();
            match byte(cell) {
                REFINED => children.all(|child| byte(child) != ABSENT),
                _ => children.all(|child| byte(child) == ABSENT),
            }
        })
}

/// Whether every refined cell has its neighbourhood refined.
pub fn is_admissible(plan: Plan, cells: &[u8]) -> bool {
    have_refined(plan, cells, |cell| plan.neighbourhood(cell))
}

/// Whether every refined cell has these cells refined.
fn have_refined(plan: Plan, cells: &[u8], asked_for: impl Fn(Cell) -> BTreeSet<Cell>) -> bool {
    let refined = |cell| cells[plan.cell_number(cell)] == REFINED;
    plan.cells().filter(|&cell| refined(cell)).all(|cell| asked_for(cell).into_iter().all(refined))
}

/// The function table that the cell table fixes.
pub fn labels(plan: Plan, cells: &[u8]) -> Vec<u8> {
    let byte = |cell| cells[plan.cell_number(cell)];
    plan.functions()
        .map(|function| {
            if plan.support(function).any(|cell| byte(cell) == ABSENT) {
                PASSIVE
            } else if plan.support(function).all(|cell| byte(cell) == REFINED) {
                DEACTIVATED
            } else {
                ACTIVE
            }
        })
        .collect()
}

/// The refined cells of a cell table.
pub fn refined_cells(plan: Plan, cells: &[u8]) -> BTreeSet<Cell> {
    plan.cells().filter(|&cell| cells[plan.cell_number(cell)] == REFINED).collect()
}

/// The cell table of the mesh with these refined cells: others are present where they are of level 0
/// or have a refined parent.
pub fn table(plan: Plan, refined: &BTreeSet<Cell>) -> Vec<u8> {
    plan.cells()
        .map(|cell| {
            if refined.contains(&cell) {
                REFINED
            } else if plan.parent(cell).is_none_or(|parent| refined.contains(&parent)) {
                ACTIVE
            } else {
                ABSENT
            }
        })
        .collect()
}

/// The refined cells of the smallest admissible mesh in which these are refined: whatever a refined
/// cell asks for (its parent, for it is present; its neighbourhood) is added until nothing is missing.
pub fn smallest(plan: Plan, base: BTreeSet<Cell>) -> BTreeSet<Cell> {
    smallest_with(plan, base, |cell| plan.neighbourhood(cell))
}

/// The same, where a refined cell asks for its parent and these cells.
fn smallest_with(
    plan: Plan,
    base: BTreeSet<Cell>,
    asked_for: impl Fn(Cell) -> BTreeSet<Cell>,
) -> BTreeSet<Cell> {
    let mut refined = base;
    loop {
        let missing: Vec<Cell> = refined
            .iter()
            .flat_map(|&cell| plan.parent(cell).into_iter().chain(asked_for(cell)))
            .filter(|cell| !refined.contains(cell))
            .collect();
        if missing.is_empty() {
            return refined;
        }
        refined.extend(missing);
    }
}

/// An active cell and the levels of the functions over it, those whose support has a point of the
/// cell: `levels[label]` has bit k set where a function of level k with that label is over it.
#[derive(Clone, Copy, Debug, PartialEq, Eq)]
pub struct Over {
    pub cell: Cell,
    pub levels: [u8; 3],
}

/// What is over each active cell. For tables that check passes.
pub fn over_active_cells(plan: Plan, cells: &[u8], functions: &[u8]) -> Vec<Over> {
    let (rows, columns) = (plan.height(plan.levels - 1), plan.width(plan.levels - 1));
    let at = |(row, column): (u32, u32)| (row * columns + column) as usize;
    let mut over_point = vec![[0u8; 3]; (rows * columns) as usize];
    for (function, &label) in plan.functions().zip(functions) {
        for point in plan.support(function).flat_map(|cell| plan.points(cell)) {
            over_point[at(point)][label as usize] |= 1 << function.level;
        }
    }
    let mut over = Vec::new();
    for (cell, _) in plan.cells().zip(cells).filter(|(_, &byte)| byte == ACTIVE) {
        let mut levels = [0; 3];
        for point in plan.points(cell) {
            for (all, one) in levels.iter_mut().zip(over_point[at(point)]) {
                *all |= one;
            }
        }
        over.push(Over { cell, levels });
    }
    over
}

// ---- The calls ----

/// Both tables of the coarsest mesh.
pub fn open(plan: Plan, cells: usize, functions: usize) -> Result<(Vec<u8>, Vec<u8>), u32> {
    refuse_sizes(plan, cells, functions)?;
    let first = |level| if level == 0 { 1 } else { 0 };
    Ok((
        plan.cells().map(|cell| first(cell.level)).collect(),
        plan.functions().map(|function| first(function.level)).collect(),
    ))
}

pub fn check(plan: Plan, cells: &[u8], functions: &[u8]) -> Result<(), u32> {
    check_by(is_admissible, plan, cells, functions)
}

/// Refusals 1 to 6, where that is what 5 asks for.
fn check_by(
    is_admissible: fn(Plan, &[u8]) -> bool,
    plan: Plan,
    cells: &[u8],
    functions: &[u8],
) -> Result<(), u32> {
    refuse_sizes(plan, cells.len(), functions.len())?;
    if !is_mesh(plan, cells) {
        return Err(4);
    }
    if !is_admissible(plan, cells) {
        return Err(5);
    }
    if labels(plan, cells) != functions {
        return Err(6);
    }
    Ok(())
}

pub fn count(plan: Plan, cells: &[u8], functions: &[u8]) -> Result<Count, u32> {
    check(plan, cells, functions)?;
    let mut count = Count::default();
    for (cell, &byte) in plan.cells().zip(cells) {
        match byte {
            ACTIVE => {
                count.active_cells += 1;
                count.area += 4u32.pow(plan.levels - 1 - cell.level);
            }
            REFINED => count.refined_cells += 1,
            _ => {}
        }
    }
    count.active_functions = functions.iter().filter(|&&byte| byte == ACTIVE).count() as u32;
    Ok(count)
}

/// A mesh that check passes, with what the calls say of its cells and functions.
pub struct Mesh<'a> {
    plan: Plan,
    cells: &'a [u8],
    functions: &'a [u8],
}

impl<'a> Mesh<'a> {
    pub fn new(plan: Plan, cells: &'a [u8], functions: &'a [u8]) -> Result<Self, u32> {
        check(plan, cells, functions)?;
        Ok(Mesh { plan, cells, functions })
    }

    pub fn cell(&self, cell: Cell) -> u8 {
        self.cells[self.plan.cell_number(cell)]
    }

    pub fn function(&self, function: Function) -> u8 {
        self.functions[self.plan.function_number(function)]
    }

    /// Refined, with four active children.
    pub fn is_reactivable(&self, cell: Cell) -> bool {
        self.cell(cell) == REFINED
            && self.plan.children(cell).into_iter().all(|child| self.cell(child) == ACTIVE)
    }

    /// The marked cells, where each is of the kind named and, if the last level is refused, above it.
    fn cell_marks(
        &self,
        marks: &[u32],
        of_kind: impl Fn(Cell) -> bool,
        last_level_refused: bool,
    ) -> Result<BTreeSet<Cell>, u32> {
        let mut marked = BTreeSet::new();
        for &mark in marks {
            if mark as usize >= self.cells.len() {
                return Err(7);
            }
            let cell = self.plan.cell_at(mark as usize);
            if !of_kind(cell) {
                return Err(8);
            }
            if last_level_refused && cell.level == self.plan.levels - 1 {
                return Err(9);
            }
            marked.insert(cell);
        }
        Ok(marked)
    }

    /// The marked cells, where refining by cells takes each.
    fn cells_to_refine(&self, marks: &[u32]) -> Result<BTreeSet<Cell>, u32> {
        self.cell_marks(marks, |cell| self.cell(cell) == ACTIVE, true)
    }

    /// The marked functions, as `cell_marks`.
    fn function_marks(
        &self,
        marks: &[u32],
        of_kind: impl Fn(Function) -> bool,
        last_level_refused: bool,
    ) -> Result<BTreeSet<Function>, u32> {
        let mut marked = BTreeSet::new();
        for &mark in marks {
            if mark as usize >= self.functions.len() {
                return Err(7);
            }
            let function = self.plan.function_at(mark as usize);
            if !of_kind(function) {
                return Err(8);
            }
            if last_level_refused && function.level == self.plan.levels - 1 {
                return Err(9);
            }
            marked.insert(function);
        }
        Ok(marked)
    }

    fn refine(
        &self,
        marked: BTreeSet<Cell>,
        cell_room: usize,
        function_room: usize,
    ) -> Result<Change, u32> {
        let mut base = refined_cells(self.plan, self.cells);
        base.extend(marked);
        let cells = table(self.plan, &smallest(self.plan, base));
        let functions = labels(self.plan, &cells);
        let cell_list = only_in_second(self.cells, &cells, REFINED);
        let function_list = only_in_second(self.functions, &functions, DEACTIVATED);
        fit(Change { cells, functions, cell_list, function_list }, cell_room, function_room)
    }

    fn coarsen(
        &self,
        marked: BTreeSet<Cell>,
        cell_room: usize,
        function_room: usize,
    ) -> Result<Change, u32> {
        let base = &refined_cells(self.plan, self.cells) - &marked;
        let cells = table(self.plan, &smallest(self.plan, base));
        let functions = labels(self.plan, &cells);
        let cell_list = only_in_second(&cells, self.cells, REFINED);
        let function_list = only_in_second(&functions, self.functions, DEACTIVATED);
        fit(Change { cells, functions, cell_list, function_list }, cell_room, function_room)
    }
}

/// The numbers whose byte is the given one in the second table and not in the first, rising.
fn only_in_second(first: &[u8], second: &[u8], byte: u8) -> Vec<u32> {
    (0..first.len())
        .filter(|&number| first[number] != byte && second[number] == byte)
        .map(|number| number as u32)
        .collect()
}

fn fit(change: Change, cell_room: usize, function_room: usize) -> Result<Change, u32> {
    if cell_room < change.cell_list.len() {
        return Err(10);
    }
    if function_room < change.function_list.len() {
        return Err(11);
    }
    Ok(change)
}

/// The shape of the four calls: plan, cells, functions, marks, entries of the cell list, entries of
/// the function list.
pub type Call = fn(Plan, &[u8], &[u8], &[u32], usize, usize) -> Result<Change, u32>;

pub fn refine_cells(
    plan: Plan,
    cells: &[u8],
    functions: &[u8],
    marks: &[u32],
    cell_room: usize,
    function_room: usize,
) -> Result<Change, u32> {
    let mesh = Mesh::new(plan, cells, functions)?;
    mesh.refine(mesh.cells_to_refine(marks)?, cell_room, function_room)
}

pub fn refine_functions(
    plan: Plan,
    cells: &[u8],
    functions: &[u8],
    marks: &[u32],
    cell_room: usize,
    function_room: usize,
) -> Result<Change, u32> {
    let mesh = Mesh::new(plan, cells, functions)?;
    let marked = mesh.function_marks(marks, |f| mesh.function(f) == ACTIVE, true)?;
    let meant = marked
        .into_iter()
        .flat_map(|function| plan.support(function))
        .filter(|&cell| mesh.cell(cell) == ACTIVE)
        .collect();
    mesh.refine(meant, cell_room, function_room)
}

pub fn coarsen_cells(
    plan: Plan,
    cells: &[u8],
    functions: &[u8],
    marks: &[u32],
    cell_room: usize,
    function_room: usize,
) -> Result<Change, u32> {
    let mesh = Mesh::new(plan, cells, functions)?;
    let marked = mesh.cell_marks(marks, |cell| mesh.is_reactivable(cell), false)?;
    mesh.coarsen(marked, cell_room, function_room)
}

pub fn coarsen_functions(
    plan: Plan,
    cells: &[u8],
    functions: &[u8],
    marks: &[u32],
    cell_room: usize,
    function_room: usize,
) -> Result<Change, u32> {
    let mesh = Mesh::new(plan, cells, functions)?;
    let of_kind = |function| {
        mesh.function(function) == DEACTIVATED
            && plan.support(function).any(|cell| mesh.is_reactivable(cell))
    };
    let marked = mesh.function_marks(marks, of_kind, false)?;
    let under_unmarked: BTreeSet<Cell> = plan
        .functions()
        .filter(|&f| mesh.function(f) == DEACTIVATED && !marked.contains(&f))
        .flat_map(|function| plan.support(function))
        .collect();
    let meant = marked
        .into_iter()
        .flat_map(|function| plan.support(function))
        .filter(|&cell| mesh.is_reactivable(cell) && !under_unmarked.contains(&cell))
        .collect();
    mesh.coarsen(meant, cell_room, function_room)
}

#[cfg(test)]
mod tests {
    use super::*;

    pub fn plan(numbers: [u32; 8]) -> Plan {
        let [columns, rows, levels, degree_across, degree_up, class, corners_across, corners_up] =
            numbers;
        Plan { columns, rows, levels, degree_across, degree_up, class, corners_across, corners_up }
    }

    /// Plans of all degrees, with all corners that they can have.
    fn plans_of(columns: u32, rows: u32, levels: u32, class: u32) -> Vec<Plan> {
        let mut plans = vec![];
        for (p, q) in (1..=4).flat_map(|p| (1..=4).map(move |q| (p, q))) {
            for across in (0..1 << (columns - 1)).map(|set| set << 1) {
                for up in (0..1 << (rows - 1)).map(|set| set << 1) {
                    plans.push(plan([columns, rows, levels, p, q, class, across, up]));
                }
            }
        }
        plans
    }

    /// Plans of few cells.
    fn plans() -> Vec<Plan> {
        [(1, 1, 3), (2, 1, 2), (3, 1, 3), (3, 2, 2), (4, 3, 2)]
            .into_iter()
            .flat_map(|(columns, rows, levels)| plans_of(columns, rows, levels, 2))
            .collect()
    }

    /// Plans of classes 2, 3 and 4, with cells that have a neighbourhood.
    pub fn plans_of_classes() -> Vec<Plan> {
        [
            (3, 1, 3, 2),
            (3, 2, 2, 2),
            (2, 1, 4, 2),
            (2, 1, 4, 3),
            (3, 2, 3, 3),
            (1, 3, 3, 3),
            (3, 1, 4, 4),
            (1, 2, 4, 4),
        ]
        .into_iter()
        .flat_map(|(columns, rows, levels, class)| plans_of(columns, rows, levels, class))
        .collect()
    }

    /// Without corners every plan is as the scope document has it.
    #[test]
    fn without_corners_as_the_scope_document_has_it() {
        for plan in plans().into_iter().filter(|plan| plan.corners_across | plan.corners_up == 0) {
            let (p, q) = (plan.degree_across, plan.degree_up);
            let of_level = |k: u32| ((plan.columns << k) + p) * ((plan.rows << k) + q);
            let total: u32 = (0..plan.levels).map(of_level).sum();
            assert_eq!(plan.function_total(), total as usize);
            for function in plan.functions() {
                let Function { level, row, column } = function;
                let (n, m) = (plan.width(level), plan.height(level));
                let rows = row.saturating_sub(q)..=row.min(m - 1);
                let columns = column.saturating_sub(p)..=column.min(n - 1);
                let covered = |cell: &Cell| {
                    cell.level == level
                        && rows.contains(&cell.row)
                        && columns.contains(&cell.column)
                };
                assert!(plan.support(function).eq(plan.cells().filter(covered)), "{function:?}");
            }
        }
    }

    /// Req 12 word by word: "cells of level j-m+1 that have a child covered, together with the split
    /// cell's ancestor at level j-m+2, by a common function of that level". All cells of the one level
    /// and all functions of the other are tried.
    #[test]
    fn neighbourhoods_word_by_word() {
        let mut with_corners = 0;
        for plan in plans_of_classes() {
            let m = plan.class;
            for cell in plan.cells().filter(|cell| cell.level + 1 >= m) {
                let j = cell.level;
                let mut ancestor = cell;
                while ancestor.level > j + 2 - m {
                    ancestor = plan.parent(ancestor).expect("a level above");
                }
                let of_that_level = plan.functions().filter(|function| function.level == j + 2 - m);
                let supports: Vec<Vec<Cell>> =
                    of_that_level.map(|function| plan.support(function).collect()).collect();
                let is_near = |other: &Cell| {
                    plan.children(*other).into_iter().any(|child| {
                        let both = |support: &Vec<Cell>| {
                            support.contains(&child) && support.contains(&ancestor)
                        };
                        supports.iter().any(both)
                    })
                };
                let near = plan.cells().filter(|other| other.level == j + 1 - m).filter(is_near);
                assert!(plan.neighbourhood(cell).into_iter().eq(near), "{plan:?} {cell:?}");
                with_corners += u32::from(plan.corners_across | plan.corners_up != 0);
            }
            let first = plan.cells().filter(|cell| cell.level + 1 < m);
            assert!(first.into_iter().all(|cell| plan.neighbourhood(cell).is_empty()));
        }
        assert!(with_corners > 10_000, "{with_corners}");
    }

    /// Without corners, in numbers: the child is at most p columns and q rows from the ancestor.
    #[test]
    fn neighbourhoods_without_corners() {
        let smooth = |plan: &Plan| plan.corners_across | plan.corners_up == 0;
        for plan in plans_of_classes().into_iter().filter(smooth) {
            let (p, q, m) = (plan.degree_across, plan.degree_up, plan.class);
            for cell in plan.cells() {
                let (row, column) = (cell.row >> (m - 2), cell.column >> (m - 2));
                let is_near = |other: &Cell| {
                    let close = |child: Cell| {
                        child.row.abs_diff(row) <= q && child.column.abs_diff(column) <= p
                    };
                    other.level + m == cell.level + 1
                        && plan.children(*other).into_iter().any(close)
                };
                let near = plan.cells().filter(is_near);
                assert!(plan.neighbourhood(cell).into_iter().eq(near), "{plan:?} {cell:?}");
            }
        }
    }

    /// Away from the edges, and without corners, a neighbourhood is p+1 columns by q+1 rows: the columns
    /// x-p to x+p stand on p+1 columns, whether x is even or odd.
    #[test]
    fn the_size_of_a_neighbourhood() {
        for (p, q) in (1..=4).flat_map(|p| (1..=4).map(move |q| (p, q))) {
            for class in 2..=4 {
                let plan = plan([8, 8, class, p, q, class, 0, 0]);
                let scale = 1 << (class - 2);
                for (row, column) in [(6, 6), (6, 7), (7, 6), (7, 7)] {
                    let cell = Cell { level: class - 1, row: row * scale, column: column * scale };
                    let near = plan.neighbourhood(cell);
                    assert_eq!(near.len() as u32, (p + 1) * (q + 1), "{plan:?} {cell:?}");
                }
                let first = Cell { level: class - 1, row: 0, column: 0 };
                // Columns 0 to p, on columns 0 to p/2.
                assert_eq!(plan.neighbourhood(first).len() as u32, (p / 2 + 1) * (q / 2 + 1));
            }
        }
    }

    #[test]
    fn numbers_of_functions() {
        for plan in plans() {
            assert_eq!(plan.functions().count(), plan.function_total());
            for (number, function) in plan.functions().enumerate() {
                assert_eq!(plan.function_number(function), number);
                assert_eq!(plan.function_at(number), function);
            }
        }
    }

    /// Every cell has as many functions over it as without corners.
    #[test]
    fn functions_over_a_cell() {
        for plan in plans() {
            let mut over = vec![0; plan.cell_total()];
            for cell in plan.functions().flat_map(|function| plan.support(function)) {
                over[plan.cell_number(cell)] += 1;
            }
            let each = (plan.degree_across + 1) * (plan.degree_up + 1);
            assert!(over.iter().all(|&many| many == each), "{plan:?}");
        }
    }

    /// Where the degree is 1 a corner is a line like others.
    #[test]
    fn corners_of_degree_1() {
        for plan in plans() {
            let across = if plan.degree_across == 1 { 0 } else { plan.corners_across };
            let up = if plan.degree_up == 1 { 0 } else { plan.corners_up };
            let plain = Plan { corners_across: across, corners_up: up, ..plan };
            assert_eq!(plan.function_total(), plain.function_total());
            for function in plan.functions() {
                assert!(plan.support(function).eq(plain.support(function)));
            }
            for cell in plan.cells() {
                assert_eq!(plan.neighbourhood(cell), plain.neighbourhood(cell));
            }
        }
    }

    /// Of all plans of so many cells, with every line a corner and without any.
    fn most_functions(cells: usize, all: bool) -> usize {
        let sizes = (1..=16).flat_map(|columns| (1..=16).map(move |rows| (columns, rows)));
        sizes
            .flat_map(|(columns, rows)| (1..=8).map(move |levels| (columns, rows, levels)))
            .map(|(columns, rows, levels)| {
                let corners = |n: u32| if all { (1 << n) - 2 } else { 0 };
                plan([columns, rows, levels, 4, 4, 0, corners(columns), corners(rows)])
            })
            .filter(|plan| plan.cell_total() <= cells)
            .map(Plan::function_total)
            .max()
            .expect("a plan")
    }

    #[test]
    fn the_most_functions() {
        assert_eq!(plan([16, 16, 4, 4, 4, 0, 0xfffe, 0xfffe]).function_total(), 54_884);
        assert_eq!(most_functions(21_845, true), 54_884);
        assert_eq!(most_functions(21_845, false), 26_220);
        // Those of a session.
        assert_eq!(most_functions(session::WALL_CELLS, true), 18_001);
        assert_eq!(most_functions(session::WALL_CELLS, false), 5_784);
    }

    /// Bits 1 to n-1, and no others.
    #[test]
    fn corners_out_of_range() {
        for columns in 1..=16 {
            for bit in 0..32 {
                let good = bit >= 1 && bit < columns;
                let expected = if good { Ok(()) } else { Err(1) };
                assert_eq!(refuse_plan(plan([columns, 1, 3, 2, 2, 2, 1 << bit, 0])), expected);
                assert_eq!(refuse_plan(plan([1, columns, 3, 2, 2, 2, 0, 1 << bit])), expected);
                let all = ((1 << columns) - 2) | (1 << bit);
                assert_eq!(refuse_plan(plan([columns, 1, 3, 2, 2, 2, all, 0])), expected);
            }
        }
    }
}
