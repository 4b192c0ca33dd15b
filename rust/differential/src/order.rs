//! Inputs with faults: of any of them, the one that is found is the first in the order of the call.

use crate::{Kind, Outcome, Tables};
use model::{Cell, ACTIVE, REFINED};
use std::fmt::Debug;
use Kind::*;

/// What a call answered, with what it wrote to lists.
pub trait Answered {
    /// 0, or that of the refusal.
    fn number(&self) -> u32;
}

impl Answered for Outcome {
    fn number(&self) -> u32 {
        self.number
    }
}

impl<T> Answered for Result<T, u32> {
    fn number(&self) -> u32 {
        *self.as_ref().err().unwrap_or(&0)
    }
}

/// All that a call can be handed.
pub trait Lendable: Clone + PartialEq {
    type Call: Copy + Debug;
    type Outcome: Answered;

    /// Makes the call. Everything is then as it left it.
    fn make(&mut self, call: Self::Call) -> Self::Outcome;

    /// The wrapper's call does on guarded pages what was seen of the library's: this outcome, and
    /// then this input.
    fn expect_on_pages(&self, call: Self::Call, outcome: &Self::Outcome, then: &Self);
}

/// The same, with marks and both lists of a refining or coarsening call among it.
pub trait Marked: Lendable {
    fn marks(&mut self) -> &mut Vec<u32>;

    /// The cell list and the function list.
    fn lists(&mut self) -> [&mut Vec<u32>; 2];
}

/// Something that is put wrong, so that a call gives this refusal where nothing else is.
pub type Fault<Input> = (u32, fn(&mut Input));

/// With all faults, then without the first, then without the first two, until there is none.
pub fn expect_in_order<I: Lendable>(call: I::Call, good: &I, faults: &[Fault<I>]) {
    for mended in 0..=faults.len() {
        let mut input = good.clone();
        for (_, fault) in faults[mended..].iter().rev() {
            fault(&mut input);
        }
        let before = input.clone();
        let number = faults.get(mended).map_or(0, |fault| fault.0);
        let outcome = input.make(call);
        assert_eq!(outcome.number(), number, "{call:?} with {mended} mended");
        before.expect_on_pages(call, &outcome, &input);
        assert!(number == 0 || input == before, "{call:?} refused with {number}");
    }
}

/// Each fault alone, and any two of them that give different refusals: the earlier one is found.
pub fn expect_each_two<I: Lendable>(call: I::Call, good: &I, faults: &[Fault<I>]) {
    for (i, &first) in faults.iter().enumerate() {
        expect_in_order(call, good, &[first]);
        for &second in faults[i + 1..].iter().filter(|second| second.0 != first.0) {
            expect_in_order(call, good, &[first, second]);
        }
    }
}

// ---- Faults of refining and coarsening, on a mesh of their own ----

/// The plan of that mesh.
pub const W2: [u32; 6] = [3, 1, 3, 1, 1, 2];

/// Its refined cells.
pub const REFINED_CELLS: [u32; 3] = [0, 1, 3];

/// Marks that the call takes on it.
pub fn good_marks(kind: Kind) -> Vec<u32> {
    match kind {
        RefineCells | RefineFunctions => vec![2],
        CoarsenCells => vec![3],
        CoarsenFunctions => vec![8],
    }
}

/// Marks at fault, each before those that are there: the first one decides. Cell 15 is of the last
/// level and active, 17 of the last level and absent, 4 active. Function 29 lies over cell 15 alone
/// and is active, 93 is passive.
pub fn of_marks<I: Marked>(kind: Kind) -> Vec<Fault<I>> {
    fn marked<I: Marked>(input: &mut I, mark: u32) {
        input.marks().insert(0, mark);
    }
    match kind {
        RefineCells => {
            vec![(7, |i| marked(i, 63)), (8, |i| marked(i, 17)), (9, |i| marked(i, 15))]
        }
        RefineFunctions => {
            vec![(7, |i| marked(i, 94)), (8, |i| marked(i, 93)), (9, |i| marked(i, 29))]
        }
        CoarsenCells => vec![(7, |i| marked(i, u32::MAX)), (8, |i| marked(i, 4))],
        CoarsenFunctions => vec![(7, |i| marked(i, u32::MAX)), (8, |i| marked(i, 93))],
    }
}

/// Lists without room.
pub fn of_lists<I: Marked>() -> Vec<Fault<I>> {
    vec![(10, |input| input.lists()[0].clear()), (11, |input| input.lists()[1].clear())]
}

/// Refines a cell whose neighbourhood is not, and nothing else.
pub fn refine_alone(tables: &mut Tables) {
    let plan = tables.plan;
    let byte = |cell: Cell| tables.cells[plan.cell_number(cell)];
    let lacks = |cell| plan.neighbourhood(cell).into_iter().any(|near| byte(near) != REFINED);
    let refinable = |cell: Cell| byte(cell) == ACTIVE && cell.level + 1 < plan.levels;
    let cell = plan.cells().find(|&cell| refinable(cell) && lacks(cell)).expect("a cell");
    tables.cells[plan.cell_number(cell)] = REFINED;
    for child in plan.children(cell) {
        tables.cells[plan.cell_number(child)] = ACTIVE;
    }
}
