//! The wrapper's calls with lent slices on pages that the machine guards: those on and beside a
//! draft here, those on planes and the one for rounds in modules of their own.
//!
//! Each slice has pages of its own and others around them that must not be touched. What a call is
//! not to write may only be read: what it is lent for reading, and with a refusal everything.

use crate::draft::{raw_draft, Call, Input};
use crate::order::{Lendable, Marked};
use crate::pages::{Access, Guarded};
use crate::{as_cells, as_functions, of_wrapper, overwritten, Kind, Outcome};
use wallmirror::{Cell, Changed, Draft, Function, Plan, Refusal};

mod planes;
mod rounds;

/// Marks and lists, for calls that take cells and for calls that take functions.
struct MarksAndLists {
    cell_marks: Guarded<Cell>,
    function_marks: Guarded<Function>,
    cell_list: Guarded<Cell>,
    function_list: Guarded<Function>,
}

impl MarksAndLists {
    fn new(marks: &[u32], lists: (&[u32], &[u32]), at_end: bool) -> MarksAndLists {
        MarksAndLists {
            cell_marks: Guarded::new(&as_cells(marks), at_end),
            function_marks: Guarded::new(&as_functions(marks), at_end),
            cell_list: Guarded::new(&as_cells(lists.0), at_end),
            function_list: Guarded::new(&as_functions(lists.1), at_end),
        }
    }

    /// Allows this on the lists, and on the marks no more than reading.
    fn allow(&mut self, access: Access) {
        self.cell_marks.allow(Access::Read);
        self.function_marks.allow(Access::Read);
        self.cell_list.allow(access);
        self.function_list.allow(access);
    }

    /// Whether the lists are as they were lent, with what the outcome has written over them.
    fn are_as_lent(&self, lists: (&[u32], &[u32]), outcome: &Outcome) -> bool {
        self.cell_list.slice() == as_cells(&overwritten(lists.0, &outcome.cells))
            && self.function_list.slice() == as_functions(&overwritten(lists.1, &outcome.functions))
    }
}

/// What was made is what the outcome says.
fn expect_made(made: Result<Changed, Refusal>, outcome: &Outcome, said: &str) {
    let expected = match outcome.number {
        0 => Ok((outcome.cells.len(), outcome.functions.len())),
        number => Err(number),
    };
    let made = made.map(|made| (made.cells, made.functions)).map_err(Refusal::number);
    assert_eq!(made, expected, "{said}");
}

/// What is allowed on a slice: writing only where the call writes it and is accepted.
fn access(writes: bool, accepted: bool) -> Access {
    match writes && accepted {
        true => Access::ReadAndWrite,
        false => Access::Read,
    }
}

struct OnPages {
    cells: Guarded<u8>,
    functions: Guarded<u8>,
    heights: Guarded<i32>,
    list: Guarded<Cell>,
    lists: MarksAndLists,
    file: Guarded<u8>,
}

impl OnPages {
    fn new(input: &Input, at_end: bool) -> OnPages {
        OnPages {
            cells: Guarded::new(&input.tables.cells, at_end),
            functions: Guarded::new(&input.tables.functions, at_end),
            heights: Guarded::new(&input.heights, at_end),
            list: Guarded::new(&as_cells(&input.draft.list), at_end),
            lists: MarksAndLists::new(
                &input.marks,
                (&input.cell_list, &input.function_list),
                at_end,
            ),
            file: Guarded::new(&input.file, at_end),
        }
    }

    /// Allows the writing that is the call's, where it is accepted.
    fn allow(&mut self, call: Call, accepted: bool) {
        let access = |writes| access(writes, accepted);
        let lists = call.kind().is_some();
        let tables = lists || matches!(call, Call::OpenMesh | Call::ReadMesh);
        self.cells.allow(access(tables));
        self.functions.allow(access(tables));
        self.heights.allow(access(matches!(call, Call::WithHeights(_))));
        self.list.allow(access(call == Call::Add));
        self.lists.allow(access(lists));
        self.file.allow(Access::Read);
    }

    /// A call without lists answers that none of their entries was written.
    fn make(&mut self, call: Call, plan: Plan, draft: &mut Draft) -> Result<Changed, Refusal> {
        let (cells, functions) = (self.cells.slice_mut(), self.functions.slice_mut());
        let list = self.list.slice_mut();
        let marks = self.lists.cell_marks.slice();
        let (cell_list, function_list) =
            (self.lists.cell_list.slice_mut(), self.lists.function_list.slice_mut());
        let made = match call {
            Call::Open => wallmirror::draft_open(plan, cells, functions, draft, list),
            Call::Add => wallmirror::draft_add(plan, cells, functions, draft, list, marks),
            Call::Drop => wallmirror::draft_drop(plan, cells, functions, draft, list),
            Call::OpenMesh => wallmirror::open_with_draft(plan, cells, functions, draft),
            Call::ReadMesh => {
                let read = wallmirror::read_with_draft(self.file.slice(), cells, functions, draft);
                read.map(drop).map_err(Refusal::from)
            }
            Call::Close => {
                return wallmirror::draft_close(
                    plan,
                    cells,
                    functions,
                    draft,
                    list,
                    cell_list,
                    function_list,
                )
            }
            Call::Change(kind) => return self.change(kind, plan, *draft),
            Call::WithHeights(kind) => return self.refine_with_heights(kind, plan, *draft),
        };
        made.map(|()| Changed { cells: 0, functions: 0 })
    }

    fn change(&mut self, kind: Kind, plan: Plan, draft: Draft) -> Result<Changed, Refusal> {
        let (c, f, list) = (self.cells.slice_mut(), self.functions.slice_mut(), self.list.slice());
        let MarksAndLists { cell_marks, function_marks, cell_list, function_list } =
            &mut self.lists;
        let (cells, functions) = (cell_marks.slice(), function_marks.slice());
        let (cl, fl) = (cell_list.slice_mut(), function_list.slice_mut());
        match kind {
            Kind::RefineCells => {
                wallmirror::refine_cells_with_draft(plan, c, f, draft, list, cells, cl, fl)
            }
            Kind::RefineFunctions => {
                wallmirror::refine_functions_with_draft(plan, c, f, draft, list, functions, cl, fl)
            }
            Kind::CoarsenCells => {
                wallmirror::coarsen_cells_with_draft(plan, c, f, draft, list, cells, cl, fl)
            }
            Kind::CoarsenFunctions => {
                wallmirror::coarsen_functions_with_draft(plan, c, f, draft, list, functions, cl, fl)
            }
        }
    }

    fn refine_with_heights(
        &mut self,
        kind: Kind,
        plan: Plan,
        draft: Draft,
    ) -> Result<Changed, Refusal> {
        let (c, f, list) = (self.cells.slice_mut(), self.functions.slice_mut(), self.list.slice());
        let MarksAndLists { cell_marks, function_marks, cell_list, function_list } =
            &mut self.lists;
        let (cells, functions) = (cell_marks.slice(), function_marks.slice());
        let (cl, fl) = (cell_list.slice_mut(), function_list.slice_mut());
        let heights = self.heights.slice_mut();
        if kind == Kind::RefineCells {
            return wallmirror::refine_cells_with_heights_and_draft(
                plan, c, f, heights, draft, list, cells, cl, fl,
            );
        }
        wallmirror::refine_functions_with_heights_and_draft(
            plan, c, f, heights, draft, list, functions, cl, fl,
        )
    }
}

impl Lendable for Input {
    type Call = Call;
    type Outcome = Outcome;

    fn make(&mut self, call: Call) -> Outcome {
        self.make(call)
    }

    fn expect_on_pages(&self, call: Call, outcome: &Outcome, then: &Input) {
        self.expect_on_pages(call, outcome, then);
    }
}

impl Marked for Input {
    fn marks(&mut self) -> &mut Vec<u32> {
        &mut self.marks
    }

    fn lists(&mut self) -> [&mut Vec<u32>; 2] {
        [&mut self.cell_list, &mut self.function_list]
    }
}

impl Input {
    /// The wrapper's call does on guarded pages what was seen of the library's: this outcome, and
    /// then this input.
    pub fn expect_on_pages(&self, call: Call, outcome: &Outcome, then: &Input) {
        for at_end in [false, true] {
            let mut pages = OnPages::new(self, at_end);
            pages.allow(call, outcome.number == 0);
            let mut draft = raw_draft(&self.draft);
            let made = pages.make(call, of_wrapper(self.tables.plan), &mut draft);
            expect_made(made, outcome, &format!("{call:?}"));
            assert_eq!(draft, raw_draft(&then.draft), "{call:?}");
            let same = pages.cells.slice() == then.tables.cells
                && pages.functions.slice() == then.tables.functions
                && pages.heights.slice() == then.heights
                && pages.list.slice() == as_cells(&then.draft.list)
                && pages.lists.are_as_lent((&self.cell_list, &self.function_list), outcome);
            assert!(same, "{call:?} {:?}", self.tables.plan);
        }
    }
}
