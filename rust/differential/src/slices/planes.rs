//! The calls on planes.

use super::{access, expect_made, MarksAndLists};
use crate::order::{Lendable, Marked};
use crate::pages::{Access, Guarded};
use crate::planes::{Call, Input};
use crate::{of_wrapper, Kind, Outcome};
use wallmirror::{Changed, Count, Plan, Refusal};

struct OnPages {
    present: Guarded<u64>,
    refined: Guarded<u64>,
    functions: Guarded<u8>,
    cells: Guarded<u8>,
    lists: MarksAndLists,
    /// What count answered.
    counted: Option<Count>,
}

impl OnPages {
    fn new(input: &Input, at_end: bool) -> OnPages {
        let lists = (&input.cell_list[..], &input.function_list[..]);
        OnPages {
            present: Guarded::new(&input.mesh.planes.present, at_end),
            refined: Guarded::new(&input.mesh.planes.refined, at_end),
            functions: Guarded::new(&input.mesh.functions, at_end),
            cells: Guarded::new(&input.cells, at_end),
            lists: MarksAndLists::new(&input.marks, lists, at_end),
            counted: None,
        }
    }

    /// Allows the writing that is the call's, where it is accepted, and nothing at all on what it is
    /// not lent.
    fn allow(&mut self, call: Call, accepted: bool) {
        let access = |writes| access(writes, accepted);
        let changes = matches!(call, Call::Change(_));
        let planes = access(changes || matches!(call, Call::Open | Call::FromCells));
        self.present.allow(planes);
        self.refined.allow(planes);
        self.functions.allow(match call {
            Call::FromCells | Call::ToCells => Access::None,
            _ => access(changes || call == Call::Open),
        });
        self.cells.allow(match call {
            Call::FromCells | Call::ToCells => access(call == Call::ToCells),
            _ => Access::None,
        });
        self.lists.allow(access(changes));
    }

    /// A call without lists answers that none of their entries was written.
    fn make(&mut self, call: Call, plan: Plan) -> Result<Changed, Refusal> {
        let (present, refined) = (self.present.slice_mut(), self.refined.slice_mut());
        let (functions, cells) = (self.functions.slice_mut(), self.cells.slice_mut());
        let made = match call {
            Call::Open => wallmirror::planes_open(plan, present, refined, functions),
            Call::Check => wallmirror::planes_check(plan, present, refined, functions),
            Call::Count => {
                let counted = wallmirror::planes_count(plan, present, refined, functions);
                self.counted = counted.ok();
                counted.map(drop)
            }
            Call::FromCells => wallmirror::planes_from_cells(plan, cells, present, refined),
            Call::ToCells => wallmirror::planes_to_cells(plan, present, refined, cells),
            Call::Change(kind) => return self.change(kind, plan),
        };
        made.map(|()| Changed { cells: 0, functions: 0 })
    }

    fn change(&mut self, kind: Kind, plan: Plan) -> Result<Changed, Refusal> {
        let (p, r) = (self.present.slice_mut(), self.refined.slice_mut());
        let f = self.functions.slice_mut();
        let MarksAndLists { cell_marks, function_marks, cell_list, function_list } =
            &mut self.lists;
        let (cells, functions) = (cell_marks.slice(), function_marks.slice());
        let (cl, fl) = (cell_list.slice_mut(), function_list.slice_mut());
        match kind {
            Kind::RefineCells => wallmirror::planes_refine_cells(plan, p, r, f, cells, cl, fl),
            Kind::RefineFunctions => {
                wallmirror::planes_refine_functions(plan, p, r, f, functions, cl, fl)
            }
            Kind::CoarsenCells => wallmirror::planes_coarsen_cells(plan, p, r, f, cells, cl, fl),
            Kind::CoarsenFunctions => {
                wallmirror::planes_coarsen_functions(plan, p, r, f, functions, cl, fl)
            }
        }
    }
}

impl Lendable for Input {
    type Call = Call;
    type Outcome = Outcome;

    fn make(&mut self, call: Call) -> Outcome {
        self.make(call)
    }

    fn expect_on_pages(&self, call: Call, outcome: &Outcome, then: &Input) {
        for at_end in [false, true] {
            let mut pages = OnPages::new(self, at_end);
            pages.allow(call, outcome.number == 0);
            let made = pages.make(call, of_wrapper(self.mesh.plan));
            let said = format!("{call:?} {:?}", self.mesh.plan);
            expect_made(made, outcome, &said);
            let counts = call == Call::Count && outcome.number == 0;
            let counted = counts.then(|| self.mesh.count()).map(|count| Count {
                active_cells: count.active_cells as usize,
                refined_cells: count.refined_cells as usize,
                active_functions: count.active_functions as usize,
                area: count.area as usize,
            });
            assert_eq!(pages.counted, counted, "{said}");
            // What a call is not lent is read again here.
            pages.functions.allow(Access::Read);
            pages.cells.allow(Access::Read);
            let same = pages.present.slice() == then.mesh.planes.present
                && pages.refined.slice() == then.mesh.planes.refined
                && pages.functions.slice() == then.mesh.functions
                && pages.cells.slice() == then.cells
                && pages.lists.are_as_lent((&self.cell_list, &self.function_list), outcome);
            assert!(same, "{said}");
        }
    }
}

impl Marked for Input {
    fn marks(&mut self) -> &mut Vec<u32> {
        &mut self.marks
    }

    fn lists(&mut self) -> [&mut Vec<u32>; 2] {
        [&mut self.cell_list, &mut self.function_list]
    }
}
