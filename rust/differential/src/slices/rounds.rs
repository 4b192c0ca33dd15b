//! The call for rounds.

use super::access;
use crate::order::Lendable;
use crate::pages::Guarded;
use crate::rounds::Input;
use crate::{as_cells, of_wrapper};
use model::rounds::Rounds;
use wallmirror::{Cell, Plan, Refusal};

struct OnPages {
    cells: Guarded<u8>,
    functions: Guarded<u8>,
    wanted_cells: Guarded<u8>,
    wanted_functions: Guarded<u8>,
    marks: Guarded<Cell>,
    lengths: Guarded<u32>,
}

impl OnPages {
    fn new(input: &Input, at_end: bool) -> OnPages {
        OnPages {
            cells: Guarded::new(&input.today.cells, at_end),
            functions: Guarded::new(&input.today.functions, at_end),
            wanted_cells: Guarded::new(&input.wanted.cells, at_end),
            wanted_functions: Guarded::new(&input.wanted.functions, at_end),
            marks: Guarded::new(&as_cells(&input.marks), at_end),
            lengths: Guarded::new(&input.lengths, at_end),
        }
    }

    /// Allows writing on the lists, where the call is accepted.
    fn allow(&mut self, accepted: bool) {
        let OnPages { cells, functions, wanted_cells, wanted_functions, marks, lengths } = self;
        for table in [cells, functions, wanted_cells, wanted_functions] {
            table.allow(access(false, accepted));
        }
        marks.allow(access(true, accepted));
        lengths.allow(access(true, accepted));
    }

    /// How many marks and how many lengths were written.
    fn make(&mut self, plan: Plan) -> Result<(usize, usize), u32> {
        let made = wallmirror::rounds(
            plan,
            self.cells.slice(),
            self.functions.slice(),
            self.wanted_cells.slice(),
            self.wanted_functions.slice(),
            self.marks.slice_mut(),
            self.lengths.slice_mut(),
        );
        made.map(|made| (made.marks, made.rounds)).map_err(Refusal::number)
    }
}

impl Lendable for Input {
    type Call = ();
    type Outcome = Result<Rounds, u32>;

    fn make(&mut self, _: ()) -> Result<Rounds, u32> {
        self.make()
    }

    fn expect_on_pages(&self, _: (), outcome: &Result<Rounds, u32>, then: &Input) {
        let lengths = |rounds: Rounds| (rounds.marks().len(), rounds.lengths().len());
        let expected = outcome.clone().map(lengths);
        for at_end in [false, true] {
            let mut pages = OnPages::new(self, at_end);
            pages.allow(outcome.is_ok());
            let made = pages.make(of_wrapper(self.today.plan));
            assert_eq!(made, expected, "{:?}", self.today.plan);
            let same = pages.cells.slice() == then.today.cells
                && pages.functions.slice() == then.today.functions
                && pages.wanted_cells.slice() == then.wanted.cells
                && pages.wanted_functions.slice() == then.wanted.functions
                && pages.marks.slice() == as_cells(&then.marks)
                && pages.lengths.slice() == then.lengths;
            assert!(same, "{:?}", self.today.plan);
        }
    }
}
