//! Refining and coarsening calls: plain, with heights, with a draft, or with both.

use crate::draft::{lent_list, raw_draft};
use crate::{accepted, overwritten, raw, refused, Changing, Kind, Lent, Outcome, Slice, Tables};
use model::draft::Draft;
use model::shape::refine_with_heights;
use model::Plan;
use wallmirror::ffi;

/// A call with what it is lent beside the tables.
pub struct Change<'a> {
    pub kind: Kind,
    pub heights: Option<&'a mut Vec<i32>>,
    pub draft: Option<&'a Draft>,
    pub marks: &'a [u32],
    pub cell_list: &'a [u32],
    pub function_list: &'a [u32],
}

impl Change<'_> {
    /// What the model makes of it: the change, and the heights where there are any.
    fn expected(&self, tables: &Tables) -> Result<(model::Change, Option<Vec<i32>>), u32> {
        let (call, plan, marks) = (self.kind.of_model(), tables.plan, self.marks);
        let (cells, functions) = (&tables.cells[..], &tables.functions[..]);
        let tables = (cells, functions);
        let rooms = (self.cell_list.len(), self.function_list.len());
        let plain = |change| (change, None);
        let carried = |(change, heights)| (change, Some(heights));
        match (&self.heights, self.draft) {
            (None, None) => call(plan, cells, functions, marks, rooms.0, rooms.1).map(plain),
            (None, Some(draft)) => draft.change(call, plan, tables, marks, rooms).map(plain),
            (Some(heights), None) => {
                refine_with_heights(call, plan, tables, heights, marks, rooms).map(carried)
            }
            (Some(heights), Some(draft)) => {
                draft.refine_with_heights(call, plan, tables, heights, marks, rooms).map(carried)
            }
        }
    }

    /// What is said of it where something is wrong.
    fn said(&self, plan: Plan) -> String {
        let heights = self.heights.as_ref().map(|heights| heights.len());
        let draft = self.draft.map(|draft| (raw_draft(draft), draft.list.len()));
        let few = &self.marks[..self.marks.len().min(40)];
        let many = self.marks.len();
        format!("{:?} {plan:?}, {heights:?} heights, {draft:?}, {many} marks {few:?}", self.kind)
    }
}

/// Both lists of a call.
pub(crate) struct LentLists {
    cells: Lent<u32>,
    functions: Lent<u32>,
}

impl LentLists {
    pub(crate) fn new(cell_list: &[u32], function_list: &[u32]) -> LentLists {
        let cells = Lent::new(cell_list, 0x8765_4321);
        LentLists { cells, functions: Lent::new(function_list, 0x1357_9bdf) }
    }

    pub(crate) fn slices(&mut self) -> (Slice<u32>, Slice<u32>) {
        (self.cells.slice(), self.functions.slice())
    }

    /// The lists as they were lent, with what the outcome has written over them.
    pub(crate) fn expect(
        &self,
        (cell_list, function_list): (&[u32], &[u32]),
        outcome: &Outcome,
        said: &dyn Fn() -> String,
    ) {
        self.cells.expect(&overwritten(cell_list, &outcome.cells), "cell list", said);
        let functions = overwritten(function_list, &outcome.functions);
        self.functions.expect(&functions, "function list", said);
    }
}

/// A call on buffers of its own, ready to run.
pub struct Lending {
    kind: Kind,
    plan: ffi::Plan,
    cells: Lent<u8>,
    functions: Lent<u8>,
    heights: Option<Lent<i32>>,
    draft: Option<(ffi::Draft, Lent<u32>)>,
    marks: Lent<u32>,
    lists: LentLists,
}

impl Lending {
    pub fn new(tables: &Tables, change: &Change) -> Lending {
        let (cells, functions) = tables.lend();
        Lending {
            kind: change.kind,
            plan: raw(tables.plan),
            cells,
            functions,
            heights: change.heights.as_ref().map(|heights| Lent::new(heights, 0x2468_ace1)),
            draft: change.draft.map(|draft| (raw_draft(draft), lent_list(draft))),
            marks: Lent::new(change.marks, 0x1234_5678),
            lists: LentLists::new(change.cell_list, change.function_list),
        }
    }

    pub fn run(&mut self) -> ffi::Answer {
        let Lending { kind, plan: p, cells, functions, heights, draft, marks, lists } = self;
        let ((c, c_len), (f, f_len)) = (cells.slice(), functions.slice());
        let (m, m_len) = marks.slice();
        let ((cl, cl_len), (fl, fl_len)) = lists.slices();
        let heights = heights.as_mut().map(Lent::slice);
        let draft = draft.as_mut().map(|(draft, list)| (*draft, list.slice()));
        // SAFETY: separate buffers of these lengths.
        unsafe {
            match (heights, draft) {
                (None, None) => {
                    kind.of_library()(*p, c, c_len, f, f_len, m, m_len, cl, cl_len, fl, fl_len)
                }
                (Some((h, h_len)), None) => kind.with_heights()(
                    *p, c, c_len, f, f_len, h, h_len, m, m_len, cl, cl_len, fl, fl_len,
                ),
                (None, Some((d, (l, l_len)))) => kind.with_draft()(
                    *p, c, c_len, f, f_len, d, l, l_len, m, m_len, cl, cl_len, fl, fl_len,
                ),
                (Some((h, h_len)), Some((d, (l, l_len)))) => kind.with_heights_and_draft()(
                    *p, c, c_len, f, f_len, h, h_len, d, l, l_len, m, m_len, cl, cl_len, fl, fl_len,
                ),
            }
        }
    }
}

impl Changing for Tables {
    fn call(
        &mut self,
        kind: Kind,
        marks: &[u32],
        cell_list: &[u32],
        function_list: &[u32],
    ) -> Outcome {
        self.call(kind, marks, cell_list, function_list)
    }
}

/// The answer is the expected one.
pub(crate) fn expect_answer(
    answer: ffi::Answer,
    expected: Result<&model::Change, u32>,
    said: &dyn Fn() -> String,
) -> Outcome {
    let outcome = match expected {
        Err(number) => refused(number),
        Ok(change) => accepted(&change.cell_list, &change.function_list),
    };
    let lengths = (outcome.cells.len() as u32, outcome.functions.len() as u32);
    let (number, cells, functions) = (outcome.number, lengths.0, lengths.1);
    assert_eq!(answer, ffi::Answer { number, cells, functions }, "{}", said());
    outcome
}

impl Tables {
    /// Runs one of the four calls with the lists as lent. The tables are then as it left them.
    pub fn call(
        &mut self,
        kind: Kind,
        marks: &[u32],
        cell_list: &[u32],
        function_list: &[u32],
    ) -> Outcome {
        let (heights, draft) = (None, None);
        self.change(Change { kind, heights, draft, marks, cell_list, function_list })
    }

    /// The same with lists of T and F entries.
    pub fn call_with_room(&mut self, kind: Kind, marks: &[u32]) -> Outcome {
        let (cell_list, function_list) = self.lists_with_room();
        self.call(kind, marks, &cell_list, &function_list)
    }

    /// Lists of T and F entries.
    pub fn lists_with_room(&self) -> (Vec<u32>, Vec<u32>) {
        (vec![0xdead_beef; self.cells.len()], vec![0xfeed_f00d; self.functions.len()])
    }

    /// Runs one of the two refining calls with heights, with the lists as lent. Tables and heights are
    /// then as it left them.
    pub fn refine_with_heights(
        &mut self,
        kind: Kind,
        heights: &mut Vec<i32>,
        marks: &[u32],
        cell_list: &[u32],
        function_list: &[u32],
    ) -> Outcome {
        let (heights, draft) = (Some(heights), None);
        self.change(Change { kind, heights, draft, marks, cell_list, function_list })
    }

    /// Runs one of the four calls beside a draft.
    pub fn call_with_draft(
        &mut self,
        kind: Kind,
        draft: &Draft,
        marks: &[u32],
        cell_list: &[u32],
        function_list: &[u32],
    ) -> Outcome {
        let (heights, draft) = (None, Some(draft));
        self.change(Change { kind, heights, draft, marks, cell_list, function_list })
    }

    /// Runs one of the two refining calls with heights beside a draft.
    pub fn refine_with_heights_and_draft(
        &mut self,
        kind: Kind,
        heights: &mut Vec<i32>,
        draft: &Draft,
        marks: &[u32],
        (cell_list, function_list): (&[u32], &[u32]),
    ) -> Outcome {
        let (heights, draft) = (Some(heights), Some(draft));
        self.change(Change { kind, heights, draft, marks, cell_list, function_list })
    }

    fn change(&mut self, change: Change) -> Outcome {
        let mut lent = Lending::new(self, &change);
        let (plan, kind) = (self.plan, change.kind);
        let said = || change.said(plan);
        let answer = lent.run();
        let (expected, carried) = match change.expected(self) {
            Err(number) => (Err(number), None),
            Ok((made, carried)) => (Ok(made), carried),
        };
        let outcome = self.expect_change(kind, change.marks, answer, expected, &said);
        lent.cells.expect(&self.cells, "cell table", &said);
        lent.functions.expect(&self.functions, "function table", &said);
        lent.marks.expect(change.marks, "marks", &said);
        lent.lists.expect((change.cell_list, change.function_list), &outcome, &said);
        if let (Some((_, list)), Some(draft)) = (lent.draft, change.draft) {
            list.expect(&draft.list, "list of the draft", &said);
        }
        if let (Some(lent), Some(before)) = (lent.heights, &change.heights) {
            lent.expect(carried.as_ref().unwrap_or(before), "heights", &said);
        }
        if let (Some(heights), Some(carried)) = (change.heights, carried) {
            *heights = carried;
        }
        outcome
    }

    /// The answer is the expected one. The tables are then the expected ones.
    pub(crate) fn expect_change(
        &mut self,
        kind: Kind,
        marks: &[u32],
        answer: ffi::Answer,
        expected: Result<model::Change, u32>,
        said: &dyn Fn() -> String,
    ) -> Outcome {
        let outcome = expect_answer(answer, expected.as_ref().map_err(|&number| number), said);
        if let Ok(change) = expected {
            if kind.refines() {
                self.expect_cost(kind, marks, &change.cell_list, said);
            }
            (self.cells, self.functions) = (change.cells, change.functions);
            self.expect_present_levels(said);
        }
        outcome
    }
}
