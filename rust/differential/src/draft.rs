//! The calls on a draft, and opening and reading a mesh beside one.

use crate::change::LentLists;
use crate::{raw, Kind, Lent, Outcome, Random, Slice, Tables};
use model::draft::Draft;
use wallmirror::ffi;

/// The same draft for the library, which takes its list beside it.
pub(crate) fn raw_draft(draft: &Draft) -> ffi::Draft {
    ffi::Draft { open: draft.open, marks: draft.marks }
}

/// The calls on a draft and beside one.
#[derive(Clone, Copy, Debug, PartialEq, Eq)]
pub enum Call {
    Open,
    Add,
    Close,
    Drop,
    Change(Kind),
    WithHeights(Kind),
    OpenMesh,
    ReadMesh,
}

use Call::*;

impl Call {
    pub const ALL: [Call; 12] = [
        Open,
        Add,
        Close,
        Drop,
        Change(Kind::RefineCells),
        Change(Kind::RefineFunctions),
        Change(Kind::CoarsenCells),
        Change(Kind::CoarsenFunctions),
        WithHeights(Kind::RefineCells),
        WithHeights(Kind::RefineFunctions),
        OpenMesh,
        ReadMesh,
    ];

    /// Those beside one, which there are without a draft too.
    pub const BESIDE: &'static [Call] = Call::ALL.split_at(4).1;

    /// The kind of a change that a run is to take back, refused or not. A closed draft is one
    /// refinement by cells.
    pub fn kind(self) -> Option<Kind> {
        match self {
            Change(kind) | WithHeights(kind) => Some(kind),
            Close => Some(Kind::RefineCells),
            Open | Add | Drop | OpenMesh | ReadMesh => None,
        }
    }
}

/// All that a call can be handed. Each takes what it needs.
#[derive(Clone, Debug, PartialEq, Eq)]
pub struct Input {
    pub tables: Tables,
    pub heights: Vec<i32>,
    pub draft: Draft,
    pub marks: Vec<u32>,
    pub cell_list: Vec<u32>,
    pub function_list: Vec<u32>,
    pub file: Vec<u8>,
}

impl Input {
    /// Nothing but the tables, no draft and no list for one, and lists of T and F entries.
    pub fn new(tables: Tables) -> Input {
        let (cell_list, function_list) = tables.lists_with_room();
        let heights = vec![0; tables.functions.len()];
        let (draft, marks, file) = (Draft::none(vec![]), vec![], vec![]);
        Input { tables, heights, draft, marks, cell_list, function_list, file }
    }

    /// Makes the call. Tables, heights and draft are then as it left them; a call without lists
    /// answers empty ones.
    pub fn make(&mut self, call: Call) -> Outcome {
        let Input { tables, heights, draft, marks, cell_list, function_list, file } = self;
        let number = match call {
            Open => tables.draft_open(draft),
            Add => tables.draft_add(draft, marks),
            Drop => tables.draft_drop(draft),
            OpenMesh => tables.open_with_draft(draft),
            ReadMesh => {
                let plan = tables.plan;
                let number = tables.read_with_draft(draft, file);
                if number != 0 {
                    tables.plan = plan; // the tables are still of this one
                }
                number
            }
            Close => return tables.draft_close(draft, cell_list, function_list),
            Change(kind) => {
                return tables.call_with_draft(kind, draft, marks, cell_list, function_list)
            }
            WithHeights(kind) => {
                let lists = (&cell_list[..], &function_list[..]);
                return tables.refine_with_heights_and_draft(kind, heights, draft, marks, lists);
            }
        };
        Outcome { number, cells: vec![], functions: vec![] }
    }
}

/// A call on a draft that only reads both tables.
type OnDraft = unsafe extern "C" fn(
    ffi::Plan,
    *const u8,
    usize,
    *const u8,
    usize,
    ffi::Draft,
    *const u32,
    usize,
) -> ffi::Drafted;

impl Tables {
    /// Opens a draft.
    pub fn draft_open(&self, draft: &mut Draft) -> u32 {
        let mut then = draft.clone();
        let expected = then.open(self.plan, &self.cells, &self.functions);
        self.on_draft("open a draft", draft, (expected, then), ffi::wallmirror_draft_open)
    }

    /// Drops a draft.
    pub fn draft_drop(&self, draft: &mut Draft) -> u32 {
        let mut then = draft.clone();
        let expected = then.discard(self.plan, &self.cells, &self.functions);
        self.on_draft("drop a draft", draft, (expected, then), ffi::wallmirror_draft_drop)
    }

    fn on_draft(
        &self,
        name: &str,
        draft: &mut Draft,
        expected: (Result<(), u32>, Draft),
        call: OnDraft,
    ) -> u32 {
        self.drafted(name, draft, expected, |plan, (cells, t), (functions, f), draft, list| {
            // SAFETY: separate buffers of these lengths.
            unsafe { call(plan, cells, t, functions, f, draft, list.0, list.1) }
        })
    }

    /// Adds marks to a draft.
    pub fn draft_add(&self, draft: &mut Draft, marks: &[u32]) -> u32 {
        let mut then = draft.clone();
        let expected = then.add(self.plan, &self.cells, &self.functions, marks);
        let mut lent = Lent::new(marks, 0x1234_5678);
        let (m, m_len) = lent.slice();
        let few = &marks[..marks.len().min(40)];
        let name = format!("add {} marks {few:?}", marks.len());
        let call =
            |plan, (cells, t): Slice<u8>, (functions, f): Slice<u8>, draft, list: Slice<_>| {
                // SAFETY: separate buffers of these lengths.
                unsafe {
                    let (list, length) = list;
                    ffi::wallmirror_draft_add(
                        plan, cells, t, functions, f, draft, list, length, m, m_len,
                    )
                }
            };
        let number = self.drafted(&name, draft, (expected, then), call);
        lent.expect(marks, "marks", &|| name.clone());
        number
    }

    /// A call that leaves the tables. The draft and its list are then as it left them.
    fn drafted(
        &self,
        name: &str,
        draft: &mut Draft,
        (expected, then): (Result<(), u32>, Draft),
        call: impl FnOnce(ffi::Plan, Slice<u8>, Slice<u8>, ffi::Draft, Slice<u32>) -> ffi::Drafted,
    ) -> u32 {
        let (mut cells, mut functions) = self.lend();
        let mut list = lent_list(draft);
        let (plan, before) = (self.plan, raw_draft(draft));
        let said = || format!("{name} {plan:?}, {before:?}, list of {}", then.list.len());
        let answer = call(raw(plan), cells.slice(), functions.slice(), before, list.slice());
        let number = expected.err().unwrap_or(0);
        assert_eq!(answer, ffi::Drafted { number, draft: raw_draft(&then) }, "{}", said());
        cells.expect(&self.cells, "cell table", &said);
        functions.expect(&self.functions, "function table", &said);
        list.expect(&then.list, "list of the draft", &said);
        *draft = then;
        number
    }

    /// Closes a draft, with the lists as lent. Tables and draft are then as it left them.
    pub fn draft_close(
        &mut self,
        draft: &mut Draft,
        cell_list: &[u32],
        function_list: &[u32],
    ) -> Outcome {
        let (mut cells, mut functions) = self.lend();
        let mut list = lent_list(draft);
        let mut lists = LentLists::new(cell_list, function_list);
        let (plan, before) = (self.plan, draft.clone());
        let said = || {
            let (few, many) = (&before.list[..before.list.len().min(40)], before.list.len());
            format!("close {:?} {plan:?}, list of {many}: {few:?}", raw_draft(&before))
        };
        let ((c, c_len), (f, f_len)) = (cells.slice(), functions.slice());
        let (l, l_len) = list.slice();
        let ((cl, cl_len), (fl, fl_len)) = lists.slices();
        let (p, d) = (raw(plan), raw_draft(draft));
        // SAFETY: separate buffers of these lengths.
        let closed = unsafe {
            ffi::wallmirror_draft_close(p, c, c_len, f, f_len, d, l, l_len, cl, cl_len, fl, fl_len)
        };
        let rooms = (cell_list.len(), function_list.len());
        let expected = draft.close(plan, &self.cells, &self.functions, rooms.0, rooms.1);
        let marks = before.collected().unwrap_or(&[]);
        let outcome = self.expect_change(Kind::RefineCells, marks, closed.answer, expected, &said);
        assert_eq!(closed.draft, raw_draft(draft), "{}", said());
        cells.expect(&self.cells, "cell table", &said);
        functions.expect(&self.functions, "function table", &said);
        list.expect(&draft.list, "list of the draft", &said);
        lists.expect((cell_list, function_list), &outcome, &said);
        outcome
    }

    /// Opens the mesh beside a draft. The draft is then as the call left it.
    pub fn open_with_draft(&mut self, draft: &mut Draft) -> u32 {
        let before = raw_draft(draft);
        let expected = draft.open_mesh(self.plan, self.cells.len(), self.functions.len());
        let mut answered = before;
        let number = self.open_by(expected, |plan, (cells, t), (functions, f)| {
            // SAFETY: separate buffers of these lengths.
            let answer =
                unsafe { ffi::wallmirror_open_with_draft(plan, cells, t, functions, f, before) };
            answered = answer.draft;
            answer.number
        });
        assert_eq!(answered, raw_draft(draft), "open {before:?}: {number}");
        number
    }

    /// Reads a mesh beside a draft. The draft is then as the call left it.
    pub fn read_with_draft(&mut self, draft: &mut Draft, file: &[u8]) -> u32 {
        let before = raw_draft(draft);
        let expected = draft.read_mesh(file, self.cells.len(), self.functions.len());
        let mut answered = before;
        let number = self.read_by(file, expected, |(file, length), (cells, t), (functions, f)| {
            // SAFETY: separate buffers of these lengths.
            let answer = unsafe {
                ffi::wallmirror_read_with_draft(file, length, cells, t, functions, f, before)
            };
            answered = answer.draft;
            answer.answer
        });
        assert_eq!(answered, raw_draft(draft), "read {before:?}: {number}");
        number
    }
}

pub(crate) fn lent_list(draft: &Draft) -> Lent<u32> {
    Lent::new(&draft.list, 0x0f1e_2d3c)
}

/// A draft that counts as not open.
pub fn none_open(random: &mut Random) -> Draft {
    let entries = random.pick(&[0, 1, 3, 20]);
    let list = random.numbers(entries);
    match random.below(4) {
        0 => Draft::none(list),
        1 => Draft { open: 0, marks: random.below(entries + 2), list },
        2 => Draft { open: random.pick(&[1, 2, u32::MAX]), marks: entries + 1, list },
        _ => Draft {
            open: random.pick(&[1, 1 << 31]),
            marks: random.pick(&[1 << 32, usize::MAX]),
            list,
        },
    }
}
