//! A draft that collects marks, and the calls with one.

// The calls take what those of the C header take.
#![allow(clippy::too_many_arguments)]

use crate::{
    accepted, cell_numbers, changed, ffi, function_numbers, plan_read, Cell, Changed, Function,
    Plan, ReadRefusal, Refusal,
};

/// A draft: whether it is open, and how many marks it has. The marks are the first entries of the
/// list that is lent beside it. Any numbers may stand in it. How it is used is said
/// [here](crate#drafts).
#[repr(C)]
#[derive(Clone, Copy, Debug, Default, PartialEq, Eq, Hash)]
pub struct Draft {
    /// 0 for a draft that is not open.
    pub open: u32,
    /// How many entries of its list are marks. Where the list has fewer, the draft counts as not
    /// open.
    pub marks: usize,
}

impl Draft {
    /// No draft, which is [`Draft::default`] too.
    pub const NONE: Draft = Draft { open: 0, marks: 0 };

    /// The marks that it has in its list, in the order in which they were added. `None` where it
    /// counts as not open.
    ///
    /// ```
    /// # use wallmirror::{Cell, Draft};
    /// let list = [2, 0, 7].map(Cell);
    /// assert_eq!(Draft { open: 1, marks: 2 }.marks(&list), Some(&[Cell(2), Cell(0)][..]));
    /// assert_eq!(Draft { open: 1, marks: 4 }.marks(&list), None);
    /// assert_eq!(Draft::NONE.marks(&list), None);
    /// ```
    pub fn marks(self, list: &[Cell]) -> Option<&[Cell]> {
        if self.open == 0 {
            return None;
        }
        list.get(..self.marks)
    }
}

/// Opens a draft, which has no marks then. No table changes, and the list keeps its values. Refuses
/// 1 to 6, then 18.
///
/// ```
/// # use wallmirror::{draft_open, open, Cell, Draft, Plan, Refusal};
/// # let plan = Plan { columns: 3, levels: 3, ..Plan::default() };
/// # let (mut cells, mut functions) = (vec![0; 63], vec![0; 94]);
/// open(plan, &mut cells, &mut functions)?;
/// let (mut draft, list) = (Draft::NONE, [Cell(9); 3]);
/// draft_open(plan, &cells, &functions, &mut draft, &list)?;
/// assert_eq!(draft.marks(&list), Some(&[][..]));
/// let second = draft_open(plan, &cells, &functions, &mut draft, &list);
/// assert_eq!(second, Err(Refusal::DraftOpen));
/// # Ok::<(), Refusal>(())
/// ```
pub fn draft_open(
    plan: Plan,
    cells: &[u8],
    functions: &[u8],
    draft: &mut Draft,
    list: &[Cell],
) -> Result<(), Refusal> {
    // SAFETY: pointers and lengths are those of slices, which are only read. Cell is transparent
    // over u32.
    let answer = unsafe {
        ffi::wallmirror_draft_open(
            plan.raw(),
            cells.as_ptr(),
            cells.len(),
            functions.as_ptr(),
            functions.len(),
            *draft,
            list.as_ptr().cast(),
            list.len(),
        )
    };
    drafted(answer, draft)
}

/// Adds marks to an open draft: they are written to its list after those that it has, repeats too.
/// No table changes. The marks are judged against the mesh as [`refine_cells`](crate::refine_cells)
/// judges them. Refuses 1 to 6; then 19; then 7 to 9; then 10 where the list is too short for them.
/// A refused call adds none of its marks. Entries past the new marks keep their values.
///
/// ```
/// # use wallmirror::{draft_add, draft_open, open, Cell, Draft, Plan, Refusal};
/// # let plan = Plan { columns: 3, levels: 3, ..Plan::default() };
/// # let (mut cells, mut functions) = (vec![0; 63], vec![0; 94]);
/// open(plan, &mut cells, &mut functions)?;
/// let (mut draft, mut list) = (Draft::NONE, [Cell(9); 3]);
/// draft_open(plan, &cells, &functions, &mut draft, &list)?;
/// draft_add(plan, &cells, &functions, &mut draft, &mut list, &[Cell(2)])?;
/// // Cell 3 is absent, and there is room for two more marks.
/// let refused = draft_add(plan, &cells, &functions, &mut draft, &mut list, &[Cell(0), Cell(3)]);
/// assert_eq!(refused, Err(Refusal::MarkOfWrongKind));
/// let refused = draft_add(plan, &cells, &functions, &mut draft, &mut list, &[Cell(0); 3]);
/// assert_eq!(refused, Err(Refusal::CellListTooShort));
/// assert_eq!((draft.marks(&list), list), (Some(&[Cell(2)][..]), [2, 9, 9].map(Cell)));
/// # Ok::<(), Refusal>(())
/// ```
pub fn draft_add(
    plan: Plan,
    cells: &[u8],
    functions: &[u8],
    draft: &mut Draft,
    list: &mut [Cell],
    marks: &[Cell],
) -> Result<(), Refusal> {
    // SAFETY: pointers and lengths are those of slices; the mutable one overlaps no other. Cell is
    // transparent over u32.
    let answer = unsafe {
        ffi::wallmirror_draft_add(
            plan.raw(),
            cells.as_ptr(),
            cells.len(),
            functions.as_ptr(),
            functions.len(),
            *draft,
            list.as_mut_ptr().cast(),
            list.len(),
            marks.as_ptr().cast(),
            marks.len(),
        )
    };
    drafted(answer, draft)
}

/// Closes an open draft: [`refine_cells`](crate::refine_cells) with its marks, with the same tables,
/// lists and answer. No draft is open then. Refuses 1 to 6; then 19; then 7 to 11. After a refusal
/// the draft is what it was.
///
/// ```
/// # use wallmirror::{draft_close, open, Cell, Changed, Draft, Function, Plan, Refusal};
/// # let plan = Plan { columns: 3, levels: 3, ..Plan::default() };
/// # let (mut cells, mut functions) = (vec![0; 63], vec![0; 94]);
/// # open(plan, &mut cells, &mut functions)?;
/// # let (cells, functions) = (&mut cells[..], &mut functions[..]);
/// let (mut draft, list) = (Draft { open: 1, marks: 2 }, [2, 0, 9].map(Cell));
/// let (mut cell_list, mut function_list) = ([Cell(9); 2], [Function(9); 4]);
/// // Two cells become refined, so a list with one entry is too short.
/// let short = &mut cell_list[..1];
/// let refused =
///     draft_close(plan, cells, functions, &mut draft, &list, short, &mut function_list);
/// assert_eq!(refused, Err(Refusal::CellListTooShort));
/// assert_eq!(draft.marks(&list), Some(&[Cell(2), Cell(0)][..]));
/// let closed =
///     draft_close(plan, cells, functions, &mut draft, &list, &mut cell_list, &mut function_list)?;
/// assert_eq!(closed, Changed { cells: 2, functions: 4 });
/// assert_eq!(cell_list, [Cell(0), Cell(2)]);
/// assert_eq!(draft, Draft::NONE);
/// # Ok::<(), Refusal>(())
/// ```
pub fn draft_close(
    plan: Plan,
    cells: &mut [u8],
    functions: &mut [u8],
    draft: &mut Draft,
    list: &[Cell],
    cell_list: &mut [Cell],
    function_list: &mut [Function],
) -> Result<Changed, Refusal> {
    // SAFETY: pointers and lengths are those of slices; the mutable ones overlap no other. Cell and
    // Function are transparent over u32.
    let closed = unsafe {
        ffi::wallmirror_draft_close(
            plan.raw(),
            cells.as_mut_ptr(),
            cells.len(),
            functions.as_mut_ptr(),
            functions.len(),
            *draft,
            list.as_ptr().cast(),
            list.len(),
            cell_list.as_mut_ptr().cast(),
            cell_list.len(),
            function_list.as_mut_ptr().cast(),
            function_list.len(),
        )
    };
    *draft = closed.draft;
    changed(closed.answer)
}

/// Drops an open draft with its marks. No table changes, and the list keeps its values. Refuses 1 to
/// 6, then 19.
pub fn draft_drop(
    plan: Plan,
    cells: &[u8],
    functions: &[u8],
    draft: &mut Draft,
    list: &[Cell],
) -> Result<(), Refusal> {
    // SAFETY: pointers and lengths are those of slices, which are only read. Cell is transparent
    // over u32.
    let answer = unsafe {
        ffi::wallmirror_draft_drop(
            plan.raw(),
            cells.as_ptr(),
            cells.len(),
            functions.as_ptr(),
            functions.len(),
            *draft,
            list.as_ptr().cast(),
            list.len(),
        )
    };
    drafted(answer, draft)
}

/// The draft is what the library answers, whether it refused or not.
fn drafted(answer: ffi::Drafted, draft: &mut Draft) -> Result<(), Refusal> {
    *draft = answer.draft;
    accepted(answer.number)
}

/// As [`refine_cells`](crate::refine_cells), for a program that keeps a draft: refuses 18, directly
/// after 6, while it is open. The draft stays as it is.
pub fn refine_cells_with_draft(
    plan: Plan,
    cells: &mut [u8],
    functions: &mut [u8],
    draft: Draft,
    list: &[Cell],
    marks: &[Cell],
    cell_list: &mut [Cell],
    function_list: &mut [Function],
) -> Result<Changed, Refusal> {
    let call = ffi::wallmirror_refine_cells_with_draft;
    let (tables, lists) = ((cells, functions), (cell_list, function_list));
    change_with_draft(call, plan, tables, (draft, list), cell_numbers(marks), lists)
}

/// As [`refine_functions`](crate::refine_functions). Otherwise as [`refine_cells_with_draft`].
pub fn refine_functions_with_draft(
    plan: Plan,
    cells: &mut [u8],
    functions: &mut [u8],
    draft: Draft,
    list: &[Cell],
    marks: &[Function],
    cell_list: &mut [Cell],
    function_list: &mut [Function],
) -> Result<Changed, Refusal> {
    let call = ffi::wallmirror_refine_functions_with_draft;
    let (tables, lists) = ((cells, functions), (cell_list, function_list));
    change_with_draft(call, plan, tables, (draft, list), function_numbers(marks), lists)
}

/// As [`coarsen_cells`](crate::coarsen_cells). Otherwise as [`refine_cells_with_draft`].
pub fn coarsen_cells_with_draft(
    plan: Plan,
    cells: &mut [u8],
    functions: &mut [u8],
    draft: Draft,
    list: &[Cell],
    marks: &[Cell],
    cell_list: &mut [Cell],
    function_list: &mut [Function],
) -> Result<Changed, Refusal> {
    let call = ffi::wallmirror_coarsen_cells_with_draft;
    let (tables, lists) = ((cells, functions), (cell_list, function_list));
    change_with_draft(call, plan, tables, (draft, list), cell_numbers(marks), lists)
}

/// As [`coarsen_functions`](crate::coarsen_functions). Otherwise as [`refine_cells_with_draft`].
pub fn coarsen_functions_with_draft(
    plan: Plan,
    cells: &mut [u8],
    functions: &mut [u8],
    draft: Draft,
    list: &[Cell],
    marks: &[Function],
    cell_list: &mut [Cell],
    function_list: &mut [Function],
) -> Result<Changed, Refusal> {
    let call = ffi::wallmirror_coarsen_functions_with_draft;
    let (tables, lists) = ((cells, functions), (cell_list, function_list));
    change_with_draft(call, plan, tables, (draft, list), function_numbers(marks), lists)
}

fn change_with_draft(
    call: ffi::ChangeWithDraft,
    plan: Plan,
    (cells, functions): (&mut [u8], &mut [u8]),
    (draft, list): (Draft, &[Cell]),
    marks: &[u32],
    (cell_list, function_list): (&mut [Cell], &mut [Function]),
) -> Result<Changed, Refusal> {
    // SAFETY: pointers and lengths are those of slices; the mutable ones overlap no other. Cell and
    // Function are transparent over u32.
    changed(unsafe {
        call(
            plan.raw(),
            cells.as_mut_ptr(),
            cells.len(),
            functions.as_mut_ptr(),
            functions.len(),
            draft,
            list.as_ptr().cast(),
            list.len(),
            marks.as_ptr(),
            marks.len(),
            cell_list.as_mut_ptr().cast(),
            cell_list.len(),
            function_list.as_mut_ptr().cast(),
            function_list.len(),
        )
    })
}

/// As [`refine_cells_with_heights`](crate::refine_cells_with_heights), for a program that keeps a
/// draft: refuses 18, directly after 6 and so before 3 of the heights, 14 and 15, while it is open.
/// The draft stays as it is.
pub fn refine_cells_with_heights_and_draft(
    plan: Plan,
    cells: &mut [u8],
    functions: &mut [u8],
    heights: &mut [i32],
    draft: Draft,
    list: &[Cell],
    marks: &[Cell],
    cell_list: &mut [Cell],
    function_list: &mut [Function],
) -> Result<Changed, Refusal> {
    let call = ffi::wallmirror_refine_cells_with_heights_and_draft;
    let (tables, lists) = ((cells, functions), (cell_list, function_list));
    let marks = cell_numbers(marks);
    change_with_heights_and_draft(call, plan, tables, heights, (draft, list), marks, lists)
}

/// As [`refine_functions_with_heights`](crate::refine_functions_with_heights). Otherwise as
/// [`refine_cells_with_heights_and_draft`].
pub fn refine_functions_with_heights_and_draft(
    plan: Plan,
    cells: &mut [u8],
    functions: &mut [u8],
    heights: &mut [i32],
    draft: Draft,
    list: &[Cell],
    marks: &[Function],
    cell_list: &mut [Cell],
    function_list: &mut [Function],
) -> Result<Changed, Refusal> {
    let call = ffi::wallmirror_refine_functions_with_heights_and_draft;
    let (tables, lists) = ((cells, functions), (cell_list, function_list));
    let marks = function_numbers(marks);
    change_with_heights_and_draft(call, plan, tables, heights, (draft, list), marks, lists)
}

fn change_with_heights_and_draft(
    call: ffi::ChangeWithHeightsAndDraft,
    plan: Plan,
    (cells, functions): (&mut [u8], &mut [u8]),
    heights: &mut [i32],
    (draft, list): (Draft, &[Cell]),
    marks: &[u32],
    (cell_list, function_list): (&mut [Cell], &mut [Function]),
) -> Result<Changed, Refusal> {
    // SAFETY: pointers and lengths are those of slices; the mutable ones overlap no other. Cell and
    // Function are transparent over u32.
    changed(unsafe {
        call(
            plan.raw(),
            cells.as_mut_ptr(),
            cells.len(),
            functions.as_mut_ptr(),
            functions.len(),
            heights.as_mut_ptr(),
            heights.len(),
            draft,
            list.as_ptr().cast(),
            list.len(),
            marks.as_ptr(),
            marks.len(),
            cell_list.as_mut_ptr().cast(),
            cell_list.len(),
            function_list.as_mut_ptr().cast(),
            function_list.len(),
        )
    })
}

/// As [`open`](crate::open), for a program that keeps a draft. Accepted, it drops the draft, since
/// the mesh that it was for is gone; refused, it leaves it. The list of the draft does not matter.
pub fn open_with_draft(
    plan: Plan,
    cells: &mut [u8],
    functions: &mut [u8],
    draft: &mut Draft,
) -> Result<(), Refusal> {
    // SAFETY: pointers and lengths are those of two slices, which cannot overlap.
    let answer = unsafe {
        ffi::wallmirror_open_with_draft(
            plan.raw(),
            cells.as_mut_ptr(),
            cells.len(),
            functions.as_mut_ptr(),
            functions.len(),
            *draft,
        )
    };
    drafted(answer, draft)
}

/// As [`read`](crate::read), for a program that keeps a draft, and of the draft as
/// [`open_with_draft`].
///
/// ```
/// # use wallmirror::{read_with_draft, Draft};
/// let open = Draft { open: 1, marks: 2 };
/// let mut draft = open;
/// let file = [3, 1, 3, 1, 1, 0, 2, 0, 1];
/// let unread = read_with_draft(&file, &mut [], &mut [], &mut draft).unwrap_err();
/// assert_eq!(draft, open);
/// let plan = unread.plan.expect("a plan that is in range");
/// let mut cells = vec![0; plan.cells().unwrap()];
/// let mut functions = vec![0; plan.functions().unwrap()];
/// assert_eq!(read_with_draft(&file, &mut cells, &mut functions, &mut draft), Ok(plan));
/// assert_eq!(draft, Draft::NONE);
/// ```
pub fn read_with_draft(
    file: &[u8],
    cells: &mut [u8],
    functions: &mut [u8],
    draft: &mut Draft,
) -> Result<Plan, ReadRefusal> {
    // SAFETY: pointers and lengths are those of slices; the mutable ones overlap no other.
    let read = unsafe {
        ffi::wallmirror_read_with_draft(
            file.as_ptr(),
            file.len(),
            cells.as_mut_ptr(),
            cells.len(),
            functions.as_mut_ptr(),
            functions.len(),
            *draft,
        )
    };
    *draft = read.draft;
    plan_read(read.answer)
}
