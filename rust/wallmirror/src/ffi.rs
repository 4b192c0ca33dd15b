//! The calls as `include/wallmirror.h` declares them, for programs that need raw pointers. What each
//! does is said at the safe function of its name. Numbers that are answered are 0 or that of a
//! [`crate::Refusal`].

pub use crate::Draft;

/// As [`crate::Plan`].
#[repr(C)]
#[derive(Clone, Copy, Debug, Default, PartialEq, Eq)]
pub struct Plan {
    pub columns: u32,
    pub rows: u32,
    pub levels: u32,
    pub degree_across: u32,
    pub degree_up: u32,
    pub admissibility_class: u32,
    pub corners_across: u32,
    pub corners_up: u32,
}

/// What [`wallmirror_count`] and [`wallmirror_planes_count`] answer. After a refusal all but the number are 0.
#[repr(C)]
#[derive(Clone, Copy, Debug, Default, PartialEq, Eq)]
pub struct Count {
    pub number: u32,
    pub active_cells: u32,
    pub refined_cells: u32,
    pub active_functions: u32,
    pub area: u32,
}

/// What a refining or coarsening call answers: its number, and how many entries of each list were
/// written, 0 after a refusal.
#[repr(C)]
#[derive(Clone, Copy, Debug, Default, PartialEq, Eq)]
pub struct Answer {
    pub number: u32,
    pub cells: u32,
    pub functions: u32,
}

/// What [`wallmirror_read`] answers: its number, and the plan of the file, which is all zeros with
/// refusals 1, 2 and 12.
#[repr(C)]
#[derive(Clone, Copy, Debug, Default, PartialEq, Eq)]
pub struct Read {
    pub number: u32,
    pub plan: Plan,
}

/// What [`wallmirror_write`] answers: its number, and how many bytes of the file were written, 0
/// after a refusal.
#[repr(C)]
#[derive(Clone, Copy, Debug, Default, PartialEq, Eq)]
pub struct Written {
    pub number: u32,
    pub length: u32,
}

/// What [`wallmirror_height`] answers: its number, and the height of the surface in millimetres, 0
/// after a refusal.
#[repr(C)]
#[derive(Clone, Copy, Debug, Default, PartialEq)]
pub struct Height {
    pub number: u32,
    pub height: f64,
}

/// What [`wallmirror_corners`] answers: its number, and how many corners of cells were written, of
/// three doubles each, 0 after a refusal.
#[repr(C)]
#[derive(Clone, Copy, Debug, Default, PartialEq, Eq)]
pub struct Corners {
    pub number: u32,
    pub corners: u32,
}

/// What a call on a draft answers, and [`wallmirror_open_with_draft`]: its number, and the draft,
/// which after a refusal is as it was.
#[repr(C)]
#[derive(Clone, Copy, Debug, Default, PartialEq, Eq)]
pub struct Drafted {
    pub number: u32,
    pub draft: Draft,
}

/// What [`wallmirror_draft_close`] answers: what a refining call does, and the draft, which after a
/// refusal is as it was.
#[repr(C)]
#[derive(Clone, Copy, Debug, Default, PartialEq, Eq)]
pub struct Closed {
    pub answer: Answer,
    pub draft: Draft,
}

/// What [`wallmirror_read_with_draft`] answers: what [`wallmirror_read`] does, and the draft, which
/// after a refusal is as it was.
#[repr(C)]
#[derive(Clone, Copy, Debug, Default, PartialEq, Eq)]
pub struct ReadWithDraft {
    pub answer: Read,
    pub draft: Draft,
}

/// What [`wallmirror_rounds`] answers: its number, how many marks were written, and how many lengths
/// of rounds; both are 0 after a refusal.
#[repr(C)]
#[derive(Clone, Copy, Debug, Default, PartialEq, Eq)]
pub struct Rounds {
    pub number: u32,
    pub marks: u32,
    pub rounds: u32,
}

/// What [`wallmirror_level`] answers. All 0 where the plan is refused or does not have the level.
#[repr(C)]
#[derive(Clone, Copy, Debug, Default, PartialEq, Eq)]
pub struct Level {
    pub first_cell: u32,
    pub columns: u32,
    pub rows: u32,
    pub first_function: u32,
    pub functions_across: u32,
    pub functions_up: u32,
}

/// What [`wallmirror_place`] answers. All 0 where the plan is refused or does not have the cell.
#[repr(C)]
#[derive(Clone, Copy, Debug, Default, PartialEq, Eq)]
pub struct Place {
    /// 1.
    pub found: u32,
    pub level: u32,
    pub row: u32,
    pub column: u32,
}

/// What [`wallmirror_cell_at`] answers. All 0 where the plan is refused or does not have the place.
#[repr(C)]
#[derive(Clone, Copy, Debug, Default, PartialEq, Eq)]
pub struct CellAt {
    /// 1.
    pub found: u32,
    pub cell: u32,
}

/// What [`wallmirror_support`] answers: from the first row and column up to those at the end, which
/// are not in it. All 0 where the plan is refused or does not have the function.
#[repr(C)]
#[derive(Clone, Copy, Debug, Default, PartialEq, Eq)]
pub struct Support {
    /// 1.
    pub found: u32,
    pub level: u32,
    pub first_row: u32,
    pub end_row: u32,
    pub first_column: u32,
    pub end_column: u32,
}

/// A type of calls with these arguments, and the calls of that type.
macro_rules! changes {
    ($(#[$about:meta])* $change:ident $arguments:tt $($name:ident: $safe:ident)*) => {
        $(#[$about])*
        pub type $change = unsafe extern "C" fn $arguments -> Answer;

        unsafe extern "C" {
            $(
            #[doc = concat!("As [`crate::", stringify!($safe), "`].")]
            ///
            /// # Safety
            ///
            /// As [`Change`] says.
            pub fn $name $arguments -> Answer;)*
        }
    };
}

changes! {
    /// A refining or coarsening call.
    ///
    /// # Safety
    ///
    /// Each pointer is to be aligned and lead to so many entries as its length says, readable, and
    /// writable where it is `*mut`; with length 0 it may be null. None of the slices may overlap
    /// another.
    Change(
        plan: Plan,
        cells: *mut u8,
        cells_len: usize,
        functions: *mut u8,
        functions_len: usize,
        marks: *const u32,
        marks_len: usize,
        cell_list: *mut u32,
        cell_list_len: usize,
        function_list: *mut u32,
        function_list_len: usize,
    )
    wallmirror_refine_cells: refine_cells
    wallmirror_refine_functions: refine_functions
    wallmirror_coarsen_cells: coarsen_cells
    wallmirror_coarsen_functions: coarsen_functions
}

changes! {
    /// A refining call with heights.
    ///
    /// # Safety
    ///
    /// As [`Change`] says.
    ChangeWithHeights(
        plan: Plan,
        cells: *mut u8,
        cells_len: usize,
        functions: *mut u8,
        functions_len: usize,
        heights: *mut i32,
        heights_len: usize,
        marks: *const u32,
        marks_len: usize,
        cell_list: *mut u32,
        cell_list_len: usize,
        function_list: *mut u32,
        function_list_len: usize,
    )
    wallmirror_refine_cells_with_heights: refine_cells_with_heights
    wallmirror_refine_functions_with_heights: refine_functions_with_heights
}

changes! {
    /// A refining or coarsening call with a draft and the list of its marks.
    ///
    /// # Safety
    ///
    /// As [`Change`] says.
    ChangeWithDraft(
        plan: Plan,
        cells: *mut u8,
        cells_len: usize,
        functions: *mut u8,
        functions_len: usize,
        draft: Draft,
        list: *const u32,
        list_len: usize,
        marks: *const u32,
        marks_len: usize,
        cell_list: *mut u32,
        cell_list_len: usize,
        function_list: *mut u32,
        function_list_len: usize,
    )
    wallmirror_refine_cells_with_draft: refine_cells_with_draft
    wallmirror_refine_functions_with_draft: refine_functions_with_draft
    wallmirror_coarsen_cells_with_draft: coarsen_cells_with_draft
    wallmirror_coarsen_functions_with_draft: coarsen_functions_with_draft
}

changes! {
    /// A refining call with heights, a draft and the list of its marks.
    ///
    /// # Safety
    ///
    /// As [`Change`] says.
    ChangeWithHeightsAndDraft(
        plan: Plan,
        cells: *mut u8,
        cells_len: usize,
        functions: *mut u8,
        functions_len: usize,
        heights: *mut i32,
        heights_len: usize,
        draft: Draft,
        list: *const u32,
        list_len: usize,
        marks: *const u32,
        marks_len: usize,
        cell_list: *mut u32,
        cell_list_len: usize,
        function_list: *mut u32,
        function_list_len: usize,
    )
    wallmirror_refine_cells_with_heights_and_draft: refine_cells_with_heights_and_draft
    wallmirror_refine_functions_with_heights_and_draft: refine_functions_with_heights_and_draft
}

changes! {
    /// A refining or coarsening call on planes.
    ///
    /// # Safety
    ///
    /// As [`Change`] says.
    ChangeOfPlanes(
        plan: Plan,
        present: *mut u64,
        present_len: usize,
        refined: *mut u64,
        refined_len: usize,
        functions: *mut u8,
        functions_len: usize,
        marks: *const u32,
        marks_len: usize,
        cell_list: *mut u32,
        cell_list_len: usize,
        function_list: *mut u32,
        function_list_len: usize,
    )
    wallmirror_planes_refine_cells: planes_refine_cells
    wallmirror_planes_refine_functions: planes_refine_functions
    wallmirror_planes_coarsen_cells: planes_coarsen_cells
    wallmirror_planes_coarsen_functions: planes_coarsen_functions
}

unsafe extern "C" {
    /// As [`crate::version`].
    pub safe fn wallmirror_version() -> u32;

    /// As [`crate::Plan::check`]: 0, 1 or 2.
    pub safe fn wallmirror_plan_refusal(plan: Plan) -> u32;

    /// As [`crate::Plan::cells`], or 0.
    pub safe fn wallmirror_cells_len(plan: Plan) -> usize;

    /// As [`crate::Plan::functions`], or 0.
    pub safe fn wallmirror_functions_len(plan: Plan) -> usize;

    /// As [`crate::Plan::plane_words`], or 0.
    pub safe fn wallmirror_planes_len(plan: Plan) -> usize;

    /// As [`crate::Plan::level`].
    pub safe fn wallmirror_level(plan: Plan, level: u32) -> Level;

    /// As [`crate::Plan::place`].
    pub safe fn wallmirror_place(plan: Plan, cell: u32) -> Place;

    /// As [`crate::Plan::cell_at`].
    pub safe fn wallmirror_cell_at(plan: Plan, level: u32, row: u32, column: u32) -> CellAt;

    /// As [`crate::Plan::support`].
    pub safe fn wallmirror_support(plan: Plan, function: u32) -> Support;

    /// As [`crate::open`].
    ///
    /// # Safety
    ///
    /// As [`Change`] says, of both tables.
    pub fn wallmirror_open(
        plan: Plan,
        cells: *mut u8,
        cells_len: usize,
        functions: *mut u8,
        functions_len: usize,
    ) -> u32;

    /// As [`crate::check`].
    ///
    /// # Safety
    ///
    /// As [`Change`] says, of both tables.
    pub fn wallmirror_check(
        plan: Plan,
        cells: *const u8,
        cells_len: usize,
        functions: *const u8,
        functions_len: usize,
    ) -> u32;

    /// As [`crate::count`].
    ///
    /// # Safety
    ///
    /// As [`Change`] says, of both tables.
    pub fn wallmirror_count(
        plan: Plan,
        cells: *const u8,
        cells_len: usize,
        functions: *const u8,
        functions_len: usize,
    ) -> Count;

    /// As [`crate::read`].
    ///
    /// # Safety
    ///
    /// As [`Change`] says, of the file and both tables.
    pub fn wallmirror_read(
        file: *const u8,
        file_len: usize,
        cells: *mut u8,
        cells_len: usize,
        functions: *mut u8,
        functions_len: usize,
    ) -> Read;

    /// As [`crate::write`].
    ///
    /// # Safety
    ///
    /// As [`Change`] says, of both tables and the file.
    pub fn wallmirror_write(
        plan: Plan,
        cells: *const u8,
        cells_len: usize,
        functions: *const u8,
        functions_len: usize,
        file: *mut u8,
        file_len: usize,
    ) -> Written;

    /// As [`crate::height`].
    ///
    /// # Safety
    ///
    /// As [`Change`] says, of both tables and the heights.
    pub fn wallmirror_height(
        plan: Plan,
        cells: *const u8,
        cells_len: usize,
        functions: *const u8,
        functions_len: usize,
        heights: *const i32,
        heights_len: usize,
        across: u32,
        up: u32,
    ) -> Height;

    /// As [`crate::corners`].
    ///
    /// # Safety
    ///
    /// As [`Change`] says, of both tables, the heights and the output.
    pub fn wallmirror_corners(
        plan: Plan,
        cells: *const u8,
        cells_len: usize,
        functions: *const u8,
        functions_len: usize,
        heights: *const i32,
        heights_len: usize,
        out: *mut f64,
        out_len: usize,
    ) -> Corners;

    /// As [`crate::draft_open`].
    ///
    /// # Safety
    ///
    /// As [`Change`] says, of both tables and the list.
    pub fn wallmirror_draft_open(
        plan: Plan,
        cells: *const u8,
        cells_len: usize,
        functions: *const u8,
        functions_len: usize,
        draft: Draft,
        list: *const u32,
        list_len: usize,
    ) -> Drafted;

    /// As [`crate::draft_add`].
    ///
    /// # Safety
    ///
    /// As [`Change`] says, of both tables, the list and the marks.
    pub fn wallmirror_draft_add(
        plan: Plan,
        cells: *const u8,
        cells_len: usize,
        functions: *const u8,
        functions_len: usize,
        draft: Draft,
        list: *mut u32,
        list_len: usize,
        marks: *const u32,
        marks_len: usize,
    ) -> Drafted;

    /// As [`crate::draft_close`].
    ///
    /// # Safety
    ///
    /// As [`Change`] says, of both tables and the three lists.
    pub fn wallmirror_draft_close(
        plan: Plan,
        cells: *mut u8,
        cells_len: usize,
        functions: *mut u8,
        functions_len: usize,
        draft: Draft,
        list: *const u32,
        list_len: usize,
        cell_list: *mut u32,
        cell_list_len: usize,
        function_list: *mut u32,
        function_list_len: usize,
    ) -> Closed;

    /// As [`crate::draft_drop`].
    ///
    /// # Safety
    ///
    /// As [`Change`] says, of both tables and the list.
    pub fn wallmirror_draft_drop(
        plan: Plan,
        cells: *const u8,
        cells_len: usize,
        functions: *const u8,
        functions_len: usize,
        draft: Draft,
        list: *const u32,
        list_len: usize,
    ) -> Drafted;

    /// As [`crate::open_with_draft`].
    ///
    /// # Safety
    ///
    /// As [`Change`] says, of both tables.
    pub fn wallmirror_open_with_draft(
        plan: Plan,
        cells: *mut u8,
        cells_len: usize,
        functions: *mut u8,
        functions_len: usize,
        draft: Draft,
    ) -> Drafted;

    /// As [`crate::read_with_draft`].
    ///
    /// # Safety
    ///
    /// As [`Change`] says, of the file and both tables.
    pub fn wallmirror_read_with_draft(
        file: *const u8,
        file_len: usize,
        cells: *mut u8,
        cells_len: usize,
        functions: *mut u8,
        functions_len: usize,
        draft: Draft,
    ) -> ReadWithDraft;

    /// As [`crate::rounds`].
    ///
    /// # Safety
    ///
    /// As [`Change`] says, of the four tables and both lists, but that the tables, which are only
    /// read, may overlap each other.
    pub fn wallmirror_rounds(
        plan: Plan,
        cells: *const u8,
        cells_len: usize,
        functions: *const u8,
        functions_len: usize,
        wanted_cells: *const u8,
        wanted_cells_len: usize,
        wanted_functions: *const u8,
        wanted_functions_len: usize,
        marks: *mut u32,
        marks_len: usize,
        lengths: *mut u32,
        lengths_len: usize,
    ) -> Rounds;

    /// As [`crate::planes_open`].
    ///
    /// # Safety
    ///
    /// As [`Change`] says, of both planes and the function table.
    pub fn wallmirror_planes_open(
        plan: Plan,
        present: *mut u64,
        present_len: usize,
        refined: *mut u64,
        refined_len: usize,
        functions: *mut u8,
        functions_len: usize,
    ) -> u32;

    /// As [`crate::planes_check`].
    ///
    /// # Safety
    ///
    /// As [`Change`] says, of both planes and the function table.
    pub fn wallmirror_planes_check(
        plan: Plan,
        present: *const u64,
        present_len: usize,
        refined: *const u64,
        refined_len: usize,
        functions: *const u8,
        functions_len: usize,
    ) -> u32;

    /// As [`crate::planes_count`].
    ///
    /// # Safety
    ///
    /// As [`Change`] says, of both planes and the function table.
    pub fn wallmirror_planes_count(
        plan: Plan,
        present: *const u64,
        present_len: usize,
        refined: *const u64,
        refined_len: usize,
        functions: *const u8,
        functions_len: usize,
    ) -> Count;

    /// As [`crate::planes_from_cells`].
    ///
    /// # Safety
    ///
    /// As [`Change`] says, of the cell table and both planes.
    pub fn wallmirror_planes_from_cells(
        plan: Plan,
        cells: *const u8,
        cells_len: usize,
        present: *mut u64,
        present_len: usize,
        refined: *mut u64,
        refined_len: usize,
    ) -> u32;

    /// As [`crate::planes_to_cells`].
    ///
    /// # Safety
    ///
    /// As [`Change`] says, of both planes and the cell table.
    pub fn wallmirror_planes_to_cells(
        plan: Plan,
        present: *const u64,
        present_len: usize,
        refined: *const u64,
        refined_len: usize,
        cells: *mut u8,
        cells_len: usize,
    ) -> u32;
}
