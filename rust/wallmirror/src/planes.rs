//! Meshes whose cells are two planes of bits, and the calls on them.

// The calls take what those of the C header take.
#![allow(clippy::too_many_arguments)]

use crate::any_mesh::sealed;
use crate::mesh::table;
use crate::{
    accepted, cell_numbers, changed, counted, ffi, function_numbers, AnyMesh, Call, Cell, Changed,
    Count, Function, Lists, Mesh, Plan, Refusal,
};

/// A plan with two planes and a function table that it owns: a [`Mesh`] in less memory, without
/// drafts and heights. Anything may stand in the planes and in the table; the calls refuse what is no
/// mesh. What the bits say is told [here](crate#two-bits-a-cell).
///
/// ```
/// # use wallmirror::{Cell, Function, Mesh, Plan, Planes};
/// let plan = Plan { columns: 3, levels: 3, admissibility_class: 2, ..Plan::default() };
/// let mut planes = Planes::open(plan)?;
/// planes.refine_cells(&[Cell(0)])?;
/// let mut mesh = planes.to_mesh()?;
/// // Cell 1 becomes refined too, because the mesh has to stay admissible.
/// let lists = planes.refine_cells(&[Cell(4)])?;
/// assert_eq!(lists.cells, [Cell(1), Cell(4)]);
/// // It is what the mesh does, and both are the same then.
/// assert_eq!(mesh.refine_cells(&[Cell(4)])?, lists);
/// assert_eq!(planes, Planes::from_mesh(&mesh)?);
/// // Given to the opposite call, the cells take it back.
/// assert_eq!(planes.coarsen_cells(&lists.cells)?, lists);
/// # Ok::<(), wallmirror::Refusal>(())
/// ```
#[derive(Clone, Debug, PartialEq, Eq, Hash)]
pub struct Planes {
    pub plan: Plan,
    /// One bit for each cell of each level: whether it is present.
    pub present: Vec<u64>,
    /// One bit for each cell of each level: whether it is refined.
    pub refined: Vec<u64>,
    /// One byte for each function of each level.
    pub functions: Vec<u8>,
}

impl Planes {
    /// These planes and this table. Nothing is checked.
    pub fn from_tables(
        plan: Plan,
        present: Vec<u64>,
        refined: Vec<u64>,
        functions: Vec<u8>,
    ) -> Planes {
        Planes { plan, present, refined, functions }
    }

    /// The coarsest mesh of a plan. Refuses 1 and 2.
    ///
    /// ```
    /// # use wallmirror::{Plan, Planes, Refusal};
    /// let planes = Planes::open(Plan { columns: 3, levels: 3, ..Plan::default() })?;
    /// assert_eq!((&planes.present[..], &planes.refined[..]), (&[0b111][..], &[0][..]));
    /// assert_eq!(planes.functions.len(), 94);
    /// let refused = Planes::open(Plan { columns: 17, ..Plan::default() });
    /// assert_eq!(refused, Err(Refusal::PlanOutOfRange));
    /// # Ok::<(), Refusal>(())
    /// ```
    pub fn open(plan: Plan) -> Result<Planes, Refusal> {
        let (mut present, mut refined) = (table(plan.plane_words()), table(plan.plane_words()));
        let mut functions = table(plan.functions());
        planes_open(plan, &mut present, &mut refined, &mut functions)?;
        Ok(Planes::from_tables(plan, present, refined, functions))
    }

    /// The planes of a mesh. The function table is taken as it is, and it is not asked whether the
    /// cells are a mesh. Refuses 1 to 4 as [`planes_from_cells`] does; then 18 while a draft is open
    /// on the mesh, since planes have none and its marks would be lost.
    ///
    /// ```
    /// # use wallmirror::{Mesh, Plan, Planes, Refusal};
    /// let mut mesh = Mesh::open(Plan { columns: 3, levels: 3, ..Plan::default() })?;
    /// let planes = Planes::from_mesh(&mesh)?;
    /// assert_eq!(planes.to_mesh(), Ok(mesh.clone()));
    /// mesh.open_draft()?;
    /// assert_eq!(Planes::from_mesh(&mesh), Err(Refusal::DraftOpen));
    /// # Ok::<(), Refusal>(())
    /// ```
    pub fn from_mesh(mesh: &Mesh) -> Result<Planes, Refusal> {
        let plan = mesh.plan;
        let (mut present, mut refined) = (table(plan.plane_words()), table(plan.plane_words()));
        planes_from_cells(plan, &mesh.cells, &mut present, &mut refined)?;
        if mesh.draft.is_some() {
            return Err(Refusal::DraftOpen);
        }
        Ok(Planes::from_tables(plan, present, refined, mesh.functions.clone()))
    }

    /// The mesh of the planes, without a draft. The function table is taken as it is, and it is not
    /// asked whether the cells are a mesh. Refuses 1 to 4 as [`planes_to_cells`] does.
    pub fn to_mesh(&self) -> Result<Mesh, Refusal> {
        let mut cells = table(self.plan.cells());
        planes_to_cells(self.plan, &self.present, &self.refined, &mut cells)?;
        Ok(Mesh::from_tables(self.plan, cells, self.functions.clone()))
    }

    /// Whether the planes and the function table are an admissible mesh of the plan, as
    /// [`planes_check`] says.
    pub fn check(&self) -> Result<(), Refusal> {
        planes_check(self.plan, &self.present, &self.refined, &self.functions)
    }

    /// Cells, functions and area, as [`planes_count`] says.
    pub fn count(&self) -> Result<Count, Refusal> {
        planes_count(self.plan, &self.present, &self.refined, &self.functions)
    }

    /// Refines by cells, as [`planes_refine_cells`] says. Refuses 1 to 9.
    pub fn refine_cells(&mut self, marks: &[Cell]) -> Result<Lists, Refusal> {
        self.change(ffi::wallmirror_planes_refine_cells, cell_numbers(marks))
    }

    /// Refines by functions, as [`planes_refine_functions`] says. Refuses 1 to 9.
    pub fn refine_functions(&mut self, marks: &[Function]) -> Result<Lists, Refusal> {
        self.change(ffi::wallmirror_planes_refine_functions, function_numbers(marks))
    }

    /// Coarsens by cells, as [`planes_coarsen_cells`] says. Refuses 1 to 8.
    pub fn coarsen_cells(&mut self, marks: &[Cell]) -> Result<Lists, Refusal> {
        self.change(ffi::wallmirror_planes_coarsen_cells, cell_numbers(marks))
    }

    /// Coarsens by functions, as [`planes_coarsen_functions`] says. Refuses 1 to 8.
    pub fn coarsen_functions(&mut self, marks: &[Function]) -> Result<Lists, Refusal> {
        self.change(ffi::wallmirror_planes_coarsen_functions, function_numbers(marks))
    }

    /// The one of the four calls above that `call` is.
    pub fn make(&mut self, call: &Call) -> Result<Lists, Refusal> {
        AnyMesh::make(self, call)
    }

    /// The first mark for which a call is refused with 7, 8 or 9: its index in the list of marks.
    /// `None` where the call is not refused so. It is that of [`Mesh::first_fault`] on the same cells.
    pub fn first_fault(&self, call: &Call) -> Option<usize> {
        // Planes of which no mesh can be made are refused with 1 to 4.
        self.to_mesh().ok()?.first_fault(call)
    }

    /// Lends a call the planes, the function table and two lists, and keeps what it wrote.
    fn change(&mut self, call: ffi::ChangeOfPlanes, marks: &[u32]) -> Result<Lists, Refusal> {
        let tables = (&mut self.present[..], &mut self.refined[..], &mut self.functions[..]);
        Lists::of(self.plan, |lists| change_of_planes(call, self.plan, tables, marks, lists))
    }
}

impl sealed::Sealed for Planes {
    fn without_draft(&self) -> Planes {
        self.clone()
    }

    fn has_draft(&self) -> bool {
        false
    }
}

/// As [`Planes::from_mesh`].
impl TryFrom<&Mesh> for Planes {
    type Error = Refusal;

    fn try_from(mesh: &Mesh) -> Result<Planes, Refusal> {
        Planes::from_mesh(mesh)
    }
}

/// As [`Planes::to_mesh`].
impl TryFrom<&Planes> for Mesh {
    type Error = Refusal;

    fn try_from(planes: &Planes) -> Result<Mesh, Refusal> {
        planes.to_mesh()
    }
}

/// As [`open`](crate::open): both planes and the function table become the coarsest mesh of the
/// plan, whatever they held. Spare bits become 0. Refuses 1 to 3.
///
/// ```
/// # use wallmirror::{planes_open, Plan, Refusal};
/// let plan = Plan { columns: 3, levels: 3, ..Plan::default() };
/// let (mut present, mut refined, mut functions) = ([u64::MAX; 1], [u64::MAX; 1], [9; 94]);
/// planes_open(plan, &mut present, &mut refined, &mut functions)?;
/// // Cells 0 to 2 are those of level 0.
/// assert_eq!((present, refined), ([0b111], [0]));
/// # Ok::<(), Refusal>(())
/// ```
pub fn planes_open(
    plan: Plan,
    present: &mut [u64],
    refined: &mut [u64],
    functions: &mut [u8],
) -> Result<(), Refusal> {
    // SAFETY: pointers and lengths are those of slices, which cannot overlap.
    accepted(unsafe {
        ffi::wallmirror_planes_open(
            plan.raw(),
            present.as_mut_ptr(),
            present.len(),
            refined.as_mut_ptr(),
            refined.len(),
            functions.as_mut_ptr(),
            functions.len(),
        )
    })
}

/// As [`check`](crate::check): whether the planes and the function table are an admissible mesh of
/// the plan. Refuses 1 to 6, where 4 also comes for planes that are not
/// [in order](crate#two-bits-a-cell).
///
/// ```
/// # use wallmirror::{planes_check, planes_open, Plan, Refusal};
/// # let plan = Plan { columns: 3, levels: 3, ..Plan::default() };
/// # let (mut present, mut refined, mut functions) = ([0; 1], [0; 1], [0; 94]);
/// planes_open(plan, &mut present, &mut refined, &mut functions)?;
/// assert_eq!(planes_check(plan, &present, &refined, &functions), Ok(()));
/// // Cell 3 is absent.
/// refined[0] |= 1 << 3;
/// assert_eq!(planes_check(plan, &present, &refined, &functions), Err(Refusal::NotAMesh));
/// # Ok::<(), Refusal>(())
/// ```
pub fn planes_check(
    plan: Plan,
    present: &[u64],
    refined: &[u64],
    functions: &[u8],
) -> Result<(), Refusal> {
    // SAFETY: pointers and lengths are those of slices, which are only read.
    accepted(unsafe {
        ffi::wallmirror_planes_check(
            plan.raw(),
            present.as_ptr(),
            present.len(),
            refined.as_ptr(),
            refined.len(),
            functions.as_ptr(),
            functions.len(),
        )
    })
}

/// As [`count`](crate::count): cells, functions and area of a mesh. Refuses as [`planes_check`].
///
/// ```
/// # use wallmirror::{planes_count, planes_open, Plan, Refusal};
/// # let plan = Plan { columns: 3, levels: 3, ..Plan::default() };
/// # let (mut present, mut refined, mut functions) = ([0; 1], [0; 1], [0; 94]);
/// # planes_open(plan, &mut present, &mut refined, &mut functions)?;
/// let count = planes_count(plan, &present, &refined, &functions)?;
/// assert_eq!((count.active_cells, count.refined_cells, count.area), (3, 0, 48));
/// # Ok::<(), Refusal>(())
/// ```
pub fn planes_count(
    plan: Plan,
    present: &[u64],
    refined: &[u64],
    functions: &[u8],
) -> Result<Count, Refusal> {
    // SAFETY: pointers and lengths are those of slices, which are only read.
    counted(unsafe {
        ffi::wallmirror_planes_count(
            plan.raw(),
            present.as_ptr(),
            present.len(),
            refined.as_ptr(),
            refined.len(),
            functions.as_ptr(),
            functions.len(),
        )
    })
}

/// As [`refine_cells`](crate::refine_cells) on the cells that the planes hold: function table, lists
/// and answer are the same, and the planes become those of its cells. Refuses 1 to 11, where 4 also
/// comes for planes that are not [in order](crate#two-bits-a-cell).
///
/// ```
/// # use wallmirror::{planes_open, planes_refine_cells, Cell, Changed, Function, Plan, Refusal};
/// # let plan = Plan { columns: 3, levels: 3, ..Plan::default() };
/// # let (mut present, mut refined, mut functions) = ([0; 1], [0; 1], [0; 94]);
/// planes_open(plan, &mut present, &mut refined, &mut functions)?;
/// let (mut cell_list, mut function_list) = ([Cell(9); 1], [Function(9); 2]);
/// let changed = planes_refine_cells(
///     plan,
///     &mut present,
///     &mut refined,
///     &mut functions,
///     &[Cell(0)],
///     &mut cell_list,
///     &mut function_list,
/// )?;
/// assert_eq!(changed, Changed { cells: 1, functions: 2 });
/// assert_eq!((cell_list, function_list), ([Cell(0)], [Function(0), Function(4)]));
/// // The children of cell 0 are cells 3, 4, 9 and 10.
/// assert_eq!((present, refined), ([0b110_0001_1111], [0b1]));
/// # Ok::<(), Refusal>(())
/// ```
pub fn planes_refine_cells(
    plan: Plan,
    present: &mut [u64],
    refined: &mut [u64],
    functions: &mut [u8],
    marks: &[Cell],
    cell_list: &mut [Cell],
    function_list: &mut [Function],
) -> Result<Changed, Refusal> {
    let call = ffi::wallmirror_planes_refine_cells;
    let (tables, lists) = ((present, refined, functions), (cell_list, function_list));
    change_of_planes(call, plan, tables, cell_numbers(marks), lists)
}

/// As [`refine_functions`](crate::refine_functions). Otherwise as [`planes_refine_cells`].
pub fn planes_refine_functions(
    plan: Plan,
    present: &mut [u64],
    refined: &mut [u64],
    functions: &mut [u8],
    marks: &[Function],
    cell_list: &mut [Cell],
    function_list: &mut [Function],
) -> Result<Changed, Refusal> {
    let call = ffi::wallmirror_planes_refine_functions;
    let (tables, lists) = ((present, refined, functions), (cell_list, function_list));
    change_of_planes(call, plan, tables, function_numbers(marks), lists)
}

/// As [`coarsen_cells`](crate::coarsen_cells). Otherwise as [`planes_refine_cells`], but that 9 never
/// comes.
pub fn planes_coarsen_cells(
    plan: Plan,
    present: &mut [u64],
    refined: &mut [u64],
    functions: &mut [u8],
    marks: &[Cell],
    cell_list: &mut [Cell],
    function_list: &mut [Function],
) -> Result<Changed, Refusal> {
    let call = ffi::wallmirror_planes_coarsen_cells;
    let (tables, lists) = ((present, refined, functions), (cell_list, function_list));
    change_of_planes(call, plan, tables, cell_numbers(marks), lists)
}

/// As [`coarsen_functions`](crate::coarsen_functions). Otherwise as [`planes_coarsen_cells`].
pub fn planes_coarsen_functions(
    plan: Plan,
    present: &mut [u64],
    refined: &mut [u64],
    functions: &mut [u8],
    marks: &[Function],
    cell_list: &mut [Cell],
    function_list: &mut [Function],
) -> Result<Changed, Refusal> {
    let call = ffi::wallmirror_planes_coarsen_functions;
    let (tables, lists) = ((present, refined, functions), (cell_list, function_list));
    change_of_planes(call, plan, tables, function_numbers(marks), lists)
}

fn change_of_planes(
    call: ffi::ChangeOfPlanes,
    plan: Plan,
    (present, refined, functions): (&mut [u64], &mut [u64], &mut [u8]),
    marks: &[u32],
    (cell_list, function_list): (&mut [Cell], &mut [Function]),
) -> Result<Changed, Refusal> {
    // SAFETY: pointers and lengths are those of slices; the mutable ones overlap no other. Cell and
    // Function are transparent over u32.
    changed(unsafe {
        call(
            plan.raw(),
            present.as_mut_ptr(),
            present.len(),
            refined.as_mut_ptr(),
            refined.len(),
            functions.as_mut_ptr(),
            functions.len(),
            marks.as_ptr(),
            marks.len(),
            cell_list.as_mut_ptr().cast(),
            cell_list.len(),
            function_list.as_mut_ptr().cast(),
            function_list.len(),
        )
    })
}

/// Makes the planes those of a cell table, whatever they held. Spare bits become 0. It does not ask
/// whether the cells are a mesh. Refuses 1 to 3; then 4 for a byte above 2.
///
/// ```
/// # use wallmirror::{planes_from_cells, planes_to_cells, Plan, Refusal};
/// let plan = Plan { columns: 3, ..Plan::default() };
/// let (mut present, mut refined) = ([9], [9]);
/// planes_from_cells(plan, &[0, 1, 2], &mut present, &mut refined)?;
/// assert_eq!((present, refined), ([0b110], [0b100]));
/// let mut cells = [9; 3];
/// planes_to_cells(plan, &present, &refined, &mut cells)?;
/// assert_eq!(cells, [0, 1, 2]);
/// let refused = planes_from_cells(plan, &[0, 3, 2], &mut present, &mut refined);
/// assert_eq!(refused, Err(Refusal::NotAMesh));
/// assert_eq!((present, refined), ([0b110], [0b100]));
/// # Ok::<(), Refusal>(())
/// ```
pub fn planes_from_cells(
    plan: Plan,
    cells: &[u8],
    present: &mut [u64],
    refined: &mut [u64],
) -> Result<(), Refusal> {
    // SAFETY: pointers and lengths are those of slices; the mutable ones overlap no other.
    accepted(unsafe {
        ffi::wallmirror_planes_from_cells(
            plan.raw(),
            cells.as_ptr(),
            cells.len(),
            present.as_mut_ptr(),
            present.len(),
            refined.as_mut_ptr(),
            refined.len(),
        )
    })
}

/// Makes the cell table that of the planes, whatever it held. It does not ask whether the cells are
/// a mesh. Refuses 1 to 3; then 4 for planes that are not [in order](crate#two-bits-a-cell).
pub fn planes_to_cells(
    plan: Plan,
    present: &[u64],
    refined: &[u64],
    cells: &mut [u8],
) -> Result<(), Refusal> {
    // SAFETY: pointers and lengths are those of slices; the mutable one overlaps no other.
    accepted(unsafe {
        ffi::wallmirror_planes_to_cells(
            plan.raw(),
            present.as_ptr(),
            present.len(),
            refined.as_ptr(),
            refined.len(),
            cells.as_mut_ptr(),
            cells.len(),
        )
    })
}
