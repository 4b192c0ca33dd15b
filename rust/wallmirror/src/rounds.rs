//! Rounds of marks that lead from a mesh to a wanted one.

// The call takes what that of the C header takes.
#![allow(clippy::too_many_arguments)]

use crate::mesh::table;
use crate::{accepted, ffi, Cell, Mesh, Plan, Refusal, MAX_ROUNDS};
use std::fmt;

/// How many entries [`rounds`] wrote to its two lists.
#[derive(Clone, Copy, Debug, PartialEq, Eq)]
pub struct Rounds {
    /// Marks of all rounds together.
    pub marks: usize,
    /// Lengths of rounds: one for each level but the last.
    pub rounds: usize,
}

/// Why there are no rounds from one mesh to another.
#[derive(Clone, Copy, Debug, PartialEq, Eq, Hash)]
pub enum RoundsRefusal {
    /// The two meshes have different plans.
    OtherPlan,
    /// 1 to 6, of either mesh, or 20.
    Refused(Refusal),
}

impl fmt::Display for RoundsRefusal {
    fn fmt(&self, f: &mut fmt::Formatter<'_>) -> fmt::Result {
        match self {
            RoundsRefusal::OtherPlan => f.write_str("the wanted mesh has another plan"),
            RoundsRefusal::Refused(refusal) => refusal.fmt(f),
        }
    }
}

impl std::error::Error for RoundsRefusal {}

impl From<Refusal> for RoundsRefusal {
    fn from(refusal: Refusal) -> RoundsRefusal {
        RoundsRefusal::Refused(refusal)
    }
}

/// Writes the marks that lead from today's mesh to a wanted one of the same plan, round after round,
/// to one list, and the lengths of the rounds to another. There is one round for each level but the
/// last, and it may be empty. Round k has, in rising order, the cells of level k that are refined in
/// the wanted mesh and active after the rounds before it. What the rounds do when they are made is
/// said [above](crate#from-one-mesh-to-another). No table changes.
///
/// There are as many marks as the wanted mesh has refined cells more than today's, and
/// [`MAX_CELLS`](crate::MAX_CELLS) entries are always enough for them. For the lengths
/// [`MAX_ROUNDS`] entries are. Entries past what is written keep their values.
///
/// Refuses 1 to 6 of today's mesh; then 1 to 6 of the wanted one; then 20 where a cell that is refined
/// is not refined in the wanted mesh; then 10 where a list is too short for the marks or for the
/// lengths. After a refusal both lists keep their values.
///
/// ```
/// # use wallmirror::{open, refine_cells, rounds, Cell, Function, Plan, Refusal, Rounds};
/// let plan = Plan { columns: 2, levels: 3, ..Plan::default() };
/// # let (t, f) = (plan.cells().unwrap(), plan.functions().unwrap());
/// # let (mut cells, mut functions) = (vec![0; t], vec![0; f]);
/// # let (mut cell_list, mut function_list) = (vec![Cell(0); t], vec![Function(0); f]);
/// open(plan, &mut cells, &mut functions)?;
/// let (mut wanted_cells, mut wanted_functions) = (cells.clone(), functions.clone());
/// # let (wanted_cells, wanted_functions) = (&mut wanted_cells[..], &mut wanted_functions[..]);
/// # let (cell_list, function_list) = (&mut cell_list[..], &mut function_list[..]);
/// for mark in [0, 2, 7] {
///     let mark = [Cell(mark)];
///     refine_cells(plan, wanted_cells, wanted_functions, &mark, cell_list, function_list)?;
/// }
/// let (mut marks, mut lengths) = ([Cell(99); 4], [99; 3]);
/// let (wanted_cells, wanted_functions) = (&wanted_cells[..], &wanted_functions[..]);
/// let found = rounds(
///     plan, &cells, &functions, wanted_cells, wanted_functions, &mut marks, &mut lengths,
/// )?;
/// assert_eq!(found, Rounds { marks: 3, rounds: 2 });
/// // Cell 0 is of level 0, cells 2 and 7 are of level 1.
/// assert_eq!((marks, lengths), ([0, 2, 7, 99].map(Cell), [1, 2, 99]));
/// // The other way round cells would have to be coarsened.
/// let refused = rounds(
///     plan, wanted_cells, wanted_functions, &cells, &functions, &mut marks, &mut lengths,
/// );
/// assert_eq!(refused, Err(Refusal::RefinedCellNotWanted));
/// # Ok::<(), Refusal>(())
/// ```
pub fn rounds(
    plan: Plan,
    cells: &[u8],
    functions: &[u8],
    wanted_cells: &[u8],
    wanted_functions: &[u8],
    marks: &mut [Cell],
    lengths: &mut [u32],
) -> Result<Rounds, Refusal> {
    // SAFETY: pointers and lengths are those of slices; the mutable ones overlap no other. Cell is
    // transparent over u32.
    let answer = unsafe {
        ffi::wallmirror_rounds(
            plan.raw(),
            cells.as_ptr(),
            cells.len(),
            functions.as_ptr(),
            functions.len(),
            wanted_cells.as_ptr(),
            wanted_cells.len(),
            wanted_functions.as_ptr(),
            wanted_functions.len(),
            marks.as_mut_ptr().cast(),
            marks.len(),
            lengths.as_mut_ptr(),
            lengths.len(),
        )
    };
    if answer.number == Refusal::RefinedCellNotWanted.number() {
        return Err(Refusal::RefinedCellNotWanted);
    }
    accepted(answer.number)?;
    Ok(Rounds { marks: answer.marks as usize, rounds: answer.rounds as usize })
}

impl Mesh {
    /// The rounds of marks that lead from this mesh to a wanted one, as [`rounds`] says: one for each
    /// level but the last, empty ones too. Made one after another by [`Mesh::refine_cells`], while no
    /// draft is open, each is accepted and lists its own marks as cells; then the tables are the
    /// wanted ones. A draft on either mesh has no part in it: both are only read.
    ///
    /// Meshes of different plans are refused before anything else. Then refuses 1 to 6 of this mesh;
    /// then 1 to 6 of the wanted one; then 20. Of which mesh 1 to 6 are, [`Mesh::check`] tells.
    ///
    /// ```
    /// # use wallmirror::{Cell, Mesh, Plan, Refusal, RoundsRefusal};
    /// let plan = Plan { columns: 2, levels: 3, ..Plan::default() };
    /// let mut mesh = Mesh::open(plan)?;
    /// mesh.refine_cells(&[Cell(0)])?;
    /// let mut wanted = mesh.clone();
    /// wanted.refine_cells(&[2, 7].map(Cell))?;
    /// // Nothing is missing on level 0. Cells 2 and 7 are of level 1.
    /// assert_eq!(mesh.rounds_to(&wanted)?, [vec![], vec![Cell(2), Cell(7)]]);
    /// let refused = wanted.rounds_to(&mesh);
    /// assert_eq!(refused, Err(RoundsRefusal::Refused(Refusal::RefinedCellNotWanted)));
    /// let other = Mesh::open(Plan { columns: 3, ..plan })?;
    /// assert_eq!(mesh.rounds_to(&other), Err(RoundsRefusal::OtherPlan));
    /// # Ok::<(), RoundsRefusal>(())
    /// ```
    pub fn rounds_to(&self, wanted: &Mesh) -> Result<Vec<Vec<Cell>>, RoundsRefusal> {
        if self.plan != wanted.plan {
            return Err(RoundsRefusal::OtherPlan);
        }
        let (mut marks, mut lengths) = (table(self.plan.cells()), [0; MAX_ROUNDS]);
        let written = rounds(
            self.plan,
            &self.cells,
            &self.functions,
            &wanted.cells,
            &wanted.functions,
            &mut marks,
            &mut lengths,
        )?;
        let mut marks = marks.into_iter();
        let mut round = |&length: &u32| marks.by_ref().take(length as usize).collect();
        Ok(lengths[..written.rounds].iter().map(&mut round).collect())
    }
}
