//! What a mesh has however its cells are held.

use crate::{Call, Cell, Count, Function, Lists, Mesh, Planes, Refusal};

/// A mesh that owns its tables, whether its cells are bytes or two planes of bits: a [`Mesh`] or
/// [`Planes`], and no other type. What the calls do is said there. A [`Season`](crate::Season) may
/// have either.
///
/// ```
/// # use wallmirror::{AnyMesh, Cell, Mesh, Plan, Planes, Refusal};
/// fn refine_first(mesh: &mut impl AnyMesh) -> Result<usize, Refusal> {
///     mesh.refine_cells(&[Cell(0)])?;
///     Ok(mesh.count()?.active_cells)
/// }
/// let plan = Plan { columns: 3, levels: 3, ..Plan::default() };
/// assert_eq!(refine_first(&mut Mesh::open(plan)?), Ok(6));
/// assert_eq!(refine_first(&mut Planes::open(plan)?), Ok(6));
/// # Ok::<(), Refusal>(())
/// ```
pub trait AnyMesh: sealed::Sealed {
    /// As [`Mesh::check`].
    fn check(&self) -> Result<(), Refusal>;

    /// As [`Mesh::count`].
    fn count(&self) -> Result<Count, Refusal>;

    /// As [`Mesh::refine_cells`].
    fn refine_cells(&mut self, marks: &[Cell]) -> Result<Lists, Refusal>;

    /// As [`Mesh::refine_functions`].
    fn refine_functions(&mut self, marks: &[Function]) -> Result<Lists, Refusal>;

    /// As [`Mesh::coarsen_cells`].
    fn coarsen_cells(&mut self, marks: &[Cell]) -> Result<Lists, Refusal>;

    /// As [`Mesh::coarsen_functions`].
    fn coarsen_functions(&mut self, marks: &[Function]) -> Result<Lists, Refusal>;

    /// The one of the four calls above that `call` is.
    fn make(&mut self, call: &Call) -> Result<Lists, Refusal> {
        match call {
            Call::RefineCells(marks) => self.refine_cells(marks),
            Call::RefineFunctions(marks) => self.refine_functions(marks),
            Call::CoarsenCells(marks) => self.coarsen_cells(marks),
            Call::CoarsenFunctions(marks) => self.coarsen_functions(marks),
        }
    }
}

pub(crate) mod sealed {
    /// What a season needs of a mesh besides its calls.
    pub trait Sealed {
        /// A copy of the tables, without a draft.
        fn without_draft(&self) -> Self;

        fn has_draft(&self) -> bool;
    }
}

/// The calls are those of the type itself, so that no program has to name the trait to make them.
macro_rules! any_mesh {
    ($($mesh:ident)*) => {
        $(impl AnyMesh for $mesh {
            fn check(&self) -> Result<(), Refusal> {
                $mesh::check(self)
            }

            fn count(&self) -> Result<Count, Refusal> {
                $mesh::count(self)
            }

            fn refine_cells(&mut self, marks: &[Cell]) -> Result<Lists, Refusal> {
                $mesh::refine_cells(self, marks)
            }

            fn refine_functions(&mut self, marks: &[Function]) -> Result<Lists, Refusal> {
                $mesh::refine_functions(self, marks)
            }

            fn coarsen_cells(&mut self, marks: &[Cell]) -> Result<Lists, Refusal> {
                $mesh::coarsen_cells(self, marks)
            }

            fn coarsen_functions(&mut self, marks: &[Function]) -> Result<Lists, Refusal> {
                $mesh::coarsen_functions(self, marks)
            }
        })*
    };
}

any_mesh!(Mesh Planes);
