//! A mesh together with the calls made on it, to be taken back.

use crate::{AnyMesh, Call, Cell, Function, Lists, Mesh, Refusal};

/// A mesh and the calls that were made on it, each with its lists. The calls can be taken back, the
/// last first: every opposite call is accepted and names the same cells and functions as the call it
/// takes back, and after all of them both tables are what they were first, byte for byte. That is
/// proved of the library, for every run of calls on a mesh that passes [`check`](crate::check),
/// where nothing else writes the tables; nothing else can, since the season owns them.
///
/// The mesh is a [`Mesh`], or [`Planes`](crate::Planes), of which the same is proved: a
/// `Season<Planes>` has the calls that planes have.
///
/// A [draft](crate#drafts) that was closed is one refinement by cells with all its marks, and one
/// that was dropped leaves nothing to take back. While one is open no call is taken back.
///
/// ```
/// # use wallmirror::{Cell, Function, Mesh, Plan, Refusal, Season};
/// let plan = Plan { columns: 3, levels: 3, admissibility_class: 2, ..Plan::default() };
/// let march = Mesh::open(plan)?;
/// let mut season = Season::new(march.clone())?;
/// season.refine_cells(&[Cell(0)])?;
/// season.refine_cells(&[Cell(3)])?;
/// // A refused call changes nothing, and there is nothing to take back.
/// assert_eq!(season.coarsen_cells(&[Cell(0)]), Err(Refusal::MarkOfWrongKind));
/// season.coarsen_functions(&[Function(8)])?;
/// assert_eq!(season.calls().len(), 3);
/// for undone in season.undo_all()? {
///     assert_eq!(undone.lists, undone.made.lists);
/// }
/// assert_eq!(season.mesh(), &march);
/// # Ok::<(), Refusal>(())
/// ```
#[derive(Clone, Debug, PartialEq, Eq)]
pub struct Season<M = Mesh> {
    first: M,
    mesh: M,
    calls: Vec<Made>,
}

/// A call that was accepted, with what it listed.
#[derive(Clone, Debug, PartialEq, Eq, Hash)]
pub struct Made {
    /// A refinement with heights is kept as the one without, a closed draft as one by cells.
    pub call: Call,
    pub lists: Lists,
}

/// A call that was taken back.
#[derive(Clone, Debug, PartialEq, Eq, Hash)]
pub struct Undone {
    pub made: Made,
    /// The call that took it back.
    pub opposite: Call,
    /// What that call listed: the lists of `made`.
    pub lists: Lists,
}

impl<M: AnyMesh> Season<M> {
    /// Begins with this mesh, and with its draft where one is open. Refuses 1 to 6.
    pub fn new(mesh: M) -> Result<Season<M>, Refusal> {
        mesh.check()?;
        Ok(Season { first: mesh.without_draft(), mesh, calls: vec![] })
    }

    /// The mesh as it is.
    pub fn mesh(&self) -> &M {
        &self.mesh
    }

    /// The mesh that the season began with, without a draft.
    pub fn first(&self) -> &M {
        &self.first
    }

    /// The calls that were made and not taken back, the first one first.
    pub fn calls(&self) -> &[Made] {
        &self.calls
    }

    /// The mesh as it is, without its season.
    pub fn into_mesh(self) -> M {
        self.mesh
    }

    /// Refines by cells, as [`Mesh::refine_cells`] does.
    pub fn refine_cells(&mut self, marks: &[Cell]) -> Result<&Lists, Refusal> {
        self.make(Call::RefineCells(marks.to_vec()))
    }

    /// Refines by functions, as [`Mesh::refine_functions`] does.
    pub fn refine_functions(&mut self, marks: &[Function]) -> Result<&Lists, Refusal> {
        self.make(Call::RefineFunctions(marks.to_vec()))
    }

    /// Coarsens by cells, as [`Mesh::coarsen_cells`] does.
    pub fn coarsen_cells(&mut self, marks: &[Cell]) -> Result<&Lists, Refusal> {
        self.make(Call::CoarsenCells(marks.to_vec()))
    }

    /// Coarsens by functions, as [`Mesh::coarsen_functions`] does.
    pub fn coarsen_functions(&mut self, marks: &[Function]) -> Result<&Lists, Refusal> {
        self.make(Call::CoarsenFunctions(marks.to_vec()))
    }

    /// The one of the four calls above that `call` is.
    pub fn make(&mut self, call: Call) -> Result<&Lists, Refusal> {
        let lists = self.mesh.make(&call)?;
        Ok(self.keep(call, lists))
    }

    fn keep(&mut self, call: Call, lists: Lists) -> &Lists {
        self.calls.push(Made { call, lists });
        &self.calls[self.calls.len() - 1].lists
    }

    /// Takes the last call back, if there is one. Refuses 18 while a draft is open, and then nothing
    /// changes: its marks are not lost. The opposite call is never refused, as is proved; if it were,
    /// this would panic.
    pub fn undo(&mut self) -> Result<Option<Undone>, Refusal> {
        if self.mesh.has_draft() {
            return Err(Refusal::DraftOpen);
        }
        let Some(made) = self.calls.pop() else { return Ok(None) };
        let opposite = made.call.opposite(&made.lists.cells);
        let lists = self.mesh.make(&opposite).expect("an opposite call is accepted");
        Ok(Some(Undone { made, opposite, lists }))
    }

    /// Takes all calls back, the last one first, as they come in the answer. Refuses 18 as
    /// [`Season::undo`] does.
    pub fn undo_all(&mut self) -> Result<Vec<Undone>, Refusal> {
        std::iter::from_fn(|| self.undo().transpose()).collect()
    }
}

/// With heights and drafts, which planes do not have.
impl Season {
    /// Refines by cells and carries the heights, as [`Mesh::refine_cells_with_heights`] does. It is
    /// taken back like the call without heights. The heights are not; to have them back, keep them.
    pub fn refine_cells_with_heights(
        &mut self,
        heights: &mut [i32],
        marks: &[Cell],
    ) -> Result<&Lists, Refusal> {
        let lists = self.mesh.refine_cells_with_heights(heights, marks)?;
        Ok(self.keep(Call::RefineCells(marks.to_vec()), lists))
    }

    /// Refines by functions and carries the heights, as [`Mesh::refine_functions_with_heights`] does.
    /// Otherwise as [`Season::refine_cells_with_heights`].
    pub fn refine_functions_with_heights(
        &mut self,
        heights: &mut [i32],
        marks: &[Function],
    ) -> Result<&Lists, Refusal> {
        let lists = self.mesh.refine_functions_with_heights(heights, marks)?;
        Ok(self.keep(Call::RefineFunctions(marks.to_vec()), lists))
    }

    /// Opens a draft, as [`Mesh::open_draft`] does.
    pub fn open_draft(&mut self) -> Result<(), Refusal> {
        self.mesh.open_draft()
    }

    /// Adds marks to the open draft, as [`Mesh::add_marks`] does.
    pub fn add_marks(&mut self, marks: &[Cell]) -> Result<(), Refusal> {
        self.mesh.add_marks(marks)
    }

    /// Closes the open draft, as [`Mesh::close_draft`] does. It is kept, and taken back, as one
    /// refinement by cells with all its marks.
    pub fn close_draft(&mut self) -> Result<&Lists, Refusal> {
        let marks = self.mesh.draft.clone().unwrap_or_default();
        let lists = self.mesh.close_draft()?;
        Ok(self.keep(Call::RefineCells(marks), lists))
    }

    /// Drops the open draft, as [`Mesh::drop_draft`] does. Nothing is kept of it.
    pub fn drop_draft(&mut self) -> Result<(), Refusal> {
        self.mesh.drop_draft()
    }
}
