//! A mesh that owns its tables, and the calls on it.

use crate::any_mesh::sealed::{self, Sealed as _};
use crate::{
    check, coarsen_cells, coarsen_cells_with_draft, coarsen_functions,
    coarsen_functions_with_draft, corners, count, doubles, draft_add, draft_close, draft_drop,
    draft_open, height, open, read, refine_cells, refine_cells_with_draft,
    refine_cells_with_heights_and_draft, refine_functions, refine_functions_with_draft,
    refine_functions_with_heights_and_draft, write, AnyMesh, Cell, Changed, Corner, Count, Draft,
    Function, Plan, ReadRefusal, Refusal, MAX_FILE_BYTES, MAX_PROJECTED_CELLS,
};

/// A plan with tables that it owns, and the draft that is open on it. Anything may stand in the
/// tables; the calls refuse what is no mesh.
///
/// ```
/// # use wallmirror::{Cell, Function, Mesh, Plan};
/// let plan = Plan { columns: 3, levels: 3, admissibility_class: 2, ..Plan::default() };
/// let mut mesh = Mesh::open(plan)?;
/// mesh.refine_cells(&[Cell(0)])?;
/// // Cell 1 becomes refined too, because the mesh has to stay admissible.
/// let lists = mesh.refine_cells(&[Cell(4)])?;
/// assert_eq!(lists.cells, [Cell(1), Cell(4)]);
/// assert_eq!(lists.functions, [Function(1), Function(5)]);
/// // Given to the opposite call, the cells take it back.
/// assert_eq!(mesh.coarsen_cells(&lists.cells)?, lists);
/// # Ok::<(), wallmirror::Refusal>(())
/// ```
#[derive(Clone, Debug, PartialEq, Eq, Hash)]
pub struct Mesh {
    pub plan: Plan,
    /// One byte for each cell of each level.
    pub cells: Vec<u8>,
    /// One byte for each function of each level.
    pub functions: Vec<u8>,
    /// The marks of the open draft, in the order in which they were added; `None` where no draft is
    /// open. It is no part of the file of the mesh.
    pub draft: Option<Vec<Cell>>,
}

/// Both tables, as they are lent.
type Tables<'a> = (&'a mut [u8], &'a mut [u8]);

/// A table of a length that a plan gives. A plan that has none is refused before the table is looked
/// at.
pub(crate) fn table<T: Clone + Default>(length: Option<usize>) -> Vec<T> {
    vec![T::default(); length.unwrap_or(0)]
}

/// The two lists of a call, in rising order.
#[derive(Clone, Debug, Default, PartialEq, Eq, Hash)]
pub struct Lists {
    /// The cells that became refined, or ceased to be.
    pub cells: Vec<Cell>,
    /// The functions that became deactivated, or ceased to be.
    pub functions: Vec<Function>,
}

impl Lists {
    /// Lends a call lists of the lengths that the plan gives, so that none is too short, and keeps
    /// what it wrote.
    pub(crate) fn of(
        plan: Plan,
        call: impl FnOnce((&mut [Cell], &mut [Function])) -> Result<Changed, Refusal>,
    ) -> Result<Lists, Refusal> {
        let (mut cells, mut functions) = (table(plan.cells()), table(plan.functions()));
        let changed = call((&mut cells, &mut functions))?;
        Ok(Lists {
            cells: cells[..changed.cells].to_vec(),
            functions: functions[..changed.functions].to_vec(),
        })
    }
}

/// A call that changes a mesh, with its marks.
#[derive(Clone, Debug, PartialEq, Eq, Hash)]
pub enum Call {
    RefineCells(Vec<Cell>),
    RefineFunctions(Vec<Function>),
    CoarsenCells(Vec<Cell>),
    CoarsenFunctions(Vec<Function>),
}

impl Call {
    /// Whether it refines; otherwise it coarsens.
    pub fn refines(&self) -> bool {
        matches!(self, Call::RefineCells(_) | Call::RefineFunctions(_))
    }

    /// How many marks it has.
    fn marks(&self) -> usize {
        match self {
            Call::RefineCells(marks) | Call::CoarsenCells(marks) => marks.len(),
            Call::RefineFunctions(marks) | Call::CoarsenFunctions(marks) => marks.len(),
        }
    }

    /// The call that takes this one back, by the cells that this one listed.
    ///
    /// ```
    /// # use wallmirror::{Call, Cell, Function};
    /// let call = Call::RefineFunctions(vec![Function(1)]);
    /// let listed = [Cell(0), Cell(1)];
    /// assert_eq!(call.opposite(&listed), Call::CoarsenCells(listed.to_vec()));
    /// ```
    pub fn opposite(&self, listed: &[Cell]) -> Call {
        if self.refines() {
            Call::CoarsenCells(listed.to_vec())
        } else {
            Call::RefineCells(listed.to_vec())
        }
    }
}

impl Mesh {
    /// These tables, without a draft. Nothing is checked.
    pub fn from_tables(plan: Plan, cells: Vec<u8>, functions: Vec<u8>) -> Mesh {
        Mesh { plan, cells, functions, draft: None }
    }

    /// The coarsest mesh of a plan. Refuses 1 and 2.
    ///
    /// ```
    /// # use wallmirror::{Mesh, Plan, Refusal};
    /// let mesh = Mesh::open(Plan { columns: 3, levels: 3, ..Plan::default() })?;
    /// assert_eq!((mesh.cells.len(), mesh.functions.len()), (63, 94));
    /// let refused = Mesh::open(Plan { columns: 17, ..Plan::default() });
    /// assert_eq!(refused, Err(Refusal::PlanOutOfRange));
    /// # Ok::<(), Refusal>(())
    /// ```
    pub fn open(plan: Plan) -> Result<Mesh, Refusal> {
        let (mut cells, mut functions) = (table(plan.cells()), table(plan.functions()));
        open(plan, &mut cells, &mut functions)?;
        Ok(Mesh::from_tables(plan, cells, functions))
    }

    /// The mesh of a file. Refuses 12, then 1, 2, 4 and 5, then 13.
    ///
    /// ```
    /// # use wallmirror::{Mesh, Refusal};
    /// let mesh = Mesh::from_file(&[3, 1, 3, 1, 1, 0, 0])?;
    /// assert_eq!((mesh.plan.columns, mesh.cells.len(), mesh.functions.len()), (3, 63, 94));
    /// // A refined cell is announced and does not come.
    /// assert_eq!(Mesh::from_file(&[3, 1, 3, 1, 1, 0, 1]), Err(Refusal::MalformedFile));
    /// # Ok::<(), Refusal>(())
    /// ```
    pub fn from_file(file: &[u8]) -> Result<Mesh, Refusal> {
        // A plan has cells, so empty tables are refused: with the plan, or because there is none.
        let plan = match read(file, &mut [], &mut []) {
            Ok(plan) | Err(ReadRefusal { plan: Some(plan), .. }) => plan,
            Err(unread) => return Err(unread.refusal),
        };
        let (mut cells, mut functions) = (table(plan.cells()), table(plan.functions()));
        read(file, &mut cells, &mut functions)?;
        Ok(Mesh::from_tables(plan, cells, functions))
    }

    /// The file of the mesh, of at most [`MAX_FILE_BYTES`]. Refuses 1 to 6.
    pub fn to_file(&self) -> Result<Vec<u8>, Refusal> {
        let mut file = vec![0; MAX_FILE_BYTES];
        let length = write(self.plan, &self.cells, &self.functions, &mut file)?;
        file.truncate(length);
        Ok(file)
    }

    /// Whether the tables are an admissible mesh of the plan, as [`check`] says.
    pub fn check(&self) -> Result<(), Refusal> {
        check(self.plan, &self.cells, &self.functions)
    }

    /// Cells, functions and area, as [`count`] says.
    pub fn count(&self) -> Result<Count, Refusal> {
        count(self.plan, &self.cells, &self.functions)
    }

    /// Refines by cells, as [`refine_cells`] says. Refuses 1 to 6, then 18, then 7 to 9.
    pub fn refine_cells(&mut self, marks: &[Cell]) -> Result<Lists, Refusal> {
        self.change(|plan, (cells, functions), (draft, list), (cell_list, function_list)| {
            refine_cells_with_draft(
                plan,
                cells,
                functions,
                *draft,
                list,
                marks,
                cell_list,
                function_list,
            )
        })
    }

    /// Refines by functions, as [`refine_functions`] says. Refuses 1 to 6, then 18, then 7 to 9.
    pub fn refine_functions(&mut self, marks: &[Function]) -> Result<Lists, Refusal> {
        self.change(|plan, (cells, functions), (draft, list), (cell_list, function_list)| {
            refine_functions_with_draft(
                plan,
                cells,
                functions,
                *draft,
                list,
                marks,
                cell_list,
                function_list,
            )
        })
    }

    /// Coarsens by cells, as [`coarsen_cells`] says. Refuses 1 to 6, then 18, then 7 and 8.
    pub fn coarsen_cells(&mut self, marks: &[Cell]) -> Result<Lists, Refusal> {
        self.change(|plan, (cells, functions), (draft, list), (cell_list, function_list)| {
            coarsen_cells_with_draft(
                plan,
                cells,
                functions,
                *draft,
                list,
                marks,
                cell_list,
                function_list,
            )
        })
    }

    /// Coarsens by functions, as [`coarsen_functions`] says. Refuses 1 to 6, then 18, then 7 and 8.
    pub fn coarsen_functions(&mut self, marks: &[Function]) -> Result<Lists, Refusal> {
        self.change(|plan, (cells, functions), (draft, list), (cell_list, function_list)| {
            coarsen_functions_with_draft(
                plan,
                cells,
                functions,
                *draft,
                list,
                marks,
                cell_list,
                function_list,
            )
        })
    }

    /// The one of the four calls above that `call` is.
    pub fn make(&mut self, call: &Call) -> Result<Lists, Refusal> {
        AnyMesh::make(self, call)
    }

    /// The first mark for which a call is refused with 7, 8 or 9: its index in the list of marks.
    /// `None` where the call is not refused so. With heights or without, it is the same mark. It is
    /// not asked whether a draft is open, and [`Mesh::add_marks`] judges its marks as
    /// [`Call::RefineCells`] does.
    ///
    /// ```
    /// # use wallmirror::{Call, Cell, Mesh, Plan, Refusal};
    /// let mut mesh = Mesh::open(Plan { columns: 3, levels: 3, ..Plan::default() })?;
    /// // Cell 5 is of level 1 and absent; there is no cell 63.
    /// let call = Call::RefineCells([0, 2, 5, 1, 63].map(Cell).to_vec());
    /// assert_eq!(mesh.make(&call), Err(Refusal::MarkOfWrongKind));
    /// assert_eq!(mesh.first_fault(&call), Some(2));
    /// assert_eq!(mesh.first_fault(&Call::RefineCells(vec![Cell(0), Cell(2)])), None);
    /// # Ok::<(), Refusal>(())
    /// ```
    pub fn first_fault(&self, call: &Call) -> Option<usize> {
        // The marks are tried in list order, so it is the last of the shortest part of the list that
        // is refused, and every longer part is refused too: halving finds it.
        let mut mesh = self.without_draft();
        let lengths: Vec<usize> = (0..=call.marks()).collect();
        let faultless = lengths.partition_point(|&many| !mesh.finds_fault(call, many));
        (faultless <= call.marks()).then(|| faultless - 1)
    }

    /// Whether one of the first marks is at fault. Nothing changes: with empty lists a call that
    /// would change something is refused with 10 or 11, after 7 to 9.
    fn finds_fault(&mut self, call: &Call, many: usize) -> bool {
        let (plan, cells, functions) = (self.plan, &mut self.cells[..], &mut self.functions[..]);
        let answer = match call {
            Call::RefineCells(marks) => {
                refine_cells(plan, cells, functions, &marks[..many], &mut [], &mut [])
            }
            Call::RefineFunctions(marks) => {
                refine_functions(plan, cells, functions, &marks[..many], &mut [], &mut [])
            }
            Call::CoarsenCells(marks) => {
                coarsen_cells(plan, cells, functions, &marks[..many], &mut [], &mut [])
            }
            Call::CoarsenFunctions(marks) => {
                coarsen_functions(plan, cells, functions, &marks[..many], &mut [], &mut [])
            }
        };
        let of_marks =
            [Refusal::MarkOutOfRange, Refusal::MarkOfWrongKind, Refusal::MarkOfLastLevel];
        answer.is_err_and(|refusal| of_marks.contains(&refusal))
    }

    /// Refines by cells and carries the heights, as
    /// [`refine_cells_with_heights`](crate::refine_cells_with_heights) says. Refuses 1 to 6; then 18;
    /// then 3 of the heights, 14, 15; then 7 to 9; then 17.
    pub fn refine_cells_with_heights(
        &mut self,
        heights: &mut [i32],
        marks: &[Cell],
    ) -> Result<Lists, Refusal> {
        self.change(|plan, (cells, functions), (draft, list), (cell_list, function_list)| {
            refine_cells_with_heights_and_draft(
                plan,
                cells,
                functions,
                heights,
                *draft,
                list,
                marks,
                cell_list,
                function_list,
            )
        })
    }

    /// Refines by functions and carries the heights, as
    /// [`refine_functions_with_heights`](crate::refine_functions_with_heights) says. Refuses
    /// likewise.
    pub fn refine_functions_with_heights(
        &mut self,
        heights: &mut [i32],
        marks: &[Function],
    ) -> Result<Lists, Refusal> {
        self.change(|plan, (cells, functions), (draft, list), (cell_list, function_list)| {
            refine_functions_with_heights_and_draft(
                plan,
                cells,
                functions,
                heights,
                *draft,
                list,
                marks,
                cell_list,
                function_list,
            )
        })
    }

    /// Opens a draft, which has no marks then, as [`draft_open`] says. Refuses 1 to 6, then 18.
    pub fn open_draft(&mut self) -> Result<(), Refusal> {
        self.beside_draft(0, |plan, (cells, functions), (draft, list)| {
            draft_open(plan, cells, functions, draft, list)
        })
    }

    /// Adds marks to the open draft, as [`draft_add`] says. Its list grows with them, so that it is
    /// never too short. Refuses 1 to 6, then 19, then 7 to 9.
    pub fn add_marks(&mut self, marks: &[Cell]) -> Result<(), Refusal> {
        self.beside_draft(marks.len(), |plan, (cells, functions), (draft, list)| {
            draft_add(plan, cells, functions, draft, list, marks)
        })
    }

    /// Closes the open draft: refines by its marks, as [`draft_close`] says. Refuses 1 to 6, then 19,
    /// then 7 to 9. The marks were judged when they were added, so 7 to 9 come only where the
    /// tables or the draft were written to by other means.
    pub fn close_draft(&mut self) -> Result<Lists, Refusal> {
        self.change(|plan, (cells, functions), (draft, list), (cell_list, function_list)| {
            draft_close(plan, cells, functions, draft, list, cell_list, function_list)
        })
    }

    /// Drops the open draft, as [`draft_drop`] says. Refuses 1 to 6, then 19.
    pub fn drop_draft(&mut self) -> Result<(), Refusal> {
        self.beside_draft(0, |plan, (cells, functions), (draft, list)| {
            draft_drop(plan, cells, functions, draft, list)
        })
    }

    /// Lends a call the tables, the draft and two lists, and keeps what it wrote.
    fn change(
        &mut self,
        call: impl FnOnce(
            Plan,
            Tables,
            (&mut Draft, &[Cell]),
            (&mut [Cell], &mut [Function]),
        ) -> Result<Changed, Refusal>,
    ) -> Result<Lists, Refusal> {
        Lists::of(self.plan, |lists| {
            self.beside_draft(0, |plan, tables, (draft, list)| {
                call(plan, tables, (draft, list), lists)
            })
        })
    }

    /// Lends a call the tables and the draft, with room for so many marks more in its list, and keeps
    /// the draft that it leaves.
    fn beside_draft<T>(
        &mut self,
        room: usize,
        call: impl FnOnce(Plan, Tables, (&mut Draft, &mut [Cell])) -> Result<T, Refusal>,
    ) -> Result<T, Refusal> {
        let open = self.draft.is_some().into();
        let mut list = self.draft.take().unwrap_or_default();
        let mut draft = Draft { open, marks: list.len() };
        list.resize(draft.marks + room, Cell(0));
        let tables = (&mut self.cells[..], &mut self.functions[..]);
        let answer = call(self.plan, tables, (&mut draft, &mut list));
        list.truncate(draft.marks);
        self.draft = (draft.open != 0).then_some(list);
        answer
    }

    /// The height of the surface at a point, as [`height`] says.
    pub fn height(&self, heights: &[i32], across: u32, up: u32) -> Result<f64, Refusal> {
        height(self.plan, &self.cells, &self.functions, heights, across, up)
    }

    /// The corners of the active cells, four for each, as [`corners`] says. Refuses 1; 2; 16; 3 to
    /// 6; then 3 of the heights, 14, 15.
    pub fn corners(&self, heights: &[i32]) -> Result<Vec<Corner>, Refusal> {
        let active = self.cells.iter().filter(|&&byte| byte == 1).count();
        // More are refused, so that no table asks for much memory.
        let mut filled = vec![Corner::default(); 4 * active.min(MAX_PROJECTED_CELLS)];
        let written =
            corners(self.plan, &self.cells, &self.functions, heights, doubles(&mut filled))?;
        filled.truncate(written);
        Ok(filled)
    }
}

impl sealed::Sealed for Mesh {
    fn without_draft(&self) -> Mesh {
        Mesh::from_tables(self.plan, self.cells.clone(), self.functions.clone())
    }

    fn has_draft(&self) -> bool {
        self.draft.is_some()
    }
}
