//! A draft kept open: cell marks that are collected over many calls, and become one refinement when
//! the draft is closed.
//!
//! The draft is what the calls here change, so they are handed it to be changed; a refused call
//! leaves it, and its list, as they were. The tables are lent as elsewhere, and an accepted call
//! that makes new ones answers them.

use crate::file::Tables;
use crate::shape::refine_with_heights;
use crate::{check, file, refine_cells, Call, Change, Mesh, Plan};

/// A draft as it is handed in and handed back, with the lent list.
#[derive(Clone, Debug, PartialEq, Eq)]
pub struct Draft {
    /// 0 where none is open.
    pub open: u32,
    /// How many marks it has: the first entries of the list.
    pub marks: usize,
    /// As long as it was lent, which bounds the marks.
    pub list: Vec<u32>,
}

impl Draft {
    /// No draft, with a list for the next one.
    pub fn none(list: Vec<u32>) -> Draft {
        Draft { open: 0, marks: 0, list }
    }

    /// The marks of an open draft, in the order in which they were added. A draft with more marks
    /// than its list has entries is not open.
    pub fn collected(&self) -> Option<&[u32]> {
        match self.open {
            0 => None,
            _ => self.list.get(..self.marks),
        }
    }

    /// What an accepted call leaves that ends the draft. The list keeps its values.
    fn end(&mut self) {
        (self.open, self.marks) = (0, 0);
    }

    /// Refusal 18, for what is not to be done while a draft is open; 1 to 6 come before it.
    fn refuse_beside(&self, plan: Plan, cells: &[u8], functions: &[u8]) -> Result<(), u32> {
        check(plan, cells, functions)?;
        match self.collected() {
            None => Ok(()),
            Some(_) => Err(18),
        }
    }

    /// The marks, or refusal 19; 1 to 6 come before it.
    fn marks(&self, plan: Plan, cells: &[u8], functions: &[u8]) -> Result<&[u32], u32> {
        check(plan, cells, functions)?;
        self.collected().ok_or(19)
    }

    // ---- The calls on a draft ----

    /// A new draft, without marks.
    pub fn open(&mut self, plan: Plan, cells: &[u8], functions: &[u8]) -> Result<(), u32> {
        self.refuse_beside(plan, cells, functions)?;
        (self.open, self.marks) = (1, 0);
        Ok(())
    }

    /// All marks, or none of them. A repeated one takes an entry each time.
    pub fn add(
        &mut self,
        plan: Plan,
        cells: &[u8],
        functions: &[u8],
        marks: &[u32],
    ) -> Result<(), u32> {
        let mut collected = self.marks(plan, cells, functions)?.to_vec();
        Mesh::new(plan, cells, functions)?.cells_to_refine(marks)?;
        collected.extend(marks);
        if collected.len() > self.list.len() {
            return Err(10);
        }
        self.marks = collected.len();
        self.list[..collected.len()].copy_from_slice(&collected);
        Ok(())
    }

    /// Refines by cells with all marks.
    pub fn close(
        &mut self,
        plan: Plan,
        cells: &[u8],
        functions: &[u8],
        cell_room: usize,
        function_room: usize,
    ) -> Result<Change, u32> {
        let marks = self.marks(plan, cells, functions)?;
        let change = refine_cells(plan, cells, functions, marks, cell_room, function_room)?;
        self.end();
        Ok(change)
    }

    /// Ends the draft without refining anything.
    pub fn discard(&mut self, plan: Plan, cells: &[u8], functions: &[u8]) -> Result<(), u32> {
        self.marks(plan, cells, functions)?;
        self.end();
        Ok(())
    }

    // ---- The other calls beside a draft ----

    /// A refining or coarsening call.
    pub fn change(
        &self,
        call: Call,
        plan: Plan,
        (cells, functions): (&[u8], &[u8]),
        marks: &[u32],
        (cell_room, function_room): (usize, usize),
    ) -> Result<Change, u32> {
        self.refuse_beside(plan, cells, functions)?;
        call(plan, cells, functions, marks, cell_room, function_room)
    }

    /// A refining call with heights.
    pub fn refine_with_heights(
        &self,
        call: Call,
        plan: Plan,
        (cells, functions): (&[u8], &[u8]),
        heights: &[i32],
        marks: &[u32],
        rooms: (usize, usize),
    ) -> Result<(Change, Vec<i32>), u32> {
        self.refuse_beside(plan, cells, functions)?;
        refine_with_heights(call, plan, (cells, functions), heights, marks, rooms)
    }

    /// The call that opens a mesh. Accepted it ends the draft, open or not.
    pub fn open_mesh(&mut self, plan: Plan, cells: usize, functions: usize) -> Result<Tables, u32> {
        let tables = crate::open(plan, cells, functions)?;
        self.end();
        Ok(tables)
    }

    /// Reading a mesh, likewise.
    pub fn read_mesh(
        &mut self,
        file: &[u8],
        cells: usize,
        functions: usize,
    ) -> (Plan, Result<Tables, u32>) {
        let (plan, tables) = file::read(file, cells, functions);
        if tables.is_ok() {
            self.end();
        }
        (plan, tables)
    }
}

#[cfg(test)]
mod tests {
    use super::*;
    use crate::tests::plan;

    /// The plan 3 1 3, degrees 1 1, class 2, with cell 0 refined.
    fn mesh() -> (Plan, Vec<u8>, Vec<u8>) {
        let plan = plan([3, 1, 3, 1, 1, 2, 0, 0]);
        let (cells, functions) =
            crate::open(plan, plan.cell_total(), plan.function_total()).expect("a plan in range");
        let change = refine_cells(plan, &cells, &functions, &[0], 1, 2).expect("an active cell");
        (plan, change.cells, change.functions)
    }

    /// Cells 3 and 4 are refined, and cell 1 for the class: it has the child beside cell 4.
    #[test]
    fn a_draft_by_hand() {
        let (plan, cells, functions) = mesh();
        let mut draft = Draft::none(vec![9; 3]);
        assert_eq!(draft.add(plan, &cells, &functions, &[4]), Err(19));
        assert_eq!(draft.open(plan, &cells, &functions), Ok(()));
        assert_eq!(draft.open(plan, &cells, &functions), Err(18));
        assert_eq!(draft.add(plan, &cells, &functions, &[4]), Ok(()));
        assert_eq!(draft.add(plan, &cells, &functions, &[3, 0]), Err(8));
        assert_eq!(draft.add(plan, &cells, &functions, &[4, 3, 3]), Err(10));
        assert_eq!(draft.add(plan, &cells, &functions, &[4, 3]), Ok(()));
        assert_eq!(draft, Draft { open: 1, marks: 3, list: vec![4, 4, 3] });
        assert_eq!(draft.close(plan, &cells, &functions, 2, 4), Err(10));
        assert_eq!(draft.collected(), Some(&[4, 4, 3][..]));
        let change = draft.close(plan, &cells, &functions, 3, 4).expect("room for both lists");
        assert_eq!((change.cell_list, change.function_list), (vec![1, 3, 4], vec![1, 5, 8, 9]));
        assert_eq!(draft, Draft { open: 0, marks: 0, list: vec![4, 4, 3] });
        assert_eq!(draft.discard(plan, &cells, &functions), Err(19));
    }

    #[test]
    fn open_or_not() {
        for (open, marks, is_open) in [
            (0, 0, false),
            (0, 2, false),
            (1, 0, true),
            (1, 2, true),
            (u32::MAX, 2, true),
            (1, 3, false),
            (u32::MAX, usize::MAX, false),
        ] {
            let draft = Draft { open, marks, list: vec![1, 2] };
            assert_eq!(draft.collected().is_some(), is_open, "{draft:?}");
        }
    }
}
