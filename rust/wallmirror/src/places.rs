//! How large the tables of a plan are, where its cells lie and what its functions cover. All of it is
//! answered by the library.

use crate::{accepted, ffi, Cell, Function, Plan, Refusal};
use std::ops::Range;

/// The cells and functions of a level.
#[derive(Clone, Copy, Debug, PartialEq, Eq, Hash)]
pub struct Level {
    /// The number of its first cell. They are numbered row by row.
    pub first_cell: u32,
    pub columns: u32,
    pub rows: u32,
    /// The number of its first function. They are numbered row by row.
    pub first_function: u32,
    /// The functions in a row.
    pub functions_across: u32,
    /// The rows of functions.
    pub functions_up: u32,
}

/// Where a cell lies.
#[derive(Clone, Copy, Debug, PartialEq, Eq, PartialOrd, Ord, Hash)]
pub struct Place {
    pub level: u32,
    /// Of the level, from 0.
    pub row: u32,
    /// Of the level, from 0.
    pub column: u32,
}

/// What a function covers: a rectangle of cells of its level.
#[derive(Clone, Debug, PartialEq, Eq, Hash)]
pub struct Support {
    pub level: u32,
    pub rows: Range<u32>,
    pub columns: Range<u32>,
}

impl Plan {
    /// Whether there are meshes of the plan. Refuses 1 and 2.
    ///
    /// ```
    /// # use wallmirror::{Plan, Refusal};
    /// let plan = Plan { columns: 3, levels: 3, ..Plan::default() };
    /// assert_eq!(plan.check(), Ok(()));
    /// assert_eq!(Plan { columns: 17, ..plan }.check(), Err(Refusal::PlanOutOfRange));
    /// assert_eq!(Plan { levels: 8, ..plan }.check(), Err(Refusal::TooManyCells));
    /// ```
    pub fn check(self) -> Result<(), Refusal> {
        accepted(ffi::wallmirror_plan_refusal(self.raw()))
    }

    /// The length of the cell table, and the most entries that a cell list needs. `None` for a plan
    /// that is refused: one that is out of range or has more than [`MAX_CELLS`](crate::MAX_CELLS).
    ///
    /// ```
    /// # use wallmirror::Plan;
    /// let plan = Plan { columns: 3, levels: 3, admissibility_class: 2, ..Plan::default() };
    /// assert_eq!(plan.cells(), Some(63));
    /// assert_eq!(plan.functions(), Some(94));
    /// assert_eq!(Plan { columns: 17, ..plan }.cells(), None);
    /// ```
    pub fn cells(self) -> Option<usize> {
        // A plan that is not refused has cells.
        Some(ffi::wallmirror_cells_len(self.raw())).filter(|&length| length > 0)
    }

    /// The length of the function table, and the most entries that a function list needs. `None` for
    /// a plan that is refused.
    pub fn functions(self) -> Option<usize> {
        Some(ffi::wallmirror_functions_len(self.raw())).filter(|&length| length > 0)
    }

    /// The words of a plane: one bit for each cell, in words of 64, rounded up. `None` for a plan
    /// that is refused.
    ///
    /// ```
    /// # use wallmirror::Plan;
    /// let plan = Plan { columns: 3, levels: 3, ..Plan::default() };
    /// assert_eq!((plan.cells(), plan.plane_words()), (Some(63), Some(1)));
    /// let plan = Plan { columns: 13, levels: 2, ..plan };
    /// assert_eq!((plan.cells(), plan.plane_words()), (Some(65), Some(2)));
    /// assert_eq!(Plan { columns: 17, ..plan }.plane_words(), None);
    /// ```
    pub fn plane_words(self) -> Option<usize> {
        Some(ffi::wallmirror_planes_len(self.raw())).filter(|&words| words > 0)
    }

    /// The cells and functions of a level. `None` for a plan that is refused, and for a level that
    /// it does not have.
    ///
    /// ```
    /// # use wallmirror::{Function, Plan};
    /// let plan = Plan { columns: 3, rows: 2, levels: 2, degree_across: 2, ..Plan::default() };
    /// let fine = plan.level(1).unwrap();
    /// assert_eq!((fine.first_cell, fine.columns, fine.rows), (6, 6, 4));
    /// assert_eq!((fine.first_function, fine.functions_across, fine.functions_up), (15, 8, 5));
    /// // The function in row 2, column 3.
    /// let function = Function(fine.first_function + 2 * fine.functions_across + 3);
    /// assert_eq!(plan.support(function).unwrap().columns, 1..4);
    /// assert_eq!(plan.level(2), None);
    /// ```
    pub fn level(self, level: u32) -> Option<Level> {
        let ffi::Level {
            first_cell,
            columns,
            rows,
            first_function,
            functions_across,
            functions_up,
        } = ffi::wallmirror_level(self.raw(), level);
        // Every level has columns.
        (columns > 0).then_some(Level {
            first_cell,
            columns,
            rows,
            first_function,
            functions_across,
            functions_up,
        })
    }

    /// The functions across on a level, which are those in a row of the function table. The
    /// function in row j, column i of a level comes after those of the levels before it, as number
    /// j · `functions_across` + i among those of its own. `None` where [`Plan::level`] is.
    pub fn functions_across(self, level: u32) -> Option<usize> {
        Some(self.level(level)?.functions_across as usize)
    }

    /// The functions up on a level, which are the rows of its part of the function table. `None`
    /// likewise.
    ///
    /// ```
    /// # use wallmirror::Plan;
    /// let plan = Plan { columns: 3, rows: 2, degree_across: 3, degree_up: 2, ..Plan::default() };
    /// assert_eq!((plan.functions_across(0), plan.functions_up(0)), (Some(3 + 3), Some(2 + 2)));
    /// // Two more for a corner across, one more for a corner up.
    /// let plan = Plan { corners_across: 1 << 2, corners_up: 1 << 1, ..plan };
    /// assert_eq!((plan.functions_across(0), plan.functions_up(0)), (Some(8), Some(5)));
    /// assert_eq!((plan.functions(), plan.functions_up(1)), (Some(8 * 5), None));
    /// ```
    pub fn functions_up(self, level: u32) -> Option<usize> {
        Some(self.level(level)?.functions_up as usize)
    }

    /// The numbers of a level's cells. `None` where [`Plan::level`] is.
    ///
    /// ```
    /// # use wallmirror::Plan;
    /// let plan = Plan { columns: 3, levels: 3, ..Plan::default() };
    /// assert_eq!([0, 1, 2].map(|level| plan.cells_on(level).unwrap()), [0..3, 3..15, 15..63]);
    /// assert_eq!(plan.functions_on(1), Some(8..29));
    /// assert_eq!((plan.cells_on(3), plan.functions_on(3)), (None, None));
    /// ```
    pub fn cells_on(self, level: u32) -> Option<Range<u32>> {
        let Level { first_cell, columns, rows, .. } = self.level(level)?;
        Some(first_cell..first_cell + columns * rows)
    }

    /// The numbers of a level's functions. `None` likewise.
    pub fn functions_on(self, level: u32) -> Option<Range<u32>> {
        let Level { first_function, functions_across, functions_up, .. } = self.level(level)?;
        Some(first_function..first_function + functions_across * functions_up)
    }

    /// Where a cell lies. `None` for a plan that is refused, and for a number that no cell has.
    ///
    /// ```
    /// # use wallmirror::{Cell, Place, Plan};
    /// let plan = Plan { columns: 3, levels: 3, ..Plan::default() };
    /// // The first cell of the upper row on level 1, which has six to a row.
    /// assert_eq!(plan.place(Cell(9)), Some(Place { level: 1, row: 1, column: 0 }));
    /// assert_eq!(plan.place(Cell(63)), None);
    /// ```
    pub fn place(self, cell: Cell) -> Option<Place> {
        let ffi::Place { found, level, row, column } = ffi::wallmirror_place(self.raw(), cell.0);
        (found == 1).then_some(Place { level, row, column })
    }

    /// The cell of a place. `None` for a plan that is refused, and for a place that it does not
    /// have.
    ///
    /// ```
    /// # use wallmirror::{Cell, Place, Plan};
    /// let plan = Plan { columns: 3, levels: 3, ..Plan::default() };
    /// let place = Place { level: 1, row: 1, column: 0 };
    /// assert_eq!(plan.cell_at(place), Some(Cell(9)));
    /// assert_eq!(plan.cell_at(Place { column: 6, ..place }), None);
    /// ```
    pub fn cell_at(self, Place { level, row, column }: Place) -> Option<Cell> {
        let ffi::CellAt { found, cell } = ffi::wallmirror_cell_at(self.raw(), level, row, column);
        (found == 1).then_some(Cell(cell))
    }

    /// What a function covers. `None` for a plan that is refused, and for a number that no function
    /// has.
    ///
    /// ```
    /// # use wallmirror::{Function, Plan};
    /// let plan = Plan { columns: 3, levels: 2, degree_across: 2, ..Plan::default() };
    /// let columns = |plan: Plan, i| plan.support(Function(i)).unwrap().columns;
    /// assert_eq!([1, 2, 3].map(|i| columns(plan, i)), [0..2, 0..3, 1..3]);
    /// // With a corner before column 1 the knots are 0 0 0 1 1 2 3 3 3.
    /// let plan = Plan { corners_across: 1 << 1, ..plan };
    /// assert_eq!([1, 2, 3].map(|i| columns(plan, i)), [0..1, 0..2, 1..3]);
    /// ```
    pub fn support(self, function: Function) -> Option<Support> {
        let support = ffi::wallmirror_support(self.raw(), function.0);
        (support.found == 1).then_some(Support {
            level: support.level,
            rows: support.first_row..support.end_row,
            columns: support.first_column..support.end_column,
        })
    }
}
