//! What one mark can cost: how many cells it can refine, and where these lie.

use crate::{Cell, Place, Plan};
use std::ops::Range;

/// A rectangle of cells of one level that a mark can refine. See [`Plan::reach`].
#[derive(Clone, Debug, PartialEq, Eq, Hash)]
pub struct Window {
    pub level: u32,
    pub rows: Range<u32>,
    pub columns: Range<u32>,
}

impl Window {
    /// Whether the cell at this place is in the window.
    ///
    /// ```
    /// # use wallmirror::{Place, Window};
    /// let window = Window { level: 0, rows: 0..1, columns: 2..5 };
    /// assert!(window.contains(Place { level: 0, row: 0, column: 4 }));
    /// assert!(!window.contains(Place { level: 1, row: 0, column: 4 }));
    /// ```
    pub fn contains(&self, place: Place) -> bool {
        place.level == self.level
            && self.rows.contains(&place.row)
            && self.columns.contains(&place.column)
    }
}

impl Plan {
    /// The most cells that one marked cell of this level refines, itself included:
    /// 1 + ⌊j/(m-1)⌋·(2p+1)·(2q+1) for level j, class m and degrees p across and q up, and 1 in
    /// class 0. It holds on every mesh of the plan. What it means for several marks and for marked
    /// functions is said [above](crate#what-a-mark-can-cost). `None` where [`Plan::level`] is.
    ///
    /// ```
    /// # use wallmirror::Plan;
    /// let plan = Plan { columns: 8, levels: 5, admissibility_class: 2, ..Plan::default() };
    /// assert_eq!([0, 1, 2].map(|level| plan.most_refined(level).unwrap()), [1, 10, 19]);
    /// // In class 3 a mark reaches every second level.
    /// let plan = Plan { admissibility_class: 3, ..plan };
    /// assert_eq!([0, 1, 2].map(|level| plan.most_refined(level).unwrap()), [1, 1, 10]);
    /// assert_eq!(plan.most_refined(5), None);
    /// ```
    pub fn most_refined(self, level: u32) -> Option<usize> {
        self.level(level)?;
        let across = 2 * self.degree_across as usize + 1;
        let up = 2 * self.degree_up as usize + 1;
        Some(1 + self.levels_reached(level).count() * across * up)
    }

    /// Where the cells lie that one marked cell of level j can refine: first the cell itself, and
    /// then, on each of the levels j - (m-1), j - 2·(m-1), .. that there are, the cells that are at
    /// most p columns and q rows from its ancestor there. It holds on every mesh of the plan. In
    /// class 0 it is the cell alone. `None` where [`Plan::place`] is.
    ///
    /// ```
    /// # use wallmirror::{Cell, Plan, Window};
    /// let plan = Plan { columns: 8, levels: 5, admissibility_class: 2, ..Plan::default() };
    /// // Cell 15 is in column 7 of level 1, and its parent in column 3 of level 0.
    /// let own = Window { level: 1, rows: 0..1, columns: 7..8 };
    /// let coarser = Window { level: 0, rows: 0..1, columns: 2..5 };
    /// assert_eq!(plan.reach(Cell(15)), Some(vec![own, coarser]));
    /// ```
    pub fn reach(self, cell: Cell) -> Option<Vec<Window>> {
        let Place { level, row, column } = self.place(cell)?;
        let fine = self.level(level)?;
        let mut windows = vec![Window { level, rows: row..row + 1, columns: column..column + 1 }];
        for level in self.levels_reached(level) {
            let coarse = self.level(level)?;
            // An ancestor has so many rows and columns of the cell's level in it.
            let (rows_in_it, columns_in_it) =
                (fine.rows / coarse.rows, fine.columns / coarse.columns);
            windows.push(Window {
                level,
                rows: around(row / rows_in_it, self.degree_up, coarse.rows),
                columns: around(column / columns_in_it, self.degree_across, coarse.columns),
            });
        }
        Some(windows)
    }

    /// The levels besides its own that a mark of this level can reach, the nearest first. None in
    /// class 0.
    fn levels_reached(self, level: u32) -> impl Iterator<Item = u32> {
        let apart = self.admissibility_class.saturating_sub(1);
        let many = level.checked_div(apart).unwrap_or(0);
        (1..=many).map(move |i| level - i * apart)
    }
}

/// Those of the numbers below `end` that are at most `radius` from `middle`.
fn around(middle: u32, radius: u32, end: u32) -> Range<u32> {
    middle.saturating_sub(radius)..end.min(middle + radius + 1)
}
