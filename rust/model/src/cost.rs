//! What one mark can cost: how many cells it refines at most, and which cells these can be.

use crate::{Cell, Plan};

impl Plan {
    /// The most cells that one marked cell of level j refines, itself included:
    /// 1 + ⌊j/(m-1)⌋·(2p+1)·(2q+1). Req 09 allows 4p+1 and 4q+1; with the neighbourhoods of Req 12 these
    /// are enough. Where m is 0 no cell asks for others.
    pub fn most_refined(self, level: u32) -> usize {
        if self.class == 0 {
            return 1;
        }
        let (p, q, m) = (self.degree_across, self.degree_up, self.class);
        (1 + level / (m - 1) * (2 * p + 1) * (2 * q + 1)) as usize
    }

    /// Whether a cell can become refined because this one is marked: it is the marked cell, or it
    /// lies a multiple of m-1 levels above it, at most p columns and q rows from its ancestor there.
    pub fn reaches(self, mark: Cell, cell: Cell) -> bool {
        if cell.level >= mark.level || self.class == 0 {
            return cell == mark;
        }
        let levels_up = mark.level - cell.level;
        let ancestor = self.ancestor(mark, levels_up);
        levels_up.is_multiple_of(self.class - 1)
            && cell.column.abs_diff(ancestor.column) <= self.degree_across
            && cell.row.abs_diff(ancestor.row) <= self.degree_up
    }
}

#[cfg(test)]
mod tests {
    use super::*;
    use crate::tests::plan;
    use std::collections::BTreeSet;

    /// Plans of some shapes, of all degrees and classes, without corners and with all of them.
    fn plans() -> Vec<Plan> {
        let mut plans = vec![];
        for (columns, rows, levels) in [(1, 1, 4), (5, 1, 4), (2, 3, 4), (16, 1, 3), (7, 6, 2)] {
            for (p, q) in (1..=4).flat_map(|p| (1..=4).map(move |q| (p, q))) {
                for class in [0, 2, 3, 4, 5, 8] {
                    let plan = plan([columns, rows, levels, p, q, class, 0, 0]);
                    let corners = |n: u32| (1 << n) - 2;
                    let (corners_across, corners_up) = (corners(columns), corners(rows));
                    plans.extend([plan, Plan { corners_across, corners_up, ..plan }]);
                }
            }
        }
        plans
    }

    /// The cell, its neighbourhood, the neighbourhoods of these, and so on.
    fn asked_for(plan: Plan, cell: Cell) -> BTreeSet<Cell> {
        let mut all = BTreeSet::from([cell]);
        let mut rest = vec![cell];
        while let Some(cell) = rest.pop() {
            let more = plan.neighbourhood(cell).into_iter();
            rest.extend(more.filter(|&cell| all.insert(cell)));
        }
        all
    }

    #[test]
    fn by_hand() {
        // ⌊j/2⌋ windows of 5 by 9.
        let class_3 = plan([1, 1, 8, 2, 4, 3, 0, 0]);
        let most: Vec<usize> = (0..8).map(|level| class_3.most_refined(level)).collect();
        assert_eq!(most, [1, 1, 46, 46, 91, 91, 136, 136]);
        let class_0 = Plan { class: 0, ..class_3 };
        assert!((0..8).all(|level| class_0.most_refined(level) == 1));
        // Column 7 of level 1 has column 3 of level 0 as its ancestor.
        let sample = plan([8, 1, 5, 1, 1, 2, 0, 0]);
        let reached: Vec<usize> = sample
            .cells()
            .filter(|&cell| sample.reaches(sample.cell_at(15), cell))
            .map(|cell| sample.cell_number(cell))
            .collect();
        assert_eq!(reached, [2, 3, 4, 15]);
        assert_eq!(sample.most_refined(1), 10);
    }

    /// The bound is the marked cell and all windows, where the mesh clips none of them.
    #[test]
    fn the_bound_counts_the_reach() {
        for plan in plans() {
            for mark in plan.cells() {
                let reached = plan.cells().filter(|&cell| plan.reaches(mark, cell)).count();
                assert!(reached <= plan.most_refined(mark.level), "{plan:?} {mark:?}");
            }
        }
        let wide = plan([16, 16, 3, 1, 1, 2, 0, 0]);
        let mark = Cell { level: 2, row: 30, column: 33 };
        let reached = wide.cells().filter(|&cell| wide.reaches(mark, cell)).count();
        assert_eq!((reached, wide.most_refined(2)), (19, 19));
    }

    /// Whatever a cell asks for, directly or through others, is within its reach.
    #[test]
    fn neighbourhoods_of_neighbourhoods_are_within_reach() {
        let mut most_windows = 0;
        for plan in plans() {
            for mark in plan.cells() {
                let all = asked_for(plan, mark);
                assert!(all.iter().all(|&cell| plan.reaches(mark, cell)), "{plan:?} {mark:?}");
                let levels: BTreeSet<u32> = all.iter().map(|cell| cell.level).collect();
                most_windows = most_windows.max(levels.len() - 1);
            }
        }
        assert_eq!(most_windows, 3);
    }
}
