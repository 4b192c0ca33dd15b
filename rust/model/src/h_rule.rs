//! The H-neighbourhood, the rule before Req 12, for the standard basis. No call goes by it. It is here
//! for what Req 12 says of it, "old graded walls pass".

use crate::{check_by, have_refined, smallest_with, Cell, Plan};
use std::collections::BTreeSet;

impl Plan {
    /// The H-neighbourhood, the rule before Req 12: where the cell has level j, the cells of level
    /// j-m+1 that are covered, together with its ancestor there, by a common function of that level.
    pub fn h_neighbourhood(self, cell: Cell) -> BTreeSet<Cell> {
        if self.class == 0 || cell.level + 1 < self.class {
            return BTreeSet::new();
        }
        self.covered_with(self.ancestor(cell, self.class - 1))
    }
}

/// Whether every refined cell has its H-neighbourhood refined.
pub fn is_admissible(plan: Plan, cells: &[u8]) -> bool {
    have_refined(plan, cells, |cell| plan.h_neighbourhood(cell))
}

/// Refusals 1 to 6, with this for 5.
pub fn check(plan: Plan, cells: &[u8], functions: &[u8]) -> Result<(), u32> {
    check_by(is_admissible, plan, cells, functions)
}

/// The refined cells of the smallest mesh in which these are refined and that this rule takes.
pub fn smallest(plan: Plan, base: BTreeSet<Cell>) -> BTreeSet<Cell> {
    smallest_with(plan, base, |cell| plan.h_neighbourhood(cell))
}

#[cfg(test)]
mod tests {
    use super::*;
    use crate::tests::{plan, plans_of_classes};
    use crate::{labels, table};

    /// The mesh of the plan 3 1 3, degrees 1 1, class 2, with these cells refined.
    fn checks(refined: &[usize]) -> (Result<(), u32>, Result<(), u32>) {
        let plan = plan([3, 1, 3, 1, 1, 2, 0, 0]);
        let cells = table(plan, &refined.iter().map(|&cell| plan.cell_at(cell)).collect());
        let functions = labels(plan, &cells);
        (check(plan, &cells, &functions), crate::check(plan, &cells, &functions))
    }

    /// Cell 3 is in column 0 of level 1: columns 0 and 1, which are on cell 0, have a common function with
    /// it. Cell 4 is in column 1: so does column 2, which is on cell 1. Both are on cell 0, which has a
    /// common function with cell 1.
    #[test]
    fn by_hand() {
        assert_eq!(checks(&[0]), (Ok(()), Ok(())));
        assert_eq!(checks(&[0, 3]), (Err(5), Ok(())));
        assert_eq!(checks(&[0, 4]), (Err(5), Err(5)));
        assert_eq!(checks(&[0, 1, 3]), (Ok(()), Ok(())));
        assert_eq!(checks(&[0, 1, 4]), (Ok(()), Ok(())));
    }

    /// Without corners: at most p columns and q rows from the ancestor of the level.
    #[test]
    fn without_corners() {
        let smooth = |plan: &Plan| plan.corners_across | plan.corners_up == 0;
        for plan in plans_of_classes().into_iter().filter(smooth) {
            let (p, q, m) = (plan.degree_across, plan.degree_up, plan.class);
            for cell in plan.cells() {
                let (row, column) = (cell.row >> (m - 1), cell.column >> (m - 1));
                let is_near = |other: &Cell| {
                    other.level + m == cell.level + 1
                        && other.row.abs_diff(row) <= q
                        && other.column.abs_diff(column) <= p
                };
                let near = plan.cells().filter(is_near);
                assert!(plan.h_neighbourhood(cell).into_iter().eq(near), "{plan:?} {cell:?}");
            }
        }
    }

    /// The neighbourhood of Req 12 lies in this one, and is smaller for many cells.
    #[test]
    fn neighbourhoods_lie_in_it() {
        let (mut smaller, mut same) = (0, 0);
        for plan in plans_of_classes() {
            for cell in plan.cells() {
                let (near, before) = (plan.neighbourhood(cell), plan.h_neighbourhood(cell));
                assert!(near.is_subset(&before), "{plan:?} {cell:?}");
                assert_eq!(near.is_empty(), before.is_empty());
                *if near.len() < before.len() { &mut smaller } else { &mut same } += 1;
            }
        }
        assert!(smaller > 10_000 && same > 10_000, "{smaller} {same}");
    }
}
