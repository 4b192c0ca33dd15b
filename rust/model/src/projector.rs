//! The projector's grid: of each active cell its four corners, with the height of the surface there.
//!
//! A cell's corners are read off the cells of the last level that it is made of, and the heights are
//! the exact sums of `height`, over every active function. What a function of one direction has on a
//! line is kept, since many corners share a line.

use crate::height::{active_heights, b_spline, places, Fraction};
use crate::knots::Knots;
use crate::{check, refuse_plan, Cell, Function, Plan, ACTIVE};

/// The most cells of all levels that the projector has memory for.
pub const MOST_CELLS: usize = 1_024;

/// A corner of a cell: the place in cells of the last level, and the height in millimetres.
#[derive(Clone, Copy, Debug, PartialEq)]
pub struct Corner {
    pub across: u32,
    pub up: u32,
    pub height: Fraction,
}

impl Corner {
    /// The three floats that are written.
    pub fn floats(self) -> [f64; 3] {
        [self.across.into(), self.up.into(), self.height.to_f64()]
    }
}

/// Lower left, lower right, upper left, upper right, each as across and up in cells of the last
/// level.
pub fn corners_of(plan: Plan, cell: Cell) -> [(u32, u32); 4] {
    let (rows, columns): (Vec<u32>, Vec<u32>) = plan.points(cell).unzip();
    let ends = |places: Vec<u32>| {
        let first = *places.iter().min().expect("a cell of the last level");
        let last = *places.iter().max().expect("a cell of the last level");
        (first, last + 1)
    };
    let ((left, right), (low, high)) = (ends(columns), ends(rows));
    [(left, low), (right, low), (left, high), (right, high)]
}

/// The values of one direction's functions on the lines of the last level, of which a cell of this
/// level has so many: those of function i are in entry i.
fn values_on_lines(knots: &Knots, degree: u32, lines_of_cell: u32) -> Vec<Vec<Fraction>> {
    let places = places(knots);
    let cells = *knots.list().last().expect("a knot");
    let value = |i: u32, line: u32| {
        let x = Fraction::new(line.into(), lines_of_cell.into());
        b_spline(&places, i as usize, degree as usize, x)
    };
    (0..knots.functions())
        .map(|i| (0..=cells * lines_of_cell).map(|line| value(i, line)).collect())
        .collect()
}

/// The surface that active functions with these heights carry.
struct Surface {
    active: Vec<(Function, Fraction)>,
    /// Of each level.
    across: Vec<Vec<Vec<Fraction>>>,
    up: Vec<Vec<Vec<Fraction>>>,
}

impl Surface {
    fn new(plan: Plan, active: Vec<(Function, Fraction)>) -> Surface {
        let lines_of_cell = |level| 2u32.pow(plan.levels - 1 - level);
        let across =
            |level| values_on_lines(&plan.across(level), plan.degree_across, lines_of_cell(level));
        let up = |level| values_on_lines(&plan.up(level), plan.degree_up, lines_of_cell(level));
        Surface {
            active,
            across: (0..plan.levels).map(across).collect(),
            up: (0..plan.levels).map(up).collect(),
        }
    }

    /// The height where two lines of the last level meet.
    fn height(&self, across: u32, up: u32) -> Fraction {
        let mut sum = Fraction::ZERO;
        for &(Function { level, row, column }, height) in &self.active {
            let of_column = self.across[level as usize][column as usize][across as usize];
            let of_row = self.up[level as usize][row as usize][up as usize];
            // Adding nothing takes longer than seeing that it is nothing.
            if of_column != Fraction::ZERO && of_row != Fraction::ZERO {
                sum = sum + height * (of_column * of_row);
            }
        }
        sum
    }
}

/// The corners of the active cells, four for each, for an output of so many floats.
pub fn corners(
    plan: Plan,
    cells: &[u8],
    functions: &[u8],
    heights: &[i32],
    room: usize,
) -> Result<Vec<Corner>, u32> {
    refuse_plan(plan)?;
    if plan.cell_total() > MOST_CELLS {
        return Err(16);
    }
    check(plan, cells, functions)?;
    let active = active_heights(plan, functions, heights)?;
    let shown: Vec<Cell> =
        plan.cells().zip(cells).filter(|(_, &byte)| byte == ACTIVE).map(|(cell, _)| cell).collect();
    if room < 12 * shown.len() {
        return Err(10);
    }
    let surface = Surface::new(plan, active);
    let corner = |(across, up)| Corner { across, up, height: surface.height(across, up) };
    Ok(shown.into_iter().flat_map(|cell| corners_of(plan, cell)).map(corner).collect())
}

#[cfg(test)]
mod tests {
    use super::*;
    use crate::height::height;
    use crate::{labels, table};
    use std::collections::BTreeSet;

    fn plan(numbers: [u32; 8]) -> Plan {
        let [columns, rows, levels, degree_across, degree_up, class, corners_across, corners_up] =
            numbers;
        Plan { columns, rows, levels, degree_across, degree_up, class, corners_across, corners_up }
    }

    /// Both tables of the mesh with these refined cells.
    fn tables(plan: Plan, refined: &[u32]) -> (Vec<u8>, Vec<u8>) {
        let refined: BTreeSet<Cell> =
            refined.iter().map(|&number| plan.cell_at(number as usize)).collect();
        let cells = table(plan, &refined);
        let functions = labels(plan, &cells);
        assert_eq!(check(plan, &cells, &functions), Ok(()));
        (cells, functions)
    }

    /// A cell of level k at column c, row r lies from c·2^(L-1-k) to (c+1)·2^(L-1-k) across, and up
    /// likewise.
    #[test]
    fn places_of_corners() {
        for (columns, rows, levels) in [(1, 1, 1), (3, 2, 1), (2, 3, 2), (3, 1, 3), (1, 2, 4)] {
            let plan = plan([columns, rows, levels, 1, 1, 0, 0, 0]);
            for cell in plan.cells() {
                let side = 1 << (levels - 1 - cell.level);
                let (left, low) = (cell.column * side, cell.row * side);
                let (right, high) = (left + side, low + side);
                let expected = [(left, low), (right, low), (left, high), (right, high)];
                assert_eq!(corners_of(plan, cell), expected, "{plan:?} {cell:?}");
                assert!(right <= columns << (levels - 1) && high <= rows << (levels - 1));
            }
        }
    }

    /// Three cells, the first of them refined: heights 10 for function 1 and 8 for function 9.
    #[test]
    fn by_hand() {
        let plan = plan([3, 1, 3, 1, 1, 2, 0, 0]);
        let (cells, functions) = tables(plan, &[0]);
        let mut heights = [0; 94];
        (heights[1], heights[9]) = (10, 8);
        let is = corners(plan, &cells, &functions, &heights, 72).expect("corners");
        // Cells 1 and 2, then 3, 4, 9 and 10, the children of cell 0.
        let expected = [
            "4 0 10, 8 0 0, 4 4 0, 8 4 0",
            "8 0 0, 12 0 0, 8 4 0, 12 4 0",
            "0 0 0, 2 0 5.5, 0 2 0, 2 2 2.5",
            "2 0 5.5, 4 0 10, 2 2 2.5, 4 2 5",
            "0 2 0, 2 2 2.5, 0 4 0, 2 4 0",
            "2 2 2.5, 4 2 5, 2 4 0, 4 4 0",
        ];
        let said = |corner: &Corner| corner.floats().map(|float| float.to_string()).join(" ");
        let of_cell = |four: &[Corner]| four.iter().map(said).collect::<Vec<_>>().join(", ");
        assert_eq!(is.chunks(4).map(of_cell).collect::<Vec<_>>(), expected);
    }

    /// The height is that of `height` at the point, in eighths.
    #[test]
    fn heights_at_the_points() {
        for (p, q) in [(1, 1), (2, 1), (1, 2), (2, 2)] {
            for (across, up) in [(0, 0), (2, 0), (0, 2), (2, 2)] {
                for refined in [&[][..], &[0], &[3], &[0, 1, 2, 3], &[0, 4, 8]] {
                    let plan = plan([2, 2, 3, p, q, 0, across, up]);
                    let (cells, functions) = tables(plan, refined);
                    let height_of = |i: usize| (i as i32 * 40_503) % 131_071 - 65_535;
                    let heights: Vec<i32> = (0..functions.len()).map(height_of).collect();
                    let all = corners(plan, &cells, &functions, &heights, 12 * cells.len());
                    let all = all.expect("corners");
                    assert_eq!(all.len(), 4 * cells.iter().filter(|&&byte| byte == ACTIVE).count());
                    for Corner { across, up, height: is } in all {
                        let (x, y) = (8 * across, 8 * up);
                        assert_eq!(height(plan, &cells, &functions, &heights, x, y), Ok(is));
                    }
                }
            }
        }
    }

    /// 16 is given just for more than 1,024 cells, and no plan has as many: the nearest have 1,023
    /// and 1,029, and with heights, so with at most four levels, 1,020.
    #[test]
    fn limits() {
        let sizes = (1..=16).flat_map(|columns| (1..=16).map(move |rows| (columns, rows)));
        let plans: Vec<Plan> = sizes
            .flat_map(|(columns, rows)| (1..=8).map(move |levels| (columns, rows, levels)))
            .map(|(columns, rows, levels)| plan([columns, rows, levels, 2, 2, 0, 0, 0]))
            .filter(|&plan| refuse_plan(plan).is_ok())
            .collect();
        let total = |plan: &&Plan| plan.cell_total();
        let small: Vec<&Plan> = plans.iter().filter(|plan| plan.cell_total() <= 1_024).collect();
        let large = plans.iter().filter(|plan| plan.cell_total() > 1_024);
        assert_eq!(small.iter().map(total).max(), Some(1_023));
        assert_eq!(large.clone().map(|plan| plan.cell_total()).min(), Some(1_029));
        let with_heights = || small.iter().filter(|plan| plan.levels <= 4);
        assert_eq!(with_heights().map(total).max(), Some(1_020));
        // Where all are refined, the active cells are those of the last level.
        let active = |plan: &&Plan| plan.columns * plan.rows * 4u32.pow(plan.levels - 1);
        assert_eq!(with_heights().map(active).max(), Some(784));
        for plan in plans.iter() {
            let expected = if plan.cell_total() > MOST_CELLS { 16 } else { 3 };
            assert_eq!(corners(*plan, &[], &[], &[], 0).err(), Some(expected), "{plan:?}");
        }
    }

    /// Whatever can be at fault is at fault at once, and then less and less of it.
    #[test]
    fn refusals_in_order() {
        let good = plan([3, 1, 3, 1, 1, 0, 0, 0]);
        let (cells, functions) = tables(good, &[0, 4]);
        let refused = |plan, cells: &[u8], functions: &[u8], heights: &[i32], number| {
            assert_eq!(corners(plan, cells, functions, heights, 0).err(), Some(number));
        };
        refused(plan([7, 7, 3, 3, 1, 1, 0, 0]), &[], &[], &[], 1);
        refused(plan([16, 16, 5, 3, 1, 2, 0, 0]), &[], &[], &[], 2);
        refused(plan([7, 7, 3, 3, 1, 2, 0, 0]), &[], &[], &[], 16);
        refused(Plan { class: 2, ..good }, &cells[1..], &functions, &[], 3);
        refused(Plan { class: 2, ..good }, &[9; 63], &functions, &[], 4);
        refused(Plan { class: 2, ..good }, &cells, &[9; 94], &[], 5);
        refused(good, &cells, &[9; 94], &[], 6);
        refused(good, &cells, &functions, &[i32::MAX; 93], 3);
        refused(good, &cells, &functions, &[i32::MAX; 94], 15);
        refused(good, &cells, &functions, &[0; 94], 10);
        let cubic = Plan { degree_up: 3, ..good };
        let (cells, functions) = tables(cubic, &[0, 3]);
        refused(cubic, &cells, &functions, &[], 3);
        refused(cubic, &cells, &functions, &vec![i32::MAX; functions.len()], 14);
    }

    /// Twelve floats for an active cell are enough, and one fewer is not.
    #[test]
    fn room() {
        let plan = plan([2, 2, 2, 2, 2, 0, 0, 0]);
        for (refined, active) in [(&[][..], 4), (&[0], 7), (&[0, 1, 2, 3], 16)] {
            let (cells, functions) = tables(plan, refined);
            let heights = vec![0; functions.len()];
            let with = |room| corners(plan, &cells, &functions, &heights, room);
            assert_eq!(with(12 * active).expect("corners").len(), 4 * active);
            assert_eq!(with(usize::MAX).expect("corners").len(), 4 * active);
            assert_eq!(with(12 * active - 1).err(), Some(10));
            assert_eq!(with(0).err(), Some(10));
        }
    }
}
