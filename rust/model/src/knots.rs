//! One direction of a level: its lines, the knots on them, and the functions that the knots make.
//!
//! With n cells there are the lines 0 to n; line x is the one before cell x. The knot on a line is
//! taken degree + 1 times at both ends, degree times where the line is a corner, and once
//! elsewhere. All else is read off the list of knots.

use std::cell::RefCell;
use std::ops::Range;
use std::rc::Rc;

/// The columns (or rows) of level 0, the level, the degree, and the corners: bit k marks the line
/// of level 0 before column (row) k.
#[derive(Clone, Copy, Debug, PartialEq, Eq)]
pub struct Direction {
    pub columns: u32,
    pub level: u32,
    pub degree: u32,
    pub corners: u32,
}

impl Direction {
    /// The cells of this level from one end to the other.
    pub fn cells(self) -> u32 {
        self.columns * 2u32.pow(self.level)
    }

    /// How many times the knot on a line is taken.
    fn times(self, line: u32) -> u32 {
        let apart = 2u32.pow(self.level); // from one line of level 0 to the next
        if line == 0 || line == self.cells() {
            self.degree + 1
        } else if line.is_multiple_of(apart) && self.corners >> (line / apart) & 1 == 1 {
            self.degree
        } else {
            1
        }
    }
}

/// The knots of a direction, and what follows from them.
#[derive(Debug)]
pub struct Knots {
    list: Vec<u32>,
    covered: Vec<Range<u32>>,
    over: Vec<Vec<u32>>,
}

impl Knots {
    fn new(direction: Direction) -> Knots {
        let lines = 0..=direction.cells();
        let list: Vec<u32> =
            lines.flat_map(|line| (0..direction.times(line)).map(move |_| line)).collect();
        let covered: Vec<Range<u32>> = list
            .windows(direction.degree as usize + 2)
            .map(|knots| knots[0]..knots[knots.len() - 1])
            .collect();
        let over = (0..direction.cells())
            .map(|cell| {
                let functions = (0..).zip(&covered).filter(|(_, covered)| covered.contains(&cell));
                functions.map(|(function, _)| function).collect()
            })
            .collect();
        Knots { list, covered, over }
    }

    /// Those of a direction. The last ones are kept, since every function of a level asks for them.
    pub fn of(direction: Direction) -> Rc<Knots> {
        const MOST_KEPT: usize = 32; // both directions of eight levels of two plans
        thread_local! {
            static KEPT: RefCell<Vec<(Direction, Rc<Knots>)>> = const { RefCell::new(vec![]) };
        }
        KEPT.with_borrow_mut(|kept| {
            if let Some((_, knots)) = kept.iter().find(|(other, _)| *other == direction) {
                return knots.clone();
            }
            if kept.len() == MOST_KEPT {
                kept.clear();
            }
            let knots = Rc::new(Knots::new(direction));
            kept.push((direction, knots.clone()));
            knots
        })
    }

    /// The lines, each so often as its knot is taken, in rising order.
    pub fn list(&self) -> &[u32] {
        &self.list
    }

    /// A function for every degree + 2 knots in a row.
    pub fn functions(&self) -> u32 {
        self.covered.len() as u32
    }

    /// The cells that a function covers: those from its first knot to its last.
    pub fn covered(&self, function: u32) -> Range<u32> {
        self.covered[function as usize].clone()
    }

    /// The functions that cover a cell.
    pub fn over(&self, cell: u32) -> &[u32] {
        &self.over[cell as usize]
    }
}

#[cfg(test)]
mod tests {
    use super::*;
    use std::collections::BTreeSet;

    /// The cells that are covered by a common function with this one. Each function covers cells in a
    /// row with this one among them, so all of them together are in a row too.
    fn near(knots: &Knots, cell: u32) -> Range<u32> {
        let all: BTreeSet<u32> =
            knots.over(cell).iter().flat_map(|&function| knots.covered(function)).collect();
        let (first, last) = (all.first().expect("a cell"), all.last().expect("a cell"));
        let in_a_row = *first..last + 1;
        assert!(all.iter().copied().eq(in_a_row.clone()), "{all:?}");
        in_a_row
    }

    /// Every direction of few columns, all sets of corners, and some of sixteen columns.
    fn directions() -> Vec<Direction> {
        let mut directions = vec![];
        for degree in 1..=4 {
            for columns in 1..=6u32 {
                for level in 0..=3 {
                    for set in 0..1 << (columns - 1) {
                        directions.push(Direction { columns, level, degree, corners: set << 1 });
                    }
                }
            }
            for corners in [0, 2, 1 << 15, 0x5554, 0xaaaa, 0x8002, 0xfffe] {
                for level in 0..=5 {
                    directions.push(Direction { columns: 16, level, degree, corners });
                }
            }
        }
        directions
    }

    /// Six columns of degree 2 with a corner before column 3, on levels 0 and 1.
    #[test]
    fn by_hand() {
        let direction = Direction { columns: 6, level: 0, degree: 2, corners: 1 << 3 };
        let knots = Knots::of(direction);
        assert_eq!(knots.list(), [0, 0, 0, 1, 2, 3, 3, 4, 5, 6, 6, 6]);
        assert_eq!(knots.functions(), 9);
        let covered: Vec<Range<u32>> = (0..9).map(|i| knots.covered(i)).collect();
        assert_eq!(covered, [0..1, 0..2, 0..3, 1..3, 2..4, 3..5, 3..6, 4..6, 5..6]);
        let all_near: Vec<Range<u32>> = (0..6).map(|x| near(&knots, x)).collect();
        assert_eq!(all_near, [0..3, 0..3, 0..4, 2..6, 3..6, 3..6]);
        let finer = Knots::of(Direction { level: 1, ..direction });
        assert_eq!(finer.list(), [0, 0, 0, 1, 2, 3, 4, 5, 6, 6, 7, 8, 9, 10, 11, 12, 12, 12]);
        assert_eq!(finer.covered(7), 5..7);
        assert_eq!(finer.over(5), [5, 6, 7]);
        assert_eq!(near(&finer, 5), 3..7);
    }

    /// Without corners: n + p functions, function i covers max(0, i-p) to min(n-1, i), and a common
    /// function covers what is at most p apart.
    #[test]
    fn without_corners_as_the_scope_document_has_it() {
        for direction in directions().into_iter().filter(|direction| direction.corners == 0) {
            let (knots, n, p) = (Knots::of(direction), direction.cells(), direction.degree);
            assert_eq!(knots.functions(), n + p);
            for i in 0..n + p {
                assert_eq!(knots.covered(i), i.saturating_sub(p)..i.min(n - 1) + 1);
            }
            for x in 0..n {
                assert_eq!(near(&knots, x), x.saturating_sub(p)..(x + p).min(n - 1) + 1);
            }
        }
    }

    /// Each corner adds p-1 functions.
    #[test]
    fn functions_of_a_corner() {
        for direction in directions() {
            let (n, p) = (direction.cells(), direction.degree);
            let corners = direction.corners.count_ones();
            assert_eq!(Knots::of(direction).functions(), n + p + (p - 1) * corners);
        }
    }

    /// A corner of degree 1 is a line like others.
    #[test]
    fn corners_of_degree_1() {
        for direction in directions().into_iter().filter(|direction| direction.degree == 1) {
            let plain = Knots::of(Direction { corners: 0, ..direction });
            assert_eq!(Knots::of(direction).list(), plain.list());
        }
    }

    /// p+1 functions in a row cover a cell, each function covers one to p+1 cells, and one alone
    /// covers both sides of a corner.
    #[test]
    fn functions_over_a_cell() {
        for direction in directions() {
            let (knots, n, p) = (Knots::of(direction), direction.cells(), direction.degree);
            for x in 0..n {
                let over: Vec<u32> =
                    (0..knots.functions()).filter(|&i| knots.covered(i).contains(&x)).collect();
                assert_eq!(over, (over[0]..over[0] + p + 1).collect::<Vec<_>>(), "{direction:?}");
                assert_eq!(knots.over(x), over, "{direction:?}");
                assert!(x == 0 || near(&knots, x).start < x && near(&knots, x - 1).end > x);
            }
            for i in 0..knots.functions() {
                assert!((1..=p as usize + 1).contains(&knots.covered(i).len()));
            }
            for line in 1..n {
                let across = |&i: &u32| {
                    knots.covered(i).contains(&(line - 1)) && knots.covered(i).contains(&line)
                };
                let many = (0..knots.functions()).filter(across).count() as u32;
                let corner = line % (1 << direction.level) == 0
                    && direction.corners >> (line >> direction.level) & 1 == 1;
                assert_eq!(many, if corner { 1 } else { p }, "{direction:?} {line}");
            }
        }
    }

    /// What is near is so both ways.
    #[test]
    fn near_both_ways() {
        for direction in directions() {
            let knots = Knots::of(direction);
            for x in 0..direction.cells() {
                assert!(near(&knots, x).contains(&x));
                let both = near(&knots, x).all(|y| near(&knots, y).contains(&x));
                assert!(both, "{direction:?} {x}");
            }
        }
    }
}
