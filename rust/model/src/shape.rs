//! Refining with heights: the surface keeps its shape.
//!
//! The coefficients are those of knot insertion (Boehm): the knots that the next level has and the
//! level has not are put in one after the other, and the functions before are written in those after.
//! All numbers are exact fractions, heights are millimetres on every level, and only at the end they
//! become units, which are seen to be whole there.

use crate::height::{active_heights, millimetres, places, Fraction, MOST_MM};
use crate::knots::{Direction, Knots};
use crate::{check, Call, Change, Function, Plan, ACTIVE, DEACTIVATED};

/// A function of the next level with its coefficient.
type Share = (u32, Fraction);

/// For each function of a direction its children, the functions of the next level of which it is
/// made, with their coefficients, which are not 0.
pub fn children(direction: Direction) -> Vec<Vec<Share>> {
    let finer = Knots::of(Direction { level: direction.level + 1, ..direction });
    // In cells of the next level, which are half as long.
    let mut knots: Vec<Fraction> =
        Knots::of(direction).list().iter().map(|&line| whole(2 * line)).collect();
    // Of each function that the knots make, how much of it is in each of the level's own.
    let functions = knots.len() - direction.degree as usize - 1;
    let mut parts: Vec<Vec<Fraction>> = (0..functions)
        .map(|i| (0..functions).map(|j| whole(u32::from(i == j))).collect())
        .collect();
    for knot in missing(&places(&finer), &knots) {
        insert(&mut knots, &mut parts, direction.degree as usize, knot);
    }
    assert_eq!(knots, places(&finer), "{direction:?}");
    (0..functions)
        .map(|i| {
            let shares = parts.iter().zip(0..).map(|(part, child)| (child, part[i]));
            shares.filter(|&(_, share)| share != Fraction::ZERO).collect()
        })
        .collect()
}

fn whole(number: u32) -> Fraction {
    Fraction::whole(number.into())
}

/// The entries of one list that the other lacks, each as often as it does.
fn missing(of: &[Fraction], other: &[Fraction]) -> Vec<Fraction> {
    let mut other = other.to_vec();
    let mut missing = vec![];
    for &entry in of {
        match other.iter().position(|&has| has == entry) {
            Some(place) => drop(other.remove(place)),
            None => missing.push(entry),
        }
    }
    assert_eq!(other, [], "knots that the next level has not");
    missing
}

/// Puts one more knot in. Function j of the new knots is in a spline so much as
/// a·(function j of the old) + (1-a)·(function j-1 of the old) says.
fn insert(
    knots: &mut Vec<Fraction>,
    parts: &mut Vec<Vec<Fraction>>,
    degree: usize,
    knot: Fraction,
) {
    let last = knots.iter().rposition(|&before| before <= knot).expect("a knot before");
    let between = |first: &[Fraction], second: &[Fraction], a: Fraction| -> Vec<Fraction> {
        first.iter().zip(second).map(|(&x, &y)| a * x + (Fraction::ONE - a) * y).collect()
    };
    let new_parts = (0..=parts.len())
        .map(|j| {
            if j + degree <= last {
                parts[j].clone()
            } else if j > last {
                parts[j - 1].clone()
            } else {
                let a = (knot - knots[j]) / (knots[j + degree] - knots[j]);
                between(&parts[j], &parts[j - 1], a)
            }
        })
        .collect();
    *parts = new_parts;
    knots.insert(last + 1, knot);
}

/// Heights in millimetres after a refinement: those of the active functions, and 0 for the others.
pub struct Carried {
    pub heights: Vec<Fraction>,
    /// The greatest that a deactivated function had to pass, either way.
    pub greatest_passed: Fraction,
}

/// From the labels before to those afterwards, with the heights of the functions active before.
fn carry(plan: Plan, before: &[(Function, Fraction)], functions: &[u8]) -> Carried {
    let mut heights = vec![Fraction::ZERO; functions.len()];
    for &(function, height) in before {
        heights[plan.function_number(function)] = height;
    }
    let mut greatest_passed = Fraction::ZERO;
    for level in 0..plan.levels - 1 {
        let across = children(plan.direction_across(level));
        let up = children(plan.direction_up(level));
        let first = plan.function_number(Function { level: level + 1, row: 0, column: 0 });
        let width = plan.across(level + 1).functions() as usize;
        let of_level = plan.functions().zip(0..).filter(|(function, _)| function.level == level);
        for (Function { row, column, .. }, number) in of_level {
            let number: usize = number;
            let height = heights[number];
            if functions[number] != DEACTIVATED || height == Fraction::ZERO {
                continue;
            }
            heights[number] = Fraction::ZERO;
            if height.abs() > greatest_passed {
                greatest_passed = height.abs();
            }
            for &(row, share_up) in &up[row as usize] {
                for &(column, share_across) in &across[column as usize] {
                    let child = first + row as usize * width + column as usize;
                    heights[child] = heights[child] + height * (share_up * share_across);
                }
            }
        }
    }
    for (height, &label) in heights.iter_mut().zip(functions) {
        if label != ACTIVE {
            *height = Fraction::ZERO;
        }
    }
    Carried { heights, greatest_passed }
}

/// A refining call with heights: what the call without makes, and the heights.
pub fn refine_with_heights(
    call: Call,
    plan: Plan,
    (cells, functions): (&[u8], &[u8]),
    heights: &[i32],
    marks: &[u32],
    (cell_room, function_room): (usize, usize),
) -> Result<(Change, Vec<i32>), u32> {
    let (change, carried) =
        carried(call, plan, (cells, functions), heights, marks, (cell_room, function_room))?;
    let most = Fraction::whole(MOST_MM);
    if carried.heights.iter().any(|height| height.abs() > most) {
        return Err(17);
    }
    let units = |(function, &height): (Function, &Fraction)| {
        let units = (height / millimetres(function.level, 1)).to_whole();
        i32::try_from(units).expect("a number of 32 bits")
    };
    Ok((change, plan.functions().zip(&carried.heights).map(units).collect()))
}

/// The same but for refusal 17.
pub fn carried(
    call: Call,
    plan: Plan,
    (cells, functions): (&[u8], &[u8]),
    heights: &[i32],
    marks: &[u32],
    (cell_room, function_room): (usize, usize),
) -> Result<(Change, Carried), u32> {
    check(plan, cells, functions)?;
    let before = active_heights(plan, functions, heights)?;
    let change = call(plan, cells, functions, marks, cell_room, function_room)?;
    let carried = carry(plan, &before, &change.functions);
    Ok((change, carried))
}

#[cfg(test)]
mod tests {
    use super::*;
    use crate::height::b_spline;

    fn over(numerator: i128, denominator: i128) -> Fraction {
        Fraction::new(numerator, denominator)
    }

    /// The children of a function in halves, quarters or eighths.
    fn in_parts(direction: Direction, function: usize, parts: i128) -> (u32, Vec<i128>) {
        let shares = children(direction).swap_remove(function);
        let numerators = shares.iter().map(|share| (share.1 * over(parts, 1)).to_whole()).collect();
        let first = shares[0].0;
        assert!(shares.iter().zip(first..).all(|(share, child)| share.0 == child));
        (first, numerators)
    }

    /// Directions of a few columns, with all corners that they can have.
    fn directions() -> Vec<Direction> {
        let mut directions = vec![];
        for degree in 1..=4 {
            for (columns, level) in [(1, 0), (2, 0), (3, 0), (4, 0), (1, 1), (2, 1), (3, 1), (1, 2)]
            {
                for corners in (0..1 << (columns - 1)).map(|set| set << 1) {
                    directions.push(Direction { columns, level, degree, corners });
                }
            }
        }
        directions
    }

    /// What textbooks have, far from the ends and at them.
    #[test]
    fn by_hand() {
        let direction = |columns, degree, corners| Direction { columns, level: 0, degree, corners };
        let hat = direction(4, 1, 0);
        assert_eq!(in_parts(hat, 2, 2), (3, vec![1, 2, 1]));
        assert_eq!(in_parts(hat, 0, 2), (0, vec![2, 1]));
        assert_eq!(in_parts(hat, 4, 2), (7, vec![1, 2]));
        // The one far from the ends has knots 2 to 5.
        let quadratic = direction(7, 2, 0);
        assert_eq!(in_parts(quadratic, 4, 4), (4 + 2, vec![1, 3, 3, 1]));
        assert_eq!(in_parts(quadratic, 0, 4), (0, vec![4, 2]));
        // 0 0 1 2 and 0 1 2 3, of which the next level has 0 0 1 2, 0 1 2 3, ..
        assert_eq!(in_parts(quadratic, 1, 4), (1, vec![2, 3, 1]));
        assert_eq!(in_parts(quadratic, 2, 4), (2, vec![1, 3, 3, 1]));
        // A single cell: Bernstein polynomials.
        assert_eq!(in_parts(direction(1, 2, 0), 1, 4), (1, vec![2, 2]));
        assert_eq!(in_parts(direction(7, 3, 0), 5, 8), (7, vec![1, 4, 6, 4, 1]));
        // A corner before column 3: 0 0 0 1 2 3 3 4 5 6 6 6. Function 4 stands over it, 3 before it.
        let cornered = direction(6, 2, 1 << 3);
        assert_eq!(in_parts(cornered, 4, 4), (6, vec![2, 4, 2]));
        assert_eq!(in_parts(cornered, 3, 4), (4, vec![1, 3, 2]));
        assert_eq!(in_parts(cornered, 5, 4), (8, vec![2, 3, 1]));
    }

    /// A function is the sum of its children, each times its coefficient, at every eighth of a cell of
    /// the next level. The values are those of the recursion of Cox and de Boor.
    #[test]
    fn a_function_is_the_sum_of_its_children() {
        for direction in directions() {
            let finer = Direction { level: direction.level + 1, ..direction };
            let (knots, finer_knots) = (places(&Knots::of(direction)), places(&Knots::of(finer)));
            let degree = direction.degree as usize;
            for (i, shares) in children(direction).iter().enumerate() {
                for place in (0..=8 * finer.cells()).map(i128::from) {
                    let of_child = |sum, &(child, share): &Share| {
                        sum + share * b_spline(&finer_knots, child as usize, degree, over(place, 8))
                    };
                    let sum = shares.iter().fold(Fraction::ZERO, of_child);
                    assert_eq!(sum, b_spline(&knots, i, degree, over(place, 16)), "{direction:?}");
                }
            }
        }
    }

    /// Coefficients are above 0, those of one child make 1, and children lie in the support.
    #[test]
    fn coefficients_make_1() {
        for direction in directions() {
            let finer = Knots::of(Direction { level: direction.level + 1, ..direction });
            let mut sums = vec![Fraction::ZERO; finer.functions() as usize];
            for (i, shares) in children(direction).iter().enumerate() {
                let covered = Knots::of(direction).covered(i as u32);
                for &(child, share) in shares {
                    assert!(share > Fraction::ZERO, "{direction:?}");
                    sums[child as usize] = sums[child as usize] + share;
                    let of_child = finer.covered(child);
                    assert!(2 * covered.start <= of_child.start && of_child.end <= 2 * covered.end);
                }
            }
            assert!(sums.iter().all(|&sum| sum == Fraction::ONE), "{direction:?}");
        }
    }

    /// Degrees 1 and 2 have halves and quarters, so that sixteenths are enough for a surface.
    #[test]
    fn quarters() {
        for direction in directions().into_iter().filter(|direction| direction.degree <= 2) {
            for &(_, share) in children(direction).iter().flatten() {
                (share * over(4, 1)).to_whole();
            }
        }
    }
}
