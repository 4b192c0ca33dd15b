//! The height of the surface at a point: the sum over the active functions of height times B-spline
//! value, over the knots of the function's level.
//!
//! All numbers are exact fractions. The B-splines are the textbook's: the recursion of Cox and de
//! Boor over the knots as a list, where 0/0 is 0. Every active function is in the sum, near the point
//! or not.

use crate::knots::Knots;
use crate::{check, Function, Plan, ACTIVE};
use std::ops::{Add, Div, Mul, Sub};

/// The greatest height of an active function, in millimetres, either way.
pub const MOST_MM: i128 = 65_536;

/// A fraction in its lowest terms, the denominator above 0.
#[derive(Clone, Copy, Debug, PartialEq, Eq)]
pub struct Fraction {
    numerator: i128,
    denominator: i128,
}

impl Fraction {
    pub const ZERO: Fraction = Fraction::whole(0);
    pub const ONE: Fraction = Fraction::whole(1);

    pub const fn whole(number: i128) -> Fraction {
        Fraction { numerator: number, denominator: 1 }
    }

    pub fn new(numerator: i128, denominator: i128) -> Fraction {
        assert_ne!(denominator, 0, "{numerator}/0");
        let divisor = greatest_divisor(numerator, denominator) * denominator.signum();
        Fraction { numerator: numerator / divisor, denominator: denominator / divisor }
    }

    pub fn abs(self) -> Fraction {
        Fraction { numerator: self.numerator.abs(), ..self }
    }

    /// The whole number that this fraction is. That it is one is seen here.
    pub fn to_whole(self) -> i128 {
        assert_eq!(self.denominator, 1, "{self:?} is not whole");
        self.numerator
    }

    /// The f64 that is just this fraction. That there is one is seen here: the fraction is an odd
    /// number, or 0, times a power of two, and 53 bits hold the odd number.
    pub fn to_f64(self) -> f64 {
        assert!(self.denominator.count_ones() == 1, "{self:?} is not dyadic");
        if self.numerator == 0 {
            return 0.0;
        }
        let zeros = self.numerator.trailing_zeros();
        let odd = self.numerator >> zeros;
        assert!(odd.unsigned_abs() < 1 << 53, "{self:?} has more than 53 bits");
        let exponent = zeros as i32 - self.denominator.trailing_zeros() as i32;
        assert!((-900..=900).contains(&exponent), "{self:?} is too small or too large");
        // 2^exponent, as f64 lays it out. The product only changes the exponent.
        let power = f64::from_bits(((1023 + exponent) as u64) << 52);
        odd as f64 * power
    }
}

fn greatest_divisor(a: i128, b: i128) -> i128 {
    let (mut a, mut b) = (a.abs(), b.abs());
    while b != 0 {
        (a, b) = (b, a % b);
    }
    a
}

impl Add for Fraction {
    type Output = Fraction;
    fn add(self, other: Fraction) -> Fraction {
        let numerator = self.numerator * other.denominator + other.numerator * self.denominator;
        Fraction::new(numerator, self.denominator * other.denominator)
    }
}

impl Sub for Fraction {
    type Output = Fraction;
    fn sub(self, other: Fraction) -> Fraction {
        self + Fraction { numerator: -other.numerator, ..other }
    }
}

impl Mul for Fraction {
    type Output = Fraction;
    fn mul(self, other: Fraction) -> Fraction {
        Fraction::new(self.numerator * other.numerator, self.denominator * other.denominator)
    }
}

impl Div for Fraction {
    type Output = Fraction;
    fn div(self, other: Fraction) -> Fraction {
        Fraction::new(self.numerator * other.denominator, self.denominator * other.numerator)
    }
}

impl PartialOrd for Fraction {
    fn partial_cmp(&self, other: &Fraction) -> Option<std::cmp::Ordering> {
        let (left, right) =
            (self.numerator * other.denominator, other.numerator * self.denominator);
        left.partial_cmp(&right)
    }
}

/// The knots as numbers, of which a cell is one long.
pub fn places(knots: &Knots) -> Vec<Fraction> {
    knots.list().iter().map(|&line| Fraction::whole(line.into())).collect()
}

/// The value at x of B-spline i of this degree. The last interval that is not empty has its far end
/// too.
pub fn b_spline(knots: &[Fraction], i: usize, degree: usize, x: Fraction) -> Fraction {
    if degree == 0 {
        let (from, to, last) = (knots[i], knots[i + 1], knots[knots.len() - 1]);
        let inside = (from <= x && x < to) || (from < to && to == last && x == last);
        return if inside { Fraction::ONE } else { Fraction::ZERO };
    }
    let ratio = |part: Fraction, of: Fraction| match of {
        Fraction::ZERO => Fraction::ZERO,
        _ => part / of,
    };
    let rising = ratio(x - knots[i], knots[i + degree] - knots[i]);
    let falling = ratio(knots[i + degree + 1] - x, knots[i + degree + 1] - knots[i + 1]);
    rising * b_spline(knots, i, degree - 1, x) + falling * b_spline(knots, i + 1, degree - 1, x)
}

/// The far edge across and up, in eighths of a cell of the last level.
pub fn far_edges(plan: Plan) -> (u32, u32) {
    let last = plan.levels - 1;
    (8 * plan.width(last), 8 * plan.height(last))
}

/// The value of a function at a point, given in eighths of a cell of the last level.
pub fn value(plan: Plan, function: Function, across: u32, up: u32) -> Fraction {
    let Function { level, row, column } = function;
    let eighths = 8 * 2i128.pow(plan.levels - 1 - level);
    let in_one_direction = |knots: &Knots, degree: u32, i: u32, place: u32| {
        let x = Fraction::new(place.into(), eighths);
        b_spline(&places(knots), i as usize, degree as usize, x)
    };
    in_one_direction(&plan.across(level), plan.degree_across, column, across)
        * in_one_direction(&plan.up(level), plan.degree_up, row, up)
}

/// A function's height in millimetres: on level k the unit is 16^-k of them.
pub fn millimetres(level: u32, height: i32) -> Fraction {
    Fraction::new(height.into(), 16i128.pow(level))
}

/// The active functions with their heights in millimetres. For tables that check passes; refusals 3,
/// 14 and 15 as far as the heights give cause.
pub fn active_heights(
    plan: Plan,
    functions: &[u8],
    heights: &[i32],
) -> Result<Vec<(Function, Fraction)>, u32> {
    if heights.len() != plan.function_total() {
        return Err(3);
    }
    if plan.degree_across > 2 || plan.degree_up > 2 || plan.levels > 4 {
        return Err(14);
    }
    let active: Vec<(Function, Fraction)> = plan
        .functions()
        .zip(functions)
        .zip(heights)
        .filter(|((_, &label), _)| label == ACTIVE)
        .map(|((function, _), &height)| (function, millimetres(function.level, height)))
        .collect();
    let most = Fraction::whole(MOST_MM);
    let too_high = |height: Fraction| height > most || height < Fraction::ZERO - most;
    if active.iter().any(|&(_, height)| too_high(height)) {
        return Err(15);
    }
    Ok(active)
}

/// The height of the surface at a point, in millimetres.
pub fn height(
    plan: Plan,
    cells: &[u8],
    functions: &[u8],
    heights: &[i32],
    across: u32,
    up: u32,
) -> Result<Fraction, u32> {
    check(plan, cells, functions)?;
    let active = active_heights(plan, functions, heights)?;
    let (far_across, far_up) = far_edges(plan);
    if across > far_across || up > far_up {
        return Err(15);
    }
    let sum = |sum, &(function, height): &(Function, Fraction)| {
        sum + height * value(plan, function, across, up)
    };
    Ok(active.iter().fold(Fraction::ZERO, sum))
}

#[cfg(test)]
mod tests {
    use super::*;
    use crate::knots::Direction;
    use std::rc::Rc;

    fn over(numerator: i128, denominator: i128) -> Fraction {
        Fraction::new(numerator, denominator)
    }

    /// Directions of a few columns, with all corners that they can have.
    fn each_direction(mut visit: impl FnMut(Direction, Rc<Knots>)) {
        for degree in 1..=4 {
            for (columns, level) in [(1, 0), (2, 0), (3, 0), (4, 0), (2, 1), (3, 1), (2, 2)] {
                for corners in (0..1 << (columns - 1)).map(|set| set << 1) {
                    let direction = Direction { columns, level, degree, corners };
                    visit(direction, Knots::of(direction));
                }
            }
        }
    }

    /// B-splines with the intervals closed at their far ends instead, so that on a line the cell
    /// before it counts: the limit from the left.
    fn from_left(knots: &[Fraction], i: usize, degree: usize, x: Fraction) -> Fraction {
        if degree == 0 {
            let inside = knots[i] < x && x <= knots[i + 1];
            return if inside { Fraction::ONE } else { Fraction::ZERO };
        }
        let ratio = |part: Fraction, of: Fraction| match of {
            Fraction::ZERO => Fraction::ZERO,
            _ => part / of,
        };
        let rising = ratio(x - knots[i], knots[i + degree] - knots[i]);
        let falling = ratio(knots[i + degree + 1] - x, knots[i + degree + 1] - knots[i + 1]);
        rising * from_left(knots, i, degree - 1, x)
            + falling * from_left(knots, i + 1, degree - 1, x)
    }

    /// Six columns of degree 2 with a corner before column 3: the function over the corner has the
    /// knots 2 3 3 4, the one before it 1 2 3 3.
    #[test]
    fn at_a_corner_by_hand() {
        let direction = Direction { columns: 6, level: 0, degree: 2, corners: 1 << 3 };
        let knots = places(&Knots::of(direction));
        let eighths =
            |i: usize, places: [i128; 7]| places.map(|x| b_spline(&knots, i, 2, over(x, 8)));
        let of_eight = |numerators: [i128; 7]| numerators.map(|numerator| over(numerator, 8));
        assert_eq!(eighths(4, [16, 20, 22, 24, 26, 28, 32]), {
            [over(0, 1), over(1, 4), over(9, 16), over(1, 1), over(9, 16), over(1, 4), over(0, 1)]
        });
        assert_eq!(eighths(3, [8, 12, 16, 20, 24, 25, 32]), of_eight([0, 1, 4, 5, 0, 0, 0]));
        assert_eq!(eighths(5, [16, 23, 24, 28, 32, 36, 40]), of_eight([0, 0, 0, 5, 4, 1, 0]));
    }

    #[test]
    fn values_make_1() {
        each_direction(|direction, knots| {
            let (places, degree) = (places(&knots), direction.degree as usize);
            for place in 0..=8 * direction.cells() {
                let x = over(place.into(), 8);
                let mut sum = Fraction::ZERO;
                for i in 0..knots.functions() {
                    let value = b_spline(&places, i as usize, degree, x);
                    assert!(value >= Fraction::ZERO && value <= Fraction::ONE);
                    // 0 outside the support, and not 0 inside.
                    let covered = knots.covered(i);
                    let (from, to) = (8 * covered.start, 8 * covered.end);
                    assert!((from..=to).contains(&place) || value == Fraction::ZERO);
                    assert!(!(from + 1..to).contains(&place) || value > Fraction::ZERO);
                    sum = sum + value;
                }
                assert_eq!(sum, Fraction::ONE, "{direction:?} {place}");
            }
        });
    }

    /// On lines, those of corners among them, the limit from the left is the value.
    #[test]
    fn functions_are_continuous() {
        each_direction(|direction, knots| {
            let (places, degree) = (places(&knots), direction.degree as usize);
            for place in 1..=8 * direction.cells() {
                let x = over(place.into(), 8);
                for i in 0..knots.functions() as usize {
                    let value = b_spline(&places, i, degree, x);
                    assert_eq!(
                        from_left(&places, i, degree, x),
                        value,
                        "{direction:?} {place} {i}"
                    );
                }
            }
        });
    }

    /// On the line of a corner one function alone has a value, and it is 1.
    #[test]
    fn one_function_on_a_corner() {
        each_direction(|direction, knots| {
            for bit in (1..direction.columns).filter(|bit| direction.corners >> bit & 1 == 1) {
                let x = Fraction::whole((bit << direction.level).into());
                let value = |i| b_spline(&places(&knots), i as usize, direction.degree as usize, x);
                let there: Vec<Fraction> =
                    (0..knots.functions()).map(value).filter(|&v| v != Fraction::ZERO).collect();
                assert_eq!(there, [Fraction::ONE], "{direction:?}");
            }
        });
    }
}
