//! The numbers of the active cells, of those in which they can be read: where no dot and no outline
//! is.

use super::outlines::{Outline, Outlines};
use super::{number, on_level, Dots, Frame, INKS};
use std::ops::Range;
use wallmirror::{Mesh, Place};

pub const SMALLEST_FONT: f64 = 6.0;
/// The width of a digit, where the font size is 1.
const DIGIT: f64 = 0.62;
pub const DIGIT_HEIGHT: f64 = 0.72;

/// Where numbers may be put: so many steps across and up, the first and the last of them a little
/// inside the cell.
const STEPS: i32 = 24;
const FIRST_STEP: f64 = 6.5;

/// What is drawn before the numbers.
pub struct Numbers<'a> {
    pub frame: &'a Frame,
    pub mesh: &'a Mesh,
    pub dots: Option<&'a Dots>,
    pub outlines: &'a Outlines,
}

impl Numbers<'_> {
    pub fn svg(&self) -> String {
        let steps = self.steps();
        let mut out =
            String::from("<g id=\"numbers\" text-anchor=\"middle\" pointer-events=\"none\">\n");
        for level in 0..self.frame.plan.levels {
            let Some(size) = self.font_size(level) else { continue };
            let ink = on_level(INKS, level);
            out += &format!("<g font-size=\"{}\" fill=\"{ink}\">\n", number(size));
            let active = self.frame.active(self.mesh, level);
            out.extend(active.filter_map(|(cell, place)| {
                let width = width_of(cell.0, size);
                let (x, y) = self.free_place(&steps, place, (width, DIGIT_HEIGHT * size))?;
                let (x, y) = (self.frame.x(x + width / 2.0), self.frame.y(y));
                Some(format!("<text x=\"{}\" y=\"{}\">{}</text>\n", number(x), number(y), cell.0))
            }));
            out += "</g>\n";
        }
        out + "</g>\n"
    }

    /// The best first: the nearest to the middle, or to the lower left corner where there are dots.
    fn steps(&self) -> Vec<(i32, i32)> {
        let best = if self.dots.is_some() { 0 } else { STEPS / 2 };
        let across = |j| (0..=STEPS).map(move |i| (i, j));
        let mut steps: Vec<(i32, i32)> = (0..=STEPS).flat_map(across).collect();
        steps.sort_by_key(|(i, j)| (i - best).pow(2) + (j - best).pow(2));
        steps
    }

    /// One size for a level, by its last number. `None` where it would be too small to read.
    fn font_size(&self, level: u32) -> Option<f64> {
        let side = self.frame.side(level);
        let widest = width_of(self.frame.plan.cells_on(level)?.end - 1, 1.0);
        let size = if self.dots.is_some() {
            (0.44 * side / widest).min(0.22 * side).min(11.0)
        } else {
            (0.68 * side / widest).min(0.42 * side).min(16.0)
        };
        (size >= SMALLEST_FONT).then_some(size)
    }

    /// Where a text of that size may begin in a cell without meeting a dot or an outline, from the
    /// wall's left edge and its lower edge. `None` where they leave no such place.
    fn free_place(
        &self,
        steps: &[(i32, i32)],
        place: Place,
        (width, height): (f64, f64),
    ) -> Option<(f64, f64)> {
        let side = self.frame.side(place.level);
        let edges = |k: u32| f64::from(k) * side..f64::from(k + 1) * side;
        let (columns, rows) = (edges(place.column), edges(place.row));
        let outlines = self.outlines.meeting(&columns, &rows);
        let gap = (0.025 * side).min(1.0);
        let around = |from: f64, length: f64| from - gap..from + length + gap;
        let stepped = |&(i, j): &(i32, i32)| (at(&columns, i, width), at(&rows, j, height));
        let find = |outside: bool| {
            steps.iter().map(stepped).find(|&(x, y)| {
                let (x, y) = (around(x, width), around(y, height));
                let is_inner = |outline: &Outline| outside && outline.level > place.level;
                let blocks = |outline: &&Outline| {
                    outline.meets(&x, &y) || is_inner(outline) && outline.surrounds(&x, &y)
                };
                let dots_meet = self.dots.is_some_and(|dots| dots.meet(self.mesh, &x, &y));
                !dots_meet && !outlines.iter().any(blocks)
            })
        };
        // In the outline of a smaller cell the number would seem to be that cell's.
        find(true).or_else(|| find(false))
    }
}

/// Where a text of that length begins between two edges, at that step.
fn at(edges: &Range<f64>, step: i32, length: f64) -> f64 {
    let side = edges.end - edges.start;
    let first = FIRST_STEP.min(0.12 * side);
    edges.start + first + (side - length - 2.0 * first) * f64::from(step) / f64::from(STEPS)
}

/// About how wide a number is.
pub fn width_of(n: u32, size: f64) -> f64 {
    n.to_string().len() as f64 * DIGIT * size
}
