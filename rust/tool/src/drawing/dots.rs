//! The functions of a wall as dots, each in the middle of its support: active ones filled,
//! deactivated ones hollow, passive ones not at all. The coarser the level, the larger the dot.

use super::{number, Frame};
use std::ops::Range;
use wallmirror::{Function, Mesh};

/// Of dots, and of outlines of what a split can reach, by level. Each is dark enough for white, which
/// is around the filled dots, in the hollow ones and between the dashes of the outlines, so that they
/// are seen on cells of any level. Neighbouring levels differ for those too who do not tell red from
/// green, and none is like the outline of a changed cell.
pub const COLOURS: [&str; 8] =
    ["#7a1526", "#e0246e", "#00897b", "#a58812", "#17401a", "#cc1fd6", "#664400", "#2d810e"];

/// The largest dots, in pixels and by the side of the cells of level 0.
const GREATEST_RADIUS: f64 = 11.0;
const GREATEST_SHARE: f64 = 0.11;
/// From a level to the next.
const SHRINKING: f64 = 0.66;

/// All dots that the functions of a plan may have.
pub struct Dots {
    levels: Vec<Level>,
}

impl Dots {
    pub fn of(frame: &Frame) -> Dots {
        let mut levels: Vec<Level> = vec![];
        for level in 0..frame.plan.levels {
            let greatest = match levels.last() {
                Some(coarser) => SHRINKING * coarser.radius,
                None => (GREATEST_SHARE * frame.side(0)).min(GREATEST_RADIUS),
            };
            levels.push(Level::of(frame, level, greatest));
        }
        Dots { levels }
    }

    /// The coarsest level first, so that the small dots are on top.
    pub fn svg(&self, frame: &Frame, mesh: &Mesh) -> String {
        let levels = self.levels.iter().map(|level| {
            level.svg(frame, mesh, 2, "deactivated") + &level.svg(frame, mesh, 1, "active")
        });
        format!("<g id=\"functions\">\n{}</g>\n", levels.collect::<String>())
    }

    /// How many functions of a level have that byte.
    pub fn count(&self, mesh: &Mesh, level: u32, byte: u8) -> usize {
        self.levels[level as usize].with_byte(mesh, byte).count()
    }

    /// Of a level's dots.
    pub fn radius(&self, level: u32) -> f64 {
        self.levels[level as usize].radius
    }

    /// Whether functions of a level cover the same cells, so that not every dot is in the middle.
    pub fn any_side_by_side(&self) -> bool {
        self.levels.iter().any(|level| level.across.has_same() || level.up.has_same())
    }

    /// Whether a dot that is drawn meets that rectangle.
    pub fn meet(&self, mesh: &Mesh, x: &Range<f64>, y: &Range<f64>) -> bool {
        self.levels.iter().any(|level| level.meets(mesh, x, y))
    }
}

/// The functions of a level: they are numbered from `first` on, row by row.
struct Level {
    level: u32,
    first: u32,
    across: Line,
    up: Line,
    /// With the line around the dot. No dot touches another one of its level.
    radius: f64,
}

impl Level {
    fn of(frame: &Frame, level: u32, greatest_radius: f64) -> Level {
        let plan = frame.plan;
        let first = plan.functions_on(level).map_or(0, |numbers| numbers.start);
        let per_row = plan.functions_across(level).unwrap_or(0) as u32;
        let rows = plan.functions_up(level).unwrap_or(0) as u32;
        let support = |n: u32| plan.support(Function(first + n));
        let columns = (0..per_row).filter_map(|i| Some(support(i)?.columns));
        let rows = (0..rows).filter_map(|j| Some(support(j * per_row)?.rows));
        let across = Line::of(columns.collect(), frame.side(level));
        let up = Line::of(rows.collect(), frame.side(level));
        let radius = greatest_radius.min(0.42 * across.spacing().min(up.spacing()));
        Level { level, first, across, up, radius }
    }

    /// Row, column and number of the functions with such a byte.
    fn with_byte<'a>(
        &'a self,
        mesh: &'a Mesh,
        byte: u8,
    ) -> impl Iterator<Item = (usize, usize, u32)> + 'a {
        let columns = self.across.covered.len();
        let places = (0..self.up.covered.len() * columns).map(move |n| (n / columns, n % columns));
        places
            .zip(self.first..)
            .filter(move |&(_, n)| mesh.functions[n as usize] == byte)
            .map(|((row, column), n)| (row, column, n))
    }

    fn meets(&self, mesh: &Mesh, x: &Range<f64>, y: &Range<f64>) -> bool {
        let columns = self.across.between(x.start - self.radius, x.end + self.radius);
        let mut rows = self.up.between(y.start - self.radius, y.end + self.radius);
        rows.any(|row| {
            let before = self.first as usize + row * self.across.covered.len();
            columns.clone().any(|column| mesh.functions[before + column] != 0)
        })
    }

    fn svg(&self, frame: &Frame, mesh: &Mesh, byte: u8, state: &str) -> String {
        let style = Style::of(self.level, self.radius, byte);
        let (level, r) = (self.level, number(style.radius));
        let text = |range: &Range<u32>| format!("{} to {}", range.start, range.end - 1);
        let dots = self.with_byte(mesh, byte).map(|(row, column, n)| {
            let x = number(frame.x(self.across.middles[column]));
            let y = number(frame.y(self.up.middles[row]));
            let (rows, columns) = (text(&self.up.covered[row]), text(&self.across.covered[column]));
            format!(
                "<circle id=\"f{n}\" cx=\"{x}\" cy=\"{y}\" r=\"{r}\"><title>function {n}, \
                 level {level}, rows {rows}, columns {columns}, {state}</title></circle>\n"
            )
        });
        format!("<g {}>\n{}</g>\n", style.attributes, dots.collect::<String>())
    }
}

/// The functions of a level in one direction.
struct Line {
    /// What each covers, in cells of the level.
    covered: Vec<Range<u32>>,
    /// Where its dot is, in pixels from the edge; they rise.
    middles: Vec<f64>,
}

impl Line {
    fn of(covered: Vec<Range<u32>>, side: f64) -> Line {
        let middles = (0..covered.len()).map(|i| side * middle(&covered, i)).collect();
        Line { covered, middles }
    }

    /// Whether two functions cover the same. Such ones follow one another.
    fn has_same(&self) -> bool {
        self.covered.windows(2).any(|two| two[0] == two[1])
    }

    /// The least distance between two dots. There are two at least, since degrees are.
    fn spacing(&self) -> f64 {
        self.middles.windows(2).map(|two| two[1] - two[0]).fold(f64::INFINITY, f64::min)
    }

    /// Which functions have their dots there.
    fn between(&self, from: f64, to: f64) -> Range<usize> {
        let before = |end: f64| self.middles.partition_point(|&middle| middle < end);
        before(from)..before(to)
    }
}

/// The middle of what function i covers, in cells. Functions that cover the same follow one another
/// and share half a cell around it, which is the least distance from there to the next middle.
fn middle(covered: &[Range<u32>], i: usize) -> f64 {
    let range = &covered[i];
    let first = covered[..i].iter().rposition(|other| other != range).map_or(0, |last| last + 1);
    let same = covered[first..].iter().take_while(|&other| other == range).count();
    let beside = (i - first) as f64 - (same - 1) as f64 / 2.0;
    f64::from(range.start + range.end) / 2.0 + 0.5 * beside / same as f64
}

/// A dot's look, the same on the wall and in the legend.
pub struct Style {
    pub radius: f64,
    pub attributes: String,
}

impl Style {
    /// Of functions with that byte: 1 is active, 2 deactivated. The line around the dot lies within
    /// the radius that is given.
    pub fn of(level: u32, radius: f64, byte: u8) -> Style {
        let colour = COLOURS[level as usize];
        let (fill, stroke, share) =
            if byte == 1 { (colour, "#ffffff", 0.16) } else { ("#ffffff", colour, 0.3) };
        let thickness = share * radius;
        let width = number(thickness);
        Style {
            radius: radius - thickness / 2.0,
            attributes: format!("fill=\"{fill}\" stroke=\"{stroke}\" stroke-width=\"{width}\""),
        }
    }
}
