//! Lines just inside the edges of cells, which hide neither the cells beside them nor the numbers:
//! around those that the last change split or joined, and around what a split can reach.

use super::{dots, number, Frame, Options, CORNER_LINE_WIDTH};
use std::ops::Range;
use wallmirror::{Cell, Place, Window};

/// What an outline shows.
#[derive(Clone, Copy, PartialEq)]
pub enum Kind {
    Split,
    Joined,
    /// What a split can reach on this level.
    Reach(u32),
}

impl Kind {
    fn is_reach(self) -> bool {
        matches!(self, Kind::Reach(_))
    }
}

/// Orange and violet differ for those too who do not tell red from green.
const SPLIT: &str = "#d9541e";
const JOINED: &str = "#6a3d9a";
/// What is seen between the dashes of a line, which is lost on a dark level without it.
const GROUND: &str = "stroke=\"#ffffff\"";
/// A dash and the gap behind it, by the thickness of the line.
const JOINED_DASHES: [f64; 2] = [2.4, 1.6];
const REACH_DASHES: [f64; 2] = [4.0, 1.4];
const GREATEST_THICKNESS: f64 = 3.0;
/// From an outline to the next within it, so that both are seen where they share an edge.
const STEP: f64 = GREATEST_THICKNESS + 1.0;
/// Of a cell: no outline is farther from the edges.
const GREATEST_INSET: f64 = 0.25;

/// The outlines of a picture, those of the coarsest level first.
pub struct Outlines(Vec<Outline>);

impl Outlines {
    pub fn of(frame: &Frame, options: &Options) -> Outlines {
        let mut outlines = vec![];
        for (kind, window) in outlined(frame, options) {
            outlines.push(Outline::of(frame, kind, &window, &outlines));
        }
        Outlines(outlines)
    }

    pub fn svg(&self, frame: &Frame) -> String {
        let own = |outline: &Outline| style(outline.kind, outline.thickness);
        let ground = |outline: &Outline| line(GROUND, outline.thickness);
        let is_joined = |kind| kind == Kind::Joined;
        self.group(frame, "ground", is_joined, ground)
            + &self.group(frame, "joined", is_joined, own)
            + &self.group(frame, "split", |kind| kind == Kind::Split, own)
            + &self.group(frame, "reach-ground", Kind::is_reach, ground)
            + &self.group(frame, "reach", Kind::is_reach, own)
    }

    fn group(
        &self,
        frame: &Frame,
        id: &str,
        is_drawn: impl Fn(Kind) -> bool,
        style: impl Fn(&Outline) -> String,
    ) -> String {
        let drawn = self.0.iter().filter(|outline| is_drawn(outline.kind));
        let lines: String = drawn.map(|outline| outline.svg(frame, &style(outline))).collect();
        if lines.is_empty() {
            return lines;
        }
        format!("<g id=\"{id}\" pointer-events=\"none\">\n{lines}</g>\n")
    }

    /// Those that meet a rectangle.
    pub fn meeting(&self, x: &Range<f64>, y: &Range<f64>) -> Vec<&Outline> {
        self.0.iter().filter(|outline| outline.meets(x, y)).collect()
    }
}

/// What is outlined, the coarsest level first, and on each level what a split can reach before cells.
fn outlined(frame: &Frame, options: &Options) -> Vec<(Kind, Window)> {
    let mut all = vec![];
    if let Some(reach) = &options.reach {
        all.extend(reach.windows.iter().map(|window| (Kind::Reach(window.level), window.clone())));
    }
    if let Some(changes) = &options.changed {
        for (kind, cells) in [(Kind::Split, changes.split), (Kind::Joined, changes.joined)] {
            all.extend(cells.iter().filter_map(|&cell| Some((kind, around(frame, cell)?))));
        }
    }
    all.sort_by_key(|(_, window)| window.level);
    all
}

/// A cell alone.
fn around(frame: &Frame, cell: Cell) -> Option<Window> {
    let Place { level, row, column } = frame.plan.place(cell)?;
    Some(Window { level, rows: row..row + 1, columns: column..column + 1 })
}

/// A line around cells of one level.
pub struct Outline {
    kind: Kind,
    pub level: u32,
    /// The edges of the cells, from the wall's left edge and its lower edge: left, right, lower, upper.
    edges: [f64; 4],
    /// How many outlines are around it, one in the other, at each of these edges.
    depths: [usize; 4],
    /// Its outer edge.
    x: Range<f64>,
    y: Range<f64>,
    thickness: f64,
}

impl Outline {
    /// The others are those of coarser levels, and those of its level that came before it.
    fn of(frame: &Frame, kind: Kind, window: &Window, others: &[Outline]) -> Outline {
        let Window { level, rows, columns } = window;
        let side = frame.side(*level);
        let edges = [columns.start, columns.end, rows.start, rows.end].map(|k| f64::from(k) * side);
        let depths = [0, 1, 2, 3].map(|at| {
            let around = others.iter().filter(|other| other.is_around(kind, &edges, at));
            around.map(|other| other.depths[at] + 1).max().unwrap_or(0)
        });
        // Where a corner may run along the cells, it is seen beside the outline.
        let beside = if frame.has_corners() { CORNER_LINE_WIDTH / 2.0 } else { 0.0 };
        let inset = |at: usize| {
            let inset = beside.min(side / 30.0) + STEP * depths[at] as f64;
            inset.min(GREATEST_INSET * side)
        };
        let x = edges[0] + inset(0)..edges[1] - inset(1);
        let y = edges[2] + inset(2)..edges[3] - inset(3);
        let thickness = (0.1 * side).clamp(1.0, GREATEST_THICKNESS).min(0.25 * side);
        Outline { kind, level: *level, edges, depths, x, y, thickness }
    }

    /// Whether an outline of this kind is to keep within this one at one of its edges: they lie on each
    /// other, and share the edge unless both are around changed cells.
    fn is_around(&self, kind: Kind, edges: &[f64; 4], at: usize) -> bool {
        let [left, right, lower, upper] = *edges;
        let own = &self.edges;
        let overlap =
            !apart(&(own[0]..own[1]), &(left..right)) && !apart(&(own[2]..own[3]), &(lower..upper));
        let both_changed = !self.kind.is_reach() && !kind.is_reach();
        overlap && (both_changed || own[at] == edges[at])
    }

    /// Whether the line meets a rectangle.
    pub fn meets(&self, x: &Range<f64>, y: &Range<f64>) -> bool {
        !apart(&self.x, x) && !apart(&self.y, y) && !self.surrounds(x, y)
    }

    /// Whether a rectangle lies within the line.
    pub fn surrounds(&self, x: &Range<f64>, y: &Range<f64>) -> bool {
        let within = |own: &Range<f64>, other: &Range<f64>| {
            own.start + self.thickness <= other.start && other.end <= own.end - self.thickness
        };
        within(&self.x, x) && within(&self.y, y)
    }

    fn svg(&self, frame: &Frame, style: &str) -> String {
        let half = self.thickness / 2.0;
        let (x, y) = (number(frame.x(self.x.start + half)), number(frame.y(self.y.end - half)));
        let length = |own: &Range<f64>| number(own.end - own.start - self.thickness);
        let (width, height) = (length(&self.x), length(&self.y));
        format!("<rect x=\"{x}\" y=\"{y}\" width=\"{width}\" height=\"{height}\" {style}/>\n")
    }
}

fn apart(one: &Range<f64>, other: &Range<f64>) -> bool {
    other.end <= one.start || one.end <= other.start
}

/// The same for the outlines of a kind and for the sample in the legend. What a split can reach on a
/// level has the colour of that level's dots.
pub fn style(kind: Kind, thickness: f64) -> String {
    let dashed = |colour: &str, dashes: [f64; 2]| {
        let [dash, gap] = dashes.map(|share| number(share * thickness));
        format!("stroke=\"{colour}\" stroke-dasharray=\"{dash} {gap}\"")
    };
    let stroke = match kind {
        Kind::Split => format!("stroke=\"{SPLIT}\""),
        Kind::Joined => dashed(JOINED, JOINED_DASHES),
        Kind::Reach(level) => dashed(dots::COLOURS[level as usize], REACH_DASHES),
    };
    line(&stroke, thickness)
}

fn line(stroke: &str, thickness: f64) -> String {
    format!("fill=\"none\" {stroke} stroke-width=\"{}\"", number(thickness))
}
