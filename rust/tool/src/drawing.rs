//! A wall as an SVG picture: its active cells by level, with their numbers; what the last change
//! split and joined; what a split can reach; and the functions, as dots. Row 0 is at the bottom.

mod dots;
mod legend;
mod numbers;
mod outlines;
mod reach;
#[cfg(test)]
pub mod samples;
#[cfg(test)]
mod tests;
mod xml;

use crate::words;
use dots::Dots;
use numbers::Numbers;
use outlines::Outlines;
pub use reach::Reach;
use wallmirror::{Cell, Mesh, Place, Plan};
use xml::{escaped, number};

/// What to draw besides the cells.
pub struct Options<'a> {
    pub functions: bool,
    pub changed: Option<Changes<'a>>,
    pub reach: Option<Reach>,
}

/// The cells that the last change split, and those that it joined.
pub struct Changes<'a> {
    pub split: &'a [Cell],
    pub joined: &'a [Cell],
}

/// Of active cells, by level: the finer, the darker.
const FILLS: [&str; 8] =
    ["#f6f7f9", "#d9e6f7", "#9fc0ea", "#6f9fdb", "#4579bd", "#2c5a9a", "#1c3f73", "#10264a"];
/// Of the lines around the cells, and of those around dark ones.
const BORDERS: [&str; 2] = ["#40506a", "#b9c8de"];
/// Of the numbers in the cells, and of those in dark ones.
const INKS: [&str; 2] = ["#1d2733", "#ffffff"];
const FIRST_DARK_LEVEL: u32 = 4;
const CORNER_LINE: &str = "#1d2733";
const CORNER_LINE_WIDTH: f64 = 4.0;
/// How far the lines go on beyond the wall.
const CORNER_LINE_END: f64 = 7.0;

const MARGIN: f64 = 20.0;
const HEADING_HEIGHT: f64 = 46.0;
/// The wall's longer side, where nothing asks for more.
const USUAL_LENGTH: f64 = 640.0;
const GREATEST_LENGTH: f64 = 960.0;
/// Of a cell of level 0, where nothing asks for more.
const GREATEST_USUAL_SIDE: f64 = 240.0;
/// Of the finest active cells, where there is room.
const READABLE_SIDE: f64 = 30.0;

/// The picture of a mesh that passes check, as a whole file. `name` may be any text.
pub fn svg(name: &str, mesh: &Mesh, options: &Options) -> String {
    let frame = Frame::of(mesh, legend::least_width(options));
    let dots = options.functions.then(|| Dots::of(&frame));
    let outlines = Outlines::of(&frame, options);
    let (legend, legend_height) = legend::legend(&frame, mesh, options, dots.as_ref());
    let mut picture = heading(&frame, name);
    picture += &cells(&frame, mesh);
    picture += &corner_lines(&frame);
    picture += &outlines.svg(&frame);
    picture += &dots.as_ref().map_or(String::new(), |dots| dots.svg(&frame, mesh));
    picture += &Numbers { frame: &frame, mesh, dots: dots.as_ref(), outlines: &outlines }.svg();
    picture += &legend;
    let width = number(frame.width + 2.0 * MARGIN);
    let height = number(frame.bottom() + legend_height + MARGIN);
    format!(
        "<svg xmlns=\"http://www.w3.org/2000/svg\" width=\"{width}\" height=\"{height}\" \
         viewBox=\"0 0 {width} {height}\" font-family=\"sans-serif\">\n\
         <title>{}</title>\n<rect width=\"{width}\" height=\"{height}\" fill=\"#ffffff\"/>\n\
         {picture}</svg>\n",
        escaped(name),
    )
}

/// Where the wall stands in the picture. Lengths are in pixels.
struct Frame {
    plan: Plan,
    /// The side of a cell of the last level, in whole quarters, so that places are written exactly.
    unit: f64,
    /// Of the wall or the legend, whichever is wider.
    width: f64,
}

impl Frame {
    fn of(mesh: &Mesh, least_width: f64) -> Frame {
        let plan = mesh.plan;
        let count = f64::from(plan.columns.max(plan.rows));
        let usual = (USUAL_LENGTH / count).min(GREATEST_USUAL_SIDE);
        let readable = READABLE_SIDE * f64::from(1 << finest_active_level(mesh));
        let side = usual.max(readable).min(GREATEST_LENGTH / count);
        let unit = (4.0 * side / f64::from(1 << (plan.levels - 1))).floor() / 4.0;
        let frame = Frame { plan, unit, width: 0.0 };
        Frame { width: least_width.max(f64::from(plan.columns) * frame.side(0)), ..frame }
    }

    /// The side of a cell.
    fn side(&self, level: u32) -> f64 {
        self.unit * f64::from(1 << (self.plan.levels - 1 - level))
    }

    fn has_corners(&self) -> bool {
        self.plan.corners_across != 0 || self.plan.corners_up != 0
    }

    /// The edge of the wall below row 0.
    fn bottom(&self) -> f64 {
        MARGIN + HEADING_HEIGHT + f64::from(self.plan.rows) * self.side(0)
    }

    /// So many pixels from the wall's left edge.
    fn x(&self, across: f64) -> f64 {
        MARGIN + across
    }

    /// So many pixels above the wall's lower edge.
    fn y(&self, up: f64) -> f64 {
        self.bottom() - up
    }

    /// The upper left corner of a cell.
    fn upper_left(&self, place: Place) -> (f64, f64) {
        let side = self.side(place.level);
        (self.x(f64::from(place.column) * side), self.y(f64::from(place.row + 1) * side))
    }

    /// The active cells of a level with their places.
    fn active<'a>(
        &self,
        mesh: &'a Mesh,
        level: u32,
    ) -> impl Iterator<Item = (Cell, Place)> + use<'a> {
        let plan = self.plan;
        let is_active = |cell: &Cell| mesh.cells[cell.0 as usize] == 1;
        let numbers = plan.cells_on(level).into_iter().flatten().map(Cell).filter(is_active);
        numbers.filter_map(move |cell| Some((cell, plan.place(cell)?)))
    }
}

fn finest_active_level(mesh: &Mesh) -> u32 {
    let last = mesh.cells.iter().rposition(|&byte| byte == 1).unwrap_or(0);
    mesh.plan.place(Cell(last as u32)).map_or(0, |place| place.level)
}

/// One of two colours: that for light levels, or that for dark ones.
fn on_level(colours: [&str; 2], level: u32) -> &str {
    colours[usize::from(level >= FIRST_DARK_LEVEL)]
}

fn heading(frame: &Frame, name: &str) -> String {
    let numbers = words::plan(frame.plan);
    let name = escaped(&legend::cut(name, frame.width));
    let x = number(MARGIN);
    format!(
        "<g id=\"heading\" fill=\"{}\">\n\
         <text x=\"{x}\" y=\"32\" font-size=\"15\" font-weight=\"bold\">{name}</text>\n\
         <text x=\"{x}\" y=\"52\" font-size=\"12\">{numbers}</text>\n</g>\n",
        INKS[0]
    )
}

/// Each active cell, with a title that a browser shows where the pointer is.
fn cells(frame: &Frame, mesh: &Mesh) -> String {
    let mut out = String::from("<g id=\"cells\">\n");
    for level in 0..frame.plan.levels {
        let (fill, border) = (FILLS[level as usize], on_level(BORDERS, level));
        let thickness = if frame.side(level) < 12.0 { 0.5 } else { 1.0 };
        out += &format!("<g fill=\"{fill}\" stroke=\"{border}\" stroke-width=\"{thickness}\">\n");
        out.extend(frame.active(mesh, level).map(|(cell, place)| cell_at(frame, cell, place)));
        out += "</g>\n";
    }
    out + "</g>\n"
}

fn cell_at(frame: &Frame, cell: Cell, place: Place) -> String {
    let Place { level, row, column } = place;
    let (x, y) = frame.upper_left(place);
    let (x, y, side) = (number(x), number(y), number(frame.side(level)));
    let (n, lies_in) = (cell.0, split_around(frame.plan, place));
    format!(
        "<rect id=\"c{n}\" x=\"{x}\" y=\"{y}\" width=\"{side}\" height=\"{side}\"><title>cell {n}, \
         level {level}, row {row}, column {column}{lies_in}</title></rect>\n"
    )
}

/// The split cells that an active one lies in, the finest first: the marks of a join.
fn split_around(plan: Plan, place: Place) -> String {
    let numbers = ancestors(place).filter_map(|place| Some(plan.cell_at(place)?.0.to_string()));
    let numbers: Vec<String> = numbers.collect();
    match numbers.len() {
        0 => String::new(),
        1 => format!(", in split cell {}", numbers[0]),
        _ => format!(", in split cells {}", numbers.join(", ")),
    }
}

/// Where the cells are that a cell lies in, the finest first.
fn ancestors(Place { level, row, column }: Place) -> impl Iterator<Item = Place> {
    (1..=level).map(move |by| Place { level: level - by, row: row >> by, column: column >> by })
}

/// The lines that the plan marks as corners, from edge to edge and a little beyond.
fn corner_lines(frame: &Frame) -> String {
    let plan = frame.plan;
    if !frame.has_corners() {
        return String::new();
    }
    let length = |count: u32| f64::from(count) * frame.side(0);
    let marked = |corners: u32| (1..16).filter(move |k| corners >> k & 1 == 1);
    let line = |x: [f64; 2], y: [f64; 2]| {
        let [x1, y1, x2, y2] = [x[0], y[0], x[1], y[1]].map(number);
        format!("<line x1=\"{x1}\" y1=\"{y1}\" x2=\"{x2}\" y2=\"{y2}\"/>\n")
    };
    let whole = |count: u32| [-CORNER_LINE_END, length(count) + CORNER_LINE_END];
    let (xs, ys) = (whole(plan.columns).map(|x| frame.x(x)), whole(plan.rows).map(|y| frame.y(y)));
    let across = marked(plan.corners_across).map(|k| line([frame.x(length(k)); 2], ys));
    let up = marked(plan.corners_up).map(|k| line(xs, [frame.y(length(k)); 2]));
    let mut out = format!(
        "<g id=\"corners\" stroke=\"{CORNER_LINE}\" stroke-width=\"{CORNER_LINE_WIDTH}\" \
         pointer-events=\"none\">\n"
    );
    out.extend(across.chain(up));
    out + "</g>\n"
}
