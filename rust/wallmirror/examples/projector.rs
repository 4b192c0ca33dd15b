//! The grid that a projector throws on a wall, drawn as an SVG picture. A mesh is refined where a
//! bulge is, and once more where a hold is on it; the functions get heights with which the surface
//! has that shape; and the active cells are drawn by their corners, seen at a slant: across goes to
//! the right, up to the right and up, and the height lifts a corner.

use std::collections::BTreeMap;
use std::process::ExitCode;
use wallmirror::{Cell, Corner, Function, Heights, Mesh, Place, Plan, Refusal};

/// With degrees 1 each function is highest where two lines of its level meet, and all others of the
/// level are 0 there.
const PLAN: Plan = Plan {
    columns: 8,
    rows: 6,
    levels: 3,
    degree_across: 1,
    degree_up: 1,
    admissibility_class: 2,
    ..Plan::SMALLEST // no corners
};
const LAST: u32 = PLAN.levels - 1;

/// A round part of the surface that stands out. Lengths are in cells of the last level, the height
/// is in millimetres.
struct Bump {
    across: f64,
    up: f64,
    radius: f64,
    height: f64,
}

const BULGE: Bump = Bump { across: 15.0, up: 13.0, radius: 12.5, height: 100.0 };
const HOLD: Bump = Bump { across: 20.0, up: 8.0, radius: 3.5, height: 60.0 };

impl Bump {
    /// The square of the distance from the middle, of which 1 is at the edge.
    fn distance(&self, across: f64, up: f64) -> f64 {
        ((across - self.across).powi(2) + (up - self.up).powi(2)) / self.radius.powi(2)
    }

    fn height(&self, across: f64, up: f64) -> f64 {
        self.height * (1.0 - self.distance(across, up)).max(0.0).powi(2)
    }
}

fn main() -> ExitCode {
    match draw() {
        Ok(()) => ExitCode::SUCCESS,
        Err(refusal) => {
            eprintln!("{refusal}");
            ExitCode::FAILURE
        }
    }
}

fn draw() -> Result<(), Refusal> {
    let mesh = refined()?;
    let corners = mesh.corners(&fitted(&mesh)?)?;
    // The corners come in the order of the cell table, four for each active cell.
    let active = cells().filter(|&cell| is_active(&mesh, cell));
    let corners_of: BTreeMap<Cell, &[Corner]> = active.zip(corners.chunks(4)).collect();
    print_head();
    // From the back to the front.
    for row in (0..PLAN.rows).rev() {
        for column in 0..PLAN.columns {
            print_cell(&corners_of, Place { level: 0, row, column });
        }
    }
    print_legend();
    println!("</svg>");
    Ok(())
}

/// All cells of all levels.
fn cells() -> impl Iterator<Item = Cell> {
    (0..PLAN.cells().unwrap() as u32).map(Cell)
}

fn is_active(mesh: &Mesh, cell: Cell) -> bool {
    mesh.cells[cell.0 as usize] == 1
}

/// Level 0 is refined where the bulge is, level 1 where the hold is.
fn refined() -> Result<Mesh, Refusal> {
    let mut mesh = Mesh::open(PLAN)?;
    for (level, bump) in [(0, BULGE), (1, HOLD)] {
        let side = f64::from(1 << (LAST - level));
        let middle = |place: u32| (f64::from(place) + 0.5) * side;
        let marked = |&cell: &Cell| {
            let place = PLAN.place(cell).unwrap();
            place.level == level
                && is_active(&mesh, cell)
                && bump.distance(middle(place.column), middle(place.row)) < 1.0
        };
        let marks: Vec<Cell> = cells().filter(marked).collect();
        mesh.refine_cells(&marks)?;
    }
    Ok(mesh)
}

/// Level by level, each active function gets what the surface lacks where it is highest.
fn fitted(mesh: &Mesh) -> Result<Heights, Refusal> {
    let mut heights = Heights::of(mesh);
    for level in 0..PLAN.levels {
        let side = 1 << (LAST - level);
        let at = PLAN.level(level).unwrap();
        for row in 0..at.functions_up {
            for column in 0..at.functions_across {
                let function = Function(at.first_function + row * at.functions_across + column);
                if mesh.functions[function.0 as usize] == 1 {
                    let (across, up) = (column * side, row * side);
                    let is = mesh.height(&heights, 8 * across, 8 * up)?;
                    let (x, y) = (f64::from(across), f64::from(up));
                    let lacks = BULGE.height(x, y) + HOLD.height(x, y) - is;
                    // The unit of level k is 16^-k mm.
                    heights[function] = (lacks * f64::from(1 << (4 * level))).round() as i32;
                }
            }
        }
    }
    Ok(heights)
}

/// Where a point is in the picture.
fn place(across: f64, up: f64, height: f64) -> (f64, f64) {
    (30.0 + 16.0 * across + 7.0 * up, 322.0 - 9.5 * up - 0.75 * height)
}

/// Of levels 0 to 2: the finer, the darker.
const COLOURS: [&str; PLAN.levels as usize] = ["#f6f7f9", "#d9e6f7", "#9fc0ea"];

/// An active cell, or the children of a refined one, those at the back first.
fn print_cell(corners_of: &BTreeMap<Cell, &[Corner]>, at: Place) {
    let Some(corners) = corners_of.get(&PLAN.cell_at(at).unwrap()) else {
        for (up, across) in [(1, 0), (1, 1), (0, 0), (0, 1)] {
            let (row, column) = (2 * at.row + up, 2 * at.column + across);
            print_cell(corners_of, Place { level: at.level + 1, row, column });
        }
        return;
    };
    // Around the cell: lower left, lower right, upper right, upper left.
    let points = [0, 1, 3, 2].map(|i| {
        let Corner { across, up, height } = corners[i];
        let (x, y) = place(across, up, height);
        format!("{x:.1},{y:.1}")
    });
    println!("<polygon points=\"{}\" fill=\"{}\"/>", points.join(" "), COLOURS[at.level as usize]);
}

fn print_head() {
    let size = "width=\"750\" height=\"364\" viewBox=\"0 0 750 364\"";
    println!("<svg xmlns=\"http://www.w3.org/2000/svg\" {size}>");
    println!(
        "<title>The grid of a surface with a bulge and a hold on it, coloured by level</title>"
    );
    println!("<rect width=\"750\" height=\"364\" fill=\"#ffffff\"/>");
    println!("<g stroke=\"#40506a\" stroke-linejoin=\"round\">");
}

/// What the colours mean, and how long things are.
fn print_legend() {
    println!("</g>");
    println!("<g font-family=\"sans-serif\" font-size=\"13\" fill=\"#40506a\">");
    for (level, colour) in COLOURS.iter().enumerate() {
        let y = 20 + 24 * level;
        let size = "width=\"22\" height=\"14\"";
        println!("<rect x=\"30\" y=\"{y}\" {size} fill=\"{colour}\" stroke=\"#40506a\"/>");
        print_text((60.0, y as f64 + 12.0), "start", &format!("level {level}"));
    }
    print_lengths(PLAN.columns << LAST, PLAN.rows << LAST);
    println!("</g>");
}

/// Along the edges at the front and on the right, and of a height at the back.
fn print_lengths(columns: u32, rows: u32) {
    let (far_across, far_up) = (f64::from(columns), f64::from(rows));
    let text_at = |(x, y): (f64, f64), right: f64, down: f64, anchor: &str, text: &str| {
        print_text((x + right, y + down), anchor, text);
    };
    for across in (0..=columns).step_by(8) {
        text_at(place(across.into(), 0.0, 0.0), 0.0, 17.0, "middle", &across.to_string());
    }
    let said = "across, in cells of the last level";
    text_at(place(far_across / 2.0, 0.0, 0.0), 0.0, 35.0, "middle", said);
    for up in (0..=rows).step_by(8) {
        text_at(place(far_across, up.into(), 0.0), 9.0, 4.0, "start", &up.to_string());
    }
    text_at(place(far_across, 12.0, 0.0), 9.0, 4.0, "start", "up");
    let (x, y) = place(0.0, far_up, 0.0);
    let (_, top) = place(0.0, far_up, 50.0);
    println!("<path d=\"M{x:.1} {y:.1} V{top:.1}\" stroke=\"#40506a\"/>");
    print_text((x - 6.0, top + 4.0), "end", "50 mm");
}

fn print_text((x, y): (f64, f64), anchor: &str, text: &str) {
    println!("<text x=\"{x:.1}\" y=\"{y:.1}\" text-anchor=\"{anchor}\">{text}</text>");
}
