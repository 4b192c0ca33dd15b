//! A wall keeps its shape while it is refined. A bulge gets its heights on the coarsest mesh; the mesh
//! is refined where a hold goes, with heights, and at every point the surface is seen to be the same;
//! then the hold gets its height on the finer level.
//!
//! With the name of a file the surface before and after the refinement is drawn there as an SVG
//! picture, side by side: `cargo run --example refine -- refine.svg`

use std::fmt::Write;
use std::process::ExitCode;
use wallmirror::{Cell, Function, Heights, Mesh, Place, Plan, Refusal};

/// Six by four cells. Level 0 has 8 by 6 functions, level 1 has 14 by 10.
const PLAN: Plan = Plan {
    columns: 6,
    rows: 4,
    levels: 2,
    degree_across: 2,
    degree_up: 2,
    admissibility_class: 2,
    ..Plan::SMALLEST // no corners
};

/// The far edges, in eighths of a cell of level 1, in which points are counted.
const ACROSS: u32 = 8 * 12;
const UP: u32 = 8 * 8;

const UNDER_HOLD: Function = Function(2 * 8 + 4); // function 4 of row 2 on level 0
const HOLD: Function = Function(8 * 6 + 4 * 14 + 8); // function 8 of row 4 on level 1

/// A mesh, and a height for each of its functions.
#[derive(Clone)]
struct Wall {
    mesh: Mesh,
    heights: Heights,
}

fn main() -> ExitCode {
    let drawn = match run() {
        Ok(drawn) => drawn,
        Err(refusal) => {
            eprintln!("{refusal}");
            return ExitCode::FAILURE;
        }
    };
    if let Some(file) = std::env::args_os().nth(1) {
        if let Err(error) = std::fs::write(&file, drawn) {
            eprintln!("{}: {error}", file.display());
            return ExitCode::FAILURE;
        }
    }
    ExitCode::SUCCESS
}

fn run() -> Result<String, Refusal> {
    let before = bulge()?;
    println!("a bulge on the coarsest mesh: {}", before.carried_by());

    let mut after = before.clone();
    let lists = after.mesh.refine_functions_with_heights(&mut after.heights, &[UNDER_HOLD])?;
    let (cells, functions) = (lists.cells.len(), lists.functions.len());
    println!("refined: {cells} cells, {functions} functions deactivated");
    println!("the same bulge: {}", after.carried_by());

    let (was, is) = (before.surface()?, after.surface()?);
    assert!(was.iter().zip(&is).all(|(was, is)| was.to_bits() == is.to_bits()));
    println!("all {} points are as high as before, in every bit", is.len());

    let mut with_hold = after.clone();
    with_hold.heights[HOLD] += 40 * 16; // on level 1 in sixteenths of a millimetre
    let then = with_hold.surface()?;
    let moved = then.iter().zip(&is).filter(|(then, is)| then != is).count();
    println!("a hold on the finer level moves {moved} of them");
    let highest = |surface: &[f64]| surface.iter().copied().fold(0.0, f64::max);
    println!("the highest point: {} mm, then {} mm", highest(&is), highest(&then));

    drawn(&before, &after)
}

/// The coarsest mesh, with a bulge of heights in millimetres.
fn bulge() -> Result<Wall, Refusal> {
    let mesh = Mesh::open(PLAN)?;
    let mut heights = Heights::of(&mesh);
    for (row, column) in (0..6u32).flat_map(|row| (0..8u32).map(move |column| (row, column))) {
        let distance = 3 * column.abs_diff(4).pow(2) + 4 * row.abs_diff(3).pow(2);
        heights[Function(row * 8 + column)] = (120 - 6 * distance as i32).max(0);
    }
    Ok(Wall { mesh, heights })
}

impl Wall {
    /// How many functions are active, and how many of them have a height.
    fn carried_by(&self) -> String {
        let each = self.mesh.functions.iter().zip(self.heights.iter());
        let active: Vec<i32> = each.filter(|(&byte, _)| byte == 1).map(|(_, &h)| h).collect();
        let high = active.iter().filter(|&&height| height != 0).count();
        format!("{} active functions, {high} with a height", active.len())
    }

    /// The heights of all points.
    fn surface(&self) -> Result<Vec<f64>, Refusal> {
        let points = (0..=UP).flat_map(|up| (0..=ACROSS).map(move |across| (across, up)));
        points.map(|(across, up)| self.mesh.height(&self.heights, across, up)).collect()
    }
}

// ---- The picture ----

const SIDE: u32 = 4; // of a coloured square, in eighths
const SCALE: u32 = 3;

/// Two panels, each coloured by the heights that its own mesh has, under the active cells. The colours
/// are the same.
fn drawn(before: &Wall, after: &Wall) -> Result<String, Refusal> {
    let (width, height) = (SCALE * ACROSS, SCALE * UP);
    let (all, tall) = (2 * width + 72, height + 64);
    let mut svg = String::new();
    let size = format!("width=\"{all}\" height=\"{tall}\" viewBox=\"0 0 {all} {tall}\"");
    writeln!(svg, "<svg xmlns=\"http://www.w3.org/2000/svg\" {size}>").unwrap();
    writeln!(svg, "<title>A surface before and after its mesh is refined</title>").unwrap();
    writeln!(svg, "<rect width=\"{all}\" height=\"{tall}\" fill=\"#ffffff\"/>").unwrap();
    let panels = [(before, "before", 24), (after, "after", width + 48)];
    let colours = panels.map(|(wall, ..)| colours(wall));
    assert_eq!(colours[0], colours[1]);
    for ((wall, name, left), colours) in panels.into_iter().zip(colours) {
        writeln!(svg, "<g transform=\"translate({left} 24)\">").unwrap();
        draw_panel(&mut svg, wall, &colours?);
        let said = format!("{name}: {}", wall.carried_by());
        let font = "font-family=\"sans-serif\" font-size=\"13\" fill=\"#40506a\"";
        writeln!(svg, "<text y=\"{}\" {font}>{said}</text>\n</g>", height + 24).unwrap();
    }
    writeln!(svg, "</svg>").unwrap();
    Ok(svg)
}

/// Of each square the colour of the height in its middle, from white to blue.
fn colours(wall: &Wall) -> Result<Vec<(u32, u32, String)>, Refusal> {
    let mut colours = vec![];
    for up in (0..UP).step_by(SIDE as usize) {
        for across in (0..ACROSS).step_by(SIDE as usize) {
            let (x, y) = (across + SIDE / 2, up + SIDE / 2);
            let part = wall.mesh.height(&wall.heights, x, y)? / 120.0;
            let mixed = |blue: f64| (255.0 + part * (blue - 255.0)).round() as u8;
            let [r, g, b] = [20.0, 70.0, 140.0].map(mixed);
            colours.push((across, up, format!("#{r:02x}{g:02x}{b:02x}")));
        }
    }
    Ok(colours)
}

/// Row 0 is the lowest.
fn draw_panel(svg: &mut String, wall: &Wall, colours: &[(u32, u32, String)]) {
    let square = |svg: &mut String, across: u32, up: u32, side: u32, more: &str| {
        let (x, y, size) = (SCALE * across, SCALE * (UP - up - side), SCALE * side);
        writeln!(svg, "<rect x=\"{x}\" y=\"{y}\" width=\"{size}\" height=\"{size}\" {more}/>")
            .unwrap();
    };
    for (across, up, colour) in colours {
        square(svg, *across, *up, SIDE, &format!("fill=\"{colour}\""));
    }
    for cell in (0..).map(Cell).take(wall.mesh.cells.len()) {
        let Place { level, row, column } = PLAN.place(cell).unwrap();
        let side = 8 << (PLAN.levels - 1 - level);
        if wall.mesh.cells[cell.0 as usize] == 1 {
            let outline = "fill=\"none\" stroke=\"#40506a\"";
            square(svg, column * side, row * side, side, outline);
        }
    }
}
