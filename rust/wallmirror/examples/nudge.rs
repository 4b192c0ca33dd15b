//! A hold is nudged: how far the wall can shift, how far it does, and where. A mesh is refined where
//! the hold goes, a bulge and the hold on it get their heights, and then the hold rises a little.

use std::process::ExitCode;
use wallmirror::{Cell, Function, Heights, Mesh, Plan, Refusal};

/// Function 2 of row 2 on level 0, which has 6 by 6.
const BULGE: Function = Function(2 * 6 + 2);
/// Function 4 of row 4 on level 1, which has 10 by 10.
const HOLD: Function = Function(6 * 6 + 4 * 10 + 4);
const NUDGE: i32 = 5; // on level 1 in sixteenths of a millimetre

fn main() -> ExitCode {
    match refined().and_then(|mesh| nudge(&mesh)) {
        Ok(()) => ExitCode::SUCCESS,
        Err(refusal) => {
            eprintln!("{refusal}");
            ExitCode::FAILURE
        }
    }
}

/// Four by four cells, of which the four in the middle are refined.
fn refined() -> Result<Mesh, Refusal> {
    let (columns, rows, levels) = (4, 4, 2);
    let plan = Plan { columns, rows, levels, degree_across: 2, degree_up: 2, ..Plan::default() };
    let mut mesh = Mesh::open(plan)?;
    mesh.refine_cells(&[5, 6, 9, 10].map(Cell))?;
    Ok(mesh)
}

fn nudge(mesh: &Mesh) -> Result<(), Refusal> {
    let mut before = Heights::of(mesh);
    (before[BULGE], before[HOLD]) = (160, 24 * 16); // 160 mm and 24 mm
    let mut after = before.clone();
    after[HOLD] += NUDGE;
    println!("the hold rises by {NUDGE}/16 mm");
    println!("no point can move by more than {} mm", f64::from(NUDGE) / 16.0);

    // Points are counted in eighths of a cell of level 1, of which there are 8 by 8. Heights are
    // exact, and so are their differences.
    let mut moved = vec![];
    for (across, up) in (0..=64).flat_map(|up| (0..=64).map(move |across| (across, up))) {
        let by = mesh.height(&after, across, up)? - mesh.height(&before, across, up)?;
        if by != 0.0 {
            moved.push((across, up, by));
        }
    }
    let (across, up, by) = *moved.iter().max_by(|a, b| a.2.total_cmp(&b.2)).unwrap();
    println!("the farthest, {across} across and {up} up, moves by {by} mm");
    let ends = |places: Vec<u32>| (*places.iter().min().unwrap(), *places.iter().max().unwrap());
    let (left, right) = ends(moved.iter().map(|point| point.0).collect());
    let (low, high) = ends(moved.iter().map(|point| point.1).collect());
    println!("{} of {} points move", moved.len(), 65 * 65);
    println!("they lie from {left} to {right} across and from {low} to {high} up");

    // The hold's support goes from 16 to 40, across and up.
    for (place, across, up) in [("on the edge of its support", 16, 28), ("outside it", 8, 28)] {
        let [was, is] = [mesh.height(&before, across, up)?, mesh.height(&after, across, up)?];
        assert_eq!(was.to_bits(), is.to_bits());
        println!("{place}, {across} across and {up} up: {was} mm, and {is} mm then");
    }
    Ok(())
}
