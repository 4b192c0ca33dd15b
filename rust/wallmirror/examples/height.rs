//! A hold on a bulge: a mesh is refined where the hold goes, a function of each level gets a
//! height, and the heights of the surface are printed along a line through both.

use std::process::ExitCode;
use wallmirror::{Cell, Function, Heights, Mesh, Plan, Refusal};

fn main() -> ExitCode {
    match print_heights() {
        Ok(()) => ExitCode::SUCCESS,
        Err(refusal) => {
            eprintln!("{refusal}");
            ExitCode::FAILURE
        }
    }
}

fn print_heights() -> Result<(), Refusal> {
    let plan = Plan {
        columns: 4,
        rows: 4,
        levels: 2,
        degree_across: 2,
        degree_up: 2,
        admissibility_class: 2,
        ..Plan::default() // no corners
    };
    let mut mesh = Mesh::open(plan)?;
    mesh.refine_cells(&[5, 6, 9, 10].map(Cell))?; // the four cells in the middle

    let mut heights = Heights::of(&mesh);
    heights[function_at(plan, 0, 2, 2)] = 160; // on level 0 in millimetres
    heights[function_at(plan, 1, 4, 4)] = 24 * 16; // on level 1 in sixteenths

    // Points are counted in eighths of a cell of the last level.
    let last = plan.level(plan.levels - 1).expect("the last level");
    let (far_across, far_up) = (8 * last.columns, 8 * last.rows);
    println!("across  height in mm");
    for across in (0..=far_across).step_by(4) {
        println!("{across:>6}  {:>12.4}", mesh.height(&heights, across, far_up / 2)?);
    }
    Ok(())
}

/// The number of a function: those of a level follow one another row by row.
fn function_at(plan: Plan, level: u32, row: u32, column: u32) -> Function {
    let at = plan.level(level).expect("a level of the plan");
    Function(at.first_function + row * at.functions_across + column)
}
