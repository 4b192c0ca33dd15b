//! A mesh with a corner: three columns of degree 2 with a kink before column 1. What the functions
//! across cover is printed with the corner and without it; the cell before the corner is refined,
//! and coarsened again; and the heights of the surface are printed along a line across the corner.

use std::process::ExitCode;
use wallmirror::{Cell, Function, Heights, Mesh, Plan, Refusal};

fn main() -> ExitCode {
    match run() {
        Ok(()) => ExitCode::SUCCESS,
        Err(refusal) => {
            eprintln!("{refusal}");
            ExitCode::FAILURE
        }
    }
}

fn run() -> Result<(), Refusal> {
    let smooth = Plan { columns: 3, levels: 2, degree_across: 2, ..Plan::default() };
    let plan = Plan { corners_across: 1 << 1, ..smooth };
    for (plan, name) in [(plan, "a corner before column 1"), (smooth, "no corner")] {
        println!("{name}");
        print_functions(plan);
        print_refinement(plan)?;
    }
    print_heights(plan, smooth)
}

/// The knots across on level 0: each line once, a corner as often as the degree is, both ends once
/// more than that.
fn knots_across(plan: Plan) -> Vec<u32> {
    let times = |line: u32| match line {
        _ if line == 0 || line == plan.columns => plan.degree_across + 1,
        _ if plan.corners_across >> line & 1 == 1 => plan.degree_across,
        _ => 1,
    };
    (0..=plan.columns).flat_map(|line| (0..times(line)).map(move |_| line)).collect()
}

/// Every function of a row begins at a knot and ends degree + 1 knots further on.
fn print_functions(plan: Plan) {
    println!("  knots {:?}", knots_across(plan));
    for i in 0..plan.functions_across(0).unwrap() as u32 {
        let columns = plan.support(Function(i)).unwrap().columns;
        println!("  function {i} covers columns {} to {}", columns.start, columns.end - 1);
    }
}

fn print_refinement(plan: Plan) -> Result<(), Refusal> {
    let mut mesh = Mesh::open(plan)?;
    print_list("refine cell 0", &mesh.refine_cells(&[Cell(0)])?.functions);
    print_list("coarsen cell 0", &mesh.coarsen_cells(&[Cell(0)])?.functions);
    assert_eq!(mesh, Mesh::open(plan)?);
    Ok(())
}

fn print_list(call: &str, functions: &[Function]) {
    let numbers: Vec<u32> = functions.iter().map(|function| function.0).collect();
    println!("  {call}: functions {numbers:?}");
}

/// One function of the first row has a height: with the corner the one that covers both its sides,
/// without it the one that covers the same columns.
fn print_heights(plan: Plan, smooth: Plan) -> Result<(), Refusal> {
    let (cornered, smooth) = (Mesh::open(plan)?, Mesh::open(smooth)?);
    let with_height = |mesh: &Mesh, function: u32| {
        let mut heights = Heights::of(mesh);
        heights[Function(function)] = 64; // millimetres
        heights
    };
    let (edge, bulge) = (with_height(&cornered, 2), with_height(&smooth, 1));
    println!("across  with the corner  without");
    // In eighths of a cell of the last level; a column of level 0 has two such cells.
    for across in (0..=48).step_by(4) {
        let (edge, bulge) = (cornered.height(&edge, across, 0)?, smooth.height(&bulge, across, 0)?);
        println!("{across:>6}  {edge:>15.2}  {bulge:>7.2}");
    }
    Ok(())
}
