//! What a mark can cost: three cells are refined, each in the one before, and what each mark refines
//! is printed with the most that it can refine, and for each of its windows how many cells became
//! refined there.

use std::process::ExitCode;
use wallmirror::{Mesh, Place, Plan, Refusal, Window};

fn main() -> ExitCode {
    match run() {
        Ok(()) => ExitCode::SUCCESS,
        Err(refusal) => {
            eprintln!("{refusal}");
            ExitCode::FAILURE
        }
    }
}

fn run() -> Result<(), Refusal> {
    let plan = Plan { columns: 4, rows: 4, levels: 4, admissibility_class: 2, ..Plan::default() };
    let mut mesh = Mesh::open(plan)?;
    for (level, row, column) in [(0, 1, 1), (1, 3, 3), (2, 6, 6)] {
        print_cost(&mut mesh, Place { level, row, column })?;
    }
    Ok(())
}

/// Refines the cell at a place of the mesh.
fn print_cost(mesh: &mut Mesh, place: Place) -> Result<(), Refusal> {
    let plan = mesh.plan;
    let mark = plan.cell_at(place).expect("a place of the plan");
    let most = plan.most_refined(place.level).expect("a level of the plan");
    let windows = plan.reach(mark).expect("a cell of the plan");

    let refined = mesh.refine_cells(&[mark])?.cells;
    let Place { level, row, column } = place;
    let many = refined.len();
    println!("mark on level {level}, row {row}, column {column}: {many} refined, at most {most}");
    let places: Vec<Place> = refined.iter().filter_map(|&cell| plan.place(cell)).collect();
    let mut within = 0;
    for window in &windows {
        within += print_window(window, &places);
    }
    assert_eq!(within, many);
    assert!(many <= most);
    Ok(())
}

/// Answers how many of the places are in the window.
fn print_window(window: &Window, places: &[Place]) -> usize {
    let Window { level, rows, columns } = window;
    let many = places.iter().filter(|&&place| window.contains(place)).count();
    let (last_row, last_column) = (rows.end - 1, columns.end - 1);
    print!("  level {level}, rows {} to {last_row}, ", rows.start);
    print!("columns {} to {last_column}: ", columns.start);
    println!("{many} of {}", rows.len() * columns.len());
    many
}
