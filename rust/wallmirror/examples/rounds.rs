//! A gym has today's wall, and the one that it wants for the finals. Each is made by calls of its own
//! on one plan, and every cell that is refined today is refined in the wanted mesh. The rounds of marks
//! from the one to the other are printed as they are made, with what each lists; then the mesh is the
//! wanted one, byte for byte. They are taken back, and it is today's. The other way round there are no
//! rounds.

use std::process::ExitCode;
use wallmirror::{Cell, Function, Lists, Mesh, Plan, Refusal, RoundsRefusal, Season};

fn main() -> ExitCode {
    match run() {
        Ok(()) => ExitCode::SUCCESS,
        Err(refusal) => {
            eprintln!("{refusal}");
            ExitCode::FAILURE
        }
    }
}

fn run() -> Result<(), RoundsRefusal> {
    let plan = Plan { columns: 4, levels: 4, admissibility_class: 2, ..Plan::default() };
    let (today, wanted) = (today(plan)?, wanted(plan)?);
    println!("today: {}", refined(&today));
    println!("for the finals: {}", refined(&wanted));

    let rounds = today.rounds_to(&wanted)?;
    let mut season = Season::new(today.clone())?;
    for (level, round) in rounds.iter().enumerate() {
        let lists = season.refine_cells(round)?;
        assert_eq!(&lists.cells, round);
        println!("round {level}, marks {}: {}", cells(round), listed(lists));
    }
    assert_eq!(season.mesh(), &wanted);
    println!("the mesh is the one for the finals, byte for byte");

    while let Some(undone) = season.undo()? {
        assert_eq!(undone.lists, undone.made.lists);
        println!("undo: {}", listed(&undone.lists));
    }
    assert_eq!(season.mesh(), &today);
    println!("the mesh is today's, byte for byte");
    if let Err(refusal) = wanted.rounds_to(&today) {
        println!("from the finals to today: {refusal}");
    }
    Ok(())
}

/// Marked by cells. One of them was coarsened again.
fn today(plan: Plan) -> Result<Mesh, Refusal> {
    let mut mesh = Mesh::open(plan)?;
    mesh.refine_cells(&[Cell(0), Cell(2)])?;
    mesh.refine_cells(&[Cell(4), Cell(5)])?;
    mesh.coarsen_cells(&[Cell(2)])?;
    Ok(mesh)
}

/// Marked by functions, and then by cells.
fn wanted(plan: Plan) -> Result<Mesh, Refusal> {
    let mut mesh = Mesh::open(plan)?;
    mesh.refine_functions(&[Function(1)])?; // over cells 0 and 1
    mesh.refine_functions(&[Function(11)])?; // over cells 4 and 5
    mesh.refine_cells(&[Cell(22), Cell(21), Cell(3)])?;
    Ok(mesh)
}

fn refined(mesh: &Mesh) -> String {
    let refined = (0..).zip(&mesh.cells).filter(|(_, &byte)| byte == 2);
    format!("cells {} are refined", cells(&refined.map(|(cell, _)| Cell(cell)).collect::<Vec<_>>()))
}

fn listed(lists: &Lists) -> String {
    format!("cells {}, functions {}", cells(&lists.cells), functions(&lists.functions))
}

fn cells(list: &[Cell]) -> String {
    format!("{:?}", list.iter().map(|cell| cell.0).collect::<Vec<_>>())
}

fn functions(list: &[Function]) -> String {
    format!("{:?}", list.iter().map(|function| function.0).collect::<Vec<_>>())
}
