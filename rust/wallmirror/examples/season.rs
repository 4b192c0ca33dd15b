//! A season on a small mesh of class 2: calls by cells and by functions, one of them refused, printed
//! as they go. Then they are taken back, the last one first, with what each opposite call lists, and
//! the mesh is the first one again, byte for byte.

use std::process::ExitCode;
use wallmirror::{Call, Cell, Function, Lists, Mesh, Plan, Refusal, Season};

fn main() -> ExitCode {
    match run() {
        Ok(()) => ExitCode::SUCCESS,
        Err(refusal) => {
            eprintln!("{refusal}");
            ExitCode::FAILURE
        }
    }
}

fn run() -> Result<(), Refusal> {
    let plan = Plan { columns: 3, levels: 3, admissibility_class: 2, ..Plan::default() };
    let mut season = Season::new(Mesh::open(plan)?)?;
    let first = season.mesh().to_file()?;
    println!("the file of the first mesh: {first:?}");
    for call in calls() {
        let said = said(&call);
        match season.make(call) {
            Ok(lists) => println!("{said}: {}", listed(lists)),
            Err(refusal) => println!("{said}: {refusal}"),
        }
    }
    println!("the file now: {:?}", season.mesh().to_file()?);
    println!("{} calls are taken back", season.calls().len());
    while let Some(undone) = season.undo()? {
        assert_eq!(undone.lists, undone.made.lists);
        println!("{}: {}", said(&undone.opposite), listed(&undone.lists));
    }
    let last = season.mesh().to_file()?;
    assert_eq!((season.mesh(), &last), (season.first(), &first));
    println!("the file then: {last:?}");
    Ok(())
}

fn calls() -> [Call; 6] {
    [
        Call::RefineCells(vec![Cell(0)]),
        Call::RefineCells(vec![Cell(3), Cell(4)]), // children of cell 0, and 4 needs cell 1
        Call::CoarsenCells(vec![Cell(0)]),         // which is not possible while a child is refined
        Call::RefineFunctions(vec![Function(2)]),
        Call::CoarsenFunctions(vec![Function(8), Function(9)]), // over cells 3 and 4 alone
        Call::CoarsenCells(vec![Cell(0), Cell(2)]),
    ]
}

fn said(call: &Call) -> String {
    match call {
        Call::RefineCells(marks) => format!("refine cells {}", cells(marks)),
        Call::RefineFunctions(marks) => format!("refine functions {}", functions(marks)),
        Call::CoarsenCells(marks) => format!("coarsen cells {}", cells(marks)),
        Call::CoarsenFunctions(marks) => format!("coarsen functions {}", functions(marks)),
    }
}

fn listed(lists: &Lists) -> String {
    format!("cells {}, functions {}", cells(&lists.cells), functions(&lists.functions))
}

fn cells(list: &[Cell]) -> String {
    format!("{:?}", list.iter().map(|cell| cell.0).collect::<Vec<_>>())
}

fn functions(list: &[Function]) -> String {
    format!("{:?}", list.iter().map(|function| function.0).collect::<Vec<_>>())
}
