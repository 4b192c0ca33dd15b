//! A small mesh on which every kind of call has a mark.

use wallmirror::{Cell, Mesh, Plan};

pub const PLAN: Plan = Plan { columns: 3, levels: 3, admissibility_class: 2, ..Plan::SMALLEST };

/// Cells 0, 1 and 3 are refined. Cell 2 and function 10 can be refined, cell 3 and function 8 can be
/// coarsened. Cell 10 can be refined too, with another outcome than function 10.
pub fn worked() -> Mesh {
    let mut mesh = Mesh::open(PLAN).expect("a plan");
    for mark in [0, 1, 3] {
        mesh.refine_cells(&[Cell(mark)]).expect("a cell to refine");
    }
    mesh
}

pub fn with_draft(marks: &[u32]) -> Mesh {
    Mesh { draft: Some(cells(marks)), ..worked() }
}

pub fn cells(numbers: &[u32]) -> Vec<Cell> {
    numbers.iter().copied().map(Cell).collect()
}
