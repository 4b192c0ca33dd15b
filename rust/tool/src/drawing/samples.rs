//! Meshes for the tests of what is drawn and exported.

use wallmirror::{Cell, Lists, Mesh, Plan};

/// Columns, rows, levels, both degrees, class, corners across and up.
pub fn plan(numbers: [u32; 8]) -> Plan {
    let [columns, rows, levels, degree_across, degree_up, class, corners_across, corners_up] =
        numbers;
    Plan {
        columns,
        rows,
        levels,
        degree_across,
        degree_up,
        admissibility_class: class,
        corners_across,
        corners_up,
    }
}

/// A worked wall: cell 0 is split, and then cell 4, which needs cell 1. With what the last split
/// changed.
pub fn worked() -> (Mesh, Lists) {
    let mut mesh = Mesh::open(plan([3, 1, 3, 1, 1, 2, 0, 0])).unwrap();
    mesh.refine_cells(&[Cell(0)]).unwrap();
    let lists = mesh.refine_cells(&[Cell(4)]).unwrap();
    (mesh, lists)
}

/// A mesh with every cell of the last level.
pub fn finest(plan: Plan) -> Mesh {
    let mut mesh = Mesh::open(plan).unwrap();
    while mesh.refine_cells(&refinable(&mesh)).is_ok_and(|lists| !lists.cells.is_empty()) {}
    mesh
}

/// The active cells but those of the last level.
fn refinable(mesh: &Mesh) -> Vec<Cell> {
    let cells = (0..mesh.cells.len() as u32).map(Cell);
    let level = |cell| mesh.plan.place(cell).unwrap().level;
    cells.filter(|&c| mesh.cells[c.0 as usize] == 1 && level(c) + 1 < mesh.plan.levels).collect()
}

/// The worked wall, and meshes refined at random cells a few times each.
pub fn meshes() -> Vec<Mesh> {
    let mut random = 0x9e37_79b9_7f4a_7c15;
    let numbers = [
        [1, 1, 1, 1, 1, 0, 0, 0],
        [1, 1, 3, 4, 3, 0, 0, 0],
        [2, 1, 4, 4, 4, 3, 2, 0],
        [3, 2, 3, 2, 2, 2, 2, 0],
        [5, 3, 4, 1, 3, 0, 0, 0],
        [6, 4, 3, 1, 1, 2, 0, 0],
        [13, 1, 4, 2, 1, 4, 0x1ffe, 0],
        [1, 7, 3, 3, 2, 2, 0, 0x54],
        [1, 1, 8, 1, 1, 0, 0, 0],
        [16, 16, 4, 2, 2, 2, 0, 0x100],
    ];
    let mut meshes: Vec<Mesh> =
        numbers.iter().map(|&numbers| refined(plan(numbers), &mut random)).collect();
    meshes.push(worked().0);
    meshes
}

fn refined(plan: Plan, random: &mut u64) -> Mesh {
    let mut mesh = Mesh::open(plan).unwrap();
    for _ in 0..8 {
        let cells = refinable(&mesh);
        if !cells.is_empty() {
            // Most often one of the finest.
            let skipped = cells.len() * 3 / 4;
            let mark = cells[skipped + xorshift(random) as usize % (cells.len() - skipped)];
            mesh.refine_cells(&[mark]).unwrap();
        }
    }
    mesh
}

fn xorshift(state: &mut u64) -> u64 {
    *state ^= *state << 13;
    *state ^= *state >> 7;
    *state ^= *state << 17;
    *state >> 33
}
