//! A program keeps 300 meshes open, each as planes, and beside it as bytes to compare. Each mesh is
//! changed by calls of its own, some of them refused: on planes they answer what they answer on
//! bytes. Then all calls are taken back, and the planes are the first ones, word for word.

use std::process::ExitCode;
use wallmirror::{Call, Cell, Function, Mesh, Plan, Planes, Refusal, Season};

const MESHES: usize = 300;

fn main() -> ExitCode {
    match run() {
        Ok(()) => ExitCode::SUCCESS,
        Err(refusal) => {
            eprintln!("{refusal}");
            ExitCode::FAILURE
        }
    }
}

/// A mesh that is open, held in both ways.
struct Open {
    planes: Season<Planes>,
    bytes: Season<Mesh>,
}

fn run() -> Result<(), Refusal> {
    let plan = Plan {
        columns: 6,
        rows: 4,
        levels: 4,
        degree_across: 2,
        degree_up: 2,
        admissibility_class: 2,
        ..Plan::default()
    };
    let mut open = Vec::new();
    for _ in 0..MESHES {
        let planes = Season::new(Planes::open(plan)?)?;
        open.push(Open { planes, bytes: Season::new(Mesh::open(plan)?)? });
    }
    print_memory(&open);
    println!("active cells: {}", active_cells(&open)?);

    let (mut accepted, mut refused) = (0, 0);
    for (n, Open { planes, bytes }) in open.iter_mut().enumerate() {
        for turn in 0..4 {
            let call = call(planes.mesh(), n, turn);
            let answer = planes.make(call.clone());
            assert_eq!(answer, bytes.make(call));
            match answer {
                Ok(_) => accepted += 1,
                Err(_) => refused += 1,
            }
        }
        assert_eq!(planes.mesh(), &Planes::from_mesh(bytes.mesh())?);
    }
    println!("calls: {accepted} accepted and {refused} refused, on planes as on bytes");
    println!("active cells: {}", active_cells(&open)?);

    let mut undone = 0;
    for Open { planes, .. } in &mut open {
        undone += planes.undo_all()?.len();
        assert_eq!(planes.mesh(), planes.first());
    }
    println!("calls taken back: {undone}");
    println!("active cells: {}", active_cells(&open)?);
    Ok(())
}

/// A call of the mesh's own, chosen by its number and the turn.
fn call(planes: &Planes, n: usize, turn: usize) -> Call {
    let active = |present: u64, refined: u64| present & !refined;
    let refined = |_, refined: u64| refined;
    match turn {
        0 | 2 => Call::RefineCells(vec![nth(&cells(planes, active), 7 * n)]),
        1 => Call::RefineFunctions(vec![Function(n as u32 % 48)]),
        _ => Call::CoarsenCells(vec![nth(&cells(planes, refined), n)]),
    }
}

/// The cells whose bits this takes out of a word of `present` and that of `refined`.
fn cells(planes: &Planes, taken: impl Fn(u64, u64) -> u64) -> Vec<Cell> {
    let mut cells = Vec::new();
    for (word, (&present, &refined)) in (0..).zip(planes.present.iter().zip(&planes.refined)) {
        let mut bits = taken(present, refined);
        while bits != 0 {
            cells.push(Cell(64 * word + bits.trailing_zeros()));
            bits &= bits - 1;
        }
    }
    cells
}

/// Begins anew past the end.
fn nth(cells: &[Cell], n: usize) -> Cell {
    cells[n % cells.len()]
}

fn active_cells(open: &[Open]) -> Result<usize, Refusal> {
    open.iter().map(|open| Ok(open.planes.mesh().count()?.active_cells)).sum()
}

fn print_memory(open: &[Open]) {
    let sum = |bytes: fn(&Open) -> usize| open.iter().map(bytes).sum::<usize>();
    println!("{} meshes", open.len());
    println!("  cells as bytes: {} bytes", sum(|open| size_of_val(&open.bytes.mesh().cells[..])));
    let of_planes = sum(|open| {
        let Planes { present, refined, .. } = open.planes.mesh();
        size_of_val(&present[..]) + size_of_val(&refined[..])
    });
    println!("  cells as planes: {of_planes} bytes");
    let of_functions = sum(|open| size_of_val(&open.planes.mesh().functions[..]));
    println!("  functions, either way: {of_functions} bytes");
}
