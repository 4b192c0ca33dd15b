//! Small plans, tried systematically: all cell tables of a few byte values, all admissible meshes with
//! all single marks. Where a test only samples, it says so.

use differential::{all_admissible, all_meshes, every_corners, plan, Kind, Tables};
use model::Cell;
use std::collections::BTreeSet;
use Kind::*;

#[test]
fn the_number_of_meshes() {
    // A cell with n levels below it is active, or refined with four such cells of n-1.
    assert_eq!(all_meshes(plan([1, 1, 3, 1, 1, 0])).len(), 17);
    assert_eq!(all_meshes(plan([2, 1, 3, 1, 1, 0])).len(), 17 * 17);
}

/// Check on every cell table of the bytes 0 to 3 (0 to 2 where there are ten cells), the labels being those of the open mesh or those that
/// the cells fix.
#[test]
fn every_cell_table() {
    for numbers in [
        [1, 1, 2, 1, 1, 0, 0, 0],
        [1, 1, 2, 2, 1, 2, 0, 0],
        [2, 1, 2, 1, 2, 2, 0, 0],
        [2, 1, 2, 2, 1, 2, 2, 0],
        [1, 2, 2, 1, 3, 0, 0, 2],
    ] {
        let opened = Tables::opened(plan(numbers));
        let bytes: u32 = if opened.cells.len() <= 5 { 4 } else { 3 };
        let (mut accepted, mut refused) = (0, 0);
        for code in 0..bytes.pow(opened.cells.len() as u32) {
            let mut tables = opened.clone();
            for (i, cell) in tables.cells.iter_mut().enumerate() {
                *cell = (code / bytes.pow(i as u32) % bytes) as u8;
            }
            tables.check();
            tables.functions = model::labels(tables.plan, &tables.cells);
            *if tables.check() == 0 { &mut accepted } else { &mut refused } += 1;
        }
        assert_eq!(accepted, all_meshes(plan(numbers)).len());
        assert!(refused > accepted);
    }
}

/// Check and count with every single byte of both tables of every admissible mesh changed.
#[test]
fn every_byte_changed() {
    for numbers in [
        [1, 1, 3, 1, 1, 2, 0, 0],
        [2, 1, 2, 2, 1, 2, 0, 0],
        [1, 2, 2, 3, 4, 0, 0, 0],
        [2, 1, 2, 2, 1, 2, 2, 0],
        [1, 2, 2, 3, 4, 0, 0, 2],
        [3, 1, 2, 3, 1, 0, 6, 0],
    ] {
        for tables in all_admissible(plan(numbers)) {
            for byte in [0, 1, 2, 3, 255] {
                for number in 0..tables.cells.len() {
                    let mut changed = tables.clone();
                    changed.cells[number] = byte;
                    assert_eq!(changed.check(), if changed == tables { 0 } else { 4 });
                    assert_eq!(changed.count().number, changed.check());
                }
                for number in 0..tables.functions.len() {
                    let mut changed = tables.clone();
                    changed.functions[number] = byte;
                    assert_eq!(changed.check(), if changed == tables { 0 } else { 6 });
                    assert_eq!(changed.count().number, changed.check());
                }
            }
        }
    }
}

/// Every call with every single mark, in range and just out of it, on every admissible mesh.
#[test]
fn every_mark_on_every_mesh() {
    for numbers in [
        [2, 1, 3, 1, 1, 0, 0, 0],
        [2, 1, 3, 1, 1, 2, 0, 0],
        [1, 2, 3, 2, 1, 2, 0, 0],
        [1, 1, 3, 3, 4, 3, 0, 0],
        [2, 1, 3, 2, 1, 0, 2, 0],
        [2, 1, 3, 3, 1, 2, 2, 0],
        [1, 2, 3, 1, 2, 2, 0, 2],
    ] {
        for mesh in all_admissible(plan(numbers)) {
            for kind in Kind::ALL {
                let by_functions = kind.by_functions();
                let total = if by_functions { mesh.functions.len() } else { mesh.cells.len() };
                for mark in 0..=total as u32 {
                    mesh.clone().call_with_room(kind, &[mark]);
                }
            }
        }
    }
}

/// Every call with every set of marks that it takes, on every admissible mesh, of the first seven where
/// there are more.
#[test]
fn every_set_of_marks() {
    for numbers in [
        [1, 1, 3, 1, 1, 0, 0, 0],
        [1, 1, 3, 2, 1, 2, 0, 0],
        [3, 1, 2, 1, 1, 2, 0, 0],
        [2, 2, 2, 2, 2, 0, 0, 0],
        [3, 1, 2, 2, 1, 2, 2, 0],
        [3, 1, 2, 3, 1, 0, 6, 0],
        [2, 2, 2, 2, 3, 0, 2, 2],
    ] {
        for mesh in all_admissible(plan(numbers)) {
            for kind in Kind::ALL {
                let mut markable = mesh.markable(kind);
                markable.truncate(7);
                for chosen in 0..1u32 << markable.len() {
                    let marks: Vec<u32> = (0..markable.len())
                        .filter(|i| chosen >> i & 1 == 1)
                        .map(|i| markable[i])
                        .collect();
                    let outcome = mesh.clone().call_with_room(kind, &marks);
                    assert_eq!(outcome.number, 0);
                }
            }
        }
    }
}

/// All corners of plans of up to three columns and two rows, with all degrees where there are few
/// cells: every mesh of two levels, each call with each mark that it takes and with all of them.
#[test]
fn every_corner_of_two_levels() {
    let mut calls = 0;
    for (columns, rows) in [(1, 1), (2, 1), (3, 1), (1, 2), (2, 2), (3, 2)] {
        for (p, q) in (1..=4).flat_map(|p| (1..=4).map(move |q| (p, q))) {
            if columns * rows > 3 && (p == 1 || q == 1 || p == q && p > 2) {
                continue;
            }
            for across in every_corners(columns) {
                for up in every_corners(rows) {
                    let plan = plan([columns, rows, 2, p, q, 0, across, up]);
                    calls +=
                        all_admissible(plan).map(|mesh| every_mark_taken(&mesh)).sum::<usize>();
                }
            }
        }
    }
    assert!(calls > 20_000, "{calls}");
}

/// The same with three levels, where classes 2 and 3 differ from class 0. The meshes are a sample,
/// each so many.
#[test]
fn every_corner_of_three_levels() {
    let (mut calls, mut refused) = (0, 0);
    for (columns, rows, every) in [(2, 1, 19), (1, 2, 19), (3, 1, 331)] {
        for (p, q) in [(1, 1), (2, 1), (1, 2), (3, 1), (2, 3), (4, 4)] {
            for across in every_corners(columns) {
                for up in every_corners(rows) {
                    for class in [0, 2, 3] {
                        let plan = plan([columns, rows, 3, p, q, class, across, up]);
                        for refined in all_meshes(plan).iter().step_by(every) {
                            let mesh = Tables::with_refined(plan, refined);
                            match mesh.check() {
                                0 => calls += every_mark_taken(&mesh),
                                number => {
                                    assert_eq!(number, 5);
                                    refused += 1;
                                }
                            }
                        }
                    }
                }
            }
        }
    }
    assert!(calls > 50_000 && refused > 20, "{calls} {refused}");
}

/// Each call with each mark that it takes, and with all of them.
fn every_mark_taken(mesh: &Tables) -> usize {
    let mut calls = 0;
    for kind in Kind::ALL {
        let markable = mesh.markable(kind);
        let each = markable.iter().map(|&mark| vec![mark]);
        for marks in each.chain([markable.clone()]) {
            assert_eq!(mesh.clone().call_with_room(kind, &marks).number, 0);
            calls += 1;
        }
    }
    calls
}

/// "Smallest" word for word, with no use of the model's way to it: of all admissible meshes that
/// have the base refined, the result is one, and every other contains it. The meshes to start from are
/// a sample, each so many; those to compare with are all.
#[test]
fn smallest_of_all_meshes() {
    for (numbers, every) in [
        ([3, 1, 3, 1, 1, 0, 0, 0], 40),
        ([3, 1, 3, 1, 1, 2, 0, 0], 10),
        ([3, 1, 3, 2, 1, 2, 0, 0], 10),
        ([1, 3, 3, 1, 1, 2, 0, 0], 10),
        ([1, 1, 4, 1, 1, 2, 0, 0], 200),
        ([1, 1, 4, 1, 1, 3, 0, 0], 2000),
        ([3, 1, 3, 2, 1, 2, 2, 0], 10),
        ([3, 1, 3, 3, 1, 2, 6, 0], 10),
        ([1, 3, 3, 1, 4, 2, 0, 4], 10),
    ] {
        let plan = plan(numbers);
        let refinable: Vec<Cell> = plan.cells().filter(|c| c.level + 1 < plan.levels).collect();
        let bits = |mesh: &BTreeSet<Cell>| -> u32 {
            mesh.iter().map(|cell| 1 << refinable.binary_search(cell).unwrap()).sum()
        };
        let admissible: Vec<u32> = all_meshes(plan)
            .iter()
            .filter(|mesh| model::is_admissible(plan, &model::table(plan, mesh)))
            .map(bits)
            .collect();
        let smallest = |base: u32| {
            let holding = admissible.iter().filter(|&&mesh| mesh & base == base);
            let common = holding.fold(u32::MAX, |common, mesh| common & mesh);
            assert!(admissible.contains(&common));
            common
        };
        for &before in admissible.iter().step_by(every) {
            let refined = (0..refinable.len()).filter(|i| before >> i & 1 == 1);
            let refined = refined.map(|i| refinable[i]).collect();
            let mesh = Tables::with_refined(plan, &refined);
            for kind in [RefineCells, CoarsenCells] {
                let markable = mesh.markable(kind);
                let each = markable.iter().map(|&mark| vec![mark]);
                let pairs = markable.windows(2).map(|pair| pair.to_vec());
                for marks in each.chain(pairs).chain([markable.clone()]) {
                    let mut tables = mesh.clone();
                    tables.call_with_room(kind, &marks);
                    let marked: u32 = marks.iter().map(|&mark| 1 << mark).sum();
                    let base = if kind.refines() { before | marked } else { before & !marked };
                    let after = bits(&model::refined_cells(plan, &tables.cells));
                    assert_eq!(after, smallest(base), "{kind:?} {marks:?} {numbers:?}");
                }
            }
        }
    }
}
