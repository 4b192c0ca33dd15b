//! What Req 12 claims in place of Req 02: every function of level k-m+1 over an active cell of level k,
//! k at least m, is active or deactivated. So the truncated functions of coarser levels are 0 over that
//! cell. That it holds of every mesh which a call leaves is seen in every test
//! (`expect_present_levels`). Here are meshes which show that no more is true: a function of the next
//! level may be passive, and active functions of more than m levels may be over the cell.

use differential::{meshes_of_classes, plan, Kind::RefineCells, Tables};
use model::{Cell, ACTIVE, DEACTIVATED, PASSIVE};
use std::collections::BTreeSet;

/// The levels of the functions with that label over the active cell with that number.
fn levels_with(label: u8, tables: &Tables, number: usize) -> Vec<u32> {
    let cell = tables.plan.cell_at(number);
    let over = model::over_active_cells(tables.plan, &tables.cells, &tables.functions);
    let over = over.iter().find(|over| over.cell == cell).expect("an active cell");
    let levels = over.levels[label as usize];
    (0..tables.plan.levels).filter(|level| levels >> level & 1 == 1).collect()
}

fn refined<const N: usize>(numbers: [u32; N], cells: &[usize]) -> Tables {
    let plan = plan(numbers);
    Tables::with_refined(plan, &cells.iter().map(|&cell| plan.cell_at(cell)).collect())
}

/// The mesh in which the cells in row 0 and these columns, one for each level but the last, are refined
/// one after the other, and the cell in that column of the last level.
fn towards<const N: usize>(numbers: [u32; N], column: impl Fn(u32) -> u32) -> (Tables, usize) {
    let mut tables = Tables::opened(plan(numbers));
    let cell = |level| plan(numbers).cell_number(Cell { level, row: 0, column: column(level) });
    for level in 0..numbers[2] - 1 {
        assert_eq!(tables.call_with_room(RefineCells, &[cell(level) as u32]).number, 0);
    }
    (tables, cell(numbers[2] - 1))
}

/// Towards the first cell of the last level.
fn towards_the_first_cell<const N: usize>(numbers: [u32; N]) -> (Tables, usize) {
    towards(numbers, |_| 0)
}

/// The rows that are worked by proof. Over cell 15 are the functions 0, 1, 4, 5 of level 0 and 8, 9, 15,
/// 16 of level 1.
#[test]
fn worked() {
    let after_p7 = refined([3, 1, 3, 1, 1, 2], &[0, 3]);
    assert_eq!(after_p7.check(), 0);
    let labels = |functions: [usize; 4]| functions.map(|function| after_p7.functions[function]);
    // Level 1 is k-m+1: none of its functions is passive. Functions 1 and 5 lie over cell 1 too.
    assert_eq!(labels([8, 9, 15, 16]), [DEACTIVATED, ACTIVE, ACTIVE, ACTIVE]);
    assert_eq!(labels([0, 1, 4, 5]), [DEACTIVATED, ACTIVE, DEACTIVATED, ACTIVE]);
    // Three levels in class 2.
    assert_eq!(levels_with(ACTIVE, &after_p7, 15), [0, 1, 2]);
    assert_eq!(levels_with(PASSIVE, &after_p7, 15), [0; 0]);
    assert_eq!(levels_with(ACTIVE, &after_p7, 2), [0]);
    // Where cell 1 is refined too, those of level 0 are deactivated.
    let with_1 = refined([3, 1, 3, 1, 1, 2], &[0, 1, 3]);
    assert_eq!(with_1.check(), 0);
    assert_eq!(levels_with(ACTIVE, &with_1, 15), [1, 2]);
    assert_eq!(levels_with(DEACTIVATED, &with_1, 15), [0, 1]);
}

/// Cell 18 is in column 3 of level 2 and lies in cell 4, in column 1 of level 1. Function 10 of level 1
/// covers columns 1 and 2. In class 0 cell 5, in column 2, may be absent, and then it is passive.
#[test]
fn without_a_class_it_is_false() {
    let mut tables = refined([3, 1, 3, 1, 1, 0], &[0, 4]);
    assert_eq!(tables.check(), 0);
    assert_eq!(tables.functions[10], PASSIVE);
    assert_eq!(levels_with(PASSIVE, &tables, 18), [1, 2]);
    tables.plan.class = 2;
    assert_eq!(tables.check(), 5);
    // With cell 1 refined, cell 5 is present.
    let tables = refined([3, 1, 3, 1, 1, 2], &[0, 1, 4]);
    assert_eq!(tables.check(), 0);
    assert_eq!(tables.functions[10], ACTIVE);
    assert_eq!(levels_with(PASSIVE, &tables, 18), [2]);
}

/// Degree 2 across and a corner before column 1. The functions of level 1 over cell 15 cover columns 0
/// and 1 alone. Without the corner one covers column 2 too: it is passive unless cell 1 is refined. On
/// level 2, that of the cell, one covers column 2, which is absent.
#[test]
fn worked_with_a_corner() {
    let cornered = refined([3, 1, 3, 2, 1, 2, 2, 0], &[0, 3]);
    assert_eq!(cornered.check(), 0);
    assert_eq!(levels_with(PASSIVE, &cornered, 15), [2]);
    assert_eq!(levels_with(ACTIVE, &cornered, 15), [0, 1, 2]);
    let mut smooth = refined([3, 1, 3, 2, 1, 0], &[0, 3]);
    assert_eq!(smooth.check(), 0);
    assert_eq!(levels_with(PASSIVE, &smooth, 15), [1, 2]);
    smooth.plan.class = 2;
    assert_eq!(smooth.check(), 5);
    let smooth = refined([3, 1, 3, 2, 1, 2], &[0, 1, 3]);
    assert_eq!(smooth.check(), 0);
    assert_eq!(levels_with(PASSIVE, &smooth, 15), [2]);
}

/// A function of level k-m+2, here 2, may be passive over an active cell of level k, here m. Beside the
/// line in the middle, level 1 has column 0 and level 2 column 1 refined, and column 1 of level 1 is
/// active: column 2 of level 2 is absent, and a function covers it together with column 1. In class 8
/// there are too few levels.
#[test]
fn a_function_of_the_next_level_may_be_passive() {
    for class in 2..=7 {
        for degree in 1..=4 {
            let numbers = [1, 1, class + 1, degree, degree, class];
            let (tables, cell) = towards(numbers, |level| (1 << level >> 1_u32).max(1) - 1);
            assert_eq!(levels_with(PASSIVE, &tables, cell)[0], 2, "{numbers:?}");
        }
    }
}

/// In every class there may be active functions of all levels of the plan over a cell. At degree 1 the
/// neighbourhood of the first cell of a level is the first cell of another. So no others are refined, and
/// on each level a function covers the first cell together with the one beside it, which is active.
#[test]
fn all_levels_over_one_cell() {
    for class in [0, 2, 3, 4, 5, 6, 7] {
        for levels in 1..=7 {
            let (tables, cell) = towards_the_first_cell([2, 1, levels, 1, 1, class]);
            let all: Vec<u32> = (0..levels).collect();
            assert_eq!(levels_with(ACTIVE, &tables, cell), all, "class {class}");
        }
    }
    // At degree 3, with a corner before column 1: on level 1 column 0 has common functions with column 1
    // alone.
    let (tables, cell) = towards_the_first_cell([3, 1, 3, 3, 2, 2, 2, 0]);
    assert_eq!(levels_with(ACTIVE, &tables, cell), [0, 1, 2]);
}

/// The first cells, where level 0 has one cell alone: its functions are deactivated.
#[test]
fn one_cell_of_level_0() {
    for class in 2..=8 {
        let levels = (class + 1).min(8);
        let (tables, cell) = towards_the_first_cell([1, 1, levels, 1, 1, class]);
        assert_eq!(levels_with(ACTIVE, &tables, cell), (1..levels).collect::<Vec<_>>());
        assert_eq!(levels_with(DEACTIVATED, &tables, cell), (0..levels - 1).collect::<Vec<_>>());
    }
}

// ---- The rule and the claim ----

/// Whether no function of level k-m+1 over a present cell of level k, k at least m, is passive.
fn none_is_passive(tables: &Tables) -> bool {
    let (plan, class) = (tables.plan, tables.plan.class);
    let byte = |cell: Cell| tables.cells[plan.cell_number(cell)];
    let present: Vec<Cell> =
        plan.cells().filter(|&cell| cell.level >= class && byte(cell) != model::ABSENT).collect();
    let passive = plan.functions().zip(&tables.functions).filter(|&(_, &label)| label == PASSIVE);
    passive.map(|(function, _)| function).all(|function| {
        let support: BTreeSet<Cell> = plan.support(function).collect();
        let level = function.level + class - 1;
        present.iter().filter(|cell| cell.level == level).all(|&cell| {
            let ancestor = (function.level..level)
                .fold(cell, |cell, _| plan.parent(cell).expect("a level above"));
            !support.contains(&ancestor)
        })
    })
}

/// A mesh is admissible exactly when the claim holds of its present cells, not of the active ones alone:
/// a function is passive where a cell that it covers is absent, so where the parent of one is not refined.
#[test]
fn the_rule_is_the_claim() {
    let (mut admissible, mut others) = ([0; 5], [0; 5]);
    for (plan, meshes) in meshes_of_classes() {
        let class = plan.class as usize;
        for refined in meshes {
            let tables = Tables::with_refined(plan, &refined);
            let number = tables.check();
            let expected = if none_is_passive(&tables) { 0 } else { 5 };
            assert_eq!(number, expected, "{plan:?} {refined:?}");
            *if number == 0 { &mut admissible[class] } else { &mut others[class] } += 1;
        }
    }
    let enough = |counts: [usize; 5]| counts[2..].iter().all(|&count| count > 150);
    assert!(enough(admissible) && enough(others), "{admissible:?} {others:?}");
}
