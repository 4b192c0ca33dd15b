//! The meshes worked by hand and the examples of the refusal table, with the numbers written out, so
//! that library and model are both held to them.

use differential::{accepted, plan, refused, Kind::*, Tables};
use model::Plan;

const W0: [u32; 6] = [3, 1, 3, 1, 1, 0];
const W2: [u32; 6] = [3, 1, 3, 1, 1, 2];

/// Tables with these cells refined one after the other.
fn refined<const N: usize>(numbers: [u32; N], marks: &[u32]) -> Tables {
    let mut tables = Tables::opened(plan(numbers));
    for &mark in marks {
        assert_eq!(tables.call_with_room(RefineCells, &[mark]).number, 0);
    }
    tables
}

fn after_p3() -> Tables {
    let mut tables = Tables::opened(plan(W0));
    let outcome = tables.call_with_room(RefineFunctions, &[1]);
    assert_eq!(outcome, accepted(&[0, 1], &[0, 1, 4, 5]));
    tables
}

fn after_p7() -> Tables {
    let mut tables = refined(W2, &[0]);
    assert_eq!(tables.call_with_room(RefineCells, &[3]), accepted(&[3], &[8]));
    tables
}

/// The functions that are active now and were not before.
fn newly_active(before: &Tables, after: &Tables) -> Vec<usize> {
    (0..after.functions.len())
        .filter(|&n| before.functions[n] != 1 && after.functions[n] == 1)
        .collect()
}

#[test]
fn sizes_of_the_example_plans() {
    for numbers in [W0, W2] {
        let tables = Tables::opened(plan(numbers));
        assert_eq!((tables.cells.len(), tables.functions.len()), (63, 94));
    }
}

#[test]
fn p1_refine_0() {
    let fresh = Tables::opened(plan(W0));
    let mut tables = fresh.clone();
    assert_eq!(tables.call_with_room(RefineCells, &[0]), accepted(&[0], &[0, 4]));
    assert_eq!(newly_active(&fresh, &tables), [8, 9, 15, 16, 22, 23]);
}

#[test]
fn p2_refine_1() {
    let fresh = Tables::opened(plan(W0));
    let mut tables = fresh.clone();
    assert_eq!(tables.call_with_room(RefineCells, &[1]), accepted(&[1], &[]));
    assert_eq!(newly_active(&fresh, &tables), [11, 18, 25]);
}

#[test]
fn p3_refine_by_function_1() {
    after_p3();
}

#[test]
fn p4_coarsen_by_function_1_after_p3() {
    let mut tables = after_p3();
    assert_eq!(tables.call_with_room(CoarsenFunctions, &[1]), accepted(&[], &[]));
    assert_eq!(tables, after_p3());
}

#[test]
fn p5_coarsen_by_functions_1_5_after_p3() {
    let outcome = after_p3().call_with_room(CoarsenFunctions, &[1, 5]);
    assert_eq!(outcome, accepted(&[1], &[1, 5]));
}

#[test]
fn p6_coarsen_by_functions_0_1_4_5_after_p3() {
    let mut tables = after_p3();
    let outcome = tables.call_with_room(CoarsenFunctions, &[0, 1, 4, 5]);
    assert_eq!(outcome, accepted(&[0, 1], &[0, 1, 4, 5]));
    assert_eq!(tables, Tables::opened(plan(W0)));
}

/// Columns 0 and 1 of level 1 have a common function with column 0. Both are on cell 0.
#[test]
fn p7_refine_0_then_3() {
    let tables = after_p7();
    assert_eq!(tables.cells[..5], [2, 1, 1, 2, 1]);
    // Function 0 is deactivated although its child 8 is not active.
    assert_eq!((tables.functions[0], tables.functions[8]), (2, 2));
}

/// Cell 1 is active.
#[test]
fn p8_coarsen_1_after_p7() {
    let mut tables = after_p7();
    assert_eq!(tables.call_with_room(CoarsenCells, &[1]), refused(8));
    assert_eq!(tables, after_p7());
}

/// Its child 3 is refined.
#[test]
fn p9_coarsen_0_after_p7() {
    assert_eq!(after_p7().call_with_room(CoarsenCells, &[0]), refused(8));
}

#[test]
fn p10_coarsen_1_3_after_p7() {
    let mut tables = after_p7();
    assert_eq!(tables.call_with_room(CoarsenCells, &[1, 3]), refused(8));
    assert_eq!(tables, after_p7());
    assert_eq!(tables.call_with_room(CoarsenCells, &[3]), accepted(&[3], &[8]));
    assert_eq!(tables, refined(W2, &[0]));
}

/// Column 1 of level 1 has common functions with columns 0 to 2, which are on cells 0 and 1.
#[test]
fn refine_0_then_4() {
    let mut tables = refined(W2, &[0]);
    assert_eq!(tables.call_with_room(RefineCells, &[4]), accepted(&[1, 4], &[1, 5]));
    // A marked cell that the others need stays refined.
    let after = tables.clone();
    assert_eq!(tables.call_with_room(CoarsenCells, &[1]), accepted(&[], &[]));
    assert_eq!(tables, after);
    assert_eq!(tables.call_with_room(CoarsenCells, &[1, 4]), accepted(&[1, 4], &[1, 5]));
    assert_eq!(tables, refined(W2, &[0]));
}

/// Four cells of level 0. Cell 9 is in column 1, row 1 of level 1, so columns 0 to 2 and rows 0 to 2
/// have common functions with it. They are on all four.
#[test]
fn refine_0_then_9_of_two_rows() {
    let mut tables = refined([2, 2, 3, 1, 1, 2], &[0]);
    let outcome = tables.call_with_room(RefineCells, &[9]);
    // All functions of level 0 but the first, which cell 0 alone deactivated.
    assert_eq!(outcome, accepted(&[1, 2, 3, 9], &[1, 2, 3, 4, 5, 6, 7, 8]));
}

/// Class 3. Cell 18 is in column 3 of level 2 and its parent, cell 4, in column 1 of level 1. On that
/// level columns 0 to 2 have common functions with column 1, and are on cells 0 and 1. Cell 16 is in
/// column 1, and its parent, cell 3, in column 0, which has them with columns 0 and 1 alone.
#[test]
fn by_the_ancestor_in_class_3() {
    let before = refined([3, 1, 4, 1, 1, 3], &[0, 3, 4]);
    assert_eq!(before.cells[..5], [2, 1, 1, 2, 2]);
    let outcome = before.clone().call_with_room(RefineCells, &[18]);
    assert_eq!(outcome.cells, [1, 18]);
    let outcome = before.clone().call_with_room(RefineCells, &[16]);
    assert_eq!(outcome.cells, [16]);
}

#[test]
fn p11_undoing_by_functions_needs_its_premise() {
    let earlier = refined(W0, &[1]);
    let mut tables = earlier.clone();
    let outcome = tables.call_with_room(RefineFunctions, &[1]);
    assert_eq!(outcome, accepted(&[0], &[0, 1, 4, 5]));
    let outcome = tables.call_with_room(CoarsenFunctions, &[0, 1, 4, 5]);
    assert_eq!(outcome, accepted(&[0, 1], &[0, 1, 4, 5]));
    assert_ne!(tables, earlier);
    assert_eq!(tables, Tables::opened(plan(W0)));
}

#[test]
fn the_largest_plans_open() {
    for (numbers, total, area) in [
        ([1, 1, 8, 1, 1, 0], 21_845, 16_384),
        ([1, 1, 8, 4, 4, 2], 21_845, 16_384),
        ([16, 16, 4, 1, 1, 0], 21_760, 16_384),
        ([16, 16, 4, 4, 4, 8], 21_760, 16_384),
    ] {
        let tables = Tables::opened(plan(numbers));
        assert_eq!(tables.cells.len(), total);
        assert_eq!(tables.check(), 0);
        assert_eq!(tables.count().area, area);
    }
    // The most functions that there may be.
    let tables = Tables::opened(plan([16, 16, 4, 4, 4, 2, 0xfffe, 0xfffe]));
    assert_eq!((tables.cells.len(), tables.functions.len()), (21_760, 54_884));
    assert_eq!(tables.check(), 0);
    assert_eq!(tables.count().active_functions, 65 * 65);
}

#[test]
fn classes_and_columns_at_their_limits() {
    let open = |numbers: [u32; 6]| {
        // Lengths of the nearest plan in range, so that nothing but the plan is at fault.
        let near = plan([numbers[0].clamp(1, 16), numbers[1], numbers[2], 1, 1, 0]);
        let (cells, functions) = (vec![9; near.cell_total()], vec![9; near.function_total()]);
        Tables { plan: plan(numbers), cells, functions }.open()
    };
    assert_eq!(open([3, 1, 3, 1, 1, 8]), 0);
    assert_eq!(open([3, 1, 3, 1, 1, 9]), 1);
    assert_eq!(open([16, 1, 3, 1, 1, 0]), 0);
    assert_eq!(open([17, 1, 3, 1, 1, 0]), 1);
}

#[test]
fn the_sample_session() {
    let mut tables = Tables::opened(plan(W2));
    assert_eq!(tables.call_with_room(RefineCells, &[0]), accepted(&[0], &[0, 4]));
    assert_eq!(tables.call_with_room(RefineCells, &[3]), accepted(&[3], &[8]));
    assert_eq!(tables.call_with_room(CoarsenCells, &[1]), refused(8));
}

// ---- A corner ----

/// Degree 1: with a corner before column 1 or 2, or both, everything is as without.
#[test]
fn a_corner_of_degree_1() {
    for corners in [2, 4, 6] {
        for class in [0, 2] {
            let [a, b, l, p, q, _] = W0;
            let with = Tables::opened(plan([a, b, l, p, q, class, corners, 0]));
            let without = Tables::opened(plan([a, b, l, p, q, class]));
            assert_eq!((with.cells.len(), with.functions.len()), (63, 94));
            let run = |mut tables: Tables| {
                let mut seen = vec![];
                for (kind, marks) in [
                    (RefineCells, &[0][..]),
                    (RefineCells, &[3]),
                    (RefineCells, &[4]),
                    (RefineFunctions, &[2, 6]),
                    (CoarsenCells, &[1]),
                    (CoarsenFunctions, &[0, 1, 4, 5]),
                    (CoarsenCells, &[3]),
                    (RefineCells, &[2]),
                ] {
                    let outcome = tables.call_with_room(kind, marks);
                    seen.push((outcome, tables.cells.clone(), tables.functions.clone()));
                }
                seen
            };
            assert_eq!(run(with), run(without));
        }
    }
}

/// Degree 2 across and a corner before column 1. On level 0 the knots are 0 0 0 1 1 2 3 3 3, and
/// six functions cover the columns 0, 0, 0-1, 1-2, 1-2, 2, in two rows: 0 to 5 and 6 to 11. On
/// level 1 the knots are 0 0 0 1 2 2 3 4 5 6 6 6, and nine functions cover 0, 0-1, 0-1, 1-2, 2-3,
/// 2-4, 3-5, 4-5, 5, in three rows from 12 on. On level 2 there are 12 columns and 15 functions, in
/// five rows from 39 on.
const C0: [u32; 8] = [3, 1, 3, 2, 1, 0, 2, 0];
const C2: [u32; 8] = [3, 1, 3, 2, 1, 2, 2, 0];

#[test]
fn sizes_with_a_corner() {
    for numbers in [C0, C2] {
        let tables = Tables::opened(plan(numbers));
        assert_eq!((tables.cells.len(), tables.functions.len()), (63, 12 + 27 + 75));
        assert_eq!(tables.count().active_functions, 12);
    }
    assert_eq!(Tables::opened(plan([3, 1, 3, 2, 1, 0])).functions.len(), 10 + 24 + 70);
}

/// Two functions of each row lie over cell 0 alone. On level 1 the first three of each row cover
/// columns 0 and 1 and no others; without the corner it is two.
#[test]
fn with_a_corner_refine_0() {
    let fresh = Tables::opened(plan(C0));
    let mut tables = fresh.clone();
    assert_eq!(tables.call_with_room(RefineCells, &[0]), accepted(&[0], &[0, 1, 6, 7]));
    assert_eq!(newly_active(&fresh, &tables), [12, 13, 14, 21, 22, 23, 30, 31, 32]);
    let fresh = Tables::opened(plan([3, 1, 3, 2, 1, 0]));
    let mut tables = fresh.clone();
    assert_eq!(tables.call_with_room(RefineCells, &[0]), accepted(&[0], &[0, 5]));
    assert_eq!(newly_active(&fresh, &tables), [10, 11, 18, 19, 26, 27]);
}

/// No function lies over cell 1 alone. On level 1 function 4 covers columns 2 and 3 and no others.
#[test]
fn with_a_corner_refine_1() {
    let fresh = Tables::opened(plan(C0));
    let mut tables = fresh.clone();
    assert_eq!(tables.call_with_room(RefineCells, &[1]), accepted(&[1], &[]));
    assert_eq!(newly_active(&fresh, &tables), [16, 25, 34]);
}

/// Function 2 covers both sides of the corner, functions 3 and 4 what lies behind it.
#[test]
fn with_a_corner_by_functions() {
    let fresh = Tables::opened(plan(C0));
    for (mark, cells, functions) in [
        (0, &[0][..], &[0, 1, 6, 7][..]),
        (1, &[0], &[0, 1, 6, 7]),
        (2, &[0, 1], &[0, 1, 2, 6, 7, 8]),
        (3, &[1, 2], &[3, 4, 5, 9, 10, 11]),
        (4, &[1, 2], &[3, 4, 5, 9, 10, 11]),
        (5, &[2], &[5, 11]),
    ] {
        // The same function of the other row has the same support.
        for mark in [mark, mark + 6] {
            let mut tables = fresh.clone();
            assert_eq!(tables.call_with_room(RefineFunctions, &[mark]), accepted(cells, functions));
            let outcome = tables.call_with_room(CoarsenFunctions, functions);
            assert_eq!(outcome, accepted(cells, functions));
            assert_eq!(tables, fresh);
        }
    }
    // As P4 and P5: function 2 alone means nothing, since 0 and 1 keep cell 0, and 8 keeps both.
    let mut tables = fresh.clone();
    tables.call_with_room(RefineFunctions, &[2]);
    assert_eq!(tables.clone().call_with_room(CoarsenFunctions, &[2]), accepted(&[], &[]));
    assert_eq!(tables.clone().call_with_room(CoarsenFunctions, &[0, 1]), accepted(&[], &[]));
    assert_eq!(tables.call_with_room(CoarsenFunctions, &[2, 8]), accepted(&[1], &[2, 8]));
}

/// Class 2. On level 1, column 0 has common functions with column 1 and not with column 2: both are on
/// cell 0. Function 12 of level 1 lies over cell 3 alone. Without the corner it has one with column 2
/// too, which is on cell 1; then function 10 lies over cell 3 alone, and 1 and 6 over cells 0 and 1.
#[test]
fn with_a_corner_refine_0_then_3() {
    let mut tables = refined(C2, &[0]);
    assert_eq!(tables.call_with_room(RefineCells, &[3]), accepted(&[3], &[12]));
    assert_eq!(tables.call_with_room(CoarsenCells, &[1]), refused(8));
    assert_eq!(tables.call_with_room(CoarsenCells, &[3]), accepted(&[3], &[12]));
    assert_eq!(tables, refined(C2, &[0]));

    let mut tables = refined([3, 1, 3, 2, 1, 2], &[0]);
    assert_eq!(tables.call_with_room(RefineCells, &[3]), accepted(&[1, 3], &[1, 6, 10]));
}

/// Class 2. Column 1, before the corner, has a common function with column 2 and none with column 3. So
/// cell 1 is refined; functions 2 and 8 lie over cells 0 and 1.
#[test]
fn with_a_corner_refine_0_then_4() {
    let mut tables = refined(C2, &[0]);
    let outcome = accepted(&[1, 4], &[2, 8]);
    assert_eq!(tables.call_with_room(RefineCells, &[4]), outcome);
    assert_eq!(tables.clone().call_with_room(CoarsenCells, &[1]), accepted(&[], &[]));
    assert_eq!(tables.call_with_room(CoarsenCells, &[1, 4]), outcome);
    assert_eq!(tables, refined(C2, &[0]));
}

/// Class 2, the child of cell 1 next to the corner: column 2 has common functions with columns 1 to 4,
/// which are on all three cells.
#[test]
fn with_a_corner_refine_1_then_5() {
    let mut tables = refined(C2, &[1]);
    let outcome = tables.call_with_room(RefineCells, &[5]);
    assert_eq!(outcome, accepted(&[0, 2, 5], &[0, 1, 2, 3, 4, 5, 6, 7, 8, 9, 10, 11]));
    assert_eq!(tables.call_with_room(CoarsenCells, &outcome.cells), outcome);
    assert_eq!(tables, refined(C2, &[1]));
}

/// Refusal 5: cells 0 and 4 refined and 1 active. With cell 1 refined it is passed. Cells 0 and 3 pass
/// with the corner, and not without.
#[test]
fn with_a_corner_refusal_5() {
    let number = |numbers: [u32; 8], cells: &[u32]| {
        let mut tables = refined(numbers, cells);
        tables.plan.class = 2;
        let number = tables.check();
        if number != 0 {
            all_refuse(&mut tables, number);
        }
        number
    };
    assert_eq!(number(C0, &[0, 4]), 5);
    assert_eq!(number(C0, &[0, 1, 4]), 0);
    assert_eq!(number(C0, &[0, 3]), 0);
    assert_eq!(number([3, 1, 3, 2, 1, 0, 0, 0], &[0, 3]), 5);
    assert_eq!(number([3, 1, 3, 2, 1, 0, 0, 0], &[0, 1, 3]), 0);
}

/// Refusals 1 and 3 of corners.
#[test]
fn corners_that_do_not_fit() {
    for (across, up, number) in [(2, 0, 0), (4, 0, 0), (6, 0, 3), (0, 0, 3), (1, 0, 1), (8, 0, 1)]
        .into_iter()
        .chain([(2, 1, 1), (2, 2, 1), (2, 1 << 31, 1), (u32::MAX, 0, 1), (3, 0, 1)])
    {
        let tables = Tables::opened(plan(C0));
        let plan = Plan { corners_across: across, corners_up: up, ..tables.plan };
        assert_eq!(Tables { plan, ..tables }.open(), number, "{across} {up}");
    }
}

// ---- The examples of the refusal table ----

/// What every call answers on tables that are at fault themselves.
fn all_refuse(tables: &mut Tables, number: u32) {
    assert_eq!(tables.check(), number);
    assert_eq!(tables.count().number, number);
    for kind in differential::Kind::ALL {
        assert_eq!(tables.call(kind, &[0], &[7; 9], &[7; 9]), refused(number));
    }
}

#[test]
fn refusal_1_plan_out_of_range() {
    for numbers in [[0, 1, 3, 1, 1, 0], [3, 1, 3, 1, 1, 1]] {
        let mut tables = Tables { plan: plan(numbers), cells: vec![1; 63], functions: vec![1; 94] };
        assert_eq!(tables.open(), 1);
        all_refuse(&mut tables, 1);
    }
}

#[test]
fn refusal_2_too_many_cells() {
    let plan = plan([16, 16, 5, 1, 1, 0]);
    assert_eq!(plan.cell_total(), 87_296);
    let (cells, functions) = (vec![1; plan.cell_total()], vec![1; plan.function_total()]);
    let mut tables = Tables { plan, cells, functions };
    assert_eq!(tables.open(), 2);
    all_refuse(&mut tables, 2);
}

#[test]
fn refusal_3_length_of_a_table() {
    let mut tables = Tables::opened(plan(W0));
    tables.cells.pop();
    assert_eq!(tables.cells.len(), 62);
    assert_eq!(tables.open(), 3);
    all_refuse(&mut tables, 3);
}

#[test]
fn refusal_4_not_a_mesh() {
    let mut tables = Tables::opened(plan(W0));
    tables.cells[0] = 0;
    all_refuse(&mut tables, 4);
}

#[test]
fn refusal_5_not_admissible() {
    let mut tables = refined(W0, &[0, 4]);
    assert_eq!(tables.cells[..5], [2, 1, 1, 1, 2]);
    assert_eq!(tables.check(), 0);
    tables.plan.class = 2;
    all_refuse(&mut tables, 5);
    // Cells 0 and 3 pass.
    let mut tables = refined(W0, &[0, 3]);
    tables.plan.class = 2;
    assert_eq!(tables.check(), 0);
}

#[test]
fn refusal_6_function_byte() {
    let mut tables = Tables::opened(plan(W0));
    tables.functions[0] = 2;
    all_refuse(&mut tables, 6);
}

#[test]
fn refusal_7_mark_out_of_range() {
    assert_eq!(Tables::opened(plan(W0)).call_with_room(RefineCells, &[63]), refused(7));
    assert_eq!(Tables::opened(plan(W0)).call_with_room(RefineFunctions, &[94]), refused(7));
}

#[test]
fn refusal_8_mark_of_wrong_kind() {
    assert_eq!(Tables::opened(plan(W0)).call_with_room(RefineCells, &[3]), refused(8));
}

#[test]
fn refusal_9_mark_of_last_level() {
    let mut tables = Tables::opened(plan([1, 1, 1, 1, 1, 0]));
    assert_eq!(tables.call_with_room(RefineCells, &[0]), refused(9));
    assert_eq!(tables.call_with_room(RefineFunctions, &[0]), refused(9));
}

#[test]
fn refusal_10_cell_list() {
    let mut tables = Tables::opened(plan(W0));
    assert_eq!(tables.call(RefineCells, &[0], &[], &[5; 94]), refused(10));
    assert_eq!(tables.call(RefineCells, &[0], &[], &[]), refused(10));
}

#[test]
fn refusal_11_function_list() {
    let mut tables = Tables::opened(plan(W0));
    assert_eq!(tables.call(RefineCells, &[0], &[5], &[5]), refused(11));
    assert_eq!(tables.call(RefineCells, &[0], &[5], &[5; 2]), accepted(&[0], &[0, 4]));
}

/// The first mark at fault decides, and marks are at fault before lists are.
#[test]
fn marks_in_list_order() {
    let mut tables = refined([2, 1, 2, 1, 1, 0], &[0]);
    // Cell 0 is refined, 1 active, 2 active and of the last level, 4 absent; there are 10.
    assert_eq!(tables.call(RefineCells, &[1, 10, 0, 2], &[], &[]), refused(7));
    assert_eq!(tables.call(RefineCells, &[1, 0, 10, 2], &[], &[]), refused(8));
    assert_eq!(tables.call(RefineCells, &[1, 2, 0, 10], &[], &[]), refused(9));
    assert_eq!(tables.call(RefineCells, &[1, 1], &[], &[]), refused(10));
    // A cell that is absent on the last level is of the wrong kind first.
    assert_eq!(tables.call(RefineCells, &[4], &[], &[]), refused(8));
}

/// Cell 5 and function 5 name different things.
#[test]
fn cells_and_functions_are_numbered_apart() {
    let mut tables = Tables::opened(plan(W0));
    assert_eq!(tables.clone().call_with_room(RefineCells, &[5]), refused(8));
    assert_eq!(tables.call_with_room(RefineFunctions, &[5]), accepted(&[0, 1], &[0, 1, 4, 5]));
}
