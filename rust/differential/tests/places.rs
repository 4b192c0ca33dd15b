//! The calls on a plan alone, compared with the model: which plans are refused, how long the tables
//! are, where cells lie and what functions cover; as they are exported, and by the wrapper.

use differential::{
    all_corners, beyond, has_corners, of_wrapper, out_of_range, plan, random_plan, raw, Random,
};
use model::Plan;
use wallmirror::{ffi, Cell, Function, Heights, Level, Mesh, Place, Refusal, Support};

// ---- What the model says ----

fn refused(plan: Plan) -> u32 {
    model::refuse_plan(plan).err().unwrap_or(0)
}

/// The cells and functions of a level, counted; all 0 where the plan does not have it.
fn level_of(plan: Plan, level: u32) -> ffi::Level {
    if refused(plan) != 0 || level >= plan.levels {
        return ffi::Level::default();
    }
    let cells = || plan.cells().filter(|cell| cell.level == level);
    ffi::Level {
        first_cell: plan.cells().take_while(|cell| cell.level < level).count() as u32,
        columns: cells().filter(|cell| cell.row == 0).count() as u32,
        rows: cells().filter(|cell| cell.column == 0).count() as u32,
        first_function: plan.functions().take_while(|f| f.level < level).count() as u32,
        functions_across: plan.across(level).functions(),
        functions_up: plan.up(level).functions(),
    }
}

fn place_of(plan: Plan, cell: u32) -> ffi::Place {
    if refused(plan) != 0 || cell as usize >= plan.cell_total() {
        return ffi::Place::default();
    }
    let model::Cell { level, row, column } = plan.cell_at(cell as usize);
    ffi::Place { found: 1, level, row, column }
}

fn support_of(plan: Plan, function: u32) -> ffi::Support {
    if refused(plan) != 0 || function as usize >= plan.function_total() {
        return ffi::Support::default();
    }
    let model::Function { level, row, column } = plan.function_at(function as usize);
    let (rows, columns) = (plan.up(level).covered(row), plan.across(level).covered(column));
    ffi::Support {
        found: 1,
        level,
        first_row: rows.start,
        end_row: rows.end,
        first_column: columns.start,
        end_column: columns.end,
    }
}

// ---- What the library answers ----

/// Refusal and lengths. Answers the lengths.
fn expect_lengths(plan: Plan) -> (usize, usize) {
    let (raw, of_wrapper) = (raw(plan), of_wrapper(plan));
    let number = refused(plan);
    let (t, f) = match number {
        0 => (plan.cell_total(), plan.function_total()),
        _ => (0, 0),
    };
    assert_eq!(ffi::wallmirror_plan_refusal(raw), number, "{plan:?}");
    let lengths = (ffi::wallmirror_cells_len(raw), ffi::wallmirror_functions_len(raw));
    assert_eq!(lengths, (t, f), "{plan:?}");
    assert_eq!(of_wrapper.check().err(), Refusal::from_number(number), "{plan:?}");
    let some = |length: usize| (number == 0).then_some(length);
    assert_eq!((of_wrapper.cells(), of_wrapper.functions()), (some(t), some(f)), "{plan:?}");
    (t, f)
}

fn expect_level(plan: Plan, level: u32) {
    let expected = level_of(plan, level);
    assert_eq!(ffi::wallmirror_level(raw(plan), level), expected, "{level} {plan:?}");
    let of_wrapper = of_wrapper(plan);
    let ffi::Level { first_cell, columns, rows, .. } = expected;
    let ffi::Level { first_function, functions_across, functions_up, .. } = expected;
    let has = refused(plan) == 0 && level < plan.levels;
    let of_level =
        Level { first_cell, columns, rows, first_function, functions_across, functions_up };
    assert_eq!(of_wrapper.level(level), has.then_some(of_level), "{level} {plan:?}");
    let across_and_up = (of_wrapper.functions_across(level), of_wrapper.functions_up(level));
    let (across, up) = (functions_across as usize, functions_up as usize);
    assert_eq!(across_and_up, (has.then_some(across), has.then_some(up)), "{level} {plan:?}");
    let (cells, functions) = (first_cell + columns * rows, first_function + (across * up) as u32);
    let ranges = (of_wrapper.cells_on(level), of_wrapper.functions_on(level));
    let expected = (has.then_some(first_cell..cells), has.then_some(first_function..functions));
    assert_eq!(ranges, expected, "{level} {plan:?}");
}

/// The place of a number, and the number of the place.
fn expect_cell(plan: Plan, cell: u32) {
    let (raw, of_wrapper) = (raw(plan), of_wrapper(plan));
    let expected = place_of(plan, cell);
    assert_eq!(ffi::wallmirror_place(raw, cell), expected, "{cell} {plan:?}");
    let ffi::Place { found, level, row, column } = expected;
    let place = (found == 1).then_some(Place { level, row, column });
    assert_eq!(of_wrapper.place(Cell(cell)), place, "{cell} {plan:?}");
    if let Some(place) = place {
        let at = ffi::wallmirror_cell_at(raw, level, row, column);
        assert_eq!(at, ffi::CellAt { found: 1, cell }, "{cell} {plan:?}");
        assert_eq!(of_wrapper.cell_at(place), Some(Cell(cell)), "{cell} {plan:?}");
    }
}

fn expect_no_cell_at(plan: Plan, place: Place) {
    let Place { level, row, column } = place;
    let at = ffi::wallmirror_cell_at(raw(plan), level, row, column);
    assert_eq!(at, ffi::CellAt::default(), "{place:?} {plan:?}");
    assert_eq!(of_wrapper(plan).cell_at(place), None, "{place:?} {plan:?}");
}

fn expect_support(plan: Plan, function: u32) {
    let expected = support_of(plan, function);
    assert_eq!(ffi::wallmirror_support(raw(plan), function), expected, "{function} {plan:?}");
    let support = (expected.found == 1).then_some(Support {
        level: expected.level,
        rows: expected.first_row..expected.end_row,
        columns: expected.first_column..expected.end_column,
    });
    assert_eq!(of_wrapper(plan).support(Function(function)), support, "{function} {plan:?}");
}

/// Every cell and every function is where the model has it, and there are no others.
fn expect_places(plan: Plan) {
    let (t, f) = expect_lengths(plan);
    for cell in (0..t as u32).chain(beyond(t)) {
        expect_cell(plan, cell);
    }
    for function in (0..f as u32).chain(beyond(f)) {
        expect_support(plan, function);
    }
    for level in (0..plan.levels.min(9) + 2).chain([31, 32, 33, u32::MAX]) {
        expect_level(plan, level);
        let ffi::Level { columns, rows, .. } = level_of(plan, level);
        for (far_up, far_across) in beyond(rows as usize).into_iter().zip(beyond(columns as usize))
        {
            expect_no_cell_at(plan, Place { level, row: far_up, column: 0 });
            expect_no_cell_at(plan, Place { level, row: 0, column: far_across });
            expect_no_cell_at(plan, Place { level, row: far_up, column: far_across });
        }
    }
}

// ---- Plans ----

/// Every shape and the numbers just outside, with some degrees and classes.
#[test]
fn refusals_and_lengths_without_corners() {
    let shapes = (0..=17).flat_map(|columns| (0..=17).map(move |rows| (columns, rows)));
    let (mut seen, mut most) = ([0; 3], (0, 0));
    for (columns, rows) in shapes {
        for levels in 0..=9 {
            for (p, q) in [(1, 1), (4, 4), (2, 3), (3, 1), (1, 4), (0, 1), (1, 0), (5, 2), (2, 5)] {
                for class in [0, 1, 2, 5, 8, 9] {
                    let plan = plan([columns, rows, levels, p, q, class]);
                    let (t, f) = expect_lengths(plan);
                    seen[refused(plan) as usize] += 1;
                    most = (t.max(most.0), f.max(most.1));
                }
            }
        }
    }
    assert!(seen.iter().all(|&often| often > 1000), "{seen:?}");
    assert_eq!(most, (wallmirror::MAX_CELLS, 26_220));
}

/// The same with corners: none, one, all, and lines that are not between two columns or rows.
#[test]
fn refusals_and_lengths_with_corners() {
    let shapes = (1..=16).flat_map(|columns| (1..=16).map(move |rows| (columns, rows)));
    let sets = |n: u32| [0, 1 << (n / 2) & !1, all_corners(n), 1, 1 << n, 1 << 31, u32::MAX];
    let (mut seen, mut most) = ([0; 3], 0);
    for (columns, rows) in shapes {
        for levels in 1..=8 {
            for (p, q) in [(1, 1), (2, 1), (3, 4), (4, 4)] {
                for (across, up) in
                    sets(columns).into_iter().flat_map(|a| sets(rows).map(|u| (a, u)))
                {
                    let plan = plan([columns, rows, levels, p, q, 2, across, up]);
                    most = most.max(expect_lengths(plan).1);
                    seen[refused(plan) as usize] += 1;
                }
            }
        }
    }
    assert!(seen.iter().all(|&often| often > 1000), "{seen:?}");
    assert_eq!(most, wallmirror::MAX_FUNCTIONS);
}

/// Each bit of each corner number alone.
#[test]
fn each_corner() {
    for (n, bit) in (1..=16).flat_map(|n| (0..32).map(move |bit| (n, bit))) {
        let number = if (1..n).contains(&bit) { 0 } else { 1 };
        for (p, q) in [(1, 1), (2, 3)] {
            for numbers in [[n, 2, 2, p, q, 0, 1 << bit, 0], [2, n, 2, p, q, 0, 0, 1 << bit]] {
                assert_eq!(refused(plan(numbers)), number, "{numbers:?}");
                expect_lengths(plan(numbers));
            }
        }
    }
}

/// Any numbers whatever, large ones among them, of which most are refused.
#[test]
fn plans_of_any_numbers() {
    let mut random = Random::new(811);
    let mut seen = [0; 3];
    for _ in 0..40_000 {
        let numbers = std::array::from_fn(|i| match random.below(if i < 6 { 40 } else { 6 }) {
            0 => random.bits() as u32,
            1 => random.pick(&[0, u32::MAX, 1 << 31, 32, 33]),
            _ if i < 6 => random.below([17, 17, 9, 5, 5, 9][i]) as u32,
            _ => (random.bits() as u32 & 0xffff) >> random.below(16) & !1,
        });
        let plan: Plan = plan::<8>(numbers);
        let (t, f) = expect_lengths(plan);
        seen[refused(plan) as usize] += 1;
        for _ in 0..3 {
            let number = random.bits() as u32 >> random.below(32);
            expect_cell(plan, number);
            expect_support(plan, number);
            expect_cell(plan, random.below(t + 2) as u32);
            expect_support(plan, random.below(f + 2) as u32);
        }
        if t < 200 {
            expect_level(plan, random.bits() as u32 >> random.below(32));
            expect_level(plan, random.below(9) as u32);
        }
    }
    assert!(seen.iter().all(|&often| often > 1000), "{seen:?}");
}

#[test]
fn plans_that_are_refused_have_nothing() {
    let mut plans = out_of_range(plan([3, 2, 3, 2, 1, 2, 2, 2]));
    plans.extend([plan([16, 16, 5, 1, 1, 0]), plan([1, 2, 8, 1, 1, 0])]);
    for plan in plans {
        assert_ne!(refused(plan), 0, "{plan:?}");
        let refusal = Refusal::from_number(refused(plan)).expect("a refusal");
        assert_eq!(Mesh::open(of_wrapper(plan)), Err(refusal), "{plan:?}");
        assert_eq!(Heights::of_plan(of_wrapper(plan)), Err(refusal), "{plan:?}");
        expect_places(plan);
    }
}

// ---- Places ----

#[test]
fn places_and_supports() {
    let mut random = Random::new(804);
    let mut cornered = 0;
    for degrees in (1..=4).flat_map(|across| (1..=4).map(move |up| (across, up))) {
        for most in [20, 100, 400, 400, 1500, 1500] {
            let plan = random_plan(&mut random, degrees, 0, most);
            cornered += usize::from(has_corners(plan));
            expect_places(plan);
        }
    }
    assert!(cornered > 30, "{cornered}");
}

/// The most levels, the most cells and the most functions that there may be.
#[test]
fn places_and_supports_of_the_largest() {
    for numbers in [
        [1, 1, 8, 4, 4, 2, 0, 0],
        [16, 16, 4, 1, 2, 0, 0, 0],
        [16, 16, 4, 4, 4, 2, all_corners(16), all_corners(16)],
        [16, 1, 6, 3, 4, 8, all_corners(16), 0],
        [1, 16, 6, 2, 3, 0, 0, 1 << 15 | 2],
    ] {
        expect_places(plan(numbers));
    }
}

/// Heights of a plan and of its mesh are one for each function, and indexed by it.
#[test]
fn heights_by_function() {
    let mut random = Random::new(812);
    for degrees in [(1, 1), (2, 1), (2, 2), (3, 4)] {
        let plan = random_plan(&mut random, degrees, 0, 200);
        let mesh = Mesh::open(of_wrapper(plan)).expect("a plan in range");
        let mut heights = Heights::of(&mesh);
        assert_eq!(Heights::of_plan(mesh.plan), Ok(heights.clone()));
        assert_eq!(heights.to_vec(), vec![0; plan.function_total()]);
        for function in 0..plan.function_total() as u32 {
            heights[Function(function)] = 3 * function as i32 + 1;
        }
        let numbers: Vec<i32> = (0..plan.function_total() as i32).map(|f| 3 * f + 1).collect();
        for (&number, function) in numbers.iter().zip(0..) {
            assert_eq!(heights[Function(function)], number, "{function} {plan:?}");
        }
        assert_eq!(Heights::from(numbers.clone()), heights);
        assert_eq!(Vec::from(heights), numbers);
    }
}
