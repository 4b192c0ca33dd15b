//! Inputs damaged in every way, singly and together, against the model; every refusal must occur for
//! every call that can give it.

use differential::{
    has_corners, plan, random_corners, random_plan, random_refined, Kind, Random, Tables,
};
use model::Plan;

/// How often each call (the four kinds, then open, check, count) answered each number.
struct Seen([[u32; 12]; 7]);

const OPEN: usize = 4;
const CHECK: usize = 5;
const COUNT: usize = 6;

impl Seen {
    fn expect_all(&self) {
        let expected = [
            ("refine cells", vec![1, 2, 3, 4, 5, 6, 7, 8, 9, 10, 11]),
            ("refine functions", vec![1, 2, 3, 4, 5, 6, 7, 8, 9, 10, 11]),
            ("coarsen cells", vec![1, 2, 3, 4, 5, 6, 7, 8, 10, 11]),
            ("coarsen functions", vec![1, 2, 3, 4, 5, 6, 7, 8, 10, 11]),
            ("open", vec![1, 2, 3]),
            ("check", vec![1, 2, 3, 4, 5, 6]),
            ("count", vec![1, 2, 3, 4, 5, 6]),
        ];
        for ((call, numbers), seen) in expected.into_iter().zip(self.0) {
            assert!(seen[0] > 0, "{call} was never accepted");
            for number in 1..=11 {
                let can = numbers.contains(&number);
                assert_eq!(seen[number] > 0, can, "{call}: refusal {number} seen {seen:?}");
            }
        }
    }
}

fn damage_plan(random: &mut Random, plan: &mut Plan) {
    let huge = random.bits() as u32 | 1 << 31;
    let beyond = |corners: u32, n: u32| {
        // The line before the first cell, the one behind the last, and what is none at all.
        vec![1, 1 << n, corners | 1, corners | 1 << n, corners | huge, u32::MAX]
    };
    let (number, values) = match random.below(9) {
        0 => (&mut plan.columns, vec![0, 17, huge]),
        1 => (&mut plan.rows, vec![0, 17, huge]),
        2 => (&mut plan.levels, vec![0, 9, 32, huge]),
        3 => (&mut plan.degree_across, vec![0, 5, huge]),
        4 => (&mut plan.degree_up, vec![0, 5, huge]),
        5 => (&mut plan.class, vec![1, 9, huge]),
        6 => {
            let values = beyond(plan.corners_across, plan.columns.min(31));
            (&mut plan.corners_across, values)
        }
        7 => {
            let values = beyond(plan.corners_up, plan.rows.min(31));
            (&mut plan.corners_up, values)
        }
        _ => {
            // In range, but with too many cells.
            (plan.columns, plan.rows, plan.levels) =
                random.pick(&[(16, 16, 5), (1, 2, 8), (16, 16, 8), (5, 1, 7), (17, 16, 5)]);
            return;
        }
    };
    *number = random.pick(&values);
}

fn damage_length(random: &mut Random, table: &mut Vec<u8>) {
    match random.below(4) {
        0 => table.clear(),
        1 => drop(table.pop()),
        2 => table.push(0),
        _ => table.resize(random.below(2 * table.len() + 2), 1),
    }
}

/// Other cell bytes: anything at all, or a cell refined or coarsened with no regard for the rest.
fn damage_cells(random: &mut Random, plan: Plan, cells: &mut [u8]) {
    let number = random.below(cells.len());
    if random.once_in(2) {
        cells[number] = random.pick(&[0, 1, 2, 3, 4, 127, 128, 255]);
        return;
    }
    let cell = plan.cell_at(number);
    if cell.level + 1 < plan.levels {
        let byte = random.pick(&[1, 2]);
        cells[number] = byte;
        for child in plan.children(cell) {
            cells[plan.cell_number(child)] = byte - 1;
        }
    }
}

/// Marks that the call takes, with repeats and in any order.
fn good_marks(random: &mut Random, tables: &Tables, kind: Kind) -> Vec<u32> {
    let markable = tables.markable(kind);
    if markable.is_empty() {
        return vec![];
    }
    let many = random.pick(&[0, 1, 1, 2, 3, 8, markable.len()]);
    (0..many).map(|_| random.pick(&markable)).collect()
}

fn damage_marks(random: &mut Random, tables: &Tables, kind: Kind, marks: &mut Vec<u32>) {
    let total = if kind.by_functions() { tables.functions.len() } else { tables.cells.len() };
    let total = total as u32;
    for _ in 0..random.below(3) + 1 {
        let bad = match random.below(4) {
            0 => random.pick(&[total, total + 1, u32::MAX, u32::MAX - 1]),
            1 => random.bits() as u32,
            // Of the last level, more often than not.
            2 => total - 1 - random.below(total as usize / 2 + 1) as u32,
            _ => random.below(total as usize) as u32,
        };
        marks.insert(random.below(marks.len() + 1), bad);
    }
}

/// Room for the lists: plenty, exactly enough, one too few, or none, each by itself.
fn rooms(random: &mut Random, tables: &Tables, kind: Kind, marks: &[u32]) -> (usize, usize) {
    let plenty = (tables.cells.len(), tables.functions.len());
    let (plan, cells, functions) = (tables.plan, &tables.cells, &tables.functions);
    let needed = match kind.of_model()(plan, cells, functions, marks, plenty.0, plenty.1) {
        Ok(change) => (change.cell_list.len(), change.function_list.len()),
        Err(_) => (0, 0),
    };
    let mut room = |plenty: usize, needed: usize| match random.below(8) {
        0 => 0,
        1 => needed.saturating_sub(1),
        2 | 3 => needed,
        4 => needed + 1,
        _ => plenty,
    };
    (room(plenty.0, needed.0), room(plenty.1, needed.1))
}

/// One mesh, perhaps damaged, given to every call.
fn round(random: &mut Random, plan: Plan, seen: &mut Seen) {
    let refined = random_refined(random, plan);
    let mesh = Tables::with_refined(plan, &refined);
    assert_eq!(mesh.check(), 0);
    for kind in Kind::ALL {
        let mut marks = good_marks(random, &mesh, kind);
        if random.once_in(3) {
            damage_marks(random, &mesh, kind, &mut marks);
        }
        let (cell_room, function_room) = rooms(random, &mesh, kind, &marks);
        let cell_list = random.numbers(cell_room);
        let function_list = random.numbers(function_room);
        let mut tables = mesh.clone();
        let damages = if random.once_in(2) { 0 } else { random.below(3) + 1 };
        for _ in 0..damages {
            match random.below(10) {
                0 => damage_plan(random, &mut tables.plan),
                1 => damage_length(random, &mut tables.cells),
                2 => damage_length(random, &mut tables.functions),
                3 | 4 if tables.cells.len() == mesh.cells.len() => {
                    damage_cells(random, plan, &mut tables.cells);
                    // Labels that fit, where that has a meaning, so that the cells alone are at fault.
                    if random.once_in(2) {
                        tables.functions = model::labels(plan, &tables.cells);
                    }
                }
                5 => {
                    // A class that the mesh was not made for.
                    tables.plan.class = random.pick(&[0, 2, 3, 4]);
                }
                // Corners that the tables were not made for. Where they are as many, the lengths
                // are still those of the plan.
                6 => tables.plan.corners_across = random_corners(random, plan.columns),
                7 => tables.plan.corners_up = random_corners(random, plan.rows),
                _ if !tables.functions.is_empty() => {
                    let number = random.below(tables.functions.len());
                    tables.functions[number] = random.pick(&[0, 1, 2, 3, 255]);
                }
                _ => {}
            }
        }
        let check = tables.check();
        seen.0[CHECK][check as usize] += 1;
        seen.0[COUNT][tables.count().number as usize] += 1;
        let open = tables.clone().open();
        seen.0[OPEN][open as usize] += 1;
        let outcome = tables.call(kind, &marks, &cell_list, &function_list);
        assert!(check == 0 || outcome.number == check);
        seen.0[kind as usize][outcome.number as usize] += 1;
    }
}

#[test]
fn every_refusal_of_every_call() {
    let mut seen = Seen([[0; 12]; 7]);
    let mut random = Random::new(1);
    let mut cornered = 0;
    for class in [0, 2, 3, 4, 5, 6, 7, 8] {
        for degree_across in 1..=4 {
            for degree_up in 1..=4 {
                for most in [30, 100, 100, 400, 1500] {
                    let plan = random_plan(&mut random, (degree_across, degree_up), class, most);
                    cornered += u32::from(has_corners(plan));
                    for _ in 0..6 {
                        round(&mut random, plan, &mut seen);
                    }
                }
            }
        }
    }
    seen.expect_all();
    assert!(cornered > 100, "{cornered}");
}

/// Every number of the plan just outside its range and far outside, everything else being in order.
#[test]
fn every_number_of_the_plan() {
    for (position, outside) in [
        (0, [0, 17, u32::MAX, 1 << 31]),
        (1, [0, 17, u32::MAX, 1 << 31]),
        (2, [0, 9, u32::MAX, 1 << 31]),
        (3, [0, 5, u32::MAX, 1 << 31]),
        (4, [0, 5, u32::MAX, 1 << 31]),
        (5, [1, 9, u32::MAX, 1 << 31]),
    ] {
        for value in outside {
            let mut numbers = [3, 1, 3, 1, 1, 2];
            let mut tables = Tables::opened(plan(numbers));
            numbers[position] = value;
            tables.plan = plan(numbers);
            all_refuse(tables, 1);
        }
    }
}

/// What every call answers where the plan is at fault.
fn all_refuse(tables: Tables, number: u32) {
    assert_eq!(tables.clone().open(), number);
    assert_eq!(tables.check(), number);
    assert_eq!(tables.count().number, number);
    for kind in Kind::ALL {
        assert_eq!(tables.clone().call(kind, &[99], &[], &[]).number, number);
    }
}

/// Every bit of both corner numbers, alone and beside good ones, on plans of every width: 1 for
/// those outside 1 to A-1 (or B-1). Of the others the tables of the plan are taken, and where the
/// degree is 1 they are those without corners.
#[test]
fn every_bit_of_the_corners() {
    for n in 1..=16u32 {
        for degree in [1, 2, 4] {
            let good =
                (2..n).fold(0, |good, bit| if bit % 3 == 0 { good | 1 << bit } else { good });
            for across in [true, false] {
                let with = |corners: u32| match across {
                    true => plan([n, 1, 2, degree, 1, 0, corners, 0]),
                    false => plan([1, n, 2, 1, degree, 2, 0, corners]),
                };
                let smooth = Tables::opened(with(0));
                let tables = Tables::opened(with(good));
                assert!(degree != 1 || tables.functions == smooth.functions);
                for bit in 0..32u32 {
                    let inside = (1..n).contains(&bit);
                    for plan in [with(1 << bit), with(good | 1 << bit)] {
                        for tables in [&smooth, &tables] {
                            let changed = Tables { plan, ..tables.clone() };
                            if inside {
                                let fits = changed.functions.len() == plan.function_total();
                                assert_eq!(changed.check(), if fits { 0 } else { 3 });
                            } else {
                                all_refuse(changed, 1);
                            }
                        }
                    }
                }
            }
        }
    }
}

/// A bit that is out of range is refused before too many cells are, and after nothing.
#[test]
fn corners_come_before_too_many_cells() {
    let tables = Tables::opened(plan([3, 1, 3, 2, 1, 2, 2, 0]));
    for (numbers, number) in [
        ([16, 16, 5, 1, 1, 0, 0, 0], 2),
        ([16, 16, 5, 1, 1, 0, 0xfffe, 0xfffe], 2),
        ([16, 16, 5, 1, 1, 0, 1 << 16, 0], 1),
        ([16, 16, 5, 1, 1, 0, 0, 1], 1),
        ([1, 2, 8, 4, 4, 2, 2, 0], 1),
        ([1, 2, 8, 4, 4, 2, 0, 2], 2),
        ([0, 0, 0, 0, 0, 0, 0, 0], 1),
        ([17, 1, 1, 1, 1, 0, 2, 0], 1),
        ([u32::MAX, 1, 1, 1, 1, 0, u32::MAX, 0], 1),
    ] {
        all_refuse(Tables { plan: plan(numbers), ..tables.clone() }, number);
    }
}

/// A corner moved to another line leaves the lengths and not what the functions are. Four columns
/// of degree 2; functions cover the columns 0, 0-1, 0-1, 1-2, 2-3, 2-3, 3 with the corner before
/// column 2, and 0, 0, 0-1, 1-2, 1-3, 2-3, 3 with one before column 1.
#[test]
fn a_corner_moved() {
    let opened = Tables::opened(plan([4, 1, 3, 2, 1, 2, 4, 0]));
    let moved = |tables: &Tables, corners_across: u32| {
        let plan = Plan { corners_across, ..tables.plan };
        Tables { plan, ..tables.clone() }.check()
    };
    let mut tables = opened.clone();
    // Cell 0 refined: function 0 of each row is deactivated, and not function 1.
    assert_eq!(tables.call_with_room(Kind::RefineCells, &[0]).functions, [0, 7]);
    for (corners, number) in [(4, 0), (2, 6), (8, 0), (0, 3), (6, 3), (1, 1), (16, 1)] {
        assert_eq!(moved(&tables, corners), number, "{corners}");
        assert!(number == 1 || number == 3 || moved(&opened, corners) == 0);
    }
    // The first child of cell 1 is in column 2 of level 1, which has common functions with columns 0 to
    // 3. It needs cells 0 and 1. Where the corner is before column 1, these are columns 1 to 4, and it
    // needs cell 2 too.
    let child = plan([4, 1, 3, 2, 1, 2]).cell_number(model::Cell { level: 1, row: 0, column: 2 });
    tables.call_with_room(Kind::RefineCells, &[1]);
    let outcome = tables.call_with_room(Kind::RefineCells, &[child as u32]);
    assert_eq!(outcome.cells, [child as u32]);
    assert_eq!(moved(&tables, 2), 5);
}

/// Marks as many as one likes, in an order of their own, mean the same as each once.
#[test]
fn repeats_and_order() {
    let mut random = Random::new(2);
    for _ in 0..300 {
        let (p, q) = (random.below(4) as u32 + 1, random.below(4) as u32 + 1);
        let class = random.pick(&[0, 2, 3, 4]);
        let plan = random_plan(&mut random, (p, q), class, 400);
        let refined = random_refined(&mut random, plan);
        let mesh = Tables::with_refined(plan, &refined);
        for kind in Kind::ALL {
            let mut marks = good_marks(&mut random, &mesh, kind);
            marks.sort();
            marks.dedup();
            let mut once = mesh.clone();
            let expected = once.call_with_room(kind, &marks);
            for _ in 0..random.below(3) + 1 {
                marks.extend(marks.clone().into_iter().filter(|_| random.once_in(2)));
            }
            random.shuffle(&mut marks);
            let mut often = mesh.clone();
            assert_eq!(often.call_with_room(kind, &marks), expected);
            assert_eq!(often, once);
        }
    }
}

#[test]
fn a_million_marks() {
    let mut random = Random::new(3);
    let mut tables = Tables::opened(plan([8, 8, 3, 2, 2, 2]));
    for kind in Kind::ALL {
        let markable = tables.markable(kind);
        let mut marks: Vec<u32> = (0..1_000_000).map(|_| random.pick(&markable)).collect();
        assert_eq!(tables.clone().call_with_room(kind, &marks).number, 0);
        marks.push(u32::MAX);
        assert_eq!(tables.clone().call_with_room(kind, &marks).number, 7);
        tables.call_with_room(Kind::RefineCells, &tables.markable(Kind::RefineCells)[..20]);
    }
}

/// A null pointer with length 0 is an empty slice.
#[test]
fn null_pointers_of_length_0() {
    use std::ptr::{null, null_mut};
    use wallmirror::ffi;
    let fresh = Tables::opened(plan([3, 1, 3, 1, 1, 2]));
    let raw = differential::raw(fresh.plan);
    // SAFETY: every length is 0, or that of the vector.
    unsafe {
        assert_eq!(ffi::wallmirror_open(raw, null_mut(), 0, null_mut(), 0), 3);
        assert_eq!(ffi::wallmirror_check(raw, null(), 0, null(), 0), 3);
        let refused = ffi::Count { number: 3, ..ffi::Count::default() };
        assert_eq!(ffi::wallmirror_count(raw, null(), 0, null(), 0), refused);
        for kind in Kind::ALL {
            let call = kind.of_library();
            let (cells, functions) = (null_mut(), null_mut());
            let refused = ffi::Answer { number: 3, cells: 0, functions: 0 };
            let answer = call(raw, cells, 0, functions, 0, null(), 0, null_mut(), 0, null_mut(), 0);
            assert_eq!(answer, refused);

            let mut tables = fresh.clone();
            let (cells, functions) = (&mut tables.cells, &mut tables.functions);
            let answer = call(
                raw,
                cells.as_mut_ptr(),
                cells.len(),
                functions.as_mut_ptr(),
                functions.len(),
                null(),
                0,
                null_mut(),
                0,
                null_mut(),
                0,
            );
            assert_eq!(answer, ffi::Answer::default());
            assert_eq!(tables, fresh);
        }
    }
}
