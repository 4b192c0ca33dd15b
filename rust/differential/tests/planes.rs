//! Planes: the same runs in bytes and on planes, taken back; damaged planes; every small one; and the
//! largest meshes.

use differential::order::Lendable;
use differential::planes::{random_plan_at_a_word, shapes_with_rest, Both, Call, Input, OnPlanes};
use differential::scenario::{towards_the_first_cell, wholly};
use differential::seen::Seen;
use differential::{
    all_corners, all_meshes, has_corners, out_of_range, plan, random_corners, random_covered,
    random_lists, random_marks, random_plan, random_refined, random_start, undo_by_cells,
    undo_by_functions, Changing, Kind, Log, Random, Tables,
};
use model::planes::{Planes, BITS};
use model::Plan;
use Kind::*;

// ---- Runs ----

/// Words of any kind: empty, full, or garbage.
fn random_words(random: &mut Random, many: usize) -> Vec<u64> {
    let kind = random.below(4);
    let word = |random: &mut Random| match kind {
        0 => 0,
        1 => u64::MAX,
        _ => random.bits(),
    };
    (0..many).map(|_| word(random)).collect()
}

/// Garbage for the plan's planes and functions, in which a mesh can be opened.
fn garbage(random: &mut Random, plan: Plan) -> OnPlanes {
    let words = plan.cell_total().div_ceil(BITS);
    let present = random_words(random, words);
    let refined = random_words(random, words);
    let functions = (0..plan.function_total()).map(|_| random.bits() as u8).collect();
    OnPlanes { plan, planes: Planes { present, refined }, functions }
}

/// One call of a run, with lists of any length.
fn step(random: &mut Random, mesh: &mut Both, kind: Kind, log: &mut Log) {
    let marks = random_marks(random, &mesh.bytes, kind);
    let (cell_list, function_list) = random_lists(random, &mesh.bytes);
    log.push((kind, mesh.call(kind, &marks, &cell_list, &function_list)));
}

/// What came up in runs. Runs that change nothing would show nothing.
#[derive(Debug, Default)]
struct Came {
    accepted: u32,
    refused: u32,
    changed: usize,
    cornered: u32,
    /// How many cells the last word of plans with more than one level has, or 0 where it is full.
    in_last_word: Vec<usize>,
}

impl Came {
    fn plan(&mut self, plan: Plan) {
        self.cornered += u32::from(has_corners(plan));
        if plan.levels > 1 {
            self.in_last_word.push(plan.cell_total() % BITS);
        }
    }

    fn log(&mut self, log: &Log) {
        for (_, outcome) in log {
            *if outcome.number == 0 { &mut self.accepted } else { &mut self.refused } += 1;
            self.changed += outcome.cells.len();
        }
    }

    fn expect_enough(&self) {
        assert!(self.accepted > 300 && self.refused > 50 && self.changed > 1000, "{self:?}");
        assert!(self.cornered > 5, "{self:?}");
        assert!([0, 1, 63].iter().all(|rest| self.in_last_word.contains(rest)), "{self:?}");
    }
}

/// Runs of all four calls, refused ones among them. The planes alone are then taken back by their
/// own lists, and end as they began.
fn runs_undone_by_cells(class: u32) {
    let mut random = Random::new(1100 + u64::from(class));
    let mut came = Came::default();
    for degrees in (1..=4).flat_map(|across| (1..=4).map(move |up| (across, up))) {
        let most = random.pick(&[100, 400, 1500]);
        let others = random_plan(&mut random, degrees, class, most);
        for plan in [others, random_plan_at_a_word(&mut random, class, 1500)] {
            came.plan(plan);
            let first = Both::of(&random_start(&mut random, plan));
            let mut mesh = first.clone();
            let mut log = Log::new();
            for _ in 0..random.below(25) + 10 {
                let kind = random.pick(&Kind::MOSTLY_REFINING);
                step(&mut random, &mut mesh, kind, &mut log);
                if random.once_in(8) {
                    assert_eq!(mesh.look(), 0);
                }
            }
            came.log(&log);
            let spare = random.pick(&[0, 3]);
            undo_by_cells(&mut mesh.planes, &log, spare, &mut random);
            assert_eq!(mesh.planes, first.planes);
        }
    }
    came.expect_enough();
}

macro_rules! by_cells {
    ($($name:ident $class:literal)*) => {
        $(#[test]
        fn $name() {
            runs_undone_by_cells($class);
        })*
    };
}

by_cells! {
    class_0_undone_by_cells 0
    class_2_undone_by_cells 2
    class_3_undone_by_cells 3
    class_4_undone_by_cells 4
    class_5_undone_by_cells 5
    class_6_undone_by_cells 6
    class_7_undone_by_cells 7
    class_8_undone_by_cells 8
}

/// Runs of refinements by functions in class 0, from meshes in which each refined cell lies in the
/// support of a deactivated function of its own level, undone by functions and by cells.
#[test]
fn class_0_undone_by_functions() {
    let mut random = Random::new(1110);
    let mut came = Came::default();
    let mut started = 0;
    for degrees in (1..=4).flat_map(|across| (1..=4).map(move |up| (across, up))) {
        for most in [100, 400, 1500] {
            let others = random_plan(&mut random, degrees, 0, most);
            for plan in [others, random_plan_at_a_word(&mut random, 0, 1500)] {
                came.plan(plan);
                let refined = random_covered(&mut random, plan);
                started += refined.len();
                let first = Both::of(&Tables::with_refined(plan, &refined));
                let mut mesh = first.clone();
                let mut log = Log::new();
                for _ in 0..random.below(10) + 5 {
                    step(&mut random, &mut mesh, RefineFunctions, &mut log);
                }
                came.log(&log);
                let mut planes = mesh.planes.clone();
                let spare = random.pick(&[0, 5]);
                undo_by_functions(&mut planes, &log, spare, &mut random);
                assert_eq!(planes, first.planes);
                undo_by_cells(&mut mesh.planes, &log, 0, &mut random);
                assert_eq!(mesh.planes, first.planes);
            }
        }
    }
    came.expect_enough();
    assert!(started > 1000, "{started}");
}

/// A run that holds its mesh in bytes and on planes by turns.
#[test]
fn by_turns() {
    let mut random = Random::new(1111);
    let mut changed = 0;
    for turn in 0..60 {
        let class = [0, 2, 3][turn % 3];
        let plan = random_plan_at_a_word(&mut random, class, 400);
        let first = random_start(&mut random, plan);
        let mut tables = first.clone();
        let mut log = Log::new();
        for _ in 0..12 {
            let kind = random.pick(&Kind::ALL);
            let marks = random_marks(&mut random, &tables, kind);
            if random.once_in(2) {
                log.push((kind, tables.call_with_room(kind, &marks)));
                continue;
            }
            let mut planes = OnPlanes { functions: tables.functions, ..garbage(&mut random, plan) };
            assert_eq!(planes.from_cells(&tables.cells), 0);
            let lists = (random.numbers(tables.cells.len()), random.numbers(plan.function_total()));
            log.push((kind, planes.call(kind, &marks, &lists.0, &lists.1)));
            assert_eq!(planes.to_cells(&mut tables.cells), 0);
            tables.functions = planes.functions;
        }
        changed += log.iter().map(|(_, outcome)| outcome.cells.len()).sum::<usize>();
        undo_by_cells(&mut tables, &log, 1, &mut random);
        assert_eq!(tables, first);
    }
    assert!(changed > 200, "{changed}");
}

// ---- Any words ----

/// Opening in garbage leaves what opening in bytes does, with no spare bit set.
#[test]
fn opened_in_garbage() {
    let mut random = Random::new(1120);
    for rest in 0..BITS {
        for (columns, rows, levels) in shapes_with_rest(rest, 1500).into_iter().take(12) {
            let degrees = (random.below(4) as u32 + 1, random.below(4) as u32 + 1);
            let corners = random_corners(&mut random, columns);
            let class = random.pick(&[0, 2, 3]);
            let plan = plan([columns, rows, levels, degrees.0, degrees.1, class, corners, 0]);
            let mut mesh = garbage(&mut random, plan);
            assert_eq!(mesh.open(), 0);
            assert_eq!(mesh, OnPlanes::of(&Tables::opened(plan)));
            assert_eq!(Both { bytes: Tables::opened(plan), planes: mesh }.look(), 0);
        }
    }
}

/// A word fewer, a word more, or none.
fn damage_length(random: &mut Random, plane: &mut Vec<u64>) {
    match random.below(5) {
        0 | 1 => plane.truncate(plane.len().saturating_sub(1)),
        2 | 3 => plane.push(random.pick(&[0, 1, u64::MAX])),
        _ => plane.clear(),
    }
}

/// Puts one thing wrong.
fn damage(random: &mut Random, plan: Plan, input: &mut Input) {
    let Input { mesh, cells, .. } = input;
    let total = plan.cell_total();
    let Planes { present, refined } = &mut mesh.planes;
    let words = present.len().min(refined.len());
    let bit = |random: &mut Random| random.below(words * BITS);
    match random.below(17) {
        0 => damage_length(random, present),
        1 => damage_length(random, refined),
        2 => {
            damage_length(random, present);
            damage_length(random, refined);
        }
        3 => mesh.functions.truncate(random.below(mesh.functions.len() + 1)),
        4 => mesh.functions.push(0),
        5 => mesh.plan = random.pick(&out_of_range(plan)),
        6 => {
            let Plan { columns, rows, levels, .. } = &mut mesh.plan;
            (*columns, *rows, *levels) = random.pick(&[(16, 16, 5), (1, 2, 8), (5, 1, 7)]);
        }
        7 => mesh.plan.class = random.pick(&[0, 2, 2, 3]),
        8 if !mesh.functions.is_empty() => {
            let function = random.below(mesh.functions.len());
            mesh.functions[function] = random.pick(&[0, 1, 2, 3, 255]);
        }
        9 if words > 0 && total < words * BITS => {
            let spare = total + random.below(words * BITS - total);
            let (word, bit) = (spare / BITS, 1 << (spare % BITS));
            let which = random.below(3);
            present[word] |= if which != 0 { bit } else { 0 };
            refined[word] |= if which != 1 { bit } else { 0 };
        }
        10 if words > 0 => {
            // Refined, present or not.
            let bit = bit(random);
            refined[bit / BITS] |= 1 << (bit % BITS);
        }
        11 if words > 0 => {
            let plane = if random.once_in(2) { present } else { refined };
            for _ in 0..random.below(3) + 1 {
                let bit = bit(random);
                plane[bit / BITS] ^= 1 << (bit % BITS);
            }
        }
        12 if words > 0 => {
            // Planes in order that are hardly a mesh.
            for (p, r) in present.iter_mut().zip(refined.iter_mut()) {
                (*p, *r) = (random.bits(), random.bits());
                *r &= *p;
            }
        }
        13 if words == plan.cell_total().div_ceil(BITS) => {
            // A cell refined with no regard for its neighbourhood.
            let cell = plan.cell_at(random.below(total));
            if cell.level + 1 < plan.levels {
                let number = plan.cell_number(cell);
                refined[number / BITS] |= 1 << (number % BITS);
                for child in plan.children(cell).map(|child| plan.cell_number(child)) {
                    present[child / BITS] |= 1 << (child % BITS);
                }
            }
        }
        14 => *present = random_words(random, present.len()),
        15 => *refined = random_words(random, refined.len()),
        _ if !cells.is_empty() => match random.below(3) {
            0 => cells.truncate(cells.len() - 1),
            1 => cells.push(0),
            _ => {
                let cell = random.below(cells.len());
                cells[cell] = random.pick(&[0, 1, 2, 3, 4, 128, 255]);
            }
        },
        _ => {}
    }
}

/// The refusals that a call can give.
fn refusals(call: Call) -> Vec<u32> {
    match call {
        Call::Open => vec![1, 2, 3],
        Call::Check | Call::Count => vec![1, 2, 3, 4, 5, 6],
        Call::Change(kind) if kind.refines() => (1..=11).collect(),
        Call::Change(_) => vec![1, 2, 3, 4, 5, 6, 7, 8, 10, 11],
        Call::FromCells | Call::ToCells => vec![1, 2, 3, 4],
    }
}

/// Every call on planes, plans, functions, marks and lists with up to two things wrong: a refusal
/// changes nothing, and where the planes are in order the number is that of the call on their bytes.
#[test]
fn damaged_planes() {
    let mut random = Random::new(1121);
    let mut seen = Seen::new(&Call::ALL);
    let mut in_order = 0;
    for turn in 0..1600 {
        let class = [0, 2, 3, 4][turn % 4];
        let degrees = (random.below(4) as u32 + 1, random.below(4) as u32 + 1);
        let plan = match random.once_in(2) {
            true => random_plan(&mut random, degrees, class, 200),
            false => random_plan_at_a_word(&mut random, class, 400),
        };
        let refined = random_refined(&mut random, plan);
        let tables = Tables::with_refined(plan, &refined);
        for call in Call::ALL {
            let mut input = Input::new(&tables);
            if let Call::Change(kind) = call {
                input.marks = random_marks(&mut random, &tables, kind);
                if random.once_in(6) {
                    input.marks.push(u32::MAX);
                }
                if random.once_in(6) {
                    input.cell_list.truncate(random.below(2));
                }
                if random.once_in(6) {
                    input.function_list.truncate(random.below(3));
                }
            }
            for _ in 0..random.below(3) {
                damage(&mut random, plan, &mut input);
            }
            let before = input.clone();
            let outcome = input.make(call);
            seen.count(call, outcome.number);
            assert!(outcome.number == 0 || input == before, "{call:?}: {}", outcome.number);
            if random.once_in(20) {
                before.expect_on_pages(call, &outcome, &input);
            }
            if let Some(bytes) = before.mesh.tables_in_order() {
                in_order += 1;
                expect_as_in_bytes(call, &before, &bytes, outcome.number);
            }
        }
    }
    seen.expect_all(refusals);
    assert!(in_order > 5000, "{in_order}");
}

/// The call on the bytes that the planes hold answers the same number.
fn expect_as_in_bytes(call: Call, input: &Input, bytes: &Tables, number: u32) {
    let mut bytes = bytes.clone();
    let of_bytes = match call {
        Call::Open => bytes.open(),
        Call::Check => bytes.check(),
        Call::Count => bytes.count().number,
        Call::Change(kind) => {
            bytes.call(kind, &input.marks, &input.cell_list, &input.function_list).number
        }
        Call::FromCells | Call::ToCells => return,
    };
    assert_eq!(of_bytes, number, "{call:?}");
}

// ---- All of them ----

/// Both planes of every content of six bits, of which one is spare, on a plan of five cells; with the
/// labels of the cells where they are in order, and all calls with a mark.
#[test]
fn every_small_plane() {
    let mut seen = Seen::new(&Call::ALL);
    for numbers in [[1, 1, 2, 1, 1, 0], [1, 1, 2, 2, 3, 2]] {
        let opened = Input::new(&Tables::opened(plan(numbers)));
        for (present, refined) in (0..64).flat_map(|p| (0..64).map(move |r| (p, r))) {
            let mut input = opened.clone();
            input.mesh.planes = Planes { present: vec![present], refined: vec![refined] };
            if let Some(tables) = input.mesh.tables_in_order() {
                input.mesh.functions = model::labels(tables.plan, &tables.cells);
                assert_eq!(Both::of(&input.mesh.tables()).look(), input.mesh.check());
            }
            input.marks = vec![0];
            for call in Call::ALL {
                seen.count(call, input.clone().make(call).number);
            }
        }
    }
    seen.expect(Call::ToCells, &[0, 4]);
    // 3^5 of each plan are in order, and two of these are a mesh.
    assert_eq!(seen.of(Call::ToCells)[0], 2 * 243);
    assert_eq!(seen.of(Call::Check)[0], 2 * 2);
    assert_eq!(seen.of(Call::Check)[4], 2 * (64 * 64 - 2));
    assert_eq!(seen.of(Call::Open)[0], 2 * 64 * 64);
}

/// Every table of five bytes 0 to 3 as planes and back, and every byte for one cell around the end of
/// a word.
#[test]
fn every_byte() {
    let mut mesh = OnPlanes::of(&Tables::opened(plan([1, 1, 2, 1, 1, 0])));
    let mut accepted = 0;
    for code in 0..4u32.pow(5) {
        let cells: Vec<u8> = (0..5).map(|cell| (code >> (2 * cell) & 3) as u8).collect();
        let (before, number) = (mesh.clone(), mesh.from_cells(&cells));
        if cells.contains(&3) {
            assert_eq!((number, &mesh), (4, &before));
            continue;
        }
        let mut again = vec![7; 5];
        assert_eq!((number, mesh.to_cells(&mut again)), (0, 0));
        assert_eq!(again, cells);
        accepted += 1;
    }
    assert_eq!(accepted, 243);
    let mut random = Random::new(1122);
    for numbers in [[3, 1, 3, 1, 1, 0], [16, 4, 1, 1, 1, 0], [13, 1, 2, 1, 1, 0]] {
        let plan = plan(numbers);
        let mut mesh = garbage(&mut random, plan);
        let cells: Vec<u8> = (0..plan.cell_total()).map(|_| random.below(3) as u8).collect();
        for cell in [0, 1, 62, 63, 64] {
            for byte in (0..=255).filter(|_| cell < cells.len()) {
                let mut cells = cells.clone();
                cells[cell] = byte;
                assert_eq!(mesh.from_cells(&cells), if byte > 2 { 4 } else { 0 });
            }
        }
    }
}

/// Every call with every mark on every mesh of small plans, and on a sample of the meshes of others,
/// each so many; one of these has a cell in the second word.
#[test]
fn every_mark_on_small_meshes() {
    let mut calls = 0;
    for (numbers, every) in [
        ([1, 1, 3, 2, 1, 2, 0, 0], 1),
        ([3, 1, 2, 3, 1, 0, 6, 0], 1),
        ([2, 1, 3, 1, 1, 2, 0, 0], 5),
        ([13, 1, 2, 1, 2, 0, 0, 0], 400),
    ] {
        let plan = plan(numbers);
        for refined in all_meshes(plan).iter().step_by(every) {
            let mesh = Both::of(&Tables::with_refined(plan, refined));
            if mesh.look() == 5 {
                continue;
            }
            for kind in Kind::ALL {
                let Tables { cells, functions, .. } = &mesh.bytes;
                let total = if kind.by_functions() { functions.len() } else { cells.len() };
                for mark in 0..=total as u32 {
                    mesh.clone().call_with_room(kind, &[mark]);
                    calls += 1;
                }
            }
        }
    }
    assert!(calls > 10_000, "{calls}");
}

// ---- The largest ----

/// Everything refined level by level on planes, and taken back: as many cells as there may be, and as
/// many functions.
#[test]
fn the_largest_meshes() {
    let mut random = Random::new(1130);
    let corners = all_corners(16);
    for (numbers, kind, words) in [
        ([1, 1, 8, 4, 4, 2, 0, 0], RefineCells, 342),
        ([1, 1, 8, 3, 3, 0, 0, 0], RefineFunctions, 342),
        ([16, 16, 4, 4, 4, 2, corners, corners], RefineCells, 340),
        ([3, 1, 7, 2, 3, 3, 0, 0], RefineCells, 256),
    ] {
        let plan = plan(numbers);
        let first = Both::of(&Tables::opened(plan));
        assert_eq!(first.planes.planes.present.len(), words);
        let mut mesh = first.clone();
        let mut log = Log::new();
        for _ in 1..plan.levels {
            let mut marks = mesh.bytes.markable(kind);
            random.shuffle(&mut marks);
            log.push((kind, mesh.call_with_room(kind, &marks)));
        }
        assert_eq!(mesh.look(), 0);
        // Every cell is there, and those of the last level are active.
        let total = plan.cell_total();
        assert_eq!(mesh.planes.planes, Planes::of(&mesh.bytes.cells));
        let ones = |plane: &[u64]| plane.iter().map(|word| word.count_ones()).sum::<u32>();
        let refined = total as u32 - mesh.bytes.count().active_cells;
        assert_eq!(ones(&mesh.planes.planes.present), total as u32);
        assert_eq!(ones(&mesh.planes.planes.refined), refined);
        let mut planes = mesh.planes.clone();
        undo_by_cells(&mut planes, &log, 0, &mut random);
        assert_eq!(planes, first.planes);
        if kind == RefineFunctions {
            undo_by_functions(&mut mesh.planes, &log, 1, &mut random);
            assert_eq!(mesh.planes, first.planes);
        }
    }
}

/// All four calls on meshes near the largest, with every mark that they take.
#[test]
fn near_the_largest() {
    let corners = all_corners(16);
    for scenario in [
        wholly(plan([1, 1, 8, 4, 4, 2])),
        wholly(plan([16, 16, 4, 4, 4, 0, corners, corners])),
        towards_the_first_cell(plan([16, 16, 4, 4, 4, 2])),
        towards_the_first_cell(plan([16, 1, 6, 4, 4, 2, corners, 0])),
    ] {
        for kind in Kind::ALL {
            let before = scenario.before(kind);
            let mut mesh = Both::of(before);
            let marks = before.markable(kind);
            let outcome = mesh.call_with_room(kind, &marks);
            assert_eq!(outcome.number, 0, "{scenario}");
            let back = mesh.planes.call(
                kind.opposite(),
                &outcome.cells,
                &vec![7; outcome.cells.len()],
                &vec![7; outcome.functions.len()],
            );
            assert_eq!(back, outcome, "{scenario}");
            assert!(mesh.planes == OnPlanes::of(before), "{scenario}");
        }
    }
}
