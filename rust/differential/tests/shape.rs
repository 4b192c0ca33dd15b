//! Refining with heights: the surface keeps its shape. Heights worked by hand, every single mark of
//! every small mesh, random runs with coarsening between, the limits of carried heights, every
//! refusal and their order, long runs, the largest meshes and the undo.
//!
//! Every call is held to the model, heights included, and to the library's own call without heights:
//! answer, tables and lists are the same. Heights of the surface before and after are the library's
//! alone, and the same in every bit.

use differential::surface::{
    damage, groups, heights_with, labelled, most, points_in_steps, random_heights, random_points,
    with_heights, worked_heights, worked_mesh, Fill, Kinds, DAMAGES, DEGREES,
};
use differential::{
    all_admissible, all_corners, every_corners, has_corners, of_wrapper, plan, random_refined, raw,
    undo_by_cells, Kind, Log, Outcome, Random, Tables,
};
use model::height::{far_edges, Fraction};
use model::shape::carried;
use model::{Plan, ACTIVE, DEACTIVATED, PASSIVE};
use std::collections::BTreeMap;
use wallmirror::{ffi, Cell, Function};
use Kind::*;

/// Refusals that the call without heights has not, but for 3.
const OF_HEIGHTS: [u32; 3] = [14, 15, 17];

/// What a call leaves: number, both tables, and both lists with what stands past their lengths.
type Left = (u32, Vec<u8>, Vec<u8>, Vec<u32>, Vec<u32>);

/// The library's call without heights.
fn without_heights(tables: &Tables, kind: Kind, marks: &[u32], lists: (&[u32], &[u32])) -> Left {
    let (mut cells, mut functions) = (tables.cells.clone(), tables.functions.clone());
    let (mut cell_list, mut function_list) = (lists.0.to_vec(), lists.1.to_vec());
    // SAFETY: separate vectors of these lengths.
    let answer = unsafe {
        kind.of_library()(
            raw(tables.plan),
            cells.as_mut_ptr(),
            cells.len(),
            functions.as_mut_ptr(),
            functions.len(),
            marks.as_ptr(),
            marks.len(),
            cell_list.as_mut_ptr(),
            cell_list.len(),
            function_list.as_mut_ptr(),
            function_list.len(),
        )
    };
    (answer.number, cells, functions, cell_list, function_list)
}

/// A mesh with heights.
#[derive(Clone)]
struct Wall {
    tables: Tables,
    heights: Vec<i32>,
}

impl Wall {
    fn opened(random: &mut Random, plan: Plan, fill: Fill) -> Wall {
        let tables = Tables::opened(plan);
        let heights = random_heights(random, &tables, fill);
        Wall { tables, heights }
    }

    fn at(&self, across: u32, up: u32) -> Result<u64, u32> {
        self.tables.answered_height(&self.heights, across, up).map(f64::to_bits)
    }

    /// Refines, sees that all is as the model has it and, but for the heights, as without heights,
    /// that the lists past their lengths are as they were (which `Tables` does), and that functions
    /// that are not active have 0 then.
    fn refine(&mut self, kind: Kind, marks: &[u32], lists: (&[u32], &[u32])) -> Outcome {
        let left = without_heights(&self.tables, kind, marks, lists);
        let Wall { tables, heights } = self;
        let outcome = tables.refine_with_heights(kind, heights, marks, lists.0, lists.1);
        let of_heights = OF_HEIGHTS.contains(&outcome.number)
            || outcome.number == 3 && heights.len() != tables.functions.len();
        if !of_heights {
            assert_eq!(outcome.number, left.0, "{kind:?} {:?}", tables.plan);
        } else if outcome.number == 17 {
            assert_eq!(left.0, 0, "17 is last: {kind:?} {:?}", tables.plan);
        }
        if outcome.number == 0 {
            assert!((&tables.cells, &tables.functions) == (&left.1, &left.2), "{:?}", tables.plan);
            assert_eq!(outcome.cells, left.3[..outcome.cells.len()]);
            assert_eq!(outcome.functions, left.4[..outcome.functions.len()]);
            let inactive = heights.iter().zip(&tables.functions).filter(|(_, &b)| b != ACTIVE);
            assert!(inactive.clone().all(|(&height, _)| height == 0), "{:?}", tables.plan);
        }
        outcome
    }

    /// The same with lists of T and F entries.
    fn refine_with_room(&mut self, kind: Kind, marks: &[u32]) -> Outcome {
        let cell_list = vec![0xdead_beef; self.tables.cells.len()];
        let function_list = vec![0xfeed_f00d; self.tables.functions.len()];
        self.refine(kind, marks, (&cell_list, &function_list))
    }

    /// Both surfaces are the same at these points, and neither has points beyond.
    fn expect_same_shape(&self, before: &Wall, points: &[(u32, u32)]) {
        for &(across, up) in points {
            let (is, was) = (self.at(across, up), before.at(across, up));
            assert!(is.is_ok(), "{:?} {across}, {up}", self.tables.plan);
            assert_eq!(is, was, "{:?} {across}, {up}", self.tables.plan);
        }
        let (far_across, far_up) = far_edges(self.tables.plan);
        for (across, up) in [(far_across + 1, 0), (far_across, far_up + 1), (u32::MAX, u32::MAX)] {
            assert_eq!((self.at(across, up), before.at(across, up)), (Err(15), Err(15)));
        }
    }

    /// Whatever stands there for functions that are not active.
    fn spoil(&mut self, random: &mut Random) {
        let any = random.once_in(2);
        for (height, _) in self.heights.iter_mut().zip(&self.tables.functions).filter(|p| *p.1 != 1)
        {
            let extreme = random.pick(&[i32::MIN, i32::MAX, 65_537, -1]);
            *height = if any { random.bits() as i32 } else { extreme };
        }
    }
}

/// Marks that the call takes: the finest ones more often than not, so that many levels come together.
fn random_marks(random: &mut Random, tables: &Tables, kind: Kind) -> Vec<u32> {
    let markable = tables.markable(kind);
    let from = if random.once_in(3) { 0 } else { markable.len() * 2 / 3 };
    match &markable[from..] {
        [] => vec![],
        some => (0..random.pick(&[1, 1, 2, 6, 30, 200])).map(|_| random.pick(some)).collect(),
    }
}

// ---- Worked by hand ----

/// A plan, its refined cells, functions and their heights where these are not 0, the marked cells,
/// and the functions and their heights afterwards where these are not 0.
const WORKED: [[&str; 5]; 12] = [
    // One cell of degree 1, refined: 16 sixteenths in the corner, 8 beside it, 4 in the middle.
    ["1 1 2 1 1 0", "", "0 1, 3 -2", "0", "4 16, 5 8, 7 8, 8 -4, 9 -16, 11 -16, 12 -32"],
    // Nothing is marked: active heights stay, the others become 0. Function 4 is of level 1.
    ["1 1 2 1 1 0", "", "0 1, 3 -2, 4 77", "", "0 1, 3 -2"],
    // The header's example: functions 1 and 9, then 1 is passed to 9, 10, 11 and by half to 16, 17, 18.
    ["3 1 3 1 1 2", "0", "1 10, 9 8", "1", "9 88, 10 160, 11 80, 16 40, 17 80, 18 40"],
    // The same with another height for 0, which is deactivated already, and for 10, which is passive.
    [
        "3 1 3 1 1 2",
        "0",
        "0 9999, 1 10, 9 8, 10 -9999",
        "1",
        "9 88, 10 160, 11 80, 16 40, 17 80, 18 40",
    ],
    // One cell of degree 2: the function in the middle is 1/2 and 1/2 of two, across and up.
    ["1 1 2 2 2 0", "", "4 3", "0", "14 12, 15 12, 18 12, 19 12"],
    // Three cells of degree 2 across: function 2 has knots 0 1 2 3 and is 1/4 3/4 3/4 1/4 of four.
    ["3 1 2 2 1 0", "", "2 1", "0 1 2", "12 4, 13 12, 14 12, 15 4, 20 2, 21 6, 22 6, 23 2"],
    // The end: function 0 is 1 and 1/2 of two. It alone is deactivated; 1 and 2 keep their heights.
    ["3 1 2 2 1 0", "", "0 1, 1 100, 2 50", "0", "1 100, 2 50, 10 16, 11 8, 18 8, 19 4"],
    // Function 1 has knots 0 0 1 2 and is 1/2 3/4 1/4 of three.
    ["3 1 2 2 1 0", "", "1 -2", "0 1", "11 -16, 12 -24, 13 -8, 19 -8, 20 -12, 21 -4"],
    // A corner before column 1: function 2 has knots 0 1 1 2 and is 1/2 1 1/2 of three.
    ["3 1 2 2 1 0 2 0", "", "2 1", "0 1", "14 8, 15 16, 16 8, 23 4, 24 8, 25 4"],
    // The same up, with two functions to a row of level 0 and three to one of level 1.
    ["1 3 2 1 2 0 0 2", "", "4 1", "0 1", "18 8, 19 4, 21 16, 22 8, 24 8, 25 4"],
    // Through children that are deactivated already: all of level 1 in cell 0 is refined, function 1
    // passes 32 and 16 to functions 7 and 12, and these pass them on.
    [
        "2 1 3 1 1 0",
        "0 2 3 6 7",
        "1 4, 7 1000000",
        "1",
        "8 64, 9 32, 13 32, 14 16, 22 256, 23 512, 24 256, 31 192, 32 384, 33 192, \
         40 128, 41 256, 42 128, 49 64, 50 128, 51 64",
    ],
    // By the same call: function 15 of level 1, as high as it may be, gets 3/4 of 16384 mm, which is
    // more than it may have, and passes it on: 1/4 and 3/4 of 77824 mm are taken.
    [
        "4 1 3 2 1 0",
        "0 1",
        "2 16384, 15 1048576",
        "2 5 6 7",
        "14 65536, 16 196608, 17 65536, 24 32768, 25 98304, 26 98304, 27 32768, \
         46 4980736, 47 14942208, 48 14942208, 49 4980736, 64 2490368, 65 7471104, 66 7471104, \
         67 2490368",
    ],
];

#[test]
fn worked_by_hand() {
    for [numbers, refined, some, marks, expected] in WORKED {
        let tables = worked_mesh(numbers, refined);
        let heights = heights_with(&tables, &worked_heights(some));
        let before = Wall { tables, heights };
        let mut after = before.clone();
        let marks: Vec<u32> = groups(marks).concat();
        assert_eq!(after.refine_with_room(RefineCells, &marks).number, 0, "{numbers} {marks:?}");
        let expected = heights_with(&after.tables, &worked_heights(expected));
        assert_eq!(after.heights, expected, "{numbers} {marks:?}");
        after.expect_same_shape(&before, &points_in_steps(before.tables.plan, 1));
    }
}

/// The last of the rows above: what is passed on the way is above the limit.
#[test]
fn above_the_limit_on_the_way() {
    let [numbers, refined, some, marks, _] = WORKED[WORKED.len() - 1];
    let tables = worked_mesh(numbers, refined);
    let heights = heights_with(&tables, &worked_heights(some));
    let marks: Vec<u32> = groups(marks).concat();
    let greatest = greatest_passed(&Wall { tables, heights }, RefineCells, &marks);
    assert_eq!(greatest, Fraction::whole(77_824));
}

/// The greatest height that a deactivated function passes, in millimetres.
fn greatest_passed(wall: &Wall, kind: Kind, marks: &[u32]) -> Fraction {
    let Tables { plan, cells, functions } = &wall.tables;
    let (tables, rooms) = ((&cells[..], &functions[..]), (cells.len(), functions.len()));
    carried(kind.of_model(), *plan, tables, &wall.heights, marks, rooms)
        .map(|(_, carried)| carried.greatest_passed)
        .expect("marks that are taken")
}

/// By functions: the mark of function 0 refines cell 0, and functions 0 and 4 become deactivated.
#[test]
fn worked_by_functions() {
    let tables = worked_mesh("3 1 3 1 1 0", "");
    let heights = heights_with(&tables, &[(0, 16), (4, -32), (1, 5)]);
    let before = Wall { tables, heights };
    let mut after = before.clone();
    let outcome = after.refine_with_room(RefineFunctions, &[0]);
    assert_eq!((outcome.cells, outcome.functions), (vec![0], vec![0, 4]));
    let expected =
        [(1, 5), (8, 256), (9, 128), (15, 128 - 256), (16, 64 - 128), (22, -512), (23, -256)];
    assert_eq!(after.heights, heights_with(&after.tables, &expected));
    after.expect_same_shape(&before, &points_in_steps(before.tables.plan, 1));
}

// ---- Every single mark of small meshes ----

/// Every admissible mesh, each with heights, and every mark of both calls.
fn every_single_mark(seed: u64, plans: &[Plan], step: u32) -> u32 {
    let mut random = Random::new(seed);
    let mut refined = 0;
    for &plan in plans {
        let points = points_in_steps(plan, step);
        for tables in all_admissible(plan) {
            let fill = random.pick(&[Fill::Any, Fill::Small, Fill::Limits, Fill::One]);
            let heights = random_heights(&mut random, &tables, fill);
            let before = Wall { tables, heights };
            let surface: Vec<_> = points.iter().map(|&(x, y)| before.at(x, y)).collect();
            for kind in Kind::REFINING {
                for mark in before.tables.markable(kind) {
                    let mut after = before.clone();
                    let number = after.refine_with_room(kind, &[mark]).number;
                    if number != 0 {
                        assert_eq!(number, 17);
                        continue;
                    }
                    let same = points.iter().zip(&surface).all(|(&(x, y), &h)| after.at(x, y) == h);
                    assert!(same && surface[0].is_ok(), "{kind:?} {mark} {plan:?}");
                    refined += 1;
                }
            }
        }
    }
    refined
}

#[test]
fn every_single_mark_at_every_point() {
    let mut plans = vec![];
    for ((p, q), class) in DEGREES.into_iter().flat_map(|degrees| [(degrees, 0), (degrees, 2)]) {
        plans.push(plan([1, 1, 3, p, q, class]));
        plans.push(plan([2, 1, 2, p, q, class]));
        for corners in every_corners(3) {
            plans.push(plan([1, 3, 2, p, q, class, 0, corners]));
        }
    }
    let refined = every_single_mark(1100, &plans, 1);
    assert!(refined > 1_000, "{refined}");
}

#[test]
fn every_single_mark_of_larger_meshes() {
    let mut plans = vec![];
    for (p, q) in DEGREES {
        plans.push(plan([2, 2, 2, p, q, 2, 0, 2]));
        plans.push(plan([3, 2, 2, p, q, 0, 2, 2]));
        plans.push(plan([2, 1, 3, p, q, 0, 2, 0]));
        plans.push(plan([5, 1, 2, p, q, 0, 4, 0]));
    }
    let refined = every_single_mark(1101, &plans, 9);
    assert!(refined > 10_000, "{refined}");
}

// ---- Random runs ----

/// Runs of refinements with heights, by cells and by functions, and of coarsenings between them.
#[test]
fn random_runs() {
    let mut random = Random::new(1102);
    let mut kinds = Kinds::default();
    for turn in 0..1600 {
        let class = random.pick(&[0, 0, 2, 3, 4]);
        let most = random.pick(&[30, 90, 350, 700]);
        let plan = with_heights(&mut random, DEGREES[turn % 4], class, most);
        let fill = random.pick(&Fill::ALL);
        let mut wall = Wall::opened(&mut random, plan, fill);
        for _ in 0..random.below(6) + 2 {
            if random.once_in(4) {
                coarsened(&mut random, &mut wall, &mut kinds);
            }
            if random.once_in(3) {
                let fill = random.pick(&Fill::ALL);
                wall.heights = random_heights(&mut random, &wall.tables, fill);
            } else {
                wall.spoil(&mut random);
            }
            step(&mut random, &mut wall, &mut kinds);
        }
    }
    kinds.expect_all_but(&[]);
}

/// Coarsens without heights. Functions that become active then have what stood there, whatever it
/// is, so that what follows may be refused; or all get heights anew.
fn coarsened(random: &mut Random, wall: &mut Wall, kinds: &mut Kinds) {
    wall.spoil(random);
    let kind = random.pick(&[CoarsenCells, CoarsenFunctions]);
    let marks = random_marks(random, &wall.tables, kind);
    let outcome = wall.tables.call_with_room(kind, &marks);
    let left = random.once_in(3);
    if !left {
        let fill = random.pick(&[Fill::Any, Fill::Limits]);
        wall.heights = random_heights(random, &wall.tables, fill);
    }
    let reactivated = !outcome.functions.is_empty();
    kinds.count(&[("reactivated, heights anew", reactivated && !left)]);
    kinds.count(&[("reactivated, heights left", reactivated && left)]);
}

fn step(random: &mut Random, wall: &mut Wall, kinds: &mut Kinds) {
    let kind = random.pick(&Kind::REFINING);
    let marks = random_marks(random, &wall.tables, kind);
    let before = wall.clone();
    let outcome = wall.refine_with_room(kind, &marks);
    kinds.count(&[
        ("accepted", outcome.number == 0),
        ("a height is not taken", outcome.number == 15),
        ("a carried height is not taken", outcome.number == 17),
    ]);
    if outcome.number == 15 {
        // For the steps to come.
        wall.heights = random_heights(random, &wall.tables, Fill::Any);
    }
    if outcome.number != 0 {
        return;
    }
    let points = random_points(random, &wall.tables, 60);
    wall.expect_same_shape(&before, &points);
    let plan = wall.tables.plan;
    let passed = greatest_passed(&before, kind, &marks);
    let levels: Vec<u32> =
        outcome.functions.iter().map(|&f| plan.function_at(f as usize).level).collect();
    // Deactivated before, and with a height now on the way.
    let earlier = labelled(&before.tables, DEACTIVATED).len();
    kinds.count(&[
        ("by cells", kind == RefineCells),
        ("by functions", kind == RefineFunctions),
        ("with corners", has_corners(plan)),
        ("nothing becomes deactivated", levels.is_empty()),
        ("of level 0", levels.contains(&0)),
        ("of level 1", levels.contains(&1)),
        ("of level 2", levels.contains(&2)),
        ("of two levels at once", levels.contains(&0) && levels.contains(&1)),
        ("others are deactivated earlier", earlier > 0 && !levels.is_empty()),
        ("above the limit on the way", passed > Fraction::whole(65_536)),
        ("class", plan.class != 0),
    ]);
}

// ---- Limits of carried heights ----

/// The height of a function that is active before and after is moved so that the carried one is just
/// at the limit: taken, and one unit more is refused, either way.
#[test]
fn at_the_limit() {
    let mut random = Random::new(1103);
    let mut seen = BTreeMap::<(u32, bool), u32>::new();
    for turn in 0..500 {
        let class = random.pick(&[0, 0, 2]);
        let plan = with_heights(&mut random, DEGREES[turn % 4], class, 350);
        if plan.levels == 1 {
            continue;
        }
        let tables = Tables::with_refined(plan, &random_refined(&mut random, plan));
        let heights = random_heights(&mut random, &tables, Fill::Any);
        let before = Wall { tables, heights };
        let kind = random.pick(&Kind::REFINING);
        let marks = random_marks(&mut random, &before.tables, kind);
        let mut after = before.clone();
        if after.refine_with_room(kind, &marks).number != 0 {
            continue;
        }
        let got = |function: usize| after.heights[function] - before.heights[function];
        let both: Vec<(usize, u32)> = labelled(&before.tables, ACTIVE)
            .into_iter()
            .filter(|&(function, _)| after.tables.functions[function] == ACTIVE)
            .filter(|&(function, _)| got(function) != 0)
            .collect();
        for &(function, level) in both.iter().take(3) {
            let up = got(function) > 0;
            let limit = if up { most(level) } else { -most(level) };
            let mut at_limit = before.clone();
            at_limit.heights[function] = limit - got(function);
            let mut beyond = at_limit.clone();
            beyond.heights[function] += limit.signum();
            let same = beyond.clone();
            let mut taken = at_limit.clone();
            assert_eq!(taken.refine_with_room(kind, &marks).number, 0);
            assert_eq!(taken.heights[function], limit);
            taken.expect_same_shape(&at_limit, &random_points(&mut random, &taken.tables, 20));
            assert_eq!(beyond.refine_with_room(kind, &marks).number, 17);
            assert_eq!((beyond.tables, beyond.heights), (same.tables, same.heights));
            *seen.entry((level, up)).or_default() += 1;
        }
    }
    let levels: Vec<(u32, bool)> = seen.keys().copied().collect();
    let all = [(1, false), (1, true), (2, false), (2, true), (3, false), (3, true)];
    assert!(levels == all && seen.values().all(|&often| often > 5), "{seen:?}");
}

/// From a mesh just opened no height is refused: carried heights are means of those before.
#[test]
fn an_opened_mesh_stays_within_the_limit() {
    let mut random = Random::new(1104);
    for turn in 0..100 {
        let class = random.pick(&[0, 2]);
        let plan = with_heights(&mut random, DEGREES[turn % 4], class, 350);
        let mut wall = Wall::opened(&mut random, plan, Fill::Limits);
        for _ in 0..4 {
            wall.spoil(&mut random);
            let kind = random.pick(&Kind::REFINING);
            let marks = random_marks(&mut random, &wall.tables, kind);
            assert_eq!(wall.refine_with_room(kind, &marks).number, 0);
        }
    }
}

// ---- Refusals ----

/// The faults of a call, in the order in which they are refused.
const FAULTS: [u32; 9] = [3, 14, 15, 7, 8, 9, 10, 11, 17];

/// All sets of faults at once: the first is answered, and all that was lent is kept.
#[test]
fn the_order_of_refusals() {
    for kind in Kind::REFINING {
        for set in 0..1u32 << FAULTS.len() {
            let has = |fault: u32| {
                let place = FAULTS.iter().position(|&other| other == fault);
                set >> place.expect("a fault") & 1 == 1
            };
            // Cell 0 and one of its children are refined, so that level 2 has active cells.
            let degree = if has(14) { 3 } else { 1 };
            let tables = worked_mesh(&format!("3 1 3 {degree} 1 0"), "0 3");
            let plan = tables.plan;
            let first = |label: u8, level: u32| {
                let all = labelled(&tables, label);
                all.iter().find(|f| f.1 == level).expect("a function").0 as u32
            };
            let wrong_kind = if kind == RefineCells { 0 } else { first(DEACTIVATED, 0) };
            let of_last = if kind == RefineCells { 15 } else { first(ACTIVE, 2) };
            let mut marks = vec![];
            marks.extend(has(7).then_some(u32::MAX));
            marks.extend(has(8).then_some(wrong_kind));
            marks.extend(has(9).then_some(of_last));
            // Function 1 covers cells 0 and 1 where the degree is 1.
            marks.push(1);
            let mut heights = vec![0; plan.function_total()];
            if has(17) {
                // Functions 1 and 9 of row 0, of which the second gets half of the first.
                (heights[1], heights[9]) = (65_536, 1_048_576);
            }
            if has(15) {
                heights[first(ACTIVE, 0) as usize] = -65_537;
            }
            if has(3) {
                heights.push(0);
            }
            let (cell_room, function_room) = (usize::from(!has(10)), 2 * usize::from(!has(11)));
            let lists = (&vec![7; cell_room][..], &vec![8; function_room][..]);
            let mut wall = Wall { tables, heights };
            let before = wall.clone();
            let number = wall.refine(kind, &marks, lists).number;
            let expected = FAULTS.into_iter().find(|&fault| has(fault)).unwrap_or(0);
            assert_eq!(number, expected, "{kind:?} {set:b}");
            if expected != 0 {
                assert_eq!((wall.tables, wall.heights), (before.tables, before.heights));
            }
        }
    }
}

/// Inputs damaged in every way, against the model.
#[test]
fn every_refusal() {
    let mut random = Random::new(1105);
    let mut seen = [[0; 18]; 2];
    for turn in 0..6000 {
        let class = random.pick(&[0, 2, 3]);
        let plan = with_heights(&mut random, DEGREES[turn % 4], class, 90);
        let degree_up = if random.once_in(12) { 3 } else { plan.degree_up };
        let plan = Plan { degree_up, ..plan };
        let mesh = Tables::with_refined(plan, &random_refined(&mut random, plan));
        let kind = random.pick(&Kind::REFINING);
        let mut marks = random_marks(&mut random, &mesh, kind);
        if random.once_in(4) {
            let any = random.below(mesh.functions.len() + 3) as u32;
            let mark = random.pick(&[any, any, u32::MAX]);
            marks.insert(random.below(marks.len() + 1), mark);
        }
        let fill = random.pick(&Fill::ALL);
        let mut wall = Wall { heights: random_heights(&mut random, &mesh, fill), tables: mesh };
        let mesh = wall.tables.clone();
        let damages = if random.once_in(2) { 0 } else { random.below(3) + 1 };
        for _ in 0..damages {
            let thing = random.below(DAMAGES);
            damage(&mut random, thing, &mesh, &mut wall.tables, &mut wall.heights);
        }
        let mut room = |plenty: usize| match random.below(6) {
            0 => random.below(3),
            _ => plenty,
        };
        let (cell_room, function_room) = (room(mesh.cells.len()), room(mesh.functions.len()));
        let (cell_list, function_list) = (random.numbers(cell_room), random.numbers(function_room));
        let number = wall.refine(kind, &marks, (&cell_list, &function_list)).number;
        seen[kind as usize][number as usize] += 1;
    }
    for seen in seen {
        for (number, often) in seen.into_iter().enumerate() {
            assert_eq!(often > 0, !matches!(number, 12 | 13 | 16), "{number}: {seen:?}");
        }
    }
}

/// Lists that are just long enough are taken, and shorter ones refused before the heights' limit.
#[test]
fn lists_just_long_enough() {
    let mut random = Random::new(1106);
    let mut refused = [0; 2];
    for turn in 0..200 {
        let plan = with_heights(&mut random, DEGREES[turn % 4], 2, 350);
        let tables = Tables::with_refined(plan, &random_refined(&mut random, plan));
        let heights = random_heights(&mut random, &tables, Fill::Small);
        let wall = Wall { tables, heights };
        let kind = random.pick(&Kind::REFINING);
        let marks = random_marks(&mut random, &wall.tables, kind);
        let outcome = wall.clone().refine_with_room(kind, &marks);
        let (cells, functions) = (outcome.cells.len(), outcome.functions.len());
        let mut try_rooms = |cell_room: usize, function_room: usize, number: u32| {
            let lists = (random.numbers(cell_room), random.numbers(function_room));
            let answer = wall.clone().refine(kind, &marks, (&lists.0, &lists.1));
            assert_eq!(answer.number, number);
        };
        try_rooms(cells, functions, 0);
        if cells > 0 {
            try_rooms(cells - 1, functions + 1, 10);
            refused[0] += 1;
        }
        if functions > 0 {
            try_rooms(cells, functions - 1, 11);
            refused[1] += 1;
        }
    }
    assert!(refused.iter().all(|&often| often > 50), "{refused:?}");
}

/// A null pointer with length 0 is an empty slice.
#[test]
fn null_pointers_of_length_0() {
    use std::ptr::{null, null_mut};
    let tables = Tables::opened(plan([3, 1, 3, 1, 1, 2]));
    let plan = raw(tables.plan);
    for kind in Kind::REFINING {
        let call = kind.with_heights();
        let Tables { mut cells, mut functions, .. } = tables.clone();
        let mut heights = vec![5; functions.len()];
        let (t, f) = (cells.len(), functions.len());
        let refused = ffi::Answer { number: 3, cells: 0, functions: 0 };
        // SAFETY: every length is 0, or that of the vector.
        unsafe {
            let (none, no_bytes, no_heights) = (null_mut(), null_mut(), null_mut());
            let answer =
                call(plan, no_bytes, 0, no_bytes, 0, no_heights, 0, null(), 0, none, 0, none, 0);
            assert_eq!(answer, refused);
            let (cells, functions) = (cells.as_mut_ptr(), functions.as_mut_ptr());
            let answer =
                call(plan, cells, t, functions, f, no_heights, 0, null(), 0, none, 0, none, 0);
            assert_eq!(answer, refused);
            let heights = heights.as_mut_ptr();
            let answer =
                call(plan, cells, t, functions, f, heights, f, null(), 0, none, 0, none, 0);
            assert_eq!(answer, ffi::Answer::default());
        }
        assert_eq!(Tables { cells, functions, ..tables.clone() }, tables);
        let active = |f: usize| if tables.functions[f] == ACTIVE { 5 } else { 0 };
        assert_eq!(heights, (0..f).map(active).collect::<Vec<_>>());
    }
}

/// The wrapper hands over what the library does.
#[test]
fn the_wrapper() {
    let mut random = Random::new(1107);
    for turn in 0..60 {
        let plan = with_heights(&mut random, DEGREES[turn % 4], 2, 350);
        let tables = Tables::with_refined(plan, &random_refined(&mut random, plan));
        let fill = random.pick(&[Fill::Any, Fill::Limits]);
        let heights = random_heights(&mut random, &tables, fill);
        let kind = random.pick(&Kind::REFINING);
        let marks = random_marks(&mut random, &tables, kind);
        let mut wall = Wall { tables: tables.clone(), heights: heights.clone() };
        let outcome = wall.refine_with_room(kind, &marks);
        let Tables { mut cells, mut functions, .. } = tables;
        let mut heights = heights;
        let mut cell_list = vec![Cell(0); cells.len()];
        let mut function_list = vec![Function(0); functions.len()];
        let (plan, lists) = (of_wrapper(plan), (&mut cell_list[..], &mut function_list[..]));
        let tables = (&mut cells[..], &mut functions[..]);
        let answer = match kind {
            RefineCells => {
                let marks: Vec<Cell> = marks.iter().map(|&mark| Cell(mark)).collect();
                wallmirror::refine_cells_with_heights(
                    plan,
                    tables.0,
                    tables.1,
                    &mut heights,
                    &marks,
                    lists.0,
                    lists.1,
                )
            }
            _ => {
                let marks: Vec<Function> = marks.iter().map(|&mark| Function(mark)).collect();
                wallmirror::refine_functions_with_heights(
                    plan,
                    tables.0,
                    tables.1,
                    &mut heights,
                    &marks,
                    lists.0,
                    lists.1,
                )
            }
        };
        let changed = answer.map_or((0, 0), |changed| (changed.cells, changed.functions));
        assert_eq!(answer.map_or_else(|refusal| refusal.number(), |_| 0), outcome.number);
        let cell_numbers: Vec<u32> = cell_list[..changed.0].iter().map(|cell| cell.0).collect();
        let function_numbers: Vec<u32> = function_list[..changed.1].iter().map(|f| f.0).collect();
        assert_eq!((cell_numbers, function_numbers), (outcome.cells, outcome.functions));
        assert_eq!((cells, functions), (wall.tables.cells, wall.tables.functions));
        assert_eq!(heights, wall.heights);
    }
}

// ---- Long runs, large meshes, undo ----

/// After 50 refinements the surface is that of the first mesh.
#[test]
fn fifty_refinements() {
    let mut random = Random::new(1108);
    for (turn, (p, q)) in DEGREES.into_iter().enumerate() {
        let class = [0, 2, 3, 2][turn];
        let plan = plan([4, 4, 4, p, q, class, 4 << (turn % 2), 6]);
        let first = Wall::opened(&mut random, plan, Fill::Any);
        let mut wall = first.clone();
        for _ in 0..50 {
            wall.spoil(&mut random);
            let kind = random.pick(&Kind::REFINING);
            let markable = wall.tables.markable(kind);
            let from = if random.once_in(2) { 0 } else { markable.len() * 3 / 4 };
            let marks = [random.pick(&markable[from..])];
            assert_eq!(wall.refine_with_room(kind, &marks).number, 0);
        }
        for level in 1..4 {
            assert!(labelled(&wall.tables, ACTIVE).iter().any(|f| f.1 == level));
        }
        let points = random_points(&mut random, &wall.tables, 1000);
        wall.expect_same_shape(&first, &points);
    }
}

/// The largest plan with corners everywhere, refined wholly, level by level; the last level's functions
/// alone are active then.
#[test]
fn the_largest_mesh_wholly_refined() {
    let mut random = Random::new(1109);
    let (across, up) = (all_corners(16), all_corners(16));
    for (kind, numbers) in [
        (RefineCells, [16, 16, 4, 2, 2, 2, across, up]),
        (RefineFunctions, [16, 16, 4, 2, 2, 0, 0, 0]),
    ] {
        let first = Wall::opened(&mut random, plan(numbers), Fill::Limits);
        let mut wall = first.clone();
        for _ in 1..4 {
            wall.spoil(&mut random);
            let marks = wall.tables.markable(kind);
            assert_eq!(wall.refine_with_room(kind, &marks).number, 0);
        }
        assert!(labelled(&wall.tables, ACTIVE).iter().all(|f| f.1 == 3));
        assert!(labelled(&wall.tables, PASSIVE).is_empty());
        wall.expect_same_shape(&first, &random_points(&mut random, &wall.tables, 1000));
    }
}

/// Refined towards a point, so that functions of all levels are active, each with a height.
#[test]
fn the_largest_mesh_towards_a_point() {
    let mut random = Random::new(1110);
    let plan = plan([16, 16, 4, 2, 2, 2, 1 << 5, 1 << 9]);
    let mut wall = Wall::opened(&mut random, plan, Fill::Any);
    for level in 0..3 {
        // Heights of their own for the finer functions, half of what they may be.
        for (function, level) in labelled(&wall.tables, ACTIVE) {
            wall.heights[function] = random.bits() as i32 % (most(level) / 2);
        }
        let before = wall.clone();
        let cell = model::Cell { level, row: 9 << level, column: 5 << level };
        let marks = [plan.cell_number(cell) as u32];
        assert_eq!(wall.refine_with_room(RefineCells, &marks).number, 0);
        wall.expect_same_shape(&before, &random_points(&mut random, &wall.tables, 300));
    }
}

/// A run with heights is taken back by its cell lists, as one without; heights that were kept beside
/// the lists fit then.
#[test]
fn undo() {
    let mut random = Random::new(1111);
    for turn in 0..40 {
        let class = random.pick(&[0, 2, 3]);
        let plan = with_heights(&mut random, DEGREES[turn % 4], class, 350);
        let tables = Tables::with_refined(plan, &random_refined(&mut random, plan));
        let heights = random_heights(&mut random, &tables, Fill::Small);
        let first = Wall { tables, heights };
        let mut wall = first.clone();
        let mut log = Log::new();
        for _ in 0..4 {
            let kind = random.pick(&Kind::REFINING);
            let marks = random_marks(&mut random, &wall.tables, kind);
            log.push((kind, wall.refine_with_room(kind, &marks)));
        }
        let points = random_points(&mut random, &wall.tables, 60);
        wall.expect_same_shape(&first, &points);
        undo_by_cells(&mut wall.tables, &log, 3, &mut random);
        assert_eq!(wall.tables, first.tables);
        let back = Wall { tables: wall.tables, heights: first.heights.clone() };
        back.expect_same_shape(&first, &points);
    }
}
