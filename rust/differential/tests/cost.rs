//! What one mark can cost. That every accepted refinement stays within the bound and the reach of its
//! marks is seen in every test (`expect_cost`). Here are the bound and the reach that the wrapper
//! answers, runs in which many marks refine cells beside them, and meshes on which one mark refines
//! many.

use differential::surface::{random_heights, Fill, DEGREES};
use differential::{
    accepted, all_corners, beyond, has_corners, of_wrapper, out_of_range, plan, random_corners,
    random_plan, Kind, Outcome, Random, Tables,
};
use model::{Cell, Plan};
use std::collections::BTreeSet;
use wallmirror::{Place, Window};
use Kind::*;

// ---- The bound and the reach of a plan ----

/// Levels that the plan has, and others.
fn levels(plan: Plan) -> impl Iterator<Item = u32> {
    (0..plan.levels.min(9) + 2).chain([31, 32, 33, u32::MAX])
}

fn expect_bounds(plan: Plan) {
    let taken = model::refuse_plan(plan).is_ok();
    for level in levels(plan) {
        let bound = (taken && level < plan.levels).then(|| plan.most_refined(level));
        assert_eq!(of_wrapper(plan).most_refined(level), bound, "{level} {plan:?}");
    }
}

/// The cells of a window, all of which the plan has.
fn cells_of(plan: Plan, window: &Window) -> Vec<u32> {
    let level = window.level;
    let places = window
        .rows
        .clone()
        .flat_map(|row| window.columns.clone().map(move |column| Place { level, row, column }));
    let number = |place| of_wrapper(plan).cell_at(place).expect("a cell of the plan").0;
    places.map(number).collect()
}

/// The windows of a mark are made of the cells that it reaches, each in one window and the mark in the
/// first; and they contain these cells and no others.
fn expect_reach(plan: Plan, number: u32) {
    let windows = of_wrapper(plan).reach(wallmirror::Cell(number)).expect("a cell of the plan");
    let mark = plan.cell_at(number as usize);
    let (mut reached, mut contained) = (vec![], vec![]);
    for (cell, number) in plan.cells().zip(0..) {
        let Cell { level, row, column } = cell;
        if plan.reaches(mark, cell) {
            reached.push(number);
        }
        if windows.iter().any(|window| window.contains(Place { level, row, column })) {
            contained.push(number);
        }
    }
    assert_eq!(cells_of(plan, &windows[0]), [number], "{plan:?}");
    let mut cells: Vec<u32> = windows.iter().flat_map(|window| cells_of(plan, window)).collect();
    cells.sort_unstable();
    assert_eq!(cells, reached, "{mark:?} {plan:?}");
    assert_eq!(contained, reached, "{mark:?} {plan:?}");
    assert!(reached.len() <= plan.most_refined(mark.level), "{mark:?} {plan:?}");
}

/// The same reach and bounds as without corners.
fn expect_corners_change_neither(plan: Plan) {
    let (cornered, smooth) =
        (of_wrapper(plan), of_wrapper(Plan { corners_across: 0, corners_up: 0, ..plan }));
    for level in 0..plan.levels {
        assert_eq!(cornered.most_refined(level), smooth.most_refined(level), "{plan:?}");
    }
    for cell in (0..plan.cell_total() as u32).map(wallmirror::Cell) {
        assert_eq!(cornered.reach(cell), smooth.reach(cell), "{plan:?}");
    }
}

fn expect_no_reach(plan: Plan, numbers: impl IntoIterator<Item = u32>) {
    for number in numbers {
        assert_eq!(of_wrapper(plan).reach(wallmirror::Cell(number)), None, "{number} {plan:?}");
    }
}

/// Classes that there are.
const CLASSES: [u32; 8] = [0, 2, 3, 4, 5, 6, 7, 8];

fn all_degrees() -> impl Iterator<Item = (u32, u32)> {
    (1..=4).flat_map(|across| (1..=4).map(move |up| (across, up)))
}

#[test]
fn bounds_of_all_degrees_classes_and_levels() {
    for (p, q) in all_degrees() {
        for class in CLASSES {
            for levels in 1..=8 {
                expect_bounds(plan([1, 1, levels, p, q, class]));
            }
            for (columns, rows, levels) in [(16, 16, 4), (16, 1, 6), (1, 5, 5)] {
                expect_bounds(plan([columns, rows, levels, p, q, class]));
            }
        }
    }
}

#[test]
fn every_cell_of_random_plans() {
    let mut random = Random::new(901);
    let mut cornered = 0;
    for degrees in all_degrees() {
        for class in CLASSES {
            let plan = random_plan(&mut random, degrees, class, random_size(class));
            cornered += u32::from(has_corners(plan));
            expect_bounds(plan);
            for number in 0..plan.cell_total() as u32 {
                expect_reach(plan, number);
            }
            expect_no_reach(plan, beyond(plan.cell_total()));
            expect_corners_change_neither(plan);
        }
    }
    assert!(cornered > 30, "{cornered}");
}

/// Of the classes that reach many levels more cells.
fn random_size(class: u32) -> usize {
    if (2..=3).contains(&class) {
        1500
    } else {
        400
    }
}

/// The most levels and the most cells that there may be: the corners and the middle of each level, and
/// other cells.
#[test]
fn cells_of_the_largest_plans() {
    let mut random = Random::new(902);
    for class in CLASSES {
        for numbers in [
            [1, 1, 8, 4, 4, class, 0, 0],
            [1, 1, 8, 1, 2, class, 0, 0],
            [16, 16, 4, 3, 1, class, 0, 0],
            [16, 16, 4, 4, 4, class, all_corners(16), all_corners(16)],
            [16, 1, 6, 2, 3, class, 1 << 15, 0],
        ] {
            let plan = plan(numbers);
            expect_bounds(plan);
            for level in 0..plan.levels {
                let on = of_wrapper(plan).cells_on(level).expect("a level of the plan");
                let middle = on.start + (on.end - on.start) / 2;
                let any = on.start + random.below(on.len()) as u32;
                for number in [on.start, on.end - 1, middle, any] {
                    expect_reach(plan, number);
                }
            }
            expect_no_reach(plan, beyond(plan.cell_total()));
        }
    }
}

#[test]
fn refused_plans_have_neither() {
    let mut plans = out_of_range(plan([3, 2, 3, 2, 1, 2, 2, 2]));
    plans.extend([plan([16, 16, 5, 1, 1, 2]), plan([1, 2, 8, 1, 1, 0])]);
    for plan in plans {
        assert!(model::refuse_plan(plan).is_err(), "{plan:?}");
        expect_bounds(plan);
        expect_no_reach(plan, (0..70).chain(beyond(0)));
    }
}

// ---- Runs ----

/// What was seen of the refinements of a run.
#[derive(Debug, Default)]
struct Seen {
    /// With one mark, by cells.
    one: usize,
    /// With several marks, by cells.
    several: usize,
    by_functions: usize,
    /// In which other cells than those that the marks stand for became refined.
    with_others: usize,
    /// In which these were of several levels.
    of_several_levels: usize,
    cornered: usize,
}

impl Seen {
    fn add(&mut self, plan: Plan, kind: Kind, marks: &[u32], others: &BTreeSet<Cell>) {
        match (kind, marks.len()) {
            (RefineFunctions, _) => self.by_functions += 1,
            (_, 1) => self.one += 1,
            _ => self.several += 1,
        }
        let levels: BTreeSet<u32> = others.iter().map(|cell| cell.level).collect();
        self.with_others += usize::from(!levels.is_empty());
        self.of_several_levels += usize::from(levels.len() > 1);
        self.cornered += usize::from(has_corners(plan));
    }
}

/// The active cell that has this one in it or is it; none where this one is refined.
fn active_over(tables: &Tables, cell: Cell) -> Option<u32> {
    let plan = tables.plan;
    let with_ancestors = std::iter::successors(Some(cell), |&cell| plan.parent(cell));
    let mut numbers = with_ancestors.map(|cell| plan.cell_number(cell));
    numbers.find(|&number| tables.cells[number] == model::ACTIVE).map(|number| number as u32)
}

/// A cell that can be refined, of the finest level of such.
fn finest(random: &mut Random, plan: Plan) -> Cell {
    let level = plan.levels - 2;
    let below = |random: &mut Random, n: u32| random.below((n << level) as usize) as u32;
    Cell { level, row: below(random, plan.rows), column: below(random, plan.columns) }
}

/// A refinement on the way to the cell below this mark: by the mark alone, by it and others, some of
/// them twice, or by functions.
fn towards(random: &mut Random, tables: &Tables, mark: u32) -> (Kind, Vec<u32>) {
    let kind = random.pick(&[RefineCells, RefineCells, RefineCells, RefineFunctions]);
    let markable = tables.markable(kind);
    match kind {
        RefineFunctions => {
            let finer = &markable[markable.len() * 3 / 4..];
            (kind, (0..random.pick(&[1, 1, 3])).map(|_| random.pick(finer)).collect())
        }
        _ if random.once_in(3) => {
            let mut marks: Vec<u32> = (0..3).map(|_| random.pick(&markable)).collect();
            marks.extend([mark, marks[0], mark]);
            (kind, marks)
        }
        _ => (kind, vec![mark]),
    }
}

/// The cells that became refined beside those that the marks stand for.
fn beside(before: &Tables, kind: Kind, marks: &[u32], outcome: &Outcome) -> BTreeSet<Cell> {
    let meant = before.meant(kind, marks);
    let listed = outcome.cells.iter().map(|&cell| before.plan.cell_at(cell as usize));
    listed.filter(|cell| !meant.contains(cell)).collect()
}

/// A run on one mesh that refines one cell of the finest level after the other; coarsenings between
/// them leave room for others.
fn run(random: &mut Random, plan: Plan, cells: usize, seen: &mut Seen) {
    let mut tables = Tables::opened(plan);
    for _ in 0..cells {
        let cell = finest(random, plan);
        while let Some(mark) = active_over(&tables, cell) {
            let (kind, marks) = towards(random, &tables, mark);
            let before = tables.clone();
            let outcome = tables.call_with_room(kind, &marks);
            assert_eq!(outcome.number, 0);
            seen.add(plan, kind, &marks, &beside(&before, kind, &marks, &outcome));
        }
        let mut joined = tables.markable(CoarsenCells);
        joined.truncate(random.below(joined.len() + 1));
        assert_eq!(tables.call_with_room(CoarsenCells, &joined).number, 0);
    }
}

/// A plan of this class with at most so many cells, on which a mark can reach other cells.
fn wide_plan(random: &mut Random, degrees: (u32, u32), class: u32, most: usize) -> Plan {
    loop {
        let mut side = |fewest| random.below(8) as u32 + fewest;
        let (columns, rows, levels) = (side(3), side(1), side(1));
        let plan = plan([columns, rows, levels, degrees.0, degrees.1, class]);
        if plan.levels > class.max(2) && plan.cell_total() <= most {
            let corners_across = random_corners(random, columns);
            let corners_up = random_corners(random, rows);
            return Plan { corners_across, corners_up, ..plan };
        }
    }
}

/// Runs on plans of all degrees, with corners and without.
fn runs(class: u32, sizes: &[usize], seed: u64) -> Seen {
    let mut random = Random::new(seed);
    let mut seen = Seen::default();
    for degrees in all_degrees() {
        for &most in sizes {
            let plan = wide_plan(&mut random, degrees, class, most);
            run(&mut random, plan, 3, &mut seen);
            run(&mut random, Plan { corners_across: 0, corners_up: 0, ..plan }, 3, &mut seen);
        }
    }
    let Seen { one, several, by_functions, cornered, .. } = seen;
    assert!(one > 200 && several > 100 && by_functions > 100 && cornered > 100, "{seen:?}");
    seen
}

/// Just the cells that the marks stand for.
#[test]
fn runs_in_class_0() {
    let seen = runs(0, &[100, 400, 2000], 910);
    assert_eq!((seen.with_others, seen.of_several_levels), (0, 0), "{seen:?}");
}

#[test]
fn runs_in_class_2() {
    let seen = runs(2, &[100, 400, 2000, 6000], 912);
    assert!(seen.with_others > 200 && seen.of_several_levels > 20, "{seen:?}");
}

#[test]
fn runs_in_class_3() {
    let seen = runs(3, &[400, 2000, 5000], 913);
    assert!(seen.with_others > 50 && seen.of_several_levels > 0, "{seen:?}");
}

/// From class 4 on a mark reaches other cells only where there are many levels. In class 7 there have
/// to be eight, and then level 0 has one cell, which is refined before; in class 8 there are too few.
#[test]
fn runs_in_classes_4_to_8() {
    let mut random = Random::new(914);
    let mut with_others = vec![];
    for numbers in [[3, 2, 5, 4], [4, 2, 6, 5], [4, 1, 7, 6], [1, 1, 8, 7], [1, 1, 8, 8]] {
        let [columns, rows, levels, class] = numbers;
        let mut seen = Seen::default();
        for (p, q) in [(1, 1), (4, 3)] {
            run(&mut random, plan([columns, rows, levels, p, q, class]), 2, &mut seen);
        }
        with_others.push(seen.with_others);
    }
    assert!(with_others[..3].iter().all(|&often| often > 0), "{with_others:?}");
    assert_eq!(with_others[3..], [0, 0]);
}

/// With heights the lists are those of the call without.
#[test]
fn runs_with_heights() {
    let mut random = Random::new(920);
    let mut with_others = 0;
    for degrees in DEGREES {
        for class in [0, 2, 2, 2, 3, 3] {
            let plan = wide_plan(&mut random, degrees, class, 1500);
            let levels = plan.levels.min(4);
            with_others += run_with_heights(&mut random, Plan { levels, ..plan });
        }
    }
    assert!(with_others > 20, "{with_others}");
}

/// How many of the refinements on the way to a cell refine others than those that the marks stand for.
fn run_with_heights(random: &mut Random, plan: Plan) -> usize {
    let mut tables = Tables::opened(plan);
    let mut heights = random_heights(random, &tables, Fill::Small);
    let cell = finest(random, plan);
    let mut with_others = 0;
    while let Some(mark) = active_over(&tables, cell) {
        let (kind, marks) = towards(random, &tables, mark);
        let (before, mut carried) = (tables.clone(), tables.clone());
        let plain = tables.call_with_room(kind, &marks);
        let (cells, functions) = (vec![0; tables.cells.len()], vec![0; tables.functions.len()]);
        let outcome = carried.refine_with_heights(kind, &mut heights, &marks, &cells, &functions);
        assert_eq!((outcome, carried), (plain.clone(), tables.clone()), "{marks:?}");
        with_others += usize::from(!beside(&before, kind, &marks, &plain).is_empty());
    }
    with_others
}

// ---- Worked ----

/// The mesh with the fewest cells refined in which this cell is active.
fn barely(plan: Plan, cell: Cell) -> Tables {
    let mut ancestors: Vec<Cell> =
        std::iter::successors(plan.parent(cell), |&cell| plan.parent(cell)).collect();
    ancestors.reverse();
    let mut tables = Tables::opened(plan);
    for ancestor in ancestors {
        let mark = plan.cell_number(ancestor) as u32;
        assert_eq!(tables.call_with_room(RefineCells, &[mark]).number, 0, "{ancestor:?}");
    }
    let fewest = model::smallest(plan, plan.parent(cell).into_iter().collect());
    assert_eq!(tables, Tables::with_refined(plan, &fewest));
    tables
}

/// How many cells the mark refines on that mesh, and its bound.
fn cost(numbers: [u32; 6], [level, row, column]: [u32; 3]) -> (usize, usize) {
    let plan = plan(numbers);
    let cell = Cell { level, row, column };
    let mark = plan.cell_number(cell) as u32;
    let outcome = barely(plan, cell).call_with_room(RefineCells, &[mark]);
    assert_eq!(outcome.number, 0, "{numbers:?}");
    (outcome.cells.len(), of_wrapper(plan).most_refined(level).expect("a level of the plan"))
}

/// Req 09's own: marking 15 where 3 is refined. Cell 15 is in column 7 of level 1, and columns 6 to 8 have
/// common functions with it. They are on cells 3 and 4. Functions 4 and 13 lie over these two.
#[test]
fn the_sample() {
    let mut tables = Tables::opened(plan([8, 1, 5, 1, 1, 2]));
    assert_eq!(tables.call_with_room(RefineCells, &[3]).cells, [3]);
    assert_eq!(tables.call_with_room(RefineCells, &[15]), accepted(&[4, 15], &[4, 13]));
    assert_eq!(cost([8, 1, 5, 1, 1, 2], [1, 0, 7]), (2, 10));
}

/// Found by a search over all plans without corners, which is not part of the tests: the marks that come
/// nearest to bounds of one, two, three and four windows, and one of those that refine the most cells.
///
/// In the fourth the mark asks for columns 8 and 9 of level 3, 3 to 5 of level 2, 1 to 3 of level 1 and 0
/// to 2 of level 0. Its parent, column 8, has asked for itself, 3 and 4, 1 and 2, and 0 and 1. Rows are
/// the same. So there are 1 + (4 - 1) + (9 - 4) + (9 - 4) + (9 - 4) cells.
#[test]
fn marks_that_cost_much() {
    assert_eq!(cost([2, 2, 3, 1, 1, 2], [1, 1, 1]), (4, 10));
    assert_eq!(cost([3, 3, 4, 1, 1, 2], [2, 5, 5]), (9, 19));
    assert_eq!(cost([3, 3, 5, 1, 1, 2], [3, 9, 9]), (14, 28));
    assert_eq!(cost([3, 3, 6, 1, 1, 2], [4, 17, 17]), (19, 37));
    // Columns 12 to 16, 4 to 10 and 0 to 7; of these 14, 5 to 9 and 0 to 6 are refined before.
    assert_eq!(cost([8, 8, 5, 4, 4, 2], [3, 28, 28]), (1 + 24 + 24 + 15, 244));
}

/// Neither half the width of the windows nor one of them alone is a bound.
#[test]
fn bounds_that_are_too_small() {
    let (p, q, windows) = (1, 1, 3);
    let half_as_wide = 1 + windows * (p + 1) * (q + 1);
    let one_level = 1 + (2 * p + 1) * (2 * q + 1);
    assert_eq!((half_as_wide, one_level), (13, 10));
    assert_eq!(cost([3, 3, 5, 1, 1, 2], [3, 9, 9]).0, 14);
}

/// Some cell is p columns from the ancestor of the mark. On the sample it is cell 4, where the parent is
/// cell 3. At degree 4 cells are up to 2 columns away on level 2, 3 on level 1 and 4 on level 0.
#[test]
fn the_reach_is_used_up() {
    for (numbers, [level, row, column], farthest) in
        [([8, 1, 5, 1, 1, 2], [1, 0, 7], 1), ([8, 8, 5, 4, 4, 2], [3, 28, 28], 4)]
    {
        let plan = plan(numbers);
        let mark = Cell { level, row, column };
        let outcome =
            barely(plan, mark).call_with_room(RefineCells, &[plan.cell_number(mark) as u32]);
        let away = outcome.cells.iter().map(|&number| {
            let cell = plan.cell_at(number as usize);
            cell.column.abs_diff(column >> (level - cell.level))
        });
        assert_eq!(away.max(), Some(farthest), "{numbers:?}");
    }
}
