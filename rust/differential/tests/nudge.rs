//! The height of one function is changed, or those of several: how far the surface moves, and where.
//! Moves worked by hand, every function at every point of small meshes, the whole edges of supports,
//! random meshes, the limits of heights, functions that are not active, and bounds that are reached.
//!
//! The heights are the library's alone. Values, knots and supports are the model's, and all numbers
//! are exact fractions.

use differential::scenario;
use differential::surface::{
    labelled, mesh, most, points_in_steps, random_heights, random_points, with_heights,
    worked_heights, worked_mesh, worked_points, Fill, Kinds, DEGREES,
};
use differential::{
    all_corners, every_corners, has_corners, plan, random_refined, random_step, Random, Tables,
};
use model::height::{far_edges, value, Fraction};
use model::knots::Knots;
use model::{Cell, Function, Plan, ACTIVE, DEACTIVATED, PASSIVE};

/// Across and up, in eighths of a cell of the last level.
type Point = (u32, u32);

/// Eighths of a cell of the last level in one of this level.
fn eighths(plan: Plan, level: u32) -> u32 {
    8 << (plan.levels - 1 - level)
}

/// The support of a function as points: from where to where across, and up.
fn rectangle(plan: Plan, function: Function) -> [(u32, u32); 2] {
    let Function { level, row, column } = function;
    let ends = |knots: &Knots, i: u32| {
        let covered = knots.covered(i);
        (eighths(plan, level) * covered.start, eighths(plan, level) * covered.end)
    };
    [ends(&plan.across(level), column), ends(&plan.up(level), row)]
}

/// So many units of the level, in millimetres.
fn millimetres(level: u32, units: i64) -> Fraction {
    Fraction::new(units.into(), 16i128.pow(level))
}

/// An answered height, or a difference of two. It is a whole number over 2^(10+4L), which is seen
/// here, so nothing is rounded.
fn exact(height: f64, levels: u32) -> Fraction {
    let parts = 1u64 << (10 + 4 * levels);
    // A power of two changes the exponent alone.
    let whole = height * parts as f64;
    assert!(whole.trunc() == whole && whole.abs() < 2f64.powi(53), "{height} over {parts}");
    Fraction::new(whole as i128, parts.into())
}

// ---- Any heights are changed ----

/// Heights before and after.
struct Change<'a> {
    tables: &'a Tables,
    before: &'a [i32],
    after: Vec<i32>,
    /// No active height exceeds the limit after the change.
    taken: bool,
}

/// What the surface did at a point.
struct Move {
    before: f64,
    after: f64,
    by: Fraction,
}

impl Move {
    fn is_still(&self) -> bool {
        self.before.to_bits() == self.after.to_bits()
    }
}

impl<'a> Change<'a> {
    /// The heights before are to be within their limits.
    fn new(tables: &'a Tables, before: &'a [i32], after: Vec<i32>) -> Change<'a> {
        let is_taken = |&(function, level): &(usize, u32)| {
            (-most(level)..=most(level)).contains(&after[function])
        };
        let taken = labelled(tables, ACTIVE).iter().all(is_taken);
        Change { tables, before, after, taken }
    }

    /// None where the heights after are refused.
    fn at(&self, (across, up): Point) -> Option<Move> {
        let answered = |heights: &[i32]| self.tables.answered_height(heights, across, up);
        let before = answered(self.before).expect("heights within their limits");
        let after = match answered(&self.after) {
            Ok(after) => after,
            refused => {
                assert_eq!((refused, self.taken), (Err(15), false), "{across}, {up}");
                return None;
            }
        };
        assert!(self.taken, "a height beyond its limit is taken at {across}, {up}");
        let levels = self.tables.plan.levels;
        let by = exact(after, levels) - exact(before, levels);
        // So programs may subtract.
        assert_eq!(exact(after - before, levels), by, "{after} - {before} is rounded");
        Some(Move { before, after, by })
    }

    /// By how much the heights of active functions change at most, of each level.
    fn largest_moves(&self) -> Vec<i64> {
        let mut largest = vec![0; self.tables.plan.levels as usize];
        for (function, level) in labelled(self.tables, ACTIVE) {
            let by = i64::from(self.after[function]) - i64::from(self.before[function]);
            let of_level = &mut largest[level as usize];
            *of_level = by.abs().max(*of_level);
        }
        largest
    }

    /// The most that a point moves: the largest moves of all levels together.
    fn bound(&self) -> Fraction {
        let all = (0..).zip(self.largest_moves());
        all.fold(Fraction::ZERO, |sum, (level, units)| sum + millimetres(level, units))
    }
}

// ---- One height is changed ----

/// The height of one active function rises by d units of its level, or falls where d is below 0.
struct Nudge<'a> {
    change: Change<'a>,
    function: Function,
    d: i64,
    /// The cells of its level that it does not cover.
    outside: Vec<Cell>,
}

/// The heights with that of one function changed.
fn nudged(heights: &[i32], number: usize, d: i64) -> Vec<i32> {
    let mut after = heights.to_vec();
    after[number] = i32::try_from(i64::from(heights[number]) + d).expect("a number of 32 bits");
    after
}

impl<'a> Nudge<'a> {
    fn new(tables: &'a Tables, heights: &'a [i32], number: usize, d: i64) -> Nudge<'a> {
        assert_eq!(tables.functions[number], ACTIVE);
        let change = Change::new(tables, heights, nudged(heights, number, d));
        let (plan, function) = (tables.plan, tables.plan.function_at(number));
        let support: Vec<Cell> = plan.support(function).collect();
        let of_level = plan.cells().filter(|cell| cell.level == function.level);
        let outside = of_level.filter(|cell| !support.contains(cell)).collect();
        Nudge { change, function, d, outside }
    }

    fn plan(&self) -> Plan {
        self.change.tables.plan
    }

    fn millimetres(&self) -> Fraction {
        millimetres(self.function.level, self.d)
    }

    /// The point lies in a cell outside the support or on its edge.
    fn is_outside(&self, (across, up): Point) -> bool {
        let eighths = eighths(self.plan(), self.function.level);
        let touches =
            |cell: u32, place: u32| (cell * eighths..=(cell + 1) * eighths).contains(&place);
        self.outside.iter().any(|cell| touches(cell.column, across) && touches(cell.row, up))
    }

    /// The point lies inside the support in both directions.
    fn is_inside(&self, (across, up): Point) -> bool {
        let (plan, Function { level, row, column }) = (self.plan(), self.function);
        let (far_across, far_up) = far_edges(plan);
        let eighths = eighths(plan, level);
        let inside = |knots: &Knots, i: u32, place: u32, far: u32| {
            let covered = knots.covered(i);
            let between = eighths * covered.start < place && place < eighths * covered.end;
            // The ends of the mesh count for the first function and for the last.
            between || i == 0 && place == 0 || i + 1 == knots.functions() && place == far
        };
        inside(&plan.across(level), column, across, far_across)
            && inside(&plan.up(level), row, up, far_up)
    }

    /// All that is claimed of one point. None where the changed height is refused.
    fn expect_at(&self, point: Point) -> Option<Move> {
        let moved = self.change.at(point)?;
        let said = || format!("{:?}, {:?} by {} at {point:?}", self.plan(), self.function, self.d);
        let value = value(self.plan(), self.function, point.0, point.1);
        assert!(moved.by.abs() <= self.millimetres().abs(), "moves by more than d: {}", said());
        assert_eq!(moved.by, self.millimetres() * value, "not d times the value: {}", said());
        assert!(!self.is_outside(point) || moved.is_still(), "moves outside: {}", said());
        let is_to_move = self.d != 0 && self.is_inside(point);
        assert_eq!(!moved.is_still(), is_to_move, "moves, or is to move: {}", said());
        Some(moved)
    }

    /// Whether the surface moves by all of d.
    fn is_reached(&self, moved: &Move) -> bool {
        self.d != 0 && moved.by.abs() == self.millimetres().abs()
    }
}

/// A change by little, by much, to a limit or one unit past it.
fn random_d(random: &mut Random, level: u32, height: i32) -> i64 {
    let most = i64::from(most(level));
    let to = |height_after: i64| height_after - i64::from(height);
    match random.below(9) {
        0 => 1,
        1 => -1,
        2 => random.below(33) as i64 - 16,
        3 => to(random.pick(&[most, -most])),
        4 => to(random.pick(&[most + 1, -most - 1])),
        5 => to(random.pick(&[i32::MAX, i32::MIN]).into()),
        _ => to(random.below(2 * most as usize + 1) as i64 - most),
    }
}

/// The same, but none that is refused and none of 0.
fn random_taken_d(random: &mut Random, level: u32, height: i32) -> i64 {
    loop {
        let d = random_d(random, level, height);
        let after = i64::from(height) + d;
        if d != 0 && after.abs() <= most(level).into() {
            return d;
        }
    }
}

// ---- Worked by hand ----

/// A plan, its refined cells, a function and by how much its height changes, and points, across and
/// up, with how far the surface moves there, in millimetres.
const WORKED: [[&str; 4]; 15] = [
    // One cell, a function at each end of both directions.
    ["1 1 1 1 1 0", "", "3 8", "8 8 8, 4 4 2, 8 4 4, 1 1 0.125, 0 0 0, 8 0 0, 0 8 0"],
    // As far as a point moves, from one limit to the other.
    ["1 1 1 1 1 0", "", "0 131072", "0 0 131072, 7 0 16384, 7 7 2048, 8 8 0"],
    // One cell of degree 2: 2t(1-t) in the middle of both directions, so at most 1/4 of d.
    ["1 1 1 2 2 0", "", "4 -64", "4 4 -16, 1 1 -3.0625, 2 6 -9, 0 4 0, 8 3 0, 8 8 0"],
    // Function 1 of three cells has knots 0 0 1 2: nothing at the end of the mesh, nor from 2 on.
    ["3 1 1 2 1 0", "", "1 128", "0 0 0, 4 0 80, 8 0 64, 12 0 16, 16 0 0, 17 0 0, 4 8 0"],
    // The last function of row 1, over one cell: all of d where both far edges meet.
    [
        "3 1 1 2 1 0",
        "",
        "9 -128",
        "24 8 -128, 23 8 -98, 20 8 -32, 17 8 -2, 16 8 0, 24 4 -64, 24 0 0",
    ],
    // A corner before column 1. Function 2 has knots 0 1 1 2 and moves the corner by all of d.
    ["3 1 1 2 1 0 2 0", "", "2 128", "0 0 0, 7 0 98, 8 0 128, 9 0 98, 8 4 64, 16 0 0, 17 0 0"],
    // Function 1 has 0 0 1 1 and function 3 has 1 1 2 3: the corner is the edge of both supports.
    ["3 1 1 2 1 0 2 0", "", "1 -128", "0 0 0, 1 0 -28, 7 0 -28, 8 0 0, 9 0 0"],
    ["3 1 1 2 1 0 2 0", "", "3 128", "7 0 0, 8 0 0, 12 0 80, 16 0 64, 24 0 0"],
    // Up: a corner before row 2, where function 2 up of column 0 ends, which has 0 1 2 2.
    ["1 3 1 1 2 0 0 4", "", "4 128", "0 8 64, 0 12 80, 0 16 0, 0 17 0, 4 8 32, 8 8 0"],
    // P1: cell 0 is refined. Function 8 is the first of level 1, where the unit is 1/16 mm.
    ["3 1 3 1 1 0", "0", "8 -32", "0 0 -2, 8 0 -1, 0 8 -1, 8 8 -0.5, 16 0 0, 0 16 0, 96 32 0"],
    // Function 1 of level 0 is active over the refined cell too.
    ["3 1 3 1 1 0", "0", "1 3", "0 0 0, 8 0 0.75, 32 0 3, 63 0 0.09375, 64 0 0"],
    // Function 0 is deactivated and function 10 passive.
    ["3 1 3 1 1 0", "0", "0 1000", "0 0 0, 8 0 0, 8 8 0"],
    ["3 1 3 1 1 0", "0", "10 -1000", "32 0 0, 24 0 0, 33 1 0"],
    // P7: the first function of level 2, where the unit is 1/256 mm.
    ["3 1 3 1 1 2", "0 1 3", "29 256", "0 0 1, 4 0 0.5, 1 1 0.765625, 8 0 0, 0 8 0"],
    // The least that a point moves, 2^-26 mm: by the finest unit, an eighth inside the support.
    [
        "1 1 4 2 2 0",
        "0 1 2 3 4 5 6 7 8 9 10 11 12 13 14 15 16 17 18 19 20",
        "83 1",
        "1 1 0.00000001490116119384765625, 12 12 0.0001373291015625, 24 12 0, 0 12 0",
    ],
];

/// The moves do not depend on what the other heights are.
#[test]
fn worked_by_hand() {
    let mut random = Random::new(1000);
    for [numbers, refined, change, points] in WORKED {
        let tables = worked_mesh(numbers, refined);
        let (function, d) = worked_heights(change)[0];
        for fill in Fill::ALL {
            let mut heights = random_heights(&mut random, &tables, fill);
            heights[function] = -d / 2; // as far below 0 as above it then
            let change = Change::new(&tables, &heights, nudged(&heights, function, d.into()));
            for (across, up, by) in worked_points(points) {
                let moved = change.at((across, up)).expect("a height within its limit");
                assert_eq!(moved.by, exact(by, tables.plan.levels), "{numbers} {across}, {up}");
                assert_eq!(moved.is_still(), by == 0.0, "{numbers} {across}, {up}");
            }
        }
    }
}

/// Doubles that are no whole number of parts are not taken for one.
#[test]
fn exact_or_not_at_all() {
    for (height, levels, expected) in [
        (-1.5, 1, Fraction::new(-3, 2)),
        (1.0 / 16_384.0, 1, Fraction::new(1, 1 << 14)),
        (-1.0 / 67_108_864.0, 4, Fraction::new(-1, 1 << 26)),
        (262_144.0, 4, Fraction::whole(262_144)),
        (0.0, 4, Fraction::ZERO),
    ] {
        assert_eq!(exact(height, levels), expected);
        assert_eq!(exact(height, levels).to_f64(), height);
    }
    let finer = 1.0 / 32_768.0;
    for (height, levels) in [(finer, 1), (1.0 + finer, 1), (0.1, 4), (f64::NAN, 4), (f64::MAX, 4)] {
        assert!(std::panic::catch_unwind(|| exact(height, levels)).is_err(), "{height}");
    }
}

// ---- Every point of small meshes ----

/// Small meshes of up to four levels, of all degrees, with corners and without, with heights.
fn each_small_mesh(seed: u64, mut visit: impl FnMut(&mut Random, &Tables, &[i32])) {
    let mut random = Random::new(seed);
    for (p, q) in DEGREES {
        for (columns, rows, levels) in
            [(1, 1, 1), (2, 1, 1), (3, 2, 1), (1, 1, 2), (2, 1, 2), (1, 3, 2), (1, 2, 3), (1, 1, 4)]
        {
            let (all_across, all_up) = (all_corners(columns), all_corners(rows));
            for (class, across, up) in [(0, 0, 0), (2, 0, 0), (0, all_across, all_up)] {
                let plan = plan([columns, rows, levels, p, q, class, across, up]);
                let tables = Tables::with_refined(plan, &random_refined(&mut random, plan));
                let fill = random.pick(&Fill::ALL);
                let heights = random_heights(&mut random, &tables, fill);
                visit(&mut random, &tables, &heights);
            }
        }
    }
}

/// Whether the function is 1 somewhere: where all its knots but the first and the last are on one
/// line, in both directions.
fn has_value_1(plan: Plan, function: Function) -> bool {
    let on_one_line = |knots: &Knots, i: u32, degree: u32| {
        let inner = &knots.list()[i as usize + 1..][..degree as usize];
        inner.iter().all(|line| *line == inner[0])
    };
    let Function { level, row, column } = function;
    on_one_line(&plan.across(level), column, plan.degree_across)
        && on_one_line(&plan.up(level), row, plan.degree_up)
}

/// The surface moves by all of d somewhere just where the function is 1 there.
#[test]
fn every_point_of_small_meshes() {
    let (mut points, mut sharp, mut blunt) = (0, 0, 0);
    each_small_mesh(1001, |random, tables, heights| {
        let mut active = labelled(tables, ACTIVE);
        random.shuffle(&mut active);
        for &(number, level) in active.iter().take(4) {
            let d = random_taken_d(random, level, heights[number]);
            let nudge = Nudge::new(tables, heights, number, d);
            let mut reached = false;
            for point in points_in_steps(tables.plan, 1) {
                let moved = nudge.expect_at(point).expect("a height within its limit");
                reached |= nudge.is_reached(&moved);
                points += 1;
            }
            assert_eq!(reached, has_value_1(tables.plan, nudge.function), "{:?}", nudge.function);
            if reached {
                sharp += 1;
            } else {
                blunt += 1;
            }
        }
    });
    assert!(points > 100_000 && sharp > 100 && blunt > 100, "{points} {sharp} {blunt}");
}

// ---- Edges of supports ----

/// All points on the edge of the support.
fn edge(plan: Plan, function: Function) -> Vec<Point> {
    let [(left, right), (low, high)] = rectangle(plan, function);
    let places = (low..=high).flat_map(|up| (left..=right).map(move |across| (across, up)));
    places
        .filter(|(across, up)| [left, right].contains(across) || [low, high].contains(up))
        .collect()
}

/// Whether the place, across or up, is on one of the corners.
fn on_corner(plan: Plan, corners: u32, place: u32) -> bool {
    let apart = eighths(plan, 0);
    place.is_multiple_of(apart) && corners >> (place / apart) & 1 == 1
}

/// A point on the edge of the support touches a cell outside and stays. Where the edge is the mesh's
/// own it does not, and there the first function moves it, or the last.
#[test]
fn whole_edges_of_supports() {
    let mut random = Random::new(1002);
    let mut kinds = Kinds::default();
    for ((p, q), corners) in DEGREES.into_iter().flat_map(|d| every_corners(4).map(move |c| (d, c)))
    {
        for levels in 1..=2 {
            let plan = plan([4, 3, levels, p, q, 0, corners, corners & 6]);
            let tables = Tables::with_refined(plan, &random_refined(&mut random, plan));
            let heights = random_heights(&mut random, &tables, Fill::Any);
            let mut active = labelled(&tables, ACTIVE);
            random.shuffle(&mut active);
            for &(number, level) in active.iter().take(16) {
                let d = random_taken_d(&mut random, level, heights[number]);
                let nudge = Nudge::new(&tables, &heights, number, d);
                for point in edge(plan, nudge.function) {
                    expect_on_edge(&nudge, point, &mut kinds);
                }
            }
        }
    }
    kinds.expect_all_but(&[]);
}

fn expect_on_edge(nudge: &Nudge, point: Point, kinds: &mut Kinds) {
    let (plan, (across, up)) = (nudge.plan(), point);
    let (far_across, far_up) = far_edges(plan);
    let [(left, right), (low, high)] = rectangle(plan, nudge.function);
    let (edge_across, edge_up) = ([left, right].contains(&across), [low, high].contains(&up));
    let (end_across, end_up) = ([0, far_across].contains(&across), [0, far_up].contains(&up));
    let moved = nudge.expect_at(point).expect("a height within its limit");
    let inner = edge_across && !end_across || edge_up && !end_up;
    assert_eq!(nudge.is_outside(point), inner, "{plan:?} {:?} {point:?}", nudge.function);
    let corner_across = edge_across && on_corner(plan, plan.corners_across, across);
    let corner_up = edge_up && on_corner(plan, plan.corners_up, up);
    kinds.count(&[
        ("on a line between cells", inner && !corner_across && !corner_up),
        ("on a corner across", corner_across && plan.degree_across == 2),
        ("on a corner up", corner_up && plan.degree_up == 2),
        (
            "where corners cross",
            corner_across && corner_up && (plan.degree_across, plan.degree_up) == (2, 2),
        ),
        ("where two edges meet", edge_across && edge_up && !end_across && !end_up),
        ("where an edge meets the mesh's own", edge_across && edge_up && end_across != end_up),
        ("on the mesh's own edge, moved", !inner && !moved.is_still()),
        ("on the mesh's own edge, still", !inner && moved.is_still()),
        ("in a corner of the mesh, moved", end_across && end_up && !moved.is_still()),
        ("in a corner of the mesh, still", end_across && end_up && moved.is_still()),
    ]);
}

// ---- Random ones ----

/// Points on the edges of the support and where these meet, next to them, and inside.
fn random_points_about(random: &mut Random, plan: Plan, function: Function) -> Vec<Point> {
    let (far_across, far_up) = far_edges(plan);
    let [across, up] = rectangle(plan, function);
    let mut place = |(from, to): (u32, u32), far: u32| {
        let place = match random.below(8) {
            0..=1 => from,
            2..=3 => to,
            4 => random.pick(&[from.saturating_sub(1), from + 1, to - 1, to + 1]),
            5 => (from + to) / 2,
            _ => from + random.below((to - from) as usize) as u32,
        };
        place.min(far)
    };
    (0..10).map(|_| (place(across, far_across), place(up, far_up))).collect()
}

/// Meshes that random runs reach, each with heights.
fn each_random_mesh(seed: u64, turns: usize, mut visit: impl FnMut(&mut Random, &Tables, &[i32])) {
    let mut random = Random::new(seed);
    for turn in 0..turns {
        let class = random.pick(&[0, 0, 2, 3, 4]);
        let most = random.pick(&[20, 90, 350, 350]);
        let mut tables = Tables::opened(with_heights(&mut random, DEGREES[turn % 4], class, most));
        for _ in 0..random.below(5) + 1 {
            random_step(&mut random, &mut tables);
            let fill = random.pick(&Fill::ALL);
            let heights = random_heights(&mut random, &tables, fill);
            visit(&mut random, &tables, &heights);
        }
    }
}

/// What is to be counted of a point, where the changed height is taken.
fn kinds_of(nudge: &Nudge, (across, up): Point, moved: &Move) -> Vec<(&'static str, bool)> {
    let (plan, most) = (nudge.plan(), i64::from(most(nudge.function.level)));
    let (far_across, far_up) = far_edges(plan);
    let outside = nudge.is_outside((across, up));
    let at_end = [0, far_across].contains(&across) || [0, far_up].contains(&up);
    let corner = plan.degree_across == 2 && on_corner(plan, plan.corners_across, across)
        || plan.degree_up == 2 && on_corner(plan, plan.corners_up, up);
    let number = plan.function_number(nudge.function);
    vec![
        ("rises", nudge.d > 0),
        ("falls", nudge.d < 0),
        ("by nothing", nudge.d == 0),
        ("by one unit", nudge.d.abs() == 1),
        ("by more than a height may be", nudge.d.abs() > most),
        ("to the limit", i64::from(nudge.change.after[number]).abs() == most),
        ("moves by all of d", nudge.is_reached(moved)),
        ("moves by less than d", !moved.is_still() && !nudge.is_reached(moved)),
        ("moves at the end of the mesh", at_end && !moved.is_still()),
        ("moves on a corner", corner && !moved.is_still()),
        ("outside", outside),
        ("outside, on a corner", outside && corner),
        ("still at the end of the mesh, not outside", at_end && !outside && moved.is_still()),
        ("through 0", (moved.before < 0.0) != (moved.after < 0.0)),
        ("to 0 or from it", !moved.is_still() && (moved.before == 0.0 || moved.after == 0.0)),
        ("of level 0", nudge.function.level == 0),
        ("of level 1", nudge.function.level == 1),
        ("of level 2", nudge.function.level == 2),
        ("of level 3", nudge.function.level == 3),
        ("with corners", has_corners(plan)),
    ]
}

/// Functions, changes and points of every kind.
#[test]
fn meshes_of_random_runs() {
    let mut kinds = Kinds::default();
    each_random_mesh(1003, 1000, |random, tables, heights| {
        let active = labelled(tables, ACTIVE);
        for _ in 0..4 {
            let (number, level) = random.pick(&active);
            let d = random_d(random, level, heights[number]);
            let nudge = Nudge::new(tables, heights, number, d);
            let mut points = random_points(random, tables, 8);
            points.extend(random_points_about(random, tables.plan, nudge.function));
            for point in points {
                let moved = nudge.expect_at(point);
                kinds.count(&[("taken", moved.is_some()), ("refused", moved.is_none())]);
                if let Some(moved) = moved {
                    kinds.count(&kinds_of(&nudge, point, &moved));
                }
            }
        }
    });
    kinds.expect_all_but(&[]);
}

/// 15 is answered just where the changed height exceeds the limit, from whichever height and
/// wherever the point is.
#[test]
fn limits_of_changes() {
    let mut random = Random::new(1004);
    for ((p, q), across, up) in DEGREES.into_iter().flat_map(|d| [(d, 0, 0), (d, 2, 4)]) {
        let plan = plan([3, 3, 4, p, q, 0, across, up]);
        let tables = scenario::towards_the_first_cell(plan).to_coarsen;
        let mut heights = random_heights(&mut random, &tables, Fill::Any);
        let mut levels_seen = [0; 4];
        for (number, level) in labelled(&tables, ACTIVE) {
            levels_seen[level as usize] += 1;
            let most = 65_536 * 16i64.pow(level);
            for from in [heights[number].into(), most, -most, 0] {
                heights[number] = from as i32;
                for (to, taken) in [
                    (most, true),
                    (-most, true),
                    (most + 1, false),
                    (-most - 1, false),
                    (i32::MAX.into(), false),
                    (i32::MIN.into(), false),
                ] {
                    let nudge = Nudge::new(&tables, &heights, number, to - from);
                    for point in [(0, 0), (9, 21), far_edges(plan)] {
                        assert_eq!(nudge.expect_at(point).is_some(), taken, "{from} to {to}");
                    }
                }
            }
        }
        assert!(levels_seen.iter().all(|&often| often > 0), "{levels_seen:?}");
    }
}

/// Whatever the height of a function that is not active becomes, nothing moves.
#[test]
fn functions_that_are_not_active() {
    let mut kinds = Kinds::default();
    each_random_mesh(1005, 150, |random, tables, heights| {
        for label in [PASSIVE, DEACTIVATED] {
            let functions = labelled(tables, label);
            if functions.is_empty() {
                continue;
            }
            let number = random.pick(&functions).0;
            let function = tables.plan.function_at(number);
            let mut points = random_points(random, tables, 6);
            points.extend(random_points_about(random, tables.plan, function));
            for height in
                [i32::MIN, i32::MAX, 0, heights[number].wrapping_add(1), random.bits() as i32]
            {
                let mut after = heights.to_vec();
                after[number] = height;
                let change = Change::new(tables, heights, after);
                for &(across, up) in &points {
                    let moved = change.at((across, up)).expect("a height that is not judged");
                    assert!(moved.is_still(), "{:?} {function:?} {across}, {up}", tables.plan);
                    let inside = value(tables.plan, function, across, up) > Fraction::ZERO;
                    kinds.count(&[
                        ("passive", label == PASSIVE && inside),
                        ("deactivated", label == DEACTIVATED && inside),
                    ]);
                }
            }
        }
    });
    kinds.expect_all_but(&[]);
}

// ---- Several heights are changed ----

/// Active heights moved by little or by much, on each level as it comes, and at most to the limit;
/// some stay. The others become whatever.
fn random_after(random: &mut Random, tables: &Tables, heights: &[i32]) -> Vec<i32> {
    let mut after: Vec<i32> = heights.iter().map(|_| random.bits() as i32).collect();
    let moved_once_in = random.pick(&[1, 1, 3, 20]);
    let largest = [0; 4].map(|_| random.pick(&[0, 1, 100, 1 << 20, 1 << 29]));
    for (function, level) in labelled(tables, ACTIVE) {
        let (largest, most) = (largest[level as usize], most(level));
        let by = random.below(2 * largest + 1) as i32 - largest as i32;
        let by = if random.once_in(moved_once_in) { by } else { 0 };
        after[function] = (heights[function] + by).clamp(-most, most);
    }
    after
}

/// No point moves by more than the largest moves of all levels together.
#[test]
fn several_heights() {
    let mut kinds = Kinds::default();
    each_random_mesh(1006, 300, |random, tables, heights| {
        let mut after = random_after(random, tables, heights);
        if random.once_in(20) {
            let (function, level) = random.pick(&labelled(tables, ACTIVE));
            after[function] = random.pick(&[most(level) + 1, -most(level) - 1]);
        }
        let change = Change::new(tables, heights, after);
        let (bound, largest) = (change.bound(), change.largest_moves());
        let levels = largest.iter().filter(|&&by| by > 0).count();
        for point in random_points(random, tables, 16) {
            let Some(moved) = change.at(point) else {
                kinds.count(&[("refused", true)]);
                continue;
            };
            assert!(moved.by.abs() <= bound, "{:?} {point:?} {largest:?}", tables.plan);
            kinds.count(&[
                ("no level moves", levels == 0),
                ("one level moves", levels == 1),
                ("two levels move", levels == 2),
                ("three levels move", levels == 3),
                ("four levels move", levels == 4),
                ("reached", levels > 0 && moved.by.abs() == bound),
                (
                    "by more than half the bound, of several levels",
                    levels > 1 && moved.by.abs() * Fraction::whole(2) > bound,
                ),
            ]);
        }
    });
    kinds.expect_all_but(&[]);
}

/// The active heights moved by the same on each level, each from where it can be.
fn moved_by_levels(random: &mut Random, tables: &Tables, d: &[i64]) -> (Vec<i32>, Vec<i32>) {
    let mut before = random_heights(random, tables, Fill::Any);
    let mut after = random_heights(random, tables, Fill::Any);
    for (function, level) in labelled(tables, ACTIVE) {
        let (d, most) = (d[level as usize], i64::from(most(level)));
        let from = i64::from(before[function]).clamp((-most).max(-most - d), most.min(most - d));
        (before[function], after[function]) = (from as i32, (from + d) as i32);
    }
    (before, after)
}

/// All active heights of a mesh just opened move by d, and every point with them.
#[test]
fn an_opened_mesh_moves_as_a_whole() {
    let mut random = Random::new(1007);
    for (columns, rows, across, up) in
        [(1, 1, 0, 0), (2, 1, 0, 0), (3, 2, 0, 0), (2, 1, 2, 0), (3, 2, 4, 2)]
    {
        for (levels, (p, q)) in (1..=4).flat_map(|levels| DEGREES.map(|degrees| (levels, degrees)))
        {
            let tables = Tables::opened(plan([columns, rows, levels, p, q, 2, across, up]));
            for d in [1, -1, 17, -65_536, 131_072] {
                let (before, after) = moved_by_levels(&mut random, &tables, &[d]);
                let change = Change::new(&tables, &before, after);
                assert_eq!(change.bound(), millimetres(0, d.abs()));
                for point in points_in_steps(tables.plan, 7) {
                    let moved = change.at(point).expect("heights within their limits");
                    assert_eq!(moved.by, millimetres(0, d), "{:?} {point:?}", tables.plan);
                }
            }
        }
    }
}

/// A plan, its refined cells, the levels of its active functions, and points, across from where to
/// where and up, at which all functions of these levels that are not 0 are active.
type Reached = ([u32; 6], &'static [u32], usize, (u32, u32, u32));

const REACHED: [Reached; 6] = [
    // P2: cell 1 is refined, and function 3 across of level 1 is 1 in its middle.
    ([3, 1, 3, 1, 1, 0], &[1], 2, (48, 48, 7)),
    // The middle one of three rows is refined, or with degree 2 up both of four, and the points are
    // on the line in the middle.
    ([2, 3, 2, 1, 1, 0], &[2, 3], 2, (0, 32, 24)),
    ([2, 3, 2, 2, 1, 0], &[2, 3], 2, (0, 32, 24)),
    ([2, 4, 2, 1, 2, 0], &[2, 3, 4, 5], 2, (0, 32, 32)),
    ([2, 4, 2, 2, 2, 0], &[2, 3, 4, 5], 2, (0, 32, 32)),
    // The first of these with two cells of level 1 refined that share an edge on that line. The point
    // is the middle of the edge.
    ([2, 3, 3, 1, 1, 0], &[2, 3, 15, 19], 3, (24, 24, 48)),
];

/// Where all functions of several levels are active, a point moves by as much as these together.
#[test]
fn bounds_of_several_levels_are_reached() {
    let mut random = Random::new(1008);
    for (numbers, refined, levels, (from, to, up)) in REACHED {
        let tables = mesh(numbers, refined);
        for (greatest, sign) in [(false, 1), (false, -1), (true, 1), (true, -1)] {
            let mut size = |level| match greatest {
                true => 2 * i64::from(most(level)),
                false => random_taken_d(&mut random, level, 0).abs(),
            };
            let d = [0, 1, 2].map(|level| sign * size(level));
            let (before, after) = moved_by_levels(&mut random, &tables, &d);
            let change = Change::new(&tables, &before, after);
            assert_eq!(change.largest_moves().iter().filter(|&&by| by > 0).count(), levels);
            for across in from..=to {
                let moved = change.at((across, up)).expect("heights within their limits");
                assert_eq!(moved.by.abs(), change.bound(), "{numbers:?} {across}, {up}");
            }
        }
    }
}

// ---- Large ones ----

#[test]
fn the_largest_meshes() {
    let mut random = Random::new(1009);
    for scenario in scenario::with_heights() {
        let tables = &scenario.to_coarsen;
        let heights = random_heights(&mut random, tables, Fill::Any);
        let active = labelled(tables, ACTIVE);
        for _ in 0..8 {
            let (number, level) = random.pick(&active);
            let d = random_taken_d(&mut random, level, heights[number]);
            let nudge = Nudge::new(tables, &heights, number, d);
            let mut points = random_points(&mut random, tables, 7);
            points.extend(random_points_about(&mut random, tables.plan, nudge.function));
            for point in points {
                nudge.expect_at(point).expect("a height within its limit");
            }
        }
    }
}
