//! The height of the surface at a point: rows worked by hand, flat surfaces, kinks at corners,
//! every point of small meshes, every refusal and their order, the limits of heights and points,
//! and random meshes with heights of many kinds, against the model and in every bit.

use differential::scenario;
use differential::surface::{
    damage, heights_with, labelled, mesh, most, points_in_steps, random_heights, random_points,
    with_heights, worked_heights, worked_mesh, worked_points, Fill, Kinds, DAMAGES, DEGREES,
};
use differential::{
    all_corners, every_corners, has_corners, of_wrapper, plan, random_corners, random_plan,
    random_refined, random_step, Random, Tables,
};
use model::height::{b_spline, far_edges, places, value, Fraction};
use model::knots::{Direction, Knots};
use model::{Cell, Plan, ACTIVE, DEACTIVATED, PASSIVE};
use std::collections::{BTreeMap, BTreeSet};
use wallmirror::{ffi, Mesh, Refusal};

const W0: [u32; 6] = [3, 1, 3, 1, 1, 0];
const W2: [u32; 6] = [3, 1, 3, 1, 1, 2];

/// The numbers that are answered.
const OF_HEIGHT: [usize; 9] = [0, 1, 2, 3, 4, 5, 6, 14, 15];

/// A mesh with active functions of all levels: the first cell of each but the last is refined.
fn towards_the_first_cell<const N: usize>(numbers: [u32; N]) -> Tables {
    let first = |level| plan(numbers).cell_number(Cell { level, row: 0, column: 0 }) as u32;
    mesh(numbers, &(0..numbers[2] - 1).map(first).collect::<Vec<_>>())
}

/// How often each number was answered.
#[derive(Default, Debug)]
struct Seen([u32; 16]);

impl Seen {
    fn count(&mut self, answer: Result<f64, u32>) {
        self.0[answer.err().unwrap_or(0) as usize] += 1;
    }

    /// These were answered, and no others.
    fn expect(&self, numbers: &[usize]) {
        for (number, &often) in self.0.iter().enumerate() {
            assert_eq!(often > 0, numbers.contains(&number), "number {number}: {self:?}");
        }
    }
}

// ---- Worked by hand ----

/// A plan, its refined cells, functions and their heights where these are not 0, and points, across
/// and up, with the height there.
const WORKED: [[&str; 4]; 24] = [
    // One cell, a function at each end of both directions: a mean of the four heights.
    [
        "1 1 1 1 1 0",
        "",
        "0 8, 1 -16, 2 24, 3 40",
        "0 0 8, 8 0 -16, 0 8 24, 8 8 40, 4 4 14, 1 0 5, 0 1 10, 3 5 18.375",
    ],
    // One cell of degree 2: 2t(1-t) in the middle of both directions, (1-t)^2 and t^2 at the ends.
    ["1 1 1 2 2 0", "", "4 64", "4 4 16, 1 1 3.0625, 2 6 9, 0 4 0, 8 3 0, 8 8 0"],
    ["1 1 1 2 2 0", "", "0 64, 8 -64", "0 0 64, 8 8 -64, 1 0 49, 8 7 -49, 4 4 0, 2 2 20"],
    // Three cells of degree 2. Function 2 has knots 0 1 2 3.
    [
        "3 1 1 2 1 0",
        "",
        "2 128",
        "0 0 0, 1 0 1, 4 0 16, 8 0 64, 12 0 96, 16 0 64, 23 0 1, 24 0 0, 12 4 48, 12 8 0",
    ],
    // Function 1 has knots 0 0 1 2, so it falls over cell 1 and is 0 over cell 2.
    ["3 1 1 2 1 0", "", "1 128", "0 0 0, 4 0 80, 8 0 64, 12 0 16, 16 0 0, 20 0 0"],
    // The ends: functions 0 and 4 of row 1 have one cell each.
    [
        "3 1 1 2 1 0",
        "",
        "5 128, 9 -128",
        "0 8 128, 4 8 32, 8 8 0, 16 8 0, 20 8 -32, 23 8 -98, 24 8 -128, 24 4 -64",
    ],
    // Two cells of degree 2. Function 2 has knots 0 1 2 2.
    ["2 1 1 2 1 0", "", "2 128", "0 0 0, 4 0 16, 8 0 64, 12 0 80, 16 0 0"],
    // The same up as across: function 2 up of column 0 is number 4.
    ["1 3 1 1 2 0", "", "4 128", "0 12 96, 4 12 48, 8 12 0, 0 1 1, 0 24 0"],
    // Two levels, all refined: those of level 0 are deactivated, the unit of level 1 is 1/16 mm.
    [
        "1 1 2 1 1 0",
        "0",
        "0 2147483647, 1 -2147483648, 2 65537, 3 -1, 8 24, 12 16",
        "8 8 1.5, 8 4 0.75, 16 16 1, 12 12 0.625, 0 0 0, 0 16 0",
    ],
    // P1: functions 0 and 4 are deactivated, 8 9 15 16 22 23 active, 10 passive.
    [
        "3 1 3 1 1 0",
        "0",
        "0 1000, 1 10, 8 -32, 9 8, 10 999",
        "0 0 -2, 8 0 1.75, 16 0 5.5, 24 0 7.75, 32 0 10, 64 0 0, 8 16 1.25, 96 32 0",
    ],
    // P2: cell 1 is refined, and no function deactivated. Function 11 stands in its middle.
    ["3 1 3 1 1 0", "1", "1 10, 2 20, 11 16", "32 0 10, 48 0 16, 64 0 20, 40 0 13, 56 0 18"],
    // P7: functions of levels 1 and 2 over the first cell of level 2. At 8, 0 they cancel.
    [
        "3 1 3 1 1 2",
        "0 1 3",
        "0 7, 8 7, 9 16, 29 256, 30 -128",
        "0 0 1, 4 0 0.5, 8 0 0, 16 0 1, 0 8 0, 1 1 0.76953125",
    ],
    // The finest unit, 2^-26: function 2 of row 2 on level 3, an eighth inside its support. And the
    // last function, as low as it may be.
    [
        "1 1 4 2 2 0",
        "0 1 2 3 4 5 6 7 8 9 10 11 12 13 14 15 16 17 18 19 20",
        "83 1, 160 -268435456",
        "1 1 0.00000001490116119384765625, 23 1 0.00000001490116119384765625, \
         12 12 0.0001373291015625, 24 12 0, 0 12 0, 64 64 -65536, 63 64 -50176",
    ],
    // Three cells of degree 2 with a corner before column 1: knots 0 0 0 1 1 2 3 3 3. Function 2
    // has 0 1 1 2, so it is x^2 before the corner and (2-x)^2 behind it.
    [
        "3 1 1 2 1 0 2 0",
        "",
        "2 128",
        "0 0 0, 1 0 2, 4 0 32, 7 0 98, 8 0 128, 9 0 98, 12 0 32, 15 0 2, 16 0 0, 8 4 64, 8 8 0",
    ],
    // Function 1 has 0 0 1 1: 2x(1-x) over cell 0 alone. Function 0 is (1-x)^2 there.
    ["3 1 1 2 1 0 2 0", "", "1 128", "0 0 0, 1 0 28, 4 0 64, 7 0 28, 8 0 0, 9 0 0, 16 0 0"],
    ["3 1 1 2 1 0 2 0", "", "0 128", "0 0 128, 1 0 98, 4 0 32, 7 0 2, 8 0 0, 9 0 0"],
    // Function 3 has 1 1 2 3, as function 1 without the corner has 0 0 1 2, one cell before it.
    ["3 1 1 2 1 0 2 0", "", "3 128", "7 0 0, 8 0 0, 12 0 80, 16 0 64, 20 0 16, 24 0 0"],
    // Corners before columns 1 and 2: between them the functions are those of a single cell.
    [
        "3 1 1 2 1 0 6 0",
        "",
        "2 64, 3 128, 4 -64",
        "0 0 0, 4 0 16, 8 0 64, 12 0 64, 9 0 76, 16 0 -64, 15 0 -20, 20 0 -16, 24 0 0",
    ],
    // Up: a corner before row 2, over which the function of row 3 stands, number 6 of two to a row.
    ["1 3 1 1 2 0 0 4", "", "6 64", "0 16 64, 0 12 16, 0 20 16, 0 15 49, 0 17 49, 4 16 32, 8 16 0"],
    // With degree 1 a corner is nothing: function 1 has 0 1 2.
    ["3 1 1 1 1 0 2 0", "", "1 64", "0 0 0, 4 0 32, 8 0 64, 12 0 32, 16 0 0"],
    // Two levels, all refined, and the line is the same on level 1: knots 0 0 0 1 2 2 3 4 4 4, with
    // function 13 over the corner. Those of level 0 are 0 to 9.
    [
        "2 1 2 2 1 0 2 0",
        "0 1",
        "2 1000, 13 64",
        "8 0 0, 12 0 1, 14 0 2.25, 16 0 4, 18 0 2.25, 20 0 1, 24 0 0, 16 4 2, 16 8 0",
    ],
    // Cell 0 refined: the two functions of level 0 over it alone are deactivated. Function 2 of
    // level 0 stands over the corner and is active, function 12 of level 1 before it.
    [
        "2 1 2 2 1 0 2 0",
        "0",
        "0 9, 1 9, 2 64, 12 64",
        "0 0 0, 4 0 4.5, 8 0 18, 12 0 38.5, 16 0 64, 20 0 36, 24 0 16, 32 0 0",
    ],
    // The greatest heights, of two levels: more than either alone.
    ["3 1 3 1 1 0", "0", "1 65536, 9 1048576", "16 0 98304, 32 0 65536, 31 0 67584"],
    [
        "3 1 3 1 1 0",
        "0",
        "0 -2147483648, 1 -65536, 9 -1048576",
        "16 0 -98304, 17 32 0, 16 1 -93184",
    ],
];

/// The mesh and the heights of a worked row, and its points.
fn worked([numbers, refined, some, points]: [&str; 4]) -> (Tables, Vec<i32>, Vec<(u32, u32, f64)>) {
    let tables = worked_mesh(numbers, refined);
    let heights = heights_with(&tables, &worked_heights(some));
    (tables, heights, worked_points(points))
}

#[test]
fn worked_by_hand() {
    for row in WORKED {
        let (tables, heights, points) = worked(row);
        for (across, up, height) in points {
            assert_eq!(tables.height(&heights, across, up), Ok(height), "{row:?} {across}, {up}");
        }
    }
}

/// What the worked rows say of their functions.
#[test]
fn the_labels_of_the_worked_meshes() {
    let p1 = mesh(W0, &[0]);
    for (function, label) in [(0, 2), (1, 1), (4, 2), (8, 1), (9, 1), (10, 0), (29, 0)] {
        assert_eq!(p1.functions[function], label, "{function}");
    }
    let p7 = mesh(W2, &[0, 1, 3]);
    for (function, label) in [(0, 2), (8, 2), (9, 1), (29, 1), (30, 1)] {
        assert_eq!(p7.functions[function], label, "{function}");
    }
}

/// The model's own B-splines: the values in the middle of textbooks, and a sum of 1 everywhere.
#[test]
fn b_splines_of_the_model() {
    let over = |numerator, denominator| Fraction::new(numerator, denominator);
    let knots =
        |columns, degree| places(&Knots::of(Direction { columns, level: 0, degree, corners: 0 }));
    // Far from the ends, degree 2: 1/2 on a line, 3/4 in the middle; degree 3: 1/6 and 2/3.
    let far = knots(9, 2);
    assert_eq!([6, 7, 8, 9].map(|x| b_spline(&far, 5, 2, over(x, 2))), {
        [over(0, 1), over(1, 8), over(1, 2), over(3, 4)]
    });
    let far = knots(9, 3);
    assert_eq!([2, 3, 4, 5, 6].map(|x| b_spline(&far, 5, 3, over(x, 1))), {
        [over(0, 1), over(1, 6), over(2, 3), over(1, 6), over(0, 1)]
    });
    for degree in 1..=4 {
        for n in 1..=6 {
            let knots = knots(n, degree);
            assert_eq!(knots.len(), (n + 2 * degree + 1) as usize);
            for place in 0..=8 * n {
                let x = over(place.into(), 8);
                let values: Vec<Fraction> = (0..(n + degree) as usize)
                    .map(|i| b_spline(&knots, i, degree as usize, x))
                    .collect();
                assert!(values.iter().all(|&value| value >= Fraction::ZERO));
                let sum = values.iter().fold(Fraction::ZERO, |sum, &value| sum + value);
                assert_eq!(sum, Fraction::ONE, "{n} cells, degree {degree}, {place}");
                // Not 0 inside the support, and 0 outside it.
                for (i, &value) in values.iter().enumerate() {
                    let covered =
                        (i as u32).saturating_sub(degree) * 8..8 * (n.min(i as u32 + 1)) + 1;
                    assert!(covered.contains(&place) || value == Fraction::ZERO);
                    let inside = covered.start < place && place + 1 < covered.end;
                    assert!(!inside || value > Fraction::ZERO);
                }
                assert!(place != 0 || values[0] == Fraction::ONE);
                assert!(place != 8 * n || values[values.len() - 1] == Fraction::ONE);
            }
        }
    }
}

/// The model's numbers become doubles without rounding, or not at all.
#[test]
fn exact_doubles() {
    for (numerator, denominator, double) in [
        (0, 7, 0.0),
        (-6, 4, -1.5),
        (3, -8, -0.375),
        ((1 << 53) - 1, 1 << 20, 8_589_934_591.999_999),
        (-1, 1 << 26, -1.0 / 67_108_864.0),
        (1 << 80, 1 << 60, 1_048_576.0),
    ] {
        let is = Fraction::new(numerator, denominator).to_f64();
        assert_eq!(is.to_bits(), f64::to_bits(double), "{numerator}/{denominator}");
    }
    for (numerator, denominator) in [(1, 3), ((1 << 53) + 1, 1), ((1 << 54) + 1, 1 << 9)] {
        let rounded = std::panic::catch_unwind(|| Fraction::new(numerator, denominator).to_f64());
        assert!(rounded.is_err(), "{numerator}/{denominator}");
    }
}

// ---- Flat surfaces ----

/// With one height for all functions of level 0 an opened mesh has that height everywhere, whatever
/// stands there for the other levels.
#[test]
fn an_opened_mesh_is_flat() {
    let mut random = Random::new(800);
    for (columns, rows, across, up) in
        [(1, 1, 0, 0), (2, 1, 0, 0), (1, 3, 0, 0), (3, 2, 0, 0), (2, 1, 2, 0), (3, 2, 4, 2)]
    {
        for levels in 1..=4 {
            for (p, q) in DEGREES {
                let tables = Tables::opened(plan([columns, rows, levels, p, q, 2, across, up]));
                let step = if tables.cells.len() <= 30 { 1 } else { 5 };
                for height in [0, 1, -7, 65_536, -65_536] {
                    let mut heights = random.numbers(tables.functions.len());
                    for (function, _) in labelled(&tables, ACTIVE) {
                        heights[function] = height as u32;
                    }
                    let heights: Vec<i32> = heights.iter().map(|&bits| bits as i32).collect();
                    for (across, up) in points_in_steps(tables.plan, step) {
                        assert_eq!(tables.height(&heights, across, up), Ok(height.into()));
                    }
                }
            }
        }
    }
}

/// The same where all cells that can be are refined: the functions of the last level alone are then
/// active.
#[test]
fn a_wholly_refined_mesh_is_flat() {
    for levels in 2..=4 {
        for ((p, q), corners) in DEGREES.into_iter().flat_map(|d| [(d, 0), (d, 2)]) {
            let plan = plan([2, 1, levels, p, q, 0, corners, 0]);
            let refined = plan.cells().filter(|cell| cell.level + 1 < levels).collect();
            let tables = Tables::with_refined(plan, &refined);
            for height in [3, -most(levels - 1)] {
                let mut heights = vec![i32::MIN; tables.functions.len()];
                for (function, level) in labelled(&tables, ACTIVE) {
                    assert_eq!(level, levels - 1);
                    heights[function] = height;
                }
                let expected = f64::from(height) / 16f64.powi(levels as i32 - 1);
                for (across, up) in points_in_steps(plan, 3) {
                    assert_eq!(tables.height(&heights, across, up), Ok(expected));
                }
            }
        }
    }
}

// ---- Kinks ----

/// With degree 2 the surface is smooth across every line but those of corners, and has a kink there
/// where the heights are any; it has no jump anywhere. Four columns, all corners, on a level of
/// their own and beside other levels.
#[test]
fn kinks_at_corners_alone() {
    let mut random = Random::new(808);
    for corners in every_corners(4) {
        for (levels, refined) in [(1, &[][..]), (2, &[1, 2]), (3, &[0, 1, 2, 3, 5, 6])] {
            let tables = mesh([4, 1, levels, 2, 1, 0, corners, 0], refined);
            let heights = random_heights(&mut random, &tables, Fill::Any);
            let at = |across| tables.height(&heights, across, 3).expect("a height");
            // Slopes of a parabola at both ends of a cell, from its values there and in the middle.
            let before = |line: u32| at(line - 8) - 4.0 * at(line - 4) + 3.0 * at(line);
            let behind = |line: u32| -3.0 * at(line) + 4.0 * at(line + 4) - at(line + 8);
            let (far, apart) = (far_edges(tables.plan).0, 8 << (levels - 1));
            for line in (8..far).step_by(8) {
                let corner = line % apart == 0 && corners >> (line / apart) & 1 == 1;
                let said = || format!("{corners:b} {levels} {line}");
                assert_eq!(before(line) != behind(line), corner, "{}", said());
            }
        }
    }
}

// ---- Heights and points of every kind ----

/// A point that lies beyond the mesh, by little or by much, one way or both.
fn random_beyond(random: &mut Random, plan: Plan) -> (u32, u32) {
    let (far_across, far_up) = far_edges(plan);
    let mut beyond = |far: u32| random.pick(&[far + 1, far + 2, far + 8, 1 << 31, u32::MAX]);
    let (across, up) = (beyond(far_across), beyond(far_up));
    match random.below(4) {
        0 => (across, up),
        1 => (across, random.below(far_up as usize + 1) as u32),
        2 => (random.below(far_across as usize + 1) as u32, up),
        _ => random.pick(&[(across, far_up), (far_across, up)]),
    }
}

/// What is to be counted of an accepted answer.
fn kinds_of(
    tables: &Tables,
    heights: &[i32],
    (across, up): (u32, u32),
    height: f64,
) -> Vec<(&'static str, bool)> {
    let plan = tables.plan;
    let (far_across, far_up) = far_edges(plan);
    let (edge_across, edge_up) = (across == far_across, up == far_up);
    let (line_across, line_up) = (across % 8 == 0, up % 8 == 0);
    // How far behind the point before a corner of degree 2, across and up.
    let at_corner = |place: u32, degree: u32, corners: u32| {
        let apart = 8 << (plan.levels - 1);
        (0..3).find(|after| {
            let line = (place + 1).saturating_sub(*after);
            degree == 2 && line % apart == 0 && corners >> (line / apart) & 1 == 1
        })
    };
    let corner = [
        at_corner(across, plan.degree_across, plan.corners_across),
        at_corner(up, plan.degree_up, plan.corners_up),
    ];
    let (mut ignored, mut minus_zero, mut levels) = (false, false, BTreeSet::new());
    for ((function, &label), &height) in plan.functions().zip(&tables.functions).zip(heights) {
        if label != ACTIVE {
            ignored |= height.unsigned_abs() > most(function.level).unsigned_abs();
        } else if value(plan, function, across, up) == Fraction::ZERO {
            minus_zero |= height < 0;
        } else {
            levels.insert(function.level);
        }
    }
    vec![
        ("zero", height == 0.0),
        ("below zero", height < 0.0),
        ("above zero", height > 0.0),
        ("beyond the limit of one function", height.abs() > 65_536.0),
        ("at both far edges", edge_across && edge_up),
        ("at one far edge", edge_across != edge_up),
        ("where lines cross", line_across && line_up && !edge_across && !edge_up),
        ("on no line", !line_across && !line_up),
        ("just before a corner", corner.contains(&Some(0))),
        ("on a corner", corner.contains(&Some(1))),
        ("just behind a corner", corner.contains(&Some(2))),
        ("where corners cross", corner == [Some(1), Some(1)]),
        ("with a height that is beyond its limit and ignored", ignored),
        ("with a function below zero whose value is zero", minus_zero),
        ("of no level", levels.is_empty()),
        ("of one level", levels.len() == 1),
        ("of two levels", levels.len() == 2),
        ("of three levels", levels.len() == 3),
        ("of four levels", levels.len() == 4),
    ]
}

// ---- Every point ----

/// All points of small meshes of up to four levels, for all degrees and with all kinds of heights.
#[test]
fn every_point_of_small_meshes() {
    let mut random = Random::new(801);
    let mut fills = Fill::ALL.into_iter().filter(|&fill| fill != Fill::Zero).cycle();
    let mut accepted = 0;
    for (p, q) in DEGREES {
        for (columns, rows, levels) in
            [(1, 1, 1), (2, 1, 1), (3, 2, 1), (1, 1, 2), (2, 1, 2), (1, 3, 2), (1, 2, 3), (1, 1, 4)]
        {
            let (all_across, all_up) = (all_corners(columns), all_corners(rows));
            for (class, across, up) in [(0, 0, 0), (2, 0, 0), (0, all_across, all_up)] {
                let plan = plan([columns, rows, levels, p, q, class, across, up]);
                let tables = Tables::with_refined(plan, &random_refined(&mut random, plan));
                let fill = fills.next().expect("one after the other");
                let heights = random_heights(&mut random, &tables, fill);
                for (across, up) in points_in_steps(plan, 1) {
                    assert!(tables.height(&heights, across, up).is_ok());
                    accepted += 1;
                }
                let (far_across, far_up) = far_edges(plan);
                for across in 0..=far_across {
                    assert_eq!(tables.height(&heights, across, far_up + 1), Err(15));
                }
                for up in 0..=far_up {
                    assert_eq!(tables.height(&heights, far_across + 1, up), Err(15));
                }
            }
        }
    }
    assert!(accepted > 50_000, "{accepted}");
}

/// Each function alone, 1 mm high: its value, or nothing where it is not active.
#[test]
fn every_function_alone() {
    for (p, q) in DEGREES {
        for (numbers, refined) in [
            ([2, 1, 1, p, q, 0, 0, 0], vec![]),
            ([2, 1, 2, p, q, 0, 0, 0], vec![0]),
            ([2, 1, 2, p, q, 0, 0, 0], vec![1]),
            ([2, 1, 2, p, q, 0, 0, 0], vec![0, 1]),
            ([3, 2, 1, p, q, 0, 2, 2], vec![]),
            ([2, 1, 2, p, q, 0, 2, 0], vec![0]),
            ([1, 2, 2, p, q, 0, 0, 2], vec![0, 1]),
        ] {
            let tables = mesh(numbers, &refined);
            for (number, function) in tables.plan.functions().enumerate() {
                let heights = heights_with(&tables, &[(number, 16i32.pow(function.level))]);
                for (across, up) in points_in_steps(tables.plan, 3) {
                    let height = tables.height(&heights, across, up).expect("a height");
                    assert!((0.0..=1.0).contains(&height));
                    assert!(tables.functions[number] == ACTIVE || height == 0.0);
                }
            }
        }
    }
}

// ---- Refusals ----

/// Whatever can be at fault is at fault at once, and then less and less of it: the first of what is
/// left is given.
#[test]
fn refusals_in_order() {
    let beyond = |tables: &Tables| far_edges(tables.plan).0 + 1;
    // Of the plan: its degree across, its degree up, its levels, or all of them.
    for numbers in [[3, 1, 3, 3, 1, 2], [3, 1, 3, 1, 4, 2], [3, 1, 5, 1, 2, 2], [1, 1, 8, 4, 4, 2]]
    {
        let fresh = Tables::opened(plan(numbers));
        let f = fresh.functions.len();
        let too_high = vec![i32::MAX; f];
        let refused = |tables: &Tables, number: u32| {
            for heights in [&[][..], &too_high[1..], &too_high[..]] {
                for point in [(0, 0), (u32::MAX, 0), (0, u32::MAX)] {
                    assert_eq!(tables.height(heights, point.0, point.1), Err(number));
                }
            }
        };
        refused(&Tables { plan: Plan { columns: 0, ..fresh.plan }, ..fresh.clone() }, 1);
        refused(&Tables { plan: Plan { class: 1, ..fresh.plan }, ..fresh.clone() }, 1);
        refused(&Tables { plan: Plan { levels: 0, ..fresh.plan }, ..fresh.clone() }, 1);
        refused(&Tables { plan: Plan { corners_across: 1, ..fresh.plan }, ..fresh.clone() }, 1);
        refused(&Tables { plan: Plan { corners_up: 2, ..fresh.plan }, ..fresh.clone() }, 1);
        let larger = Plan { columns: 16, rows: 16, levels: 5, ..fresh.plan };
        refused(&Tables { plan: larger, ..fresh.clone() }, 2);
        refused(&Tables { cells: fresh.cells[1..].to_vec(), ..fresh.clone() }, 3);
        refused(&Tables { functions: vec![1; f + 1], ..fresh.clone() }, 3);
        let mut tables = fresh.clone();
        tables.cells[0] = 0;
        refused(&tables, 4);
        let mut tables = fresh.clone();
        tables.functions[0] = 2;
        refused(&tables, 6);
        // 3 for the heights, whatever the plan, the point and the heights are.
        for heights in [&[][..], &too_high[1..], &vec![0; f + 1]] {
            assert_eq!(fresh.height(heights, 0, 0), Err(3));
            assert_eq!(fresh.height(heights, beyond(&fresh), u32::MAX), Err(3));
        }
        // 14, whatever the point and the heights are.
        for heights in [&too_high, &vec![0; f]] {
            assert_eq!(fresh.height(heights, 0, 0), Err(14));
            assert_eq!(fresh.height(heights, beyond(&fresh), 0), Err(14));
        }
    }
    // Refusal 5 on such a plan, and on one with heights.
    for p in [1, 3] {
        let mut tables = mesh([3, 1, 3, p, 1, 0], &[0, 4]);
        tables.plan.class = 2;
        assert_eq!(tables.check(), 5);
        for heights in [vec![], vec![i32::MIN; tables.functions.len()]] {
            assert_eq!(tables.height(&heights, u32::MAX, 0), Err(5));
        }
    }
    // 15, for whichever reason.
    let tables = Tables::opened(plan(W2));
    let (flat, high) = (vec![5; 94], vec![65_537; 94]);
    assert_eq!(tables.height(&flat, 96, 32), Ok(5.0));
    for (heights, across, up) in
        [(&flat, 97, 32), (&flat, 96, 33), (&high, 0, 0), (&high, 97, 0), (&high, 97, 33)]
    {
        assert_eq!(tables.height(heights, across, up), Err(15), "{across} {up}");
    }
    for heights in [vec![5; 93], vec![5; 95], vec![], vec![65_537; 93], vec![5; 63]] {
        for (across, up) in [(0, 0), (97, 33)] {
            assert_eq!(tables.height(&heights, across, up), Err(3));
        }
    }
}

/// The examples of the scope document's refusal table, with a good point and good heights.
#[test]
fn refusals_by_hand() {
    let refused = |tables: Tables, number: u32| {
        assert_eq!(tables.height(&[0; 94], 1, 1), Err(number));
    };
    for numbers in [
        [0, 1, 3, 1, 1, 0, 0, 0],
        [3, 1, 3, 1, 1, 1, 0, 0],
        [3, 1, 3, 1, 1, 0, 8, 0],
        [3, 1, 3, 1, 1, 0, 0, 1],
    ] {
        refused(Tables { plan: plan(numbers), ..mesh(W0, &[]) }, 1);
    }
    refused(Tables { plan: plan([16, 16, 5, 1, 1, 0]), ..mesh(W0, &[]) }, 2);
    refused(Tables { cells: vec![1; 62], ..mesh(W0, &[]) }, 3);
    let mut tables = mesh(W0, &[]);
    tables.cells[0] = 0;
    refused(tables, 4);
    refused(Tables { plan: plan(W2), ..mesh(W0, &[0, 4]) }, 5);
    let mut tables = mesh(W0, &[]);
    tables.functions[0] = 2;
    refused(tables, 6);
    assert_eq!(mesh(W0, &[]).height(&[0; 93], 1, 1), Err(3));
    assert_eq!(mesh(W0, &[]).height(&[0; 94], 1, 1), Ok(0.0));
}

/// 14 is given just for degrees above 2 and more than four levels.
#[test]
fn every_plan_with_heights() {
    let mut seen = Seen::default();
    for levels in 1..=8 {
        for degree_across in 1..=4 {
            for degree_up in 1..=4 {
                for class in [0, 2, 8] {
                    let numbers = [1, 1, levels, degree_across, degree_up, class];
                    let tables = Tables::opened(plan(numbers));
                    let heights = vec![7; tables.functions.len()];
                    let answered = tables.height(&heights, 1, 0);
                    let without = levels > 4 || degree_across > 2 || degree_up > 2;
                    assert_eq!(answered, if without { Err(14) } else { Ok(7.0) }, "{numbers:?}");
                    seen.count(answered);
                }
            }
        }
    }
    seen.expect(&[0, 14]);
}

/// Points just beyond and far beyond, in each direction alone and in both.
#[test]
fn points_beyond() {
    for (columns, rows) in [(1, 1), (3, 1), (1, 16), (16, 2)] {
        for levels in 1..=4 {
            let (across, up) = (all_corners(columns), all_corners(rows) & 6);
            let tables = Tables::opened(plan([columns, rows, levels, 2, 1, 0, across, up]));
            let heights = vec![-9; tables.functions.len()];
            let [far_across, far_up] = [columns, rows].map(|cells| 8 * (cells << (levels - 1)));
            assert_eq!((far_across, far_up), far_edges(tables.plan));
            let with = |far: u32| [0, far, far + 1, far + 8, 2 * far + 1, 1 << 31, u32::MAX];
            for across in with(far_across) {
                for up in with(far_up) {
                    let beyond = across > far_across || up > far_up;
                    let expected = if beyond { Err(15) } else { Ok(-9.0) };
                    assert_eq!(tables.height(&heights, across, up), expected, "{across} {up}");
                }
            }
        }
    }
}

/// 65,536 mm are taken on each level, one unit more is not, above and below, near the point and far
/// from it. Of functions that are not active anything is taken.
#[test]
fn limits_of_heights() {
    for ((p, q), across, up) in DEGREES.into_iter().flat_map(|d| [(d, 0, 0), (d, 2, 4)]) {
        let tables = towards_the_first_cell([3, 3, 4, p, q, 0, across, up]);
        let far = far_edges(tables.plan);
        let base = random_heights(&mut Random::new(802), &tables, Fill::Small);
        let with = |function: usize, height: i32| {
            let mut heights = base.clone();
            heights[function] = height;
            [(0, 0), (9, 21), far].map(|(across, up)| tables.height(&heights, across, up))
        };
        let unchanged = with(0, base[0]);
        assert!(unchanged.iter().all(Result::is_ok));
        let mut levels_seen = [0; 4];
        for (function, level) in labelled(&tables, ACTIVE) {
            levels_seen[level as usize] += 1;
            let most = 65_536 * 16i32.pow(level);
            for height in [most, -most, most - 1, 1 - most] {
                assert!(with(function, height).iter().all(Result::is_ok));
            }
            for height in [most + 1, -most - 1, i32::MAX, i32::MIN, i32::MIN + 1] {
                assert_eq!(with(function, height), [Err(15); 3], "{function} {height}");
            }
        }
        assert!(levels_seen.iter().all(|&often| often > 0), "{levels_seen:?}");
        for label in [PASSIVE, DEACTIVATED] {
            let functions = labelled(&tables, label);
            assert!(functions.len() > 1, "{label}: {functions:?}");
            for &(function, level) in functions.iter().step_by(1 + functions.len() / 40) {
                let most = 65_536 * 16i32.pow(level);
                for height in [most + 1, -most - 1, i32::MAX, i32::MIN] {
                    assert_eq!(with(function, height), unchanged, "{function} {height}");
                }
            }
        }
    }
}

/// All heights but those of active functions are others, and the answers are the same.
#[test]
fn inactive_functions_are_ignored() {
    let mut random = Random::new(803);
    for turn in 0..60 {
        let degrees = DEGREES[turn % 4];
        let class = random.pick(&[0, 0, 2, 3]);
        let plan = with_heights(&mut random, degrees, class, 120);
        let tables = Tables::with_refined(plan, &random_refined(&mut random, plan));
        let heights = random_heights(&mut random, &tables, Fill::Any);
        let mut others = random_heights(&mut random, &tables, Fill::Zero);
        for (function, _) in labelled(&tables, ACTIVE) {
            others[function] = heights[function];
        }
        for (across, up) in random_points(&mut random, &tables, 8) {
            let answered = tables.height(&heights, across, up);
            assert_eq!(tables.height(&others, across, up), answered);
        }
    }
}

/// A null pointer with length 0 is an empty slice.
#[test]
fn null_pointers_of_length_0() {
    use std::ptr::null;
    let fresh = Tables::opened(plan(W2));
    let raw = differential::raw(fresh.plan);
    let (t, f) = (fresh.cells.len(), fresh.functions.len());
    let refused = |number| ffi::Height { number, height: 0.0 };
    // SAFETY: every length is 0, or that of the vector.
    unsafe {
        let answer = ffi::wallmirror_height(raw, null(), 0, null(), 0, null(), 0, 0, 0);
        assert_eq!(answer, refused(3));
        let (cells, functions) = (fresh.cells.as_ptr(), fresh.functions.as_ptr());
        let answer = ffi::wallmirror_height(raw, cells, t, functions, f, null(), 0, 0, 0);
        assert_eq!(answer, refused(3));
    }
}

// ---- Random ones ----

/// Meshes that random runs reach, with heights and points of every kind.
#[test]
fn meshes_of_random_runs() {
    let mut random = Random::new(804);
    let (mut seen, mut kinds, mut cornered) = (Seen::default(), Kinds::default(), 0);
    let mut fills = [0; Fill::ALL.len()];
    for turn in 0..900 {
        let class = random.pick(&[0, 0, 2, 3, 4]);
        let most = random.pick(&[20, 90, 350, 350]);
        let plan = with_heights(&mut random, DEGREES[turn % 4], class, most);
        cornered += u32::from(has_corners(plan));
        let mut tables = Tables::opened(plan);
        for _ in 0..random.below(5) + 1 {
            random_step(&mut random, &mut tables);
            let fill = random.pick(&Fill::ALL);
            fills[fill as usize] += 1;
            let heights = random_heights(&mut random, &tables, fill);
            for point in random_points(&mut random, &tables, 8) {
                let answered = tables.height(&heights, point.0, point.1);
                seen.count(answered);
                let height = answered.expect("a height");
                assert!(fill != Fill::Zero || height.to_bits() == 0);
                kinds.count(&kinds_of(&tables, &heights, point, height));
            }
            let (across, up) = random_beyond(&mut random, plan);
            seen.count(tables.height(&heights, across, up));
        }
    }
    seen.expect(&[0, 15]);
    kinds.expect_all_but(&["of no level"]);
    assert!(fills.iter().all(|&often| often > 10), "{fills:?}");
    assert!(cornered > 20, "{cornered}");
}

/// What is lent to a call.
struct Lent {
    tables: Tables,
    heights: Vec<i32>,
    point: (u32, u32),
}

/// Puts one thing wrong with what was made of the mesh.
fn damage_lent(random: &mut Random, mesh: &Tables, lent: &mut Lent) {
    let Lent { tables, heights, point } = lent;
    match random.below(DAMAGES + 1) {
        DAMAGES => *point = random_beyond(random, mesh.plan),
        thing => damage(random, thing, mesh, tables, heights),
    }
}

/// Plans of all degrees and levels, with nothing wrong or up to three things: every refusal, each
/// for the first reason that there is.
#[test]
fn damaged_in_several_ways() {
    let mut random = Random::new(805);
    let mut seen = Seen::default();
    let mut without = BTreeMap::<(u32, u32, u32), u32>::new();
    for turn in 0..9000 {
        let degrees = match turn % 3 {
            0 => (random.below(4) as u32 + 1, random.below(4) as u32 + 1),
            _ => random.pick(&DEGREES),
        };
        let class = random.pick(&[0, 0, 0, 2, 3, 8]);
        let most = random.pick(&[90, 150, 150, 150, 400, 1400]);
        let plan = random_plan(&mut random, degrees, class, most);
        let mesh = Tables::with_refined(plan, &random_refined(&mut random, plan));
        let fill = random.pick(&Fill::ALL);
        let heights = random_heights(&mut random, &mesh, fill);
        let points = random_points(&mut random, &mesh, 6);
        let mut lent = Lent { tables: mesh.clone(), heights, point: random.pick(&points) };
        for _ in 0..random.below(4) {
            damage_lent(&mut random, &mesh, &mut lent);
        }
        let (across, up) = lent.point;
        let answered = lent.tables.height(&lent.heights, across, up);
        seen.count(answered);
        if answered == Err(14) {
            *without.entry((plan.levels, degrees.0, degrees.1)).or_default() += 1;
        }
    }
    seen.expect(&OF_HEIGHT);
    assert!(seen.0.iter().all(|&often| often == 0 || often > 20), "{seen:?}");
    // 14 for the levels alone, for a degree across alone and for one up alone.
    assert!((5..=6).all(|levels| without.contains_key(&(levels, 2, 2))), "{without:?}");
    assert!((1..=4).all(|levels| without.contains_key(&(levels, 3, 1))), "{without:?}");
    assert!((1..=4).all(|levels| without.contains_key(&(levels, 2, 4))), "{without:?}");
}

/// The answer is a whole number of units of 2^-(10+4L) mm, fewer than 2^53 of them, with heights as
/// great as they may be. A coarser unit would not do.
#[test]
fn no_bit_is_rounded_away() {
    let mut random = Random::new(806);
    let mut highest: f64 = 0.0;
    for (p, q) in DEGREES {
        for levels in 1..=4 {
            let mut odd = 0;
            for turn in 0..12 {
                let class = random.pick(&[0, 0, 2]);
                // Where every line is a corner, a coarser unit does.
                let mut corners =
                    |n| if turn % 2 == 0 { 0 } else { random_corners(&mut random, n) };
                let (across, up) = (corners(turn % 3 + 1), corners(2));
                let plan = plan([turn % 3 + 1, 2, levels, p, q, class, across, up]);
                let wholly = plan.cells().filter(|cell| cell.level + 1 < levels).collect();
                let refined = if turn < 6 { wholly } else { random_refined(&mut random, plan) };
                let tables = Tables::with_refined(plan, &refined);
                let fill = random.pick(&[Fill::Any, Fill::Any, Fill::Limits]);
                let heights = random_heights(&mut random, &tables, fill);
                for (across, up) in random_points(&mut random, &tables, 20) {
                    let height = tables.height(&heights, across, up).expect("a height");
                    // A power of two, so the product is exact.
                    let units = height * 2f64.powi(10 + 4 * levels as i32);
                    assert_eq!(units.trunc(), units, "{plan:?} {across}, {up}");
                    assert!(units.abs() < 2f64.powi(53));
                    assert!(height.abs() <= 65_536.0 * f64::from(levels));
                    odd += u32::from(units % 2.0 != 0.0);
                    highest = highest.max(height.abs());
                }
            }
            // Where a degree is 1, a coarser unit does.
            assert_eq!(odd > 0, (p, q) == (2, 2), "degrees {p} {q}, {levels} levels");
        }
    }
    assert!(highest > 65_536.0, "{highest}");
}

// ---- Large ones, and the wrapper ----

#[test]
fn the_largest_meshes() {
    let mut random = Random::new(807);
    for scenario in scenario::with_heights() {
        for tables in [&scenario.to_refine, &scenario.to_coarsen] {
            let fill = random.pick(&[Fill::Any, Fill::Limits, Fill::Negative]);
            let mut heights = random_heights(&mut random, tables, fill);
            for (across, up) in random_points(&mut random, tables, 7) {
                assert!(tables.height(&heights, across, up).is_ok());
            }
            let (across, up) = random_beyond(&mut random, tables.plan);
            assert_eq!(tables.height(&heights, across, up), Err(15));
            let (function, level) = *labelled(tables, ACTIVE).last().expect("an active function");
            heights[function] = -most(level) - 1;
            assert_eq!(tables.height(&heights, 0, 0), Err(15));
            assert_eq!(tables.height(&heights[1..], 0, 0), Err(3));
        }
    }
    let mut scenarios = scenario::all();
    scenarios.extend(scenario::with_corners());
    for scenario in scenarios {
        let Plan { levels, degree_across, degree_up, .. } = scenario.plan();
        let has_heights = levels <= 4 && degree_across <= 2 && degree_up <= 2;
        let tables = &scenario.to_coarsen;
        let heights = vec![0; tables.functions.len()];
        let expected = if has_heights { Ok(0.0) } else { Err(14) };
        assert_eq!(tables.height(&heights, 0, 0), expected, "{scenario}");
        assert_eq!(tables.height(&heights[1..], 0, 0), Err(3), "{scenario}");
    }
}

/// The wrapper says what the call says.
#[test]
fn forms_of_the_wrapper() {
    let owned = |tables: &Tables| {
        let Tables { plan, cells, functions } = tables.clone();
        Mesh::from_tables(of_wrapper(plan), cells, functions)
    };
    let both = |tables: &Tables, heights: &[i32], across, up| {
        let mesh = owned(tables);
        let answered = mesh.height(heights, across, up);
        let Mesh { plan, cells, functions, .. } = &mesh;
        let lent = wallmirror::height(*plan, cells, functions, heights, across, up);
        assert_eq!(lent, answered);
        let number = answered.map_err(Refusal::number);
        assert_eq!(number, tables.height(heights, across, up));
        answered
    };
    for row in WORKED {
        let (tables, heights, points) = worked(row);
        for (across, up, height) in points {
            assert_eq!(both(&tables, &heights, across, up), Ok(height));
        }
    }
    let tables = mesh(W0, &[0]);
    let heights = heights_with(&tables, &[(1, 65_537)]);
    assert_eq!(both(&tables, &heights, 0, 0), Err(Refusal::PointOrHeightOutOfRange));
    assert_eq!(both(&tables, &[0; 94], 97, 0), Err(Refusal::PointOrHeightOutOfRange));
    assert_eq!(both(&tables, &heights[1..], 0, 0), Err(Refusal::TableLength));
    let cubic = Tables::opened(plan([1, 1, 1, 3, 1, 0]));
    assert_eq!(both(&cubic, &[0; 8], 0, 0), Err(Refusal::PlanWithoutHeights));
}
