//! The corners of the active cells: rows worked by hand, every mesh of small plans, grids that
//! cover the surface without gaps, every set of faults, the limits, outputs of every length and with
//! bits of every kind, random meshes with heights of many kinds, and the largest outputs, against
//! the model and in every bit.

use differential::scenario;
use differential::surface::{
    damage, groups, heights_with, labelled, mesh, most, random_heights, with_heights,
    worked_heights, worked_mesh, Fill, Kinds, DAMAGES, DEGREES,
};
use differential::{
    all_admissible, all_corners, every_corners, has_corners, of_wrapper, plan, random_corners,
    random_plan, random_refined, random_step, Random, Tables, SIGNALLING,
};
use model::projector::corners_of;
use model::{Cell, Plan, ACTIVE, DEACTIVATED, PASSIVE};
use std::collections::BTreeMap;
use wallmirror::{ffi, Corner, Mesh, Refusal, MAX_CORNER_DOUBLES, MAX_PROJECTED_CELLS};

const W0: [u32; 6] = [3, 1, 3, 1, 1, 0];
const W2: [u32; 6] = [3, 1, 3, 1, 1, 2];

/// The numbers that are answered.
const OF_CORNERS: [usize; 11] = [0, 1, 2, 3, 4, 5, 6, 10, 14, 15, 16];

/// The mesh of the plan in which all cells are refined that can be.
fn wholly(plan: Plan) -> Tables {
    let refined = plan.cells().filter(|cell| cell.level + 1 < plan.levels).collect();
    Tables::with_refined(plan, &refined)
}

/// The active cells in rising order.
fn active_cells(tables: &Tables) -> Vec<Cell> {
    let numbered = tables.plan.cells().zip(&tables.cells);
    numbered.filter(|(_, &byte)| byte == ACTIVE).map(|(cell, _)| cell).collect()
}

/// The doubles that an output must have.
fn needed(tables: &Tables) -> usize {
    12 * tables.cells.iter().filter(|&&byte| byte == ACTIVE).count()
}

/// The corners, in an output that is just long enough.
fn shown(tables: &Tables, heights: &[i32]) -> Vec<[f64; 3]> {
    let out = vec![SIGNALLING; needed(tables)];
    tables.corners(heights, &out).unwrap_or_else(|number| panic!("{number}: {:?}", tables.plan))
}

/// How often each number was answered.
#[derive(Default, Debug)]
struct Seen([u32; 17]);

impl Seen {
    fn count<T>(&mut self, answer: &Result<T, u32>) {
        self.0[*answer.as_ref().err().unwrap_or(&0) as usize] += 1;
    }

    /// These were answered, and no others.
    fn expect(&self, numbers: &[usize]) {
        for (number, &often) in self.0.iter().enumerate() {
            assert_eq!(often > 0, numbers.contains(&number), "number {number}: {self:?}");
        }
    }
}

// ---- Worked by hand ----

/// A plan, its refined cells, functions and their heights where these are not 0, and each active
/// cell with its corners.
struct Worked {
    plan: &'static str,
    refined: &'static str,
    heights: &'static str,
    corners: &'static [&'static str],
}

const WORKED: [Worked; 13] = [
    // One cell, a function at each of its corners.
    Worked {
        plan: "1 1 1 1 1 0",
        refined: "",
        heights: "0 8, 1 -16, 2 24, 3 40",
        corners: &["0: 0 0 8, 1 0 -16, 0 1 24, 1 1 40"],
    },
    // Of degree 2: those in the middle, up or across, are 0 at every corner.
    Worked {
        plan: "1 1 1 2 2 0",
        refined: "",
        heights: "0 64, 1 1000, 2 -3, 3 1000, 4 1000, 5 1000, 6 5, 7 1000, 8 -64",
        corners: &["0: 0 0 64, 1 0 -3, 0 1 5, 1 1 -64"],
    },
    // Two columns of degree 2: functions 1 and 2 of a row have 1/2 each on the line between them.
    Worked {
        plan: "2 1 1 2 1 0",
        refined: "",
        heights: "0 1, 1 128, 2 -64, 3 7, 5 10",
        corners: &["0: 0 0 1, 1 0 32, 0 1 0, 1 1 5", "1: 1 0 32, 2 0 7, 1 1 5, 2 1 0"],
    },
    // The same up as across.
    Worked {
        plan: "1 2 1 1 2 0",
        refined: "",
        heights: "0 1, 2 128, 4 -64, 6 7, 3 10",
        corners: &["0: 0 0 1, 1 0 0, 0 1 32, 1 1 5", "1: 0 1 32, 1 1 5, 0 2 7, 1 2 0"],
    },
    // Both degrees 2: in the middle four functions have 1/4 each.
    Worked {
        plan: "2 2 1 2 2 0",
        refined: "",
        heights: "0 -1, 1 3, 5 1, 6 2, 9 4, 10 8",
        corners: &[
            "0: 0 0 -1, 1 0 1.5, 0 1 0, 1 1 3.75",
            "1: 1 0 1.5, 2 0 0, 1 1 3.75, 2 1 0",
            "2: 0 1 0, 1 1 3.75, 0 2 0, 1 2 0",
            "3: 1 1 3.75, 2 1 0, 1 2 0, 2 2 0",
        ],
    },
    // A corner of the plan before column 1, knots 0 0 0 1 1 2 3 3 3: function 2 has 1 there, and
    // functions 3 and 4 have 1/2 before column 2.
    Worked {
        plan: "3 1 1 2 1 0 2 0",
        refined: "",
        heights: "1 1000, 2 128, 3 20, 4 -10, 5 3",
        corners: &[
            "0: 0 0 0, 1 0 128, 0 1 0, 1 1 0",
            "1: 1 0 128, 2 0 5, 1 1 0, 2 1 0",
            "2: 2 0 5, 3 0 3, 2 1 0, 3 1 0",
        ],
    },
    // Two levels, all refined: those of level 0 are deactivated, the unit of level 1 is 1/16 mm.
    Worked {
        plan: "1 1 2 1 1 0",
        refined: "0",
        heights: "0 2147483647, 1 -2147483648, 2 65537, 3 -1, 8 24, 12 16",
        corners: &[
            "1: 0 0 0, 1 0 0, 0 1 0, 1 1 1.5",
            "2: 1 0 0, 2 0 0, 1 1 1.5, 2 1 0",
            "3: 0 1 0, 1 1 1.5, 0 2 0, 1 2 0",
            "4: 1 1 1.5, 2 1 0, 1 2 0, 2 2 1",
        ],
    },
    // The same with a corner of the plan, which is line 2 on level 1: function 13 stands over it.
    Worked {
        plan: "2 1 2 2 1 0 2 0",
        refined: "0 1",
        heights: "2 1000, 13 64",
        corners: &[
            "2: 0 0 0, 1 0 0, 0 1 0, 1 1 0",
            "3: 1 0 0, 2 0 4, 1 1 0, 2 1 0",
            "4: 2 0 4, 3 0 0, 2 1 0, 3 1 0",
            "5: 3 0 0, 4 0 0, 3 1 0, 4 1 0",
            "6: 0 1 0, 1 1 0, 0 2 0, 1 2 0",
            "7: 1 1 0, 2 1 0, 1 2 0, 2 2 0",
            "8: 2 1 0, 3 1 0, 2 2 0, 3 2 0",
            "9: 3 1 0, 4 1 0, 3 2 0, 4 2 0",
        ],
    },
    // Function 2 of level 0, of degree 2, in the middle of its support: 3/4.
    Worked {
        plan: "3 1 2 2 1 0",
        refined: "1",
        heights: "2 128",
        corners: &[
            "0: 0 0 0, 2 0 64, 0 2 0, 2 2 0",
            "2: 4 0 64, 6 0 0, 4 2 0, 6 2 0",
            "5: 2 0 64, 3 0 96, 2 1 32, 3 1 48",
            "6: 3 0 96, 4 0 64, 3 1 48, 4 1 32",
            "11: 2 1 32, 3 1 48, 2 2 0, 3 2 0",
            "12: 3 1 48, 4 1 32, 3 2 0, 4 2 0",
        ],
    },
    // P1: functions 0 and 4 are deactivated, function 9 of level 1 is active.
    Worked {
        plan: "3 1 3 1 1 2",
        refined: "0",
        heights: "0 1000, 1 10, 9 8, 10 999",
        corners: &[
            "1: 4 0 10, 8 0 0, 4 4 0, 8 4 0",
            "2: 8 0 0, 12 0 0, 8 4 0, 12 4 0",
            "3: 0 0 0, 2 0 5.5, 0 2 0, 2 2 2.5",
            "4: 2 0 5.5, 4 0 10, 2 2 2.5, 4 2 5",
            "9: 0 2 0, 2 2 2.5, 0 4 0, 2 4 0",
            "10: 2 2 2.5, 4 2 5, 2 4 0, 4 4 0",
        ],
    },
    // P2: function 11 stands in the middle of cell 1.
    Worked {
        plan: "3 1 3 1 1 0",
        refined: "1",
        heights: "1 10, 2 20, 11 16",
        corners: &[
            "0: 0 0 0, 4 0 10, 0 4 0, 4 4 0",
            "2: 8 0 20, 12 0 0, 8 4 0, 12 4 0",
            "5: 4 0 10, 6 0 16, 4 2 5, 6 2 7.5",
            "6: 6 0 16, 8 0 20, 6 2 7.5, 8 2 10",
            "11: 4 2 5, 6 2 7.5, 4 4 0, 6 4 0",
            "12: 6 2 7.5, 8 2 10, 6 4 0, 8 4 0",
        ],
    },
    // P7: functions of levels 1 and 2, which cancel at 1 0.
    Worked {
        plan: "3 1 3 1 1 2",
        refined: "0 1 3",
        heights: "0 7, 8 7, 9 16, 29 256, 30 -128",
        corners: &[
            "2: 8 0 0, 12 0 0, 8 4 0, 12 4 0",
            "4: 2 0 1, 4 0 0, 2 2 0, 4 2 0",
            "5: 4 0 0, 6 0 0, 4 2 0, 6 2 0",
            "6: 6 0 0, 8 0 0, 6 2 0, 8 2 0",
            "9: 0 2 0, 2 2 0, 0 4 0, 2 4 0",
            "10: 2 2 0, 4 2 0, 2 4 0, 4 4 0",
            "11: 4 2 0, 6 2 0, 4 4 0, 6 4 0",
            "12: 6 2 0, 8 2 0, 6 4 0, 8 4 0",
            "15: 0 0 1, 1 0 0, 0 1 0, 1 1 0.25",
            "16: 1 0 0, 2 0 1, 1 1 0.25, 2 1 0.5",
            "27: 0 1 0, 1 1 0.25, 0 2 0, 1 2 0",
            "28: 1 1 0.25, 2 1 0.5, 1 2 0, 2 2 0",
        ],
    },
    // The greatest heights, of two levels: more than either alone.
    Worked {
        plan: "3 1 3 1 1 0",
        refined: "0",
        heights: "0 -2147483648, 1 -65536, 9 -1048576",
        corners: &[
            "1: 4 0 -65536, 8 0 0, 4 4 0, 8 4 0",
            "2: 8 0 0, 12 0 0, 8 4 0, 12 4 0",
            "3: 0 0 0, 2 0 -98304, 0 2 0, 2 2 -16384",
            "4: 2 0 -98304, 4 0 -65536, 2 2 -16384, 4 2 -32768",
            "9: 0 2 0, 2 2 -16384, 0 4 0, 2 4 0",
            "10: 2 2 -16384, 4 2 -32768, 2 4 0, 4 4 0",
        ],
    },
];

impl Worked {
    fn tables(&self) -> Tables {
        worked_mesh(self.plan, self.refined)
    }

    fn heights(&self, tables: &Tables) -> Vec<i32> {
        heights_with(tables, &worked_heights(self.heights))
    }

    /// The numbers of the active cells, and all corners.
    fn expected(&self) -> (Vec<usize>, Vec<[f64; 3]>) {
        let (mut cells, mut corners) = (vec![], vec![]);
        for row in self.corners {
            let (cell, four) = row.split_once(": ").expect("a cell and its corners");
            cells.push(cell.parse().expect("the number of a cell"));
            let corner = |group: &Vec<f64>| *group.first_chunk::<3>().expect("three numbers");
            corners.extend(groups(four).iter().map(corner));
        }
        (cells, corners)
    }
}

#[test]
fn worked_by_hand() {
    for row in WORKED {
        let tables = row.tables();
        let (cells, corners) = row.expected();
        let active: Vec<usize> =
            (0..tables.cells.len()).filter(|&cell| tables.cells[cell] == ACTIVE).collect();
        assert_eq!(active, cells, "{}, {}", row.plan, row.refined);
        assert_eq!(shown(&tables, &row.heights(&tables)), corners, "{}, {}", row.plan, row.refined);
    }
}

// ---- The grid ----

/// The cells come in rising order, each with its four corners, and cover the surface once; where
/// corners of several cells meet they have the same height.
fn expect_grid(tables: &Tables, corners: &[[f64; 3]]) {
    let plan = tables.plan;
    let cells = active_cells(tables);
    assert_eq!(corners.len(), 4 * cells.len());
    let mut at = BTreeMap::<(u32, u32), u64>::new();
    let mut area = 0;
    for (cell, four) in cells.into_iter().zip(corners.chunks(4)) {
        let side = f64::from(1u32 << (plan.levels - 1 - cell.level));
        let (left, low) = (f64::from(cell.column) * side, f64::from(cell.row) * side);
        let (right, high) = (left + side, low + side);
        let places = four.iter().map(|&[across, up, _]| (across, up));
        let expected = [(left, low), (right, low), (left, high), (right, high)];
        assert!(places.eq(expected), "{plan:?} {cell:?} {four:?}");
        area += (side * side) as u32;
        for &[across, up, height] in four {
            let bits = height.to_bits();
            let first = *at.entry((across as u32, up as u32)).or_insert(bits);
            assert_eq!(bits, first, "{plan:?} {across}, {up}");
        }
    }
    assert_eq!(area, plan.columns * plan.rows * 4u32.pow(plan.levels - 1));
}

/// All admissible meshes of small plans, with all corners of the plan, for all degrees.
#[test]
fn every_mesh_of_small_plans() {
    let mut random = Random::new(900);
    let mut fills = Fill::ALL.into_iter().cycle();
    let mut accepted = 0;
    for (columns, rows, levels) in [
        (1, 1, 1),
        (2, 1, 1),
        (1, 3, 1),
        (3, 2, 1),
        (1, 1, 2),
        (2, 1, 2),
        (1, 2, 2),
        (2, 2, 2),
        (3, 1, 2),
        (1, 1, 3),
        (1, 2, 3),
        (2, 1, 3),
    ] {
        for (p, q) in DEGREES {
            for across in every_corners(columns) {
                for up in every_corners(rows) {
                    for class in [0, 2] {
                        let plan = plan([columns, rows, levels, p, q, class, across, up]);
                        for tables in all_admissible(plan) {
                            let fill = fills.next().expect("one after the other");
                            let heights = random_heights(&mut random, &tables, fill);
                            expect_grid(&tables, &shown(&tables, &heights));
                            accepted += 1;
                        }
                    }
                }
            }
        }
    }
    assert!(accepted > 8_000, "{accepted}");
}

/// With one height for all functions of level 0 an opened mesh has that height at every corner, and
/// so has one where all cells are refined, with the last level's.
#[test]
fn flat_surfaces() {
    for (p, q) in DEGREES {
        for numbers in
            [[3, 2, 1, p, q, 0, 4, 2], [2, 1, 3, p, q, 2, 2, 0], [1, 1, 4, p, q, 0, 0, 0]]
        {
            let opened = Tables::opened(plan(numbers));
            for (tables, level) in [(&opened, 0), (&wholly(opened.plan), numbers[2] - 1)] {
                for height in [0, 1, -7, most(level), -most(level)] {
                    let mut heights = vec![i32::MIN; tables.functions.len()];
                    for (function, of_level) in labelled(tables, ACTIVE) {
                        assert_eq!(of_level, level);
                        heights[function] = height;
                    }
                    let mm = f64::from(height) / 16f64.powi(level as i32);
                    let corners = shown(tables, &heights);
                    assert!(corners.iter().all(|corner| corner[2].to_bits() == mm.to_bits()));
                }
            }
        }
    }
}

/// Where nothing is high every height is 0.0, and so it is where a function below zero has no value.
#[test]
fn zero_is_positive() {
    for (p, q) in DEGREES {
        let tables = mesh([3, 2, 3, p, q, 0, 2, 2], &[0, 6]);
        let corners = shown(&tables, &vec![0; tables.functions.len()]);
        assert!(corners.iter().all(|corner| corner[2].to_bits() == 0));
        for (function, level) in labelled(&tables, ACTIVE) {
            let heights = heights_with(&tables, &[(function, -most(level))]);
            let corners = shown(&tables, &heights);
            assert!(corners.iter().all(|&[.., height]| height < 0.0 || height.to_bits() == 0));
            assert!(corners.iter().any(|&[.., height]| height.to_bits() == 0));
        }
    }
}

// ---- Refusals ----

/// What can be at fault, in the order in which it is refused, with the number.
const FAULTS: [(&str, u32); 11] = [
    ("plan", 1),
    ("cells of any call", 2),
    ("cells of the projector", 16),
    ("table length", 3),
    ("cell byte", 4),
    ("class", 5),
    ("function byte", 6),
    ("number of heights", 3),
    ("plan without heights", 14),
    ("height", 15),
    ("output", 10),
];

/// A set of faults: bit i for fault i.
#[derive(Clone, Copy)]
struct Faults(u32);

impl Faults {
    fn has(self, name: &str) -> bool {
        let at = FAULTS.iter().position(|fault| fault.0 == name).expect(name);
        self.0 >> at & 1 == 1
    }

    /// The number of the first one, which is to be given.
    fn number(self) -> Option<u32> {
        (0..FAULTS.len()).find(|at| self.0 >> at & 1 == 1).map(|at| FAULTS[at].1)
    }
}

/// Why a plan has no heights.
#[derive(Clone, Copy, PartialEq, Eq)]
enum Without {
    Levels,
    DegreeAcross,
    DegreeUp,
}

/// The plan as the faults have it, but for what leaves the lengths of its tables.
fn faulty_plan(faults: Faults, without: Without) -> Plan {
    let without = faults.has("plan without heights").then_some(without);
    let five = without == Some(Without::Levels);
    let (columns, rows, levels) = match five {
        // With four levels there are never too many cells for a call.
        _ if faults.has("cells of any call") => (16, 16, 5),
        _ if faults.has("cells of the projector") => (7, 7, if five { 5 } else { 3 }),
        true => (3, 1, 5),
        false => (3, 2, 3),
    };
    let p = if without == Some(Without::DegreeAcross) { 3 } else { 2 };
    let q = if without == Some(Without::DegreeUp) { 4 } else { 1 };
    plan([columns, rows, levels, p, q, 0, 2, 0])
}

/// What is lent to a call.
#[derive(Clone)]
struct Lent {
    tables: Tables,
    heights: Vec<i32>,
    out: Vec<u64>,
}

impl Lent {
    /// Cell 0 and its second child refined, which class 2 would not have without cell 1, and no fault
    /// but those of the plan.
    fn new(plan: Plan) -> Lent {
        let refined = [0, 1].map(|level| Cell { level, row: 0, column: level });
        let tables = Tables::with_refined(plan, &refined.into());
        let heights = vec![-1; tables.functions.len()];
        let out = (0..needed(&tables) as u64).map(|i| SIGNALLING + i).collect();
        Lent { tables, heights, out }
    }

    /// The faults that leave the lengths of the plan's tables. Of level 0 the last function is
    /// active here.
    fn damaged(&self, faults: Faults) -> Lent {
        let Lent { mut tables, mut heights, mut out } = self.clone();
        let plan = tables.plan;
        let active = plan.functions().position(|f| f.level == 1).expect("a second level") - 1;
        assert_eq!(tables.functions[active], ACTIVE);
        if faults.has("plan") {
            tables.plan.corners_up = 1 << 31;
        }
        if faults.has("table length") {
            tables.cells.pop();
        }
        if faults.has("cell byte") {
            tables.cells[1] = 3;
        }
        if faults.has("class") {
            tables.plan.class = 2;
        }
        if faults.has("function byte") {
            tables.functions[active] = 2;
        }
        if faults.has("number of heights") {
            heights.pop();
        }
        if faults.has("height") {
            heights[active] = 65_537;
        }
        if faults.has("output") {
            out.pop();
        }
        Lent { tables, heights, out }
    }

    fn corners(&self) -> Result<Vec<[f64; 3]>, u32> {
        self.tables.corners(&self.heights, &self.out)
    }
}

/// Of every set of faults the first is given.
#[test]
fn every_set_of_faults() {
    let mut seen = Seen::default();
    for without in [Without::Levels, Without::DegreeAcross, Without::DegreeUp] {
        // Of each plan, which takes its time where it has many cells.
        let mut undamaged = Vec::<Lent>::new();
        for faults in (0..1 << FAULTS.len()).map(Faults) {
            let plan = faulty_plan(faults, without);
            if undamaged.iter().all(|lent| lent.tables.plan != plan) {
                undamaged.push(Lent::new(plan));
            }
            let of_plan = undamaged.iter().find(|lent| lent.tables.plan == plan);
            let answered = of_plan.expect("what is lent").damaged(faults).corners();
            let names = FAULTS.map(|fault| fault.0).into_iter().filter(|name| faults.has(name));
            let said = || names.clone().collect::<Vec<_>>().join(", ");
            assert_eq!(answered.as_ref().err(), faults.number().as_ref(), "{}", said());
            seen.count(&answered);
        }
    }
    seen.expect(&OF_CORNERS);
}

/// The examples of the scope document's refusal table, with good heights and a long output.
#[test]
fn refusals_by_hand() {
    let out = [SIGNALLING; 100];
    let refused = |tables: Tables, number: u32| {
        assert_eq!(tables.corners(&[0; 94], &out), Err(number));
    };
    for numbers in [
        [0, 1, 3, 1, 1, 0, 0, 0],
        [3, 1, 3, 1, 1, 1, 0, 0],
        [3, 1, 3, 1, 1, 0, 8, 0],
        [3, 1, 3, 1, 1, 0, 0, 1],
    ] {
        refused(Tables { plan: plan(numbers), ..mesh(W0, &[]) }, 1);
    }
    refused(Tables { plan: plan([16, 16, 5, 1, 1, 0]), ..mesh(W0, &[]) }, 2);
    refused(Tables { plan: plan([7, 7, 3, 1, 1, 0]), ..mesh(W0, &[]) }, 16);
    refused(Tables { cells: vec![1; 62], ..mesh(W0, &[]) }, 3);
    let mut tables = mesh(W0, &[]);
    tables.cells[0] = 0;
    refused(tables, 4);
    refused(Tables { plan: plan(W2), ..mesh(W0, &[0, 4]) }, 5);
    let mut tables = mesh(W0, &[]);
    tables.functions[0] = 2;
    refused(tables, 6);
    let fresh = mesh(W0, &[]);
    assert_eq!(fresh.corners(&[0; 93], &out), Err(3));
    assert_eq!(fresh.corners(&[0; 95], &out), Err(3));
    assert_eq!(fresh.corners(&[65_537; 94], &out), Err(15));
    assert_eq!(fresh.corners(&[0; 94], &out[..35]), Err(10));
    assert_eq!(fresh.corners(&[0; 94], &out[..36]).map(|corners| corners.len()), Ok(12));
}

// ---- Limits ----

/// Every number of columns, rows and levels: 16 comes directly after 1 and 2, before anything that
/// is lent is looked at, and just for more than 1,024 cells; the others are taken, or have too many
/// levels for heights.
#[test]
fn every_size_of_a_plan() {
    let mut seen = Seen::default();
    for (columns, rows) in (1..=16).flat_map(|columns| (1..=16).map(move |rows| (columns, rows))) {
        for levels in 1..=8 {
            let cells = columns * rows * (4u32.pow(levels) - 1) / 3;
            let plan = plan([columns, rows, levels, 1, 1 + rows % 2, 0]);
            let expected = match cells {
                0..=1_024 => 3,
                1_025..=21_845 => 16,
                _ => 2,
            };
            let empty = Tables { plan, cells: vec![], functions: vec![] };
            assert_eq!(empty.corners(&[], &[]), Err(expected), "{plan:?}");
            let out_of_range = Tables { plan: Plan { class: 1, ..plan }, ..empty };
            assert_eq!(out_of_range.corners(&[], &[]), Err(1), "{plan:?}");
            if expected == 2 {
                continue;
            }
            let tables = Tables::opened(plan);
            let heights = vec![3; tables.functions.len()];
            let answered = tables.corners(&heights, &vec![0; needed(&tables)]);
            let expected = match (expected, levels) {
                (16, _) => Some(16),
                (_, 1..=4) => None,
                _ => Some(14),
            };
            assert_eq!(answered.as_ref().err(), expected.as_ref(), "{plan:?}");
            seen.count(&answered);
        }
    }
    seen.expect(&[0, 14, 16]);
}

/// The plans nearest to 1,024 cells, with heights and without, whatever else is at fault.
#[test]
fn the_limit_of_cells() {
    assert_eq!(MAX_PROJECTED_CELLS, 1_024);
    let answered = |columns, rows, levels, class| {
        let plan = plan([columns, rows, levels, 2, 2, class]);
        let tables = wholly(plan);
        let heights = vec![1; tables.functions.len()];
        let corners = tables.corners(&heights, &vec![SIGNALLING; needed(&tables)]);
        (plan.cell_total(), corners.map(|corners| corners.len()))
    };
    for (columns, rows) in [(12, 1), (6, 2), (4, 3), (3, 4), (2, 6), (1, 12)] {
        assert_eq!(answered(columns, rows, 4, 2), (1_020, Ok(4 * 768)));
    }
    for (columns, rows) in [(3, 1), (1, 3)] {
        assert_eq!(answered(columns, rows, 5, 0), (1_023, Err(14)));
    }
    assert_eq!(answered(7, 7, 3, 2), (1_029, Err(16)));
    // Before the tables' lengths, the heights and the output.
    for numbers in
        [[7, 7, 3, 1, 1, 0], [7, 7, 3, 4, 4, 2], [16, 16, 4, 2, 2, 2], [1, 1, 8, 1, 1, 0]]
    {
        let tables = Tables::opened(plan(numbers));
        let empty = Tables { plan: tables.plan, cells: vec![], functions: vec![] };
        for tables in [&tables, &empty] {
            for heights in [&[][..], &vec![i32::MAX; tables.functions.len()]] {
                assert_eq!(tables.corners(heights, &[]), Err(16), "{numbers:?}");
            }
        }
    }
}

/// 14 is given just for degrees above 2 and more than four levels.
#[test]
fn every_plan_with_heights() {
    for levels in 1..=5 {
        for (p, q) in (1..=4).flat_map(|p| (1..=4).map(move |q| (p, q))) {
            for class in [0, 2, 8] {
                let tables = Tables::opened(plan([1, 2, levels, p, q, class, 0, 2]));
                let without = levels > 4 || p > 2 || q > 2;
                let heights = vec![7; tables.functions.len()];
                let answered = tables.corners(&heights, &[0; 24]);
                assert_eq!(answered.is_ok(), !without, "{:?}", tables.plan);
                assert!(!without || answered == Err(14));
                // Whatever the heights are, and the output.
                let too_high = vec![i32::MIN; tables.functions.len()];
                let expected = Err(if without { 14 } else { 15 });
                assert_eq!(tables.corners(&too_high, &[]), expected);
            }
        }
    }
}

/// 65,536 mm are taken on each level, one unit more is not, above and below. Of functions that are
/// not active anything is taken.
#[test]
fn limits_of_heights() {
    for ((p, q), across, up) in DEGREES.into_iter().flat_map(|d| [(d, 0, 0), (d, 2, 2)]) {
        // The first cell of each level but the last is refined.
        let first = |level| plan([2, 2, 4, 1, 1, 0]).cell_number(Cell { level, row: 0, column: 0 });
        let tables =
            mesh([2, 2, 4, p, q, 0, across, up], &[0, 1, 2].map(|level| first(level) as u32));
        let base = random_heights(&mut Random::new(901), &tables, Fill::Small);
        let out = vec![SIGNALLING; needed(&tables)];
        let with = |function: usize, height: i32| {
            let mut heights = base.clone();
            heights[function] = height;
            tables.corners(&heights, &out)
        };
        let unchanged = with(0, base[0]);
        assert!(unchanged.is_ok());
        let mut levels_seen = [0; 4];
        for (function, level) in labelled(&tables, ACTIVE) {
            levels_seen[level as usize] += 1;
            let most = 65_536 * 16i32.pow(level);
            for height in [most, -most] {
                assert!(with(function, height).is_ok());
            }
            for height in [most + 1, -most - 1, i32::MAX, i32::MIN] {
                assert_eq!(with(function, height), Err(15), "{function} {height}");
            }
        }
        assert!(levels_seen.iter().all(|&often| often > 0), "{levels_seen:?}");
        for label in [PASSIVE, DEACTIVATED] {
            let functions = labelled(&tables, label);
            assert!(functions.len() > 1, "{label}: {functions:?}");
            for &(function, level) in functions.iter().step_by(1 + functions.len() / 20) {
                for height in [65_536 * 16i32.pow(level) + 1, i32::MAX, i32::MIN] {
                    assert_eq!(with(function, height), unchanged, "{function} {height}");
                }
            }
        }
    }
}

// ---- Outputs ----

/// What stands in the output before a call: bits that arithmetic would not leave as they are, and
/// any others.
fn random_output(random: &mut Random, length: usize) -> Vec<u64> {
    let quiet = 0x7ff8_0000_0000_0000 | random.bits() >> 13;
    let one = random.pick(&[
        quiet,
        quiet | 1 << 63,
        SIGNALLING,
        SIGNALLING | 1 << 63,
        f64::NEG_INFINITY.to_bits(),
        (-0.0f64).to_bits(),
        0,
        1, // the least number above 0
        u64::MAX,
    ]);
    match random.once_in(2) {
        true => vec![one; length],
        false => (0..length).map(|_| random.bits()).collect(),
    }
}

/// Lengths around what is needed, and far from it.
fn random_length(random: &mut Random, needed: usize) -> usize {
    let below = [0, 1, 11, needed / 2, needed - 12, needed - 3, needed - 1, needed - 1];
    let enough = [needed, needed, needed + 1, needed + 2, needed + 12, MAX_CORNER_DOUBLES, 20_000];
    if random.once_in(3) {
        random.pick(&below)
    } else {
        random.pick(&enough)
    }
}

/// Every length of the output up to some more than what is needed.
#[test]
fn every_length_of_the_output() {
    let mut random = Random::new(902);
    for numbers in [[2, 1, 1, 2, 1, 0, 2, 0], [1, 1, 2, 1, 2, 0, 0, 0], [2, 2, 2, 2, 2, 2, 0, 2]] {
        let tables = wholly(plan(numbers));
        let heights = random_heights(&mut random, &tables, Fill::Any);
        let whole = shown(&tables, &heights);
        for length in 0..needed(&tables) + 30 {
            let out = random_output(&mut random, length);
            let expected = if length < needed(&tables) { Err(10) } else { Ok(whole.clone()) };
            assert_eq!(tables.corners(&heights, &out), expected, "{length}");
        }
    }
}

/// Outputs that start on any double, so also on one that is not aligned as two of them are.
#[test]
fn every_start_of_the_output() {
    let row = &WORKED[9];
    let tables = row.tables();
    let mesh = owned(&tables);
    let expected = row.expected().1.concat();
    for start in 0..8 {
        let mut buffer = vec![0.5; 8 + expected.len() + 8];
        let Mesh { plan, cells, functions, .. } = &mesh;
        let out = &mut buffer[start..];
        let answered = wallmirror::corners(*plan, cells, functions, &row.heights(&tables), out);
        assert_eq!(answered, Ok(expected.len() / 3));
        assert_eq!(buffer[start..start + expected.len()], expected);
        assert!(buffer[..start].iter().all(|&double| double == 0.5));
        assert!(buffer[start + expected.len()..].iter().all(|&double| double == 0.5));
    }
}

/// A null pointer with length 0 is an empty slice.
#[test]
fn null_pointers_of_length_0() {
    use std::ptr::{null, null_mut};
    let fresh = Tables::opened(plan(W2));
    let raw = differential::raw(fresh.plan);
    let (t, f) = (fresh.cells.len(), fresh.functions.len());
    let refused = |number| ffi::Corners { number, corners: 0 };
    let heights = [0; 94];
    // SAFETY: every length is 0, or that of the vector.
    unsafe {
        let answer = ffi::wallmirror_corners(raw, null(), 0, null(), 0, null(), 0, null_mut(), 0);
        assert_eq!(answer, refused(3));
        let (cells, functions) = (fresh.cells.as_ptr(), fresh.functions.as_ptr());
        let answer = ffi::wallmirror_corners(raw, cells, t, functions, f, null(), 0, null_mut(), 0);
        assert_eq!(answer, refused(3));
        let (heights, many) = (heights.as_ptr(), heights.len());
        let answer =
            ffi::wallmirror_corners(raw, cells, t, functions, f, heights, many, null_mut(), 0);
        assert_eq!(answer, refused(10));
    }
}

// ---- Random ones ----

/// What is to be counted of an accepted answer.
fn kinds_of(tables: &Tables, corners: &[[f64; 3]], spare: usize) -> Vec<(&'static str, bool)> {
    let plan = tables.plan;
    let levels: Vec<u32> = active_cells(tables).iter().map(|cell| cell.level).collect();
    let mut deep = levels.clone();
    deep.dedup();
    let height = |test: fn(f64) -> bool| corners.iter().any(|corner| test(corner[2]));
    vec![
        ("zero", height(|height| height == 0.0)),
        ("below zero", height(|height| height < 0.0)),
        ("above zero", height(|height| height > 0.0)),
        ("beyond the limit of one function", height(|height| height.abs() > 65_536.0)),
        ("no whole number", height(|height| height.fract() != 0.0)),
        ("of one level", deep.len() == 1),
        ("of two levels", deep.len() == 2),
        ("of three levels", deep.len() == 3),
        ("of four levels", deep.len() == 4),
        ("with corners of the plan", has_corners(plan)),
        ("many cells", plan.cell_total() > 900),
        ("one cell", levels.len() == 1),
        ("an output just long enough", spare == 0),
        ("an output with room for a corner more", (1..=12).contains(&spare)),
        ("an output with much room", spare > 1_000),
    ]
}

/// Meshes that random runs reach, with heights of every kind and outputs of every kind.
#[test]
fn meshes_of_random_runs() {
    let mut random = Random::new(903);
    let (mut seen, mut kinds) = (Seen::default(), Kinds::default());
    for turn in 0..1_200 {
        let class = random.pick(&[0, 0, 2, 3, 4]);
        let most = random.pick(&[6, 20, 90, 350, 1_024]);
        let plan = with_heights(&mut random, DEGREES[turn % 4], class, most);
        let mut tables = Tables::opened(plan);
        for _ in 0..random.below(4) + 1 {
            random_step(&mut random, &mut tables);
            let fill = random.pick(&Fill::ALL);
            let heights = random_heights(&mut random, &tables, fill);
            let length = random_length(&mut random, needed(&tables));
            let answered = tables.corners(&heights, &random_output(&mut random, length));
            seen.count(&answered);
            if let Ok(corners) = answered {
                expect_grid(&tables, &corners);
                kinds.count(&kinds_of(&tables, &corners, length - needed(&tables)));
            }
        }
    }
    seen.expect(&[0, 10]);
    kinds.expect_all_but(&[]);
}

/// Puts one thing wrong with what was made of the mesh.
fn damage_lent(random: &mut Random, mesh: &Tables, lent: &mut Lent) {
    let Lent { tables, heights, out } = lent;
    match random.below(DAMAGES + 2) {
        thing if thing < DAMAGES => damage(random, thing, mesh, tables, heights),
        _ => {
            let length = random_length(random, needed(mesh));
            *out = random_output(random, length);
        }
    }
}

/// Plans of all degrees and levels, with nothing wrong or up to three things: every refusal, each
/// for the first reason that there is.
#[test]
fn damaged_in_several_ways() {
    let mut random = Random::new(904);
    let mut seen = Seen::default();
    for turn in 0..9_000 {
        let degrees = match turn % 3 {
            0 => (random.below(4) as u32 + 1, random.below(4) as u32 + 1),
            _ => random.pick(&DEGREES),
        };
        let class = random.pick(&[0, 0, 0, 2, 3, 8]);
        let most = random.pick(&[90, 150, 150, 150, 400, 1_024, 1_400]);
        let plan = random_plan(&mut random, degrees, class, most);
        let mesh = Tables::with_refined(plan, &random_refined(&mut random, plan));
        let fill = random.pick(&Fill::ALL);
        let heights = random_heights(&mut random, &mesh, fill);
        let out = random_output(&mut random, needed(&mesh));
        let mut lent = Lent { tables: mesh.clone(), heights, out };
        for _ in 0..random.below(4) {
            damage_lent(&mut random, &mesh, &mut lent);
        }
        seen.count(&lent.corners());
    }
    seen.expect(&OF_CORNERS);
    assert!(seen.0.iter().all(|&often| often == 0 || often > 20), "{seen:?}");
}

/// All heights but those of active functions are others, and the corners are the same.
#[test]
fn inactive_functions_are_ignored() {
    let mut random = Random::new(905);
    for turn in 0..60 {
        let class = random.pick(&[0, 0, 2, 3]);
        let plan = with_heights(&mut random, DEGREES[turn % 4], class, 120);
        let tables = Tables::with_refined(plan, &random_refined(&mut random, plan));
        let heights = random_heights(&mut random, &tables, Fill::Any);
        let mut others = random_heights(&mut random, &tables, Fill::Zero);
        for (function, _) in labelled(&tables, ACTIVE) {
            others[function] = heights[function];
        }
        assert_eq!(shown(&tables, &others), shown(&tables, &heights));
    }
}

// ---- Large ones, and the wrapper ----

/// As many cells as there may be, and as many active ones: an output of 9,408 doubles, which is the
/// longest. Its plan has every line a corner, so that there are the most functions.
#[test]
fn the_largest_outputs() {
    let mut random = Random::new(906);
    let longest = [14, 14, 2, 2, 2, 2, all_corners(14), all_corners(14)];
    let tables = wholly(plan(longest));
    assert_eq!((tables.cells.len(), needed(&tables)), (980, 9_408));
    let mut meshes = vec![tables];
    for scenario in scenario::projected() {
        meshes.extend([scenario.to_refine, scenario.to_coarsen]);
    }
    for (columns, rows, levels) in [(1, 12, 4), (6, 2, 4), (16, 3, 3), (3, 16, 3), (16, 16, 1)] {
        let (across, up) =
            (random_corners(&mut random, columns), random_corners(&mut random, rows));
        meshes.push(wholly(plan([columns, rows, levels, 2, 2, 0, across, up])));
    }
    for tables in meshes {
        assert!(needed(&tables) <= 9_408, "{:?}", tables.plan);
        let fill = random.pick(&[Fill::Any, Fill::Limits, Fill::Negative]);
        let mut heights = random_heights(&mut random, &tables, fill);
        for length in [needed(&tables), MAX_CORNER_DOUBLES] {
            let out = random_output(&mut random, length);
            let corners = tables.corners(&heights, &out).expect("corners");
            expect_grid(&tables, &corners);
        }
        let short = random_output(&mut random, needed(&tables) - 1);
        assert_eq!(tables.corners(&heights, &short), Err(10));
        let (function, level) = *labelled(&tables, ACTIVE).last().expect("an active function");
        heights[function] = -most(level) - 1;
        assert_eq!(tables.corners(&heights, &short), Err(15));
        assert_eq!(tables.corners(&heights[1..], &short), Err(3));
    }
}

/// No plan that is taken has more active cells, or needs more room than the constant says.
#[test]
fn the_room_that_is_always_enough() {
    let sizes = (1..=16u32).flat_map(|columns| (1..=16).map(move |rows| columns * rows));
    let active = sizes
        .flat_map(|cells| (1..=4).map(move |levels| (cells, levels)))
        .filter(|&(cells, levels)| cells * (4u32.pow(levels) - 1) / 3 <= 1_024)
        .map(|(cells, levels)| cells * 4u32.pow(levels - 1));
    assert_eq!(active.max(), Some(784));
    assert_eq!(MAX_CORNER_DOUBLES, 12 * MAX_PROJECTED_CELLS);
}

/// The model's corners of a cell: those that the words say.
#[test]
fn corners_of_the_model() {
    let plan = plan(W0);
    let of = |number| corners_of(plan, plan.cell_at(number));
    assert_eq!(of(0), [(0, 0), (4, 0), (0, 4), (4, 4)]);
    assert_eq!(of(2), [(8, 0), (12, 0), (8, 4), (12, 4)]);
    assert_eq!(of(10), [(2, 2), (4, 2), (2, 4), (4, 4)]);
    assert_eq!(of(62), [(11, 3), (12, 3), (11, 4), (12, 4)]);
}

fn owned(tables: &Tables) -> Mesh {
    let Tables { plan, cells, functions } = tables.clone();
    Mesh::from_tables(of_wrapper(plan), cells, functions)
}

/// The wrapper says what the call says.
#[test]
fn forms_of_the_wrapper() {
    let both = |tables: &Tables, heights: &[i32]| {
        let mesh = owned(tables);
        let Mesh { plan, cells, functions, .. } = &mesh;
        let answered = mesh.corners(heights);
        let mut out = vec![0.25; MAX_CORNER_DOUBLES];
        let lent = wallmirror::corners(*plan, cells, functions, heights, &mut out);
        assert_eq!(lent, answered.as_ref().map(Vec::len).map_err(|&refusal| refusal));
        let floats = |corner: &Corner| [corner.across, corner.up, corner.height];
        let floats = answered.as_ref().map(|all| all.iter().map(floats).collect::<Vec<_>>());
        let written = floats.as_ref().map_or(0, |corners| 3 * corners.len());
        assert!(floats.as_ref().map_or(true, |corners| corners.concat() == out[..written]));
        assert!(out[written..].iter().all(|&double| double == 0.25));
        let number = floats.map_err(|refusal| refusal.number());
        assert_eq!(number, tables.corners(heights, &[0; MAX_CORNER_DOUBLES]));
        answered
    };
    for row in WORKED {
        let tables = row.tables();
        let corners = both(&tables, &row.heights(&tables)).expect("corners");
        assert_eq!(corners.len(), 4 * row.corners.len());
    }
    let tables = mesh(W0, &[0]);
    let heights = heights_with(&tables, &[(1, 65_537)]);
    assert_eq!(both(&tables, &heights), Err(Refusal::PointOrHeightOutOfRange));
    assert_eq!(both(&tables, &heights[1..]), Err(Refusal::TableLength));
    let cubic = Tables::opened(plan([1, 1, 1, 3, 1, 0]));
    assert_eq!(both(&cubic, &[0; 8]), Err(Refusal::PlanWithoutHeights));
    let large = Tables::opened(plan([7, 7, 3, 1, 1, 0]));
    assert_eq!(both(&large, &[]), Err(Refusal::TooManyCellsToProject));
    // Tables that are none, with more active cells than there may be.
    let none = Tables { cells: vec![1; 100_000], ..tables };
    assert_eq!(both(&none, &[0; 94]), Err(Refusal::TableLength));
    let message = Refusal::TooManyCellsToProject.to_string();
    assert!(message.starts_with("refusal 16: ") && message.contains("1024"), "{message}");
}
