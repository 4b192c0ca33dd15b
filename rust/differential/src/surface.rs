//! Heights of functions: plans whose surface has them, heights of every kind, and points.

use crate::{plan, random_corners, random_plan, Random, Tables};
use model::height::far_edges;
use model::{Plan, ACTIVE};
use std::collections::BTreeMap;
use std::fmt::Debug;
use std::str::FromStr;
use wallmirror::MAX_HEIGHT_MM;

/// The degrees of a plan whose surface has heights.
pub const DEGREES: [(u32, u32); 4] = [(1, 1), (2, 1), (1, 2), (2, 2)];

/// A plan whose surface has heights, with at most so many cells.
pub fn with_heights(random: &mut Random, degrees: (u32, u32), class: u32, most: usize) -> Plan {
    // Half of them with four levels, as far as so few cells allow.
    let fewest = random.pick(&[1, if most >= 85 { 4 } else { 1 }]);
    loop {
        let plan = random_plan(random, degrees, class, most);
        if (fewest..=4).contains(&plan.levels) {
            return plan;
        }
    }
}

/// The mesh of the plan in which these cells are refined.
pub fn mesh<const N: usize>(numbers: [u32; N], refined: &[u32]) -> Tables {
    mesh_of(plan(numbers), refined)
}

fn mesh_of(plan: Plan, refined: &[u32]) -> Tables {
    let refined = refined.iter().map(|&cell| plan.cell_at(cell as usize)).collect();
    let tables = Tables::with_refined(plan, &refined);
    assert_eq!(tables.check(), 0, "{plan:?}");
    tables
}

/// Numbers with spaces between them, in groups with commas between these.
pub fn groups<T: FromStr<Err: Debug>>(text: &str) -> Vec<Vec<T>> {
    let numbers = |group: &str| group.split_whitespace().map(|n| n.parse().expect(n)).collect();
    text.split(", ").map(numbers).collect()
}

/// The mesh of a plan, six numbers or eight, in which these cells are refined.
pub fn worked_mesh(numbers: &str, refined: &str) -> Tables {
    let numbers: Vec<u32> = groups(numbers).concat();
    let plan = match numbers.first_chunk::<8>() {
        Some(&eight) => plan(eight),
        None => plan(*numbers.first_chunk::<6>().expect("six numbers")),
    };
    mesh_of(plan, &groups(refined).concat())
}

/// Functions, each with a height.
pub fn worked_heights(some: &str) -> Vec<(usize, i32)> {
    groups::<i32>(some).iter().map(|pair| (pair[0] as usize, pair[1])).collect()
}

/// Points, across and up, each with a height.
pub fn worked_points(points: &str) -> Vec<(u32, u32, f64)> {
    let point = |group: &Vec<f64>| (group[0] as u32, group[1] as u32, group[2]);
    groups(points).iter().map(point).collect()
}

/// Heights of 0 but for these functions.
pub fn heights_with(tables: &Tables, some: &[(usize, i32)]) -> Vec<i32> {
    let mut heights = vec![0; tables.functions.len()];
    for &(function, height) in some {
        heights[function] = height;
    }
    heights
}

/// The greatest number that an active function of the level may have, or that there is.
pub fn most(level: u32) -> i32 {
    i32::try_from(i64::from(MAX_HEIGHT_MM) << (4 * level)).unwrap_or(i32::MAX)
}

/// The functions with this label, and their levels.
pub fn labelled(tables: &Tables, label: u8) -> Vec<(usize, u32)> {
    let numbered = tables.plan.functions().zip(&tables.functions).enumerate();
    numbered
        .filter(|(_, (_, &byte))| byte == label)
        .map(|(number, (function, _))| (number, function.level))
        .collect()
}

/// What the active functions have.
#[derive(Clone, Copy, Debug, PartialEq, Eq)]
pub enum Fill {
    Zero,
    Small,
    Any,
    Limits,
    Negative,
    One,
}

impl Fill {
    pub const ALL: [Fill; 6] =
        [Fill::Zero, Fill::Small, Fill::Any, Fill::Limits, Fill::Negative, Fill::One];
}

/// Heights that are taken: those of active functions within their limits, those of others whatever.
pub fn random_heights(random: &mut Random, tables: &Tables, fill: Fill) -> Vec<i32> {
    let active = labelled(tables, ACTIVE);
    let mut heights = vec![0; tables.functions.len()];
    for &(function, level) in &active {
        let most = most(level);
        heights[function] = match fill {
            Fill::Zero | Fill::One => 0,
            Fill::Small => random.below(9) as i32 - 4,
            Fill::Any => random.bits() as i32 % most,
            Fill::Limits => random.pick(&[most, -most, most - 1, 1 - most]),
            Fill::Negative => -random.pick(&[0, 1, 17, most]),
        };
    }
    if fill == Fill::One {
        let (function, level) = random.pick(&active);
        heights[function] = random.pick(&[1, -1, 3, -3, most(level), -most(level)]);
    }
    let kind = random.below(3);
    for (height, _) in heights.iter_mut().zip(&tables.functions).filter(|(_, &b)| b != ACTIVE) {
        *height = match kind {
            0 => 0,
            1 => random.pick(&[i32::MIN, i32::MAX, 65_537, -65_537]),
            _ => random.bits() as i32,
        };
    }
    heights
}

/// The points that are so many eighths apart, and those of the far edges.
pub fn points_in_steps(plan: Plan, step: u32) -> Vec<(u32, u32)> {
    let (far_across, far_up) = far_edges(plan);
    let places = |far: u32| (0..=far).filter(move |place| place % step == 0 || *place == far);
    places(far_up).flat_map(|up| places(far_across).map(move |across| (across, up))).collect()
}

/// The ends of both directions, then points of edges, of grid lines, of the finest active cell, on
/// corners and next to them, and others.
pub fn random_points(random: &mut Random, tables: &Tables, many: usize) -> Vec<(u32, u32)> {
    let plan = tables.plan;
    let (far_across, far_up) = far_edges(plan);
    let finest = tables.cells.iter().rposition(|&byte| byte == ACTIVE).expect("an active cell");
    let finest = plan.cell_at(finest);
    let mut points = vec![(0, 0), (far_across, 0), (0, far_up), (far_across, far_up)];
    while points.len() < many {
        let kind = random.below(5);
        let mut place = |far: u32, of_finest: u32, corners: u32| {
            // A cell of the finest level that has an active one, and one of any level.
            let (cell, line) = (8 << (plan.levels - 1 - finest.level), 8 << random.below(4));
            let place = match kind {
                0 => random.pick(&[0, far, far - 1, far]),
                1 => (random.below(far as usize + 1) as u32 + line / 2) / line * line,
                2 => of_finest * cell + random.below(cell as usize + 1) as u32,
                3 if corners != 0 => {
                    let bits: Vec<u32> = (1..16).filter(|bit| corners >> bit & 1 == 1).collect();
                    let corner = (8 << (plan.levels - 1)) * random.pick(&bits);
                    random.pick(&[corner - 1, corner, corner, corner + 1])
                }
                _ => random.below(far as usize + 1) as u32,
            };
            place.min(far)
        };
        let across = place(far_across, finest.column, plan.corners_across);
        points.push((across, place(far_up, finest.row, plan.corners_up)));
    }
    points
}

/// How many things [`damage`] may put wrong.
pub const DAMAGES: usize = 16;

/// Puts one thing wrong, of these, with tables and heights that were made of the mesh.
pub fn damage(
    random: &mut Random,
    thing: usize,
    mesh: &Tables,
    tables: &mut Tables,
    heights: &mut Vec<i32>,
) {
    let cell = random.below(mesh.cells.len());
    match thing {
        0 => tables.plan.columns = random.pick(&[0, 17, u32::MAX]),
        1 => tables.plan.levels = random.pick(&[0, 5, 8, 9, 1 << 31]),
        2 => {
            let larger = random.pick(&[(16, 16, 5), (1, 2, 8), (5, 1, 7), (7, 7, 3), (16, 16, 4)]);
            (tables.plan.columns, tables.plan.rows, tables.plan.levels) = larger;
        }
        // A class that the mesh was not made for, most often.
        3 | 4 => tables.plan.class = random.pick(&[1, 2, 2, 2]),
        5 => drop(tables.cells.pop()),
        6 => tables.functions.push(0),
        7 if cell < tables.cells.len() => tables.cells[cell] = random.pick(&[0, 1, 2, 3]),
        8 => tables.functions[0] = random.pick(&[0, 1, 2, 255]),
        9 => drop(heights.pop()),
        10 => heights.push(random.pick(&[0, i32::MIN])),
        11 => heights.clear(),
        12 => tables.plan.corners_across = random_corners(random, mesh.plan.columns),
        13 => tables.plan.corners_up = random_corners(random, mesh.plan.rows),
        14 => tables.plan.corners_across |= random.pick(&[1, 1 << 16, 1 << 31]),
        15 if heights.len() == mesh.functions.len() => {
            let (function, level) = random.pick(&labelled(mesh, ACTIVE));
            // What the last levels may have is more than there is.
            let beyond = most(level.min(3)) + 1;
            heights[function] = random.pick(&[beyond, -beyond, i32::MAX, i32::MIN]);
        }
        _ => {}
    }
}

/// How often what came up.
#[derive(Default, Debug)]
pub struct Kinds(BTreeMap<&'static str, u32>);

impl Kinds {
    pub fn count(&mut self, kinds: &[(&'static str, bool)]) {
        for &(name, holds) in kinds {
            *self.0.entry(name).or_default() += u32::from(holds);
        }
    }

    /// All came up more than a few times, but for these, which cannot.
    pub fn expect_all_but(&self, never: &[&str]) {
        for (name, &often) in &self.0 {
            let expected = if never.contains(name) { often == 0 } else { often > 5 };
            assert!(expected, "{name}: {self:?}");
        }
    }
}
