//! Reading and writing files: files worked by hand, every short file, every file near a good one,
//! files damaged in several ways at once, the longest, and meshes of random runs, with corners and
//! without, against the model.

use differential::scenario;
use differential::{
    all_corners, every_corners, has_corners, of_wrapper, plan, random_corners, random_plan,
    random_refined, Kind, Random, Tables,
};
use model::file::{number, NO_PLAN};
use model::{Cell, Plan};
use std::collections::BTreeSet;
use wallmirror::{Mesh, ReadRefusal, Refusal, MAX_CELLS, MAX_FILE_BYTES, MAX_FUNCTIONS};

const W0: [u32; 6] = [3, 1, 3, 1, 1, 0];
const W2: [u32; 6] = [3, 1, 3, 1, 1, 2];

/// The most that three groups hold.
const MOST: u32 = (1 << 21) - 1;

/// The numbers that reading answers.
const OF_READING: [usize; 8] = [0, 1, 2, 3, 4, 5, 12, 13];

/// The bytes that hexadecimal digits say.
fn bytes(digits: &str) -> Vec<u8> {
    let byte = |digits| u8::from_str_radix(digits, 16).expect("two hexadecimal digits");
    digits.split_whitespace().map(byte).collect()
}

/// The bytes of numbers, each in its shortest form.
fn written(numbers: &[u32]) -> Vec<u8> {
    numbers.iter().flat_map(|&value| number(value)).collect()
}

/// The file of the plan, six numbers or eight, with the count and the cells. Corners that are both
/// 0 are left out.
fn file_of<const N: usize>(plan: [u32; N], cells: &[u32]) -> Vec<u8> {
    let (first, corners) = plan.split_at(6);
    let corners = if corners == [0, 0] { &[] } else { corners };
    written(&[first, cells, corners].concat())
}

/// Tables of the plan's lengths, with bytes in them that no mesh has.
fn poisoned(plan: Plan) -> Tables {
    Tables { plan, cells: vec![77; plan.cell_total()], functions: vec![78; plan.function_total()] }
}

/// Tables of no entries.
fn empty() -> Tables {
    Tables { plan: NO_PLAN, cells: vec![], functions: vec![] }
}

/// The mesh of the plan in which these cells are refined, if there is one.
fn mesh<const N: usize>(numbers: [u32; N], refined: &[u32]) -> Tables {
    mesh_of(plan(numbers), refined)
}

fn mesh_of(plan: Plan, refined: &[u32]) -> Tables {
    let refined = refined.iter().map(|&cell| plan.cell_at(cell as usize)).collect();
    Tables::with_refined(plan, &refined)
}

/// Reads a file of unknown plan: with empty tables, and with tables of the plan that this answers.
/// What is read passes check and has the same file. The answer is the number and the tables, empty
/// where the file has no plan.
fn read(file: &[u8]) -> (u32, Tables) {
    let mut first = empty();
    let number = first.read(file);
    if first.plan == NO_PLAN {
        assert!([12, 1, 2].contains(&number));
        return (number, first);
    }
    assert_eq!(number, 3);
    let mut tables = poisoned(first.plan);
    let number = tables.read(file);
    assert_eq!(tables.plan, first.plan);
    if number == 0 {
        assert_eq!(tables.check(), 0);
        assert_eq!(tables.write(&vec![0xee; file.len()]), Ok(file.to_vec()));
    } else {
        assert_eq!(tables, poisoned(first.plan));
    }
    (number, tables)
}

/// Writes the mesh and reads it back.
fn round_trip(mesh: &Tables) -> Vec<u8> {
    let file = mesh.file();
    assert!(file.len() <= MAX_FILE_BYTES);
    assert_eq!(read(&file), (0, mesh.clone()));
    file
}

/// How often each number was answered.
#[derive(Default, Debug)]
struct Seen([u32; 14]);

impl Seen {
    fn read(&mut self, file: &[u8]) {
        self.0[read(file).0 as usize] += 1;
    }

    /// These were answered, and no others.
    fn expect(&self, numbers: &[usize]) {
        for (number, &often) in self.0.iter().enumerate() {
            assert_eq!(often > 0, numbers.contains(&number), "number {number}: {self:?}");
        }
    }
}

// ---- Worked by hand ----

#[test]
fn numbers_by_hand() {
    for (value, digits) in [
        (0, "00"),
        (1, "01"),
        (127, "7f"),
        (128, "80 01"),
        (129, "81 01"),
        (255, "ff 01"),
        (256, "80 02"),
        (5460, "d4 2a"),
        (16_383, "ff 7f"),
        (16_384, "80 80 01"),
        (21_845, "d5 aa 01"),
        (MOST, "ff ff 7f"),
    ] {
        assert_eq!(number(value), bytes(digits), "{value}");
    }
}

/// Files, their plans and their refined cells.
const FILES: [(&str, [u32; 6], &[u32]); 19] = [
    ("03 01 03 01 01 00 00", W0, &[]),
    // P1, P2, P3.
    ("03 01 03 01 01 00 01 00", W0, &[0]),
    ("03 01 03 01 01 00 01 01", W0, &[1]),
    ("03 01 03 01 01 00 02 00 01", W0, &[0, 1]),
    // P7, and what is left of it once cell 3 is coarsened.
    ("03 01 03 01 01 02 02 00 03", W2, &[0, 3]),
    ("03 01 03 01 01 02 01 00", W2, &[0]),
    // Everything refined that can be: cells 0 to 2, and 3 to 14 of level 1.
    (
        "03 01 03 01 01 02 0f 00 01 01 01 01 01 01 01 01 01 01 01 01 01 01",
        W2,
        &[0, 1, 2, 3, 4, 5, 6, 7, 8, 9, 10, 11, 12, 13, 14],
    ),
    // One level, so that nothing can be refined.
    ("10 10 01 04 04 08 00", [16, 16, 1, 4, 4, 8], &[]),
    ("01 01 01 01 01 00 00", [1, 1, 1, 1, 1, 0], &[]),
    // Cell 3 refined, and 15 after it, which takes 4 along.
    ("08 01 05 01 01 02 03 03 01 0b", [8, 1, 5, 1, 1, 2], &[3, 4, 15]),
    // A first cell, and a difference, of one group and of two.
    ("10 10 02 01 01 00 01 7f", [16, 16, 2, 1, 1, 0], &[127]),
    ("10 10 02 01 01 00 01 80 01", [16, 16, 2, 1, 1, 0], &[128]),
    ("10 10 02 01 01 00 02 00 7f", [16, 16, 2, 1, 1, 0], &[0, 127]),
    ("10 10 02 01 01 00 02 00 80 01", [16, 16, 2, 1, 1, 0], &[0, 128]),
    ("10 10 02 01 01 00 02 7f 80 01", [16, 16, 2, 1, 1, 0], &[127, 255]),
    // The first cell of every level but the last: 1, 4, 16, 64, 256, 1024 cells apart.
    (
        "01 01 08 01 01 00 07 00 01 04 10 40 80 02 80 08",
        [1, 1, 8, 1, 1, 0],
        &[0, 1, 5, 21, 85, 341, 1365],
    ),
    // Cell 0 refined, and 4 after it, which takes 1 along.
    ("03 01 03 01 01 02 03 00 01 03", W2, &[0, 1, 4]),
    // What the rule before Req 12 made of P7, and of cells 3 and 15.
    ("03 01 03 01 01 02 03 00 01 02", W2, &[0, 1, 3]),
    ("08 01 05 01 01 02 04 02 01 01 0b", [8, 1, 5, 1, 1, 2], &[2, 3, 4, 15]),
];

/// The same with corners, whose numbers stand behind the last cell.
const WITH_CORNERS: [(&str, [u32; 8], &[u32]); 18] = [
    // Before column 1, before column 2, before both; with degree 1 they change nothing else.
    ("03 01 03 01 01 00 00 02 00", [3, 1, 3, 1, 1, 0, 2, 0], &[]),
    ("03 01 03 01 01 00 00 04 00", [3, 1, 3, 1, 1, 0, 4, 0], &[]),
    ("03 01 03 01 01 00 00 06 00", [3, 1, 3, 1, 1, 0, 6, 0], &[]),
    ("03 01 03 01 01 00 01 00 02 00", [3, 1, 3, 1, 1, 0, 2, 0], &[0]),
    ("03 01 03 01 01 02 03 00 01 02 06 00", [3, 1, 3, 1, 1, 2, 6, 0], &[0, 1, 3]),
    // Up alone, and both.
    ("01 03 03 01 01 00 00 00 02", [1, 3, 3, 1, 1, 0, 0, 2], &[]),
    ("02 02 02 02 03 02 00 02 02", [2, 2, 2, 2, 3, 2, 2, 2], &[]),
    ("02 02 02 02 03 02 04 00 01 01 01 02 02", [2, 2, 2, 2, 3, 2, 2, 2], &[0, 1, 2, 3]),
    // Degree 2 and class 2, where the cells would not do without the corner.
    ("03 01 03 02 01 02 02 00 03 02 00", [3, 1, 3, 2, 1, 2, 2, 0], &[0, 3]),
    ("04 01 03 02 01 02 03 00 01 05 04 00", [4, 1, 3, 2, 1, 2, 4, 0], &[0, 1, 6]),
    // Corners of one group, of two and of three.
    ("07 01 02 02 01 00 00 40 00", [7, 1, 2, 2, 1, 0, 64, 0], &[]),
    ("08 01 02 02 01 00 00 80 01 00", [8, 1, 2, 2, 1, 0, 128, 0], &[]),
    ("0e 01 02 02 01 00 01 0d fe 7f 00", [14, 1, 2, 2, 1, 0, 16_382, 0], &[13]),
    ("0f 01 02 02 01 00 00 80 80 01 00", [15, 1, 2, 2, 1, 0, 16_384, 0], &[]),
    ("01 10 02 02 01 00 00 00 80 80 02", [1, 16, 2, 2, 1, 0, 0, 32_768], &[]),
    ("10 10 01 04 04 08 00 fe ff 03 fe ff 03", [16, 16, 1, 4, 4, 8, 65_534, 65_534], &[]),
    // A cell and a corner of the same number.
    ("03 01 02 03 01 00 01 02 02 00", [3, 1, 2, 3, 1, 0, 2, 0], &[2]),
    ("03 03 02 03 01 00 02 02 02 02 02", [3, 3, 2, 3, 1, 0, 2, 2], &[2, 4]),
];

/// All files worked by hand, with their plans and refined cells.
fn files() -> impl Iterator<Item = (&'static str, Plan, &'static [u32])> {
    let without = FILES.into_iter().map(|(digits, numbers, cells)| (digits, plan(numbers), cells));
    let with =
        WITH_CORNERS.into_iter().map(|(digits, numbers, cells)| (digits, plan(numbers), cells));
    without.chain(with)
}

#[test]
fn files_by_hand() {
    for (digits, plan, refined) in files() {
        let tables = mesh_of(plan, refined);
        assert_eq!(tables.check(), 0, "{digits}");
        assert_eq!(round_trip(&tables), bytes(digits));
        assert_eq!(tables.cells.iter().filter(|&&byte| byte == 2).count(), refined.len());
    }
}

/// The same files by the calls that the scope document works out.
#[test]
fn files_after_calls() {
    let after = |numbers: [u32; 6], calls: &[(Kind, &[u32])]| {
        let mut tables = Tables::opened(plan(numbers));
        for &(kind, marks) in calls {
            assert_eq!(tables.call_with_room(kind, marks).number, 0);
        }
        round_trip(&tables)
    };
    use Kind::*;
    assert_eq!(after(W0, &[]), bytes(FILES[0].0));
    assert_eq!(after(W0, &[(RefineCells, &[0])]), bytes(FILES[1].0));
    assert_eq!(after(W0, &[(RefineCells, &[1])]), bytes(FILES[2].0));
    assert_eq!(after(W0, &[(RefineFunctions, &[1])]), bytes(FILES[3].0));
    let p7: [(Kind, &[u32]); 2] = [(RefineCells, &[0]), (RefineCells, &[3])];
    assert_eq!(after(W2, &p7), bytes(FILES[4].0));
    assert_eq!(after(W2, &[p7[0], p7[1], (CoarsenCells, &[3])]), bytes(FILES[5].0));
    let needy: [(Kind, &[u32]); 2] = [(RefineCells, &[0]), (RefineCells, &[4])];
    assert_eq!(after(W2, &needy), bytes(FILES[16].0));
    assert_eq!(after(W2, &[needy[0], needy[1], (CoarsenCells, &[1])]), bytes(FILES[16].0));
    assert_eq!(after(W2, &[needy[0], needy[1], (CoarsenCells, &[1, 4])]), bytes(FILES[5].0));
    assert_eq!(after(W2, &[p7[0], (RefineCells, &[1]), p7[1]]), bytes(FILES[17].0));
    let one_click: [(Kind, &[u32]); 2] = [(RefineCells, &[3]), (RefineCells, &[15])];
    assert_eq!(after([8, 1, 5, 1, 1, 2], &one_click), bytes(FILES[9].0));
}

/// Files and their refusals.
const REFUSED: [(&str, u32); 107] = [
    // 12: nothing there, or cut off before a number of the plan, before the count, before the first
    // cell, before a difference.
    ("", 12),
    ("03", 12),
    ("03 01", 12),
    ("03 01 03", 12),
    ("03 01 03 01", 12),
    ("03 01 03 01 01", 12),
    ("03 01 03 01 01 00", 12),
    ("03 01 03 01 01 00 01", 12),
    ("03 01 03 01 01 00 02", 12),
    ("03 01 03 01 01 00 02 00", 12),
    ("03 01 03 01 01 02 03 00 01", 12),
    // 12: cut off inside one.
    ("83", 12),
    ("83 80", 12),
    ("03 01 03 01 01 80", 12),
    ("03 01 03 01 01 00 82", 12),
    ("03 01 03 01 01 00 82 80", 12),
    ("03 01 03 01 01 00 01 80", 12),
    ("03 01 03 01 01 00 01 80 80", 12),
    ("03 01 03 01 01 00 02 00 81", 12),
    ("03 01 03 01 01 00 02 00 81 80", 12),
    // 12: longer than the shortest form, each number in turn.
    ("83 00 01 03 01 01 00 00", 12),
    ("03 81 00 03 01 01 00 00", 12),
    ("03 01 83 00 01 01 00 00", 12),
    ("03 01 03 81 00 01 00 00", 12),
    ("03 01 03 01 81 00 00 00", 12),
    ("03 01 03 01 01 80 00 00", 12),
    ("03 01 03 01 01 00 80 00", 12),
    ("03 01 03 01 01 00 81 00 00", 12),
    ("03 01 03 01 01 00 01 80 00", 12),
    ("03 01 03 01 01 00 02 00 81 00", 12),
    ("83 80 00 01 03 01 01 00 00", 12),
    ("03 01 03 01 01 00 80 80 00", 12),
    ("03 01 03 01 01 00 81 80 00 00", 12),
    ("03 01 03 01 01 00 01 ff 80 00", 12),
    ("10 10 02 01 01 00 02 00 80 81 00", 12),
    // 12: more than three groups, in a shortest form or not.
    ("80 80 80 01 01 03 01 01 00 00", 12),
    ("83 80 80 00 01 03 01 01 00 00", 12),
    ("03 01 03 01 01 00 80 80 80 01", 12),
    ("03 01 03 01 01 00 01 ff ff ff 7f", 12),
    ("03 01 03 01 01 00 02 00 81 80 80 00", 12),
    ("03 01 03 01 01 00 02 00 80 80 80 80 01", 12),
    ("ff ff ff ff ff ff ff ff ff ff ff ff", 12),
    // 12: a difference of 0. The first cell may be 0.
    ("03 01 03 01 01 00 02 00 00", 12),
    ("03 01 03 01 01 00 02 01 00", 12),
    ("03 01 03 01 01 02 04 00 01 02 00", 12),
    ("03 01 03 01 01 02 04 00 01 00 02", 12),
    // 12 is judged over all numbers before the plan is, and before a cell is: here the count is
    // more than what follows, or a number is at fault behind what 1, 2 or 4 would refuse.
    ("00 01 03 01 01 00 01", 12),
    ("10 10 05 01 01 00 01", 12),
    ("00 01 03 01 01 00 02 00 00", 12),
    ("10 10 05 01 01 00 02 00 81 00", 12),
    ("03 01 03 01 01 00 02 3f 00", 12),
    ("03 01 03 01 01 00 ff ff 7f 00 01 02", 12),
    // 12: a number alone behind the last cell, of whatever form, or two that are both 0.
    ("03 01 03 01 01 00 00 00", 12),
    ("03 01 03 01 01 00 00 02", 12),
    ("03 01 03 01 01 00 00 ff", 12),
    ("03 01 03 01 01 00 02 00 01 80", 12),
    ("03 01 03 01 01 00 00 80 01", 12),
    ("03 01 03 01 01 02 02 00 04 00", 12),
    ("03 01 03 01 01 00 00 00 00", 12),
    ("03 01 03 01 01 00 02 00 01 00 00", 12),
    ("03 01 03 01 01 00 00 00 00 02 00", 12),
    // 12: either of the two cut off, not shortest, or of more than three groups.
    ("03 01 03 01 01 00 00 02 80", 12),
    ("03 01 03 01 01 00 00 02 80 80", 12),
    ("03 01 03 01 01 00 00 82 00 00", 12),
    ("03 01 03 01 01 00 00 82 80 00 00", 12),
    ("03 01 03 01 01 00 00 02 80 00", 12),
    ("03 01 03 01 01 00 00 00 82 00", 12),
    ("03 01 03 01 01 00 00 80 80 80 01 00", 12),
    ("03 01 03 01 01 00 00 02 80 80 80 00", 12),
    ("03 01 03 01 01 00 01 00 02 ff ff ff 7f", 12),
    // 12 also where 1, 2, 4 or 5 would follow.
    ("00 01 03 01 01 00 00 02", 12),
    ("10 10 05 01 01 00 00 00 00", 12),
    ("03 01 03 01 01 00 01 03 00", 12),
    ("03 01 03 01 01 02 02 00 3f 00 00", 12),
    ("03 01 03 01 01 80 80 01 01 ff ff 7f 00 00", 12),
    ("01 02 08 01 01 00 01 ff ff 7f 00", 12),
    // 1: a number of the plan out of range, however large it is, and whatever else.
    ("00 01 03 01 01 00 00", 1),
    ("11 01 03 01 01 00 00", 1),
    ("03 01 03 01 01 01 00", 1),
    ("03 01 03 01 01 09 00", 1),
    ("ff ff 7f 01 03 01 01 00 00", 1),
    ("03 01 83 01 01 01 00 00", 1),
    ("03 01 03 01 01 80 80 01 01 ff ff 7f 02 00", 1),
    ("00 00 00 00 00 00 00", 1),
    // 1: a bit outside 1 to A-1 or 1 to B-1, whatever cells are listed and whatever follows.
    ("03 01 03 01 01 00 00 01 00", 1),
    ("03 01 03 01 01 00 00 08 00", 1),
    ("03 01 03 01 01 00 00 03 00", 1),
    ("03 01 03 01 01 00 00 02 01", 1),
    ("03 01 03 01 01 00 00 00 02", 1),
    ("01 01 03 01 01 00 00 02 00", 1),
    ("10 01 02 01 01 00 00 80 80 04 00", 1),
    ("03 01 03 01 01 02 02 00 04 08 00", 1),
    ("03 01 03 01 01 00 01 3f 01 00 07 80", 1),
    ("10 10 05 01 01 00 00 01 00", 1),
    ("03 01 03 01 01 00 00 ff ff 7f ff ff 7f", 1),
    // 2: too many cells.
    ("10 10 05 01 01 00 00", 2),
    ("10 10 05 01 01 00 00 02 04", 2),
    ("01 02 08 01 01 00 01 ff ff 7f", 2),
    ("01 02 08 01 01 00 01 ff ff 7f 00 02 00", 2),
    // 4: a listed cell of T or more, of the last level, or without its parent; a later cell too.
    ("03 01 03 01 01 00 01 3f", 4),
    ("03 01 03 01 01 00 01 ff ff 7f", 4),
    ("03 01 03 01 01 00 01 0f", 4),
    ("03 01 03 01 01 00 02 00 0f", 4),
    ("03 01 03 01 01 00 01 03", 4),
    ("03 01 03 01 01 02 02 00 3f", 4),
    // 5: Req 12's example.
    ("03 01 03 01 01 02 02 00 04", 5),
    // With degree 2 cell 3 needs cell 1, where there is no corner.
    ("03 01 03 02 01 02 02 00 03", 5),
];

/// The same where the plan is answered with its corners.
const REFUSED_WITH_CORNERS: [(&str, u32, [u32; 8]); 11] = [
    // 4, with bytes behind the corners too.
    ("03 01 03 01 01 00 01 3f 02 00", 4, [3, 1, 3, 1, 1, 0, 2, 0]),
    ("03 01 03 02 01 00 01 03 04 00", 4, [3, 1, 3, 2, 1, 0, 4, 0]),
    ("03 01 03 02 01 00 02 00 0f 06 00 00", 4, [3, 1, 3, 2, 1, 0, 6, 0]),
    // 5: cell 1 is missing; and cell 2 is where the corner stands one line further on.
    ("03 01 03 02 01 02 02 00 04 02 00", 5, [3, 1, 3, 2, 1, 2, 2, 0]),
    ("04 01 03 02 01 02 03 00 01 05 08 00", 5, [4, 1, 3, 2, 1, 2, 8, 0]),
    ("01 03 03 01 02 02 02 00 05 00 02 ff", 5, [1, 3, 3, 1, 2, 2, 0, 2]),
    // 13: bytes behind both corner numbers, of whatever form.
    ("03 01 03 01 01 00 00 02 00 00", 13, [3, 1, 3, 1, 1, 0, 2, 0]),
    ("03 01 03 01 01 00 00 02 00 80", 13, [3, 1, 3, 1, 1, 0, 2, 0]),
    ("03 01 03 02 01 02 03 00 01 02 02 00 ff ff ff ff", 13, [3, 1, 3, 2, 1, 2, 2, 0]),
    ("02 02 02 02 03 02 00 02 02 02", 13, [2, 2, 2, 2, 3, 2, 2, 2]),
    ("02 02 02 02 03 02 00 02 02 02 02", 13, [2, 2, 2, 2, 3, 2, 2, 2]),
];

/// All files that are refused, with their plans: `None` where there is none.
fn refused_files() -> impl Iterator<Item = (&'static str, u32, Option<Plan>)> {
    let plan_of = |digits: &str, number: u32| {
        let first: Vec<u32> = bytes(digits).iter().take(6).map(|&byte| byte.into()).collect();
        (![12, 1, 2].contains(&number)).then(|| plan::<6>(first.try_into().expect("six numbers")))
    };
    let without =
        REFUSED.into_iter().map(move |(digits, number)| (digits, number, plan_of(digits, number)));
    let with = REFUSED_WITH_CORNERS.into_iter();
    without.chain(with.map(|(digits, number, numbers)| (digits, number, Some(plan(numbers)))))
}

#[test]
fn refusals_by_hand() {
    for (digits, number, plan) in refused_files() {
        let file = bytes(digits);
        let (answered, tables) = read(&file);
        assert_eq!(answered, number, "{digits}");
        assert_eq!(tables.plan, plan.unwrap_or(NO_PLAN), "{digits}");
        if plan.is_none() {
            assert_eq!(tables, empty());
            // Also where there is room for every mesh.
            let (cells, functions) = (vec![7; MAX_CELLS], vec![7; MAX_FUNCTIONS]);
            let mut tables = Tables { plan: NO_PLAN, cells, functions };
            assert_eq!(tables.read(&file), number);
            assert_eq!(tables.plan, NO_PLAN);
        }
    }
    for number in OF_READING {
        // 3 is what lent tables get, below.
        let there = refused_files().any(|(_, refusal, _)| refusal as usize == number);
        assert_eq!(there, number != 0 && number != 3);
    }
}

/// The examples of the scope document's refusal table, each with no room at all besides, which is
/// the last thing to be refused.
#[test]
fn refusals_of_writing_by_hand() {
    let refused = |tables: Tables, number: u32| {
        assert_eq!(tables.write(&[]), Err(number));
        assert_eq!(tables.write(&[5; 7]), Err(number));
    };
    for numbers in [
        [0, 1, 3, 1, 1, 0, 0, 0],
        [3, 1, 3, 1, 1, 1, 0, 0],
        [3, 1, 3, 1, 1, 0, 1, 0],
        [3, 1, 3, 1, 1, 0, 0, 2],
    ] {
        refused(Tables { plan: plan(numbers), ..mesh(W0, &[]) }, 1);
    }
    refused(Tables { plan: plan([16, 16, 5, 1, 1, 0]), ..mesh(W0, &[]) }, 2);
    refused(Tables { cells: vec![1; 62], ..mesh(W0, &[]) }, 3);
    let mut tables = mesh(W0, &[]);
    tables.cells[0] = 0;
    refused(tables, 4);
    refused(mesh(W2, &[0, 4]), 5);
    let mut tables = mesh(W0, &[]);
    tables.functions[0] = 2;
    refused(tables, 6);
    refused(mesh(W0, &[0]), 10);
    assert_eq!(mesh(W0, &[0]).write(&[5; 8]), Ok(bytes("03 01 03 01 01 00 01 00")));
    // The corners are behind the last cell and count.
    let cornered = [3, 1, 3, 1, 1, 0, 2, 0];
    refused(mesh(cornered, &[0]), 10);
    assert_eq!(mesh(cornered, &[0]).write(&[5; 9]), Err(10));
    let file = bytes("03 01 03 01 01 00 01 00 02 00");
    assert_eq!(mesh(cornered, &[0]).write(&[5; 10]), Ok(file));
    let mut tables = mesh([3, 1, 3, 2, 1, 0, 2, 0], &[0]);
    tables.plan.corners_across = 4;
    refused(tables, 6);
}

// ---- Everything short, and everything near ----

/// Calls with every list of so many bytes from these.
fn each_string(letters: &[u8], length: usize, visit: &mut impl FnMut(&[u8])) {
    let mut string = vec![letters[0]; length];
    let mut places = vec![0; length];
    loop {
        visit(&string);
        // The next one, as a counter goes on.
        let Some(i) = places.iter().rposition(|&place| place + 1 < letters.len()) else {
            return;
        };
        places[i] += 1;
        places[i + 1..].fill(0);
        for (byte, &place) in string[i..].iter_mut().zip(&places[i..]) {
            *byte = letters[place];
        }
    }
}

#[test]
fn each_string_is_there_once() {
    let mut seen = BTreeSet::new();
    each_string(b"abc", 4, &mut |string| assert!(seen.insert(string.to_vec())));
    assert_eq!(seen.len(), 81);
}

/// Without a good beginning: every file of two bytes, and files of a few bytes up to eight.
#[test]
fn every_short_file() {
    let mut seen = Seen::default();
    let all: Vec<u8> = (0..=255).collect();
    for length in 0..=2 {
        each_string(&all, length, &mut |file| seen.read(file));
    }
    seen.expect(&[12]);
    let mut seen = Seen::default();
    for length in 0..=8 {
        each_string(&[0x00, 0x01, 0x02, 0x80], length, &mut |file| seen.read(file));
    }
    seen.expect(&[0, 1, 4, 12]);
    // As long as corners and a byte behind them make it.
    let mut seen = Seen::default();
    for length in 9..=10 {
        each_string(&[0x00, 0x01, 0x02], length, &mut |file| seen.read(file));
    }
    seen.expect(&[0, 1, 4, 12, 13]);
}

/// Behind a good plan, everything that a few bytes make: counts, cells, corners, and what follows.
/// Of one cell there are no corners, and so no bytes behind them.
#[test]
fn every_ending() {
    let letters = [0x00, 0x01, 0x02, 0x03, 0x04, 0x05, 0x14, 0x7f, 0x80, 0x81, 0x84, 0xff];
    for (numbers, most, refusals) in [
        ([1, 1, 2, 1, 1, 0], 5, &[0, 1, 4, 12][..]),
        ([1, 1, 3, 1, 1, 0], 5, &[0, 1, 4, 12][..]),
        ([2, 1, 3, 1, 1, 2], 5, &[0, 1, 4, 5, 12, 13][..]),
        ([2, 3, 2, 2, 2, 2], 5, &[0, 1, 4, 12, 13][..]),
        ([1, 1, 1, 4, 3, 8], 4, &[0, 1, 4, 12][..]),
    ] {
        let mut seen = Seen::default();
        let head = file_of(numbers, &[]);
        for length in 0..=most {
            each_string(&letters, length, &mut |ending| seen.read(&[&head, ending].concat()));
        }
        seen.expect(refusals);
    }
}

/// All lists of cells of a small plan, in rising order, whether they make a mesh or not.
#[test]
fn every_set_of_cells() {
    for numbers in [
        [1, 1, 2, 1, 1, 0, 0, 0],
        [2, 1, 2, 2, 1, 2, 0, 0],
        [3, 1, 2, 1, 1, 2, 0, 0],
        [2, 1, 2, 2, 1, 2, 2, 0],
        [1, 2, 2, 3, 4, 0, 0, 2],
    ] {
        let total = plan(numbers).cell_total() as u32;
        let mut accepted = 0;
        // One more than there are.
        for chosen in 0..1u32 << (total + 1) {
            let cells: Vec<u32> = (0..=total).filter(|cell| chosen >> cell & 1 == 1).collect();
            let mut list = vec![cells.len() as u32];
            list.extend(cells.first());
            list.extend(cells.windows(2).map(|pair| pair[1] - pair[0]));
            let (number, _) = read(&file_of(numbers, &list));
            // Every set of cells of level 0 is one of refined cells, and no other.
            let good = cells.iter().all(|&cell| cell < numbers[0] * numbers[1]);
            assert_eq!(number == 0, good, "{cells:?}");
            accepted += u32::from(number == 0);
        }
        assert_eq!(accepted, 1 << (numbers[0] * numbers[1]));
    }
}

/// Each number of a good file in turn is every number of one and two groups, and many of three.
#[test]
fn every_number_changed() {
    // The second with corners 4 and 2. A mesh of class 2 and two levels is always admissible.
    for (good, answered) in [
        (&[2, 1, 2, 1, 2, 2, 1, 1][..], &[0, 1, 2, 4, 12][..]),
        // A count that is less leaves bytes behind what is then taken for the corners.
        (&[3, 3, 2, 2, 2, 2, 2, 2, 2, 4, 2][..], &[0, 1, 2, 4, 12, 13][..]),
    ] {
        let mut seen = Seen::default();
        for place in 0..good.len() {
            for value in (0..1 << 14).chain((1 << 14..=MOST).step_by(1013)).chain([MOST]) {
                let mut numbers = good.to_vec();
                numbers[place] = value;
                seen.read(&written(&numbers));
            }
        }
        seen.expect(answered);
    }
}

/// Every bit that a number on file can have, alone and beside good ones, for plans of every width,
/// across and up: 0 for those of lines between cells, 1 for others.
#[test]
fn every_bit_of_the_corners() {
    for n in 1..=16u32 {
        for good in [0, all_corners(n), all_corners(n) & 0x5555] {
            for bit in 0..21u32 {
                let corners = good | 1 << bit;
                let expected = u32::from(!(1..n).contains(&bit));
                let across = [n, 1, 1, 3, 2, 0, corners, 0];
                assert_eq!(read(&file_of(across, &[0])).0, expected, "{n} {corners:b}");
                let up = [1, n, 2, 2, 3, 2, 0, corners];
                assert_eq!(read(&file_of(up, &[0])).0, expected, "{n} {corners:b}");
                assert_eq!(read(&file_of(up, &[1, 0])).0, expected, "{n} {corners:b}");
            }
        }
    }
}

/// Plans in range and just out of it, all of them of few cells and some of too many.
#[test]
fn every_plan() {
    let mut seen = Seen::default();
    for columns in [0, 1, 2, 16, 17] {
        for rows in [0, 1, 3, 16, 17] {
            for levels in 0..=9 {
                for (across, up) in [(0, 1), (1, 0), (1, 1), (4, 4), (4, 5), (5, 4)] {
                    for class in [0, 1, 2, 8, 9] {
                        let numbers = [columns, rows, levels, across, up, class];
                        let file = file_of(numbers, &[0]);
                        let mut tables = empty();
                        let number = tables.read(&file);
                        seen.0[number as usize] += 1;
                        assert!(number != 3 || tables.plan == plan(numbers));
                        if number == 3 && tables.plan.cell_total() < 400 {
                            seen.read(&file);
                        }
                    }
                }
            }
        }
    }
    seen.expect(&[0, 1, 2, 3]);
}

/// Meshes whose files have something of everything.
fn some_meshes() -> Vec<Tables> {
    let mut meshes: Vec<Tables> =
        [1, 3, 4, 6, 9, 12, 14, 16].map(|i| mesh(FILES[i].1, FILES[i].2)).to_vec();
    meshes.extend([4, 8, 9, 12].map(|i| mesh(WITH_CORNERS[i].1, WITH_CORNERS[i].2)));
    let mut random = Random::new(700);
    for numbers in [
        [3, 2, 3, 2, 1, 2, 0, 0],
        [1, 1, 4, 1, 3, 3, 0, 0],
        [16, 10, 2, 1, 1, 0, 0, 0],
        [3, 2, 3, 2, 3, 2, 4, 2],
        [16, 3, 2, 2, 2, 0, 0x8102, 6],
    ] {
        let plan = plan(numbers);
        let seeds = (0..6).map(|_| plan.cell_at(random.below(plan.cell_total() / 5))).collect();
        meshes.push(Tables::with_refined(plan, &model::smallest(plan, seeds)));
    }
    meshes
}

/// Every other byte at every place, every cut, every byte behind, left out or put between.
#[test]
fn every_damage_to_a_byte() {
    let mut seen = Seen::default();
    for mesh in some_meshes() {
        let file = round_trip(&mesh);
        let corners = written(&[mesh.plan.corners_across, mesh.plan.corners_up]);
        let smooth = corners == [0, 0];
        for place in 0..file.len() {
            for byte in (0..=255).filter(|&byte| byte != file[place]) {
                let mut damaged = file.clone();
                damaged[place] = byte;
                seen.read(&damaged);
            }
            // Cut just before the corners it is the file of another plan.
            if !smooth && place == file.len() - corners.len() {
                seen.read(&file[..place]);
            } else {
                assert_eq!(read(&file[..place]).0, 12);
            }
            let mut damaged = file.clone();
            damaged.remove(place);
            seen.read(&damaged);
            for byte in [0x00, 0x01, 0x02, 0x7f, 0x80, 0x81, 0xff] {
                let mut damaged = file.clone();
                damaged.insert(place, byte);
                seen.read(&damaged);
            }
        }
        // One number behind the last cell stands alone; behind the corners there may be none.
        let number = if smooth { 12 } else { 13 };
        for byte in 0..=255 {
            assert_eq!(read(&[&file[..], &[byte]].concat()).0, number);
            assert_eq!(read(&[&file[..], &[0x80, byte]].concat()).0, number);
        }
        let twice = [&file[..], &file[..]].concat();
        assert!(smooth || read(&twice).0 == 13);
        seen.read(&twice);
    }
    seen.expect(&[0, 1, 2, 4, 5, 12, 13]);
}

// ---- Lent lengths ----

/// Tables one short, one long, empty and as they should be, in every combination, for files of
/// every kind.
#[test]
fn every_length_of_tables() {
    // With degree 2 across and a corner there are 114 functions, without the corner 104.
    for (digits, expected, total) in [
        ("03 01 03 01 01 02 03 00 01 02", 0, 94),
        ("03 01 03 01 01 02 03 00 01 02 02 00", 0, 94),
        ("03 01 03 02 01 02 00", 0, 104),
        ("03 01 03 02 01 02 03 00 01 02 02 00", 0, 114),
        ("03 01 03 01 01 02 02 00 3f", 4, 94),
        ("03 01 03 01 01 02 02 00 04", 5, 94),
        ("03 01 03 02 01 02 02 00 04 02 00", 5, 114),
        ("03 01 03 01 01 02 00 04 00 00", 13, 94),
        ("03 01 03 02 01 02 00 04 00 00", 13, 114),
        ("03 01 03 01 01 02 03 00 01", 12, 94),
        ("03 01 03 01 01 02 00 00", 12, 94),
        ("03 01 03 02 01 02 00 00 00", 12, 104),
        ("03 01 03 01 01 01 00", 1, 94),
        ("03 01 03 01 01 00 00 01 00", 1, 94),
        ("10 10 05 01 01 00 00", 2, 94),
    ] {
        for t in [0, 1, 62, 63, 64, 94, MAX_CELLS] {
            for f in [0, 1, 63, 93, 94, 95, 103, 104, 113, 114, 115, MAX_FUNCTIONS] {
                let poison: Vec<u8> = (0..=255).cycle().take(MAX_FUNCTIONS).collect();
                let (cells, functions) = (poison[..t].to_vec(), poison[..f].to_vec());
                let mut tables = Tables { plan: NO_PLAN, cells, functions };
                let number = tables.read(&bytes(digits));
                let of_tables = [0, 4, 5, 13].contains(&expected) && (t, f) != (63, total);
                assert_eq!(number, if of_tables { 3 } else { expected }, "{digits} {t} {f}");
            }
        }
    }
}

/// Room of every length from none to some more than is needed.
#[test]
fn every_length_of_a_file() {
    for mesh in some_meshes() {
        let file = mesh.file();
        for room in (0..file.len() + 3).chain([MAX_FILE_BYTES, MAX_FILE_BYTES + 1, 100_000]) {
            let poison: Vec<u8> = (0..room).map(|i| (i * 7) as u8 ^ 0xa5).collect();
            let expected = if room < file.len() { Err(10) } else { Ok(file.clone()) };
            assert_eq!(mesh.write(&poison), expected);
        }
    }
}

/// A null pointer with length 0 is an empty slice.
#[test]
fn null_pointers_of_length_0() {
    use std::ptr::{null, null_mut};
    use wallmirror::ffi;
    let fresh = Tables::opened(plan(W2));
    let raw = differential::raw(fresh.plan);
    let file = fresh.file();
    let (t, f) = (fresh.cells.len(), fresh.functions.len());
    // SAFETY: every length is 0, or that of the vector.
    unsafe {
        let answer = ffi::wallmirror_read(null(), 0, null_mut(), 0, null_mut(), 0);
        assert_eq!(answer, ffi::Read { number: 12, plan: ffi::Plan::default() });
        let answer = ffi::wallmirror_read(file.as_ptr(), file.len(), null_mut(), 0, null_mut(), 0);
        assert_eq!(answer, ffi::Read { number: 3, plan: raw });

        let answer = ffi::wallmirror_write(raw, null(), 0, null(), 0, null_mut(), 0);
        assert_eq!(answer, ffi::Written { number: 3, length: 0 });
        let (cells, functions) = (fresh.cells.as_ptr(), fresh.functions.as_ptr());
        let answer = ffi::wallmirror_write(raw, cells, t, functions, f, null_mut(), 0);
        assert_eq!(answer, ffi::Written { number: 10, length: 0 });
    }
}

// ---- Large ones ----

/// The longest file is reached, and no plan passes it: with all cells refined that can be, each
/// costs one byte, and a difference of two groups leaves out more cells than it costs. Corners cost
/// a byte each at least, which a plan of one cell on level 0 cannot have.
#[test]
fn the_longest_file() {
    let refinable = |plan: Plan| {
        plan.cell_total() - plan.columns as usize * plan.rows as usize * 4usize.pow(plan.levels - 1)
    };
    let corners = |plan: Plan| match (all_corners(plan.columns), all_corners(plan.rows)) {
        (0, 0) => 0,
        (across, up) => number(across).len() + number(up).len(),
    };
    let mut longest = 0;
    for columns in 1..=16 {
        for rows in 1..=16 {
            for levels in 1..=8 {
                let plan = plan([columns, rows, levels, 1, 1, 0]);
                if plan.cell_total() <= MAX_CELLS {
                    let count = refinable(plan);
                    longest = longest.max(6 + number(count as u32).len() + count + corners(plan));
                }
            }
        }
    }
    assert_eq!(longest, MAX_FILE_BYTES);

    for (numbers, count) in [
        ([1, 1, 8, 1, 1, 0, 0, 0], 5461),
        ([1, 1, 8, 4, 4, 2, 0, 0], 5461),
        ([4, 1, 7, 4, 3, 2, 10, 0], 5460),
        ([1, 4, 7, 1, 2, 0, 0, 14], 5460),
        ([2, 2, 7, 2, 2, 2, 2, 2], 5460),
    ] {
        let plan = plan(numbers);
        let refined = plan.cells().filter(|cell| cell.level + 1 < plan.levels).collect();
        let tables = Tables::with_refined(plan, &refined);
        let file = round_trip(&tables);
        let smooth = plan.corners_across | plan.corners_up == 0;
        assert_eq!(file.len(), if smooth { MAX_FILE_BYTES - 1 } else { MAX_FILE_BYTES });
        let (head, rest) = file.split_at(9);
        assert_eq!(head, written(&[&numbers[..6], &[count, 0]].concat()));
        let (cells, corners) = rest.split_at(count as usize - 1);
        assert!(cells.iter().all(|&byte| byte == 1));
        assert_eq!(corners, if smooth { vec![] } else { written(&numbers[6..]) });
        assert_eq!(tables.write(&file[1..]), Err(10));

        assert_eq!(read(&file[..file.len() - 1]).0, 12);
        assert_eq!(read(&[&file[..], &[0]].concat()).0, if smooth { 12 } else { 13 });
        // One cell more, of the last level.
        let more = written(&[&numbers[..6], &[count + 1, 0]].concat());
        assert_eq!(read(&[&more, cells].concat()).0, 12);
        assert_eq!(read(&[&more, cells, &[1], corners].concat()).0, 4);
        for place in [9, 10, 100, 5000, 8 + cells.len()] {
            for (byte, number) in [(0, 12), (0x81, 12), (2, 4), (0x7f, 4)] {
                let mut damaged = file.clone();
                damaged[place] = byte;
                assert_eq!(read(&damaged).0, number, "{byte} at {place}");
            }
        }
    }
}

#[test]
fn the_largest_meshes() {
    for scenario in scenario::all().into_iter().chain(scenario::with_corners()) {
        for tables in [&scenario.to_refine, &scenario.to_coarsen] {
            let file = round_trip(tables);
            assert_eq!(read(&file[..file.len() - 1]).0, 12);
        }
    }
}

/// Cells far above 32 bits, also where their last 32 bits alone would name a cell.
#[test]
fn sums_of_differences() {
    let w0 = |count: u32, cells: &[u32]| read(&[file_of(W0, &[count]), written(cells)].concat()).0;
    for many in [1, 2, 100, 2047, 2048, 2049, 5000, 10_000] {
        assert_eq!(w0(many as u32, &vec![MOST; many]), 4, "{many}");
        assert_eq!(w0(many as u32, &vec![1 << 20; many]), 4, "{many}");
        // One that is missing, one that is 0, one too many, and two, which are then the corners.
        assert_eq!(w0(many as u32 + 1, &vec![MOST; many]), 12);
        assert_eq!(w0(many as u32 + 1, &[vec![MOST; many], vec![0]].concat()), 12);
        assert_eq!(w0(many as u32, &vec![MOST; many + 1]), 12);
        assert_eq!(w0(many as u32, &vec![MOST; many + 2]), 1);
        assert_eq!(w0(many as u32, &[vec![MOST; many], vec![2, 0]].concat()), 4);
    }
    // 2048 times 2^21 - 1 are 2048 less than 2^32.
    for beyond in [0, 1, 2, 3, 62] {
        for first in [0, 1] {
            let mut cells = vec![first];
            cells.extend([MOST; 2048]);
            cells.push(2048 - first + beyond);
            let sum: u64 = cells.iter().map(|&value| u64::from(value)).sum();
            assert_eq!(sum, (1 << 32) + u64::from(beyond));
            assert_eq!(w0(cells.len() as u32, &cells), 4);
            // And on from there, by differences that a mesh could have.
            cells.extend([1, 1]);
            assert_eq!(w0(cells.len() as u32, &cells), 4);
        }
    }
}

/// Counts as large as a number can be, with as many cells and without.
#[test]
fn the_largest_counts() {
    let file = |count: u32, cells: usize| {
        [file_of(W0, &[count, 0]), vec![1; cells.saturating_sub(1)]].concat()
    };
    // One number too many stands alone; two are corners, and 1 is none of this plan.
    for (count, cells, number) in [
        (MOST, 1, 12),
        (MOST, MOST as usize - 1, 12),
        (MOST, MOST as usize, 4),
        (MOST - 1, MOST as usize, 12),
        (MOST - 2, MOST as usize, 1),
        (16_384, 16_383, 12),
        (16_384, 16_384, 4),
        (64, 64, 4),
        (63, 63, 4),
        (16, 16, 4),
        (15, 15, 0),
        (15, 16, 12),
        (15, 1 << 20, 1),
    ] {
        assert_eq!(read(&file(count, cells)).0, number, "{count} {cells}");
    }
    for (count, number) in [(15, 0), (MOST, 4), (16, 4)] {
        let cornered = [file(count, count as usize), vec![2, 0]].concat();
        assert_eq!(read(&cornered).0, number);
        let longer = [cornered, vec![0xff; 1 << 20]].concat();
        assert_eq!(read(&longer).0, if number == 0 { 13 } else { number });
    }
}

// ---- Random ones ----

/// Bytes of any kind, most often small ones, behind nothing or behind a good plan.
#[test]
fn random_bytes() {
    let mut random = Random::new(701);
    let mut seen = Seen::default();
    for turn in 0..40_000 {
        let kind = random.below(3);
        let length = random.pick(&[3, 7, 8, 9, 10, 12, 16, 40]);
        let mut file: Vec<u8> = (0..length)
            .map(|_| match kind {
                0 => random.bits() as u8,
                1 => random.pick(&[0, 1, 1, 2, 3, 4]),
                _ => random.pick(&[0, 1, 1, 1, 2, 2, 3, 5, 9, 0x7f, 0x80, 0x81, 0x85, 0xff]),
            })
            .collect();
        if turn % 2 == 0 {
            let numbers = random.pick(&[[1, 1, 3, 1, 1, 0], [2, 1, 3, 2, 1, 2], W2]);
            file.splice(0..0, file_of(numbers, &[]));
        }
        seen.read(&file);
    }
    seen.expect(&[0, 1, 4, 5, 12, 13]);
}

/// Lists of numbers with several things done to them at once, so that the order of the refusals
/// shows, read into tables of any lengths.
#[test]
fn damaged_in_several_ways() {
    let mut random = Random::new(702);
    let (mut seen, mut cornered) = (Seen::default(), 0);
    for _ in 0..12_000 {
        let degrees = (random.below(4) as u32 + 1, random.below(4) as u32 + 1);
        let class = random.pick(&[0, 2, 2, 3]);
        let plan = random_plan(&mut random, degrees, class, 110);
        cornered += u32::from(has_corners(plan));
        let refined = random_refined(&mut random, plan);
        let mut numbers = numbers_of(&Tables::with_refined(plan, &refined));
        let (mut t, mut f) = (plan.cell_total(), plan.function_total());
        let damages = random.below(4);
        for _ in 0..damages {
            let place = random.below(numbers.len());
            match random.below(12) {
                0 => numbers[random.below(6)] = random.pick(&[0, 1, 2, 5, 9, 17, 128, MOST]),
                1 => numbers[2] = random.pick(&[6, 7, 8]),
                2 => numbers[5] = random.pick(&[0, 2, 3]),
                3 => numbers[6] = numbers[6].wrapping_add(random.pick(&[1, MOST])) & MOST,
                4 if place > 6 => numbers[place] = random.pick(&[0, 1, 2, 3, 200, 16_384, MOST]),
                5 if place > 6 => {
                    // A cell less, with the others where they were.
                    let value = numbers.remove(place);
                    if let Some(next) = numbers.get_mut(place) {
                        *next += value;
                    }
                    numbers[6] = numbers[6].saturating_sub(1);
                }
                6 => numbers.push(random.pick(&[0, 1, 7])),
                7 => {
                    // Corners, perhaps behind others, and good ones more often than not.
                    let corners = [plan.columns, plan.rows].map(|n| random_corners(&mut random, n));
                    numbers.extend(corners);
                    if random.once_in(6) {
                        *numbers.last_mut().expect("a number") |= random.pick(&[1, 1 << 16]);
                    }
                }
                8 if place > 6 => drop(numbers.pop()),
                9 => t = random.pick(&[0, t.saturating_sub(1), t + 1, f]),
                10 => f = random.pick(&[0, f.saturating_sub(1), f + 1, t]),
                _ => {}
            }
        }
        let mut file: Vec<u8> = vec![];
        for value in numbers {
            file.extend(number(value));
            if random.once_in(200) {
                lengthen(&mut random, &mut file);
            }
        }
        if random.once_in(12) {
            file.truncate(random.below(file.len() + 1));
        }
        if random.once_in(12) {
            file.push(random.bits() as u8);
        }
        let poison = |length| (0..length).map(|i| (i * 3) as u8).collect();
        let mut tables = Tables { plan: NO_PLAN, cells: poison(t), functions: poison(f) };
        seen.0[tables.read(&file) as usize] += 1;
        seen.read(&file);
    }
    seen.expect(&OF_READING);
    assert!(cornered > 2000, "{cornered}");
}

/// The numbers of the mesh's file.
fn numbers_of(mesh: &Tables) -> Vec<u32> {
    let mut numbers = vec![];
    let (mut value, mut shift) = (0, 0);
    for byte in mesh.file() {
        value |= u32::from(byte & 0x7f) << shift;
        shift += 7;
        if byte < 0x80 {
            numbers.push(value);
            (value, shift) = (0, 0);
        }
    }
    numbers
}

/// Groups of nothing behind the last number.
fn lengthen(random: &mut Random, file: &mut Vec<u8>) {
    for _ in 0..random.below(4) + 1 {
        *file.last_mut().expect("a byte") |= 0x80;
        file.push(0);
    }
}

/// Meshes of random plans after random runs of calls, and others as random as that: written and read
/// back, by the calls and by the forms of the wrapper that own their tables.
#[test]
fn meshes_of_random_runs() {
    let mut random = Random::new(703);
    let mut lengths = BTreeSet::new();
    for turn in 0..320 {
        let degrees = (turn % 4 + 1, turn / 4 % 4 + 1);
        let class = random.pick(&[0, 2, 3, 4, 5, 6, 7, 8]);
        let most = random.pick(&[30, 100, 400, 1500]);
        let plan = random_plan(&mut random, degrees, class, most);
        let mut tables = if random.once_in(2) {
            Tables::opened(plan)
        } else {
            Tables::with_refined(plan, &random_refined(&mut random, plan))
        };
        for _ in 0..random.below(12) + 1 {
            // More refining than coarsening, so that there is something to list.
            let refine = [Kind::RefineCells, Kind::RefineFunctions];
            let kind =
                if random.once_in(3) { random.pick(&Kind::ALL) } else { random.pick(&refine) };
            let markable = tables.markable(kind);
            let marks: Vec<u32> = match &markable[..] {
                [] => vec![],
                some => (0..random.pick(&[0, 1, 3, 9])).map(|_| random.pick(some)).collect(),
            };
            assert_eq!(tables.call_with_room(kind, &marks).number, 0);
            lengths.insert(round_trip(&tables).len());
        }
        owned_round_trip(&tables);
    }
    assert!(lengths.len() > 30, "{lengths:?}");
}

/// A mesh of the wrapper with these tables.
fn owned(tables: &Tables) -> Mesh {
    let Tables { plan, cells, functions } = tables.clone();
    Mesh::from_tables(of_wrapper(plan), cells, functions)
}

fn owned_round_trip(tables: &Tables) {
    let mesh = owned(tables);
    let file = mesh.to_file().expect("a mesh");
    assert_eq!(file, tables.file());
    assert_eq!(Mesh::from_file(&file), Ok(mesh));
}

/// The wrapper says what the calls say.
#[test]
fn forms_of_the_wrapper() {
    for (digits, plan, refined) in files() {
        let tables = mesh_of(plan, refined);
        assert_eq!(Mesh::from_file(&bytes(digits)), Ok(owned(&tables)));
        owned_round_trip(&tables);
    }
    for (digits, number, _) in refused_files() {
        let file = bytes(digits);
        let refusal = Refusal::from_number(number).expect("a refusal");
        assert_eq!(Mesh::from_file(&file), Err(refusal), "{digits}");
        let plan = read(&file).1.plan;
        let plan = (plan != NO_PLAN).then_some(of_wrapper(plan));
        let unread = wallmirror::read(&file, &mut [], &mut []).unwrap_err();
        let first = if plan.is_some() { Refusal::TableLength } else { refusal };
        assert_eq!(unread, ReadRefusal { refusal: first, plan });
        assert_eq!(unread.to_string(), first.to_string());
        assert_eq!(Refusal::from(unread), first);
    }
    let mut tables = owned(&mesh(W0, &[0]));
    let mut file = [9; 9];
    let Mesh { plan, cells, functions, .. } = &tables;
    assert_eq!(wallmirror::write(*plan, cells, functions, &mut file), Ok(8));
    assert_eq!(file, [3, 1, 3, 1, 1, 0, 1, 0, 9]);
    let refused = wallmirror::write(*plan, cells, functions, &mut file[..7]);
    assert_eq!(refused, Err(Refusal::CellListTooShort));
    tables.functions[0] = 0;
    assert_eq!(tables.to_file(), Err(Refusal::WrongFunctionByte));
    tables.cells.pop();
    assert_eq!(tables.to_file(), Err(Refusal::TableLength));
}

/// One mesh has one file, and another mesh another: all meshes of a small plan, and some of its
/// other corners.
#[test]
fn every_mesh_has_its_file() {
    for numbers in [[2, 1, 3, 1, 1, 0], [1, 3, 3, 1, 2, 2], [4, 2, 2, 4, 3, 2]] {
        let plan = plan(numbers);
        let corners: Vec<(u32, u32)> = every_corners(plan.rows)
            .flat_map(|up| every_corners(plan.columns).map(move |across| (across, up)))
            .collect();
        let mut all: Vec<BTreeSet<Cell>> = vec![BTreeSet::new()];
        for cell in plan.cells().filter(|cell| cell.level + 1 < plan.levels) {
            let present = |mesh: &&BTreeSet<Cell>| {
                plan.parent(cell).is_none_or(|parent| mesh.contains(&parent))
            };
            let refined: Vec<_> = all
                .iter()
                .filter(present)
                .map(|mesh| mesh.iter().copied().chain([cell]).collect())
                .collect();
            all.extend(refined);
        }
        let mut files = BTreeSet::new();
        for (i, refined) in all.into_iter().enumerate() {
            let others = if i % 7 == 0 { &corners[..] } else { &corners[..1] };
            for &(corners_across, corners_up) in others {
                let plan = Plan { corners_across, corners_up, ..plan };
                let tables = Tables::with_refined(plan, &refined);
                if model::is_admissible(plan, &tables.cells) {
                    assert!(files.insert(round_trip(&tables)));
                } else {
                    assert_eq!(tables.write(&[5; 99]), Err(5));
                }
            }
        }
        assert!(files.len() > 200, "{}", files.len());
    }
}

/// Tables that are no mesh are not written, for the first reason that there is, whatever the room.
#[test]
fn writing_refused() {
    let mut random = Random::new(704);
    let mut seen = Seen::default();
    for _ in 0..6000 {
        let degrees = (random.below(4) as u32 + 1, random.below(4) as u32 + 1);
        let class = random.pick(&[0, 2, 3]);
        let plan = random_plan(&mut random, degrees, class, 150);
        let mut tables = Tables::with_refined(plan, &random_refined(&mut random, plan));
        let length = tables.file().len();
        for _ in 0..random.below(3) {
            let cell = random.below(tables.cells.len().max(1));
            match random.below(11) {
                0 => tables.plan.columns = random.pick(&[0, 17, u32::MAX]),
                1 => tables.plan.levels = random.pick(&[0, 8, 9, 1 << 31]),
                2 => tables.plan.class = random.pick(&[0, 1, 2, 3]),
                3 => tables.plan.corners_across = random_corners(&mut random, plan.columns),
                4 => tables.plan.corners_up = random_corners(&mut random, plan.rows),
                5 => tables.plan.corners_up |= random.pick(&[1, 1 << 16, 1 << 31]),
                6 => drop(tables.cells.pop()),
                7 => tables.functions.push(0),
                8 if cell < tables.cells.len() => tables.cells[cell] = random.pick(&[0, 1, 2, 3]),
                9 if tables.cells.len() == plan.cell_total() => {
                    tables.functions = model::labels(plan, &tables.cells);
                }
                _ => tables.functions[0] = random.pick(&[0, 1, 2, 255]),
            }
        }
        let room = random.pick(&[0, length - 1, length, length + 1, 600]);
        let poison: Vec<u8> = (0..room).map(|i| (i * 5) as u8).collect();
        seen.0[tables.write(&poison).err().unwrap_or(0) as usize] += 1;
    }
    seen.expect(&[0, 1, 2, 3, 4, 5, 6, 10]);
}
