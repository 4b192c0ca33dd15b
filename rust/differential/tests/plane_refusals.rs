//! Planes: rows worked by hand, with the numbers written out, so that library and model are both
//! held to them; and the order of all refusals of each call.

use differential::order::{
    expect_each_two, expect_in_order, good_marks, of_lists, of_marks, refine_alone, REFINED_CELLS,
    W2,
};
use differential::planes::{Both, Call, Input, OnPlanes};
use differential::surface::mesh;
use differential::{accepted, out_of_range, plan, refused, Changing, Kind, Outcome, Tables};
use model::planes::Planes;
use model::Plan;
use wallmirror::{ffi, MAX_PLANE_WORDS};
use Kind::*;

const W0: [u32; 6] = [3, 1, 3, 1, 1, 0];

/// One word for each plane.
fn word(present: u64, refined: u64) -> Planes {
    Planes { present: vec![present], refined: vec![refined] }
}

/// The mesh of the plan on planes, opened in words of garbage.
fn opened<const N: usize>(numbers: [u32; N]) -> OnPlanes {
    let plan = plan(numbers);
    let words = plan.cell_total().div_ceil(64);
    let planes = Planes { present: vec![0xfeed; words], refined: vec![u64::MAX; words] };
    let mut mesh = OnPlanes { plan, planes, functions: vec![78; plan.function_total()] };
    assert_eq!(mesh.open(), 0);
    mesh
}

/// Runs the call with lists of 63 and 94 entries.
fn call(mesh: &mut OnPlanes, kind: Kind, marks: &[u32]) -> Outcome {
    mesh.call(kind, marks, &[7; 63], &[8; 94])
}

fn counted(active_cells: u32, refined_cells: u32, active_functions: u32) -> ffi::Count {
    ffi::Count { number: 0, active_cells, refined_cells, active_functions, area: 48 }
}

// ---- Rows worked by hand: 3 1 3, with 63 cells and one spare bit ----

/// P1. Cells 0 to 2 are there at first; cell 0 has the children 3, 4, 9 and 10.
#[test]
fn p1_refine_0() {
    let mut mesh = opened(W0);
    let fresh = mesh.clone();
    assert_eq!(mesh.planes, word(0b111, 0));
    assert_eq!(mesh.count(), counted(3, 0, 8));
    assert_eq!(call(&mut mesh, RefineCells, &[0]), accepted(&[0], &[0, 4]));
    // 7 + 8 + 16 + 512 + 1024.
    assert_eq!(mesh.planes, word(1567, 1));
    // Functions 0 and 4 of eight are not active any more, and 8, 9, 15, 16, 22 and 23 are.
    assert_eq!(mesh.count(), counted(6, 1, 12));
    assert_eq!(call(&mut mesh, CoarsenCells, &[0]), accepted(&[0], &[0, 4]));
    assert_eq!(mesh, fresh);
}

/// P2 and P3. Cell 1 has the children 5, 6, 11 and 12: 32 + 64 + 2048 + 4096.
#[test]
fn p2_and_p3() {
    let mut mesh = opened(W0);
    assert_eq!(call(&mut mesh, RefineCells, &[1]), accepted(&[1], &[]));
    assert_eq!(mesh.planes, word(7 + 6240, 2));
    let mut mesh = opened(W0);
    let fresh = mesh.clone();
    assert_eq!(call(&mut mesh, RefineFunctions, &[1]), accepted(&[0, 1], &[0, 1, 4, 5]));
    assert_eq!(mesh.planes, word(1567 + 6240, 3));
    // P4 to P6.
    let after = mesh.clone();
    assert_eq!(call(&mut mesh, CoarsenFunctions, &[1]), accepted(&[], &[]));
    assert_eq!(mesh, after);
    assert_eq!(call(&mut mesh, CoarsenFunctions, &[1, 5]), accepted(&[1], &[1, 5]));
    assert_eq!(mesh.planes, word(1567, 1));
    mesh = after;
    let outcome = call(&mut mesh, CoarsenFunctions, &[0, 1, 4, 5]);
    assert_eq!((outcome, mesh), (accepted(&[0, 1], &[0, 1, 4, 5]), fresh));
}

/// P7 to P10, in class 2. Cell 3 has the children 15, 16, 27 and 28: 2^15 + 2^16 + 2^27 + 2^28.
#[test]
fn p7_refine_0_then_3() {
    let mut mesh = opened(W2);
    assert_eq!(mesh.planes, word(7, 0));
    assert_eq!(call(&mut mesh, RefineCells, &[0]), accepted(&[0], &[0, 4]));
    let after_first = mesh.clone();
    assert_eq!(mesh.planes, word(1567, 1));
    assert_eq!(call(&mut mesh, RefineCells, &[3]), accepted(&[3], &[8]));
    assert_eq!(mesh.planes, word(1567 + 98_304 + 402_653_184, 0b1001));
    // 3 + 2 * 4 cells, of which 2 are refined.
    assert_eq!(mesh.count().active_cells, 9);
    let after = mesh.clone();
    for marks in [&[1][..], &[0], &[1, 3]] {
        assert_eq!(call(&mut mesh, CoarsenCells, marks), refused(8));
    }
    assert_eq!(mesh, after);
    assert_eq!(call(&mut mesh, CoarsenCells, &[3]), accepted(&[3], &[8]));
    assert_eq!(mesh, after_first);
    // The cells of its bytes, and back.
    let mut cells = vec![0xee; 63];
    assert_eq!(after.to_cells(&mut cells), 0);
    assert_eq!(cells[..17], [2, 1, 1, 2, 1, 0, 0, 0, 0, 1, 1, 0, 0, 0, 0, 1, 1]);
    assert_eq!(cells[17..], [&[0; 10][..], &[1, 1], &[0; 34]].concat());
    assert_eq!(mesh.from_cells(&cells), 0);
    assert_eq!(mesh.planes, after.planes);
}

/// In class 2 cell 4 needs cell 1. It has the children 17, 18, 29 and 30.
#[test]
fn refine_0_then_4() {
    let mut mesh = opened(W2);
    assert_eq!(call(&mut mesh, RefineCells, &[0]), accepted(&[0], &[0, 4]));
    let after_first = mesh.clone();
    assert_eq!(call(&mut mesh, RefineCells, &[4]), accepted(&[1, 4], &[1, 5]));
    let children = 1 << 17 | 1 << 18 | 1 << 29 | 1 << 30;
    assert_eq!(mesh.planes, word(1567 + 6240 + children, 0b10011));
    // 3 + 3 * 4 cells, of which 3 are refined.
    assert_eq!(mesh.count().active_cells, 12);
    let after = mesh.clone();
    assert_eq!(call(&mut mesh, CoarsenCells, &[1]), accepted(&[], &[]));
    assert_eq!(mesh, after);
    assert_eq!(call(&mut mesh, CoarsenCells, &[1, 4]), accepted(&[1, 4], &[1, 5]));
    assert_eq!(mesh, after_first);
}

/// Bit 63 is spare, and nothing else is wrong.
#[test]
fn a_spare_bit() {
    let good = opened(W0);
    for (present, refined) in [(1 << 63, 0), (0, 1 << 63), (1 << 63, 1 << 63)] {
        let mut mesh = OnPlanes { planes: word(7 | present, refined), ..good.clone() };
        all_refuse(&mesh, 4);
        let mut cells = vec![9; 63];
        assert_eq!(mesh.to_cells(&mut cells), 4);
        assert_eq!(cells, [9; 63]);
        // Opening takes what there is.
        assert_eq!(mesh.open(), 0);
        assert_eq!(mesh, good);
    }
}

/// A cell that is refined and not present, whether its bytes would be a mesh or not.
#[test]
fn refined_and_not_present() {
    let good = opened(W0);
    for planes in [word(7, 8), word(7, 1 << 62), word(6, 1), word(0, u64::MAX >> 1)] {
        let mesh = OnPlanes { planes, ..good.clone() };
        all_refuse(&mesh, 4);
        assert_eq!(mesh.to_cells(&mut vec![9; 63]), 4);
    }
    // In order and no mesh: cell 0 absent, cell 0 refined without children, cell 3 without a parent.
    for planes in [word(6, 0), word(7, 1), word(15, 0)] {
        let mesh = OnPlanes { planes, ..good.clone() };
        all_refuse(&mesh, 4);
        assert_eq!(mesh.to_cells(&mut vec![9; 63]), 0);
    }
}

/// What every call on a mesh answers that is at fault itself.
fn all_refuse(mesh: &OnPlanes, number: u32) {
    assert_eq!(mesh.check(), number);
    assert_eq!(mesh.count(), ffi::Count { number, ..ffi::Count::default() });
    for kind in Kind::ALL {
        assert_eq!(mesh.clone().call(kind, &[0], &[7; 9], &[7; 9]), refused(number));
    }
}

/// The examples of the refusal table that are not of lengths or order, as on bytes.
#[test]
fn as_the_refusal_table_has_it() {
    let mut mesh = opened(W0);
    assert_eq!(call(&mut mesh, RefineCells, &[0]).number, 0);
    assert_eq!(call(&mut mesh, RefineCells, &[4]).number, 0);
    all_refuse(&OnPlanes { plan: plan(W2), ..mesh }, 5);
    let mut mesh = opened(W0);
    mesh.functions[0] = 2;
    all_refuse(&mesh, 6);
    let mesh = opened(W0);
    assert_eq!(call(&mut mesh.clone(), RefineCells, &[63]), refused(7));
    assert_eq!(call(&mut mesh.clone(), RefineFunctions, &[94]), refused(7));
    assert_eq!(call(&mut mesh.clone(), RefineCells, &[3]), refused(8));
    assert_eq!(mesh.clone().call(RefineCells, &[0], &[], &[]), refused(10));
    assert_eq!(mesh.clone().call(RefineCells, &[0], &[5], &[5]), refused(11));
    assert_eq!(mesh.clone().call(RefineCells, &[0], &[5], &[5; 2]), accepted(&[0], &[0, 4]));
    assert_eq!(opened([1, 1, 1, 1, 1, 0]).call(RefineCells, &[0], &[], &[]), refused(9));
}

/// A bit that is spare, or one of the next word, where the cells end at a word, just before, and
/// just after.
#[test]
fn where_the_last_word_ends() {
    for (numbers, last) in [
        ([7, 9, 1, 2, 2, 0], u64::MAX >> 1),
        ([8, 8, 1, 2, 2, 0], u64::MAX),
        ([5, 13, 1, 2, 2, 0], 1),
        ([13, 1, 2, 2, 2, 2], 0),
        ([3, 1, 5, 1, 2, 2], 0),
        ([16, 4, 2, 1, 2, 2], 0),
    ] {
        let good = opened(numbers);
        let words = good.planes.present.len();
        assert_eq!(good.planes.present[words - 1], last);
        assert_eq!(good.planes.refined, vec![0; words]);
        assert_eq!(good.check(), 0);
        let cells = good.plan.cell_total();
        for bit in cells.saturating_sub(2)..words * 64 {
            let (word, bit) = (bit / 64, 1 << (bit % 64));
            for (present, refined) in [(bit, 0), (0, bit), (bit, bit)] {
                let mut mesh = good.clone();
                mesh.planes.present[word] ^= present;
                mesh.planes.refined[word] ^= refined;
                assert_eq!(mesh.check(), 4, "{numbers:?} {bit:#x}");
            }
        }
        for (present, refined) in [(words - 1, words), (words + 1, words), (words, words + 1)] {
            let mut mesh = good.clone();
            mesh.planes.present.resize(present, 0);
            mesh.planes.refined.resize(refined, 0);
            all_refuse(&mesh, 3);
        }
    }
}

// ---- Lengths ----

/// Of every shape in range, and of plans that are not.
#[test]
fn words_of_every_plan() {
    let words = |plan: Plan| {
        let words = ffi::wallmirror_planes_len(differential::raw(plan));
        assert_eq!(words, model::planes::len(plan), "{plan:?}");
        assert_eq!(differential::of_wrapper(plan).plane_words().unwrap_or(0), words);
        words
    };
    let mut most = 0;
    for (columns, rows) in (1..=16).flat_map(|columns| (1..=16).map(move |rows| (columns, rows))) {
        for levels in 1..=8 {
            let plan = plan([columns, rows, levels, 1, 1, 0]);
            let expected = match plan.cell_total() {
                cells if cells > 21_845 => 0,
                cells => cells.div_ceil(64),
            };
            assert_eq!(words(plan), expected);
            most = most.max(expected);
        }
    }
    assert_eq!((most, MAX_PLANE_WORDS), (342, 342));
    for plan in out_of_range(plan(W2)) {
        let refused = model::refuse_plan(plan).is_err();
        assert_eq!(words(plan), if refused { 0 } else { 1 });
    }
}

/// A null pointer with length 0 is an empty slice.
#[test]
fn null_pointers_of_length_0() {
    use std::ptr::{null, null_mut};
    let fresh = opened(W2);
    let raw = differential::raw(fresh.plan);
    // SAFETY: every length is 0, or that of the vector.
    unsafe {
        let (p, f) = (null_mut(), null_mut());
        assert_eq!(ffi::wallmirror_planes_open(raw, p, 0, p, 0, f, 0), 3);
        assert_eq!(ffi::wallmirror_planes_check(raw, p, 0, p, 0, f, 0), 3);
        let refused = ffi::Count { number: 3, ..ffi::Count::default() };
        assert_eq!(ffi::wallmirror_planes_count(raw, p, 0, p, 0, f, 0), refused);
        assert_eq!(ffi::wallmirror_planes_from_cells(raw, f, 0, p, 0, p, 0), 3);
        assert_eq!(ffi::wallmirror_planes_to_cells(raw, p, 0, p, 0, f, 0), 3);
        for kind in Kind::ALL {
            let call = kind.of_planes();
            let list = null_mut();
            let refused = ffi::Answer { number: 3, cells: 0, functions: 0 };
            assert_eq!(call(raw, p, 0, p, 0, f, 0, null(), 0, list, 0, list, 0), refused);
            let mut mesh = fresh.clone();
            let Planes { present, refined } = &mut mesh.planes;
            let (present, refined) = (present.as_mut_ptr(), refined.as_mut_ptr());
            let (functions, f) = (mesh.functions.as_mut_ptr(), mesh.functions.len());
            let answer =
                call(raw, present, 1, refined, 1, functions, f, null(), 0, list, 0, list, 0);
            assert_eq!(answer, ffi::Answer::default());
            assert_eq!(mesh, fresh);
        }
    }
}

// ---- The order of all refusals ----

type Fault = differential::order::Fault<Input>;

const OF_PLAN: [Fault; 2] = [
    (1, |input| input.mesh.plan.degree_up = 0),
    (2, |input| {
        let Plan { columns, rows, levels, .. } = &mut input.mesh.plan;
        (*columns, *rows, *levels) = (16, 16, 5);
    }),
];

/// A word fewer, which is none, and a word more.
const OF_LENGTHS: [Fault; 6] = [
    (3, |input| input.mesh.planes.present.clear()),
    (3, |input| input.mesh.planes.present.push(0)),
    (3, |input| input.mesh.planes.refined.clear()),
    (3, |input| input.mesh.planes.refined.push(0)),
    (3, |input| {
        input.mesh.planes.present.push(0);
        input.mesh.planes.refined.push(0);
    }),
    (3, |input| {
        input.mesh.planes.present.clear();
        input.mesh.planes.refined.clear();
    }),
];

const OF_FUNCTION_LENGTH: [Fault; 3] = [
    (3, |input| input.mesh.functions.truncate(93)),
    (3, |input| input.mesh.functions.push(0)),
    (3, |input| input.mesh.functions.clear()),
];

const OF_CELL_LENGTH: [Fault; 3] = [
    (3, |input| input.cells.truncate(62)),
    (3, |input| input.cells.push(0)),
    (3, |input| input.cells.clear()),
];

/// Bit 63 is spare, and cells 17 and 62 are absent.
const OF_ORDER: [Fault; 5] = [
    (4, |input| input.mesh.planes.present[0] |= 1 << 63),
    (4, |input| input.mesh.planes.refined[0] |= 1 << 63),
    (4, |input| {
        input.mesh.planes.present[0] |= 1 << 63;
        input.mesh.planes.refined[0] |= 1 << 63;
    }),
    (4, |input| input.mesh.planes.refined[0] |= 1 << 17),
    (4, |input| input.mesh.planes.refined[0] |= 1 << 62),
];

/// Those of the bytes that the planes hold: no mesh, not admissible, other labels.
const OF_BYTES: [Fault; 3] = [
    (4, |input| {
        input.mesh.planes.present[0] &= !1;
        input.mesh.planes.refined[0] &= !1;
    }),
    (5, |input| {
        let mut tables = input.mesh.tables();
        refine_alone(&mut tables);
        input.mesh.planes = Planes::of(&tables.cells);
    }),
    (6, |input| input.mesh.functions[0] ^= 3),
];

/// A byte above 2.
const OF_CELLS: [Fault; 3] = [
    (4, |input| input.cells[0] = 3),
    (4, |input| input.cells[62] = 255),
    (4, |input| input.cells[17] = 0x80),
];

/// All faults of a call, in the order in which they are to be found, in groups of which one at a
/// time can be put wrong beside others.
fn faults(call: Call) -> Vec<Vec<Fault>> {
    let [plan, cells] = OF_PLAN.map(|fault| vec![fault]);
    let lengths = OF_LENGTHS.to_vec();
    let of_functions = [lengths.clone(), OF_FUNCTION_LENGTH.to_vec()].concat();
    let of_cells = [lengths, OF_CELL_LENGTH.to_vec()].concat();
    let of_order = OF_ORDER.to_vec();
    let of_bytes = OF_BYTES.map(|fault| vec![fault]).to_vec();
    let after_lengths = match call {
        Call::Open => return vec![plan, cells, of_functions],
        Call::FromCells => return vec![plan, cells, of_cells, OF_CELLS.to_vec()],
        Call::ToCells => return vec![plan, cells, of_cells, of_order],
        Call::Check | Call::Count => of_bytes,
        Call::Change(kind) => {
            let after = [of_marks(kind), of_lists()].concat();
            [of_bytes, after.into_iter().map(|fault| vec![fault]).collect()].concat()
        }
    };
    [vec![plan, cells, of_functions, of_order], after_lengths].concat()
}

fn good_input(call: Call) -> Input {
    let mut input = Input::new(&mesh(W2, &REFINED_CELLS));
    if let Call::Change(kind) = call {
        input.marks = good_marks(kind);
    }
    input
}

#[test]
fn every_call_in_its_order() {
    for call in Call::ALL {
        let groups = faults(call);
        let good = good_input(call);
        expect_each_two(call, &good, &groups.concat());
        // All at once, each of every group in its turn.
        for turn in 0..groups.iter().map(Vec::len).max().expect("a group") {
            let chosen: Vec<Fault> = groups.iter().map(|group| group[turn % group.len()]).collect();
            expect_in_order(call, &good, &chosen);
        }
    }
}

/// Opening looks at no bit, and taking cells at no bit and not whether they are a mesh.
#[test]
fn what_is_not_asked() {
    for call in [Call::Open, Call::FromCells] {
        for (_, fault) in OF_ORDER.into_iter().chain([OF_BYTES[0], OF_BYTES[1]]) {
            let mut input = good_input(call);
            fault(&mut input);
            assert_eq!(input.make(call).number, 0, "{call:?}");
        }
    }
    for (_, fault) in OF_BYTES {
        let mut input = good_input(Call::ToCells);
        fault(&mut input);
        assert_eq!(input.make(Call::ToCells).number, 0);
    }
    let no_mesh = Tables { cells: vec![2; 63], ..mesh(W2, &[]) };
    assert_eq!(Both::of(&no_mesh).look(), 4);
}
