//! Rounds: the order of all refusals, lists of every length, every byte and every cell, and what
//! callers may hand over besides.

use differential::order::{expect_each_two, expect_in_order, refine_alone, Lendable, W2};
use differential::rounds::Input;
use differential::surface::mesh;
use differential::{of_wrapper, out_of_range, plan, raw, Tables};
use model::rounds::Rounds;
use model::{Cell, Plan};
use std::collections::BTreeSet;
use wallmirror::{ffi, Refusal};

/// From cells 0 and 3 refined to cells 0, 1, 3 and 4: two marks, in two rounds.
fn good_input() -> Input {
    Input::new(&mesh(W2, &[0, 3]), &mesh(W2, &[0, 1, 3, 4]))
}

/// Makes the call, on guarded pages too. A refusal changes nothing, and an accepted call nothing but
/// the lists.
fn make(input: &mut Input) -> Result<Rounds, u32> {
    let before = input.clone();
    let outcome = input.make();
    before.expect_on_pages((), &outcome, input);
    assert!(outcome.is_ok() || input == &before);
    assert!((&input.today, &input.wanted) == (&before.today, &before.wanted));
    outcome
}

// ---- The order of all refusals ----

type Fault = differential::order::Fault<Input>;

const OF_PLAN: [Fault; 2] = [
    (1, |input| input.today.plan.degree_up = 0),
    (2, |input| {
        let Plan { columns, rows, levels, .. } = &mut input.today.plan;
        (*columns, *rows, *levels) = (16, 16, 5);
    }),
];

const OF_TODAY: [&[Fault]; 4] = [
    &[
        (3, |input| input.today.cells.truncate(62)),
        (3, |input| input.today.cells.push(0)),
        (3, |input| input.today.cells.clear()),
        (3, |input| input.today.functions.truncate(93)),
        (3, |input| input.today.functions.push(0)),
        (3, |input| input.today.functions.clear()),
    ],
    &[(4, |input| input.today.cells[0] = 0), (4, |input| input.today.cells[62] = 255)],
    &[(5, |input| refine_alone(&mut input.today))],
    &[(6, |input| input.today.functions[0] ^= 3), (6, |input| input.today.functions[93] = 1)],
];

const OF_WANTED: [&[Fault]; 4] = [
    &[
        (3, |input| input.wanted.cells.truncate(62)),
        (3, |input| input.wanted.cells.push(0)),
        (3, |input| input.wanted.cells.clear()),
        (3, |input| input.wanted.functions.truncate(93)),
        (3, |input| input.wanted.functions.push(0)),
        (3, |input| input.wanted.functions.clear()),
    ],
    &[(4, |input| input.wanted.cells[0] = 0), (4, |input| input.wanted.cells[62] = 255)],
    &[(5, |input| refine_alone(&mut input.wanted))],
    &[(6, |input| input.wanted.functions[0] ^= 3), (6, |input| input.wanted.functions[93] = 1)],
];

/// Cell 3 is not wanted, beside others or with cell 0 alone, or cell 2 is refined today.
const OF_BOTH: [Fault; 3] = [
    (20, |input| input.wanted = mesh(W2, &[0, 1, 4])),
    (20, |input| input.wanted = mesh(W2, &[0])),
    (20, |input| input.today = mesh(W2, &[0, 2, 3])),
];

const OF_LISTS: [Fault; 4] = [
    (10, |input| input.marks.truncate(1)),
    (10, |input| input.lengths.truncate(1)),
    (10, |input| input.marks.clear()),
    (10, |input| input.lengths.clear()),
];

/// All faults in the order in which they are to be found, in groups of which one at a time can be put
/// wrong beside others.
fn faults() -> Vec<Vec<Fault>> {
    let mut groups = OF_PLAN.map(|fault| vec![fault]).to_vec();
    groups.extend(OF_TODAY.map(<[Fault]>::to_vec));
    groups.extend(OF_WANTED.map(<[Fault]>::to_vec));
    groups.extend([OF_BOTH.to_vec(), OF_LISTS.to_vec()]);
    groups
}

/// Today's mesh is judged first, then the wanted one, then both together, then the lists.
#[test]
fn in_their_order() {
    let groups = faults();
    expect_each_two((), &good_input(), &groups.concat());
    // All at once, each of every group in its turn.
    for turn in 0..groups.iter().map(Vec::len).max().expect("a group") {
        let chosen: Vec<Fault> = groups.iter().map(|group| group[turn % group.len()]).collect();
        expect_in_order((), &good_input(), &chosen);
    }
}

/// Of both meshes the plan is one and the same, so 1 and 2 are found whatever else there is.
#[test]
fn plans_out_of_range() {
    for plan in out_of_range(plan(W2)) {
        let Err(number) = model::refuse_plan(plan) else {
            continue;
        };
        let mut input = good_input();
        input.today.plan = plan;
        assert_eq!(make(&mut input), Err(number), "{plan:?}");
        let empty = Tables { plan, cells: vec![], functions: vec![] };
        let (marks, lengths) = (vec![], vec![]);
        let mut input = Input { today: empty.clone(), wanted: empty, marks, lengths };
        assert_eq!(make(&mut input), Err(number), "{plan:?}");
    }
}

/// The wanted tables are judged by the plan that is handed over, whatever plan they were made for. Without
/// cells that the class asks for, and with corners of degree 1, they may be the same.
#[test]
fn wanted_tables_of_another_plan() {
    let today = mesh(W2, &[0]);
    for (numbers, expected) in [
        ([3, 1, 3, 1, 1, 0, 0, 0], None),
        ([3, 1, 3, 1, 1, 2, 6, 0], None),
        ([3, 1, 3, 2, 1, 2, 0, 0], Some(3)),
        ([3, 1, 4, 1, 1, 2, 0, 0], Some(3)),
        ([1, 3, 3, 1, 1, 2, 0, 0], Some(4)),
    ] {
        let mut input = Input::new(&today, &mesh(numbers, &[0]));
        (input.marks, input.lengths) = (vec![77; 3], vec![88; 7]);
        assert_eq!(make(&mut input).err(), expected, "{numbers:?}");
    }
}

// ---- Lists ----

/// Every length of both lists, from none to more than enough. What is past the marks and the lengths
/// keeps its values.
#[test]
fn every_length_of_the_lists() {
    for (today, wanted, marks, lengths) in [
        (mesh(W2, &[0, 3]), mesh(W2, &[0, 1, 3, 4]), &[1, 4][..], &[1, 1][..]),
        (mesh(W2, &[]), mesh(W2, &[0, 1, 2]), &[0, 1, 2], &[3, 0]),
        (mesh(W2, &[0]), mesh(W2, &[0]), &[], &[0, 0]),
        (mesh([2, 1, 1, 1, 1, 0], &[]), mesh([2, 1, 1, 1, 1, 0], &[]), &[], &[]),
        (mesh([2, 1, 2, 1, 1, 0], &[0]), mesh([2, 1, 2, 1, 1, 0], &[0, 1]), &[1], &[1]),
    ] {
        for rooms in
            (0..=marks.len() + 3).flat_map(|m| (0..=lengths.len() + 9).map(move |l| (m, l)))
        {
            let mut input = Input::new(&today, &wanted);
            (input.marks, input.lengths) = (vec![77; rooms.0], vec![88; rooms.1]);
            let outcome = make(&mut input);
            if rooms.0 < marks.len() || rooms.1 < lengths.len() {
                assert_eq!(outcome, Err(10));
                continue;
            }
            assert_eq!((outcome.is_ok(), &input.marks[..marks.len()]), (true, marks));
            assert_eq!(&input.lengths[..lengths.len()], lengths);
            assert!(input.marks[marks.len()..].iter().all(|&entry| entry == 77));
            assert!(input.lengths[lengths.len()..].iter().all(|&entry| entry == 88));
        }
    }
}

/// Lists far longer than any mesh needs.
#[test]
fn a_million_entries() {
    let mut input = good_input();
    (input.marks, input.lengths) = ((0..1_000_000).collect(), (0..1_000_000).rev().collect());
    let before = input.clone();
    assert_eq!(make(&mut input), Ok(Rounds(vec![vec![1], vec![4]])));
    assert!(input.marks[2..] == before.marks[2..] && input.lengths[2..] == before.lengths[2..]);
}

// ---- Every byte and every cell ----

/// Every single byte of all four tables changed: the cells are then no mesh, or the labels are wrong.
#[test]
fn every_byte_changed() {
    for numbers in [[2, 1, 3, 1, 2, 2, 0, 0], [2, 2, 2, 2, 1, 0, 2, 0]] {
        let good = Input::new(&mesh(numbers, &[0]), &mesh(numbers, &[0, 1]));
        let tables: [fn(&mut Input) -> &mut Vec<u8>; 4] = [
            |input| &mut input.today.cells,
            |input| &mut input.today.functions,
            |input| &mut input.wanted.cells,
            |input| &mut input.wanted.functions,
        ];
        for (table, number) in tables.into_iter().zip([4, 6, 4, 6]) {
            for i in 0..table(&mut good.clone()).len() {
                for byte in [0, 1, 2, 3, 255] {
                    let mut input = good.clone();
                    table(&mut input)[i] = byte;
                    let expected = if input == good { None } else { Some(number) };
                    assert_eq!(input.make().err(), expected);
                }
            }
        }
    }
}

/// Two meshes of class 0 that differ in one cell, for every cell that can be refined: one mark, or a
/// cell that is lost, wherever it stands in the table.
#[test]
fn every_cell_alone() {
    for numbers in [[1, 1, 6, 1, 1, 0], [2, 2, 4, 2, 1, 0], [13, 1, 2, 1, 1, 0], [3, 1, 3, 1, 4, 0]]
    {
        let plan = plan(numbers);
        for cell in plan.cells().filter(|cell| cell.level + 1 < plan.levels) {
            let with = model::smallest(plan, BTreeSet::from([cell]));
            let without: BTreeSet<Cell> = with.iter().copied().filter(|&c| c != cell).collect();
            let [without, with] = [without, with].map(|all| Tables::with_refined(plan, &all));
            let mut expected = vec![vec![]; plan.levels as usize - 1];
            expected[cell.level as usize].push(plan.cell_number(cell) as u32);
            assert_eq!(without.rounds_to(&with), Ok(Rounds(expected)));
            assert_eq!(with.rounds_to(&without), Err(20));
        }
    }
}

// ---- What callers may hand over ----

/// A null pointer with length 0 is an empty slice.
#[test]
fn null_pointers_of_length_0() {
    use std::ptr::{null, null_mut};
    let refused = |number| ffi::Rounds { number, marks: 0, rounds: 0 };
    let one_level = Tables::opened(plan([2, 1, 1, 1, 1, 0]));
    for (tables, number) in [(&one_level, 0), (&mesh(W2, &[0]), 10)] {
        let (plan, t, f) = (raw(tables.plan), tables.cells.len(), tables.functions.len());
        let (other_cells, other_functions) = (tables.cells.clone(), tables.functions.clone());
        let (c, g) = (tables.cells.as_ptr(), tables.functions.as_ptr());
        let (wc, wg) = (other_cells.as_ptr(), other_functions.as_ptr());
        let (m, l) = (null_mut(), null_mut());
        // SAFETY: every length is 0, or that of the vector.
        unsafe {
            let rounds = ffi::wallmirror_rounds;
            let answer = rounds(plan, null(), 0, null(), 0, null(), 0, null(), 0, m, 0, l, 0);
            assert_eq!(answer, refused(3));
            let answer = rounds(plan, c, t, g, f, null(), 0, null(), 0, m, 0, l, 0);
            assert_eq!(answer, refused(3));
            assert_eq!(rounds(plan, c, t, g, f, wc, t, wg, f, m, 0, l, 0), refused(number));
        }
    }
}

/// What is only read may be lent twice in Rust: the same tables as today's and as the wanted ones.
#[test]
fn the_same_tables_twice() {
    for refined in [&[][..], &[0], &[0, 1, 4]] {
        let Tables { plan, cells, functions } = mesh(W2, refined);
        let (mut marks, mut lengths) = ([wallmirror::Cell(77); 3], [88; 4]);
        let plan = of_wrapper(plan);
        let twice = |marks: &mut [_], lengths: &mut [u32]| {
            wallmirror::rounds(plan, &cells, &functions, &cells, &functions, marks, lengths)
        };
        let made = twice(&mut marks, &mut lengths).expect("rounds");
        assert_eq!((made.marks, made.rounds), (0, 2));
        assert_eq!((marks, lengths), ([wallmirror::Cell(77); 3], [0, 0, 88, 88]));
        assert_eq!(twice(&mut [], &mut lengths[..1]), Err(Refusal::CellListTooShort));
    }
}
