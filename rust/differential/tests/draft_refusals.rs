//! Drafts: rows worked by hand, with the numbers written out, so that library and model are both
//! held to them; the order of all refusals of each call; and the largest drafts.

use differential::draft::{Call, Input};
use differential::order::{
    expect_each_two, expect_in_order, good_marks, of_lists, of_marks, refine_alone, REFINED_CELLS,
    W2,
};
use differential::surface::{heights_with, mesh};
use differential::{accepted, all_corners, plan, refused, scenario, Kind, Tables};
use model::draft::Draft;
use model::{Plan, ACTIVE};
use Kind::*;

fn draft(open: u32, marks: usize, list: &[u32]) -> Draft {
    Draft { open, marks, list: list.to_vec() }
}

/// The draft with all its entries as marks.
fn full(list: &[u32]) -> Draft {
    draft(1, list.len(), list)
}

// ---- Rows worked by hand: W2 with cell 0 refined ----

/// Adds, two of them refused, and a mark twice. Closed, cells 3 and 4 are refined, and cell 1, which cell
/// 4 needs. Functions 1 and 5 lie over cells 0 and 1, function 8 over cell 3 and 9 over cells 3 and 4.
#[test]
fn a_draft_by_hand() {
    let mut tables = mesh(W2, &[0]);
    let mut d = Draft::none(vec![9; 4]);
    assert_eq!(tables.draft_open(&mut d), 0);
    assert_eq!(d, draft(1, 0, &[9; 4]));
    assert_eq!(tables.draft_add(&mut d, &[4]), 0);
    assert_eq!(d, draft(1, 1, &[4, 9, 9, 9]));
    // Cell 0 is refined. Cell 15 is a child of cell 3, which is active: it is absent.
    assert_eq!(tables.draft_add(&mut d, &[3, 0]), 8);
    assert_eq!(tables.draft_add(&mut d, &[3, 15]), 8);
    assert_eq!(d, draft(1, 1, &[4, 9, 9, 9]));
    assert_eq!(tables.draft_add(&mut d, &[4, 3]), 0);
    assert_eq!(d, draft(1, 3, &[4, 4, 3, 9]));
    // The mesh is without the draft until then.
    assert_eq!(tables, mesh(W2, &[0]));
    assert_eq!(tables.count().active_cells, 6);
    let (cell_list, function_list) = ([7; 3], [7; 4]);
    let closed = tables.draft_close(&mut d, &cell_list, &function_list);
    assert_eq!(closed, accepted(&[1, 3, 4], &[1, 5, 8, 9]));
    assert_eq!(d, draft(0, 0, &[4, 4, 3, 9]));
    assert_eq!(tables, mesh(W2, &[0, 1, 3, 4]));
    // Taken back as one refinement.
    assert_eq!(tables.call_with_room(CoarsenCells, &[1, 3, 4]), closed);
    assert_eq!(tables, mesh(W2, &[0]));
}

/// P7: cell 3 needs no other.
#[test]
fn p7_by_a_draft() {
    let mut tables = mesh(W2, &[0]);
    let mut d = full(&[3, 3]);
    assert_eq!(tables.draft_close(&mut d, &[7; 1], &[7; 1]), accepted(&[3], &[8]));
    assert_eq!(tables, mesh(W2, &[0, 3]));
}

/// A close without room for a list is refused and leaves the draft.
#[test]
fn refused_closes_leave_it_open() {
    let mut tables = mesh(W2, &[0]);
    let mut d = full(&[4]);
    assert_eq!(tables.draft_close(&mut d, &[7; 1], &[7; 1]), refused(10));
    assert_eq!(tables.draft_close(&mut d, &[7; 2], &[7; 1]), refused(11));
    assert_eq!(tables.draft_close(&mut d, &[7; 1], &[7; 2]), refused(10));
    assert_eq!(d, full(&[4]));
    assert_eq!(tables.draft_close(&mut d, &[7; 2], &[7; 2]), accepted(&[1, 4], &[1, 5]));
    assert_eq!(tables.draft_close(&mut d, &[7; 2], &[7; 2]), refused(19));
    // Marks that somebody put there are judged as those of a refinement. Cell 17 is a child of cell 4.
    for (list, number) in [([3, 63, 0], 7), ([3, 0, 63], 8), ([3, 17, 63], 9)] {
        let mut d = full(&list);
        assert_eq!(tables.draft_close(&mut d, &[7; 63], &[7; 94]), refused(number));
        assert_eq!(d, full(&list));
        assert_eq!(tables.call_with_room(RefineCells, &list), refused(number));
    }
}

/// The list bounds the marks, and repeats take an entry each.
#[test]
fn a_list_exactly_full() {
    let tables = mesh(W2, &[0]);
    let mut d = draft(1, 0, &[9; 3]);
    assert_eq!(tables.draft_add(&mut d, &[3, 3, 3, 3]), 10);
    assert_eq!(d, draft(1, 0, &[9; 3]));
    assert_eq!(tables.draft_add(&mut d, &[3, 3]), 0);
    assert_eq!(tables.draft_add(&mut d, &[4, 4]), 10);
    assert_eq!(d, draft(1, 2, &[3, 3, 9]));
    assert_eq!(tables.draft_add(&mut d, &[4]), 0);
    assert_eq!(d, full(&[3, 3, 4]));
    // No mark more, not even one that is there; none at all is accepted.
    assert_eq!(tables.draft_add(&mut d, &[4]), 10);
    assert_eq!(tables.draft_add(&mut d, &[]), 0);
    assert_eq!(d, full(&[3, 3, 4]));
    // 7 to 9 come before, also of marks that there is no room for.
    assert_eq!(tables.draft_add(&mut d, &[4, 4, 63]), 7);
    assert_eq!(tables.draft_add(&mut d, &[4, 4, 0]), 8);
    assert_eq!(mesh(W2, &[0, 1, 3]).draft_add(&mut d, &[4, 4, 15]), 9);
    assert_eq!(d, full(&[3, 3, 4]));
}

/// A mark out of range that comes last of many.
#[test]
fn a_mark_out_of_range_as_late_as_can_be() {
    let tables = mesh(W2, &[0]);
    let late = [&[3; 999][..], &[63]].concat();
    let mut d = draft(1, 0, &[9; 1000]);
    assert_eq!(tables.draft_add(&mut d, &late), 7);
    assert_eq!(d, draft(1, 0, &[9; 1000]));
    assert_eq!(tables.draft_add(&mut d, &late[..999]), 0);
    assert_eq!(tables.draft_add(&mut d, &[u32::MAX]), 7);
    assert_eq!(tables.draft_add(&mut d, &[62]), 8);
    assert_eq!(d.collected(), Some(&[3; 999][..]));
    // As a draft that was handed in.
    let mut d = full(&late);
    assert_eq!(tables.clone().draft_close(&mut d, &[7; 63], &[7; 94]), refused(7));
    assert_eq!(d, full(&late));
}

/// Without entries, a draft can be open; it takes no mark.
#[test]
fn a_list_without_entries() {
    let mut tables = mesh(W2, &[0]);
    let mut d = Draft::none(vec![]);
    assert_eq!(tables.draft_drop(&mut d), 19);
    assert_eq!(tables.draft_open(&mut d), 0);
    assert_eq!(tables.draft_open(&mut d), 18);
    assert_eq!(tables.draft_add(&mut d, &[3]), 10);
    assert_eq!(tables.draft_add(&mut d, &[]), 0);
    assert_eq!(tables.draft_close(&mut d, &[], &[]), accepted(&[], &[]));
    assert_eq!(d, Draft::none(vec![]));
}

/// Any number but 0 is open, and accepted adds leave it.
#[test]
fn open_is_any_number_but_0() {
    for open in [1, 2, 1 << 16, 1 << 31, u32::MAX] {
        let mut tables = mesh(W2, &[0]);
        let mut d = draft(open, 1, &[3, 9]);
        assert_eq!(tables.draft_open(&mut d), 18);
        assert_eq!(tables.draft_add(&mut d, &[1]), 0);
        assert_eq!(d, draft(open, 2, &[3, 1]));
        assert_eq!(tables.draft_add(&mut d, &[1]), 10);
        let mut dropped = d.clone();
        assert_eq!(tables.draft_drop(&mut dropped), 0);
        assert_eq!(dropped, draft(0, 0, &[3, 1]));
        let closed = tables.draft_close(&mut d, &[7; 63], &[7; 94]);
        assert_eq!((closed, d), (accepted(&[1, 3], &[1, 5, 8]), dropped));
    }
}

/// A draft with more marks than entries counts as not open.
#[test]
fn more_marks_than_entries() {
    for marks in [4, 5, 1 << 32, (1 << 32) + 1, 1 << 63, usize::MAX - 1, usize::MAX] {
        for open in [1, u32::MAX] {
            let mut tables = mesh(W2, &[0]);
            let handed_in = draft(open, marks, &[3, 1, 3]);
            let mut d = handed_in.clone();
            for add in [&[][..], &[3], &[63]] {
                assert_eq!(tables.draft_add(&mut d, add), 19);
            }
            assert_eq!(tables.draft_drop(&mut d), 19);
            assert_eq!(tables.draft_close(&mut d, &[7; 63], &[7; 94]), refused(19));
            assert_eq!(d, handed_in);
            let outcome = tables.call_with_draft(RefineCells, &d, &[3], &[7; 63], &[7; 94]);
            assert_eq!(outcome, accepted(&[3], &[8]));
            assert_eq!(tables.draft_open(&mut d), 0);
            assert_eq!(d, draft(1, 0, &[3, 1, 3]));
            // One entry more, and it is open.
            let longer = [&[3; 3][..], &[0]].concat();
            assert_eq!(tables.draft_open(&mut draft(open, 4, &longer)), 18);
        }
    }
}

/// Accepted, opening and reading a mesh drop the draft, open or not; refused, they leave it.
#[test]
fn opening_and_reading_drop_it() {
    let file = [3, 1, 3, 1, 1, 2, 1, 0];
    for d in [full(&[3, 3]), draft(u32::MAX, 7, &[3]), draft(0, 5, &[9; 9]), Draft::none(vec![])] {
        let none = Draft::none(d.list.clone());
        let fresh = Tables::opened(plan(W2));
        let mut tables = mesh(W2, &[0, 1, 3]);
        let mut after = d.clone();
        assert_eq!(tables.open_with_draft(&mut after), 0);
        assert_eq!((&tables, &after), (&fresh, &none));
        let mut after = d.clone();
        assert_eq!(tables.read_with_draft(&mut after, &file), 0);
        assert_eq!((&tables, &after), (&mesh(W2, &[0]), &none));

        let mut after = d.clone();
        for short in [0, 62] {
            let mut tables = Tables { cells: vec![5; short], ..fresh.clone() };
            assert_eq!(tables.open_with_draft(&mut after), 3);
            assert_eq!(tables.read_with_draft(&mut after, &file), 3);
        }
        assert_eq!(Tables { plan: plan([0; 6]), ..fresh.clone() }.open_with_draft(&mut after), 1);
        for (file, number) in [
            (&file[..7], 12),
            (&[0, 1, 3, 1, 1, 2, 0], 1),
            (&[16, 16, 5, 1, 1, 2, 0], 2),
            (&[3, 1, 3, 1, 1, 2, 1, 63], 4),
            (&[3, 1, 3, 1, 1, 2, 2, 0, 4], 5),
            (&[3, 1, 3, 1, 1, 2, 1, 0, 2, 0, 5], 13),
        ] {
            assert_eq!(fresh.clone().read_with_draft(&mut after, file), number);
        }
        assert_eq!(after, d);
    }
}

/// 18 comes before all of the heights: their number, the plan, their limits, what is carried. Cells 1 and
/// 4 are refined, so function 1 passes half of its height to function 9, which stays active.
#[test]
fn a_draft_before_heights() {
    let d = full(&[4]);
    let refine = |tables: &Tables, heights: &[i32], d: &Draft| {
        let mut heights = heights.to_vec();
        let (cell_list, function_list) = tables.lists_with_room();
        let lists = (&cell_list[..], &function_list[..]);
        let mut tables = tables.clone();
        tables.refine_with_heights_and_draft(RefineCells, &mut heights, d, &[4], lists)
    };
    let tables = mesh(W2, &[0]);
    let none = Draft::none(vec![4]);
    let high = heights_with(&tables, &[(1, 65_537)]);
    let carried = heights_with(&tables, &[(1, 65_536), (9, 65_536 << 4)]);
    let cubic = mesh([3, 1, 3, 3, 1, 2], &[0]);
    let of_cubic = vec![0; cubic.functions.len()];
    for (tables, heights, number) in [
        (&tables, &high[1..], 3),
        (&tables, &high[..0], 3),
        (&cubic, &of_cubic[..], 14),
        (&tables, &high[..], 15),
        (&tables, &carried[..], 17),
    ] {
        assert_eq!(refine(tables, heights, &d), refused(18));
        assert_eq!(refine(tables, heights, &none), refused(number));
    }
}

/// 18 and 19 come directly after 6.
#[test]
fn a_draft_after_the_tables() {
    let good = mesh(W2, &[0]);
    let mut bad = good.clone();
    bad.functions[93] = 1;
    for (tables, busy, idle) in [(&bad, 6, 6), (&good, 18, 19)] {
        for open in [1, u32::MAX] {
            let busy_draft = draft(open, 1, &[63]);
            assert_eq!(tables.draft_open(&mut busy_draft.clone()), busy);
            for kind in Kind::ALL {
                let outcome = tables.clone().call_with_draft(kind, &busy_draft, &[99], &[], &[]);
                assert_eq!(outcome, refused(busy));
            }
        }
        let mut none = draft(0, 1, &[63]);
        assert_eq!(tables.draft_add(&mut none, &[99, 99]), idle);
        assert_eq!(tables.draft_drop(&mut none), idle);
        assert_eq!(tables.clone().draft_close(&mut none, &[], &[]), refused(idle));
    }
}

// ---- The order of all refusals ----

type Fault = differential::order::Fault<Input>;

/// Those of every call on tables, in the order in which they are tried.
const OF_TABLES: [Fault; 6] = [
    (1, |input| input.tables.plan.degree_up = 0),
    (2, |input| {
        let Plan { columns, rows, levels, .. } = &mut input.tables.plan;
        (*columns, *rows, *levels) = (16, 16, 5);
    }),
    (3, |input| input.tables.cells.truncate(62)),
    (4, |input| input.tables.cells[0] = 0),
    (5, |input| refine_alone(&mut input.tables)),
    (6, |input| input.tables.functions[0] ^= 3),
];

const DRAFT_OPEN: Fault = (18, |input| input.draft = full(&[3]));
const NONE_OPEN: Fault = (19, |input| input.draft.open = 0);
const TOO_MANY_MARKS: Fault = (19, |input| input.draft.marks = input.draft.list.len() + 1);

/// Those of heights: too few, a plan without, one that is too high.
const OF_HEIGHTS: [Fault; 3] = [
    (3, |input| input.heights.truncate(93)),
    (14, |input| {
        input.tables = mesh([6, 1, 3, 3, 1, 2], &[0]);
        input.heights.resize(input.tables.functions.len(), 0);
    }),
    (15, |input| input.heights[2] = 65_537),
];

/// Every height is within its limit, and one that is carried is not.
const CARRIED_TOO_HIGH: Fault = (17, |input| {
    let labels = input.tables.plan.functions().zip(&input.tables.functions);
    let height = |(f, &label): (model::Function, &u8)| {
        if label == ACTIVE {
            65_536 << (4 * f.level)
        } else {
            0
        }
    };
    input.heights = labels.map(height).collect();
});

/// Marks at fault in the list of the draft, as those of a refinement.
fn collected(input: &mut Input, mark: u32) {
    input.draft.list.insert(0, mark);
    input.draft.marks += 1;
}

const OF_COLLECTED: [Fault; 3] =
    [(7, |i| collected(i, 63)), (8, |i| collected(i, 17)), (9, |i| collected(i, 15))];

/// All faults of a call, in the order in which they are to be found, and marks that it takes on the
/// mesh below.
fn faults(call: Call) -> (Vec<Fault>, Vec<u32>) {
    let (after, marks): (Vec<Fault>, _) = match call {
        Call::Open => (vec![DRAFT_OPEN], vec![]),
        Call::Drop => (vec![NONE_OPEN], vec![]),
        Call::Add => {
            let too_short: Fault = (10, |input| input.draft.list.truncate(input.draft.marks + 1));
            ([vec![NONE_OPEN], of_marks(RefineCells), vec![too_short]].concat(), vec![2, 4])
        }
        Call::Close => ([vec![NONE_OPEN], OF_COLLECTED.to_vec(), of_lists()].concat(), vec![]),
        Call::Change(kind) => {
            ([vec![DRAFT_OPEN], of_marks(kind), of_lists()].concat(), good_marks(kind))
        }
        Call::WithHeights(kind) => {
            let of_heights = [&[DRAFT_OPEN][..], &OF_HEIGHTS].concat();
            let after = [of_heights, of_marks(kind), of_lists(), vec![CARRIED_TOO_HIGH]];
            (after.concat(), good_marks(kind))
        }
        Call::OpenMesh => return (OF_TABLES[..3].to_vec(), vec![]),
        Call::ReadMesh => panic!("reading has an order of its own"),
    };
    ([OF_TABLES.to_vec(), after].concat(), marks)
}

/// W2 with cells 0, 1 and 3 refined, and a draft with a mark where the call needs or ends one.
fn good_input(call: Call, marks: Vec<u32>) -> Input {
    let mut input = Input::new(mesh(W2, &REFINED_CELLS));
    input.marks = marks;
    input.draft = match call {
        Call::Add | Call::Close | Call::Drop | Call::OpenMesh => draft(1, 1, &[2, 9, 9]),
        _ => Draft::none(vec![9; 3]),
    };
    input
}

#[test]
fn every_call_in_its_order() {
    for call in Call::ALL.into_iter().filter(|&call| call != Call::ReadMesh) {
        let (faults, marks) = faults(call);
        let good = good_input(call, marks);
        expect_in_order(call, &good, &faults);
        expect_each_two(call, &good, &faults);
    }
}

/// Also where 19 is for more marks than entries.
#[test]
fn overfull_drafts_in_the_same_order() {
    for call in [Call::Add, Call::Close, Call::Drop] {
        let (mut faults, marks) = faults(call);
        let at = faults.iter().position(|fault| fault.0 == 19).expect("19");
        faults[at] = TOO_MANY_MARKS;
        expect_in_order(call, &good_input(call, marks), &faults);
    }
}

/// A file that is refused with each number in turn: 12, then 1 to 5, then 13.
#[test]
fn reading_in_its_order() {
    let tables = mesh([3, 1, 3, 1, 1, 2, 2, 0], &[0, 1, 3]);
    let short = Tables { cells: tables.cells[1..].to_vec(), ..tables.clone() };
    let rest = [3, 0, 4, 100, 2, 0, 5]; // cells 0, 4 and 104, both corners, and a byte more
    for (lent, plan, rest, number) in [
        (&short, &[0x91, 0x00, 16, 5, 1, 1, 2][..], &rest[..], 12),
        (&short, &[17, 16, 5, 1, 1, 2], &rest, 1),
        (&short, &[16, 16, 5, 1, 1, 2], &rest, 2),
        (&short, &[3, 1, 3, 1, 1, 2], &rest, 3),
        (&tables, &[3, 1, 3, 1, 1, 2], &rest, 4),
        (&tables, &[3, 1, 3, 1, 1, 2], &[2, 0, 4, 2, 0, 5], 5),
        (&tables, &[3, 1, 3, 1, 1, 2], &[1, 0, 2, 0, 5], 13),
        (&tables, &[3, 1, 3, 1, 1, 2], &[1, 0, 2, 0], 0),
    ] {
        let mut input = Input::new(lent.clone());
        input.file = [plan, rest].concat();
        input.draft = full(&[3]);
        let before = input.clone();
        let outcome = input.make(Call::ReadMesh);
        assert_eq!(outcome.number, number);
        before.expect_on_pages(Call::ReadMesh, &outcome, &input);
        assert!(number == 0 || input == before, "{number}");
        assert!(number != 0 || input.draft == draft(0, 0, &[3]));
    }
}

// ---- The largest ----

/// A million marks: all active cells of the largest plan, again and again.
#[test]
fn a_million_marks() {
    let corners = all_corners(16);
    for numbers in [[16, 16, 4, 4, 4, 2, corners, corners], [1, 1, 8, 1, 1, 0, 0, 0]] {
        let mut tables = scenario::wholly(plan(numbers)).to_refine;
        let active = tables.markable(RefineCells);
        assert_eq!(active.len(), 4096);
        let marks: Vec<u32> = active.iter().copied().cycle().take(1_000_000).collect();
        let mut d = draft(1, 0, &vec![u32::MAX; marks.len()]);
        assert_eq!(tables.draft_add(&mut d, &marks[..1]), 0);
        let late = [&marks[1..], &[u32::MAX]].concat();
        assert_eq!(tables.draft_add(&mut d, &late), 7);
        assert_eq!(tables.draft_add(&mut d, &[&marks[1..], &marks[..1]].concat()), 10);
        assert_eq!(tables.draft_add(&mut d, &marks[1..]), 0);
        assert_eq!(tables.draft_add(&mut d, &active[..1]), 10);
        assert!(d == full(&marks));
        let mut refined = tables.clone();
        let expected = refined.call_with_room(RefineCells, &marks);
        let (cell_list, function_list) = tables.lists_with_room();
        assert_eq!(tables.draft_close(&mut d, &cell_list, &function_list), expected);
        assert!(tables == refined && d == draft(0, 0, &marks));
        assert_eq!(expected.cells, active);
    }
}
