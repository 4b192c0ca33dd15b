//! Drafts as the wrapper has them: of lent slices, of a [`Mesh`] and of a [`Season`].

mod common;

use common::{cells, with_draft, worked, PLAN};
use std::mem::{offset_of, size_of};
use wallmirror::*;

/// All calls of a mesh that refuse 18 while a draft is open.
fn changes(mesh: &mut Mesh, heights: &mut [i32]) -> [Result<Lists, Refusal>; 7] {
    [
        mesh.refine_cells(&[Cell(2)]),
        mesh.refine_functions(&[Function(10)]),
        mesh.coarsen_cells(&[Cell(3)]),
        mesh.coarsen_functions(&[Function(8)]),
        mesh.refine_cells_with_heights(heights, &[Cell(2)]),
        mesh.refine_functions_with_heights(heights, &[Function(10)]),
        mesh.open_draft().map(|()| Lists::default()),
    ]
}

/// All calls that refuse 19 while none is.
fn on_draft(mesh: &mut Mesh) -> [Result<Lists, Refusal>; 3] {
    [
        mesh.add_marks(&[Cell(2)]).map(|()| Lists::default()),
        mesh.close_draft(),
        mesh.drop_draft().map(|()| Lists::default()),
    ]
}

#[test]
fn layouts_are_those_of_the_header() {
    assert_eq!(size_of::<Draft>(), 16);
    assert_eq!((offset_of!(Draft, open), offset_of!(Draft, marks)), (0, 8));
    assert_eq!((size_of::<ffi::Drafted>(), offset_of!(ffi::Drafted, draft)), (24, 8));
    assert_eq!((size_of::<ffi::Closed>(), offset_of!(ffi::Closed, draft)), (32, 16));
    assert_eq!((size_of::<ffi::ReadWithDraft>(), offset_of!(ffi::ReadWithDraft, draft)), (56, 40));
}

#[test]
fn marks_of_a_draft() {
    let list = cells(&[2, 0, 7]);
    for open in [1, 7, u32::MAX] {
        assert_eq!(Draft { open, marks: 0 }.marks(&list), Some(&[][..]));
        assert_eq!(Draft { open, marks: 3 }.marks(&list), Some(&list[..]));
        assert_eq!(Draft { open, marks: 4 }.marks(&list), None);
        assert_eq!(Draft { open, marks: usize::MAX }.marks(&list), None);
        assert_eq!(Draft { open, marks: 0 }.marks(&[]), Some(&[][..]));
    }
    assert_eq!(Draft { open: 0, marks: 3 }.marks(&list), None);
    assert_eq!(Draft::NONE, Draft::default());
}

/// The draft is what the library answers, after a refusal too.
#[test]
fn calls_on_a_lent_draft() {
    let Mesh { plan, mut cells, mut functions, .. } = worked();
    let (cells, functions) = (&mut cells[..], &mut functions[..]);
    let mut list = [Cell(9); 4];
    let mut draft = Draft { open: 1, marks: 5 };
    assert_eq!(draft_drop(plan, cells, functions, &mut draft, &list), Err(Refusal::NoDraft));
    assert_eq!(draft, Draft { open: 1, marks: 5 });
    assert_eq!(draft_open(plan, cells, functions, &mut draft, &list), Ok(()));
    assert_eq!(draft, Draft { open: 1, marks: 0 });
    draft.open = 7;
    assert_eq!(draft_open(plan, cells, functions, &mut draft, &list), Err(Refusal::DraftOpen));
    let add = |draft: &mut Draft, list: &mut [Cell], marks: &[u32]| {
        draft_add(plan, cells, functions, draft, list, &self::cells(marks))
    };
    assert_eq!(add(&mut draft, &mut list, &[2, 4]), Ok(()));
    assert_eq!(add(&mut draft, &mut list, &[4, 63]), Err(Refusal::MarkOutOfRange));
    assert_eq!(add(&mut draft, &mut list, &[4, 4, 4]), Err(Refusal::CellListTooShort));
    assert_eq!((draft, list), (Draft { open: 7, marks: 2 }, [2, 4, 9, 9].map(Cell)));
    assert_eq!(add(&mut draft, &mut list, &[4, 4]), Ok(()));
    assert_eq!(add(&mut draft, &mut list, &[4]), Err(Refusal::CellListTooShort));
    assert_eq!((draft, list), (Draft { open: 7, marks: 4 }, [2, 4, 4, 4].map(Cell)));

    let (mut cell_list, mut function_list) = ([Cell(9); 3], [Function(9); 8]);
    let (cell_list, function_list) = (&mut cell_list[..], &mut function_list[..]);
    let short = &mut cell_list[..1];
    let refused = draft_close(plan, cells, functions, &mut draft, &list, short, function_list);
    assert_eq!((refused, draft.marks), (Err(Refusal::CellListTooShort), 4));
    let closed = draft_close(plan, cells, functions, &mut draft, &list, cell_list, function_list);
    assert_eq!(closed.map(|closed| closed.cells), Ok(2));
    assert_eq!((draft, &cell_list[..]), (Draft::NONE, &[2, 4, 9].map(Cell)[..]));
    draft = Draft { open: 7, marks: 4 };
    assert_eq!(draft_drop(plan, cells, functions, &mut draft, &list), Ok(()));
    assert_eq!(draft, Draft::NONE);
}

/// Accepted, they drop the draft; refused, they leave it.
#[test]
fn opening_and_reading_beside_a_lent_draft() {
    let Mesh { plan, mut cells, mut functions, .. } = worked();
    let file = Mesh::from_tables(plan, cells.clone(), functions.clone()).to_file().expect("a mesh");
    let kept = Draft { open: 7, marks: 9 };
    let mut draft = kept;
    let refused = open_with_draft(plan, &mut cells[1..], &mut functions, &mut draft);
    assert_eq!((refused, draft), (Err(Refusal::TableLength), kept));
    assert_eq!(open_with_draft(plan, &mut cells, &mut functions, &mut draft), Ok(()));
    assert_eq!(draft, Draft::NONE);
    assert_eq!(Mesh::open(plan), Ok(Mesh::from_tables(plan, cells.clone(), functions.clone())));

    draft = kept;
    let refused = read_with_draft(&file, &mut [], &mut functions, &mut draft);
    let unread = ReadRefusal { refusal: Refusal::TableLength, plan: Some(plan) };
    assert_eq!((refused, draft), (Err(unread), kept));
    let refused = read_with_draft(&file[1..], &mut cells, &mut functions, &mut draft);
    assert_eq!((refused.is_err(), draft), (true, kept));
    assert_eq!(read_with_draft(&file, &mut cells, &mut functions, &mut draft), Ok(plan));
    assert_eq!(draft, Draft::NONE);
    assert_eq!(Mesh::from_tables(plan, cells, functions), worked());
}

/// What a call is lent, and what it leaves.
#[derive(Clone, Debug, PartialEq)]
struct Lent {
    cells: Vec<u8>,
    functions: Vec<u8>,
    heights: Vec<i32>,
    cell_list: Vec<Cell>,
    function_list: Vec<Function>,
}

/// A form of a call with a draft leaves what the form without leaves where none is open, and is
/// refused where one is.
fn expect_form(
    with: impl Fn(&mut Lent, Draft, &[Cell]) -> Result<Changed, Refusal>,
    without: impl Fn(&mut Lent) -> Result<Changed, Refusal>,
) {
    let Mesh { cells, functions, .. } = worked();
    let heights = vec![16; functions.len()];
    let cell_list = vec![Cell(99); cells.len()];
    let function_list = vec![Function(99); functions.len()];
    let lent = Lent { cells, functions, heights, cell_list, function_list };
    let list = [Cell(2); 3];
    let beside = |open, marks| {
        let mut lent = lent.clone();
        (with(&mut lent, Draft { open, marks }, &list), lent)
    };
    let mut left = lent.clone();
    let changed = without(&mut left);
    assert!(changed.is_ok_and(|changed| changed.cells > 0));
    for (open, marks) in [(0, 0), (0, 2), (1, 4), (u32::MAX, usize::MAX)] {
        assert_eq!(beside(open, marks), (changed, left.clone()));
    }
    for (open, marks) in [(1, 0), (1, 3), (u32::MAX, 3)] {
        assert_eq!(beside(open, marks), (Err(Refusal::DraftOpen), lent.clone()));
    }
}

/// Both forms of a call, with one mark; the last name stands for the heights, where it has them.
macro_rules! expect_form {
    ($with:ident, $without:ident, $mark:expr $(, $heights:ident)?) => {
        expect_form(
            |lent, draft, list| {
                let Lent { cells, functions, cell_list, function_list, .. } = lent;
                $(let $heights = &mut lent.heights;)?
                $with(
                    PLAN, cells, functions, $($heights,)? draft, list, &[$mark], cell_list,
                    function_list,
                )
            },
            |lent| {
                let Lent { cells, functions, cell_list, function_list, .. } = lent;
                $(let $heights = &mut lent.heights;)?
                $without(PLAN, cells, functions, $($heights,)? &[$mark], cell_list, function_list)
            },
        )
    };
}

#[test]
fn forms_with_a_lent_draft() {
    expect_form!(refine_cells_with_draft, refine_cells, Cell(2));
    expect_form!(refine_functions_with_draft, refine_functions, Function(10));
    expect_form!(coarsen_cells_with_draft, coarsen_cells, Cell(3));
    expect_form!(coarsen_functions_with_draft, coarsen_functions, Function(8));
    let (cell, function) = (Cell(2), Function(10));
    expect_form!(refine_cells_with_heights_and_draft, refine_cells_with_heights, cell, heights);
    expect_form!(
        refine_functions_with_heights_and_draft,
        refine_functions_with_heights,
        function,
        heights
    );
}

/// 18 comes after 6 and before all that is said of heights and marks; then nothing changes.
#[test]
fn a_mesh_with_an_open_draft() {
    let mut mesh = with_draft(&[2, 4, 2]);
    let before = mesh.clone();
    for heights in [&mut [0; 94][..], &mut [], &mut [i32::MIN; 94]] {
        let kept = heights.to_vec();
        for refused in changes(&mut mesh, heights) {
            assert_eq!(refused, Err(Refusal::DraftOpen));
        }
        assert_eq!((&mesh, &heights[..]), (&before, &kept[..]));
    }
    assert_eq!(mesh.refine_cells(&[Cell(63)]), Err(Refusal::DraftOpen));
    mesh.functions[0] = 0;
    for refused in changes(&mut mesh, &mut []).iter().chain(&on_draft(&mut mesh)) {
        assert_eq!(refused, &Err(Refusal::WrongFunctionByte));
    }
    assert_eq!(mesh.draft, before.draft);
}

#[test]
fn a_mesh_without_a_draft() {
    for refused in on_draft(&mut worked()) {
        assert_eq!(refused, Err(Refusal::NoDraft));
    }
    let mut mesh = worked();
    mesh.functions[0] = 0;
    for refused in on_draft(&mut mesh) {
        assert_eq!(refused, Err(Refusal::WrongFunctionByte));
    }
    assert_eq!(mesh.draft, None);
}

/// What only reads shows the mesh without the draft.
#[test]
fn a_mesh_is_read_beside_its_draft() {
    let (plain, mesh, heights) = (worked(), with_draft(&[2, 4]), [16; 94]);
    assert_eq!((mesh.check(), mesh.count()), (Ok(()), plain.count()));
    assert_eq!(mesh.height(&heights, 16, 0), plain.height(&heights, 16, 0));
    assert_eq!(mesh.corners(&heights), plain.corners(&heights));
    assert_eq!(mesh.to_file(), plain.to_file());
    assert_eq!(Mesh::from_file(&mesh.to_file().expect("a mesh")), Ok(plain));
    // The marks are judged alone, as an add judges them.
    let call = Call::RefineCells(cells(&[2, 4, 7]));
    assert_eq!(mesh.first_fault(&call), Some(2));
    assert_eq!(mesh.clone().add_marks(&cells(&[2, 4, 7])), Err(Refusal::MarkOfWrongKind));
}

#[test]
fn a_closed_draft_is_one_refinement() {
    let mut mesh = worked();
    assert_eq!(mesh.open_draft(), Ok(()));
    assert_eq!(mesh, with_draft(&[]));
    assert_eq!(mesh.add_marks(&cells(&[4, 2])), Ok(()));
    for (marks, refusal) in [
        (vec![9, 63], Refusal::MarkOutOfRange),
        (vec![9, 7], Refusal::MarkOfWrongKind),
        (vec![9, 15], Refusal::MarkOfLastLevel),
    ] {
        assert_eq!(mesh.add_marks(&cells(&marks)), Err(refusal));
        assert_eq!(mesh, with_draft(&[4, 2]));
    }
    assert_eq!(mesh.add_marks(&[]), Ok(()));
    assert_eq!(mesh.add_marks(&cells(&[4])), Ok(()));
    assert_eq!(mesh, with_draft(&[4, 2, 4]));
    let mut refined = worked();
    assert_eq!(mesh.close_draft(), refined.refine_cells(&cells(&[4, 2, 4])));
    assert_eq!(mesh, refined);
}

#[test]
fn a_dropped_draft_changes_nothing() {
    let mut mesh = with_draft(&[2, 4]);
    assert_eq!((mesh.drop_draft(), mesh), (Ok(()), worked()));
}

/// A mark that was written to the draft by hand.
#[test]
fn a_refused_close_leaves_everything() {
    for (mark, refusal) in [
        (63, Refusal::MarkOutOfRange),
        (7, Refusal::MarkOfWrongKind),
        (15, Refusal::MarkOfLastLevel),
    ] {
        let mut mesh = with_draft(&[2, mark]);
        assert_eq!(mesh.close_draft(), Err(refusal));
        assert_eq!(mesh, with_draft(&[2, mark]));
        let mut season = Season::new(mesh.clone()).expect("a mesh");
        assert_eq!(season.close_draft(), Err(refusal));
        assert_eq!((season.mesh(), season.calls()), (&mesh, &[][..]));
    }
}

#[test]
fn a_season_keeps_a_closed_draft_as_one_call() {
    let mut season = Season::new(worked()).expect("a mesh");
    assert_eq!(season.open_draft(), Ok(()));
    assert_eq!(season.open_draft(), Err(Refusal::DraftOpen));
    assert_eq!(season.add_marks(&cells(&[2])), Ok(()));
    assert_eq!(season.add_marks(&cells(&[4, 63])), Err(Refusal::MarkOutOfRange));
    assert_eq!(season.add_marks(&cells(&[4, 2])), Ok(()));
    assert_eq!(season.calls(), []);
    let lists = season.close_draft().expect("a draft").clone();
    let call = Call::RefineCells(cells(&[2, 4, 2]));
    assert_eq!(season.calls(), [Made { call: call.clone(), lists: lists.clone() }]);
    assert_eq!(worked().make(&call), Ok(lists.clone()));
    let undone = season.undo().expect("no draft").expect("a call");
    assert_eq!((undone.made.call, &undone.made.lists), (call, &lists));
    assert_eq!((undone.opposite, undone.lists), (Call::CoarsenCells(lists.cells.clone()), lists));
    assert_eq!(season.undo(), Ok(None));
    assert_eq!(season.mesh(), &worked());
}

/// Not even where there is nothing to take back. A dropped draft is no call.
#[test]
fn nothing_is_taken_back_while_a_draft_is_open() {
    for calls in [0, 2] {
        let mut season = Season::new(Mesh::open(PLAN).expect("a plan")).expect("a mesh");
        for mark in &[0, 3][..calls] {
            season.refine_cells(&[Cell(*mark)]).expect("a cell to refine");
        }
        season.open_draft().expect("no draft");
        season.add_marks(&[Cell(2)]).expect("a cell to refine");
        let before = season.clone();
        assert_eq!(season.undo(), Err(Refusal::DraftOpen));
        assert_eq!(season.undo_all(), Err(Refusal::DraftOpen));
        assert_eq!(season, before);
        assert_eq!(season.drop_draft(), Ok(()));
        assert_eq!(season.undo_all().map(|undone| undone.len()), Ok(calls));
        assert_eq!(season.mesh(), season.first());
    }
}

#[test]
fn a_season_begins_with_the_draft_of_its_mesh() {
    let mut season = Season::new(with_draft(&[2, 4])).expect("a mesh");
    assert_eq!((season.mesh(), season.first()), (&with_draft(&[2, 4]), &worked()));
    assert_eq!(season.refine_cells(&[Cell(2)]), Err(Refusal::DraftOpen));
    assert_eq!(season.close_draft().map(|lists| lists.cells.clone()), Ok(cells(&[2, 4])));
    assert_eq!(season.undo_all().map(|undone| undone.len()), Ok(1));
    assert_eq!(season.mesh(), season.first());
}

/// Many adds, and marks that are repeated very often.
#[test]
fn a_draft_of_a_mesh_has_any_number_of_marks() {
    let mut mesh = worked();
    mesh.open_draft().expect("no draft");
    for _ in 0..1000 {
        mesh.add_marks(&[Cell(2)]).expect("a cell to refine");
    }
    mesh.add_marks(&vec![Cell(4); 100_000]).expect("a cell to refine");
    assert_eq!(mesh.draft.as_ref().map(Vec::len), Some(101_000));
    assert_eq!(mesh.close_draft().map(|lists| lists.cells), Ok(cells(&[2, 4])));
}
