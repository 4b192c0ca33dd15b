//! Rounds from one mesh to another as the wrapper has them: of lent slices, of a [`Mesh`], and made
//! on a [`Mesh`], on [`Planes`] and in a [`Season`].

mod common;

use common::{cells, with_draft, worked, PLAN};
use std::mem::{offset_of, size_of};
use wallmirror::*;

/// Of three levels, of one, of six, and with corners.
const PLANS: [Plan; 4] = [
    PLAN,
    Plan { columns: 16, rows: 4, degree_up: 2, ..Plan::SMALLEST },
    Plan { levels: 6, degree_across: 3, admissibility_class: 2, ..Plan::SMALLEST },
    Plan {
        columns: 3,
        rows: 2,
        levels: 4,
        degree_across: 2,
        degree_up: 3,
        admissibility_class: 3,
        corners_across: 1 << 1,
        corners_up: 1 << 1,
    },
];

const CLASS_0: Plan = Plan { columns: 2, levels: 3, ..Plan::SMALLEST };

/// The tables with just these cells refined, which are to be in rising order. They need not be
/// admissible, since they are made in class 0.
fn refined(plan: Plan, numbers: &[u32]) -> Mesh {
    let mut mesh = Mesh::open(Plan { admissibility_class: 0, ..plan }).expect("a plan");
    for cell in cells(numbers) {
        mesh.refine_cells(&[cell]).expect("a cell to refine");
    }
    Mesh { plan, ..mesh }
}

/// Whether the byte of a cell is 2.
fn is_refined(mesh: &Mesh, cell: usize) -> bool {
    mesh.cells[cell] == 2
}

/// The cells of each level but the last that are refined in the wanted mesh alone. `None` where a
/// cell is refined in this mesh alone.
fn missing(mesh: &Mesh, wanted: &Mesh) -> Option<Vec<Vec<Cell>>> {
    let differ = |of: &Mesh, not_of: &Mesh, cell| is_refined(of, cell) && !is_refined(not_of, cell);
    let mut rounds = vec![vec![]; mesh.plan.levels as usize - 1];
    for cell in 0..mesh.cells.len() {
        if differ(mesh, wanted, cell) {
            return None;
        }
        if differ(wanted, mesh, cell) {
            let number = Cell(cell as u32);
            rounds[mesh.plan.place(number).expect("a cell").level as usize].push(number);
        }
    }
    Some(rounds)
}

/// Meshes of a plan, each with a mark more than the one before, as long as there is one to refine.
fn chain(plan: Plan, step: usize, call: fn(u32) -> Call) -> Vec<Mesh> {
    let mut meshes = vec![Mesh::open(plan).expect("a plan")];
    for turn in 1..12 {
        let mut mesh = meshes[meshes.len() - 1].clone();
        let numbers = 0..mesh.functions.len() as u32;
        let fits = |&mark: &u32| mesh.first_fault(&call(mark)).is_none();
        let marks: Vec<u32> = numbers.filter(fits).collect();
        if marks.is_empty() {
            break;
        }
        mesh.make(&call(marks[turn * step % marks.len()])).expect("a mark to refine");
        meshes.push(mesh);
    }
    meshes
}

/// Meshes made by cells, and meshes made by functions.
fn meshes(plan: Plan) -> Vec<Mesh> {
    let mut meshes = chain(plan, 7, |mark| Call::RefineCells(vec![Cell(mark)]));
    meshes.extend(chain(plan, 5, |mark| Call::RefineFunctions(vec![Function(mark)])));
    meshes
}

/// In some pairs the second mesh has all refined cells of the first, in others not.
fn pairs() -> Vec<(Mesh, Mesh)> {
    let mut pairs = vec![];
    for meshes in PLANS.map(meshes) {
        for mesh in &meshes {
            pairs.extend(meshes.iter().map(|wanted| (mesh.clone(), wanted.clone())));
        }
    }
    pairs
}

/// Each round is accepted, and lists its own marks and no other cell.
fn make_rounds(mesh: &mut impl AnyMesh, rounds: &[Vec<Cell>]) {
    for round in rounds {
        let lists = mesh.refine_cells(round);
        assert_eq!(lists.map(|lists| lists.cells).as_ref(), Ok(round));
    }
}

/// The call with lent slices.
fn lend(
    today: &Mesh,
    wanted: &Mesh,
    marks: &mut [Cell],
    lengths: &mut [u32],
) -> Result<Rounds, Refusal> {
    let (cells, functions) = (&wanted.cells, &wanted.functions);
    rounds(today.plan, &today.cells, &today.functions, cells, functions, marks, lengths)
}

fn refused(refusal: Refusal) -> Result<Vec<Vec<Cell>>, RoundsRefusal> {
    Err(RoundsRefusal::Refused(refusal))
}

#[test]
fn layout_is_that_of_the_header() {
    assert_eq!(size_of::<ffi::Rounds>(), 12);
    assert_eq!(
        [
            offset_of!(ffi::Rounds, number),
            offset_of!(ffi::Rounds, marks),
            offset_of!(ffi::Rounds, rounds),
        ],
        [0, 4, 8]
    );
}

/// From a mesh with just these cells refined to one with those.
fn expect_rounds(plan: Plan, today: &[u32], wanted: &[u32], rounds: &[&[u32]]) {
    let found = refined(plan, today).rounds_to(&refined(plan, wanted));
    assert_eq!(found, Ok(rounds.iter().map(|round| cells(round)).collect()));
}

#[test]
fn worked_rounds() {
    expect_rounds(PLAN, &[], &[0, 3], &[&[0], &[3]]);
    expect_rounds(PLAN, &[], &[0, 1, 4], &[&[0, 1], &[4]]);
    expect_rounds(PLAN, &[0, 3], &[0, 1, 3, 4], &[&[1], &[4]]);
    expect_rounds(CLASS_0, &[], &[0, 2, 7], &[&[0], &[2, 7]]);
    expect_rounds(CLASS_0, &[0], &[0, 2, 7], &[&[], &[2, 7]]);
    expect_rounds(CLASS_0, &[0], &[0, 1], &[&[1], &[]]);
    expect_rounds(CLASS_0, &[0, 2], &[0, 2], &[&[], &[]]);
    expect_rounds(Plan { levels: 1, ..CLASS_0 }, &[], &[], &[]);
    let lost = refined(CLASS_0, &[1]).rounds_to(&refined(CLASS_0, &[0]));
    assert_eq!(lost, refused(Refusal::RefinedCellNotWanted));
    // The wanted mesh is not admissible, which comes before 20.
    for today in [&[][..], &[2]] {
        let answer = refined(PLAN, today).rounds_to(&refined(PLAN, &[0, 4]));
        assert_eq!(answer, refused(Refusal::NotAdmissible));
    }
}

/// There are rounds exactly where no refined cell is lost. Made on a mesh, on planes and in a season,
/// they leave the wanted mesh, and the season is taken back.
#[test]
fn rounds_reach_the_wanted_mesh() {
    let (mut found, mut lost) = (0, 0);
    for (today, wanted) in pairs() {
        let rounds = today.rounds_to(&wanted);
        let Some(missing) = missing(&today, &wanted) else {
            lost += 1;
            assert_eq!(rounds, refused(Refusal::RefinedCellNotWanted));
            continue;
        };
        found += 1;
        assert_eq!(rounds, Ok(missing.clone()));
        let mut mesh = today.clone();
        make_rounds(&mut mesh, &missing);
        assert_eq!(mesh, wanted);
        let mut planes = Planes::from_mesh(&today).expect("a mesh");
        make_rounds(&mut planes, &missing);
        assert_eq!(planes.to_mesh().as_ref(), Ok(&wanted));
        expect_taken_back(&today, &wanted, &missing);
    }
    assert!(found > 500 && lost > 300, "{found} found, {lost} lost");
}

fn expect_taken_back(today: &Mesh, wanted: &Mesh, rounds: &[Vec<Cell>]) {
    let mut season = Season::new(today.clone()).expect("a mesh");
    for round in rounds {
        assert_eq!(season.refine_cells(round).map(|lists| &lists.cells), Ok(round));
    }
    assert_eq!(season.mesh(), wanted);
    let undone = season.undo_all().expect("no draft");
    let opposites: Vec<Call> = undone.into_iter().map(|undone| undone.opposite).collect();
    let marks: Vec<Call> = rounds.iter().rev().cloned().map(Call::CoarsenCells).collect();
    assert_eq!((opposites, season.mesh()), (marks, today));
}

/// A program that has counted both meshes knows how long the list of marks must be.
#[test]
fn there_are_as_many_marks_as_refined_cells_more() {
    for (today, wanted) in pairs() {
        if let Ok(rounds) = today.rounds_to(&wanted) {
            let [today, wanted] =
                [&today, &wanted].map(|mesh| mesh.count().expect("a mesh").refined_cells);
            assert_eq!(rounds.iter().map(Vec::len).sum::<usize>(), wanted - today);
        }
    }
}

/// A list that is just long enough is; a longer one keeps its other entries, and a shorter one all.
#[test]
fn lent_lists() {
    let (today, wanted) = (refined(CLASS_0, &[0]), refined(CLASS_0, &[0, 2, 3, 7]));
    for (room, lengths_room) in (0..5).flat_map(|m| (0..5).map(move |l| (m, l))) {
        let (mut marks, mut lengths) = (vec![Cell(99); room], vec![88; lengths_room]);
        let answer = lend(&today, &wanted, &mut marks, &mut lengths);
        let (mut expected, mut expected_lengths) = (vec![Cell(99); room], vec![88; lengths_room]);
        if room >= 3 && lengths_room >= 2 {
            assert_eq!(answer, Ok(Rounds { marks: 3, rounds: 2 }));
            expected[..3].copy_from_slice(&[2, 3, 7].map(Cell));
            expected_lengths[..2].copy_from_slice(&[0, 3]);
        } else {
            assert_eq!(answer, Err(Refusal::CellListTooShort));
        }
        assert_eq!((marks, lengths), (expected, expected_lengths));
    }
}

/// Tables that are refused with 3 to 6, in this order, and a mesh.
fn faulty() -> [(Mesh, Option<Refusal>); 6] {
    let mesh = refined(PLAN, &[0]);
    let mut of_cells = mesh.clone();
    of_cells.cells.pop();
    let mut of_functions = mesh.clone();
    of_functions.functions.push(0);
    let mut no_mesh = mesh.clone();
    no_mesh.cells[1] = 3;
    let mut wrong = mesh.clone();
    wrong.functions[0] = 1;
    [
        (of_cells, Some(Refusal::TableLength)),
        (of_functions, Some(Refusal::TableLength)),
        (no_mesh, Some(Refusal::NotAMesh)),
        (refined(PLAN, &[0, 4]), Some(Refusal::NotAdmissible)),
        (wrong, Some(Refusal::WrongFunctionByte)),
        (mesh, None),
    ]
}

/// 1 to 6 of today's mesh, 1 to 6 of the wanted one, then 20, then 10; and both lists are kept.
#[test]
fn refusals_come_in_order() {
    let expect = |today: &Mesh, wanted: &Mesh, refusal| {
        assert_eq!(today.rounds_to(wanted), refused(refusal));
        expect_kept(today, wanted, &mut [], refusal);
        expect_kept(today, wanted, &mut [Cell(99); 9], refusal);
    };
    for (today, of_today) in faulty() {
        for (wanted, of_wanted) in faulty() {
            if let Some(refusal) = of_today.or(of_wanted) {
                expect(&today, &wanted, refusal);
            }
            for (plan, refusal) in [
                (Plan { columns: 17, ..PLAN }, Refusal::PlanOutOfRange),
                (Plan { levels: 8, ..PLAN }, Refusal::TooManyCells),
            ] {
                let with = |mesh: &Mesh| Mesh { plan, ..mesh.clone() };
                expect(&with(&today), &with(&wanted), refusal);
            }
        }
        let lost = refined(PLAN, &[1]);
        expect(&today, &lost, of_today.unwrap_or(Refusal::RefinedCellNotWanted));
        expect(&lost, &today, of_today.unwrap_or(Refusal::RefinedCellNotWanted));
    }
    let longer = refined(PLAN, &[0, 3]);
    expect_kept(&refined(PLAN, &[0]), &longer, &mut [], Refusal::CellListTooShort);
}

fn expect_kept(today: &Mesh, wanted: &Mesh, marks: &mut [Cell], refusal: Refusal) {
    let (kept, mut lengths) = (marks.to_vec(), [88; 9]);
    assert_eq!(lend(today, wanted, marks, &mut lengths), Err(refusal));
    assert_eq!(lengths, [88; 9]);
    assert_eq!(marks, kept);
}

/// Whatever the plans and the tables are.
#[test]
fn another_plan_is_refused_first() {
    let others = [
        Plan { columns: 4, ..PLAN },
        Plan { rows: 17, ..PLAN },
        Plan { levels: 2, ..PLAN },
        Plan { degree_across: 2, ..PLAN },
        Plan { degree_up: 0, ..PLAN },
        Plan { admissibility_class: 0, ..PLAN },
        Plan { corners_across: 1 << 1, ..PLAN },
        Plan { corners_up: 1, ..PLAN },
    ];
    for plan in others {
        for (mesh, _) in faulty() {
            let other = Mesh { plan, ..mesh.clone() };
            assert_eq!(mesh.rounds_to(&other), Err(RoundsRefusal::OtherPlan));
            assert_eq!(other.rounds_to(&mesh), Err(RoundsRefusal::OtherPlan));
        }
    }
}

/// On either mesh. It is in the way when the rounds are made.
#[test]
fn an_open_draft_has_no_part_in_it() {
    let (mut today, mut wanted) = (worked(), worked());
    wanted.refine_cells(&cells(&[2, 4])).expect("cells to refine");
    let rounds = [cells(&[2]), cells(&[4])];
    let expect = |today: &Mesh, wanted: &Mesh| {
        assert_eq!(today.rounds_to(wanted), Ok(rounds.to_vec()));
    };
    expect(&today, &wanted);
    expect(&with_draft(&[2, 9]), &wanted);
    for marks in [&[5][..], &[], &[5, 63]] {
        wanted.draft = Some(cells(marks));
        expect(&today, &wanted);
        expect(&with_draft(marks), &wanted);
    }
    today.open_draft().expect("no draft");
    assert_eq!(today.refine_cells(&[Cell(2)]), Err(Refusal::DraftOpen));
    today.drop_draft().expect("a draft");
    make_rounds(&mut today, &rounds);
    assert_eq!(today, Mesh { draft: None, ..wanted });
}

/// All rounds are empty, and change nothing.
#[test]
fn from_a_mesh_to_itself() {
    for mesh in PLANS.into_iter().flat_map(meshes) {
        let empty = vec![vec![]; mesh.plan.levels as usize - 1];
        assert_eq!(mesh.rounds_to(&mesh), Ok(empty.clone()));
        assert_eq!(mesh.rounds_to(&mesh.clone()), Ok(empty.clone()));
        let mut left = mesh.clone();
        make_rounds(&mut left, &empty);
        assert_eq!(left, mesh);
    }
}

/// The list of lengths may be empty.
#[test]
fn one_level_has_no_rounds() {
    let mesh = Mesh::open(Plan { levels: 1, ..PLAN }).expect("a plan");
    assert_eq!(mesh.rounds_to(&mesh), Ok(vec![]));
    let answer = lend(&mesh, &mesh, &mut [], &mut []);
    assert_eq!(answer, Ok(Rounds { marks: 0, rounds: 0 }));
}

/// From the mesh as opened to the one with every cell of all levels but the last refined.
#[test]
fn the_most_rounds() {
    let today = Mesh::open(Plan { levels: 8, ..Plan::SMALLEST }).expect("a plan");
    let mut wanted = today.clone();
    for level in 0..7 {
        let all = today.plan.level(level).expect("a level");
        let marks: Vec<u32> = (0..all.rows * all.columns).map(|i| all.first_cell + i).collect();
        wanted.refine_cells(&cells(&marks)).expect("cells to refine");
    }
    assert_eq!(today.plan.cells(), Some(MAX_CELLS));
    let rounds = today.rounds_to(&wanted).expect("rounds");
    assert_eq!(rounds.len(), MAX_ROUNDS);
    assert_eq!(rounds.iter().map(Vec::len).collect::<Vec<_>>(), [1, 4, 16, 64, 256, 1024, 4096]);
    let mut mesh = today;
    make_rounds(&mut mesh, &rounds);
    assert_eq!(mesh, wanted);
}

/// Made with heights they lead to the same tables, and the surface keeps its shape.
#[test]
fn rounds_with_heights() {
    let (mut mesh, wanted) = (refined(PLAN, &[0]), refined(PLAN, &[0, 1, 3, 4]));
    let mut heights = Heights::of(&mesh);
    for (i, height) in (0..).zip(heights.iter_mut()) {
        *height = 100 * (i % 7) - 300;
    }
    let points = || (0..=96).flat_map(|across| (0..=32).map(move |up| (across, up)));
    let surface = |mesh: &Mesh, heights: &Heights| -> Result<Vec<f64>, Refusal> {
        points().map(|(across, up)| mesh.height(heights, across, up)).collect()
    };
    let before = surface(&mesh, &heights);
    assert!(before.as_ref().is_ok_and(|heights| heights.iter().any(|&mm| mm != 0.0)));
    for round in mesh.rounds_to(&wanted).expect("rounds") {
        let lists = mesh.refine_cells_with_heights(&mut heights, &round);
        assert_eq!(lists.map(|lists| lists.cells), Ok(round));
    }
    assert_eq!(mesh, wanted);
    assert_eq!(surface(&mesh, &heights), before);
}

#[test]
fn refusals_in_words() {
    let of_library = RoundsRefusal::from(Refusal::RefinedCellNotWanted);
    assert_eq!(of_library, RoundsRefusal::Refused(Refusal::RefinedCellNotWanted));
    assert_eq!(of_library.to_string(), Refusal::RefinedCellNotWanted.to_string());
    assert_eq!(RoundsRefusal::OtherPlan.to_string(), "the wanted mesh has another plan");
}
