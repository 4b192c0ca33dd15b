//! Planes as the wrapper has them: of lent slices, as [`Planes`] and in a [`Season`].

mod common;

use common::{cells, with_draft, worked, PLAN};
use wallmirror::*;

/// With one spare bit, with none, with 63, and with two.
const PLANS: [Plan; 4] = [
    PLAN,
    Plan { columns: 16, rows: 4, levels: 2, degree_up: 2, ..Plan::SMALLEST },
    Plan { columns: 13, levels: 2, degree_across: 4, admissibility_class: 2, ..Plan::SMALLEST },
    Plan {
        columns: 3,
        rows: 2,
        levels: 4,
        degree_across: 2,
        degree_up: 3,
        admissibility_class: 3,
        corners_across: 1 << 1,
        corners_up: 1 << 1,
    },
];

fn planes_of(mesh: &Mesh) -> Planes {
    Planes::from_mesh(mesh).expect("a mesh without a draft")
}

/// A call of a run. Most have marks that fit, and some a last mark that does not.
fn call(mesh: &Mesh, step: usize) -> Call {
    let (cells, functions) = (mesh.cells.len(), mesh.functions.len());
    let (made, length): (fn(Vec<u32>) -> Call, usize) = match step % 6 {
        0 | 4 => (|marks| Call::RefineCells(self::cells(&marks)), cells),
        1 | 3 => (|marks| Call::RefineFunctions(self::functions(&marks)), functions),
        2 => (|marks| Call::CoarsenCells(self::cells(&marks)), cells),
        _ => (|marks| Call::CoarsenFunctions(self::functions(&marks)), functions),
    };
    let fits = |&mark: &u32| mesh.first_fault(&made(vec![mark])).is_none();
    // A prime number, so that every mark comes.
    let any = (0..length).map(|i| ((step + 7919 * i) % length) as u32);
    let mut marks: Vec<u32> = any.filter(fits).take([1, 3, 0, 2, 1][step % 5]).collect();
    match step % 21 {
        6 => marks.push((length + step) as u32),
        13 | 20 => marks.push((length - 1 - step % length) as u32),
        _ => {}
    }
    made(marks)
}

fn functions(numbers: &[u32]) -> Vec<Function> {
    numbers.iter().copied().map(Function).collect()
}

/// A run of calls on a mesh: each call with the mesh before it.
fn run(plan: Plan, steps: usize) -> Vec<(Mesh, Call)> {
    let mut mesh = Mesh::open(plan).expect("a plan");
    let step = |step| {
        let (before, call) = (mesh.clone(), call(&mesh, step));
        // Some are refused.
        let _ = mesh.make(&call);
        (before, call)
    };
    (0..steps).map(step).collect()
}

/// One call of each kind, with a mark that fits the worked mesh.
fn calls() -> [Call; 4] {
    [
        Call::RefineCells(cells(&[2])),
        Call::RefineFunctions(functions(&[10])),
        Call::CoarsenCells(cells(&[3])),
        Call::CoarsenFunctions(functions(&[8])),
    ]
}

/// The form of a call with lent slices, of the four named, with these tables and lists.
macro_rules! lend {
    ($call:expr, $plan:expr, ($($table:expr),*), $lists:expr, $cells:ident $functions:ident
     $coarsen_cells:ident $coarsen_functions:ident) => {{
        let (cell_list, function_list): (&mut [Cell], &mut [Function]) = $lists;
        match $call {
            Call::RefineCells(marks) => {
                $cells($plan, $($table,)* marks, cell_list, function_list)
            }
            Call::RefineFunctions(marks) => {
                $functions($plan, $($table,)* marks, cell_list, function_list)
            }
            Call::CoarsenCells(marks) => {
                $coarsen_cells($plan, $($table,)* marks, cell_list, function_list)
            }
            Call::CoarsenFunctions(marks) => {
                $coarsen_functions($plan, $($table,)* marks, cell_list, function_list)
            }
        }
    }};
}

type Lent<'a> = (&'a mut [Cell], &'a mut [Function]);

fn lend_bytes(mesh: &mut Mesh, call: &Call, lists: Lent) -> Result<Changed, Refusal> {
    let Mesh { plan, cells, functions, .. } = mesh;
    lend!(call, *plan, (cells, functions), lists, refine_cells refine_functions coarsen_cells
          coarsen_functions)
}

fn lend_planes(planes: &mut Planes, call: &Call, lists: Lent) -> Result<Changed, Refusal> {
    let Planes { plan, present, refined, functions } = planes;
    lend!(call, *plan, (present, refined, functions), lists, planes_refine_cells
          planes_refine_functions planes_coarsen_cells planes_coarsen_functions)
}

/// Both forms of a call leave the same in lists of these lengths, past what they write too.
fn expect_lent(mesh: &Mesh, call: &Call, cells: usize, functions: usize) -> Option<Refusal> {
    let (mut mesh, mut planes) = (mesh.clone(), planes_of(mesh));
    let mut lists = (vec![Cell(u32::MAX); cells], vec![Function(u32::MAX); functions]);
    let mut of_planes = lists.clone();
    let answer = lend_bytes(&mut mesh, call, (&mut lists.0, &mut lists.1));
    assert_eq!(lend_planes(&mut planes, call, (&mut of_planes.0, &mut of_planes.1)), answer);
    assert_eq!((planes, of_planes), (planes_of(&mesh), lists));
    answer.err()
}

#[test]
fn lent_planes_and_lists() {
    let mut refusals = vec![];
    for (mesh, call) in PLANS.into_iter().flat_map(|plan| run(plan, 60)) {
        let (t, f) = (mesh.cells.len(), mesh.functions.len());
        refusals.extend(expect_lent(&mesh, &call, t, f));
        refusals.extend(expect_lent(&mesh, &call, 0, f));
        refusals.extend(expect_lent(&mesh, &call, t, 0));
        if let Ok(Lists { cells, functions }) = mesh.clone().make(&call) {
            assert_eq!(expect_lent(&mesh, &call, cells.len(), functions.len()), None);
            assert_eq!(expect_lent(&mesh, &call, cells.len() + 1, functions.len() + 1), None);
        }
    }
    for refusal in &Refusal::ALL[6..11] {
        assert!(refusals.contains(refusal), "{refusal}");
    }
}

#[test]
fn runs_are_those_of_a_mesh() {
    for plan in PLANS {
        let (mut planes, mut refused) = (Planes::open(plan).expect("a plan"), 0);
        for (mut mesh, call) in run(plan, 120) {
            assert_eq!(planes, planes_of(&mesh));
            assert_eq!((planes.check(), planes.count()), (Ok(()), mesh.count()));
            assert_eq!(planes.first_fault(&call), mesh.first_fault(&call));
            let (before, answer) = (planes.clone(), mesh.make(&call));
            assert_eq!(planes.make(&call), answer, "{call:?}");
            if answer.is_err() {
                refused += 1;
                assert_eq!(planes, before);
            }
        }
        assert!((5..20).contains(&refused), "{refused}");
        assert!(planes.count().is_ok_and(|count| count.refined_cells > 0));
    }
}

/// The calls by name, which `make` is not needed for.
#[test]
fn calls_by_name() {
    let lists = |call: fn(&mut Planes) -> Result<Lists, Refusal>| call(&mut planes_of(&worked()));
    let named = [
        lists(|planes| planes.refine_cells(&[Cell(2)])),
        lists(|planes| planes.refine_functions(&[Function(10)])),
        lists(|planes| planes.coarsen_cells(&[Cell(3)])),
        lists(|planes| planes.coarsen_functions(&[Function(8)])),
    ];
    assert_eq!(named, calls().map(|call| worked().make(&call)));
}

/// No spare bit is set, and none of `refined` without that of `present`.
fn in_order(planes: &Planes) -> bool {
    let cells = planes.plan.cells().expect("a plan");
    let bits = |plane: &[u64]| -> Vec<bool> {
        (0..64 * plane.len()).map(|cell| plane[cell / 64] >> (cell % 64) & 1 == 1).collect()
    };
    let (present, refined) = (bits(&planes.present), bits(&planes.refined));
    present[cells..].iter().chain(&refined[cells..]).all(|bit| !bit)
        && present.iter().zip(refined).all(|(&present, refined)| present || !refined)
}

/// Whatever the planes hold: the calls answer what they answer on the same cells in bytes, and
/// refuse planes that are not in order with 4. Refused, they change nothing.
fn expect_as_bytes(planes: &Planes) {
    let mesh = planes.to_mesh();
    assert_eq!(mesh.clone().map(|_| ()), in_order(planes).then_some(()).ok_or(Refusal::NotAMesh));
    let on_mesh = |call: &Call| {
        let mut mesh = mesh.clone()?;
        let lists = mesh.make(call)?;
        Ok((lists, planes_of(&mesh)))
    };
    assert_eq!(planes.check(), mesh.clone().and_then(|mesh| mesh.check()));
    assert_eq!(planes.count(), mesh.clone().and_then(|mesh| mesh.count()));
    for call in calls() {
        let (mut changed, answer) = (planes.clone(), on_mesh(&call));
        assert_eq!(changed.make(&call), answer.clone().map(|(lists, _)| lists));
        assert_eq!(&changed, answer.as_ref().map_or(planes, |(_, changed)| changed));
    }
    let season = Season::new(planes.clone()).map(|season| season.into_mesh());
    assert_eq!(season, planes.check().map(|()| planes.clone()));
}

#[test]
fn damaged_planes() {
    let planes = planes_of(&worked());
    let flipped = |bit: u32| 1u64.checked_shl(bit).unwrap_or(0);
    let mut ordered = 0;
    // A bit of each plane, or of one of them, or none.
    for (of_present, of_refined) in (0..=64).flat_map(|i| (0..=64).map(move |j| (i, j))) {
        let mut planes = planes.clone();
        planes.present[0] ^= flipped(of_present);
        planes.refined[0] ^= flipped(of_refined);
        expect_as_bytes(&planes);
        ordered += usize::from(in_order(&planes));
    }
    assert!((100..65 * 65 - 100).contains(&ordered), "{ordered}");
    for function in 0..planes.functions.len() {
        let mut planes = planes.clone();
        planes.functions[function] = (planes.functions[function] + 1) % 3;
        expect_as_bytes(&planes);
        assert_eq!(planes.check(), Err(Refusal::WrongFunctionByte));
    }
}

/// In the first word and in the last, with spare bits and without.
#[test]
fn damaged_words() {
    for plan in PLANS {
        let mesh = run(plan, 30).pop().expect("a mesh").0;
        let planes = planes_of(&mesh);
        assert_eq!(planes.present.len(), mesh.cells.len().div_ceil(64));
        for (word, bit) in [0, planes.present.len() - 1]
            .into_iter()
            .flat_map(|word| (0..64).map(move |bit| (word, bit)))
        {
            let mut with_present = planes.clone();
            with_present.present[word] ^= 1 << bit;
            let mut with_refined = planes.clone();
            with_refined.refined[word] ^= 1 << bit;
            for planes in [with_present, with_refined] {
                let mesh = planes.to_mesh();
                assert_eq!(mesh.is_ok(), in_order(&planes));
                assert_eq!(planes.check(), mesh.clone().and_then(|mesh| mesh.check()));
                assert_eq!(planes.count(), mesh.and_then(|mesh| mesh.count()));
            }
        }
    }
}

/// Every call on planes that are no mesh, or have a plan that is none, refuses so and changes
/// nothing.
fn expect_refused(planes: &Planes, refusal: Refusal) {
    assert_eq!((planes.check(), planes.count()), (Err(refusal), Err(refusal)));
    assert_eq!(Season::new(planes.clone()), Err(refusal));
    for call in calls() {
        let mut refused = planes.clone();
        assert_eq!(refused.make(&call), Err(refusal));
        assert_eq!((&refused, refused.first_fault(&call)), (planes, None));
    }
}

#[test]
fn refusals_come_in_order() {
    let planes = planes_of(&worked());
    let mut of_other_lengths = vec![];
    for words in [0, 2, 400] {
        of_other_lengths.push(Planes { present: vec![0; words], ..planes.clone() });
        of_other_lengths.push(Planes { refined: vec![0; words], ..planes.clone() });
    }
    for mut planes in of_other_lengths {
        expect_refused(&planes, Refusal::TableLength);
        assert_eq!(planes.to_mesh(), Err(Refusal::TableLength));
        planes.functions.clear();
        planes.plan.columns = 17;
        expect_refused(&planes, Refusal::PlanOutOfRange);
        assert_eq!(planes.to_mesh(), Err(Refusal::PlanOutOfRange));
    }
    for functions in [0, 93, 95] {
        let mut planes = Planes { functions: vec![0; functions], ..planes.clone() };
        expect_refused(&planes, Refusal::TableLength);
        // Before what is said of the bits.
        planes.present = vec![u64::MAX];
        expect_refused(&planes, Refusal::TableLength);
        planes.plan.levels = 8;
        expect_refused(&planes, Refusal::TooManyCells);
    }
    // Before what is said of the function table.
    let mut planes = Planes { functions: vec![9; 94], ..planes };
    planes.refined[0] |= 1 << 5;
    expect_refused(&planes, Refusal::NotAMesh);
}

/// Whatever stood there. The last plan is the largest.
#[test]
fn opened_planes() {
    let largest = Plan { levels: 8, ..Plan::SMALLEST };
    assert_eq!(largest.plane_words(), Some(MAX_PLANE_WORDS));
    for plan in PLANS.into_iter().chain([largest]) {
        let opened = Planes::open(plan).expect("a plan");
        assert_eq!(opened, planes_of(&Mesh::open(plan).expect("a plan")));
        let (words, f) = (opened.present.len(), opened.functions.len());
        let filled = |words, f| (vec![u64::MAX; words], vec![u64::MAX; words], vec![9; f]);
        let (mut present, mut refined, mut functions) = filled(words, f);
        assert_eq!(planes_open(plan, &mut present, &mut refined, &mut functions), Ok(()));
        assert_eq!(Planes::from_tables(plan, present, refined, functions), opened);
        for (fewer, functions_fewer) in [(0, 1), (1, 0), (1, 1)] {
            let (mut present, mut refined, mut functions) =
                filled(words - fewer, f - functions_fewer);
            let answer = planes_open(plan, &mut present, &mut refined, &mut functions);
            assert_eq!(answer, Err(Refusal::TableLength));
            let kept = (present, refined, functions);
            assert_eq!(kept, filled(words - fewer, f - functions_fewer));
        }
    }
}

/// Cells of every byte, which need not be a mesh.
fn any_cells(plan: Plan) -> Mesh {
    let cells = (0..plan.cells().expect("a plan")).map(|i| (i * i / 5 % 3) as u8).collect();
    Mesh::from_tables(plan, cells, vec![7; 3])
}

#[test]
fn bytes_and_planes_are_converted() {
    for plan in PLANS {
        let mesh = any_cells(plan);
        let planes = planes_of(&mesh);
        for (cell, &byte) in mesh.cells.iter().enumerate() {
            let bit = |plane: &[u64]| plane[cell / 64] >> (cell % 64) & 1;
            let (present, refined) = (u64::from(byte > 0), u64::from(byte == 2));
            assert_eq!((bit(&planes.present), bit(&planes.refined)), (present, refined));
        }
        assert!(in_order(&planes));
        assert_eq!((&planes.functions, planes.to_mesh()), (&mesh.functions, Ok(mesh.clone())));
        assert_eq!((Planes::try_from(&mesh), Mesh::try_from(&planes)), (Ok(planes), Ok(mesh)));
    }
}

#[test]
fn refused_conversions_change_nothing() {
    let mesh = any_cells(PLAN);
    let kept = ([5], [6]);
    let (mut present, mut refined) = kept;
    let mut from = |plan: Plan, cells: &[u8]| {
        let answer = planes_from_cells(plan, cells, &mut present, &mut refined);
        assert!(answer.is_ok() || (present, refined) == kept);
        answer
    };
    for (cell, byte) in (0..63).flat_map(|cell| [3, 4, 255].map(|byte| (cell, byte))) {
        let mut cells = mesh.cells.clone();
        cells[cell] = byte;
        assert_eq!(from(PLAN, &cells), Err(Refusal::NotAMesh));
        assert_eq!(from(PLAN, &cells[1..]), Err(Refusal::TableLength));
        let with_byte = Mesh { cells, draft: Some(vec![]), ..mesh.clone() };
        assert_eq!(Planes::from_mesh(&with_byte), Err(Refusal::NotAMesh));
    }
    assert_eq!(from(Plan { rows: 0, ..PLAN }, &mesh.cells), Err(Refusal::PlanOutOfRange));
    assert_eq!(from(Plan { levels: 8, ..PLAN }, &mesh.cells), Err(Refusal::TooManyCells));
    assert_eq!(from(PLAN, &mesh.cells), Ok(()));

    let mut cells = vec![9; 63];
    let mut to = |plan: Plan, present: &[u64], refined: &[u64], t: usize| {
        let answer = planes_to_cells(plan, present, refined, &mut cells[..t]);
        assert!(answer.is_ok() || cells.iter().all(|&byte| byte == 9));
        answer
    };
    assert_eq!(to(PLAN, &[1 << 63], &[0], 63), Err(Refusal::NotAMesh));
    assert_eq!(to(PLAN, &[u64::MAX], &[1 << 63], 63), Err(Refusal::NotAMesh));
    assert_eq!(to(PLAN, &[0b01], &[0b10], 63), Err(Refusal::NotAMesh));
    assert_eq!(to(PLAN, &[0b01], &[0b10], 62), Err(Refusal::TableLength));
    assert_eq!(to(PLAN, &[0b01, 0], &[0b10], 63), Err(Refusal::TableLength));
    assert_eq!(to(PLAN, &[0b01], &[], 63), Err(Refusal::TableLength));
    assert_eq!(to(Plan { rows: 0, ..PLAN }, &[], &[], 0), Err(Refusal::PlanOutOfRange));
    assert_eq!(to(Plan { levels: 8, ..PLAN }, &[], &[], 0), Err(Refusal::TooManyCells));
    assert_eq!(to(PLAN, &present, &refined, 63), Ok(()));
    assert_eq!(cells, mesh.cells);
}

/// Planes have no drafts, so the marks of one would be lost.
#[test]
fn a_mesh_with_an_open_draft_is_not_made_planes() {
    for marks in [&[][..], &[2, 4]] {
        assert_eq!(Planes::from_mesh(&with_draft(marks)), Err(Refusal::DraftOpen));
        let planes = Planes::try_from(&with_draft(marks));
        assert_eq!(planes, Err(Refusal::DraftOpen));
    }
    let of_other_length = Mesh { cells: vec![], ..with_draft(&[2]) };
    assert_eq!(Planes::from_mesh(&of_other_length), Err(Refusal::TableLength));
    let mut mesh = with_draft(&[2]);
    mesh.drop_draft().expect("a draft");
    assert_eq!(Planes::from_mesh(&mesh).and_then(|planes| planes.to_mesh()), Ok(worked()));
}

#[test]
fn seasons_of_planes_are_taken_back() {
    for plan in PLANS {
        let first = Planes::open(plan).expect("a plan");
        let mut season = Season::new(first.clone()).expect("a mesh");
        let mut of_bytes = Season::new(Mesh::open(plan).expect("a plan")).expect("a mesh");
        for (mesh, call) in run(plan, 120) {
            assert_eq!(season.mesh(), &planes_of(&mesh));
            assert_eq!(season.make(call.clone()), of_bytes.make(call));
        }
        assert_eq!(season.calls(), of_bytes.calls());
        assert!(season.calls().iter().any(|made| made.call.refines()));
        assert!(!season.calls().iter().all(|made| made.call.refines()));
        // One by one, and then the others.
        for _ in 0..20 {
            let undone = season.undo();
            assert_eq!(undone, of_bytes.undo());
            let undone = undone.expect("no draft").expect("a call");
            assert_eq!(undone.lists, undone.made.lists);
            assert_eq!(season.mesh(), &planes_of(of_bytes.mesh()));
        }
        assert_eq!(season.undo_all(), of_bytes.undo_all());
        assert_eq!((season.undo(), season.calls()), (Ok(None), &[][..]));
        assert_eq!((season.mesh(), season.first()), (&first, &first));
        assert_eq!(season.into_mesh(), first);
    }
}

#[test]
fn a_season_of_planes_by_name() {
    let mut season = Season::new(planes_of(&worked())).expect("a mesh");
    assert_eq!(season.refine_cells(&[Cell(63)]), Err(Refusal::MarkOutOfRange));
    assert!(season.refine_cells(&[Cell(2)]).is_ok());
    assert!(season.coarsen_cells(&[Cell(2)]).is_ok());
    assert!(season.refine_functions(&[Function(10)]).is_ok());
    assert!(season.coarsen_functions(&[Function(8)]).is_ok());
    assert_eq!(season.undo_all().map(|undone| undone.len()), Ok(4));
    assert_eq!(season.mesh(), &planes_of(&worked()));
}
