//! Rounds of marks from today's mesh to a wanted one: rows worked by hand; pairs of meshes of every
//! kind, with the rounds made and taken back; damaged ones; all pairs of meshes of small plans; and the
//! largest meshes.

use differential::change::{Change, Lending};
use differential::draft::none_open;
use differential::order::{Answered, Lendable};
use differential::rounds::Input;
use differential::scenario::{self, Scenario};
use differential::seen::Seen;
use differential::surface::{groups, worked_mesh, Kinds};
use differential::{
    all_admissible, all_corners, has_corners, out_of_range, plan, random_corners, random_marks,
    random_plan, random_refined, undo_by_cells, Kind, Log, Random, Tables,
};
use model::draft::Draft;
use model::rounds::Rounds;
use model::{Cell, Plan};
use std::collections::BTreeSet;
use wallmirror::{MAX_CELLS, MAX_ROUNDS};
use Kind::RefineCells;

// ---- What is claimed of rounds ----

/// Garbage for the lists of a refinement with these marks: just long enough, where it lists no other
/// cell.
fn lists_for(random: &mut Random, tables: &Tables, marks: &[u32]) -> (Vec<u32>, Vec<u32>) {
    let (cell_list, function_list) = tables.lists_with_room();
    let (heights, draft) = (None, None);
    let (cell_list, function_list) = (&cell_list[..], &function_list[..]);
    let change = Change { kind: RefineCells, heights, draft, marks, cell_list, function_list };
    let answer = Lending::new(tables, &change).run();
    (random.numbers(marks.len()), random.numbers(answer.functions as usize))
}

/// Each round, as a refinement by cells, beside this draft if there is one, is accepted and lists its
/// marks and no other cell. After all of them the tables are the wanted ones. Taken back by their own
/// lists they are today's.
fn expect_reached(
    random: &mut Random,
    today: &Tables,
    wanted: &Tables,
    rounds: &Rounds,
    draft: Option<&Draft>,
) {
    let mut tables = today.clone();
    let mut log = Log::new();
    for marks in &rounds.0 {
        let (cell_list, function_list) = lists_for(random, &tables, marks);
        let outcome = match draft {
            None => tables.call(RefineCells, marks, &cell_list, &function_list),
            Some(draft) => {
                tables.call_with_draft(RefineCells, draft, marks, &cell_list, &function_list)
            }
        };
        assert_eq!((outcome.number, &outcome.cells), (0, marks));
        log.push((RefineCells, outcome));
    }
    assert!(&tables == wanted, "{:?}", today.plan);
    undo_by_cells(&mut tables, &log, 0, random);
    assert!(&tables == today, "{:?}", today.plan);
}

/// The refined cells of tables that check passes.
fn refined(tables: &Tables) -> BTreeSet<Cell> {
    model::refined_cells(tables.plan, &tables.cells)
}

/// There is a round for each level but the last, with the wanted refined cells of that level that are
/// not refined today. So there are as many marks as the counts of refined cells differ by.
fn expect_missing(today: &Tables, wanted: &Tables, rounds: &Rounds) {
    let plan = today.plan;
    let missing = &refined(wanted) - &refined(today);
    assert_eq!(rounds.0.len() as u32, plan.levels - 1);
    for (level, round) in (0..).zip(&rounds.0) {
        let of_level = missing.iter().filter(|cell| cell.level == level);
        assert!(of_level.map(|&cell| plan.cell_number(cell) as u32).eq(round.iter().copied()));
    }
    let more = wanted.count().refined_cells - today.count().refined_cells;
    assert_eq!(rounds.marks().len() as u32, more);
}

/// The rounds between two meshes that check passes, or 20, just where a refined cell is not wanted.
fn rounds_between(today: &Tables, wanted: &Tables) -> Result<Rounds, u32> {
    let found = today.rounds_to(wanted);
    match &found {
        Ok(rounds) => expect_missing(today, wanted, rounds),
        Err(number) => assert_eq!(*number, 20),
    }
    assert_eq!(found.is_ok(), refined(today).is_subset(&refined(wanted)));
    found
}

/// The same, where the rounds are made, without a draft and beside one that is not open.
fn expect_rounds(random: &mut Random, today: &Tables, wanted: &Tables) -> Result<Rounds, u32> {
    let found = rounds_between(today, wanted);
    if let Ok(rounds) = &found {
        let draft = none_open(random);
        for draft in [None, Some(&draft)] {
            expect_reached(random, today, wanted, rounds, draft);
        }
    }
    found
}

// ---- Worked by hand ----

/// A plan, the refined cells of today's mesh and of the wanted one, and what both lists get.
struct Worked {
    plan: &'static str,
    today: &'static str,
    wanted: &'static str,
    marks: &'static str,
    lengths: &'static str,
}

const WORKED: [Worked; 14] = [
    // P7's mesh, and one in which cell 4 needs cell 1.
    Worked { plan: "3 1 3 1 1 2", today: "", wanted: "0 3", marks: "0 3", lengths: "1 1" },
    Worked { plan: "3 1 3 1 1 2", today: "", wanted: "0 1 4", marks: "0 1 4", lengths: "2 1" },
    Worked { plan: "3 1 3 1 1 2", today: "0", wanted: "0 1 4", marks: "1 4", lengths: "1 1" },
    Worked { plan: "3 1 3 1 1 2", today: "0 3", wanted: "0 1 3 4", marks: "1 4", lengths: "1 1" },
    // Cells 2 and 7 are children of cell 0. An empty round is kept.
    Worked { plan: "2 1 3 1 1 0", today: "", wanted: "0 2 7", marks: "0 2 7", lengths: "1 2" },
    Worked { plan: "2 1 3 1 1 0", today: "0", wanted: "0 2 7", marks: "2 7", lengths: "0 2" },
    Worked { plan: "2 1 3 1 1 0", today: "0", wanted: "0 1", marks: "1", lengths: "1 0" },
    Worked { plan: "2 1 3 1 1 0", today: "0 2", wanted: "0 2", marks: "", lengths: "0 0" },
    // One level: no rounds.
    Worked { plan: "2 1 1 1 1 0", today: "", wanted: "", marks: "", lengths: "" },
    // Class 3. Cell 18 is on level 2 and needs cell 1, of level 0. The round between is empty.
    Worked {
        plan: "3 1 4 1 1 3",
        today: "0 3 4",
        wanted: "0 1 3 4 18",
        marks: "1 18",
        lengths: "1 0 1",
    },
    // Two rows. Cell 9, which is in cell 0, needs the three others of level 0.
    Worked {
        plan: "2 2 3 1 1 2",
        today: "0",
        wanted: "0 1 2 3 9",
        marks: "1 2 3 9",
        lengths: "3 1",
    },
    // A corner before column 1, and degree 2: cell 3 needs no other, and cell 4 needs cell 1.
    Worked { plan: "3 1 3 2 1 2 2 0", today: "", wanted: "0 3", marks: "0 3", lengths: "1 1" },
    Worked {
        plan: "3 1 3 2 1 2 2 0",
        today: "0 3",
        wanted: "0 1 3 4",
        marks: "1 4",
        lengths: "1 1",
    },
    // Eight levels: the first cell of each but the last.
    Worked {
        plan: "1 1 8 1 1 0",
        today: "0 1",
        wanted: "0 1 5 21 85 341 1365",
        marks: "5 21 85 341 1365",
        lengths: "0 0 1 1 1 1 1",
    },
];

#[test]
fn worked_by_hand() {
    let mut random = Random::new(1300);
    for row in &WORKED {
        let today = worked_mesh(row.plan, row.today);
        let wanted = worked_mesh(row.plan, row.wanted);
        let rounds = expect_rounds(&mut random, &today, &wanted).expect("rounds");
        let lists = [row.marks, row.lengths].map(|list| groups::<u32>(list).concat());
        assert_eq!([rounds.marks(), rounds.lengths()], lists, "{}: {}", row.plan, row.wanted);
        // The other way round a cell is lost.
        let expected = if today == wanted { Ok(rounds) } else { Err(20) };
        assert_eq!(rounds_between(&wanted, &today), expected);
    }
    let [one, other] = ["1", "0"].map(|refined| worked_mesh("2 1 3 1 1 0", refined));
    assert_eq!(rounds_between(&one, &other), Err(20));
}

/// Cell 4 needs cell 1. That the wanted mesh is not admissible is found before 20.
#[test]
fn a_wanted_mesh_that_is_not_admissible() {
    let w2 = plan([3, 1, 3, 1, 1, 2]);
    let alone = Tables::with_refined(w2, &[0, 4].map(|cell| w2.cell_at(cell)).into());
    assert_eq!(alone.check(), 5);
    for refined in ["", "0", "0 3", "1"] {
        assert_eq!(worked_mesh("3 1 3 1 1 2", refined).rounds_to(&alone), Err(5));
    }
}

// ---- Pairs of meshes ----

/// How the wanted mesh comes from today's.
#[derive(Clone, Copy, Debug, PartialEq, Eq)]
enum Pair {
    /// By some refining calls.
    Refined,
    /// As the smallest that has another one's refined cells too.
    WithAnother,
    /// Today's is just opened.
    Opened,
    /// It is today's.
    Same,
    /// Today's comes from it by some refining calls.
    Back,
    /// Not at all.
    Unrelated,
}

impl Pair {
    const ALL: [Pair; 6] =
        [Pair::Refined, Pair::WithAnother, Pair::Opened, Pair::Same, Pair::Back, Pair::Unrelated];

    /// Today's mesh and the wanted one.
    fn meshes(self, random: &mut Random, plan: Plan) -> (Tables, Tables) {
        let [some, others] = [0; 2].map(|_| random_refined(random, plan));
        let mesh = Tables::with_refined(plan, &some);
        match self {
            Pair::Refined => (mesh.clone(), further(random, mesh)),
            Pair::WithAnother => {
                let both = model::smallest(plan, &some | &others);
                (mesh, Tables::with_refined(plan, &both))
            }
            Pair::Opened => (Tables::opened(plan), mesh),
            Pair::Same => (mesh.clone(), mesh),
            Pair::Back => (further(random, mesh.clone()), mesh),
            Pair::Unrelated => (mesh, Tables::with_refined(plan, &others)),
        }
    }

    /// What is answered where the lists are long enough.
    fn numbers(self) -> &'static [u32] {
        match self {
            Pair::Back | Pair::Unrelated => &[0, 20],
            _ => &[0],
        }
    }
}

/// The mesh after some refining calls, of which some may be refused.
fn further(random: &mut Random, mut mesh: Tables) -> Tables {
    for _ in 0..random.below(3) + 1 {
        let kind = random.pick(&Kind::REFINING);
        let marks = random_marks(random, &mesh, kind);
        mesh.call_with_room(kind, &marks);
    }
    mesh
}

/// What came up. Pairs of one round, or of meshes that are the same, would show little.
fn kinds_of(plan: Plan, found: &Result<Rounds, u32>) -> Vec<(&'static str, bool)> {
    let rounds = found.as_ref().map_or(&[][..], |rounds| &rounds.0);
    let marked = rounds.iter().filter(|round| !round.is_empty()).count();
    let last_marked = rounds.iter().rposition(|round| !round.is_empty()).unwrap_or(0);
    vec![
        ("corners", has_corners(plan)),
        ("refused with 20", found == &Err(20)),
        ("rounds, and no mark", !rounds.is_empty() && marked == 0),
        ("marks in one round", marked == 1),
        ("marks in several rounds", marked > 1),
        ("an empty round before others", rounds[..last_marked].iter().any(Vec::is_empty)),
        ("no rounds", found.is_ok() && rounds.is_empty()),
        ("marks of the last round", marked > 0 && last_marked + 1 == rounds.len()),
    ]
}

/// The call with lists of any lengths, on guarded pages too. A refusal changes nothing.
fn expect_with_any_lists(random: &mut Random, today: &Tables, wanted: &Tables) -> u32 {
    let mut input = Input::new(today, wanted);
    let mut room = |enough: usize| match random.below(6) {
        0 => 0,
        1 => enough.saturating_sub(1),
        2 => random.below(enough + 1),
        3 => enough + random.below(9),
        _ => enough,
    };
    let rooms = (room(input.marks.len()), room(input.lengths.len()));
    (input.marks, input.lengths) = (random.numbers(rooms.0), random.numbers(rooms.1));
    let before = input.clone();
    let outcome = input.make();
    assert!(outcome.is_ok() || input == before);
    before.expect_on_pages((), &outcome, &input);
    outcome.number()
}

/// Pairs of every kind on plans of all degrees and this class.
fn pairs_of_class(class: u32) {
    let mut random = Random::new(1310 + u64::from(class));
    let mut seen = Seen::new(&Pair::ALL);
    let (mut kinds, mut short) = (Kinds::default(), 0);
    for degrees in (1..=4).flat_map(|across| (1..=4).map(move |up| (across, up))) {
        for pair in Pair::ALL.into_iter().cycle().take(12) {
            let most = random.pick(&[30, 100, 400, 1500]);
            let plan = random_plan(&mut random, degrees, class, most);
            let (today, wanted) = pair.meshes(&mut random, plan);
            let found = expect_rounds(&mut random, &today, &wanted);
            seen.count(pair, found.number());
            kinds.count(&kinds_of(plan, &found));
            let number = expect_with_any_lists(&mut random, &today, &wanted);
            assert!(number == found.number() || found.is_ok() && number == 10);
            short += u32::from(number == 10);
        }
    }
    for pair in Pair::ALL {
        seen.expect(pair, pair.numbers());
    }
    kinds.expect_all_but(&[]);
    assert!(short > 10, "{short}");
}

macro_rules! of_class {
    ($($name:ident $class:literal)*) => {
        $(#[test]
        fn $name() {
            pairs_of_class($class);
        })*
    };
}

of_class! {
    pairs_of_class_0 0
    pairs_of_class_2 2
    pairs_of_class_3 3
    pairs_of_class_4 4
    pairs_of_class_5 5
    pairs_of_class_6 6
    pairs_of_class_7 7
    pairs_of_class_8 8
}

// ---- Damaged ones ----

/// Puts one thing wrong, in the plan, or in today's tables or the wanted ones, which were made of it.
fn damage(random: &mut Random, plan: Plan, input: &mut Input) {
    let Input { today, wanted, .. } = input;
    match random.below(12) {
        0 => today.plan = random.pick(&out_of_range(plan)),
        1 => {
            let Plan { columns, rows, levels, .. } = &mut today.plan;
            (*columns, *rows, *levels) = random.pick(&[(16, 16, 5), (1, 2, 8), (5, 1, 7)]);
        }
        2 => today.plan.class = random.pick(&[0, 2, 2, 3]),
        3 => today.plan.corners_across = random_corners(random, plan.columns),
        // The tables of the other mesh, which are tables of the plan.
        4 => std::mem::swap(today, wanted),
        _ => {
            let tables = if random.once_in(2) { today } else { wanted };
            damage_tables(random, plan, tables);
        }
    }
}

fn damage_tables(random: &mut Random, plan: Plan, tables: &mut Tables) {
    let cell = random.below(plan.cell_total());
    let function = random.below(plan.function_total());
    match random.below(7) {
        0 => tables.cells.truncate(cell),
        1 => tables.functions.truncate(function),
        2 => tables.cells.push(random.pick(&[0, 1, 2])),
        3 => tables.functions.push(random.pick(&[0, 1, 2])),
        4 if cell < tables.cells.len() => tables.cells[cell] = random.pick(&[0, 1, 2, 3, 255]),
        5 if tables.cells.len() == plan.cell_total() => refine_alone(plan, cell, tables),
        _ if function < tables.functions.len() => {
            tables.functions[function] = random.pick(&[0, 1, 2, 3, 255]);
        }
        _ => {}
    }
}

/// Refines a cell with no regard for its neighbourhood, where it can be refined. The labels fit.
fn refine_alone(plan: Plan, cell: usize, tables: &mut Tables) {
    let place = plan.cell_at(cell);
    if tables.cells[cell] != model::ACTIVE || place.level + 1 == plan.levels {
        return;
    }
    tables.cells[cell] = model::REFINED;
    for child in plan.children(place) {
        tables.cells[plan.cell_number(child)] = model::ACTIVE;
    }
    tables.functions = model::labels(plan, &tables.cells);
}

/// What decided the number: today's tables, then the wanted ones, then both meshes and the lists.
#[derive(Clone, Copy, Debug, PartialEq, Eq)]
enum By {
    Today,
    Wanted,
    Both,
}

/// Every refusal of today's tables, then of the wanted ones as check gives it, then 20 and 10.
#[test]
fn damaged_meshes() {
    let mut random = Random::new(1320);
    let mut seen = Seen::new(&[By::Today, By::Wanted, By::Both]);
    for turn in 0..4000 {
        let class = [0, 2, 2, 3, 4][turn % 5];
        let degrees = (random.below(4) as u32 + 1, random.below(4) as u32 + 1);
        let plan = random_plan(&mut random, degrees, class, 100);
        let (today, wanted) = random.pick(&Pair::ALL).meshes(&mut random, plan);
        let mut input = Input::new(&today, &wanted);
        for list in [&mut input.marks, &mut input.lengths] {
            if random.once_in(8) {
                list.pop();
            }
        }
        for _ in 0..random.below(4) {
            damage(&mut random, plan, &mut input);
        }
        let before = input.clone();
        let outcome = input.make();
        assert!(outcome.is_ok() || input == before);
        if random.once_in(10) {
            before.expect_on_pages((), &outcome, &input);
        }
        let wanted = Tables { plan: input.today.plan, ..input.wanted };
        let (by, number) = match (input.today.check(), wanted.check()) {
            (0, 0) => (By::Both, outcome.number()),
            (0, number) => (By::Wanted, number),
            (number, _) => (By::Today, number),
        };
        assert_eq!(outcome.number(), number);
        seen.count(by, number);
    }
    seen.expect(By::Today, &[1, 2, 3, 4, 5, 6]);
    seen.expect(By::Wanted, &[3, 4, 5, 6]);
    seen.expect(By::Both, &[0, 10, 20]);
}

// ---- All of them ----

/// All pairs of admissible meshes of small plans.
#[test]
fn all_pairs_of_small_plans() {
    let mut random = Random::new(1330);
    let (mut accepted, mut lost) = (0, 0);
    for numbers in [
        [1, 1, 3, 1, 1, 0, 0, 0],
        [1, 1, 3, 3, 2, 2, 0, 0],
        [3, 1, 2, 2, 1, 2, 2, 0],
        [2, 2, 2, 1, 3, 0, 0, 2],
        [3, 2, 2, 2, 2, 0, 6, 2],
        [2, 1, 3, 1, 1, 2, 0, 0],
    ] {
        let meshes: Vec<Tables> = all_admissible(plan(numbers)).collect();
        for today in &meshes {
            for wanted in &meshes {
                let found = expect_rounds(&mut random, today, wanted);
                *if found.is_ok() { &mut accepted } else { &mut lost } += 1;
            }
        }
    }
    assert!(accepted > 5000 && lost > 50_000, "{accepted} {lost}");
}

// ---- The largest ----

/// From the mesh just opened to one in which everything is refined: the marks are all cells but those
/// of the last level.
#[test]
fn to_everything_refined() {
    let mut random = Random::new(1340);
    let corners = all_corners(16);
    for numbers in [
        [1, 1, 8, 4, 4, 2, 0, 0],
        [1, 1, 8, 1, 2, 0, 0, 0],
        [16, 16, 4, 4, 4, 2, corners, corners],
        [1, 16, 6, 2, 3, 3, 0, corners],
    ] {
        let plan = plan(numbers);
        let (opened, last) = (Tables::opened(plan), plan.levels - 1);
        let all = plan.cells().filter(|cell| cell.level < last).collect();
        let wanted = Tables::with_refined(plan, &all);
        let rounds = rounds_between(&opened, &wanted).expect("rounds");
        expect_reached(&mut random, &opened, &wanted, &rounds, None);
        assert!(rounds.marks().into_iter().eq(0..all.len() as u32));
        let of_level = |level| plan.columns * plan.rows * 4u32.pow(level);
        assert_eq!(rounds.lengths(), (0..last).map(of_level).collect::<Vec<u32>>());
        assert_eq!(rounds_between(&wanted, &opened), Err(20));
    }
}

/// Meshes near the largest: from the one just opened, from one step before, and to itself, with lists
/// that are long enough for every mesh.
#[test]
fn near_the_largest() {
    assert_eq!((MAX_CELLS, MAX_ROUNDS), (21_845, 7));
    let mut random = Random::new(1341);
    let corners = all_corners(16);
    for Scenario { to_refine, to_coarsen, .. } in [
        scenario::wholly(plan([1, 1, 8, 4, 4, 2])),
        scenario::towards_the_first_cell(plan([16, 16, 4, 4, 4, 2, corners, corners])),
        scenario::towards_the_first_cell(plan([1, 16, 6, 4, 4, 2])),
    ] {
        for today in [&Tables::opened(to_refine.plan), &to_refine, &to_coarsen] {
            let mut input = Input::new(today, &to_coarsen);
            input.marks = random.numbers(MAX_CELLS);
            input.lengths = random.numbers(MAX_ROUNDS);
            let before = input.clone();
            let outcome = input.make();
            before.expect_on_pages((), &outcome, &input);
            expect_missing(today, &to_coarsen, &outcome.expect("rounds"));
        }
    }
}
