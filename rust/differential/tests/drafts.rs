//! Drafts: calls of every kind in every order, on drafts that the calls made and on others, against
//! the model; whole runs taken back; and what a draft is to the calls that know none.

use differential::draft::{Call, Input};
use differential::scenario;
use differential::seen::Seen;
use differential::surface::{damage, random_heights, with_heights, Fill, DAMAGES, DEGREES};
use differential::{
    all_admissible, has_corners, plan, random_marks, random_plan, random_refined, random_start,
    undo_by_cells, Kind, Log, Outcome, Random, Tables,
};
use model::draft::Draft;
use model::Plan;
use Kind::*;

/// The refusals that a call can give.
fn refusals(call: Call) -> Vec<u32> {
    let of_marks =
        |kind: Kind| if kind.refines() { vec![7, 8, 9, 10, 11] } else { vec![7, 8, 10, 11] };
    let after_check = match call {
        Call::Open => vec![18],
        Call::Add => vec![19, 7, 8, 9, 10],
        Call::Close => vec![19, 7, 8, 9, 10, 11],
        Call::Drop => vec![19],
        Call::Change(kind) => [vec![18], of_marks(kind)].concat(),
        Call::WithHeights(kind) => [vec![18, 14, 15, 17], of_marks(kind)].concat(),
        Call::OpenMesh => return vec![1, 2, 3],
        Call::ReadMesh => return vec![1, 2, 3, 4, 5, 12, 13],
    };
    [vec![1, 2, 3, 4, 5, 6], after_check].concat()
}

/// A length that is enough, most often.
fn room(random: &mut Random, total: usize) -> usize {
    match random.below(8) {
        0 => random.below(total / 4 + 2),
        1 => total + random.below(9),
        _ => total,
    }
}

// ---- Calls in every order ----

/// One run of calls.
struct Run {
    input: Input,
    log: Log,
    /// Whether calls that take another mesh are among them. Such a run is not taken back.
    other_meshes: bool,
}

impl Run {
    fn new(random: &mut Random, tables: Tables, other_meshes: bool) -> Run {
        let mut input = Input::new(tables);
        let entries = random.pick(&[0, 1, 2, 5, 20, 100, 1000]);
        input.draft = Draft::none(random.numbers(entries));
        Run { input, log: Log::new(), other_meshes }
    }

    /// A call that makes sense where there is a draft, or where there is none, more often than not.
    fn pick(&self, random: &mut Random) -> Call {
        if self.other_meshes && random.once_in(12) {
            return random.pick(&[Call::OpenMesh, Call::ReadMesh]);
        }
        let open = self.input.draft.collected().is_some();
        let kind = random.pick(&Kind::MOSTLY_REFINING);
        let change = match random.once_in(3) && kind.refines() {
            true => Call::WithHeights(kind),
            false => Call::Change(kind),
        };
        let about_drafts = random.pick(&[Call::Open, Call::Add, Call::Close, Call::Drop]);
        match (open, random.below(8)) {
            (true, 0..=3) => Call::Add,
            (true, 4) => Call::Close,
            (false, 0..=1) => Call::Open,
            (false, 2..=5) => change,
            _ => random.pick(&[about_drafts, change]),
        }
    }

    /// Marks, heights, lists and a file for the call.
    fn prepare(&mut self, random: &mut Random, call: Call) {
        let Input { tables, heights, marks, cell_list, function_list, file, .. } = &mut self.input;
        let kind = call.kind().unwrap_or(RefineCells);
        *marks = random_marks(random, tables, kind);
        if random.once_in(20) {
            marks.push(random.pick(&[tables.cells.len() as u32, u32::MAX]));
        }
        let fill = random.pick(&Fill::ALL);
        if let Call::WithHeights(_) = call {
            *heights = random_heights(random, tables, fill);
        }
        let rooms = (room(random, tables.cells.len()), room(random, tables.functions.len()));
        (*cell_list, *function_list) = (random.numbers(rooms.0), random.numbers(rooms.1));
        if call == Call::ReadMesh {
            *file = random_file(random, tables.plan);
        }
    }

    /// Somebody hands in another draft, or another list.
    fn disturb(&mut self, random: &mut Random) {
        let markable = self.input.tables.markable(RefineCells);
        let total = self.input.tables.cells.len();
        let draft = &mut self.input.draft;
        let entries = draft.list.len();
        match random.below(9) {
            0 => draft.open = random.pick(&[0, 1, 2, 1 << 31, u32::MAX]),
            1 => draft.marks = random.pick(&[0, entries / 2, entries, entries + 1]),
            2 => draft.marks = random.pick(&[usize::MAX, usize::MAX - 1, 1 << 32, 1 << 63]),
            3 => draft.list = random.numbers(entries),
            4 => draft.list.truncate(random.below(entries + 1)),
            5 => draft.list.extend(random.numbers(3)),
            6 if !markable.is_empty() => {
                draft.list.iter_mut().for_each(|entry| *entry = random.pick(&markable));
            }
            _ if draft.marks > 0 && draft.marks <= entries => {
                draft.list[random.below(draft.marks)] = random.below(total + 1) as u32;
            }
            _ => {}
        }
    }

    /// Makes the call on tables, plan or heights with something wrong, and a copy of all else.
    fn make_damaged(&self, random: &mut Random, call: Call) -> u32 {
        let mut damaged = self.input.clone();
        let Input { tables, heights, .. } = &mut damaged;
        for _ in 0..random.pick(&[1, 1, 2]) {
            if !tables.functions.is_empty() {
                let thing = random.below(DAMAGES);
                damage(random, thing, &self.input.tables, tables, heights);
            }
        }
        let before = damaged.clone();
        let number = damaged.make(call).number;
        assert!(number == 0 || damaged == before, "{call:?}");
        number
    }

    /// One call of the run, which is held to the model in all that it answers and leaves.
    fn turn(&mut self, random: &mut Random, seen: &mut Seen<Call>) {
        if random.once_in(12) {
            self.disturb(random);
        }
        let call = self.pick(random);
        self.prepare(random, call);
        if random.once_in(6) {
            seen.count(call, self.make_damaged(random, call));
        }
        let before = self.input.clone();
        let outcome = self.input.make(call);
        seen.count(call, outcome.number);
        self.expect_kept(call, &outcome, &before);
        if random.once_in(20) {
            before.expect_on_pages(call, &outcome, &self.input);
        }
        if let Some(kind) = call.kind() {
            self.log.push((kind, outcome));
        }
        if random.once_in(10) {
            self.look();
        }
    }

    /// What no call may touch, whatever the model says.
    fn expect_kept(&self, call: Call, outcome: &Outcome, before: &Input) {
        let input = &self.input;
        assert!(outcome.number == 0 || input == before, "{call:?}: {}", outcome.number);
        let changes = call.kind().is_some() || matches!(call, Call::OpenMesh | Call::ReadMesh);
        assert!(changes || input.tables == before.tables, "{call:?}");
        let carries = matches!(call, Call::WithHeights(_));
        assert!(carries || input.heights == before.heights, "{call:?}");
        assert!(call == Call::Add || input.draft.list == before.draft.list, "{call:?}");
        let keeps = matches!(call, Call::Change(_) | Call::WithHeights(_));
        assert!(!keeps || input.draft == before.draft, "{call:?}");
        if let Some(marks) = before.draft.collected() {
            let ends = matches!(call, Call::Close | Call::OpenMesh | Call::ReadMesh);
            assert!(ends || input.tables == before.tables, "{call:?} while a draft is open");
            assert!(input.draft.list.starts_with(marks), "{call:?}");
        }
    }

    /// Calls that only read the tables, which know of no draft.
    fn look(&self) {
        let tables = &self.input.tables;
        assert_eq!(tables.check(), 0);
        assert_eq!(tables.count().number, 0);
        assert!(!tables.file().is_empty());
    }
}

/// The file of a mesh of the plan, often with something wrong.
fn random_file(random: &mut Random, plan: Plan) -> Vec<u8> {
    let refined = random_refined(random, plan);
    let mut file = Tables::with_refined(plan, &refined).file();
    match random.below(8) {
        0 => drop(file.pop()),
        1 => file.push(random.pick(&[0, 2, 200])),
        2 => file[0] = random.pick(&[0, 1, 16, 17]),
        3 => file[2] = random.pick(&[0, 5, 8, 9]),
        4 => file[5] = random.pick(&[0, 2, 3, 9]),
        5 => {
            let at = random.below(file.len());
            file[at] = random.bits() as u8;
        }
        _ => {}
    }
    file
}

/// A run on the plan. One without other meshes is taken back: the opposite calls by cells, without
/// a draft, are each accepted with the same lists, and the first tables are there again. Answers how
/// many cells were listed.
fn run(random: &mut Random, plan: Plan, other_meshes: bool, seen: &mut Seen<Call>) -> usize {
    let first = random_start(random, plan);
    let mut run = Run::new(random, first.clone(), other_meshes);
    for _ in 0..random.below(40) + 20 {
        run.turn(random, seen);
    }
    if other_meshes {
        return 0;
    }
    let mut tables = run.input.tables;
    let spare = random.pick(&[0, 3]);
    undo_by_cells(&mut tables, &run.log, spare, random);
    assert_eq!(tables, first);
    run.log.iter().map(|(_, outcome)| outcome.cells.len()).sum()
}

/// Runs on plans of all degrees and this class; the surface of every other one has heights. Answers
/// how many cells were listed in those that were taken back, and how many plans had corners.
fn runs(random: &mut Random, class: u32, seen: &mut Seen<Call>) -> (usize, usize) {
    let (mut taken_back, mut cornered) = (0, 0);
    for degrees in (1..=4).flat_map(|across| (1..=4).map(move |up| (across, up))).cycle().take(96) {
        let most = random.pick(&[30, 100, 400, 1500]);
        let plan = random_plan(random, degrees, class, most);
        let degrees = random.pick(&DEGREES);
        for plan in [plan, with_heights(random, degrees, class, 100)] {
            cornered += usize::from(has_corners(plan));
            let other_meshes = random.once_in(3);
            taken_back += run(random, plan, other_meshes, seen);
        }
    }
    (taken_back, cornered)
}

#[test]
fn calls_in_every_order() {
    let mut random = Random::new(1000);
    let mut seen = Seen::new(&Call::ALL);
    for class in [0, 2, 3, 4, 5, 6, 7, 8] {
        let (taken_back, cornered) = runs(&mut random, class, &mut seen);
        assert!(taken_back > 1000 && cornered > 20, "{class}: {taken_back} {cornered}");
    }
    seen.expect_all(refusals);
}

/// All lists of at most so many entries below n.
fn all_lists(most: usize, n: u32) -> Vec<Vec<u32>> {
    let mut lists = vec![vec![]];
    let mut from = 0;
    for _ in 0..most {
        let longer: Vec<Vec<u32>> = lists[from..]
            .iter()
            .flat_map(|list| (0..n).map(move |entry| [&list[..], &[entry]].concat()))
            .collect();
        from = lists.len();
        lists.extend(longer);
    }
    lists
}

/// Every draft with a short list on every mesh of small plans: each call on it, and each add of a
/// few marks, in range or just beyond it.
#[test]
fn every_small_draft() {
    let mut seen = Seen::new(&Call::ALL);
    for (numbers, entries) in [([1, 1, 2, 2, 1, 2], 2), ([2, 1, 2, 1, 1, 0], 1)] {
        for tables in all_admissible(plan(numbers)) {
            let beyond = tables.cells.len() as u32 + 1;
            let lists = all_lists(entries, beyond);
            let adds = all_lists(2, beyond);
            for (list, marks) in
                lists.iter().flat_map(|list| (0..=entries + 1).map(move |marks| (list, marks)))
            {
                for open in [0, 1, 2] {
                    let mut input = Input::new(tables.clone());
                    input.draft = Draft { open, marks, list: list.clone() };
                    for call in [Call::Open, Call::Close, Call::Drop] {
                        seen.count(call, input.clone().make(call).number);
                    }
                    for marks in &adds {
                        let mut draft = input.draft.clone();
                        seen.count(Call::Add, tables.draft_add(&mut draft, marks));
                    }
                }
            }
        }
    }
    for (call, numbers) in [
        (Call::Open, &[0, 18][..]),
        (Call::Add, &[0, 7, 8, 9, 10, 19]),
        (Call::Close, &[0, 7, 8, 9, 19]),
        (Call::Drop, &[0, 19]),
    ] {
        seen.expect(call, numbers);
    }
}

// ---- What a draft comes to ----

/// An open draft on the mesh, with a list of that length, to be filled.
fn opened(tables: &Tables, entries: usize, random: &mut Random) -> Draft {
    let mut draft = Draft::none(random.numbers(entries));
    assert_eq!(tables.draft_open(&mut draft), 0);
    assert_eq!((draft.open, draft.marks), (1, 0));
    draft
}

/// Adds that are accepted or refused. Answers the marks that were added, as this test keeps them.
fn fill(tables: &Tables, draft: &mut Draft, random: &mut Random) -> Vec<u32> {
    let mut added = vec![];
    for _ in 0..random.below(8) {
        let marks = random_marks(random, tables, RefineCells);
        let before = draft.clone();
        if tables.draft_add(draft, &marks) == 0 {
            added.extend(marks);
        } else {
            assert_eq!(draft, &before);
        }
        assert_eq!(draft.collected(), Some(&added[..]));
        assert_eq!(draft.list[added.len()..], before.list[added.len()..]);
    }
    added
}

/// Closing is refining by cells with all marks: number, lists and tables, refused or not. A refused
/// one leaves the draft, which can be closed again.
fn expect_closed_as_refined(
    tables: &mut Tables,
    draft: &mut Draft,
    marks: &[u32],
    rooms: (usize, usize),
    random: &mut Random,
) -> Outcome {
    let (cell_list, function_list) = (random.numbers(rooms.0), random.numbers(rooms.1));
    let mut refined = tables.clone();
    let expected = refined.call(RefineCells, marks, &cell_list, &function_list);
    let before = draft.clone();
    let outcome = tables.draft_close(draft, &cell_list, &function_list);
    assert_eq!(outcome, expected);
    assert_eq!(tables, &refined);
    match outcome.number {
        0 => assert_eq!(*draft, Draft { open: 0, marks: 0, list: before.list }),
        _ => assert_eq!(draft, &before),
    }
    outcome
}

#[test]
fn closed_as_one_refinement() {
    let mut random = Random::new(1001);
    let (mut seen, mut refined) = ([0; 12], 0);
    for turn in 0..3000 {
        let (degrees, class) = ((turn % 4 + 1, turn / 4 % 4 + 1), random.pick(&[0, 2, 2, 3, 4]));
        let most = random.pick(&[30, 100, 400]);
        let plan = random_plan(&mut random, degrees, class, most);
        let mut tables = random_start(&mut random, plan);
        let entries = random.pick(&[0, 5, 50, 1000, 1000]);
        let mut draft = opened(&tables, entries, &mut random);
        let marks = fill(&tables, &mut draft, &mut random);
        let totals = (tables.cells.len(), tables.functions.len());
        let rooms = (room(&mut random, totals.0), room(&mut random, totals.1));
        let mut outcome =
            expect_closed_as_refined(&mut tables, &mut draft, &marks, rooms, &mut random);
        seen[outcome.number as usize] += 1;
        if outcome.number != 0 {
            outcome =
                expect_closed_as_refined(&mut tables, &mut draft, &marks, totals, &mut random);
        }
        assert_eq!(outcome.number, 0);
        refined += outcome.cells.len();
    }
    assert!(
        seen[0] > 1000 && seen[10] > 20 && seen[11] > 20 && refined > 2000,
        "{seen:?} {refined}"
    );
}

/// The same on meshes near the largest, then taken back as the one refinement that it is.
#[test]
fn closed_on_the_largest_meshes() {
    let mut random = Random::new(1002);
    let mut scenarios = scenario::all();
    scenarios.extend(scenario::with_corners());
    scenarios.extend(scenario::with_heights());
    for scenario in scenarios {
        let first = &scenario.to_refine;
        let mut tables = first.clone();
        let mut marks = tables.markable(RefineCells);
        random.shuffle(&mut marks);
        let mut draft = opened(&tables, marks.len(), &mut random);
        let (some, others) = marks.split_at(random.below(marks.len()));
        assert_eq!(tables.draft_add(&mut draft, some), 0);
        assert_eq!(tables.draft_add(&mut draft, &[others, &marks[..1]].concat()), 10, "{scenario}");
        assert_eq!(tables.draft_add(&mut draft, others), 0);
        let totals = (tables.cells.len(), tables.functions.len());
        let outcome =
            expect_closed_as_refined(&mut tables, &mut draft, &marks, totals, &mut random);
        undo_by_cells(&mut tables, &vec![(RefineCells, outcome)], 0, &mut random);
        assert!(&tables == first, "{scenario}");
    }
}

/// Dropping leaves everything but the draft's two numbers.
#[test]
fn dropped_without_a_trace() {
    let mut random = Random::new(1003);
    let mut dropped = 0;
    for turn in 0..400 {
        let degrees = (turn % 4 + 1, turn / 4 % 4 + 1);
        let class = random.pick(&[0, 2, 3]);
        let plan = random_plan(&mut random, degrees, class, 200);
        let first = random_start(&mut random, plan);
        let tables = first.clone();
        let mut draft = opened(&tables, 30, &mut random);
        dropped += fill(&tables, &mut draft, &mut random).len();
        let list = draft.list.clone();
        assert_eq!(tables.draft_drop(&mut draft), 0);
        assert_eq!(draft, Draft { open: 0, marks: 0, list });
        assert_eq!(tables, first);
        // There is none to close now, and a new one begins without marks.
        assert_eq!(tables.clone().draft_close(&mut draft, &[], &[]).number, 19);
        assert_eq!(tables.draft_open(&mut draft), 0);
        assert_eq!(draft.collected(), Some(&[][..]));
    }
    assert!(dropped > 1000, "{dropped}");
}

/// While a draft is open, no call but closing changes a table: splits and joins of every kind are
/// refused, with marks and without, and so is a second draft.
#[test]
fn while_a_draft_is_open() {
    let mut random = Random::new(1004);
    for turn in 0..300 {
        let degrees = random.pick(&DEGREES);
        let plan = with_heights(&mut random, degrees, [0, 2, 3][turn % 3], 100);
        let mut input = Input::new(random_start(&mut random, plan));
        input.draft = opened(&input.tables, 40, &mut random);
        fill(&input.tables, &mut input.draft, &mut random);
        input.draft.open = random.pick(&[1, 1, 2, u32::MAX]);
        for call in Call::ALL {
            let kind = call.kind().unwrap_or(RefineCells);
            let mut lent = input.clone();
            lent.marks = random_marks(&mut random, &lent.tables, kind);
            let before = lent.clone();
            let number = lent.make(call).number;
            match call {
                Call::Open | Call::Change(_) | Call::WithHeights(_) => {
                    assert_eq!(number, 18, "{call:?}");
                    assert_eq!(lent, before);
                }
                Call::Add | Call::Drop => assert_eq!(lent.tables, before.tables),
                Call::Close => assert_eq!(number, 0),
                Call::OpenMesh | Call::ReadMesh => {}
            }
        }
    }
}

// ---- No draft open ----

/// A draft that counts as not open.
fn none_open(random: &mut Random) -> Draft {
    let entries = random.pick(&[0, 1, 3, 20]);
    let list = random.numbers(entries);
    match random.below(4) {
        0 => Draft::none(list),
        1 => Draft { open: 0, marks: random.below(entries + 2), list },
        2 => Draft { open: random.pick(&[1, 2, u32::MAX]), marks: entries + 1, list },
        _ => Draft {
            open: random.pick(&[1, 1 << 31]),
            marks: random.pick(&[1 << 32, usize::MAX]),
            list,
        },
    }
}

/// The forms without a draft, which are to do the same.
fn make_without_draft(input: &mut Input, call: Call) -> Outcome {
    let Input { tables, heights, marks, cell_list, function_list, file, .. } = input;
    let number = match call {
        Call::Change(kind) => return tables.call(kind, marks, cell_list, function_list),
        Call::WithHeights(kind) => {
            let lists = (&cell_list[..], &function_list[..]);
            return tables.refine_with_heights(kind, heights, marks, lists.0, lists.1);
        }
        Call::OpenMesh => tables.open(),
        Call::ReadMesh => {
            let plan = tables.plan;
            let number = tables.read(file);
            if number != 0 {
                tables.plan = plan;
            }
            number
        }
        Call::Open | Call::Add | Call::Close | Call::Drop => panic!("{call:?} needs a draft"),
    };
    Outcome { number, cells: vec![], functions: vec![] }
}

/// On good input and on bad: what the forms without a draft give, and the draft as it was, or none
/// where opening or reading a mesh is accepted.
#[test]
fn with_none_open_as_without_a_draft() {
    let mut random = Random::new(1005);
    let mut seen = Seen::new(&Call::ALL);
    for turn in 0..2000 {
        let class = [0, 2, 3][turn % 3];
        let degrees = random.pick(&[(1, 1), (2, 1), (1, 2), (2, 2), (3, 1), (4, 4)]);
        let plan = random_plan(&mut random, degrees, class, 100);
        let tables = random_start(&mut random, plan);
        let mut run = Run::new(&mut random, tables, true);
        for &call in Call::BESIDE {
            run.input.draft = none_open(&mut random);
            run.prepare(&mut random, call);
            let mut with = run.input.clone();
            if random.once_in(2) {
                let thing = random.below(DAMAGES);
                let Input { tables, heights, .. } = &mut with;
                damage(&mut random, thing, &run.input.tables, tables, heights);
            }
            let mut without = with.clone();
            let outcome = with.make(call);
            assert_eq!(outcome, make_without_draft(&mut without, call), "{call:?}");
            seen.count(call, outcome.number);
            if outcome.number == 0 && matches!(call, Call::OpenMesh | Call::ReadMesh) {
                (without.draft.open, without.draft.marks) = (0, 0);
            }
            assert_eq!(with, without, "{call:?}");
        }
    }
    for &call in Call::BESIDE {
        let seen = seen.of(call);
        for number in refusals(call).into_iter().filter(|&number| number != 18) {
            assert!(seen[number as usize] > 0, "{call:?}: {number} of {seen:?}");
        }
        assert_eq!(seen[18], 0, "{call:?}");
    }
}
