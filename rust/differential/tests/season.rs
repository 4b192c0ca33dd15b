//! The wrapper's own meshes and its seasons.
//!
//! Runs of calls of all four kinds and on drafts, refused ones among them, are made on a `Mesh` and
//! in a `Season` beside lent tables, whose calls are held to the model one by one; then the season
//! is taken back.
//! Damaged meshes are refused as lent tables are. The first mark at fault is the one that the model
//! refuses.

use differential::surface::{damage, random_heights, with_heights, Fill, DAMAGES, DEGREES};
use differential::{
    all_corners, as_cells, as_functions, has_corners, of_wrapper, plan, random_marks, random_plan,
    random_start, Kind, Outcome, Random, Tables,
};
use model::draft::Draft;
use model::Plan;
use std::collections::BTreeSet;
use wallmirror::{
    Call, Cell, Function, Lists, Made, Mesh, Refusal, Season, Undone, MAX_CELLS,
    MAX_CORNER_DOUBLES, MAX_FILE_BYTES, MAX_FUNCTIONS,
};
use Kind::*;

fn owned(tables: &Tables) -> Mesh {
    let Tables { plan, cells, functions } = tables.clone();
    Mesh::from_tables(of_wrapper(plan), cells, functions)
}

fn call_of(kind: Kind, marks: &[u32]) -> Call {
    match kind {
        RefineCells => Call::RefineCells(as_cells(marks)),
        RefineFunctions => Call::RefineFunctions(as_functions(marks)),
        CoarsenCells => Call::CoarsenCells(as_cells(marks)),
        CoarsenFunctions => Call::CoarsenFunctions(as_functions(marks)),
    }
}

fn refusal(number: u32) -> Refusal {
    Refusal::from_number(number).expect("a number that a refusal has")
}

fn answer(outcome: &Outcome) -> Result<Lists, Refusal> {
    let Outcome { number, cells, functions } = outcome;
    match number {
        0 => Ok(Lists { cells: as_cells(cells), functions: as_functions(functions) }),
        _ => Err(refusal(*number)),
    }
}

/// By the methods that are named after the calls.
fn by_name_on_mesh(mesh: &mut Mesh, call: &Call) -> Result<Lists, Refusal> {
    match call {
        Call::RefineCells(marks) => mesh.refine_cells(marks),
        Call::RefineFunctions(marks) => mesh.refine_functions(marks),
        Call::CoarsenCells(marks) => mesh.coarsen_cells(marks),
        Call::CoarsenFunctions(marks) => mesh.coarsen_functions(marks),
    }
}

fn by_name_in_season(season: &mut Season, call: &Call) -> Result<Lists, Refusal> {
    let lists = match call {
        Call::RefineCells(marks) => season.refine_cells(marks),
        Call::RefineFunctions(marks) => season.refine_functions(marks),
        Call::CoarsenCells(marks) => season.coarsen_cells(marks),
        Call::CoarsenFunctions(marks) => season.coarsen_functions(marks),
    };
    lists.cloned()
}

fn with_heights_on_mesh(
    mesh: &mut Mesh,
    kind: Kind,
    heights: &mut [i32],
    marks: &[u32],
) -> Result<Lists, Refusal> {
    match kind {
        RefineCells => mesh.refine_cells_with_heights(heights, &as_cells(marks)),
        _ => mesh.refine_functions_with_heights(heights, &as_functions(marks)),
    }
}

fn with_heights_in_season(
    season: &mut Season,
    kind: Kind,
    heights: &mut [i32],
    marks: &[u32],
) -> Result<Lists, Refusal> {
    let lists = match kind {
        RefineCells => season.refine_cells_with_heights(heights, &as_cells(marks)),
        _ => season.refine_functions_with_heights(heights, &as_functions(marks)),
    };
    lists.cloned()
}

/// The mesh with the draft that is open on lent tables.
fn owned_with(tables: &Tables, draft: &Draft) -> Mesh {
    Mesh { draft: draft.collected().map(as_cells), ..owned(tables) }
}

/// The lent call with lists of T and F entries.
fn on_tables(tables: &mut Tables, kind: Kind, draft: &Draft, marks: &[u32]) -> Outcome {
    let (cell_list, function_list) = tables.lists_with_room();
    tables.call_with_draft(kind, draft, marks, &cell_list, &function_list)
}

/// The same with heights.
fn with_heights_on_tables(
    tables: &mut Tables,
    kind: Kind,
    heights: &mut Vec<i32>,
    draft: &Draft,
    marks: &[u32],
) -> Outcome {
    let (cell_list, function_list) = tables.lists_with_room();
    let lists = (&cell_list[..], &function_list[..]);
    tables.refine_with_heights_and_draft(kind, heights, draft, marks, lists)
}

/// Closes the lent draft with lists of T and F entries.
fn close_on_tables(tables: &mut Tables, draft: &mut Draft) -> Outcome {
    let (cell_list, function_list) = tables.lists_with_room();
    tables.draft_close(draft, &cell_list, &function_list)
}

/// Adds to the lent draft, whose list is made long enough, as that of a mesh is.
fn add_on_tables(tables: &Tables, draft: &mut Draft, marks: &[u32]) -> u32 {
    if draft.collected().is_some() {
        draft.list.resize(draft.marks + marks.len(), 0xdead_beef);
    }
    tables.draft_add(draft, marks)
}

/// One run three times over: on lent tables, which are held to the model, on a mesh and in a season.
struct Run {
    first: Mesh,
    tables: Tables,
    draft: Draft,
    mesh: Mesh,
    season: Season,
    /// What the season is to have: the accepted calls that were not taken back.
    made: Vec<Made>,
}

impl Run {
    fn new(tables: Tables) -> Run {
        let first = owned(&tables);
        let season = Season::new(first.clone()).expect("a mesh that check passes");
        let draft = Draft::none(vec![]);
        Run { mesh: first.clone(), first, tables, draft, season, made: vec![] }
    }

    /// Makes a call, by the method that takes any or by its own. Answers the number.
    fn make(&mut self, kind: Kind, marks: &[u32], by_name: bool) -> u32 {
        let outcome = on_tables(&mut self.tables, kind, &self.draft, marks);
        let call = call_of(kind, marks);
        let (on_mesh, in_season) = if by_name {
            (by_name_on_mesh(&mut self.mesh, &call), by_name_in_season(&mut self.season, &call))
        } else {
            (self.mesh.make(&call), self.season.make(call.clone()).cloned())
        };
        self.expect(call, &outcome, [on_mesh, in_season]);
        outcome.number
    }

    /// Refines with heights, which are then as the call left them.
    fn refine_with_heights(&mut self, kind: Kind, heights: &mut Vec<i32>, marks: &[u32]) -> u32 {
        let mut carried = [heights.clone(), heights.clone()];
        let [of_mesh, of_season] = &mut carried;
        let answers = [
            with_heights_on_mesh(&mut self.mesh, kind, of_mesh, marks),
            with_heights_in_season(&mut self.season, kind, of_season, marks),
        ];
        let outcome = with_heights_on_tables(&mut self.tables, kind, heights, &self.draft, marks);
        assert!(carried.iter().all(|carried| carried == heights), "{:?}", self.tables.plan);
        self.expect(call_of(kind, marks), &outcome, answers);
        outcome.number
    }

    fn open_draft(&mut self) -> u32 {
        let number = self.tables.draft_open(&mut self.draft);
        self.expect_drafted(number, |mesh| mesh.open_draft(), |season| season.open_draft())
    }

    fn add_marks(&mut self, marks: &[u32]) -> u32 {
        let number = add_on_tables(&self.tables, &mut self.draft, marks);
        let marks = as_cells(marks);
        self.expect_drafted(
            number,
            |mesh| mesh.add_marks(&marks),
            |season| season.add_marks(&marks),
        )
    }

    fn drop_draft(&mut self) -> u32 {
        let number = self.tables.draft_drop(&mut self.draft);
        self.expect_drafted(number, |mesh| mesh.drop_draft(), |season| season.drop_draft())
    }

    /// Both answers are that of the lent call, and nothing is kept to be taken back.
    fn expect_drafted(
        &mut self,
        number: u32,
        on_mesh: impl FnOnce(&mut Mesh) -> Result<(), Refusal>,
        in_season: impl FnOnce(&mut Season) -> Result<(), Refusal>,
    ) -> u32 {
        let expected = if number == 0 { Ok(()) } else { Err(refusal(number)) };
        assert_eq!(on_mesh(&mut self.mesh), expected, "{:?}", self.tables.plan);
        assert_eq!(in_season(&mut self.season), expected, "{:?}", self.tables.plan);
        self.expect_same();
        number
    }

    /// Closes the draft, which is kept as one refinement by cells.
    fn close_draft(&mut self) -> u32 {
        let marks = self.draft.collected().unwrap_or(&[]).to_vec();
        let outcome = close_on_tables(&mut self.tables, &mut self.draft);
        let answers = [self.mesh.close_draft(), self.season.close_draft().cloned()];
        self.expect(call_of(RefineCells, &marks), &outcome, answers);
        outcome.number
    }

    /// While a draft is open nothing is taken back.
    fn expect_not_undone(&mut self) {
        assert!(self.draft.collected().is_some());
        assert_eq!(self.season.undo(), Err(Refusal::DraftOpen));
        assert_eq!(self.season.undo_all(), Err(Refusal::DraftOpen));
        self.expect_same();
    }

    /// Both answers are that of the lent call, and a call is kept where it was accepted.
    fn expect(&mut self, call: Call, outcome: &Outcome, answers: [Result<Lists, Refusal>; 2]) {
        let answer = answer(outcome);
        for is in answers {
            assert_eq!(is, answer, "{call:?} {:?}", self.tables.plan);
        }
        if let Ok(lists) = answer {
            self.made.push(Made { call, lists });
        }
        self.expect_same();
    }

    fn expect_same(&self) {
        let tables = owned_with(&self.tables, &self.draft);
        assert!(self.mesh == tables, "{:?}", self.tables.plan);
        assert!(self.season.mesh() == &tables, "{:?}", self.tables.plan);
        assert!(self.season.first() == &self.first, "{:?}", self.tables.plan);
        assert_eq!(self.season.calls(), self.made, "{:?}", self.tables.plan);
    }

    /// Takes the last call back: in the season, and elsewhere by its kept cells.
    fn undo(&mut self) {
        let undone = self.season.undo().expect("no draft");
        let Some(made) = self.made.pop() else {
            assert_eq!(undone, None);
            return;
        };
        self.take_back(made, undone.expect("a call to take back"));
        self.expect_same();
    }

    /// On the tables and on the mesh, as the season did.
    fn take_back(&mut self, made: Made, undone: Undone) {
        let kind = if made.call.refines() { CoarsenCells } else { RefineCells };
        let marks: Vec<u32> = made.lists.cells.iter().map(|cell| cell.0).collect();
        let outcome = self.tables.call_with_room(kind, &marks);
        assert_eq!(answer(&outcome), Ok(made.lists.clone()));
        let (opposite, lists) = (call_of(kind, &marks), made.lists.clone());
        assert_eq!(self.mesh.make(&opposite), Ok(made.lists.clone()));
        assert_eq!(undone, Undone { made, opposite, lists });
    }

    /// Takes one call back, then the others at once, and comes to the first mesh.
    fn undo_all(mut self) {
        self.undo();
        let undone = self.season.undo_all().expect("no draft");
        assert_eq!(undone.len(), self.made.len());
        for undone in undone {
            let made = self.made.pop().expect("a call to take back");
            self.take_back(made, undone);
        }
        self.expect_same();
        self.undo();
        assert_eq!(self.season.undo_all(), Ok(vec![]));
        assert_eq!(self.season.mesh().to_file(), Ok(Tables::file(&self.tables)));
        assert_eq!(self.season.mesh().to_file(), self.first.to_file());
        assert!(self.season.into_mesh() == self.first);
    }
}

/// Marks for a call, sometimes with one beyond the last.
fn marks(random: &mut Random, tables: &Tables, kind: Kind) -> Vec<u32> {
    let mut marks = random_marks(random, tables, kind);
    if random.once_in(20) {
        let total = if kind.by_functions() { tables.functions.len() } else { tables.cells.len() };
        marks.push(random.pick(&[total as u32, u32::MAX]));
    }
    marks
}

// ---- Runs ----

/// A run with calls taken back in between. Answers the numbers that its calls gave.
fn season(random: &mut Random, plan: Plan) -> Vec<u32> {
    let mut run = Run::new(random_start(random, plan));
    let mut numbers = vec![];
    for _ in 0..random.below(10) + 6 {
        // More refining than coarsening, so that there is something to coarsen.
        let kind = random.pick(&[
            RefineCells,
            RefineCells,
            RefineFunctions,
            CoarsenCells,
            CoarsenFunctions,
        ]);
        let marks = marks(random, &run.tables, kind);
        numbers.push(run.make(kind, &marks, random.once_in(2)));
        if random.once_in(6) {
            run.undo();
        }
    }
    run.undo_all();
    numbers
}

#[test]
fn seasons_are_taken_back() {
    let mut random = Random::new(800);
    let (mut numbers, mut cornered) = (vec![], 0);
    for class in [0, 2, 3, 4, 5, 6, 7, 8] {
        for degrees in (1..=4).flat_map(|across| (1..=4).map(move |up| (across, up))) {
            let most = random.pick(&[30, 100, 350, 1500]);
            let plan = random_plan(&mut random, degrees, class, most);
            cornered += usize::from(has_corners(plan));
            numbers.extend(season(&mut random, plan));
        }
    }
    let often = |number| numbers.iter().filter(|&&is| is == number).count();
    assert!(often(0) > 800 && [7, 8, 9].iter().all(|&number| often(number) > 9), "{numbers:?}");
    assert!(cornered > 30, "{cornered}");
}

/// A run in which refinements carry heights, which are any before each call.
fn season_with_heights(random: &mut Random, plan: Plan) -> Vec<u32> {
    let mut run = Run::new(random_start(random, plan));
    let mut numbers = vec![];
    for _ in 0..random.below(6) + 4 {
        let kind = random.pick(&[RefineCells, RefineFunctions, CoarsenCells]);
        let marks = marks(random, &run.tables, kind);
        if !kind.refines() {
            numbers.push(run.make(kind, &marks, true));
            continue;
        }
        let fill = random.pick(&Fill::ALL);
        let mut heights = random_heights(random, &run.tables, fill);
        if random.once_in(6) {
            let thing = random.pick(&[9, 10, 11, 15]); // those that concern the heights
            damage(random, thing, &run.tables.clone(), &mut run.tables, &mut heights);
        }
        numbers.push(run.refine_with_heights(kind, &mut heights, &marks));
    }
    run.undo_all();
    numbers
}

#[test]
fn seasons_with_heights_are_taken_back() {
    let mut random = Random::new(801);
    let mut numbers = vec![];
    for class in [0, 2, 3, 4] {
        for degrees in DEGREES.repeat(3) {
            let plan = with_heights(&mut random, degrees, class, 120);
            numbers.extend(season_with_heights(&mut random, plan));
        }
        // With a degree that heights are not for.
        let plan = random_plan(&mut random, (3, 1), class, 120);
        numbers.extend(season_with_heights(&mut random, plan));
    }
    let often = |number| numbers.iter().filter(|&&is| is == number).count();
    let all_came = [3, 7, 8, 14, 15, 17].iter().all(|&number| often(number) > 3);
    assert!(often(0) > 100 && all_came, "{numbers:?}");
}

/// A run with drafts, in which calls are taken back where none is open. Answers the number of each
/// call, and how many marks each closed draft had.
fn season_with_drafts(random: &mut Random, plan: Plan) -> (Vec<u32>, Vec<usize>) {
    let mut run = Run::new(random_start(random, plan));
    let (mut numbers, mut closed) = (vec![], vec![]);
    for _ in 0..random.below(20) + 10 {
        let open = run.draft.collected().is_some();
        let kind = random.pick(&[RefineCells, RefineFunctions, CoarsenCells, CoarsenFunctions]);
        let to_add = marks(random, &run.tables, RefineCells);
        let many = run.draft.marks;
        numbers.push(match (open, random.below(10)) {
            (true, 0..=4) => run.add_marks(&to_add),
            (true, 5) | (false, 0) => {
                let number = run.close_draft();
                closed.extend((number == 0).then_some(many));
                number
            }
            (true, 6) | (false, 1) => run.drop_draft(),
            (false, 2) => run.add_marks(&to_add),
            (true, 7) | (false, 3..=5) => run.open_draft(),
            _ if kind.refines() && random.once_in(2) => {
                let marks = marks(random, &run.tables, kind);
                let mut heights = random_heights(random, &run.tables, Fill::Small);
                run.refine_with_heights(kind, &mut heights, &marks)
            }
            _ => {
                let marks = marks(random, &run.tables, kind);
                run.make(kind, &marks, random.once_in(2))
            }
        });
        match run.draft.collected() {
            Some(_) => run.expect_not_undone(),
            None if random.once_in(6) => run.undo(),
            None => {}
        }
    }
    if run.draft.collected().is_some() {
        run.drop_draft();
    }
    run.undo_all();
    (numbers, closed)
}

#[test]
fn seasons_with_drafts_are_taken_back() {
    let mut random = Random::new(807);
    let (mut numbers, mut closed) = (vec![], vec![]);
    for class in [0, 2, 3, 4, 5, 8] {
        for degrees in (1..=4).flat_map(|across| (1..=2).map(move |up| (across, up))) {
            for most in [30, 100, 350].repeat(4) {
                let plan = random_plan(&mut random, degrees, class, most);
                let (more_numbers, more_closed) = season_with_drafts(&mut random, plan);
                numbers.extend(more_numbers);
                closed.extend(more_closed);
            }
        }
    }
    let often = |number| numbers.iter().filter(|&&is| is == number).count();
    let all_came = [7, 8, 9, 14, 18, 19].iter().all(|&number| often(number) > 9);
    assert!(often(0) > 1000 && all_came, "{numbers:?}");
    assert!(closed.iter().filter(|&&marks| marks > 1).count() > 100, "{closed:?}");
}

/// A season that begins while a draft is open goes on with it, and its first mesh is without.
#[test]
fn a_season_begun_with_a_draft() {
    let tables = opened([3, 1, 3, 1, 1, 2]);
    let mesh = Mesh { draft: Some(as_cells(&[0, 2, 0])), ..owned(&tables) };
    let mut season = Season::new(mesh.clone()).expect("a mesh");
    assert_eq!((season.mesh(), season.first()), (&mesh, &owned(&tables)));
    assert_eq!(season.undo(), Err(Refusal::DraftOpen));
    assert_eq!(season.refine_cells(&[Cell(1)]), Err(Refusal::DraftOpen));
    assert_eq!(season.add_marks(&[Cell(1), Cell(3)]), Err(Refusal::MarkOfWrongKind));
    season.add_marks(&[Cell(2)]).expect("an active cell");
    let lists = season.close_draft().expect("active cells").clone();
    assert_eq!(lists.cells, as_cells(&[0, 2]));
    let call = Call::RefineCells(as_cells(&[0, 2, 0, 2]));
    assert_eq!(season.calls(), [Made { call, lists }]);
    assert_eq!(season.undo_all().expect("no draft").len(), 1);
    assert_eq!((season.mesh(), season.first()), (&owned(&tables), &owned(&tables)));
}

/// The active cells that are not of the last level.
fn refinable(mesh: &Mesh) -> Vec<Cell> {
    let last = |cell| mesh.plan.place(cell).is_none_or(|p| p.level + 1 == mesh.plan.levels);
    let cells = (0..).map(Cell).zip(&mesh.cells);
    cells.filter(|&(cell, &byte)| byte == 1 && !last(cell)).map(|(cell, _)| cell).collect()
}

/// The deactivated functions of the last level but one.
fn finest_deactivated(mesh: &Mesh) -> Vec<Function> {
    let level = |function| mesh.plan.support(function).map(|support| support.level);
    let functions = (0..).map(Function).zip(&mesh.functions);
    let deactivated = functions.filter(|function| *function.1 == 2).map(|function| function.0);
    deactivated.filter(|&function| level(function) == Some(mesh.plan.levels - 2)).collect()
}

/// Seasons of plans with the most cells and functions, without the model, which would take long. All
/// is refined, level by level, and then some coarsened.
#[test]
fn seasons_of_the_largest_are_taken_back() {
    for numbers in [
        [1, 1, 8, 4, 4, 2, 0, 0],
        [16, 16, 4, 4, 4, 2, all_corners(16), all_corners(16)],
        [16, 1, 6, 3, 2, 0, 0, 0],
    ] {
        let first = Mesh::open(of_wrapper(plan(numbers))).expect("a plan in range");
        let mut season = Season::new(first.clone()).expect("a mesh");
        for _ in 1..numbers[2] {
            season.refine_cells(&refinable(season.mesh())).expect("active cells");
        }
        let lists = season.coarsen_functions(&finest_deactivated(season.mesh()));
        assert!(!lists.expect("functions over reactivable cells").cells.is_empty());
        let last = season.mesh().cells.iter().rposition(|&byte| byte == 2).expect("a refined cell");
        season.coarsen_cells(&[Cell(last as u32)]).expect("a reactivable cell");
        assert_eq!(season.calls().len(), numbers[2] as usize + 1);
        expect_undone(season, &first);
    }
}

fn expect_undone(mut season: Season, first: &Mesh) {
    let made = season.calls().to_vec();
    assert!(made.iter().any(|made| made.lists.cells.len() > 1000));
    let undone = season.undo_all().expect("no draft");
    assert_eq!(undone.len(), made.len());
    for (undone, made) in undone.iter().zip(made.iter().rev()) {
        assert!(undone.made == *made && undone.lists == made.lists);
    }
    assert!(season.mesh() == first);
    assert_eq!(season.mesh().to_file(), first.to_file());
}

// ---- Meshes that are none ----

/// A call with an answer that the model gives: the numbers are the same.
fn number<T>(answer: &Result<T, Refusal>) -> u32 {
    answer.as_ref().err().map_or(0, |refusal| refusal.number())
}

/// Whatever is refused of the tables is refused of the mesh, with nothing changed, and the other way
/// round.
fn expect_alike(tables: &Tables, heights: &[i32]) {
    let mesh = owned(tables);
    let season = Season::new(mesh.clone());
    assert_eq!(number(&season), tables.check());
    assert!(season.is_err() || season.is_ok_and(|s| s.mesh() == &mesh && s.calls().is_empty()));
    assert_eq!(number(&mesh.check()), tables.check());
    assert_eq!(number(&mesh.count()), tables.count().number);
    let file = tables.write(&[0xee; MAX_FILE_BYTES]);
    assert_eq!(mesh.to_file().map_err(Refusal::number), file);
    let height = mesh.height(heights, 3, 1).map_err(Refusal::number);
    assert_eq!(height, tables.height(heights, 3, 1));
    let corners = tables.corners(heights, &[7; MAX_CORNER_DOUBLES]);
    assert_eq!(
        mesh.corners(heights).map(|c| c.len()).map_err(Refusal::number),
        corners.map(|c| c.len())
    );
    for draft in [Draft::none(vec![]), Draft { open: 1, marks: 2, list: vec![0, 0] }] {
        for kind in Kind::ALL {
            expect_call_alike(tables, kind, &draft, &[0]);
        }
        for kind in Kind::REFINING {
            expect_call_with_heights_alike(tables, kind, heights, &draft, &[0]);
        }
        expect_drafts_alike(tables, &draft, &[0]);
    }
}

fn expect_call_alike(tables: &Tables, kind: Kind, draft: &Draft, marks: &[u32]) {
    let (mut tables, mut mesh) = (tables.clone(), owned_with(tables, draft));
    let outcome = on_tables(&mut tables, kind, draft, marks);
    assert_eq!(mesh.make(&call_of(kind, marks)), answer(&outcome), "{kind:?} {:?}", tables.plan);
    assert!(mesh == owned_with(&tables, draft));
}

fn expect_call_with_heights_alike(
    tables: &Tables,
    kind: Kind,
    heights: &[i32],
    draft: &Draft,
    marks: &[u32],
) {
    let (mut tables, mut mesh) = (tables.clone(), owned_with(tables, draft));
    let (mut lent, mut carried) = (heights.to_vec(), heights.to_vec());
    let outcome = with_heights_on_tables(&mut tables, kind, &mut lent, draft, marks);
    let is = with_heights_on_mesh(&mut mesh, kind, &mut carried, marks);
    assert_eq!(is, answer(&outcome), "{kind:?} {:?}", tables.plan);
    assert!(mesh == owned_with(&tables, draft) && carried == lent);
}

/// Each call on the draft, on copies of all.
fn expect_drafts_alike(tables: &Tables, draft: &Draft, marks: &[u32]) {
    let expect = |number_and_draft: (u32, Draft),
                  call: &dyn Fn(&mut Mesh) -> Result<(), Refusal>| {
        let (expected, draft_then) = number_and_draft;
        let mut mesh = owned_with(tables, draft);
        assert_eq!(number(&call(&mut mesh)), expected, "{:?}", tables.plan);
        assert!(mesh == owned_with(tables, &draft_then), "{:?}", tables.plan);
    };
    let lent = |call: &dyn Fn(&mut Draft) -> u32| {
        let mut draft = draft.clone();
        (call(&mut draft), draft)
    };
    expect(lent(&|draft| tables.draft_open(draft)), &Mesh::open_draft);
    expect(lent(&|draft| tables.draft_drop(draft)), &Mesh::drop_draft);
    let add = |mesh: &mut Mesh| mesh.add_marks(&as_cells(marks));
    expect(lent(&|draft| add_on_tables(tables, draft, marks)), &add);
    let (mut mesh, mut tables, mut draft) =
        (owned_with(tables, draft), tables.clone(), draft.clone());
    let outcome = close_on_tables(&mut tables, &mut draft);
    assert_eq!(mesh.close_draft(), answer(&outcome), "{:?}", tables.plan);
    assert!(mesh == owned_with(&tables, &draft));
}

fn opened(numbers: [u32; 6]) -> Tables {
    Tables::opened(plan(numbers))
}

/// The examples of the scope document, one of each number.
#[test]
fn each_number_of_check_is_refused() {
    let fresh = opened([3, 1, 3, 1, 1, 0]);
    let mut refused: [Tables; 6] = std::array::from_fn(|_| fresh.clone());
    refused[0].plan.columns = 0;
    refused[1].plan = plan([16, 16, 5, 1, 1, 0]);
    refused[2].cells.pop();
    refused[3].cells[0] = 0;
    let graded = plan([3, 1, 3, 1, 1, 2]);
    let refined: BTreeSet<model::Cell> = [0, 4].map(|cell| graded.cell_at(cell)).into();
    refused[4] = Tables::with_refined(graded, &refined);
    refused[5].functions[0] = 2;
    for (tables, number) in refused.iter().zip(1..) {
        assert_eq!(Season::new(owned(tables)), Err(refusal(number)));
        expect_alike(tables, &vec![0; tables.functions.len()]);
    }
    assert!(Season::new(owned(&fresh)).is_ok());
    expect_alike(&fresh, &vec![5; fresh.functions.len()]);
}

#[test]
fn damaged_meshes_are_refused() {
    let mut random = Random::new(802);
    let mut seen = [0; 7];
    for round in 0..300 {
        let degrees = random.pick(&DEGREES);
        let class = random.pick(&[0, 2, 3]);
        let plan = with_heights(&mut random, degrees, class, 100);
        let mesh = random_start(&mut random, plan);
        let mut heights = random_heights(&mut random, &mesh, Fill::Small);
        let mut tables = mesh.clone();
        damage(&mut random, round % DAMAGES, &mesh, &mut tables, &mut heights);
        seen[tables.check() as usize] += 1;
        expect_alike(&tables, &heights);
    }
    assert!(seen.iter().all(|&often| often > 3), "{seen:?}");
}

/// Garbage of every length: shorter, longer, and longer than any table may be.
#[test]
fn tables_of_any_length_are_refused() {
    let mut random = Random::new(803);
    let fresh = opened([3, 1, 3, 1, 1, 2]);
    let (t, f) = (fresh.cells.len(), fresh.functions.len());
    let mut tables = fresh.clone();
    for cells in [0, 1, t - 1, t, t + 1, MAX_CELLS + 1, 100_000] {
        for functions in [0, 1, f - 1, f, f + 1, MAX_FUNCTIONS + 1, 100_000] {
            let garbage = random.pick(&[0, 1, 2, 255]);
            tables.cells = vec![garbage; cells];
            tables.functions = vec![garbage; functions];
            assert_eq!(tables.check(), if (cells, functions) == (t, f) { 4 } else { 3 });
            expect_alike(&tables, &vec![0; functions]);
        }
    }
}

// ---- Marks at fault ----

/// The first mark for which the model refuses the call, and its refusal: that of the first part of
/// the list that is refused with 7, 8 or 9.
fn first_fault(tables: &Tables, kind: Kind, marks: &[u32]) -> Option<(usize, u32)> {
    let Tables { plan, cells, functions } = tables;
    (0..marks.len()).find_map(|i| {
        let room = (cells.len(), functions.len());
        let refused =
            kind.of_model()(*plan, cells, functions, &marks[..=i], room.0, room.1).err()?;
        (7..=9).contains(&refused).then_some((i, refused))
    })
}

/// Marks that the call takes, with some that it may not take anywhere among them.
fn marks_with_faults(random: &mut Random, tables: &Tables, kind: Kind) -> Vec<u32> {
    let mut marks = marks(random, tables, kind);
    marks.truncate(40);
    let total = if kind.by_functions() { tables.functions.len() } else { tables.cells.len() };
    for _ in 0..random.below(4) {
        let any = random.below(total + 3) as u32;
        marks.insert(random.below(marks.len() + 1), random.pick(&[any, any, any, u32::MAX]));
    }
    marks
}

#[test]
fn the_first_mark_at_fault() {
    let mut random = Random::new(805);
    let (mut seen, mut later) = ([0; 10], 0);
    for turn in 0..1200 {
        let degrees = (turn % 4 + 1, turn / 4 % 4 + 1);
        let class = random.pick(&[0, 0, 2, 3]);
        let plan = random_plan(&mut random, degrees, class, 150);
        let tables = random_start(&mut random, plan);
        let kind = random.pick(&Kind::ALL);
        let marks = marks_with_faults(&mut random, &tables, kind);
        let (mesh, call) = (owned(&tables), call_of(kind, &marks));
        let fault = first_fault(&tables, kind, &marks);
        let answer = mesh.clone().make(&call);
        let at = mesh.first_fault(&call);
        assert_eq!(at, fault.map(|(at, _)| at), "{kind:?} {marks:?} {plan:?}");
        assert_eq!(answer.err(), fault.map(|(_, number)| refusal(number)), "{kind:?} {marks:?}");
        assert_eq!(mesh, owned(&tables));
        seen[fault.map_or(0, |(_, number)| number as usize)] += 1;
        later += usize::from(at.is_some_and(|at| at > 1));
    }
    assert!([0, 7, 8, 9].iter().all(|&number| seen[number] > 50) && later > 50, "{seen:?} {later}");
}

/// Where the tables are refused no mark is at fault.
#[test]
fn tables_at_fault() {
    let mut random = Random::new(806);
    let fresh = opened([3, 1, 3, 1, 1, 2]);
    let heights = vec![0; fresh.functions.len()];
    for round in 0..60 {
        let mut tables = fresh.clone();
        damage(&mut random, round % DAMAGES, &fresh, &mut tables, &mut heights.clone());
        for kind in Kind::ALL.into_iter().filter(|_| tables.check() != 0) {
            for marks in [vec![], vec![0], vec![u32::MAX], vec![0, 1, 2, u32::MAX]] {
                assert_eq!(owned(&tables).first_fault(&call_of(kind, &marks)), None);
            }
        }
    }
}
