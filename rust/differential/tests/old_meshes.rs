//! "Old graded walls pass": a mesh that is admissible by the rule before Req 12, the H-neighbourhood,
//! passes check, and its file is read. Other meshes pass too that the rule before refuses. And no call
//! leaves more cells refined than it would have by the rule before.

use differential::{
    accepted, has_corners, meshes_of_classes, plan, random_plan, refused, Kind, Outcome, Random,
    Tables,
};
use model::{h_rule, Cell, Plan};
use std::collections::BTreeSet;
use Kind::*;

const W2: [u32; 6] = [3, 1, 3, 1, 1, 2];

/// What check answered by the rule before.
fn before(tables: &Tables) -> u32 {
    h_rule::check(tables.plan, &tables.cells, &tables.functions).err().unwrap_or(0)
}

fn mesh<const N: usize>(numbers: [u32; N], refined: &[usize]) -> Tables {
    let plan = plan(numbers);
    Tables::with_refined(plan, &refined.iter().map(|&cell| plan.cell_at(cell)).collect())
}

/// The library passes the mesh and reads its file.
fn expect_passed(tables: &Tables) {
    assert_eq!(tables.check(), 0, "{:?}", tables.plan);
    let mut read = Tables {
        plan: tables.plan,
        cells: vec![0x77; tables.cells.len()],
        functions: vec![0x77; tables.functions.len()],
    };
    assert_eq!(read.read(&tables.file()), 0, "{:?}", tables.plan);
    assert_eq!(&read, tables);
}

// ---- By hand ----

/// Files that were written while the rule before held: P7, Req 09's sample, and P7 with degree 2 across,
/// without a corner and with one before column 1.
#[test]
fn old_files_are_read() {
    for (file, tables) in [
        (&[3, 1, 3, 1, 1, 2, 3, 0, 1, 2][..], mesh(W2, &[0, 1, 3])),
        (&[8, 1, 5, 1, 1, 2, 4, 2, 1, 1, 11], mesh([8, 1, 5, 1, 1, 2], &[2, 3, 4, 15])),
        (&[3, 1, 3, 2, 1, 2, 4, 0, 1, 1, 1], mesh([3, 1, 3, 2, 1, 2], &[0, 1, 2, 3])),
        (&[3, 1, 3, 2, 1, 2, 3, 0, 1, 2, 2, 0], mesh([3, 1, 3, 2, 1, 2, 2, 0], &[0, 1, 3])),
    ] {
        assert_eq!(before(&tables), 0, "{file:?}");
        expect_passed(&tables);
        assert_eq!(tables.file(), file);
    }
}

/// P8 on the mesh that P7 made before: cell 3 does not need cell 1 any more. Functions 1 and 5 are over
/// it.
#[test]
fn p8_on_an_old_mesh() {
    let mut tables = mesh(W2, &[0, 1, 3]);
    assert_eq!(tables.call_with_room(CoarsenCells, &[1]), accepted(&[1], &[1, 5]));
    assert_eq!(tables, mesh(W2, &[0, 3]));
    assert_eq!(tables.call_with_room(CoarsenCells, &[1]), refused(8));
}

/// The rule before refuses some meshes that pass. Cell 3, in column 0 of level 1, needs the parents of
/// columns 0 and 1, which is cell 0. Before, it needed all cells that have a common function with cell 0,
/// so cell 1 too. In class 3 it is the same with cell 15, in column 0 of level 2, whose parent is cell 3.
#[test]
fn meshes_that_were_refused() {
    for tables in [
        mesh(W2, &[0, 3]),
        mesh([8, 1, 5, 1, 1, 2], &[3, 4, 15]),
        mesh([3, 1, 4, 1, 1, 3], &[0, 3, 15]),
        mesh([3, 1, 3, 2, 1, 2, 2, 0], &[0, 3]),
    ] {
        assert_eq!(before(&tables), 5, "{:?}", tables.plan);
        expect_passed(&tables);
    }
    // And others are refused as before.
    let mut tables = mesh(W2, &[0, 4]);
    assert_eq!((before(&tables), tables.check()), (5, 5));
    assert_eq!(tables.call_with_room(RefineCells, &[1]), refused(5));
}

// ---- Many meshes ----

/// How many meshes of a class both rules take, this one alone takes, and both refuse.
#[derive(Clone, Copy, Debug, Default)]
struct Seen {
    by_both: usize,
    by_this_alone: usize,
    by_none: usize,
    cornered: usize,
}

impl Seen {
    fn add(&mut self, tables: &Tables) {
        match (before(tables), tables.check()) {
            (0, 0) => {
                expect_passed(tables);
                self.by_both += 1;
                self.cornered += usize::from(has_corners(tables.plan));
            }
            (5, 0) => self.by_this_alone += 1,
            (5, 5) => self.by_none += 1,
            (before, now) => panic!("{before} before, {now} now: {tables:?}"),
        }
    }
}

/// Every mesh of small plans.
#[test]
fn every_small_mesh() {
    let mut seen = [Seen::default(); 5];
    for (plan, meshes) in meshes_of_classes() {
        for refined in meshes {
            seen[plan.class as usize].add(&Tables::with_refined(plan, &refined));
        }
    }
    for seen in &seen[2..] {
        let Seen { by_both, by_this_alone, by_none, cornered } = seen;
        let fewest = by_both.min(by_this_alone).min(by_none).min(cornered);
        assert!(*fewest > 50, "{seen:?}");
    }
}

/// Cells of any levels but the last.
fn random_cells(random: &mut Random, plan: Plan) -> BTreeSet<Cell> {
    let refinable = plan.cells().filter(|cell| cell.level + 1 < plan.levels).count();
    let many = random.pick(&[1, 2, 5, refinable / 8]);
    (0..many).map(|_| plan.cell_at(random.below(refinable))).collect()
}

/// Classes, and so many cells that plans of several columns or rows have neighbourhoods in them.
const SIZES: [(u32, usize); 4] = [(2, 800), (3, 800), (4, 1500), (5, 4200)];

/// A plan of this class and at most so many cells, in which cells can be refined that have a
/// neighbourhood, of all degrees in turn.
fn random_old_plan(random: &mut Random, turn: u32, (class, most): (u32, usize)) -> Plan {
    loop {
        let degrees = (turn % 4 + 1, turn / 4 % 4 + 1);
        let plan = random_plan(random, degrees, class, most);
        if plan.levels > class && plan.columns * plan.rows > 1 {
            return plan;
        }
    }
}

/// The smallest meshes by the rule before that have some cells refined.
#[test]
fn random_old_meshes() {
    let mut random = Random::new(1200);
    for (class, most) in SIZES {
        let mut seen = Seen::default();
        for turn in 0..160 {
            let plan = random_old_plan(&mut random, turn, (class, most));
            let cells = random_cells(&mut random, plan);
            let old = Tables::with_refined(plan, &h_rule::smallest(plan, cells.clone()));
            assert_eq!(before(&old), 0);
            seen.add(&old);
            seen.add(&Tables::with_refined(plan, &model::smallest(plan, cells)));
        }
        assert!(seen.by_both >= 160 && seen.cornered > 30, "{class}: {seen:?}");
        assert!(seen.by_this_alone > 10, "{class}: {seen:?}");
    }
}

// ---- No more than before ----

/// What the library lists of a call on an old mesh lies in what the call would have listed by the rule
/// before, where it refines, and holds it, where it coarsens. Answers how many cells it is off.
fn expect_no_more(tables: &Tables, kind: Kind, mark: u32) -> usize {
    let plan = tables.plan;
    let old = model::refined_cells(plan, &tables.cells);
    let mut base = old.clone();
    let cell = plan.cell_at(mark as usize);
    if kind.refines() {
        base.insert(cell);
    } else {
        base.remove(&cell);
    }
    let then = h_rule::smallest(plan, base);
    let mut after = tables.clone();
    let Outcome { number, cells, .. } = after.call_with_room(kind, &[mark]);
    assert_eq!(number, 0, "{plan:?}");
    let now = model::refined_cells(plan, &after.cells);
    assert!(now.is_subset(&then), "{kind:?} {mark} {plan:?} {old:?}");
    let changed = if kind.refines() { then.len() - old.len() } else { old.len() - then.len() };
    assert_eq!(cells.len().abs_diff(changed), then.len() - now.len());
    then.len() - now.len()
}

/// Each mark on a mesh. Answers how many calls were made, and how many of them leave fewer cells refined
/// than before.
fn expect_no_more_by_marks(tables: &Tables, kind: Kind, marks: &[u32]) -> (usize, usize) {
    let off = marks.iter().map(|&mark| expect_no_more(tables, kind, mark));
    (marks.len(), off.filter(|&off| off > 0).count())
}

/// One mark on old meshes: of small plans every tenth, each mark that there is; of others some marks, the
/// finest ones among them.
#[test]
fn one_mark_refines_no_more_than_before() {
    let (mut refinements, mut fewer) = (0, 0);
    let mut add = |tables: &Tables, marks: &[u32]| {
        let (calls, less) = expect_no_more_by_marks(tables, RefineCells, marks);
        refinements += calls;
        fewer += less;
    };
    for (plan, meshes) in meshes_of_classes() {
        for refined in meshes.iter().step_by(10) {
            let tables = Tables::with_refined(plan, refined);
            if before(&tables) == 0 {
                add(&tables, &tables.markable(RefineCells));
            }
        }
    }
    let mut random = Random::new(1201);
    for size in SIZES {
        for turn in 0..48 {
            let plan = random_old_plan(&mut random, turn, size);
            let cells = random_cells(&mut random, plan);
            let tables = Tables::with_refined(plan, &h_rule::smallest(plan, cells));
            let markable = tables.markable(RefineCells);
            let few = (0..6).filter(|_| !markable.is_empty()).map(|_| random.pick(&markable));
            let marks: Vec<u32> = few.chain(markable.last().copied()).collect();
            add(&tables, &marks);
        }
    }
    assert!(refinements > 10_000 && fewer > 100, "{refinements} {fewer}");
}

/// Nor does coarsening by one mark leave more.
#[test]
fn one_mark_coarsens_no_less_than_before() {
    let (mut coarsenings, mut fewer) = (0, 0);
    for (plan, meshes) in meshes_of_classes() {
        for refined in meshes.iter().step_by(10) {
            let tables = Tables::with_refined(plan, refined);
            if before(&tables) == 0 {
                let marks = tables.markable(CoarsenCells);
                let (calls, less) = expect_no_more_by_marks(&tables, CoarsenCells, &marks);
                coarsenings += calls;
                fewer += less;
            }
        }
    }
    assert!(coarsenings > 10_000 && fewer > 50, "{coarsenings} {fewer}");
}

/// Whatever cells are to be refined, the smallest mesh lies in the smallest by the rule before.
#[test]
fn the_smallest_mesh_lies_in_the_one_before() {
    let mut random = Random::new(1202);
    for size in SIZES {
        let (mut cells_now, mut cells_then) = (0, 0);
        for turn in 0..160 {
            let plan = random_old_plan(&mut random, turn, size);
            let cells = random_cells(&mut random, plan);
            let now = model::smallest(plan, cells.clone());
            let then = h_rule::smallest(plan, cells);
            assert!(now.is_subset(&then), "{plan:?}");
            (cells_now, cells_then) = (cells_now + now.len(), cells_then + then.len());
        }
        assert!(cells_now < cells_then, "{size:?}: {cells_now} {cells_then}");
    }
}
