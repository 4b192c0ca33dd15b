//! Runs of dozens of calls, refused ones among them, and each run undone as a whole.

use differential::{
    has_corners, random_covered, random_lists, random_marks, random_plan, random_refined,
    undo_by_cells, undo_by_functions, Kind, Log, Random, Tables,
};
use Kind::*;

/// One call of a run, with lists of any length.
fn step(random: &mut Random, tables: &mut Tables, kind: Kind, log: &mut Log) {
    let marks = random_marks(random, tables, kind);
    let (cell_list, function_list) = random_lists(random, tables);
    log.push((kind, tables.call(kind, &marks, &cell_list, &function_list)));
}

fn start(random: &mut Random, plan: model::Plan) -> Tables {
    let refined = random_refined(random, plan);
    Tables::with_refined(plan, &refined)
}

/// Runs of all four calls, from fresh and from other meshes, undone by cells: once with lists of
/// exactly the needed length and once with longer ones.
fn runs_undone_by_cells(class: u32, seed: u64) {
    let mut random = Random::new(seed);
    let (mut accepted, mut refused, mut changed, mut cornered) = (0, 0, 0, 0);
    for degree_across in 1..=4 {
        for degree_up in 1..=4 {
            for most in [100, 400, 1500] {
                let plan = random_plan(&mut random, (degree_across, degree_up), class, most);
                cornered += u32::from(has_corners(plan));
                let first =
                    if random.once_in(2) { Tables::opened(plan) } else { start(&mut random, plan) };
                let mut tables = first.clone();
                let mut log = Log::new();
                for _ in 0..random.below(50) + 10 {
                    let kind = random.pick(&Kind::MOSTLY_REFINING);
                    step(&mut random, &mut tables, kind, &mut log);
                    if random.once_in(8) {
                        assert_eq!(tables.check(), 0);
                        let count = tables.count();
                        let area = plan.columns * plan.rows * 4u32.pow(plan.levels - 1);
                        assert_eq!(count.area, area);
                    }
                }
                for (_, outcome) in &log {
                    *if outcome.number == 0 { &mut accepted } else { &mut refused } += 1;
                    changed += outcome.cells.len();
                }
                let mut again = tables.clone();
                undo_by_cells(&mut tables, &log, 0, &mut random);
                assert_eq!(tables, first);
                undo_by_cells(&mut again, &log, 3, &mut random);
                assert_eq!(again, first);
            }
        }
    }
    // Runs that change nothing would show nothing.
    assert!(accepted > 500 && refused > 100 && changed > 1000, "{accepted} {refused} {changed}");
    assert!(cornered > 5, "{cornered}");
}

macro_rules! by_cells {
    ($($name:ident $class:literal)*) => {
        $(#[test]
        fn $name() {
            runs_undone_by_cells($class, 100 + $class);
        })*
    };
}

by_cells! {
    class_0_undone_by_cells 0
    class_2_undone_by_cells 2
    class_3_undone_by_cells 3
    class_4_undone_by_cells 4
    class_5_undone_by_cells 5
    class_6_undone_by_cells 6
    class_7_undone_by_cells 7
    class_8_undone_by_cells 8
}

/// Runs of refinements by functions in class 0, from meshes in which each refined cell lies in the
/// support of a deactivated function of its own level, undone by functions and by cells.
#[test]
fn class_0_undone_by_functions() {
    let mut random = Random::new(200);
    let (mut accepted, mut refused, mut changed, mut started) = (0, 0, 0, 0);
    let mut cornered = 0;
    for degree_across in 1..=4 {
        for degree_up in 1..=4 {
            for most in [100, 400, 1500, 100, 400, 1500] {
                let plan = random_plan(&mut random, (degree_across, degree_up), 0, most);
                cornered += u32::from(has_corners(plan));
                let refined = random_covered(&mut random, plan);
                started += refined.len();
                let first = Tables::with_refined(plan, &refined);
                let mut tables = first.clone();
                let mut log = Log::new();
                for _ in 0..random.below(40) + 5 {
                    step(&mut random, &mut tables, RefineFunctions, &mut log);
                }
                for (_, outcome) in &log {
                    *if outcome.number == 0 { &mut accepted } else { &mut refused } += 1;
                    changed += outcome.cells.len();
                }
                let last = tables.clone();
                for spare in [0, 5] {
                    tables = last.clone();
                    undo_by_functions(&mut tables, &log, spare, &mut random);
                    assert_eq!(tables, first);
                }
                tables = last;
                undo_by_cells(&mut tables, &log, 0, &mut random);
                assert_eq!(tables, first);
            }
        }
    }
    assert!(accepted > 500 && refused > 100 && changed > 1000, "{accepted} {refused} {changed}");
    assert!(started > 1000 && cornered > 10, "{started} {cornered}");
}

/// A long run on one mesh: hundreds of calls, many of them taking back what others did.
#[test]
fn a_long_run_undone() {
    for (seed, numbers) in [
        (300, [4, 3, 4, 2, 1, 0, 0, 0]),
        (301, [4, 3, 4, 2, 1, 2, 0, 0]),
        (302, [4, 3, 4, 2, 1, 3, 0, 0]),
        (303, [4, 3, 4, 2, 1, 0, 4, 0]),
        (304, [4, 3, 4, 3, 2, 2, 10, 6]),
    ] {
        let mut random = Random::new(seed);
        let plan = differential::plan(numbers);
        let first = Tables::opened(plan);
        let mut tables = first.clone();
        let mut log = Log::new();
        for _ in 0..400 {
            let kind = random.pick(&Kind::ALL);
            step(&mut random, &mut tables, kind, &mut log);
        }
        undo_by_cells(&mut tables, &log, 0, &mut random);
        assert_eq!(tables, first);
    }
}
