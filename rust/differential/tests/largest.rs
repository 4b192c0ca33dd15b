//! The largest plans: refined level by level to the end and back, refined towards points, and runs
//! in the classes that only many levels make different from class 0.

use differential::{
    all_corners, plan, random_corners, undo_by_cells, undo_by_functions, Kind, Log, Random, Tables,
};
use model::Plan;
use Kind::*;

/// Each shape of T near its limit.
const SHAPES: [(u32, u32, u32); 7] =
    [(1, 1, 8), (2, 2, 7), (4, 1, 7), (4, 4, 6), (16, 1, 6), (8, 8, 5), (16, 16, 4)];

/// Refines everything, level by level, and takes it back.
fn wholly_refined(plan: Plan, kind: Kind, random: &mut Random) {
    let first = Tables::opened(plan);
    let mut tables = first.clone();
    let mut log = Log::new();
    for _ in 1..plan.levels {
        let mut marks = tables.markable(kind);
        random.shuffle(&mut marks);
        log.push((kind, tables.call_with_room(kind, &marks)));
    }
    assert_eq!(tables.markable(kind), []);
    let count = tables.count();
    assert_eq!(count.number, 0);
    assert_eq!(count.active_cells, count.area);
    let last = plan.levels - 1;
    assert_eq!(count.active_cells, (plan.columns << last) * (plan.rows << last));
    let functions = |cells: u32, degree: u32, corners: u32| {
        cells + degree + (degree - 1) * corners.count_ones()
    };
    assert_eq!(
        count.active_functions,
        functions(plan.columns << last, plan.degree_across, plan.corners_across)
            * functions(plan.rows << last, plan.degree_up, plan.corners_up)
    );
    let end = tables.clone();
    undo_by_cells(&mut tables, &log, 0, random);
    assert_eq!(tables, first);
    if kind == RefineFunctions {
        tables = end;
        undo_by_functions(&mut tables, &log, 1, random);
        assert_eq!(tables, first);
    }
}

#[test]
fn wholly_refined_by_cells() {
    let mut random = Random::new(400);
    for (i, (columns, rows, levels)) in SHAPES.into_iter().enumerate() {
        let class = [2, 0, 6, 3, 2, 4, 2][i];
        wholly_refined(plan([columns, rows, levels, 4, 4, class]), RefineCells, &mut random);
        wholly_refined(plan([rows, columns, levels, 1, 3, 8]), RefineCells, &mut random);
    }
}

#[test]
fn wholly_refined_by_functions() {
    let mut random = Random::new(401);
    for (columns, rows, levels) in SHAPES {
        wholly_refined(plan([columns, rows, levels, 3, 3, 0]), RefineFunctions, &mut random);
    }
}

/// The same with corners: on every line, so that there are the most functions, and on some.
#[test]
fn wholly_refined_with_corners() {
    let mut random = Random::new(404);
    let most = plan([16, 16, 4, 4, 4, 2, all_corners(16), all_corners(16)]);
    assert_eq!((most.cell_total(), most.function_total()), (21_760, 54_884));
    wholly_refined(most, RefineCells, &mut random);
    wholly_refined(Plan { class: 0, ..most }, RefineFunctions, &mut random);
    for (columns, rows, levels) in SHAPES {
        let (across, up) = (all_corners(columns), random_corners(&mut random, rows));
        let class = random.pick(&[0, 2, 3]);
        let by_cells = plan([columns, rows, levels, 4, 3, class, across, up]);
        wholly_refined(by_cells, RefineCells, &mut random);
        // The other way round.
        let by_functions = plan([rows, columns, levels, 2, 4, 0, up, across]);
        wholly_refined(by_functions, RefineFunctions, &mut random);
    }
}

/// Refines towards a point until the last level, so that the class refines ever more around it.
fn towards(plan: Plan, point: (f64, f64), random: &mut Random) -> usize {
    let first = Tables::opened(plan);
    let mut tables = first.clone();
    let mut log = Log::new();
    for level in 0..plan.levels - 1 {
        let place = |part: f64, size: u32| ((size << level) as f64 * part) as u32;
        let (row, column) = (place(point.1, plan.rows), place(point.0, plan.columns));
        let mark = plan.cell_number(model::Cell { level, row, column }) as u32;
        log.push((RefineCells, tables.call_with_room(RefineCells, &[mark])));
    }
    assert_eq!(tables.check(), 0);
    undo_by_cells(&mut tables, &log, 0, random);
    assert_eq!(tables, first);
    log.iter().map(|(_, outcome)| outcome.cells.len()).sum()
}

#[test]
fn refined_towards_points() {
    let mut random = Random::new(402);
    for (columns, rows, levels) in SHAPES {
        for (class, degree) in [(0, 1), (2, 4), (3, 4), (4, 2)] {
            for point in [(0.0, 0.0), (0.4, 0.6)] {
                let plan = plan([columns, rows, levels, degree, degree, class]);
                let refined = towards(plan, point, &mut random);
                assert!(class != 0 || refined == levels as usize - 1);
                assert!((class, degree) != (2, 4) || refined > levels as usize - 1);
            }
        }
    }
}

/// The same with corners: a point just behind one, where the class asks for less beyond it.
#[test]
fn refined_towards_corners() {
    let mut random = Random::new(405);
    for (columns, rows, levels) in SHAPES {
        for (class, degree) in [(0, 2), (2, 4), (3, 3)] {
            let smooth = plan([columns, rows, levels, degree, degree, class]);
            let (corners_across, corners_up) = (all_corners(columns), all_corners(rows));
            let cornered = Plan { corners_across, corners_up, ..smooth };
            // On the line of level 0 before the second half.
            let refined = [smooth, cornered].map(|plan| towards(plan, (0.5, 0.5), &mut random));
            assert!(refined[1] <= refined[0], "{cornered:?}: {refined:?}");
            assert!(class != 0 || refined[1] == levels as usize - 1);
            let fewer = columns.max(rows) > 4 && class != 0;
            assert!(!fewer || refined[1] < refined[0], "{cornered:?}: {refined:?}");
        }
    }
}

/// Random runs where a class of 4 to 7 still asks for neighbours: a cell of level j has them on
/// level j-m+1, and cells up to level L-2 are refined.
#[test]
fn runs_of_high_classes() {
    let mut random = Random::new(403);
    let mut beyond_marks = [0; 9];
    for (class, numbers) in [
        (2, [16, 16, 4]),
        (3, [8, 8, 5]),
        (4, [16, 1, 6]),
        (5, [1, 16, 6]),
        (5, [4, 4, 6]),
        (5, [1, 1, 8]),
        (6, [4, 1, 7]),
        (6, [2, 2, 7]),
        (6, [1, 1, 8]),
        (7, [1, 1, 8]),
        (8, [1, 1, 8]),
    ] {
        let [columns, rows, levels] = numbers;
        let (p, q) = (random.below(4) as u32 + 1, random.below(4) as u32 + 1);
        let (across, up) =
            (random_corners(&mut random, columns), random_corners(&mut random, rows));
        let first = Tables::opened(plan([columns, rows, levels, p, q, class, across, up]));
        let mut tables = first.clone();
        let mut log = Log::new();
        for turn in 0..24 {
            let kind = if turn < 8 { RefineCells } else { random.pick(&Kind::ALL) };
            let markable = tables.markable(kind);
            // The last ones are the finest, which are those that ask for neighbours.
            let finest = &markable[markable.len().saturating_sub(12)..];
            let marks: Vec<u32> = match finest {
                [] => vec![],
                _ => (0..random.below(3) + 1).map(|_| random.pick(finest)).collect(),
            };
            let outcome = tables.call_with_room(kind, &marks);
            if kind == RefineCells && outcome.cells.iter().any(|cell| !marks.contains(cell)) {
                beyond_marks[class as usize] += 1;
            }
            log.push((kind, outcome));
        }
        undo_by_cells(&mut tables, &log, 2, &mut random);
        assert_eq!(tables, first);
    }
    for class in 2..=6 {
        assert!(beyond_marks[class] > 0, "class {class} asked for nothing: {beyond_marks:?}");
    }
    // Class 7 needs 8 levels, and then the one cell of level 0 is refined anyway.
    assert_eq!(beyond_marks[7..], [0, 0]);
}
