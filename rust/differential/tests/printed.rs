//! Refining as document 000 prints it, algorithms 1 to 6 on the sets of each level, run beside the
//! library: the mesh is settled first, and the space is refined from it.
//!
//! The paper's refinement knows no class. In another class than 0 the cells that the library says it
//! refined, the marked ones and what the class adds, are marked for it.

use differential::{has_corners, plan, random_plan, random_refined, Kind, Random, Tables};
use model::{Cell, Function, Plan};
use std::collections::BTreeSet;

/// Sets of active and of deactivated things, by level: E^A and E^D, or F^A and F^D.
struct Levels<T> {
    active: Vec<BTreeSet<T>>,
    deactivated: Vec<BTreeSet<T>>,
}

type Mesh = Levels<Cell>;
type Space = Levels<Function>;

/// What is marked, by level.
enum Marked {
    Cells(Vec<BTreeSet<Cell>>),
    Functions(Vec<BTreeSet<Function>>),
}

fn by_level<T: Ord>(
    plan: Plan,
    things: impl Iterator<Item = T>,
    level: impl Fn(&T) -> u32,
) -> Vec<BTreeSet<T>> {
    let mut sets: Vec<BTreeSet<T>> = (0..plan.levels).map(|_| BTreeSet::new()).collect();
    things.for_each(|thing| {
        sets[level(&thing) as usize].insert(thing);
    });
    sets
}

fn cells_with(tables: &Tables, byte: u8) -> Vec<BTreeSet<Cell>> {
    let plan = tables.plan;
    let with = plan.cells().filter(|&cell| tables.cells[plan.cell_number(cell)] == byte);
    by_level(plan, with, |cell| cell.level)
}

fn functions_with(tables: &Tables, byte: u8) -> Vec<BTreeSet<Function>> {
    let plan = tables.plan;
    let with = plan.functions().filter(|&f| tables.functions[plan.function_number(f)] == byte);
    by_level(plan, with, |f| f.level)
}

fn structures(tables: &Tables) -> (Mesh, Space) {
    (
        Mesh {
            active: cells_with(tables, model::ACTIVE),
            deactivated: cells_with(tables, model::REFINED),
        },
        Space {
            active: functions_with(tables, model::ACTIVE),
            deactivated: functions_with(tables, model::DEACTIVATED),
        },
    )
}

fn get_cells(plan: Plan, function: Function) -> BTreeSet<Cell> {
    plan.support(function).collect()
}

/// The functions of a level that do not vanish on some of its cells.
fn get_basis_functions(plan: Plan, level: usize, cells: &BTreeSet<Cell>) -> BTreeSet<Function> {
    plan.functions()
        .filter(|f| f.level as usize == level && plan.support(*f).any(|cell| cells.contains(&cell)))
        .collect()
}

/// The functions of a level whose support shares a cell with that of some of these.
fn get_neighbors(plan: Plan, level: usize, of: &BTreeSet<Function>) -> BTreeSet<Function> {
    let cells = of.iter().flat_map(|&function| plan.support(function)).collect();
    get_basis_functions(plan, level, &cells)
}

/// Algorithm 2.
fn compute_cells_to_refine(
    plan: Plan,
    mesh: &Mesh,
    marked: &[BTreeSet<Function>],
) -> Vec<BTreeSet<Cell>> {
    let mut me = Vec::new();
    for (level, functions) in marked.iter().enumerate() {
        let cells: BTreeSet<Cell> =
            functions.iter().flat_map(|&function| plan.support(function)).collect();
        me.push(&cells & &mesh.active[level]);
    }
    me
}

/// Algorithm 3; the mesh has all levels of the plan from the start. Answers NE.
fn refine_hierarchical_mesh(
    plan: Plan,
    mesh: &mut Mesh,
    me: &[BTreeSet<Cell>],
) -> Vec<BTreeSet<Cell>> {
    let mut ne = vec![BTreeSet::new()];
    for level in 0..plan.levels as usize - 1 {
        mesh.active[level] = &mesh.active[level] - &me[level];
        mesh.deactivated[level] = &mesh.deactivated[level] | &me[level];
        ne.push(me[level].iter().flat_map(|&cell| plan.children(cell)).collect());
        mesh.active[level + 1] = &mesh.active[level + 1] | &ne[level + 1];
    }
    ne
}

/// Lines 4 to 8 of algorithms 4 and 5: the functions with no active cell in their support.
fn without_active_cells(
    plan: Plan,
    mesh: &Mesh,
    level: usize,
    functions: BTreeSet<Function>,
) -> BTreeSet<Function> {
    functions.into_iter().filter(|&f| get_cells(plan, f).is_disjoint(&mesh.active[level])).collect()
}

/// Algorithm 4.
fn functions_to_deactivate_from_cells(
    plan: Plan,
    mesh: &Mesh,
    space: &Space,
    marked: &[BTreeSet<Cell>],
) -> Vec<BTreeSet<Function>> {
    let mut mf = Vec::new();
    for (level, cells) in marked.iter().enumerate() {
        let over = &get_basis_functions(plan, level, cells) & &space.active[level];
        mf.push(without_active_cells(plan, mesh, level, over));
    }
    mf
}

/// Algorithm 5.
fn functions_to_deactivate_from_neighbors(
    plan: Plan,
    mesh: &Mesh,
    space: &Space,
    marked: &[BTreeSet<Function>],
) -> Vec<BTreeSet<Function>> {
    let mut mf = Vec::new();
    for (level, functions) in marked.iter().enumerate() {
        let near = &get_neighbors(plan, level, functions) & &space.active[level];
        let more = without_active_cells(plan, mesh, level, &near - functions);
        mf.push(&more | functions);
    }
    mf
}

/// Algorithm 6; the space has all levels of the plan from the start.
fn refine_hierarchical_space(
    plan: Plan,
    mesh: &Mesh,
    space: &mut Space,
    mf: &[BTreeSet<Function>],
    ne: &[BTreeSet<Cell>],
) {
    for (level, functions) in mf.iter().enumerate().take(plan.levels as usize - 1) {
        space.active[level] = &space.active[level] - functions;
        space.deactivated[level] = &space.deactivated[level] | functions;
        let next = level + 1;
        let mut candidates = &get_basis_functions(plan, next, &ne[next]) - &space.active[next];
        let present = &mesh.active[next] | &mesh.deactivated[next];
        candidates.retain(|&function| get_cells(plan, function).is_subset(&present));
        space.active[next] = &space.active[next] | &candidates;
    }
}

/// Algorithm 1. Answers the cells and the functions that it deactivated.
fn refine(
    plan: Plan,
    mesh: &mut Mesh,
    space: &mut Space,
    marked: &Marked,
) -> (Vec<BTreeSet<Cell>>, Vec<BTreeSet<Function>>) {
    let me = match marked {
        Marked::Cells(cells) => cells.clone(),
        Marked::Functions(functions) => compute_cells_to_refine(plan, mesh, functions),
    };
    let ne = refine_hierarchical_mesh(plan, mesh, &me);
    let mf = match marked {
        Marked::Cells(cells) => functions_to_deactivate_from_cells(plan, mesh, space, cells),
        Marked::Functions(functions) => {
            functions_to_deactivate_from_neighbors(plan, mesh, space, functions)
        }
    };
    refine_hierarchical_space(plan, mesh, space, &mf, &ne);
    (me, mf)
}

fn marked_cells(plan: Plan, numbers: &[u32]) -> Marked {
    let cells = numbers.iter().map(|&number| plan.cell_at(number as usize));
    Marked::Cells(by_level(plan, cells, |cell| cell.level))
}

fn marked_functions(plan: Plan, numbers: &[u32]) -> Marked {
    let functions = numbers.iter().map(|&number| plan.function_at(number as usize));
    Marked::Functions(by_level(plan, functions, |function| function.level))
}

/// Refines the tables by the library and their sets as printed, and compares tables and lists.
fn compare(tables: &mut Tables, kind: Kind, marks: &[u32]) -> (usize, usize) {
    let plan = tables.plan;
    let (mut mesh, mut space) = structures(tables);
    let outcome = tables.call_with_room(kind, marks);
    assert_eq!(outcome.number, 0);
    let marked = match kind {
        Kind::RefineCells if plan.class == 0 => marked_cells(plan, marks),
        Kind::RefineFunctions if plan.class == 0 => marked_functions(plan, marks),
        _ => marked_cells(plan, &outcome.cells),
    };
    let (me, mf) = refine(plan, &mut mesh, &mut space, &marked);
    let refined: Vec<u32> =
        me.iter().flatten().map(|&cell| plan.cell_number(cell) as u32).collect();
    let deactivated: Vec<u32> =
        mf.iter().flatten().map(|&function| plan.function_number(function) as u32).collect();
    assert_eq!(sorted(refined), outcome.cells, "{plan:?}, {}", kind.name());
    assert_eq!(sorted(deactivated), outcome.functions, "{plan:?}, {}", kind.name());
    let (left_mesh, left_space) = structures(tables);
    assert_eq!(mesh.active, left_mesh.active, "{plan:?}, {}", kind.name());
    assert_eq!(mesh.deactivated, left_mesh.deactivated, "{plan:?}, {}", kind.name());
    assert_eq!(space.active, left_space.active, "{plan:?}, {}", kind.name());
    assert_eq!(space.deactivated, left_space.deactivated, "{plan:?}, {}", kind.name());
    (outcome.cells.len(), outcome.functions.len())
}

fn sorted(mut numbers: Vec<u32>) -> Vec<u32> {
    numbers.sort_unstable();
    numbers
}

/// A random plan of at least three levels.
fn deep_plan(random: &mut Random, degrees: (u32, u32), class: u32, most: usize) -> Plan {
    loop {
        let plan = random_plan(random, degrees, class, most);
        if plan.levels >= 3 {
            return plan;
        }
    }
}

/// Random refinements of one kind, four in a row on each mesh.
fn compare_randomly(kind: Kind, classes: &[u32], seed: u64) {
    let mut random = Random::new(seed);
    let (mut cells, mut functions, mut cornered) = (0, 0, 0);
    for &class in classes {
        for degrees in [(1, 1), (2, 1), (1, 3), (2, 2), (4, 3)] {
            for most in [40, 120, 250, 500, 1000, 1000].repeat(4) {
                let plan = deep_plan(&mut random, degrees, class, most);
                cornered += u32::from(has_corners(plan));
                let refined = if random.once_in(2) {
                    random_refined(&mut random, plan)
                } else {
                    BTreeSet::new()
                };
                let mut tables = Tables::with_refined(plan, &refined);
                for often in [9, 4, 2, 2] {
                    let markable = tables.markable(kind).into_iter();
                    let marks: Vec<u32> = markable.filter(|_| random.once_in(often)).collect();
                    let (c, f) = compare(&mut tables, kind, &marks);
                    cells += c;
                    functions += f;
                }
            }
        }
    }
    assert!(cells > 500 && functions > 100, "{cells} cells and {functions} functions");
    assert!(cornered > 10, "{cornered}");
}

#[test]
fn refining_cells_is_algorithm_1() {
    compare_randomly(Kind::RefineCells, &[0], 40);
}

#[test]
fn refining_functions_is_algorithm_1() {
    compare_randomly(Kind::RefineFunctions, &[0], 41);
}

#[test]
fn in_another_class_it_is_with_the_cells_that_the_class_adds() {
    compare_randomly(Kind::RefineCells, &[2, 3], 42);
    compare_randomly(Kind::RefineFunctions, &[2, 4], 43);
}

#[test]
fn worked_walls() {
    // P1 to P3 of document 01: the functions that algorithm 4 or 5 finds.
    for (kind, mark, counts) in [
        (Kind::RefineCells, 0, (1, 2)),
        (Kind::RefineCells, 1, (1, 0)),
        (Kind::RefineFunctions, 1, (2, 4)),
    ] {
        let mut tables = Tables::with_refined(plan([3, 1, 3, 1, 1, 0]), &BTreeSet::new());
        assert_eq!(compare(&mut tables, kind, &[mark]), counts);
    }
    // The same with degree 2 across and a corner before column 1, where functions 0 and 1 of a row
    // cover cell 0 alone, function 2 cells 0 and 1.
    for (kind, mark, counts) in [
        (Kind::RefineCells, 0, (1, 4)),
        (Kind::RefineCells, 1, (1, 0)),
        (Kind::RefineFunctions, 1, (1, 4)),
        (Kind::RefineFunctions, 2, (2, 6)),
    ] {
        let mut tables = Tables::with_refined(plan([3, 1, 3, 2, 1, 0, 2, 0]), &BTreeSet::new());
        assert_eq!(compare(&mut tables, kind, &[mark]), counts);
    }
}
