//! The outlines of what a split can reach, and what the legend says of it.

use super::outlines::{lines, meets, Line};
use super::*;
use wallmirror::Window;

fn reaching(mesh: &Mesh, cell: u32) -> Options<'static> {
    let reach = Some(Reach::of(mesh, Cell(cell)).unwrap());
    Options { reach, ..PLAIN }
}

/// A mesh of a plan in which these cells were marked, one after the other.
fn marked(numbers: [u32; 8], cells: &[u32]) -> Mesh {
    let mut mesh = Mesh::open(plan(numbers)).unwrap();
    cells.iter().for_each(|&cell| drop(mesh.refine_cells(&[Cell(cell)]).unwrap()));
    mesh
}

/// The cells of a level that lie in an outline.
fn window_of(mesh: &Mesh, read: &Read, line: &Line, level: u32) -> Window {
    let side = read.side(mesh, level);
    let whole = |length: f64| (length / side).round() as u32;
    Window {
        level,
        rows: whole(read.bottom - line.bottom)..whole(read.bottom - line.top),
        columns: whole(line.left - read.left)..whole(line.right - read.left),
    }
}

/// The level of a colour, which is that of its dots.
fn level_of(line: &Line) -> u32 {
    dots::COLOURS.iter().position(|colour| *colour == line.colour).unwrap() as u32
}

/// What the outlines hold, the finest level first.
fn windows(mesh: &Mesh, read: &Read) -> Vec<Window> {
    let lines = lines(read, "reach");
    lines.iter().rev().map(|line| window_of(mesh, read, line, level_of(line))).collect()
}

/// What the legend says besides the levels.
fn said(mesh: &Mesh, options: &Options) -> Vec<String> {
    texts(&read(mesh, options).root, "legend")[mesh.plan.levels as usize..].to_vec()
}

/// Req 09's wall: cell 15 is column 7 of level 1, which stands on column 3 of level 0.
#[test]
fn the_reach_of_a_cell_in_a_row() {
    let mesh = marked([8, 1, 5, 1, 1, 2, 0, 0], &[3]);
    let options = reaching(&mesh, 15);
    let own = Window { level: 1, rows: 0..1, columns: 7..8 };
    let coarser = Window { level: 0, rows: 0..1, columns: 2..5 };
    assert_eq!(windows(&mesh, &read(&mesh, &options)), [own, coarser]);
    assert_eq!(
        said(&mesh, &options),
        [
            "cell 15, of level 1",
            "up to 3 cells of level 0",
            "A split of cell 15 splits at most 10 cells, itself included.",
            "Each lies in the outline of its level; the outlines hold 4 cells in all.",
        ]
    );
}

/// Cell 508 is row 8, column 12 of level 2. It stands on row 4, column 6 of level 1 and on row 2,
/// column 3 of level 0, and no window meets the wall's edge.
#[test]
fn each_level_has_an_outline() {
    let mesh = marked([8, 6, 4, 1, 1, 2, 0, 0], &[19, 118]);
    let options = reaching(&mesh, 508);
    let own = Window { level: 2, rows: 8..9, columns: 12..13 };
    let next = Window { level: 1, rows: 3..6, columns: 5..8 };
    let last = Window { level: 0, rows: 1..4, columns: 2..5 };
    assert_eq!(windows(&mesh, &read(&mesh, &options)), [own, next, last]);
    assert_eq!(
        said(&mesh, &options),
        [
            "cell 508, of level 2",
            "up to 9 cells of level 1",
            "up to 9 cells of level 0",
            "A split of cell 508 splits at most 19 cells, itself included.",
            "Each lies in the outline of its level.",
        ]
    );
}

/// In class 3 a split reaches every other level, and in class 0 none.
#[test]
fn levels_are_those_of_the_class() {
    for (class, level, levels, most) in [
        (3, 0, &[0][..], "this cell alone"),
        (3, 1, &[1], "this cell alone"),
        (3, 2, &[2, 0], "at most 10 cells, itself included"),
        (3, 3, &[3, 1], "at most 10 cells, itself included"),
        (2, 3, &[3, 2, 1, 0], "at most 28 cells, itself included"),
        (0, 0, &[0], "this cell alone"),
        (0, 3, &[3], "this cell alone"),
    ] {
        let mesh = Mesh::open(plan([5, 5, 5, 1, 1, class, 0, 0])).unwrap();
        let middle = (5 << level) / 2;
        let cell = mesh.plan.cell_at(Place { level, row: middle, column: middle }).unwrap();
        let options = reaching(&mesh, cell.0);
        let drawn = windows(&mesh, &read(&mesh, &options));
        assert_eq!(drawn.iter().map(|window| window.level).collect::<Vec<u32>>(), levels);
        let said = said(&mesh, &options).join(" ");
        assert!(said.contains(&format!(" splits {most}.")), "{said}");
        assert_eq!(said.contains("Each lies in the outline of its level"), levels.len() > 1);
    }
}

/// Cells 0, 1 and 4 are split, and 7 is absent. 4 and 7 are in columns 1 and 4 of six on level 1, so
/// the windows on level 0 are around columns 0 and 2 of three.
#[test]
fn a_split_that_is_refused_is_not_promised() {
    let (mesh, _) = worked();
    let alone = said(&mesh, &reaching(&mesh, 0));
    let refused = "A split is refused here: cell 0 is split already.";
    let once = "Where cell 0 is active, a split splits this cell alone.";
    assert_eq!(alone, ["cell 0, of level 0", refused, once]);
    for (cell, state) in [(4, "is split already"), (7, "is absent")] {
        let refused = format!("A split is refused here: cell {cell} {state}.");
        let once = "is active, a split splits at most 10 cells, itself included.";
        let edges = "Each lies in the outline of its level; the outlines hold 3 cells in all.";
        let said = said(&mesh, &reaching(&mesh, cell));
        assert_eq!(said[..2], [&format!("cell {cell}, of level 1"), "up to 2 cells of level 0"]);
        assert_eq!(said[2..], [refused, format!("Where cell {cell} {once}"), edges.into()]);
    }
}

/// No cell of the last level is ever split. Cell 17 is active, and 15 is absent.
#[test]
fn nothing_is_reached_from_the_last_level() {
    let (mesh, _) = worked();
    for (cell, column, state) in [(17, 2, "is of the last level"), (15, 0, "is absent")] {
        let options = reaching(&mesh, cell);
        let own = Window { level: 2, rows: 0..1, columns: column..column + 1 };
        assert_eq!(windows(&mesh, &read(&mesh, &options)), [own]);
        let refused = format!("A split is refused here: cell {cell} {state}.");
        assert_eq!(said(&mesh, &options), [format!("cell {cell}, of level 2"), refused]);
    }
}

#[test]
fn the_plan_has_no_such_cell() {
    for mesh in &meshes() {
        let cells = mesh.cells.len() as u32;
        assert!(Reach::of(mesh, Cell(cells - 1)).is_some());
        assert!([cells, u32::MAX].iter().all(|&cell| Reach::of(mesh, Cell(cell)).is_none()));
    }
}

/// A few cells of a mesh, of each level the first, the last and some between.
fn some_cells(mesh: &Mesh) -> Vec<u32> {
    let cells = (0..mesh.plan.levels).flat_map(|level| {
        let cells = mesh.plan.cells_on(level).unwrap();
        let step = (cells.len() / 3).max(1);
        cells.clone().step_by(step).chain([cells.end - 1])
    });
    cells.collect()
}

#[test]
fn outlines_are_the_windows() {
    for mesh in &meshes() {
        for cell in some_cells(mesh) {
            let read = read(mesh, &reaching(mesh, cell));
            let mut expected = mesh.plan.reach(Cell(cell)).unwrap();
            if expected[0].level + 1 == mesh.plan.levels {
                expected.truncate(1);
            }
            assert_eq!(windows(mesh, &read), expected);
        }
    }
}

/// What is split lies in the outlines, and is not more than is said.
#[test]
fn what_is_said_holds_of_each_split() {
    let mut splits = 0;
    for mesh in &meshes() {
        for cell in active_cells(mesh).into_iter().step_by(3) {
            let mut after = mesh.clone();
            let Ok(lists) = after.refine_cells(&[Cell(cell)]) else { continue };
            splits += 1;
            let options = reaching(mesh, cell);
            let outlines = windows(mesh, &read(mesh, &options));
            let inside = |cell: &Cell| {
                let place = mesh.plan.place(*cell).unwrap();
                outlines.iter().any(|window| window.contains(place))
            };
            assert!(lists.cells.iter().all(inside));
            let said = said(mesh, &options).join(" ");
            let begin = format!("A split of cell {cell} splits ");
            let (_, said) = said.split_once(&begin).unwrap();
            let most = match said.strip_prefix("at most ") {
                None => said.starts_with("this cell alone.").then_some(1),
                Some(rest) => rest.split(' ').next().unwrap().parse().ok(),
            };
            assert!(lists.cells.len() <= most.unwrap());
        }
    }
    assert!(splits > 100, "{splits}");
}

#[test]
fn no_outline_of_a_reach_covers_a_number() {
    for mesh in &meshes() {
        for cell in some_cells(mesh) {
            for functions in [false, true] {
                let read = read(mesh, &Options { functions, ..reaching(mesh, cell) });
                let lines = lines(&read, "reach");
                for number in number_boxes(&read.root).into_values() {
                    assert!(!lines.iter().any(|line| meets(line, number)));
                }
            }
        }
    }
}

/// The sides of a line: for each whether it is upright, where it is across itself, and from where to
/// where along itself.
fn sides(line: &Line) -> [(bool, [f64; 2], [f64; 2]); 4] {
    let Line { left, top, right, bottom, thickness, .. } = *line;
    [
        (true, [left, left + thickness], [top, bottom]),
        (true, [right - thickness, right], [top, bottom]),
        (false, [top, top + thickness], [left, right]),
        (false, [bottom - thickness, bottom], [left, right]),
    ]
}

/// Whether two lines lie on each other, and do not only cross.
fn covers(one: &Line, other: &Line) -> bool {
    let meet = |a: [f64; 2], b: [f64; 2]| a[0] + 0.001 < b[1] && b[0] + 0.001 < a[1];
    sides(one).iter().any(|(upright, across, along)| {
        sides(other)
            .iter()
            .any(|side| side.0 == *upright && meet(side.1, *across) && meet(side.2, *along))
    })
}

/// Also where they share an edge, and with those of the last change.
#[test]
fn no_outline_lies_on_another() {
    for (earlier, last, cell) in [
        (&[19][..], 118, 508),
        (&[19], 118, 135),
        (&[0], 48, 52),
        (&[], 47, 239),
        (&[], 19, 19),
        (&[40], 224, 1004),
    ] {
        let mut mesh = marked([8, 6, 4, 1, 1, 2, 0, 0], earlier);
        let split = mesh.refine_cells(&[Cell(last)]).unwrap().cells;
        let changed = Some(Changes { split: &split, joined: &[] });
        let read = read(&mesh, &Options { changed, ..reaching(&mesh, cell) });
        let lines: Vec<Line> =
            ["split", "reach"].iter().flat_map(|kind| lines(&read, kind)).collect();
        assert!(lines.len() > split.len());
        for (i, line) in lines.iter().enumerate() {
            assert!(lines[..i].iter().all(|other| !covers(line, other)), "{cell}");
        }
    }
}

#[test]
fn corners_change_no_reach() {
    let [without, with] =
        [[0, 0], [4, 2]].map(|[across, up]| marked([8, 6, 4, 2, 1, 3, across, up], &[19]));
    for cell in some_cells(&with) {
        let [plain, options] = [&without, &with].map(|mesh| reaching(mesh, cell));
        let drawn = windows(&with, &read(&with, &options));
        assert_eq!(drawn, windows(&without, &read(&without, &plain)));
        let mut expected = said(&without, &plain);
        expected.insert(drawn.len(), "corner".into());
        assert_eq!(said(&with, &options), expected);
    }
}

/// Cell 120 is row 4, column 8 of level 1, so the window on level 0 begins with column 3.
#[test]
fn a_corner_is_seen_beside_a_reach() {
    let mesh = marked([8, 6, 3, 1, 1, 2, 1 << 3, 0], &[20]);
    let read = read(&mesh, &reaching(&mesh, 120));
    let corner = read.left + 3.0 * read.side(&mesh, 0);
    let from_corner = lines(&read, "reach")[0].left - corner;
    assert_eq!(from_corner, CORNER_LINE_WIDTH / 2.0);
}

#[test]
fn what_is_said_of_a_reach_has_room() {
    // A letter of the legend is about so wide, in DejaVu Sans.
    const LETTER: f64 = 5.7;
    for mesh in meshes().iter().chain([&Mesh::open(plan([1, 1, 8, 4, 4, 2, 0, 0])).unwrap()]) {
        for cell in some_cells(mesh) {
            let options = reaching(mesh, cell);
            let room = read(mesh, &options).root.number("width") - 2.0 * MARGIN;
            let said = said(mesh, &options);
            assert!(
                said.iter().all(|said| LETTER * said.chars().count() as f64 <= room),
                "{said:?}"
            );
        }
    }
}

#[test]
fn a_reach_is_drawn_only_where_it_is_asked_for() {
    for mesh in &meshes() {
        let root = read(mesh, &PLAIN).root;
        assert!(root.find("reach").is_none() && root.find("reach-ground").is_none());
        let legend = texts(&root, "legend");
        assert!(!legend.iter().any(|said| said.contains("up to") || said.contains("split")));
    }
}
