//! The outlines of changed cells.

use super::*;

/// An outline that was read: its cell, how far it is from the cell's edges, and how thick.
struct Drawn {
    cell: Cell,
    inset: f64,
    thickness: f64,
}

/// The outlines of a kind. A cell is known by its middle, which no other has.
fn drawn(mesh: &Mesh, read: &Read, kind: &str) -> Vec<Drawn> {
    let Some(group) = read.root.find(kind) else { return vec![] };
    let middle = |&cell: &Cell| {
        let (x, y, side) = read.place(mesh, cell);
        (x + side / 2.0, y + side / 2.0)
    };
    let outline = |rect: &Node| {
        let (width, thickness) = (rect.number("width"), rect.number("stroke-width"));
        assert_eq!((rect.attribute("fill"), rect.number("height")), (Some("none"), width));
        let (x, y) = (rect.number("x") + width / 2.0, rect.number("y") + width / 2.0);
        let is_there = |cell: &Cell| {
            let (across, down) = middle(cell);
            (across - x).abs() + (down - y).abs() < 0.01
        };
        let cell = (0..mesh.cells.len() as u32).map(Cell).find(is_there).unwrap();
        let inset = (read.place(mesh, cell).2 - width - thickness) / 2.0;
        Drawn { cell, inset, thickness }
    };
    group.children("rect").map(outline).collect()
}

fn cells(outlines: &[Drawn]) -> Vec<Cell> {
    outlines.iter().map(|outline| outline.cell).collect()
}

fn changed<'a>(split: &'a [Cell], joined: &'a [Cell]) -> Options<'a> {
    Options { changed: Some(Changes { split, joined }), ..PLAIN }
}

#[test]
fn outlines_are_around_the_changed_cells() {
    let (mut mesh, lists) = worked();
    let none: &[Cell] = &[];
    let expect = |mesh: &Mesh, split: &[Cell], joined: &[Cell]| {
        let read = read(mesh, &changed(split, joined));
        assert_eq!(cells(&drawn(mesh, &read, "split")), split);
        assert_eq!(cells(&drawn(mesh, &read, "joined")), joined);
        let dashed = |rect: &Node| rect.attribute("stroke-dasharray").is_some();
        let all = |kind, dashes| {
            read.root.find(kind).is_none_or(|g| g.children("rect").all(|r| dashed(r) == dashes))
        };
        assert!(all("split", false) && all("joined", true));
        let legend = texts(&read.root, "legend");
        let says = |text: &str| legend.iter().any(|said| said == text);
        assert_eq!(says("2 cells just split"), !split.is_empty());
        assert_eq!(says("2 cells just joined"), !joined.is_empty());
        let nothing = split.is_empty() && joined.is_empty();
        assert_eq!(says("The last change split and joined nothing."), nothing);
    };
    expect(&mesh, &lists.cells, none);
    expect(&mesh, none, none);
    mesh.coarsen_cells(&lists.cells).unwrap();
    expect(&mesh, none, &lists.cells);
    expect(&mesh, &[Cell(0), Cell(9)], &[Cell(2), Cell(62)]);
    let plain = read(&mesh, &PLAIN);
    assert_eq!(cells(&drawn(&mesh, &plain, "split")), none);
    assert!(!texts(&plain.root, "legend").iter().any(|text| text.contains("last change")));
}

/// The cells that are refined.
fn refined(mesh: &Mesh) -> Vec<Cell> {
    (0..mesh.cells.len() as u32).map(Cell).filter(|cell| mesh.cells[cell.0 as usize] == 2).collect()
}

/// Whether a cell lies in another one.
fn lies_in(mesh: &Mesh, inner: Cell, outer: Cell) -> bool {
    let [inner, outer] = [inner, outer].map(|cell| mesh.plan.place(cell).unwrap());
    let Some(by) = inner.level.checked_sub(outer.level).filter(|&by| by > 0) else { return false };
    (inner.row >> by, inner.column >> by) == (outer.row, outer.column)
}

#[test]
fn outlines_in_each_other_are_told_apart() {
    for mesh in &meshes() {
        let split = refined(mesh);
        let read = read(mesh, &changed(&split, &[]));
        let outlines = drawn(mesh, &read, "split");
        for Drawn { cell, inset, thickness } in &outlines {
            let greatest = read.place(mesh, *cell).2 / 4.0;
            assert!((-0.001..greatest + 0.001).contains(inset) && *thickness > 0.0);
            for outer in outlines.iter().filter(|outer| lies_in(mesh, *cell, outer.cell)) {
                let has_room = *inset < greatest - 0.001;
                assert!(!has_room || *inset > outer.inset + outer.thickness - 0.001);
            }
        }
    }
}

/// The line of an outline that was read: its outer edge and how thick it is.
pub struct Line {
    pub colour: String,
    pub left: f64,
    pub top: f64,
    pub right: f64,
    pub bottom: f64,
    pub thickness: f64,
}

/// The lines of a kind.
pub fn lines(read: &Read, kind: &str) -> Vec<Line> {
    let line = |rect: &Node| {
        let [x, y, width, height, thickness] =
            ["x", "y", "width", "height", "stroke-width"].map(|name| rect.number(name));
        let half = thickness / 2.0;
        let colour = rect.attribute("stroke").unwrap().to_string();
        let (left, top) = (x - half, y - half);
        let (right, bottom) = (x + width + half, y + height + half);
        assert_eq!(rect.attribute("fill"), Some("none"));
        Line { colour, left, top, right, bottom, thickness }
    };
    read.root.find(kind).map_or(vec![], |group| group.children("rect").map(line).collect())
}

/// Whether a line meets a rectangle: left, top, right, bottom.
pub fn meets(line: &Line, [left, top, right, bottom]: [f64; 4]) -> bool {
    let within = |by: f64| {
        line.left + by < left
            && line.top + by < top
            && right < line.right - by
            && bottom < line.bottom - by
    };
    let outside = right < line.left || bottom < line.top || line.right < left || line.bottom < top;
    !within(line.thickness) && !outside
}

#[test]
fn no_outline_covers_a_number() {
    for mesh in &meshes() {
        let listed = refined(mesh);
        let first = Mesh::open(mesh.plan).unwrap();
        for (mesh, kind) in [(mesh, "split"), (&first, "joined")] {
            for functions in [false, true] {
                let (split, joined): (&[Cell], &[Cell]) =
                    if kind == "split" { (&listed, &[]) } else { (&[], &listed) };
                let options = Options { functions, ..changed(split, joined) };
                let read = read(mesh, &options);
                let lines = lines(&read, kind);
                for number in number_boxes(&read.root).into_values() {
                    assert!(!lines.iter().any(|line| meets(line, number)));
                }
            }
        }
    }
}

#[test]
fn a_number_is_not_in_the_outline_of_a_smaller_cell() {
    let (mesh, _) = worked();
    let first = Mesh::open(mesh.plan).unwrap();
    for functions in [false, true] {
        let joined = refined(&mesh);
        assert_eq!(joined, [Cell(0), Cell(1), Cell(4)]);
        let changed = Some(Changes { split: &[], joined: &joined });
        let read = read(&first, &Options { functions, changed, ..PLAIN });
        // Cell 4 is the lower right quarter of cell 0.
        let (left, top, _) = read.place(&first, Cell(4));
        let [_, _, right, bottom] = number_boxes(&read.root)[&0];
        assert!(right < left || bottom < top);
    }
}

#[test]
fn outlines_are_above_corners_and_below_dots() {
    let mesh = Mesh::open(plan([2, 1, 2, 1, 1, 0, 2, 0])).unwrap();
    let changed = Some(Changes { split: &[Cell(0)], joined: &[Cell(1)] });
    let reach = Reach::of(&mesh, Cell(0));
    let root = read(&mesh, &Options { functions: true, changed, reach }).root;
    let order: Vec<&str> = root.children.iter().filter_map(|child| child.attribute("id")).collect();
    assert_eq!(order[1..3], ["cells", "corners"]);
    assert_eq!(order[3..8], ["ground", "joined", "split", "reach-ground", "reach"]);
    assert_eq!(order[8..], ["functions", "numbers", "legend"]);
}
