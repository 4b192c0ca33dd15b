mod outlines;
mod parser;
mod reach;

use super::numbers::{width_of, DIGIT_HEIGHT, SMALLEST_FONT};
use super::samples::{finest, meshes, plan, worked};
use super::*;
use parser::{parse, Node};
use std::collections::{BTreeMap, BTreeSet, HashSet};
use wallmirror::Function;

const PLAIN: Options = Options { functions: false, changed: None, reach: None };
const WITH_FUNCTIONS: Options = Options { functions: true, ..PLAIN };

/// A picture that was read again: where its wall is.
struct Read {
    root: Node,
    left: f64,
    bottom: f64,
    /// The side of a last-level cell.
    unit: f64,
}

fn read(mesh: &Mesh, options: &Options) -> Read {
    let root = parse(&svg("cave.wall", mesh, options));
    let [left, bottom, unit] = {
        let rects: Vec<&Node> = groups(&root, "cells").flat_map(|g| g.children("rect")).collect();
        let least = |values: &mut dyn Iterator<Item = f64>| values.fold(f64::INFINITY, f64::min);
        let left = least(&mut rects.iter().map(|rect| rect.number("x")));
        let bottom = -least(&mut rects.iter().map(|r| -r.number("y") - r.number("height")));
        let width = rects.iter().map(|r| r.number("x") + r.number("width")).fold(0.0, f64::max);
        [left, bottom, (width - left) / f64::from(mesh.plan.columns << (mesh.plan.levels - 1))]
    };
    Read { root, left, bottom, unit }
}

/// The groups in a part of the picture, which has nothing else.
fn groups<'a>(root: &'a Node, id: &str) -> impl Iterator<Item = &'a Node> {
    let part = root.find(id).unwrap_or_else(|| panic!("no {id}"));
    assert!(part.children.iter().all(|child| child.name == "g"));
    part.children.iter()
}

impl Read {
    fn side(&self, mesh: &Mesh, level: u32) -> f64 {
        self.unit * f64::from(1 << (mesh.plan.levels - 1 - level))
    }

    /// Left, top and side of a cell.
    fn place(&self, mesh: &Mesh, cell: Cell) -> (f64, f64, f64) {
        let Place { level, row, column } = mesh.plan.place(cell).unwrap();
        let side = self.side(mesh, level);
        (self.left + f64::from(column) * side, self.bottom - f64::from(row + 1) * side, side)
    }
}

/// Which cell each child has around it, from the split cells and their children.
fn parents(mesh: &Mesh) -> BTreeMap<u32, u32> {
    let split = (0..mesh.cells.len() as u32).filter(|&cell| mesh.cells[cell as usize] == 2);
    let children = |parent: u32| {
        let Place { level, row, column } = mesh.plan.place(Cell(parent)).unwrap();
        [(0, 0), (0, 1), (1, 0), (1, 1)].map(|(up, across)| {
            let (row, column) = (2 * row + up, 2 * column + across);
            (mesh.plan.cell_at(Place { level: level + 1, row, column }).unwrap().0, parent)
        })
    };
    split.flat_map(children).collect()
}

/// What a cell's title says of the split cells that it lies in.
fn around(parents: &BTreeMap<u32, u32>, cell: u32) -> String {
    let next = |cell: &u32| parents.get(cell).copied();
    let numbers: Vec<String> =
        std::iter::successors(next(&cell), next).map(|parent| parent.to_string()).collect();
    match &numbers[..] {
        [] => String::new(),
        [number] => format!(", in split cell {number}"),
        _ => format!(", in split cells {}", numbers.join(", ")),
    }
}

fn active_cells(mesh: &Mesh) -> BTreeSet<u32> {
    (0..mesh.cells.len() as u32).filter(|&cell| mesh.cells[cell as usize] == 1).collect()
}

#[test]
fn each_active_cell_is_drawn_once_where_it_lies() {
    for mesh in meshes().iter().chain([&finest(plan([1, 1, 8, 1, 1, 0, 0, 0]))]) {
        let (read, parents) = (read(mesh, &PLAIN), parents(mesh));
        let mut drawn = BTreeSet::new();
        let mut area = 0.0;
        for group in groups(&read.root, "cells") {
            for rect in group.children("rect") {
                let n: u32 = rect.attribute("id").unwrap()[1..].parse().unwrap();
                let Place { level, row, column } = mesh.plan.place(Cell(n)).unwrap();
                let sides = [rect.number("width"), rect.number("height")];
                let (x, y, side) = read.place(mesh, Cell(n));
                assert_eq!((rect.number("x"), rect.number("y"), sides), (x, y, [side; 2]));
                assert_eq!(group.attribute("fill"), Some(FILLS[level as usize]));
                let title = format!("cell {n}, level {level}, row {row}, column {column}");
                assert_eq!(rect.title(), title + &around(&parents, n));
                assert!(drawn.insert(n));
                area += side * side;
            }
        }
        assert_eq!(drawn, active_cells(mesh));
        assert_eq!(area, f64::from(mesh.count().unwrap().area as u32) * read.unit * read.unit);
    }
}

#[test]
fn the_picture_has_room_for_all_and_is_readable() {
    for mesh in &meshes() {
        for options in [PLAIN, WITH_FUNCTIONS] {
            let Read { root, unit, left, bottom } = read(mesh, &options);
            let (width, height) = (root.number("width"), root.number("height"));
            assert_eq!(root.attribute("viewBox"), Some(&format!("0 0 {width} {height}")[..]));
            let ground = root.children("rect").next().unwrap();
            assert_eq!((ground.number("width"), ground.number("height")), (width, height));
            let count = mesh.plan.columns.max(mesh.plan.rows) << (mesh.plan.levels - 1);
            assert!((left + 320.0..=1000.0).contains(&width) && bottom < height);
            assert!(f64::from(count) * unit <= 960.0);
            let finest = unit * f64::from(1 << (mesh.plan.levels - 1 - finest_active_level(mesh)));
            // The next size, a quarter of a pixel more, would be too large.
            assert!(finest >= 30.0 || f64::from(count) * (unit + 0.25) > 960.0);
        }
    }
}

/// The box of a number, by its text and its font size: left, top, right, bottom.
fn number_boxes(root: &Node) -> BTreeMap<u32, [f64; 4]> {
    let mut boxes = BTreeMap::new();
    for group in groups(root, "numbers") {
        let size = group.number("font-size");
        assert!(size >= SMALLEST_FONT);
        for text in group.children("text") {
            let n: u32 = text.text.parse().unwrap();
            let (x, y, half) = (text.number("x"), text.number("y"), width_of(n, size) / 2.0);
            let before = boxes.insert(n, [x - half, y - DIGIT_HEIGHT * size, x + half, y]);
            assert!(before.is_none());
        }
    }
    boxes
}

#[test]
fn numbers_stand_in_their_cells() {
    for mesh in &meshes() {
        for options in [PLAIN, WITH_FUNCTIONS] {
            let read = read(mesh, &options);
            let boxes = number_boxes(&read.root);
            for (&n, [left, top, right, bottom]) in &boxes {
                let (x, y, side) = read.place(mesh, Cell(n));
                assert!(x < *left && y < *top && *right < x + side && *bottom < y + side);
            }
            // All that could be read are there, but for those that dots leave no place.
            let active = active_cells(mesh);
            let dots = if options.functions { dots_of(mesh, &read.root) } else { BTreeMap::new() };
            let expected = |&n: &u32| {
                let (x, y, side) = read.place(mesh, Cell(n));
                let meets = |dot: &Dot| dot.touches([x, y, x + side, y + side]);
                side >= if options.functions { 40.0 } else { 30.0 } && !dots.values().any(meets)
            };
            assert!(active.iter().filter(|n| expected(n)).all(|n| boxes.contains_key(n)));
            assert!(boxes.keys().all(|n| active.contains(n)));
        }
    }
}

/// A dot: its level, its middle and its radius with the line around it.
struct Dot {
    level: u32,
    x: f64,
    y: f64,
    radius: f64,
}

impl Dot {
    /// Whether it touches a rectangle: left, top, right, bottom.
    fn touches(&self, [left, top, right, bottom]: [f64; 4]) -> bool {
        let (x, y) = (self.x.clamp(left, right), self.y.clamp(top, bottom));
        (self.x - x).hypot(self.y - y) <= self.radius
    }
}

/// The dots of a mesh, by their functions. Each has the title and the look of its function.
fn dots_of(mesh: &Mesh, root: &Node) -> BTreeMap<u32, Dot> {
    let mut dots = BTreeMap::new();
    for group in groups(root, "functions") {
        let thickness = group.number("stroke-width");
        for circle in group.children("circle") {
            let n: u32 = circle.attribute("id").unwrap()[1..].parse().unwrap();
            let support = mesh.plan.support(Function(n)).unwrap();
            let (level, rows, columns) = (support.level, support.rows, support.columns);
            let (state, hollow) = match mesh.functions[n as usize] {
                1 => ("active", false),
                2 => ("deactivated", true),
                _ => panic!("function {n} is passive"),
            };
            let to = |range: std::ops::Range<u32>| format!("{} to {}", range.start, range.end - 1);
            let (rows, columns) = (to(rows), to(columns));
            let title =
                format!("function {n}, level {level}, rows {rows}, columns {columns}, {state}");
            assert_eq!(circle.title(), title);
            assert_eq!(group.attribute("fill") == Some("#ffffff"), hollow);
            let radius = circle.number("r") + thickness / 2.0;
            let (x, y) = (circle.number("cx"), circle.number("cy"));
            assert!(dots.insert(n, Dot { level, x, y, radius }).is_none());
        }
    }
    dots
}

#[test]
fn dots_are_the_active_and_the_deactivated_functions() {
    for mesh in &meshes() {
        let drawn: Vec<u32> =
            dots_of(mesh, &read(mesh, &WITH_FUNCTIONS).root).into_keys().collect();
        let numbers = 0..mesh.functions.len() as u32;
        let expected: Vec<u32> = numbers.filter(|&n| mesh.functions[n as usize] != 0).collect();
        assert_eq!(drawn, expected);
        assert!(read(mesh, &PLAIN).root.find("functions").is_none());
    }
}

#[test]
fn a_dot_is_in_the_middle_of_its_support() {
    for mesh in &meshes() {
        let read = read(mesh, &WITH_FUNCTIONS);
        for (n, dot) in dots_of(mesh, &read.root) {
            let support = mesh.plan.support(Function(n)).unwrap();
            let side = read.side(mesh, support.level);
            let middle =
                |range: &std::ops::Range<u32>| side * f64::from(range.start + range.end) / 2.0;
            let off = [
                dot.x - read.left - middle(&support.columns),
                read.bottom - dot.y - middle(&support.rows),
            ];
            // One over degree + 1 columns, or rows, shares them with no other.
            let degrees = [mesh.plan.degree_across, mesh.plan.degree_up];
            let lengths = [support.columns.len(), support.rows.len()];
            for i in 0..2 {
                let alone = lengths[i] == degrees[i] as usize + 1;
                assert!(off[i].abs() < if alone { 0.001 } else { side / 4.0 });
            }
        }
    }
}

#[test]
fn no_dot_touches_another_of_its_level_and_coarser_ones_are_larger() {
    for mesh in &meshes() {
        let mut dots: Vec<Dot> =
            dots_of(mesh, &read(mesh, &WITH_FUNCTIONS).root).into_values().collect();
        dots.sort_by(|a, b| (a.level, a.x).partial_cmp(&(b.level, b.x)).unwrap());
        for (i, dot) in dots.iter().enumerate() {
            let reach = 2.0 * dot.radius;
            let near = |other: &&Dot| other.level == dot.level && other.x - dot.x < reach;
            let beside = dots[i + 1..].iter().take_while(near);
            assert!(beside.into_iter().all(|other| (other.y - dot.y).abs() >= reach));
            let coarser = |other: &&Dot| other.level + 1 == dot.level;
            assert!(dots.iter().find(coarser).is_none_or(|other| other.radius > 1.3 * dot.radius));
        }
    }
}

#[test]
fn no_dot_covers_a_number() {
    for mesh in &meshes() {
        let read = read(mesh, &WITH_FUNCTIONS);
        let dots = dots_of(mesh, &read.root);
        for number in number_boxes(&read.root).into_values() {
            assert!(!dots.values().any(|dot| dot.touches(number)));
        }
    }
}

#[test]
fn a_number_is_left_out_where_dots_leave_no_place() {
    let numbers = |mesh: &Mesh| number_boxes(&read(mesh, &WITH_FUNCTIONS).root).len();
    assert_eq!(numbers(&worked().0), 12);
    let mut mesh = Mesh::open(plan([4, 4, 3, 3, 3, 0, 14, 14])).unwrap();
    mesh.refine_cells(&[Cell(5), Cell(6)]).unwrap();
    mesh.refine_cells(&[Cell(34), Cell(35), Cell(36)]).unwrap();
    let numbered: BTreeSet<u32> =
        number_boxes(&read(&mesh, &WITH_FUNCTIONS).root).into_keys().collect();
    let left_out: Vec<u32> = active_cells(&mesh).difference(&numbered).copied().collect();
    assert_eq!(left_out, [165, 166, 169]);
    assert_eq!(number_boxes(&read(&mesh, &PLAIN).root).len(), active_cells(&mesh).len());
}

/// The texts in a part of the picture.
fn texts(root: &Node, id: &str) -> Vec<String> {
    fn all(node: &Node, found: &mut Vec<String>) {
        if node.name == "text" {
            found.push(node.text.clone());
        }
        node.children.iter().for_each(|child| all(child, found));
    }
    let mut found = vec![];
    all(root.find(id).unwrap(), &mut found);
    found
}

#[test]
fn the_legend_counts() {
    let (mesh, _) = worked();
    let plain = texts(&read(&mesh, &PLAIN).root, "legend");
    assert_eq!(plain, ["level 0: 1 cell", "level 1: 7 cells", "level 2: 4 cells"]);
    let with_functions = texts(&read(&mesh, &WITH_FUNCTIONS).root, "legend");
    assert_eq!(with_functions[..3], ["level 0: 1 cell", "4 functions active", "4 deactivated"]);
    // Of level 1 four columns are present, of level 2 columns 2 and 3 in rows 0 and 1.
    assert_eq!(with_functions[3..6], ["level 1: 7 cells", "12 functions active", "0 deactivated"]);
    assert_eq!(with_functions[6..9], ["level 2: 4 cells", "2 functions active", "0 deactivated"]);
    for mesh in &meshes() {
        let cells =
            |text: &String| text.split_once(": ")?.1.split_once(" cell")?.0.parse::<usize>().ok();
        let legend = texts(&read(mesh, &WITH_FUNCTIONS).root, "legend");
        assert_eq!(legend.iter().filter_map(cells).sum::<usize>(), active_cells(mesh).len());
        let before = |end| move |text: &String| text.split_once(end)?.0.parse::<usize>().ok();
        let active = mesh.functions.iter().filter(|&&byte| byte == 1).count();
        assert_eq!(legend.iter().filter_map(before(" function")).sum::<usize>(), active);
        let deactivated = mesh.functions.iter().filter(|&&byte| byte == 2).count();
        assert_eq!(legend.iter().filter_map(before(" deactivated")).sum::<usize>(), deactivated);
    }
}

#[test]
fn the_legend_says_which_functions_stand_side_by_side() {
    let said = |numbers| {
        let mesh = Mesh::open(plan(numbers)).unwrap();
        let sentence = String::from("Functions that cover the same cells stand side by side.");
        assert!(!texts(&read(&mesh, &PLAIN).root, "legend").contains(&sentence));
        texts(&read(&mesh, &WITH_FUNCTIONS).root, "legend").contains(&sentence)
    };
    assert!(!said([2, 2, 3, 1, 1, 0, 0, 0]) && !said([5, 3, 2, 4, 2, 0, 0, 0]));
    assert!(said([1, 2, 3, 1, 1, 0, 0, 0]) && said([2, 1, 3, 1, 1, 0, 0, 0]));
    assert!(said([4, 3, 2, 4, 2, 0, 0, 0]) && said([5, 2, 2, 4, 2, 0, 0, 0]));
    // A corner leaves three cells on either side, or only one, across or up.
    assert!(!said([6, 6, 2, 2, 2, 0, 8, 8]));
    assert!(said([6, 6, 2, 2, 2, 0, 2, 8]) && said([6, 6, 2, 2, 2, 0, 8, 32]));
    for mesh in &meshes() {
        let Plan { levels, .. } = mesh.plan;
        let same = (0..levels).any(|level| {
            let numbers = mesh.plan.functions_on(level).unwrap();
            let supports: Vec<_> =
                numbers.clone().map(|n| mesh.plan.support(Function(n)).unwrap()).collect();
            supports.iter().collect::<HashSet<_>>().len() < supports.len()
        });
        let legend = texts(&read(mesh, &WITH_FUNCTIONS).root, "legend");
        assert_eq!(legend.last().unwrap().contains("side by side"), same);
    }
}

#[test]
fn the_legend_is_read_down_its_columns() {
    let root = read(&Mesh::open(plan([1, 1, 7, 1, 1, 0, 0, 0])).unwrap(), &PLAIN).root;
    let entries: Vec<&str> =
        groups(&root, "legend").map(|entry| entry.attribute("transform").unwrap()).collect();
    let places: Vec<(&str, &str)> = entries
        .iter()
        .map(|entry| entry["translate(".len()..].trim_end_matches(')').split_once(' ').unwrap())
        .collect();
    let columns: Vec<&str> = places.iter().map(|place| place.0).collect();
    assert_eq!(columns, ["20", "20", "20", "20", "180", "180", "180"]);
    assert!((0..3).all(|i| places[i].1 == places[i + 4].1));
}

#[test]
fn corner_lines_are_those_of_the_plan() {
    for mesh in &meshes() {
        let Read { root, left, bottom, .. } = &read(mesh, &PLAIN);
        let side = read(mesh, &PLAIN).side(mesh, 0);
        let lines: Vec<&Node> =
            root.find("corners").map_or(vec![], |group| group.children("line").collect());
        let bit = |from: f64| 1 << (from / side) as u32;
        let (mut across, mut up) = (0, 0);
        for line in lines {
            let [x1, y1, x2, y2] = ["x1", "y1", "x2", "y2"].map(|name| line.number(name));
            if x1 == x2 {
                across |= bit(x1 - left);
                assert!(y1 > *bottom && bottom - y2 > f64::from(mesh.plan.rows) * side);
            } else {
                assert!(y1 == y2 && x1 < *left && x2 - left > f64::from(mesh.plan.columns) * side);
                up |= bit(bottom - y1);
            }
        }
        assert_eq!((across, up), (mesh.plan.corners_across, mesh.plan.corners_up));
        let explained = texts(root, "legend").contains(&String::from("corner"));
        assert_eq!(explained, across != 0 || up != 0);
    }
}

#[test]
fn a_name_may_be_any_text() {
    let (mesh, _) = worked();
    let root = parse(&svg("a<b>&\"c\"'.wall", &mesh, &PLAIN));
    assert_eq!(root.title(), "a<b>&\"c\"'.wall");
    let numbers = "3 by 1 cells, 3 levels, degrees 1 and 1, class 2";
    assert_eq!(texts(&root, "heading"), ["a<b>&\"c\"'.wall", numbers]);
    let root = parse(&svg("\u{1}\n\u{ffff}]]>é", &mesh, &PLAIN));
    assert_eq!(root.title(), "\u{fffd}\u{fffd}\u{fffd}]]>é");
    let long = "&".repeat(1000);
    let root = parse(&svg(&long, &mesh, &PLAIN));
    assert_eq!(root.title(), long);
    let shown = &texts(&root, "heading")[0];
    assert!(shown.ends_with("&…") && shown.len() < 100);
    assert_eq!(texts(&parse(&svg("", &mesh, &PLAIN)), "heading")[0], "");
}

#[test]
fn a_long_name_is_cut_where_the_picture_ends() {
    let mesh = Mesh::open(plan([16, 1, 1, 1, 1, 0, 0, 0])).unwrap();
    // Letters with their widths in a bold font of 15 pixels, DejaVu Sans.
    for (letter, width) in [("W", 16.5), ("m", 15.6), ("Q", 12.8), ("&", 13.1), ("q", 10.7)] {
        let root = parse(&svg(&letter.repeat(200), &mesh, &PLAIN));
        let shown = &texts(&root, "heading")[0];
        let count = shown.strip_suffix('…').unwrap().chars().count() as f64;
        let room = root.number("width") - 2.0 * MARGIN;
        let drawn = count * width + 15.0;
        assert!(drawn <= room && drawn > 0.8 * room, "{letter}");
    }
}

#[test]
fn the_largest_plans_are_drawn() {
    let all_corners = 0xfffe;
    let mesh = finest(plan([16, 16, 4, 4, 4, 0, all_corners, all_corners]));
    let read = read(&mesh, &WITH_FUNCTIONS);
    assert_eq!(dots_of(&mesh, &read.root).len(), 54_884);
    let mesh = finest(plan([1, 1, 8, 4, 4, 8, 0, 0]));
    let split: Vec<Cell> = (0..5461).map(Cell).collect();
    let changed = Some(Changes { split: &split, joined: &[] });
    let root = parse(&svg("cave.wall", &mesh, &Options { changed, ..PLAIN }));
    assert_eq!(root.find("split").unwrap().children("rect").count(), 5461);
}

#[test]
fn numbers_are_written_short() {
    let written = [0.0, -0.0001, 7.5, 0.125, 10.0, 1234.5678, -2.50].map(number);
    assert_eq!(written, ["0", "0", "7.5", "0.125", "10", "1234.568", "-2.5"]);
}
