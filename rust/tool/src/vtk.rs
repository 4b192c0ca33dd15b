//! The active cells of a wall in the legacy format of VTK, which ParaView and others open.

use std::collections::BTreeMap;
use wallmirror::{Cell, Mesh, Place};

/// The longest title that the format allows, without the end of its line.
const TITLE_LENGTH: usize = 255;
/// The format's number for a quadrilateral.
const QUAD: u32 = 9;

/// A point of the grid: how far up and how far across, in cells of the last level.
type Point = (u32, u32);

/// The active cells of a mesh that passes check, as a whole file: quadrilaterals in rising order of
/// their numbers, with the level and the number of each. `name` may be any text.
pub fn vtk(name: &str, mesh: &Mesh) -> String {
    let active: Vec<(usize, Place)> = active(mesh).collect();
    let quads: Vec<[Point; 4]> = active.iter().map(|&(_, place)| corners(mesh, place)).collect();
    let points = numbered(&quads);
    let head =
        format!("# vtk DataFile Version 3.0\n{}\nASCII\nDATASET UNSTRUCTURED_GRID\n", title(name));
    let count = active.len();
    head + &format!("POINTS {} float\n", points.len())
        + &lines(points.keys().map(|(up, across)| format!("{across} {up} 0")))
        + &format!("CELLS {count} {}\n", 5 * count)
        + &lines(quads.iter().map(|quad| {
            let [a, b, c, d] = quad.map(|point| points[&point]);
            format!("4 {a} {b} {c} {d}")
        }))
        + &format!("CELL_TYPES {count}\n")
        + &lines(active.iter().map(|_| QUAD.to_string()))
        + &format!("CELL_DATA {count}\n")
        + &scalars("level", active.iter().map(|(_, place)| place.level.to_string()))
        + &scalars("number", active.iter().map(|(cell, _)| cell.to_string()))
}

/// The active cells in rising order of their numbers.
fn active(mesh: &Mesh) -> impl Iterator<Item = (usize, Place)> + '_ {
    let numbers = (0..mesh.cells.len()).filter(|&cell| mesh.cells[cell] == 1);
    numbers.filter_map(|cell| Some((cell, mesh.plan.place(Cell(cell as u32))?)))
}

/// The corners of a cell, counter-clockwise from the lower left.
fn corners(mesh: &Mesh, Place { level, row, column }: Place) -> [Point; 4] {
    let side = 1 << (mesh.plan.levels - 1 - level);
    [(0, 0), (0, 1), (1, 1), (1, 0)]
        .map(|(up, across)| ((row + up) * side, (column + across) * side))
}

/// Each point once, numbered in rising order.
fn numbered(quads: &[[Point; 4]]) -> BTreeMap<Point, usize> {
    let mut points: BTreeMap<Point, usize> =
        quads.iter().flatten().map(|&point| (point, 0)).collect();
    for (n, number) in points.values_mut().enumerate() {
        *number = n;
    }
    points
}

fn scalars(name: &str, values: impl Iterator<Item = String>) -> String {
    format!("SCALARS {name} int 1\nLOOKUP_TABLE default\n") + &lines(values)
}

fn lines(lines: impl Iterator<Item = String>) -> String {
    lines.map(|line| line + "\n").collect()
}

/// One line of printable ASCII characters.
fn title(name: &str) -> String {
    let printable = |c: char| if c == ' ' || c.is_ascii_graphic() { c } else { '?' };
    name.chars().take(TITLE_LENGTH).map(printable).collect()
}

#[cfg(test)]
mod tests {
    use super::*;
    use crate::drawing::samples::{finest, meshes, plan, worked};
    use std::collections::BTreeSet;

    /// The parts of a file, each of which has its heading and as many lines as that says.
    struct Read<'a> {
        title: &'a str,
        points: Vec<Vec<u32>>,
        quads: Vec<Vec<u32>>,
        types: Vec<Vec<u32>>,
        levels: Vec<Vec<u32>>,
        numbers: Vec<Vec<u32>>,
    }

    fn read(file: &str) -> Read<'_> {
        assert!(file.is_ascii() && file.ends_with('\n') && !file.contains('\r'));
        let mut lines = file.lines();
        assert_eq!(lines.next(), Some("# vtk DataFile Version 3.0"));
        let title = lines.next().unwrap();
        assert_eq!(lines.next(), Some("ASCII"));
        assert_eq!(lines.next(), Some("DATASET UNSTRUCTURED_GRID"));
        let rows = |lines: &mut std::str::Lines<'_>, count: usize| -> Vec<Vec<u32>> {
            let row = |line: &str| line.split(' ').map(|word| word.parse().unwrap()).collect();
            lines.take(count).map(row).collect()
        };
        let count = |line: Option<&str>| line?.split(' ').nth(1)?.parse().ok();
        let heading = lines.next();
        let points = count(heading).unwrap();
        assert_eq!(heading, Some(&format!("POINTS {points} float")[..]));
        let points = rows(&mut lines, points);
        let heading = lines.next();
        let cells = count(heading).unwrap();
        assert_eq!(heading, Some(&format!("CELLS {cells} {}", 5 * cells)[..]));
        let quads = rows(&mut lines, cells);
        assert_eq!(lines.next(), Some(&format!("CELL_TYPES {cells}")[..]));
        let types = rows(&mut lines, cells);
        assert_eq!(lines.next(), Some(&format!("CELL_DATA {cells}")[..]));
        let [levels, numbers] = ["level", "number"].map(|name| {
            assert_eq!(lines.next(), Some(&format!("SCALARS {name} int 1")[..]));
            assert_eq!(lines.next(), Some("LOOKUP_TABLE default"));
            rows(&mut lines, cells)
        });
        assert_eq!(lines.next(), None);
        Read { title, points, quads, types, levels, numbers }
    }

    /// Holds a file against its mesh, cell by cell.
    fn compare(mesh: &Mesh) {
        let file = vtk("cave.wall", mesh);
        let Read { points, quads, types, levels, numbers, .. } = read(&file);
        assert_eq!(points.iter().collect::<BTreeSet<_>>().len(), points.len());
        let used: BTreeSet<u32> = quads.iter().flat_map(|quad| quad[1..].to_vec()).collect();
        assert_eq!(used, (0..points.len() as u32).collect());
        assert!(types.iter().all(|kind| kind[..] == [9]));
        let active: Vec<Vec<u32>> = (0..mesh.cells.len() as u32)
            .filter(|&cell| mesh.cells[cell as usize] == 1)
            .map(|cell| vec![cell])
            .collect();
        assert_eq!(numbers, active);
        let mut area = 0;
        for ((quad, level), number) in quads.iter().zip(&levels).zip(&numbers) {
            let place = mesh.plan.place(Cell(number[0])).unwrap();
            assert_eq!(level[..], [place.level]);
            let side = 1 << (mesh.plan.levels - 1 - place.level);
            let (x, y) = (place.column * side, place.row * side);
            let corners = [[x, y, 0], [x + side, y, 0], [x + side, y + side, 0], [x, y + side, 0]];
            assert_eq!((quad[0], quad.len()), (4, 5));
            assert_eq!([1, 2, 3, 4].map(|i| &points[quad[i] as usize][..]), corners);
            area += u64::from(side) * u64::from(side);
        }
        assert_eq!(area, mesh.count().unwrap().area as u64);
    }

    #[test]
    fn each_active_cell_is_a_quadrilateral() {
        meshes().iter().for_each(compare);
    }

    #[test]
    fn the_largest_plans_are_exported() {
        compare(&finest(plan([1, 1, 8, 4, 4, 8, 0, 0])));
        compare(&finest(plan([16, 16, 4, 1, 1, 0, 0xfffe, 0xfffe])));
    }

    #[test]
    fn the_title_is_one_short_line() {
        let (mesh, _) = worked();
        for (name, title) in [
            ("cave.wall", "cave.wall"),
            ("a<b>&\"c\" d.wall", "a<b>&\"c\" d.wall"),
            ("grün\nASCII\r\t\u{0}", "gr?n?ASCII???"),
            ("", ""),
        ] {
            assert_eq!(read(&vtk(name, &mesh)).title, title);
        }
        assert_eq!(read(&vtk(&"é".repeat(1000), &mesh)).title, "?".repeat(255));
    }
}
