//! The built session program, started on inputs of all kinds, against the model's session.
//!
//! `WALLMIRROR_SESSION`, an absolute path, names the program; without it the tests take the one
//! that `rt run` in crates/session leaves in this repository.

use differential::{plan, Kind, Random, Tables};
use model::session::{answer, session, Wall, INPUT_BYTES, LINE_MARKS, WALL_CELLS};
use model::{Cell, Function, Plan};
use std::io::{ErrorKind, Read, Write};
use std::ops::Range;
use std::path::{Path, PathBuf};
use std::process::{Command, Stdio};
use std::time::Duration;

const VARIABLE: &str = "WALLMIRROR_SESSION";

fn program() -> PathBuf {
    let built = || Path::new(env!("CARGO_MANIFEST_DIR")).join("../../crates/session/out/session");
    let path = std::env::var_os(VARIABLE).map_or_else(built, PathBuf::from);
    assert!(path.is_absolute(), "{VARIABLE} is to be an absolute path, not '{}'", path.display());
    assert!(
        path.is_file(),
        "there is no session program '{}': run 'rt run' in crates/session of the repository, \
         or set {VARIABLE} to its path",
        path.display()
    );
    path
}

/// What the program prints for an input that comes in these pieces, with pauses between them.
fn printed(pieces: &[&[u8]]) -> Vec<u8> {
    let path = program();
    let mut child = Command::new(&path)
        .stdin(Stdio::piped())
        .stdout(Stdio::piped())
        .spawn()
        .unwrap_or_else(|error| panic!("'{}' does not start: {error}", path.display()));
    let mut stdin = child.stdin.take().expect("a pipe");
    let mut stdout = child.stdout.take().expect("a pipe");
    let mut output = vec![];
    // Both at once, so that neither side waits for the other to empty a pipe.
    std::thread::scope(|scope| {
        scope.spawn(move || {
            for (i, piece) in pieces.iter().enumerate() {
                if i > 0 {
                    std::thread::sleep(Duration::from_millis(20));
                }
                match stdin.write_all(piece) {
                    // The program has read all that it reads.
                    Err(error) if error.kind() == ErrorKind::BrokenPipe => return,
                    written => written.expect("a pipe that takes the input"),
                }
            }
        });
        stdout.read_to_end(&mut output).expect("a pipe that gives the output");
    });
    let status = child.wait().expect("a program that ends");
    assert!(status.success(), "the session program ended with {status}");
    output
}

/// Runs the program and holds what it prints to the model.
fn run(input: &[u8]) -> Vec<u8> {
    let output = printed(&[input]);
    let expected = session(input);
    if output != expected {
        let text = |bytes: &[u8]| String::from_utf8_lossy(bytes).into_owned();
        let (is, expected) = (text(&output), text(&expected));
        let differ = is.lines().zip(expected.lines()).position(|(is, expected)| is != expected);
        let line = differ.unwrap_or(is.lines().count().min(expected.lines().count()));
        panic!(
            "answer {line} is {:?}, not {:?}, for the line {:?}; {} lines printed, not {}; input {:?}",
            is.lines().nth(line),
            expected.lines().nth(line),
            text(input).split('\n').nth(line),
            is.lines().count(),
            expected.lines().count(),
            text(input)
        );
    }
    output
}

#[track_caller]
fn expect(input: &str, output: &str) {
    assert_eq!(String::from_utf8_lossy(&run(input.as_bytes())), output);
}

#[test]
fn samples() {
    let input = "wall 3 1 3 1 1 2\nsplit 0\nsplit 3\njoin 1\n";
    let output = "0;;\n0;0;0 4\n0;3;8\n8;;\n";
    expect(input, output);
    // The last line feed may be lacking.
    expect(input.trim_end(), output);
    // The README's: cell 4 needs cell 1.
    let file = include_str!("../../../examples/session.txt");
    expect(file, "0;;\n0;0;0 4\n0;1 4;1 5\n0;;\n0;1 4;1 5\n");
}

#[test]
fn lines_that_are_not_there() {
    expect("", "");
    expect("\n", "?\n");
    expect("\n\n", "?\n?\n");
    expect("wall 1 1 1 1 1 0", "0;;\n");
    expect("wall 1 1 1 1 1 0\n\n", "0;;\n?\n");
}

/// Each on a wall where cell 0 can be refined, which the last line shows to be as it was.
#[test]
fn lines_that_cannot_be_read() {
    let many = |count: usize| format!("split{}", " 0".repeat(count));
    for line in [
        "",
        " ",
        "?",
        "shift 0",
        "Split 0",
        "SPLIT 0",
        "splits 0",
        "spli 0",
        "split  0",
        "split 0 ",
        " split 0",
        "split 0  1",
        "split\t0",
        "split 0\r",
        "split 0\t",
        "split\u{0}0",
        "split 0\u{0}",
        "\u{0}split 0",
        "\u{0}",
        "split -1",
        "split +1",
        "split 1x",
        "split 0x1",
        "split 1,2",
        "split 1.0",
        "split \u{661}",
        "split 4294967296",
        "split 99999999999999999999999999999999999999999999999999",
        "split 18446744073709551616",
        "0",
        "0 split",
        "wall",
        "wall 3 1 3 1 1",
        "wall 3 1 3 1 1 0 0",
        "wall 3 1 3 1 1 0 2",
        "wall 3 1 3 1 1 0 2 0 0",
        "wall 3 1 3 1 1 0 2 4294967296",
        "wall 3 1 3 1 1 4294967296",
        "wall  3 1 3 1 1 0",
        "split;0",
        &many(LINE_MARKS + 1),
        &format!("split{}", " 99".repeat(LINE_MARKS + 1)),
    ] {
        expect(&format!("wall 3 1 3 1 1 0\n{line}\nsplit 0\n"), "0;;\n?\n0;0;0 4\n");
    }
    for line in ["split 0".to_string(), "split 00000000000000000000".to_string(), many(LINE_MARKS)]
    {
        expect(&format!("wall 3 1 3 1 1 0\n{line}\nsplit\n"), "0;;\n0;0;0 4\n0;;\n");
    }
    expect("wall 3 1 3 1 1 0\nsplit 4294967295\n", "0;;\n7;;\n");
    // Bytes that are no text at all.
    assert_eq!(run(b"wall 3 1 3 1 1 0\nsplit \xff\n\x80\nsplit 0\n"), b"0;;\n?\n?\n0;0;0 4\n");
}

/// Every line then ends in a carriage return, which is no digit.
#[test]
fn carriage_returns() {
    expect("wall 3 1 3 1 1 2\r\nsplit 0\r\nsplit 3\r\n", "?\n?\n?\n");
}

#[test]
fn walls_refused_or_large() {
    for (line, answer) in [
        ("wall 0 1 3 1 1 0", "1;;"),
        ("wall 3 1 3 1 1 1", "1;;"),
        ("wall 17 1 3 1 1 0", "1;;"),
        ("wall 4294967295 1 3 1 1 0", "1;;"),
        // The line before the first column, that behind the last, and one of the only row.
        ("wall 3 1 3 1 1 0 1 0", "1;;"),
        ("wall 3 1 3 1 1 0 8 0", "1;;"),
        ("wall 3 1 3 1 1 0 2 2", "1;;"),
        ("wall 3 1 3 1 1 0 4294967295 0", "1;;"),
        ("wall 16 16 5 1 1 0", "2;;"),
        ("wall 16 16 5 4 4 0 65534 65534", "2;;"),
        ("wall 1 1 8 1 1 0", "large"),
        ("wall 16 16 4 4 4 0 65534 65534", "large"),
        // The fewest cells above the limit; no plan has 4,096.
        ("wall 14 14 3 1 1 0", "large"),
    ] {
        // There is no wall before it; and the earlier one stays.
        expect(&format!("{line}\nsplit 0\n"), &format!("{answer}\n?\n"));
        expect(
            &format!("wall 3 1 3 1 1 0\nsplit 0\n{line}\njoin 0\n"),
            &format!("0;;\n0;0;0 4\n{answer}\n0;0;0 4\n"),
        );
    }
    // The most cells below it.
    expect("wall 13 15 3 1 1 0\nsplit 0\n", "0;;\n0;0;0\n");
    expect("split\njoin 0\nfsplit 1\nfjoin\n", "?\n?\n?\n?\n");
}

/// A corner before column 1: over column 0 alone lie two functions across, and not one.
#[test]
fn walls_with_corners() {
    expect("wall 3 1 3 2 2 0\nsplit 0\n", "0;;\n0;0;0 5 10\n");
    expect("wall 3 1 3 2 2 0 0 0\nsplit 0\n", "0;;\n0;0;0 5 10\n");
    expect("wall 3 1 3 2 2 0 2 0\nsplit 0\n", "0;;\n0;0;0 1 6 7 12 13\n");
    // Of degree 1 a corner is a line like others.
    expect("wall 3 1 3 1 1 2 6 0\nsplit 0\nsplit 4\n", "0;;\n0;0;0 4\n0;1 4;1 5\n");
    // Of degree 2, cell 3 needs cell 1 where there is none.
    let lines = "split 0\nsplit 3\nsplit 4\n";
    expect(
        &format!("wall 3 1 3 2 1 2 2 0\n{lines}"),
        "0;;\n0;0;0 1 6 7\n0;3;12\n0;1 4;2 8 13 14\n",
    );
    expect(&format!("wall 3 1 3 2 1 2\n{lines}"), "0;;\n0;0;0 5\n0;1 3;1 6 10\n0;4;11\n");
    // The most functions that a session's wall has, with all of level 0 split.
    let marks: Vec<u32> = (0..15 * 13).collect();
    let lines: String = marks.chunks(LINE_MARKS).map(|marks| line("split", marks)).collect();
    run(format!("wall 15 13 3 4 4 0 32766 8190\n{lines}").as_bytes());
}

/// An input of `before`, then as many empty lines as make it `INPUT_BYTES - left` long, then
/// `last`.
fn filled(before: &str, left: usize, last: &str) -> String {
    let empty = INPUT_BYTES - left - before.len();
    format!("{before}{}{last}", "\n".repeat(empty))
}

/// The last answer of a session.
fn last_answer(input: &str) -> String {
    let output = String::from_utf8(run(input.as_bytes())).expect("text");
    output.lines().last().expect("an answer").to_string()
}

#[test]
fn input_that_is_cut() {
    let wall = "wall 16 1 3 1 1 0\n";
    for more in ["", "\n", "2\n", "2\nsplit 3\n", &"2 split\n".repeat(100_000)] {
        // Inside a number: 1 of 12.
        assert_eq!(last_answer(&filled(wall, 7, &format!("split 1{more}"))), "0;1;");
        // Just before a space, just behind one, inside the word, and just behind it.
        assert_eq!(last_answer(&filled(wall, 7, &format!("split 1 {more}"))), "0;1;");
        assert_eq!(last_answer(&filled(wall, 6, &format!("split {more}"))), "?");
        assert_eq!(last_answer(&filled(wall, 4, &format!("spli{more}"))), "?");
        assert_eq!(last_answer(&filled(wall, 5, &format!("split{more}"))), "0;;");
        // Just before a line feed, and just behind one.
        assert_eq!(last_answer(&filled(wall, 8, &format!("split 12\n{more}"))), "0;12;");
        assert_eq!(last_answer(&filled(wall, 9, &format!("split 12\n{more}"))), "0;12;");
    }
    // One byte less than is read, and a line that begins with the last byte.
    assert_eq!(last_answer(&filled(wall, 9, "split 12")), "0;12;");
    assert_eq!(last_answer(&filled(wall, 1, "split 12")), "?");
    // Lines of one byte: as many answers as bytes.
    let empty = run("\n".repeat(INPUT_BYTES + 1000).as_bytes());
    assert_eq!(empty, "?\n".repeat(INPUT_BYTES).as_bytes());
    // One line, of digits and of spaces alone.
    for byte in ["0", " ", "split ", "\u{0}"] {
        assert_eq!(run(byte.repeat(2 * INPUT_BYTES).as_bytes()), b"?\n");
    }
}

#[test]
fn input_in_pieces() {
    let input = b"wall 3 1 3 1 1 2\nsplit 0\nsplit 3\njoin 1\n";
    for cut in [0, 1, 5, 16, 17, 23, 40] {
        let (first, second) = input.split_at(cut);
        assert_eq!(printed(&[first, second]), session(input), "cut at {cut}");
    }
    let long = filled("wall 16 1 3 1 1 0\n", 7, "split 12\nsplit 3\n").into_bytes();
    let pieces: Vec<&[u8]> = long.chunks(1000).collect();
    assert_eq!(printed(&pieces), session(&long));
}

/// In one direction, of functions by what they cover: always the one over the next place that reaches
/// farthest, until every place is under one of them.
fn in_a_row(covered: &[Range<u32>]) -> Vec<u32> {
    let mut row = vec![];
    let mut next = 0;
    let over = |next| (0..covered.len()).filter(move |&i| covered[i].contains(&next));
    while let Some(i) = over(next).max_by_key(|&i| covered[i].end) {
        row.push(i as u32);
        next = covered[i].end;
    }
    row
}

/// Few functions of a level, such that all its cells are under one of them.
fn tiling(plan: Plan, level: u32) -> Vec<u32> {
    let function = |row, column| Function { level, row, column };
    let of_level = plan.functions().filter(|function| function.level == level);
    let last = of_level.last().expect("a function");
    let rows = |row| plan.support(function(row, 0)).map(|cell| cell.row);
    let columns = |column| plan.support(function(0, column)).map(|cell| cell.column);
    let rows: Vec<_> = (0..=last.row).map(|row| from_to(rows(row))).collect();
    let columns: Vec<_> = (0..=last.column).map(|column| from_to(columns(column))).collect();
    let columns = in_a_row(&columns);
    let places = in_a_row(&rows).into_iter().flat_map(|row| columns.iter().map(move |&c| (row, c)));
    places.map(|(row, column)| plan.function_number(function(row, column)) as u32).collect()
}

/// From the least of some numbers to the greatest.
fn from_to(numbers: impl Iterator<Item = u32>) -> Range<u32> {
    let numbers: Vec<u32> = numbers.collect();
    *numbers.iter().min().expect("a number")..*numbers.iter().max().expect("a number") + 1
}

/// A corner on every line between n columns or rows.
fn all_corners(n: u32) -> u32 {
    (1 << n) - 2
}

fn line(word: &str, numbers: &[u32]) -> String {
    let numbers: String = numbers.iter().map(|number| format!(" {number}")).collect();
    format!("{word}{numbers}\n")
}

/// Refines the levels one by one, each by one line of functions. The last line names every cell and
/// every function of the second last level, the most that a line can change.
fn level_by_level(plan: Plan) -> String {
    let lines = (0..plan.levels - 1).map(|level| line("fsplit", &tiling(plan, level)));
    line("wall", &numbers(plan)) + &lines.collect::<String>()
}

/// Whether a line is enough to split a level.
fn by_lines(plan: Plan) -> bool {
    (0..plan.levels - 1).all(|level| tiling(plan, level).len() <= LINE_MARKS)
}

fn numbers(plan: Plan) -> [u32; 8] {
    let Plan { columns, rows, levels, degree_across, degree_up, class, corners_across, corners_up } =
        plan;
    [columns, rows, levels, degree_across, degree_up, class, corners_across, corners_up]
}

/// The length of a list of consecutive numbers.
fn list_length(first: usize, count: usize) -> usize {
    (first..first + count).map(|number| number.to_string().len() + 1).sum::<usize>() - 1
}

/// The length of the answer that names the whole second last level.
fn second_last_length(plan: Plan) -> usize {
    let level = plan.levels - 2;
    let first_cell = plan.cell_number(Cell { level, row: 0, column: 0 });
    let first_function = plan.function_number(Function { level, row: 0, column: 0 });
    let cells = plan.cells().filter(|cell| cell.level == level).count();
    let functions = plan.functions().filter(|function| function.level == level).count();
    "0;;".len() + list_length(first_cell, cells) + list_length(first_function, functions)
}

/// Of all walls of a session without corners, and of those with every line a corner, the one whose
/// second last level has most to print, where a line is enough to split a level.
#[test]
fn the_longest_answer() {
    let shapes = (1..=16).flat_map(|columns| (1..=16).map(move |rows| (columns, rows)));
    let plans: Vec<Plan> = shapes
        .flat_map(|(columns, rows)| (2..=8).map(move |levels| [columns, rows, levels, 4, 4, 2]))
        .map(plan)
        .filter(|plan| plan.cell_total() <= WALL_CELLS)
        .collect();
    let cornered = |plan: &Plan| {
        let (corners_across, corners_up) = (all_corners(plan.columns), all_corners(plan.rows));
        Plan { corners_across, corners_up, ..*plan }
    };
    for plans in [plans.iter().map(cornered).collect(), plans] {
        let longest = plans
            .into_iter()
            .filter(|&plan| by_lines(plan))
            .max_by_key(|&plan| second_last_length(plan))
            .expect("a wall");
        let output = run(level_by_level(longest).as_bytes());
        let length = output.split(|&byte| byte == b'\n').map(<[u8]>::len).max();
        assert_eq!(length, Some(second_last_length(longest)));
        println!("the longest answer: {:?}, {} bytes", numbers(longest), length.unwrap());
    }
}

/// A line that the session can read, more often than not one that it accepts.
fn good_line(random: &mut Random, wall: &Option<Wall>) -> String {
    let word = random.pick(&["wall", "split", "join", "fsplit", "fjoin"]);
    let word = if word == "wall" && wall.is_some() { "split" } else { word };
    let mut numbers = match (word, wall) {
        ("wall", _) => random_wall(random),
        (_, None) => (0..random.below(4)).map(|_| random.below(40) as u32).collect(),
        (word, Some(wall)) => random_marks(random, word, wall),
    };
    if random.once_in(12) && !numbers.is_empty() {
        let i = random.below(numbers.len());
        numbers[i] = random.pick(&[0, 1, 99, 9999, u32::MAX, 1 << 31]);
    }
    let fields: Vec<String> = numbers.iter().map(|number| padded(random, *number)).collect();
    [vec![word.to_string()], fields].concat().join(" ")
}

/// The number, now and then with zeros before it.
fn padded(random: &mut Random, number: u32) -> String {
    let zeros = if random.once_in(20) { random.pick(&[1, 2, 9, 30]) } else { 0 };
    format!("{}{number}", "0".repeat(zeros))
}

/// The numbers of a `wall` line: six, or eight, or seven, which cannot be read.
fn random_wall(random: &mut Random) -> Vec<u32> {
    let (columns, rows) = (random.below(3) as u32 + 1, random.below(3) as u32 + 1);
    let (p, q) = (random.below(4) as u32 + 1, random.below(4) as u32 + 1);
    let levels = random.below(4) as u32 + 1;
    let class = random.pick(&[0, 0, 2, 3, 4, 8]);
    let corners = [columns, rows].map(|n| match random.once_in(16) {
        false => random.bits() as u32 & all_corners(n),
        true => 1 << random.below(32),
    });
    let count = random.pick(&[0, 0, 0, 1, 2, 2, 2, 2]);
    [&[columns, rows, levels, p, q, class], &corners[..count]].concat()
}

fn random_marks(random: &mut Random, word: &str, wall: &Wall) -> Vec<u32> {
    let kind = match word {
        "split" => Kind::RefineCells,
        "fsplit" => Kind::RefineFunctions,
        "join" => Kind::CoarsenCells,
        _ => Kind::CoarsenFunctions,
    };
    let Wall { plan, cells, functions } = wall;
    let tables = Tables { plan: *plan, cells: cells.clone(), functions: functions.clone() };
    let markable = tables.markable(kind);
    if markable.is_empty() {
        // Of the last level, perhaps.
        return vec![random.below(cells.len()) as u32; random.below(2)];
    }
    let count = random.pick(&[0, 1, 1, 2, 3, 8, LINE_MARKS]);
    (0..count).map(|_| random.pick(&markable)).collect()
}

/// A line with one thing done to it, which most often makes it unreadable.
fn damaged(random: &mut Random, line: String) -> Vec<u8> {
    let mut bytes = line.into_bytes();
    let at = random.below(bytes.len() + 1);
    match random.below(12) {
        0 => bytes.clear(),
        1 => bytes.push(b'\r'),
        2 => bytes.push(b' '),
        3 => bytes.insert(0, b' '),
        4 => bytes.insert(at, b' '),
        5 => bytes.insert(at, 0),
        6 => bytes.insert(at, random.bits() as u8),
        7 => bytes.truncate(at),
        8 => bytes.extend(b" 0".repeat(LINE_MARKS + 1)),
        9 => bytes.extend(random.pick(&[" 4294967296", " 99999999999999999999"]).bytes()),
        10 => bytes.extend(random.pick(&[" 0", " 1 2", " -1", "x", "\t1"]).bytes()),
        _ => bytes = random.pick(&["wall 1 1 8 2 2 0", "wall 16 16 5 1 1 0", "wall"]).into(),
    }
    bytes
}

/// Lines until there are so many bytes, made with the wall in sight so that many are accepted.
fn random_session(random: &mut Random, length: usize) -> Vec<u8> {
    let mut input = vec![];
    let mut wall = None;
    while input.len() < length {
        let whole = good_line(random, &wall);
        let whole = if random.once_in(40) { line("wall", &random_wall(random)) } else { whole };
        let line = whole.trim_end().to_string();
        let line = if random.once_in(6) { damaged(random, line) } else { line.into_bytes() };
        for part in line.split(|&byte| byte == b'\n') {
            answer(&mut wall, part);
        }
        input.extend(line);
        input.push(b'\n');
    }
    if random.once_in(3) {
        input.pop();
    }
    input
}

/// How an answer begins: the number, or the whole of it.
fn beginning(answer: &str) -> &str {
    answer.split(';').next().unwrap_or(answer)
}

#[test]
fn random_sessions() {
    let mut random = Random::new(500);
    let mut seen = std::collections::BTreeMap::<String, usize>::new();
    for turn in 0..240 {
        // Every thirtieth is longer than what is read.
        let length = if turn % 30 == 0 { INPUT_BYTES + 500 } else { 20 + random.below(1200) };
        let input = random_session(&mut random, length);
        let output = String::from_utf8(run(&input)).expect("text");
        for line in output.lines() {
            *seen.entry(beginning(line).to_string()).or_default() += 1;
        }
    }
    println!("answers: {seen:?}");
    // 3 to 6 and 10, 11 have no way to occur: tables and lists are the program's own.
    let kinds: Vec<&str> = seen.keys().map(String::as_str).collect();
    assert_eq!(kinds, ["0", "1", "2", "7", "8", "9", "?", "large"]);
    assert!(seen["0"] > 2000 && seen.values().all(|&count| count > 10), "{seen:?}");
}
