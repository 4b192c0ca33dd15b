//! Prints, for meshes near the largest, what each call takes: the library, the tuned C version
//! beside it (`c/tuned.c`), the model, and how often both tables could be read meanwhile. Some
//! calls follow on meshes with corners, for which there are no goals, and on meshes with heights
//! the height at a point, and refining with heights and without. Then, for the smallest meshes,
//! what the height at one point takes, and for the largest that the projector takes, what the
//! corners of their cells take. Last, on the first meshes again, what calls with a draft take beside
//! calls without one, and rounds to a mesh beside two checks, both without goals, and what calls on
//! planes take beside calls on bytes. Run it in release mode:
//! `cargo run --release --offline -p bench`.
//!
//! The times are the least of many rounds. Library, C and reading take turns, so that a ratio
//! compares what ran under the same conditions.

mod drafts;
mod planes;
mod rounds;
mod versions;

use differential::scenario::{self, Scenario};
use differential::{has_corners, plan, Kind, Tables};
use model::{projector::Corner, shape::refine_with_heights, Plan};
use planes::Ratio;
use std::hint::black_box;
use std::time::{Duration, Instant};
use versions::{agree, Buffers, Call, LIBRARY, TUNED};

/// Calls that are held to the same ratio to reading both tables once.
#[derive(Clone, Copy, PartialEq, Eq)]
enum Goal {
    Check,
    OneCell,
    AllCells,
    Functions,
    Height,
    OneCellWithHeights,
    AllCellsWithHeights,
    FunctionsWithHeights,
}

impl Goal {
    const ALL: [Goal; 8] = [
        Goal::Check,
        Goal::OneCell,
        Goal::AllCells,
        Goal::Functions,
        Goal::Height,
        Goal::OneCellWithHeights,
        Goal::AllCellsWithHeights,
        Goal::FunctionsWithHeights,
    ];

    fn of(call: Call, marks: usize) -> Option<Goal> {
        match call {
            // The corners have a goal of their own.
            Call::Open | Call::Count | Call::Read | Call::Write | Call::Corners => None,
            Call::Check => Some(Goal::Check),
            Call::Height => Some(Goal::Height),
            Call::Change(kind) if kind.by_functions() => Some(Goal::Functions),
            Call::Change(_) if marks == 1 => Some(Goal::OneCell),
            Call::Change(_) => Some(Goal::AllCells),
            Call::WithHeights(kind) if kind.by_functions() => Some(Goal::FunctionsWithHeights),
            Call::WithHeights(_) if marks == 1 => Some(Goal::OneCellWithHeights),
            Call::WithHeights(_) => Some(Goal::AllCellsWithHeights),
        }
    }

    fn name(self) -> &'static str {
        match self {
            Goal::Check => "check",
            Goal::OneCell => "by cells, one mark",
            Goal::AllCells => "by cells, all marks",
            Goal::Functions => "by functions",
            Goal::Height => "height",
            Goal::OneCellWithHeights => "by cells, one mark, with heights",
            Goal::AllCellsWithHeights => "by cells, all marks, with heights",
            Goal::FunctionsWithHeights => "by functions, with heights",
        }
    }

    /// How many times as long as reading both tables once it may take.
    fn most(self) -> f64 {
        match self {
            Goal::Check => 10.0,
            Goal::OneCell => 20.0,
            Goal::AllCells => 40.0,
            Goal::Functions => 35.0,
            // A check, and a look at every height: those have four bytes each.
            Goal::Height => 15.0,
            // What the call without heights may take, and heights that are read twice, copied and
            // written, of four bytes each.
            Goal::OneCellWithHeights => 40.0,
            Goal::AllCellsWithHeights => 80.0,
            Goal::FunctionsWithHeights => 75.0,
        }
    }
}

/// The least times of one call on one mesh.
struct Row {
    call: Call,
    place: String,
    marks: usize,
    changed: u32,
    library: Duration,
    tuned: Duration,
    model: Duration,
    read: Duration,
    /// How many times as long the library takes with lists that are just long enough: then the
    /// changes are counted before anything is written, for which the labels are made once more.
    counted: Option<f64>,
    /// Whether the plan has corners, and so no goal.
    cornered: bool,
}

impl Row {
    fn to_read(&self) -> f64 {
        self.library.as_secs_f64() / self.read.as_secs_f64()
    }

    fn to_tuned(&self) -> f64 {
        self.library.as_secs_f64() / self.tuned.as_secs_f64()
    }

    fn goal(&self) -> Option<Goal> {
        Goal::of(self.call, self.marks).filter(|_| !self.cornered)
    }

    fn misses(&self) -> bool {
        self.goal().is_some_and(|goal| self.to_read() > goal.most())
    }

    fn said(&self) -> String {
        said(self.call, self.marks, &self.place)
    }

    fn print(&self) {
        let goal = self.goal().map_or(String::new(), |goal| format!("{:.0}", goal.most()));
        println!(
            "{:<25} {:>6} {:>8} {:>11.1} {:>9.1} {:>11.1} {:>10.1} {:>13.1} {:>13.1} {:>5}{}",
            self.call.name(),
            self.marks,
            self.changed,
            microseconds(self.library),
            microseconds(self.tuned),
            microseconds(self.model),
            self.to_tuned(),
            self.model.as_secs_f64() / self.library.as_secs_f64(),
            self.to_read(),
            goal,
            if self.misses() { " missed" } else { "" }
        );
    }
}

/// A call with so many marks on a mesh, in words.
fn said(call: Call, marks: usize, place: &str) -> String {
    let marks = match marks {
        0 => String::new(),
        1 => " with one mark".to_string(),
        many => format!(" with {many} marks"),
    };
    format!("{}{marks}: {place}", call.name())
}

fn main() {
    if cfg!(debug_assertions) {
        eprintln!("bench: these are times of a debug build; use cargo run --release");
    }
    println!("C: {}. Times in microseconds, the least of many rounds.\n", env!("TUNED_BY"));
    let scenarios = scenario::all();
    let mut rows: Vec<Row> = scenarios.iter().flat_map(measure).collect();
    let mut cornered: Vec<Row> =
        scenario::with_corners().iter().flat_map(measure_corners).collect();
    let with_heights: Vec<Row> =
        scenario::with_heights().iter().flat_map(measure_heights).collect();
    print_carrying(&with_heights);
    for row in with_heights {
        if row.cornered { &mut cornered } else { &mut rows }.push(row);
    }
    let points = measure_points();
    let projected = measure_projected(&points);
    drafts::measure(&scenarios);
    rounds::measure(&scenarios);
    let on_planes = planes::measure(&scenarios);
    print_summary(&rows, &points.map(|[.., four]| four.to_tuned()), &projected, &on_planes);
    planes::print_summary(&on_planes);
    print_summary_of_corners(&cornered);
}

/// Measures and prints every call but the height on the meshes of one scenario.
fn measure(scenario: &Scenario) -> Vec<Row> {
    print_heading(scenario);
    let mut rows = vec![];
    let mut add = |call, tables: &Tables, marks: &[u32]| {
        rows.push(time(call, tables, marks, scenario.to_string()));
        rows[rows.len() - 1].print();
    };
    for call in [Call::Open, Call::Check, Call::Count, Call::Read, Call::Write] {
        add(call, &scenario.to_coarsen, &[]);
    }
    for kind in Kind::ALL {
        add_changes(scenario, kind, &mut add);
    }
    print_reading(scenario, &rows);
    rows
}

/// A change with one mark, and with all that there are.
fn add_changes(scenario: &Scenario, kind: Kind, add: &mut impl FnMut(Call, &Tables, &[u32])) {
    let tables = scenario.before(kind);
    let markable = tables.markable(kind);
    // The last one is of the finest level, where a class asks for most.
    add(Call::Change(kind), tables, &markable[markable.len() - 1..]);
    if markable.len() > 1 {
        add(Call::Change(kind), tables, &markable);
    }
}

/// Measures and prints the check and the changes by cells on meshes with corners.
fn measure_corners(scenario: &Scenario) -> Vec<Row> {
    print_heading(scenario);
    let mut rows = vec![];
    let mut add = |call, tables: &Tables, marks: &[u32]| {
        let row = time(call, tables, marks, scenario.to_string());
        rows.push(Row { cornered: true, ..row });
        rows[rows.len() - 1].print();
    };
    add(Call::Check, &scenario.to_coarsen, &[]);
    for kind in [Kind::RefineCells, Kind::CoarsenCells] {
        add_changes(scenario, kind, &mut add);
    }
    print_reading(scenario, &rows);
    rows
}

/// Measures and prints the height at a point beside the check that it begins with, and refining with
/// heights beside refining without.
fn measure_heights(scenario: &Scenario) -> Vec<Row> {
    print_heading(scenario);
    let has_corners = has_corners(scenario.plan());
    let mut rows = vec![];
    let mut add = |call, tables: &Tables, marks: &[u32]| {
        let changes = matches!(call, Call::Change(_) | Call::WithHeights(_));
        let row = time(call, tables, marks, scenario.to_string());
        rows.push(Row { cornered: changes && has_corners, ..row });
        rows[rows.len() - 1].print();
    };
    for call in [Call::Check, Call::Height] {
        add(call, &scenario.to_coarsen, &[]);
    }
    let tables = &scenario.to_refine;
    for kind in Kind::REFINING {
        let markable = tables.markable(kind);
        let one = &markable[markable.len() - 1..];
        for marks in [one, &markable].into_iter().take(markable.len()) {
            add(Call::Change(kind), tables, marks);
            add(Call::WithHeights(kind), tables, marks);
        }
    }
    print_reading(scenario, &rows);
    rows
}

/// How many times as long refining takes with heights as without.
fn print_carrying(rows: &[Row]) {
    let pairs = rows.windows(2).filter(|pair| matches!(pair[1].call, Call::WithHeights(_)));
    let ratio = |pair: &&[Row]| pair[1].library.as_secs_f64() / pair[0].library.as_secs_f64();
    let most = pairs.max_by(|a, b| ratio(a).total_cmp(&ratio(b))).expect("a pair");
    println!(
        "with heights at most {:.1} times as long as without: {}\n",
        ratio(&most),
        most[1].said()
    );
}

fn print_heading(scenario: &Scenario) {
    let count = scenario.to_coarsen.count();
    println!("{scenario}");
    println!(
        "{} cells, {} functions; {} active cells, {} refined, {} active functions",
        scenario.to_coarsen.cells.len(),
        scenario.to_coarsen.functions.len(),
        count.active_cells,
        count.refined_cells,
        count.active_functions
    );
    println!(
        "{:<25} {:>6} {:>8} {:>11} {:>9} {:>11} {:>10} {:>13} {:>13} {:>5}",
        "call",
        "marks",
        "changed",
        "library",
        "C",
        "model",
        "library/C",
        "model/library",
        "library/read",
        "goal"
    );
}

fn print_reading(scenario: &Scenario, rows: &[Row]) {
    let read = rows.iter().map(|row| row.read).min().expect("a row");
    let by_vectors = time_vectors(&scenario.to_coarsen);
    println!(
        "reading both tables once: {:.1} by a plain sum, to which the ratios are; {:.1} by vectors\n",
        microseconds(read),
        microseconds(by_vectors)
    );
}

/// What the height at one point takes on a mesh of one cell, in nanoseconds.
struct Point {
    degree: u32,
    levels: u32,
    functions: usize,
    check: f64,
    height: f64,
    tuned_after_check: f64,
}

impl Point {
    /// How many times as long as C it may take on four levels.
    const MOST: f64 = 3.0;

    fn measure(degree: u32, levels: u32) -> Point {
        let tables =
            scenario::towards_the_first_cell(plan([1, 1, levels, degree, degree, 0])).to_coarsen;
        let [[check, height], [tuned_check, tuned_height]] =
            time_small(Buffers::with_room(&tables), Call::Height, 200);
        let (functions, tuned_after_check) = (tables.functions.len(), tuned_height - tuned_check);
        Point { degree, levels, functions, check, height, tuned_after_check }
    }

    fn after_check(&self) -> f64 {
        self.height - self.check
    }

    /// How many functions are over the point: on each level those of one cell.
    fn values(&self) -> u32 {
        self.levels * (self.degree + 1) * (self.degree + 1)
    }

    fn for_each(&self) -> f64 {
        self.after_check() / f64::from(self.values())
    }

    fn to_tuned(&self) -> f64 {
        self.after_check() / self.tuned_after_check
    }

    fn print(&self) {
        println!(
            "{:<6} {:>8} {:>9} {:>6} {:>8.1} {:>8.1} {:>11.1} {:>8.1} {:>8.1} {:>9.1}",
            self.levels,
            format!("{} {}", self.degree, self.degree),
            self.functions,
            self.values(),
            self.check,
            self.height,
            self.after_check(),
            self.for_each(),
            self.tuned_after_check,
            self.to_tuned()
        );
    }
}

/// Measures and prints what one point takes after the check, on meshes so small that their tables
/// hardly count: for each degree, on one level to four.
fn measure_points() -> [[Point; 4]; 2] {
    println!("one point of 1 by 1 cells, refined towards the first cell, class 0; nanoseconds");
    println!(
        "{:<6} {:>8} {:>9} {:>6} {:>8} {:>8} {:>11} {:>8} {:>8} {:>9}",
        "levels",
        "degrees",
        "functions",
        "values",
        "check",
        "height",
        "after check",
        "for each",
        "C after",
        "library/C"
    );
    let points = [1, 2].map(|degree| {
        let points = [1, 2, 3, 4].map(|levels| Point::measure(degree, levels));
        points.iter().for_each(Point::print);
        points
    });
    println!(
        "on four levels it takes {:.1} and {:.1} times as long as C, goal {:.0}\n",
        points[0][3].to_tuned(),
        points[1][3].to_tuned(),
        Point::MOST
    );
    points
}

/// Nanoseconds of check and of a call that begins with it, of the library and of C: the least of
/// many rounds of so many calls.
fn time_small(mut buffers: Buffers, call: Call, calls: usize) -> [[f64; 2]; 2] {
    let mut least = [[Duration::MAX; 2]; 2];
    repeat(Duration::from_millis(400), 1000, || {
        for (version, least) in [&LIBRARY, &TUNED].into_iter().zip(&mut least) {
            for (call, least) in [Call::Check, call].into_iter().zip(least) {
                let calls = timed(|| (0..calls).for_each(|_| buffers.run(version, call, &[])));
                *least = calls.min(*least);
            }
        }
    });
    least.map(|version| version.map(|time| time.as_secs_f64() * 1e9 / calls as f64))
}

/// What the corners of the active cells take on a mesh, in nanoseconds.
struct Projected {
    place: String,
    corners: u32,
    check: f64,
    call: f64,
    /// Of one call for the height at a point, which a caller would need for every corner instead.
    height: f64,
    /// Of C, the height at one point after the check, on as many levels.
    tuned_height: f64,
    tuned_after_check: f64,
    model: f64,
}

impl Projected {
    /// How many times as long as a height of C a corner may take after the check. The C version of
    /// the call goes further: it computes a point that cells share once, and values once for a line.
    const MOST: f64 = Point::MOST;

    fn measure(scenario: &Scenario, points: &[[Point; 4]; 2]) -> Projected {
        let (tables, place) = (&scenario.to_coarsen, scenario.to_string());
        let Plan { degree_across, levels, .. } = tables.plan;
        let tuned_height =
            points[degree_across as usize - 1][levels as usize - 1].tuned_after_check;
        let mut buffers = Buffers::with_room(tables);
        assert_eq!(agree(Call::Corners, &buffers, &[]).0, 0, "{place}");
        buffers.run(&LIBRARY, Call::Corners, &[]);
        let corners = buffers.answer[1];
        let mut model = Duration::MAX;
        repeat(Duration::from_millis(60), 20, || {
            model = model.min(timed(|| run_model(Call::Corners, tables, &[], &buffers)));
        });
        let model = model.as_secs_f64() * 1e9;
        let [[_, height], _] = time_small(buffers.clone(), Call::Height, 20);
        let [[check, call], [tuned_check, tuned_call]] = time_small(buffers, Call::Corners, 4);
        let tuned_after_check = tuned_call - tuned_check;
        Projected { place, corners, check, call, height, tuned_height, tuned_after_check, model }
    }

    fn after_check(&self) -> f64 {
        self.call - self.check
    }

    fn for_each(&self) -> f64 {
        self.after_check() / f64::from(self.corners)
    }

    fn to_height(&self) -> f64 {
        self.for_each() / self.tuned_height
    }

    fn misses(&self) -> bool {
        self.to_height() > Projected::MOST
    }

    fn print(&self) {
        let corners = f64::from(self.corners);
        println!(
            "{:<66} {:>7} {:>6.1} {:>6.1} {:>8.1} {:>8.1} {:>8.1} {:>6.1} {:>12.1} {:>10.1} {:>5.0}{}",
            self.place,
            self.corners,
            self.check / 1e3,
            self.call / 1e3,
            self.for_each(),
            self.tuned_after_check / corners,
            self.tuned_height,
            self.to_height(),
            self.height * corners / self.call,
            self.model / self.call,
            Projected::MOST,
            if self.misses() { " missed" } else { "" }
        );
    }
}

/// Measures and prints the corners of the active cells on meshes that the projector takes.
fn measure_projected(points: &[[Point; 4]; 2]) -> Vec<Projected> {
    println!(
        "corners of the active cells: check and the whole call in microseconds; for each corner,"
    );
    println!(
        "after the check, nanoseconds of the library, of C with shared points, and of one height of C;"
    );
    println!("heights: one call of the library for each corner");
    println!(
        "{:<66} {:>7} {:>6} {:>6} {:>8} {:>8} {:>8} {:>6} {:>12} {:>10} {:>5}",
        "mesh",
        "corners",
        "check",
        "call",
        "for each",
        "C shared",
        "C height",
        "ratio",
        "heights/call",
        "model/call",
        "goal"
    );
    let measured = |scenario: &Scenario| {
        let projected = Projected::measure(scenario, points);
        projected.print();
        projected
    };
    let all = scenario::projected().iter().map(measured).collect();
    println!();
    all
}

fn print_summary(rows: &[Row], points: &[f64], projected: &[Projected], on_planes: &[Ratio]) {
    for row in rows.iter().filter(|row| row.misses()) {
        let most = row.goal().map_or(0.0, Goal::most);
        println!("missed: {:.1} times reading, not {most:.0}, {}", row.to_read(), row.said());
    }
    let slow: Vec<&f64> = points.iter().filter(|&&ratio| ratio > Point::MOST).collect();
    for ratio in &slow {
        println!("missed: one point on four levels takes {ratio:.1} times as long as C");
    }
    let slowest = projected.iter().filter(|projected| projected.misses());
    for row in slowest.clone() {
        let (ratio, place) = (row.to_height(), &row.place);
        println!("missed: {ratio:.1} heights of C, not {:.0}, corners: {place}", Projected::MOST);
    }
    let over = on_planes.iter().filter(|ratio| ratio.misses());
    for ratio in over.clone() {
        println!("missed: {}", ratio.said());
    }
    let missed = rows.iter().filter(|row| row.misses()).count() + slow.len();
    let missed = missed + slowest.count() + over.count();
    let with_goal = rows.iter().filter(|row| row.goal().is_some()).count();
    let goals = with_goal + points.len() + projected.len() + on_planes.len();
    println!("{missed} of {goals} goals missed");
    for goal in Goal::ALL {
        let of_goal: Vec<&Row> = rows.iter().filter(|row| row.goal() == Some(goal)).collect();
        println!("{}, at most {:.0} times reading:", goal.name(), goal.most());
        print_greatest(&of_goal);
    }
    let counted = rows.iter().filter_map(|row| row.counted.map(|ratio| (ratio, row)));
    let (ratio, row) = counted.max_by(|a, b| a.0.total_cmp(&b.0)).expect("a row");
    println!("lists just long enough: at most {ratio:.2} times as long, {}", row.said());
}

/// The same for meshes with corners. The C version is not tuned for these.
fn print_summary_of_corners(rows: &[Row]) {
    for goal in Goal::ALL.into_iter().filter(|&goal| goal != Goal::Height) {
        let of_goal: Vec<&Row> =
            rows.iter().filter(|row| Goal::of(row.call, row.marks) == Some(goal)).collect();
        println!("{}, with corners:", goal.name());
        print_greatest(&of_goal);
    }
}

fn print_greatest(rows: &[&Row]) {
    let greatest = |ratio: fn(&Row) -> f64| {
        let row = rows.iter().max_by(|a, b| ratio(a).total_cmp(&ratio(b))).expect("a row");
        format!("{:.1}, {}", ratio(row), row.said())
    };
    println!("  greatest ratio to reading {}", greatest(Row::to_read));
    println!("  greatest ratio to C {}", greatest(Row::to_tuned));
}

fn microseconds(time: Duration) -> f64 {
    time.as_secs_f64() * 1e6
}

fn timed<T>(work: impl FnOnce() -> T) -> Duration {
    let start = Instant::now();
    black_box(work());
    start.elapsed()
}

/// Times a call once its results are seen to be the same in all versions.
fn time(call: Call, tables: &Tables, marks: &[u32], place: String) -> Row {
    let mut buffers = Buffers::with_room(tables);
    let (number, changed) = agree(call, &buffers, marks);
    assert_eq!(number, 0, "{} on {place}", call.name());
    match call {
        Call::Change(kind) => drop(tables.clone().call_with_room(kind, marks)),
        Call::WithHeights(kind) => {
            let Buffers { cell_list, function_list, mut heights, .. } = buffers.clone();
            let mut tables = tables.clone();
            tables.refine_with_heights(kind, &mut heights, marks, &cell_list, &function_list);
        }
        _ => {}
    }
    let before = buffers.clone();
    let mut of_version = |version| {
        buffers.restore(&before);
        timed(|| buffers.run(version, call, marks))
    };
    let [mut library, mut tuned, mut read] = [Duration::MAX; 3];
    repeat(Duration::from_millis(300), 1000, || {
        library = library.min(of_version(&LIBRARY));
        tuned = tuned.min(of_version(&TUNED));
        // Several times, since the first finds the tables pushed out of the nearest cache.
        for _ in 0..3 {
            read = read.min(timed(|| read_once(black_box(tables))));
        }
    });
    let mut model = Duration::MAX;
    repeat(Duration::from_millis(60), 50, || {
        model = model.min(timed(|| run_model(call, tables, marks, &before)));
    });
    let counted = matches!(call, Call::Change(_)).then(|| time_counted(call, tables, marks));
    let (marks, cornered) = (marks.len(), false);
    Row { call, place, marks, changed, library, tuned, model, read, counted, cornered }
}

/// How many times as long a call takes with lists that are just long enough as with those of T and F
/// entries.
fn time_counted(call: Call, tables: &Tables, marks: &[u32]) -> f64 {
    let before = Buffers::with_room(tables);
    let mut ample = before.clone();
    ample.run(&LIBRARY, call, marks);
    let [_, cells, functions, ..] = ample.answer;
    let mut close = Buffers::new(tables, cells as usize, functions as usize, vec![]);
    let mut least = [Duration::MAX; 2];
    repeat(Duration::from_millis(100), 300, || {
        for (buffers, least) in [&mut ample, &mut close].into_iter().zip(&mut least) {
            buffers.restore(&before);
            *least = timed(|| buffers.run(&LIBRARY, call, marks)).min(*least);
        }
    });
    assert_eq!(close.answer, ample.answer);
    least[1].as_secs_f64() / least[0].as_secs_f64()
}

fn time_vectors(tables: &Tables) -> Duration {
    assert_eq!(read_by_vectors(tables), read_once(tables));
    let mut read = Duration::MAX;
    repeat(Duration::from_millis(50), 400, || {
        read = read.min(timed(|| read_by_vectors(black_box(tables))));
    });
    read
}

/// At least twice, then until the time is up or there were enough rounds.
fn repeat(time: Duration, most: usize, mut round: impl FnMut()) {
    let start = Instant::now();
    for i in 0..most {
        if i >= 2 && start.elapsed() > time {
            return;
        }
        round();
    }
}

/// A plain sum of all bytes. This is the reading that the goals are ratios to.
#[inline(never)]
fn read_once(tables: &Tables) -> u64 {
    let sum = |table: &[u8]| table.iter().map(|&byte| byte as u64).sum::<u64>();
    sum(&tables.cells) + sum(&tables.functions)
}

/// The same sum by the vector instruction that is made for it (psadbw), which the compiler does not
/// find by itself: how fast the tables can be read at all.
#[inline(never)]
fn read_by_vectors(tables: &Tables) -> u64 {
    use std::arch::x86_64::*;
    let sum = |table: &[u8]| {
        let blocks = table.chunks_exact(16);
        let rest: u64 = blocks.remainder().iter().map(|&byte| byte as u64).sum();
        // SAFETY: x86-64 has these instructions, and every block has the 16 bytes that are loaded.
        unsafe {
            let zero = _mm_setzero_si128();
            let sums = blocks.fold(zero, |sums, block| {
                let block = _mm_loadu_si128(block.as_ptr().cast());
                _mm_add_epi64(sums, _mm_sad_epu8(block, zero))
            });
            let both = _mm_add_epi64(sums, _mm_unpackhi_epi64(sums, sums));
            _mm_cvtsi128_si64(both) as u64 + rest
        }
    };
    sum(&tables.cells) + sum(&tables.functions)
}

fn run_model(call: Call, tables: &Tables, marks: &[u32], buffers: &Buffers) {
    let Tables { plan, cells, functions } = tables;
    let (t, f) = (cells.len(), functions.len());
    let Buffers { file, heights, point, .. } = buffers;
    match call {
        Call::Open => drop(black_box(model::open(*plan, t, f))),
        Call::Check => drop(black_box(model::check(*plan, cells, functions))),
        Call::Count => drop(black_box(model::count(*plan, cells, functions))),
        Call::Read => drop(black_box(model::file::read(file, t, f))),
        Call::Write => drop(black_box(model::file::write(*plan, cells, functions, file.len()))),
        Call::Height => {
            let (across, up) = *point;
            let height = model::height::height(*plan, cells, functions, heights, across, up);
            black_box(height.expect("a height").to_f64());
        }
        Call::Corners => {
            let room = buffers.out.len();
            let corners = model::projector::corners(*plan, cells, functions, heights, room);
            let corners = corners.expect("corners").into_iter().map(Corner::floats);
            drop(black_box(corners.collect::<Vec<_>>()));
        }
        Call::Change(kind) => {
            drop(black_box(kind.of_model()(*plan, cells, functions, marks, t, f)));
        }
        Call::WithHeights(kind) => {
            let (call, tables) = (kind.of_model(), (&cells[..], &functions[..]));
            let refined = refine_with_heights(call, *plan, tables, heights, marks, (t, f));
            drop(black_box(refined));
        }
    }
}
