//! What calls on planes take, as ratios to the calls on bytes, all made by the wrapper in turns.

use crate::versions::Call;
use crate::{microseconds, repeat, said, timed};
use differential::scenario::Scenario;
use differential::{as_cells, as_functions, of_wrapper, Kind, Tables};
use std::time::Duration;
use wallmirror::{check, count, open, planes_check, planes_count, planes_open};
use wallmirror::{coarsen_cells, coarsen_functions, refine_cells, refine_functions};
use wallmirror::{planes_coarsen_cells, planes_coarsen_functions, planes_from_cells};
use wallmirror::{planes_refine_cells, planes_refine_functions, planes_to_cells};
use wallmirror::{Cell, Changed, Count, Function, Plan, Refusal};

/// How many times as long one call takes on planes as on bytes.
pub struct Ratio {
    call: Call,
    marks: usize,
    place: String,
    ratio: f64,
}

impl Ratio {
    /// How many times as long it may take.
    fn most(&self) -> f64 {
        match self.call {
            // The cells are counted by whole words.
            Call::Count => 1.5,
            _ => 2.0,
        }
    }

    pub fn misses(&self) -> bool {
        self.ratio > self.most()
    }

    /// What is said of it where it misses.
    pub fn said(&self) -> String {
        let place = said(self.call, self.marks, &self.place);
        format!("{:.2} times bytes, not {}, on planes {place}", self.ratio, self.most())
    }
}

/// The greatest ratio to each of the two goals.
pub fn print_summary(ratios: &[Ratio]) {
    for counts in [true, false] {
        let of_goal = ratios.iter().filter(|ratio| matches!(ratio.call, Call::Count) == counts);
        let greatest = of_goal.max_by(|a, b| a.ratio.total_cmp(&b.ratio)).expect("a ratio");
        let name = if counts { "count on planes" } else { "other calls on planes" };
        let place = said(greatest.call, greatest.marks, &greatest.place);
        println!("{name}, at most {} times bytes:", greatest.most());
        println!("  greatest ratio {:.2}, {place}", greatest.ratio);
    }
}

/// Marks of either kind.
struct Marks {
    cells: Vec<Cell>,
    functions: Vec<Function>,
}

impl Marks {
    fn new(marks: &[u32]) -> Marks {
        Marks { cells: as_cells(marks), functions: as_functions(marks) }
    }
}

/// Some numbers of what a call answers, to be compared.
type Reply = Result<[usize; 2], Refusal>;

fn of_count(count: Result<Count, Refusal>) -> Reply {
    count.map(|count| [count.active_cells, count.refined_cells])
}

fn of_change(changed: Result<Changed, Refusal>) -> Reply {
    changed.map(|changed| [changed.cells, changed.functions])
}

fn of_nothing(done: Result<(), Refusal>) -> Reply {
    done.map(|()| [0, 0])
}

/// One mesh in both forms, and room for lists.
#[derive(Clone, PartialEq, Eq)]
struct Lent {
    plan: Plan,
    cells: Vec<u8>,
    present: Vec<u64>,
    refined: Vec<u64>,
    functions: Vec<u8>,
    cell_list: Vec<Cell>,
    function_list: Vec<Function>,
}

impl Lent {
    fn new(tables: &Tables) -> Lent {
        let plan = of_wrapper(tables.plan);
        let words = plan.plane_words().expect("a plan in range");
        let (cell_list, function_list) = tables.lists_with_room();
        let mut lent = Lent {
            plan,
            cells: tables.cells.clone(),
            present: vec![0; words],
            refined: vec![0; words],
            functions: tables.functions.clone(),
            cell_list: as_cells(&cell_list),
            function_list: as_functions(&function_list),
        };
        assert_eq!(lent.take_cells(), Ok(()));
        lent
    }

    fn take_cells(&mut self) -> Result<(), Refusal> {
        planes_from_cells(self.plan, &self.cells, &mut self.present, &mut self.refined)
    }

    fn give_cells(&mut self) -> Result<(), Refusal> {
        planes_to_cells(self.plan, &self.present, &self.refined, &mut self.cells)
    }

    /// The mesh as it was. What the lists hold does not matter.
    fn restore(&mut self, before: &Lent) {
        self.cells.copy_from_slice(&before.cells);
        self.present.copy_from_slice(&before.present);
        self.refined.copy_from_slice(&before.refined);
        self.functions.copy_from_slice(&before.functions);
    }

    fn on_bytes(&mut self, call: Call, marks: &Marks) -> Reply {
        let Lent { plan, cells: c, functions: f, cell_list: cl, function_list: fl, .. } = self;
        let p = *plan;
        let kind = match call {
            Call::Open => return of_nothing(open(p, c, f)),
            Call::Check => return of_nothing(check(p, c, f)),
            Call::Count => return of_count(count(p, c, f)),
            Call::Change(kind) => kind,
            _ => panic!("{} is not on planes", call.name()),
        };
        of_change(match kind {
            Kind::RefineCells => refine_cells(p, c, f, &marks.cells, cl, fl),
            Kind::RefineFunctions => refine_functions(p, c, f, &marks.functions, cl, fl),
            Kind::CoarsenCells => coarsen_cells(p, c, f, &marks.cells, cl, fl),
            Kind::CoarsenFunctions => coarsen_functions(p, c, f, &marks.functions, cl, fl),
        })
    }

    fn on_planes(&mut self, call: Call, marks: &Marks) -> Reply {
        let Lent { plan, present, refined, functions: f, cell_list: cl, function_list: fl, .. } =
            self;
        let (p, a, b) = (*plan, present, refined);
        let kind = match call {
            Call::Open => return of_nothing(planes_open(p, a, b, f)),
            Call::Check => return of_nothing(planes_check(p, a, b, f)),
            Call::Count => return of_count(planes_count(p, a, b, f)),
            Call::Change(kind) => kind,
            _ => panic!("{} is not on planes", call.name()),
        };
        of_change(match kind {
            Kind::RefineCells => planes_refine_cells(p, a, b, f, &marks.cells, cl, fl),
            Kind::RefineFunctions => planes_refine_functions(p, a, b, f, &marks.functions, cl, fl),
            Kind::CoarsenCells => planes_coarsen_cells(p, a, b, f, &marks.cells, cl, fl),
            Kind::CoarsenFunctions => {
                planes_coarsen_functions(p, a, b, f, &marks.functions, cl, fl)
            }
        })
    }
}

/// One call on the mesh before it, and the least times of both forms.
struct Row {
    call: Call,
    marks: Marks,
    before: Lent,
    bytes: Duration,
    planes: Duration,
}

impl Row {
    /// Both forms are seen to leave the same.
    fn new(call: Call, tables: &Tables, marks: &[u32]) -> Row {
        let (before, marks) = (Lent::new(tables), Marks::new(marks));
        let (mut bytes, mut planes) = (before.clone(), before.clone());
        let reply = bytes.on_bytes(call, &marks);
        assert!(reply.is_ok(), "{} {:?}", call.name(), tables.plan);
        assert_eq!(reply, planes.on_planes(call, &marks), "{} {:?}", call.name(), tables.plan);
        assert_eq!((bytes.take_cells(), planes.give_cells()), (Ok(()), Ok(())));
        assert!(bytes == planes, "{} {:?}", call.name(), tables.plan);
        Row { call, marks, before, bytes: Duration::MAX, planes: Duration::MAX }
    }

    fn time(&mut self, lent: &mut Lent) {
        let Row { call, marks, before, bytes, planes } = self;
        lent.restore(before);
        *bytes = timed(|| lent.on_bytes(*call, marks)).min(*bytes);
        lent.restore(before);
        *planes = timed(|| lent.on_planes(*call, marks)).min(*planes);
    }

    fn ratio(&self, scenario: &Scenario) -> Ratio {
        Ratio {
            call: self.call,
            marks: if matches!(self.call, Call::Change(_)) { self.marks.cells.len() } else { 0 },
            place: scenario.to_string(),
            ratio: self.planes.as_secs_f64() / self.bytes.as_secs_f64(),
        }
    }
}

/// Measures and prints the calls on the meshes of each scenario.
pub fn measure(scenarios: &[Scenario]) -> Vec<Ratio> {
    println!("planes: how many times as long as on bytes; with no mark, one and all, each time");
    println!("refine cells, refine functions, coarsen cells, coarsen functions; in microseconds,");
    println!(
        "what it takes to make planes of bytes and bytes of planes, beside the check of bytes"
    );
    println!(
        "{:<62} {:>5} {:>5} {:>5} {:^25} {:^25} {:^25} {:>6} {:>6} {:>6}",
        "mesh", "open", "check", "count", "no mark", "one mark", "all marks", "from", "to", "check"
    );
    let ratios = scenarios.iter().flat_map(measure_one).collect();
    println!();
    ratios
}

fn measure_one(scenario: &Scenario) -> Vec<Ratio> {
    let tables = &scenario.to_coarsen;
    let mut rows: Vec<Row> =
        [Call::Open, Call::Check, Call::Count].map(|call| Row::new(call, tables, &[])).into();
    for marks in [|_: &[u32]| 0, |_: &[u32]| 1, |all: &[u32]| all.len()] {
        for kind in Kind::ALL {
            let tables = scenario.before(kind);
            let all = tables.markable(kind);
            // The last one is of the finest level, where a class asks for most.
            rows.push(Row::new(Call::Change(kind), tables, &all[all.len() - marks(&all)..]));
        }
    }
    let mut lent = Lent::new(tables);
    let [mut from, mut to] = [Duration::MAX; 2];
    repeat(Duration::from_millis(900), 1000, || {
        rows.iter_mut().for_each(|row| row.time(&mut lent));
        from = timed(|| lent.take_cells()).min(from);
        to = timed(|| lent.give_cells()).min(to);
    });
    let ratios: Vec<Ratio> = rows.iter().map(|row| row.ratio(scenario)).collect();
    print!("{:<62}", scenario.to_string());
    for (i, ratio) in ratios.iter().enumerate() {
        // The four calls with as many marks stand together.
        let width = if i >= 3 && i % 4 == 3 { 7 } else { 5 };
        print!(" {:>width$.2}", ratio.ratio);
    }
    let [from, to, check] = [from, to, rows[1].bytes].map(microseconds);
    println!(" {from:>6.1} {to:>6.1} {check:>6.1}");
    ratios
}
