//! What rounds from one mesh to another take, as ratios to the checks of both meshes, with which the
//! call begins. All calls are made by the wrapper in turns.

use crate::{microseconds, repeat, timed};
use differential::scenario::Scenario;
use differential::{of_wrapper, Tables};
use std::time::Duration;
use wallmirror::{check, rounds, Cell, Refusal, Rounds, MAX_ROUNDS};

/// Two meshes of one plan, and the least times.
struct Row<'a> {
    today: &'a Tables,
    wanted: &'a Tables,
    marks: usize,
    checks: Duration,
    rounds: Duration,
}

impl Row<'_> {
    /// The call is seen to find as many marks as the wanted mesh has refined cells more.
    fn new<'a>(today: &'a Tables, wanted: &'a Tables) -> Row<'a> {
        let [before, after] = [today, wanted].map(|tables| tables.count().refined_cells as usize);
        let marks = after - before;
        let found = Rounds { marks, rounds: today.plan.levels as usize - 1 };
        let (mut list, mut lengths) = (vec![Cell(0); marks], [0; MAX_ROUNDS]);
        assert_eq!(find(today, wanted, &mut list, &mut lengths), Ok(found), "{:?}", today.plan);
        let [checks, rounds] = [Duration::MAX; 2];
        Row { today, wanted, marks, checks, rounds }
    }

    fn time(&mut self, list: &mut [Cell]) {
        let Row { today, wanted, checks, rounds, .. } = self;
        let mut lengths = [0; MAX_ROUNDS];
        *checks = timed(|| [check_one(today), check_one(wanted)]).min(*checks);
        *rounds = timed(|| find(today, wanted, list, &mut lengths)).min(*rounds);
    }

    fn print(&self) {
        let ratio = self.rounds.as_secs_f64() / self.checks.as_secs_f64();
        print!(" {:>6} {:>8.1} {ratio:>8.2}", self.marks, microseconds(self.rounds));
    }
}

fn check_one(tables: &Tables) -> Result<(), Refusal> {
    check(of_wrapper(tables.plan), &tables.cells, &tables.functions)
}

fn find(
    today: &Tables,
    wanted: &Tables,
    list: &mut [Cell],
    lengths: &mut [u32],
) -> Result<Rounds, Refusal> {
    let (plan, Tables { cells, functions, .. }) = (of_wrapper(today.plan), today);
    rounds(plan, cells, functions, &wanted.cells, &wanted.functions, list, lengths)
}

/// Measures and prints the rounds to the refined mesh of each scenario.
pub fn measure(scenarios: &[Scenario]) {
    println!(
        "rounds to a mesh, from the one just opened, from the one a step before, and from itself:"
    );
    println!("marks, microseconds, and how many times as long as the checks of both meshes");
    println!("{:<62} {:>24} {:>24} {:>24}", "mesh", "just opened", "a step before", "itself");
    scenarios.iter().for_each(measure_one);
    println!();
}

fn measure_one(scenario: &Scenario) {
    let (opened, wanted) = (Tables::opened(scenario.plan()), &scenario.to_coarsen);
    let mut rows = [&opened, &scenario.to_refine, wanted].map(|today| Row::new(today, wanted));
    let mut list = vec![Cell(0); wanted.cells.len()];
    repeat(Duration::from_millis(300), 1000, || {
        rows.iter_mut().for_each(|row| row.time(&mut list));
    });
    print!("{:<62}", scenario.to_string());
    rows.iter().for_each(Row::print);
    println!();
}
