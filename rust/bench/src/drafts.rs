//! What calls with a draft take, as ratios to calls without one, all made by the wrapper in turns.

use crate::{repeat, timed};
use differential::scenario::Scenario;
use differential::{as_cells, as_functions, of_wrapper, Kind, Tables};
use std::time::Duration;
use wallmirror::{check, draft_add, draft_close, refine_cells, refine_cells_with_draft};
use wallmirror::{Cell, Draft, Function, Refusal};

#[derive(Clone, Copy)]
enum Call {
    Check,
    /// To an open draft without marks.
    Add,
    Refine,
    /// Of a draft with these marks.
    Close,
    /// With no draft open.
    RefineWithDraft,
}

/// What a call reads and writes. An added mark is written to the list of cells.
#[derive(Clone, PartialEq, Eq)]
struct Lent {
    tables: Tables,
    cell_list: Vec<Cell>,
    function_list: Vec<Function>,
}

impl Lent {
    fn run(&mut self, call: Call, marks: &[Cell]) -> Result<(), Refusal> {
        let Lent { tables: Tables { plan, cells, functions }, cell_list, function_list } = self;
        let (p, c, f, cl, fl) = (of_wrapper(*plan), cells, functions, cell_list, function_list);
        let open = |marks| Draft { open: 1, marks };
        let none = Draft::NONE;
        let changed = match call {
            Call::Check => return check(p, c, f),
            Call::Add => return draft_add(p, c, f, &mut open(0), cl, marks),
            Call::Refine => refine_cells(p, c, f, marks, cl, fl),
            Call::Close => draft_close(p, c, f, &mut open(marks.len()), marks, cl, fl),
            Call::RefineWithDraft => refine_cells_with_draft(p, c, f, none, &[], marks, cl, fl),
        };
        changed.map(drop)
    }
}

/// Measures and prints the calls on the mesh of each scenario that is to be refined.
pub fn measure(scenarios: &[Scenario]) {
    println!("drafts: adding marks; with all marks, closing, and refining by cells with none open");
    println!(
        "{:<62} {:>6} {:>11} {:>14} {:>12} {:>16}",
        "mesh", "marks", "add 1/check", "add 1000/check", "close/refine", "none open/refine"
    );
    scenarios.iter().for_each(measure_one);
    println!();
}

fn measure_one(scenario: &Scenario) {
    let tables = scenario.to_refine.clone();
    let all = as_cells(&tables.markable(Kind::RefineCells));
    // Repeated where there are fewer.
    let thousand: Vec<Cell> = all.iter().copied().cycle().take(1000).collect();
    let calls = [
        (Call::Check, &[][..]),
        (Call::Add, &all[..1]),
        (Call::Add, &thousand),
        (Call::Refine, &all),
        (Call::Close, &all),
        (Call::RefineWithDraft, &all),
    ];
    let (cell_list, function_list) = tables.lists_with_room();
    let (cell_list, function_list) = (as_cells(&cell_list), as_functions(&function_list));
    let before = Lent { tables, cell_list, function_list };
    let after = calls.map(|(call, marks)| {
        let mut lent = before.clone();
        assert_eq!(lent.run(call, marks), Ok(()), "{scenario}");
        lent
    });
    assert!(after[2].cell_list.starts_with(&thousand), "{scenario}");
    assert!(after[3] == after[4] && after[3] == after[5], "{scenario}");
    let (mut lent, mut least) = (before.clone(), [Duration::MAX; 6]);
    repeat(Duration::from_millis(300), 1000, || {
        for ((call, marks), least) in calls.into_iter().zip(&mut least) {
            lent.tables.cells.copy_from_slice(&before.tables.cells);
            lent.tables.functions.copy_from_slice(&before.tables.functions);
            *least = timed(|| lent.run(call, marks)).min(*least);
        }
    });
    let [check, add, add_thousand, refine, close, none_open] = least.map(|time| time.as_secs_f64());
    println!(
        "{:<62} {:>6} {:>11.2} {:>14.2} {:>12.2} {:>16.2}",
        scenario.to_string(),
        all.len(),
        add / check,
        add_thousand / check,
        close / refine,
        none_open / refine
    );
}
