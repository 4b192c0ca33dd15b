//! Two setters fill one draft over an afternoon while a third looks at the mesh, which is the one
//! without the draft until it is closed. An add with a mark that is absent adds nothing, and while
//! the draft is open nothing else is refined and nothing taken back. Closed, it is one refinement,
//! and is taken back like one.

use std::process::ExitCode;
use wallmirror::{Cell, Function, Lists, Mesh, Plan, Refusal, Season};

fn main() -> ExitCode {
    match run() {
        Ok(()) => ExitCode::SUCCESS,
        Err(refusal) => {
            eprintln!("{refusal}");
            ExitCode::FAILURE
        }
    }
}

fn run() -> Result<(), Refusal> {
    let plan = Plan { columns: 3, levels: 3, admissibility_class: 2, ..Plan::default() };
    let mut season = Season::new(Mesh::open(plan)?)?;
    println!("refine: {}", listed(season.refine_cells(&[Cell(0)])?));
    look(&season)?;

    season.open_draft()?;
    println!("a draft is open");
    add(&mut season, "the first setter", &[Cell(4)]);
    look(&season)?;
    add(&mut season, "the second setter", &[Cell(2), Cell(4)]);
    // Cell 5 is absent, so cell 3 is not added either.
    add(&mut season, "the first setter", &[Cell(3), Cell(5)]);
    look(&season)?;
    if let Err(refusal) = season.refine_cells(&[Cell(2)]) {
        println!("refine: {refusal}");
    }
    if let Err(refusal) = season.undo() {
        println!("undo: {refusal}");
    }

    println!("close: {}", listed(season.close_draft()?));
    look(&season)?;
    while let Some(undone) = season.undo()? {
        assert_eq!(undone.lists, undone.made.lists);
        println!("undo: {}", listed(&undone.lists));
    }
    look(&season)?;
    assert_eq!(season.mesh(), season.first());
    println!("the mesh is the first one, byte for byte");
    Ok(())
}

fn add(season: &mut Season, who: &str, marks: &[Cell]) {
    let added = season.add_marks(marks);
    let draft = season.mesh().draft.as_deref().map(cells).unwrap_or_default();
    let said = added.err().map(|refusal| format!("{refusal}; ")).unwrap_or_default();
    println!("{who} adds {}: {said}the draft has {draft}", cells(marks));
}

/// What the third one sees.
fn look(season: &Season) -> Result<(), Refusal> {
    let count = season.mesh().count()?;
    println!("  {} active cells, {} refined", count.active_cells, count.refined_cells);
    Ok(())
}

fn listed(lists: &Lists) -> String {
    format!("cells {}, functions {}", cells(&lists.cells), functions(&lists.functions))
}

fn cells(list: &[Cell]) -> String {
    format!("{:?}", list.iter().map(|cell| cell.0).collect::<Vec<_>>())
}

fn functions(list: &[Function]) -> String {
    format!("{:?}", list.iter().map(|function| function.0).collect::<Vec<_>>())
}
