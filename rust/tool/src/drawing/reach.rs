//! What a split of one cell can split at the most: how many cells, and where they lie. That is proved
//! of every split that is accepted, on every wall of the plan.

use crate::words;
use wallmirror::{Cell, Mesh, Window};

pub struct Reach {
    cell: Cell,
    /// The cell itself first, then one for each coarser level that is reached, the nearest first.
    pub windows: Vec<Window>,
    /// `None` on the last level, where no wall of the plan takes a split.
    most: Option<usize>,
    /// What the wall refuses a split of the cell for, if it does.
    fault: Option<String>,
}

impl Reach {
    /// `None` if the plan does not have the cell.
    pub fn of(mesh: &Mesh, cell: Cell) -> Option<Reach> {
        let plan = mesh.plan;
        let mut windows = plan.reach(cell)?;
        let level = windows.first()?.level;
        let most = plan.most_refined(level).filter(|_| level + 1 < plan.levels);
        if most.is_none() {
            windows.truncate(1);
        }
        let fault = words::fault(mesh, &words::split(vec![cell.0]));
        Some(Reach { cell, windows, most, fault })
    }

    /// What each outline holds, in the order of the windows.
    pub fn notes(&self) -> impl Iterator<Item = String> + '_ {
        self.windows.iter().enumerate().map(|(i, window)| match i {
            0 => format!("cell {}, of level {}", self.cell.0, window.level),
            _ => format!("up to {} of level {}", words::count(size(window), "cell"), window.level),
        })
    }

    /// What is known of a split, each on a line of its own.
    pub fn sentences(&self) -> Vec<String> {
        let Reach { cell: Cell(cell), windows, most, fault } = self;
        let mut said = vec![];
        if let Some(fault) = fault {
            said.push(format!("A split is refused here: {fault}."));
        }
        let Some(most) = *most else { return said };
        let splits = match most {
            1 => String::from("this cell alone"),
            _ => format!("at most {most} cells, itself included"),
        };
        said.push(match fault {
            None => format!("A split of cell {cell} splits {splits}."),
            Some(_) => format!("Where cell {cell} is active, a split splits {splits}."),
        });
        if windows.len() > 1 {
            said.push(format!("Each lies in the outline of its level{}.", self.cut_off(most)));
        }
        said
    }

    /// How many cells the outlines hold, where that is fewer because the wall ends.
    fn cut_off(&self, most: usize) -> String {
        let held: usize = self.windows.iter().map(size).sum();
        if held < most {
            format!("; the outlines hold {held} cells in all")
        } else {
            String::new()
        }
    }
}

/// How many cells a window has.
fn size(window: &Window) -> usize {
    window.rows.len() * window.columns.len()
}
