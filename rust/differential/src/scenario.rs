//! Meshes near the largest, on which the calls are timed and their stack is measured.

use crate::{all_corners, plan, Kind, Tables};
use model::Plan;

/// A mesh to refine and a mesh to coarsen, one step apart.
pub struct Scenario {
    pub name: &'static str,
    pub to_refine: Tables,
    pub to_coarsen: Tables,
}

impl Scenario {
    pub fn plan(&self) -> Plan {
        self.to_refine.plan
    }

    /// The mesh that a call of this kind is to change.
    pub fn before(&self, kind: Kind) -> &Tables {
        if kind.refines() {
            &self.to_refine
        } else {
            &self.to_coarsen
        }
    }
}

impl std::fmt::Display for Scenario {
    fn fmt(&self, f: &mut std::fmt::Formatter<'_>) -> std::fmt::Result {
        let Plan { columns, rows, levels, degree_across, degree_up, class, .. } = self.plan();
        let name = self.name;
        write!(f, "{name}, {columns} {rows} {levels}, degrees {degree_across} {degree_up}")?;
        write!(f, ", class {class}")?;
        let corners = [self.plan().corners_across, self.plan().corners_up].map(u32::count_ones);
        match corners {
            [0, 0] => Ok(()),
            [across, up] => write!(f, ", {across} and {up} corners"),
        }
    }
}

/// Square and long plans of as many cells as there may be, with wide rows and with narrow ones.
pub fn all() -> Vec<Scenario> {
    vec![
        wholly(plan([1, 1, 8, 3, 3, 0])),
        wholly(plan([16, 16, 4, 3, 3, 0])),
        wholly(plan([16, 1, 6, 3, 3, 0])),
        wholly(plan([1, 16, 6, 3, 3, 0])),
        wholly(plan([1, 1, 8, 4, 4, 2])),
        wholly(plan([16, 1, 6, 4, 4, 2])),
        wholly(plan([1, 16, 6, 4, 4, 2])),
        towards_the_first_cell(plan([1, 1, 8, 4, 4, 2])),
        towards_the_first_cell(plan([16, 16, 4, 4, 4, 2])),
        towards_the_first_cell(plan([16, 1, 6, 4, 4, 2])),
        towards_the_first_cell(plan([1, 16, 6, 4, 4, 2])),
        nearly_empty(plan([16, 16, 4, 4, 4, 2])),
        nearly_empty(plan([1, 1, 8, 3, 3, 0])),
    ]
}

/// The same with every line of level 0 a corner, the most functions that there may be among them.
pub fn with_corners() -> Vec<Scenario> {
    vec![
        wholly(cornered([16, 16, 4, 4, 4, 2])),
        wholly(cornered([16, 16, 4, 2, 2, 2])),
        wholly(cornered([16, 1, 6, 4, 4, 2])),
        wholly(cornered([16, 1, 6, 2, 2, 0])),
        towards_the_first_cell(cornered([16, 16, 4, 4, 4, 2])),
        towards_the_first_cell(cornered([16, 1, 6, 4, 4, 2])),
        nearly_empty(cornered([16, 16, 4, 4, 4, 2])),
    ]
}

/// The same for plans whose surface has heights: degrees 1 and 2, and at most four levels.
pub fn with_heights() -> Vec<Scenario> {
    vec![
        wholly(plan([16, 16, 4, 2, 2, 0])),
        wholly(plan([16, 16, 4, 1, 1, 2])),
        wholly(plan([16, 1, 4, 2, 1, 0])),
        towards_the_first_cell(plan([16, 16, 4, 2, 2, 2])),
        nearly_empty(plan([16, 16, 4, 2, 2, 2])),
        wholly(cornered([16, 16, 4, 2, 2, 2])),
        towards_the_first_cell(cornered([16, 16, 4, 2, 2, 2])),
    ]
}

/// The same for plans that the projector takes: as many cells and as many active ones as there may
/// be, and the most functions.
pub fn projected() -> Vec<Scenario> {
    vec![
        wholly(plan([14, 14, 2, 2, 2, 2])),
        wholly(plan([14, 14, 2, 1, 1, 2])),
        wholly(plan([12, 1, 4, 2, 2, 0])),
        wholly(plan([4, 3, 4, 2, 2, 2])),
        wholly(plan([8, 6, 3, 2, 2, 2])),
        towards_the_first_cell(plan([4, 3, 4, 2, 2, 2])),
        nearly_empty(plan([14, 14, 2, 2, 2, 2])),
        wholly(cornered([14, 14, 2, 2, 2, 2])),
        wholly(cornered([12, 1, 4, 2, 2, 0])),
    ]
}

/// The plan with every line of level 0 a corner.
fn cornered(numbers: [u32; 6]) -> Plan {
    let plan = plan(numbers);
    let (corners_across, corners_up) = (all_corners(plan.columns), all_corners(plan.rows));
    Plan { corners_across, corners_up, ..plan }
}

/// All cells refined, and the mesh before its last level was.
pub fn wholly(plan: Plan) -> Scenario {
    steps("wholly refined", plan, plan.levels - 1, |tables, _| tables.markable(Kind::RefineCells))
}

/// The first cell of each level refined down to the last, and the mesh before the last step.
pub fn towards_the_first_cell(plan: Plan) -> Scenario {
    steps("refined towards the first cell", plan, plan.levels - 1, |tables, level| {
        vec![tables.plan.cell_number(model::Cell { level, row: 0, column: 0 }) as u32]
    })
}

/// The open mesh, and the same with one cell refined.
fn nearly_empty(plan: Plan) -> Scenario {
    steps("nearly empty", plan, 1, |_, _| vec![0])
}

/// Refines so many times the cells that are to be marked then.
fn steps(
    name: &'static str,
    plan: Plan,
    steps: u32,
    marks: impl Fn(&Tables, u32) -> Vec<u32>,
) -> Scenario {
    let mut to_coarsen = Tables::opened(plan);
    let mut to_refine = to_coarsen.clone();
    for step in 0..steps {
        to_refine = to_coarsen.clone();
        to_coarsen.call_with_room(Kind::RefineCells, &marks(&to_refine, step));
    }
    Scenario { name, to_refine, to_coarsen }
}
