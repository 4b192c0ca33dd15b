//! The heights of a surface.

use crate::{Function, Mesh, Plan, Refusal};
use std::ops::{Deref, DerefMut, Index, IndexMut};

/// The heights of a surface: a whole number for each function of each level, indexed by the
/// [`Function`]. On level k the unit is 16^-k mm. They are a slice of numbers too, in the order of
/// the functions, for every call that takes heights.
///
/// ```
/// # use wallmirror::{Function, Heights, Mesh, Plan};
/// let mesh = Mesh::open(Plan { columns: 3, levels: 3, ..Plan::default() })?;
/// let mut heights = Heights::of(&mesh);
/// assert_eq!(heights.len(), 94);
/// heights[Function(1)] = 10;
/// heights[Function(1)] += 2;
/// assert_eq!(mesh.height(&heights, 32, 0), Ok(12.0));
/// heights.fill(7);
/// assert_eq!(mesh.height(&heights, 32, 0), Ok(7.0));
/// # Ok::<(), wallmirror::Refusal>(())
/// ```
///
/// A plain number is no index, so that the number of a cell cannot be one:
///
/// ```compile_fail,E0308
/// # use wallmirror::{Heights, Plan};
/// let mut heights = Heights::of_plan(Plan::default()).unwrap();
/// heights[1] = 10;
/// ```
///
/// Indexing panics for a function that they do not have.
#[derive(Clone, Debug, PartialEq, Eq, Hash)]
pub struct Heights(Vec<i32>);

impl Heights {
    /// All 0, one for each function of the mesh.
    pub fn of(mesh: &Mesh) -> Heights {
        Heights(vec![0; mesh.functions.len()])
    }

    /// All 0, one for each function of the plan. Refuses 1 and 2.
    ///
    /// ```
    /// # use wallmirror::{Heights, Plan, Refusal};
    /// let plan = Plan { columns: 3, levels: 3, ..Plan::default() };
    /// assert_eq!(Heights::of_plan(plan).unwrap().len(), 94);
    /// let refused = Heights::of_plan(Plan { columns: 17, ..plan });
    /// assert_eq!(refused, Err(Refusal::PlanOutOfRange));
    /// ```
    pub fn of_plan(plan: Plan) -> Result<Heights, Refusal> {
        plan.check()?;
        Ok(Heights(vec![0; plan.functions().expect("a plan that is not refused")]))
    }
}

/// Numbers in the order of the functions. Where there is not one for each, the calls refuse them
/// with 3.
impl From<Vec<i32>> for Heights {
    fn from(heights: Vec<i32>) -> Heights {
        Heights(heights)
    }
}

impl From<Heights> for Vec<i32> {
    fn from(heights: Heights) -> Vec<i32> {
        heights.0
    }
}

impl Deref for Heights {
    type Target = [i32];

    fn deref(&self) -> &[i32] {
        &self.0
    }
}

impl DerefMut for Heights {
    fn deref_mut(&mut self) -> &mut [i32] {
        &mut self.0
    }
}

impl Index<Function> for Heights {
    type Output = i32;

    fn index(&self, function: Function) -> &i32 {
        &self.0[function.0 as usize]
    }
}

impl IndexMut<Function> for Heights {
    fn index_mut(&mut self, function: Function) -> &mut i32 {
        &mut self.0[function.0 as usize]
    }
}
