//! The cells of a mesh as two bit planes in 64-bit words, beside a function table in bytes.
//!
//! Every call is said by the bytes that the planes hold: it refuses what are no planes of the plan,
//! does what the call on bytes does, and answers the planes of the cells that it made.

use crate::{refuse_plan, Call, Change, Count, Plan, ABSENT, ACTIVE, REFINED};

/// Bits of a word.
pub const BITS: usize = 64;

/// The word for bit b of a plane, and the bit in it. The lowest bit is the first.
fn place(bit: usize) -> (usize, u64) {
    (bit / BITS, 2u64.pow((bit % BITS) as u32))
}

fn has(plane: &[u64], bit: usize) -> bool {
    let (word, value) = place(bit);
    plane[word] / value % 2 == 1
}

/// The plane of so many bits in which those are set for which it is so.
fn plane(bits: usize, is_set: impl Fn(usize) -> bool) -> Vec<u64> {
    let mut plane = vec![0; bits.div_ceil(BITS)];
    for bit in (0..bits).filter(|&bit| is_set(bit)) {
        let (word, value) = place(bit);
        plane[word] += value;
    }
    plane
}

/// Both planes, of whatever content and lengths.
#[derive(Clone, Debug, PartialEq, Eq)]
pub struct Planes {
    pub present: Vec<u64>,
    pub refined: Vec<u64>,
}

impl Planes {
    /// The planes of a cell table of bytes 0 to 2.
    pub fn of(cells: &[u8]) -> Planes {
        Planes {
            present: plane(cells.len(), |cell| cells[cell] != ABSENT),
            refined: plane(cells.len(), |cell| cells[cell] == REFINED),
        }
    }

    /// The bytes of so many cells. For planes that have words for all of them.
    pub fn cells(&self, cells: usize) -> Vec<u8> {
        let byte = |cell| match (has(&self.present, cell), has(&self.refined, cell)) {
            (false, _) => ABSENT,
            (true, false) => ACTIVE,
            (true, true) => REFINED,
        };
        (0..cells).map(byte).collect()
    }

    /// Whether no bit after those of so many cells is set, and every refined cell is present. For
    /// planes of the same length.
    pub fn are_in_order(&self, cells: usize) -> bool {
        let end = self.present.len() * BITS;
        let (present, refined) = (|bit| has(&self.present, bit), |bit| has(&self.refined, bit));
        (cells..end).all(|spare| !present(spare) && !refined(spare))
            && (0..end).filter(|&bit| refined(bit)).all(present)
    }

    /// How many words each has.
    fn lengths(&self) -> [usize; 2] {
        [self.present.len(), self.refined.len()]
    }

    /// The bytes that they hold; 4 where they are not in order. For planes of the plan's length.
    fn held(&self, plan: Plan) -> Result<Vec<u8>, u32> {
        let cells = plan.cell_total();
        if !self.are_in_order(cells) {
            return Err(4);
        }
        Ok(self.cells(cells))
    }
}

/// How many words each plane of the plan has. For a plan in range.
pub fn words(plan: Plan) -> usize {
    plan.cell_total().div_ceil(BITS)
}

/// Refusals 1 to 3, where there are planes of these lengths.
fn refuse_lengths(plan: Plan, planes: [usize; 2]) -> Result<(), u32> {
    refuse_plan(plan)?;
    if planes != [words(plan); 2] {
        return Err(3);
    }
    Ok(())
}

/// The same with a function table.
fn refuse_sizes(plan: Plan, planes: [usize; 2], functions: usize) -> Result<(), u32> {
    refuse_lengths(plan, planes)?;
    if functions != plan.function_total() {
        return Err(3);
    }
    Ok(())
}

/// The bytes that the planes of a mesh hold, or what is refused before the call on bytes.
fn bytes(plan: Plan, planes: &Planes, functions: &[u8]) -> Result<Vec<u8>, u32> {
    refuse_sizes(plan, planes.lengths(), functions.len())?;
    planes.held(plan)
}

// ---- The calls ----

/// The words of a plane, or 0 for a plan that is refused.
pub fn len(plan: Plan) -> usize {
    refuse_plan(plan).map_or(0, |()| words(plan))
}

/// Planes and function table of the coarsest mesh, for planes of these lengths and so many functions.
pub fn open(plan: Plan, planes: [usize; 2], functions: usize) -> Result<(Planes, Vec<u8>), u32> {
    refuse_sizes(plan, planes, functions)?;
    let (cells, functions) = crate::open(plan, plan.cell_total(), functions)?;
    Ok((Planes::of(&cells), functions))
}

pub fn check(plan: Plan, planes: &Planes, functions: &[u8]) -> Result<(), u32> {
    crate::check(plan, &bytes(plan, planes, functions)?, functions)
}

pub fn count(plan: Plan, planes: &Planes, functions: &[u8]) -> Result<Count, u32> {
    crate::count(plan, &bytes(plan, planes, functions)?, functions)
}

/// A refining or coarsening call: what it makes in bytes, and the planes.
pub fn change(
    call: Call,
    plan: Plan,
    (planes, functions): (&Planes, &[u8]),
    marks: &[u32],
    (cell_room, function_room): (usize, usize),
) -> Result<(Change, Planes), u32> {
    let cells = bytes(plan, planes, functions)?;
    let change = call(plan, &cells, functions, marks, cell_room, function_room)?;
    let planes = Planes::of(&change.cells);
    Ok((change, planes))
}

/// The planes of a cell table, mesh or not, for planes of these lengths.
pub fn from_cells(plan: Plan, cells: &[u8], planes: [usize; 2]) -> Result<Planes, u32> {
    refuse_lengths(plan, planes)?;
    if cells.len() != plan.cell_total() {
        return Err(3);
    }
    if cells.iter().any(|byte| ![ABSENT, ACTIVE, REFINED].contains(byte)) {
        return Err(4);
    }
    Ok(Planes::of(cells))
}

/// The cell table of so many bytes that the planes hold, mesh or not.
pub fn to_cells(plan: Plan, planes: &Planes, cells: usize) -> Result<Vec<u8>, u32> {
    refuse_lengths(plan, planes.lengths())?;
    if cells != plan.cell_total() {
        return Err(3);
    }
    planes.held(plan)
}

#[cfg(test)]
mod tests {
    use super::*;
    use crate::tests::plan;

    fn planes(present: &[u64], refined: &[u64]) -> Planes {
        Planes { present: present.to_vec(), refined: refined.to_vec() }
    }

    /// Cells 0 to 64 of a table of 65, worked by hand.
    #[test]
    fn bits_by_hand() {
        let mut cells = vec![ABSENT; 65];
        (cells[0], cells[1], cells[63], cells[64]) = (ACTIVE, REFINED, ACTIVE, REFINED);
        let of = planes(&[0x8000_0000_0000_0003, 1], &[2, 1]);
        assert_eq!(Planes::of(&cells), of);
        assert_eq!(of.cells(65), cells);
        assert!(of.are_in_order(65));
        // Cell 64 is then a spare bit.
        assert!(!of.are_in_order(64));
        assert!(planes(&of.present[..1], &of.refined[..1]).are_in_order(64));
        assert_eq!(Planes::of(&cells[..64]), planes(&of.present[..1], &of.refined[..1]));
    }

    #[test]
    fn order_by_hand() {
        for (present, refined, in_order) in [
            (0, 0, true),
            (0b111, 0b101, true),
            (0b111, 0b111, true),
            (0b011, 0b100, false),
            (0b1000, 0, false),
            (0, 0b1000, false),
            (0b1000, 0b1000, false),
            (1 << 63, 0, false),
            (1 << 63, 1 << 63, false),
        ] {
            assert_eq!(planes(&[present], &[refined]).are_in_order(3), in_order);
        }
        // Without spare bits.
        assert!(planes(&[u64::MAX], &[u64::MAX]).are_in_order(64));
        assert!(!planes(&[u64::MAX - 1], &[1]).are_in_order(64));
        // A cell that is refined and not present reads as absent.
        assert_eq!(planes(&[0b01], &[0b11]).cells(2), [REFINED, ABSENT]);
    }

    #[test]
    fn words_of_plans() {
        for (numbers, cells, words) in [
            ([1, 1, 1, 1, 1, 0, 0, 0], 1, 1),
            ([7, 9, 1, 1, 1, 0, 0, 0], 63, 1),
            ([8, 8, 1, 1, 1, 0, 0, 0], 64, 1),
            ([5, 13, 1, 1, 1, 0, 0, 0], 65, 2),
            ([16, 16, 4, 1, 1, 0, 0, 0], 21_760, 340),
            ([1, 1, 8, 1, 1, 0, 0, 0], 21_845, 342),
        ] {
            assert_eq!((plan(numbers).cell_total(), len(plan(numbers))), (cells, words));
        }
        assert_eq!(len(plan([17, 1, 1, 1, 1, 0, 0, 0])), 0);
        assert_eq!(len(plan([16, 16, 5, 1, 1, 0, 0, 0])), 0);
    }

    /// The plan 3 1 3, degrees 1 1, class 2: cell 0 refined, then 4, and 1 for the class. Their
    /// children are 3, 4, 9, 10, then 17, 18, 29, 30 and 5, 6, 11, 12.
    #[test]
    fn a_run_by_hand() {
        let plan = plan([3, 1, 3, 1, 1, 2, 0, 0]);
        let (fresh, functions) = open(plan, [1; 2], 94).expect("a plan in range");
        assert_eq!(fresh, planes(&[0b111], &[0]));
        let refine = |before: (&Planes, &[u8]), mark| {
            change(crate::refine_cells, plan, before, &[mark], (63, 94)).expect("an active cell")
        };
        let (first, after) = refine((&fresh, &functions), 0);
        assert_eq!(after, planes(&[0b110_0001_1111], &[1]));
        let (second, after) = refine((&after, &first.functions), 4);
        assert_eq!((second.cell_list, second.function_list), (vec![1, 4], vec![1, 5]));
        let present = 0b110_0000_0000_0110_0001_1110_0111_1111;
        assert_eq!(after, planes(&[present], &[0b10011]));
        assert_eq!(check(plan, &after, &second.functions), Ok(()));
        assert_eq!(to_cells(plan, &after, 63), Ok(second.cells.clone()));
        assert_eq!(from_cells(plan, &second.cells, [1; 2]), Ok(after));
    }
}
