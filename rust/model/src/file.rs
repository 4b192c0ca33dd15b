//! A mesh as a file: the first six numbers of the plan, the count of refined cells, the first of
//! them if there is one, then each difference from the one before, in rising order; then both
//! corner numbers, unless both are 0.
//!
//! Each number is written in groups of seven bits, lowest group first, the high bit set on all but
//! the last, in the shortest form and at most three groups.

use crate::{
    check, is_admissible, is_mesh, labels, refuse_plan, refuse_sizes, table, Plan, REFINED,
};

/// The plan that reading answers with refusals 12, 1 and 2.
pub const NO_PLAN: Plan = Plan {
    columns: 0,
    rows: 0,
    levels: 0,
    degree_across: 0,
    degree_up: 0,
    class: 0,
    corners_across: 0,
    corners_up: 0,
};

/// Cell table and function table.
pub type Tables = (Vec<u8>, Vec<u8>);

/// The most groups of a number.
const MOST_GROUPS: usize = 3;

/// The bytes of a number.
pub fn number(value: u32) -> Vec<u8> {
    let mut groups = vec![];
    let mut left = value;
    loop {
        let group = (left % 128) as u8;
        left /= 128;
        if left == 0 {
            groups.push(group);
            return groups;
        }
        groups.push(group + 128);
    }
}

/// Takes the number that the bytes begin with from them.
fn next(bytes: &mut &[u8]) -> Result<u32, u32> {
    let Some(last) = bytes.iter().position(|&byte| byte < 128) else {
        return Err(12); // cut off, or nothing there at all
    };
    let (groups, rest) = bytes.split_at(last + 1);
    if groups.len() > MOST_GROUPS {
        return Err(12);
    }
    let value = groups.iter().rev().fold(0, |value, byte| value * 128 + u32::from(byte % 128));
    if number(value) != groups {
        return Err(12); // not in the shortest form
    }
    *bytes = rest;
    Ok(value)
}

/// The numbers of a file, with the bytes behind the last. Listed cells may be far too large.
struct Listing<'a> {
    plan: Plan,
    cells: Vec<u64>,
    rest: &'a [u8],
}

/// Refusal 12 is all that is judged here.
fn listing(file: &[u8]) -> Result<Listing<'_>, u32> {
    let mut rest = file;
    let mut plan = Plan {
        columns: next(&mut rest)?,
        rows: next(&mut rest)?,
        levels: next(&mut rest)?,
        degree_across: next(&mut rest)?,
        degree_up: next(&mut rest)?,
        class: next(&mut rest)?,
        ..NO_PLAN
    };
    let count = next(&mut rest)?;
    let mut cells: Vec<u64> = vec![];
    for _ in 0..count {
        let value = u64::from(next(&mut rest)?);
        match cells.last() {
            None => cells.push(value),
            Some(_) if value == 0 => return Err(12),
            Some(before) => cells.push(before + value),
        }
    }
    if !rest.is_empty() {
        (plan.corners_across, plan.corners_up) = (next(&mut rest)?, next(&mut rest)?);
        if (plan.corners_across, plan.corners_up) == (0, 0) {
            return Err(12); // to be left out
        }
    }
    Ok(Listing { plan, cells, rest })
}

/// Both tables, where so many bytes are lent for them. Refusals 3 to 5 and 13.
fn rebuilt(listing: &Listing, cells: usize, functions: usize) -> Result<Tables, u32> {
    let plan = listing.plan;
    refuse_sizes(plan, cells, functions)?;
    if listing.cells.iter().any(|&cell| cell >= plan.cell_total() as u64) {
        return Err(4);
    }
    let refined = listing.cells.iter().map(|&cell| plan.cell_at(cell as usize)).collect();
    let cells = table(plan, &refined);
    if !is_mesh(plan, &cells) {
        return Err(4);
    }
    if !is_admissible(plan, &cells) {
        return Err(5);
    }
    if !listing.rest.is_empty() {
        return Err(13);
    }
    let functions = labels(plan, &cells);
    Ok((cells, functions))
}

/// The plan that is answered, and both tables or a refusal, where so many bytes are lent for them.
pub fn read(file: &[u8], cells: usize, functions: usize) -> (Plan, Result<Tables, u32>) {
    let listing = match listing(file) {
        Err(refusal) => return (NO_PLAN, Err(refusal)),
        Ok(listing) => listing,
    };
    if let Err(refusal) = refuse_plan(listing.plan) {
        return (NO_PLAN, Err(refusal));
    }
    (listing.plan, rebuilt(&listing, cells, functions))
}

/// The file, where so many bytes are lent for it.
pub fn write(plan: Plan, cells: &[u8], functions: &[u8], room: usize) -> Result<Vec<u8>, u32> {
    check(plan, cells, functions)?;
    let refined: Vec<u32> =
        (0..).zip(cells).filter(|&(_, &byte)| byte == REFINED).map(|(cell, _)| cell).collect();
    let mut numbers = vec![
        plan.columns,
        plan.rows,
        plan.levels,
        plan.degree_across,
        plan.degree_up,
        plan.class,
        refined.len() as u32,
    ];
    numbers.extend(refined.first());
    numbers.extend(refined.windows(2).map(|pair| pair[1] - pair[0]));
    if (plan.corners_across, plan.corners_up) != (0, 0) {
        numbers.extend([plan.corners_across, plan.corners_up]);
    }
    let file = numbers.into_iter().flat_map(number).collect::<Vec<u8>>();
    if room < file.len() {
        return Err(10);
    }
    Ok(file)
}

#[cfg(test)]
mod tests {
    use super::*;

    fn number_of(file: &[u8]) -> u32 {
        let (plan, refused) = read(file, 0, 0);
        let number = refused.expect_err("no tables");
        assert_eq!(plan == NO_PLAN, [12, 1, 2].contains(&number), "{file:?}");
        number
    }

    /// 3 is what a good file gets where there are no tables.
    #[test]
    fn corners_behind_the_last_cell() {
        for (rest, number) in [
            (&[][..], 3),
            (&[2, 0], 3),
            (&[0, 2], 3),
            (&[6, 2], 3),
            // Alone, cut off, too long, not shortest, or both 0.
            (&[2], 12),
            (&[0], 12),
            (&[0x80], 12),
            (&[2, 0x80], 12),
            (&[2, 0x82, 0x00], 12),
            (&[0x82, 0x00, 2], 12),
            (&[2, 0x80, 0x80, 0x80, 0x01], 12),
            (&[0, 0], 12),
            (&[0, 0, 2], 12),
            // Bits outside 1 to A-1 or B-1.
            (&[1, 0], 1),
            (&[8, 0], 1),
            (&[0, 1], 1),
            (&[0, 4], 1),
            (&[2, 0x80, 0x80, 0x01], 1),
            // What follows both is not looked at before the tables.
            (&[2, 0, 0x80], 3),
        ] {
            for cells in [&[0][..], &[1, 5], &[2, 0, 1]] {
                let file = [&[3, 2, 2, 2, 2, 2], cells, rest].concat();
                assert_eq!(number_of(&file), number, "{file:?}");
            }
        }
    }

    #[test]
    fn both_corner_numbers_or_none() {
        for (corners, rest) in
            [((0, 0), &[][..]), ((2, 0), &[2, 0]), ((0, 2), &[0, 2]), ((6, 2), &[6, 2])]
        {
            let file = [&[3, 2, 2, 2, 2, 2, 1, 4], rest].concat();
            let (plan, _) = read(&file, 0, 0);
            assert_eq!((plan.corners_across, plan.corners_up), corners);
            let (t, f) = (plan.cell_total(), plan.function_total());
            let (cells, functions) = read(&file, t, f).1.expect("a mesh");
            assert_eq!(write(plan, &cells, &functions, file.len()), Ok(file.clone()));
            assert_eq!(write(plan, &cells, &functions, file.len() - 1), Err(10));
            let longer = [&file[..], if rest.is_empty() { &[2, 0, 5] } else { &[5] }].concat();
            assert_eq!(read(&longer, t, f).1, Err(if rest.is_empty() { 3 } else { 13 }));
        }
    }
}
