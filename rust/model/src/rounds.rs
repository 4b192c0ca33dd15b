//! From today's mesh to a wanted one of the same plan: rounds of cell marks.
//!
//! The rounds are made one after another on a copy of today's tables, each as a refinement by cells.
//! The marks of each are read off the cells that the rounds before it left.

use crate::{check, refine_cells, Plan, ACTIVE, REFINED};

/// "Rounds of cell marks, one for each level but the last, empty rounds kept".
#[derive(Clone, Debug, PartialEq, Eq)]
pub struct Rounds(pub Vec<Vec<u32>>);

impl Rounds {
    /// "The marks stand round after round in one lent list".
    pub fn marks(&self) -> Vec<u32> {
        self.0.concat()
    }

    /// "The L-1 round lengths in another".
    pub fn lengths(&self) -> Vec<u32> {
        self.0.iter().map(|round| round.len() as u32).collect()
    }
}

/// "Round k holds, in rising order, the wanted split cells of level k that are active by then", where
/// these are the cells by then.
fn round(plan: Plan, level: u32, wanted: &[u8], by_then: &[u8]) -> Vec<u32> {
    let of_level = plan.cells().zip(0..).filter(|(cell, _)| cell.level == level);
    let is_marked = |cell: usize| wanted[cell] == REFINED && by_then[cell] == ACTIVE;
    of_level.map(|(_, number)| number).filter(|&number| is_marked(number as usize)).collect()
}

/// Whether "a cell split today is not split in the wanted wall".
fn is_losing(cells: &[u8], wanted: &[u8]) -> bool {
    cells.iter().zip(wanted).any(|(&today, &then)| today == REFINED && then != REFINED)
}

/// The rounds from today's tables to the wanted ones, for lists of so many marks and lengths.
pub fn rounds(
    plan: Plan,
    (cells, functions): (&[u8], &[u8]),
    (wanted_cells, wanted_functions): (&[u8], &[u8]),
    (marks_room, lengths_room): (usize, usize),
) -> Result<Rounds, u32> {
    check(plan, cells, functions)?;
    check(plan, wanted_cells, wanted_functions)?;
    if is_losing(cells, wanted_cells) {
        return Err(20);
    }
    let (mut cells, mut functions) = (cells.to_vec(), functions.to_vec());
    let mut rounds = vec![];
    for level in 0..plan.levels - 1 {
        let marks = round(plan, level, wanted_cells, &cells);
        let change = refine_cells(plan, &cells, &functions, &marks, usize::MAX, usize::MAX)
            .expect("active cells that are not of the last level");
        (cells, functions) = (change.cells, change.functions);
        rounds.push(marks);
    }
    let rounds = Rounds(rounds);
    if marks_room < rounds.marks().len() || lengths_room < rounds.lengths().len() {
        return Err(10);
    }
    Ok(rounds)
}

#[cfg(test)]
mod tests {
    use super::*;
    use crate::tests::plan;
    use crate::{labels, smallest, table, Cell};
    use std::collections::BTreeSet;

    const W2: [u32; 8] = [3, 1, 3, 1, 1, 2, 0, 0];
    const SMALL: [u32; 8] = [2, 1, 3, 1, 1, 0, 0, 0];

    /// Both tables of the mesh with these refined cells, admissible or not.
    fn tables(plan: Plan, refined: &BTreeSet<Cell>) -> (Vec<u8>, Vec<u8>) {
        let cells = table(plan, refined);
        let functions = labels(plan, &cells);
        (cells, functions)
    }

    /// The rounds from the mesh with these refined cells to the one with those.
    fn between(
        plan: Plan,
        today: &BTreeSet<Cell>,
        wanted: &BTreeSet<Cell>,
        rooms: (usize, usize),
    ) -> Result<Rounds, u32> {
        let (today, wanted) = (tables(plan, today), tables(plan, wanted));
        rounds(plan, (&today.0, &today.1), (&wanted.0, &wanted.1), rooms)
    }

    fn numbered(plan: Plan, cells: &[usize]) -> BTreeSet<Cell> {
        cells.iter().map(|&number| plan.cell_at(number)).collect()
    }

    #[test]
    fn by_hand() {
        for (numbers, today, wanted, marks, lengths) in [
            (W2, &[][..], &[0, 3][..], &[0, 3][..], &[1, 1][..]),
            (W2, &[], &[0, 1, 4], &[0, 1, 4], &[2, 1]),
            (SMALL, &[], &[0, 2, 7], &[0, 2, 7], &[1, 2]),
            // An empty round is kept.
            (SMALL, &[0], &[0, 2, 7], &[2, 7], &[0, 2]),
            (SMALL, &[0], &[0, 1], &[1], &[1, 0]),
            (SMALL, &[0, 2], &[0, 2], &[], &[0, 0]),
            // One level.
            ([2, 1, 1, 1, 1, 0, 0, 0], &[], &[], &[], &[]),
        ] {
            let plan = plan(numbers);
            let (today, wanted) = (numbered(plan, today), numbered(plan, wanted));
            let rooms = (marks.len(), lengths.len());
            let rounds = between(plan, &today, &wanted, rooms).expect("lists long enough");
            assert_eq!((&rounds.marks()[..], &rounds.lengths()[..]), (marks, lengths));
        }
    }

    /// Whatever can be at fault is at fault at once, and then less and less of it.
    #[test]
    fn refusals_in_order() {
        let good = plan(W2);
        let of = |cells: &[usize]| tables(good, &numbered(good, cells));
        // Cell 4 needs cell 1.
        let ((cells, functions), (alone, labels)) = (of(&[1]), of(&[0, 4]));
        let refused = |plan, today: (&[u8], &[u8]), wanted: (&[u8], &[u8]), number| {
            assert_eq!(rounds(plan, today, wanted, (0, 0)), Err(number));
        };
        refused(Plan { degree_up: 0, ..good }, (&[], &[]), (&[], &[]), 1);
        refused(plan([16, 16, 5, 1, 1, 2, 0, 0]), (&[], &[]), (&[], &[]), 2);
        refused(good, (&cells[1..], &functions), (&[], &[]), 3);
        refused(good, (&[9; 63], &[9; 94]), (&[], &[]), 4);
        refused(good, (&alone, &[9; 94]), (&[], &[]), 5);
        refused(good, (&cells, &[9; 94]), (&[], &[]), 6);
        refused(good, (&cells, &functions), (&alone, &labels[1..]), 3);
        refused(good, (&cells, &functions), (&[9; 63], &[9; 94]), 4);
        refused(good, (&cells, &functions), (&alone, &[9; 94]), 5);
        let (wanted, labels) = of(&[0, 1, 4]);
        refused(good, (&cells, &functions), (&wanted, &[9; 94]), 6);
        refused(good, (&wanted, &labels), (&cells, &functions), 20);
        refused(good, (&cells, &functions), (&wanted, &labels), 10);
    }

    /// An entry for each mark and one for each level but the last are enough, and one fewer is not.
    #[test]
    fn room() {
        let small = plan(SMALL);
        let [none, some] = [&[][..], &[0, 2, 7]].map(|cells| numbered(small, cells));
        let with = |marks, lengths| between(small, &none, &some, (marks, lengths));
        assert_eq!(with(3, 2), Ok(Rounds(vec![vec![0], vec![2, 7]])));
        assert_eq!(with(usize::MAX, usize::MAX), with(3, 2));
        assert_eq!(with(2, 2), Err(10));
        assert_eq!(with(3, 1), Err(10));
        assert_eq!(with(0, 0), Err(10));
        assert_eq!(between(small, &some, &some, (0, 2)), Ok(Rounds(vec![vec![]; 2])));
        assert_eq!(between(small, &some, &some, (9, 1)), Err(10));
    }

    /// "Each round, as a split by cells with lists long enough [..], is accepted, and after all of them
    /// the tables are the wanted ones." Each lists its marks and no other cell.
    fn expect_reached(plan: Plan, today: &BTreeSet<Cell>, wanted: &BTreeSet<Cell>, all: &Rounds) {
        let (mut cells, mut functions) = tables(plan, today);
        for round in &all.0 {
            let change = refine_cells(plan, &cells, &functions, round, round.len(), usize::MAX);
            let change = change.expect("an accepted round");
            assert_eq!(&change.cell_list, round);
            (cells, functions) = (change.cells, change.functions);
        }
        assert_eq!((cells, functions), tables(plan, wanted));
    }

    /// Meshes of one marked cell or none, with what it asks for. The marks of all rounds are the wanted
    /// refined cells that are not refined today.
    #[test]
    fn rounds_lead_to_the_wanted_mesh() {
        let (mut accepted, mut refused) = (0, 0);
        for numbers in [[3, 1, 3, 1, 1], [2, 1, 4, 2, 1], [1, 2, 4, 1, 3]] {
            for class in [0, 2, 3] {
                let [columns, rows, levels, p, q] = numbers;
                let plan = plan([columns, rows, levels, p, q, class, 0, 0]);
                let mut meshes = vec![BTreeSet::new()];
                let refinable = plan.cells().filter(|cell| cell.level + 1 < levels);
                meshes.extend(refinable.map(|cell| smallest(plan, BTreeSet::from([cell]))));
                for (today, wanted) in pairs(&meshes) {
                    let rounds = between(plan, today, wanted, (usize::MAX, usize::MAX));
                    let Ok(rounds) = rounds else {
                        assert_eq!((rounds, today.is_subset(wanted)), (Err(20), false));
                        refused += 1;
                        continue;
                    };
                    let missing =
                        wanted.difference(today).map(|&cell| plan.cell_number(cell) as u32);
                    assert!(rounds.marks().into_iter().eq(missing));
                    expect_reached(plan, today, wanted, &rounds);
                    accepted += 1;
                }
            }
        }
        assert!(accepted > 500 && refused > 500, "{accepted} {refused}");
    }

    fn pairs<T>(all: &[T]) -> impl Iterator<Item = (&T, &T)> {
        all.iter().flat_map(move |one| all.iter().map(move |other| (one, other)))
    }
}
