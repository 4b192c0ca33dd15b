//! The labels that the library leaves are those of the published hierarchical basis, by its recursion
//! over nested subdomains: H(0) is all functions of level 0, and H(k+1) has the functions of H(k)
//! whose support is not inside subdomain k+1, and those of level k+1 whose support is.

use differential::{has_corners, random_plan, random_refined, Kind, Random, Tables};
use model::{Cell, Function, Plan};
use std::collections::{BTreeMap, BTreeSet};

/// A part of the domain, as a set of cells of the last level.
type Region = BTreeSet<(u32, u32)>;

fn region(plan: Plan, cells: impl Iterator<Item = Cell>) -> Region {
    cells.flat_map(|cell| plan.points(cell)).collect()
}

fn published_labels(tables: &Tables) -> Vec<u8> {
    let plan = tables.plan;
    let of_level = |level| plan.functions().filter(move |f| f.level == level);
    let supports: BTreeMap<Function, Region> =
        plan.functions().map(|f| (f, region(plan, plan.support(f)))).collect();
    let mut basis: BTreeSet<Function> = of_level(0).collect();
    let mut ever = basis.clone();
    for level in 0..plan.levels - 1 {
        // The next subdomain is what is refined on this level.
        let refined = model::refined_cells(plan, &tables.cells);
        let next = region(plan, refined.into_iter().filter(|cell| cell.level == level));
        basis.retain(|f| !supports[f].is_subset(&next));
        basis.extend(of_level(level + 1).filter(|f| supports[f].is_subset(&next)));
        ever.extend(&basis);
    }
    plan.functions()
        .map(|f| match (basis.contains(&f), ever.contains(&f)) {
            (true, _) => model::ACTIVE,
            (false, true) => model::DEACTIVATED,
            (false, false) => model::PASSIVE,
        })
        .collect()
}

#[test]
fn labels_are_those_of_the_published_basis() {
    let mut random = Random::new(500);
    let (mut seen, mut cornered) = ([0; 3], 0);
    for class in [0, 2, 3] {
        for (degree_across, degree_up) in [(1, 1), (2, 1), (3, 2), (1, 4), (4, 4)] {
            for most in [60, 200, 350, 350, 1000, 1400] {
                let plan = random_plan(&mut random, (degree_across, degree_up), class, most);
                cornered += u32::from(has_corners(plan));
                let refined = random_refined(&mut random, plan);
                let mut tables = Tables::with_refined(plan, &refined);
                for kind in Kind::ALL {
                    let marks: Vec<u32> =
                        tables.markable(kind).into_iter().filter(|_| random.once_in(3)).collect();
                    assert_eq!(tables.call_with_room(kind, &marks).number, 0);
                    assert_eq!(tables.functions, published_labels(&tables), "{plan:?}");
                    tables.functions.iter().for_each(|&label| seen[label as usize] += 1);
                }
            }
        }
    }
    assert!(seen.iter().all(|&often| often > 1000), "{seen:?}");
    assert!(cornered > 20, "{cornered}");
}
