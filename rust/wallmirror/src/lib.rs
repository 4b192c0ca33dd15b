//! Refining and coarsening hierarchical spline meshes.
//!
//! A mesh is a plan and two tables of bytes: one byte for each cell of each level (0 absent, 1
//! active, 2 refined) and one for each function of each level (0 passive, 1 active, 2 deactivated).
//! A [`Mesh`] owns its tables and has the calls; a [`Season`] keeps the calls that were made on a
//! mesh and takes them back. [`Planes`] are a mesh whose cells are [two bits each](#two-bits-a-cell).
//! Every call takes any plan, tables, planes, marks, draft, file, heights and point; what it cannot
//! serve it refuses with a [`Refusal`], and then everything holds what it held before.
//!
//! In the words of the scope document a mesh is a wall, refining and coarsening are splitting and
//! joining, admissible of class m is graded, and reactivable is joinable.
//!
//! ```
//! use wallmirror::{Cell, Function, Mesh, Plan};
//!
//! let plan = Plan { columns: 3, levels: 3, admissibility_class: 2, ..Plan::default() };
//! let mut mesh = Mesh::open(plan)?;
//! mesh.refine_cells(&[Cell(0)])?;
//! let lists = mesh.refine_cells(&[Cell(4)])?;
//! // Cell 1 became refined too, because the mesh has to stay admissible.
//! assert_eq!(lists.cells, [Cell(1), Cell(4)]);
//! assert_eq!(lists.functions, [Function(1), Function(5)]);
//! # Ok::<(), wallmirror::Refusal>(())
//! ```
//!
//! [`refine_cells`] and the other calls outside of [`Mesh`] are for programs that keep their own
//! tables: tables and lists are lent as slices, [`Plan`] gives their lengths, and nothing is
//! allocated.
//!
//! ```
//! # use wallmirror::{open, refine_cells, Cell, Function, Plan};
//! # let plan = Plan { columns: 3, levels: 3, admissibility_class: 2, ..Plan::default() };
//! let (t, f) = (plan.cells().unwrap(), plan.functions().unwrap());
//! let (mut cells, mut functions) = (vec![0; t], vec![0; f]);
//! let (mut cell_list, mut function_list) = (vec![Cell(0); t], vec![Function(0); f]);
//! open(plan, &mut cells, &mut functions)?;
//! let marks = [Cell(0)];
//! let changed =
//!     refine_cells(plan, &mut cells, &mut functions, &marks, &mut cell_list, &mut function_list)?;
//! assert_eq!(cell_list[..changed.cells], [Cell(0)]);
//! assert_eq!(function_list[..changed.functions], [Function(0), Function(4)]);
//! # Ok::<(), wallmirror::Refusal>(())
//! ```
//!
//! # Cells and functions
//!
//! Level k has columns · 2^k columns and rows · 2^k rows of cells. They are numbered from 0, level
//! by level, row by row. The cell at column c, row r has four children one level down, at columns
//! 2c and 2c + 1 and rows 2r and 2r + 1. [`Plan::place`] tells where a cell lies, [`Plan::cell_at`]
//! which cell lies there.
//!
//! Functions follow from knots, and these stand on the grid lines. On a level of n columns line x
//! is the one before column x, and there are lines 0 to n. With degree p across the knot on the
//! first and on the last line is taken p + 1 times, the one on a corner p times, any other once.
//! With all of them in rising order, from 0 on, function i across covers the columns from knot i to
//! just before knot i + p + 1, and there is one for every p + 2 knots in a row. Up it is the same
//! with the rows, the degree up and the corners up. The support of a function is the rectangle of
//! both, made of cells of its own level; [`Plan::support`] tells it. Functions are numbered like
//! cells, level by level, row by row; [`Plan::level`] tells how many there are.
//!
//! Without corners that is n + p functions across, of which function i covers columns max(0, i - p)
//! to min(n - 1, i).
//!
//! ```
//! # use wallmirror::{Cell, Function, Mesh, Plan, Support};
//! let plan = Plan { columns: 3, rows: 2, levels: 3, degree_across: 2, ..Plan::default() };
//! // Level 0 has 3 + 2 functions to a row. Function 4 of row 1 covers column 2 and rows 0 to 1.
//! let mark = Function(1 * (3 + 2) + 4);
//! assert_eq!(plan.support(mark), Some(Support { level: 0, rows: 0..2, columns: 2..3 }));
//! let lists = Mesh::open(plan)?.refine_functions(&[mark])?;
//! assert_eq!(lists.cells, [Cell(2), Cell(5)]);
//! # Ok::<(), wallmirror::Refusal>(())
//! ```
//!
//! # Admissible meshes
//!
//! In class m, not 0, a refined cell of level j with j - m + 1 at least 0 has a neighbourhood: the
//! cells of level j - m + 1 that have a child which, across as well as up, is covered by a common
//! function of level j - m + 2 with the cell's ancestor there (in class 2 the cell itself). Without
//! corners such a child's column differs by at most the degree across, and its row by at most the
//! degree up, from those of the ancestor; with them there may be fewer. A mesh is admissible where
//! the neighbourhood of every refined cell is refined. In class 0 every mesh is.
//!
//! ```
//! # use wallmirror::{Cell, Mesh, Plan};
//! let plan = Plan { columns: 3, levels: 3, admissibility_class: 2, ..Plan::default() };
//! let mut mesh = Mesh::open(plan)?;
//! mesh.refine_cells(&[Cell(0)])?;
//! // Cell 3 is in column 0 of level 1. Columns 0 and 1 are at most 1 from it, both of them in cell 0.
//! assert_eq!(mesh.refine_cells(&[Cell(3)])?.cells, [Cell(3)]);
//! // Cell 4 is in column 1. Column 2 is at most 1 from it too, and is in cell 1.
//! assert_eq!(mesh.refine_cells(&[Cell(4)])?.cells, [Cell(1), Cell(4)]);
//! # Ok::<(), wallmirror::Refusal>(())
//! ```
//!
//! This is the rule for truncated functions. Before version 0.12 it was the one for functions that
//! are not truncated: there a neighbourhood had the cells of level j - m + 1 that a function of their
//! own level covers with the ancestor, which are these and often more. A mesh that was admissible
//! then is admissible now, and its file is read as before. The same marks may refine fewer cells.
//!
//! # Corners
//!
//! Bit k of `corners_across` marks the line of level 0 before column k as a corner, for k from 1 to
//! columns - 1, and bit k of `corners_up` the line before row k, for k from 1 to rows - 1. The line
//! is a corner on every level: on level j it is the one before column k · 2^j. The surface may have
//! a kink there: functions are continuous across a corner, and no more. Each corner adds p - 1
//! functions across to every level, so c corners make it n + p + (p - 1) · c, and functions beside
//! it cover fewer columns. With degree 1 a corner changes nothing but the file, since every line
//! may have a kink then. The cells and their numbers have nothing to do with corners.
//!
//! ```
//! # use wallmirror::{Cell, Function, Mesh, Plan};
//! let smooth = Plan { columns: 3, levels: 2, degree_across: 2, ..Plan::default() };
//! let plan = Plan { corners_across: 1 << 1, ..smooth };
//! // The knots across on level 0 are 0 0 0 1 1 2 3 3 3: functions cover the columns 0, 0, 0 to 1,
//! // 1 to 2, 1 to 2 and 2, and there are two rows of them.
//! assert_eq!((smooth.functions_across(0), plan.functions_across(0)), (Some(5), Some(6)));
//! let lists = Mesh::open(plan)?.refine_cells(&[Cell(0)])?;
//! // Of each row the two functions over cell 0 alone. Without the corner it is one.
//! assert_eq!(lists.functions, [0, 1, 6, 7].map(Function));
//! # Ok::<(), wallmirror::Refusal>(())
//! ```
//!
//! # Levels over a cell
//!
//! A function is over a cell where its support and the cell have a point in common, whatever their
//! levels. In class m, not 0, every function of level k - m + 1 or coarser that is over an active cell
//! of level k is active or deactivated, and those of levels finer than k are passive. So truncated
//! functions of levels coarser than k - m + 1 vanish over the cell, and a program that works with the
//! truncated basis has at most m levels to look at there. The functions of the library are not
//! truncated, and active ones of any coarser level may be over the cell.
//!
//! On each level from 0 to k the functions over the cell are those over its ancestor there:
//! `degree_across` + 1 of them in a row across and `degree_up` + 1 up. Those over column x begin with
//! function x + (`degree_across` - 1) · c, where c corners are on lines 1 to x of that level; up it is
//! the same.
//!
//! ```
//! # use wallmirror::{Cell, Function, Mesh, Plan};
//! let plan = Plan { columns: 3, levels: 3, admissibility_class: 2, ..Plan::default() };
//! # let mut mesh = Mesh::open(plan)?;
//! # mesh.refine_cells(&[Cell(0)])?;
//! # mesh.refine_cells(&[Cell(3)])?;
//! // Cells 0 and 3 are refined. Cell 15 is active, the first of level 2.
//! let cell = plan.place(Cell(15)).unwrap();
//! let (mut active, mut deactivated) = (vec![vec![]; 3], vec![]);
//! for function in 0..94 {
//!     let support = plan.support(Function(function)).unwrap();
//!     // The cell is of the last level, and so has an ancestor on every other.
//!     let up = cell.level - support.level;
//!     let (row, column) = (cell.row >> up, cell.column >> up);
//!     if support.rows.contains(&row) && support.columns.contains(&column) {
//!         match mesh.functions[function as usize] {
//!             1 => active[support.level as usize].push(function),
//!             2 => deactivated.push(function),
//!             // Only functions of levels after 2 - 2 + 1 may be passive.
//!             _ => assert!(support.level > 1),
//!         }
//!     }
//! }
//! assert_eq!(deactivated, [0, 4, 8]);
//! // Functions 1 and 5 are of level 0. Truncated they are 0 over the cell.
//! assert_eq!(active, [vec![1, 5], vec![9, 15, 16], vec![29, 30, 42, 43]]);
//! # Ok::<(), wallmirror::Refusal>(())
//! ```
//!
//! # What a mark can cost
//!
//! In class m, not 0, one marked cell of level j refines at most 1 + ⌊j/(m-1)⌋·(2p+1)·(2q+1) cells,
//! itself included, where p and q are the degrees across and up: [`Plan::most_refined`]. They are
//! the marked cell and, on each level j - i·(m-1) for i from 1 to ⌊j/(m-1)⌋, cells that are at most
//! p columns and q rows from its ancestor there: [`Plan::reach`]. Several marks refine at most
//! the sum of their bounds, repeats counted once, and each cell that they refine is within the
//! reach of one of them. A marked function counts as the cells that it stands for. In class 0 just
//! the cells that the marks stand for become refined. All of it holds on every mesh, with corners
//! and without, and of the calls with heights too.
//!
//! ```
//! # use wallmirror::{Cell, Mesh, Plan};
//! let plan = Plan { columns: 8, levels: 5, admissibility_class: 2, ..Plan::default() };
//! let mut mesh = Mesh::open(plan)?;
//! mesh.refine_cells(&[Cell(3)])?;
//! // Cell 15 is of level 1, so it reaches one level more, level 0.
//! let (most, reach) = (plan.most_refined(1).unwrap(), plan.reach(Cell(15)).unwrap());
//! assert_eq!(most, 1 + (2 + 1) * (2 + 1));
//! let refined = mesh.refine_cells(&[Cell(15)])?.cells;
//! assert_eq!(refined, [4, 15].map(Cell));
//! assert!(refined.len() <= most);
//! for cell in refined {
//!     let place = plan.place(cell).unwrap();
//!     assert!(reach.iter().any(|window| window.contains(place)));
//! }
//! # Ok::<(), wallmirror::Refusal>(())
//! ```
//!
//! # Undo
//!
//! A run of calls is undone by its own cell lists, given from the last to the first, each to the
//! opposite call by cells: [`coarsen_cells`] for a refining call, with heights or without,
//! [`refine_cells`] for either coarsening one. Each is accepted and names the same cells and
//! functions as the call it takes back, and both tables end as they began. A refused call has
//! changed nothing and counts as one with empty lists: no marks at all, which is accepted. What is
//! asked is that the first mesh passes [`check`], that nothing else writes the tables, and of lent
//! lists that they are at least as long as the kept ones. To the walk back a closed draft is one
//! refinement by cells, with the lists that closing wrote, and the other calls on a draft leave
//! nothing to take back. The walk begins with no draft open. A [`Season`] sees to all of it.
//!
//! ```
//! # use wallmirror::{Call, Cell, Function, Mesh, Plan, Season};
//! # let plan = Plan { columns: 3, levels: 3, ..Plan::default() };
//! let first = Mesh::open(plan)?;
//! let mut season = Season::new(first.clone())?;
//! season.refine_functions(&[Function(1)])?;
//! season.coarsen_cells(&[Cell(1)])?;
//! let undone = season.undo()?.unwrap();
//! assert_eq!(undone.opposite, Call::RefineCells(vec![Cell(1)]));
//! assert_eq!(undone.lists, undone.made.lists);
//! season.undo_all()?;
//! assert_eq!(season.mesh(), &first);
//! # Ok::<(), wallmirror::Refusal>(())
//! ```
//!
//! In class 0 a run of refinements by functions alone, with heights or without, may also be undone
//! by its function lists, from the last to the first, each given to [`coarsen_functions`]. This
//! holds where on the first mesh each refined cell lies in the support of a deactivated function of
//! its own level, as on a mesh just opened.
//!
//! # Drafts
//!
//! A draft collects marks of cells over many calls and then refines by all of them at once. A
//! [`Mesh`] and a [`Season`] have one: [`open_draft`](Mesh::open_draft) opens it,
//! [`add_marks`](Mesh::add_marks) adds marks, [`close_draft`](Mesh::close_draft) refines by all of
//! them and [`drop_draft`](Mesh::drop_draft) gives it up. Each mark is judged against the mesh when
//! it is added, as [`refine_cells`] judges it, and a refused call adds none of its marks. A mark may
//! be added again. Closing has the effect, lists and refusals of one [`refine_cells`] with all marks,
//! and after a refusal the draft is still open. Only closing changes the tables. So the calls that
//! only read them may be made while a draft is open, and show the mesh without it.
//!
//! While a draft is open, refining, coarsening and opening a second one are refused with 18,
//! directly after 6 and before anything of the heights, and a season takes nothing back. While none
//! is open, adding, closing and dropping are refused with 19, after 6.
//!
//! ```
//! # use wallmirror::{Call, Cell, Function, Mesh, Plan, Refusal, Season};
//! # let plan = Plan { columns: 3, levels: 3, admissibility_class: 2, ..Plan::default() };
//! let mut season = Season::new(Mesh::open(plan)?)?;
//! season.refine_cells(&[Cell(0)])?;
//! season.open_draft()?;
//! season.add_marks(&[Cell(4)])?; // one setter
//! season.add_marks(&[Cell(2), Cell(4)])?; // another one
//! // Cell 5 is absent, so cell 3 is not added either.
//! assert_eq!(season.add_marks(&[Cell(3), Cell(5)]), Err(Refusal::MarkOfWrongKind));
//! assert_eq!(season.mesh().draft, Some([4, 2, 4].map(Cell).to_vec()));
//! // Meanwhile the mesh is the one without the draft, and nothing else refines it.
//! assert_eq!(season.mesh().count()?.refined_cells, 1);
//! assert_eq!(season.refine_cells(&[Cell(1)]), Err(Refusal::DraftOpen));
//! assert_eq!(season.undo(), Err(Refusal::DraftOpen));
//! // Cell 1 becomes refined too, because the mesh has to stay admissible.
//! assert_eq!(season.close_draft()?.cells, [1, 2, 4].map(Cell));
//! assert_eq!(season.mesh().draft, None);
//! assert_eq!(season.close_draft(), Err(Refusal::NoDraft));
//! // It is one refinement, and is taken back as one.
//! let undone = season.undo()?.unwrap();
//! assert_eq!(undone.made.call, Call::RefineCells([4, 2, 4].map(Cell).to_vec()));
//! assert_eq!(undone.opposite, Call::CoarsenCells([1, 2, 4].map(Cell).to_vec()));
//! assert_eq!(season.mesh().count()?.refined_cells, 1);
//! # Ok::<(), wallmirror::Refusal>(())
//! ```
//!
//! With lent slices a draft is a [`Draft`] beside a list of marks, and both are the caller's: it
//! begins as [`Draft::NONE`], and the calls are [`draft_open`], [`draft_add`], [`draft_close`] and
//! [`draft_drop`]. The list bounds it: a repeat takes an entry too, and more marks than the list has
//! room for are refused with 10, after 7 to 9. A draft with more marks than its list has entries
//! counts as not open.
//!
//! Each call that changes the tables has a form with a draft, as [`refine_cells_with_draft`]. A
//! program that never keeps a draft takes the forms without: they do what the forms with a draft do
//! where none is open. A program that keeps one takes the forms with it everywhere, so that nothing
//! changes the mesh under an open draft: refining and coarsening are refused, and
//! [`open_with_draft`] and [`read_with_draft`], when accepted, drop the draft. What only reads the
//! tables takes no draft. A [`Mesh`] takes the forms with its own.
//!
//! # From one mesh to another
//!
//! This is not released: [`VERSION`] is that without it, and it may change until it is.
//!
//! [`Mesh::rounds_to`] tells which cells to mark so that a mesh becomes a wanted one of the same
//! plan, in rounds: one for each level but the last, and some of them may be empty. Round k has, in
//! rising order, the cells of level k that are refined in the wanted mesh and active after the rounds
//! before it. These are the cells of level k that are refined in the wanted mesh and not in this one.
//! [`rounds`] is the same with lent slices.
//!
//! Each round is a refinement by cells. Made one after another, with no draft open and with lists
//! that are long enough, all of them are accepted. Each lists its own marks and no other cell, and
//! after the last both tables are the wanted ones, byte for byte. Given back last first, as
//! [above](#undo), the kept lists lead back to the mesh before. From a mesh to itself all rounds are
//! empty, and every mesh is reached from the one that [`open`] makes of its plan. A round may be made
//! with heights: where it is not refused, tables and lists are the same.
//!
//! Rounds only refine. Where both meshes pass [`check`] and a cell that is refined is not refined in
//! the wanted mesh, the call is refused with 20, and there alone.
//!
//! ```
//! # use wallmirror::{Cell, Function, Mesh, Plan, Refusal, RoundsRefusal, Season};
//! # let plan = Plan { columns: 3, levels: 3, admissibility_class: 2, ..Plan::default() };
//! let mut today = Mesh::open(plan)?;
//! today.refine_cells(&[Cell(0)])?;
//! // The wanted mesh may have been made in any way, here with cells 0 and 1 by one function.
//! let mut wanted = Mesh::open(plan)?;
//! wanted.refine_functions(&[Function(1)])?;
//! wanted.refine_cells(&[Cell(3), Cell(4)])?;
//! // Cell 1 is of level 0, cells 3 and 4 are of level 1.
//! let rounds = today.rounds_to(&wanted)?;
//! assert_eq!(rounds, [vec![Cell(1)], vec![Cell(3), Cell(4)]]);
//!
//! let mut season = Season::new(today.clone())?;
//! for round in &rounds {
//!     assert_eq!(&season.refine_cells(round)?.cells, round);
//! }
//! assert_eq!(season.mesh(), &wanted);
//! season.undo_all()?;
//! assert_eq!(season.mesh(), &today);
//!
//! let back = wanted.rounds_to(&today);
//! assert_eq!(back, Err(RoundsRefusal::Refused(Refusal::RefinedCellNotWanted)));
//! # Ok::<(), RoundsRefusal>(())
//! ```
//!
//! # Two bits a cell
//!
//! A program that keeps many meshes may hold the cells in less memory: as two planes of bits,
//! `present` and `refined`, in words of 64. The number of a cell is that of its bit: cell i has bit
//! i mod 64 of word ⌊i/64⌋, where bit 0 is the lowest. A plane has [`Plan::plane_words`] words, as
//! many as the cells need, and the bits of the last word that no cell has are spare. A cell with
//! neither bit set is absent, one with that of `present` alone is active, and one with both is
//! refined. Planes are in order where every spare bit is 0 and no bit of `refined` is set without
//! that of `present`. The function table stays in bytes.
//!
//! [`Planes`] own two planes and a function table, and have the calls that a [`Mesh`] has but for
//! files, drafts, rounds and heights. Each call does what that of the [`Mesh`] does with the same
//! cells: its answer, lists and function table are the same, and the planes are then those of its
//! cells. It refuses 3 where a plane does not have the length that the plan gives it, 4 for planes
//! that are not in order, and otherwise as the other does, in the same order. What is said of the
//! undo holds too, and a [`Season`] may have planes. [`planes_refine_cells`] and the others outside
//! of [`Planes`] are the same with lent slices.
//!
//! ```
//! # use wallmirror::{Cell, Mesh, Plan, Planes, Refusal, Season};
//! # let plan = Plan { columns: 3, levels: 3, admissibility_class: 2, ..Plan::default() };
//! let mut planes = Planes::open(plan)?;
//! // 63 cells have room in one word, and one bit is spare.
//! assert_eq!((plan.cells(), plan.plane_words()), (Some(63), Some(1)));
//! planes.refine_cells(&[Cell(0)])?;
//! // Cell 0 is refined. Cells 1 and 2 are active, and so are its children 3, 4, 9 and 10.
//! assert_eq!(planes.present, [0b110_0001_1111]);
//! assert_eq!(planes.refined, [0b000_0000_0001]);
//! assert_eq!(planes.count()?.active_cells, 6);
//!
//! let mut season = Season::new(planes.clone())?;
//! assert_eq!(season.refine_cells(&[Cell(4)])?.cells, [Cell(1), Cell(4)]);
//! season.undo_all()?;
//! assert_eq!(season.mesh(), &planes);
//!
//! // A mesh in bytes has a file, and heights.
//! let mesh = planes.to_mesh()?;
//! assert_eq!(mesh.to_file()?, [3, 1, 3, 1, 1, 2, 1, 0]);
//! assert_eq!(Planes::from_mesh(&mesh)?, planes);
//!
//! planes.present[0] |= 1 << 63;
//! assert_eq!(planes.check(), Err(Refusal::NotAMesh));
//! # Ok::<(), Refusal>(())
//! ```
//!
//! # Files
//!
//! [`Mesh::to_file`] makes bytes of a mesh, to be kept where one likes, and [`Mesh::from_file`]
//! makes the mesh of them; [`write()`] and [`read`] are the same with lent slices. A file is a list
//! of numbers: the first six of the plan, how many cells are refined, the first refined cell if
//! there is one, then for each further one, in rising order, its difference from the one before;
//! and then the corners across and up, which are left out if both are 0. A number is written in
//! groups of seven bits, one to a byte, the lowest first, with the high bit set in all but the
//! last; in as few groups as it needs, and at most three. So one mesh has one file, the same on
//! every machine.
//!
//! ```
//! # use wallmirror::{Cell, Mesh, Plan};
//! # let plan = Plan { columns: 3, levels: 3, ..Plan::default() };
//! let mut mesh = Mesh::open(plan)?;
//! mesh.refine_cells(&[Cell(0), Cell(1)])?;
//! let file = mesh.to_file()?;
//! // The plan, two refined cells, cell 0, and one more.
//! assert_eq!(file, [3, 1, 3, 1, 1, 0, 2, 0, 1]);
//! assert_eq!(Mesh::from_file(&file)?, mesh);
//! // The same with a corner before column 2, which changes nothing else where the degree is 1.
//! let cornered = Mesh { plan: Plan { corners_across: 1 << 2, ..plan }, ..mesh };
//! assert_eq!(cornered.to_file()?, [3, 1, 3, 1, 1, 0, 2, 0, 1, 4, 0]);
//! # Ok::<(), wallmirror::Refusal>(())
//! ```
//!
//! # Heights
//!
//! The active functions carry a surface: its height at a point is the sum, over all active
//! functions, of the function's height times its value there. The value is that of a B-spline
//! across times that of one up, over the knots of the function's level as above. The heights of the
//! functions are whole numbers, one for each function of each level, in the order of their numbers;
//! on level k the unit is 16^-k mm. [`Heights`] has them, indexed by [`Function`]. Whatever stands
//! there for a function that is not active is ignored. A point is two whole numbers, across and up,
//! in eighths of a cell of the last level, from 0 to the far edge: 8 · columns · 2^(levels - 1)
//! across and 8 · rows · 2^(levels - 1) up. The far edges are included; the last function has the
//! value 1 there.
//!
//! With degrees 1 and 2 and at most four levels the height in mm is a multiple of
//! 2^-(10 + 4 · levels), and what [`height`] answers is the sum itself, with no bit rounded away.
//!
//! ```
//! # use wallmirror::{Cell, Function, Heights, Mesh, Plan};
//! let plan = Plan { columns: 3, levels: 3, admissibility_class: 2, ..Plan::default() };
//! let mut mesh = Mesh::open(plan)?;
//! mesh.refine_cells(&[Cell(0)])?;
//! let mut heights = Heights::of(&mesh);
//! heights[Function(1)] = 10; // of level 0: 10 mm
//! heights[Function(9)] = 8; // of level 1: 8/16 mm
//! heights[Function(0)] = i32::MAX; // deactivated
//! // Half of function 1, and all of function 9.
//! assert_eq!(mesh.height(&heights, 16, 0), Ok(5.5));
//! # Ok::<(), wallmirror::Refusal>(())
//! ```
//!
//! Where the height of one active function is changed by d units of its level, up or down, a point
//! that is answered before and after moves by d times the function's value there: the same way, and
//! by at most d / 16^k mm. It moves by nothing outside the function's support, nor on its edge,
//! unless that is the edge of the mesh; everywhere else it moves, unless d is 0, but for points on
//! an edge of the mesh where another function is the outermost. Where several heights are changed,
//! no point moves by more than the largest changes of active heights, one of each level, together.
//! The two answers may be subtracted: the difference is exact.
//!
//! ```
//! # use wallmirror::{Function, Heights, Mesh, Plan};
//! let mesh = Mesh::open(Plan { columns: 3, levels: 3, ..Plan::default() })?;
//! let mut before = Heights::of(&mesh);
//! before.fill(7);
//! let mut after = before.clone();
//! after[Function(1)] -= 4; // of level 0, over the points 0 to 64 across
//! for across in 0..=96 {
//!     let by = mesh.height(&after, across, 0)? - mesh.height(&before, across, 0)?;
//!     assert!((-4.0..=0.0).contains(&by));
//!     assert_eq!(by == 0.0, across == 0 || across >= 64);
//! }
//! # Ok::<(), wallmirror::Refusal>(())
//! ```
//!
//! # Heights that are kept
//!
//! [`refine_cells`] and [`refine_functions`] change which functions are active, and so the surface,
//! if the heights stay as they are. [`refine_cells_with_heights`] and
//! [`refine_functions_with_heights`] keep it: every point that [`height`] answers before has the same
//! height after, in every bit. A function that becomes deactivated passes its height to its children,
//! those of the next level of which it is made, level by level, the coarsest first, through children
//! that are deactivated already or by the same call. What it passes are the coefficients of knot
//! insertion: across, a function of degree 2 away from ends and corners is 1/4, 3/4, 3/4, 1/4 of four
//! children in a row, one of degree 1 is 1/2, 1, 1/2 of three, and up it is the same. So sixteenths
//! of a height of level k are passed, and these are whole heights of level k + 1: nothing is rounded.
//! A function that was not active before starts from 0, whatever stands there, and one that is not
//! active after gets 0.
//!
//! ```
//! # use wallmirror::{Cell, Function, Heights, Mesh, Plan};
//! # let plan = Plan { columns: 3, levels: 3, admissibility_class: 2, ..Plan::default() };
//! # let mut mesh = Mesh::open(plan)?;
//! mesh.refine_cells(&[Cell(0)])?;
//! let mut heights = Heights::of(&mesh);
//! (heights[Function(1)], heights[Function(9)]) = (10, 8); // 10 mm, and 8/16 mm
//! assert_eq!(mesh.height(&heights, 16, 0), Ok(5.5));
//! let lists = mesh.refine_cells_with_heights(&mut heights, &[Cell(1)])?;
//! // Function 1 is 1/2 of functions 9 and 11 and 1 of function 10, and half of that in the next row.
//! assert_eq!(lists.functions, [Function(1), Function(5)]);
//! let carried = [1, 9, 10, 11, 16, 17, 18].map(|function| heights[Function(function)]);
//! assert_eq!(carried, [0, 88, 160, 80, 40, 80, 40]);
//! assert_eq!(mesh.height(&heights, 16, 0), Ok(5.5));
//! # Ok::<(), wallmirror::Refusal>(())
//! ```
//!
//! Coarsening carries no heights, and the undo concerns the two tables and the two lists alone. To
//! have the old heights back, keep them with the lists.
//!
//! # Projector
//!
//! [`Mesh::corners`] gives the surface as a grid that can be thrown or drawn: of each active cell,
//! in rising order of the numbers, its four corners, lower left, lower right, upper left, upper
//! right, where row 0 is the lowest; [`corners`] is the same with lent slices. These are points and
//! have nothing to do with the corners of a plan, which are lines. A [`Corner`] has its place across
//! and up, in cells of the last level, and the height of the surface there in millimetres, as
//! [`height`] answers it at the point 8 · across, 8 · up. With s = 2^(levels - 1 - k) a cell of level
//! k at column c, row r lies from c · s to (c + 1) · s across and from r · s to (r + 1) · s up. All
//! these numbers are exact.
//!
//! ```
//! # use wallmirror::{Cell, Corner, Function, Heights, Mesh, Plan};
//! # let plan = Plan { columns: 3, levels: 3, admissibility_class: 2, ..Plan::default() };
//! # let mut mesh = Mesh::open(plan)?;
//! mesh.refine_cells(&[Cell(0)])?;
//! let mut heights = Heights::of(&mesh);
//! (heights[Function(1)], heights[Function(9)]) = (10, 8);
//! let corners = mesh.corners(&heights)?;
//! // Cells 1, 2, 3, 4, 9 and 10 are active; these are the corners of cell 3.
//! assert_eq!(corners.len(), 4 * 6);
//! assert_eq!(corners[4 * 2], Corner { across: 0.0, up: 0.0, height: 0.0 });
//! assert_eq!(corners[4 * 2 + 1], Corner { across: 2.0, up: 0.0, height: 5.5 });
//! assert_eq!(corners[4 * 2 + 2], Corner { across: 0.0, up: 2.0, height: 0.0 });
//! assert_eq!(corners[4 * 2 + 3], Corner { across: 2.0, up: 2.0, height: 2.5 });
//! # Ok::<(), wallmirror::Refusal>(())
//! ```
//!
//! # Limits
//!
//! | | |
//! | --- | --- |
//! | columns, rows | 1 to 16 |
//! | levels | 1 to 8 |
//! | degrees across and up | 1 to 4 |
//! | class | 0, or 2 to 8 |
//! | corners across, corners up | bits 1 to columns - 1, bits 1 to rows - 1 |
//! | cells on all levels together | at most [`MAX_CELLS`] |
//! | functions of such a plan | at most [`MAX_FUNCTIONS`] |
//! | words of a plane | at most [`MAX_PLANE_WORDS`] |
//! | marks of a call | any number |
//! | marks of a draft | as many as its list has entries |
//! | rounds from one mesh to another | one for each level but the last, at most [`MAX_ROUNDS`] |
//! | file of a mesh | at most [`MAX_FILE_BYTES`] |
//! | plan of [`height`] | degrees 1 and 2, at most four levels; the same of refining with heights |
//! | height of an active function | at most [`MAX_HEIGHT_MM`] either way, before and after |
//! | plan of [`corners`] | the same, and at most [`MAX_PROJECTED_CELLS`] on all levels together |
//! | stack of a call | at most [`STACK_BYTES`] |

use std::fmt;

mod any_mesh;
mod draft;
pub mod ffi;
mod heights;
mod mesh;
mod places;
mod planes;
mod reach;
mod rounds;
mod season;

pub use any_mesh::AnyMesh;
pub use draft::{
    coarsen_cells_with_draft, coarsen_functions_with_draft, draft_add, draft_close, draft_drop,
    draft_open, open_with_draft, read_with_draft, refine_cells_with_draft,
    refine_cells_with_heights_and_draft, refine_functions_with_draft,
    refine_functions_with_heights_and_draft, Draft,
};
pub use heights::Heights;
pub use mesh::{Call, Lists, Mesh};
pub use places::{Level, Place, Support};
pub use planes::{
    planes_check, planes_coarsen_cells, planes_coarsen_functions, planes_count, planes_from_cells,
    planes_open, planes_refine_cells, planes_refine_functions, planes_to_cells, Planes,
};
pub use reach::Window;
pub use rounds::{rounds, Rounds, RoundsRefusal};
pub use season::{Made, Season, Undone};

/// The examples of the documentation, run with the others.
#[cfg(doctest)]
#[doc = include_str!("../../../README.md")]
pub struct Documentation;

/// The plan of a mesh. Any numbers may stand in it; the calls refuse those out of range.
///
/// Later versions may add fields. A plan that ends in `..Plan::default()`, or in a constant in
/// `..Plan::SMALLEST`, then still compiles and is the same plan; one that lists all fields does not
/// compile.
#[derive(Clone, Copy, Debug, PartialEq, Eq, Hash)]
pub struct Plan {
    /// Columns of level 0, 1 to 16.
    pub columns: u32,
    /// Rows of level 0, 1 to 16.
    pub rows: u32,
    /// 1 to 8. Each level halves the cells of the one before.
    pub levels: u32,
    /// 1 to 4.
    pub degree_across: u32,
    /// 1 to 4.
    pub degree_up: u32,
    /// Class of admissibility, 2 to 8, or 0: every mesh is admissible.
    pub admissibility_class: u32,
    /// Bit k, 1 to columns - 1: the line of level 0 before column k is a corner. 0 for none.
    pub corners_across: u32,
    /// Bit k, 1 to rows - 1: the line of level 0 before row k is a corner. 0 for none.
    pub corners_up: u32,
}

impl Plan {
    /// The smallest plan, in which each number is the least that it may be: one column, row and
    /// level, degrees 1, class 0 and no corners. It is [`Plan::default`], for constants.
    ///
    /// ```
    /// # use wallmirror::Plan;
    /// const PLAN: Plan = Plan { columns: 3, levels: 3, ..Plan::SMALLEST };
    /// assert_eq!(PLAN, Plan { columns: 3, levels: 3, ..Plan::default() });
    /// ```
    pub const SMALLEST: Plan = Plan {
        columns: 1,
        rows: 1,
        levels: 1,
        degree_across: 1,
        degree_up: 1,
        admissibility_class: 0,
        corners_across: 0,
        corners_up: 0,
    };
}

impl Default for Plan {
    /// [`Plan::SMALLEST`].
    ///
    /// ```
    /// # use wallmirror::Plan;
    /// let plan = Plan { columns: 3, levels: 3, admissibility_class: 2, ..Plan::default() };
    /// assert_eq!((plan.rows, plan.degree_across, plan.degree_up), (1, 1, 1));
    /// assert_eq!((plan.corners_across, plan.corners_up), (0, 0));
    /// ```
    fn default() -> Plan {
        Plan::SMALLEST
    }
}

/// The version of this crate, which is that of the C header.
pub const VERSION: &str = env!("CARGO_PKG_VERSION");

/// The version of the library that is linked, as one number: major · 1,000,000 + minor · 1,000 +
/// patch. It is to be that of [`VERSION`]; where it is not, nothing is said of what other calls do.
///
/// ```
/// # use wallmirror::{version, VERSION};
/// let number = version();
/// let parts = [number / 1_000_000, number / 1_000 % 1_000, number % 1_000];
/// assert_eq!(parts.map(|part| part.to_string()).join("."), VERSION);
/// ```
pub fn version() -> u32 {
    ffi::wallmirror_version()
}

/// The most cells that a mesh may have on all levels together.
pub const MAX_CELLS: usize = 21_845;

/// The most functions that a mesh of at most [`MAX_CELLS`] cells has.
pub const MAX_FUNCTIONS: usize = 54_884;

/// The most words that a plane of a mesh has: one bit for each of [`MAX_CELLS`].
pub const MAX_PLANE_WORDS: usize = 342;

/// The most rounds that lead from one mesh to another: one for each level but the last.
pub const MAX_ROUNDS: usize = 7;

/// The most bytes that the file of a mesh has.
pub const MAX_FILE_BYTES: usize = 5_470;

/// The greatest height of an active function in millimetres, either way. It is met exactly: on level
/// k the heights go from -65,536 · 16^k to 65,536 · 16^k.
pub const MAX_HEIGHT_MM: u32 = 65_536;

/// The most cells on all levels together of a plan that [`corners`] takes.
pub const MAX_PROJECTED_CELLS: usize = 1_024;

/// Twelve doubles for each of [`MAX_PROJECTED_CELLS`]: as many serve every mesh that [`corners`]
/// takes.
pub const MAX_CORNER_DOUBLES: usize = 12_288;

/// The most stack that any call takes, in bytes: what a thread must have left when it calls. The
/// library allocates nothing, so whatever it needs beside the tables and lists is there. A thread
/// itself needs some more: with 16 KiB added, [`std::thread::Builder::stack_size`] is large enough.
pub const STACK_BYTES: usize = 262_144;

impl Plan {
    fn raw(self) -> ffi::Plan {
        ffi::Plan {
            columns: self.columns,
            rows: self.rows,
            levels: self.levels,
            degree_across: self.degree_across,
            degree_up: self.degree_up,
            admissibility_class: self.admissibility_class,
            corners_across: self.corners_across,
            corners_up: self.corners_up,
        }
    }

    fn from_raw(plan: ffi::Plan) -> Plan {
        Plan {
            columns: plan.columns,
            rows: plan.rows,
            levels: plan.levels,
            degree_across: plan.degree_across,
            degree_up: plan.degree_up,
            admissibility_class: plan.admissibility_class,
            corners_across: plan.corners_across,
            corners_up: plan.corners_up,
        }
    }
}

/// The number of a cell: from 0, level by level, row by row.
#[repr(transparent)]
#[derive(Clone, Copy, Debug, Default, PartialEq, Eq, PartialOrd, Ord, Hash)]
pub struct Cell(pub u32);

/// The number of a function: from 0, level by level, row by row. Never to be taken for a [`Cell`].
#[repr(transparent)]
#[derive(Clone, Copy, Debug, Default, PartialEq, Eq, PartialOrd, Ord, Hash)]
pub struct Function(pub u32);

/// Why a call was refused. Where several apply, the first of this order is given: 12; 1, 2; then 16,
/// of [`corners`] alone; 3 to 6, of [`rounds`] for today's mesh and then for the wanted one; then 18,
/// 19 or 20; then 3 of the heights, 14, 15; then the marks in list order, each tried for 7, 8, 9; then
/// 10, 11; then 13, or 17.
///
/// Later versions may add refusals, so a `match` needs an arm for the others.
#[derive(Clone, Copy, Debug, PartialEq, Eq, Hash)]
#[repr(u32)]
#[non_exhaustive]
pub enum Refusal {
    /// A number of the plan is out of range: columns and rows are 1 to 16, levels 1 to 8, degrees 1
    /// to 4, the class is 0 or 2 to 8, and corners have bits 1 to columns - 1, or to rows - 1.
    PlanOutOfRange = 1,
    /// All levels together have more than [`MAX_CELLS`] cells.
    TooManyCells = 2,
    /// The cell table does not have [`Plan::cells`] bytes, a plane does not have
    /// [`Plan::plane_words`] words, or the function table does not have [`Plan::functions`] bytes. Of
    /// the calls with heights also, after 6: the heights are not as many as the functions.
    TableLength = 3,
    /// The cell bytes are not a mesh: another byte than 0, 1, 2, an absent cell of level 0, a
    /// refined cell with an absent child, any other cell with a child that is not absent, or a
    /// refined cell of the last level. Of the calls on planes also: a spare bit is set, or a bit of
    /// `refined` without that of `present`.
    NotAMesh = 4,
    /// A refined cell has a cell in its neighbourhood that is not refined.
    NotAdmissible = 5,
    /// A function byte is not the one that the cells of its support fix: 0 if any is absent, 2 if
    /// all are refined, 1 otherwise.
    WrongFunctionByte = 6,
    /// A mark is not below the number of cells, or of functions in a call by functions.
    MarkOutOfRange = 7,
    /// A mark is not of the kind that its call takes: an active cell or function to refine, a
    /// reactivable cell to coarsen, or a deactivated function with such a cell in its support.
    MarkOfWrongKind = 8,
    /// A mark to refine is of the last level. Coarsening never gives this.
    MarkOfLastLevel = 9,
    /// The cell list has fewer entries than cells change. Of [`write()`]: the lent bytes are fewer
    /// than the file has. Of [`corners`]: the lent doubles are fewer than twelve for each active
    /// cell. Of [`draft_add`]: the list of the draft is too short for the added marks. Of [`rounds`]:
    /// a list is too short for the marks or for the lengths of the rounds.
    CellListTooShort = 10,
    /// The function list has fewer entries than functions change.
    FunctionListTooShort = 11,
    /// A number of the file is cut off, has more than three groups or more than it needs, or is a
    /// difference of 0; after the last cell a number stands alone, or both corner numbers are 0.
    MalformedFile = 12,
    /// Bytes follow the two corner numbers of the file.
    TrailingBytes = 13,
    /// The plan is none for heights: a degree is more than 2, or there are more than four levels.
    PlanWithoutHeights = 14,
    /// The point lies beyond the mesh, or the height of an active function is more than
    /// [`MAX_HEIGHT_MM`] either way.
    PointOrHeightOutOfRange = 15,
    /// Of [`corners`]: all levels together have more than [`MAX_PROJECTED_CELLS`] cells.
    TooManyCellsToProject = 16,
    /// Of refining with heights: a carried height of an active function is more than
    /// [`MAX_HEIGHT_MM`] either way.
    CarriedHeightOutOfRange = 17,
    /// A draft is open: then nothing is refined or coarsened, no second draft is opened, and no
    /// [`Season`] walked back.
    DraftOpen = 18,
    /// No draft is open to add to, to close or to drop.
    NoDraft = 19,
    /// Of [`rounds`]: a cell that is refined is not refined in the wanted mesh. While rounds are not
    /// released, [`Refusal::ALL`], [`Refusal::from_number`] and the header's texts do without it.
    RefinedCellNotWanted = 20,
}

impl Refusal {
    /// All refusals of the released calls, 1 to 19, in the order of their numbers.
    pub const ALL: &[Refusal] = &[
        Refusal::PlanOutOfRange,
        Refusal::TooManyCells,
        Refusal::TableLength,
        Refusal::NotAMesh,
        Refusal::NotAdmissible,
        Refusal::WrongFunctionByte,
        Refusal::MarkOutOfRange,
        Refusal::MarkOfWrongKind,
        Refusal::MarkOfLastLevel,
        Refusal::CellListTooShort,
        Refusal::FunctionListTooShort,
        Refusal::MalformedFile,
        Refusal::TrailingBytes,
        Refusal::PlanWithoutHeights,
        Refusal::PointOrHeightOutOfRange,
        Refusal::TooManyCellsToProject,
        Refusal::CarriedHeightOutOfRange,
        Refusal::DraftOpen,
        Refusal::NoDraft,
    ];

    /// The number that the library answers, 1 to 20.
    pub fn number(self) -> u32 {
        self as u32
    }

    /// The refusal of [`Refusal::ALL`] with that number; `None` for 0 (accepted) and for numbers that
    /// none has.
    ///
    /// ```
    /// # use wallmirror::Refusal;
    /// assert_eq!(Refusal::from_number(8), Some(Refusal::MarkOfWrongKind));
    /// assert_eq!(Refusal::from_number(0), None);
    /// ```
    pub fn from_number(number: u32) -> Option<Refusal> {
        Refusal::ALL.iter().copied().find(|refusal| refusal.number() == number)
    }

    /// What was wrong, in the words of the C header's `wallmirror_refusal_text`. Displayed, the
    /// number stands before them.
    ///
    /// ```
    /// # use wallmirror::Refusal;
    /// let refusal = Refusal::MarkOfWrongKind;
    /// assert_eq!(refusal.text(), "a mark is not of the kind that the call takes");
    /// assert_eq!(
    ///     refusal.to_string(),
    ///     "refusal 8: a mark is not of the kind that the call takes",
    /// );
    /// ```
    pub fn text(self) -> &'static str {
        match self {
            Refusal::PlanOutOfRange => {
                "a number of the plan is out of range (columns and rows 1 to 16, levels 1 to 8, degrees 1 to 4, class 0 or 2 to 8, corners between two columns or rows)"
            }
            Refusal::TooManyCells => "all levels together have more than 21845 cells",
            Refusal::TableLength => {
                "a table or a plane does not have the length that the plan gives it, or the heights are not as many as the functions"
            }
            Refusal::NotAMesh => "the cell table is not a mesh, or the planes are not in order",
            Refusal::NotAdmissible => "the mesh is not admissible for the class of the plan",
            Refusal::WrongFunctionByte => {
                "a byte of the function table is not the one that the cells fix"
            }
            Refusal::MarkOutOfRange => "a mark is not the number of a cell or function of the plan",
            Refusal::MarkOfWrongKind => "a mark is not of the kind that the call takes",
            Refusal::MarkOfLastLevel => "a mark is of the last level, which cannot be refined",
            Refusal::CellListTooShort => {
                "the cell list is too short for the cells that change, the lent bytes for the file, the lent doubles for the corners of the cells, or the list of the draft for the added marks"
            }
            Refusal::FunctionListTooShort => {
                "the function list is too short for the functions that change"
            }
            Refusal::MalformedFile => {
                "a number of the file is cut off, longer than it may be, or a difference of 0, or its corners are a number alone or both 0"
            }
            Refusal::TrailingBytes => "bytes follow the two corner numbers of the file",
            Refusal::PlanWithoutHeights => {
                "heights are for plans of degrees 1 and 2 and at most four levels"
            }
            Refusal::PointOrHeightOutOfRange => {
                "the point lies beyond the mesh, or the height of an active function is more than 65536 mm either way"
            }
            Refusal::TooManyCellsToProject => {
                "all levels together have more than 1024 cells, which is too many for the projector"
            }
            Refusal::CarriedHeightOutOfRange => {
                "the height that is carried to an active function is more than 65536 mm either way"
            }
            Refusal::DraftOpen => "a draft is open",
            Refusal::NoDraft => "no draft is open",
            Refusal::RefinedCellNotWanted => {
                "a cell that is refined is not refined in the wanted mesh"
            }
        }
    }
}

impl fmt::Display for Refusal {
    fn fmt(&self, f: &mut fmt::Formatter<'_>) -> fmt::Result {
        write!(f, "refusal {}: {}", self.number(), self.text())
    }
}

impl std::error::Error for Refusal {}

/// What [`count`] finds in a mesh.
#[derive(Clone, Copy, Debug, PartialEq, Eq)]
pub struct Count {
    /// Cells of byte 1.
    pub active_cells: usize,
    /// Cells of byte 2.
    pub refined_cells: usize,
    /// Functions of byte 1.
    pub active_functions: usize,
    /// Of the active cells, in cells of the last level.
    pub area: usize,
}

/// Why a file was not read.
#[derive(Clone, Copy, Debug, PartialEq, Eq, Hash)]
pub struct ReadRefusal {
    /// 12, 1 to 5, or 13.
    pub refusal: Refusal,
    /// The plan of the file, which tells the lengths of its tables; `None` with refusals 1, 2 and
    /// 12.
    pub plan: Option<Plan>,
}

impl fmt::Display for ReadRefusal {
    fn fmt(&self, f: &mut fmt::Formatter<'_>) -> fmt::Result {
        self.refusal.fmt(f)
    }
}

impl std::error::Error for ReadRefusal {}

impl From<ReadRefusal> for Refusal {
    fn from(unread: ReadRefusal) -> Refusal {
        unread.refusal
    }
}

/// A corner of a cell: a point of the surface. Not to be taken for a corner of a plan, which is a
/// line.
#[repr(C)]
#[derive(Clone, Copy, Debug, Default, PartialEq)]
pub struct Corner {
    /// In cells of the last level.
    pub across: f64,
    /// In cells of the last level.
    pub up: f64,
    /// Of the surface, in millimetres.
    pub height: f64,
}

/// How many entries a call wrote to its two lists.
#[derive(Clone, Copy, Debug, PartialEq, Eq)]
pub struct Changed {
    /// Cells that became refined, or ceased to be.
    pub cells: usize,
    /// Functions that became deactivated, or ceased to be.
    pub functions: usize,
}

/// Makes both tables the coarsest mesh of the plan, whatever they held. Refuses 1 to 3. For a
/// program that keeps a draft there is [`open_with_draft`].
pub fn open(plan: Plan, cells: &mut [u8], functions: &mut [u8]) -> Result<(), Refusal> {
    // SAFETY: pointers and lengths are those of two slices, which cannot overlap.
    accepted(unsafe {
        ffi::wallmirror_open(
            plan.raw(),
            cells.as_mut_ptr(),
            cells.len(),
            functions.as_mut_ptr(),
            functions.len(),
        )
    })
}

/// Whether both tables are an admissible mesh of the plan. Refuses 1 to 6.
///
/// ```
/// # use wallmirror::{check, open, Plan, Refusal};
/// # let plan = Plan { columns: 3, levels: 3, ..Plan::default() };
/// # let (mut cells, mut functions) = (vec![0; 63], vec![0; 94]);
/// open(plan, &mut cells, &mut functions)?;
/// assert_eq!(check(plan, &cells, &functions), Ok(()));
/// functions[0] = 2;
/// assert_eq!(check(plan, &cells, &functions), Err(Refusal::WrongFunctionByte));
/// # Ok::<(), Refusal>(())
/// ```
pub fn check(plan: Plan, cells: &[u8], functions: &[u8]) -> Result<(), Refusal> {
    // SAFETY: pointers and lengths are those of two slices, which are only read.
    accepted(unsafe {
        ffi::wallmirror_check(
            plan.raw(),
            cells.as_ptr(),
            cells.len(),
            functions.as_ptr(),
            functions.len(),
        )
    })
}

/// Counts cells, functions and area of a mesh. Refuses 1 to 6.
///
/// ```
/// # use wallmirror::{count, open, Plan};
/// # let plan = Plan { columns: 3, levels: 3, ..Plan::default() };
/// # let (mut cells, mut functions) = (vec![0; 63], vec![0; 94]);
/// # open(plan, &mut cells, &mut functions)?;
/// let count = count(plan, &cells, &functions)?;
/// assert_eq!((count.active_cells, count.refined_cells, count.area), (3, 0, 48));
/// # Ok::<(), wallmirror::Refusal>(())
/// ```
pub fn count(plan: Plan, cells: &[u8], functions: &[u8]) -> Result<Count, Refusal> {
    // SAFETY: pointers and lengths are those of two slices, which are only read.
    counted(unsafe {
        ffi::wallmirror_count(
            plan.raw(),
            cells.as_ptr(),
            cells.len(),
            functions.as_ptr(),
            functions.len(),
        )
    })
}

fn counted(count: ffi::Count) -> Result<Count, Refusal> {
    accepted(count.number)?;
    Ok(Count {
        active_cells: count.active_cells as usize,
        refined_cells: count.refined_cells as usize,
        active_functions: count.active_functions as usize,
        area: count.area as usize,
    })
}

/// Refines the marked cells, which are to be active, and what the class needs besides: the mesh
/// becomes the smallest admissible one with the old refined cells and the marked ones. Lists the
/// cells that became refined and the functions that became deactivated, each in rising order.
/// Entries past the answered lengths keep their values. How many cells become refined at most, and
/// where, is said [above](crate#what-a-mark-can-cost). Refuses 1 to 11. It asks for no draft; a
/// program that keeps one takes [`refine_cells_with_draft`].
pub fn refine_cells(
    plan: Plan,
    cells: &mut [u8],
    functions: &mut [u8],
    marks: &[Cell],
    cell_list: &mut [Cell],
    function_list: &mut [Function],
) -> Result<Changed, Refusal> {
    let marks = cell_numbers(marks);
    change(ffi::wallmirror_refine_cells, plan, cells, functions, marks, cell_list, function_list)
}

/// Refines the active cells of its level in the support of each marked function, which is to be
/// active. Otherwise as [`refine_cells`]. With a draft: [`refine_functions_with_draft`].
pub fn refine_functions(
    plan: Plan,
    cells: &mut [u8],
    functions: &mut [u8],
    marks: &[Function],
    cell_list: &mut [Cell],
    function_list: &mut [Function],
) -> Result<Changed, Refusal> {
    let marks = function_numbers(marks);
    change(
        ffi::wallmirror_refine_functions,
        plan,
        cells,
        functions,
        marks,
        cell_list,
        function_list,
    )
}

/// Coarsens the marked cells, which are to be reactivable: refined, with four active children. The
/// mesh becomes the smallest admissible one with the old refined cells that are not marked, so a
/// marked cell that the others need stays refined. Lists the cells that ceased to be refined and
/// the functions that ceased to be deactivated, each in rising order. Entries past the answered
/// lengths keep their values. Refuses 1 to 8, 10 and 11. With a draft: [`coarsen_cells_with_draft`].
pub fn coarsen_cells(
    plan: Plan,
    cells: &mut [u8],
    functions: &mut [u8],
    marks: &[Cell],
    cell_list: &mut [Cell],
    function_list: &mut [Function],
) -> Result<Changed, Refusal> {
    let marks = cell_numbers(marks);
    change(ffi::wallmirror_coarsen_cells, plan, cells, functions, marks, cell_list, function_list)
}

/// Coarsens the reactivable cells that lie in the support of a marked function and of no unmarked
/// deactivated one of the same level. Marks are deactivated functions with a reactivable cell of
/// their own level in their support. Otherwise as [`coarsen_cells`]. With a draft:
/// [`coarsen_functions_with_draft`].
pub fn coarsen_functions(
    plan: Plan,
    cells: &mut [u8],
    functions: &mut [u8],
    marks: &[Function],
    cell_list: &mut [Cell],
    function_list: &mut [Function],
) -> Result<Changed, Refusal> {
    let marks = function_numbers(marks);
    change(
        ffi::wallmirror_coarsen_functions,
        plan,
        cells,
        functions,
        marks,
        cell_list,
        function_list,
    )
}

fn change(
    call: ffi::Change,
    plan: Plan,
    cells: &mut [u8],
    functions: &mut [u8],
    marks: &[u32],
    cell_list: &mut [Cell],
    function_list: &mut [Function],
) -> Result<Changed, Refusal> {
    // SAFETY: pointers and lengths are those of slices; the mutable ones overlap no other. Cell and
    // Function are transparent over u32.
    changed(unsafe {
        call(
            plan.raw(),
            cells.as_mut_ptr(),
            cells.len(),
            functions.as_mut_ptr(),
            functions.len(),
            marks.as_ptr(),
            marks.len(),
            cell_list.as_mut_ptr().cast(),
            cell_list.len(),
            function_list.as_mut_ptr().cast(),
            function_list.len(),
        )
    })
}

fn changed(answer: ffi::Answer) -> Result<Changed, Refusal> {
    accepted(answer.number)?;
    Ok(Changed { cells: answer.cells as usize, functions: answer.functions as usize })
}

/// As [`refine_cells`], and the heights are carried, so that the surface keeps its shape: what is
/// carried is said [above](crate#heights-that-are-kept). Tables, lists and answer are those of the
/// call without heights; functions that are not active then have a height of 0. Refuses 1 to 6; then
/// 3 where there is not one height for each function; then 14; then 15, for the heights; then 7 to
/// 11; then 17. After a refusal the heights too are what they were. With a draft:
/// [`refine_cells_with_heights_and_draft`].
///
/// ```
/// # use wallmirror::{open, refine_cells_with_heights, Cell, Function, Plan, Refusal};
/// let plan = Plan { columns: 2, levels: 2, ..Plan::default() };
/// # let (t, f) = (plan.cells().unwrap(), plan.functions().unwrap());
/// # let (mut cells, mut functions) = (vec![0; t], vec![0; f]);
/// # let (mut cell_list, mut function_list) = (vec![Cell(0); t], vec![Function(0); f]);
/// # let (cell_list, function_list) = (&mut cell_list[..], &mut function_list[..]);
/// open(plan, &mut cells, &mut functions)?;
/// let mut heights = vec![0; functions.len()];
/// (heights[0], heights[1]) = (65_536, 65_536);
/// let (cells, functions, heights) = (&mut cells[..], &mut functions[..], &mut heights[..]);
/// let marks = [Cell(0)];
/// refine_cells_with_heights(plan, cells, functions, heights, &marks, cell_list, function_list)?;
/// // Function 0 is function 6 of level 1 and half of function 7. Function 1 is still active.
/// assert_eq!((heights[0], heights[6], heights[7]), (0, 65_536 * 16, 32_768 * 16));
/// // It is the other half of function 7, for which a unit more is then too much.
/// heights[7] += 1;
/// let before = heights.to_vec();
/// let marks = [Cell(1)];
/// let refused =
///     refine_cells_with_heights(plan, cells, functions, heights, &marks, cell_list, function_list);
/// assert_eq!(refused, Err(Refusal::CarriedHeightOutOfRange));
/// assert_eq!(heights, before);
/// # Ok::<(), Refusal>(())
/// ```
pub fn refine_cells_with_heights(
    plan: Plan,
    cells: &mut [u8],
    functions: &mut [u8],
    heights: &mut [i32],
    marks: &[Cell],
    cell_list: &mut [Cell],
    function_list: &mut [Function],
) -> Result<Changed, Refusal> {
    let call = ffi::wallmirror_refine_cells_with_heights;
    let (tables, lists) = ((cells, functions), (cell_list, function_list));
    change_with_heights(call, plan, tables, heights, cell_numbers(marks), lists)
}

/// As [`refine_functions`], and the heights are carried, as [`refine_cells_with_heights`] says. With a
/// draft: [`refine_functions_with_heights_and_draft`].
pub fn refine_functions_with_heights(
    plan: Plan,
    cells: &mut [u8],
    functions: &mut [u8],
    heights: &mut [i32],
    marks: &[Function],
    cell_list: &mut [Cell],
    function_list: &mut [Function],
) -> Result<Changed, Refusal> {
    let call = ffi::wallmirror_refine_functions_with_heights;
    let (tables, lists) = ((cells, functions), (cell_list, function_list));
    change_with_heights(call, plan, tables, heights, function_numbers(marks), lists)
}

fn change_with_heights(
    call: ffi::ChangeWithHeights,
    plan: Plan,
    (cells, functions): (&mut [u8], &mut [u8]),
    heights: &mut [i32],
    marks: &[u32],
    (cell_list, function_list): (&mut [Cell], &mut [Function]),
) -> Result<Changed, Refusal> {
    // SAFETY: pointers and lengths are those of slices; the mutable ones overlap no other. Cell and
    // Function are transparent over u32.
    changed(unsafe {
        call(
            plan.raw(),
            cells.as_mut_ptr(),
            cells.len(),
            functions.as_mut_ptr(),
            functions.len(),
            heights.as_mut_ptr(),
            heights.len(),
            marks.as_ptr(),
            marks.len(),
            cell_list.as_mut_ptr().cast(),
            cell_list.len(),
            function_list.as_mut_ptr().cast(),
            function_list.len(),
        )
    })
}

/// Makes both tables the mesh of the file, whatever they held, and answers its plan. Refuses 12,
/// judged over all numbers of the file; then 1 to 5, where 3 is said of the lent tables, 4 also of a
/// listed cell that is not below the number of cells, and 4 and 5 of the mesh with the listed cells
/// refined; then 13. A mesh that was read passes [`check`], and its file is the one that was read.
///
/// A file of unknown plan is read twice, as [`Mesh::from_file`] does: with empty tables, which is
/// refused with the plan, and with tables of that plan. For a program that keeps a draft there is
/// [`read_with_draft`].
///
/// ```
/// # use wallmirror::{read, ReadRefusal, Refusal};
/// let file = [3, 1, 3, 1, 1, 0, 2, 0, 1];
/// let unread = read(&file, &mut [], &mut []).unwrap_err();
/// assert_eq!(unread.refusal, Refusal::TableLength);
/// let plan = unread.plan.expect("a plan that is in range");
/// let mut cells = vec![0; plan.cells().unwrap()];
/// let mut functions = vec![0; plan.functions().unwrap()];
/// assert_eq!(read(&file, &mut cells, &mut functions), Ok(plan));
/// assert_eq!(cells[..3], [2, 2, 1]);
/// ```
pub fn read(file: &[u8], cells: &mut [u8], functions: &mut [u8]) -> Result<Plan, ReadRefusal> {
    // SAFETY: pointers and lengths are those of slices; the mutable ones overlap no other.
    plan_read(unsafe {
        ffi::wallmirror_read(
            file.as_ptr(),
            file.len(),
            cells.as_mut_ptr(),
            cells.len(),
            functions.as_mut_ptr(),
            functions.len(),
        )
    })
}

fn plan_read(answer: ffi::Read) -> Result<Plan, ReadRefusal> {
    let plan = Plan::from_raw(answer.plan);
    // All zeros stand for no plan.
    let known = (answer.plan != ffi::Plan::default()).then_some(plan);
    accepted(answer.number).map_err(|refusal| ReadRefusal { refusal, plan: known })?;
    Ok(plan)
}

/// Writes the file of the mesh to the lent bytes, of which [`MAX_FILE_BYTES`] are always enough,
/// and answers its length. Bytes past it keep their values. Refuses 1 to 6, then 10.
///
/// ```
/// # use wallmirror::{open, write, Plan, Refusal};
/// # let plan = Plan { columns: 3, levels: 3, ..Plan::default() };
/// # let (mut cells, mut functions) = (vec![0; 63], vec![0; 94]);
/// open(plan, &mut cells, &mut functions)?;
/// let mut file = [9; 8];
/// assert_eq!(write(plan, &cells, &functions, &mut file), Ok(7));
/// assert_eq!(file, [3, 1, 3, 1, 1, 0, 0, 9]);
/// assert_eq!(write(plan, &cells, &functions, &mut file[..6]), Err(Refusal::CellListTooShort));
/// # Ok::<(), Refusal>(())
/// ```
pub fn write(
    plan: Plan,
    cells: &[u8],
    functions: &[u8],
    file: &mut [u8],
) -> Result<usize, Refusal> {
    // SAFETY: pointers and lengths are those of slices; the mutable one overlaps no other.
    let written = unsafe {
        ffi::wallmirror_write(
            plan.raw(),
            cells.as_ptr(),
            cells.len(),
            functions.as_ptr(),
            functions.len(),
            file.as_mut_ptr(),
            file.len(),
        )
    };
    accepted(written.number)?;
    Ok(written.length as usize)
}

/// The height of the surface in millimetres at a point, across and up in eighths of a cell of the
/// last level: the sum over the active functions of height times B-spline value, exactly. What the
/// heights are is said [above](crate#heights). Where it is 0 it is 0.0 and never -0.0. Refuses 1 to
/// 6; then 3 where there is not one height for each function; then 14; then 15.
///
/// ```
/// # use wallmirror::{height, open, Plan, Refusal};
/// let plan = Plan { degree_across: 2, ..Plan::default() };
/// let (mut cells, mut functions) = ([0; 1], [0; 6]);
/// open(plan, &mut cells, &mut functions)?;
/// let heights = [0, 0, 0, 0, 3, 100];
/// assert_eq!(height(plan, &cells, &functions, &heights, 8, 8), Ok(100.0));
/// assert_eq!(height(plan, &cells, &functions, &heights, 4, 4), Ok((3.0 / 2.0 + 100.0 / 4.0) / 2.0));
/// let beyond = height(plan, &cells, &functions, &heights, 9, 8);
/// assert_eq!(beyond, Err(Refusal::PointOrHeightOutOfRange));
/// # Ok::<(), Refusal>(())
/// ```
pub fn height(
    plan: Plan,
    cells: &[u8],
    functions: &[u8],
    heights: &[i32],
    across: u32,
    up: u32,
) -> Result<f64, Refusal> {
    // SAFETY: pointers and lengths are those of three slices, which are only read.
    let answer = unsafe {
        ffi::wallmirror_height(
            plan.raw(),
            cells.as_ptr(),
            cells.len(),
            functions.as_ptr(),
            functions.len(),
            heights.as_ptr(),
            heights.len(),
            across,
            up,
        )
    };
    accepted(answer.number)?;
    Ok(answer.height)
}

/// Writes the corners of the active cells to the lent doubles and answers how many they are: for
/// each cell, in rising order of the numbers, lower left, lower right, upper left, upper right, and
/// for each corner its place across and up, in cells of the last level, and the height of the surface
/// there in millimetres, as [`height`] answers it. That makes twelve doubles for a cell, all of them
/// exact; [`MAX_CORNER_DOUBLES`] are always enough. Doubles past them keep their values. Refuses 1;
/// 2; 16; 3 to 6; then 3 where there is not one height for each function; then 14; then 15, for the
/// heights; then 10.
///
/// ```
/// # use wallmirror::{corners, open, Plan, Refusal};
/// let plan = Plan::default();
/// let (mut cells, mut functions) = ([0; 1], [0; 4]);
/// open(plan, &mut cells, &mut functions)?;
/// let heights = [7, -8, 9, 10];
/// let mut out = [0.5; 13];
/// assert_eq!(corners(plan, &cells, &functions, &heights, &mut out), Ok(4));
/// assert_eq!(out[..6], [0.0, 0.0, 7.0, 1.0, 0.0, -8.0]); // both lower ones
/// assert_eq!(out[6..], [0.0, 1.0, 9.0, 1.0, 1.0, 10.0, 0.5]); // both upper ones
/// let short = corners(plan, &cells, &functions, &heights, &mut out[..11]);
/// assert_eq!(short, Err(Refusal::CellListTooShort));
/// # Ok::<(), Refusal>(())
/// ```
pub fn corners(
    plan: Plan,
    cells: &[u8],
    functions: &[u8],
    heights: &[i32],
    out: &mut [f64],
) -> Result<usize, Refusal> {
    // SAFETY: pointers and lengths are those of slices; the mutable one overlaps no other.
    let answer = unsafe {
        ffi::wallmirror_corners(
            plan.raw(),
            cells.as_ptr(),
            cells.len(),
            functions.as_ptr(),
            functions.len(),
            heights.as_ptr(),
            heights.len(),
            out.as_mut_ptr(),
            out.len(),
        )
    };
    accepted(answer.number)?;
    Ok(answer.corners as usize)
}

fn doubles(corners: &mut [Corner]) -> &mut [f64] {
    // SAFETY: Corner is three f64 in the order of C, with nothing between them.
    unsafe { std::slice::from_raw_parts_mut(corners.as_mut_ptr().cast(), 3 * corners.len()) }
}

fn accepted(number: u32) -> Result<(), Refusal> {
    match number {
        0 => Ok(()),
        _ => Err(Refusal::from_number(number)
            .unwrap_or_else(|| panic!("the library answered {number}, which no refusal has"))),
    }
}

fn cell_numbers(marks: &[Cell]) -> &[u32] {
    // SAFETY: Cell is transparent over u32.
    unsafe { std::slice::from_raw_parts(marks.as_ptr().cast(), marks.len()) }
}

fn function_numbers(marks: &[Function]) -> &[u32] {
    // SAFETY: Function is transparent over u32.
    unsafe { std::slice::from_raw_parts(marks.as_ptr().cast(), marks.len()) }
}

#[cfg(test)]
mod tests {
    use super::*;

    #[test]
    fn the_documentation_has_the_examples() {
        let documentation = include_str!("../../../README.md");
        let in_c = |block: &'static str| block.split("```").next().expect("the end of a block");
        let blocks: Vec<&str> = documentation.split("```c\n").skip(1).map(in_c).collect();
        assert_eq!(blocks.len(), 2);
        assert_eq!(blocks[0], include_str!("../../../examples/c/refine.c"));
        assert!(include_str!("../../../examples/c/file.c").contains(blocks[1]));
        assert!(documentation.contains(include_str!("../examples/file.rs")));
        assert!(documentation.contains(include_str!("../examples/nudge.expected")));
        assert!(documentation.contains(include_str!("../examples/refine.expected")));
    }

    #[test]
    fn the_header_has_the_same_numbers() {
        let header = include_str!("../../../include/wallmirror.h");
        for (name, number) in [
            ("MAX_CELLS", MAX_CELLS),
            ("MAX_FUNCTIONS", MAX_FUNCTIONS),
            ("MAX_PLANE_WORDS", MAX_PLANE_WORDS),
            ("MAX_ROUNDS", MAX_ROUNDS),
            ("MAX_FILE_BYTES", MAX_FILE_BYTES),
            ("MAX_HEIGHT_MM", MAX_HEIGHT_MM as usize),
            ("MAX_PROJECTED_CELLS", MAX_PROJECTED_CELLS),
            ("MAX_CORNER_DOUBLES", MAX_CORNER_DOUBLES),
            ("STACK_BYTES", STACK_BYTES),
        ] {
            assert!(header.contains(&format!("#define WALLMIRROR_{name} {number}\n")), "{name}");
        }
        assert!(header.contains(&format!("#define WALLMIRROR_VERSION \"{VERSION}\"\n")));
        let parts: Vec<u32> = VERSION.split('.').map(|part| part.parse().unwrap()).collect();
        for (name, part) in ["MAJOR", "MINOR", "PATCH"].iter().zip(&parts) {
            assert!(header.contains(&format!("#define WALLMIRROR_VERSION_{name} {part}\n")));
        }
        assert_eq!(version(), parts[0] * 1_000_000 + parts[1] * 1_000 + parts[2]);
    }

    /// A C test compares this file with what the header's function says.
    #[test]
    fn the_header_has_the_same_texts() {
        let said = include_str!("../../../tests/c/texts.expected");
        let mut lines = vec!["0: accepted".to_string()];
        let text = |refusal: &Refusal| format!("{}: {}", refusal.number(), refusal.text());
        lines.extend(Refusal::ALL.iter().map(text));
        let others = [Refusal::ALL.len() as u32 + 1, u32::MAX];
        lines.extend(others.map(|number| format!("{number}: no refusal has this number")));
        assert_eq!(said.lines().collect::<Vec<_>>(), lines);
    }

    #[test]
    fn refusals_have_their_numbers() {
        for (i, &refusal) in Refusal::ALL.iter().enumerate() {
            assert_eq!(refusal.number() as usize, i + 1);
            assert_eq!(Refusal::from_number(refusal.number()), Some(refusal));
            assert!(refusal.to_string().starts_with(&format!("refusal {}: ", i + 1)));
        }
        assert_eq!(Refusal::from_number(0), None);
        assert_eq!(Refusal::from_number(Refusal::ALL.len() as u32 + 1), None);
    }

    #[test]
    fn the_header_has_the_same_refusals() {
        let header = include_str!("../../../include/wallmirror.h");
        for refusal in Refusal::ALL {
            // TableLength is WALLMIRROR_TABLE_LENGTH.
            let mut name = "WALLMIRROR".to_string();
            for letter in format!("{refusal:?}").chars() {
                name.extend(letter.is_uppercase().then_some('_'));
                name.push(letter.to_ascii_uppercase());
            }
            let said = format!("    {name} = {}", refusal.number());
            assert!(header.lines().any(|line| line.trim_end_matches(',') == said), "{said}");
        }
    }

    #[test]
    fn lengths_are_those_that_open_takes() {
        let range = |last: u32| (0..=last + 1).chain([u32::MAX]);
        let (mut most_cells, mut most_functions) = (0, 0);
        for columns in range(16) {
            for rows in range(16) {
                for levels in range(8) {
                    for (degree_across, degree_up) in
                        range(4).flat_map(|p| range(4).map(move |q| (p, q)))
                    {
                        for class in [0, 1, 2, 8, 9] {
                            let (t, f) = try_lengths(Plan {
                                columns,
                                rows,
                                levels,
                                degree_across,
                                degree_up,
                                admissibility_class: class,
                                ..Plan::default()
                            });
                            most_cells = most_cells.max(t);
                            most_functions = most_functions.max(f);
                        }
                    }
                }
            }
        }
        // Without corners.
        assert_eq!((most_cells, most_functions), (MAX_CELLS, 26_220));
        assert_eq!(most_cells.div_ceil(64), MAX_PLANE_WORDS);
    }

    #[test]
    fn lengths_with_corners_are_those_that_open_takes() {
        let mut most_functions = 0;
        // None, one, each line between two cells, and lines that are not between.
        let sets = |n: u32| [0, 1 << (n / 2) & !1, (1 << n) - 2, 1, 1 << n, 1 << 31];
        for (columns, rows) in
            (1..=16).flat_map(|columns| (1..=16).map(move |rows| (columns, rows)))
        {
            for levels in 1..=8 {
                for (degree_across, degree_up) in [(1, 1), (2, 1), (3, 4), (4, 4)] {
                    for (i, corners_across) in sets(columns).into_iter().enumerate() {
                        for (j, corners_up) in sets(rows).into_iter().enumerate() {
                            let plan = Plan {
                                columns,
                                rows,
                                levels,
                                degree_across,
                                degree_up,
                                admissibility_class: 2,
                                corners_across,
                                corners_up,
                            };
                            assert!(i.max(j) < 3 || plan.cells().is_none(), "{plan:?}");
                            most_functions = most_functions.max(try_lengths(plan).1);
                        }
                    }
                }
            }
        }
        assert_eq!(most_functions, MAX_FUNCTIONS);
    }

    /// Opens tables of the plan's lengths, or sees the plan refused.
    fn try_lengths(plan: Plan) -> (usize, usize) {
        let (Some(t), Some(f)) = (plan.cells(), plan.functions()) else {
            let refusal = open(plan, &mut [], &mut []).unwrap_err();
            assert!(matches!(refusal, Refusal::PlanOutOfRange | Refusal::TooManyCells), "{plan:?}");
            assert_eq!(planes_open(plan, &mut [], &mut [], &mut []), Err(refusal), "{plan:?}");
            assert_eq!(plan.plane_words(), None, "{plan:?}");
            return (0, 0);
        };
        let (mut cells, mut functions) = (vec![9; t], vec![9; f]);
        assert_eq!(open(plan, &mut cells, &mut functions), Ok(()), "{plan:?}");
        let words = t.div_ceil(64);
        assert_eq!(plan.plane_words(), Some(words), "{plan:?}");
        let (mut present, mut refined) = (vec![9; words], vec![9; words]);
        let opened = planes_open(plan, &mut present, &mut refined, &mut functions);
        assert_eq!(opened, Ok(()), "{plan:?}");
        (t, f)
    }
}
