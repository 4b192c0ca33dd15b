//! Running a call of the compiled library on lent tables and holding everything it did to the model.

use model::{Cell, Function, Mesh, Plan};
use std::collections::BTreeSet;
use std::fmt::Debug;
use wallmirror::{ffi, Refusal, MAX_FILE_BYTES};

pub mod change;
pub mod draft;
pub mod order;
pub mod pages;
pub mod planes;
pub mod rounds;
pub mod scenario;
pub mod seen;
mod slices;
pub mod surface;

/// A seeded generator (splitmix64), so that every run of the tests is the same.
pub struct Random(u64);

impl Random {
    pub fn new(seed: u64) -> Random {
        Random(seed)
    }

    pub fn bits(&mut self) -> u64 {
        self.0 = self.0.wrapping_add(0x9e37_79b9_7f4a_7c15);
        let mut x = self.0;
        x = (x ^ (x >> 30)).wrapping_mul(0xbf58_476d_1ce4_e5b9);
        x = (x ^ (x >> 27)).wrapping_mul(0x94d0_49bb_1331_11eb);
        x ^ (x >> 31)
    }

    /// A number from 0 to n-1.
    pub fn below(&mut self, n: usize) -> usize {
        (self.bits() % n as u64) as usize
    }

    /// True once in n times.
    pub fn once_in(&mut self, n: usize) -> bool {
        self.below(n) == 0
    }

    pub fn pick<T: Copy>(&mut self, from: &[T]) -> T {
        from[self.below(from.len())]
    }

    pub fn numbers(&mut self, n: usize) -> Vec<u32> {
        (0..n).map(|_| self.bits() as u32).collect()
    }

    pub fn shuffle<T>(&mut self, list: &mut [T]) {
        for i in (1..list.len()).rev() {
            list.swap(i, self.below(i + 1));
        }
    }
}

/// The refining and coarsening calls.
#[derive(Clone, Copy, Debug, PartialEq, Eq)]
pub enum Kind {
    RefineCells,
    RefineFunctions,
    CoarsenCells,
    CoarsenFunctions,
}

use Kind::*;

impl Kind {
    pub const ALL: [Kind; 4] = [RefineCells, RefineFunctions, CoarsenCells, CoarsenFunctions];

    /// For runs: more refining than coarsening, so that there is something to coarsen.
    pub const MOSTLY_REFINING: [Kind; 5] =
        [RefineCells, RefineCells, RefineFunctions, CoarsenCells, CoarsenFunctions];

    /// Those that there are with heights too.
    pub const REFINING: [Kind; 2] = [RefineCells, RefineFunctions];

    pub fn refines(self) -> bool {
        matches!(self, RefineCells | RefineFunctions)
    }

    pub fn by_functions(self) -> bool {
        matches!(self, RefineFunctions | CoarsenFunctions)
    }

    pub fn name(self) -> &'static str {
        match self {
            RefineCells => "refine cells",
            RefineFunctions => "refine functions",
            CoarsenCells => "coarsen cells",
            CoarsenFunctions => "coarsen functions",
        }
    }

    /// The call by cells that undoes this one.
    pub fn opposite(self) -> Kind {
        if self.refines() {
            CoarsenCells
        } else {
            RefineCells
        }
    }

    pub fn of_library(self) -> ffi::Change {
        match self {
            RefineCells => ffi::wallmirror_refine_cells,
            RefineFunctions => ffi::wallmirror_refine_functions,
            CoarsenCells => ffi::wallmirror_coarsen_cells,
            CoarsenFunctions => ffi::wallmirror_coarsen_functions,
        }
    }

    /// The call with heights.
    pub fn with_heights(self) -> ffi::ChangeWithHeights {
        match self {
            RefineCells => ffi::wallmirror_refine_cells_with_heights,
            RefineFunctions => ffi::wallmirror_refine_functions_with_heights,
            CoarsenCells | CoarsenFunctions => panic!("coarsening carries no heights"),
        }
    }

    /// The call with a draft.
    pub fn with_draft(self) -> ffi::ChangeWithDraft {
        match self {
            RefineCells => ffi::wallmirror_refine_cells_with_draft,
            RefineFunctions => ffi::wallmirror_refine_functions_with_draft,
            CoarsenCells => ffi::wallmirror_coarsen_cells_with_draft,
            CoarsenFunctions => ffi::wallmirror_coarsen_functions_with_draft,
        }
    }

    /// The call with both.
    pub fn with_heights_and_draft(self) -> ffi::ChangeWithHeightsAndDraft {
        match self {
            RefineCells => ffi::wallmirror_refine_cells_with_heights_and_draft,
            RefineFunctions => ffi::wallmirror_refine_functions_with_heights_and_draft,
            CoarsenCells | CoarsenFunctions => panic!("coarsening carries no heights"),
        }
    }

    /// The call on planes.
    pub fn of_planes(self) -> ffi::ChangeOfPlanes {
        match self {
            RefineCells => ffi::wallmirror_planes_refine_cells,
            RefineFunctions => ffi::wallmirror_planes_refine_functions,
            CoarsenCells => ffi::wallmirror_planes_coarsen_cells,
            CoarsenFunctions => ffi::wallmirror_planes_coarsen_functions,
        }
    }

    pub fn of_model(self) -> model::Call {
        match self {
            RefineCells => model::refine_cells,
            RefineFunctions => model::refine_functions,
            CoarsenCells => model::coarsen_cells,
            CoarsenFunctions => model::coarsen_functions,
        }
    }
}

/// The plan in the order A, B, L, p, q, m, and then both corner numbers, or none.
pub fn plan<const N: usize>(numbers: [u32; N]) -> Plan {
    let (&[columns, rows, levels, degree_across, degree_up, class], corners) =
        numbers.split_first_chunk().expect("six numbers");
    let (corners_across, corners_up) = match *corners {
        [] => (0, 0),
        [across, up] => (across, up),
        _ => panic!("{numbers:?} are not six or eight numbers"),
    };
    Plan { columns, rows, levels, degree_across, degree_up, class, corners_across, corners_up }
}

/// A corner on every line between n columns or rows.
pub fn all_corners(n: u32) -> u32 {
    (1 << n) - 2
}

/// All sets of corners of n columns or rows.
pub fn every_corners(n: u32) -> impl Iterator<Item = u32> {
    (0..1 << (n - 1)).map(|set| set << 1)
}

/// Corners of n columns or rows: often none, often one, sometimes all, sometimes any.
pub fn random_corners(random: &mut Random, n: u32) -> u32 {
    match random.below(8) {
        0..=1 => 0,
        2..=4 if n > 1 => 2 << random.below(n as usize - 1),
        5 => all_corners(n),
        _ => random.bits() as u32 & all_corners(n),
    }
}

/// Whether the plan has a corner that a degree above 1 makes something of.
pub fn has_corners(plan: Plan) -> bool {
    plan.degree_across > 1 && plan.corners_across != 0 || plan.degree_up > 1 && plan.corners_up != 0
}

pub fn raw(plan: Plan) -> ffi::Plan {
    ffi::Plan {
        columns: plan.columns,
        rows: plan.rows,
        levels: plan.levels,
        degree_across: plan.degree_across,
        degree_up: plan.degree_up,
        admissibility_class: plan.class,
        corners_across: plan.corners_across,
        corners_up: plan.corners_up,
    }
}

/// What the library answers where the model counts so.
fn raw_count(counted: Result<model::Count, u32>) -> ffi::Count {
    match counted {
        Err(number) => ffi::Count { number, ..ffi::Count::default() },
        Ok(count) => ffi::Count {
            number: 0,
            active_cells: count.active_cells,
            refined_cells: count.refined_cells,
            active_functions: count.active_functions,
            area: count.area,
        },
    }
}

/// The same plan for the wrapper.
pub fn of_wrapper(plan: Plan) -> wallmirror::Plan {
    wallmirror::Plan {
        columns: plan.columns,
        rows: plan.rows,
        levels: plan.levels,
        degree_across: plan.degree_across,
        degree_up: plan.degree_up,
        admissibility_class: plan.class,
        corners_across: plan.corners_across,
        corners_up: plan.corners_up,
    }
}

/// The same numbers for the wrapper.
pub fn as_cells(numbers: &[u32]) -> Vec<wallmirror::Cell> {
    numbers.iter().copied().map(wallmirror::Cell).collect()
}

/// The same numbers for the wrapper.
pub fn as_functions(numbers: &[u32]) -> Vec<wallmirror::Function> {
    numbers.iter().copied().map(wallmirror::Function).collect()
}

/// A slice as it is lent to the library, with guards before and behind it that must stay.
struct Lent<T> {
    buffer: Vec<T>,
    guard: T,
}

const GUARDS: usize = 16;

/// A lent slice for a call of the library.
type Slice<T> = (*mut T, usize);

/// The bits of a double that is no number and that arithmetic does not leave as it is.
pub const SIGNALLING: u64 = 0x7ff0_0000_dead_beef;

impl<T: Copy + PartialEq + Debug> Lent<T> {
    fn new(content: &[T], guard: T) -> Lent<T> {
        let mut buffer = vec![guard; GUARDS];
        buffer.extend_from_slice(content);
        buffer.extend_from_slice(&[guard; GUARDS]);
        Lent { buffer, guard }
    }

    fn len(&self) -> usize {
        self.buffer.len() - 2 * GUARDS
    }

    fn pointer(&mut self) -> *mut T {
        self.buffer[GUARDS..].as_mut_ptr()
    }

    /// Pointer and length, as a call takes them.
    fn slice(&mut self) -> Slice<T> {
        (self.pointer(), self.len())
    }

    fn content(&self) -> &[T] {
        &self.buffer[GUARDS..GUARDS + self.len()]
    }

    /// The content is the expected one and the guards are untouched; `said` tells of what call.
    fn expect(&self, expected: &[T], what: &str, said: &dyn Fn() -> String) {
        let differ = self.content().iter().zip(expected).position(|(is, expected)| is != expected);
        if let Some(i) = differ {
            let (is, expected) = (self.content()[i], expected[i]);
            panic!("{what}: entry {i} is {is:?}, not {expected:?}, after {}", said());
        }
        let (before, rest) = self.buffer.split_at(GUARDS);
        let after = &rest[self.len()..];
        let kept = before.iter().chain(after).all(|&entry| entry == self.guard);
        assert!(kept, "wrote outside the {what}: {}", said());
    }
}

/// A plan and both tables, of whatever content and lengths.
#[derive(Clone, Debug, PartialEq, Eq)]
pub struct Tables {
    pub plan: Plan,
    pub cells: Vec<u8>,
    pub functions: Vec<u8>,
}

/// The answered number and both lists, cut to the answered lengths.
#[derive(Clone, Debug, PartialEq, Eq)]
pub struct Outcome {
    pub number: u32,
    pub cells: Vec<u32>,
    pub functions: Vec<u32>,
}

/// What a call answers that is accepted, with its lists.
pub fn accepted(cells: &[u32], functions: &[u32]) -> Outcome {
    Outcome { number: 0, cells: cells.to_vec(), functions: functions.to_vec() }
}

/// What a call answers that is refused.
pub fn refused(number: u32) -> Outcome {
    Outcome { number, cells: vec![], functions: vec![] }
}

impl Tables {
    /// The coarsest mesh of a plan that is in range, as the library opens it.
    pub fn opened(plan: Plan) -> Tables {
        let cells = vec![77; plan.cell_total()];
        let functions = vec![78; plan.function_total()];
        let mut tables = Tables { plan, cells, functions };
        assert_eq!(tables.open(), 0, "{plan:?}");
        tables
    }

    /// The mesh with these refined cells, which are to have their parents refined.
    pub fn with_refined(plan: Plan, refined: &BTreeSet<Cell>) -> Tables {
        let cells = model::table(plan, refined);
        let functions = model::labels(plan, &cells);
        Tables { plan, cells, functions }
    }

    fn lend(&self) -> (Lent<u8>, Lent<u8>) {
        (Lent::new(&self.cells, 0xa5), Lent::new(&self.functions, 0x5a))
    }

    pub fn open(&mut self) -> u32 {
        let expected = model::open(self.plan, self.cells.len(), self.functions.len());
        self.open_by(expected, |plan, (cells, t), (functions, f)| {
            // SAFETY: separate buffers of these lengths.
            unsafe { ffi::wallmirror_open(plan, cells, t, functions, f) }
        })
    }

    /// Opens by that call of the library, which answers its number. The tables are then as it left
    /// them.
    fn open_by(
        &mut self,
        expected: Result<model::file::Tables, u32>,
        call: impl FnOnce(ffi::Plan, Slice<u8>, Slice<u8>) -> u32,
    ) -> u32 {
        let (mut cells, mut functions) = self.lend();
        let plan = self.plan;
        let said = || format!("open {plan:?}");
        let number = call(raw(plan), cells.slice(), functions.slice());
        match expected {
            Err(refusal) => assert_eq!(number, refusal, "{}", said()),
            Ok(opened) => {
                assert_eq!(number, 0, "{}", said());
                (self.cells, self.functions) = opened;
                self.expect_present_levels(&said);
            }
        }
        cells.expect(&self.cells, "cell table", &said);
        functions.expect(&self.functions, "function table", &said);
        number
    }

    pub fn check(&self) -> u32 {
        let (mut cells, mut functions) = self.lend();
        let plan = self.plan;
        let said = || format!("check {plan:?}");
        // SAFETY: separate buffers of these lengths.
        let number = unsafe {
            ffi::wallmirror_check(
                raw(self.plan),
                cells.pointer(),
                cells.len(),
                functions.pointer(),
                functions.len(),
            )
        };
        let expected = model::check(self.plan, &self.cells, &self.functions);
        assert_eq!(number, expected.err().unwrap_or(0), "{}", said());
        cells.expect(&self.cells, "cell table", &said);
        functions.expect(&self.functions, "function table", &said);
        number
    }

    pub fn count(&self) -> ffi::Count {
        let (mut cells, mut functions) = self.lend();
        let plan = self.plan;
        let said = || format!("count {plan:?}");
        // SAFETY: separate buffers of these lengths.
        let count = unsafe {
            ffi::wallmirror_count(
                raw(self.plan),
                cells.pointer(),
                cells.len(),
                functions.pointer(),
                functions.len(),
            )
        };
        let expected = model::count(self.plan, &self.cells, &self.functions);
        assert_eq!(count, raw_count(expected), "{}", said());
        cells.expect(&self.cells, "cell table", &said);
        functions.expect(&self.functions, "function table", &said);
        count
    }

    /// Reads the file into these tables, of whatever content and lengths. Plan and tables are then
    /// as the call left them.
    pub fn read(&mut self, file: &[u8]) -> u32 {
        let expected = model::file::read(file, self.cells.len(), self.functions.len());
        self.read_by(file, expected, |(file, length), (cells, t), (functions, f)| {
            // SAFETY: separate buffers of these lengths.
            unsafe { ffi::wallmirror_read(file, length, cells, t, functions, f) }
        })
    }

    /// Reads by that call of the library.
    fn read_by(
        &mut self,
        file: &[u8],
        (plan, expected): (Plan, Result<model::file::Tables, u32>),
        call: impl FnOnce(Slice<u8>, Slice<u8>, Slice<u8>) -> ffi::Read,
    ) -> u32 {
        let (mut cells, mut functions) = self.lend();
        // A guard that ends a number: one that is cut off would be whole to who reads on.
        let mut lent_file = Lent::new(file, 0x01);
        let said = || {
            let few = &file[..file.len().min(40)];
            let lent = (self.cells.len(), self.functions.len());
            format!("read into tables of {lent:?}, {} bytes {few:02x?}", file.len())
        };
        let answer = call(lent_file.slice(), cells.slice(), functions.slice());
        let number = *expected.as_ref().err().unwrap_or(&0);
        assert_eq!(answer, ffi::Read { number, plan: raw(plan) }, "{}", said());
        let (new_cells, new_functions) =
            expected.unwrap_or_else(|_| (self.cells.clone(), self.functions.clone()));
        cells.expect(&new_cells, "cell table", &said);
        functions.expect(&new_functions, "function table", &said);
        lent_file.expect(file, "file", &said);
        *self = Tables { plan, cells: new_cells, functions: new_functions };
        if number == 0 {
            self.expect_present_levels(&|| format!("read of {plan:?}"));
        }
        number
    }

    /// Writes the mesh to the file as lent. Answers what was written, or the refusal.
    pub fn write(&self, lent: &[u8]) -> Result<Vec<u8>, u32> {
        let (mut cells, mut functions) = self.lend();
        let mut file = Lent::new(lent, 0x3c);
        let plan = self.plan;
        let said = || format!("write {plan:?} to {} bytes", lent.len());
        // SAFETY: separate buffers of these lengths.
        let written = unsafe {
            ffi::wallmirror_write(
                raw(self.plan),
                cells.pointer(),
                cells.len(),
                functions.pointer(),
                functions.len(),
                file.pointer(),
                file.len(),
            )
        };
        let expected = model::file::write(self.plan, &self.cells, &self.functions, lent.len());
        let bytes = expected.as_deref().unwrap_or(&[]);
        let number = *expected.as_ref().err().unwrap_or(&0);
        let answer = ffi::Written { number, length: bytes.len() as u32 };
        assert_eq!(written, answer, "{}", said());
        cells.expect(&self.cells, "cell table", &said);
        functions.expect(&self.functions, "function table", &said);
        file.expect(&overwritten(lent, bytes), "file", &said);
        expected
    }

    /// The file of tables that check passes.
    pub fn file(&self) -> Vec<u8> {
        self.write(&[0xee; MAX_FILE_BYTES]).expect("a mesh")
    }

    /// The height of the surface at a point. Library and model are to agree in every bit, that of the
    /// sign of zero too; with a refusal the height is 0.
    pub fn height(&self, heights: &[i32], across: u32, up: u32) -> Result<f64, u32> {
        let (mut cells, mut functions) = self.lend();
        // A guard that no active function may have.
        let mut lent_heights = Lent::new(heights, i32::MIN);
        let plan = self.plan;
        let said = || format!("height at {across}, {up}, {} heights, {plan:?}", heights.len());
        // SAFETY: separate buffers of these lengths.
        let answer = unsafe {
            ffi::wallmirror_height(
                raw(self.plan),
                cells.pointer(),
                cells.len(),
                functions.pointer(),
                functions.len(),
                lent_heights.pointer(),
                lent_heights.len(),
                across,
                up,
            )
        };
        let expected =
            model::height::height(self.plan, &self.cells, &self.functions, heights, across, up)
                .map(|height| height.to_f64());
        let number = *expected.as_ref().err().unwrap_or(&0);
        let height = *expected.as_ref().unwrap_or(&0.0);
        assert_eq!(answer, ffi::Height { number, height }, "{}", said());
        assert_eq!(answer.height.to_bits(), height.to_bits(), "the sign of 0: {}", said());
        cells.expect(&self.cells, "cell table", &said);
        functions.expect(&self.functions, "function table", &said);
        lent_heights.expect(heights, "heights", &said);
        expected
    }

    /// The corners of the active cells, written to the output as lent: the bits of doubles, so that
    /// each of them counts, also of what is no number. Library and model are to agree in every bit,
    /// and the library's heights are to be those that it answers at the points. Answers the corners,
    /// or the refusal.
    pub fn corners(&self, heights: &[i32], out: &[u64]) -> Result<Vec<[f64; 3]>, u32> {
        let (mut cells, mut functions) = self.lend();
        let mut lent_heights = Lent::new(heights, i32::MIN);
        let mut lent_out = Lent::new(out, SIGNALLING);
        let plan = self.plan;
        let lengths = (heights.len(), out.len());
        let said = || format!("corners, {} heights to {} doubles, {plan:?}", lengths.0, lengths.1);
        // SAFETY: separate buffers of these lengths; u64 is as long as f64 and aligned as it.
        let answer = unsafe {
            ffi::wallmirror_corners(
                raw(self.plan),
                cells.pointer(),
                cells.len(),
                functions.pointer(),
                functions.len(),
                lent_heights.pointer(),
                lent_heights.len(),
                lent_out.pointer().cast(),
                lent_out.len(),
            )
        };
        let expected =
            model::projector::corners(plan, &self.cells, &self.functions, heights, out.len());
        let corners: Vec<[f64; 3]> =
            expected.iter().flatten().map(|corner| corner.floats()).collect();
        let number = *expected.as_ref().err().unwrap_or(&0);
        let answered = ffi::Corners { number, corners: corners.len() as u32 };
        assert_eq!(answer, answered, "{}", said());
        let bits: Vec<u64> = corners.as_flattened().iter().map(|double| double.to_bits()).collect();
        lent_out.expect(&overwritten(out, &bits), "output", &said);
        cells.expect(&self.cells, "cell table", &said);
        functions.expect(&self.functions, "function table", &said);
        lent_heights.expect(heights, "heights", &said);
        self.expect_heights_at(&corners, heights, &said);
        expected.map(|_| corners)
    }

    /// The height at a point as the library alone answers it, without the model, which takes its time
    /// for each.
    pub fn answered_height(&self, heights: &[i32], across: u32, up: u32) -> Result<f64, u32> {
        let plan = of_wrapper(self.plan);
        wallmirror::height(plan, &self.cells, &self.functions, heights, across, up)
            .map_err(Refusal::number)
    }

    /// The library answers the heights of these corners at their points.
    fn expect_heights_at(&self, corners: &[[f64; 3]], heights: &[i32], said: &dyn Fn() -> String) {
        for &[across, up, height] in corners {
            let at = self.answered_height(heights, 8 * across as u32, 8 * up as u32);
            assert_eq!(at.map(f64::to_bits), Ok(height.to_bits()), "{across}, {up}: {}", said());
        }
    }

    /// What Req 12 claims in place of Req 02. Over each active cell of level k, with a class m other than
    /// 0, no function of level k-m+1 is passive, and none of a coarser level; those of levels finer than
    /// k all are. For tables that check passes; `said` tells what left them.
    fn expect_present_levels(&self, said: &dyn Fn() -> String) {
        let class = self.plan.class;
        if class == 0 {
            return;
        }
        for over in model::over_active_cells(self.plan, &self.cells, &self.functions) {
            let levels_with = |label: u8| {
                let levels = over.levels[label as usize];
                (0..self.plan.levels).filter(move |level| levels >> level & 1 == 1)
            };
            let k = over.cell.level;
            let present = levels_with(model::PASSIVE).all(|l| k + 1 < l + class)
                && levels_with(model::ACTIVE).all(|l| l <= k)
                && levels_with(model::DEACTIVATED).all(|l| l <= k);
            assert!(present, "{over:?} after {}", said());
        }
    }

    /// The cells that the marks of a refining call stand for. For tables and marks that it accepts.
    pub fn meant(&self, kind: Kind, marks: &[u32]) -> BTreeSet<Cell> {
        let (plan, marks) = (self.plan, marks.iter().map(|&mark| mark as usize));
        if !kind.by_functions() {
            return marks.map(|mark| plan.cell_at(mark)).collect();
        }
        marks
            .flat_map(|mark| plan.support(plan.function_at(mark)))
            .filter(|&cell| self.cells[plan.cell_number(cell)] == model::ACTIVE)
            .collect()
    }

    /// The cells that a refinement of these tables listed are those that the marks stand for and
    /// others within their reach, and no more than their bounds together; so in class 0 there are no
    /// others. `said` tells of what call.
    fn expect_cost(&self, kind: Kind, marks: &[u32], listed: &[u32], said: &dyn Fn() -> String) {
        let plan = self.plan;
        let meant = self.meant(kind, marks);
        let most: usize = meant.iter().map(|cell| plan.most_refined(cell.level)).sum();
        assert!(listed.len() <= most, "{} cells, not {most}: {}", listed.len(), said());
        let listed: BTreeSet<Cell> = listed.iter().map(|&n| plan.cell_at(n as usize)).collect();
        assert!(meant.is_subset(&listed), "{}", said());
        for &cell in listed.difference(&meant) {
            let reached = meant.iter().any(|&mark| plan.reaches(mark, cell));
            assert!(reached, "{cell:?} is out of reach: {}", said());
        }
    }

    /// The marks that the call takes, in rising order. For tables that check passes.
    pub fn markable(&self, kind: Kind) -> Vec<u32> {
        let mesh = Mesh::new(self.plan, &self.cells, &self.functions).expect("a mesh");
        let last = self.plan.levels - 1;
        let cells_where = |test: &dyn Fn(Cell) -> bool| -> Vec<u32> {
            self.plan.cells().zip(0..).filter(|&(cell, _)| test(cell)).map(|(_, n)| n).collect()
        };
        let functions_where = |test: &dyn Fn(Function) -> bool| -> Vec<u32> {
            self.plan.functions().zip(0..).filter(|&(f, _)| test(f)).map(|(_, n)| n).collect()
        };
        match kind {
            RefineCells => {
                cells_where(&|cell| cell.level < last && mesh.cell(cell) == model::ACTIVE)
            }
            RefineFunctions => {
                functions_where(&|f| f.level < last && mesh.function(f) == model::ACTIVE)
            }
            CoarsenCells => cells_where(&|cell| mesh.is_reactivable(cell)),
            CoarsenFunctions => functions_where(&|f| {
                mesh.function(f) == model::DEACTIVATED
                    && self.plan.support(f).any(|cell| mesh.is_reactivable(cell))
            }),
        }
    }
}

/// The list with its first entries replaced.
fn overwritten<T: Copy>(list: &[T], first: &[T]) -> Vec<T> {
    let mut list = list.to_vec();
    list[..first.len()].copy_from_slice(first);
    list
}

/// A mesh that refining and coarsening calls change, however its cells are held.
pub trait Changing {
    /// Runs one of the four calls with the lists as lent.
    fn call(
        &mut self,
        kind: Kind,
        marks: &[u32],
        cell_list: &[u32],
        function_list: &[u32],
    ) -> Outcome;
}

/// A call of a run with what it answered.
pub type Log = Vec<(Kind, Outcome)>;

/// Takes a run back by its cell lists, each lent list longer than needed by `spare` entries of
/// garbage, and sees that every call is accepted and names what the call it takes back named.
pub fn undo_by_cells(mesh: &mut impl Changing, log: &Log, spare: usize, random: &mut Random) {
    for (kind, outcome) in log.iter().rev() {
        let cell_list = random.numbers(outcome.cells.len() + spare);
        let function_list = random.numbers(outcome.functions.len() + spare);
        let undone = mesh.call(kind.opposite(), &outcome.cells, &cell_list, &function_list);
        assert_eq!(undone, Outcome { number: 0, ..outcome.clone() });
    }
}

/// The same by function lists, for a run of refinements by functions in class 0.
pub fn undo_by_functions(mesh: &mut impl Changing, log: &Log, spare: usize, random: &mut Random) {
    for (kind, outcome) in log.iter().rev() {
        assert_eq!(*kind, RefineFunctions);
        let cell_list = random.numbers(outcome.cells.len() + spare);
        let function_list = random.numbers(outcome.functions.len() + spare);
        let undone = mesh.call(CoarsenFunctions, &outcome.functions, &cell_list, &function_list);
        assert_eq!(undone, Outcome { number: 0, ..outcome.clone() });
    }
}

/// Just beyond so many numbers, and far beyond.
pub fn beyond(total: usize) -> [u32; 6] {
    let beyond = |more: u32| (total as u32).saturating_add(more);
    [beyond(0), beyond(1), beyond(1 << 16), 1 << 31, u32::MAX - 1, u32::MAX]
}

/// The plan with one number out of range, for each number and some values.
pub fn out_of_range(plan: Plan) -> Vec<Plan> {
    let far = [u32::MAX, u32::MAX - 1, 1 << 31, 33, 32];
    let mut plans = vec![];
    for value in far.into_iter().chain([0, 17]) {
        plans.extend([Plan { columns: value, ..plan }, Plan { rows: value, ..plan }]);
        plans.extend([Plan { levels: value, ..plan }, Plan { degree_across: value, ..plan }]);
        plans.push(Plan { degree_up: value, ..plan });
    }
    for value in far.into_iter().chain([1, 9]) {
        plans.push(Plan { class: value, ..plan });
    }
    for value in [1, 1 << 31, u32::MAX, 1 << plan.columns.max(plan.rows)] {
        plans.extend([Plan { corners_across: value, ..plan }, Plan { corners_up: value, ..plan }]);
    }
    plans
}

/// A plan of these degrees and class with at most so many cells on all levels, and with corners of
/// every kind.
pub fn random_plan(random: &mut Random, degrees: (u32, u32), class: u32, most: usize) -> Plan {
    loop {
        // Long and narrow, or square: both, at every number of levels.
        let widest = random.pick(&[1, 2, 4, 16]);
        let mut side = || random.below(widest) as u32 + 1;
        let (columns, rows) = (side(), side());
        let levels = random.below(8) as u32 + 1;
        let plan = plan([columns, rows, levels, degrees.0, degrees.1, class]);
        if plan.cell_total() <= most {
            let corners_across = random_corners(random, columns);
            let corners_up = random_corners(random, rows);
            return Plan { corners_across, corners_up, ..plan };
        }
    }
}

/// Refined cells of an admissible mesh, from nothing to most of it.
pub fn random_refined(random: &mut Random, plan: Plan) -> BTreeSet<Cell> {
    let refinable: usize = plan.cells().filter(|cell| cell.level + 1 < plan.levels).count();
    if refinable == 0 {
        return BTreeSet::new();
    }
    let seeds = random.pick(&[0, 1, 2, 5, refinable / 8, refinable]);
    let base = (0..seeds).map(|_| plan.cell_at(random.below(refinable))).collect();
    model::smallest(plan, base)
}

/// The mesh that is opened, or another admissible one.
pub fn random_start(random: &mut Random, plan: Plan) -> Tables {
    if random.once_in(2) {
        return Tables::opened(plan);
    }
    let refined = random_refined(random, plan);
    Tables::with_refined(plan, &refined)
}

/// Refined cells of a mesh of class 0 in which each lies in the support of a deactivated function of
/// its own level: supports of random functions of random levels, cut to the part that qualifies.
pub fn random_covered(random: &mut Random, plan: Plan) -> BTreeSet<Cell> {
    let mut base = BTreeSet::new();
    for level in 0..plan.levels - 1 {
        let functions: Vec<Function> = plan.functions().filter(|f| f.level == level).collect();
        for _ in 0..random.pick(&[0, 2, 5, functions.len() / 2]) {
            base.extend(plan.support(random.pick(&functions)));
        }
    }
    covered_part(plan, model::smallest(plan, base))
}

/// The largest part of a mesh of class 0 in which each refined cell lies in the support of a
/// deactivated function of its own level.
pub fn covered_part(plan: Plan, refined: BTreeSet<Cell>) -> BTreeSet<Cell> {
    let mut refined = refined;
    loop {
        let labels = model::labels(plan, &model::table(plan, &refined));
        let covered: BTreeSet<Cell> = plan
            .functions()
            .zip(&labels)
            .filter(|&(_, &label)| label == model::DEACTIVATED)
            .flat_map(|(function, _)| plan.support(function))
            .collect();
        // Level by level, so that a cell goes with its parent.
        let mut kept = BTreeSet::new();
        for &cell in &refined {
            let parent_kept = plan.parent(cell).is_none_or(|parent| kept.contains(&parent));
            if covered.contains(&cell) && parent_kept {
                kept.insert(cell);
            }
        }
        if kept == refined {
            return refined;
        }
        refined = kept;
    }
}

/// Marks for a call: mostly ones that it takes, sometimes others among them, sometimes none.
pub fn random_marks(random: &mut Random, tables: &Tables, kind: Kind) -> Vec<u32> {
    let markable = tables.markable(kind);
    let mut marks = vec![];
    if !markable.is_empty() {
        let many = random.pick(&[0, 1, 1, 1, 2, 4, markable.len() / 3, markable.len()]);
        marks = (0..many).map(|_| random.pick(&markable)).collect();
        if many == markable.len() && random.once_in(2) {
            marks = markable;
            random.shuffle(&mut marks);
        }
    }
    if random.once_in(8) {
        let total = if kind.by_functions() { tables.functions.len() } else { tables.cells.len() };
        marks.insert(random.below(marks.len() + 1), random.below(total + 2) as u32);
    }
    marks
}

/// Lists of garbage for a call: with room enough most often, and then sometimes with more.
pub fn random_lists(random: &mut Random, tables: &Tables) -> (Vec<u32>, Vec<u32>) {
    let mut room = |total: usize| match random.below(6) {
        0 => random.below(total / 4 + 2),
        1 => total + random.below(9),
        _ => total,
    };
    let (cell_room, function_room) = (room(tables.cells.len()), room(tables.functions.len()));
    (random.numbers(cell_room), random.numbers(function_room))
}

/// A call that refines more often than not, with marks that it takes.
pub fn random_step(random: &mut Random, tables: &mut Tables) {
    let refine = [Kind::RefineCells, Kind::RefineFunctions];
    let kind = if random.once_in(4) { random.pick(&Kind::ALL) } else { random.pick(&refine) };
    let markable = tables.markable(kind);
    // The finest ones more often than not, so that many levels come together.
    let from = if random.once_in(3) { 0 } else { markable.len() * 3 / 4 };
    let marks: Vec<u32> = match &markable[from..] {
        [] => vec![],
        some => (0..random.pick(&[1, 1, 2, 5])).map(|_| random.pick(some)).collect(),
    };
    assert_eq!(tables.call_with_room(kind, &marks).number, 0);
}

/// The refined cells of every mesh of the plan, admissible or not.
pub fn all_meshes(plan: Plan) -> Vec<BTreeSet<Cell>> {
    all_meshes_within(plan, |_| true)
}

/// The same, of the meshes that have none but these cells refined.
fn all_meshes_within(plan: Plan, within: impl Fn(Cell) -> bool) -> Vec<BTreeSet<Cell>> {
    let mut meshes = vec![BTreeSet::new()];
    for cell in plan.cells().filter(|&cell| cell.level + 1 < plan.levels && within(cell)) {
        // A cell may be refined where it is present.
        let refined: Vec<_> = meshes
            .iter()
            .filter(|mesh| plan.parent(cell).is_none_or(|parent| mesh.contains(&parent)))
            .map(|mesh| mesh.iter().copied().chain([cell]).collect())
            .collect();
        meshes.extend(refined);
    }
    meshes
}

/// Plans of classes 2, 3 and 4, with corners and without, each with meshes of it, admissible or not. In
/// class 2 these are all meshes; in class 3 all that have no cells refined but those of the first row (or
/// column); in class 4 all that have no cells refined but those of the first row that are at most two
/// columns from the middle of cell 0.
pub fn meshes_of_classes() -> Vec<(Plan, Vec<BTreeSet<Cell>>)> {
    let mut plans = vec![];
    for (p, q) in (1..=4).flat_map(|p| (1..=4).map(move |q| (p, q))) {
        plans.extend([0, 2].map(|corners| plan([2, 1, 3, p, q, 2, corners, 0])));
    }
    for (p, q) in [(1, 1), (2, 1), (3, 2)] {
        plans.extend([0, 2].map(|corners| plan([3, 1, 3, p, q, 2, corners, 0])));
        plans.extend([0, 4].map(|corners| plan([1, 3, 3, q, p, 2, 0, corners])));
    }
    for degree in 1..=4 {
        for corners in [0, 2] {
            plans.push(plan([2, 1, 4, degree, 1, 3, corners, 0]));
            plans.push(plan([1, 2, 4, 2, degree, 3, 0, corners]));
            plans.push(plan([2, 1, 5, degree, 1, 4, corners, 0]));
        }
    }
    let meshes = |plan: Plan| {
        let first = move |cell: Cell| if plan.rows == 1 { cell.row == 0 } else { cell.column == 0 };
        let two_from_middle = |cell: Cell| {
            let middle = (1 << cell.level) / 2;
            (middle.max(2) - 2..middle + 2).contains(&cell.column)
        };
        match plan.class {
            2 => all_meshes(plan),
            3 => all_meshes_within(plan, first),
            _ => all_meshes_within(plan, move |cell| first(cell) && two_from_middle(cell)),
        }
    };
    plans.into_iter().map(|plan| (plan, meshes(plan))).collect()
}

/// The tables of every admissible mesh of the plan.
pub fn all_admissible(plan: Plan) -> impl Iterator<Item = Tables> {
    all_meshes(plan)
        .into_iter()
        .map(move |refined| Tables::with_refined(plan, &refined))
        .filter(|tables| tables.check() == 0)
}
