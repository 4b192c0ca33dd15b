//! The library and the tuned C version, called alike.

use differential::{raw, Kind, Tables};
use wallmirror::{ffi, MAX_CORNER_DOUBLES};

#[derive(Clone, Copy)]
pub enum Call {
    Open,
    Check,
    Count,
    Read,
    Write,
    Height,
    Corners,
    Change(Kind),
    WithHeights(Kind),
}

impl Call {
    pub fn name(self) -> &'static str {
        match self {
            Call::Open => "open",
            Call::Check => "check",
            Call::Count => "count",
            Call::Read => "read file",
            Call::Write => "write file",
            Call::Height => "height",
            Call::Corners => "corners",
            Call::Change(kind) => kind.name(),
            Call::WithHeights(Kind::RefineCells) => "refine cells, heights",
            Call::WithHeights(_) => "refine functions, heights",
        }
    }
}

type Open = unsafe extern "C" fn(ffi::Plan, *mut u8, usize, *mut u8, usize) -> u32;
type Check = unsafe extern "C" fn(ffi::Plan, *const u8, usize, *const u8, usize) -> u32;
type Count = unsafe extern "C" fn(ffi::Plan, *const u8, usize, *const u8, usize) -> ffi::Count;
type Read = unsafe extern "C" fn(*const u8, usize, *mut u8, usize, *mut u8, usize) -> ffi::Read;
type Write = unsafe extern "C" fn(
    ffi::Plan,
    *const u8,
    usize,
    *const u8,
    usize,
    *mut u8,
    usize,
) -> ffi::Written;

type Height = unsafe extern "C" fn(
    ffi::Plan,
    *const u8,
    usize,
    *const u8,
    usize,
    *const i32,
    usize,
    u32,
    u32,
) -> ffi::Height;

type Corners = unsafe extern "C" fn(
    ffi::Plan,
    *const u8,
    usize,
    *const u8,
    usize,
    *const i32,
    usize,
    *mut f64,
    usize,
) -> ffi::Corners;

/// The calls of one version.
pub struct Version {
    open: Open,
    check: Check,
    count: Count,
    read: Read,
    write: Write,
    height: Height,
    corners: Corners,
    change: fn(Kind) -> ffi::Change,
    with_heights: fn(Kind) -> ffi::ChangeWithHeights,
}

pub const LIBRARY: Version = Version {
    open: ffi::wallmirror_open,
    check: ffi::wallmirror_check,
    count: ffi::wallmirror_count,
    read: ffi::wallmirror_read,
    write: ffi::wallmirror_write,
    height: ffi::wallmirror_height,
    corners: ffi::wallmirror_corners,
    change: Kind::of_library,
    with_heights: Kind::with_heights,
};

pub const TUNED: Version = Version {
    open: tuned::tuned_open,
    check: tuned::tuned_check,
    count: tuned::tuned_count,
    read: tuned::tuned_read,
    write: tuned::tuned_write,
    height: tuned::tuned_height,
    corners: tuned::tuned_corners,
    change: |kind| match kind {
        Kind::RefineCells => tuned::tuned_refine_cells,
        Kind::RefineFunctions => tuned::tuned_refine_functions,
        Kind::CoarsenCells => tuned::tuned_coarsen_cells,
        Kind::CoarsenFunctions => tuned::tuned_coarsen_functions,
    },
    with_heights: |kind| match kind {
        Kind::RefineCells => tuned::tuned_refine_cells_with_heights,
        Kind::RefineFunctions => tuned::tuned_refine_functions_with_heights,
        Kind::CoarsenCells | Kind::CoarsenFunctions => panic!("coarsening carries no heights"),
    },
};

mod tuned {
    use wallmirror::ffi;

    macro_rules! changes {
        ($($name:ident)*) => {
            extern "C" {
                $(pub fn $name(
                    plan: ffi::Plan,
                    cells: *mut u8,
                    cells_len: usize,
                    functions: *mut u8,
                    functions_len: usize,
                    marks: *const u32,
                    marks_len: usize,
                    cell_list: *mut u32,
                    cell_list_len: usize,
                    function_list: *mut u32,
                    function_list_len: usize,
                ) -> ffi::Answer;)*
            }
        };
    }

    changes! {
        tuned_refine_cells
        tuned_refine_functions
        tuned_coarsen_cells
        tuned_coarsen_functions
    }

    macro_rules! changes_with_heights {
        ($($name:ident)*) => {
            extern "C" {
                $(pub fn $name(
                    plan: ffi::Plan,
                    cells: *mut u8,
                    cells_len: usize,
                    functions: *mut u8,
                    functions_len: usize,
                    heights: *mut i32,
                    heights_len: usize,
                    marks: *const u32,
                    marks_len: usize,
                    cell_list: *mut u32,
                    cell_list_len: usize,
                    function_list: *mut u32,
                    function_list_len: usize,
                ) -> ffi::Answer;)*
            }
        };
    }

    changes_with_heights! {
        tuned_refine_cells_with_heights
        tuned_refine_functions_with_heights
    }

    extern "C" {
        pub fn tuned_open(
            plan: ffi::Plan,
            cells: *mut u8,
            cells_len: usize,
            functions: *mut u8,
            functions_len: usize,
        ) -> u32;
        pub fn tuned_check(
            plan: ffi::Plan,
            cells: *const u8,
            cells_len: usize,
            functions: *const u8,
            functions_len: usize,
        ) -> u32;
        pub fn tuned_count(
            plan: ffi::Plan,
            cells: *const u8,
            cells_len: usize,
            functions: *const u8,
            functions_len: usize,
        ) -> ffi::Count;
        pub fn tuned_read(
            file: *const u8,
            file_len: usize,
            cells: *mut u8,
            cells_len: usize,
            functions: *mut u8,
            functions_len: usize,
        ) -> ffi::Read;
        pub fn tuned_write(
            plan: ffi::Plan,
            cells: *const u8,
            cells_len: usize,
            functions: *const u8,
            functions_len: usize,
            file: *mut u8,
            file_len: usize,
        ) -> ffi::Written;
        pub fn tuned_height(
            plan: ffi::Plan,
            cells: *const u8,
            cells_len: usize,
            functions: *const u8,
            functions_len: usize,
            heights: *const i32,
            heights_len: usize,
            across: u32,
            up: u32,
        ) -> ffi::Height;
        pub fn tuned_corners(
            plan: ffi::Plan,
            cells: *const u8,
            cells_len: usize,
            functions: *const u8,
            functions_len: usize,
            heights: *const i32,
            heights_len: usize,
            out: *mut f64,
            out_len: usize,
        ) -> ffi::Corners;
    }
}

/// What a call reads and writes, and what it answered.
#[derive(Clone, PartialEq, Eq)]
pub struct Buffers {
    pub tables: Tables,
    pub cell_list: Vec<u32>,
    pub function_list: Vec<u32>,
    pub file: Vec<u8>,
    pub heights: Vec<i32>,
    pub point: (u32, u32),
    /// The bits of doubles, so that they are compared in every bit.
    pub out: Vec<u64>,
    pub answer: [u32; 9],
}

impl Buffers {
    pub fn new(tables: &Tables, cell_room: usize, function_room: usize, file: Vec<u8>) -> Buffers {
        Buffers {
            tables: tables.clone(),
            cell_list: vec![0; cell_room],
            function_list: vec![0; function_room],
            file,
            heights: vec![0; tables.functions.len()],
            point: (0, 0),
            out: vec![],
            answer: [0; 9],
        }
    }

    /// Lists of T and F entries, the file of the mesh, heights that all functions may have, a point
    /// on no grid line, and room for all corners of cells that there may be.
    pub fn with_room(tables: &Tables) -> Buffers {
        let (t, f) = (tables.cells.len(), tables.functions.len());
        let heights = (0..f as i32).map(|i| i * 40_503 % 65_537 - 32_768).collect();
        let (across, up) = model::height::far_edges(tables.plan);
        let point = (across / 2 + 3, up / 2 - 3);
        let out = vec![0; MAX_CORNER_DOUBLES];
        Buffers { heights, point, out, ..Buffers::new(tables, t, f, tables.file()) }
    }

    /// Puts tables and heights back, which are to have the same lengths.
    pub fn restore(&mut self, before: &Buffers) {
        self.tables.cells.copy_from_slice(&before.tables.cells);
        self.tables.functions.copy_from_slice(&before.tables.functions);
        self.heights.copy_from_slice(&before.heights);
    }

    pub fn run(&mut self, version: &Version, call: Call, marks: &[u32]) {
        let plan = raw(self.tables.plan);
        let Tables { cells, functions, .. } = &mut self.tables;
        let (t, f) = (cells.len(), functions.len());
        // SAFETY: separate vectors of these lengths; u64 is as long as f64 and aligned as it.
        self.answer = unsafe {
            match call {
                Call::Open => {
                    let number =
                        (version.open)(plan, cells.as_mut_ptr(), t, functions.as_mut_ptr(), f);
                    padded([number])
                }
                Call::Check => {
                    padded([(version.check)(plan, cells.as_ptr(), t, functions.as_ptr(), f)])
                }
                Call::Count => {
                    let count = (version.count)(plan, cells.as_ptr(), t, functions.as_ptr(), f);
                    let ffi::Count { number, active_cells, refined_cells, .. } = count;
                    let ffi::Count { active_functions, area, .. } = count;
                    padded([number, active_cells, refined_cells, active_functions, area])
                }
                Call::Read => {
                    let (file, length) = (self.file.as_ptr(), self.file.len());
                    let (cells, functions) = (cells.as_mut_ptr(), functions.as_mut_ptr());
                    let ffi::Read { number, plan } =
                        (version.read)(file, length, cells, t, functions, f);
                    [
                        number,
                        plan.columns,
                        plan.rows,
                        plan.levels,
                        plan.degree_across,
                        plan.degree_up,
                        plan.admissibility_class,
                        plan.corners_across,
                        plan.corners_up,
                    ]
                }
                Call::Write => {
                    let (file, length) = (self.file.as_mut_ptr(), self.file.len());
                    let (cells, functions) = (cells.as_ptr(), functions.as_ptr());
                    let written = (version.write)(plan, cells, t, functions, f, file, length);
                    padded([written.number, written.length])
                }
                Call::Height => {
                    let (heights, length) = (self.heights.as_ptr(), self.heights.len());
                    let (cells, functions) = (cells.as_ptr(), functions.as_ptr());
                    let (across, up) = self.point;
                    let ffi::Height { number, height } =
                        (version.height)(plan, cells, t, functions, f, heights, length, across, up);
                    let bits = height.to_bits();
                    padded([number, bits as u32, (bits >> 32) as u32])
                }
                Call::Corners => {
                    let (heights, length) = (self.heights.as_ptr(), self.heights.len());
                    let (cells, functions) = (cells.as_ptr(), functions.as_ptr());
                    let (out, room) = (self.out.as_mut_ptr().cast(), self.out.len());
                    let ffi::Corners { number, corners } =
                        (version.corners)(plan, cells, t, functions, f, heights, length, out, room);
                    padded([number, corners])
                }
                Call::Change(kind) => {
                    let answer = (version.change)(kind)(
                        plan,
                        cells.as_mut_ptr(),
                        t,
                        functions.as_mut_ptr(),
                        f,
                        marks.as_ptr(),
                        marks.len(),
                        self.cell_list.as_mut_ptr(),
                        self.cell_list.len(),
                        self.function_list.as_mut_ptr(),
                        self.function_list.len(),
                    );
                    padded([answer.number, answer.cells, answer.functions])
                }
                Call::WithHeights(kind) => {
                    let answer = (version.with_heights)(kind)(
                        plan,
                        cells.as_mut_ptr(),
                        t,
                        functions.as_mut_ptr(),
                        f,
                        self.heights.as_mut_ptr(),
                        self.heights.len(),
                        marks.as_ptr(),
                        marks.len(),
                        self.cell_list.as_mut_ptr(),
                        self.cell_list.len(),
                        self.function_list.as_mut_ptr(),
                        self.function_list.len(),
                    );
                    padded([answer.number, answer.cells, answer.functions])
                }
            }
        };
    }
}

/// The numbers with zeros behind them.
fn padded<const N: usize>(numbers: [u32; N]) -> [u32; 9] {
    let mut padded = [0; 9];
    padded[..N].copy_from_slice(&numbers);
    padded
}

/// Runs both versions from the same buffers and sees that they leave the same. Answers the number
/// and how many cells changed.
pub fn agree(call: Call, before: &Buffers, marks: &[u32]) -> (u32, u32) {
    let (mut library, mut tuned) = (before.clone(), before.clone());
    library.run(&LIBRARY, call, marks);
    tuned.run(&TUNED, call, marks);
    let (plan, name) = (before.tables.plan, call.name());
    assert_eq!(library.answer, tuned.answer, "{name} {plan:?}, {} marks", marks.len());
    assert!(
        library == tuned,
        "tables, heights, lists, files or outputs differ: {name} {plan:?}, {} marks",
        marks.len()
    );
    let changes = matches!(call, Call::Change(_) | Call::WithHeights(_));
    let changed = if changes { library.answer[1] } else { 0 };
    (library.answer[0], changed)
}

#[cfg(test)]
mod tests {
    use super::*;
    use differential::surface::{most, with_heights, DEGREES};
    use differential::{has_corners, random_corners, random_plan, random_refined, Random};
    use model::Plan;
    use wallmirror::{MAX_CELLS, MAX_FUNCTIONS, MAX_PROJECTED_CELLS};

    /// Random meshes, some with a wrong byte or another class, random marks, some of them wrong,
    /// files, some of them with a wrong byte, cut or longer, heights and points, some beyond, heights
    /// that are carried, and outputs for corners of cells, some too short.
    #[test]
    fn tuned_is_as_the_library() {
        let mut random = Random::new(600);
        let (mut seen, mut cornered, mut projected, mut carried) = ([0; 18], 0, 0, 0);
        for turn in 0..6000 {
            let degrees = (random.below(4) as u32 + 1, random.below(4) as u32 + 1);
            let class = random.pick(&[0, 2, 2, 3, 4, 5, 8]);
            let most = if turn % 100 == 0 { 21_845 } else { random.pick(&[500, 500, 1_300]) };
            let call = match random.below(16) {
                0 => random.pick(&[Call::Open, Call::Check, Call::Count]),
                1 => Call::Read,
                2 => Call::Write,
                3 | 4 => Call::Height,
                5 | 6 => Call::Corners,
                7..=9 => Call::WithHeights(random.pick(&Kind::REFINING)),
                _ => Call::Change(random.pick(&Kind::ALL)),
            };
            let plan = match call {
                Call::WithHeights(_) if !random.once_in(4) => {
                    let degrees = random.pick(&DEGREES);
                    with_heights(&mut random, degrees, class, most)
                }
                _ => random_plan(&mut random, degrees, class, most),
            };
            cornered += u32::from(has_corners(plan));
            let mut tables = Tables::with_refined(plan, &random_refined(&mut random, plan));
            let marks = marks(&mut random, call, &tables);
            let (heights, point) = (heights(&mut random, &tables), point(&mut random, plan));
            let out = output(&mut random, &tables);
            let mut file = tables.file();
            match random.below(10) {
                0 | 1 => wrong_byte(&mut random, &mut file),
                2 => drop(file.pop()),
                3 => file.push(0),
                // Corners, perhaps behind others.
                4 => file.extend([random_corners(&mut random, plan.columns.min(7)) as u8, 0]),
                _ => {}
            }
            match random.below(15) {
                0 => tables.plan.class = random.pick(&[0, 2, 3]),
                1 => wrong_byte(&mut random, &mut tables.cells),
                2 => wrong_byte(&mut random, &mut tables.functions),
                3 => tables.plan.levels = random.below(10) as u32,
                4 => tables.plan.corners_across = random_corners(&mut random, plan.columns),
                5 => tables.plan.corners_up = 1 << random.below(20),
                _ => {}
            }
            let room = random.pick(&[0, 3, MAX_CELLS, MAX_CELLS]);
            let function_room = random.pick(&[3, MAX_FUNCTIONS, MAX_FUNCTIONS]);
            let before =
                Buffers { heights, point, out, ..Buffers::new(&tables, room, function_room, file) };
            let number = agree(call, &before, &marks).0;
            seen[number as usize] += 1;
            projected += u32::from(number == 0 && matches!(call, Call::Corners));
            let some = number == 0 && !marks.is_empty();
            carried += u32::from(some && matches!(call, Call::WithHeights(_)));
        }
        assert!(seen.iter().all(|&count| count > 0), "{seen:?}");
        let often = (cornered, projected, carried);
        assert!(cornered > 1000 && projected > 40 && carried > 100, "{often:?}");
    }

    fn wrong_byte(random: &mut Random, table: &mut [u8]) {
        let at = random.below(table.len());
        table[at] = random.pick(&[0, 1, 2, 3, 255]);
    }

    /// Heights within the limits, most often, and in the right number.
    fn heights(random: &mut Random, tables: &Tables) -> Vec<i32> {
        let f = tables.functions.len();
        let of_level = random.once_in(2); // up to the limit of its level, or of level 0
        let mut heights: Vec<i32> = tables
            .plan
            .functions()
            .map(|function| random.bits() as i32 % most(if of_level { function.level } else { 0 }))
            .collect();
        match random.below(6) {
            0 => heights[random.below(f)] = random.pick(&[65_537, -65_537, i32::MAX, i32::MIN]),
            1 => heights.push(0),
            _ => {}
        }
        heights
    }

    fn point(random: &mut Random, plan: Plan) -> (u32, u32) {
        let (across, up) = model::height::far_edges(plan);
        let mut place = |far: u32| random.pick(&[0, far / 2, far / 3, far - 1, far, far]);
        let (across, up) = (place(across), place(up));
        if random.once_in(6) {
            return random.pick(&[(across + (1 << 12), up), (across, u32::MAX)]);
        }
        (across, up)
    }

    /// Any bits, and room for all corners, most often.
    fn output(random: &mut Random, tables: &Tables) -> Vec<u64> {
        let active = tables.cells.iter().filter(|&&byte| byte == model::ACTIVE).count();
        let needed = 12 * active.min(MAX_PROJECTED_CELLS);
        let length = random.pick(&[needed - 1, needed, needed, needed + 7, MAX_CORNER_DOUBLES]);
        (0..length).map(|_| random.bits()).collect()
    }

    fn marks(random: &mut Random, call: Call, tables: &Tables) -> Vec<u32> {
        let (Call::Change(kind) | Call::WithHeights(kind)) = call else {
            return vec![];
        };
        let markable = tables.markable(kind);
        let count = if markable.is_empty() { 0 } else { random.pick(&[0, 1, 2, 5, 40]) };
        let mut marks: Vec<u32> = (0..count).map(|_| random.pick(&markable)).collect();
        if random.once_in(4) {
            marks.push(random.below(tables.functions.len() + 2) as u32);
        }
        marks
    }
}
