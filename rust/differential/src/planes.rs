//! Meshes whose cells are held as planes: every call on them, held to the model and to the call on
//! bytes.

use crate::change::{expect_answer, LentLists};
use crate::{
    plan, random_corners, raw, raw_count, Changing, Kind, Lent, Outcome, Random, Slice, Tables,
};
use model::planes::{self, Planes};
use model::Plan;
use wallmirror::ffi;

/// A mesh as it is lent. The guards of the planes are cells too, to a call that reads on.
struct LentMesh {
    present: Lent<u64>,
    refined: Lent<u64>,
    functions: Lent<u8>,
}

impl LentMesh {
    fn new(mesh: &OnPlanes) -> LentMesh {
        LentMesh {
            present: Lent::new(&mesh.planes.present, 0xa5a5_5a5a_ffff_0001),
            refined: Lent::new(&mesh.planes.refined, 0x0f0f_1e1e_fffe_8003),
            functions: Lent::new(&mesh.functions, 0x5a),
        }
    }

    fn slices(&mut self) -> (Slice<u64>, Slice<u64>, Slice<u8>) {
        (self.present.slice(), self.refined.slice(), self.functions.slice())
    }

    fn expect(&self, mesh: &OnPlanes, said: &dyn Fn() -> String) {
        self.present.expect(&mesh.planes.present, "present cells", said);
        self.refined.expect(&mesh.planes.refined, "refined cells", said);
        self.functions.expect(&mesh.functions, "function table", said);
    }
}

/// A plan, both planes and the function table, of whatever content and lengths.
#[derive(Clone, Debug, PartialEq, Eq)]
pub struct OnPlanes {
    pub plan: Plan,
    pub planes: Planes,
    pub functions: Vec<u8>,
}

impl OnPlanes {
    /// The same mesh on planes, for bytes 0 to 2.
    pub fn of(tables: &Tables) -> OnPlanes {
        let Tables { plan, cells, functions } = tables;
        OnPlanes { plan: *plan, planes: Planes::of(cells), functions: functions.clone() }
    }

    /// The bytes that the planes hold, beside the functions, for planes that are long enough.
    pub fn tables(&self) -> Tables {
        let cells = self.planes.cells(self.plan.cell_total());
        Tables { plan: self.plan, cells, functions: self.functions.clone() }
    }

    /// The bytes, where there are planes of the plan that are in order.
    pub fn tables_in_order(&self) -> Option<Tables> {
        let words = planes::len(self.plan);
        let fit = words > 0 && self.lengths() == [words; 2];
        (fit && self.planes.are_in_order(self.plan.cell_total())).then(|| self.tables())
    }

    fn lengths(&self) -> [usize; 2] {
        [self.planes.present.len(), self.planes.refined.len()]
    }

    /// What is said of a call where something is wrong.
    fn said(&self, name: String) -> impl Fn() -> String {
        let (plan, lengths) = (self.plan, self.lengths());
        move || format!("{name} {plan:?} on planes of {lengths:?}")
    }

    pub fn open(&mut self) -> u32 {
        let mut lent = LentMesh::new(self);
        let said = self.said("open".into());
        let ((p, p_len), (r, r_len), (f, f_len)) = lent.slices();
        // SAFETY: separate buffers of these lengths, here and below.
        let number =
            unsafe { ffi::wallmirror_planes_open(raw(self.plan), p, p_len, r, r_len, f, f_len) };
        let expected = planes::open(self.plan, self.lengths(), self.functions.len());
        assert_eq!(number, *expected.as_ref().err().unwrap_or(&0), "{}", said());
        if let Ok(opened) = expected {
            (self.planes, self.functions) = opened;
        }
        lent.expect(self, &said);
        number
    }

    pub fn check(&self) -> u32 {
        let mut lent = LentMesh::new(self);
        let said = self.said("check".into());
        let ((p, p_len), (r, r_len), (f, f_len)) = lent.slices();
        let number =
            unsafe { ffi::wallmirror_planes_check(raw(self.plan), p, p_len, r, r_len, f, f_len) };
        let expected = planes::check(self.plan, &self.planes, &self.functions);
        assert_eq!(number, expected.err().unwrap_or(0), "{}", said());
        lent.expect(self, &said);
        number
    }

    pub fn count(&self) -> ffi::Count {
        let mut lent = LentMesh::new(self);
        let said = self.said("count".into());
        let ((p, p_len), (r, r_len), (f, f_len)) = lent.slices();
        let count =
            unsafe { ffi::wallmirror_planes_count(raw(self.plan), p, p_len, r, r_len, f, f_len) };
        let expected = planes::count(self.plan, &self.planes, &self.functions);
        assert_eq!(count, raw_count(expected), "{}", said());
        lent.expect(self, &said);
        count
    }

    /// Takes the cells of a table, and leaves the functions.
    pub fn from_cells(&mut self, cells: &[u8]) -> u32 {
        let mut lent = LentMesh::new(self);
        let mut lent_cells = Lent::new(cells, 0xa5);
        let said = self.said(format!("from {} cells", cells.len()));
        let ((p, p_len), (r, r_len), _) = lent.slices();
        let (c, c_len) = lent_cells.slice();
        let number = unsafe {
            ffi::wallmirror_planes_from_cells(raw(self.plan), c, c_len, p, p_len, r, r_len)
        };
        let expected = planes::from_cells(self.plan, cells, self.lengths());
        assert_eq!(number, *expected.as_ref().err().unwrap_or(&0), "{}", said());
        if let Ok(planes) = expected {
            self.planes = planes;
        }
        lent_cells.expect(cells, "cell table", &said);
        lent.expect(self, &said);
        number
    }

    /// Writes the cells to a table, which is then as the call left it.
    pub fn to_cells(&self, cells: &mut Vec<u8>) -> u32 {
        let mut lent = LentMesh::new(self);
        let mut lent_cells = Lent::new(cells, 0xa5);
        let said = self.said(format!("to {} cells", cells.len()));
        let ((p, p_len), (r, r_len), _) = lent.slices();
        let (c, c_len) = lent_cells.slice();
        let number = unsafe {
            ffi::wallmirror_planes_to_cells(raw(self.plan), p, p_len, r, r_len, c, c_len)
        };
        let expected = planes::to_cells(self.plan, &self.planes, cells.len());
        assert_eq!(number, *expected.as_ref().err().unwrap_or(&0), "{}", said());
        if let Ok(written) = expected {
            *cells = written;
        }
        lent_cells.expect(cells, "cell table", &said);
        lent.expect(self, &said);
        number
    }
}

/// A refining or coarsening call on buffers of its own, ready to run.
pub struct Lending {
    kind: Kind,
    plan: ffi::Plan,
    mesh: LentMesh,
    marks: Lent<u32>,
    lists: LentLists,
}

impl Lending {
    pub fn new(mesh: &OnPlanes, kind: Kind, marks: &[u32], lists: (&[u32], &[u32])) -> Lending {
        Lending {
            kind,
            plan: raw(mesh.plan),
            mesh: LentMesh::new(mesh),
            marks: Lent::new(marks, 0x1234_5678),
            lists: LentLists::new(lists.0, lists.1),
        }
    }

    pub fn run(&mut self) -> ffi::Answer {
        let Lending { kind, plan, mesh, marks, lists } = self;
        let ((p, p_len), (r, r_len), (f, f_len)) = mesh.slices();
        let (m, m_len) = marks.slice();
        let ((cl, cl_len), (fl, fl_len)) = lists.slices();
        // SAFETY: separate buffers of these lengths.
        unsafe {
            kind.of_planes()(*plan, p, p_len, r, r_len, f, f_len, m, m_len, cl, cl_len, fl, fl_len)
        }
    }
}

impl Changing for OnPlanes {
    fn call(
        &mut self,
        kind: Kind,
        marks: &[u32],
        cell_list: &[u32],
        function_list: &[u32],
    ) -> Outcome {
        let mut lent = Lending::new(self, kind, marks, (cell_list, function_list));
        let few = &marks[..marks.len().min(40)];
        let said = self.said(format!("{kind:?} {} marks {few:?}", marks.len()));
        let answer = lent.run();
        let rooms = (cell_list.len(), function_list.len());
        let before = (&self.planes, &self.functions[..]);
        let expected = planes::change(kind.of_model(), self.plan, before, marks, rooms);
        let change = expected.as_ref().map(|(change, _)| change).map_err(|&number| number);
        let outcome = expect_answer(answer, change, &said);
        if let Ok((change, planes)) = expected {
            (self.planes, self.functions) = (planes, change.functions);
        }
        lent.mesh.expect(self, &said);
        lent.marks.expect(marks, "marks", &said);
        lent.lists.expect((cell_list, function_list), &outcome, &said);
        outcome
    }
}

/// The same mesh in bytes and on planes, where every call is to do the same to both.
#[derive(Clone, Debug, PartialEq, Eq)]
pub struct Both {
    pub bytes: Tables,
    pub planes: OnPlanes,
}

impl Both {
    /// For bytes 0 to 2.
    pub fn of(bytes: &Tables) -> Both {
        Both { bytes: bytes.clone(), planes: OnPlanes::of(bytes) }
    }

    /// Runs one of the four calls with lists of T and F entries.
    pub fn call_with_room(&mut self, kind: Kind, marks: &[u32]) -> Outcome {
        let (cell_list, function_list) = self.bytes.lists_with_room();
        self.call(kind, marks, &cell_list, &function_list)
    }

    /// Check and count, and each way of holding the cells made of the other. Answers what check does.
    pub fn look(&self) -> u32 {
        let number = self.planes.check();
        assert_eq!(number, self.bytes.check());
        assert_eq!(self.planes.count(), self.bytes.count());
        let mut cells = vec![0xee; self.bytes.cells.len()];
        assert_eq!(self.planes.to_cells(&mut cells), 0);
        assert_eq!(cells, self.bytes.cells);
        let words = planes::words(self.bytes.plan);
        let garbage = vec![0xdead_beef_feed_f00d; words];
        let mut again = OnPlanes {
            planes: Planes { present: garbage.clone(), refined: garbage },
            ..self.planes.clone()
        };
        assert_eq!(again.from_cells(&self.bytes.cells), 0);
        assert_eq!(again, self.planes);
        number
    }
}

impl Changing for Both {
    fn call(
        &mut self,
        kind: Kind,
        marks: &[u32],
        cell_list: &[u32],
        function_list: &[u32],
    ) -> Outcome {
        let outcome = self.planes.call(kind, marks, cell_list, function_list);
        assert_eq!(outcome, self.bytes.call(kind, marks, cell_list, function_list));
        assert_eq!(self.planes, OnPlanes::of(&self.bytes));
        outcome
    }
}

/// The calls on planes.
#[derive(Clone, Copy, Debug, PartialEq, Eq)]
pub enum Call {
    Open,
    Check,
    Count,
    Change(Kind),
    FromCells,
    ToCells,
}

use Call::*;

impl Call {
    pub const ALL: [Call; 9] = [
        Open,
        Check,
        Count,
        Change(Kind::RefineCells),
        Change(Kind::RefineFunctions),
        Change(Kind::CoarsenCells),
        Change(Kind::CoarsenFunctions),
        FromCells,
        ToCells,
    ];
}

/// All that a call can be handed. Each takes what it needs.
#[derive(Clone, Debug, PartialEq, Eq)]
pub struct Input {
    pub mesh: OnPlanes,
    pub cells: Vec<u8>,
    pub marks: Vec<u32>,
    pub cell_list: Vec<u32>,
    pub function_list: Vec<u32>,
}

impl Input {
    /// The mesh on planes and its cell table, no marks, and lists of T and F entries.
    pub fn new(tables: &Tables) -> Input {
        let (cell_list, function_list) = tables.lists_with_room();
        let (mesh, cells) = (OnPlanes::of(tables), tables.cells.clone());
        Input { mesh, cells, marks: vec![], cell_list, function_list }
    }

    /// Makes the call. Mesh and cells are then as it left them; a call without lists answers empty
    /// ones.
    pub fn make(&mut self, call: Call) -> Outcome {
        let Input { mesh, cells, marks, cell_list, function_list } = self;
        let number = match call {
            Open => mesh.open(),
            Check => mesh.check(),
            Count => mesh.count().number,
            Change(kind) => return mesh.call(kind, marks, cell_list, function_list),
            FromCells => mesh.from_cells(cells),
            ToCells => mesh.to_cells(cells),
        };
        Outcome { number, cells: vec![], functions: vec![] }
    }
}

/// Columns, rows and levels of all plans of at most so many cells whose number leaves this rest,
/// divided by the bits of a word.
pub fn shapes_with_rest(rest: usize, most: usize) -> Vec<(u32, u32, u32)> {
    let sides = (1..=16).flat_map(|columns| (1..=16).map(move |rows| (columns, rows)));
    sides
        .flat_map(|(columns, rows)| (1..=8).map(move |levels| (columns, rows, levels)))
        .filter(|&(columns, rows, levels)| {
            let cells = plan([columns, rows, levels, 1, 1, 0]).cell_total();
            cells <= most && cells % planes::BITS == rest
        })
        .collect()
}

/// A plan of this class with at most so many cells, 64 or more, whose last word is full, has one cell
/// or lacks one; with more than one level more often than not.
pub fn random_plan_at_a_word(random: &mut Random, class: u32, most: usize) -> Plan {
    let rest = random.pick(&[0, 1, 63]);
    let mut shapes = shapes_with_rest(rest, most);
    if !random.once_in(4) && shapes.iter().any(|shape| shape.2 > 1) {
        shapes.retain(|shape| shape.2 > 1);
    }
    let (columns, rows, levels) = random.pick(&shapes);
    let mut degree = || random.below(4) as u32 + 1;
    let (across, up) = (degree(), degree());
    let (corners_across, corners_up) =
        (random_corners(random, columns), random_corners(random, rows));
    plan([columns, rows, levels, across, up, class, corners_across, corners_up])
}
