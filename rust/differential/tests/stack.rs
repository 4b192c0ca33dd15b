//! The stack that a call takes is at most `STACK_BYTES`: measured on a painted stack, tried on one
//! without a byte more, and tried on a thread.

use differential::change::{Change, Lending};
use differential::pages::{Access, Pages, PAGE};
use differential::planes::{self, OnPlanes};
use differential::rounds;
use differential::scenario::{self, Scenario};
use differential::{raw, Kind, Tables};
use model::draft::Draft;
use model::Plan;
use std::arch::asm;
use std::collections::BTreeMap;
use wallmirror::{ffi, MAX_CORNER_DOUBLES, MAX_PROJECTED_CELLS, STACK_BYTES};

/// What a thread needs for itself: its start in the C library and in Rust, its thread-local data,
/// and the page at the end of its stack that must not be touched. A closure of a test is in it too.
const THREAD_BYTES: usize = 16 * 1024;

/// A call of the library, ready to run, which answers its number.
type Ready<'a> = &'a mut (dyn FnMut() -> u32 + Send);

/// Hands every call on every mesh to `visit`, with its name and where it runs.
fn each_call(scenarios: &[Scenario], mut visit: impl FnMut(&str, &str, Ready)) {
    for scenario in scenarios {
        for tables in [&scenario.to_refine, &scenario.to_coarsen] {
            each_call_without_marks(tables, &scenario.to_string(), &mut visit);
            each_call_on_planes(tables, &scenario.to_string(), &mut visit);
        }
        each_call_on_a_plan(&scenario.to_refine, &scenario.to_string(), &mut visit);
        each_call_for_rounds(scenario, &mut visit);
        for kind in Kind::ALL {
            let tables = scenario.before(kind);
            let markable = tables.markable(kind);
            let last = markable.len().saturating_sub(1);
            for marks in [&markable[..0], &markable[last..], &markable[..]] {
                let place = format!("{scenario}, {} marks", marks.len());
                let can_have_heights = kind.refines() && has_heights(tables.plan);
                for heights in [false, true].into_iter().filter(|&has| !has || can_have_heights) {
                    for form in [false, true].map(|draft| Form { heights, draft }) {
                        let name = form.name(kind);
                        change(kind, tables, marks, form, |ready| visit(&name, &place, ready));
                    }
                }
                let (cell_list, function_list) = tables.lists_with_room();
                let (mesh, lists) = (OnPlanes::of(tables), (&cell_list[..], &function_list[..]));
                let mut lending = planes::Lending::new(&mesh, kind, marks, lists);
                let name = format!("{} on planes", kind.name());
                visit(&name, &place, &mut || lending.run().number);
                if kind == Kind::RefineCells {
                    each_call_on_a_draft(tables, marks, &place, &mut visit);
                }
            }
        }
    }
}

fn has_heights(plan: Plan) -> bool {
    plan.levels <= 4 && plan.degree_across <= 2 && plan.degree_up <= 2
}

/// Of places, the last one and one beyond. These calls answer no number; 0 stands for what is right.
fn each_call_on_a_plan(tables: &Tables, place: &str, visit: &mut impl FnMut(&str, &str, Ready)) {
    let (plan, t, f) = (tables.plan, tables.cells.len(), tables.functions.len());
    let (raw, last) = (raw(plan), plan.levels - 1);
    let model::Cell { row, column, .. } = plan.cell_at(t - 1);
    visit("refusal of a plan", place, &mut || ffi::wallmirror_plan_refusal(raw));
    visit("length of the cells", place, &mut || (ffi::wallmirror_cells_len(raw) != t).into());
    visit("length of the functions", place, &mut || {
        (ffi::wallmirror_functions_len(raw) != f).into()
    });
    visit("length of the planes", place, &mut || {
        (ffi::wallmirror_planes_len(raw) != t.div_ceil(64)).into()
    });
    for beyond in [0, 1] {
        visit("level", place, &mut || {
            ((ffi::wallmirror_level(raw, last + beyond).columns == 0) != (beyond == 1)).into()
        });
        visit("place", place, &mut || {
            (ffi::wallmirror_place(raw, t as u32 - 1 + beyond).found == beyond).into()
        });
        visit("cell at a place", place, &mut || {
            (ffi::wallmirror_cell_at(raw, last, row, column + beyond).found == beyond).into()
        });
        visit("support", place, &mut || {
            (ffi::wallmirror_support(raw, f as u32 - 1 + beyond).found == beyond).into()
        });
    }
}

fn each_call_without_marks(
    tables: &Tables,
    place: &str,
    visit: &mut impl FnMut(&str, &str, Ready),
) {
    let Tables { plan, mut cells, mut functions } = tables.clone();
    let (cells, functions) = (&mut cells[..], &mut functions[..]);
    let (t, f) = (cells.len(), functions.len());
    let mut file = tables.file();
    // SAFETY: separate vectors of these lengths, here and below.
    visit("check", place, &mut || unsafe {
        ffi::wallmirror_check(raw(plan), cells.as_ptr(), t, functions.as_ptr(), f)
    });
    visit("count", place, &mut || unsafe {
        ffi::wallmirror_count(raw(plan), cells.as_ptr(), t, functions.as_ptr(), f).number
    });
    if has_heights(plan) {
        let heights = vec![-65_536; f];
        let (across, up) = model::height::far_edges(plan);
        for (across, up) in [(0, 0), (across / 3, up / 3), (across, up)] {
            visit("height", place, &mut || unsafe {
                let (cells, functions) = (cells.as_ptr(), functions.as_ptr());
                let heights = heights.as_ptr();
                ffi::wallmirror_height(raw(plan), cells, t, functions, f, heights, f, across, up)
                    .number
            });
        }
        if t <= MAX_PROJECTED_CELLS {
            let mut out = vec![0.0; MAX_CORNER_DOUBLES];
            visit("corners", place, &mut || unsafe {
                let (cells, functions) = (cells.as_ptr(), functions.as_ptr());
                let (heights, out, room) = (heights.as_ptr(), out.as_mut_ptr(), out.len());
                ffi::wallmirror_corners(raw(plan), cells, t, functions, f, heights, f, out, room)
                    .number
            });
        }
    }
    visit("write", place, &mut || unsafe {
        let (cells, functions) = (cells.as_ptr(), functions.as_ptr());
        let (file, length) = (file.as_mut_ptr(), file.len());
        ffi::wallmirror_write(raw(plan), cells, t, functions, f, file, length).number
    });
    visit("read", place, &mut || unsafe {
        let (cells, functions) = (cells.as_mut_ptr(), functions.as_mut_ptr());
        ffi::wallmirror_read(file.as_ptr(), file.len(), cells, t, functions, f).number
    });
    visit("open", place, &mut || unsafe {
        ffi::wallmirror_open(raw(plan), cells.as_mut_ptr(), t, functions.as_mut_ptr(), f)
    });
    let draft = ffi::Draft { open: 1, marks: 0 };
    visit("read with a draft", place, &mut || unsafe {
        let (cells, functions) = (cells.as_mut_ptr(), functions.as_mut_ptr());
        let (file, length) = (file.as_ptr(), file.len());
        ffi::wallmirror_read_with_draft(file, length, cells, t, functions, f, draft).answer.number
    });
    visit("open with a draft", place, &mut || unsafe {
        let (cells, functions) = (cells.as_mut_ptr(), functions.as_mut_ptr());
        ffi::wallmirror_open_with_draft(raw(plan), cells, t, functions, f, draft).number
    });
}

/// Those on planes without marks. The last one opens the mesh anew.
fn each_call_on_planes(tables: &Tables, place: &str, visit: &mut impl FnMut(&str, &str, Ready)) {
    let OnPlanes { plan, planes, mut functions } = OnPlanes::of(tables);
    let (plan, mut cells) = (raw(plan), tables.cells.clone());
    let (mut present, mut refined) = (planes.present, planes.refined);
    let (w, t, f) = (present.len(), cells.len(), functions.len());
    // SAFETY: separate vectors of these lengths, here and below.
    visit("check planes", place, &mut || unsafe {
        let (present, refined) = (present.as_ptr(), refined.as_ptr());
        ffi::wallmirror_planes_check(plan, present, w, refined, w, functions.as_ptr(), f)
    });
    visit("count on planes", place, &mut || unsafe {
        let (present, refined) = (present.as_ptr(), refined.as_ptr());
        ffi::wallmirror_planes_count(plan, present, w, refined, w, functions.as_ptr(), f).number
    });
    visit("planes to cells", place, &mut || unsafe {
        let (present, refined) = (present.as_ptr(), refined.as_ptr());
        ffi::wallmirror_planes_to_cells(plan, present, w, refined, w, cells.as_mut_ptr(), t)
    });
    visit("planes from cells", place, &mut || unsafe {
        let (present, refined) = (present.as_mut_ptr(), refined.as_mut_ptr());
        ffi::wallmirror_planes_from_cells(plan, cells.as_ptr(), t, present, w, refined, w)
    });
    visit("open on planes", place, &mut || unsafe {
        let (present, refined) = (present.as_mut_ptr(), refined.as_mut_ptr());
        ffi::wallmirror_planes_open(plan, present, w, refined, w, functions.as_mut_ptr(), f)
    });
}

/// Rounds to the mesh that is refined the most: from the one just opened, from the other one, and from
/// itself.
fn each_call_for_rounds(scenario: &Scenario, visit: &mut impl FnMut(&str, &str, Ready)) {
    let wanted = &scenario.to_coarsen;
    for today in [&Tables::opened(scenario.plan()), &scenario.to_refine, wanted] {
        let input = rounds::Input::new(today, wanted);
        let place = format!("{scenario}, {} marks", input.marks.len());
        let mut lending = rounds::Lending::new(&input);
        visit("rounds", &place, &mut || lending.run().number);
    }
}

/// A refining or coarsening call, with heights and with a draft if so.
fn change(kind: Kind, tables: &Tables, marks: &[u32], with: Form, visit: impl FnOnce(Ready)) {
    // 4,096 mm on level 0 and less on the others, so that no carried height is beyond the limit.
    let mut heights = vec![-4_096; tables.functions.len()];
    let draft = Draft::none(marks.to_vec());
    let (cell_list, function_list) = tables.lists_with_room();
    let change = Change {
        kind,
        heights: with.heights.then_some(&mut heights),
        draft: with.draft.then_some(&draft),
        marks,
        cell_list: &cell_list,
        function_list: &function_list,
    };
    let mut lending = Lending::new(tables, &change);
    visit(&mut || lending.run().number);
}

#[derive(Clone, Copy)]
struct Form {
    heights: bool,
    draft: bool,
}

impl Form {
    fn name(self, kind: Kind) -> String {
        let with = match (self.heights, self.draft) {
            (false, false) => "",
            (true, false) => " with heights",
            (false, true) => " with a draft",
            (true, true) => " with heights and a draft",
        };
        format!("{}{with}", kind.name())
    }
}

/// The calls on a draft that has these marks, or gets them.
fn each_call_on_a_draft(
    tables: &Tables,
    marks: &[u32],
    place: &str,
    visit: &mut impl FnMut(&str, &str, Ready),
) {
    let Tables { plan, mut cells, mut functions } = tables.clone();
    let (cells, functions) = (&mut cells[..], &mut functions[..]);
    let (t, f, many) = (cells.len(), functions.len(), marks.len());
    let (mut cell_list, mut function_list) = tables.lists_with_room();
    let mut list = marks.to_vec();
    let (empty, full) = (ffi::Draft { open: 1, marks: 0 }, ffi::Draft { open: 1, marks: many });
    // SAFETY: separate vectors of these lengths, here and below.
    visit("open a draft", place, &mut || unsafe {
        let (cells, functions, list) = (cells.as_ptr(), functions.as_ptr(), list.as_ptr());
        ffi::wallmirror_draft_open(raw(plan), cells, t, functions, f, ffi::Draft::NONE, list, many)
            .number
    });
    visit("add to a draft", place, &mut || unsafe {
        let (cells, functions, list) = (cells.as_ptr(), functions.as_ptr(), list.as_mut_ptr());
        let marks = marks.as_ptr();
        ffi::wallmirror_draft_add(raw(plan), cells, t, functions, f, empty, list, many, marks, many)
            .number
    });
    visit("drop a draft", place, &mut || unsafe {
        let (cells, functions, list) = (cells.as_ptr(), functions.as_ptr(), list.as_ptr());
        ffi::wallmirror_draft_drop(raw(plan), cells, t, functions, f, full, list, many).number
    });
    visit("close a draft", place, &mut || unsafe {
        let (cells, functions, list) = (cells.as_mut_ptr(), functions.as_mut_ptr(), list.as_ptr());
        let (cell_list, function_list) = (cell_list.as_mut_ptr(), function_list.as_mut_ptr());
        ffi::wallmirror_draft_close(
            raw(plan),
            cells,
            t,
            functions,
            f,
            full,
            list,
            many,
            cell_list,
            t,
            function_list,
            f,
        )
        .answer
        .number
    });
}

const PAINT: u8 = 0xc5;

/// Memory to run a call on: a page that must not be touched, and above it painted bytes.
struct Stack(Pages);

impl Stack {
    /// The size is to be one of whole pages.
    fn new(size: usize) -> Stack {
        let mut pages = Pages::new(PAGE + size);
        pages.allow(0..PAGE, Access::None);
        Stack(pages)
    }

    fn bytes(&mut self) -> &mut [u8] {
        let size = self.0.size();
        // SAFETY: readable and writable, and used by nothing else meanwhile.
        unsafe { std::slice::from_raw_parts_mut(self.0.at(PAGE), size - PAGE) }
    }

    /// Runs the call on this stack: its number, and how many bytes it took together with the frames
    /// of this test below it (some hundred bytes).
    fn run(&mut self, call: Ready) -> (u32, usize) {
        self.bytes().fill(PAINT);
        let mut work = Work { call, number: u32::MAX };
        // SAFETY: the end of the painted bytes, aligned as a stack is to be; `start` does not unwind.
        unsafe {
            let top = self.0.at(self.0.size());
            asm!(
                "mov r12, rsp",
                "mov rsp, rsi",
                "call {start}",
                "mov rsp, r12",
                start = sym start,
                inout("rdi") &mut work => _,
                inout("rsi") top => _,
                out("r12") _,
                clobber_abi("C"),
            );
        }
        let number = work.number;
        let bytes = self.bytes();
        let untouched = bytes.iter().position(|&byte| byte != PAINT);
        (number, bytes.len() - untouched.expect("a stack that was used"))
    }
}

struct Work<'a> {
    call: Ready<'a>,
    number: u32,
}

extern "C" fn start(work: &mut Work) {
    work.number = (work.call)();
}

/// One after the other, so that a call which takes too much is named before it faults.
#[test]
fn every_call_within_its_stack() {
    let mut scenarios = scenario::all();
    scenarios.extend(scenario::with_corners());
    scenarios.extend(scenario::with_heights());
    scenarios.extend(scenario::projected());
    measure(&scenarios);
    run_on_exactly_as_much(&scenarios);
    run_on_threads(&scenarios);
}

fn measure(scenarios: &[Scenario]) {
    let mut stack = Stack::new(8 * STACK_BYTES);
    let mut greatest = BTreeMap::<String, (usize, String)>::new();
    each_call(scenarios, |name, place, call| {
        let (number, used) = stack.run(call);
        assert_eq!(number, 0, "{name}: {place}");
        let entry = greatest.entry(name.to_string()).or_default();
        if used > entry.0 {
            *entry = (used, place.to_string());
        }
    });
    for (name, (used, place)) in &greatest {
        println!("{name:<41} {used:>7} bytes of stack at most: {place}");
    }
    for (name, (used, place)) in greatest {
        assert!(used <= STACK_BYTES, "{name} takes {used} bytes of stack: {place}");
    }
}

/// A call that touched a byte more would end the tests with a segmentation fault. This is not the
/// same as measuring: touching is not writing.
fn run_on_exactly_as_much(scenarios: &[Scenario]) {
    let mut stack = Stack::new(STACK_BYTES);
    each_call(scenarios, |name, place, call| assert_eq!(stack.run(call).0, 0, "{name}: {place}"));
}

fn run_on_threads(scenarios: &[Scenario]) {
    each_call(scenarios, |name, place, call| {
        let number = std::thread::scope(|scope| {
            let thread = std::thread::Builder::new().stack_size(STACK_BYTES + THREAD_BYTES);
            thread.spawn_scoped(scope, call).expect("a thread").join().expect("a call that returns")
        });
        assert_eq!(number, 0, "{name}: {place}");
    });
}
