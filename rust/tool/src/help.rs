//! The commands, and what the tool says of them.

use crate::words;
use wallmirror::Call;

/// A command: its name, what follows it, what it does in a line, and in full.
#[derive(Debug)]
pub struct Topic {
    pub name: &'static str,
    pub kind: Kind,
    pub usage: &'static str,
    pub about: &'static str,
    text: &'static str,
}

#[derive(Clone, Copy, Debug)]
pub enum Kind {
    New,
    Info,
    /// One of the four calls.
    Change(fn(Vec<u32>) -> Call),
    Back,
    Log,
    Draw,
    Export,
    Restore,
    Accept,
    Help,
}

impl Kind {
    /// The options of the command, but for `--help`.
    pub fn options(self) -> &'static [&'static str] {
        match self {
            Kind::Draw => &["-o", "--functions", "--changed", "--reach"],
            Kind::Export => &["-o"],
            _ => &[],
        }
    }
}

/// What the four calls print.
macro_rules! answer {
    () => {
        "
Prints the answer as the session program does: its number, the cells that became split or ceased
to be, and the functions that became deactivated or ceased to be, parted by semicolons. Where it
is 0, the wall is changed and the call is in the journal, which begins with the wall as it was
found if there was none. Any other number is a refusal: nothing is changed, and the exit status
is 1.
"
    };
}

const OF_ACTIVE_CELLS: &str =
    concat!("A mark is the number of an active cell; 'wallmirror draw' shows them.\n", answer!(),);

const OF_SPLIT_CELLS: &str = concat!(
    "\
A mark is the number of a split cell whose four children are active. 'wallmirror draw' draws the
active cells, and a browser shows under the pointer in which split ones each lies.
",
    answer!(),
);

const OF_FUNCTIONS: &str = concat!(
    "\
A mark is the number of a function; 'wallmirror draw --functions' draws them, and a browser shows
their numbers under the pointer.
",
    answer!(),
);

pub static TOPICS: [Topic; 13] = [
    Topic {
        name: "new",
        kind: Kind::New,
        usage: "FILE A B L P Q M [EDGES-ACROSS EDGES-UP]",
        about: "make a wall",
        text: "\
Makes a wall of A by B cells (1 to 16 each) with L levels (1 to 8), degrees P across and Q up
(1 to 4 each) and class M (0, or 2 to 8), and writes its file. Bit k of EDGES-ACROSS makes the
line before column k a corner, bit k of EDGES-UP the one before row k. There must not be a file
of that name yet, nor a journal, which is begun here.
",
    },
    Topic {
        name: "info",
        kind: Kind::Info,
        usage: "FILE",
        about: "say what the wall is",
        text: "\
Prints the plan, how many cells and functions each level has, the answer of the library's check,
and how many calls can be walked back; without a journal, that nothing is known of the season.
",
    },
    Topic {
        name: "split",
        kind: Kind::Change(words::split),
        usage: "FILE MARK..",
        about: "split the marked cells, and what the class needs besides",
        text: OF_ACTIVE_CELLS,
    },
    Topic {
        name: "join",
        kind: Kind::Change(words::join),
        usage: "FILE MARK..",
        about: "join the marked cells, where no other needs them split",
        text: OF_SPLIT_CELLS,
    },
    Topic {
        name: "fsplit",
        kind: Kind::Change(words::fsplit),
        usage: "FILE MARK..",
        about: "split the active cells under the marked functions",
        text: OF_FUNCTIONS,
    },
    Topic {
        name: "fjoin",
        kind: Kind::Change(words::fjoin),
        usage: "FILE MARK..",
        about: "join the cells under the marked functions alone",
        text: OF_FUNCTIONS,
    },
    Topic {
        name: "back",
        kind: Kind::Back,
        usage: "FILE [N]",
        about: "walk the last N calls back, or all of them",
        text: "\
Gives the cells that each call listed to the opposite call, the last one first, and compares what
that names with what the call did. Then the bytes of the file are compared: after all calls with
those of the wall that the journal begins with, otherwise with those of the wall that the calls
left make of it. Without a journal nothing is walked back, and the exit status is 2.
",
    },
    Topic {
        name: "log",
        kind: Kind::Log,
        usage: "FILE",
        about: "list the calls of the journal",
        text: "\
Prints the calls with their marks and lists, long ones cut; the journal, FILE.journal, has them
whole. Calls that were walked back are marked.
",
    },
    Topic {
        name: "draw",
        kind: Kind::Draw,
        usage: "FILE [-o OUT.svg] [--functions] [--changed] [--reach CELL]",
        about: "draw the wall",
        text: "\
Draws the active cells, coloured by level, as an SVG picture, on standard output or in a file.
  -o OUT.svg    write this file; '-' is standard output
  --functions   the functions too, at the middle of their supports, side by side where these are
                the same: active ones are dots, deactivated ones hollow
  --changed     outline the cells that the last change split or joined
  --reach CELL  outline what a split of this cell can reach: the cell and, for each coarser level on
                which it can split cells, where these lie; and say how many it splits at the most
",
    },
    Topic {
        name: "export",
        kind: Kind::Export,
        usage: "FILE [-o OUT.vtk]",
        about: "write the wall for ParaView",
        text: "\
Writes the active cells as quads with their levels and numbers, in the legacy format of VTK, on
standard output or in a file. Lengths are in cells of the last level.
  -o OUT.vtk    write this file; '-' is standard output
",
    },
    Topic {
        name: "restore",
        kind: Kind::Restore,
        usage: "FILE",
        about: "write a missing wall anew from its journal",
        text: "\
Makes the calls of FILE.journal once more on the wall that it begins with, and writes the wall to
which they lead. There must not be a file of that name.
",
    },
    Topic {
        name: "accept",
        kind: Kind::Accept,
        usage: "FILE",
        about: "keep the wall of another program, and let its journal lead to it",
        text: "\
For a wall that its journal does not lead to, as after calls of another program: adds calls to the
journal that lead to the wall as it is, joins and then splits, and prints them. They need not be
those that were made. The wall's file stays as it is, and all calls can be walked back. Where there
is no journal, one begins with the wall as it is.
",
    },
    Topic {
        name: "help",
        kind: Kind::Help,
        usage: "[COMMAND]",
        about: "say what a command does",
        text: "\
The same as COMMAND --help.
",
    },
];

pub fn topic(name: &str) -> Option<&'static Topic> {
    TOPICS.iter().find(|topic| topic.name == name)
}

/// All commands in short.
pub fn overview() -> String {
    let widths = TOPICS.iter().map(|topic| topic.name.len() + 1 + topic.usage.len());
    let width = widths.filter(|&width| width < 30).max().unwrap_or(0);
    let mut text = "usage: wallmirror COMMAND ..\n\n".to_string();
    for Topic { name, usage, about, .. } in &TOPICS {
        let command = format!("{name} {usage}");
        let gap = if command.len() > width { format!("\n  {:width$}", "") } else { String::new() };
        text += &format!("  {command:width$}{gap}  {about}\n");
    }
    text + "\nThe journal of a wall is FILE.journal. 'wallmirror COMMAND --help' says more of a command,
'wallmirror --version' tells the version. A FILE that begins with '-' is given after '--'.
Exit status: 0, 1 for a refusal of the library, 2 for bad input or files.
"
}

impl Topic {
    /// One command in full.
    pub fn full(&self) -> String {
        let Topic { name, usage, about, text, .. } = self;
        format!("usage: wallmirror {name} {usage}\n\n{}.\n\n{text}", capital(about))
    }
}

fn capital(text: &str) -> String {
    let mut characters = text.chars();
    characters
        .next()
        .map_or(String::new(), |first| first.to_ascii_uppercase().to_string() + characters.as_str())
}
