//! What was asked for on the command line.

use crate::failure::Failure;
use crate::help::{topic, Kind, Topic};
use crate::words;
use std::ffi::{OsStr, OsString};
use wallmirror::{Call, Cell, Plan};

/// A command with all that it needs.
#[derive(Debug)]
pub enum Command {
    Overview,
    Help(&'static Topic),
    Version,
    New {
        file: OsString,
        plan: Plan,
    },
    Info {
        file: OsString,
    },
    Change {
        file: OsString,
        call: Call,
    },
    /// Of all calls, if no number is given.
    Back {
        file: OsString,
        count: Option<u32>,
    },
    Log {
        file: OsString,
    },
    Draw {
        file: OsString,
        out: Option<OsString>,
        functions: bool,
        changed: bool,
        reach: Option<Cell>,
    },
    Export {
        file: OsString,
        out: Option<OsString>,
    },
    Restore {
        file: OsString,
    },
    Accept {
        file: OsString,
    },
}

/// Reads what stands behind the name of the program.
pub fn read(arguments: Vec<OsString>) -> Result<Command, Failure> {
    let mut arguments = arguments.into_iter();
    let Some(word) = arguments.next() else {
        return Err(Failure::bad("no command; 'wallmirror --help' lists them"));
    };
    let rest: Vec<OsString> = arguments.collect();
    match word.to_str() {
        Some("--help" | "-h") => return help(&rest),
        Some("--version" | "-V") if rest.is_empty() => return Ok(Command::Version),
        Some("--version" | "-V") => return Err(Failure::bad("'--version' stands alone")),
        _ => {}
    }
    let topic = find(&word)?;
    if rest.iter().take_while(|argument| *argument != "--").any(|a| a == "--help" || a == "-h") {
        return Ok(Command::Help(topic));
    }
    of_topic(topic, rest)
}

fn find(word: &OsStr) -> Result<&'static Topic, Failure> {
    word.to_str().and_then(topic).ok_or_else(|| {
        let word = word.to_string_lossy();
        Failure::bad(format!("there is no command '{word}'; 'wallmirror --help' lists them"))
    })
}

fn of_topic(topic: &'static Topic, rest: Vec<OsString>) -> Result<Command, Failure> {
    let mut given = Given::read(topic, rest)?;
    let command = match topic.kind {
        Kind::Help => return help(&given.operands),
        Kind::New => Command::New { file: given.file()?, plan: given.plan()? },
        Kind::Info => Command::Info { file: given.file()? },
        Kind::Change(call) => {
            Command::Change { file: given.file()?, call: call(given.numbers("for a mark")?) }
        }
        Kind::Back => Command::Back { file: given.file()?, count: given.count()? },
        Kind::Log => Command::Log { file: given.file()? },
        Kind::Draw => Command::Draw {
            file: given.file()?,
            out: given.out.take(),
            functions: given.functions,
            changed: given.changed,
            reach: given.reach,
        },
        Kind::Export => Command::Export { file: given.file()?, out: given.out.take() },
        Kind::Restore => Command::Restore { file: given.file()? },
        Kind::Accept => Command::Accept { file: given.file()? },
    };
    given.nothing_left()?;
    Ok(command)
}

fn help(names: &[OsString]) -> Result<Command, Failure> {
    match names {
        [] => Ok(Command::Overview),
        [name] => find(name).map(Command::Help),
        _ => Err(Failure::bad("too many words; usage: wallmirror help [COMMAND]")),
    }
}

/// Options, and the other words in their order.
struct Given {
    topic: &'static Topic,
    operands: Vec<OsString>,
    out: Option<OsString>,
    functions: bool,
    changed: bool,
    reach: Option<Cell>,
}

impl Given {
    fn read(topic: &'static Topic, rest: Vec<OsString>) -> Result<Given, Failure> {
        let mut given = Given {
            topic,
            operands: vec![],
            out: None,
            functions: false,
            changed: false,
            reach: None,
        };
        let mut rest = rest.into_iter();
        while let Some(argument) = rest.next() {
            let has = |option: &str| argument == option && topic.kind.options().contains(&option);
            if argument == "--" {
                given.operands.extend(&mut rest);
            } else if has("-o") {
                given.set_out(rest.next().unwrap_or_default())?;
            } else if has("--functions") {
                given.functions = true;
            } else if has("--changed") {
                given.changed = true;
            } else if has("--reach") {
                given.set_reach(rest.next())?;
            } else if argument.as_encoded_bytes().starts_with(b"-") {
                let argument = argument.to_string_lossy();
                return Err(wrong(topic, &format!("there is no option '{argument}'")));
            } else {
                given.operands.push(argument);
            }
        }
        Ok(given)
    }

    fn set_out(&mut self, out: OsString) -> Result<(), Failure> {
        if self.out.is_some() {
            return Err(wrong(self.topic, "'-o' is given twice"));
        }
        self.out = Some(self.name_of_file(out, "'-o' needs the name of a file")?);
        Ok(())
    }

    fn set_reach(&mut self, cell: Option<OsString>) -> Result<(), Failure> {
        if self.reach.is_some() {
            return Err(wrong(self.topic, "'--reach' is given twice"));
        }
        let missing = || wrong(self.topic, "'--reach' needs the number of a cell");
        self.reach = Some(Cell(number(&cell.ok_or_else(missing)?, "of a cell")?));
        Ok(())
    }

    fn file(&mut self) -> Result<OsString, Failure> {
        let name = if self.operands.is_empty() { OsString::new() } else { self.operands.remove(0) };
        self.name_of_file(name, "the name of the wall's file is missing")
    }

    fn name_of_file(&self, name: OsString, missing: &str) -> Result<OsString, Failure> {
        if name.is_empty() {
            return Err(wrong(self.topic, missing));
        }
        if name.as_encoded_bytes().ends_with(b"/") {
            let name = name.to_string_lossy();
            return Err(wrong(self.topic, &format!("'{name}' is a folder, not a file")));
        }
        Ok(name)
    }

    fn plan(&mut self) -> Result<Plan, Failure> {
        let numbers = self.numbers("of a plan")?;
        let (numbers, corners) = numbers.split_at(numbers.len().min(6));
        let &[columns, rows, levels, degree_across, degree_up, class] = numbers else {
            return Err(wrong(self.topic, "a plan has six numbers"));
        };
        let (corners_across, corners_up) = match *corners {
            [] => (0, 0),
            [across, up] => (across, up),
            _ => return Err(wrong(self.topic, "a plan has six numbers, or eight with both edges")),
        };
        Ok(Plan {
            columns,
            rows,
            levels,
            degree_across,
            degree_up,
            admissibility_class: class,
            corners_across,
            corners_up,
        })
    }

    fn count(&mut self) -> Result<Option<u32>, Failure> {
        match self.numbers("of calls")?[..] {
            [] => Ok(None),
            [count] => Ok(Some(count)),
            _ => Err(wrong(self.topic, "one number of calls at the most")),
        }
    }

    /// All that is left.
    fn numbers(&mut self, what_for: &str) -> Result<Vec<u32>, Failure> {
        let words = std::mem::take(&mut self.operands);
        words.iter().map(|text| number(text, what_for)).collect()
    }

    fn nothing_left(&self) -> Result<(), Failure> {
        match self.operands.first() {
            None => Ok(()),
            Some(word) => {
                let word = OsStr::to_string_lossy(word);
                Err(wrong(self.topic, &format!("'{word}' is one word too many")))
            }
        }
    }
}

fn number(text: &OsStr, what_for: &str) -> Result<u32, Failure> {
    text.to_str().and_then(words::number).ok_or_else(|| {
        let text = text.to_string_lossy();
        Failure::bad(format!(
            "'{text}' is no number {what_for}; give digits alone, of a value up to {}",
            u32::MAX
        ))
    })
}

fn wrong(topic: &Topic, what: &str) -> Failure {
    let Topic { name, usage, .. } = topic;
    Failure::bad(format!("{what}; usage: wallmirror {name} {usage}"))
}
