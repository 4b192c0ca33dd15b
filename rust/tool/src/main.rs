//! A command for setters: keeps a wall in a file and each call's lists in a journal beside it, walks
//! the wall back, and draws it. docs/TOOL.md says how to use it.

mod arguments;
mod commands;
mod drawing;
mod failure;
mod help;
mod journal;
mod report;
mod store;
mod vtk;
mod wall;
mod words;

use arguments::Command;
use failure::Failure;
use std::io::{self, ErrorKind, Write};
use std::process::ExitCode;

fn main() -> ExitCode {
    let (printed, said, status) =
        match arguments::read(std::env::args_os().skip(1).collect()).and_then(run) {
            Ok(printed) => (printed, None, 0),
            Err(Failure { printed, said, status }) => (printed, Some(said), status),
        };
    let written = print(&printed);
    if let Some(said) = said {
        failure::say(&said);
    }
    match written {
        Err(error) => {
            failure::say(&format!(
                "the answer cannot be printed: {error}; what was changed stays changed"
            ));
            ExitCode::from(failure::BAD)
        }
        Ok(()) => ExitCode::from(status),
    }
}

fn run(command: Command) -> Result<String, Failure> {
    match command {
        Command::Overview => Ok(help::overview()),
        Command::Help(topic) => Ok(topic.full()),
        Command::Version => Ok(format!("wallmirror {}\n", wallmirror::VERSION)),
        Command::New { file, plan } => commands::new(&file, plan),
        Command::Info { file } => commands::info(&file),
        Command::Change { file, call } => commands::change(&file, call),
        Command::Back { file, count } => commands::back(&file, count),
        Command::Log { file } => commands::log(&file),
        Command::Draw { file, out, functions, changed, reach } => {
            commands::draw(&file, out.as_deref(), functions, changed, reach)
        }
        Command::Export { file, out } => commands::export(&file, out.as_deref()),
        Command::Restore { file } => commands::restore(&file),
        Command::Accept { file } => commands::accept(&file),
    }
}

/// Who reads the answer may stop early, as `head` does.
fn print(text: &str) -> io::Result<()> {
    let mut out = io::stdout().lock();
    match out.write_all(text.as_bytes()).and_then(|()| out.flush()) {
        Err(error) if error.kind() == ErrorKind::BrokenPipe => Ok(()),
        written => written,
    }
}
