//! What the documents show is what the command does.

mod common;

use common::{blocks, document, done, run, words, Folder};
use std::path::Path;
use std::process::Command;

/// Runs the commands of a block. Answers the folder, and the block as it is to be.
fn shown(block: &str) -> (Folder, String) {
    let folder = Folder::new();
    let mut text = String::new();
    for line in block.lines().filter(|line| line.starts_with("$ ")) {
        let command = line.strip_prefix("$ wallmirror ");
        let command = command.unwrap_or_else(|| panic!("'{line}' is none of our commands"));
        let (out, err, status) = run(&folder, words(command));
        text += &format!("{line}\n{out}{err}");
        if status != 0 {
            text += &format!("[status {status}]\n");
        }
    }
    (folder, text)
}

#[test]
fn commands_that_are_shown() {
    let tool = blocks(&document("docs/TOOL.md"), "console");
    assert!(tool.len() >= 3, "{tool:?}");
    for block in tool.into_iter().chain(blocks(&document("README.md"), "console")) {
        assert!(block.starts_with("$ wallmirror "), "{block}");
        assert_eq!(shown(&block).1, block);
    }
}

#[test]
fn the_journal_that_is_shown() {
    let text = document("docs/TOOL.md");
    let (_, section) = text.split_once("### Walking back\n").expect("the section");
    let (folder, _) = shown(&blocks(section, "console")[0]);
    let is_journal = |block: &String| block.starts_with("wallmirror journal 1:");
    let journals: Vec<String> = blocks(&text, "text").into_iter().filter(is_journal).collect();
    assert_eq!(journals, [String::from_utf8(folder.read("corner.wall.journal")).expect("text")]);
}

#[test]
fn the_reach_that_is_shown() {
    let console = blocks(&document("docs/TOOL.md"), "console");
    let block = console.iter().find(|block| block.contains(" --reach ")).expect("a block");
    let picture = String::from_utf8(shown(block).0.read("reach.svg")).expect("text");
    assert_eq!(picture, document("docs/wall-reach.svg"));
    // 1 + 2 (2 + 1) (2 + 1) for level 2, class 2 and degrees 1.
    assert!(picture.contains(">A split of cell 574 splits at most 19 cells, itself included.<"));
    let lists = block.lines().last().expect("an answer");
    assert_eq!(lists.split(';').nth(1).expect("cells").split(' ').count(), 9);
}

/// The pictures of the season are those of its first lines: `new`, and both splits.
#[test]
fn the_season_that_is_shown() {
    let season = &blocks(&document("docs/TOOL.md"), "console")[0];
    let lines: Vec<&str> = season.lines().filter(|line| line.starts_with("$ ")).collect();
    for (count, options, name) in
        [(1, "--functions", "wall-before"), (3, "--functions --changed", "wall-after")]
    {
        let (folder, _) = shown(&lines[..count].join("\n"));
        let picture = done(&folder, &format!("draw march.wall {options}"));
        assert!(picture == document(&format!("docs/{name}.svg")), "{name}");
    }
}

/// The options of a command by its usage, and those that the completion for bash offers.
#[test]
fn options_that_are_completed() {
    let script = Path::new(env!("CARGO_MANIFEST_DIR")).join("wallmirror.bash");
    let complete = ". \"$1\"; COMP_WORDS=(wallmirror \"$2\" -); COMP_CWORD=2; _wallmirror; echo \"${COMPREPLY[@]}\"";
    for usage in documented() {
        let name = usage.split(' ').next().expect("a name");
        let options = usage.split('[').filter(|part| part.starts_with('-'));
        let options = options.map(|part| part.split([' ', ']']).next().expect("an option"));
        let expected: Vec<&str> = options.chain(["--help"]).collect();
        let bash =
            Command::new("bash").args(["-c", complete, "bash"]).arg(&script).arg(name).output();
        let offered = String::from_utf8(bash.expect("bash starts").stdout).expect("text");
        assert_eq!(offered.trim_end().split(' ').collect::<Vec<_>>(), expected, "{usage}");
    }
}

/// The commands of the overview with what follows them. A long one has a line to itself.
fn overview(folder: &Folder) -> Vec<String> {
    let text = done(folder, "--help");
    let command = |line: &str| {
        let line = line.strip_prefix("  ").filter(|line| !line.starts_with(' '))?;
        Some(line.split("  ").next()?.to_string())
    };
    text.lines().filter_map(command).collect()
}

/// The first column of the document's table of commands.
fn documented() -> Vec<String> {
    let text = document("docs/TOOL.md");
    let (_, table) = text.split_once("| command | what it does |\n").expect("the table");
    let rows = table.lines().skip(1).take_while(|line| line.starts_with('|'));
    let command = |row: &str| row.split('`').nth(1).expect("a command").to_string();
    rows.map(command).collect()
}

#[test]
fn commands_of_the_overview() {
    let folder = Folder::new();
    let mut overview = overview(&folder);
    // It says of itself what it is.
    assert_eq!(overview.pop().as_deref(), Some("help [COMMAND]"));
    assert_eq!(overview, documented());
    for usage in overview {
        let name = usage.split(' ').next().expect("a name");
        let help = done(&folder, &format!("{name} --help"));
        assert!(help.starts_with(&format!("usage: wallmirror {usage}\n")), "{help}");
    }
}

/// The statuses of the document and of the overview.
#[test]
fn statuses_that_are_named() {
    let text = document("docs/TOOL.md");
    let (_, table) = text.split_once("| status | when |\n").expect("the table");
    let rows = table.lines().skip(1).take_while(|line| line.starts_with('|'));
    let numbers: Vec<&str> = rows.map(|row| row.split(' ').nth(1).expect("a number")).collect();
    assert_eq!(numbers, ["0", "1", "2"]);
    assert!(done(&Folder::new(), "--help").contains("Exit status: 0, 1 for a refusal"));
}
