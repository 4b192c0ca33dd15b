//! Each command on real files, and what each says of bad input and of refusals.

mod common;

use common::*;
use std::ffi::{OsStr, OsString};
use std::fs::{self, File, Permissions};
use std::io::{PipeWriter, Read};
use std::os::unix::ffi::OsStrExt;
use std::os::unix::fs::{symlink, PermissionsExt};
use std::process::{Command, Stdio};

const NEW: &str = "new march.wall 3 1 3 1 1 2";

/// The commands that read a wall.
const READING: [&str; 10] =
    ["info", "split", "join", "fsplit", "fjoin", "back", "log", "draw", "export", "accept"];

const ALL: [&str; 13] = [
    "new", "info", "split", "join", "fsplit", "fjoin", "back", "log", "draw", "export", "restore",
    "accept", "help",
];

/// A folder in which these lines were run.
fn after(lines: &[&str]) -> Folder {
    let folder = Folder::new();
    for line in lines {
        done(&folder, line);
    }
    folder
}

/// A wall of two calls.
fn march() -> Folder {
    after(&[NEW, "split march.wall 0", "split march.wall 3 4"])
}

fn mode(folder: &Folder, name: &str) -> u32 {
    fs::metadata(folder.path(name)).expect("a file").permissions().mode() & 0o777
}

fn set_mode(folder: &Folder, name: &str, mode: u32) {
    fs::set_permissions(folder.path(name), Permissions::from_mode(mode)).expect("ours");
}

#[test]
fn calls_and_the_way_back() {
    let folder = after(&[NEW]);
    assert_eq!(folder.names(), ["march.wall", "march.wall.journal"]);
    assert_eq!(folder.read("march.wall"), [3, 1, 3, 1, 1, 2, 0]);
    assert_eq!(folder.read("march.wall.journal"), b"wallmirror journal 1: 03 01 03 01 01 02 00\n");
    let before = folder.all();
    for command in ["info", "log", "draw", "export", "back", "accept"] {
        done(&folder, &format!("{command} march.wall"));
        assert_eq!(folder.all(), before, "{command}");
    }
    for (line, printed) in [
        ("split march.wall 0", "0;0;0 4\n"),
        // Cell 4 needs cell 1: its column 1 and column 2, which stands on 1, are one apart.
        ("split march.wall 4 3 4", "0;1 3 4;1 5 8 9\n"),
        ("fjoin march.wall 8 9", "0;3 4;8 9\n"),
        ("fsplit march.wall 2", "0;2;2 3 6 7\n"),
        ("join march.wall 2 1", "0;1 2;1 2 3 5 6 7\n"),
        ("join march.wall", "0;;\n"),
    ] {
        assert_eq!(done(&folder, line), printed, "{line}");
    }
    assert_eq!(folder.names(), ["march.wall", "march.wall.journal"]);
    assert!(done(&folder, "info march.wall").ends_with("season: 6 calls to walk back\n"));
    let report = done(&folder, "back march.wall 2");
    assert_eq!(
        report,
        "call 6, join without marks: split without marks names the same 0 cells and the same 0 functions\n\
         call 5, join 2 1: split 1 2 names the same 2 cells and the same 6 functions\n\
         march.wall is the wall after call 4, byte for byte; 4 calls left to walk back\n"
    );
    done(&folder, "back march.wall");
    assert_eq!(folder.read("march.wall"), [3, 1, 3, 1, 1, 2, 0]);
    let again = done(&folder, "back march.wall");
    let said = "march.wall is the wall that its journal begins with, byte for byte (7 bytes)";
    assert_eq!(again, format!("nothing to walk back: {said}\n"));
    assert_eq!(folder.names(), ["march.wall", "march.wall.journal"]);
}

#[test]
fn a_lost_wall_is_restored() {
    let folder = march();
    let before = folder.all();
    bad(&folder, "restore march.wall", &["there is a file 'march.wall'", "move it away"]);
    fs::remove_file(folder.path("march.wall")).expect("a file");
    for command in READING {
        bad(
            &folder,
            &format!("{command} march.wall"),
            &["but there is its journal; 'wallmirror restore'"],
        );
    }
    bad(&folder, NEW, &["there is a journal 'march.wall.journal' already", "move it away"]);
    let said = done(&folder, "restore march.wall");
    assert_eq!(said, "march.wall: the wall after 2 calls of its journal\n");
    assert_eq!(folder.all(), before);
    bad(&folder, "restore other.wall", &["there is no journal 'other.wall.journal'"]);
    // By a link to the lost wall, it is said where that lies.
    symlink("no/../other.wall", folder.path("link")).expect("a link");
    for command in ["info", "split", "restore"] {
        let said = "'link' is a link to 'no/../other.wall', where there is no file";
        bad(&folder, &format!("{command} link"), &[said, "give the file itself"]);
    }
    // What lies there is no wall.
    folder.write("march.wall", "x");
    bad(&folder, "info march.wall", &["move it away", "'wallmirror restore'"]);
}

#[test]
fn command_lines_that_are_wrong() {
    let folder = march();
    bad_words::<&str>(&folder, &[], &["no command; 'wallmirror --help' lists them"]);
    for line in ["", "walk", "Split march.wall 0", "--functions", "help walk", "-x", "--"] {
        bad(&folder, line, &["there is no command '", "'wallmirror --help' lists them"]);
    }
    bad(&folder, "help new info", &["too many words; usage: wallmirror help"]);
    for command in &ALL[..12] {
        let usage = format!("; usage: wallmirror {command} FILE");
        for arguments in [&[*command][..], &[command, ""], &[command, "--"]] {
            let missing = "the name of the wall's file is missing";
            bad_words(&folder, arguments, &[missing, &usage]);
        }
        for option in ["-x", "--no", "-", "-oout", "--functions=1", "-1"] {
            let said = format!("there is no option '{option}'");
            bad(&folder, &format!("{command} {option} march.wall"), &[&said, &usage]);
        }
    }
    for command in ["info", "log", "draw", "export", "restore", "accept"] {
        let said = ["'0' is one word too many; usage: wallmirror ", command];
        bad(&folder, &format!("{command} march.wall 0"), &said);
    }
    for line in ["info march.wall -o x", "split march.wall --changed", "export --functions a"] {
        bad(&folder, line, &["there is no option '", "; usage: wallmirror "]);
    }
    for command in ALL.iter().filter(|command| **command != "draw") {
        let line = format!("{command} march.wall --reach 2");
        bad(&folder, &line, &["there is no option '--reach'; usage: wallmirror "]);
    }
    for line in ["draw march.wall -o", "export march.wall -o", "draw march.wall -o "] {
        bad(&folder, line, &["'-o' needs the name of a file; usage: "]);
    }
    bad(&folder, "draw march.wall -o a.svg -o b.svg", &["'-o' is given twice; usage: "]);
    bad(&folder, "draw march.wall -o a/", &["'a/' is a folder, not a file; usage: "]);
}

#[test]
fn reaches_that_are_wrong() {
    let folder = march();
    bad(&folder, "draw march.wall --reach", &["'--reach' needs the number of a cell; usage: "]);
    for line in ["draw march.wall --reach 2 --reach 2", "draw --reach 2 march.wall --reach"] {
        bad(&folder, line, &["'--reach' is given twice; usage: wallmirror draw FILE"]);
    }
    for option in ["-1", "--", "--changed", "-o"] {
        let said = format!("'{option}' is no number of a cell; give digits alone");
        bad(&folder, &format!("draw march.wall --reach {option}"), &[&said]);
    }
    bad(&folder, "draw march.wall --reach=2", &["there is no option '--reach=2'; usage: "]);
    bad(&folder, "draw --reach 2", &["the name of the wall's file is missing; usage: "]);
    bad(&folder, "draw march.wall --reach 2 3", &["'3' is one word too many; usage: "]);
    bad(&folder, "draw no.wall --reach 2", &["there is no file 'no.wall'"]);
    // Cells go by the plan, and no picture is written.
    for cell in ["63", "4294967295"] {
        let said = format!("not that of a cell: {cell}, where cells go from 0 to 62");
        bad(&folder, &format!("draw march.wall -o a.svg --reach {cell}"), &[&said]);
    }
}

/// Cells 0, 1, 3 and 4 are split, and the last level has the cells from 15 on.
#[test]
fn reaches_of_all_cells_are_drawn() {
    let folder = march();
    let before = folder.all();
    for cell in 0..63 {
        let refused = match cell {
            0 | 1 | 3 | 4 => Some("is split already"),
            15..=18 | 27..=30 => Some("is of the last level"),
            7 | 8 | 13 | 14 | 19..=26 | 31..63 => Some("is absent"),
            _ => None,
        };
        let picture = done(&folder, &format!("draw march.wall --reach {cell}"));
        let of_cell = format!(">A split of cell {cell} splits ");
        assert_eq!(picture.contains(&of_cell), refused.is_none(), "{cell}");
        let said = refused.map(|state| format!(">A split is refused here: cell {cell} {state}."));
        assert!(said.is_none_or(|said| picture.contains(&said)), "{cell}");
        // The call that the picture is about is refused where it says so.
        if refused.is_some() {
            assert_eq!(run(&folder, words(&format!("split march.wall {cell}"))).2, 1);
        }
    }
    assert_eq!(folder.all(), before);
}

#[test]
fn the_options_of_a_picture_in_any_order() {
    let folder = march();
    let picture = done(&folder, "draw march.wall --functions --changed --reach 5");
    for id in ["functions", "split", "reach"] {
        assert!(picture.contains(&format!("<g id=\"{id}\"")), "{id}");
    }
    for line in [
        "draw --reach 5 --changed march.wall --functions",
        "draw --functions --reach 0005 --changed --changed -- march.wall",
        "draw march.wall -o - --reach 5 --functions --changed",
    ] {
        assert_eq!(done(&folder, line), picture, "{line}");
    }
    assert!(!done(&folder, "draw march.wall --functions --changed").contains("reach"));
}

/// Words that are no numbers, or too large ones.
fn no_numbers() -> Vec<OsString> {
    let texts = ["x", "", " 1", "1 ", "1 2", "+1", "1.5", "0x1", "1,2", "1e3", "４", "²", "1\n"];
    let large = ["4294967296", "00000000004294967296", "99999999999999999999999"];
    let bytes = OsStr::from_bytes(b"1\xff").to_owned();
    texts.iter().chain(&large).map(OsString::from).chain([bytes]).collect()
}

#[test]
fn numbers_that_are_none() {
    let folder = march();
    for wrong in no_numbers() {
        let is_none = ["is no number ", "give digits alone, of a value up to 4294967295"];
        for word in ["split", "join", "fsplit", "fjoin", "back"] {
            let words = [word, "march.wall"].map(OsStr::new);
            bad_words(&folder, &[&words[..], &[&wrong]].concat(), &is_none);
        }
        let words = ["draw", "march.wall", "-o", "a.svg", "--reach"].map(OsStr::new);
        bad_words(&folder, &[&words[..], &[&wrong]].concat(), &is_none);
        // Also behind good ones.
        let words = ["split", "march.wall", "2"].map(OsStr::new);
        bad_words(&folder, &[&words[..], &[&wrong, OsStr::new("2")]].concat(), &is_none);
        for at in 0..8 {
            let mut words =
                ["new", "april.wall", "3", "2", "3", "2", "2", "2", "2", "0"].map(OsStr::new);
            words[2 + at] = &wrong;
            bad_words(&folder, &words, &is_none);
        }
    }
    // A sign that looks like an option.
    bad(&folder, "split march.wall -1", &["there is no option '-1'"]);
    bad(&folder, "split -- march.wall -1", &["'-1' is no number for a mark"]);
    // The largest number is one.
    refused(&folder, "split march.wall 4294967295", "7;;\n", 7, "where cells go from 0 to 62");
}

#[test]
fn plans_and_counts_that_are_wrong() {
    let folder = march();
    let numbers = ["3", "2", "3", "2", "2", "2", "2", "0", "0", "0"];
    for count in [0, 1, 2, 3, 4, 5, 7, 9, 10] {
        let line = [&["new", "april.wall"], &numbers[..count]].concat().join(" ");
        bad(
            &folder,
            &line,
            &["a plan has six numbers", "; usage: wallmirror new FILE A B L P Q M"],
        );
    }
    bad(&folder, "back march.wall 0", &["0 calls cannot be", "give a number from 1 to 2"]);
    bad(&folder, "back march.wall 3", &["3 calls cannot be", "give a number from 1 to 2"]);
    bad(&folder, "back march.wall 4294967295", &["give a number from 1 to 2"]);
    bad(&folder, "back march.wall 1 1", &["one number of calls at the most; usage: "]);
    let fresh = after(&[NEW]);
    for count in [0, 1, 7] {
        bad(&fresh, &format!("back march.wall {count}"), &["cannot be walked back; there is none"]);
    }
}

/// Bytes that are no wall, with the number of the refusal.
fn no_walls() -> Vec<(Vec<u8>, u32)> {
    let cut_off = [3, 1, 3, 1, 1, 0];
    vec![
        (vec![], 12),
        (cut_off.to_vec(), 12),
        (b"<svg xmlns='http://www.w3.org/2000/svg'>\n".to_vec(), 12),
        ([&cut_off[..], &[1]].concat(), 12),
        (vec![0, 1, 3, 1, 1, 0, 0], 1),
        (vec![3, 1, 3, 1, 1, 1, 0], 1),
        (vec![16, 16, 5, 1, 1, 0, 0], 2),
        (vec![3, 1, 3, 1, 1, 0, 1, 3], 4),
        (vec![3, 1, 3, 1, 1, 0, 1, 63], 4),
        (vec![3, 1, 3, 1, 1, 2, 2, 0, 4], 5),
        (vec![3, 2, 2, 2, 2, 2, 0, 2, 0, 5], 13),
        // Longer than any wall.
        ([&[3, 2, 2, 2, 2, 2, 0, 2, 0][..], &[5; 9000]].concat(), 13),
        (vec![0x80; 1_000_000], 12),
    ]
}

#[test]
fn files_that_are_no_walls() {
    let folder = Folder::new();
    for (bytes, number) in no_walls() {
        folder.write("a.wall", &bytes);
        let parts = [
            "'a.wall' is not the file of a wall (refusal ",
            &format!("(refusal {number}: "),
            "; give one that 'wallmirror new' or the library has written",
        ];
        for command in READING {
            bad(&folder, &format!("{command} a.wall"), &parts);
        }
    }
}

#[test]
fn files_that_are_not_there_or_of_another_kind() {
    let folder = march();
    fs::create_dir(folder.path("april")).expect("a folder");
    let made = Command::new("mkfifo").arg(folder.path("pipe")).status().expect("mkfifo");
    assert!(made.success());
    for command in READING {
        let bad = |name: &str, parts: &[&str]| bad(&folder, &format!("{command} {name}"), parts);
        bad("no.wall", &["there is no file 'no.wall'; check the name, or make a wall with"]);
        bad("no/a.wall", &["there is no folder 'no'", "give the file another name"]);
        for name in ["april", ".", "/dev/zero", "pipe"] {
            bad(name, &["' is a folder or a device; give the name of a file"]);
        }
        for name in ["april/", "/", "march.wall/"] {
            bad(name, &[&format!("'{name}' is a folder, not a file; usage: ")]);
        }
        bad("march.wall/x", &["march.wall"]);
        let journal = ["march.wall.journal' has the ending of what lies beside a wall; give the"];
        bad("march.wall.journal", &journal);
    }
    fs::rename(folder.path("march.wall.journal"), folder.path("text")).expect("a file");
    bad(&folder, "info text", &["'text' is a journal; give the wall beside it, 'FILE'"]);
    // A journal that is a folder.
    fs::create_dir(folder.path("march.wall.journal")).expect("a folder");
    bad(&folder, "split march.wall 2", &["march.wall.journal' is a folder or"]);
}

#[test]
fn new_walls_that_cannot_be_made() {
    let folder = march();
    fs::create_dir(folder.path("april")).expect("a folder");
    symlink("nowhere", folder.path("link")).expect("a link");
    let numbers = "1 1 1 1 1 0";
    let bad = |name: &str, parts: &[&str]| bad(&folder, &format!("new {name} {numbers}"), parts);
    for name in ["march.wall", "./march.wall", "april", "link", "april/../march.wall"] {
        bad(name, &[&format!("there is a file '{name}' already; move it away or give")]);
    }
    fs::rename(folder.path("march.wall"), folder.path("moved")).expect("a file");
    bad("march.wall", &["there is a journal 'march.wall.journal' already; 'wallmirror restore'"]);
    bad("no/a.wall", &["there is no folder 'no'; make it first or give the file another name"]);
    for name in ["..", "april/.."] {
        bad(name, &[&format!("'{name}' is no name for a file; give another one")]);
    }
    for name in
        ["may.wall.journal", "may.wall.wallmirror-new", "may.wallmirror-old", "april/.journal"]
    {
        bad(name, &[&format!("'{name}' has the ending of what lies beside a wall; give")]);
    }
    bad("may.wall/", &["'may.wall/' is a folder, not a file; usage: "]);
    bad(&"x".repeat(300), &["cannot be ", ": the name is too long; give a shorter one"]);
    for (numbers, number) in [("0 1 1 1 1 0", 1), ("3 1 3 1 1 1", 1), ("3 1 3 2 1 0 8 0", 1)] {
        refused(&folder, &format!("new may.wall {numbers}"), "", number, ")");
    }
    refused(&folder, "new may.wall 16 16 5 1 1 0", "", 2, "more than 21845 cells");
}

/// What a command that was cut off has left, whatever it is.
#[test]
fn leftovers_do_no_harm() {
    let names = ["march.wall", "march.wall.journal"].map(|name| format!("{name}.wallmirror-new"));
    let folder = march();
    folder.write("other", "of somebody else");
    for line in ["split march.wall 2", "back march.wall 1"] {
        for name in &names {
            symlink("other", folder.path(name)).expect("a link");
        }
        done(&folder, line);
        assert_eq!(folder.names(), ["march.wall", "march.wall.journal", "other"]);
        assert_eq!(folder.read("other"), b"of somebody else");
    }
    for name in &names {
        folder.write(name, vec![b'x'; 10_000]);
        set_mode(&folder, name, 0o400);
    }
    folder.write("march.wall.wallmirror-old", "x");
    done(&folder, "info march.wall");
    done(&folder, "back march.wall");
    assert_eq!(folder.names(), ["march.wall", "march.wall.journal", "other"]);
    assert_eq!(folder.read("march.wall"), [3, 1, 3, 1, 1, 2, 0]);
    assert_eq!(mode(&folder, "march.wall"), mode(&folder, "other"));
    // A folder of that name is in the way.
    fs::create_dir(folder.path(&names[0])).expect("a folder");
    bad(&folder, "split march.wall 0", &["march.wall' cannot be written: File exists", "; try "]);
}

/// The first mark at fault in list order is named. Cells 0, 1, 3 and 4 are split; functions 0, 1, 4,
/// 5, 8 and 9 are deactivated.
#[test]
fn calls_that_are_refused() {
    let folder = march();
    for (marks, number, end) in [
        ("split 63", 7, "63, where cells go from 0 to 62"),
        ("split 2 99 0", 7, "99, where cells go from 0 to 62"),
        ("split 2 0 99", 8, "cell 0 is split already"),
        ("split 7", 8, "cell 7 is absent"),
        ("split 19", 8, "cell 19 is absent"),
        ("split 2 2 15 0 99", 9, "cell 15 is of the last level"),
        ("join 63", 7, "63, where cells go from 0 to 62"),
        ("join 3 2 0", 8, "cell 2 is active, not split"),
        ("join 3 0 2", 8, "cell 0 has a child that is split"),
        ("join 7", 8, "cell 7 is absent"),
        ("join 15", 8, "cell 15 is active, not split"),
        ("fsplit 94", 7, "94, where functions go from 0 to 93"),
        ("fsplit 2 5 0", 8, "function 5 is deactivated already"),
        ("fsplit 2 28", 8, "function 28 is passive"),
        ("fsplit 29 28", 9, "function 29 is of the last level"),
        ("fjoin 4294967295", 7, "4294967295, where functions go from 0 to 93"),
        ("fjoin 8 2 0", 8, "function 2 is active, not deactivated"),
        ("fjoin 8 0 2", 8, "function 0 has no cell of its level in its support that can be joined"),
        ("fjoin 93", 8, "function 93 is passive"),
    ] {
        let line = with_file(marks, "march.wall");
        refused(&folder, &line, &format!("{number};;\n"), number, &format!(": {end}"));
    }
}

#[test]
fn files_that_may_not_be_written() {
    for name in ["march.wall", "march.wall.journal"] {
        let folder = march();
        set_mode(&folder, name, 0o444);
        for line in
            ["split march.wall 2", "fjoin march.wall 8 9", "back march.wall 1", "back march.wall"]
        {
            bad(&folder, line, &[&format!("{name}' may not be written; 'chmod u+w' allows it")]);
        }
        for command in ["info", "log", "draw", "export"] {
            done(&folder, &format!("{command} march.wall"));
        }
        // A call that is refused is refused.
        refused(&folder, "split march.wall 0", "8;;\n", 8, "cell 0 is split already");
    }
    // Nor is a half-made change finished then.
    let folder = march();
    let older = folder.read("march.wall");
    done(&folder, "split march.wall 2");
    fs::copy(folder.path("march.wall"), folder.path("march.wall.wallmirror-new")).expect("a copy");
    folder.write("march.wall", older);
    set_mode(&folder, "march.wall", 0o444);
    for line in ["split march.wall 2", "accept march.wall", "back march.wall"] {
        let said = ["' is half-made, as after", "to finish it failed", "'chmod u+w' allows it"];
        bad(&folder, line, &said);
    }
}

#[test]
fn permissions_stay() {
    let folder = march();
    set_mode(&folder, "march.wall", 0o640);
    set_mode(&folder, "march.wall.journal", 0o600);
    done(&folder, "split march.wall 2");
    done(&folder, "back march.wall 1");
    assert_eq!((mode(&folder, "march.wall"), mode(&folder, "march.wall.journal")), (0o640, 0o600));
    folder.write("a.svg", "");
    set_mode(&folder, "a.svg", 0o664);
    done(&folder, "draw march.wall -o a.svg");
    assert_eq!(mode(&folder, "a.svg"), 0o664);
    // A journal is begun with those of its wall.
    done(&folder, "new april.wall 1 1 2 1 1 0");
    for command in ["split", "accept"] {
        fs::remove_file(folder.path("april.wall.journal")).expect("a file");
        set_mode(&folder, "april.wall", 0o600);
        assert_eq!(run(&folder, [command, "april.wall"]).2, 0);
        let modes = ["april.wall", "april.wall.journal"].map(|name| mode(&folder, name));
        assert_eq!(modes, [0o600, 0o600], "{command}");
    }
}

#[test]
fn pictures_in_files() {
    let folder = march();
    fs::create_dir(folder.path("april")).expect("a folder");
    symlink("april/b", folder.path("link")).expect("a link");
    folder.write("april/b", "something longer than nothing");
    for command in ["draw", "export", "draw --functions", "draw --changed", "draw --reach 5"] {
        let printed = done(&folder, &format!("{command} march.wall"));
        assert_eq!(done(&folder, &format!("{command} march.wall -o -")), printed);
        for out in ["a", "a", "april/a", "./april/a", "link", "/dev/null"] {
            assert_eq!(done(&folder, &format!("{command} -o {out} march.wall")), "");
        }
        for out in ["a", "april/a", "april/b"] {
            assert_eq!(folder.read(out), printed.as_bytes(), "{command} {out}");
        }
        let names =
            ["a", "april", "april/a", "april/b", "link", "march.wall", "march.wall.journal"];
        assert_eq!(folder.names(), names);
        assert_eq!(folder.all()[OsStr::new("link")], Content::Link("april/b".into()));
    }
}

/// Sees that no picture of march.wall, nor of a link to it, is written there.
fn no_picture(folder: &Folder, out: &str, part: &str) {
    for command in ["draw", "export"] {
        bad(folder, &format!("{command} march.wall -o {out}"), &[part]);
        bad(folder, &format!("{command} -o {out} -- link-wall"), &[part]);
    }
}

#[test]
fn pictures_that_would_take_the_place_of_others() {
    let folder = march();
    fs::create_dir(folder.path("april")).expect("a folder");
    for name in ["wall", "wall.journal"] {
        symlink(format!("march.{name}"), folder.path(format!("link-{name}"))).expect("a link");
    }
    symlink("..", folder.path("april/up")).expect("a link");
    done(&folder, "new april/other.wall 1 1 2 1 1 0");
    done(&folder, "split april/other.wall 0");
    fs::copy(folder.path("april/other.wall.journal"), folder.path("text")).expect("a file");
    let absolute = folder.path("march.wall").into_os_string().into_string().expect("text");
    for out in ["march.wall", "./march.wall", "april/../march.wall", "april/up/march.wall"] {
        no_picture(&folder, out, "' is the wall's own file; give '-o' another name");
    }
    for out in ["link-wall", &absolute] {
        no_picture(&folder, out, "' is the wall's own file; give '-o' another name");
    }
    for out in ["march.wall.journal", "./march.wall.journal", "link-wall.journal", "new.journal/."]
    {
        no_picture(
            &folder,
            out,
            "' is the name of what lies beside a wall; give '-o' another name",
        );
    }
    for out in ["a.wallmirror-new", "a.wallmirror-old", "april/a.wallmirror-new/."] {
        no_picture(
            &folder,
            out,
            "' is the name of what lies beside a wall; give '-o' another name",
        );
    }
    for out in ["april/other.wall", "text"] {
        no_picture(&folder, out, "' is a wall or a journal, which is not written over; give '-o'");
    }
}

#[test]
fn pictures_that_cannot_be_written() {
    let folder = march();
    fs::create_dir(folder.path("april")).expect("a folder");
    symlink("march.wall", folder.path("link-wall")).expect("a link");
    folder.write("read-only", "");
    set_mode(&folder, "read-only", 0o444);
    for (out, part) in [
        ("read-only", "read-only' may not be written; 'chmod u+w' allows it"),
        ("no/a.svg", "no'; make it first or give the file another name"),
        ("april", "'april' cannot be written: it is a folder; give the name of a file"),
        ("march.wall/a.svg", "a part of the name is no folder; give another name"),
    ] {
        no_picture(&folder, out, part);
    }
}

/// A new journal would take the place of a link and not of the file behind it.
#[test]
fn journals_that_are_links() {
    let folder = march();
    fs::rename(folder.path("march.wall.journal"), folder.path("calls")).expect("a file");
    symlink("calls", folder.path("march.wall.journal")).expect("a link");
    for command in READING {
        let said = "march.wall.journal' is a link; put the file itself there";
        bad(&folder, &format!("{command} march.wall"), &[said]);
    }
}

#[test]
fn walls_through_links_and_in_other_folders() {
    let folder = Folder::new();
    fs::create_dir(folder.path("april")).expect("a folder");
    done(&folder, "new april/a.wall 3 1 3 1 1 2");
    symlink("april/a.wall", folder.path("link")).expect("a link");
    symlink("april", folder.path("folder")).expect("a link");
    assert_eq!(done(&folder, "split link 0"), "0;0;0 4\n");
    assert_eq!(done(&folder, "split april/a.wall 3 4"), "0;1 3 4;1 5 8 9\n");
    assert_eq!(done(&folder, "fjoin folder/a.wall 8 9"), "0;3 4;8 9\n");
    let absolute = folder.path("april/../link").into_os_string().into_string().expect("text");
    assert_eq!(done(&folder, &format!("fsplit {absolute} 2")), "0;2;2 3 6 7\n");
    let names = ["april", "april/a.wall", "april/a.wall.journal", "folder", "link"];
    assert_eq!(folder.names(), names);
    assert_eq!(folder.all()[OsStr::new("link")], Content::Link("april/a.wall".into()));
    assert!(done(&folder, "log link").starts_with("link: 3 by 1 cells"));
    assert!(done(&folder, "back link")
        .ends_with("link is the wall that its journal begins with, byte for byte (7 bytes)\n"));
    assert_eq!(folder.read("april/a.wall"), [3, 1, 3, 1, 1, 2, 0]);
}

#[test]
fn names_of_all_kinds() {
    for name in [
        &b"two words"[..],
        b"'quoted'",
        b"\"both'",
        b"-o",
        b"--help",
        b"$HOME;*",
        b"\xff\xfe.wall",
        b"a\nb",
        "äöü.wall".as_bytes(),
        b".hidden",
    ] {
        let name = OsStr::from_bytes(name);
        let folder = Folder::new();
        let run = |command: &str, rest: &[&str]| {
            let words = [OsStr::new(command), OsStr::new("--"), name];
            let rest: Vec<&OsStr> = rest.iter().map(OsStr::new).collect();
            run(&folder, [&words[..], &rest].concat())
        };
        let (out, _, status) = run("new", &["3", "1", "3", "1", "1", "2"]);
        assert_eq!((out.lines().count(), status), (1, 0), "{name:?}");
        assert_eq!(run("split", &["0"]), ("0;0;0 4\n".into(), String::new(), 0), "{name:?}");
        let (out, err, status) = run("split", &["x"]);
        assert_eq!((out.as_str(), status), ("", 2));
        assert_one_line(&err);
        assert_eq!(run("back", &[]).2, 0, "{name:?}");
        assert_eq!(folder.read(name), [3, 1, 3, 1, 1, 2, 0]);
        assert_eq!(folder.names().len(), 2, "{name:?}");
        // What is said of it stays one line.
        fs::remove_file(folder.path(name)).expect("a file");
        assert_one_line(&run("info", &[]).1);
        assert_eq!(run("restore", &[]).2, 0, "{name:?}");
    }
}

#[test]
fn help_and_version() {
    let folder = Folder::new();
    let overview = done(&folder, "--help");
    for line in ["-h", "help"] {
        assert_eq!(done(&folder, line), overview, "{line}");
    }
    bad(&folder, "--version 1", &["'--version' stands alone"]);
    for name in ALL {
        assert!(overview.contains(&format!("\n  {name} ")), "{overview}");
        let help = done(&folder, &format!("help {name}"));
        assert!(help.starts_with(&format!("usage: wallmirror {name} ")), "{help}");
        for line in ["--help", "-h", "no.wall --help", "--no 1 2 -h"] {
            let asked = done(&folder, &format!("{name} {line}"));
            assert_eq!(asked, help, "{name} {line}");
        }
        assert_eq!(done(&folder, &format!("--help {name}")), help);
        assert!(help.lines().chain(overview.lines()).all(|line| line.len() <= 100), "{help}");
    }
    for line in ["--version", "-V"] {
        assert_eq!(done(&folder, line), concat!("wallmirror ", env!("CARGO_PKG_VERSION"), "\n"));
    }
    assert!(folder.names().is_empty());
}

/// The writing end of a pipe that nobody reads.
fn closed_pipe() -> PipeWriter {
    std::io::pipe().expect("a pipe").1
}

#[test]
fn nobody_reads_what_is_printed() {
    let folder = march();
    for line in ["info march.wall", "split march.wall 2", "back march.wall 1", "--help"] {
        let output = command(&folder, words(line)).stdout(closed_pipe()).output().expect("starts");
        assert_eq!(ran(output), (String::new(), String::new(), 0), "{line}");
    }
    assert!(done(&folder, "log march.wall").contains("3 split 2"));
    for (line, printed, status) in [("walk", "", 2), ("split march.wall 0", "8;;\n", 1)] {
        let output = command(&folder, words(line)).stderr(closed_pipe()).output().expect("starts");
        assert_eq!(ran(output), (printed.into(), String::new(), status), "{line}");
    }
    // The wall lacks the last change, and nobody hears that it is finished.
    let wall = folder.read("march.wall");
    done(&folder, "split march.wall 2");
    fs::rename(folder.path("march.wall"), folder.path("march.wall.wallmirror-new")).expect("ours");
    folder.write("march.wall", wall);
    for line in ["log march.wall", "split march.wall"] {
        let output = command(&folder, words(line)).stderr(closed_pipe()).output().expect("starts");
        assert_eq!(ran(output).2, 0, "{line}");
    }
    done(&folder, "info march.wall");
}

#[test]
fn what_cannot_be_printed() {
    let folder = march();
    let full = || File::options().write(true).open("/dev/full").expect("a device");
    let output = command(&folder, words("split march.wall 2")).stdout(full()).output();
    let (_, err, status) = ran(output.expect("starts"));
    assert_eq!(status, 2);
    assert_one_line(&err);
    assert!(err.contains("cannot be printed") && err.contains("what was changed stays"), "{err}");
    assert!(done(&folder, "log march.wall").contains("3 split 2: cells 2;"));
    let output = command(&folder, ["walk"]).stderr(full()).output().expect("starts");
    assert_eq!(ran(output).2, 2);
}

/// Twenty commands at once, each with another cell, by the wall's name and by a link to it; others
/// read meanwhile. None is lost, and nobody finds a wall that does not fit.
#[test]
fn commands_at_the_same_time() {
    for round in 0..4 {
        let folder = after(&["new march.wall 5 4 2 1 1 0"]);
        symlink("march.wall", folder.path("link")).expect("a link");
        let lines = (0..20).flat_map(|cell| {
            let name = ["march.wall", "link"][cell % 2];
            [format!("split {name} {cell}"), format!("info {name}")]
        });
        let started: Vec<_> = lines
            .map(|line| {
                command(&folder, words(&line))
                    .stdout(Stdio::null())
                    .stderr(Stdio::piped())
                    .spawn()
                    .expect("the command starts")
            })
            .collect();
        for child in started {
            let (_, err, status) = ran(child.wait_with_output().expect("it ends"));
            // On a slow disk some wait for long.
            let patient = err.is_empty()
                || err.ends_with(": waiting for another command that works in this folder\n");
            assert_eq!((patient, status), (true, 0), "round {round}: {err}");
        }
        let report = done(&folder, "back march.wall");
        assert_eq!(report.matches(" names the same 1 cell and the same ").count(), 20, "{report}");
        assert_eq!(folder.read("march.wall"), [5, 4, 2, 1, 1, 0, 0]);
    }
}

/// A command waits for the one that works in its folder, and after a while says so.
#[test]
fn commands_wait_for_each_other() {
    let folder = march();
    let handle = File::open(folder.path("")).expect("the folder");
    handle.lock().expect("no other has it");
    let before = folder.all();
    let mut child = command(&folder, words("split march.wall 2"))
        .stdout(Stdio::piped())
        .stderr(Stdio::piped())
        .spawn()
        .expect("the command starts");
    let mut said = [0; 12];
    child.stderr.as_mut().expect("a pipe").read_exact(&mut said).expect("it says something");
    assert_eq!(&said, b"wallmirror: ");
    assert!(child.try_wait().expect("it is ours").is_none());
    assert_eq!(folder.all(), before);
    drop(handle);
    let (out, err, status) = ran(child.wait_with_output().expect("it ends"));
    assert_eq!((out.as_str(), status), ("0;2;2 3 6 7\n", 0));
    assert_eq!(err, "waiting for another command that works in this folder\n");
}
