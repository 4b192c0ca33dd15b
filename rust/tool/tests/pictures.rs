//! The walls in docs/ are what the script that draws them makes of the command.

mod common;

use common::Folder;
use std::ffi::OsString;
use std::path::{Path, PathBuf};
use std::process::{Command, Stdio};
use std::{env, fs};

/// The folder of the built command, before all others.
fn search_path() -> OsString {
    let own = Path::new(env!("CARGO_BIN_EXE_wallmirror")).parent().expect("a folder");
    let others = env::var_os("PATH").unwrap_or_default();
    let folders = [own.to_path_buf()].into_iter().chain(env::split_paths(&others));
    env::join_paths(folders).expect("names without a colon")
}

fn is_wall(name: &OsString) -> bool {
    name.to_str().is_some_and(|name| name.starts_with("wall") && name.ends_with(".svg"))
}

#[test]
fn the_walls_of_the_documents() {
    let docs: PathBuf = Path::new(env!("CARGO_MANIFEST_DIR")).join("../../docs");
    let folder = Folder::new();
    let drawn = Command::new(docs.join("walls.sh"))
        .arg(folder.path(""))
        .env("PATH", search_path())
        .stdout(Stdio::null())
        .status();
    assert!(drawn.expect("the script starts").success());
    let names = fs::read_dir(&docs).expect("a folder").map(|entry| entry.expect("a file"));
    let mut walls: Vec<OsString> = names.map(|entry| entry.file_name()).filter(is_wall).collect();
    walls.sort();
    assert_eq!(folder.names(), walls);
    for name in walls {
        let stored = fs::read(docs.join(&name)).expect("a picture");
        assert!(folder.read(&name) == stored, "{name:?}: 'make pictures' draws it anew");
    }
}
