//! Every call through the boundary, on stored sessions in the format of the program `drive`: those of this folder (document 01's worked
//! session and readings, its answers as the paper has them), the repository's examples, and those that it keeps of the Rust's own answers.
mod drive;

use std::{fs, path::Path};

/// An input, and what it must write.
fn replay(input: &Path, want: &Path) -> usize {
    let text = fs::read_to_string(input).unwrap();
    let want = fs::read_to_string(want).unwrap();
    let have = drive::run(&text);
    for (i, (have, want)) in have.lines().zip(want.lines()).enumerate() {
        assert_eq!(have, want, "{}: line {} of what is written", input.display(), i + 1);
    }
    assert_eq!(have.len(), want.len(), "{}: bytes written", input.display());
    text.lines().count()
}

/// The sessions of this folder.
#[test]
fn sessions() {
    let folder = Path::new(env!("CARGO_MANIFEST_DIR")).join("tests/sessions");
    let mut count = 0;
    for entry in fs::read_dir(folder).unwrap() {
        let path = entry.unwrap().path();
        if path.extension().is_some_and(|e| e == "in") {
            replay(&path, &path.with_extension("out"));
            count += 1;
        }
    }
    assert_eq!(count, SESSIONS, "stored sessions");
}

/// How many there are.
const SESSIONS: usize = 1;

/// The examples of the repository in this format.
#[test]
fn examples() {
    let folder = Path::new(env!("CARGO_MANIFEST_DIR")).join("../../examples");
    let mut names: Vec<_> = fs::read_dir(folder).unwrap().map(|entry| entry.unwrap().path()).collect();
    names.retain(|path| path.extension().is_some_and(|e| e == "drive"));
    assert!(!names.is_empty(), "no example found");
    for name in names {
        replay(&name, &name.with_extension("out"));
    }
}

/// The repository's own: the stored input and output of every program that speaks this format, the Rust's answers among them.
/// `THNAOLUPS_SAMPLES` names further folders with a `stdin` and a `stdout`.
#[test]
fn samples() {
    let crates = Path::new(env!("CARGO_MANIFEST_DIR")).join("../../crates");
    let mut folders: Vec<_> = fs::read_dir(crates).unwrap().map(|entry| entry.unwrap().path()).collect();
    folders.retain(|path| PROGRAMS.iter().any(|name| path.file_name().is_some_and(|f| f == *name)));
    if let Some(more) = std::env::var_os("THNAOLUPS_SAMPLES") {
        folders.extend(std::env::split_paths(&more));
    }
    for folder in folders {
        let lines = replay(&folder.join("stdin"), &folder.join("stdout"));
        println!("{}: {lines} lines", folder.display());
    }
}

/// Those programs, as far as the repository has them.
const PROGRAMS: [&str; 1] = ["drive"];
