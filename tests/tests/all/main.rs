//! The proved calls against second implementations. Every test says how much it went through.

use std::io::Write;
use std::path::{Path, PathBuf};

mod boundary;
mod calls;
mod cases;
mod classes;
mod documents;
mod ebnf;
mod failures;
mod flags;
mod front;
mod header;
mod language;
mod machine;
mod memories;
mod pages;
mod programs;
mod refusals;
mod runs;
mod speed;
mod stack;
mod unused;
mod walks;
mod words;

fn repository() -> PathBuf {
    Path::new(env!("CARGO_MANIFEST_DIR")).parent().expect("the repository").to_path_buf()
}

/// A program that `rt ci` or `rt run` built, in a repository.
fn built(repository: &Path, name: &str) -> PathBuf {
    repository.join(format!("crates/program_{name}/out/program_{name}"))
}

/// A folder for a test's own files: tests run at the same time, each in a thread that has its name.
fn scratch(name: &str) -> PathBuf {
    let thread = std::thread::current();
    let test = thread.name().expect("a test").replace("::", "-");
    let folder = Path::new(env!("CARGO_TARGET_TMPDIR")).join(test).join(name);
    std::fs::create_dir_all(&folder).expect("a folder");
    folder
}

/// Prints a line past the test runner's capture, so that a plain `cargo test`
/// shows how much the tests went through.
fn print(line: &str) {
    std::io::stdout().write_all(format!("{line}\n").as_bytes()).expect("standard output takes a line");
}

/// Counts by status, those seen.
fn by_status(counts: &[u64]) -> String {
    let seen = counts.iter().enumerate().filter(|(_, n)| **n > 0).map(|(s, n)| format!("{s}: {n}"));
    seen.collect::<Vec<_>>().join(", ")
}
