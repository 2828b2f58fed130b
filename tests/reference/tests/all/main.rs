//! The reference's tests, each of which says how much it went through.

use std::io::Write;

mod cases;
mod depths;
mod earley;
mod examples;
mod generated;
mod grammar;
mod rows;
mod scan;
mod tables;
mod tokens;
mod walks;

/// Prints a line past the test runner's capture, so that a plain `cargo test`
/// shows how much the tests went through.
fn print(line: &str) {
    std::io::stdout().write_all(format!("{line}\n").as_bytes()).expect("standard output takes a line");
}

fn report(what: &str, count: usize) {
    print(&format!("{count} {what}"));
}
