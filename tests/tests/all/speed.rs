//! The benchmarks' programs: the proved machine and the plain interpreter come to the same, and the machine keeps up; so
//! do the proved walker and the plain one.

use crate::{print, repository};
use std::fs::{read, read_dir};
use std::path::{Path, PathBuf};
use std::time::Instant;
use tests::{arm, needed_words, plain, plain_walk, proved, Translation, Walker, CODE_BYTES, TABLE_WORDS};

/// More times as long as the plain interpreter, which keeps the flags too, than the machine may take. With a second
/// caller of what its loop is made of, which the compiler then doesn't build into it, it took more than this.
const LIMIT: f64 = 3.0;
/// More times as long as the plain walker than the proved walker may take.
const WALK_LIMIT: f64 = 4.0;
/// The times that each is run; the best counts. Where it isn't good enough, something else may have kept the processor
/// busy: then each is run up to as many times more.
const TURNS: usize = 15;
const MORE_TURNS: usize = 45;

fn programs() -> Vec<PathBuf> {
    let folder = read_dir(repository().join("benchmarks/programs")).expect("the programs");
    let mut files: Vec<PathBuf> = folder.map(|file| file.expect("a file").path()).collect();
    files.sort();
    files
}

/// A program's translation, its table's rows and its image.
fn translated(file: &Path) -> (Translation, Vec<u32>, Vec<u8>) {
    let (mut table, mut code) = (vec![0; TABLE_WORDS], vec![0; CODE_BYTES]);
    let got = proved::translate(&read(file).expect("the program"), &mut table, &mut code);
    assert_eq!(got.status, 0, "{}", file.display());
    table.truncate(4 * got.rows as usize);
    code.truncate(got.code as usize);
    (got, table, code)
}

/// The ratio of two times, for a program, if it is allowed.
fn ratio(file: &Path, [mine, theirs]: [f64; 2], allowed: f64) -> String {
    let times = mine / theirs;
    assert!(times <= allowed, "{}: {times:.2} times as long", file.display());
    format!("{} {times:.2}", file.file_stem().expect("a name").to_string_lossy())
}

type Run = fn(&mut arm::State, &[u8], &mut [u32], u64) -> (u32, u32, u64);

/// What a run comes to, and its seconds.
fn timed(run: Run, image: &[u8], words: usize, data: u32, depth: u32, limit: u64) -> (impl PartialEq, f64) {
    let mut memory = vec![0; words];
    let (status, mut state) = proved::start(image, &memory, data, depth);
    assert_eq!(status, 0);
    let begun = Instant::now();
    let answer = run(&mut state, image, &mut memory, limit);
    let seconds = begun.elapsed().as_secs_f64();
    assert_eq!(answer, (0, 0, limit));
    ((state, memory), seconds)
}

#[test]
fn the_machine_keeps_up() {
    const INSTRUCTIONS: u64 = 1_000_000;
    let mut seen = Vec::new();
    for file in programs() {
        let (got, _, image) = translated(&file);
        let words = needed_words(got.data, got.depth);
        let mut best = [f64::MAX; 2];
        for turn in 0..TURNS + MORE_TURNS {
            if turn >= TURNS && best[0] <= LIMIT * best[1] {
                break;
            }
            let (mine, proved) = timed(proved::run, &image, words, got.data, got.depth, INSTRUCTIONS);
            let (theirs, plain) = timed(plain::run, &image, words, got.data, got.depth, INSTRUCTIONS);
            assert!(mine == theirs, "{}: different ends", file.display());
            best = [best[0].min(proved), best[1].min(plain)];
        }
        seen.push(ratio(&file, best, LIMIT));
    }
    assert!(seen.len() >= 3);
    print(&format!("speed, times as long as a plain interpreter: {}", seen.join(", ")));
}

/// What a walk comes to, and its seconds: the last words, and the first entries of its list.
fn timed_walk(walker: Walker, table: &[u32], words: usize, limit: u64) -> (impl PartialEq, f64) {
    const CELLS: usize = 4 * 1_000;
    let (mut memory, mut cells) = (vec![0; words], vec![0; CELLS]);
    let begun = Instant::now();
    let got = walker(table, &mut memory, limit, 0, &mut cells);
    let seconds = begun.elapsed().as_secs_f64();
    assert_eq!((got.status, got.number, got.steps), (0, 0, limit));
    ((got, memory, cells), seconds)
}

#[test]
fn the_walker_keeps_up() {
    const ROWS: u64 = 1_000_000;
    let mut seen = Vec::new();
    for file in programs() {
        let (got, table, _) = translated(&file);
        let mut best = [f64::MAX; 2];
        for turn in 0..TURNS + MORE_TURNS {
            if turn >= TURNS && best[0] <= WALK_LIMIT * best[1] {
                break;
            }
            let (mine, proved) = timed_walk(proved::walk, &table, got.data as usize, ROWS);
            let (theirs, plain) = timed_walk(plain_walk::walk, &table, got.data as usize, ROWS);
            assert!(mine == theirs, "{}: different ends", file.display());
            best = [best[0].min(proved), best[1].min(plain)];
        }
        let rows = ROWS as f64 / best[0] / 1e6;
        seen.push(format!("{} ({rows:.0} million rows a second)", ratio(&file, best, WALK_LIMIT)));
    }
    assert!(seen.len() >= 3);
    print(&format!("speed, times as long as a plain walker: {}", seen.join(", ")));
}
