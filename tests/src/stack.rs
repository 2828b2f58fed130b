//! The stack that one translation takes, by filling the stack below with a pattern and looking how far it was
//! written.

use crate::{proved, CODE_BYTES, TABLE_WORDS};
use std::hint::black_box;

const ROOM: usize = 1 << 20;
/// What the measuring itself may write.
const CLEAR: usize = 512;
const PATTERN: u64 = 0xa5a5_a5a5_a5a5_a5a5;

#[inline(never)]
fn paint(top: usize) {
    for at in (top - ROOM..top - CLEAR).step_by(8) {
        unsafe { (at as *mut u64).write_volatile(PATTERN) };
    }
}

#[inline(never)]
fn deepest(top: usize) -> usize {
    let painted = |at: usize| unsafe { (at as *const u64).read_volatile() } == PATTERN;
    assert!(painted(top - ROOM), "more stack than was looked at");
    let written = (top - ROOM..top - CLEAR).step_by(8).find(|at| !painted(*at));
    top - written.unwrap_or(top - CLEAR)
}

/// Bytes of stack that a call takes for each of the sources, what it calls included. In a thread of its own, whose
/// whole stack is there to be written.
pub fn taken(sources: &[Vec<u8>]) -> Vec<usize> {
    let measure = || {
        let (mut table, mut code) = (vec![0; TABLE_WORDS], vec![0; CODE_BYTES]);
        let one = |source: &Vec<u8>| {
            let here = 0u64;
            let top = black_box(&here) as *const u64 as usize;
            paint(top);
            black_box(proved::translate(source, &mut table, &mut code));
            deepest(top)
        };
        sources.iter().map(one).collect()
    };
    std::thread::scope(|scope| {
        let thread = std::thread::Builder::new().stack_size(4 * ROOM);
        thread.spawn_scoped(scope, measure).expect("a thread").join().expect("numbers")
    })
}
