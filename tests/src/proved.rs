//! The proved functions, as the archives export them.

use crate::arm::{Flags, Instr, State, OPS};
use crate::{Translation, Walked};

/// The state as the boundary has it: r0 to r7, sp, lr, pc, and the APSR with the flags.
pub type Words = [u32; 12];

/// The APSR's place among the words.
pub const APSR: usize = 11;

extern "C" {
    fn gutilamboy_translate(
        source: *const u8,
        source_len: usize,
        table: *mut u32,
        table_len: usize,
        code: *mut u8,
        code_len: usize,
        out: *mut [u32; 7],
    );
    fn gutilamboy_encode(op: u8, a: u8, b: u8, c: u8, k: u32, out: *mut [u32; 4]);
    fn gutilamboy_decode(first: u16, second: u16, out: *mut [u32; 5]);
    fn gutilamboy_start(
        code: *const u8,
        code_len: usize,
        memory: *const u32,
        memory_len: usize,
        declared: u32,
        depth: u32,
        state: *mut Words,
    ) -> u32;
    fn gutilamboy_step(
        code: *const u8,
        code_len: usize,
        memory: *mut u32,
        memory_len: usize,
        state: *mut Words,
        out: *mut [u32; 2],
    );
    fn gutilamboy_run(
        code: *const u8,
        code_len: usize,
        memory: *mut u32,
        memory_len: usize,
        limit: u64,
        state: *mut Words,
        out: *mut [u64; 3],
    );
    fn gutilamboy_walk(
        table: *const u32,
        table_len: usize,
        memory: *mut u32,
        memory_len: usize,
        limit: u64,
        first: u64,
        accesses: *mut u32,
        accesses_len: usize,
        out: *mut [u64; 4],
    );
}

pub fn translate(source: &[u8], table: &mut [u32], code: &mut [u8]) -> Translation {
    let mut out = [9; 7];
    unsafe {
        gutilamboy_translate(
            source.as_ptr(),
            source.len(),
            table.as_mut_ptr(),
            table.len(),
            code.as_mut_ptr(),
            code.len(),
            &mut out,
        )
    };
    let [status, place, tokens, rows, data, depth, code] = out;
    Translation { status, place, tokens, rows, data, depth, code }
}

/// Status, count, first and second halfword.
pub fn encode(op: u8, a: u8, b: u8, c: u8, k: i32) -> [u32; 4] {
    let mut out = [9; 4];
    unsafe { gutilamboy_encode(op, a, b, c, k as u32, &mut out) };
    out
}

/// The number of the instruction, or 34, and the fields a, b, c, k.
pub fn decode_numbers(first: u16, second: u16) -> [u32; 5] {
    let mut out = [9; 5];
    unsafe { gutilamboy_decode(first, second, &mut out) };
    out
}

pub fn decode(first: u16, second: u16) -> Option<Instr> {
    let [number, a, b, c, k] = decode_numbers(first, second);
    if number == 34 {
        assert_eq!([a, b, c, k], [0; 4], "fields of no instruction");
        return None;
    }
    let byte = |field: u32| u8::try_from(field).expect("a field of a byte");
    Some(Instr { op: OPS[number as usize], a: byte(a), b: byte(b), c: byte(c), k: k as i32 })
}

pub fn words(s: &State) -> Words {
    let mut w = [0; 12];
    w[..8].copy_from_slice(&s.r);
    w[8..].copy_from_slice(&[s.sp, s.lr, s.pc, s.flags.apsr()]);
    w
}

/// The state of words whose APSR has nothing but flags, as each call hands it back that was lent it so.
fn state(w: Words) -> State {
    assert_eq!(w[APSR] & !Flags::BITS, 0, "bits of the APSR that are no flags");
    State { r: w[..8].try_into().unwrap(), sp: w[8], lr: w[9], pc: w[10], flags: Flags::of(w[APSR]) }
}

pub fn start(code: &[u8], memory: &[u32], declared: u32, depth: u32) -> (u32, State) {
    let mut w = [9; 12];
    let status = unsafe {
        gutilamboy_start(code.as_ptr(), code.len(), memory.as_ptr(), memory.len(), declared, depth, &mut w)
    };
    (status, state(w))
}

pub fn step_words(w: &mut Words, code: &[u8], memory: &mut [u32]) -> (u32, u32) {
    let mut out = [9; 2];
    unsafe { gutilamboy_step(code.as_ptr(), code.len(), memory.as_mut_ptr(), memory.len(), w, &mut out) };
    (out[0], out[1])
}

pub fn run_words(w: &mut Words, code: &[u8], memory: &mut [u32], limit: u64) -> (u32, u32, u64) {
    let mut out = [9; 3];
    unsafe {
        gutilamboy_run(code.as_ptr(), code.len(), memory.as_mut_ptr(), memory.len(), limit, w, &mut out)
    };
    let word = |number: u64| u32::try_from(number).expect("a word");
    (word(out[0]), word(out[1]), out[2])
}

pub fn step(s: &mut State, code: &[u8], memory: &mut [u32]) -> (u32, u32) {
    let mut w = words(s);
    let answer = step_words(&mut w, code, memory);
    *s = state(w);
    answer
}

pub fn run(s: &mut State, code: &[u8], memory: &mut [u32], limit: u64) -> (u32, u32, u64) {
    let mut w = words(s);
    let answer = run_words(&mut w, code, memory, limit);
    *s = state(w);
    answer
}

pub fn walk(table: &[u32], memory: &mut [u32], limit: u64, first: u64, cells: &mut [u32]) -> Walked {
    let mut out = [9; 4];
    unsafe {
        gutilamboy_walk(
            table.as_ptr(),
            table.len(),
            memory.as_mut_ptr(),
            memory.len(),
            limit,
            first,
            cells.as_mut_ptr(),
            cells.len(),
            &mut out,
        )
    };
    let [status, number, steps, accesses] = out;
    Walked { status, number, steps, accesses }
}
