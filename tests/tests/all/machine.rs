//! The proved machine against the second one.

use crate::classes::MET;
use crate::{by_status, print};
use reference::generate::Random;
use tests::arm::{self, assemble, disassemble, pattern, Flags, Instr, Layout, Op, State, OPS};
use tests::{plain, proved};

const EDGES: [u8; 22] =
    [0, 1, 2, 6, 7, 8, 9, 15, 16, 30, 31, 32, 33, 63, 64, 126, 127, 128, 129, 200, 254, 255];

/// "35, count 0 and both halfwords 0".
const OUT_OF_RANGE: [u32; 4] = [35, 0, 0, 0];

pub fn same<T: PartialEq + std::fmt::Debug>(what: &str, case: impl std::fmt::Debug, got: T, want: T) {
    if got != want {
        panic!("{what} {case:?}: got {got:?}, want {want:?}");
    }
}

fn encoded(i: Instr) -> [u32; 4] {
    match assemble(i).as_deref() {
        None => OUT_OF_RANGE,
        Some([h]) => [0, 1, *h as u32, 0],
        Some([h, k]) => [0, 2, *h as u32, *k as u32],
        Some(_) => unreachable!(),
    }
}

/// One instruction: its encoding, and the way back where there is one.
fn encoding(i: Instr) -> u64 {
    let want = encoded(i);
    let op = OPS.iter().position(|&op| op == i.op).unwrap() as u8;
    same("encode", i, proved::encode(op, i.a, i.b, i.c, i.k), want);
    if want[0] == 0 {
        same("decode after encode", i, proved::decode(want[2] as u16, want[3] as u16), Some(i));
    }
    1
}

fn encodings(random: &mut Random) -> u64 {
    let mut count = 0;
    let mut distances: Vec<i32> =
        vec![i32::MIN, i32::MIN + 1, i32::MAX - 1, i32::MAX, 0x2000_0000, -0x2000_0000];
    for width in [8, 11, 16, 21, 22, 23, 24] {
        for near in -2..=2 {
            distances.extend([(1 << (width - 1)) + near, -(1 << (width - 1)) + near]);
        }
    }
    distances.extend(-3000..3000);
    distances.extend((0..20_000).map(|_| random.any_word() as i32 >> random.below(16)));
    for op in OPS {
        let zero = Instr { op, a: 0, b: 0, c: 0, k: 0 };
        match pattern(op).1 {
            Layout::Near | Layout::Jump | Layout::Call => {
                for &k in &distances {
                    count += encoding(Instr { k, ..zero });
                }
            }
            Layout::Imm7 | Layout::Only8 => {
                for a in 0..=255 {
                    count += encoding(Instr { a, ..zero });
                }
            }
            Layout::Imm8 | Layout::Regs2 => {
                for a in 0..=255 {
                    for b in 0..=255 {
                        count += encoding(Instr { a, b, ..zero });
                    }
                }
            }
            Layout::Imm5 | Layout::Count | Layout::Regs3 => {
                for a in 0..=255 {
                    for b in EDGES {
                        for c in EDGES {
                            count += encoding(Instr { a, b, c, ..zero });
                        }
                    }
                }
            }
        }
    }
    count
}

/// One pair of halfwords: its decoding, and the way back where there is one, by the instruction and by its numbers.
fn decoding(h: u16, k: u16) -> u64 {
    let want = disassemble(h, k);
    same("decode", (h, k), proved::decode(h, k), want);
    let [number, a, b, c, d] = proved::decode_numbers(h, k);
    let back = proved::encode(number as u8, a as u8, b as u8, c as u8, d as i32);
    if let Some(i) = want {
        let halves = if i.op == Op::Bl { vec![h, k] } else { vec![h] };
        same("assemble after disassemble", i, assemble(i), Some(halves));
        let second = if i.op == Op::Bl { k as u32 } else { 0 };
        same("encode after decode", i, back, [0, 1 + u32::from(i.op == Op::Bl), h as u32, second]);
    } else {
        same("encode after decode", (h, k), back, OUT_OF_RANGE);
    }
    1
}

/// Every number with many fields: the 34 instructions, unused fields not looked at, and none from 34 on. Instructions
/// encoded, and refused ones of both kinds.
fn numbered_encodings(random: &mut Random) -> [u64; 3] {
    let mut seen = [0; 3];
    for number in 0..=255u8 {
        for (a, b) in EDGES.into_iter().flat_map(|a| EDGES.map(|b| (a, b))) {
            for _ in 0..12 {
                let c = *random.pick(&EDGES);
                let k = random.any_word() as i32 >> random.below(32);
                let got = proved::encode(number, a, b, c, k);
                let Some(&op) = OPS.get(number as usize) else {
                    same("encode number", (number, a, b, c, k), got, OUT_OF_RANGE);
                    seen[2] += 1;
                    continue;
                };
                same("encode number", (number, a, b, c, k), got, encoded(Instr { op, a, b, c, k }));
                seen[usize::from(got == OUT_OF_RANGE)] += 1;
            }
        }
    }
    seen
}

fn decodings(random: &mut Random) -> u64 {
    let mut count = 0;
    for h in 0..=0xffffu16 {
        for k in [0, 1, 0xe7ff, 0xe800, 0xf000, 0xf7ff, 0xf800, 0xf801, 0xfffe, 0xffff, 0x4770, 0xdf00] {
            count += decoding(h, k);
        }
        for _ in 0..12 {
            count += decoding(h, random.any_word() as u16);
        }
    }
    // every BL, and each first half with every second one around the edge
    for h in 0xf000..=0xf7ffu16 {
        for k in 0xf7f0..=0xffffu16 {
            count += decoding(h, k);
        }
    }
    count
}

/// A word that is often an address, or near an edge.
fn word(random: &mut Random, code: usize, memory: usize) -> u32 {
    let small = random.below(12) as u32;
    match random.below(12) {
        0 => small,
        1 => small.wrapping_neg(),
        2 => 0x8000_0000u32.wrapping_add(small).wrapping_sub(6),
        3 => random.below(code + 8) as u32,
        4..=6 => 0x2000_0000 + 4 * random.below(memory.min(64) + 2) as u32,
        7 => 0x2000_0000u32.wrapping_add(random.below(4 * memory.min(64) + 24) as u32).wrapping_sub(8),
        8 => 1 << random.below(32),
        9 => 256 * random.below(300) as u32 + small,
        10 => (0x2000_0000 + 4 * memory as u32).wrapping_sub(4 * small),
        _ => random.any_word(),
    }
}

pub fn state(random: &mut Random, code: usize, memory: usize) -> State {
    let pc = match random.below(24) {
        0 => random.any_word(),
        1 => (code as u32).wrapping_sub(random.below(6) as u32),
        2 => *random.pick(&[u32::MAX, u32::MAX - 1, u32::MAX - 2, u32::MAX - 3, 0x2000_0000, 0x1fff_fffe]),
        3 => random.below(code + 4) as u32,
        _ => random.below(code / 2 + 1) as u32 * 2,
    };
    let mut r = [0; 8];
    for x in &mut r {
        *x = word(random, code, memory);
    }
    let (sp, lr) = (word(random, code, memory), random.any_word());
    State { r, sp, lr, pc, flags: Flags::of(random.any_word()) }
}

/// An instruction whose fields are near each other's, and at times out of range.
pub fn instruction(random: &mut Random, op: Op) -> Instr {
    let layout = pattern(op).1;
    let reach = *random.pick(&[3, 8, 16, 40]);
    let bytes = *random.pick(&[4, 16, 256]);
    Instr {
        op,
        a: random.below(if matches!(layout, Layout::Imm5 | Layout::Count) { 33 } else { 8 }) as u8,
        b: random.below(if layout == Layout::Imm8 { bytes } else { 8 }) as u8,
        c: random.below(8) as u8,
        k: random.below(2 * reach) as i32 - reach as i32,
    }
}

/// Code of random halfwords, of instructions of each kind alike, or of bytes.
pub fn code(random: &mut Random, length: usize, kind: u64) -> Vec<u8> {
    let mut bytes = Vec::with_capacity(length + 4);
    while bytes.len() < length {
        let halves = match kind {
            0 => vec![random.any_word() as u16],
            _ => {
                let op = *random.pick(&OPS);
                assemble(instruction(random, op)).unwrap_or_default()
            }
        };
        bytes.extend(halves.into_iter().flat_map(u16::to_le_bytes));
    }
    bytes.truncate(length);
    bytes
}

/// The instruction at an address of code, if there is one.
pub fn at(code: &[u8], pc: u32) -> Option<Instr> {
    let half = |a: usize| code.get(a..a + 2).map(|b| u16::from_le_bytes([b[0], b[1]]));
    disassemble(half(pc as usize)?, half(pc as usize + 2).unwrap_or(0))
}

pub fn memory(random: &mut Random, length: usize) -> Vec<u32> {
    (0..length)
        .map(|_| if random.below(4) == 0 { random.any_word() } else { word(random, 40, length) })
        .collect()
}

/// Answers seen, by status: what the comparison reached.
struct Seen {
    steps: [u64; 36],
    runs: [u64; 36],
    starts: [u64; 36],
    run_instructions: u64,
    /// steps and runs that end at an instruction outside the list, by class
    classes: [u64; 14],
    /// completed steps, by instruction and combination of flags before it
    kinds: [[u64; 16]; 34],
}

impl Seen {
    fn none() -> Seen {
        let [steps, runs, starts] = [[0; 36]; 3];
        Seen { steps, runs, starts, run_instructions: 0, classes: [0; 14], kinds: [[0; 16]; 34] }
    }

    /// Of 26, `number` is the class.
    fn class(&mut self, status: u32, number: u32) {
        if status == 26 {
            self.classes[number as usize] += 1;
        }
    }
}

fn one_step(seen: &mut Seen, s: &State, code: &[u8], memory: &[u32]) {
    let (mut mine, mut theirs) = (s.clone(), s.clone());
    let (mut my_memory, mut their_memory) = (memory.to_vec(), memory.to_vec());
    let want = arm::step(&mut mine, code, &mut my_memory);
    let got = proved::step(&mut theirs, code, &mut their_memory);
    same("step", (s, code.len()), (got, theirs, &their_memory), (want, mine.clone(), &my_memory));
    if want.0 != 0 {
        same("kept", s, (mine, my_memory), (s.clone(), memory.to_vec()));
    }
    seen.steps[want.0 as usize] += 1;
    seen.class(want.0, want.1);
    if want.0 < 2 {
        let i = at(code, s.pc).unwrap();
        seen.kinds[OPS.iter().position(|&op| op == i.op).unwrap()][(s.flags.apsr() >> 28) as usize] += 1;
    }
}

fn one_run(seen: &mut Seen, s: &State, code: &[u8], memory: &[u32], limit: u64) {
    let (mut mine, mut theirs) = (s.clone(), s.clone());
    let (mut my_memory, mut their_memory) = (memory.to_vec(), memory.to_vec());
    let want = arm::run(&mut mine, code, &mut my_memory, limit);
    // a run that ends before its limit ends alike under any larger one
    let asked = if want.0 != 0 && want.2 < limit { u64::MAX } else { limit };
    let got = proved::run(&mut theirs, code, &mut their_memory, asked);
    // the yardstick of the benchmarks, too
    let (mut plain, mut plain_memory) = (s.clone(), memory.to_vec());
    let measured = plain::run(&mut plain, code, &mut plain_memory, limit);
    same("plain run", (s, limit), (measured, plain, plain_memory), (want, mine.clone(), my_memory.clone()));
    same("run", (s, limit), (got, theirs, their_memory), (want, mine, my_memory));
    seen.runs[want.0 as usize] += 1;
    seen.class(want.0, want.1);
    seen.run_instructions += want.2;
}

fn one_start(seen: &mut Seen, code: &[u8], memory: &[u32], d: u32, n: u32) {
    let want = arm::start(code, memory, d, n);
    same("start", (code.len(), memory.len(), d, n), proved::start(code, memory, d, n), want.clone());
    seen.starts[want.0 as usize] += 1;
}

fn steps(random: &mut Random, seen: &mut Seen) {
    for round in 0..60_000u64 {
        let length = match round % 16 {
            0 => *random.pick(&[0, 1, 2, 3, 4, 5]),
            1 => 7 + 2 * random.below(20),
            _ => 8 + 2 * random.below(28),
        };
        let words = if round % 12 == 0 { random.below(3) } else { random.below(40) };
        let code = code(random, length, round % 5);
        let memory = memory(random, words);
        for _ in 0..24 {
            let s = state(random, length, words);
            one_step(seen, &s, &code, &memory);
        }
    }
    // the limits of both lengths, and a few at random places
    for (length, words) in [
        (65534, 8),
        (65535, 8),
        (65536, 8),
        (65537, 8),
        (70_000, 16_385),
        (64, 16_383),
        (64, 16_384),
        (64, 16_385),
        (65_536, 16_384),
    ] {
        let code = code(random, length, 1);
        let memory = memory(random, words);
        for _ in 0..400 {
            let s = state(random, length, words);
            one_step(seen, &s, &code, &memory);
        }
        for limit in [0, 1, 50] {
            one_run(seen, &state(random, length, words), &code, &memory, limit);
        }
        for d in [0, 1, 8191, 8192, 8193, u32::MAX] {
            for n in [0, 1, 31, 32, 33, u32::MAX] {
                one_start(seen, &code, &memory, d, n);
            }
        }
    }
}

fn runs(random: &mut Random, seen: &mut Seen) {
    for round in 0..250_000u64 {
        let length = if round % 20 == 0 { random.below(6) } else { 4 + random.below(60) };
        let words = random.below(40);
        let code = code(random, length, round % 7);
        let memory = memory(random, words);
        let limit = *random.pick(&[0, 1, 2, 3, 10, 30, 100, 400]);
        let s = state(random, length, words);
        one_run(seen, &s, &code, &memory, limit);
    }
    // a countdown: SUBI r0,1; BNE back; SVC 7
    let code: Vec<u8> = [0x3801u16, 0xd1fd, 0xdf07].iter().flat_map(|h| h.to_le_bytes()).collect();
    for start in [1u32, 2, 1000, 1_000_000] {
        for limit in
            [0, 1, 2 * start as u64 - 1, 2 * start as u64, 2 * start as u64 + 1, 2 * start as u64 + 2]
        {
            let mut s = State::default();
            s.r[0] = start;
            one_run(seen, &s, &code, &[], limit);
        }
    }
}

fn starts(random: &mut Random, seen: &mut Seen) {
    for _ in 0..20_000 {
        let d = (*random.pick(&[0, 1, 2, 100, 8191, 8192, 8193, u32::MAX])).min(random.any_word());
        let n = (*random.pick(&[0, 1, 5, 31, 32, 33, u32::MAX])).min(random.any_word());
        let needed = (d as usize).min(9000) + 2 * (n as usize).min(40) + 8;
        let words = (needed + random.below(4)).saturating_sub(2);
        let memory = vec![7; words];
        one_start(seen, &[0; 3], &memory, d, n);
    }
}

#[test]
fn every_decoding() {
    print(&format!("decode: {} pairs of halfwords", decodings(&mut Random::new(1))));
}

#[test]
fn every_encoding() {
    print(&format!("encode: {} instructions", encodings(&mut Random::new(2))));
}

#[test]
fn every_number() {
    let [encoded, out_of_range, no_instruction] = numbered_encodings(&mut Random::new(6));
    assert!(encoded > 10_000 && out_of_range > 10_000 && no_instruction > 1_000_000);
    print(&format!(
        "encode by number: {encoded} encoded, {out_of_range} out of range, {no_instruction} of numbers 34 to 255"
    ));
}

#[test]
fn starts_steps_and_runs() {
    let mut seen = Seen::none();
    starts(&mut Random::new(3), &mut seen);
    steps(&mut Random::new(4), &mut seen);
    runs(&mut Random::new(5), &mut seen);
    let total = |counts: &[u64]| counts.iter().sum::<u64>();
    print(&format!("start: {} calls (by status {})", total(&seen.starts), by_status(&seen.starts)));
    print(&format!("step: {} calls (by status {})", total(&seen.steps), by_status(&seen.steps)));
    let fewest = seen.kinds.iter().flatten().min().unwrap();
    assert!(*fewest > 0, "every instruction from every combination of flags");
    print(&format!("step: fewest completed of one instruction from one combination of flags {fewest}"));
    let (runs, done) = (total(&seen.runs), seen.run_instructions);
    print(&format!("run: {runs} calls, {done} instructions (by status {})", by_status(&seen.runs)));
    assert!(MET.iter().all(|&class| seen.classes[class] > 0), "26 of every class");
    print(&format!("step and run: 26 by class {}", by_status(&seen.classes)));
}
