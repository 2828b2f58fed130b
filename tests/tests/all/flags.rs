//! The flags: every instruction from every combination of them, with words and shift counts at their edges; branches;
//! the other bits of the APSR; and that N and Z say of a result what document 01's one word for it said.

use crate::machine::{at, code, instruction, memory, same, state};
use crate::{by_status, print};
use reference::generate::{valid_source, Random};
use std::panic::catch_unwind;
use tests::arm::Op::{self, *};
use tests::arm::{self, assemble, pattern, Flags, Instr, Layout, State, OPS};
use tests::proved::{words, Words, APSR};
use tests::{needed_words, plain, proved, second, CODE_BYTES, TABLE_WORDS};

/// What memory holds before each instruction.
const MEMORY: [u32; 8] = [5, 0, 0x8000_0000, u32::MAX, 1, 0x7fff_ffff, 0x2000_0000, 3];

/// The registers with an instruction's operands, and the one that takes the result where there is a third.
const LEFT: u8 = 2;
const RIGHT: u8 = 1;
const RESULT: u8 = 3;

fn combinations() -> impl Iterator<Item = Flags> {
    (0..16).map(|flags| Flags::of(flags << 28))
}

/// The ends of the signed and the unsigned numbers, all powers of two, and some random words.
fn operands() -> Vec<u32> {
    let mut random = Random::new(41);
    let ends = [0, i32::MAX as u32, i32::MIN as u32 + 1, u32::MAX - 1, u32::MAX];
    let edges = ends.into_iter().chain((0..32).map(|place| 1 << place));
    edges.chain((0..11).map(|_| random.any_word())).collect()
}

/// An instruction with every immediate or short distance that it can have.
fn forms(op: Op) -> Vec<Instr> {
    let i = Instr { op, a: RIGHT, b: LEFT, c: RESULT, k: 0 };
    match pattern(op).1 {
        Layout::Imm5 => (0..32).map(|a| Instr { a, ..i }).collect(),
        Layout::Count => (1..=32).map(|a| Instr { a, ..i }).collect(),
        Layout::Imm7 => (0..128).map(|a| Instr { a, ..i }).collect(),
        Layout::Only8 => (0..=255).map(|a| Instr { a, ..i }).collect(),
        Layout::Imm8 => (0..=255).map(|b| Instr { a: LEFT, b, ..i }).collect(),
        Layout::Near => (-128..128).map(|k| Instr { k, ..i }).collect(),
        Layout::Regs2 | Layout::Regs3 | Layout::Jump | Layout::Call => vec![i],
    }
}

/// How many registers an instruction with this layout takes operands from.
fn registers(layout: Layout) -> usize {
    match layout {
        Layout::Regs2 | Layout::Regs3 => 2,
        Layout::Imm5 | Layout::Count | Layout::Imm8 => 1,
        Layout::Imm7 | Layout::Only8 | Layout::Near | Layout::Jump | Layout::Call => 0,
    }
}

/// Code that begins with an instruction; the words behind it, the last cut short, are for LDRPCI.
fn beginning_with(i: Instr) -> Vec<u8> {
    const LENGTH: usize = 30;
    let halves = assemble(i).expect("fields in range");
    let mut code: Vec<u8> = halves.into_iter().flat_map(u16::to_le_bytes).collect();
    code.resize(LENGTH, 0xa5);
    code
}

/// One instruction on a machine: status and number.
pub type Step<'m> = &'m dyn Fn(&mut State, &[u8], &mut [u32]) -> (u32, u32);

/// A machine's steps beside the second interpreter's, by status.
struct Comparison<'m> {
    machine: Step<'m>,
    statuses: [u64; 36],
}

impl Comparison<'_> {
    fn step(&mut self, code: &[u8], s: &State) {
        let (mut want, mut got) = (s.clone(), s.clone());
        let (mut want_memory, mut got_memory) = (MEMORY, MEMORY);
        let answer = arm::step(&mut want, code, &mut want_memory);
        let answered = (self.machine)(&mut got, code, &mut got_memory);
        same("step", (s, code), (answered, got, got_memory), (answer, want, want_memory));
        self.statuses[answer.0 as usize] += 1;
    }

    /// With these words in the operands' registers, from every combination of flags.
    fn first_instruction(&mut self, code: &[u8], left: u32, right: u32) {
        let mut s = State { sp: arm::DATA, ..State::default() };
        (s.r[LEFT as usize], s.r[RIGHT as usize]) = (left, right);
        for flags in combinations() {
            s.flags = flags;
            self.step(code, &s);
        }
    }

    /// Every instruction, with words at their edges in its registers.
    fn edges(&mut self) {
        let operands = operands();
        for op in OPS {
            let (lefts, rights) = match registers(pattern(op).1) {
                2 => (&operands[..], &operands[..]),
                1 => (&operands[..], &operands[..1]),
                _ => (&operands[..1], &operands[..1]),
            };
            for code in forms(op).into_iter().map(beginning_with) {
                for left in lefts {
                    rights.iter().for_each(|right| self.first_instruction(&code, *left, *right));
                }
            }
        }
    }

    /// Every count in a register's low byte, nothing or rubbish above it.
    fn shifts_by_registers(&mut self) {
        let (operands, mut random) = (operands(), Random::new(42));
        for op in [Shl, Shr] {
            let code = beginning_with(Instr { op, a: RIGHT, b: LEFT, c: 0, k: 0 });
            for count in 0..=255 {
                for left in &operands {
                    self.first_instruction(&code, *left, count);
                    self.first_instruction(&code, *left, count | random.any_word() << 8);
                }
            }
        }
    }

    /// Every instruction with random fields, at random places among others, from random states.
    fn random(&mut self) {
        const ROUNDS: usize = 12_000;
        const LENGTH: usize = 40;
        let mut random = Random::new(43);
        let mut code = code(&mut random, LENGTH, 1);
        for (op, _) in OPS.into_iter().flat_map(|op| (0..ROUNDS).map(move |round| (op, round))) {
            let Some(halves) = assemble(instruction(&mut random, op)) else { continue };
            let mut s = state(&mut random, LENGTH, MEMORY.len());
            s.pc = 2 * random.below(LENGTH / 2 - 1) as u32;
            let bytes = halves.into_iter().flat_map(u16::to_le_bytes);
            code[s.pc as usize..].iter_mut().zip(bytes).for_each(|(place, byte)| *place = byte);
            self.step(&code, &s);
        }
    }

    fn whole(machine: Step) -> [u64; 36] {
        let mut comparison = Comparison { machine, statuses: [0; 36] };
        comparison.random();
        comparison.edges();
        comparison.shifts_by_registers();
        comparison.statuses
    }
}

pub type Run = fn(&mut State, &[u8], &mut [u32], u64) -> (u32, u32, u64);

/// A run of one instruction as a step: it counts what completes, an SVC too.
pub fn run_of_one(run: Run, s: &mut State, code: &[u8], memory: &mut [u32]) -> (u32, u32) {
    let (status, number, count) = run(s, code, memory, 1);
    assert_eq!(count, u64::from(status <= 1));
    (status, number)
}

const MACHINES: [(&str, Step); 3] = [
    ("proved step", &proved::step),
    ("proved run", &|s, code, memory| run_of_one(proved::run, s, code, memory)),
    ("plain run", &|s, code, memory| run_of_one(plain::run, s, code, memory)),
];

#[test]
fn every_instruction_from_every_flag() {
    for (name, machine) in MACHINES {
        let statuses = Comparison::whole(machine);
        let total: u64 = statuses.iter().sum();
        assert!(total >= 2_000_000);
        print(&format!("flags: {name}, {total} instructions (by status {})", by_status(&statuses)));
    }
}

// ── wrong machines ──

/// What a wrong machine makes of the state after an instruction, from the state before.
type Wrong = fn(Instr, &State, &mut State);

/// The count of a shift.
fn count(i: Instr, before: &State) -> Option<u32> {
    match i.op {
        Shli | Shri | Ashri => Some(i.a as u32),
        Shl | Shr => Some(before.r[i.a as usize] & 255),
        _ => None,
    }
}

/// A branch that jumps by another test.
fn branches(op: Op, jumps: bool, i: Instr, before: &State, after: &mut State) {
    if i.op == op {
        let far = if jumps { 4 + 2 * i.k } else { 2 };
        after.pc = before.pc.wrapping_add(far as u32);
    }
}

/// N and Z by a register whose word is no result.
fn sets_n_and_z(register: u8, s: &mut State) {
    let word = s.r[register as usize];
    (s.flags.n, s.flags.z) = ((word as i32) < 0, word == 0);
}

const NONE: Flags = Flags { n: false, z: false, c: false, v: false };

#[rustfmt::skip] // a line each
const WRONG: [(&str, Wrong); 22] = [
    ("BEQ by N or Z", |i, s, after| branches(Beq, s.flags.n || s.flags.z, i, s, after)),
    ("BNE by N", |i, s, after| branches(Bne, s.flags.n, i, s, after)),
    ("BLT by N alone", |i, s, after| branches(Blt, s.flags.n, i, s, after)),
    ("BGE by C", |i, s, after| branches(Bge, s.flags.c, i, s, after)),
    ("SUBR: C is a borrow", |i, _, after| if i.op == Subr { after.flags.c = !after.flags.c }),
    ("SUBI of 0: no C", |i, _, after| if i.op == Subi && i.b == 0 { after.flags.c = false }),
    ("ADDI of 0: leaves C", |i, s, after| if i.op == Addi && i.b == 0 { after.flags.c = s.flags.c }),
    ("ADDR: leaves V", |i, s, after| if i.op == Addr { after.flags.v = s.flags.v }),
    ("NEGR of 0: no C", |i, _, after| if i.op == Negr { after.flags.c = false }),
    ("NEGR: no V", |i, _, after| if i.op == Negr { after.flags.v = false }),
    ("a shift by nothing clears C", |i, s, after| if count(i, s) == Some(0) { after.flags.c = false }),
    ("a shift by 32 clears C", |i, s, after| if count(i, s) == Some(32) { after.flags.c = false }),
    ("a shift above 32 leaves C", |i, s, after| if count(i, s) > Some(32) { after.flags.c = s.flags.c }),
    ("a shift clears V", |i, s, after| if count(i, s).is_some() { after.flags.v = false }),
    ("MOVI clears C", |i, _, after| if i.op == Movi { after.flags.c = false }),
    ("MOVI leaves N", |i, s, after| if i.op == Movi { after.flags.n = s.flags.n }),
    ("MUL sets C", |i, _, after| if i.op == Mul { after.flags.c = true }),
    ("ADDPCI sets N and Z", |i, _, after| if i.op == Addpci { sets_n_and_z(i.a, after) }),
    ("LDRI sets N and Z", |i, _, after| if i.op == Ldri { sets_n_and_z(i.c, after) }),
    ("DECSP sets Z", |i, _, after| if i.op == Decsp { after.flags.z = after.sp == 0 }),
    ("SVC clears flags", |i, _, after| if i.op == Svc { after.flags = NONE }),
    ("a fault of STR clears flags", |i, s, after| if i.op == Str && after.pc == s.pc { after.flags = NONE }),
];

/// The comparison itself: machines that are wrong in one place don't pass it.
#[test]
fn wrong_flags_are_noticed() {
    for (name, wrong) in WRONG {
        let compared = catch_unwind(|| {
            Comparison::whole(&|s, code, memory| {
                let before = s.clone();
                let answer = arm::step(s, code, memory);
                wrong(at(code, before.pc).expect("an instruction"), &before, s);
                answer
            })
        });
        assert!(compared.is_err(), "{name}");
    }
}

// ── branches ──

#[test]
fn branches_go_by_flags() {
    let mut count = 0;
    for (flags, distance) in combinations().flat_map(|flags| (0..=255u8).map(move |byte| (flags, byte))) {
        let Flags { n, z, v, .. } = flags;
        for (high, jumps) in [(0xd0, z), (0xd1, !z), (0xda, n == v), (0xdb, n != v)] {
            let far = if jumps { 4 + 2 * (distance as i8 as i32) } else { 2 };
            for (name, machine) in MACHINES {
                let mut s = State { flags, ..State::default() };
                let answer = machine(&mut s, &[distance, high], &mut []);
                let want = State { pc: far as u32, flags, ..State::default() };
                same(name, (flags, high, distance), (answer, s), ((0, 0), want));
                count += 1;
            }
        }
    }
    print(&format!("flags: {count} branches"));
}

/// Where a branch that is the first instruction after a start leads to; all flags are 0 there.
fn after_start(start: impl Fn(&[u8], &[u32]) -> (u32, State), high: u8) -> u32 {
    let (code, mut memory) = ([0, high], [0; 8]);
    let (status, mut s) = start(&code, &memory);
    assert_eq!((status, proved::step(&mut s, &code, &mut memory)), (0, (0, 0)));
    s.pc
}

#[test]
fn a_branch_first() {
    let start = |code: &[u8], memory: &[u32]| proved::start(code, memory, 0, 0);
    assert_eq!([0xd0, 0xd1, 0xda, 0xdb].map(|high| after_start(start, high)), [2, 4, 4, 2]);
    let refused = proved::start(&[0, 0xd0], &[0; 7], 0, 0);
    assert_eq!(refused, (33, State::default()));
    // Z as document 01's machine began
    let wrong = |code: &[u8], memory: &[u32]| {
        let (status, mut s) = start(code, memory);
        s.flags.z = true;
        (status, s)
    };
    assert_eq!(after_start(wrong, 0xd0), 4, "a wrong start is noticed");
    print("flags: 0 at start, by each branch as first instruction");
}

// ── the other bits of the APSR ──

type RunWords = fn(&mut Words, &[u8], &mut [u32], u64) -> (u32, u32, u64);

/// A step as a run of one instruction.
fn step_words(w: &mut Words, code: &[u8], memory: &mut [u32], _: u64) -> (u32, u32, u64) {
    let (status, number) = proved::step_words(w, code, memory);
    (status, number, u64::from(status <= 1))
}

/// Calls by status: those in which no instruction completed, and the others. An SVC doesn't count as one here.
struct OtherBits {
    none: [u64; 36],
    some: [u64; 36],
}

impl OtherBits {
    /// A call with rubbish beside the flags: the machine doesn't see it, and hands it back only if nothing completed.
    fn call(&mut self, run: RunWords, s: &State, rubbish: u32, lent: (&[u8], &[u32]), limit: u64) {
        let (code, memory) = lent;
        let (mut after, mut want_memory) = (s.clone(), memory.to_vec());
        let answer = arm::run(&mut after, code, &mut want_memory, limit);
        let (status, _, count) = answer;
        let completed = count > u64::from(status == 1);
        let mut want = words(&after);
        want[APSR] |= if completed { 0 } else { rubbish };
        let (mut got, mut got_memory) = (words(s), memory.to_vec());
        got[APSR] |= rubbish;
        let answered = run(&mut got, code, &mut got_memory, limit);
        same("words", (s, limit), (answered, got, got_memory), (answer, want, want_memory));
        let calls = if completed { &mut self.some } else { &mut self.none };
        calls[status as usize] += 1;
    }

    fn whole(step: RunWords, run: RunWords, rounds: usize) -> OtherBits {
        let (mut seen, mut random) = (OtherBits { none: [0; 36], some: [0; 36] }, Random::new(44));
        let (long_code, long_memory) = (vec![0; arm::CODE_LIMIT + 1], vec![0; arm::MEMORY_LIMIT + 1]);
        for round in 0..rounds {
            let lengths = (4 + random.below(40), random.below(20));
            let kind = round as u64 % 4;
            let (code, memory) = (code(&mut random, lengths.0, kind), memory(&mut random, lengths.1));
            let s = state(&mut random, lengths.0, lengths.1);
            let word = random.any_word();
            let rubbish = *random.pick(&[1, 1 << 27, u32::MAX, word]) & !Flags::BITS;
            let lent = match round % 200 {
                0 => (&long_code[..], &memory[..]),
                1 => (&code[..], &long_memory[..]),
                _ => (&code[..], &memory[..]),
            };
            seen.call(step, &s, rubbish, lent, 1);
            for limit in [0, 1, 2, 5, 40] {
                seen.call(run, &s, rubbish, lent, limit);
            }
        }
        seen
    }
}

#[test]
fn other_bits_of_the_apsr() {
    let OtherBits { none, some } = OtherBits::whole(step_words, proved::run_words, 50_000);
    // a limit of 0, or an instruction that completed; SVC; faults; refusals
    assert!([0, 1, 21, 22, 23, 24, 26, 31, 32].iter().all(|status| none[*status] > 0));
    assert!([0, 1, 21, 22, 23, 24, 26].iter().all(|status| some[*status] > 0));
    print(&format!(
        "flags: other bits as they came {} (by status {}), 0 {} (by status {})",
        none.iter().sum::<u64>(),
        by_status(&none),
        some.iter().sum::<u64>(),
        by_status(&some)
    ));
}

/// The boundary's rule over the plain interpreter.
fn plain_words(w: &mut Words, code: &[u8], memory: &mut [u32], limit: u64) -> (u32, u32, u64) {
    let [r @ .., sp, lr, pc, apsr] = *w;
    let mut s = State { r, sp, lr, pc, flags: Flags::of(apsr) };
    let answer = plain::run(&mut s, code, memory, limit);
    let completed = answer.2 > u64::from(answer.0 == 1);
    *w = words(&s);
    w[APSR] |= if completed { 0 } else { apsr };
    answer
}

/// The comparison itself: the plain interpreter passes it; one that always clears the bits, never does, counts an SVC
/// as completed or takes one of them for Z doesn't.
#[test]
fn wrong_other_bits_are_noticed() {
    let clears: RunWords = |w, code, memory, limit| {
        let answer = plain_words(w, code, memory, limit);
        w[APSR] &= Flags::BITS;
        answer
    };
    let keeps: RunWords = |w, code, memory, limit| {
        let rubbish = w[APSR] & !Flags::BITS;
        let answer = plain_words(w, code, memory, limit);
        w[APSR] |= rubbish;
        answer
    };
    let counts: RunWords = |w, code, memory, limit| {
        let answer = plain_words(w, code, memory, limit);
        w[APSR] &= if answer.2 > 0 { Flags::BITS } else { u32::MAX };
        answer
    };
    let takes: RunWords = |w, code, memory, limit| {
        w[APSR] |= (w[APSR] >> 27 & 1) << 30;
        plain_words(w, code, memory, limit)
    };
    let passes = |run: RunWords| catch_unwind(|| OtherBits::whole(run, run, 1_000)).is_ok();
    assert!(passes(plain_words));
    for wrong in [clears, keeps, counts, takes] {
        assert!(!passes(wrong));
    }
}

// ── document 01's one word for the last result ──

/// It took "the result of shifts, ADDR, SUBR, MOVI, ADDI, SUBI, ANDR, ORR, XORR, NEGR, MVNR, MUL".
const RESULTS: [Op; 16] =
    [Shli, Shri, Ashri, Shl, Shr, Addr, Subr, Movi, Addi, Subi, Andr, Orr, Xorr, Negr, Mvnr, Mul];

/// The register that takes an instruction's result.
fn result_register(i: Instr) -> usize {
    let register = match pattern(i.op).1 {
        Layout::Imm8 => i.a,
        Layout::Regs2 => i.b,
        _ => i.c,
    };
    register as usize
}

/// The last result beside the proved machine's steps.
#[derive(Default)]
struct LastResult {
    results: u64,
    /// BEQ and BNE behind a result
    tests: u64,
    /// other branches with a condition, which may go another way than in document 01
    others: u64,
}

impl LastResult {
    /// Up to so many steps. Once there is a result, N and Z are its sign and zeroness, and BEQ and BNE go by it.
    fn follow(&mut self, s: &mut State, code: &[u8], memory: &mut [u32], steps: usize) {
        let (begun, mut last) = (s.flags, None);
        for _ in 0..steps {
            let (pc, i) = (s.pc, at(code, s.pc));
            if proved::step(s, code, memory).0 != 0 {
                return;
            }
            let i = i.expect("an instruction");
            if RESULTS.contains(&i.op) {
                last = Some(s.r[result_register(i)]);
                self.results += 1;
            }
            match last {
                Some(word) => assert_eq!((s.flags.n, s.flags.z), ((word as i32) < 0, word == 0), "{i:?}"),
                None => assert_eq!(s.flags, begun, "{i:?}"),
            }
            self.branch(i, s.pc.wrapping_sub(pc), last);
        }
    }

    fn branch(&mut self, i: Instr, moved: u32, last: Option<u32>) {
        let jumps = match (i.op, last) {
            (Beq, Some(word)) => word == 0,
            (Bne, Some(word)) => word != 0,
            (Beq | Bne | Bge | Blt, _) => return self.others += 1,
            _ => return,
        };
        assert_eq!(moved as i32, if jumps { 4 + 2 * i.k } else { 2 }, "{i:?} after {last:?}");
        self.tests += 1;
    }
}

#[test]
fn flags_tell_the_last_result() {
    let (mut random, mut seen) = (Random::new(45), LastResult::default());
    for _ in 0..50_000 {
        let lengths = (4 + random.below(60), random.below(40));
        let (code, mut memory) = (code(&mut random, lengths.0, 1), memory(&mut random, lengths.1));
        let mut s = state(&mut random, lengths.0, lengths.1);
        seen.follow(&mut s, &code, &mut memory, 100);
    }
    let LastResult { results, tests, others } = seen;
    assert!(results > 50_000 && tests > 10_000 && others > 10_000);
    print(&format!("flags: {results} results in random runs, {tests} BEQ and BNE behind one"));
}

/// An image has no other branches with a condition, so each goes where document 01's machine went.
#[test]
fn images_run_as_before() {
    const PROGRAMS: usize = 3_000;
    let (mut random, mut seen) = (Random::new(46), LastResult::default());
    for _ in 0..PROGRAMS {
        let (mut table, mut code) = (vec![0; TABLE_WORDS], vec![0; CODE_BYTES]);
        let got = second::translate(&valid_source(&mut random), &mut table, &mut code);
        assert_eq!(got.status, 0);
        let image = &code[..got.code as usize];
        let mut memory: Vec<u32> = (0..needed_words(got.data, got.depth)).map(|_| random.word()).collect();
        let (_, mut s) = proved::start(image, &memory, got.data, got.depth);
        seen.follow(&mut s, image, &mut memory, 500);
    }
    let LastResult { results, tests, others } = seen;
    assert!(tests > 10_000);
    assert_eq!(others, 0, "branches that don't test a result for 0");
    print(&format!("flags: {results} results in {PROGRAMS} images, {tests} BEQ and BNE behind one"));
}
