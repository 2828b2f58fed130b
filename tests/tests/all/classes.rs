//! Halfwords outside the list: what a step answers at them, against the second classification.

use crate::flags::{run_of_one, Step};
use crate::machine::{same, state};
use crate::{by_status, print};
use reference::generate::Random;
use std::collections::BTreeSet;
use std::panic::catch_unwind;
use std::sync::OnceLock;
use tests::arm::{self, disassemble, Op, State};
use tests::{classes, plain, proved};

mod page;

/// What stands at the beginning of code.
#[derive(Clone, Copy, Debug, PartialEq, Eq)]
enum Answer {
    /// an instruction of the list
    Ours(Op),
    /// status and number of a fault, whatever registers and memory hold
    Fault(u32, u32),
}
use Answer::*;

/// 21 for want of a second half, 22 and 26.
const OUTSIDE: Answer = Fault(21, 0);
const UNDEFINED: Answer = Fault(22, 0);
const UNSUPPORTED: u32 = 26;

/// The first two halfwords of code.
fn halves(code: &[u8]) -> [Option<u16>; 2] {
    [0, 2].map(|at| code.get(at..at + 2).map(|pair| u16::from_le_bytes([pair[0], pair[1]])))
}

fn is_long(first: u16) -> bool {
    first >> 11 == 0b11110
}

fn both(first: u16, second: u16) -> [u8; 4] {
    let ([a, b], [c, d]) = (first.to_le_bytes(), second.to_le_bytes());
    [a, b, c, d]
}

/// By the second disassembler and the second classification.
fn by_the_manual(code: &[u8]) -> Answer {
    let (first, second) = match halves(code) {
        [None, _] => return OUTSIDE,
        [Some(first), None] if is_long(first) => return OUTSIDE,
        [Some(first), second] => (first, second.unwrap_or(0)),
    };
    let (status, number) = classes::fault(first, second);
    disassemble(first, second).map_or(Fault(status, number), |i| Ours(i.op))
}

/// What memory holds before each step.
const MEMORY: [u32; 8] = [5, 0, 0x8000_0000, u32::MAX, 1, 0x7fff_ffff, 0x2000_0000, 3];

/// Status and number of a step. After a fault all is as it was.
fn stepped(step: Step, s: &State, code: &[u8]) -> (u32, u32) {
    let (mut after, mut memory) = (s.clone(), MEMORY);
    let answer = step(&mut after, code, &mut memory);
    if answer.0 > 1 {
        same("kept", (s, code), (&after, memory), (s, MEMORY));
    }
    answer
}

/// By a machine's step: the fault, or what the proved decode says is there.
fn by_a_step(step: Step, s: &State, code: &[u8]) -> Answer {
    let (status, number) = stepped(step, s, code);
    let [first, second] = halves(code);
    let decoded = proved::decode(first.expect("a halfword"), second.unwrap_or(0));
    match (status, decoded) {
        (0 | 1 | 23 | 24, Some(i)) => Ours(i.op),
        (22 | 26, Some(i)) => panic!("{status}, {number} at {i:?}"),
        _ => Fault(status, number),
    }
}

/// The proved machine and the second ones.
const PROVED: [(&str, Step); 2] = [
    ("proved step", &proved::step),
    ("proved run", &|s, code, memory| run_of_one(proved::run, s, code, memory)),
];
const SECOND: [(&str, Step); 3] = [
    ("second step", &arm::step),
    ("second run", &|s, code, memory| run_of_one(arm::run, s, code, memory)),
    ("plain run", &|s, code, memory| run_of_one(plain::run, s, code, memory)),
];

/// How often each answer came.
#[derive(Default, Debug, PartialEq, Eq)]
struct Counts {
    ours: u64,
    outside: u64,
    undefined: u64,
    /// 26 by class
    classes: [u64; 14],
}

impl Counts {
    fn add(&mut self, answer: Answer) {
        let place = match answer {
            Ours(_) => &mut self.ours,
            OUTSIDE => &mut self.outside,
            UNDEFINED => &mut self.undefined,
            Fault(UNSUPPORTED, class) => &mut self.classes[class as usize],
            Fault(..) => panic!("{answer:?}"),
        };
        *place += 1;
    }

    fn told(&self) -> String {
        let Counts { ours, outside, undefined, classes } = self;
        let unsupported: u64 = classes.iter().sum();
        let classes = by_status(classes);
        format!("{ours} ours, {outside} 21, {undefined} 22, {unsupported} 26 (by class {classes})")
    }
}

/// Every first halfword alone.
const FIRST_HALVES: Counts = Counts {
    ours: 32_768,
    outside: 2_048,
    undefined: 6_786,
    classes: [0, 3_072, 512, 702, 0, 11_264, 0, 0, 1_744, 2_040, 2_040, 2_560, 0, 0],
};

/// The classes that an answer can have: the lines of the others are in the list whole.
pub const MET: [usize; 9] = [1, 2, 3, 5, 8, 9, 10, 11, 13];

/// Second halves at the edges of all that the manual tells apart, for any first half.
const SECONDS: [u16; 6] = [0x0000, 0x8000, 0x8f4f, 0xd000, 0xf800, 0xffff];

/// First halves that are tried with every second half: MRS, barriers, MSR, each with a bit changed that should be
/// otherwise too; UDF; the ends.
fn tried_with_all() -> Vec<u16> {
    let others = [0xf000, 0xf39f, 0xf3af, 0xf3be, 0xf3cf, 0xf3e0, 0xf3ee, 0xf3ff, 0xf400, 0xf7f0, 0xf7ff];
    [0xf3ef, 0xf3bf].into_iter().chain(0xf380..=0xf39e).chain(others).collect()
}

/// Second halves for each first half that needs one: the ends of every sixteenth, all that MRS and MSR tell apart, the
/// barriers' edges, and random ones.
fn second_halves(random: &mut Random) -> Vec<u16> {
    let ends = (0..16u16).flat_map(|high| [0x000, 0x7ff, 0x800, 0xfff].map(|low| high << 12 | low));
    let special =
        (0..22).chain([0x84, 0xff]).flat_map(|number| [0x8800, 0x8000, 0xa800].map(|top| top | number));
    let barriers = [0x8f3f, 0x8f40, 0x8f4f, 0x8f50, 0x8f5f, 0x8f60, 0x8f6f, 0x8f70, 0xaf4f, 0x8e4f];
    let mut seconds: Vec<u16> = ends.chain(special).chain(barriers).collect();
    seconds.extend((0..48).map(|_| random.any_word() as u16));
    seconds.extend((0..48).map(|_| 0x8000 | random.any_word() as u16 & 0x2fff));
    seconds
}

/// Pairs of halfwords: each first one with a few others, those that need a second one with many, some with all.
fn pairs() -> &'static [(u16, u16)] {
    static PAIRS: OnceLock<Vec<(u16, u16)>> = OnceLock::new();
    PAIRS.get_or_init(|| {
        let mut random = Random::new(51);
        let mut pairs = Vec::new();
        for first in 0..=u16::MAX {
            let seconds = if is_long(first) { second_halves(&mut random) } else { SECONDS.to_vec() };
            pairs.extend(seconds.into_iter().map(|second| (first, second)));
        }
        for first in tried_with_all() {
            pairs.extend((0..=u16::MAX).map(|second| (first, second)));
        }
        pairs
    })
}

/// States at the beginning of code, their words random: only halfwords may decide.
fn states() -> Vec<State> {
    let mut random = Random::new(52);
    (0..61).map(|_| State { pc: 0, ..state(&mut random, 4, MEMORY.len()) }).collect()
}

/// A machine's answers to codes are those of the second classification.
fn compare<const N: usize>(step: Step, codes: impl Iterator<Item = [u8; N]>) -> Counts {
    let states = states();
    let mut counts = Counts::default();
    for (code, s) in codes.zip(states.iter().cycle()) {
        let want = by_the_manual(&code);
        let got = by_a_step(step, s, &code);
        if got != want {
            panic!("{:x?}: got {got:?}, want {want:?}", halves(&code));
        }
        counts.add(want);
    }
    counts
}

/// Each first halfword alone, and pairs.
fn whole(step: Step) -> [Counts; 2] {
    let firsts = compare(step, (0..=u16::MAX).map(u16::to_le_bytes));
    assert_eq!(firsts, FIRST_HALVES);
    let seconds = compare(step, pairs().iter().map(|&(first, second)| both(first, second)));
    assert!((0..14).all(|class| (seconds.classes[class] > 0) == MET.contains(&class)));
    [firsts, seconds]
}

fn every_halfword(machines: &[(&str, Step)]) {
    assert!(pairs().len() >= 500_000);
    for (name, machine) in machines {
        let [firsts, seconds] = whole(machine).map(|counts| counts.told());
        print(&format!("classes: {name}, every first halfword alone: {firsts}"));
        print(&format!("classes: {name}, {} pairs of halfwords: {seconds}", pairs().len()));
    }
}

#[test]
fn every_halfword_on_the_proved_machine() {
    every_halfword(&PROVED);
}

#[test]
fn every_halfword_on_the_second_machines() {
    every_halfword(&SECOND);
}

// ── the second classification itself ──

/// Every instruction of the list is a good one of Armv6-M, and each of the manual's encodings is met: none stands
/// behind another one that takes all its halfwords.
#[test]
fn the_second_classification_is_whole() {
    let firsts = (0..=u16::MAX).map(|first| (first, 0));
    let mut met = BTreeSet::new();
    for (first, second) in firsts.chain(pairs().iter().copied()) {
        let ours = disassemble(first, second).is_some();
        assert!(!ours || classes::classify(first, second) == Some(classes::class(first)), "{first:04x}");
        met.extend(classes::name(first, second));
    }
    let names: Vec<&str> = classes::names().collect();
    assert_eq!(met, names.iter().copied().collect());
    assert_eq!(met.len(), names.len(), "a name stands twice");
    print(&format!("classes: {} encodings of Armv6-M, each met", names.len()));
}

// ── the order of faults ──

/// At the end of code nothing is read behind a first half that is undefined; an odd pc, and one behind the code, come
/// before all.
fn order_of_faults(step: Step) -> u64 {
    let mut count = 0;
    let mut is = |code: &[u8], pc, want: (u32, u32)| {
        let s = State { pc, ..State::default() };
        same("order", (code, pc), stepped(step, &s, code), want);
        count += 1;
    };
    for first in 0..=u16::MAX {
        let [a, b] = first.to_le_bytes();
        let code = [a, b, a, b, 0xff];
        match first >> 11 {
            0b11101 | 0b11111 => [2, 3].into_iter().for_each(|end| is(&code[..end], 0, (22, 0))),
            0b11110 => [2, 3].into_iter().for_each(|end| is(&code[..end], 0, (21, 0))),
            _ => {}
        }
        if let Fault(status, number) = by_the_manual(&[a, b]) {
            is(&code[..4], 2, (status, number));
            is(&code, 2, (status, number));
        }
        [1, 3, 4].into_iter().for_each(|pc| is(&code[..4], pc, (21, 0)));
    }
    count
}

#[test]
fn faults_come_in_order() {
    for (name, machine) in SECOND.into_iter().chain(PROVED) {
        let count = order_of_faults(machine);
        print(&format!("classes: {name}, {count} steps at the end of code, odd and behind it"));
    }
}

// ── wrong classifications ──

/// What a wrong machine answers at a first half, and a second one if there is one, in place of the right answer.
type Wrong = fn(u16, Option<u16>, (u32, u32)) -> (u32, u32);

/// The right answer, or another where it is wrong.
fn unless(wrong: bool, answer: (u32, u32), right: (u32, u32)) -> (u32, u32) {
    if wrong {
        answer
    } else {
        right
    }
}

#[rustfmt::skip] // a line each
const WRONG: [(&str, Wrong); 30] = [
    ("UDF is good", |h, _, right| unless(h >> 8 == 0xde, (26, 11), right)),
    ("UDF of 32 bits is good", |h, k, right| unless(h >> 4 == 0xf7f && k == Some(0xa000), (26, 13), right)),
    ("CBZ and CBNZ are good", |h, _, right| unless(h & 0xf500 == 0xb100, (26, 8), right)),
    ("IT is good", |h, _, right| unless(h >> 8 == 0xbf && h & 15 != 0, (26, 8), right)),
    ("SETEND is good", |h, _, right| unless(h == 0xb650, (26, 8), right)),
    ("HLT is good", |h, _, right| unless(h >> 6 == 0x2ea, (26, 8), right)),
    ("PUSH of nothing is good", |h, _, right| unless(h == 0xb400, (26, 8), right)),
    ("LDM of nothing is good", |h, _, right| unless(h == 0xc800, (26, 10), right)),
    ("CPS with another bit is good", |h, _, right| unless(h == 0xb660, (26, 8), right)),
    ("BX with another bit is good", |h, _, right| unless(h == 0x4701, (26, 3), right)),
    ("BLX of pc is good", |h, _, right| unless(h == 0x47f8, (26, 3), right)),
    ("ADD of pc and pc is good", |h, _, right| unless(h == 0x44ff, (26, 3), right)),
    ("CMP of two low registers is good", |h, _, right| unless(h == 0x4500, (26, 3), right)),
    ("a hint that is not allocated is undefined", |h, _, right| unless(h == 0xbf50, (22, 0), right)),
    ("STM of its base is unpredictable", |h, _, right| unless(h == 0xc103, (22, 0), right)),
    ("MOV into pc is unpredictable", |h, _, right| unless(h == 0x4687, (22, 0), right)),
    ("BKPT is undefined", |h, _, right| unless(h >> 8 == 0xbe, (22, 0), right)),
    ("stores of bytes are of class 6", |h, _, right| unless(h >> 11 == 14, (26, 6), right)),
    ("loads and stores are three lines", |_, _, right| unless(right.0 == 26 && right.1 > 5, (26, right.1 + 2), right)),
    ("22 has a class", |h, _, right| unless(right.0 == 22, (22, classes::class(h)), right)),
    ("26 has none", |_, _, right| unless(right.0 == 26, (26, 0), right)),
    ("SUBI is outside the list", |h, _, right| unless(h >> 11 == 7, (26, 1), right)),
    ("E800 needs a second half", |h, k, right| unless(h >> 11 == 29 && k.is_none(), (21, 0), right)),
    ("F000 needs no second half", |h, k, right| unless(is_long(h) && k.is_none(), (22, 0), right)),
    ("a far BL is undefined", |h, k, right| unless(is_long(h) && k.is_some_and(|k| k >> 12 == 13), (22, 0), right)),
    ("MRS into sp is good", |h, k, right| unless(h == 0xf3ef && k == Some(0x8d00), (26, 13), right)),
    ("MSR into no register is good", |h, k, right| unless(h == 0xf380 && k == Some(0x8804), (26, 13), right)),
    ("MSR into CONTROL is unpredictable", |h, k, right| unless(h == 0xf380 && k == Some(0x8814), (22, 0), right)),
    ("DSB has one option", |h, k, right| unless(h == 0xf3bf && k == Some(0x8f40), (22, 0), right)),
    ("DSB with another bit is good", |h, k, right| unless(h == 0xf3be && k == Some(0x8f4f), (26, 13), right)),
];

/// What a machine that answers rightly changes, by the status.
type Change = fn(&mut State, &mut [u32], u32);

const CHANGES: [(&str, Change); 3] = [
    ("26 goes on", |s, _, status| s.pc += if status == 26 { 2 } else { 0 }),
    ("22 clears Z", |s, _, status| s.flags.z &= status != 22),
    ("26 stores", |_, memory, status| memory[0] += u32::from(status == 26)),
];

/// The comparison itself: machines that are wrong in one place don't pass it.
#[test]
fn wrong_classifications_are_noticed() {
    for (name, wrong) in WRONG {
        let compared = catch_unwind(|| {
            whole(&|s, code, memory| {
                let right = arm::step(s, code, memory);
                let [first, second] = halves(code);
                wrong(first.expect("a halfword"), second, right)
            })
        });
        assert!(compared.is_err(), "{name}");
    }
    for (name, change) in CHANGES {
        let compared = catch_unwind(|| {
            whole(&|s, code, memory| {
                let answer = arm::step(s, code, memory);
                change(s, memory, answer.0);
                answer
            })
        });
        assert!(compared.is_err(), "{name}");
    }
}
