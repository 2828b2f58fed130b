//! Old words in the stack don't matter: the image of one source, started over two memories that agree in the
//! declared words alone, answers the same calls alike.

use crate::calls::{calls, translated, Answer, Arrays, Call, Machines};
use crate::runs::{accepted_edges, generated, replaced, Seen, Shown};
use reference::front::{accept, Accepted};
use reference::generate::{starting_words, Random};
use std::panic::{catch_unwind, UnwindSafe};
use tests::arm::{Touch, MEMORY_LIMIT};
use tests::{needed_words, proved, second, Translation, Translator, CODE_BYTES, TABLE_WORDS};

/// Most memories have fewer words than this past the needed ones.
const FEW: usize = 40;
/// One pair in so many is exactly the needed words beside all that a memory may have,
const ONE_IN_LENGTHS: usize = 8;
/// in so many, zeros beside ones;
const ONE_IN_WORDS: usize = 6;
/// of the other memories, one in so many has as many words as it may, and one any number.
const ONE_IN_LONG: usize = 12;

/// The lengths of two memories, never the same.
fn lengths(random: &mut Random, needed: usize) -> [usize; 2] {
    if random.one_in(ONE_IN_LENGTHS) {
        return [needed, MEMORY_LIMIT];
    }
    loop {
        let [one, other] = [0; 2].map(|_| match random.below(ONE_IN_LONG) {
            0 => MEMORY_LIMIT,
            1 => random.between(needed, MEMORY_LIMIT),
            _ => needed + random.below(FEW),
        });
        if one != other {
            return [one, other];
        }
    }
}

/// Two memories of which the declared words are the same, and no other.
fn lent(random: &mut Random, declared: usize, needed: usize) -> [Vec<u32>; 2] {
    let [mut one, mut other] = lengths(random, needed).map(|length| starting_words(random, length));
    other[..declared].copy_from_slice(&one[..declared]);
    if random.one_in(ONE_IN_WORDS) {
        one[declared..].fill(0);
        other[declared..].fill(u32::MAX);
    }
    for (word, beside) in other.iter_mut().zip(&one).skip(declared) {
        while word == beside {
            *word = random.any_word();
        }
    }
    [one, other]
}

/// What a call does over one of the memories.
struct Did {
    answer: Answer,
    /// Its loads and stores in the arrays' words, in their order, and how many stores to variables.
    accesses: Vec<Touch>,
    changes: u64,
}

/// One image over two lent memories, each with both machines.
struct Pair<'p> {
    machines: [Machines<'p>; 2],
    /// The words past the needed ones, as they were lent.
    past: [Vec<u32>; 2],
    arrays: Arrays,
    declared: usize,
    needed: usize,
    /// Entries of the access list, and stores to variables.
    accesses: u64,
    changes: u64,
}

impl<'p> Pair<'p> {
    fn start(accepted: &Accepted, got: Translation, image: &'p [u8], memories: [Vec<u32>; 2]) -> Pair<'p> {
        let needed = needed_words(got.data, got.depth);
        let past = memories.each_ref().map(|memory| memory[needed..].to_vec());
        let machines = memories.map(|memory| Machines::start(image, got, memory));
        let [one, other] = &machines;
        assert_eq!(one.proved_state, other.proved_state, "the states at the start differ");
        let (arrays, declared) = (Arrays::of(accepted), got.data as usize);
        Pair { machines, past, arrays, declared, needed, accesses: 0, changes: 0 }
    }

    fn make(&mut self, memory: usize, call: Call) -> Did {
        let (mut accesses, mut changes) = (Vec::new(), 0);
        let answer = self.machines[memory].call(call, |_, touch| {
            let Some(touch) = touch else { return };
            if self.arrays.have(touch.word) {
                accesses.push(touch);
            } else if touch.store && (touch.word as usize) < self.declared {
                changes += 1;
            }
        });
        Did { answer, accesses, changes }
    }

    /// A call for each of the memories, which is the same call unless the comparison itself is tried.
    fn call(&mut self, [call, beside]: [Call; 2]) -> Answer {
        let (one, other) = (self.make(0, call), self.make(1, beside));
        let (status, number, count) = one.answer;
        assert_eq!((status, number), (other.answer.0, other.answer.1), "the ends differ");
        assert_eq!(count, other.answer.2, "the counts differ");
        assert_eq!(one.accesses, other.accesses, "the accesses differ");
        let [first, second] = &self.machines;
        let declared = ..self.declared;
        assert!(first.proved_memory[declared] == second.proved_memory[declared], "the declared words differ");
        // the theorem doesn't say this, it is tested only: the registers are equal too
        assert_eq!(first.proved_state, second.proved_state, "the states differ");
        for (machines, past) in self.machines.iter().zip(&self.past) {
            machines.agree();
            assert!(machines.proved_memory[self.needed..] == past[..], "words past the needed ones changed");
        }
        self.accesses += one.accesses.len() as u64;
        self.changes += one.changes;
        one.answer
    }
}

/// Translates a source that is accepted, and makes one random list of calls over two memories; a failure
/// shows the source. What is counted is what one of the two went through.
fn compare(translator: Translator, source: &[u8], random: &mut Random, limit: u64, seen: &mut Seen) {
    let shown = Shown(source);
    let accepted = accept(source, TABLE_WORDS, CODE_BYTES).expect("accepted by the reference");
    let (got, image) = translated(translator, source, &accepted);
    let memories = lent(random, got.data as usize, needed_words(got.data, got.depth));
    let mut pair = Pair::start(&accepted, got, &image, memories);
    let made = calls(random, limit, |call| pair.call([call; 2]));
    seen.add(&made, pair.accesses, pair.changes);
    std::mem::forget(shown);
}

#[test]
fn generated_programs() {
    let mut seen = Seen::default();
    generated(compare, proved::translate, 300_000..306_000, &mut seen);
    accepted_edges(compare, proved::translate, &mut seen);
    assert!(seen.programs >= 5_000);
    assert!(seen.ends.iter().all(|&count| count > 100), "every end is seen");
    seen.print("over two memories");
}

/// The comparison itself: the second translation's images pass it.
#[test]
fn the_second_images_pass() {
    let mut seen = Seen::default();
    generated(compare, second::translate, 400_000..400_500, &mut seen);
    seen.print("second translation's images over two memories");
}

/// Makes a few calls over two memories: their first declared words are these, the others 0, and all past the
/// declared ones are 0 in one memory and 1 in the other.
fn made(translator: Translator, source: &str, firsts: [u32; 2], call: [Call; 2]) {
    const TIMES: usize = 8;
    let accepted = accept(source.as_bytes(), TABLE_WORDS, CODE_BYTES).expect("accepted by the reference");
    let (got, image) = translated(translator, source.as_bytes(), &accepted);
    let (declared, needed) = (got.data as usize, needed_words(got.data, got.depth));
    let memories = [0, 1].map(|old| {
        let mut memory = vec![0; declared];
        memory.resize(needed + 1 + old, old as u32);
        memory[0] = firsts[old];
        memory
    });
    let mut pair = Pair::start(&accepted, got, &image, memories);
    for _ in 0..TIMES {
        pair.call(call);
    }
}

/// What a comparison says that fails.
pub fn failure(comparison: impl FnOnce() + UnwindSafe) -> String {
    let said = catch_unwind(comparison).expect_err("a difference is noticed");
    let whole = said.downcast_ref::<String>().cloned();
    whole.or_else(|| said.downcast_ref::<&str>().map(|&said| said.into())).expect("a message")
}

/// Images that depend on an old word of the stack don't pass, nor do memories that differ in a declared word
/// that is read, nor runs of different limits: each is noticed by what differs first.
#[test]
fn differences_are_noticed() {
    const RUN: [Call; 2] = [Call::Run(100); 2];
    const STEP: [Call; 2] = [Call::Step; 2];
    const SHORT: [Call; 2] = [Call::Run(3), Call::Run(4)];
    // DECSP 1 becomes DECSP 2, STRSPI r0,0 becomes STRSPI r0,1: a result is stored where it was, and read one
    // stack word too low
    let low: Translator = |s, t, c| replaced(s, t, c, &[(0xb081, 0xb082), (0x9000, 0x9001)]);
    // DECSP 1 becomes SHLI r3,r3,0: a result is stored past the needed words
    let high: Translator = |s, t, c| replaced(s, t, c, &[(0xb081, 0x001b)]);
    let right: Translator = second::translate;
    for (what, translator, source, firsts, call) in [
        ("ends differ", low, "var x; if 1 then stop else skip", [7; 2], RUN),
        ("counts differ", low, "var x; if 1 then skip else x := x", [7; 2], RUN),
        ("accesses differ", low, "array v[2]; if v[0] then skip else skip", [0; 2], RUN),
        ("declared words differ", low, "var x; x := 5", [7; 2], RUN),
        ("states differ", low, "var x; x := 5", [7; 2], STEP),
        ("past the needed ones", high, "var x; x := 5", [7; 2], RUN),
        ("ends differ", right, "var x; {if x then stop else skip; x := 1}", [0, 1], RUN),
        ("counts differ", right, "var x; while x do x := x - 1", [2, 3], RUN),
        ("accesses differ", right, "array v[1]; v[0] := 1", [2, 3], RUN),
        ("declared words differ", right, "var x; var y; y := x", [2, 3], RUN),
        ("counts differ", right, "var x; x := 5", [7; 2], SHORT),
    ] {
        made(right, source, [firsts[0]; 2], [call[0]; 2]);
        let said = failure(|| made(translator, source, firsts, call));
        assert!(said.contains(what), "{source}: {said}");
    }
}
