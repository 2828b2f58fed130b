//! Images run by the proved machine under lists of calls, instruction by instruction beside the second interpreter,
//! against the source's run.

use crate::calls::{calls, translated, Answer, Arrays, Call, Machines, Made};
use crate::print;
use reference::front::{accept, Accepted};
use reference::generate::{edges, starting_words, valid_source, Random};
use reference::meaning::{AccessKind, State, Thing};
use tests::arm::{self, Touch, DATA};
use tests::{needed_words, proved, second, Translation, Translator, CODE_BYTES, TABLE_WORDS};

/// No move of the source takes more instructions than this,
const INSTRUCTIONS_A_MOVE: u64 = 20;
/// and between two instructions there are never more moves than this: no program has more tokens.
const MOVES_AN_INSTRUCTION: u64 = 1_100;

/// What a number of runs went through.
#[derive(Default)]
pub struct Seen {
    pub programs: u64,
    instructions: u64,
    calls: u64,
    accesses: u64,
    /// Stores to variables.
    changes: u64,
    /// Ended by SVC 0, 1, 2, and not ended within the limit.
    pub ends: [u64; 4],
}

impl Seen {
    /// One more program, with the calls made, its accesses and its stores to variables.
    pub fn add(&mut self, made: &Made, accesses: u64, changes: u64) {
        self.programs += 1;
        self.calls += made.calls;
        self.instructions += made.instructions;
        self.accesses += accesses;
        self.changes += changes;
        self.ends[made.end.unwrap_or(3) as usize] += 1;
    }

    pub fn print(&self, what: &str) {
        let [finish, stop, bad, going] = self.ends;
        print(&format!(
            "{what}: {} programs, {} instructions in {} calls, {} array accesses, {} assignments of variables; finish {finish}, stop {stop}, bad subscript {bad}, still running {going}",
            self.programs, self.instructions, self.calls, self.accesses, self.changes
        ));
    }
}

/// The source's run as far as it is looked at: from one change of a declared word or entry of the access list to
/// the next.
struct Source<'p> {
    run: State<'p>,
    moves: u64,
}

impl<'p> Source<'p> {
    fn start(accepted: &'p Accepted<'p>, words: &[u32]) -> Source<'p> {
        Source { run: State::start(&accepted.program, words), moves: 0 }
    }

    /// The next load or store of an array's word or store of a variable's, if there is one within so many moves
    /// from the start.
    fn next(&mut self, most_moves: u64) -> Option<Touch> {
        while self.run.end.is_none() && self.moves < most_moves {
            let set = match self.run.to_do.last() {
                Some(Thing::Set(variable)) => Some(variable.offset),
                _ => None,
            };
            let (accesses, old) = (self.run.accesses.len(), set.map(|word| self.run.words[word as usize]));
            self.run.step();
            self.moves += 1;
            if let (Some(word), Some(old)) = (set, old) {
                return Some(Touch { store: true, word, old, new: self.run.words[word as usize] });
            }
            if let Some(access) = self.run.accesses.get(accesses) {
                let store = access.kind == AccessKind::Store;
                return Some(Touch { store, word: access.offset, old: access.old, new: access.new });
            }
        }
        None
    }
}

/// The source's run as the image's instructions go on.
struct Watched<'p> {
    arrays: Arrays,
    declared: u32,
    needed: usize,
    source: Source<'p>,
    /// Changes of declared words and entries of the access list so far, and the latter alone.
    touches: u64,
    accesses: u64,
    instructions: u64,
}

impl Watched<'_> {
    /// What holds after every instruction.
    fn instruction(&mut self, state: &arm::State, touch: Option<Touch>) {
        if let Some(touch) = touch {
            self.touched(touch);
        }
        let (low, high) = (DATA + 4 * self.declared, DATA + 4 * self.needed as u32);
        assert!((low..=high).contains(&state.sp), "sp {:#x}", state.sp);
        self.instructions += 1;
    }

    /// "the loads and stores inside an array's words are listed the same way". What changes a declared word or is
    /// listed is the source's next; so after every instruction both are as after some number of moves.
    fn touched(&mut self, touch: Touch) {
        assert!(!touch.store || (touch.word as usize) < self.needed, "{touch:?} is past the needed words");
        let array = self.arrays.have(touch.word);
        if array || touch.store && touch.word < self.declared {
            let want = self.source.next(MOVES_AN_INSTRUCTION * (self.instructions + 1));
            assert_eq!(Some(touch), want, "after {} others", self.touches);
            self.touches += 1;
            self.accesses += u64::from(array);
        }
    }
}

/// One program on both machines, and its source's run.
struct Pair<'p> {
    accepted: &'p Accepted<'p>,
    machines: Machines<'p>,
    watched: Watched<'p>,
}

impl<'p> Pair<'p> {
    fn start(accepted: &'p Accepted<'p>, got: Translation, image: &'p [u8], memory: &[u32]) -> Pair<'p> {
        let watched = Watched {
            arrays: Arrays::of(accepted),
            declared: got.data,
            needed: needed_words(got.data, got.depth),
            source: Source::start(accepted, memory),
            touches: 0,
            accesses: 0,
            instructions: 0,
        };
        Pair { accepted, machines: Machines::start(image, got, memory.to_vec()), watched }
    }

    fn call(&mut self, call: Call) -> Answer {
        let watched = &mut self.watched;
        let answer = self.machines.call(call, |state, touch| watched.instruction(state, touch));
        self.machines.agree();
        answer
    }

    /// After the list: the end, or how far the source has come for certain.
    fn finish(&mut self, starting: &[u32], end: Option<u32>) {
        let (memory, watched) = (&self.machines.memory, &mut self.watched);
        assert!(memory[watched.needed..] == starting[watched.needed..], "words past the needed ones");
        if let Some(number) = end {
            let further = watched.source.next(MOVES_AN_INSTRUCTION * (watched.instructions + 1));
            assert_eq!(further, None, "at the end");
            let run = &watched.source.run;
            assert_eq!(run.end.map(|end| end as u32), Some(number), "end");
            assert!(run.words == memory[..watched.declared as usize], "declared words at the end");
            assert_eq!(run.accesses.len() as u64, watched.accesses, "accesses at the end");
        } else {
            let mut sure = Source::start(self.accepted, starting);
            let mut touches = 0;
            while sure.next(watched.instructions / INSTRUCTIONS_A_MOVE).is_some() {
                touches += 1;
            }
            assert!(sure.run.end.is_none(), "the source ended, the image did not");
            assert!(touches <= watched.touches, "an access or change that the image did not make");
        }
    }
}

/// Translates a source that is accepted, and runs its image from these words, so many past the needed ones.
pub fn run_source(
    translator: Translator,
    source: &[u8],
    words: &[u32],
    random: &mut Random,
    limit: u64,
    seen: &mut Seen,
) -> (Option<u32>, Vec<u32>) {
    let accepted = accept(source, TABLE_WORDS, CODE_BYTES).expect("accepted by the reference");
    let (got, image) = translated(translator, source, &accepted);
    let mut pair = Pair::start(&accepted, got, &image, words);
    let made = calls(random, limit, |call| pair.call(call));
    pair.finish(words, made.end);
    seen.add(&made, pair.watched.accesses, pair.watched.touches - pair.watched.accesses);
    (made.end, pair.machines.memory)
}

/// The same from random words; a failure shows the source.
pub fn run_anyhow(translator: Translator, source: &[u8], random: &mut Random, limit: u64, seen: &mut Seen) {
    let accepted = accept(source, TABLE_WORDS, CODE_BYTES).expect("accepted by the reference");
    let past = *random.pick(&[0, 0, 1, 5, 40]);
    let words = starting_words(random, accepted.needed_words() + past);
    let shown = Shown(source);
    run_source(translator, source, &words, random, limit, seen);
    std::mem::forget(shown);
}

/// Prints its source if it is dropped, which is if a comparison failed.
pub struct Shown<'s>(pub &'s [u8]);

impl Drop for Shown<'_> {
    fn drop(&mut self) {
        print(&format!("of {:?}", String::from_utf8_lossy(self.0)));
    }
}

/// Whether a run of the source from zeros makes an access soon.
fn accesses(source: &[u8]) -> bool {
    let accepted = accept(source, TABLE_WORDS, CODE_BYTES).expect("accepted by the reference");
    let mut run = State::start(&accepted.program, &vec![0; accepted.needed_words()]);
    run.run(300);
    run.accesses.len() > 2
}

/// The most instructions of a program; of a few, ten times as many.
pub const LIMIT: u64 = 2_000;

/// Compares a source by a random list of calls of so many instructions.
pub type Compare = fn(Translator, &[u8], &mut Random, u64, &mut Seen);

/// The program of a seed, every second one with accesses, its limit, and the numbers to go on with.
pub fn program(seed: u64) -> (Vec<u8>, u64, Random) {
    let mut random = Random::new(seed);
    let mut source = valid_source(&mut random);
    while seed % 2 == 1 && !accesses(&source) {
        source = valid_source(&mut random);
    }
    let limit = if seed.is_multiple_of(50) { 10 * LIMIT } else { LIMIT };
    (source, limit, random)
}

/// The program of each seed.
pub fn generated(compare: Compare, translator: Translator, seeds: std::ops::Range<u64>, seen: &mut Seen) {
    for seed in seeds {
        let (source, limit, mut random) = program(seed);
        compare(translator, &source, &mut random, limit, seen);
    }
}

/// The accepted sources at the limits, each twice.
pub fn accepted_edges(compare: Compare, translator: Translator, seen: &mut Seen) {
    let mut random = Random::new(17);
    for edge in edges().into_iter().filter(|edge| edge.status == 0) {
        for _ in 0..2 {
            compare(translator, &edge.source, &mut random, LIMIT, seen);
        }
    }
}

#[test]
fn generated_programs() {
    let mut seen = Seen::default();
    generated(run_anyhow, proved::translate, 100_000..121_000, &mut seen);
    assert!(seen.programs >= 20_000);
    assert!(seen.ends.iter().all(|&count| count > 100), "every end is seen");
    seen.print("generated programs");
}

#[test]
fn programs_at_the_limits() {
    let mut seen = Seen::default();
    accepted_edges(run_anyhow, proved::translate, &mut seen);
    seen.print("programs at the limits");
}

/// The comparison itself: the second translation's images pass it.
#[test]
fn the_second_images_pass() {
    let mut seen = Seen::default();
    generated(run_anyhow, second::translate, 200_000..201_000, &mut seen);
    accepted_edges(run_anyhow, second::translate, &mut seen);
    seen.print("second translation's images");
}

/// The second translation, every halfword of some kinds replaced in its image.
pub fn replaced(source: &[u8], table: &mut [u32], code: &mut [u8], halfwords: &[(u16, u16)]) -> Translation {
    let got = second::translate(source, table, code);
    for half in code[..got.code as usize].chunks_exact_mut(2) {
        let found = halfwords.iter().find(|(from, _)| half == from.to_le_bytes());
        if let Some((_, to)) = found {
            half.copy_from_slice(&to.to_le_bytes());
        }
    }
    got
}

/// And these don't: one that finishes at once, one that reads an element before the test for it, one whose subscripts
/// are never bad, one whose `if` goes the wrong way, one whose operands are swapped.
#[test]
fn wrong_images_are_noticed() {
    fn finishes(source: &[u8], table: &mut [u32], code: &mut [u8]) -> Translation {
        let got = second::translate(source, table, code);
        code[..2].copy_from_slice(&[0x00, 0xdf]);
        got
    }
    // SVC 2 becomes SHLI r3,r3,0; BNE over a BL becomes BEQ; SUBR r0,r0,r1 becomes SUBR r0,r1,r0
    let unchecked: Translator = |s, t, c| replaced(s, t, c, &[(0xdf02, 0x001b)]);
    let wrong_way: Translator = |s, t, c| replaced(s, t, c, &[(0xd101, 0xd001)]);
    let swapped: Translator = |s, t, c| replaced(s, t, c, &[(0x1a40, 0x1a08)]);
    // the element is read before the test
    let early: Translator = |_, t, c| {
        second::translate(
            b"var i; var x; array v[4]; {if v[0] then skip else skip; if i < 4 then x := v[i] else skip}",
            t,
            c,
        )
    };
    for (wrong, source) in [
        (finishes as Translator, "var x; x := x + 1"),
        (
            early,
            "||||||||||||||||||||||||||||||||var i; var x; array v[4]; if i < 4 then x := v[i] else skip",
        ),
        (unchecked, "array v[2]; v[2] := 1"),
        (wrong_way, "var x; if x = x then x := 7 else x := 8"),
        (swapped, "var x; x := 5 - 3"),
    ] {
        let run = |translator: Translator| {
            let mut random = Random::new(3);
            run_source(translator, source.as_bytes(), &[7; 40], &mut random, 500, &mut Seen::default());
        };
        run(second::translate);
        assert!(std::panic::catch_unwind(|| run(wrong)).is_err(), "{source}");
    }
}
