//! Random lists of calls on the proved machine, with the second interpreter beside it: what `runs` and
//! `memories` share.

use reference::front::Accepted;
use reference::generate::Random;
use reference::table::Row;
use tests::arm::{self, Touch};
use tests::{needed_words, proved, Translation, Translator};

/// A step, or a run to a limit.
#[derive(Clone, Copy, Debug)]
pub enum Call {
    Step,
    Run(u64),
}

/// Status, number and count; of a step, the count that a run of one has.
pub type Answer = (u32, u32, u64);

/// What a list of calls came to.
pub struct Made {
    pub calls: u64,
    pub instructions: u64,
    /// The number of the SVC that was come to.
    pub end: Option<u32>,
}

/// Makes a list of calls: steps, runs, or both, up to the limit, and some after the end.
pub fn calls(random: &mut Random, limit: u64, mut make: impl FnMut(Call) -> Answer) -> Made {
    let style = random.below(4);
    let mut after_end = random.below(4);
    let mut made = Made { calls: 0, instructions: 0, end: None };
    while made.instructions < limit && (made.end.is_none() || after_end > 0) {
        after_end -= usize::from(made.end.is_some());
        made.calls += 1;
        let call = match (style, random.below(5)) {
            (0, _) | (1, 0 | 1) => Call::Step,
            (1, 2) => Call::Run(random.below(4) as u64),
            (1 | 2, _) => Call::Run(random.below(100) as u64),
            _ => Call::Run(limit),
        };
        let (status, number, count) = make(call);
        made.instructions += count;
        if status == 1 {
            made.end = Some(number);
        }
    }
    made
}

/// The answer for a source that is accepted, with buffers no longer than asked for, and the image.
pub fn translated(translator: Translator, source: &[u8], accepted: &Accepted) -> (Translation, Vec<u8>) {
    let mut table = vec![9; 4 * accepted.tokens];
    let mut code = vec![9; 48 * accepted.tokens + 256];
    let got = translator(source, &mut table, &mut code);
    assert_eq!(got.status, 0, "status");
    code.truncate(got.code as usize);
    (got, code)
}

/// The arrays' words, each array by its offset and length.
pub struct Arrays(Vec<(u32, u32)>);

impl Arrays {
    pub fn of(accepted: &Accepted) -> Arrays {
        let rows = accepted.rows.iter().filter(|row| row[0] == 2);
        Arrays(rows.map(|&[_, offset, length, _]: &Row| (offset, length)).collect())
    }

    pub fn have(&self, word: u32) -> bool {
        self.0.iter().any(|&(offset, length)| (offset..offset + length).contains(&word))
    }
}

/// One image on the second interpreter and on the proved machine, each with its own copy of one lent memory.
pub struct Machines<'p> {
    image: &'p [u8],
    state: arm::State,
    pub memory: Vec<u32>,
    pub proved_state: arm::State,
    pub proved_memory: Vec<u32>,
}

impl<'p> Machines<'p> {
    pub fn start(image: &'p [u8], got: Translation, memory: Vec<u32>) -> Machines<'p> {
        let (status, state) = arm::start(image, &memory, got.data, got.depth);
        assert_eq!(status, 0, "start");
        let (status, proved_state) = proved::start(image, &memory, got.data, got.depth);
        assert_eq!((status, &proved_state), (0, &state), "start");
        let needed = needed_words(got.data, got.depth);
        assert_eq!(proved::start(image, &memory[..needed - 1], got.data, got.depth).0, 33, "start");
        Machines { image, state, proved_memory: memory.clone(), memory, proved_state }
    }

    /// Makes a call on both. After every instruction of the second interpreter `watch` gets its state and the
    /// data word that was loaded or stored.
    pub fn call(&mut self, call: Call, watch: impl FnMut(&arm::State, Option<Touch>)) -> Answer {
        match call {
            Call::Step => self.step(watch),
            Call::Run(limit) => self.run(limit, watch),
        }
    }

    /// The two agree, states and memories.
    pub fn agree(&self) {
        assert_eq!(self.proved_state, self.state);
        assert!(self.proved_memory == self.memory, "memory");
    }

    fn instruction(&mut self, watch: &mut impl FnMut(&arm::State, Option<Touch>)) -> (u32, u32) {
        let mut touch = None;
        let answer = arm::watched_step(&mut self.state, self.image, &mut self.memory, &mut touch);
        assert!(answer.0 <= 1, "fault {} at {:#x}", answer.0, self.state.pc);
        watch(&self.state, touch);
        answer
    }

    fn step(&mut self, mut watch: impl FnMut(&arm::State, Option<Touch>)) -> Answer {
        let want = self.instruction(&mut watch);
        let got = proved::step(&mut self.proved_state, self.image, &mut self.proved_memory);
        assert_eq!(got, want, "step");
        (got.0, got.1, 1)
    }

    fn run(&mut self, limit: u64, mut watch: impl FnMut(&arm::State, Option<Touch>)) -> Answer {
        let mut want = (0, 0, limit);
        for done in 0..limit {
            let (status, number) = self.instruction(&mut watch);
            if status == 1 {
                want = (1, number, done + 1);
                break;
            }
        }
        // a run that ends before its limit ends alike under any larger one
        let asked = if want.0 == 1 && want.2 < limit { u64::MAX } else { limit };
        let got = proved::run(&mut self.proved_state, self.image, &mut self.proved_memory, asked);
        assert_eq!(got, want, "run to {limit}");
        got
    }
}
