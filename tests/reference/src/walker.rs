//! The walker of request 2026-01: an engine that runs the syntax table
//! directly, over the same lent data words.
//!
//! First the table is judged ([`flaws`]), then it is run ([`State`]) with what
//! is to do in a list, as the source's run has it in [`crate::meaning`]. A table
//! may use a row twice and nest as deep as it has rows, so nothing calls itself.

use std::collections::BTreeSet;

use crate::grammar::{Diadic, Monadic};
use crate::meaning::{work_diadic, work_monadic, Access, AccessKind, End};
use crate::names::{ARRAY_LIMIT, DATA_LIMIT};
use crate::table::Row;

/// The kinds of rows by number: "1 var", "2 array" and so on.
pub mod kind {
    pub const VAR: u32 = 1;
    pub const ARRAY: u32 = 2;
    pub const NUMBER: u32 = 3;
    pub const VARIABLE: u32 = 4;
    pub const ELEMENT: u32 = 5;
    pub const MONADIC: u32 = 6;
    pub const DIADIC: u32 = 7;
    pub const SKIP: u32 = 8;
    pub const STOP: u32 = 9;
    pub const ASSIGN: u32 = 10;
    pub const ASSIGN_ELEMENT: u32 = 11;
    pub const SEQUENCE: u32 = 12;
    pub const IF: u32 = 13;
    pub const WHILE: u32 = 14;
}

/// A row has four words.
pub const ROW_WORDS: usize = 4;
/// "more than 1,024 rows" are refused.
pub const ROW_LIMIT: usize = 1_024;

/// The status of a table that is refused, and of "fewer words than its data".
pub const BAD_TABLE: u32 = 36;
pub const SHORT_MEMORY: u32 = 33;
/// The status of a run that reached its limit, and of one that ended.
pub const LIMIT_REACHED: u32 = 0;
pub const ENDED: u32 = 1;

/// Why a table is refused: the request's reasons, and no other.
#[derive(Clone, Copy, Debug, PartialEq, Eq, PartialOrd, Ord, Hash)]
pub enum Flaw {
    UnknownKind,
    /// "a reference that isn't to an earlier row of the fitting kind"
    Reference,
    Operator,
    Offset,
    Length,
    UnusedWord,
    /// "data above 8,192 words"
    TooMuchData,
    /// "more than 1,024 rows"
    TooManyRows,
    PartRow,
    /// "a last row that is missing or no process"
    NoProcess,
}

/// What a word of a row is by document 01's row rules.
#[derive(Clone, Copy, Debug, PartialEq, Eq)]
pub enum Part {
    Offset,
    /// The length of a var, which is 1.
    One,
    Length,
    /// Any word.
    Word,
    Monadic,
    Diadic,
    Variable,
    Array,
    Value,
    Process,
    Unused,
}

/// What the three words after the kind are, if there is such a kind.
pub fn parts(kind: u32) -> Option<[Part; 3]> {
    use Part::*;
    Some(match kind {
        kind::VAR => [Offset, One, Unused],
        kind::ARRAY => [Offset, Length, Unused],
        kind::NUMBER => [Word, Unused, Unused],
        kind::VARIABLE => [Variable, Unused, Unused],
        kind::ELEMENT => [Array, Value, Unused],
        kind::MONADIC => [Monadic, Value, Unused],
        kind::DIADIC => [Diadic, Value, Value],
        kind::SKIP | kind::STOP => [Unused; 3],
        kind::ASSIGN => [Variable, Value, Unused],
        kind::ASSIGN_ELEMENT => [Array, Value, Value],
        kind::SEQUENCE => [Process, Process, Unused],
        kind::IF => [Value, Process, Process],
        kind::WHILE => [Value, Process, Unused],
        _ => return None,
    })
}

fn is_value(kind: u32) -> bool {
    (kind::NUMBER..=kind::DIADIC).contains(&kind)
}

fn is_process(kind: u32) -> bool {
    (kind::SKIP..=kind::WHILE).contains(&kind)
}

/// The whole rows of a table.
pub fn rows(table: &[u32]) -> Vec<Row> {
    table.chunks_exact(ROW_WORDS).map(|row| [row[0], row[1], row[2], row[3]]).collect()
}

/// The words that a row declares.
fn declared(row: Row) -> u64 {
    match row {
        [kind::VAR | kind::ARRAY, _, length, _] => length.into(),
        _ => 0,
    }
}

/// The words that all rows declare, used or not.
pub fn data(rows: &[Row]) -> u64 {
    rows.iter().map(|&row| declared(row)).sum()
}

/// All reasons to refuse a table, in the order of their names.
pub fn flaws(table: &[u32]) -> BTreeSet<Flaw> {
    let rows = rows(table);
    let mut flaws = BTreeSet::new();
    let mut offset = 0;
    for (number, &row) in rows.iter().enumerate() {
        flaws.extend(row_flaws(row, &rows[..number], offset));
        offset += declared(row);
    }
    let whole = [
        (Flaw::TooMuchData, offset > DATA_LIMIT.into()),
        (Flaw::TooManyRows, rows.len() > ROW_LIMIT),
        (Flaw::PartRow, !table.len().is_multiple_of(ROW_WORDS)),
        (Flaw::NoProcess, !rows.last().is_some_and(|row| is_process(row[0]))),
    ];
    flaws.extend(whole.iter().filter(|(_, holds)| *holds).map(|(flaw, _)| *flaw));
    flaws
}

/// The flaws of one row, given the rows before it and the words that these declare.
fn row_flaws([kind, words @ ..]: Row, earlier: &[Row], offset: u64) -> Vec<Flaw> {
    let Some(parts) = parts(kind) else { return vec![Flaw::UnknownKind] };
    parts.into_iter().zip(words).filter_map(|(part, word)| part_flaw(part, word, earlier, offset)).collect()
}

/// What is wrong with one word, if anything is; all words are read unsigned.
fn part_flaw(part: Part, word: u32, earlier: &[Row], offset: u64) -> Option<Flaw> {
    let refers = |fits: fn(u32) -> bool| earlier.get(word as usize).is_some_and(|row| fits(row[0]));
    let (flaw, holds) = match part {
        // "offsets in order of declaration"
        Part::Offset => (Flaw::Offset, u64::from(word) == offset),
        Part::One => (Flaw::Length, word == 1),
        Part::Length => (Flaw::Length, (1..=ARRAY_LIMIT).contains(&word)),
        Part::Word => return None,
        Part::Monadic => (Flaw::Operator, monadic(word).is_some()),
        Part::Diadic => (Flaw::Operator, diadic(word).is_some()),
        Part::Variable => (Flaw::Reference, refers(|kind| kind == kind::VAR)),
        Part::Array => (Flaw::Reference, refers(|kind| kind == kind::ARRAY)),
        Part::Value => (Flaw::Reference, refers(is_value)),
        Part::Process => (Flaw::Reference, refers(is_process)),
        Part::Unused => (Flaw::UnusedWord, word == 0),
    };
    (!holds).then_some(flaw)
}

/// "Monadic: 1 `-`, 2 not."
fn monadic(operator: u32) -> Option<Monadic> {
    [Monadic::Negate, Monadic::Not].into_iter().find(|known| *known as u32 == operator)
}

/// "Diadic from 1: `+ - * and or xor >> << = <> < <= > >=`."
fn diadic(operator: u32) -> Option<Diadic> {
    use Diadic::*;
    let all = [
        Add,
        Subtract,
        Multiply,
        And,
        Or,
        Xor,
        ShiftRight,
        ShiftLeft,
        Equal,
        NotEqual,
        Less,
        LessOrEqual,
        Greater,
        GreaterOrEqual,
    ];
    all.into_iter().find(|known| *known as u32 == operator)
}

/// A thing to do; the numbers are those of rows.
#[derive(Clone, Copy, Debug, PartialEq, Eq)]
pub enum Thing {
    /// Begin a row, which is a step.
    Begin(u32),
    /// The working of an operation.
    Work(u32),
    /// Check, load and store of an array.
    Check(u32),
    Load(u32),
    Store(u32),
    /// The assignment of a variable.
    Set(u32),
    /// The choice of an `if` or a `while`.
    Choose(u32),
}

/// A run of rows that have no flaw.
#[derive(Clone, Debug, PartialEq, Eq)]
pub struct State<'t> {
    pub rows: &'t [Row],
    /// All lent words; those past the data stay as they are.
    pub words: Vec<u32>,
    pub accesses: Vec<Access>,
    /// The first thing to do is the last of the vector.
    pub to_do: Vec<Thing>,
    /// The top of the pile is the last of the vector.
    pub pile: Vec<u32>,
    /// Rows begun.
    pub steps: u64,
    pub end: Option<End>,
}

impl<'t> State<'t> {
    /// "the last row is the program"
    pub fn start(rows: &'t [Row], words: &[u32]) -> Self {
        State {
            rows,
            words: words.to_vec(),
            accesses: Vec::new(),
            to_do: vec![Thing::Begin(rows.len() as u32 - 1)],
            pile: Vec::new(),
            steps: 0,
            end: None,
        }
    }

    /// Goes on to the end, or to where it "would begin a row past its limit".
    pub fn run(&mut self, limit: u64) {
        while self.end.is_none() && !(self.begins() && self.steps >= limit) {
            self.step();
        }
    }

    /// Whether the next thing to do is to begin a row.
    pub fn begins(&self) -> bool {
        matches!(self.to_do.last(), Some(Thing::Begin(_)))
    }

    /// Does the next thing; "nothing left to do" is the finish.
    pub fn step(&mut self) {
        match self.to_do.pop() {
            None => self.end = Some(End::Finish),
            Some(Thing::Begin(row)) => {
                self.steps += 1;
                self.begin(row);
            }
            Some(Thing::Work(row)) => self.work(row),
            Some(Thing::Check(array)) => {
                let (_, length) = self.declared(array);
                if *self.pile.last().expect("a subscript to check") >= length {
                    self.end = Some(End::BadSubscript);
                }
            }
            Some(Thing::Load(array)) => {
                let offset = self.declared(array).0 + self.take();
                let word = self.words[offset as usize];
                self.pile.push(word);
                self.accesses.push(Access { kind: AccessKind::Load, offset, old: word, new: word });
            }
            Some(Thing::Store(array)) => {
                let new = self.take();
                let offset = self.declared(array).0 + self.take();
                let old = std::mem::replace(&mut self.words[offset as usize], new);
                self.accesses.push(Access { kind: AccessKind::Store, offset, old, new });
            }
            Some(Thing::Set(variable)) => {
                let word = self.take();
                let (offset, _) = self.declared(variable);
                self.words[offset as usize] = word;
            }
            Some(Thing::Choose(row)) => self.choose(row),
        }
    }

    fn begin(&mut self, row: u32) {
        use Thing::*;
        let [kind, a, b, c] = self.rows[row as usize];
        match kind {
            kind::NUMBER => self.pile.push(a),
            kind::VARIABLE => self.pile.push(self.words[self.declared(a).0 as usize]),
            kind::ELEMENT => self.put(&[Begin(b), Check(a), Load(a)]),
            kind::MONADIC => self.put(&[Begin(b), Work(row)]),
            // "its operands, left first, then the working": both, whatever the operator
            kind::DIADIC => self.put(&[Begin(b), Begin(c), Work(row)]),
            kind::SKIP => {}
            kind::STOP => self.end = Some(End::Stop),
            kind::ASSIGN => self.put(&[Begin(b), Set(a)]),
            // "s, check, x, store"
            kind::ASSIGN_ELEMENT => self.put(&[Begin(b), Check(a), Begin(c), Store(a)]),
            kind::SEQUENCE => self.put(&[Begin(a), Begin(b)]),
            kind::IF | kind::WHILE => self.put(&[Begin(a), Choose(row)]),
            _ => panic!("row {row} of kind {kind} can't be begun"),
        }
    }

    /// Works an operation out, the right operand on top of the pile.
    fn work(&mut self, row: u32) {
        let [kind, operator, ..] = self.rows[row as usize];
        let last = self.take();
        let word = if kind == kind::MONADIC {
            work_monadic(monadic(operator).expect("an operator"), last)
        } else {
            work_diadic(diadic(operator).expect("an operator"), self.take(), last)
        };
        self.pile.push(word);
    }

    /// "A condition holds if its word is not 0"; a while is begun "again at each test".
    fn choose(&mut self, row: u32) {
        let [kind, _, first, second] = self.rows[row as usize];
        match (kind, self.take() != 0) {
            (kind::WHILE, true) => self.put(&[Thing::Begin(first), Thing::Begin(row)]),
            (kind::WHILE, false) => {}
            (_, true) => self.put(&[Thing::Begin(first)]),
            (_, false) => self.put(&[Thing::Begin(second)]),
        }
    }

    /// Offset and length of a declared row.
    fn declared(&self, row: u32) -> (u32, u32) {
        let [_, offset, length, _] = self.rows[row as usize];
        (offset, length)
    }

    /// Puts these things before all others to do, in this order.
    fn put(&mut self, things: &[Thing]) {
        self.to_do.extend(things.iter().rev());
    }

    fn take(&mut self) -> u32 {
        self.pile.pop().expect("a word on the pile")
    }
}

/// What a walk comes to.
#[derive(Clone, Debug, PartialEq, Eq)]
pub struct Walk {
    pub status: u32,
    /// The end's number, 0 if there is none.
    pub number: u32,
    /// Rows begun.
    pub steps: u64,
    /// All lent words after it.
    pub words: Vec<u32>,
    /// The whole access list.
    pub accesses: Vec<Access>,
}

/// Walks a table over lent words: 36, then 33, "Both leave the memory untouched
/// and 0 steps", then the run.
pub fn walk(table: &[u32], memory: &[u32], limit: u64) -> Walk {
    let refused = |status| Walk { status, number: 0, steps: 0, words: memory.to_vec(), accesses: Vec::new() };
    if !flaws(table).is_empty() {
        return refused(BAD_TABLE);
    }
    let rows = rows(table);
    if (memory.len() as u64) < data(&rows) {
        return refused(SHORT_MEMORY);
    }
    let mut state = State::start(&rows, memory);
    state.run(limit);
    let State { words, accesses, steps, end, .. } = state;
    let (status, number) = end.map_or((LIMIT_REACHED, 0), |end| (ENDED, end as u32));
    Walk { status, number, steps, words, accesses }
}
