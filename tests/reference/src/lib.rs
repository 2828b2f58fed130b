//! X as document 01 takes it: a second implementation, written from the
//! document alone, against which the proved translator is compared.
//!
//! The modules follow a source on its way: [`tokens`], [`grammar`], [`depth`],
//! [`names`], [`table`]; [`front`] puts them in document 01's order of
//! refusals, [`meaning`] is the source's run and [`generate`] makes sources.
//! [`walker`] runs a syntax table, which needs no source.

pub mod depth;
pub mod front;
pub mod generate;
pub mod grammar;
pub mod meaning;
pub mod names;
pub mod table;
pub mod tokens;
pub mod walker;

/// Why a translation is refused; the numbers are document 01's.
#[derive(Clone, Copy, Debug, PartialEq, Eq, PartialOrd, Ord, Hash)]
pub enum Reason {
    SourceTooLong = 1,
    BrokenToken = 2,
    NumberTooLarge = 3,
    NameTooLong = 4,
    TooManyTokens = 5,
    Grammar = 6,
    TooDeep = 7,
    NotDeclared = 8,
    DeclaredTwice = 9,
    WrongKind = 10,
    ArrayLength = 11,
    TooManyNamesOrWords = 12,
    TableTooShort = 13,
    CodeTooShort = 14,
}

/// A refusal. Its order is "by place, smaller number first", so that the least
/// of several is the one that document 01 gives.
#[derive(Clone, Copy, Debug, PartialEq, Eq, PartialOrd, Ord, Hash)]
pub struct Refusal {
    pub place: usize,
    pub reason: Reason,
}

impl Refusal {
    pub fn new(reason: Reason, place: usize) -> Self {
        Refusal { place, reason }
    }

    /// The number in document 01's table, which is the status of the call.
    pub fn number(self) -> u32 {
        self.reason as u32
    }
}
