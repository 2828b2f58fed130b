//! What the comparisons and the measurements share: the proved calls through the C boundary, and a second
//! assembler, interpreter, classification of halfwords and code generator in Rust. The second front end, the source's
//! run and the second walker are `reference`.

pub mod arm;
pub mod classes;
pub mod image;
pub mod plain;
pub mod plain_walk;
pub mod proved;
pub mod rendering;
pub mod second;
pub mod stack;

/// What a translation answers.
#[derive(Clone, Copy, Debug, Default, PartialEq, Eq)]
pub struct Translation {
    pub status: u32,
    pub place: u32,
    pub tokens: u32,
    pub rows: u32,
    pub data: u32,
    pub depth: u32,
    pub code: u32,
}

/// A source, the lent table and the lent code buffer.
pub type Translator = fn(&[u8], &mut [u32], &mut [u8]) -> Translation;

/// What a walk answers.
#[derive(Clone, Copy, Debug, Default, PartialEq, Eq)]
pub struct Walked {
    pub status: u64,
    pub number: u64,
    /// Rows begun.
    pub steps: u64,
    /// Entries of the whole access list.
    pub accesses: u64,
}

/// A table, the lent words, the limit, the number of the first entry that is asked for, and the lent cells: four an
/// entry, which are its operation, word, old and new.
pub type Walker = fn(&[u32], &mut [u32], u64, u64, &mut [u32]) -> Walked;

/// The operation of an entry: a load, and a store.
pub const LOAD: u32 = 1;
pub const STORE: u32 = 2;

/// "table shorter than 4 x tokens words", "code buffer shorter than 48 x tokens + 256 bytes", for 1,024 tokens.
pub const TABLE_WORDS: usize = 4 * 1_024;
pub const CODE_BYTES: usize = 48 * 1_024 + 256;

/// "Needed words: D + 2N + 8."
pub fn needed_words(data: u32, depth: u32) -> usize {
    data as usize + 2 * depth as usize + 8
}
