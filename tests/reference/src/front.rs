//! The translator's front: everything before the image, in document 01's order
//! of refusals.

use crate::names::Resolved;
use crate::table::Row;
use crate::{depth, grammar, names, table, tokens, Reason, Refusal};

/// What is known of an accepted source.
#[derive(Clone, Debug, PartialEq, Eq)]
pub struct Accepted<'s> {
    /// The number of tokens, comments counted.
    pub tokens: usize,
    /// N, the deepest expression.
    pub depth: usize,
    pub program: Resolved<'s>,
    pub rows: Vec<Row>,
}

impl Accepted<'_> {
    /// "Needed words: D + 2N + 8."
    pub fn needed_words(&self) -> usize {
        self.program.data as usize + 2 * self.depth + 8
    }
}

/// What a call hands back: "Status 0, place 0 is accepted", and a refusal's
/// "counts are all 0".
#[derive(Clone, Debug, Default, PartialEq, Eq)]
pub struct Outcome {
    pub status: u32,
    pub place: usize,
    pub tokens: usize,
    pub rows: usize,
    /// D, the declared words.
    pub data: usize,
    /// N, the deepest expression.
    pub depth: usize,
    /// The rows' words, four for each row; none of a refused source.
    pub table: Vec<u32>,
}

impl Outcome {
    /// The whole lent table after the call, from what it held before: "a
    /// refusal changes neither buffer" (request 2026-06), and an accepted call
    /// "zeroes what lies past the table".
    pub fn lent_table(&self, before: &[u32]) -> Vec<u32> {
        if self.status != 0 {
            return before.to_vec();
        }
        let mut words = self.table.clone();
        words.resize(before.len(), 0);
        words
    }
}

/// Accepts or refuses a source, given the lengths of the lent table in words
/// and of the lent code buffer in bytes: "1 comes first; then 2 to 5 by place,
/// smaller number first at one place; then 13, 14, 6, 7; then 8 to 12".
pub fn accept(source: &[u8], table_words: usize, code_bytes: usize) -> Result<Accepted<'_>, Refusal> {
    let tokens = tokens::tokens(source)?;
    if table_words < 4 * tokens.len() {
        return Err(Refusal::new(Reason::TableTooShort, 0));
    }
    if code_bytes < 48 * tokens.len() + 256 {
        return Err(Refusal::new(Reason::CodeTooShort, 0));
    }
    let program = grammar::parse(&tokens, source.len())?;
    let depth = depth::check(&program.process)?;
    let program = names::resolve(&program)?;
    let rows = table::rows(&program);
    Ok(Accepted { tokens: tokens.len(), depth, program, rows })
}

/// The same as what a call hands back.
pub fn translate_front(source: &[u8], table_words: usize, code_bytes: usize) -> Outcome {
    match accept(source, table_words, code_bytes) {
        Ok(accepted) => Outcome {
            status: 0,
            place: 0,
            tokens: accepted.tokens,
            rows: accepted.rows.len(),
            data: accepted.program.data as usize,
            depth: accepted.depth,
            table: accepted.rows.concat(),
        },
        Err(refusal) => Outcome { status: refusal.number(), place: refusal.place, ..Outcome::default() },
    }
}
