//! The yardstick for the walker's speed: a plain walker of the same tables, written to be fast. One pass judges the
//! table; then functions that call themselves run its rows as they stand. Every row and every word is found by a checked
//! index, every row begun is counted and held against the limit, every access is counted and, if it is asked for,
//! written. A table has at most 1,024 rows, each naming earlier ones only, so calls nest no deeper.

use crate::{Walked, LOAD, STORE};
use std::ops::RangeInclusive;

type Row = [u32; 4];

const ROW_LIMIT: usize = 1_024;
const DATA_LIMIT: u32 = 8_192;
const VAR: RangeInclusive<u32> = 1..=1;
const ARRAY: RangeInclusive<u32> = 2..=2;
const VALUE: RangeInclusive<u32> = 3..=7;
const PROCESS: RangeInclusive<u32> = 8..=14;

/// Why a run stops before its last row is done.
enum Halt {
    Limit,
    Stop,
    BadSubscript,
}

/// As `gutilamboy_walk`.
pub fn walk(table: &[u32], memory: &mut [u32], limit: u64, first: u64, cells: &mut [u32]) -> Walked {
    let Some(data) = data(table) else { return Walked { status: 36, ..Walked::default() } };
    let Some(words) = memory.get_mut(..data as usize) else {
        return Walked { status: 33, ..Walked::default() };
    };
    let rows = table.as_chunks().0;
    let mut run = Run { rows, words, left: limit, first, listed: 0, entries: cells.as_chunks_mut().0 };
    let (status, number) = match run.process(rows.len() as u32 - 1) {
        Ok(()) => (1, 0),
        Err(Halt::Stop) => (1, 1),
        Err(Halt::BadSubscript) => (1, 2),
        Err(Halt::Limit) => (0, 0),
    };
    Walked { status, number, steps: limit - run.left, accesses: run.listed }
}

/// The words that a table declares, or none if it is refused.
fn data(table: &[u32]) -> Option<u32> {
    let (rows, rest) = table.as_chunks();
    let last: &Row = rows.last()?;
    if !rest.is_empty() || rows.len() > ROW_LIMIT || !PROCESS.contains(&last[0]) {
        return None;
    }
    let mut data = 0;
    for (number, row) in rows.iter().enumerate() {
        data += declared(row, &rows[..number], data)?;
    }
    (data <= DATA_LIMIT).then_some(data)
}

/// The words that a row declares, or none if it is against the row rules.
fn declared(&[kind, a, b, c]: &Row, earlier: &[Row], data: u32) -> Option<u32> {
    let is = |row: u32, kinds: RangeInclusive<u32>| {
        earlier.get(row as usize).is_some_and(|row| kinds.contains(&row[0]))
    };
    let holds = match kind {
        1 => a == data && b == 1 && c == 0,
        2 => a == data && (1..=DATA_LIMIT).contains(&b) && c == 0,
        3 => b == 0 && c == 0,
        4 => is(a, VAR) && b == 0 && c == 0,
        5 => is(a, ARRAY) && is(b, VALUE) && c == 0,
        6 => (1..=2).contains(&a) && is(b, VALUE) && c == 0,
        7 => (1..=14).contains(&a) && is(b, VALUE) && is(c, VALUE),
        8 | 9 => a == 0 && b == 0 && c == 0,
        10 => is(a, VAR) && is(b, VALUE) && c == 0,
        11 => is(a, ARRAY) && is(b, VALUE) && is(c, VALUE),
        12 => is(a, PROCESS) && is(b, PROCESS) && c == 0,
        13 => is(a, VALUE) && is(b, PROCESS) && is(c, PROCESS),
        14 => is(a, VALUE) && is(b, PROCESS) && c == 0,
        _ => false,
    };
    holds.then_some(if kind <= 2 { b } else { 0 })
}

struct Run<'w> {
    rows: &'w [Row],
    words: &'w mut [u32],
    /// Rows that may still be begun.
    left: u64,
    /// The number of the first entry that is asked for, and of entries so far.
    first: u64,
    listed: u64,
    entries: &'w mut [[u32; 4]],
}

impl Run<'_> {
    #[inline(always)]
    fn begin(&mut self, row: u32) -> Result<Row, Halt> {
        self.left = self.left.checked_sub(1).ok_or(Halt::Limit)?;
        Ok(self.rows[row as usize])
    }

    fn process(&mut self, mut row: u32) -> Result<(), Halt> {
        loop {
            let [kind, a, b, c] = self.begin(row)?;
            match kind {
                8 => return Ok(()),
                9 => return Err(Halt::Stop),
                10 => {
                    let word = self.value(b)?;
                    self.words[self.rows[a as usize][1] as usize] = word;
                    return Ok(());
                }
                11 => {
                    let place = self.place(a, b)?;
                    let new = self.value(c)?;
                    let old = std::mem::replace(&mut self.words[place as usize], new);
                    self.list([STORE, place, old, new]);
                    return Ok(());
                }
                12 => {
                    self.process(a)?;
                    row = b;
                }
                13 => row = if self.value(a)? != 0 { b } else { c },
                _ => {
                    if self.value(a)? == 0 {
                        return Ok(());
                    }
                    self.process(b)?;
                }
            }
        }
    }

    /// Numbers and variables are most of what is worked out: they take no call.
    #[inline(always)]
    fn value(&mut self, row: u32) -> Result<u32, Halt> {
        let [kind, a, b, c] = self.begin(row)?;
        match kind {
            3 => Ok(a),
            4 => Ok(self.words[self.rows[a as usize][1] as usize]),
            _ => self.operation(kind, a, b, c),
        }
    }

    fn operation(&mut self, kind: u32, a: u32, b: u32, c: u32) -> Result<u32, Halt> {
        match kind {
            5 => {
                let place = self.place(a, b)?;
                let word = self.words[place as usize];
                self.list([LOAD, place, word, word]);
                Ok(word)
            }
            6 => {
                let word = self.value(b)?;
                Ok(if a == 1 { word.wrapping_neg() } else { !word })
            }
            _ => {
                let left = self.value(b)?;
                let right = self.value(c)?;
                Ok(diadic(a, left, right))
            }
        }
    }

    /// The place of an element, its subscript worked out and checked.
    #[inline(always)]
    fn place(&mut self, array: u32, subscript: u32) -> Result<u32, Halt> {
        let subscript = self.value(subscript)?;
        let [_, offset, length, _] = self.rows[array as usize];
        if subscript < length {
            Ok(offset + subscript)
        } else {
            Err(Halt::BadSubscript)
        }
    }

    #[inline(always)]
    fn list(&mut self, entry: [u32; 4]) {
        let asked = self.listed.checked_sub(self.first);
        if let Some(cells) = asked.and_then(|at| self.entries.get_mut(at as usize)) {
            *cells = entry;
        }
        self.listed += 1;
    }
}

fn diadic(operator: u32, left: u32, right: u32) -> u32 {
    let truth = |holds: bool| if holds { u32::MAX } else { 0 };
    match operator {
        1 => left.wrapping_add(right),
        2 => left.wrapping_sub(right),
        3 => left.wrapping_mul(right),
        4 => left & right,
        5 => left | right,
        6 => left ^ right,
        7 => left.checked_shr(right).unwrap_or(0),
        8 => left.checked_shl(right).unwrap_or(0),
        9 => truth(left == right),
        10 => truth(left != right),
        11 => truth((left as i32) < right as i32),
        12 => truth(left as i32 <= right as i32),
        13 => truth(left as i32 > right as i32),
        _ => truth(left as i32 >= right as i32),
    }
}
