//! Syntax tables damaged in one place, most of which are then refused by 36.

use super::Random;
use crate::walker::{kind, parts, Part, ROW_WORDS};

/// Changes a table in one way: a word, rows, or where it ends.
pub fn damage_table(random: &mut Random, table: &mut Vec<u32>) {
    match random.below(16) {
        0 | 1 => change_word(random, table),
        2..=7 => change_part(random, table),
        8 => change_kind(random, table),
        9 => swap_rows(random, table),
        10 => table.truncate(random.below(table.len() + 1)),
        11 => table.truncate(ROW_WORDS * random.below(table.len() / ROW_WORDS + 1)),
        12 => extend(random, table),
        13 => double_or_remove(random, table),
        14 => declare_late(random, table),
        _ => fill_up(random, table),
    }
}

/// The number of whole rows.
fn rows(table: &[u32]) -> usize {
    table.len() / ROW_WORDS
}

/// Any word becomes one near it, another of the table, or any.
fn change_word(random: &mut Random, table: &mut [u32]) {
    if table.is_empty() {
        return;
    }
    let place = random.below(table.len());
    table[place] = match random.below(4) {
        0 => table[place].wrapping_add(1),
        1 => table[place].wrapping_sub(1),
        2 => *random.pick(table),
        _ => random.word(),
    };
}

/// A word that stands for some part, mostly the one with the rarest flaws,
/// becomes one that hardly fits.
fn change_part(random: &mut Random, table: &mut [u32]) {
    let sorts: [&[Part]; 5] = [
        &[Part::Variable, Part::Array, Part::Value, Part::Process],
        &[Part::Monadic, Part::Diadic],
        &[Part::Offset],
        &[Part::One, Part::Length],
        &[Part::Unused],
    ];
    let sort = *random.pick(&sorts);
    let places: Vec<(usize, Part)> = (0..rows(table))
        .flat_map(|row| {
            let parts = parts(table[ROW_WORDS * row]).into_iter().flatten();
            parts.enumerate().map(move |(index, part)| (ROW_WORDS * row + 1 + index, part))
        })
        .filter(|(_, part)| sort.contains(part))
        .collect();
    if places.is_empty() {
        return change_word(random, table);
    }
    let (place, part) = *random.pick(&places);
    let (row, count) = ((place / ROW_WORDS) as u32, rows(table) as u32);
    table[place] = match part {
        Part::Monadic => *random.pick(&[0, 3, 4, u32::MAX]),
        Part::Diadic => *random.pick(&[0, 15, 16, u32::MAX]),
        Part::Offset => *random.pick(&[table[place].wrapping_sub(1), table[place].wrapping_add(1), 0, 8_191]),
        Part::One => *random.pick(&[0, 2, 8_192, u32::MAX]),
        Part::Length => *random.pick(&[0, 1, 8_192, 8_193, 1 << 31, u32::MAX]),
        Part::Unused => *random.pick(&[1, row, 1 << 31, u32::MAX]),
        // itself, a later row, one past the last, none, or any
        _ => {
            let any = random.below(count as usize) as u32;
            *random.pick(&[row, row, row + 1, count - 1, count, any, 1 << 31, u32::MAX])
        }
    };
}

/// A row gets another kind, known or not.
fn change_kind(random: &mut Random, table: &mut [u32]) {
    if rows(table) > 0 {
        let row = random.below(rows(table));
        let known = random.between(1, 14) as u32;
        table[ROW_WORDS * row] = *random.pick(&[known, known, 0, 15, 16, 1 << 31 | known, u32::MAX]);
    }
}

fn swap_rows(random: &mut Random, table: &mut [u32]) {
    if rows(table) > 0 {
        let (one, other) = (random.below(rows(table)), random.below(rows(table)));
        for word in 0..ROW_WORDS {
            table.swap(ROW_WORDS * one + word, ROW_WORDS * other + word);
        }
    }
}

/// Zero rows behind it, as a whole lent table has them, a part row, or a row
/// that is no process.
fn extend(random: &mut Random, table: &mut Vec<u32>) {
    match random.below(4) {
        0 => table.extend(vec![0; ROW_WORDS * random.between(1, 3)]),
        1 => table.extend(&[kind::SKIP, 0, 0][..random.between(1, 3)]),
        2 => table.extend([kind::NUMBER, random.word(), 0, 0]),
        _ => table.extend([kind::SKIP, 0, 0, 0]),
    }
}

/// A row stands twice or is gone, so that the numbers of those behind it are others.
fn double_or_remove(random: &mut Random, table: &mut Vec<u32>) {
    if rows(table) == 0 {
        return;
    }
    let start = ROW_WORDS * random.below(rows(table));
    let row: Vec<u32> = table.drain(start..start + ROW_WORDS).collect();
    if random.one_in(2) {
        let twice = [&row[..], &row].concat();
        table.splice(start..start, twice);
    }
}

/// Declarations behind all other rows, and a process last; the data may pass
/// its limit.
fn declare_late(random: &mut Random, table: &mut Vec<u32>) {
    let last = rows(table).saturating_sub(1) as u32;
    let mut data = crate::walker::data(&crate::walker::rows(table)).min(8_192) as u32;
    for _ in 0..random.between(1, 3) {
        let length = *random.pick(&[1, 1, 2, 8_192 - data.min(8_191), 8_192]);
        let kind = if length == 1 { kind::VAR } else { kind::ARRAY };
        table.extend([kind, data, length, 0]);
        data += length;
    }
    table.extend([kind::SEQUENCE, last, last, 0]);
}

/// Rows that change nothing, up to 1,023 to 1,026 in all.
fn fill_up(random: &mut Random, table: &mut Vec<u32>) {
    let last = rows(table).saturating_sub(1) as u32;
    let count = random.between(1_023, 1_026);
    while rows(table) + 1 < count {
        table.extend([kind::SKIP, 0, 0, 0]);
    }
    table.extend([kind::SEQUENCE, last, last, 0]);
}
