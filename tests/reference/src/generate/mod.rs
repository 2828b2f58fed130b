//! Sources to compare with: random programs, broken ones, edges of every limit
//! and raw bytes; and syntax tables, made, damaged and at the edges of the row
//! rules. All are determined by the seed alone.

mod broken;
mod damaged;
mod edges;
mod programs;
mod random;
mod table_edges;
mod tables;

pub use broken::{break_byte, break_name, break_number, break_token, crowd, deepen, raw_bytes, token_soup};
pub use damaged::damage_table;
pub use edges::{edges, Edge};
pub use programs::{program, render, Pieces};
pub use random::Random;
pub use table_edges::{table_edges, TableEdge};
pub use tables::{made_table, table_size};

use crate::front::accept;

/// A source of any sort: mostly programs whole or broken in one or two ways,
/// else random tokens or raw bytes.
pub fn source(random: &mut Random) -> Vec<u8> {
    if random.one_in(10) {
        let length = random.between(0, 200);
        return raw_bytes(random, length);
    }
    if random.one_in(10) {
        let count = random.between(0, 40);
        let pieces = token_soup(random, count);
        return render(random, &pieces);
    }
    let mut pieces = {
        let size = any_size(random);
        program(random, size)
    };
    for _ in 0..random.below(3) {
        match random.below(24) {
            0..=7 => break_token(random, &mut pieces),
            8..=15 => break_name(random, &mut pieces),
            16..=21 => break_number(random, &mut pieces),
            22 => deepen(random, &mut pieces),
            _ => crowd(random, &mut pieces),
        }
    }
    let mut source = render(random, &pieces);
    if random.one_in(6) {
        break_byte(random, &mut source);
    }
    source
}

/// A valid program of any size.
pub fn valid_source(random: &mut Random) -> Vec<u8> {
    let size = any_size(random);
    let pieces = program(random, size);
    render(random, &pieces)
}

/// The syntax table of a valid program of any size.
pub fn source_table(random: &mut Random) -> Vec<u32> {
    let source = valid_source(random);
    let accepted = accept(&source, usize::MAX, usize::MAX).expect("a valid program");
    accepted.rows.concat()
}

/// A table of any sort: of a source or made, whole or damaged once or twice.
pub fn table(random: &mut Random) -> Vec<u32> {
    let mut table = if random.one_in(3) {
        source_table(random)
    } else {
        let size = table_size(random);
        made_table(random, size)
    };
    if random.one_in(2) {
        for _ in 0..random.between(1, 2) {
            damage_table(random, &mut table);
        }
    }
    table
}

/// Words to start a run with.
pub fn starting_words(random: &mut Random, count: usize) -> Vec<u32> {
    (0..count).map(|_| random.word()).collect()
}

/// All sources of up to so many tokens from the alphabet, with a space between
/// tokens, the shorter first.
pub fn token_strings<'a>(alphabet: &'a [&'a str], length: usize) -> impl Iterator<Item = Vec<u8>> + 'a {
    (0..=length).flat_map(move |length| {
        (0..alphabet.len().pow(length as u32)).map(move |mut number| {
            let mut chosen = Vec::with_capacity(length);
            for _ in 0..length {
                chosen.push(alphabet[number % alphabet.len()]);
                number /= alphabet.len();
            }
            chosen.join(" ").into_bytes()
        })
    })
}

/// Mostly small, now and then up to what 1,024 tokens can hold.
fn any_size(random: &mut Random) -> usize {
    let largest = *random.pick(&[5, 20, 40, 60, 100, 150, 200, 300, 500, 1_000]);
    random.between(1 + largest / 3, largest)
}
