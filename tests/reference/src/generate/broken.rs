//! Sources broken by a token or a byte, random tokens and raw bytes.

use super::{Pieces, Random};
use crate::tokens::{SYMBOLS, WORDS};

/// Changes a program by one token: one is removed, doubled, swapped with the
/// next, replaced or put in.
pub fn break_token(random: &mut Random, pieces: &mut Pieces) {
    let place = random.below(pieces.len() + 1);
    let stray = stray(random, pieces);
    match random.below(5) {
        0 if place < pieces.len() => {
            pieces.remove(place);
        }
        1 if place < pieces.len() => pieces.insert(place, pieces[place].clone()),
        2 if place + 1 < pieces.len() => pieces.swap(place, place + 1),
        3 if place < pieces.len() => pieces[place] = stray,
        _ => pieces.insert(place, stray),
    }
}

/// Puts one of a program's names in the place of another, or a new name, so
/// that the grammar holds and a name is missing, doubled or of a wrong kind.
pub fn break_name(random: &mut Random, pieces: &mut Pieces) {
    let names: Vec<usize> = (0..pieces.len()).filter(|&place| is_name(&pieces[place])).collect();
    if names.is_empty() {
        return break_token(random, pieces);
    }
    let name = match random.below(4) {
        0 => b"unknown".to_vec(),
        _ => pieces[*random.pick(&names)].clone(),
    };
    pieces[*random.pick(&names)] = name;
}

/// Puts a number at or near a limit in the place of a number.
pub fn break_number(random: &mut Random, pieces: &mut Pieces) {
    const NEAR: [&str; 10] =
        ["0", "1", "4096", "8191", "8192", "8193", "#FFFFFFFF", "#100000000", "2147483647", "2147483648"];
    let is_number =
        |piece: &Vec<u8>| piece.first().is_some_and(|byte| byte.is_ascii_digit() || *byte == b'#');
    let numbers: Vec<usize> = (0..pieces.len()).filter(|&place| is_number(&pieces[place])).collect();
    if numbers.is_empty() {
        return break_token(random, pieces);
    }
    pieces[*random.pick(&numbers)] = (*random.pick(&NEAR)).into();
}

/// Puts a token inside 20 to 40 pairs: `skip` inside braces, any other inside
/// brackets.
pub fn deepen(random: &mut Random, pieces: &mut Pieces) {
    let Some(place) = pieces.len().checked_sub(1).map(|last| random.between(0, last)) else {
        return;
    };
    let count = random.between(20, 40);
    let (open, close) = if pieces[place] == b"skip" { ("{", "}") } else { ("(", ")") };
    let mut nested = vec![open.into(); count];
    nested.push(pieces[place].clone());
    nested.extend(vec![close.into(); count]);
    pieces.splice(place..=place, nested);
}

/// Puts comments before a program so that it has 1,023 to 1,026 tokens.
pub fn crowd(random: &mut Random, pieces: &mut Pieces) {
    let total = random.between(1_023, 1_026);
    let comments = vec![b"||".to_vec(); total.saturating_sub(pieces.len())];
    pieces.splice(0..0, comments);
}

fn is_name(piece: &[u8]) -> bool {
    piece.first().is_some_and(u8::is_ascii_alphabetic)
        && !WORDS.iter().any(|(word, _)| word.as_bytes() == piece)
}

/// A token that may not fit: of the program itself, any word or symbol, a
/// number, byte or comment, or one that is broken, too large or too long.
fn stray(random: &mut Random, pieces: &[Vec<u8>]) -> Vec<u8> {
    const ODD: &str = "|c| || 0 1 8192 9000 2147483647 2147483648 # #1F #FFFFFFFF #100000000 'a' '*#7' \
        ' '' | : \" _ . unknown name_of_thirty_two_bytes_exactly name_of_thirty_three_bytes_or_so_";
    match random.below(4) {
        0 if !pieces.is_empty() => random.pick(pieces).clone(),
        1 => random.pick(&WORDS).0.into(),
        2 => random.pick(&SYMBOLS).0.into(),
        _ => {
            let odd: Vec<&str> = ODD.split_whitespace().collect();
            (*random.pick(&odd)).into()
        }
    }
}

/// Changes a source by one byte: one is removed, replaced or put in, or the
/// source ends before it.
pub fn break_byte(random: &mut Random, source: &mut Vec<u8>) {
    let place = random.below(source.len() + 1);
    let byte = match random.below(3) {
        0 => random.number() as u8,
        1 => *random.pick(b"|'*#\"_:=<>;,()[]{}+-0Aaf \n"),
        _ => random.between(32, 126) as u8,
    };
    match random.below(4) {
        0 if place < source.len() => {
            source.remove(place);
        }
        1 if place < source.len() => source[place] = byte,
        2 => source.truncate(place),
        _ => source.insert(place, byte),
    }
}

/// Random tokens, few of them broken.
pub fn token_soup(random: &mut Random, count: usize) -> Pieces {
    (0..count)
        .map(|_| match random.below(8) {
            0 => stray(random, &[]),
            1 | 2 => random.pick(&WORDS).0.into(),
            3 | 4 => random.pick(&SYMBOLS).0.into(),
            5 => random.pick(&["0", "1", "#a", "'x'"]).as_bytes().to_vec(),
            6 => b"|c|".to_vec(),
            _ => random.pick(&["x", "y", "z"]).as_bytes().to_vec(),
        })
        .collect()
}

/// Random bytes: any, printable ones, or the bytes of tokens.
pub fn raw_bytes(random: &mut Random, length: usize) -> Vec<u8> {
    let sort = random.below(3);
    (0..length)
        .map(|_| match sort {
            0 => random.number() as u8,
            1 => random.between(32, 126) as u8,
            _ => *random.pick(b"  \n\tabcdefnosxyzF019_#'*|:=<>+-()[]{};,"),
        })
        .collect()
}
