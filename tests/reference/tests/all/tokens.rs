//! The tokens against "longest first" taken literally: at each place the token
//! is the longest piece of the source that is a whole token by itself.

use crate::report;
use reference::tokens::{is_literal_character, tokens, Kind, Token, SYMBOLS, WORDS};
use reference::{Reason, Refusal};

/// A whole token: its kind and, if it isn't too large, its value.
type Whole = (Kind, Option<u32>);

/// What these bytes are as one whole token, by the document's descriptions.
fn whole(text: &[u8]) -> Option<Whole> {
    let listed = WORDS.iter().chain(&SYMBOLS).find(|(word, _)| word.as_bytes() == text);
    if let Some((_, kind)) = listed {
        return Some((*kind, Some(0)));
    }
    let spelled = |from: usize, to: usize| std::str::from_utf8(&text[from..to]).ok();
    match text {
        [b'|', inside @ .., b'|'] if !inside.contains(&b'|') => Some((Kind::Comment, Some(0))),
        [b'#', digits @ ..] => {
            let hexadecimal = !digits.is_empty() && digits.iter().all(u8::is_ascii_hexdigit);
            let value = || u32::from_str_radix(spelled(1, text.len())?, 16).ok();
            hexadecimal.then(|| (Kind::Number, value()))
        }
        [first, ..] if first.is_ascii_digit() => {
            let decimal = text.iter().all(u8::is_ascii_digit);
            let value = || spelled(0, text.len())?.parse().ok().filter(|value| *value <= i32::MAX as u32);
            decimal.then(|| (Kind::Number, value()))
        }
        [first, rest @ ..] if first.is_ascii_alphabetic() => {
            let name = rest.iter().all(|&byte| byte == b'_' || byte.is_ascii_alphanumeric());
            name.then_some((Kind::Name, Some(0)))
        }
        [b'\'', b'*', b'#', high, low, b'\''] if high.is_ascii_hexdigit() && low.is_ascii_hexdigit() => {
            Some((Kind::Byte, u32::from_str_radix(spelled(3, 5)?, 16).ok()))
        }
        [b'\'', b'*', letter, b'\''] => {
            let place = b"cnts'\"*".iter().position(|known| known == letter)?;
            Some((Kind::Byte, Some([13, 10, 9, 32, 39, 34, 42][place])))
        }
        [b'\'', character, b'\''] if is_literal_character(*character) => {
            Some((Kind::Byte, Some(u32::from(*character))))
        }
        _ => None,
    }
}

/// Tokens by longest match, for sources that are not too long.
pub fn longest(source: &[u8]) -> Result<Vec<Token<'_>>, Refusal> {
    let mut tokens = Vec::new();
    let mut place = 0;
    while place < source.len() {
        if b" \t\r\n".contains(&source[place]) {
            place += 1;
            continue;
        }
        let refuse = |reason| Err(Refusal::new(reason, place));
        let found = (place + 1..=source.len()).rev().find_map(|end| Some((end, whole(&source[place..end])?)));
        let Some((end, (kind, value))) = found else {
            return refuse(Reason::BrokenToken);
        };
        let Some(value) = value else {
            return refuse(Reason::NumberTooLarge);
        };
        let text = &source[place..end];
        if kind == Kind::Name && text.len() > 32 {
            return refuse(Reason::NameTooLong);
        }
        if tokens.len() == 1_024 {
            return refuse(Reason::TooManyTokens);
        }
        tokens.push(Token { kind, place, text, value });
        place = end;
    }
    Ok(tokens)
}

/// Calls `visit` with every string over the alphabet of up to `length` bytes.
fn every_string(alphabet: &[u8], length: usize, visit: &mut impl FnMut(&[u8])) {
    fn extend(text: &mut Vec<u8>, alphabet: &[u8], length: usize, visit: &mut impl FnMut(&[u8])) {
        visit(text);
        if length > 0 {
            for &byte in alphabet {
                text.push(byte);
                extend(text, alphabet, length - 1, visit);
                text.pop();
            }
        }
    }
    extend(&mut Vec::new(), alphabet, length, visit);
}

#[test]
fn tokens_are_the_longest_pieces() {
    let mut sources = 0;
    for (alphabet, length) in
        [(&b" :=<>+-*()[]{};,"[..], 4), (b"ifdo_G0 9#fF|$", 5), (b"'*#cntsA0\"|", 6), (b"'*#''", 8)]
    {
        every_string(alphabet, length, &mut |source| {
            assert_eq!(tokens(source), longest(source), "{:?}", String::from_utf8_lossy(source));
            sources += 1;
        });
    }
    report("token strings against longest match", sources);
}

#[test]
fn every_first_byte() {
    for byte in 0..=u8::MAX {
        for source in [vec![byte], vec![byte, byte], vec![b'1', byte, b'|'], vec![b'\'', byte, b'\'']] {
            assert_eq!(tokens(&source), longest(&source), "{source:?}");
        }
    }
}
