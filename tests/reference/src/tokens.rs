//! From bytes to tokens, with refusals 1 to 5.

use crate::{Reason, Refusal};

/// "source above 16,384 bytes" is refused.
pub const SOURCE_LIMIT: usize = 16_384;
/// "decimal above 2,147,483,647" is refused, under `-` too.
pub const DECIMAL_LIMIT: u64 = 2_147_483_647;
/// "hex above FFFFFFFF" is refused.
pub const HEXADECIMAL_LIMIT: u64 = 0xFFFF_FFFF;
/// "name above 32 bytes" is refused.
pub const NAME_LIMIT: usize = 32;
/// "more than 1,024 tokens, comments counted" are refused.
pub const TOKEN_LIMIT: usize = 1_024;

/// What a token is. Decimals and hex numbers are one kind: no rule after the
/// tokens tells them apart.
#[rustfmt::skip]
#[derive(Clone, Copy, Debug, PartialEq, Eq, Hash)]
pub enum Kind {
    Name, Number, Byte, Comment,
    And, Array, Do, Else, False, Func, If, Is, Not, Or, Proc,
    Return, Skip, Stop, Then, True, Val, Valof, Var, While, Xor,
    Assign, NotEqual, LessOrEqual, GreaterOrEqual, ShiftLeft, ShiftRight,
    Plus, Minus, Times, Equal, Less, Greater,
    OpenRound, CloseRound, OpenSquare, CloseSquare, OpenCurly, CloseCurly,
    Semicolon, Comma,
}

/// "Reserved: and array do else false func if is not or proc return skip stop
/// then true val valof var while xor."
#[rustfmt::skip]
pub const WORDS: [(&str, Kind); 21] = [
    ("and", Kind::And), ("array", Kind::Array), ("do", Kind::Do), ("else", Kind::Else),
    ("false", Kind::False), ("func", Kind::Func), ("if", Kind::If), ("is", Kind::Is),
    ("not", Kind::Not), ("or", Kind::Or), ("proc", Kind::Proc), ("return", Kind::Return),
    ("skip", Kind::Skip), ("stop", Kind::Stop), ("then", Kind::Then), ("true", Kind::True),
    ("val", Kind::Val), ("valof", Kind::Valof), ("var", Kind::Var), ("while", Kind::While),
    ("xor", Kind::Xor),
];

/// "`:= <> <= >= << >> + - * = < > ( ) [ ] { } ; ,`", the two-byte ones first
/// because tokens are read "longest first".
#[rustfmt::skip]
pub const SYMBOLS: [(&str, Kind); 20] = [
    (":=", Kind::Assign), ("<>", Kind::NotEqual), ("<=", Kind::LessOrEqual),
    (">=", Kind::GreaterOrEqual), ("<<", Kind::ShiftLeft), (">>", Kind::ShiftRight),
    ("+", Kind::Plus), ("-", Kind::Minus), ("*", Kind::Times), ("=", Kind::Equal),
    ("<", Kind::Less), (">", Kind::Greater), ("(", Kind::OpenRound), (")", Kind::CloseRound),
    ("[", Kind::OpenSquare), ("]", Kind::CloseSquare), ("{", Kind::OpenCurly),
    ("}", Kind::CloseCurly), (";", Kind::Semicolon), (",", Kind::Comma),
];

/// A token: its kind, the place of its first byte, its bytes, and the word of
/// a number or byte literal (0 for the other kinds).
#[derive(Clone, Copy, Debug, PartialEq, Eq)]
pub struct Token<'s> {
    pub kind: Kind,
    pub place: usize,
    pub text: &'s [u8],
    pub value: u32,
}

/// Reads all tokens, or gives the refusal: "1 comes first; then 2 to 5 by
/// place, smaller number first at one place".
pub fn tokens(source: &[u8]) -> Result<Vec<Token<'_>>, Refusal> {
    if source.len() > SOURCE_LIMIT {
        return Err(Refusal::new(Reason::SourceTooLong, 0));
    }
    let mut tokens = Vec::new();
    let mut place = 0;
    while place < source.len() {
        if is_blank(source[place]) {
            place += 1;
            continue;
        }
        // Token 1,025 is read before it is counted: 2, 3 and 4 are smaller than 5.
        let scanned = scan(&source[place..]).map_err(|reason| Refusal::new(reason, place))?;
        if tokens.len() == TOKEN_LIMIT {
            return Err(Refusal::new(Reason::TooManyTokens, place));
        }
        tokens.push(Token {
            kind: scanned.kind,
            place,
            text: &source[place..place + scanned.length],
            value: scanned.value,
        });
        place += scanned.length;
    }
    Ok(tokens)
}

/// What one token's bytes are, from its first byte on.
struct Scanned {
    kind: Kind,
    length: usize,
    value: u32,
}

impl Scanned {
    fn plain(kind: Kind, length: usize) -> Self {
        Scanned { kind, length, value: 0 }
    }
}

/// "Space, tab, CR and LF separate."
fn is_blank(byte: u8) -> bool {
    matches!(byte, b' ' | b'\t' | b'\r' | b'\n')
}

/// Reads the token at the start of `rest`, which is not empty. The first byte
/// decides the class of token.
fn scan(rest: &[u8]) -> Result<Scanned, Reason> {
    match rest[0] {
        byte if byte.is_ascii_alphabetic() => scan_name(rest),
        byte if byte.is_ascii_digit() => scan_number(rest, 0, 10, DECIMAL_LIMIT),
        b'#' => scan_number(rest, 1, 16, HEXADECIMAL_LIMIT),
        b'\'' => scan_byte(rest).ok_or(Reason::BrokenToken),
        b'|' => scan_comment(rest).ok_or(Reason::BrokenToken),
        _ => scan_symbol(rest).ok_or(Reason::BrokenToken),
    }
}

/// "names (a letter, then letters, digits, `_`)"; a reserved word is none.
fn scan_name(rest: &[u8]) -> Result<Scanned, Reason> {
    let length = count(rest, |byte| byte.is_ascii_alphanumeric() || byte == b'_');
    let text = &rest[..length];
    let word = WORDS.iter().find(|(word, _)| word.as_bytes() == text);
    match word {
        Some(&(_, kind)) => Ok(Scanned::plain(kind, length)),
        None if length > NAME_LIMIT => Err(Reason::NameTooLong),
        None => Ok(Scanned::plain(Kind::Name, length)),
    }
}

/// "decimals, `#` and hex digits of either case": `start` bytes of prefix, then
/// at least one digit of the base. The limit is on the value, so leading zeros
/// are free; a sum too large for 64 bits stays too large.
fn scan_number(rest: &[u8], start: usize, base: u32, limit: u64) -> Result<Scanned, Reason> {
    let digits = rest[start..].iter().map_while(|&byte| char::from(byte).to_digit(base));
    let length = start + digits.clone().count();
    let value =
        digits.fold(0u64, |value, digit| value.saturating_mul(base.into()).saturating_add(digit.into()));
    if length == start {
        Err(Reason::BrokenToken)
    } else if value > limit {
        Err(Reason::NumberTooLarge)
    } else {
        Ok(Scanned { kind: Kind::Number, length, value: value as u32 })
    }
}

/// "A byte literal is one X character other than `*`, `'`, `"`, or an escape",
/// between quotes.
fn scan_byte(rest: &[u8]) -> Option<Scanned> {
    let (length, value) = match *rest {
        [b'\'', b'*', b'#', high, low, b'\'', ..] => {
            let high = char::from(high).to_digit(16)?;
            let low = char::from(low).to_digit(16)?;
            (6, 16 * high + low)
        }
        [b'\'', b'*', letter, b'\'', ..] => (4, escape(letter)?),
        [b'\'', character, b'\'', ..] if is_literal_character(character) => (3, character.into()),
        _ => return None,
    };
    Some(Scanned { kind: Kind::Byte, length, value })
}

/// "`*c` 13, `*n` 10, `*t` 9, `*s` 32, `*'` 39, `*"` 34, `**` 42".
fn escape(letter: u8) -> Option<u32> {
    match letter {
        b'c' => Some(13),
        b'n' => Some(10),
        b't' => Some(9),
        b's' => Some(32),
        b'\'' => Some(39),
        b'"' => Some(34),
        b'*' => Some(42),
        _ => None,
    }
}

/// "X characters: letters, digits, `!"#&'()*+,-_./:;<=>?[]{}`", here without
/// `*`, `'` and `"`.
pub fn is_literal_character(byte: u8) -> bool {
    byte.is_ascii_alphanumeric() || b"!#&()+,-_./:;<=>?[]{}".contains(&byte)
}

/// "A comment runs from `|` to the next `|`, any other bytes inside."
fn scan_comment(rest: &[u8]) -> Option<Scanned> {
    let inside = rest[1..].iter().position(|&byte| byte == b'|')?;
    Some(Scanned::plain(Kind::Comment, inside + 2))
}

fn scan_symbol(rest: &[u8]) -> Option<Scanned> {
    let (symbol, kind) = SYMBOLS.iter().find(|(symbol, _)| rest.starts_with(symbol.as_bytes()))?;
    Some(Scanned::plain(*kind, symbol.len()))
}

/// How many bytes at the start of `rest` belong to a class.
fn count(rest: &[u8], belongs: impl Fn(u8) -> bool) -> usize {
    rest.iter().take_while(|&&byte| belongs(byte)).count()
}
