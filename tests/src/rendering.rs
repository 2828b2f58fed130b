//! A second rendering of what the programs `report`, `listing` and `explain` write, from document 01 ("The report
//! program"), docs/DECISIONS.md ("Report and listing") and docs/EXPLAIN.md alone, over the second translation and
//! disassembler.

use crate::arm::{disassemble, pattern, Instr, Layout, Op};
use crate::{needed_words, second, Translation, CODE_BYTES, TABLE_WORDS};
use reference::front::accept;
use reference::names::Meaning;
use reference::tokens::{tokens, Kind};

/// What a program writes for a source.
pub type Rendering = fn(&[u8]) -> Vec<u8>;

/// What the report program writes for a source.
pub fn report(source: &[u8]) -> Vec<u8> {
    let (answer, _) = translated(source);
    lines(&answer).into_bytes()
}

/// What the listing program writes for a source: the lines of its image, or those of the report where it is refused.
pub fn listing(source: &[u8]) -> Vec<u8> {
    let (answer, image) = translated(source);
    let text = if answer.status == 0 { image_lines(&image) } else { lines(&answer) };
    text.into_bytes()
}

/// The second translation, on as much room as 1,024 tokens need: no status is 13 or 14. The answer and the image.
pub fn translated(source: &[u8]) -> (Translation, Vec<u8>) {
    let (mut table, mut code) = (vec![0; TABLE_WORDS], vec![0; CODE_BYTES]);
    let answer = second::translate(source, &mut table, &mut code);
    code.truncate(answer.code as usize);
    (answer, code)
}

/// The report's lines, "in this order".
pub fn lines(answer: &Translation) -> String {
    let Translation { status, place, tokens, rows, data, depth, code } = answer;
    format!(
        "status={status}\nplace={place}\ntokens={tokens}\nrows={rows}\ndata={data}\ndepth={depth}\ncode={code}\n"
    )
}

/// A line an instruction, from address 0 on.
pub fn image_lines(image: &[u8]) -> String {
    let half = |at: usize| image.get(at..at + 2).map_or(0, |bytes| u16::from_le_bytes([bytes[0], bytes[1]]));
    let mut text = String::new();
    let mut at = 0;
    while at < image.len() {
        let (line, size) = line(at as u32, half(at), half(at + 2));
        text += &line;
        at += size;
    }
    text
}

/// The line of the halfwords at an address, and how many bytes it stands for: "address in four hexadecimal digits, one
/// or two halfwords, mnemonic and operands". A halfword that is not in the list stands alone.
pub fn line(address: u32, first: u16, second: u16) -> (String, usize) {
    let Some(i) = disassemble(first, second) else {
        return (format!("{address:04X} {first:04X}\n"), 2);
    };
    let (halves, size) = match i.op {
        Op::Bl => (format!("{first:04X} {second:04X}"), 4),
        _ => (format!("{first:04X}"), 2),
    };
    (format!("{address:04X} {halves} {} {}\n", i.op.mnemonic(), operands(address, i)), size)
}

/// The register that takes the result or is stored first, as in "ADDR r0,r1,r2" and "SHRI r0,r0,31"; offsets in bytes,
/// as in "offset 4"; a branch's operand is the address that it goes to.
fn operands(address: u32, i: Instr) -> String {
    let Instr { op, a, b, c, k } = i;
    let bytes = |words: u8| 4 * u32::from(words);
    match pattern(op).1 {
        Layout::Imm5 if matches!(op, Op::Stri | Op::Ldri) => format!("r{c},r{b},{}", bytes(a)),
        Layout::Imm5 | Layout::Count => format!("r{c},r{b},{a}"),
        Layout::Regs3 => format!("r{c},r{b},r{a}"),
        Layout::Imm8 if matches!(op, Op::Movi | Op::Addi | Op::Subi) => format!("r{a},{b}"),
        Layout::Imm8 => format!("r{a},{}", bytes(b)),
        Layout::Regs2 => format!("r{b},r{a}"),
        Layout::Imm7 => format!("{}", bytes(a)),
        Layout::Only8 => format!("{a}"),
        Layout::Near | Layout::Jump | Layout::Call => {
            let target = address.wrapping_add(4).wrapping_add((k as u32) << 1);
            format!("{:04X}", target & 0xffff)
        }
    }
}

/// What the program `explain` writes for a source: docs/EXPLAIN.md.
pub fn explain(source: &[u8]) -> Vec<u8> {
    let (answer, _) = translated(source);
    let text = match answer.status {
        0 => acceptance(source, &answer),
        // "concern the source as a whole"
        1 | 7 | 13 | 14 => format!("refused\n{}", sentence(answer.status)),
        6 => position(source, answer.place as usize) + &grammar(source, answer.place as usize),
        number => position(source, answer.place as usize) + sentence(number),
    };
    text.into_bytes()
}

/// "An accepted source".
fn acceptance(source: &[u8], answer: &Translation) -> String {
    let Translation { tokens, data, depth, code, .. } = *answer;
    let needed = needed_words(data, depth);
    let mut text = format!(
        "accepted\ntokens: {tokens}\ndata words: {data}\nneeded words: {needed}\nimage bytes: {code}\n\n\
        sort   first  words  name\n"
    );
    let accepted = accept(source, TABLE_WORDS, CODE_BYTES).expect("an accepted source");
    for (name, meaning) in &accepted.program.names {
        let name = String::from_utf8_lossy(name.text);
        text += &match meaning {
            Meaning::Var(var) => format!("var  {:>7}{:>7}  {name}\n", var.offset, 1),
            Meaning::Array(array) => format!("array{:>7}{:>7}  {name}\n", array.offset, array.length),
            Meaning::Val(word) => format!("val{:18}{name} = {}\n", "", *word as i32),
        };
    }
    text
}

/// Line, column, the line and the caret.
fn position(source: &[u8], place: usize) -> String {
    let (before, after) = source.split_at(place);
    let line = before.split(|&byte| byte == b'\n').count();
    let left = before.rsplit(|&byte| byte == b'\n').next().expect("a part");
    let right = after.split(|&byte| byte == b'\n').next().expect("a part");
    let column = left.len() + 1;
    // "If the place's column is 72 or less, these are the line's first; else 36 columns are shown before the place"
    let cut = if column <= 72 { 0 } else { left.len() - 36 };
    let shown: String = left.iter().chain(right).skip(cut).take(72).map(|&byte| visible(byte)).collect();
    format!("refused: line {line}, column {column}\n{shown}\n{}^\n", " ".repeat(left.len() - cut))
}

/// "Tab and CR are shown as a space; other bytes below 32 and those above 126 as `?`."
fn visible(byte: u8) -> char {
    match byte {
        b'\t' | b'\r' => ' ',
        32..=126 => char::from(byte),
        _ => '?',
    }
}

/// The sentence of any number but 6.
fn sentence(number: u32) -> &'static str {
    match number {
        1 => "1: the source has more than 16,384 bytes\n",
        2 => {
            "2: no token stands here: an unknown character, a comment without its second |, or a broken literal\n"
        }
        3 => "3: the number is too large: at most 2147483647, or #FFFFFFFF\n",
        4 => "4: the name has more than 32 characters\n",
        5 => {
            "5: the source has more than 1,024 tokens, comments counted: this is the first of the others\n"
        }
        7 => "7: an expression or a process is nested more than 32 deep\n",
        8 => "8: the name is not declared before this place\n",
        9 => "9: the name is declared already\n",
        10 => {
            "10: the name is of the wrong sort here: an array takes a subscript, a var none, a val no new value; \
            a constant is a val\n"
        }
        11 => "11: the length of the array is not 1 to 8,192\n",
        12 => "12: with this name the source has more than 256 names or 8,192 data words\n",
        13 => "13: the table is too short for so many tokens\n",
        14 => "14: the code buffer is too short for so many tokens\n",
        _ => panic!("no sentence for {number}"),
    }
}

/// "An operator is one of `+ - * and or xor >> << = <> < <= > >=`."
#[rustfmt::skip]
fn is_operator(kind: Kind) -> bool {
    use Kind::*;
    matches!(kind, Plus | Minus | Times | And | Or | Xor | ShiftRight | ShiftLeft | Equal | NotEqual | Less
        | LessOrEqual | Greater | GreaterOrEqual)
}

/// The sentence of 6 and the line after it, "by the token at the place and the two before it".
fn grammar(source: &[u8], place: usize) -> String {
    let all = tokens(source).expect("6 comes after 2 to 5");
    let index = all.iter().position(|token| token.place >= place).unwrap_or(all.len());
    let kind = |back: usize| index.checked_sub(back).and_then(|i| all.get(i)).map(|token| token.kind);
    let (met, previous) = (kind(0), kind(1));
    let starts = match kind(2) {
        None => true,
        Some(kind) => {
            use Kind::*;
            matches!(kind, Comment | OpenCurly | Semicolon | Then | Else | Do)
        }
    };
    let what = if met.is_none() {
        "6: the source ends before the program does\n"
    } else {
        "6: no program goes on with this token\n"
    };
    let hint = match (met, previous) {
        (None, None) => "a program has one process at least: skip does nothing\n",
        (None, Some(Kind::Semicolon)) => "after a ; a process or a specification is missing\n",
        (None, Some(_)) => "perhaps an else, a process or a closing bracket is missing\n",
        (Some(met), Some(previous)) if is_operator(met) && is_operator(previous) => {
            "two operators side by side: = compares, a sign stands in brackets, and a val takes no sign\n"
        }
        (Some(Kind::Equal), Some(Kind::Name)) if starts => "perhaps := is meant\n",
        (Some(Kind::Equal), Some(Kind::Name)) => {
            "an expression has one operator; put a part of it in brackets\n"
        }
        (Some(Kind::Equal), _) => "an expression has one operator, and := assigns\n",
        (Some(met), _) if is_operator(met) => {
            "an expression has one operator, or + * and or xor again and again; put a part of it in brackets\n"
        }
        (Some(Kind::Semicolon), _) => {
            "perhaps an if without its else, or processes without { and }; no ; stands after the last process\n"
        }
        (Some(Kind::CloseCurly), _) => "perhaps a ; before the } or an if without its else\n",
        (Some(Kind::Comma), _) => "each name has a specification of its own: var a; var b;\n",
        (Some(Kind::Comment), _) => "a comment stands before a specification or a process only\n",
        (Some(Kind::Name), Some(Kind::Name)) => "perhaps a word such as var or if is not in small letters\n",
        (Some(Kind::Name), _) => "perhaps a ; or an operator is missing before this name\n",
        (Some(_), _) => "",
    };
    format!("{what}{hint}")
}
