//! What the pages for rule authors are read and checked with: fenced blocks, tables, answers, and runs of sources.

use crate::documents::read;
use std::collections::BTreeMap;
use tests::arm::State;
use tests::{needed_words, proved, Translation, CODE_BYTES, TABLE_WORDS};

/// A fenced block: its language, its text, and the list right below it.
pub struct Block<'p> {
    pub language: &'p str,
    pub text: &'p str,
    pub below: Vec<&'p str>,
}

/// The fenced blocks of a page, in order.
pub fn blocks(page: &str) -> Vec<Block<'_>> {
    let pieces: Vec<&str> = page.split("```").collect();
    let inner = pieces.chunks_exact(2).zip(pieces.iter().skip(2).step_by(2));
    inner
        .map(|(pair, after)| {
            let (language, text) = pair[1].split_once('\n').expect("a language");
            let below = after.trim_start_matches('\n').lines();
            let below = below.take_while(|line| line.starts_with("- ")).map(|line| &line[2..]).collect();
            Block { language, text, below }
        })
        .collect()
}

/// The rows of the tables whose first column has this heading: their cells, bars in code as they are.
pub fn rows(page: &str, heading: &str) -> Vec<Vec<String>> {
    let head = format!("| {heading} |");
    let mut found = Vec::new();
    let mut inside = false;
    for line in page.lines() {
        inside = line.starts_with(&head) || (inside && line.starts_with('|'));
        if inside && !line.starts_with(&head) && !line.starts_with("|---") {
            let line = line.replace("\\|", "\0");
            let cells = line.trim_matches('|').split('|');
            found.push(cells.map(|cell| cell.trim().replace('\0', "|")).collect());
        }
    }
    found
}

/// What stands in backquotes, alone or at the beginning.
pub fn code(cell: &str) -> Option<&str> {
    cell.strip_prefix('`')?.split('`').next()
}

/// A number with commas or none, hexadecimal behind `#`; negative ones as words.
pub fn number(text: &str) -> Option<u64> {
    let text = text.trim().replace(',', "");
    match (text.strip_prefix('#'), text.strip_prefix('-')) {
        (Some(digits), _) => u64::from_str_radix(digits, 16).ok(),
        (_, Some(digits)) => digits.parse().ok().map(|n: u32| u64::from(n.wrapping_neg())),
        _ => text.parse().ok(),
    }
}

pub fn word(text: &str) -> Option<u32> {
    number(text).and_then(|n| u32::try_from(n).ok())
}

/// The header's names that have a plain number.
pub fn defines() -> BTreeMap<String, u32> {
    let text = read("include/gutilamboy.h");
    let defines = text.lines().filter_map(|line| line.strip_prefix("#define "));
    defines
        .filter_map(|line| {
            let mut words = line.split_whitespace();
            Some((words.next()?.to_string(), words.next()?.parse().ok()?))
        })
        .collect()
}

/// A translation, with its table and its code buffer.
pub struct Translated {
    pub answer: Translation,
    pub table: Vec<u32>,
    pub image: Vec<u8>,
}

pub fn translate(source: &[u8]) -> Translated {
    translate_into(source, TABLE_WORDS, CODE_BYTES)
}

pub fn translate_into(source: &[u8], table_words: usize, code_bytes: usize) -> Translated {
    let (mut table, mut image) = (vec![7; table_words], vec![7; code_bytes]);
    let answer = proved::translate(source, &mut table, &mut image);
    image.truncate(answer.code as usize);
    Translated { answer, table, image }
}

/// What is wrong with an answer as a page has it: `6 at 27, the end` or `6 at 31, ` and the text there in backquotes,
/// perhaps with more behind a colon; of a place 0 that stands for none, `1 at 0` alone.
pub fn refused_as(source: &[u8], answer: &Translation, told: &str) -> Option<String> {
    let shown = String::from_utf8_lossy(source);
    let shown = shown.chars().take(80).collect::<String>();
    let Some((number, rest)) = told.split_once(" at ") else {
        return Some(format!("{shown}: no number and place in {told}"));
    };
    let (place, rest) = rest.split_once(", ").unwrap_or((rest, ""));
    let place: usize = match place.replace(',', "").trim().parse() {
        Ok(place) => place,
        Err(_) => return Some(format!("{told}: no place")),
    };
    if (number.trim().parse(), place) != (Ok(answer.status), answer.place as usize) {
        return Some(format!("{shown}: {} at {}, not {told}", answer.status, answer.place));
    }
    let there = source.get(place..).unwrap_or_default();
    let fits = match code(rest) {
        _ if rest.is_empty() => place == 0,
        Some(text) => there.starts_with(text.replace("\\|", "|").as_bytes()),
        None => rest.starts_with("the end") && place == source.len(),
    };
    (!fits).then(|| format!("{shown}: at {place} stands {:?}, not {rest}", String::from_utf8_lossy(there)))
}

/// The ends of a run by the number of their SVC.
pub const ENDS: [&str; 3] = ["finish", "stop", "bad subscript"];

/// Runs an accepted source from the given declared words: how it ends, and the declared words then. The words of the
/// stack are rubbish at the start.
pub fn run(translated: &Translated, declared: &[u32]) -> Result<(&'static str, Vec<u32>), String> {
    let Translation { data, depth, .. } = translated.answer;
    assert_eq!(declared.len(), data as usize, "declared words");
    let mut memory = declared.to_vec();
    memory.resize(needed_words(data, depth), 0xDEAD_BEEF);
    let (status, mut state): (u32, State) = proved::start(&translated.image, &memory, data, depth);
    if status != 0 {
        return Err(format!("start is refused with {status}"));
    }
    let ran = proved::run(&mut state, &translated.image, &mut memory, 1_000_000);
    match ran {
        (1, number, _) if number < 3 => {
            memory.truncate(data as usize);
            Ok((ENDS[number as usize], memory))
        }
        _ => Err(format!("it doesn't end: {ran:?}")),
    }
}
