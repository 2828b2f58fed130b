//! docs/CLASSES.md says what is so: its rows against the exported answers and against the second classification, its
//! lines against the manual's and the header's names.

use super::Answer::{self, *};
use super::{both, by_a_step, by_the_manual, is_long, pairs, OUTSIDE, UNDEFINED, UNSUPPORTED};
use crate::documents::{no_complaints, read};
use crate::pages::{code, defines, rows};
use crate::print;
use std::collections::{BTreeMap, BTreeSet};
use tests::arm::{State, OPS};
use tests::{classes, proved};

/// A set of halfwords: which are in it.
struct Halves(Vec<bool>);

/// `XXXX`, or `XXXX-XXXX` with both ends, in hexadecimal: numbers of so many bits.
fn range(text: &str, bits: u32) -> Option<(u16, u16)> {
    let (low, high) = text.split_once('-').unwrap_or((text, text));
    let number = |digits: &str| u16::from_str_radix(digits, 16).ok();
    let (low, high) = (number(low)?, number(high)?);
    (low <= high && u32::from(high) < 1 << bits).then_some((low, high))
}

/// Bits of a halfword: how many, the lowest one's place, and the values that they may have.
struct Bits {
    width: u32,
    place: u32,
    values: Vec<(u16, u16)>,
}

impl Bits {
    /// `bits 3-0 0-1 3-F`, the highest bit before the lowest.
    fn read(text: &str) -> Option<Bits> {
        let (places, values) = text.strip_prefix("bits ")?.split_once(' ')?;
        let (high, low) = places.split_once('-')?;
        let (high, place): (u32, u32) = (high.parse().ok()?, low.parse().ok()?);
        let width = (high + 1).checked_sub(place).filter(|width| *width > 0 && high < 16)?;
        let values: Option<Vec<_>> = values.split(' ').map(|value| range(value, width)).collect();
        Some(Bits { width, place, values: values? })
    }

    fn fit(&self, half: u16) -> bool {
        let value = (u32::from(half) >> self.place & ((1 << self.width) - 1)) as u16;
        self.values.iter().any(|&(low, high)| (low..=high).contains(&value))
    }
}

impl Halves {
    /// A range, then behind commas bits with their values; at least one halfword.
    fn read(cell: &str) -> Option<Halves> {
        let mut parts = cell.split(", ");
        let (low, high) = range(parts.next()?, 16)?;
        let bits: Option<Vec<Bits>> = parts.map(Bits::read).collect();
        let bits = bits?;
        let fits = |half| (low..=high).contains(&half) && bits.iter().all(|bits| bits.fit(half));
        let halves: Vec<bool> = (0..=u16::MAX).map(fits).collect();
        halves.contains(&true).then_some(Halves(halves))
    }

    fn have(&self, half: u16) -> bool {
        self.0[half as usize]
    }

    fn are_within(&self, other: &Halves) -> bool {
        self.0.iter().zip(&other.0).all(|(mine, theirs)| !mine || *theirs)
    }
}

/// `SHLI`, `22`, `26, class 5`, or `second half`, which is what a first half alone says by 21.
fn answer(cell: &str) -> Option<Answer> {
    match cell {
        "22" => Some(UNDEFINED),
        "second half" => Some(OUTSIDE),
        _ => match cell.strip_prefix("26, class ") {
            Some(class) => Some(Fault(UNSUPPORTED, class.parse().ok()?)),
            None => OPS.into_iter().find(|op| op.mnemonic() == cell).map(Ours),
        },
    }
}

/// A line of the table of classes.
struct Line {
    class: u32,
    halves: Halves,
    patterns: String,
    name: String,
}

/// Who says what stands at the beginning of code.
type Reader<'r> = &'r dyn Fn(&[u8]) -> Answer;

/// A row of the two other tables: first halves, second ones if there are any, and what is there.
struct Row {
    text: String,
    first: Halves,
    second: Option<Halves>,
    answer: Answer,
}

impl Row {
    fn have(&self, first: u16, second: u16) -> bool {
        self.first.have(first) && self.second.as_ref().is_none_or(|halves| halves.have(second))
    }
}

/// The page's three tables.
struct Page {
    lines: Vec<Line>,
    firsts: Vec<Row>,
    seconds: Vec<Row>,
}

fn line(cells: &[String]) -> Option<Line> {
    let [class, halves, patterns, name, _] = cells else { return None };
    let (class, halves, name) = (class.parse().ok()?, Halves::read(halves)?, code(name)?.to_string());
    Some(Line { class, halves, patterns: patterns.clone(), name })
}

fn first_row(cells: &[String]) -> Option<Row> {
    let [first, _, told] = cells else { return None };
    Some(Row { text: first.clone(), first: Halves::read(first)?, second: None, answer: answer(told)? })
}

fn second_row(cells: &[String]) -> Option<Row> {
    let [second, first, _, told] = cells else { return None };
    let text = format!("{second} after {first}");
    let (first, second) = (Halves::read(first)?, Some(Halves::read(second)?));
    Some(Row { text, first, second, answer: answer(told)? })
}

impl Page {
    fn read(page: &str) -> Result<Page, String> {
        fn table<T>(page: &str, heading: &str, row: fn(&[String]) -> Option<T>) -> Result<Vec<T>, String> {
            let read = |cells: Vec<String>| row(&cells).ok_or_else(|| format!("not understood: {cells:?}"));
            rows(page, heading).into_iter().map(read).collect()
        }
        let lines = table(page, "class", line)?;
        let (firsts, seconds) =
            (table(page, "first half", first_row)?, table(page, "second half", second_row)?);
        Ok(Page { lines, firsts, seconds })
    }

    /// The lines are the manual's, in order; each has all halfwords with its bits and no others, and the header's name.
    fn wrong_lines(&self, header: &BTreeMap<String, u32>) -> Vec<String> {
        let mut wrong = Vec::new();
        let numbers: Vec<u32> = self.lines.iter().map(|line| line.class).collect();
        if numbers != (1..=classes::LONG).collect::<Vec<_>>() {
            wrong.push(format!("classes {numbers:?}"));
        }
        for Line { class, halves, patterns, name } in &self.lines {
            for first in (0..=u16::MAX).step_by(1 << 10) {
                let told = patterns.split(", ").any(|pattern| classes::fits(pattern, first));
                let is = classes::class(first) == *class;
                // all halfwords with these six bits
                let within = (first..=first | 0x3ff).filter(|half| halves.have(*half)).count();
                if told != is || within != if is { 1 << 10 } else { 0 } {
                    wrong.push(format!("class {class}, {patterns}: {first:04X}"));
                }
            }
            if header.get(name) != Some(class) {
                wrong.push(format!("{name} is not {class}"));
            }
        }
        wrong
    }

    /// A row with a class lies inside the class's line.
    fn wrong_classes(&self) -> Vec<String> {
        let wrong = |row: &&Row| match row.answer {
            Fault(UNSUPPORTED, class) => {
                let line = self.lines.iter().find(|line| line.class == class);
                !line.is_some_and(|line| row.first.are_within(&line.halves))
            }
            _ => false,
        };
        let rows = self.firsts.iter().chain(&self.seconds).filter(wrong);
        rows.map(|row| format!("{} is not within the class of {:?}", row.text, row.answer)).collect()
    }

    /// Every first halfword stands in exactly one row, which has its answer. The first one that doesn't.
    fn wrong_first(&self, reader: Reader) -> Option<String> {
        (0..=u16::MAX).find_map(|first| {
            let rows = self.firsts.iter().filter(|row| row.first.have(first));
            let answers: Vec<Answer> = rows.map(|row| row.answer).collect();
            let want = reader(&first.to_le_bytes());
            (answers != [want]).then(|| format!("{first:04X}: {answers:?}, it is {want:?}"))
        })
    }

    /// The first row that has both halves has their answer: the first pair of which that is not so. If there is none,
    /// the rows that decide nothing.
    fn wrong_seconds(&self, reader: Reader, pairs: impl Iterator<Item = (u16, u16)>) -> Vec<String> {
        let mut unused: BTreeSet<usize> = (0..self.seconds.len()).collect();
        for (first, second) in pairs.filter(|(first, _)| is_long(*first)) {
            let place = self.seconds.iter().position(|row| row.have(first, second));
            let answer = place.map(|place| self.seconds[place].answer);
            let want = reader(&both(first, second));
            if answer != Some(want) {
                return vec![format!("{first:04X} {second:04X}: {answer:?}, it is {want:?}")];
            }
            place.map(|place| unused.remove(&place));
        }
        unused.into_iter().map(|place| format!("{} decides nothing", self.seconds[place].text)).collect()
    }
}

/// What is wrong with a page, by who reads code.
fn complaints(page: &str, header: &BTreeMap<String, u32>, reader: Reader) -> Vec<String> {
    let page = match Page::read(page) {
        Ok(page) => page,
        Err(complaint) => return vec![complaint],
    };
    let mut wrong = page.wrong_lines(header);
    wrong.extend(page.wrong_classes());
    wrong.extend(page.wrong_first(reader));
    // second halves take longest
    if wrong.is_empty() {
        wrong = page.wrong_seconds(reader, pairs().iter().copied());
    }
    wrong
}

/// By the exported calls.
fn exported(code: &[u8]) -> Answer {
    by_a_step(&proved::step, &State::default(), code)
}

#[test]
fn the_page_says_what_is_so() {
    let text = read("docs/CLASSES.md");
    no_complaints(&complaints(&text, &defines(), &exported));
    let page = Page::read(&text).expect("the page");
    let [lines, firsts, seconds] = [page.lines.len(), page.firsts.len(), page.seconds.len()];
    print(&format!(
        "classes: the page's {lines} classes, {firsts} rows of first halves, {seconds} of second ones"
    ));
}

/// The same without the proved calls and the header, with every second half.
#[test]
fn the_page_says_what_the_manual_says() {
    let text = read("docs/CLASSES.md");
    let page = Page::read(&text).expect("the page");
    let names = page.lines.iter().map(|line| (line.name.clone(), line.class)).collect();
    no_complaints(&complaints(&text, &names, &by_the_manual));
    let firsts = (0..=u16::MAX).filter(|first| is_long(*first));
    let all = firsts.flat_map(|first| (0..=u16::MAX).map(move |second| (first, second)));
    no_complaints(&page.wrong_seconds(&by_the_manual, all.clone()));
    print(&format!("classes: the page's second halves are the manual's, all {} pairs", all.count()));
}

/// A text of the page, and another in its place.
const WRONG: &[(&str, &str)] = &[
    // the classes
    ("| 5000-9FFF |", "| 5000-8FFF |"),
    ("| 0101xx, 011xxx, 100xxx |", "| 0101xx, 011xxx |"),
    ("| 010000 |", "| 01000x |"),
    ("| `GUTILAMBOY_CLASS_DATA` |", "| `GUTILAMBOY_CLASS_SPECIAL` |"),
    ("| 6 | A000", "| 7 | A000"),
    ("| E800-FFFF | 11101x, 1111xx |", "| F000-FFFF | 1111xx |"),
    // first halves
    ("| 1C00-1DFF |", "| 1C00-1DFE |"),
    ("| 44FF |", "| 44FE-44FF |"),
    ("| B400 | PUSH of nothing: unpredictable | 22 |\n", ""),
    ("| CMN | 26, class 2 |", "| CMN | 26, class 3 |"),
    ("| SUBS, register | SUBR |", "| SUBS, register | ADDR |"),
    ("| SUBS, register | SUBR |", "| SUBS, register | 26, class 1 |"),
    ("| STRB, register | 26, class 5 |", "| STRB, register | STR |"),
    ("| UDF: undefined for good | 22 |", "| UDF: undefined for good | 26, class 11 |"),
    ("| BKPT | 26, class 8 |", "| BKPT | 22 |"),
    ("bits 2-0 0 | BX", "bits 2-0 1 | BX"),
    ("bits 3-0 0-1 3-F |", "bits 3-0 0-1 4-F |"),
    ("bits 3-0 2 |", "bit 3-0 2 |"),
    ("bits 7-0 01-FF | STM |", "bits 7-0 01-1FF | STM |"),
    ("| 32-bit instructions, below | second half |", "| 32-bit instructions, below | 22 |"),
    ("| E800-EFFF | undefined, whatever follows | 22 |", "| E800-EFFF | 32-bit | second half |"),
    // second halves
    ("| 0000-7FFF | F000-F7FF |", "| 0000-8FFF | F000-F7FF |"),
    ("bits 11-8 0-C E,", "bits 11-8 0-E,"),
    ("05-09 10 14 | F3EF |", "05-09 10 | F3EF |"),
    ("05-09 10 14 | F380", "04-09 10 14 | F380"),
    ("| F380-F38F, bits 3-0 0-C E |", "| F380-F38F, bits 3-0 0-F |"),
    ("| F380-F38F,", "| F380-F39F,"),
    ("| 8F40-8F6F |", "| 8F40-8F7F |"),
    ("| 9000-CFFF | F000-F7FF |", "| 9000-CFFF | F000-F7EF |"),
    ("| D000-DFFF | F000-F7FF |", "| D000-D7FF | F000-F7FF |"),
    ("farther too | 26, class 13 |", "farther too | 26, class 12 |"),
    ("| BL with J1 = J2 = 1 | BL |", "| BL with J1 = J2 = 1 | 26, class 13 |"),
    ("| F800-FFFF | F000-F7FF |", "| F800-FFFF | F000-F7FF | undefined | 22 |\n| F800-FFFF | F000-F7FF |"),
];

/// The check itself: a page that is wrong in one place is noticed.
#[test]
fn wrong_pages_are_noticed() {
    let page = read("docs/CLASSES.md");
    let passes = |page: &str| complaints(page, &defines(), &by_the_manual).is_empty();
    assert!(passes(&page), "the page as it is");
    for (old, new) in WRONG {
        assert!(page.contains(old), "{old}");
        assert!(!passes(&page.replacen(old, new, 1)), "{new} for {old}");
    }
}
