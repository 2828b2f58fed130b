//! docs/REFUSALS.md says what is so: each example is tried with the proved calls, and each number has the header's name.

use crate::classes::MET;
use crate::documents::{no_complaints, quoted, read};
use crate::pages::{code, defines, number, refused_as, rows, run, translate, translate_into};
use crate::print;
use std::collections::{BTreeMap, BTreeSet};
use tests::arm::State;
use tests::classes::LONG;
use tests::{proved, CODE_BYTES, TABLE_WORDS};

/// A source of parts: `text`, or so many times `text`, joined by "then".
fn built(parts: &str) -> Option<Vec<u8>> {
    let mut source = Vec::new();
    for (i, (before, text)) in quoted(parts).into_iter().enumerate() {
        let before = if i == 0 { before } else { before.strip_prefix(" then ")? };
        let count = match before.strip_suffix(" times ") {
            None if before.is_empty() => None,
            count => Some(number(count?)?),
        };
        for i in 0..count.unwrap_or(1) {
            let text = if count.is_some() { text.replace('%', &i.to_string()) } else { text.to_string() };
            source.extend_from_slice(text.as_bytes());
        }
    }
    Some(source)
}

/// A source, perhaps with a short buffer, and its answer: a refusal with its place, or the end of its run.
fn source_example(told: &str) -> Result<(), String> {
    let (parts, rest) = match told.split_once("`, with ") {
        Some((parts, rest)) => (format!("{parts}`"), rest),
        None => told.split_once("`: ").map(|(parts, rest)| (format!("{parts}`"), rest)).ok_or("no answer")?,
    };
    let (lent, answer) = rest.split_once(": ").filter(|_| told.contains("`, with ")).unwrap_or(("", rest));
    let lent = |unit: &str| lent.strip_suffix(unit).and_then(number);
    let source = built(&parts).ok_or("no source")?;
    let table = lent(" words of table").map_or(TABLE_WORDS, |n| n as usize);
    let code = lent(" bytes of code").map_or(CODE_BYTES, |n| n as usize);
    let translated = translate_into(&source, table, code);
    if answer.contains(" at ") {
        return refused_as(&source, &translated.answer, answer).map_or(Ok(()), Err);
    }
    if translated.answer.status != 0 {
        return Err(format!("refused: {:?}", translated.answer));
    }
    let (end, _) = run(&translated, &vec![0; translated.answer.data as usize])?;
    (end == answer).then_some(()).ok_or_else(|| format!("it ends by {end}"))
}

/// A machine call: its name, its fields, and what it is lent.
struct Call<'c> {
    name: &'c str,
    fields: BTreeMap<&'c str, u32>,
    code: Vec<u8>,
    memory: Vec<u32>,
}

impl<'c> Call<'c> {
    /// `step, code 2005, pc = 1`, `start, data = 1, depth = 2, memory of 12 words`, `encode, op = 5, ...`.
    fn read(told: &'c str) -> Option<Call<'c>> {
        let mut parts = told.split(", ");
        let name = parts.next()?;
        let mut call = Call { name, fields: BTreeMap::new(), code: Vec::new(), memory: Vec::new() };
        for part in parts {
            if let Some((name, value)) = part.split_once(" = ") {
                call.fields.insert(name, u32::try_from(number(value)?).ok()?);
            } else if let Some(length) = part.strip_prefix("code of ") {
                call.code = vec![0; number(length.strip_suffix(" bytes")?)? as usize];
            } else if let Some(length) = part.strip_prefix("memory of ") {
                call.memory = vec![0; number(length.strip_suffix(" words")?)? as usize];
            } else {
                for half in part.strip_prefix("code ")?.split(' ') {
                    call.code.extend_from_slice(&u16::from_str_radix(half, 16).ok()?.to_le_bytes());
                }
            }
        }
        Some(call)
    }

    fn field(&mut self, name: &str) -> Option<u32> {
        self.fields.remove(name)
    }

    /// Status and number.
    fn step(&mut self) -> (u32, u32) {
        let mut state = State { pc: self.field("pc").unwrap_or(0), ..State::default() };
        (0..8).for_each(|r| state.r[r] = self.field(&format!("r{r}")).unwrap_or(0));
        let before = (state.clone(), self.memory.clone());
        let answer = proved::step(&mut state, &self.code, &mut self.memory);
        if answer.0 != 0 {
            assert_eq!(before, (state, self.memory.clone()), "{answer:?} changed something");
        }
        answer
    }

    fn start(&mut self) -> Option<u32> {
        let (data, depth) = (self.field("data")?, self.field("depth")?);
        let (status, state) = proved::start(&self.code, &self.memory, data, depth);
        if status != 0 {
            assert_eq!(state, State::default(), "{status}");
        }
        Some(status)
    }

    fn encode(&mut self) -> Option<u32> {
        let mut byte = |name: &str| self.field(name).and_then(|n| u8::try_from(n).ok());
        let [op, a, b, c] = [byte("op")?, byte("a")?, byte("b")?, byte("c")?];
        let [status, rest @ ..] = proved::encode(op, a, b, c, self.field("k")? as i32);
        if status != 0 {
            assert_eq!(rest, [0; 3], "{status}");
        }
        Some(status)
    }

    /// Status and number, which is 0 but of a step; none if there is a field that the call doesn't have.
    fn answer(&mut self) -> Option<(u32, u32)> {
        let answer = match self.name {
            "step" => self.step(),
            "start" => (self.start()?, 0),
            "encode" => (self.encode()?, 0),
            _ => return None,
        };
        self.fields.is_empty().then_some(answer)
    }
}

/// A status, of 26 with the class, which is its number: `26, class 5`. The number of all others is 0.
fn told_answer(told: &str) -> Option<(u32, u32)> {
    match told.split_once(", class ") {
        Some((status @ "26", class)) => status.parse().ok().zip(class.parse().ok()),
        None if told != "26" => Some((told.parse().ok()?, 0)),
        _ => None,
    }
}

fn example(told: &str) -> Result<(), String> {
    if !["step, ", "start, ", "encode, "].iter().any(|call| told.starts_with(call)) {
        return source_example(told);
    }
    let (call, answer) = told.rsplit_once(": ").ok_or("no answer")?;
    let told = told_answer(answer).ok_or("no answer")?;
    let got = Call::read(call).and_then(|mut call| call.answer()).ok_or("not understood")?;
    (got == told).then_some(()).ok_or_else(|| format!("it answers {got:?}"))
}

/// The numbers that need a section: translation 1 to 14, SVC 0 to 2, faults 21 to 24 and 26, refusals 31 to 35.
fn wanted() -> BTreeSet<String> {
    let numbers = (1..=14).chain(21..=24).chain([26]).chain(31..=35).map(|n: u32| n.to_string());
    numbers.chain((0..3).map(|n| format!("SVC {n}"))).collect()
}

/// Whether an example's answer is of the status that its section is about: alone, with a place, or with a class.
fn is_of(value: &str, told: &str) -> bool {
    let answer = told.rsplit_once("`: ").or(told.rsplit_once(": ")).map_or("", |(_, answer)| answer);
    let rest = answer.strip_prefix(value);
    rest.is_some_and(|rest| rest.is_empty() || rest.starts_with(" at ") || rest.starts_with(", class "))
}

/// A part of the page: its number, what is wrong with it, and how many examples it has.
fn section<'p>(part: &'p str, header: &BTreeMap<String, u32>) -> (&'p str, Vec<String>, usize) {
    let mut wrong = Vec::new();
    let heading = part.lines().next().expect("a heading");
    let (told, name) = heading.split('`').next().zip(heading.split('`').nth(1)).expect("a name");
    let told = told.trim();
    let value = told.strip_prefix("SVC ").unwrap_or(told);
    if header.get(name).map(u32::to_string).as_deref() != Some(value) {
        wrong.push(format!("{name} is not {told}"));
    }
    let text = part.split("\n# ").next().expect("a part");
    let examples: Vec<&str> = text.lines().filter_map(|line| line.strip_prefix("- ")).collect();
    // of an SVC the answer is a word
    if !examples.iter().any(|example| told != value || is_of(value, example)) {
        wrong.push(format!("{heading}: no example"));
    }
    for told in &examples {
        wrong.extend(example(told).err().map(|complaint| format!("{told}: {complaint}")));
    }
    (told, wrong, examples.len())
}

/// What is wrong with the table of classes: not all in order, a name with another number than the header's, "none" at a
/// class that an answer can have, or not at another; another line than docs/CLASSES.md has.
fn wrong_classes(page: &str, header: &BTreeMap<String, u32>) -> Vec<String> {
    let table = rows(page, "class");
    let classes: Vec<Option<u32>> = table.iter().map(|row| row[0].parse().ok()).collect();
    let wrong = table.iter().zip(&classes).filter(|(row, class)| {
        let named = row.get(1).and_then(|cell| code(cell)).and_then(|name| header.get(name));
        let none = row.get(2).is_some_and(|cell| cell.starts_with("none"));
        named != class.as_ref() || none == class.is_some_and(|class| MET.contains(&(class as usize)))
    });
    let mut wrong: Vec<String> = wrong.map(|(row, _)| format!("wrong class: {row:?}")).collect();
    let lines = |page: &str, column: usize| -> Vec<Option<String>> {
        rows(page, "class").iter().map(|row| row.get(column).cloned()).collect()
    };
    if lines(page, 3) != lines(&read("docs/CLASSES.md"), 4) {
        wrong.push("other lines than docs/CLASSES.md has".to_string());
    }
    if !classes.iter().copied().eq((1..=LONG).map(Some)) {
        wrong.push(format!("classes {classes:?}"));
    }
    wrong
}

/// What is wrong with a page, and how many examples it has.
fn complaints(page: &str) -> (Vec<String>, usize) {
    let header = defines();
    let mut wrong = wrong_classes(page, &header);
    let mut seen = BTreeSet::new();
    let mut count = 0;
    for part in page.split("\n## ").skip(1) {
        let (told, complaints, examples) = section(part, &header);
        wrong.extend(complaints);
        count += examples;
        if !seen.insert(told.to_string()) {
            wrong.push(format!("{told} stands twice"));
        }
    }
    wrong.extend(
        wanted().symmetric_difference(&seen).map(|number| format!("{number}: no section, or no number")),
    );
    (wrong, count)
}

#[test]
fn the_page_says_what_is_so() {
    let (wrong, count) = complaints(&read("docs/REFUSALS.md"));
    no_complaints(&wrong);
    assert!(count > 40, "the page was not read as it is written");
    print(&format!("refusals: {} numbers, {count} examples", wanted().len()));
}

/// The examples that stand one step inside a limit are accepted, so that they are as short as they can be.
#[test]
fn limits_are_exact() {
    for inside in [
        "`|` then 16,378 times `a` then `|skip`",
        "`var ` then 32 times `n` then `; skip`",
        "`{` then 510 times `skip;` then `{}}`",
        "`var a; a := ` then 31 times `(` then `1` then 31 times `)`",
        "`var a; a := ` then 31 times `1 + ` then `1`",
        "31 times `{` then `skip` then 31 times `}`",
        "`array a [ 8191 ]; var b; skip`",
        "255 times `var n%; ` then `var more; skip`",
    ] {
        let source = built(inside).expect("a source");
        assert_eq!(translate(&source).answer.status, 0, "{inside}");
    }
    assert_eq!(translate_into(b"skip", 4, 304).answer.status, 0);
}

/// The check itself: a page that is wrong in one place is noticed.
#[test]
fn wrong_pages_are_noticed() {
    let page = read("docs/REFUSALS.md");
    for (old, new) in [
        ("16,379 times", "16,378 times"),
        ("33 times `n`", "32 times `n`"),
        ("5 at 2,560", "5 at 2,561"),
        ("`skip;`: 6 at 4, `;`", "`skip;`: 6 at 4, `}`"),
        ("`skip;`: 6 at 4, `;`", "`skip;`: 7 at 4, `;`"),
        ("with 3 words of table", "with 4 words of table"),
        ("with 303 bytes", "with 304 bytes"),
        ("- `stop`: stop", "- `stop`: finish"),
        ("code 6800, r0 = 2: 23", "code 6800, r0 = 4: 23"),
        ("code 6800, r0 = 2: 23", "code 6800, r9 = 2: 23"),
        ("memory of 13 words: 0", "memory of 13 words: 33"),
        ("`GUTILAMBOY_TOO_DEEP`: ", "`GUTILAMBOY_GRAMMAR`: "),
        ("## 9 `", "## 19 `"),
        ("- `var a; var a; skip`: 9 at 11, `a`\n", ""),
        ("encode, op = 5, a = 8", "encode, op = 5, a = 7"),
        ("code DE00: 22", "code DE00: 26, class 11"),
        ("code 1C00: 26, class 1", "code 1C00: 26, class 2"),
        ("code 1C00: 26, class 1", "code 1C00: 26"),
        ("code 1C00: 26, class 1", "code 1C00: 22"),
        ("| 2 | `GUTILAMBOY_CLASS_DATA` |", "| 2 | `GUTILAMBOY_CLASS_SPECIAL` |"),
        ("| 9 | `GUTILAMBOY_CLASS_STORE_MULTIPLE` | STM | store of several registers |\n", ""),
        ("| STM | store of several registers |", "| STM | load of several registers |"),
        (
            "| 9 | `GUTILAMBOY_CLASS_STORE_MULTIPLE` | STM |",
            "| 9 | `GUTILAMBOY_CLASS_STORE_MULTIPLE` | none |",
        ),
        ("| 12 | `GUTILAMBOY_CLASS_BRANCH` | none", "| 12 | `GUTILAMBOY_CLASS_BRANCH` | some"),
    ] {
        assert!(page.contains(old), "{old}");
        assert!(!complaints(&page.replacen(old, new, 1)).0.is_empty(), "{new} for {old}");
    }
}
