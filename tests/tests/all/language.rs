//! docs/LANGUAGE.md says what is so: its examples are translated by the proved call and run by the proved machine, its
//! tables of values, mistakes and limits are tried row by row. Its grammar: `ebnf`.

use crate::documents::{no_complaints, read};
use crate::pages::{blocks, code, defines, refused_as, rows, run, translate, word, Block};
use crate::print;

/// The declared variables and arrays of a source, in order, with their words: from its text and the table's rows.
fn declared(source: &str, table: &[u32]) -> Vec<(String, usize, usize)> {
    let plain: String = source.split('|').step_by(2).collect::<Vec<_>>().join(" ");
    let words: Vec<&str> = plain.split(|c: char| c.is_whitespace() || "[;".contains(c)).collect();
    let names = words.windows(2).filter(|pair| pair[0] == "var" || pair[0] == "array").map(|pair| pair[1]);
    let rows = table.chunks_exact(4).filter(|row| row[0] == 1 || row[0] == 2);
    names.zip(rows).map(|(name, row)| (name.to_string(), row[1] as usize, row[2] as usize)).collect()
}

/// Puts the words of `name = 1 2 3` parts in their places; which words have been put.
fn put(parts: &str, names: &[(String, usize, usize)], words: &mut [u32]) -> Result<Vec<bool>, String> {
    let mut done = vec![false; words.len()];
    for part in parts.split(';').map(str::trim).filter(|part| !part.is_empty()) {
        let (name, values) = part.split_once(" = ").ok_or_else(|| format!("{part}: no words"))?;
        let known = names.iter().find(|(known, _, _)| known == name);
        let (_, first, count) = known.ok_or_else(|| format!("{name} is not declared"))?;
        let values: Option<Vec<u32>> = values.split(' ').map(word).collect();
        let values = values.filter(|values| values.len() == *count);
        let values = values.ok_or_else(|| format!("{part}: {count} words are needed"))?;
        words[*first..first + count].copy_from_slice(&values);
        done[*first..first + count].fill(true);
    }
    Ok(done)
}

/// Where the words lie: `weight 0 to 3; limit 4`.
fn places(names: &[(String, usize, usize)]) -> String {
    let place = |(name, first, count): &(String, usize, usize)| match count {
        1 => format!("{name} {first}"),
        _ => format!("{name} {first} to {}", first + count - 1),
    };
    names.iter().map(place).collect::<Vec<_>>().join("; ")
}

/// An example with the lines below it.
fn example(block: &Block) -> Result<(), String> {
    let source = block.text;
    let translated = translate(source.as_bytes());
    let line = |label: &str| block.below.iter().find_map(|line| line.strip_prefix(label));
    if let Some(told) = line("refused: ") {
        return refused_as(source.as_bytes(), &translated.answer, told).map_or(Ok(()), Err);
    }
    if translated.answer.status != 0 {
        return Err(format!("refused: {:?}", translated.answer));
    }
    let names = declared(source, &translated.table);
    if line("words: ").is_some_and(|told| told != places(&names)) {
        return Err(format!("its words are {}", places(&names)));
    }
    let mut words = vec![0; translated.answer.data as usize];
    let given = put(line("starts: ").ok_or("no starting words")?, &names, &mut words)?;
    if given.contains(&false) {
        return Err("not all starting words are given".to_string());
    }
    let (end, after) = run(&translated, &words)?;
    let told = line("ends: ").ok_or("no end")?;
    let (told, changed) = told.split_once(';').unwrap_or((told, ""));
    let mut want = words.clone();
    put(changed, &names, &mut want)?;
    if told != end {
        return Err(format!("it ends by {end}"));
    }
    (after == want).then_some(()).ok_or_else(|| format!("{after:?} at the end, not {want:?}"))
}

/// An expression and its value.
fn value(expression: &str, told: &str) -> Option<String> {
    let source = format!("var it; it := {expression}");
    let translated = translate(source.as_bytes());
    if translated.answer.status != 0 {
        return Some(format!("{expression}: refused with {}", translated.answer.status));
    }
    let want = word(told).map(|word| ("finish", vec![word])).ok_or_else(|| "a value".to_string());
    let got = run(&translated, &[0x1234_5678]);
    (got != want).then(|| format!("{expression}: {got:?}, not {told}"))
}

/// The limits, with the header's names for them and for their refusals.
const LIMITS: [(&str, &str, &str); 8] = [
    ("bytes", "SOURCE_BYTES", "LONG_SOURCE"),
    ("tokens, each comment one", "TOKENS", "MANY_TOKENS"),
    ("bytes of a name", "NAME_BYTES", "LONG_NAME"),
    ("names, vals counted", "NAMES", "TOO_MUCH"),
    ("words of all variables and arrays", "DATA_WORDS", "TOO_MUCH"),
    ("words of an array", "DATA_WORDS", "ARRAY_LENGTH"),
    ("depth of an expression", "DEPTH", "TOO_DEEP"),
    ("depth of a process", "DEPTH", "TOO_DEEP"),
];

/// What is wrong with the table of limits.
fn wrong_limits(page: &str) -> Vec<String> {
    let header = defines();
    let number = |name: &str| header[&format!("GUTILAMBOY_{name}")];
    let rows: Vec<Vec<String>> = rows(page, "of a rule");
    let told = |row: &Vec<String>| {
        let most = row[1].split(", ").next().and_then(word);
        (row[0].clone(), most, word(&row[2]))
    };
    let want =
        LIMITS.map(|(what, most, refusal)| (what.to_string(), Some(number(most)), Some(number(refusal))));
    let equal = rows.iter().map(told).eq(want);
    if equal {
        Vec::new()
    } else {
        vec![format!("the limits are not the header's: {rows:?}")]
    }
}

/// What is wrong with a page, and how many examples, values and mistakes it has.
fn complaints(page: &str) -> (Vec<String>, [usize; 3]) {
    let mut wrong = wrong_limits(page);
    let examples: Vec<Block> = blocks(page).into_iter().filter(|block| block.language == "x").collect();
    for block in &examples {
        wrong.extend(example(block).err().map(|complaint| format!("{}{complaint}", block.text)));
    }
    let values: Vec<Vec<String>> = [rows(page, "literal"), rows(page, "expression")].concat();
    for row in &values {
        wrong.extend(value(code(&row[0]).expect("an expression"), &row[1]));
    }
    let mistakes = rows(page, "wrong");
    for row in &mistakes {
        let [bad, good] = [&row[0], &row[2]].map(|cell| code(cell).expect("a source"));
        let answer = translate(bad.as_bytes()).answer;
        if answer.status == 0 {
            wrong.push(format!("{bad} is accepted"));
        }
        wrong.extend(refused_as(bad.as_bytes(), &answer, &row[1]));
        let answer = translate(good.as_bytes()).answer;
        if answer.status != 0 {
            wrong.push(format!("{good} is refused with {} at {}", answer.status, answer.place));
        }
    }
    (wrong, [examples.len(), values.len(), mistakes.len()])
}

#[test]
fn the_page_says_what_is_so() {
    let (wrong, [examples, values, mistakes]) = complaints(&read("docs/LANGUAGE.md"));
    no_complaints(&wrong);
    assert!(examples >= 10 && values > 30 && mistakes > 30, "the page was not read as it is written");
    print(&format!(
        "language: {examples} examples run, {values} values, {mistakes} mistakes with their right forms"
    ));
}

/// The check itself: a page that is wrong in one place is noticed.
#[test]
fn wrong_pages_are_noticed() {
    let page = read("docs/LANGUAGE.md");
    for (old, new) in [
        ("limit 4; heavy 5", "limit 5; heavy 4"),
        ("refused: 6 at 26", "refused: 6 at 25"),
        ("| 1,024 | 5 |", "| 1,023 | 5 |"),
        ("| 1,024 | 5 |", "| 1,024 | 6 |"),
        ("heavy = 2; i = 4", "heavy = 3; i = 4"),
        ("heavy = 2; i = 4", "heavy = 2"),
        ("limit = 100; heavy = 77", "limit = 100"),
        ("weight = 120 80 300 0;", "weight = 120 80 300;"),
        ("- ends: stop", "- ends: finish"),
        ("- ends: bad subscript\n", "- ends: finish\n"),
        ("while i < places do {", "while i < places {"),
        ("| `2 + 3 + 4` | 9 |", "| `2 + 3 + 4` | 8 |"),
        ("| `'*t'` | 9 |", "| `'*v'` | 9 |"),
        ("6 at 27, the end", "6 at 26, the end"),
        ("6 at 27, the end", "8 at 27, the end"),
        ("6 at 25, `}`", "6 at 25, `{`"),
        ("| 6 at 5, `,`", "| `,`"),
        ("| `7 = 7` | -1 |", "| `7 = 7` | true |"),
        ("| `var a; { a := 1; a := 2 }` |", "| `var a; { a := 1; a := 2; }` |"),
        ("| `var a, b; skip` |", "| `var a; skip` |"),
    ] {
        assert!(page.contains(old), "{old}");
        assert!(!complaints(&page.replacen(old, new, 1)).0.is_empty(), "{new} for {old}");
    }
}
