//! The lookup of reserved words: what `program_word_cases` must write, against a second lookup, and the same names in sources.

use crate::{print, repository};
use reference::tokens::WORDS;
use tests::{proved, second, CODE_BYTES, TABLE_WORDS};

/// The kinds and values of the reserved words' tokens, by `x_spelling`'s `Kinds`; `true` and `false` are numbers.
#[rustfmt::skip]
const TOKENS: [(u32, u32); 21] = [
    (34, 0), (14, 0), (22, 0), (20, 0), (1, 0), (25, 0), (18, 0), (28, 0), (23, 0), (35, 0), (24, 0),
    (27, 0), (16, 0), (17, 0), (19, 0), (1, u32::MAX), (15, 0), (26, 0), (13, 0), (21, 0), (36, 0),
];

/// How many reserved words a name is compared with, and the token of the one that it is.
type Looked = (usize, Option<(u32, u32)>);

/// The reserved words with a property, in document 01's order, each with its token.
fn reserved(has: impl Fn(&str) -> bool) -> Vec<(&'static str, (u32, u32))> {
    WORDS.iter().map(|(word, _)| *word).zip(TOKENS).filter(|(word, _)| has(word)).collect()
}

fn same_letter(word: &str, name: &str) -> bool {
    word.chars().next() == name.chars().next()
}

/// "the reserved words of its length and first letter"
fn candidates(name: &str) -> Vec<(&'static str, (u32, u32))> {
    reserved(|word| word.len() == name.len() && same_letter(word, name))
}

/// "compare a name in full only with" these, "in document 01's order up to the match"
fn lookup(name: &str) -> Looked {
    let candidates = candidates(name);
    match candidates.iter().position(|(word, _)| *word == name) {
        Some(i) => (i + 1, Some(candidates[i].1)),
        None => (candidates.len(), None),
    }
}

fn characters() -> impl Iterator<Item = char> {
    ('a'..='z').chain('A'..='Z').chain('0'..='9').chain(['_'])
}

/// A word with a place that is its own or the next taken by every character.
fn varied(word: &str, place: usize) -> Vec<String> {
    let rest = word.get(place + 1..).unwrap_or("");
    characters().map(|c| format!("{}{c}{rest}", &word[..place])).collect()
}

/// A word with one `_` after another behind it, up to 33 bytes.
fn extended(word: &str) -> Vec<String> {
    (word.len() + 1..=33).map(|n| format!("{word:_<n$}")).collect()
}

const OTHERS: [&str; 12] = [
    "",
    "x",
    "it",
    "If",
    "IS",
    "size",
    "tray",
    "total",
    "aisle",
    "faulty",
    "remove",
    "vvvvvvvvvvvvvvvvvvvvvvvvvvvvvvvvv",
];

/// What the program writes, by a lookup.
fn rendering(lookup: fn(&str) -> Looked) -> String {
    let shown = |name: &str| match lookup(name) {
        (n, Some((kind, value))) => format!("{name} {n} reserved {kind}:{value}\n"),
        (n, None) => format!("{name} {n} name\n"),
    };
    let counts = |names: Vec<String>| names.iter().map(|name| lookup(name).0.to_string()).collect::<String>();
    let mut text = String::from("a name, its comparisons, what it is\n");
    text += &format!("with ? for each of {} in turn: a digit each\n", characters().collect::<String>());
    text += "with .. for one _ after another, up to 33 bytes: a digit each\n";
    for (word, ..) in WORDS {
        (1..=word.len()).for_each(|n| text += &shown(&word[..n]));
        for place in 1..=word.len() {
            let rest = word.get(place + 1..).unwrap_or("");
            text += &format!("{}?{rest} {}\n", &word[..place], counts(varied(word, place)));
        }
        text += &format!("{word}.. {}\n", counts(extended(word)));
    }
    text + &OTHERS.map(shown).concat()
}

fn stored() -> String {
    std::fs::read_to_string(repository().join("crates/program_word_cases/stdout"))
        .expect("the program's output")
}

/// The gate compares the program's output with the stored one, and this the stored one with the second lookup's.
#[test]
fn stored_lookups() {
    assert_eq!(stored(), rendering(lookup));
    let count = |name: &str| lookup(name).0;
    assert_eq!(["is", "it", "if", "x"].map(count), [2, 2, 1, 0]);
    assert_eq!(
        ["skip", "stop", "step", "then", "true", "val", "var", "and"].map(count),
        [1, 2, 2, 1, 2, 1, 2, 1]
    );
    print(&format!("words: {} lines of names and their comparisons", stored().lines().count()));
}

/// Every one of these names declared: the translation's answer is the second one's.
#[test]
fn names_like_reserved_words() {
    let of_word = |word: &str| {
        let prefixes = (1..=word.len()).map(|n| word[..n].to_string());
        let varied = (1..=word.len()).flat_map(|place| varied(word, place));
        prefixes.chain(varied).chain(extended(word)).collect::<Vec<_>>()
    };
    let names: Vec<_> = WORDS.iter().flat_map(|(word, ..)| of_word(word)).collect();
    let mut refused = 0;
    for name in &names {
        let source = format!("var {name}; {name} := 1");
        let [(got, buffers), (want, second_buffers)] =
            [proved::translate, second::translate].map(|translate| {
                let (mut table, mut code) = (vec![7; TABLE_WORDS], vec![7; CODE_BYTES]);
                (translate(source.as_bytes(), &mut table, &mut code), (table, code))
            });
        assert_eq!(got, want, "{name}");
        assert!(buffers == second_buffers, "{name}");
        let expected = if lookup(name).1.is_some() { 6 } else { 4 * u32::from(name.len() > 32) };
        assert_eq!(got.status, expected, "{name}");
        refused += u32::from(got.status == 6);
    }
    print(&format!("words: {} names declared, {refused} of them reserved", names.len()));
}

/// The comparison itself: these in the lookup's place are noticed.
#[test]
fn wrong_lookups_are_noticed() {
    fn without_the_match(name: &str) -> Looked {
        let (n, found) = lookup(name);
        (n - usize::from(found.is_some()), found)
    }
    fn by_letter_alone(name: &str) -> Looked {
        (reserved(|word| same_letter(word, name)).len(), lookup(name).1)
    }
    fn past_the_match(name: &str) -> Looked {
        (candidates(name).len(), lookup(name).1)
    }
    fn one_of_a_pair(name: &str) -> Looked {
        if name == "true" {
            (1, None)
        } else {
            lookup(name)
        }
    }
    for wrong in [without_the_match, by_letter_alone, past_the_match, one_of_a_pair] {
        assert!(stored() != rendering(wrong));
    }
}

/// The functions of a source file that call `equal`, and how often.
fn comparing(source: &str) -> Vec<(&str, usize)> {
    let functions = source.split("\nfn ").flat_map(|part| part.split("\npub fn ")).skip(1);
    let calls = |body: &str| body.matches(" equal(").count();
    functions.map(|f| (f.split('(').next().expect("a name"), calls(f))).filter(|(_, n)| *n > 0).collect()
}

/// No contract can say how often code calls a function: this reads that a name is compared where it is counted.
#[test]
fn every_comparison_is_counted() {
    let source =
        std::fs::read_to_string(repository().join("crates/x_spelling/src/lib.rt")).expect("the code");
    assert_eq!(comparing(&source), [("only", 1), ("pair", 2)]);
    let another = source.replace("    match w.len() {", "    if equal(w, b\"is\") {}\n    match w.len() {");
    assert_eq!(comparing(&another), [("only", 1), ("pair", 2), ("look_up", 1)]);
}
