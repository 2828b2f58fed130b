//! Generated sources, each against other ways to the same answer.

use std::collections::BTreeMap;

use crate::depths::depths;
use crate::earley::first_misfit;
use crate::rows::Interpreter;
use crate::scan::first_complaint;
use crate::tokens::longest;
use crate::{print, report};
use reference::front::{accept, translate_front, Accepted, Outcome};
use reference::generate::{
    edges, program, render, source, starting_words, token_strings, valid_source, Random,
};
use reference::meaning::State;

const TABLE_WORDS: usize = 4 * 1_024;
const CODE_BYTES: usize = 48 * 1_024 + 256;

/// Status and place by other means: longest match, the recogniser and passes
/// over the tokens.
fn expected_verdict(source: &[u8], table_words: usize, code_bytes: usize) -> (u32, usize) {
    if source.len() > 16_384 {
        return (1, 0);
    }
    let tokens = match longest(source) {
        Ok(tokens) => tokens,
        Err(refusal) => return (refusal.number(), refusal.place),
    };
    if table_words < 4 * tokens.len() {
        return (13, 0);
    }
    if code_bytes < 48 * tokens.len() + 256 {
        return (14, 0);
    }
    if let Some(misfit) = first_misfit(tokens.iter().map(|token| token.kind)) {
        return (6, tokens.get(misfit).map_or(source.len(), |token| token.place));
    }
    let (deepest, process_depth) = depths(&tokens);
    if deepest.max(process_depth) > 32 {
        return (7, 0);
    }
    first_complaint(&tokens).unwrap_or((0, 0))
}

/// Checks what holds of every outcome, and the run of an accepted source.
fn check_outcome(source: &[u8], outcome: &Outcome, random: &mut Random) {
    if outcome.status != 0 {
        let refused = Outcome { status: outcome.status, place: outcome.place, ..Outcome::default() };
        assert_eq!(*outcome, refused);
        assert!(outcome.place <= source.len());
        return;
    }
    assert_eq!(outcome.place, 0);
    assert_eq!(outcome.table.len(), 4 * outcome.rows);
    assert!(outcome.rows <= outcome.tokens);
    assert!(outcome.data <= 8_192 && outcome.depth <= 32);
    let tokens = reference::tokens::tokens(source).expect("tokens");
    assert_eq!(outcome.depth, depths(&tokens).0);
    let accepted = accept(source, TABLE_WORDS, CODE_BYTES).expect("accepted");
    check_run(&accepted, random);
}

/// Compares the run with the working out of the table; gives the end's number.
fn check_run(accepted: &Accepted<'_>, random: &mut Random) -> Option<u32> {
    let words = starting_words(random, accepted.program.data as usize);
    let mut state = State::start(&accepted.program, &words);
    state.run(5_000);
    // A row worked out takes at least a move, so fuel for as many moves is enough.
    let fuel = 5_000;
    let counts_tests = false;
    let mut interpreter =
        Interpreter { rows: &accepted.rows, words, accesses: Vec::new(), fuel, counts_tests };
    let end = interpreter.run();
    if state.end.is_some() {
        assert_eq!(state.end, end);
        assert_eq!(state.words, interpreter.words);
        assert_eq!(state.accesses, interpreter.accesses);
    } else {
        let length = state.accesses.len().min(interpreter.accesses.len());
        assert_eq!(state.accesses[..length], interpreter.accesses[..length]);
    }
    state.end.map(|end| end as u32)
}

/// A count for each key, as a line.
fn tally<Key: std::fmt::Debug>(counts: &BTreeMap<Key, usize>) -> String {
    let entries = counts.iter().map(|(key, count)| format!("{key:?}: {count}"));
    entries.collect::<Vec<_>>().join(", ")
}

#[test]
fn edges_are_as_constructed() {
    let edges = edges();
    let mut random = Random::new(1);
    for edge in &edges {
        let outcome = translate_front(&edge.source, edge.table_words, edge.code_bytes);
        let shown = String::from_utf8_lossy(&edge.source);
        assert_eq!((outcome.status, outcome.place), (edge.status, edge.place), "{shown}");
        if edge.source.len() < 1_000 {
            let expected = expected_verdict(&edge.source, edge.table_words, edge.code_bytes);
            assert_eq!(expected, (edge.status, edge.place), "{shown}");
        }
        check_outcome(&edge.source, &outcome, &mut random);
    }
    report("sources at the edges of the limits", edges.len());
}

#[test]
fn valid_sources_are_accepted_and_run() {
    let mut ends = BTreeMap::new();
    let mut largest = 0;
    let seeds = 20_000;
    for seed in 0..seeds {
        let mut random = Random::new(seed);
        let source = valid_source(&mut random);
        let accepted = accept(&source, TABLE_WORDS, CODE_BYTES)
            .unwrap_or_else(|refusal| panic!("{refusal:?} of {}", String::from_utf8_lossy(&source)));
        largest = largest.max(accepted.tokens);
        *ends.entry(check_run(&accepted, &mut random)).or_insert(0) += 1;
    }
    report("valid programs run twice", seeds as usize);
    print(&format!("  largest of {largest} tokens; ends {}", tally(&ends)));
}

#[test]
fn spelling_keeps_the_tokens() {
    let seeds = 2_000;
    for seed in 0..seeds {
        let mut random = Random::new(seed);
        let pieces = program(&mut random, seed as usize % 300);
        let source = render(&mut random, &pieces);
        let tokens = reference::tokens::tokens(&source).expect("tokens");
        assert!(tokens.iter().map(|token| token.text).eq(pieces.iter().map(Vec::as_slice)));
    }
    report("programs spelled and read back", seeds as usize);
}

#[test]
fn any_sources_are_judged_as_expected() {
    let mut statuses = BTreeMap::new();
    let seeds = 60_000;
    for seed in 0..seeds {
        let mut random = Random::new(seed);
        let source = source(&mut random);
        let outcome = translate_front(&source, TABLE_WORDS, CODE_BYTES);
        if source.len() < 500 {
            let expected = expected_verdict(&source, TABLE_WORDS, CODE_BYTES);
            let shown = String::from_utf8_lossy(&source);
            assert_eq!((outcome.status, outcome.place), expected, "seed {seed}: {shown}");
        }
        check_outcome(&source, &outcome, &mut random);
        *statuses.entry(outcome.status).or_insert(0) += 1;
    }
    report("sources of any sort", seeds as usize);
    print(&format!("  by status {}", tally(&statuses)));
}

#[test]
fn short_token_strings_are_judged_as_expected() {
    let alphabet = ["var", "x", "val", "k", "=", "array", "[", "]", "1", ";", ":=", "{", "}", "-", "|c|"];
    let mut random = Random::new(2);
    let mut sources = 0;
    for source in token_strings(&alphabet, 4) {
        let outcome = translate_front(&source, 4 * 3, CODE_BYTES);
        let expected = expected_verdict(&source, 4 * 3, CODE_BYTES);
        assert_eq!((outcome.status, outcome.place), expected, "{}", String::from_utf8_lossy(&source));
        check_outcome(&source, &outcome, &mut random);
        sources += 1;
    }
    report("sources of at most 4 tokens from 15", sources);
}

#[test]
fn a_run_is_its_moves() {
    let seeds = 500;
    for seed in 0..seeds {
        let mut random = Random::new(seed);
        let source = valid_source(&mut random);
        let accepted = accept(&source, TABLE_WORDS, CODE_BYTES).expect("accepted");
        let words = starting_words(&mut random, accepted.program.data as usize);
        let mut stepped = State::start(&accepted.program, &words);
        for moves in 0..60 {
            let mut ran = State::start(&accepted.program, &words);
            assert!(ran.run(moves) <= moves);
            assert_eq!(ran, stepped);
            stepped.step();
        }
    }
    report("programs run and stepped", seeds as usize);
}
