//! The parser's refusals against an Earley recogniser: on all short token
//! strings, and along random walks through long prefixes.

use crate::earley::{alphabet, first_misfit, Chart};
use crate::report;
use reference::generate::Random;
use reference::grammar::parse;
use reference::tokens::{Kind, Token};

/// A token string with tokens at every third place.
#[derive(Default)]
struct Text(Vec<Token<'static>>);

impl Text {
    fn push(&mut self, (sample, kind): (&'static str, Kind)) {
        let place = 3 * self.0.len();
        self.0.push(Token { kind, place, text: sample.as_bytes(), value: 1 });
    }

    /// The number of the token at which the parser refuses the string.
    fn refused_at(&self) -> Option<usize> {
        parse(&self.0, 3 * self.0.len()).err().map(|refusal| {
            assert_eq!(refusal.number(), 6);
            refusal.place / 3
        })
    }

    fn expect(&self, misfit: Option<usize>) {
        assert_eq!(self.refused_at(), misfit, "{:?}", self.0);
    }
}

/// Goes through every string of up to `length` further tokens. Strings past a
/// misfit are gone through too if `past_misfit` is set.
fn explore(
    alphabet: &[(&'static str, Kind)],
    length: usize,
    past_misfit: bool,
    text: &mut Text,
    chart: &mut Chart,
) -> usize {
    let mut strings = 0;
    for &sample in alphabet {
        let viable = chart.length() == text.0.len() && chart.push(sample.1);
        text.push(sample);
        text.expect((!viable || !chart.is_program()).then(|| chart.length()));
        strings += 1;
        if length > 1 && (viable || past_misfit) {
            strings += explore(alphabet, length - 1, past_misfit, text, chart);
        }
        text.0.pop();
        if viable {
            chart.pop();
        }
    }
    strings
}

#[test]
fn every_short_string_of_a_small_alphabet() {
    let small = [
        "x", "1", "|c|", "var", "array", "val", "skip", "while", "do", "+", "-", "[", "]", ":=", "=", "{",
        "}", ";",
    ];
    let alphabet: Vec<_> = alphabet().into_iter().filter(|(sample, _)| small.contains(sample)).collect();
    assert_eq!(alphabet.len(), small.len());
    let strings = explore(&alphabet, 5, true, &mut Text::default(), &mut Chart::new());
    report("strings of at most 5 tokens from 18 kinds against the recogniser", strings);
}

#[test]
fn every_viable_short_string_and_each_next_token() {
    let strings = explore(&alphabet(), 7, false, &mut Text::default(), &mut Chart::new());
    report("strings of at most 7 tokens, the last any, against the recogniser", strings);
}

#[test]
fn random_walks_and_each_next_token() {
    let alphabet = alphabet();
    let mut random = Random::new(1);
    let mut strings = 0;
    for _ in 0..300 {
        let (mut text, mut chart) = (Text::default(), Chart::new());
        for _ in 0..60 {
            let mut viable = Vec::new();
            for &sample in &alphabet {
                let fits = chart.push(sample.1);
                text.push(sample);
                text.expect((!fits || !chart.is_program()).then(|| chart.length()));
                text.0.pop();
                strings += 1;
                if fits {
                    chart.pop();
                    viable.push(sample);
                }
            }
            if viable.is_empty() {
                break;
            }
            let sample = *random.pick(&viable);
            chart.push(sample.1);
            text.push(sample);
        }
    }
    report("strings along random walks against the recogniser", strings);
}

#[test]
fn recogniser_knows_a_program() {
    let kinds = [Kind::Var, Kind::Name, Kind::Semicolon, Kind::Name, Kind::Assign, Kind::Number];
    assert_eq!(first_misfit(kinds), None);
    assert_eq!(first_misfit(kinds[..5].to_vec()), Some(5));
    assert_eq!(first_misfit([]), Some(0));
}
