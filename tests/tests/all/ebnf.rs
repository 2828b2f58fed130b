//! The grammar of docs/LANGUAGE.md, read from the page: sources are made from it and recognized by it, and the proved
//! translation has to agree: sources made from it are refused neither as broken (2) nor for their grammar (6), and any
//! source is so refused exactly where the page's grammar can't go on.

use crate::documents::{no_complaints, read};
use crate::pages::{blocks, translate};
use crate::{by_status, print};
use reference::generate::{self, Random};
use std::collections::{BTreeMap, BTreeSet};

// ── reading ──

enum Rule {
    Text(Vec<u8>),
    /// One byte of those marked.
    Byte(Vec<bool>),
    Name(usize),
    Sequence(Vec<Rule>),
    Choice(Vec<Rule>),
    Many(Box<Rule>),
    Maybe(Box<Rule>),
}

/// The productions by number, in the page's order.
struct Grammar {
    names: Vec<String>,
    rules: Vec<Rule>,
    /// How many productions from the start are of tokens.
    lexical: usize,
    /// The productions of which each is a token, and of these the spelled ones.
    tokens: Vec<usize>,
    reserved: usize,
    symbol: usize,
}

/// Marks, names and quoted texts of a grammar's text; `? ... ?` is one mark.
fn marks(text: &str) -> Vec<String> {
    let mut found = Vec::new();
    let mut rest = text.trim_start();
    while let Some(first) = rest.chars().next() {
        let length = match first {
            '"' | '\'' | '?' => 2 + rest[1..].find(first).expect("the other end"),
            _ if first.is_alphabetic() => rest.find(|c: char| !c.is_alphabetic()).unwrap_or(rest.len()),
            _ => 1,
        };
        found.push(rest[..length].to_string());
        rest = rest[length..].trim_start();
    }
    found
}

/// `A to Z, 0 to 9` or `all but |`.
fn bytes_of(text: &str) -> Vec<bool> {
    let text = text.trim_matches(['?', ' ']);
    if let Some(but) = text.strip_prefix("all but ") {
        return (0..256).map(|byte| byte != usize::from(but.as_bytes()[0])).collect();
    }
    let mut bytes = vec![false; 256];
    for range in text.split(", ") {
        let (from, to) = range.split_once(" to ").expect("a range");
        bytes[usize::from(from.as_bytes()[0])..=usize::from(to.as_bytes()[0])].fill(true);
    }
    bytes
}

struct Reader<'m> {
    marks: &'m [String],
    names: &'m [String],
}

impl Reader<'_> {
    fn next(&mut self) -> &str {
        let (first, rest) = self.marks.split_first().expect("a mark");
        self.marks = rest;
        first
    }

    fn choice(&mut self) -> Rule {
        let mut choices = vec![self.sequence()];
        while self.marks[0] == "|" {
            self.next();
            choices.push(self.sequence());
        }
        if choices.len() == 1 {
            choices.remove(0)
        } else {
            Rule::Choice(choices)
        }
    }

    fn sequence(&mut self) -> Rule {
        let mut parts = Vec::new();
        while !["|", ";", ")", "]", "}"].contains(&self.marks[0].as_str()) {
            parts.push(self.part());
        }
        Rule::Sequence(parts)
    }

    fn part(&mut self) -> Rule {
        let mark = self.next().to_string();
        match mark.chars().next().expect("a mark") {
            '"' | '\'' => Rule::Text(mark.as_bytes()[1..mark.len() - 1].to_vec()),
            '?' => Rule::Byte(bytes_of(&mark)),
            '(' | '[' | '{' => {
                let inner = self.choice();
                self.next();
                match mark.as_str() {
                    "[" => Rule::Maybe(Box::new(inner)),
                    "{" => Rule::Many(Box::new(inner)),
                    _ => inner,
                }
            }
            _ => {
                let known = self.names.iter().position(|name| *name == mark);
                Rule::Name(known.unwrap_or_else(|| panic!("{mark} has no production")))
            }
        }
    }
}

/// The page's two grammars, of tokens and of programs, as one.
fn grammar(page: &str) -> Grammar {
    let parts: Vec<Vec<String>> =
        blocks(page).iter().filter(|block| block.language == "ebnf").map(|block| marks(block.text)).collect();
    assert_eq!(parts.len(), 2, "tokens and programs");
    let heads = |part: &[String]| -> Vec<String> {
        part.windows(2).filter(|pair| pair[1] == "=").map(|pair| pair[0].clone()).collect()
    };
    let names: Vec<String> = parts.iter().flat_map(|part| heads(part)).collect();
    let all = parts.concat();
    let mut reader = Reader { marks: &all, names: &names };
    let mut rules = Vec::new();
    while !reader.marks.is_empty() {
        assert_eq!(reader.next(), names[rules.len()]);
        assert_eq!(reader.next(), "=");
        rules.push(reader.choice());
        assert_eq!(reader.next(), ";");
    }
    let number = |name: &str| names.iter().position(|known| known == name).expect("a production");
    let (reserved, symbol) = (number("reserved"), number("symbol"));
    let tokens = choices_of(&rules[number("token")]);
    Grammar { lexical: heads(&parts[0]).len(), names: names.clone(), rules, tokens, reserved, symbol }
}

/// The productions that a production chooses among.
fn choices_of(rule: &Rule) -> Vec<usize> {
    let Rule::Choice(choices) = rule else { panic!("a choice") };
    let name = |rule: &Rule| match rule {
        Rule::Sequence(parts) => match parts[..] {
            [Rule::Name(name)] => name,
            _ => panic!("a production"),
        },
        _ => panic!("a production"),
    };
    choices.iter().map(name).collect()
}

impl Grammar {
    fn number(&self, name: &str) -> usize {
        self.names.iter().position(|known| known == name).unwrap_or_else(|| panic!("no {name}"))
    }

    /// The quoted texts of a rule.
    fn texts(&self, rule: &Rule, found: &mut BTreeSet<Vec<u8>>) {
        match rule {
            Rule::Text(text) => {
                found.insert(text.clone());
            }
            Rule::Byte(_) | Rule::Name(_) => {}
            Rule::Sequence(rules) | Rule::Choice(rules) => rules.iter().for_each(|r| self.texts(r, found)),
            Rule::Many(rule) | Rule::Maybe(rule) => self.texts(rule, found),
        }
    }
}

// ── recognizing ──

/// A token: its production, its bytes and its place.
#[derive(Clone)]
struct Token {
    of: usize,
    text: Vec<u8>,
    place: usize,
}

/// The places where a rule can end that begins at a place, of bytes.
fn ends_in_bytes(grammar: &Grammar, rule: &Rule, source: &[u8], at: usize) -> BTreeSet<usize> {
    match rule {
        Rule::Text(text) => source[at..].starts_with(text).then_some(at + text.len()).into_iter().collect(),
        Rule::Byte(bytes) => {
            source.get(at).filter(|byte| bytes[usize::from(**byte)]).map(|_| at + 1).into_iter().collect()
        }
        Rule::Name(name) => ends_in_bytes(grammar, &grammar.rules[*name], source, at),
        Rule::Sequence(rules) => rules.iter().fold(BTreeSet::from([at]), |ends, rule| {
            ends.iter().flat_map(|end| ends_in_bytes(grammar, rule, source, *end)).collect()
        }),
        Rule::Choice(rules) => {
            rules.iter().flat_map(|rule| ends_in_bytes(grammar, rule, source, at)).collect()
        }
        Rule::Many(rule) => repeated(at, |end| ends_in_bytes(grammar, rule, source, end)),
        Rule::Maybe(rule) => ends_in_bytes(grammar, rule, source, at).into_iter().chain([at]).collect(),
    }
}

/// Where any number of repetitions can end.
fn repeated(at: usize, mut once: impl FnMut(usize) -> BTreeSet<usize>) -> BTreeSet<usize> {
    let mut ends = BTreeSet::from([at]);
    let mut left = vec![at];
    while let Some(end) = left.pop() {
        left.extend(once(end).into_iter().filter(|end| ends.insert(*end)));
    }
    ends
}

/// The tokens of a source, the longest taken each time, a reserved word before a name; or the place where none starts.
fn tokens(grammar: &Grammar, source: &[u8]) -> Result<Vec<Token>, usize> {
    let mut found = Vec::new();
    let mut at = 0;
    while at < source.len() {
        if b" \t\r\n".contains(&source[at]) {
            at += 1;
            continue;
        }
        let longest = |of: &usize| {
            let end = ends_in_bytes(grammar, &grammar.rules[*of], source, at).pop_last();
            end.map(|end| (end, *of == grammar.reserved, *of))
        };
        let (end, _, of) = grammar.tokens.iter().filter_map(longest).max().ok_or(at)?;
        found.push(Token { of, text: source[at..end].to_vec(), place: at });
        at = end;
    }
    Ok(found)
}

/// The recognizer of programs over tokens: where a production can end, and the furthest token looked at. All ways are
/// gone, so that a token is looked at only if some program begins with those before it.
struct Recognizer<'g> {
    grammar: &'g Grammar,
    tokens: &'g [Token],
    known: BTreeMap<(usize, usize), BTreeSet<usize>>,
    furthest: usize,
}

impl Recognizer<'_> {
    fn token(&mut self, at: usize, fits: impl Fn(&Token) -> bool) -> BTreeSet<usize> {
        self.furthest = self.furthest.max(at);
        self.tokens.get(at).filter(|token| fits(token)).map(|_| at + 1).into_iter().collect()
    }

    fn ends(&mut self, rule: &Rule, at: usize) -> BTreeSet<usize> {
        let spelled = [self.grammar.reserved, self.grammar.symbol];
        match rule {
            Rule::Text(text) => self.token(at, |token| spelled.contains(&token.of) && token.text == *text),
            Rule::Byte(_) => panic!("a byte among tokens"),
            Rule::Name(name) if *name < self.grammar.lexical => self.token(at, |token| token.of == *name),
            Rule::Name(name) => {
                if let Some(ends) = self.known.get(&(*name, at)) {
                    return ends.clone();
                }
                let ends = self.ends(&self.grammar.rules[*name], at);
                self.known.insert((*name, at), ends.clone());
                ends
            }
            Rule::Sequence(rules) => rules.iter().fold(BTreeSet::from([at]), |ends, rule| {
                ends.iter().flat_map(|end| self.ends(rule, *end)).collect()
            }),
            Rule::Choice(rules) => rules.iter().flat_map(|rule| self.ends(rule, at)).collect(),
            Rule::Many(rule) => repeated(at, |end| self.ends(rule, end)),
            Rule::Maybe(rule) => self.ends(rule, at).into_iter().chain([at]).collect(),
        }
    }
}

/// What the page's grammar says of a source: a program, or the number and the place of its refusal.
fn judged(grammar: &Grammar, source: &[u8]) -> Option<(u32, usize)> {
    let tokens = match tokens(grammar, source) {
        Ok(tokens) => tokens,
        Err(place) => return Some((2, place)),
    };
    let mut recognizer = Recognizer { grammar, tokens: &tokens, known: BTreeMap::new(), furthest: 0 };
    let program = grammar.number("program");
    let last = recognizer.ends(&Rule::Name(program), 0).pop_last();
    if last == Some(tokens.len()) {
        return None;
    }
    let stuck = recognizer.furthest.max(last.unwrap_or(0));
    Some((6, tokens.get(stuck).map_or(source.len(), |token| token.place)))
}

/// How a source's translation differs from what the page's grammar says; limits on sizes (1, 3, 4, 5) are not its matter.
fn difference(grammar: &Grammar, source: &[u8], counts: &mut [u64]) -> Option<String> {
    let answer = translate(source).answer;
    counts[answer.status as usize] += 1;
    let want = match answer.status {
        1 | 3 | 4 | 5 => return None,
        2 | 6 => Some((answer.status, answer.place as usize)),
        _ => None,
    };
    let told = judged(grammar, source);
    (told != want).then(|| format!("{}: {want:?}, the page says {told:?}", String::from_utf8_lossy(source)))
}

// ── making ──

/// Makes sources, and counts which choices were taken, by the choice's address.
struct Maker<'g> {
    grammar: &'g Grammar,
    random: Random,
    heights: Vec<usize>,
    taken: BTreeSet<(usize, usize)>,
}

impl<'g> Maker<'g> {
    fn new(grammar: &'g Grammar, seed: u64) -> Self {
        let mut maker = Maker {
            grammar,
            random: Random::new(seed),
            heights: vec![1_000; grammar.rules.len()],
            taken: BTreeSet::new(),
        };
        for _ in 0..grammar.rules.len() {
            maker.heights = grammar.rules.iter().map(|rule| 1 + maker.height(rule)).collect();
        }
        maker
    }

    /// How many productions deep the shallowest text of a rule is.
    fn height(&self, rule: &Rule) -> usize {
        match rule {
            Rule::Text(_) | Rule::Byte(_) | Rule::Many(_) | Rule::Maybe(_) => 0,
            Rule::Name(name) => self.heights[*name],
            Rule::Sequence(rules) => rules.iter().map(|rule| self.height(rule)).max().unwrap_or(0),
            Rule::Choice(rules) => rules.iter().map(|rule| self.height(rule)).min().expect("a choice"),
        }
    }

    /// The pieces of a text of the rule, tokens whole; shallow ones where nothing is left to spend.
    fn pieces(&mut self, rule: &Rule, left: usize, found: &mut Vec<Vec<u8>>) {
        let grammar = self.grammar;
        match rule {
            Rule::Text(text) => found.push(text.clone()),
            Rule::Byte(bytes) => {
                let all: Vec<u8> = (0..=255).filter(|byte| bytes[usize::from(*byte)]).collect();
                found.push(vec![*self.random.pick(&all)]);
            }
            Rule::Name(name) => {
                let start = found.len();
                let less = left.saturating_sub(1);
                self.pieces(&grammar.rules[*name], less, found);
                if grammar.tokens.contains(name) {
                    let whole = found.split_off(start).concat();
                    let is_word =
                        ends_in_bytes(grammar, &grammar.rules[grammar.number("reserved")], &whole, 0);
                    // a reserved word is no name
                    let whole = if is_word.contains(&whole.len()) { b"box".to_vec() } else { whole };
                    found.push(whole);
                }
            }
            Rule::Sequence(rules) => rules.iter().for_each(|rule| self.pieces(rule, left, found)),
            Rule::Choice(rules) => {
                let fits = |index: &usize| self.height(&rules[*index]) <= left;
                let mut open: Vec<usize> = (0..rules.len()).filter(fits).collect();
                if open.is_empty() {
                    let shallow = rules.iter().map(|rule| self.height(rule)).min();
                    open = (0..rules.len()).filter(|i| Some(self.height(&rules[*i])) == shallow).collect();
                }
                let index = *self.random.pick(&open);
                self.taken.insert((rule as *const Rule as usize, index));
                self.pieces(&rules[index], left, found);
            }
            Rule::Many(inner) | Rule::Maybe(inner) => {
                let most = if matches!(rule, Rule::Many(_)) { 5 } else { 1 };
                let count = if self.height(inner) <= left { self.random.below(most + 1) } else { 0 };
                self.taken.insert((rule as *const Rule as usize, count));
                (0..count).for_each(|_| self.pieces(inner, left, found));
            }
        }
    }

    /// A source: the pieces with separators, which may be left out beside a bracket or a semicolon.
    fn source(&mut self) -> Vec<u8> {
        let mut pieces = Vec::new();
        let left = self.random.between(4, 10);
        self.pieces(&Rule::Name(self.grammar.number("program")), left, &mut pieces);
        let mut source = Vec::new();
        let mut alone = true;
        for piece in pieces {
            let apart = [&b"("[..], b")", b"[", b"]", b"{", b"}", b";"].contains(&&piece[..]);
            if !(alone || apart) || self.random.one_in(3) {
                source.extend_from_slice(self.random.pick(&[" ", "\n", "\t", "\r\n", "   "]).as_bytes());
            }
            source.extend_from_slice(&piece);
            alone = apart;
        }
        source
    }

    /// The choices and repetitions of the productions that no source has gone through: each alternative, and each
    /// repetition with none, with one and with several.
    fn untouched(&self) -> Vec<String> {
        let mut found = Vec::new();
        for (name, rule) in self.grammar.names.iter().zip(&self.grammar.rules) {
            self.untouched_in(name, rule, &mut found);
        }
        found
    }

    fn untouched_in(&self, name: &str, rule: &Rule, found: &mut Vec<String>) {
        let (inner, ways): (Vec<&Rule>, usize) = match rule {
            Rule::Choice(rules) => (rules.iter().collect(), rules.len()),
            Rule::Many(rule) => (vec![rule], 3),
            Rule::Maybe(rule) => (vec![rule], 2),
            Rule::Sequence(rules) => (rules.iter().collect(), 0),
            Rule::Text(_) | Rule::Byte(_) | Rule::Name(_) => return,
        };
        let left = (0..ways).filter(|way| !self.taken.contains(&(rule as *const Rule as usize, *way)));
        found.extend(left.map(|way| format!("{name}: way {way} of {ways}")));
        inner.into_iter().for_each(|rule| self.untouched_in(name, rule, found));
    }
}

// ── the page ──

/// Sources to compare with, none of them long: whole ones, broken ones, and all of few tokens.
fn compared(count: usize) -> impl Iterator<Item = Vec<u8>> {
    static FEW: [&str; 15] =
        ["x", "1", "'a'", "|c|", "var", "val", "=", ":=", "skip", "{", "}", ";", "-", "if", "then"];
    let mut random = Random::new(31);
    let any = (0..count).map(move |_| generate::source(&mut random)).filter(|source| source.len() < 600);
    any.chain(generate::token_strings(&FEW, 3).take(count))
}

#[test]
fn the_grammar_is_the_translators() {
    let grammar = grammar(&read("docs/LANGUAGE.md"));
    let mut counts = [0; 16];
    let mut maker = Maker::new(&grammar, 32);
    let made = 5_000;
    let mut wrong = Vec::new();
    for _ in 0..made {
        let source = maker.source();
        wrong.extend(difference(&grammar, &source, &mut counts));
    }
    no_complaints(&wrong);
    assert_eq!([2, 6, 3, 4].map(|status| counts[status]), [0; 4], "of sources made from the page");
    print(&format!("ebnf: {made} sources made from the page's grammar: {}", by_status(&counts)));
    // `token`, `reserved` and `symbol` are lists; no program is made from them
    let lists = ["token: ", "reserved: ", "symbol: "];
    let left = maker.untouched().into_iter().filter(|way| !lists.iter().any(|list| way.starts_with(list)));
    no_complaints(&left.collect::<Vec<_>>());
    let mut counts = [0; 16];
    no_complaints(&compared(5_000).filter_map(|s| difference(&grammar, &s, &mut counts)).collect::<Vec<_>>());
    print(&format!("ebnf: other sources, refused as the page's grammar says: {}", by_status(&counts)));
}

/// Each word and symbol that programs are made of is a token, and each token is of use but those kept for later.
#[test]
fn words_and_symbols_are_tokens() {
    let grammar = grammar(&read("docs/LANGUAGE.md"));
    let (mut listed, mut of_use) = (BTreeSet::new(), BTreeSet::new());
    [grammar.reserved, grammar.symbol].iter().for_each(|n| grammar.texts(&grammar.rules[*n], &mut listed));
    grammar.rules[grammar.lexical..].iter().for_each(|rule| grammar.texts(rule, &mut of_use));
    let later = ["func", "is", "proc", "return", "valof", ","].map(|word| word.as_bytes().to_vec());
    of_use.extend(later);
    assert_eq!(listed, of_use);
}

/// The comparison itself: a grammar that is wrong in one place is noticed.
#[test]
fn wrong_grammars_are_noticed() {
    let page = read("docs/LANGUAGE.md");
    for (old, new) in [
        ("process \"else\" process", "process [ \"else\" process ]"),
        ("{ \";\" process } ]", "{ \";\" process } [ \";\" ] ]"),
        ("[ process { \";\" process } ]", "process { \";\" process }"),
        ("= { comment } action", "= { comment } action { comment }"),
        ("operand single operand", "operand single operand { single operand }"),
        ("{ \"+\" operand }", ""),
        ("\"-\" operand\n", "\"-\" expression\n"),
        ("\"val\" name \"=\" constant", "\"val\" name \"=\" [ \"-\" ] constant"),
        ("\"var\" name\n", "\"var\" name { \",\" name }\n"),
        ("specification \";\" }", "specification [ \";\" ] }"),
        ("constant      = number | byte", "constant      = number"),
        ("| digit | \"_\" }", "| digit }"),
        ("\"#\" hexdigit { hexdigit }", "\"#\" { hexdigit }"),
        ("\"c\" | \"n\"", "\"c\" | \"v\" | \"n\""),
        ("\"|\" { inside } \"|\"", "\"|\" { inside }"),
        ("\"/\"\n", "\"/\" | \"$\"\n"),
        ("\">=\" | \"<<\"", "\">=\""),
    ] {
        assert!(page.contains(old), "{old}");
        let grammar = grammar(&page.replacen(old, new, 1));
        let mut maker = Maker::new(&grammar, 33);
        let made = (0..2_000).map(|_| maker.source());
        let mut counts = [0; 16];
        let seen = made.chain(compared(2_000)).find_map(|s| difference(&grammar, &s, &mut counts));
        assert!(seen.is_some(), "{new} for {old}");
    }
}
