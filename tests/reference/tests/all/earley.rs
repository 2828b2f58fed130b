//! An Earley recogniser over token kinds, with document 01's grammar written
//! out as productions. Every nonterminal can be completed and none is empty, so
//! a prefix can be continued to a program exactly if its last set has an item.

use std::sync::OnceLock;

use reference::tokens::{Kind, SYMBOLS, WORDS};

/// The productions, words standing for themselves if they are no left side.
const GRAMMAR: &[(&str, &str)] = &[
    ("program", "commented-process"),
    ("program", "commented-specification ; program"),
    ("commented-specification", "specification"),
    ("commented-specification", "COMMENT commented-specification"),
    ("commented-process", "process"),
    ("commented-process", "COMMENT commented-process"),
    ("specification", "var NAME"),
    ("specification", "array NAME [ constant ]"),
    ("specification", "val NAME = constant"),
    ("constant", "NUMBER"),
    ("constant", "BYTE"),
    ("constant", "true"),
    ("constant", "false"),
    ("constant", "NAME"),
    ("process", "skip"),
    ("process", "stop"),
    ("process", "NAME := expression"),
    ("process", "NAME [ expression ] := expression"),
    ("process", "{ }"),
    ("process", "{ processes }"),
    ("process", "if expression then commented-process else commented-process"),
    ("process", "while expression do commented-process"),
    ("processes", "commented-process"),
    ("processes", "processes ; commented-process"),
    ("expression", "operand"),
    ("expression", "- operand"),
    ("expression", "not operand"),
    ("expression", "operand diadic operand"),
    ("expression", "sum"),
    ("expression", "product"),
    ("expression", "conjunction"),
    ("expression", "disjunction"),
    ("expression", "exclusion"),
    ("sum", "operand + operand"),
    ("sum", "operand + sum"),
    ("product", "operand * operand"),
    ("product", "operand * product"),
    ("conjunction", "operand and operand"),
    ("conjunction", "operand and conjunction"),
    ("disjunction", "operand or operand"),
    ("disjunction", "operand or disjunction"),
    ("exclusion", "operand xor operand"),
    ("exclusion", "operand xor exclusion"),
    ("diadic", "-"),
    ("diadic", ">>"),
    ("diadic", "<<"),
    ("diadic", "="),
    ("diadic", "<>"),
    ("diadic", "<"),
    ("diadic", "<="),
    ("diadic", ">"),
    ("diadic", ">="),
    ("operand", "constant"),
    ("operand", "NAME [ expression ]"),
    ("operand", "( expression )"),
];

/// The nonterminal that all starts with, by its first production.
const PROGRAM: usize = 0;

/// Every kind of token, with a sample of it.
pub fn alphabet() -> Vec<(&'static str, Kind)> {
    let classes = [("x", Kind::Name), ("1", Kind::Number), ("'a'", Kind::Byte), ("|c|", Kind::Comment)];
    classes.into_iter().chain(WORDS).chain(SYMBOLS).collect()
}

fn terminal(word: &str) -> Kind {
    match word {
        "NAME" => Kind::Name,
        "NUMBER" => Kind::Number,
        "BYTE" => Kind::Byte,
        "COMMENT" => Kind::Comment,
        _ => alphabet().iter().find(|(sample, _)| *sample == word).expect("a token's text").1,
    }
}

/// A nonterminal is named by the number of its first production.
#[derive(Clone, Copy, PartialEq, Eq)]
enum Symbol {
    Token(Kind),
    Rule(usize),
}

struct Production {
    left: usize,
    right: Vec<Symbol>,
}

fn rule(word: &str) -> Option<usize> {
    GRAMMAR.iter().position(|(left, _)| *left == word)
}

fn productions() -> &'static [Production] {
    static PRODUCTIONS: OnceLock<Vec<Production>> = OnceLock::new();
    let symbol = |word: &str| rule(word).map_or_else(|| Symbol::Token(terminal(word)), Symbol::Rule);
    PRODUCTIONS.get_or_init(|| {
        let production = |(left, right): &(&str, &str)| Production {
            left: rule(left).expect("a left side"),
            right: right.split(' ').map(symbol).collect(),
        };
        GRAMMAR.iter().map(production).collect()
    })
}

/// How far a production is read, from which set on.
#[derive(Clone, Copy, PartialEq, Eq)]
struct Item {
    production: usize,
    read: usize,
    origin: usize,
}

impl Item {
    fn next(&self) -> Option<Symbol> {
        productions()[self.production].right.get(self.read).copied()
    }

    fn advanced(&self) -> Item {
        Item { read: self.read + 1, ..*self }
    }
}

/// The productions of a nonterminal, none of which is read yet.
fn predicted(left: usize, origin: usize) -> impl Iterator<Item = Item> {
    let productions = productions().iter().enumerate();
    productions.filter(move |(_, production)| production.left == left).map(move |(production, _)| Item {
        production,
        read: 0,
        origin,
    })
}

/// The sets of items after each token of a prefix that can be continued.
pub struct Chart {
    sets: Vec<Vec<Item>>,
}

impl Chart {
    pub fn new() -> Self {
        let mut chart = Chart { sets: Vec::new() };
        chart.push_closed(predicted(PROGRAM, 0).collect());
        chart
    }

    /// The number of tokens read.
    pub fn length(&self) -> usize {
        self.sets.len() - 1
    }

    /// Reads one token more, if a program can continue with it.
    pub fn push(&mut self, kind: Kind) -> bool {
        let waiting = self.sets[self.length()].iter();
        let read: Vec<_> =
            waiting.filter(|item| item.next() == Some(Symbol::Token(kind))).map(Item::advanced).collect();
        let viable = !read.is_empty();
        if viable {
            self.push_closed(read);
        }
        viable
    }

    pub fn pop(&mut self) {
        self.sets.pop();
    }

    /// Whether what was read is a program.
    pub fn is_program(&self) -> bool {
        self.sets[self.length()].iter().any(|item| {
            item.origin == 0 && productions()[item.production].left == PROGRAM && item.next().is_none()
        })
    }

    /// Adds a set with all that follows from its items.
    fn push_closed(&mut self, mut set: Vec<Item>) {
        let mut at = 0;
        while at < set.len() {
            let item = set[at];
            let more: Vec<_> = match item.next() {
                Some(Symbol::Token(_)) => Vec::new(),
                Some(Symbol::Rule(left)) => predicted(left, self.sets.len()).collect(),
                None => {
                    let done = Some(Symbol::Rule(productions()[item.production].left));
                    let waiting = self.sets[item.origin].iter();
                    waiting.filter(|item| item.next() == done).map(Item::advanced).collect()
                }
            };
            for item in more {
                if !set.contains(&item) {
                    set.push(item);
                }
            }
            at += 1;
        }
        self.sets.push(set);
    }
}

/// The number of the first token that no program continues with, or of all
/// tokens if they end too early; nothing for a program.
pub fn first_misfit(kinds: impl IntoIterator<Item = Kind>) -> Option<usize> {
    let mut chart = Chart::new();
    for kind in kinds {
        if !chart.push(kind) {
            return Some(chart.length());
        }
    }
    (!chart.is_program()).then(|| chart.length())
}
