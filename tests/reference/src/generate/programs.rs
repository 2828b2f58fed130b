//! Random valid programs, as tokens, and their spelling as bytes.

use std::collections::HashSet;

use super::Random;
use crate::tokens::{is_literal_character, WORDS};

/// The tokens of a source, each as its bytes.
pub type Pieces = Vec<Vec<u8>>;

/// More tokens than this are not asked for, so that no limit is passed.
const LARGEST: usize = 1_000;

/// A valid program of at most `size` tokens (at least 1, at most 1,000).
pub fn program(random: &mut Random, size: usize) -> Pieces {
    let size = size.clamp(1, LARGEST);
    // Longer names must not pass the limit of bytes, shorter ones must not run out.
    let (shortest_name, longest_name, longest_comment) = match size {
        0..=60 => (1, 32, 40),
        61..=200 => (2, 32, 40),
        _ => (2, 8, 10),
    };
    let mut writer = Writer {
        longest_name: random.between(shortest_name, longest_name),
        longest_comment,
        endless: random.one_in(3),
        stops: random.one_in(3),
        wild: random.one_in(3),
        random,
        pieces: Vec::new(),
        names: HashSet::new(),
        variables: Vec::new(),
        arrays: Vec::new(),
        vals: Vec::new(),
        counters: Vec::new(),
    };
    // Small programs get at least one name, so that they have something to assign.
    let specified = writer.random.between(7.min(size / 2), size / 2);
    writer.specifications(specified);
    writer.process(size - writer.pieces.len(), 32);
    writer.pieces
}

/// Writes one program. The `budget` of a method is the most tokens that it
/// writes, its `depth` the deepest that it nests.
struct Writer<'r> {
    random: &'r mut Random,
    pieces: Pieces,
    longest_name: usize,
    longest_comment: usize,
    /// Whether loops without a bound are written.
    endless: bool,
    /// Whether `stop` is written.
    stops: bool,
    /// Whether subscripts are written that may be bad.
    wild: bool,
    /// All declared names.
    names: HashSet<Vec<u8>>,
    /// The variables that may be assigned.
    variables: Vec<Vec<u8>>,
    arrays: Vec<(Vec<u8>, u32)>,
    vals: Vec<(Vec<u8>, u32)>,
    /// The counters of the loops around, which are not assigned inside, and
    /// the bounds below which they stay.
    counters: Vec<(Vec<u8>, u32)>,
}

impl Writer<'_> {
    fn push(&mut self, piece: impl AsRef<[u8]>) {
        self.pieces.push(piece.as_ref().to_vec());
    }

    /// Pushes words separated by spaces, where each `_` stands for the next
    /// of the fillings.
    fn push_all(&mut self, words: &str, fillings: &[&[u8]]) {
        let mut fillings = fillings.iter();
        for word in words.split(' ') {
            match word {
                "_" => self.push(fillings.next().expect("a filling for each _")),
                _ => self.push(word),
            }
        }
    }

    fn comment(&mut self) {
        let length = self.random.between(0, self.longest_comment);
        let inside = (0..length).map(|_| match self.random.below(4) {
            0 => self.random.number() as u8,
            _ => self.random.between(32, 126) as u8,
        });
        let inside: Vec<u8> = inside.map(|byte| if byte == b'|' { b' ' } else { byte }).collect();
        self.push([b"|", &inside[..], b"|"].concat());
    }

    fn specifications(&mut self, budget: usize) {
        let mut words_left = 8_192;
        while self.pieces.len() + 7 <= budget {
            if self.random.one_in(8) {
                self.comment();
            }
            let name = self.fresh_name();
            let sort = if self.variables.is_empty() { 0 } else { self.random.below(4) };
            match sort {
                0 | 1 if words_left > 0 => {
                    words_left -= 1;
                    self.push_all("var _ ;", &[&name]);
                    self.variables.push(name);
                }
                2 if words_left > 0 => {
                    let (text, length) = self.array_length(words_left);
                    words_left -= length;
                    self.push_all("array _ [ _ ] ;", &[&name, &text]);
                    self.arrays.push((name, length));
                }
                _ => {
                    let (text, word) = self.constant();
                    self.push_all("val _ = _ ;", &[&name, &text]);
                    self.vals.push((name, word));
                }
            }
        }
    }

    /// A name that is not yet declared and not reserved.
    fn fresh_name(&mut self) -> Vec<u8> {
        const LETTERS: &[u8] = b"abcdefghijklmnopqrstuvwxyzABCDEFGHIJKLMNOPQRSTUVWXYZ";
        loop {
            let length = self.random.between(1, self.longest_name);
            let mut name = vec![*self.random.pick(LETTERS)];
            if self.random.one_in(8) {
                name = self.random.pick(&WORDS).0.into(); // A reserved word goes on as a name.
            }
            while name.len() < length {
                name.push(match self.random.below(8) {
                    0 => b'_',
                    1 => self.random.between(b'0'.into(), b'9'.into()) as u8,
                    _ => *self.random.pick(LETTERS),
                });
            }
            if self.random.one_in(8) {
                name.make_ascii_uppercase();
            }
            let reserved = WORDS.iter().any(|(word, _)| word.as_bytes() == name);
            if !reserved && name.len() <= 32 && self.names.insert(name.clone()) {
                return name;
            }
        }
    }

    /// The text and the word of an array's length, 1 to the words left.
    fn array_length(&mut self, words_left: u32) -> (Vec<u8>, u32) {
        let fitting: Vec<_> =
            self.vals.iter().filter(|(_, word)| (1..=words_left).contains(word)).cloned().collect();
        if !fitting.is_empty() && self.random.one_in(3) {
            return self.random.pick(&fitting).clone();
        }
        let largest = *self.random.pick(&[1, 4, 16, 16, 64, 300, 8_192]);
        let length = self.random.between(1, largest.min(words_left as usize)) as u32;
        (self.spelled(length), length)
    }

    /// The text and the word of a constant: a number, byte, true, false or val.
    fn constant(&mut self) -> (Vec<u8>, u32) {
        match self.random.below(10) {
            0 => (b"true".to_vec(), u32::MAX),
            1 => (b"false".to_vec(), 0),
            2 => self.byte_literal(),
            3..=5 if !self.vals.is_empty() => self.random.pick(&self.vals).clone(),
            _ => {
                let word = self.random.word();
                (self.spelled(word), word)
            }
        }
    }

    /// A word as a decimal if it may be one, or in hex digits of both cases.
    fn spelled(&mut self, word: u32) -> Vec<u8> {
        let zeros = if self.random.one_in(6) { "000" } else { "" };
        if word <= 0x7FFF_FFFF && !self.random.one_in(4) {
            return format!("{zeros}{word}").into_bytes();
        }
        let mut text = format!("#{zeros}{word:x}").into_bytes();
        for digit in &mut text {
            if self.random.one_in(2) {
                digit.make_ascii_uppercase();
            }
        }
        text
    }

    fn byte_literal(&mut self) -> (Vec<u8>, u32) {
        const ESCAPES: [(u8, u32); 7] =
            [(b'c', 13), (b'n', 10), (b't', 9), (b's', 32), (b'\'', 39), (b'"', 34), (b'*', 42)];
        match self.random.below(3) {
            0 => {
                let (letter, word) = *self.random.pick(&ESCAPES);
                (vec![b'\'', b'*', letter, b'\''], word)
            }
            1 => {
                let word = self.random.below(256);
                let digits =
                    if self.random.one_in(2) { format!("{word:02x}") } else { format!("{word:02X}") };
                (format!("'*#{digits}'").into_bytes(), word as u32)
            }
            _ => {
                let characters: Vec<u8> = (0..=u8::MAX).filter(|&byte| is_literal_character(byte)).collect();
                let character = *self.random.pick(&characters);
                (vec![b'\'', character, b'\''], character.into())
            }
        }
    }

    /// A total split at random into so many parts, each at least 1.
    fn split(&mut self, total: usize, parts: usize) -> Vec<usize> {
        let mut shares = vec![1; parts];
        let mut left = total - parts;
        while left > 0 {
            let some = self.random.between(1, left.div_ceil(2));
            shares[self.random.below(parts)] += some;
            left -= some;
        }
        shares
    }

    fn process(&mut self, mut budget: usize, depth: usize) {
        while budget > 1 && self.random.one_in(10) {
            self.comment();
            budget -= 1;
        }
        let nests = depth > 1;
        // With much to spend, a nested process is likelier.
        let forms = if budget > 40 && !self.random.one_in(8) { 8 } else { 14 };
        match self.random.below(forms) {
            0..=4 if nests && budget >= 8 => self.braces(budget, depth),
            5 if nests && budget >= 6 => self.conditional(budget, depth),
            6 if depth > 3 && budget >= 20 && !self.variables.is_empty() => self.counted_loop(budget, depth),
            7 if nests && budget >= 4 && self.endless => self.any_loop(budget, depth),
            8 | 9 if budget >= 6 && !self.arrays.is_empty() => self.element_assignment(budget),
            10 if self.stops && self.random.one_in(2) => self.push("stop"),
            11 if budget >= 2 => self.push_all("{ }", &[]),
            _ if budget >= 3 && !self.variables.is_empty() => self.assignment(budget),
            _ => self.push("skip"),
        }
    }

    fn braces(&mut self, budget: usize, depth: usize) {
        let most = 1 + budget / 6;
        let count = self.random.between(1, most.min(12));
        self.push("{");
        for (index, share) in self.split(budget - 1 - count, count).into_iter().enumerate() {
            if index > 0 {
                self.push(";");
            }
            self.process(share, depth - 1);
        }
        self.push("}");
    }

    fn conditional(&mut self, budget: usize, depth: usize) {
        let shares = self.split(budget - 3, 3);
        self.push("if");
        self.expression(shares[0], 32);
        self.push("then");
        self.process(shares[1], depth - 1);
        self.push("else");
        self.process(shares[2], depth - 1);
    }

    /// `while e do p`, which may go on for ever.
    fn any_loop(&mut self, budget: usize, depth: usize) {
        let shares = self.split(budget - 2, 2);
        self.push("while");
        self.expression(shares[0], 32);
        self.push("do");
        self.process(shares[1], depth - 1);
    }

    /// `{ i := 0; while i < bound do { p; i := i + 1 } }`, 19 tokens around `p`,
    /// where `p` doesn't assign `i`.
    fn counted_loop(&mut self, budget: usize, depth: usize) {
        let chosen = self.random.below(self.variables.len());
        let counter = self.variables.swap_remove(chosen);
        let bound = self.random.between(1, 6) as u32;
        let bound_text = bound.to_string();
        self.push_all("{ _ := 0 ; while _ < _ do {", &[&counter, &counter, bound_text.as_bytes()]);
        self.counters.push((counter.clone(), bound));
        self.process(budget - 19, depth - 3);
        self.counters.pop();
        self.push_all("; _ := _ + 1 } }", &[&counter, &counter]);
        self.variables.push(counter);
    }

    fn assignment(&mut self, budget: usize) {
        let name = self.random.pick(&self.variables).clone();
        self.push(name);
        self.push(":=");
        self.expression(budget - 2, 32);
    }

    fn element_assignment(&mut self, budget: usize) {
        let target = self.random.between(4, budget - 2);
        self.element(target, 32);
        self.push(":=");
        self.expression(budget - 1 - target, 32);
    }

    /// `v[e]` of some array, at least 4 tokens and depth 2.
    fn element(&mut self, budget: usize, depth: usize) {
        let (name, length) = self.random.pick(&self.arrays).clone();
        self.push(name);
        self.push("[");
        self.subscript(length, budget - 3, depth - 1);
        self.push("]");
    }

    /// A subscript below the length, unless the program is a wild one.
    fn subscript(&mut self, length: u32, budget: usize, depth: usize) {
        if self.wild && self.random.one_in(6) {
            return self.expression(budget, depth);
        }
        let counters: Vec<_> = self.counters.iter().filter(|(_, bound)| *bound <= length).cloned().collect();
        if !counters.is_empty() && !self.random.one_in(3) {
            let name = self.random.pick(&counters).0.clone();
            return self.push(name);
        }
        if budget >= 3 && depth >= 2 && self.random.one_in(2) {
            let mask = (1 << length.ilog2()) - 1;
            self.operand(budget - 2, depth - 1);
            self.push("and");
            let mask = self.spelled(mask);
            return self.push(mask);
        }
        let beyond = usize::from(self.wild && self.random.one_in(8));
        let word = self.random.below(length as usize + beyond) as u32;
        let text = self.spelled(word);
        self.push(text);
    }

    fn expression(&mut self, budget: usize, depth: usize) {
        const DIADIC: [&str; 14] =
            ["+", "-", "*", "and", "or", "xor", ">>", "<<", "=", "<>", "<", "<=", ">", ">="];
        const CHAINS: [&str; 5] = ["+", "*", "and", "or", "xor"];
        // With much to spend, more operands are likelier.
        let forms = if budget > 20 { 5 } else { 7 };
        match self.random.below(forms) {
            0..=2 if budget >= 3 && depth >= 2 => {
                let operator = *self.random.pick(&DIADIC);
                self.joined(operator, 2, budget, depth);
            }
            3 | 4 if budget >= 3 && depth >= 2 => {
                let operator = *self.random.pick(&CHAINS);
                let most = budget.div_ceil(2).min(depth).min(if self.random.one_in(4) { 32 } else { 5 });
                let count = self.random.between(2, most);
                self.joined(operator, count, budget, depth);
            }
            5 if budget >= 2 && depth >= 2 => {
                let operator = *self.random.pick(&["-", "not"]);
                self.push(operator);
                self.operand(budget - 1, depth - 1);
            }
            _ => self.operand(budget, depth),
        }
    }

    /// Operands joined by one operator, grouped to the right: each lies one
    /// deeper than the one before, the last as deep as the one before it.
    fn joined(&mut self, operator: &str, count: usize, budget: usize, depth: usize) {
        for (index, share) in self.split(budget + 1 - count, count).into_iter().enumerate() {
            if index > 0 {
                self.push(operator);
            }
            self.operand(share, depth - (index + 1).min(count - 1));
        }
    }

    fn operand(&mut self, budget: usize, depth: usize) {
        match self.random.below(4) {
            0 if budget >= 4 && depth >= 2 && !self.arrays.is_empty() => self.element(budget, depth),
            0..=2 if budget >= 3 && depth >= 2 => {
                self.push("(");
                self.expression(budget - 2, depth - 1);
                self.push(")");
            }
            _ => self.leaf(),
        }
    }

    fn leaf(&mut self) {
        let counters = self.counters.iter().map(|(name, _)| name);
        let names: Vec<_> = self.variables.iter().chain(counters).cloned().collect();
        let text = match self.random.below(2) {
            0 if !names.is_empty() => self.random.pick(&names).clone(),
            _ => self.constant().0,
        };
        self.push(text);
    }
}

/// Spells tokens as a source, with blanks where two would read as one and, by
/// one of three styles, in other places.
pub fn render(random: &mut Random, pieces: &[Vec<u8>]) -> Vec<u8> {
    let style = random.below(3);
    let widest = if pieces.len() > 200 { 1 } else { 4 };
    let mut source = blanks(random, style, widest);
    for (index, piece) in pieces.iter().enumerate() {
        source.extend_from_slice(piece);
        let gap = blanks(random, style, widest);
        let next = pieces.get(index + 1);
        if gap.is_empty() && next.is_some_and(|next| run_together(piece, next)) {
            source.push(b' ');
        }
        source.extend(gap);
    }
    source
}

/// No blanks, one space, or any blanks.
fn blanks(random: &mut Random, style: usize, widest: usize) -> Vec<u8> {
    match style {
        0 => Vec::new(),
        1 => vec![b' '],
        _ if random.one_in(2) => Vec::new(),
        _ => (0..random.between(1, widest)).map(|_| *random.pick(b"  \t\r\n")).collect(),
    }
}

/// Whether "longest first" would read these two tokens otherwise if nothing
/// stood between them.
fn run_together(left: &[u8], right: &[u8]) -> bool {
    let (Some(first), Some(next)) = (left.first(), right.first()) else {
        return false;
    };
    match first {
        b'#' => next.is_ascii_hexdigit(),
        b'<' | b'>' | b':' => left.len() == 1 && b"<>=".contains(next),
        _ if first.is_ascii_digit() => next.is_ascii_digit(),
        _ if first.is_ascii_alphabetic() => next.is_ascii_alphanumeric() || *next == b'_',
        _ => false,
    }
}
