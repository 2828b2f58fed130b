//! Random syntax tables without a flaw, made row by row: rows used twice, unused
//! rows, late declarations and any depth are common in them, none of which a
//! source's table has.

use super::Random;
use crate::names::DATA_LIMIT;
use crate::table::Row;
use crate::walker::{kind, ROW_LIMIT};

/// A piece never adds more rows than this.
const LONGEST_PIECE: usize = 13;
/// Operators that a piece asks for by number.
const PLUS: u32 = 1;
const AND: u32 = 4;
const LESS: u32 = 11;

/// A table without a flaw, of a few rows more than `size`, at most 1,024.
pub fn made_table(random: &mut Random, size: usize) -> Vec<u32> {
    let mut maker = Maker {
        endless: random.one_in(3),
        stops: random.one_in(3),
        wild: random.one_in(2),
        random,
        rows: Vec::new(),
        data: 0,
        variables: Vec::new(),
        counters: Vec::new(),
        arrays: Vec::new(),
        values: Vec::new(),
        processes: Vec::new(),
    };
    maker.first();
    while maker.rows.len() < size {
        if maker.rows.len() + LONGEST_PIECE < ROW_LIMIT {
            maker.piece();
        } else {
            maker.single();
        }
    }
    maker.last();
    maker.rows.concat()
}

/// A number of rows: mostly small, now and then up to 1,023.
pub fn table_size(random: &mut Random) -> usize {
    let largest = *random.pick(&[1, 6, 20, 20, 40, 40, 60, 100, 100, 200, 400, ROW_LIMIT - 1]);
    random.between(largest / 3, largest)
}

/// Makes one table. A method that makes a row gives its number.
struct Maker<'r> {
    random: &'r mut Random,
    rows: Vec<Row>,
    /// The words declared so far.
    data: u32,
    /// Whether loops without a bound, `stop`, and subscripts that may be bad are made.
    endless: bool,
    stops: bool,
    wild: bool,
    /// The rows of variables, and of those that only counted loops assign.
    variables: Vec<u32>,
    counters: Vec<u32>,
    /// The rows of arrays, and their lengths.
    arrays: Vec<(u32, u32)>,
    values: Vec<u32>,
    processes: Vec<u32>,
}

impl Maker<'_> {
    fn push(&mut self, row: Row) -> u32 {
        let number = self.rows.len() as u32;
        self.rows.push(row);
        match row[0] {
            kind::VAR | kind::ARRAY => {}
            kind::NUMBER..=kind::DIADIC => self.values.push(number),
            _ => self.processes.push(number),
        }
        number
    }

    /// Some variables and arrays; others are declared late.
    fn first(&mut self) {
        for _ in 0..self.random.below(3) {
            let variable = self.var();
            self.variables.push(variable);
        }
        for _ in 0..self.random.below(3) {
            self.array();
        }
    }

    /// Adds a few rows that belong together.
    fn piece(&mut self) {
        match self.random.below(24) {
            0 | 1 => self.single(),
            2 => self.array(),
            3 | 4 => {
                self.element();
            }
            5 | 6 => {
                self.operation();
            }
            7..=10 => self.assignment(),
            11 | 12 => self.element_assignment(),
            13..=16 => self.sequence(),
            17 | 18 => self.choice(),
            19 if self.endless => self.any_loop(),
            19 | 20 => self.counted_loop(),
            21 => self.doubled(),
            22 if self.stops => {
                self.push([kind::STOP, 0, 0, 0]);
            }
            _ => {
                self.read();
            }
        }
    }

    /// Adds exactly one row.
    fn single(&mut self) {
        match self.random.below(4) {
            0 if self.data < DATA_LIMIT => {
                let variable = self.var();
                self.variables.push(variable);
            }
            1 => {
                self.push([kind::SKIP, 0, 0, 0]);
            }
            2 if !self.processes.is_empty() => self.sequence(),
            _ => {
                self.number();
            }
        }
    }

    /// The last row, a process over what there is; exactly one row, too.
    fn last(&mut self) {
        let row = match (&self.values[..], &self.processes[..], self.random.below(8)) {
            ([.., value], [], _) if !self.variables.is_empty() => {
                [kind::ASSIGN, *self.random.pick(&self.variables), *value, 0]
            }
            (_, [], _) => [if self.stops { kind::STOP } else { kind::SKIP }, 0, 0, 0],
            ([_, ..], [_, ..], 0 | 1) => {
                let condition = Self::chosen(self.random, &self.values);
                let [then, otherwise] = [0; 2].map(|_| Self::chosen(self.random, &self.processes));
                [kind::IF, condition, then, otherwise]
            }
            ([_, ..], [_, ..], 2) if self.endless => {
                let condition = Self::chosen(self.random, &self.values);
                [kind::WHILE, condition, Self::chosen(self.random, &self.processes), 0]
            }
            _ => {
                let [first, second] = [0; 2].map(|_| Self::chosen(self.random, &self.processes));
                [kind::SEQUENCE, first, second, 0]
            }
        };
        self.push(row);
    }

    fn number(&mut self) -> u32 {
        let word = self.random.word();
        self.push([kind::NUMBER, word, 0, 0])
    }

    fn var(&mut self) -> u32 {
        self.data += 1;
        self.push([kind::VAR, self.data - 1, 1, 0])
    }

    /// An array, if any words are left.
    fn array(&mut self) {
        if self.data == DATA_LIMIT {
            return self.single();
        }
        let largest = *self.random.pick(&[1, 4, 4, 16, 16, 16, 64, 64, 300, 8_192]);
        let length = self.random.between(1, largest.min((DATA_LIMIT - self.data) as usize)) as u32;
        let row = self.push([kind::ARRAY, self.data, length, 0]);
        self.data += length;
        self.arrays.push((row, length));
    }

    /// One of these rows, more often a late one: so rows nest deep.
    fn chosen(random: &mut Random, rows: &[u32]) -> u32 {
        let late = rows.len().min(4);
        let among = if random.one_in(3) { rows } else { &rows[rows.len() - late..] };
        *random.pick(among)
    }

    fn value(&mut self) -> u32 {
        if self.values.is_empty() || self.random.one_in(6) {
            return self.number();
        }
        Self::chosen(self.random, &self.values)
    }

    fn process(&mut self) -> u32 {
        if self.processes.is_empty() {
            return self.push([kind::SKIP, 0, 0, 0]);
        }
        Self::chosen(self.random, &self.processes)
    }

    /// A variable's value, or a number.
    fn read(&mut self) -> u32 {
        let all = [&self.variables[..], &self.counters].concat();
        if all.is_empty() {
            return self.number();
        }
        let variable = *self.random.pick(&all);
        self.push([kind::VARIABLE, variable, 0, 0])
    }

    fn operation(&mut self) -> u32 {
        if self.random.one_in(5) {
            let (operator, operand) = (self.random.between(1, 2) as u32, self.value());
            return self.push([kind::MONADIC, operator, operand, 0]);
        }
        let operator = self.random.between(1, 14) as u32;
        let (left, right) = (self.value(), self.value());
        self.push([kind::DIADIC, operator, left, right])
    }

    /// A subscript below the length, unless the table is a wild one.
    fn subscript(&mut self, length: u32) -> u32 {
        if self.wild && self.random.one_in(4) {
            return self.value();
        }
        if self.random.one_in(2) {
            let operand = self.value();
            let mask = self.push([kind::NUMBER, (1 << length.ilog2()) - 1, 0, 0]);
            return self.push([kind::DIADIC, AND, operand, mask]);
        }
        let beyond = usize::from(self.wild && self.random.one_in(8));
        let word = self.random.below(length as usize + beyond) as u32;
        self.push([kind::NUMBER, word, 0, 0])
    }

    fn element(&mut self) -> u32 {
        if self.arrays.is_empty() {
            return self.read();
        }
        let (array, length) = *self.random.pick(&self.arrays);
        let subscript = self.subscript(length);
        self.push([kind::ELEMENT, array, subscript, 0])
    }

    fn assignment(&mut self) {
        if self.variables.is_empty() {
            return self.single();
        }
        let variable = *self.random.pick(&self.variables);
        let value = if self.random.one_in(2) { self.operation() } else { self.value() };
        self.push([kind::ASSIGN, variable, value, 0]);
    }

    fn element_assignment(&mut self) {
        if self.arrays.is_empty() {
            return self.assignment();
        }
        let (array, length) = *self.random.pick(&self.arrays);
        let subscript = self.subscript(length);
        let value = if self.random.one_in(2) { self.operation() } else { self.value() };
        self.push([kind::ASSIGN_ELEMENT, array, subscript, value]);
    }

    fn sequence(&mut self) {
        let (first, second) = (self.process(), self.process());
        self.push([kind::SEQUENCE, first, second, 0]);
    }

    fn choice(&mut self) {
        let (condition, then, otherwise) = (self.value(), self.process(), self.process());
        self.push([kind::IF, condition, then, otherwise]);
    }

    fn any_loop(&mut self) {
        let (condition, body) = (self.value(), self.process());
        self.push([kind::WHILE, condition, body, 0]);
    }

    /// Two or three rows of which each uses the one before twice.
    fn doubled(&mut self) {
        let mut row = self.process();
        for _ in 0..self.random.between(2, 3) {
            row = self.push([kind::SEQUENCE, row, row, 0]);
        }
    }

    /// `i := 0; while i < bound do {p; i := i + 1}`, one row for both readings of
    /// `i`. It ends unless `p` has a loop with the same counter.
    fn counted_loop(&mut self) {
        let fresh = self.counters.is_empty() || !self.random.one_in(4);
        if fresh && self.data < DATA_LIMIT {
            let counter = self.var();
            self.counters.push(counter);
        }
        let Some(&counter) = self.counters.last() else { return self.single() };
        let (body, bound) = (self.process(), self.random.between(0, 4) as u32);
        let zero = self.push([kind::NUMBER, 0, 0, 0]);
        let set = self.push([kind::ASSIGN, counter, zero, 0]);
        let read = self.push([kind::VARIABLE, counter, 0, 0]);
        let bound = self.push([kind::NUMBER, bound, 0, 0]);
        let test = self.push([kind::DIADIC, LESS, read, bound]);
        let one = self.push([kind::NUMBER, 1, 0, 0]);
        let sum = self.push([kind::DIADIC, PLUS, read, one]);
        let count = self.push([kind::ASSIGN, counter, sum, 0]);
        let round = self.push([kind::SEQUENCE, body, count, 0]);
        let rounds = self.push([kind::WHILE, test, round, 0]);
        self.push([kind::SEQUENCE, set, rounds, 0]);
    }
}
