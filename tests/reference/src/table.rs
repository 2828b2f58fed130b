//! The syntax table: "rows of four words (kind, a, b, c), unused 0, row numbers
//! from 0, in the order in which they complete; the last row is the program".

use crate::grammar::{Expression, Process};
use crate::names::{Meaning, Resolved, Storage};

pub type Row = [u32; 4];

/// The rows of a program: first those of its declarations, because they
/// complete first, then those of its process.
pub fn rows(program: &Resolved<'_>) -> Vec<Row> {
    let mut table = Table { rows: Vec::new() };
    for (_, meaning) in &program.names {
        match meaning {
            Meaning::Var(storage) => table.complete([1, storage.offset, 1, 0]),
            Meaning::Array(storage) => table.complete([2, storage.offset, storage.length, 0]),
            Meaning::Val(_) => continue,
        };
    }
    table.process(&program.process);
    table.rows
}

struct Table {
    rows: Vec<Row>,
}

/// Each method adds the rows of its part and gives the number of the last.
impl Table {
    fn complete(&mut self, row: Row) -> u32 {
        self.rows.push(row);
        self.rows.len() as u32 - 1
    }

    fn expression(&mut self, expression: &Expression<Storage>) -> u32 {
        match expression {
            Expression::Word(word) => self.complete([3, *word, 0, 0]),
            Expression::Name(variable) => self.complete([4, variable.row, 0, 0]),
            Expression::Element(array, subscript) => {
                let subscript = self.expression(subscript);
                self.complete([5, array.row, subscript, 0])
            }
            // "brackets and one-process braces make no row"
            Expression::Brackets(inside) => self.expression(inside),
            Expression::Monadic(operator, operand) => {
                let operand = self.expression(operand);
                self.complete([6, *operator as u32, operand, 0])
            }
            Expression::Diadic(operator, left, right) => {
                let left = self.expression(left);
                let right = self.expression(right);
                self.complete([7, *operator as u32, left, right])
            }
        }
    }

    fn process(&mut self, process: &Process<Storage>) -> u32 {
        match process {
            Process::Skip => self.complete([8, 0, 0, 0]),
            Process::Stop => self.complete([9, 0, 0, 0]),
            Process::Assign(variable, value) => {
                let value = self.expression(value);
                self.complete([10, variable.row, value, 0])
            }
            Process::AssignElement(array, subscript, value) => {
                let subscript = self.expression(subscript);
                let value = self.expression(value);
                self.complete([11, array.row, subscript, value])
            }
            Process::Braces(processes) => self.list(processes),
            Process::If(condition, then, otherwise) => {
                let condition = self.expression(condition);
                let then = self.process(then);
                let otherwise = self.process(otherwise);
                self.complete([13, condition, then, otherwise])
            }
            Process::While(condition, body) => {
                let condition = self.expression(condition);
                let body = self.process(body);
                self.complete([14, condition, body, 0])
            }
        }
    }

    /// "12 two in sequence, a list grouped to the right"; "`{ }` is skip".
    fn list(&mut self, processes: &[Process<Storage>]) -> u32 {
        match processes {
            [] => self.complete([8, 0, 0, 0]),
            [only] => self.process(only),
            [first, rest @ ..] => {
                let first = self.process(first);
                let rest = self.list(rest);
                self.complete([12, first, rest, 0])
            }
        }
    }
}
