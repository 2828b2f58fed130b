//! A program worked out from its syntax table alone, by recursion over the rows
//! and with arithmetic of its own.

use reference::meaning::{Access, AccessKind, End};

/// Why the working out stops before the program's last row is done.
pub enum Halt {
    End(End),
    NoFuel,
}

pub struct Interpreter<'t> {
    pub rows: &'t [[u32; 4]],
    pub words: Vec<u32>,
    pub accesses: Vec<Access>,
    /// How many rows are worked out at most.
    pub fuel: usize,
    /// Whether a while's row counts again at each test.
    pub counts_tests: bool,
}

impl Interpreter<'_> {
    /// The end, or nothing if the fuel didn't last.
    pub fn run(&mut self) -> Option<End> {
        match self.process(self.rows.len() as u32 - 1) {
            Ok(()) => Some(End::Finish),
            Err(Halt::End(end)) => Some(end),
            Err(Halt::NoFuel) => None,
        }
    }

    fn fetch(&mut self, row: u32) -> Result<[u32; 4], Halt> {
        self.fuel = self.fuel.checked_sub(1).ok_or(Halt::NoFuel)?;
        Ok(self.rows[row as usize])
    }

    /// The offset of a declared row, of this kind.
    fn declared(&self, row: u32, kind: u32) -> (u32, u32) {
        let [found, offset, length, _] = self.rows[row as usize];
        assert_eq!(found, kind);
        (offset, length)
    }

    /// Works out a subscript and gives the element's offset.
    fn element(&mut self, array: u32, subscript: u32) -> Result<u32, Halt> {
        let (offset, length) = self.declared(array, 2);
        let subscript = self.expression(subscript)?;
        if subscript < length {
            Ok(offset + subscript)
        } else {
            Err(Halt::End(End::BadSubscript))
        }
    }

    fn expression(&mut self, row: u32) -> Result<u32, Halt> {
        match self.fetch(row)? {
            [3, word, 0, 0] => Ok(word),
            [4, variable, 0, 0] => Ok(self.words[self.declared(variable, 1).0 as usize]),
            [5, array, subscript, 0] => {
                let offset = self.element(array, subscript)?;
                let word = self.words[offset as usize];
                self.accesses.push(Access { kind: AccessKind::Load, offset, old: word, new: word });
                Ok(word)
            }
            [6, operator, operand, 0] => {
                let operand = self.expression(operand)?;
                Ok(if operator == 1 { (!operand).wrapping_add(1) } else { u32::MAX - operand })
            }
            [7, operator, left, right] => {
                let left = self.expression(left)?;
                let right = self.expression(right)?;
                Ok(diadic(operator, left, right))
            }
            other => panic!("{other:?} is no expression"),
        }
    }

    fn process(&mut self, row: u32) -> Result<(), Halt> {
        match self.fetch(row)? {
            [8, 0, 0, 0] => Ok(()),
            [9, 0, 0, 0] => Err(Halt::End(End::Stop)),
            [10, variable, value, 0] => {
                let word = self.expression(value)?;
                let offset = self.declared(variable, 1).0;
                self.words[offset as usize] = word;
                Ok(())
            }
            [11, array, subscript, value] => {
                let offset = self.element(array, subscript)?;
                let new = self.expression(value)?;
                let old = self.words[offset as usize];
                self.words[offset as usize] = new;
                self.accesses.push(Access { kind: AccessKind::Store, offset, old, new });
                Ok(())
            }
            [12, first, second, 0] => {
                self.process(first)?;
                self.process(second)
            }
            [13, condition, then, otherwise] => match self.expression(condition)? {
                0 => self.process(otherwise),
                _ => self.process(then),
            },
            [14, condition, body, 0] => {
                while self.expression(condition)? != 0 {
                    self.process(body)?;
                    if self.counts_tests {
                        self.fetch(row)?;
                    }
                }
                Ok(())
            }
            other => panic!("{other:?} is no process"),
        }
    }
}

/// Arithmetic in 64 bits, and 001's rules for the relations: all from `=` and `<`.
fn diadic(operator: u32, left: u32, right: u32) -> u32 {
    let (wide_left, wide_right) = (u64::from(left), u64::from(right));
    let less = |left: u32, right: u32| u32::MAX * u32::from((left ^ 1 << 31) < (right ^ 1 << 31));
    let equal = u32::MAX * u32::from(left == right);
    match operator {
        1 => (wide_left + wide_right) as u32,
        2 => (wide_left + (1 << 32) - wide_right) as u32,
        3 => (wide_left * wide_right) as u32,
        4 => left & right,
        5 => left | right,
        6 => (left | right) - (left & right),
        7 | 8 if right > 31 => 0,
        7 => (wide_left >> right) as u32,
        8 => (wide_left << right) as u32,
        9 => equal,
        10 => !equal,
        11 => less(left, right),
        12 => !less(right, left),
        13 => less(right, left),
        14 => !less(left, right),
        _ => panic!("{operator} is no operator"),
    }
}
