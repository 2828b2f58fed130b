//! Names and what they stand for, with refusals 8 to 12.
//!
//! All complaints of a program are collected, each by its own rule; the refusal
//! is the least: "8 to 12 by place, smaller number first".

use std::collections::HashMap;

use crate::grammar::{Constant, Expression, Name, Process, Program, Specification};
use crate::{Reason, Refusal};

/// "array length, read unsigned, not 1 to 8,192" is refused.
pub const ARRAY_LIMIT: u32 = 8_192;
/// "more than 256 names" are refused; vals count.
pub const DECLARED_LIMIT: usize = 256;
/// "data above 8,192 words" is refused.
pub const DATA_LIMIT: u32 = 8_192;

/// Where a variable or an array lies in data, and its row in the syntax table:
/// "offsets in order of declaration; val makes no row".
#[derive(Clone, Copy, Debug, PartialEq, Eq)]
pub struct Storage {
    pub row: u32,
    pub offset: u32,
    pub length: u32,
}

/// What a declared name stands for.
#[derive(Clone, Copy, Debug, PartialEq, Eq)]
pub enum Meaning {
    Var(Storage),
    Array(Storage),
    Val(u32),
}

/// A program without a complaint: its names in order of declaration, its
/// process with storage for names and words for vals, and D.
#[derive(Clone, Debug, PartialEq, Eq)]
pub struct Resolved<'s> {
    pub names: Vec<(Name<'s>, Meaning)>,
    pub process: Process<Storage>,
    pub data: u32,
}

/// Resolves the names of a program, or gives the least of its complaints.
pub fn resolve<'s>(program: &Program<'s>) -> Result<Resolved<'s>, Refusal> {
    let (resolved, complaints) = examine(program);
    match complaints.into_iter().min() {
        Some(least) => Err(least),
        None => Ok(resolved.expect("only a complaint leaves a name unresolved")),
    }
}

/// All complaints 8 to 12 of a program, in the order of the rules.
pub fn complaints(program: &Program<'_>) -> Vec<Refusal> {
    examine(program).1
}

/// The program with its names resolved as far as possible, and all complaints.
fn examine<'s>(program: &Program<'s>) -> (Option<Resolved<'s>>, Vec<Refusal>) {
    let mut scope = Scope::default();
    let specifications = program.specifications.iter();
    let names = specifications
        .filter_map(|specification| Some((specification.name(), scope.declare(specification)?)))
        .collect();
    let process = scope.process(&program.process);
    let resolved = process.map(|process| Resolved { names, process, data: scope.data });
    (resolved, scope.complaints)
}

/// What is known so far. A name stands for nothing known if its own
/// specification is complained of: its uses come later, so that no complaint
/// about them could be the least.
#[derive(Default)]
struct Scope<'s> {
    meanings: HashMap<&'s [u8], Option<Meaning>>,
    declared: usize,
    rows: u32,
    data: u32,
    complaints: Vec<Refusal>,
}

impl<'s> Scope<'s> {
    fn complain(&mut self, reason: Reason, name: Name<'s>) {
        self.complaints.push(Refusal::new(reason, name.place));
    }

    fn wrong_kind<T>(&mut self, name: Name<'s>) -> Option<T> {
        self.complain(Reason::WrongKind, name);
        None
    }

    /// Adds a specification. Its name is declared from its end on, so the
    /// constant is looked up first: `val k = k` is 8 at the second `k`.
    fn declare(&mut self, specification: &Specification<'s>) -> Option<Meaning> {
        let name = specification.name();
        let meaning = match specification {
            Specification::Var(_) => Some(Meaning::Var(self.storage(1))),
            Specification::Array(_, length) => {
                self.constant(length).map(|length| Meaning::Array(self.storage(length)))
            }
            Specification::Val(_, constant) => self.constant(constant).map(Meaning::Val),
        };
        self.declared += 1;
        // 12 stands at "the name that passes it", so at no later one.
        let mut passes = self.declared == DECLARED_LIMIT + 1;
        if let Some(Meaning::Var(storage) | Meaning::Array(storage)) = meaning {
            if !(1..=ARRAY_LIMIT).contains(&storage.length) {
                self.complain(Reason::ArrayLength, name);
            }
            self.rows += 1;
            self.data = self.data.saturating_add(storage.length);
            passes |= storage.offset <= DATA_LIMIT && self.data > DATA_LIMIT;
        }
        if passes {
            self.complain(Reason::TooManyNamesOrWords, name);
        }
        if self.meanings.contains_key(name.text) {
            self.complain(Reason::DeclaredTwice, name);
        } else {
            self.meanings.insert(name.text, meaning);
        }
        meaning
    }

    /// The next free storage of this length.
    fn storage(&self, length: u32) -> Storage {
        Storage { row: self.rows, offset: self.data, length }
    }

    fn meaning(&mut self, name: Name<'s>) -> Option<Meaning> {
        match self.meanings.get(name.text) {
            Some(meaning) => *meaning,
            None => {
                self.complain(Reason::NotDeclared, name);
                None
            }
        }
    }

    /// The word of a constant; "non-val in a constant" is of the wrong kind.
    fn constant(&mut self, constant: &Constant<'s>) -> Option<u32> {
        match *constant {
            Constant::Word(word) => Some(word),
            Constant::Name(name) => match self.meaning(name)? {
                Meaning::Val(word) => Some(word),
                Meaning::Var(_) | Meaning::Array(_) => self.wrong_kind(name),
            },
        }
    }

    /// An assigned name; "array without subscript, val assigned" are of the
    /// wrong kind.
    fn assigned(&mut self, name: Name<'s>) -> Option<Storage> {
        match self.meaning(name)? {
            Meaning::Var(storage) => Some(storage),
            Meaning::Array(_) | Meaning::Val(_) => self.wrong_kind(name),
        }
    }

    /// A name before a subscript; "subscript on a var or val" is of the wrong kind.
    fn array(&mut self, name: Name<'s>) -> Option<Storage> {
        match self.meaning(name)? {
            Meaning::Array(storage) => Some(storage),
            Meaning::Var(_) | Meaning::Val(_) => self.wrong_kind(name),
        }
    }

    /// A name as an operand; "array without subscript" is of the wrong kind.
    fn operand(&mut self, name: Name<'s>) -> Option<Expression<Storage>> {
        match self.meaning(name)? {
            Meaning::Var(storage) => Some(Expression::Name(storage)),
            Meaning::Val(word) => Some(Expression::Word(word)),
            Meaning::Array(_) => self.wrong_kind(name),
        }
    }

    // The readers below resolve all their parts before they give up on one.

    fn expression(&mut self, expression: &Expression<Name<'s>>) -> Option<Expression<Storage>> {
        match expression {
            Expression::Word(word) => Some(Expression::Word(*word)),
            Expression::Name(name) => self.operand(*name),
            Expression::Element(name, subscript) => {
                let (array, subscript) = (self.array(*name), self.boxed(subscript));
                Some(Expression::Element(array?, subscript?))
            }
            Expression::Brackets(inside) => self.boxed(inside).map(Expression::Brackets),
            Expression::Monadic(operator, operand) => {
                self.boxed(operand).map(|operand| Expression::Monadic(*operator, operand))
            }
            Expression::Diadic(operator, left, right) => {
                let (left, right) = (self.boxed(left), self.boxed(right));
                Some(Expression::Diadic(*operator, left?, right?))
            }
        }
    }

    fn boxed(&mut self, expression: &Expression<Name<'s>>) -> Option<Box<Expression<Storage>>> {
        self.expression(expression).map(Box::new)
    }

    fn process(&mut self, process: &Process<Name<'s>>) -> Option<Process<Storage>> {
        match process {
            Process::Skip => Some(Process::Skip),
            Process::Stop => Some(Process::Stop),
            Process::Assign(name, value) => {
                let (name, value) = (self.assigned(*name), self.expression(value));
                Some(Process::Assign(name?, value?))
            }
            Process::AssignElement(name, subscript, value) => {
                let array = self.array(*name);
                let (subscript, value) = (self.expression(subscript), self.expression(value));
                Some(Process::AssignElement(array?, subscript?, value?))
            }
            Process::Braces(processes) => {
                let processes: Vec<_> = processes.iter().map(|process| self.process(process)).collect();
                processes.into_iter().collect::<Option<_>>().map(Process::Braces)
            }
            Process::If(condition, then, otherwise) => {
                let condition = self.expression(condition);
                let (then, otherwise) = (self.process(then), self.process(otherwise));
                Some(Process::If(condition?, Box::new(then?), Box::new(otherwise?)))
            }
            Process::While(condition, body) => {
                let (condition, body) = (self.expression(condition), self.process(body));
                Some(Process::While(condition?, Box::new(body?)))
            }
        }
    }
}
