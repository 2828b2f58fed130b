//! What a program means: the source's run, move by move.

use crate::grammar::{Diadic, Expression, Monadic, Process};
use crate::names::{Resolved, Storage};

/// "working out `v[e]` is a load, assigning to it a store"
#[derive(Clone, Copy, Debug, PartialEq, Eq, Hash)]
pub enum AccessKind {
    Load,
    Store,
}

/// An entry of the access list, "each with its word offset in data, old and new
/// word (equal for a load)". The offset is the array's plus the subscript.
#[derive(Clone, Copy, Debug, PartialEq, Eq, Hash)]
pub struct Access {
    pub kind: AccessKind,
    pub offset: u32,
    pub old: u32,
    pub new: u32,
}

/// How a run ends; the numbers are those of the `SVC` that shows it.
#[derive(Clone, Copy, Debug, PartialEq, Eq, Hash)]
pub enum End {
    Finish = 0,
    Stop = 1,
    BadSubscript = 2,
}

/// A thing to do.
#[derive(Clone, Copy, Debug, PartialEq, Eq)]
pub enum Thing<'p> {
    Expression(&'p Expression<Storage>),
    Process(&'p Process<Storage>),
    WorkMonadic(Monadic),
    WorkDiadic(Diadic),
    Check(Storage),
    Load(Storage),
    Set(Storage),
    Store(Storage),
    /// The choice of an `if`: the process if the condition holds, and if not.
    Choose(&'p Process<Storage>, &'p Process<Storage>),
    /// The choice of a `while`: its body and the `while` itself, or nothing.
    ChooseAgain(&'p Process<Storage>, &'p Process<Storage>),
}

/// "Its state: the D words, an access list, a to-do list, a pile of words, an end."
#[derive(Clone, Debug, PartialEq, Eq)]
pub struct State<'p> {
    pub words: Vec<u32>,
    pub accesses: Vec<Access>,
    /// The first thing to do is the last of the vector.
    pub to_do: Vec<Thing<'p>>,
    /// The top of the pile is the last of the vector.
    pub pile: Vec<u32>,
    pub end: Option<End>,
}

impl<'p> State<'p> {
    /// "At first the D words hold their starting values, the process is to do,
    /// access list and pile are empty, no end." Takes the first D of the words
    /// it is fed, which have to be at least as many.
    pub fn start(program: &'p Resolved<'_>, starting_words: &[u32]) -> Self {
        State {
            words: starting_words[..program.data as usize].to_vec(),
            accesses: Vec::new(),
            to_do: vec![Thing::Process(&program.process)],
            pile: Vec::new(),
            end: None,
        }
    }

    /// Makes up to so many moves and gives the number made; none is made after
    /// an end.
    pub fn run(&mut self, moves: u64) -> u64 {
        let mut made = 0;
        while made < moves && self.end.is_none() {
            self.step();
            made += 1;
        }
        made
    }

    /// "A move takes off the first thing to do and puts in its place" what
    /// follows from it. "nothing left to do" ends the run by a move of its own;
    /// "After an end nothing changes."
    pub fn step(&mut self) {
        if self.end.is_some() {
            return;
        }
        match self.to_do.pop() {
            None => self.end = Some(End::Finish),
            Some(Thing::Expression(expression)) => self.begin_expression(expression),
            Some(Thing::Process(process)) => self.begin_process(process),
            Some(Thing::WorkMonadic(operator)) => {
                let operand = self.take();
                self.pile.push(work_monadic(operator, operand));
            }
            Some(Thing::WorkDiadic(operator)) => {
                let right = self.take();
                let left = self.take();
                self.pile.push(work_diadic(operator, left, right));
            }
            Some(Thing::Check(array)) => {
                // "A subscript, read unsigned, that is not below the array's
                // length"; "A check only looks", so the subscript stays.
                if *self.pile.last().expect("a subscript to check") >= array.length {
                    self.end = Some(End::BadSubscript);
                }
            }
            Some(Thing::Load(array)) => {
                let offset = array.offset + self.take();
                let word = self.words[offset as usize];
                self.pile.push(word);
                self.accesses.push(Access { kind: AccessKind::Load, offset, old: word, new: word });
            }
            Some(Thing::Set(variable)) => self.words[variable.offset as usize] = self.take(),
            Some(Thing::Store(array)) => {
                let new = self.take();
                let offset = array.offset + self.take();
                let old = std::mem::replace(&mut self.words[offset as usize], new);
                self.accesses.push(Access { kind: AccessKind::Store, offset, old, new });
            }
            // "A condition holds if its word is not 0."
            Some(Thing::Choose(then, otherwise)) => {
                let chosen = if self.take() != 0 { then } else { otherwise };
                self.put([Thing::Process(chosen)]);
            }
            Some(Thing::ChooseAgain(body, again)) => {
                if self.take() != 0 {
                    self.put([Thing::Process(body), Thing::Process(again)]);
                }
            }
        }
    }

    fn begin_expression(&mut self, expression: &'p Expression<Storage>) {
        match expression {
            Expression::Word(word) => self.pile.push(*word),
            Expression::Name(variable) => self.pile.push(self.words[variable.offset as usize]),
            Expression::Brackets(inside) => self.put([Thing::Expression(inside)]),
            Expression::Monadic(operator, operand) => {
                self.put([Thing::Expression(operand), Thing::WorkMonadic(*operator)]);
            }
            // "its operands, left first, then the working"
            Expression::Diadic(operator, left, right) => {
                self.put([Thing::Expression(left), Thing::Expression(right), Thing::WorkDiadic(*operator)])
            }
            Expression::Element(array, subscript) => {
                self.put([Thing::Expression(subscript), Thing::Check(*array), Thing::Load(*array)]);
            }
        }
    }

    fn begin_process(&mut self, process: &'p Process<Storage>) {
        match process {
            Process::Skip => {}
            Process::Stop => self.end = Some(End::Stop),
            Process::Assign(variable, value) => {
                self.put([Thing::Expression(value), Thing::Set(*variable)]);
            }
            // "`v[s] := x`: s, check, x, store": a bad s ends before any load in x.
            Process::AssignElement(array, subscript, value) => self.put([
                Thing::Expression(subscript),
                Thing::Check(*array),
                Thing::Expression(value),
                Thing::Store(*array),
            ]),
            Process::Braces(processes) => self.put(processes.iter().map(Thing::Process)),
            Process::If(condition, then, otherwise) => {
                self.put([Thing::Expression(condition), Thing::Choose(then, otherwise)]);
            }
            Process::While(condition, body) => {
                self.put([Thing::Expression(condition), Thing::ChooseAgain(body, process)]);
            }
        }
    }

    /// Puts these things before all others to do, in this order.
    fn put<Things>(&mut self, things: Things)
    where
        Things: IntoIterator<Item = Thing<'p>>,
        Things::IntoIter: DoubleEndedIterator,
    {
        self.to_do.extend(things.into_iter().rev());
    }

    /// Takes the top word off the pile. What needs a word comes after what puts
    /// it there, so there always is one.
    fn take(&mut self) -> u32 {
        self.pile.pop().expect("a word on the pile")
    }
}

/// The word that a monadic operation works out.
pub fn work_monadic(operator: Monadic, operand: u32) -> u32 {
    match operator {
        Monadic::Negate => operand.wrapping_neg(),
        Monadic::Not => !operand,
    }
}

/// The word that a diadic operation works out: "`+ - *` wrap; `<` and its kin
/// compare as signed numbers".
pub fn work_diadic(operator: Diadic, left: u32, right: u32) -> u32 {
    let (signed_left, signed_right) = (left as i32, right as i32);
    match operator {
        Diadic::Add => left.wrapping_add(right),
        Diadic::Subtract => left.wrapping_sub(right),
        Diadic::Multiply => left.wrapping_mul(right),
        Diadic::And => left & right,
        Diadic::Or => left | right,
        Diadic::Xor => left ^ right,
        // "A shift count, read unsigned, above 31 gives 0; shifts bring in zeros."
        Diadic::ShiftRight => left.checked_shr(right).unwrap_or(0),
        Diadic::ShiftLeft => left.checked_shl(right).unwrap_or(0),
        Diadic::Equal => truth(left == right),
        Diadic::NotEqual => truth(left != right),
        Diadic::Less => truth(signed_left < signed_right),
        Diadic::LessOrEqual => truth(signed_left <= signed_right),
        Diadic::Greater => truth(signed_left > signed_right),
        Diadic::GreaterOrEqual => truth(signed_left >= signed_right),
    }
}

/// "true is -1, false 0"
fn truth(holds: bool) -> u32 {
    if holds {
        u32::MAX
    } else {
        0
    }
}
