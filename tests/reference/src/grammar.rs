//! The grammar: from tokens to a tree, with refusal 6.
//!
//! The tree keeps brackets and braces, because the source's run takes a move
//! for each; comments leave nothing in it. It is generic over what stands for
//! a name: [`Name`] here, storage once [`crate::names`] has resolved it.

use crate::tokens::{Kind, Token};
use crate::{Reason, Refusal};

/// A name as written, with the place of its first byte.
#[derive(Clone, Copy, Debug, PartialEq, Eq)]
pub struct Name<'s> {
    pub place: usize,
    pub text: &'s [u8],
}

/// "Program: specifications, each followed by `;`, then one process."
#[derive(Clone, Debug, PartialEq, Eq)]
pub struct Program<'s> {
    pub specifications: Vec<Specification<'s>>,
    pub process: Process<Name<'s>>,
}

/// "Specification: `var n`, `array n [ c ]`, `val n = c`".
#[derive(Clone, Copy, Debug, PartialEq, Eq)]
pub enum Specification<'s> {
    Var(Name<'s>),
    Array(Name<'s>, Constant<'s>),
    Val(Name<'s>, Constant<'s>),
}

/// "c is a number, byte, true, false or an earlier val name".
#[derive(Clone, Copy, Debug, PartialEq, Eq)]
pub enum Constant<'s> {
    Word(u32),
    Name(Name<'s>),
}

#[derive(Clone, Debug, PartialEq, Eq)]
pub enum Process<N> {
    Skip,
    Stop,
    Assign(N, Expression<N>),
    AssignElement(N, Expression<N>, Expression<N>),
    Braces(Vec<Process<N>>),
    If(Expression<N>, Box<Process<N>>, Box<Process<N>>),
    While(Expression<N>, Box<Process<N>>),
}

/// A chain is nested to the right without brackets.
#[derive(Clone, Debug, PartialEq, Eq)]
pub enum Expression<N> {
    Word(u32),
    Name(N),
    Element(N, Box<Expression<N>>),
    Brackets(Box<Expression<N>>),
    Monadic(Monadic, Box<Expression<N>>),
    Diadic(Diadic, Box<Expression<N>>, Box<Expression<N>>),
}

/// "Monadic: 1 `-`, 2 not."
#[derive(Clone, Copy, Debug, PartialEq, Eq, Hash)]
pub enum Monadic {
    Negate = 1,
    Not = 2,
}

/// "Diadic from 1: `+ - * and or xor >> << = <> < <= > >=`."
#[derive(Clone, Copy, Debug, PartialEq, Eq, Hash)]
pub enum Diadic {
    Add = 1,
    Subtract = 2,
    Multiply = 3,
    And = 4,
    Or = 5,
    Xor = 6,
    ShiftRight = 7,
    ShiftLeft = 8,
    Equal = 9,
    NotEqual = 10,
    Less = 11,
    LessOrEqual = 12,
    Greater = 13,
    GreaterOrEqual = 14,
}

impl Monadic {
    fn of(kind: Kind) -> Option<Self> {
        match kind {
            Kind::Minus => Some(Monadic::Negate),
            Kind::Not => Some(Monadic::Not),
            _ => None,
        }
    }
}

impl Diadic {
    fn of(kind: Kind) -> Option<Self> {
        match kind {
            Kind::Plus => Some(Diadic::Add),
            Kind::Minus => Some(Diadic::Subtract),
            Kind::Times => Some(Diadic::Multiply),
            Kind::And => Some(Diadic::And),
            Kind::Or => Some(Diadic::Or),
            Kind::Xor => Some(Diadic::Xor),
            Kind::ShiftRight => Some(Diadic::ShiftRight),
            Kind::ShiftLeft => Some(Diadic::ShiftLeft),
            Kind::Equal => Some(Diadic::Equal),
            Kind::NotEqual => Some(Diadic::NotEqual),
            Kind::Less => Some(Diadic::Less),
            Kind::LessOrEqual => Some(Diadic::LessOrEqual),
            Kind::Greater => Some(Diadic::Greater),
            Kind::GreaterOrEqual => Some(Diadic::GreaterOrEqual),
            _ => None,
        }
    }

    /// "More than two operands only for `+ * and or xor`".
    pub fn chains(self) -> bool {
        matches!(self, Diadic::Add | Diadic::Multiply | Diadic::And | Diadic::Or | Diadic::Xor)
    }
}

impl<'s> Specification<'s> {
    /// The name that it declares.
    pub fn name(&self) -> Name<'s> {
        match *self {
            Specification::Var(name) | Specification::Array(name, _) | Specification::Val(name, _) => name,
        }
    }
}

/// Reads a program from all of a source's tokens, or refuses with 6 at the
/// "first token that no program continues with", or at the source's length if
/// the tokens end too early.
pub fn parse<'s>(tokens: &[Token<'s>], source_length: usize) -> Result<Program<'s>, Refusal> {
    Parser { tokens, source_length }.program()
}

/// The tokens not yet read. Every reader looks at one token only and refuses at
/// the first that doesn't fit, so what was read before can always be continued.
struct Parser<'t, 's> {
    tokens: &'t [Token<'s>],
    source_length: usize,
}

impl<'s> Parser<'_, 's> {
    fn peek(&self) -> Option<Kind> {
        self.tokens.first().map(|token| token.kind)
    }

    /// Takes the next token if it is of this kind.
    fn take_if(&mut self, kind: Kind) -> Option<Token<'s>> {
        let (&token, rest) = self.tokens.split_first()?;
        (token.kind == kind).then(|| {
            self.tokens = rest;
            token
        })
    }

    fn take(&mut self, kind: Kind) -> Result<Token<'s>, Refusal> {
        self.take_if(kind).ok_or_else(|| self.refusal())
    }

    fn refusal(&self) -> Refusal {
        let place = self.tokens.first().map_or(self.source_length, |token| token.place);
        Refusal::new(Reason::Grammar, place)
    }

    fn program(&mut self) -> Result<Program<'s>, Refusal> {
        let mut specifications = Vec::new();
        self.comments();
        while let Some(Kind::Var | Kind::Array | Kind::Val) = self.peek() {
            specifications.push(self.specification()?);
            self.take(Kind::Semicolon)?;
            self.comments();
        }
        let process = self.process()?;
        if self.tokens.is_empty() {
            Ok(Program { specifications, process })
        } else {
            Err(self.refusal())
        }
    }

    /// A comment "stands only directly before a specification, a process or
    /// another comment", so one of these has to come after the comments.
    fn comments(&mut self) {
        while self.take_if(Kind::Comment).is_some() {}
    }

    fn specification(&mut self) -> Result<Specification<'s>, Refusal> {
        if self.take_if(Kind::Var).is_some() {
            Ok(Specification::Var(self.name()?))
        } else if self.take_if(Kind::Array).is_some() {
            let name = self.name()?;
            self.take(Kind::OpenSquare)?;
            let length = self.constant()?;
            self.take(Kind::CloseSquare)?;
            Ok(Specification::Array(name, length))
        } else {
            self.take(Kind::Val)?;
            let name = self.name()?;
            self.take(Kind::Equal)?;
            Ok(Specification::Val(name, self.constant()?))
        }
    }

    fn name(&mut self) -> Result<Name<'s>, Refusal> {
        let token = self.take(Kind::Name)?;
        Ok(Name { place: token.place, text: token.text })
    }

    fn constant(&mut self) -> Result<Constant<'s>, Refusal> {
        match self.peek() {
            Some(Kind::Name) => Ok(Constant::Name(self.name()?)),
            _ => Ok(Constant::Word(self.word()?)),
        }
    }

    /// A number, byte, true or false; "true is -1, false 0".
    fn word(&mut self) -> Result<u32, Refusal> {
        let kind = self.peek().ok_or_else(|| self.refusal())?;
        match kind {
            Kind::Number | Kind::Byte => Ok(self.take(kind)?.value),
            Kind::True => self.take(kind).map(|_| u32::MAX),
            Kind::False => self.take(kind).map(|_| 0),
            _ => Err(self.refusal()),
        }
    }

    /// A process, with the comments before it.
    fn process(&mut self) -> Result<Process<Name<'s>>, Refusal> {
        self.comments();
        match self.peek() {
            Some(Kind::Skip) => self.take(Kind::Skip).map(|_| Process::Skip),
            Some(Kind::Stop) => self.take(Kind::Stop).map(|_| Process::Stop),
            Some(Kind::Name) => self.assignment(),
            Some(Kind::OpenCurly) => self.braces(),
            Some(Kind::If) => {
                self.take(Kind::If)?;
                let condition = self.expression()?;
                self.take(Kind::Then)?;
                let then = self.process()?;
                self.take(Kind::Else)?;
                let otherwise = self.process()?;
                Ok(Process::If(condition, Box::new(then), Box::new(otherwise)))
            }
            Some(Kind::While) => {
                self.take(Kind::While)?;
                let condition = self.expression()?;
                self.take(Kind::Do)?;
                Ok(Process::While(condition, Box::new(self.process()?)))
            }
            _ => Err(self.refusal()),
        }
    }

    /// "`n := e`; `n [ e ] := e`".
    fn assignment(&mut self) -> Result<Process<Name<'s>>, Refusal> {
        let name = self.name()?;
        if self.take_if(Kind::OpenSquare).is_some() {
            let subscript = self.expression()?;
            self.take(Kind::CloseSquare)?;
            self.take(Kind::Assign)?;
            Ok(Process::AssignElement(name, subscript, self.expression()?))
        } else {
            self.take(Kind::Assign)?;
            Ok(Process::Assign(name, self.expression()?))
        }
    }

    /// "`{ }` around processes separated by `;`, none allowed".
    fn braces(&mut self) -> Result<Process<Name<'s>>, Refusal> {
        self.take(Kind::OpenCurly)?;
        let mut processes = Vec::new();
        if self.take_if(Kind::CloseCurly).is_some() {
            return Ok(Process::Braces(processes));
        }
        processes.push(self.process()?);
        while self.take_if(Kind::Semicolon).is_some() {
            processes.push(self.process()?);
        }
        self.take(Kind::CloseCurly)?;
        Ok(Process::Braces(processes))
    }

    /// "Expression: an operand; `-` or `not` and an operand; operands joined by
    /// one operator."
    fn expression(&mut self) -> Result<Expression<Name<'s>>, Refusal> {
        let kind = self.peek().ok_or_else(|| self.refusal())?;
        if let Some(operator) = Monadic::of(kind) {
            self.take(kind)?;
            return Ok(Expression::Monadic(operator, Box::new(self.operand()?)));
        }
        let left = self.operand()?;
        match self.peek().and_then(|kind| Some((kind, Diadic::of(kind)?))) {
            Some((kind, operator)) => self.joined(left, operator, kind),
            None => Ok(left),
        }
    }

    /// The rest of an expression from its next operator on. More operands follow
    /// only by "the same operator throughout, grouped to the right".
    fn joined(
        &mut self,
        left: Expression<Name<'s>>,
        operator: Diadic,
        kind: Kind,
    ) -> Result<Expression<Name<'s>>, Refusal> {
        self.take(kind)?;
        let mut right = self.operand()?;
        if operator.chains() && self.peek() == Some(kind) {
            right = self.joined(right, operator, kind)?;
        }
        Ok(Expression::Diadic(operator, Box::new(left), Box::new(right)))
    }

    /// "Operand: constant, name, `n [ e ]`, `( e )`."
    fn operand(&mut self) -> Result<Expression<Name<'s>>, Refusal> {
        match self.peek() {
            Some(Kind::Name) => {
                let name = self.name()?;
                if self.take_if(Kind::OpenSquare).is_none() {
                    return Ok(Expression::Name(name));
                }
                let subscript = self.expression()?;
                self.take(Kind::CloseSquare)?;
                Ok(Expression::Element(name, Box::new(subscript)))
            }
            Some(Kind::OpenRound) => {
                self.take(Kind::OpenRound)?;
                let inside = self.expression()?;
                self.take(Kind::CloseRound)?;
                Ok(Expression::Brackets(Box::new(inside)))
            }
            _ => Ok(Expression::Word(self.word()?)),
        }
    }
}
