//! Depths by one pass over the tokens of a program, with a stack in place of
//! the tree.

use reference::tokens::{Kind, Token};

/// The operands read so far of an expression that is still open.
#[derive(Default)]
struct Operands {
    depths: Vec<usize>,
    monadic: bool,
}

impl Operands {
    /// The depth of the whole expression, grouped to the right; 0 if there is none.
    fn depth(&self) -> usize {
        let grouped = self.depths.iter().rev().copied().reduce(|right, left| 1 + left.max(right));
        grouped.unwrap_or(0) + usize::from(self.monadic)
    }
}

/// What stands around the next process.
enum Around {
    Braces,
    Then,
    Else,
    While,
}

/// A process is complete: so are the loops and else-parts that end with it.
fn complete(around: &mut Vec<Around>) {
    while let Some(Around::Else | Around::While) = around.last() {
        around.pop();
    }
}

/// N and the process depth of a program.
pub fn depths(tokens: &[Token<'_>]) -> (usize, usize) {
    let mut kinds = tokens.iter().map(|token| token.kind).filter(|kind| *kind != Kind::Comment).peekable();
    while let Some(Kind::Var | Kind::Array | Kind::Val) = kinds.peek() {
        kinds.find(|kind| *kind == Kind::Semicolon);
    }
    let (mut deepest, mut process_depth) = (0, 0);
    let mut open = vec![Operands::default()];
    let mut around = Vec::new();
    let mut assigning = false;
    let mut before = Kind::Semicolon;
    while let Some(kind) = kinds.next() {
        let starts = matches!(before, Kind::Semicolon | Kind::OpenCurly | Kind::Then | Kind::Else | Kind::Do);
        before = kind;
        if starts && kind != Kind::CloseCurly {
            process_depth = process_depth.max(around.len() + 1);
        }
        let innermost = open.last_mut().expect("an expression around");
        if matches!(
            kind,
            Kind::Assign | Kind::Then | Kind::Do | Kind::Semicolon | Kind::CloseCurly | Kind::Else
        ) {
            deepest = deepest.max(std::mem::take(innermost).depth());
            if std::mem::replace(&mut assigning, kind == Kind::Assign) {
                complete(&mut around);
            }
        }
        match kind {
            Kind::Name if kinds.peek() == Some(&Kind::OpenSquare) => {}
            Kind::Name | Kind::Number | Kind::Byte | Kind::True | Kind::False => innermost.depths.push(1),
            Kind::Minus | Kind::Not if innermost.depths.is_empty() => innermost.monadic = true,
            Kind::OpenRound | Kind::OpenSquare => open.push(Operands::default()),
            Kind::CloseRound | Kind::CloseSquare => {
                let inside = open.pop().expect("an open bracket").depth();
                open.last_mut().expect("an expression around").depths.push(1 + inside);
            }
            Kind::OpenCurly => around.push(Around::Braces),
            Kind::If => around.push(Around::Then),
            Kind::While => around.push(Around::While),
            Kind::Else => *around.last_mut().expect("an if around") = Around::Else,
            Kind::CloseCurly => {
                around.pop();
                complete(&mut around);
            }
            Kind::Skip | Kind::Stop => complete(&mut around),
            _ => {}
        }
    }
    (deepest.max(open[0].depth()), process_depth)
}
