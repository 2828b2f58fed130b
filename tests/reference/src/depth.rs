//! Depths, with refusal 7.

use crate::grammar::{Expression, Process};
use crate::{Reason, Refusal};

/// "depth of an expression, assigned element or process above 32" is refused.
pub const DEPTH_LIMIT: usize = 32;

/// "a constant or name is 1; brackets, a subscript, a monadic or a diadic
/// operation add 1 to the deepest part, a chain counted as grouped"
pub fn expression_depth<N>(expression: &Expression<N>) -> usize {
    match expression {
        Expression::Word(_) | Expression::Name(_) => 1,
        Expression::Element(_, part) | Expression::Brackets(part) | Expression::Monadic(_, part) => {
            1 + expression_depth(part)
        }
        Expression::Diadic(_, left, right) => 1 + expression_depth(left).max(expression_depth(right)),
    }
}

/// "Skip, stop and assignment are process depth 1; if, while and braces add 1,
/// so `{ }` is 1."
pub fn process_depth<N>(process: &Process<N>) -> usize {
    match process {
        Process::Skip | Process::Stop | Process::Assign(..) | Process::AssignElement(..) => 1,
        Process::Braces(processes) => 1 + processes.iter().map(process_depth).max().unwrap_or(0),
        Process::If(_, then, otherwise) => 1 + process_depth(then).max(process_depth(otherwise)),
        Process::While(_, body) => 1 + process_depth(body),
    }
}

/// "N is the deepest expression, assigned elements included, 0 if none." An
/// assigned element is as deep as the same element in an expression.
pub fn deepest_expression<N>(process: &Process<N>) -> usize {
    match process {
        Process::Skip | Process::Stop => 0,
        Process::Assign(_, value) => expression_depth(value),
        Process::AssignElement(_, subscript, value) => {
            (1 + expression_depth(subscript)).max(expression_depth(value))
        }
        Process::Braces(processes) => processes.iter().map(deepest_expression).max().unwrap_or(0),
        Process::If(condition, then, otherwise) => {
            expression_depth(condition).max(deepest_expression(then)).max(deepest_expression(otherwise))
        }
        Process::While(condition, body) => expression_depth(condition).max(deepest_expression(body)),
    }
}

/// N, or the refusal of a program that is too deep, at place 0.
pub fn check<N>(process: &Process<N>) -> Result<usize, Refusal> {
    let deepest = deepest_expression(process);
    if deepest.max(process_depth(process)) > DEPTH_LIMIT {
        Err(Refusal::new(Reason::TooDeep, 0))
    } else {
        Ok(deepest)
    }
}
