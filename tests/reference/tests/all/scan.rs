//! Refusals 8 to 12 by one pass over the tokens of a program in the order of
//! their places, stopping at the first complaint.

use std::collections::HashMap;

use reference::tokens::{Kind, Token};

#[derive(Clone, Copy, PartialEq)]
enum Sort {
    Var,
    Array,
    Val(u32),
}

/// The number and place of the first complaint about the names of a program.
pub fn first_complaint(tokens: &[Token<'_>]) -> Option<(u32, usize)> {
    let tokens: Vec<_> = tokens.iter().filter(|token| token.kind != Kind::Comment).collect();
    let kind = |index: usize| tokens.get(index).map(|token| token.kind);
    let mut sorts: HashMap<&[u8], Sort> = HashMap::new();
    let mut data = 0u64;
    let mut index = 0;
    // Specifications: keyword, name, and for arrays and vals a sign and a constant.
    while let Some(Kind::Var | Kind::Array | Kind::Val) = kind(index) {
        let name = tokens[index + 1];
        let constant = tokens[(index + 3).min(tokens.len() - 1)];
        let word = match constant.kind {
            Kind::Name => match sorts.get(constant.text) {
                None => Err(8),
                Some(Sort::Val(word)) => Ok(*word),
                Some(_) => Err(10),
            },
            Kind::True => Ok(u32::MAX),
            _ => Ok(constant.value),
        };
        if sorts.contains_key(name.text) {
            return Some((9, name.place));
        }
        let full = sorts.len() == 256;
        let sort = match kind(index) {
            Some(Kind::Var) => {
                data += 1;
                Ok(Sort::Var)
            }
            Some(Kind::Array) => {
                if let Ok(length) = word {
                    if length == 0 || length > 8_192 {
                        return Some((11, name.place));
                    }
                    data += u64::from(length);
                }
                word.map(|_| Sort::Array)
            }
            _ => word.map(Sort::Val),
        };
        if full || data > 8_192 {
            return Some((12, name.place));
        }
        match sort {
            Ok(sort) => sorts.insert(name.text, sort),
            Err(number) => return Some((number, constant.place)),
        };
        index += match kind(index) {
            Some(Kind::Var) => 3,
            Some(Kind::Array) => 6,
            _ => 5,
        };
    }
    // Names of the process: what stands after a name tells how it is used.
    (index..tokens.len()).filter(|&index| kind(index) == Some(Kind::Name)).find_map(|index| {
        let fits = match (sorts.get(tokens[index].text), kind(index + 1)) {
            (None, _) => return Some((8, tokens[index].place)),
            (Some(sort), Some(Kind::OpenSquare)) => *sort == Sort::Array,
            (Some(sort), Some(Kind::Assign)) => *sort == Sort::Var,
            (Some(sort), _) => *sort != Sort::Array,
        };
        (!fits).then_some((10, tokens[index].place))
    })
}
