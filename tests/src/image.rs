//! A second code generator, written from docs/TRANSLATION.md alone: the image of a syntax table.

use crate::arm::{assemble, Instr, Op, Op::*};
use reference::table::Row;

/// The image's bytes: "The code of the whole process · `SVC 0`".
pub fn image(rows: &[Row]) -> Vec<u8> {
    let generator = Generator { rows };
    let mut code = generator.process(rows.len() as u32 - 1);
    code.push(svc(0));
    bytes(&code)
}

fn bytes(code: &[Instr]) -> Vec<u8> {
    let halfwords = code.iter().flat_map(|&i| assemble(i).unwrap_or_else(|| panic!("{i:?} has no encoding")));
    halfwords.flat_map(u16::to_le_bytes).collect()
}

fn size(code: &[Instr]) -> i32 {
    code.iter().map(|i| if i.op == Bl { 4 } else { 2 }).sum()
}

fn fields(op: Op, a: u8, b: u8, c: u8) -> Instr {
    Instr { op, a, b, c, k: 0 }
}

/// Below, operands are in assembler order, the destination first.
fn three(op: Op, d: u8, l: u8, r: u8) -> Instr {
    fields(op, r, l, d)
}

fn two(op: Op, d: u8, r: u8) -> Instr {
    fields(op, r, d, 0)
}

fn by(op: Op, d: u8, l: u8, n: u8) -> Instr {
    fields(op, n, l, d)
}

fn byte(op: Op, d: u8, u: u8) -> Instr {
    fields(op, d, u, 0)
}

/// `LDR` and `STR`: the register, then base and offset registers.
fn memory(op: Op, d: u8, base: u8, offset: u8) -> Instr {
    fields(op, offset, base, d)
}

fn one(op: Op, n: u8) -> Instr {
    fields(op, n, 0, 0)
}

fn svc(n: u8) -> Instr {
    one(Svc, n)
}

fn jump(op: Op, k: i32) -> Instr {
    Instr { op, a: 0, b: 0, c: 0, k }
}

/// `BL` over so many bytes behind it; back if they are negative, its own four counted.
fn far(over: i32) -> Instr {
    jump(Bl, over / 2)
}

/// Register d takes the word w.
pub fn constant(d: u8, w: u32) -> Vec<Instr> {
    let below = w.trailing_zeros();
    if w < 256 {
        vec![byte(Movi, d, w as u8)]
    } else if w.leading_zeros() + below >= 24 {
        vec![byte(Movi, d, (w >> below) as u8), by(Shli, d, d, below as u8)]
    } else {
        let [b3, b2, b1, b0] = w.to_be_bytes();
        let mut code = vec![byte(Movi, d, b3)];
        for b in [b2, b1, b0] {
            code.extend([by(Shli, d, d, 8), byte(Addi, d, b)]);
        }
        code
    }
}

fn check(length: u32) -> Vec<Instr> {
    let mut code = vec![byte(Ldrspi, 0, 0), by(Shri, 2, 0, 14), jump(Beq, 0), svc(2)];
    code.extend(constant(1, length));
    code.extend([three(Subr, 2, 0, 1), by(Shri, 2, 2, 31), jump(Bne, 0), svc(2)]);
    code
}

fn load(offset: u32) -> Vec<Instr> {
    let mut code = vec![byte(Ldrspi, 0, 0), by(Shli, 0, 0, 2)];
    code.extend(constant(1, 4 * offset));
    code.extend([three(Addr, 0, 0, 1), memory(Ldr, 0, 7, 0), byte(Strspi, 0, 0)]);
    code
}

fn store(offset: u32) -> Vec<Instr> {
    let mut code = vec![byte(Ldrspi, 0, 0), byte(Ldrspi, 1, 1), one(Incsp, 2), by(Shli, 1, 1, 2)];
    code.extend(constant(2, 4 * offset));
    code.extend([three(Addr, 1, 1, 2), memory(Str, 0, 7, 1)]);
    code
}

fn less(a: u8, b: u8) -> Vec<Instr> {
    vec![
        by(Shri, 2, a, 31),
        by(Shri, 3, b, 31),
        three(Subr, 3, 2, 3),
        jump(Bne, 1),
        three(Subr, 0, a, b),
        by(Shri, 2, 0, 31),
        two(Negr, 0, 2),
    ]
}

/// r0 is the left operand, r1 the right one, the result is in r0.
fn operator(number: u32) -> Vec<Instr> {
    let shift = |op| vec![by(Shri, 2, 1, 5), jump(Beq, 1), byte(Movi, 0, 0), byte(Movi, 1, 0), two(op, 0, 1)];
    let compare = |last| vec![three(Subr, 0, 0, 1), jump(Beq, 0), byte(Movi, 0, 1), last];
    let not = |code: Vec<Instr>| [code, vec![two(Mvnr, 0, 0)]].concat();
    match number {
        1 => vec![three(Addr, 0, 0, 1)],
        2 => vec![three(Subr, 0, 0, 1)],
        3 => vec![two(Mul, 0, 1)],
        4 => vec![two(Andr, 0, 1)],
        5 => vec![two(Orr, 0, 1)],
        6 => vec![two(Xorr, 0, 1)],
        7 => shift(Shr),
        8 => shift(Shl),
        9 => compare(byte(Subi, 0, 1)),
        10 => compare(two(Negr, 0, 0)),
        11 => less(0, 1),
        12 => not(less(1, 0)),
        13 => less(1, 0),
        14 => not(less(0, 1)),
        _ => panic!("operator {number}"),
    }
}

fn condition() -> Vec<Instr> {
    vec![byte(Ldrspi, 0, 0), one(Incsp, 1), byte(Addi, 0, 0), jump(Bne, 1)]
}

struct Generator<'r> {
    rows: &'r [Row],
}

impl Generator<'_> {
    /// Offset and length of a declaration's row.
    fn storage(&self, row: u32) -> (u32, u32) {
        let [_, offset, length, _] = self.rows[row as usize];
        (offset, length)
    }

    fn expression(&self, row: u32) -> Vec<Instr> {
        let [kind, a, b, c] = self.rows[row as usize];
        match kind {
            3 => [vec![one(Decsp, 1)], constant(0, a), vec![byte(Strspi, 0, 0)]].concat(),
            4 => {
                let (offset, _) = self.storage(a);
                let read = vec![memory(Ldr, 0, 7, 1), byte(Strspi, 0, 0)];
                [vec![one(Decsp, 1)], constant(1, 4 * offset), read].concat()
            }
            5 => {
                let (offset, length) = self.storage(a);
                [self.expression(b), check(length), load(offset)].concat()
            }
            6 => {
                let work = two(if a == 1 { Negr } else { Mvnr }, 0, 0);
                [self.expression(b), vec![byte(Ldrspi, 0, 0), work, byte(Strspi, 0, 0)]].concat()
            }
            7 => {
                let take = vec![byte(Ldrspi, 1, 0), one(Incsp, 1), byte(Ldrspi, 0, 0)];
                let give = vec![byte(Strspi, 0, 0)];
                [self.expression(b), self.expression(c), take, operator(a), give].concat()
            }
            _ => panic!("row {row} of kind {kind} is no expression"),
        }
    }

    fn process(&self, row: u32) -> Vec<Instr> {
        let [kind, a, b, c] = self.rows[row as usize];
        match kind {
            8 => vec![],
            9 => vec![svc(1)],
            10 => {
                let (offset, _) = self.storage(a);
                let take = vec![byte(Ldrspi, 0, 0), one(Incsp, 1)];
                [self.expression(b), take, constant(1, 4 * offset), vec![memory(Str, 0, 7, 1)]].concat()
            }
            11 => {
                let (offset, length) = self.storage(a);
                [self.expression(b), check(length), self.expression(c), store(offset)].concat()
            }
            12 => [self.process(a), self.process(b)].concat(),
            13 => {
                let (then, otherwise) = (self.process(b), self.process(c));
                let (over, end) = (far(size(&then) + 4), far(size(&otherwise)));
                [self.expression(a), condition(), vec![over], then, vec![end], otherwise].concat()
            }
            14 => {
                let (tested, body) = (self.expression(a), self.process(b));
                let over = far(size(&body) + 4);
                let back = far(-(size(&tested) + size(&body) + 16));
                [tested, condition(), vec![over], body, vec![back]].concat()
            }
            _ => panic!("row {row} of kind {kind} is no process"),
        }
    }
}
