//! A second assembler, disassembler and interpreter, written from document 01 and Arm's
//! Armv6-M manual alone, by bit patterns and Rust's own 32-bit arithmetic.

use crate::classes;
use std::sync::OnceLock;

#[derive(Clone, Copy, Debug, PartialEq, Eq)]
pub enum Op {
    Shli,
    Shri,
    Ashri,
    Addr,
    Subr,
    Movi,
    Addi,
    Subi,
    Ldrpci,
    Strspi,
    Ldrspi,
    Addpci,
    Addspi,
    Andr,
    Xorr,
    Shl,
    Shr,
    Negr,
    Orr,
    Mul,
    Mvnr,
    Str,
    Ldr,
    Stri,
    Ldri,
    Incsp,
    Decsp,
    Svc,
    Beq,
    Bne,
    Bge,
    Blt,
    Bu,
    Bl,
}
use Op::*;

impl Op {
    /// Document 01's name, of which the names here differ in the case of letters.
    pub fn mnemonic(self) -> String {
        format!("{self:?}").to_uppercase()
    }
}

/// In the order of their numbers at the boundary.
pub const OPS: [Op; 34] = [
    Shli, Shri, Ashri, Addr, Subr, Movi, Addi, Subi, Ldrpci, Strspi, Ldrspi, Addpci, Addspi, Andr, Xorr, Shl,
    Shr, Negr, Orr, Mul, Mvnr, Str, Ldr, Stri, Ldri, Incsp, Decsp, Svc, Beq, Bne, Bge, Blt, Bu, Bl,
];

/// How an instruction's operands lie in it.
#[derive(Clone, Copy, PartialEq, Eq)]
pub enum Layout {
    /// imm5 (a) Rm (b) Rd (c)
    Imm5,
    /// imm5 counting 1 to 32
    Count,
    /// Rm (a) Rn (b) Rd (c)
    Regs3,
    /// Rd (a) imm8 (b)
    Imm8,
    /// Rm (a) Rd (b)
    Regs2,
    /// imm7 (a)
    Imm7,
    /// imm8 (a)
    Only8,
    /// signed distance of 8 bits
    Near,
    /// signed distance of 11 bits
    Jump,
    /// signed distance of 22 bits, two halfwords
    Call,
}
use Layout::*;

/// The manual's leading bits, as a string, and the layout of the rest.
pub fn pattern(op: Op) -> (&'static str, Layout) {
    match op {
        Shli => ("00000", Imm5),
        Shri => ("00001", Count),
        Ashri => ("00010", Count),
        Addr => ("0001100", Regs3),
        Subr => ("0001101", Regs3),
        Movi => ("00100", Imm8),
        Addi => ("00110", Imm8),
        Subi => ("00111", Imm8),
        Ldrpci => ("01001", Imm8),
        Strspi => ("10010", Imm8),
        Ldrspi => ("10011", Imm8),
        Addpci => ("10100", Imm8),
        Addspi => ("10101", Imm8),
        Andr => ("0100000000", Regs2),
        Xorr => ("0100000001", Regs2),
        Shl => ("0100000010", Regs2),
        Shr => ("0100000011", Regs2),
        Negr => ("0100001001", Regs2),
        Orr => ("0100001100", Regs2),
        Mul => ("0100001101", Regs2),
        Mvnr => ("0100001111", Regs2),
        Str => ("0101000", Regs3),
        Ldr => ("0101100", Regs3),
        Stri => ("01100", Imm5),
        Ldri => ("01101", Imm5),
        Incsp => ("101100000", Imm7),
        Decsp => ("101100001", Imm7),
        Svc => ("11011111", Only8),
        Beq => ("11010000", Near),
        Bne => ("11010001", Near),
        Bge => ("11011010", Near),
        Blt => ("11011011", Near),
        Bu => ("11100", Jump),
        Bl => ("11110", Call),
    }
}

/// An instruction: up to three fields from the highest, or a distance in halfwords.
#[derive(Clone, Copy, Debug, PartialEq, Eq)]
pub struct Instr {
    pub op: Op,
    pub a: u8,
    pub b: u8,
    pub c: u8,
    pub k: i32,
}

/// The leading bits at the top of a halfword.
fn lead(bits: &str) -> u16 {
    u16::from_str_radix(bits, 2).unwrap() << (16 - bits.len())
}

/// The halfwords of an instruction, or none if a field doesn't fit.
pub fn assemble(i: Instr) -> Option<Vec<u16>> {
    let (bits, layout) = pattern(i.op);
    let top = lead(bits);
    let (a, b, c) = (i.a as u16, i.b as u16, i.c as u16);
    let fits = |v: u16, width: u32| v >> width == 0;
    let signed = |width: u32| i.k >= -(1 << (width - 1)) && i.k < 1 << (width - 1);
    let one = |ok: bool, rest: u16| ok.then(|| vec![top | rest]);
    match layout {
        Imm5 => one(fits(a, 5) && fits(b, 3) && fits(c, 3), a << 6 | b << 3 | c),
        Count => one((1..=32).contains(&a) && fits(b, 3) && fits(c, 3), (a & 31) << 6 | b << 3 | c),
        Regs3 => one(fits(a, 3) && fits(b, 3) && fits(c, 3), a << 6 | b << 3 | c),
        Imm8 => one(fits(a, 3), a << 8 | b),
        Regs2 => one(fits(a, 3) && fits(b, 3), a << 3 | b),
        Imm7 => one(fits(a, 7), a),
        Only8 => one(true, a),
        Near => one(signed(8), (i.k & 0xff) as u16),
        Jump => one(signed(11), (i.k & 0x7ff) as u16),
        Call => signed(22).then(|| {
            // The manual's BL: S:imm10 and J1:J2:imm11; in this range both J bits are 1.
            let high = (i.k >> 11) as u16 & 0x7ff;
            let low = i.k as u16 & 0x7ff;
            vec![top | high, 0b11111 << 11 | low]
        }),
    }
}

/// The operation whose leading bits a halfword has.
fn operation(h: u16) -> Option<Op> {
    OPS.into_iter().find(|&op| {
        let bits = pattern(op).0;
        h >> (16 - bits.len()) == lead(bits) >> (16 - bits.len())
    })
}

/// The instruction of a halfword and the one after it.
pub fn disassemble(h: u16, next: u16) -> Option<Instr> {
    static OPERATIONS: OnceLock<Vec<Option<Op>>> = OnceLock::new();
    let op = OPERATIONS.get_or_init(|| (0..=u16::MAX).map(operation).collect())[h as usize]?;
    let three = |v: u16| (v & 7) as u8;
    let imm5 = (h >> 6 & 31) as u8;
    let mut i = Instr { op, a: 0, b: 0, c: 0, k: 0 };
    match pattern(op).1 {
        Imm5 => (i.a, i.b, i.c) = (imm5, three(h >> 3), three(h)),
        Count => (i.a, i.b, i.c) = (if imm5 == 0 { 32 } else { imm5 }, three(h >> 3), three(h)),
        Regs3 => (i.a, i.b, i.c) = (three(h >> 6), three(h >> 3), three(h)),
        Imm8 => (i.a, i.b) = (three(h >> 8), h as u8),
        Regs2 => (i.a, i.b) = (three(h >> 3), three(h)),
        Imm7 => i.a = (h & 127) as u8,
        Only8 => i.a = h as u8,
        Near => i.k = h as i8 as i32,
        Jump => i.k = ((h << 5) as i16 >> 5) as i32,
        Call => {
            if next >> 11 != 0b11111 {
                return None;
            }
            // I1 = NOT(J1 XOR S), I2 = NOT(J2 XOR S), J1 = J2 = 1.
            let s = (h >> 10 & 1) as u32;
            let imm = s << 24 | s << 23 | s << 22 | ((h & 0x3ff) as u32) << 12 | ((next & 0x7ff) as u32) << 1;
            i.k = (imm << 7) as i32 >> 8;
        }
    }
    Some(i)
}

/// The manual's flags: negative, zero, carry (of a difference: no borrow), overflow.
#[derive(Clone, Copy, Debug, Default, PartialEq, Eq)]
pub struct Flags {
    pub n: bool,
    pub z: bool,
    pub c: bool,
    pub v: bool,
}

impl Flags {
    /// The bits of the APSR that are flags.
    pub const BITS: u32 = 0xf000_0000;

    pub fn of(apsr: u32) -> Flags {
        let bit = |place: u32| apsr >> place & 1 == 1;
        Flags { n: bit(31), z: bit(30), c: bit(29), v: bit(28) }
    }

    /// The APSR with these flags, its other bits 0.
    pub fn apsr(self) -> u32 {
        let bit = |flag: bool, place: u32| u32::from(flag) << place;
        bit(self.n, 31) | bit(self.z, 30) | bit(self.c, 29) | bit(self.v, 28)
    }
}

#[derive(Clone, Debug, Default, PartialEq, Eq)]
pub struct State {
    pub r: [u32; 8],
    pub sp: u32,
    pub lr: u32,
    pub pc: u32,
    pub flags: Flags,
}

pub const DATA: u32 = 0x2000_0000;
/// "Code is bytes at addresses 0 up, at most 65,536; data is lent words at 0x20000000 up, at most 16,384."
pub const CODE_LIMIT: usize = 65_536;
pub const MEMORY_LIMIT: usize = 16_384;

pub fn refusal(code: &[u8], memory: &[u32]) -> u32 {
    if code.len() > CODE_LIMIT {
        31
    } else if memory.len() > MEMORY_LIMIT {
        32
    } else {
        0
    }
}

/// Status and state.
pub fn start(code: &[u8], memory: &[u32], d: u32, n: u32) -> (u32, State) {
    let needed = d as u128 + 2 * n as u128 + 8;
    let status = match refusal(code, memory) {
        0 if d > 8192 || n > 32 => 34,
        0 if (memory.len() as u128) < needed => 33,
        other => other,
    };
    let mut s = State::default();
    if status == 0 {
        s.r[7] = DATA;
        s.sp = DATA + 4 * needed as u32;
    }
    (status, s)
}

/// Status and number of what ends a step or a run: an SVC or a fault.
type End = (u32, u32);

/// A load or store of a data word: its place in data, what it held and holds.
#[derive(Clone, Copy, Debug, PartialEq, Eq)]
pub struct Touch {
    pub store: bool,
    pub word: u32,
    pub old: u32,
    pub new: u32,
}

fn byte(code: &[u8], a: u64) -> Option<u32> {
    code.get(usize::try_from(a).ok()?).map(|&b| b as u32)
}

fn halfword(code: &[u8], a: u64) -> Option<u16> {
    Some((byte(code, a)? | byte(code, a + 1)? << 8) as u16)
}

fn load(code: &[u8], memory: &[u32], a: u32, touch: &mut Option<Touch>) -> Result<u32, End> {
    if a & 3 != 0 {
        return Err((23, 0));
    }
    let a = a as u64;
    if let (Some(low), Some(high)) = (halfword(code, a), halfword(code, a + 2)) {
        return Ok(low as u32 | (high as u32) << 16);
    }
    let outside = || (24, 0);
    let word = a.checked_sub(DATA as u64).ok_or_else(outside)? as u32 / 4;
    let v = *memory.get(word as usize).ok_or_else(outside)?;
    *touch = Some(Touch { store: false, word, old: v, new: v });
    Ok(v)
}

fn store(memory: &mut [u32], a: u32, v: u32, touch: &mut Option<Touch>) -> Result<(), End> {
    if a & 3 != 0 {
        return Err((23, 0));
    }
    let outside = || (24, 0);
    let word = a.checked_sub(DATA).ok_or_else(outside)? / 4;
    let old = std::mem::replace(memory.get_mut(word as usize).ok_or_else(outside)?, v);
    *touch = Some(Touch { store: true, word, old, new: v });
    Ok(())
}

fn fetch(code: &[u8], pc: u32) -> Result<Instr, End> {
    let outside = || (21, 0);
    if pc & 1 == 1 {
        return Err(outside());
    }
    let h = halfword(code, pc as u64).ok_or_else(outside)?;
    let mut next = 0;
    if h >> 11 == 0b11110 {
        next = halfword(code, pc as u64 + 2).ok_or_else(outside)?;
    }
    disassemble(h, next).ok_or_else(|| classes::fault(h, next))
}

/// The manual's AddWithCarry: the result, carry out and overflow.
fn add_with_carry(x: u32, y: u32, carry_in: bool) -> (u32, bool, bool) {
    let unsigned_sum = x as u64 + y as u64 + carry_in as u64;
    let signed_sum = x as i32 as i64 + y as i32 as i64 + carry_in as i64;
    let result = unsigned_sum as u32;
    (result, result as u64 != unsigned_sum, result as i32 as i64 != signed_sum)
}

/// The manual's LSL_C: of the word with so many zeros behind it, the low 32 bits and bit 32. From 64 zeros on these are
/// all 0.
fn lsl_c(x: u32, shift: u32) -> (u32, bool) {
    let extended = (x as u64).checked_shl(shift).unwrap_or(0);
    (extended as u32, extended >> 32 & 1 == 1)
}

/// The manual's LSR_C: of the word with zeros before it, the bits from `shift` up and the one below them.
fn lsr_c(x: u32, shift: u32) -> (u32, bool) {
    let from = |place: u32| (x as u64).checked_shr(place).unwrap_or(0);
    (from(shift) as u32, from(shift - 1) & 1 == 1)
}

/// The manual's ASR_C: the same with copies of the sign before it. Counts are at most 32.
fn asr_c(x: u32, shift: u32) -> (u32, bool) {
    let extended = x as i32 as i64;
    ((extended >> shift) as u32, extended >> (shift - 1) & 1 == 1)
}

/// A result, its register and the flags after it, of the instructions that set flags: a sum sets all four, a shift
/// leaves V and by nothing C too, any other result leaves both.
fn result(i: Instr, r: &[u32; 8], flags: Flags) -> Option<(usize, u32, Flags)> {
    let (a, b, c) = (i.a as usize & 7, i.b as usize & 7, i.c as usize & 7);
    let other = |word: u32| (word, flags.c, flags.v);
    let shifted = |shift_c: fn(u32, u32) -> (u32, bool), word: u32, count: u32| {
        if count == 0 {
            return other(word);
        }
        let (word, carry) = shift_c(word, count);
        (word, carry, flags.v)
    };
    let (to, (word, carry, overflow)) = match i.op {
        Shli => (c, shifted(lsl_c, r[b], i.a as u32)),
        Shri => (c, shifted(lsr_c, r[b], i.a as u32)),
        Ashri => (c, shifted(asr_c, r[b], i.a as u32)),
        Shl => (b, shifted(lsl_c, r[b], r[a] & 255)),
        Shr => (b, shifted(lsr_c, r[b], r[a] & 255)),
        Addr => (c, add_with_carry(r[b], r[a], false)),
        Subr => (c, add_with_carry(r[b], !r[a], true)),
        Addi => (a, add_with_carry(r[a], i.b as u32, false)),
        Subi => (a, add_with_carry(r[a], !(i.b as u32), true)),
        Negr => (b, add_with_carry(!r[a], 0, true)),
        Movi => (a, other(i.b as u32)),
        Andr => (b, other(r[b] & r[a])),
        Xorr => (b, other(r[b] ^ r[a])),
        Orr => (b, other(r[b] | r[a])),
        Mvnr => (b, other(!r[a])),
        Mul => (b, other(r[b].wrapping_mul(r[a]))),
        _ => return None,
    };
    Some((to, word, Flags { n: word >> 31 == 1, z: word == 0, c: carry, v: overflow }))
}

/// Whether an instruction goes on at its distance.
fn jumps(op: Op, flags: Flags) -> bool {
    match op {
        Beq => flags.z,
        Bne => !flags.z,
        Bge => flags.n == flags.v,
        Blt => flags.n != flags.v,
        Bu | Bl => true,
        _ => false,
    }
}

/// One instruction. On an error nothing but the answer may have changed: callers work on a copy.
fn execute(s: &mut State, code: &[u8], memory: &mut [u32], touch: &mut Option<Touch>) -> Result<(), End> {
    let i = fetch(code, s.pc)?;
    let ahead = s.pc.wrapping_add(4);
    let next =
        if jumps(i.op, s.flags) { ahead.wrapping_add((i.k as u32) << 1) } else { s.pc.wrapping_add(2) };
    let (a, b, c) = (i.a as usize & 7, i.b as usize & 7, i.c as usize & 7);
    let words = |base: u32, count: u8| base.wrapping_add(4 * count as u32);
    let r = s.r;
    match i.op {
        Ldrpci => s.r[a] = load(code, memory, words(ahead & !3, i.b), touch)?,
        Ldrspi => s.r[a] = load(code, memory, words(s.sp, i.b), touch)?,
        Ldr => s.r[c] = load(code, memory, r[b].wrapping_add(r[a]), touch)?,
        Ldri => s.r[c] = load(code, memory, words(r[b], i.a), touch)?,
        Addpci => s.r[a] = words(ahead & !3, i.b),
        Addspi => s.r[a] = words(s.sp, i.b),
        Strspi => store(memory, words(s.sp, i.b), r[a], touch)?,
        Str => store(memory, r[b].wrapping_add(r[a]), r[c], touch)?,
        Stri => store(memory, words(r[b], i.a), r[c], touch)?,
        Incsp => s.sp = words(s.sp, i.a),
        Decsp => s.sp = s.sp.wrapping_sub(4 * i.a as u32),
        Svc => return Err((1, i.a as u32)),
        Bl => s.lr = s.pc.wrapping_add(5),
        _ => {}
    }
    if let Some((to, word, flags)) = result(i, &r, s.flags) {
        s.r[to] = word;
        s.flags = flags;
    }
    s.pc = next;
    Ok(())
}

/// Status and number of one step.
pub fn step(s: &mut State, code: &[u8], memory: &mut [u32]) -> (u32, u32) {
    watched_step(s, code, memory, &mut None)
}

/// The same, and the data word that it loads or stores, if any.
pub fn watched_step(s: &mut State, code: &[u8], memory: &mut [u32], touch: &mut Option<Touch>) -> (u32, u32) {
    let refused = refusal(code, memory);
    if refused != 0 {
        return (refused, 0);
    }
    let mut after = s.clone();
    match execute(&mut after, code, memory, touch) {
        Ok(()) => {
            *s = after;
            (0, 0)
        }
        Err(end) => end,
    }
}

/// Status, number and count of a run.
pub fn run(s: &mut State, code: &[u8], memory: &mut [u32], limit: u64) -> (u32, u32, u64) {
    let refused = refusal(code, memory);
    if refused != 0 {
        return (refused, 0, 0);
    }
    for done in 0..limit {
        match step(s, code, memory) {
            (0, _) => {}
            (1, n) => return (1, n, done + 1),
            (f, n) => return (f, n, done),
        }
    }
    (0, 0, limit)
}
