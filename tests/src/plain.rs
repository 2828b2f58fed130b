//! The yardstick for the machine's speed: a plain interpreter of the same instructions, written to be fast. One match on
//! the halfword, registers and flags in locals; every test is made at every instruction: pc odd or outside code, a
//! halfword that is not in the list, a second half, an address that is no multiple of 4, a word outside memory.

use crate::arm::{refusal, Flags, State, DATA};
use crate::classes;

/// N and Z in one number, so that a result sets both by one extension of its sign: N if it is negative, Z if its low
/// word is 0. Both at once, which no result gives, is -2^63.
fn sign_and_zero(flags: Flags) -> i64 {
    (if flags.n { i64::MIN } else { 0 }) | i64::from(!flags.z)
}

/// A sum, its carry and overflow.
fn sum(x: u32, y: u32) -> (u32, bool, bool) {
    let (word, carry) = x.overflowing_add(y);
    (word, carry, (x as i32).overflowing_add(y as i32).1)
}

/// A difference, its carry, which is that there is no borrow, and overflow.
fn difference(x: u32, y: u32) -> (u32, bool, bool) {
    (x.wrapping_sub(y), x >= y, (x as i32).overflowing_sub(y as i32).1)
}

/// A word shifted left by 1 to 63, and the last bit out.
fn shifted_left(word: u32, count: u32) -> (u32, bool) {
    let wide = (word as u64) << count;
    (wide as u32, wide >> 32 & 1 != 0)
}

/// The same to the right.
fn shifted_right(word: u32, count: u32) -> (u32, bool) {
    let wide = (word as u64) << 32 >> count;
    ((wide >> 32) as u32, wide >> 31 & 1 != 0)
}

/// The same to the right by 1 to 32, its sign brought in.
fn shifted_signed(word: u32, count: u32) -> (u32, bool) {
    let wide = word as i32 as i64;
    ((wide >> count) as u32, wide >> (count - 1) & 1 != 0)
}

/// The word at an address of code or data, or the fault.
fn load(code: &[u8], memory: &[u32], address: u32) -> Result<u32, u32> {
    if address & 3 != 0 {
        return Err(23);
    }
    if let Some(word) = memory.get((address.wrapping_sub(DATA) >> 2) as usize) {
        return Ok(*word);
    }
    let at = address as usize;
    match code.get(at..at + 4) {
        Some(bytes) => Ok(u32::from_le_bytes([bytes[0], bytes[1], bytes[2], bytes[3]])),
        None => Err(24),
    }
}

/// The data word at an address, or the fault.
fn slot(memory: &mut [u32], address: u32) -> Result<&mut u32, u32> {
    if address & 3 != 0 {
        return Err(23);
    }
    memory.get_mut((address.wrapping_sub(DATA) >> 2) as usize).ok_or(24)
}

/// A distance in halfwords, from the highest of so many bits on a sign, as bytes.
fn distance(halfword: u32, bits: u32) -> u32 {
    (((halfword << (32 - bits)) as i32) >> (31 - bits)) as u32
}

/// The fault where pc stands at halfwords that are not in the list.
#[cold]
fn unlisted(code: &[u8], pc: u32) -> (u32, u32) {
    let half = |at: usize| code.get(at..at + 2).map_or(0, |pair| u16::from_le_bytes([pair[0], pair[1]]));
    classes::fault(half(pc as usize), half(pc as usize + 2))
}

/// Status, number and count of a run: as `gutilamboy_run`.
pub fn run(state: &mut State, code: &[u8], memory: &mut [u32], limit: u64) -> (u32, u32, u64) {
    let (mut status, mut number, count) = listed(state, code, memory, limit);
    if status == 22 {
        (status, number) = unlisted(code, state.pc);
    }
    (status, number, count)
}

/// The same with 22 for all that is not in the list. Apart, as the loop is slower with the look at those in it.
#[inline(never)]
fn listed(state: &mut State, code: &[u8], memory: &mut [u32], limit: u64) -> (u32, u32, u64) {
    let refused = refusal(code, memory);
    if refused != 0 {
        return (refused, 0, 0);
    }
    let State { mut r, mut sp, mut lr, mut pc, flags } = *state;
    let (mut nz, mut carry, mut overflow) = (sign_and_zero(flags), flags.c, flags.v);
    let mut left = limit;
    macro_rules! result {
        ($to:expr, $word:expr) => {{
            let word: u32 = $word;
            nz = word as i32 as i64;
            r[$to] = word;
        }};
    }
    macro_rules! summed {
        ($to:expr, $sum:expr) => {{
            let word;
            (word, carry, overflow) = $sum;
            result!($to, word);
        }};
    }
    macro_rules! shifted {
        ($to:expr, $shifted:expr) => {{
            let word;
            (word, carry) = $shifted;
            result!($to, word);
        }};
    }
    let (status, number) = loop {
        if left == 0 {
            break (0, 0);
        }
        let at = pc as usize;
        let Some(&[low, high]) = code.get(at..at + 2) else { break (21, 0) };
        if pc & 1 != 0 {
            break (21, 0);
        }
        let half = u16::from_le_bytes([low, high]) as u32;
        let (a, b, c) = ((half >> 6 & 7) as usize, (half >> 3 & 7) as usize, (half & 7) as usize);
        let (d, byte, five) = ((half >> 8 & 7) as usize, half & 255, half >> 6 & 31);
        let ahead = pc.wrapping_add(4);
        let mut next = pc.wrapping_add(2);
        // a count in a register's low byte: 0 leaves C, above 32 nothing is left
        macro_rules! shifted_by_register {
            ($shift:ident) => {
                match r[b] & 255 {
                    0 => result!(c, r[c]),
                    count @ 1..=63 => shifted!(c, $shift(r[c], count)),
                    _ => shifted!(c, (0, false)),
                }
            };
        }
        macro_rules! loaded {
            ($to:expr, $address:expr) => {
                match load(code, memory, $address) {
                    Ok(word) => r[$to] = word,
                    Err(fault) => break (fault, 0),
                }
            };
        }
        macro_rules! stored {
            ($from:expr, $address:expr) => {
                match slot(memory, $address) {
                    Ok(word) => *word = r[$from],
                    Err(fault) => break (fault, 0),
                }
            };
        }
        match half >> 11 {
            0 if five == 0 => result!(c, r[b]),
            0 => shifted!(c, shifted_left(r[b], five)),
            1 => shifted!(c, shifted_right(r[b], if five == 0 { 32 } else { five })),
            2 => shifted!(c, shifted_signed(r[b], if five == 0 { 32 } else { five })),
            3 => match half >> 9 & 3 {
                0 => summed!(c, sum(r[b], r[a])),
                1 => summed!(c, difference(r[b], r[a])),
                _ => break (22, 0),
            },
            4 => result!(d, byte),
            6 => summed!(d, sum(r[d], byte)),
            7 => summed!(d, difference(r[d], byte)),
            8 => match half >> 6 & 31 {
                0 => result!(c, r[c] & r[b]),
                1 => result!(c, r[c] ^ r[b]),
                2 => shifted_by_register!(shifted_left),
                3 => shifted_by_register!(shifted_right),
                9 => summed!(c, difference(0, r[b])),
                12 => result!(c, r[c] | r[b]),
                13 => result!(c, r[c].wrapping_mul(r[b])),
                15 => result!(c, !r[b]),
                _ => break (22, 0),
            },
            9 => loaded!(d, (ahead & !3).wrapping_add(4 * byte)),
            10 if half >> 9 & 3 == 0 => stored!(c, r[b].wrapping_add(r[a])),
            11 if half >> 9 & 3 == 0 => loaded!(c, r[b].wrapping_add(r[a])),
            12 => stored!(c, r[b].wrapping_add(4 * five)),
            13 => loaded!(c, r[b].wrapping_add(4 * five)),
            18 => stored!(d, sp.wrapping_add(4 * byte)),
            19 => loaded!(d, sp.wrapping_add(4 * byte)),
            20 => r[d] = (ahead & !3).wrapping_add(4 * byte),
            21 => r[d] = sp.wrapping_add(4 * byte),
            22 => match half >> 7 & 15 {
                0 => sp = sp.wrapping_add(4 * (half & 127)),
                1 => sp = sp.wrapping_sub(4 * (half & 127)),
                _ => break (22, 0),
            },
            26 => {
                let taken = match d {
                    0 => nz as u32 == 0,
                    1 => nz as u32 != 0,
                    _ => break (22, 0),
                };
                if taken {
                    next = ahead.wrapping_add(distance(half, 8));
                }
            }
            27 => {
                let taken = match d {
                    2 => (nz < 0) == overflow,
                    3 => (nz < 0) != overflow,
                    7 => {
                        left -= 1;
                        break (1, byte);
                    }
                    _ => break (22, 0),
                };
                if taken {
                    next = ahead.wrapping_add(distance(half, 8));
                }
            }
            28 => next = ahead.wrapping_add(distance(half, 11)),
            30 => {
                let Some(&[low, high]) = code.get(at + 2..at + 4) else { break (21, 0) };
                let second = u16::from_le_bytes([low, high]) as u32;
                if second >> 11 != 31 {
                    break (22, 0);
                }
                lr = pc.wrapping_add(5);
                next = ahead.wrapping_add(distance((half & 0x7ff) << 11 | second & 0x7ff, 22));
            }
            _ => break (22, 0),
        }
        pc = next;
        left -= 1;
    };
    let flags = Flags { n: nz < 0, z: nz as u32 == 0, c: carry, v: overflow };
    *state = State { r, sp, lr, pc, flags };
    (status, number, limit - left)
}
