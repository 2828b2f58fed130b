//! A second translation: the reference's front end and the second code generator. A refusal changes neither buffer.
//! And the second walk as a call hands it back.

use crate::{image, Translation, Walked, LOAD, STORE};
use reference::front::accept;
use reference::meaning::{Access, AccessKind};
use reference::walker::{self, Walk};

pub fn translate(source: &[u8], table: &mut [u32], code: &mut [u8]) -> Translation {
    match accept(source, table.len(), code.len()) {
        Err(refusal) => {
            Translation { status: refusal.number(), place: refusal.place as u32, ..Translation::default() }
        }
        Ok(accepted) => {
            let words = accepted.rows.concat();
            let bytes = image::image(&accepted.rows);
            table.fill(0);
            code.fill(0);
            table[..words.len()].copy_from_slice(&words);
            code[..bytes.len()].copy_from_slice(&bytes);
            Translation {
                status: 0,
                place: 0,
                tokens: accepted.tokens as u32,
                rows: accepted.rows.len() as u32,
                data: accepted.program.data,
                depth: accepted.depth as u32,
                code: bytes.len() as u32,
            }
        }
    }
}

/// The words of an entry of the access list.
pub fn entry(access: &Access) -> [u32; 4] {
    let op = match access.kind {
        AccessKind::Load => LOAD,
        AccessKind::Store => STORE,
    };
    [op, access.offset, access.old, access.new]
}

pub fn walk(table: &[u32], memory: &mut [u32], limit: u64, first: u64, cells: &mut [u32]) -> Walked {
    let walk = walker::walk(table, memory, limit);
    hand_back(&walk, memory, first, cells)
}

/// Hands a walk back: its words, its entries from the first on, as many as fit whole, and its answer.
pub fn hand_back(walk: &Walk, memory: &mut [u32], first: u64, cells: &mut [u32]) -> Walked {
    memory.copy_from_slice(&walk.words);
    let asked = walk.accesses.iter().skip(usize::try_from(first).unwrap_or(usize::MAX));
    for (cells, access) in cells.chunks_exact_mut(4).zip(asked) {
        cells.copy_from_slice(&entry(access));
    }
    Walked {
        status: walk.status.into(),
        number: walk.number.into(),
        steps: walk.steps,
        accesses: walk.accesses.len() as u64,
    }
}
