//! The other way round: from instructions to the code bytes that stand for them in a packed record.

use crate::codes::Sequence;
use crate::machine::{Instruction, Undo, LR};

/// The codes of a list with its end code.
pub fn encode(list: &Sequence) -> Vec<u8> {
    let mut bytes: Vec<u8> = list.instructions.iter().flat_map(code).collect();
    bytes.push(match list.leave {
        2 => 0xfd,
        4 => 0xfe,
        _ => 0xff,
    });
    bytes
}

fn code(instruction: &Instruction) -> Vec<u8> {
    let wide = instruction.size == 4;
    match instruction.undo {
        Undo::Raise(words) if wide => two(0xe800 | words),
        Undo::Raise(words) => vec![words as u8],
        Undo::Pop(list) => pop(list, wide),
        Undo::VectorPop(_, last) => vec![0xe0 + (last as u8 - 8)],
        Undo::LoadLink(words) => two(0xef00 | words),
        Undo::Nothing => vec![if wide { 0xfc } else { 0xfb }],
        Undo::Restore(register) => vec![0xc0 + register as u8],
    }
}

/// The short form for r4-rX where the size agrees: X is 4 to 7 in 16 bits, 8 to 11 in 32.
fn pop(list: u32, wide: bool) -> Vec<u8> {
    let link = list >> LR & 1;
    let others = list & !(1 << LR);
    let (short, last) = if wide { (0xd8, 8) } else { (0xd0, 4) };
    let up_to = |x: u32| (1 << (x + 1)) - (1 << 4);
    match (last..last + 4).find(|x| others == up_to(*x)) {
        Some(x) => vec![(short + (x - last) + 4 * link) as u8],
        None if wide => two(0x8000 | link << 13 | others),
        None => two(0xec00 | link << 8 | others),
    }
}

fn two(code: u32) -> Vec<u8> {
    vec![(code >> 8) as u8, code as u8]
}
