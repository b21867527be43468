//! Thumb instructions as the ARM Architecture Reference Manual encodes them.
//!
//! They are written here and never read: each function gives the encodings of one instruction, of which
//! there may be none. What the manual calls UNPREDICTABLE is not among them.

use crate::bits::{bit, field, halfword_at};
use crate::machine::{LR, PC, SP};

#[derive(Clone, Copy, Debug, PartialEq, Eq)]
pub enum Encoding {
    Narrow(u32),
    /// Two halfwords, the first of them the upper half.
    Wide(u32),
    AnyNarrow,
    AnyWide,
    /// B T4, whatever its target.
    Branch,
}

/// The lowest first halfword of an instruction of 32 bits.
const WIDE: u32 = 0xe800;

impl Encoding {
    /// Whether `code` begins with it.
    pub fn begins(self, code: &[u8]) -> bool {
        let [first, second] = [0, 2].map(|at| halfword_at(code, at));
        let has = |half: Option<u32>, mask, value| half.is_some_and(|half| half & mask == value);
        match self {
            Encoding::Narrow(bits) => first == Some(bits),
            Encoding::Wide(bits) => first == Some(bits >> 16) && second == Some(bits & 0xffff),
            Encoding::AnyNarrow => first.is_some_and(|first| first < WIDE),
            Encoding::AnyWide => first.is_some_and(|first| first >= WIDE) && second.is_some(),
            Encoding::Branch => has(first, 0xf800, 0xf000) && has(second, 0xd000, 0x9000),
        }
    }
}

/// SUB (SP minus immediate) T1.
pub fn narrow_sub(words: u32) -> Vec<Encoding> {
    narrow_amount(0xb080, words)
}

/// ADD (SP plus immediate) T2.
pub fn narrow_add(words: u32) -> Vec<Encoding> {
    narrow_amount(0xb000, words)
}

/// SUB (SP minus immediate) T2 and T3.
pub fn wide_sub(words: u32) -> Vec<Encoding> {
    wide_amount(0xf1ad, 0xf2ad, 4 * words)
}

/// ADD (SP plus immediate) T3 and T4.
pub fn wide_add(words: u32) -> Vec<Encoding> {
    wide_amount(0xf10d, 0xf20d, 4 * words)
}

fn narrow_amount(halfword: u32, words: u32) -> Vec<Encoding> {
    let fits = words <= 0x7f;
    fits.then_some(Encoding::Narrow(halfword | words)).into_iter().collect()
}

/// The form with a modified constant and the one with twelve plain bits.
fn wide_amount(modified: u32, plain: u32, amount: u32) -> Vec<Encoding> {
    let to_sp = |first, immediate| Encoding::Wide(with_immediate(first, SP as u32, immediate));
    let constant = modified_constant(amount).map(|immediate| to_sp(modified, immediate));
    let number = (amount <= 0xfff).then(|| to_sp(plain, amount));
    constant.into_iter().chain(number).collect()
}

/// Twelve bits as i, imm3 and imm8 around the destination.
fn with_immediate(first: u32, destination: u32, immediate: u32) -> u32 {
    let (i, imm3, imm8) = (field(immediate, 11, 11), field(immediate, 8, 10), immediate & 0xff);
    (first | i << 10) << 16 | imm3 << 12 | destination << 8 | imm8
}

/// The twelve bits that ThumbExpandImm makes this value from. No value has two of them.
fn modified_constant(value: u32) -> Option<u32> {
    let (low, next) = (value & 0xff, value >> 8 & 0xff);
    let rotation = value.leading_zeros() + 8;
    match value {
        _ if value == low => Some(low),
        _ if value == low * 0x0001_0001 => Some(0x100 | low),
        _ if value == next * 0x0100_0100 => Some(0x200 | next),
        _ if value == low * 0x0101_0101 => Some(0x300 | low),
        // Eight bits, the highest of them set and not written, rotated right.
        _ if rotation < 32 && value.rotate_left(rotation) <= 0xff => {
            Some(rotation << 7 | value.rotate_left(rotation) & 0x7f)
        }
        _ => None,
    }
}

/// PUSH T1: r0-r7 and LR.
pub fn narrow_push(list: u32) -> Vec<Encoding> {
    narrow_list(0xb400, list, LR)
}

/// POP T1: r0-r7 and PC.
pub fn narrow_pop(list: u32) -> Vec<Encoding> {
    narrow_list(0xbc00, list, PC)
}

/// PUSH T2, or T3 for one register.
pub fn wide_push(list: u32) -> Vec<Encoding> {
    wide_list(0xe92d_0000, 0xf84d_0d04, list)
}

/// POP T2, or T3 for one register.
pub fn wide_pop(list: u32) -> Vec<Encoding> {
    wide_list(0xe8bd_0000, 0xf85d_0b04, list)
}

/// Bit 8 is for the one register above r7 that the instruction can name.
fn narrow_list(halfword: u32, list: u32, above: usize) -> Vec<Encoding> {
    let named = list & (0xff | 1 << above);
    let bits = halfword | u32::from(bit(list, above as u32)) << 8 | list & 0xff;
    (list != 0 && list == named).then_some(Encoding::Narrow(bits)).into_iter().collect()
}

fn wide_list(several: u32, one: u32, list: u32) -> Vec<Encoding> {
    match list.count_ones() {
        0 => Vec::new(),
        1 => vec![Encoding::Wide(one | list.trailing_zeros() << 12)],
        _ => vec![Encoding::Wide(several | list)],
    }
}

/// MOV (register) T1, which reaches all registers.
pub fn mov(destination: usize, source: usize) -> Vec<Encoding> {
    let (destination, source) = (destination as u32, source as u32);
    let high = field(destination, 3, 3);
    vec![Encoding::Narrow(0x4600 | high << 7 | source << 3 | field(destination, 0, 2))]
}

/// VPUSH T1 of dS-dE.
pub fn vpush(first: usize, last: usize) -> Vec<Encoding> {
    vector_list(0xed2d_0b00, first as u32, last as u32)
}

/// VPOP T1 of dS-dE.
pub fn vpop(first: usize, last: usize) -> Vec<Encoding> {
    vector_list(0xecbd_0b00, first as u32, last as u32)
}

/// The number of words is even: an odd one would be FSTMX or FLDMX.
fn vector_list(bits: u32, first: u32, last: u32) -> Vec<Encoding> {
    let words = 2 * (last - first + 1);
    vec![Encoding::Wide(bits | field(first, 4, 4) << 22 | field(first, 0, 3) << 12 | words)]
}

/// STR (immediate) T4: `str lr,[sp,#-4n]!`.
pub fn push_link(words: u32) -> Vec<Encoding> {
    offset(0xf84d_0d00 | (LR as u32) << 12, words)
}

/// LDR (immediate) T4: `ldr rT,[sp],#4n`.
pub fn load_from_stack(target: usize, words: u32) -> Vec<Encoding> {
    offset(0xf85d_0b00 | (target as u32) << 12, words)
}

/// An offset of so many words; its sign is in the bits already, but 0 may have either.
fn offset(bits: u32, words: u32) -> Vec<Encoding> {
    const SIGN: u32 = 1 << 9;
    let other_sign = (words == 0).then_some(bits ^ SIGN);
    [Some(bits | 4 * words), other_sign].into_iter().flatten().map(Encoding::Wide).collect()
}

/// BX T1.
pub fn bx(target: usize) -> Vec<Encoding> {
    vec![Encoding::Narrow(0x4700 | (target as u32) << 3)]
}
