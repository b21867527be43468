//! Near misses: instructions that are nearly, but not quite, those that a code stands for.

use crate::assembly::Halfwords;
use crate::rng::Rng;
use crate::stands::{is_right, Piece, Spot};
use crate::steps::{Effect, Step};
use crate::{miss_amounts, miss_ends, miss_lists, miss_moves};

pub struct Miss {
    pub name: &'static str,
    /// What stands there instead, if the piece there can be missed in this way.
    pub spoil: fn(&mut Rng, &Piece, Spot) -> Option<Halfwords>,
}

impl Miss {
    /// The same, and sure to be wrong.
    pub fn spoil(&self, rng: &mut Rng, piece: &Piece, spot: Spot) -> Option<Halfwords> {
        let wrong = (self.spoil)(rng, piece, spot)?;
        assert_eq!(2 * wrong.len() as u32, piece.size(), "{}", self.name);
        (!is_right(piece, spot, &wrong)).then_some(wrong)
    }
}

pub fn all() -> impl Iterator<Item = &'static Miss> {
    let parts = [miss_amounts::NARROW, miss_amounts::WIDE, miss_lists::NARROW, miss_lists::WIDE]
        .into_iter()
        .chain([miss_lists::VECTORS, miss_moves::ANCHORS, miss_moves::LINKS, miss_ends::ALL]);
    parts.flatten()
}

fn code(piece: &Piece) -> Option<&Step> {
    match piece {
        Piece::Code(step) => Some(step),
        Piece::End(_) => None,
    }
}

/// The words of a `sub` or `add` of this size.
pub fn room(piece: &Piece, size: u32) -> Option<u32> {
    match code(piece)? {
        Step { effect: Effect::Room(words), size: found, .. } if *found == size => Some(*words),
        _ => None,
    }
}

/// The list of a `push` or `pop` of this size, as the code has it.
pub fn list(piece: &Piece, size: u32) -> Option<u32> {
    match code(piece)? {
        Step { effect: Effect::Push(list), size: found, .. } if *found == size => Some(*list),
        _ => None,
    }
}

/// The first d register and how many words they are.
pub fn vectors(piece: &Piece) -> Option<(u32, u32)> {
    match code(piece)?.effect {
        Effect::VectorPush(first, last) => Some((first, 2 * (last + 1 - first))),
        _ => None,
    }
}

pub fn anchor(piece: &Piece) -> Option<u32> {
    match code(piece)?.effect {
        Effect::Anchor(register) => Some(register),
        _ => None,
    }
}

/// The words of EF.
pub fn link(piece: &Piece) -> Option<u32> {
    match code(piece)?.effect {
        Effect::StoreLink(words) => Some(words),
        _ => None,
    }
}

/// One of r0-r12, but not this one.
pub fn other_register(rng: &mut Rng, register: u32) -> u32 {
    loop {
        let other = rng.within(0..=12);
        if other != register {
            return other;
        }
    }
}

/// The 16-bit nop, to fill the second half of a place for 32 bits.
pub const NOP: u16 = 0xbf00;
