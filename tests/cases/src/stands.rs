//! The instructions that a code stands for, for whoever writes code to a record.

use crate::assembly::{self, Branch, Halfwords, Multiple, Operands, Single, Vectors, Way};
use crate::draft::{LR, PC, SP};
use crate::rng::Rng;
use crate::steps::{Effect, End, Step};

/// Where a code is read: it stands for another instruction in each.
#[derive(Clone, Copy, Debug, PartialEq, Eq)]
pub enum Spot {
    Prologue,
    Epilogue,
    /// The last code before FF in an epilogue.
    Last,
}

impl Spot {
    pub fn way(self) -> Way {
        if self == Spot::Prologue {
            Way::Down
        } else {
            Way::Up
        }
    }

    /// The register that LR's bit of a code stands for.
    pub fn link(self) -> u32 {
        if self == Spot::Last {
            PC as u32
        } else {
            LR as u32
        }
    }

    /// A code's list as the instruction has it.
    pub fn list(self, list: u32) -> u32 {
        let link = list >> LR & 1;
        list & !(1 << LR) | link << self.link()
    }
}

/// What has an instruction.
#[derive(Clone, Debug)]
pub enum Piece {
    Code(Step),
    /// FD or FE of an epilogue.
    End(End),
}

impl Piece {
    pub fn size(&self) -> u32 {
        match self {
            Piece::Code(step) => step.size,
            Piece::End(end) => end.size,
        }
    }
}

/// The least first halfword of an instruction of 32 bits.
const WIDE: u16 = 0xe800;

/// One of the right instructions, if there is any.
pub fn right(rng: &mut Rng, piece: &Piece, spot: Spot) -> Option<Halfwords> {
    match any_of(piece) {
        Some(Any::Narrow) => Some(vec![any_narrow(rng)]),
        Some(Any::Wide) => Some(vec![any_wide(rng), rng.word() as u16]),
        Some(Any::Branch) => Some(assembly::branch(Branch::Always, rng.word())),
        None => {
            let all = exact(piece, spot);
            (!all.is_empty()).then(|| all[rng.below(all.len())].clone())
        }
    }
}

pub fn has_instruction(piece: &Piece, spot: Spot) -> bool {
    any_of(piece).is_some() || !exact(piece, spot).is_empty()
}

pub fn is_right(piece: &Piece, spot: Spot, found: &[u16]) -> bool {
    match any_of(piece) {
        Some(Any::Narrow) => found[0] < WIDE,
        Some(Any::Wide) => found[0] >= WIDE,
        Some(Any::Branch) => found[0] >> 11 == 0b11110 && found[1] & 0xd000 == 0x9000,
        None => exact(piece, spot).iter().any(|right| right == found),
    }
}

/// Codes that very many instructions are right for.
enum Any {
    Narrow,
    Wide,
    Branch,
}

fn any_of(piece: &Piece) -> Option<Any> {
    match piece {
        Piece::Code(Step { effect: Effect::Nothing, size: 2, .. }) => Some(Any::Narrow),
        Piece::Code(Step { effect: Effect::Nothing, .. }) => Some(Any::Wide),
        Piece::End(End { size: 4, .. }) => Some(Any::Branch),
        _ => None,
    }
}

/// The first halfword of an instruction of 16 bits.
pub fn any_narrow(rng: &mut Rng) -> u16 {
    let any = rng.word() as u16 % WIDE;
    rng.pick(&[any, any, any, any, 0xbf00, WIDE - 1, 0])
}

/// The first halfword of an instruction of 32 bits.
pub fn any_wide(rng: &mut Rng) -> u16 {
    let any = WIDE + rng.word() as u16 % (u16::MAX - WIDE + 1);
    rng.pick(&[any, any, any, any, 0xf3af, WIDE, u16::MAX])
}

/// All the right instructions, none of them for some codes.
fn exact(piece: &Piece, spot: Spot) -> Vec<Halfwords> {
    let step = match piece {
        Piece::Code(step) => step,
        Piece::End(_) => return vec![assembly::exchange(LR as u32, false, 0)],
    };
    let (way, link) = (spot.way(), spot.link());
    match step.effect {
        Effect::Nothing => Vec::new(),
        Effect::Room(words) if step.size == 2 => narrow_room(step, spot, words),
        Effect::Room(words) => right_amounts(way, 4 * words),
        Effect::Push(list) if step.size == 2 => narrow_transfer(spot, list),
        Effect::Push(list) => wide_transfer(way, spot.list(list)),
        Effect::VectorPush(first, last) => {
            vec![Vectors::of_sp(way, first, 2 * (last + 1 - first)).write()]
        }
        Effect::Anchor(register) => vec![anchor(way, register)],
        Effect::StoreLink(0) => {
            let none = Single::of_sp(way, link, 0);
            vec![none.write(), Single { puw: none.puw ^ 0b010, ..none }.write()]
        }
        Effect::StoreLink(words) => vec![Single::of_sp(way, link, 4 * words).write()],
    }
}

fn narrow_room(step: &Step, spot: Spot, words: u32) -> Vec<Halfwords> {
    if words > 127 {
        return Vec::new();
    }
    let mut all = vec![assembly::amount(spot.way(), words)];
    if spot == Spot::Prologue && is_home(step) {
        all.push(assembly::narrow_list(Way::Down, 0xf, false));
    }
    all
}

/// Code 04. The steps of a packed record have no code bytes, and no other code for four words.
pub fn is_home(step: &Step) -> bool {
    step.effect == Effect::Room(4) && step.size == 2 && (step.code.is_empty() || step.code == [4])
}

/// The twelve bits that expand to a number, if it has any.
pub fn constant(value: u32) -> Option<u32> {
    let plausible = |immediate: &u32| assembly::expand(*immediate) == Some(value);
    (0..0x1000).find(plausible)
}

/// `sub` or `add` of SP in 32 bits.
pub fn right_amounts(way: Way, bytes: u32) -> Vec<Halfwords> {
    let modified = |immediate| assembly::modified(way, Operands::of_sp(immediate), false);
    let plain = || assembly::plain(way, Operands::of_sp(bytes));
    constant(bytes).map(modified).into_iter().chain((bytes < 0x1000).then(plain)).collect()
}

/// LR can be pushed and PC popped.
fn narrow_transfer(spot: Spot, list: u32) -> Vec<Halfwords> {
    let more = list >> LR & 1 == 1;
    if list == 0 || more && spot == Spot::Epilogue {
        return Vec::new();
    }
    vec![assembly::narrow_list(spot.way(), list & 0xff, more)]
}

fn wide_transfer(way: Way, list: u32) -> Vec<Halfwords> {
    match list.count_ones() {
        0 => Vec::new(),
        1 => vec![Single::of_sp(way, list.ilog2(), 4).write()],
        _ => vec![Multiple::of_sp(way, list).write()],
    }
}

/// `mov rX,sp` or `mov sp,rX`.
fn anchor(way: Way, register: u32) -> Halfwords {
    const MOV: u32 = 2;
    match way {
        Way::Down => assembly::on_registers(MOV, register, SP as u32),
        Way::Up => assembly::on_registers(MOV, SP as u32, register),
    }
}
