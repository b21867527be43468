//! Near misses of `sub sp` and `add sp`.

use crate::assembly::{address, amount, by_register, modified, narrow_list, plain, Halfwords};
use crate::assembly::{Operands, Way};
use crate::misses::{other_register, room, Miss, NOP};
use crate::rng::Rng;
use crate::stands::{constant, is_home, right_amounts, Piece, Spot};

/// The words of a 16-bit amount that an instruction can have.
fn narrow(piece: &Piece) -> Option<u32> {
    room(piece, 2).filter(|words| *words <= 127)
}

fn wide(piece: &Piece) -> Option<u32> {
    room(piece, 4)
}

fn home(piece: &Piece) -> bool {
    matches!(piece, Piece::Code(step) if is_home(step))
}

/// The registers from r0 up, pushed or popped.
fn from_r0(way: Way, count: u32) -> Halfwords {
    narrow_list(way, (1 << count) - 1, false)
}

pub const NARROW: &[Miss] = &[
    Miss {
        name: "a word more",
        spoil: |_, piece, spot| {
            let words = narrow(piece).filter(|words| *words < 127)?;
            Some(amount(spot.way(), words + 1))
        },
    },
    Miss {
        name: "a word less",
        spoil: |_, piece, spot| Some(amount(spot.way(), narrow(piece)?.checked_sub(1)?)),
    },
    Miss {
        name: "add for sub, sub for add",
        spoil: |_, piece, spot| Some(amount(spot.way().other(), narrow(piece)?)),
    },
    Miss {
        name: "128 words as none",
        spoil: |_, piece, spot| {
            let words = room(piece, 2).filter(|words| *words > 127)?;
            Some(amount(spot.way(), words % 128))
        },
    },
    Miss {
        name: "32 bits above 127 words",
        spoil: |_, piece, spot| {
            let words = room(piece, 2).filter(|words| *words > 127)?;
            Some(plain(spot.way(), Operands::of_sp(4 * words & 0xfff))[..1].to_vec())
        },
    },
    Miss {
        name: "r0-r3 pushed for F7, F8",
        spoil: |_, piece, spot| {
            let longer = narrow(piece)? == 4 && !home(piece) && spot == Spot::Prologue;
            longer.then(|| from_r0(Way::Down, 4))
        },
    },
    Miss {
        name: "r0-r3 popped for 04",
        spoil: |_, piece, spot| {
            (home(piece) && spot != Spot::Prologue).then(|| from_r0(Way::Up, 4))
        },
    },
    Miss {
        name: "r0-r3 pushed, epilogue",
        spoil: |_, piece, spot| {
            (home(piece) && spot != Spot::Prologue).then(|| from_r0(Way::Down, 4))
        },
    },
    Miss {
        name: "not r0-r3 pushed for 04",
        spoil: |rng, piece, spot| {
            let four = rng.pick(&[0x1e, 0xf0, 0x1b, 0x17, 0x07, 0x1f]);
            let with_link = rng.percent(20);
            let push = || narrow_list(Way::Down, if with_link { 0xf } else { four }, with_link);
            (home(piece) && spot == Spot::Prologue).then(push)
        },
    },
    Miss {
        name: "as many pushed, not 04",
        spoil: |_, piece, spot| {
            let words = narrow(piece).filter(|words| (1..=8).contains(words) && *words != 4)?;
            (spot == Spot::Prologue).then(|| from_r0(Way::Down, words))
        },
    },
    Miss {
        name: "add rX,sp",
        spoil: |rng, piece, _| Some(address(rng.within(0..=7), narrow(piece)?)),
    },
];

/// One of the right instructions for another amount.
fn other_amount(rng: &mut Rng, way: Way, words: u32) -> Option<Halfwords> {
    let all = right_amounts(way, 4 * words);
    (!all.is_empty()).then(|| all[rng.below(all.len())].clone())
}

/// A modified or plain constant with these operands but for the immediate.
fn with_operands(rng: &mut Rng, way: Way, words: u32, d: u32, n: u32) -> Option<Halfwords> {
    let as_constant =
        constant(4 * words).map(|immediate| modified(way, Operands { d, n, immediate }, false));
    let immediate = 4 * words;
    let as_number = (immediate < 0x1000).then(|| plain(way, Operands { d, n, immediate }));
    if rng.flag() {
        as_constant.or(as_number)
    } else {
        as_number.or(as_constant)
    }
}

pub const WIDE: &[Miss] = &[
    Miss {
        name: "32: a word more",
        spoil: |rng, piece, spot| other_amount(rng, spot.way(), wide(piece)? + 1),
    },
    Miss {
        name: "32: a word less",
        spoil: |rng, piece, spot| other_amount(rng, spot.way(), wide(piece)?.checked_sub(1)?),
    },
    Miss {
        name: "32: add for sub, sub for add",
        spoil: |rng, piece, spot| other_amount(rng, spot.way().other(), wide(piece)?),
    },
    Miss {
        name: "S bit",
        spoil: |_, piece, spot| {
            let immediate = constant(4 * wide(piece)?)?;
            Some(modified(spot.way(), Operands::of_sp(immediate), true))
        },
    },
    Miss {
        name: "to another register",
        spoil: |rng, piece, spot| {
            let d = other_register(rng, 13);
            with_operands(rng, spot.way(), wide(piece)?, d, 13)
        },
    },
    Miss {
        name: "from another register",
        spoil: |rng, piece, spot| {
            let n = other_register(rng, 13);
            with_operands(rng, spot.way(), wide(piece)?, 13, n)
        },
    },
    Miss {
        name: "number as constant",
        spoil: |_, piece, spot| {
            let bytes = 4 * wide(piece).filter(|words| (64..0x400).contains(words))?;
            Some(modified(spot.way(), Operands::of_sp(bytes), false))
        },
    },
    Miss {
        name: "constant as number",
        spoil: |_, piece, spot| {
            let immediate = constant(4 * wide(piece)?)?;
            Some(plain(spot.way(), Operands::of_sp(immediate)))
        },
    },
    Miss {
        name: "words for bytes",
        spoil: |_, piece, spot| {
            let words = wide(piece).filter(|words| (1..0x1000).contains(words))?;
            Some(plain(spot.way(), Operands::of_sp(words)))
        },
    },
    Miss {
        name: "amount cut to 12 bits",
        spoil: |_, piece, spot| {
            let bytes = 4 * wide(piece).filter(|words| *words >= 0x400)?;
            Some(plain(spot.way(), Operands::of_sp(bytes & 0xfff)))
        },
    },
    Miss {
        name: "constant cut to 8 bits",
        spoil: |_, piece, spot| {
            let bytes = 4 * wide(piece).filter(|words| *words >= 0x400)?;
            let cut = bytes & 0xff00_0000u32 >> bytes.leading_zeros();
            Some(modified(spot.way(), Operands::of_sp(constant(cut)?), false))
        },
    },
    Miss {
        name: "zero byte, repeated",
        spoil: |rng, piece, spot| {
            let unpredictable = rng.pick(&[0x100, 0x200, 0x300]);
            let none = wide(piece)? == 0;
            none.then(|| modified(spot.way(), Operands::of_sp(unpredictable), false))
        },
    },
    Miss {
        name: "amount in a register",
        spoil: |rng, piece, spot| {
            // As compilers do from 4 KB on.
            wide(piece).filter(|words| *words >= 0x400)?;
            Some(by_register(spot.way(), rng.pick(&[4, 12])))
        },
    },
    Miss {
        name: "16 bits for a 32-bit amount",
        spoil: |_, piece, spot| {
            let words = wide(piece).filter(|words| *words <= 127)?;
            Some(vec![amount(spot.way(), words)[0], NOP])
        },
    },
    Miss {
        name: "bit 15 of the second half",
        spoil: |rng, piece, spot| {
            let mut halves = other_amount(rng, spot.way(), wide(piece)?)?;
            halves[1] |= 0x8000;
            Some(halves)
        },
    },
];
