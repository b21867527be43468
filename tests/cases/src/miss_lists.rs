//! Near misses of `push`, `pop`, `vpush` and `vpop`.

use crate::assembly::{narrow_list, Halfwords, Multiple, Single, Vectors};
use crate::draft::{LR, PC, SP};
use crate::misses::{list, other_register, vectors, Miss, NOP};
use crate::rng::Rng;
use crate::stands::{Piece, Spot};

/// One of the registers `0..count` whose bit is set, or is not.
fn register(rng: &mut Rng, list: u32, count: u32, set: bool) -> Option<u32> {
    let all: Vec<u32> = (0..count).filter(|number| (list >> number & 1 == 1) == set).collect();
    (!all.is_empty()).then(|| rng.pick(&all))
}

fn has_link(list: u32) -> bool {
    list >> LR & 1 == 1
}

/// The 16-bit list with some of its bits turned; bit 8 is that of LR or PC.
fn narrow_turned(piece: &Piece, spot: Spot, turned: u32) -> Option<Halfwords> {
    let list = list(piece, 2)?;
    let bits = (list & 0xff | u32::from(has_link(list)) << 8) ^ turned;
    Some(narrow_list(spot.way(), bits & 0xff, bits >> 8 == 1))
}

const MORE: u32 = 1 << 8;

pub const NARROW: &[Miss] = &[
    Miss {
        name: "16: a register more",
        spoil: |rng, piece, spot| {
            let number = register(rng, list(piece, 2)?, 8, false)?;
            narrow_turned(piece, spot, 1 << number)
        },
    },
    Miss {
        name: "16: a register less",
        spoil: |rng, piece, spot| {
            let number = register(rng, list(piece, 2)?, 8, true)?;
            narrow_turned(piece, spot, 1 << number)
        },
    },
    Miss {
        name: "16: LR put in",
        spoil: |_, piece, spot| {
            let without = spot == Spot::Prologue && !has_link(list(piece, 2)?);
            without.then(|| narrow_turned(piece, spot, MORE))?
        },
    },
    Miss {
        name: "16: LR left out",
        spoil: |_, piece, spot| {
            let with = spot == Spot::Prologue && has_link(list(piece, 2)?);
            with.then(|| narrow_turned(piece, spot, MORE))?
        },
    },
    Miss {
        name: "16: PC put in",
        spoil: |_, piece, spot| {
            let without = spot != Spot::Prologue && !has_link(list(piece, 2)?);
            without.then(|| narrow_turned(piece, spot, MORE))?
        },
    },
    Miss {
        name: "16: PC left out",
        spoil: |_, piece, spot| {
            let with = spot == Spot::Last && has_link(list(piece, 2)?);
            with.then(|| narrow_turned(piece, spot, MORE))?
        },
    },
    Miss {
        name: "16: PC before the end",
        spoil: |_, piece, spot| {
            let with = spot == Spot::Epilogue && has_link(list(piece, 2)?);
            with.then(|| narrow_turned(piece, spot, 0))?
        },
    },
    Miss {
        name: "16: pop for push",
        spoil: |_, piece, spot| {
            let list = list(piece, 2)?;
            Some(narrow_list(spot.way().other(), list & 0xff, has_link(list)))
        },
    },
    Miss {
        name: "16: nothing pushed",
        spoil: |_, piece, spot| (list(piece, 2)? == 0).then(|| narrow_turned(piece, spot, 0))?,
    },
    Miss {
        name: "16: a nop for nothing",
        spoil: |_, piece, _| (list(piece, 2)? == 0).then(|| vec![NOP]),
    },
    Miss {
        name: "32 bits for a 16-bit list",
        spoil: |_, piece, spot| {
            let list = spot.list(list(piece, 2)?);
            Some(Multiple::of_sp(spot.way(), list).write()[..1].to_vec())
        },
    },
];

/// The 32-bit form for a list, which may have no right one.
fn wide(spot: Spot, list: u32) -> Halfwords {
    match list.count_ones() {
        1 => Single::of_sp(spot.way(), list.ilog2(), 4).write(),
        _ => Multiple::of_sp(spot.way(), list).write(),
    }
}

/// The list as the instruction has it, if it is of one register, or of several.
fn one(piece: &Piece, spot: Spot) -> Option<Single> {
    let list = spot.list(list(piece, 4)?);
    (list.count_ones() == 1).then(|| Single::of_sp(spot.way(), list.ilog2(), 4))
}

fn several(piece: &Piece, spot: Spot) -> Option<Multiple> {
    let list = spot.list(list(piece, 4)?);
    (list.count_ones() > 1).then(|| Multiple::of_sp(spot.way(), list))
}

/// The list with bits turned, if it is one with LR, or without, and stands there.
fn turned(
    piece: &Piece,
    spot: Spot,
    link: bool,
    there: &[Spot],
    registers: &[usize],
) -> Option<Halfwords> {
    let code = list(piece, 4)?;
    let bits: u32 = registers.iter().map(|number| 1 << number).sum();
    let applies = code != 0 && has_link(code) == link && there.contains(&spot);
    applies.then(|| wide(spot, spot.list(code) ^ bits))
}

use Spot::{Epilogue, Last, Prologue};

pub const WIDE: &[Miss] = &[
    Miss {
        name: "32: a register more",
        spoil: |rng, piece, spot| {
            let list = list(piece, 4)?;
            let number = register(rng, list, 13, false)?;
            Some(wide(spot, spot.list(list) | 1 << number))
        },
    },
    Miss {
        name: "32: a register less",
        spoil: |rng, piece, spot| {
            let list = list(piece, 4)?;
            let number = register(rng, list, 13, true)?;
            Some(wide(spot, spot.list(list) ^ 1 << number))
        },
    },
    Miss {
        name: "32: LR put in",
        spoil: |_, piece, spot| turned(piece, spot, false, &[Prologue, Epilogue, Last], &[LR]),
    },
    Miss {
        name: "32: LR left out",
        spoil: |_, piece, spot| turned(piece, spot, true, &[Prologue, Epilogue], &[LR]),
    },
    Miss {
        name: "32: PC put in",
        spoil: |_, piece, spot| turned(piece, spot, false, &[Epilogue, Last], &[PC]),
    },
    Miss {
        name: "32: PC left out",
        spoil: |_, piece, spot| turned(piece, spot, true, &[Last], &[PC]),
    },
    Miss {
        name: "32: PC for LR",
        spoil: |_, piece, spot| turned(piece, spot, true, &[Epilogue], &[LR, PC]),
    },
    Miss {
        name: "32: LR for PC",
        spoil: |_, piece, spot| turned(piece, spot, true, &[Last], &[LR, PC]),
    },
    Miss {
        name: "32: LR and PC",
        spoil: |_, piece, spot| match spot {
            Last => turned(piece, spot, true, &[Last], &[LR]),
            _ => turned(piece, spot, true, &[Epilogue], &[PC]),
        },
    },
    Miss {
        name: "32: SP in the list",
        spoil: |rng, piece, spot| {
            turned(piece, spot, rng.flag(), &[Prologue, Epilogue, Last], &[SP])
        },
    },
    Miss {
        name: "32: PC pushed",
        spoil: |rng, piece, spot| {
            let registers: &[usize] = if rng.flag() { &[PC] } else { &[LR, PC] };
            turned(piece, spot, true, &[Prologue], registers)
        },
    },
    Miss {
        name: "32: pop for push",
        spoil: |_, piece, spot| {
            let list = list(piece, 4)?;
            let other = if spot == Prologue { Epilogue } else { Prologue };
            Some(wide(other, spot.list(list)))
        },
    },
    Miss {
        name: "32: nothing pushed",
        spoil: |_, piece, spot| (list(piece, 4)? == 0).then(|| wide(spot, 0)),
    },
    Miss {
        name: "32: a nop for nothing",
        spoil: |_, piece, _| (list(piece, 4)? == 0).then(|| vec![0xf3af, 0x8000]),
    },
    Miss {
        name: "16 bits for a 32-bit list",
        spoil: |_, piece, spot| {
            let list = list(piece, 4).filter(|list| list & !0x40ff == 0)?;
            Some(vec![narrow_list(spot.way(), list & 0xff, has_link(list))[0], NOP])
        },
    },
    Miss {
        name: "T2 for one register",
        spoil: |_, piece, spot| {
            one(piece, spot)?;
            Some(Multiple::of_sp(spot.way(), spot.list(list(piece, 4)?)).write())
        },
    },
    Miss {
        name: "T2: not written back",
        spoil: |_, piece, spot| Some(Multiple { back: false, ..several(piece, spot)? }.write()),
    },
    Miss {
        name: "T2: the other order",
        spoil: |_, piece, spot| {
            let multiple = several(piece, spot)?;
            Some(Multiple { addresses: multiple.addresses.other(), ..multiple }.write())
        },
    },
    Miss {
        name: "T2: not from SP",
        spoil: |rng, piece, spot| {
            Some(Multiple { n: rng.within(0..=12), ..several(piece, spot)? }.write())
        },
    },
    Miss {
        name: "T3 for several registers",
        spoil: |_, piece, spot| {
            let first = several(piece, spot)?.list.trailing_zeros();
            Some(Single::of_sp(spot.way(), first, 4).write())
        },
    },
    Miss {
        name: "T3: another register",
        spoil: |rng, piece, spot| {
            let single = one(piece, spot)?;
            Some(Single { t: other_register(rng, single.t), ..single }.write())
        },
    },
    Miss {
        name: "T3: SP or PC",
        spoil: |rng, piece, spot| {
            let single = one(piece, spot)?;
            Some(Single { t: rng.pick(&[13, 15]), ..single }.write())
        },
    },
    Miss {
        name: "T3: another amount",
        spoil: |rng, piece, spot| {
            Some(Single { bytes: rng.pick(&[0, 1, 8]), ..one(piece, spot)? }.write())
        },
    },
    Miss {
        name: "T3: another index",
        spoil: |rng, piece, spot| {
            let single = one(piece, spot)?;
            Some(Single { puw: single.puw ^ rng.pick(&[0b100, 0b010, 0b001]), ..single }.write())
        },
    },
    Miss {
        name: "T3: not from SP",
        spoil: |rng, piece, spot| {
            Some(Single { n: rng.within(0..=12), ..one(piece, spot)? }.write())
        },
    },
];

fn right_vectors(piece: &Piece, spot: Spot) -> Option<Vectors> {
    let (first, words) = vectors(piece)?;
    Some(Vectors::of_sp(spot.way(), first, words))
}

pub const VECTORS: &[Miss] = &[
    Miss {
        name: "d: a register more",
        spoil: |_, piece, spot| {
            let right = right_vectors(piece, spot)?;
            Some(Vectors { words: right.words + 2, ..right }.write())
        },
    },
    Miss {
        name: "d: a register less",
        spoil: |_, piece, spot| {
            let right = right_vectors(piece, spot)?;
            Some(Vectors { words: right.words - 2, ..right }.write())
        },
    },
    Miss {
        name: "d: another first",
        spoil: |rng, piece, spot| {
            Some(Vectors { first: rng.within(0..=31), ..right_vectors(piece, spot)? }.write())
        },
    },
    Miss {
        name: "d: 16 higher or lower",
        spoil: |_, piece, spot| {
            let right = right_vectors(piece, spot)?;
            Some(Vectors { first: right.first ^ 16, ..right }.write())
        },
    },
    Miss {
        name: "d: none, or over 16",
        spoil: |rng, piece, spot| {
            Some(Vectors { words: rng.pick(&[0, 34, 64]), ..right_vectors(piece, spot)? }.write())
        },
    },
    Miss {
        name: "FSTMX, FLDMX",
        spoil: |_, piece, spot| {
            let right = right_vectors(piece, spot)?;
            Some(Vectors { words: right.words + 1, ..right }.write())
        },
    },
    Miss {
        name: "s registers",
        spoil: |_, piece, spot| {
            Some(Vectors { singles: true, ..right_vectors(piece, spot)? }.write())
        },
    },
    Miss {
        name: "d: vpop for vpush",
        spoil: |rng, piece, spot| {
            let right = right_vectors(piece, spot)?;
            let other = Vectors::of_sp(spot.way().other(), right.first, right.words);
            // Loaded where it should be stored, or altogether the other way.
            let puw = if rng.flag() { right.puw } else { other.puw };
            Some(Vectors { puw, ..other }.write())
        },
    },
    Miss {
        name: "d: another index",
        spoil: |rng, piece, spot| {
            let right = right_vectors(piece, spot)?;
            Some(Vectors { puw: right.puw ^ rng.pick(&[0b110, 0b001]), ..right }.write())
        },
    },
    Miss {
        name: "d: not from SP",
        spoil: |rng, piece, spot| {
            Some(Vectors { n: rng.within(0..=12), ..right_vectors(piece, spot)? }.write())
        },
    },
];
