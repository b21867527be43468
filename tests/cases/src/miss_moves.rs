//! Near misses of `mov` with SP, and of the load and store of LR.

use crate::assembly::{address, in_place, narrow_list, on_registers, Halfwords, Single, Way};
use crate::misses::{anchor, link, other_register, Miss, NOP};
use crate::stands::{Piece, Spot};

const ADD: u32 = 0;
const CMP: u32 = 1;
const MOV: u32 = 2;

/// An operation on SP and another register, as `mov rX,sp` or as `mov sp,rX`.
fn with_sp(operation: u32, way: Way, register: u32) -> Halfwords {
    match way {
        Way::Down => on_registers(operation, register, 13),
        Way::Up => on_registers(operation, 13, register),
    }
}

pub const ANCHORS: &[Miss] = &[
    Miss {
        name: "mov: another register",
        spoil: |rng, piece, spot| {
            let other = other_register(rng, anchor(piece)?);
            Some(with_sp(MOV, spot.way(), other))
        },
    },
    Miss {
        name: "mov: eight lower",
        spoil: |_, piece, spot| Some(with_sp(MOV, spot.way(), anchor(piece)?.checked_sub(8)?)),
    },
    Miss {
        name: "mov: the other way",
        spoil: |_, piece, spot| Some(with_sp(MOV, spot.way().other(), anchor(piece)?)),
    },
    Miss {
        name: "mov: without SP",
        spoil: |rng, piece, spot| {
            let (register, other) = (anchor(piece)?, rng.within(0..=12));
            Some(match spot.way() {
                Way::Down => on_registers(MOV, register, other),
                Way::Up => on_registers(MOV, other, register),
            })
        },
    },
    Miss {
        name: "add or cmp for mov",
        spoil: |rng, piece, spot| Some(with_sp(rng.pick(&[ADD, CMP]), spot.way(), anchor(piece)?)),
    },
    Miss {
        name: "add rX,sp,#0",
        spoil: |_, piece, spot| {
            let register = anchor(piece).filter(|register| *register < 8)?;
            (spot == Spot::Prologue).then(|| address(register, 0))
        },
    },
    Miss {
        name: "CE as PC",
        spoil: |_, piece, spot| {
            (anchor(piece)? == 14 && spot == Spot::Last).then(|| with_sp(MOV, Way::Up, 15))
        },
    },
];

/// The right instruction of EF.
fn right(piece: &Piece, spot: Spot) -> Option<Single> {
    Some(Single::of_sp(spot.way(), spot.link(), 4 * link(piece)?))
}

pub const LINKS: &[Miss] = &[
    Miss {
        name: "EF: another amount",
        spoil: |rng, piece, spot| {
            Some(Single { bytes: 4 * rng.within(0..=15), ..right(piece, spot)? }.write())
        },
    },
    Miss {
        name: "EF: words for bytes",
        spoil: |_, piece, spot| Some(Single { bytes: link(piece)?, ..right(piece, spot)? }.write()),
    },
    Miss {
        name: "EF: the other sign",
        spoil: |_, piece, spot| {
            let single = right(piece, spot)?;
            Some(Single { puw: single.puw ^ 0b010, ..single }.write())
        },
    },
    Miss {
        name: "EF: not written back",
        spoil: |_, piece, spot| {
            let single = right(piece, spot)?;
            Some(Single { puw: single.puw & 0b110, ..single }.write())
        },
    },
    Miss {
        name: "EF: after for before",
        spoil: |_, piece, spot| {
            let single = right(piece, spot)?;
            Some(Single { puw: single.puw ^ 0b100, ..single }.write())
        },
    },
    Miss {
        name: "EF: another register",
        spoil: |rng, piece, spot| {
            Some(Single { t: rng.within(0..=12), ..right(piece, spot)? }.write())
        },
    },
    Miss {
        name: "EF: SP or PC stored",
        spoil: |rng, piece, spot| {
            let store = right(piece, spot).filter(|_| spot == Spot::Prologue)?;
            Some(Single { t: rng.pick(&[13, 15]), ..store }.write())
        },
    },
    Miss {
        name: "EF: SP loaded",
        spoil: |_, piece, spot| {
            let load = right(piece, spot).filter(|_| spot != Spot::Prologue)?;
            Some(Single { t: 13, ..load }.write())
        },
    },
    Miss {
        name: "EF: PC for LR",
        spoil: |_, piece, spot| {
            let load = right(piece, spot).filter(|_| spot == Spot::Epilogue)?;
            Some(Single { t: 15, ..load }.write())
        },
    },
    Miss {
        name: "EF: LR for PC",
        spoil: |_, piece, spot| {
            let load = right(piece, spot).filter(|_| spot == Spot::Last)?;
            Some(Single { t: 14, ..load }.write())
        },
    },
    Miss {
        name: "EF: byte or halfword",
        spoil: |rng, piece, spot| Some(right(piece, spot)?.write_sized(rng.within(0..=1))),
    },
    Miss {
        name: "EF: not from SP",
        spoil: |rng, piece, spot| {
            Some(Single { n: rng.within(0..=12), ..right(piece, spot)? }.write())
        },
    },
    Miss {
        name: "EF: load for store",
        spoil: |_, piece, spot| {
            let single = right(piece, spot)?;
            Some(Single { way: single.way.other(), ..single }.write())
        },
    },
    Miss {
        name: "EF 00: str lr,[sp]",
        spoil: |_, piece, spot| (link(piece)? == 0).then(|| in_place(spot.way())),
    },
    Miss {
        name: "16 bits for EF 01",
        spoil: |_, piece, spot| {
            let can = link(piece)? == 1 && spot != Spot::Epilogue;
            can.then(|| vec![narrow_list(spot.way(), 0, true)[0], NOP])
        },
    },
];
