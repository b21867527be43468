//! Near misses of nops and of the instructions of FD and FE.

use crate::assembly::{branch, exchange, narrow_list, on_registers, Branch, Way};
use crate::misses::{other_register, Miss, NOP};
use crate::stands::{any_narrow, any_wide, Piece};
use crate::steps::{Effect, Step};

/// Whether it is a nop of this size.
fn nop(piece: &Piece, size: u32) -> Option<()> {
    match piece {
        Piece::Code(Step { effect: Effect::Nothing, size: found, .. }) if *found == size => {
            Some(())
        }
        _ => None,
    }
}

/// Whether it is this end code.
fn end(piece: &Piece, code: u8) -> Option<()> {
    matches!(piece, Piece::End(end) if end.code == code).then_some(())
}

pub const ALL: &[Miss] = &[
    Miss {
        name: "FB: 32 bits",
        spoil: |rng, piece, _| {
            nop(piece, 2)?;
            Some(vec![any_wide(rng)])
        },
    },
    Miss {
        name: "FC: 16 bits",
        spoil: |rng, piece, _| {
            nop(piece, 4)?;
            Some(vec![any_narrow(rng), rng.word() as u16])
        },
    },
    Miss { name: "FB: e800", spoil: |_, piece, _| nop(piece, 2).map(|()| vec![0xe800]) },
    Miss {
        name: "FC: e7ff",
        spoil: |rng, piece, _| nop(piece, 4).map(|()| vec![0xe7ff, rng.word() as u16]),
    },
    Miss {
        name: "FD: bx of another",
        spoil: |rng, piece, _| {
            end(piece, 0xfd)?;
            let register = other_register(rng, 14);
            Some(exchange(rng.pick(&[register, register, 13, 15]), false, 0))
        },
    },
    Miss {
        name: "FD: blx lr",
        spoil: |_, piece, _| end(piece, 0xfd).map(|()| exchange(14, true, 0)),
    },
    Miss {
        name: "FD: zeros set",
        spoil: |rng, piece, _| end(piece, 0xfd).map(|()| exchange(14, false, rng.within(1..=7))),
    },
    Miss {
        name: "FD: mov pc,lr",
        spoil: |_, piece, _| end(piece, 0xfd).map(|()| on_registers(2, 15, 14)),
    },
    Miss {
        name: "FD: pop {pc}",
        spoil: |_, piece, _| end(piece, 0xfd).map(|()| narrow_list(Way::Up, 0, true)),
    },
    Miss {
        name: "FD: b, nop or 32 bits",
        spoil: |rng, piece, _| {
            end(piece, 0xfd)?;
            Some(vec![rng.pick(&[0xe000, 0xe7fe, NOP, 0xf000, 0xe8bd])])
        },
    },
    Miss {
        name: "FE: b<c>.w",
        spoil: |rng, piece, _| end(piece, 0xfe).map(|()| branch(Branch::Conditional, rng.word())),
    },
    Miss {
        name: "FE: bl",
        spoil: |rng, piece, _| end(piece, 0xfe).map(|()| branch(Branch::Call, rng.word())),
    },
    Miss {
        name: "FE: blx",
        spoil: |rng, piece, _| end(piece, 0xfe).map(|()| branch(Branch::CallArm, rng.word())),
    },
    Miss {
        name: "FE: 16 bits",
        spoil: |rng, piece, _| {
            end(piece, 0xfe)?;
            Some(vec![rng.pick(&[0xe000, 0x4770, NOP]), rng.word() as u16])
        },
    },
    Miss {
        name: "FE: no branch",
        spoil: |rng, piece, _| {
            end(piece, 0xfe)?;
            // The second half would be that of a branch.
            let first = rng.pick(&[0xf85d, 0xf8df, 0xe8df, 0xf800, 0xefff]);
            Some(vec![first, rng.word() as u16 & 0x2fff | 0x9000])
        },
    },
];
