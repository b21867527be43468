//! The instruction that a code stands for, by where it stands.

use crate::machine::{Instruction, Undo, LR, PC, SP};
use crate::thumb::{self, Encoding};

#[derive(Clone, Copy, Debug)]
pub enum Role {
    Prologue(Instruction),
    Epilogue(Instruction),
    /// The last of an epilogue whose end code has no instruction: what it would load into LR goes to PC.
    Last(Instruction),
    /// That of the end code, FD or FE by its bytes.
    End(u64),
}

impl Role {
    /// Bytes it takes in the function.
    pub fn size(&self) -> u64 {
        match self {
            Role::Prologue(undone) | Role::Epilogue(undone) | Role::Last(undone) => undone.size,
            Role::End(size) => *size,
        }
    }

    pub fn stands_at(&self, code: &[u8]) -> bool {
        self.encodings().iter().any(|encoding| encoding.begins(code))
    }

    pub fn encodings(&self) -> Vec<Encoding> {
        match self {
            Role::Prologue(undone) => reversed(undone),
            Role::Epilogue(undone) => repeated(undone, LR),
            Role::Last(undone) => repeated(undone, PC),
            Role::End(2) => thumb::bx(LR),
            Role::End(_) => vec![Encoding::Branch],
        }
    }
}

/// What a prologue does, and undoing reverses.
fn reversed(undone: &Instruction) -> Vec<Encoding> {
    let narrow = undone.size == 2;
    match undone.undo {
        Undo::Raise(words) if narrow => {
            let home = if is_home(undone) { thumb::narrow_push(0xf) } else { Vec::new() };
            [thumb::narrow_sub(words), home].concat()
        }
        Undo::Raise(words) => thumb::wide_sub(words),
        Undo::Pop(list) if narrow => thumb::narrow_push(list),
        Undo::Pop(list) => thumb::wide_push(list),
        Undo::VectorPop(first, last) => thumb::vpush(first, last),
        Undo::Restore(register) => thumb::mov(register, SP),
        Undo::LoadLink(words) => thumb::push_link(words),
        Undo::Nothing => any(narrow),
    }
}

/// Whether its code is 04 and no longer one of the same amount. A packed record has no other.
fn is_home(undone: &Instruction) -> bool {
    undone.undo == Undo::Raise(4) && undone.code.unwrap_or(4) == 4
}

/// What an epilogue does, and undoing does again; the return address goes to `link`.
fn repeated(undone: &Instruction, link: usize) -> Vec<Encoding> {
    let narrow = undone.size == 2;
    match undone.undo {
        Undo::Raise(words) if narrow => thumb::narrow_add(words),
        Undo::Raise(words) => thumb::wide_add(words),
        Undo::Pop(list) if narrow => thumb::narrow_pop(with_link(list, link)),
        Undo::Pop(list) => thumb::wide_pop(with_link(list, link)),
        Undo::VectorPop(first, last) => thumb::vpop(first, last),
        Undo::Restore(register) => thumb::mov(SP, register),
        Undo::LoadLink(words) => thumb::load_from_stack(link, words),
        Undo::Nothing => any(narrow),
    }
}

fn any(narrow: bool) -> Vec<Encoding> {
    vec![if narrow { Encoding::AnyNarrow } else { Encoding::AnyWide }]
}

/// The list with `link` where it has LR.
fn with_link(list: u32, link: usize) -> u32 {
    list & !(1 << LR) | (list >> LR & 1) << link
}
