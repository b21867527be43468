//! What the instructions of FIT files meet, for the histogram.

use peer::bits::halfword_at;
use peer::machine::{Instruction, Undo, LR, PC};
use peer::role::Role;

use crate::assembly::expand;
use crate::histogram::{row, rows, Group, Histogram};

pub const PROLOGUE_FITS: &str = "fits in a prologue";
pub const EPILOGUE_FITS: &str = "fits in an epilogue";
pub const PROLOGUE_DIFFERS: &str = "differs in a prologue";
pub const EPILOGUE_DIFFERS: &str = "differs in an epilogue";
pub const NONE: &str = "code without instruction";
const LISTED: &str = "register that fits";
const BORDER: &str = "border that fits";

/// Rows of the code table with the form of the instruction, where there are several.
const PROLOGUE: [&str; 33] = [
    "00-7F",
    "00-7F push",
    "80-BF T2",
    "80-BF T3",
    "C0-CF",
    "D0-D7",
    "D8-DF T2",
    "E0-E7",
    "E8-EB constant",
    "E8-EB number",
    "EC-ED",
    "EF",
    "EF +0",
    "EF -0",
    "F5",
    "F6",
    "F7",
    "F8",
    "F9 constant",
    "F9 number",
    "FA constant",
    "FA number",
    "FB",
    "FC",
    "packed amount",
    "packed amount push",
    "packed amount constant",
    "packed amount number",
    "packed list",
    "packed list T2",
    "packed d",
    "packed FB",
    "packed FC",
];

const EPILOGUE: [&str; 45] = [
    "00-7F",
    "80-BF T2",
    "80-BF T2 pc",
    "80-BF T3",
    "80-BF T3 pc",
    "C0-CF",
    "D0-D7",
    "D0-D7 pc",
    "D8-DF T2",
    "D8-DF T2 pc",
    "E0-E7",
    "E8-EB constant",
    "E8-EB number",
    "EC-ED",
    "EC-ED pc",
    "EF",
    "EF pc",
    "EF +0",
    "EF +0 pc",
    "EF -0",
    "EF -0 pc",
    "F5",
    "F6",
    "F7",
    "F8",
    "F9 constant",
    "F9 number",
    "FA constant",
    "FA number",
    "FB",
    "FC",
    "FD",
    "FE",
    "packed amount",
    "packed amount constant",
    "packed amount number",
    "packed list",
    "packed list pc",
    "packed list T2",
    "packed list T2 pc",
    "packed list T3",
    "packed d",
    "packed EF pc",
    "packed FD",
    "packed FE",
];

pub fn groups() -> Vec<Group> {
    let in_prologue = ["packed amount", "packed list", "packed d", "packed FB", "packed FC"];
    let in_epilogue = ["packed amount", "packed list", "packed d", "packed EF"];
    let ends = ["FD", "FE", "packed FD", "packed FE"];
    vec![
        Group::new(PROLOGUE_FITS, PROLOGUE),
        Group::new(EPILOGUE_FITS, EPILOGUE),
        Group::new(PROLOGUE_DIFFERS, rows().chain(in_prologue)),
        Group::new(EPILOGUE_DIFFERS, rows().chain(in_epilogue).chain(ends)),
        Group::new(NONE, NO_INSTRUCTION),
        Group::new(LISTED, every_register()),
        Group::new(BORDER, BORDERS),
    ]
}

/// What the instruction's code is, or which part of a packed record tells of it.
fn row_of(role: &Role, packed: bool) -> &'static str {
    let undone = match (undone(role), role.size()) {
        (Some(undone), _) => undone,
        (None, 2) => return if packed { "packed FD" } else { "FD" },
        (None, _) => return if packed { "packed FE" } else { "FE" },
    };
    match (undone.code, undone.undo) {
        (Some(code), _) => row(code),
        (None, Undo::Raise(_)) => "packed amount",
        (None, Undo::Pop(_)) => "packed list",
        (None, Undo::VectorPop(..)) => "packed d",
        (None, Undo::LoadLink(_)) => "packed EF",
        (None, _) if undone.size == 2 => "packed FB",
        (None, _) => "packed FC",
    }
}

/// What its code undoes, if that is no end code.
fn undone(role: &Role) -> Option<&Instruction> {
    match role {
        Role::Prologue(undone) | Role::Epilogue(undone) | Role::Last(undone) => Some(undone),
        Role::End(_) => None,
    }
}

fn in_prologue(role: &Role) -> bool {
    matches!(role, Role::Prologue(_))
}

/// The list that the instruction has, PC where the code says LR and means that.
fn list_of(role: &Role) -> Option<u32> {
    match (role, undone(role)?.undo) {
        (Role::Last(_), Undo::Pop(list)) => Some(list & !(1 << LR) | (list >> LR & 1) << PC),
        (_, Undo::Pop(list)) => Some(list),
        _ => None,
    }
}

/// Which of its forms an instruction has.
fn form(role: &Role, code: &[u8]) -> String {
    let [first, second] = [0, 2].map(|at| halfword_at(code, at).unwrap_or(0));
    let Some(undone) = undone(role) else {
        return String::new();
    };
    let form = match undone.undo {
        Undo::Raise(_) if first == 0xb40f => " push",
        Undo::Raise(_) if undone.size == 2 => "",
        Undo::Raise(_) if first & 0x200 == 0 => " constant",
        Undo::Raise(_) => " number",
        Undo::Pop(_) if undone.size == 2 => "",
        Undo::Pop(list) if list.count_ones() == 1 => " T3",
        Undo::Pop(_) => " T2",
        Undo::LoadLink(0) if second & 0x200 == 0 => " -0",
        Undo::LoadLink(0) => " +0",
        _ => "",
    };
    let loads_link = match undone.undo {
        Undo::Pop(list) => list >> LR & 1 == 1,
        undo => matches!(undo, Undo::LoadLink(_)),
    };
    let leaves = loads_link && matches!(role, Role::Last(_));
    format!("{form}{}", if leaves { " pc" } else { "" })
}

pub fn take_fit(histogram: &mut Histogram, role: &Role, packed: bool, code: &[u8]) {
    let group = if in_prologue(role) { PROLOGUE_FITS } else { EPILOGUE_FITS };
    histogram.count(group, &format!("{}{}", row_of(role, packed), form(role, code)));
    for class in registers(role, code) {
        histogram.count(LISTED, &class);
    }
    if let Some(border) = border(role, code) {
        histogram.count(BORDER, border);
    }
}

pub fn take_difference(histogram: &mut Histogram, role: &Role, packed: bool) {
    let group = if in_prologue(role) { PROLOGUE_DIFFERS } else { EPILOGUE_DIFFERS };
    histogram.count(group, row_of(role, packed));
    if role.encodings().is_empty() {
        histogram.count(NONE, no_instruction(role));
    }
}

const NO_INSTRUCTION: [&str; 9] = [
    "16 bits, sub above 127",
    "16 bits, add above 127",
    "32 bits, no sub constant",
    "32 bits, no add constant",
    "push 80 00",
    "pop 80 00",
    "push EC 00",
    "pop EC 00",
    "LR popped in 16 bits",
];

fn no_instruction(role: &Role) -> &'static str {
    let narrow = role.size() == 2;
    match (undone(role).map(|undone| undone.undo), narrow, in_prologue(role)) {
        (Some(Undo::Raise(_)), true, true) => "16 bits, sub above 127",
        (Some(Undo::Raise(_)), true, false) => "16 bits, add above 127",
        (Some(Undo::Raise(_)), false, true) => "32 bits, no sub constant",
        (Some(Undo::Raise(_)), false, false) => "32 bits, no add constant",
        (Some(Undo::Pop(0)), false, true) => "push 80 00",
        (Some(Undo::Pop(0)), false, false) => "pop 80 00",
        (Some(Undo::Pop(0)), true, true) => "push EC 00",
        (Some(Undo::Pop(0)), true, false) => "pop EC 00",
        _ => "LR popped in 16 bits",
    }
}

fn name(number: u32) -> String {
    match number {
        14 => "lr".to_string(),
        15 => "pc".to_string(),
        _ => format!("r{number}"),
    }
}

/// Every register of every form of list, of `mov`, and of the d registers the first and their number.
fn every_register() -> Vec<String> {
    let mut all = Vec::new();
    let mut add = |what: &str, numbers: &[u32]| {
        all.extend(numbers.iter().map(|number| format!("{what} {}", name(*number))));
    };
    let to = |last: u32, more: &[u32]| (0..=last).chain(more.iter().copied()).collect::<Vec<u32>>();
    add("push T1", &to(7, &[14]));
    add("pop T1", &to(7, &[15]));
    for form in ["T2", "T3"] {
        add(&format!("push {form}"), &to(12, &[14]));
        add(&format!("pop {form}"), &to(12, &[14, 15]));
    }
    add("mov to", &to(12, &[14]));
    add("mov from", &to(12, &[14]));
    for what in ["vpush", "vpop"] {
        all.extend((0..32).map(|first| format!("{what} d{first}")));
        all.extend((1..=16).map(|count| format!("{what} of {count}")));
    }
    all
}

/// The classes of `every_register` that an instruction is in.
fn registers(role: &Role, code: &[u8]) -> Vec<String> {
    let down = in_prologue(role);
    let Some(undone) = undone(role) else {
        return Vec::new();
    };
    match undone.undo {
        Undo::Pop(_) => {
            let form = form(role, code);
            let form = if undone.size == 2 { "T1" } else { &form[1..3] };
            let what = if down { "push" } else { "pop" };
            let list = list_of(role).unwrap_or(0);
            let numbers = (0..16).filter(|number| list >> number & 1 == 1);
            numbers.map(|number| format!("{what} {form} {}", name(number))).collect()
        }
        Undo::Restore(register) => {
            let what = if down { "mov to" } else { "mov from" };
            vec![format!("{what} {}", name(register as u32))]
        }
        Undo::VectorPop(first, last) => {
            let what = if down { "vpush" } else { "vpop" };
            vec![format!("{what} d{first}"), format!("{what} of {}", last + 1 - first)]
        }
        _ => Vec::new(),
    }
}

const BORDERS: [&str; 18] = [
    "16 bits, 0 words",
    "16 bits, 127 words",
    "number 0",
    "number 4092",
    "constant 0",
    "constant byte",
    "constant rotated",
    "constant 00XY00XY",
    "constant XY00XY00",
    "constant above 4095",
    "EF 01",
    "EF 0F",
    "FB e7ff",
    "FC e800",
    "CE last",
    "last without LR",
    "FE up",
    "FE down",
];

/// The border that an instruction is at, if any.
fn border(role: &Role, code: &[u8]) -> Option<&'static str> {
    let first = halfword_at(code, 0)?;
    let Some(undone) = undone(role) else {
        return (role.size() == 4).then_some(if first & 0x400 == 0 { "FE down" } else { "FE up" });
    };
    match (undone.undo, first) {
        (Undo::Raise(0), _) if undone.size == 2 => Some("16 bits, 0 words"),
        (Undo::Raise(127), _) if undone.size == 2 => Some("16 bits, 127 words"),
        (Undo::Raise(words), _) if undone.size == 4 => amount_border(4 * words, first & 0x200 != 0),
        (Undo::LoadLink(1), _) => Some("EF 01"),
        (Undo::LoadLink(15), _) => Some("EF 0F"),
        (Undo::Nothing, 0xe7ff) => Some("FB e7ff"),
        (Undo::Nothing, 0xe800) => Some("FC e800"),
        (Undo::Restore(14), _) if matches!(role, Role::Last(_)) => Some("CE last"),
        (Undo::Raise(_), _) if matches!(role, Role::Last(_)) => Some("last without LR"),
        _ => None,
    }
}

/// Which kind of constant it is.
fn amount_border(bytes: u32, number: bool) -> Option<&'static str> {
    let repeated =
        |from: u32| (from..from + 0x100).any(|immediate| expand(immediate) == Some(bytes));
    match (bytes, number) {
        (0, true) => Some("number 0"),
        (4092, true) => Some("number 4092"),
        (_, true) => None,
        (0, false) => Some("constant 0"),
        (1..=255, false) => Some("constant byte"),
        (256..=4095, false) => Some("constant rotated"),
        _ if repeated(0x100) => Some("constant 00XY00XY"),
        _ if repeated(0x200) => Some("constant XY00XY00"),
        _ => Some("constant above 4095"),
    }
}
