//! What a run of generated FIT files meets, and how often.

use peer::bits::{bit, field, word_at};
use peer::fits::{placed, File};
use peer::function::Function;
use peer::packed::Packed;
use peer::refusal::Refusal;
use peer::role::Role;
use peer::text::fits;

use crate::fit_aims;
use crate::fit_cases::{FitCase, KINDS};
use crate::fit_instructions::{self, take_difference, take_fit};
use crate::histogram::{adjust, fields_name, saved_name, sound_fields, Group, Histogram, ADJUSTS};
use crate::misses;

const ANSWER: &str = "answer";
const KIND: &str = "kind of file";
const MISS: &str = "near miss";
const AIM: &str = "first flaw";
const WHERE: &str = "first difference";
const FITS: &str = "record that fits";
const DIFFERS: &str = "record that does not";
const OFFSET: &str = "digits of the first difference";
const CODE: &str = "code bytes";
const PACKED_FIELDS: &str = "packed Ret H L C R";
const PACKED_SAVED: &str = "packed saved";
const PACKED_ADJUST: &str = "packed Stack Adjust";

pub fn histogram() -> Histogram {
    let answers = ["fits", "1", "4", "5", "6", "7", "14", "17", "18"];
    let saved = (0..16).map(|saved| saved_name(saved & 8 != 0, saved & 7));
    let mut groups = vec![
        Group::new(ANSWER, answers),
        Group::new(KIND, KINDS),
        Group::new(MISS, misses::all().map(|miss| miss.name)),
        Group::new(AIM, fit_aims::names()),
        Group::new(WHERE, PLACES),
        Group::new(FITS, SHAPES),
        Group::new(DIFFERS, SHAPES.into_iter().filter(|shape| !shape.starts_with("nothing"))),
        Group::new(OFFSET, 1..=4),
        Group::new(CODE, LENGTHS),
        Group::new(PACKED_FIELDS, sound_fields()),
        Group::new(PACKED_SAVED, saved),
        Group::new(PACKED_ADJUST, ADJUSTS.map(|(_, name)| name)),
    ];
    groups.extend(fit_instructions::groups());
    Histogram::of(groups)
}

/// How a file is answered and why, in the classes that `STORED` names.
pub fn ways(case: &FitCase) -> Vec<String> {
    let mut histogram = histogram();
    take(&mut histogram, case);
    histogram.met(&STORED).collect()
}

const STORED: [&str; 9] = [
    ANSWER,
    AIM,
    WHERE,
    FITS,
    fit_instructions::PROLOGUE_FITS,
    fit_instructions::EPILOGUE_FITS,
    fit_instructions::PROLOGUE_DIFFERS,
    fit_instructions::EPILOGUE_DIFFERS,
    fit_instructions::NONE,
];

/// Counts what a file meets; whether the answer is the known one, if there is one.
pub fn take(histogram: &mut Histogram, case: &FitCase) -> Option<bool> {
    let answer = fits(&case.file);
    let words: Vec<&str> = answer.split_whitespace().collect();
    histogram.count(ANSWER, words.get(1).unwrap_or(&"fits"));
    histogram.count(KIND, case.kind);
    if let Some(miss) = case.miss {
        histogram.count(MISS, miss);
    }
    if let Some(aim) = case.aim {
        histogram.count(AIM, aim);
    }
    if let Ok(file) = File::read(&case.file) {
        take_file(histogram, &file);
    }
    case.known.as_ref().map(|known| *known == answer)
}

fn take_file(histogram: &mut Histogram, file: &File) {
    let function = match file.function() {
        Ok(function) => function,
        Err(Refusal::ShortCode) => return histogram.count(CODE, short(file.code.len())),
        Err(_) => return,
    };
    histogram.count(CODE, behind(file.code.len() as u64 - function.length));
    let packed = Packed::only(file.word).ok();
    let mut shapes = FITS;
    let placed = placed(&function);
    for one in &placed {
        let code = &file.code[one.offset as usize..];
        if one.role.stands_at(code) {
            take_fit(histogram, &one.role, packed.is_some(), code);
            continue;
        }
        take_difference(histogram, &one.role, packed.is_some());
        histogram.count(OFFSET, &format!("{:x}", one.offset).len().to_string());
        place(&function, one.offset, &one.role).into_iter().for_each(|class| {
            histogram.count(WHERE, class);
        });
        shapes = DIFFERS;
        break;
    }
    for shape in shape(file, &function, placed.is_empty()) {
        histogram.count(shapes, shape);
    }
    if let Some(packed) = packed {
        take_packed(histogram, &packed);
    }
}

fn take_packed(histogram: &mut Histogram, packed: &Packed) {
    let Packed { ret, h, reg, r, l, c, stack_adjust, .. } = *packed;
    histogram.count(PACKED_FIELDS, &fields_name(ret, h, l, c, r));
    histogram.count(PACKED_SAVED, &saved_name(r, reg));
    histogram.count(PACKED_ADJUST, adjust(stack_adjust));
}

const LENGTHS: [&str; 6] = ["as long", "a byte more", "more", "none at all", "odd, short", "short"];

fn behind(more: u64) -> &'static str {
    match more {
        0 => "as long",
        1 => "a byte more",
        _ => "more",
    }
}

fn short(length: usize) -> &'static str {
    match length {
        0 => "none at all",
        _ if length % 2 == 1 => "odd, short",
        _ => "short",
    }
}

const PLACES: [&str; 9] = [
    "offset 0",
    "prologue, later",
    "epilogue's first",
    "epilogue, later",
    "epilogue at end code",
    "only epilogue",
    "first of several",
    "later of several",
    "conditional",
];

/// Where the first difference is.
fn place(function: &Function, offset: u64, role: &Role) -> Vec<&'static str> {
    if let Role::Prologue(_) = role {
        return vec![if offset == 0 { "offset 0" } else { "prologue, later" }];
    }
    let epilogues = &function.epilogues;
    let number = epilogues.iter().rposition(|epilogue| epilogue.start <= offset).unwrap_or(0);
    let epilogue = &epilogues[number];
    let mut classes = vec![match role {
        Role::End(_) => "epilogue at end code",
        _ if epilogue.start == offset => "epilogue's first",
        _ => "epilogue, later",
    }];
    classes.push(match (number, epilogues.len()) {
        (_, 1) => "only epilogue",
        (0, _) => "first of several",
        _ => "later of several",
    });
    if epilogue.condition != 0xe {
        classes.push("conditional");
    }
    classes
}

const SHAPES: [&str; 14] = [
    "Flag 1",
    "Flag 2",
    "no epilogue",
    "E=1",
    "one scope",
    "several scopes",
    "over 31 scopes",
    "F=1",
    "prologue",
    "extension",
    "handler",
    "conditional",
    "nothing to check",
    "nothing at all",
];

/// What kind of record it is.
fn shape(file: &File, function: &Function, nothing: bool) -> Vec<&'static str> {
    let flag = field(file.word, 0, 1);
    let at = file.word.wrapping_sub(file.xdata.rva) as usize;
    let first = if flag == 0 { word_at(file.xdata.bytes, at).unwrap_or(0) } else { 0 };
    let full = |is: bool| flag == 0 && is;
    let scopes = |least: usize, most: usize| {
        full(!bit(first, 21) && (least..=most).contains(&function.epilogues.len()))
    };
    let conditional = function.epilogues.iter().any(|epilogue| epilogue.condition != 0xe);
    let is = [
        flag == 1,
        flag == 2,
        function.epilogues.is_empty(),
        full(bit(first, 21)),
        scopes(1, 1),
        scopes(2, 31),
        scopes(32, usize::MAX),
        full(bit(first, 22)),
        full(!bit(first, 22)),
        full(field(first, 23, 31) == 0),
        full(bit(first, 20)),
        conditional,
        nothing,
        function.length == 0,
    ];
    SHAPES.into_iter().zip(is).filter(|(_, is)| *is).map(|(shape, _)| shape).collect()
}
