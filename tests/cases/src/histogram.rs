//! What a run of generated reports meets, and how often.

use std::fmt;

use peer::machine::{Undo, LR, PC};
use peer::packed::Packed;
use peer::pdata;
use peer::report::Report;
use peer::text::place_name;
use peer::walk::Stop;

use crate::case::Case;
use crate::families::KINDS;
use crate::frame_chain;
use crate::known::Answers;
use crate::outlines;

/// A class met fewer than 50 times in 20,000 reports is not tested.
pub fn least(cases: u64) -> u64 {
    cases * 50 / 20_000
}

pub struct Group {
    title: &'static str,
    classes: Vec<(String, u64)>,
}

impl Group {
    pub fn new(title: &'static str, classes: impl IntoIterator<Item = impl ToString>) -> Group {
        let classes = classes.into_iter().map(|class| (class.to_string(), 0)).collect();
        Group { title, classes }
    }
}

/// All classes there are, met or not.
pub struct Histogram {
    groups: Vec<Group>,
}

const CALLER_REFUSED: &str = "caller, refused";
const WALK_REFUSED: &str = "walk, refused";
const WALK_STOP: &str = "walk, stop";
const PLACE: &str = "place of the first frame";
const LATER_PLACE: &str = "place of later frames";
const HANDLER: &str = "handler at";
const ROW: &str = "code run";
const POPPED: &str = "register popped";
const PACKED: &str = "packed Flag";
const PACKED_FIELDS: &str = "packed Ret H L C R";
const PACKED_SAVED: &str = "packed saved";
const PACKED_ADJUST: &str = "packed Stack Adjust";
const KIND: &str = "kind of report";
const FRAME_CHAIN: &str = "frame chain, r11 and lr pushed";

impl Histogram {
    pub fn new() -> Histogram {
        let records = ["packed", "full"];
        let places = ["prologue", "body", "epilogue"];
        let in_record = |record| places.map(|place| format!("{record} {place}"));
        let first_places = records.into_iter().flat_map(in_record).chain(["leaf".to_string()]);
        let saved = (0..16).map(|saved| saved_name(saved & 8 != 0, saved & 7));
        let mut groups = vec![
            Group::new(CALLER_REFUSED, (1..=11).chain([14])),
            Group::new(WALK_REFUSED, 1..=14),
            Group::new(WALK_STOP, ["end", "full", "refused"]),
            Group::new(PLACE, first_places),
            Group::new(LATER_PLACE, places),
            Group::new(HANDLER, places),
            Group::new(ROW, rows()),
            Group::new(
                POPPED,
                POPS.into_iter().flat_map(|(row, most)| popped(row, most).chain(popped(row, 0))),
            ),
            Group::new(PACKED, ["1", "2"]),
            Group::new(PACKED_FIELDS, sound_fields()),
            Group::new(PACKED_SAVED, saved),
            Group::new(PACKED_ADJUST, ADJUSTS.map(|(_, name)| name)),
            Group::new(KIND, KINDS),
            Group::new(FRAME_CHAIN, frame_chain::classes()),
        ];
        groups.extend(outlines::groups());
        Histogram { groups }
    }

    pub fn of(groups: Vec<Group>) -> Histogram {
        Histogram { groups }
    }

    pub fn count(&mut self, title: &str, class: &str) {
        let group = self.groups.iter_mut().find(|group| group.title == title);
        let group = group.unwrap_or_else(|| panic!("no group {title}"));
        let class = match group.classes.iter_mut().find(|(name, _)| name == class) {
            Some(class) => class,
            None => panic!("no class {class} in {title}"),
        };
        class.1 += 1;
    }

    pub fn take(&mut self, case: &Case, report: Option<&Report>, answers: Option<&Answers>) {
        self.count(KIND, case.kind);
        case.aims.iter().for_each(|aim| self.count(FRAME_CHAIN, aim));
        match (report, answers) {
            (Some(report), Some(answers)) => {
                self.take_caller(report, answers);
                self.take_walk(answers);
                outlines::take(self, &report.around, &answers.walk.frames);
            }
            _ => {
                self.count(CALLER_REFUSED, "14");
                self.count(WALK_REFUSED, "14");
            }
        }
    }

    fn take_caller(&mut self, report: &Report, answers: &Answers) {
        let caller = match &answers.caller {
            Ok(caller) => caller,
            Err(refusal) => return self.count(CALLER_REFUSED, &refusal.number().to_string()),
        };
        let place = place_name(caller.place);
        let Some(packed) = covering_record(report).filter(|_| place != "leaf") else {
            return self.count(PLACE, "leaf");
        };
        if caller.handler != 0 {
            self.count(HANDLER, place);
        }
        for instruction in &caller.ran {
            let Some(row) = instruction.code.map(row) else { continue };
            self.count(ROW, row);
            if let Undo::Pop(list) = instruction.undo {
                popped(row, list).for_each(|class| self.count(POPPED, &class));
            }
        }
        match packed {
            Some(packed) => {
                self.count(PLACE, &format!("packed {place}"));
                self.take_packed(&packed);
            }
            None => self.count(PLACE, &format!("full {place}")),
        }
    }

    fn take_packed(&mut self, packed: &Packed) {
        self.count(PACKED, if packed.fragment { "2" } else { "1" });
        self.count(PACKED_FIELDS, &fields_name(packed.ret, packed.h, packed.l, packed.c, packed.r));
        self.count(PACKED_SAVED, &saved_name(packed.r, packed.reg));
        self.count(PACKED_ADJUST, adjust(packed.stack_adjust));
    }

    fn take_walk(&mut self, answers: &Answers) {
        match answers.walk.stop {
            Stop::End => self.count(WALK_STOP, "end"),
            Stop::Full => self.count(WALK_STOP, "full"),
            Stop::Refused { refusal, .. } => {
                self.count(WALK_STOP, "refused");
                self.count(WALK_REFUSED, &refusal.number().to_string());
            }
        }
        for frame in answers.walk.frames.iter().skip(1) {
            self.count(LATER_PLACE, place_name(frame.place));
        }
    }

    /// Classes of the groups with these titles that were met.
    pub fn met<'a>(&'a self, titles: &'a [&str]) -> impl Iterator<Item = String> + use<'a> {
        let groups = self.groups.iter().filter(|group| titles.contains(&group.title));
        groups.flat_map(|group| {
            let met = group.classes.iter().filter(|(_, count)| *count > 0);
            met.map(|(class, _)| format!("{} {class}", group.title))
        })
    }

    /// Classes met fewer than `least` times.
    pub fn rare(&self, least: u64) -> Vec<String> {
        let mut rare = Vec::new();
        for group in &self.groups {
            for (class, count) in group.classes.iter().filter(|(_, count)| *count < least) {
                rare.push(format!("{} {class}: {count}", group.title));
            }
        }
        rare
    }
}

impl fmt::Display for Histogram {
    fn fmt(&self, out: &mut fmt::Formatter) -> fmt::Result {
        for group in &self.groups {
            writeln!(out, "{}", group.title)?;
            for line in group.classes.chunks(6) {
                for (class, count) in line {
                    write!(out, "  {class:>10} {count:>6}")?;
                }
                writeln!(out)?;
            }
        }
        Ok(())
    }
}

/// The record that the pc's frame was unwound by: a packed one, or none for a full one.
fn covering_record(report: &Report) -> Option<Option<Packed>> {
    let rva = (report.registers.r[PC] & !1).checked_sub(report.around.image_base)?;
    let entry = pdata::find(report.around.pdata, rva)?;
    Some(if entry.word & 3 == 0 { None } else { Packed::read(entry.word).ok() })
}

/// The rows of document 01's code table by their last first byte.
const ROWS: [(u8, &str); 17] = [
    (0x7f, "00-7F"),
    (0xbf, "80-BF"),
    (0xcf, "C0-CF"),
    (0xd7, "D0-D7"),
    (0xdf, "D8-DF"),
    (0xe7, "E0-E7"),
    (0xeb, "E8-EB"),
    (0xed, "EC-ED"),
    (0xef, "EF"),
    (0xf5, "F5"),
    (0xf6, "F6"),
    (0xf7, "F7"),
    (0xf8, "F8"),
    (0xf9, "F9"),
    (0xfa, "FA"),
    (0xfb, "FB"),
    (0xff, "FC"),
];

pub fn rows() -> impl Iterator<Item = &'static str> {
    ROWS.into_iter().map(|(_, name)| name)
}

pub fn row(code: u8) -> &'static str {
    let found = ROWS.iter().find(|(last, _)| code <= *last);
    found.map_or("", |(_, name)| name)
}

/// The rows that pop, each with the longest list that it can make.
const POPS: [(&str, u32); 4] =
    [("80-BF", 0x5fff), ("D0-D7", 0x40f0), ("D8-DF", 0x4ff0), ("EC-ED", 0x40ff)];

/// A list that a row made, register by register; a list without LR is a class too.
fn popped(row: &str, list: u32) -> impl Iterator<Item = String> + use<'_> {
    let listed = (0..LR)
        .filter(move |number| list >> number & 1 == 1)
        .map(move |number| format!("{row} r{number}"));
    let link = if list >> LR & 1 == 1 { "lr" } else { "no lr" };
    listed.chain([format!("{row} {link}")])
}

/// Kinds of Stack Adjust by their last value.
pub const ADJUSTS: [(u32, &str); 9] = [
    (0, "0"),
    (0x7e, "1-7E"),
    (0x7f, "7F"),
    (0x80, "80"),
    (0x3f2, "81-3F2"),
    (0x3f3, "3F3"),
    (0x3f7, "PF"),
    (0x3fb, "EF"),
    (0x3ff, "PF and EF"),
];

pub fn adjust(value: u32) -> &'static str {
    let found = ADJUSTS.iter().find(|(last, _)| value <= *last);
    found.map_or("", |(_, name)| name)
}

pub fn saved_name(r: bool, reg: u32) -> String {
    match (r, reg) {
        (true, 7) => "none".to_string(),
        (true, _) => format!("d8-d{}", 8 + reg),
        (false, _) => format!("r4-r{}", 4 + reg),
    }
}

pub fn fields_name(ret: u32, h: bool, l: bool, c: bool, r: bool) -> String {
    let digit = |flag| u32::from(flag);
    format!("{ret} {} {} {} {}", digit(h), digit(l), digit(c), digit(r))
}

/// The combinations of Ret, H, L, C and R that no reader refuses.
pub fn sound_fields() -> Vec<String> {
    let bit = |all: u32, number: u32| all >> number & 1 == 1;
    (0..64)
        .map(|all| (all >> 4, bit(all, 3), bit(all, 2), bit(all, 1), bit(all, 0)))
        .filter(|(ret, _, l, c, _)| *l || *ret != 0 && !*c)
        .map(|(ret, h, l, c, r)| fields_name(ret, h, l, c, r))
        .collect()
}
