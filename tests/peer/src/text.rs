//! What the programs print.

use std::fmt::Write;

use crate::fits::{first_difference, File};
use crate::frame::unwind;
use crate::function::Place;
use crate::machine::{Registers, LR, PC, SP};
use crate::refusal::Refusal;
use crate::regions::{self, Line, Region};
use crate::report::Report;
use crate::walk::{walk, Frame, Stop};

/// Frames the walk program has room for.
pub const ROOM: usize = 256;

/// The listing that the walk program prints for a report.
pub fn listing(report: &[u8]) -> String {
    listing_with(report, |_, _| String::new())
}

/// The listing with each frame's regions under its line.
pub fn outline(report: &[u8]) -> String {
    listing_with(report, regions_under)
}

/// The listing with a text under each frame's line, which is made from the image base and the frame.
fn listing_with(report: &[u8], under: fn(u32, &Frame) -> String) -> String {
    let report = match Report::read(report) {
        Ok(report) => report,
        Err(refusal) => return refused(refusal),
    };
    let walk = walk(&report.around, &report.registers, ROOM);
    let mut text = String::from("frame pc sp place\n");
    for (number, frame) in walk.frames.iter().enumerate() {
        let place = place_name(frame.place);
        line(&mut text, format_args!("{number} {:08x} {:08x} {place}", frame.pc, frame.sp));
        text += &under(report.around.image_base, frame);
    }
    let counts = format!("frames {} codes {}", walk.frames.len(), walk.codes);
    match walk.stop {
        Stop::End => line(&mut text, format_args!("end {counts}")),
        Stop::Full => line(&mut text, format_args!("full {counts}")),
        Stop::Refused { refusal, pc } => {
            let number = refusal.number();
            line(&mut text, format_args!("refused {number} at {pc:08x} {counts}"));
        }
    }
    text
}

/// The outline of a frame's regions, or why its table is refused.
fn regions_under(image_base: u32, frame: &Frame) -> String {
    let Some(table) = frame.table else {
        return String::new();
    };
    let rva = frame.pc - image_base;
    match regions::read(table) {
        Ok(regions) => {
            let lines = regions::outline(&regions);
            lines.iter().map(|line| region_line(line, rva)).collect()
        }
        Err(refusal) => format!("  {}", refused(refusal)),
    }
}

fn region_line(Line { level, region }: &Line, rva: u32) -> String {
    let indent = 2 * level;
    let mark = if region.contains(rva) { '*' } else { '-' };
    let Region { begin, end, handler, target } = region;
    format!("{:indent$}{mark} {begin:08x} {end:08x} {handler:08x} {target:08x}\n", "")
}

/// The innermost frame's caller with every register. A refusal shows the registers as given.
pub fn caller(report: &[u8]) -> String {
    let report = match Report::read(report) {
        Ok(report) => report,
        Err(refusal) => return refused(refusal),
    };
    match unwind(&report.around, &report.registers) {
        Ok(caller) => {
            let place = place_name(caller.place);
            let codes = caller.ran.len();
            let mut text =
                format!("caller place {place} handler {:08x} codes {codes}\n", caller.handler);
            show_registers(&mut text, &caller.registers);
            text
        }
        Err(refusal) => {
            let mut text = refused(refusal);
            show_registers(&mut text, &report.registers);
            text
        }
    }
}

/// Whether the record of a FIT file fits its code.
pub fn fits(file: &[u8]) -> String {
    match File::read(file).and_then(|file| first_difference(&file)) {
        Ok(None) => "fits\n".to_string(),
        Ok(Some(offset)) => format!("refused {} at {offset:08x}\n", Refusal::Differs.number()),
        Err(refusal) => refused(refusal),
    }
}

pub fn refused(refusal: Refusal) -> String {
    format!("refused {}\n", refusal.number())
}

pub fn place_name(place: Place) -> &'static str {
    match place {
        Place::Leaf => "leaf",
        Place::Prologue => "prologue",
        Place::Body => "body",
        Place::Epilogue => "epilogue",
    }
}

fn show_registers(text: &mut String, registers: &Registers) {
    for (number, value) in registers.r.iter().enumerate() {
        match number {
            SP => line(text, format_args!("sp {value:08x}")),
            LR => line(text, format_args!("lr {value:08x}")),
            PC => line(text, format_args!("pc {value:08x}")),
            _ => line(text, format_args!("r{number} {value:08x}")),
        }
    }
    for (number, value) in registers.d.iter().enumerate() {
        line(text, format_args!("d{number} {value:016x}"));
    }
}

fn line(text: &mut String, content: std::fmt::Arguments) {
    writeln!(text, "{content}").expect("a String takes every write");
}
