//! What the guarded regions of the frames meet, for the histogram.

use std::collections::BTreeSet;

use peer::bits::word_at;
use peer::frame::Surroundings;
use peer::full::Full;
use peer::function::Place;
use peer::pdata;
use peer::refusal::Refusal;
use peer::regions::{self, Region};
use peer::text::place_name;
use peer::walk::Frame;

use crate::histogram::{Group, Histogram};

const FRAME: &str = "regions of a frame";
const PLACE: &str = "regions, place";
const COUNT: &str = "regions of a table";
const DEPTH: &str = "regions, depth";
const PAIR: &str = "two regions";
const ORDER: &str = "regions in the table";
const POINT: &str = "regions and the pc";
const FUNCTION: &str = "regions and the function";
const UNFIT: &str = "regions, refused 15";
const UNFIT_RECORDS: &str = "regions, refused 15 for the records";
const CROSSED: &str = "regions, refused 16";

pub fn groups() -> Vec<Group> {
    vec![
        Group::new(
            FRAME,
            ["leaf", "leaf of X=1", "packed", "X=0", "X=0, words", "empty", "outline", "15", "16"],
        ),
        Group::new(PLACE, ["prologue", "body", "epilogue", "first", "later"]),
        Group::new(COUNT, SIZES.map(|(_, name)| name)),
        Group::new(DEPTH, SIZES.map(|(_, name)| name)),
        Group::new(PAIR, ["equal", "same begin", "same end", "inside", "touching", "apart"]),
        Group::new(
            ORDER,
            ["outer first", "inner first", "in order", "later first", "larger first"],
        ),
        Group::new(
            POINT,
            ["begin=pc", "begin=pc+1", "begin=pc+2", "end=pc", "end=pc+1", "end=pc+2", "*", "-"],
        ),
        Group::new(FUNCTION, ["begin before", "end behind", "outside", "end 2^32-1"]),
        Group::new(UNFIT, ["no count", "count cut", "65, lent", "above 64", "wraps"]),
        Group::new(
            UNFIT_RECORDS,
            ["byte short", "word short", "region short", "shorter", "16 too"],
        ),
        Group::new(CROSSED, ["begin=end", "begin>end", "a pair by 1", "a pair", "pairs"]),
    ]
}

/// Numbers of regions, and depths, by the last of each kind.
const SIZES: [(usize, &str); 6] =
    [(1, "1"), (2, "2"), (8, "3-8"), (62, "9-62"), (63, "63"), (64, "64")];

fn size(value: usize) -> &'static str {
    let found = SIZES.iter().find(|(last, _)| value <= *last);
    found.map_or("", |(_, name)| name)
}

pub fn take(histogram: &mut Histogram, around: &Surroundings, frames: &[Frame]) {
    for (number, frame) in frames.iter().enumerate() {
        let rva = frame.pc - around.image_base;
        let Some(table) = frame.table else {
            histogram.count(FRAME, without_table(around, frame.place, rva));
            continue;
        };
        histogram.count(PLACE, place_name(frame.place));
        histogram.count(PLACE, if number == 0 { "first" } else { "later" });
        match regions::read(table) {
            Ok(regions) if regions.is_empty() => histogram.count(FRAME, "empty"),
            Ok(regions) => {
                histogram.count(FRAME, "outline");
                take_regions(histogram, &regions, rva, extent(around, rva));
            }
            Err(Refusal::Table) => {
                histogram.count(FRAME, "15");
                take_unfit(histogram, table);
            }
            Err(_) => {
                histogram.count(FRAME, "16");
                take_crossed(histogram, &records(table));
            }
        }
    }
}

/// The full record found for a pc, whether it covers it or not: its function's start, its RVA, and itself.
fn found<'a>(around: &Surroundings<'a>, rva: u32) -> Option<(u32, u32, Full<'a>)> {
    let entry = pdata::find(around.pdata, rva).filter(|entry| entry.word & 3 == 0)?;
    Some((entry.start, entry.word, Full::read(&around.xdata, entry.word).ok()?))
}

/// Where the function of a full record starts and ends.
fn extent(around: &Surroundings, rva: u32) -> (u64, u64) {
    let start_and_length = found(around, rva).map(|(start, _, full)| (start, full.length()));
    let (start, length) = start_and_length.unwrap_or_default();
    (u64::from(start), u64::from(start) + length)
}

fn without_table(around: &Surroundings, place: Place, rva: u32) -> &'static str {
    match (place, found(around, rva)) {
        (Place::Leaf, Some((_, _, full))) if full.table().is_some() => "leaf of X=1",
        (Place::Leaf, _) => "leaf",
        (_, None) => "packed",
        (_, Some((_, record, _))) => {
            let size = Full::size(&around.xdata, record).unwrap_or(0) as u64;
            let words = u64::from(record) + size + 4 <= around.xdata.end();
            if words {
                "X=0, words"
            } else {
                "X=0"
            }
        }
    }
}

/// The records of a table that are lent, up to its count.
fn records(table: &[u8]) -> Vec<Region> {
    let count = word_at(table, 0).unwrap_or(0) as usize;
    let record = |bytes: &[u8]| {
        let [begin, end, handler, target] = [0, 4, 8, 12].map(|at| word_at(bytes, at).unwrap_or(0));
        Region { begin, end, handler, target }
    };
    table.get(4..).unwrap_or_default().chunks_exact(16).take(count).map(record).collect()
}

fn take_unfit(histogram: &mut Histogram, table: &[u8]) {
    let Some(count) = word_at(table, 0) else {
        return histogram.count(UNFIT, if table.is_empty() { "no count" } else { "count cut" });
    };
    let missing = (4 + 16 * u64::from(count)).saturating_sub(table.len() as u64);
    match (count, missing) {
        (65, 0) => histogram.count(UNFIT, "65, lent"),
        (0x1000_0000.., _) => histogram.count(UNFIT, "wraps"),
        (65.., _) => histogram.count(UNFIT, "above 64"),
        (_, 1) => histogram.count(UNFIT_RECORDS, "byte short"),
        (_, 4) => histogram.count(UNFIT_RECORDS, "word short"),
        (_, 16) => histogram.count(UNFIT_RECORDS, "region short"),
        _ => histogram.count(UNFIT_RECORDS, "shorter"),
    }
    let lent = records(table);
    if lent.iter().any(|region| region.begin >= region.end) || !crossing(&lent).is_empty() {
        histogram.count(UNFIT_RECORDS, "16 too");
    }
}

/// How many bytes each crossing pair shares.
fn crossing(records: &[Region]) -> Vec<u32> {
    let crosses = |one: &Region, other: &Region| {
        one.begin < other.begin && other.begin < one.end && one.end < other.end
    };
    let with = |one| records.iter().filter(move |other| crosses(one, other));
    records.iter().flat_map(|one| with(one).map(|other| one.end - other.begin)).collect()
}

fn take_crossed(histogram: &mut Histogram, records: &[Region]) {
    if records.iter().any(|region| region.begin == region.end) {
        histogram.count(CROSSED, "begin=end");
    }
    if records.iter().any(|region| region.begin > region.end) {
        histogram.count(CROSSED, "begin>end");
    }
    match crossing(records).as_slice() {
        [] => {}
        [1] => histogram.count(CROSSED, "a pair by 1"),
        [_] => histogram.count(CROSSED, "a pair"),
        _ => histogram.count(CROSSED, "pairs"),
    }
}

/// The regions of a sound table: each class once, however many of them are in it.
fn take_regions(histogram: &mut Histogram, regions: &[Region], rva: u32, extent: (u64, u64)) {
    let depth = regions::outline(regions).iter().map(|line| line.level).max().unwrap_or(0);
    histogram.count(COUNT, size(regions.len()));
    histogram.count(DEPTH, size(depth));
    let mut met = BTreeSet::new();
    for (number, region) in regions.iter().enumerate() {
        met.extend(with_pc(region, rva).map(|class| (POINT, class)));
        met.extend(with_function(region, extent).map(|class| (FUNCTION, class)));
        for later in &regions[number + 1..] {
            met.insert((PAIR, pair(region, later)));
            met.insert((ORDER, order(region, later)));
        }
    }
    if larger_first(regions) {
        met.insert((ORDER, "larger first"));
    }
    met.into_iter().for_each(|(title, class)| histogram.count(title, class));
}

/// The classes whose condition holds.
fn those<const N: usize>(classes: [(&'static str, bool); N]) -> impl Iterator<Item = &'static str> {
    classes.into_iter().filter(|(_, is)| *is).map(|(class, _)| class)
}

fn with_pc(region: &Region, rva: u32) -> impl Iterator<Item = &'static str> {
    let Region { begin, end, .. } = *region;
    let ahead = |end: u32, distance| end.checked_sub(distance) == Some(rva);
    those([
        ("begin=pc", begin == rva),
        ("begin=pc+1", ahead(begin, 1)),
        ("begin=pc+2", ahead(begin, 2)),
        ("end=pc", end == rva),
        ("end=pc+1", ahead(end, 1)),
        ("end=pc+2", ahead(end, 2)),
        ("*", begin <= rva && rva < end),
        ("-", rva < begin || end <= rva),
    ])
}

fn with_function(region: &Region, extent: (u64, u64)) -> impl Iterator<Item = &'static str> {
    let (begin, end) = (u64::from(region.begin), u64::from(region.end));
    those([
        ("begin before", begin < extent.0),
        ("end behind", extent.1 < end),
        ("outside", end <= extent.0 || extent.1 <= begin),
        ("end 2^32-1", region.end == u32::MAX),
    ])
}

fn spans(outer: &Region, inner: &Region) -> bool {
    outer.begin <= inner.begin && inner.end <= outer.end
}

fn equal(one: &Region, other: &Region) -> bool {
    spans(one, other) && spans(other, one)
}

fn pair(one: &Region, other: &Region) -> &'static str {
    let (first, second) = if one.begin <= other.begin { (one, other) } else { (other, one) };
    match () {
        _ if equal(one, other) => "equal",
        _ if first.end == second.begin => "touching",
        _ if first.end < second.begin => "apart",
        _ if first.begin == second.begin => "same begin",
        _ if first.end == second.end => "same end",
        _ => "inside",
    }
}

/// How two regions stand in the table.
fn order(region: &Region, later: &Region) -> &'static str {
    match () {
        _ if spans(region, later) => "outer first",
        _ if spans(later, region) => "inner first",
        _ if region.begin < later.begin => "in order",
        _ => "later first",
    }
}

/// Whether the first that holds a region is not the smallest.
fn larger_first(regions: &[Region]) -> bool {
    regions.iter().any(|inner| {
        let holders = regions.iter().filter(|outer| spans(outer, inner) && !equal(outer, inner));
        let sizes: Vec<u32> = holders.map(|outer| outer.end - outer.begin).collect();
        sizes.iter().min() < sizes.first()
    })
}
