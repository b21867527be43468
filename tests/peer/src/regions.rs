//! Guarded regions: the table behind the handler word of a full record, and how its regions lie in each
//! other.

use std::cmp::Reverse;

use crate::bits::word_at;
use crate::refusal::Refusal;

/// Regions a table may have.
const MOST: u32 = 64;

/// Four RVAs. They may lie outside the function, and all their bits count.
#[derive(Clone, Copy, Debug, PartialEq, Eq)]
pub struct Region {
    pub begin: u32,
    pub end: u32,
    pub handler: u32,
    pub target: u32,
}

impl Region {
    fn read(record: &[u8]) -> Option<Region> {
        Some(Region {
            begin: word_at(record, 0)?,
            end: word_at(record, 4)?,
            handler: word_at(record, 8)?,
            target: word_at(record, 12)?,
        })
    }

    /// Its end is not in it.
    pub fn contains(&self, rva: u32) -> bool {
        (self.begin..self.end).contains(&rva)
    }

    fn spans(&self, other: &Region) -> bool {
        self.begin <= other.begin && other.end <= self.end
    }

    /// Whether they share a byte, and each has one that the other has not.
    fn crosses(&self, other: &Region) -> bool {
        let shared = self.begin < other.end && other.begin < self.end;
        shared && !self.spans(other) && !other.spans(self)
    }
}

/// The regions of the table that `bytes` begin with, as they stand there.
pub fn read(bytes: &[u8]) -> Result<Vec<Region>, Refusal> {
    let count = word_at(bytes, 0).filter(|count| *count <= MOST).ok_or(Refusal::Table)?;
    let records = bytes.get(4..4 + 16 * count as usize).ok_or(Refusal::Table)?;
    let regions: Vec<Region> = records.chunks_exact(16).filter_map(Region::read).collect();
    check_nesting(&regions)?;
    Ok(regions)
}

fn check_nesting(regions: &[Region]) -> Result<(), Refusal> {
    let upright = regions.iter().all(|region| region.begin < region.end);
    let crossed = regions.iter().any(|one| regions.iter().any(|other| one.crosses(other)));
    if upright && !crossed {
        Ok(())
    } else {
        Err(Refusal::Nesting)
    }
}

/// A region in the outline of its table.
#[derive(Clone, Copy, Debug, PartialEq, Eq)]
pub struct Line {
    /// 1 if no other region holds it.
    pub level: usize,
    pub region: Region,
}

/// Each region once, those that it holds under it.
pub fn outline(regions: &[Region]) -> Vec<Line> {
    let holder = |number| smallest_holder(regions, number);
    let tree = Tree { regions, holders: (0..regions.len()).map(holder).collect() };
    let mut lines = Vec::new();
    tree.list(None, 1, &mut lines);
    lines
}

struct Tree<'a> {
    regions: &'a [Region],
    /// The number of the region that each one stands under.
    holders: Vec<Option<usize>>,
}

impl Tree<'_> {
    /// The regions that stand under one of them, or under none.
    fn list(&self, under: Option<usize>, level: usize, lines: &mut Vec<Line>) {
        let all = 0..self.regions.len();
        let mut numbers: Vec<usize> = all.filter(|number| self.holders[*number] == under).collect();
        numbers.sort_by_key(|number| {
            let region = &self.regions[*number];
            (region.begin, Reverse(region.end), *number)
        });
        numbers.into_iter().for_each(|number| self.region(number, level, lines));
    }

    fn region(&self, number: usize, level: usize, lines: &mut Vec<Line>) {
        lines.push(Line { level, region: self.regions[number] });
        self.list(Some(number), level + 1, lines);
    }
}

/// The smallest region that holds this one. Of several with one range, the last holds the least.
fn smallest_holder(regions: &[Region], inner: usize) -> Option<usize> {
    let holders = (0..regions.len()).filter(|outer| holds(regions, *outer, inner));
    holders.min_by_key(|outer| (regions[*outer].end - regions[*outer].begin, Reverse(*outer)))
}

/// Of equal ranges, the one that stands first in the table holds the other.
fn holds(regions: &[Region], outer: usize, inner: usize) -> bool {
    let (one, other) = (&regions[outer], &regions[inner]);
    one.spans(other) && (outer < inner || !other.spans(one))
}
