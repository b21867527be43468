//! Region tables. The regions are laid into each other first, so that their outline is known; then they
//! are put into a table, which may be spoiled.

use std::collections::BTreeSet;

use crate::draft::put_words;
use crate::rng::Rng;

/// Begin, end, handler and target.
pub type Region = [u32; 4];

/// Regions a table may have.
const MOST: usize = 64;
/// Regions of a table that gets more, so that it still has no more than it may.
const FEWER: usize = 60;

/// A region in the outline.
#[derive(Clone, Copy, Debug)]
struct Line {
    level: usize,
    region: Region,
}

impl Line {
    fn text(&self, rva: u32) -> String {
        let [begin, end, ..] = self.region;
        let mark = if begin <= rva && rva < end { '*' } else { '-' };
        let words: String = self.region.iter().map(|word| format!(" {word:08x}")).collect();
        format!("{}{mark}{words}\n", "  ".repeat(self.level))
    }

    fn range(&self) -> [u32; 2] {
        [self.region[0], self.region[1]]
    }
}

/// A table with this count word and these records.
pub fn table_bytes(count: u32, records: &[Region]) -> Vec<u8> {
    let mut bytes = Vec::new();
    put_words(&mut bytes, &[count]);
    put_words(&mut bytes, records.as_flattened());
    bytes
}

/// What a table is made for. All are RVAs.
#[derive(Clone, Debug)]
pub struct Surroundings {
    pub start: u32,
    pub length: u32,
    /// The pcs that regions should begin and end at.
    pub pcs: Vec<u32>,
}

#[derive(Clone, Debug)]
pub struct Table {
    count: u32,
    records: Vec<Region>,
    /// Bytes at the end that are not lent.
    missing: usize,
    /// Or the refusal's number.
    outline: Result<Vec<Line>, u32>,
}

impl Table {
    /// Any table, or a spoiled one. Only the last one of .xdata may be cut short.
    pub fn any(rng: &mut Rng, around: &Surroundings, last: bool) -> Table {
        let (crossed, unfit) = match rng.within(0..=99) {
            0..=54 => return Table::sound(rng, around, MOST),
            55..=69 => (true, false),
            70..=89 => (false, true),
            _ => (true, true),
        };
        let mut table = Table::sound(rng, around, FEWER);
        if crossed {
            table.spoil_nesting(rng, around);
        }
        if unfit {
            table.spoil_table(rng, around, last);
        }
        table
    }

    fn sound(rng: &mut Rng, around: &Surroundings, most: usize) -> Table {
        let lines = random_lines(rng, around, most);
        let records = in_any_order(rng, &lines);
        Table { count: records.len() as u32, records, missing: 0, outline: Ok(lines) }
    }

    /// As it stands in .xdata.
    pub fn bytes(&self) -> Vec<u8> {
        let mut bytes = table_bytes(self.count, &self.records);
        bytes.truncate(bytes.len() - self.missing);
        bytes
    }

    /// What stands under the line of a frame with this pc.
    pub fn text(&self, rva: u32) -> String {
        match &self.outline {
            Ok(lines) => lines.iter().map(|line| line.text(rva)).collect(),
            Err(number) => format!("  refused {number}\n"),
        }
    }

    /// One or two more regions, which do not go with the others or with each other.
    fn spoil_nesting(&mut self, rng: &mut Rng, around: &Surroundings) {
        let at = around.near(rng).min(u32::MAX - 0x200);
        let size = rng.within(2..=40);
        let past = rng.pick(&[1, 1, 2, 60]);
        match rng.within(0..=5) {
            0 => self.insert(rng, at, at),
            1 => self.insert(rng, at + past, at),
            kind => {
                let shared = if kind == 5 { rng.within(1..=size - 1) } else { 1 };
                self.insert(rng, at, at + size);
                self.insert(rng, at + size - shared, at + size + past);
            }
        }
        self.outline = Err(16);
    }

    fn insert(&mut self, rng: &mut Rng, begin: u32, end: u32) {
        let at = rng.below(self.records.len() + 1);
        self.records.insert(at, [begin, end, rng.word(), rng.word()]);
        self.count += 1;
    }

    /// Too many regions, or too few bytes.
    fn spoil_table(&mut self, rng: &mut Rng, around: &Surroundings, last: bool) {
        let whole = self.bytes().len();
        match rng.within(0..=if last { 16 } else { 3 }) {
            0..=1 => self.fill(around, MOST + 1),
            2 => self.count = rng.pick(&[66, 67, 128, 255, 256, 320]),
            // Sixteen times these passes 32 bits.
            3 => self.count = rng.pick(&[0x1000_0000, 0x1000_0001, 0x8000_0000, u32::MAX]),
            4..=6 => self.missing = 1,
            7..=9 => self.missing = 4,
            10..=12 => self.missing = 16.min(whole),
            13..=15 => self.missing = 1 + rng.below(whole),
            _ => self.missing = whole - rng.below(4),
        }
        self.outline = Err(15);
    }

    /// So many regions: equal ones, which go with all others, behind those that are there.
    fn fill(&mut self, around: &Surroundings, count: usize) {
        let least = [around.start, around.start + 1, 0, 0];
        let region = self.records.first().copied().unwrap_or(least);
        self.records.resize(count, region);
        self.count = count as u32;
    }
}

impl Surroundings {
    /// An RVA in the function or somewhat outside.
    fn near(&self, rng: &mut Rng) -> u32 {
        self.start.wrapping_sub(20).wrapping_add(rng.within(0..=self.length + 160))
    }

    /// Where regions may begin and end, ascending: at the pcs, at the function's ends, at those of all
    /// RVAs, and at enough others.
    fn points(&self, rng: &mut Rng, count: usize) -> Vec<u32> {
        let mut points = BTreeSet::new();
        for pc in &self.pcs {
            let beside = [pc - 1, *pc, pc + 1, pc + 2, pc + 3];
            points.extend(beside.into_iter().filter(|_| rng.percent(35)));
        }
        let ends = [0, self.start, self.start.wrapping_add(self.length), u32::MAX];
        points.extend(ends.into_iter().filter(|_| rng.percent(15)));
        while points.len() < count {
            points.insert(self.near(rng));
        }
        points.into_iter().collect()
    }
}

/// Regions while they are laid into each other.
struct Forest<'a> {
    rng: &'a mut Rng,
    /// Where regions may begin and end, ascending.
    points: Vec<u32>,
    most: usize,
    /// From the top down.
    lines: Vec<Line>,
}

fn random_lines(rng: &mut Rng, around: &Surroundings, most: usize) -> Vec<Line> {
    let shape = rng.within(0..=99);
    let count = match shape {
        0..=9 => 0,
        10..=69 => rng.within(1..=6),
        70..=83 => rng.within(7..=64),
        _ => rng.pick(&[2, 40, 63, 63, 64, 64]),
    };
    let most = most.min(count as usize);
    let points = around.points(rng, most + 2);
    let all = points.len() - 1;
    let mut forest = Forest { rng, points, most, lines: Vec::new() };
    match shape {
        0..=83 => forest.grow(0, all, 1),
        84..=93 => forest.nest(),
        _ => forest.line_up(),
    }
    forest.lines
}

impl Forest<'_> {
    /// A region from one of the points to another.
    fn add(&mut self, level: usize, low: usize, high: usize) {
        let any = [0, 1, u32::MAX, self.rng.word(), self.rng.word(), self.rng.word()];
        let others = [self.rng.pick(&any), self.rng.pick(&any)];
        let region = [self.points[low], self.points[high], others[0], others[1]];
        self.lines.push(Line { level, region });
    }

    /// Regions side by side between two points, with others in them, up to the most there may be.
    fn grow(&mut self, low: usize, high: usize, level: usize) {
        let mut at = low;
        while at < high && self.lines.len() < self.most && self.rng.percent(80) {
            let begin = if self.rng.flag() { at } else { at + self.rng.below(high - at) };
            let end = match self.rng.within(0..=3) {
                0 => high,
                1 => begin + 1,
                _ => begin + 1 + self.rng.below(high - begin),
            };
            self.add(level, begin, end);
            self.grow(begin, end, level + 1);
            at = end;
        }
    }

    /// Each region in the one before it.
    fn nest(&mut self) {
        let (mut low, mut high) = (0, self.points.len() - 1);
        for level in 1..=self.most {
            self.add(level, low, high);
            let smaller = high - low > 1;
            match self.rng.within(0..=3) {
                0 if smaller => low += 1,
                1 if smaller => high -= 1,
                _ => {}
            }
        }
    }

    /// Each region where the one before it ends.
    fn line_up(&mut self) {
        (0..self.most).for_each(|number| self.add(1, number, number + 1));
    }
}

/// The regions in any order; but of equal ones the outer ones come first.
fn in_any_order(rng: &mut Rng, lines: &[Line]) -> Vec<Region> {
    let mut order: Vec<usize> = (0..lines.len()).collect();
    for at in 1..order.len() {
        order.swap(at, rng.below(at + 1));
    }
    for one in 0..order.len() {
        for other in one + 1..order.len() {
            let equal = lines[order[one]].range() == lines[order[other]].range();
            if equal && order[one] > order[other] {
                order.swap(one, other);
            }
        }
    }
    order.into_iter().map(|number| lines[number].region).collect()
}
