//! Examples of guarded regions, with outlines that were written by hand.

use crate::draft::{Draft, LR, PC, SP};
use crate::examples::{show_registers, Vectors};
use crate::records::{FullRecord, Scopes};
use crate::tables::table_bytes;

const IMAGE_BASE: u32 = 0x0040_0000;
const START: u32 = 0x1000;
const XDATA_RVA: u32 = 0x0010_0000;
const STACK_BASE: u32 = 0x0008_0000;
const HANDLER: u32 = 0x0000_3001;

/// A table, and below its outline; a `?` is a star where the pc is in the region.
const TABLE: [[u32; 4]; 9] = [
    [0x1020, 0x1030, 1, 0x1a],
    [0x1008, 0x1020, 2, 0x2a],
    [0x1010, 0x1018, 3, 0x3a],
    [0x1008, 0x1010, 4, 0x4a],
    [0x1010, 0x1018, 5, 0x5a],
    [0x1012, 0x1014, 6, 0x6a],
    [0x0800, 0x1008, 7, 0x7a],
    [0x102a, 0x1030, 8, 0x8a],
    [0x1030, 0xffff_ffff, 9, 0x9a],
];

const OUTLINE: &str = "  ? 00000800 00001008 00000007 0000007a
  ? 00001008 00001020 00000002 0000002a
    ? 00001008 00001010 00000004 0000004a
    ? 00001010 00001018 00000003 0000003a
      ? 00001010 00001018 00000005 0000005a
        ? 00001012 00001014 00000006 0000006a
  ? 00001020 00001030 00000001 0000001a
    ? 0000102a 00001030 00000008 0000008a
  ? 00001030 ffffffff 00000009 0000009a
";

/// Offsets of the pc, and the marks of the lines from the top down.
const MARKS: [(u32, &str); 11] = [
    (0x06, "*--------"),
    (0x08, "-**------"),
    (0x0e, "-**------"),
    (0x10, "-*-**----"),
    (0x12, "-*-***---"),
    (0x14, "-*-**----"),
    (0x18, "-*-------"),
    (0x20, "------*--"),
    (0x2a, "------**-"),
    (0x2e, "------**-"),
    (0x30, "--------*"),
];

/// The examples, and a text with as many regions as there may be.
pub fn add_to(vectors: &mut Vectors) {
    for (offset, marks) in MARKS {
        let under = marks
            .chars()
            .fold(OUTLINE.to_string(), |text, mark| text.replacen('?', &mark.to_string(), 1));
        thread(&table_bytes(9, &TABLE), offset, 1).add_to(vectors, &under);
    }
    for (table, number) in refused_tables() {
        thread(&table, 0x10, 1).add_to(vectors, &format!("  refused {number}\n"));
    }
    thread(&table_bytes(0, &[]), 0x10, 1).add_to(vectors, "");
    let (longest, under) = longest();
    longest.add_to(vectors, &under);
}

/// The report with that text.
pub fn longest_report() -> Vec<u8> {
    longest().0.draft.bytes()
}

fn refused_tables() -> Vec<(Vec<u8>, u32)> {
    let crossing = [[0x1000, 0x1010, 0, 0], [0x100f, 0x1020, 0, 0]];
    let mut cut = table_bytes(1, &crossing[..1]);
    cut.pop();
    vec![
        (Vec::new(), 15),
        (vec![0; 3], 15),
        (cut, 15),
        (table_bytes(3, &crossing), 15),
        (table_bytes(65, &[TABLE[0]; 65]), 15),
        (table_bytes(0x1000_0000, &[]), 15),
        (table_bytes(2, &crossing), 16),
        (table_bytes(1, &[[0x1010, 0x1010, 0, 0]]), 16),
        (table_bytes(1, &[[0x1010, 0x100f, 0, 0]]), 16),
    ]
}

/// 256 frames of a function with 64 regions in each other, and their outline.
fn longest() -> (Guarded, String) {
    let region = |level: u32| [0x1008, 0x2000 - level, level, 0];
    let regions: Vec<[u32; 4]> = (1..=64).rev().map(region).collect();
    let line = |level: u32| {
        let [begin, end, handler, target] = region(level);
        let indent = "  ".repeat(level as usize);
        format!("{indent}* {begin:08x} {end:08x} {handler:08x} {target:08x}\n")
    };
    (thread(&table_bytes(64, &regions), 0x10, 256), (1..=64).map(line).collect())
}

/// Frames of one function, which has pushed LR, 64 bytes long.
struct Guarded {
    draft: Draft,
    frames: u32,
}

fn thread(table: &[u8], offset: u32, frames: u32) -> Guarded {
    let record = FullRecord {
        length: 0x40,
        version: 0,
        fragment: false,
        scopes: Scopes::AtEnd(0),
        codes: vec![0xed, 0x00, 0xff, 0x00],
        handler: Some(HANDLER),
        extended: false,
        reserved: 0,
    };
    let mut draft = Draft::empty();
    draft.image_base = IMAGE_BASE;
    draft.pdata = vec![[START, XDATA_RVA]];
    draft.xdata_rva = XDATA_RVA;
    draft.xdata = [record.bytes(), table.to_vec()].concat();
    draft.stack_base = STACK_BASE;
    let mut words = vec![(IMAGE_BASE + START + offset) | 1; frames as usize];
    words[frames as usize - 1] = 0;
    draft.set_stack(&words);
    draft.r[SP] = STACK_BASE;
    draft.r[PC] = IMAGE_BASE + START + offset;
    Guarded { draft, frames }
}

impl Guarded {
    /// The listing, with this under the line of each frame.
    fn text(&self, under: &str) -> String {
        let (pc, frames) = (self.draft.r[PC], self.frames);
        let line =
            |number| format!("{number} {pc:08x} {:08x} body\n{under}", STACK_BASE + 4 * number);
        let lines: String = (0..frames).map(line).collect();
        format!("frame pc sp place\n{lines}end frames {frames} codes {frames}\n")
    }

    fn caller(&self) -> String {
        let (mut r, last) = (self.draft.r, self.frames == 1);
        r[SP] += 4;
        r[LR] = if last { 0 } else { r[PC] | 1 };
        r[PC] = r[LR] & !1;
        let first = format!("caller place body handler {HANDLER:08x} codes 1\n");
        first + &show_registers(&r, &self.draft.d)
    }

    fn add_to(self, vectors: &mut Vectors, under: &str) {
        vectors.add(&self.draft.bytes(), &self.text(""), &self.text(under), &self.caller());
    }
}
