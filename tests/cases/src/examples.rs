//! The examples of document 01 and of Microsoft's page, and some that set r11, with answers that no unwinder
//! was asked for: a processor executes the printed instructions and the state at the function's entry is
//! the caller.
//!
//! Where the page errs, document 01's size or field is taken: the 16-bit `pop {r4-r6}` of example 3,
//! the length 0x207 of example 5, R=1 of example 7.

use std::fmt::Write;

use crate::draft::{Draft, LR, PC, SP};
use crate::framing::frame;
use crate::processor::Processor;
use crate::records::{FullRecord, PackedFields, Scope, Scopes};
use crate::region_examples;
use crate::rng::Rng;
use crate::steps::registers;
use crate::steps::Effect::{self, Anchor, Nothing, Push, Room, StoreLink, VectorPush};

/// Reports with the answers of the batch programs.
#[derive(Default)]
pub struct Vectors {
    /// Each preceded by its length.
    pub reports: Vec<u8>,
    pub walks: String,
    pub outlines: String,
    pub callers: String,
}

impl Vectors {
    pub fn add(&mut self, report: &[u8], walk: &str, outline: &str, caller: &str) {
        frame(&mut self.reports, report);
        self.walks += &format!("{walk}\n");
        self.outlines += &format!("{outline}\n");
        self.callers += &format!("{caller}\n");
    }
}

const LINK: u32 = 1 << LR;
const IMAGE_BASE: u32 = 0x0040_0000;
const XDATA_RVA: u32 = 0x0010_0000;
const STACK_BASE: u32 = 0x0008_0000;
const STACK_WORDS: u32 = 1_200;
/// No function of any example covers it.
const RETURN_ADDRESS: u32 = 0x00ab_cdef;

pub enum Record {
    Packed(u32),
    Full { bytes: Vec<u8>, handler: u32 },
}

/// A function with its instructions and their sizes as printed.
pub struct Example {
    pub start: u32,
    pub length: u32,
    pub record: Record,
    pub prologue: Vec<(Effect, u32)>,
    pub epilogue: Vec<(Effect, u32)>,
    /// Bytes of the branch at the epilogue's end, 0 if its last instruction returns.
    pub branch: u32,
    pub epilogue_starts: Vec<u32>,
}

fn packed(fields: PackedFields) -> Record {
    Record::Packed(fields.word())
}

/// `push {r4,lr}` and `pop {r4,pc}`.
const PLAIN: PackedFields = PackedFields { reg: 0, r: false, ..PackedFields::CALLING };

fn page_1() -> Example {
    Example {
        start: 0x0005_35f8,
        length: 0x62,
        record: packed(PackedFields { length: 0x62, ret: 1, reg: 1, l: false, ..PLAIN }),
        prologue: vec![(Push(registers(4, 5)), 2)],
        epilogue: vec![(Push(registers(4, 5)), 2)],
        branch: 2,
        epilogue_starts: vec![0x5e],
    }
}

pub fn page_2() -> Example {
    let push = Push(registers(4, 7) | LINK);
    Example {
        start: 0x0005_33ac,
        length: 0x6a,
        record: packed(PackedFields { length: 0x6a, reg: 3, stack_adjust: 3, ..PLAIN }),
        prologue: vec![(push, 2), (Room(3), 2)],
        epilogue: vec![(Room(3), 2), (push, 2)],
        branch: 0,
        epilogue_starts: vec![0x66],
    }
}

pub fn page_3() -> Example {
    Example {
        start: 0x0005_3988,
        length: 0x54,
        record: packed(PackedFields { length: 0x54, h: true, reg: 2, ..PLAIN }),
        prologue: vec![(Room(4), 2), (Push(registers(4, 6) | LINK), 2)],
        epilogue: vec![(Push(registers(4, 6)), 2), (StoreLink(5), 4)],
        branch: 0,
        epilogue_starts: vec![0x4e],
    }
}

pub fn page_4() -> Example {
    let push = Push(registers(4, 10) | LINK);
    let starts = vec![0x22, 0x14a, 0x2e0, 0x312];
    let scopes = starts.iter().map(|start| Scope::always(*start, 0)).collect();
    Example {
        start: 0x0005_92f4,
        length: 0x346,
        record: full(0x346, Scopes::Listed(scopes), &[0x06, 0xde, 0xff, 0x00], 0),
        prologue: vec![(push, 4), (Room(6), 2)],
        epilogue: vec![(Room(6), 2), (push, 4)],
        branch: 0,
        epilogue_starts: starts,
    }
}

pub fn page_5() -> Example {
    let push = Push(registers(4, 8) | LINK);
    let scopes = Scopes::Listed(vec![Scope::always(0x18c, 0)]);
    Example {
        start: 0x0008_5a20,
        length: 0x40e,
        record: full(0x40e, scopes, &[0xc6, 0xdc, 0x04, 0xfd], 0),
        prologue: vec![(Room(4), 2), (push, 4), (Anchor(6), 2)],
        epilogue: vec![(Anchor(6), 2), (push, 4), (Room(4), 2)],
        branch: 2,
        epilogue_starts: vec![0x18c],
    }
}

pub fn page_6() -> Example {
    let push = Push(1 << 4 | 1 << 7 | LINK);
    let codes = [0xc7, 0x05, 0xed, 0x90, 0xff, 0x00, 0x00, 0x00];
    Example {
        start: 0x0008_8c24,
        length: 0x4e,
        record: full(0x4e, Scopes::AtEnd(0), &codes, 0x0019_a7ed),
        prologue: vec![(push, 2), (Room(5), 2), (Anchor(7), 2)],
        epilogue: vec![(Anchor(7), 2), (Room(5), 2), (push, 2)],
        branch: 0,
        epilogue_starts: vec![0x48],
    }
}

pub fn page_7() -> Example {
    Example {
        start: 0x0008_8c72,
        length: 0x16,
        record: packed(PackedFields { length: 0x16, r: true, reg: 7, stack_adjust: 1, ..PLAIN }),
        prologue: vec![(Push(LINK), 2), (Room(1), 2)],
        epilogue: vec![(Room(1), 2), (Push(LINK), 2)],
        branch: 0,
        epilogue_starts: vec![0x12],
    }
}

/// Document 01: packed 0x00910041.
pub fn packed_of_01() -> Example {
    let push = Push(registers(4, 5) | LINK);
    Example {
        start: 0x1000,
        length: 0x20,
        record: Record::Packed(0x0091_0041),
        prologue: vec![(push, 2), (Room(2), 2)],
        epilogue: vec![(Room(2), 2), (push, 2)],
        branch: 0,
        epilogue_starts: vec![0x1c],
    }
}

/// Document 01: header 0x102000A5.
pub fn full_of_01() -> Example {
    let push = Push(registers(4, 9) | LINK);
    let header = 0x1020_00a5_u32.to_le_bytes();
    let bytes = [header, [0xc7, 0xdd, 0x04, 0xfd]].concat();
    Example {
        start: 0x1000,
        length: 0x14a,
        record: Record::Full { bytes, handler: 0 },
        prologue: vec![(Room(4), 2), (push, 4), (Anchor(7), 2)],
        epilogue: vec![(Anchor(7), 2), (push, 4), (Room(4), 2)],
        branch: 2,
        epilogue_starts: vec![0x140],
    }
}

/// Document 01: Stack Adjust 0x3F3 is 4,044 bytes, not folded.
fn adjust_3f3() -> Example {
    let push = Push(1 << 4 | LINK);
    Example {
        start: 0x1000,
        length: 0x40,
        record: packed(PackedFields { length: 0x40, stack_adjust: 0x3f3, ..PLAIN }),
        prologue: vec![(push, 2), (Room(1_011), 4)],
        epilogue: vec![(Room(1_011), 4), (push, 2)],
        branch: 0,
        epilogue_starts: vec![0x3a],
    }
}

/// Document 01: Stack Adjust 0x3F4 is 1 word, folded into the push but not into the pop.
fn adjust_3f4() -> Example {
    Example {
        start: 0x1000,
        length: 0x40,
        record: packed(PackedFields { length: 0x40, stack_adjust: 0x3f4, ..PLAIN }),
        prologue: vec![(Push(1 << 3 | 1 << 4 | LINK), 2)],
        epilogue: vec![(Room(1), 2), (Push(1 << 4 | LINK), 2)],
        branch: 0,
        epilogue_starts: vec![0x3c],
    }
}

/// r11 of the frame chain.
const R11: u32 = 1 << 11;

/// `push.w {r11,lr}`, `mov r11,sp`; `pop.w {r11,pc}`. What the nop stands for is not to be undone.
fn chain_alone() -> Example {
    let push = Push(R11 | LINK);
    Example {
        start: 0x1000,
        length: 0x20,
        record: Record::Packed(0x003f_0041),
        prologue: vec![(push, 4), (Nothing, 2)],
        epilogue: vec![(push, 4)],
        branch: 0,
        epilogue_starts: vec![0x1c],
    }
}

/// `push {r0-r3}`, `push.w {r11,lr}`, `mov r11,sp`, `vpush {d8,d9}`, `sub sp,#8`; `add sp,#8`,
/// `vpop {d8,d9}`, `ldr r11,[sp],#4`, `ldr pc,[sp],#20`.
fn chain_with_vectors() -> Example {
    let vectors = VectorPush(8, 9);
    Example {
        start: 0x1000,
        length: 0x30,
        record: Record::Packed(0x00b9_8061),
        prologue: vec![
            (Room(4), 2),
            (Push(R11 | LINK), 4),
            (Nothing, 2),
            (vectors, 4),
            (Room(2), 2),
        ],
        epilogue: vec![(Room(2), 2), (vectors, 4), (Push(R11), 4), (StoreLink(5), 4)],
        branch: 0,
        epilogue_starts: vec![0x22],
    }
}

/// `push.w {r3,r11,lr}`, `add.w r11,sp,#4`; `add sp,#4`, `pop.w {r11,pc}`.
fn chain_folded() -> Example {
    Example {
        start: 0x1000,
        length: 0x20,
        record: Record::Packed(0xfd3f_0041),
        prologue: vec![(Push(1 << 3 | R11 | LINK), 4), (Nothing, 4)],
        epilogue: vec![(Room(1), 2), (Push(R11 | LINK), 4)],
        branch: 0,
        epilogue_starts: vec![0x1a],
    }
}

fn full(length: u32, scopes: Scopes, codes: &[u8], handler: u32) -> Record {
    let record = FullRecord {
        length,
        version: 0,
        fragment: false,
        scopes,
        codes: codes.to_vec(),
        handler: (handler != 0).then_some(handler),
        extended: false,
        reserved: 0,
    };
    Record::Full { bytes: record.bytes(), handler }
}

/// All examples at every instruction and inside every 32-bit one, in the body and right behind the
/// function; and those of guarded regions.
pub fn vectors() -> Vectors {
    let mut vectors = Vectors::default();
    let examples = [
        page_1(),
        page_2(),
        page_3(),
        page_4(),
        page_5(),
        page_6(),
        page_7(),
        packed_of_01(),
        full_of_01(),
        adjust_3f3(),
        adjust_3f4(),
        chain_alone(),
        chain_with_vectors(),
        chain_folded(),
    ];
    for example in &examples {
        example.stop_in_prologue(&mut vectors);
        example.stop_in_body(&mut vectors);
        example.stop_in_epilogues(&mut vectors);
        example.stop_behind(&mut vectors);
    }
    packed_of_01().lose_last_word(&mut vectors);
    whole_listing(&mut vectors);
    region_examples::add_to(&mut vectors);
    vectors
}

/// What an answer says besides registers.
pub struct Said {
    pub place: &'static str,
    pub handler: u32,
    pub codes: usize,
    /// The registers that are loaded from the stack, r0-r3 among them if a fold pushed them.
    loaded: u32,
}

impl Said {
    pub const LEAF: Said = Said { place: "leaf", handler: 0, codes: 0, loaded: 0 };
}

impl Example {
    fn entry(&self) -> Processor {
        let mut rng = Rng::new(u64::from(self.start), u64::from(self.length));
        let mut processor = Processor::new(&mut rng, STACK_BASE, STACK_WORDS, 0);
        processor.r[LR] = RETURN_ADDRESS;
        processor
    }

    /// A processor in the body, with other values in everything the prologue saved.
    fn in_body(&self) -> Processor {
        let mut rng = Rng::new(u64::from(self.length), 0);
        let mut processor = self.entry();
        let effects: Vec<Effect> = self.prologue.iter().map(|(effect, _)| *effect).collect();
        effects.iter().for_each(|effect| processor.execute(*effect));
        processor.run_body(&mut rng, &effects);
        processor
    }

    /// What is said of a pc at this place, with these instructions to undo.
    pub fn says(&self, place: &'static str, undone: &[(Effect, u32)]) -> Said {
        let loaded = undone.iter().fold(0, |loaded, (effect, _)| match effect {
            Push(list) => loaded | list,
            _ => loaded,
        });
        Said { place, handler: self.handler(), codes: undone.len(), loaded }
    }

    fn handler(&self) -> u32 {
        match &self.record {
            Record::Packed(_) => 0,
            Record::Full { handler, .. } => *handler,
        }
    }

    fn stop_in_prologue(&self, vectors: &mut Vectors) {
        let mut processor = self.entry();
        let mut offset = 0;
        for (done, (effect, size)) in self.prologue.iter().enumerate() {
            self.unwinds(vectors, &processor, offset, "prologue", &self.prologue[..done]);
            if *size == 4 {
                self.refuses(vectors, &processor, offset + 2, 9);
            }
            processor.execute(*effect);
            offset += size;
        }
    }

    fn stop_in_body(&self, vectors: &mut Vectors) {
        let prologue: u32 = self.prologue.iter().map(|(_, size)| size).sum();
        for offset in [prologue, self.epilogue_starts[0] - 2] {
            self.unwinds(vectors, &self.in_body(), offset, "body", &self.prologue);
        }
    }

    fn stop_in_epilogues(&self, vectors: &mut Vectors) {
        for start in &self.epilogue_starts {
            let mut processor = self.in_body();
            let mut offset = *start;
            for (done, (effect, size)) in self.epilogue.iter().enumerate() {
                self.unwinds(vectors, &processor, offset, "epilogue", &self.epilogue[done..]);
                if *size == 4 {
                    self.refuses(vectors, &processor, offset + 2, 9);
                }
                processor.reverse(*effect);
                offset += size;
            }
            if self.branch != 0 {
                self.unwinds(vectors, &processor, offset, "epilogue", &[]);
            }
        }
    }

    /// Behind the function nothing covers the pc: a leaf, which has not touched anything.
    fn stop_behind(&self, vectors: &mut Vectors) {
        self.add(vectors, &self.entry(), self.length, Ok(Said::LEAF));
    }

    /// All words up to the stack's end are needed; one fewer is refused.
    fn lose_last_word(&self, vectors: &mut Vectors) {
        let mut draft = self.report(&self.in_body(), self.epilogue_starts[0]);
        draft.stack.truncate(draft.stack.len() - 4);
        add_refused(vectors, &draft, 8);
    }

    fn unwinds(
        &self,
        vectors: &mut Vectors,
        processor: &Processor,
        offset: u32,
        place: &'static str,
        undone: &[(Effect, u32)],
    ) {
        self.add(vectors, processor, offset, Ok(self.says(place, undone)));
    }

    fn refuses(&self, vectors: &mut Vectors, processor: &Processor, offset: u32, number: u32) {
        self.add(vectors, processor, offset, Err(number));
    }

    fn report(&self, processor: &Processor, offset: u32) -> Draft {
        let mut draft = Draft::empty();
        draft.image_base = IMAGE_BASE;
        let word = match &self.record {
            Record::Packed(word) => *word,
            Record::Full { bytes, .. } => {
                draft.xdata_rva = XDATA_RVA;
                draft.xdata = bytes.clone();
                XDATA_RVA
            }
        };
        draft.pdata = vec![[self.start | 1, word]];
        let (stack_base, stack) = processor.stack(0);
        draft.stack_base = stack_base;
        draft.set_stack(stack);
        draft.r = processor.r;
        draft.d = processor.d;
        draft.r[PC] = IMAGE_BASE + self.start + offset;
        draft
    }

    fn add(
        &self,
        vectors: &mut Vectors,
        processor: &Processor,
        offset: u32,
        answer: Result<Said, u32>,
    ) {
        let draft = self.report(processor, offset);
        match answer {
            Ok(said) => add_unwound(vectors, &draft, &self.entry(), &said),
            Err(number) => add_refused(vectors, &draft, number),
        }
    }
}

/// The answers if the frame unwinds.
fn add_unwound(vectors: &mut Vectors, draft: &Draft, entry: &Processor, said: &Said) {
    let Said { place, codes, .. } = said;
    let frame = format!("frame pc sp place\n0 {:08x} {:08x} {place}\n", draft.r[PC], draft.r[SP]);
    // Behind the records with a handler there is nothing.
    let regions = if said.handler == 0 { "" } else { "  refused 15\n" };
    let last = format!("refused 12 at {:08x} frames 1 codes {codes}\n", RETURN_ADDRESS & !1);
    let (walk, outline) = (format!("{frame}{last}"), format!("{frame}{regions}{last}"));
    vectors.add(&draft.bytes(), &walk, &outline, &caller_text(draft, entry, said));
}

/// What the caller program says if the frame unwinds: the state at entry, which goes on at the return
/// address.
pub fn caller_text(draft: &Draft, entry: &Processor, said: &Said) -> String {
    let Said { place, handler, codes, loaded } = said;
    let (mut r, mut d) = (draft.r, draft.d);
    let found = loaded | registers(4, 11);
    for number in (0..13).filter(|number| found >> number & 1 == 1) {
        r[number] = entry.r[number];
    }
    d[8..16].copy_from_slice(&entry.d[8..16]);
    r[SP] = entry.r[SP];
    r[LR] = entry.r[LR];
    r[PC] = entry.r[LR] & !1;
    let first = format!("caller place {place} handler {handler:08x} codes {codes}\n");
    first + &show_registers(&r, &d)
}

fn add_refused(vectors: &mut Vectors, draft: &Draft, number: u32) {
    let pc = draft.r[PC];
    let walk = format!("frame pc sp place\nrefused {number} at {pc:08x} frames 0 codes 0\n");
    vectors.add(&draft.bytes(), &walk, &walk, &refused_text(draft, number));
}

/// What the caller program says if the frame is refused: the registers as given.
pub fn refused_text(draft: &Draft, number: u32) -> String {
    format!("refused {number}\n") + &show_registers(&draft.r, &draft.d)
}

pub fn show_registers(r: &[u32; 16], d: &[u64; 32]) -> String {
    let names = ["r0", "r1", "r2", "r3", "r4", "r5", "r6", "r7", "r8", "r9", "r10", "r11", "r12"];
    let names = names.iter().chain(&["sp", "lr", "pc"]);
    let mut text: String =
        names.zip(r).map(|(name, value)| format!("{name} {value:08x}\n")).collect();
    for (number, value) in d.iter().enumerate() {
        writeln!(text, "d{number} {value:016x}").expect("a String takes every write");
    }
    text
}

/// The text that document 01 gives for its whole listing.
pub const LISTING: &str = "\
frame pc sp place
0 00401002 00020008 prologue
1 00402010 00020014 body
end frames 2 codes 2
";

/// The report of document 01's whole listing.
pub fn listing_draft() -> Draft {
    let mut draft = Draft::empty();
    draft.image_base = 0x0040_0000;
    draft.pdata = vec![[0x1000, 0x0091_0041], [0x2000, 0x0010_0081]];
    draft.stack_base = 0x0002_0000;
    draft.set_stack(&[0, 0, 0x44, 0x55, 0x0040_2011, 0x66, 0]);
    draft.r[PC] = 0x0040_1002;
    draft.r[SP] = 0x0002_0008;
    draft
}

/// What the caller program says of that report: D5 has been run.
pub fn listing_caller() -> String {
    let mut r = [0; 16];
    (r[4], r[5]) = (0x44, 0x55);
    (r[SP], r[LR], r[PC]) = (0x0002_0014, 0x0040_2011, 0x0040_2010);
    let first = "caller place prologue handler 00000000 codes 1\n".to_string();
    first + &show_registers(&r, &[0; 32])
}

fn whole_listing(vectors: &mut Vectors) {
    vectors.add(&listing_draft().bytes(), LISTING, LISTING, &listing_caller());
}
