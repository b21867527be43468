//! The reports of `samples/`: threads stopped in a small module of functions that are taken from
//! document 01 and from Microsoft's page, and what a person at the bench may meet in such reports.
//! Every answer is known before an unwinder is asked: by execution, or by the damage done.

use crate::draft::{Draft, LR, PC, SP};
use crate::examples::{
    full_of_01, listing_caller, listing_draft, packed_of_01, page_2, page_3, page_4, page_5,
    page_6, page_7, refused_text, Example, Record, LISTING,
};
use crate::steps::Effect::{Nothing, Push, Room, VectorPush};
use crate::tables::{table_bytes, Region};
use crate::thread::{Stopped, Thread};

pub struct Sample {
    pub name: &'static str,
    pub report: Vec<u8>,
    pub listing: String,
    /// Where the registers are worth seeing.
    pub caller: Option<String>,
    /// Where there are guarded regions.
    pub outline: Option<String>,
}

impl Sample {
    fn new(name: &'static str, draft: &Draft, listing: String) -> Sample {
        Sample { name, report: draft.bytes(), listing, caller: None, outline: None }
    }

    /// A thread whose frames are all found.
    fn ends(name: &'static str, stopped: &Stopped) -> Sample {
        Sample::new(name, &stopped.draft, stopped.listing(stopped.frames.len(), "end"))
    }

    /// A thread of which this many frames are found, and the next is refused.
    fn refused(name: &'static str, stopped: &Stopped, number: u32, found: usize) -> Sample {
        let stop = format!("refused {number} at {:08x}", stopped.frames[found].pc);
        Sample::new(name, &stopped.draft, stopped.listing(found, &stop))
    }

    fn with_caller(mut self, caller: String) -> Sample {
        self.caller = Some(caller);
        self
    }

    /// With these lines under that of the first frame.
    fn with_regions(mut self, regions: &str) -> Sample {
        let lines: Vec<&str> = self.listing.split_inclusive('\n').collect();
        let (frame, rest) = lines.split_at(2);
        self.outline = Some([frame.concat(), regions.to_string(), rest.concat()].concat());
        self
    }
}

const LINK: u32 = 1 << LR;

/// Document 01's second function: `push {r4,lr}`, 64 bytes long.
fn plain() -> Example {
    let push = Push(1 << 4 | LINK);
    Example {
        start: 0x2000,
        length: 0x40,
        record: Record::Packed(0x0010_0081),
        prologue: vec![(push, 2)],
        epilogue: vec![(push, 2)],
        branch: 0,
        epilogue_starts: vec![0x3e],
    }
}

fn framed() -> Example {
    Example { start: 0x3000, ..full_of_01() }
}

/// `push {lr}`, `vpush {d8-d10}`, `sub sp,#8`: R=1, Reg=2, L=1, Stack Adjust 2, 48 bytes long.
fn floating() -> Example {
    Example {
        start: 0x4000,
        length: 0x30,
        record: Record::Packed(0x009a_0061),
        prologue: vec![(Push(LINK), 2), (VectorPush(8, 10), 4), (Room(2), 2)],
        epilogue: vec![(Room(2), 2), (VectorPush(8, 10), 4), (Push(LINK), 2)],
        branch: 0,
        epilogue_starts: vec![0x28],
    }
}

/// `push.w {r11,lr}`, `mov r11,sp`, `sub sp,#8`: R=1, Reg=7, L=1, C=1, Stack Adjust 2, 32 bytes long.
fn chaining() -> Example {
    let push = Push(1 << 11 | LINK);
    Example {
        start: 0x5000,
        length: 0x20,
        record: Record::Packed(0x00bf_0041),
        prologue: vec![(push, 4), (Nothing, 2), (Room(2), 2)],
        epilogue: vec![(Room(2), 2), (push, 4)],
        branch: 0,
        epilogue_starts: vec![0x1a],
    }
}

/// A part of the page's example 4 that stands elsewhere, 64 bytes long: F=1, E=1, the same codes. Its
/// prologue is that of the whole function, which has been executed when the part is reached.
fn elsewhere() -> Example {
    let bytes = [0x1060_0020_u32.to_le_bytes(), [0x06, 0xde, 0xff, 0x00]].concat();
    Example {
        start: 0x6000,
        length: 0x40,
        record: Record::Full { bytes, handler: 0 },
        epilogue_starts: vec![0x3a],
        ..page_4()
    }
}

fn module() -> [Example; 11] {
    [
        packed_of_01(),
        plain(),
        framed(),
        floating(),
        elsewhere(),
        page_2(),
        page_3(),
        page_4(),
        page_5(),
        page_6(),
        page_7(),
    ]
}

/// The outermost function returns to 0.
fn begin() -> Thread {
    Thread::returning_to(0).calls_from(&plain(), 0x10)
}

pub fn samples() -> Vec<Sample> {
    let mut samples = unwound();
    samples.extend(damaged());
    samples.extend([
        fault_in_a_prologue(),
        frame_chain(),
        pc_outside(),
        caller_outside(),
        too_deep(),
        not_a_report(),
        nested_regions(),
        crossing_regions(),
    ]);
    samples
}

/// Threads whose frames are all found.
fn unwound() -> Vec<Sample> {
    let module = module();
    let epilogue = begin().calls_from(&page_2(), 0x20).stops_in_epilogue(&framed(), 1);
    let epilogue = epilogue.within(&module);
    let leaf = begin().calls_from(&page_7(), 0x0c).stops_in_leaf(0x1800).within(&module);
    let packed = begin().calls_from(&page_3(), 0x18).stops_in_body(&page_2(), 0x30).within(&module);
    let handled = begin().stops_in_body(&page_6(), 0x20).within(&module);
    let fragment = begin().stops_in_body(&elsewhere(), 0).within(&module);
    let dynamic = begin().stops_lower(&page_5(), 0x100, 16).within(&module);
    let vectors = begin().stops_in_epilogue(&floating(), 1).within(&module);
    vec![
        Sample::ends("fault-inside-an-epilogue", &epilogue).with_caller(epilogue.caller.clone()),
        Sample::ends("fault-in-a-leaf", &leaf).with_caller(leaf.caller.clone()),
        Sample::ends("body-of-packed", &packed),
        Sample::ends("full-record-with-handler", &handled).with_caller(handled.caller.clone()),
        Sample::ends("fragment", &fragment),
        Sample::ends("dynamic-stack", &dynamic),
        Sample::ends("d-registers", &vectors).with_caller(vectors.caller.clone()),
    ]
}

/// One thread, in reports that lost something.
fn damaged() -> Vec<Sample> {
    let thread = || {
        let thread = begin().calls_from(&page_5(), 0x40).calls_from(&page_2(), 0x20);
        thread.stops_in_body(&framed(), 0x80).within(&module())
    };
    let mut tables = thread();
    tables.draft.pdata[4][0] = 0;
    let mut records = thread();
    // The first words of the page's example 5 are there, its codes are not.
    let kept: usize = [framed(), elsewhere(), page_4()].iter().map(record_bytes).sum();
    records.draft.xdata.truncate(kept + 8);
    let mut stack = thread();
    // Example 2 has saved r4-r7 and LR above 12 bytes of its own; LR is no longer there.
    let end = stack.frames[1].sp + 12 + 4 * 4;
    stack.draft.stack.truncate((end - stack.draft.stack_base) as usize);
    vec![
        Sample::refused("damaged-pdata", &tables, 3, 0).with_caller(refused_text(&tables.draft, 3)),
        Sample::refused("missing-xdata", &records, 5, 2),
        Sample::refused("stack-too-short", &stack, 8, 1),
    ]
}

fn record_bytes(function: &Example) -> usize {
    match &function.record {
        Record::Packed(_) => 0,
        Record::Full { bytes, .. } => bytes.len(),
    }
}

/// Document 01's whole listing.
fn fault_in_a_prologue() -> Sample {
    Sample::new("fault-in-a-prologue", &listing_draft(), LISTING.to_string())
        .with_caller(listing_caller())
}

/// Stopped behind `mov r11,sp`, which has 16 bits since nothing else is pushed.
fn frame_chain() -> Sample {
    let thread = begin().calls_from(&page_2(), 0x20);
    let mut stopped =
        thread.stops_in_prologue(&chaining(), 2).within(&[plain(), chaining(), page_2()]);
    stopped.draft.r[11] = stopped.draft.r[SP];
    Sample::ends("frame-chain", &stopped).with_caller(stopped.caller.clone())
}

/// A call through a pointer that is 0.
fn pc_outside() -> Sample {
    let mut stopped = begin().stops_in_leaf(0).within(&module());
    stopped.draft.r[PC] = 0;
    stopped.frames[0].pc = 0;
    Sample::refused("pc-outside", &stopped, 2, 0)
}

/// A thread that began in another module, whose tables are not in the report.
fn caller_outside() -> Sample {
    let thread = Thread::returning_to(0x7700_1235).calls_from(&plain(), 0x10);
    let stopped = thread.stops_in_body(&page_2(), 0x30).within(&module());
    let listing = stopped.listing(2, "refused 12 at 77001234");
    Sample::new("caller-outside", &stopped.draft, listing)
}

/// A function that calls itself without end.
fn too_deep() -> Sample {
    let thread = (0..300).fold(begin(), |thread, _| thread.calls_from(&plain(), 0x20));
    let stopped = thread.stops_in_leaf(0x1800).within(&module());
    Sample::new("too-deep", &stopped.draft, stopped.listing(256, "full"))
}

fn not_a_report() -> Sample {
    Sample {
        name: "not-a-report",
        report: b"This file is a text and no report.\n".to_vec(),
        listing: "refused 14\n".to_string(),
        caller: Some("refused 14\n".to_string()),
        outline: None,
    }
}

/// The page's example 6 with these regions.
fn guarded(regions: &[Region]) -> Example {
    let example = page_6();
    let Record::Full { bytes, handler } = example.record else {
        unreachable!("example 6 has a full record");
    };
    let bytes = [bytes, table_bytes(regions.len() as u32, regions)].concat();
    Example { start: 0x7000, record: Record::Full { bytes, handler }, ..example }
}

/// A `__finally` around two filters, and a handler behind it. The table has the inner ones first.
pub fn nested_regions() -> Sample {
    let function = guarded(&[
        [0x7018, 0x7028, 0x0019_b041, 0x7028],
        [0x702c, 0x7034, 0x0019_b061, 0x7034],
        [0x7010, 0x7038, 0x0019_b081, 0],
        [0x703a, 0x7044, 1, 0x7044],
    ]);
    let stopped = begin().stops_in_body(&function, 0x20).within(&[plain(), function]);
    Sample::ends("nested-regions", &stopped).with_regions(NESTED)
}

const NESTED: &str = "  * 00007010 00007038 0019b081 00000000
    * 00007018 00007028 0019b041 00007028
    - 0000702c 00007034 0019b061 00007034
  - 0000703a 00007044 00000001 00007044
";

/// A region that ends behind the one it begins in.
fn crossing_regions() -> Sample {
    let function =
        guarded(&[[0x7018, 0x703a, 0x0019_b041, 0x703a], [0x7010, 0x7038, 0x0019_b081, 0]]);
    let stopped = begin().stops_in_body(&function, 0x20).within(&[plain(), function]);
    Sample::ends("crossing-regions", &stopped).with_regions("  refused 16\n")
}
