//! The inputs that `bench/run` times. `inputs DIR REAL [NAME..]` writes each, or those named, into a file of its own, as `walk_many` takes
//! them: reports, each after its length. `real` and `real-eighth` are made of the file REAL. The others have one report each, whose walk
//! ends by itself in a caller's pc of 0; the same are made every time.

use std::{env, fs, io, path::Path};

const SEED: u64 = 1;
const IMAGE: u32 = 0x0040_0000;
const XDATA: u32 = 0x0020_0000;
const STACK: u32 = 0x0500_0000;

const FRAMES: [usize; 5] = [1, 4, 16, 64, 256];
/// The last is all that a report has room for.
const RECORDS: [u32; 5] = [1, 16, 128, 1_024, 8_140];
const SCOPES: [u32; 5] = [1, 16, 256, 4_096, 16_280];

/// SplitMix64.
struct Rng(u64);

impl Rng {
    fn next(&mut self) -> u64 {
        self.0 = self.0.wrapping_add(0x9e37_79b9_7f4a_7c15);
        let z = (self.0 ^ self.0 >> 30).wrapping_mul(0xbf58_476d_1ce4_e5b9);
        let z = (z ^ z >> 27).wrapping_mul(0x94d0_49bb_1331_11eb);
        z ^ z >> 31
    }

    fn below(&mut self, bound: u32) -> u32 {
        (self.next() % u64::from(bound)) as u32
    }
}

/// A function: its start, an offset in its body, and the words that it keeps on the stack below its return address.
struct Function {
    start: u32,
    body: u32,
    words: u32,
}

struct Module {
    functions: Vec<Function>,
    pdata: Vec<u32>,
    xdata: Vec<u8>,
}

impl Module {
    fn new() -> Module {
        Module { functions: Vec::new(), pdata: Vec::new(), xdata: Vec::new() }
    }

    /// Adds a function of 256 bytes with its .pdata record.
    fn add(&mut self, record: u32, words: u32) {
        let start = 0x1000 + 256 * self.functions.len() as u32;
        self.functions.push(Function { start, body: 0x80, words });
        self.pdata.extend([start, record]);
    }

    /// push {r4-rN, lr} with r11 among them if c, sub sp.
    fn add_packed(&mut self, reg: u32, c: u32, adjust: u32) {
        let word = 1 | 128 << 2 | reg << 16 | 1 << 20 | c << 21 | adjust << 22;
        self.add(word, adjust + reg + 1 + c);
    }

    /// push {r4-rN, lr}, vpush {d8-d9}, sub sp; two epilogues.
    fn add_full(&mut self, reg: u32, adjust: u32) {
        let codes = [adjust as u8, 0xe1, 0xd4 | reg as u8, 0xff];
        let scopes = [0xa0, 0xf0].map(|start| start / 2 | 14 << 20);
        let at = XDATA + self.xdata.len() as u32;
        put(&mut self.xdata, &[128 | 2 << 23 | 1 << 28]);
        put(&mut self.xdata, &scopes);
        self.xdata.extend(codes);
        self.add(at, adjust + 4 + reg + 1);
    }

    /// A report of a chain of calls, innermost first: each function's words, then the return address into the next.
    fn report(&self, rng: &mut Rng, chain: &[usize]) -> Vec<u8> {
        let pc = |number: usize| {
            let function = &self.functions[number];
            IMAGE + function.start + function.body
        };
        let mut stack = Vec::new();
        for (at, number) in chain.iter().enumerate() {
            stack.extend((0..self.functions[*number].words).map(|_| rng.next() as u32));
            stack.push(chain.get(at + 1).map_or(0, |caller| pc(*caller) | 1));
        }
        let mut registers = [0; 16];
        registers[13] = STACK;
        registers[15] = pc(chain[0]);
        let sizes = [self.pdata.len() / 2, self.xdata.len(), 4 * stack.len()].map(|size| size as u32);
        let mut out = b"WLK\x01\x00\x00\x00\x00".to_vec();
        put(&mut out, &[IMAGE, sizes[0], XDATA, sizes[1], STACK, sizes[2]]);
        put(&mut out, &registers);
        out.resize(out.len() + 8 * 32, 0);
        put(&mut out, &self.pdata);
        out.extend(&self.xdata);
        put(&mut out, &stack);
        assert!(out.len() <= 65_536, "a report of {} bytes", out.len());
        out
    }
}

fn put(out: &mut Vec<u8>, words: &[u32]) {
    words.iter().for_each(|word| out.extend(word.to_le_bytes()));
}

/// 64 functions, three quarters of them packed.
fn mixed(rng: &mut Rng) -> Module {
    let mut module = Module::new();
    for _ in 0..64 {
        let adjust = 1 + rng.below(8);
        match rng.below(4) {
            0 | 1 => module.add_packed(rng.below(8), 0, adjust),
            2 => module.add_packed(rng.below(7), 1, adjust),
            _ => module.add_full(rng.below(4), adjust),
        }
    }
    module
}

/// A function with so many epilogues of these codes, one every 32 bytes after its first 64; their indices take turns below a bound.
fn with_scopes(count: u32, codes: &[u8], indices: u32, words: u32) -> Module {
    let mut module = Module::new();
    let span = 64 + 32 * count;
    put(&mut module.xdata, &[span / 2, count | (codes.len() as u32 / 4) << 16]);
    let scopes: Vec<u32> = (2..count + 2).map(|number| number * 16 | 14 << 20 | (number % indices) << 24).collect();
    put(&mut module.xdata, &scopes);
    module.xdata.extend(codes);
    module.functions.push(Function { start: 0x1000, body: 62, words });
    module.pdata.extend([0x1000, XDATA]);
    module
}

/// Two functions that push LR, with 64 guarded regions each: in one they are nested, the innermost first, as compilers write them; in the
/// other they stand side by side.
fn with_regions() -> Module {
    let mut module = Module::new();
    for nested in [true, false] {
        let at = XDATA + module.xdata.len() as u32;
        module.add(at, 0);
        let start = module.functions[module.functions.len() - 1].start;
        // 256 bytes, X=1, E=1, one word of codes; the handler; the count.
        put(&mut module.xdata, &[128 | 1 << 20 | 1 << 21 | 1 << 28]);
        module.xdata.extend([0xed, 0, 0xff, 0]);
        put(&mut module.xdata, &[0x0030_0001, 64]);
        for number in 0..64 {
            let (begin, end) = if nested { (63 - number, 193 + number) } else { (4 * number, 4 * number + 4) };
            put(&mut module.xdata, &[start + begin, start + end, 0x0030_0101, start + end]);
        }
    }
    module
}

/// Every eighth of the reports that follow one another, from the first.
fn every_eighth(reports: &[u8]) -> Vec<u8> {
    let (mut kept, mut number, mut at) = (Vec::new(), 0, 0);
    while at < reports.len() {
        let length = u32::from_le_bytes(reports[at..at + 4].try_into().expect("4 bytes"));
        let end = at + 4 + length as usize;
        if number % 8 == 0 {
            kept.extend(&reports[at..end]);
        }
        (number, at) = (number + 1, end);
    }
    kept
}

fn main() -> io::Result<()> {
    let arguments: Vec<String> = env::args().skip(1).collect();
    let [folder, real, names @ ..] = arguments.as_slice() else { panic!("usage: inputs DIR REAL [NAME..]") };
    let save = |name: String, reports: Vec<u8>| {
        if !names.is_empty() && !names.contains(&name) {
            return Ok(());
        }
        fs::write(Path::new(folder).join(name + ".bin"), reports)
    };
    let write = |name: String, report: Vec<u8>| save(name, [(report.len() as u32).to_le_bytes().to_vec(), report].concat());
    let real = fs::read(real)?;
    save("real-eighth".to_string(), every_eighth(&real))?;
    save("real".to_string(), real)?;
    // The walk over one chain, cut after so many frames; the words above stay.
    let rng = &mut Rng(SEED);
    let module = mixed(rng);
    let chain: Vec<usize> = (0..256).map(|_| rng.below(64) as usize).collect();
    let deep = module.report(rng, &chain);
    let stack = deep.len() - chain.iter().map(|number| 4 * (module.functions[*number].words + 1) as usize).sum::<usize>();
    for frames in FRAMES {
        let words: u32 = chain[..frames].iter().map(|number| module.functions[*number].words + 1).sum();
        let end = stack + 4 * words as usize;
        let mut report = deep.clone();
        report[end - 4..end].fill(0);
        write(format!("frames-{frames}"), report)?;
    }
    // Eight frames among so many packed records.
    for records in RECORDS {
        let mut module = Module::new();
        (0..records).for_each(|_| module.add_packed(0, 0, 0));
        let chain: Vec<usize> = (0..8).map(|_| rng.below(records) as usize).collect();
        write(format!("records-{records}"), module.report(rng, &chain))?;
    }
    // As many frames as there may be, in turn of a function with nested regions and of one with as many side by side.
    let chain: Vec<usize> = (0..256).map(|number| number % 2).collect();
    write("regions-64".to_string(), with_regions().report(rng, &chain))?;
    // One frame in the body of a function with so many epilogues: add sp, pop {r4, lr}.
    for scopes in SCOPES {
        write(format!("scopes-{scopes}"), with_scopes(scopes, &[2, 0xd4, 0xff, 0], 1, 3).report(rng, &[0]))?;
    }
    // About as much work as a report that is not refused can ask for: 256 frames, each in a function as long as can be, filled with
    // epilogues of two lists in turn.
    let codes = [[0xfb; 15].as_slice(), &[0xed, 0, 0xff, 0, 0]].concat();
    write("heaviest".to_string(), with_scopes(16_000, &codes, 2, 0).report(rng, &[0; 256]))
}
