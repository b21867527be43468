//! FIT files that were put together by hand, with their answers: codes beside halfwords, as the manual
//! prints them. No checker was asked.

use crate::fit_file::{FitFile, LONGEST};
use crate::framing::frame;
use crate::records::{FullRecord, PackedFields, Scope, Scopes};

/// Codes, the instructions that stand there, and the offset of the first that differs.
type Row = (&'static [u8], &'static [u16], Option<u32>);

const PROLOGUES: &[Row] = &[
    // Document 01's example, in the order of the code and the other way round.
    (&[0x02, 0xd5, 0xff], &[0xb530, 0xb082], None),
    (&[0x02, 0xd5, 0xff], &[0xb082, 0xb530], Some(0)),
    (&[0xc7, 0xdd, 0x04, 0xfd], &[0xb40f, 0xe92d, 0x43f0, 0x466f], None),
    (&[0xc7, 0xdd, 0x04, 0xfd], &[0xb084, 0xe92d, 0x43f0, 0x466e], Some(6)),
    (&[0xff], &[], None),
    // sub sp,#16 and push {r0-r3}, which 04 alone stands for; pop {r0-r3}.
    (&[0x04, 0xff], &[0xb084], None),
    (&[0x04, 0xff], &[0xb40f], None),
    (&[0x04, 0xff], &[0xbc0f], Some(0)),
    (&[0x04, 0xff], &[0xb083], Some(0)),
    (&[0xf7, 0x00, 0x04, 0xff], &[0xb084], None),
    (&[0xf7, 0x00, 0x04, 0xff], &[0xb40f], Some(0)),
    (&[0xf8, 0x00, 0x00, 0x04, 0xff], &[0xb084], None),
    (&[0xf8, 0x00, 0x00, 0x04, 0xff], &[0xb40f], Some(0)),
    (&[0xec, 0x0f, 0xff], &[0xb40f], None),
    // 127 words and 128.
    (&[0x7f, 0xff], &[0xb0ff], None),
    (&[0xf7, 0x00, 0x7f, 0xff], &[0xb0ff], None),
    (&[0xf7, 0x00, 0x80, 0xff], &[0xb080], Some(0)),
    // sub.w, subw, subs.w.
    (&[0xe8, 0x01, 0xff], &[0xf1ad, 0x0d04], None),
    (&[0xe8, 0x01, 0xff], &[0xf2ad, 0x0d04], None),
    (&[0xe8, 0x01, 0xff], &[0xf1bd, 0x0d04], Some(0)),
    (&[0xea, 0x00, 0xff], &[0xf5ad, 0x6d00], None),
    (&[0xea, 0x00, 0xff], &[0xf6ad, 0x0d00], None),
    (&[0xea, 0x00, 0xff], &[0xf5ad, 0x0d00], Some(0)),
    (&[0xeb, 0xff, 0xff], &[0xf6ad, 0x7dfc], None),
    (&[0xf9, 0x04, 0x00, 0xff], &[0xf5ad, 0x5d80], None),
    (&[0xf9, 0x04, 0x01, 0xff], &[0xf5ad, 0x5d80], Some(0)),
    (&[0xf9, 0x04, 0x01, 0xff], &[0xebad, 0x0d04], Some(0)),
    (&[0xfa, 0x01, 0x00, 0x01, 0xff], &[0xf1ad, 0x1d04], None),
    (&[0xfa, 0x40, 0x00, 0x40, 0xff], &[0xf1ad, 0x2d01], None),
    (&[0xe8, 0x00, 0xff], &[0xf1ad, 0x0d00], None),
    (&[0xe8, 0x00, 0xff], &[0xf2ad, 0x0d00], None),
    (&[0xe8, 0x00, 0xff], &[0xf1ad, 0x1d00], Some(0)),
    // push: r4 and lr; sp or pc with them; r12; lr alone; nothing.
    (&[0xa0, 0x10, 0xff], &[0xe92d, 0x4010], None),
    (&[0xa0, 0x10, 0xff], &[0xe92d, 0x6010], Some(0)),
    (&[0xa0, 0x10, 0xff], &[0xe92d, 0xc010], Some(0)),
    (&[0x90, 0x00, 0xff], &[0xf84d, 0xcd04], None),
    (&[0x90, 0x00, 0xff], &[0xe92d, 0x1000], Some(0)),
    (&[0xa0, 0x00, 0xff], &[0xf84d, 0xed04], None),
    (&[0x80, 0x00, 0xff], &[0xe92d, 0x0000], Some(0)),
    (&[0xec, 0x00, 0xff], &[0xb400], Some(0)),
    (&[0xed, 0x00, 0xff], &[0xb500], None),
    (&[0xd5, 0xff], &[0xb530], None),
    (&[0xd5, 0xff], &[0xb520], Some(0)),
    (&[0xd8, 0xff], &[0xe92d, 0x01f0], None),
    (&[0xdf, 0xff], &[0xe92d, 0x4ff0], None),
    // mov r7,sp; add r7,sp,#0; mov r11,sp; mov lr,sp.
    (&[0xc7, 0xff], &[0x466f], None),
    (&[0xc7, 0xff], &[0xaf00], Some(0)),
    (&[0xcb, 0xff], &[0x46eb], None),
    (&[0xce, 0xff], &[0x46ee], None),
    // vpush {d8-d15}; FSTMX; s16-s31; d0-d15; d16-d31.
    (&[0xe7, 0xff], &[0xed2d, 0x8b10], None),
    (&[0xe7, 0xff], &[0xed2d, 0x8b11], Some(0)),
    (&[0xe7, 0xff], &[0xed2d, 0x8a10], Some(0)),
    (&[0xf5, 0x0f, 0xff], &[0xed2d, 0x0b20], None),
    (&[0xf6, 0x0f, 0xff], &[0xed6d, 0x0b20], None),
    // str lr,[sp,#-16]!; of 0 with both signs; str lr,[sp].
    (&[0xef, 0x04, 0xff], &[0xf84d, 0xed10], None),
    (&[0xef, 0x04, 0xff], &[0xf84d, 0xef10], Some(0)),
    (&[0xef, 0x00, 0xff], &[0xf84d, 0xed00], None),
    (&[0xef, 0x00, 0xff], &[0xf84d, 0xef00], None),
    (&[0xef, 0x00, 0xff], &[0xf8cd, 0xe000], Some(0)),
    // Any of 16 bits, any of 32.
    (&[0xfb, 0xff], &[0xbf00], None),
    (&[0xfb, 0xff], &[0xe7ff], None),
    (&[0xfb, 0xff], &[0xe800], Some(0)),
    (&[0xfc, 0xff], &[0xf3af, 0x8000], None),
    (&[0xfc, 0xff], &[0xe800, 0x0000], None),
    (&[0xfc, 0xff], &[0xbf00, 0xbf00], Some(0)),
];

const EPILOGUES: &[Row] = &[
    (&[0x04, 0xff], &[0xb004], None),
    (&[0x04, 0xff], &[0xbc0f], Some(0)),
    (&[0xe8, 0x01, 0xff], &[0xf10d, 0x0d04], None),
    (&[0xe8, 0x01, 0xff], &[0xf20d, 0x0d04], None),
    (&[0xe8, 0x01, 0xff], &[0xf11d, 0x0d04], Some(0)),
    // pop {r4,pc} and pop {r4,lr}, before FF and before bx lr.
    (&[0xa0, 0x10, 0xff], &[0xe8bd, 0x8010], None),
    (&[0xa0, 0x10, 0xff], &[0xe8bd, 0x4010], Some(0)),
    (&[0xa0, 0x10, 0xfd], &[0xe8bd, 0x4010, 0x4770], None),
    (&[0xa0, 0x10, 0xfd], &[0xe8bd, 0x8010, 0x4770], Some(0)),
    (&[0xa0, 0x10, 0x02, 0xff], &[0xe8bd, 0x4010, 0xb002], None),
    (&[0xa0, 0x00, 0xff], &[0xf85d, 0xfb04], None),
    (&[0xa0, 0x00, 0xfd], &[0xf85d, 0xeb04, 0x4770], None),
    // 16 bits can pop pc and not lr.
    (&[0xd4, 0xff], &[0xbd10], None),
    (&[0xd4, 0xff], &[0xbc10], Some(0)),
    (&[0xd0, 0xfd], &[0xbc10, 0x4770], None),
    (&[0xd4, 0xfd], &[0xbd10, 0x4770], Some(0)),
    (&[0xd4, 0x02, 0xff], &[0xbd10, 0xb002], Some(0)),
    (&[0xed, 0x00, 0xff], &[0xbd00], None),
    // mov sp,r7; mov sp,lr, also where LR would be PC.
    (&[0xc7, 0xff], &[0x46bd], None),
    (&[0xce, 0xff], &[0x46f5], None),
    (&[0xce, 0xff], &[0x46fd], Some(0)),
    // ldr pc,[sp],#20 and ldr lr,[sp],#20; of 0 with both signs.
    (&[0xef, 0x05, 0xff], &[0xf85d, 0xfb14], None),
    (&[0xef, 0x05, 0xff], &[0xf85d, 0xeb14], Some(0)),
    (&[0xef, 0x05, 0xfd], &[0xf85d, 0xeb14, 0x4770], None),
    (&[0xef, 0x00, 0xff], &[0xf85d, 0xfb00], None),
    (&[0xef, 0x00, 0xff], &[0xf85d, 0xf900], None),
    // bx lr; mov pc,lr; bx lr with a bit that should be 0.
    (&[0xfd], &[0x4770], None),
    (&[0xfd], &[0x46f7], Some(0)),
    (&[0xfd], &[0x4771], Some(0)),
    // vpop {d8}, then b.w, b<c>.w and bl.
    (&[0xe0, 0xfe], &[0xecbd, 0x8b02, 0xf000, 0xb800], None),
    (&[0xe0, 0xfe], &[0xecbd, 0x8b02, 0xf7ff, 0x97ff], None),
    (&[0xe0, 0xfe], &[0xecbd, 0x8b02, 0xf000, 0x8800], Some(4)),
    (&[0xe0, 0xfe], &[0xecbd, 0x8b02, 0xf000, 0xf800], Some(4)),
];

/// r11 and LR pushed alone, r11 set, nothing else: the word's fields but for the length.
const CHAIN: PackedFields = PackedFields { c: true, ..PackedFields::CALLING };

/// Packed records that set r11, the code of the whole function, and the first difference.
const CHAINS: &[(PackedFields, &[u16], Option<u32>)] = &[
    // push.w {r11,lr}; mov r11,sp; pop.w {r11,pc}.
    (CHAIN, &[0xe92d, 0x4800, 0x46eb, 0xe8bd, 0x8800], None),
    (CHAIN, &[0xe92d, 0x4800, 0x46eb, 0xbf00, 0xe8bd, 0x8800], None),
    // add.w r11,sp,#0 in its place; nops of both sizes.
    (CHAIN, &[0xe92d, 0x4800, 0xf10d, 0x0b00, 0xe8bd, 0x8800], Some(4)),
    (CHAIN, &[0xe92d, 0x4800, 0xbf00, 0xbf00, 0xe8bd, 0x8800], None),
    (CHAIN, &[0xe92d, 0x4800, 0xf3af, 0x8000, 0xe8bd, 0x8800], Some(4)),
    // vpush {d8,d9} behind it.
    (VECTORS, &[0xe92d, 0x4800, 0x46eb, 0xed2d, 0x8b04, 0xecbd, 0x8b04, 0xe8bd, 0x8800], None),
    (
        VECTORS,
        &[0xe92d, 0x4800, 0xf10d, 0x0b00, 0xed2d, 0x8b04, 0xecbd, 0x8b04, 0xe8bd, 0x8800],
        Some(4),
    ),
    // push {r0-r3} before it, and ldr r11,[sp],#4; ldr pc,[sp],#20 at the end.
    (HOME, &[0xb40f, 0xe92d, 0x4800, 0x46eb, 0xf85d, 0xbb04, 0xf85d, 0xfb14], None),
    (HOME, &[0xb40f, 0xe92d, 0x4800, 0xf10d, 0x0b00, 0xf85d, 0xbb04, 0xf85d, 0xfb14], Some(6)),
    // push.w {r3,r11,lr}; add.w r11,sp,#4; then add sp,#4 and pop.w {r11,pc}, or pop.w {r3,r11,pc}.
    (PF, &[0xe92d, 0x4808, 0xf10d, 0x0b04, 0xb001, 0xe8bd, 0x8800], None),
    (PF, &[0xe92d, 0x4808, 0x46eb, 0xbf00, 0xb001, 0xe8bd, 0x8800], Some(4)),
    (BOTH, &[0xe92d, 0x4808, 0xf10d, 0x0b04, 0xe8bd, 0x8808], None),
    // EF alone: sub sp,#4 has the room, and pop.w {r3,r11,pc} gives it back.
    (EF, &[0xe92d, 0x4800, 0x46eb, 0xb081, 0xe8bd, 0x8808], None),
    (EF, &[0xe92d, 0x4800, 0xf10d, 0x0b00, 0xb081, 0xe8bd, 0x8808], Some(4)),
    // push.w {r4,r11,lr}; add.w r11,sp,#4; pop.w {r4,r11,pc}.
    (R4, &[0xe92d, 0x4810, 0xf10d, 0x0b04, 0xe8bd, 0x8810], None),
    (R4, &[0xe92d, 0x4810, 0x46eb, 0xbf00, 0xe8bd, 0x8810], Some(4)),
];

const VECTORS: PackedFields = PackedFields { reg: 1, ..CHAIN };
const HOME: PackedFields = PackedFields { h: true, ..CHAIN };
const PF: PackedFields = PackedFields { stack_adjust: 0x3f4, ..CHAIN };
const EF: PackedFields = PackedFields { stack_adjust: 0x3f8, ..CHAIN };
const BOTH: PackedFields = PackedFields { stack_adjust: 0x3fc, ..CHAIN };
const R4: PackedFields = PackedFields { r: false, reg: 0, ..CHAIN };

fn bytes_of(halves: &[u16]) -> Vec<u8> {
    halves.iter().flat_map(|half| half.to_le_bytes()).collect()
}

fn answer(differs: Option<u32>) -> String {
    match differs {
        Some(offset) => format!("refused 17 at {offset:08x}\n"),
        None => "fits\n".to_string(),
    }
}

/// A function that is nothing but a prologue, or, with F=1, nothing but an epilogue.
fn alone(codes: &[u8], halves: &[u16], epilogue: bool) -> FitFile {
    let code = bytes_of(halves);
    let mut codes = codes.to_vec();
    codes.resize(codes.len().next_multiple_of(4), 0);
    let record = FullRecord {
        length: code.len() as u32,
        version: 0,
        fragment: epilogue,
        scopes: if epilogue { Scopes::AtEnd(0) } else { Scopes::Listed(Vec::new()) },
        codes,
        handler: None,
        extended: false,
        reserved: 0,
    };
    FitFile { word: 0x8000, xdata_rva: 0x8000, xdata: record.bytes(), code }
}

fn packed(word: u32, code: Vec<u8>) -> FitFile {
    FitFile { word, xdata_rva: 0, xdata: Vec::new(), code }
}

/// Document 01's packed record 0x00910041 and its code, with nops for a body.
pub fn fitting_file() -> FitFile {
    let mut halves = [0xbf00; 16];
    (halves[0], halves[1]) = (0xb530, 0xb082);
    (halves[14], halves[15]) = (0xb002, 0xbd30);
    packed(0x0091_0041, bytes_of(&halves))
}

/// The examples with their answers.
pub fn examples() -> Vec<(FitFile, String)> {
    let mut all = Vec::new();
    for (codes, halves, differs) in PROLOGUES {
        all.push((alone(codes, halves, false), answer(*differs)));
    }
    for (codes, halves, differs) in EPILOGUES {
        all.push((alone(codes, halves, true), answer(*differs)));
    }
    all.push((fitting_file(), answer(None)));
    // push {r0-r3}, push {lr}; then ldr pc,[sp],#20.
    let home = PackedFields { h: true, length: 8, ..PackedFields::CALLING };
    all.push((packed(home.word(), bytes_of(&[0xb40f, 0xb500, 0xf85d, 0xfb14])), answer(None)));
    for (fields, halves, differs) in CHAINS {
        let length = 2 * halves.len() as u32;
        let word = PackedFields { length, ..*fields }.word();
        all.push((packed(word, bytes_of(halves)), answer(*differs)));
    }
    // 2 bytes short of push.w, mov and pop.w.
    let cramped = PackedFields { length: 8, ..CHAIN };
    let code = bytes_of(&[0xe92d, 0x4800, 0x46eb, 0xe8bd, 0x8800]);
    all.push((packed(cramped.word(), code), "refused 7\n".to_string()));
    let mut short = fitting_file();
    short.code.pop();
    all.push((short, "refused 18\n".to_string()));
    all.extend(large());
    all
}

/// As many scopes as can be counted.
const MOST: u32 = 65_535;
/// Bytes from one epilogue to the next.
const STEP: u32 = 8;

/// A file as long as may be, or longer.
pub fn longest(over: usize) -> FitFile {
    let mut longest = fitting_file();
    let missing = LONGEST + over - longest.bytes().len();
    longest.code.extend(vec![0; missing]);
    longest
}

/// The longest file, and the longest function with as many epilogues as there can be.
fn large() -> Vec<(FitFile, String)> {
    let record = FullRecord {
        length: 2 * 0x3_ffff,
        version: 0,
        fragment: true,
        scopes: Scopes::Listed((0..MOST).map(|at| Scope::always(STEP * at, 0)).collect()),
        codes: vec![0xfd, 0, 0, 0],
        handler: None,
        extended: true,
        reserved: 0,
    };
    let code = bytes_of(&vec![0x4770; 0x3_ffff]);
    let many = FitFile { word: 0x8000, xdata_rva: 0x8000, xdata: record.bytes(), code };
    let last = STEP * (MOST - 1);
    let mut wrong = many.clone();
    wrong.code[last as usize] ^= 1;
    vec![
        (longest(0), answer(None)),
        (longest(1), "refused 14\n".to_string()),
        (many, answer(None)),
        (wrong, answer(Some(last))),
    ]
}

/// The examples as the batch program takes them, and what it answers.
pub fn vectors() -> (Vec<u8>, String) {
    let mut files = Vec::new();
    let mut answers = String::new();
    for (file, answer) in examples() {
        frame(&mut files, &file.bytes());
        answers += &format!("{answer}\n");
    }
    (files, answers)
}
