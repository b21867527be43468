//! The FIT files of `samples/`: two functions as a compiler wrote them, with its records, one whose
//! record lacks a push, and one with a packed record in the place of the compiler's. The answers were
//! found by reading.

use crate::fit_file::FitFile;

pub struct FitSample {
    pub name: &'static str,
    pub file: FitFile,
    pub answer: &'static str,
}

/// clang 16, `--target=thumbv7-windows-msvc -O1`, of
/// `double mean(const double *v, int n, double (*f)(double))`, linked: `push.w {r4-r7,r11,lr}`,
/// `add.w r11,sp,#16`, `vpush {d8-d11}`; at the end `vpop {d8-d11}`, `pop.w {r4-r7,r11,pc}`.
const MEAN: [u16; 59] = [
    0xe92d, 0x48f0, 0xf10d, 0x0b10, 0xed2d, 0x8b08, 0x460c, 0x2901, 0xdb1d, 0x4615, 0x4606, 0xef80,
    0x8010, 0xeeb7, 0xbb00, 0xeeb0, 0xab00, 0x4627, 0xed96, 0x0b00, 0x47a8, 0xef20, 0x9110, 0xecb6,
    0x0b02, 0xf000, 0xf8e3, 0xee2b, 0xbb00, 0xee38, 0x8b09, 0xeeb0, 0x0b48, 0x47a8, 0xee00, 0xab4b,
    0x3f01, 0xd1eb, 0xe005, 0xef80, 0x8010, 0xeeb0, 0xab00, 0xeeb7, 0xbb00, 0xee00, 0x4a10, 0xeef8,
    0x0bc0, 0xeec8, 0x0b20, 0xee70, 0x0b8b, 0xee30, 0x0b8a, 0xecbd, 0x8b08, 0xe8bd, 0x88f0,
];

/// The same compiler, of a function with 9,000 bytes of locals: `push.w {r4-r7,r11,lr}`, `add.w
/// r11,sp,#16`, `movw r4,#2250`, `bl __chkstk`, `sub.w sp,sp,r4`; at the end `add.w sp,sp,#8960`,
/// `add sp,#40`, `pop.w {r4-r7,r11,pc}`.
const PROBING: [u16; 28] = [
    0xe92d, 0x48f0, 0xf10d, 0x0b10, 0xf640, 0x04ca, 0xf000, 0xf8a6, 0xebad, 0x0d04, 0x4604, 0x466d,
    0x4628, 0xf000, 0xf89e, 0x4620, 0x2100, 0x2200, 0xf000, 0xf897, 0x4628, 0xf000, 0xf896, 0xf50d,
    0x5d0c, 0xb00a, 0xe8bd, 0x88f0,
];

/// The same compiler, not linked, of a function that saves nothing but what the frame chain needs:
/// `push.w {r11,lr}`, `mov r11,sp`, `sub sp,#8`; at the end `add sp,#8`, `pop.w {r11,pc}`.
const CHAINING: [u16; 14] = [
    0xe92d, 0x4800, 0x46eb, 0xb082, 0x9001, 0x9100, 0x9801, 0xf000, 0xf800, 0x9900, 0x4408, 0xb002,
    0xe8bd, 0x8800,
];

/// R=1, Reg=7, L=1, C=1, Stack Adjust 2, 28 bytes long.
fn chaining() -> FitFile {
    let code = CHAINING.iter().flat_map(|half| half.to_le_bytes()).collect();
    FitFile { word: 0x00bf_0039, xdata_rva: 0, xdata: Vec::new(), code }
}

/// A full record of one head word.
fn file(rva: u32, head: u32, codes: &[u8], halves: &[u16]) -> FitFile {
    let mut xdata = head.to_le_bytes().to_vec();
    xdata.extend(codes);
    let code = halves.iter().flat_map(|half| half.to_le_bytes()).collect();
    FitFile { word: rva, xdata_rva: rva, xdata, code }
}

pub fn samples() -> Vec<FitSample> {
    let mean = [0xe3, 0xfc, 0xa8, 0xf0, 0xff, 0xe3, 0xa8, 0xf0, 0xff, 0xfb, 0xfb, 0xfb];
    // Without the code of the push the nop stands at offset 0, and vpush where `add.w` is.
    let forgotten = [0xe3, 0xfc, 0xff, 0xe3, 0xa8, 0xf0, 0xff, 0xfb];
    let probing = [
        0xf9, 0x08, 0xca, 0xfc, 0xfc, 0xfc, 0xa8, 0xf0, 0xff, 0xf9, 0x08, 0xc0, 0x0a, 0xa8, 0xf0,
        0xff,
    ];
    vec![
        FitSample {
            name: "compiled-function",
            file: file(0x20d8, 0x32a0_003b, &mean, &MEAN),
            answer: "fits\n",
        },
        FitSample {
            name: "forgotten-push",
            file: file(0x20d8, 0x21a0_003b, &forgotten, &MEAN),
            answer: "refused 17 at 00000004\n",
        },
        FitSample {
            name: "stack-probe",
            file: file(0x20e8, 0x44a0_001c, &probing, &PROBING),
            answer: "refused 17 at 00000010\n",
        },
        FitSample { name: "frame-chain-packed", file: chaining(), answer: "fits\n" },
    ]
}
