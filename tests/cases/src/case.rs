//! A generated report, and what is known of its answer without asking an unwinder.

#[derive(Clone, Debug)]
pub struct Case {
    /// Which kind of report it is, for the histogram.
    pub kind: &'static str,
    pub report: Vec<u8>,
    pub known: Known,
    /// What it aims at within its kind, for the histogram.
    pub aims: Vec<String>,
}

#[derive(Clone, Debug)]
pub enum Known {
    Nothing,
    /// The first frame is refused with this number.
    FirstRefused(u32),
    /// The first frame has no covering record and unwinds as a leaf.
    FirstLeaf,
    /// The first frame unwinds and the second is refused with this number.
    SecondRefused(u32),
    /// The walk stops after this many frames, with "end" or "full".
    Stops {
        frames: usize,
        full: bool,
    },
    Chain(Box<Chain>),
    /// The whole text of the outline.
    Outline(String),
}

/// What a processor did on its way to the reported pc.
#[derive(Clone, Debug)]
pub struct Chain {
    /// pc and SP of each frame, the innermost first.
    pub frames: Vec<(u32, u32)>,
    /// Where the innermost stopped, and how many instructions bring its caller back.
    pub place: &'static str,
    pub codes: usize,
    pub sp: u32,
    pub pc: u32,
    /// r4-r11.
    pub r: [u32; 8],
    /// d8-d15.
    pub d: [u64; 8],
}

impl Case {
    pub fn open(kind: &'static str, report: Vec<u8>) -> Case {
        Case::new(kind, report, Known::Nothing)
    }

    pub fn new(kind: &'static str, report: Vec<u8>, known: Known) -> Case {
        Case { kind, report, known, aims: Vec::new() }
    }
}
