//! Thumb instructions, written from the bit pictures of the ARM Architecture Reference Manual. Fields
//! that this project's instructions leave fixed are letters too, so that their neighbours can be written.

/// The halfwords of one instruction, or of what stands in its place.
pub type Halfwords = Vec<u16>;

/// Writes fields into a picture. The places of a letter take the bits of its field, the highest first,
/// however far apart they are.
fn write(picture: &str, fields: &[(char, u32)]) -> Halfwords {
    let mut symbols: Vec<char> = picture.chars().filter(|symbol| *symbol != ' ').collect();
    for (letter, value) in fields {
        let mut left = *value;
        for symbol in symbols.iter_mut().rev().filter(|symbol| *symbol == letter) {
            *symbol = if left & 1 == 1 { '1' } else { '0' };
            left >>= 1;
        }
        assert_eq!(left, 0, "{letter} = {value:#x} in {picture}");
    }
    let bit = |bits: u16, symbol: &char| match symbol {
        '0' => bits << 1,
        '1' => bits << 1 | 1,
        letter => panic!("no field {letter} for {picture}"),
    };
    symbols.chunks(16).map(|half| half.iter().fold(0, bit)).collect()
}

/// Which way an instruction goes: as in a prologue or as in an epilogue.
#[derive(Clone, Copy, Debug, PartialEq, Eq)]
pub enum Way {
    Down,
    Up,
}

impl Way {
    pub fn other(self) -> Way {
        match self {
            Way::Down => Way::Up,
            Way::Up => Way::Down,
        }
    }

    fn up(self) -> u32 {
        u32::from(self == Way::Up)
    }
}

/// `sub sp,#4n` T1 or `add sp,#4n` T2.
pub fn amount(way: Way, words: u32) -> Halfwords {
    write("10110000 s iiiiiii", &[('s', 1 - way.up()), ('i', words)])
}

/// The operands of a 32-bit `sub` or `add`: Rd, Rn, and twelve bits that the form reads its own way.
#[derive(Clone, Copy, Debug)]
pub struct Operands {
    pub d: u32,
    pub n: u32,
    pub immediate: u32,
}

impl Operands {
    pub fn of_sp(immediate: u32) -> Operands {
        Operands { d: 13, n: 13, immediate }
    }

    fn fields(&self) -> [(char, u32); 3] {
        [('d', self.d), ('n', self.n), ('i', self.immediate)]
    }
}

/// `sub.w` T2 or `add.w` T3, whose constant is a modified one. `flags` is the S bit.
pub fn modified(way: Way, operands: Operands, flags: bool) -> Halfwords {
    let picture = match way {
        Way::Down => "11110 i 0 1101 s nnnn 0 iii dddd iiiiiiii",
        Way::Up => "11110 i 0 1000 s nnnn 0 iii dddd iiiiiiii",
    };
    write(picture, &[operands.fields().as_slice(), &[('s', u32::from(flags))]].concat())
}

/// `subw` T3 or `addw` T4, whose constant is the twelve bits.
pub fn plain(way: Way, operands: Operands) -> Halfwords {
    let picture = match way {
        Way::Down => "11110 i 1 0101 0 nnnn 0 iii dddd iiiiiiii",
        Way::Up => "11110 i 1 0000 0 nnnn 0 iii dddd iiiiiiii",
    };
    write(picture, &operands.fields())
}

/// What ThumbExpandImm makes of twelve bits, unless the manual calls it UNPREDICTABLE.
pub fn expand(immediate: u32) -> Option<u32> {
    let byte = immediate & 0xff;
    match (immediate >> 8, byte) {
        (0, _) => Some(byte),
        (1..=3, 0) => None,
        (1, _) => Some(byte << 16 | byte),
        (2, _) => Some(byte << 24 | byte << 8),
        (3, _) => Some(byte << 24 | byte << 16 | byte << 8 | byte),
        _ => Some((0x80 | immediate & 0x7f).rotate_right(immediate >> 7)),
    }
}

/// `sub.w sp,sp,rM` or `add.w sp,sp,rM`.
pub fn by_register(way: Way, m: u32) -> Halfwords {
    let picture = match way {
        Way::Down => "11101011101 0 1101 0000 1101 0000 mmmm",
        Way::Up => "11101011000 0 1101 0000 1101 0000 mmmm",
    };
    write(picture, &[('m', m)])
}

/// `add rD,sp,#4n` T1.
pub fn address(d: u32, words: u32) -> Halfwords {
    write("10101 ddd iiiiiiii", &[('d', d), ('i', words)])
}

/// `push` or `pop` T1; `more` is bit 8, for LR or PC.
pub fn narrow_list(way: Way, low: u32, more: bool) -> Halfwords {
    write("1011 l 10 m rrrrrrrr", &[('l', way.up()), ('m', u32::from(more)), ('r', low)])
}

/// STMDB and LDMIA, which are `push` and `pop` T2 if `n` is SP and it is written back.
#[derive(Clone, Copy, Debug)]
pub struct Multiple {
    pub way: Way,
    /// The way that the addresses go.
    pub addresses: Way,
    pub n: u32,
    pub back: bool,
    pub list: u32,
}

impl Multiple {
    pub fn of_sp(way: Way, list: u32) -> Multiple {
        Multiple { way, addresses: way, n: 13, back: true, list }
    }

    pub fn write(&self) -> Halfwords {
        let order = 2 - self.addresses.up();
        write(
            "1110100 oo 0 w l nnnn rrrrrrrrrrrrrrrr",
            &[
                ('o', order),
                ('w', u32::from(self.back)),
                ('l', self.way.up()),
                ('n', self.n),
                ('r', self.list),
            ],
        )
    }
}

/// STR and LDR (immediate) T4 of a word. `push` and `pop` T3 are among them.
#[derive(Clone, Copy, Debug)]
pub struct Single {
    pub way: Way,
    pub n: u32,
    pub t: u32,
    /// P, U and W: before or after, up or down, written back or not.
    pub puw: u32,
    pub bytes: u32,
}

impl Single {
    /// `str rT,[sp,#-bytes]!` or `ldr rT,[sp],#bytes`.
    pub fn of_sp(way: Way, t: u32, bytes: u32) -> Single {
        let puw = if way == Way::Down { 0b101 } else { 0b011 };
        Single { way, n: 13, t, puw, bytes }
    }

    pub fn write(&self) -> Halfwords {
        self.write_sized(2)
    }

    /// With a byte or a halfword instead of a word: 0 or 1.
    pub fn write_sized(&self, size: u32) -> Halfwords {
        write(
            "111110000 zz l nnnn tttt 1 ppp iiiiiiii",
            &[
                ('z', size),
                ('l', self.way.up()),
                ('n', self.n),
                ('t', self.t),
                ('p', self.puw),
                ('i', self.bytes),
            ],
        )
    }
}

/// `str lr,[sp]` or `ldr lr,[sp]` T3.
pub fn in_place(way: Way) -> Halfwords {
    write("11111000110 l 1101 1110 000000000000", &[('l', way.up())])
}

/// `add`, `cmp` or `mov` T1 by `operation` 0, 1 or 2, on all registers.
pub fn on_registers(operation: u32, d: u32, m: u32) -> Halfwords {
    write("010001 oo d mmmm ddd", &[('o', operation), ('d', d), ('m', m)])
}

/// VSTM and VLDM, which are `vpush` and `vpop` if `n` is SP.
#[derive(Clone, Copy, Debug)]
pub struct Vectors {
    pub way: Way,
    pub n: u32,
    /// P, U and W.
    pub puw: u32,
    pub first: u32,
    /// s registers instead of d registers.
    pub singles: bool,
    pub words: u32,
}

impl Vectors {
    pub fn of_sp(way: Way, first: u32, words: u32) -> Vectors {
        let puw = if way == Way::Down { 0b101 } else { 0b011 };
        Vectors { way, n: 13, puw, first, singles: false, words }
    }

    pub fn write(&self) -> Halfwords {
        let (p, u, w) = (self.puw >> 2, self.puw >> 1 & 1, self.puw & 1);
        let picture = if self.singles {
            "1110110 p u v w l nnnn vvvv 1010 iiiiiiii"
        } else {
            "1110110 p u v w l nnnn vvvv 1011 iiiiiiii"
        };
        write(
            picture,
            &[
                ('p', p),
                ('u', u),
                ('w', w),
                ('l', self.way.up()),
                ('n', self.n),
                ('v', self.first),
                ('i', self.words),
            ],
        )
    }
}

/// `bx rM`, or `blx rM` with `link`; the last three bits should be 0.
pub fn exchange(m: u32, link: bool, zeros: u32) -> Halfwords {
    write("01000111 l mmmm zzz", &[('l', u32::from(link)), ('m', m), ('z', zeros)])
}

/// The branches of 32 bits, with 24 bits of target that J1 and J2 are among.
#[derive(Clone, Copy, Debug)]
pub enum Branch {
    /// B T4.
    Always,
    /// B T3, whose condition is four of the target's bits.
    Conditional,
    /// BL T1.
    Call,
    /// BLX T2.
    CallArm,
}

pub fn branch(kind: Branch, target: u32) -> Halfwords {
    let picture = match kind {
        Branch::Always => "11110 ttttttttttt 10 t 1 t ttttttttttt",
        Branch::Conditional => "11110 ttttttttttt 10 t 0 t ttttttttttt",
        Branch::Call => "11110 ttttttttttt 11 t 1 t ttttttttttt",
        Branch::CallArm => "11110 ttttttttttt 11 t 0 t ttttttttttt",
    };
    write(picture, &[('t', target & 0xff_ffff)])
}
