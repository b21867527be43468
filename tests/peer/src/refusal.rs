//! Why a frame or a report is refused.

/// The discriminants are document 01's numbers.
#[derive(Clone, Copy, Debug, PartialEq, Eq)]
pub enum Refusal {
    /// A lent part has a bad length, alignment or end.
    Parts = 1,
    /// The pc is below the image base.
    BelowImage = 2,
    /// The .pdata starts do not ascend.
    Unsorted = 3,
    /// A reserved or contradictory value stands in a record.
    Reserved = 4,
    /// An .xdata record is not wholly lent.
    OutsideXdata = 5,
    /// A code list is undefined or has no end.
    Codes = 6,
    /// Prologue and epilogues do not fit the function or each other.
    Layout = 7,
    /// SP or a loaded word is outside the stack, or SP is not aligned.
    Stack = 8,
    /// The pc is inside an instruction of the prologue or an epilogue.
    InsideInstruction = 9,
    /// The pc is in a conditional epilogue.
    Conditional = 10,
    /// The caller's SP is below the given SP.
    Falling = 11,
    /// A later frame of a walk has no covering record.
    Uncovered = 12,
    /// A later frame of a walk leaves SP the same.
    Standstill = 13,
    /// The file is unfit.
    Unfit = 14,
    /// A region table has more than 64 regions or is not wholly lent.
    Table = 15,
    /// A region does not begin below its end, or two regions cross.
    Nesting = 16,
    /// An instruction is not the one that its code stands for.
    Differs = 17,
    /// The code ends before the function does.
    ShortCode = 18,
}

impl Refusal {
    pub fn number(self) -> u32 {
        self as u32
    }
}
