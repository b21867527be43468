//! Whether a record fits the code of its function: the file that both stand in, the refusals, and the
//! first instruction that is not the one its code stands for.

use crate::codes::Sequence;
use crate::cursor::Cursor;
use crate::full::Xdata;
use crate::function::Function;
use crate::record::Record;
use crate::refusal::Refusal;
use crate::role::Role;

/// The longest file, in bytes.
pub const LONGEST: usize = 1_048_576;

/// "FIT", version 1 in two bytes, three zero bytes.
const MARK: [u8; 8] = [b'F', b'I', b'T', 1, 0, 0, 0, 0];

pub struct File<'a> {
    /// Word 1 of the .pdata record.
    pub word: u32,
    pub xdata: Xdata<'a>,
    pub code: &'a [u8],
}

impl<'a> File<'a> {
    pub fn read(bytes: &'a [u8]) -> Result<File<'a>, Refusal> {
        if bytes.len() > LONGEST {
            return Err(Refusal::Unfit);
        }
        let mut cursor = Cursor { rest: bytes };
        if cursor.take(8)? != MARK {
            return Err(Refusal::Unfit);
        }
        let word = cursor.word()?;
        let rva = cursor.word()?;
        let xdata_bytes = u64::from(cursor.word()?);
        let code_bytes = u64::from(cursor.word()?);
        let xdata = Xdata { rva, bytes: cursor.take(xdata_bytes)? };
        let code = cursor.take(code_bytes)?;
        if !cursor.rest.is_empty() {
            return Err(Refusal::Unfit);
        }
        Ok(File { word, xdata, code })
    }

    /// The function as its record describes it, if its code is there.
    pub fn function(&self) -> Result<Function, Refusal> {
        if !self.xdata.fits() {
            return Err(Refusal::Parts);
        }
        let function = Record::read(self.word, &self.xdata)?.function()?;
        function.check_layout()?;
        if (self.code.len() as u64) < function.length {
            return Err(Refusal::ShortCode);
        }
        Ok(function)
    }
}

/// Where the first instruction stands that is not the one of its code, from the function's start.
pub fn first_difference(file: &File) -> Result<Option<u64>, Refusal> {
    let function = file.function()?;
    let differs = |placed: &Placed| !placed.role.stands_at(&file.code[placed.offset as usize..]);
    Ok(placed(&function).into_iter().find(differs).map(|placed| placed.offset))
}

/// An instruction that the record tells of.
pub struct Placed {
    pub offset: u64,
    pub role: Role,
}

/// Prologue and epilogues as they lie in the function.
pub fn placed(function: &Function) -> Vec<Placed> {
    let mut all = Vec::new();
    if !function.fragment {
        let forwards = function.body.instructions.iter().rev();
        lay(&mut all, 0, forwards.copied().map(Role::Prologue));
    }
    for epilogue in &function.epilogues {
        lay(&mut all, epilogue.start, roles(&epilogue.list));
    }
    all
}

fn roles(epilogue: &Sequence) -> Vec<Role> {
    let all = epilogue.instructions.as_slice();
    let (before, last) = match (epilogue.leave, all.split_last()) {
        (0, Some((last, before))) => (before, Some(Role::Last(*last))),
        (0, None) => (all, None),
        (size, _) => (all, Some(Role::End(size))),
    };
    before.iter().copied().map(Role::Epilogue).chain(last).collect()
}

/// Lays instructions end to end.
fn lay(all: &mut Vec<Placed>, start: u64, roles: impl IntoIterator<Item = Role>) {
    let mut offset = start;
    for role in roles {
        all.push(Placed { offset, role });
        offset += role.size();
    }
}
