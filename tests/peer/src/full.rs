//! Full records: an .xdata record of one or two header words, epilogue scopes, codes and handler.

use std::collections::BTreeMap;
use std::rc::Rc;

use crate::bits::{bit, field, word_at};
use crate::codes::{sequence, Sequence};
use crate::function::{Epilogue, Function};
use crate::refusal::Refusal;

/// The lent .xdata bytes and where they stand in the image.
#[derive(Clone, Copy, Debug)]
pub struct Xdata<'a> {
    pub rva: u32,
    pub bytes: &'a [u8],
}

impl<'a> Xdata<'a> {
    pub fn end(&self) -> u64 {
        u64::from(self.rva) + self.bytes.len() as u64
    }

    /// An RVA that is a multiple of 4, and an end that is an RVA or just past the last.
    pub fn fits(&self) -> bool {
        const TOP: u64 = 1 << 32;
        self.rva.is_multiple_of(4) && self.end() <= TOP
    }

    /// The lent bytes from `rva` on.
    fn from(&self, rva: u32) -> Result<&'a [u8], Refusal> {
        rva.checked_sub(self.rva)
            .and_then(|offset| self.bytes.get(offset as usize..))
            .ok_or(Refusal::OutsideXdata)
    }
}

/// What the one or two header words say.
struct Header {
    /// Bytes of the function.
    length: u64,
    has_handler: bool,
    /// E: one epilogue at the function's end, and the count is its code index.
    single_epilogue: bool,
    fragment: bool,
    count: usize,
    code_words: usize,
    /// Bytes of the header.
    size: usize,
}

impl Header {
    fn read(record: &[u8]) -> Result<Header, Refusal> {
        let first = word_at(record, 0).ok_or(Refusal::OutsideXdata)?;
        if field(first, 18, 19) != 0 {
            return Err(Refusal::Reserved);
        }
        let (count, code_words, size) = if field(first, 23, 31) == 0 {
            let second = word_at(record, 4).ok_or(Refusal::OutsideXdata)?;
            if field(second, 24, 31) != 0 {
                return Err(Refusal::Reserved);
            }
            (field(second, 0, 15), field(second, 16, 23), 8)
        } else {
            (field(first, 23, 27), field(first, 28, 31), 4)
        };
        Ok(Header {
            length: 2 * u64::from(field(first, 0, 17)),
            has_handler: bit(first, 20),
            single_epilogue: bit(first, 21),
            fragment: bit(first, 22),
            count: count as usize,
            code_words: code_words as usize,
            size,
        })
    }

    fn scope_bytes(&self) -> usize {
        if self.single_epilogue {
            0
        } else {
            4 * self.count
        }
    }

    fn code_bytes(&self) -> usize {
        4 * self.code_words
    }

    fn handler_bytes(&self) -> usize {
        4 * usize::from(self.has_handler)
    }

    fn record_bytes(&self) -> usize {
        self.size + self.scope_bytes() + self.code_bytes() + self.handler_bytes()
    }
}

struct Scope {
    /// Bytes from the function's start.
    start: u64,
    condition: u32,
    index: usize,
}

impl Scope {
    fn read(word: u32) -> Result<Scope, Refusal> {
        if field(word, 18, 19) != 0 {
            return Err(Refusal::Reserved);
        }
        Ok(Scope {
            start: 2 * u64::from(field(word, 0, 17)),
            condition: field(word, 20, 23),
            index: field(word, 24, 31) as usize,
        })
    }
}

/// A full record that is wholly lent and has no reserved value. Its codes are not yet looked at.
pub struct Full<'a> {
    header: Header,
    scopes: Vec<Scope>,
    codes: &'a [u8],
    handler: u32,
    /// With X=1 the lent bytes behind the record.
    table: Option<&'a [u8]>,
}

impl<'a> Full<'a> {
    /// The header, and the record's bytes, all of which are lent.
    fn whole(xdata: &Xdata<'a>, rva: u32) -> Result<(Header, &'a [u8]), Refusal> {
        let bytes = xdata.from(rva)?;
        let header = Header::read(bytes)?;
        let record = bytes.get(..header.record_bytes()).ok_or(Refusal::OutsideXdata)?;
        Ok((header, record))
    }

    /// The bytes of the record at `rva`, whose low two bits do not count. Res is not looked at.
    pub fn size(xdata: &Xdata<'a>, rva: u32) -> Result<usize, Refusal> {
        if !xdata.fits() {
            return Err(Refusal::Parts);
        }
        let (_, record) = Full::whole(xdata, rva & !3)?;
        Ok(record.len())
    }

    pub fn read(xdata: &Xdata<'a>, rva: u32) -> Result<Full<'a>, Refusal> {
        let (header, record) = Full::whole(xdata, rva)?;
        let (scopes, rest) = record[header.size..].split_at(header.scope_bytes());
        let (codes, rest) = rest.split_at(header.code_bytes());
        Ok(Full {
            scopes: read_scopes(scopes)?,
            codes,
            handler: word_at(rest, 0).unwrap_or(0),
            table: xdata.from(rva)?.get(record.len()..).filter(|_| header.has_handler),
            header,
        })
    }

    pub fn length(&self) -> u64 {
        self.header.length
    }

    /// The lent bytes that a region table begins, if the record has a handler.
    pub fn table(&self) -> Option<&'a [u8]> {
        self.table
    }

    pub fn function(&self) -> Result<Function, Refusal> {
        let mut lists = Lists { codes: self.codes, known: BTreeMap::new() };
        let body = lists.at(0)?;
        let epilogues = if self.header.single_epilogue {
            vec![Epilogue::at_end(self.length(), lists.at(self.header.count)?)?]
        } else {
            self.scoped_epilogues(&mut lists)?
        };
        Ok(Function {
            length: self.length(),
            body,
            fragment: self.header.fragment,
            epilogues,
            handler: self.handler,
        })
    }

    fn scoped_epilogues(&self, lists: &mut Lists) -> Result<Vec<Epilogue>, Refusal> {
        let epilogue = |scope: &Scope| {
            let list = lists.at(scope.index)?;
            Ok(Epilogue { start: scope.start, condition: scope.condition, list })
        };
        self.scopes.iter().map(epilogue).collect()
    }
}

fn read_scopes(bytes: &[u8]) -> Result<Vec<Scope>, Refusal> {
    bytes.chunks_exact(4).filter_map(|word| word_at(word, 0)).map(Scope::read).collect()
}

/// The code lists of one record. Thousands of scopes may share an index, so each is read once.
struct Lists<'a> {
    codes: &'a [u8],
    known: BTreeMap<usize, Rc<Sequence>>,
}

impl Lists<'_> {
    fn at(&mut self, index: usize) -> Result<Rc<Sequence>, Refusal> {
        if let Some(list) = self.known.get(&index) {
            return Ok(list.clone());
        }
        let list = Rc::new(sequence(self.codes, index)?);
        self.known.insert(index, list.clone());
        Ok(list)
    }
}
