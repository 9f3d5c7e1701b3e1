//! What pdb reads of a stream and of a record, refused by document 01's numbers.

use fallible_iterator::FallibleIterator;
use scroll::ctx::TryFromCtx;

use crate::common::*;
use crate::symbol::*;

pub type Reading<T> = std::result::Result<T, Refusal>;

#[derive(Default)]
pub struct Refusal {
    pub number: u64,
    pub position: u64,
    pub detail: u64,
}

impl Refusal {
    pub fn new(number: u64) -> Self {
        Refusal {
            number,
            ..Refusal::default()
        }
    }

    pub fn at(self, position: usize) -> Self {
        let position = position as u64;
        Refusal { position, ..self }
    }

    fn about(self, detail: impl Into<u64>) -> Self {
        let detail = detail.into();
        Refusal { detail, ..self }
    }
}

impl From<Error> for Refusal {
    fn from(error: Error) -> Self {
        match error {
            Error::UnexpectedEof => Refusal::new(1),
            Error::SymbolTooShort => Refusal::new(2),
            Error::UnimplementedSymbolKind(kind) => Refusal::new(3).about(kind),
            Error::UnexpectedNumericPrefix(prefix) => Refusal::new(4).about(prefix),
            Error::InvalidCompressedAnnotation => Refusal::new(15),
            Error::UnknownBinaryAnnotation(code) => Refusal::new(16).about(code),
            other => panic!("pdb refuses in a way that has no number: {other}"),
        }
    }
}

/// pdb's iterator, from a position.
pub fn symbols_from(stream: &[u8], at: u64) -> SymbolIter<'_> {
    let mut symbols = SymbolIter::new(ParseBuffer::from(stream));
    // No stream here is longer than pdb's positions reach.
    symbols.seek(SymbolIndex(u32::try_from(at).unwrap_or(u32::MAX)));
    symbols
}

/// The record that a step yields, none at the end. The iterator then stands where the step left it.
pub fn step<'s>(symbols: &mut SymbolIter<'s>) -> Reading<Option<Symbol<'s>>> {
    let symbol = symbols.next();
    symbol.map_err(|error| Refusal::from(error).at(symbols.pos()))
}

/// A record's fields and the bytes consumed. pdb has no limit; 5 is document 01's.
pub fn decode(record: &[u8]) -> Reading<(SymbolData<'_>, usize)> {
    if record.len() > u16::MAX.into() {
        return Err(Refusal::new(5));
    }
    Ok(SymbolData::try_from_ctx(record, ())?)
}
