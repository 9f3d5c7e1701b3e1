//! pdb's side: its own files behind the same kind of call as the library's, with the same words.

#[path = "../oracle/src/pdb.rs"]
mod pdb;
#[path = "../oracle/src/words.rs"]
mod words;

use std::slice;

use fallible_iterator::FallibleIterator;
use scroll::ctx::TryFromCtx;

// pdb's files name one another from the crate's root.
use pdb::{common, msf, symbol, tpi};

use common::*;
use row::Answer;
use symbol::*;
use words::{class_of, Words};

mod row {
    /// The words of an answer about some lent bytes, of which those before `next` were read.
    pub struct Answer<'b> {
        pub bytes: &'b [u8],
        pub next: usize,
        pub out: &'b mut [u64],
        pub at: usize,
    }

    impl<'b> Answer<'b> {
        pub fn new(bytes: &'b [u8], next: usize, out: &'b mut [u64]) -> Self {
            let at = 0;
            Answer {
                bytes,
                next,
                out,
                at,
            }
        }

        #[inline(always)]
        pub fn push(&mut self, word: u64) {
            self.out[self.at] = word;
            self.at += 1;
        }
    }
}

/// The number of the refusal, whose position and detail are written.
fn refuse(out: &mut [u64], error: Error, position: usize) -> u32 {
    let (number, detail) = match error {
        Error::UnexpectedEof => (1, 0),
        Error::SymbolTooShort => (2, 0),
        Error::UnimplementedSymbolKind(kind) => (3, kind),
        Error::UnexpectedNumericPrefix(prefix) => (4, prefix),
        // No instruction of the streams that are measured is refused.
        _ => unreachable!(),
    };
    out[0] = position as u64;
    out[1] = detail.into();
    number
}

/// # Safety
/// The pointer and the length are those of a slice.
#[no_mangle]
pub unsafe extern "C" fn pdb_step(
    stream: *const u8,
    length: usize,
    position: usize,
    out: &mut [u64; 5],
) -> u32 {
    let stream = unsafe { slice::from_raw_parts(stream, length) };
    let mut symbols = SymbolIter::new(ParseBuffer::from(stream));
    symbols.seek(SymbolIndex(position as u32));
    let symbol = symbols.next();
    let next = symbols.pos();
    match symbol {
        Ok(Some(symbol)) => {
            let mut answer = Answer::new(stream, next, out);
            answer.push(1);
            symbol.index().write(&mut answer);
            symbol.raw_bytes().write(&mut answer);
            next.write(&mut answer);
            0
        }
        Ok(None) => {
            out[0] = 0;
            out[1] = next as u64;
            0
        }
        Err(error) => refuse(out, error, next),
    }
}

/// # Safety
/// The pointer and the length are those of a slice.
#[no_mangle]
pub unsafe extern "C" fn pdb_name(record: *const u8, length: usize, out: &mut [u64; 3]) -> u32 {
    let record = unsafe { slice::from_raw_parts(record, length) };
    match SymbolData::try_from_ctx(record, ()) {
        Ok((symbol, consumed)) => {
            symbol.name().write(&mut Answer::new(record, consumed, out));
            0
        }
        Err(error) => refuse(out, error, 0),
    }
}

/// # Safety
/// The pointer and the length are those of a slice.
#[no_mangle]
pub unsafe extern "C" fn pdb_decode(record: *const u8, length: usize, out: &mut [u64; 24]) -> u32 {
    let record = unsafe { slice::from_raw_parts(record, length) };
    match SymbolData::try_from_ctx(record, ()) {
        Ok((symbol, consumed)) => {
            let mut answer = Answer::new(record, consumed, out);
            answer.push(class_of(&symbol));
            consumed.write(&mut answer);
            symbol.write(&mut answer);
            0
        }
        Err(error) => refuse(out, error, 0),
    }
}

/// # Safety
/// The pointer and the length are those of a slice.
#[no_mangle]
pub unsafe extern "C" fn pdb_annotation(
    annotations: *const u8,
    length: usize,
    position: usize,
    out: &mut [u64; 5],
) -> u32 {
    let annotations = unsafe { slice::from_raw_parts(annotations, length) };
    let position = position.min(length);
    let mut instructions = BinaryAnnotations::new(&annotations[position..]).iter();
    match instructions.next() {
        Ok(Some(instruction)) => {
            let next = position + instructions.pos();
            let mut answer = Answer::new(annotations, next, out);
            answer.push(1);
            instruction.write(&mut answer);
            next.write(&mut answer);
            0
        }
        Ok(None) => {
            out[0] = 0;
            0
        }
        Err(error) => refuse(out, error, 0),
    }
}
