//! A safe door to Mitrelilac's static library, which reads CodeView symbol streams, says which scopes a record belongs to, reads the line
//! programs of inlined code, and squeezes the fillers out of streams.
//! Slices go in, enums and structs come out, nothing is allocated. `include/mitrelilac.h` is the manual.
//!
//! ```
//! // An S_UNAMESPACE record behind the signature of a module's stream.
//! let stream = b"\x04\0\0\0\x06\0\x24\x11nst\0";
//! for record in mitrelilac::records(stream, 4) {
//!     let record = record?;
//!     assert_eq!(record.index, 4);
//!     assert_eq!(mitrelilac::name(record.bytes)?, Some(&b"nst"[..]));
//! }
//! # Ok::<(), mitrelilac::Refusal>(())
//! ```

#![deny(unsafe_op_in_unsafe_fn)]

mod annotation;
mod refusal;
mod symbol;

pub use annotation::{annotation, BinaryAnnotation, BinaryAnnotations};
pub use refusal::{Reason, Refusal};
pub use symbol::*;

// As include/mitrelilac.h has them. A reference to an array is a pointer there.
extern "C" {
    fn mitrelilac_step(
        stream: *const u8,
        length: usize,
        position: usize,
        out: &mut [u64; 5],
    ) -> u32;
    fn mitrelilac_kind(record: *const u8, length: usize, out: &mut [u64; 3]) -> u32;
    fn mitrelilac_name(record: *const u8, length: usize, out: &mut [u64; 3]) -> u32;
    fn mitrelilac_register_entry(
        record: *const u8,
        length: usize,
        k: usize,
        out: &mut [u64; 3],
    ) -> u32;
    fn mitrelilac_annotation(
        annotations: *const u8,
        length: usize,
        position: usize,
        out: &mut [u64; 5],
    ) -> u32;
    fn mitrelilac_check(stream: *const u8, length: usize, start: usize, out: &mut [u64; 6]) -> u32;
    fn mitrelilac_walk(
        stream: *const u8,
        length: usize,
        start: usize,
        i: usize,
        out: &mut [u64; 66],
    ) -> u32;
    fn mitrelilac_jump(
        stream: *const u8,
        length: usize,
        start: usize,
        i: usize,
        out: &mut [u64; 66],
    ) -> u32;
    fn mitrelilac_climb(stream: *const u8, length: usize, i: usize, out: &mut [u64; 66]) -> u32;
    fn mitrelilac_squeeze(
        stream: *const u8,
        length: usize,
        start: usize,
        buffer: *mut u8,
        room: usize,
        out: &mut [u64; 2],
    ) -> u32;
    fn mitrelilac_preview(
        stream: *const u8,
        length: usize,
        start: usize,
        i: usize,
        out: &mut [u64; 3],
    ) -> u32;
    fn mitrelilac_decode(record: *const u8, length: usize, out: &mut [u64; 24]) -> u32;
}

/// The words of an answer, or the refusal.
///
/// SAFETY of every call below: a pointer and a length are those of a slice, which is never null, and the library reads nothing else and
/// writes to `out` alone; squeezing writes to its buffer too, which is lent as `&mut` and so lies apart.
fn ask<const N: usize>(call: impl FnOnce(&mut [u64; N]) -> u32) -> Result<[u64; N], Refusal> {
    let mut out = [0; N];
    match call(&mut out) {
        0 => Ok(out),
        number => Err(Refusal::new(number, out[0], out[1])),
    }
}

/// A part of lent bytes, given by two words.
fn part(bytes: &[u8], start: u64, length: u64) -> &[u8] {
    &bytes[start as usize..][..length as usize]
}

#[derive(Clone, Copy, Debug, PartialEq, Eq)]
pub enum Step<'s> {
    /// The end of the stream, with its position.
    End(usize),
    Record(Record<'s>),
}

/// A record in a stream.
#[derive(Clone, Copy, Debug, PartialEq, Eq)]
pub struct Record<'s> {
    pub index: usize,
    /// Kind first, without the length.
    pub bytes: &'s [u8],
    /// Where to read on.
    pub next: usize,
}

/// The first record at a position or behind it.
pub fn step(stream: &[u8], position: usize) -> Result<Step<'_>, Refusal> {
    let out = ask(|out| unsafe { mitrelilac_step(stream.as_ptr(), stream.len(), position, out) })?;
    Ok(match out {
        [0, end, ..] => Step::End(end as usize),
        [_, index, start, length, next] => Step::Record(Record {
            index: index as usize,
            bytes: part(stream, start, length),
            next: next as usize,
        }),
    })
}

/// The records from a position on; a refusal is the last item.
pub fn records(stream: &[u8], start: usize) -> impl Iterator<Item = Result<Record<'_>, Refusal>> {
    let mut position = Some(start);
    std::iter::from_fn(move || match step(stream, position?) {
        Ok(Step::Record(record)) => {
            position = Some(record.next);
            Some(Ok(record))
        }
        Ok(Step::End(_)) => {
            position = None;
            None
        }
        Err(refusal) => {
            position = None;
            Some(Err(refusal))
        }
    })
}

#[derive(Clone, Copy, Debug, PartialEq, Eq)]
pub struct Kind {
    pub code: u16,
    /// An opener to pdb. To the check and the finders S_LPROC32_ID (0x1146) is one too.
    pub opener: bool,
    pub closer: bool,
}

/// The kind of a record, 0 below 2 bytes, and what it does to scopes.
pub fn kind(record: &[u8]) -> Kind {
    let mut out = [0; 3];
    // It never refuses.
    unsafe { mitrelilac_kind(record.as_ptr(), record.len(), &mut out) };
    let [code, opener, closer] = out;
    Kind {
        code: code as u16,
        opener: opener != 0,
        closer: closer != 0,
    }
}

/// The name of a record, if it has one.
pub fn name(record: &[u8]) -> Result<Option<&[u8]>, Refusal> {
    let [has, start, length] =
        ask(|out| unsafe { mitrelilac_name(record.as_ptr(), record.len(), out) })?;
    Ok((has != 0).then(|| part(record, start, length)))
}

/// A record's fields, and how many of its bytes they take.
pub fn decode(record: &[u8]) -> Result<(Symbol<'_>, usize), Refusal> {
    let words = ask(|out| unsafe { mitrelilac_decode(record.as_ptr(), record.len(), out) })?;
    Ok((Symbol::new(record, &words), words[1] as usize))
}

#[derive(Clone, Copy, Debug, PartialEq, Eq)]
pub struct RegisterEntry<'r> {
    pub register: u16,
    pub name: &'r [u8],
}

/// Entry k, from 0 on, of a register list.
pub fn register_entry(record: &[u8], k: usize) -> Result<RegisterEntry<'_>, Refusal> {
    let out =
        ask(|out| unsafe { mitrelilac_register_entry(record.as_ptr(), record.len(), k, out) })?;
    let [register, start, length] = out;
    Ok(RegisterEntry {
        register: register as u16,
        name: part(record, start, length),
    })
}

/// What the check counts. Bytes include the lengths before the records.
#[derive(Clone, Copy, Debug, PartialEq, Eq)]
pub struct Counts {
    pub records: u64,
    pub bytes: u64,
    pub fillers: u64,
    pub filler_bytes: u64,
    pub openers: u64,
    pub deepest: u64,
}

/// The nesting check of a stream from a position on.
pub fn check(stream: &[u8], start: usize) -> Result<Counts, Refusal> {
    let out = ask(|out| unsafe { mitrelilac_check(stream.as_ptr(), stream.len(), start, out) })?;
    let [records, bytes, fillers, filler_bytes, openers, deepest] = out;
    Ok(Counts {
        records,
        bytes,
        fillers,
        filler_bytes,
        openers,
        deepest,
    })
}

/// The scopes that a finder found.
#[derive(Clone, Copy, Debug, PartialEq, Eq)]
pub struct Scopes {
    words: [u64; 66],
}

impl Scopes {
    /// Records read by walking or jumping, links followed by climbing.
    pub fn count(&self) -> u64 {
        self.words[0]
    }

    /// Of their openers: from walking and jumping the outermost first, from climbing the innermost.
    pub fn indexes(&self) -> impl DoubleEndedIterator<Item = usize> + ExactSizeIterator + '_ {
        let depth = self.words[1] as usize;
        self.words[2..][..depth].iter().map(|&index| index as usize)
    }
}

/// The scopes that enclose the record at i, by reading every record from `start` on.
pub fn walk(stream: &[u8], start: usize, i: usize) -> Result<Scopes, Refusal> {
    let words =
        ask(|out| unsafe { mitrelilac_walk(stream.as_ptr(), stream.len(), start, i, out) })?;
    Ok(Scopes { words })
}

/// The same, by jumping over the scopes that end before i.
pub fn jump(stream: &[u8], start: usize, i: usize) -> Result<Scopes, Refusal> {
    let words =
        ask(|out| unsafe { mitrelilac_jump(stream.as_ptr(), stream.len(), start, i, out) })?;
    Ok(Scopes { words })
}

/// The scopes that enclose the opener at i, by its parents.
pub fn climb(stream: &[u8], i: usize) -> Result<Scopes, Refusal> {
    let words = ask(|out| unsafe { mitrelilac_climb(stream.as_ptr(), stream.len(), i, out) })?;
    Ok(Scopes { words })
}

/// Writes the stream into a buffer, without the fillers behind its first record from `start` on, and with the links moved: the length
/// written. The rest of the buffer stays as it was, after a refusal all of it. As much room as the stream takes suffices.
pub fn squeeze(stream: &[u8], start: usize, buffer: &mut [u8]) -> Result<usize, Refusal> {
    let (to, room) = (buffer.as_mut_ptr(), buffer.len());
    let [length, _] = ask(|out| unsafe {
        mitrelilac_squeeze(stream.as_ptr(), stream.len(), start, to, room, out)
    })?;
    Ok(length as usize)
}

/// What squeezing a stream would give.
#[derive(Clone, Copy, Debug, PartialEq, Eq)]
pub struct Gain {
    /// The length that would be written.
    pub length: usize,
    /// The fillers that would be dropped: those behind the first record.
    pub dropped: u64,
    /// Where the record that was asked for would begin.
    pub at: usize,
}

/// What [`squeeze`] would give, and where the record at i would begin. A buffer of that length is long enough for it.
pub fn preview(stream: &[u8], start: usize, i: usize) -> Result<Gain, Refusal> {
    let [length, dropped, at] =
        ask(|out| unsafe { mitrelilac_preview(stream.as_ptr(), stream.len(), start, i, out) })?;
    Ok(Gain {
        length: length as usize,
        dropped,
        at: at as usize,
    })
}
