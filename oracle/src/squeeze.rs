//! Squeezing out filler as document 02 says it, written plainly over pdb's iterator and decode: the
//! records as a list, and a map from where they stand to where they go. A preview squeezes, and looks
//! at the result. pdb has none of it.

use std::collections::BTreeMap;
use std::iter;

use crate::nesting::{check, index, links, opens, Links, END, NEXT, PARENT};
use crate::reading::{step, symbols_from, Reading, Refusal};
use crate::row::Answer;
use crate::symbol::*;
use crate::words::Words;

/// A squeezed stream.
pub struct Squeezed(pub Vec<u8>);

/// The length, and the bytes, eight to a word, little-endian, the last word filled up with zeros.
impl Words for Squeezed {
    fn write(&self, answer: &mut Answer) {
        self.0.len().write(answer);
        for bytes in self.0.chunks(8) {
            let mut word = [0; 8];
            word[..bytes.len()].copy_from_slice(bytes);
            answer.push(u64::from_le_bytes(word));
        }
    }
}

/// What a squeeze would give.
pub struct Preview {
    length: usize,
    dropped: usize,
    /// Where the record that was asked for begins.
    at: u64,
}

impl Words for Preview {
    fn write(&self, answer: &mut Answer) {
        self.length.write(answer);
        self.dropped.write(answer);
        answer.push(self.at);
    }
}

/// What squeezing into a long enough buffer gives. A record keeps its number among the records.
pub fn preview(stream: &[u8], start: u64, i: u64) -> Reading<Preview> {
    let Squeezed(result) = squeeze(stream, start, u64::MAX)?;
    let fillers = |stream: &[u8]| check(stream, start).map(|counts| counts.passed.records);
    let number = records(stream, start)?
        .iter()
        .position(|record| index(record) == i)
        .ok_or(Refusal::new(14))?;
    Ok(Preview {
        length: result.len(),
        dropped: fillers(stream)? - fillers(&result)?,
        at: index(&records(&result, start)?[number]),
    })
}

/// Where each record goes, by where it stands.
type Moves = BTreeMap<u64, u64>;

pub fn squeeze(stream: &[u8], start: u64, room: u64) -> Reading<Squeezed> {
    check(stream, start)?;
    let records = records(stream, start)?;
    let moves = moves(&records);
    for record in &records {
        let Links { next, .. } = links_of(record);
        if next != 0 && !moves.contains_key(&next) {
            return Err(Refusal::new(17).at(index(record) as usize));
        }
    }
    let kept = records
        .first()
        .map_or(stream.len(), |first| index(first) as usize);
    let mut squeezed = stream[..kept].to_vec();
    for record in &records {
        let bytes = moved(record, &moves);
        squeezed.extend((bytes.len() as u16).to_le_bytes());
        squeezed.extend(bytes);
    }
    if squeezed.len() as u64 > room {
        return Err(Refusal::new(18));
    }
    Ok(Squeezed(squeezed))
}

/// The records that steps yield.
pub fn records(stream: &[u8], start: u64) -> Reading<Vec<Symbol<'_>>> {
    let mut symbols = symbols_from(stream, start);
    iter::from_fn(|| step(&mut symbols).transpose()).collect()
}

/// The first record stays, with the fillers before it, and each of the others goes right behind the one before.
fn moves(records: &[Symbol]) -> Moves {
    let mut to = records.first().map_or(0, index);
    let mut moves = Moves::new();
    for record in records {
        moves.insert(index(record), to);
        to += 2 + record.raw_bytes().len() as u64;
    }
    moves
}

/// The links of a record of a stream that passes the check: all 0 unless it opens a scope.
pub fn links_of(record: &Symbol) -> Links {
    if !opens(record) {
        return Links::default();
    }
    links(record).expect("the check has read these links")
}

/// A record's bytes, its links led to where what they name goes. Links of 0 stay.
fn moved(record: &Symbol, moves: &Moves) -> Vec<u8> {
    let mut bytes = record.raw_bytes().to_vec();
    let Links { parent, end, next } = links_of(record);
    for (place, link) in [(PARENT, parent), (END, end), (NEXT, next)] {
        if link != 0 {
            let to = moves[&link] as u32;
            bytes[place..place + 4].copy_from_slice(&to.to_le_bytes());
        }
    }
    bytes
}
