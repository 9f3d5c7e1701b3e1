//! The check and the finders of documents 01 and 02, written plainly over pdb's iterator; pdb has none of them.

use std::cmp::Ordering;

use crate::common::*;
use crate::reading::{decode, step, symbols_from, Reading, Refusal};
use crate::row::Answer;
use crate::symbol::*;
use crate::words::Words;

/// The most scopes that may be open, and the most links that a climb may have.
pub const LIMIT: usize = 64;

/// Records and their bytes, length fields included.
#[derive(Default)]
pub struct Group {
    pub records: usize,
    pub bytes: usize,
}

impl Group {
    fn add(&mut self, records: usize, bytes: usize) {
        self.records += records;
        self.bytes += bytes;
    }
}

#[derive(Default)]
pub struct Counts {
    pub yielded: Group,
    pub passed: Group,
    pub openers: usize,
    pub deepest: usize,
}

impl Words for Counts {
    fn write(&self, answer: &mut Answer) {
        for group in [&self.yielded, &self.passed] {
            group.records.write(answer);
            group.bytes.write(answer);
        }
        self.openers.write(answer);
        self.deepest.write(answer);
    }
}

/// A chain, and how many records were read or links climbed for it.
#[derive(Default)]
pub struct Found {
    pub count: usize,
    pub chain: Vec<u64>,
}

/// The count, the depth, and every place of the chain, 0 where it is unused.
impl Words for Found {
    fn write(&self, answer: &mut Answer) {
        let depth = self.chain.len();
        self.count.write(answer);
        depth.write(answer);
        self.chain.iter().for_each(|&place| answer.push(place));
        (depth..LIMIT).for_each(|_| answer.push(0));
    }
}

/// Whether the check and the finders take it as an opener.
pub fn opens(symbol: &Symbol) -> bool {
    symbol.starts_scope() || symbol.raw_kind() == S_LPROC32_ID
}

/// Where a record that opens a scope has its links; a next is there in procedures and thunks alone.
pub const PARENT: usize = 2;
pub const END: usize = 6;
pub const NEXT: usize = 10;

/// An opener's links, 0 where there is none.
#[derive(Default)]
pub struct Links {
    pub parent: u64,
    pub end: u64,
    pub next: u64,
}

/// The links of an opener, none if decode refuses it.
pub fn links(opener: &Symbol) -> Option<Links> {
    let (symbol, _) = decode(opener.raw_bytes()).ok()?;
    let (parent, end, next) = match symbol {
        SymbolData::Procedure(fields) => (fields.parent, fields.end, fields.next),
        SymbolData::InlineSite(fields) => (fields.parent, fields.end, None),
        SymbolData::Thunk(fields) => (fields.parent, fields.end, fields.next),
        SymbolData::Block(fields) => (Some(fields.parent), fields.end, None),
        SymbolData::SeparatedCode(fields) => (Some(fields.parent), fields.end, None),
        _ => panic!("a scope opens without links: {opener:?}"),
    };
    let [parent, next] = [parent, next].map(|link| link.map_or(0, |link| link.0.into()));
    let end = end.0.into();
    Some(Links { parent, end, next })
}

pub fn index(symbol: &Symbol) -> u64 {
    symbol.index().0.into()
}

fn refuse<T>(number: u64) -> Reading<T> {
    Err(Refusal::new(number))
}

fn push<T>(scopes: &mut Vec<T>, scope: T) -> Reading<()> {
    if scopes.len() == LIMIT {
        return refuse(9);
    }
    scopes.push(scope);
    Ok(())
}

pub fn check(stream: &[u8], start: u64) -> Reading<Counts> {
    let mut symbols = symbols_from(stream, start);
    let mut counts = Counts::default();
    let mut open = Vec::new();
    loop {
        let from = symbols.pos();
        let symbol = step(&mut symbols)?;
        let to = symbol.map_or(stream.len(), |symbol| symbol.index().0 as usize);
        counts.passed.add(records_in(&stream[from..to])?, to - from);
        let Some(symbol) = symbol else { break };
        nest(&symbol, &mut open).map_err(|refusal| refusal.at(to))?;
        counts.yielded.add(1, symbols.pos() - to);
        counts.openers += usize::from(opens(&symbol));
        counts.deepest = counts.deepest.max(open.len());
    }
    match open.last() {
        Some((innermost, _)) => Err(Refusal::new(12).at(*innermost as usize)),
        None => Ok(counts),
    }
}

fn records_in(stretch: &[u8]) -> Reading<usize> {
    let mut buffer = ParseBuffer::from(stretch);
    let mut records = 0;
    while !buffer.is_empty() {
        let length = buffer.parse_u16()?;
        buffer.take(length.into())?;
        records += 1;
    }
    Ok(records)
}

/// What the check asks of a record. An open scope is its opener's index and end field.
fn nest(symbol: &Symbol, open: &mut Vec<(u64, u64)>) -> Reading<()> {
    let index = index(symbol);
    let innermost = open.last().copied();
    if opens(symbol) {
        let links = links(symbol).ok_or(Refusal::new(6))?;
        if index == 0 {
            return refuse(7);
        }
        if links.parent != innermost.map_or(0, |(opener, _)| opener) {
            return refuse(8);
        }
        push(open, (index, links.end))?;
    }
    if symbol.ends_scope() {
        let (_, end) = innermost.ok_or(Refusal::new(10))?;
        if end != index {
            return refuse(11);
        }
        open.pop();
    }
    Ok(())
}

pub fn walk(stream: &[u8], start: u64, i: u64) -> Reading<Found> {
    find(stream, start, i, |symbol, _, found| {
        if opens(symbol) {
            push(&mut found.chain, index(symbol))?;
        }
        if symbol.ends_scope() {
            found.chain.pop().ok_or(Refusal::new(10))?;
        }
        Ok(())
    })
}

pub fn jump(stream: &[u8], start: u64, i: u64) -> Reading<Found> {
    find(stream, start, i, |symbol, symbols, found| {
        if symbol.ends_scope() {
            return refuse(13);
        }
        if opens(symbol) {
            let end = links(symbol).ok_or(Refusal::new(13))?.end;
            if end < symbols.pos() as u64 {
                return refuse(13);
            }
            if i > end {
                *symbols = after_closer(stream, end)?;
                found.count += 1;
            } else {
                push(&mut found.chain, index(symbol))?;
            }
        }
        Ok(())
    })
}

/// Reads records up to the one at i; `pass` does with each before it what its finder's rule says.
fn find<'s>(
    stream: &'s [u8],
    start: u64,
    i: u64,
    pass: impl Fn(&Symbol, &mut SymbolIter<'s>, &mut Found) -> Reading<()>,
) -> Reading<Found> {
    let mut symbols = symbols_from(stream, start);
    let mut found = Found::default();
    while let Some(symbol) = step(&mut symbols)? {
        found.count += 1;
        match index(&symbol).cmp(&i) {
            Ordering::Less => pass(&symbol, &mut symbols, &mut found)?,
            Ordering::Equal => return Ok(found),
            Ordering::Greater => break,
        }
    }
    refuse(14)
}

/// Where reading goes on behind the closer at exactly this position.
fn after_closer(stream: &[u8], end: u64) -> Reading<SymbolIter<'_>> {
    let mut symbols = symbols_from(stream, end);
    match step(&mut symbols)? {
        Some(symbol) if index(&symbol) == end && symbol.ends_scope() => Ok(symbols),
        _ => refuse(13),
    }
}

pub fn climb(stream: &[u8], i: u64) -> Reading<Found> {
    let opener = opener_at(stream, i)?.ok_or(Refusal::new(14))?;
    let mut parent = links(&opener).ok_or(Refusal::new(13))?.parent;
    let mut present = i;
    let mut chain = Vec::new();
    while parent != 0 {
        push(&mut chain, parent)?;
        if parent >= present {
            return refuse(13);
        }
        present = parent;
        let opener = opener_at(stream, present).ok().flatten();
        let links = opener.as_ref().and_then(links);
        parent = links.ok_or(Refusal::new(13))?.parent;
    }
    let count = chain.len();
    Ok(Found { count, chain })
}

/// The opener at exactly this position.
fn opener_at(stream: &[u8], at: u64) -> Reading<Option<Symbol<'_>>> {
    let symbol = step(&mut symbols_from(stream, at))?;
    Ok(symbol.filter(|symbol| index(symbol) == at && opens(symbol)))
}
