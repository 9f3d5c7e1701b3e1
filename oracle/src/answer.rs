//! The operations, answered by pdb; the check, the finders, the squeeze and its preview by plain code over it.

use fallible_iterator::FallibleIterator;
use scroll::ctx::TryFromCtx;

use crate::common::*;
use crate::list::Question;
use crate::nesting;
use crate::reading::{self, decode, symbols_from, Reading, Refusal};
use crate::row::Answer;
use crate::squeeze::{preview, squeeze};
use crate::symbol::*;
use crate::words::{class_of, Words};

macro_rules! ops {
    ($($op:ident $name:literal $number:literal;)+) => {
        #[derive(Clone, Copy, PartialEq)]
        pub enum Op { $($op = $number),+ }

        impl Op {
            pub const ALL: &'static [Op] = &[$(Op::$op),+];

            pub fn name(self) -> &'static str {
                match self { $(Op::$op => $name),+ }
            }
        }
    };
}

ops! {
    U8 "u8" 1;
    U16 "u16" 2;
    U32 "u32" 3;
    U64 "u64" 4;
    I16 "i16" 5;
    I32 "i32" 6;
    I64 "i64" 7;
    Cstring "cstring" 8;
    Pascal "pascal" 9;
    Numeric "numeric" 10;
    Kind "kind" 16;
    Processor "processor" 17;
    Language "language" 18;
    Step "step" 32;
    Decode "decode" 33;
    Name "name" 34;
    Register "register" 35;
    Scope "scope" 36;
    Annotation "annotation" 37;
    Check "check" 40;
    Walk "walk" 41;
    Jump "jump" 42;
    Climb "climb" 43;
    Squeeze "squeeze" 44;
    Preview "preview" 45;
}

impl Op {
    pub fn numbered(number: u8) -> Option<Op> {
        Op::ALL.iter().copied().find(|op| *op as u8 == number)
    }

    pub fn named(name: &str) -> Option<Op> {
        Op::ALL.iter().copied().find(|op| op.name() == name)
    }

    /// The largest argument: codes have a width, and a position may be any number.
    pub fn largest(self) -> u64 {
        match self {
            Op::Kind | Op::Processor => u16::MAX.into(),
            Op::Language => u8::MAX.into(),
            _ => u64::MAX,
        }
    }
}

/// The words of the answer: 0 and the values, or the refusal's number, position and detail.
pub fn answer(question: &Question) -> Vec<u64> {
    match reply(question) {
        Ok(answer) => [vec![0], answer.words].concat(),
        Err(refusal) => vec![refusal.number, refusal.position, refusal.detail],
    }
}

type Reply<'b> = Reading<Answer<'b>>;

fn reply(question: &Question) -> Reply<'_> {
    let Question {
        op,
        arg,
        start,
        ref bytes,
    } = *question;
    match op {
        Op::U8 => read(bytes, arg, ParseBuffer::parse_u8),
        Op::U16 => read(bytes, arg, ParseBuffer::parse_u16),
        Op::U32 => read(bytes, arg, ParseBuffer::parse_u32),
        Op::U64 => read(bytes, arg, ParseBuffer::parse_u64),
        Op::I16 => read(bytes, arg, ParseBuffer::parse_i16),
        Op::I32 => read(bytes, arg, ParseBuffer::parse_i32),
        Op::I64 => read(bytes, arg, ParseBuffer::parse_i64),
        Op::Cstring => read(bytes, arg, ParseBuffer::parse_cstring),
        Op::Pascal => read(bytes, arg, ParseBuffer::parse_u8_pascal_string),
        Op::Numeric => read(bytes, arg, ParseBuffer::parse::<Variant>),
        Op::Kind => Ok(kind(arg as u16)),
        Op::Processor => Ok(whole(bytes, CPUType::from(arg as u16))),
        Op::Language => Ok(whole(bytes, SourceLanguage::from(arg as u8))),
        Op::Step => step(bytes, arg),
        Op::Decode => fields(bytes),
        Op::Name => name(bytes),
        Op::Register => register(bytes, arg),
        Op::Scope => Ok(scope(bytes)),
        Op::Annotation => annotation(bytes, arg),
        Op::Check => Ok(whole(bytes, nesting::check(bytes, start)?)),
        Op::Walk => Ok(whole(bytes, nesting::walk(bytes, start, arg)?)),
        Op::Jump => Ok(whole(bytes, nesting::jump(bytes, start, arg)?)),
        Op::Climb => Ok(whole(bytes, nesting::climb(bytes, arg)?)),
        Op::Squeeze => Ok(whole(bytes, squeeze(bytes, start, arg)?)),
        Op::Preview => Ok(whole(bytes, preview(bytes, start, arg)?)),
    }
}

/// An answer that is one value.
fn whole(bytes: &[u8], value: impl Words) -> Answer<'_> {
    Answer::new(bytes, 0).put(value)
}

fn place(arg: u64) -> usize {
    usize::try_from(arg).unwrap_or(usize::MAX)
}

/// A value read at a position, and the next position.
fn read<'b, T: Words>(
    bytes: &'b [u8],
    at: u64,
    parse: impl FnOnce(&mut ParseBuffer<'b>) -> Result<T>,
) -> Reply<'b> {
    let mut buffer = ParseBuffer::from(bytes);
    buffer.seek(place(at));
    let value = parse(&mut buffer)?;
    let next = buffer.pos();
    Ok(Answer::new(bytes, next).put(value).put(next))
}

/// The class of a kind's records, 0 if pdb decodes none, and what they do to scopes.
fn kind(kind: u16) -> Answer<'static> {
    let class = class(kind);
    let record = kind.to_le_bytes();
    let symbol = Symbol::of(&record);
    Answer::new(&[], 0)
        .put(class)
        .put(symbol.starts_scope())
        .put(symbol.ends_scope())
}

pub fn class(kind: u16) -> u64 {
    // Zeros are a body of every class: absent links, empty names, an empty list.
    let mut record = [0; 64];
    record[..2].copy_from_slice(&kind.to_le_bytes());
    match SymbolData::try_from_ctx(&record, ()) {
        Ok((symbol, _)) => class_of(&symbol),
        Err(Error::UnimplementedSymbolKind(_)) => 0,
        Err(other) => panic!("kind {kind:#06x} has no body of zeros: {other}"),
    }
}

/// The end of the stream (0) or a record (1), and the iterator's position.
fn step(stream: &[u8], at: u64) -> Reply<'_> {
    let mut symbols = symbols_from(stream, at);
    let symbol = reading::step(&mut symbols)?;
    let next = symbols.pos();
    let answer = Answer::new(stream, next);
    Ok(match symbol {
        None => answer.put(0).put(next),
        Some(symbol) => answer
            .put(1)
            .put(symbol.index())
            .put(symbol.raw_bytes())
            .put(next),
    })
}

fn fields(record: &[u8]) -> Reply<'_> {
    let (symbol, consumed) = decode(record)?;
    Ok(Answer::new(record, consumed)
        .put(class_of(&symbol))
        .put(consumed)
        .put(symbol))
}

fn name(record: &[u8]) -> Reply<'_> {
    let (symbol, consumed) = decode(record)?;
    Ok(Answer::new(record, consumed).put(symbol.name()))
}

fn register(record: &[u8], k: u64) -> Reply<'_> {
    let (symbol, consumed) = decode(record)?;
    let entry = match &symbol {
        SymbolData::MultiRegisterVariable(list) => list.registers.get(place(k)),
        _ => None,
    };
    let (register, name) = entry.ok_or(Refusal::new(14))?;
    Ok(Answer::new(record, consumed).put(register).put(name))
}

fn scope(record: &[u8]) -> Answer<'_> {
    let symbol = Symbol::of(record);
    Answer::new(record, 0)
        .put(symbol.raw_kind())
        .put(symbol.starts_scope())
        .put(symbol.ends_scope())
}

fn annotation(bytes: &[u8], at: u64) -> Reply<'_> {
    let at = place(at).min(bytes.len());
    let start = BinaryAnnotations::new(&bytes[at..]).iter();
    let mut annotations = start.clone();
    let answer = Answer::new(bytes, at);
    match annotations.next() {
        Ok(None) => Ok(answer.put(0)),
        Ok(Some(instruction)) => {
            let next = at + annotations.pos();
            Ok(answer.put(1).put(instruction).put(next))
        }
        Err(error @ Error::UnknownBinaryAnnotation(_)) => Err(error.into()),
        // pdb tells a number cut off from a malformed one; the answer doesn't.
        Err(_) => Err(Refusal::new(15).at(at + start.unreadable())),
    }
}
