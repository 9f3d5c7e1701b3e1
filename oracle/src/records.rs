//! Questions about single records.

use std::sync::LazyLock;

use crate::answer::{class, Op};
use crate::list::Question;
use crate::numbers;
use crate::random::Random;
use crate::symbol::*;

const CONSTANT: u64 = 4;
const USER_TYPE: u64 = 5;
const REGISTERS: u64 = 6;
pub const PROCEDURE: u64 = 9;
const INLINE_SITE: u64 = 20;
pub const THUNK: u64 = 26;

const THUNK_CODES: [u8; 8] = [0, 1, 2, 3, 4, 5, 6, 255];

/// Some that pdb doesn't decode: none, both fillers, an opener, and the last kind.
const UNKNOWN: [u16; 5] = [0, S_ALIGN, S_SKIP, S_GMANPROC, 0xffff];

/// The kinds that pdb decodes, by its own word.
static KINDS: LazyLock<Vec<u16>> =
    LazyLock::new(|| (0..=u16::MAX).filter(|&kind| class(kind) != 0).collect());

fn kinds_of(wanted: u64) -> impl Iterator<Item = u16> {
    KINDS
        .iter()
        .copied()
        .filter(move |&kind| class(kind) == wanted)
}

/// What follows the part of a body whose length is fixed.
enum Tail {
    Nothing,
    Name,
    NumericAndName,
    Registers,
    Thunk,
    Anything,
}

/// How long the fixed part of a body is, and its tail.
fn layout(kind: u16) -> (usize, Tail) {
    match class(kind) {
        0 => (0, Tail::Anything),
        2 | USER_TYPE | 17 => (4, Tail::Name),
        3 | 18 => (6, Tail::Name),
        CONSTANT => (4, Tail::NumericAndName),
        REGISTERS => (4, Tail::Registers),
        7 | 8 | 10 | 15 | 25 => (10, Tail::Name),
        PROCEDURE => (35, Tail::Name),
        11 if kind == S_COMPILE3 => (22, Tail::Name),
        11 => (18, Tail::Name),
        12 => (0, Tail::Name),
        13 | 14 if kind < S_ST_MAX => (10, Tail::Nothing),
        13 | 14 => (10, Tail::Name),
        16 => (16, Tail::Nothing),
        19 => (4, Tail::Nothing),
        INLINE_SITE if kind == S_INLINESITE2 => (16, Tail::Anything),
        INLINE_SITE => (12, Tail::Anything),
        23 => (7, Tail::Name),
        24 => (18, Tail::Name),
        THUNK => (20, Tail::Thunk),
        27 => (28, Tail::Nothing),
        _ => (0, Tail::Nothing),
    }
}

fn head(kind: u16, random: &mut Random) -> Vec<u8> {
    [kind.to_le_bytes().to_vec(), random.bytes(layout(kind).0)].concat()
}

/// A record that pdb decodes to its last byte, if it decodes the kind.
pub fn well_formed(kind: u16, random: &mut Random) -> Vec<u8> {
    let tail = match layout(kind).1 {
        Tail::Nothing => Vec::new(),
        Tail::Name => name(kind, random),
        Tail::NumericAndName => [numbers::numeric(random), name(kind, random)].concat(),
        Tail::Registers => {
            let entries = if random.one_in(8) {
                random.below(256)
            } else {
                random.below(6)
            };
            registers(kind, entries, entries, random)
        }
        Tail::Thunk => {
            let code = random.pick(&THUNK_CODES);
            thunk(kind, code, random)
        }
        Tail::Anything => {
            let length = random.below(40);
            random.bytes(length)
        }
    };
    [head(kind, random), tail].concat()
}

fn name(kind: u16, random: &mut Random) -> Vec<u8> {
    let length = match random.below(32) {
        0 => 255,
        length => length / 3,
    };
    name_of(kind, length, random)
}

fn name_of(kind: u16, length: usize, random: &mut Random) -> Vec<u8> {
    if kind < S_ST_MAX {
        [vec![length as u8], random.bytes(length)].concat()
    } else {
        [random.letters(length), vec![0]].concat()
    }
}

/// A list that says how many entries it has, truly or not.
fn registers(kind: u16, said: usize, entries: usize, random: &mut Random) -> Vec<u8> {
    let width = if matches!(kind, S_MANYREG2 | S_MANYREG2_ST) {
        2
    } else {
        1
    };
    let mut list = said.to_le_bytes()[..width].to_vec();
    for _ in 0..entries {
        let length = random.below(4);
        list.extend(random.value(2));
        list.extend(name_of(kind, length, random));
    }
    list
}

fn thunk(kind: u16, code: u8, random: &mut Random) -> Vec<u8> {
    let mut tail = [vec![code], name(kind, random)].concat();
    if matches!(code, 1 | 2) {
        tail.extend(random.value(2));
    }
    if code == 1 {
        let length = random.below(10);
        tail.extend(random.letters(length));
        tail.push(0);
    }
    tail
}

pub fn grid(random: &mut Random) -> Vec<Question> {
    let mut questions = Vec::new();
    tiny(&mut questions);
    whole_and_cut(&mut questions, random);
    thunks(&mut questions, random);
    lists(&mut questions, random);
    every_count(&mut questions, random);
    any_bodies(&mut questions, random);
    constants(&mut questions);
    large(&mut questions, random);
    questions
}

const OPS: [Op; 4] = [Op::Decode, Op::Name, Op::Register, Op::Scope];

/// Records that have no kind.
fn tiny(questions: &mut Vec<Question>) {
    for op in OPS {
        questions.push(Question::new(op, 0, vec![]));
        questions.push(Question::new(op, 0, vec![0x06]));
    }
}

/// Of each kind a record as it should be and cut at each length.
fn whole_and_cut(questions: &mut Vec<Question>, random: &mut Random) {
    for kind in KINDS.iter().copied().chain(UNKNOWN) {
        let record = well_formed(kind, random);
        questions.extend(OPS.map(|op| Question::new(op, 0, record.clone())));
        cut(questions, &record);
    }
}

fn cut(questions: &mut Vec<Question>, record: &[u8]) {
    for length in 0..=record.len().min(100) {
        questions.push(Question::new(Op::Decode, 0, record[..length].to_vec()));
    }
}

/// Each variant of a thunk, whole and cut.
fn thunks(questions: &mut Vec<Question>, random: &mut Random) {
    for kind in kinds_of(THUNK) {
        for code in THUNK_CODES {
            let record = [head(kind, random), thunk(kind, code, random)].concat();
            cut(questions, &record);
        }
    }
}

/// Lists that hold fewer entries than they say, as many, and more.
fn lists(questions: &mut Vec<Question>, random: &mut Random) {
    for kind in kinds_of(REGISTERS) {
        for said in 0usize..7 {
            for entries in said.saturating_sub(1)..=said + 1 {
                let list = registers(kind, said, entries, random);
                let record = [head(kind, random), list].concat();
                questions.push(Question::new(Op::Decode, 0, record.clone()));
                for k in 0..=said + 1 {
                    questions.push(Question::new(Op::Register, k, record.clone()));
                }
            }
        }
    }
}

/// Lists of every count that a byte holds, and the last entry asked for.
fn every_count(questions: &mut Vec<Question>, random: &mut Random) {
    for kind in kinds_of(REGISTERS) {
        for count in 0usize..256 {
            let list = registers(kind, count, count, random);
            let record = [head(kind, random), list].concat();
            questions.push(Question::new(Op::Decode, 0, record.clone()));
            let last = count.saturating_sub(1);
            questions.push(Question::new(Op::Register, last, record));
        }
    }
}

/// Of each kind a random body of each length.
fn any_bodies(questions: &mut Vec<Question>, random: &mut Random) {
    for length in 0..=100 {
        for kind in KINDS.iter().copied().chain(UNKNOWN) {
            let record = [kind.to_le_bytes().to_vec(), random.bytes(length)].concat();
            questions.push(Question::new(Op::Decode, 0, record));
        }
    }
}

/// Constants of each numeric prefix with each number of bytes after it.
fn constants(questions: &mut Vec<Question>) {
    for kind in kinds_of(CONSTANT) {
        for numeric in numbers::numerics() {
            let record = [&kind.to_le_bytes()[..], &[1, 2, 3, 4], &numeric, b"\x01k\0"].concat();
            questions.push(Question::new(Op::Decode, 0, record));
        }
    }
}

/// The constant of document 01's P10 with -1 and with the least value at 16, 32 and 64 bits.
pub fn signed() -> impl Iterator<Item = Question> {
    let constants = |(prefix, width): (u16, u8)| {
        let [ones, least, _] = numbers::fills(width);
        [ones, least].map(|value| {
            let head = [0x07, 0x11, 0x00, 0x10, 0x00, 0x00];
            let record = [&head[..], &prefix.to_le_bytes(), &value, b"k\0"].concat();
            Question::new(Op::Decode, 0, record)
        })
    };
    [(0x8001, 2), (0x8003, 4), (0x8009, 8)]
        .into_iter()
        .flat_map(constants)
}

const LONGEST: usize = 65_535;

/// Records as long as they may be, and longer ones.
fn large(questions: &mut Vec<Question>, random: &mut Random) {
    for length in [LONGEST, LONGEST + 1, 70_000] {
        questions.push(long_named(Op::Decode, length, random));
    }
    for length in [LONGEST, LONGEST + 1] {
        questions.push(long_named(Op::Name, length, random));
        questions.push(long_list(Op::Register, length, random));
    }
    questions.push(long_list(Op::Decode, LONGEST, random));
    questions.push(long_named(Op::Scope, 70_000, random));
}

/// A name that reaches to the end of its record.
fn long_named(op: Op, length: usize, random: &mut Random) -> Question {
    let kind = kinds_of(USER_TYPE).max().unwrap_or_default();
    let head = head(kind, random);
    let name = name_of(kind, length - head.len() - 1, random);
    Question::new(op, 0, [head, name].concat())
}

/// As many registers as a record has room for, and the last of them asked for.
fn long_list(op: Op, length: usize, random: &mut Random) -> Question {
    let entries = (length - 8) / 3;
    let mut record = head(S_MANYREG2, random);
    record.extend((entries as u16).to_le_bytes());
    while record.len() + 3 <= length {
        record.extend(random.value(2));
        record.push(0);
    }
    record.resize(length, 0);
    Question::new(op, entries - 1, record)
}

/// A record about as long as one may be.
fn long(random: &mut Random) -> Question {
    let length = LONGEST - 1 + random.below(3);
    let op = random.pick(&OPS);
    match op {
        Op::Register => long_list(op, length, random),
        _ => long_named(op, length, random),
    }
}

pub fn question(random: &mut Random) -> Question {
    if random.one_in(16_384) {
        return long(random);
    }
    let kind = kind(random);
    let mut record = well_formed(kind, random);
    match random.below(8) {
        0 => record = any_body(kind, random),
        1..=3 => damage(kind, &mut record, random),
        4 => record.extend(any_body(kind, random)),
        _ => {}
    }
    let op = match class(kind) {
        REGISTERS if !random.one_in(3) => Op::Register,
        _ => random.pick(&[
            Op::Decode,
            Op::Decode,
            Op::Decode,
            Op::Name,
            Op::Name,
            Op::Scope,
        ]),
    };
    let arg = match op {
        Op::Register => entry(&record, random),
        _ => 0,
    };
    Question {
        op,
        arg,
        start: 0,
        bytes: record,
    }
}

pub fn kind(random: &mut Random) -> u16 {
    match random.below(24) {
        0 => random.number() as u16,
        1 => random.below(0x0410) as u16,
        2 => 0x1000 + random.below(0x0170) as u16,
        // There are few kinds of lists and thunks, and much to say of them.
        3..=5 => {
            let class = random.pick(&[REGISTERS, REGISTERS, THUNK, CONSTANT]);
            let kinds: Vec<u16> = kinds_of(class).collect();
            random.pick(&kinds)
        }
        _ => random.pick(&KINDS),
    }
}

fn any_body(kind: u16, random: &mut Random) -> Vec<u8> {
    let length = random.below(101);
    [kind.to_le_bytes().to_vec(), random.bytes(length)].concat()
}

pub fn damage(kind: u16, record: &mut Vec<u8>, random: &mut Random) {
    let tail = 2 + layout(kind).0;
    let place = random.below(record.len());
    match random.below(6) {
        0 => record.truncate(place),
        1 => record.truncate(record.len() - 1),
        2 => record[place] = random.number() as u8,
        // A name without its zero.
        3 => record
            .iter_mut()
            .skip(tail)
            .for_each(|byte| *byte = (*byte).max(1)),
        // A name's length, a count, a prefix or a thunk's code is off by a little or by much.
        4 => record
            .iter_mut()
            .skip(tail)
            .take(1)
            .for_each(|byte| *byte = byte.wrapping_add(1)),
        _ => record
            .iter_mut()
            .skip(tail)
            .take(1)
            .for_each(|byte| *byte = random.number() as u8),
    }
}

/// An entry of a list: one that it says it has, the one after the last, or any.
fn entry(record: &[u8], random: &mut Random) -> u64 {
    let said = record.get(6).copied().unwrap_or_default();
    match random.below(8) {
        0 => said.into(),
        1 => random.number() >> random.below(64),
        2 => u64::from(said) + 1,
        _ => random.below(usize::from(said) + 1).saturating_sub(1) as u64,
    }
}
