//! Questions about numbers, names and numeric values at a position.

use crate::answer::Op;
use crate::list::Question;
use crate::random::Random;

const WIDE: [Op; 7] = [Op::U8, Op::U16, Op::U32, Op::U64, Op::I16, Op::I32, Op::I64];

/// The prefixes that mean something, and those around them.
const PREFIXES: std::ops::RangeInclusive<u16> = 0x7ff0..=0x8020;

pub fn grid(_: &mut Random) -> Vec<Question> {
    let numeric = |bytes| Question::new(Op::Numeric, 0, bytes);
    let mut questions: Vec<Question> = numerics().map(numeric).collect();
    numbers(&mut questions);
    names(&mut questions);
    questions
}

/// All ones, the least signed value of this width, and bytes that all differ.
pub fn fills(length: u8) -> [Vec<u8>; 3] {
    let mut least = vec![0; length.into()];
    if let Some(last) = least.last_mut() {
        *last = 0x80;
    }
    [vec![0xff; length.into()], least, (1..=length).collect()]
}

/// Each prefix with each number of bytes after it.
pub fn numerics() -> impl Iterator<Item = Vec<u8>> {
    let followed = |prefix: u16| {
        let fills = (0..=9).flat_map(fills);
        fills.map(move |fill| [&prefix.to_le_bytes()[..], &fill].concat())
    };
    PREFIXES.flat_map(followed)
}

/// Each width with each number of bytes there, from before them to past the end.
fn numbers(questions: &mut Vec<Question>) {
    for op in WIDE {
        for fill in (0..=9).flat_map(fills) {
            for before in 0..3 {
                let bytes = [&vec![0x55; before][..], &fill].concat();
                for at in 0..=before + 1 {
                    questions.push(Question::new(op, at, bytes.clone()));
                }
            }
        }
    }
}

/// All bytes of some few values and at most four of them, read as names from everywhere.
fn names(questions: &mut Vec<Question>) {
    for bytes in words_over(&[0, 1, 2, 0xff], 4) {
        for at in 0..=bytes.len() + 1 {
            questions.push(Question::new(Op::Cstring, at, bytes.clone()));
            questions.push(Question::new(Op::Pascal, at, bytes.clone()));
        }
    }
}

/// All words over an alphabet up to a length, the shortest first.
pub fn words_over(alphabet: &[u8], length: usize) -> Vec<Vec<u8>> {
    let mut words = vec![Vec::new()];
    let mut shorter = 0;
    for _ in 0..length {
        let longest = shorter..words.len();
        shorter = words.len();
        for place in longest {
            for &letter in alphabet {
                words.push([&words[place][..], &[letter]].concat());
            }
        }
    }
    words
}

pub fn question(random: &mut Random) -> Question {
    let length = random.below(25);
    let at = position(random, length);
    let mut bytes = random.bytes(length);
    let op = match random.below(6) {
        0 | 1 => random.pick(&WIDE),
        2 => Op::Cstring,
        3 => Op::Pascal,
        _ => Op::Numeric,
    };
    match bytes.get_mut(at as usize..) {
        Some(rest) if op == Op::Cstring => put_zero(random, rest),
        Some(rest) if op == Op::Pascal => put_length(random, rest),
        Some(rest) if op == Op::Numeric => put_prefix(random, rest),
        _ => {}
    }
    Question {
        op,
        arg: at,
        start: 0,
        bytes,
    }
}

/// A position within the bytes, about their end, or far beyond.
fn position(random: &mut Random, length: usize) -> u64 {
    let at = match random.below(16) {
        0 => length + random.below(4),
        1 => return random.number() >> random.below(64),
        2..=5 => length.saturating_sub(random.below(12)),
        _ => random.below(length / 2 + 1),
    };
    at as u64
}

/// A name that ends somewhere or, at times, nowhere.
fn put_zero(random: &mut Random, bytes: &mut [u8]) {
    bytes.copy_from_slice(&random.letters(bytes.len()));
    if !bytes.is_empty() && !random.one_in(4) {
        bytes[random.below(bytes.len())] = 0;
    }
}

/// A length that all the rest fits, by more, exactly, or not.
fn put_length(random: &mut Random, bytes: &mut [u8]) {
    let room = bytes.len();
    if let Some(length) = bytes.first_mut() {
        *length = match random.below(8) {
            0 => random.number() as u8,
            1 | 2 => room as u8,
            3 | 4 => room as u8 - 1,
            _ => random.below(room) as u8,
        };
    }
}

fn put_prefix(random: &mut Random, bytes: &mut [u8]) {
    let value = numeric(random);
    let length = bytes.len().min(value.len());
    bytes[..length].copy_from_slice(&value[..length]);
}

/// A prefix, mostly one that means something, and the value that it says follows.
pub fn numeric(random: &mut Random) -> Vec<u8> {
    let prefix = match random.below(8) {
        0 => random.number() as u16,
        1 => random.below(0x8000) as u16,
        2 => PREFIXES.start() + random.below(PREFIXES.count()) as u16,
        _ => random.pick(&[0x8000, 0x8001, 0x8002, 0x8003, 0x8004, 0x8009, 0x800a]),
    };
    let width = match prefix {
        0x8000 => 1,
        0x8001 | 0x8002 => 2,
        0x8003 | 0x8004 => 4,
        0x8009 | 0x800a => 8,
        _ => return prefix.to_le_bytes().to_vec(),
    };
    [&prefix.to_le_bytes()[..], &random.value(width)].concat()
}
