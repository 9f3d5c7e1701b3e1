//! Questions about a step in a stream.

use crate::answer::Op;
use crate::list::Question;
use crate::numbers::words_over;
use crate::random::Random;
use crate::records;
use crate::symbol::{S_ALIGN, S_SKIP};

/// All short streams over an alphabet in which lengths, fillers and other kinds can be
/// spelt, from every start.
pub fn grid(_: &mut Random) -> Vec<Question> {
    let mut questions = Vec::new();
    for stream in words_over(&[0, 2, 4, 7], 6) {
        for at in 0..=stream.len() + 1 {
            questions.push(Question::new(Op::Step, at, stream.clone()));
        }
    }
    questions
}

pub fn question(random: &mut Random) -> Question {
    let (mut stream, starts) = stream(random);
    if random.one_in(3) {
        damage(&mut stream, &starts, random);
    }
    let arg = position(stream.len(), &starts, random);
    Question {
        op: Op::Step,
        arg,
        start: 0,
        bytes: stream,
    }
}

/// A stream and where its records start, its end included.
fn stream(random: &mut Random) -> (Vec<u8>, Vec<usize>) {
    let signature = random.pick(&[0, 4]);
    let mut stream = random.bytes(signature);
    let mut starts = vec![stream.len()];
    for _ in 0..=random.below(5) {
        let record = record(random);
        stream.extend((record.len() as u16).to_le_bytes());
        stream.extend(record);
        starts.push(stream.len());
    }
    (stream, starts)
}

pub fn record(random: &mut Random) -> Vec<u8> {
    if random.one_in(3) {
        return filler(8, random);
    }
    let kind = records::kind(random);
    let mut record = records::well_formed(kind, random);
    match random.below(4096) {
        0 => record.resize(65_535, 0),
        1..=1024 => record.truncate(64),
        _ => record.truncate(16),
    }
    record
}

/// A filler of either kind with fewer than so many bytes behind it.
pub fn filler(bound: usize, random: &mut Random) -> Vec<u8> {
    let kind: u16 = random.pick(&[S_ALIGN, S_SKIP]);
    let length = random.below(bound);
    [kind.to_le_bytes().to_vec(), random.bytes(length)].concat()
}

pub fn damage(stream: &mut Vec<u8>, starts: &[usize], random: &mut Random) {
    let start = random.pick(starts);
    let length = match random.below(6) {
        0 => 0,
        1 => 1,
        2 => 2,
        3 => random.below(64) as u16,
        4 => random.number() as u16,
        _ => return stream.truncate(random.below(stream.len() + 1)),
    };
    // At the end, a length that nothing follows, or half of one.
    stream.resize(stream.len().max(start + 1 + random.below(2)), 0);
    for (byte, new) in stream[start..].iter_mut().zip(length.to_le_bytes()) {
        *byte = new;
    }
}

/// Mostly one of the starts; else anywhere, about the end, or beyond 32 bits.
pub fn position(length: usize, starts: &[usize], random: &mut Random) -> u64 {
    let start = random.pick(starts) as u64;
    match random.below(16) {
        0 => random.below(length + 1) as u64,
        1 => length.saturating_sub(random.below(5)) as u64,
        2 => (length + random.below(5)) as u64,
        3 => (1 << 32) + start,
        4 => random.number() >> random.below(64),
        _ => start,
    }
}
