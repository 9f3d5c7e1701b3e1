//! Questions about the annotations of inline sites, one instruction at a time.

use std::sync::LazyLock;

use crate::answer::Op;
use crate::list::Question;
use crate::random::Random;
use crate::reading::decode;
use crate::scopes::REAL_RECORDS;
use crate::steps;
use crate::symbol::*;

/// Codes that no instruction has.
const UNKNOWN: [u32; 6] = [14, 15, 0x7f, 0x80, 0x4000, 0x1fff_ffff];

/// How many bytes a number takes.
const WIDTHS: [usize; 3] = [1, 2, 4];

/// The signs and the borders of the widths and of the packed instruction's two operands.
const OPERANDS: [u32; 14] = [
    0,
    1,
    2,
    3,
    0xf,
    0x10,
    0x11,
    0x1f,
    0x7f,
    0x80,
    0x3fff,
    0x4000,
    0x1fff_fffe,
    0x1fff_ffff,
];

/// A number in so many bytes, cut to what they hold.
fn number(value: u32, width: usize) -> Vec<u8> {
    let bytes = match width {
        1 => value & 0x7f,
        2 => value & 0x3fff | 0x8000,
        _ => value & 0x1fff_ffff | 0xc000_0000,
    };
    bytes.to_be_bytes()[4 - width..].to_vec()
}

/// The least width that holds a value.
fn least(value: u32) -> usize {
    match value {
        ..0x80 => 1,
        ..0x4000 => 2,
        _ => 4,
    }
}

fn ask(at: usize, bytes: &[u8]) -> Question {
    Question::new(Op::Annotation, at, bytes.to_vec())
}

pub fn grid(random: &mut Random) -> Vec<Question> {
    let mut questions = Vec::new();
    whole_and_cut(&mut questions, random);
    malformed(&mut questions);
    questions
}

/// Each code in each width that holds it, with operands in each width, cut at each length.
fn whole_and_cut(questions: &mut Vec<Question>, random: &mut Random) {
    for code in (0..14).chain(UNKNOWN) {
        for width in WIDTHS.into_iter().filter(|&width| width >= least(code)) {
            for first in WIDTHS {
                for operand in OPERANDS {
                    let second = number(random.pick(&OPERANDS), random.pick(&WIDTHS));
                    let operands = [number(operand, first), second].concat();
                    let bytes = [number(code, width), operands].concat();
                    (0..=bytes.len()).for_each(|length| questions.push(ask(0, &bytes[..length])));
                }
            }
        }
    }
}

/// A number that begins with the bits 111, as a code and as each operand, with each number of bytes behind it.
fn malformed(questions: &mut Vec<Question>) {
    for first in 0xe0..=0xff {
        for behind in 0..5 {
            let bad = [vec![first], vec![1; behind]].concat();
            questions.push(ask(0, &bad));
            for code in 0..15 {
                for before in [0, 1, 2] {
                    let bytes = [vec![code], vec![2; before], bad.clone()].concat();
                    (0..=bytes.len()).for_each(|at| questions.push(ask(at, &bytes)));
                }
            }
        }
    }
}

/// Every string of up to three bytes, from every position and one past the end.
pub fn brief() -> impl Iterator<Item = Question> {
    let strings = |length: usize| {
        (0u32..1 << (8 * length)).map(move |number| number.to_be_bytes()[4 - length..].to_vec())
    };
    let everywhere = |bytes: Vec<u8>| (0..=bytes.len() + 1).map(move |at| ask(at, &bytes));
    (0..=3).flat_map(strings).flat_map(everywhere)
}

/// The annotations of every inline site of the real example.
static SITES: LazyLock<Vec<&[u8]>> = LazyLock::new(|| {
    let annotations = |record: &&'static [u8]| match decode(record) {
        Ok((SymbolData::InlineSite(site), _)) => Some(site.annotations.data()),
        _ => None,
    };
    REAL_RECORDS.iter().filter_map(annotations).collect()
});

/// These, from every position.
pub fn sites() -> impl Iterator<Item = Question> {
    let everywhere = |bytes: &'static [u8]| (0..=bytes.len() + 1).map(move |at| ask(at, bytes));
    SITES.iter().copied().flat_map(everywhere)
}

pub fn question(random: &mut Random) -> Question {
    let (mut bytes, starts) = program(random);
    if random.one_in(3) {
        damage(&mut bytes, random);
    }
    let arg = steps::position(bytes.len(), &starts, random);
    Question {
        op: Op::Annotation,
        arg,
        start: 0,
        bytes,
    }
}

/// Instructions, and where they start; at times those of a real site, which start anywhere.
fn program(random: &mut Random) -> (Vec<u8>, Vec<usize>) {
    if random.one_in(16) {
        let site = random.pick(&SITES);
        return (site.to_vec(), (0..site.len()).collect());
    }
    let mut bytes = Vec::new();
    let mut starts = vec![0];
    for _ in 0..random.below(6) {
        bytes.extend(instruction(random));
        starts.push(bytes.len());
    }
    (bytes, starts)
}

fn instruction(random: &mut Random) -> Vec<u8> {
    let code = match random.below(16) {
        0 => random.pick(&UNKNOWN),
        1 => 0,
        _ => 1 + random.below(13) as u32,
    };
    let operands = match code {
        0 => random.below(2),
        12 => 2,
        _ => 1,
    };
    let width = least(code).max(random.pick(&[1, 1, 1, 2, 4]));
    let mut bytes = number(code, width);
    for _ in 0..operands {
        let value = match random.below(4) {
            0 => random.pick(&OPERANDS),
            _ => (random.number() as u32) >> random.below(32),
        };
        bytes.extend(number(value, random.pick(&WIDTHS)));
    }
    bytes
}

/// Cuts the bytes, changes one, or lets a number begin with the bits 111.
fn damage(bytes: &mut Vec<u8>, random: &mut Random) {
    let place = random.below(bytes.len() + 1);
    match bytes.get_mut(place) {
        Some(byte) if random.one_in(2) => *byte = random.number() as u8,
        Some(byte) if random.one_in(2) => *byte |= 0xe0,
        _ => bytes.truncate(place),
    }
}
