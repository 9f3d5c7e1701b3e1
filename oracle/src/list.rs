//! Lists of cases: blocks of a fixed length, the last one shorter, so that a reader needs one
//! buffer. A block holds whole cases; zeros fill it up, and no op is 0. A case is its op (u8),
//! arg, start, number of bytes, bytes, number of words, words; every number but the op in
//! unsigned LEB128.

use std::fmt;
use std::io::{self, Read, Write};

use crate::answer::Op;

/// What an op is asked: an argument, where reading starts, and the lent bytes. What an op has
/// no use for is 0.
pub struct Question {
    pub op: Op,
    pub arg: u64,
    pub start: u64,
    pub bytes: Vec<u8>,
}

impl Question {
    pub fn new(op: Op, arg: usize, bytes: Vec<u8>) -> Self {
        let arg = arg as u64;
        let start = 0;
        Question {
            op,
            arg,
            start,
            bytes,
        }
    }
}

pub struct Case {
    pub question: Question,
    pub words: Vec<u64>,
}

const BLOCK: usize = 262_144;

pub struct Writer<W> {
    out: W,
    block: Vec<u8>,
}

impl<W: Write> Writer<W> {
    pub fn new(out: W) -> Self {
        let block = Vec::new();
        Writer { out, block }
    }

    pub fn write(&mut self, case: &Case) -> io::Result<()> {
        let encoded = encode(case);
        assert!(encoded.len() <= BLOCK);
        if self.block.len() + encoded.len() > BLOCK {
            self.block.resize(BLOCK, 0);
            self.out.write_all(&self.block)?;
            self.block.clear();
        }
        self.block.extend(encoded);
        Ok(())
    }

    pub fn finish(mut self) -> io::Result<()> {
        self.out.write_all(&self.block)?;
        self.out.flush()
    }
}

fn encode(case: &Case) -> Vec<u8> {
    let Question {
        op,
        arg,
        start,
        bytes,
    } = &case.question;
    let mut out = vec![*op as u8];
    encode_number(&mut out, *arg);
    encode_number(&mut out, *start);
    encode_number(&mut out, bytes.len() as u64);
    out.extend(bytes);
    encode_number(&mut out, case.words.len() as u64);
    for word in &case.words {
        encode_number(&mut out, *word);
    }
    out
}

fn encode_number(out: &mut Vec<u8>, mut number: u64) {
    while number >= 0x80 {
        out.push(number as u8 | 0x80);
        number >>= 7;
    }
    out.push(number as u8);
}

/// The next block, none at the end of the list.
pub fn read_block(list: &mut impl Read) -> io::Result<Option<Vec<u8>>> {
    let mut block = Vec::new();
    list.take(BLOCK as u64).read_to_end(&mut block)?;
    Ok(Some(block).filter(|block| !block.is_empty()))
}

/// Takes the first case off a block.
pub fn take_case(block: &mut &[u8]) -> io::Result<Case> {
    let op = Op::numbered(take(block, 1)?[0]).ok_or_else(|| malformed("there is no such op"))?;
    let arg = take_number(block)?;
    let start = take_number(block)?;
    let length = take_number(block)?;
    let bytes = take(block, length)?.to_vec();
    let count = take_number(block)?;
    let words = (0..count)
        .map(|_| take_number(block))
        .collect::<io::Result<_>>()?;
    let question = Question {
        op,
        arg,
        start,
        bytes,
    };
    Ok(Case { question, words })
}

fn take_number(block: &mut &[u8]) -> io::Result<u64> {
    let mut number = 0;
    for place in (0..64).step_by(7) {
        let byte = take(block, 1)?[0];
        let bits = u64::from(byte & 0x7f);
        number |= bits << place;
        if (number >> place) != bits {
            break;
        }
        if byte < 0x80 {
            return Ok(number);
        }
    }
    Err(malformed("a number is above 64 bits"))
}

fn take<'b>(block: &mut &'b [u8], length: u64) -> io::Result<&'b [u8]> {
    let length = usize::try_from(length).unwrap_or(usize::MAX);
    let (taken, rest) = block
        .split_at_checked(length)
        .ok_or_else(|| malformed("a case is cut off"))?;
    *block = rest;
    Ok(taken)
}

fn malformed(reason: &str) -> io::Error {
    io::Error::new(
        io::ErrorKind::InvalidData,
        format!("not a list of cases: {reason}"),
    )
}

impl fmt::Display for Question {
    fn fmt(&self, f: &mut fmt::Formatter) -> fmt::Result {
        write!(f, "{} {} {} ", self.op.name(), self.arg, self.start)?;
        if self.bytes.is_empty() {
            return write!(f, "-");
        }
        self.bytes
            .iter()
            .try_for_each(|byte| write!(f, "{byte:02x}"))
    }
}

/// A question as a person writes it: `OP ARG START HEX`, with `-` for no bytes.
pub fn parse_question(line: &str) -> Result<Question, String> {
    let fields: Vec<&str> = line.split_whitespace().collect();
    let [op, arg, start, hex] = fields[..] else {
        return Err(format!("{line:?} is not of the form OP ARG START HEX"));
    };
    let op = Op::named(op).ok_or_else(|| format!("there is no op {op:?}"))?;
    let arg = parse_number(arg)?;
    let start = parse_number(start)?;
    if arg > op.largest() {
        return Err(format!(
            "{arg} is above {}, the largest {}",
            op.largest(),
            op.name()
        ));
    }
    let bytes = parse_hex(hex).ok_or_else(|| format!("{hex:?} is not in hexadecimal"))?;
    Ok(Question {
        op,
        arg,
        start,
        bytes,
    })
}

pub fn parse_number(number: &str) -> Result<u64, String> {
    number
        .parse()
        .map_err(|_| format!("{number:?} is not a number of 64 bits"))
}

fn parse_hex(hex: &str) -> Option<Vec<u8>> {
    if hex == "-" {
        return Some(Vec::new());
    }
    let digits: Option<Vec<u32>> = hex.chars().map(|digit| digit.to_digit(16)).collect();
    let pair = |pair: &[u32]| Some((pair[0] * 16 + pair.get(1)?) as u8);
    digits?.chunks(2).map(pair).collect()
}

pub fn text(words: &[u64]) -> String {
    let words: Vec<String> = words.iter().map(u64::to_string).collect();
    words.join(" ")
}
