//! Questions about the nesting of scopes: the check and the finders, and in a real stream steps.

use std::iter;
use std::sync::LazyLock;

use crate::answer::{class, Op};
use crate::list::Question;
use crate::nesting::{opens, END, PARENT};
use crate::random::Random;
use crate::reading::{step, symbols_from};
use crate::symbol::*;
use crate::{records, steps};

const OPS: [Op; 4] = [Op::Check, Op::Walk, Op::Jump, Op::Climb];

const CLOSERS: [u16; 3] = [S_END, S_PROC_ID_END, S_INLINESITE_END];

/// The kinds that open a scope to the check and the finders.
static OPENERS: LazyLock<Vec<u16>> = LazyLock::new(|| {
    (0..=u16::MAX)
        .filter(|kind| opens(&Symbol::of(&kind.to_le_bytes())))
        .collect()
});

/// Those of them whose links can be read.
static LINKED: LazyLock<Vec<u16>> = LazyLock::new(|| {
    OPENERS
        .iter()
        .copied()
        .filter(|&kind| class(kind) != 0)
        .collect()
});

const REAL: &[u8] = include_bytes!("../../examples/nested.sym");

/// The records of the real example.
pub static REAL_RECORDS: LazyLock<Vec<&[u8]>> = LazyLock::new(|| {
    let mut symbols = symbols_from(REAL, 4);
    let next = || step(&mut symbols).ok().flatten();
    iter::from_fn(next)
        .map(|symbol| symbol.raw_bytes())
        .collect()
});

/// A stream, where its records start, the fillers and the stream's end included, and which of
/// them open a scope.
pub struct Stream {
    pub bytes: Vec<u8>,
    pub starts: Vec<usize>,
    pub openers: Vec<usize>,
}

impl Stream {
    fn read(bytes: Vec<u8>, start: usize) -> Self {
        let mut starts = vec![start];
        let mut openers = Vec::new();
        let mut at = start;
        while let Some(&length) = bytes.get(at..).and_then(|rest| rest.first_chunk()) {
            let next = at + 2 + usize::from(u16::from_le_bytes(length));
            if opens(&Symbol::of(&bytes[at + 2..next])) {
                openers.push(at);
            }
            starts.push(next);
            at = next;
        }
        Stream {
            bytes,
            starts,
            openers,
        }
    }

    /// The records behind a signature, with links that say how they lie in one another.
    fn of(mut records: Vec<Vec<u8>>, random: &mut Random) -> Self {
        let signature = random.pick(&[4, 4, 4, 0, 7]);
        let mut bytes = random.bytes(signature);
        link(&mut records, signature);
        for record in records {
            bytes.extend((record.len() as u16).to_le_bytes());
            bytes.extend(record);
        }
        Stream::read(bytes, signature)
    }

    /// An opener, the first and the last more often: of a tower the outermost and the innermost.
    fn opener(&self, random: &mut Random) -> Option<usize> {
        match random.below(3) {
            0 => self.openers.first().copied(),
            1 => self.openers.last().copied(),
            _ if self.openers.is_empty() => None,
            _ => Some(random.pick(&self.openers)),
        }
    }

    pub fn position(&self, random: &mut Random) -> u64 {
        steps::position(self.bytes.len(), &self.starts, random)
    }

    pub fn asked(&self, op: Op, arg: u64, start: u64) -> Question {
        let bytes = self.bytes.clone();
        Question {
            op,
            arg,
            start,
            bytes,
        }
    }
}

/// Sets the links of records of which the first stands at this position.
fn link(records: &mut [Vec<u8>], first: usize) {
    let mut open = Vec::new();
    let mut at = first;
    for place in 0..records.len() {
        let symbol = Symbol::of(&records[place]);
        if opens(&symbol) {
            let parent = open.last().map_or(0, |&(_, opener)| opener);
            open.push((place, at));
            put(&mut records[place], PARENT, parent);
        } else if symbol.ends_scope() {
            if let Some((opener, _)) = open.pop() {
                put(&mut records[opener], END, at);
            }
        }
        at += 2 + records[place].len();
    }
}

/// Sets a field that the bytes have room for.
pub fn put(bytes: &mut [u8], field: usize, value: usize) {
    if let Some(field) = bytes.get_mut(field..field + 4) {
        field.copy_from_slice(&(value as u32).to_le_bytes());
    }
}

/// Every position of small streams, from each of their records and from outside.
pub fn grid(random: &mut Random) -> Vec<Question> {
    let streams = iter::repeat_with(|| any_stream(random));
    let small: Vec<Stream> = streams
        .filter(|stream| stream.bytes.len() <= 160)
        .take(100)
        .collect();
    small.iter().flat_map(everywhere).collect()
}

fn everywhere(stream: &Stream) -> Vec<Question> {
    let beyond = (1 << 32) + stream.starts[0] as u64;
    let positions = || (0..=stream.bytes.len() as u64 + 1).chain([beyond]);
    let mut questions = Vec::new();
    questions.extend(positions().map(|start| stream.asked(Op::Check, 0, start)));
    questions.extend(positions().map(|i| stream.asked(Op::Climb, i, 0)));
    for op in [Op::Walk, Op::Jump] {
        let starts = stream.starts.iter().map(|&start| start as u64);
        for start in starts.chain([0, beyond]) {
            questions.extend(positions().map(|i| stream.asked(op, i, start)));
        }
    }
    questions
}

pub fn question(random: &mut Random) -> Question {
    let stream = any_stream(random);
    let op = random.pick(&OPS);
    ask(op, &stream, random)
}

/// A question about a real stream, or about a damaged copy of it.
pub fn real_question(random: &mut Random) -> Question {
    let mut stream = Stream::read(REAL.to_vec(), 4);
    for _ in 0..random.below(4) {
        damage(&mut stream, random);
    }
    let [check, walk, jump, climb] = OPS;
    let op = random.pick(&[check, walk, jump, climb, Op::Step]);
    ask(op, &stream, random)
}

fn ask(op: Op, stream: &Stream, random: &mut Random) -> Question {
    let openers = if op == Op::Climb { 3 } else { 1 };
    let arg = match op {
        Op::Check => 0,
        _ if random.below(4) < openers => stream.opener(random).unwrap_or_default() as u64,
        _ => stream.position(random),
    };
    let start = match op {
        Op::Climb | Op::Step => 0,
        _ if random.one_in(8) => stream.position(random),
        _ => stream.starts[0] as u64,
    };
    stream.asked(op, arg, start)
}

/// A stream with links as they should be, at times nested too deep, or a damaged one.
fn any_stream(random: &mut Random) -> Stream {
    let records = match random.below(8) {
        0 => high_tower(random),
        _ => nested(random),
    };
    stream_of(records, |_, _| (), random)
}

/// A stream of these records with links as they should be, and whatever else is laid in it, or a damaged one.
pub fn stream_of(
    mut records: Vec<Vec<u8>>,
    lay: fn(&mut Stream, &mut Random),
    random: &mut Random,
) -> Stream {
    let harm = random.below(8);
    if harm == 0 {
        disorder(&mut records, random);
    }
    let mut stream = Stream::of(records, random);
    lay(&mut stream, random);
    if matches!(harm, 1..=3) {
        damage(&mut stream, random);
    }
    stream
}

/// Records in which every scope that opens closes.
pub fn nested(random: &mut Random) -> Vec<Vec<u8>> {
    let mut records = Vec::new();
    let mut open = Vec::new();
    for _ in 0..random.below(12) {
        match random.below(8) {
            0..=2 => {
                let kind = opener(&LINKED, random);
                records.push(records::well_formed(kind, random));
                open.push(kind);
            }
            3 | 4 => records.extend(open.pop().map(|kind| closer(kind, random))),
            _ => records.push(neither(random)),
        }
    }
    records.extend(closers(open, random));
    records
}

/// About as many scopes within one another as may be open, other records and closed scopes among them.
pub fn high_tower(random: &mut Random) -> Vec<Vec<u8>> {
    let depth = 62 + random.below(6);
    let mut records = Vec::new();
    let mut open = Vec::new();
    for _ in 0..depth {
        if random.one_in(16) {
            records.push(neither(random));
            records.push(site());
            records.push(closer(S_INLINESITE, random));
        }
        let kind = opener(&[S_INLINESITE], random);
        records.push(match kind {
            S_INLINESITE => site(),
            _ => records::well_formed(kind, random),
        });
        open.push(kind);
    }
    records.extend(closers(open, random));
    records
}

/// The kind of an opener: one in five S_LPROC32_ID, else one of these.
fn opener(others: &[u16], random: &mut Random) -> u16 {
    if random.one_in(5) {
        S_LPROC32_ID
    } else {
        random.pick(others)
    }
}

/// The shortest record that opens a scope.
fn site() -> Vec<u8> {
    [&S_INLINESITE.to_le_bytes()[..], &[0; 12]].concat()
}

/// The closers of openers that are left open.
fn closers(open: Vec<u16>, random: &mut Random) -> impl Iterator<Item = Vec<u8>> + '_ {
    let innermost_first = open.into_iter().rev();
    innermost_first.map(|kind| closer(kind, random))
}

/// The closer that belongs to an opener, at times another.
fn closer(opener: u16, random: &mut Random) -> Vec<u8> {
    let kind = match opener {
        _ if random.one_in(8) => random.pick(&CLOSERS),
        S_INLINESITE | S_INLINESITE2 => S_INLINESITE_END,
        S_GPROC32_ID | S_LPROC32_ID | S_LPROC32_DPC_ID => S_PROC_ID_END,
        _ => S_END,
    };
    let ignored = random.pick(&[0, 0, 0, 3]);
    [kind.to_le_bytes().to_vec(), random.bytes(ignored)].concat()
}

/// A record that neither opens nor closes a scope; often a filler.
fn neither(random: &mut Random) -> Vec<u8> {
    let record = steps::record(random);
    let symbol = Symbol::of(&record);
    if opens(&symbol) || symbol.ends_scope() {
        return neither(random);
    }
    record
}

/// Puts in an opener or a closer, takes a record or all the last ones away, or spoils one. This is
/// done before links are laid, so that the others are right.
fn disorder(records: &mut Vec<Vec<u8>>, random: &mut Random) {
    let place = random.below(records.len() + 1);
    let next = records.len().min(place + 1);
    match random.below(6) {
        0 => {
            let kind = random.pick(&OPENERS);
            records.insert(place, records::well_formed(kind, random));
        }
        1 => records.insert(place, closer(S_END, random)),
        2 => records.truncate(place),
        3 => drop(records.drain(place..next)),
        _ => {
            if let Some(record) = records.get_mut(place) {
                let kind = Symbol::of(record).raw_kind();
                records::damage(kind, record, random);
            }
        }
    }
}

/// Changes a link, a kind, a length or any byte, or cuts the stream off.
fn damage(stream: &mut Stream, random: &mut Random) {
    let start = random.pick(&stream.starts);
    match random.below(8) {
        0..=3 => relink(stream, random),
        4 => {
            let kind = any_kind(random);
            let bytes = stream.bytes.iter_mut().skip(start + 2);
            bytes
                .zip(kind.to_le_bytes())
                .for_each(|(byte, new)| *byte = new);
        }
        5 => stream.bytes.truncate(start),
        6 => {
            let place = random.below(stream.bytes.len() + 1);
            let byte = stream.bytes.get_mut(place);
            byte.into_iter()
                .for_each(|byte| *byte = random.number() as u8);
        }
        _ => steps::damage(&mut stream.bytes, &stream.starts, random),
    }
}

fn any_kind(random: &mut Random) -> u16 {
    match random.below(4) {
        0 => random.pick(&OPENERS),
        1 => random.pick(&CLOSERS),
        2 => random.pick(&[S_ALIGN, S_SKIP]),
        _ => records::kind(random),
    }
}

/// Lets a link lead to none, to the opener itself, behind it, to another record, of these often to
/// the one before the right one, or anywhere.
fn relink(stream: &mut Stream, random: &mut Random) {
    let Some(opener) = stream.opener(random) else {
        return;
    };
    let field = opener + 2 + random.pick(&[PARENT, END]);
    let Some(&right) = stream
        .bytes
        .get(field..)
        .and_then(|rest| rest.first_chunk())
    else {
        return;
    };
    let right = u32::from_le_bytes(right) as usize;
    let mut starts = stream.starts.iter().copied();
    let target = match random.below(8) {
        0 => 0,
        1 => opener,
        2 => starts.find(|&start| start > opener).unwrap_or_default(),
        3 => starts.rfind(|&start| start < right).unwrap_or_default(),
        4 => random.pick(&stream.openers),
        5 => random.pick(&stream.starts),
        6 => random.below(stream.bytes.len() + 1),
        _ => stream.position(random) as usize,
    };
    put(&mut stream.bytes, field, target);
}
