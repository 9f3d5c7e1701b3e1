//! Questions about squeezing, of streams with fillers and nexts, and about results: to the check, the
//! walk finder and a second squeeze.

use std::iter;

use crate::answer::{class, Op};
use crate::list::Question;
use crate::nesting::{check, index, opens, Links, END, NEXT, PARENT};
use crate::random::Random;
use crate::records::{PROCEDURE, THUNK};
use crate::scopes::{self, put, Stream, REAL_RECORDS};
use crate::squeeze::{links_of, records, squeeze, Squeezed};
use crate::steps;
use crate::symbol::*;

/// How long the streams may be, so that all lent buffers stay below 65,536 bytes.
const LONGEST: usize = 65_000;

/// Small streams from every start, and into buffers of every length up to their own and one more.
pub fn grid(random: &mut Random) -> Vec<Question> {
    small_streams(random).iter().flat_map(everywhere).collect()
}

pub fn small_streams(random: &mut Random) -> Vec<Stream> {
    iter::repeat_with(|| any_stream(random))
        .filter(|stream| stream.bytes.len() <= 120)
        .take(100)
        .collect()
}

fn everywhere(stream: &Stream) -> Vec<Question> {
    let length = stream.bytes.len() as u64;
    let first = stream.starts[0] as u64;
    let asked = |room, start| stream.asked(Op::Squeeze, room, start);
    let starts = (0..=length + 1).chain([(1 << 32) + first]);
    let from_each = starts.map(|start| {
        result_of(stream, start);
        asked(length, start)
    });
    let into_each = (0..=length + 1).map(|room| asked(room, first));
    from_each.chain(into_each).collect()
}

/// A question about a stream, and at times what there is to ask about the result.
pub fn questions(random: &mut Random) -> Vec<Question> {
    let stream = any_stream(random);
    let start = start(&stream, random);
    let result = result_of(&stream, start);
    let room = match &result {
        Some(result) => room(result.len(), random),
        None => random.below(stream.bytes.len() + 300),
    };
    let mut questions = vec![stream.asked(Op::Squeeze, room as u64, start)];
    if let Some(result) = result.filter(|_| random.one_in(16)) {
        questions.extend(about_result(result, start));
    }
    questions
}

/// The result of a squeeze that is not refused, held against document 02.
fn result_of(stream: &Stream, start: u64) -> Option<Vec<u8>> {
    let Squeezed(result) = squeeze(&stream.bytes, start, u64::MAX).ok()?;
    confirm(&stream.bytes, start, &result);
    Some(result)
}

/// Mostly that of the records; else one of a few from which the check passes, 0, 4, or any.
pub fn start(stream: &Stream, random: &mut Random) -> u64 {
    let first = stream.starts[0] as u64;
    match random.below(8) {
        0 => stream.position(random),
        1 => random.pick(&[0, 4]),
        2 => iter::repeat_with(|| random.pick(&stream.starts) as u64)
            .take(4)
            .find(|&start| check(&stream.bytes, start).is_ok())
            .unwrap_or(first),
        _ => first,
    }
}

/// No room, one byte less than is needed, as much, one more, much more, or any less.
fn room(needed: usize, random: &mut Random) -> usize {
    match random.below(8) {
        0 => 0,
        1 => needed.saturating_sub(1),
        2 => random.below(needed + 1),
        3 => needed + 1,
        4 => needed + random.below(300),
        _ => needed,
    }
}

/// The check, a second squeeze, and the walk to each record.
fn about_result(result: Vec<u8>, start: u64) -> Vec<Question> {
    let asked = |op, arg| Question {
        op,
        arg,
        start,
        bytes: result.clone(),
    };
    let records = kept(&result, start);
    let walks = records.iter().map(|record| asked(Op::Walk, index(record)));
    let again = asked(Op::Squeeze, result.len() as u64);
    [asked(Op::Check, 0), again]
        .into_iter()
        .chain(walks)
        .collect()
}

fn kept(stream: &[u8], start: u64) -> Vec<Symbol<'_>> {
    let records = records(stream, start).ok();
    records.expect("a stream that passes the check")
}

/// Asserts what document 02 says of a result, and that a second squeeze leaves it as it is.
fn confirm(stream: &[u8], start: u64, result: &[u8]) {
    let counts = check(result, start).ok();
    let counts = counts.expect("the result passes the check");
    let (before, after) = (kept(stream, start), kept(result, start));
    assert_eq!(before.len(), after.len());
    let Some(first) = before.first() else {
        return assert_eq!(stream, result);
    };
    let first = index(first) as usize;
    assert_eq!(stream[..first], result[..first]);
    // No filler behind the first record: each begins where the one before ends, and nothing is behind the last.
    let mut end = first;
    for record in &after {
        assert_eq!(index(record) as usize, end);
        end += 2 + record.raw_bytes().len();
    }
    assert_eq!(end, result.len());
    assert_eq!(counts.yielded.bytes, end - first);
    for (old, new) in before.iter().zip(&after) {
        let (old_links, old_rest) = parted(old);
        let (new_links, new_rest) = parted(new);
        assert_eq!(old_rest, new_rest);
        // Both name the record of the same number, or none.
        let numbers = |all: &[Symbol], links: [u64; 3]| {
            links.map(|link| (link != 0).then(|| all.iter().position(|it| index(it) == link)))
        };
        let named = numbers(&before, old_links);
        assert_eq!(named, numbers(&after, new_links));
        assert!(!named.contains(&Some(None)));
    }
    let again = squeeze(result, start, result.len() as u64).ok();
    assert_eq!(again.expect("the result can be squeezed").0, result);
}

/// A record's links, and its bytes without them.
fn parted(record: &Symbol) -> ([u64; 3], Vec<u8>) {
    let Links { parent, end, next } = links_of(record);
    let mut rest = record.raw_bytes().to_vec();
    let linked = match opens(record) {
        true if has_next(record) => PARENT..NEXT + 4,
        true => PARENT..END + 4,
        false => 0..0,
    };
    rest.drain(linked);
    ([parent, end, next], rest)
}

fn has_next(record: &Symbol) -> bool {
    matches!(class(record.raw_kind()), PROCEDURE | THUNK)
}

pub fn any_stream(random: &mut Random) -> Stream {
    let records = match random.below(128) {
        0..=3 => Vec::new(),
        4..=7 => scopes::high_tower(random),
        8 => REAL_RECORDS.iter().map(|record| record.to_vec()).collect(),
        _ => scopes::nested(random),
    };
    let records = filled(records, random);
    let stream = scopes::stream_of(records, lay_nexts, random);
    if stream.bytes.len() > LONGEST {
        return any_stream(random);
    }
    stream
}

/// The records, some with bytes behind their own, and fillers before, between and behind them.
fn filled(records: Vec<Vec<u8>>, random: &mut Random) -> Vec<Vec<u8>> {
    let often = random.pick(&[0, 1, 1, 2, 4]);
    let mut filled = Vec::new();
    for record in records.into_iter().map(Some).chain([None]) {
        if random.below(4) < often {
            for _ in 0..random.pick(&[1, 1, 1, 2, 3]) {
                let bound = random.pick(&[1, 1, 4, 16, 16, 320]);
                filled.push(steps::filler(bound, random));
            }
        }
        filled.extend(record.map(|record| longer(record, random)));
    }
    filled
}

fn longer(record: Vec<u8>, random: &mut Random) -> Vec<u8> {
    let behind = match record.len() {
        ..1000 => random.pick(&[0, 0, 0, 0, 0, 0, 3, 14]),
        _ => 0,
    };
    [record, random.bytes(behind)].concat()
}

/// Lays a next in each procedure and thunk, in one stream of four some that name no record; and in
/// other records positions where they would be links.
fn lay_nexts(stream: &mut Stream, random: &mut Random) {
    let places = Places::of(stream);
    let mut nexts: Vec<usize> = places
        .followed
        .iter()
        .map(|&opener| next(opener, &places, random))
        .collect();
    arrange(&mut nexts, random);
    if random.one_in(4) && !nexts.is_empty() {
        for _ in 0..random.pick(&[1, 1, 2, 3]) {
            let place = random.below(nexts.len());
            nexts[place] = wrong(&places, stream, random);
        }
    }
    for (&opener, next) in places.followed.iter().zip(nexts) {
        lay(stream, opener, NEXT, next);
    }
    for &record in &places.kept {
        if random.one_in(4) && !places.followed.contains(&record) {
            let fields: &[usize] = match stream.openers.contains(&record) {
                true => &[NEXT],
                false => &[PARENT, END, NEXT],
            };
            let field = random.pick(fields);
            let position = random.pick(&places.kept);
            lay(stream, record, field, position);
        }
    }
}

/// Sets a field of a record that is long enough.
fn lay(stream: &mut Stream, record: usize, field: usize, value: usize) {
    let end = stream.starts.iter().find(|&&start| start > record);
    let end = end.copied().unwrap_or_default();
    if record + 2 + field + 4 <= end {
        put(&mut stream.bytes, record + 2 + field, value);
    }
}

/// Where what a next may lead to stands in a stream.
struct Places {
    fillers: Vec<usize>,
    kept: Vec<usize>,
    openers: Vec<usize>,
    /// The openers that have a next.
    followed: Vec<usize>,
}

impl Places {
    fn of(stream: &Stream) -> Self {
        let record = |at: usize| Symbol::of(&stream.bytes[at + 2..]);
        let (_, starts) = stream.starts.split_last().expect("its end");
        let is_filler = |&at: &usize| matches!(record(at).raw_kind(), S_ALIGN | S_SKIP);
        let (fillers, kept) = starts.iter().copied().partition(is_filler);
        let openers = stream.openers.clone();
        let followed = openers
            .iter()
            .copied()
            .filter(|&at| has_next(&record(at)))
            .collect();
        Places {
            fillers,
            kept,
            openers,
            followed,
        }
    }
}

/// None, an opener, a record behind this one, one before it, itself, or any.
fn next(opener: usize, places: &Places, random: &mut Random) -> usize {
    let here = places.kept.partition_point(|&record| record < opener);
    let (before, behind) = places.kept.split_at(here);
    match random.below(8) {
        0 | 1 => 0,
        2 => random.pick(&places.openers),
        3 if !before.is_empty() => random.pick(before),
        4 => opener,
        5 => random.pick(&places.kept),
        _ => random.pick(behind),
    }
}

/// Lets nexts rise, fall, go back and forth, or lie as they lay.
fn arrange(nexts: &mut Vec<usize>, random: &mut Random) {
    match random.below(8) {
        0 => nexts.sort(),
        1 => nexts.sort_by(|one, other| other.cmp(one)),
        2 => {
            nexts.sort();
            let last = nexts.len().saturating_sub(1);
            let place = |k: usize| if k % 2 == 0 { k / 2 } else { last - k / 2 };
            *nexts = (0..nexts.len()).map(|k| nexts[place(k)]).collect();
        }
        _ => {}
    }
}

/// Mostly where no record is yielded: at a filler, inside a record, before the first, at the end or past it.
fn wrong(places: &Places, stream: &Stream, random: &mut Random) -> usize {
    let end = stream.bytes.len();
    match random.below(8) {
        0 | 1 if !places.fillers.is_empty() => random.pick(&places.fillers),
        2 => random.pick(&places.kept) + 1 + random.below(4),
        3 => 1 + random.below(4),
        4 => end + random.below(3),
        5 => random.number() as u32 as usize,
        6 => stream.position(random) as usize,
        _ => random.below(end),
    }
}
