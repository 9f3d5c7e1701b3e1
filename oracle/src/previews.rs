//! Questions about previews of squeezes, of the streams that are squeezed.

use crate::answer::Op;
use crate::list::Question;
use crate::random::Random;
use crate::scopes::Stream;
use crate::squeezes::{any_stream, small_streams, start};

/// Small streams, at every position from their start, and from every start at what begins last.
pub fn grid(random: &mut Random) -> Vec<Question> {
    small_streams(random).iter().flat_map(everywhere).collect()
}

fn everywhere(stream: &Stream) -> Vec<Question> {
    let first = stream.starts[0] as u64;
    let last = stream.starts[stream.starts.len().saturating_sub(2)] as u64;
    let asked = |i, start| stream.asked(Op::Preview, i, start);
    let positions = || (0..=stream.bytes.len() as u64 + 1).chain([(1 << 32) + last]);
    let at_each = positions().map(|i| asked(i, first));
    let from_each = positions().map(|start| asked(last, start));
    at_each.chain(from_each).collect()
}

/// A few questions about a stream.
pub fn questions(random: &mut Random) -> Vec<Question> {
    let stream = any_stream(random);
    let start = start(&stream, random);
    let asked = |_| stream.asked(Op::Preview, position(&stream, random), start);
    (0..4).map(asked).collect()
}

/// Mostly where a record, a filler or nothing more begins; else inside one, or any.
fn position(stream: &Stream, random: &mut Random) -> u64 {
    match random.below(16) {
        0 => stream.position(random),
        1 => (random.pick(&stream.starts) + 1 + random.below(4)) as u64,
        _ => random.pick(&stream.starts) as u64,
    }
}
