//! Fillers squeezed out of streams: what is written, what is left alone, refusals, and what a preview says of it.

use mitrelilac::*;

const SIGNATURE: &[u8] = b"\x04\0\0\0";
const NAMESPACE: &[u8] = b"\x06\0\x24\x11nst\0";
const END: &[u8] = b"\x02\0\x06\0";
const ALIGN: &[u8] = b"\x02\0\x02\x04";
const SKIP: &[u8] = b"\x06\0\x07\0\xee\xee\xee\xee";

/// Its other fields hold what no link may be, and end with a name.
fn opener(head: &[u8; 4], links: &[u32], rest: usize) -> Vec<u8> {
    let links: Vec<u8> = links.iter().flat_map(|link| link.to_le_bytes()).collect();
    [&head[..], &links, &vec![b'n'; rest - 1], b"\0"].concat()
}

/// 40 bytes.
fn procedure(end: u32, next: u32) -> Vec<u8> {
    opener(b"\x26\0\x10\x11", &[0, end, next], 24)
}

/// 24 bytes.
fn block(parent: u32, end: u32) -> Vec<u8> {
    opener(b"\x16\0\x03\x11", &[parent, end], 12)
}

/// 28 bytes.
fn thunk(end: u32, next: u32) -> Vec<u8> {
    opener(b"\x1a\0\x02\x11", &[0, end, next], 12)
}

/// The procedure is at 24, the block in it at 64, the thunk at 108: these are the links that fit.
fn filled_with(procedure: &[u8], block: &[u8], thunk: &[u8]) -> Vec<u8> {
    let before = [SIGNATURE, ALIGN, NAMESPACE, SKIP].concat();
    let nested = [procedure, block, ALIGN, END, SKIP, END].concat();
    [&before, &nested, thunk, SKIP, END, ALIGN].concat()
}

fn filled_by_nexts(first: u32, second: u32) -> Vec<u8> {
    filled_with(&procedure(104, first), &block(24, 92), &thunk(144, second))
}

/// Without fillers but the one before the first record: 120 bytes, the procedure at 16, the block at 56, the thunk at 88.
fn unfilled_by_nexts(first: u32, second: u32) -> Vec<u8> {
    let nested = [&procedure(84, first)[..], &block(16, 80), END, END].concat();
    let before = [SIGNATURE, ALIGN, NAMESPACE].concat();
    [&before, &nested, &thunk(116, second)[..], END].concat()
}

/// Into a buffer of so much room: the answer, and the buffer.
fn squeezed(stream: &[u8], start: usize, room: usize) -> (Result<usize, Refusal>, Vec<u8>) {
    let mut buffer = vec![0xaa; room];
    let answer = squeeze(stream, start, &mut buffer);
    (answer, buffer)
}

/// The stream is this one squeezed, with and without room to spare.
fn gives(stream: &[u8], start: usize, expected: &[u8]) {
    let length = expected.len();
    for spare in [0, 1, 40] {
        let (answer, buffer) = squeezed(stream, start, length + spare);
        assert_eq!(answer, Ok(length));
        assert_eq!(buffer, [expected, &vec![0xaa; spare]].concat());
    }
}

/// It is refused, and the buffer stays as it was.
fn refuses(stream: &[u8], start: usize, room: usize, reason: Reason, position: usize) {
    let refusal = Refusal { reason, position };
    assert_eq!(
        squeezed(stream, start, room),
        (Err(refusal), vec![0xaa; room])
    );
}

#[test]
fn links_are_moved_with_the_records() {
    let (filled, unfilled) = (filled_by_nexts(108, 24), unfilled_by_nexts(88, 16));
    assert_eq!((filled.len(), unfilled.len()), (152, 120));
    gives(&filled, 4, &unfilled);
    let counts = check(&unfilled, 4).unwrap();
    assert_eq!((counts.records, counts.fillers, counts.openers), (7, 1, 3));
}

#[test]
fn what_lies_before_the_first_record_stays() {
    let nested = [&procedure(92, 96)[..], &block(24, 88), END, END].concat();
    let before = [SIGNATURE, ALIGN, NAMESPACE, SKIP].concat();
    let unfilled = [&before, &nested, &thunk(124, 24)[..], END].concat();
    gives(&filled_by_nexts(108, 24), 16, &unfilled);
}

#[test]
fn a_next_of_0_stays() {
    gives(&filled_by_nexts(0, 0), 4, &unfilled_by_nexts(0, 0));
}

#[test]
fn a_next_names_any_record() {
    // The procedure's end and the namespace.
    gives(&filled_by_nexts(104, 8), 4, &unfilled_by_nexts(84, 8));
}

#[test]
fn squeezing_twice_changes_nothing() {
    let unfilled = unfilled_by_nexts(88, 16);
    gives(&unfilled, 4, &unfilled);
    let real = include_bytes!("../../examples/nested.sym");
    gives(real, 4, real);
}

#[test]
fn without_records_all_is_copied() {
    gives(b"", 0, b"");
    gives(b"", 4, b"");
    let fillers = [SIGNATURE, SKIP, ALIGN].concat();
    gives(&fillers, 4, &fillers);
    let filled = filled_by_nexts(108, 24);
    gives(&filled, filled.len(), &filled);
    gives(&filled, usize::MAX, &filled);
    refuses(&filled, usize::MAX, 151, Reason::NoRoom, 0);
}

#[test]
fn what_the_check_refuses() {
    // The block's end is a filler, and the procedure's next is one too.
    let wrong = filled_with(&procedure(104, 16), &block(24, 88), &thunk(144, 0));
    refuses(&wrong, 4, 152, Reason::WrongEnd, 92);
    let cut = &filled_by_nexts(16, 24)[..150];
    refuses(cut, 4, 152, Reason::UnexpectedEof, 150);
    refuses(&procedure(40, 0), 0, 40, Reason::OpenerAt0, 0);
}

#[test]
fn a_next_that_names_no_record() {
    // Fillers, the inside of a record, the stream's end, and what is far behind it.
    for wrong in [4, 136, 26, 152, u32::MAX] {
        refuses(&filled_by_nexts(wrong, 24), 4, 152, Reason::WrongNext, 24);
        refuses(&filled_by_nexts(108, wrong), 4, 152, Reason::WrongNext, 108);
    }
    // Of two the first in the stream, and before the room.
    refuses(&filled_by_nexts(136, 16), 4, 152, Reason::WrongNext, 24);
    refuses(&filled_by_nexts(136, 16), 4, 0, Reason::WrongNext, 24);
    // A record before the start is none.
    refuses(&filled_by_nexts(108, 8), 16, 152, Reason::WrongNext, 108);
    let refusal = squeeze(&filled_by_nexts(136, 24), 4, &mut []).unwrap_err();
    assert_eq!(
        refusal.to_string(),
        "the next of a scope names no record, at 24"
    );
}

#[test]
fn too_little_room() {
    for room in [0, 1, 119] {
        refuses(&filled_by_nexts(108, 24), 4, room, Reason::NoRoom, 0);
    }
}

/// Where records of the filled stream begin, and of the unfilled one.
const MOVED: [(usize, usize); 7] = [
    (8, 8),
    (24, 16),
    (64, 56),
    (92, 80),
    (104, 84),
    (108, 88),
    (144, 116),
];

#[test]
fn a_preview_says_what_squeezing_gives() {
    let filled = filled_by_nexts(108, 24);
    for (i, at) in MOVED {
        let gain = preview(&filled, 4, i).unwrap();
        let expected = Gain {
            length: 120,
            dropped: 5,
            at,
        };
        assert_eq!(gain, expected);
        let (answer, buffer) = squeezed(&filled, 4, gain.length);
        assert_eq!(answer, Ok(gain.length));
        let moved = records(&buffer, 4).map(|record| record.unwrap().index);
        assert_eq!(moved.filter(|&index| index == at).count(), 1);
        assert!(squeezed(&filled, 4, gain.length - 1).0.is_err());
    }
}

#[test]
fn a_preview_drops_what_a_squeeze_drops() {
    let filled = filled_by_nexts(108, 24);
    let mut unfilled = vec![0; filled.len()];
    for start in [4, 8, 16, 24] {
        let gain = preview(&filled, start, 108).unwrap();
        let length = squeeze(&filled, start, &mut unfilled).unwrap();
        let before = check(&filled, start).unwrap().fillers;
        let after = check(&unfilled[..length], start).unwrap().fillers;
        assert_eq!((gain.length, gain.dropped), (length, before - after));
    }
    // Nothing is dropped of a real stream.
    let real = include_bytes!("../../examples/nested.sym");
    let gain = preview(real, 4, 2468).unwrap();
    assert_eq!((gain.length, gain.dropped, gain.at), (real.len(), 0, 2468));
}

/// The preview is refused.
fn refuses_preview(stream: &[u8], start: usize, i: usize, reason: Reason, position: usize) {
    let refusal = Refusal { reason, position };
    assert_eq!(preview(stream, start, i), Err(refusal));
}

#[test]
fn where_no_record_begins() {
    let filled = filled_by_nexts(108, 24);
    // Before the first record, at fillers, in a record, at the end, and far behind it.
    for i in [0, 4, 16, 88, 136, 9, 26, 152, usize::MAX] {
        refuses_preview(&filled, 4, i, Reason::NothingThere, 0);
    }
    // At a record before the start, and where there is no record.
    refuses_preview(&filled, 16, 8, Reason::NothingThere, 0);
    refuses_preview(&filled, 152, 24, Reason::NothingThere, 0);
    refuses_preview(b"", 0, 0, Reason::NothingThere, 0);
}

#[test]
fn what_squeezing_refuses_comes_first() {
    let wrong = filled_with(&procedure(104, 16), &block(24, 88), &thunk(144, 0));
    let cut = &filled_by_nexts(16, 24)[..150];
    for i in [24, 16] {
        refuses_preview(&wrong, 4, i, Reason::WrongEnd, 92);
        refuses_preview(cut, 4, i, Reason::UnexpectedEof, 150);
        let unnamed = filled_by_nexts(136, 16);
        refuses_preview(&unnamed, 4, i, Reason::WrongNext, 24);
    }
}
