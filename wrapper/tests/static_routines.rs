//! S_LPROC32_ID is an opener to the check and the finders, and none by what is said of its kind.

use mitrelilac::*;

const S_LPROC32_ID: u16 = 0x1146;
const S_LPROCMIPS_ID: u16 = 0x1148;

/// A procedure at 4, which its end field says to close at 48.
fn open(kind: u16) -> Vec<u8> {
    let links = [0u32, 48, 0].map(u32::to_le_bytes).concat();
    let kind = kind.to_le_bytes();
    [b"\x04\0\0\0\x2a\0", &kind[..], &links, &[0; 23], b"main\0"].concat()
}

fn closed(kind: u16) -> Vec<u8> {
    [&open(kind)[..], b"\x02\0\x4f\x11"].concat()
}

fn refused<T>(reason: Reason, position: usize) -> Result<T, Refusal> {
    Err(Refusal { reason, position })
}

#[test]
fn one_that_closes_is_a_scope() {
    let stream = closed(S_LPROC32_ID);
    assert!(!kind(&stream[6..48]).opener);
    assert_eq!(check(&stream, 4).map(|counts| counts.openers), Ok(1));
    for find in [walk, jump] {
        let scopes = find(&stream, 4, 48).unwrap();
        assert_eq!(scopes.indexes().collect::<Vec<_>>(), [4]);
    }
    assert_eq!(climb(&stream, 4).unwrap().count(), 0);
}

#[test]
fn one_left_open_is_refused() {
    let stream = open(S_LPROC32_ID);
    assert_eq!(check(&stream, 4), refused(Reason::LeftOpen, 4));
}

#[test]
fn other_local_ids_are_no_scopes() {
    let stream = closed(S_LPROCMIPS_ID);
    assert_eq!(check(&stream, 4), refused(Reason::NothingOpen, 48));
    assert_eq!(climb(&stream, 4), refused(Reason::NothingThere, 0));
}
