//! Document 01's stream A and its examples P1 to P12, and the listing of the real example.

use mitrelilac::*;

const A: &[u8] = b"\x04\0\0\0\
    \x16\0\x03\x11\0\0\0\0\x44\0\0\0\x0a\0\0\0\0\x10\0\0\x01\0a\0\
    \x16\0\x03\x11\x04\0\0\0\x3c\0\0\0\x04\0\0\0\x02\x10\0\0\x01\0b\0\
    \x06\0\x24\x11nst\0\
    \x02\0\x06\0\
    \x02\0\x02\x04\
    \x02\0\x06\0";

fn refusal(reason: Reason, position: usize) -> Refusal {
    Refusal { reason, position }
}

fn indexes(scopes: &Scopes) -> Vec<usize> {
    scopes.indexes().collect()
}

/// The listing program's lines: index, kind and name of each record from 4 on.
fn listing(stream: &[u8]) -> String {
    let mut lines = String::new();
    for record in records(stream, 4) {
        let record = record.unwrap();
        let name = match name(record.bytes) {
            Ok(Some(name)) => String::from_utf8(name.to_vec()).unwrap(),
            Ok(None) => "-".into(),
            Err(refusal) => {
                assert!(matches!(refusal.reason, Reason::UnimplementedKind(_)));
                "!3".into()
            }
        };
        let code = kind(record.bytes).code;
        lines += &format!("{} {code:04x} {name}\n", record.index);
    }
    lines
}

#[test]
fn stream_a_is_listed() {
    assert_eq!(
        listing(A),
        "4 1103 a\n28 1103 b\n52 1124 nst\n60 0006 -\n68 0006 -\n"
    );
}

#[test]
fn the_real_stream_is_listed() {
    let expected = include_str!("../../crates/list/stdout");
    assert_eq!(
        listing(include_bytes!("../../examples/nested.sym")),
        expected
    );
}

#[test]
fn p1_the_check() {
    let counts = Counts {
        records: 5,
        bytes: 64,
        fillers: 1,
        filler_bytes: 4,
        openers: 2,
        deepest: 2,
    };
    assert_eq!(check(A, 4), Ok(counts));
}

#[test]
fn p2_to_p4_the_finders() {
    for find in [walk, jump] {
        let scopes = find(A, 4, 52).unwrap();
        assert_eq!((scopes.count(), indexes(&scopes)), (3, vec![4, 28]));
        assert_eq!(find(A, 4, 64), Err(refusal(Reason::NothingThere, 0)));
    }
    let (walked, jumped) = (walk(A, 4, 68).unwrap(), jump(A, 4, 68).unwrap());
    assert_eq!((walked.count(), indexes(&walked)), (5, vec![4]));
    assert_eq!((jumped.count(), indexes(&jumped)), (4, vec![4]));
}

#[test]
fn p5_the_climb() {
    let scopes = climb(A, 28).unwrap();
    assert_eq!((scopes.count(), indexes(&scopes)), (1, vec![4]));
}

#[test]
fn p6_to_p9_steps() {
    assert_eq!(step(b"", 0), Ok(Step::End(0)));
    assert_eq!(step(b"\x01\0", 0), Err(refusal(Reason::SymbolTooShort, 2)));
    assert_eq!(
        step(b"\x02\0\x06", 0),
        Err(refusal(Reason::UnexpectedEof, 2))
    );
    assert_eq!(step(b"\x02\0\x07\0", 9), Ok(Step::End(4)));
}

#[test]
fn a_refusal_ends_the_records() {
    let read: Vec<_> = records(b"\x02\0\x06\0\x01\0", 0).collect();
    let record = Record {
        index: 0,
        bytes: b"\x06\0",
        next: 4,
    };
    assert_eq!(read, [Ok(record), Err(refusal(Reason::SymbolTooShort, 6))]);
}

#[test]
fn p10_and_p12_constants() {
    let constant = |value: &[u8]| [b"\x07\x11\0\x10\0\0", value, b"k\0"].concat();
    let expected = |value| Symbol::Constant {
        managed: false,
        type_index: 0x1000,
        value,
        name: b"k",
    };
    let minus_1 = constant(b"\x01\x80\xff\xff");
    assert_eq!(decode(&minus_1), Ok((expected(Value::I16(-1)), 12)));
    let byte = constant(b"\0\x80\xff");
    assert_eq!(decode(&byte), Ok((expected(Value::U8(255)), 11)));
    let prefix = Reason::UnexpectedNumericPrefix(0x8005);
    assert_eq!(decode(&constant(b"\x05\x80")), Err(refusal(prefix, 0)));
}

#[test]
fn p11_a_user_type() {
    let record = b"\x03\x10\x74\0\0\0\x02ab";
    let expected = Symbol::UserType {
        type_index: 0x74,
        name: b"ab",
    };
    assert_eq!(decode(record), Ok((expected, 9)));
}
