//! The line programs of inline sites: those of pdb's own tests, refusals, and one of the real example.

use mitrelilac::BinaryAnnotation::*;
use mitrelilac::*;

fn program(bytes: &[u8]) -> Result<Vec<BinaryAnnotation>, Refusal> {
    BinaryAnnotations::new(bytes).iter().collect()
}

#[test]
fn those_of_pdb() {
    let first = b"\x0b\x03\x06\n\x03\x08\x06\x06\x03-\x06\x08\x03\x07\x0br\x06\x06\x0c\x03\x07\x06\x0f\x0c\x06\x05\x00\x00";
    let expected = [
        ChangeCodeOffsetAndLineOffset(3, 0),
        ChangeLineOffset(5),
        ChangeCodeOffset(8),
        ChangeLineOffset(3),
        ChangeCodeOffset(45),
        ChangeLineOffset(4),
        ChangeCodeOffset(7),
        ChangeCodeOffsetAndLineOffset(2, -3),
        ChangeLineOffset(3),
        ChangeCodeLengthAndCodeOffset(3, 7),
        ChangeLineOffset(-7),
        ChangeCodeLengthAndCodeOffset(6, 5),
    ];
    assert_eq!(program(first), Ok(expected.to_vec()));

    let second = b"\x03P\x06\x0e\x03\x0c\x06\x04\x032\x06\x06\x03T\x0b#\x0b\\\x0bC\x0b/\x06\x04\x0c-\t\x03;\x06\x1d\x0c\x05\x06\x00\x00";
    let expected = [
        ChangeCodeOffset(80),
        ChangeLineOffset(7),
        ChangeCodeOffset(12),
        ChangeLineOffset(2),
        ChangeCodeOffset(50),
        ChangeLineOffset(3),
        ChangeCodeOffset(84),
        ChangeCodeOffsetAndLineOffset(3, 1),
        ChangeCodeOffsetAndLineOffset(12, -2),
        ChangeCodeOffsetAndLineOffset(3, 2),
        ChangeCodeOffsetAndLineOffset(15, 1),
        ChangeLineOffset(2),
        ChangeCodeLengthAndCodeOffset(45, 9),
        ChangeCodeOffset(59),
        ChangeLineOffset(-14),
        ChangeCodeLengthAndCodeOffset(5, 6),
    ];
    assert_eq!(program(second), Ok(expected.to_vec()));
}

#[test]
fn each_instruction() {
    let expected = [
        CodeOffset(1),
        ChangeCodeOffsetBase(0x81),
        ChangeCodeOffset(0x1fff_ffff),
        ChangeCodeLength(4),
        ChangeFile(5),
        ChangeLineOffset(-0x0fff_ffff),
        ChangeLineEndDelta(7),
        ChangeRangeKind(0),
        ChangeColumnStart(9),
        ChangeColumnEndDelta(0),
        ChangeCodeOffsetAndLineOffset(11, -1),
        ChangeCodeLengthAndCodeOffset(12, 13),
        ChangeColumnEnd(14),
    ];
    let bytes = b"\x01\x01\x02\x80\x81\x03\xdf\xff\xff\xff\x04\x04\x05\x05\x06\xdf\xff\xff\xff\x07\x07\x08\0\x09\x09\
        \x0a\x01\x0b\x3b\x0c\x0c\x0d\x0d\x0e";
    assert_eq!(program(bytes), Ok(expected.to_vec()));
    let emitting = expected.map(BinaryAnnotation::emits_line_info);
    assert_eq!(emitting.iter().filter(|&&emits| emits).count(), 3);
    assert!(emitting[2] && emitting[10] && emitting[11]);
}

#[test]
fn refusals() {
    let invalid = |position| Refusal {
        reason: Reason::InvalidCompressedAnnotation,
        position,
    };
    let unknown = |code| Refusal {
        reason: Reason::UnknownBinaryAnnotation(code),
        position: 0,
    };
    for (bytes, refusal) in [
        (&b"\x03\x01\x03"[..], invalid(3)),
        (b"\x80", invalid(0)),
        (b"\x0c\x01\xc0\0\0", invalid(2)),
        (b"\x06\xe0\0\0\0", invalid(1)),
        (b"\x0e\x01", unknown(14)),
        (b"\xdf\xff\xff\xff", unknown(0x1fff_ffff)),
    ] {
        assert_eq!(program(bytes), Err(refusal));
    }
    assert_eq!(
        invalid(0).to_string(),
        "a compressed number is cut off or malformed, at 0"
    );
    assert_eq!(annotation(b"\x03\x01", 2), Ok(None));
    assert_eq!(annotation(b"\x03\x01", usize::MAX), Ok(None));
    assert_eq!(annotation(b"\0\x03\x01", 0), Ok(None));
}

#[test]
fn a_refusal_ends_the_instructions() {
    let read: Vec<_> = BinaryAnnotations::new(b"\x03\x01\x0e\x03\x01")
        .iter()
        .collect();
    let unknown = Refusal {
        reason: Reason::UnknownBinaryAnnotation(14),
        position: 0,
    };
    assert_eq!(read, [Ok(ChangeCodeOffset(1)), Err(unknown)]);
}

#[test]
fn of_a_real_site() {
    let stream = include_bytes!("../../examples/nested.sym");
    let Ok(Step::Record(record)) = step(stream, 980) else {
        panic!("a record begins at 980");
    };
    let Ok((Symbol::InlineSite { annotations, .. }, _)) = decode(record.bytes) else {
        panic!("it is an inline site");
    };
    let instructions: Vec<_> = annotations.iter().collect::<Result<_, _>>().unwrap();
    // As llvm-pdbutil prints them: examples/lines.out.
    let expected = [
        ChangeLineOffset(2),
        ChangeCodeOffset(0x46),
        ChangeLineOffset(2),
        ChangeCodeOffset(0x1a),
        ChangeCodeOffsetAndLineOffset(4, -1),
        ChangeCodeOffsetAndLineOffset(5, 1),
        ChangeCodeOffsetAndLineOffset(5, 1),
        ChangeLineOffset(-3),
        ChangeCodeOffset(0x17),
        ChangeCodeLength(9),
    ];
    assert_eq!(instructions, expected);
}
