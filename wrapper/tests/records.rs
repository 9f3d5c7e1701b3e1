//! A record of each class, with fields that can't be taken for one another.

use std::num::NonZeroU32;

use mitrelilac::*;

/// Where a place is expected whose bytes are PLACE.
const PLACE: &[u8] = b"\x11\x22\0\0\x33\0";

/// The bytes of type 0x1003.
const TYPE: &[u8] = b"\x03\x10\0\0";

fn place() -> Place {
    Place {
        offset: 0x2211,
        section: 0x33,
    }
}

/// A record of a kind and a body is decoded to its last byte.
fn is(kind: u16, body: &[&[u8]], expected: Symbol) {
    let record = [&kind.to_le_bytes(), &body.concat()[..]].concat();
    assert_eq!(
        decode(&record),
        Ok((expected, record.len())),
        "kind {kind:#06x}"
    );
}

#[test]
fn closers() {
    is(0x0006, &[], Symbol::ScopeEnd);
    is(0x114e, &[], Symbol::InlineSiteEnd);
    is(0x114f, &[], Symbol::ProcedureEnd);
}

#[test]
fn modules() {
    let name = b"obj";
    let signature = 1;
    is(
        0x1101,
        &[b"\x01\0\0\0obj\0"],
        Symbol::ObjectName { signature, name },
    );
    is(0x1124, &[b"std\0"], Symbol::Namespace { name: b"std" });
    is(0x114c, &[b"\x03\x10\0\0"], Symbol::BuildInfo { id: 0x1003 });
    let versions = b"\x01\0\x02\0\x03\0\x04\0\x05\0\x06\0\x07\0\x08\0";
    let symbol = Symbol::Compile {
        language: 1,
        flags: CompileFlags(CompileFlags::SECURITY_CHECKS | CompileFlags::EXP_MODULE),
        processor: 0xd0,
        front_end: Version {
            major: 1,
            minor: 2,
            build: 3,
            qfe: Some(4),
        },
        back_end: Version {
            major: 5,
            minor: 6,
            build: 7,
            qfe: Some(8),
        },
        version: b"cl",
    };
    is(
        0x113c,
        &[b"\x01\x20\x08\0\xd0\0", versions, b"cl\0"],
        symbol,
    );
}

#[test]
fn values() {
    let type_index = 0x1003;
    let name = b"x";
    let register = Symbol::Register {
        type_index,
        register: 17,
        name,
    };
    is(0x1106, &[TYPE, b"\x11\0x\0"], register);
    let constant = Symbol::Constant {
        managed: true,
        type_index,
        value: Value::I64(-2),
        name,
    };
    let minus_2 = b"\x09\x80\xfe\xff\xff\xff\xff\xff\xff\xff";
    is(0x112d, &[TYPE, minus_2, b"x\0"], constant);
    is(
        0x1108,
        &[TYPE, b"x\0"],
        Symbol::UserType { type_index, name },
    );
}

#[test]
fn variables() {
    let type_index = 0x1003;
    let name = b"x";
    let data = Symbol::Data {
        global: true,
        managed: false,
        type_index,
        place: place(),
        name,
    };
    is(0x110d, &[TYPE, PLACE, b"x\0"], data);
    let thread = Symbol::ThreadStorage {
        global: false,
        type_index,
        place: place(),
        name,
    };
    is(0x1112, &[TYPE, PLACE, b"x\0"], thread);
    let local = Symbol::Local {
        type_index,
        flags: LocalFlags(LocalFlags::ISPARAM | LocalFlags::ISENREG_STAT),
        name,
    };
    is(0x113e, &[TYPE, b"\x01\x02x\0"], local);
    let relative = Symbol::RegisterRelative {
        offset: -8,
        type_index,
        register: 335,
        name,
    };
    is(
        0x1111,
        &[b"\xf8\xff\xff\xff", TYPE, b"\x4f\x01x\0"],
        relative,
    );
}

#[test]
fn register_lists() {
    let record = b"\x0a\x11\x03\x10\0\0\x02\x11\0a\0\x12\0bc\0";
    let list = Symbol::RegisterList {
        type_index: 0x1003,
        count: 2,
        first: 7,
    };
    assert_eq!(decode(record), Ok((list, record.len())));
    let entry = |register, name| Ok(RegisterEntry { register, name });
    assert_eq!(register_entry(record, 0), entry(0x11, b"a"));
    assert_eq!(register_entry(record, 1), entry(0x12, b"bc"));
    let none = Refusal {
        reason: Reason::NothingThere,
        position: 0,
    };
    assert_eq!(register_entry(record, 2), Err(none));
}

#[test]
fn linkage() {
    let public = Symbol::Public {
        flags: PublicFlags(PublicFlags::FUNCTION),
        place: place(),
        name: b"f",
    };
    is(0x110e, &[b"\x02\0\0\0", PLACE, b"f\0"], public);
    let export = Symbol::Export {
        ordinal: 7,
        flags: ExportFlags(ExportFlags::FORWARDER),
        name: b"f",
    };
    is(0x1138, &[b"\x07\0\x20\0f\0"], export);
}

#[test]
fn references() {
    let (sum, index) = (1, 0x44);
    let module = Some(4);
    let target = b"\x01\0\0\0\x44\0\0\0\x05\0";
    let procedure = Symbol::ProcedureReference {
        global: true,
        sum,
        index,
        module,
        name: Some(b"f"),
    };
    is(0x1125, &[target, b"f\0"], procedure);
    let unnamed = Symbol::ProcedureReference {
        global: false,
        sum,
        index,
        module: None,
        name: None,
    };
    is(0x0403, &[b"\x01\0\0\0\x44\0\0\0\0\0"], unnamed);
    let name = Some(&b"d"[..]);
    let data = Symbol::DataReference {
        sum,
        index,
        module,
        name,
    };
    is(0x1126, &[target, b"d\0"], data);
    let annotation = Symbol::AnnotationReference {
        sum,
        index,
        module,
        name: b"a",
    };
    is(0x1128, &[target, b"a\0"], annotation);
}

#[test]
fn procedures() {
    let procedure = Symbol::Procedure {
        global: true,
        dpc: false,
        parent: None,
        end: 0x44,
        next: NonZeroU32::new(0x48),
        length: 5,
        body_start: 1,
        body_end: 4,
        type_index: 0x1003,
        code: place(),
        flags: ProcedureFlags(ProcedureFlags::NEVER | ProcedureFlags::OPTDBGINFO),
        name: b"f",
    };
    let links = b"\0\0\0\0\x44\0\0\0\x48\0\0\0";
    let code = b"\x05\0\0\0\x01\0\0\0\x04\0\0\0\x03\x10\0\0";
    is(0x1110, &[links, code, PLACE, b"\x88f\0"], procedure);
    let label = Symbol::Label {
        code: place(),
        flags: ProcedureFlags(ProcedureFlags::FAR),
        name: b"l",
    };
    is(0x1105, &[PLACE, b"\x04l\0"], label);
}

#[test]
fn scopes() {
    let block = Symbol::Block {
        parent: 4,
        end: 0x44,
        length: 5,
        code: place(),
        name: b"",
    };
    is(
        0x1103,
        &[b"\x04\0\0\0\x44\0\0\0\x05\0\0\0", PLACE, b"\0"],
        block,
    );
    let site = |invocations| Symbol::InlineSite {
        parent: NonZeroU32::new(4),
        end: 0x44,
        inlinee: 0x1003,
        invocations,
        annotations: BinaryAnnotations::new(b"\x0b\x01"),
    };
    let links = b"\x04\0\0\0\x44\0\0\0\x03\x10\0\0";
    is(0x114d, &[links, b"\x0b\x01"], site(None));
    is(0x115d, &[links, b"\x09\0\0\0\x0b\x01"], site(Some(9)));
}

#[test]
fn separated_code() {
    let separated = Symbol::SeparatedCode {
        parent: 4,
        end: 0x44,
        length: 5,
        flags: SeparatedFlags(SeparatedFlags::RETURNSTOPARENT),
        code: Place {
            offset: 1,
            section: 3,
        },
        in_parent: Place {
            offset: 2,
            section: 4,
        },
    };
    let links = b"\x04\0\0\0\x44\0\0\0\x05\0\0\0\x02\0\0\0";
    is(
        0x1132,
        &[links, b"\x01\0\0\0\x02\0\0\0\x03\0\x04\0"],
        separated,
    );
}

#[test]
fn thunks() {
    let thunk = |thunk| Symbol::Thunk {
        parent: None,
        end: 0x44,
        next: None,
        code: place(),
        length: 5,
        thunk,
        name: b"t",
    };
    let adjustor = Thunk::Adjustor {
        delta: 8,
        target: b"to",
    };
    let variants: [(&[u8], Thunk); 6] = [
        (b"\0t\0", Thunk::NoType),
        (b"\x01t\0\x08\0to\0", adjustor),
        (b"\x02t\0\x09\0", Thunk::VCall(9)),
        (b"\x03t\0", Thunk::PCode),
        (b"\x04t\0", Thunk::Load),
        (b"\x07t\0", Thunk::Unknown(7)),
    ];
    for (bytes, variant) in variants {
        let links = b"\0\0\0\0\x44\0\0\0\0\0\0\0";
        is(0x1102, &[links, PLACE, b"\x05\0", bytes], thunk(variant));
    }
}

#[test]
fn trampolines() {
    let trampoline = Symbol::Trampoline {
        trampoline: Trampoline::BranchIsland,
        size: 5,
        thunk: Place {
            offset: 1,
            section: 3,
        },
        target: Place {
            offset: 2,
            section: 4,
        },
    };
    let places = b"\x01\0\0\0\x02\0\0\0\x03\0\x04\0";
    is(0x112c, &[b"\x01\0\x05\0", places], trampoline);
}
