//! The typed records, read from the words of mitrelilac_decode.

use std::num::NonZeroU32;

use crate::{part, BinaryAnnotations};

/// The words of a decoded record that are still to be read, and the record whose parts they name.
pub(crate) struct Words<'r, 'w> {
    record: &'r [u8],
    rest: std::slice::Iter<'w, u64>,
}

impl<'r> Words<'r, '_> {
    /// The library wrote the words that the class has, each in its field's range.
    fn word(&mut self) -> u64 {
        *self
            .rest
            .next()
            .expect("a class has more words than an answer")
    }

    fn take<T: Field<'r>>(&mut self) -> T {
        T::take(self)
    }
}

/// What a field of a record can be.
trait Field<'r> {
    fn take(words: &mut Words<'r, '_>) -> Self;
}

macro_rules! numbers {
    ($($type:ty)+) => { $(
        impl<'r> Field<'r> for $type {
            fn take(words: &mut Words<'r, '_>) -> Self {
                words.word() as $type
            }
        }
    )+ };
}

numbers!(u8 u16 u32 i32);

impl<'r> Field<'r> for bool {
    fn take(words: &mut Words<'r, '_>) -> Self {
        words.word() != 0
    }
}

/// A parent or a next of 0 means none.
impl<'r> Field<'r> for Option<NonZeroU32> {
    fn take(words: &mut Words<'r, '_>) -> Self {
        NonZeroU32::new(words.take())
    }
}

/// A name or another part of the record.
impl<'r> Field<'r> for &'r [u8] {
    fn take(words: &mut Words<'r, '_>) -> Self {
        let (start, length) = (words.word(), words.word());
        part(words.record, start, length)
    }
}

impl<'r> Field<'r> for BinaryAnnotations<'r> {
    fn take(words: &mut Words<'r, '_>) -> Self {
        BinaryAnnotations::new(words.take())
    }
}

/// Whether there is one, and its words or zeros.
macro_rules! options {
    ($($type:ty)+) => { $(
        impl<'r> Field<'r> for Option<$type> {
            fn take(words: &mut Words<'r, '_>) -> Self {
                let (has, value) = (words.take(), words.take());
                if has { Some(value) } else { None }
            }
        }
    )+ };
}

options!(u16 u32 &'r [u8]);

/// A struct of fields in the order of their words.
macro_rules! structs {
    ($($(#[$about:meta])* $name:ident { $($field:ident: $type:ty,)+ })+) => { $(
        $(#[$about])*
        #[derive(Clone, Copy, Debug, PartialEq, Eq)]
        pub struct $name { $(pub $field: $type,)+ }

        impl<'r> Field<'r> for $name {
            fn take(words: &mut Words<'r, '_>) -> Self {
                $name { $($field: words.take(),)+ }
            }
        }
    )+ };
}

structs! {
    /// A place in the image.
    Place { offset: u32, section: u16, }
    /// A compiler's version.
    Version { major: u16, minor: u16, build: u16, qfe: Option<u16>, }
}

/// The value of a constant, as wide as the record has it.
#[derive(Clone, Copy, Debug, PartialEq, Eq)]
pub enum Value {
    U8(u8),
    U16(u16),
    U32(u32),
    U64(u64),
    I16(i16),
    I32(i32),
    I64(i64),
}

impl<'r> Field<'r> for Value {
    fn take(words: &mut Words<'r, '_>) -> Self {
        let (width, value) = (words.word(), words.word());
        match width {
            0 => Value::U8(value as u8),
            1 => Value::U16(value as u16),
            2 => Value::U32(value as u32),
            3 => Value::U64(value),
            5 => Value::I16(value as i16),
            6 => Value::I32(value as i32),
            _ => Value::I64(value as i64),
        }
    }
}

#[derive(Clone, Copy, Debug, PartialEq, Eq)]
pub enum Trampoline {
    Incremental,
    BranchIsland,
    Unknown,
}

impl<'r> Field<'r> for Trampoline {
    fn take(words: &mut Words<'r, '_>) -> Self {
        match words.word() {
            0 => Trampoline::Incremental,
            1 => Trampoline::BranchIsland,
            _ => Trampoline::Unknown,
        }
    }
}

#[derive(Clone, Copy, Debug, PartialEq, Eq)]
pub enum Thunk<'r> {
    NoType,
    Adjustor {
        delta: u16,
        target: &'r [u8],
    },
    /// With the entry of the virtual table.
    VCall(u16),
    PCode,
    Load,
    /// With its code.
    Unknown(u8),
}

impl<'r> Field<'r> for Thunk<'r> {
    fn take(words: &mut Words<'r, '_>) -> Self {
        let (variant, number, target): (u8, u16, &[u8]) =
            (words.take(), words.take(), words.take());
        match variant {
            0 => Thunk::NoType,
            1 => Thunk::Adjustor {
                delta: number,
                target,
            },
            2 => Thunk::VCall(number),
            3 => Thunk::PCode,
            4 => Thunk::Load,
            _ => Thunk::Unknown(number as u8),
        }
    }
}

/// Flags as the bits of a number, the lowest first; the header says what each means.
macro_rules! flags {
    ($($name:ident: $($flag:ident)+;)+) => { $(
        #[derive(Clone, Copy, Debug, PartialEq, Eq)]
        pub struct $name(pub u16);

        impl $name {
            flags!(@masks 1, $($flag)+);

            /// Whether one of these flags is set.
            pub fn has(self, flags: u16) -> bool {
                self.0 & flags != 0
            }
        }

        impl<'r> Field<'r> for $name {
            fn take(words: &mut Words<'r, '_>) -> Self {
                $name(words.take())
            }
        }
    )+ };
    (@masks $mask:expr, $flag:ident $($rest:ident)*) => {
        pub const $flag: u16 = $mask;
        flags!(@masks $mask << 1, $($rest)*);
    };
    (@masks $mask:expr,) => {};
}

flags! {
    PublicFlags: CODE FUNCTION MANAGED MSIL;
    ProcedureFlags: NOFPO INT FAR NEVER NOTREACHED CUST_CALL NOINLINE OPTDBGINFO;
    LocalFlags: ISPARAM ADDRTAKEN COMPGENX ISAGGREGATE ISALIASED ISALIAS ISRETVALUE ISOPTIMIZEDOUT
        ISENREG_GLOB ISENREG_STAT;
    ExportFlags: CONSTANT DATA PRIVATE NO_NAME ORDINAL FORWARDER;
    SeparatedFlags: ISLEXICALSCOPE RETURNSTOPARENT;
    CompileFlags: EDIT_AND_CONTINUE NO_DEBUG_INFO LINK_TIME_CODEGEN NO_DATA_ALIGN MANAGED
        SECURITY_CHECKS HOT_PATCH CVTCIL MSIL_MODULE SDL PGO EXP_MODULE;
}

/// The classes with their numbers, and their fields in the order of their words.
macro_rules! symbols {
    ($($number:literal $class:ident $({ $($field:ident: $type:ty,)+ })?)+) => {
        /// A record's fields, by its class. Types, ids, processors and languages are the header's numbers.
        #[derive(Clone, Copy, Debug, PartialEq, Eq)]
        pub enum Symbol<'r> { $($class $({ $($field: $type,)+ })?,)+ }

        impl<'r> Symbol<'r> {
            pub(crate) fn new(record: &'r [u8], words: &[u64; 24]) -> Self {
                let mut fields = Words { record, rest: words[2..].iter() };
                match words[0] {
                    $($number => Symbol::$class $({ $($field: fields.take(),)+ })?,)+
                    class => unreachable!("the library answers with class {class}, which is none of its classes"),
                }
            }
        }
    };
}

symbols! {
    1 ScopeEnd
    2 ObjectName { signature: u32, name: &'r [u8], }
    3 Register { type_index: u32, register: u16, name: &'r [u8], }
    4 Constant { managed: bool, type_index: u32, value: Value, name: &'r [u8], }
    5 UserType { type_index: u32, name: &'r [u8], }
    6 RegisterList { type_index: u32, count: u16, first: u32, }
    7 Data { global: bool, managed: bool, type_index: u32, place: Place, name: &'r [u8], }
    8 Public { flags: PublicFlags, place: Place, name: &'r [u8], }
    9 Procedure {
        global: bool, dpc: bool, parent: Option<NonZeroU32>, end: u32, next: Option<NonZeroU32>,
        length: u32, body_start: u32, body_end: u32, type_index: u32, code: Place,
        flags: ProcedureFlags, name: &'r [u8],
    }
    10 ThreadStorage { global: bool, type_index: u32, place: Place, name: &'r [u8], }
    11 Compile {
        language: u8, flags: CompileFlags, processor: u16, front_end: Version, back_end: Version,
        version: &'r [u8],
    }
    12 Namespace { name: &'r [u8], }
    13 ProcedureReference {
        global: bool, sum: u32, index: u32, module: Option<u16>, name: Option<&'r [u8]>,
    }
    14 DataReference { sum: u32, index: u32, module: Option<u16>, name: Option<&'r [u8]>, }
    15 AnnotationReference { sum: u32, index: u32, module: Option<u16>, name: &'r [u8], }
    16 Trampoline { trampoline: Trampoline, size: u16, thunk: Place, target: Place, }
    17 Export { ordinal: u16, flags: ExportFlags, name: &'r [u8], }
    18 Local { type_index: u32, flags: LocalFlags, name: &'r [u8], }
    19 BuildInfo { id: u32, }
    20 InlineSite {
        parent: Option<NonZeroU32>, end: u32, inlinee: u32, invocations: Option<u32>,
        annotations: BinaryAnnotations<'r>,
    }
    21 InlineSiteEnd
    22 ProcedureEnd
    23 Label { code: Place, flags: ProcedureFlags, name: &'r [u8], }
    24 Block { parent: u32, end: u32, length: u32, code: Place, name: &'r [u8], }
    25 RegisterRelative { offset: i32, type_index: u32, register: u16, name: &'r [u8], }
    26 Thunk {
        parent: Option<NonZeroU32>, end: u32, next: Option<NonZeroU32>, code: Place, length: u16,
        thunk: Thunk<'r>, name: &'r [u8],
    }
    27 SeparatedCode {
        parent: u32, end: u32, length: u32, flags: SeparatedFlags, code: Place, in_parent: Place,
    }
}
