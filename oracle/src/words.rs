//! pdb's values as the words of an answer; the module `row` says where the words go.

use crate::common::*;
use crate::row::Answer;
use crate::symbol::*;

pub trait Words {
    fn write(&self, answer: &mut Answer);
}

impl<T: Words + ?Sized> Words for &T {
    fn write(&self, answer: &mut Answer) {
        (**self).write(answer);
    }
}

/// What a cast makes a word of; casts extend signs.
macro_rules! casts {
    ($($type:ty)+) => { $(
        impl Words for $type {
            fn write(&self, answer: &mut Answer) {
                answer.push(*self as u64);
            }
        }
    )+ };
}

casts!(bool u8 u16 u32 u64 usize i8 i16 i32 i64 SourceLanguage CPUType TrampolineType);

macro_rules! fields {
    ($($type:ty { $($field:tt)+ })+) => { $(
        impl Words for $type {
            fn write(&self, answer: &mut Answer) {
                $(self.$field.write(answer);)+
            }
        }
    )+ };
}

fields! {
    TypeIndex { 0 }
    IdIndex { 0 }
    SymbolIndex { 0 }
    Register { 0 }
    FileIndex { 0 }
    PdbInternalSectionOffset { offset section }
    CompilerVersion { major minor build qfe }
    ObjNameSymbol<'_> { signature name }
    RegisterVariableSymbol<'_> { type_index register name }
    ConstantSymbol<'_> { managed type_index value name }
    UserDefinedTypeSymbol<'_> { type_index name }
    DataSymbol<'_> { global managed type_index offset name }
    ProcedureSymbol<'_> { global dpc parent end next len dbg_start_offset dbg_end_offset
        type_index offset flags name }
    ThreadStorageSymbol<'_> { global type_index offset name }
    CompileFlagsSymbol<'_> { language flags cpu_type frontend_version backend_version
        version_string }
    UsingNamespaceSymbol<'_> { name }
    ProcedureReferenceSymbol<'_> { global sum_name symbol_index module name }
    DataReferenceSymbol<'_> { sum_name symbol_index module name }
    AnnotationReferenceSymbol<'_> { sum_name symbol_index module name }
    TrampolineSymbol { tramp_type size thunk target }
    ExportSymbol<'_> { ordinal flags name }
    LocalSymbol<'_> { type_index flags name }
    BuildInfoSymbol { id }
    InlineSiteSymbol<'_> { parent end inlinee invocations annotations }
    LabelSymbol<'_> { offset flags name }
    BlockSymbol<'_> { parent end len offset name }
    RegisterRelativeSymbol<'_> { offset type_index register name }
    ThunkSymbol<'_> { parent end next offset len kind name }
    SeparatedCodeSymbol { parent end len flags offset parent_offset }
}

/// A bit for each flag, the lowest first.
fn bits(flags: &[bool]) -> u64 {
    let bit = |(place, &flag)| u64::from(flag) << place;
    flags.iter().enumerate().map(bit).sum()
}

macro_rules! flags {
    ($($type:ty: $($flag:ident)+;)+) => { $(
        impl Words for $type {
            fn write(&self, answer: &mut Answer) {
                answer.push(bits(&[$(self.$flag),+]));
            }
        }
    )+ };
}

flags! {
    ProcedureFlags: nofpo int far never notreached cust_call noinline optdbginfo;
    CompileFlags: edit_and_continue no_debug_info link_time_codegen no_data_align managed
        security_checks hot_patch cvtcil msil_module sdl pgo exp_module;
    LocalVariableFlags: isparam addrtaken compgenx isaggregate isaliased isalias isretvalue
        isoptimizedout isenreg_glob isenreg_stat;
    ExportSymbolFlags: constant data private no_name ordinal forwarder;
    SeparatedCodeFlags: islexicalscope returnstoparent;
}

impl Words for PublicSymbol<'_> {
    fn write(&self, answer: &mut Answer) {
        bits(&[self.code, self.function, self.managed, self.msil]).write(answer);
        self.offset.write(answer);
        self.name.write(answer);
    }
}

/// A part of the lent bytes: where it starts, and its length.
impl Words for [u8] {
    fn write(&self, answer: &mut Answer) {
        let start = self.as_ptr() as usize - answer.bytes.as_ptr() as usize;
        assert!(start + self.len() <= answer.bytes.len());
        start.write(answer);
        self.len().write(answer);
    }
}

impl Words for RawString<'_> {
    fn write(&self, answer: &mut Answer) {
        self.as_bytes().write(answer);
    }
}

impl Words for BinaryAnnotations<'_> {
    fn write(&self, answer: &mut Answer) {
        self.data().write(answer);
    }
}

/// An index of 0 means none, so that an absent one needs no word of its own.
impl Words for Option<SymbolIndex> {
    fn write(&self, answer: &mut Answer) {
        self.unwrap_or(SymbolIndex(0)).write(answer);
    }
}

/// Whether there is one, and then its words or as many zeros.
macro_rules! options {
    ($($type:ty: $words:literal;)+) => { $(
        impl Words for Option<$type> {
            fn write(&self, answer: &mut Answer) {
                self.is_some().write(answer);
                match self {
                    Some(value) => value.write(answer),
                    None => (0..$words).for_each(|_| answer.push(0)),
                }
            }
        }
    )+ };
}

options! {
    u16: 1;
    u32: 1;
    usize: 1;
    RawString<'_>: 2;
}

impl Words for Variant {
    fn write(&self, answer: &mut Answer) {
        let (tag, value) = match *self {
            Variant::U8(value) => (0, value.into()),
            Variant::U16(value) => (1, value.into()),
            Variant::U32(value) => (2, value.into()),
            Variant::U64(value) => (3, value),
            Variant::I8(value) => (4, value as u64),
            Variant::I16(value) => (5, value as u64),
            Variant::I32(value) => (6, value as u64),
            Variant::I64(value) => (7, value as u64),
        };
        answer.push(tag);
        answer.push(value);
    }
}

impl Words for ThunkKind<'_> {
    fn write(&self, answer: &mut Answer) {
        let (variant, number) = match *self {
            ThunkKind::NoType => (0, 0),
            ThunkKind::Adjustor(adjustor) => (1, adjustor.delta()),
            ThunkKind::VCall(entry) => (2, entry),
            ThunkKind::PCode => (3, 0),
            ThunkKind::Load => (4, 0),
            ThunkKind::Unknown(code) => (5, code.into()),
        };
        answer.push(variant);
        answer.push(number.into());
        match self {
            ThunkKind::Adjustor(adjustor) => adjustor.target().write(answer),
            _ => (0..2).for_each(|_| answer.push(0)),
        }
    }
}

/// The list is the last thing in its record, so that its first entry is found from the end:
/// an entry is a register, a name, and the name's length or the zero that ends it.
impl Words for MultiRegisterVariableSymbol<'_> {
    fn write(&self, answer: &mut Answer) {
        let entries: usize = self.registers.iter().map(|(_, name)| name.len() + 3).sum();
        self.type_index.write(answer);
        self.registers.len().write(answer);
        (answer.next - entries).write(answer);
    }
}

macro_rules! classes {
    ($($number:literal $variant:ident $(($fields:ident))?;)+) => {
        /// A record's class: 1 and the place of its variant in pdb's enum.
        pub fn class_of(symbol: &SymbolData) -> u64 {
            match symbol {
                $(SymbolData::$variant { .. } => $number,)+
            }
        }

        /// What the variant holds.
        impl Words for SymbolData<'_> {
            fn write(&self, answer: &mut Answer) {
                match self {
                    $(SymbolData::$variant $(($fields))? => { $($fields.write(answer);)? })+
                }
            }
        }
    };
}

classes! {
    1 ScopeEnd;
    2 ObjName(fields);
    3 RegisterVariable(fields);
    4 Constant(fields);
    5 UserDefinedType(fields);
    6 MultiRegisterVariable(fields);
    7 Data(fields);
    8 Public(fields);
    9 Procedure(fields);
    10 ThreadStorage(fields);
    11 CompileFlags(fields);
    12 UsingNamespace(fields);
    13 ProcedureReference(fields);
    14 DataReference(fields);
    15 AnnotationReference(fields);
    16 Trampoline(fields);
    17 Export(fields);
    18 Local(fields);
    19 BuildInfo(fields);
    20 InlineSite(fields);
    21 InlineSiteEnd;
    22 ProcedureEnd;
    23 Label(fields);
    24 Block(fields);
    25 RegisterRelative(fields);
    26 Thunk(fields);
    27 SeparatedCode(fields);
}

/// An instruction's number and its operands, 0 for an absent second.
impl Words for BinaryAnnotation {
    fn write(&self, answer: &mut Answer) {
        use BinaryAnnotation::*;
        let (number, first, second): (u64, &dyn Words, &dyn Words) = match self {
            CodeOffset(operand) => (1, operand, &0),
            ChangeCodeOffsetBase(operand) => (2, operand, &0),
            ChangeCodeOffset(operand) => (3, operand, &0),
            ChangeCodeLength(operand) => (4, operand, &0),
            ChangeFile(operand) => (5, operand, &0),
            ChangeLineOffset(operand) => (6, operand, &0),
            ChangeLineEndDelta(operand) => (7, operand, &0),
            ChangeRangeKind(operand) => (8, operand, &0),
            ChangeColumnStart(operand) => (9, operand, &0),
            ChangeColumnEndDelta(operand) => (10, operand, &0),
            ChangeCodeOffsetAndLineOffset(offset, line) => (11, offset, line),
            ChangeCodeLengthAndCodeOffset(length, offset) => (12, length, offset),
            ChangeColumnEnd(operand) => (13, operand, &0),
        };
        number.write(answer);
        first.write(answer);
        second.write(answer);
    }
}
