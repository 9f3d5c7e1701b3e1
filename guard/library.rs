//! The exported functions, asked the oracle's questions.

use crate::answer::Op;

// As include/mitrelilac.h has them.
extern "C" {
    fn mitrelilac_step(stream: *const u8, length: usize, position: usize, out: *mut u64) -> u32;
    fn mitrelilac_kind(record: *const u8, length: usize, out: *mut u64) -> u32;
    fn mitrelilac_name(record: *const u8, length: usize, out: *mut u64) -> u32;
    fn mitrelilac_register_entry(record: *const u8, length: usize, k: usize, out: *mut u64) -> u32;
    fn mitrelilac_annotation(
        annotations: *const u8,
        length: usize,
        position: usize,
        out: *mut u64,
    ) -> u32;
    fn mitrelilac_check(stream: *const u8, length: usize, start: usize, out: *mut u64) -> u32;
    fn mitrelilac_walk(
        stream: *const u8,
        length: usize,
        start: usize,
        i: usize,
        out: *mut u64,
    ) -> u32;
    fn mitrelilac_jump(
        stream: *const u8,
        length: usize,
        start: usize,
        i: usize,
        out: *mut u64,
    ) -> u32;
    fn mitrelilac_climb(stream: *const u8, length: usize, i: usize, out: *mut u64) -> u32;
    fn mitrelilac_squeeze(
        stream: *const u8,
        length: usize,
        start: usize,
        buffer: *mut u8,
        room: usize,
        out: *mut u64,
    ) -> u32;
    fn mitrelilac_preview(
        stream: *const u8,
        length: usize,
        start: usize,
        i: usize,
        out: *mut u64,
    ) -> u32;
    fn mitrelilac_decode(record: *const u8, length: usize, out: *mut u64) -> u32;
}

/// The operations that the library exports, each with the words that it is lent.
pub const OPS: [(Op, usize); 12] = [
    (Op::Step, 5),
    (Op::Decode, 24),
    (Op::Name, 3),
    (Op::Register, 3),
    (Op::Scope, 3),
    (Op::Annotation, 5),
    (Op::Check, 6),
    (Op::Walk, 66),
    (Op::Jump, 66),
    (Op::Climb, 66),
    (Op::Squeeze, 2),
    (Op::Preview, 3),
];

/// A call but for what it is lent to write to.
#[derive(Clone, Copy)]
pub struct Call {
    pub op: Op,
    pub bytes: *const u8,
    pub length: usize,
    pub arg: u64,
    pub start: u64,
}

impl Call {
    /// How many bytes it is lent to write to, if the operation writes bytes.
    pub fn room(&self) -> Option<usize> {
        (self.op == Op::Squeeze).then_some(self.arg as usize)
    }

    /// # Safety
    /// The pointers are to so many bytes, to as many as the room says, and to as many words as the operation is lent.
    pub unsafe fn make(self, buffer: *mut u8, out: *mut u64) -> u32 {
        let Call {
            op, bytes, length, ..
        } = self;
        let (arg, start) = (self.arg as usize, self.start as usize);
        // SAFETY: the caller's.
        unsafe {
            match op {
                Op::Step => mitrelilac_step(bytes, length, arg, out),
                Op::Decode => mitrelilac_decode(bytes, length, out),
                Op::Name => mitrelilac_name(bytes, length, out),
                Op::Register => mitrelilac_register_entry(bytes, length, arg, out),
                Op::Scope => mitrelilac_kind(bytes, length, out),
                Op::Annotation => mitrelilac_annotation(bytes, length, arg, out),
                Op::Check => mitrelilac_check(bytes, length, start, out),
                Op::Walk => mitrelilac_walk(bytes, length, start, arg, out),
                Op::Jump => mitrelilac_jump(bytes, length, start, arg, out),
                Op::Climb => mitrelilac_climb(bytes, length, arg, out),
                Op::Squeeze => mitrelilac_squeeze(bytes, length, start, buffer, arg, out),
                Op::Preview => mitrelilac_preview(bytes, length, start, arg, out),
                _ => unreachable!("the library does not export {}", op.name()),
            }
        }
    }
}
