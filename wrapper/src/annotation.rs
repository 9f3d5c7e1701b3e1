//! The annotations of an inline site, its line program.

use crate::{ask, mitrelilac_annotation, Refusal};

/// An instruction of a line program: it changes what the next line record says, or emits one.
#[derive(Clone, Copy, Debug, PartialEq, Eq)]
pub enum BinaryAnnotation {
    /// The code offset.
    CodeOffset(u32),
    /// The base of the code offsets that follow.
    ChangeCodeOffsetBase(u32),
    /// **Emitting**: by how much the code offset grows.
    ChangeCodeOffset(u32),
    /// The code length of the last line record, behind which the code offset is then.
    ChangeCodeLength(u32),
    /// The file of the line records that follow.
    ChangeFile(u32),
    /// By how much the line grows.
    ChangeLineOffset(i32),
    /// How many lines a record covers; 1 if it is not set.
    ChangeLineEndDelta(u32),
    /// 1 for a statement, also if it is not set; 0 for an expression.
    ChangeRangeKind(u32),
    /// The first column; 0 for none.
    ChangeColumnStart(u32),
    /// By how much the last column grows.
    ChangeColumnEndDelta(i32),
    /// **Emitting**: by how much the code offset grows, and the line.
    ChangeCodeOffsetAndLineOffset(u32, i32),
    /// **Emitting**: the code length, and by how much the code offset grows.
    ChangeCodeLengthAndCodeOffset(u32, u32),
    /// The last column.
    ChangeColumnEnd(u32),
}

impl BinaryAnnotation {
    fn new(code: u64, first: u64, second: u64) -> Self {
        use BinaryAnnotation::*;
        // Signed operands are extended with their sign.
        let (x, z) = (first as u32, first as i32);
        match code {
            1 => CodeOffset(x),
            2 => ChangeCodeOffsetBase(x),
            3 => ChangeCodeOffset(x),
            4 => ChangeCodeLength(x),
            5 => ChangeFile(x),
            6 => ChangeLineOffset(z),
            7 => ChangeLineEndDelta(x),
            8 => ChangeRangeKind(x),
            9 => ChangeColumnStart(x),
            10 => ChangeColumnEndDelta(z),
            11 => ChangeCodeOffsetAndLineOffset(x, second as i32),
            12 => ChangeCodeLengthAndCodeOffset(x, second as u32),
            13 => ChangeColumnEnd(x),
            code => {
                unreachable!("the library answers with the code {code}, which no instruction has")
            }
        }
    }

    /// Whether it emits a line record.
    pub fn emits_line_info(self) -> bool {
        use BinaryAnnotation::*;
        matches!(
            self,
            ChangeCodeOffset(_)
                | ChangeCodeOffsetAndLineOffset(..)
                | ChangeCodeLengthAndCodeOffset(..)
        )
    }
}

/// The instruction at a position, and the next position; none where there is none any more.
pub fn annotation(
    annotations: &[u8],
    position: usize,
) -> Result<Option<(BinaryAnnotation, usize)>, Refusal> {
    let out = ask(|out| unsafe {
        mitrelilac_annotation(annotations.as_ptr(), annotations.len(), position, out)
    })?;
    Ok(match out {
        [0, ..] => None,
        [_, code, first, second, next] => {
            Some((BinaryAnnotation::new(code, first, second), next as usize))
        }
    })
}

/// The annotations of an inline site.
#[derive(Clone, Copy, Debug, PartialEq, Eq)]
pub struct BinaryAnnotations<'r> {
    bytes: &'r [u8],
}

impl<'r> BinaryAnnotations<'r> {
    pub fn new(bytes: &'r [u8]) -> Self {
        BinaryAnnotations { bytes }
    }

    pub fn as_bytes(&self) -> &'r [u8] {
        self.bytes
    }

    /// The instructions; a refusal is the last item.
    pub fn iter(&self) -> impl Iterator<Item = Result<BinaryAnnotation, Refusal>> + 'r {
        let bytes = self.bytes;
        let mut position = Some(0);
        std::iter::from_fn(move || {
            let answer = annotation(bytes, position?).transpose()?;
            position = answer.ok().map(|(_, next)| next);
            Some(answer.map(|(instruction, _)| instruction))
        })
    }
}
