//! Why a call refuses.

use std::error::Error;
use std::fmt;

/// The position is 0 where the reason has none.
#[derive(Clone, Copy, Debug, PartialEq, Eq)]
pub struct Refusal {
    pub reason: Reason,
    pub position: usize,
}

/// The numbers 1 to 18, in their order.
#[derive(Clone, Copy, Debug, PartialEq, Eq)]
pub enum Reason {
    UnexpectedEof,
    SymbolTooShort,
    UnimplementedKind(u16),
    UnexpectedNumericPrefix(u16),
    TooLong,
    UnreadableOpener,
    OpenerAt0,
    WrongParent,
    TooDeep,
    NothingOpen,
    WrongEnd,
    LeftOpen,
    UnusableLink,
    NothingThere,
    InvalidCompressedAnnotation,
    UnknownBinaryAnnotation(u32),
    WrongNext,
    NoRoom,
}

impl Refusal {
    pub(crate) fn new(number: u32, position: u64, detail: u64) -> Self {
        let reason = match number {
            1 => Reason::UnexpectedEof,
            2 => Reason::SymbolTooShort,
            3 => Reason::UnimplementedKind(detail as u16),
            4 => Reason::UnexpectedNumericPrefix(detail as u16),
            5 => Reason::TooLong,
            6 => Reason::UnreadableOpener,
            7 => Reason::OpenerAt0,
            8 => Reason::WrongParent,
            9 => Reason::TooDeep,
            10 => Reason::NothingOpen,
            11 => Reason::WrongEnd,
            12 => Reason::LeftOpen,
            13 => Reason::UnusableLink,
            14 => Reason::NothingThere,
            15 => Reason::InvalidCompressedAnnotation,
            16 => Reason::UnknownBinaryAnnotation(detail as u32),
            17 => Reason::WrongNext,
            18 => Reason::NoRoom,
            _ => unreachable!("the library refuses with {number}, which is none of its numbers"),
        };
        let position = position as usize;
        Refusal { reason, position }
    }
}

impl fmt::Display for Refusal {
    fn fmt(&self, f: &mut fmt::Formatter) -> fmt::Result {
        match self.reason {
            Reason::UnexpectedEof => write!(f, "the bytes run out"),
            Reason::SymbolTooShort => write!(f, "a record is too short to have a kind"),
            Reason::UnimplementedKind(kind) => write!(f, "no layout is known for kind {kind:#06x}"),
            Reason::UnexpectedNumericPrefix(prefix) => {
                write!(
                    f,
                    "the value of a constant has the unknown prefix {prefix:#06x}"
                )
            }
            Reason::TooLong => write!(f, "there are too many bytes"),
            Reason::UnreadableOpener => write!(f, "the links of a scope can't be read"),
            Reason::OpenerAt0 => write!(f, "a scope opens at 0"),
            Reason::WrongParent => write!(f, "a scope names another parent than the one around it"),
            Reason::TooDeep => write!(f, "more than 64 scopes lie in one another"),
            Reason::NothingOpen => write!(f, "a scope is closed where none is open"),
            Reason::WrongEnd => write!(f, "a scope is closed elsewhere than it says"),
            Reason::LeftOpen => write!(f, "a scope is left open"),
            Reason::UnusableLink => write!(f, "a link can't be followed"),
            Reason::NothingThere => write!(f, "nothing is there"),
            Reason::InvalidCompressedAnnotation => {
                write!(f, "a compressed number is cut off or malformed")
            }
            Reason::UnknownBinaryAnnotation(code) => {
                write!(f, "no instruction has the code {code}")
            }
            Reason::WrongNext => write!(f, "the next of a scope names no record"),
            Reason::NoRoom => write!(f, "the buffer is too short"),
        }?;
        match (self.reason, self.position) {
            // Annotations start at 0, where a number may be cut off as anywhere.
            (Reason::InvalidCompressedAnnotation, position) => write!(f, ", at {position}"),
            (_, 0) => Ok(()),
            (_, position) => write!(f, ", at {position}"),
        }
    }
}

impl Error for Refusal {}
