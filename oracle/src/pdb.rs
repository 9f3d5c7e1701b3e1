//! pdb's own files, compiled unchanged through the links that `build` lays, and doors
//! to what they keep private: a door stands in the module of the file that it opens.

#[allow(dead_code)]
pub mod common {
    include!("../../target/oracle/pdb/common.rs");
}

#[path = "../../target/oracle/pdb/tpi_constants.rs"]
#[rustfmt::skip]
pub mod tpi_constants;

pub mod tpi {
    pub use super::tpi_constants as constants;
}

pub mod msf {
    use crate::common::ParseBuffer;

    /// Stands in for pdb's stream, whose file needs the parts of pdb that read from disk.
    #[derive(Debug)]
    pub struct Stream<'s>(&'s [u8]);

    impl<'s> Stream<'s> {
        pub fn parse_buffer(&self) -> ParseBuffer<'s> {
            ParseBuffer::from(self.0)
        }
    }
}

#[allow(dead_code)]
pub mod symbol {
    include!("../../target/oracle/pdb/symbol/mod.rs");

    pub use self::constants::{
        S_ALIGN, S_COMPILE3, S_END, S_GMANPROC, S_GPROC32_ID, S_INLINESITE, S_INLINESITE2,
        S_INLINESITE_END, S_LPROC32_DPC_ID, S_LPROC32_ID, S_MANYREG2, S_MANYREG2_ST, S_PROC_ID_END,
        S_SKIP, S_ST_MAX,
    };

    impl<'t> Symbol<'t> {
        /// A symbol of any bytes, those that no stream yields included.
        pub fn of(data: &'t [u8]) -> Self {
            let index = SymbolIndex(0);
            Symbol { index, data }
        }
    }

    impl SymbolIter<'_> {
        pub fn pos(&self) -> usize {
            self.buf.pos()
        }
    }

    impl<'t> ThunkAdjustor<'t> {
        pub fn delta(&self) -> u16 {
            self.delta
        }

        pub fn target(&self) -> RawString<'t> {
            self.target
        }
    }
}
