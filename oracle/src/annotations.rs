// Stands in pdb's tree as symbol/annotations.rs: pdb's file itself, and doors beneath it.
include!("../annotations.rs");

impl<'t> BinaryAnnotations<'t> {
    pub fn data(&self) -> &'t [u8] {
        self.data
    }
}

impl BinaryAnnotationsIter<'_> {
    pub fn pos(&self) -> usize {
        self.buffer.pos()
    }

    /// Where the first compressed number that can't be read begins.
    pub fn unreadable(mut self) -> usize {
        loop {
            let start = self.pos();
            if self.uncompress_next().is_err() {
                return start;
            }
        }
    }
}
