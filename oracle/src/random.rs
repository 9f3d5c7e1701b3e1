//! A small deterministic generator (splitmix64), so that a seed names a list.

pub struct Random(pub u64);

impl Random {
    pub fn number(&mut self) -> u64 {
        self.0 = self.0.wrapping_add(0x9e37_79b9_7f4a_7c15);
        let mixed = (self.0 ^ (self.0 >> 30)).wrapping_mul(0xbf58_476d_1ce4_e5b9);
        let mixed = (mixed ^ (mixed >> 27)).wrapping_mul(0x94d0_49bb_1331_11eb);
        mixed ^ (mixed >> 31)
    }

    pub fn below(&mut self, bound: usize) -> usize {
        (self.number() % bound as u64) as usize
    }

    pub fn one_in(&mut self, chances: usize) -> bool {
        self.below(chances) == 0
    }

    pub fn pick<T: Copy>(&mut self, choices: &[T]) -> T {
        choices[self.below(choices.len())]
    }

    /// A value of some bytes, little-endian: often 0, small, least if signed, or all ones.
    pub fn value(&mut self, width: usize) -> Vec<u8> {
        let mut value = vec![0; width];
        match self.below(8) {
            0 => {}
            1 => value[0] = self.below(8) as u8,
            2 => value[width - 1] = 0x80,
            3 => value.fill(0xff),
            _ => value.fill_with(|| self.number() as u8),
        }
        value
    }

    /// Bytes in which values of several widths lie side by side.
    pub fn bytes(&mut self, length: usize) -> Vec<u8> {
        let mut bytes = Vec::new();
        while bytes.len() < length {
            let width = self.pick(&[1, 2, 4, 8]);
            bytes.extend(self.value(width));
        }
        bytes.truncate(length);
        bytes
    }

    /// Bytes of a name, none of them 0.
    pub fn letters(&mut self, length: usize) -> Vec<u8> {
        (0..length).map(|_| 1 + self.below(255) as u8).collect()
    }
}
