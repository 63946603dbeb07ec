//! Numbers that look random, the same in every run. What is drawn is long, so
//! that the branch predictor cannot learn it.

pub struct Draw(u64);

impl Draw {
    pub fn new() -> Self {
        Draw(0x2545_F491_4F6C_DD1D)
    }

    /// Below n.
    pub fn below(&mut self, n: usize) -> usize {
        self.0 ^= self.0 << 13;
        self.0 ^= self.0 >> 7;
        self.0 ^= self.0 << 17;
        (self.0 >> 11) as usize % n
    }

    pub fn octets(&mut self, count: usize) -> Vec<u8> {
        (0..count).map(|_| self.below(256) as u8).collect()
    }

    /// The letters in either case.
    pub fn cases(&mut self, text: &[u8]) -> Vec<u8> {
        text.iter()
            .map(|octet| if self.below(2) == 0 { octet.to_ascii_uppercase() } else { *octet })
            .collect()
    }

    /// In some order.
    pub fn shuffled<T>(&mut self, mut list: Vec<T>) -> Vec<T> {
        (1..list.len()).rev().for_each(|i| list.swap(i, self.below(i + 1)));
        list
    }

    /// Some of the pieces, one after another, up to so many octets.
    pub fn pieces(&mut self, pieces: &[&str], count: usize) -> Vec<u8> {
        let mut text = Vec::new();
        loop {
            let piece = pieces[self.below(pieces.len())].as_bytes();
            if text.len() + piece.len() > count {
                return text;
            }
            text.extend_from_slice(piece);
        }
    }
}
