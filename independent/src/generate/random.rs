//! The splitmix64 generator and choices made with it.

use std::ops::RangeInclusive;

/// Octets that bear on some rule of the grammar or the tokens.
pub const TELLING: &[u8] = b"\t\n\r \0\x01\x1F\x7F\x80\xFE\xFF[],:=#-+.\\\"';()@$_/0019aAfFgGzZTYPECXMLO";

pub struct Random(u64);

impl Random {
    /// The stream of one request.
    pub fn new(seed: u64, index: u64) -> Self {
        let mut random = Random(seed);
        let base = random.next();
        Random(base ^ index.wrapping_mul(0xD134_2543_DE82_EF95))
    }

    pub fn next(&mut self) -> u64 {
        self.0 = self.0.wrapping_add(0x9E37_79B9_7F4A_7C15);
        let mut z = self.0;
        z = (z ^ (z >> 30)).wrapping_mul(0xBF58_476D_1CE4_E5B9);
        z = (z ^ (z >> 27)).wrapping_mul(0x94D0_49BB_1331_11EB);
        z ^ (z >> 31)
    }

    pub fn octet(&mut self) -> u8 {
        (self.next() >> 56) as u8
    }

    /// A number below a limit, 0 where the limit is 0.
    pub fn below(&mut self, limit: usize) -> usize {
        match limit {
            0 => 0,
            _ => ((self.next() >> 16) % limit as u64) as usize,
        }
    }

    pub fn within(&mut self, range: RangeInclusive<usize>) -> usize {
        range.start() + self.below(range.end() + 1 - range.start())
    }

    /// True once in so many times.
    pub fn one_in(&mut self, times: usize) -> bool {
        self.below(times) == 0
    }

    /// True with so many of a hundred chances.
    pub fn percent(&mut self, chances: usize) -> bool {
        self.below(100) < chances
    }

    pub fn pick<T: Copy>(&mut self, list: &[T]) -> T {
        list[self.below(list.len())]
    }

    pub fn telling(&mut self) -> u8 {
        self.pick(TELLING)
    }

    pub fn octets(&mut self, count: usize) -> Vec<u8> {
        (0..count).map(|_| self.octet()).collect()
    }

    pub fn shuffle<T>(&mut self, list: &mut [T]) {
        for end in (1..list.len()).rev() {
            list.swap(end, self.below(end + 1));
        }
    }

    /// Each letter in either case.
    pub fn any_case(&mut self, word: &[u8]) -> Vec<u8> {
        let style = self.below(4);
        word.iter()
            .map(|octet| match style {
                0 => octet.to_ascii_lowercase(),
                1 => octet.to_ascii_uppercase(),
                2 => *octet,
                _ if self.one_in(2) => octet.to_ascii_lowercase(),
                _ => octet.to_ascii_uppercase(),
            })
            .collect()
    }

    /// One octet changed, removed or inserted.
    pub fn damage(&mut self, octets: &mut Vec<u8>) {
        let new = if self.one_in(4) { self.octet() } else { self.telling() };
        match self.below(3) {
            0 => octets.insert(self.below(octets.len() + 1), new),
            _ if octets.is_empty() => octets.push(new),
            1 => {
                octets.remove(self.below(octets.len()));
            }
            _ => {
                let place = self.below(octets.len());
                octets[place] = new;
            }
        }
    }
}
