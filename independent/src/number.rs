//! Decimal numbers, the integer fields I1, I2, I4 and their symbols.

use std::io::Write;

/// "Decimal numbers have 1 to 10 digits, leading zeros allowed, here and in
/// text unless a rule says otherwise." No sign and no blank.
pub fn decimal(digits: &[u8]) -> Option<u64> {
    if !(1..=10).contains(&digits.len()) {
        return None;
    }
    digits
        .iter()
        .try_fold(0, |value, digit| digit.is_ascii_digit().then(|| value * 10 + u64::from(digit - b'0')))
}

/// Appends a number in decimal "without leading zeros".
pub fn print_decimal(value: u64, out: &mut Vec<u8>) {
    // Writing to a vector cannot fail.
    let _ = write!(out, "{value}");
}

/// Octets of an integer field: "big-endian, 1, 2, 4 octets".
#[derive(Clone, Copy, Debug, PartialEq, Eq)]
pub enum Width {
    One,
    Two,
    Four,
}

impl Width {
    pub fn octets(self) -> usize {
        match self {
            Width::One => 1,
            Width::Two => 2,
            Width::Four => 4,
        }
    }

    /// The largest number the field holds.
    pub fn max(self) -> u64 {
        match self {
            Width::One => u64::from(u8::MAX),
            Width::Two => u64::from(u16::MAX),
            Width::Four => u64::from(u32::MAX),
        }
    }

    /// Appends a number that is in range.
    pub fn write(self, value: u64, out: &mut Vec<u8>) {
        let octets = value.to_be_bytes();
        out.extend_from_slice(&octets[octets.len() - self.octets()..]);
    }
}

/// The value of at most eight big-endian octets.
pub fn big_endian(octets: &[u8]) -> u64 {
    octets.iter().fold(0, |value, &octet| value << 8 | u64::from(octet))
}

/// One name`=`digits qualifier.
#[derive(Clone, Copy, Debug)]
pub struct Symbol<'a> {
    pub name: &'a [u8],
    pub number: u64,
}

/// The symbols of one field, in the listed order, with an index by name (case
/// ignored) and one by number (equal numbers in the listed order).
#[derive(Debug)]
pub struct Symbols<'a> {
    listed: Vec<Symbol<'a>>,
    by_name: Vec<usize>,
    by_number: Vec<usize>,
}

/// Names in lower case, for comparing with "letters' case ignored".
fn folded(name: &[u8]) -> impl Iterator<Item = u8> + '_ {
    name.iter().map(u8::to_ascii_lowercase)
}

impl<'a> Symbols<'a> {
    /// None where "a symbol twice (letters' case ignored)" is met. "Two symbols
    /// may share a number."
    pub fn new(listed: Vec<Symbol<'a>>) -> Option<Self> {
        let mut by_name: Vec<usize> = (0..listed.len()).collect();
        by_name.sort_by(|&a, &b| folded(listed[a].name).cmp(folded(listed[b].name)));
        let twice =
            by_name.windows(2).any(|pair| listed[pair[0]].name.eq_ignore_ascii_case(listed[pair[1]].name));
        if twice {
            return None;
        }
        let mut by_number: Vec<usize> = (0..listed.len()).collect();
        by_number.sort_by_key(|&index| listed[index].number);
        Some(Symbols { listed, by_name, by_number })
    }

    /// The symbols in the listed order.
    pub fn listed(&self) -> &[Symbol<'a>] {
        &self.listed
    }

    /// The number of "a symbol (case ignored)".
    fn number(&self, name: &[u8]) -> Option<u64> {
        let found = self.by_name.binary_search_by(|&index| folded(self.listed[index].name).cmp(folded(name)));
        found.ok().map(|position| self.listed[self.by_name[position]].number)
    }

    /// "the first listed symbol with that number"
    fn first_with(&self, number: u64) -> Option<&'a [u8]> {
        let position = self.by_number.partition_point(|&index| self.listed[index].number < number);
        let symbol = &self.listed[*self.by_number.get(position)?];
        (symbol.number == number).then_some(symbol.name)
    }

    /// "Text: a number in range or a symbol (case ignored)." A symbol starts
    /// with a letter, so no token is both.
    pub fn read(&self, width: Width, token: &[u8]) -> Option<u64> {
        match decimal(token) {
            Some(value) => (value <= width.max()).then_some(value),
            None => self.number(token),
        }
    }

    /// "Prints the first listed symbol with that number, else decimal without
    /// leading zeros."
    pub fn print(&self, value: u64, out: &mut Vec<u8>) {
        match self.first_with(value) {
            Some(name) => out.extend_from_slice(name),
            None => print_decimal(value, out),
        }
    }
}
