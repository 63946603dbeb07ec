//! Lent catalogues: good ones, and ones with a fault of a chosen sort.

use std::collections::BTreeSet;

use super::random::Random;
use super::values::number16;
use crate::{Entry, Lent, ENTRY_LIMIT};

/// Names that people know, and names near to `TYPE` and digits.
const NAMES: &[&str] = &[
    "A", "NS", "CNAME", "SOA", "MX", "TXT", "AAAA", "SRV", "NSAP-PTR", "NSEC3PARAM", "a6", "Ds", "x25",
    "TYPE", "type", "TYPE-1", "TYPE1A", "typ", "TYPES", "X-TYPE1", "q-", "z9--0", "ANY",
];
/// Parts that are no names, or `TYPE` and digits, which no name may be.
const NO_NAMES: &[&str] = &[
    "TYPE0", "TYPE1", "type28", "tYpE65535", "TYPE65536", "TYPE000", "TYPE99999999999", "1A", "-A", "A_B",
    "A.B", "A B", " A", "A\t", "\\065", "\"A\"", "@", "A\0", "\u{C4}", "MX,", "A;", "*",
];

/// A catalogue and the text that it lends.
#[derive(Default)]
pub struct Catalogue {
    pub entries: Vec<Entry>,
    pub names: Vec<u8>,
}

impl Catalogue {
    pub fn lent(&self) -> Lent<'_> {
        Lent { entries: &self.entries, names: &self.names }
    }

    /// The name of an entry that lies in the text.
    pub fn name(&self, entry: Entry) -> Option<&[u8]> {
        let start = usize::from(entry.start);
        self.names.get(start..start + usize::from(entry.length))
    }

    /// Appends a name to the text.
    fn place(&mut self, name: &[u8]) -> (u16, u16) {
        let start = self.names.len();
        self.names.extend_from_slice(name);
        (start as u16, name.len() as u16)
    }
}

/// Mostly good, mostly with few entries.
pub fn any(random: &mut Random) -> Catalogue {
    let mut catalogue = good(random);
    if random.percent(22) {
        for _ in 0..random.within(1..=2) {
            damage(random, &mut catalogue);
        }
    }
    catalogue
}

fn good(random: &mut Random) -> Catalogue {
    let count = match random.below(400) {
        0 => random.pick(&[ENTRY_LIMIT - 1, ENTRY_LIMIT, ENTRY_LIMIT + 1]),
        1..=10 => random.within(30..=90),
        11..=60 => random.within(7..=20),
        61..=80 => 0,
        _ => random.within(1..=6),
    };
    let names = names(random, count);
    let mut catalogue = Catalogue::default();
    for (number, name) in numbers(random, count).into_iter().zip(&names) {
        let (start, length) = placed(random, &mut catalogue, name);
        catalogue.entries.push(Entry { number: number.into(), start, length });
    }
    catalogue
}

/// "strictly rising by number within 0 to 65,535"
fn numbers(random: &mut Random, count: usize) -> BTreeSet<u16> {
    let mut numbers = BTreeSet::new();
    while numbers.len() < count {
        numbers.insert(number16(random));
    }
    numbers
}

/// "ignoring case, they are distinct"
fn names(random: &mut Random, count: usize) -> Vec<Vec<u8>> {
    let mut names = Vec::new();
    let mut folded = BTreeSet::new();
    while names.len() < count {
        let name = name(random, names.len());
        if folded.insert(name.to_ascii_lowercase()) {
            names.push(name);
        }
    }
    names
}

fn name(random: &mut Random, index: usize) -> Vec<u8> {
    let known: &str = random.pick(NAMES);
    let mut name = random.any_case(known.as_bytes());
    if index >= NAMES.len() / 2 || random.one_in(4) {
        name.extend_from_slice(format!("-{}", random.below(10_000)).as_bytes());
    }
    if random.one_in(40) {
        name.resize(63, random.pick(b"xX0-"));
    }
    name
}

/// At the end of the text, at times after octets that belong to no name; or
/// where it stands already, as a part of other names.
fn placed(random: &mut Random, catalogue: &mut Catalogue, name: &[u8]) -> (u16, u16) {
    let there = catalogue.names.windows(name.len()).position(|part| part == name);
    if let Some(start) = there.filter(|_| random.percent(70)) {
        return (start as u16, name.len() as u16);
    }
    if random.one_in(8) {
        let gap = random.telling();
        catalogue.names.push(gap);
    }
    catalogue.place(name)
}

/// A fault in one entry, or one entry more.
fn damage(random: &mut Random, catalogue: &mut Catalogue) {
    if catalogue.entries.is_empty() || random.one_in(12) {
        return more(random, catalogue);
    }
    let index = random.below(catalogue.entries.len());
    match random.below(5) {
        0 => damage_number(random, catalogue, index),
        1 => damage_place(random, catalogue, index),
        2 => {
            let text: &str = random.pick(NO_NAMES);
            replace(catalogue, index, text.as_bytes());
        }
        3 => same_name(random, catalogue, index),
        _ => damage_text(random, catalogue, index),
    }
}

/// An entry of any octets, or an empty name, or one that is good or nearly so.
fn more(random: &mut Random, catalogue: &mut Catalogue) {
    let [number, place] = [random.next() as u32, random.next() as u32];
    let entry = match random.below(3) {
        0 => Entry { number, start: (place >> 16) as u16, length: place as u16 },
        1 => Entry { number: u32::from(number as u16), start: 0, length: 0 },
        _ => {
            let (start, length) = catalogue.place(b"more");
            Entry { number: u32::from(u16::MAX), start, length }
        }
    };
    catalogue.entries.push(entry);
}

/// Too big, as the one before or below it, or that of another entry.
fn damage_number(random: &mut Random, catalogue: &mut Catalogue, index: usize) {
    let number = catalogue.entries[index].number;
    let before = catalogue.entries[index.saturating_sub(1)].number;
    let other = random.below(catalogue.entries.len());
    match random.below(6) {
        0 => {
            catalogue.entries[index].number =
                random.pick(&[65_536, 65_537, 1 << 31, u32::MAX, number | 1 << 16])
        }
        1 => catalogue.entries[index].number = before,
        2 => catalogue.entries[index].number = before.saturating_sub(1),
        3 => catalogue.entries[index].number = u32::from(number16(random)),
        _ => catalogue.entries.swap(index, other),
    }
}

/// Empty, longer than a name or than the text, or elsewhere.
fn damage_place(random: &mut Random, catalogue: &mut Catalogue, index: usize) {
    let end = catalogue.names.len();
    let entry = &mut catalogue.entries[index];
    let left = end.saturating_sub(usize::from(entry.start)) as u16;
    match random.below(7) {
        0 => entry.length = 0,
        1 => entry.length = left + 1,
        2 => entry.length = random.pick(&[64, 255, 256, 65_535]),
        3 => entry.start = random.pick(&[end as u16, end as u16 + 1, 65_535]),
        4 => entry.start = random.below(end + 1) as u16,
        5 => entry.length = random.within(1..=70) as u16,
        _ => (entry.start, entry.length) = (end as u16, random.below(2) as u16),
    }
}

/// Another name for the entry, at the end of the text.
fn replace(catalogue: &mut Catalogue, index: usize, name: &[u8]) {
    let (start, length) = catalogue.place(name);
    (catalogue.entries[index].start, catalogue.entries[index].length) = (start, length);
}

/// The name of an entry, in any case.
fn same_name(random: &mut Random, catalogue: &mut Catalogue, index: usize) {
    let other = random.below(catalogue.entries.len());
    let name = catalogue.name(catalogue.entries[other]).unwrap_or(b"a").to_vec();
    let name = random.any_case(&name);
    replace(catalogue, index, &name);
}

/// One octet of a name, or the end of the text.
fn damage_text(random: &mut Random, catalogue: &mut Catalogue, index: usize) {
    let Entry { start, length, .. } = catalogue.entries[index];
    let place = usize::from(start) + random.below(usize::from(length));
    match catalogue.names.get_mut(place) {
        Some(octet) if !random.one_in(4) => *octet = random.telling(),
        _ => catalogue.names.truncate(random.below(catalogue.names.len() + 1)),
    }
}
