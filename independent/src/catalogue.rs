//! Names of types that the caller lends: document 02, request 3, whose sentences
//! are the quoted ones here.

use std::collections::HashMap;

use crate::stanza::is_name;
use crate::Refusal;

/// "a catalogue of up to 512 entries"
pub const ENTRY_LIMIT: usize = 512;

/// "each a type number and where its name lies in a lent text". Any numbers may
/// stand here.
#[derive(Clone, Copy, Debug, PartialEq, Eq)]
pub struct Entry {
    pub number: u32,
    pub start: u16,
    pub length: u16,
}

impl Entry {
    /// The part of the lent text, none where it lies outside.
    fn name_in(self, names: &[u8]) -> Option<&[u8]> {
        let start = usize::from(self.start);
        names.get(start..start + usize::from(self.length))
    }
}

/// What the caller lends: entries, and the text that their names lie in. The
/// default is "an empty catalogue".
#[derive(Clone, Copy, Debug, Default)]
pub struct Lent<'a> {
    pub entries: &'a [Entry],
    pub names: &'a [u8],
}

/// A catalogue without a fault.
#[derive(Debug, Default)]
pub struct Catalogue<'a> {
    /// "strictly rising by number"
    by_number: Vec<(u16, &'a [u8])>,
    /// The numbers, by their names in lower case.
    by_name: HashMap<Vec<u8>, u16>,
}

impl<'a> Catalogue<'a> {
    /// "13, place the first entry (from 1) bad in itself or against earlier ones,
    /// or a 513th"
    pub fn judge(lent: Lent<'a>) -> Result<Self, Refusal> {
        let mut catalogue = Catalogue::default();
        for (&entry, place) in lent.entries.iter().zip(1..) {
            catalogue.add(entry, lent.names).ok_or(Refusal::new(13, place))?;
        }
        Ok(catalogue)
    }

    /// None where the entry is bad, or one too many.
    fn add(&mut self, entry: Entry, names: &'a [u8]) -> Option<()> {
        // "within 0 to 65,535"
        let number = u16::try_from(entry.number).ok()?;
        let name = entry.name_in(names).filter(|name| may_be_lent(name))?;
        let rises = self.by_number.last().is_none_or(|&(last, _)| last < number);
        // "ignoring case, they are distinct"
        let distinct = self.by_name.insert(name.to_ascii_lowercase(), number).is_none();
        self.by_number.push((number, name));
        (rises && distinct && self.by_number.len() <= ENTRY_LIMIT).then_some(())
    }

    /// The name of a type, as it stands in the lent text, "if the entry exists".
    pub fn name(&self, number: u16) -> Option<&'a [u8]> {
        let found = self.by_number.binary_search_by_key(&number, |&(number, _)| number);
        found.ok().map(|index| self.by_number[index].1)
    }

    /// The type that has a name, "ignoring case".
    pub fn number(&self, name: &[u8]) -> Option<u16> {
        self.by_name.get(&name.to_ascii_lowercase()).copied()
    }
}

/// "Names follow the header's name rule; ignoring case, […] none is `TYPE` and
/// one or more digits."
fn may_be_lent(name: &[u8]) -> bool {
    is_name(name) && !is_type_and_digits(name)
}

/// However many digits, and whatever their value.
fn is_type_and_digits(name: &[u8]) -> bool {
    name.split_at_checked(4).is_some_and(|(word, digits)| {
        word.eq_ignore_ascii_case(b"TYPE") && !digits.is_empty() && digits.iter().all(u8::is_ascii_digit)
    })
}
