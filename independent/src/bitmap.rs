//! R and R[L]: record types and their bitmaps.

use crate::catalogue::Catalogue;
use crate::number::{decimal, print_decimal};
use crate::wire::Wire;
use crate::Fault;

/// Document 02, request 3: "R and R[L] […] read either form, ignoring case". No
/// name has the other form.
pub fn read_type(token: &[u8], catalogue: &Catalogue) -> Option<u16> {
    read_numbered(token).or_else(|| catalogue.number(token))
}

/// "`TYPE` (case ignored) and a number to 65,535"
fn read_numbered(token: &[u8]) -> Option<u16> {
    let (word, digits) = token.split_at_checked(4)?;
    if !word.eq_ignore_ascii_case(b"TYPE") {
        return None;
    }
    u16::try_from(decimal(digits)?).ok()
}

/// Document 02, request 3: "R and R[L] print the name if the entry exists […];
/// other types stay TYPEnnn", which "prints without leading zeros".
pub fn print_type(number: u16, catalogue: &Catalogue, out: &mut Vec<u8>) {
    match catalogue.name(number) {
        Some(name) => out.extend_from_slice(name),
        None => {
            out.extend_from_slice(b"TYPE");
            print_decimal(u64::from(number), out);
        }
    }
}

/// "It is a picture of 256 windows of 32 octets."
pub struct Picture([[u8; 32]; 256]);

impl Picture {
    pub fn empty() -> Self {
        Picture([[0; 32]; 256])
    }

    /// "Text lists types in any order, repeats allowed".
    pub fn set(&mut self, number: u16) {
        let [window, bit] = number.to_be_bytes();
        self.0[usize::from(window)][usize::from(bit / 8)] |= 0x80 >> (bit % 8);
    }

    /// "blocks of window, count 1 to 32, octets; windows strictly rise, last
    /// octet not zero"
    pub fn write(&self, out: &mut Vec<u8>) {
        for (window, octets) in (0..=u8::MAX).zip(&self.0) {
            if let Some(last) = octets.iter().rposition(|&octet| octet != 0) {
                // At most 32, so the count fits its octet.
                out.extend_from_slice(&[window, last as u8 + 1]);
                out.extend_from_slice(&octets[..=last]);
            }
        }
    }
}

/// Prints the blocks that are left, the types "rising". "No block at all is
/// allowed. Every bit from 0 to 65,535 is accepted." Each rule of a block "is
/// judged at the last octet it needs": the rise of windows at the window octet,
/// the count at the count octet, the last octet at itself.
pub fn print_list(wire: &mut Wire, catalogue: &Catalogue, out: &mut Vec<u8>) -> Result<(), Fault> {
    let mut last_window = None;
    let mut first = true;
    while !wire.is_empty() {
        let window = wire.octet()?;
        if last_window.is_some_and(|last| window <= last) {
            return Err(Fault::Breaks);
        }
        last_window = Some(window);
        let count = wire.octet()?;
        if !(1..=32).contains(&count) {
            return Err(Fault::Breaks);
        }
        let octets = wire.take(usize::from(count))?;
        if octets.last() == Some(&0) {
            return Err(Fault::Breaks);
        }
        for (octet, bits) in (0u8..32).zip(octets) {
            for bit in (0u8..8).filter(|bit| bits & (0x80 >> bit) != 0) {
                if !std::mem::take(&mut first) {
                    out.push(b' ');
                }
                print_type(u16::from_be_bytes([window, octet * 8 + bit]), catalogue, out);
            }
        }
    }
    Ok(())
}
