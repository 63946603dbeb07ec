//! From RDATA to text, field by field.

use crate::catalogue::Catalogue;
use crate::number::big_endian;
use crate::stanza::Kind;
use crate::wire::Wire;
use crate::{address, base, bitmap, name, strings, time, Fault, Refusal};

/// "fields left to right with 8 or 9; 10". "Printed field texts that are not
/// empty are joined by one space".
pub fn run(fields: &[Kind], catalogue: &Catalogue, rdata: &[u8]) -> Result<Vec<u8>, Refusal> {
    let mut wire = Wire::new(rdata);
    let mut text = Vec::new();
    for (kind, place) in fields.iter().zip(1..) {
        let before = text.len();
        if before > 0 {
            text.push(b' ');
        }
        let start = text.len();
        field(kind, catalogue, &mut wire, &mut text).map_err(|fault| fault.at(place))?;
        if text.len() == start {
            text.truncate(before);
        }
    }
    // 10: "something is left after the last field", at "run length plus 1"
    if !wire.is_empty() {
        return Err(Refusal::new(10, fields.len() as u64 + 1));
    }
    Ok(text)
}

pub fn field(kind: &Kind, catalogue: &Catalogue, wire: &mut Wire, out: &mut Vec<u8>) -> Result<(), Fault> {
    match kind {
        Kind::Integer(width, symbols) => {
            symbols.print(big_endian(wire.take(width.octets())?), out);
        }
        Kind::Type => bitmap::print_type(u16::from_be_bytes(wire.array()?), catalogue, out),
        Kind::TypeList => bitmap::print_list(wire, catalogue, out)?,
        Kind::Address4 => address::print_a(wire.array()?, out),
        Kind::Address8 => address::print_aa(wire.array()?, out),
        Kind::Address16 => address::print_aaaa(wire.array()?, out),
        Kind::Name => name::print(name::take(wire)?, out),
        // "N[O]: nothing, or a name."
        Kind::OptionalName => {
            if !wire.is_empty() {
                name::print(name::take(wire)?, out);
            }
        }
        Kind::String => strings::print(wire.counted()?, out),
        // "S[M]: one or more strings", the tokens "joined by one space"
        Kind::Strings => {
            strings::print(wire.counted()?, out);
            while !wire.is_empty() {
                out.push(b' ');
                strings::print(wire.counted()?, out);
            }
        }
        // "S[X]: […] no count, one or more octets."
        Kind::LongString => strings::print(wire.all_from_one()?, out),
        Kind::Base32 => base::print_base32(wire.counted_from_one()?, out),
        // "B64: tail, one or more octets, […] printed without" blanks
        Kind::Base64 => base::print_base64(wire.all_from_one()?, out),
        // "X: tail, one or more octets"
        Kind::Hex => base::print_hex(wire.all_from_one()?, out),
        // Document 02, request 1: "count 0 is accepted, prints `-`"
        Kind::CountedHex => match wire.counted()? {
            [] => out.push(b'-'),
            octets => base::print_hex(octets, out),
        },
        Kind::Eui(count) => address::print_eui(wire.take(*count)?, out),
        Kind::Time => time::print(u32::from_be_bytes(wire.array()?), out),
    }
    Ok(())
}
