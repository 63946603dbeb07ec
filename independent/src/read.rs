//! From text to RDATA, field by field.

use crate::bitmap::{read_type, Picture};
use crate::catalogue::Catalogue;
use crate::number::Width;
use crate::stanza::Kind;
use crate::text::{Token, Tokens};
use crate::{address, base, name, strings, time, Fault, Refusal, RDATA_LIMIT};

/// "fields left to right with 8 or 9; 10; 11"
pub fn run(fields: &[Kind], catalogue: &Catalogue, origin: &[u8], text: &[u8]) -> Result<Vec<u8>, Refusal> {
    let mut tokens = Tokens::new(text);
    let mut rdata = Vec::new();
    for (kind, place) in fields.iter().zip(1..) {
        field(kind, catalogue, origin, &mut tokens, &mut rdata).map_err(|fault| fault.at(place))?;
    }
    // "anything but blanks after the last field is 10", at "run length plus 1"
    if tokens.next().is_some() {
        return Err(Refusal::new(10, fields.len() as u64 + 1));
    }
    // 11: "the RDATA would exceed 65,535 octets"
    if rdata.len() > RDATA_LIMIT {
        return Err(Refusal::new(11, 0));
    }
    Ok(rdata)
}

/// "A field that isn't a tail takes one token, S[X] one, N[O] at most one, other
/// tails all that are left."
pub fn field(
    kind: &Kind,
    catalogue: &Catalogue,
    origin: &[u8],
    tokens: &mut Tokens,
    out: &mut Vec<u8>,
) -> Result<(), Fault> {
    let sound = match kind {
        Kind::Integer(width, symbols) => {
            symbols.read(*width, tokens.bare()?).map(|value| width.write(value, out))
        }
        Kind::Type => read_type(tokens.bare()?, catalogue).map(|number| Width::Two.write(number.into(), out)),
        // "No block at all is allowed."
        Kind::TypeList => match tokens.next() {
            None => Some(()),
            Some(first) => type_list(first, tokens, catalogue, out),
        },
        Kind::Address4 => address::read_a(tokens.bare()?).map(|octets| out.extend(octets)),
        Kind::Address8 => address::read_aa(tokens.bare()?).map(|octets| out.extend(octets)),
        Kind::Address16 => address::read_aaaa(tokens.bare()?).map(|octets| out.extend(octets)),
        Kind::Name => name::read(tokens.bare()?, origin, out),
        // "N[O]: nothing, or a name."
        Kind::OptionalName => match tokens.next() {
            None => Some(()),
            Some(token) => token.bare().and_then(|token| name::read(token, origin, out)),
        },
        Kind::String => strings::read_counted(tokens.one()?, out),
        // "S[M]: one or more strings."
        Kind::Strings => strings::read_counted(tokens.one()?, out)
            .and_then(|()| tokens.try_for_each(|token| strings::read_counted(token, out))),
        // "S[X]: one token, no count, one or more octets."
        Kind::LongString => strings::read(tokens.one()?, out).filter(|&count| count > 0).map(drop),
        Kind::Base32 => counted(tokens.bare()?, base::read_base32, out),
        Kind::Base64 => base::read_base64(&tokens.joined()?, out),
        Kind::Hex => base::read_hex(&tokens.joined()?, out),
        Kind::CountedHex => counted_hex(tokens.bare()?, out),
        Kind::Eui(count) => {
            let start = out.len();
            out.resize(start + count, 0);
            address::read_eui(tokens.bare()?, &mut out[start..])
        }
        Kind::Time => time::read(tokens.bare()?).map(|seconds| out.extend(seconds.to_be_bytes())),
    };
    sound.ok_or(Fault::Breaks)
}

/// "Text lists types in any order, repeats allowed".
fn type_list<'a>(
    first: Token<'a>,
    rest: &mut Tokens<'a>,
    catalogue: &Catalogue,
    out: &mut Vec<u8>,
) -> Option<()> {
    let mut picture = Picture::empty();
    for token in std::iter::once(first).chain(rest) {
        picture.set(read_type(token.bare()?, catalogue)?);
    }
    picture.write(out);
    Some(())
}

/// Document 02, request 1: "`-` reads back as count 0; a `-` next to digits
/// stays 9", as `-` is no digit.
fn counted_hex(token: &[u8], out: &mut Vec<u8>) -> Option<()> {
    if token == b"-" {
        out.push(0);
        return Some(());
    }
    counted(token, base::read_hex, out)
}

/// "count 1 to 255", then the octets of one token's digits.
fn counted(token: &[u8], read: impl Fn(&[u8], &mut Vec<u8>) -> Option<()>, out: &mut Vec<u8>) -> Option<()> {
    let start = out.len();
    out.push(0);
    read(token, out)?;
    out[start] = u8::try_from(out.len() - start - 1).ok().filter(|&count| count > 0)?;
    Some(())
}
