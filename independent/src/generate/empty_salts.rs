//! Where document 01's "X[C]: count 1 to 255" refuses an empty salt.
//!
//! The room of a printing or reading request is drawn around the place of its
//! answer. A request stays the same when the answer changes, so that one list of
//! requests serves before and after. So its room still follows document 01: 9 at
//! the field of the empty salt.

use crate::catalogue::Catalogue;
use crate::stanza::Kind;
use crate::text::{Token, Tokens};
use crate::wire::Wire;
use crate::{name, print, read};

/// The field in the run, from 1, of the first empty salt, unless a field before
/// it is refused.
pub fn first_on_the_wire(fields: &[Kind], rdata: &[u8]) -> Option<u64> {
    let mut wire = Wire::new(rdata);
    for (kind, place) in fields.iter().zip(1..) {
        if matches!(kind, Kind::CountedHex) && wire.rest().first() == Some(&0) {
            return Some(place);
        }
        print::field(kind, &Catalogue::default(), &mut wire, &mut Vec::new()).ok()?;
    }
    None
}

/// The same in text. An origin that is no name is refused before any field.
pub fn first_in_text(fields: &[Kind], origin: &[u8], text: &[u8]) -> Option<u64> {
    let origin = name::whole(origin)?;
    let mut tokens = Tokens::new(text);
    for (kind, place) in fields.iter().zip(1..) {
        if matches!(kind, Kind::CountedHex) && tokens.clone().next() == Some(Token::Bare(b"-")) {
            return Some(place);
        }
        read::field(kind, &Catalogue::default(), origin, &mut tokens, &mut Vec::new()).ok()?;
    }
    None
}
