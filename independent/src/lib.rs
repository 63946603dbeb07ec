//! Record descriptions in the DNS extension language.
//!
//! Three jobs, as the scope document fixes them: judge a description (one
//! stanza); turn master-file text into uncompressed RDATA under it; turn RDATA
//! into text. Either conversion may be asked for any run of consecutive fields.
//!
//! Quoted sentences in the comments of this crate are the scope document's
//! (document 01), or those of a later request (document 02) where the comment
//! names it.

mod address;
mod base;
mod bitmap;
mod catalogue;
pub mod generate;
mod job;
mod lines;
mod name;
mod number;
mod print;
pub mod probe;
mod read;
mod stanza;
mod stored;
mod strings;
mod text;
mod time;
mod wire;

use catalogue::Catalogue;
pub use catalogue::{Entry, Lent, ENTRY_LIMIT};
pub use job::job;
use stanza::Stanza;

/// "stanza over 8,192 […] octets"
pub const STANZA_LIMIT: usize = 8_192;
/// "text over 1,048,576 […] octets"
pub const TEXT_LIMIT: usize = 1_048_576;
/// "RDATA over 65,535 octets"
pub const RDATA_LIMIT: usize = 65_535;
/// "a 65th field line" is one too many.
pub const FIELD_LIMIT: usize = 64;

/// "A refusal returns a number and a place".
#[derive(Clone, Copy, Debug, PartialEq, Eq)]
pub struct Refusal {
    pub number: u8,
    pub place: u64,
}

impl Refusal {
    fn new(number: u8, place: u64) -> Self {
        Refusal { number, place }
    }
}

/// The two refusals a field can meet, before its place is known.
#[derive(Clone, Copy, Debug, PartialEq, Eq)]
enum Fault {
    /// 8: "the input ends before a field is complete"
    Ends,
    /// 9: "a value breaks its field's rule"
    Breaks,
}

impl Fault {
    /// "field in the run, from 1"
    fn at(self, field: u64) -> Refusal {
        match self {
            Fault::Ends => Refusal::new(8, field),
            Fault::Breaks => Refusal::new(9, field),
        }
    }
}

/// "Success returns 0 and the octet count"; a refusal its number and place, and
/// no octets.
#[derive(Clone, Debug, PartialEq, Eq)]
pub struct Answer {
    pub number: u8,
    /// The octet count where `number` is 0, else the place.
    pub place: u64,
    pub octets: Vec<u8>,
}

impl Answer {
    /// 12: "the result is longer than the room", its place the "octets needed".
    fn within(room: u64, result: Result<Vec<u8>, Refusal>) -> Self {
        let refused = |Refusal { number, place }| Answer { number, place, octets: Vec::new() };
        match result {
            Err(refusal) => refused(refusal),
            Ok(octets) => {
                let needed = octets.len() as u64;
                if needed > room {
                    refused(Refusal::new(12, needed))
                } else {
                    Answer { number: 0, place: needed, octets }
                }
            }
        }
    }
}

/// Judges one stanza: 0 and "for judging alone, the field count", or the number
/// and place of its refusal.
pub fn judge(stanza: &[u8]) -> (u8, u64) {
    count_or_refusal(Stanza::judge(stanza))
}

/// The same of a description as the DNS stores it: TXT data of an edition
/// (document 02, request 4).
pub fn judge_stored(txt: &[u8], edition: u64) -> (u8, u64) {
    count_or_refusal(stored::judge(txt, edition))
}

fn count_or_refusal(stanza: Result<Stanza, Refusal>) -> (u8, u64) {
    match stanza {
        Ok(stanza) => (0, stanza.fields().len() as u64),
        Err(refusal) => (refusal.number, refusal.place),
    }
}

/// Turns text into RDATA under the run of `length` fields from field `first`.
/// `origin` is a wire name, `room` the octets the result may take. Document 02,
/// request 3: "an empty catalogue […] stands wherever none is named".
pub fn read(stanza: &[u8], first: u64, length: u64, origin: &[u8], text: &[u8], room: u64) -> Answer {
    read_with(Lent::default(), stanza, first, length, origin, text, room)
}

/// The same with a lent catalogue.
pub fn read_with(
    lent: Lent,
    stanza: &[u8],
    first: u64,
    length: u64,
    origin: &[u8],
    text: &[u8],
    room: u64,
) -> Answer {
    let read = || {
        within_limit(text, TEXT_LIMIT)?;
        read_under(Stanza::judge(stanza)?, lent, first, length, origin, text)
    };
    Answer::within(room, read())
}

/// The same under a stored description, with the empty catalogue.
pub fn read_stored(
    txt: &[u8],
    edition: u64,
    first: u64,
    length: u64,
    origin: &[u8],
    text: &[u8],
    room: u64,
) -> Answer {
    let read = || {
        within_limit(text, TEXT_LIMIT)?;
        read_under(stored::judge(txt, edition)?, Lent::default(), first, length, origin, text)
    };
    Answer::within(room, read())
}

/// "Order: 1; the first faulty stanza line […]; the place-0 case of 2; 6; 7 (text
/// reading only); fields left to right with 8 or 9; 10; 11; 12." Document 02,
/// request 3: "13, […] after 7 (after 6 when printing)". Here what comes after the
/// judging of the stanza.
fn read_under(
    stanza: Stanza,
    lent: Lent,
    first: u64,
    length: u64,
    origin: &[u8],
    text: &[u8],
) -> Result<Vec<u8>, Refusal> {
    let run = stanza.run(first, length)?;
    let origin = name::whole(origin).ok_or(Refusal::new(7, 0))?;
    let catalogue = Catalogue::judge(lent)?;
    read::run(run, &catalogue, origin, text)
}

/// Turns RDATA into text under the run of `length` fields from field `first`.
pub fn print(stanza: &[u8], first: u64, length: u64, rdata: &[u8], room: u64) -> Answer {
    print_with(Lent::default(), stanza, first, length, rdata, room)
}

/// The same with a lent catalogue.
pub fn print_with(lent: Lent, stanza: &[u8], first: u64, length: u64, rdata: &[u8], room: u64) -> Answer {
    let print = || {
        within_limit(rdata, RDATA_LIMIT)?;
        print_under(Stanza::judge(stanza)?, lent, first, length, rdata)
    };
    Answer::within(room, print())
}

/// The same under a stored description, with the empty catalogue.
pub fn print_stored(txt: &[u8], edition: u64, first: u64, length: u64, rdata: &[u8], room: u64) -> Answer {
    let print = || {
        within_limit(rdata, RDATA_LIMIT)?;
        print_under(stored::judge(txt, edition)?, Lent::default(), first, length, rdata)
    };
    Answer::within(room, print())
}

/// The order is that of reading, without 7.
fn print_under(
    stanza: Stanza,
    lent: Lent,
    first: u64,
    length: u64,
    rdata: &[u8],
) -> Result<Vec<u8>, Refusal> {
    let run = stanza.run(first, length)?;
    let catalogue = Catalogue::judge(lent)?;
    print::run(run, &catalogue, rdata)
}

/// 1: input over its limit, at place 0.
fn within_limit(octets: &[u8], limit: usize) -> Result<(), Refusal> {
    if octets.len() > limit {
        Err(Refusal::new(1, 0))
    } else {
        Ok(())
    }
}
