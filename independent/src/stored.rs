//! Descriptions as the DNS stores them: document 02, request 4, whose sentences
//! are the quoted ones here.

use crate::stanza::Stanza;
use crate::wire::Wire;
use crate::{within_limit, Refusal, STANZA_LIMIT};

/// "the first must be exactly `RRTYPE=1`"
const TAG: &[u8] = b"RRTYPE=1";
/// Request 6: "The caller names edition 10 or 13." Only the later one is here yet.
const EDITION: u64 = 13;

/// "the total is at most 8,192 octets", and then, of request 6, "16 for another
/// edition, place 0, first of all after 1". "Refusals: 8 for a string cut short,
/// place its number, then 14 for a wrong or missing tag, place 1, both before any
/// line is judged."
pub fn judge(txt: &[u8], edition: u64) -> Result<Stanza<'_>, Refusal> {
    within_limit(txt, STANZA_LIMIT)?;
    if edition != EDITION {
        return Err(Refusal::new(16, 0));
    }
    match strings(txt)?.split_first() {
        // "the rest are stanza lines without leading blanks", "Any other string
        // starting with a blank breaks the grammar. Line numbers are string
        // numbers, the tag being 1".
        Some((&TAG, lines)) => Stanza::judge_lines(lines.iter().copied().zip(2..), false),
        _ => Err(Refusal::new(14, 1)),
    }
}

/// "It is counted strings". No octets are no string, so none is cut short.
fn strings(txt: &[u8]) -> Result<Vec<&[u8]>, Refusal> {
    let mut wire = Wire::new(txt);
    let mut strings = Vec::new();
    while !wire.is_empty() {
        let place = strings.len() as u64 + 1;
        strings.push(wire.counted().map_err(|fault| fault.at(place))?);
    }
    Ok(strings)
}
