//! Printing: RDATA to text. The library and the independent program judge the
//! stanza in every call.

use std::hint::black_box;

use crate::compare::Direction;
use crate::extlang;
use crate::records::Record;

pub const PRINTING: Direction = Direction {
    name: "Printing",
    octets: |record| &record.rdata,
    wanted: |record| their_text(record, u64::MAX),
    ours,
    theirs,
    peer: |kept, out| kept.print(out),
    // Peers name types that the library numbers, so their text may be another.
    exact: false,
    dnspython: |times| &times.printing,
};

fn ours(record: &Record, out: &mut [u8]) -> Option<usize> {
    let (number, count) = extlang::print(record.stanza, record.fields, &record.rdata, out);
    (number == 0).then_some(count as usize)
}

fn their_text(record: &Record, room: u64) -> Option<Vec<u8>> {
    let answer = independent::print(record.stanza, 1, record.fields, &record.rdata, room);
    (answer.number == 0).then_some(answer.octets)
}

/// Its text stays in a vector of its own: copying it would be no work of its.
fn theirs(record: &Record, out: &mut [u8]) -> Option<usize> {
    their_text(record, out.len() as u64).map(|text| black_box(text).len())
}
