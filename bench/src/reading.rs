//! Reading: text to RDATA, under the root. The library and the independent
//! program judge the stanza in every call.

use std::hint::black_box;

use crate::compare::Direction;
use crate::extlang;
use crate::records::Record;

pub const ROOT: &[u8] = &[0];

pub const READING: Direction = Direction {
    name: "Reading",
    octets: |record| &record.text,
    wanted: |record| their_rdata(record, u64::MAX).filter(|rdata| *rdata == record.rdata),
    ours,
    theirs,
    peer: |kept, out| kept.read(out),
    exact: true,
    dnspython: |times| &times.reading,
};

fn ours(record: &Record, out: &mut [u8]) -> Option<usize> {
    let (number, count) = extlang::read(record.stanza, record.fields, ROOT, &record.text, out);
    (number == 0).then_some(count as usize)
}

fn their_rdata(record: &Record, room: u64) -> Option<Vec<u8>> {
    let answer = independent::read(record.stanza, 1, record.fields, ROOT, &record.text, room);
    (answer.number == 0).then_some(answer.octets)
}

/// Its RDATA stays in a vector of its own: copying it would be no work of its.
fn theirs(record: &Record, out: &mut [u8]) -> Option<usize> {
    their_rdata(record, out.len() as u64).map(|rdata| black_box(rdata).len())
}
