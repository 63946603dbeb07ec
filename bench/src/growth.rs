//! How the cost grows with the RDATA: one field, twice the octets in each row.

use crate::compare::{times, Direction};
use crate::records::Record;
use crate::table::by_record;

const RDATA_LIMIT: usize = 65_535;

/// Every octet in turn. A random filling would be learnt by the branch
/// predictor where it is short, and so look cheaper.
fn filling(count: usize) -> Vec<u8> {
    (0..count).map(|i| (i * 7) as u8).collect()
}

/// Strings of 255 octets, the last one shorter.
fn strings(count: usize) -> Vec<u8> {
    let string = |octets: &[u8]| [&[(octets.len() - 1) as u8], &octets[1..]].concat();
    filling(count).chunks(256).flat_map(string).collect()
}

/// The last windows, each with all its bits, so that all types but the lower
/// half of the longest list have five digits.
fn windows(count: usize) -> Vec<u8> {
    let window = |window: usize| [&[window as u8, 32][..], &[255; 32]].concat();
    (256 - count / 34..256).flat_map(window).collect()
}

/// The RDATA and its text.
fn record(kind: &'static str, stanza: &'static str, rdata: Vec<u8>) -> Record {
    let text = independent::print(stanza.as_bytes(), 1, 1, &rdata, u64::MAX).octets;
    Record::new(kind, stanza, text, rdata)
}

/// All that has 1, 2, 4 .. times the octets, and last the most octets.
fn records(
    kind: &'static str,
    stanza: &'static str,
    first: usize,
    most: usize,
    rdata: fn(usize) -> Vec<u8>,
) -> Vec<Record> {
    let counts =
        std::iter::successors(Some(first), |count| Some(count * 2)).take_while(|count| *count < most);
    counts.chain([most]).map(|count| record(kind, stanza, rdata(count))).collect()
}

fn rows(direction: &Direction, records: &[Record], out: &mut [u8]) -> Result<(), String> {
    records.iter().try_for_each(|record| direction.check(record, out))?;
    let columns = times(&direction.programs(), &by_record(records), out);
    for (row, record) in records.iter().enumerate() {
        let octets = (direction.octets)(record).len();
        print!("{:6}{:8}{:9}", record.kind, record.rdata.len(), record.text.len());
        print!("{:15.0}", columns[0].times[row]);
        columns.iter().for_each(|column| print!("{:13.2}", column.times[row] / octets as f64));
        println!();
    }
    Ok(())
}

pub fn run(direction: &Direction, out: &mut [u8]) -> Result<(), String> {
    println!("\n{} one field: ns in all, and ns per octet that is converted", direction.name);
    println!("{:>14}{:>9}{:>15}{:>13}{:>13}", "RDATA", "text", "extlang, ns", "an octet", "independent");
    rows(direction, &records("S[M]", "T:1\n S[M]\n", 1024, RDATA_LIMIT, strings), out)?;
    rows(direction, &records("B64", "T:1\n B64\n", 1024, RDATA_LIMIT, filling), out)?;
    rows(direction, &records("X", "T:1\n X\n", 1024, RDATA_LIMIT, filling), out)?;
    rows(direction, &records("R[L]", "T:1\n R[L]\n", 34, 256 * 34, windows), out)
}
