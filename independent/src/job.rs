//! The job program: a stanza, an origin and records in, one line per record out.

use crate::base::print_hex;
use crate::catalogue::Catalogue;
use crate::lines::Lines;
use crate::number::{decimal, print_decimal};
use crate::stanza::Stanza;
use crate::text::{self, Token};
use crate::{name, read, Refusal};

/// "a job of at most 65,535 octets"
const JOB_LIMIT: usize = 65_535;

/// What the program writes for a job. "A job that breaks this writes only `bad
/// job`; a refused stanza is reported at each record."
pub fn job(input: &[u8]) -> Vec<u8> {
    match Job::split(input) {
        Some(job) => job.run(),
        None => b"bad job\n".to_vec(),
    }
}

/// A job whose form is right.
struct Job<'a> {
    stanza: &'a [u8],
    origin: Vec<u8>,
    records: Vec<&'a [u8]>,
}

impl<'a> Job<'a> {
    /// "sections in a fixed order, each after its line count: stanza, origin
    /// (one absolute name), records. Nothing follows the last section; the last
    /// LF may be missing."
    fn split(input: &'a [u8]) -> Option<Self> {
        if input.len() > JOB_LIMIT {
            return None;
        }
        let mut lines = Lines::new(input);
        let (stanza, _) = section(&mut lines)?;
        let (_, origin) = section(&mut lines)?;
        let (_, records) = section(&mut lines)?;
        let &[origin] = origin.as_slice() else { return None };
        lines.rest().is_empty().then_some(())?;
        Some(Job { stanza, origin: read_origin(origin)?, records })
    }

    /// Document 02, request 3: "an empty catalogue […] stands wherever none is
    /// named".
    fn run(&self) -> Vec<u8> {
        let stanza = Stanza::judge(self.stanza);
        let mut out = Vec::new();
        for record in &self.records {
            let rdata = match &stanza {
                Ok(stanza) => read::run(stanza.fields(), &Catalogue::default(), &self.origin, record),
                Err(refusal) => Err(*refusal),
            };
            report(rdata, &mut out);
        }
        out
    }
}

/// A line count and as many lines: their octets with the LFs, and the lines.
fn section<'a>(lines: &mut Lines<'a>) -> Option<(&'a [u8], Vec<&'a [u8]>)> {
    let count = decimal(lines.next()?)?;
    let octets = lines.rest();
    let mut taken = Vec::new();
    for _ in 0..count {
        taken.push(lines.next()?);
    }
    Some((&octets[..octets.len() - lines.rest().len()], taken))
}

/// The line is the name and nothing else: one bare token from end to end.
fn read_origin(line: &[u8]) -> Option<Vec<u8>> {
    match text::bare(line)? {
        (Token::Bare(token), []) => name::read_absolute(token),
        _ => None,
    }
}

/// "One line per record comes out; no octets give `ok` alone."
fn report(rdata: Result<Vec<u8>, Refusal>, out: &mut Vec<u8>) {
    match rdata {
        Ok(rdata) => {
            out.extend_from_slice(b"ok");
            if !rdata.is_empty() {
                out.push(b' ');
                print_hex(&rdata, out);
            }
        }
        Err(Refusal { number, place }) => {
            out.extend_from_slice(b"no ");
            print_decimal(u64::from(number), out);
            out.push(b' ');
            print_decimal(place, out);
        }
    }
    out.push(b'\n');
}
