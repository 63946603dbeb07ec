//! The worst inputs that were found: those with the most time per octet, and
//! those with the most in all. Some are refused, most of them only at their end.

mod draw;
mod rdata;
mod stanzas;
mod texts;

use std::hint::black_box;

use crate::compare::ROUND;
use crate::extlang::{self, Answer};
use crate::reading::ROOT;
use crate::timing::{in_turns, ROUNDS};

const RDATA_LIMIT: usize = 65_535;

/// What a call is handed. When judging there is only the stanza.
pub struct Input {
    what: String,
    stanza: Vec<u8>,
    /// The text or the RDATA.
    octets: Vec<u8>,
    /// How many fields the stanza has.
    fields: u64,
}

impl Input {
    pub fn new(what: impl Into<String>, stanza: impl Into<Vec<u8>>, octets: impl Into<Vec<u8>>) -> Self {
        let (what, stanza, octets) = (what.into(), stanza.into(), octets.into());
        let (number, place) = independent::judge(&stanza);
        let fields = if number == 0 { place } else { 0 };
        Input { what, stanza, octets, fields }
    }

    fn len(&self) -> usize {
        self.stanza.len() + self.octets.len()
    }
}

/// Judging, reading or printing.
struct Way {
    name: &'static str,
    ours: fn(&Input, &mut [u8]) -> Answer,
    theirs: fn(&Input, u64) -> independent::Answer,
}

const JUDGING: Way = Way {
    name: "judging",
    ours: |input, _| extlang::judge(&input.stanza),
    theirs: |input, _| {
        let (number, place) = independent::judge(&input.stanza);
        independent::Answer { number, place, octets: Vec::new() }
    },
};

const READING: Way = Way {
    name: "reading",
    ours: |input, out| extlang::read(&input.stanza, input.fields, ROOT, &input.octets, out),
    theirs: |input, room| independent::read(&input.stanza, 1, input.fields, ROOT, &input.octets, room),
};

const PRINTING: Way = Way {
    name: "printing",
    ours: |input, out| extlang::print(&input.stanza, input.fields, &input.octets, out),
    theirs: |input, room| independent::print(&input.stanza, 1, input.fields, &input.octets, room),
};

impl Way {
    /// The number of both programs' answer, if they answer the same, refusals too.
    fn check(&self, input: &Input, out: &mut [u8]) -> Result<u32, String> {
        let answer = (self.ours)(input, out);
        let wanted = (self.theirs)(input, out.len() as u64);
        let same = answer == (wanted.number.into(), wanted.place as u32);
        if !same || out[..wanted.octets.len()] != wanted.octets {
            return Err(format!("Worst inputs, {}: {}: the answers differ.", self.name, input.what));
        }
        Ok(answer.0)
    }

    /// Nanoseconds of a call, of the library and of the independent program.
    fn times(&self, inputs: &[Input], out: &mut [u8]) -> Vec<f64> {
        in_turns(2 * inputs.len(), ROUND, |turn| {
            let input = black_box(&inputs[turn / 2]);
            if turn % 2 == 0 {
                black_box((self.ours)(input, out));
            } else {
                black_box((self.theirs)(input, out.len() as u64));
            }
        })
    }

    fn rows(&self, inputs: &[Input], out: &mut [u8]) -> Result<(), String> {
        let checks = inputs.iter().map(|input| self.check(input, out));
        let numbers = checks.collect::<Result<Vec<u32>, String>>()?;
        print!("\n{:64}{:>9}{:>9}", self.name, "octets", "refusal");
        println!("{:>13}{:>10}{:>16}{:>10}", "extlang, ns", "an octet", "independent, ns", "an octet");
        let times = self.times(inputs, out);
        for ((input, number), pair) in inputs.iter().zip(numbers).zip(times.chunks(2)) {
            let (ours, theirs, octets) = (pair[0], pair[1], input.len() as f64);
            print!("{:64}{octets:9}{number:9}", input.what);
            println!("{ours:13.0}{:10.2}{theirs:16.0}{:10.2}", ours / octets, theirs / octets);
        }
        Ok(())
    }
}

pub fn run(out: &mut [u8]) -> Result<(), String> {
    print!("\nWorst inputs: ns of a call in all, and per octet that it is handed (the stanza, and ");
    println!("the text or RDATA), median of {ROUNDS} rounds each");
    JUDGING.rows(&stanzas::inputs(), out)?;
    READING.rows(&texts::inputs(), out)?;
    PRINTING.rows(&rdata::inputs(), out)
}
