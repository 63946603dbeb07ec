//! Times the library beside other programs that do the same.

mod compare;
mod dnspython;
mod extlang;
mod growth;
mod judging;
mod peers;
mod printing;
mod reading;
mod records;
mod table;
mod timing;
mod worst;

use std::process::ExitCode;

use printing::PRINTING;
use reading::READING;
use records::Corpus;

/// The longest text, and a NUL for Knot.
const ROOM: usize = (1 << 20) + 1;

fn run() -> Result<(), String> {
    timing::keep_memory();
    // All programs write to this buffer. It is not cleared between calls.
    let mut out = vec![0; ROOM];
    let corpus = Corpus::new();
    judging::run()?;
    let python = dnspython::times(&corpus.short);
    for direction in [READING, PRINTING] {
        direction.run(&corpus, python.as_ref(), &mut out)?;
        growth::run(&direction, &mut out)?;
    }
    worst::run(&mut out)
}

fn main() -> ExitCode {
    match run() {
        Ok(()) => ExitCode::SUCCESS,
        Err(message) => {
            println!("{message}");
            ExitCode::FAILURE
        }
    }
}
