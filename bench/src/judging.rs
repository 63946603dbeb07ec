//! Nanoseconds per stanza octet for judging the published descriptions.

use std::hint::black_box;
use std::time::Duration;

use crate::extlang::{self, Answer};
use crate::records::STANZAS;
use crate::timing::{in_turns, ROUNDS};

const ROUND: Duration = Duration::from_millis(400);

fn theirs(stanza: &[u8]) -> Answer {
    let (number, place) = independent::judge(stanza);
    (number.into(), place as u32)
}

pub fn run() -> Result<(), String> {
    let stanzas: Vec<&[u8]> = STANZAS.split("\n\n").map(str::as_bytes).collect();
    let different = stanzas.iter().filter(|stanza| extlang::judge(stanza) != theirs(stanza)).count();
    if different > 0 {
        return Err(format!("The answers differ at {different} stanzas, so times would say nothing."));
    }
    let octets: usize = stanzas.iter().map(|stanza| stanza.len()).sum();
    println!("Judging: {} stanzas, {octets} octets, median of {ROUNDS} rounds each", stanzas.len());

    let judges = [extlang::judge, theirs];
    let times = in_turns(judges.len(), ROUND, |program| {
        for stanza in &stanzas {
            black_box(judges[program](black_box(stanza)));
        }
    });
    println!("extlang      {:8.2} ns per octet", times[0] / octets as f64);
    println!("independent  {:8.2} ns per octet", times[1] / octets as f64);
    println!("ratio        {:8.2} (extlang / independent)", times[0] / times[1]);
    Ok(())
}
