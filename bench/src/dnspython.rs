//! dnspython, which times itself: no other program can take turns with it.

use std::collections::HashMap;
use std::io::Write;
use std::process::{Command, Stdio};

use crate::compare::ROUND;
use crate::records::Record;
use crate::timing::ROUNDS;

const SCRIPT: &str = include_str!("peers/dnspython.py");
/// Debian's package is for Debian's own Python, which may not be the first.
const PYTHONS: [&str; 2] = ["python3", "/usr/bin/python3"];

/// Nanoseconds per record by type.
#[derive(Default)]
pub struct Times {
    pub reading: HashMap<String, f64>,
    pub printing: HashMap<String, f64>,
}

/// None where dnspython is not installed.
pub fn times(records: &[Record]) -> Option<Times> {
    let python = PYTHONS.into_iter().find(|python| has_dnspython(python))?;
    let output = run(python, &lines(records)).ok()?;
    let mut times = Times::default();
    for line in output.lines() {
        let columns: Vec<&str> = line.split('\t').collect();
        let [kind, reading, printing] = columns[..] else { return None };
        times.reading.insert(kind.to_string(), reading.parse().ok()?);
        times.printing.insert(kind.to_string(), printing.parse().ok()?);
    }
    Some(times)
}

fn left_out() -> bool {
    std::env::var("WITHOUT").is_ok_and(|names| names.split_whitespace().any(|name| name == "dnspython"))
}

fn has_dnspython(python: &str) -> bool {
    let mut command = Command::new(python);
    command.args(["-c", "import dns.rdata"]).stderr(Stdio::null());
    !left_out() && command.status().is_ok_and(|status| status.success())
}

fn lines(records: &[Record]) -> String {
    let hex = |octets: &[u8]| octets.iter().map(|octet| format!("{octet:02X}")).collect::<String>();
    let line = |record: &Record| {
        format!("{}\t{}\t{}\n", record.kind, String::from_utf8_lossy(&record.text), hex(&record.rdata))
    };
    records.iter().map(line).collect()
}

fn run(python: &str, input: &str) -> std::io::Result<String> {
    let (rounds, round) = (ROUNDS.to_string(), ROUND.as_nanos().to_string());
    let mut child = Command::new(python)
        .args(["-c", SCRIPT, &rounds, &round])
        .stdin(Stdio::piped())
        .stdout(Stdio::piped())
        .spawn()?;
    // The script answers only when it has read all.
    child.stdin.take().map_or(Ok(()), |mut stdin| stdin.write_all(input.as_bytes()))?;
    let output = child.wait_with_output()?;
    Ok(String::from_utf8_lossy(&output.stdout).into_owned())
}
