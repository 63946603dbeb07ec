//! Every example of the settled readings.

use std::path::Path;

use independent::{job, probe};

fn hex(octets: &[u8]) -> String {
    if octets.is_empty() {
        return "-".into();
    }
    octets.iter().map(|octet| format!("{octet:02X}")).collect()
}

fn octets(word: &str) -> Vec<u8> {
    if word == "-" {
        return Vec::new();
    }
    (0..word.len()).step_by(2).map(|i| u8::from_str_radix(&word[i..i + 2], 16).unwrap()).collect()
}

#[test]
fn every_example_gives_its_answer() {
    let path = Path::new(env!("CARGO_MANIFEST_DIR")).join("readings.tsv");
    let examples = std::fs::read_to_string(path).unwrap();
    let mut count = 0;
    let mut wrong = Vec::new();
    for line in examples.lines() {
        let columns: Vec<&str> = line.split('\t').collect();
        let [kind, request, expected] = columns[..] else { panic!("three columns") };
        let given = match kind {
            "job" => hex(&job(&octets(request))),
            _ => String::from_utf8(probe::answer(request.as_bytes())).unwrap(),
        };
        count += 1;
        if given != expected {
            let short = |word: &str| word.chars().take(200).collect::<String>();
            wrong.push(format!("{} -> {}, not {}", short(request), short(&given), short(expected)));
        }
    }
    assert_eq!(count, 312);
    assert!(wrong.is_empty(), "{} wrong:\n{}", wrong.len(), wrong.join("\n"));
}
