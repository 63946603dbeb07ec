//! Jobs: a stanza, an origin and records, perhaps with the form broken.

use super::random::Random;
use super::requests::text;
use super::stanzas::{digits, faulty, good};
use super::texts;
use crate::stanza::Stanza;

/// The job of one index.
pub fn job(seed: u64, index: u64) -> Vec<u8> {
    let random = &mut Random::new(seed, index);
    let mut stanza = if random.one_in(8) { faulty(random) } else { good(random) };
    if stanza.last().is_some_and(|&octet| octet != b'\n') {
        stanza.push(b'\n');
    }
    let records = records(random, &stanza);
    let broken = random.percent(35);
    let fault = if broken { random.below(9) } else { usize::MAX };

    let mut job = Vec::new();
    let lines = stanza.iter().filter(|&&octet| octet == b'\n').count() as u64;
    job.extend(count_line(random, lines, fault == 0));
    job.extend(stanza);
    job.extend(count_line(random, 1, fault == 1));
    job.extend(origin(random, fault == 2));
    job.push(b'\n');
    job.extend(count_line(random, records.len() as u64, fault == 3));
    for record in &records {
        job.extend_from_slice(record);
        job.push(b'\n');
    }
    match fault {
        4 => job.extend_from_slice(random.pick::<&[u8]>(&[b"\n", b" \n", b"x", b"7\n", b"\r\n", b"0\n"])),
        5 => job.truncate(random.below(job.len() + 1)),
        6 => random.damage(&mut job),
        7 => {
            random.damage(&mut job);
            random.damage(&mut job);
        }
        8 if random.one_in(40) => {
            // About the largest job, with blanks before the last LF.
            job.pop();
            job.resize(65_533 + random.below(3), b' ');
            job.push(b'\n');
        }
        _ => {}
    }
    if random.one_in(5) && job.last() == Some(&b'\n') {
        job.pop();
    }
    job
}

fn records(random: &mut Random, stanza: &[u8]) -> Vec<Vec<u8>> {
    let stanza = Stanza::judge(stanza).ok();
    let fields = stanza.as_ref().map_or(&[][..], Stanza::fields);
    let count = random.pick(&[0, 1, 1, 2, 2, 3, 5]);
    (0..count)
        .map(|_| {
            let mut record = text(random, fields);
            // A record is one line.
            record.retain(|&octet| octet != b'\n');
            if random.one_in(20) {
                record.push(b'\r');
            }
            record
        })
        .collect()
}

fn count_line(random: &mut Random, count: u64, fault: bool) -> Vec<u8> {
    let mut line = digits(random, count, 10);
    if fault {
        match random.below(8) {
            0 => line = (count + 1).to_string().into_bytes(),
            1 => line = count.saturating_sub(1).to_string().into_bytes(),
            2 => line = format!("{count:011}").into_bytes(),
            3 => line.insert(0, random.pick(b" +-\t")),
            4 => line.push(random.pick(b" \r\t.xX")),
            5 => line.clear(),
            6 => line = b"9999999999".to_vec(),
            _ => line.extend_from_slice(b"\n"),
        }
    }
    line.push(b'\n');
    line
}

fn origin(random: &mut Random, fault: bool) -> Vec<u8> {
    if fault {
        let long = format!("{}.", "n".repeat(64));
        let label = "n".repeat(63);
        let over = format!("{label}.{label}.{label}.{}.", "n".repeat(random.pick(&[61, 62])));
        return random
            .pick(&[
                " example.", "example. ", "example", "@", "", "a..b.", "a\\.", "# c", "..", ".a.", "a b.",
                "\"a.\"", "a;b.", "a\\256.", "a\\1.", "a\r.", "a.\r", "a\\", "\\", &long, &over, &over,
                "a.\\", "(a).", "a.\t", "a\x7F.",
            ])
            .into();
    }
    if random.one_in(2) {
        return random
            .pick(&["example.", ".", "a\\.b\\032.", "a\\ b.", "@.", "Lobby.example.", "\\;x."])
            .into();
    }
    let mut name = texts::name(random, false);
    if name == b"@" || name.last() != Some(&b'.') {
        name.push(b'.');
    }
    name
}
