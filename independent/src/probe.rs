//! A line protocol for comparing: one request per line, one answer line each.
//!
//! ```text
//! J STANZA                               -> NUMBER PLACE
//! P STANZA FIRST LENGTH RDATA ROOM       -> NUMBER PLACE TEXT
//! R STANZA FIRST LENGTH ORIGIN TEXT ROOM -> NUMBER PLACE RDATA
//! W JOB                                  -> LINES
//! ```
//!
//! Document 02, request 3, has the first three with a lent catalogue:
//!
//! ```text
//! JC STANZA                                               -> NUMBER PLACE
//! PC STANZA FIRST LENGTH CATALOGUE NAMES RDATA ROOM       -> NUMBER PLACE TEXT
//! RC STANZA FIRST LENGTH CATALOGUE NAMES ORIGIN TEXT ROOM -> NUMBER PLACE RDATA
//! ```
//!
//! Request 4 has them with a description as the DNS stores it:
//!
//! ```text
//! JS TXT EDITION                               -> NUMBER PLACE
//! PS TXT EDITION FIRST LENGTH RDATA ROOM       -> NUMBER PLACE TEXT
//! RS TXT EDITION FIRST LENGTH ORIGIN TEXT ROOM -> NUMBER PLACE RDATA
//! ```
//!
//! Words are parted by exactly one space. Octets are in hex, either case in,
//! upper case out, `-` for none; numbers are decimal, unsigned, 64 bits. PLACE
//! is the count where NUMBER is 0; LINES are what the job program writes for JOB.
//! CATALOGUE has eight octets for each entry, big-endian: number 4, start 2,
//! length 2; NAMES is the lent text. A line that is no request answers `?`, as
//! does one whose CATALOGUE ends inside an entry.

use crate::base::{print_hex, read_hex};
use crate::{job, judge, judge_stored, print, print_stored, print_with, read, read_stored, read_with};
use crate::{Answer, Entry, Lent};

/// The longest request line, without its LF.
pub const LINE_LIMIT: usize = 2_200_000;

/// The answer to a request line, both without their LF.
pub fn answer(line: &[u8]) -> Vec<u8> {
    try_answer(line).unwrap_or_else(|| b"?".to_vec())
}

fn try_answer(line: &[u8]) -> Option<Vec<u8>> {
    if line.len() > LINE_LIMIT {
        return None;
    }
    let words: Vec<&[u8]> = line.split(|&octet| octet == b' ').collect();
    match words[..] {
        [b"J" | b"JC", stanza] => Some(judge_line(judge(&octets(stanza)?))),
        [b"P", stanza, first, length, rdata, room] => Some(answer_line(print(
            &octets(stanza)?,
            number(first)?,
            number(length)?,
            &octets(rdata)?,
            number(room)?,
        ))),
        [b"R", stanza, first, length, origin, text, room] => Some(answer_line(read(
            &octets(stanza)?,
            number(first)?,
            number(length)?,
            &octets(origin)?,
            &octets(text)?,
            number(room)?,
        ))),
        [b"PC", stanza, first, length, catalogue, names, rdata, room] => Some(answer_line(print_with(
            Lent { entries: &entries(catalogue)?, names: &octets(names)? },
            &octets(stanza)?,
            number(first)?,
            number(length)?,
            &octets(rdata)?,
            number(room)?,
        ))),
        [b"RC", stanza, first, length, catalogue, names, origin, text, room] => Some(answer_line(read_with(
            Lent { entries: &entries(catalogue)?, names: &octets(names)? },
            &octets(stanza)?,
            number(first)?,
            number(length)?,
            &octets(origin)?,
            &octets(text)?,
            number(room)?,
        ))),
        [b"JS", txt, edition] => Some(judge_line(judge_stored(&octets(txt)?, number(edition)?))),
        [b"PS", txt, edition, first, length, rdata, room] => Some(answer_line(print_stored(
            &octets(txt)?,
            number(edition)?,
            number(first)?,
            number(length)?,
            &octets(rdata)?,
            number(room)?,
        ))),
        [b"RS", txt, edition, first, length, origin, text, room] => Some(answer_line(read_stored(
            &octets(txt)?,
            number(edition)?,
            number(first)?,
            number(length)?,
            &octets(origin)?,
            &octets(text)?,
            number(room)?,
        ))),
        [b"W", word] => {
            let mut line = Vec::new();
            push_octets(&job(&octets(word)?), &mut line);
            Some(line)
        }
        _ => None,
    }
}

fn judge_line((number, place): (u8, u64)) -> Vec<u8> {
    format!("{number} {place}").into_bytes()
}

fn answer_line(answer: Answer) -> Vec<u8> {
    let mut line = format!("{} {} ", answer.number, answer.place).into_bytes();
    push_octets(&answer.octets, &mut line);
    line
}

fn octets(word: &[u8]) -> Option<Vec<u8>> {
    let mut octets = Vec::new();
    if word == b"-" {
        return Some(octets);
    }
    if word.is_empty() {
        return None;
    }
    read_hex(word, &mut octets)?;
    Some(octets)
}

/// Whole entries, and nothing after them.
fn entries(word: &[u8]) -> Option<Vec<Entry>> {
    let octets = octets(word)?;
    let (entries, rest) = octets.as_chunks();
    rest.is_empty().then(|| entries.iter().map(entry).collect())
}

fn entry(&[a, b, c, d, e, f, g, h]: &[u8; 8]) -> Entry {
    Entry {
        number: u32::from_be_bytes([a, b, c, d]),
        start: u16::from_be_bytes([e, f]),
        length: u16::from_be_bytes([g, h]),
    }
}

fn number(word: &[u8]) -> Option<u64> {
    if word.is_empty() {
        return None;
    }
    word.iter().try_fold(0u64, |value, digit| {
        let digit = digit.is_ascii_digit().then(|| u64::from(digit - b'0'))?;
        value.checked_mul(10)?.checked_add(digit)
    })
}

/// Appends octets as a word of the protocol.
fn push_octets(octets: &[u8], line: &mut Vec<u8>) {
    if octets.is_empty() {
        line.push(b'-');
    } else {
        print_hex(octets, line);
    }
}

/// The request line for judging.
pub fn judge_request(stanza: &[u8]) -> Vec<u8> {
    asked("J", stanza)
}

/// The request line for printing.
pub fn print_request(stanza: &[u8], first: u64, length: u64, rdata: &[u8], room: u64) -> Vec<u8> {
    of_run(asked("P", stanza), first, length, &[rdata], room)
}

/// The request line for reading.
pub fn read_request(
    stanza: &[u8],
    first: u64,
    length: u64,
    origin: &[u8],
    text: &[u8],
    room: u64,
) -> Vec<u8> {
    of_run(asked("R", stanza), first, length, &[origin, text], room)
}

/// The request line for judging, as it stands beside those with a catalogue.
pub fn judge_with_request(stanza: &[u8]) -> Vec<u8> {
    asked("JC", stanza)
}

/// The request line for printing with a catalogue.
pub fn print_with_request(
    lent: Lent,
    stanza: &[u8],
    first: u64,
    length: u64,
    rdata: &[u8],
    room: u64,
) -> Vec<u8> {
    let words = [&catalogue_octets(lent.entries), lent.names, rdata];
    of_run(asked("PC", stanza), first, length, &words, room)
}

/// The request line for reading with a catalogue.
pub fn read_with_request(
    lent: Lent,
    stanza: &[u8],
    first: u64,
    length: u64,
    origin: &[u8],
    text: &[u8],
    room: u64,
) -> Vec<u8> {
    let words = [&catalogue_octets(lent.entries), lent.names, origin, text];
    of_run(asked("RC", stanza), first, length, &words, room)
}

fn catalogue_octets(entries: &[Entry]) -> Vec<u8> {
    let mut octets = Vec::new();
    for Entry { number, start, length } in entries {
        octets.extend(number.to_be_bytes());
        octets.extend(start.to_be_bytes());
        octets.extend(length.to_be_bytes());
    }
    octets
}

/// The request line for judging a stored description.
pub fn judge_stored_request(txt: &[u8], edition: u64) -> Vec<u8> {
    asked_stored("JS", txt, edition)
}

/// The request line for printing under a stored description.
pub fn print_stored_request(
    txt: &[u8],
    edition: u64,
    first: u64,
    length: u64,
    rdata: &[u8],
    room: u64,
) -> Vec<u8> {
    of_run(asked_stored("PS", txt, edition), first, length, &[rdata], room)
}

/// The request line for reading under a stored description.
pub fn read_stored_request(
    txt: &[u8],
    edition: u64,
    first: u64,
    length: u64,
    origin: &[u8],
    text: &[u8],
    room: u64,
) -> Vec<u8> {
    of_run(asked_stored("RS", txt, edition), first, length, &[origin, text], room)
}

/// The first words of a request line: what is asked, and the description.
fn asked(action: &str, description: &[u8]) -> Vec<u8> {
    let mut line = format!("{action} ").into_bytes();
    push_octets(description, &mut line);
    line
}

fn asked_stored(action: &str, txt: &[u8], edition: u64) -> Vec<u8> {
    let mut line = asked(action, txt);
    line.extend_from_slice(format!(" {edition}").as_bytes());
    line
}

/// The first words of a request line, then the run, the words between it and the
/// room, and the room.
fn of_run(mut line: Vec<u8>, first: u64, length: u64, words: &[&[u8]], room: u64) -> Vec<u8> {
    line.extend_from_slice(format!(" {first} {length} ").as_bytes());
    for word in words {
        push_octets(word, &mut line);
        line.push(b' ');
    }
    line.extend_from_slice(room.to_string().as_bytes());
    line
}
