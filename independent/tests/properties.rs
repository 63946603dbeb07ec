//! Properties of the conversions, over generated requests.

use independent::{generate, judge, print, read, Answer};

const MUCH: u64 = u64::MAX;
const ORIGINS: [&[u8]; 3] = [b"\0", b"\x07example\0", b"\x01o\x02\0.\0"];

fn octets(word: &str) -> Vec<u8> {
    if word == "-" {
        return Vec::new();
    }
    (0..word.len()).step_by(2).map(|i| u8::from_str_radix(&word[i..i + 2], 16).unwrap()).collect()
}

fn words(line: Vec<u8>) -> Vec<String> {
    String::from_utf8(line).unwrap().split(' ').map(str::to_string).collect()
}

/// Accepted RDATA prints as a text that returns the same octets under any valid
/// origin; room one octet short is 12 and just enough is 0.
fn returns(stanza: &[u8], first: u64, length: u64, rdata: &[u8]) {
    let text = print(stanza, first, length, rdata, MUCH);
    assert_eq!(text.number, 0);
    let needed = text.octets.len() as u64;
    assert_eq!(print(stanza, first, length, rdata, needed), text);
    if needed > 0 {
        let short = print(stanza, first, length, rdata, needed - 1);
        assert_eq!((short.number, short.place, short.octets.len()), (12, needed, 0));
    }
    for origin in ORIGINS {
        let back = read(stanza, first, length, origin, &text.octets, rdata.len() as u64);
        assert_eq!((back.number, back.octets.as_slice()), (0, rdata), "{:?}", text.octets);
    }
}

/// Returns how many of the requests to print are accepted, each of which must
/// return.
fn printings_return(lines: impl Iterator<Item = Vec<u8>>) -> u32 {
    let mut accepted = 0;
    for line in lines {
        let words = words(line);
        let (stanza, rdata) = (octets(&words[1]), octets(&words[4]));
        let (first, length) = (words[2].parse().unwrap(), words[3].parse().unwrap());
        if print(&stanza, first, length, &rdata, MUCH).number == 0 {
            accepted += 1;
            returns(&stanza, first, length, &rdata);
        }
    }
    accepted
}

/// The same for requests to read.
fn readings_return(lines: impl Iterator<Item = Vec<u8>>) -> u32 {
    let mut accepted = 0;
    for line in lines {
        let words = words(line);
        let (stanza, origin, text) = (octets(&words[1]), octets(&words[4]), octets(&words[5]));
        let (first, length) = (words[2].parse().unwrap(), words[3].parse().unwrap());
        let answer = read(&stanza, first, length, &origin, &text, MUCH);
        if answer.number == 0 {
            accepted += 1;
            returns(&stanza, first, length, &answer.octets);
        }
    }
    accepted
}

/// The requests about X[C] to print (`P`) or to read (`R`).
fn salt_requests(count: u64, seed: u64, action: u8) -> impl Iterator<Item = Vec<u8>> {
    generate::salt_requests(count, seed).filter(move |line| line[0] == action)
}

#[test]
fn what_prints_reads_back() {
    assert!(printings_return(generate::print_requests(8_000, 11)) > 3_000);
    assert!(printings_return(salt_requests(16_000, 14, b'P')) > 3_000);
}

#[test]
fn what_is_read_prints_and_reads_back() {
    assert!(readings_return(generate::read_requests(8_000, 12)) > 3_000);
    assert!(readings_return(salt_requests(16_000, 15, b'R')) > 3_000);
}

/// "The whole list accepts it exactly when it divides into a front the first
/// list accepts and a back the second accepts"; there is only one such
/// division, and the texts are joined by one space if neither is empty.
fn cuts_at(cut: u64, count: u64, stanza: &[u8], rdata: &[u8], whole: &Answer) {
    let mut divisions = 0;
    for place in 0..=rdata.len() {
        let (front, back) = rdata.split_at(place);
        let front = print(stanza, 1, cut, front, MUCH);
        let back = print(stanza, cut + 1, count - cut, back, MUCH);
        if front.number != 0 || back.number != 0 {
            continue;
        }
        divisions += 1;
        let mut text = front.octets;
        if !text.is_empty() && !back.octets.is_empty() {
            text.push(b' ');
        }
        text.extend(back.octets);
        assert_eq!(text, whole.octets);
    }
    assert_eq!(divisions, u32::from(whole.number == 0));
}

/// Returns how many of the requests to print have RDATA that the whole list
/// accepts. All have it cut everywhere.
fn cuts(lines: impl Iterator<Item = Vec<u8>>) -> u32 {
    let mut accepted = 0;
    for line in lines {
        let words = words(line);
        let (stanza, rdata) = (octets(&words[1]), octets(&words[4]));
        let (number, count) = judge(&stanza);
        if number != 0 || rdata.len() > 80 {
            continue;
        }
        let whole = print(&stanza, 1, count, &rdata, MUCH);
        accepted += u32::from(whole.number == 0);
        for cut in 0..=count {
            cuts_at(cut, count, &stanza, &rdata, &whole);
        }
    }
    accepted
}

/// Document 02, request 1: "Demand 3 reads unchanged, since `-` is not an empty
/// text."
#[test]
fn every_cut() {
    assert!(cuts(generate::print_requests(3_000, 13)) > 800);
    assert!(cuts(salt_requests(6_000, 16, b'P')) > 800);
}
