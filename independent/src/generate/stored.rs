//! Requests with descriptions as the DNS stores them (document 02, request 4):
//! the lines of generated stanzas as counted strings, good and damaged.

use super::random::Random;
use super::requests::{any_stanza, fields_of, mostly_good_stanza, origin, rdata, room, run, text};
use crate::lines::Lines;
use crate::probe::{judge_stored_request, print_stored_request, read_stored_request};
use crate::stanza::only_counts;
use crate::text::is_blank;
use crate::{print_stored, read_stored, stored, STANZA_LIMIT};

const TAG: &str = "RRTYPE=1";
/// Strings that are near to the tag.
const NO_TAGS: &[&str] = &[
    "", "rrtype=1", "RRTYPE=1 ", " RRTYPE=1", "RRTYPE=2", "RRTYPE=", "RRTYPE", "RRTYPE=01", "RRTYPE=1\0",
    "\"RRTYPE=1\"", "# c", "EN", "T:1", "RRTYPE:1", "\nRRTYPE=1",
];
/// Numbers other than the edition's, some of them 13 in fewer bits.
const NO_EDITIONS: &[u64] =
    &[0, 1, 3, 10, 11, 12, 14, 31, 113, 130, 269, 65_549, 4_294_967_309, (1 << 63) + 13, u64::MAX];
/// Strings that only count, and one that hides a line in a comment.
const IGNORED: &[&str] = &["", " ", "\t ", "#", "# c", " # c", "\t#", "# c\n I2", "#\n", "  #\n\nI1"];

/// A third each to judge, to print and to read.
pub fn stored_requests(count: u64, seed: u64) -> impl Iterator<Item = Vec<u8>> {
    (0..count).map(move |index| {
        let random = &mut Random::new(seed, index);
        match index % 3 {
            0 => judging(random),
            1 => printing(random),
            _ => reading(random),
        }
    })
}

fn judging(random: &mut Random) -> Vec<u8> {
    let stanza = if random.one_in(3) { any_stanza(random) } else { mostly_good_stanza(random) };
    let txt = txt(random, &stanza, 30);
    judge_stored_request(&txt, edition(random))
}

fn printing(random: &mut Random) -> Vec<u8> {
    let stanza = mostly_good_stanza(random);
    let txt = txt(random, &stanza, 6);
    let edition = edition(random);
    let stanza = stored::judge(&txt, 13).ok();
    let (first, length) = run(random, stanza.as_ref().map_or(1, |stanza| stanza.fields().len()));
    let rdata = rdata(random, fields_of(&stanza, first, length));
    let needed = print_stored(&txt, edition, first, length, &rdata, u64::MAX).place;
    print_stored_request(&txt, edition, first, length, &rdata, room(random, needed))
}

fn reading(random: &mut Random) -> Vec<u8> {
    let stanza = mostly_good_stanza(random);
    let txt = txt(random, &stanza, 6);
    let edition = edition(random);
    let stanza = stored::judge(&txt, 13).ok();
    let (first, length) = run(random, stanza.as_ref().map_or(1, |stanza| stanza.fields().len()));
    let text = text(random, fields_of(&stanza, first, length));
    let origin = origin(random);
    let needed = read_stored(&txt, edition, first, length, &origin, &text, u64::MAX).place;
    read_stored_request(&txt, edition, first, length, &origin, &text, room(random, needed))
}

fn edition(random: &mut Random) -> u64 {
    match random.one_in(60) {
        true => random.pick(NO_EDITIONS),
        false => 13,
    }
}

/// The stored form of a stanza, damaged with so many of a hundred chances.
fn txt(random: &mut Random, stanza: &[u8], chances: usize) -> Vec<u8> {
    let mut strings = strings_of(stanza);
    strings.insert(0, TAG.into());
    if random.percent(15) {
        let ignored: &str = random.pick(IGNORED);
        strings.insert(random.within(1..=strings.len()), ignored.into());
    }
    let damaged = random.percent(chances);
    let before_counting = random.one_in(2);
    if damaged && before_counting {
        damage_strings(random, &mut strings);
    }
    let mut txt: Vec<u8> = strings.iter().flat_map(|string| counted(string)).collect();
    if damaged && !before_counting {
        damage_octets(random, &mut txt);
    }
    txt
}

/// The lines, a field line without its leading blanks. A comment that is too long
/// for one string goes on in others.
fn strings_of(stanza: &[u8]) -> Vec<Vec<u8>> {
    let mut strings = Vec::new();
    let mut header_seen = false;
    for line in Lines::new(stanza) {
        let blanks = line.iter().take_while(|&&octet| is_blank(octet)).count();
        let ignored = only_counts(line);
        let string = if ignored || !header_seen { line } else { &line[blanks..] };
        header_seen |= !ignored;
        strings.push(string[..string.len().min(255)].to_vec());
        strings.extend(string.chunks(255).skip(1).map(<[u8]>::to_vec));
    }
    strings
}

/// A string of at most 255 octets.
fn counted(string: &[u8]) -> Vec<u8> {
    [&[string.len() as u8], string].concat()
}

/// A wrong tag or none, a blank at the start of a string or an LF in it, strings
/// changed about, left out, twice, parted or put together.
fn damage_strings(random: &mut Random, strings: &mut Vec<Vec<u8>>) {
    let place = random.below(strings.len());
    match random.below(12) {
        0 | 1 => strings[0] = random.pick(NO_TAGS).into(),
        2 => random.damage(&mut strings[0]),
        3 => strings.insert(0, random.pick(NO_TAGS).into()),
        4 => {
            strings.remove(place);
        }
        5 | 6 => strings[place].insert(0, random.pick(b" \t")),
        7 | 8 => {
            let inside = random.below(strings[place].len() + 1);
            strings[place].insert(inside, b'\n');
        }
        9 => strings.insert(place, strings[place].clone()),
        10 => {
            let inside = random.below(strings[place].len() + 1);
            let rest = strings[place].split_off(inside);
            strings.insert(place + 1, rest);
        }
        _ => {
            let other = random.below(strings.len());
            strings.swap(place, other);
        }
    }
    strings.iter_mut().for_each(|string| string.truncate(255));
}

/// Cut short, with another octet, counts too, or about as long as it may be.
fn damage_octets(random: &mut Random, txt: &mut Vec<u8>) {
    match random.below(16) {
        0..=4 => txt.truncate(random.below(txt.len() + 1)),
        5 | 6 => txt.push(random.pick(&[1, 2, 7, 63, 128, 255])),
        7 => txt.push(0),
        8 => fill(txt, STANZA_LIMIT - 2 + random.below(5)),
        _ => random.damage(txt),
    }
}

/// Comments up to so many octets in all.
fn fill(txt: &mut Vec<u8>, length: usize) {
    while txt.len() < length {
        let octets = (length - txt.len() - 1).min(255);
        txt.extend(counted(&b"#".repeat(octets)));
    }
}
