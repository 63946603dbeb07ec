//! Requests about X[C] as of document 02, request 1: salts with and without
//! octets among fields of every kind, and dashes in every place.

use super::random::Random;
use super::requests::{fields_of, origin, room};
use super::{stanzas, texts, values};
use crate::probe::{print_request, read_request};
use crate::stanza::{Kind, Stanza};
use crate::{print, read};

/// "a `-` next to digits stays 9", as does any other token with a dash.
const NEAR_DASHES: &[&str] =
    &["--", "-A", "A-", "-AB", "AB-", "A-B", "\\-", "\"-\"", "'-'", "\\045", "'-", "-;"];

/// Requests to print at the even indexes, to read at the odd ones.
pub fn salt_requests(count: u64, seed: u64) -> impl Iterator<Item = Vec<u8>> {
    (0..count).map(move |index| {
        let random = &mut Random::new(seed, index);
        if index % 2 == 0 {
            printing(random)
        } else {
            reading(random)
        }
    })
}

/// An accepted stanza of 1 to 6 fields, at least one of them X[C], a tail last or
/// none.
fn stanza(random: &mut Random) -> Vec<u8> {
    let count = random.within(1..=6);
    let salt = random.below(count);
    stanzas::assemble(random, |random| {
        (0..count)
            .map(|index| {
                let body = match index {
                    _ if index == salt => b"X[C]".to_vec(),
                    _ if index + 1 == count && random.percent(55) => tail(random),
                    _ => no_tail(random),
                };
                stanzas::dress(random, &body, index)
            })
            .collect()
    })
}

/// X, whose digits are the same, more often than the other tails.
fn tail(random: &mut Random) -> Vec<u8> {
    match random.one_in(4) {
        true => b"X".to_vec(),
        false => stanzas::tail_body(random),
    }
}

/// A further salt, and B32, which keeps its minimum, more often than the others.
fn no_tail(random: &mut Random) -> Vec<u8> {
    match random.below(8) {
        0 => b"X[C]".to_vec(),
        1 => b"B32".to_vec(),
        _ => stanzas::plain_body(random),
    }
}

/// The whole, the front or the back of a cut, any other run, or now and then one
/// that is not there.
fn run(random: &mut Random, count: usize) -> (u64, u64) {
    let n = count as u64;
    let cut = random.below(count + 1) as u64;
    match random.below(32) {
        0 => random.pick(&[
            (0, 0),
            (0, n),
            (1, n + 1),
            (2, n),
            (n + 1, 1),
            (n + 2, 0),
            (1, u64::MAX),
            (u64::MAX, u64::MAX),
        ]),
        1..=4 => (1, cut),
        5..=8 => (cut + 1, n - cut),
        9..=12 => {
            let first = random.within(1..=count + 1);
            (first as u64, random.within(0..=count + 1 - first) as u64)
        }
        _ => (1, n),
    }
}

fn printing(random: &mut Random) -> Vec<u8> {
    let octets = stanza(random);
    let stanza = Stanza::judge(&octets).ok();
    let (first, length) = run(random, stanza.as_ref().map_or(1, |stanza| stanza.fields().len()));
    let mut rdata = Vec::new();
    for kind in fields_of(&stanza, first, length) {
        match kind {
            Kind::CountedHex => salt_value(random, &mut rdata),
            // "B32 keeps its minimum of 1."
            Kind::Base32 if random.one_in(5) => rdata.push(0),
            _ => values::value(kind, random, &mut rdata),
        }
    }
    if random.percent(50) {
        damage(random, &mut rdata);
    }
    let needed = print(&octets, first, length, &rdata, u64::MAX).place;
    print_request(&octets, first, length, &rdata, room(random, needed))
}

/// No octets in half of the cases.
fn salt_value(random: &mut Random, out: &mut Vec<u8>) {
    let count = match random.below(80) {
        0..=39 => 0,
        40 => 255,
        41 => 128,
        _ => random.within(1..=12),
    };
    out.push(count as u8);
    out.extend(random.octets(count));
}

/// RDATA cut anywhere, with one octet changed or with one more at the end.
fn damage(random: &mut Random, rdata: &mut Vec<u8>) {
    let any = random.octet();
    let new = random.pick(&[0, 0, 1, b'-', any]);
    match random.below(5) {
        0 | 1 => rdata.truncate(random.below(rdata.len() + 1)),
        2 | 3 if !rdata.is_empty() => {
            let place = random.below(rdata.len());
            rdata[place] = new;
        }
        _ => rdata.push(new),
    }
}

fn reading(random: &mut Random) -> Vec<u8> {
    let octets = stanza(random);
    let stanza = Stanza::judge(&octets).ok();
    let (first, length) = run(random, stanza.as_ref().map_or(1, |stanza| stanza.fields().len()));
    let text = text(random, fields_of(&stanza, first, length));
    let origin = origin(random);
    let needed = read(&octets, first, length, &origin, &text, u64::MAX).place;
    read_request(&octets, first, length, &origin, &text, room(random, needed))
}

fn text(random: &mut Random, fields: &[Kind]) -> Vec<u8> {
    let mut tokens = Vec::new();
    for kind in fields {
        field_tokens(kind, random, &mut tokens);
    }
    if random.percent(14) {
        damage_tokens(random, &mut tokens);
    }
    let mut text = texts::spaced(random, &tokens);
    if random.percent(4) {
        texts::damage_octets(random, &mut text);
    }
    text
}

/// The tokens of one field: `-` in half of the X[C] fields and in a few others,
/// now and then something near to it.
fn field_tokens(kind: &Kind, random: &mut Random, out: &mut Vec<Vec<u8>>) {
    let dashes = match kind {
        Kind::CountedHex => 50,
        _ => 3,
    };
    match random.below(100) {
        choice if choice < dashes => out.push(b"-".to_vec()),
        97..=99 => out.push(random.pick(NEAR_DASHES).into()),
        _ => texts::tokens(kind, random, out),
    }
}

/// One token left out, one more, or two put together: so a dash comes next to
/// digits.
fn damage_tokens(random: &mut Random, tokens: &mut Vec<Vec<u8>>) {
    let place = random.below(tokens.len() + 1);
    match random.below(4) {
        0 if place < tokens.len() => {
            tokens.remove(place);
        }
        1 if place + 1 < tokens.len() => {
            let next = tokens.remove(place + 1);
            tokens[place].extend(next);
        }
        2 => tokens.insert(place, b"-".to_vec()),
        _ => texts::damage_tokens(random, tokens),
    }
}
