//! Requests with a lent catalogue as of document 02, request 3: types by name
//! and by number among fields of every kind.

use super::catalogues::{self, Catalogue};
use super::random::Random;
use super::requests::{any_stanza, fields_of, origin, room, run};
use super::{stanzas, texts, values};
use crate::bitmap::Picture;
use crate::probe::{judge_with_request, print_with_request, read_with_request};
use crate::stanza::{Kind, Stanza};
use crate::{print_with, read_with};

/// Tokens that are near to a name.
const NO_NAMES: &[&str] =
    &["MX", "mx", "ANY", "TYPE", "TYPEMX", "TYPE-1", "*", "A,", "A,NS", "-", "15", "RESERVED0"];

/// One in twenty to judge; of the others as many to print as to read.
pub fn catalogue_requests(count: u64, seed: u64) -> impl Iterator<Item = Vec<u8>> {
    (0..count).map(move |index| {
        let random = &mut Random::new(seed, index);
        match index % 20 {
            0 => judge_with_request(&any_stanza(random)),
            choice if choice % 2 == 0 => printing(random),
            _ => reading(random),
        }
    })
}

/// An accepted stanza of 1 to 5 fields, in most R or R[L].
fn stanza(random: &mut Random) -> Vec<u8> {
    let count = random.within(1..=5);
    stanzas::assemble(random, |random| {
        (0..count)
            .map(|index| {
                let body = body(random, index + 1 == count);
                stanzas::dress(random, &body, index)
            })
            .collect()
    })
}

fn body(random: &mut Random, last: bool) -> Vec<u8> {
    match random.below(10) {
        0..=5 if last => b"R[L]".to_vec(),
        6 if last => stanzas::tail_body(random),
        0..=5 => b"R".to_vec(),
        _ => stanzas::plain_body(random),
    }
}

fn printing(random: &mut Random) -> Vec<u8> {
    let octets = stanza(random);
    let stanza = Stanza::judge(&octets).ok();
    let (first, length) = run(random, stanza.as_ref().map_or(1, |stanza| stanza.fields().len()));
    let catalogue = catalogues::any(random);
    let mut rdata = Vec::new();
    for kind in fields_of(&stanza, first, length) {
        value(kind, &catalogue, random, &mut rdata);
    }
    match random.below(20) {
        0 | 1 => rdata.truncate(random.below(rdata.len() + 1)),
        2 => rdata.push(random.telling()),
        3 | 4 => random.damage(&mut rdata),
        _ => {}
    }
    let needed = print_with(catalogue.lent(), &octets, first, length, &rdata, u64::MAX).place;
    print_with_request(catalogue.lent(), &octets, first, length, &rdata, room(random, needed))
}

fn value(kind: &Kind, catalogue: &Catalogue, random: &mut Random, out: &mut Vec<u8>) {
    match kind {
        Kind::Type if random.percent(70) => out.extend(number(catalogue, random).to_be_bytes()),
        Kind::TypeList if random.percent(70) => {
            let mut picture = Picture::empty();
            for _ in 0..random.below(8) {
                picture.set(number(catalogue, random));
            }
            picture.write(out);
        }
        _ => values::value(kind, random, out),
    }
}

/// The type of an entry, one beside it, or any.
fn number(catalogue: &Catalogue, random: &mut Random) -> u16 {
    if catalogue.entries.is_empty() || random.one_in(4) {
        return values::number16(random);
    }
    let number = random.pick(&catalogue.entries).number as u16;
    match random.below(10) {
        0 => number.wrapping_add(1),
        1 => number.wrapping_sub(1),
        _ => number,
    }
}

fn reading(random: &mut Random) -> Vec<u8> {
    let octets = stanza(random);
    let stanza = Stanza::judge(&octets).ok();
    let (first, length) = run(random, stanza.as_ref().map_or(1, |stanza| stanza.fields().len()));
    let catalogue = catalogues::any(random);
    let text = text(random, fields_of(&stanza, first, length), &catalogue);
    let origin = origin(random);
    let needed = read_with(catalogue.lent(), &octets, first, length, &origin, &text, u64::MAX).place;
    read_with_request(catalogue.lent(), &octets, first, length, &origin, &text, room(random, needed))
}

fn text(random: &mut Random, fields: &[Kind], catalogue: &Catalogue) -> Vec<u8> {
    let mut tokens = Vec::new();
    for kind in fields {
        field_tokens(kind, catalogue, random, &mut tokens);
    }
    if random.percent(8) {
        texts::damage_tokens(random, &mut tokens);
    }
    let mut text = texts::spaced(random, &tokens);
    if random.percent(5) {
        texts::damage_octets(random, &mut text);
    }
    text
}

fn field_tokens(kind: &Kind, catalogue: &Catalogue, random: &mut Random, out: &mut Vec<Vec<u8>>) {
    match kind {
        Kind::Type if random.percent(80) => out.push(token(catalogue, random)),
        Kind::TypeList if random.percent(80) => {
            for _ in 0..random.below(6) {
                out.push(token(catalogue, random));
            }
        }
        // A name where no type is wanted.
        _ if random.one_in(60) => out.push(token(catalogue, random)),
        _ => texts::tokens(kind, random, out),
    }
}

/// A type in either form, now and then something near to its name.
fn token(catalogue: &Catalogue, random: &mut Random) -> Vec<u8> {
    if catalogue.entries.is_empty() || random.one_in(4) {
        let number = number(catalogue, random);
        let mut token = random.any_case(b"TYPE");
        token.extend(stanzas::digits(random, number.into(), 10));
        return token;
    }
    let entry = random.pick(&catalogue.entries);
    let mut token = random.any_case(catalogue.name(entry).unwrap_or(b"A"));
    if random.one_in(20) {
        near_name(random, &mut token);
    }
    token
}

fn near_name(random: &mut Random, token: &mut Vec<u8>) {
    match random.below(5) {
        0 => *token = [b"\"", &token[..], b"\""].concat(),
        1 => token.insert(random.below(token.len() + 1), b'\\'),
        2 => random.damage(token),
        3 => token.push(random.pick(b"-0x.")),
        _ => *token = random.pick(NO_NAMES).into(),
    }
}
