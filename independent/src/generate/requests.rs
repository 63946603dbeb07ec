//! Requests for judging, printing and reading.

use super::random::Random;
use super::{empty_salts, stanzas, texts, values};
use crate::probe::{judge_request, print_request, read_request};
use crate::stanza::{Kind, Stanza};
use crate::{print, read};

/// The hand-made limit cases, then so many random requests.
pub fn judge_requests(count: u64, seed: u64) -> impl Iterator<Item = Vec<u8>> {
    let random = (0..count).map(move |index| {
        let random = &mut Random::new(seed, index);
        judge_request(&any_stanza(random))
    });
    stanzas::limit_cases().into_iter().map(|stanza| judge_request(&stanza)).chain(random)
}

pub fn print_requests(count: u64, seed: u64) -> impl Iterator<Item = Vec<u8>> {
    (0..count).map(move |index| printing(&mut Random::new(seed, index)))
}

pub fn read_requests(count: u64, seed: u64) -> impl Iterator<Item = Vec<u8>> {
    (0..count).map(move |index| reading(&mut Random::new(seed, index)))
}

/// Good, of a chosen fault, or with one or two octets damaged.
pub fn any_stanza(random: &mut Random) -> Vec<u8> {
    match random.below(300) {
        0 => stanzas::over_long(random),
        1..=125 => stanzas::good(random),
        126..=205 => {
            let mut stanza = stanzas::good(random);
            for _ in 0..random.within(1..=2) {
                random.damage(&mut stanza);
            }
            stanza
        }
        206..=285 => stanzas::faulty(random),
        _ => {
            let mut stanza = stanzas::faulty(random);
            random.damage(&mut stanza);
            stanza
        }
    }
}

/// Mostly good: the stanza of a conversion.
pub fn mostly_good_stanza(random: &mut Random) -> Vec<u8> {
    match random.below(400) {
        0 => stanzas::over_long(random),
        1..=20 => stanzas::faulty(random),
        21..=24 => {
            let mut stanza = stanzas::good(random);
            random.damage(&mut stanza);
            stanza
        }
        _ => stanzas::good(random),
    }
}

/// A run of a stanza with so many fields, mostly within it.
pub fn run(random: &mut Random, count: usize) -> (u64, u64) {
    let n = count as u64;
    match random.below(40) {
        0 => random.pick(&[(0, 0), (0, 1), (0, n), (n + 2, 0), (n + 1, 1), (1, n + 1), (n, 2), (2, n)]),
        1 => random.pick(&[
            (u64::MAX, u64::MAX),
            (u64::MAX, 0),
            (1, u64::MAX),
            (2, u64::MAX),
            (0, u64::MAX),
            (u64::MAX, 1),
            (u64::MAX, 2),
            (1 << 32, 1 << 32),
            (1 << 63, 1 << 63),
            (1, 1 << 32),
            ((1 << 32) + 1, 0),
        ]),
        2 => (random.within(1..=count + 1) as u64, 0),
        3..=9 => {
            let first = random.within(1..=count.max(1));
            (first as u64, random.within(0..=(count + 1).saturating_sub(first)) as u64)
        }
        10..=13 => {
            let first = random.within(1..=count.max(1));
            (first as u64, (count + 1).saturating_sub(first) as u64)
        }
        _ => (1, n),
    }
}

/// The fields of a run, none where there is no such run.
pub fn fields_of<'a, 'b>(stanza: &'b Option<Stanza<'a>>, first: u64, length: u64) -> &'b [Kind<'a>] {
    stanza.as_ref().and_then(|stanza| stanza.run(first, length).ok()).unwrap_or(&[])
}

/// Room for a result of so many octets: much, just enough, too little, none.
pub fn room(random: &mut Random, needed: u64) -> u64 {
    match random.below(16) {
        0 => needed.saturating_sub(1),
        1 => 0,
        2 => random.below(needed as usize + 1) as u64,
        3 => u64::MAX,
        4..=7 => needed,
        8 => needed + 1,
        _ => 70_000,
    }
}

/// The octets of a run, perhaps damaged.
pub fn rdata(random: &mut Random, fields: &[Kind]) -> Vec<u8> {
    let mut rdata = Vec::new();
    for kind in fields {
        values::value(kind, random, &mut rdata);
    }
    match random.below(20) {
        0..=3 => rdata.truncate(random.below(rdata.len() + 1)),
        4 => rdata.push(random.telling()),
        5 => rdata.extend([0, 0]),
        6 | 7 => random.damage(&mut rdata),
        8 => {
            let count = random.below(12);
            rdata = random.octets(count);
        }
        _ => {}
    }
    rdata
}

fn printing(random: &mut Random) -> Vec<u8> {
    let octets = mostly_good_stanza(random);
    let stanza = Stanza::judge(&octets).ok();
    let (first, length) = run(random, stanza.as_ref().map_or(1, |stanza| stanza.fields().len()));
    let fields = fields_of(&stanza, first, length);
    let rdata = rdata(random, fields);
    let answer = print(&octets, first, length, &rdata, u64::MAX);
    let needed = empty_salts::first_on_the_wire(fields, &rdata).unwrap_or(answer.place);
    print_request(&octets, first, length, &rdata, room(random, needed))
}

/// Wire names of every length, and octets that are none.
pub fn origin(random: &mut Random) -> Vec<u8> {
    let labels = |lengths: &[u8]| {
        let mut name: Vec<u8> = Vec::new();
        for &length in lengths {
            name.push(length);
            name.extend(b"o".repeat(usize::from(length)));
        }
        name
    };
    match random.below(40) {
        0 => random
            .pick::<&[u8]>(&[
                b"", b"\x01o", b"\xC0\x0C", b"\0\0", b"\x01o\0\0", b"\x40", b"\x02o\0", b"\x01",
                b"\x01o\x3F", b"\xFF",
            ])
            .to_vec(),
        1 => [labels(&[63, 63, 63, random.pick(&[61, 62])]), vec![0]].concat(),
        2 => [labels(&[63, 63, 63, random.within(50..=60) as u8]), vec![0]].concat(),
        3..=6 => {
            let mut name = Vec::new();
            let fault = random.one_in(10);
            values::name(random, fault, &mut name);
            name
        }
        7..=16 => vec![0],
        17..=22 => b"\x01o\0".to_vec(),
        23..=26 => b"\x05Lobby\x07example\0".to_vec(),
        _ => b"\x07example\0".to_vec(),
    }
}

/// The text of a run: its tokens, spaced, perhaps damaged.
pub fn text(random: &mut Random, fields: &[Kind]) -> Vec<u8> {
    let mut tokens = Vec::new();
    for kind in fields {
        texts::tokens(kind, random, &mut tokens);
    }
    if random.percent(17) {
        texts::damage_tokens(random, &mut tokens);
    }
    let mut text = texts::spaced(random, &tokens);
    if random.percent(12) {
        texts::damage_octets(random, &mut text);
    }
    text
}

fn reading(random: &mut Random) -> Vec<u8> {
    if random.one_in(1_000) {
        return over_rdata(random);
    }
    let octets = mostly_good_stanza(random);
    let stanza = Stanza::judge(&octets).ok();
    let (first, length) = run(random, stanza.as_ref().map_or(1, |stanza| stanza.fields().len()));
    let fields = fields_of(&stanza, first, length);
    let text = text(random, fields);
    let origin = origin(random);
    let answer = read(&octets, first, length, &origin, &text, u64::MAX);
    let needed = empty_salts::first_in_text(fields, &origin, &text).unwrap_or(answer.place);
    read_request(&octets, first, length, &origin, &text, room(random, needed))
}

/// A result of about 65,535 octets.
fn over_rdata(random: &mut Random) -> Vec<u8> {
    let stanza = random.pick::<&[u8]>(&[b"T:1\n S[X]\n", b"T:1\n I1\n S[X]\n"]);
    let fields = stanza.iter().filter(|&&octet| octet == b'\n').count() as u64 - 1;
    let mut text = b"7 ".repeat(fields as usize - 1);
    text.extend(b"s".repeat(random.within(65_534..=65_537)));
    let room = random.pick(&[0, 65_534, 65_535, 65_536, u64::MAX]);
    read_request(stanza, 1, fields, b"\0", &text, room)
}
