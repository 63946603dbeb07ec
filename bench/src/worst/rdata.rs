//! RDATA to print: octets that must be escaped, short strings, bitmaps.

use super::draw::Draw;
use super::stanzas::{alike, names, symbols, FIELDS};
use super::{Input, RDATA_LIMIT};

fn one(what: &str, kind: &str, rdata: Vec<u8>) -> Input {
    Input::new(format!("{kind}: {what}"), format!("T:1\n {kind}\n"), rdata)
}

/// The same in each of 64 fields.
fn in_all(what: &str, kind: &str, rdata: &[u8]) -> Input {
    Input::new(format!("64 fields {kind}: {what}"), alike(kind), rdata.repeat(FIELDS))
}

/// Some stand for themselves; some are printed with a backslash, some as `\DDD`.
fn mixed(draw: &mut Draw, count: usize) -> Vec<u8> {
    (0..count).map(|_| b"a\xFF\xFF\"\"\\\\\t\t"[draw.below(9)]).collect()
}

/// Strings of 255 octets.
fn strings(octets: &[u8]) -> Vec<u8> {
    octets.chunks_exact(255).take(RDATA_LIMIT / 256).flat_map(|string| [&[255], string].concat()).collect()
}

/// Strings of at most two octets.
fn short_strings() -> Vec<u8> {
    let mut draw = Draw::new();
    let strings: [&[u8]; 4] = [&[0], &[1, 0xFF], &[2, b'a', 0xFF], &[1, b'\\']];
    (0..RDATA_LIMIT / 3).flat_map(|_| strings[draw.below(4)].to_vec()).collect()
}

/// A block for each window.
fn windows(octets: &mut dyn FnMut() -> Vec<u8>) -> Vec<u8> {
    let mut block = |window: u8| {
        let octets = octets();
        [&[window, octets.len() as u8], &octets[..]].concat()
    };
    (0..=255).flat_map(&mut block).collect()
}

/// Its octets at random; the last is not zero.
fn random_windows() -> Vec<u8> {
    let mut draw = Draw::new();
    windows(&mut || [draw.octets(31), vec![1]].concat())
}

/// 255 octets, all of which but the counts must be escaped.
fn escaped_name(octet: u8) -> Vec<u8> {
    let label = |octets: usize| [vec![octets as u8], vec![octet; octets]].concat();
    [63, 63, 63, 61, 0].map(label).concat()
}

/// 64 names of one label, with octets of all kinds.
fn mixed_names() -> Input {
    let mut draw = Draw::new();
    let name = |_| [vec![63], mixed(&mut draw, 63), vec![0]].concat();
    Input::new("64 fields N: escapes at random", alike("N"), (0..FIELDS).flat_map(name).collect::<Vec<u8>>())
}

/// A number that none of many symbols has, so that all are tried.
fn no_symbol() -> Input {
    let names = names(0, 3, false);
    Input::new(format!("I1: none of {} symbols", names.len()), symbols(&names), [2])
}

fn tails() -> Vec<Input> {
    let random = Draw::new().octets(RDATA_LIMIT);
    vec![
        one("random octets", "S[X]", random.clone()),
        one("escapes at random", "S[X]", mixed(&mut Draw::new(), RDATA_LIMIT)),
        one("all octets FF", "S[X]", vec![0xFF; RDATA_LIMIT]),
        one("random octets", "S[M]", strings(&random)),
        one("32767 empty strings", "S[M]", vec![0; 32_767]),
        one("strings of at most two octets, at random", "S[M]", short_strings()),
        one("one type in each window", "R[L]", windows(&mut || vec![1])),
        one("the last type of each window", "R[L]", windows(&mut || [vec![0; 31], vec![1]].concat())),
        one("half of all types", "R[L]", random_windows()),
        one("all types", "R[L]", windows(&mut || vec![0xFF; 32])),
        one("65535 octets", "B64", random.clone()),
        one("65535 octets", "X", random),
    ]
}

fn fields() -> Vec<Input> {
    vec![
        one("255 octets of \\DDD", "N", escaped_name(0xFF)),
        in_all("255 octets of \\DDD", "N", &escaped_name(0xFF)),
        mixed_names(),
        in_all("two groups of zeros", "AAAA", &[32, 1, 0, 0, 0, 0, 18, 52, 0, 0, 0, 0, 0, 0, 18, 52]),
        in_all("octets", "A", &[255, 254, 253, 252]),
        in_all("one octet", "I1", &[255]),
        in_all("the greatest", "I4", &[255; 4]),
        in_all("a date", "T", &[255; 4]),
        no_symbol(),
    ]
}

/// Strings of no octet, and last one that is cut.
fn refused_at_the_end() -> Vec<Input> {
    let cut = [vec![0; RDATA_LIMIT - 1], vec![1]].concat();
    vec![one("the last string cut", "S[M]", cut)]
}

pub fn inputs() -> Vec<Input> {
    [tails(), fields(), refused_at_the_end()].into_iter().flatten().collect()
}
