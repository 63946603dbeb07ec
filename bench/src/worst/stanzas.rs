//! Stanzas to judge: names that are hard to tell apart, and many short lines.

use super::draw::Draw;
use super::Input;

const LIMIT: usize = 8_192;
/// The most fields that a stanza may have.
pub const FIELDS: usize = 64;
const NAME_OCTETS: &[u8] = b"abcdefghijklmnopqrstuvwxyz0123456789-";

/// A header, and a field for each line.
pub fn fields(lines: impl IntoIterator<Item = Vec<u8>>) -> Vec<u8> {
    let line = |line: Vec<u8>| [b" ", &line[..], b"\n"].concat();
    [b"T:1\n".to_vec(), lines.into_iter().flat_map(line).collect()].concat()
}

/// 64 fields of one type.
pub fn alike(kind: &str) -> Vec<u8> {
    fields(vec![kind.as_bytes().to_vec(); FIELDS])
}

/// Name k of so many octets, the first of which are the same in all.
fn name(k: usize, front: usize, octets: usize) -> Vec<u8> {
    let digit = |place: usize| NAME_OCTETS[k / 37usize.pow(place as u32) % 37];
    [vec![b'f'; front], (0..octets - front).rev().map(digit).collect()].concat()
}

/// An I1 field with these symbols.
pub fn symbols(names: &[Vec<u8>]) -> Vec<u8> {
    let symbols: Vec<Vec<u8>> = names.iter().map(|name| [&name[..], b"=1"].concat()).collect();
    fields([[b"I1[", &symbols.join(&b',')[..], b"]"].concat()])
}

/// As many names as fit as symbols, in no order, with letters of either case if
/// they are mixed. All start with a letter.
pub fn names(front: usize, octets: usize, mixed: bool) -> Vec<Vec<u8>> {
    let fit = (LIMIT - "T:1\n I1[]\n".len()) / (octets + "=1,".len());
    let starts = if front == 0 { 26 } else { 37 };
    let different = starts * 37usize.pow((octets - front - 1) as u32);
    let mut draw = Draw::new();
    let list = draw.shuffled((0..fit.min(different)).collect());
    let names = list.into_iter().map(|k| name(k, front, octets));
    names.map(|name| if mixed { draw.cases(&name) } else { name }).collect()
}

fn cases(mixed: bool) -> &'static str {
    if mixed {
        ", cases mixed"
    } else {
        ""
    }
}

fn symbol_row(front: usize, octets: usize, mixed: bool) -> Input {
    let names = names(front, octets, mixed);
    let what = format!("{} symbols of {octets} octets, {front} the same{}", names.len(), cases(mixed));
    Input::new(what, symbols(&names), "")
}

/// 64 fields, whose names are the same but for the last two octets.
fn name_row(octets: usize, mixed: bool) -> Input {
    let mut draw = Draw::new();
    let line = |k| {
        let name = name(k, octets - 2, octets);
        [b"A:", &if mixed { draw.cases(&name) } else { name }[..]].concat()
    };
    let stanza = fields((0..FIELDS).map(line));
    Input::new(
        format!("64 field names of {octets} octets, {} the same{}", octets - 2, cases(mixed)),
        stanza,
        "",
    )
}

fn repeated(what: &str, line: &str) -> Input {
    Input::new(what, line.repeat(LIMIT / line.len()), "")
}

/// Two symbols that are told apart only by sorting: the judge first looks at their
/// lengths and their first and last octets, as one number.
fn sorted_pairs() -> Input {
    Input::new("64 fields of two symbols, ai and ba", alike("I1[ai=1,ba=1]"), "")
}

/// Symbols that are the same, and last a qualifier that is none.
fn no_symbol_last() -> Input {
    let stanza = format!("T:1\n I1[{}C]\n", "a=1,".repeat(2_044));
    Input::new("2044 symbols, and last a qualifier that is none", stanza, "")
}

pub fn inputs() -> Vec<Input> {
    vec![
        name_row(63, true),
        name_row(63, false),
        name_row(15, true),
        name_row(3, true),
        sorted_pairs(),
        symbol_row(0, 2, false),
        symbol_row(0, 3, false),
        symbol_row(8, 10, true),
        symbol_row(61, 63, true),
        symbol_row(61, 63, false),
        no_symbol_last(),
        Input::new("64 fields with three qualifiers", alike("N[C,A,L]"), ""),
        Input::new("64 short fields", alike("A"), ""),
        repeated("empty lines", "\n"),
        repeated("lines of one blank", " \n"),
        repeated("one long comment", "#"),
    ]
}
