//! Texts to read: many short tokens, escapes, blanks, and faults at the end.

use super::draw::Draw;
use super::stanzas::{alike, names, symbols, FIELDS};
use super::{Input, RDATA_LIMIT};

const LIMIT: usize = 1 << 20;
/// The most octets of a name, without the counts of its four labels and the end.
const NAME_OCTETS: usize = 250;

fn one(what: &str, kind: &str, text: impl Into<Vec<u8>>) -> Input {
    Input::new(format!("{kind}: {what}"), format!("T:1\n {kind}\n"), text)
}

/// The same in each of 64 fields.
fn in_all(what: &str, kind: &str, token: &str) -> Input {
    Input::new(format!("64 fields {kind}: {what}"), alike(kind), vec![token; FIELDS].join(" "))
}

/// So many octets, each as `\DDD`.
fn escapes(count: usize) -> String {
    Draw::new().octets(count).iter().map(|octet| format!("\\{octet:03}")).collect()
}

fn quoted(inside: &str) -> String {
    format!("\"{inside}\"")
}

/// Strings of 255 octets, all of them escapes.
fn escaped_strings() -> String {
    vec![quoted(&escapes(255)); RDATA_LIMIT / 256].join(" ")
}

/// A name of 255 octets, all of them escapes.
fn escaped_name() -> String {
    let label = |octets: usize| escapes(octets) + ".";
    [63, 63, 63, NAME_OCTETS - 3 * 63].map(label).concat()
}

/// A blank after each digit.
fn blanks_between(digits: &str) -> String {
    digits.chars().flat_map(|digit| [digit, ' ']).collect()
}

/// So many digits, at random.
fn digits(count: usize, alphabet: &[u8]) -> String {
    let mut draw = Draw::new();
    (0..count).map(|_| char::from(alphabet[draw.below(alphabet.len())])).collect()
}

/// For the longest RDATA.
fn hex() -> String {
    digits(RDATA_LIMIT * 2, b"0123456789abcdefABCDEF")
}

/// For the longest RDATA.
fn base64() -> String {
    digits(RDATA_LIMIT / 3 * 4, b"ABCDEFGHIJKLMNOPQRSTUVWXYZabcdefghijklmnopqrstuvwxyz0123456789+/")
}

fn types(numbers: impl IntoIterator<Item = usize>) -> String {
    numbers.into_iter().map(|number| format!("TYPE{number} ")).collect()
}

/// All in some order, with `TYPE` in letters of either case.
fn mixed_types() -> Vec<u8> {
    let mut draw = Draw::new();
    let numbers = draw.shuffled((0..1 << 16).collect());
    draw.cases(types(numbers).to_ascii_lowercase().as_bytes())
}

/// As long a text as there may be: its front, its end, and the filling between.
fn ending(front: &str, filling: &str, last: &str) -> String {
    let count = (LIMIT - front.len() - last.len()) / filling.len();
    [front, &filling.repeat(count), last].concat()
}

/// The last of many symbols, in letters of other cases.
fn last_symbol(front: usize, octets: usize) -> Input {
    let names = names(front, octets, true);
    let text = names.last().map(|name| Draw::new().cases(&name.to_ascii_lowercase())).unwrap_or_default();
    let what = format!("I1: the last of {} symbols of {octets} octets", names.len());
    Input::new(what, symbols(&names), text)
}

/// 64 names, each of one label with escapes at random.
fn mixed_names() -> Input {
    let mut draw = Draw::new();
    let name = |_| draw.pieces(&["a", "\\a", "\\255", "b"], 63);
    let names: Vec<Vec<u8>> = (0..FIELDS).map(name).collect();
    Input::new("64 fields N: escapes at random", alike("N"), names.join(&b' '))
}

/// Digits, with blanks after them at random.
fn blanks_at_random(digits: &str) -> Vec<u8> {
    let mut draw = Draw::new();
    let after = |digit| [&[digit][..], &b"\t\t\t"[..draw.below(4)]].concat();
    digits.bytes().flat_map(after).collect()
}

/// Far more groups than an address has, of one to four digits.
fn groups() -> Vec<u8> {
    let groups = Draw::new().pieces(&["1:", "22:", "333:", "4444:"], LIMIT - 1);
    [&groups[..], b"1"].concat()
}

/// Short words, with one or more blanks between them.
fn words() -> Vec<u8> {
    Draw::new().pieces(&["a", "a", "a", "a", " ", " ", "\t", "\t", "aa "], RDATA_LIMIT)
}

/// Between plain octets.
fn escapes_at_random() -> Vec<u8> {
    let pieces = ["a", "a", "a", "\\\\", "\\\\", "\\x", "\\255", "\t", "\t", "\t"];
    [b"\"", &Draw::new().pieces(&pieces, RDATA_LIMIT)[..], b"\""].concat()
}

fn strings() -> Vec<Input> {
    let empty = Draw::new().pieces(&["\"\" ", "a ", "a "], RDATA_LIMIT);
    vec![
        one("bare strings, lengths and blanks at random", "S[M]", words()),
        one("strings of no octet or one, at random", "S[M]", empty),
        one("32767 bare strings of one octet", "S[M]", "a ".repeat(32_767)),
        one("524288 bare strings of one octet", "S[M]", "a ".repeat(LIMIT / 2)),
        one("32767 empty strings", "S[M]", "\"\" ".repeat(32_767)),
        one("all octets as \\DDD", "S[M]", escaped_strings()),
        one("all octets as \\DDD", "S[X]", quoted(&escapes(RDATA_LIMIT))),
        one("escapes at random", "S[X]", escapes_at_random()),
        one("65535 plain octets", "S[X]", quoted(&"a".repeat(RDATA_LIMIT))),
    ]
}

fn digits_and_types() -> Vec<Input> {
    vec![
        one("a blank after each digit", "B64", blanks_between(&base64())),
        one("blanks after digits at random", "B64", blanks_at_random(&base64())),
        one("65535 octets", "X", hex()),
        one("a blank after each digit", "X", blanks_between(&hex())),
        one("blanks after digits at random", "X", blanks_at_random(&hex())),
        one("TYPE65535 alone", "R[L]", "TYPE65535"),
        one("all types, falling", "R[L]", types((0..1 << 16).rev())),
        one("all types, in no order, cases mixed", "R[L]", mixed_types()),
        one("TYPE1 to the end of the text", "R[L]", "TYPE1 ".repeat(LIMIT / 6)),
        one("types of six digits", "R[L]", "TYPE000001 ".repeat(LIMIT / 11)),
    ]
}

fn addresses_and_names() -> Vec<Input> {
    vec![
        one("eight groups", "AAAA", "2001:db8:1234:5678:9abc:def0:1234:5678"),
        one("dotted at the end", "AAAA", "2001:db8::5678:9abc:255.255.255.255"),
        in_all("dotted at the end", "AAAA", "2001:db8::5678:9abc:255.255.255.255"),
        in_all("one digit", "I1", "1"),
        in_all("a date", "T", "21060207062815"),
        last_symbol(0, 3),
        last_symbol(61, 63),
        one("255 octets of escapes", "N", escaped_name()),
        in_all("255 octets of escapes", "N", &escaped_name()),
        mixed_names(),
    ]
}

fn refused_at_the_end() -> Vec<Input> {
    vec![
        one("1048576 blanks", "S[M]", " ".repeat(LIMIT)),
        one("a control octet last", "S[X]", ending("\"", "a", "\x01")),
        one("no octet after the last backslash", "S[X]", ending("\"", "\\000", "\\")),
        one("an escape over 255 last", "S[X]", ending("\"", "\\000", "\\256\"")),
        one("a string without end", "S", ending("\"", "\\000", "\"")),
        one("no digit last", "B64", ending("", "A ", "-")),
        one("no digit last", "X", ending("", "f ", "-")),
        one("no type last", "R[L]", ending("", "TYPE1 ", "TYPE65536")),
        one("too many groups", "AAAA", groups()),
        one("a quote last", "S[M]", ending("", "a ", "\"")),
        one("a label without end", "N", ending("", "\\000", "")),
    ]
}

pub fn inputs() -> Vec<Input> {
    [strings(), digits_and_types(), addresses_and_names(), refused_at_the_end()]
        .into_iter()
        .flatten()
        .collect()
}
