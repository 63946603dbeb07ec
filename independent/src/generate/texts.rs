//! Text made to fit fields, in every spelling; now and then with a fault.

use super::random::Random;
use super::stanzas::digits;
use super::values::{number16, seconds};
use crate::number::{Symbol, Width};
use crate::stanza::Kind;
use crate::{base, time};

type Token = Vec<u8>;

/// Appends the tokens of one field.
pub fn tokens(kind: &Kind, random: &mut Random, out: &mut Vec<Token>) {
    let fault = random.one_in(14);
    match kind {
        Kind::Integer(width, symbols) => out.push(integer(*width, symbols.listed(), random, fault)),
        Kind::Type => out.push(record_type(random, fault)),
        Kind::TypeList => {
            let count = random.below(6);
            for index in 0..count {
                let token = record_type(random, fault && index + 1 == count);
                out.push(token);
                if random.one_in(8) {
                    let again = out[out.len() - 1].clone();
                    out.push(again);
                }
            }
        }
        Kind::Address4 => out.push(address4(random, fault)),
        Kind::Address8 => out.push(address8(random, fault)),
        Kind::Address16 => out.push(address16(random, fault)),
        Kind::Name => out.push(name(random, fault)),
        Kind::OptionalName => {
            if !random.one_in(3) {
                out.push(name(random, fault));
            }
        }
        Kind::String => out.push(string(random, fault)),
        Kind::Strings => {
            let count = random.within(1..=4);
            for index in 0..count {
                out.push(string(random, fault && index + 1 == count));
            }
        }
        Kind::LongString => {
            let token = match random.below(10) {
                0 => random.pick(&[b"''", b"\"\""]).to_vec(),
                _ => string(random, fault),
            };
            out.push(token);
        }
        Kind::Base32 => out.push(base32(random, fault)),
        Kind::Base64 => base64(random, fault, out),
        Kind::Hex => {
            let digits = hex(random, fault);
            split(random, &digits, out);
        }
        Kind::CountedHex => {
            let token = match random.below(30) {
                0 => b"-".to_vec(),
                1 if random.one_in(3) => b"Ab".repeat(random.pick(&[255, 256])),
                _ => hex(random, fault),
            };
            out.push(token);
        }
        Kind::Eui(count) => out.push(hardware(*count, random, fault)),
        Kind::Time => out.push(moment(random, fault)),
    }
}

fn listed(random: &mut Random, faults: &[&str]) -> Token {
    random.pick(faults).into()
}

fn integer(width: Width, symbols: &[Symbol], random: &mut Random, fault: bool) -> Token {
    let max = width.max();
    if fault {
        let over = (max + 1).to_string();
        let long = format!("{:011}", max);
        return listed(
            random,
            &[
                &over, &over, &long, "-1", "+1", "0x10", "1.0", "STEPS", "hol", "\"1\"", "99999999999", "1,",
                "\\049",
            ],
        );
    }
    if !symbols.is_empty() && random.percent(60) {
        let symbol = random.pick(symbols).name;
        return random.any_case(symbol);
    }
    let any = random.next() & max;
    let number = random.pick(&[0, 1, 2, 3, 255, max - 1, max, any, any]) & max;
    digits(random, number, 10)
}

fn record_type(random: &mut Random, fault: bool) -> Token {
    if fault {
        return listed(
            random,
            &[
                "TYPE65536", "TYPE", "TYP1", "15", "MX", "TYPE-1", "TYPE00000000001", "TYPE1x",
                "TYPE4294967297", "'TYPE1'", "TYPEx", "TYPE99999999999", "type\\049",
            ],
        );
    }
    let mut token = random.any_case(b"TYPE");
    let number = number16(random);
    token.extend(digits(random, number.into(), 10));
    token
}

fn address4(random: &mut Random, fault: bool) -> Token {
    if fault {
        return listed(
            random,
            &[
                "0.0.0.256", "1.2.3", "1.2.3.4.5", "01.2.3.4", "1.2.3.00", "1..3.4", "1.2.3.4.", ".1.2.3.4",
                "1.2.3.x", "1.2.3.-4", "1,2,3,4", "1.2.3.1000", "0x1.2.3.4", "\"1.2.3.4\"", "1.2.3.999",
            ],
        );
    }
    let parts: Vec<String> = (0..4)
        .map(|_| {
            let any = random.octet();
            random.pick(&[0, 1, 9, 10, 99, 100, 199, 200, 249, 250, 255, any, any]).to_string()
        })
        .collect();
    parts.join(".").into_bytes()
}

/// 1 to 4 hex digits in either case.
fn group(random: &mut Random) -> Token {
    let any = random.next() as u16;
    let value = random.pick(&[0, 0, 1, 0xF, 0xDB8, 0xFFFF, any, any]);
    let width = random.within(1..=4);
    random.any_case(format!("{value:0width$x}").as_bytes())
}

fn groups(random: &mut Random, count: usize) -> Vec<Token> {
    (0..count).map(|_| group(random)).collect()
}

fn address8(random: &mut Random, fault: bool) -> Token {
    if fault {
        return listed(
            random,
            &[
                "1:2:3", "1:2:3:4:5", "1::2", "::", "1:2:3:00004", "1:2:3:g", "1:2:3:", ":1:2:3", "1:2::4",
                "1-2-3-4", "1:2:1.2.3.4", "0x1:2:3:4", "'1:2:3:4'",
            ],
        );
    }
    groups(random, 4).join(&b':')
}

fn address16(random: &mut Random, fault: bool) -> Token {
    if fault {
        return listed(
            random,
            &[
                "1:2:3:4:5:6:7", "1:2:3:4:5:6:7:8:9", "1:2:3:4::5:6:7:8", ":::", "1:::2", "1::2::3",
                ":1:2:3:4:5:6:7:8", "1:2:3:4:5:6:7:8:", ":1::2", "1::2:", "1.2.3.4", "1.2.3.4::",
                "::1.2.3.4:5", "::1.2.3.04", "::1.2.3", "::1.2.3.256", "1:2:3:4:5:6::1.2.3.4",
                "1:2:3:4:5:6:7:1.2.3.4", "::00001", "::g", "::1%1", ":", "::1/64", "1:2:3:4:5:6:7::8",
                "1:2:3:4:5:6:7:8::", "::1:2:3:4:5:6:7:8", "::.1.2.3", "1:2:3:4:5:1.2.3.4", "'::'",
            ],
        );
    }
    let dotted = random.one_in(3);
    let whole = random.one_in(3);
    let taken = if dotted { 2 } else { 0 };
    // At most seven groups beside `::`, a dotted tail being two of them.
    let front = if whole { 8 - taken } else { random.below(8 - taken) };
    let mut token = groups(random, front).join(&b':');
    let mut back = Vec::new();
    if whole {
        if dotted {
            token.push(b':');
        }
    } else {
        token.extend_from_slice(b"::");
        let count = random.below(8 - taken - front);
        back = groups(random, count);
    }
    if dotted {
        back.push(address4(random, false));
    }
    token.extend(back.join(&b':'));
    token
}

fn hardware(count: usize, random: &mut Random, fault: bool) -> Token {
    let mut pairs: Vec<Token> = (0..count)
        .map(|_| {
            let octet = random.octet();
            random.any_case(format!("{octet:02x}").as_bytes())
        })
        .collect();
    if !fault {
        return pairs.join(&b'-');
    }
    match random.below(6) {
        0 => pairs.join(&b':'),
        1 => pairs[1..].join(&b'-'),
        2 => {
            pairs.push(b"00".to_vec());
            pairs.join(&b'-')
        }
        3 => {
            pairs[count - 1].pop();
            pairs.join(&b'-')
        }
        4 => {
            pairs[0] = b"g0".to_vec();
            pairs.join(&b'-')
        }
        _ => pairs.concat(),
    }
}

/// A name, relative or absolute, with escapes.
pub fn name(random: &mut Random, fault: bool) -> Token {
    if fault {
        if random.one_in(8) {
            let label = "n".repeat(63);
            let last = "n".repeat(random.pick(&[61, 61, 62, 63]));
            return format!("{label}.{label}.{label}.{last}.").into_bytes();
        }
        let long = "n".repeat(64);
        return listed(
            random,
            &[
                "a..b", ".a", "..", "a..", "a\\256", "a\\1.", "a\\25", "\\2x5", "a\"b", "a'b", "a;b", "a(b",
                "a)b", "\"a\"", "'a.'", &long, "a\\999.", "\\", "@@.", "a\\",
            ],
        );
    }
    match random.below(14) {
        0 => return b"@".to_vec(),
        1 => return b".".to_vec(),
        2 => {
            return listed(
                random,
                &["@.", "\\@", "a@b.@", "*", "*.a", "\\064", "\\.", "a\\.", "a\\\\.", "\\..", "_x._tcp", "#"],
            )
        }
        _ => {}
    }
    let mut token = Vec::new();
    let labels = random.within(1..=4);
    let plain = random.one_in(2);
    for index in 0..labels {
        if index > 0 {
            token.push(b'.');
        }
        let length = if random.one_in(60) { 63 } else { random.within(1..=6) };
        for _ in 0..length {
            if plain {
                token.push(random.pick(b"abcXYZ019-_"));
            } else {
                character(random, b"", &mut token);
            }
        }
    }
    if random.one_in(2) {
        token.push(b'.');
    }
    token
}

/// One octet of a name or, within a quote, of a string, perhaps escaped.
fn character(random: &mut Random, quote: &[u8], out: &mut Token) {
    match random.below(6) {
        0 => out.extend(format!("\\{:03}", random.octet()).bytes()),
        1 => {
            let special = random.pick(b".\\\"';()@$ \tax~#*");
            out.extend([b'\\', special]);
        }
        2 if !quote.is_empty() => {
            let special = random.pick(b" \t;()@$.\"'");
            if quote.contains(&special) {
                out.push(b'\\');
            }
            out.push(special);
        }
        2 => out.push(random.pick(b"@$#*!~/=")),
        _ => out.push(random.pick(b"abcXYZ019-_")),
    }
}

/// A string, bare or in either quote.
fn string(random: &mut Random, fault: bool) -> Token {
    if fault {
        if random.one_in(6) {
            let count = random.pick(&[254, 255, 256]);
            return [b"\"".as_slice(), &b"s".repeat(count), b"\""].concat();
        }
        return listed(
            random,
            &[
                "a\\b", "a\\ b", "\\065", "\"a", "'a", "'a\"", "\"a\"b", "\"a\"\"b\"", "'a'\"b\"", "O'Neil",
                "a\"", "a;b", "(a", "a)", ";", "\"\\256\"", "\"\\25\"", "'\\1'", "\"\\\"", "\"", "'",
                "\"\x7F\"", "\"a\nb\"", "\"\\\r\"",
            ],
        );
    }
    if random.one_in(3) {
        let count = random.within(1..=8);
        return (0..count).map(|_| random.pick(b"abcXYZ019-_@$.,#/=:!*+<>[]{}|~^`?&%")).collect();
    }
    let quote = random.pick(b"\"\"'");
    let mut token = vec![quote];
    for _ in 0..random.below(8) {
        character(random, &[quote], &mut token);
    }
    token.push(quote);
    token
}

fn hex(random: &mut Random, fault: bool) -> Token {
    let count = random.within(1..=12);
    let octets = random.octets(count);
    let mut digits = Vec::new();
    base::print_hex(&octets, &mut digits);
    let mut digits = random.any_case(&digits);
    if fault {
        match random.below(4) {
            0 => digits.push(b'0'),
            1 => digits[0] = random.pick(b"gGxX-.:\\"),
            2 => digits.splice(0..0, *b"0x").for_each(drop),
            _ => {
                digits.pop();
            }
        }
    }
    digits
}

fn base32(random: &mut Random, fault: bool) -> Token {
    let count = match random.below(80) {
        0 => 255,
        1 => 256,
        _ => random.within(1..=12),
    };
    let octets = random.octets(count);
    let mut digits = Vec::new();
    base::print_base32(&octets, &mut digits);
    let mut digits = random.any_case(&digits);
    if fault {
        let last = digits.len() - 1;
        match random.below(5) {
            0 => digits[last] = random.pick(b"13579FJTV"),
            1 => digits.push(random.pick(b"00V")),
            2 => digits[last] = random.pick(b"WXYZw=+-"),
            3 => digits.extend_from_slice(b"======"),
            _ => {
                digits.pop();
                if digits.is_empty() {
                    digits.push(b'0');
                }
            }
        }
    }
    digits
}

fn base64(random: &mut Random, fault: bool, out: &mut Vec<Token>) {
    let count = random.within(1..=12);
    let octets = random.octets(count);
    let mut digits = Vec::new();
    base::print_base64(&octets, &mut digits);
    if fault {
        let place = random.below(digits.len());
        match random.below(6) {
            0 => digits[place] = random.pick(b"=-_.*\\"),
            1 => digits.retain(|&digit| digit != b'='),
            2 => digits.push(b'='),
            3 => {
                digits.pop();
            }
            4 => {
                digits = listed(
                    random,
                    &["/x==", "AAB=", "AB==", "A===", "====", "=", "AA=A", "/w==/w==", "A", "AA=", "AAA"],
                )
            }
            _ => digits.extend_from_within(..),
        }
        if digits.is_empty() {
            digits.push(b'=');
        }
    }
    split(random, &digits, out);
}

/// Digits as one token, or parted at any places.
fn split(random: &mut Random, digits: &[u8], out: &mut Vec<Token>) {
    let mut rest = digits;
    if random.one_in(2) {
        while rest.len() > 1 && random.percent(75) {
            let (token, after) = rest.split_at(random.within(1..=rest.len() - 1));
            out.push(token.to_vec());
            rest = after;
        }
    }
    if !rest.is_empty() {
        out.push(rest.to_vec());
    }
}

fn moment(random: &mut Random, fault: bool) -> Token {
    if fault {
        return listed(
            random,
            &[
                "19691231235959", "21060207062816", "20230229000000", "21000229000000", "20000230000000",
                "20240431000000", "20241301000000", "20240001000000", "20240100000000", "20240132000000",
                "20240101240000", "20240101006000", "20161231235960", "00000000000001", "99991231235959",
                "12345678901", "123456789012", "1234567890123", "123456789012345", "4294967296",
                "9999999999", "-1", "2024010100000x", "2024-01-01", "00000000000", "\"0\"", "21070101000000",
                "00000101000000",
            ],
        );
    }
    let seconds = seconds(random);
    if random.one_in(3) {
        return digits(random, seconds.into(), 10);
    }
    let mut token = Vec::new();
    time::print(seconds, &mut token);
    token
}

/// Tokens with blanks between and around them.
pub fn spaced(random: &mut Random, tokens: &[Token]) -> Vec<u8> {
    let mut text = Vec::new();
    let wide = random.one_in(4);
    let blanks = |random: &mut Random, text: &mut Vec<u8>, least: usize| {
        if !wide {
            text.extend(b" ".repeat(least));
            return;
        }
        for _ in 0..random.within(least..=3) {
            text.push(random.pick(b"  \t"));
        }
    };
    blanks(random, &mut text, 0);
    for (index, token) in tokens.iter().enumerate() {
        if index > 0 {
            blanks(random, &mut text, 1);
        }
        text.extend_from_slice(token);
    }
    blanks(random, &mut text, 0);
    text
}

/// One token dropped, added or doubled.
pub fn damage_tokens(random: &mut Random, tokens: &mut Vec<Token>) {
    let place = random.below(tokens.len() + 1);
    match random.below(4) {
        0 | 1 if !tokens.is_empty() => {
            tokens.remove(place.min(tokens.len() - 1));
        }
        2 => tokens
            .push(listed(random, &["x", "7", "\"q\"", "'q", ";", "\\", ".", "TYPE1", "\0", "(", "AA=="])),
        _ => {
            let token = listed(
                random,
                &["x", "0", "1", "\"q\"", "'q", ";", ".", "TYPE1", "\x7F", "00", "a.b.", "::"],
            );
            tokens.insert(place, token);
        }
    }
}

/// Damage to the octets of a text.
pub fn damage_octets(random: &mut Random, text: &mut Vec<u8>) {
    let place = random.below(text.len() + 1);
    match random.below(6) {
        0 => text.push(b'\\'),
        1 => text.insert(place, random.pick(b"\"'")),
        2 => text.insert(place, random.pick(b"\0\r\n\x0B\x1F\x7F\x80\xFF")),
        3 => match text.iter().rposition(|octet| b"\"'".contains(octet)) {
            Some(place) => {
                text.remove(place);
            }
            None => text.extend_from_slice(b" \"open"),
        },
        _ => random.damage(text),
    }
}
