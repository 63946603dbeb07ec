//! A, AA, AAAA, EUI48 and EUI64.

use std::io::Write;

use crate::base::hex_digit;

/// A: "four numbers 0 to 255 without leading zeros", with dots between.
pub fn read_a(token: &[u8]) -> Option<[u8; 4]> {
    let mut octets = [0; 4];
    read_parts(token, b'.', &mut octets, |part| {
        if !(1..=3).contains(&part.len()) || (part.len() > 1 && part[0] == b'0') {
            return None;
        }
        let value = part.iter().try_fold(0u16, |value, digit| {
            digit.is_ascii_digit().then(|| value * 10 + u16::from(digit - b'0'))
        })?;
        u8::try_from(value).ok()
    })?;
    Some(octets)
}

pub fn print_a(octets: [u8; 4], out: &mut Vec<u8>) {
    let [a, b, c, d] = octets;
    // Writing to a vector cannot fail.
    let _ = write!(out, "{a}.{b}.{c}.{d}");
}

/// AA: "exactly four colon-parted groups of 1 to 4 hex digits"
pub fn read_aa(token: &[u8]) -> Option<[u8; 8]> {
    let mut groups = [0; 4];
    read_parts(token, b':', &mut groups, read_group)?;
    let mut octets = [0; 8];
    write_groups(&groups, &mut octets);
    Some(octets)
}

/// "prints lower case, no leading zeros"
pub fn print_aa(octets: [u8; 8], out: &mut Vec<u8>) {
    print_groups(&groups_of::<4>(&octets), out);
}

/// AAAA: "RFC 4291 forms, a dotted tail by A's rule included, `::` for one or
/// more groups".
pub fn read_aaaa(token: &[u8]) -> Option<[u8; 16]> {
    let mut groups = [0; 8];
    match token.windows(2).position(|pair| pair == b"::") {
        None => {
            if read_groups(token, &mut groups, true)? != 8 {
                return None;
            }
        }
        Some(place) => {
            // Before `::` no dotted tail; `::` itself stands for at least one
            // of the eight groups.
            let front = read_groups(&token[..place], &mut groups[..7], false)?;
            let mut tail = [0; 7];
            let back = read_groups(&token[place + 2..], &mut tail[..7 - front], true)?;
            groups[8 - back..].copy_from_slice(&tail[..back]);
        }
    }
    let mut octets = [0; 16];
    write_groups(&groups, &mut octets);
    Some(octets)
}

/// "prints RFC 5952 style, always in hex": lower case, no leading zeros, `::`
/// for the longest run of two or more zero groups, the first of equals.
pub fn print_aaaa(octets: [u8; 16], out: &mut Vec<u8>) {
    let groups = groups_of::<8>(&octets);
    let (start, length) = longest_zero_run(&groups);
    if length < 2 {
        print_groups(&groups, out);
        return;
    }
    print_groups(&groups[..start], out);
    out.extend_from_slice(b"::");
    print_groups(&groups[start + length..], out);
}

/// EUI48, EUI64: "six or eight pairs of hex digits, either case, with hyphens
/// between".
pub fn read_eui(token: &[u8], octets: &mut [u8]) -> Option<()> {
    read_parts(token, b'-', octets, |pair| match *pair {
        [high, low] => Some(hex_digit(high)? << 4 | hex_digit(low)?),
        _ => None,
    })
}

/// "printed lower case"
pub fn print_eui(octets: &[u8], out: &mut Vec<u8>) {
    for (index, octet) in octets.iter().enumerate() {
        if index > 0 {
            out.push(b'-');
        }
        let _ = write!(out, "{octet:02x}");
    }
}

/// Reads exactly as many parts, with the separator between them, as there are
/// places to fill.
fn read_parts<T>(
    token: &[u8],
    separator: u8,
    places: &mut [T],
    read: impl Fn(&[u8]) -> Option<T>,
) -> Option<()> {
    let mut parts = token.split(|&octet| octet == separator);
    for place in places {
        *place = read(parts.next()?)?;
    }
    parts.next().is_none().then_some(())
}

/// 1 to 4 hex digits, either case.
fn read_group(digits: &[u8]) -> Option<u16> {
    if !(1..=4).contains(&digits.len()) {
        return None;
    }
    digits.iter().try_fold(0, |value, &digit| Some(value << 4 | u16::from(hex_digit(digit)?)))
}

/// Reads colon-parted groups from nothing or from a part of an address, not
/// more than there are places, and returns their number. A dotted tail counts
/// for two and stands only at the end.
fn read_groups(part: &[u8], places: &mut [u16], dotted_tail: bool) -> Option<usize> {
    if part.is_empty() {
        return Some(0);
    }
    let mut count = 0;
    let mut groups = part.split(|&octet| octet == b':').peekable();
    while let Some(group) = groups.next() {
        let at_end = groups.peek().is_none();
        if dotted_tail && at_end && group.contains(&b'.') {
            let [a, b, c, d] = read_a(group)?;
            *places.get_mut(count)? = u16::from_be_bytes([a, b]);
            *places.get_mut(count + 1)? = u16::from_be_bytes([c, d]);
            count += 2;
        } else {
            *places.get_mut(count)? = read_group(group)?;
            count += 1;
        }
    }
    Some(count)
}

fn write_groups(groups: &[u16], octets: &mut [u8]) {
    for (pair, group) in octets.chunks_exact_mut(2).zip(groups) {
        pair.copy_from_slice(&group.to_be_bytes());
    }
}

fn groups_of<const COUNT: usize>(octets: &[u8]) -> [u16; COUNT] {
    let mut groups = [0; COUNT];
    for (group, pair) in groups.iter_mut().zip(octets.chunks_exact(2)) {
        *group = u16::from_be_bytes([pair[0], pair[1]]);
    }
    groups
}

fn print_groups(groups: &[u16], out: &mut Vec<u8>) {
    for (index, group) in groups.iter().enumerate() {
        if index > 0 {
            out.push(b':');
        }
        let _ = write!(out, "{group:x}");
    }
}

/// Start and length of the first of the longest runs of zero groups.
fn longest_zero_run(groups: &[u16; 8]) -> (usize, usize) {
    let mut best = (0, 0);
    let mut run = 0;
    for (index, &group) in groups.iter().enumerate() {
        run = if group == 0 { run + 1 } else { 0 };
        if run > best.1 {
            best = (index + 1 - run, run);
        }
    }
    best
}
