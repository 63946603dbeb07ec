//! N and N[O]: domain names.

use crate::text::{escape, print_escape};
use crate::wire::Wire;
use crate::Fault;

/// "labels of 1 to 63 octets, then zero"
const LABEL_LIMIT: usize = 63;
/// "at most 255 octets"
const NAME_LIMIT: usize = 255;

/// Takes one name with its closing zero. "At a length octet: absent 8; 64 or
/// more 9; a total over 255 with the closing zero 9; label octets absent 8."
pub fn take<'a>(wire: &mut Wire<'a>) -> Result<&'a [u8], Fault> {
    let octets = wire.rest();
    let mut end = 0;
    loop {
        // Where label octets are absent, so is the length octet after them.
        let length = usize::from(*octets.get(end).ok_or(Fault::Ends)?);
        if length == 0 {
            return wire.take(end + 1);
        }
        if length > LABEL_LIMIT || end + 1 + length + 1 > NAME_LIMIT {
            return Err(Fault::Breaks);
        }
        end += 1 + length;
    }
}

/// "one whole wire name", with nothing after it
pub fn whole(octets: &[u8]) -> Option<&[u8]> {
    let mut wire = Wire::new(octets);
    let name = take(&mut wire).ok()?;
    wire.is_empty().then_some(name)
}

/// Reads a name from a bare token. "`@` alone is the origin, a final unescaped
/// dot makes it absolute, else the origin is appended."
pub fn read(token: &[u8], origin: &[u8], out: &mut Vec<u8>) -> Option<()> {
    if token == b"@" {
        out.extend_from_slice(origin);
        return Some(());
    }
    let (labels, absolute) = read_labels(token)?;
    let end = if absolute { &[0] } else { origin };
    if labels.len() + end.len() > NAME_LIMIT {
        return None;
    }
    out.extend_from_slice(&labels);
    out.extend_from_slice(end);
    Some(())
}

/// Reads "one absolute name" from a bare token.
pub fn read_absolute(token: &[u8]) -> Option<Vec<u8>> {
    let (mut name, absolute) = read_labels(token)?;
    name.push(0);
    (absolute && name.len() <= NAME_LIMIT).then_some(name)
}

/// The labels of a token, without a closing zero, and whether a final unescaped
/// dot stands after them. "`.` is the root": no label.
fn read_labels(token: &[u8]) -> Option<(Vec<u8>, bool)> {
    if token == b"." {
        return Some((Vec::new(), true));
    }
    let mut labels = Vec::new();
    let mut rest = token;
    loop {
        let start = labels.len();
        labels.push(0);
        let mut dot = false;
        while let Some((&octet, after)) = rest.split_first() {
            rest = after;
            match octet {
                b'.' => {
                    dot = true;
                    break;
                }
                b'\\' => {
                    let (value, after) = escape(rest)?;
                    labels.push(value);
                    rest = after;
                }
                _ => labels.push(octet),
            }
        }
        let length = labels.len() - start - 1;
        if !(1..=LABEL_LIMIT).contains(&length) {
            return None;
        }
        // At most 63, so the length fits its octet.
        labels[start] = length as u8;
        if rest.is_empty() {
            return Some((labels, dot));
        }
    }
}

/// Prints one whole wire name. "Prints absolute, case kept, backslash before
/// `. \ " ' ; ( ) @ $`, `\DDD` outside 21 to 7E hex."
pub fn print(name: &[u8], out: &mut Vec<u8>) {
    if name == [0] {
        out.push(b'.');
        return;
    }
    let mut rest = name;
    while let Some((&length, after)) = rest.split_first() {
        if length == 0 {
            break;
        }
        let Some((label, after)) = after.split_at_checked(usize::from(length)) else { break };
        for &octet in label {
            match octet {
                b'.' | b'\\' | b'"' | b'\'' | b';' | b'(' | b')' | b'@' | b'$' => {
                    out.extend_from_slice(&[b'\\', octet]);
                }
                0x21..=0x7E => out.push(octet),
                _ => print_escape(octet, out),
            }
        }
        out.push(b'.');
        rest = after;
    }
}
