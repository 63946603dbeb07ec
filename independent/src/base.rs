//! Octets in hex, base 32 and base 64 digits.

const HEX: &[u8; 16] = b"0123456789ABCDEF";
/// "RFC 5155's extended hex alphabet"
const BASE32: &[u8; 32] = b"0123456789ABCDEFGHIJKLMNOPQRSTUV";
const BASE64: &[u8; 64] = b"ABCDEFGHIJKLMNOPQRSTUVWXYZabcdefghijklmnopqrstuvwxyz0123456789+/";

/// The value of a hex digit, either case.
pub fn hex_digit(digit: u8) -> Option<u8> {
    match digit {
        b'0'..=b'9' => Some(digit - b'0'),
        b'A'..=b'F' => Some(digit - b'A' + 10),
        b'a'..=b'f' => Some(digit - b'a' + 10),
        _ => None,
    }
}

fn base32_digit(digit: u8) -> Option<u8> {
    match digit {
        b'0'..=b'9' => Some(digit - b'0'),
        b'A'..=b'V' => Some(digit - b'A' + 10),
        b'a'..=b'v' => Some(digit - b'a' + 10),
        _ => None,
    }
}

fn base64_digit(digit: u8) -> Option<u8> {
    match digit {
        b'A'..=b'Z' => Some(digit - b'A'),
        b'a'..=b'z' => Some(digit - b'a' + 26),
        b'0'..=b'9' => Some(digit - b'0' + 52),
        b'+' => Some(62),
        b'/' => Some(63),
        _ => None,
    }
}

/// X: "even number of digits", "either case"
pub fn read_hex(digits: &[u8], out: &mut Vec<u8>) -> Option<()> {
    (gather(digits, 4, hex_digit, out)? == 0).then_some(())
}

/// "print upper"
pub fn print_hex(octets: &[u8], out: &mut Vec<u8>) {
    spread(octets, 4, HEX, out);
}

/// B32: "no padding, under five left-over bits, all zero; either case read"
pub fn read_base32(digits: &[u8], out: &mut Vec<u8>) -> Option<()> {
    (gather(digits, 5, base32_digit, out)? < 5).then_some(())
}

/// "upper printed"
pub fn print_base32(octets: &[u8], out: &mut Vec<u8>) {
    spread(octets, 5, BASE32, out);
}

/// B64: "padding required, left-over bits zero"
pub fn read_base64(digits: &[u8], out: &mut Vec<u8>) -> Option<()> {
    let body = match digits {
        [body @ .., b'=', b'='] | [body @ .., b'='] | body => body,
    };
    // Whole groups of four with at most two paddings leave two bits per padding.
    if digits.is_empty() || !digits.len().is_multiple_of(4) {
        return None;
    }
    gather(body, 6, base64_digit, out).map(drop)
}

pub fn print_base64(octets: &[u8], out: &mut Vec<u8>) {
    spread(octets, 6, BASE64, out);
    let padding = (3 - octets.len() % 3) % 3;
    out.extend_from_slice(&b"=="[..padding]);
}

/// Puts the bits of digits together to octets, and returns how many bits are
/// left over. They must be zero.
fn gather(digits: &[u8], bits: u32, value: impl Fn(u8) -> Option<u8>, out: &mut Vec<u8>) -> Option<u32> {
    out.reserve(digits.len() * bits as usize / 8);
    let mut held = 0u32;
    let mut count = 0;
    for &digit in digits {
        held = held << bits | u32::from(value(digit)?);
        count += bits;
        if count >= 8 {
            count -= 8;
            out.push((held >> count) as u8);
            held &= (1 << count) - 1;
        }
    }
    (held == 0).then_some(count)
}

/// Writes octets as digits of some bits each; the last is filled with zero bits.
fn spread(octets: &[u8], bits: u32, alphabet: &[u8], out: &mut Vec<u8>) {
    let mask = (1u32 << bits) - 1;
    let mut digit = |value: u32| out.push(alphabet[(value & mask) as usize]);
    let mut held = 0u32;
    let mut count = 0;
    for &octet in octets {
        held = held << 8 | u32::from(octet);
        count += 8;
        while count >= bits {
            count -= bits;
            digit(held >> count);
        }
        held &= (1 << count) - 1;
    }
    if count > 0 {
        digit(held << (bits - count));
    }
}
