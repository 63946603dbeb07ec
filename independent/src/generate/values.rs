//! RDATA made to fit fields, with telling values; now and then with a fault.

use super::random::Random;
use crate::stanza::Kind;

/// Octets that names and strings print in different ways.
const SPECIAL: &[u8] = b"..\\\"';()@$ #*_-~!\0\t\n\x1F\x7F\x80\xFF";

/// Appends the octets of one field.
pub fn value(kind: &Kind, random: &mut Random, out: &mut Vec<u8>) {
    let fault = random.one_in(14);
    match kind {
        Kind::Integer(width, symbols) => {
            let max = width.max();
            let number = match random.below(4) {
                0 if !symbols.listed().is_empty() => random.pick(symbols.listed()).number,
                1 => random.next() & max,
                _ => random.pick(&[0, 1, 2, 3, 9, 10, max / 2, max - 1, max]),
            };
            width.write(number, out);
        }
        Kind::Type => out.extend(number16(random).to_be_bytes()),
        Kind::TypeList => blocks(random, fault, out),
        Kind::Address4 => octets(random, 4, out),
        Kind::Address8 => groups(random, 4, out),
        Kind::Address16 => groups(random, 8, out),
        Kind::Name => name(random, fault, out),
        Kind::OptionalName => {
            if !random.one_in(3) {
                name(random, fault, out);
            }
        }
        Kind::String => string(random, fault, out),
        Kind::Strings => {
            for _ in 0..random.within(1..=3) {
                string(random, fault, out);
            }
        }
        Kind::LongString => {
            let count = random.within(1..=10);
            characters(random, count, out);
        }
        Kind::Base32 | Kind::CountedHex => {
            let count = match random.below(40) {
                0 => 255,
                1 => 128,
                _ if fault => 0,
                _ => random.within(1..=12),
            };
            out.push(count as u8);
            octets(random, count, out);
        }
        Kind::Base64 | Kind::Hex => {
            let count = random.within(1..=12);
            octets(random, count, out);
        }
        Kind::Eui(count) => octets(random, *count, out),
        Kind::Time => out.extend(seconds(random).to_be_bytes()),
    }
}

pub fn number16(random: &mut Random) -> u16 {
    match random.below(3) {
        0 => random.next() as u16,
        1 => random.pick(&[1, 2, 5, 6, 15, 16, 28, 46, 47, 48, 257]),
        _ => random.pick(&[0, 1, 7, 8, 255, 256, 511, 512, 32_768, 65_280, 65_534, 65_535]),
    }
}

pub fn seconds(random: &mut Random) -> u32 {
    let around = |base: u32, random: &mut Random| base.wrapping_add(random.below(5) as u32).wrapping_sub(2);
    match random.below(4) {
        0 => random.next() as u32,
        // Starts of days, of a leap day and of years, and both ends.
        1 => around(random.below(49_710) as u32 * 86_400, random),
        2 => {
            let base = random
                .pick(&[951_782_400, 951_868_800, 946_684_800, 4_107_542_400, 4_102_444_800, 68_169_600]);
            around(base, random)
        }
        _ => around(random.pick(&[0, 2, u32::MAX, u32::MAX - 2, 1 << 31]), random),
    }
}

fn octets(random: &mut Random, count: usize, out: &mut Vec<u8>) {
    for _ in 0..count {
        let octet = random.octet();
        out.push(random.pick(&[octet, octet, 0, 0xFF, 0x0F, 0xF0, 1, 10, 99, 100]));
    }
}

/// Groups with runs of zeros.
fn groups(random: &mut Random, count: usize, out: &mut Vec<u8>) {
    let zeros = random.pick(&[0, 30, 60, 60, 85, 100]);
    for _ in 0..count {
        let group = if random.percent(zeros) {
            0
        } else {
            let any = random.next() as u16;
            random.pick(&[any, any & 0xFF, any & 0xF, 1, 0xFFFF, 0x1000, 0x0DB8])
        };
        out.extend(group.to_be_bytes());
    }
}

/// Windows that rise, or with a fault nearly so.
fn blocks(random: &mut Random, fault: bool, out: &mut Vec<u8>) {
    let mut window: usize = random.pick(&[0, 0, 0, 1, 254]);
    let faulty_block = if fault { random.below(3) } else { usize::MAX };
    for block in 0..random.below(4) {
        let count = match random.below(12) {
            0 => 32,
            1 => 31,
            _ => random.within(1..=4),
        };
        let start = out.len();
        out.extend([window as u8, count as u8]);
        for _ in 0..count {
            let octet = random.octet();
            out.push(random.pick(&[0, 0, 0x80, 0x01, 0x40, octet]));
        }
        if out.last() == Some(&0) {
            out.pop();
            out.push(random.pick(&[0x80, 0x01, 0xFF]));
        }
        if block == faulty_block {
            let last = out.len() - 1;
            match random.below(5) {
                0 => out[last] = 0,
                1 => out[start + 1] = 0,
                2 => out[start + 1] = 33,
                3 => out[start + 1] = random.pick(&[34, 64, 128, 255]),
                _ => window = window.saturating_sub(1 + random.below(2)),
            }
        }
        window += random.pick(&[1, 1, 2, 100]);
        if block == faulty_block && random.one_in(3) {
            window = out[start] as usize;
        }
        if window > 255 {
            break;
        }
    }
}

/// A wire name; with a fault a length octet of 64 or more, or over 255 octets.
pub fn name(random: &mut Random, fault: bool, out: &mut Vec<u8>) {
    let long = random.one_in(60);
    let mut left = if long { 254 } else { 60 };
    let labels = if long { 8 } else { random.below(5) };
    for _ in 0..labels {
        let length = match random.below(40) {
            0 => 63,
            _ if long => random.within(30..=63),
            _ => random.within(1..=7),
        };
        let length = length.min(left - 1);
        if length == 0 {
            break;
        }
        out.push(length as u8);
        characters(random, length, out);
        left -= length + 1;
        if left < 2 {
            break;
        }
    }
    match fault {
        true if random.one_in(6) => {
            for _ in 0..4 {
                out.push(63);
                out.extend([b'o'; 63]);
            }
            out.push(0);
        }
        true => out.push(random.pick(&[64, 65, 127, 128, 191, 192, 255])),
        false => out.push(0),
    }
}

fn string(random: &mut Random, fault: bool, out: &mut Vec<u8>) {
    let count = match random.below(60) {
        0 => 255,
        1..=9 => 0,
        _ => random.within(1..=9),
    };
    // With a fault the count promises more than there is, unless more follows.
    out.push(if fault { (count + random.within(1..=3)).min(255) as u8 } else { count as u8 });
    characters(random, count, out);
}

/// Letters and special octets.
pub fn characters(random: &mut Random, count: usize, out: &mut Vec<u8>) {
    let style = random.below(3);
    for _ in 0..count {
        let octet = random.octet();
        out.push(match style {
            0 => random.pick(b"abcdeXYZ019-"),
            1 => {
                let special = random.pick(SPECIAL);
                random.pick(&[special, b'a', b'Z', b'7'])
            }
            _ => {
                let special = random.pick(SPECIAL);
                random.pick(&[octet, special])
            }
        });
    }
}
