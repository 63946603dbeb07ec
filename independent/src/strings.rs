//! S, S[M] and S[X]: character strings.

use crate::text::{escape, print_escape, Token};

/// Reads the octets of a token and returns how many they are. "Bare only if not
/// empty and without backslash; quoted with N's escapes."
pub fn read(token: Token, out: &mut Vec<u8>) -> Option<usize> {
    let start = out.len();
    match token {
        Token::Bare(octets) => {
            if octets.contains(&b'\\') {
                return None;
            }
            out.extend_from_slice(octets);
        }
        Token::Quoted(mut rest) => {
            while let Some((&octet, after)) = rest.split_first() {
                rest = after;
                if octet == b'\\' {
                    let (value, after) = escape(rest)?;
                    out.push(value);
                    rest = after;
                } else {
                    out.push(octet);
                }
            }
        }
        Token::Faulty => return None,
    }
    Some(out.len() - start)
}

/// S: "count octet, then octets"
pub fn read_counted(token: Token, out: &mut Vec<u8>) -> Option<()> {
    let start = out.len();
    out.push(0);
    out[start] = u8::try_from(read(token, out)?).ok()?;
    Some(())
}

/// "Prints in `"`, backslash before `"` and `\`, `\DDD` outside 20 to 7E hex."
pub fn print(octets: &[u8], out: &mut Vec<u8>) {
    out.push(b'"');
    for &octet in octets {
        match octet {
            b'"' | b'\\' => out.extend_from_slice(&[b'\\', octet]),
            0x20..=0x7E => out.push(octet),
            _ => print_escape(octet, out),
        }
    }
    out.push(b'"');
}
