//! Tokens of text, and escapes.

use crate::Fault;

/// "Blank means space or tab."
pub fn is_blank(octet: u8) -> bool {
    octet == b' ' || octet == b'\t'
}

/// "Octets are tab and 20 to 7E hex."
fn is_allowed(octet: u8) -> bool {
    octet == b'\t' || (0x20..=0x7E).contains(&octet)
}

/// "A token is quoted, by `"` or `'`, or bare."
#[derive(Clone, Copy, Debug, PartialEq, Eq)]
pub enum Token<'a> {
    /// Never empty.
    Bare(&'a [u8]),
    /// What stands between the quotes.
    Quoted(&'a [u8]),
    /// Something that starts a token and breaks the rules of tokens: "an
    /// unclosed quote, like any fault inside a token, is 9 at its field".
    Faulty,
}

/// "Text is tokens parted by blanks; leading and trailing blanks are allowed."
/// Each octet of the text is looked at once to find the tokens.
#[derive(Clone)]
pub struct Tokens<'a> {
    rest: &'a [u8],
}

impl<'a> Tokens<'a> {
    pub fn new(text: &'a [u8]) -> Self {
        Tokens { rest: text }
    }

    /// The next token of a field that needs one. "In text 8 means that no token
    /// is left for a field that needs one".
    pub fn one(&mut self) -> Result<Token<'a>, Fault> {
        self.next().ok_or(Fault::Ends)
    }

    /// The same for a field that is not an S field: "Only S fields take quoted
    /// tokens."
    pub fn bare(&mut self) -> Result<&'a [u8], Fault> {
        self.one()?.bare().ok_or(Fault::Breaks)
    }

    /// For the tails X and B64, which take all tokens that are left, at least
    /// one: the tokens put together, "blanks ignored".
    pub fn joined(&mut self) -> Result<Vec<u8>, Fault> {
        let mut joined = self.bare()?.to_vec();
        for token in self {
            joined.extend_from_slice(token.bare().ok_or(Fault::Breaks)?);
        }
        Ok(joined)
    }
}

impl<'a> Token<'a> {
    pub fn bare(self) -> Option<&'a [u8]> {
        match self {
            Token::Bare(octets) => Some(octets),
            _ => None,
        }
    }
}

impl<'a> Iterator for Tokens<'a> {
    type Item = Token<'a>;

    /// None where nothing but blanks is left.
    fn next(&mut self) -> Option<Token<'a>> {
        let start = self.rest.iter().position(|&octet| !is_blank(octet))?;
        let rest = &self.rest[start..];
        let found = match rest[0] {
            quote @ (b'"' | b'\'') => quoted(quote, &rest[1..]),
            _ => bare(rest),
        };
        // What follows a faulty token is never asked for: its field is refused.
        let (token, rest) = found.unwrap_or((Token::Faulty, &[]));
        self.rest = rest;
        Some(token)
    }
}

/// A bare token from the start of `octets`, and what follows it. "A bare token
/// holds no unescaped quote, `;`, `(` or `)`." "A backslash takes the next
/// octet into its token, a blank too."
pub fn bare(octets: &[u8]) -> Option<(Token<'_>, &[u8])> {
    let mut end = 0;
    while let Some(&octet) = octets.get(end) {
        match octet {
            b' ' | b'\t' => break,
            b'"' | b'\'' | b';' | b'(' | b')' => return None,
            b'\\' => {
                octets.get(end + 1).filter(|&&octet| is_allowed(octet))?;
                end += 2;
            }
            _ if is_allowed(octet) => end += 1,
            _ => return None,
        }
    }
    let (token, rest) = octets.split_at(end);
    Some((Token::Bare(token), rest))
}

/// A quoted token whose opening quote stands before `octets`, and what follows
/// it. "A quoted token must be followed by a blank or the end."
fn quoted(quote: u8, octets: &[u8]) -> Option<(Token<'_>, &[u8])> {
    let mut end = 0;
    loop {
        match *octets.get(end)? {
            octet if octet == quote => break,
            b'\\' => {
                octets.get(end + 1).filter(|&&octet| is_allowed(octet))?;
                end += 2;
            }
            octet if is_allowed(octet) => end += 1,
            _ => return None,
        }
    }
    let rest = &octets[end + 1..];
    match rest.first() {
        Some(&octet) if !is_blank(octet) => None,
        _ => Some((Token::Quoted(&octets[..end]), rest)),
    }
}

/// The octet of an escape whose backslash stands before `octets`, and what
/// follows it. "`\DDD` (000 to 255) and backslash with a nondigit are escapes."
pub fn escape(octets: &[u8]) -> Option<(u8, &[u8])> {
    let (&first, rest) = octets.split_first()?;
    if !first.is_ascii_digit() {
        return Some((first, rest));
    }
    let (digits, rest) = octets.split_at_checked(3)?;
    let value = digits.iter().try_fold(0u16, |value, digit| {
        digit.is_ascii_digit().then(|| value * 10 + u16::from(digit - b'0'))
    })?;
    Some((u8::try_from(value).ok()?, rest))
}

/// Appends `\DDD`.
pub fn print_escape(octet: u8, out: &mut Vec<u8>) {
    let digits = [octet / 100, octet / 10 % 10, octet % 10].map(|digit| b'0' + digit);
    out.push(b'\\');
    out.extend_from_slice(&digits);
}
