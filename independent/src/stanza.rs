//! The description: one stanza of a header and field lines.

use std::collections::HashSet;

use crate::lines::Lines;
use crate::number::{decimal, Symbol, Symbols, Width};
use crate::text::is_blank;
use crate::{within_limit, Refusal, FIELD_LIMIT, STANZA_LIMIT};

/// 2: "a stanza line breaks the grammar; or no header or no field line exists"
const GRAMMAR: u8 = 2;
/// 3: "well-formed but unknown field type or qualifier, or any Z field"
const UNKNOWN: u8 = 3;
/// 4: "known, but not allowed there"
const NOT_ALLOWED: u8 = 4;
/// 5: "a 65th field line"
const TOO_MANY: u8 = 5;
/// 6: the run is not within the stanza's fields.
const RUN: u8 = 6;

/// "Names and symbols have at most 63 octets."
const NAME_LIMIT: usize = 63;

/// What a field holds: its type and the qualifiers that bear on its octets.
/// ("C, A and L on N change no octet here.")
#[derive(Debug)]
pub enum Kind<'a> {
    /// I1, I2, I4
    Integer(Width, Symbols<'a>),
    /// R
    Type,
    /// R[L]
    TypeList,
    /// A
    Address4,
    /// AA
    Address8,
    /// AAAA
    Address16,
    /// N
    Name,
    /// N[O]
    OptionalName,
    /// S
    String,
    /// S[M]
    Strings,
    /// S[X]
    LongString,
    /// B32
    Base32,
    /// B64
    Base64,
    /// X
    Hex,
    /// X[C]
    CountedHex,
    /// EUI48 and EUI64, with their number of octets
    Eui(usize),
    /// T
    Time,
}

impl Kind<'_> {
    /// "Tail fields: S[M], S[X], B64, X without C, R[L], N[O]."
    pub fn is_tail(&self) -> bool {
        matches!(
            self,
            Kind::Strings | Kind::LongString | Kind::Base64 | Kind::Hex | Kind::TypeList | Kind::OptionalName
        )
    }
}

/// An accepted stanza.
pub struct Stanza<'a> {
    fields: Vec<Kind<'a>>,
}

impl<'a> Stanza<'a> {
    /// "Order: 1; the first faulty stanza line, and on it the lowest number;
    /// the place-0 case of 2". Here the lines of a file.
    pub fn judge(octets: &'a [u8]) -> Result<Self, Refusal> {
        within_limit(octets, STANZA_LIMIT)?;
        Stanza::judge_lines(Lines::new(octets).zip(1..), true)
    }

    /// The same of lines and their numbers, without 1. Field lines are indented in
    /// a file; where they are not, none starts with a blank.
    pub fn judge_lines(
        lines: impl Iterator<Item = (&'a [u8], u64)>,
        indented: bool,
    ) -> Result<Self, Refusal> {
        let mut fields: Vec<Kind> = Vec::new();
        let mut names = HashSet::new();
        let mut header_seen = false;
        for (line, place) in lines {
            let refusal = |number| Refusal::new(number, place);
            if only_counts(line) {
                continue;
            }
            // "of the rest the first is the header, the others field lines"
            if !header_seen {
                judge_header(line).map_err(refusal)?;
                header_seen = true;
                continue;
            }
            let parts = FieldLine::split(line, indented).ok_or(refusal(GRAMMAR))?;
            let name = parts.name.map(<[u8]>::to_ascii_lowercase);
            let kind = parts.kind().map_err(refusal)?;
            // "a field name twice (letters' case ignored); a field line after a
            // tail field (the later line is at fault)"
            let name_twice = name.is_some_and(|name| !names.insert(name));
            if name_twice || fields.last().is_some_and(Kind::is_tail) {
                return Err(refusal(NOT_ALLOWED));
            }
            if fields.len() == FIELD_LIMIT {
                return Err(refusal(TOO_MANY));
            }
            fields.push(kind);
        }
        // "no header or no field line exists": place 0. Without a header there
        // is no field line either.
        if fields.is_empty() {
            return Err(Refusal::new(GRAMMAR, 0));
        }
        Ok(Stanza { fields })
    }

    pub fn fields(&self) -> &[Kind<'a>] {
        &self.fields
    }

    /// 6: "the run's first field is below 1, or first less 1 plus length is
    /// over the stanza's field count". An empty run is allowed.
    pub fn run(&self, first: u64, length: u64) -> Result<&[Kind<'a>], Refusal> {
        let run = || {
            let start = first.checked_sub(1)?;
            let end = start.checked_add(length)?;
            self.fields.get(usize::try_from(start).ok()?..usize::try_from(end).ok()?)
        };
        run().ok_or(Refusal::new(RUN, 0))
    }
}

/// "Blank lines and those whose first nonblank is `#` only count for
/// numbering". "Blank means space or tab."
pub fn only_counts(line: &[u8]) -> bool {
    line.iter().find(|&&octet| !is_blank(octet)).is_none_or(|&octet| octet == b'#')
}

/// "The header starts in column 1: a name […], `:`, digits, then optionally `:`
/// and letters, then optionally blank and free text." The error is the number
/// of the refusal.
fn judge_header(line: &[u8]) -> Result<(), u8> {
    let number = header_number(line).ok_or(GRAMMAR)?;
    // "Refusal 4: a type number outside 1 to 65,535"
    if (1..=65_535).contains(&number) {
        Ok(())
    } else {
        Err(NOT_ALLOWED)
    }
}

/// The type number of a header that keeps the grammar.
fn header_number(line: &[u8]) -> Option<u64> {
    let mut scan = Scan { rest: line };
    scan.name()?;
    scan.octet(b':').then_some(())?;
    let number = scan.number()?;
    if scan.octet(b':') && scan.while_in(|octet| octet.is_ascii_alphabetic()).is_empty() {
        return None;
    }
    scan.ends_in_free_text().then_some(number)
}

/// "A qualifier is a name, or name`=`digits."
enum Qualifier<'a> {
    Plain(&'a [u8]),
    Symbol(Symbol<'a>),
}

/// The parts of a field line that keeps the grammar.
struct FieldLine<'a> {
    word: &'a [u8],
    qualifiers: Vec<Qualifier<'a>>,
    name: Option<&'a [u8]>,
}

impl<'a> FieldLine<'a> {
    /// "A field line starts with one or more spaces or tabs, then type,
    /// optional `[` qualifiers `]` parted by single commas, optional `:` and
    /// name, optional blank and free text." Where it is not indented, the blanks
    /// at its start are missing, and any there break the grammar.
    fn split(line: &'a [u8], indented: bool) -> Option<Self> {
        let mut scan = Scan { rest: line };
        if scan.while_in(is_blank).is_empty() == indented {
            return None;
        }
        let word = scan.word()?;
        let mut qualifiers = Vec::new();
        if scan.octet(b'[') {
            loop {
                qualifiers.push(scan.qualifier()?);
                if scan.octet(b']') {
                    break;
                }
                scan.octet(b',').then_some(())?;
            }
        }
        let name = if scan.octet(b':') { Some(scan.name()?) } else { None };
        scan.ends_in_free_text().then_some(FieldLine { word, qualifiers, name })
    }

    /// The field's kind, or 3 or 4, the lower number first.
    fn kind(self) -> Result<Kind<'a>, u8> {
        let word = Word::known(self.word).ok_or(UNKNOWN)?;
        let mut plain = 0;
        let mut twice = false;
        let mut symbols = Vec::new();
        for qualifier in self.qualifiers {
            match qualifier {
                Qualifier::Plain(name) => {
                    let flag = known_qualifier(name).ok_or(UNKNOWN)?;
                    twice |= plain & flag != 0;
                    plain |= flag;
                }
                Qualifier::Symbol(symbol) => symbols.push(symbol),
            }
        }
        word.qualified(plain, symbols).filter(|_| !twice).ok_or(NOT_ALLOWED)
    }
}

// The plain qualifiers that are known. "P is in the grammar without meaning:
// refusal 3."
const C: u8 = 1;
const A: u8 = 2;
const L: u8 = 4;
const O: u8 = 8;
const M: u8 = 16;
const X: u8 = 32;

/// "Keywords are upper case."
fn known_qualifier(name: &[u8]) -> Option<u8> {
    match name {
        b"C" => Some(C),
        b"A" => Some(A),
        b"L" => Some(L),
        b"O" => Some(O),
        b"M" => Some(M),
        b"X" => Some(X),
        _ => None,
    }
}

/// A known field type, qualifiers apart.
#[derive(Clone, Copy)]
enum Word {
    I(Width),
    R,
    A,
    Aa,
    Aaaa,
    N,
    S,
    B32,
    B64,
    X,
    T,
    Eui(usize),
}

impl Word {
    /// "Types: I1 I2 I4 R A AA AAAA N S B32 B64 X T, and EUI48 EUI64 (also
    /// written X6 X8, as in the drafts' prose)." Z is not among them.
    fn known(word: &[u8]) -> Option<Self> {
        Some(match word {
            b"I1" => Word::I(Width::One),
            b"I2" => Word::I(Width::Two),
            b"I4" => Word::I(Width::Four),
            b"R" => Word::R,
            b"A" => Word::A,
            b"AA" => Word::Aa,
            b"AAAA" => Word::Aaaa,
            b"N" => Word::N,
            b"S" => Word::S,
            b"B32" => Word::B32,
            b"B64" => Word::B64,
            b"X" => Word::X,
            b"T" => Word::T,
            b"EUI48" | b"X6" => Word::Eui(6),
            b"EUI64" | b"X8" => Word::Eui(8),
            _ => return None,
        })
    }

    /// "Qualifiers: symbols on I1, I2, I4; L on R; C, A, L, O on N; M or X on
    /// S, not both; C on X." None for what Refusal 4 names: "a known qualifier
    /// or a symbol on another type; […] M with X; a symbol number too big for
    /// its field; a symbol twice".
    fn qualified(self, plain: u8, symbols: Vec<Symbol>) -> Option<Kind> {
        let allowed = match self {
            Word::R => L,
            Word::N => C | A | L | O,
            Word::S => M | X,
            Word::X => C,
            _ => 0,
        };
        let symbols_allowed = matches!(self, Word::I(_));
        if plain & !allowed != 0 || !(symbols_allowed || symbols.is_empty()) {
            return None;
        }
        Some(match self {
            Word::I(width) => {
                if symbols.iter().any(|symbol| symbol.number > width.max()) {
                    return None;
                }
                Kind::Integer(width, Symbols::new(symbols)?)
            }
            Word::R if plain & L != 0 => Kind::TypeList,
            Word::R => Kind::Type,
            Word::A => Kind::Address4,
            Word::Aa => Kind::Address8,
            Word::Aaaa => Kind::Address16,
            Word::N if plain & O != 0 => Kind::OptionalName,
            Word::N => Kind::Name,
            Word::S => match plain {
                0 => Kind::String,
                M => Kind::Strings,
                X => Kind::LongString,
                _ => return None,
            },
            Word::B32 => Kind::Base32,
            Word::B64 => Kind::Base64,
            Word::X if plain & C != 0 => Kind::CountedHex,
            Word::X => Kind::Hex,
            Word::T => Kind::Time,
            Word::Eui(octets) => Kind::Eui(octets),
        })
    }
}

/// "a name (letter, then letters, digits, hyphens)", and nothing else
pub fn is_name(octets: &[u8]) -> bool {
    let mut scan = Scan { rest: octets };
    scan.name().is_some() && scan.rest.is_empty()
}

/// A place in a line, for the grammar.
struct Scan<'a> {
    rest: &'a [u8],
}

impl<'a> Scan<'a> {
    /// Takes the octets up to the first that is not wanted.
    fn while_in(&mut self, wanted: impl Fn(u8) -> bool) -> &'a [u8] {
        let end = self.rest.iter().position(|&octet| !wanted(octet)).unwrap_or(self.rest.len());
        let (taken, rest) = self.rest.split_at(end);
        self.rest = rest;
        taken
    }

    /// Takes one octet if it is the wanted one.
    fn octet(&mut self, wanted: u8) -> bool {
        match self.rest.split_first() {
            Some((&octet, rest)) if octet == wanted => {
                self.rest = rest;
                true
            }
            _ => false,
        }
    }

    /// "a name (letter, then letters, digits, hyphens)", "at most 63 octets"
    fn name(&mut self) -> Option<&'a [u8]> {
        let name = self.while_in(|octet| octet.is_ascii_alphanumeric() || octet == b'-');
        (name.first()?.is_ascii_alphabetic() && name.len() <= NAME_LIMIT).then_some(name)
    }

    /// "A field type is a letter, then letters and digits." It has no limit.
    fn word(&mut self) -> Option<&'a [u8]> {
        let word = self.while_in(|octet| octet.is_ascii_alphanumeric());
        word.first()?.is_ascii_alphabetic().then_some(word)
    }

    fn number(&mut self) -> Option<u64> {
        decimal(self.while_in(|octet| octet.is_ascii_digit()))
    }

    fn qualifier(&mut self) -> Option<Qualifier<'a>> {
        let name = self.name()?;
        Some(if self.octet(b'=') {
            Qualifier::Symbol(Symbol { name, number: self.number()? })
        } else {
            Qualifier::Plain(name)
        })
    }

    /// "Free text, after exactly one blank, is octets 20 to FE hex; any other,
    /// tab too, is refused." It may be empty.
    fn ends_in_free_text(self) -> bool {
        match self.rest.split_first() {
            None => true,
            Some((&blank, text)) => is_blank(blank) && text.iter().all(|octet| (0x20..=0xFE).contains(octet)),
        }
    }
}
