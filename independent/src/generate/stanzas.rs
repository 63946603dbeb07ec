//! Stanzas: good ones, and ones with a fault of a chosen sort.

use super::random::Random;

/// Field types that take no qualifier and are no tail.
const PLAIN: &[&str] = &["I1", "I2", "I4", "R", "A", "AA", "AAAA", "N", "S", "B32", "T"];
const HARDWARE: &[&str] = &["EUI48", "EUI64", "X6", "X8"];
const TAILS: &[&str] = &["S[M]", "S[X]", "B64", "X", "R[L]", "N[O]"];
const SYMBOLS: &[&str] =
    &["STEP", "HOLD", "a", "B", "C", "M", "P", "Z", "x-9", "SHA-1", "sha-256", "Type1", "q1-", "RSAMD5"];
const NAMES: &[&str] = &["opening", "dwell", "mode", "site", "T-", "x", "a1", "Next-Hop", "KEY"];

/// An accepted stanza.
pub fn good(random: &mut Random) -> Vec<u8> {
    let count = match random.below(20) {
        0 => random.within(7..=12),
        1..=4 => 1,
        _ => random.within(2..=5),
    };
    assemble(random, |random| fields(random, count))
}

/// Fields that make an accepted stanza.
fn fields(random: &mut Random, count: usize) -> Vec<Vec<u8>> {
    (0..count)
        .map(|index| {
            let tail = index + 1 == count && random.percent(55);
            field(random, tail, index)
        })
        .collect()
}

/// A stanza around field lines (without their LF).
pub fn assemble(random: &mut Random, fields: impl FnOnce(&mut Random) -> Vec<Vec<u8>>) -> Vec<u8> {
    let mut lines = Vec::new();
    filling(random, &mut lines);
    lines.push(header(random));
    for field in fields(random) {
        filling(random, &mut lines);
        lines.push(field);
    }
    filling(random, &mut lines);
    join(random, &lines)
}

/// Lines with their LFs, the last perhaps without.
fn join(random: &mut Random, lines: &[Vec<u8>]) -> Vec<u8> {
    let mut stanza = lines.join(&b'\n');
    let last_is_empty = lines.last().is_none_or(Vec::is_empty);
    if last_is_empty || !random.one_in(6) {
        stanza.push(b'\n');
    }
    stanza
}

/// At times a line that only counts.
fn filling(random: &mut Random, lines: &mut Vec<Vec<u8>>) {
    if random.percent(8) {
        let line: &[u8] =
            random.pick(&[b"", b" ", b"\t \t", b"#", b"# note", b" \t# x", b"#\0\xFF\r\t", b"  #[,:"]);
        lines.push(line.to_vec());
    }
}

fn header(random: &mut Random) -> Vec<u8> {
    let number = random.pick(&[1, 2, 255, 256, 65_280, 65_534, 65_535]);
    let number = if random.one_in(3) { random.within(1..=65_535) } else { number };
    let mut line = name(random);
    line.push(b':');
    line.extend(digits(random, number as u64, 10));
    if random.one_in(3) {
        let options: &str = random.pick(&[":I", ":A", ":AO", ":zZz", ":Zone"]);
        line.extend_from_slice(options.as_bytes());
    }
    free_text(random, &mut line);
    line
}

/// A number with leading zeros, at most so many digits.
pub fn digits(random: &mut Random, number: u64, most: usize) -> Vec<u8> {
    let plain = number.to_string();
    let width = match random.below(6) {
        0 => most,
        1 => random.within(1..=most),
        _ => 1,
    };
    format!("{plain:0>width$}").into_bytes()
}

fn name(random: &mut Random) -> Vec<u8> {
    let name: &str = random.pick(NAMES);
    let mut name = random.any_case(name.as_bytes());
    if random.one_in(150) {
        name.resize(63, b'x');
    }
    name
}

fn free_text(random: &mut Random, line: &mut Vec<u8>) {
    if !random.percent(35) {
        return;
    }
    line.push(random.pick(b"   \t"));
    for _ in 0..random.below(8) {
        line.push(random.pick(b"Tenths of a second [RFC1035]:,=#\\ \x7F\x80\xC3\xFE~"));
    }
}

/// A good field line.
fn field(random: &mut Random, tail: bool, index: usize) -> Vec<u8> {
    let body = if tail { tail_body(random) } else { plain_body(random) };
    dress(random, &body, index)
}

/// Blanks before, and perhaps a name and free text after, a type with its
/// qualifiers.
pub fn dress(random: &mut Random, body: &[u8], index: usize) -> Vec<u8> {
    let blanks: &[u8] = random.pick(&[b" ", b" ", b"   ", b"\t", b" \t "]);
    let mut line = blanks.to_vec();
    line.extend_from_slice(body);
    if random.percent(45) {
        line.push(b':');
        let mut name = name(random);
        // Two octets in front keep names apart in one stanza.
        name.splice(0..0, [b'a' + (index % 26) as u8, b'0' + (index / 26 % 10) as u8]);
        name.truncate(63);
        line.extend(name);
    }
    free_text(random, &mut line);
    line
}

pub fn plain_body(random: &mut Random) -> Vec<u8> {
    match random.below(PLAIN.len() + 5) {
        0 | 1 => integer_body(random),
        2 => b"X[C]".to_vec(),
        3 => random.pick(HARDWARE).into(),
        4 => name_body(random, false),
        choice => PLAIN[choice - 5].into(),
    }
}

pub fn tail_body(random: &mut Random) -> Vec<u8> {
    match random.pick(TAILS) {
        "N[O]" => name_body(random, true),
        tail => tail.into(),
    }
}

/// N with some of C, A, L, and O if it is a tail, in any order.
fn name_body(random: &mut Random, tail: bool) -> Vec<u8> {
    let mut qualifiers: Vec<&str> = ["C", "A", "L"].into_iter().filter(|_| random.one_in(3)).collect();
    if tail {
        qualifiers.push("O");
    }
    random.shuffle(&mut qualifiers);
    match qualifiers.is_empty() {
        true => b"N".to_vec(),
        false => format!("N[{}]", qualifiers.join(",")).into_bytes(),
    }
}

/// I1, I2 or I4 with symbols, some of one number.
fn integer_body(random: &mut Random) -> Vec<u8> {
    let (word, max): (&str, u64) = random.pick(&[("I1", 255), ("I2", 65_535), ("I4", 4_294_967_295)]);
    let mut names = SYMBOLS.to_vec();
    random.shuffle(&mut names);
    names.truncate(random.within(1..=4));
    let symbols: Vec<Vec<u8>> = names
        .iter()
        .map(|name| {
            let number = random.pick(&[0, 1, 1, 2, 3, 255, max - 1, max]);
            let mut symbol = name.as_bytes().to_vec();
            symbol.push(b'=');
            symbol.extend(digits(random, number, 10));
            symbol
        })
        .collect();
    [word.as_bytes(), b"[", &symbols.join(&b','), b"]"].concat()
}

/// A stanza with one fault of a chosen sort, on a line of its own or in the
/// header, at any place.
pub fn faulty(random: &mut Random) -> Vec<u8> {
    match random.below(24) {
        0 => with_header(random, faulty_number),
        1 => with_header(random, faulty_header),
        2 => name_twice(random),
        3 | 4 => after_tail(random),
        5 => many_fields(random),
        6 => nothing(random),
        7..=11 => with_line(random, broken_line),
        12..=15 => with_line(random, unknown_line),
        _ => with_line(random, forbidden_line),
    }
}

/// A stanza of more than 8,192 octets.
pub fn over_long(random: &mut Random) -> Vec<u8> {
    let mut stanza = good(random);
    stanza.push(b'\n');
    stanza.resize(8_193 + random.below(3), b'#');
    stanza
}

fn with_header(random: &mut Random, header: fn(&mut Random) -> Vec<u8>) -> Vec<u8> {
    let mut lines = Vec::new();
    filling(random, &mut lines);
    lines.push(header(random));
    let count = random.below(3);
    lines.extend(fields(random, count));
    join(random, &lines)
}

fn faulty_number(random: &mut Random) -> Vec<u8> {
    let number: &str = random.pick(&[
        "0", "00", "65536", "065536", "4294967295", "4294967296", "9999999999", "00000000001", "0000000000",
        "99999999999",
    ]);
    let mut line = name(random);
    line.extend_from_slice(format!(":{number}").as_bytes());
    free_text(random, &mut line);
    line
}

fn faulty_header(random: &mut Random) -> Vec<u8> {
    let line: &[u8] = random.pick(&[
        b" T:1", b"\tT:1", b"T", b"T:", b"T :1", b"T: 1", b"1T:1", b"-T:1", b"T:1:", b"T:1:A1", b"T:1:A:B",
        b"T:1x", b"T:-1", b"T_:1", b"T:1 \t", b"T:1 a\tb", b"T:1 \xFF", b"T:1 \x1F", b"T:1\r", b":1",
        b"T::1", b"T:1,2", b"T:1#", b"[T]:1", b"\0", b"\r",
    ]);
    line.to_vec()
}

/// One chosen line among good ones.
fn with_line(random: &mut Random, body: fn(&mut Random) -> Vec<u8>) -> Vec<u8> {
    let count = random.below(4);
    let place = random.below(count + 1);
    assemble(random, |random| {
        let mut lines = fields(random, count);
        let line = body(random);
        lines.insert(place, line);
        lines
    })
}

fn broken_line(random: &mut Random) -> Vec<u8> {
    let line: &[u8] = random.pick(&[
        b"I1", b" 1I", b" I1[", b" I1[]", b" I1]", b" I1[A=]", b" I1[=1]", b" I1[A=1", b" I1[A=1,]",
        b" I1[,A=1]", b" I1[A=1,,B=2]", b" I1[A=1 ,B=2]", b" I1[A= 1]", b" I1[A=1]]", b" I1[A=1]x",
        b" I1[1A=1]", b" I1[-A=1]", b" I1[A=00000000001]", b" I1[A=99999999999]", b" I1[A=1x]", b" I1[A=-1]",
        b" N[C, A]", b" N[C;A]", b" N[C", b" N[C]:", b" N:", b" N: x", b" N:1x", b" N:-x", b" N:x y\xFF",
        b" N:x_y", b" N:x:y", b" N:x[C]", b" N x\ty", b" N\t\t", b" N \0", b" N\r", b" N-x", b" -", b" [C]",
        b" :x", b" !", b" I1!", b" Z[", b" Z[]", b" Q[", b" N[C,C,Q] \xFF", b" I2[A=1,\\", b"\r", b"\x0c",
        b" \xFF", b" N[C]\x7F", b" T[P", b" I1[A==1]", b" I1[A=1=2]", b" R[L]:x\t\t", b" S[M,X",
    ]);
    if random.percent(85) {
        return line.to_vec();
    }
    let length = random.pick(&[63, 64, 64, 65]);
    let long = "n".repeat(length);
    let line = random.pick(&[" N:@", " N[@]", " I1[@=1]", " @", " N[@=1]"]);
    line.replace('@', &long).into_bytes()
}

fn unknown_line(random: &mut Random) -> Vec<u8> {
    let body: &[u8] = random.pick(&[
        b"Z", b"Z[WKS]", b"Z[C,C,A=99999]", b"Q", b"Q[C]", b"Q[C,C]", b"n", b"i1", b"I3", b"I8", b"I",
        b"B16", b"B", b"X7", b"X1", b"EUI", b"EUI4", b"eui48", b"AAA", b"AAAAA", b"ZZ", b"ns", b"TT", b"t",
        b"N[P]", b"N[c]", b"N[C,c]", b"N[Q]", b"N[WKS]", b"N[C,C,Q]", b"N[o]", b"I1[STEP]", b"I1[A=1,B]",
        b"I1[A=1,A=1,B]", b"I1[A=256,q]", b"T[P,C,C]", b"S[m]", b"S[MX]", b"S[M,X,P]", b"X[c]", b"X[P]",
        b"R[l]", b"R[L,LL]", b"EUI48[Q]", b"B64[p]", b"AAAA[Z]", b"A[I1]", b"Z[A=1]", b"Z[P]",
    ]);
    let index = random.below(60) + 60;
    dress(random, body, index)
}

fn forbidden_line(random: &mut Random) -> Vec<u8> {
    let body: &[u8] = random.pick(&[
        b"I1[C]", b"I2[A]", b"I4[L]", b"I1[O]", b"I2[M]", b"I4[X]", b"I1[A=1,C]", b"R[C]", b"R[L,C]",
        b"R[L,L]", b"R[L=1]", b"R[X]", b"A[C]", b"A[A=1]", b"AA[L]", b"AAAA[A]", b"AAAA[B=1]", b"N[M]",
        b"N[X]", b"N[C,C]", b"N[O,A,O]", b"N[C=1]", b"N[P=1]", b"N[C,A,L,O,M]", b"S[C]", b"S[L]", b"S[M,X]",
        b"S[X,M]", b"S[M,M]", b"S[X,X]", b"S[M=1]", b"S[O]", b"B32[C]", b"B32[A=1]", b"B64[M]", b"B64[Q=1]",
        b"X[X]", b"X[C,C]", b"X[L]", b"X[C=1]", b"X[C,A=1]", b"T[C]", b"T[T=1]", b"EUI48[C]", b"EUI64[X]",
        b"X6[C]", b"X8[C]", b"X8[C=1]", b"I1[A=256]", b"I1[A=255,B=256]", b"I2[A=65536]", b"I2[A=65535]",
        b"I4[A=4294967296]", b"I4[A=4294967295]", b"I1[A=9999999999]", b"I1[A=0000000255]", b"I1[A=1,a=2]",
        b"I1[A=1,A=1]", b"I2[ab=1,c=2,AB=3]", b"I4[x-1=1,X-1=1]", b"I1[A=1,B=1]",
    ]);
    let index = random.below(60) + 60;
    dress(random, body, index)
}

/// A field name a second time, perhaps in other capitals.
fn name_twice(random: &mut Random) -> Vec<u8> {
    let count = random.within(2..=4);
    let later = random.within(1..=count - 1);
    let earlier = random.below(later);
    let name = name(random);
    assemble(random, |random| {
        (0..count)
            .map(|index| {
                let mut line = b" ".to_vec();
                line.extend(plain_body(random));
                if index == earlier || index == later {
                    line.push(b':');
                    line.extend(random.any_case(&name));
                }
                line
            })
            .collect()
    })
}

fn after_tail(random: &mut Random) -> Vec<u8> {
    let before = random.below(3);
    assemble(random, |random| {
        let mut lines: Vec<Vec<u8>> = (0..before).map(|index| field(random, false, index)).collect();
        lines.push(field(random, true, before));
        let later_is_tail = random.one_in(3);
        lines.push(match random.below(6) {
            0 => unknown_line(random),
            1 => broken_line(random),
            _ => field(random, later_is_tail, before + 1),
        });
        lines
    })
}

/// 63 to 66 field lines, the last ones perhaps faulty in another way.
fn many_fields(random: &mut Random) -> Vec<u8> {
    let count = random.pick(&[63, 64, 64, 65, 65, 65, 66]);
    let mut stanza = b"T:1\n".to_vec();
    for _ in 0..count {
        stanza.extend_from_slice(b" ");
        let word: &str = random.pick(PLAIN);
        stanza.extend_from_slice(word.as_bytes());
        stanza.push(b'\n');
    }
    if random.one_in(3) {
        let last: &[u8] =
            random.pick(&[b" X\n", b" Q\n", b" I1!\n", b" N[M]\n", b"!\n", b" X\n I1\n", b"\n#\n"]);
        stanza.extend_from_slice(last);
    }
    stanza
}

/// Without a header, or without a field line.
fn nothing(random: &mut Random) -> Vec<u8> {
    let mut lines = Vec::new();
    filling(random, &mut lines);
    if random.one_in(2) {
        lines.push(header(random));
    }
    filling(random, &mut lines);
    if lines.is_empty() {
        return Vec::new();
    }
    join(random, &lines)
}

/// Cases at the limits of the grammar, each always wanted.
pub fn limit_cases() -> Vec<Vec<u8>> {
    let mut cases: Vec<Vec<u8>> = Vec::new();
    let mut add = |case: String| cases.push(case.into_bytes());
    let long = "n".repeat(63);
    let longer = "n".repeat(64);
    for tail in ["", "\n"] {
        for length in [8_191, 8_192, 8_193, 8_194] {
            let start = "T:1\n I1\n";
            let filling = length - start.len() - tail.len();
            add(format!("{start}{}{tail}", "#".repeat(filling)));
            add(format!("!{}{tail}", "#".repeat(length - 1 - tail.len())));
        }
        for case in ["", "T:1", "T:1\n I1", "T:1\n I1\n#", "T:1\n I1 x", "#", " ", "T:1\n ", "T:1\n\n"] {
            add(format!("{case}{tail}"));
        }
    }
    for count in [1, 63, 64, 65, 66] {
        for last in ["", " X\n", " Q\n", " I1!\n", " N[M]\n", "!\n", "\n", "#\n"] {
            add(format!("T:1\n{}{last}", " I1\n".repeat(count)));
        }
        add(format!("T:1\n{} X\n I1\n", " I1\n".repeat(count - 1)));
        let named: String = (0..count).map(|index| format!(" I1:f{index}\n")).collect();
        add(format!("T:1\n{named}"));
        add(format!("T:1\n{named} I1:F0\n"));
    }
    for name in [&long, &longer] {
        for case in
            ["@:1\n I1\n", "T:1\n I1:@\n", "T:1\n I1[@=1]\n", "T:1\n N[@]\n", "T:1\n N[@=1]\n", "T:1\n @\n"]
        {
            add(case.replace('@', name));
        }
        add(format!("T:1:{name}\n I1\n"));
        add(format!("T:1\n I1[{name}=1,{}=2]\n", name.to_uppercase()));
        add(format!("T:1\n I1:{name}\n I1:{}\n", name.to_uppercase()));
    }
    for number in [
        "0", "1", "00", "01", "0000000001", "00000000001", "0000000000", "00000000000", "254", "255", "256",
        "257", "65534", "65535", "65536", "65537", "0000065535", "0000065536", "4294967295", "4294967296",
        "4294967297", "9999999999", "10000000000", "99999999999", "18446744073709551616", "",
    ] {
        add(format!("T:{number}\n I1\n"));
        for word in ["I1", "I2", "I4", "N", "R", "X", "EUI48", "Z", "Q"] {
            add(format!("T:1\n {word}[A={number}]\n"));
        }
        add(format!("T:1\n I1[A=1,B={number}]\n"));
    }
    let words = [
        "I1", "I2", "I4", "R", "A", "AA", "AAAA", "N", "S", "B32", "B64", "X", "T", "EUI48", "EUI64", "X6",
        "X8", "Z", "P", "Q",
    ];
    for word in words {
        add(format!("T:1\n {word}\n"));
        add(format!("T:1\n {}\n", word.to_lowercase()));
        add(format!("T:1\n {word}\n I1\n"));
        for qualifier in [
            "C", "A", "L", "O", "M", "X", "P", "Q", "c", "WKS", "A=1", "C,C", "M,X", "C,A,L,O", "C,Q",
            "A=1,a=2", "",
        ] {
            add(format!("T:1\n {word}[{qualifier}]\n"));
            add(format!("T:1\n {word}[{qualifier}]\n I1\n"));
        }
    }
    // Each octet at each of the places where free text may or may not start.
    for octet in 0..=255u8 {
        for [before, after] in [
            ["T:1", "\n I1\n"],
            ["T:1 ", "\n I1\n"],
            ["T:1\n I1", "\n"],
            ["T:1\n I1 ", "\n"],
            ["T:1\n I1[A", "=1]\n"],
            ["T:1\n I1[A=1", "]\n"],
            ["T:1\n", "I1\n I2\n"],
            ["", "T:1\n I1\n"],
            ["T", ":1\n I1\n"],
            ["T:1\n I1:x", "\n"],
            ["T:1\n ", "\n I1\n"],
        ] {
            cases.push([before.as_bytes(), &[octet], after.as_bytes()].concat());
        }
    }
    cases
}
