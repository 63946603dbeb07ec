//! Document 02, request 4: descriptions as the DNS stores them.

use independent::{generate, judge, judge_stored, print, print_stored, probe, read, read_stored, Answer};

const MUCH: u64 = u64::MAX;
const ROOT: &[u8] = b"\0";
const TAG: &[u8] = b"RRTYPE=1";
const LIMIT: usize = 8_192;

/// Counted strings.
fn txt<Text: AsRef<[u8]>>(strings: &[Text]) -> Vec<u8> {
    let counted = |text: &[u8]| [&[u8::try_from(text.len()).unwrap()], text].concat();
    strings.iter().flat_map(|text| counted(text.as_ref())).collect()
}

/// The tag and then these strings.
fn tagged<Text: AsRef<[u8]>>(strings: &[Text]) -> Vec<u8> {
    [txt(&[TAG]), txt(strings)].concat()
}

fn stored(txt: Vec<u8>) -> (u8, u64) {
    judge_stored(&txt, 13)
}

fn plain(answer: Answer) -> (u8, u64, Vec<u8>) {
    (answer.number, answer.place, answer.octets)
}

/// Each example of the readings 4.1 to 4.9.
#[test]
fn readings() {
    // 4.1 a `#` string that starts with blanks
    assert_eq!(stored(tagged(&["T:1", " # c", "I1"])), (0, 1));
    assert_eq!(stored(tagged(&["\t#", "T:1", "I1"])), (0, 1));
    // 4.2 a string of blanks only
    assert_eq!(stored(tagged(&[" \t", "T:1", "I1"])), (0, 1));
    // 4.3 a string with an LF
    assert_eq!(stored(tagged(&["T:1\n I1"])), (2, 2));
    assert_eq!(stored(tagged(&["T:1", "# c\n I2", "I1"])), (0, 1));
    assert_eq!(stored(tagged(&["T:1", "\n", "I1"])), (2, 3));
    // 4.4 no octets at all
    assert_eq!(stored(b"".into()), (14, 1));
    assert_eq!(stored(b"\0".into()), (14, 1));
    // 4.5 a wrong tag and a later string cut short
    assert_eq!(stored([txt(&["no"]), vec![1]].concat()), (8, 2));
    assert_eq!(stored([tagged(&["!!"]), vec![1]].concat()), (8, 3));
    // 4.6 what the 8,192 octets are
    let long = [tagged(&["T:1", "I1"]), txt(&["#".repeat(255)]).repeat(31)].concat();
    assert_eq!(stored([&long[..], &txt(&["#".repeat(239)])].concat()), (0, 1));
    assert_eq!(stored([&long[..], &txt(&["#".repeat(240)])].concat()), (1, 0));
    // 4.7 no header or no field line
    assert_eq!(stored(txt(&[TAG])), (2, 0));
    assert_eq!(stored(tagged(&["T:1"])), (2, 0));
    // 4.8 "exactly `RRTYPE=1`"
    assert_eq!(stored(txt(&["rrtype=1", "T:1", "I1"])), (14, 1));
    assert_eq!(stored(txt(&["# c", "RRTYPE=1", "T:1", "I1"])), (14, 1));
    // 4.9 8 of the description against 8 of the record
    let cut = [tagged(&["T:1", "I1"]), vec![7]].concat();
    assert_eq!(plain(print_stored(&cut, 13, 1, 1, b"", 0)), (8, 4, vec![]));
    assert_eq!(plain(print_stored(&cut, 13, 0, 1, b"", 0)), (8, 4, vec![]));
}

/// "Any other string starting with a blank breaks the grammar."
#[test]
fn blanks_at_the_start() {
    for blanks in [" ", "\t", "  ", " \t "] {
        for place in 2..=4 {
            let mut strings = ["T:1", "I1", "N"].map(str::to_string);
            strings[place - 2].insert_str(0, blanks);
            assert_eq!(stored(tagged(&strings)), (2, place as u64), "{strings:?}");
        }
    }
    assert_eq!(stored(tagged(&["T:1", "I1", "N"])), (0, 2));
}

/// "8 for a string cut short, place its number, then 14 for a wrong or missing
/// tag, place 1, both before any line is judged."
#[test]
fn every_cut() {
    let strings: [&str; 7] = ["T:1", "", "# c", "I1[A=1]:x", "N:y Free text", "Q", "X"];
    let whole = tagged(&strings);
    assert_eq!(stored(whole.clone()), (3, 7));
    let mut ends = vec![0];
    for string in [&[TAG], &strings.map(str::as_bytes)[..]].concat() {
        ends.push(ends[ends.len() - 1] + 1 + string.len());
    }
    for end in 0..whole.len() {
        let expected = match ends.iter().position(|&other| other == end) {
            Some(0) => (14, 1),
            Some(1..=4) => (2, 0),
            Some(count @ 5..=6) => (0, count as u64 - 4),
            Some(_) => (3, 7),
            None => (8, ends.iter().filter(|&&other| other < end).count() as u64),
        };
        assert_eq!(stored(whole[..end].to_vec()), expected, "{end}");
    }
}

/// Octet for octet: each other octet at each place of the tag, one octet less and
/// one more.
#[test]
fn tags() {
    for place in 0..TAG.len() {
        for octet in 0..=255 {
            let mut tag = TAG.to_vec();
            tag[place] = octet;
            let expected = if tag == TAG { (0, 1) } else { (14, 1) };
            assert_eq!(stored(txt(&[&tag[..], b"T:1", b"I1"])), expected);
        }
        assert_eq!(stored(txt(&[&TAG[..place], b"T:1", b"I1"])), (14, 1));
    }
    for tag in ["RRTYPE=1 ", " RRTYPE=1", "RRTYPE=11", "RRTYPE=1\0", "\"RRTYPE=1\"", "RRTYPE=10", "T:1"] {
        assert_eq!(stored(txt(&[tag, "T:1", "I1"])), (14, 1), "{tag}");
    }
    // A second one is a line.
    assert_eq!(stored(tagged(&["RRTYPE=1", "T:1", "I1"])), (2, 2));
}

/// Request 6: "16 for another edition, place 0, first of all after 1".
#[test]
fn editions() {
    let long = [tagged(&["T:1", "I1"]), vec![0; LIMIT]].concat();
    for edition in [0, 1, 10, 12, 14, 113, 130, 269, 65_549, 4_294_967_309, 1 << 63, MUCH] {
        for txt in [tagged(&["T:1", "I1"]), tagged(&["!"]), txt(&["no"]), vec![], vec![7]] {
            assert_eq!(judge_stored(&txt, edition), (16, 0), "{edition}");
            assert_eq!(plain(print_stored(&txt, edition, 0, 9, b"", 0)), (16, 0, vec![]));
            assert_eq!(plain(read_stored(&txt, edition, 0, 9, b"", b"'", 0)), (16, 0, vec![]));
        }
        assert_eq!(judge_stored(&long, edition), (1, 0));
        assert_eq!(print_stored(&[], edition, 1, 1, &[0; 65_536], 0).number, 1);
        assert_eq!(read_stored(&[], edition, 1, 1, b"", &[b' '; 1_048_577], 0).number, 1);
    }
}

/// "1 […]; 6; 7 (text reading only); fields left to right with 8 or 9; 10; 11;
/// 12", after all that is wrong with the description.
#[test]
fn order() {
    let good = tagged(&["D:1", "I1[ON=1]", "N"]);
    let got = |txt: &[u8], first, origin: &[u8], text: &[u8], room| {
        let answer = read_stored(txt, 13, first, 2, origin, text, room);
        (answer.number, answer.place)
    };
    let printed = |txt: &[u8], first, rdata: &[u8], room| {
        let answer = print_stored(txt, 13, first, 2, rdata, room);
        (answer.number, answer.place)
    };
    assert_eq!(got(&good, 1, ROOT, b"on a", 4), (0, 4));
    assert_eq!(got(&good, 1, ROOT, b"on a", 3), (12, 4));
    assert_eq!(got(&good, 1, ROOT, b"on a b", 0), (10, 3));
    assert_eq!(got(&good, 1, ROOT, b"on", 0), (8, 2));
    assert_eq!(got(&good, 1, ROOT, b"off a b", 0), (9, 1));
    assert_eq!(got(&good, 1, b"", b"off a b", 0), (7, 0));
    assert_eq!(got(&good, 2, b"", b"off a b", 0), (6, 0));
    assert_eq!(got(&tagged(&["D:1", "I1[on]"]), 2, b"", b"off a b", 0), (3, 3));
    assert_eq!(got(&txt(&["D:1", "I1[on]"]), 2, b"", b"off a b", 0), (14, 1));
    assert_eq!(got(&[txt(&["D:1", "I1[on]"]), vec![1]].concat(), 2, b"", b"off a b", 0), (8, 3));
    assert_eq!(printed(&good, 1, &[1, 1, b'a', 0], 5), (0, 5));
    assert_eq!(printed(&good, 1, &[1, 1, b'a', 0], 4), (12, 5));
    assert_eq!(printed(&good, 1, &[1, 1, b'a', 0, 0], 0), (10, 3));
    assert_eq!(printed(&good, 1, &[1, 64], 0), (9, 2));
    assert_eq!(printed(&good, 1, &[1, 1], 0), (8, 2));
    assert_eq!(printed(&good, 2, &[1, 1], 0), (6, 0));
    assert_eq!(printed(&tagged(&["D:1", "I1[on]"]), 2, &[1, 1], 0), (3, 3));
    let long = tagged(&["D:1", "S[X]"]);
    let answer = |count| plain(read_stored(&long, 13, 1, 1, ROOT, &b"s".repeat(count), 65_535));
    assert_eq!(answer(65_535), (0, 65_535, b"s".repeat(65_535)));
    assert_eq!(answer(65_536), (11, 0, vec![]));
}

/// Request 3: "an empty catalogue […] stands wherever none is named".
#[test]
fn no_catalogue() {
    let types = tagged(&["D:1", "R", "R[L]"]);
    let text = b"TYPE15 TYPE1 TYPE28".to_vec();
    let rdata = [0, 15, 0, 4, 64, 0, 0, 8].to_vec();
    assert_eq!(plain(print_stored(&types, 13, 1, 2, &rdata, MUCH)), (0, 19, text.clone()));
    assert_eq!(plain(read_stored(&types, 13, 1, 2, ROOT, &text, MUCH)), (0, 8, rdata));
    assert_eq!(plain(read_stored(&types, 13, 1, 2, ROOT, b"MX", MUCH)), (9, 1, vec![]));
}

/// "the file form has them as its lines, one space before each after the header";
/// the header is the first string that is not ignored.
fn file_form(strings: &[Vec<u8>]) -> Vec<u8> {
    let mut file = Vec::new();
    let mut header_seen = false;
    for string in strings {
        if header_seen {
            file.push(b' ');
        }
        file.extend_from_slice(string);
        file.push(b'\n');
        header_seen |= !string.is_empty() && string[0] != b'#';
    }
    file
}

/// What the stored form answers where the file form answers this: "line numbers in
/// refusals one apart". 2 to 5 have one, where it is not 0.
fn one_on((number, place): (u8, u64)) -> (u8, u64) {
    match number {
        2..=5 if place > 0 => (number, place + 1),
        _ => (number, place),
    }
}

/// A generated request whose stanza is taken as a list of strings.
struct Case {
    strings: Vec<Vec<u8>>,
    first: u64,
    length: u64,
    /// The RDATA alone, or the origin and the text; none to judge.
    input: Vec<Vec<u8>>,
    room: u64,
}

fn octets(word: &str) -> Vec<u8> {
    if word == "-" {
        return Vec::new();
    }
    (0..word.len()).step_by(2).map(|i| u8::from_str_radix(&word[i..i + 2], 16).unwrap()).collect()
}

impl Case {
    /// The lines of the stanza without their leading blanks; lines over 255 octets
    /// are cut, so that each is a string.
    fn of(line: &[u8]) -> Self {
        let words: Vec<&str> = std::str::from_utf8(line).unwrap().split(' ').collect();
        let number = |word: &str| word.parse::<u64>().unwrap();
        let stanza = octets(words[1]);
        let strings = stanza
            .split(|&octet| octet == b'\n')
            .map(|line| {
                let start = line.iter().position(|octet| !b" \t".contains(octet)).unwrap_or(line.len());
                line[start..].iter().copied().take(255).collect()
            })
            .collect();
        match words[2..] {
            [first, length, ref input @ .., room] => Case {
                strings,
                first: number(first),
                length: number(length),
                input: input.iter().map(|word| octets(word)).collect(),
                room: number(room),
            },
            _ => Case { strings, first: 0, length: 0, input: vec![], room: 0 },
        }
    }

    /// Judges both forms and converts under both; the number that the stored one
    /// answers.
    fn holds(&self) -> u8 {
        let (txt, file) = (tagged(&self.strings), file_form(&self.strings));
        assert!(txt.len() <= LIMIT && file.len() <= LIMIT);
        let judged = judge_stored(&txt, 13);
        assert_eq!(judged, one_on(judge(&file)), "{:?}", self.strings);
        let Case { first, length, room, .. } = *self;
        let (stored, filed) = match &self.input[..] {
            [] => return judged.0,
            [rdata] => {
                (print_stored(&txt, 13, first, length, rdata, room), print(&file, first, length, rdata, room))
            }
            [origin, text] => (
                read_stored(&txt, 13, first, length, origin, text, room),
                read(&file, first, length, origin, text, room),
            ),
            _ => panic!("a request"),
        };
        assert_eq!((stored.number, stored.place), one_on((filed.number, filed.place)), "{:?}", self.strings);
        assert_eq!(stored.octets, filed.octets);
        stored.number
    }
}

/// "Take the tag and then whole strings with no LF and no blank at the start […]
/// Where both forms are at most 8,192 octets they must give equal descriptions, and
/// every conversion equal results, line numbers in refusals one apart".
#[test]
fn both_forms_are_one_description() {
    let lines = generate::judge_requests(20_000, 41)
        .chain(generate::print_requests(20_000, 42))
        .chain(generate::read_requests(20_000, 43));
    let mut numbers = [0; 20];
    for line in lines {
        let case = Case::of(&line);
        if file_form(&case.strings).len() <= LIMIT && tagged(&case.strings).len() <= LIMIT {
            numbers[usize::from(case.holds())] += 1;
        }
    }
    assert!(numbers[0] > 20_000, "{numbers:?}");
    for number in [2, 3, 4, 6, 8, 9, 10, 12] {
        assert!(numbers[number] > 1_000, "{number}: {numbers:?}");
    }
    assert!(numbers[5] > 100 && numbers[7] > 300 && numbers[11] > 5, "{numbers:?}");
    assert_eq!(numbers[1] + numbers[13..].iter().sum::<u32>(), 0);
}

/// The law at the limit: each form may be over it alone, and is then refused. The
/// file form is the longer one where many strings come after the header.
#[test]
fn the_limit_of_each_form() {
    let mut over = [0; 4];
    for last in 0..=255 {
        for before in [0, 25, 31] {
            let filling = vec![b"#".repeat(255); 31];
            let mut strings = filling[..before].to_vec();
            strings.extend([b"T:1".to_vec(), b"I1".to_vec()]);
            strings.extend_from_slice(&filling[before..]);
            strings.push(b"#".repeat(last));
            let (txt, file) = (tagged(&strings), file_form(&strings));
            let (stored, filed) = (judge_stored(&txt, 13), judge(&file));
            let expected = |octets: &[u8]| if octets.len() > LIMIT { (1, 0) } else { (0, 1) };
            assert_eq!((stored, filed), (expected(&txt), expected(&file)));
            over[usize::from(stored.0) + 2 * usize::from(filed.0)] += 1;
        }
    }
    assert!(over[0] > 500 && over[1] > 5 && over[2] > 5 && over[3] > 10, "{over:?}");
}

#[test]
fn the_protocol() {
    let answer = |line: &str| String::from_utf8(probe::answer(line.as_bytes())).unwrap();
    let one = "085252545950453D3103543A31024931";
    assert_eq!(answer(&format!("JS {one} 13")), "0 1");
    assert_eq!(answer(&format!("JS {one} 0000000000000000000000013")), "0 1");
    assert_eq!(answer(&format!("JS {one} 18446744073709551615")), "16 0");
    assert_eq!(answer(&format!("PS {} 13 1 1 07 1", one.to_lowercase())), "0 1 37");
    assert_eq!(answer(&format!("RS {one} 13 1 1 00 37 1")), "0 1 07");
    assert_eq!(answer("JS - 13"), "14 1");
    for line in [
        "JS",
        "JS -",
        "JS - ",
        "JS  - 13",
        "JS -  13",
        "JS - 13 ",
        "JS - 13 -",
        "JS 0 13",
        "JS 0G 13",
        "JS - +13",
        "JS - -13",
        "JS - 0x0D",
        "JS - 18446744073709551616",
        "JS - 13.0",
        "js - 13",
        "PS",
        "PS - 13 1 1 -",
        "PS - 13 1 1 - 5 5",
        "PS - 1 1 - 5",
        "PS - - 1 1 - 5",
        "PS - 13 1 1 0 5",
        "PS 0 13 1 1 - 5",
        "PS - 13 1 -1 - 5",
        "RS",
        "RS - 13 1 1 - 5",
        "RS - 13 1 1 - - - 5",
        "RS - 13 1 1 - 0 5",
        "RS - 13 1 1 0 - 5",
        "RS - 18446744073709551616 1 1 - - 5",
    ] {
        assert_eq!(answer(line), "?", "{line}");
    }
}
