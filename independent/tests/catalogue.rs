//! Document 02, request 3: names of types from a lent catalogue.

use std::collections::BTreeMap;
use std::path::Path;

use independent::{
    generate, judge, print, print_with, probe, read, read_with, Answer, Entry, Lent, ENTRY_LIMIT,
};

const MUCH: u64 = u64::MAX;
const ROOT: &[u8] = b"\0";

/// A catalogue whose names lie one after the other in the text.
#[derive(Default)]
struct Catalogue {
    entries: Vec<Entry>,
    names: Vec<u8>,
}

impl Catalogue {
    fn of<Name: AsRef<[u8]>>(listed: &[(u32, Name)]) -> Self {
        let mut catalogue = Catalogue::default();
        for (number, name) in listed {
            let (start, name) = (catalogue.names.len() as u16, name.as_ref());
            catalogue.entries.push(Entry { number: *number, start, length: name.len() as u16 });
            catalogue.names.extend_from_slice(name);
        }
        catalogue
    }

    fn lent(&self) -> Lent<'_> {
        Lent { entries: &self.entries, names: &self.names }
    }
}

fn one(field: &str) -> Vec<u8> {
    format!("T:1\n {field}\n").into_bytes()
}

/// Prints one field with much room.
fn printed(lent: Lent, field: &str, rdata: &[u8]) -> (u8, u64, String) {
    let answer = print_with(lent, &one(field), 1, 1, rdata, MUCH);
    (answer.number, answer.place, String::from_utf8(answer.octets).unwrap())
}

/// Reads one field under the root with much room.
fn got(lent: Lent, field: &str, text: &str) -> (u8, u64, Vec<u8>) {
    let answer = read_with(lent, &one(field), 1, 1, ROOT, text.as_bytes(), MUCH);
    (answer.number, answer.place, answer.octets)
}

/// The place of 13, the same in printing and in reading; 0 where the catalogue
/// is good.
fn fault(lent: Lent) -> u64 {
    let (number, place, _) = printed(lent, "R[L]", b"");
    assert_eq!(got(lent, "R[L]", ""), (number, place, vec![]));
    assert!(number == 13 || (number, place) == (0, 0));
    place
}

/// "R and R[L] print the name if the entry exists and read either form, ignoring
/// case; other types stay TYPEnnn."
#[test]
fn names_both_ways() {
    let known = Catalogue::of(&[(1, "A"), (15, "MX"), (28, "aAaA"), (65_535, "TYPE")]);
    let lent = known.lent();
    assert_eq!(printed(lent, "R", &[0, 28]), (0, 4, "aAaA".into()));
    assert_eq!(printed(lent, "R", &[0, 29]), (0, 6, "TYPE29".into()));
    assert_eq!(printed(lent, "R[L]", &[0, 4, 0x40, 1, 0, 12]), (0, 16, "A MX aAaA TYPE29".into()));
    for text in ["aaaa", "AAAA", "AaAa", "TYPE28", "type0028"] {
        assert_eq!(got(lent, "R", text), (0, 2, vec![0, 28]), "{text}");
    }
    assert_eq!(got(lent, "R[L]", "mx TYPE1 a type15"), (0, 4, vec![0, 2, 0x40, 1]));
    for text in ["NS", "AA", "A.", "\\A", "'A'", "A,MX", "TYPE65536", "28"] {
        assert_eq!(got(lent, "R", text), (9, 1, vec![]), "{text}");
    }
    assert_eq!(got(lent, "R", "type"), (0, 2, vec![255, 255]));
}

/// "strictly rising by number within 0 to 65,535 […] Names follow the header's
/// name rule; ignoring case, they are distinct and none is `TYPE` and one or more
/// digits."
#[test]
fn bad_entries() {
    let good: Vec<(u32, String)> =
        (0..ENTRY_LIMIT as u32).map(|number| (number, format!("t{number}"))).collect();
    let long = "n".repeat(64);
    for index in [0, 1, 255, 510, 511] {
        assert_eq!(fault(Catalogue::of(&good).lent()), 0);
        for name in ["", "1", "-", "a_", "a.", "TYPE1", "type00000000000", "Ä", &long] {
            let mut bad = good.clone();
            bad[index].1 = name.into();
            assert_eq!(fault(Catalogue::of(&bad).lent()), index as u64 + 1, "{name}");
        }
        for name in ["a", "a-", "TYPE", "TYPE1x", "TYPE-1", "xTYPE1", &long[1..]] {
            let mut other = good.clone();
            other[index].1 = name.into();
            assert_eq!(fault(Catalogue::of(&other).lent()), 0, "{name}");
        }
        for number in [65_536, u32::MAX] {
            let mut bad = good.clone();
            bad[index].0 = number;
            assert_eq!(fault(Catalogue::of(&bad).lent()), index as u64 + 1, "{number}");
        }
        let mut twice = good.clone();
        twice[index].1 = twice[300].1.to_uppercase();
        assert_eq!(fault(Catalogue::of(&twice).lent()), index.max(300) as u64 + 1);
        let mut level = good.clone();
        level[index.max(1)].0 -= 1;
        assert_eq!(fault(Catalogue::of(&level).lent()), index.max(1) as u64 + 1);
    }
}

/// "or a 513th"
#[test]
fn too_many_entries() {
    for (count, expected) in [(511, 0), (512, 0), (513, 513), (600, 513)] {
        let listed: Vec<(u32, String)> = (0..count).map(|number| (number, format!("t{number}"))).collect();
        assert_eq!(fault(Catalogue::of(&listed).lent()), expected);
    }
}

/// "where its name lies in a lent text": parts may overlap, and end with the text.
#[test]
fn places() {
    let entry = |number, start, length| Entry { number, start, length };
    for (entries, names, expected) in [
        (vec![entry(1, 0, 3), entry(2, 1, 2), entry(3, 2, 1), entry(4, 0, 1)], "abc".to_string(), 0),
        (vec![entry(1, 2, 1), entry(2, 2, 2)], "abc".into(), 2),
        (vec![entry(1, 3, 0)], "abc".into(), 1),
        (vec![entry(1, 3, 1)], "abc".into(), 1),
        (vec![entry(1, 65_535, 63)], "a".repeat(65_598), 0),
        (vec![entry(1, 65_535, 63)], "a".repeat(65_597), 1),
        (vec![entry(1, 65_535, 65_535)], "a".repeat(65_598), 1),
        (vec![], "?".into(), 0),
    ] {
        assert_eq!(fault(Lent { entries: &entries, names: names.as_bytes() }), expected);
    }
}

/// "13 […] after 7 (after 6 when printing)", whatever fields there are.
#[test]
fn order() {
    let bad = Catalogue::of(&[(1, "?")]);
    let number = |stanza: &[u8], first, origin, text: &[u8], rdata| {
        let read = read_with(bad.lent(), stanza, first, 1, origin, text, 0);
        let printed = print_with(bad.lent(), stanza, first, 1, rdata, 0);
        (read.number, printed.number)
    };
    let long = vec![b' '; 1_048_577];
    let octets = vec![0; 65_536];
    assert_eq!(number(b"T:1\n I1\n", 1, ROOT, b"x y", b""), (13, 13));
    assert_eq!(number(b"T:1\n I1\n", 1, b"", b"x y", b""), (7, 13));
    assert_eq!(number(b"T:1\n I1\n", 2, b"", b"x y", b""), (6, 6));
    assert_eq!(number(b"T:1\n Z\n", 2, b"", b"x y", b""), (3, 3));
    assert_eq!(number(b"T:1\n Z\n", 2, b"", &long, &octets), (1, 1));
}

fn octets(word: &str) -> Vec<u8> {
    if word == "-" {
        return Vec::new();
    }
    (0..word.len()).step_by(2).map(|i| u8::from_str_radix(&word[i..i + 2], 16).unwrap()).collect()
}

/// A generated request to print or to read.
struct Request {
    lent: Catalogue,
    stanza: Vec<u8>,
    first: u64,
    length: u64,
    /// The RDATA alone, or the origin and the text.
    input: Vec<Vec<u8>>,
}

impl Request {
    /// None where it is one to judge.
    fn of(line: &[u8]) -> Option<Self> {
        let words: Vec<&str> = std::str::from_utf8(line).unwrap().split(' ').collect();
        let [action, stanza, first, length, catalogue, names, ref input @ .., _] = words[..] else {
            assert_eq!(words[0], "JC");
            return None;
        };
        assert!(["PC", "RC"].contains(&action));
        let entries = octets(catalogue)
            .chunks(8)
            .map(|entry| Entry {
                number: u32::from_be_bytes(entry[..4].try_into().unwrap()),
                start: u16::from_be_bytes(entry[4..6].try_into().unwrap()),
                length: u16::from_be_bytes(entry[6..].try_into().unwrap()),
            })
            .collect();
        Some(Request {
            lent: Catalogue { entries, names: octets(names) },
            stanza: octets(stanza),
            first: first.parse().unwrap(),
            length: length.parse().unwrap(),
            input: input.iter().map(|word| octets(word)).collect(),
        })
    }

    fn answer(&self, lent: Lent) -> Answer {
        let Request { stanza, first, length, input, .. } = self;
        match &input[..] {
            [rdata] => print_with(lent, stanza, *first, *length, rdata, MUCH),
            [origin, text] => read_with(lent, stanza, *first, *length, origin, text, MUCH),
            _ => panic!("a request"),
        }
    }

    fn answer_without(&self) -> Answer {
        let Request { stanza, first, length, input, .. } = self;
        match &input[..] {
            [rdata] => print(stanza, *first, *length, rdata, MUCH),
            [origin, text] => read(stanza, *first, *length, origin, text, MUCH),
            _ => panic!("a request"),
        }
    }
}

fn requests(count: u64, seed: u64) -> impl Iterator<Item = Request> {
    generate::catalogue_requests(count, seed).filter_map(|line| Request::of(&line))
}

/// "Demands 2 and 3 hold with the same catalogue on both sides": what is printed
/// reads back, in any case of the catalogue's names, and room is as it was.
#[test]
fn what_prints_reads_back() {
    let mut named = 0;
    for request in requests(8_000, 1) {
        let answer = request.answer(request.lent.lent());
        if answer.number != 0 {
            continue;
        }
        let rdata = if request.input.len() == 1 { &request.input[0] } else { &answer.octets };
        let Request { stanza, first, length, .. } = &request;
        let text = print_with(request.lent.lent(), stanza, *first, *length, rdata, MUCH).octets;
        let back = read_with(request.lent.lent(), stanza, *first, *length, ROOT, &text, rdata.len() as u64);
        assert_eq!((back.number, &back.octets), (0, rdata));
        if let Some(room) = (text.len() as u64).checked_sub(1) {
            let short = print_with(request.lent.lent(), stanza, *first, *length, rdata, room);
            assert_eq!((short.number, short.place), (12, room + 1));
        }
        named += u32::from(text != print(stanza, *first, *length, rdata, MUCH).octets);
    }
    assert!(named > 1_000, "{named}");
}

/// Demand 3: at most one division, and its texts joined are the whole.
#[test]
fn every_cut() {
    let mut accepted = 0;
    for Request { lent, stanza, input, .. } in requests(3_000, 2).filter(|request| request.input.len() == 1) {
        let (rdata, (number, count)) = (&input[0], judge(&stanza));
        let whole = print_with(lent.lent(), &stanza, 1, count, rdata, MUCH);
        if number != 0 || whole.number == 13 || rdata.len() > 60 {
            continue;
        }
        accepted += u32::from(whole.number == 0);
        for cut in 0..=count {
            let mut texts = Vec::new();
            for place in 0..=rdata.len() {
                let (front, back) = rdata.split_at(place);
                let front = print_with(lent.lent(), &stanza, 1, cut, front, MUCH);
                let back = print_with(lent.lent(), &stanza, cut + 1, count - cut, back, MUCH);
                if (front.number, back.number) == (0, 0) {
                    let both: Vec<&[u8]> = [&front.octets[..], &back.octets]
                        .into_iter()
                        .filter(|text| !text.is_empty())
                        .collect();
                    texts.push(both.join(&b' '));
                }
            }
            let expected = if whole.number == 0 { vec![whole.octets.clone()] } else { vec![] };
            assert_eq!(texts, expected);
        }
    }
    assert!(accepted > 400, "{accepted}");
}

/// "an empty catalogue gives the old answers", with or without a lent text.
#[test]
fn no_entries() {
    for request in requests(4_000, 3) {
        let old = request.answer_without();
        assert_eq!(request.answer(Lent::default()), old);
        assert_eq!(request.answer(Lent { entries: &[], names: &request.lent.names }), old);
    }
}

/// Every refusal, and about half accepted.
#[test]
fn generated() {
    let mut numbers = BTreeMap::new();
    for line in generate::catalogue_requests(20_000, 4) {
        let answer = String::from_utf8(probe::answer(&line)).unwrap();
        assert_ne!(answer, "?");
        let number: u64 = answer.split(' ').next().unwrap().parse().unwrap();
        *numbers.entry(number).or_insert(0u64) += 1;
    }
    for (number, least) in [(2, 100), (3, 30), (4, 30), (6, 300), (7, 100), (8, 300), (9, 500), (10, 100)] {
        assert!(numbers.get(&number).is_some_and(|&count| count >= least), "{number}: {numbers:?}");
    }
    assert!(
        numbers[&12] > 500 && numbers[&13] > 2_000 && (8_000..12_000).contains(&numbers[&0]),
        "{numbers:?}"
    );
    assert!(generate::catalogue_requests(200, 9).eq(generate::catalogue_requests(300, 9).take(200)));
    assert!(!generate::catalogue_requests(200, 9).eq(generate::catalogue_requests(200, 10)));
}

#[test]
fn the_protocol() {
    let answer = |line: &str| String::from_utf8(probe::answer(line.as_bytes())).unwrap();
    assert_eq!(answer("JC 543A310A2049310A"), "0 1");
    assert_eq!(answer("PC 543A310A20520A 1 1 0000000F00000002 4D58 000F 2"), "0 2 4D58");
    assert_eq!(answer("RC 543A310A20520A 1 1 0000000F00000002 4D58 00 6d78 2"), "0 2 000F");
    for length in 1..8 {
        let tail = "00".repeat(length);
        for before in ["", "0000000F00000002"] {
            assert_eq!(answer(&format!("PC 543A310A20520A 1 1 {before}{tail} 4D58 000F 2")), "?");
            assert_eq!(answer(&format!("RC 543A310A20520A 1 1 {before}{tail} 4D58 00 6D78 2")), "?");
        }
    }
    for line in
        ["JC", "JC - -", "PC - 1 1 - - 5", "PC - 1 1 - - - 5 5", "RC - 1 1 - - - 5", "PC - 1 1 0 - - 5"]
    {
        assert_eq!(answer(line), "?", "{line}");
    }
}

/// The published names are a good catalogue, and those of the published
/// descriptions are among them.
#[test]
fn published_names() {
    let root = Path::new(env!("CARGO_MANIFEST_DIR"));
    let table = std::fs::read_to_string(root.join("../examples/types.tsv")).unwrap();
    let rows: Vec<(u32, &str)> = table
        .lines()
        .map(|row| row.split_once('\t').unwrap())
        .map(|(number, name)| (number.parse().unwrap(), name))
        .collect();
    let known = Catalogue::of(&rows);
    assert_eq!(fault(known.lent()), 0);
    let stanzas = std::fs::read_to_string(root.join("tests/data/stanzas.txt")).unwrap();
    let headers: Vec<&str> =
        stanzas.lines().filter(|line| !line.is_empty() && !line.starts_with(' ')).collect();
    for header in &headers {
        let mut words = header.split(':');
        let (name, number) = (words.next().unwrap(), words.next().unwrap());
        let number: u16 = number.split(' ').next().unwrap().parse().unwrap();
        assert_eq!(printed(known.lent(), "R", &number.to_be_bytes()), (0, name.len() as u64, name.into()));
        assert_eq!(got(known.lent(), "R", &name.to_lowercase()), (0, 2, number.to_be_bytes().into()));
    }
    assert_eq!((headers.len(), rows.len()), (65, 69));
}
