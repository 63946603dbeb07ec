//! P1 to P14, the lines that are only run, and document 02's request 1.

use independent::{job, judge, print, read};

const DOOR: &[u8] = b"DOOR:65280:I Door timing\n I2:opening Tenths\n I2:dwell Tenths\n \
I1[STEP=1,HOLD=2]:mode Mode\n N:site Site\n";
const LOBBY: &str = "001E004602056C6F626279076578616D706C6500";
const EXAMPLE: &[u8] = b"\x07example\0";

fn h(word: &str) -> Vec<u8> {
    (0..word.len()).step_by(2).map(|i| u8::from_str_radix(&word[i..i + 2], 16).unwrap()).collect()
}

fn one(field: &str) -> Vec<u8> {
    format!("T:1\n {field}\n").into_bytes()
}

/// Prints one field with much room.
fn printed(field: &str, rdata: &[u8]) -> (u8, u64, String) {
    let answer = print(&one(field), 1, 1, rdata, u64::MAX);
    (answer.number, answer.place, String::from_utf8(answer.octets).unwrap())
}

/// Reads one field under the root with much room.
fn got(field: &str, text: &[u8]) -> (u8, u64, Vec<u8>) {
    let answer = read(&one(field), 1, 1, b"\0", text, u64::MAX);
    (answer.number, answer.place, answer.octets)
}

fn both_ways(field: &str, rdata: &[u8], text: &str) {
    assert_eq!(printed(field, rdata), (0, text.len() as u64, text.to_string()), "{field}");
    assert_eq!(got(field, text.as_bytes()), (0, rdata.len() as u64, rdata.to_vec()), "{field}");
}

fn print_door(rdata: &[u8], room: u64) -> (u8, u64, String) {
    let answer = print(DOOR, 1, 4, rdata, room);
    (answer.number, answer.place, String::from_utf8(answer.octets).unwrap())
}

fn read_door(text: &[u8], room: u64) -> (u8, u64, Vec<u8>) {
    let answer = read(DOOR, 1, 4, EXAMPLE, text, room);
    (answer.number, answer.place, answer.octets)
}

#[test]
fn p1_to_p7() {
    let line = "30 70 HOLD lobby.example.";
    assert_eq!(judge(DOOR), (0, 4));
    assert_eq!(print_door(&h(LOBBY), 25), (0, 25, line.into()));
    assert_eq!(read_door(b"30 70 hold lobby", 20), (0, 20, h(LOBBY)));
    assert_eq!(read_door(b"30 HOLD lobby", 20), (9, 2, vec![]));
    assert_eq!(print_door(&h("001E00"), 25), (8, 2, "".into()));
    assert_eq!(print_door(&h("001E00460300"), 25), (0, 9, "30 70 3 .".into()));
    assert_eq!(print_door(&h(&format!("{LOBBY}00")), 25), (10, 5, "".into()));
    assert_eq!(print_door(&h(LOBBY), 24), (12, 25, "".into()));
}

#[test]
fn p8_to_p14() {
    both_ways("T", &[0xFF; 4], "21060207062815");
    assert_eq!(got("T", b"21060207062816"), (9, 1, vec![]));
    assert_eq!(got("T", b"20000229000000"), (0, 4, 951_782_400u32.to_be_bytes().to_vec()));
    both_ways("S", &h("0461225CFF"), "\"a\\\"\\\\\\255\"");
    both_ways("R[L]", &h("000440000008"), "TYPE1 TYPE28");
    assert_eq!(printed("R[L]", &h("00024000")), (9, 1, "".into()));
    both_ways("B32", &h("01FF"), "VS");
    assert_eq!(got("B32", b"VT"), (9, 1, vec![]));
    both_ways("AAAA", &[0; 16], "::");
}

#[test]
fn lines_that_are_only_run() {
    both_ways("S", &[0], "\"\"");
    both_ways("B64", &[0xFF], "/w==");
    let labels = |last: usize| {
        let mut name = Vec::new();
        for length in [63, 63, 63, last] {
            name.push(length as u8);
            name.extend(vec![b'a'; length]);
        }
        name.push(0);
        name
    };
    let text = |last: usize| {
        let label = "a".repeat(63);
        format!("{label}.{label}.{label}.{}.", "a".repeat(last))
    };
    assert_eq!(labels(61).len(), 255);
    both_ways("N", &labels(61), &text(61));
    assert_eq!(printed("N", &labels(62)), (9, 1, "".into()));
    assert_eq!(got("N", text(62).as_bytes()), (9, 1, vec![]));
    let fields = |count: usize| format!("T:1\n{}", " I1\n".repeat(count)).into_bytes();
    assert_eq!(judge(&fields(64)), (0, 64));
    assert_eq!(judge(&fields(65)), (5, 66));
    for text in ["19691231235959", "12345678901", "4294967296"] {
        assert_eq!(got("T", text.as_bytes()), (9, 1, vec![]), "{text}");
    }
}

#[test]
fn the_job_of_the_page() {
    let input = [b"5\n".as_slice(), DOOR, b"1\nexample.\n2\n30 70 HOLD lobby\n30 HOLD lobby\n"].concat();
    let output = format!("ok {LOBBY}\nno 9 2\n").into_bytes();
    assert_eq!(job(&input), output);
    assert_eq!(job(&input[..input.len() - 1]), output);
}

#[test]
fn no_run_overflows() {
    for (first, length) in [(u64::MAX, u64::MAX), (1, u64::MAX), (u64::MAX, 0), (2, u64::MAX)] {
        assert_eq!(print(DOOR, first, length, b"", u64::MAX).number, 6);
        assert_eq!(read(DOOR, first, length, b"\0", b"", u64::MAX).number, 6);
    }
}

/// "count 0 is accepted, prints `-`, and `-` reads back as count 0 [...] B32 keeps
/// its minimum of 1."
#[test]
fn no_salt() {
    both_ways("X[C]", &[0], "-");
    both_ways("X[C]", &[1, 0], "00");
    assert_eq!(printed("X[C]", &[]), (8, 1, "".into()));
    assert_eq!(printed("X[C]", &[1]), (8, 1, "".into()));
    assert_eq!(printed("X[C]", &[0, 0]), (10, 2, "".into()));
    assert_eq!(printed("B32", &[0]), (9, 1, "".into()));
    assert_eq!(got("B32", b"-"), (9, 1, vec![]));
    assert_eq!(got("X", b"-"), (9, 1, vec![]));
}

/// "`-` reads back as count 0", and no other token does. Blanks may be around it.
#[test]
fn only_a_dash_is_no_salt() {
    let mut empty = 0;
    for pair in 0..=u16::MAX {
        let text = pair.to_be_bytes();
        let token: Vec<u8> = text.into_iter().filter(|octet| !b" \t".contains(octet)).collect();
        let (number, _, octets) = got("X[C]", &text);
        assert_eq!(number == 0 && octets == [0], token == b"-", "{text:?}");
        empty += u32::from(octets == [0]);
    }
    assert_eq!(empty, 4);
}

/// Every bit of an R[L] field, both ways.
#[test]
fn all_types() {
    let mut rdata = Vec::new();
    for window in 0..=255u8 {
        rdata.extend([window, 32]);
        rdata.extend([0xFF; 32]);
    }
    let types: Vec<String> = (0..=65_535).map(|number| format!("TYPE{number}")).collect();
    both_ways("R[L]", &rdata, &types.join(" "));
}

/// Each day from 1970 to 2106 by counting on from the day before.
#[test]
fn every_day() {
    let (mut year, mut month, mut day) = (1970u32, 1u32, 1u32);
    for count in 0..=(u32::MAX / 86_400) {
        let text = format!("{year:04}{month:02}{day:02}000000");
        both_ways("T", &(count * 86_400).to_be_bytes(), &text);
        let leap = year % 4 == 0 && year != 2100;
        let days = [31, 28 + leap as u32, 31, 30, 31, 30, 31, 31, 30, 31, 30, 31];
        day += 1;
        if day > days[month as usize - 1] {
            assert_eq!(got("T", format!("{year:04}{month:02}{day:02}000000").as_bytes()).0, 9);
            (day, month) = (1, month + 1);
        }
        if month > 12 {
            assert_eq!(got("T", format!("{year:04}1301000000").as_bytes()).0, 9);
            (month, year) = (1, year + 1);
        }
    }
    assert_eq!((year, month, day), (2106, 2, 8));
}
