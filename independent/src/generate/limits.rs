//! Requests at the limits of size.

use crate::probe::{print_request, read_request};

/// Each of the large requests.
pub fn limit_requests() -> impl Iterator<Item = Vec<u8>> {
    texts().chain(rdata()).chain(results()).chain(type_lists()).chain(names()).chain(many_fields())
}

const ROOT: &[u8] = b"\0";
const MUCH: u64 = u64::MAX;

fn one(field: &str) -> Vec<u8> {
    format!("T:1\n {field}\n").into_bytes()
}

/// Text of 1,048,576 octets in many forms, of one octet less and one more in a
/// few.
fn texts() -> impl Iterator<Item = Vec<u8>> {
    [1_048_575, 1_048_576, 1_048_577].into_iter().flat_map(|length: usize| {
        let blanks = vec![b' '; length];
        let mut first = blanks.clone();
        first[0] = b'7';
        let mut requests = vec![
            read_request(&one("I1"), 1, 1, ROOT, &first, MUCH),
            read_request(b"!", 0, 9, b"", &blanks, 0),
        ];
        if length == 1_048_576 {
            let mut last = vec![b'\t'; length];
            last[length - 1] = b'7';
            let open = [b"'".as_slice(), &b"\\".repeat(length - 1)].concat();
            let mut types = b"TYPE1 ".repeat(length / 6 + 1);
            types.truncate(length);
            requests.extend([
                read_request(&one("R[L]"), 1, 0, ROOT, &blanks, 0),
                read_request(&one("I1"), 1, 1, ROOT, &last, MUCH),
                read_request(&one("I1"), 1, 1, ROOT, &b"7".repeat(length), MUCH),
                read_request(&one("N"), 1, 1, ROOT, &b"a".repeat(length), MUCH),
                read_request(&one("N"), 1, 1, ROOT, &b"a.".repeat(length / 2), MUCH),
                read_request(&one("AAAA"), 1, 1, ROOT, &b"1:".repeat(length / 2), MUCH),
                read_request(&one("S"), 1, 1, ROOT, &open, MUCH),
                read_request(&one("S[X]"), 1, 1, ROOT, &b"s".repeat(length), MUCH),
                read_request(&one("S[M]"), 1, 1, ROOT, &b"s ".repeat(length / 2), 0),
                read_request(&one("X"), 1, 1, ROOT, &b"a ".repeat(length / 2), MUCH),
                read_request(&one("B64"), 1, 1, ROOT, &b"A".repeat(length), MUCH),
                read_request(&one("R[L]"), 1, 1, ROOT, &types, MUCH),
            ]);
        }
        requests
    })
}

/// RDATA of 65,534 to 65,536 octets.
fn rdata() -> impl Iterator<Item = Vec<u8>> {
    [65_534, 65_535, 65_536].into_iter().flat_map(|length: usize| {
        let zeros = vec![0; length];
        let full: Vec<u8> = (0..length).map(|index| (index % 251) as u8).collect();
        let mut requests = Vec::new();
        for field in ["X", "B64", "S[X]", "S[M]", "N[O]", "R[L]", "I4", "S", "X[C]"] {
            requests.push(print_request(&one(field), 1, 1, &zeros, MUCH));
            requests.push(print_request(&one(field), 1, 1, &full, MUCH));
        }
        // Just enough room and one octet short: hex takes two digits an octet.
        let needed = 2 * length as u64;
        requests.push(print_request(&one("X"), 1, 1, &full, needed));
        requests.push(print_request(&one("X"), 1, 1, &full, needed - 1));
        requests.push(print_request(&one("S[X]"), 1, 1, &vec![0xFF; length], 4 * length as u64 + 2));
        requests.push(print_request(&one("S[X]"), 1, 1, &vec![0xFF; length], 4 * length as u64 + 1));
        requests.push(print_request(b"!", 0, 9, &zeros, 0));
        requests
    })
}

/// Results of 65,534 to 65,537 octets.
fn results() -> impl Iterator<Item = Vec<u8>> {
    [65_534, 65_535, 65_536, 65_537].into_iter().flat_map(|length: usize| {
        let mut base64 = Vec::new();
        crate::base::print_base64(&vec![0xA5; length], &mut base64);
        // Strings of no octets give one octet each.
        let empty = b"'' ".repeat(length);
        let mixed = [b"7 ".as_slice(), &b"c3".repeat(length - 1)].concat();
        let bad_end = [b"c3".repeat(length).as_slice(), b" '"].concat();
        let left_over = [b"s".repeat(length).as_slice(), b" x"].concat();
        let mut requests = Vec::new();
        for room in [MUCH, 65_535, length as u64, length as u64 - 1, 0] {
            requests.push(read_request(&one("X"), 1, 1, ROOT, &b"c3".repeat(length), room));
            requests.push(read_request(&one("S[X]"), 1, 1, ROOT, &b"s".repeat(length), room));
        }
        requests.push(read_request(&one("B64"), 1, 1, ROOT, &base64, MUCH));
        requests.push(read_request(&one("S[M]"), 1, 1, ROOT, &empty, MUCH));
        requests.push(read_request(b"T:1\n I1\n X\n", 1, 2, ROOT, &mixed, MUCH));
        requests.push(read_request(b"T:1\n I1\n X\n", 1, 2, ROOT, &mixed, 0));
        requests.push(read_request(&one("X"), 1, 1, ROOT, &bad_end, MUCH));
        requests.push(read_request(&one("S[X]"), 1, 1, ROOT, &left_over, MUCH));
        requests
    })
}

/// All 65,536 types, rising and falling, and their blocks.
fn type_lists() -> impl Iterator<Item = Vec<u8>> {
    let types: Vec<String> = (0..=65_535).map(|number| format!("TYPE{number}")).collect();
    let falling: Vec<&str> = types.iter().rev().map(String::as_str).collect();
    let over: Vec<&str> = types.iter().map(String::as_str).chain(["TYPE65536"]).collect();
    let rising = types.join(" ").into_bytes();
    let blocks: Vec<u8> = (0..=255u8).flat_map(|window| [&[window, 32][..], &[0xFF; 32]].concat()).collect();
    let length = rising.len() as u64;
    let mut extra = blocks.clone();
    extra.push(255);
    vec![
        read_request(&one("R[L]"), 1, 1, ROOT, &rising, MUCH),
        read_request(&one("R[L]"), 1, 1, ROOT, &rising, 8_704),
        read_request(&one("R[L]"), 1, 1, ROOT, &rising, 8_703),
        read_request(&one("R[L]"), 1, 1, ROOT, falling.join(" ").as_bytes(), MUCH),
        read_request(&one("R[L]"), 1, 1, ROOT, over.join(" ").as_bytes(), MUCH),
        print_request(&one("R[L]"), 1, 1, &blocks, length),
        print_request(&one("R[L]"), 1, 1, &blocks, length - 1),
        print_request(&one("R[L]"), 1, 1, &extra, MUCH),
        print_request(&one("R[L]"), 1, 1, &blocks[..blocks.len() - 1], MUCH),
    ]
    .into_iter()
}

/// Names of 254 to 257 octets, whole or through the origin.
fn names() -> impl Iterator<Item = Vec<u8>> {
    let wire = |lengths: &[usize]| {
        let mut name = Vec::new();
        for &length in lengths {
            name.push(length as u8);
            name.extend(b"o".repeat(length));
        }
        name.push(0);
        name
    };
    let mut requests = Vec::new();
    for last in 60..=63 {
        let name = wire(&[63, 63, 63, last]);
        requests.push(print_request(&one("N"), 1, 1, &name, MUCH));
        requests.push(print_request(&one("N[O]"), 1, 1, &name, MUCH));
        requests.push(read_request(&one("N"), 1, 1, &name, b"@", MUCH));
        requests.push(read_request(&one("N"), 1, 1, &name, b"a.", MUCH));
        requests.push(read_request(&one("N"), 1, 1, &name, b"a", MUCH));
        let origin = wire(&[63, 63, 63]);
        requests.push(read_request(&one("N"), 1, 1, &origin, &b"a".repeat(last), MUCH));
        requests.push(read_request(&one("N[O]"), 1, 1, &origin, &b"\\097".repeat(last), 255));
        let label = "a".repeat(63);
        for end in ["", "."] {
            let text = format!("{label}.{label}.{label}.{}{end}", "a".repeat(last));
            requests.push(read_request(&one("N"), 1, 1, ROOT, text.as_bytes(), MUCH));
            requests.push(read_request(&one("N"), 1, 1, b"\x01o\0", text.as_bytes(), MUCH));
        }
    }
    for labels in 125..=129 {
        let name = [b"\x01a".repeat(labels).as_slice(), ROOT].concat();
        requests.push(print_request(&one("N"), 1, 1, &name, MUCH));
        requests.push(read_request(&one("N"), 1, 1, &name, b"@", MUCH));
        requests.push(read_request(&one("N"), 1, 1, ROOT, &b"a.".repeat(labels), MUCH));
        requests.push(read_request(&one("N"), 1, 1, b"\x01o\0", &b"a.".repeat(labels)[1..], MUCH));
        requests.push(read_request(
            &one("N"),
            1,
            1,
            b"\x01o\0",
            &b"a.".repeat(labels)[..2 * labels - 1],
            MUCH,
        ));
    }
    requests.into_iter()
}

/// 64 fields of the largest fixed and counted kinds, in whole and in runs.
fn many_fields() -> impl Iterator<Item = Vec<u8>> {
    let stanza =
        |field: &str, count: usize| format!("T:1\n{}", format!(" {field}\n").repeat(count)).into_bytes();
    let string = [&[255u8][..], &[0xFF; 255]].concat();
    let mut requests = Vec::new();
    for count in [64, 65] {
        let n = count as u64;
        for (field, value, text) in [
            ("I1", vec![255], "255".to_string()),
            ("I4", vec![255; 4], "4294967295".to_string()),
            ("AAAA", vec![0; 16], "::".to_string()),
            ("S", string.clone(), format!("\"{}\"", "\\255".repeat(255))),
            ("X[C]", string.clone(), "FF".repeat(255)),
            ("N", b"\x01a".repeat(127).into_iter().chain([0]).collect(), "a.".repeat(127)),
        ] {
            let stanza = stanza(field, count);
            let rdata = value.repeat(count);
            let line = vec![text.as_str(); count].join(" ").into_bytes();
            requests.push(print_request(&stanza, 1, n, &rdata, MUCH));
            requests.push(print_request(&stanza, 1, n, &rdata[..rdata.len() - 1], MUCH));
            requests.push(print_request(&stanza, 1, n, &[&rdata[..], &[0]].concat(), MUCH));
            requests.push(print_request(&stanza, 2, n - 1, &rdata[value.len()..], MUCH));
            requests.push(print_request(&stanza, n, 1, &value, text.len() as u64));
            requests.push(print_request(&stanza, n + 1, 0, b"", 0));
            requests.push(print_request(&stanza, n + 1, 1, b"", 0));
            requests.push(print_request(&stanza, n + 2, 0, b"", 0));
            requests.push(read_request(&stanza, 1, n, ROOT, &line, MUCH));
            requests.push(read_request(&stanza, 1, n, ROOT, &line, rdata.len() as u64 - 1));
            requests.push(read_request(&stanza, 1, n - 1, ROOT, &line, MUCH));
            requests.push(read_request(&stanza, 1, n, ROOT, &line[..line.len() - text.len() - 1], MUCH));
        }
    }
    requests.into_iter()
}
