//! What the generators promise: every refusal and every kind of field, about
//! half the requests accepted, the same requests for the same seed.

use std::collections::{BTreeMap, BTreeSet};

use independent::{generate, job, judge, probe};

/// Answers by number, and the number of lines over 600 octets.
fn tally(lines: impl Iterator<Item = Vec<u8>>) -> (BTreeMap<u64, u64>, u64) {
    let mut numbers = BTreeMap::new();
    let mut long = 0;
    for line in lines {
        long += u64::from(line.len() > 600);
        let answer = String::from_utf8(probe::answer(&line)).unwrap();
        assert_ne!(answer, "?");
        let number = answer.split(' ').next().unwrap().parse().unwrap();
        *numbers.entry(number).or_insert(0) += 1;
    }
    (numbers, long)
}

fn has(numbers: &BTreeMap<u64, u64>, wanted: &[(u64, u64)]) {
    for &(number, least) in wanted {
        let count = numbers.get(&number).copied().unwrap_or(0);
        assert!(count >= least, "{number} given {count} times: {numbers:?}");
    }
    let accepted = numbers[&0] * 100 / numbers.values().sum::<u64>();
    assert!((40..=60).contains(&accepted), "{accepted} of a hundred accepted");
}

#[test]
fn judging() {
    let (numbers, _) = tally(generate::judge_requests(10_000, 1));
    has(&numbers, &[(1, 20), (2, 1_000), (3, 300), (4, 300), (5, 50)]);
}

#[test]
fn printing() {
    let (numbers, long) = tally(generate::print_requests(10_000, 2));
    let wanted =
        [(1, 10), (2, 50), (3, 50), (4, 50), (5, 2), (6, 100), (8, 500), (9, 300), (10, 300), (12, 300)];
    has(&numbers, &wanted);
    assert!(long < 1_000);
}

#[test]
fn reading() {
    let (numbers, long) = tally(generate::read_requests(10_000, 3));
    let wanted = [
        (1, 10),
        (2, 50),
        (3, 50),
        (4, 50),
        (5, 2),
        (6, 100),
        (7, 100),
        (8, 100),
        (9, 1_000),
        (10, 200),
        (11, 2),
        (12, 300),
    ];
    has(&numbers, &wanted);
    assert!(long < 1_000);
}

fn octets(word: &str) -> Vec<u8> {
    if word == "-" {
        return Vec::new();
    }
    (0..word.len()).step_by(2).map(|i| u8::from_str_radix(&word[i..i + 2], 16).unwrap()).collect()
}

/// The types of a stanza's fields, with their qualifiers.
fn types(stanza: &[u8]) -> Vec<String> {
    let lines = stanza.split(|&octet| octet == b'\n').map(String::from_utf8_lossy);
    lines
        .filter(|line| line.starts_with([' ', '\t']))
        .map(|line| line.trim_start().split([':', ' ', '\t']).next().unwrap().to_string())
        .filter(|word| !word.is_empty() && !word.starts_with('#'))
        .collect()
}

/// The requests about X[C], to print or to read, each with the types of its run
/// and the RDATA or text.
fn salt_requests(
    count: u64,
    seed: u64,
    action: &'static str,
) -> impl Iterator<Item = (Vec<u8>, Vec<String>, Vec<u8>)> {
    generate::salt_requests(count, seed).filter_map(move |line| {
        let text = String::from_utf8(line.clone()).unwrap();
        let words: Vec<&str> = text.split(' ').collect();
        let [first, length] = [words[2], words[3]].map(|word| word.parse::<usize>().unwrap());
        let run = types(&octets(words[1])).into_iter().skip(first.saturating_sub(1)).take(length).collect();
        (words[0] == action).then(|| (line, run, octets(words[words.len() - 2])))
    })
}

#[test]
fn salts() {
    for (action, origins) in [("P", 0), ("R", 50)] {
        let (numbers, long) = tally(salt_requests(20_000, 1, action).map(|(line, _, _)| line));
        assert_eq!(numbers.values().sum::<u64>(), 10_000);
        has(&numbers, &[(6, 100), (7, origins), (8, 200), (9, 500), (10, 200), (12, 500)]);
        assert!(long < 1_000);
    }
}

/// Every refusal that there is with a stored description, judging apart from
/// converting, and a few lines as long as one may be.
#[test]
fn stored() {
    let only = |letter: u8| generate::stored_requests(30_000, 17).filter(move |line| line[0] == letter);
    let (numbers, _) = tally(only(b'J'));
    has(&numbers, &[(1, 20), (2, 800), (3, 100), (4, 100), (5, 10), (8, 200), (14, 200), (16, 100)]);
    let described = [(1, 20), (2, 150), (3, 50), (4, 50), (6, 100), (14, 80), (16, 100)];
    for (letter, more) in [
        (b'P', &[(8, 500), (9, 300), (10, 300), (12, 300)][..]),
        (b'R', &[(7, 100), (8, 100), (9, 1_000), (10, 200), (12, 300)]),
    ] {
        let (numbers, long) = tally(only(letter));
        has(&numbers, &[&described, more].concat());
        assert!(long < 1_000, "{long}");
    }
}

/// One or more X[C] among 1 to 6 fields of every kind.
#[test]
fn salt_stanzas() {
    let mut seen = BTreeMap::new();
    for line in generate::salt_requests(10_000, 7) {
        let line = String::from_utf8(line).unwrap();
        let stanza = octets(line.split(' ').nth(1).unwrap());
        let types = types(&stanza);
        assert_eq!(judge(&stanza), (0, types.len() as u64));
        assert!((1..=6).contains(&types.len()) && types.contains(&"X[C]".to_string()), "{types:?}");
        for word in types {
            let kind = word.split_once('=').map_or(word.as_str(), |_| &word[..3]);
            *seen.entry(kind.to_string()).or_insert(0) += 1;
        }
    }
    for kind in [
        "I1", "I2", "I4", "I1[", "I2[", "I4[", "R", "R[L]", "A", "AA", "AAAA", "N", "N[C]", "N[O]", "S",
        "S[M]", "S[X]", "B32", "B64", "X", "T", "EUI48", "EUI64", "X6", "X8",
    ] {
        assert!(seen.get(kind).is_some_and(|&count| count >= 50), "{kind}: {seen:?}");
    }
}

/// About half of the salts are empty, seen at the first field of the run.
#[test]
fn empty_salts() {
    for (action, empty) in [("P", b'\0'), ("R", b'-')] {
        let (mut all, mut found) = (0, 0);
        for (_, run, input) in salt_requests(20_000, 8, action) {
            let first = run.first().is_some_and(|word| word == "X[C]");
            let mut tokens = input.split(|octet| b" \t".contains(octet)).filter(|token| !token.is_empty());
            let start = if action == "P" { input.get(..1) } else { tokens.next() };
            all += u32::from(first && start.is_some());
            found += u32::from(first && start == Some(&[empty]));
        }
        assert!(all > 2_000 && (45..=55).contains(&(found * 100 / all)), "{action}: {found} of {all}");
    }
}

/// Every token that is only near to `-` occurs in X[C], and `-` in fields that do
/// not take it: each is refused at its field, here the last of the run.
#[test]
fn other_dashes() {
    let mut refused = BTreeSet::new();
    for (line, run, text) in salt_requests(40_000, 9, "R") {
        let text = String::from_utf8_lossy(&text);
        let tokens: Vec<&str> = text.split([' ', '\t']).filter(|token| !token.is_empty()).collect();
        let nine = format!("9 {} -", run.len()).into_bytes();
        if !run.is_empty() && run.len() == tokens.len() && probe::answer(&line) == nine {
            refused.insert(format!("{} {}", run[run.len() - 1], tokens[tokens.len() - 1]));
        }
    }
    for wanted in [
        "X[C] --", "X[C] -A", "X[C] A-", "X[C] -AB", "X[C] \\-", "X[C] \"-\"", "X[C] '-'", "X -", "B32 -",
        "B64 -", "I1 -", "T -",
    ] {
        assert!(refused.contains(wanted), "{wanted}");
    }
}

/// Each type with each qualifier it can have, in accepted and in refused
/// requests.
#[test]
fn kinds() {
    let kinds = [
        "I1", "I2", "I4", "I1[", "I2[", "I4[", "R", "R[L]", "A", "AA", "AAAA", "N", "N[C", "N[A", "N[L",
        "N[O", "O]", "S", "S[M]", "S[X]", "B32", "B64", "X", "X[C]", "T", "EUI48", "EUI64", "X6", "X8",
    ];
    for lines in [
        generate::print_requests(10_000, 4).collect::<Vec<_>>(),
        generate::read_requests(10_000, 5).collect::<Vec<_>>(),
    ] {
        let mut counts: BTreeMap<(&str, bool), u64> = BTreeMap::new();
        for line in lines {
            let accepted = probe::answer(&line).starts_with(b"0 ");
            let text = String::from_utf8(line).unwrap();
            let stanza = text.split(' ').nth(1).unwrap();
            let stanza: Vec<u8> = (0..stanza.len() / 2)
                .map(|i| u8::from_str_radix(&stanza[2 * i..2 * i + 2], 16).unwrap())
                .collect();
            for line in stanza.split(|&octet| octet == b'\n') {
                let line = String::from_utf8_lossy(line);
                let field = line.trim_start();
                if field.len() == line.len() {
                    continue;
                }
                for kind in kinds {
                    let open = kind.contains('[') && !kind.contains(']');
                    let after = field.strip_prefix(kind);
                    let found = match kind {
                        "O]" => field.starts_with("N[") && field.contains("O]"),
                        _ if open => after.is_some(),
                        _ => {
                            after.is_some_and(|after| after.is_empty() || after.starts_with([':', ' ', '\t']))
                        }
                    };
                    if found {
                        *counts.entry((kind, accepted)).or_insert(0) += 1;
                    }
                }
            }
        }
        for kind in kinds {
            for accepted in [false, true] {
                let count = counts.get(&(kind, accepted)).copied().unwrap_or(0);
                assert!(count >= 50, "{kind} {accepted}: {count}");
            }
        }
    }
}

#[test]
fn the_same_seed_gives_the_same() {
    assert!(generate::read_requests(200, 9).eq(generate::read_requests(200, 9)));
    assert!(generate::print_requests(200, 9).eq(generate::print_requests(200, 9)));
    assert!(!generate::print_requests(200, 9).eq(generate::print_requests(200, 10)));
    assert!(generate::judge_requests(200, 9).eq(generate::judge_requests(200, 9)));
    assert!(generate::salt_requests(200, 9).eq(generate::salt_requests(300, 9).take(200)));
    assert!(!generate::salt_requests(200, 9).eq(generate::salt_requests(200, 10)));
    assert!(generate::stored_requests(200, 9).eq(generate::stored_requests(300, 9).take(200)));
    assert!(!generate::stored_requests(200, 9).eq(generate::stored_requests(200, 10)));
    assert_eq!(generate::job(9, 3), generate::job(9, 3));
}

#[test]
fn jobs() {
    let (mut bad, mut ok, mut no) = (0, 0, 0);
    for index in 0..2_000 {
        let output = job(&generate::job(6, index));
        if output == b"bad job\n" {
            bad += 1;
            continue;
        }
        for line in output.split(|&octet| octet == b'\n').filter(|line| !line.is_empty()) {
            match &line[..2] {
                b"ok" => ok += 1,
                b"no" => no += 1,
                _ => panic!("{line:?}"),
            }
        }
    }
    assert!(bad > 300 && ok > 800 && no > 800, "{bad} {ok} {no}");
}

#[test]
fn limits() {
    let mut numbers = BTreeMap::new();
    for line in generate::limit_requests() {
        assert!(line.len() <= probe::LINE_LIMIT);
        let answer = probe::answer(&line);
        let number = answer.iter().take_while(|octet| octet.is_ascii_digit()).count();
        *numbers.entry(answer[..number].to_vec()).or_insert(0) += 1;
    }
    for wanted in ["0", "1", "5", "6", "7", "8", "9", "10", "11", "12"] {
        assert!(numbers[wanted.as_bytes()] > 0);
    }
}

#[test]
fn no_request() {
    for line in [
        "", " ", "J", "J ", "J  -", "J 0", "J 0G", "J - -", "j -", "P - 1 1 -", "P - 1 1 - 0 0",
        "P - +1 1 - 0", "P - 1 1 - 18446744073709551616", "R - 1 1 - -", "R - 1 1 - - ", "X", "J -\r",
        " J -", "P - 1 x - 0",
    ] {
        assert_eq!(probe::answer(line.as_bytes()), b"?", "{line:?}");
    }
    assert_eq!(probe::answer(b"J -"), b"2 0");
    assert_eq!(probe::answer(b"J 543a310a2049310a"), b"0 1");
    assert_eq!(probe::answer(b"P 543A310A2049310A 1 1 07 18446744073709551615"), b"0 1 37");
    assert_eq!(probe::answer(b"R 543A310A2049310A 1 0 00 - 0"), b"0 0 -");
}
