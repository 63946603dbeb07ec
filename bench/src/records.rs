//! Records to convert: a description, the text and the RDATA.

use std::collections::HashMap;

use crate::peers::{peers, Kept, Peer};

/// The published descriptions.
pub const STANZAS: &str = include_str!("../../independent/tests/data/stanzas.txt");
/// One record a line: type, text, RDATA in hex.
const CORPUS: &str = include_str!("../../independent/tests/data/corpus.tsv");
/// Records of the corpus have texts below 1,500 octets, or above 18,000.
const LONG: usize = 10_000;

pub struct Record {
    pub kind: &'static str,
    pub stanza: &'static [u8],
    /// How many fields the stanza has.
    pub fields: u64,
    pub text: Vec<u8>,
    pub rdata: Vec<u8>,
    /// As each of the peers keeps it, in their order.
    pub kept: Vec<Kept>,
}

impl Record {
    /// The stanza must be a good one. The peers keep nothing of it.
    pub fn new(kind: &'static str, stanza: &'static str, text: Vec<u8>, rdata: Vec<u8>) -> Self {
        let (number, fields) = independent::judge(stanza.as_bytes());
        assert_eq!(number, 0, "the stanza is refused: {stanza}");
        Record { kind, stanza: stanza.as_bytes(), fields, text, rdata, kept: Vec::new() }
    }

    fn keep(mut self, number: u16) -> Self {
        let keep = |peer: &Peer| peer.keep(self.kind, number, &self.rdata, &self.text);
        self.kept = peers().iter().map(keep).collect();
        self
    }
}

/// From a header, as `A:1:I a host address`.
fn type_number(stanza: &str) -> u16 {
    let word = stanza.split([':', ' ', '\n']).nth(1);
    word.and_then(|word| word.parse().ok()).expect("the header has a type number")
}

pub struct Corpus {
    pub short: Vec<Record>,
    pub long: Vec<Record>,
}

impl Corpus {
    pub fn new() -> Self {
        let name = |stanza: &'static str| stanza.split(':').next().unwrap_or("");
        let stanzas: HashMap<&str, &str> =
            STANZAS.split("\n\n").map(|stanza| (name(stanza), stanza)).collect();
        let mut corpus = Corpus { short: Vec::new(), long: Vec::new() };
        for line in CORPUS.lines() {
            let columns: Vec<&str> = line.split('\t').collect();
            let [kind, text, wire] = columns[..] else { panic!("three columns: {line}") };
            let list = if text.len() > LONG { &mut corpus.long } else { &mut corpus.short };
            let record = Record::new(kind, stanzas[kind], text.as_bytes().to_vec(), octets(wire));
            list.push(record.keep(type_number(stanzas[kind])));
        }
        corpus
    }
}

fn octets(hex: &str) -> Vec<u8> {
    let octet = |i| u8::from_str_radix(&hex[i..i + 2], 16).expect("the corpus has hex digits");
    (0..hex.len()).step_by(2).map(octet).collect()
}
