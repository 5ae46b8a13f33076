//! The Rust and the port on damaged copies of the lists' texts and on generated texts, as a seed fixes them.
use crate::damage::damaged;
use crate::generate::Generator;
use crate::random::Random;
use crate::{difference, places, port};
use oracle::{Gate, Record, answer, record_text};

#[rustfmt::skip]
const CALLS: &[&str] = &[
    "check_doctype", "check_doctype", "check_doctype", "check_doctype", "scan", "scan", "check_declaration",
    "check_chars", "check_text", "check_attr_value", "check_char_refs", "check_name", "is_ncname", "utf8",
    "check_document", "check_document", "check_document", "check_document", "check_document",
    "check_doctype_fifth", "check_doctype_fifth", "check_doctype_fifth", "check_name_fifth",
    "check_document_fifth", "check_document_fifth", "check_document_fifth",
];
/// What the left call accepts the right one has to accept: each name of Appendix B is one of the fifth edition.
const WIDER: &[(&str, &str)] = &[
    ("check_name", "check_name_fifth"),
    ("check_doctype", "check_doctype_fifth"),
    ("check_document", "check_document_fifth"),
];
const GATE_CALLS: &[&str] = &[
    "decl", "decl", "doctype0", "doctype0", "doctype0", "doctype1", "doctype2",
];

/// The lists' texts by what they were written for.
#[derive(Default)]
pub struct Samples {
    kinds: [Vec<Vec<u8>>; 5],
}

impl Samples {
    pub fn add(&mut self, call: &str, text: Vec<u8>) {
        self.kinds[kind(call)].push(text);
    }
}

/// The kind of whole documents.
const DOCUMENTS: usize = 3;

fn kind(call: &str) -> usize {
    let call = call.strip_suffix("_at").unwrap_or(call);
    match call.strip_suffix("_fifth").unwrap_or(call) {
        "check_doctype" | "scan" | "doctype0" | "doctype1" | "doctype2" => 0,
        "check_declaration" | "decl" => 1,
        "check_name" | "is_ncname" | "name_part" => 2,
        "check_document" => DOCUMENTS,
        _ => 4,
    }
}

/// How many calls were made and how many of them differ.
pub fn run(seed: u64, count: u64, samples: &Samples) -> (u64, u64) {
    let mut random = Random::new(seed);
    let (mut made, mut differ) = (0, 0);
    while made < count {
        let (calls, differences) = if random.once_in(5) {
            gate(&mut random, samples)
        } else if random.once_in(400) {
            cuts(&mut random, samples)
        } else {
            (1, single(&mut random, samples))
        };
        made += calls;
        differ += differences;
    }
    (made, differ)
}

/// Half of the texts are generated and half are those of the lists; a third of them stay whole.
fn text(random: &mut Random, call: &str, samples: &Samples) -> Vec<u8> {
    let alike = &samples.kinds[kind(call)];
    let whole = if alike.is_empty() || random.once_in(2) {
        let fifth = call.ends_with("_fifth");
        let mut generator = Generator { random, fifth };
        match kind(call) {
            DOCUMENTS => generator.document(),
            _ => generator.text(call).into_bytes(),
        }
    } else {
        alike[random.below(alike.len())].clone()
    };
    if random.once_in(3) {
        return whole;
    }
    let any = &samples.kinds[random.below(samples.kinds.len())];
    let other = if any.is_empty() {
        &whole
    } else {
        &any[random.below(any.len())]
    };
    damaged(random, &whole, other)
}

fn single(random: &mut Random, samples: &Samples) -> u64 {
    let call = random.one(CALLS);
    let mut text = text(random, call, samples);
    if kind(call) == DOCUMENTS && random.once_in(4) {
        text.truncate(random.below(text.len() + 1));
    }
    differs(call, &text)
}

/// A document whole and cut at every byte.
fn cuts(random: &mut Random, samples: &Samples) -> (u64, u64) {
    let call = random.one(&["check_document", "check_document", "check_document_fifth"]);
    let mut text = text(random, call, samples);
    text.truncate(500);
    let whole = answer(call, &text).unwrap();
    let mut differences = 0;
    for end in 0..=text.len() {
        let begun = answer(call, &text[..end]).unwrap();
        assert!(stands(&begun, &whole, end), "{begun} but {whole}: {text:?}");
        differences += differs(call, &text[..end]);
    }
    (text.len() as u64 + 1, differences)
}

/// What the reference refuses of a beginning it has to refuse of the whole, but for a refusal at the beginning's end, where a character
/// may be cut, and for a first byte 0, which may begin UTF-16 or UTF-32.
fn stands(begun: &str, whole: &str, end: usize) -> bool {
    let place = begun.split(['@', ':']).nth(1).unwrap();
    begun == whole || place.parse::<usize>().unwrap() + 3 >= end || begun.starts_with("18@0:")
}

fn differs(call: &str, text: &[u8]) -> u64 {
    let (wanted, given) = (
        answer(call, text).unwrap(),
        port::answer(call, text).unwrap(),
    );
    if wanted != given {
        difference(call, &wanted, &given, text, usize::MAX);
        return 1;
    }
    if let Some(given) = places::fault(call, &wanted, text) {
        difference(call, &wanted, &given, text, usize::MAX);
        return 1;
    }
    narrower(call, text)
}

/// 1 where the port refuses by the fifth edition's names what it accepts by Appendix B's. Asked of a call that is there for both.
fn narrower(call: &str, text: &[u8]) -> u64 {
    let asked = |pair: &&(&str, &str)| call == pair.0 || call == pair.1;
    let Some((plain, fifth)) = WIDER.iter().find(asked) else {
        return 0;
    };
    let told = |call: &str| port::answer(call, text).unwrap();
    let accepts = |told: &str| told.split('@').next() == Some("0");
    let given = told(fifth);
    if accepts(&given) || !accepts(&told(plain)) {
        return 0;
    }
    let given = format!("{given} by {fifth}");
    difference(plain, "0", &given, text, usize::MAX);
    1
}

/// One to six calls on a record that begins anywhere, and often where a document begins.
fn gate(random: &mut Random, samples: &Samples) -> (u64, u64) {
    let mut record = Record::default();
    if random.once_in(3) {
        let refused = [0, 1, 65_534, 65_535, random.below(65_536) as u16][random.below(5)];
        record = Record {
            started: random.once_in(2),
            seen: random.once_in(2),
            open: random.once_in(2),
            refused,
        };
    }
    let (mut rust, mut port) = (Gate::new(record), port::Gate::new(record));
    let calls = 1 + random.below(6) as u64;
    for k in 0..calls {
        let call = random.one(GATE_CALLS);
        let text = text(random, call, samples);
        let before = rust.record();
        let number = rust.answer(call, &text).unwrap();
        let (wanted, given) = (
            record_text(number, &rust.record()),
            port.answer(call, &text).unwrap(),
        );
        if wanted != given {
            let call = format!("{call} on {before:?}");
            difference(&call, &wanted, &given, &text, usize::MAX);
            return (k + 1, 1);
        }
    }
    (calls, 0)
}
