//! Whole messages: what our calls answer and leave, and what the oracle says they must.

use std::hint::black_box;

use crate::ffi::{self, FastKey, Issuer, Nonce, Table};
use crate::inputs;
use crate::lent::{Framed, Lent};
use crate::reference::{self, hex, KeyedFunction};
use crate::report::Report;

const SUBJECT: u64 = 1;

/// By what a message is sealed or opened.
#[derive(Clone, PartialEq, Eq)]
pub enum Keyed {
    Key(Lent),
    Table(Box<Framed<Table>>),
}

#[derive(Clone, PartialEq, Eq)]
pub struct Sealing {
    pub run: u32,
    pub next: u32,
    pub masks: Lent,
    pub input: Lent,
    pub output: Lent,
    pub tag: Lent,
}

#[derive(Clone, PartialEq, Eq)]
pub struct Opening {
    pub nonce: Lent,
    pub masks: Lent,
    pub input: Lent,
    pub output: Lent,
    pub tag: Lent,
}

/// What a call answered and left. Of a call that opens, the issuer and the nonce are none, and the tag is as found.
#[derive(PartialEq, Eq)]
struct Outcome {
    number: u32,
    issuer: Issuer,
    nonce: Nonce,
    output: Vec<u8>,
    tag: Vec<u8>,
    /// Margins, and all that is lent for reading, are as they were.
    rest_kept: bool,
}

/// A nonce that no call has written.
const UNWRITTEN: Nonce = Nonce { bytes: [0xc3; 6] };
const NO_ISSUER: Issuer = Issuer { run: 0, next: 0 };

// ------------------------------------------------------------------ comparing

pub fn expect(report: &mut Report) {
    use ffi::{EXHAUSTED, INPUT, KEY, MASKS, NONCE, OK, OUTPUT, TABLE, TAG_DIFFERS, TAG_LENGTH};
    report.expect("fill_table", [OK, KEY]);
    let buffers = [INPUT, MASKS, OUTPUT, TAG_LENGTH];
    for (call, keyed, nonce) in [("seal", KEY, EXHAUSTED), ("seal_with_table", TABLE, EXHAUSTED), ("open", KEY, NONCE), ("open_with_table", TABLE, NONCE)] {
        let refusals: Vec<u32> = [keyed, nonce].into_iter().chain(buffers).collect();
        report.expect_pairs(call, &refusals);
        let tag = call.starts_with("open").then_some(TAG_DIFFERS);
        report.expect(call, std::iter::once(OK).chain(refusals).chain(tag));
    }
    report.expect("tables taken", TABLE_CLASSES);
    for way in ["bytes sealed", "bytes opened"] {
        report.expect(way, ["none", "up to 1,598", "1,600", "up to 131,070", "131,072", "131,074 or more", "an odd number"]);
    }
}

pub fn compare(report: &mut Report, seed: u64, messages: u64) {
    for case in 0..messages {
        let mut rng = inputs::rng(seed, SUBJECT, case);
        let plan = inputs::plan(&mut rng, case);
        let (ways, sealing) = inputs::sealing(&mut rng, &plan);
        report.seen("bytes sealed", length_class(&sealing.input));
        for keyed in &ways {
            compare_filling(report, case, keyed);
            compare_sealing(report, case, keyed, &sealing);
        }
        let (ways, opening) = inputs::opening(&mut rng, &plan);
        report.seen("bytes opened", length_class(&opening.input));
        for keyed in &ways {
            compare_opening(report, case, keyed, &opening);
        }
    }
}

fn length_class(input: &[u8]) -> &'static str {
    match input.len() {
        0 => "none",
        length if length % 2 != 0 => "an odd number",
        1..1600 => "up to 1,598",
        1600 => "1,600",
        1601..131_072 => "up to 131,070",
        131_072 => "131,072",
        _ => "131,074 or more",
    }
}

const TABLE_CLASSES: [&str; 5] = ["all 0000", "all ffff", "one word", "one high byte", "others"];

fn table_class(table: &Table) -> &'static str {
    let first = table.words[0];
    let class = match () {
        _ if table.words == [0; 256] => 0,
        _ if table.words == [0xffff; 256] => 1,
        _ if table.words == [first; 256] => 2,
        _ if table.words.iter().all(|word| word >> 8 == first >> 8) => 3,
        _ => 4,
    };
    TABLE_CLASSES[class]
}

/// The counts of messages in one line. Each message is sealed and opened by key and by table, or by a table alone that is of no key.
pub fn print_counts(report: &Report, messages: u64) {
    let both = |call: &str, number: &str| report.of(call, number) + report.of(&format!("{call}_with_table"), number);
    let refused: u64 = ["1", "2", "3", "4", "6", "7", "8", "9"].iter().map(|number| both("seal", number) + both("open", number)).sum();
    let (sealed, opened, differs) = (both("seal", "0"), both("open", "0"), both("open", "10"));
    println!("messages {messages}, calls: sealed {sealed} opened {opened} tag-refused {differs} refused {refused}");
}

fn compare_filling(report: &mut Report, case: u64, keyed: &Keyed) {
    let Keyed::Key(key) = keyed else { return };
    let as_found = Table { words: [0xc3c3; 256] };
    let (lent_key, mut ours) = (key.clone(), Framed::new(as_found));
    let number = ffi::fill_table(&lent_key, &mut ours);
    let rest_kept = black_box(lent_key) == *key && ours.margins_kept();
    let (wanted_number, wanted) = match KeyedFunction::from_key(key) {
        Ok(f) => (ffi::OK, Table { words: f.s }),
        Err(number) => (number, as_found),
    };
    report.seen("fill_table", &wanted_number.to_string());
    let length_agrees = wanted_number == keyed.refusal().unwrap_or(ffi::OK);
    if (number, *ours, rest_kept, length_agrees) != (wanted_number, wanted, true, true) {
        report.differ(|| {
            let (ours, wanted) = (ours.words, wanted.words);
            format!("message {case}: fill_table {keyed}\n  ours {number} {ours:04x?} rest kept {rest_kept}\n  must be {wanted_number} {wanted:04x?}")
        });
    }
}

fn compare_sealing(report: &mut Report, case: u64, keyed: &Keyed, sealing: &Sealing) {
    let call = keyed.name("seal", "seal_with_table");
    let wanted = sealing.wanted(keyed);
    let failing = sealing.failing(keyed);
    report.seen(call, &wanted.number.to_string());
    report.failing(call, &failing);
    if let (Keyed::Table(table), ffi::OK) = (keyed, wanted.number) {
        report.seen("tables taken", table_class(table));
    }
    let order_agrees = wanted.number == failing.first().copied().unwrap_or(ffi::OK);
    let show = |who: &str, found: &Outcome| {
        format!("message {case}: {call} {keyed} {sealing}\n  checks that fail {failing:?}\n  {who} {found}\n  must be {wanted}")
    };
    let ours = sealing.ours(keyed);
    if ours != wanted || !order_agrees {
        report.differ(|| show("ours", &ours));
    }
    if let (Keyed::Key(key), true) = (keyed, failing.is_empty()) {
        let fast = sealing.fast(key, &wanted);
        report.count("messages sealed by the fast C too", 1);
        report.count("words of these", sealing.input.len() as u64 / 2);
        if fast != wanted {
            report.differ(|| show("fast C", &fast));
        }
    }
}

fn compare_opening(report: &mut Report, case: u64, keyed: &Keyed, opening: &Opening) {
    let call = keyed.name("open", "open_with_table");
    let wanted = opening.wanted(keyed);
    let failing = opening.failing(keyed);
    report.seen(call, &wanted.number.to_string());
    report.failing(call, &failing);
    let order_agrees = match failing.first() {
        Some(&first) => wanted.number == first,
        None => wanted.number == ffi::OK || wanted.number == ffi::TAG_DIFFERS,
    };
    let show = |who: &str, found: &Outcome| {
        format!("message {case}: {call} {keyed} {opening}\n  checks that fail {failing:?}\n  {who} {found}\n  must be {wanted}")
    };
    let ours = opening.ours(keyed);
    if ours != wanted || !order_agrees {
        report.differ(|| show("ours", &ours));
    }
    if let (Keyed::Key(key), true) = (keyed, failing.is_empty()) {
        let fast = opening.fast(key);
        report.count("messages opened, or wiped, by the fast C too", 1);
        report.count("words of those", opening.input.len() as u64 / 2);
        if fast != wanted {
            report.differ(|| show("fast C", &fast));
        }
    }
}

// ------------------------------------------------------------------ what must be

impl Keyed {
    /// The oracle's function, or its refusal: 1 or 2.
    fn function(&self) -> Result<KeyedFunction, u32> {
        match self {
            Keyed::Key(key) => KeyedFunction::from_key(key),
            Keyed::Table(table) => KeyedFunction::from_table(&table.words),
        }
    }

    /// Whether the key has a length that fits, or the table keeps the law, looked at without the oracle; else 1 or 2.
    fn refusal(&self) -> Option<u32> {
        match self {
            Keyed::Key(key) => (key.is_empty() || key.len() > 16).then_some(ffi::KEY),
            Keyed::Table(table) => {
                let mut images: Vec<usize> = table.words.iter().enumerate().map(|(i, word)| i ^ usize::from(word >> 8)).collect();
                images.sort();
                images.dedup();
                (images.len() != 256).then_some(ffi::TABLE)
            }
        }
    }

    fn name(&self, by_key: &'static str, by_table: &'static str) -> &'static str {
        match self {
            Keyed::Key(_) => by_key,
            Keyed::Table(_) => by_table,
        }
    }
}

/// The checks of the buffers that fail, in the order of the header.
fn failing_buffers(masks: &[u8], input: &[u8], output: &[u8], tag: &[u8]) -> Vec<u32> {
    let checks = [
        (ffi::INPUT, input.len() % 2 != 0 || input.len() > 131_072),
        (ffi::MASKS, masks.len() != input.len()),
        (ffi::OUTPUT, output.len() < input.len()),
        (ffi::TAG_LENGTH, tag.len() != 16),
    ];
    checks.iter().filter(|(_, fails)| *fails).map(|(number, _)| *number).collect()
}

fn number(answer: Result<(), u32>) -> u32 {
    answer.err().unwrap_or(ffi::OK)
}

impl Sealing {
    /// All checks that fail, in the order of the header; the first is what must be answered.
    fn failing(&self, keyed: &Keyed) -> Vec<u32> {
        let mut all: Vec<u32> = keyed.refusal().into_iter().collect();
        if self.next > 65535 {
            all.push(ffi::EXHAUSTED);
        }
        all.extend(failing_buffers(&self.masks, &self.input, &self.output, &self.tag));
        all
    }

    fn as_found(&self) -> Outcome {
        Outcome {
            number: ffi::OK,
            issuer: Issuer { run: self.run, next: self.next },
            nonce: UNWRITTEN,
            output: self.output.to_vec(),
            tag: self.tag.to_vec(),
            rest_kept: true,
        }
    }

    fn wanted(&self, keyed: &Keyed) -> Outcome {
        let mut after = self.as_found();
        after.number = number(self.seal_as_the_oracle(keyed, &mut after));
        after
    }

    /// The keyed function first, then the draw, then the oracle's own call.
    fn seal_as_the_oracle(&self, keyed: &Keyed, after: &mut Outcome) -> Result<(), u32> {
        let f = keyed.function()?;
        // The oracle's issuer cannot stand above 65,536; one that does has issued all numbers too.
        let mut issuer = reference::Issuer { run: self.run, next: self.next.min(65536) };
        after.nonce.bytes = issuer.draw()?;
        after.issuer.next += 1;
        reference::seal(&f, &after.nonce.bytes, &self.masks, &self.input, &mut after.output, &mut after.tag)
    }

    // -------------------------------------------------------------- what is

    /// Our call works on a copy of all that it is lent, so that a change to what it may only read is seen too.
    fn ours(&self, keyed: &Keyed) -> Outcome {
        let (mut lent, lent_keyed) = (self.clone(), keyed.clone());
        let (mut issuer, mut nonce) = (Framed::new(Issuer { run: self.run, next: self.next }), Framed::new(UNWRITTEN));
        let Sealing { masks, input, output, tag, .. } = &mut lent;
        let number = match &lent_keyed {
            Keyed::Key(key) => ffi::seal(key, &mut issuer, masks, input, output, tag, &mut nonce),
            Keyed::Table(table) => ffi::seal_with_table(table, &mut issuer, masks, input, output, tag, &mut nonce),
        };
        let lent = black_box(lent);
        let read_only_kept = black_box(lent_keyed) == *keyed && lent.masks == self.masks && lent.input == self.input;
        let buffers_kept = lent.output.margins_kept() && lent.tag.margins_kept();
        let rest_kept = read_only_kept && buffers_kept && issuer.margins_kept() && nonce.margins_kept();
        Outcome { number, issuer: *issuer, nonce: *nonce, output: lent.output.to_vec(), tag: lent.tag.to_vec(), rest_kept }
    }

    /// The fast C draws no nonce and makes no checks: it gets the nonce that was due, and only what was sealed.
    fn fast(&self, key: &[u8], wanted: &Outcome) -> Outcome {
        let (mut output, mut tag) = (self.output.clone(), self.tag.clone());
        let mut fast = FastKey::empty();
        let number = fast.load(key);
        fast.seal(&wanted.nonce.bytes, &self.masks, &self.input, &mut output, &mut tag);
        let rest_kept = output.margins_kept() && tag.margins_kept();
        Outcome { number, issuer: wanted.issuer, nonce: wanted.nonce, output: output.to_vec(), tag: tag.to_vec(), rest_kept }
    }
}

impl Opening {
    /// All checks that fail, in the order of the header; the first is what must be answered.
    fn failing(&self, keyed: &Keyed) -> Vec<u32> {
        let mut all: Vec<u32> = keyed.refusal().into_iter().collect();
        if self.nonce.len() % 2 != 0 || self.nonce.len() > 32 {
            all.push(ffi::NONCE);
        }
        all.extend(failing_buffers(&self.masks, &self.input, &self.output, &self.tag));
        all
    }

    fn outcome(&self, number: u32, output: &[u8], rest_kept: bool) -> Outcome {
        Outcome { number, issuer: NO_ISSUER, nonce: UNWRITTEN, output: output.to_vec(), tag: self.tag.to_vec(), rest_kept }
    }

    fn wanted(&self, keyed: &Keyed) -> Outcome {
        let mut output = self.output.to_vec();
        let opened = keyed.function().and_then(|f| reference::open(&f, &self.nonce, &self.masks, &self.input, &mut output, &self.tag));
        self.outcome(number(opened), &output, true)
    }

    // -------------------------------------------------------------- what is

    /// As for sealing, on a copy.
    fn ours(&self, keyed: &Keyed) -> Outcome {
        let (mut lent, lent_keyed) = (self.clone(), keyed.clone());
        let Opening { nonce, masks, input, output, tag } = &mut lent;
        let number = match &lent_keyed {
            Keyed::Key(key) => ffi::open(key, nonce, masks, input, output, tag),
            Keyed::Table(table) => ffi::open_with_table(table, nonce, masks, input, output, tag),
        };
        let lent = black_box(lent);
        let buffers_kept = lent.nonce == self.nonce && lent.masks == self.masks && lent.input == self.input && lent.tag == self.tag;
        let rest_kept = buffers_kept && black_box(lent_keyed) == *keyed && lent.output.margins_kept();
        self.outcome(number, &lent.output, rest_kept)
    }

    /// The fast C makes no checks: it gets only what passes them.
    fn fast(&self, key: &[u8]) -> Outcome {
        let mut output = self.output.clone();
        let mut fast = FastKey::empty();
        let loaded = fast.load(key);
        let opened = fast.open(&self.nonce, &self.masks, &self.input, &mut output, &self.tag);
        self.outcome(loaded.max(opened), &output, output.margins_kept())
    }
}

// ------------------------------------------------------------------ showing

impl std::fmt::Display for Keyed {
    fn fmt(&self, to: &mut std::fmt::Formatter) -> std::fmt::Result {
        match self {
            Keyed::Key(key) => write!(to, "key {}", hex(key)),
            Keyed::Table(table) => write!(to, "table {}", hex(&reference::bytes_from_words(&table.words))),
        }
    }
}

impl std::fmt::Display for Sealing {
    fn fmt(&self, to: &mut std::fmt::Formatter) -> std::fmt::Result {
        let (masks, input) = (hex(&self.masks), hex(&self.input));
        write!(to, "run {} next {} masks {masks} input {input} room {} tagroom {}", self.run, self.next, self.output.len(), self.tag.len())
    }
}

impl std::fmt::Display for Opening {
    fn fmt(&self, to: &mut std::fmt::Formatter) -> std::fmt::Result {
        let (nonce, masks, wire, tag) = (hex(&self.nonce), hex(&self.masks), hex(&self.input), hex(&self.tag));
        write!(to, "nonce {nonce} masks {masks} wire {wire} tag {tag} room {}", self.output.len())
    }
}

impl std::fmt::Display for Outcome {
    fn fmt(&self, to: &mut std::fmt::Formatter) -> std::fmt::Result {
        let (nonce, output, tag) = (hex(&self.nonce.bytes), hex(&self.output), hex(&self.tag));
        write!(to, "{} next {} nonce {nonce} output {output} tag {tag} rest kept {}", self.number, self.issuer.next, self.rest_kept)
    }
}
