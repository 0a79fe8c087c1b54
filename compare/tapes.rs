//! Listings of tapes: our text against the oracle's, in buffers of every kind of length.

use std::hint::black_box;

use crate::ffi;
use crate::inputs;
use crate::lent::{Framed, Lent};
use crate::reference::{hex, listing, random_input, Rng};
use crate::report::Report;

const SUBJECT: u64 = 2;

/// The longest input that is listed.
const TAKEN: usize = 65536;

/// The command bytes.
const COMMANDS: [u8; 6] = *b"NSOPBT";

/// What a call answered and left.
#[derive(PartialEq, Eq)]
struct Outcome {
    number: u32,
    text: Vec<u8>,
    length: usize,
    rest_kept: bool,
}

/// A length that no call has written.
const UNWRITTEN: usize = 0xc3c3_c3c3;

pub fn expect(report: &mut Report) {
    report.expect("list", [ffi::OK, ffi::OUTPUT]);
    let rows = (0..=17).map(|row| format!("withheld {row}"));
    let words = ["nonce", "break", "reading", "agrees", "differs", "broken", "end", "refused 1", "refused 11", "refused 12", "refused 14"];
    report.expect("lines of listings", words.iter().map(|word| word.to_string()).chain(rows));
}

pub fn compare(report: &mut Report, seed: u64, tapes: u64) {
    for case in 0..tapes {
        let mut rng = inputs::rng(seed, SUBJECT, case);
        let input = input(&mut rng, case);
        let text = listing(&input);
        count_lines(report, &text);
        if text.len() > 12 * input.len() + 24 {
            report.differ(|| format!("tape {case}: the text has {} bytes, more than the header allows for {}", text.len(), hex(&input)));
        }
        for room in rooms(&mut rng, input.len(), text.len()) {
            compare_one(report, &mut rng, case, &input, &text, room);
        }
        report.count("bytes of tapes", input.len() as u64);
    }
}

/// The counts of tapes in one line. Each tape is listed into several buffers; its lines are counted once.
pub fn print_counts(report: &Report, tapes: u64) {
    let (fits, refused) = (report.of("list", "0"), report.of("list", "8"));
    println!("tapes {tapes} lines {} listed {fits} refused-for-room {refused}", report.all_of("lines of listings"));
}

fn compare_one(report: &mut Report, rng: &mut Rng, case: u64, input: &[u8], text: &str, room: usize) {
    let found = Lent::filled(room, 0xa5, rng.below(16));
    let lent_input = Lent::new(input, rng.below(16));
    let wanted = wanted(text, &found);
    report.seen("list", &wanted.number.to_string());
    let ours = ours(&lent_input, &found);
    if ours != wanted {
        report.differ(|| format!("tape {case}: list {} room {room}\n  ours {ours}\n  must be {wanted}", hex(input)));
    }
}

/// The text in front, where it fits, and its length; else zeros.
fn wanted(text: &str, found: &[u8]) -> Outcome {
    if text.len() > found.len() {
        return Outcome { number: ffi::OUTPUT, text: vec![0; found.len()], length: UNWRITTEN, rest_kept: true };
    }
    let mut after = found.to_vec();
    after[..text.len()].copy_from_slice(text.as_bytes());
    Outcome { number: ffi::OK, text: after, length: text.len(), rest_kept: true }
}

/// Our call works on a copy of its input, so that a change to it is seen too.
fn ours(input: &Lent, found: &Lent) -> Outcome {
    let (lent_input, mut text, mut length) = (input.clone(), found.clone(), Framed::new(UNWRITTEN));
    let number = ffi::list(&lent_input, &mut text, &mut length);
    let rest_kept = black_box(lent_input) == *input && text.margins_kept() && length.margins_kept();
    Outcome { number, text: text.to_vec(), length: *length, rest_kept }
}

/// Just as much room as the text needs, one byte less, more, none, less, and as much as the header says always does.
fn rooms(rng: &mut Rng, input: usize, text: usize) -> Vec<usize> {
    vec![text, text - 1, text + 1 + rng.below(40), 0, rng.below(text), 12 * input + 24]
}

fn count_lines(report: &mut Report, text: &str) {
    for line in text.lines() {
        let words: Vec<&str> = line.split(' ').collect();
        let kind = match words[..] {
            ["end", _] => "end".to_string(),
            ["refused", number, ..] => format!("refused {number}"),
            [_, "withheld", row] => format!("withheld {row}"),
            [_, word, ..] => word.to_string(),
            _ => line.to_string(),
        };
        report.seen("lines of listings", &kind);
    }
}

// ------------------------------------------------------------------ inputs

const KINDS: usize = 16;

/// The first inputs are one of each kind, and so are the next; then each is of any kind, half of them the oracle's own.
fn input(rng: &mut Rng, case: u64) -> Vec<u8> {
    let kind = match case {
        0..64 => case as usize % KINDS,
        _ if rng.chance(2) => 0,
        _ => rng.below(KINDS),
    };
    match kind {
        0 => oracles(rng),
        1 => Vec::new(),
        2 => key_that_does_not_fit(rng),
        3 => key_cut_off(rng),
        4 => without_a_key(rng),
        5 => behind_a_key(rng, |rng| rng.byte()),
        6 => behind_a_key(rng, |rng| if rng.chance(40) { rng.byte() } else { COMMANDS[rng.below(6)] }),
        7 => long(rng),
        8 => rows(rng),
        9 => byte_changed(rng),
        10 => byte_inserted(rng),
        11 => byte_dropped(rng),
        12 => cut(rng),
        13 => joined(rng),
        14 => bit_turned(rng),
        _ => letter_changed(rng),
    }
}

fn oracles(rng: &mut Rng) -> Vec<u8> {
    random_input(rng.next())
}

/// One of the oracle's inputs that has a key and something behind it, and is not too long.
fn good(rng: &mut Rng) -> Vec<u8> {
    loop {
        let input = oracles(rng);
        if (30..20_000).contains(&input.len()) {
            return input;
        }
    }
}

fn a_key(rng: &mut Rng) -> Vec<u8> {
    let key = rng.key();
    [vec![key.len() as u8], key].concat()
}

fn key_that_does_not_fit(rng: &mut Rng) -> Vec<u8> {
    let length = [0, 17, 18, 255][rng.below(4)];
    let more = rng.below(300);
    [vec![length], rng.bytes(more)].concat()
}

fn key_cut_off(rng: &mut Rng) -> Vec<u8> {
    let mut input = a_key(rng);
    input.truncate(1 + rng.below(input.len() - 1));
    input
}

fn without_a_key(rng: &mut Rng) -> Vec<u8> {
    let length = rng.below(400);
    rng.bytes(length)
}

fn behind_a_key(rng: &mut Rng, byte: fn(&mut Rng) -> u8) -> Vec<u8> {
    let mut input = a_key(rng);
    input.extend((0..rng.below(300)).map(|_| byte(rng)).collect::<Vec<_>>());
    input
}

/// About as long as is taken, a few times with a key that does not fit: too long an input is refused first.
fn long(rng: &mut Rng) -> Vec<u8> {
    let length = match rng.below(4) {
        0 => TAKEN,
        1 => TAKEN + 1,
        2 => TAKEN - 20 + rng.below(40),
        _ => TAKEN + rng.below(9000),
    };
    let mut input = if rng.chance(4) { vec![17] } else { a_key(rng) };
    while input.len() < length {
        match rng.below(30) {
            0 => input.push(b'B'),
            _ => input.extend([b"SOS"[rng.below(3)], rng.byte(), rng.byte()]),
        }
    }
    input.truncate(length);
    input
}

/// Runs of sealed words after breaks, about as long as the seventeen that end a loss, with other words between.
fn rows(rng: &mut Rng) -> Vec<u8> {
    let mut input = a_key(rng);
    for _ in 0..1 + rng.below(8) {
        let (open, ffff) = (rng.word(), rng.word());
        match rng.below(4) {
            0 => input.push(b'B'),
            1 => input.extend([b'O', open as u8, 7]),
            2 => input.extend([b'P', 0xff, 0xff, ffff as u8, 9]),
            _ => input.extend([b'P', 0xff, 0xfe, ffff as u8, 9]),
        }
        for _ in 0..[16, 17, 18, 1, 40][rng.below(5)] {
            input.extend([b'S', rng.byte(), rng.byte()]);
        }
    }
    input
}

fn byte_changed(rng: &mut Rng) -> Vec<u8> {
    let mut input = good(rng);
    let at = rng.below(input.len());
    input[at] = rng.byte();
    input
}

fn byte_inserted(rng: &mut Rng) -> Vec<u8> {
    let mut input = good(rng);
    let at = rng.below(input.len() + 1);
    input.insert(at, rng.byte());
    input
}

fn byte_dropped(rng: &mut Rng) -> Vec<u8> {
    let mut input = good(rng);
    input.remove(rng.below(input.len()));
    input
}

fn cut(rng: &mut Rng) -> Vec<u8> {
    let mut input = good(rng);
    input.truncate(rng.below(input.len()));
    input
}

fn joined(rng: &mut Rng) -> Vec<u8> {
    let (first, second) = (good(rng), good(rng));
    let from = if rng.chance(3) { 0 } else { 1 + second[0] as usize };
    [&first, &second[from.min(second.len())..]].concat()
}

fn bit_turned(rng: &mut Rng) -> Vec<u8> {
    let mut input = good(rng);
    let at = rng.below(input.len());
    input[at] ^= 1 << rng.below(8);
    input
}

/// A byte that looks like a command becomes another such byte, in either case.
fn letter_changed(rng: &mut Rng) -> Vec<u8> {
    let mut input = good(rng);
    let letters: Vec<usize> = (0..input.len()).filter(|&at| COMMANDS.contains(&input[at])).collect();
    if !letters.is_empty() {
        let letter = COMMANDS[rng.below(6)];
        input[letters[rng.below(letters.len())]] = if rng.chance(4) { letter | 0x20 } else { letter };
    }
    input
}

// ------------------------------------------------------------------ showing

impl std::fmt::Display for Outcome {
    fn fmt(&self, to: &mut std::fmt::Formatter) -> std::fmt::Result {
        let text = String::from_utf8_lossy(&self.text);
        write!(to, "{} length {} rest kept {} text {text:?}", self.number, self.length, self.rest_kept)
    }
}
