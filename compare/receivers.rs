//! A receiver, word by word: scripts of calls, each call's answer against the oracle's.

use std::hint::black_box;

use crate::ffi::{self, Answer, Receiver};
use crate::inputs;
use crate::lent::{Framed, Lent};
use crate::reference::{self, bytes_from_words, hex, random_tape_commands, words_from_bytes, Command, KeyedFunction, Registers, Rng, State, Verdict};
use crate::report::Report;

const SUBJECT: u64 = 3;

const CALLS: [&str; 5] = ["receiver_new", "receiver_begin", "receiver_word", "receiver_break", "receiver_finish"];

/// One call on a receiver, or a value that is written into its field `state`.
#[derive(Clone)]
enum Call {
    New(Vec<u8>),
    Begin(Vec<u8>),
    Word(u16, u16),
    Break,
    Finish(Vec<u8>),
    State(u8),
}

/// What a call answered, and what it left: the answer to a word, the verdict, and of the receiver what the header says of it.
#[derive(PartialEq, Eq)]
struct Outcome {
    number: u32,
    answer: Answer,
    verdict: u8,
    cipher: [u16; 17],
    check: [u16; 17],
    key: [u8; 16],
    key_length: u8,
    state: u8,
    /// Margins, and what is lent for reading, are as they were.
    rest_kept: bool,
}

/// An answer and a verdict that no call has written.
const UNWRITTEN: Answer = Answer { reading: 0xc3c3, handed_out: 0xc3, row: 0xc3 };
const NO_VERDICT: u8 = 0xc3;

/// The oracle's receiver beside what the fields of ours must be. There is none where the receiver was never set up.
struct Wanted {
    receiver: Option<reference::Receiver>,
    cipher: [u16; 17],
    check: [u16; 17],
    key: [u8; 16],
    key_length: u8,
    state: u8,
}

pub fn expect(report: &mut Report) {
    use ffi::{KEY, NONCE, OK, TAG_LENGTH};
    report.expect("receiver_new", [OK, KEY]);
    report.expect("receiver_begin", [OK, KEY, NONCE]);
    report.expect("receiver_word", [OK, KEY]);
    report.expect("receiver_break", [OK, KEY]);
    report.expect("receiver_finish", [OK, KEY, TAG_LENGTH]);
    report.expect_pairs("receiver_begin", &[KEY, NONCE]);
    report.expect_pairs("receiver_finish", &[KEY, TAG_LENGTH]);
    let rows = (0..=17).map(|row| format!("withheld {row}"));
    report.expect("answers of receivers", ["reading", "agrees", "differs", "broken"].iter().map(|word| word.to_string()).chain(rows));
}

pub fn compare(report: &mut Report, seed: u64, scripts: u64) {
    for case in 0..scripts {
        let mut rng = inputs::rng(seed, SUBJECT, case);
        let memory = [0x00, 0xa5, 0xff][rng.below(3)];
        let calls = script(&mut rng);
        run(report, &mut rng, case, memory, &calls);
    }
}

/// The counts of scripts in one line.
pub fn print_counts(report: &Report, scripts: u64) {
    let calls: u64 = CALLS.iter().map(|call| report.all_of(call)).sum();
    println!("scripts {scripts} calls {calls}");
}

/// Makes the calls one by one, and stops where one differs: what comes after it would differ too.
fn run(report: &mut Report, rng: &mut Rng, case: u64, memory: u8, calls: &[Call]) {
    let mut ours = filled(memory);
    let Receiver { cipher, check, key, key_length, state } = *ours;
    let mut wanted = Wanted { receiver: None, cipher, check, key, key_length, state };
    for (at, call) in calls.iter().enumerate() {
        let due = wanted.take(call);
        count(report, call, &due, wanted.receiver.is_none());
        let found = take(&mut ours, call, rng.below(16));
        if found != due {
            report.differ(|| {
                let before: Vec<String> = calls[..=at].iter().map(|call| call.to_string()).collect();
                format!("script {case}: memory of {memory:02x}: {}\n  ours {found}\n  must be {due}", before.join("; "))
            });
            return;
        }
    }
}

fn filled(with: u8) -> Framed<Receiver> {
    let word = u16::from_le_bytes([with; 2]);
    Framed::new(Receiver { cipher: [word; 17], check: [word; 17], key: [with; 16], key_length: with, state: with })
}

// ------------------------------------------------------------------ what is

fn take(receiver: &mut Framed<Receiver>, call: &Call, shift: usize) -> Outcome {
    let given = Lent::new(call.given(), shift);
    let (lent, mut answer, mut verdict) = (given.clone(), Framed::new(UNWRITTEN), Framed::new(NO_VERDICT));
    let number = match call {
        Call::New(_) => ffi::receiver_new(receiver, &lent),
        Call::Begin(_) => ffi::receiver_begin(receiver, &lent),
        Call::Word(mask, wire) => ffi::receiver_word(receiver, *mask, *wire, &mut answer),
        Call::Break => ffi::receiver_break(receiver),
        Call::Finish(_) => ffi::receiver_finish(receiver, &lent, &mut verdict),
        Call::State(state) => {
            receiver.state = *state;
            ffi::OK
        }
    };
    let margins_kept = receiver.margins_kept() && answer.margins_kept() && verdict.margins_kept();
    let Receiver { cipher, check, key, key_length, state } = **receiver;
    let rest_kept = margins_kept && black_box(lent) == given;
    Outcome { number, answer: *answer, verdict: *verdict, cipher, check, key, key_length, state, rest_kept }
}

impl Call {
    /// The bytes that the call is lent for reading.
    fn given(&self) -> &[u8] {
        match self {
            Call::New(bytes) | Call::Begin(bytes) | Call::Finish(bytes) => bytes,
            _ => &[],
        }
    }
}

// ------------------------------------------------------------------ what must be

impl Wanted {
    fn take(&mut self, call: &Call) -> Outcome {
        let (mut answer, mut verdict) = (UNWRITTEN, NO_VERDICT);
        let done = match call {
            Call::New(key) => self.set_up(key),
            Call::Begin(nonce) => self.change(|receiver| receiver.begin(nonce)),
            Call::Word(mask, wire) => self.change(|receiver| {
                answer = answer_of(receiver.word(*mask, *wire));
                Ok(())
            }),
            Call::Break => self.change(|receiver| {
                receiver.break_off();
                Ok(())
            }),
            Call::Finish(tag) => self.change(|receiver| {
                let words = <[u16; 8]>::try_from(if tag.len() == 16 { words_from_bytes(tag) } else { Vec::new() }).map_err(|_| ffi::TAG_LENGTH)?;
                verdict = verdict_of(receiver.finish(words));
                Ok(())
            }),
            Call::State(state) => {
                self.write_state(*state);
                Ok(())
            }
        };
        let number = done.err().unwrap_or(ffi::OK);
        if let Some(receiver) = &self.receiver {
            (self.cipher, self.check) = (receiver.registers.cipher.r, receiver.registers.check.c);
        }
        let Wanted { cipher, check, key, key_length, state, .. } = *self;
        Outcome { number, answer, verdict, cipher, check, key, key_length, state, rest_kept: true }
    }

    /// The key's bytes come first in the field, and zeros behind them.
    fn set_up(&mut self, key: &[u8]) -> Result<(), u32> {
        let f = KeyedFunction::from_key(key)?;
        self.receiver = Some(reference::Receiver::new(f));
        self.key = std::array::from_fn(|at| key.get(at).copied().unwrap_or(0));
        self.key_length = key.len() as u8;
        self.state = 0;
        Ok(())
    }

    /// A call on a receiver that was set up. Where it refuses, nothing is changed, the field `state` neither.
    fn change(&mut self, call: impl FnOnce(&mut reference::Receiver) -> Result<(), u32>) -> Result<(), u32> {
        let receiver = self.receiver.as_mut().ok_or(ffi::KEY)?;
        call(receiver)?;
        self.state = match receiver.state {
            State::Lost(row) => row as u8,
            State::Caught => 17,
            State::Whole => 18,
        };
        Ok(())
    }

    fn write_state(&mut self, state: u8) {
        self.state = state;
        if let Some(receiver) = &mut self.receiver {
            receiver.state = match state {
                0..=16 => State::Lost(u32::from(state)),
                17 => State::Caught,
                18 => State::Whole,
                _ => State::Lost(0),
            };
        }
    }
}

fn answer_of(answer: reference::Answer) -> Answer {
    match answer {
        reference::Answer::Reading(reading) => Answer { reading, handed_out: 1, row: 0 },
        reference::Answer::Withheld(row) => Answer { reading: 0, handed_out: 0, row: row as u8 },
    }
}

fn verdict_of(verdict: Verdict) -> u8 {
    match verdict {
        Verdict::Agrees => ffi::AGREES,
        Verdict::Differs => ffi::DIFFERS,
        Verdict::Broken => ffi::BROKEN,
    }
}

fn count(report: &mut Report, call: &Call, due: &Outcome, never_set_up: bool) {
    let (name, misfit) = match call {
        Call::New(_) => ("receiver_new", None),
        Call::Begin(nonce) => ("receiver_begin", reference::check_nonce(nonce).err()),
        Call::Word(..) => ("receiver_word", None),
        Call::Break => ("receiver_break", None),
        Call::Finish(tag) => ("receiver_finish", (tag.len() != 16).then_some(ffi::TAG_LENGTH)),
        Call::State(_) => return,
    };
    report.seen(name, &due.number.to_string());
    if never_set_up && !matches!(call, Call::New(_)) {
        report.failing(name, &[ffi::KEY].into_iter().chain(misfit).collect::<Vec<_>>());
    }
    if due.answer != UNWRITTEN {
        let withheld = format!("withheld {}", due.answer.row);
        report.seen("answers of receivers", if due.answer.handed_out == 1 { "reading" } else { &withheld });
    }
    match due.verdict {
        ffi::AGREES => report.seen("answers of receivers", "agrees"),
        ffi::DIFFERS => report.seen("answers of receivers", "differs"),
        ffi::BROKEN => report.seen("answers of receivers", "broken"),
        _ => {}
    }
}

// ------------------------------------------------------------------ scripts

/// Some calls before the receiver is set up, then one or two keys, with messages of each.
fn script(rng: &mut Rng) -> Vec<Call> {
    let mut calls = Vec::new();
    if rng.chance(2) {
        calls.extend((0..1 + rng.below(5)).map(|_| any_call(rng)).collect::<Vec<_>>());
    }
    for _ in 0..1 + rng.below(2) {
        if rng.chance(4) {
            calls.push(Call::New(unfit_key(rng)));
        }
        let key = rng.key();
        let f = KeyedFunction::from_key(&key).expect("such a key fits");
        calls.push(Call::New(key));
        for _ in 0..1 + rng.below(4) {
            match rng.below(4) {
                0 => calls.extend(random_tape_commands(rng, &f).into_iter().take(300).map(call_of)),
                1 => calls.extend(rows(rng)),
                _ => calls.extend(message(rng, &f)),
            }
            if rng.chance(2) {
                let at = rng.below(calls.len() + 1);
                calls.insert(at, misfit_or_any(rng));
            }
        }
    }
    calls
}

fn call_of(command: Command) -> Call {
    match command {
        Command::Nonce(nonce) => Call::Begin(nonce.to_vec()),
        Command::Sealed(wire) => Call::Word(reference::SEALED, wire),
        Command::Open(wire) => Call::Word(reference::OPEN, wire),
        Command::Part(mask, wire) => Call::Word(mask, wire),
        Command::Break => Call::Break,
        Command::Tag(tag) => Call::Finish(tag.to_vec()),
    }
}

/// A message with a nonce of any length that fits, and its tag, sealed by the oracle; sometimes a word or the tag is altered, or words are lost.
fn message(rng: &mut Rng, f: &KeyedFunction) -> Vec<Call> {
    let nonce_words = rng.below(17);
    let nonce = rng.bytes(2 * nonce_words);
    let mut registers = Registers::zero();
    registers.begin(f, &words_from_bytes(&nonce));
    let mut calls = vec![Call::Begin(nonce)];
    let style = rng.below(4);
    for _ in 0..rng.below(60) {
        let mask = rng.mask(style);
        calls.push(Call::Word(mask, registers.send(f, mask, rng.word())));
    }
    let mut tag = bytes_from_words(&registers.tag(f));
    let at = rng.below(calls.len());
    match (rng.below(5), &mut calls[at]) {
        (0, Call::Word(_, wire)) => *wire ^= 1 << rng.below(16),
        (1, _) => tag[rng.below(16)] ^= 1 << rng.below(8),
        (2, Call::Word(..)) => calls[at] = Call::Break,
        _ => {}
    }
    calls.push(Call::Finish(tag));
    calls
}

/// Runs of sealed words about as long as the seventeen that end a loss.
fn rows(rng: &mut Rng) -> Vec<Call> {
    let mut calls = vec![Call::Break];
    for _ in 0..1 + rng.below(4) {
        for _ in 0..[16, 17, 18, 1, 30][rng.below(5)] {
            calls.push(Call::Word(reference::SEALED, rng.word()));
        }
        let other = Call::Word([reference::OPEN, 0xfffe, 0x7fff, 0xff00][rng.below(4)], rng.word());
        calls.push(if rng.chance(2) { Call::Break } else { other });
    }
    calls
}

fn any_call(rng: &mut Rng) -> Call {
    match rng.below(6) {
        0 => Call::Begin(rng.bytes(6)),
        1 => Call::Word(rng.mask(3), rng.word()),
        2 => Call::Break,
        3 => Call::Finish(rng.bytes(16)),
        4 => Call::New(unfit_key(rng)),
        _ => misfit(rng),
    }
}

fn misfit_or_any(rng: &mut Rng) -> Call {
    match rng.below(3) {
        0 => any_call(rng),
        1 => Call::State([rng.below(19) as u8, 17, 18, 19, 20, rng.byte()][rng.below(6)]),
        _ => misfit(rng),
    }
}

/// A nonce or a tag that does not fit.
fn misfit(rng: &mut Rng) -> Call {
    let odd = 1 + 2 * rng.below(20);
    let longer = 34 + 2 * rng.below(20);
    let tag = [0, 8, 14, 15, 17, 18, 32][rng.below(7)];
    match rng.below(3) {
        0 => Call::Begin(rng.bytes(odd)),
        1 => Call::Begin(rng.bytes(longer)),
        _ => Call::Finish(rng.bytes(tag)),
    }
}

fn unfit_key(rng: &mut Rng) -> Vec<u8> {
    let length = [0, 17, 18, 256, 272][rng.below(5)];
    rng.bytes(length)
}

// ------------------------------------------------------------------ showing

impl std::fmt::Display for Call {
    fn fmt(&self, to: &mut std::fmt::Formatter) -> std::fmt::Result {
        match self {
            Call::New(key) => write!(to, "new {}", hex(key)),
            Call::Begin(nonce) => write!(to, "begin {}", hex(nonce)),
            Call::Word(mask, wire) => write!(to, "word {mask:04x} {wire:04x}"),
            Call::Break => write!(to, "break"),
            Call::Finish(tag) => write!(to, "finish {}", hex(tag)),
            Call::State(state) => write!(to, "state {state}"),
        }
    }
}

impl std::fmt::Display for Outcome {
    fn fmt(&self, to: &mut std::fmt::Formatter) -> std::fmt::Result {
        let Answer { reading, handed_out, row } = self.answer;
        let [cipher, check] = [self.cipher, self.check].map(|words| hex(&bytes_from_words(&words)));
        let key = hex(&self.key);
        write!(to, "{} reading {reading:04x} handed out {handed_out} row {row} verdict {} ", self.number, self.verdict)?;
        write!(to, "cipher {cipher} check {check} key {key} of {} state {} rest kept {}", self.key_length, self.state, self.rest_kept)
    }
}
