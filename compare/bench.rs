//! The benchmark: our calls, the other author's plain Rust and its fast C, in turn, the best of many rounds.
//!
//! In each round each task is done by each contestant once, one after another, so that a slow moment of the machine meets all of them. All
//! buffers of messages and listings are made before the clock starts; what a contestant allocates by itself, as the plain Rust does for what it
//! opens and for its listing, is timed with it.

use std::hint::black_box;
use std::rc::Rc;
use std::time::Instant;

use crate::ffi::{self, FastKey, Issuer, Nonce, Table};
use crate::lent::Framed;
use crate::reference::{self, KeyedFunction, Rng};

const ROUNDS: usize = 100;

/// How many calls are timed together: enough for about a millisecond.
const CALLS_OF_1600: u32 = 60;
const CALLS_OF_131072: u32 = 1;
const CALLS_OF_KEYS: u32 = 100;
const CALLS_OF_NO_WORDS: u32 = 100;

/// What the designers published for the stream alone and for encryption with a tag, in cycles a byte.
const PUBLISHED: (f64, f64) = (17.1, 24.8);

/// One line of the table: a task that each contestant can do.
struct Task {
    name: String,
    /// How many bytes the time is divided by; none: it is the time of the call.
    bytes: Option<usize>,
    calls: u32,
    ours: Contestant,
    rust: Contestant,
    c: Option<Contestant>,
}

/// A call that is told its number in the batch, and the best time so far, in nanoseconds a call.
struct Contestant {
    call: Box<dyn FnMut(u32)>,
    best: f64,
}

impl Contestant {
    fn new(call: impl FnMut(u32) + 'static) -> Contestant {
        Contestant { call: Box::new(call), best: f64::INFINITY }
    }

    fn time(&mut self, calls: u32) {
        let start = Instant::now();
        for number in 0..calls {
            (self.call)(number);
        }
        self.best = self.best.min(start.elapsed().as_nanos() as f64 / f64::from(calls));
    }
}

// ------------------------------------------------------------------ running

pub fn run() -> bool {
    let mut tasks = tasks();
    let mut ghz: f64 = 0.0;
    for round in 0..ROUNDS {
        for task in &mut tasks {
            task.ours.time(task.calls);
            task.rust.time(task.calls);
            task.c.iter_mut().for_each(|c| c.time(task.calls));
        }
        if round % 10 == 0 {
            ghz = ghz.max(ffi::core_ghz());
        }
    }
    print(&tasks, ghz);
    true
}

fn tasks() -> Vec<Task> {
    let mut tasks = Vec::new();
    for (length, calls) in [(1600, CALLS_OF_1600), (131_072, CALLS_OF_131072)] {
        for every_16th_open in [false, true] {
            let message = Rc::new(Message::new(length, every_16th_open));
            let what = format!("{} bytes, {}", grouped(length), if every_16th_open { "every 16th word open" } else { "all sealed" });
            tasks.push(sealing(&message, format!("seal {what}"), calls));
            tasks.push(opening(&message, format!("open {what}"), calls));
            if !every_16th_open {
                tasks.push(sealing_from_key(&message, format!("seal {what}, key loaded for it"), calls));
                tasks.push(opening_from_key(&message, format!("open {what}, key loaded for it"), calls));
            }
        }
    }
    let empty = Rc::new(Message::new(0, false));
    tasks.push(key_loading(&empty));
    tasks.push(Task { bytes: None, ..sealing(&empty, "seal a message of no words".to_string(), CALLS_OF_NO_WORDS) });
    tasks.push(Task { bytes: None, ..sealing_from_key(&empty, "seal a message of no words, key loaded for it".to_string(), CALLS_OF_KEYS) });
    tasks.push(replay());
    tasks
}

/// The number with a comma before its last three digits.
fn grouped(number: usize) -> String {
    format!("{},{:03}", number / 1000, number % 1000)
}

// ------------------------------------------------------------------ messages

/// A message, sealed by the oracle, and its keyed function as each contestant wants it.
struct Message {
    key: [u8; 16],
    table: Framed<Table>,
    f: KeyedFunction,
    fast: FastKey,
    nonce: [u8; 6],
    masks: Vec<u8>,
    plain: Vec<u8>,
    wire: Vec<u8>,
    tag: [u8; 16],
}

impl Message {
    fn new(length: usize, every_16th_open: bool) -> Message {
        let mut rng = Rng::new(16);
        let key: [u8; 16] = std::array::from_fn(|_| rng.byte());
        let f = KeyedFunction::from_key(&key).expect("16 bytes are taken");
        let mut fast = FastKey::empty();
        fast.load(&key);
        let masks: Vec<u8> = (0..length).map(|at| if every_16th_open && at % 32 < 2 { 0 } else { 0xff }).collect();
        let plain = rng.bytes(length);
        let nonce = reference::nonce_bytes(1, 0);
        let (mut wire, mut tag) = (vec![0; length], [0; 16]);
        reference::seal(&f, &nonce, &masks, &plain, &mut wire, &mut tag).expect("it fits");
        Message { key, table: Framed::new(Table { words: f.s }), f, fast, nonce, masks, plain, wire, tag }
    }
}

/// Where a message is sealed to.
struct Sealed {
    issuer: Framed<Issuer>,
    nonce: Framed<Nonce>,
    wire: Vec<u8>,
    tag: [u8; 16],
}

impl Sealed {
    /// The call gets the message, the buffers and the number of the message, and answers a number. With number 0 it must seal as the oracle
    /// did, answer 0, and leave the nonce that the oracle sealed with.
    fn contestant(message: &Rc<Message>, mut call: impl FnMut(&Message, &mut Sealed, u16) -> u32 + 'static) -> Contestant {
        let message = Rc::clone(message);
        let wire = vec![0; message.plain.len()];
        let (issuer, nonce) = (Framed::new(Issuer { run: 1, next: 0 }), Framed::new(Nonce { bytes: [0xc3; 6] }));
        let mut sealed = Sealed { issuer, nonce, wire, tag: [0; 16] };
        let answer = call(&message, &mut sealed, 0);
        assert!(answer == ffi::OK && sealed.nonce.bytes == message.nonce, "a contestant refuses, or takes another nonce");
        assert!(sealed.wire == message.wire && sealed.tag == message.tag, "a contestant seals otherwise");
        Contestant::new(move |number| {
            black_box(call(&message, black_box(&mut sealed), number as u16));
        })
    }

    /// The nonce of the message with this number, for those who draw none.
    fn nonce(&mut self, number: u16) -> [u8; 6] {
        self.nonce.bytes = reference::nonce_bytes(1, number);
        self.nonce.bytes
    }
}

/// The keyed function is made before the clock starts: ours gets its table.
fn sealing(message: &Rc<Message>, name: String, calls: u32) -> Task {
    let ours = Sealed::contestant(message, |message, to, number| {
        to.issuer.next = u32::from(number);
        ffi::seal_with_table(&message.table, &mut to.issuer, &message.masks, &message.plain, &mut to.wire, &mut to.tag, &mut to.nonce)
    });
    let rust = Sealed::contestant(message, |message, to, number| {
        let nonce = to.nonce(number);
        reference::seal(&message.f, &nonce, &message.masks, &message.plain, &mut to.wire, &mut to.tag).err().unwrap_or(ffi::OK)
    });
    let c = Sealed::contestant(message, |message, to, number| {
        let nonce = to.nonce(number);
        message.fast.seal(&nonce, &message.masks, &message.plain, &mut to.wire, &mut to.tag);
        ffi::OK
    });
    Task { name, bytes: Some(message.plain.len()), calls, ours, rust, c: Some(c) }
}

/// Each call starts from the key's bytes.
fn sealing_from_key(message: &Rc<Message>, name: String, calls: u32) -> Task {
    let ours = Sealed::contestant(message, |message, to, number| {
        to.issuer.next = u32::from(number);
        ffi::seal(&message.key, &mut to.issuer, &message.masks, &message.plain, &mut to.wire, &mut to.tag, &mut to.nonce)
    });
    let rust = Sealed::contestant(message, |message, to, number| {
        let f = KeyedFunction::from_key(black_box(&message.key)).expect("16 bytes are taken");
        let nonce = to.nonce(number);
        reference::seal(&f, &nonce, &message.masks, &message.plain, &mut to.wire, &mut to.tag).err().unwrap_or(ffi::OK)
    });
    let mut fast = FastKey::empty();
    let c = Sealed::contestant(message, move |message, to, number| {
        let answer = fast.load(&message.key);
        let nonce = to.nonce(number);
        fast.seal(&nonce, &message.masks, &message.plain, &mut to.wire, &mut to.tag);
        answer
    });
    Task { name, bytes: Some(message.plain.len()), calls, ours, rust, c: Some(c) }
}

/// Every call opens the same message, and answers a number.
fn opener(message: &Rc<Message>, mut call: impl FnMut(&Message, &mut [u8]) -> u32 + 'static) -> Contestant {
    let message = Rc::clone(message);
    let mut plain = vec![0; message.wire.len()];
    assert!(call(&message, &mut plain) == ffi::OK && plain == message.plain, "a contestant opens otherwise");
    Contestant::new(move |_| {
        black_box(call(&message, black_box(&mut plain)));
    })
}

fn opening(message: &Rc<Message>, name: String, calls: u32) -> Task {
    let ours = opener(message, |message, to| ffi::open_with_table(&message.table, &message.nonce, &message.masks, &message.wire, to, &message.tag));
    let rust = opener(message, |message, to| {
        reference::open(&message.f, &message.nonce, &message.masks, &message.wire, to, &message.tag).err().unwrap_or(ffi::OK)
    });
    let c = opener(message, |message, to| message.fast.open(&message.nonce, &message.masks, &message.wire, to, &message.tag));
    Task { name, bytes: Some(message.wire.len()), calls, ours, rust, c: Some(c) }
}

fn opening_from_key(message: &Rc<Message>, name: String, calls: u32) -> Task {
    let ours = opener(message, |message, to| ffi::open(&message.key, &message.nonce, &message.masks, &message.wire, to, &message.tag));
    let rust = opener(message, |message, to| {
        let f = KeyedFunction::from_key(black_box(&message.key)).expect("16 bytes are taken");
        reference::open(&f, &message.nonce, &message.masks, &message.wire, to, &message.tag).err().unwrap_or(ffi::OK)
    });
    let mut fast = FastKey::empty();
    let c = opener(message, move |message, to| {
        fast.load(&message.key);
        fast.open(&message.nonce, &message.masks, &message.wire, to, &message.tag)
    });
    Task { name, bytes: Some(message.wire.len()), calls, ours, rust, c: Some(c) }
}

// ------------------------------------------------------------------ keys, nonces and tapes

fn key_loading(message: &Rc<Message>) -> Task {
    let (key, wanted) = (message.key, *message.table);
    let mut table = Framed::new(Table { words: [0; 256] });
    assert!(ffi::fill_table(&key, &mut table) == ffi::OK && *table == wanted, "a contestant loads otherwise");
    let ours = Contestant::new(move |_| {
        black_box(ffi::fill_table(&key, black_box(&mut table)));
    });
    let rust = Contestant::new(move |_| {
        let _ = black_box(KeyedFunction::from_key(black_box(&key)));
    });
    let mut fast = FastKey::empty();
    assert!(fast.load(&key) == ffi::OK && fast.table() == wanted, "a contestant loads otherwise");
    let c = Contestant::new(move |_| {
        black_box(fast.load(black_box(&key)));
        black_box(&mut fast);
    });
    Task { name: "load a key of 16 bytes".to_string(), bytes: None, calls: CALLS_OF_KEYS, ours, rust, c: Some(c) }
}

const TAPE_WORDS: usize = 20_000;

/// A tape of one message of 20,000 sealed words, listed from its bytes, the key among them, to its text.
fn replay() -> Task {
    let message = Message::new(2 * TAPE_WORDS, false);
    let mut input = [&[16], &message.key[..], b"N", &message.nonce[..]].concat();
    message.wire.chunks(2).for_each(|word| input.extend([b'S', word[0], word[1]]));
    input.extend([b"T", &message.tag[..]].concat());
    let wanted = reference::listing(&input);
    let (mut text, mut length) = (vec![0; 12 * input.len() + 24], Framed::new(0));
    let answer = ffi::list(&input, &mut text, &mut length);
    assert!(answer == ffi::OK && text[..*length] == *wanted.as_bytes(), "a contestant lists otherwise");
    let theirs = input.clone();
    let ours = Contestant::new(move |_| {
        black_box(ffi::list(&input, black_box(&mut text), &mut length));
    });
    let rust = Contestant::new(move |_| {
        black_box(reference::listing(black_box(&theirs)));
    });
    let name = format!("list a tape of {} sealed words", grouped(TAPE_WORDS));
    Task { name, bytes: Some(2 * TAPE_WORDS), calls: 1, ours, rust, c: None }
}

// ------------------------------------------------------------------ the table

fn print(tasks: &[Task], ghz: f64) {
    println!();
    println!("Best of {ROUNDS} rounds, one thread, a core clock of about {ghz:.2} GHz. Each cell: nanoseconds, cycles.");
    println!();
    println!("| Task | Time for a | Ours | Plain Rust | Fast C | Ours / Rust | Ours / C |");
    println!("|---|---|---|---|---|---|---|");
    for task in tasks {
        let unit = task.bytes.map_or("call", |_| "byte");
        let bytes = task.bytes.unwrap_or(1) as f64;
        let times = [Some(&task.ours), Some(&task.rust), task.c.as_ref()].map(|who| who.map(|who| who.best / bytes));
        print_line(&task.name, unit, times, ghz);
    }
    println!();
    let (stream, tagged) = PUBLISHED;
    println!("For orientation: the designers published {stream} cycles a byte for the stream and {tagged} for encryption with a tag (2005).");
}

fn print_line(name: &str, unit: &str, times: [Option<f64>; 3], ghz: f64) {
    let digits = if unit == "byte" { 2 } else { 0 };
    let cell = |time: Option<f64>| time.map_or("–".to_string(), |ns| format!("{ns:.digits$} ns, {:.*}", digits.min(1), ns * ghz));
    let ratio = |theirs: Option<f64>| times[0].zip(theirs).map_or("–".to_string(), |(ours, theirs)| format!("{:.2}", ours / theirs));
    println!("| {name} | {unit} | {} | {} | {} | {} | {} |", cell(times[0]), cell(times[1]), cell(times[2]), ratio(times[1]), ratio(times[2]));
}
