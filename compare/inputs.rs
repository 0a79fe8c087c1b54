//! Random things to seal, to open and to list, the same for the same seed: each case is made from its own numbers, so that any one of them can
//! be made again alone.

use crate::ffi::Table;
use crate::lent::{Framed, Lent};
use crate::messages::{Keyed, Opening, Sealing};
use crate::reference::{self, bytes_from_words, KeyedFunction, Rng};

/// The numbers of one case of one subject.
pub fn rng(seed: u64, subject: u64, case: u64) -> Rng {
    let mut mixed = seed;
    for part in [subject, case] {
        mixed = (mixed ^ part).wrapping_add(0x632b_e59b_d9b4_e019).wrapping_mul(0xff51_afd7_ed55_8ccd);
        mixed ^= mixed >> 32;
    }
    Rng::new(mixed)
}

// ------------------------------------------------------------------ what is wrong with a message

/// Which checks a message is made to fail. A message that is sealed and one that is opened have the same six.
#[derive(Clone, Copy, Default)]
pub struct Faults {
    pub key: bool,
    /// The issuer is used up; the nonce does not fit.
    pub nonce: bool,
    pub input: bool,
    pub masks: bool,
    pub output: bool,
    pub tag: bool,
}

/// What happens to a message between sealing and opening.
#[derive(Clone, Copy, PartialEq, Eq)]
pub enum Damage {
    None,
    Tag,
    Wire,
    Masks,
    Nonce,
    Key,
    Everything,
}

const DAMAGES: [Damage; 7] = [Damage::None, Damage::Tag, Damage::Wire, Damage::Masks, Damage::Nonce, Damage::Key, Damage::Everything];

/// What a message is to be.
pub struct Plan {
    pub faults: Faults,
    pub damage: Damage,
    /// How many bytes it has; none: any number.
    length: Option<usize>,
}

/// Lengths that must not be left to chance: none, a usual one, the longest, and the first that is too long.
const LENGTHS: [usize; 4] = [0, 1600, 131_072, 131_074];

/// The first messages have no fault, each fault alone, and each two at once; the next are damaged in each way; the next have each of the lengths;
/// and then all is left to chance.
pub fn plan(rng: &mut Rng, case: u64) -> Plan {
    let (pairs, case) = (all_pairs(), case as usize);
    let (damages, lengths) = (pairs.len(), pairs.len() + DAMAGES.len());
    if case < damages {
        Plan { faults: pairs[case], damage: Damage::None, length: None }
    } else if case < lengths {
        Plan { faults: Faults::default(), damage: DAMAGES[case - damages], length: None }
    } else if case < lengths + LENGTHS.len() {
        Plan { faults: Faults::default(), damage: Damage::None, length: Some(LENGTHS[case - lengths]) }
    } else {
        any_plan(rng)
    }
}

fn any_plan(rng: &mut Rng) -> Plan {
    let damage = if rng.chance(3) { Damage::None } else { DAMAGES[rng.below(DAMAGES.len())] };
    let faults = match rng.below(4) {
        0 | 1 => Faults::default(),
        2 => Faults::of(&[rng.below(6)]),
        _ => Faults::of(&(0..6).filter(|_| rng.chance(3)).collect::<Vec<_>>()),
    };
    Plan { faults, damage, length: None }
}

fn all_pairs() -> Vec<Faults> {
    let mut all = vec![Faults::default()];
    for first in 0..6 {
        all.push(Faults::of(&[first]));
        all.extend((first + 1..6).map(|second| Faults::of(&[first, second])));
    }
    all
}

impl Faults {
    fn of(which: &[usize]) -> Faults {
        let has = |fault| which.contains(&fault);
        Faults { key: has(0), nonce: has(1), input: has(2), masks: has(3), output: has(4), tag: has(5) }
    }
}

// ------------------------------------------------------------------ messages

/// A message to be sealed, by each keyed function that is the same.
pub fn sealing(rng: &mut Rng, plan: &Plan) -> (Vec<Keyed>, Sealing) {
    let faults = plan.faults;
    let origin = Origin::any(rng, faults.key);
    let length = input_length(rng, plan);
    let sealing = Sealing {
        run: number_of_32_bits(rng),
        next: if faults.nonce { used_up(rng) } else { message_number(rng) },
        masks: lent(rng, |rng| masks(rng, length, faults.masks)),
        input: lent(rng, |rng| rng.bytes(length)),
        output: buffer(rng, length, faults.output),
        tag: lent(rng, |rng| vec![0x5a; tag_length(rng, faults.tag)]),
    };
    (origin.ways(rng), sealing)
}

/// A message to be opened. The oracle sealed it; then it was damaged; then it was made to fail the checks.
pub fn opening(rng: &mut Rng, plan: &Plan) -> (Vec<Keyed>, Opening) {
    let faults = plan.faults;
    let mut origin = Origin::any(rng, faults.key);
    let length = input_length(rng, plan);
    let mut nonce = nonce(rng, faults.nonce);
    let mut masks = masks(rng, length, faults.masks);
    let (mut wire, mut tag) = sealed(rng, &origin, &nonce, &masks, length);
    let nothing_to_turn = match plan.damage {
        Damage::None => false,
        Damage::Tag => !turn_a_bit(rng, &mut tag),
        Damage::Wire => !turn_a_bit(rng, &mut wire),
        Damage::Masks => !turn_a_bit(rng, &mut masks),
        Damage::Nonce => !turn_a_bit(rng, &mut nonce),
        Damage::Key => !origin.damage(rng),
        Damage::Everything => {
            tag = rng.bytes(16);
            false
        }
    };
    if nothing_to_turn {
        turn_a_bit(rng, &mut tag);
    }
    tag.resize(tag_length(rng, faults.tag), 0);
    let opening = Opening {
        nonce: lent(rng, |_| nonce),
        masks: lent(rng, |_| masks),
        input: lent(rng, |_| wire),
        output: buffer(rng, length, faults.output),
        tag: lent(rng, |_| tag),
    };
    (origin.ways(rng), opening)
}

/// Wire and tag of a random message, where the oracle can seal one so; else random ones.
fn sealed(rng: &mut Rng, origin: &Origin, nonce: &[u8], masks: &[u8], length: usize) -> (Vec<u8>, Vec<u8>) {
    let plain = rng.bytes(length);
    let (mut wire, mut tag) = (vec![0; length], vec![0; 16]);
    let done = origin.function().and_then(|f| reference::seal(&f, nonce, masks, &plain, &mut wire, &mut tag));
    match done {
        Ok(()) => (wire, tag),
        Err(_) => (plain, rng.bytes(16)),
    }
}

/// Turns one bit, where there is one.
fn turn_a_bit(rng: &mut Rng, bytes: &mut [u8]) -> bool {
    if bytes.is_empty() {
        return false;
    }
    bytes[rng.below(bytes.len())] ^= 1 << rng.below(8);
    true
}

fn lent(rng: &mut Rng, make: impl FnOnce(&mut Rng) -> Vec<u8>) -> Lent {
    let bytes = make(rng);
    Lent::new(&bytes, rng.below(16))
}

// ------------------------------------------------------------------ keyed functions

/// Where a keyed function comes from.
enum Origin {
    Key(Vec<u8>),
    /// A table of no key, that keeps the law.
    Table(Table),
    /// A key and a table that are both refused.
    Neither(Vec<u8>, Table),
}

impl Origin {
    fn any(rng: &mut Rng, refused: bool) -> Origin {
        if refused {
            return Origin::Neither(unfit_key(rng), unlawful_table(rng));
        }
        match rng.below(8) {
            0 => Origin::Table(lawful_table(rng)),
            1 => Origin::Key(rng.bytes(16)),
            _ => Origin::Key(rng.key()),
        }
    }

    fn function(&self) -> Result<KeyedFunction, u32> {
        match self {
            Origin::Key(key) => KeyedFunction::from_key(key),
            Origin::Table(table) => KeyedFunction::from_table(&table.words),
            Origin::Neither(..) => Err(1),
        }
    }

    /// Another function that is nearly the same, where there is one.
    fn damage(&mut self, rng: &mut Rng) -> bool {
        match self {
            Origin::Key(key) => turn_a_bit(rng, key),
            Origin::Table(table) => {
                table.words[rng.below(256)] ^= 1 << rng.below(8);
                true
            }
            Origin::Neither(..) => false,
        }
    }

    /// A key, and its table by the oracle; or what else there is.
    fn ways(self, rng: &mut Rng) -> Vec<Keyed> {
        match self {
            Origin::Key(key) => {
                let f = KeyedFunction::from_key(&key).expect("such a key fits");
                vec![Keyed::Key(lent(rng, |_| key)), Keyed::Table(Box::new(Framed::new(Table { words: f.s })))]
            }
            Origin::Table(table) => vec![Keyed::Table(Box::new(Framed::new(table)))],
            Origin::Neither(key, table) => vec![Keyed::Key(lent(rng, |_| key)), Keyed::Table(Box::new(Framed::new(table)))],
        }
    }
}

fn unfit_key(rng: &mut Rng) -> Vec<u8> {
    let length = [0, 0, 17, 17, 18, 18, 32, 256, 272][rng.below(9)];
    rng.bytes(length)
}

/// A table that keeps the law and is, but for the rarest chance, of no key.
fn lawful_table(rng: &mut Rng) -> Table {
    let (word, f) = (rng.word(), KeyedFunction::from_key(&rng.key()).expect("such a key fits"));
    let with_low_bytes = |rng: &mut Rng, high: &dyn Fn(usize) -> u16| std::array::from_fn(|i| high(i) & 0xff00 | u16::from(rng.byte()));
    let words = match rng.below(10) {
        0 => [0; 256],
        1 => [0xffff; 256],
        2 => [word; 256],
        3 | 4 => with_low_bytes(rng, &|_| word),
        5 | 6 => with_low_bytes(rng, &|i| f.s[i]),
        _ => {
            let images = permutation(rng);
            with_low_bytes(rng, &|i| (i as u16 ^ images[i]) << 8)
        }
    };
    Table { words }
}

fn permutation(rng: &mut Rng) -> Vec<u16> {
    let mut images: Vec<u16> = (0..256).collect();
    for at in (1..256).rev() {
        images.swap(at, rng.below(at + 1));
    }
    images
}

/// A lawful table with two images that are the same, or random words.
fn unlawful_table(rng: &mut Rng) -> Table {
    let mut table = lawful_table(rng);
    if rng.chance(4) {
        table.words = std::array::from_fn(|_| rng.word());
    }
    let one = rng.below(256);
    let other = (one + 1 + rng.below(255)) % 256;
    table.words[one] = table.words[other] ^ ((one ^ other) << 8) as u16;
    table
}

// ------------------------------------------------------------------ numbers, lengths and masks

fn number_of_32_bits(rng: &mut Rng) -> u32 {
    match rng.below(6) {
        0 => [0, 1, 65535, 65536, u32::MAX][rng.below(5)],
        _ => rng.next() as u32,
    }
}

fn message_number(rng: &mut Rng) -> u32 {
    match rng.below(6) {
        0 => [0, 1, 255, 256, 65534, 65535][rng.below(6)],
        1 => rng.below(65536) as u32,
        _ => rng.below(300) as u32,
    }
}

fn used_up(rng: &mut Rng) -> u32 {
    match rng.below(4) {
        0 => 65536 + rng.below(3) as u32,
        1 => u32::MAX - rng.below(3) as u32,
        2 => 65536 * (1 + rng.below(65535) as u32),
        _ => (rng.next() as u32).max(65536),
    }
}

/// Six bytes as an issuer makes them, or any other even number up to 32; or a number of bytes that is refused.
fn nonce(rng: &mut Rng, refused: bool) -> Vec<u8> {
    let length = match (refused, rng.below(3)) {
        (true, 0) => 34,
        (true, 1) => [33, 35, 36, 64, 256, 258][rng.below(6)],
        (true, _) => 1 + 2 * rng.below(16),
        (false, 0) => 6,
        (false, 1) => [0, 32, 6][rng.below(3)],
        (false, _) => 2 * rng.below(17),
    };
    rng.bytes(length)
}

/// Mostly up to a few hundred words, now and then 1,600 bytes, and a few times the longest message there is.
fn words(rng: &mut Rng) -> usize {
    match rng.below(1000) {
        0..=199 => rng.below(6),
        200..=799 => rng.below(60),
        800..=949 => rng.below(300),
        950..=979 => 256 * (1 + rng.below(5)) + rng.below(3) - 1,
        980..=998 => 800,
        _ => 65536,
    }
}

/// How many bytes a message has: an odd number or too many, where that has to be refused; and one at least, where the output has to be short.
fn input_length(rng: &mut Rng, plan: &Plan) -> usize {
    if let Some(length) = plan.length {
        return length;
    }
    let length = 2 * words(rng).max(plan.faults.output as usize);
    match (plan.faults.input, rng.below(40)) {
        (false, _) => length,
        (true, 0) => 131_074,
        (true, 1) => 131_073 + rng.below(9),
        (true, _) => length + 1,
    }
}

/// Masks for so many bytes, in one of the oracle's four styles; or of another length.
fn masks(rng: &mut Rng, length: usize, refused: bool) -> Vec<u8> {
    let style = rng.below(4);
    let mut masks = bytes_from_words(&(0..length.div_ceil(2)).map(|_| rng.mask(style)).collect::<Vec<_>>());
    masks.resize(if refused { other_length(rng, length) } else { length }, 0xff);
    masks
}

fn other_length(rng: &mut Rng, length: usize) -> usize {
    let other = match rng.below(6) {
        0 => length + 1,
        1 => length.saturating_sub(1),
        2 => length + 2,
        3 => length.saturating_sub(2),
        4 => 0,
        _ => rng.below(2 * length + 2),
    };
    if other == length { length + 2 } else { other }
}

/// An output just as long as the input, or longer; or shorter.
fn buffer(rng: &mut Rng, length: usize, short: bool) -> Lent {
    let room = match (short, rng.below(3)) {
        (true, 0) => length - 1,
        (true, 1) => 0,
        (true, _) => rng.below(length),
        (false, 0) => length,
        (false, 1) => length + 1 + rng.below(4),
        (false, _) => length + rng.below(40),
    };
    Lent::filled(room, 0xa5, rng.below(16))
}

fn tag_length(rng: &mut Rng, refused: bool) -> usize {
    match (refused, rng.below(3)) {
        (false, _) => 16,
        (true, 0) => [0, 15, 17, 32][rng.below(4)],
        (true, 1) => rng.below(16),
        (true, _) => 17 + rng.below(300),
    }
}
