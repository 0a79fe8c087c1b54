//! A stand-in for the static library, made from the oracle: `compare/altered/run` alters it, and the comparison has to see that. As it is here,
//! nothing differs.

#[path = "../../reference/reference.rs"]
#[allow(dead_code)]
mod reference;

use reference::{Answer, CheckRegister, CipherRegister, KeyedFunction, Registers, State, Verdict};
use std::slice::{from_raw_parts, from_raw_parts_mut};

#[repr(C)]
pub struct Issuer {
    run: u32,
    next: u32,
}

#[repr(C)]
pub struct Nonce {
    bytes: [u8; 6],
}

#[repr(C)]
pub struct Table {
    words: [u16; 256],
}

#[repr(C)]
pub struct Receiver {
    cipher: [u16; 17],
    check: [u16; 17],
    key: [u8; 16],
    key_length: u8,
    state: u8,
}

#[repr(C)]
pub struct Said {
    reading: u16,
    handed_out: u8,
    row: u8,
}

type Keyed = Result<KeyedFunction, u32>;

/// Bytes that are lent for reading, and such as are written.
type Bytes = (*const u8, usize);
type Room = (*mut u8, usize);

unsafe fn read<'a>(bytes: Bytes) -> &'a [u8] {
    from_raw_parts(bytes.0, bytes.1)
}

unsafe fn write<'a>(room: Room) -> &'a mut [u8] {
    from_raw_parts_mut(room.0, room.1)
}

unsafe fn by_key(key: *const u8, length: usize) -> Keyed {
    KeyedFunction::from_key(read((key, length)))
}

unsafe fn by_table(table: *const Table) -> Keyed {
    KeyedFunction::from_table(&(*table).words)
}

fn number(done: Result<(), u32>) -> u32 {
    done.err().unwrap_or(0)
}

// ------------------------------------------------------------------ whole messages

#[no_mangle]
pub unsafe extern "C" fn futsamboly_fill_table(key: *const u8, key_length: usize, table: *mut Table) -> u32 {
    let fill = |f: KeyedFunction| {
        (*table).words = f.s;
    };
    number(by_key(key, key_length).map(fill))
}

unsafe fn seal(f: Keyed, issuer: *mut Issuer, masks: Bytes, input: Bytes, output: Room, tag: Room, nonce: *mut Nonce) -> Result<(), u32> {
    let keyed = f?;
    if (*issuer).next > 65535 {
        return Err(4);
    }
    (*nonce).bytes = reference::nonce_bytes((*issuer).run, (*issuer).next as u16);
    (*issuer).next += 1;
    reference::seal(&keyed, &(*nonce).bytes, read(masks), read(input), write(output), write(tag))
}

unsafe fn open(f: Keyed, nonce: Bytes, masks: Bytes, input: Bytes, output: Room, tag: Bytes) -> Result<(), u32> {
    reference::open(&f?, read(nonce), read(masks), read(input), write(output), read(tag))
}

#[no_mangle]
pub unsafe extern "C" fn futsamboly_seal(
    key: *const u8, key_length: usize, issuer: *mut Issuer, masks: *const u8, masks_length: usize, input: *const u8, input_length: usize,
    output: *mut u8, output_length: usize, tag: *mut u8, tag_length: usize, nonce: *mut Nonce,
) -> u32 {
    let (masks, input, output, tag) = ((masks, masks_length), (input, input_length), (output, output_length), (tag, tag_length));
    number(seal(by_key(key, key_length), issuer, masks, input, output, tag, nonce))
}

#[no_mangle]
pub unsafe extern "C" fn futsamboly_seal_with_table(
    table: *const Table, issuer: *mut Issuer, masks: *const u8, masks_length: usize, input: *const u8, input_length: usize,
    output: *mut u8, output_length: usize, tag: *mut u8, tag_length: usize, nonce: *mut Nonce,
) -> u32 {
    let (masks, input, output, tag) = ((masks, masks_length), (input, input_length), (output, output_length), (tag, tag_length));
    number(seal(by_table(table), issuer, masks, input, output, tag, nonce))
}

#[no_mangle]
pub unsafe extern "C" fn futsamboly_open(
    key: *const u8, key_length: usize, nonce: *const u8, nonce_length: usize, masks: *const u8, masks_length: usize, input: *const u8,
    input_length: usize, output: *mut u8, output_length: usize, tag: *const u8, tag_length: usize,
) -> u32 {
    let (nonce, masks, input) = ((nonce, nonce_length), (masks, masks_length), (input, input_length));
    let (output, tag) = ((output, output_length), (tag, tag_length));
    number(open(by_key(key, key_length), nonce, masks, input, output, tag))
}

#[no_mangle]
pub unsafe extern "C" fn futsamboly_open_with_table(
    table: *const Table, nonce: *const u8, nonce_length: usize, masks: *const u8, masks_length: usize, input: *const u8,
    input_length: usize, output: *mut u8, output_length: usize, tag: *const u8, tag_length: usize,
) -> u32 {
    let (nonce, masks, input) = ((nonce, nonce_length), (masks, masks_length), (input, input_length));
    let (output, tag) = ((output, output_length), (tag, tag_length));
    number(open(by_table(table), nonce, masks, input, output, tag))
}

// ------------------------------------------------------------------ listings

#[no_mangle]
pub unsafe extern "C" fn futsamboly_list(input: *const u8, input_length: usize, text: *mut u8, text_length: usize, length: *mut usize) -> u32 {
    let listing = reference::listing(read((input, input_length)));
    let text = write((text, text_length));
    if listing.len() > text.len() {
        text.fill(0);
        return 8;
    }
    text[..listing.len()].copy_from_slice(listing.as_bytes());
    *length = listing.len();
    0
}

// ------------------------------------------------------------------ receivers

/// A call on a receiver that was set up, by the oracle's.
unsafe fn change(receiver: *mut Receiver, call: impl FnOnce(&mut reference::Receiver) -> Result<(), u32>) -> u32 {
    let ours = &mut *receiver;
    let length = usize::from(ours.key_length);
    if length == 0 || length > 16 {
        return 1;
    }
    let f = KeyedFunction::from_key(&ours.key[..length]).expect("it fits");
    let (r, c) = fields(ours);
    let registers = Registers { cipher: CipherRegister { r: *r }, check: CheckRegister { c: *c, times: reference::coefficient } };
    let mut theirs = reference::Receiver { f, registers, state: state_of(ours.state) };
    let done = call(&mut theirs);
    if done.is_ok() {
        let (r, c) = fields(ours);
        (*r, *c) = (theirs.registers.cipher.r, theirs.registers.check.c);
        ours.state = byte_of(theirs.state);
    }
    number(done)
}

/// Where the two registers stand in C's memory.
fn fields(ours: &mut Receiver) -> (&mut [u16; 17], &mut [u16; 17]) {
    (&mut ours.cipher, &mut ours.check)
}

fn state_of(byte: u8) -> State {
    match byte {
        17 => State::Caught,
        18 => State::Whole,
        _ => State::Lost(if byte < 17 { u32::from(byte) } else { 0 }),
    }
}

fn byte_of(state: State) -> u8 {
    match state {
        State::Lost(row) => row as u8,
        State::Caught => 17,
        State::Whole => 18,
    }
}

#[no_mangle]
pub unsafe extern "C" fn futsamboly_receiver_new(receiver: *mut Receiver, key: *const u8, key_length: usize) -> u32 {
    let set_up = |_| {
        let key = read((key, key_length));
        let padded = std::array::from_fn(|at| key.get(at).copied().unwrap_or(0));
        *receiver = Receiver { cipher: [0; 17], check: [0; 17], key: padded, key_length: key.len() as u8, state: 0 };
    };
    number(by_key(key, key_length).map(set_up))
}

#[no_mangle]
pub unsafe extern "C" fn futsamboly_receiver_begin(receiver: *mut Receiver, nonce: *const u8, nonce_length: usize) -> u32 {
    let nonce = read((nonce, nonce_length));
    change(receiver, |theirs| theirs.begin(nonce))
}

#[no_mangle]
pub unsafe extern "C" fn futsamboly_receiver_word(receiver: *mut Receiver, mask: u16, wire: u16, answer: *mut Said) -> u32 {
    let take = move |theirs: &mut reference::Receiver| {
        *answer = match theirs.word(mask, wire) {
            Answer::Reading(reading) => Said { reading, handed_out: 1, row: 0 },
            Answer::Withheld(row) => Said { reading: 0, handed_out: 0, row: row as u8 },
        };
        Ok(())
    };
    change(receiver, take)
}

#[no_mangle]
pub unsafe extern "C" fn futsamboly_receiver_break(receiver: *mut Receiver) -> u32 {
    let lose = |theirs: &mut reference::Receiver| {
        theirs.break_off();
        Ok(())
    };
    change(receiver, lose)
}

#[no_mangle]
pub unsafe extern "C" fn futsamboly_receiver_finish(receiver: *mut Receiver, tag: *const u8, tag_length: usize, verdict: *mut u8) -> u32 {
    let tag = read((tag, tag_length));
    let take = move |theirs: &mut reference::Receiver| {
        if tag.len() != 16 {
            return Err(9);
        }
        let words = reference::words_from_bytes(tag).try_into().expect("eight words");
        *verdict = match theirs.finish(words) {
            Verdict::Agrees => 1,
            Verdict::Differs => 2,
            Verdict::Broken => 3,
        };
        Ok(())
    };
    change(receiver, take)
}
