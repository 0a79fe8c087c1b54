//! The calls of `include/futsamboly.h` and of the other author's fast C, as safe functions. All unsafe code of this program is here.
//!
//! The header's functions are called through wrappers in `header_shim.c`, which a C compiler holds against the header; `header.rs` holds what
//! is declared here against it. What the header asks of a caller, slices and references keep: no pointer is null, as much can be read and
//! written as the length says, and what is written overlaps nothing else.

use crate::lent::Framed;
use std::mem::{offset_of, size_of};

// What the calls answer.
pub const OK: u32 = 0;
pub const KEY: u32 = 1;
pub const TABLE: u32 = 2;
pub const NONCE: u32 = 3;
pub const EXHAUSTED: u32 = 4;
pub const INPUT: u32 = 6;
pub const MASKS: u32 = 7;
pub const OUTPUT: u32 = 8;
pub const TAG_LENGTH: u32 = 9;
pub const TAG_DIFFERS: u32 = 10;

// What a receiver says to a tag.
pub const AGREES: u8 = 1;
pub const DIFFERS: u8 = 2;
pub const BROKEN: u8 = 3;

#[repr(C)]
#[derive(Clone, Copy, Debug, PartialEq, Eq)]
pub struct Issuer {
    pub run: u32,
    pub next: u32,
}

#[repr(C)]
#[derive(Clone, Copy, Debug, PartialEq, Eq)]
pub struct Nonce {
    pub bytes: [u8; 6],
}

#[repr(C)]
#[derive(Clone, Copy, Debug, PartialEq, Eq)]
pub struct Table {
    pub words: [u16; 256],
}

#[repr(C)]
#[derive(Clone, Copy, Debug, PartialEq, Eq)]
pub struct Receiver {
    pub cipher: [u16; 17],
    pub check: [u16; 17],
    pub key: [u8; 16],
    pub key_length: u8,
    pub state: u8,
}

#[repr(C)]
#[derive(Clone, Copy, Debug, PartialEq, Eq)]
pub struct Answer {
    pub reading: u16,
    pub handed_out: u8,
    pub row: u8,
}

/// The three tables of a key of the fast C. The words of the first are those of the table, shifted up.
#[repr(C)]
#[derive(Clone)]
pub struct FastKey {
    tables: [[u32; 256]; 3],
}

/// The functions and values as C has them.
mod c {
    use super::*;

    extern "C" {
        pub fn header_fill_table(key: *const u8, key_length: usize, table: *mut Table) -> u32;
        pub fn header_seal(
            key: *const u8, key_length: usize, issuer: *mut Issuer, masks: *const u8, masks_length: usize, input: *const u8, input_length: usize,
            output: *mut u8, output_length: usize, tag: *mut u8, tag_length: usize, nonce: *mut Nonce,
        ) -> u32;
        pub fn header_seal_with_table(
            table: *const Table, issuer: *mut Issuer, masks: *const u8, masks_length: usize, input: *const u8, input_length: usize,
            output: *mut u8, output_length: usize, tag: *mut u8, tag_length: usize, nonce: *mut Nonce,
        ) -> u32;
        pub fn header_open(
            key: *const u8, key_length: usize, nonce: *const u8, nonce_length: usize, masks: *const u8, masks_length: usize, input: *const u8,
            input_length: usize, output: *mut u8, output_length: usize, tag: *const u8, tag_length: usize,
        ) -> u32;
        pub fn header_open_with_table(
            table: *const Table, nonce: *const u8, nonce_length: usize, masks: *const u8, masks_length: usize, input: *const u8,
            input_length: usize, output: *mut u8, output_length: usize, tag: *const u8, tag_length: usize,
        ) -> u32;
        pub fn header_list(input: *const u8, input_length: usize, text: *mut u8, text_length: usize, length: *mut usize) -> u32;
        pub fn header_receiver_new(receiver: *mut Receiver, key: *const u8, key_length: usize) -> u32;
        pub fn header_receiver_begin(receiver: *mut Receiver, nonce: *const u8, nonce_length: usize) -> u32;
        pub fn header_receiver_word(receiver: *mut Receiver, mask: u16, wire: u16, answer: *mut Answer) -> u32;
        pub fn header_receiver_break(receiver: *mut Receiver) -> u32;
        pub fn header_receiver_finish(receiver: *mut Receiver, tag: *const u8, tag_length: usize, verdict: *mut u8) -> u32;

        pub static header_layout: [usize; LAYOUT];
        pub static header_layout_length: usize;
        pub static header_numbers: [u32; NUMBERS.len()];
        pub static header_numbers_length: usize;
        pub static header_issuer: Issuer;

        pub fn fast_key_size() -> usize;
        pub fn fast_load(key: *mut FastKey, bytes: *const u8, length: usize) -> i32;
        pub fn fast_seal(
            key: *const FastKey, nonce: *const u8, nonce_length: usize, masks: *const u8, input: *const u8, output: *mut u8, length: usize,
            tag: *mut u8,
        );
        pub fn fast_open(
            key: *const FastKey, nonce: *const u8, nonce_length: usize, masks: *const u8, input: *const u8, output: *mut u8, length: usize,
            tag: *const u8,
        ) -> i32;
        pub fn fast_core_ghz() -> f64;
    }
}

// ------------------------------------------------------------------ the static library

pub fn fill_table(key: &[u8], table: &mut Framed<Table>) -> u32 {
    unsafe { c::header_fill_table(key.as_ptr(), key.len(), table.lend()) }
}

pub fn seal(
    key: &[u8], issuer: &mut Framed<Issuer>, masks: &[u8], input: &[u8], output: &mut [u8], tag: &mut [u8], nonce: &mut Framed<Nonce>,
) -> u32 {
    unsafe {
        c::header_seal(
            key.as_ptr(), key.len(), issuer.lend(), masks.as_ptr(), masks.len(), input.as_ptr(), input.len(),
            output.as_mut_ptr(), output.len(), tag.as_mut_ptr(), tag.len(), nonce.lend(),
        )
    }
}

pub fn seal_with_table(
    table: &Framed<Table>, issuer: &mut Framed<Issuer>, masks: &[u8], input: &[u8], output: &mut [u8], tag: &mut [u8], nonce: &mut Framed<Nonce>,
) -> u32 {
    unsafe {
        c::header_seal_with_table(
            table.lend_to_read(), issuer.lend(), masks.as_ptr(), masks.len(), input.as_ptr(), input.len(),
            output.as_mut_ptr(), output.len(), tag.as_mut_ptr(), tag.len(), nonce.lend(),
        )
    }
}

pub fn open(key: &[u8], nonce: &[u8], masks: &[u8], input: &[u8], output: &mut [u8], tag: &[u8]) -> u32 {
    unsafe {
        c::header_open(
            key.as_ptr(), key.len(), nonce.as_ptr(), nonce.len(), masks.as_ptr(), masks.len(), input.as_ptr(), input.len(),
            output.as_mut_ptr(), output.len(), tag.as_ptr(), tag.len(),
        )
    }
}

pub fn open_with_table(table: &Framed<Table>, nonce: &[u8], masks: &[u8], input: &[u8], output: &mut [u8], tag: &[u8]) -> u32 {
    unsafe {
        c::header_open_with_table(
            table.lend_to_read(), nonce.as_ptr(), nonce.len(), masks.as_ptr(), masks.len(), input.as_ptr(), input.len(),
            output.as_mut_ptr(), output.len(), tag.as_ptr(), tag.len(),
        )
    }
}

pub fn list(input: &[u8], text: &mut [u8], length: &mut Framed<usize>) -> u32 {
    unsafe { c::header_list(input.as_ptr(), input.len(), text.as_mut_ptr(), text.len(), length.lend()) }
}

pub fn receiver_new(receiver: &mut Framed<Receiver>, key: &[u8]) -> u32 {
    unsafe { c::header_receiver_new(receiver.lend(), key.as_ptr(), key.len()) }
}

pub fn receiver_begin(receiver: &mut Framed<Receiver>, nonce: &[u8]) -> u32 {
    unsafe { c::header_receiver_begin(receiver.lend(), nonce.as_ptr(), nonce.len()) }
}

pub fn receiver_word(receiver: &mut Framed<Receiver>, mask: u16, wire: u16, answer: &mut Framed<Answer>) -> u32 {
    unsafe { c::header_receiver_word(receiver.lend(), mask, wire, answer.lend()) }
}

pub fn receiver_break(receiver: &mut Framed<Receiver>) -> u32 {
    unsafe { c::header_receiver_break(receiver.lend()) }
}

pub fn receiver_finish(receiver: &mut Framed<Receiver>, tag: &[u8], verdict: &mut Framed<u8>) -> u32 {
    unsafe { c::header_receiver_finish(receiver.lend(), tag.as_ptr(), tag.len(), verdict.lend()) }
}

// ------------------------------------------------------------------ the fast C

impl FastKey {
    pub fn empty() -> FastKey {
        FastKey { tables: [[0; 256]; 3] }
    }

    /// 0, or 1 where the key does not fit.
    pub fn load(&mut self, key: &[u8]) -> u32 {
        unsafe { c::fast_load(self, key.as_ptr(), key.len()) as u32 }
    }

    /// The table that is in it, as the header has tables.
    pub fn table(&self) -> Table {
        Table { words: std::array::from_fn(|i| (self.tables[0][i] >> 16) as u16) }
    }

    /// The fast C looks at no length: what does not fit must not get there.
    fn check(nonce: &[u8], masks: &[u8], input: &[u8], output: &[u8], tag: &[u8]) {
        let nonce_fits = nonce.len() % 2 == 0 && nonce.len() <= 32;
        let input_fits = input.len() % 2 == 0 && input.len() <= 131_072;
        assert!(nonce_fits && input_fits && masks.len() == input.len() && output.len() >= input.len() && tag.len() == 16);
    }

    pub fn seal(&self, nonce: &[u8], masks: &[u8], input: &[u8], output: &mut [u8], tag: &mut [u8]) {
        FastKey::check(nonce, masks, input, output, tag);
        unsafe {
            c::fast_seal(
                self, nonce.as_ptr(), nonce.len(), masks.as_ptr(), input.as_ptr(), output.as_mut_ptr(), input.len(), tag.as_mut_ptr(),
            )
        }
    }

    /// 0, or 10 where the tag is not the one due.
    pub fn open(&self, nonce: &[u8], masks: &[u8], input: &[u8], output: &mut [u8], tag: &[u8]) -> u32 {
        FastKey::check(nonce, masks, input, output, tag);
        unsafe {
            c::fast_open(
                self, nonce.as_ptr(), nonce.len(), masks.as_ptr(), input.as_ptr(), output.as_mut_ptr(), input.len(), tag.as_ptr(),
            ) as u32
        }
    }
}

/// The core clock in GHz by the fast C's own estimate; 0 where it has none.
pub fn core_ghz() -> f64 {
    unsafe { c::fast_core_ghz() }
}

// ------------------------------------------------------------------ the header's structs and numbers

const LAYOUT: usize = 12;

/// Sizes, and places of fields, in the order in which `header_shim.c` has them.
fn layout() -> [usize; LAYOUT] {
    [
        size_of::<Issuer>(),
        offset_of!(Issuer, next),
        size_of::<Nonce>(),
        size_of::<Table>(),
        size_of::<Receiver>(),
        offset_of!(Receiver, check),
        offset_of!(Receiver, key),
        offset_of!(Receiver, key_length),
        offset_of!(Receiver, state),
        size_of::<Answer>(),
        offset_of!(Answer, handed_out),
        offset_of!(Answer, row),
    ]
}

/// The numbers of this file, in the order in which `header_shim.c` has those of the header.
const NUMBERS: [u32; 13] = [
    OK, KEY, TABLE, NONCE, EXHAUSTED, INPUT, MASKS, OUTPUT, TAG_LENGTH, TAG_DIFFERS, AGREES as u32, DIFFERS as u32, BROKEN as u32,
];

/// Whether the structs of this file lie in memory as a C compiler lays those of the header, and that of the fast C.
pub fn layout_agrees() -> bool {
    unsafe { c::header_layout_length == LAYOUT && c::header_layout == layout() && c::fast_key_size() == size_of::<FastKey>() }
}

/// Whether the numbers of this file are those that a C compiler finds in the header, and an issuer starts there with its run and message 0.
pub fn numbers_agree() -> bool {
    let fresh = Issuer { run: 0x0102_0304, next: 0 };
    unsafe { c::header_numbers_length == NUMBERS.len() && c::header_numbers == NUMBERS && c::header_issuer == fresh }
}
