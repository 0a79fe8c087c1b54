//! Memory that is lent to a call.

use std::hint::black_box;
use std::mem::offset_of;
use std::ops::{Deref, DerefMut};

const MARGIN: usize = 32;
const MARK: u8 = 0xe7;

/// Some bytes with a margin before and behind them, which a call must leave alone. The margin in front has one of sixteen widths, so that the
/// bytes begin at even and odd addresses.
#[derive(Clone, PartialEq, Eq)]
pub struct Lent {
    memory: Vec<u8>,
    front: usize,
    length: usize,
}

impl Lent {
    pub fn new(bytes: &[u8], shift: usize) -> Lent {
        let front = MARGIN + shift % 16;
        let mut memory = vec![MARK; front + bytes.len() + MARGIN];
        memory[front..front + bytes.len()].copy_from_slice(bytes);
        Lent { memory, front, length: bytes.len() }
    }

    /// So many bytes that all look alike.
    pub fn filled(length: usize, with: u8, shift: usize) -> Lent {
        Lent::new(&vec![with; length], shift)
    }

    /// Whether both margins are as they were.
    pub fn margins_kept(&self) -> bool {
        let (before, rest) = self.memory.split_at(self.front);
        before.iter().chain(&rest[self.length..]).all(|&byte| byte == MARK)
    }
}

impl Deref for Lent {
    type Target = [u8];

    fn deref(&self) -> &[u8] {
        &self.memory[self.front..self.front + self.length]
    }
}

impl DerefMut for Lent {
    fn deref_mut(&mut self) -> &mut [u8] {
        &mut self.memory[self.front..self.front + self.length]
    }
}

/// A value with a margin before and behind it, which a call must leave alone. The margins begin where the value ends.
#[repr(C)]
#[derive(Clone, Copy, PartialEq, Eq)]
pub struct Framed<T> {
    before: [u8; MARGIN],
    value: T,
    behind: [u8; MARGIN],
}

impl<T> Framed<T> {
    pub fn new(value: T) -> Framed<T> {
        assert!(offset_of!(Framed<T>, value) == MARGIN && offset_of!(Framed<T>, behind) == MARGIN + size_of::<T>());
        Framed { before: [MARK; MARGIN], value, behind: [MARK; MARGIN] }
    }

    /// Where the value lies. The pointer is one into the whole frame, so that no compiler takes the margins for what no call can reach.
    pub fn lend(&mut self) -> *mut T {
        let whole: *mut Framed<T> = black_box(self);
        whole.cast::<u8>().wrapping_add(MARGIN).cast()
    }

    /// As `lend`, for a call that only reads.
    pub fn lend_to_read(&self) -> *const T {
        let whole: *const Framed<T> = black_box(self);
        whole.cast::<u8>().wrapping_add(MARGIN).cast()
    }

    /// Whether both margins are as they were.
    pub fn margins_kept(&self) -> bool {
        let frame = black_box(self);
        frame.before.iter().chain(&frame.behind).all(|&byte| byte == MARK)
    }
}

impl<T> Deref for Framed<T> {
    type Target = T;

    fn deref(&self) -> &T {
        &self.value
    }
}

impl<T> DerefMut for Framed<T> {
    fn deref_mut(&mut self) -> &mut T {
        &mut self.value
    }
}
