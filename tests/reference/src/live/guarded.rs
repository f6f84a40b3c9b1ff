//! A buffer with guard bytes on both sides, which no call may change, and the slices of it that calls are lent.

use std::ops::{Deref, DerefMut};

/// An odd number, so that the lent bytes are not aligned.
const GUARD_BYTES: usize = 67;

/// How a call is lent its bytes.
#[derive(Clone, Copy)]
pub enum Lending {
    /// The bytes are lent in place, between guard bytes, which show a write outside.
    InPlace,
    /// The bytes are copied to a heap block of exactly their size, so that valgrind sees a read or write outside.
    Exact,
}

pub struct Guarded {
    bytes: Vec<u8>,
    lending: Lending,
}

impl Guarded {
    pub fn new(size: usize, lending: Lending) -> Guarded {
        let mut bytes = vec![0; size + 2 * GUARD_BYTES];
        for at in 0..GUARD_BYTES {
            bytes[at] = guard_byte(at);
            bytes[GUARD_BYTES + size + at] = guard_byte(at);
        }
        Guarded { bytes, lending }
    }

    pub fn all(&self) -> &[u8] {
        &self.bytes[GUARD_BYTES..self.bytes.len() - GUARD_BYTES]
    }

    pub fn all_mut(&mut self) -> &mut [u8] {
        let end = self.bytes.len() - GUARD_BYTES;
        &mut self.bytes[GUARD_BYTES..end]
    }

    pub fn slice_mut(&mut self, at: u64, count: u64) -> &mut [u8] {
        &mut self.all_mut()[at as usize..][..count as usize]
    }

    pub fn lend(&mut self, at: u64, count: u64) -> Lent<'_> {
        let lending = self.lending;
        let own = self.slice_mut(at, count);
        let block = match lending {
            Lending::InPlace => None,
            Lending::Exact => Some(Box::from(&*own)),
        };
        Lent { own, block }
    }

    pub fn guards_are_intact(&self) -> bool {
        let after = self.bytes.len() - GUARD_BYTES;
        (0..GUARD_BYTES).all(|at| self.bytes[at] == guard_byte(at) && self.bytes[after + at] == guard_byte(at))
    }
}

/// Bytes lent to a call.
pub struct Lent<'a> {
    own: &'a mut [u8],
    block: Option<Box<[u8]>>,
}

impl Deref for Lent<'_> {
    type Target = [u8];

    fn deref(&self) -> &[u8] {
        self.block.as_deref().unwrap_or(self.own)
    }
}

impl DerefMut for Lent<'_> {
    fn deref_mut(&mut self) -> &mut [u8] {
        self.block.as_deref_mut().unwrap_or(self.own)
    }
}

/// A copy is written back, also if it was lent only for reading: a write to it must be seen.
impl Drop for Lent<'_> {
    fn drop(&mut self) {
        if let Some(block) = &self.block {
            self.own.copy_from_slice(block);
        }
    }
}

/// Neighbouring guard bytes differ, so that a shifted copy is seen too.
fn guard_byte(at: usize) -> u8 {
    (at * 37 + 11) as u8
}

#[cfg(test)]
mod tests {
    use super::*;

    #[test]
    fn guards_lie_right_beside_the_buffer() {
        let mut buffer = Guarded::new(8, Lending::InPlace);
        buffer.all_mut().fill(0xFF);
        assert!(buffer.guards_are_intact());
        for at in [GUARD_BYTES - 1, GUARD_BYTES + 8] {
            let mut changed = Guarded::new(8, Lending::InPlace);
            changed.bytes[at] ^= 1;
            assert!(!changed.guards_are_intact());
        }
    }

    #[test]
    fn what_is_written_to_a_lent_slice_is_in_the_buffer() {
        for lending in [Lending::InPlace, Lending::Exact] {
            let mut buffer = Guarded::new(8, lending);
            buffer.lend(2, 3).fill(0xFF);
            assert_eq!(buffer.all(), [0, 0, 0xFF, 0xFF, 0xFF, 0, 0, 0]);
        }
    }
}
