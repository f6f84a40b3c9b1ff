//! Where the memory stream's bytes lie in the lent memory.

use crate::ffi;

/// An offset in the layout: the number of layout bytes before it.
#[derive(Clone, Copy, Debug, PartialEq, Eq, PartialOrd, Ord)]
pub struct LayoutOffset(pub u64);

/// An offset in the lent memory. It is a type of its own, so that it can't be passed for a [`LayoutOffset`].
#[derive(Clone, Copy, Debug, PartialEq, Eq, PartialOrd, Ord)]
pub struct MemoryOffset(pub u64);

/// A piece of memory, and where its repeats lie.
///
/// Repeat r covers `count` bytes from `start + r * (count + skip)` on.
#[derive(Clone, Copy, Debug, PartialEq, Eq)]
pub struct Entry {
    /// Where the first repeat begins.
    pub start: MemoryOffset,
    /// Bytes in each repeat.
    pub count: u32,
    /// Bytes between one repeat and the next.
    pub skip: u32,
}

/// Where the bytes of the memory stream lie: in repeat 0 of each entry, in order, then in repeat 1 of each, and so on.
#[derive(Clone, Copy, Debug, PartialEq, Eq)]
pub struct Layout {
    entries: [Entry; ffi::ENTRIES],
    used: u32,
    repeat: u32,
}

impl Layout {
    /// Makes a layout of 1 to 16 entries and at most 1,024 pieces (entries times repeat). Configure refuses any other.
    pub fn new(entries: &[Entry], repeat: u32) -> Self {
        let unused = Entry {
            start: MemoryOffset(0),
            count: 0,
            skip: 0,
        };
        let mut room = [unused; ffi::ENTRIES];
        for (place, entry) in room.iter_mut().zip(entries) {
            *place = *entry;
        }
        // If there are too many entries their number is kept, so that configure refuses the layout.
        let used = u32::try_from(entries.len()).unwrap_or(u32::MAX);
        Layout {
            entries: room,
            used,
            repeat,
        }
    }

    /// Makes a layout of these entries, each once.
    pub fn list(entries: &[Entry]) -> Self {
        Layout::new(entries, 1)
    }

    /// Makes a layout of the first `count` bytes of memory.
    pub fn contiguous(count: u32) -> Self {
        let start = MemoryOffset(0);
        Layout::list(&[Entry { start, count, skip: 0 }])
    }

    pub(crate) fn raw(&self) -> ffi::Layout {
        ffi::Layout {
            entries: self.entries.map(Entry::raw),
            used: self.used,
            repeat: self.repeat,
        }
    }
}

impl Entry {
    fn raw(self) -> ffi::Entry {
        ffi::Entry {
            start: self.start.0,
            count: self.count,
            skip: self.skip,
        }
    }
}
