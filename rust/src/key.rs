//! Keys, and transfers in one call.

use std::error::Error;
use std::fmt::{Debug, Display, Formatter};

use crate::{ffi, BlockError, Configuration, LayoutOffset, Refusal, Session};

/// How many bytes a transfer has moved, fields included.
#[derive(Clone, Copy, Debug, PartialEq, Eq)]
pub struct Totals {
    /// Bytes taken from the input stream.
    pub taken: u64,
    /// Bytes written to the output stream.
    pub written: u64,
}

/// A configuration over one lent memory, and the first error found since the last check.
///
/// A key can't be cloned: both keys would report the same error, and a check of one would leave it in the other. For a
/// second key with the same configuration, keep the [`Configuration`] and configure a new key with it.
#[must_use = "a key holds the first error found, and check returns it"]
pub struct Key {
    pub(crate) raw: ffi::Key,
}

/// An open that was refused. It holds the key, so that a caller can go on with it:
///
/// ```
/// # use garoalva::*;
/// fn open_or_return(key: Key, memory: &[u8]) -> Result<Session, Key> {
///     key.open(memory, LayoutOffset(0), 16).map_err(|refused| refused.key)
/// }
/// assert!(open_or_return(Key::new(), &[]).is_err());
/// ```
///
/// In a function that returns a [`Refusal`], `?` keeps the refusal and drops the key.
#[derive(Debug)]
pub struct OpenRefused {
    /// The key that was passed to open, unchanged.
    pub key: Key,
    /// Why open was refused.
    pub refusal: Refusal,
}

impl Key {
    /// Makes a key, which is not configured and holds no error.
    pub fn new() -> Self {
        Key::from_raw(ffi::fresh())
    }

    pub(crate) fn from_raw(raw: ffi::Key) -> Self {
        Key { raw }
    }

    /// Sets the key's configuration over a memory, of which only the length counts. If this is refused, the old
    /// configuration stays. A recorded error stays in either case.
    pub fn configure(&mut self, memory: &[u8], configuration: &Configuration) -> Result<(), Refusal> {
        let configured = ffi::configure(self.raw, memory, configuration.raw());
        self.raw = configured.key;
        Refusal::unless_done(configured.answer)
    }

    /// Moves `data_length` bytes of data from memory to the wire. The memory stream begins at `offset`. Wire bytes
    /// after the wire stream stay as they are.
    pub fn send(
        &mut self,
        memory: &[u8],
        wire: &mut [u8],
        offset: LayoutOffset,
        data_length: u64,
    ) -> Result<Totals, Refusal> {
        self.transferred(ffi::send(self.raw, memory, wire, offset.0, data_length))
    }

    /// Moves `data_length` bytes of data from the wire to memory. The memory stream begins at `offset`.
    pub fn receive(
        &mut self,
        memory: &mut [u8],
        wire: &[u8],
        offset: LayoutOffset,
        data_length: u64,
    ) -> Result<Totals, Refusal> {
        self.transferred(ffi::receive(self.raw, memory, wire, offset.0, data_length))
    }

    /// Keeps the key that a transfer returned, and returns the totals if the transfer was done.
    fn transferred(&mut self, transferred: ffi::TransferResult) -> Result<Totals, Refusal> {
        self.raw = transferred.key;
        Refusal::unless_done(transferred.answer)?;
        Ok(Totals {
            taken: transferred.taken,
            written: transferred.written,
        })
    }

    /// Returns the first error since the last check, and removes it from the key. The library that belongs to this
    /// crate never refuses this.
    pub fn check(&mut self) -> Result<Option<BlockError>, Refusal> {
        let checked = ffi::check(self.raw);
        let error = BlockError::of(&checked)?;
        self.raw = checked.key;
        Ok(error)
    }

    /// Begins a receive by packets of `data_length` bytes of data. The memory stream begins at `offset`. Of the memory
    /// only the length counts here.
    pub fn open(self, memory: &[u8], offset: LayoutOffset, data_length: u64) -> Result<Session, OpenRefused> {
        let opened = ffi::open(self.raw, memory, offset.0, data_length);
        match Refusal::unless_done(opened.answer) {
            Ok(()) => Ok(Session::from_raw(opened.session)),
            Err(refusal) => Err(OpenRefused {
                key: Key::from_raw(opened.key),
                refusal,
            }),
        }
    }
}

impl Default for Key {
    fn default() -> Self {
        Key::new()
    }
}

impl Debug for Key {
    fn fmt(&self, f: &mut Formatter<'_>) -> std::fmt::Result {
        f.debug_struct("Key").finish_non_exhaustive()
    }
}

impl Display for OpenRefused {
    fn fmt(&self, f: &mut Formatter<'_>) -> std::fmt::Result {
        f.write_str("open was refused")
    }
}

impl Error for OpenRefused {
    fn source(&self) -> Option<&(dyn Error + 'static)> {
        Some(&self.refusal)
    }
}

impl From<OpenRefused> for Refusal {
    fn from(refused: OpenRefused) -> Self {
        refused.refusal
    }
}
