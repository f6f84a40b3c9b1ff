//! A receive by packets.

use std::error::Error;
use std::fmt::{Debug, Display, Formatter};

use crate::{ffi, Key, Refusal, Totals};

/// A receive by packets that is in progress. [`Key::open`] makes it; [`finish`](Session::finish) and
/// [`abandon`](Session::abandon) consume it and return the key.
///
/// Pass the same memory with every packet, and let nobody else write it between packets. Otherwise memory need not hold
/// at the end what one receive would have left there.
///
/// A session can't be cloned: both copies would write the same memory. One that has ended can't be used:
///
/// ```compile_fail,E0382
/// fn twice(session: garoalva::Session) {
///     let _ = session.abandon();
///     let _ = session.abandon();
/// }
/// ```
///
/// ```compile_fail,E0382
/// fn after_the_end(mut session: garoalva::Session, memory: &mut [u8]) {
///     let _ = session.finish();
///     let _ = session.packet(memory, &[]);
/// }
/// ```
#[must_use = "a session that is dropped takes its key with it"]
pub struct Session {
    pub(crate) raw: ffi::Session,
}

/// A finish or abandon that was refused. It holds the session, so that a caller can go on with it:
///
/// ```
/// # use garoalva::*;
/// fn finish_if_whole(session: Session) -> Result<Key, Session> {
///     session.finish().map_err(|refused| refused.session)
/// }
/// ```
///
/// In a function that returns a [`Refusal`], `?` keeps the refusal and drops the session, with its key.
#[derive(Debug)]
pub struct EndRefused {
    /// The session, unchanged.
    pub session: Session,
    /// Why the session did not end.
    pub refusal: Refusal,
}

impl Session {
    pub(crate) fn from_raw(raw: ffi::Session) -> Self {
        Session { raw }
    }

    /// Receives the next bytes of the wire stream, which may begin and end anywhere, and returns the totals since open.
    /// Pass the same memory with every packet: data is written to it at once.
    pub fn packet(&mut self, memory: &mut [u8], bytes: &[u8]) -> Result<Totals, Refusal> {
        let packet = ffi::packet(self.raw, memory, bytes);
        self.raw = packet.session;
        Refusal::unless_done(packet.answer)?;
        Ok(Totals {
            taken: packet.taken,
            written: packet.written,
        })
    }

    /// Ends the receive, once all wire bytes have arrived. The key holds the first error found: see [`Key::check`].
    pub fn finish(self) -> Result<Key, EndRefused> {
        let finished = ffi::finish(self.raw);
        self.ended(finished.answer, finished.key)
    }

    /// Ends the receive, whatever has arrived. That stays in memory, and the key holds the first error of the blocks
    /// that arrived whole. The library that belongs to this crate never refuses this.
    pub fn abandon(self) -> Result<Key, EndRefused> {
        let abandoned = ffi::abandon(self.raw);
        self.ended(abandoned.answer, abandoned.key)
    }

    /// Returns the key if the session has ended, else this session with the refusal.
    fn ended(self, answer: u64, key: ffi::Key) -> Result<Key, EndRefused> {
        match Refusal::unless_done(answer) {
            Ok(()) => Ok(Key::from_raw(key)),
            Err(refusal) => Err(EndRefused { session: self, refusal }),
        }
    }
}

impl Debug for Session {
    fn fmt(&self, f: &mut Formatter<'_>) -> std::fmt::Result {
        f.debug_struct("Session").finish_non_exhaustive()
    }
}

impl Display for EndRefused {
    fn fmt(&self, f: &mut Formatter<'_>) -> std::fmt::Result {
        f.write_str("the session did not end")
    }
}

impl Error for EndRefused {
    fn source(&self) -> Option<&(dyn Error + 'static)> {
        Some(&self.refusal)
    }
}

impl From<EndRefused> for Refusal {
    fn from(refused: EndRefused) -> Self {
        refused.refusal
    }
}
