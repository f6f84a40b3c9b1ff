//! Why a call was refused.

use std::error::Error;
use std::fmt::{Display, Formatter};

use crate::ffi;

/// Why a call was refused. A refused call has changed nothing.
#[derive(Clone, Copy, Debug, PartialEq, Eq)]
#[non_exhaustive]
pub enum Refusal {
    /// A domain is not valid. In this crate only its block size can be wrong: it is no multiple of 8 from 8 to 4,160.
    BadDomain,
    /// A domain with an escape has the application tag 0xFFFF.
    EscapeTag,
    /// A copy mask is given, but the two sides are not both signed with one block size.
    CopyMask,
    /// The two sides are signed with different block sizes.
    BlockSizes,
    /// The layout has not 1 to 16 entries, its repeat or a count is 0, or it has more than 1,024 pieces.
    MalformedLayout,
    /// A piece of the layout ends beyond the memory.
    OutsideMemory,
    /// Two pieces of the layout share a byte.
    Overlap,
    /// The memory has more than 16,777,216 bytes, or not as many as the key was configured with.
    MemoryLength,
    /// The data length is not a multiple of the block size of a signed side.
    PartialBlock,
    /// The memory stream ends beyond the layout.
    PastLayout,
    /// The wire buffer is shorter than the wire stream.
    ShortWire,
    /// The packet is longer than the wire bytes still to come.
    LongPacket,
    /// Not all wire bytes have arrived.
    BytesToCome,
    /// The key was never configured.
    NotConfigured,
    /// A domain's edition is not valid. In this crate that is [`Edition::Second`](crate::Edition::Second) with a block
    /// size that is no multiple of 512.
    Edition,
    /// The key is not one of the linked library's version. All keys of this crate are, if the library is the crate's.
    NotAKey,
    /// The session is not one of the linked library's version. All sessions of this crate are, if the library is the
    /// crate's.
    NotASession,
    /// The library returned an answer, or check an error type or a set of bytes, that this crate does not know: the
    /// library is of another version.
    Unknown(u64),
}

/// Every refusal that has a name.
pub(crate) const NAMED: [Refusal; 17] = [
    Refusal::BadDomain,
    Refusal::EscapeTag,
    Refusal::CopyMask,
    Refusal::BlockSizes,
    Refusal::MalformedLayout,
    Refusal::OutsideMemory,
    Refusal::Overlap,
    Refusal::MemoryLength,
    Refusal::PartialBlock,
    Refusal::PastLayout,
    Refusal::ShortWire,
    Refusal::LongPacket,
    Refusal::BytesToCome,
    Refusal::NotConfigured,
    Refusal::Edition,
    Refusal::NotAKey,
    Refusal::NotASession,
];

impl Refusal {
    /// Returns the answer of the C API that stands for this refusal.
    pub fn number(self) -> u64 {
        match self {
            Refusal::BadDomain => 1,
            Refusal::EscapeTag => 2,
            Refusal::CopyMask => 3,
            Refusal::BlockSizes => 4,
            Refusal::MalformedLayout => 5,
            Refusal::OutsideMemory => 6,
            Refusal::Overlap => 7,
            Refusal::MemoryLength => 8,
            Refusal::PartialBlock => 9,
            Refusal::PastLayout => 10,
            Refusal::ShortWire => 11,
            Refusal::LongPacket => 12,
            Refusal::BytesToCome => 13,
            Refusal::NotConfigured => 14,
            Refusal::Edition => 20,
            Refusal::NotAKey => 1000,
            Refusal::NotASession => 1001,
            Refusal::Unknown(number) => number,
        }
    }

    /// Returns the refusal that an answer stands for, unless the call was done.
    pub(crate) fn unless_done(answer: u64) -> Result<(), Refusal> {
        if answer == ffi::ANSWER_DONE {
            return Ok(());
        }
        let named = NAMED.into_iter().find(|refusal| refusal.number() == answer);
        Err(named.unwrap_or(Refusal::Unknown(answer)))
    }
}

// The words are those of the C function garoalva_answer_text, and a test compares them.
impl Display for Refusal {
    fn fmt(&self, f: &mut Formatter<'_>) -> std::fmt::Result {
        f.write_str(match self {
            Refusal::BadDomain => {
                "a domain's kind, block size, guard type, seed or flags, or the attribute flags, are not valid"
            }
            Refusal::EscapeTag => {
                "a domain with an escape flag has the application tag 0xFFFF, so that its blocks could go unchecked"
            }
            Refusal::CopyMask => "a copy mask is given, but the two sides are not both signed with one block size",
            Refusal::BlockSizes => "the two sides are signed with different block sizes",
            Refusal::MalformedLayout => {
                "the layout has no entries or too many, a repeat or count of 0, or too many pieces"
            }
            Refusal::OutsideMemory => "a piece of the layout ends beyond the memory",
            Refusal::Overlap => "two pieces of the layout share a byte",
            Refusal::MemoryLength => "the memory is longer than the limit, or not of the configured length",
            Refusal::PartialBlock => "the data length is not a multiple of the block size",
            Refusal::PastLayout => "the memory stream ends beyond the layout",
            Refusal::ShortWire => "the wire buffer is shorter than the wire stream",
            Refusal::LongPacket => "the packet is longer than the wire bytes still to come",
            Refusal::BytesToCome => "not all wire bytes have arrived",
            Refusal::NotConfigured => "the key was never configured",
            Refusal::Edition => {
                "a domain's edition is not 1 or 2, or it is 2 and the block size is not a multiple of 512"
            }
            Refusal::NotAKey => {
                "the struct is not a key of the library's version; an accepted open, a refused finish and a refused \
                 abandon return none"
            }
            Refusal::NotASession => {
                "the struct is not a session of the library's version; a refused open and an accepted finish return \
                 none"
            }
            Refusal::Unknown(number) => {
                return write!(
                    f,
                    "the linked library returned {number}, which this crate does not know"
                )
            }
        })
    }
}

impl Error for Refusal {}
