//! The two sides of a transfer.

use crate::ffi;

/// One side of a transfer: the memory, or the wire.
#[derive(Clone, Copy, Debug, PartialEq, Eq)]
pub enum Domain {
    /// The stream holds the data alone.
    None,
    /// The stream holds an eight-byte field after each block.
    T10Dif(T10Dif),
}

/// A T10-DIF signature: what the fields of a stream hold.
#[derive(Clone, Copy, Debug, PartialEq, Eq)]
pub struct T10Dif {
    /// Data bytes before each field: a multiple of 8 from 8 to 4,160.
    pub block_size: u32,
    /// How the guard is computed.
    pub guard: Guard,
    /// The value that the guard starts from.
    pub seed: Seed,
    /// The application tag of every block.
    pub application_tag: u16,
    /// The reference tag of a transfer's first block.
    pub reference_tag: u32,
    /// Whether the reference tag counts up with each block, by the step of the edition.
    pub remap: bool,
    /// By how much the reference tag grows from one block to the next under remap.
    pub edition: Edition,
    /// Which blocks are not checked at all.
    pub escape: Escape,
}

/// How a guard is computed over a block's data.
#[derive(Clone, Copy, Debug, PartialEq, Eq)]
pub enum Guard {
    /// The CRC with polynomial 0x8BB7.
    Crc,
    /// The ones' complement sum of the data's 16-bit words, inverted.
    Checksum,
}

/// The value that a guard starts from.
#[derive(Clone, Copy, Debug, PartialEq, Eq)]
pub enum Seed {
    /// 0.
    Zero,
    /// 0xFFFF.
    Ones,
}

/// By how much the reference tag grows from one block to the next under remap. It is counted modulo 2^32, so 0 follows
/// 0xFFFFFFFF. Without a given copy mask, the reference tag is copied only if both sides have the same edition, with
/// remap or without it.
#[derive(Clone, Copy, Debug, Default, PartialEq, Eq)]
pub enum Edition {
    /// By 1: the tag counts blocks.
    #[default]
    First,
    /// By the block size divided by 512: the tag counts sectors of 512 bytes. The block size must be a multiple of 512,
    /// with remap or without it.
    Second,
}

/// Which blocks are escaped. No byte of an escaped block's field is checked. Storage devices mark blocks that were
/// never written in this way, with a field of FF bytes. The tags in the field are read whole, whatever the check mask
/// is. Only the escape of the input side counts, and it does not change what is copied or generated.
#[derive(Clone, Copy, Debug, PartialEq, Eq)]
pub enum Escape {
    /// No block is escaped.
    Never,
    /// A block is escaped if the application tag found in its field is 0xFFFF.
    Application,
    /// A block is escaped if the application tag found in its field is 0xFFFF and the reference tag is 0xFFFFFFFF.
    ApplicationAndReference,
}

impl From<T10Dif> for Domain {
    fn from(signature: T10Dif) -> Self {
        Domain::T10Dif(signature)
    }
}

impl Domain {
    pub(crate) fn raw(self) -> ffi::Domain {
        match self {
            Domain::None => ffi::Domain {
                kind: ffi::KIND_NONE,
                block_size: 0,
                guard_type: 0,
                reference_tag: 0,
                seed: 0,
                application_tag: 0,
                flags: 0,
                edition: 0,
            },
            Domain::T10Dif(signature) => ffi::Domain {
                kind: ffi::KIND_T10_DIF,
                block_size: signature.block_size,
                guard_type: signature.guard.number(),
                reference_tag: signature.reference_tag,
                seed: signature.seed.value(),
                application_tag: signature.application_tag,
                flags: signature.flags(),
                edition: signature.edition.number(),
            },
        }
    }
}

impl T10Dif {
    fn flags(&self) -> u32 {
        let remap = if self.remap { ffi::REMAP } else { 0 };
        remap | self.escape.flag()
    }
}

impl Guard {
    fn number(self) -> u32 {
        match self {
            Guard::Crc => ffi::GUARD_CRC,
            Guard::Checksum => ffi::GUARD_CHECKSUM,
        }
    }
}

impl Seed {
    fn value(self) -> u16 {
        match self {
            Seed::Zero => 0,
            Seed::Ones => 0xFFFF,
        }
    }
}

impl Edition {
    fn number(self) -> u32 {
        match self {
            Edition::First => ffi::EDITION_1,
            Edition::Second => ffi::EDITION_2,
        }
    }
}

impl Escape {
    fn flag(self) -> u32 {
        match self {
            Escape::Never => 0,
            Escape::Application => ffi::ESCAPE_APPLICATION,
            Escape::ApplicationAndReference => ffi::ESCAPE_BOTH,
        }
    }
}
