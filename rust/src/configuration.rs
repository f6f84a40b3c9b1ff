//! What a key is configured with.

use std::ops::BitOr;

use crate::{ffi, Domain, Layout};

/// A set of bytes of a field: bit 7 stands for the first byte, bit 0 for the last.
#[derive(Clone, Copy, Debug, PartialEq, Eq)]
pub struct Mask(pub u8);

impl Mask {
    /// No byte.
    pub const NONE: Mask = Mask(0);
    /// The two bytes of the guard.
    pub const GUARD: Mask = Mask(0xC0);
    /// The two bytes of the application tag.
    pub const APPLICATION: Mask = Mask(0x30);
    /// The four bytes of the reference tag.
    pub const REFERENCE: Mask = Mask(0x0F);
    /// All eight bytes.
    pub const ALL: Mask = Mask(0xFF);

    /// Whether this byte of the field is in the set. A field has the bytes 0 to 7.
    pub fn contains(self, byte: usize) -> bool {
        byte < 8 && self.0 & (0x80 >> byte) != 0
    }
}

impl BitOr for Mask {
    type Output = Mask;

    fn bitor(self, other: Mask) -> Mask {
        Mask(self.0 | other.0)
    }
}

/// Which bytes of an output field are copied from the input field. The others are generated.
#[derive(Clone, Copy, Debug, PartialEq, Eq)]
pub enum Copying {
    /// The tags that the two domains make alike are copied; none is copied if a domain has no signature.
    Automatic,
    /// These bytes are copied. Both domains must be T10-DIF, with one block size.
    Given(Mask),
}

/// The two domains, and what is checked and copied between them.
#[derive(Clone, Copy, Debug, PartialEq, Eq)]
pub struct Signature {
    /// What the stream in memory holds.
    pub memory: Domain,
    /// What the stream on the wire holds.
    pub wire: Domain,
    /// The bytes of an input field that are checked.
    pub check: Mask,
    /// The bytes of an input field that are copied to the output field.
    pub copy: Copying,
}

/// What a key is configured with.
#[derive(Clone, Copy, Debug, PartialEq, Eq)]
pub struct Configuration {
    /// Where the memory stream lies.
    pub layout: Layout,
    /// What the streams hold.
    pub signature: Signature,
}

impl Configuration {
    pub(crate) fn raw(&self) -> ffi::Configuration {
        ffi::Configuration {
            layout: self.layout.raw(),
            signature: self.signature.raw(),
        }
    }
}

impl Signature {
    fn raw(&self) -> ffi::Signature {
        let (attribute_flags, copy_mask) = match self.copy {
            Copying::Automatic => (0, 0),
            Copying::Given(mask) => (ffi::COPY_MASK_GIVEN, mask.0),
        };
        ffi::Signature {
            memory: self.memory.raw(),
            wire: self.wire.raw(),
            attribute_flags,
            check_mask: self.check.0,
            copy_mask,
            spare: 0,
        }
    }
}
