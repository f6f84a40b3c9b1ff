//! The error that a check returns.

use std::error::Error;
use std::fmt::{Display, Formatter};
use std::ops::Range;

use crate::{ffi, Mask, Refusal};

/// A part of the eight-byte field after a block.
#[derive(Clone, Copy, Debug, PartialEq, Eq)]
pub enum Tag {
    /// The guard: bytes 0 and 1.
    Guard,
    /// The application tag: bytes 2 and 3.
    Application,
    /// The reference tag: bytes 4 to 7.
    Reference,
}

/// The first bad block, and the first bad tag of its field.
///
/// The text of the error says which checked bytes of the tag differ. It counts them within the tag, from 0, high byte
/// first. A [`Mask`] and [`Tag::bytes`] count them within the field.
#[derive(Clone, Copy, Debug, PartialEq, Eq)]
pub struct BlockError {
    /// The bad tag: the first in the order guard, application tag, reference tag.
    pub tag: Tag,
    /// The whole tag that the input domain's rule computes for the block.
    pub actual: u32,
    /// The whole tag that was found in the field after the block.
    pub expected: u32,
    /// Where the block's data begins in the input stream.
    pub offset: u64,
    /// The bytes of the bad tag that differ and were in the check mask of the transfer that found the error. A byte
    /// that was not checked is not among them, nor is a byte of another tag.
    pub differing: Mask,
}

impl Tag {
    /// Returns the tag's bytes in the field.
    pub fn bytes(self) -> Range<usize> {
        match self {
            Tag::Guard => 0..2,
            Tag::Application => 2..4,
            Tag::Reference => 4..8,
        }
    }
}

impl BlockError {
    /// Returns the error of a check that was done, or `None` where there was none.
    pub(crate) fn of(checked: &ffi::CheckResult) -> Result<Option<Self>, Refusal> {
        Refusal::unless_done(checked.answer)?;
        let ffi::Error {
            error_type,
            actual,
            expected,
            offset,
            differing,
        } = checked.error;
        let tag = match error_type {
            ffi::ERROR_NONE => return Ok(None),
            ffi::ERROR_GUARD => Tag::Guard,
            ffi::ERROR_REFERENCE => Tag::Reference,
            ffi::ERROR_APPLICATION => Tag::Application,
            unknown => return Err(Refusal::Unknown(unknown.into())),
        };
        let mask = u8::try_from(differing).map_err(|_| Refusal::Unknown(differing.into()))?;
        Ok(Some(BlockError {
            tag,
            actual,
            expected,
            offset: offset.into(),
            differing: Mask(mask),
        }))
    }
}

impl Display for Tag {
    fn fmt(&self, f: &mut Formatter<'_>) -> std::fmt::Result {
        f.write_str(match self {
            Tag::Guard => "guard",
            Tag::Application => "application tag",
            Tag::Reference => "reference tag",
        })
    }
}

// The words are those of the C function garoalva_error_text, and a test compares them.
impl Display for BlockError {
    fn fmt(&self, f: &mut Formatter<'_>) -> std::fmt::Result {
        let digits = 2 * self.tag.bytes().len();
        write!(
            f,
            "bad {} in the block at byte {} of the input stream: \
             its field says 0x{:0digits$X}, the rule gives 0x{:0digits$X}",
            self.tag, self.offset, self.expected, self.actual
        )?;
        let in_field = self.tag.bytes().filter(|&byte| self.differing.contains(byte));
        let in_tag: Vec<_> = in_field.map(|byte| byte - self.tag.bytes().start).collect();
        match in_tag.as_slice() {
            [] => Ok(()),
            [one] => write!(f, "; checked byte {one} of the {} differs", self.tag),
            [most @ .., last] => {
                let most = most.iter().map(usize::to_string).collect::<Vec<_>>().join(", ");
                write!(f, "; checked bytes {most} and {last} of the {} differ", self.tag)
            }
        }
    }
}

impl Error for BlockError {}
