//! A network card's T10-DIF signature offload, in software.
//!
//! The library moves blocks of data between scattered memory and a wire buffer. On the way it adds, checks, strips or
//! copies the eight-byte protection field after each block: guard, application tag and reference tag.
//!
//! The work is done by Garoalva's library, which is proved and has a C API. This crate links it, and its types make the
//! calls safe. A [`Key`] holds a configuration over one memory, and the first error found. [`Key::send`] and
//! [`Key::receive`] do a whole transfer in one call. [`Key::open`] turns the key into a [`Session`], which receives by
//! packets that may end anywhere, also inside a block or a field, and returns the key at the end.
//!
//! Every call is defined for all arguments. A [`Refusal`] says what was wrong, and a refused call has changed nothing:
//! not the key or session, and no byte of memory or wire. A bad block is no refusal: the transfer goes on, and
//! [`Key::check`] returns the first error.
//!
//! # A receive by packets
//!
//! Two blocks of eight bytes go over the wire with their fields. One bit of the second is damaged on the way. Packets
//! of 9 bytes bring the blocks back into memory, each to a place of its own.
//!
//! ```
//! use garoalva::*;
//!
//! # fn main() -> Result<(), Box<dyn std::error::Error>> {
//! let block = |start| Entry { start: MemoryOffset(start), count: 8, skip: 0 };
//! let configuration = Configuration {
//!     layout: Layout::list(&[block(100), block(40)]),
//!     signature: Signature {
//!         memory: Domain::None,
//!         wire: Domain::T10Dif(T10Dif {
//!             block_size: 8,
//!             guard: Guard::Crc,
//!             seed: Seed::Zero,
//!             application_tag: 0x1234,
//!             reference_tag: 7,
//!             remap: true,
//!             edition: Edition::First,
//!             escape: Escape::Never,
//!         }),
//!         check: Mask::ALL,
//!         copy: Copying::Automatic,
//!     },
//! };
//!
//! let mut memory = [0; 128];
//! memory[107] = 1;
//! let mut key = Key::new();
//! key.configure(&memory, &configuration)?;
//!
//! let mut wire = [0; 32];
//! let sent = key.send(&memory, &mut wire, LayoutOffset(0), 16)?;
//! assert_eq!((sent.taken, sent.written), (16, 32));
//! wire[23] ^= 2;
//!
//! let mut session = key.open(&memory, LayoutOffset(0), 16)?;
//! for packet in wire.chunks(9) {
//!     let so_far = session.packet(&mut memory, packet)?;
//!     println!("{} bytes taken, {} written", so_far.taken, so_far.written);
//! }
//! let mut key = session.finish()?;
//!
//! assert_eq!(memory[47], 2); // memory holds the data as it was on the wire,
//! let error = key.check()?.ok_or("the damage was missed")?; // and check returns what was wrong with it
//! assert_eq!((error.tag, error.offset, error.differing), (Tag::Guard, 16, Mask::GUARD));
//! assert_eq!(
//!     error.to_string(),
//!     "bad guard in the block at byte 16 of the input stream: its field says 0x0000, the rule gives 0x9CD9; \
//!      checked bytes 0 and 1 of the guard differ"
//! );
//! assert_eq!(key.check()?, None);
//! # Ok(())
//! # }
//! ```

#![deny(missing_docs, unsafe_code)]
#![allow(clippy::result_large_err)] // a boxed error would cost an allocation for each refusal

mod configuration;
mod domain;
mod error;
#[allow(unsafe_code)]
mod ffi;
mod key;
mod layout;
mod refusal;
mod session;
#[cfg(test)]
mod tests;

pub use configuration::{Configuration, Copying, Mask, Signature};
pub use domain::{Domain, Edition, Escape, Guard, Seed, T10Dif};
pub use error::{BlockError, Tag};
pub use key::{Key, OpenRefused, Totals};
pub use layout::{Entry, Layout, LayoutOffset, MemoryOffset};
pub use refusal::Refusal;
pub use session::{EndRefused, Session};
