//! The C API, `include/garoalva.h`: its constants, its structs, and its calls as safe functions on slices.

use std::mem::{offset_of, size_of};

pub const ENTRIES: usize = 16;

pub const KIND_NONE: u32 = 0;
pub const KIND_T10_DIF: u32 = 1;

pub const GUARD_CRC: u32 = 0;
pub const GUARD_CHECKSUM: u32 = 1;

pub const REMAP: u32 = 1;
pub const ESCAPE_APPLICATION: u32 = 2;
pub const ESCAPE_BOTH: u32 = 4;

pub const EDITION_1: u32 = 1;
pub const EDITION_2: u32 = 2;

pub const COPY_MASK_GIVEN: u32 = 1;

pub const ERROR_NONE: u32 = 0;
pub const ERROR_GUARD: u32 = 1;
pub const ERROR_REFERENCE: u32 = 2;
pub const ERROR_APPLICATION: u32 = 3;

pub const ANSWER_DONE: u64 = 0;

#[derive(Clone, Copy)]
#[repr(C)]
pub struct Domain {
    pub kind: u32,
    pub block_size: u32,
    pub guard_type: u32,
    pub reference_tag: u32,
    pub seed: u16,
    pub application_tag: u16,
    pub flags: u32,
    pub edition: u32,
}

#[derive(Clone, Copy)]
#[repr(C)]
pub struct Entry {
    pub start: u64,
    pub count: u32,
    pub skip: u32,
}

#[derive(Clone, Copy)]
#[repr(C)]
pub struct Layout {
    pub entries: [Entry; ENTRIES],
    pub used: u32,
    pub repeat: u32,
}

#[derive(Clone, Copy)]
#[repr(C)]
pub struct Signature {
    pub memory: Domain,
    pub wire: Domain,
    pub attribute_flags: u32,
    pub check_mask: u8,
    pub copy_mask: u8,
    pub spare: u16,
}

#[derive(Clone, Copy)]
#[repr(C)]
pub struct Configuration {
    pub layout: Layout,
    pub signature: Signature,
}

#[derive(Clone, Copy)]
#[repr(C)]
pub struct Error {
    pub error_type: u32,
    pub actual: u32,
    pub expected: u32,
    pub offset: u32,
    pub differing: u32,
}

#[derive(Clone, Copy)]
#[repr(C)]
pub struct Key {
    pub seal: u64,
    memory_length: u64,
    layout: Layout,
    signature: Signature,
    configured: u32,
    error: Error,
}

#[derive(Clone, Copy)]
#[repr(C)]
pub struct Side {
    index: u64,
    at: u64,
    odd: u32,
    guard: u16,
    spare: u16,
}

#[derive(Clone, Copy)]
#[repr(C)]
pub struct Session {
    pub seal: u64,
    key: Key,
    offset: u64,
    data_length: u64,
    input: Side,
    output: Side,
    error: Error,
    held: [u8; 8],
    spare: u32,
}

#[repr(C)]
pub struct ConfigureResult {
    pub key: Key,
    pub answer: u64,
}

#[repr(C)]
pub struct TransferResult {
    pub key: Key,
    pub answer: u64,
    pub taken: u64,
    pub written: u64,
}

#[repr(C)]
pub struct CheckResult {
    pub key: Key,
    pub answer: u64,
    pub error: Error,
    spare: u32,
}

#[repr(C)]
pub struct OpenResult {
    pub key: Key,
    pub session: Session,
    pub answer: u64,
}

#[repr(C)]
pub struct PacketResult {
    pub session: Session,
    pub answer: u64,
    pub taken: u64,
    pub written: u64,
}

#[repr(C)]
pub struct FinishResult {
    pub key: Key,
    pub session: Session,
    pub answer: u64,
}

#[repr(C)]
pub struct AbandonResult {
    pub key: Key,
    pub answer: u64,
}

/// Asserts each struct's size and the offset of each of its fields. No field may be left out, and none may be so narrow
/// that padding follows it.
macro_rules! assert_layouts {
    ($($name:ident $size:literal: $($field:ident $at:literal),*;)*) => {
        $(const _: () = {
            let _ = |$name { $($field: _),* }: $name| ();
            assert!(size_of::<$name>() == $size);
            $(assert!(offset_of!($name, $field) == $at);)*
            assert!(0 $(+ field_size(|of: &$name| &of.$field))* == $size);
        };)*
    };
}

const fn field_size<S, F>(_field: fn(&S) -> &F) -> usize {
    size_of::<F>()
}

// The header asserts the same numbers. Nothing else compares its structs with these.
assert_layouts! {
    Domain 28: kind 0, block_size 4, guard_type 8, reference_tag 12, seed 16, application_tag 18, flags 20, edition 24;
    Entry 16: start 0, count 8, skip 12;
    Layout 264: entries 0, used 256, repeat 260;
    Signature 64: memory 0, wire 28, attribute_flags 56, check_mask 60, copy_mask 61, spare 62;
    Configuration 328: layout 0, signature 264;
    Error 20: error_type 0, actual 4, expected 8, offset 12, differing 16;
    Key 368: seal 0, memory_length 8, layout 16, signature 280, configured 344, error 348;
    Side 24: index 0, at 8, odd 16, guard 20, spare 22;
    Session 472: seal 0, key 8, offset 376, data_length 384, input 392, output 416, error 440, held 460, spare 468;
    ConfigureResult 376: key 0, answer 368;
    TransferResult 392: key 0, answer 368, taken 376, written 384;
    CheckResult 400: key 0, answer 368, error 376, spare 396;
    OpenResult 848: key 0, session 368, answer 840;
    PacketResult 496: session 0, answer 472, taken 480, written 488;
    FinishResult 848: key 0, session 368, answer 840;
    AbandonResult 376: key 0, answer 368;
}

/// The symbol of a function that takes or returns a struct: its name and the struct version, which is the N of the
/// crate's version 0.N.P. A library with other structs has other symbols, so this crate does not link with it.
macro_rules! symbol {
    ($name:literal) => {
        concat!($name, "_v", env!("CARGO_PKG_VERSION_MINOR"))
    };
}

// Calls that are lent no bytes are safe: they are defined for every struct.
unsafe extern "C" {
    #[link_name = symbol!("garoalva_fresh")]
    safe fn garoalva_fresh() -> Key;
    #[link_name = symbol!("garoalva_check")]
    safe fn garoalva_check(key: Key) -> CheckResult;
    #[link_name = symbol!("garoalva_finish")]
    safe fn garoalva_finish(session: Session) -> FinishResult;
    #[link_name = symbol!("garoalva_abandon")]
    safe fn garoalva_abandon(session: Session) -> AbandonResult;
    #[link_name = symbol!("garoalva_configure")]
    fn garoalva_configure(
        key: Key,
        memory: *const u8,
        memory_length: usize,
        configuration: Configuration,
    ) -> ConfigureResult;
    #[link_name = symbol!("garoalva_send")]
    fn garoalva_send(
        key: Key,
        memory: *const u8,
        memory_length: usize,
        wire: *mut u8,
        wire_length: usize,
        offset: u64,
        data_length: u64,
    ) -> TransferResult;
    #[link_name = symbol!("garoalva_receive")]
    fn garoalva_receive(
        key: Key,
        memory: *mut u8,
        memory_length: usize,
        wire: *const u8,
        wire_length: usize,
        offset: u64,
        data_length: u64,
    ) -> TransferResult;
    #[link_name = symbol!("garoalva_open")]
    fn garoalva_open(key: Key, memory: *const u8, memory_length: usize, offset: u64, data_length: u64) -> OpenResult;
    #[link_name = symbol!("garoalva_packet")]
    fn garoalva_packet(
        session: Session,
        memory: *mut u8,
        memory_length: usize,
        bytes: *const u8,
        bytes_length: usize,
    ) -> PacketResult;
}

pub fn fresh() -> Key {
    garoalva_fresh()
}

pub fn check(key: Key) -> CheckResult {
    garoalva_check(key)
}

pub fn finish(session: Session) -> FinishResult {
    garoalva_finish(session)
}

pub fn abandon(session: Session) -> AbandonResult {
    garoalva_abandon(session)
}

// SAFETY, for each call below: a slice's pointer points to as many bytes as its length says, a `&mut` slice overlaps no
// other slice, nobody else touches a borrowed slice, and the library keeps no pointer after it returns.

pub fn configure(key: Key, memory: &[u8], configuration: Configuration) -> ConfigureResult {
    unsafe { garoalva_configure(key, memory.as_ptr(), memory.len(), configuration) }
}

pub fn send(key: Key, memory: &[u8], wire: &mut [u8], offset: u64, data_length: u64) -> TransferResult {
    unsafe {
        garoalva_send(
            key,
            memory.as_ptr(),
            memory.len(),
            wire.as_mut_ptr(),
            wire.len(),
            offset,
            data_length,
        )
    }
}

pub fn receive(key: Key, memory: &mut [u8], wire: &[u8], offset: u64, data_length: u64) -> TransferResult {
    unsafe {
        garoalva_receive(
            key,
            memory.as_mut_ptr(),
            memory.len(),
            wire.as_ptr(),
            wire.len(),
            offset,
            data_length,
        )
    }
}

pub fn open(key: Key, memory: &[u8], offset: u64, data_length: u64) -> OpenResult {
    unsafe { garoalva_open(key, memory.as_ptr(), memory.len(), offset, data_length) }
}

pub fn packet(session: Session, memory: &mut [u8], bytes: &[u8]) -> PacketResult {
    unsafe { garoalva_packet(session, memory.as_mut_ptr(), memory.len(), bytes.as_ptr(), bytes.len()) }
}

/// The library's version and texts, which the tests compare with this crate's own.
#[cfg(test)]
pub mod texts {
    use std::ffi::{c_char, CStr};

    use super::Error;

    unsafe extern "C" {
        safe fn garoalva_version() -> *const c_char;
        safe fn garoalva_answer_text(answer: u64) -> *const c_char;
        #[link_name = symbol!("garoalva_error_text")]
        fn garoalva_error_text(error: Error, text: *mut c_char, size: usize) -> usize;
    }

    pub fn version() -> String {
        // SAFETY: the library returns a constant text.
        text_at(unsafe { CStr::from_ptr(garoalva_version()) })
    }

    pub fn answer_text(answer: u64) -> String {
        // SAFETY: the library returns a constant text.
        text_at(unsafe { CStr::from_ptr(garoalva_answer_text(answer)) })
    }

    pub fn error_text(error: Error) -> String {
        let mut text = [0; 192];
        // SAFETY: the array has as many bytes as it says.
        let length = unsafe { garoalva_error_text(error, text.as_mut_ptr().cast(), text.len()) };
        let text = CStr::from_bytes_until_nul(&text).expect("a text ends in 0");
        assert_eq!(text.count_bytes(), length);
        text_at(text)
    }

    fn text_at(text: &CStr) -> String {
        text.to_str().expect("texts are ASCII").to_string()
    }
}
