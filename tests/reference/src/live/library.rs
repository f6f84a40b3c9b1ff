//! The C API, declared from garoalva.h alone, and a safe function for each call.
#![allow(unsafe_code)]

use crate::model::{Configuration, Domain, Entry, Layout, Signature, ENTRY_LIMIT};

/// A key. Its fields belong to the library, so here it is an array of 64-bit words, the first of which is the seal. A
/// struct of this size is passed in memory, where only its size and alignment matter.
#[repr(C)]
#[derive(Clone, Copy, Debug, PartialEq, Eq)]
pub struct RawKey {
    pub words: [u64; 46],
}

/// A session, likewise.
#[repr(C)]
#[derive(Clone, Copy, Debug, PartialEq, Eq)]
pub struct RawSession {
    pub words: [u64; 59],
}

impl RawKey {
    /// Returns the key with 0 as its seal: what an accepted open returns as the key.
    pub fn unsealed(mut self) -> RawKey {
        self.words[0] = 0;
        self
    }
}

impl RawSession {
    /// Returns the session's own key with 0 as its seal: what a refused finish or abandon returns as the key. By the
    /// header, the session's key follows the session's seal.
    pub fn unsealed_key(&self) -> RawKey {
        let mut key = RawKey { words: [0; 46] };
        key.words.copy_from_slice(&self.words[1..47]);
        key.unsealed()
    }
}

/// A struct of zeros, which is no session.
pub const NO_SESSION: RawSession = RawSession { words: [0; 59] };

#[repr(C)]
#[derive(Clone, Copy)]
struct RawDomain {
    kind: u32,
    block_size: u32,
    guard_type: u32,
    reference_tag: u32,
    seed: u16,
    application_tag: u16,
    flags: u32,
    edition: u32,
}

#[repr(C)]
#[derive(Clone, Copy)]
struct RawEntry {
    start: u64,
    count: u32,
    skip: u32,
}

#[repr(C)]
#[derive(Clone, Copy)]
struct RawConfiguration {
    entries: [RawEntry; ENTRY_LIMIT],
    used: u32,
    repeat: u32,
    memory: RawDomain,
    wire: RawDomain,
    attribute_flags: u32,
    check_mask: u8,
    copy_mask: u8,
    spare: u16,
}

#[repr(C)]
pub struct ConfigureResult {
    pub key: RawKey,
    pub answer: u64,
}

#[repr(C)]
pub struct TransferResult {
    pub key: RawKey,
    pub answer: u64,
    pub taken: u64,
    pub written: u64,
}

#[repr(C)]
pub struct CheckResult {
    pub key: RawKey,
    pub answer: u64,
    pub error: RawError,
    /// The header says that this is always 0.
    pub spare: u32,
}

#[repr(C)]
pub struct RawError {
    error_type: u32,
    actual: u32,
    expected: u32,
    offset: u32,
    differing: u32,
}

impl RawError {
    /// Type, actual, expected, offset and the mask of the differing bytes.
    pub fn numbers(&self) -> [u64; 5] {
        [self.error_type, self.actual, self.expected, self.offset, self.differing].map(u64::from)
    }
}

#[repr(C)]
pub struct OpenResult {
    pub key: RawKey,
    pub session: RawSession,
    pub answer: u64,
}

#[repr(C)]
pub struct PacketResult {
    pub session: RawSession,
    pub answer: u64,
    pub taken: u64,
    pub written: u64,
}

#[repr(C)]
pub struct FinishResult {
    pub key: RawKey,
    pub session: RawSession,
    pub answer: u64,
}

#[repr(C)]
pub struct AbandonResult {
    pub key: RawKey,
    pub answer: u64,
}

// The sizes that the header asserts.
const _: () = {
    assert!(size_of::<RawDomain>() == 28 && size_of::<RawEntry>() == 16 && size_of::<RawConfiguration>() == 328);
    assert!(size_of::<RawKey>() == 368 && size_of::<RawSession>() == 472 && size_of::<RawError>() == 20);
    assert!(
        size_of::<ConfigureResult>() == 376 && size_of::<TransferResult>() == 392 && size_of::<CheckResult>() == 400
    );
    assert!(size_of::<OpenResult>() == 848 && size_of::<PacketResult>() == 496);
    assert!(size_of::<FinishResult>() == 848 && size_of::<AbandonResult>() == 376);
};

/// The symbol of a call: by the header, its name and the struct version.
macro_rules! symbol {
    ($name:literal) => {
        concat!($name, "_v4")
    };
}

extern "C" {
    #[link_name = symbol!("garoalva_fresh")]
    fn garoalva_fresh() -> RawKey;
    #[link_name = symbol!("garoalva_configure")]
    fn garoalva_configure(
        key: RawKey,
        memory: *const u8,
        memory_length: usize,
        configuration: RawConfiguration,
    ) -> ConfigureResult;
    #[link_name = symbol!("garoalva_send")]
    fn garoalva_send(
        key: RawKey,
        memory: *const u8,
        memory_length: usize,
        wire: *mut u8,
        wire_length: usize,
        offset: u64,
        data_length: u64,
    ) -> TransferResult;
    #[link_name = symbol!("garoalva_receive")]
    fn garoalva_receive(
        key: RawKey,
        memory: *mut u8,
        memory_length: usize,
        wire: *const u8,
        wire_length: usize,
        offset: u64,
        data_length: u64,
    ) -> TransferResult;
    #[link_name = symbol!("garoalva_check")]
    fn garoalva_check(key: RawKey) -> CheckResult;
    #[link_name = symbol!("garoalva_open")]
    fn garoalva_open(key: RawKey, memory: *const u8, memory_length: usize, offset: u64, data_length: u64)
        -> OpenResult;
    #[link_name = symbol!("garoalva_packet")]
    fn garoalva_packet(
        session: RawSession,
        memory: *mut u8,
        memory_length: usize,
        bytes: *const u8,
        bytes_length: usize,
    ) -> PacketResult;
    #[link_name = symbol!("garoalva_finish")]
    fn garoalva_finish(session: RawSession) -> FinishResult;
    #[link_name = symbol!("garoalva_abandon")]
    fn garoalva_abandon(session: RawSession) -> AbandonResult;
}

// In each call below, pointers and lengths are those of borrowed slices, a written slice overlaps no other, and the
// library keeps no pointer. The structs hold only numbers, so all their bit patterns are valid.

pub fn fresh() -> RawKey {
    // SAFETY: nothing is lent.
    unsafe { garoalva_fresh() }
}

pub fn configure(key: RawKey, memory: &[u8], configuration: &Configuration) -> ConfigureResult {
    // SAFETY: as said above.
    unsafe { garoalva_configure(key, memory.as_ptr(), memory.len(), raw_configuration(configuration)) }
}

pub fn send(key: RawKey, memory: &[u8], wire: &mut [u8], offset: u64, data_length: u64) -> TransferResult {
    // SAFETY: as said above.
    unsafe { garoalva_send(key, memory.as_ptr(), memory.len(), wire.as_mut_ptr(), wire.len(), offset, data_length) }
}

pub fn receive(key: RawKey, memory: &mut [u8], wire: &[u8], offset: u64, data_length: u64) -> TransferResult {
    // SAFETY: as said above.
    unsafe { garoalva_receive(key, memory.as_mut_ptr(), memory.len(), wire.as_ptr(), wire.len(), offset, data_length) }
}

pub fn check(key: RawKey) -> CheckResult {
    // SAFETY: nothing is lent.
    unsafe { garoalva_check(key) }
}

pub fn open(key: RawKey, memory: &[u8], offset: u64, data_length: u64) -> OpenResult {
    // SAFETY: as said above.
    unsafe { garoalva_open(key, memory.as_ptr(), memory.len(), offset, data_length) }
}

pub fn packet(session: RawSession, memory: &mut [u8], bytes: &[u8]) -> PacketResult {
    // SAFETY: as said above.
    unsafe { garoalva_packet(session, memory.as_mut_ptr(), memory.len(), bytes.as_ptr(), bytes.len()) }
}

pub fn finish(session: RawSession) -> FinishResult {
    // SAFETY: nothing is lent.
    unsafe { garoalva_finish(session) }
}

pub fn abandon(session: RawSession) -> AbandonResult {
    // SAFETY: nothing is lent.
    unsafe { garoalva_abandon(session) }
}

fn raw_domain(domain: &Domain) -> RawDomain {
    let &Domain { kind, block_size, guard_type, reference_tag, seed, application_tag, flags, edition } = domain;
    RawDomain { kind, block_size, guard_type, reference_tag, seed, application_tag, flags, edition }
}

fn raw_entry(entry: Entry) -> RawEntry {
    let Entry { start, count, skip } = entry;
    RawEntry { start, count, skip }
}

fn raw_configuration(configuration: &Configuration) -> RawConfiguration {
    let Layout { entries, used, repeat } = configuration.layout;
    let Signature { memory, wire, attribute_flags, check_mask, copy_mask } = configuration.signature;
    RawConfiguration {
        entries: entries.map(raw_entry),
        used,
        repeat,
        memory: raw_domain(&memory),
        wire: raw_domain(&wire),
        attribute_flags,
        check_mask,
        copy_mask,
        // The header says that this is ignored, so it is not 0 here.
        spare: 0xA55A,
    }
}
