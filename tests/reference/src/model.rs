//! The customer's rule book (paper 01, "Signed block transfers") as a program, with requests 2, 6 and 11 of the
//! customer's change requests (paper 02). It works byte by byte and in exact numbers, in paper 01's order: it is
//! written to be read beside the papers, not to be fast. Words in quotation marks are paper 01's own, or paper 02's
//! where that is said. Nothing here comes from the library or from its proofs.

use std::ops::Range;

// The protection field

pub const FIELD_SIZE: usize = 8;

/// "guard (2), application tag (2), reference tag (4)": the bytes of each in the field.
pub const GUARD: Range<usize> = 0..2;
pub const APPLICATION: Range<usize> = 2..4;
pub const REFERENCE: Range<usize> = 4..8;

// A domain's kinds, guard types, flags and editions.
pub const NO_SIGNATURE: u32 = 0;
pub const T10_DIF: u32 = 1;
pub const CRC: u32 = 0;
pub const CHECKSUM: u32 = 1;
pub const REMAP: u32 = 1;
pub const APPLICATION_ESCAPE: u32 = 2;
pub const BOTH_ESCAPE: u32 = 4;
pub const EDITION_1: u32 = 1;
pub const EDITION_2: u32 = 2;

/// "counts 512-byte steps whatever the block size" (paper 02, request 11). Here 512 bytes are a sector, and a step is
/// what the tag grows by from one block to the next.
pub const SECTOR_SIZE: u32 = 512;

/// One side of a transfer.
#[derive(Clone, Copy, Debug, Default, PartialEq, Eq)]
pub struct Domain {
    pub kind: u32,
    pub block_size: u32,
    pub guard_type: u32,
    pub reference_tag: u32,
    pub seed: u16,
    pub application_tag: u16,
    pub flags: u32,
    /// "Both editions stay, chosen per domain" (paper 02, request 11): how the reference tag counts.
    pub edition: u32,
}

/// "polynomial 0x8BB7, high bit first, no reflection, no final inversion, starting from the seed", a bit at a time.
pub fn crc_guard(seed: u16, data: &[u8]) -> u16 {
    let mut remainder = seed;
    for byte in data {
        for bit in (0..8).rev() {
            let entering = u16::from(byte >> bit & 1);
            let leaving = remainder >> 15;
            remainder <<= 1;
            if entering != leaving {
                remainder ^= 0x8BB7;
            }
        }
    }
    remainder
}

/// "the ones' complement sum of the seed and the block's 16-bit words, high byte first, carries brought round"
pub fn ones_complement_sum(seed: u16, data: &[u8]) -> u16 {
    let mut sum = u128::from(seed);
    for word in data.chunks_exact(2) {
        sum += u128::from(word[0]) * 256 + u128::from(word[1]);
    }
    while sum > 0xFFFF {
        sum = sum % 0x1_0000 + sum / 0x1_0000;
    }
    sum as u16
}

/// The checksum guard: that sum, "then inverted".
pub fn checksum_guard(seed: u16, data: &[u8]) -> u16 {
    !ones_complement_sum(seed, data)
}

/// The number that bytes of a field hold, "the high byte first".
fn number(bytes: &[u8]) -> u32 {
    bytes.iter().fold(0, |value, &byte| value * 256 + u32::from(byte))
}

/// Whether byte `at` of a field is in the mask: "Mask bit 7 stands for the first byte, bit 0 for the last".
fn mask_bit(mask: u8, at: usize) -> bool {
    mask >> (7 - at) & 1 == 1
}

impl Domain {
    /// Whether fields follow this side's blocks.
    pub fn signed(&self) -> bool {
        self.kind == T10_DIF
    }

    /// "Guards cover the block's data only", by the domain's type and seed.
    fn guard(&self, data: &[u8]) -> u16 {
        if self.guard_type == CRC {
            crc_guard(self.seed, data)
        } else {
            checksum_guard(self.seed, data)
        }
    }

    /// "the configured tag, plus i modulo 4,294,967,296 under remap. The modulus is of the whole sum." So it is in
    /// edition 1, and "edition 2 adds i × (block size / 512) under remap" (paper 02, request 11). The modulus is again
    /// of the whole sum, and i counts blocks from 0 in this transfer.
    fn reference(&self, block: usize) -> u32 {
        let i = block as u128;
        let counted = if self.edition == EDITION_2 { i * u128::from(self.block_size / SECTOR_SIZE) } else { i };
        let added = if self.flags & REMAP != 0 { counted } else { 0 };
        ((u128::from(self.reference_tag) + added) % 4_294_967_296) as u32
    }

    /// Byte `at` of the field that this domain's rule computes for a block.
    fn field_byte(&self, data: &[u8], block: usize, at: usize) -> u8 {
        match at {
            0..2 => self.guard(data).to_be_bytes()[at],
            2..4 => self.application_tag.to_be_bytes()[at - 2],
            _ => self.reference(block).to_be_bytes()[at - 4],
        }
    }

    /// Whether a block with this field is escaped: "with flag 2, a block whose application field reads 0xFFFF"; "with
    /// flag 4 the reference field must also read 0xFFFFFFFF". No mask enters: "The field is read whole".
    fn escapes(&self, found: &[u8; FIELD_SIZE]) -> bool {
        let application = number(&found[APPLICATION]) == 0xFFFF;
        let reference = number(&found[REFERENCE]) == 0xFFFF_FFFF;
        let by_application = self.flags & APPLICATION_ESCAPE != 0 && application;
        let by_both = self.flags & BOTH_ESCAPE != 0 && application && reference;
        by_application || by_both
    }

    /// "A domain's stream holds the data with a field after each block, or the data alone": its length.
    pub fn stream_length(&self, data_length: u64) -> u128 {
        let data = u128::from(data_length);
        if self.signed() {
            data + data / u128::from(self.block_size) * FIELD_SIZE as u128
        } else {
            data
        }
    }

    /// The length of one block of that stream, with its field if it has one.
    fn unit(&self, block_size: usize) -> usize {
        block_size + if self.signed() { FIELD_SIZE } else { 0 }
    }
}

// The transfer rule

pub const COPY_MASK_GIVEN: u32 = 1;

// The error types that check returns. They don't follow the order of the fields.
pub const GUARD_ERROR: u64 = 1;
pub const REFERENCE_ERROR: u64 = 2;
pub const APPLICATION_ERROR: u64 = 3;

#[derive(Clone, Copy, Debug, Default, PartialEq, Eq)]
pub struct Signature {
    pub memory: Domain,
    pub wire: Domain,
    pub attribute_flags: u32,
    pub check_mask: u8,
    pub copy_mask: u8,
}

impl Signature {
    /// "signatures on both sides"
    fn both_signed(&self) -> bool {
        self.memory.signed() && self.wire.signed()
    }

    /// "With the attribute flag the given copy mask is used." "With one signature nothing is copied."
    fn copied_bytes(&self) -> u8 {
        if self.attribute_flags == COPY_MASK_GIVEN {
            self.copy_mask
        } else if self.both_signed() {
            self.automatic_copy_mask()
        } else {
            0
        }
    }

    /// "the guard is copied if guard type and seed agree, the application tag if the two configured tags agree, the
    /// reference tag if configured tag and remap flag both agree". "Automatic copying of the reference tag also needs
    /// equal editions" (paper 02, request 11): with remap or without, and also where both editions count alike.
    fn automatic_copy_mask(&self) -> u8 {
        let (memory, wire) = (&self.memory, &self.wire);
        let guard = memory.guard_type == wire.guard_type && memory.seed == wire.seed;
        let application = memory.application_tag == wire.application_tag;
        let reference = memory.reference_tag == wire.reference_tag
            && memory.flags & REMAP == wire.flags & REMAP
            && memory.edition == wire.edition;
        let bits_if = |copied: bool, bits: u8| if copied { bits } else { 0 };
        bits_if(guard, 0xC0) | bits_if(application, 0x30) | bits_if(reference, 0x0F)
    }
}

/// What the error slot holds. "Actual" is what the input domain's rule computes, "expected" what was found. Paper 02,
/// request 6, adds `differing`: "The error slot and check carry it as a fifth number".
#[derive(Clone, Copy, Debug, PartialEq, Eq)]
pub struct BlockError {
    pub error_type: u64,
    pub actual: u32,
    pub expected: u32,
    pub offset: u64,
    pub differing: u8,
}

/// The transfer rule in one direction, from an input stream to an output stream and an error. Each output byte is
/// computed from the input bytes that it depends on alone, so the rule works on a stream of which only a part has
/// arrived.
pub struct Rule {
    input: Domain,
    output: Domain,
    check_mask: u8,
    copied_bytes: u8,
}

impl Rule {
    /// "The input domain is memory for send, ..."
    pub fn send(signature: &Signature) -> Rule {
        Rule {
            input: signature.memory,
            output: signature.wire,
            check_mask: signature.check_mask,
            copied_bytes: signature.copied_bytes(),
        }
    }

    /// "... wire for receive."
    pub fn receive(signature: &Signature) -> Rule {
        let (input, output) = (signature.wire, signature.memory);
        Rule { input, output, ..Rule::send(signature) }
    }

    /// The block size of the signed sides; `None` if neither side is signed.
    pub fn block_size(&self) -> Option<usize> {
        let signed = [&self.input, &self.output].into_iter().find(|domain| domain.signed())?;
        Some(signed.block_size as usize)
    }

    /// The data of a block of the input stream.
    fn data<'a>(&self, stream: &'a [u8], block: usize, size: usize) -> &'a [u8] {
        let start = block * self.input.unit(size);
        &stream[start..start + size]
    }

    /// The field that was found after a block of a signed input stream.
    fn found(&self, stream: &[u8], block: usize, size: usize) -> [u8; FIELD_SIZE] {
        let start = block * self.input.unit(size) + size;
        std::array::from_fn(|at| stream[start + at])
    }

    /// Byte `at` of the output stream. Data is copied unchanged.
    fn output_byte(&self, stream: &[u8], at: usize) -> u8 {
        let Some(size) = self.block_size() else {
            return stream[at];
        };
        let (block, within) = (at / self.output.unit(size), at % self.output.unit(size));
        if within < size {
            stream[block * self.input.unit(size) + within]
        } else {
            self.output_field_byte(stream, block, size, within - size)
        }
    }

    /// "copied from the input field where the copy bit is set, else generated from the output domain"
    fn output_field_byte(&self, stream: &[u8], block: usize, size: usize, at: usize) -> u8 {
        if mask_bit(self.copied_bytes, at) {
            self.found(stream, block, size)[at]
        } else {
            self.output.field_byte(self.data(stream, block, size), block, at)
        }
    }

    /// The first `length` bytes of the output stream.
    fn output(&self, stream: &[u8], length: usize) -> Vec<u8> {
        (0..length).map(|at| self.output_byte(stream, at)).collect()
    }

    /// A block's first bad field, "in the order guard, application, reference". The error has the whole field, whatever
    /// the mask, and "the place in the input stream where the block's data begins". An escaped block has no bad field:
    /// "Under flags 2 and 4 all three fields of an escaped block are skipped" (paper 02, request 2; 01 skips its guard
    /// alone).
    fn bad_field(&self, stream: &[u8], block: usize, size: usize) -> Option<BlockError> {
        let found = self.found(stream, block, size);
        if self.input.escapes(&found) {
            return None;
        }
        let data = self.data(stream, block, size);
        let computed: [u8; FIELD_SIZE] = std::array::from_fn(|at| self.input.field_byte(data, block, at));
        let fields = [(GUARD_ERROR, GUARD), (APPLICATION_ERROR, APPLICATION), (REFERENCE_ERROR, REFERENCE)];
        let is_bad = |bytes: &Range<usize>| bytes.clone().any(|at| self.is_bad_byte(&computed, &found, at));
        let (error_type, bytes) = fields.into_iter().find(|(_, bytes)| is_bad(bytes))?;
        let offset = (block * self.input.unit(size)) as u64;
        let (actual, expected) = (number(&computed[bytes.clone()]), number(&found[bytes.clone()]));
        let differing = self.differing(&computed, &found, bytes);
        Some(BlockError { error_type, actual, expected, offset, differing })
    }

    /// "the set of differing checked bytes, as an eight-bit mask in 01's bit order", "holding only the reported field's
    /// bits" (paper 02, request 6). The reported field has these bytes. 01's bit order is that of `mask_bit`: 128
    /// stands for the first of the eight bytes, and each next byte has half of that.
    fn differing(&self, computed: &[u8; FIELD_SIZE], found: &[u8; FIELD_SIZE], bytes: Range<usize>) -> u8 {
        let differing = bytes.filter(|&at| self.is_bad_byte(computed, found, at));
        differing.map(|at| [128, 64, 32, 16, 8, 4, 2, 1][at]).sum()
    }

    /// "a byte whose check bit is set differs from what the input domain's rule gives"
    fn is_bad_byte(&self, computed: &[u8; FIELD_SIZE], found: &[u8; FIELD_SIZE], at: usize) -> bool {
        mask_bit(self.check_mask, at) && computed[at] != found[at]
    }

    /// "the first bad block's first bad field". "With no input signature nothing is checked."
    fn first_error(&self, stream: &[u8], blocks: usize) -> Option<BlockError> {
        if !self.input.signed() {
            return None;
        }
        let size = self.block_size()?;
        (0..blocks).find_map(|block| self.bad_field(stream, block, size))
    }

    /// The first error of a whole transfer.
    fn error(&self, stream: &[u8], data_length: u64) -> Option<BlockError> {
        let blocks = self.block_size().map_or(0, |size| data_length as usize / size);
        self.first_error(stream, blocks)
    }
}

// Layouts

pub const ENTRY_LIMIT: usize = 16;
pub const PIECE_LIMIT: u64 = 1_024;

#[derive(Clone, Copy, Debug, Default, PartialEq, Eq)]
pub struct Entry {
    pub start: u64,
    pub count: u32,
    pub skip: u32,
}

#[derive(Clone, Copy, Debug, Default, PartialEq, Eq)]
pub struct Layout {
    pub entries: [Entry; ENTRY_LIMIT],
    pub used: u32,
    pub repeat: u32,
}

/// One repeat of one entry: the memory bytes from `start` to before `end`.
#[derive(Clone, Copy)]
struct Piece {
    start: u128,
    end: u128,
}

impl Piece {
    /// Whether the two pieces share a byte.
    fn meets(&self, other: &Piece) -> bool {
        self.start < other.end && other.start < self.end
    }
}

impl Layout {
    /// The entries after the used ones are ignored.
    fn used_entries(&self) -> &[Entry] {
        &self.entries[..self.used as usize]
    }

    /// "Repeat r of an entry covers count bytes from start + r × (count + skip). The layout's bytes run over repeat 0's
    /// entries in order, then repeat 1's, and so on."
    fn pieces(&self) -> impl Iterator<Item = Piece> + '_ {
        let repeats = 0..u128::from(self.repeat);
        repeats.flat_map(|r| {
            self.used_entries().iter().map(move |entry| {
                let count = u128::from(entry.count);
                let start = u128::from(entry.start) + r * (count + u128::from(entry.skip));
                let end = start + count;
                Piece { start, end }
            })
        })
    }

    /// "the layout's total": the number of its bytes.
    pub fn total(&self) -> u128 {
        self.pieces().map(|piece| piece.end - piece.start).sum()
    }

    /// The place in memory of each layout byte, in the layout's order.
    pub fn places(&self) -> impl Iterator<Item = usize> + '_ {
        self.pieces().flat_map(|piece| piece.start as usize..piece.end as usize)
    }

    /// The places in memory of a memory stream's bytes: "an offset in layout bytes, where the memory stream begins".
    fn stream_places(&self, offset: u64, length: usize) -> Vec<usize> {
        self.places().skip(offset as usize).take(length).collect()
    }
}

/// Writes each byte to its place in memory.
fn scatter(memory: &mut [u8], places: &[usize], bytes: &[u8]) {
    for (&place, &byte) in places.iter().zip(bytes) {
        memory[place] = byte;
    }
}

// Numbered answers

pub const MEMORY_LIMIT: u64 = 16_777_216;

/// The table of answers.
pub mod answer {
    pub const DONE: u64 = 0;
    pub const BAD_DOMAIN: u64 = 1;
    pub const ESCAPE_TAG: u64 = 2;
    pub const COPY_MASK: u64 = 3;
    pub const BLOCK_SIZES: u64 = 4;
    pub const MALFORMED_LAYOUT: u64 = 5;
    pub const OUTSIDE_MEMORY: u64 = 6;
    pub const OVERLAP: u64 = 7;
    pub const MEMORY_LENGTH: u64 = 8;
    pub const PARTIAL_BLOCK: u64 = 9;
    pub const PAST_LAYOUT: u64 = 10;
    pub const SHORT_WIRE: u64 = 11;
    pub const LONG_PACKET: u64 = 12;
    pub const BYTES_TO_COME: u64 = 13;
    pub const NOT_CONFIGURED: u64 = 14;
    /// Paper 02, request 11, adds this one.
    pub const EDITION: u64 = 20;
    /// The C API adds two answers: a struct is no key, or it is no session.
    pub const NOT_A_KEY: u64 = 1000;
    pub const NOT_A_SESSION: u64 = 1001;
}

impl Domain {
    /// Whether answer 1 applies to one domain. "In a domain of kind 0 all other numbers are ignored."
    fn is_bad(&self) -> bool {
        let bad_number = !good_block_size(self.block_size)
            || !matches!(self.guard_type, CRC | CHECKSUM)
            || !matches!(self.seed, 0 | 0xFFFF)
            || !good_flags(self.flags);
        self.kind > T10_DIF || self.signed() && bad_number
    }

    /// Whether answer 20 applies to one domain: "An edition other than 1 or 2, or edition 2 with a size that isn't a
    /// multiple of 512" (paper 02, request 11). It applies without remap too. A domain of kind 0 has no edition: "all
    /// other numbers are ignored".
    fn has_bad_edition(&self) -> bool {
        let bad_edition = match self.edition {
            EDITION_1 => false,
            EDITION_2 => !self.block_size.is_multiple_of(SECTOR_SIZE),
            _ => true,
        };
        self.signed() && bad_edition
    }

    /// Whether answer 2 applies to one domain: "an escape flag and configured application tag 0xFFFF".
    fn escapes_its_own_tag(&self) -> bool {
        self.signed() && self.flags & (APPLICATION_ESCAPE | BOTH_ESCAPE) != 0 && self.application_tag == 0xFFFF
    }

    /// Whether answer 9 applies to one domain: "L not a multiple of a T10-DIF domain's block size".
    fn cuts_a_block(&self, data_length: u64) -> bool {
        self.signed() && !data_length.is_multiple_of(u64::from(self.block_size))
    }
}

/// "a multiple of 8 from 8 to 4,160"
fn good_block_size(size: u32) -> bool {
    size.is_multiple_of(8) && (8..=4_160).contains(&size)
}

/// "Flags 2 and 4 together are bad, and so is any value above 7."
fn good_flags(flags: u32) -> bool {
    let both = APPLICATION_ESCAPE | BOTH_ESCAPE;
    flags <= 7 && flags & both != both
}

impl Signature {
    /// Answer 1, then 20, which comes "after 1" (paper 02, request 11), then 2 to 4. Each is tested for both domains
    /// before the next.
    fn judge(&self) -> u64 {
        let (memory, wire) = (&self.memory, &self.wire);
        let one_size = memory.block_size == wire.block_size;
        if memory.is_bad() || wire.is_bad() || self.attribute_flags > COPY_MASK_GIVEN {
            answer::BAD_DOMAIN
        } else if memory.has_bad_edition() || wire.has_bad_edition() {
            answer::EDITION
        } else if memory.escapes_its_own_tag() || wire.escapes_its_own_tag() {
            answer::ESCAPE_TAG
        } else if self.attribute_flags == COPY_MASK_GIVEN && !(self.both_signed() && one_size) {
            answer::COPY_MASK
        } else if self.both_signed() && !one_size {
            answer::BLOCK_SIZES
        } else {
            answer::DONE
        }
    }
}

impl Layout {
    /// Answers 5 to 7, in order.
    fn judge(&self, memory_length: u64) -> u64 {
        if self.is_malformed() {
            answer::MALFORMED_LAYOUT
        } else if self.leaves(memory_length) {
            answer::OUTSIDE_MEMORY
        } else if self.overlaps() {
            answer::OVERLAP
        } else {
            answer::DONE
        }
    }

    /// "entries not 1 to 16, repeat 0, a count 0, or entries × repeat above 1,024"
    fn is_malformed(&self) -> bool {
        !(1..=ENTRY_LIMIT as u32).contains(&self.used)
            || self.repeat == 0
            || self.used_entries().iter().any(|entry| entry.count == 0)
            || u64::from(self.used) * u64::from(self.repeat) > PIECE_LIMIT
    }

    /// "a piece ends beyond the memory, its end worked out as an exact sum that never wraps"
    fn leaves(&self, memory_length: u64) -> bool {
        self.pieces().any(|piece| piece.end > u128::from(memory_length))
    }

    /// "two pieces share a byte"
    fn overlaps(&self) -> bool {
        let pieces: Vec<Piece> = self.pieces().collect();
        let meets_a_later_one = |(at, piece): (usize, &Piece)| pieces[at + 1..].iter().any(|other| piece.meets(other));
        pieces.iter().enumerate().any(meets_a_later_one)
    }
}

#[derive(Clone, Copy, Debug, Default, PartialEq, Eq)]
pub struct Configuration {
    pub layout: Layout,
    pub signature: Signature,
}

impl Configuration {
    /// Configure's answer: "configure 8, 1 to 7", with 20 after 1.
    pub fn judge(&self, memory_length: u64) -> u64 {
        if memory_length > MEMORY_LIMIT {
            return answer::MEMORY_LENGTH;
        }
        match self.signature.judge() {
            answer::DONE => self.layout.judge(memory_length),
            refusal => refusal,
        }
    }
}

/// What a transfer or a packet returns.
#[derive(Clone, Copy, Debug, PartialEq, Eq)]
pub struct Totals {
    pub answer: u64,
    pub taken: u64,
    pub written: u64,
}

impl Totals {
    /// "A transfer answers its number, input bytes taken and output bytes written".
    fn done(taken: usize, written: usize) -> Totals {
        let (taken, written) = (taken as u64, written as u64);
        Totals { answer: answer::DONE, taken, written }
    }

    /// "A refused transfer or packet answers the number and two zeros."
    pub fn refused(answer: u64) -> Totals {
        Totals { answer, taken: 0, written: 0 }
    }
}

/// What a key was configured with.
#[derive(Clone, Copy, Debug, PartialEq, Eq)]
pub struct Configured {
    memory_length: u64,
    pub layout: Layout,
    pub signature: Signature,
}

/// "A key holds a layout over one lent memory, a memory domain, a wire domain, masks, and one error slot." The default is
/// the fresh key.
#[derive(Clone, Copy, Debug, Default, PartialEq, Eq)]
pub struct Key {
    pub configured: Option<Configured>,
    pub slot: Option<BlockError>,
}

impl Key {
    /// Configure. The slot stays: it "keeps its first error through later transfers and configurations".
    pub fn configure(&mut self, memory: &[u8], configuration: &Configuration) -> u64 {
        let memory_length = memory.len() as u64;
        let answer = configuration.judge(memory_length);
        if answer == answer::DONE {
            let Configuration { layout, signature } = *configuration;
            self.configured = Some(Configured { memory_length, layout, signature });
        }
        answer
    }

    /// "transfer and open 14, 8, 9, 10": returns what the key was configured with, or the answer of a refusal.
    fn admit(&self, memory: &[u8], offset: u64, data_length: u64) -> Result<Configured, u64> {
        let configured = self.configured.ok_or(answer::NOT_CONFIGURED)?;
        let signature = &configured.signature;
        if memory.len() as u64 != configured.memory_length {
            return Err(answer::MEMORY_LENGTH);
        }
        if signature.memory.cuts_a_block(data_length) || signature.wire.cuts_a_block(data_length) {
            return Err(answer::PARTIAL_BLOCK);
        }
        if u128::from(offset) + signature.memory.stream_length(data_length) > configured.layout.total() {
            return Err(answer::PAST_LAYOUT);
        }
        Ok(configured)
    }

    /// "then 11 (not open)"
    fn admit_with_wire(&self, memory: &[u8], wire: &[u8], offset: u64, data_length: u64) -> Result<Configured, u64> {
        let configured = self.admit(memory, offset, data_length)?;
        if (wire.len() as u128) < configured.signature.wire.stream_length(data_length) {
            return Err(answer::SHORT_WIRE);
        }
        Ok(configured)
    }

    /// Send, "memory to wire". "Wire bytes past the stream are not read and not written."
    pub fn send(&mut self, memory: &[u8], wire: &mut [u8], offset: u64, data_length: u64) -> Totals {
        let Configured { layout, signature, .. } = match self.admit_with_wire(memory, wire, offset, data_length) {
            Ok(configured) => configured,
            Err(answer) => return Totals::refused(answer),
        };
        let rule = Rule::send(&signature);
        let places = layout.stream_places(offset, signature.memory.stream_length(data_length) as usize);
        let stream: Vec<u8> = places.iter().map(|&place| memory[place]).collect();
        let output = rule.output(&stream, signature.wire.stream_length(data_length) as usize);
        wire[..output.len()].copy_from_slice(&output);
        self.record(rule.error(&stream, data_length));
        Totals::done(stream.len(), output.len())
    }

    /// Receive, "wire to memory".
    pub fn receive(&mut self, memory: &mut [u8], wire: &[u8], offset: u64, data_length: u64) -> Totals {
        let Configured { layout, signature, .. } = match self.admit_with_wire(memory, wire, offset, data_length) {
            Ok(configured) => configured,
            Err(answer) => return Totals::refused(answer),
        };
        let rule = Rule::receive(&signature);
        let stream = &wire[..signature.wire.stream_length(data_length) as usize];
        let output = rule.output(stream, signature.memory.stream_length(data_length) as usize);
        scatter(memory, &layout.stream_places(offset, output.len()), &output);
        self.record(rule.error(stream, data_length));
        Totals::done(stream.len(), output.len())
    }

    /// "The slot keeps its first error".
    fn record(&mut self, error: Option<BlockError>) {
        self.slot = self.slot.or(error);
    }

    /// Check: "type, actual, expected, offset, and empties it". The fifth number is `differing`, and it too is "zero
    /// without an error" (paper 02, request 6). So a key that was never configured gets five zeros in place of 01's
    /// four.
    pub fn check(&mut self) -> [u64; 5] {
        check_numbers(self.slot.take())
    }

    /// Open: returns the session, or the answer of a refusal.
    pub fn open(&self, memory: &[u8], offset: u64, data_length: u64) -> Result<Session, u64> {
        let configured = self.admit(memory, offset, data_length)?;
        let (key, memory, accepted) = (*self, memory.to_vec(), Vec::new());
        Ok(Session { key, configured, offset, data_length, memory, accepted })
    }
}

/// The five numbers that check returns for a slot.
pub fn check_numbers(slot: Option<BlockError>) -> [u64; 5] {
    slot.map_or([0; 5], |error| {
        let BlockError { error_type, actual, expected, offset, differing } = error;
        [error_type, actual.into(), expected.into(), offset, differing.into()]
    })
}

// Packets

/// A receive by packets in progress: what open was passed, the memory as it was then, and the bytes accepted since.
/// Everything else that the packet rule speaks of is computed from these, and from the start each time.
#[derive(Clone)]
pub struct Session {
    key: Key,
    configured: Configured,
    offset: u64,
    data_length: u64,
    memory: Vec<u8>,
    accepted: Vec<u8>,
}

impl Session {
    /// The transfer rule of a session, which is a receive.
    fn rule(&self) -> Rule {
        Rule::receive(&self.configured.signature)
    }

    /// "the bytes still to come are the wire stream's length less k"
    pub fn bytes_to_come(&self) -> usize {
        let stream = self.configured.signature.wire.stream_length(self.data_length) as usize;
        stream - self.accepted.len()
    }

    /// "packet 8, 12"
    pub fn judge_packet(&self, memory: &[u8], bytes: &[u8]) -> u64 {
        if memory.len() as u64 != self.configured.memory_length {
            answer::MEMORY_LENGTH
        } else if bytes.len() > self.bytes_to_come() {
            answer::LONG_PACKET
        } else {
            answer::DONE
        }
    }

    /// "An accepted packet's bytes are joined to those accepted before, and k grows by its length." "The totals are k and
    /// the number of output bytes then in memory."
    pub fn packet(&mut self, memory: &mut [u8], bytes: &[u8]) -> Totals {
        let answer = self.judge_packet(memory, bytes);
        if answer != answer::DONE {
            return Totals::refused(answer);
        }
        self.accepted.extend_from_slice(bytes);
        memory.copy_from_slice(&self.memory_now());
        Totals::done(self.accepted.len(), self.output_length())
    }

    /// "With q whole units and r bytes over": q, r and the block size. `None` if neither side is signed.
    fn whole_and_over(&self) -> Option<(usize, usize, usize)> {
        let rule = self.rule();
        let size = rule.block_size()?;
        let (k, wire_unit) = (self.accepted.len(), rule.input.unit(size));
        Some((k / wire_unit, k % wire_unit, size))
    }

    /// "q × (output unit) + min(r, block size) output bytes (k bytes if neither is signed)"
    fn output_length(&self) -> usize {
        match self.whole_and_over() {
            Some((q, r, size)) => q * self.rule().output.unit(size) + r.min(size),
            None => self.accepted.len(),
        }
    }

    /// "memory holds the first" of these output bytes, and "the rest of memory is as at open".
    fn memory_now(&self) -> Vec<u8> {
        let output = self.rule().output(&self.accepted, self.output_length());
        let mut memory = self.memory.clone();
        scatter(&mut memory, &self.configured.layout.stream_places(self.offset, output.len()), &output);
        memory
    }

    /// "the q units' first error, or none, if the key's slot was empty at open, else the old one"
    pub fn recorded(&self) -> Option<BlockError> {
        let q = self.whole_and_over().map_or(0, |(q, _, _)| q);
        self.key.slot.or_else(|| self.rule().first_error(&self.accepted, q))
    }

    /// Finish: "13 exactly while there are any" bytes to come, else the key.
    pub fn finish(&self) -> Result<Key, u64> {
        if self.bytes_to_come() > 0 {
            return Err(answer::BYTES_TO_COME);
        }
        Ok(self.abandon())
    }

    /// Abandon "is always accepted": "the key given to open with the recorded error in its slot".
    pub fn abandon(&self) -> Key {
        let slot = self.recorded();
        Key { slot, ..self.key }
    }
}

#[cfg(test)]
mod tests;
