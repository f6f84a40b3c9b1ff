//! A transfer of right blocks, which is received again and again with a burst in one of its blocks.

use super::burst::Burst;
use crate::live::library::{self, RawKey};
use crate::model::{
    answer, crc_guard, Configuration, Domain, Entry, Layout, Signature, APPLICATION, FIELD_SIZE, GUARD, GUARD_ERROR,
    REFERENCE, REMAP,
};
use crate::rng::Rng;

/// How the wire stream is passed to the library.
#[derive(Clone, Copy)]
pub enum Passing {
    /// By one receive.
    Whole,
    /// By open, packets that end at these places and at the stream's end, and finish. No packet is empty, also if two
    /// places are the same.
    CutAt([usize; 4]),
}

impl Passing {
    fn text(&self) -> String {
        match self {
            Passing::Whole => "received by one call".to_string(),
            Passing::CutAt(cuts) => format!("received in packets that are cut at {cuts:?}"),
        }
    }
}

/// Which bits are changed, in which block, and how the stream is then passed.
pub struct Change {
    pub block: usize,
    pub burst: Burst,
    pub passing: Passing,
}

impl Change {
    fn text(&self) -> String {
        let Change { block, burst: Burst { first, pattern }, passing } = self;
        format!("block {block}, first bit {first}, pattern {pattern:#x}, {}", passing.text())
    }
}

/// A refused call.
#[derive(PartialEq, Eq)]
struct Refusal {
    call: &'static str,
    answer: u64,
}

impl Refusal {
    fn text(&self) -> String {
        format!("{} returns answer {}", self.call, self.answer)
    }
}

/// The five numbers that check returned (type, actual, expected, offset and differing), or the call that was refused.
type Checked = Result<[u64; 5], Refusal>;

pub struct Transfer {
    signature: Signature,
    blocks: usize,
    key: RawKey,
    memory: Vec<u8>,
    wire: Vec<u8>,
}

impl Transfer {
    /// Makes a transfer of random data with right CRC guards. The fields have the tags of the domain `tags`, which may
    /// differ from those of the signature. Returns a report if the library refuses the signature, or finds an error.
    pub fn new(signature: Signature, tags: &Domain, blocks: usize, rng: &mut Rng) -> Result<Transfer, String> {
        let data_length = u64::from(signature.wire.block_size) * blocks as u64;
        let stream = |domain: &Domain| vec![0; domain.stream_length(data_length) as usize];
        let (memory, mut wire) = (stream(&signature.memory), stream(&signature.wire));
        wire.fill_with(|| rng.byte());
        sign(&mut wire, &signature.wire, tags);
        let configuration = Configuration { layout: one_piece(memory.len()), signature };
        let configured = library::configure(library::fresh(), &memory, &configuration);
        let mut transfer = Transfer { signature, blocks, key: configured.key, memory, wire };
        let refused = |refusal: Refusal| format!("{}: {}", transfer.text(), refusal.text());
        accepted("configure", configured.answer).map_err(refused)?;
        transfer.expect_right()?;
        Ok(transfer)
    }

    fn block_size(&self) -> usize {
        self.signature.wire.block_size as usize
    }

    fn data_length(&self) -> u64 {
        (self.blocks * self.block_size()) as u64
    }

    /// Returns the place in the wire stream where a block's data begins.
    fn offset(&self, block: usize) -> usize {
        block * (self.block_size() + FIELD_SIZE)
    }

    fn data(&mut self, block: usize) -> &mut [u8] {
        let (offset, size) = (self.offset(block), self.block_size());
        &mut self.wire[offset..offset + size]
    }

    /// Returns the guard in the field after a block.
    fn guard(&self, block: usize) -> u16 {
        let field = &self.wire[self.offset(block) + self.block_size()..];
        u16::from_be_bytes([field[0], field[1]])
    }

    /// Returns a random change. Half of the streams are passed whole, and half are cut at random places, one of which
    /// lies in the changed bytes or right beside them.
    pub fn random_change(&self, rng: &mut Rng) -> Change {
        let block = rng.below(self.blocks as u64) as usize;
        let burst = Burst::random(8 * self.block_size(), rng);
        let mut cuts = [(); 4].map(|()| rng.between(0, self.wire.len() as u64) as usize);
        cuts[0] = self.offset(block) + burst.first / 8 + rng.below(4) as usize;
        cuts.sort_unstable();
        Change { block, burst, passing: rng.pick(&[Passing::Whole, Passing::CutAt(cuts)]) }
    }

    /// Receives the transfer with no bit changed. Returns a report if check finds an error.
    pub fn expect_right(&mut self) -> Result<(), String> {
        let checked = self.receive(Passing::Whole);
        self.expect_no_error(&checked, "no bit changed")
    }

    /// Receives the transfer with a change. Returns a report if check finds an error.
    pub fn expect_not_found(&mut self, change: &Change) -> Result<(), String> {
        let (_, checked) = self.receive_changed(change);
        self.expect_no_error(&checked, &change.text())
    }

    fn expect_no_error(&self, checked: &Checked, change: &str) -> Result<(), String> {
        let no_error = [0; 5];
        if *checked == Ok(no_error) {
            return Ok(());
        }
        Err(self.report(change, &format!("check returns {no_error:?}"), checked))
    }

    /// Receives the transfer with a change. Returns a report unless check finds the changed block's guard bad: it must
    /// return the model's CRC of the changed data as actual and the old guard as expected, and the two must differ. The
    /// fifth number must be the mask of the guard bytes in which they differ.
    pub fn expect_found(&mut self, change: &Change) -> Result<(), String> {
        let (crc, checked) = self.receive_changed(change);
        let (guard, offset) = (self.guard(change.block), self.offset(change.block) as u64);
        let bad_guard = [GUARD_ERROR, crc.into(), guard.into(), offset, differing_guard_bytes(crc, guard)];
        if crc != guard && checked == Ok(bad_guard) {
            return Ok(());
        }
        let expected = format!("check returns {bad_guard:?}, and the second number is not the third");
        Err(self.report(&change.text(), &expected, &checked))
    }

    fn report(&self, change: &str, expected: &str, checked: &Checked) -> String {
        let found = match checked {
            Ok(numbers) => format!("check returns {numbers:?}"),
            Err(refusal) => refusal.text(),
        };
        format!("{}: {change}\nexpected: {expected}\nfound: {found}", self.text())
    }

    fn text(&self) -> String {
        let Signature { memory, wire, check_mask, .. } = &self.signature;
        let Domain { block_size, seed, flags, .. } = wire;
        let (memory_kind, blocks) = (memory.kind, self.blocks);
        format!(
            "block size {block_size}, guard seed {seed:#x}, flags {flags}, check mask {check_mask:#x}, memory kind \
             {memory_kind}, number of blocks {blocks}"
        )
    }

    /// Makes a change, receives the transfer, and undoes the change. Returns the model's CRC of the changed data, and
    /// what check returned.
    fn receive_changed(&mut self, change: &Change) -> (u16, Checked) {
        change.burst.invert(self.data(change.block));
        let crc = crc_guard(self.signature.wire.seed, self.data(change.block));
        let checked = self.receive(change.passing);
        change.burst.invert(self.data(change.block));
        (crc, checked)
    }

    fn receive(&mut self, passing: Passing) -> Checked {
        match passing {
            Passing::Whole => self.receive_whole()?,
            Passing::CutAt(cuts) => self.receive_packets(cuts)?,
        }
        let done = library::check(self.key);
        self.key = done.key;
        accepted("check", done.answer)?;
        Ok(done.error.numbers())
    }

    fn receive_whole(&mut self) -> Result<(), Refusal> {
        let data_length = self.data_length();
        let done = library::receive(self.key, &mut self.memory, &self.wire, 0, data_length);
        self.key = done.key;
        accepted("receive", done.answer)
    }

    fn receive_packets(&mut self, cuts: [usize; 4]) -> Result<(), Refusal> {
        let opened = library::open(self.key, &self.memory, 0, self.data_length());
        accepted("open", opened.answer)?;
        let (mut session, mut start) = (opened.session, 0);
        for end in cuts.into_iter().chain([self.wire.len()]) {
            if start == end {
                continue;
            }
            let done = library::packet(session, &mut self.memory, &self.wire[start..end]);
            accepted("packet", done.answer)?;
            (session, start) = (done.session, end);
        }
        let finished = library::finish(session);
        self.key = finished.key;
        accepted("finish", finished.answer)
    }
}

/// Returns the mask of the bytes in which two guards differ: 128 for the first byte, 64 for the second. Both guard bits
/// of the check mask are set in every transfer.
fn differing_guard_bytes(actual: u16, expected: u16) -> u64 {
    let first = if actual / 256 == expected / 256 { 0 } else { 128 };
    let second = if actual % 256 == expected % 256 { 0 } else { 64 };
    first + second
}

fn accepted(call: &'static str, answer: u64) -> Result<(), Refusal> {
    if answer == answer::DONE {
        Ok(())
    } else {
        Err(Refusal { call, answer })
    }
}

/// Writes the field after each block of a stream: the domain's CRC guard, and the tags of the domain `tags`, which has
/// edition 1.
fn sign(stream: &mut [u8], domain: &Domain, tags: &Domain) {
    let size = domain.block_size as usize;
    let step = tags.flags & REMAP;
    for (block, unit) in stream.chunks_exact_mut(size + FIELD_SIZE).enumerate() {
        let (data, field) = unit.split_at_mut(size);
        let reference = tags.reference_tag.wrapping_add(step * block as u32);
        field[GUARD].copy_from_slice(&crc_guard(domain.seed, data).to_be_bytes());
        field[APPLICATION].copy_from_slice(&tags.application_tag.to_be_bytes());
        field[REFERENCE].copy_from_slice(&reference.to_be_bytes());
    }
}

/// Returns the layout of one piece, from memory's first byte on.
fn one_piece(length: usize) -> Layout {
    let mut layout = Layout { used: 1, repeat: 1, ..Layout::default() };
    layout.entries[0] = Entry { start: 0, count: length as u32, skip: 0 };
    layout
}
