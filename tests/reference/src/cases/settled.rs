//! Settled cases: the rule book's own, the published vectors, and each rule and answer on both sides of its boundary.

mod answers;
mod differing;
mod editions;
mod escapes;
mod packets;
mod paper;
mod rules;

use super::{entry, list_layout, Buffers, Case, Direction, Plan};
use crate::model::{Configuration, Domain, Signature, CHECKSUM, REMAP};
use crate::paper::case_a_domain as dif;
use crate::script::Call;

/// Returns all settled cases that fit the buffers of README.md.
pub fn cases() -> Vec<Case> {
    let rules = [rules::cases, escapes::cases, differing::cases, editions::cases, packets::cases];
    let parts = [paper::cases, answers::cases].into_iter().chain(rules);
    parts.flat_map(|cases| cases()).collect()
}

/// Returns the settled cases that need larger buffers.
pub fn large_cases() -> Vec<Case> {
    vec![answers::large_memory(), editions::large_memory(), editions::long_stream(), rules::longest_stream()]
}

const DIRECTIONS: [Direction; 2] = [Direction::Send, Direction::Receive];

fn unsigned() -> Domain {
    Domain::default()
}

/// A domain that agrees with case A's in nothing but the block size.
fn other_dif() -> Domain {
    Domain {
        guard_type: CHECKSUM,
        seed: 0xFFFF,
        reference_tag: 0x0102_0304,
        application_tag: 0xABCD,
        flags: 0,
        ..dif()
    }
}

fn signature(memory: Domain, wire: Domain) -> Signature {
    Signature { memory, wire, check_mask: 0xFF, ..Signature::default() }
}

/// Returns the signature of a transfer in this direction from the one domain to the other.
fn directed(direction: Direction, input: Domain, output: Domain) -> Signature {
    match direction {
        Direction::Send => signature(input, output),
        Direction::Receive => signature(output, input),
    }
}

/// Returns a transfer at offset 0, over one entry that is just long enough for it.
fn plan(signature: Signature, data_length: u64) -> Plan {
    let memory = signature.memory.stream_length(data_length) as u64;
    let layout = list_layout(&[entry(0, memory as u32, 0)]);
    Plan { memory, configuration: Configuration { layout, signature }, offset: 0, data_length }
}

fn configure(memory: u64, configuration: Configuration) -> Call {
    Call::Configure { memory, configuration: Box::new(configuration) }
}

fn memory_bytes(at: u64, bytes: &[u8]) -> Vec<Call> {
    runs(bytes).into_iter().map(|(from, count, byte)| Call::SetMemory { at: at + from, count, byte }).collect()
}

fn wire_bytes(at: u64, bytes: &[u8]) -> Vec<Call> {
    runs(bytes).into_iter().map(|(from, count, byte)| Call::SetWire { at: at + from, count, byte }).collect()
}

/// Returns calls that set bytes of the input stream. A send's stream must begin at byte 0 of memory and lie in one
/// piece, as it does in a transfer of `plan`.
fn input_bytes(direction: Direction, at: u64, bytes: &[u8]) -> Vec<Call> {
    match direction {
        Direction::Send => memory_bytes(at, bytes),
        Direction::Receive => wire_bytes(at, bytes),
    }
}

/// Returns packets of these lengths, from the start of the wire on.
fn packets(plan: &Plan, lengths: &[u64]) -> Vec<Call> {
    let starts = lengths.iter().scan(0, |at, length| {
        *at += length;
        Some(*at - length)
    });
    starts.zip(lengths).map(|(at, &length)| plan.packet(at, length)).collect()
}

/// Returns calls that receive in two packets, with the cut at every place, each time into memory that is filled anew.
fn in_two_packets(plan: &Plan) -> Vec<Call> {
    let stream = plan.wire_stream();
    let with_cut = |cut: u64| {
        let open = vec![Call::FillMemory { pattern: cut }, plan.open()];
        [open, packets(plan, &[cut, stream - cut]), vec![Call::Finish, Call::Check]].concat()
    };
    (0..=stream).flat_map(with_cut).collect()
}

/// Returns the runs of equal bytes: for each, its place, length and byte.
fn runs(bytes: &[u8]) -> Vec<(u64, u64, u8)> {
    let mut runs: Vec<(u64, u64, u8)> = Vec::new();
    for (at, &byte) in bytes.iter().enumerate() {
        match runs.last_mut() {
            Some((_, count, last)) if *last == byte => *count += 1,
            _ => runs.push((at as u64, 1, byte)),
        }
    }
    runs
}
