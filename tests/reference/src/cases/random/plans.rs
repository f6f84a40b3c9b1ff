//! Random transfers: valid ones, configurations with something wrong, calls at boundaries, and the cuts of packets.

use super::{layouts, Plan};
use crate::model::{
    Configuration, Domain, Entry, Signature, APPLICATION_ESCAPE, BOTH_ESCAPE, COPY_MASK_GIVEN, EDITION_1, EDITION_2,
    SECTOR_SIZE, T10_DIF,
};
use crate::rng::Rng;
use crate::script::{Call, BUFFER_SIZE};

/// Returns a transfer that is accepted and fits the buffers.
pub fn plan(rng: &mut Rng) -> Plan {
    loop {
        let plan = any_plan(rng);
        if plan.memory <= BUFFER_SIZE as u64 {
            return plan;
        }
    }
}

fn any_plan(rng: &mut Rng) -> Plan {
    let block_size = block_size(rng);
    let signature = signature(rng, block_size);
    let blocks = match block_size {
        0..=64 => rng.between(0, 6),
        65..=520 => rng.between(1, 4),
        521..=2_048 => rng.between(1, 3),
        _ => rng.between(1, 2),
    };
    let signed = signature.memory.signed() || signature.wire.signed();
    let data_length = if signed { blocks * u64::from(block_size) } else { rng.below(200) };
    let stream = signature.memory.stream_length(data_length) as u64;
    // With large blocks the offset may have a whole sector, which edition 2 must not count.
    let reach = if block_size < SECTOR_SIZE { 30 } else { 2 * u64::from(SECTOR_SIZE) };
    let offset = if rng.percent(50) { 0 } else { rng.below(reach) };
    let slack = if rng.percent(50) { 0 } else { rng.below(30) };
    let (layout, needed) = layouts::layout(rng, offset + stream + slack);
    let memory = needed + if rng.percent(50) { 0 } else { rng.below(20) };
    Plan { memory, configuration: Configuration { layout, signature }, offset, data_length }
}

fn block_size(rng: &mut Rng) -> u32 {
    match rng.below(100) {
        0..=47 => 8 * rng.between(1, 3) as u32,
        48..=87 => 8 * rng.between(1, 8) as u32,
        88..=92 => rng.pick(&[512, 520]),
        93..=97 => rng.pick(&[1_024, 1_024, 1_024, 1_536, 1_536, 2_048]),
        _ => rng.pick(&[3_584, 4_096, 4_096, 4_160]),
    }
}

fn signature(rng: &mut Rng, block_size: u32) -> Signature {
    let mut memory = domain(rng, block_size);
    let mut wire = if rng.percent(50) { related(rng, &memory) } else { domain(rng, block_size) };
    let attribute_flags = if rng.percent(35) { COPY_MASK_GIVEN } else { 0 };
    if attribute_flags == 0 {
        match rng.below(10) {
            0 => (memory, wire) = (ignored(rng), ignored(rng)),
            1..=4 => memory = ignored(rng),
            5 | 6 => wire = ignored(rng),
            _ => {}
        }
    }
    Signature { memory, wire, attribute_flags, check_mask: mask(rng, 0xFF), copy_mask: mask(rng, 0xC0) }
}

fn mask(rng: &mut Rng, usual: u8) -> u8 {
    let shapes = [usual, 0xFF, 0xC0, 0x3F, 0xCF, 0xF0, 0x0F, 0x30, 0x80, 0x00];
    match rng.below(10) {
        0..=4 => usual,
        5..=7 => rng.pick(&shapes),
        _ => rng.byte(),
    }
}

/// Returns a valid T10-DIF domain.
fn domain(rng: &mut Rng, block_size: u32) -> Domain {
    let flags = rng.pick(&[0, 1, 1, 2, 3, 3, 4, 5, 5]);
    let escapes = flags & (APPLICATION_ESCAPE | BOTH_ESCAPE) != 0;
    let tags: &[u16] =
        if escapes { &[0x1234, 0, 0xFFFE, 0xFF00, 0x00FF] } else { &[0x1234, 0, 0xFFFF, 0xFF00, 0xFFFE] };
    Domain {
        kind: T10_DIF,
        block_size,
        guard_type: rng.pick(&[0, 0, 1]),
        reference_tag: reference_tag(rng),
        seed: rng.pick(&[0, 0xFFFF]),
        application_tag: rng.pick(tags),
        flags,
        edition: edition(rng, block_size),
    }
}

/// Returns an edition that is valid with this block size.
fn edition(rng: &mut Rng, block_size: u32) -> u32 {
    if block_size.is_multiple_of(SECTOR_SIZE) {
        rng.pick(&[EDITION_1, EDITION_2, EDITION_2])
    } else {
        EDITION_1
    }
}

/// Returns a reference tag, mostly one from which a few steps of either edition lead past 0xFFFFFFFF or carry into a
/// higher byte.
fn reference_tag(rng: &mut Rng) -> u32 {
    let random = rng.number() as u32;
    let near_wrap = u32::MAX - rng.below(16) as u32;
    rng.pick(&[0, 1, 0xFFFF_FFFF, 0xFFFF_FFFE, 0xFFFF_FFFC, 0x00FF_FFFF, near_wrap, random])
}

/// Returns a domain that differs from another in one number at most. Where both editions are valid, that is often the
/// edition.
fn related(rng: &mut Rng, domain: &Domain) -> Domain {
    let mut other = *domain;
    if other.block_size.is_multiple_of(SECTOR_SIZE) && rng.percent(30) {
        other.edition = EDITION_1 + EDITION_2 - other.edition;
        return other;
    }
    match rng.below(8) {
        0 => other.guard_type = 1 - other.guard_type,
        1 => other.seed = !other.seed,
        2 => other.application_tag ^= 0x0100,
        3 => other.reference_tag = reference_tag(rng),
        4 => other.flags ^= 1,
        5 => other.flags &= 1,
        _ => {}
    }
    other
}

/// Returns a domain of kind 0, whose other numbers may be anything.
fn ignored(rng: &mut Rng) -> Domain {
    if rng.percent(50) {
        return Domain::default();
    }
    let block_size = rng.pick(&[0, 8, 12, 4_168]);
    let noise = domain(rng, block_size);
    let (flags, edition) = (rng.pick(&[2, 6, 99]), rng.pick(&[0, 1, 2, 3, 0xFFFF_FFFF]));
    Domain { kind: 0, flags, application_tag: 0xFFFF, seed: 1, edition, ..noise }
}

/// Returns the plan with up to three numbers of its configuration changed, mostly to wrong ones.
pub fn damaged(rng: &mut Rng, plan: &Plan) -> Plan {
    let mut damaged = plan.clone();
    for _ in 0..rng.pick(&[0, 1, 1, 1, 1, 2, 3]) {
        if rng.percent(55) {
            damage_signature(rng, &mut damaged.configuration.signature);
        } else {
            damage_layout(rng, &mut damaged);
        }
    }
    damaged
}

/// Block sizes to try with edition 2: some are multiples of 512.
const EDITION_2_SIZES: [u32; 11] = [8, 256, 504, 512, 520, 768, 1_024, 1_536, 4_088, 4_096, 4_160];

fn damage_signature(rng: &mut Rng, signature: &mut Signature) {
    if rng.percent(15) {
        signature.attribute_flags = rng.pick(&[0, 1, 1, 2, 0xFFFF_FFFF]);
        return;
    }
    let domain = if rng.percent(50) { &mut signature.memory } else { &mut signature.wire };
    match rng.below(8) {
        0 => domain.kind = rng.pick(&[0, 1, 2, 3, 0xFFFF_FFFF]),
        1 => domain.block_size = rng.pick(&[0, 7, 8, 12, 16, 24, 4_152, 4_160, 4_168, 0xFFFF_FFF8]),
        2 => domain.guard_type = rng.pick(&[0, 1, 2, 0xFFFF_FFFF]),
        3 => domain.seed = rng.pick(&[0, 1, 0xFFFE, 0xFFFF]),
        4 => domain.flags = rng.pick(&[0, 1, 2, 3, 4, 5, 6, 7, 8, 0xFFFF_FFFF]),
        5 => domain.edition = rng.pick(&[0, 1, 2, 3, 0x101, 0x8000_0002, 0xFFFF_FFFF]),
        6 => (domain.edition, domain.block_size) = (EDITION_2, rng.pick(&EDITION_2_SIZES)),
        _ => (domain.application_tag, domain.flags) = (0xFFFF, rng.pick(&[0, 1, 2, 3, 4, 5])),
    }
}

fn damage_layout(rng: &mut Rng, plan: &mut Plan) {
    let layout = &mut plan.configuration.layout;
    let chosen = rng.below(layout.entries.len().min(layout.used as usize + 1) as u64) as usize;
    match rng.below(6) {
        0 => layout.used = rng.pick(&[0, 1, 15, 16, 17, layout.used.saturating_add(1), 0xFFFF_FFFF]),
        1 => {
            layout.repeat =
                rng.pick(&[0, 1, 2, 64, 1_024, 1_025, layout.repeat.saturating_add(1), 0x1000_0000, 0xFFFF_FFFF])
        }
        2 => plan.memory = rng.pick(&[0, plan.memory.saturating_sub(1), plan.memory + 1, BUFFER_SIZE as u64]),
        _ => damage_entry(rng, &mut layout.entries[chosen]),
    }
}

fn damage_entry(rng: &mut Rng, entry: &mut Entry) {
    let near = [entry.start.saturating_sub(1), entry.start.saturating_add(1), 0];
    let far = [u64::MAX, u64::MAX - u64::from(entry.count), 1 << 32, 1 << 63];
    match rng.below(6) {
        0 | 1 => entry.start = rng.pick(&near),
        2 => entry.start = rng.pick(&far),
        3 => entry.count = rng.pick(&[0, 1, entry.count.saturating_sub(1), entry.count.saturating_add(1), u32::MAX]),
        4 => entry.skip = rng.pick(&[0, entry.skip.saturating_sub(1), entry.skip.saturating_add(1), u32::MAX]),
        _ => (entry.count, entry.skip) = (1, u32::MAX),
    }
}

/// Returns a transfer or open with one or two numbers at or near a boundary.
pub fn boundary_call(rng: &mut Rng, plan: &Plan) -> Call {
    let (mut memory, mut wire) = (plan.memory, plan.wire_stream());
    let (mut offset, mut data_length) = (plan.offset, plan.data_length);
    for _ in 0..rng.pick(&[1, 1, 1, 2]) {
        match rng.below(6) {
            0 => memory = rng.pick(&[0, memory.saturating_sub(1), memory + 1]),
            1 => wire = rng.pick(&[0, wire.saturating_sub(1), wire + 1, wire + 9]),
            2 | 3 => offset = boundary_offset(rng, plan),
            _ => data_length = boundary_data_length(rng, plan),
        }
    }
    match rng.below(3) {
        0 => Call::Send { memory, wire, offset, data_length },
        1 => Call::Receive { memory, wire, offset, data_length },
        _ => Call::Open { memory, offset, data_length },
    }
}

fn boundary_offset(rng: &mut Rng, plan: &Plan) -> u64 {
    let total = plan.configuration.layout.total() as u64;
    let last = total.saturating_sub(plan.signature().memory.stream_length(plan.data_length) as u64);
    rng.pick(&[0, last, last + 1, total, total + 1, u64::MAX, u64::MAX - 7, u64::MAX - plan.data_length])
}

fn boundary_data_length(rng: &mut Rng, plan: &Plan) -> u64 {
    let size = plan.block_size().unwrap_or(1) as u64;
    let unit = size + 8;
    let total = plan.configuration.layout.total() as u64;
    let wrapping = (u64::MAX / unit + 1) * size;
    let random = rng.number();
    rng.pick(&[
        0,
        plan.data_length.saturating_sub(1),
        plan.data_length + 1,
        plan.data_length.saturating_sub(size),
        plan.data_length + size,
        total / size * size,
        total / unit * size,
        wrapping,
        wrapping + size,
        u64::MAX,
        u64::MAX / size * size,
        1 << 63,
        random,
        random / size * size,
    ])
}

/// Returns the lengths of the packets in which the wire stream arrives.
pub fn packets(rng: &mut Rng, plan: &Plan) -> Vec<u64> {
    let stream = plan.wire_stream();
    let mut cuts = match rng.below(7) {
        0 => vec![],
        1 if stream <= 100 => (1..stream).collect(),
        2 | 3 => boundary_cuts(rng, plan),
        4 => (0..rng.between(1, 3)).map(|_| rng.below(stream + 1)).collect(),
        _ => (0..rng.below(8)).map(|_| rng.below(stream + 1)).collect(),
    };
    if rng.percent(30) {
        // The same cut twice makes an empty packet.
        let again = if cuts.is_empty() { stream } else { rng.pick(&cuts) };
        cuts.push(again);
    }
    cuts.sort_unstable();
    cuts.push(stream);
    let starts = [&[0], &cuts[..]].concat();
    starts.iter().zip(&cuts).map(|(start, end)| end - start).collect()
}

/// Returns cuts at and around the ends of blocks, guards, tags and fields.
fn boundary_cuts(rng: &mut Rng, plan: &Plan) -> Vec<u64> {
    let size = plan.block_size().unwrap_or(16) as u64;
    let stream = plan.wire_stream();
    let unit = if plan.signature().wire.signed() { size + 8 } else { size };
    let mut cuts = Vec::new();
    for block in 0..plan.data_length / size {
        for end in [0, size, size + 2, size + 4, unit] {
            let around = (block * unit + end + 1).saturating_sub(rng.below(3));
            if rng.percent(40) && around <= stream {
                cuts.push(around);
            }
        }
    }
    cuts
}

#[cfg(test)]
mod tests {
    use super::*;
    use crate::model::answer;
    use crate::script::Machine;

    #[test]
    fn plans_are_accepted_and_packets_are_the_whole_stream() {
        let mut rng = Rng::new(6);
        for _ in 0..2_000 {
            let plan = plan(&mut rng);
            let mut machine = Machine::new(BUFFER_SIZE, BUFFER_SIZE);
            for call in [plan.configure(), plan.send(), plan.receive(), plan.open()] {
                assert!(machine.fits(&call));
                assert_eq!(machine.run(&call).map(|numbers| numbers[0]), Some(answer::DONE), "{}", call.text());
            }
            assert_eq!(packets(&mut rng, &plan).iter().sum::<u64>(), plan.wire_stream());
        }
    }
}
