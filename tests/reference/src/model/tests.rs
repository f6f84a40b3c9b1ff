//! What the papers say of packets as a whole, of escaped blocks, of the differing bytes and of the editions, tested on
//! the model with random transfers.

use super::*;
use crate::cases::random::plans;
use crate::cases::Plan;
use crate::rng::Rng;
use crate::script::fill;

/// A random transfer with a key for it, a memory and a wire of random bytes.
struct Scene {
    plan: Plan,
    key: Key,
    memory: Vec<u8>,
    wire: Vec<u8>,
}

fn scene(rng: &mut Rng) -> Scene {
    let plan = plans::plan(rng);
    let mut memory = vec![0; plan.memory as usize];
    let mut wire = vec![0; plan.wire_stream() as usize];
    fill(&mut memory, rng.number());
    fill(&mut wire, rng.number());
    let mut key = Key::default();
    assert_eq!(key.configure(&memory, &plan.configuration), answer::DONE);
    Scene { plan, key, memory, wire }
}

impl Scene {
    fn session(&self) -> Session {
        let opened = self.key.open(&self.memory, self.plan.offset, self.plan.data_length);
        opened.expect("a plan is accepted")
    }
}

/// "Once k is the wire stream's length, memory, recorded error, totals and finish's key equal those of a single receive".
#[test]
fn packets_end_as_one_receive() {
    let mut rng = Rng::new(3);
    for _ in 0..500 {
        let mut scene = scene(&mut rng);
        let mut session = scene.session();
        let mut by_packets = scene.memory.clone();
        let mut totals = session.packet(&mut by_packets, &[]);
        let mut rest = &scene.wire[..];
        for length in plans::packets(&mut rng, &scene.plan) {
            let (packet, left) = rest.split_at(length as usize);
            totals = session.packet(&mut by_packets, packet);
            rest = left;
        }
        let received = scene.key.receive(&mut scene.memory, &scene.wire, scene.plan.offset, scene.plan.data_length);
        assert_eq!((by_packets, totals), (scene.memory, received));
        assert_eq!(session.finish(), Ok(scene.key));
    }
}

/// After each byte, memory holds the first bytes of what the whole receive writes: "whatever the bytes still to come".
#[test]
fn memory_after_each_byte_is_a_part_of_the_whole() {
    let mut rng = Rng::new(4);
    for _ in 0..100 {
        let scene = scene(&mut rng);
        let (mut session, mut memory, mut whole) = (scene.session(), scene.memory.clone(), scene.memory.clone());
        let mut key = scene.key;
        let written = key.receive(&mut whole, &scene.wire, scene.plan.offset, scene.plan.data_length).written;
        let places = scene.plan.configuration.layout.stream_places(scene.plan.offset, written as usize);
        for byte in scene.wire.chunks(1).take(100) {
            let totals = session.packet(&mut memory, byte);
            let mut part = scene.memory.clone();
            for &place in &places[..totals.written as usize] {
                part[place] = whole[place];
            }
            assert_eq!(memory, part);
        }
    }
}

/// "finish gives 13 exactly while there are any" bytes to come, and refused calls change nothing.
#[test]
fn refused_calls_change_nothing() {
    let mut rng = Rng::new(5);
    let mut refused = 0;
    for _ in 0..200 {
        let scene = scene(&mut rng);
        let mut session = scene.session();
        let mut memory = scene.memory.clone();
        let half = scene.wire.len() / 2;
        session.packet(&mut memory, &scene.wire[..half]);
        let before = (memory.clone(), session.recorded(), session.bytes_to_come());
        let too_long = vec![0; session.bytes_to_come() + 1];
        assert_eq!(session.packet(&mut memory, &too_long), Totals::refused(answer::LONG_PACKET));
        assert_eq!(session.packet(&mut memory[1..], &[]), Totals::refused(answer::MEMORY_LENGTH));
        assert_eq!((memory, session.recorded(), session.bytes_to_come()), before);
        if session.finish() == Err(answer::BYTES_TO_COME) {
            refused += 1;
        } else {
            assert_eq!(session.bytes_to_come(), 0);
        }
    }
    assert!(refused > 100);
}

/// "all three fields of an escaped block are skipped" (paper 02, request 2): whatever the check mask, the error is that
/// of the same stream with a right field after this block.
#[test]
fn an_escaped_block_counts_as_a_right_one() {
    let mut rng = Rng::new(8);
    let mut later_errors = 0;
    for _ in 0..2_000 {
        let Scene { plan, wire, .. } = scene(&mut rng);
        let rule = Rule::receive(plan.signature());
        let escape_flags = rule.input.flags & (APPLICATION_ESCAPE | BOTH_ESCAPE);
        if !rule.input.signed() || escape_flags == 0 || plan.data_length == 0 {
            continue;
        }
        let size = rule.input.block_size as usize;
        let block = rng.below(plan.data_length / size as u64) as usize;
        let field = block * rule.input.unit(size) + size;
        let (mut escaped, mut right) = (wire.clone(), wire.clone());
        escaped[field + APPLICATION.start..field + REFERENCE.end].fill(0xFF);
        for at in 0..FIELD_SIZE {
            right[field + at] = rule.input.field_byte(rule.data(&wire, block, size), block, at);
        }
        let error = rule.error(&escaped, plan.data_length);
        assert_eq!(error, rule.error(&right, plan.data_length));
        later_errors += usize::from(error.is_some_and(|error| error.offset as usize > field));
    }
    assert!(later_errors > 100, "{later_errors}");
}

/// The bits of the reported field in a mask.
fn field_bits(error: &BlockError) -> u8 {
    match error.error_type {
        GUARD_ERROR => 0b1100_0000,
        APPLICATION_ERROR => 0b0011_0000,
        _ => 0b0000_1111,
    }
}

/// Puts a right field after each block of the wire, and then changes some bytes of some fields.
fn write_nearly_right_fields(rng: &mut Rng, rule: &Rule, wire: &mut [u8]) {
    let size = rule.input.block_size as usize;
    for block in 0..wire.len() / rule.input.unit(size) {
        let (field, changed) = (block * rule.input.unit(size) + size, rng.byte() & rng.byte());
        for at in 0..FIELD_SIZE {
            let right = rule.input.field_byte(rule.data(wire, block, size), block, at);
            let inverted = if mask_bit(changed, at) { rng.between(1, 255) as u8 } else { 0 };
            wire[field + at] = right ^ inverted;
        }
    }
}

/// Returns the errors of random wires with nearly right fields, each with its rule, its wire and the data length.
fn errors_of_nearly_right_wires(seed: u64) -> Vec<(BlockError, Rule, Vec<u8>, u64)> {
    let mut rng = Rng::new(seed);
    let mut errors = Vec::new();
    for _ in 0..2_000 {
        let Scene { plan, mut wire, .. } = scene(&mut rng);
        let rule = Rule::receive(plan.signature());
        if rule.input.signed() {
            write_nearly_right_fields(&mut rng, &rule, &mut wire);
            let error = rule.error(&wire, plan.data_length);
            errors.extend(error.map(|error| (error, rule, wire, plan.data_length)));
        }
    }
    assert!(errors.len() > 500, "{}", errors.len());
    errors
}

/// The two reported numbers differ in the bytes of the set, and in no other byte that is checked. Every set occurs.
#[test]
fn the_set_is_that_of_the_reported_numbers() {
    let mut seen = [0; 256];
    for (error, rule, _, _) in errors_of_nearly_right_wires(9) {
        let last_bit = field_bits(&error).trailing_zeros();
        let bytes = (error.actual ^ error.expected).to_le_bytes();
        let differing = (0..4).filter(|&at| bytes[at] != 0).fold(0, |mask: u8, at| mask | 1 << at);
        assert_eq!(error.differing, differing << last_bit & rule.check_mask, "{error:?}");
        assert_ne!(error.differing, 0, "{error:?}");
        seen[error.differing as usize] += 1;
    }
    let every_set = (1..=15).chain([0x10, 0x20, 0x30, 0x40, 0x80, 0xC0]);
    assert!(every_set.clone().all(|set: usize| seen[set] > 0), "{seen:?}");
    assert_eq!(seen.iter().filter(|&&times| times > 0).count(), every_set.count());
}

/// "the set of differing checked bytes" (paper 02, request 6): if one bit of the reported field alone is checked, the
/// same field is bad exactly if this bit is in the set, and it is then the whole set.
#[test]
fn each_byte_of_the_set_is_bad_by_itself() {
    for (error, rule, wire, data_length) in errors_of_nearly_right_wires(10) {
        let checked = field_bits(&error) & rule.check_mask;
        for bit in (0..8).map(|bit| 1 << bit).filter(|bit| checked & bit != 0) {
            let alone = Rule { check_mask: bit, ..rule }.error(&wire, data_length);
            let same_field = alone.filter(|alone| (alone.error_type, alone.offset) == (error.error_type, error.offset));
            let in_set = error.differing & bit != 0;
            assert_eq!(same_field, in_set.then_some(BlockError { differing: bit, ..error }));
        }
    }
}

/// "holding only the reported field's bits" (paper 02, request 6): neither a later field of the block nor a later block
/// adds to the set, whether it is right or wrong in all its bytes.
#[test]
fn what_comes_later_adds_nothing() {
    for (error, rule, wire, data_length) in errors_of_nearly_right_wires(11) {
        let size = rule.input.block_size as usize;
        let bits = field_bits(&error);
        let after_field = error.offset as usize + size + FIELD_SIZE - bits.trailing_zeros() as usize;
        let later_bits = (1 << bits.trailing_zeros()) - 1;
        let without_later_bits = Rule { check_mask: rule.check_mask & !later_bits, ..rule };
        assert_eq!(without_later_bits.error(&wire, data_length), Some(error));
        let mut inverted = wire.clone();
        inverted[after_field..].iter_mut().for_each(|byte| *byte = !*byte);
        let found = rule.found(&inverted, error.offset as usize / rule.input.unit(size), size);
        if !rule.input.escapes(&found) {
            assert_eq!(rule.error(&inverted, data_length), Some(error));
        }
    }
}

/// Check returns the set once: a later error does not change it while it is kept, and has its own after the check.
#[test]
fn the_set_is_kept_until_check() {
    let errors = errors_of_nearly_right_wires(12);
    for pair in errors.windows(2) {
        let [(first, ..), (second, ..)] = pair else { unreachable!("a window has two errors") };
        let mut key = Key::default();
        assert_eq!(key.check(), [0; 5]);
        key.record(Some(*first));
        key.record(Some(*second));
        assert_eq!(key.check()[4], u64::from(first.differing));
        assert_eq!(key.check(), [0; 5]);
        key.record(Some(*second));
        assert_eq!(key.check()[4], u64::from(second.differing));
    }
}

/// A signed domain with remap, whose reference tag is near the wrap in half of all cases.
fn remapped(rng: &mut Rng, block_size: u32, edition: u32) -> Domain {
    let random = rng.number() as u32;
    let reference_tag = if rng.percent(50) { u32::MAX - random % 64 } else { random };
    Domain { kind: T10_DIF, block_size, reference_tag, flags: REMAP, edition, ..Domain::default() }
}

/// "counts 512-byte steps whatever the block size" (paper 02, request 11): under edition 2 a block has the tag that its
/// first 512 bytes have if the same data is in blocks of 512.
#[test]
fn a_large_block_has_the_tag_of_its_first_512_bytes() {
    let mut rng = Rng::new(13);
    for steps in (1..=8).cycle().take(400) {
        let large = remapped(&mut rng, 512 * steps as u32, EDITION_2);
        for block in 0..40 {
            for edition in [EDITION_1, EDITION_2] {
                let small = Domain { block_size: 512, edition, ..large };
                assert_eq!(large.reference(block), small.reference(block * steps), "{large:?}, block {block}");
            }
        }
    }
}

/// From block to block the tag counts up one by one, as often as the edition says, and 0 follows 0xFFFFFFFF.
#[test]
fn tags_count_up_one_by_one() {
    let mut rng = Rng::new(14);
    let sizes =
        [(8, EDITION_1, 1), (4_160, EDITION_1, 1), (512, EDITION_2, 1), (1_536, EDITION_2, 3), (4_096, EDITION_2, 8)];
    for (block_size, edition, times) in sizes.into_iter().cycle().take(400) {
        let domain = remapped(&mut rng, block_size, edition);
        let mut tag = domain.reference_tag;
        for block in 0..40 {
            assert_eq!(domain.reference(block), tag, "{domain:?}, block {block}");
            for _ in 0..times {
                tag = tag.checked_add(1).unwrap_or(0);
            }
        }
        let without_remap = Domain { flags: 0, ..domain };
        assert_eq!(without_remap.reference(40), domain.reference_tag);
    }
}
