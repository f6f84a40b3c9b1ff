//! Which bytes differed, the fifth number of check: every set of each field's bytes, check masks that leave some of
//! them out, and what adds nothing to the set.

use super::*;
use crate::model::{APPLICATION, APPLICATION_ESCAPE, BOTH_ESCAPE, COPY_MASK_GIVEN, CRC, FIELD_SIZE, GUARD, REFERENCE};
use std::ops::Range;

type Field = [u8; FIELD_SIZE];

const FIELDS: [Range<usize>; 3] = [GUARD, APPLICATION, REFERENCE];

/// What is inverted in a byte that differs: one bit, two or all.
const INVERTED: Field = [0x01, 0x80, 0xFF, 0x10, 0x02, 0x40, 0x81, 0x08];

/// Check masks that have some bits of each field and lack others. Each has the bits that the other lacks.
const CUT_MASKS: [u8; 2] = [0xA9, 0x56];

pub fn cases() -> Vec<Case> {
    let mut cases = vec![never_configured(), reference_of_a_later_block(), large_blocks()];
    for direction in DIRECTIONS {
        cases.extend([CRC, CHECKSUM].map(|guard_type| every_set(direction, guard_type, 0xFF)));
        cases.extend([half_masked_tag(direction), later_fields(direction), later_blocks(direction)]);
        cases.extend([kept_error(direction), carries(direction), other_output(direction)]);
        cases.extend([APPLICATION_ESCAPE, BOTH_ESCAPE].map(|flag| escaped_block(direction, flag)));
    }
    cases.extend(CUT_MASKS.map(|check_mask| every_set(Direction::Receive, CRC, check_mask)));
    cases.extend(CUT_MASKS.map(|check_mask| every_set(Direction::Send, CHECKSUM, check_mask)));
    cases.extend(CUT_MASKS.map(|check_mask| every_set_in_packets(CRC, check_mask)));
    cases.push(every_set_in_packets(CHECKSUM, 0xFF));
    cases.extend([9, 11, 13, 14].map(field_in_two_pieces));
    cases.push(every_cut());
    cases
}

/// Case A's domain with this guard type, a reference tag of four different bytes, and no flags.
fn input(guard_type: u32) -> Domain {
    Domain { guard_type, reference_tag: 0x0102_0304, flags: 0, ..dif() }
}

/// The right field of `input` after a block of zeros: their CRC is 0, and their checksum 0xFFFF.
fn right_field(guard_type: u32) -> Field {
    let guard = if guard_type == CRC { 0x00 } else { 0xFF };
    [guard, guard, 0x12, 0x34, 0x01, 0x02, 0x03, 0x04]
}

/// Returns the field with the bytes of this set changed. The set is a mask in the rule book's bit order.
fn changed(field: Field, set: u8) -> Field {
    std::array::from_fn(|at| field[at] ^ if set << at & 0x80 != 0 { INVERTED[at] } else { 0 })
}

/// Returns all sets of bytes of a field but the empty one, as masks.
fn sets(field: &Range<usize>) -> impl Iterator<Item = u8> {
    let last_bit = FIELD_SIZE - field.end;
    (1..1 << field.len()).map(move |set: u8| set << last_bit)
}

/// Returns a transfer from this domain to an unsigned side.
fn from_input(direction: Direction, input: Domain, check_mask: u8, blocks: u64) -> Plan {
    let signature = Signature { check_mask, ..directed(direction, input, unsigned()) };
    plan(signature, blocks * u64::from(input.block_size))
}

/// Returns calls that turn one field of the input into another, without a call for a byte that is the same in both.
fn rewrite(direction: Direction, at: u64, from: Field, to: Field) -> Vec<Call> {
    let differing = (0..FIELD_SIZE).filter(|&byte| from[byte] != to[byte]);
    differing.flat_map(|byte| input_bytes(direction, at + byte as u64, &[to[byte]])).collect()
}

/// Puts blocks of 8 zeros with these fields in place.
fn blocks_of_zeros(direction: Direction, fields: &[Field]) -> Vec<Call> {
    let units: Vec<[u8; 16]> =
        fields.iter().map(|field| std::array::from_fn(|at| if at < 8 { 0 } else { field[at - 8] })).collect();
    input_bytes(direction, 0, &units.concat())
}

/// Makes a transfer and a check for each set of bytes of each field. `transferred` returns the calls for a field.
fn for_every_set(
    case: Case,
    direction: Direction,
    right: Field,
    transferred: impl Fn(&Range<usize>) -> Vec<Call>,
) -> Case {
    let mut case = case.then_all(blocks_of_zeros(direction, &[right]));
    let mut found = right;
    for field in FIELDS {
        for set in sets(&field) {
            let next = changed(right, set);
            case = case.then_all(rewrite(direction, 8, found, next)).then_all(transferred(&field)).then(Call::Check);
            found = next;
        }
    }
    case
}

/// Transfers a block with each set of differing bytes in one field.
fn every_set(direction: Direction, guard_type: u32, check_mask: u8) -> Case {
    let plan = from_input(direction, input(guard_type), check_mask, 1);
    let case = Case::named("every set of differing bytes").then(plan.configure());
    for_every_set(case, direction, right_field(guard_type), |_| vec![plan.transfer(direction)])
}

/// Receives a block with each set of differing bytes in one field. The packets are cut after the first byte of this
/// field and before its last.
fn every_set_in_packets(guard_type: u32, check_mask: u8) -> Case {
    let plan = from_input(Direction::Receive, input(guard_type), check_mask, 1);
    let case = Case::named("every set of differing bytes, in packets").then(plan.configure());
    for_every_set(case, Direction::Receive, right_field(guard_type), |field| {
        let (first, last) = (8 + field.start as u64 + 1, 8 + field.end as u64 - 1);
        [vec![plan.open()], packets(&plan, &[first, last - first, 16 - last]), vec![Call::Finish]].concat()
    })
}

/// Transfers a block whose application tag differs in one byte or in both, with both bytes checked, one or none. The
/// two tags that are reported don't tell these apart.
fn half_masked_tag(direction: Direction) -> Case {
    let right = right_field(CRC);
    let mut case = Case::named("half-masked application tag").then_all(blocks_of_zeros(direction, &[right]));
    let mut found = right;
    for check_mask in [0xFF, 0xEF, 0x10, 0xCF] {
        let plan = from_input(direction, input(CRC), check_mask, 1);
        case = case.then(plan.configure());
        for set in sets(&APPLICATION) {
            let next = changed(right, set);
            case = case.then_all(rewrite(direction, 8, found, next)).then_all([plan.transfer(direction), Call::Check]);
            found = next;
        }
    }
    case
}

/// Transfers a block with bad bytes in all three fields: the later ones add nothing to the first that is bad under the
/// check mask. First some bytes of each field differ, then all do.
fn later_fields(direction: Direction) -> Case {
    let mut case = Case::named("later fields of the block");
    let some_bytes = (0b0110_1010, &[0xFF, 0xBF, 0x9F, 0x97, 0x95][..]);
    let all_bytes = (0b1111_1111, &[0xFF, 0x1F, 0x06, 0x81][..]);
    for (set, check_masks) in [some_bytes, all_bytes] {
        case = case.then_all(blocks_of_zeros(direction, &[changed(right_field(CHECKSUM), set)]));
        for &check_mask in check_masks {
            let plan = from_input(direction, input(CHECKSUM), check_mask, 1);
            case = case.then_all([plan.configure(), plan.transfer(direction), Call::Check]);
        }
    }
    case
}

/// Transfers a right block, a bad one, and one of which all bytes differ. The third adds nothing, whichever field of
/// the second is bad.
fn later_blocks(direction: Direction) -> Case {
    let right = right_field(CRC);
    let plan = from_input(direction, input(CRC), 0xFF, 3);
    let mut case = Case::named("later blocks")
        .then_all(blocks_of_zeros(direction, &[right, right, changed(right, 0xFF)]))
        .then_all([plan.configure(), plan.transfer(direction), Call::Check]);
    let mut found = right;
    for set in [0x05, 0x08, 0x10, 0x20, 0x40, 0x80] {
        let next = changed(right, set);
        case = case.then_all(rewrite(direction, 24, found, next)).then_all([plan.transfer(direction), Call::Check]);
        if direction == Direction::Receive {
            // The cuts lie in all three fields of the second block, and in the guard of the third.
            let packets = packets(&plan, &[25, 2, 2, 12, 7]);
            case = case.then(plan.open()).then_all(packets).then_all([Call::Finish, Call::Check]);
        }
        found = next;
    }
    case
}

/// An error keeps its set while later transfers, sessions and configurations have others. After the check, the next
/// error has its own set.
fn kept_error(direction: Direction) -> Case {
    let right = right_field(CHECKSUM);
    let plan = from_input(direction, input(CHECKSUM), 0xFF, 1);
    let half_checked = from_input(direction, input(CHECKSUM), 0x5A, 1);
    let found = [0x20, 0x03, 0x40].map(|set| changed(right, set));
    let by_packets = |plan: &Plan, end: Call| {
        if direction == Direction::Send {
            return vec![plan.send()];
        }
        [vec![plan.open()], packets(plan, &[13, 3]), vec![end]].concat()
    };
    Case::named("a set kept until check")
        .then_all(blocks_of_zeros(direction, &[found[0]]))
        .then_all([plan.configure(), plan.transfer(direction)])
        .then_all(rewrite(direction, 8, found[0], found[1]))
        .then(plan.transfer(direction))
        .then_all(by_packets(&plan, Call::Finish))
        .then_all([half_checked.configure(), half_checked.transfer(direction), Call::Check, Call::Check])
        .then_all(by_packets(&half_checked, Call::Abandon))
        .then_all(rewrite(direction, 8, found[1], found[2]))
        .then_all([half_checked.transfer(direction), Call::Check, half_checked.transfer(direction), Call::Check])
        .then_all(rewrite(direction, 8, found[2], right))
        .then_all([half_checked.transfer(direction), Call::Check])
}

/// Transfers tags that differ by one, or have their bytes exchanged: the set is that of the bytes, whatever the numbers
/// are.
fn carries(direction: Direction) -> Case {
    let tags: [(u16, u16, u32, u32); 4] = [
        (0x0100, 0x00FF, 0, 0),
        (0x1234, 0x3412, 0, 0),
        (0x1234, 0x1234, 0x0100_0000, 0x00FF_FFFF),
        (0x1234, 0x1234, 0x00FF_FF00, 0x00FE_FFFF),
    ];
    let mut case = Case::named("neighbouring tags").then_all(blocks_of_zeros(direction, &[[0; FIELD_SIZE]]));
    for (application_tag, application_found, reference_tag, reference_found) in tags {
        let plan = from_input(direction, Domain { application_tag, reference_tag, ..input(CRC) }, 0xFF, 1);
        case = case
            .then_all(input_bytes(direction, 10, &application_found.to_be_bytes()))
            .then_all(input_bytes(direction, 12, &reference_found.to_be_bytes()))
            .then_all([plan.configure(), plan.transfer(direction), Call::Check]);
    }
    case
}

/// Transfers to a signed side, whose own field and copied bytes have no part in the set.
fn other_output(direction: Direction) -> Case {
    let both = directed(direction, input(CRC), other_dif());
    let copied = Signature { attribute_flags: COPY_MASK_GIVEN, copy_mask: 0x6C, ..both };
    let mut case = Case::named("differing bytes, signed output");
    for (signature, sets) in [(both, &[0x0A][..]), (copied, &[0x0A, 0x30, 0x80])] {
        let plan = plan(signature, 8);
        case = case.then(plan.configure());
        for &set in sets {
            case = case
                .then_all(blocks_of_zeros(direction, &[changed(right_field(CRC), set)]))
                .then_all([plan.transfer(direction), Call::Check]);
        }
    }
    case
}

/// Transfers an escaped block, of which all bytes differ, and a second block that has no error or one of its own. The
/// escaped block adds nothing. Then the first block is no longer an escape.
fn escaped_block(direction: Direction, flag: u32) -> Case {
    let plan = from_input(direction, Domain { flags: flag, ..input(CRC) }, 0xFF, 2);
    let (escape, right) = ([0xFF; FIELD_SIZE], right_field(CRC));
    let transferred = [plan.transfer(direction), Call::Check];
    Case::named("differing bytes of an escaped block")
        .then_all(blocks_of_zeros(direction, &[escape, right]))
        .then(plan.configure())
        .then_all(transferred.clone())
        .then_all(rewrite(direction, 24, right, changed(right, 0x06)))
        .then_all(transferred.clone())
        .then_all(rewrite(direction, 24, changed(right, 0x06), changed(right, 0x40)))
        .then_all(transferred.clone())
        .then_all(input_bytes(direction, 8, &right[..2]))
        .then_all(input_bytes(direction, 10, &[0xFF, 0x34]))
        .then_all(transferred)
}

/// Sends a block whose field lies in two pieces of memory, with the cut before this byte of the stream.
fn field_in_two_pieces(cut: u64) -> Case {
    let right = right_field(CRC);
    let mut plan = from_input(Direction::Send, input(CRC), 0xFF, 1);
    plan.configuration.layout = list_layout(&[entry(16 - cut, cut as u32, 0), entry(0, 16 - cut as u32, 0)]);
    let set = |at: usize, byte: u8| plan.set_input(Direction::Send, 8 + at as u64, byte);
    let mut case = Case::named("differing bytes in two pieces")
        .then(Call::SetMemory { at: 0, count: 16, byte: 0 })
        .then_all((0..FIELD_SIZE).map(|at| set(at, right[at])))
        .then(plan.configure());
    for bytes in [[4, 7], [5, 6], [2, 3], [0, 1]] {
        case = case.then_all(bytes.map(|at| set(at, right[at] ^ INVERTED[at]))).then_all([plan.send(), Call::Check]);
    }
    case
}

/// Receives a block with a bad reference tag, in two packets with the cut at every place.
fn every_cut() -> Case {
    let plan = from_input(Direction::Receive, input(CHECKSUM), 0xFB, 1);
    let right = right_field(CHECKSUM);
    Case::named("differing bytes, every cut")
        .then_all(blocks_of_zeros(Direction::Receive, &[changed(right, 0x0E)]))
        .then(plan.configure())
        .then_all(in_two_packets(&plan))
}

/// Receives two blocks under remap. The reference tag of the second is 0 by rule, after 0xFFFFFFFF in the first.
fn reference_of_a_later_block() -> Case {
    let plan = from_input(Direction::Receive, dif(), 0xFF, 2);
    let first = [0x00, 0x00, 0x12, 0x34, 0xFF, 0xFF, 0xFF, 0xFF];
    let second = [0x00, 0x00, 0x12, 0x34, 0x00, 0x00, 0x00, 0x00];
    let mut case = Case::named("reference tag of a later block")
        .then_all(blocks_of_zeros(Direction::Receive, &[first, second]))
        .then(plan.configure());
    for reference in [0xFFFF_FFFF_u32, 0x0000_0001, 0x0100_0000, 0x00FF_00FF] {
        let found = wire_bytes(28, &reference.to_be_bytes());
        case = case.then_all(found).then_all([plan.receive(), Call::Check]);
    }
    case
}

/// Receives a block of 520 bytes and one of 4,160. The checksum's two bytes count the high and the low bytes of the
/// data, so that damage to one data byte makes one guard byte differ. The tags then differ too, and add nothing.
fn large_blocks() -> Case {
    let mut case = Case::named("differing bytes of large blocks");
    for block_size in [520, 4_160] {
        let plan = from_input(Direction::Receive, Domain { block_size, ..input(CHECKSUM) }, 0xFF, 1);
        let size = u64::from(block_size);
        case = case
            .then(Call::SetWire { at: 0, count: size, byte: 0 })
            .then_all(wire_bytes(size, &right_field(CHECKSUM)))
            .then(plan.configure());
        let damaged = [(size - 2, 1), (size - 2, 0), (size - 1, 1), (size + 3, 0), (size + 7, 0)];
        for (at, byte) in damaged {
            let damage = Call::SetWire { at, count: 1, byte };
            case = case.then_all([damage, plan.receive(), Call::Check]);
        }
    }
    case
}

/// "Check on a key never configured" returns zeros, before and after a refused configure, and so does check on a key
/// that has lost its seal.
fn never_configured() -> Case {
    let refused = configure(0x20, Configuration::default());
    Case::named("differing bytes of a key never configured").then_all([
        Call::Check,
        refused,
        Call::Check,
        Call::Unseal,
        Call::Check,
        Call::Reseal,
        Call::Check,
    ])
}

#[cfg(test)]
mod tests {
    use super::*;
    use crate::script::Machine;

    /// Returns the type and the set that each check of a case returns by the model.
    fn reported(case: &Case) -> Vec<(u64, u64)> {
        let mut machine = Machine::new(case.buffers.memory, case.buffers.wire);
        let replies = case.calls.iter().map(|call| (call, machine.run(call)));
        let checks = replies.filter(|(call, _)| **call == Call::Check);
        checks.filter_map(|(_, numbers)| numbers).map(|numbers| (numbers[1], numbers[5])).collect()
    }

    /// Returns the type and the set that must be reported, if the bytes of `set` differ in one field.
    fn masked(error_type: u64, set: u8, check_mask: u8) -> (u64, u64) {
        match set & check_mask {
            0 => (0, 0),
            bits => (error_type, bits.into()),
        }
    }

    #[test]
    fn every_set_is_reported_through_every_mask() {
        let fields = [(1, vec![0x40, 0x80, 0xC0]), (3, vec![0x10, 0x20, 0x30]), (2, (1..=15).collect::<Vec<u8>>())];
        for check_mask in [0xFF, 0xA9, 0x56] {
            let of_field = |(error_type, sets): &(u64, Vec<u8>)| {
                sets.iter().map(|&set| masked(*error_type, set, check_mask)).collect::<Vec<_>>()
            };
            let wanted: Vec<(u64, u64)> = fields.iter().flat_map(of_field).collect();
            for guard_type in [CRC, CHECKSUM] {
                for direction in DIRECTIONS {
                    assert_eq!(reported(&every_set(direction, guard_type, check_mask)), wanted);
                }
                assert_eq!(reported(&every_set_in_packets(guard_type, check_mask)), wanted);
            }
        }
    }

    /// The sets of the other cases, worked out by hand.
    #[test]
    fn the_other_cases_report_these_sets() {
        let none = (0, 0);
        for direction in DIRECTIONS {
            let both_bytes = [(3, 0x10), (3, 0x20), (3, 0x30)];
            let first_byte = [none, (3, 0x20), (3, 0x20)];
            let second_byte = [(3, 0x10), none, (3, 0x10)];
            let wanted = [both_bytes, first_byte, second_byte, [none; 3]].concat();
            assert_eq!(reported(&half_masked_tag(direction)), wanted);
            let some_bytes = [(1, 0x40), (3, 0x20), (2, 0x0A), (2, 0x02), none];
            let all_bytes = [(1, 0xC0), (3, 0x10), (2, 0x06), (1, 0x80)];
            assert_eq!(reported(&later_fields(direction)), [&some_bytes[..], &all_bytes].concat());
            assert_eq!(reported(&carries(direction)), [(3, 0x30), (3, 0x30), (2, 0x0F), (2, 0x05)]);
            assert_eq!(reported(&other_output(direction)), [(2, 0x0A), (2, 0x0A), (3, 0x30), (1, 0x80)]);
            for flag in [APPLICATION_ESCAPE, BOTH_ESCAPE] {
                assert_eq!(reported(&escaped_block(direction, flag)), [none, (2, 0x06), (1, 0x40), (3, 0x20)]);
            }
            let kept = [(3, 0x20), none, (2, 0x02), (1, 0x40), none];
            assert_eq!(reported(&kept_error(direction)), kept);
        }
        let sets = [(1, 0xC0), (2, 0x05), (2, 0x08), (3, 0x10), (3, 0x20), (1, 0x40), (1, 0x80)];
        assert_eq!(reported(&later_blocks(Direction::Send)), sets);
        let twice = sets[1..].iter().flat_map(|&set| [set, set]);
        assert_eq!(reported(&later_blocks(Direction::Receive)), [sets[0]].into_iter().chain(twice).collect::<Vec<_>>());
        assert_eq!(reported(&reference_of_a_later_block()), [(2, 0x0F), (2, 0x01), (2, 0x08), (2, 0x05)]);
        let large = [(1, 0x80), none, (1, 0x40), (1, 0x40), (1, 0x40)];
        assert_eq!(reported(&large_blocks()), [large, large].concat());
        assert_eq!(reported(&every_cut()), [(2, 0x0A); 17]);
        for cut in [9, 11, 13, 14] {
            assert_eq!(reported(&field_in_two_pieces(cut)), [(2, 0x09), (2, 0x0F), (3, 0x30), (1, 0xC0)]);
        }
        assert_eq!(reported(&never_configured()), [none; 4]);
    }
}
