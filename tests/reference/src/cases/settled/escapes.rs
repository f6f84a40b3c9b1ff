//! Escaped blocks, of which no field is checked, and blocks that are nearly escaped.

use super::*;
use crate::model::{APPLICATION_ESCAPE, BOTH_ESCAPE, CHECKSUM, COPY_MASK_GIVEN, CRC, FIELD_SIZE};

const ESCAPE_FLAGS: [u32; 2] = [REMAP | APPLICATION_ESCAPE, REMAP | BOTH_ESCAPE];

/// The same two, and before them the flags with which no block is escaped.
const ALL_FLAGS: [u32; 3] = [REMAP, ESCAPE_FLAGS[0], ESCAPE_FLAGS[1]];

/// A field that is an escape under both flags.
const ALL_ONES: [u8; FIELD_SIZE] = [0xFF; FIELD_SIZE];

/// What is written over the guard of a valid block.
const NOTHING: &[u8] = &[];
const WRONG_GUARD: &[u8] = &[0xBA, 0xD0];

pub fn cases() -> Vec<Case> {
    let mut cases = Vec::new();
    for flags in ALL_FLAGS {
        let received = |check_mask: u8| escaped_fields(Direction::Receive, flags, check_mask, WRONG_GUARD);
        cases.extend([0xFF, 0xC0, 0xCF, 0x0F].map(received));
        cases.push(escaped_fields(Direction::Receive, flags, 0xFF, NOTHING));
        cases.push(escaped_fields(Direction::Send, flags, 0xFF, WRONG_GUARD));
    }
    for guard_type in [CRC, CHECKSUM] {
        for block_size in [8, 512] {
            cases.extend([0xFF, 0x00].map(|byte| never_written_unit(guard_type, block_size, byte)));
        }
    }
    for direction in DIRECTIONS {
        cases.extend(ALL_FLAGS.map(|flags| error_after_escape(direction, flags)));
        cases.extend(ESCAPE_FLAGS.map(|flags| output_of_escape(direction, flags)));
        cases.extend(ESCAPE_FLAGS.map(|flags| escape_of_the_output(direction, flags)));
    }
    cases.extend(ALL_FLAGS.map(escape_in_two_pieces));
    cases
}

/// Returns case A's domain with these flags in place of its own.
fn dif_with(flags: u32) -> Domain {
    Domain { flags, ..dif() }
}

/// Transfers a block with this guard, whose tags are an escape, nearly one, or none.
fn escaped_fields(direction: Direction, flags: u32, check_mask: u8, guard: &[u8]) -> Case {
    let reference_tag = 0x0102_0304;
    let input = Domain { reference_tag, ..dif_with(flags) };
    let plan = plan(Signature { check_mask, ..directed(direction, input, unsigned()) }, 16);
    let fields: [(u16, u32); 11] = [
        (0x1234, reference_tag),
        (0xFFFF, reference_tag),
        (0xFFFF, 0xFFFF_FFFF),
        (0xFFFF, 0xFFFF_FFFE),
        (0xFFFF, 0xFFFF_FEFF),
        (0xFFFF, 0xFFFE_FFFF),
        (0xFFFF, 0x7FFF_FFFF),
        (0x1234, 0xFFFF_FFFF),
        (0xFF34, 0xFFFF_FFFF),
        (0x12FF, 0xFFFF_FFFF),
        (0xFFFE, 0xFFFF_FFFF),
    ];
    let mut case = Case::named("escape")
        .then_all(plan.prepare(direction))
        .then(plan.configure())
        .then_all(input_bytes(direction, 8, guard));
    for (application, reference) in fields {
        let tags = [&application.to_be_bytes()[..], &reference.to_be_bytes()].concat();
        case = case.then_all(input_bytes(direction, 10, &tags)).then_all([plan.transfer(direction), Call::Check]);
    }
    case
}

/// Receives three units, of which the second was never written: its field is all ones, and its data is all ones or all
/// zeros. Linux's t10-pi and QEMU's NVMe controller skip such a unit. Its two tags are wrong, so without an escape flag
/// it is an error. Then the guard of the third unit is damaged, and with an escape flag that is the first error.
fn never_written_unit(guard_type: u32, block_size: u32, byte: u8) -> Case {
    let unit = u64::from(block_size) + FIELD_SIZE as u64;
    let with_flags = |flags: u32| {
        let wire = Domain { guard_type, block_size, ..dif_with(flags) };
        plan(signature(unsigned(), wire), 3 * u64::from(block_size))
    };
    let received = ALL_FLAGS.map(|flags| {
        let plan = with_flags(flags);
        // The cuts are in the guard, in the application tag and in the reference tag of the second unit.
        let packets = packets(&plan, &[2 * unit - 7, 2, 3, 2 + unit]);
        let by_packets = [vec![plan.open()], packets, vec![Call::Finish, Call::Check]].concat();
        [vec![plan.configure(), plan.receive(), Call::Check], by_packets].concat()
    });
    let never_written = [vec![byte; block_size as usize], ALL_ONES.to_vec()].concat();
    Case::named("never written unit")
        .then_all(with_flags(REMAP).prepare(Direction::Receive))
        .then_all(wire_bytes(unit, &never_written))
        .then_all(received.concat())
        .then_all(wire_bytes(3 * unit - 8, WRONG_GUARD))
        .then_all(received.concat())
}

/// Transfers an escaped block, of which all fields are wrong, and a second block. The second block is right, then its
/// reference tag is bad, its application tag too, and its guard too. The last of these errors stays in the slot while
/// two escaped blocks are transferred, and a check empties it.
fn error_after_escape(direction: Direction, flags: u32) -> Case {
    let input = Domain { reference_tag: 0, ..dif_with(flags) };
    let plan = plan(directed(direction, input, unsigned()), 16);
    let mut case = Case::named("error after an escape")
        .then_all(plan.prepare(direction))
        .then_all(input_bytes(direction, 8, &ALL_ONES))
        .then_all([plan.configure(), plan.transfer(direction), Call::Check]);
    for damaged in [31, 26, 24] {
        case = case.then_all([plan.set_input(direction, damaged, 0x66), plan.transfer(direction), Call::Check]);
    }
    if direction == Direction::Receive {
        case = case.then_all(in_two_packets(&plan));
    }
    let again = [plan.transfer(direction), Call::Check];
    case.then(plan.transfer(direction))
        .then_all(input_bytes(direction, 24, &ALL_ONES))
        .then_all(again.clone())
        .then_all(again)
}

/// Copies and generates the field of an escaped block whose data and guard are damaged. The escape changes nothing in
/// the output.
fn output_of_escape(direction: Direction, flags: u32) -> Case {
    let input = dif_with(flags);
    let automatic = [input, dif(), other_dif()].map(|output| directed(direction, input, output));
    let given = [0xFF, 0x5A, 0x00].map(|copy_mask| {
        let signature = directed(direction, input, other_dif());
        Signature { attribute_flags: COPY_MASK_GIVEN, copy_mask, ..signature }
    });
    let mut case = Case::named("output of an escaped block")
        .then_all(plan(automatic[0], 16).prepare(direction))
        .then_all(input_bytes(direction, 7, &[0x5A, 0xBA, 0xD0, 0xFF, 0xFF, 0xFF, 0xFF, 0xFF, 0xFF]));
    for signature in [automatic, given].concat() {
        let plan = plan(signature, 16);
        case = case.then_all([plan.configure(), plan.transfer(direction), Call::Check]);
        if direction == Direction::Receive {
            case = case
                .then_all([Call::FillMemory { pattern: 5 }, plan.open()])
                .then_all(packets(&plan, &[9, 2, 3, 18]))
                .then_all([Call::Finish, Call::Check]);
        }
    }
    case
}

/// The output domain alone has an escape flag, so no block is escaped.
fn escape_of_the_output(direction: Direction, flags: u32) -> Case {
    let plan = plan(directed(direction, dif(), dif_with(flags)), 16);
    Case::named("escape flag of the output domain")
        .then_all(plan.prepare(direction))
        .then(plan.configure())
        .then_all(input_bytes(direction, 8, &ALL_ONES))
        .then_all([plan.transfer(direction), Call::Check])
}

/// Sends a block whose field lies in two pieces of memory, with an escape in it and then with nearly one.
fn escape_in_two_pieces(flags: u32) -> Case {
    let mut plan = plan(signature(dif_with(flags), unsigned()), 16);
    plan.configuration.layout = list_layout(&[entry(21, 11, 0), entry(0, 21, 0)]);
    let field = (8..16).map(|at| plan.set_input(Direction::Send, at, 0xFF));
    let nearly = [10, 11].map(|at| [plan.set_input(Direction::Send, at, 0xFE), plan.send(), Call::Check]);
    Case::named("escape in two pieces")
        .then_all(plan.prepare(Direction::Send))
        .then_all(field)
        .then_all([plan.configure(), plan.send(), Call::Check])
        .then_all(nearly.concat())
}

#[cfg(test)]
mod tests {
    use super::*;
    use crate::script::Machine;

    /// Returns the type and the offset that each check of a case returns by the model.
    fn errors(case: &Case) -> Vec<(u64, u64)> {
        let mut machine = Machine::new(case.buffers.memory, case.buffers.wire);
        let replies = case.calls.iter().map(|call| (call, machine.run(call)));
        let checks = replies.filter(|(call, _)| **call == Call::Check);
        checks.filter_map(|(_, numbers)| numbers).map(|numbers| (numbers[1], numbers[4])).collect()
    }

    /// Without an escape flag the second unit is the error, and with one only the damage to the third is. One receive
    /// and packets find the same.
    #[test]
    fn a_never_written_unit_is_no_error_with_an_escape_flag() {
        let none = (0, 0);
        for (guard_type, block_size, byte) in [(CRC, 8, 0xFF), (CRC, 512, 0x00), (CHECKSUM, 8, 0xFF)] {
            let unit = u64::from(block_size) + 8;
            let (second, third) = ((1, unit), (1, 2 * unit));
            let wanted = [second, second, none, none, none, none, second, second, third, third, third, third];
            assert_eq!(errors(&never_written_unit(guard_type, block_size, byte)), wanted);
        }
        // The checksum of zeros is 0xFFFF, so the application tag is the first bad field.
        assert_eq!(errors(&never_written_unit(CHECKSUM, 512, 0x00))[..3], [(3, 520), (3, 520), none]);
    }
}
