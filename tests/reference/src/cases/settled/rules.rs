//! The transfer rule: both directions with every pair of sides, copying and the error slot.

use super::*;
use crate::cases::repeated_layout;
use crate::model::{Layout, COPY_MASK_GIVEN, MEMORY_LIMIT};

pub fn cases() -> Vec<Case> {
    [directions_and_sides(), copying(), error_slot()].concat()
}

/// Three layouts of more than 80 bytes: one piece, a list out of order, and two entries whose repeats alternate.
fn layouts() -> [Layout; 3] {
    [
        list_layout(&[entry(5, 100, 0)]),
        list_layout(&[entry(70, 31, 9), entry(0, 1, 0), entry(3, 50, 0)]),
        repeated_layout(&[entry(4, 6, 5), entry(1, 3, 8)], 11),
    ]
}

fn directions_and_sides() -> Vec<Case> {
    let (wide, other) = (Domain { block_size: 16, ..dif() }, Domain { block_size: 16, ..other_dif() });
    let sides = [(unsigned(), unsigned()), (unsigned(), wide), (other, unsigned()), (wide, other), (wide, wide)];
    let mut cases = Vec::new();
    for (memory, wire) in sides {
        for layout in layouts() {
            for direction in DIRECTIONS {
                let configuration = Configuration { layout, signature: signature(memory, wire) };
                let plan = Plan { memory: 0x80, configuration, offset: 3, data_length: 32 };
                cases.push(transferred(&plan, direction));
            }
        }
    }
    cases
}

/// Transfers a valid input, then one whose second block is damaged.
fn transferred(plan: &Plan, direction: Direction) -> Case {
    let damaged = plan.input_stream(direction) / 2;
    Case::named(format!("{direction:?} over a pair of sides"))
        .then_all(plan.prepare(direction))
        .then_all([plan.configure(), plan.transfer(direction), Call::Check])
        .then_all([plan.set_input(direction, damaged, 0x5A), plan.transfer(direction), Call::Check])
}

fn copying() -> Vec<Case> {
    let mut cases = Vec::new();
    for direction in DIRECTIONS {
        cases.push(given_masks(direction));
        cases.push(automatic_masks(direction));
    }
    cases
}

/// Puts two blocks in place, the first with damage in its data and in both tags, so that each copied byte is seen.
fn damaged_input(name: &str, plan: &Plan, direction: Direction) -> Case {
    let damaged = [2, 10, 11, 12, 13, 14, 15].map(|at| plan.set_input(direction, at, 0x70 + at as u8));
    Case::named(name).then_all(plan.prepare(direction)).then_all(damaged)
}

fn given_masks(direction: Direction) -> Case {
    let plan = plan(signature(dif(), other_dif()), 16);
    let masks = [0x80, 0x40, 0x20, 0x10, 0x08, 0x04, 0x02, 0x01, 0x00, 0xC0, 0x3F, 0xFF];
    let mut case = damaged_input("copy mask given", &plan, direction);
    for copy_mask in masks {
        let mut plan = plan.clone();
        plan.configuration.signature.attribute_flags = COPY_MASK_GIVEN;
        plan.configuration.signature.copy_mask = copy_mask;
        case = case.then_all([plan.configure(), plan.transfer(direction)]);
    }
    case.then(Call::Check)
}

/// Output domains that differ from the input domain, which is case A's, in one number or in all.
fn outputs() -> [Domain; 9] {
    let like = dif();
    [
        like,
        Domain { guard_type: CHECKSUM, ..like },
        Domain { seed: 0xFFFF, ..like },
        Domain { application_tag: 0x1235, ..like },
        Domain { reference_tag: 0, ..like },
        Domain { flags: 0, ..like },
        Domain { flags: REMAP | 2, ..like },
        Domain { flags: REMAP | 4, ..like },
        other_dif(),
    ]
}

/// Transfers without the attribute flag, so that the copy mask in the signature is ignored.
fn automatic_masks(direction: Direction) -> Case {
    let mut case = damaged_input("automatic copy mask", &plan(signature(dif(), dif()), 16), direction);
    for (at, output) in outputs().into_iter().enumerate() {
        let signature = directed(direction, dif(), output);
        let plan = plan(Signature { copy_mask: 0x1F * at as u8, ..signature }, 16);
        case = case.then_all([plan.configure(), plan.transfer(direction)]);
    }
    case.then(Call::Check)
}

fn error_slot() -> Vec<Case> {
    let mut cases = vec![first_error_kept(), slot_kept_by_open(), offset_in_the_stream()];
    cases.extend([0xFF, 0x3F, 0x0F, 0x7F, 0x40, 0x1F, 0x01, 0x08, 0x00].map(order_of_fields));
    cases
}

/// Receives a good block and one with a bad guard and two bad tags. The mask decides which of them is reported, and the
/// report has all its bytes.
fn order_of_fields(check_mask: u8) -> Case {
    let plan = plan(Signature { check_mask, ..signature(unsigned(), dif()) }, 24);
    Case::named("order of the fields")
        .then_all(plan.prepare(Direction::Receive))
        .then(plan.configure())
        .then_all(wire_bytes(24, &[0xBA, 0xD0, 0xBA, 0xD1, 0xBA, 0xD2, 0xBA, 0xD3]))
        .then_all(wire_bytes(40, &[0xBA; 8]))
        .then_all([plan.receive(), Call::Check, Call::Check])
}

/// The slot keeps its first error through good and bad transfers and accepted and refused configures, until a check.
fn first_error_kept() -> Case {
    let plan = plan(signature(unsigned(), dif()), 24);
    let refused = configure(0x20, Configuration::default());
    Case::named("first error kept")
        .then_all(plan.prepare(Direction::Receive))
        .then_all([plan.configure(), plan.set_input(Direction::Receive, 47, 0x66), plan.receive()])
        .then_all([plan.set_input(Direction::Receive, 0, 0x66), plan.receive()])
        .then_all([refused, plan.configure(), plan.send(), plan.receive()])
        .then_all([Call::Check, Call::Check, plan.set_input(Direction::Receive, 10, 0x66), plan.receive(), Call::Check])
}

/// A key that holds an error at open holds the same error after the session, whatever the packets hold.
fn slot_kept_by_open() -> Case {
    let plan = plan(signature(unsigned(), dif()), 16);
    Case::named("first error kept by open")
        .then_all(plan.prepare(Direction::Receive))
        .then_all([plan.configure(), plan.set_input(Direction::Receive, 27, 0x66), plan.receive()])
        .then_all([plan.set_input(Direction::Receive, 0, 0x66), plan.open(), plan.packet(0, 32)])
        .then_all([Call::Finish, Call::Check, plan.open(), plan.packet(0, 20), Call::Abandon, Call::Check])
}

/// Neither the error's offset nor the reference tag depends on the layout offset.
fn offset_in_the_stream() -> Case {
    let mut plan = plan(signature(dif(), other_dif()), 24);
    plan.memory = 0x80;
    plan.configuration.layout = list_layout(&[entry(0x50, 0x21, 0), entry(1, 0x40, 0)]);
    plan.offset = 0x11;
    Case::named("offset in the stream").then_all(plan.prepare(Direction::Send)).then_all([
        plan.configure(),
        plan.set_input(Direction::Send, 44, 0x66),
        plan.send(),
        Call::Check,
    ])
}

/// The longest stream that there is, with damage in its last block: no error has a larger offset.
pub fn longest_stream() -> Case {
    let plan = plan(signature(unsigned(), Domain { guard_type: CHECKSUM, ..dif() }), MEMORY_LIMIT);
    let wire = plan.wire_stream();
    let damaged = plan.set_input(Direction::Receive, wire - 8, 0x55);
    let cut = wire - 5;
    let case = Case::named("the longest stream")
        .then_all([plan.configure(), plan.send(), damaged, plan.receive(), Call::Check])
        .then_all([plan.open(), plan.packet(0, cut), plan.packet(cut, wire - cut), Call::Finish, Call::Check]);
    Case { buffers: Buffers { memory: MEMORY_LIMIT as usize, wire: wire as usize }, ..case }
}
