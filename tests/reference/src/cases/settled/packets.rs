//! Receives by packets: cuts at every place, the refusals 8, 12 and 13, and sessions that have ended.

use super::*;
use crate::cases::repeated_layout;

pub fn cases() -> Vec<Case> {
    let mut cases = Vec::new();
    for (memory, wire) in sides() {
        let plan = woven_plan(signature(memory, wire));
        cases.extend([byte_by_byte(&plan), every_cut(&plan), refusals(&plan)]);
    }
    cases.extend([nothing_to_receive(), ended_sessions(), memory_lengths(), opens_over_a_session(), two_transfers()]);
    cases.extend([key_of_open(), copied_key(), unsealed_key()]);
    cases
}

fn sides() -> [(Domain, Domain); 5] {
    let other = Domain { guard_type: CHECKSUM, application_tag: 0xABCD, flags: 0, ..dif() };
    [(unsigned(), unsigned()), (unsigned(), dif()), (dif(), unsigned()), (dif(), dif()), (dif(), other)]
}

/// A transfer of two blocks of 8 bytes over two entries whose repeats alternate in memory.
fn woven_plan(signature: Signature) -> Plan {
    let layout = repeated_layout(&[entry(7, 5, 3), entry(4, 3, 5)], 5);
    Plan { memory: 0x40, configuration: Configuration { layout, signature }, offset: 6, data_length: 16 }
}

/// Puts a wire in place whose first block has a bad field, if the wire is signed, and configures the key.
fn prepared(name: &str, plan: &Plan) -> Case {
    Case::named(name)
        .then_all(plan.prepare(Direction::Receive))
        .then_all([plan.configure(), plan.set_input(Direction::Receive, 11, 0x66)])
}

/// Receives byte by byte, with a finish after each. All but the last are too early.
fn byte_by_byte(plan: &Plan) -> Case {
    let mut case = prepared("byte by byte", plan).then_all([plan.open(), Call::Finish]);
    for at in 0..plan.wire_stream() {
        case = case.then_all([plan.packet(at, 1), Call::Finish]);
    }
    case.then(Call::Check)
}

/// Receives in two packets, with the cut at every place.
fn every_cut(plan: &Plan) -> Case {
    prepared("every cut", plan).then_all(in_two_packets(plan))
}

/// Packets that are refused, for they are too long, have a wrong memory length or both: before each accepted packet, and
/// after the last.
fn refusals(plan: &Plan) -> Case {
    let stream = plan.wire_stream();
    let refused = |taken: u64| {
        let left = stream - taken;
        let lent = |memory: u64, count: u64| Call::Packet { memory, at: 0, count };
        let (short, right, long) = (plan.memory - 1, plan.memory, plan.memory + 1);
        [lent(right, left + 1), lent(right, 0x4000), lent(short, left), lent(long, 0), lent(0, left + 1)]
    };
    let cut = 9;
    prepared("refused packets", plan)
        .then(plan.open())
        .then_all(refused(0))
        .then(plan.packet(0, cut))
        .then_all(refused(cut))
        .then_all([plan.packet(0, 0), Call::Finish, plan.packet(cut, stream - cut - 1), Call::Finish])
        .then_all(refused(stream - 1))
        .then(plan.packet(stream - 1, 1))
        .then_all(refused(stream))
        .then_all([plan.packet(0, 0), Call::Finish, Call::Check])
}

/// Data length 0: all bytes have arrived from the start. The offset is the layout's total.
fn nothing_to_receive() -> Case {
    let mut plan = woven_plan(signature(unsigned(), dif()));
    (plan.offset, plan.data_length) = (40, 0);
    Case::named("nothing to receive")
        .then_all([plan.configure(), plan.open(), plan.packet(0, 0), plan.packet(0, 1), Call::Finish])
        .then_all([plan.open(), Call::Abandon, plan.open(), Call::Finish, Call::Check])
}

/// Calls with no session, after a finish, after an abandon, and after the state was reset.
fn ended_sessions() -> Case {
    let plan = woven_plan(signature(unsigned(), dif()));
    let refused = [plan.packet(0, 0), plan.packet(0, 1), Call::Packet { memory: 0, at: 0, count: 9 }];
    let refused = [&refused[..], &[Call::Finish, Call::Abandon]].concat();
    prepared("ended sessions", &plan)
        .then_all(refused.clone())
        .then_all([plan.open(), plan.packet(0, 32), Call::Finish])
        .then_all(refused.clone())
        .then_all([plan.open(), plan.packet(0, 21), Call::Abandon])
        .then_all(refused.clone())
        .then_all([Call::Check, plan.open(), Call::New])
        .then_all(refused)
        .then(plan.open())
}

/// A packet's memory must have the configured length.
fn memory_lengths() -> Case {
    let plan = woven_plan(signature(unsigned(), dif()));
    let lent = |memory: u64| Call::Packet { memory, at: 0, count: 1 };
    prepared("a packet's memory", &plan)
        .then(plan.open())
        .then_all([0, plan.memory - 1, plan.memory, plan.memory + 1, 0x4000].map(lent))
        .then_all([Call::Abandon, Call::Check])
}

/// A refused open leaves the session in progress; an accepted one replaces it with a new session. The caller opens with a
/// copy of the key, as the key that the first open returned is refused.
fn opens_over_a_session() -> Case {
    let plan = woven_plan(signature(unsigned(), dif()));
    let refused = Plan { offset: 41, ..plan.clone() };
    prepared("opens over a session", &plan)
        .then_all([plan.open(), plan.packet(0, 20), plan.open(), plan.packet(20, 3)])
        .then_all([Call::Reseal, refused.open(), plan.packet(23, 2)])
        .then_all([plan.open(), plan.packet(0, 32), Call::Finish, Call::Check])
}

/// The key that finish returns is used for the next transfer.
fn two_transfers() -> Case {
    let plan = woven_plan(signature(dif(), dif()));
    prepared("two transfers", &plan)
        .then_all([plan.open(), plan.packet(0, 17), plan.packet(17, 15), Call::Finish])
        .then_all([plan.send(), plan.receive(), plan.open(), plan.packet(0, 32), Call::Finish, Call::Check])
        .then_all([plan.send(), Call::Check])
}

/// The key that an accepted open returns is refused, and the session goes on without it. The key that finish or abandon
/// returns is accepted.
fn key_of_open() -> Case {
    let plan = woven_plan(signature(unsigned(), dif()));
    prepared("the key of an accepted open", &plan)
        .then_all([plan.open(), plan.packet(0, 9)])
        .then_all(plan.calls_on_key())
        .then_all([plan.packet(9, 23), Call::Finish, Call::Check, plan.send(), plan.open()])
        .then_all(plan.calls_on_key())
        .then_all([Call::Finish, Call::Abandon])
        .then_all(plan.calls_on_key())
}

/// A copy of the key that was passed to open: it knows nothing of the session's error, and the session nothing of its
/// configuration and its error.
fn copied_key() -> Case {
    let plan = woven_plan(signature(unsigned(), dif()));
    let signed = woven_plan(signature(dif(), dif()));
    prepared("a copy of the key", &plan)
        .then_all([plan.open(), plan.packet(0, 16), Call::Reseal, Call::Check])
        .then_all([signed.configure(), signed.send(), plan.packet(16, 16), Call::Check, signed.send()])
        .then_all([Call::Finish, Call::Check, plan.send()])
}

/// A key that has lost its seal is refused, and is accepted again with its seal.
fn unsealed_key() -> Case {
    let plan = woven_plan(signature(unsigned(), dif()));
    prepared("a key without its seal", &plan)
        .then_all([plan.receive(), Call::Unseal])
        .then_all(plan.calls_on_key())
        .then(Call::Reseal)
        .then_all(plan.calls_on_key())
}
