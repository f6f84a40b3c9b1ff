//! The rule book's cases A to N and its block sizes, and the vectors of SBC-3 and RFC 1071, made by sends.

use super::*;
use crate::cases::repeated_layout;
use crate::model::APPLICATION_ESCAPE;

pub fn cases() -> Vec<Case> {
    [a_to_d(), e_to_g(), h_and_i(), j_to_l(), vec![m(), n(), sizes(), sbc_3(), rfc_1071()]].concat()
}

fn case_a() -> Plan {
    plan(signature(unsigned(), dif()), 16)
}

/// Sends case A's data.
fn case_a_sent(name: &str) -> Case {
    let mut data = [0; 16];
    data[7] = 1;
    Case::named(name).then(case_a().configure()).then_all(memory_bytes(0, &data)).then(case_a().send())
}

/// Changes some bytes of case A's wire, and receives it under another signature into memory filled anew.
fn case_a_received(name: &str, changes: Vec<Call>, signature: Signature) -> Case {
    let plan = plan(signature, 16);
    case_a_sent(name).then_all(changes).then(Call::FillMemory { pattern: 3 }).then_all([
        plan.configure(),
        plan.receive(),
        Call::Check,
    ])
}

fn a_to_d() -> Vec<Case> {
    let damaged = wire_bytes(23, &[2]);
    let checked = *case_a().signature();
    let unchecked_guard = Signature { check_mask: 0x3F, ..checked };
    vec![
        case_a_sent("A").then(Call::Check),
        case_a_received("B", vec![], checked),
        case_a_received("C", damaged.clone(), checked),
        case_a_received("D", damaged, unchecked_guard),
    ]
}

fn e_to_g() -> Vec<Case> {
    let sent = |name: &str, seed: u16, data: &[u8]| {
        let plan = plan(signature(unsigned(), Domain { guard_type: CHECKSUM, seed, ..dif() }), 8);
        Case::named(name).then(plan.configure()).then_all(memory_bytes(0, data)).then_all([plan.send(), Call::Check])
    };
    let words = [0, 1, 0, 2, 0, 3, 0, 4];
    vec![
        sent("E, seed 0", 0, &[0; 8]),
        sent("E, seed FFFF", 0xFFFF, &[0; 8]),
        sent("F, seed 0", 0, &words),
        sent("F, seed FFFF", 0xFFFF, &words),
        sent("G", 0, &[0xFF, 0xFF, 0, 1, 0, 0, 0, 0]),
    ]
}

fn h_and_i() -> Vec<Case> {
    let escape = signature(unsigned(), Domain { flags: REMAP | APPLICATION_ESCAPE, ..dif() });
    let unchecked_application = Signature { check_mask: 0xCF, ..escape };
    let changes = wire_bytes(8, &[0, 0, 0xFF, 0xFF]);
    vec![case_a_received("H", changes.clone(), escape), case_a_received("I", changes, unchecked_application)]
}

fn j_to_l() -> Vec<Case> {
    let configure_with = |memory: u64, second_start: u64| {
        let layout = repeated_layout(&[entry(0, 512, 4), entry(second_start, 8, 0)], 2);
        configure(memory, Configuration { layout, signature: signature(unsigned(), unsigned()) })
    };
    let across_both = |offset: u64| {
        let (memory, wire, data_length) = (1_044, 20, 20);
        [
            Call::Send { memory, wire, offset, data_length },
            Call::Receive { memory, wire: wire + 1, offset, data_length },
        ]
    };
    let case_j = Case::named("J").then(configure_with(1_044, 1_028));
    vec![
        case_j.then_all([506, 1_020, 1_021].map(across_both).concat()),
        Case::named("K").then(configure_with(1_043, 1_028)),
        Case::named("L").then(configure_with(1_044, 1_027)),
    ]
}

fn m() -> Case {
    let plan = case_a();
    case_a_sent("M")
        .then_all([Call::FillMemory { pattern: 3 }, plan.open()])
        .then_all(packets(&plan, &[0, 9, 0, 7, 16]))
        .then_all([Call::Finish, Call::Check])
}

fn n() -> Case {
    let plan = plan(signature(dif(), unsigned()), 16);
    Case::named("N")
        .then_all([plan.configure(), plan.open()])
        .then_all(packets(&plan, &[8, 1, 7]))
        .then_all([Call::Finish, Call::Check])
}

fn sizes() -> Case {
    let configured = [4_160, 4_168, 12, 0].map(|block_size| {
        let domain = Domain { block_size, ..dif() };
        plan(signature(unsigned(), domain), 4_160).configure()
    });
    Case::named("sizes").then_all(configured)
}

/// Sends the five blocks of 32 bytes for which SBC-3 prints a CRC, in one transfer.
fn sbc_3() -> Case {
    let counting: Vec<u8> = (0..32).collect();
    let falling: Vec<u8> = counting.iter().map(|byte| 0xFF - byte).collect();
    let data = [&[0; 32], &[0xFF; 32], &counting[..], &[0xFF, 0xFF], &[0; 30], &falling[..]].concat();
    let plan = plan(signature(unsigned(), Domain { block_size: 32, ..dif() }), 160);
    Case::named("SBC-3").then(plan.configure()).then_all(memory_bytes(0, &data)).then(plan.send())
}

fn rfc_1071() -> Case {
    let data = [0x00, 0x01, 0xF2, 0x03, 0xF4, 0xF5, 0xF6, 0xF7];
    let plan = plan(signature(unsigned(), Domain { guard_type: CHECKSUM, ..dif() }), 8);
    Case::named("RFC 1071").then(plan.configure()).then_all(memory_bytes(0, &data)).then(plan.send())
}
