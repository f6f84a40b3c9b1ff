//! Receives by packets that end anywhere.

mod common;

use common::{case_a, configuration, configured, signed, totals, DATA, START, WIRE};
use garoalva::*;

/// Returns how many bytes case A's receive has written after `taken` wire bytes: a unit is a block of 8 and its field.
fn written_after(taken: usize) -> usize {
    taken / 16 * 8 + (taken % 16).min(8)
}

fn feed(session: &mut Session, memory: &mut [u8], packet: &[u8], taken: usize) {
    let written = written_after(taken);
    assert_eq!(session.packet(memory, packet), totals(taken as u64, written as u64));
    assert_eq!(memory[written..], [0xAA; 16][written..]);
}

fn receive_cut_at(wire: &[u8], first: usize, second: usize) -> (Key, [u8; 16]) {
    let mut memory = [0xAA; 16];
    let mut session = configured(&memory, &case_a()).open(&memory, START, 16).unwrap();
    feed(&mut session, &mut memory, &wire[..first], first);
    feed(&mut session, &mut memory, &wire[first..second], second);
    feed(&mut session, &mut memory, &wire[second..], wire.len());
    (session.finish().unwrap(), memory)
}

#[test]
fn case_a_cut_at_every_two_places() {
    for first in 0..=WIRE.len() {
        for second in first..=WIRE.len() {
            let (mut key, memory) = receive_cut_at(&WIRE, first, second);
            assert_eq!(memory, DATA);
            assert_eq!(key.check(), Ok(None));
        }
    }
}

#[test]
fn case_c_cut_at_every_two_places() {
    let mut wire = WIRE;
    wire[23] = 2;
    let mut memory = [0; 16];
    let mut at_once = configured(&memory, &case_a());
    at_once.receive(&mut memory, &wire, START, 16).unwrap();
    let error = at_once.check();
    assert!(matches!(error, Ok(Some(_))));
    for first in 0..=wire.len() {
        for second in first..=wire.len() {
            let (mut key, cut) = receive_cut_at(&wire, first, second);
            assert_eq!(cut, memory);
            assert_eq!(key.check(), error);
        }
    }
}

#[test]
fn case_m() {
    let mut memory = [0xAA; 16];
    let mut session = configured(&memory, &case_a()).open(&memory, START, 16).unwrap();
    let mut taken = 0;
    for (length, written) in [(0, 0), (9, 8), (0, 8), (7, 8), (16, 16)] {
        let packet = &WIRE[taken..taken + length];
        taken += length;
        assert_eq!(session.packet(&mut memory, packet), totals(taken as u64, written));
    }
    assert_eq!(memory, DATA);
}

#[test]
fn case_n() {
    let mut memory = [0; 32];
    let signed_memory = configuration(Layout::contiguous(32), signed().into(), Domain::None);
    let mut session = configured(&memory, &signed_memory).open(&memory, START, 16).unwrap();
    assert_eq!(session.packet(&mut memory, &DATA[..8]), totals(8, 16));
    assert_eq!(session.packet(&mut memory, &DATA[8..9]), totals(9, 17));
    assert_eq!(memory[..16], WIRE[..16]);
}

#[test]
fn abandon_keeps_the_errors_of_whole_blocks_alone() {
    let mut wire = WIRE;
    wire[7] = 3;
    for taken in 0..=wire.len() {
        let mut memory = [0xAA; 16];
        let mut session = configured(&memory, &case_a()).open(&memory, START, 16).unwrap();
        feed(&mut session, &mut memory, &wire[..taken], taken);
        let error = session.abandon().unwrap().check().unwrap();
        assert_eq!(error.is_some(), taken >= 16);
    }
}
