//! Damage to a valid input stream.

use super::{Direction, Plan};
use crate::model::{APPLICATION, FIELD_SIZE, GUARD, REFERENCE};
use crate::rng::Rng;
use crate::script::Call;
use std::ops::Range;

/// Returns calls that damage one to four places of the input, or make their field an escape, in full or in part.
pub fn damage(rng: &mut Rng, plan: &Plan, direction: Direction) -> Vec<Call> {
    let size = plan.block_size().unwrap_or(1);
    if plan.data_length < size as u64 {
        return Vec::new();
    }
    let mut calls = Vec::new();
    for _ in 0..rng.pick(&[1, 1, 1, 2, 2, 3, 4]) {
        let block = rng.below(plan.data_length / size as u64);
        let changes = if plan.input_domain(direction).signed() {
            block_damage(rng, size)
        } else {
            vec![(rng.below(size as u64), rng.byte())]
        };
        let unit = plan.input_stream(direction) / (plan.data_length / size as u64);
        let set = |(at, byte): (u64, u8)| plan.set_input(direction, block * unit + at, byte);
        calls.extend(changes.into_iter().map(set));
    }
    calls
}

/// Returns changed bytes of one block with its field: for each, the place in the unit and the byte.
fn block_damage(rng: &mut Rng, size: usize) -> Vec<(u64, u8)> {
    let all_ones = |field: Range<usize>| field.map(|at| (at, 0xFF)).collect::<Vec<_>>();
    let escape = all_ones(APPLICATION);
    let whole_escape = all_ones(APPLICATION.start..REFERENCE.end);
    let data_byte = (rng.below(size as u64), rng.byte());
    let field_bytes = match rng.below(16) {
        0 | 1 => return vec![data_byte],
        2 => some_byte(rng, GUARD),
        3 => some_byte(rng, APPLICATION),
        4 => some_byte(rng, REFERENCE),
        5 => escape,
        6 => [escape, some_byte(rng, GUARD)].concat(),
        7 => whole_escape,
        8 => [whole_escape, some_byte(rng, GUARD)].concat(),
        // An escape of which one byte is missing.
        9 => [whole_escape, some_byte(rng, GUARD), some_byte(rng, APPLICATION.start..REFERENCE.end)].concat(),
        10 => [all_ones(REFERENCE), some_byte(rng, GUARD)].concat(),
        // A field that was never written.
        11 => all_ones(0..FIELD_SIZE),
        12 => some_bytes(rng, REFERENCE),
        13 => some_bytes(rng, APPLICATION.start..REFERENCE.end),
        14 => some_bytes(rng, 0..FIELD_SIZE),
        _ => (0..FIELD_SIZE).map(|at| (at, rng.byte())).collect(),
    };
    let field_bytes = field_bytes.into_iter().map(|(at, byte)| ((size + at) as u64, byte));
    let data_bytes = rng.percent(20).then_some(data_byte);
    field_bytes.chain(data_bytes).collect()
}

fn some_byte(rng: &mut Rng, field: Range<usize>) -> Vec<(usize, u8)> {
    let at = field.start + rng.below(field.len() as u64) as usize;
    vec![(at, rng.byte())]
}

/// Changes each byte with a chance of one half, so that all sets of bytes are equally likely.
fn some_bytes(rng: &mut Rng, field: Range<usize>) -> Vec<(usize, u8)> {
    let chosen: Vec<usize> = field.filter(|_| rng.percent(50)).collect();
    chosen.into_iter().map(|at| (at, rng.byte())).collect()
}
