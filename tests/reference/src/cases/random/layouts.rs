//! Valid layouts, of at least a given total. They are lists or have repeats, their pieces lie in any order, and there are
//! gaps between some.

use crate::cases::{entry, list_layout, repeated_layout};
use crate::model::{Entry, Layout, ENTRY_LIMIT, PIECE_LIMIT};
use crate::rng::Rng;

/// Returns a layout of at least `total` bytes, and the length of the memory that it needs.
pub fn layout(rng: &mut Rng, total: u64) -> (Layout, u64) {
    let total = total.max(1);
    match rng.below(10) {
        0..=4 => list(rng, total),
        5..=7 => woven(rng, total),
        _ => side_by_side(rng, total),
    }
}

fn gap(rng: &mut Rng) -> u64 {
    if rng.percent(50) {
        0
    } else {
        rng.between(1, 9)
    }
}

fn entry_count(rng: &mut Rng, most: u64) -> u64 {
    let wanted = if rng.percent(10) { ENTRY_LIMIT as u64 } else { rng.between(1, 5) };
    wanted.min(most)
}

/// Cuts a number into `count` shares of at least 1.
fn shares(rng: &mut Rng, total: u64, count: u64) -> Vec<u64> {
    let mut left = total;
    let mut shares = Vec::new();
    for following in (1..count).rev() {
        let share = rng.between(1, (left - following).min(2 * left / (following + 1)).max(1));
        shares.push(share);
        left -= share;
    }
    shares.push(left);
    shares
}

/// Makes a list layout: pieces with gaps between them, in any order. The skips of a list layout don't matter.
fn list(rng: &mut Rng, total: u64) -> (Layout, u64) {
    let count = entry_count(rng, total);
    let mut at = gap(rng);
    let mut entries = Vec::new();
    for bytes in shares(rng, total, count) {
        let skip = if rng.percent(20) { rng.number() as u32 } else { 0 };
        entries.push(entry(at, bytes as u32, skip));
        at += bytes + gap(rng);
    }
    let end = entries.iter().map(|entry: &Entry| entry.start + u64::from(entry.count)).max();
    rng.shuffle(&mut entries);
    (list_layout(&entries), end.unwrap_or(0))
}

/// Returns how often a layout is repeated: mostly a few times, and never so often that a repeat lacks a byte for an
/// entry.
fn repeat_count(rng: &mut Rng, total: u64, entries: u64) -> u64 {
    let most = (total / entries).min(PIECE_LIMIT / entries).max(1);
    let wanted = if rng.percent(10) { rng.between(1, most) } else { rng.between(1, 8) };
    wanted.min(most)
}

/// Makes a layout whose entries lie in one period of memory, which is repeated.
fn woven(rng: &mut Rng, total: u64) -> (Layout, u64) {
    let count = entry_count(rng, total.min(5));
    let repeat = repeat_count(rng, total, count);
    let mut at = 0;
    let mut entries = Vec::new();
    for bytes in shares(rng, total.div_ceil(repeat).max(count), count) {
        at += gap(rng);
        entries.push(entry(at, bytes as u32, 0));
        at += bytes;
    }
    let period = at + gap(rng);
    for entry in &mut entries {
        entry.skip = (period - u64::from(entry.count)) as u32;
    }
    rng.shuffle(&mut entries);
    (repeated_layout(&entries, repeat as u32), (repeat - 1) * period + at)
}

/// Makes a layout in which each entry's repeats have a region of their own.
fn side_by_side(rng: &mut Rng, total: u64) -> (Layout, u64) {
    let count = entry_count(rng, total.min(5));
    let repeat = repeat_count(rng, total, count);
    let mut at = 0;
    let mut end = 0;
    let mut entries = Vec::new();
    for bytes in shares(rng, total.div_ceil(repeat).max(count), count) {
        let skip = gap(rng);
        entries.push(entry(at, bytes as u32, skip as u32));
        end = at + repeat * (bytes + skip) - skip;
        at = end + gap(rng);
    }
    rng.shuffle(&mut entries);
    (repeated_layout(&entries, repeat as u32), end)
}

#[cfg(test)]
mod tests {
    use super::*;
    use crate::model::{answer, Configuration};

    #[test]
    fn layouts_are_good_and_their_memory_is_just_enough() {
        let mut rng = Rng::new(7);
        for total in (0..2_000).map(|n| n % 300) {
            let (layout, memory) = layout(&mut rng, total);
            let configuration = Configuration { layout, ..Configuration::default() };
            assert!(layout.total() >= u128::from(total));
            assert_eq!(configuration.judge(memory), answer::DONE, "{layout:?}");
            assert_eq!(configuration.judge(memory - 1), answer::OUTSIDE_MEMORY, "{layout:?}");
        }
    }
}
