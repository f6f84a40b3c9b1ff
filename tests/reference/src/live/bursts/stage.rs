//! The stages of the test: which bursts are tried in blocks of one size with one guard seed.

use super::burst::{every_burst, number_of_bursts, Burst};
use super::transfer::{Change, Passing, Transfer};
use crate::live::child;
use crate::model::{Domain, Signature, APPLICATION_ESCAPE, BOTH_ESCAPE, CRC, EDITION_1, FIELD_SIZE, REMAP, T10_DIF};
use crate::rng::Rng;
use std::time::Duration;

/// The generator polynomial of the CRC: the 16 bits 0x8BB7 after a bit for its highest term. It divides itself, so a
/// guard does not change with it.
const GENERATOR: u32 = 0x1_8BB7;
const GENERATOR_BITS: usize = 17;

/// The check masks of the guard alone and of the whole field.
const GUARD_CHECKED: u8 = 0xC0;
const FIELD_CHECKED: u8 = 0xFF;

/// A random transfer is received with this many bursts, one at a time.
const BURSTS_OF_TRANSFER: u64 = 16;

/// The time limit of a stage with every burst, and of one random transfer. They take far less, also under valgrind.
const TIME_LIMIT: Duration = Duration::from_secs(600);

#[derive(Clone, Copy, Debug, PartialEq, Eq)]
pub enum Bursts {
    /// Every burst of up to 16 bits, in a block that is received by one call.
    Every,
    /// Every burst of up to 16 bits, in a block that is received in two packets.
    EveryInPackets,
    /// Random bursts of up to 16 bits.
    Random { count: u64 },
    /// The generator polynomial at every place.
    Generator,
}

#[derive(Clone, Copy)]
pub struct Stage {
    pub bursts: Bursts,
    pub block_size: u32,
    pub guard_seed: u16,
}

impl Stage {
    /// Returns the number of bursts tried, or a report of the first one that is found or not found against the claim.
    pub fn run(&self, rng: &mut Rng) -> Result<u64, String> {
        child::limit(TIME_LIMIT);
        match self.bursts {
            Bursts::Every => self.try_every_burst(|_| Passing::Whole, rng),
            Bursts::EveryInPackets => self.try_every_burst(|number| self.cut_in_two(number), rng),
            Bursts::Random { count } => self.try_random_bursts(count, rng),
            Bursts::Generator => self.try_generator(rng),
        }
    }

    pub fn text(&self) -> String {
        let Stage { bursts, block_size, guard_seed } = self;
        format!("block size {block_size}, guard seed {guard_seed:#x}, stage {bursts:?}")
    }

    fn bits(&self) -> usize {
        8 * self.block_size as usize
    }

    /// Tries each burst, and passes the block as `passing` says for the number of the burst.
    fn try_every_burst(&self, passing: impl Fn(u64) -> Passing, rng: &mut Rng) -> Result<u64, String> {
        let mut transfer = self.one_block(rng)?;
        let mut tried = 0;
        for burst in every_burst(self.bits()) {
            transfer.expect_found(&Change { block: 0, burst, passing: passing(tried) })?;
            tried += 1;
        }
        transfer.expect_right()?;
        let number = number_of_bursts(self.bits());
        if tried == number {
            Ok(tried)
        } else {
            Err(format!("{}: {tried} bursts were tried, but there are {number}", self.text()))
        }
    }

    /// Cuts a block with its field in two, at each place inside it in turn.
    fn cut_in_two(&self, number: u64) -> Passing {
        let unit = u64::from(self.block_size) + FIELD_SIZE as u64;
        let place = 1 + number % (unit - 1);
        Passing::CutAt([place as usize; 4])
    }

    fn try_generator(&self, rng: &mut Rng) -> Result<u64, String> {
        let mut transfer = self.one_block(rng)?;
        let mut tried = 0;
        for first in 0..=self.bits() - GENERATOR_BITS {
            let burst = Burst { first, pattern: GENERATOR };
            transfer.expect_not_found(&Change { block: 0, burst, passing: Passing::Whole })?;
            tried += 1;
        }
        transfer.expect_right()?;
        Ok(tried)
    }

    fn try_random_bursts(&self, count: u64, rng: &mut Rng) -> Result<u64, String> {
        let mut tried = 0;
        while tried < count {
            child::limit(TIME_LIMIT);
            let mut transfer = self.random_transfer(rng)?;
            for _ in 0..BURSTS_OF_TRANSFER.min(count - tried) {
                let change = transfer.random_change(rng);
                transfer.expect_found(&change)?;
                tried += 1;
            }
            transfer.expect_right()?;
        }
        Ok(tried)
    }

    /// Returns a signed domain with a CRC guard and random tags. Fields with these tags never escape: the application
    /// tag is not 0xFFFF, and the reference tag is too small to count up to 0xFFFFFFFF.
    fn domain(&self, flags: u32, rng: &mut Rng) -> Domain {
        Domain {
            kind: T10_DIF,
            block_size: self.block_size,
            guard_type: CRC,
            reference_tag: rng.below(1 << 31) as u32,
            seed: self.guard_seed,
            application_tag: rng.below(0xFFFF) as u16,
            flags,
            edition: EDITION_1,
        }
    }

    /// Returns a transfer of one block to a memory that is not signed.
    fn one_block(&self, rng: &mut Rng) -> Result<Transfer, String> {
        let wire = self.domain(0, rng);
        let signature = Signature { wire, check_mask: GUARD_CHECKED, ..Signature::default() };
        Transfer::new(signature, &wire, 1, rng)
    }

    /// Returns a random transfer of 2 to 4 blocks. Memory is signed in half of the transfers. Where an application tag
    /// of 0xFFFF is neither checked nor an escape, half of the transfers have it in their fields.
    fn random_transfer(&self, rng: &mut Rng) -> Result<Transfer, String> {
        let flags = rng.pick(&[0, APPLICATION_ESCAPE, BOTH_ESCAPE]) | rng.pick(&[0, REMAP]);
        let wire = self.domain(flags, rng);
        let memory = rng.pick(&[Domain::default(), wire]);
        let check_mask = rng.pick(&[GUARD_CHECKED, FIELD_CHECKED]);
        let any_tag_is_right = check_mask == GUARD_CHECKED && flags & APPLICATION_ESCAPE == 0;
        let application_tag = if any_tag_is_right && rng.percent(50) { 0xFFFF } else { wire.application_tag };
        let signature = Signature { memory, wire, check_mask, ..Signature::default() };
        Transfer::new(signature, &Domain { application_tag, ..wire }, rng.between(2, 4) as usize, rng)
    }
}

#[cfg(test)]
mod tests {
    use super::*;

    fn transfer() -> Transfer {
        let stage = Stage { bursts: Bursts::Generator, block_size: 8, guard_seed: 0xFFFF };
        stage.one_block(&mut Rng::new(1)).expect("a right block has no error")
    }

    fn change(passing: Passing, pattern: u32) -> Change {
        Change { block: 0, burst: Burst { first: 3, pattern }, passing }
    }

    #[test]
    fn a_burst_that_is_not_found_is_reported() {
        for passing in [Passing::Whole, Passing::CutAt([0, 1, 8, 9])] {
            let mut transfer = transfer();
            assert_eq!(transfer.expect_found(&change(passing, 0x8001)), Ok(()));
            let report = transfer.expect_found(&change(passing, GENERATOR)).unwrap_err();
            assert!(report.contains("block size 8, guard seed 0xffff, "), "{report}");
            assert!(report.contains("first bit 3, pattern 0x18bb7, "), "{report}");
            assert!(report.ends_with("found: check returns [0, 0, 0, 0, 0]"), "{report}");
        }
    }

    #[test]
    fn a_burst_that_is_found_is_reported_if_it_must_not_be() {
        for passing in [Passing::Whole, Passing::CutAt([0, 1, 8, 9])] {
            let mut transfer = transfer();
            assert_eq!(transfer.expect_not_found(&change(passing, GENERATOR)), Ok(()));
            let report = transfer.expect_not_found(&change(passing, 0x8001)).unwrap_err();
            assert!(report.contains("found: check returns [1, "), "{report}");
        }
    }
}
