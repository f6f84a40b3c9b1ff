//! Bursts: changed bits of a block's data that all lie within a few consecutive bits. Bits are counted with high bits
//! first: bit 0 is the high bit of the block's first byte.

use crate::rng::Rng;

/// A CRC of 16 bits is sure to find each burst of up to this many bits.
pub const LONGEST: usize = 16;

/// The bits that are changed in a block's data.
#[derive(Clone, Copy, Debug)]
pub struct Burst {
    /// The first changed bit.
    pub first: usize,
    /// The bits from the first to the last changed one, as a number. Its highest bit is the first changed bit, and its
    /// lowest is the last. So it is odd, and two patterns at one place are two bursts.
    pub pattern: u32,
}

impl Burst {
    /// Returns a random burst in a block of `bits` bits. One in eight begins with the block's first bit, and one in
    /// eight ends with its last.
    pub fn random(bits: usize, rng: &mut Rng) -> Burst {
        let length = rng.between(1, LONGEST as u64) as usize;
        let highest_bit = 1 << (length - 1);
        let pattern = highest_bit | rng.below(highest_bit) | 1;
        let last_place = bits - length;
        let first = match rng.below(8) {
            0 => 0,
            1 => last_place,
            _ => rng.between(0, last_place as u64) as usize,
        };
        Burst { first, pattern: pattern as u32 }
    }

    /// Returns the number of bits from the first to the last changed one.
    pub fn length(&self) -> usize {
        (u32::BITS - self.pattern.leading_zeros()) as usize
    }

    /// Inverts the burst's bits. A second call undoes the first.
    pub fn invert(&self, data: &mut [u8]) {
        assert!(self.first + self.length() <= 8 * data.len(), "{self:?} ends after the data");
        let from_highest_bit = self.pattern << self.pattern.leading_zeros();
        let changed_bits = from_highest_bit >> (self.first % 8);
        for (byte, changed) in data[self.first / 8..].iter_mut().zip(changed_bits.to_be_bytes()) {
            *byte ^= changed;
        }
    }
}

/// Returns each burst of up to `LONGEST` bits in a block of `bits` bits once.
pub fn every_burst(bits: usize) -> impl Iterator<Item = Burst> {
    (0..bits).flat_map(move |first| {
        let longest = LONGEST.min(bits - first);
        (1..1 << longest).step_by(2).map(move |pattern| Burst { first, pattern })
    })
}

/// Returns how many bursts there are, counted in another way than `every_burst` does. In each window of `LONGEST` bits
/// but the last, the bursts that change the window's first bit are counted, and in the last window all bursts.
pub fn number_of_bursts(bits: usize) -> u64 {
    let windows_before_the_last = (bits - LONGEST) as u64;
    windows_before_the_last * (1 << (LONGEST - 1)) + (1 << LONGEST) - 1
}

#[cfg(test)]
mod tests {
    use super::*;

    /// Returns what a burst changes in three bytes of zeros, as a number of 24 bits.
    fn changed_in_three_bytes(burst: Burst) -> u32 {
        let mut data = [0; 4];
        burst.invert(&mut data[1..]);
        u32::from_be_bytes(data)
    }

    /// Returns the number of bits from the highest to the lowest bit that is set.
    fn span(number: u32) -> u32 {
        u32::BITS - number.leading_zeros() - number.trailing_zeros()
    }

    #[test]
    fn bursts_are_as_many_as_computed_by_hand() {
        for (size, number) in [(8, 1_638_399), (16, 3_735_551)] {
            assert_eq!(number_of_bursts(8 * size), number);
            assert_eq!(every_burst(8 * size).count() as u64, number);
        }
    }

    /// In three bytes each change of bits can be looked at: exactly those within 16 bits are bursts.
    #[test]
    fn every_change_within_16_bits_is_one_burst() {
        let mut times = vec![0; 1 << 24];
        every_burst(24).for_each(|burst| times[changed_in_three_bytes(burst) as usize] += 1);
        for (changed, &times) in times.iter().enumerate() {
            let is_burst = changed != 0 && span(changed as u32) <= 16;
            assert_eq!(times, u32::from(is_burst), "the bits {changed:#08x}");
        }
        assert_eq!(u64::from(times.iter().sum::<u32>()), number_of_bursts(24));
    }

    #[test]
    fn a_pattern_lies_at_its_place_with_high_bits_first() {
        let changed = |first, pattern| changed_in_three_bytes(Burst { first, pattern });
        assert_eq!(changed(0, 1), 0x80_0000);
        assert_eq!(changed(7, 1), 0x01_0000);
        assert_eq!(changed(23, 1), 0x00_0001);
        assert_eq!(changed(7, 0b11), 0x01_8000);
        assert_eq!(changed(6, 0b1101), 0x03_4000);
        assert_eq!(changed(0, 0x8001), 0x80_0100);
        assert_eq!(changed(1, 0xFFFF), 0x7F_FF80);
        assert_eq!(changed(7, 0x8001), 0x01_0002);
        assert_eq!(changed(8, 0xABCD), 0x00_ABCD);
        assert_eq!(changed(7, 0x1_8BB7), 0x01_8BB7);
        assert_eq!(changed(0, 0x1_8BB7), 0xC5_DB80);
    }

    #[test]
    fn a_second_call_undoes_the_first() {
        let before = [0x12, 0x34, 0x56, 0x78];
        let mut data = before;
        let burst = Burst { first: 5, pattern: 0xF00F };
        burst.invert(&mut data);
        assert_ne!(data, before);
        burst.invert(&mut data);
        assert_eq!(data, before);
    }

    #[test]
    #[should_panic(expected = "ends after the data")]
    fn a_pattern_must_end_in_the_data() {
        Burst { first: 23, pattern: 0b11 }.invert(&mut [0; 3]);
    }

    /// Random bursts lie in the block, have all lengths, and often touch its ends.
    #[test]
    fn random_bursts_have_all_lengths_and_reach_both_ends() {
        let (bits, count, mut rng) = (4_096, 8_000, Rng::new(1));
        let (mut lengths, mut at_start, mut at_end) = ([0; LONGEST + 1], 0, 0);
        for burst in (0..count).map(|_| Burst::random(bits, &mut rng)) {
            assert!(burst.pattern % 2 == 1 && burst.first + burst.length() <= bits);
            lengths[burst.length()] += 1;
            at_start += u32::from(burst.first == 0);
            at_end += u32::from(burst.first + burst.length() == bits);
        }
        assert!(lengths[1..].iter().all(|&times| times > count / 32), "{lengths:?}");
        assert!(at_start > count / 16 && at_end > count / 16, "{at_start} and {at_end}");
    }
}
