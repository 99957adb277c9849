//! The buckets in which the library compares keys.

/// The numbers of buckets that the library has: the least of them that has four for each row.
pub const BUCKETS: [usize; 6] = [64, 128, 256, 1_024, 4_096, MOST_BUCKETS];
/// The number of buckets for the most rows.
pub const MOST_BUCKETS: usize = 16_384;

/// A key's number is the sum of its halves' products with these, modulo 2^32; its bucket is the same
/// part of all buckets as its number is of 2^32.
const LOW_FACTOR: u32 = 0x61C8_8647;
const HIGH_FACTOR: u32 = 0x1B87_3593;

/// How many buckets it has for so many rows in use; a batch has 1,024 or the most.
pub fn buckets(rows: usize) -> usize {
    BUCKETS.into_iter().find(|buckets| 4 * rows <= *buckets).unwrap_or(MOST_BUCKETS)
}

/// The bucket of a key, of so many. With fewer buckets each is made up of whole ones, so keys that
/// share one of the most share one of any number.
pub fn bucket(key: usize, buckets: usize) -> usize {
    number_of(key) as usize / width(buckets)
}

/// So many numbers fall into a bucket.
pub fn width(buckets: usize) -> usize {
    (1 << 32) / buckets
}

/// The number of a key.
pub fn number_of(key: usize) -> u32 {
    let (low, high) = (key as u32, (key >> 32) as u32);
    low.wrapping_mul(LOW_FACTOR).wrapping_add(high.wrapping_mul(HIGH_FACTOR))
}

/// The one key that has the number and the upper half. Only number 0 has key 0.
pub fn key_of(number: u32, high: u32) -> usize {
    let low = number.wrapping_sub(high.wrapping_mul(HIGH_FACTOR)).wrapping_mul(inverse(LOW_FACTOR));
    (high as usize) << 32 | low as usize
}

/// The number whose product with an odd one is 1, modulo 2^32. Each turn doubles the bits that are
/// right, and an odd number is its own inverse in its last three.
fn inverse(odd: u32) -> u32 {
    (0..4).fold(odd, |found, _| found.wrapping_mul(2u32.wrapping_sub(odd.wrapping_mul(found))))
}

#[cfg(test)]
mod tests {
    use super::{bucket, buckets, inverse, key_of, number_of, width, BUCKETS, LOW_FACTOR};
    use crate::scattered_key;

    #[test]
    fn a_key_is_found_from_its_number() {
        assert_eq!(inverse(LOW_FACTOR).wrapping_mul(LOW_FACTOR), 1);
        for key in (0..1_000).map(scattered_key).chain([0, 1, usize::MAX]) {
            assert_eq!(key_of(number_of(key), (key >> 32) as u32), key);
        }
    }

    #[test]
    fn buckets_are_parts_of_all_numbers() {
        for buckets in BUCKETS {
            assert_eq!(bucket(key_of(u32::MAX, 7), buckets), buckets - 1);
            assert_eq!(bucket(key_of(width(buckets) as u32, 7), buckets), 1);
            assert_eq!(bucket(key_of(width(buckets) as u32 - 1, 7), buckets), 0);
        }
    }

    /// How many earlier keys a key meets in its bucket, on average.
    fn met(keys: impl ExactSizeIterator<Item = usize>) -> f64 {
        let rows = keys.len();
        let mut filled = vec![0; buckets(rows)];
        let mut met = 0;
        for key in keys {
            let own = &mut filled[bucket(key, buckets(rows))];
            met += *own;
            *own += 1;
        }
        f64::from(met) / rows as f64
    }

    #[test]
    fn ordinary_keys_spread_over_the_buckets() {
        for rows in [16, 32, 64, 256, 512, 1_024, 4_096] {
            let powers = (0..=50).map(|bits| 1 << bits);
            for step in powers.chain([3, 5, 7, 10, 100, 1_000, 100_000, (1 << 32) + 1]) {
                assert!(met((0..rows).map(|row| (row + 1) * step)) < 1.0, "{rows} rows, {step}");
            }
            // A turbine's number, then the row's within it.
            for turbine in [1_000, 1 << 16, 1 << 32, 1 << 48] {
                let key = |row: usize| (row / 64 + 1) * turbine + row % 64 + 1;
                assert!(met((0..rows).map(key)) < 1.0, "{rows} rows, turbines by {turbine}");
            }
            assert!(met((0..rows).map(scattered_key)) < 0.2, "{rows} rows");
        }
    }
}
