//! Keys that differ, in one of several patterns. To see whether a key is repeated, or taken by a
//! piece, the library compares it with those of its bucket. So some patterns bring many keys into
//! one bucket.

use crate::random::Random;
use lent::{bucket, buckets, key_of, scattered_key, width, BUCKETS, MOST_BUCKETS};

/// With more rows a shared bucket takes the library long. The checks and the edits pose such
/// tables on purpose; no other table becomes one by chance.
const MOST_SHARING: usize = 512;

/// Keys in one of several patterns: some have all their low bits equal, some all their high bits,
/// and some share buckets.
pub fn some_keys(random: &mut Random, rows: usize) -> Vec<usize> {
    if rows <= MOST_SHARING && random.chance(25) {
        return sharing_keys(random, rows, rows);
    }
    let pattern = random.below(6);
    let start = random.number();
    let mut keys: Vec<usize> = (0..rows)
        .map(|row| match pattern {
            0 => row + 1,
            1 => 2 * row + 1,
            2 => usize::MAX - row,
            3 => (row + 1) << 13,
            4 => (row + 1) << 48,
            _ => scattered_key(start.wrapping_add(row)),
        })
        .collect();
    random.shuffle(&mut keys);
    keys
}

/// So many keys for a table of so many rows, in one bucket or in a few neighbouring ones: mostly
/// of as many buckets as the table has, else of another number of them. Their upper halves are all
/// 0, all the same or all different; the largest key is among some of them.
pub fn sharing_keys(random: &mut Random, keys: usize, rows: usize) -> Vec<usize> {
    let (own, any) = (buckets(rows), random.pick(&BUCKETS));
    let of = random.pick(&[own, own, any, MOST_BUCKETS]);
    let in_use = random.pick(&[1, 1, 2, 7]);
    let with_largest = random.chance(33);
    let (first, start) = match with_largest {
        true => (bucket(usize::MAX, of), 1),
        false => (random.below(of), random.within(1, width(of) - keys)),
    };
    let upper = random.number();
    let (high, apart) = random.pick(&[(0, 0), (upper, 0), (upper, 1)]);
    let mut keys: Vec<usize> = (0..keys)
        .map(|key| {
            let number = (first + key % in_use) % of * width(of) + start + key / in_use;
            key_of(number as u32, high.wrapping_add(key * apart) as u32)
        })
        .collect();
    if with_largest {
        keys[0] = usize::MAX;
    }
    random.shuffle(&mut keys);
    keys
}

/// So many rows for a table whose keys share buckets: mostly few, now and then at the edge between
/// two numbers of buckets, or up to the most.
pub fn sharing_rows(random: &mut Random) -> usize {
    match random.below(32) {
        0 => 4_096,
        1 | 2 => random.within(513, 4_096),
        3 | 4 => random.pick(&[16, 17, 32, 33, 64, 65, 256, 257, 1_024, 1_025]),
        5..=10 => random.within(65, 512),
        _ => random.within(1, 64),
    }
}

#[cfg(test)]
mod tests {
    use super::sharing_keys;
    use crate::random::Random;
    use lent::{bucket, BUCKETS};
    use std::collections::HashSet;

    #[test]
    fn keys_that_share_buckets_differ_and_are_not_0() {
        for number in 0..300 {
            let random = &mut Random::for_call(1, "keys", number);
            let rows = random.within(60, 4_096);
            let keys = sharing_keys(random, rows, rows);
            let distinct: HashSet<usize> = keys.iter().copied().collect();
            assert!(distinct.len() == rows && !distinct.contains(&0));
            let in_use = |buckets: usize| keys.iter().map(|&key| bucket(key, buckets)).collect();
            assert!(BUCKETS.map(in_use).iter().any(|in_use: &HashSet<usize>| in_use.len() <= 7));
        }
    }
}
