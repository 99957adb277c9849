//! Numbers without a pattern.

/// A key without a pattern, as an operator's own numbering would be: each number gets another, and
/// none gets 0.
pub fn scattered_key(number: usize) -> usize {
    let mixed = (number as u64).wrapping_add(1).wrapping_mul(0xD134_2543_DE82_EF95);
    let mixed = (mixed ^ (mixed >> 29)).wrapping_mul(0xBF58_476D_1CE4_E5B9);
    ((mixed ^ (mixed >> 32)) as usize).max(1)
}

#[cfg(test)]
mod tests {
    use super::scattered_key;
    use std::collections::HashSet;

    #[test]
    fn scattered_keys_differ_and_are_not_0() {
        let keys: HashSet<usize> = (0..10_000).map(scattered_key).collect();
        assert!(keys.len() == 10_000 && !keys.contains(&0));
    }
}
