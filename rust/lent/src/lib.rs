//! Columns that are lent to a program under test, and how they are filled: what the comparisons
//! and the benchmark share.

#![forbid(unsafe_code)]

mod buckets;
mod columns;
mod items;
mod lend;
mod scatter;

pub use buckets::{bucket, buckets, key_of, width, BUCKETS, MOST_BUCKETS};
pub use columns::{sizes, Columns};
pub use items::{Items, DELETE, MOST_ITEMS, RENAME};
pub use scatter::scattered_key;
