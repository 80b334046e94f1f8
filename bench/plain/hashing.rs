//! Where a key's hashes put it: its block and bucket, and its positions in a group's arrays.

use super::flows::Key;

pub const BUCKETS: usize = 256;

pub struct Place {
    pub block: usize,
    pub bucket: usize,
}

#[derive(Clone, Copy)]
pub struct HashPair {
    pub g1: u32,
    pub g2: u32,
}

pub fn mix(z: u64) -> u64 {
    let z = (z ^ (z >> 30)).wrapping_mul(0xBF58_476D_1CE4_E5B9);
    let z = (z ^ (z >> 27)).wrapping_mul(0x94D0_49BB_1331_11EB);
    z ^ (z >> 31)
}

fn base(j: u64, key: Key) -> u64 {
    let step = j.wrapping_mul(0x9E37_79B9_7F4A_7C15);
    mix(mix(key as u64 ^ step).wrapping_add((key >> 64) as u64))
}

pub fn place(blocks: usize, key: Key) -> Place {
    let hash = base(1, key);
    Place { block: (hash >> 32) as usize % blocks, bucket: hash as usize % BUCKETS }
}

pub fn pair(key: Key) -> HashPair {
    HashPair { g1: (base(2, key) >> 32) as u32, g2: (base(3, key) >> 32) as u32 | 1 }
}

pub fn position(pair: HashPair, index: u32) -> u32 {
    pair.g1.wrapping_add(index.wrapping_mul(pair.g2)) >> 29
}
