//! The groups of a block, and a group's record.

use std::cmp::Reverse;

use super::flows::{Flow, Key};
use super::hashing::{pair, position, HashPair, BUCKETS};

pub const GROUPS: usize = 64;
/// So many indexes are tried side by side.
const LANES: usize = 16;

/// The group of each bucket of a block whose buckets have so many keys.
pub fn choose(sizes: &[usize; BUCKETS]) -> [u8; BUCKETS] {
    let mut buckets: Vec<usize> = (0..BUCKETS).collect();
    buckets.sort_by_key(|&bucket| (Reverse(sizes[bucket]), bucket));
    let mut keys = [0; GROUPS];
    let mut chosen = [0; BUCKETS];
    for bucket in buckets {
        let step = [1, 5, 11, 17][bucket / GROUPS];
        let group = (0..4).map(|choice| (bucket + choice * step) % GROUPS).min_by_key(|&group| keys[group]).unwrap();
        keys[group] += sizes[bucket];
        chosen[bucket] = group as u8;
    }
    chosen
}

#[derive(Clone, Copy, Default)]
pub struct Pair {
    index: u16,
    array: u8,
}

#[derive(Clone)]
pub enum GroupRecord {
    /// One pair for each bit of a node's number.
    Served([Pair; 4]),
    /// Keys and nodes by rising key.
    Fallback(Box<[(Key, u8)]>),
}

impl GroupRecord {
    /// The record of a group with these flows.
    pub fn of(flows: &[Flow], bits: usize) -> GroupRecord {
        let mut pairs = [Pair::default(); 4];
        for (bit, found) in pairs.iter_mut().enumerate().take(bits) {
            let Some(least) = least(flows, bit) else {
                let mut rows: Vec<_> = flows.iter().map(|flow| (flow.key, flow.node)).collect();
                rows.sort();
                return GroupRecord::Fallback(rows.into());
            };
            *found = least;
        }
        GroupRecord::Served(pairs)
    }

    pub fn rows(&self) -> usize {
        match self {
            GroupRecord::Served(_) => 0,
            GroupRecord::Fallback(rows) => rows.len(),
        }
    }

    /// The node that the record gives a key.
    pub fn decode(&self, bits: usize, nodes: usize, key: Key) -> Option<u8> {
        match self {
            GroupRecord::Served(pairs) => {
                let hashes = pair(key);
                let mut node = 0;
                for (bit, pair) in pairs.iter().enumerate().take(bits) {
                    node |= (pair.array >> position(hashes, u32::from(pair.index)) & 1) << bit;
                }
                Some(node).filter(|&node| usize::from(node) < nodes)
            }
            GroupRecord::Fallback(rows) => {
                let at = rows.binary_search_by_key(&key, |row| row.0).ok()?;
                Some(rows[at].1)
            }
        }
    }
}

/// A key's hash pair, with what its hash grows by from an index to each of the next ones.
struct Line {
    pair: HashPair,
    steps: [u32; LANES],
}

impl Line {
    fn of(key: Key) -> Line {
        let pair = pair(key);
        Line { pair, steps: std::array::from_fn(|lane| pair.g2.wrapping_mul(lane as u32)) }
    }
}

/// The positions of these keys under `LANES` indexes from the first one on, a bit for each position, beside those before.
fn see(mut seen: [u8; LANES], lines: &[Line], first: u32) -> [u8; LANES] {
    for line in lines {
        let start = line.pair.g1.wrapping_add(line.pair.g2.wrapping_mul(first));
        for (seen, step) in seen.iter_mut().zip(line.steps) {
            *seen |= 1 << (start.wrapping_add(step) >> 29);
        }
    }
    seen
}

/// Whether no position has both, under some index.
fn is_any_apart(zeros: &[u8; LANES], ones: &[u8; LANES]) -> bool {
    zeros.iter().zip(ones).fold(false, |any, (zeros, ones)| any | (zeros & ones == 0))
}

/// The least index under which no position has a key whose node's bit is 0 and one whose bit is 1, with the positions of
/// the latter. Now and then it looks whether one of the indexes side by side can still be it.
fn least(flows: &[Flow], bit: usize) -> Option<Pair> {
    let of = |value| flows.iter().filter(move |flow| flow.node >> bit & 1 == value).map(|flow| Line::of(flow.key));
    let (zeros, ones): (Vec<_>, Vec<_>) = (of(0).collect(), of(1).collect());
    'turns: for first in (0..65_536).step_by(LANES) {
        let of_zeros = see([0; LANES], &zeros, first);
        let mut of_ones = [0; LANES];
        for some in ones.chunks(3) {
            of_ones = see(of_ones, some, first);
            if !is_any_apart(&of_zeros, &of_ones) {
                continue 'turns;
            }
        }
        let lane = (0..LANES).find(|&lane| of_zeros[lane] & of_ones[lane] == 0)?;
        return Some(Pair { index: first as u16 + lane as u16, array: of_ones[lane] });
    }
    None
}
