//! What the owners have: the flows of each group, and the turns that they have accepted.
//!
//! Groups are numbered through all blocks: group g of block b is `b * GROUPS + g`.

use super::flows::{Flow, Key, Record};
use super::groups::{choose, GroupRecord, GROUPS};
use super::hashing::{place, Place, BUCKETS};

const MOST_KEYS_OF_A_BLOCK: usize = 1536;
const MOST_ROWS_OF_A_BLOCK: usize = 64;
const MOST_TURNS: usize = 65_535;

/// The first block past a limit, with the word for the limit.
pub struct BlockRefused {
    pub block: usize,
    pub why: &'static str,
}

pub enum Refused {
    Spent,
    Absent,
    BlockFull { block: usize },
    RowsFull { needed: usize, free: usize },
}

/// An accepted update.
pub struct Turn {
    pub group: usize,
    pub record: GroupRecord,
    pub key: Key,
    pub put: Option<(u8, Record)>,
    pub drop: Option<u8>,
}

pub struct Owners {
    nodes: usize,
    blocks: usize,
    bits: usize,
    /// The group of each bucket of each block.
    chosen: Vec<[u8; BUCKETS]>,
    /// The flows of each group.
    flows: Vec<Vec<Flow>>,
    /// How many rows each group takes.
    rows: Vec<usize>,
    /// The turns of each owner.
    pub turns: Vec<Vec<Turn>>,
}

impl Owners {
    /// The owners of these flows, and the record of each group.
    pub fn open(nodes: usize, blocks: usize, opening: &[Flow]) -> Result<(Owners, Vec<GroupRecord>), BlockRefused> {
        let places: Vec<_> = opening.iter().map(|flow| place(blocks, flow.key)).collect();
        let mut sizes = vec![[0; BUCKETS]; blocks];
        for place in &places {
            sizes[place.block][place.bucket] += 1;
        }
        let chosen: Vec<_> = sizes.iter().map(choose).collect();
        let mut flows = vec![Vec::new(); blocks * GROUPS];
        for (flow, place) in opening.iter().zip(&places) {
            flows[group_at(&chosen, place)].push(*flow);
        }

        let bits = (1..).find(|&bits| 1 << bits >= nodes).unwrap();
        let mut records = Vec::with_capacity(flows.len());
        for (block, groups) in flows.chunks(GROUPS).enumerate() {
            if keys_of(groups) > MOST_KEYS_OF_A_BLOCK {
                return Err(BlockRefused { block, why: "BlockFull" });
            }
            records.extend(groups.iter().map(|flows| GroupRecord::of(flows, bits)));
            if rows_of(&records[block * GROUPS..]) > MOST_ROWS_OF_A_BLOCK {
                return Err(BlockRefused { block, why: "RowsFull" });
            }
        }
        let rows = records.iter().map(GroupRecord::rows).collect();
        let turns = (0..nodes).map(|_| Vec::new()).collect();
        Ok((Owners { nodes, blocks, bits, chosen, flows, rows, turns }, records))
    }

    pub fn group_of(&self, key: Key) -> usize {
        group_at(&self.chosen, &place(self.blocks, key))
    }

    pub fn owner_of(&self, group: usize) -> usize {
        group / GROUPS % self.nodes
    }

    /// The node that a record gives a key.
    pub fn decode(&self, record: &GroupRecord, key: Key) -> Option<u8> {
        record.decode(self.bits, self.nodes, key)
    }

    /// Sets a key's flow or deletes it: the owner and the turn.
    pub fn update(&mut self, key: Key, to: Option<(u8, Record)>) -> Result<(usize, usize), Refused> {
        let group = self.group_of(key);
        let (block, owner) = (group / GROUPS, self.owner_of(group));
        if self.turns[owner].len() == MOST_TURNS {
            return Err(Refused::Spent);
        }
        let groups = block * GROUPS..(block + 1) * GROUPS;
        let old = self.flows[group].iter().find(|flow| flow.key == key).map(|flow| flow.node);
        if old.is_none() && to.is_none() {
            return Err(Refused::Absent);
        }
        if old.is_none() && keys_of(&self.flows[groups.clone()]) == MOST_KEYS_OF_A_BLOCK {
            return Err(Refused::BlockFull { block });
        }
        let mut flows: Vec<_> = self.flows[group].iter().copied().filter(|flow| flow.key != key).collect();
        flows.extend(to.map(|(node, record)| Flow { key, node, record }));
        let record = GroupRecord::of(&flows, self.bits);
        let free = MOST_ROWS_OF_A_BLOCK - (self.rows[groups].iter().sum::<usize>() - self.rows[group]);
        if record.rows() > free {
            return Err(Refused::RowsFull { needed: record.rows(), free });
        }

        self.flows[group] = flows;
        self.rows[group] = record.rows();
        self.turns[owner].push(Turn { group, record, key, put: to, drop: old });
        Ok((owner, self.turns[owner].len()))
    }
}

fn group_at(chosen: &[[u8; BUCKETS]], place: &Place) -> usize {
    place.block * GROUPS + usize::from(chosen[place.block][place.bucket])
}

fn keys_of(groups: &[Vec<Flow>]) -> usize {
    groups.iter().map(Vec::len).sum()
}

fn rows_of(records: &[GroupRecord]) -> usize {
    records.iter().map(GroupRecord::rows).sum()
}
