//! A node: the table by which it sends packets, and the records of its own flows.

use std::collections::HashMap;

use super::flows::{Flow, Key, Record};
use super::groups::GroupRecord;
use super::owners::{Owners, Turn};

#[derive(Clone, Copy)]
pub enum Part {
    Table,
    Fib,
}

/// What becomes of a packet: where its table sends it, by which version, and what is found there, by which version.
#[derive(Clone, Copy)]
pub struct Path {
    pub seen: u32,
    pub at: Option<(u8, u32, Option<Record>)>,
}

/// What a node's table has of a group.
#[derive(Clone)]
struct Told {
    version: u32,
    record: GroupRecord,
}

/// Its table and its flows' records, each with how many turns it has taken of each owner.
pub struct Node {
    number: u8,
    table: Vec<Told>,
    table_taken: Vec<usize>,
    fib: HashMap<Key, Record>,
    fib_versions: Vec<u32>,
    fib_taken: Vec<usize>,
}

impl Node {
    /// Each node of a cluster, before any turn.
    pub fn all(nodes: usize, opening: &[Flow], records: Vec<GroupRecord>) -> Vec<Node> {
        let mut fibs = vec![HashMap::new(); nodes];
        for flow in opening {
            fibs[usize::from(flow.node)].insert(flow.key, flow.record);
        }
        let table: Vec<_> = records.into_iter().map(|record| Told { version: 0, record }).collect();
        let node = |(number, fib)| Node {
            number: number as u8,
            table: table.clone(),
            table_taken: vec![0; nodes],
            fib,
            fib_versions: vec![0; table.len()],
            fib_taken: vec![0; nodes],
        };
        fibs.into_iter().enumerate().map(node).collect()
    }

    /// Takes an owner's next turn.
    pub fn take(&mut self, owner: usize, part: Part, turn: &Turn) {
        match part {
            Part::Table => {
                let told = &mut self.table[turn.group];
                told.version += 1;
                told.record = turn.record.clone();
                self.table_taken[owner] += 1;
            }
            Part::Fib => {
                match turn.put {
                    Some((node, record)) if node == self.number => _ = self.fib.insert(turn.key, record),
                    _ if turn.drop == Some(self.number) => _ = self.fib.remove(&turn.key),
                    _ => {}
                }
                self.fib_versions[turn.group] += 1;
                self.fib_taken[owner] += 1;
            }
        }
    }

    pub fn taken(&self, owner: usize, part: Part) -> usize {
        match part {
            Part::Table => self.table_taken[owner],
            Part::Fib => self.fib_taken[owner],
        }
    }

    /// Where the table sends a key of this group, and by which version.
    pub fn route(&self, owners: &Owners, group: usize, key: Key) -> (u32, Option<u8>) {
        let Told { version, record } = &self.table[group];
        (*version, owners.decode(record, key))
    }

    /// What the node has of a key of this group, and by which version.
    pub fn find(&self, group: usize, key: Key) -> (u32, Option<Record>) {
        (self.fib_versions[group], self.fib.get(&key).copied())
    }
}
