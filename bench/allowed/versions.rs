//! What each group is at each of its versions, and which versions it has in a phase.

use std::collections::HashMap;

use super::rows::{Event, Opening};
use crate::plain::flows::{Key, Record};
use crate::plain::groups::GroupRecord;
use crate::plain::owners::{BlockRefused, Owners, Refused};

/// Where a key's record is, and what it is.
type Entry = Option<(u8, Record)>;

/// The owners after a whole script, and all that they were before.
pub struct Versions {
    pub owners: Owners,
    /// What became of each update, in the script's order.
    pub replies: Vec<Result<(usize, usize), Refused>>,
    /// The group's records before any turn.
    records: Vec<GroupRecord>,
    /// The flows before any turn.
    opening: HashMap<Key, (u8, Record)>,
    /// The turns of each group, by their numbers in its owner's journal, from 1.
    turns: Vec<Vec<usize>>,
    /// What a key was set to, from which version of its group on.
    entries: HashMap<Key, Vec<(usize, Entry)>>,
    /// How many turns each owner had before the first phase and at the end of each one.
    ends: Vec<Vec<usize>>,
}

impl Versions {
    pub fn of(opening: &Opening, script: &[Event]) -> Result<Versions, BlockRefused> {
        let (owners, records) = Owners::open(opening.nodes, opening.blocks, &opening.flows)?;
        let mut versions = Versions {
            replies: Vec::new(),
            opening: opening.flows.iter().map(|flow| (flow.key, (flow.node, flow.record))).collect(),
            turns: vec![Vec::new(); records.len()],
            entries: HashMap::new(),
            ends: vec![vec![0; opening.nodes]],
            owners,
            records,
        };
        for event in script {
            match *event {
                Event::Update { key, to } => versions.update(key, to),
                Event::Packet { .. } => {}
                Event::Sync => versions.end_phase(),
            }
        }
        versions.end_phase();
        Ok(versions)
    }

    fn update(&mut self, key: Key, to: Entry) {
        let reply = self.owners.update(key, to);
        if let Ok((_, turn)) = reply {
            let turns = &mut self.turns[self.owners.group_of(key)];
            turns.push(turn);
            self.entries.entry(key).or_default().push((turns.len(), to));
        }
        self.replies.push(reply);
    }

    fn end_phase(&mut self) {
        self.ends.push(self.owners.turns.iter().map(Vec::len).collect());
    }

    /// The least and the greatest version that a group has in a phase.
    pub fn of_phase(&self, phase: usize, group: usize) -> (usize, usize) {
        let owner = self.owners.owner_of(group);
        let at = |turns: usize| self.turns[group].partition_point(|&turn| turn <= turns);
        (at(self.ends[phase][owner]), at(self.ends[phase + 1][owner]))
    }

    /// The owner's turn that made the group's version, and the one that made the next; 0 is before any turn.
    pub fn turns_about(&self, group: usize, version: usize) -> (usize, Option<usize>) {
        let turns = &self.turns[group];
        (version.checked_sub(1).map_or(0, |before| turns[before]), turns.get(version).copied())
    }

    /// Where the group's record of this version sends a key.
    pub fn route(&self, group: usize, version: usize, key: Key) -> Option<u8> {
        let record = match self.turns_about(group, version).0 {
            0 => &self.records[group],
            turn => &self.owners.turns[self.owners.owner_of(group)][turn - 1].record,
        };
        self.owners.decode(record, key)
    }

    /// What the node has of a key at this version of the key's group.
    pub fn answer(&self, version: usize, node: u8, key: Key) -> Option<Record> {
        let entries = self.entries.get(&key).map_or(&[][..], Vec::as_slice);
        let last = entries[..entries.partition_point(|entry| entry.0 <= version)].last();
        let entry = last.map_or_else(|| self.opening.get(&key).copied(), |last| last.1);
        entry.filter(|entry| entry.0 == node).map(|entry| entry.1)
    }
}
