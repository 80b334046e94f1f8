//! A storm by one thread: owners, appliers and lanes make their steps in an order that is drawn.

use std::collections::VecDeque;

use super::rows::{Event, Opening};
use crate::plain::hashing::mix;
use crate::plain::lines::Report;
use crate::plain::nodes::{Node, Part, Path};
use crate::plain::owners::{BlockRefused, Owners, Refused};

enum Reply {
    Update(Result<(usize, usize), Refused>),
    Packet(Path),
}

/// Who makes a step: an owner handles its next update, the applier of a node takes an owner's next message, a lane asks the
/// table of its packet's ingress or then the FIB of the node that it came to.
#[derive(Clone, Copy)]
enum Worker {
    Owner(usize),
    Applier { node: usize, owner: usize },
    Lane(usize),
}

/// What a lane has to do in a phase, and where the first of it was sent, if that is known.
#[derive(Default)]
struct Lane {
    packets: VecDeque<usize>,
    sent: Option<(u32, u8)>,
}

struct Storm<'a> {
    script: &'a [Event],
    owners: Owners,
    nodes: Vec<Node>,
    /// Whether a node may take messages for its FIBs before those for its tables that were sent earlier. No link does that,
    /// but the model allows it.
    takes_apart: bool,
    /// The updates of each owner in this phase, by their places in the script, and the same of lanes and packets.
    updates: Vec<VecDeque<usize>>,
    lanes: Vec<Lane>,
    replies: Vec<Option<Reply>>,
    draw: Draw,
}

/// An output that these rows may have, by the order that this seed draws.
pub fn simulated(opening: &Opening, script: &[Event], lanes: usize, seed: u64) -> Result<Vec<u8>, BlockRefused> {
    let (owners, records) = Owners::open(opening.nodes, opening.blocks, &opening.flows)?;
    let mut storm = Storm {
        script,
        owners,
        nodes: Node::all(opening.nodes, &opening.flows, records),
        takes_apart: seed % 4 == 3,
        updates: vec![VecDeque::new(); opening.nodes],
        lanes: (0..lanes).map(|_| Lane::default()).collect(),
        replies: script.iter().map(|_| None).collect(),
        draw: Draw { state: seed },
    };
    let mut packets = 0;
    for (place, event) in script.iter().enumerate() {
        match *event {
            Event::Update { key, .. } => {
                let owner = storm.owners.owner_of(storm.owners.group_of(key));
                storm.updates[owner].push_back(place);
            }
            Event::Packet { .. } => {
                storm.lanes[packets % lanes].packets.push_back(place);
                packets += 1;
            }
            Event::Sync => storm.run_phase(),
        }
    }
    storm.run_phase();
    Ok(storm.printed())
}

impl Storm<'_> {
    /// Some workers are fast and some are slow.
    fn run_phase(&mut self) {
        let nodes = 0..self.nodes.len();
        let mut workers: Vec<_> = nodes.clone().map(Worker::Owner).collect();
        workers.extend((0..self.lanes.len()).map(Worker::Lane));
        workers.extend(nodes.clone().flat_map(|node| nodes.clone().map(move |owner| Worker::Applier { node, owner })));
        let workers: Vec<_> = workers.into_iter().map(|worker| (worker, 1 << self.draw.below(8))).collect();
        while !self.is_done() {
            let able: Vec<_> = workers.iter().filter(|(worker, _)| self.has_work(*worker)).collect();
            let mut drawn = self.draw.below(able.iter().map(|(_, speed)| speed).sum());
            let next = able.iter().find(|(_, speed)| {
                let is_it = drawn < *speed;
                drawn = drawn.saturating_sub(*speed);
                is_it
            });
            self.step(next.unwrap().0);
        }
        for (worker, _) in workers {
            while self.has_work(worker) {
                self.step(worker);
            }
        }
    }

    fn is_done(&self) -> bool {
        self.updates.iter().all(VecDeque::is_empty) && self.lanes.iter().all(|lane| lane.packets.is_empty())
    }

    fn has_work(&self, worker: Worker) -> bool {
        match worker {
            Worker::Owner(owner) => !self.updates[owner].is_empty(),
            Worker::Lane(lane) => !self.lanes[lane].packets.is_empty(),
            Worker::Applier { node, owner } => self.is_told(node, owner) != (false, false),
        }
    }

    fn step(&mut self, worker: Worker) {
        match worker {
            Worker::Owner(owner) => {
                let place = self.updates[owner].pop_front().unwrap();
                if let Event::Update { key, to } = self.script[place] {
                    self.replies[place] = Some(Reply::Update(self.owners.update(key, to)));
                }
            }
            Worker::Lane(lane) => self.step_lane(lane),
            Worker::Applier { node, owner } => {
                let part = self.next_part(node, owner);
                let to = &mut self.nodes[node];
                to.take(owner, part, &self.owners.turns[owner][to.taken(owner, part)]);
            }
        }
    }

    /// Whether a node has to take messages of an owner for its table, and for its FIB.
    fn is_told(&self, node: usize, owner: usize) -> (bool, bool) {
        let sent = self.owners.turns[owner].len();
        let is_told = |part| self.nodes[node].taken(owner, part) < sent;
        (is_told(Part::Table), is_told(Part::Fib))
    }

    /// Which message a node takes next of an owner: by a link, a turn's for the table and then its for the FIB.
    fn next_part(&mut self, node: usize, owner: usize) -> Part {
        let taken = |part| self.nodes[node].taken(owner, part);
        let is_table = match self.is_told(node, owner) {
            (true, true) if self.takes_apart => self.draw.below(2) == 0,
            (true, true) => taken(Part::Table) == taken(Part::Fib),
            (is_table, _) => is_table,
        };
        if is_table {
            Part::Table
        } else {
            Part::Fib
        }
    }

    fn step_lane(&mut self, number: usize) {
        let lane = &mut self.lanes[number];
        let place = lane.packets[0];
        let Event::Packet { ingress, key } = self.script[place] else {
            return;
        };
        let group = self.owners.group_of(key);
        let path = match lane.sent.take() {
            None => match self.nodes[usize::from(ingress)].route(&self.owners, group, key) {
                (seen, Some(to)) => {
                    lane.sent = Some((seen, to));
                    return;
                }
                (seen, None) => Path { seen, at: None },
            },
            Some((seen, to)) => {
                let (version, record) = self.nodes[usize::from(to)].find(group, key);
                Path { seen, at: Some((to, version, record)) }
            }
        };
        lane.packets.pop_front();
        self.replies[place] = Some(Reply::Packet(path));
    }

    fn printed(self) -> Vec<u8> {
        let mut report = Report::default();
        for (event, reply) in self.script.iter().zip(self.replies) {
            match (event, reply) {
                (Event::Update { to: Some(_), .. }, Some(Reply::Update(reply))) => report.update("set", &reply),
                (Event::Update { to: None, .. }, Some(Reply::Update(reply))) => report.update("del", &reply),
                (Event::Packet { ingress, .. }, Some(Reply::Packet(path))) => report.packet(*ingress, path),
                _ => {}
            }
        }
        report.done();
        report.text
    }
}

struct Draw {
    state: u64,
}

impl Draw {
    fn below(&mut self, bound: u64) -> u64 {
        self.state = self.state.wrapping_add(0x9E37_79B9_7F4A_7C15);
        mix(self.state) % bound
    }
}
