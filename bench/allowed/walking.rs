//! The walk over an output: line by line, with what each lane has seen so far.

use super::rows::Event;
use super::versions::Versions;
use crate::plain::flows::Key;
use crate::plain::lines::Report;
use crate::plain::nodes::Path;

/// The first line that no order of steps could give, by its number from 1, and why.
pub struct Wrong {
    pub line: usize,
    pub why: String,
}

/// How far a storm's packets raced with its updates.
#[derive(Default)]
pub struct Figures {
    pub packets: usize,
    /// Of these, those whose group changes in their phase.
    pub racing: usize,
    /// Of these, those that met a version that is neither the phase's first nor its last.
    pub between: usize,
    /// The packets that met two versions.
    pub apart: usize,
}

/// Cuts of one kind: how many turns of an owner a lane has at least seen at a node.
struct Cuts {
    what: &'static str,
    nodes: usize,
    cuts: Vec<usize>,
}

impl Cuts {
    fn none(what: &'static str, lanes: usize, nodes: usize) -> Cuts {
        Cuts { what, nodes, cuts: vec![0; lanes * nodes * nodes] }
    }

    /// Moves the cut to the least number of turns, not below where it stands, at which the group has just this version.
    fn move_to(&mut self, versions: &Versions, at: Look) -> Result<(), String> {
        let Look { lane, node, group, version } = at;
        let owner = versions.owners.owner_of(group);
        let cut = &mut self.cuts[(lane * self.nodes + usize::from(node)) * self.nodes + owner];
        let (made, next) = versions.turns_about(group, version);
        if next.is_some_and(|next| next <= *cut) {
            let what = self.what;
            return Err(format!(
                "lane {lane} had seen turn {cut} of owner {owner} in the {what} of node {node}, where version {version} \
                 of this group ended before"
            ));
        }
        *cut = made.max(*cut);
        Ok(())
    }
}

/// Which version of a group a lane met at a node.
#[derive(Clone, Copy)]
struct Look {
    lane: usize,
    node: u8,
    group: usize,
    version: usize,
}

/// A packet: its number, its phase, its ingress and its key.
#[derive(Clone, Copy)]
struct Packet {
    number: usize,
    phase: usize,
    ingress: u8,
    key: Key,
}

pub struct Walk<'a> {
    versions: &'a Versions,
    lanes: usize,
    tables: Cuts,
    fibs: Cuts,
    report: Report,
    figures: Figures,
}

impl<'a> Walk<'a> {
    pub fn new(versions: &'a Versions, lanes: usize) -> Walk<'a> {
        let nodes = versions.owners.turns.len();
        Walk {
            versions,
            lanes,
            tables: Cuts::none("table", lanes, nodes),
            fibs: Cuts::none("FIB", lanes, nodes),
            report: Report::default(),
            figures: Figures::default(),
        }
    }

    /// Walks along a whole output.
    pub fn over(mut self, script: &[Event], output: &[u8]) -> Result<Figures, Wrong> {
        let mut lines = Lines::of(output);
        let mut replies = self.versions.replies.iter();
        let mut phase = 0;
        for event in script {
            match *event {
                Event::Update { to, .. } => {
                    let kind = if to.is_some() { "set" } else { "del" };
                    self.report.update(kind, replies.next().unwrap());
                    lines.next_is(&self.line())?;
                }
                Event::Packet { ingress, key } => {
                    let packet = Packet { number: self.figures.packets, phase, ingress, key };
                    let line = lines.next()?;
                    self.packet(packet, line).map_err(|why| lines.wrong(why))?;
                }
                Event::Sync => phase += 1,
            }
        }
        self.report.done();
        lines.next_is(&self.line())?;
        lines.end()?;
        Ok(self.figures)
    }

    /// The line that was put into the report, taken out of it.
    fn line(&mut self) -> Vec<u8> {
        std::mem::take(&mut self.report.text)
    }

    fn packet(&mut self, packet: Packet, line: &[u8]) -> Result<(), String> {
        let Some(met) = Met::of(line) else {
            return Err(format!("this isn't a line of packet {}", packet.number));
        };
        let Packet { ingress, key, .. } = packet;
        let group = self.versions.owners.group_of(key);
        let lane = packet.number % self.lanes;
        let look = |node, version| Look { lane, node, group, version };

        self.is_of_phase("seen", met.seen, packet.phase, group)?;
        self.tables.move_to(self.versions, look(ingress, met.seen))?;
        let to = self.versions.route(group, met.seen, key);
        if to != met.at.map(|at| at.0) {
            let to = to.map_or("nowhere".to_owned(), |to| format!("to node {to}"));
            return Err(format!("version {} of the key's group sends it {to}", met.seen));
        }
        if let Some((node, fib)) = met.at {
            self.is_of_phase("fib", fib, packet.phase, group)?;
            self.fibs.move_to(self.versions, look(node, fib))?;
        }

        let at = met.at.map(|(node, fib)| (node, fib as u32, self.versions.answer(fib, node, key)));
        self.report.packet(ingress, Path { seen: met.seen as u32, at });
        let wanted = self.line();
        if line != wanted {
            return Err(format!("these versions give `{}`", String::from_utf8_lossy(wanted.trim_ascii_end())));
        }
        self.count(&met, packet.phase, group);
        Ok(())
    }

    fn is_of_phase(&self, what: &str, version: usize, phase: usize, group: usize) -> Result<(), String> {
        let (first, last) = self.versions.of_phase(phase, group);
        if (first..=last).contains(&version) {
            return Ok(());
        }
        Err(format!("{what} {version} isn't one of the group's versions in phase {phase}, {first} to {last}"))
    }

    fn count(&mut self, met: &Met, phase: usize, group: usize) {
        let (first, last) = self.versions.of_phase(phase, group);
        let is_between = |version| first < version && version < last;
        self.figures.packets += 1;
        self.figures.racing += usize::from(first < last);
        self.figures.between += usize::from(is_between(met.seen) || met.at.is_some_and(|at| is_between(at.1)));
        self.figures.apart += usize::from(met.at.is_some_and(|at| at.1 != met.seen));
    }
}

/// What a packet's line says that nothing else tells: the versions that it met, and the node that it came to.
struct Met {
    seen: usize,
    at: Option<(u8, usize)>,
}

impl Met {
    fn of(line: &[u8]) -> Option<Met> {
        let mut words = line.trim_ascii_end().split(|&octet| octet == b' ');
        let words: [&[u8]; 12] = std::array::from_fn(|_| words.next().unwrap_or(b""));
        match words {
            [b"packet", _, b"in", _, b"seen", seen, ..] => Some(Met { seen: number(seen)?, at: None }),
            [b"packet", _, b"in", _, b"to", node, b"hops", _, b"seen", seen, b"fib", fib] => {
                let at = (u8::try_from(number(node)?).ok()?, number(fib)?);
                Some(Met { seen: number(seen)?, at: Some(at) })
            }
            _ => None,
        }
    }
}

fn number(text: &[u8]) -> Option<usize> {
    std::str::from_utf8(text).ok()?.parse().ok()
}

/// The lines that are left of an output, and the number of the last one that was taken.
pub struct Lines<'a> {
    rest: &'a [u8],
    number: usize,
}

impl<'a> Lines<'a> {
    pub fn of(output: &'a [u8]) -> Lines<'a> {
        Lines { rest: output, number: 0 }
    }

    /// The next line, with its end.
    fn next(&mut self) -> Result<&'a [u8], Wrong> {
        self.number += 1;
        match self.rest.iter().position(|&octet| octet == b'\n') {
            Some(end) => {
                let (line, rest) = self.rest.split_at(end + 1);
                self.rest = rest;
                Ok(line)
            }
            None if self.rest.is_empty() => Err(self.wrong("the output ends before it".to_owned())),
            None => Err(self.wrong("it has no end".to_owned())),
        }
    }

    pub fn next_is(&mut self, wanted: &[u8]) -> Result<(), Wrong> {
        if self.next()? == wanted {
            return Ok(());
        }
        Err(self.wrong(format!("the rows give `{}`", String::from_utf8_lossy(wanted.trim_ascii_end()))))
    }

    pub fn end(&mut self) -> Result<(), Wrong> {
        if self.rest.is_empty() {
            return Ok(());
        }
        self.number += 1;
        Err(self.wrong("it comes after the last line".to_owned()))
    }

    fn wrong(&self, why: String) -> Wrong {
        Wrong { line: self.number, why }
    }
}
