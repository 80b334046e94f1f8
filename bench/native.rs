//! A plain native program that prints, octet for octet, what `scalebricks replay` prints: the yardstick of `bench/run`, and
//! a second opinion on every output (`bench/compare`). Nothing of it is proved, and it takes nothing of the crates.
//!
//! It is what one would write with std alone: one thread; all rows in memory, one read and handled after the other; the
//! output in one buffer, written at the end. The owners' flows stand in a list for each group, each node has one table with
//! the record and version of every group, and one hash map of the records of its flows. A turn is kept as a value and not
//! as octets: what is carried shows nowhere in the output.
//!
//! It takes good inputs alone: an input without `begin` or `end` and a block past a limit end in a panic, and other bad rows
//! do, or give lines that mean nothing. Fields in quotes may have no comma, quote or line end.

use std::io::{self, Read, Write};

use plain::flows::{Flow, Key, Record};
use plain::lines::Report;
use plain::nodes::{Node, Part, Path};
use plain::owners::Owners;

mod plain;

// ---- the cluster

enum Carried {
    Applied,
    Repeat { have: usize },
    Early { have: usize },
    Unsent,
}

struct Cluster {
    owners: Owners,
    nodes: Vec<Node>,
}

impl Cluster {
    fn open(nodes: usize, blocks: usize, opening: &[Flow]) -> Cluster {
        let (owners, records) = Owners::open(nodes, blocks, opening)
            .unwrap_or_else(|refused| panic!("no good input: block {} {}", refused.block, refused.why));
        Cluster { owners, nodes: Node::all(nodes, opening, records) }
    }

    fn send(&self, ingress: u8, key: Key) -> Path {
        let group = self.owners.group_of(key);
        let (seen, to) = self.nodes[usize::from(ingress)].route(&self.owners, group, key);
        let at = to.map(|to| {
            let (version, record) = self.nodes[usize::from(to)].find(group, key);
            (to, version, record)
        });
        Path { seen, at }
    }

    fn carry(&mut self, node: u8, owner: usize, turn: usize, part: Part) -> Carried {
        let Some(told) = self.owners.turns[owner].get(turn - 1) else {
            return Carried::Unsent;
        };
        let to = &mut self.nodes[usize::from(node)];
        let have = to.taken(owner, part);
        if turn <= have {
            return Carried::Repeat { have };
        }
        if turn > have + 1 {
            return Carried::Early { have };
        }
        to.take(owner, part, told);
        Carried::Applied
    }

    fn sync(&mut self) {
        for node in &mut self.nodes {
            for (owner, turns) in self.owners.turns.iter().enumerate() {
                for part in [Part::Table, Part::Fib] {
                    for turn in &turns[node.taken(owner, part)..] {
                        node.take(owner, part, turn);
                    }
                }
            }
        }
    }
}

// ---- rows

/// The fields of a row; those that it doesn't have are empty.
type Row<'a> = [&'a [u8]; 9];

struct Rows<'a> {
    rest: &'a [u8],
}

impl<'a> Rows<'a> {
    fn of(bytes: &'a [u8]) -> Rows<'a> {
        Rows { rest: bytes.strip_prefix(b"\xEF\xBB\xBF").unwrap_or(bytes) }
    }

    fn next(&mut self) -> Row<'a> {
        while let [b'\n' | b'\r', rest @ ..] = self.rest {
            self.rest = rest;
        }
        let mut row: Row = [b""; 9];
        for field in &mut row {
            let end =
                self.rest.iter().position(|octet| matches!(octet, b',' | b'\n' | b'\r')).unwrap_or(self.rest.len());
            *field = unquoted(&self.rest[..end]);
            let is_last = self.rest.get(end) != Some(&b',');
            self.rest = self.rest.get(end + 1..).unwrap_or(b"");
            if is_last {
                break;
            }
        }
        row
    }
}

fn unquoted(field: &[u8]) -> &[u8] {
    match field {
        [b'"', inner @ .., b'"'] => inner,
        _ => field,
    }
}

fn number(digits: &[u8]) -> u32 {
    digits.iter().fold(0, |value, digit| value * 10 + u32::from(digit - b'0'))
}

fn address(text: &[u8]) -> u32 {
    text.split(|&octet| octet == b'.').fold(0, |value, part| value << 8 | number(part))
}

fn key(fields: &[&[u8]]) -> Key {
    let upper = u128::from(address(fields[0])) << 72 | u128::from(address(fields[1])) << 40;
    upper | u128::from(number(fields[2])) << 24 | u128::from(number(fields[3])) << 8 | u128::from(number(fields[4]))
}

fn flow(fields: &[&[u8]]) -> Flow {
    let record = Record { teid: number(fields[6]), base: address(fields[7]) };
    Flow { key: key(fields), node: number(fields[5]) as u8, record }
}

// ---- a run

fn read_opening(rows: &mut Rows) -> (usize, usize, Vec<Flow>) {
    let [_, nodes, blocks, ..] = rows.next();
    let mut flows = Vec::new();
    loop {
        let row = rows.next();
        match row[0] {
            b"begin" => return (number(nodes) as usize, number(blocks) as usize, flows),
            b"flow" => flows.push(flow(&row[1..])),
            _ => panic!("no good input: neither a flow nor begin"),
        }
    }
}

fn put_carried(report: &mut Report, carried: Carried) {
    match carried {
        Carried::Applied => return report.end("carry applied"),
        Carried::Unsent => return report.end("carry refused unsent"),
        Carried::Repeat { have } => report.put(&[("carry repeat have ", have)]),
        Carried::Early { have } => report.put(&[("carry early have ", have)]),
    }
    report.end("");
}

fn run(cluster: &mut Cluster, rows: &mut Rows) -> Vec<u8> {
    let mut report = Report::default();
    loop {
        let row = rows.next();
        match row[0] {
            b"packet" => {
                let ingress = number(row[1]) as u8;
                report.packet(ingress, cluster.send(ingress, key(&row[2..])));
            }
            b"set" => {
                let Flow { key, node, record } = flow(&row[1..]);
                report.update("set", &cluster.owners.update(key, Some((node, record))));
            }
            b"del" => report.update("del", &cluster.owners.update(key(&row[1..]), None)),
            b"carry" => {
                let part = if row[4] == b"table" { Part::Table } else { Part::Fib };
                let (node, owner, turn) = (number(row[1]) as u8, number(row[2]) as usize, number(row[3]) as usize);
                put_carried(&mut report, cluster.carry(node, owner, turn, part));
            }
            b"sync" => cluster.sync(),
            b"end" => break,
            _ => panic!("no good input"),
        }
    }
    report.done();
    report.text
}

fn main() -> io::Result<()> {
    let mut bytes = Vec::new();
    io::stdin().lock().read_to_end(&mut bytes)?;
    let mut rows = Rows::of(&bytes);
    let (nodes, blocks, flows) = read_opening(&mut rows);
    let mut cluster = Cluster::open(nodes, blocks, &flows);
    drop(flows);
    let text = run(&mut cluster, &mut rows);
    io::stdout().lock().write_all(&text)
}
