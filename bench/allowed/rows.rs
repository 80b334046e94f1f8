//! What the rows of a storm say, or the first bad one.

use std::collections::HashSet;

use super::csv::{Row, Rows};
use crate::plain::flows::{Flow, Key, Record};

const MOST_SYNCS: usize = 255;

/// A row that breaks a rule, or is missing, with the word for it.
pub struct BadRow {
    pub row: usize,
    pub why: &'static str,
}

pub enum Event {
    /// Sets a key's flow or deletes it.
    Update {
        key: Key,
        to: Option<(u8, Record)>,
    },
    Packet {
        ingress: u8,
        key: Key,
    },
    Sync,
}

/// What the rows up to `begin` say.
pub struct Opening {
    pub nodes: usize,
    pub blocks: usize,
    pub flows: Vec<Flow>,
}

/// Why a row is bad.
type Why = &'static str;

/// Reads all rows.
pub fn read(bytes: &[u8]) -> Result<(Opening, Vec<Event>), BadRow> {
    let mut reader = Reader { rows: Rows::of(bytes), row: Row::default(), number: 0 };
    let opening = reader.opening()?;
    let script = reader.script(opening.nodes)?;
    Ok((opening, script))
}

struct Reader<'a> {
    rows: Rows<'a>,
    /// The row at hand, and its number from 1.
    row: Row,
    number: usize,
}

impl Reader<'_> {
    /// Goes to the next row; one past the last row is bad for this reason.
    fn next(&mut self, missing: Why) -> Result<(), BadRow> {
        self.number += 1;
        if self.rows.next(&mut self.row) {
            Ok(())
        } else {
            Err(self.bad(missing))
        }
    }

    fn bad(&self, why: Why) -> BadRow {
        BadRow { row: self.number, why }
    }

    fn opening(&mut self) -> Result<Opening, BadRow> {
        self.next("NoBegin")?;
        let (nodes, blocks) = shape(&self.row).map_err(|why| self.bad(why))?;
        let mut flows = Vec::new();
        let mut keys = HashSet::new();
        loop {
            self.next("NoBegin")?;
            match self.row.field(0) {
                b"flow" => flows.push(new_flow(&self.row, nodes, &mut keys).map_err(|why| self.bad(why))?),
                b"begin" => {
                    has_fields(&self.row, 1).map_err(|why| self.bad(why))?;
                    return Ok(Opening { nodes, blocks, flows });
                }
                _ => return Err(self.bad("Kind")),
            }
        }
    }

    fn script(&mut self, nodes: usize) -> Result<Vec<Event>, BadRow> {
        let mut script = Vec::new();
        let mut syncs = 0;
        loop {
            self.next("NoEnd")?;
            let Some(event) = event(&self.row, nodes).map_err(|why| self.bad(why))? else {
                break;
            };
            if matches!(event, Event::Sync) {
                syncs += 1;
                if syncs > MOST_SYNCS {
                    return Err(self.bad("TooManyPhases"));
                }
            }
            script.push(event);
        }
        self.number += 1;
        if self.rows.next(&mut self.row) {
            return Err(self.bad("AfterEnd"));
        }
        Ok(script)
    }
}

fn shape(row: &Row) -> Result<(usize, usize), Why> {
    if row.field(0) != b"cluster" {
        return Err("Kind");
    }
    has_fields(row, 3)?;
    let (nodes, blocks) = (number(row.field(1), 16)?, number(row.field(2), 256)?);
    if nodes < 2 || blocks < 1 {
        return Err("Number");
    }
    Ok((nodes as usize, blocks as usize))
}

fn new_flow(row: &Row, nodes: usize, keys: &mut HashSet<Key>) -> Result<Flow, Why> {
    let flow = flow(row, nodes)?;
    if keys.insert(flow.key) {
        Ok(flow)
    } else {
        Err("Duplicate")
    }
}

/// The event that a row says; none at `end`.
fn event(row: &Row, nodes: usize) -> Result<Option<Event>, Why> {
    Ok(Some(match row.field(0) {
        b"set" => {
            let Flow { key, node, record } = flow(row, nodes)?;
            Event::Update { key, to: Some((node, record)) }
        }
        b"del" => {
            has_fields(row, 6)?;
            Event::Update { key: key(row, 1)?, to: None }
        }
        b"packet" => {
            has_fields(row, 7)?;
            Event::Packet { ingress: node(row.field(1), nodes)?, key: key(row, 2)? }
        }
        b"carry" => return Err("CarryInStorm"),
        b"sync" => {
            has_fields(row, 1)?;
            Event::Sync
        }
        b"end" => {
            has_fields(row, 1)?;
            return Ok(None);
        }
        _ => return Err("Kind"),
    }))
}

fn has_fields(row: &Row, count: usize) -> Result<(), Why> {
    if row.len() == count {
        Ok(())
    } else {
        Err("Fields")
    }
}

fn flow(row: &Row, nodes: usize) -> Result<Flow, Why> {
    has_fields(row, 9)?;
    let (key, node) = (key(row, 1)?, node(row.field(6), nodes)?);
    let record = Record { teid: number(row.field(7), u32::MAX)?, base: address(row.field(8))? };
    Ok(Flow { key, node, record })
}

/// The key of the five fields from this one on.
fn key(row: &Row, first: usize) -> Result<Key, Why> {
    let (source, destination) = (address(row.field(first))?, address(row.field(first + 1))?);
    let (source_port, destination_port) =
        (number(row.field(first + 2), 65_535)?, number(row.field(first + 3), 65_535)?);
    let protocol = number(row.field(first + 4), 255)?;
    let addresses = u128::from(source) << 72 | u128::from(destination) << 40;
    Ok(addresses | u128::from(source_port) << 24 | u128::from(destination_port) << 8 | u128::from(protocol))
}

fn node(text: &[u8], nodes: usize) -> Result<u8, Why> {
    let node = number(text, 255)? as u8;
    if usize::from(node) < nodes {
        Ok(node)
    } else {
        Err("Node")
    }
}

fn address(text: &[u8]) -> Result<u32, Why> {
    let mut parts = text.split(|&octet| octet == b'.');
    let mut address = 0;
    for _ in 0..4 {
        let part = parts.next().ok_or("Address")?;
        address = address << 8 | number(part, 255).map_err(|_| "Address")?;
    }
    match parts.next() {
        None => Ok(address),
        Some(_) => Err("Address"),
    }
}

/// The number that decimal digits without a leading zero say, if it is at most `max`.
fn number(text: &[u8], max: u32) -> Result<u32, Why> {
    if text.is_empty() || text.len() > 1 && text[0] == b'0' || !text.iter().all(u8::is_ascii_digit) {
        return Err("Number");
    }
    let add = |value: u64, digit: &u8| (value * 10 + u64::from(digit - b'0')).min(u64::from(u32::MAX) + 1);
    u32::try_from(text.iter().fold(0, add)).ok().filter(|&value| value <= max).ok_or("Number")
}
