//! Whether an output is one that `scalebricks storm` may have for some rows, whatever the order of its threads' steps.
//!
//!   check_storm LANES ROWS [OUTPUT]            says `allowed`, status 0, or the first line that is wrong and why, status 1
//!   check_storm --simulate SEED LANES ROWS     prints an output that is allowed, by an order of steps that the seed draws,
//!                                              or the refusal, status 1
//!
//! ROWS and OUTPUT are files; the output is else read from standard input. Behind `allowed` stand the numbers of packets,
//! of those whose group changes in their phase, of those that met a version which is neither the phase's first nor its
//! last, and of those that met two versions.
//!
//! It judges by the model, and knows no threads. Updates are answered in the script's order, and refused rows and blocks are
//! those of storm's mode. A packet's versions are versions that its key's group has in its phase; its node and its record are
//! those that the group's map and canonical record of these versions give; and what a lane has seen of an owner at a node
//! never goes back: for each lane, node and owner there is a number of turns, for tables and for FIBs each, that never falls
//! and of which exactly as many are of the packet's group as the version says.
//!
//! Nothing of it is proved, and it takes nothing of the crates.

use std::io::{self, Read, Write};
use std::process::ExitCode;
use std::{env, fs};

use allowed::rows::{self, Event, Opening};
use allowed::simulating::simulated;
use allowed::versions::Versions;
use allowed::walking::{Figures, Lines, Walk, Wrong};
use plain::owners::BlockRefused;

mod allowed;
mod plain;

const MOST_OCTETS: usize = 67_108_864;

fn main() -> io::Result<ExitCode> {
    let words: Vec<_> = env::args().skip(1).collect();
    match words.iter().map(String::as_str).collect::<Vec<_>>()[..] {
        ["--simulate", seed, lanes, rows] => {
            let (Ok(seed), Some(lanes)) = (seed.parse(), lanes_of(lanes)) else {
                return Ok(usage());
            };
            simulate(seed, lanes, &fs::read(rows)?)
        }
        [lanes, rows, ref output @ ..] if output.len() < 2 => {
            let Some(lanes) = lanes_of(lanes) else {
                return Ok(usage());
            };
            let rows = fs::read(rows)?;
            let output = output.first().map_or_else(read_input, fs::read)?;
            Ok(tell(check(lanes, &rows, &output)))
        }
        _ => Ok(usage()),
    }
}

fn usage() -> ExitCode {
    eprintln!("check_storm LANES ROWS [OUTPUT]\ncheck_storm --simulate SEED LANES ROWS");
    ExitCode::from(2)
}

fn lanes_of(word: &str) -> Option<usize> {
    word.parse().ok().filter(|lanes| (1..=8).contains(lanes))
}

fn read_input() -> io::Result<Vec<u8>> {
    let mut bytes = Vec::new();
    io::stdin().lock().read_to_end(&mut bytes)?;
    Ok(bytes)
}

fn tell(checked: Result<Figures, Wrong>) -> ExitCode {
    match checked {
        Ok(Figures { packets, racing, between, apart }) => {
            println!("allowed packets {packets} racing {racing} between {between} apart {apart}");
            ExitCode::SUCCESS
        }
        Err(Wrong { line, why }) => {
            println!("line {line}: {why}");
            ExitCode::FAILURE
        }
    }
}

/// The line that is all that an input prints which is refused.
type Refusal = String;

fn read(rows: &[u8]) -> Result<(Opening, Vec<Event>), Refusal> {
    rows::read(rows).map_err(|bad| format!("refused row {} {}\n", bad.row, bad.why))
}

fn versions_of(opening: &Opening, script: &[Event]) -> Result<Versions, Refusal> {
    Versions::of(opening, script).map_err(refusal_of)
}

fn refusal_of(bad: BlockRefused) -> Refusal {
    format!("refused block {} {}\n", bad.block, bad.why)
}

fn check(lanes: usize, rows: &[u8], output: &[u8]) -> Result<Figures, Wrong> {
    if rows.len() > MOST_OCTETS {
        return is_line(output, "");
    }
    match read(rows).and_then(|(opening, script)| Ok((versions_of(&opening, &script)?, script))) {
        Ok((versions, script)) => Walk::new(&versions, lanes).over(&script, output),
        Err(refusal) => is_line(output, &refusal),
    }
}

/// Whether the output is one line, or nothing.
fn is_line(output: &[u8], line: &str) -> Result<Figures, Wrong> {
    let mut lines = Lines::of(output);
    if !line.is_empty() {
        lines.next_is(line.as_bytes())?;
    }
    lines.end()?;
    Ok(Figures::default())
}

fn simulate(seed: u64, lanes: usize, rows: &[u8]) -> io::Result<ExitCode> {
    let output = read(rows).and_then(|(opening, script)| simulated(&opening, &script, lanes, seed).map_err(refusal_of));
    let (Ok(text) | Err(text)) = &output.as_deref().map_err(String::as_bytes);
    io::stdout().lock().write_all(text)?;
    Ok(if output.is_ok() { ExitCode::SUCCESS } else { ExitCode::FAILURE })
}
