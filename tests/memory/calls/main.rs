//! Plays scenarios whose last calls are watched, with each allocation of these calls refused in
//! turn.
//!
//! The input is scenarios, separated by the byte 2. The parts of a scenario are separated by the
//! byte 1: its name, its kind, the processor if its kind has one, a document, and its steps. A call
//! that reports out of memory is repeated. The program prints a line for each scenario: its name,
//! its count of allocations, and what went wrong in which run.
#![tactic(auto)]

mod calls;
mod documents;
mod fronts;
mod houses;
mod hubs;
mod record;
mod steering;

use clock_processor::{Plain, Processor};
use clock_queue::Woken;
use record::Record;
use std::alloc::Global;
use std::io::Read;

/// The result of a scenario over all its runs.
#[derive(Drop)]
struct Counts {
    growths: u64,
    faults: String,
}

/// Plays a scenario of a house, a front or a hub.
fn play_with<P: Processor + Copy>(
    alloc: Global,
    record: &mut Record,
    processor: P,
    kind: &str,
    document: &str,
    rows: &[&str],
) -> anyhow::Result<()> {
    match kind {
        "house" => houses::play(alloc, record, processor, document, rows),
        "front" => fronts::play(alloc, record, processor, document, rows),
        "events" => hubs::play_events(alloc, record, processor, document, rows),
        _ => hubs::play_calls(alloc, record, processor, document, rows),
    }
}

/// Plays a scenario.
fn play(alloc: Global, record: &mut Record, parts: &[&str]) -> anyhow::Result<()> {
    match parts {
        ["setup", document] => documents::play_setup(alloc, record, document.as_bytes()),
        ["opening", document] => documents::play_opening(alloc, record, document.as_bytes()),
        ["replay", document] => documents::play_replay(alloc, record, document.as_bytes()),
        ["simulate", document] => documents::play_simulation(alloc, record, document.as_bytes()),
        ["play_replay", document] => documents::play_to_end(alloc, record, document.as_bytes()),
        [kind, "plain", document, rows @ ..] => {
            play_with(alloc, record, Plain, kind, document, rows)
        }
        [kind, _, document, rows @ ..] => play_with(alloc, record, Woken, kind, document, rows),
        _ => anyhow::bail!("no such scenario"),
    }
}

/// The record of a scenario with the allocation of this number refused.
fn played(alloc: Global, parts: &[&str], number: u64) -> anyhow::Result<Record> {
    let mut record = Record::new(alloc);
    steering::refuse(number);
    play(alloc, &mut record, parts)?;
    Ok(record)
}

/// What is wrong with a run in which `refused` allocations were refused.
fn fault_of(record: &Record, refused: u64, wanted: &Record) -> Option<&'static str> {
    if record.refusals() < refused {
        return Some("no call reported out of memory");
    }
    if record.refusals() > refused {
        return Some("more than one call reported out of memory");
    }
    if !record.is_clean() {
        return Some("a call that was out of memory reported it wrongly, or changed something");
    }
    if record.text() != wanted.text() {
        return Some("the last result differs");
    }
    None
}

/// Plays a scenario with each allocation refused, and once with the number after the last.
fn play_each(alloc: Global, parts: &[&str]) -> anyhow::Result<Counts> {
    let wanted = played(alloc, parts, 0)?;
    let growths = steering::growths();
    let mut faults = String::new(alloc);
    for number in 1..=growths + 1 {
        let refused = u64::from(number <= growths);
        match played(alloc, parts, number) {
            Ok(record) => {
                if let Some(fault) = fault_of(&record, refused, &wanted) {
                    faults.push_str(format!(in alloc; "; allocation {number}: {fault}")?.as_str())?;
                }
            }
            Err(fault) => faults.push_str(format!(in alloc;
                "; allocation {number}: {fault}"
            )?.as_str())?,
        }
    }
    Ok(Counts { growths, faults })
}

fn main(rt: HostRuntime) -> anyhow::Result<()> {
    let alloc = rt.alloc();
    let mut input = String::new(alloc);
    rt.stdin().read_to_string(&mut input)?;
    for scenario in input.as_str().split('\u{2}') {
        let mut parts = Vec::new(alloc);
        for part in scenario.split('\u{1}') {
            parts.push(part)?;
        }
        let Some((name, parts)) = parts.as_slice().split_first() else {
            anyhow::bail!("no such scenario");
        };
        let counts = play_each(alloc, parts)?;
        println!(rt; "{}\t{}\t{}", name, counts.growths, counts.faults)?;
    }
    Ok(())
}
