//! Reads documents, plays replays, and repeats each call that reports out of memory.
use crate::record::Record;
use crate::steering::watched;
use clock_device::{ListSink, NoMemory};
use clock_setup::{Opening, OpeningFault, Setup, SetupFault, read_opening, read_setup};
use clock_sim::{
    PlayedReplay, Replay, Report, ScriptFault, SimFault, read_replay, report_text, simulate,
};
use clock_views::products_page;
use std::alloc::Global;

/// Adds a set-up to the record.
fn show_setup(alloc: Global, record: &mut Record, setup: &Setup) -> anyhow::Result<()> {
    let page = products_page(alloc, setup)?;
    record.push_bytes(page.as_slice())?;
    record.push_bytes(setup.operator.as_slice())?;
    for bidder in setup.bidders.as_slice() {
        record.push_bytes(bidder.name.as_slice())?;
        record.push_bytes(bidder.token.as_slice())?;
        record.push_number(bidder.eligibility)?;
    }
    Ok(())
}

/// Reads a set-up document, and again if the first call is out of memory.
pub fn play_setup(alloc: Global, record: &mut Record, document: &[u8]) -> anyhow::Result<()> {
    match watched(|| read_setup(alloc, document)) {
        Err(SetupFault::NoMemory) => record.refuse(true),
        first => return show_setup(alloc, record, &first?),
    }
    show_setup(alloc, record, &read_setup(alloc, document)?)
}

/// Adds an opening to the record.
fn show_opening(alloc: Global, record: &mut Record, opening: &Opening) -> anyhow::Result<()> {
    record.push_number(opening.increment)?;
    for bidder in 0..opening.setup.bidders.as_slice().len() {
        for product in 0..opening.setup.products.as_slice().len() {
            record.push_number(opening.grid.get(bidder, product))?;
        }
    }
    show_setup(alloc, record, &opening.setup)
}

/// Reads an opening document, and again if the first call is out of memory.
pub fn play_opening(alloc: Global, record: &mut Record, document: &[u8]) -> anyhow::Result<()> {
    match watched(|| read_opening(alloc, document)) {
        Err(OpeningFault::NoMemory) => record.refuse(true),
        first => return show_opening(alloc, record, &first?),
    }
    show_opening(alloc, record, &read_opening(alloc, document)?)
}

/// Adds the result of a replay to the record.
fn show_replay(alloc: Global, record: &mut Record, replay: &Replay) -> anyhow::Result<()> {
    let report = simulate(alloc, replay)?;
    record.push_bytes(report_text(alloc, &report)?.as_slice())
}

/// Reads a replay document, and again if the first call is out of memory.
pub fn play_replay(alloc: Global, record: &mut Record, document: &[u8]) -> anyhow::Result<()> {
    match watched(|| read_replay(alloc, document)) {
        Err(ScriptFault::NoMemory) => record.refuse(true),
        first => return show_replay(alloc, record, &first?),
    }
    show_replay(alloc, record, &read_replay(alloc, document)?)
}

/// Adds the text of a report to the record. Writes it again if the first call is out of memory.
fn show_report(alloc: Global, record: &mut Record, report: &Report) -> anyhow::Result<()> {
    match watched(|| report_text(alloc, report)) {
        Ok(text) => return record.push_bytes(text.as_slice()),
        Err(NoMemory) => record.refuse(true),
    }
    record.push_bytes(report_text(alloc, report)?.as_slice())
}

/// Plays the replay of a document, and again if the first call is out of memory.
pub fn play_simulation(alloc: Global, record: &mut Record, document: &[u8]) -> anyhow::Result<()> {
    let replay = read_replay(alloc, document)?;
    match watched(|| simulate(alloc, &replay)) {
        Err(SimFault::NoMemory) => record.refuse(true),
        first => return show_report(alloc, record, &first?),
    }
    show_report(alloc, record, &simulate(alloc, &replay)?)
}

/// Adds the text of the report of an auction that was played to its end.
fn show_played(alloc: Global, record: &mut Record, played: PlayedReplay) -> anyhow::Result<()> {
    let mut sink = ListSink::new(alloc, 100_000, 100, None)?;
    played.write(&mut sink)?;
    record.push_bytes(sink.bytes())
}

/// Plays the replay of a document as the program does, and again if the first call is out of
/// memory.
pub fn play_to_end(alloc: Global, record: &mut Record, document: &[u8]) -> anyhow::Result<()> {
    let replay = read_replay(alloc, document)?;
    match watched(|| clock_sim::play_replay(alloc, replay)) {
        Err(SimFault::NoMemory) => record.refuse(true),
        first => return show_played(alloc, record, first?),
    }
    let again = read_replay(alloc, document)?;
    show_played(alloc, record, clock_sim::play_replay(alloc, again)?)
}
