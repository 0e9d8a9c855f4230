//! Plays scenarios of a house. The last step is watched, or `House::new` if there is no step.
use crate::record::Record;
use crate::steering::watched;
use clock_device::{NoMemory, Text};
use clock_front::{CloseBody, PutBody, read_close, read_put};
use clock_house::{CloseFault, House, PutFault};
use clock_processor::Processor;
use clock_setup::read_setup;
use clock_views::{bids_page, results_page, sheet_page, slip_page};
use std::alloc::Global;

/// Adds the pages of a bidder: its sheet in force, and its slips.
fn tell_bidder<P>(alloc: Global, told: &mut Text, house: &House<P>, bidder: u32) -> anyhow::Result<()> {
    told.extend_from_slice(bids_page(alloc, house.round(), house.bids(bidder))?.as_slice())?;
    for round in 0..house.round().saturating_add(2) {
        if let Some(slip) = house.slip(bidder, round) {
            told.extend_from_slice(slip_page(alloc, slip)?.as_slice())?;
        }
    }
    Ok(())
}

/// Adds the pages of the closed rounds.
fn tell_rounds<P>(alloc: Global, told: &mut Text, house: &House<P>) -> anyhow::Result<()> {
    for round in 0..house.round().saturating_add(2) {
        if let Some(sheet) = house.sheet(round) {
            told.extend_from_slice(sheet_page(alloc, house.setup(), sheet)?.as_slice())?;
        }
    }
    Ok(())
}

/// Everything that the reading calls of a house return, as pages.
pub fn told_by<P>(alloc: Global, house: &House<P>) -> anyhow::Result<Text> {
    let mut told = results_page(alloc, house)?;
    tell_rounds(alloc, &mut told, house)?;
    for bidder in 0..house.setup().bidders.as_slice().len() {
        tell_bidder(alloc, &mut told, house, bidder as u32)?;
    }
    Ok(told)
}

/// Whether the reading calls still return what they returned before.
pub fn still_tells<P>(alloc: Global, house: &House<P>, before: &Text) -> anyhow::Result<bool> {
    Ok(told_by(alloc, house)?.as_slice() == before.as_slice())
}

/// A step of a house: a bidder's sheet, or a closing.
#[derive(Drop)]
enum Step {
    Put(u32, PutBody),
    Close(CloseBody),
}

/// The step of a row: `close BODY`, or a bidder's number and the body of its sheet.
fn step_of(alloc: Global, row: &str) -> anyhow::Result<Step> {
    let (word, body) = row.split_once(" ").unwrap_or((row, ""));
    if word == "close" {
        return Ok(Step::Close(read_close(alloc, body.as_bytes())?));
    }
    Ok(Step::Put(word.parse::<u32>()?, read_put(alloc, body.as_bytes())?))
}

/// The result of a step.
#[derive(Clone, Copy, PartialEq, Eq)]
enum Answer {
    Done,
    Put(PutFault),
    Close(CloseFault),
}

impl Answer {
    fn is_refusal(&self) -> bool {
        *self == Answer::Put(PutFault::NoMemory) || *self == Answer::Close(CloseFault::NoMemory)
    }
}

/// Makes the call for a step.
fn take<P: Processor>(house: &mut House<P>, step: &Step) -> Answer {
    match step {
        Step::Put(bidder, body) => match house.put_sheet(
            *bidder,
            body.round,
            body.bids.as_slice(),
        ) {
            Ok(()) => Answer::Done,
            Err(fault) => Answer::Put(fault),
        },
        Step::Close(body) => {
            match house.close(body.round, &body.increments, body.ties.as_slice()) {
                Ok(()) => Answer::Done,
                Err(fault) => Answer::Close(fault),
            }
        }
    }
}

/// Adds the result of a step to the record.
fn show(alloc: Global, record: &mut Record, answer: Answer) -> anyhow::Result<()> {
    match answer {
        Answer::Done => record.push("done"),
        Answer::Put(fault) => record.push(format!(in alloc; "{fault}")?.as_str()),
        Answer::Close(fault) => record.push(format!(in alloc; "{fault}")?.as_str()),
    }
}

/// Takes the last step, watched, and again if the first call is out of memory.
fn take_last<P: Processor>(
    alloc: Global,
    record: &mut Record,
    house: &mut House<P>,
    step: &Step,
) -> anyhow::Result<()> {
    let before = told_by(alloc, house)?;
    let first = watched(|| take(house, step));
    if !first.is_refusal() {
        return show(alloc, record, first);
    }
    record.refuse(still_tells(alloc, house, &before)?);
    let second = take(house, step);
    show(alloc, record, second)
}

/// Makes a house, watched. Reads the set-up and makes it again if the first call is out of memory.
fn opened<P: Processor + Copy>(
    alloc: Global,
    record: &mut Record,
    processor: P,
    document: &str,
) -> anyhow::Result<House<P>> {
    let setup = read_setup(alloc, document.as_bytes())?;
    match watched(|| House::new(alloc, setup, processor)) {
        Ok(house) => return Ok(house),
        Err(NoMemory) => record.refuse(true),
    }
    let setup = read_setup(alloc, document.as_bytes())?;
    Ok(House::new(alloc, setup, processor)?)
}

/// Plays a scenario of a house.
pub fn play<P: Processor + Copy>(
    alloc: Global,
    record: &mut Record,
    processor: P,
    document: &str,
    rows: &[&str],
) -> anyhow::Result<()> {
    let house = match rows.split_last() {
        None => opened(alloc, record, processor, document)?,
        Some((last, before)) => {
            let setup = read_setup(alloc, document.as_bytes())?;
            let mut house = House::new(alloc, setup, processor)?;
            for row in before {
                let answer = take(&mut house, &step_of(alloc, row)?);
                show(alloc, record, answer)?;
            }
            take_last(alloc, record, &mut house, &step_of(alloc, last)?)?;
            house
        }
    };
    record.push_bytes(told_by(alloc, &house)?.as_slice())
}
