//! Plays requests that arrive in pieces, as a list of events and by the calls of a hub.
//!
//! All calls are watched.
use crate::calls::Calls;
use crate::fronts::opened;
use crate::record::{Record, is_refusal};
use crate::steering::watched;
use clock_device::{Items, NoMemory, Text};
use clock_front::{Event, EventReplies, EventReply, run_events};
use clock_processor::Processor;
use clock_setup::read_setup;
use std::alloc::Global;

/// The event of a row: `connect`, `finish NUMBER`, or `piece NUMBER TEXT`.
fn event_of(alloc: Global, row: &str) -> anyhow::Result<Event> {
    let (word, rest) = row.split_once(" ").unwrap_or((row, ""));
    match word {
        "connect" => Ok(Event::Connect),
        "finish" => Ok(Event::Finish(rest.parse::<u64>()?)),
        _ => {
            let (number, text) = rest.split_once(" ").unwrap_or((rest, ""));
            Ok(Event::Piece(
                number.parse::<u64>()?,
                Text::from_slice(alloc, text.as_bytes())?,
            ))
        }
    }
}

/// The events of rows.
fn events_of(alloc: Global, rows: &[&str]) -> anyhow::Result<Items<Event>> {
    let mut events = Items::new(alloc);
    for row in rows {
        events.push(event_of(alloc, row)?)?;
    }
    Ok(events)
}

/// The events without those of one connection's request.
fn without(alloc: Global, events: &[Event], left_out: u64) -> anyhow::Result<Items<Event>> {
    let mut others = Items::new(alloc);
    for event in events {
        match event {
            Event::Connect => others.push(Event::Connect)?,
            Event::Piece(number, piece) => {
                if *number != left_out {
                    others.push(Event::Piece(*number, piece.copy(alloc)?))?;
                }
            }
            Event::Finish(number) => {
                if *number != left_out {
                    others.push(Event::Finish(*number))?;
                }
            }
        }
    }
    Ok(others)
}

fn is_same(one: &EventReply, other: &EventReply) -> bool {
    one.number == other.number && one.reply.bytes() == other.reply.bytes()
}

/// Whether the replies without the one of a connection are the other replies.
fn are_same_else(replies: &[EventReply], left_out: u64, others: &[EventReply]) -> bool {
    let rest = replies.iter().filter(|one| one.number != left_out);
    replies.len() == others.len().saturating_add(1)
        && rest.zip(others).all(|(one, other)| is_same(one, other))
}

/// The replies to events.
fn replies_to<P: Processor>(
    alloc: Global,
    processor: P,
    document: &str,
    events: &[Event],
) -> anyhow::Result<EventReplies> {
    let setup = read_setup(alloc, document.as_bytes())?;
    Ok(run_events(alloc, setup, processor, events)?)
}

/// Notes each out-of-memory reply. All other replies must be as if that request had not arrived.
fn note_refusals<P: Processor + Copy>(
    alloc: Global,
    record: &mut Record,
    processor: P,
    document: &str,
    events: &[Event],
    replies: &EventReplies,
) -> anyhow::Result<()> {
    for one in replies.as_slice() {
        if is_refusal(&one.reply) {
            let rest = without(alloc, events, one.number)?;
            let others = replies_to(alloc, processor, document, rest.as_slice())?;
            let are_same = are_same_else(replies.as_slice(), one.number, others.as_slice());
            record.refuse_by(&one.reply, are_same);
        }
    }
    Ok(())
}

/// Plays a list of events, and again if the call or one of its replies is out of memory.
pub fn play_events<P: Processor + Copy>(
    alloc: Global,
    record: &mut Record,
    processor: P,
    document: &str,
    rows: &[&str],
) -> anyhow::Result<()> {
    let events = events_of(alloc, rows)?;
    let events = events.as_slice();
    let setup = read_setup(alloc, document.as_bytes())?;
    let mut shown = watched(|| run_events(alloc, setup, processor, events));
    match &shown {
        Err(NoMemory) => record.refuse(true),
        Ok(replies) => note_refusals(alloc, record, processor, document, events, replies)?,
    }
    if record.refusals() > 0 {
        shown = Ok(replies_to(alloc, processor, document, events)?);
    }
    for one in shown?.as_slice() {
        record.push_number(one.number)?;
        record.push_bytes(one.reply.bytes())?;
    }
    Ok(())
}

/// Plays a list of events by the calls of a hub.
pub fn play_calls<P: Processor>(
    alloc: Global,
    record: &mut Record,
    processor: P,
    document: &str,
    rows: &[&str],
) -> anyhow::Result<()> {
    let events = events_of(alloc, rows)?;
    let front = opened(alloc, processor, document)?;
    let mut calls = Calls::new(alloc, front)?;
    for event in events.as_slice() {
        calls.take(record, event)?;
    }
    calls.tell(record)
}
