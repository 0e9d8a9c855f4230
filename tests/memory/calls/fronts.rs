//! Plays scenarios of a front. The reply to the last text is watched, or `Front::new` if there is
//! no text.
use crate::houses::{still_tells, told_by};
use crate::record::{Record, is_refusal};
use crate::steering::watched;
use clock_device::NoMemory;
use clock_front::Front;
use clock_processor::Processor;
use clock_setup::read_setup;
use std::alloc::Global;

/// Makes a front for the set-up of a document.
pub fn opened<P: Processor>(
    alloc: Global,
    processor: P,
    document: &str,
) -> anyhow::Result<Front<P>> {
    let setup = read_setup(alloc, document.as_bytes())?;
    Ok(Front::new(alloc, setup, processor)?)
}

/// Makes a front, watched. Reads the set-up and makes it again if the first call is out of memory.
fn opened_at_last<P: Processor + Copy>(
    alloc: Global,
    record: &mut Record,
    processor: P,
    document: &str,
) -> anyhow::Result<Front<P>> {
    let setup = read_setup(alloc, document.as_bytes())?;
    match watched(|| Front::new(alloc, setup, processor)) {
        Ok(front) => return Ok(front),
        Err(NoMemory) => record.refuse(true),
    }
    opened(alloc, processor, document)
}

/// Answers the last text, watched, and again if the first reply is out of memory.
fn answer_last<P: Processor>(
    alloc: Global,
    record: &mut Record,
    front: &mut Front<P>,
    text: &str,
) -> anyhow::Result<()> {
    let before = told_by(alloc, front.house())?;
    let reply = watched(|| front.answer(text.as_bytes()));
    if !is_refusal(&reply) {
        return record.push_bytes(reply.bytes());
    }
    record.refuse_by(&reply, still_tells(alloc, front.house(), &before)?);
    record.push_bytes(front.answer(text.as_bytes()).bytes())
}

/// Plays a scenario of a front.
pub fn play<P: Processor + Copy>(
    alloc: Global,
    record: &mut Record,
    processor: P,
    document: &str,
    texts: &[&str],
) -> anyhow::Result<()> {
    let front = match texts.split_last() {
        None => opened_at_last(alloc, record, processor, document)?,
        Some((last, before)) => {
            let mut front = opened(alloc, processor, document)?;
            for text in before {
                let reply = front.answer(text.as_bytes());
                anyhow::ensure!(!is_refusal(&reply), "out of memory without a refusal");
                record.push_bytes(reply.bytes())?;
            }
            answer_last(alloc, record, &mut front, last)?;
            front
        }
    };
    record.push_bytes(told_by(alloc, front.house())?.as_slice())
}
