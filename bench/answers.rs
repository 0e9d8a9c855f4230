//! Answers groups of requests. Prints for each group its name, the number of requests, the nanoseconds that all answers
//! took, and the number of replies that were not 200 OK.
//! Uses: clock_front clock_bodies clock_queue clock_views clock_house clock_posting clock_processor clock_order clock_bids clock_setup clock_money clock_device anyhow
//!
//! The input is parts with a byte 1 between them: the processor's name, a set-up document, and groups. A group is its
//! name and its requests, with a byte 0 between them.
#![tactic(auto)]

use clock_front::Front;
use clock_processor::{Plain, Processor};
use clock_queue::Woken;
use clock_setup::read_setup;
use std::alloc::Global;
use std::io::Read;
use std::time::{Clock, Instant};

/// Answers requests in turn, and counts the replies that are not 200 OK.
fn answer_all<P: Processor>(front: &mut Front<P>, texts: &[&str]) -> u64 {
    let mut others = 0u64;
    for text in texts {
        let reply = front.answer(text.as_bytes());
        if !reply.bytes().starts_with(b"HTTP/1.1 200") {
            others = others.saturating_add(1);
        }
    }
    others
}

/// The name of a group and its requests.
fn texts_of<'a>(alloc: Global, group: &'a str) -> anyhow::Result<Vec<&'a str>> {
    let mut texts = Vec::new(alloc);
    for text in group.split('\0') {
        texts.push(text)?;
    }
    Ok(texts)
}

/// Answers the requests of a group, and prints its figures.
fn play<R: Print + Clock, P: Processor>(
    rt: &R,
    alloc: Global,
    front: &mut Front<P>,
    group: &str,
) -> anyhow::Result<()> {
    let pieces = texts_of(alloc, group)?;
    if let Some((name, texts)) = pieces.as_slice().split_first() {
        let begin = Instant::now(rt)?;
        let others = answer_all(front, texts);
        let spent = begin.elapsed(rt)?;
        println!(rt; "{name}\t{}\t{}\t{others}", texts.len(), spent.as_nanos())?;
    }
    Ok(())
}

/// Opens a front for a set-up document, and answers the groups.
fn play_all<R: Print + Clock, P: Processor>(
    rt: &R,
    alloc: Global,
    processor: P,
    document: &str,
    groups: &[&str],
) -> anyhow::Result<()> {
    let setup = read_setup(alloc, document.as_bytes())?;
    let mut front = Front::new(alloc, setup, processor)?;
    for group in groups {
        play(rt, alloc, &mut front, group)?;
    }
    Ok(())
}

fn main(rt: HostRuntime) -> anyhow::Result<()> {
    let alloc = rt.alloc();
    let mut input = String::new(alloc);
    rt.stdin().read_to_string(&mut input)?;
    let mut parts = Vec::new(alloc);
    for part in input.as_str().split('\u{1}') {
        parts.push(part)?;
    }
    match parts.as_slice() {
        ["plain", document, groups @ ..] => play_all(&rt, alloc, Plain, document, groups),
        ["woken", document, groups @ ..] => play_all(&rt, alloc, Woken, document, groups),
        _ => Ok(()),
    }
}
