//! Feeds groups of requests to a hub in pieces, all groups one after the other, nine times. Prints for each group its
//! name, the number of requests, the nanoseconds that all took, and the number of replies that were not 200 OK.
//! Uses: clock_front clock_bodies clock_queue clock_views clock_house clock_posting clock_processor clock_order clock_bids clock_setup clock_money clock_device anyhow
//!
//! The input is parts with a byte 1 between them: a set-up document, and groups. A group is its name, the bytes of a
//! piece, the connections over which requests are fed in turn, and its requests, with a byte 0 between them.
#![tactic(auto)]

use clock_front::{Conn, Fed, Front, Hub, HubFault};
use clock_processor::Processor;
use clock_queue::Woken;
use clock_setup::read_setup;
use std::alloc::Global;
use std::io::Read;
use std::slice;
use std::time::{Clock, Instant};

/// The number of times that all groups are fed.
const TAKES: usize = 9;

/// Opens `count` connections.
fn connect_all<P: Processor>(
    alloc: Global,
    hub: &mut Hub<P>,
    count: usize,
) -> anyhow::Result<Vec<Conn>> {
    let mut conns = Vec::new(alloc);
    for _text in 0..count {
        conns.push(hub.connect()?)?;
    }
    Ok(conns)
}

/// Feeds one piece. Returns whether there is a reply that is not 200 OK.
#[inline(always)]
fn feed_piece<P: Processor>(hub: &mut Hub<P>, conn: Conn, piece: &[u8]) -> Result<bool, HubFault> {
    match hub.feed(conn, piece)? {
        Fed::More => Ok(false),
        Fed::Reply(reply) => Ok(!reply.bytes().starts_with(b"HTTP/1.1 200")),
    }
}

/// Feeds a request over a connection of its own byte by byte. Returns whether there is a reply that is not 200 OK. It
/// is a function of its own, so that its loop has the registers to itself.
#[inline(never)]
fn feed_bytes<P: Processor>(hub: &mut Hub<P>, text: &str) -> Result<bool, HubFault> {
    let conn = hub.connect()?;
    for byte in text.as_bytes() {
        if feed_piece(hub, conn, slice::from_ref(byte))? {
            return Ok(true);
        }
    }
    Ok(false)
}

/// Feeds a request over a connection of its own. Returns whether there is a reply that is not 200 OK.
fn feed_alone<P: Processor>(hub: &mut Hub<P>, text: &str, size: usize) -> Result<bool, HubFault> {
    if size == 1 {
        return feed_bytes(hub, text);
    }
    let conn = hub.connect()?;
    for piece in text.as_bytes().chunks(size.max(1)) {
        if feed_piece(hub, conn, piece)? {
            return Ok(true);
        }
    }
    Ok(false)
}

/// The piece of a text at an index.
fn piece_at(text: &str, place: usize, size: usize) -> Option<&[u8]> {
    let bytes = text.as_bytes();
    bytes.get(place..place.saturating_add(size).min(bytes.len()))
}

/// Feeds the next piece of each request that has one, and counts the replies that are not 200 OK.
fn feed_turn<P: Processor>(
    hub: &mut Hub<P>,
    conns: &[Conn],
    texts: &[&str],
    place: usize,
    size: usize,
) -> Result<u64, HubFault> {
    let mut others = 0u64;
    for (conn, text) in conns.iter().zip(texts) {
        if let Some(piece) = piece_at(text, place, size) {
            if !piece.is_empty() && feed_piece(hub, *conn, piece)? {
                others = others.saturating_add(1);
            }
        }
    }
    Ok(others)
}

/// The length of the longest text.
fn longest(texts: &[&str]) -> usize {
    let mut length = 0;
    for text in texts {
        length = length.max(text.len());
    }
    length
}

/// Feeds requests in turn, each over a connection of its own.
fn feed_together<P: Processor>(
    alloc: Global,
    hub: &mut Hub<P>,
    texts: &[&str],
    size: usize,
) -> anyhow::Result<u64> {
    let conns = connect_all(alloc, hub, texts.len())?;
    let mut others = 0u64;
    for place in (0..longest(texts)).step_by(size.max(1)) {
        others = others.saturating_add(feed_turn(hub, conns.as_slice(), texts, place, size)?);
    }
    Ok(others)
}

/// Feeds requests over `together` connections at a time.
fn feed_all<P: Processor>(
    alloc: Global,
    hub: &mut Hub<P>,
    texts: &[&str],
    size: usize,
    together: usize,
) -> anyhow::Result<u64> {
    let mut others = 0u64;
    if together == 1 {
        for text in texts {
            others = others.saturating_add(u64::from(feed_alone(hub, text, size)?));
        }
        return Ok(others);
    }
    for some in texts.chunks(together.max(1)) {
        others = others.saturating_add(feed_together(alloc, hub, some, size)?);
    }
    Ok(others)
}

/// The parts of a group.
fn parts_of<'a>(alloc: Global, group: &'a str) -> anyhow::Result<Vec<&'a str>> {
    let mut parts = Vec::new(alloc);
    for part in group.split('\0') {
        parts.push(part)?;
    }
    Ok(parts)
}

/// Feeds the requests of a group, and prints its figures.
fn play<R: Print + Clock, P: Processor>(
    rt: &R,
    alloc: Global,
    hub: &mut Hub<P>,
    group: &str,
) -> anyhow::Result<()> {
    let parts = parts_of(alloc, group)?;
    if let [name, size, together, texts @ ..] = parts.as_slice() {
        let size = size.parse::<usize>()?;
        let together = together.parse::<usize>()?;
        let begin = Instant::now(rt)?;
        let others = feed_all(alloc, hub, texts, size, together)?;
        let spent = begin.elapsed(rt)?;
        println!(rt; "{name}\t{}\t{}\t{others}", texts.len(), spent.as_nanos())?;
    }
    Ok(())
}

/// Feeds the groups one after the other.
fn play_all<R: Print + Clock, P: Processor>(
    rt: &R,
    alloc: Global,
    hub: &mut Hub<P>,
    groups: &[&str],
) -> anyhow::Result<()> {
    for group in groups {
        play(rt, alloc, hub, group)?;
    }
    Ok(())
}

/// Opens a front for a set-up document.
fn opened(alloc: Global, document: &str) -> anyhow::Result<Front<Woken>> {
    let setup = read_setup(alloc, document.as_bytes())?;
    Ok(Front::new(alloc, setup, Woken)?)
}

/// Feeds the groups of an input. Only here is a hub dropped, since each function that drops one is proved at length.
fn play_input<R: Print + Clock>(rt: &R, alloc: Global, input: &[&str]) -> anyhow::Result<()> {
    let Some((document, groups)) = input.split_first() else {
        return Ok(());
    };
    if groups.is_empty() {
        return Ok(());
    }
    let mut hub = Hub::new(alloc, opened(alloc, document)?);
    for _take in 0..TAKES {
        play_all(rt, alloc, &mut hub, groups)?;
    }
    Ok(())
}

fn main(rt: HostRuntime) -> anyhow::Result<()> {
    let alloc = rt.alloc();
    let mut input = String::new(alloc);
    rt.stdin().read_to_string(&mut input)?;
    let parts: Vec<&str> = input.as_str().split('\u{1}').collect(alloc)?;
    play_input(&rt, alloc, parts.as_slice())
}
