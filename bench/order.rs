//! Times the order of processing: 500,000 changes with 16,384 tie-breaking numbers.
//! Uses: clock_order clock_setup clock_terms clock_money clock_device anyhow
#![tactic(auto)]

use clock_money::Point;
use clock_order::{Tie, Ties, ordered};
use clock_setup::read_setup;
use clock_terms::{Change, Changes, Kind};
use std::alloc::Global;
use std::io::Read;
use std::time::Instant;

/// Changes of 500 bidders for 1,000 products each, at scattered price points.
fn changes(alloc: Global) -> anyhow::Result<Changes> {
    let mut changes = Changes::new(alloc);
    for bidder in 0..500u32 {
        for product in 0..1000u32 {
            let span = 10 + (product % 7) as u64;
            let price = 100 + (bidder as u64 * 31 + product as u64 * 17) % (span + 1);
            changes.push(Change {
                bidder,
                product,
                place: 0,
                kind: Kind::Reduction,
                amount: 1,
                price,
                point: Point::of(100, price, 100 + span).unwrap(),
            })?;
        }
    }
    Ok(changes)
}

/// The most tie-breaking numbers that a closing can list.
fn ties(alloc: Global) -> anyhow::Result<Vec<Tie>> {
    let mut ties = Vec::new(alloc);
    for i in 0..16_384u64 {
        ties.push(Tie {
            bidder: i % 512,
            product: i / 512,
            number: (i * 7919) % 16_384,
        })?;
    }
    Ok(ties)
}

fn main(rt: HostRuntime) -> anyhow::Result<()> {
    let alloc = rt.alloc();
    let mut text = Vec::new(alloc);
    rt.stdin().read_to_end(&mut text)?;
    let setup = read_setup(alloc, text.as_slice())?;
    let listed = ties(alloc)?;
    let begin = Instant::now(&rt)?;
    let ties = Ties::new(alloc, &setup, listed.as_slice())?;
    println!(rt; "Ties::new: {} ties in {} us", listed.len(), begin.elapsed(&rt)?.as_micros())?;
    let changes = changes(alloc)?;
    let begin = Instant::now(&rt)?;
    let list = ordered(alloc, &changes, &ties)?;
    println!(rt; "ordered: {} changes in {} ms", list.as_slice().len(), begin.elapsed(&rt)?.as_millis())?;
    Ok(())
}
