//! Times the checks and the requests of a full sheet: 8,192 bids, two for each of 4,096 products.
//! Uses: clock_bids clock_money clock_setup clock_device anyhow
#![tactic(auto)]

use clock_bids::{Bid, Own, changes_of, check_sheet};
use clock_money::Price;
use clock_setup::{Grid, PricePair, Prices, Setup, read_setup};
use std::alloc::Global;
use std::io::Read;
use std::time::Instant;

/// The prices of a round from 100 to 110, for each product.
fn prices(alloc: Global, setup: &Setup) -> anyhow::Result<Prices> {
    let mut prices = Prices::new(alloc);
    for _ in setup.products.as_slice() {
        let start = Price::new(100).unwrap();
        let clock = Price::new(110).unwrap();
        prices.push(PricePair { start, clock })?;
    }
    Ok(prices)
}

/// Two bids for each product: 1 block at 103 and 2 blocks at 107.
fn bids(alloc: Global, setup: &Setup) -> anyhow::Result<Vec<Bid>> {
    let mut bids = Vec::new(alloc);
    for (quantity, price) in [(1, 103), (2, 107)] {
        for product in 0..setup.products.as_slice().len() as u64 {
            bids.push(Bid { product, quantity, price })?;
        }
    }
    Ok(bids)
}

fn main(rt: HostRuntime) -> anyhow::Result<()> {
    let alloc = rt.alloc();
    let mut text = Vec::new(alloc);
    rt.stdin().read_to_end(&mut text)?;
    let begin = Instant::now(&rt)?;
    let setup = read_setup(alloc, text.as_slice())?;
    println!(rt; "read_setup: {} bytes in {} us", text.len(), begin.elapsed(&rt)?.as_micros())?;
    let prices = prices(alloc, &setup)?;
    let bids = bids(alloc, &setup)?;
    let grid = Grid::zero(alloc, &setup)?;
    let own = Own { round: 2, eligibility: 1_000_000_000_000, demands: grid.row(0) };
    let begin = Instant::now(&rt)?;
    let sheet = check_sheet(alloc, &setup, &prices, own, bids.as_slice())?;
    println!(rt; "check_sheet: {} bids in {} us", bids.len(), begin.elapsed(&rt)?.as_micros())?;
    let begin = Instant::now(&rt)?;
    let changes = changes_of(alloc, &setup, &prices, own, 0, Some(&sheet))?;
    println!(rt; "changes_of: {} changes in {} us", changes.as_slice().len(), begin.elapsed(&rt)?.as_micros())?;
    Ok(())
}
