//! Processes two rounds in which requests wait for each other, and prints the number of tests of a request's room.
//! Uses: clock_queue clock_processor clock_setup clock_terms clock_money clock_device anyhow
#![tactic(auto)]

use clock_money::Point;
use clock_processor::{Board, Processor};
use clock_queue::Woken;
use clock_setup::read_setup;
use clock_terms::{Amounts, Change, Changes, Grid, Kind, Setup};
use std::alloc::Global;
use std::io::Read;
use std::time::Instant;

/// A request at a price between the start-of-round price and the clock price.
fn change(bidder: usize, product: usize, kind: Kind, amount: u64) -> Change {
    Change {
        bidder: bidder as u32,
        product: product as u32,
        place: 0,
        kind,
        amount,
        price: 105,
        point: Point::of(100, 105, 110).unwrap(),
    }
}

/// Whether a bidder gives up all blocks of a product.
fn gives_up(bidder: usize, product: usize) -> bool {
    (bidder + product) % 2 == 1
}

/// A round in which one application makes room for the next.
///
/// Each bidder has an equal number of blocks of each product, and bidder 1 has one more of product 0. So only one block
/// can be given up. It pays for one block of another product, of which another bidder can then give one up.
fn passed_on(alloc: Global, setup: &Setup) -> anyhow::Result<(Grid, Changes)> {
    let (bidders, products) = (setup.bidders.as_slice().len(), setup.products.as_slice().len());
    let held = setup.products.as_slice()[0].supply / bidders as u64;
    let mut grid = Grid::zero(alloc, setup)?;
    let mut changes = Changes::new(alloc);
    for bidder in 0..bidders {
        for product in 0..products {
            let extra = (bidder == 1 && product == 0) as u64;
            grid.set(bidder, product, held + extra);
            if !gives_up(bidder, product) {
                changes.push(change(bidder, product, Kind::Increase, held))?;
            }
        }
    }
    for product in (0..products).rev() {
        for bidder in 0..bidders {
            if gives_up(bidder, product) {
                changes.push(change(bidder, product, Kind::Reduction, grid.get(bidder, product)))?;
            }
        }
    }
    Ok((grid, changes))
}

/// A round whose requests are in no order of bidders or products.
///
/// Each bidder has 1 to 4 blocks of each product, gives up all blocks of every second product, and asks for two more of
/// the others.
fn scattered(alloc: Global, setup: &Setup) -> anyhow::Result<(Grid, Changes)> {
    let (bidders, products) = (setup.bidders.as_slice().len(), setup.products.as_slice().len());
    let mut grid = Grid::zero(alloc, setup)?;
    let mut changes = Changes::new(alloc);
    for step in 0..bidders * products {
        let cell = step * 7919 % (bidders * products);
        let (bidder, product) = (cell % bidders, cell / bidders);
        let held = 1 + (bidder * 31 + product * 17) as u64 % 4;
        grid.set(bidder, product, held);
        if gives_up(bidder, product) {
            changes.push(change(bidder, product, Kind::Reduction, held))?;
        } else {
            changes.push(change(bidder, product, Kind::Increase, 2))?;
        }
    }
    Ok((grid, changes))
}

/// The activity of each bidder's demands, as its eligibility: no bidder has unused eligibility.
fn taken(alloc: Global, setup: &Setup, grid: &Grid) -> anyhow::Result<Amounts> {
    let mut amounts = Amounts::new(alloc);
    for bidder in 0..setup.bidders.as_slice().len() {
        let mut units = 0;
        for (number, product) in setup.products.as_slice().iter().enumerate() {
            units += product.units * grid.get(bidder, number);
        }
        amounts.push(units)?;
    }
    Ok(amounts)
}

fn main(rt: HostRuntime) -> anyhow::Result<()> {
    let alloc = rt.alloc();
    let mut text = Vec::new(alloc);
    rt.stdin().read_to_end(&mut text)?;
    let setup = read_setup(alloc, text.as_slice())?;
    for name in ["passed on", "scattered"] {
        let (grid, changes) = if name == "passed on" { passed_on(alloc, &setup)? } else { scattered(alloc, &setup)? };
        let eligibility = taken(alloc, &setup, &grid)?;
        let board = Board::new(alloc, &setup, &eligibility, &grid)?;
        let begin = Instant::now(&rt)?;
        let settled = Woken.settle(alloc, board, &changes)?;
        let spent = begin.elapsed(&rt)?.as_millis();
        let requests = changes.as_slice().len();
        println!(rt; "{name}: {requests} requests, {} applications, {} tests, {spent} ms", settled.applied(), settled.tests())?;
    }
    Ok(())
}
