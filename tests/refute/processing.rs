//! Processes drawn requests by both procedures, and prints what each counts and where it ends.
//! Uses: clock_queue clock_processor clock_setup clock_terms clock_money clock_device anyhow
#![tactic(auto)]

use clock_money::Point;
use clock_processor::{Board, Plain, Processor, Settled};
use clock_queue::Woken;
use clock_setup::read_setup;
use clock_terms::{Amounts, Change, Changes, Grid, Kind, Setup};
use std::alloc::Global;
use std::io::Read;

/// Auctions that are drawn.
const AUCTIONS: u64 = 60;
/// The most blocks of a product that a bidder holds, or asks for in addition.
const MOST_BLOCKS: u64 = 3;
/// Steps through all pairs of a bidder and a product: each has no divisor in common with 48.
const STEPS: [usize; 4] = [5, 7, 11, 13];

/// How many requests an auction has.
#[derive(Clone, Copy, Drop)]
enum Density {
    /// Most pairs of a bidder and a product.
    Most,
    /// No two of one bidder or of one product.
    OneEach,
}

/// A source of drawn numbers: the generator of Park and Miller.
#[derive(Drop)]
struct Draw {
    state: u64,
}

impl Draw {
    /// The next number, below `most`.
    fn below(&mut self, most: u64) -> u64 {
        self.state = self.state * 48_271 % 2_147_483_647;
        self.state % most
    }
}

/// The demands before the round: each bidder holds some blocks of each product.
fn held(alloc: Global, setup: &Setup, draw: &mut Draw) -> anyhow::Result<Grid> {
    let mut grid = Grid::zero(alloc, setup)?;
    for bidder in 0..setup.bidders.as_slice().len() {
        for product in 0..setup.products.as_slice().len() {
            grid.set(bidder, product, draw.below(MOST_BLOCKS + 1));
        }
    }
    Ok(grid)
}

/// Each bidder's activity, and sometimes a little more.
fn eligibilities(
    alloc: Global,
    setup: &Setup,
    grid: &Grid,
    draw: &mut Draw,
) -> anyhow::Result<Amounts> {
    let mut amounts = Amounts::new(alloc);
    for bidder in 0..setup.bidders.as_slice().len() {
        let mut units = draw.below(3);
        for (number, product) in setup.products.as_slice().iter().enumerate() {
            units += product.units * grid.get(bidder, number);
        }
        amounts.push(units)?;
    }
    Ok(amounts)
}

/// Requests of pairs of a bidder and a product, in no order of these.
fn requests(
    alloc: Global,
    setup: &Setup,
    grid: &Grid,
    density: Density,
    draw: &mut Draw,
) -> anyhow::Result<Changes> {
    let (bidders, products) = (setup.bidders.as_slice().len(), setup.products.as_slice().len());
    let mut changes = Changes::new(alloc);
    let step = STEPS[draw.below(4) as usize];
    let mut cell = draw.below(48) as usize;
    for _pair in 0..bidders * products {
        cell = (cell + step) % (bidders * products);
        let (bidder, product) = (cell % bidders, cell / bidders);
        let blocks = grid.get(bidder, product);
        let gives_up = blocks > 0 && draw.below(2) == 0;
        let amount = 1 + if gives_up { draw.below(blocks) } else { draw.below(MOST_BLOCKS) };
        let asks = match density {
            Density::Most => draw.below(3) > 0,
            Density::OneEach => bidder == product,
        };
        if asks {
            changes.push(Change {
                bidder: bidder as u32,
                product: product as u32,
                place: 0,
                kind: if gives_up { Kind::Reduction } else { Kind::Increase },
                amount,
                price: 105,
                point: Point::of(100, 105, 110).unwrap(),
            })?;
        }
    }
    Ok(changes)
}

/// Prints the counts of a procedure, and the demands after the round.
fn show(rt: &HostRuntime, name: &str, setup: &Setup, settled: &Settled) -> anyhow::Result<()> {
    println!(rt; "{name} {} {}", settled.applied(), settled.tests())?;
    for bidder in 0..setup.bidders.as_slice().len() {
        for product in 0..setup.products.as_slice().len() {
            println!(rt; "demand {}", settled.grid().get(bidder, product))?;
        }
    }
    Ok(())
}

fn main(rt: HostRuntime) -> anyhow::Result<()> {
    let alloc = rt.alloc();
    let mut text = Vec::new(alloc);
    rt.stdin().read_to_end(&mut text)?;
    let setup = read_setup(alloc, text.as_slice())?;
    for auction in 1..AUCTIONS + 1 {
        let mut draw = Draw { state: auction };
        let grid = held(alloc, &setup, &mut draw)?;
        let eligibility = eligibilities(alloc, &setup, &grid, &mut draw)?;
        let density = if auction % 5 == 0 { Density::OneEach } else { Density::Most };
        let changes = requests(alloc, &setup, &grid, density, &mut draw)?;
        println!(rt; "auction {auction}")?;
        for change in changes.as_slice() {
            println!(rt; "request {} {} {}", change.bidder, change.product, change.amount)?;
        }
        let board = Board::new(alloc, &setup, &eligibility, &grid)?;
        let (settled, reads) = Woken::settle_counted(alloc, board, &changes)?;
        show(&rt, "queue", &setup, &settled)?;
        println!(rt; "reads {reads}")?;
        let board = Board::new(alloc, &setup, &eligibility, &grid)?;
        show(&rt, "list", &setup, &Plain.settle(alloc, board, &changes)?)?;
    }
    Ok(())
}
