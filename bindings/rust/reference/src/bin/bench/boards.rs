//! The boards that are timed, all of them full.
use reference::random::{costs, Random, Shape};
use reference::{Costs, Given, COSTS};

const SPAN: usize = 65536;
/// The places of a run, as the library searches them.
const RUN: usize = 64;

#[derive(Clone, Copy, PartialEq)]
pub enum Board {
    Drawn(Shape),
    /// In Z-order the first cost rises from run to run while the sum of the others falls: hardly a move beats one of a later
    /// run, and yet no run is ruled out by its least corner.
    Spite,
    /// One move beats a board of which otherwise all would be listed: when it goes, all others come up.
    Crown,
    /// All moves have one sum of costs: none beats another.
    OneSum,
    /// Spite of half as many moves, each with one behind it that hardly another hides.
    Veil,
}

pub const DRAWN: [Board; 4] = [
    Board::Drawn(Shape::Uniform),
    Board::Drawn(Shape::Correlated),
    Board::Drawn(Shape::AntiCorrelated),
    Board::Drawn(Shape::AllListed),
];
pub const AGAINST: [Board; 4] = [Board::Spite, Board::Crown, Board::OneSum, Board::Veil];
/// The number of the move on top of a crown, and what is under it.
pub const TOP: u16 = 0;
pub const UNDER: Board = Board::Drawn(Shape::AllListed);

/// Costs below a bound that have this sum, drawn until the last one fits.
fn draw_sum(random: &mut Random, costs: &mut [u16], bound: usize, sum: usize) {
    let [others @ .., last] = costs else {
        return;
    };
    loop {
        others.fill_with(|| random.below(bound) as u16);
        let spent: usize = others.iter().map(|&cost| usize::from(cost)).sum();
        if (spent..spent + bound).contains(&sum) {
            *last = (sum - spent) as u16;
            return;
        }
    }
}

fn spite(random: &mut Random, d: usize, number: u16, c: usize) -> Costs {
    let run = usize::from(number) / RUN;
    let sum = if d == 2 { 1000 } else { 1200.max(400 * (d - 1)) };
    let mut costs = [0; COSTS];
    costs[0] = (run * (SPAN * RUN / c)) as u16;
    draw_sum(random, &mut costs[1..d], 1024, sum - run);
    costs
}

fn one_sum(random: &mut Random, d: usize) -> Costs {
    let mut costs = [0; COSTS];
    draw_sum(random, &mut costs[..d], SPAN, SPAN / 2 * d);
    costs
}

/// Each odd number put behind the even one below it.
fn veil(moves: &mut [Given], d: usize) {
    let mut fronts = vec![[0; COSTS]; moves.len()];
    moves.iter().for_each(|x| fronts[usize::from(x.number)] = x.costs);
    for x in moves.iter_mut().filter(|x| x.number % 2 == 1) {
        x.costs = fronts[usize::from(x.number) - 1];
        x.costs[d - 1] += 1;
    }
}

impl Board {
    pub fn name(self) -> &'static str {
        match self {
            Board::Drawn(Shape::Uniform) => "uniform",
            Board::Drawn(Shape::Correlated) => "correlated",
            Board::Drawn(Shape::AntiCorrelated) => "anti-correlated",
            Board::Drawn(Shape::AllListed) => "all listed",
            Board::Spite => "spite",
            Board::Crown => "crown",
            Board::OneSum => "one sum",
            Board::Veil => "veil",
        }
    }

    pub fn costs(self, random: &mut Random, d: usize, number: u16, c: usize) -> Costs {
        match self {
            Board::Drawn(shape) => costs(random, shape, d, SPAN, usize::from(number), c),
            Board::Spite | Board::Veil => spite(random, d, number, c),
            Board::OneSum => one_sum(random, d),
            Board::Crown if number == TOP => [0; COSTS],
            Board::Crown => UNDER.costs(random, d, number, c),
        }
    }

    /// A move for each number, in any block.
    pub fn moves(self, random: &mut Random, d: usize, c: usize) -> Vec<Given> {
        let numbers = random.numbers(c, c);
        let given = |number| Given { number, block: random.block(), costs: self.costs(random, d, number, c) };
        let mut moves: Vec<Given> = numbers.into_iter().map(given).collect();
        if self == Board::Veil {
            veil(&mut moves, d);
        }
        moves
    }
}
