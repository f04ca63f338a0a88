//! The time of each call, and in the same run the ratio to two yardsticks: (a) the all-pairs program that works the list out
//! afresh after every change, and (b) the plain board that does on the same bytes what the library does. Prints the tables of
//! docs/BENCHMARK.md.
//!
//!     cargo run --release --offline --bin bench [short | long | instructions]
mod boards;
mod clock;
mod instructions;
mod measure;
mod programs;
mod rounds;
mod tables;

use boards::{Board, AGAINST, DRAWN};
use instructions::JUDGE;
use measure::{measure, Effort};
use reference::COSTS;
use rounds::Rounds;
use std::time::Duration;
use tables::Measured;

/// The numbers of costs.
const DIMENSIONS: [usize; 5] = [2, 3, 4, 6, COSTS];
const DIMENSIONS_AGAINST: [usize; 4] = [2, 3, 4, COSTS];

fn measured(effort: &Effort, board: Board, c: usize, dimensions: &[usize], all_pairs: bool) -> Measured {
    eprintln!("{} at {c}", board.name());
    let times = dimensions.iter().map(|&d| measure(effort, &mut Rounds::new(board, c, d), c, d, all_pairs));
    Measured { board, times: times.collect() }
}

/// The tables of times. A board is timed for so many milliseconds, or so many rounds if these are fewer.
fn print_times(sizes: [usize; 2], millis: u64, most: usize) {
    let effort = Effort { budget: Duration::from_millis(millis), most };
    let mut drawn = Vec::new();
    for c in sizes {
        drawn.extend(DRAWN.map(|board| measured(&effort, board, c, &DIMENSIONS, true)));
    }
    let [_, greatest] = sizes;
    let against = AGAINST.map(|board| measured(&effort, board, greatest, &DIMENSIONS_AGAINST, false));
    tables::print_title("Drawn boards", &DIMENSIONS);
    tables::print(&DRAWN, &sizes, &drawn, true);
    println!();
    tables::print_title("Boards against the search", &DIMENSIONS_AGAINST);
    tables::print(&AGAINST, &[greatest], &against, false);
}

fn main() {
    let words: Vec<String> = std::env::args().skip(1).collect();
    let words: Vec<&str> = words.iter().map(String::as_str).collect();
    match words[..] {
        [] => print_times([256, 4096], 1000, 200),
        ["short"] => print_times([256, 1024], 20, 8),
        ["long"] => print_times([256, 4096], 10000, 2000),
        ["instructions"] => instructions::print(),
        [JUDGE, ref memory @ ..] => instructions::judge(memory),
        _ => {
            eprintln!("bench [short | long | instructions]");
            std::process::exit(2);
        }
    }
}
