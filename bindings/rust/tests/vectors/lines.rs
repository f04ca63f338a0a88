//! The lines of crates/vectors/data, read.
use reference::{BlockHours, Call, Change, Costs, Given, Window, BLOCKS, COSTS, WINDOWS};
use std::fs;

/// What stands in the windows past a block's count, which nobody looks at.
const RUBBISH: Window = Window { start: 0xA5A5, end: 0xA5A5 };

/// A line in two: what is asked and what is answered.
pub type Line = (String, String);

/// The words of lines whose moves have a block; in the others they lie in block 0.
const WITH_BLOCK: [&str; 5] = ["LB", "EB", "CB", "PEB", "PCB"];

fn read(name: &str) -> String {
    let path = format!("{}/../../crates/vectors/{name}", env!("CARGO_MANIFEST_DIR"));
    fs::read_to_string(&path).unwrap_or_else(|error| panic!("{path}: {error}"))
}

fn halves(line: &str) -> Line {
    let (asked, answer) = line.split_once(" = ").expect(line);
    (asked.to_string(), answer.to_string())
}

/// The files that the program `vectors` reads, each with its lines.
pub fn files() -> Vec<(String, Vec<Line>)> {
    let lines = |name: &str| read(&format!("data/{name}")).lines().map(halves).collect();
    read("args").lines().map(|name| (name.to_string(), lines(name))).collect()
}

/// The word that says what is asked.
pub fn kind(asked: &str) -> &str {
    asked.split(' ').next().unwrap_or_default()
}

pub fn words(asked: &str) -> Vec<u64> {
    asked.split(' ').skip(1).map(|word| word.parse().expect(asked)).collect()
}

pub fn costs(words: &[u64]) -> Costs {
    std::array::from_fn(|i| words[i] as u16)
}

/// Whether the line is a load, and so starts with the memory's length.
pub fn is_load(asked: &str) -> bool {
    ["L", "LB"].contains(&kind(asked))
}

fn given(words: &[u64], with_block: bool) -> Given {
    let number = words[0] as u16;
    match with_block {
        true => Given { number, block: words[1] as u16, costs: costs(&words[2..]) },
        false => Given { number, block: 0, costs: costs(&words[1..]) },
    }
}

fn load(words: &[u64], with_block: bool) -> Call {
    let row = 1 + usize::from(with_block) + COSTS;
    let rows = words[4..].chunks(row).map(|row| given(row, with_block)).collect();
    Call::Load { c: words[1] as usize, d: words[2] as usize, rows }
}

/// So many entries of an hours call: `block count start end ..`, at most four windows being written.
fn hours(entries: u64, mut words: &[u64]) -> Vec<BlockHours> {
    let mut hours = vec![BlockHours { count: 0, windows: [RUBBISH; WINDOWS] }; BLOCKS];
    for _ in 0..entries {
        let [block, count, rest @ ..] = words else { panic!("{entries} entries are not there") };
        let (written, others) = rest.split_at(2 * WINDOWS.min(*count as usize));
        let entry = &mut hours[*block as usize];
        entry.count = *count as u16;
        for (window, minutes) in entry.windows.iter_mut().zip(written.chunks(2)) {
            *window = Window { start: minutes[0] as u16, end: minutes[1] as u16 };
        }
        words = others;
    }
    assert!(words.is_empty(), "more than {entries} entries");
    hours
}

/// The call of a line and the rows lent to it.
pub fn call_of(asked: &str) -> (Call, usize) {
    let w = words(asked);
    let lent = w.last().map_or(0, |&lent| lent as usize);
    let argument = w.first().map_or(0, |&word| word as usize);
    let number = argument as u16;
    let with_block = WITH_BLOCK.contains(&kind(asked));
    let moved = || given(&w, with_block);
    let call = match kind(asked) {
        "L" | "LB" => return (load(&w, with_block), 0),
        "HO" => return (Call::Hours { minute: argument, hours: hours(w[2], &w[3..]) }, w[1] as usize),
        "E" | "EB" => Call::enter(moved()),
        "W" | "X" => Call::withdraw(number),
        "C" | "CB" => Call::recost(moved()),
        "PE" | "PEB" => Call::Preview(Change::Enter(moved())),
        "PW" => Call::Preview(Change::Withdraw(number)),
        "PC" | "PCB" => Call::Preview(Change::Recost(moved())),
        "Q" => Call::List,
        "B" => Call::Band(argument),
        "K" => Call::Rank(argument),
        "O" => Call::OnK(argument),
        "S" => Call::Chosen(argument),
        other => panic!("{other} in a vector"),
    };
    (call, lent)
}

pub fn joined<T: ToString>(words: impl IntoIterator<Item = T>) -> String {
    words.into_iter().map(|word| word.to_string()).collect::<Vec<_>>().join(" ")
}
