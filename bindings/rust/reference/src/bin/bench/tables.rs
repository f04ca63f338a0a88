//! Tables in Markdown: a row for each call and board, in a cell a number for each d.
use crate::boards::Board;
use crate::measure::Times;
use crate::programs::{ALL_PAIRS, PLAIN};
use crate::rounds::CALLS;

/// The times of a board of a size, for each d.
pub struct Measured {
    pub board: Board,
    pub times: Vec<Times>,
}

pub fn rounded(number: f64) -> String {
    match number {
        ..100.0 => format!("{number:.1}"),
        _ => format!("{number:.0}"),
    }
}

fn ratio(ratio: f64) -> String {
    match ratio {
        ..0.1 => format!("{ratio:.3}"),
        ..10.0 => format!("{ratio:.2}"),
        _ => format!("{ratio:.0}"),
    }
}

pub fn cell(numbers: impl Iterator<Item = Option<f64>>, text: fn(f64) -> String) -> String {
    let texts: Vec<String> = numbers.map(|number| number.map_or("–".to_string(), text)).collect();
    if texts.iter().all(|text| text == "–") {
        return "–".to_string();
    }
    texts.join(" / ")
}

/// The cells of a call: microseconds, the ratio to all pairs if asked for, the ratio to the plain board.
fn cells(measured: &Measured, call: usize, all_pairs: bool) -> String {
    let times = || measured.times.iter();
    let mut cells = format!(" {} |", cell(times().map(|t| t.micros(call)), rounded));
    if all_pairs {
        cells += &format!(" {} |", cell(times().map(|t| t.ratio(call, ALL_PAIRS)), ratio));
    }
    cells + &format!(" {} |", cell(times().map(|t| t.ratio(call, PLAIN)), ratio))
}

/// What a table is of, and the order of the numbers in its cells.
pub fn print_title(title: &str, dimensions: &[usize]) {
    let dimensions: Vec<String> = dimensions.iter().map(usize::to_string).collect();
    println!("### {title}, d of {}\n", dimensions.join(" / "));
}

/// The names of the columns, each between strokes.
pub fn print_heading(names: &str) {
    let columns = names.matches('|').count() - 1;
    println!("{names}\n|{}", "---|".repeat(columns));
}

fn heading(sizes: &[usize], all_pairs: bool) -> String {
    let to_a = if all_pairs { " to (a) |" } else { "" };
    let columns = sizes.iter().map(|c| format!(" µs at {c} |{to_a} to (b) |"));
    "| call | board |".to_string() + &columns.collect::<String>()
}

pub fn print(boards: &[Board], sizes: &[usize], all: &[Measured], all_pairs: bool) {
    print_heading(&heading(sizes, all_pairs));
    for (call, name) in CALLS.iter().enumerate() {
        for (place, board) in boards.iter().enumerate() {
            let first = if place == 0 { name } else { "" };
            let of_board = all.iter().filter(|measured| measured.board == *board);
            let row: String = of_board.map(|measured| cells(measured, call, all_pairs)).collect();
            println!("| {first} | {} |{row}", board.name());
        }
    }
}
