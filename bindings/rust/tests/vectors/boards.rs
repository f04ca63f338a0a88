//! Who answers the lines on boards, and the lines put to them.
use crate::lines::{call_of, files, is_load, joined, kind, words, Line};
use reference::against::Ask;
use reference::layout;
use reference::model::Model;
use reference::node::written;
use reference::{Answer, Call, Row};

/// Lines on no board, and calls that are not here yet: they are passed by.
const PASSED: [&str; 8] = ["A2", "U2", "R2", "D", "M", "N", "SF", "WH"];

/// The answer to a line as the vectors write it. An `X` is a withdrawal that shows the nodes opened, a `W` one that does not;
/// a preview shows them.
fn answered(asked: &str, (answer, rows): (Answer, Vec<Row>)) -> String {
    let mut words = vec![answer.refusal, answer.detail];
    match kind(asked) {
        "L" | "LB" => {}
        "Q" | "X" | "PE" | "PW" | "PC" | "PEB" | "PCB" => words.extend([answer.count, answer.opened]),
        _ => words.push(answer.count),
    }
    for row in rows {
        words.extend([row.mark, row.number].map(usize::from));
        words.extend(row.costs.map(usize::from));
    }
    joined(words)
}

/// Whoever answers the lines of a file.
pub trait Player {
    /// From now on the board stands in these bytes.
    fn take(&mut self, bytes: Vec<u8>);
    /// The call made with so many of the bytes lent, and so many rows.
    fn ask(&mut self, call: &Call, bytes: usize, lent: usize) -> (Answer, Vec<Row>);
    fn tree(&self) -> String;
}

pub struct Memory {
    pub ask: Ask,
    pub bytes: Vec<u8>,
}

impl Player for Memory {
    fn take(&mut self, bytes: Vec<u8>) {
        self.bytes = bytes;
    }

    fn ask(&mut self, call: &Call, bytes: usize, lent: usize) -> (Answer, Vec<Row>) {
        let mut rows = vec![Row::default(); lent];
        let answer = (self.ask)(&mut self.bytes[..bytes], call, &mut rows);
        rows.truncate(answer.count);
        (answer, rows)
    }

    fn tree(&self) -> String {
        let (_, tree) = layout::sound(&self.bytes).expect("the memory is sound where a vector has a tree");
        written(&tree)
    }
}

impl Player for Model {
    fn take(&mut self, bytes: Vec<u8>) {
        *self = Model::of_memory(&bytes);
    }

    fn ask(&mut self, call: &Call, bytes: usize, lent: usize) -> (Answer, Vec<Row>) {
        let foreseen = self.foresee(bytes, call).with_rows(lent);
        self.follow(call, &foreseen);
        (foreseen.answer, foreseen.rows)
    }

    fn tree(&self) -> String {
        written(&self.tree)
    }
}

/// A file's memory is as long as its loads say at most: some are lent a byte fewer.
fn memory_bytes(lines: &[Line]) -> usize {
    let loads = lines.iter().filter(|(asked, _)| is_load(asked));
    loads.map(|(asked, _)| words(asked)[0]).max().unwrap_or(0) as usize
}

/// The file's lines put to the player, on memory that was never loaded; how many were answered.
fn play_file(name: &str, lines: &[Line], player: &mut dyn Player) -> usize {
    let bytes = memory_bytes(lines);
    player.take(vec![0; bytes]);
    let mut answers = 0;
    for (at, (asked, answer)) in lines.iter().enumerate() {
        let got = match kind(asked) {
            passed if PASSED.contains(&passed) => continue,
            "T" => player.tree(),
            _ => {
                let (call, lent) = call_of(asked);
                let lent_bytes = if is_load(asked) { words(asked)[0] as usize } else { bytes };
                answered(asked, player.ask(&call, lent_bytes, lent))
            }
        };
        assert_eq!(got, *answer, "{name}, line {}: {asked}", at + 1);
        answers += 1;
    }
    answers
}

pub fn play(player: &mut dyn Player) {
    let answers: usize = files().iter().map(|(name, lines)| play_file(name, lines, player)).sum();
    assert_eq!(answers, 4369);
}
