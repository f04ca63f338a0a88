//! The three programs that are timed, each with a board of its own.
use crate::rounds::refusal;
use reference::against::Ask;
use reference::board::{foresee_load, PlainBoard};
use reference::plain;
use reference::{library, Call, Row};

/// A program makes a call and says how many rows it told.
pub trait Program {
    fn ask(&mut self, call: &Call) -> usize;
}

/// The library, or the plain board over the same bytes.
struct OnMemory {
    ask: Ask,
    memory: Vec<u8>,
    rows: Vec<Row>,
}

impl Program for OnMemory {
    fn ask(&mut self, call: &Call) -> usize {
        let answer = (self.ask)(&mut self.memory, call, &mut self.rows);
        assert_eq!(answer.refusal, refusal(call), "{call:?}");
        answer.count
    }
}

/// All pairs, after every change.
struct AllPairs {
    board: PlainBoard,
}

impl Program for AllPairs {
    fn ask(&mut self, call: &Call) -> usize {
        let foreseen = match *call {
            Call::Load { c, d, ref rows } => foresee_load(usize::MAX, c, d, rows),
            _ => self.board.foresee(call),
        };
        assert_eq!(foreseen.answer.refusal, refusal(call), "{call:?}");
        if let Some(after) = foreseen.after {
            self.board = after;
        }
        foreseen.rows.len()
    }
}

pub const LIBRARY: usize = 0;
pub const PLAIN: usize = 1;
pub const ALL_PAIRS: usize = 2;
pub const PROGRAMS: usize = 3;

pub fn programs(c: usize, d: usize) -> [Box<dyn Program>; PROGRAMS] {
    let on_memory = |ask: Ask| OnMemory { ask, memory: vec![0; 64 * c + 1024], rows: vec![Row::default(); c + 1] };
    let all_pairs = AllPairs { board: PlainBoard::new(c, d, &[]) };
    [Box::new(on_memory(library::ask)), Box::new(on_memory(plain::ask)), Box::new(all_pairs)]
}
