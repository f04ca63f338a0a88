//! Calls drawn at random for a board as it stands: most can be accepted, each refusal comes up.
use super::board::PlainBoard;
use super::drawn_hours;
use super::random::{costs, moves, Random, Shape};
use crate::{Call, Change, Costs, Given, BLOCKS, COSTS};

/// Blocks that the yard does not have; of one the lower byte would do.
const NO_BLOCKS: [u16; 4] = [BLOCKS as u16, 255, 256, u16::MAX];

pub struct Draw {
    pub random: Random,
    shape: Shape,
    span: usize,
    /// The greatest C that the memory takes.
    size: usize,
    /// Of a hundred changes, how many enter.
    pub growth: usize,
}

impl Draw {
    pub fn new(seed: u64, shape: Shape, span: usize, size: usize) -> Self {
        Draw { random: Random::new(seed), shape, span, size, growth: 50 }
    }

    fn costs(&mut self, board: &PlainBoard, number: u16) -> Costs {
        let mut drawn = costs(&mut self.random, self.shape, board.d, self.span, usize::from(number), board.c);
        if self.random.percent(4) {
            drawn[2 + self.random.below(COSTS - 2)] = 1 + self.random.below(9) as u16;
        }
        drawn
    }

    fn block(&mut self) -> u16 {
        if self.random.percent(4) {
            self.random.one_of(&NO_BLOCKS)
        } else {
            self.random.block()
        }
    }

    /// A number on the board, if there is one.
    fn taken(&mut self, board: &PlainBoard) -> u16 {
        match board.moves.len() {
            0 => 0,
            n => board.moves[self.random.below(n)].number,
        }
    }

    /// A number not on the board, if one is soon found.
    fn free(&mut self, board: &PlainBoard) -> u16 {
        let mut number = 0;
        for _ in 0..40 {
            number = self.random.below(board.c) as u16;
            if board.find(number).is_none() {
                break;
            }
        }
        number
    }

    fn number(&mut self, board: &PlainBoard, wants_taken: bool) -> u16 {
        match self.random.below(100) {
            0..=3 => self.random.one_of(&[board.c as u16, board.c as u16 + 1, u16::MAX]),
            4..=9 => self.random.below(board.c) as u16,
            _ if wants_taken => self.taken(board),
            _ => self.free(board),
        }
    }

    pub fn change(&mut self, board: &PlainBoard) -> Change {
        if self.random.percent(self.growth) {
            let number = self.number(board, false);
            return Change::Enter(Given { number, block: self.block(), costs: self.costs(board, number) });
        }
        let number = self.number(board, true);
        if self.random.percent(50) {
            return Change::Withdraw(number);
        }
        let held = board.find(number).copied();
        let (mut block, mut costs) = (self.block(), self.costs(board, number));
        if let Some(x) = held.filter(|_| self.random.percent(10)) {
            costs = x.costs;
        }
        if let Some(x) = held.filter(|_| self.random.percent(40)) {
            block = board.block_of(&x);
        }
        Change::Recost(Given { number, block, costs })
    }

    /// A set of costs, most of them one that d costs have.
    fn set(&mut self, d: usize) -> usize {
        let all = (1 << d) - 1;
        let edge = self.random.one_of(&[0, 1, all, all + 1, usize::MAX]);
        if self.random.percent(40) {
            edge
        } else {
            1 + self.random.below(all)
        }
    }

    pub fn query(&mut self, board: &PlainBoard) -> Call {
        let n = board.moves.len();
        match self.random.below(8) {
            0 | 1 => Call::List,
            2 => Call::Band(self.random.one_of(&[0, 1, 2, 5, n, 4095, 4096, usize::MAX])),
            3 => Call::Rank(self.random.one_of(&[0, 1, 2, 7, n, 4096, 4097, usize::MAX])),
            4 => Call::OnK(self.random.below(board.d + 2)),
            5 => Call::Chosen(self.set(board.d)),
            _ => drawn_hours::call(&mut self.random),
        }
    }

    /// A load that is turned down.
    pub fn bad_load(&mut self, board: &PlainBoard) -> Call {
        let (mut c, mut d) = (board.c, board.d);
        let n = 1 + self.random.below(board.c);
        let mut rows = moves(&mut self.random, self.shape, d, self.span, c, n);
        let place = self.random.below(n);
        match self.random.below(7) {
            0 => c = self.random.one_of(&[0, 15, 4097, usize::MAX]),
            1 => d = self.random.one_of(&[0, 1, COSTS + 1, usize::MAX]),
            2 => rows[place].number = c as u16,
            3 => rows.push(rows[place]),
            4 => rows[place].block = self.random.one_of(&NO_BLOCKS),
            5 if d < COSTS => rows[place].costs[d + self.random.below(COSTS - d)] = 1,
            _ => c = self.size + 1,
        }
        Call::Load { c, d, rows }
    }

    /// A load of n rows, at most C, that is accepted.
    pub fn load(&mut self, c: usize, d: usize, n: usize) -> Call {
        let rows = moves(&mut self.random, self.shape, d, self.span, c, n);
        Call::Load { c, d, rows }
    }

    /// Any load that is accepted.
    fn any_load(&mut self) -> Call {
        let c = 16 + self.random.below(self.size - 15);
        let (d, n) = (2 + self.random.below(COSTS - 1), self.random.below(c + 1));
        self.load(c, d, n)
    }

    pub fn call(&mut self, board: &PlainBoard) -> Call {
        match self.random.below(120) {
            0 => self.any_load(),
            1..=3 => self.bad_load(board),
            4..=29 => self.query(board),
            30..=49 => Call::Preview(self.change(board)),
            _ => Call::Change(self.change(board)),
        }
    }

    /// How many rows to lend to a call that needs so many.
    pub fn lent(&mut self, c: usize, need: usize) -> usize {
        match self.random.below(10) {
            0 => 0,
            1 => need.saturating_sub(1),
            2 => need,
            3 => need + 1,
            _ => c + 1,
        }
    }
}
