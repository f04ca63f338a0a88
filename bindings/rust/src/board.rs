//! A board over borrowed memory.
use crate::{BlockHours, Move, Ranked, Refusal, Row};
use dolzhev_sys as raw;

/// The rows of a list, and the nodes opened for it.
#[derive(Clone, Copy, Debug, PartialEq, Eq)]
pub struct Listed<'r> {
    /// The listed moves, in Z-order.
    pub rows: &'r [Row],
    /// The nodes whose near corner no move dominates.
    pub opened: usize,
}

/// The notice of a withdrawal, and the nodes opened for it; or what a preview foretells of them.
#[derive(Clone, Copy, Debug, PartialEq, Eq)]
pub struct Withdrawn<'r> {
    /// The rows that left the list, then those that entered it, each part in Z-order.
    pub rows: &'r [Row],
    /// The nodes opened while looking for moves to bring up, counted on the tree before: 0 if the move was not listed, else the
    /// nodes whose far corner it dominates or equals and whose near corner no other listed move dominates.
    pub opened: usize,
}

/// A board over memory that the program lends. What the memory holds is judged anew by every call, so a board may lie over
/// any bytes: those that are none are [`Refusal::Unsound`] until a load is accepted.
///
/// The calls write their rows at the start of the lent ones, and hand back those. Previews and lists borrow the board to read
/// it, so several may run at the same time.
pub struct Board<'m> {
    memory: &'m mut [u8],
}

/// The rows told by a call other than load.
fn told<T>(answer: raw::Answer, rows: &[T]) -> Result<&[T], Refusal> {
    Refusal::judge(answer.refusal, answer.detail, None).map(|()| &rows[..answer.count])
}

/// The same of a withdrawal or its preview.
fn withdrawn(answer: raw::Answer, rows: &[Row]) -> Result<Withdrawn<'_>, Refusal> {
    told(answer, rows).map(|rows| Withdrawn { rows, opened: answer.opened })
}

impl<'m> Board<'m> {
    /// The bytes that a board of size c needs.
    pub const fn bytes(c: usize) -> usize {
        64 * c + 1024
    }

    /// The rows that a notice of a board of size c may need.
    pub const fn notice_rows(c: usize) -> usize {
        c + 1
    }

    /// The board that the memory holds, or will hold after a load.
    pub fn over(memory: &'m mut [u8]) -> Self {
        Board { memory }
    }

    /// Overwrites the memory with a board of size c, 16 to 4,096, and d costs, 2 to 8, that holds the moves.
    pub fn load(&mut self, c: usize, d: usize, moves: &[Move]) -> Result<(), Refusal> {
        let answer = raw::load(self.memory, c, d, moves);
        Refusal::judge(answer.refusal, answer.detail, Some(answer.detail))
    }

    /// Adds a move, in its block. The notice: first the rows that left the list, then those that entered it, each part in Z-order.
    pub fn enter<'r>(&mut self, x: Move, rows: &'r mut [Row]) -> Result<&'r [Row], Refusal> {
        told(raw::enter(self.memory, x, Row::lend(rows)), rows)
    }

    /// Takes the move of that number away, and tells the notice and the nodes opened for it.
    pub fn withdraw<'r>(&mut self, number: u16, rows: &'r mut [Row]) -> Result<Withdrawn<'r>, Refusal> {
        withdrawn(raw::withdraw(self.memory, number, Row::lend(rows)), rows)
    }

    /// Gives the move of that number the costs and the block, and tells the notice. With equal costs the block alone changes,
    /// and no row is needed.
    pub fn recost<'r>(&mut self, x: Move, rows: &'r mut [Row]) -> Result<&'r [Row], Refusal> {
        told(raw::recost(self.memory, x, Row::lend(rows)), rows)
    }

    /// What [`Board::enter`] would answer with as many rows lent: the same notice or the same refusal. The board stays as it is.
    /// Rows of a preview tell of no change made: who follows the list by notices passes them by.
    pub fn preview_enter<'r>(&self, x: Move, rows: &'r mut [Row]) -> Result<&'r [Row], Refusal> {
        told(raw::preview_enter(self.memory, x, Row::lend(rows)), rows)
    }

    /// What [`Board::withdraw`] would answer, with the nodes that it would open. As of [`Board::preview_enter`], nothing
    /// changes, and the rows are no notice.
    pub fn preview_withdraw<'r>(&self, number: u16, rows: &'r mut [Row]) -> Result<Withdrawn<'r>, Refusal> {
        withdrawn(raw::preview_withdraw(self.memory, number, Row::lend(rows)), rows)
    }

    /// What [`Board::recost`] would answer. As of [`Board::preview_enter`], nothing changes, and the rows are no notice.
    pub fn preview_recost<'r>(&self, x: Move, rows: &'r mut [Row]) -> Result<&'r [Row], Refusal> {
        told(raw::preview_recost(self.memory, x, Row::lend(rows)), rows)
    }

    /// The moves that no move dominates, in Z-order; of those with equal costs the one of lowest number alone.
    pub fn list<'r>(&self, rows: &'r mut [Row]) -> Result<Listed<'r>, Refusal> {
        let answer = raw::list(self.memory, Row::lend(rows));
        told(answer, rows).map(|rows| Listed { rows, opened: answer.opened })
    }

    /// The moves that b others or fewer dominate, b from 0 to 4,095, in Z-order.
    pub fn band<'r>(&self, b: usize, rows: &'r mut [Row]) -> Result<&'r [Row], Refusal> {
        told(raw::band(self.memory, b, Row::lend(rows)), rows)
    }

    /// Of the listed moves the first t, 1 to 4,096, by number of moves dominated, most first, ties in Z-order.
    pub fn rank<'r>(&self, t: usize, rows: &'r mut [Ranked]) -> Result<&'r [Ranked], Refusal> {
        told(raw::rank(self.memory, t, Ranked::lend(rows)), rows)
    }

    /// The moves that no move dominates on k of the costs, k from 1 to d, in Z-order.
    pub fn on_k<'r>(&self, k: usize, rows: &'r mut [Row]) -> Result<&'r [Row], Refusal> {
        told(raw::on_k(self.memory, k, Row::lend(rows)), rows)
    }

    /// The moves that no move dominates on the chosen costs, bit i of the set standing for cost i, in Z-order.
    pub fn chosen<'r>(&self, set: usize, rows: &'r mut [Row]) -> Result<&'r [Row], Refusal> {
        told(raw::chosen(self.memory, set, Row::lend(rows)), rows)
    }

    /// The list worked out over the moves in open blocks only, in Z-order: what lies in a shut block is not shown, and hides
    /// none. The minute is one of the week, 0 to 10,079. Entry k is block k's; a block past the last entry is shut, and
    /// entries past the 64th are not looked at.
    pub fn hours<'r>(&self, minute: usize, hours: &[BlockHours], rows: &'r mut [Row]) -> Result<&'r [Row], Refusal> {
        told(raw::hours(self.memory, minute, hours, Row::lend(rows)), rows)
    }
}
