//! The verified move board, called from Rust: the moves that no other move dominates, equal
//! ones once, in Z-order.
//!
//! [`Board`] is a board over memory that the program lends; [`zorder`] has addresses and regions without one. Nothing here
//! allocates. A call that is turned down says why by a [`Refusal`], and has altered nothing. An archive that does not fit
//! this crate, since it answers with numbers that the crate does not know, makes a call panic.
//!
//! ```
//! use dolzhev::{padded, Board, Mark, Move, Refusal, Row};
//!
//! let mut memory = [0; Board::bytes(16)];
//! let mut rows = [Row::default(); Board::notice_rows(16)];
//! let mut board = Board::over(&mut memory);
//! let first = Move { number: 0, block: 5, costs: padded([1, 6]) };
//! board.load(16, 2, &[first, Move { number: 1, block: 8, costs: padded([3, 7]) }])?;
//!
//! let notice = board.enter(Move { number: 2, block: 5, costs: padded([2, 2]) }, &mut rows)?;
//! assert_eq!((notice[0].mark(), notice[0].number), (Mark::Entered, 2));
//! assert_eq!(board.list(&mut rows)?.rows.len(), 2);
//! let withdrawn = board.withdraw(2, &mut rows)?;
//! assert_eq!((withdrawn.rows[0].mark(), withdrawn.rows[0].number, withdrawn.opened), (Mark::Left, 2, 1));
//! assert_eq!(board.withdraw(9, &mut rows), Err(Refusal::NumberAbsent));
//! # Ok::<(), Refusal>(())
//! ```
//!
//! A driver looks, then takes. [`Board::preview_withdraw`], like the previews of enter and re-cost, tells what the change
//! would, and leaves the board as it is: who follows the list by notices passes a preview's rows by.
//!
//! ```
//! # use dolzhev::{padded, Board, Mark, Move, Refusal, Row};
//! # let mut memory = [0; Board::bytes(16)];
//! # let mut rows = [Row::default(); Board::notice_rows(16)];
//! # let mut board = Board::over(&mut memory);
//! # let first = Move { number: 0, block: 5, costs: padded([1, 6]) };
//! # board.load(16, 2, &[first, Move { number: 1, block: 8, costs: padded([3, 7]) }])?;
//! let foretold = board.preview_withdraw(0, &mut rows)?.rows.to_vec();
//! assert_eq!((foretold[1].mark(), foretold[1].number), (Mark::Entered, 1));
//! assert_eq!(board.list(&mut rows)?.rows[0].number, 0);
//! assert_eq!(board.withdraw(0, &mut rows)?.rows, foretold);
//! # Ok::<(), Refusal>(())
//! ```
//!
//! Each move lies in a yard block. [`Board::hours`] tells the list over the moves in the blocks that are open at a minute of
//! the week; no other call looks at blocks.
//!
//! ```
//! # use dolzhev::{padded, Board, Move, Refusal, Row};
//! use dolzhev::{BlockHours, Window, BLOCKS};
//!
//! # let mut memory = [0; Board::bytes(16)];
//! # let mut rows = [Row::default(); Board::notice_rows(16)];
//! # let mut board = Board::over(&mut memory);
//! # let first = Move { number: 0, block: 5, costs: padded([1, 6]) };
//! # board.load(16, 2, &[first, Move { number: 1, block: 8, costs: padded([3, 7]) }])?;
//! let mut hours = [BlockHours::default(); BLOCKS];
//! hours[8] = BlockHours::of([Window { start: 360, end: 1_320 }]);
//! assert_eq!(board.hours(600, &hours, &mut rows)?[0].number, 1);
//! assert_eq!(board.hours(1_320, &hours, &mut rows)?, []);
//! # Ok::<(), Refusal>(())
//! ```
#![deny(missing_docs)]
mod board;
mod refusal;
mod row;
pub mod zorder;

pub use board::{Board, Listed, Withdrawn};
pub use dolzhev_sys::{BlockHours, Costs, Move, Window, BLOCKS, COSTS, WEEK_MINUTES, WINDOWS};
pub use refusal::Refusal;
pub use row::{padded, Mark, Ranked, Row};
