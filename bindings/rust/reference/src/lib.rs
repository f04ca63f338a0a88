//! What the library is held against, written from document 01's words and the table of the layout. Nothing here calls it but
//! [`library`], through which the tests and the benchmark ask it.
pub mod address;
pub mod against;
pub mod board;
mod call;
pub mod dominance;
pub mod draw;
pub mod drawn_hours;
pub mod entering;
pub mod foreseen;
pub mod hours;
pub mod layout;
pub mod lent;
pub mod library;
pub mod lists;
pub mod loading;
pub mod model;
mod moves;
pub mod node;
pub mod plain;
pub mod random;
pub mod source;
pub mod tries;
pub mod withdrawing;
pub mod written;

pub use call::{Call, Change};
/// A move as it is given to a call, with its block.
pub use dolzhev_sys::Move as Given;
pub use dolzhev_sys::{AddressAnswer, AddressWords, Answer, Costs, CostsAnswer, RegionAnswer, Row, COSTS};
pub use dolzhev_sys::{BlockHours, Window, BLOCKS, WEEK_MINUTES, WINDOWS};
pub use moves::Move;
