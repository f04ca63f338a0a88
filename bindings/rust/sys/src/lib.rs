//! The structs and functions of `include/dolzhev.h` and `include/dolzhev_zorder.h` as they are: refusals and marks are
//! numbers, and slices stand for pointers with lengths. A program uses the crate `dolzhev`, which stands on this one; the
//! tests use this one too, to see every number that is answered.
#![deny(missing_docs)]
mod calls;
mod hours;
mod raw;
mod types;
mod zorder;

pub use calls::{band, chosen, enter, hours, list, load, on_k, rank, recost, withdraw};
pub use calls::{preview_enter, preview_recost, preview_withdraw};
pub use hours::{BlockHours, Window, BLOCKS, WEEK_MINUTES, WINDOWS};
pub use types::{AddressAnswer, AddressWords, Answer, Costs, CostsAnswer, Move, RegionAnswer, Row, COSTS};
pub use zorder::{address, costs_of, region};
