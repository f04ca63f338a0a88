//! Yard block hours (document 02, Card 8): what is refused, and which blocks are open.
use crate::{BlockHours, Window, BLOCKS, WEEK_MINUTES};

/// The minutes that pass from one minute of the week to the next time that it is the other.
fn minutes_to(from: usize, to: usize) -> usize {
    (to + WEEK_MINUTES - from) % WEEK_MINUTES
}

/// From the start on, and not yet at the end.
fn open_in(window: &Window, minute: usize) -> bool {
    let (start, end) = (window.start.into(), window.end.into());
    minutes_to(start, minute) < minutes_to(start, end)
}

/// A fifth window, a start equal to its end, or either above 10,079.
fn bad(hours: &BlockHours) -> bool {
    let past = |minute: u16| usize::from(minute) >= WEEK_MINUTES;
    let windows = hours.windows.get(..hours.count.into());
    windows.is_none_or(|windows| windows.iter().any(|w| w.start == w.end || past(w.start) || past(w.end)))
}

/// What turns an hours call down, and its detail, but for 3 and 8; zeros where nothing does.
pub fn refusal(minute: usize, hours: &[BlockHours]) -> (usize, usize) {
    if minute >= WEEK_MINUTES {
        return (7, 0);
    }
    hours.iter().take(BLOCKS).position(bad).map_or((0, 0), |lowest| (12, lowest))
}

/// Whether a block is open at a minute by entries that are not refused.
pub fn open(minute: usize, hours: &[BlockHours], block: usize) -> bool {
    let windows = hours.get(block).map_or(&[][..], |hours| &hours.windows[..hours.count.into()]);
    windows.iter().any(|window| open_in(window, minute))
}
