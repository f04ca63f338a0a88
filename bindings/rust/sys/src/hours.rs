//! When the yard blocks are open.

/// The yard blocks.
pub const BLOCKS: usize = 64;

/// The most windows of a block.
pub const WINDOWS: usize = 4;

/// The minutes of a week.
pub const WEEK_MINUTES: usize = 10_080;

/// Minutes of the week, each 0 to 10,079: from the start up to the end, the end not included. An end below the start runs
/// over the week's end. Start and end must differ.
#[repr(C)]
#[derive(Clone, Copy, Debug, Default, PartialEq, Eq)]
pub struct Window {
    /// The first minute.
    pub start: u16,
    /// The minute after the last.
    pub end: u16,
}

/// The hours of a block: it is open in each of its windows, and without one, as by default, shut.
#[repr(C)]
#[derive(Clone, Copy, Debug, Default, PartialEq, Eq)]
pub struct BlockHours {
    /// How many windows it has, 4 at most.
    pub count: u16,
    /// Those past the count are not looked at.
    pub windows: [Window; WINDOWS],
}

impl BlockHours {
    /// The block is open in these windows.
    pub fn of<const N: usize>(given: [Window; N]) -> Self {
        const { assert!(N <= WINDOWS, "more windows than a block has") };
        let mut windows = [Window::default(); WINDOWS];
        windows[..N].copy_from_slice(&given);
        BlockHours { count: N as u16, windows }
    }
}
