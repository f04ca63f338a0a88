//! Hours drawn at random, with borders near the minute that is asked for.
use super::random::Random;
use crate::{BlockHours, Call, Window, BLOCKS, WEEK_MINUTES, WINDOWS};

/// A minute of the week, often one beside another one or at an end.
fn near(random: &mut Random, minute: usize) -> u16 {
    let last = WEEK_MINUTES - 1;
    let near = [minute, minute + 1, minute + last, 0, 1, last, random.below(WEEK_MINUTES)];
    (random.one_of(&near) % WEEK_MINUTES) as u16
}

fn window(random: &mut Random, minute: usize) -> Window {
    loop {
        let (start, end) = (near(random, minute), near(random, minute));
        if start != end {
            return Window { start, end };
        }
    }
}

/// Hours that are not refused; past the count anything stands.
fn entry(random: &mut Random, minute: usize) -> BlockHours {
    let count = random.one_of(&[0, 0, 1, 1, 1, 2, 3, WINDOWS]);
    let mut windows = [(); WINDOWS].map(|()| Window { start: random.word() as u16, end: random.word() as u16 });
    windows[..count].fill_with(|| window(random, minute));
    BlockHours { count: count as u16, windows }
}

/// The hours made bad in one of four ways.
fn spoil(random: &mut Random, hours: &mut BlockHours) {
    if random.percent(25) {
        hours.count = random.one_of(&[WINDOWS as u16 + 1, 256, u16::MAX]);
        return;
    }
    hours.count = hours.count.clamp(1, WINDOWS as u16);
    let place = random.below(hours.count.into());
    let past = random.one_of(&[WEEK_MINUTES as u16, WEEK_MINUTES as u16 + 1, u16::MAX]);
    let window = &mut hours.windows[place];
    match random.below(3) {
        0 => window.end = window.start,
        1 => window.start = past,
        _ => window.end = past,
    }
}

/// Entries for a minute: most often one for each block, and at times some of them bad.
pub fn entries(random: &mut Random, minute: usize) -> Vec<BlockHours> {
    let len = random.one_of(&[BLOCKS, BLOCKS, BLOCKS, BLOCKS, 0, 1, 20, BLOCKS - 1, BLOCKS + 1, 2 * BLOCKS]);
    let mut entries: Vec<BlockHours> = (0..len).map(|_| entry(random, minute)).collect();
    if random.percent(20) && len > 0 {
        for _ in 0..1 + random.below(3) {
            let block = random.below(len);
            spoil(random, &mut entries[block]);
        }
    }
    entries
}

/// An hours call, with a minute out of range at times.
pub fn call(random: &mut Random) -> Call {
    let minute = match random.below(10) {
        0 => random.one_of(&[WEEK_MINUTES, u16::MAX.into(), 1 << 16, usize::MAX]),
        1 | 2 => random.one_of(&[0, 1, WEEK_MINUTES - 2, WEEK_MINUTES - 1]),
        _ => random.below(WEEK_MINUTES),
    };
    Call::Hours { minute, hours: entries(random, minute % WEEK_MINUTES) }
}
