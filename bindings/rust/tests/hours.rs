//! The hours call (document 02, Card 8): which minutes a window has, which entries are looked at, what is refused, and that
//! the list is worked out over the moves in open blocks alone.
use dolzhev::padded;
use reference::against::Against;
use reference::drawn_hours::entries;
use reference::library;
use reference::random::{moves, Random, Shape};
use reference::{hours, BlockHours, Call, Given, Row, Window, BLOCKS, COSTS, WEEK_MINUTES, WINDOWS};

const C: usize = 16;
const LAST: u16 = WEEK_MINUTES as u16 - 1;
const ALWAYS: [Window; 2] = [Window { start: 0, end: 5000 }, Window { start: 5000, end: 0 }];

fn board(c: usize, d: usize, rows: Vec<Given>) -> Against {
    let mut board = Against::over(library::ask, &vec![0xFF; 64 * c + 1024]);
    assert_eq!(board.check(&Call::Load { c, d, rows }, 0).answer.refusal, 0);
    board
}

fn given<const D: usize>(number: u16, block: u16, costs: [u16; D]) -> Given {
    Given { number, block, costs: padded(costs) }
}

fn numbers(rows: &[Row]) -> Vec<u16> {
    rows.iter().map(|row| row.number).collect()
}

/// The numbers told at a minute.
fn told(board: &mut Against, minute: usize, hours: &[BlockHours]) -> Vec<u16> {
    let told = board.check(&Call::Hours { minute, hours: hours.to_vec() }, C);
    assert_eq!(told.answer.refusal, 0);
    numbers(&told.rows)
}

/// Entries by which some blocks are open and all others shut.
fn open(blocks: &[u16]) -> Vec<BlockHours> {
    let mut hours = vec![BlockHours::default(); BLOCKS];
    for &block in blocks {
        hours[usize::from(block)] = BlockHours::of(ALWAYS);
    }
    hours
}

/// The refusal and its detail.
fn refused(board: &mut Against, minute: usize, hours: &[BlockHours], lent: usize) -> (usize, usize) {
    let answer = board.check(&Call::Hours { minute, hours: hours.to_vec() }, lent).answer;
    (answer.refusal, answer.detail)
}

/// The minutes of a window, gone through one after the other from its start on.
fn mark_minutes(window: Window, open: &mut [bool]) {
    let mut minute = usize::from(window.start);
    while minute != usize::from(window.end) {
        open[minute] = true;
        minute = (minute + 1) % WEEK_MINUTES;
    }
}

/// Each minute of the week, for windows with borders everywhere: alone, over the week's end, one in or after another.
#[test]
fn each_minute_of_the_week() {
    let mut board = board(C, 2, vec![given(3, 5, [1, 1])]);
    let window = |start, end| Window { start, end };
    let cases = [
        BlockHours::of([window(0, 1)]),
        BlockHours::of([window(0, LAST)]),
        BlockHours::of([window(LAST, 0)]),
        BlockHours::of([window(1, 0)]),
        BlockHours::of([window(100, 200)]),
        BlockHours::of([window(200, 100)]),
        BlockHours::of([window(LAST - 1, LAST), window(10, 11)]),
        BlockHours::of([window(100, 200), window(200, 300), window(250, 260)]),
        BlockHours::of([window(9000, 50), window(40, 60), window(60, 61), window(8999, 9000)]),
        BlockHours::of(ALWAYS),
    ];
    for entry in cases {
        let mut minutes = vec![false; WEEK_MINUTES];
        entry.windows[..entry.count.into()].iter().for_each(|&window| mark_minutes(window, &mut minutes));
        let mut hours = vec![BlockHours::default(); BLOCKS];
        hours[5] = entry;
        for (minute, open) in minutes.into_iter().enumerate() {
            assert_eq!(!told(&mut board, minute, &hours).is_empty(), open, "minute {minute} of {entry:?}");
        }
    }
}

#[test]
fn minutes_out_of_range() {
    let mut board = board(C, 2, vec![given(3, 5, [1, 1])]);
    for minute in [WEEK_MINUTES, WEEK_MINUTES + 1, 65535, 65536, 1 << 32, usize::MAX] {
        assert_eq!(refused(&mut board, minute, &open(&[5]), C), (7, 0), "minute {minute}");
    }
}

/// All blocks open: the list.
#[test]
fn all_open() {
    let mut random = Random::new(26);
    for (round, shape) in
        [Shape::Uniform, Shape::Correlated, Shape::AntiCorrelated].into_iter().cycle().take(60).enumerate()
    {
        let (d, n) = (2 + round % (COSTS - 1), random.below(101));
        let mut board = board(100, d, moves(&mut random, shape, d, 9, 100, n));
        let list = board.check(&Call::List, 100).rows;
        let minute = random.below(WEEK_MINUTES);
        let hours = vec![BlockHours::of(ALWAYS); BLOCKS];
        assert_eq!(board.check(&Call::Hours { minute, hours }, 100).rows, list);
    }
}

/// Any blocks open: the list of a board that holds the moves in open blocks and no other.
#[test]
fn list_of_the_open_moves() {
    let mut random = Random::new(27);
    let mut told = 0;
    for round in 0..300 {
        let d = 2 + round % (COSTS - 1);
        let rows = moves(&mut random, Shape::Uniform, d, 12, 200, 200);
        let minute = random.below(WEEK_MINUTES);
        let hours = entries(&mut random, minute);
        if hours::refusal(minute, &hours) != (0, 0) {
            continue;
        }
        let among = rows.iter().filter(|x| hours::open(minute, &hours, x.block.into())).copied().collect();
        let list = board(200, d, among).check(&Call::List, 200).rows;
        assert_eq!(board(200, d, rows).check(&Call::Hours { minute, hours }, 200).rows, list);
        told += list.len();
    }
    assert!(told > 1000, "{told} rows");
}

/// What lies in a shut block hides nothing, neither what it dominates nor a twin of higher number.
#[test]
fn shut_moves_hide_none() {
    let rows =
        vec![given(0, 1, [1, 1]), given(9, 2, [2, 2]), given(4, 3, [2, 2]), given(5, 4, [3, 3]), given(7, 5, [0, 9])];
    let mut board = board(C, 2, rows);
    let mut shown = |blocks: &[u16]| told(&mut board, 77, &open(blocks));
    assert_eq!(shown(&[1, 2, 3, 4, 5]), [0, 7]);
    assert_eq!(shown(&[2, 3, 4, 5]), [4, 7]);
    assert_eq!(shown(&[2, 4, 5]), [9, 7]);
    assert_eq!(shown(&[4, 5]), [5, 7]);
    assert_eq!(shown(&[1, 4]), [0]);
    assert_eq!(shown(&[2, 3]), [4]);
    assert_eq!(shown(&[0, 6, 63]), []);
}

/// A block past the last entry is shut, whatever stands behind the lent entries; entries past the 64th are not looked at.
#[test]
fn entries_looked_at() {
    let board = board(C, 2, (0..16).map(|number| given(number, 4 * number + 3, [number, 15 - number])).collect());
    let bad = BlockHours { count: 9, ..BlockHours::default() };
    let mut rows = [Row::default(); C];
    for len in 0..=2 * BLOCKS {
        for behind in [BlockHours::of(ALWAYS), bad] {
            let mut all = vec![BlockHours::of(ALWAYS); 2 * BLOCKS + 1];
            all[len.min(BLOCKS)..].fill(behind);
            let answer = dolzhev_sys::hours(board.memory(), 5, &all[..len], &mut rows);
            let expected: Vec<u16> = (0..16).filter(|&number| usize::from(4 * number + 3) < len).collect();
            assert_eq!((answer.refusal, numbers(&rows[..answer.count])), (0, expected), "{len} entries");
        }
    }
}

/// Windows past a block's count neither open it nor are refused.
#[test]
fn windows_looked_at() {
    let mut board = board(C, 2, vec![given(3, 5, [1, 1])]);
    let shut = Window { start: 700, end: 800 };
    let bad = Window { start: 12, end: 12 };
    for count in 0..=WINDOWS {
        for behind in [ALWAYS[0], bad, Window { start: u16::MAX, end: 3 }] {
            let mut entry = BlockHours { count: count as u16, windows: [shut; WINDOWS] };
            entry.windows[count..].fill(behind);
            let mut hours = vec![entry; BLOCKS];
            assert_eq!(told(&mut board, 12, &hours), [], "{entry:?}");
            if let Some(last) = count.checked_sub(1) {
                hours[5].windows[last] = Window { start: 12, end: 13 };
                assert_eq!(told(&mut board, 12, &hours), [3], "{:?}", hours[5]);
            }
        }
    }
}

/// Hours that are refused, with one window or more, the last of them bad.
fn bad_entries() -> Vec<BlockHours> {
    let good = Window { start: 3, end: 4 };
    let mut entries: Vec<BlockHours> =
        [5, 6, 255, 256, u16::MAX].map(|count| BlockHours { count, windows: [good; WINDOWS] }).to_vec();
    for (start, end) in [(0, 0), (LAST, LAST), (7, 7), (LAST + 1, 3), (3, LAST + 1), (u16::MAX, 0), (0, u16::MAX)] {
        for count in 1..=WINDOWS {
            let mut windows = [good; WINDOWS];
            windows[count - 1] = Window { start, end };
            entries.push(BlockHours { count: count as u16, windows });
        }
    }
    entries
}

/// The lowest bad block is told, with a move in it or not.
#[test]
fn lowest_bad_block() {
    let mut board = board(C, 2, vec![given(3, 5, [1, 1])]);
    for bad in bad_entries() {
        for block in [0, 5, 31, 32, BLOCKS - 1] {
            let mut hours = vec![BlockHours::of(ALWAYS); BLOCKS + 1];
            hours[block] = bad;
            hours[BLOCKS] = bad;
            assert_eq!(refused(&mut board, 12, &hours, C), (12, block), "{bad:?}");
            hours[block..].fill(bad);
            assert_eq!(refused(&mut board, 12, &hours, C), (12, block), "{bad:?} from block {block} on");
            assert_eq!(refused(&mut board, 12, &hours[..block], C), (0, 0), "{bad:?} past the entries");
        }
    }
}

/// Of several reasons the first is told: 3, 7, 12, 8.
#[test]
fn order_of_refusals() {
    let mut unsound = Against::over(library::ask, &[0; 64 * C + 1024]);
    let mut board = board(C, 2, vec![given(3, 5, [1, 1]), given(4, 5, [0, 2])]);
    let bad = [BlockHours { count: 5, ..BlockHours::default() }];
    assert_eq!(refused(&mut unsound, WEEK_MINUTES, &bad, 0), (3, 0));
    assert_eq!(refused(&mut board, WEEK_MINUTES, &bad, 0), (7, 0));
    assert_eq!(refused(&mut board, 0, &bad, 0), (12, 0));
    assert_eq!(refused(&mut board, 0, &open(&[5]), 1), (8, 2));
    assert_eq!(refused(&mut board, 0, &open(&[5]), 2), (0, 0));
    assert_eq!(refused(&mut board, 0, &[], 0), (0, 0));
}

/// On a board without moves nothing is shown, and bad hours are refused all the same.
#[test]
fn empty_board() {
    let mut board = board(C, COSTS, vec![]);
    assert_eq!(told(&mut board, 0, &open(&[0, 63])), []);
    assert_eq!(refused(&mut board, 0, &[BlockHours::of([Window { start: 1, end: 1 }])], 0), (12, 0));
}
