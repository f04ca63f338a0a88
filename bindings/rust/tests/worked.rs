//! Document 01's worked board, with Card 4's list, Card 8's blocks, Card 1's nodes opened and Card 2's previews, through the
//! wrapper.
use dolzhev::zorder::{self, Region};
use dolzhev::Mark::{Entered, Left, Listed};
use dolzhev::{padded, BlockHours, Board, Mark, Move, Ranked, Refusal, Row, Window, BLOCKS, COSTS};

const WORKED: [[u16; 2]; 6] = [[1, 6], [3, 7], [2, 2], [5, 1], [6, 2], [2, 2]];

fn given<const D: usize>(number: u16, costs: [u16; D]) -> Move {
    Move { number, block: 0, costs: padded(costs) }
}

fn moves() -> Vec<Move> {
    WORKED.into_iter().zip(0..).map(|(costs, number)| given(number, costs)).collect()
}

fn numbers(rows: &[Row]) -> Vec<u16> {
    rows.iter().map(|row| row.number).collect()
}

fn marked(rows: &[Row]) -> Vec<(Mark, u16)> {
    rows.iter().map(|row| (row.mark(), row.number)).collect()
}

#[test]
fn cases_of_addresses() {
    assert_eq!(WORKED.map(|costs| zorder::address(2, padded(costs)).unwrap()), [22, 31, 12, 35, 44, 12]);
    assert_eq!(zorder::region(2, 12, 22), Ok(Region { near: padded([0, 0]), far: padded([7, 7]), side: 8 }));
    assert_eq!(zorder::region(2, 35, 44), Ok(Region { near: padded([4, 0]), far: padded([7, 3]), side: 4 }));
    assert_eq!(zorder::region(2, 44, 35), Err(Refusal::BadArgument { place: None }));
    assert_eq!(zorder::address(COSTS + 1, padded([])), Err(Refusal::OutOfRange));
}

#[test]
fn cases_of_lists() {
    let mut memory = vec![0; Board::bytes(16)];
    let mut rows = [Row::default(); Board::notice_rows(16)];
    let mut board = Board::over(&mut memory);
    board.load(16, 2, &moves()).unwrap();
    let list = board.list(&mut rows).unwrap();
    assert_eq!((numbers(list.rows), list.opened), (vec![2, 0, 3], 1));
    assert_eq!((list.rows[1].mark(), list.rows[1].costs), (Listed, padded(WORKED[0])));
    assert_eq!(numbers(board.band(2, &mut rows).unwrap()), [2, 5, 0, 3]);
    assert_eq!(numbers(board.band(3, &mut rows).unwrap()), [2, 5, 0, 1, 3, 4]);
    let ranked = |dominated, number: u16| Ranked { dominated, number, costs: padded(WORKED[usize::from(number)]) };
    assert_eq!(board.rank(3, &mut [Ranked::default(); 3]).unwrap(), [ranked(2, 2), ranked(1, 0), ranked(1, 3)]);
    assert_eq!(board.on_k(1, &mut rows).unwrap(), []);
    assert_eq!(numbers(board.chosen(1, &mut rows).unwrap()), [0]);
}

#[test]
fn cases_of_withdrawals() {
    let mut memory = vec![0; Board::bytes(16)];
    let mut rows = [Row::default(); Board::notice_rows(16)];
    let mut board = Board::over(&mut memory);
    board.load(16, 2, &moves()).unwrap();
    let mut withdraw = |number| board.withdraw(number, &mut rows).map(|told| (marked(told.rows), told.opened));
    assert_eq!(withdraw(2), Ok((vec![(Left, 2), (Entered, 5)], 1)));
    assert_eq!(withdraw(5), Ok((vec![(Left, 5)], 1)));
    assert_eq!(withdraw(1), Ok((vec![], 0)));
    assert_eq!(withdraw(3), Ok((vec![(Left, 3), (Entered, 4)], 1)));
}

/// Each is foretold for the board as it stands: nobody has gone, so 5 is hidden still, and so is 4 where 3 would go.
#[test]
fn previews() {
    let mut memory = vec![0; Board::bytes(16)];
    let mut rows = [Row::default(); Board::notice_rows(16)];
    Board::over(&mut memory).load(16, 2, &moves()).unwrap();
    let before = memory.clone();
    let board = &Board::over(&mut memory);
    let mut withdraw = |number| board.preview_withdraw(number, &mut rows).map(|told| (marked(told.rows), told.opened));
    assert_eq!(withdraw(2), Ok((vec![(Left, 2), (Entered, 5)], 1)));
    assert_eq!(withdraw(5), Ok((vec![], 0)));
    assert_eq!(withdraw(3), Ok((vec![(Left, 3)], 1)));
    assert_eq!(withdraw(9), Err(Refusal::NumberAbsent));
    let enter = board.preview_enter(given(6, [2, 1]), &mut rows).map(marked);
    assert_eq!(enter, Ok(vec![(Left, 2), (Left, 3), (Entered, 6)]));
    assert_eq!(board.preview_enter(given(6, [2, 1]), &mut rows[..2]), Err(Refusal::FewRows { needed: 3 }));
    assert_eq!(board.preview_recost(given(0, [9, 9]), &mut rows).map(marked), Ok(vec![(Left, 0)]));
    assert_eq!(board.preview_recost(Move { block: 9, ..moves()[0] }, &mut []), Ok(&[][..]));
    assert_eq!(numbers(board.list(&mut rows).unwrap().rows), [2, 0, 3]);
    assert!(memory == before);
}

#[test]
fn refusals() {
    let mut memory = vec![0; Board::bytes(16)];
    let mut rows = [Row::default(); 2];
    let mut board = Board::over(&mut memory);
    assert_eq!(board.list(&mut rows), Err(Refusal::Unsound));
    assert_eq!(board.load(17, 2, &[]), Err(Refusal::ShortMemory));
    board.load(16, 2, &moves()).unwrap();
    assert_eq!(board.list(&mut rows), Err(Refusal::FewRows { needed: 3 }));
    assert_eq!(board.enter(given(5, [1, 1]), &mut rows), Err(Refusal::NumberTwice { place: None }));
    let outside = Move { block: 64, ..given(5, [1, 1]) };
    assert_eq!(board.enter(outside, &mut rows), Err(Refusal::BlockTooLarge { place: None }));
    assert_eq!(board.withdraw(9, &mut rows), Err(Refusal::NumberAbsent));
    assert_eq!(board.recost(given(0, [1, 1, 1]), &mut rows), Err(Refusal::BadArgument { place: None }));
    assert_eq!(marked(board.recost(given(0, [0, 0]), &mut [Row::default(); 17]).unwrap())[3], (Entered, 0));
    assert_eq!(board.load(16, 2, &[moves()[0], moves()[0]]), Err(Refusal::NumberTwice { place: Some(1) }));
    assert_eq!(board.load(16, 2, &[moves()[0], outside]), Err(Refusal::BlockTooLarge { place: Some(1) }));
    assert_eq!(numbers(board.list(&mut rows).unwrap().rows), [0]);
}

/// Each move in the block of its number; the first blocks are open, so many, from Monday 6:00 to 22:00.
#[test]
fn hours() {
    let mut memory = vec![0; Board::bytes(16)];
    let mut rows = [Row::default(); Board::notice_rows(16)];
    let mut board = Board::over(&mut memory);
    board.load(16, 2, &moves().into_iter().map(|x| Move { block: x.number, ..x }).collect::<Vec<_>>()).unwrap();
    let open = BlockHours::of([Window { start: 360, end: 1320 }]);
    let mut shown = |minute, hours: &[BlockHours]| board.hours(minute, hours, &mut rows).map(numbers);
    assert_eq!(shown(360, &[open; BLOCKS]), Ok(vec![2, 0, 3]));
    assert_eq!(shown(360, &[open; 2]), Ok(vec![0]));
    assert_eq!(shown(1320, &[open; BLOCKS]), Ok(vec![]));
    let mut hours = [open; BLOCKS];
    hours[2] = BlockHours::default();
    assert_eq!(shown(1319, &hours), Ok(vec![5, 0, 3]));
    hours[40] = BlockHours::of([Window { start: 9, end: 9 }]);
    assert_eq!(shown(1319, &hours), Err(Refusal::BadHours { block: 40 }));
    assert_eq!(shown(10_080, &hours), Err(Refusal::BadArgument { place: None }));
    let moved = Move { block: 40, ..moves()[3] };
    assert_eq!(board.recost(moved, &mut []), Ok(&[][..]));
    assert_eq!(numbers(board.hours(400, &[open; 40], &mut rows).unwrap()), [2, 0]);
}

/// A board may lie over memory that another one filled.
#[test]
fn the_memory_is_the_board() {
    let mut memory = vec![0; Board::bytes(16)];
    let mut rows = [Row::default(); 17];
    Board::over(&mut memory).load(16, 2, &[]).unwrap();
    let notice = Board::over(&mut memory).enter(given(3, [4, 4]), &mut rows).unwrap();
    assert_eq!(marked(notice), [(Entered, 3)]);
    let mut moved = memory.clone();
    assert_eq!(numbers(Board::over(&mut moved).list(&mut rows).unwrap().rows), [3]);
}
