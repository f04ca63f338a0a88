//! Moves with equal costs, shown once (document 02, Card 4).
use dolzhev::padded;
use reference::against::Against;
use reference::library;
use reference::random::Random;
use reference::tries::{try_all, Seen};
use reference::{Call, Given, Row};

const C: usize = 16;
const TWINS: [u16; 4] = [3, 7, 9, 14];

fn given(number: u16, costs: [u16; 2]) -> Given {
    Given { number, block: 0, costs: padded(costs) }
}

fn twin(number: u16) -> Given {
    given(number, [2, 2])
}

/// Four twins, a move beside them in the list and one that they dominate.
fn loaded() -> Against {
    let others = [given(0, [1, 6]), given(1, [3, 3])];
    let rows = TWINS.map(twin).into_iter().chain(others).collect();
    let mut board = Against::over(library::ask, &[0; 64 * (C + 1) + 1024]);
    board.check(&Call::Load { c: C, d: 2, rows }, 0);
    board
}

fn told(rows: &[Row]) -> Vec<(u16, u16)> {
    rows.iter().map(|row| (row.mark, row.number)).collect()
}

fn change(board: &mut Against, call: Call) -> Vec<(u16, u16)> {
    told(&board.check(&call, C + 1).rows)
}

/// Each twin that leaves brings up the next, and the last one what they all dominated.
#[test]
fn one_after_another() {
    let mut board = loaded();
    assert_eq!(told(&board.check(&Call::List, C).rows), [(0, 3), (0, 0)]);
    assert_eq!(change(&mut board, Call::withdraw(7)), []);
    for (number, next) in [(3, 9), (9, 14), (14, 1)] {
        assert_eq!(change(&mut board, Call::withdraw(number)), [(1, number), (2, next)]);
    }
}

/// A twin that comes takes the place of a higher number, and is hidden by a lower one.
#[test]
fn twins_that_come() {
    let mut board = loaded();
    assert_eq!(change(&mut board, Call::enter(twin(4))), []);
    assert_eq!(change(&mut board, Call::enter(twin(2))), [(1, 3), (2, 2)]);
    assert_eq!(change(&mut board, Call::recost(twin(1))), [(1, 2), (2, 1)]);
    assert_eq!(change(&mut board, Call::recost(twin(0))), [(1, 1), (1, 0), (2, 0)]);
    assert_eq!(change(&mut board, Call::recost(given(0, [2, 3]))), [(1, 0), (2, 1)]);
}

/// Band, on k and chosen costs show every twin; rank takes the listed one and counts no twin as dominated.
#[test]
fn the_other_lists() {
    let mut board = loaded();
    let all = [(0, 3), (0, 7), (0, 9), (0, 14), (0, 0)];
    for call in [Call::Band(0), Call::OnK(2), Call::Chosen(3)] {
        assert_eq!(told(&board.check(&call, C).rows), all, "{call:?}");
    }
    assert_eq!(told(&board.check(&Call::Rank(9), C).rows), [(1, 3), (0, 0)]);
}

/// Where a twin of higher number is marked, or the one of lowest is not, no board stands.
#[test]
fn other_marks_of_twins() {
    let bytes = loaded().memory().to_vec();
    let mark = |number: u16| 16 + 3 * C + usize::from(number);
    assert_eq!(TWINS.map(|number| bytes[mark(number)]), [1, 0, 0, 0]);
    let mut random = Random::new(21);
    let mut seen = Seen::default();
    for marks in [[1, 1, 1, 1], [1, 1, 0, 0], [0, 1, 0, 0], [0, 0, 0, 1], [0, 0, 0, 0], [1, 0, 0, 0]] {
        let mut left = bytes.clone();
        for (number, value) in TWINS.into_iter().zip(marks) {
            left[mark(number)] = value;
        }
        try_all(library::ask, &left, &mut random, &mut seen);
    }
    assert_eq!((seen.sound, seen.unsound), (1, 5));
}
