//! What single calls do not show: a board takes every number again and again, and two boards do not see each other.
use reference::against::Against;
use reference::draw::Draw;
use reference::library;
use reference::random::{costs, Random, Shape};
use reference::{Call, Given, COSTS};

fn empty_board(c: usize, d: usize) -> Against {
    let mut against = Against::over(library::ask, &vec![0xFF; 64 * c + 1024]);
    assert_eq!(against.check(&Call::Load { c, d, rows: vec![] }, 0).answer.refusal, 0);
    against
}

/// Every number entered in any order, with C + 1 rows lent; then every number withdrawn.
fn fill_and_empty(against: &mut Against, random: &mut Random, c: usize, d: usize, shape: Shape) {
    for number in random.numbers(c, c) {
        let (block, costs) = (random.block(), costs(random, shape, d, 4096, usize::from(number), c));
        assert_eq!(against.check(&Call::enter(Given { number, block, costs }), c + 1).answer.refusal, 0);
    }
    assert_eq!(against.check(&Call::List, c).answer.refusal, 0);
    for number in random.numbers(c, c) {
        assert_eq!(against.check(&Call::withdraw(number), c + 1).answer.refusal, 0);
    }
    let emptied = against.check(&Call::List, 0).answer;
    assert_eq!((emptied.refusal, emptied.count, emptied.opened), (0, 0, 0));
}

#[test]
fn filled_and_emptied() {
    let mut random = Random::new(1);
    for (c, rounds) in [(16, 6), (100, 2), (300, 1)] {
        for d in 2..=COSTS {
            let mut against = empty_board(c, d);
            for shape in [Shape::Uniform, Shape::AntiCorrelated, Shape::AllListed].repeat(rounds) {
                fill_and_empty(&mut against, &mut random, c, d, shape);
            }
        }
    }
}

/// Calls on two memories in turn, each held against its own model.
#[test]
fn two_boards_in_turn() {
    let board = |d, seed| (Draw::new(seed, Shape::Uniform, 30, 16), empty_board(16, d));
    let mut boards = [board(2, 1), board(COSTS, 2)];
    let mut accepted = 0;
    for _ in 0..1800 {
        for (draw, against) in &mut boards {
            let board = against.model().board.clone().unwrap();
            let answer = against.check(&draw.call(&board), 17).answer;
            accepted += usize::from(answer.refusal == 0);
        }
    }
    assert!(accepted > 1800, "{accepted} calls were accepted");
}
