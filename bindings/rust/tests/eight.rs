//! Boards of five to eight costs (document 02, Card 13): costs past the fourth decide dominance, and the upper word of an
//! address decides the order.
use reference::against::Against;
use reference::library;
use reference::{Call, Costs, Given, Row, COSTS};

const C: usize = 16;

/// A board of two moves, number 9 loaded before number 4.
fn board(d: usize, [nine, four]: [Costs; 2]) -> Against {
    let mut board = Against::over(library::ask, &[0xFF; 64 * C + 1024]);
    let rows = vec![Given { number: 9, block: 0, costs: nine }, Given { number: 4, block: 0, costs: four }];
    assert_eq!(board.check(&Call::Load { c: C, d, rows }, 0).answer.refusal, 0);
    board
}

/// The numbers of the rows, each with its mark.
fn told(board: &mut Against, call: Call) -> Vec<(u16, u16)> {
    let told = |row: &Row| (row.mark, row.number);
    board.check(&call, C + 1).rows.iter().map(told).collect()
}

fn level(d: usize) -> Costs {
    std::array::from_fn(|i| if i < d { 5 } else { 0 })
}

/// Two moves that differ in one cost past the fourth: the lesser is listed and the other beaten, however it is asked.
#[test]
fn one_cost_decides() {
    for d in 5..=COSTS {
        for place in 4..d {
            let mut lesser = level(d);
            lesser[place] -= 1;
            let mut board = board(d, [lesser, level(d)]);
            for call in [Call::List, Call::Band(0), Call::OnK(1), Call::OnK(d), Call::Chosen(1 << place)] {
                assert_eq!(told(&mut board, call.clone()), [(0, 9)], "d {d}, cost {place}: {call:?}");
            }
            assert_eq!(told(&mut board, Call::Rank(1)), [(1, 9)], "d {d}, cost {place}");
            let others = Call::Chosen((1 << d) - 1 - (1 << place));
            assert_eq!(told(&mut board, others), [(0, 9), (0, 4)], "d {d}, all but cost {place}");
            assert_eq!(told(&mut board, Call::withdraw(9)), [(1, 9), (2, 4)], "d {d}, cost {place}");
        }
    }
}

/// A move that is less in one cost past the fourth enters the list, though greater in all others.
#[test]
fn one_cost_keeps() {
    for d in 5..=COSTS {
        for place in 4..d {
            let mut least = [0; COSTS];
            least[place] = 5;
            let mut board = board(d, [least, level(d)]);
            assert_eq!(told(&mut board, Call::List), [(0, 9)], "d {d}, cost {place}");
            let mut costs = level(d);
            costs[place] = 4;
            let recost = Call::recost(Given { number: 4, block: 0, costs });
            assert_eq!(told(&mut board, recost), [(2, 4)], "d {d}, cost {place}");
        }
    }
}

/// Two moves whose lower words are in the other order: the upper word decides. The lower word takes 64 / d whole groups.
#[test]
fn upper_word_orders() {
    for d in 5..=COSTS {
        let groups = 64 / d;
        let below: Costs = std::array::from_fn(|i| if i < d { (1 << groups) - 1 } else { 0 });
        let mut above = [0; COSTS];
        above[0] = 1 << (groups + 1);
        let words = |costs| dolzhev_sys::address(d, costs).address;
        assert!(words(below).upper < words(above).upper && words(below).lower > words(above).lower, "d {d}");
        assert_eq!(told(&mut board(d, [below, above]), Call::List), [(0, 9), (0, 4)], "d {d}");
        assert_eq!(told(&mut board(d, [above, below]), Call::List), [(0, 4), (0, 9)], "d {d}");
    }
}
