//! Rows lent: none, one fewer than needed, as many, one more; and the bounds of numbers, costs, k and sets.
use dolzhev::padded;
use reference::against::Against;
use reference::draw::Draw;
use reference::library;
use reference::random::Shape;
use reference::{BlockHours, Call, Change, Given, Window, BLOCKS, COSTS};

fn row<const D: usize>(number: u16, costs: [u16; D]) -> Given {
    Given { number, block: 0, costs: padded(costs) }
}

fn loaded(c: usize, d: usize, shape: Shape, n: usize, seed: u64) -> Against {
    let mut draw = Draw::new(seed, shape, 65536, c);
    let mut against = Against::over(library::ask, &vec![0; 64 * c + 1024]);
    assert_eq!(against.check(&draw.load(c, d, n), 0).answer.refusal, 0);
    against
}

/// Each call with all four numbers of rows, on a fresh copy of the memory; how many rows it needed.
fn lend_each(against: &Against, call: &Call) -> usize {
    let need = against.foresee(call).rows.len();
    let fewer: &[usize] = if need == 0 { &[] } else { &[0, need - 1] };
    for &lent in fewer {
        let mut copy = Against::over(library::ask, against.memory());
        let answer = copy.check(call, lent).answer;
        assert_eq!((answer.refusal, answer.detail), (8, need), "{call:?} with {lent} rows");
    }
    for lent in [need, need + 1] {
        let mut copy = Against::over(library::ask, against.memory());
        let answer = copy.check(call, lent).answer;
        assert_eq!((answer.refusal, answer.count), (0, need), "{call:?} with {lent} rows");
    }
    need
}

/// An hours call with every so many-th block open.
fn hours(steps: usize) -> Call {
    let entry = |block| match block % steps {
        0 => BlockHours::of([Window { start: 7, end: 3 }]),
        _ => BlockHours::default(),
    };
    Call::Hours { minute: 2, hours: (0..BLOCKS).map(entry).collect() }
}

fn calls_on(against: &Against, free: u16) -> Vec<Call> {
    let board = against.model().board.as_ref().unwrap();
    let (first, last) = (board.moves[0], board.moves[board.moves.len() - 1]);
    let listed = board.list[board.list.len() / 2];
    let (least, block) = ([0; COSTS], 9);
    let changes = [
        Change::Enter(Given { number: free, block, costs: least }),
        Change::Enter(Given { number: free, block, costs: last.costs }),
        Change::Withdraw(first.number),
        Change::Withdraw(listed.number),
        Change::Recost(Given { number: listed.number, block, costs: last.costs }),
        Change::Recost(Given { number: last.number, block, costs: least }),
        Change::Recost(listed.in_block(block)),
    ];
    let lists = [
        Call::List,
        Call::Band(0),
        Call::Band(3),
        Call::Rank(1),
        Call::Rank(5),
        Call::Rank(4096),
        Call::OnK(board.d),
        Call::OnK(1),
        Call::Chosen(1),
        Call::Chosen(3),
        hours(1),
        hours(2),
        hours(5),
    ];
    changes.into_iter().flat_map(Change::calls).chain(lists).collect()
}

#[test]
fn four_numbers_of_rows() {
    let mut most = 0;
    for (seed, shape) in
        [Shape::Uniform, Shape::Correlated, Shape::AntiCorrelated, Shape::AllListed].into_iter().enumerate()
    {
        for d in 2..=COSTS {
            let against = loaded(64, d, shape, 63, seed as u64);
            let free = (0..64).find(|&x| against.model().board.as_ref().unwrap().find(x).is_none()).unwrap();
            let needs: Vec<usize> = calls_on(&against, free).iter().map(|call| lend_each(&against, call)).collect();
            most = most.max(needs[0]);
        }
    }
    assert_eq!(most, 64, "a move at the origin puts all 63 listed moves out and itself in");
}

/// A re-cost of a full all-listed board to the origin needs C + 1 rows: C left and one entered.
#[test]
fn notice_of_one_row_more_than_the_board() {
    let against = loaded(64, 2, Shape::AllListed, 64, 9);
    assert_eq!(Change::Recost(row(5, [0, 0])).calls().map(|call| lend_each(&against, &call)), [65, 65]);
}

/// The greatest number that a board takes, one past it and the greatest there is; and a number that is not on it.
#[test]
fn numbers_at_the_bound() {
    let mut against = Against::over(library::ask, &[0; 2048]);
    against.check(&Call::Load { c: 16, d: 2, rows: vec![] }, 0);
    for (number, refusal) in [(15, 0), (16, 4), (u16::MAX, 4)] {
        assert_eq!(against.check(&Call::enter(row(number, [3, 3])), 17).answer.refusal, refusal);
    }
    for (number, refusal) in [(14, 6), (15, 0), (16, 4), (u16::MAX, 4)] {
        assert_eq!(against.check(&Call::withdraw(number), 17).answer.refusal, refusal);
    }
}

/// What a call on a copy of the board is refused with.
fn refusal(against: &Against, call: Call) -> usize {
    Against::over(library::ask, against.memory()).check(&call, 17).answer.refusal
}

/// The same of a change and of its preview.
fn refusals(against: &Against, change: Change) -> [usize; 2] {
    change.calls().map(|call| refusal(against, call))
}

/// A cost past d is refused wherever it stands, in a load, an enter and a re-cost.
#[test]
fn costs_past_d() {
    for d in 2..COSTS {
        let mut against = Against::over(library::ask, &[0; 2048]);
        let mut costs = [1; COSTS];
        costs[d..].fill(0);
        against.check(&Call::Load { c: 16, d, rows: vec![row(3, costs)] }, 0);
        assert_eq!(refusals(&against, Change::Enter(row(4, costs))), [0, 0]);
        for place in d..COSTS {
            let mut costs = costs;
            costs[place] = 1;
            let load = Call::Load { c: 16, d, rows: vec![row(4, []), row(3, costs)] };
            assert_eq!(refusal(&against, load), 7, "d {d}: cost {place}");
            assert_eq!(refusals(&against, Change::Enter(row(4, costs))), [7, 7], "d {d}: cost {place}");
            assert_eq!(refusals(&against, Change::Recost(row(3, costs))), [7, 7], "d {d}: cost {place}");
        }
    }
}

/// k is 1 to d, a set of costs 1 to 2 to the power d less 1.
#[test]
fn bounds_of_k_and_sets() {
    for d in 2..=COSTS {
        let against = loaded(16, d, Shape::Uniform, 12, d as u64);
        for (k, expected) in [(0, 7), (1, 0), (d, 0), (d + 1, 7), (usize::MAX, 7)] {
            assert_eq!(refusal(&against, Call::OnK(k)), expected, "d {d}, k of {k}");
        }
        let all = (1 << d) - 1;
        for (set, expected) in [(0, 7), (1, 0), (1 << (d - 1), 0), (all, 0), (all + 1, 7), (all | 1 << 63, 7)] {
            assert_eq!(refusal(&against, Call::Chosen(set)), expected, "d {d}, set {set}");
        }
    }
}
