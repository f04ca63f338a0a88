//! The blocks that moves lie in (document 02, Card 8): given by load, enter and re-cost, looked at by the hours call alone.
use dolzhev::padded;
use reference::against::Against;
use reference::layout::blocks;
use reference::library;
use reference::random::{moves, Random, Shape};
use reference::tries::used_board;
use reference::{BlockHours, Call, Change, Costs, Given, Row, Window, BLOCKS, COSTS};

const C: usize = 16;

fn board(d: usize, rows: Vec<Given>) -> Against {
    let mut board = Against::over(library::ask, &[0xFF; 64 * C + 1024]);
    assert_eq!(board.check(&Call::Load { c: C, d, rows }, 0).answer.refusal, 0);
    board
}

/// What a call on a copy of the board is refused with, and the detail.
fn refusal(board: &Against, call: Call) -> (usize, usize) {
    let answer = Against::over(library::ask, board.memory()).check(&call, C + 1).answer;
    (answer.refusal, answer.detail)
}

/// The same of a change and of its preview.
fn refusals(board: &Against, change: Change) -> [(usize, usize); 2] {
    change.calls().map(|call| refusal(board, call))
}

/// A block above 63 is refused after a number out of range and before all else, also where its lower byte would do.
#[test]
fn bounds() {
    let (good, past) = (padded([1, 2]), padded([1, 2, 3]));
    let three = Given { number: 3, block: 63, costs: good };
    let board = board(2, vec![three]);
    for block in (0..=BLOCKS as u16).chain([255, 256, u16::MAX]) {
        let expected = |in_yard: usize| if block > 63 && in_yard != 4 { 11 } else { in_yard };
        for (number, costs, in_yard) in [(4, good, 0), (16, past, 4), (4, past, 7), (3, past, 7), (3, good, 5)] {
            let (refused, given) = (expected(in_yard), Given { number, block, costs });
            let load = Call::Load { c: C, d: 2, rows: vec![three, given] };
            assert_eq!(refusal(&board, load), (refused, refused.min(1)), "load {given:?}");
            assert_eq!(refusals(&board, Change::Enter(given)), [(refused, 0); 2], "enter {given:?}");
        }
        for (number, costs, in_yard) in [(3, good, 0), (16, past, 4), (3, past, 7), (4, past, 7), (4, good, 6)] {
            let given = Given { number, block, costs };
            assert_eq!(refusals(&board, Change::Recost(given)), [(expected(in_yard), 0); 2], "re-cost {given:?}");
        }
    }
}

/// The places of the bytes that differ.
fn differing(before: &[u8], after: &[u8]) -> Vec<usize> {
    (0..before.len()).filter(|&at| before[at] != after[at]).collect()
}

/// A re-cost with equal costs needs no row. Another block alters its one byte, the same block and a preview none.
#[test]
fn block_alone() {
    for d in [2, 5, COSTS] {
        let bytes = used_board(library::ask, C, d, 12, 40 + d as u64);
        let mut against = Against::over(library::ask, &bytes);
        for Given { number, block, costs } in against.model().board.as_ref().unwrap().given() {
            let at = blocks(C) + usize::from(number);
            for other in [block, 0, 63, block ^ 1] {
                let before = against.memory().to_vec();
                let change = Change::Recost(Given { number, block: other, costs });
                for call in change.calls() {
                    let answer = against.check(&call, 0).answer;
                    assert_eq!((answer.refusal, answer.count), (0, 0), "number {number}, block {other}");
                }
                let altered = if before[at] == other as u8 { vec![] } else { vec![at] };
                assert_eq!(differing(&before, against.memory()), altered, "number {number}, block {other}");
                assert_eq!(against.memory()[at], other as u8);
            }
        }
    }
}

/// The blocks' bytes before and after a change that is accepted.
fn blocks_around(board: &mut Against, call: &Call) -> [Vec<u8>; 2] {
    let of = |board: &Against| board.memory()[blocks(C)..][..C].to_vec();
    let before = of(board);
    assert_eq!(board.check(call, C + 1).answer.refusal, 0, "{call:?}");
    [before, of(board)]
}

/// A withdrawal writes no block, enter and re-cost their own alone, whatever it was before.
#[test]
fn other_blocks_stay() {
    let mut random = Random::new(24);
    let mut board = board(2, moves(&mut random, Shape::Uniform, 2, 6, C, C));
    for number in random.numbers(C, C) {
        let [before, after] = blocks_around(&mut board, &Call::withdraw(number));
        assert_eq!(before, after);
        for block in [random.block(), 0, 63] {
            let costs = padded([0; 2].map(|_: u16| random.below(6) as u16));
            let held = board.model().board.as_ref().unwrap().find(number).is_some();
            let given = Given { number, block, costs };
            let call = if held { Call::recost(given) } else { Call::enter(given) };
            let [mut before, after] = blocks_around(&mut board, &call);
            before[usize::from(number)] = block as u8;
            assert_eq!(before, after, "{call:?}");
        }
    }
}

/// The numbers told where one block is open.
fn open(board: &mut Against, block: u16) -> Vec<u16> {
    let mut hours = vec![BlockHours::default(); BLOCKS];
    hours[usize::from(block)] = BlockHours::of([Window { start: 0, end: 1 }]);
    board.check(&Call::Hours { minute: 0, hours }, C).rows.iter().map(|row| row.number).collect()
}

/// Load, enter and re-cost give the block, a re-cost to other costs too; one that is refused leaves it.
#[test]
fn block_given() {
    let costs = padded([4, 4]);
    let mut board = board(2, vec![Given { number: 7, block: 63, costs }]);
    assert_eq!(open(&mut board, 63), [7]);
    board.check(&Call::enter(Given { number: 8, block: 1, costs }), C);
    assert_eq!(open(&mut board, 1), [8]);
    for (block, costs) in [(2, costs), (3, padded([5, 5])), (4, padded([1, 1]))] {
        board.check(&Call::recost(Given { number: 8, block, costs }), C + 1);
        assert_eq!([open(&mut board, block - 1), open(&mut board, block)], [vec![], vec![8]], "block {block}");
    }
    board.check(&Call::recost(Given { number: 8, block: 5, costs: padded([9, 9]) }), 0);
    assert_eq!([open(&mut board, 4), open(&mut board, 5)], [vec![8], vec![]], "8 changes nothing");
    board.check(&Call::withdraw(8), C);
    assert_eq!(open(&mut board, 4), []);
}

/// The calls that do not look at blocks, some of them changes.
fn calls(random: &mut Random, d: usize) -> Vec<Call> {
    let mut number = || random.below(C) as u16;
    let (gone, other) = (number(), number());
    let costs: Costs = std::array::from_fn(|i| if i < d { random.below(6) as u16 } else { 0 });
    let [back, changed] = [gone, other].map(|number| Given { number, block: 9, costs });
    let lists = [Call::List, Call::Band(1), Call::Rank(4), Call::OnK(d - 1), Call::Chosen(3)];
    let changes = [Call::withdraw(gone), Call::recost(changed), Call::enter(back)];
    changes.into_iter().chain(lists).collect()
}

/// The same moves in one block and in many: lists and notices are the same.
#[test]
fn blocks_seen_by_no_other_call() {
    let mut random = Random::new(25);
    for d in 2..=COSTS {
        let rows = moves(&mut random, Shape::Uniform, d, 6, C, C);
        let one: Vec<Given> = rows.iter().map(|&x| Given { block: 0, ..x }).collect();
        let mut boards = [rows, one].map(|rows| board(d, rows));
        for call in (0..20).flat_map(|_| calls(&mut random, d)).collect::<Vec<_>>() {
            let told: [Vec<Row>; 2] = boards.each_mut().map(|board| board.check(&call, C + 1).rows);
            assert_eq!(told[0], told[1], "{call:?}");
        }
    }
}
