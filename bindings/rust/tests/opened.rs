//! The nodes opened that a withdrawal and its preview tell (document 02, Cards 1 and 2, with Card 4's clause).
use dolzhev::padded;
use reference::against::Against;
use reference::draw::Draw;
use reference::foreseen::Foreseen;
use reference::node::Node;
use reference::random::Shape;
use reference::tries::used_board;
use reference::{layout, library};
use reference::{Call, Change, Given, Move, COSTS};

const C: usize = 40;
const SHAPES: [Shape; 4] = [Shape::Uniform, Shape::Correlated, Shape::AntiCorrelated, Shape::AllListed];

fn over(bytes: &[u8]) -> Against {
    Against::over(library::ask, bytes)
}

/// A board of several levels, changed many times.
fn used(d: usize) -> Against {
    over(&used_board(library::ask, C, d, 24, 60 + d as u64))
}

/// The moves that are listed, and those that are not.
fn parted(board: &Against) -> (Vec<Move>, Vec<Move>) {
    let board = board.model().board.as_ref().unwrap();
    board.moves.iter().partition(|x| board.list.contains(x))
}

/// The tree in the memory and the list beside it.
fn tree_and_list(board: &Against) -> (Option<Node>, Vec<Move>) {
    let (content, tree) = layout::sound(board.memory()).expect("the memory is sound");
    (tree, content.listed)
}

/// The change made after its preview, which answers the same.
fn look_and_make(board: &mut Against, change: Change, lent: usize) -> Foreseen {
    let [preview, told] = change.calls().map(|call| board.check(&call, lent));
    assert_eq!((told.answer.refusal, told.answer), (0, preview.answer), "{change:?}");
    told
}

/// The same on a copy of the board, rows enough being lent.
fn on_copy(board: &Against, change: Change) -> Foreseen {
    look_and_make(&mut over(board.memory()), change, C + 1)
}

#[test]
fn lone_move() {
    for d in 2..=COSTS {
        let mut board = over(&[0; 64 * C + 1024]);
        board.check(&Call::Load { c: C, d, rows: vec![Given { number: 7, block: 3, costs: padded([5, 9]) }] }, 0);
        let answer = look_and_make(&mut board, Change::Withdraw(7), 1).answer;
        assert_eq!((answer.count, answer.opened), (1, 1), "d {d}");
    }
}

/// Leaves that are one point, and the root above them: each far corner equals the move that goes.
#[test]
fn equal_moves() {
    for d in 2..=COSTS {
        let mut board = over(&[0; 64 * C + 1024]);
        let twin = |number| Given { number, block: 0, costs: padded([5, 9]) };
        board.check(&Call::Load { c: C, d, rows: (0..16).map(twin).collect() }, 0);
        let answer = look_and_make(&mut board, Change::Withdraw(0), 2).answer;
        assert_eq!((answer.count, answer.opened), (2, 3), "d {d}");
    }
}

/// The nodes by the words for a listed move would count, the root at least; the move is not listed, so none does.
#[test]
fn not_listed() {
    for d in 2..=COSTS {
        let board = used(d);
        let (tree, list) = tree_and_list(&board);
        for x in parted(&board).1 {
            assert!(tree.as_ref().unwrap().opens_for(d, &list, &x), "the root for {x:?}");
            let answer = on_copy(&board, Change::Withdraw(x.number)).answer;
            assert_eq!((answer.count, answer.opened), (0, 0), "{x:?}");
        }
    }
}

/// With a row too few none is told; then the memory is as it was, and with rows enough the same call tells them.
#[test]
fn few_rows() {
    for d in 2..=COSTS {
        let used = used(d);
        for Move { number, .. } in parted(&used).0 {
            let need = used.foresee(&Call::withdraw(number)).rows.len();
            let mut board = over(used.memory());
            for call in Change::Withdraw(number).calls() {
                let answer = board.check(&call, need - 1).answer;
                assert_eq!((answer.refusal, answer.detail, answer.count, answer.opened), (8, need, 0, 0), "{call:?}");
                let answer = board.check(&call, need).answer;
                assert_eq!((answer.refusal, answer.count), (0, need), "{call:?}");
                assert!(answer.opened > 0, "{call:?}");
            }
        }
    }
}

/// A re-cost brings moves up as a withdrawal does; it and enter tell no nodes.
#[test]
fn other_changes() {
    let mut brought_up = 0;
    for d in 2..=COSTS {
        let board = used(d);
        let greatest = std::array::from_fn(|i| if i < d { u16::MAX } else { 0 });
        for Move { number, costs } in parted(&board).0 {
            let told = on_copy(&board, Change::Recost(Given { number, block: 1, costs: greatest }));
            brought_up += told.rows.iter().filter(|row| row.mark == 2).count();
            assert_eq!(told.answer.opened, 0, "{number} re-costed");
            assert_eq!(on_copy(&board, Change::Recost(Given { number, block: 1, costs })).answer.opened, 0, "{number}");
        }
        let free = (0..C as u16).find(|&x| board.model().board.as_ref().unwrap().find(x).is_none()).unwrap();
        for costs in [[0; COSTS], greatest] {
            assert_eq!(on_copy(&board, Change::Enter(Given { number: free, block: 1, costs })).answer.opened, 0);
        }
    }
    assert!(brought_up > 20, "{brought_up} moves came up");
}

/// Under a node that is not counted there is neither one that is nor a move that came up.
fn check_below(node: &Node, counts: &dyn Fn(&Node) -> bool, entered: &[u16]) {
    if counts(node) {
        if let Node::Upper(children) = node {
            children.iter().for_each(|child| check_below(child, counts, entered));
        }
        return;
    }
    assert_eq!(node.count(counts), 0, "nodes counted under {node}");
    assert!(!node.moves().iter().any(|x| entered.contains(&x.number)), "{entered:?} came up, some under {node}");
}

/// How many withdrawals brought moves up, and how many would have told another number by the tree after, by the list after, by
/// leaves alone, or by the near corners alone.
#[derive(Debug, Default)]
struct Seen {
    brought_up: usize,
    otherwise: [usize; 4],
}

/// A listed move withdrawn.
fn withdraw(board: &mut Against, x: Move, seen: &mut Seen) {
    let model = board.model().board.clone().unwrap();
    let (tree, list) = tree_and_list(board);
    let root = tree.unwrap();
    let counts = |node: &Node| node.opens_for(model.d, &list, &x);
    let told = look_and_make(board, Change::Withdraw(x.number), model.c + 1);
    let entered: Vec<u16> = told.rows.iter().filter(|row| row.mark == 2).map(|row| row.number).collect();
    let opened = told.answer.opened;
    assert_eq!(opened, root.count(&counts), "{x:?}");
    assert!(opened > 0, "the root counts for {x:?}");
    check_below(&root, &counts, &entered);

    let (after, list_after) = tree_and_list(board);
    let others: Vec<Move> = list.iter().filter(|y| y.number != x.number).copied().collect();
    let otherwise = [
        after.map_or(0, |root| root.count(&counts)),
        root.count(&|node| node.opens_for(model.d, &list_after, &x)),
        root.count(&|node| matches!(node, Node::Leaf(_)) && counts(node)),
        root.count(&|node| node.opens(model.d, &others)),
    ];
    seen.brought_up += usize::from(!entered.is_empty());
    for (seen, other) in seen.otherwise.iter_mut().zip(otherwise) {
        *seen += usize::from(other != opened);
    }
}

/// Listed moves withdrawn, each followed by a change of any kind.
fn play(c: usize, d: usize, shape: Shape, span: usize, seed: u64, seen: &mut Seen) {
    let mut draw = Draw::new(seed, shape, span, c);
    let mut board = over(&vec![0; 64 * c + 1024]);
    board.check(&draw.load(c, d, c), 0);
    for _ in 0..c / 2 {
        let list = board.model().board.as_ref().unwrap().list.clone();
        withdraw(&mut board, list[draw.random.below(list.len())], seen);
        let model = board.model().board.clone().unwrap();
        board.check(&Call::Change(draw.change(&model)), c + 1);
    }
}

/// Each move that comes up lies under counted nodes only, from its leaf to the root, and a counted node's parent is counted.
#[test]
fn drawn_boards() {
    let mut seen = Seen::default();
    for (seed, shape) in SHAPES.into_iter().enumerate() {
        for d in 2..=COSTS {
            play(16, d, shape, 4, seed as u64, &mut seen);
            play(100, d, shape, 30, seed as u64, &mut seen);
        }
        for d in [2, 3, 5] {
            play(400, d, shape, 65536, seed as u64, &mut seen);
        }
    }
    let least = seen.otherwise.iter().min().unwrap();
    assert!(*least > 200 && seen.brought_up > 200, "the boards tell little: {seen:?}");
}
