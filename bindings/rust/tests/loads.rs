//! Loads: the leaves that they make, and refused ones, which leave every byte of the board that stands.
use dolzhev::padded;
use reference::against::Against;
use reference::draw::Draw;
use reference::layout;
use reference::library;
use reference::node::Node;
use reference::random::Shape;
use reference::{Call, Costs, Given, COSTS};

fn leaf_sizes(node: &Node) -> Vec<usize> {
    match node {
        Node::Leaf(moves) => vec![moves.len()],
        Node::Upper(children) => children.iter().flat_map(leaf_sizes).collect(),
    }
}

/// The leaves in memory after a load of n rows, from first to last; list finds the board sound.
fn leaves(c: usize, d: usize, span: usize, n: usize) -> Vec<usize> {
    let mut against = Against::over(library::ask, &vec![0; 64 * c + 1024]);
    let load = Draw::new(n as u64, Shape::Uniform, span, c).load(c, d, n);
    assert_eq!(against.check(&load, 0).answer.refusal, 0);
    assert_eq!(against.check(&Call::List, c).answer.refusal, 0);
    let (_, tree) = layout::sound(against.memory()).expect("a load leaves sound memory");
    tree.as_ref().map_or(Vec::new(), leaf_sizes)
}

#[test]
fn groups_of_a_load() {
    let expected: [(usize, &[usize]); 8] =
        [(0, &[]), (1, &[1]), (8, &[8]), (9, &[6, 3]), (10, &[7, 3]), (11, &[8, 3]), (12, &[8, 4]), (16, &[8, 8])];
    for (c, d, span) in [(16, 2, 65536), (16, 2, 8), (16, 3, 8), (40, 2, 8), (40, 3, 8), (40, 5, 8), (40, COSTS, 65536)]
    {
        for (n, sizes) in expected {
            assert_eq!(leaves(c, d, span, n), sizes, "C {c}, d {d}: a load of {n}");
        }
    }
    for d in 2..=COSTS {
        assert_eq!(leaves(40, d, 8, 17), [8, 6, 3]);
        assert_eq!(leaves(40, d, 8, 40), [8; 5]);
    }
}

/// 40 rows whose numbers below c go round in steps of seven.
fn rows(c: usize) -> Vec<Given> {
    let row = |i: usize| Given {
        number: ((7 * i + 3) % c) as u16,
        block: i as u16,
        costs: padded([i % 8, i % 5].map(|cost| cost as u16)),
    };
    (0..40).map(row).collect()
}

/// What a load answers on memory of so many bytes in which a board of 40 moves stands, as far as they go; refused, it leaves
/// every byte.
fn answer(bytes: usize, c: usize, d: usize, rows: Vec<Given>) -> (usize, usize) {
    let mut standing = Against::over(library::ask, &[0xFF; 3584]);
    assert_eq!(standing.check(&Call::Load { c: 40, d: 2, rows: self::rows(40) }, 0).answer.refusal, 0);
    let mut memory = standing.memory().to_vec();
    memory.resize(bytes, 0xFF);
    let answer = Against::over(library::ask, &memory).check(&Call::Load { c, d, rows }, 0).answer;
    (answer.refusal, answer.detail)
}

/// The load with other rows at some places: number, block and costs.
fn with_rows(others: &[(usize, u16, u16, Costs)]) -> (usize, usize) {
    let mut altered = rows(40);
    for &(place, number, block, costs) in others {
        altered[place] = Given { number, block, costs };
    }
    answer(3584, 40, 2, altered)
}

#[test]
fn rows_refused() {
    let (good, past, last) = (padded([1, 1]), padded([1, 1, 1]), padded([1, 1, 0, 0, 0, 0, 0, 1]));
    assert_eq!(with_rows(&[(5, 3, 63, good)]), (5, 5));
    assert_eq!(with_rows(&[(7, 40, 0, good)]), (4, 7));
    assert_eq!(with_rows(&[(0, u16::MAX, 0, past)]), (4, 0));
    assert_eq!(with_rows(&[(39, 36, 63, last)]), (7, 39));
    assert_eq!(with_rows(&[(5, 38, 0, past), (7, 40, 0, good)]), (7, 5));
    assert_eq!(answer(8192, 16, 2, rows(16)), (5, 16));
}

#[test]
fn sizes_and_memory() {
    for (c, refusal) in [(15, 2), (16, 0), (4096, 0), (4097, 2)] {
        let bytes = 64 * c + 1024;
        assert_eq!(answer(bytes, c, 2, vec![]), (refusal, 0), "C of {c}");
        let short = if refusal == 0 { 1 } else { refusal };
        assert_eq!(answer(bytes - 1, c, 2, vec![]), (short, 0), "C of {c}, one byte short");
    }
    for (d, refusal) in [(0, 2), (1, 2), (2, 0), (COSTS, 0), (COSTS + 1, 2), (usize::MAX, 2)] {
        assert_eq!(answer(2048, 16, d, vec![]), (refusal, 0), "d of {d}");
    }
    assert_eq!(answer(0, 16, 2, vec![]), (1, 0));
    assert_eq!(answer(2048, usize::MAX, 2, vec![]), (2, 0));
}
