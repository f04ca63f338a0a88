//! The bytes of the lent memory read by the table of docs/DECISIONS.md, and whether they are sound: the heights are taken
//! apart into a nest of nodes, and the nest and the marks are held against document 01.
use super::address::key;
use super::lists::skyline;
use super::node::{Node, LEAST_ENTRIES, MOST_ENTRIES};
use crate::{Given, Move, BLOCKS, COSTS};

/// What byte 3 holds: the number of this layout.
pub const FORMAT: u8 = 1;

/// What the bytes in use say, judged only as far as reading needs it.
#[derive(Clone, Debug)]
pub struct Content {
    pub c: usize,
    pub d: usize,
    pub moves: Vec<Move>,
    pub heights: Vec<u8>,
    /// Of each move, in the same order.
    pub blocks: Vec<u8>,
    pub listed: Vec<Move>,
}

fn word(bytes: &[u8], at: usize) -> u16 {
    u16::from_le_bytes([bytes[at], bytes[at + 1]])
}

/// Where the blocks of a board of size c start, a byte for each number.
pub fn blocks(c: usize) -> usize {
    16 + 4 * c
}

fn stored_move(bytes: &[u8], c: usize, d: usize, number: u16) -> Move {
    let at = 16 + 5 * c + 16 * usize::from(number);
    let mut costs = [0; COSTS];
    for (i, cost) in costs[..d].iter_mut().enumerate() {
        *cost = word(bytes, at + 2 * i);
    }
    Move { number, costs }
}

/// None where C, d, the number of moves or a number is out of range, the format another one or the memory too short.
pub fn content(bytes: &[u8]) -> Option<Content> {
    let head = bytes.get(..16)?;
    let (c, d, n) = (usize::from(word(head, 0)), usize::from(head[2]), usize::from(word(head, 4)));
    let fits = (16..=4096).contains(&c) && (2..=COSTS).contains(&d) && n <= c && bytes.len() >= 64 * c + 1024;
    if !fits || head[3] != FORMAT {
        return None;
    }
    let numbers: Vec<u16> = (0..n).map(|place| word(bytes, 16 + 2 * place)).collect();
    if numbers.iter().any(|&number| usize::from(number) >= c) {
        return None;
    }
    let moves: Vec<Move> = numbers.iter().map(|&number| stored_move(bytes, c, d, number)).collect();
    let marked = |x: &&Move| bytes[16 + 3 * c + usize::from(x.number)] == 1;
    let listed = moves.iter().filter(marked).copied().collect();
    let blocks = moves.iter().map(|x| bytes[blocks(c) + usize::from(x.number)]).collect();
    Some(Content { c, d, heights: bytes[16 + 2 * c..][..n].to_vec(), moves, blocks, listed })
}

/// Where the entries of a node at a level start, counted from its first place: every move of a leaf, and in an upper node
/// the first moves of nodes one level down.
fn starts(level: u8, heights: &[u8]) -> Vec<usize> {
    (0..heights.len()).filter(|&i| i == 0 || heights[i] >= level - 1).collect()
}

/// The node at a level whose moves these are, if it and all below it have entries in number.
fn node(level: u8, least: usize, moves: &[Move], heights: &[u8]) -> Option<Node> {
    let mut ends = starts(level, heights);
    if !(least..=MOST_ENTRIES).contains(&ends.len()) {
        return None;
    }
    if level == 1 {
        return Some(Node::Leaf(moves.to_vec()));
    }
    ends.push(moves.len());
    let parts = ends.windows(2).map(|w| w[0]..w[1]);
    let children = parts.map(|part| node(level - 1, LEAST_ENTRIES, &moves[part.clone()], &heights[part]));
    children.collect::<Option<Vec<Node>>>().map(Node::Upper)
}

impl Content {
    /// The moves as a load would be given them.
    pub fn given(&self) -> Vec<Given> {
        self.moves.iter().zip(&self.blocks).map(|(x, &block)| x.in_block(block.into())).collect()
    }

    /// The tree that the heights make, or none where they make none; within, none stands for the empty board.
    pub fn tree(&self) -> Option<Option<Node>> {
        let Some((&top, others)) = self.heights.split_first() else {
            return Some(None);
        };
        if top == 0 || others.iter().any(|&height| height >= top) {
            return None;
        }
        let least = if top == 1 { 1 } else { 2 };
        node(top, least, &self.moves, &self.heights).map(Some)
    }

    /// Whether the moves stand in Z-order, no number twice.
    fn in_order(&self) -> bool {
        let keys: Vec<(u128, u16)> = self.moves.iter().map(|x| key(self.d, x)).collect();
        let mut numbers: Vec<u16> = self.moves.iter().map(|x| x.number).collect();
        numbers.sort_unstable();
        keys.is_sorted() && numbers.windows(2).all(|w| w[0] != w[1])
    }
}

/// The tree of sound memory, or none where the memory is not sound.
pub fn sound(bytes: &[u8]) -> Option<(Content, Option<Node>)> {
    let content = content(bytes)?;
    let tree = content.tree()?;
    let in_yard = content.blocks.iter().all(|&block| usize::from(block) < BLOCKS);
    let stands = in_yard && content.in_order() && content.listed == skyline(content.d, &content.moves);
    stands.then_some((content, tree))
}
