//! Every call tried on bytes that may hold a board or not, and boards to damage.
use super::against::{Against, Ask};
use super::draw::Draw;
use super::drawn_hours;
use super::layout;
use super::random::{Random, Shape};
use crate::{Call, Change, Given};

/// How many memories were sound and how many were not.
#[derive(Debug, Default)]
pub struct Seen {
    pub sound: usize,
    pub unsound: usize,
}

impl Seen {
    pub fn count(&mut self, sound: bool) {
        let counted = if sound { &mut self.sound } else { &mut self.unsound };
        *counted += 1;
    }
}

/// One call of each kind, as good as blind but for the number of costs.
fn each_call(random: &mut Random, d: usize) -> Vec<Call> {
    let number = random.below(20) as u16;
    let costs = std::array::from_fn(|i| if i < d { random.below(8) as u16 } else { 0 });
    let [enter, recost] = [(); 2].map(|()| Given { number, block: random.block(), costs });
    let changes = [Change::Enter(enter), Change::Withdraw(number), Change::Recost(recost)];
    let lists = [
        Call::List,
        Call::Band(random.below(4)),
        Call::Rank(1 + random.below(8)),
        Call::OnK(1 + random.below(d + 1)),
        Call::Chosen(1 + random.below(1 << d)),
        drawn_hours::call(random),
    ];
    changes.into_iter().flat_map(Change::calls).chain(lists).collect()
}

/// Every call on a copy of the bytes, and then load, which takes any.
pub fn try_all(ask: Ask, bytes: &[u8], random: &mut Random, seen: &mut Seen) {
    let sound = layout::sound(bytes).is_some();
    let d = layout::content(bytes).map_or(2, |content| content.d);
    for call in each_call(random, d) {
        let mut against = Against::over(ask, bytes);
        let lent = random.one_of(&[0, 3, 17, 40]);
        let answer = against.check(&call, lent).answer;
        assert_eq!(answer.refusal == 3, !sound, "{call:?}");
        assert!(answer.refusal != 0 || against.is_sound(), "{call:?} left memory that is not sound");
    }
    let rows = vec![];
    let mut against = Against::over(ask, bytes);
    assert_eq!(against.check(&Call::Load { c: 17, d: 2, rows }, 0).answer.refusal == 0, bytes.len() >= 2112);
    seen.count(sound);
}

/// A board that has seen changes, in memory that was garbage.
pub fn used_board(ask: Ask, c: usize, d: usize, n: usize, seed: u64) -> Vec<u8> {
    let mut draw = Draw::new(seed, Shape::Uniform, 8, c);
    let mut bytes = vec![0; 64 * c + 1024 + 40];
    draw.random.fill(&mut bytes);
    let mut against = Against::over(ask, &bytes);
    against.check(&draw.load(c, d, n), 0);
    for _ in 0..30 {
        let board = against.model().board.clone().unwrap();
        against.check(&Call::Change(draw.change(&board)), c + 1);
    }
    against.memory().to_vec()
}

/// The bytes with one of them altered.
pub fn flipped(bytes: &[u8], at: usize, random: &mut Random) -> Vec<u8> {
    let mut damaged = bytes.to_vec();
    damaged[at] = match random.below(3) {
        0 => damaged[at] ^ 1 << random.below(8),
        1 => random.one_of(&[0, 1, 2, 3, 255]),
        _ => random.word() as u8,
    };
    damaged
}
