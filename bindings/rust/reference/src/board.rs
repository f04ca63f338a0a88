//! Document 01's plain board: the moves in Z-order and, after every change, the list worked out afresh by all pairs.
use super::address::{costs_past, key};
use super::foreseen::Foreseen;
use super::hours;
use super::lists::{band, chosen, on_k, rank, row, skyline};
use crate::{BlockHours, Call, Change, Costs, Given, Move, Row, BLOCKS, COSTS};

#[derive(Clone, Debug, PartialEq, Eq)]
pub struct PlainBoard {
    pub c: usize,
    pub d: usize,
    pub moves: Vec<Move>,
    /// By number, 0 where there is no move.
    pub blocks: Vec<u16>,
    pub list: Vec<Move>,
}

/// What turns a given move down, whatever other moves there are; 0 where nothing does.
pub fn given_refusal(c: usize, d: usize, given: &Given) -> usize {
    if usize::from(given.number) >= c {
        4
    } else if usize::from(given.block) >= BLOCKS {
        11
    } else if costs_past(d, &given.costs) {
        7
    } else {
        0
    }
}

/// What turns a change down on a board that has its number or not, but for 3 and 8; 0 where nothing does.
pub fn change_refusal(c: usize, d: usize, change: Change, on_board: bool) -> usize {
    let given = change.coming().unwrap_or(Given { number: change.number(), ..Given::default() });
    match (given_refusal(c, d, &given), change, on_board) {
        (0, Change::Enter(_), true) => 5,
        (0, Change::Withdraw(_) | Change::Recost(_), false) => 6,
        (refusal, ..) => refusal,
    }
}

/// The moves of one list that are not in the other, compared by number and costs.
fn missing<'a>(c: usize, list: &'a [Move], other: &[Move]) -> impl Iterator<Item = &'a Move> {
    let mut costs = vec![None; c];
    for x in other {
        costs[usize::from(x.number)] = Some(x.costs);
    }
    list.iter().filter(move |x| costs[usize::from(x.number)] != Some(x.costs))
}

/// The rows marked left, then those marked entered.
fn notice(c: usize, before: &[Move], after: &[Move]) -> Vec<Row> {
    let left = missing(c, before, after).map(|x| row(1, x));
    let entered = missing(c, after, before).map(|x| row(2, x));
    left.chain(entered).collect()
}

fn listed(moves: Vec<Move>) -> Vec<Row> {
    moves.iter().map(|x| row(0, x)).collect()
}

/// What a load answers, for memory of that many bytes.
pub fn foresee_load(bytes: usize, c: usize, d: usize, rows: &[Given]) -> Foreseen {
    if !(16..=4096).contains(&c) || !(2..=COSTS).contains(&d) {
        return Foreseen::refused(2, 0);
    }
    if bytes < 64 * c + 1024 {
        return Foreseen::refused(1, 0);
    }
    let mut seen = vec![false; c];
    for (place, given) in rows.iter().enumerate() {
        let refusal = given_refusal(c, d, given);
        if refusal != 0 {
            return Foreseen::refused(refusal, place);
        }
        if std::mem::replace(&mut seen[usize::from(given.number)], true) {
            return Foreseen::refused(5, place);
        }
    }
    Foreseen::accepted(Vec::new(), Some(PlainBoard::new(c, d, rows)))
}

impl PlainBoard {
    pub fn new(c: usize, d: usize, rows: &[Given]) -> Self {
        let mut moves: Vec<Move> = rows.iter().map(|&given| given.into()).collect();
        moves.sort_by_cached_key(|x| key(d, x));
        let mut blocks = vec![0; c];
        for given in rows {
            blocks[usize::from(given.number)] = given.block;
        }
        PlainBoard { c, d, list: skyline(d, &moves), moves, blocks }
    }

    pub fn block_of(&self, x: &Move) -> u16 {
        self.blocks[usize::from(x.number)]
    }

    /// The moves in Z-order, as a load would be given them.
    pub fn given(&self) -> Vec<Given> {
        self.moves.iter().map(|x| x.in_block(self.block_of(x))).collect()
    }

    pub fn find(&self, number: u16) -> Option<&Move> {
        self.moves.iter().find(|x| x.number == number)
    }

    pub fn costs_of(&self, number: u16) -> Option<Costs> {
        self.find(number).map(|x| x.costs)
    }

    /// What turns a call other than load down, and its detail, but for 3 and 8; zeros where nothing does.
    fn refusal(&self, call: &Call) -> (usize, usize) {
        let outside = |fits: bool| if fits { 0 } else { 7 };
        let refusal = match *call {
            Call::Load { .. } | Call::List => 0,
            Call::Change(change) | Call::Preview(change) => {
                change_refusal(self.c, self.d, change, self.find(change.number()).is_some())
            }
            Call::Band(b) => outside(b <= 4095),
            Call::Rank(t) => outside((1..=4096).contains(&t)),
            Call::OnK(k) => outside((1..=self.d).contains(&k)),
            Call::Chosen(set) => outside(set != 0 && set < 1 << self.d),
            Call::Hours { minute, ref hours } => return hours::refusal(minute, hours),
        };
        (refusal, 0)
    }

    /// The board without the change's number, and with a move where one comes.
    fn changed(&self, change: Change) -> PlainBoard {
        let (number, coming) = (change.number(), change.coming());
        let mut after = self.clone();
        after.moves.retain(|x| x.number != number);
        after.blocks[usize::from(number)] = coming.map_or(0, |given| given.block);
        if let Some(given) = coming {
            let x = Move::from(given);
            let place = after.moves.partition_point(|y| key(self.d, y) < key(self.d, &x));
            after.moves.insert(place, x);
        }
        after.list = skyline(self.d, &after.moves);
        after
    }

    fn foresee_change(&self, change: Change) -> Foreseen {
        let after = self.changed(change);
        Foreseen::accepted(notice(self.c, &self.list, &after.list), Some(after))
    }

    /// The moves in the blocks that are open at a minute.
    fn open(&self, minute: usize, hours: &[BlockHours]) -> Vec<Move> {
        let open = |x: &&Move| hours::open(minute, hours, self.block_of(x).into());
        self.moves.iter().filter(open).copied().collect()
    }

    /// What a call other than load answers.
    pub fn foresee(&self, call: &Call) -> Foreseen {
        let (refusal, detail) = self.refusal(call);
        if refusal != 0 {
            return Foreseen::refused(refusal, detail);
        }
        let told = |rows| Foreseen::accepted(rows, None);
        match *call {
            Call::Load { .. } => unreachable!("a load does not depend on the board"),
            Call::Change(change) => self.foresee_change(change),
            Call::Preview(change) => told(self.foresee_change(change).rows),
            Call::List => told(listed(skyline(self.d, &self.moves))),
            Call::Band(b) => told(listed(band(self.d, &self.moves, b))),
            Call::Rank(t) => told(rank(self.d, &self.moves, t)),
            Call::OnK(k) => told(listed(on_k(self.d, &self.moves, k))),
            Call::Chosen(set) => told(listed(chosen(self.d, &self.moves, set))),
            Call::Hours { minute, ref hours } => told(listed(skyline(self.d, &self.open(minute, hours)))),
        }
    }
}
