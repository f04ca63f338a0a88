//! What is asked of a board: a round loads it and has each call once that the board allows, either the changes or their
//! previews.
use crate::boards::{Board, TOP, UNDER};
use reference::random::Random;
use reference::{BlockHours, Call, Change, Costs, Given, Window, BLOCKS};

pub struct Rounds {
    random: Random,
    board: Board,
    c: usize,
    d: usize,
}

/// As the tables have them.
pub const CALLS: [&str; 17] = [
    "sound",
    "load",
    "enter",
    "enter, preview",
    "withdraw, listed",
    "withdraw, listed, preview",
    "withdraw, hidden",
    "withdraw, hidden, preview",
    "re-cost",
    "re-cost, preview",
    "list",
    "band",
    "rank",
    "on k",
    "chosen",
    "hours, all open",
    "hours, half open",
];

/// A call by its name in the tables; one without a name is not timed.
pub type Named = (Option<&'static str>, Call);

/// A change by its name and that of its preview.
type NamedChange = ([&'static str; 2], Change);

/// The change, or in its place the preview. Then the change is made all the same, so that the next one finds the same board.
fn made((names, change): NamedChange, previews: bool) -> Vec<Named> {
    let [made, preview] = names.map(Some);
    match previews {
        true => vec![(preview, Call::Preview(change)), (None, Call::Change(change))],
        false => vec![(made, Call::Change(change))],
    }
}

/// An hours call to which the first blocks, so many, are open. Blocks are drawn, so it does not matter which.
fn hours(open: usize) -> Call {
    let entry = BlockHours::of([Window { start: 360, end: 1320 }]);
    let entries = (0..BLOCKS).map(|block| if block < open { entry } else { BlockHours::default() });
    Call::Hours { minute: 600, hours: entries.collect() }
}

/// Whether the memory is sound is asked by a rank of no rows, which is judged like any other and then turned down.
pub const SOUND: Call = Call::Rank(0);

/// What a call of the rounds is answered.
pub fn refusal(call: &Call) -> usize {
    match *call {
        SOUND => 7,
        _ => 0,
    }
}

/// The numbers of the moves that are listed, and those of the others. By the sum of costs, then by number, whoever hides a move
/// stands before it. None of the programs that are timed is asked: it would have seen the board before the others.
fn parted(rows: &[Given]) -> (Vec<u16>, Vec<u16>) {
    let mut rows: Vec<&Given> = rows.iter().collect();
    rows.sort_by_key(|row| (row.costs.iter().map(|&cost| u32::from(cost)).sum::<u32>(), row.number));
    let (mut listed, mut hidden): (Vec<&Given>, Vec<u16>) = Default::default();
    for row in rows {
        if listed.iter().any(|x| x.costs.iter().zip(&row.costs).all(|(a, b)| a <= b)) {
            hidden.push(row.number);
        } else {
            listed.push(row);
        }
    }
    (listed.iter().map(|row| row.number).collect(), hidden)
}

impl Rounds {
    pub fn new(board: Board, c: usize, d: usize) -> Self {
        Rounds { random: Random::new(1), board, c, d }
    }

    fn costs(&mut self, number: u16) -> Costs {
        self.board.costs(&mut self.random, self.d, number, self.c)
    }

    /// A hidden move is taken away, if there is one. A listed one is taken away and put back, with other costs where its number
    /// leaves a choice. Another gets costs as a third number has them; of a crown it is the move on top, the only listed one.
    fn changes(&mut self, rows: &[Given]) -> Vec<NamedChange> {
        let (listed, hidden) = parted(rows);
        let gone = (!hidden.is_empty()).then(|| self.random.one_of(&hidden));
        let number = self.random.one_of(&listed);
        let left: Vec<u16> = (0..self.c as u16).filter(|&number| Some(number) != gone).collect();
        let [mut other, third] = [(); 2].map(|()| self.random.one_of(&left));
        let mut new = self.costs(third);
        if self.board == Board::Crown {
            other = TOP;
            new = UNDER.costs(&mut self.random, self.d, TOP, self.c);
        }
        let costs = self.costs(number);
        let [block, moved] = [(); 2].map(|()| self.random.block());
        let withdrawn =
            gone.map(|number| (["withdraw, hidden", "withdraw, hidden, preview"], Change::Withdraw(number)));
        let others = [
            (["withdraw, listed", "withdraw, listed, preview"], Change::Withdraw(number)),
            (["enter", "enter, preview"], Change::Enter(Given { number, block, costs })),
            (["re-cost", "re-cost, preview"], Change::Recost(Given { number: other, block: moved, costs: new })),
        ];
        withdrawn.into_iter().chain(others).collect()
    }

    /// With the changes timed, or with their previews.
    pub fn round(&mut self, previews: bool) -> Vec<Named> {
        let rows = self.board.moves(&mut self.random, self.d, self.c);
        let changes = self.changes(&rows).into_iter().flat_map(|change| made(change, previews));
        let others = [
            ("load", Call::Load { c: self.c, d: self.d, rows }),
            ("sound", SOUND),
            ("list", Call::List),
            ("band", Call::Band(2)),
            ("rank", Call::Rank(10)),
            ("on k", Call::OnK(self.d - 1)),
            ("chosen", Call::Chosen((1 << (self.d - 1)) - 1)),
            ("hours, all open", hours(BLOCKS)),
            ("hours, half open", hours(BLOCKS / 2)),
        ];
        others.map(|(name, call)| (Some(name), call)).into_iter().chain(changes).collect()
    }
}
