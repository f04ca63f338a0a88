//! `Board` hands on what the archive answers: random runs through both, each on memory of its own.
use dolzhev::{Board, Mark, Ranked, Refusal, Row, Withdrawn};
use reference::against::Against;
use reference::draw::Draw;
use reference::random::Shape;
use reference::{library, Call, Change, Costs};

/// A row with its mark as a number, or with the number of moves dominated.
type Told = (u16, u16, Costs);

fn told(row: &Row) -> Told {
    let mark = match row.mark() {
        Mark::Listed => 0,
        Mark::Left => 1,
        Mark::Entered => 2,
    };
    (mark, row.number, row.costs)
}

fn ranked(row: &Ranked) -> Told {
    (row.dominated, row.number, row.costs)
}

fn withdrawn(notice: Withdrawn) -> (Vec<Told>, usize) {
    (notice.rows.iter().map(told).collect(), notice.opened)
}

/// The rows told and the nodes opened.
fn ask(board: &mut Board, call: &Call, lent: usize) -> Result<(Vec<Told>, usize), Refusal> {
    let rows = &mut vec![Row::default(); lent][..];
    let rows = match *call {
        Call::Load { c, d, rows: ref moves } => return board.load(c, d, moves).map(|()| (Vec::new(), 0)),
        Call::Change(Change::Enter(given)) => board.enter(given, rows)?,
        Call::Change(Change::Withdraw(number)) => return board.withdraw(number, rows).map(withdrawn),
        Call::Change(Change::Recost(given)) => board.recost(given, rows)?,
        Call::Preview(Change::Enter(given)) => board.preview_enter(given, rows)?,
        Call::Preview(Change::Withdraw(number)) => return board.preview_withdraw(number, rows).map(withdrawn),
        Call::Preview(Change::Recost(given)) => board.preview_recost(given, rows)?,
        Call::List => return board.list(rows).map(|list| (list.rows.iter().map(told).collect(), list.opened)),
        Call::Band(b) => board.band(b, rows)?,
        Call::Rank(t) => {
            let rows = &mut vec![Ranked::default(); lent];
            return board.rank(t, rows).map(|rows| (rows.iter().map(ranked).collect(), 0));
        }
        Call::OnK(k) => board.on_k(k, rows)?,
        Call::Chosen(set) => board.chosen(set, rows)?,
        Call::Hours { minute, ref hours } => board.hours(minute, hours, rows)?,
    };
    Ok((rows.iter().map(told).collect(), 0))
}

/// A refusal's number and detail; a place is a load's alone.
fn numbers(call: &Call, refusal: Refusal) -> (usize, usize) {
    use Refusal::{BadArgument, BadHours, BlockTooLarge, FewRows, NumberTooLarge, NumberTwice};
    let detail = match refusal {
        NumberTooLarge { place } | NumberTwice { place } | BadArgument { place } | BlockTooLarge { place } => {
            assert_eq!(place.is_some(), matches!(call, Call::Load { .. }), "{call:?}");
            place.unwrap_or(0)
        }
        FewRows { needed } => needed,
        BadHours { block } => block,
        _ => 0,
    };
    (refusal.number(), detail)
}

fn play(draw: &mut Draw, against: &mut Against, memory: &mut [u8], c: usize, seen: &mut [usize; 13]) {
    let call = match &against.model().board {
        Some(board) => draw.call(&board.clone()),
        None => draw.load(c, 2, 9),
    };
    let foreseen = against.foresee(&call);
    let lent = draw.lent(c, foreseen.rows.len());
    let expected = against.check_foreseen(&call, foreseen, lent);
    let answer = expected.answer;
    seen[answer.refusal] += 1;
    match ask(&mut Board::over(memory), &call, lent) {
        Ok((rows, opened)) => {
            let expected: Vec<Told> = expected.rows.iter().map(|row| (row.mark, row.number, row.costs)).collect();
            assert_eq!((answer.refusal, answer.opened, expected), (0, opened, rows), "{call:?}");
        }
        Err(refusal) => assert_eq!(numbers(&call, refusal), (answer.refusal, answer.detail), "{call:?}"),
    }
    assert!(memory == against.memory(), "{call:?} left other bytes");
}

#[test]
fn board_hands_on_what_the_archive_answers() {
    let mut seen = [0; 13];
    for (seed, c) in [16, 17, 40].into_iter().enumerate() {
        let mut memory = vec![0; Board::bytes(c)];
        assert_eq!(Board::over(&mut memory).list(&mut []), Err(Refusal::Unsound));
        let mut draw = Draw::new(seed as u64, Shape::Uniform, 12, c);
        let mut against = Against::over(library::ask, &memory);
        for _ in 0..4800 {
            play(&mut draw, &mut against, &mut memory, c, &mut seen);
        }
    }
    for refusal in [0, 1, 2, 4, 5, 6, 7, 8, 11, 12] {
        assert!(seen[refusal] > 20, "the answer {refusal} hardly came up: {seen:?}");
    }
}
