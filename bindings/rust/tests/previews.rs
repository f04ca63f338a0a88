//! Previews (document 02, Card 2): each answers as its change would on a copy of the board, and the memory keeps every byte.
use dolzhev::{padded, Board, Refusal};
use reference::draw::Draw;
use reference::foreseen::Foreseen;
use reference::library;
use reference::model::Model;
use reference::random::Shape;
use reference::tries::used_board;
use reference::{Answer, Call, Change, Given, Row, BLOCKS, COSTS};
use std::thread;

/// What stands in every row before it is lent.
const FILLER: Row = Row { mark: 0xA5A5, number: 0x5A5A, costs: [0xA5A5; COSTS] };

/// What a call answers, and all rows lent to it as it leaves them.
type Told = (Answer, Vec<Row>);

fn ask(memory: &mut [u8], call: &Call, lent: usize) -> Told {
    let mut rows = vec![FILLER; lent];
    let answer = library::ask(memory, call, &mut rows);
    assert!(rows[answer.count..].iter().all(|row| *row == FILLER), "rows past those told were written by {call:?}");
    (answer, rows)
}

/// The preview of a change; the memory stays.
fn look(memory: &mut [u8], change: Change, lent: usize) -> Told {
    let before = memory.to_vec();
    let told = ask(memory, &Call::Preview(change), lent);
    assert!(memory == before, "the preview of {change:?} wrote the memory");
    told
}

/// The change made after its preview: both have the same answer and the same rows.
fn look_and_make(memory: &mut [u8], change: Change, lent: usize) -> Answer {
    let looked = look(memory, change, lent);
    let made = ask(memory, &Call::Change(change), lent);
    assert_eq!(looked, made, "{change:?} with {lent} rows lent");
    made.0
}

/// A board and what its changes are drawn from.
struct Drawn {
    c: usize,
    draw: Draw,
    memory: Vec<u8>,
    model: Model,
}

impl Drawn {
    /// Half of the board's numbers are taken, and about as many moves come as go.
    fn new(c: usize, d: usize, shape: Shape) -> Self {
        let mut draw = Draw::new((c + d) as u64, shape, 30, c);
        draw.growth = 34;
        let mut memory = vec![0xFF; 64 * c + 1024];
        assert_eq!(ask(&mut memory, &draw.load(c, d, c / 2), 0).0, Answer::default());
        let model = Model::of_memory(&memory);
        Drawn { c, draw, memory, model }
    }

    fn change(&mut self) -> Change {
        self.draw.change(self.model.board.as_ref().expect("a board was loaded"))
    }

    /// What a change must answer, given rows enough.
    fn foresee(&self, change: Change) -> Foreseen {
        self.model.foresee(self.memory.len(), &Call::Change(change))
    }

    fn follow(&mut self, change: Change, foreseen: &Foreseen) {
        self.model.follow(&Call::Change(change), foreseen);
    }
}

/// How many changes were refused with each number, and how many told nodes opened.
#[derive(Debug, Default)]
struct Seen {
    refusals: [usize; 12],
    opened: usize,
}

/// The place of the mark of the first move in Z-order.
fn first_mark(memory: &[u8], c: usize) -> usize {
    16 + 3 * c + usize::from(u16::from_le_bytes([memory[16], memory[17]]))
}

/// A change that is drawn, on copies of the board with no row lent, one fewer than needed, as many and one more, on a copy
/// of which a mark is wrong, and then on the board.
fn step(drawn: &mut Drawn, seen: &mut Seen) {
    let change = drawn.change();
    let foreseen = drawn.foresee(change);
    let need = foreseen.rows.len();
    for lent in [0, need.saturating_sub(1), need, need + 1] {
        let answer = look_and_make(&mut drawn.memory.clone(), change, lent);
        assert_eq!(answer.refusal == 8, lent < need, "{change:?} with {lent} rows lent");
        seen.refusals[8] += usize::from(answer.refusal == 8);
    }
    let mut damaged = drawn.memory.clone();
    damaged[first_mark(&drawn.memory, drawn.c)] ^= 1;
    for memory in [&mut damaged, &mut drawn.memory] {
        let answer = look_and_make(memory, change, drawn.c + 1);
        seen.refusals[answer.refusal] += 1;
        seen.opened += usize::from(answer.opened > 0);
    }
    drawn.follow(change, &foreseen);
}

#[test]
fn answers_of_the_change() {
    let mut seen = Seen::default();
    for d in 2..=COSTS {
        for (c, shape, steps) in
            [(16, Shape::Uniform, 600), (40, Shape::AntiCorrelated, 600), (400, Shape::Uniform, 200)]
        {
            let mut drawn = Drawn::new(c, d, shape);
            (0..steps).for_each(|_| step(&mut drawn, &mut seen));
        }
    }
    for refusal in [0, 3, 4, 5, 6, 7, 8, 11] {
        assert!(seen.refusals[refusal] > 80, "the answer {refusal} hardly came up: {seen:?}");
    }
    assert!(seen.opened > 1000, "few withdrawals opened nodes: {seen:?}");
}

/// A board of size 16, a number that is not on it, and its moves.
fn used() -> (Vec<u8>, u16, Vec<Given>) {
    let memory = used_board(library::ask, 16, 3, 12, 51);
    let board = Model::of_memory(&memory).board.expect("the board is sound");
    let free = (0..16).find(|&number| board.find(number).is_none()).expect("a free number");
    (memory, free, board.given())
}

/// Two previews and then the first change: it answers as its own preview did, not as the last one.
#[test]
fn own_preview() {
    let mut differing = 0;
    for d in 2..=COSTS {
        let mut drawn = Drawn::new(40, d, Shape::AntiCorrelated);
        for _ in 0..100 {
            let changes = [drawn.change(), drawn.change()];
            let [first, last] = changes.map(|change| look(&mut drawn.memory, change, 41));
            let made = ask(&mut drawn.memory, &Call::Change(changes[0]), 41);
            assert_eq!(made, first, "{changes:?}");
            differing += usize::from(first != last);
            let foreseen = drawn.foresee(changes[0]);
            drawn.follow(changes[0], &foreseen);
        }
    }
    assert!(differing > 500, "of 700 last previews {differing} differed from the first");
}

/// Memory that never held a board, and a board with one byte spoilt: C, d, the number of moves, a number, a number twice, a
/// height, a mark, a block.
fn unsound() -> Vec<Vec<u8>> {
    let (memory, ..) = used();
    let mark = first_mark(&memory, 16);
    let with = |at: usize, byte: u8| {
        let mut spoilt = memory.clone();
        assert_ne!(spoilt[at], byte);
        spoilt[at] = byte;
        spoilt
    };
    vec![
        vec![],
        vec![0; 2048],
        memory[..2047].to_vec(),
        with(0, 15),
        with(2, 1),
        with(2, COSTS as u8 + 1),
        with(4, 17),
        with(16, 16),
        with(18, memory[16]),
        with(16 + 2 * 16, 0),
        with(mark, 1 - memory[mark]),
        with(mark + 16, BLOCKS as u8),
    ]
}

/// 3 before all else, with rows lent or none.
#[test]
fn memory_not_sound() {
    let (_, free, moves) = used();
    let [enter, recost] = [free, moves[0].number].map(|number| Given { number, block: 5, costs: padded([1, 2]) });
    let bad = Given { number: 16, block: 64, costs: [1; COSTS] };
    let changes = [Change::Enter(enter), Change::Withdraw(recost.number), Change::Recost(recost)];
    let others = [Change::Enter(bad), Change::Withdraw(bad.number), Change::Recost(bad)];
    for mut memory in unsound() {
        for change in changes.into_iter().chain(others) {
            for lent in [0, 17] {
                let (answer, _) = look(&mut memory, change, lent);
                assert_eq!(answer, Answer { refusal: 3, ..Answer::default() }, "{change:?}");
            }
        }
    }
}

/// A size of which a call takes long enough to meet others.
const SHARED: usize = 400;

/// What a shared board answers to the preview or list of that place.
fn answer(board: &Board, place: usize) -> Result<(Vec<dolzhev::Row>, usize), Refusal> {
    let rows = &mut [dolzhev::Row::default(); Board::notice_rows(SHARED)];
    let number = (place / 5) as u16;
    let x = Given { number, block: 1, costs: padded([number % 7, 3, 0]) };
    let rows = match place % 5 {
        0 => board.preview_enter(x, rows)?,
        1 => return board.preview_withdraw(number, rows).map(|told| (told.rows.to_vec(), told.opened)),
        2 => board.preview_recost(x, rows)?,
        3 => return board.list(rows).map(|told| (told.rows.to_vec(), told.opened)),
        _ => board.band(number.into(), rows)?,
    };
    Ok((rows.to_vec(), 0))
}

/// Several threads, each from another place on, over one memory: all are answered as one alone was.
#[test]
fn at_the_same_time() {
    let mut memory = used_board(library::ask, SHARED, 3, 350, 52);
    let before = memory.clone();
    let board = &Board::over(&mut memory);
    let places = 5 * SHARED;
    let alone: Vec<_> = (0..places).map(|place| answer(board, place)).collect();
    thread::scope(|scope| {
        for start in (0..places).step_by(places / 6) {
            let alone = &alone;
            scope.spawn(move || {
                for place in (start..start + places).map(|place| place % places) {
                    assert_eq!(answer(board, place), alone[place], "place {place}");
                }
            });
        }
    });
    assert!(memory == before, "the memory was written");
    let refused = alone.iter().filter(|told| told.is_err()).count();
    assert!(refused > 300 && places - refused > 1000, "{refused} of {places} refused");
}
