//! Long mixed runs against the plain model: answers, rows, details, nodes opened, the tree in memory, and a holder who
//! reads the list once and then follows the notices alone, passing previews by.
use reference::address::key;
use reference::against::{Against, Ask};
use reference::draw::Draw;
use reference::library;
use reference::plain;
use reference::random::{Random, Shape};
use reference::{Call, Move, Row, COSTS};
use Shape::{AllListed, AntiCorrelated, Correlated, Uniform};

struct Run {
    c: usize,
    d: usize,
    shape: Shape,
    span: usize,
    start: usize,
    steps: usize,
}

/// How often each refusal was answered, and how many previews the holder passed by that had rows: by these he would have
/// another list.
#[derive(Debug, Default)]
struct Seen {
    refusals: [usize; 13],
    passed_by: usize,
}

/// Who read the list once and sees notices only; none before, and after the next load.
#[derive(Default)]
struct Holder(Option<Vec<Move>>);

impl Holder {
    fn hear(&mut self, d: usize, call: &Call, rows: &[Row]) {
        match (call, &mut self.0) {
            (Call::Load { .. }, held) => *held = None,
            (Call::List, held @ None) => *held = Some(rows.iter().map(moved).collect()),
            (Call::Change(_), Some(held)) => follow(d, held, rows),
            _ => {}
        }
    }
}

fn moved(row: &Row) -> Move {
    Move { number: row.number, costs: row.costs }
}

fn follow(d: usize, held: &mut Vec<Move>, notice: &[Row]) {
    for row in notice {
        let x = moved(row);
        let place = held.partition_point(|y| key(d, y) < key(d, &x));
        match row.mark {
            1 => assert_eq!(held.remove(place), x, "a row left that was not held"),
            2 => held.insert(place, x),
            mark => panic!("mark {mark} in a notice"),
        }
    }
}

/// Never loaded, every byte of it garbage, and some past what the board needs.
fn garbage(random: &mut Random, c: usize) -> Vec<u8> {
    let mut bytes = vec![0; 64 * c + 1024 + random.below(64)];
    random.fill(&mut bytes);
    bytes
}

/// The calls of a run, after its load; how long the holder followed.
fn go_on(run: &Run, draw: &mut Draw, against: &mut Against, seen: &mut Seen) -> usize {
    let mut holder = Holder::default();
    let mut followed = 0;
    for step in 0..run.steps {
        let board = against.model().board.clone().expect("the load was accepted");
        draw.growth = if step % (run.c / 2 + 16) < run.c / 4 + 8 { 25 } else { 75 };
        let call = if holder.0.is_none() { Call::List } else { draw.call(&board) };
        let foreseen = against.foresee(&call);
        let lent = draw.lent(run.c, foreseen.rows.len());
        let told = against.check_foreseen(&call, foreseen, lent);
        seen.refusals[told.answer.refusal] += 1;
        if told.answer.refusal == 0 {
            holder.hear(board.d, &call, &told.rows);
        }
        seen.passed_by += usize::from(matches!(call, Call::Preview(_)) && !told.rows.is_empty());
        if let (Some(held), Some(board)) = (&holder.0, &against.model().board) {
            assert_eq!(*held, board.list, "after {call:?}");
            followed += 1;
        }
    }
    followed
}

fn play(ask: Ask, run: &Run, seed: u64, seen: &mut Seen) {
    let mut draw = Draw::new(seed, run.shape, run.span, run.c);
    let mut against = Against::over(ask, &garbage(&mut draw.random, run.c));
    seen.refusals[against.check(&Call::List, 5).answer.refusal] += 1;
    against.check(&draw.load(run.c, run.d, run.start), 0);
    let followed = go_on(run, &mut draw, &mut against, seen);
    assert!(followed > run.steps / 2, "the holder followed {followed} calls only");
    assert!(against.is_sound(), "the independent check after the run");
}

fn play_all(ask: Ask, runs: &[Run]) -> Seen {
    let mut seen = Seen::default();
    for (seed, run) in runs.iter().enumerate() {
        play(ask, run, seed as u64, &mut seen);
    }
    seen
}

/// Every d and shape, on a narrow grid where many moves are equal, and on a wide one.
fn runs(c: usize, start: usize, steps: usize) -> Vec<Run> {
    let mut runs = Vec::new();
    for d in 2..=COSTS {
        for (shape, span) in
            [(Uniform, 4), (Uniform, 65536), (Correlated, 200), (AntiCorrelated, 60), (AllListed, 65536)]
        {
            runs.push(Run { c, d, shape, span, start, steps });
        }
    }
    runs
}

/// Each refusal, and more than so many previews that were passed by.
fn assert_seen(seen: &Seen, passed_by: usize) {
    for refusal in [0, 2, 3, 4, 5, 6, 7, 8, 11, 12] {
        assert!(seen.refusals[refusal] > 0, "the answer {refusal} never came up: {seen:?}");
    }
    assert!(seen.passed_by > passed_by, "few previews had rows: {seen:?}");
}

#[test]
fn least_boards() {
    let mut all = runs(16, 0, 3600);
    all.extend(runs(16, 16, 1800));
    all.extend(runs(17, 9, 1800));
    let seen = play_all(library::ask, &all);
    assert_seen(&seen, 10_000);
    assert!(seen.refusals[1] > 0, "memory was never too short: {seen:?}");
}

#[test]
fn middle_boards() {
    let mut all = runs(100, 70, 1080);
    all.extend(runs(256, 256, 360));
    assert_seen(&play_all(library::ask, &all), 2000);
}

#[test]
fn large_boards() {
    assert_seen(&play_all(library::ask, &runs(1000, 900, 72)), 50);
}

#[test]
fn greatest_boards() {
    let shapes = [
        (2, Uniform, 65536),
        (3, Uniform, 300),
        (4, Correlated, 65536),
        (5, AntiCorrelated, 65536),
        (COSTS, Uniform, 65536),
        (2, AllListed, 65536),
    ];
    for (seed, (d, shape, span)) in shapes.into_iter().enumerate() {
        let run = Run { c: 4096, d, shape, span, start: 4090, steps: 48 };
        let mut seen = Seen::default();
        play(library::ask, &run, seed as u64, &mut seen);
        assert!(seen.refusals[0] > 5, "few calls were accepted: {seen:?}");
    }
}

/// The benchmark's yardstick answers as the library does.
#[test]
fn plain_boards() {
    let mut all = runs(16, 5, 960);
    all.extend(runs(100, 90, 240));
    all.extend(runs(400, 380, 72));
    assert_seen(&play_all(plain::ask, &all), 2000);
}
