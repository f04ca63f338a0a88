//! Memory that somebody damaged: every call returns, answers 3 exactly where the independent check of the bytes says so,
//! answers as on the board that stands there where they are sound after all, and writes nothing that it may not.
use reference::against::{Against, Ask};
use reference::draw::Draw;
use reference::layout::{self, blocks, FORMAT};
use reference::library;
use reference::plain;
use reference::random::{Random, Shape};
use reference::tries::{flipped, try_all, used_board, Seen};
use reference::{Call, COSTS};

/// The bytes of a board of size c that may decide: head, numbers, heights, marks, blocks, costs.
fn fields(c: usize) -> Vec<usize> {
    (0..16 + 21 * c).collect()
}

fn damage_fields(ask: Ask, seed: u64) -> Seen {
    let mut random = Random::new(seed);
    let mut seen = Seen::default();
    for (c, d, n) in [(16, 2, 12), (16, 3, 14), (17, 4, 13), (16, 5, 14), (17, COSTS, 13), (40, 2, 36)] {
        let bytes = used_board(library::ask, c, d, n, seed + d as u64);
        for at in fields(c) {
            try_all(ask, &flipped(&bytes, at, &mut random), &mut random, &mut seen);
        }
    }
    seen
}

#[test]
fn damaged_fields() {
    let seen = damage_fields(library::ask, 13);
    assert!(seen.sound > 300 && seen.unsound > 300, "{seen:?}");
}

#[test]
fn damaged_fields_of_the_plain_board() {
    let seen = damage_fields(plain::ask, 14);
    assert!(seen.sound > 300 && seen.unsound > 300, "{seen:?}");
}

/// Whether the bytes are sound; list is held against that.
fn list_as_checked(ask: Ask, bytes: &[u8]) -> bool {
    let mut against = Against::over(ask, bytes);
    let sound = against.is_sound();
    assert_eq!(against.check(&Call::List, 48).answer.refusal == 3, !sound);
    sound
}

/// A board of size 48 with eight numbers not on it and many costs equal.
fn board_of_forty(d: usize) -> Vec<u8> {
    let mut loaded = Against::over(library::ask, &vec![0; 64 * 48 + 1024]);
    loaded.check(&Draw::new(d as u64, Shape::Uniform, 8, 48).load(48, d, 40), 0);
    loaded.memory().to_vec()
}

/// Each byte altered in three ways: list finds the memory unsound just where the independent check does.
#[test]
fn every_byte_three_ways() {
    let mut seen = Seen::default();
    for mut bytes in (2..=COSTS).map(board_of_forty) {
        for at in 0..bytes.len() {
            let old = bytes[at];
            for new in [old ^ 1, old ^ 255, 0] {
                bytes[at] = new;
                seen.count(list_as_checked(library::ask, &bytes));
            }
            bytes[at] = old;
        }
    }
    assert!(seen.sound > 1000 && seen.unsound > 1000, "{seen:?}");
}

/// Every value of every block: 3 exactly where the number is on the board and the value above 63.
#[test]
fn every_value_of_a_block() {
    for mut bytes in [2, COSTS].map(board_of_forty) {
        let board = layout::content(&bytes).unwrap();
        for number in 0..48 {
            let on_board = board.moves.iter().any(|x| x.number == number);
            let at = blocks(48) + usize::from(number);
            let old = bytes[at];
            for value in 0..=255 {
                bytes[at] = value;
                assert_eq!(
                    list_as_checked(library::ask, &bytes),
                    !(on_board && value > 63),
                    "number {number}, value {value}"
                );
            }
            bytes[at] = old;
        }
    }
}

/// Memory of another format: every call but load answers 3 and writes no byte.
#[test]
fn every_other_format() {
    let mut random = Random::new(24);
    let mut seen = Seen::default();
    let mut bytes = used_board(library::ask, 16, 3, 12, 9);
    assert_eq!(bytes[3], FORMAT, "a load writes the format");
    for format in (0..=255).filter(|&format| format != FORMAT) {
        bytes[3] = format;
        try_all(library::ask, &bytes, &mut random, &mut seen);
        try_all(plain::ask, &bytes, &mut random, &mut seen);
    }
    assert_eq!((seen.sound, seen.unsound), (0, 2 * 255));
}

/// Several bytes at once, and a whole field copied over another.
#[test]
fn much_damage() {
    let mut random = Random::new(16);
    let mut seen = Seen::default();
    let boards = [3, COSTS].map(|d| used_board(library::ask, 16, d, 14, 5));
    let places = fields(16);
    for round in 0..3000 {
        let mut damaged = boards[round % boards.len()].clone();
        for _ in 0..1 + random.below(4) {
            damaged = flipped(&damaged, random.one_of(&places), &mut random);
        }
        let (from, to) = (16 + 2 * random.below(14), 16 + 2 * random.below(14));
        if random.percent(30) {
            damaged.copy_within(from..from + 2, to);
        }
        try_all(library::ask, &damaged, &mut random, &mut seen);
    }
    assert!(seen.sound > 100 && seen.unsound > 100, "{seen:?}");
}

/// A board in memory one byte too short is none; one with bytes to spare is as good.
#[test]
fn cut_and_longer_memory() {
    let mut random = Random::new(17);
    let mut seen = Seen::default();
    let bytes = used_board(library::ask, 16, 2, 10, 6);
    for length in [0, 16, 2000, 2047] {
        try_all(library::ask, &bytes[..length], &mut random, &mut seen);
    }
    assert_eq!((seen.sound, seen.unsound), (0, 4));
    for length in [2048, 2049, 2088] {
        try_all(library::ask, &bytes[..length], &mut random, &mut seen);
    }
    assert_eq!((seen.sound, seen.unsound), (3, 4));
}

/// On a large board too: damage is found, and a call on what is sound answers right.
#[test]
fn damaged_large_board() {
    let mut random = Random::new(18);
    let mut seen = Seen::default();
    let bytes = used_board(library::ask, 600, 3, 590, 7);
    let places = fields(600);
    for _ in 0..60 {
        let damaged = flipped(&bytes, random.one_of(&places), &mut random);
        try_all(library::ask, &damaged, &mut random, &mut seen);
    }
    assert!(seen.sound > 5 && seen.unsound > 5, "{seen:?}");
}

/// Each mark turned on boards with several times 64 listed moves: what hides a listed one may stand far before it.
#[test]
fn every_mark_of_several_chunks() {
    const C: usize = 300;
    let mut seen = Seen::default();
    for (d, shape) in [(4, Shape::AntiCorrelated), (COSTS, Shape::Uniform)] {
        let mut loaded = Against::over(library::ask, &vec![0; 64 * C + 1024]);
        loaded.check(&Draw::new(d as u64, shape, 65536, C).load(C, d, C), 0);
        for number in 0..C {
            let mut bytes = loaded.memory().to_vec();
            bytes[16 + 3 * C + number] ^= 1;
            for ask in [library::ask as Ask, plain::ask] {
                seen.count(list_as_checked(ask, &bytes));
            }
        }
    }
    assert_eq!((seen.sound, seen.unsound), (0, 4 * C), "{seen:?}");
}
