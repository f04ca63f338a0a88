//! Memory that nobody loaded: every call returns, answers 3 exactly where the independent check of the bytes says so, answers
//! as on the board that stands there where they are sound after all, and writes nothing that it may not.
use reference::layout::FORMAT;
use reference::library;
use reference::random::Random;
use reference::tries::{try_all, Seen};
use reference::COSTS;

/// Nothing but zeros, then nothing but random bytes, of any length.
#[test]
fn zeros_and_random_bytes() {
    let mut random = Random::new(11);
    let mut seen = Seen::default();
    let lengths = [0, 1, 2, 3, 5, 6, 15, 16, 17, 100, 2047, 2048, 2049, 2112, 4096];
    for round in 0..600 {
        let mut bytes = vec![0; lengths[round % lengths.len()]];
        if round >= lengths.len() {
            random.fill(&mut bytes);
        }
        try_all(library::ask, &bytes, &mut random, &mut seen);
        assert!(round >= lengths.len() || seen.sound == 0, "zeros are no board");
    }
    assert!(seen.unsound > 500);
}

/// Random bytes with fields that are nearly right, so that every step of the decision is reached.
fn nearly(random: &mut Random) -> Vec<u8> {
    let c = random.one_of(&[16, 16, 16, 17, 15]);
    let mut bytes = vec![0; 64 * c + 1024];
    random.fill(&mut bytes);
    let n = random.below(5);
    bytes[..2].copy_from_slice(&(c as u16).to_le_bytes());
    bytes[2] = random.one_of(&[2, 2, 2, 3, 5, COSTS as u8, COSTS as u8 + 1]);
    bytes[3] = random.one_of(&[FORMAT, FORMAT, FORMAT, FORMAT, FORMAT, FORMAT, 0, FORMAT + 1]);
    bytes[4..6].copy_from_slice(&(n as u16).to_le_bytes());
    for (place, number) in random.numbers(c, n).into_iter().enumerate() {
        bytes[16 + 2 * place..][..2].copy_from_slice(&number.to_le_bytes());
        bytes[16 + 2 * c + place] = if place == 0 { 1 } else { random.one_of(&[0, 0, 0, 0, 0, 0, 1]) };
        bytes[16 + 3 * c + usize::from(number)] = random.one_of(&[0, 1, 1, 2]);
        bytes[16 + 4 * c + usize::from(number)] = random.one_of(&[0, 1, 5, 7, 31, 32, 62, 63, 63, 64]);
        let costs = &mut bytes[16 + 5 * c + 16 * usize::from(number)..][..2 * COSTS];
        for (i, byte) in costs.iter_mut().enumerate() {
            *byte = if i % 2 == 0 { (place + random.below(3)) as u8 } else { 0 };
        }
    }
    bytes
}

#[test]
fn nearly_right_bytes() {
    let mut random = Random::new(12);
    let mut seen = Seen::default();
    for _ in 0..6000 {
        let bytes = nearly(&mut random);
        try_all(library::ask, &bytes, &mut random, &mut seen);
    }
    assert!(seen.sound > 500 && seen.unsound > 500, "{seen:?}");
}

/// More moves than C, where every number that could be read is in range, past the end of the memory if nobody looks.
#[test]
fn more_moves_than_the_board_takes() {
    let mut random = Random::new(19);
    let mut seen = Seen::default();
    for n in [17u16, 100, 1015, 1017, u16::MAX] {
        let mut bytes = vec![0; 2048];
        bytes[..4].copy_from_slice(&[16, 0, 2, FORMAT]);
        bytes[4..6].copy_from_slice(&n.to_le_bytes());
        try_all(library::ask, &bytes, &mut random, &mut seen);
    }
    assert_eq!((seen.sound, seen.unsound), (0, 5));
}
