//! Boards that are right but for the tree: nodes of any number of entries at any level, first, last and root. The calls
//! answer 3 exactly where a number is none that document 01 allows.
use reference::against::Against;
use reference::draw::Draw;
use reference::library;
use reference::random::{Random, Shape};
use reference::tries::{try_all, Seen};

/// Where groups start that cut so many entries: most of 3 to 8, some just beside.
fn cut(random: &mut Random, entries: usize) -> Vec<usize> {
    if entries <= 9 && random.percent(70) {
        return vec![0];
    }
    let mut starts = vec![0];
    let mut at = random.one_of(&[3, 4, 5, 6, 7, 8, 8, 3, 2, 9]);
    while at < entries {
        starts.push(at);
        at += random.one_of(&[3, 4, 5, 6, 7, 8, 8, 3, 3, 4, 5, 6, 7, 8, 2, 9]);
    }
    starts
}

/// Heights of a nest cut at random, level by level, up to one node; now and then a root above that one.
fn heights(random: &mut Random, n: usize) -> Vec<u8> {
    let mut heights = vec![0; n];
    let mut entries: Vec<usize> = (0..n).collect();
    for level in 1.. {
        entries = cut(random, entries.len()).into_iter().map(|start| entries[start]).collect();
        for &place in &entries {
            heights[place] = level;
        }
        if entries.len() == 1 {
            break;
        }
    }
    heights[0] += u8::from(random.percent(4));
    heights
}

#[test]
fn trees_cut_anyhow() {
    let mut random = Random::new(21);
    let mut seen = Seen::default();
    for round in 0..3000 {
        let n = 1 + random.below(60);
        let mut against = Against::over(library::ask, &vec![0; 64 * 60 + 1024]);
        against.check(&Draw::new(round, Shape::Uniform, 50, 60).load(60, 2, n), 0);
        let mut bytes = against.memory().to_vec();
        bytes[16 + 2 * 60..][..n].copy_from_slice(&heights(&mut random, n));
        try_all(library::ask, &bytes, &mut random, &mut seen);
    }
    assert!(seen.sound > 300 && seen.unsound > 300, "{seen:?}");
}
