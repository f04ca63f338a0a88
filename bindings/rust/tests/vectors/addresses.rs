//! The lines on addresses and regions.
use crate::lines::{costs, files, joined, kind, words, Line};
use reference::address;
use reference::{AddressAnswer, AddressWords, Costs, CostsAnswer, RegionAnswer};

const KINDS: [&str; 3] = ["A2", "U2", "R2"];

/// Whoever answers on addresses.
struct Addresses {
    address: fn(usize, &Costs) -> AddressAnswer,
    costs: fn(usize, AddressWords) -> CostsAnswer,
    region: fn(usize, AddressWords, AddressWords) -> RegionAnswer,
}

fn address_words(words: &[u64]) -> AddressWords {
    AddressWords { upper: words[0], lower: words[1] }
}

impl Addresses {
    fn answer(&self, asked: &str) -> String {
        let w = words(asked);
        let d = w[0] as usize;
        match kind(asked) {
            "A2" => {
                let a = (self.address)(d, &costs(&w[1..]));
                joined([a.refusal as u64, a.detail as u64, a.address.upper, a.address.lower])
            }
            "U2" => {
                let a = (self.costs)(d, address_words(&w[1..]));
                format!("{} {} {}", a.refusal, a.detail, joined(a.costs))
            }
            "R2" => {
                let a = (self.region)(d, address_words(&w[1..]), address_words(&w[3..]));
                format!("{} {} {} {} {}", a.refusal, a.detail, joined(a.near), joined(a.far), a.side)
            }
            other => panic!("{other} in a vector"),
        }
    }

    fn play_file(&self, name: &str, lines: &[Line]) -> usize {
        let mut answers = 0;
        for (at, (asked, answer)) in lines.iter().enumerate().filter(|(_, (asked, _))| KINDS.contains(&kind(asked))) {
            assert_eq!(self.answer(asked), *answer, "{name}, line {}: {asked}", at + 1);
            answers += 1;
        }
        answers
    }

    fn play(&self) {
        let answers: usize = files().iter().map(|(name, lines)| self.play_file(name, lines)).sum();
        assert_eq!(answers, 2629);
    }
}

#[test]
fn library_on_addresses() {
    Addresses {
        address: |d, costs| dolzhev_sys::address(d, *costs),
        costs: dolzhev_sys::costs_of,
        region: dolzhev_sys::region,
    }
    .play();
}

#[test]
fn model_on_addresses() {
    Addresses { address: address::address_answer, costs: address::costs_answer, region: address::region_answer }.play();
}
