//! The benchmark's second yardstick: the library's layout, soundness decision and algorithms in ordinary Rust. Each call
//! judges the same bytes in the same way, so that a ratio to it shows what the proved code costs and nothing else.
mod beats;
mod bytes;
mod change;
mod chunks;
mod columns;
mod enter;
mod hiders;
mod hours;
mod lists;
mod load;
mod marks;
mod nodes;
mod order;
mod places;
mod search;
mod set;
mod sound;
mod tell;
mod upkeep;
mod withdraw;

use crate::{Answer, Call, Row};

fn refused(refusal: usize, detail: usize) -> Answer {
    Answer { refusal, detail, ..Answer::default() }
}

fn told(count: usize) -> Answer {
    Answer { count, ..Answer::default() }
}

pub fn ask(memory: &mut [u8], call: &Call, rows: &mut [Row]) -> Answer {
    if let Call::Load { c, d, rows: ref loaded } = *call {
        return load::load(memory, c, d, loaded);
    }
    let Some(head) = sound::sound(memory) else {
        return refused(3, 0);
    };
    match *call {
        Call::Load { .. } => unreachable!("answered above"),
        Call::Change(change) => change::make(memory, head, change, rows),
        Call::Preview(change) => change::preview(memory, head, change, rows),
        Call::List => lists::list(memory, head, rows),
        Call::Band(b) => lists::band(memory, head, b, rows),
        Call::Rank(t) => lists::rank(memory, head, t, rows),
        Call::OnK(k) => lists::on_k(memory, head, k, rows),
        Call::Chosen(set) => lists::chosen(memory, head, set, rows),
        Call::Hours { minute, ref hours } => hours::hours(memory, head, minute, hours, rows),
    }
}
