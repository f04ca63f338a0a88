//! The library, asked by a value: the one file here that calls it.
use crate::{Answer, Call, Change, Row};
use dolzhev_sys as raw;

fn make(memory: &mut [u8], change: Change, rows: &mut [Row]) -> Answer {
    match change {
        Change::Enter(given) => raw::enter(memory, given, rows),
        Change::Withdraw(number) => raw::withdraw(memory, number, rows),
        Change::Recost(given) => raw::recost(memory, given, rows),
    }
}

fn preview(memory: &[u8], change: Change, rows: &mut [Row]) -> Answer {
    match change {
        Change::Enter(given) => raw::preview_enter(memory, given, rows),
        Change::Withdraw(number) => raw::preview_withdraw(memory, number, rows),
        Change::Recost(given) => raw::preview_recost(memory, given, rows),
    }
}

/// The call that a value names. Load is lent no rows.
pub fn ask(memory: &mut [u8], call: &Call, rows: &mut [Row]) -> Answer {
    match *call {
        Call::Load { c, d, rows: ref loaded } => raw::load(memory, c, d, loaded),
        Call::Change(change) => make(memory, change, rows),
        Call::Preview(change) => preview(memory, change, rows),
        Call::List => raw::list(memory, rows),
        Call::Band(b) => raw::band(memory, b, rows),
        Call::Rank(t) => raw::rank(memory, t, rows),
        Call::OnK(k) => raw::on_k(memory, k, rows),
        Call::Chosen(set) => raw::chosen(memory, set, rows),
        Call::Hours { minute, ref hours } => raw::hours(memory, minute, hours, rows),
    }
}
