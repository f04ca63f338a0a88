//! A call as a value: drawn, made, foreseen and compared.
use crate::{BlockHours, Given};

#[derive(Clone, Copy, Debug, PartialEq, Eq)]
pub enum Change {
    Enter(Given),
    /// The move of that number.
    Withdraw(u16),
    Recost(Given),
}

/// A change is made, or only previewed.
#[derive(Clone, Debug, PartialEq, Eq)]
pub enum Call {
    Load { c: usize, d: usize, rows: Vec<Given> },
    Change(Change),
    Preview(Change),
    List,
    Band(usize),
    Rank(usize),
    OnK(usize),
    Chosen(usize),
    Hours { minute: usize, hours: Vec<BlockHours> },
}

impl Change {
    /// Its preview, and the change made.
    pub fn calls(self) -> [Call; 2] {
        [Call::Preview(self), Call::Change(self)]
    }

    pub fn number(self) -> u16 {
        match self {
            Change::Enter(given) | Change::Recost(given) => given.number,
            Change::Withdraw(number) => number,
        }
    }

    /// The move as it comes; none comes where one is withdrawn.
    pub fn coming(self) -> Option<Given> {
        match self {
            Change::Enter(given) | Change::Recost(given) => Some(given),
            Change::Withdraw(_) => None,
        }
    }
}

impl Call {
    pub fn enter(given: Given) -> Call {
        Call::Change(Change::Enter(given))
    }

    pub fn withdraw(number: u16) -> Call {
        Call::Change(Change::Withdraw(number))
    }

    pub fn recost(given: Given) -> Call {
        Call::Change(Change::Recost(given))
    }
}
