//! What a call must answer.
use super::board::PlainBoard;
use crate::{Answer, Row};

/// What a call answers, given rows enough; `after` is the board where the call changes it.
#[derive(Clone, Debug)]
pub struct Foreseen {
    pub answer: Answer,
    pub rows: Vec<Row>,
    pub after: Option<PlainBoard>,
}

impl Foreseen {
    pub fn refused(refusal: usize, detail: usize) -> Self {
        Foreseen { answer: Answer { refusal, detail, ..Answer::default() }, rows: Vec::new(), after: None }
    }

    pub fn accepted(rows: Vec<Row>, after: Option<PlainBoard>) -> Self {
        Foreseen { answer: Answer { count: rows.len(), ..Answer::default() }, rows, after }
    }

    /// The same with that many rows lent.
    pub fn with_rows(self, lent: usize) -> Self {
        match self.rows.len() {
            need if need > lent => Foreseen::refused(8, need),
            _ => self,
        }
    }
}
