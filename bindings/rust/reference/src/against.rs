//! One memory and the model of it: every call is made on the memory and held against what the model foresees.
use super::foreseen::Foreseen;
use super::layout;
use super::lent::Lent;
use super::model::Model;
use super::written::written;
use crate::{Answer, Call, Row, COSTS};

/// A board's calls, as the library or another program answers them.
pub type Ask = fn(&mut [u8], &Call, &mut [Row]) -> Answer;

const ROW: Row = Row { mark: 0xA5A5, number: 0x5A5A, costs: [0xA5A5; COSTS] };
const BYTE: u8 = 0xA5;

pub struct Against {
    ask: Ask,
    memory: Lent<u8>,
    model: Model,
}

impl Against {
    /// Over any bytes: the model starts as the board that they hold, if they are sound.
    pub fn over(ask: Ask, bytes: &[u8]) -> Self {
        Against { ask, memory: Lent::holding(bytes, BYTE), model: Model::of_memory(bytes) }
    }

    pub fn memory(&self) -> &[u8] {
        self.memory.held()
    }

    pub fn model(&self) -> &Model {
        &self.model
    }

    /// What the call must answer, given rows enough.
    pub fn foresee(&self, call: &Call) -> Foreseen {
        self.model.foresee(self.memory().len(), call)
    }

    /// The call made with that many rows lent, and held against what was foreseen; what it answered.
    pub fn check_foreseen(&mut self, call: &Call, foreseen: Foreseen, lent: usize) -> Foreseen {
        let expected = foreseen.with_rows(lent);
        let before = self.memory().to_vec();
        let given = call.clone();
        let mut rows = Lent::new(lent, ROW);
        let answer = (self.ask)(self.memory.lend(), call, rows.lend());
        assert_eq!(answer, expected.answer, "{given:?} with {lent} rows lent");
        assert_eq!(rows.held()[..answer.count], expected.rows, "the rows of {given:?}");
        assert!(rows.untouched_from(answer.count), "rows past those told were written by {given:?}");
        assert!(rows.margins_kept(), "beside the lent rows {given:?} wrote");
        assert!(self.memory.margins_kept(), "beside the memory {given:?} wrote");
        assert!(*call == given, "its argument was written by {given:?}");
        self.check_memory(call, &expected, &before);
        expected
    }

    pub fn check(&mut self, call: &Call, lent: usize) -> Foreseen {
        let foreseen = self.foresee(call);
        self.check_foreseen(call, foreseen, lent)
    }

    fn check_memory(&mut self, call: &Call, expected: &Foreseen, before: &[u8]) {
        let Some(after) = &expected.after else {
            assert!(self.memory() == before, "{call:?} wrote the memory");
            return;
        };
        let mut others = before.to_vec();
        for part in written(call, self.model.board.as_ref(), after.c) {
            others[part.clone()].copy_from_slice(&self.memory()[part]);
        }
        assert!(self.memory() == others, "{call:?} wrote a byte that it may not");
        self.model.follow(call, expected);
        self.check_content();
    }

    /// Whether the bytes are the model's board, tree and list.
    fn check_content(&self) {
        let board = self.model.board.as_ref().expect("a change leaves a board");
        let content = layout::content(self.memory()).expect("a change leaves fields in range");
        assert_eq!((content.c, content.d), (board.c, board.d));
        assert!(content.given() == board.given(), "the moves or blocks in memory differ");
        assert!(content.listed == board.list, "the kept list differs");
        assert!(content.tree() == Some(self.model.tree.clone()), "the tree in memory differs");
    }

    /// Whether the independent check finds the bytes sound.
    pub fn is_sound(&self) -> bool {
        layout::sound(self.memory()).is_some()
    }
}
