//! The plain board with document 01's tree beside it.
use super::board::{foresee_load, PlainBoard};
use super::entering::enter;
use super::foreseen::Foreseen;
use super::layout;
use super::loading::load;
use super::node::Node;
use super::withdrawing::{recost, withdraw};
use crate::{Call, Change, Costs, Given, Move};

/// `board` is none until a load is accepted.
#[derive(Clone, Debug, Default)]
pub struct Model {
    pub board: Option<PlainBoard>,
    pub tree: Option<Node>,
}

impl Model {
    /// The board that the bytes hold, if they are sound.
    pub fn of_memory(bytes: &[u8]) -> Self {
        let Some((content, tree)) = layout::sound(bytes) else {
            return Model::default();
        };
        Model { board: Some(PlainBoard::new(content.c, content.d, &content.given())), tree }
    }

    /// What a call answers on memory of that many bytes, given rows enough.
    pub fn foresee(&self, bytes: usize, call: &Call) -> Foreseen {
        if let Call::Load { c, d, ref rows } = *call {
            return foresee_load(bytes, c, d, rows);
        }
        let Some(board) = &self.board else {
            return Foreseen::refused(3, 0);
        };
        let mut foreseen = board.foresee(call);
        if foreseen.answer.refusal == 0 {
            foreseen.answer.opened = self.opened(board, call);
        }
        foreseen
    }

    /// The nodes that an accepted call tells as opened: a list, and a withdrawal of a listed move or its preview.
    fn opened(&self, board: &PlainBoard, call: &Call) -> usize {
        let count = |passes: &dyn Fn(&Node) -> bool| self.tree.as_ref().map_or(0, |root| root.count(passes));
        match *call {
            Call::List => count(&|node| node.opens(board.d, &board.moves)),
            Call::Change(Change::Withdraw(number)) | Call::Preview(Change::Withdraw(number)) => {
                let listed = board.list.iter().find(|x| x.number == number);
                listed.map_or(0, |x| count(&|node| node.opens_for(board.d, &board.list, x)))
            }
            _ => 0,
        }
    }

    /// The call made: `foreseen` is what it answered.
    pub fn follow(&mut self, call: &Call, foreseen: &Foreseen) {
        let Some(after) = &foreseen.after else {
            return;
        };
        self.tree = match *call {
            Call::Load { .. } => load(&after.moves),
            Call::Change(Change::Enter(given)) => Some(enter(after.d, self.tree.take(), &given.into())),
            Call::Change(Change::Withdraw(number)) => self.without(number),
            Call::Change(Change::Recost(Given { number, costs, .. })) => self.recosted(number, costs),
            _ => unreachable!("previews and lists change nothing"),
        };
        self.board = Some(after.clone());
    }

    fn held(&self, number: u16) -> (usize, Move) {
        let board = self.board.as_ref().expect("an accepted change has a board");
        (board.d, *board.find(number).expect("an accepted change has its move"))
    }

    fn without(&mut self, number: u16) -> Option<Node> {
        let (d, x) = self.held(number);
        withdraw(d, self.tree.take()?, &x)
    }

    fn recosted(&mut self, number: u16, costs: Costs) -> Option<Node> {
        let (d, x) = self.held(number);
        recost(d, self.tree.take()?, &x, costs)
    }
}
