//! Enter, withdraw and re-cost on sound memory, and their previews.
use super::bytes::Head;
use super::enter::{enter_row, place_for};
use super::tell::{set_marks, tell};
use super::upkeep::{upkeep_of, Swap, Upkeep};
use super::withdraw::withdraw_row;
use super::{refused, told};
use crate::board::change_refusal;
use crate::{Answer, Change, Move, Row};

/// What an accepted change does to the rows and the list; none where a re-cost keeps the costs.
type Plan = Option<(Swap, Upkeep)>;

/// The plan, found without writing, or what turns the change down.
fn plan(m: &[u8], head: Head, change: Change) -> Result<Plan, Answer> {
    let goes = head.place_of(m, change.number());
    let refusal = change_refusal(head.c.into(), head.d, change, goes.is_some());
    if refusal != 0 {
        return Err(refused(refusal, 0));
    }
    let coming = change.coming().map(Move::from);
    if goes.is_some() && coming.is_some_and(|x| x.costs == head.costs(m, x.number)) {
        return Ok(None);
    }
    let swap = Swap { goes, comes: coming.map(|x| (place_for(m, head, &x), x)) };
    let upkeep = upkeep_of(m, head, &swap);
    Ok(Some((swap, upkeep)))
}

/// The notice told, or 8. The nodes opened are a withdrawal's alone.
fn tell_plan(m: &[u8], head: Head, change: Change, plan: &Plan, rows: &mut [Row]) -> Answer {
    let Some((swap, upkeep)) = plan else {
        return told(0);
    };
    if rows.len() < upkeep.need {
        return refused(8, upkeep.need);
    }
    tell(m, head, swap, upkeep, rows);
    let opened = if let Change::Withdraw(_) = change { upkeep.opened } else { 0 };
    Answer { opened, ..told(upkeep.need) }
}

/// The marks set, and then the rows changed.
fn carry_out(m: &mut [u8], head: Head, swap: &Swap, upkeep: &Upkeep) {
    set_marks(m, head, upkeep);
    let mut left = head;
    if let Some(place) = swap.goes {
        withdraw_row(m, left, place);
        left = left.with_moves(left.n - 1);
    }
    if let Some((_, x)) = swap.comes {
        head.set_listed(m, x.number, upkeep.listed);
        head.set_costs(m, x.number, x.costs);
        enter_row(m, left, &x);
        left = left.with_moves(left.n + 1);
    }
    left.write(m);
}

pub fn preview(m: &[u8], head: Head, change: Change, rows: &mut [Row]) -> Answer {
    match plan(m, head, change) {
        Ok(plan) => tell_plan(m, head, change, &plan, rows),
        Err(refusal) => refusal,
    }
}

pub fn make(m: &mut [u8], head: Head, change: Change, rows: &mut [Row]) -> Answer {
    let plan = match plan(m, head, change) {
        Ok(plan) => plan,
        Err(refusal) => return refusal,
    };
    let answer = tell_plan(m, head, change, &plan, rows);
    if answer.refusal != 0 {
        return answer;
    }
    if let Some((swap, upkeep)) = &plan {
        carry_out(m, head, swap, upkeep);
    }
    if let Some(given) = change.coming() {
        head.set_block(m, given.number, given.block);
    }
    answer
}
