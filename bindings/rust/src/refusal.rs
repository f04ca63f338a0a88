//! What turns a call down.
use std::error::Error;
use std::fmt;

/// What turned a call down, in the order of the documents' numbers.
#[derive(Clone, Copy, Debug, PartialEq, Eq)]
pub enum Refusal {
    /// 1: the memory is under 64·C + 1,024 bytes.
    ShortMemory,
    /// 2: C or d is out of range.
    OutOfRange,
    /// 3: the memory is not sound.
    Unsound,
    /// 4: the number is at or above C.
    NumberTooLarge {
        /// Of a load the first row that fails, from 0.
        place: Option<usize>,
    },
    /// 5: the number is on the board, or in an earlier row of the load.
    NumberTwice {
        /// Of a load the first row that fails, from 0.
        place: Option<usize>,
    },
    /// 6: the number is not on the board.
    NumberAbsent,
    /// 7: a cost past d is not zero, or an argument is out of range.
    BadArgument {
        /// Of a load the first row that fails, from 0.
        place: Option<usize>,
    },
    /// 8: more rows are needed than lent.
    FewRows {
        /// How many.
        needed: usize,
    },
    /// 11: the block is above 63.
    BlockTooLarge {
        /// Of a load the first row that fails, from 0.
        place: Option<usize>,
    },
    /// 12: a block's hours have a fifth window, a start equal to its end, or a minute past the week.
    BadHours {
        /// The lowest such block.
        block: usize,
    },
}

impl Refusal {
    /// What the numbers of an answer say. A number that no document names comes from an archive that does not fit
    /// this crate, and is not hidden.
    pub(crate) fn judge(refusal: usize, detail: usize, place: Option<usize>) -> Result<(), Refusal> {
        Err(match refusal {
            0 => return Ok(()),
            1 => Refusal::ShortMemory,
            2 => Refusal::OutOfRange,
            3 => Refusal::Unsound,
            4 => Refusal::NumberTooLarge { place },
            5 => Refusal::NumberTwice { place },
            6 => Refusal::NumberAbsent,
            7 => Refusal::BadArgument { place },
            8 => Refusal::FewRows { needed: detail },
            11 => Refusal::BlockTooLarge { place },
            12 => Refusal::BadHours { block: detail },
            other => panic!("the linked archive refused with {other}, which no document names"),
        })
    }

    /// The documents' number.
    pub fn number(&self) -> usize {
        match self {
            Refusal::ShortMemory => 1,
            Refusal::OutOfRange => 2,
            Refusal::Unsound => 3,
            Refusal::NumberTooLarge { .. } => 4,
            Refusal::NumberTwice { .. } => 5,
            Refusal::NumberAbsent => 6,
            Refusal::BadArgument { .. } => 7,
            Refusal::FewRows { .. } => 8,
            Refusal::BlockTooLarge { .. } => 11,
            Refusal::BadHours { .. } => 12,
        }
    }

    /// The words of the header's `dolzhev_refusal_text`.
    fn text(&self) -> &'static str {
        match self {
            Refusal::ShortMemory => "the memory is too short",
            Refusal::OutOfRange => "the board's size or the number of costs is out of range",
            Refusal::Unsound => "the memory is not sound",
            Refusal::NumberTooLarge { .. } => "the number is at or above the board's size",
            Refusal::NumberTwice { .. } => "the number is taken",
            Refusal::NumberAbsent => "the number is not on the board",
            Refusal::BadArgument { .. } => "a cost past d is not zero, or an argument is out of range",
            Refusal::FewRows { .. } => "more rows are needed than lent",
            Refusal::BlockTooLarge { .. } => "the block is above 63",
            Refusal::BadHours { .. } => {
                "a block's hours have a fifth window, a start equal to its end, or a minute past the week"
            }
        }
    }
}

impl fmt::Display for Refusal {
    fn fmt(&self, f: &mut fmt::Formatter) -> fmt::Result {
        use Refusal::{BadArgument, BadHours, BlockTooLarge, FewRows, NumberTooLarge, NumberTwice};
        f.write_str(self.text())?;
        match *self {
            NumberTooLarge { place: Some(place) }
            | NumberTwice { place: Some(place) }
            | BadArgument { place: Some(place) }
            | BlockTooLarge { place: Some(place) } => {
                write!(f, " (row {place})")
            }
            FewRows { needed } => write!(f, " ({needed})"),
            BadHours { block } => write!(f, " (block {block})"),
            _ => Ok(()),
        }
    }
}

impl Error for Refusal {}

#[cfg(test)]
mod tests {
    use super::Refusal;

    #[test]
    fn each_number_and_back() {
        assert_eq!(Refusal::judge(0, 0, None), Ok(()));
        for number in (1..=8).chain(11..=12) {
            let refusal = Refusal::judge(number, 5, Some(5)).unwrap_err();
            assert_eq!(refusal.number(), number);
        }
    }

    #[test]
    #[should_panic(expected = "refused with 9")]
    fn another_number_is_not_hidden() {
        let _ = Refusal::judge(9, 0, None);
    }
}
