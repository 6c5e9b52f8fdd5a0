//! Requests in pieces, cut anywhere. What a piece leaves of a request that is not
//! whole is carried to the next.

use crate::kinds::{Answer, Refusal};
use crate::record::{judge_record, Page};
use crate::run::answer_lines;
use crate::wire::RECORD;

/// The most bytes that a piece has.
pub const PIECE: usize = 4_096;

/// The most bytes that are carried.
pub const CARRY: usize = 15;

/// What is carried, and how many bytes that is. It takes whatever can be said, so
/// that one can be held and judged that is not valid.
#[derive(Clone, Copy, Debug, PartialEq, Eq)]
#[allow(missing_docs)]
pub struct Carry {
    pub bytes: [u8; CARRY],
    pub len: usize,
}

impl Carry {
    /// Nothing is carried.
    pub const EMPTY: Carry = Carry {
        bytes: [0; CARRY],
        len: 0,
    };

    /// The carry of these bytes, which are no more than it can have.
    fn of(left: &[u8]) -> Carry {
        let mut carry = Carry::EMPTY;
        carry.bytes[..left.len()].copy_from_slice(left);
        carry.len = left.len();
        carry
    }
}

/// What a piece leaves: the answer to it, the next record, the next carry, and how
/// many lines were written.
#[derive(Clone, Debug, PartialEq, Eq)]
#[allow(missing_docs)]
pub struct Taken {
    pub answer: Answer,
    pub page: Page,
    pub carry: Carry,
    pub lines: usize,
}

/// Answers each whole request at hand in its own line. A refusal is of the whole
/// piece: record and carry come back as they were, and the answers stay.
pub fn take(mut page: Page, carry: Carry, piece: &[u8], answers: &mut [u8]) -> Taken {
    if let Err(refusal) = judge_piece(&page, &carry, piece.len(), answers.len()) {
        return Taken {
            answer: Err(refusal),
            page,
            carry,
            lines: 0,
        };
    }
    let at_hand = [&carry.bytes[..carry.len], piece].concat();
    let lines = at_hand.len() / RECORD;
    let (whole, left) = at_hand.split_at(lines * RECORD);
    answer_lines(&mut page, whole, answers);
    Taken {
        answer: Ok(None),
        page,
        carry: Carry::of(left),
        lines,
    }
}

/// The end of all pieces: nothing may be carried any more, else 12.
pub fn finish(carry: &Carry) -> Answer {
    if *carry == Carry::EMPTY {
        Ok(None)
    } else {
        Err(Refusal::NotWhole)
    }
}

/// Refusals 1, 12, 13 and 14, in that order.
fn judge_piece(page: &Page, carry: &Carry, length: usize, room: usize) -> Result<(), Refusal> {
    judge_record(page)?;
    judge_carry(carry)?;
    if length > PIECE {
        Err(Refusal::TooMany)
    } else if room / RECORD < (carry.len + length) / RECORD {
        Err(Refusal::NoRoom)
    } else {
        Ok(())
    }
}

/// Refusal 12: a carry has no more bytes than there are places, and those past its
/// length are zero.
fn judge_carry(carry: &Carry) -> Result<(), Refusal> {
    match carry.bytes.get(carry.len..) {
        Some(past) if past.iter().all(|&byte| byte == 0) => Ok(()),
        _ => Err(Refusal::NotWhole),
    }
}
