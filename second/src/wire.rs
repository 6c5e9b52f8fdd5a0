//! Requests and answers, to and from records of 16 bytes.

use crate::kinds::{answer_number, Answer, Refusal, Request, StoredType};
use crate::steps::{judge_bucket, judge_fields, judge_step, judge_unused};

/// The bytes of one request or one answer.
pub const RECORD: usize = 16;

/// Reads one request: refuses 12, then 2 to 4.
pub fn read_request(bytes: &[u8]) -> Result<Request, Refusal> {
    let line: &[u8; RECORD] = bytes.try_into().map_err(|_| Refusal::NotWhole)?;
    let request = Request::new(line[0], line[1], line[2], value_at(line, 8));
    judge_step(&request)?;
    judge_blank(line)?;
    judge_unused(&request)?;
    judge_bucket(&request)?;
    Ok(request)
}

/// Writes one request: refuses 2 to 4, then 14, and then writes nothing.
/// Otherwise only the first 16 bytes of the buffer change.
pub fn write_request(request: &Request, buffer: &mut [u8]) -> Result<(), Refusal> {
    judge_fields(request)?;
    let line = buffer.get_mut(..RECORD).ok_or(Refusal::NoRoom)?;
    line[0] = request.step;
    line[1] = request.bucket;
    line[2] = request.clean;
    line[3..8].fill(0);
    line[8..].copy_from_slice(&request.value.to_le_bytes());
    Ok(())
}

/// The answer as bytes.
pub fn answer_bytes(answer: &Answer) -> [u8; RECORD] {
    let withdrawn = answer.unwrap_or(None);
    let mut line = [0; RECORD];
    line[0] = answer_number(answer);
    line[1] = u8::from(withdrawn.is_some());
    line[8..].copy_from_slice(&withdrawn.unwrap_or(0).to_le_bytes());
    line
}

/// The answer that has these bytes, if one has.
pub fn read_answer(line: &[u8; RECORD]) -> Option<Answer> {
    let answer = match (line[0], line[1]) {
        (0, 0) => Ok(None),
        (0, _) => Ok(Some(value_at(line, 8))),
        (number, _) => Err(refusal(number)?),
    };
    (answer_bytes(&answer) == *line).then_some(answer)
}

/// The value in the eight bytes from this place on, low byte first.
pub fn value_at(bytes: &[u8], place: usize) -> StoredType {
    bytes[place..place + 8]
        .iter()
        .rev()
        .fold(0, |value, &byte| value << 8 | StoredType::from(byte))
}

/// Refusal 3, as far as bytes 3 to 7 go.
fn judge_blank(line: &[u8; RECORD]) -> Result<(), Refusal> {
    if line[3..8].iter().all(|&byte| byte == 0) {
        Ok(())
    } else {
        Err(Refusal::BadField)
    }
}

fn refusal(number: u8) -> Option<Refusal> {
    Some(match number {
        1 => Refusal::NotSound,
        2 => Refusal::UnknownStep,
        3 => Refusal::BadField,
        4 => Refusal::BadBucket,
        5 => Refusal::WrongFlag,
        6 => Refusal::NoHolder,
        7 => Refusal::HolderBucket,
        8 => Refusal::WrongVisited,
        9 => Refusal::OtherCount,
        10 => Refusal::CountFull,
        11 => Refusal::ListFull,
        12 => Refusal::NotWhole,
        13 => Refusal::TooMany,
        14 => Refusal::NoRoom,
        15 => Refusal::ImageLength,
        16 => Refusal::NotImage,
        17 => Refusal::OtherValue,
        _ => return None,
    })
}
