//! The run over many requests, and the program around it.

use std::io::{self, Read, Write};

use crate::kinds::{Answer, Refusal};
use crate::record::{fresh, judge_record, Page};
use crate::steps::step_in_place;
use crate::wire::{answer_bytes, read_request, RECORD};

/// The most requests that a run takes.
pub const RUN_REQUESTS: usize = 2_048;

/// The most bytes that a run takes.
pub const RUN_BYTES: usize = RUN_REQUESTS * RECORD;

/// The most bytes that the program reads.
pub const INPUT_LIMIT: usize = 1_048_576;

/// Answers each request of a run in its own line. A refusal is of the whole
/// run, and touches neither the record nor the answers.
pub fn run(page: &mut Page, requests: &[u8], answers: &mut [u8]) -> Result<(), Refusal> {
    judge_run(page, requests.len(), answers.len())?;
    answer_lines(page, requests, answers);
    Ok(())
}

/// Refusals 1, 12, 13 and 14, in that order.
pub fn judge_run(page: &Page, length: usize, room: usize) -> Result<(), Refusal> {
    judge_record(page)?;
    if !length.is_multiple_of(RECORD) {
        Err(Refusal::NotWhole)
    } else if length > RUN_BYTES {
        Err(Refusal::TooMany)
    } else if room < length {
        Err(Refusal::NoRoom)
    } else {
        Ok(())
    }
}

/// Answers whole requests one after the other, into lines that there is room for.
pub fn answer_lines(page: &mut Page, requests: &[u8], answers: &mut [u8]) {
    let lines = answers.chunks_exact_mut(RECORD);
    for (request, line) in requests.chunks_exact(RECORD).zip(lines) {
        line.copy_from_slice(&answer_bytes(&answer_line(page, request)));
    }
}

/// Answers one request of a run, from its bytes.
pub fn answer_line(page: &mut Page, request: &[u8]) -> Answer {
    let request = read_request(request)?;
    step_in_place(page, &request)
}

/// Reads requests, starts from a fresh record of value 0, and writes the
/// answers; a refusal of the whole is one answer.
pub fn program(input: impl Read, mut output: impl Write) -> io::Result<()> {
    let input = read_input(input)?;
    output.write_all(&answer_input(&input))?;
    output.flush()
}

/// The input as far as it is kept: the bytes of one run, and the length.
struct Input {
    kept: Vec<u8>,
    length: usize,
}

fn read_input(mut input: impl Read) -> io::Result<Input> {
    let mut kept = Vec::new();
    input
        .by_ref()
        .take(RUN_BYTES as u64)
        .read_to_end(&mut kept)?;
    let mut length = kept.len();
    if length == RUN_BYTES {
        let rest = (INPUT_LIMIT - RUN_BYTES) as u64;
        length += io::copy(&mut input.take(rest), &mut io::sink())? as usize;
    }
    Ok(Input { kept, length })
}

fn answer_input(input: &Input) -> Vec<u8> {
    let mut page = fresh(0);
    let mut answers = vec![0; input.kept.len()];
    let whole = judge_run(&page, input.length, input.length)
        .and_then(|()| run(&mut page, &input.kept, &mut answers));
    match whole {
        Ok(()) => answers,
        Err(refusal) => answer_bytes(&Err(refusal)).to_vec(),
    }
}
