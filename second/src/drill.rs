//! The drill: every public function, driven by bytes.
//!
//! Operations come one after the other, each a head of 16 bytes and a payload.
//! Each operation is one small function that gives back what is written for it.

use std::io::{self, BufReader, BufWriter, Read, Write};

use crate::engine::step_by_table;
use crate::image::{read_image, write_image};
use crate::kinds::{answer_number, Answer, Refusal, Request};
use crate::pieces::{finish, take, Carry};
use crate::raw::{read_raw, reader_bytes};
use crate::record::{census, fresh, judge_record, lowest_broken_rule, Page};
use crate::run::run;
use crate::steps::{step, step_in_place, Outcome};
use crate::wire::{answer_bytes, read_request, value_at, write_request, RECORD};

/// The most bytes that are read; the input counts as ended there.
pub const INPUT_LIMIT: usize = 16_777_216;

/// The most bytes that a payload has.
pub const PAYLOAD_LIMIT: usize = 65_536;

/// The most bytes that a buffer has.
pub const BUFFER_LIMIT: usize = 65_536;

/// The bytes of an operation's head.
pub const HEAD: usize = 16;

/// What every byte of a buffer is beforehand.
const FILLING: u8 = 170;

/// The number of a line that says: this has no meaning.
const NO_MEANING: u8 = 255;

/// One operation, as it came.
#[derive(Clone, Debug, PartialEq, Eq)]
#[allow(missing_docs)]
pub struct Operation {
    pub number: u8,
    pub a: u64,
    pub payload: Vec<u8>,
}

/// Reads operations, does them, and writes what each one writes.
pub fn program(input: impl Read, output: impl Write) -> io::Result<()> {
    let mut input = BufReader::new(input.take(INPUT_LIMIT as u64));
    let mut output = BufWriter::new(output);
    let mut drill = Drill::start();
    loop {
        let written = match read_operation(&mut input)? {
            Next::End => break,
            Next::Broken => None,
            Next::Operation(operation) => drill.perform(&operation),
        };
        let Some(written) = written else {
            output.write_all(&line(NO_MEANING))?;
            break;
        };
        output.write_all(&written)?;
    }
    output.flush()
}

/// What comes next in the input.
enum Next {
    Operation(Operation),
    /// The input ends between operations.
    End,
    /// The input ends inside an operation, or the head is one that none has.
    Broken,
}

fn read_operation(input: &mut impl Read) -> io::Result<Next> {
    let head = read_up_to(input, HEAD)?;
    if head.is_empty() {
        return Ok(Next::End);
    }
    let Ok(head) = <[u8; HEAD]>::try_from(head) else {
        return Ok(Next::Broken);
    };
    let length = u32::from_le_bytes([head[4], head[5], head[6], head[7]]) as usize;
    if head[1..4] != [0; 3] || length > PAYLOAD_LIMIT {
        return Ok(Next::Broken);
    }
    let payload = read_up_to(input, length)?;
    if payload.len() < length {
        return Ok(Next::Broken);
    }
    Ok(Next::Operation(Operation {
        number: head[0],
        a: value_at(&head, 8),
        payload,
    }))
}

/// So many bytes, or what is left where the input ends before.
fn read_up_to(input: &mut impl Read, length: usize) -> io::Result<Vec<u8>> {
    let mut bytes = Vec::with_capacity(length);
    input.take(length as u64).read_to_end(&mut bytes)?;
    Ok(bytes)
}

/// What takes one step by value.
type Engine = fn(Page, &Request) -> Outcome;

/// What the drill keeps from one operation to the next.
pub struct Drill {
    page: Page,
    carry: Carry,
}

impl Drill {
    /// At first the page is fresh, of value 0, and nothing is carried.
    pub fn start() -> Drill {
        Drill {
            page: fresh(0),
            carry: Carry::EMPTY,
        }
    }

    /// The page as it is now.
    pub fn page(&self) -> &Page {
        &self.page
    }

    /// The carry as it is now.
    pub fn carry(&self) -> &Carry {
        &self.carry
    }

    /// Does the operation and gives back what is written; none, and nothing is
    /// done, where no such operation is listed.
    pub fn perform(&mut self, operation: &Operation) -> Option<Vec<u8>> {
        let a = operation.a;
        let payload = &operation.payload;
        Some(match operation.number {
            1 => self.fresh(a),
            2 => self.step(step, payload),
            3 => self.step_lent(payload),
            4 => self.run(payload, a),
            5 => write_back(payload, a),
            6 => self.look(),
            7 => self.raw(payload),
            8 => self.read_image(payload),
            9 => self.write_image(a),
            10 => self.take(payload, a),
            11 => answer(finish(&self.carry)),
            12 => self.set_carry(payload),
            13 => self.step(step_by_table, payload),
            _ => return None,
        })
    }

    fn fresh(&mut self, value: u64) -> Vec<u8> {
        self.page = fresh(value);
        answer(Ok(None))
    }

    /// One step by value, by either engine.
    fn step(&mut self, engine: Engine, payload: &[u8]) -> Vec<u8> {
        answer(read_request(payload).and_then(|request| {
            let outcome = engine(self.page.clone(), &request);
            self.page = outcome.page;
            outcome.answer
        }))
    }

    fn step_lent(&mut self, payload: &[u8]) -> Vec<u8> {
        answer(read_request(payload).and_then(|request| step_in_place(&mut self.page, &request)))
    }

    fn run(&mut self, requests: &[u8], room: u64) -> Vec<u8> {
        let mut answers = buffer(room);
        let whole = run(&mut self.page, requests, &mut answers);
        with_buffer(whole, &answers)
    }

    fn look(&self) -> Vec<u8> {
        let readers = self.page.shared_state.listed();
        let mut seen = judgement(&self.page).to_vec();
        seen.extend(summary(&self.page));
        seen.extend(readers.iter().flat_map(|&reader| reader_bytes(reader)));
        seen
    }

    fn raw(&mut self, payload: &[u8]) -> Vec<u8> {
        let Some(page) = read_raw(payload) else {
            return line(NO_MEANING).to_vec();
        };
        self.page = page;
        answer(Ok(None))
    }

    fn read_image(&mut self, payload: &[u8]) -> Vec<u8> {
        let outcome = read_image(payload);
        self.page = outcome.page;
        answer(outcome.answer)
    }

    fn write_image(&self, room: u64) -> Vec<u8> {
        let mut bytes = buffer(room);
        let written = write_image(&self.page, &mut bytes);
        with_buffer(written, &bytes)
    }

    fn take(&mut self, piece: &[u8], room: u64) -> Vec<u8> {
        let mut answers = buffer(room);
        let taken = take(self.page.clone(), self.carry, piece, &mut answers);
        self.page = taken.page;
        self.carry = taken.carry;
        let number = answer_number(&taken.answer);
        [&line(number)[..], &carry_bytes(&self.carry), &answers].concat()
    }

    fn set_carry(&mut self, payload: &[u8]) -> Vec<u8> {
        let [len, bytes @ ..] = first_sixteen(payload);
        let len = usize::from(len);
        self.carry = Carry { bytes, len };
        answer(Ok(None))
    }
}

fn write_back(payload: &[u8], room: u64) -> Vec<u8> {
    let fields = first_sixteen(payload);
    let request = Request::new(fields[0], fields[1], fields[2], value_at(&fields, 8));
    let mut bytes = buffer(room);
    let written = write_request(&request, &mut bytes);
    with_buffer(written, &bytes)
}

/// The payload's first sixteen bytes; what is missing is zero.
fn first_sixteen(payload: &[u8]) -> [u8; RECORD] {
    let mut bytes = [0; RECORD];
    let given = payload.len().min(RECORD);
    bytes[..given].copy_from_slice(&payload[..given]);
    bytes
}

/// A carry as it is written: its length, then its bytes. No length is above a
/// byte: it came from one, or a piece left it.
fn carry_bytes(carry: &Carry) -> [u8; RECORD] {
    let mut bytes = [0; RECORD];
    bytes[0] = carry.len as u8;
    bytes[1..].copy_from_slice(&carry.bytes);
    bytes
}

/// The first line of a look: soundness, the lowest broken rule, the census.
fn judgement(page: &Page) -> [u8; RECORD] {
    let mut seen = [0; RECORD];
    seen[0] = answer_number(&judge_record(page));
    seen[1] = lowest_broken_rule(page).unwrap_or(0);
    for (place, count) in seen[4..].iter_mut().zip(census(page).as_flattened()) {
        *place = count.0;
    }
    seen
}

/// The second line of a look: flag, storage, the list's length, the counts.
fn summary(page: &Page) -> [u8; RECORD] {
    let mut seen = [0; RECORD];
    seen[0] = page.flag.number();
    seen[1] = u8::from(page.storage.is_some());
    seen[2..4].copy_from_slice(&page.shared_state.length.to_le_bytes());
    for (place, count) in seen[4..8].iter_mut().zip(page.ref_counts) {
        *place = count.0;
    }
    seen[8..].copy_from_slice(&page.storage.unwrap_or(0).to_le_bytes());
    seen
}

/// The buffer that the number `a` asks for, before anything is written.
fn buffer(a: u64) -> Vec<u8> {
    let length = usize::try_from(a).unwrap_or(BUFFER_LIMIT);
    vec![FILLING; length.min(BUFFER_LIMIT)]
}

/// A line, and the buffer right after it.
fn with_buffer(outcome: Result<(), Refusal>, buffer: &[u8]) -> Vec<u8> {
    [&line(answer_number(&outcome)), buffer].concat()
}

fn answer(answer: Answer) -> Vec<u8> {
    answer_bytes(&answer).to_vec()
}

/// A line with this number and without a value.
fn line(number: u8) -> [u8; RECORD] {
    let mut line = [0; RECORD];
    line[0] = number;
    line
}
