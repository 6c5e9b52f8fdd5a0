//! Streams of `ops`, taken apart, the past that they give a page, and exact lists.
//! Each test takes of it what it needs.

#![allow(dead_code)]

pub mod history;
pub mod lists;

use std::rc::Rc;

use second::drill::{Drill, Operation};
use second::kinds::{Answer, BucketId, Request, SharedState};
use second::pieces::Carry;
use second::record::Page;
use second::run::answer_line;
use second::wire::{answer_bytes, value_at};

/// The listed operations of a stream, and the bytes that are left: nothing, or
/// how it ends badly.
pub fn operations(mut stream: &[u8]) -> (Vec<Operation>, &[u8]) {
    let mut operations = Vec::new();
    while let Some((operation, rest)) = first_operation(stream) {
        operations.push(operation);
        stream = rest;
    }
    (operations, stream)
}

fn first_operation(stream: &[u8]) -> Option<(Operation, &[u8])> {
    let (head, rest) = stream.split_at_checked(16)?;
    let length = (value_at(head, 0) >> 32) as usize;
    if !(1..=13).contains(&head[0]) || head[1..4] != [0; 3] || length > 65_536 {
        return None;
    }
    let (payload, rest) = rest.split_at_checked(length)?;
    let operation = Operation {
        number: head[0],
        a: value_at(head, 8),
        payload: payload.to_vec(),
    };
    Some((operation, rest))
}

/// The requests from one page that is fresh, raw or read to the next, and the
/// operation (1, 7 or 8) that made the page.
pub struct Walk {
    pub origin: u8,
    pub start: Page,
    pub asked: Vec<Asked>,
}

/// One request, single, in a run that was not refused as a whole or in a piece that
/// was not, and its operation (2, 3, 4, 10 or 13). Pages that are equal one after the
/// other are there once, because they are large.
pub struct Asked {
    pub operation: u8,
    pub before: Rc<Page>,
    pub bytes: Vec<u8>,
    pub answer: Answer,
    pub after: Rc<Page>,
}

/// All requests of a stream. On the way it is seen that the drill leaves the
/// pages and writes the answers that single requests do.
pub fn walks(stream: &[u8]) -> Vec<Walk> {
    let mut drill = Drill::start();
    let mut walks = vec![start(1, drill.page())];
    for operation in operations(stream).0 {
        let mut page = drill.page().clone();
        let carry = *drill.carry();
        let written = drill.perform(&operation).unwrap();
        let lines = match operation.number {
            1 | 7 | 8 => {
                walks.push(start(operation.number, drill.page()));
                continue;
            }
            2 | 3 | 13 => &written[..],
            4 if written[0] == 0 => &written[16..],
            10 if written[0] == 0 => &written[32..],
            _ => continue,
        };
        let answered = answer(&mut page, &carry, &operation);
        assert_eq!(&page, drill.page());
        for (asked, line) in answered.iter().zip(lines.chunks(16)) {
            assert_eq!(answer_bytes(&asked.answer), line);
        }
        walks.last_mut().unwrap().asked.extend(answered);
    }
    walks
}

fn start(origin: u8, page: &Page) -> Walk {
    Walk {
        origin,
        start: page.clone(),
        asked: Vec::new(),
    }
}

/// The operation's requests, one by one.
fn answer(page: &mut Page, carry: &Carry, operation: &Operation) -> Vec<Asked> {
    let asked = asked_bytes(carry, operation);
    let single = matches!(operation.number, 2 | 3 | 13);
    let length = if single { asked.len() } else { 16 };
    let mut answered = Vec::new();
    let mut before = Rc::new(page.clone());
    for bytes in asked.chunks(length.max(1)) {
        let answer = answer_line(page, bytes);
        let after = if *page == *before {
            Rc::clone(&before)
        } else {
            Rc::new(page.clone())
        };
        answered.push(Asked {
            operation: operation.number,
            before,
            bytes: bytes.to_vec(),
            answer,
            after: Rc::clone(&after),
        });
        before = after;
    }
    answered
}

/// The bytes that an operation asks with; in a piece those of the whole requests
/// at hand.
fn asked_bytes(carry: &Carry, operation: &Operation) -> Vec<u8> {
    if operation.number != 10 {
        return operation.payload.clone();
    }
    let mut at_hand = [&carry.bytes[..carry.len], &operation.payload].concat();
    at_hand.truncate(at_hand.len() / 16 * 16);
    at_hand
}

/// What a request counts as: one by the table (13) is one by value (2), too.
pub fn manners(operation: u8) -> Vec<u8> {
    match operation {
        13 => vec![2, 13],
        other => vec![other],
    }
}

/// Whom the request takes off the list, if it is accepted.
pub fn leaver(request: &Request) -> Option<SharedState> {
    let bucket = BucketId(request.bucket);
    let value = request.value;
    match request.step {
        20 => Some(SharedState::Pending { bucket }),
        21 => Some(SharedState::Pending2 { bucket }),
        4 | 22 => Some(SharedState::Obtained { bucket, value }),
        _ => None,
    }
}
