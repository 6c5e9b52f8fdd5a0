//! Requests that are wrong, and requests that are not whole.

use super::request::{step, Draft};
use super::situations::{self, LOADED};
use super::stream::Stream;
use super::Plan;
use crate::raw::write_raw;
use crate::wire::RECORD;

/// A good request for each set of fields that a step can take.
pub const GOOD: [Draft; 5] = [
    step(1),
    step(6).clean(1),
    step(13).at(2),
    step(17).of(5),
    step(22).at(1).of(LOADED),
];

/// What can be wrong with one field. Not every change is wrong for every
/// request: a bucket or a value may be taken, and clean may be 1.
fn wrongs() -> Vec<Wrong> {
    vec![
        |good| good.step(0),
        |good| good.step(31),
        |good| good.step(255),
        |good| good.at(1),
        |good| good.at(4),
        |good| good.at(9),
        |good| good.at(255),
        |good| good.clean(1),
        |good| good.clean(2),
        |good| good.clean(255),
        |good| good.blank(3, 1),
        |good| good.blank(4, 2),
        |good| good.blank(5, 4),
        |good| good.blank(6, 128),
        |good| good.blank(7, 255),
        |good| good.of(1),
        |good| good.of(1 << 63),
    ]
}

/// One wrong for each number and each field.
fn main_wrongs() -> Vec<Wrong> {
    vec![
        |good| good.step(31),
        |good| good.at(4),
        |good| good.at(1),
        |good| good.clean(2),
        |good| good.blank(3, 1),
        |good| good.blank(7, 1),
        |good| good.of(1 << 63),
    ]
}

/// Step 25 with one bit more, and with all bits.
const HIGH_BITS: [u8; 4] = [25 + 32, 25 + 64, 25 + 128, 255];

type Wrong = fn(Draft) -> Draft;

/// Each good request with one thing wrong.
pub fn one_wrong() -> Vec<[u8; RECORD]> {
    let wrongs = wrongs();
    GOOD.iter()
        .flat_map(|&good| wrongs.iter().map(move |wrong| wrong(good).bytes()))
        .collect()
}

/// Each good request with two things wrong.
fn two_wrong(wrongs: &[Wrong]) -> Vec<[u8; RECORD]> {
    let mut requests = Vec::new();
    for good in GOOD {
        for (place, first) in wrongs.iter().enumerate() {
            for second in &wrongs[place + 1..] {
                requests.push(second(first(good)).bytes());
            }
        }
    }
    requests
}

/// Each of these steps with each field set that it may not take, and one of bytes
/// 3 to 7. Some take the field, but none bucket 4.
pub fn every_field(numbers: impl IntoIterator<Item = u8>) -> Vec<[u8; RECORD]> {
    numbers
        .into_iter()
        .flat_map(|number| {
            [
                step(number).at(1).bytes(),
                step(number).at(4).bytes(),
                step(number).clean(1).bytes(),
                step(number).blank(3 + usize::from(number % 5), 1).bytes(),
                step(number).of(1 << 32).bytes(),
            ]
        })
        .collect()
}

/// All damaged requests, on a loaded page: one thing wrong by single steps,
/// more of them in runs. Then single requests that are not whole, on this page
/// and on one that is not sound, where reading still comes first.
pub fn play(stream: &mut Stream, plan: &Plan) {
    stream.play(&situations::available());
    for request in one_wrong() {
        stream.ask(&request);
    }
    let last = if plan.long() { 0..=32 } else { 25..=31 };
    for request in every_field(last) {
        stream.ask(&request);
    }
    let wrongs = if plan.long() { wrongs() } else { main_wrongs() };
    stream.run_all(&two_wrong(&wrongs));
    stream.run_all(&every_field((0..=32).chain(HIGH_BITS)));
    stream.look();
    not_whole(stream);
    let mut page = situations::page_after(&situations::available());
    page.storage = None;
    stream.raw(&write_raw(&page));
    not_whole(stream);
    for request in two_wrong(&main_wrongs()).iter().step_by(7) {
        stream.ask(request);
    }
    stream.look();
}

/// Payloads of every length around one request's, of a good request and of one
/// that has fields wrong too, by value and lent.
fn not_whole(stream: &mut Stream) {
    let good = [step(19).at(2).bytes(); 2];
    for (length, byte) in [(0, 255), (1, 31), (15, 30), (17, 25), (32, 255)] {
        let bad = [[byte; RECORD]; 2];
        for bytes in [good, bad] {
            stream.ask(&bytes.as_flattened()[..length]);
            stream.ask(&bytes.as_flattened()[..length]);
        }
    }
}
