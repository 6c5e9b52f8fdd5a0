//! Readers that leave the list, by each of the four steps that take one off:
//! from its beginning, its middle and its end, the first of equal ones, and the
//! only one. After each comes a look: it shows who took the place.

use super::request::{records, step, Draft};
use super::restarts::full;
use super::situations::{page_after, then, LOADED};
use super::stream::Stream;
use super::Plan;
use crate::raw::IMAGE;
use crate::run::answer_line;
use crate::wire::RECORD;

/// The steps that take a reader off the list.
pub const REMOVALS: [u8; 4] = [4, 20, 21, 22];

/// The buckets of readers in the order in which they come.
const COME: [u8; 6] = [1, 0, 2, 0, 1, 3];

/// And in the order in which they leave: one in the middle, then the first of two
/// equal ones there, the last one, the first of two equal ones at the beginning,
/// one with one behind it, and the only one.
const LEAVE: [u8; 6] = [2, 0, 0, 1, 3, 1];

/// How a page gets the value 5.
const LOAD: [Draft; 2] = [step(12), step(17).of(5)];

/// What brings readers in a run, and what is then asked by single requests.
type Script = (&'static [Draft], &'static [Draft]);

/// The exact lists (RULES 10).
const LISTS: [Script; 3] = [
    (
        &[step(19), step(19).at(1), step(19).at(2), step(19).at(3)],
        &[step(20).at(1), step(20).at(2), step(20), step(20).at(3)],
    ),
    (
        &[
            step(19),
            step(19).at(1),
            step(19),
            step(19).at(2),
            step(19).at(3),
        ],
        &[
            step(20),
            step(19).at(1),
            step(23).at(1),
            step(23),
            step(21).at(1),
        ],
    ),
    (
        &[
            step(19),
            step(23),
            step(24),
            step(19).at(1),
            step(23).at(1),
            step(24).at(1),
            step(19).at(2),
            step(23).at(2),
            step(24).at(2),
            step(19).at(3),
            step(23).at(3),
            step(24).at(3),
        ],
        &[step(4).at(1).of(5), step(22).of(5)],
    ),
];

/// A loaded page, and readers that have come as far as this step asks.
fn readers(number: u8) -> Vec<Draft> {
    let way: &[u8] = match number {
        20 => &[19],
        21 => &[19, 23],
        _ => &[19, 23, 24],
    };
    let mut script = vec![step(12), step(17).of(LOADED)];
    for bucket in COME {
        script.extend(way.iter().map(|&number| step(number).at(bucket)));
    }
    script
}

/// A reader at this bucket leaves by this step.
fn leave(number: u8, bucket: u8) -> Draft {
    step(number).at(bucket).revalued(LOADED)
}

/// The exact lists; then each step by single requests and in a run. Then a full list,
/// which a short stream has one of.
pub fn play(stream: &mut Stream, plan: &Plan) {
    for (first, asked) in LISTS {
        stream.play(&then(LOAD.to_vec(), first));
        for request in records(asked) {
            stream.ask(&request);
            stream.look();
        }
    }
    for number in REMOVALS {
        play_single(stream, number, false, 1);
        play_single(stream, number, true, 2);
        stream.play(&then(readers(number), &[leave(number, LEAVE[0])]));
        stream.look();
    }
    for request in plan.share(leaving_full(), 10) {
        play_full(stream, &request);
    }
}

/// All leave, the first of them by value or with the page lent. The page's image is
/// written when one more than `image` have left. Who has made a claim drops it.
fn play_single(stream: &mut Stream, number: u8, lent: bool, image: usize) {
    stream.play(&readers(number));
    stream.lend_next(lent);
    for (left, bucket) in LEAVE.into_iter().enumerate() {
        stream.ask(&leave(number, bucket).bytes());
        stream.look();
        if left == image {
            stream.write_image(IMAGE);
        }
        if number == 4 {
            stream.ask(&step(25).bytes());
        }
    }
}

/// The requests by which one leaves a full list.
fn leaving_full() -> Vec<[u8; RECORD]> {
    let page = page_after(&full());
    let numbers = REMOVALS.into_iter();
    let requests = numbers.flat_map(|number| (0..4).map(move |bucket| leave(number, bucket)));
    requests
        .map(|request| request.bytes())
        .filter(|request| answer_line(&mut page.clone(), request).is_ok())
        .collect()
}

/// One leaves a full list that was read. Another one comes, who is found at the last
/// place.
fn play_full(stream: &mut Stream, request: &[u8; RECORD]) {
    stream.read_page(&page_after(&full()));
    stream.ask(request);
    stream.look();
    stream.ask(&step(19).at(3).bytes());
    stream.write_image(IMAGE);
    stream.ask(&step(20).at(3).bytes());
}
