//! Images of both lengths around the limits of each: of pages that are kept in both,
//! in the long one alone, and in neither.

use super::drawn::change;
use super::image::{after, entry_place, of, Image};
use super::pages::{ask_on, crowd};
use super::random::Random;
use super::request::{step, Draft};
use super::restarts::{main_kept, read};
use super::scripts::readers;
use super::situations::{
    available, editing, load_pending, loading, page_of, pending, then, visited, writeback,
    writeback_and_claimed, LOADED, MOST, REST,
};
use super::stream::Stream;
use super::Plan;
use crate::image::SHORT_IMAGE;
use crate::kinds::{CAPACITY, SHORT_CAPACITY, SHORT_CEILING};
use crate::raw::{place, write_raw, IMAGE};
use crate::record::Page;
use crate::wire::RECORD;

/// The most readers that a bucket has in a short image, and how many more fill its
/// list where two buckets have the most.
const SHORT_MOST: usize = SHORT_CEILING.0 as usize;
const SHORT_REST: usize = SHORT_CAPACITY - 2 * SHORT_MOST;

/// The rooms that pages which were read short are written into, by turns.
const ROOMS: [usize; 6] = [
    IMAGE,
    SHORT_IMAGE,
    IMAGE - 1,
    SHORT_IMAGE,
    IMAGE + 1,
    SHORT_IMAGE,
];

/// How many readers a bucket has, where that is drawn.
const DRAWN: [usize; 10] = [0, 0, 1, 2, 30, 31, 32, 64, 126, 127];

/// How a page gets its first value.
const LOAD: [Draft; 2] = [step(12), step(17).of(LOADED)];

/// An editor without a bucket, and so many readers that came since.
fn edited(numbers: [usize; 4]) -> Vec<Draft> {
    let edit = [
        step(3),
        step(5),
        step(6).clean(1),
        step(7).times(4),
        step(8),
    ];
    [&LOAD[..], &edit, &readers(numbers)].concat()
}

/// A loaded page at both short limits: 64 readers of all phases, 31 of them at each of
/// two buckets.
fn short_full() -> Vec<Draft> {
    let more = [
        step(23).times(9),
        step(24).times(5),
        step(23).at(2),
        step(24).at(2),
        step(23).at(2),
    ];
    let readers = readers([SHORT_MOST, SHORT_MOST, SHORT_REST, 0]);
    [&LOAD[..], &readers, &more].concat()
}

/// What leads to pages that have a short image. First those at its limits: with no
/// holder, with an editor that is one of 31 at its bucket, and with such a loader.
/// Then those of other kinds of holders; others are among the main kept ones.
fn short_kept() -> Vec<Vec<Draft>> {
    let beside_editor = edited([SHORT_MOST - 1, SHORT_MOST, SHORT_REST + 1, 0]);
    let beside_loader = readers([0, 0, 0, SHORT_MOST - 1]).to_vec();
    vec![
        short_full(),
        then(beside_editor, &[step(18)]),
        then(beside_loader, &[step(11), step(13).at(3), step(14)]),
        readers([SHORT_CAPACITY / 4; 4]).to_vec(),
        vec![],
        available(),
        visited(),
        writeback(),
        writeback_and_claimed(),
        editing(),
        load_pending(),
        loading(),
    ]
}

/// What leads to pages that have none by one reader or by one count alone. A loader,
/// and an editor, is the 32nd at its bucket. There are 65 readers, of whom the last is
/// at bucket 0, as a blank is; and 32 readers at a bucket.
fn just_long() -> Vec<Vec<Draft>> {
    let beside_loader = readers([0, 0, SHORT_MOST, 0]).to_vec();
    let beside_editor = edited([SHORT_MOST, SHORT_MOST, SHORT_REST, 0]);
    vec![
        then(beside_loader, &[step(11), step(13).at(2)]),
        vec![
            step(19).at(1).times(SHORT_MOST),
            step(19).at(2).times(SHORT_MOST),
            step(19).times(SHORT_REST + 1),
        ],
        then(beside_editor, &[step(18).at(1)]),
        vec![step(19).at(3).times(SHORT_MOST + 1)],
    ]
}

/// What leads to pages that have an image: those, and two at today's limits. There an
/// editor is the 127th at its bucket, and the list has one place left.
fn long_kept() -> Vec<Vec<Draft>> {
    let beside_editor = edited([MOST, MOST - 1, REST + 1, 0]);
    let mut scripts = just_long();
    scripts.push(then(beside_editor, &[step(18).at(1)]));
    scripts.push(readers([MOST - 1, MOST, REST, 0]).to_vec());
    scripts
}

/// What one that knows a limit wrong takes for an image: one reader too many at a
/// bucket; a list of 256 whose length is said to be 0, 1 or 257; and one with a
/// listed reader of phase 0 at the first place that a short one has not, or with what
/// a Pending reader does not have at the last. At last a list of 64 with a blank that
/// is written out behind it.
fn no_image(plan: &Plan) -> Vec<Image> {
    let full = of(&main_kept()[0]);
    let first = entry_place(SHORT_CAPACITY);
    let last = entry_place(CAPACITY - 1);
    vec![
        crowd([0, MOST + 1, 0, 0]),
        full.clone().length(0),
        full.clone().length(1),
        full.clone().length(CAPACITY as u16 + 1),
        full.clone().set(first, 0),
        full.set(plan.one_of(last + 2..last + RECORD), 1),
        after(&short_full()).set(first, 1),
    ]
}

/// The same of a short one: lengths of the list that are 0, 65 and 256 more; at the
/// last place a listed reader of phase 0, or what one that is Pending2 does not have;
/// a byte at the very end; a claimant that is called clean; zeros alone; and a page
/// that is not sound.
fn no_short_image(plan: &Plan) -> Vec<Image> {
    let full = after(&short_full());
    let length = SHORT_CAPACITY as u16;
    let last = entry_place(SHORT_CAPACITY - 1);
    vec![
        full.clone().length(0),
        full.clone().length(length + 1),
        full.clone().length(length + 256),
        full.clone().set(last, 0),
        full.set(plan.one_of(last + 2..last + RECORD), 1),
        after(&available()).set(plan.one_of(last + 8..SHORT_IMAGE), 1),
        after(&pending()).set(place::CLEAN, 1),
        Image([0; IMAGE]),
        crowd([1, 0, 0, 0]).set(place::STORAGE_IN, 0),
    ]
}

/// Pages that are kept in both lengths, of which some are read long as they went on;
/// then those that are kept in one, and in none. At last one at the short limits, which
/// goes on past them, and the same with zeros after it. In a long stream drawn ones,
/// too.
pub fn play(stream: &mut Stream, random: &mut Random, plan: &Plan) {
    for (turn, script) in short_kept().iter().enumerate() {
        let page = page_of(script, random.value());
        restore_short(stream, random, &page, ROOMS[turn % ROOMS.len()]);
        if turn.is_multiple_of(ROOMS.len()) || plan.long() {
            let image = write_raw(stream.page());
            stream.read_image(&image);
            stream.look();
        }
    }
    for script in just_long() {
        read(stream, after(&script).short());
    }
    for script in plan.share(long_kept(), 2) {
        read(stream, &of(&page_of(&script, random.value())).0);
        ask_on(stream, random, 3);
    }
    for image in no_image(plan) {
        read(stream, &image.0);
    }
    for image in no_short_image(plan) {
        read(stream, image.short());
    }
    let full = after(&short_full());
    read(stream, full.short());
    stream.ask(&step(19).bytes());
    stream.ask(&step(19).at(1).bytes());
    read(stream, &full.0);
    if plan.long() {
        play_drawn(stream, random, plan);
    }
}

/// A page that is read short, and every function on it; so much room is for its image.
fn restore_short(stream: &mut Stream, random: &mut Random, page: &Page, room: usize) {
    stream.read_image(of(page).short());
    stream.look();
    stream.write_image(room);
    ask_on(stream, random, 3);
}

/// Drawn pages, short and long, and with one thing changed.
fn play_drawn(stream: &mut Stream, random: &mut Random, plan: &Plan) {
    for _ in 0..plan.requests / 400 {
        let image = of(&drawn(random));
        read(stream, image.short());
        read(stream, &image.0);
        ask_on(stream, random, 3);
        read(stream, change(random, image).short());
    }
}

/// A page with as many readers at each bucket as one of the limits has, or about so
/// many, in any order of the buckets, and with any holder among them. Whoever is too
/// many does not come.
fn drawn(random: &mut Random) -> Page {
    let first = random.byte_below(4);
    let buckets = [0, 1, 2, 3].map(|bucket| (first + bucket) % 4);
    let readers = buckets.map(|bucket| step(19).at(bucket).times(random.pick(&DRAWN)));
    let bucket = random.byte_below(4);
    let script = match random.below(4) {
        0 => readers.to_vec(),
        1 => then(readers.to_vec(), &[step(11), step(13).at(bucket)]),
        2 => then(then(edited([0; 4]), &readers), &[step(18).at(bucket)]),
        _ => {
            let claimant = [23, 24, 4].map(|number| step(number).at(bucket));
            then(then(LOAD.to_vec(), &readers), &claimant)
        }
    };
    page_of(&script, random.value())
}
