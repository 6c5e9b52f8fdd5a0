//! Raw pages: sound ones, ones that break each rule, and payloads without
//! meaning. After each page comes a look, its image, a step by value, a step with
//! the page lent, a step by the table, and a run, so that every function meets
//! every page.

use std::iter;

use super::drawn::{any_page, change, walked_page};
use super::image::{after, entry_place, Image, ROOMS};
use super::random::Random;
use super::request::step;
use super::returns::of_kind;
use super::situations::{
    self, available, claimed, claimed_counted, editing, editing_uncounted, load_counted,
    load_pending, loading, loading_uncounted, pending, unmapped, visited, visiting, writeback,
    writeback_and_claimed, writeback_and_pending, EACH, LOADED, MOST, OTHER, REST,
};
use super::stream::Stream;
use super::walks::Hand;
use super::Plan;
use crate::kinds::{Flag, CAPACITY, SHORT_CAPACITY};
use crate::raw::{place, IMAGE};
use crate::record::{sound, Page};

/// The last place of the list.
const LAST: usize = CAPACITY - 1;

/// So many readers at each bucket, and nobody else. They are no more than the list
/// has places, and each count is what a byte has of it.
pub fn crowd(numbers: [usize; 4]) -> Image {
    let mut image = after(&[]);
    let mut listed = 0;
    for (bucket, number) in numbers.into_iter().enumerate() {
        for _ in 0..number {
            image = image.entry(listed, 1, bucket as u8, 0);
            listed += 1;
        }
        image = image.count(bucket, number as u8);
    }
    image.length(listed as u16)
}

/// A claim at this bucket, on a page of 0 that nobody holds.
fn claim_at(page: Image, bucket: u8) -> Image {
    let count = place::COUNTS + usize::from(bucket);
    page.flag(Flag::Claimed)
        .set(place::EXC_KIND, 1)
        .set(place::EXC_BUCKET, bucket)
        .bump(count)
}

/// One page or more for each rule, and for each limit of rule 8. With each the
/// lowest rule that it breaks, or 0. Rule 8's limits of a holder's bucket, of
/// visited and of a listed reader's bucket are in rules 2, 4 and 7 as well, so
/// it is never alone there. No byte says how many 256 readers are, neither 0 nor 255.
pub fn main_pages() -> Vec<(u8, Image)> {
    use place::{EXC_BUCKET, EXC_VALUE, LOADER_BUCKET, STORAGE_IN, VISITED, WRITEBACK};
    let full = crowd([EACH; 4]);
    vec![
        (1, after(&editing()).set(STORAGE_IN, 1)),
        (2, after(&claimed()).value(EXC_VALUE, OTHER)),
        (2, after(&visited()).set(VISITED, 5)),
        (2, after(&claimed_counted()).set(EXC_BUCKET, 4).count(3, 1)),
        (3, after(&writeback()).value(WRITEBACK, OTHER)),
        (
            4,
            after(&load_counted()).set(LOADER_BUCKET, 255).count(2, 0),
        ),
        (5, after(&unmapped()).count(2, 1)),
        (5, full.clone().length(LAST as u16)),
        (5, crowd([CAPACITY, 0, 0, 0])),
        (5, crowd([0, CAPACITY, 0, 0]).count(1, 255)),
        (6, after(&pending()).flag(Flag::Claimed)),
        (7, after(&available()).entry(1, 3, 3, OTHER)),
        (
            7,
            full.clone().entry(LAST, 1, 4, 0).count(3, EACH as u8 - 1),
        ),
        (8, full.clone().length(CAPACITY as u16 + 1)),
        (8, full.clone().length(65_535)),
        (8, crowd([1, 0, MOST + 1, 0])),
        (8, after(&available()).entry(READERS, 1, 1, 0)),
        (8, after(&available()).entry(SHORT_CAPACITY, 2, 0, 0)),
        (8, after(&available()).entry(LAST, 3, 0, LOADED)),
        (0, full),
        (0, after(&editing_uncounted()).value(EXC_VALUE, OTHER)),
    ]
}

/// How many readers `available` has.
const READERS: usize = 6;

/// More pages, of which a short stream has only some.
pub fn more_pages() -> Vec<(u8, Image)> {
    let mut pages = holders_apart();
    pages.extend(readers_apart());
    pages.extend(high_bits());
    pages.extend(several_rules());
    pages
}

/// Rules 1 to 6, by holders that do not go with the rest.
fn holders_apart() -> Vec<(u8, Image)> {
    use place::{
        CLEAN, EXC_BUCKET, EXC_KIND, EXC_VALUE, LOADER_BUCKET, STORAGE, STORAGE_IN, WRITEBACK,
        WRITEBACK_IN,
    };
    let prefetch = after(&loading_uncounted()).set(EXC_BUCKET, 255);
    vec![
        (1, after(&load_pending()).set(STORAGE_IN, 1)),
        (1, after(&unmapped()).set(STORAGE_IN, 0)),
        (1, prefetch.clone().set(STORAGE_IN, 1)),
        (1, after(&visiting()).set(STORAGE_IN, 0)),
        (2, after(&pending()).value(EXC_VALUE, 0)),
        (2, after(&visiting()).value(STORAGE, OTHER)),
        (2, after(&editing()).set(EXC_BUCKET, 200).count(2, 0)),
        (2, after(&visiting()).set(WRITEBACK_IN, 1)),
        (2, after(&editing()).set(WRITEBACK_IN, 1)),
        (2, prefetch.clone().set(EXC_KIND, 1)),
        (2, prefetch.clone().set(EXC_KIND, 5)),
        (3, prefetch.set(WRITEBACK_IN, 1)),
        (
            3,
            after(&writeback_and_pending()).value(WRITEBACK, LOADED ^ 1 << 63),
        ),
        (4, after(&loading()).set(LOADER_BUCKET, 200).count(2, 0)),
        (4, after(&load_counted()).set(LOADER_BUCKET, 4).count(2, 0)),
        (4, after(&loading_uncounted()).set(LOADER_BUCKET, 254)),
        (5, after(&available()).count(1, 3)),
        (5, after(&claimed_counted()).count(3, 1)),
        (5, after(&load_counted()).count(2, 255)),
        (5, after(&loading_uncounted()).count(0, 3)),
        (6, after(&claimed()).flag(Flag::PendingExcLock)),
        (6, after(&unmapped()).flag(Flag::LoadingExcLock)),
        (6, after(&claimed()).flag(Flag::Unmapped)),
        (6, after(&claimed_counted()).flag(Flag::Available)),
        (6, after(&claimed_counted()).flag(Flag::WritebackAndClaimed)),
        (6, after(&load_counted()).flag(Flag::Loading)),
        (6, after(&visiting()).flag(Flag::ExcLockClean)),
        (6, after(&loading_uncounted()).flag(Flag::LoadingExcLock)),
        (6, after(&writeback()).flag(Flag::Available)),
        (6, after(&writeback_and_claimed()).flag(Flag::Writeback)),
        (6, after(&writeback_and_claimed()).flag(Flag::Claimed)),
        (
            6,
            after(&writeback_and_pending()).flag(Flag::PendingExcLock),
        ),
        (6, after(&editing()).set(CLEAN, 0)),
    ]
}

/// Numbers that are right but for a high bit: whoever drops it sees a sound
/// page.
fn high_bits() -> Vec<(u8, Image)> {
    use place::{EXC_BUCKET, LOADER_BUCKET, VISITED};
    vec![
        (2, after(&claimed_counted()).set(EXC_BUCKET, 3 + 4)),
        (2, after(&visited()).set(VISITED, 4 + 8)),
        (4, after(&loading()).set(LOADER_BUCKET, 2 + 128)),
        (5, after(&unmapped()).count(1, 1 + 32)),
        (5, after(&unmapped()).count(1, 1 + 128)),
        (5, after(&available()).length(READERS as u16 + 64)),
        (5, after(&available()).length(READERS as u16 + 256)),
        (5, after(&unmapped()).entry(0, 1, 1 + 4, 0)),
        (8, after(&unmapped()).entry(1, 1, 128, 0)),
    ]
}

/// Rules 5, 7 and 8, by readers, and pages that just keep them.
fn readers_apart() -> Vec<(u8, Image)> {
    let visited = |number: u8| after(&visited()).set(place::VISITED, number);
    let full = || crowd([EACH; 4]);
    let over = CAPACITY as u16 + 1;
    vec![
        (5, full().length(0)),
        (5, full().length(1)),
        (5, full().length(SHORT_CAPACITY as u16)),
        (5, crowd([EACH, EACH, EACH, EACH - 1]).length(over)),
        (5, claim_at(crowd([0, 0, 0, CAPACITY]), 3)),
        (7, after(&unmapped()).entry(0, 1, 4, 0).count(1, 0)),
        (7, after(&unmapped()).entry(0, 2, 1, 0)),
        (7, after(&unmapped()).entry(0, 3, 1, 0)),
        (7, after(&load_counted()).entry(0, 2, 1, 0)),
        (7, after(&loading()).entry(1, 3, 3, 0)),
        (7, after(&editing()).entry(0, 2, 1, 0)),
        (7, visited(2).entry(0, 2, 1, 0)),
        (7, visited(2).entry(0, 3, 1, LOADED)),
        (8, full().length(over + 1)),
        (8, full().length(2 * CAPACITY as u16)),
        (8, crowd([0, 0, 0, MOST + 1])),
        (8, crowd([0, 255, 0, 0])),
        (8, claim_at(crowd([0, MOST, 0, 0]), 1)),
        (8, after(&available()).entry(READERS, 0, 255, 0)),
        (8, after(&available()).entry(40, 2, 0, 0)),
        (
            8,
            after(&available()).entry(SHORT_CAPACITY - 1, 3, 0, LOADED),
        ),
        (8, crowd([0, MOST, MOST, 1]).entry(LAST, 2, 0, 0)),
        (8, after(&unmapped()).entry(1, 2, 0, 0)),
        (8, after(&unmapped()).entry(1, 3, 0, 0)),
        (0, visited(1).entry(0, 2, 1, 0)),
        (0, visited(1).entry(0, 3, 1, LOADED)),
        (0, after(&available()).entry(READERS, 1, 0, OTHER)),
        (0, crowd([MOST, MOST, REST, 0])),
        (0, crowd([0, 0, MOST, MOST])),
        (0, claim_at(crowd([0, MOST - 1, 0, MOST]), 1)),
    ]
}

/// A rule and others above it: the lowest is the one that is named.
fn several_rules() -> Vec<(u8, Image)> {
    use place::{EXC_VALUE, LOADER_BUCKET, STORAGE_IN, WRITEBACK};
    vec![
        (1, after(&claimed()).set(STORAGE_IN, 0).count(0, 9)),
        (2, after(&claimed()).value(EXC_VALUE, 0).length(257)),
        (3, after(&writeback()).value(WRITEBACK, 0).count(0, 128)),
        (4, after(&loading()).set(LOADER_BUCKET, 9).entry(0, 3, 9, 0)),
        (5, after(&available()).count(0, 9).flag(Flag::Claimed)),
        (
            6,
            after(&available()).flag(Flag::Writeback).entry(0, 3, 1, 0),
        ),
        (
            7,
            after(&available()).entry(0, 3, 1, 0).entry(LAST, 2, 0, 0),
        ),
    ]
}

/// Payloads without meaning: an editor of kind 4, a phase at the last place, and
/// lengths, of which one is that of a short image.
pub fn without_meaning() -> Vec<Vec<u8>> {
    let page = after(&claimed_counted());
    vec![
        after(&editing()).set(place::EXC_KIND, 4).0.to_vec(),
        page.clone().set(entry_place(LAST), 255).0.to_vec(),
        page.0[..IMAGE - 1].to_vec(),
        [&page.0[..], &[0]].concat(),
        page.short().to_vec(),
        vec![],
    ]
}

/// One for each other ground, of which a short stream has only some.
pub fn more_without_meaning() -> Vec<Vec<u8>> {
    let changes = [
        (place::FLAG, 11),
        (place::STORAGE_IN, 2),
        (place::CLEAN, 2),
        (place::WRITEBACK_IN, 255),
        (place::EXC_KIND, 6),
        (place::LOADER_KIND, 4),
        (entry_place(0), 4),
        (entry_place(SHORT_CAPACITY - 1), 4),
        (entry_place(SHORT_CAPACITY), 4),
    ];
    let page = after(&claimed_counted());
    let changed = changes.map(|(place, byte)| page.clone().set(place, byte));
    changed.map(|image| image.0.to_vec()).to_vec()
}

/// The pages of the tables, payloads without meaning, a loader that leaves, and
/// drawn pages. There is room for the image of each sound page, and every room is
/// once that of one that is not sound.
pub fn play(stream: &mut Stream, random: &mut Random, plan: &Plan, walked: &[Page]) {
    let pages = main_pages().into_iter().chain(plan.share(more_pages(), 24));
    let rooms = ROOMS.into_iter().chain(iter::repeat(0));
    for ((rule, image), room) in pages.zip(rooms) {
        let room = if rule == 0 { IMAGE } else { room };
        meet(stream, random, &image, room);
    }
    let more = plan.share(more_without_meaning(), 9);
    for payload in without_meaning().into_iter().chain(more) {
        stream.push(7, 0, &payload);
        stream.look();
    }
    finish_load(stream, random);
    if plan.long() {
        play_situations(stream, random);
    }
    play_drawn(stream, random, plan, walked);
}

/// Every situation with something else about it.
fn play_situations(stream: &mut Stream, random: &mut Random) {
    for situation in situations::all() {
        for _ in 0..3 {
            let flag = random.pick(&Flag::ALL);
            meet(stream, random, &after(&situation).flag(flag), IMAGE);
            let changed = change(random, after(&situation));
            meet(stream, random, &changed, IMAGE);
        }
    }
}

/// A page that a walk came by and three others, and so on: in a long stream one for
/// every 150 requests of the walks.
fn play_drawn(stream: &mut Stream, random: &mut Random, plan: &Plan, walked: &[Page]) {
    let number = if plan.long() { plan.requests / 150 } else { 1 };
    for turn in 0..number {
        let image = if turn % 4 == 0 {
            walked_page(random, walked)
        } else {
            any_page(random, walked)
        };
        let room = random.pick(&ROOMS);
        meet(stream, random, &image, room);
    }
}

/// A loader without a bucket, beside readers at bucket 0: it cannot stay as one
/// of them, and it leaves.
fn finish_load(stream: &mut Stream, random: &mut Random) {
    stream.raw(&after(&loading_uncounted()).noise(random).0);
    for number in [16, 17] {
        stream.ask(&step(number).of(random.value()).bytes());
        stream.look();
    }
    ask_on(stream, random, 9);
}

/// A page, and every function on it; so much room is for its image. Where it is
/// sound, more is asked, so that its holders show; where it is not, all that its
/// exclusive holder might give back.
fn meet(stream: &mut Stream, random: &mut Random, image: &Image, room: usize) {
    stream.raw(&image.0);
    stream.look();
    stream.write_image(room);
    let sound = sound(stream.page());
    let holder = stream.page().exc_state.filter(|_| !sound);
    for request in holder.into_iter().flat_map(of_kind) {
        stream.ask(&request.bytes());
        stream.ask(&request.bytes());
    }
    ask_on(stream, random, if sound { 9 } else { 2 });
}

/// Steps, and a run of so many more, on the page as it is.
pub fn ask_on(stream: &mut Stream, random: &mut Random, length: usize) {
    let hand = Hand::for_page(stream.page());
    stream.ask(&hand.draw(random, stream.page()));
    stream.ask(&hand.draw(random, stream.page()));
    stream.ask_by_table(&hand.draw(random, stream.page()));
    let requests = hand.draw_run(random, stream.page(), length);
    let bytes = requests.as_flattened();
    stream.run(bytes, bytes.len() + random.below(3));
    stream.look();
}
