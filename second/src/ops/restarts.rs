//! Pages across a restart: images of sound pages, which are read and go on, and
//! bytes that are not the image of a sound page. Both are long and short by turns,
//! where nothing else is said.

use super::drawn::change;
use super::image::{after, entry_place, of, Image, ROOMS};
use super::pages::{ask_on, main_pages, more_pages};
use super::random::Random;
use super::request::{step, Draft, EDGES};
use super::situations::{
    self, available, claimed, claimed_counted, editing, editing_uncounted, load_counted,
    load_pending, loading, loading_uncounted, page_of, pending, then, unmapped, unmapped_again,
    visited, visiting, writeback, writeback_and_claimed_uncounted, LOADED, MOST, REST,
};
use super::stream::Stream;
use super::Plan;
use crate::image::SHORT_IMAGE;
use crate::kinds::{Flag, CAPACITY};
use crate::raw::{place, IMAGE};
use crate::record::Page;
use crate::wire::RECORD;

/// Lengths that an image does not have, nor a short one; one is in the middle of the
/// two. Then those that only a long stream has.
const LENGTHS: [usize; 8] = [
    0,
    1,
    RECORD,
    SHORT_IMAGE - 1,
    SHORT_IMAGE + 1,
    (SHORT_IMAGE + IMAGE) / 2,
    IMAGE - 1,
    IMAGE + 1,
];
const LONG_LENGTHS: [usize; 8] = [
    place::READERS,
    SHORT_IMAGE - RECORD,
    SHORT_IMAGE + RECORD,
    2 * SHORT_IMAGE,
    IMAGE - RECORD,
    IMAGE + RECORD,
    2 * IMAGE,
    65_536,
];

/// A value whose eight bytes are all different.
const SPREAD: u64 = 0x0807_0605_0403_0201;

/// Sound pages that every stream restores: among them are each kind of holder
/// and all phases of readers, a full list, and counts at the ceiling.
pub fn main_kept() -> Vec<Page> {
    vec![
        page_of(&full(), SPREAD),
        page_of(&pending(), SPREAD),
        page_of(&editing_uncounted(), SPREAD),
        busy(),
        page_of(&visited(), 0),
        page_of(&load_counted(), 0),
        page_of(&load_pending(), 0),
        page_of(&loading_uncounted(), 0),
    ]
}

/// A claim without a bucket beside a writeback, and readers of all phases.
fn busy() -> Page {
    page_of(&writeback_and_claimed_uncounted(), u64::MAX)
}

/// A loaded page with 256 readers of all phases, 127 of them at each of two
/// buckets.
pub fn full() -> Vec<Draft> {
    vec![
        step(12),
        step(17).of(LOADED),
        step(19).times(MOST),
        step(19).at(1).times(MOST),
        step(19).at(2).times(REST),
        step(23).times(20),
        step(24).times(10),
        step(23).at(1).times(2),
        step(24).at(1),
        step(23).at(2),
    ]
}

/// More sound pages, of which a short stream has only some: every situation, and
/// what is in none of them. The values go round with the seed.
pub fn more_kept(plan: &Plan) -> Vec<Page> {
    let values = [SPREAD].into_iter().chain(EDGES).cycle();
    let values = values.skip((plan.seed % 5) as usize);
    let mut scripts = situations::all();
    scripts.extend(without_buckets());
    scripts.extend(at_the_first_bucket());
    scripts.extend([vec![], unmapped_again(), full(), ceiling()]);
    let pages = scripts.iter().zip(values);
    pages
        .map(|(script, value)| page_of(script, value))
        .collect()
}

/// Claimants without a bucket on all the way, one of whom has visited a bucket.
fn without_buckets() -> [Vec<Draft>; 4] {
    [
        then(writeback(), &[step(3), step(5)]),
        then(claimed(), &[step(5)]),
        then(claimed(), &[step(5), step(6)]),
        then(claimed(), &[step(5), step(6).clean(1), step(7)]),
    ]
}

/// Holders at bucket 0, which is a bucket.
fn at_the_first_bucket() -> [Vec<Draft>; 5] {
    let counted = vec![step(11), step(13)];
    let loading = then(counted.clone(), &[step(14)]);
    let claimed = [step(16).of(LOADED), step(4).of(LOADED)];
    let claimed = then(loading.clone(), &claimed);
    let visiting = then(claimed.clone(), &[step(5), step(6), step(7)]);
    let editing = then(visiting.clone(), &[step(7).times(3), step(8)]);
    [counted, loading, claimed, visiting, editing]
}

/// A loader that is one of 127 at its bucket.
fn ceiling() -> Vec<Draft> {
    let readers = step(19).at(3).times(MOST - 1);
    vec![readers, step(11), step(13).at(3), step(14)]
}

/// What one that does not look closely takes for an image: zeros alone, a length
/// of 256 more, a byte in a gap, which goes round with the seed, a listed reader of
/// phase 0, a claimant that is called clean, a blank that is written out, and editors
/// of kind 4, clean and not, which say nothing of what was taken.
fn main_damaged(plan: &Plan) -> Vec<Image> {
    let [_, gap, _] = place::GAPS;
    let past = entry_place(busy().shared_state.listed().len());
    let busy = |place: usize, byte: u8| of(&busy()).set(place, byte);
    vec![
        Image([0; IMAGE]),
        busy(place::LENGTH + 1, 1),
        busy(plan.one_of(gap), 1),
        busy(busy_entry(0), 0),
        busy(place::CLEAN, 1),
        busy(past, 1),
        untold(&editing()),
        untold(&editing_uncounted()),
    ]
}

/// An editor of kind 4, and zeros where its value is.
fn untold(editing: &[Draft]) -> Image {
    let image = after(editing).set(place::EXC_KIND, 4);
    image.value(place::EXC_VALUE, 0)
}

/// Where the busy page has its first reader of this phase.
fn busy_entry(phase: usize) -> usize {
    let readers = busy().shared_state;
    let mut phases = readers.listed().iter().map(|reader| reader.phase());
    entry_place(phases.position(|other| other == phase).unwrap())
}

/// More of it, which a short stream has as short images, because they cost little:
/// each number one above the highest, a visited number that a claim does not have, and
/// flags that are another holder's.
fn short_damaged() -> Vec<Image> {
    use place::{CLEAN, EXC_KIND, FLAG, LOADER_KIND, STORAGE_IN, VISITED, WRITEBACK_IN};
    vec![
        after(&visiting()).set(FLAG, 11),
        after(&available()).set(STORAGE_IN, 2),
        after(&editing()).set(EXC_KIND, 6),
        after(&visited()).set(CLEAN, 2),
        after(&loading()).set(LOADER_KIND, 4),
        after(&writeback()).set(WRITEBACK_IN, 2),
        after(&available()).set(entry_place(0), 4),
        after(&claimed()).set(VISITED, 1),
        after(&claimed()).flag(Flag::PendingExcLock),
        after(&editing()).flag(Flag::ExcLockDirty),
    ]
}

/// More of it, of which a short stream has only some: a bucket, a visited number, a
/// clean or a value that a kind does not have, none for the loader that must have a
/// bucket, and bytes in other gaps.
fn more_damaged(plan: &Plan) -> Vec<Image> {
    use place::{
        CLEAN, EXC_BUCKET, EXC_KIND, EXC_VALUE, LOADER_BUCKET, STORAGE, VISITED, WRITEBACK,
    };
    let [first_gap, _, last_gap] = place::GAPS;
    vec![
        after(&editing()).set(EXC_KIND, 4),
        after(&unmapped()).set(EXC_BUCKET, 255),
        after(&unmapped()).set(EXC_BUCKET, 1),
        after(&unmapped()).set(LOADER_BUCKET, 255),
        after(&unmapped()).set(LOADER_BUCKET, 1),
        after(&load_pending()).set(LOADER_BUCKET, 255),
        after(&load_pending()).set(LOADER_BUCKET, 1),
        after(&load_counted()).set(LOADER_BUCKET, 255).count(2, 0),
        after(&unmapped()).set(VISITED, 1),
        after(&pending()).set(VISITED, 4),
        after(&editing()).set(VISITED, 4),
        after(&unmapped()).set(CLEAN, 1),
        after(&claimed()).set(CLEAN, 1),
        after(&pending()).set(CLEAN, 1),
        after(&loading()).value(STORAGE, LOADED),
        after(&editing()).value(STORAGE, LOADED),
        after(&writeback()).value(EXC_VALUE, LOADED),
        after(&claimed_counted()).value(WRITEBACK, LOADED),
        of(&busy()).value(busy_entry(1) + 8, LOADED),
        of(&busy()).set(plan.one_of(first_gap), 1),
        of(&busy()).set(plan.one_of(last_gap), 1),
    ]
}

/// A page with another byte at one place: at each place of the head, of the
/// first, the middle and the last listed entry, of the first one past the length
/// and of the very last. The seed decides about the page. Some of these are
/// images after all, of other sound pages, or short ones that end before the place.
fn each_byte(plan: &Plan) -> Vec<Image> {
    let pages = [
        busy(),
        page_of(&editing(), SPREAD),
        page_of(&loading(), 0),
        page_of(&unmapped(), SPREAD),
    ];
    let page = &pages[(plan.seed % 4) as usize];
    let listed = page.shared_state.listed().len();
    let mut entries = vec![0, listed / 2, listed - 1, listed, CAPACITY - 1];
    entries.dedup();
    let entries = entries.into_iter().map(entry_place);
    let places = entries.flat_map(|entry| entry..entry + RECORD);
    let damaged = (0..place::READERS).chain(places);
    damaged.map(|place| of(page).bump(place)).collect()
}

/// Of these raw pages those that are not sound.
fn unsound(pages: Vec<(u8, Image)>) -> Vec<Image> {
    let unsound = pages.into_iter().filter(|(rule, _)| *rule > 0);
    unsound.map(|(_, image)| image).collect()
}

/// Pages that go on, bytes that are no image, among them a blank that is written out
/// at the last place, and both of them drawn.
pub fn play(stream: &mut Stream, random: &mut Random, plan: &Plan, walked: &[Page]) {
    for page in main_kept() {
        restore(stream, random, &page);
    }
    for room in ROOMS {
        stream.write_image(room);
    }
    for page in plan.share(more_kept(plan), 32) {
        restore(stream, random, &page);
    }
    let damaged = main_damaged(plan)
        .into_iter()
        .chain(plan.share(more_damaged(plan), 12))
        .chain(plan.share(each_byte(plan), 144))
        .chain(plan.share(unsound(main_pages()), 12));
    for image in damaged {
        read_either(stream, &image);
    }
    for image in short_damaged() {
        read(stream, image.short());
        if plan.long() {
            read(stream, &image.0);
        }
    }
    let last = entry_place(CAPACITY - 1);
    read(stream, &of(&busy()).set(last, 1).0);
    play_lengths(stream, &LENGTHS);
    if plan.long() {
        play_long(stream, random, plan, walked);
    }
}

/// A page that is read, and every function on it.
fn restore(stream: &mut Stream, random: &mut Random, page: &Page) {
    stream.read_page(page);
    stream.look();
    stream.write_image(IMAGE);
    ask_on(stream, random, 3);
}

/// Bytes that are read where a reader is listed, who goes in any case.
pub fn read(stream: &mut Stream, bytes: &[u8]) {
    stream.ask(&step(19).at(2).bytes());
    stream.read_image(bytes);
    stream.look();
}

/// The same, long and short by turns.
fn read_either(stream: &mut Stream, image: &Image) {
    stream.ask(&step(19).at(2).bytes());
    stream.read_either(image);
    stream.look();
}

/// An image that is cut off, and with its own beginning after it.
fn play_lengths(stream: &mut Stream, lengths: &[usize]) {
    let image = of(&busy()).0;
    for &length in lengths {
        let bytes: Vec<u8> = image.into_iter().cycle().take(length).collect();
        read(stream, &bytes);
    }
}

/// What is expensive: great lengths, all pages that are not sound, and pages that
/// a walk came by. Those come as they were, with one thing changed, with any byte
/// at one place, and among bytes that an image has as zero.
fn play_long(stream: &mut Stream, random: &mut Random, plan: &Plan, walked: &[Page]) {
    play_lengths(stream, &LONG_LENGTHS);
    for image in unsound(more_pages()) {
        read_either(stream, &image);
    }
    for turn in 0..plan.requests / 150 {
        let page = random.pick(walked);
        let image = of(&page);
        match turn % 4 {
            0 => restore(stream, random, &page),
            1 => read_either(stream, &change(random, image)),
            2 => read_either(stream, &image.set(random.below(IMAGE), random.byte())),
            _ => read_either(stream, &image.noise(random)),
        }
    }
}
