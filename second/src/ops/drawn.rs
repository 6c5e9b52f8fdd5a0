//! Drawn raw pages: those that a walk came by, as they were or changed, pages of
//! any holders, and any bytes at all.

use super::image::{entry_place, of, Image};
use super::random::Random;
use crate::kinds::{
    BucketId, Count, ExcState, Flag, LoadingState, SharedState, Visited, WritebackState, CAPACITY,
};
use crate::raw::{place, IMAGE};
use crate::readers::Readers;
use crate::record::{count_all_refs, Page};

/// How many readers there are in a crowd: around all limits.
const CROWDS: [usize; 8] = [31, 32, 64, 65, 127, 128, 255, 256];

/// A page that a walk came by, among other bytes that nothing looks at.
pub fn walked_page(random: &mut Random, walked: &[Page]) -> Image {
    of(&random.pick(walked)).noise(random)
}

/// Any page; most of them break a rule.
pub fn any_page(random: &mut Random, walked: &[Page]) -> Image {
    let image = walked_page(random, walked);
    match random.below(8) {
        0..=2 => change(random, image),
        3 => {
            let image = change(random, image);
            change(random, image)
        }
        4..=6 => of(&any_holders(random)),
        _ => any_bytes(random),
    }
}

/// One field changed to something that it can be, or one bit of the bytes that
/// have a meaning. Of the exclusive kinds 4 and 6 are drawn too, which no holder
/// has.
pub fn change(random: &mut Random, image: Image) -> Image {
    let bucket = random.pick(&[0, 1, 2, 3, 4, 200, 255]);
    let length = u16::from_le_bytes([image.0[place::LENGTH], image.0[place::LENGTH + 1]]);
    let entry = random.below(CAPACITY.min(usize::from(length) + 2));
    match random.below(18) {
        0 | 1 => image.set(place::FLAG, random.byte_below(11)),
        2 => image.set(place::STORAGE_IN, random.byte_below(2)),
        3 => image.value(place::STORAGE, random.value()),
        4 => image.length(random.pick(&[0, 1, length ^ 1, length ^ 256, 256, 257, 65_535])),
        5 => image.set(place::EXC_KIND, random.byte_below(7)),
        6 => image.set(place::EXC_BUCKET, bucket),
        7 => image.set(place::VISITED, random.byte_below(6)),
        8 => image.set(place::CLEAN, random.byte_below(2)),
        9 => image.set(place::LOADER_KIND, random.byte_below(4)),
        10 => image.set(place::LOADER_BUCKET, bucket),
        11 => image.set(place::WRITEBACK_IN, random.byte_below(2)),
        12 => image.count(
            random.below(4),
            random.pick(&[0, 1, 2, 31, 32, 127, 128, 255]),
        ),
        13 => image.value(place::EXC_VALUE, random.value()),
        14 => image.value(place::WRITEBACK, random.value()),
        15 => image.entry(entry, random.byte_below(4), bucket, random.value()),
        16 => flip(random, image, 0, place::EXC_VALUE),
        _ => flip(random, image, entry_place(entry), 2),
    }
}

/// One bit changed in so many bytes from this place on.
fn flip(random: &mut Random, image: Image, place: usize, length: usize) -> Image {
    let place = place + random.below(length);
    let byte = image.0[place] ^ 1 << random.below(8);
    image.set(place, byte)
}

/// Any holders, whether or not they go together; mostly with the storage that
/// they ask for, one value for all, and counts that fit.
fn any_holders(random: &mut Random) -> Page {
    let value = random.value();
    let exc_state = any_exc_state(random, value);
    let loading_state = any_loading_state(random);
    let writeback_state = random.one_in(3).then(|| WritebackState {
        value: value ^ u64::from(random.one_in(8)),
    });
    let out = loading_state.is_some() || matches!(exc_state, Some(ExcState::Obtained { .. }));
    let mut page = Page {
        storage: (out == random.one_in(8)).then_some(value),
        flag: random.pick(&Flag::ALL),
        ref_counts: [Count(0); 4],
        shared_state: any_readers(random, value),
        exc_state,
        loading_state,
        writeback_state,
    };
    for bucket in BucketId::ALL {
        let off = u8::from(random.one_in(32));
        let count = count_all_refs(&page, bucket) as u8;
        page.ref_counts[bucket.index()] = Count(count.wrapping_add(off));
    }
    page
}

fn any_bucket(random: &mut Random) -> Option<BucketId> {
    let byte = random.byte_below(4) + u8::from(random.one_in(16));
    (!random.one_in(2)).then_some(BucketId(byte))
}

fn any_exc_state(random: &mut Random, value: u64) -> Option<ExcState> {
    let bucket = any_bucket(random);
    let clean = random.one_in(2);
    let value = value ^ u64::from(random.one_in(12));
    match random.below(6) {
        0 => Some(ExcState::Claim { bucket, value }),
        1 => Some(ExcState::PendingAwaitWriteback { bucket, value }),
        2 => Some(ExcState::Pending {
            bucket,
            visited_count: Visited(random.byte_below(6)),
            clean,
            value,
        }),
        3 => Some(ExcState::Obtained {
            bucket,
            clean,
            value,
        }),
        _ => None,
    }
}

fn any_loading_state(random: &mut Random) -> Option<LoadingState> {
    let bucket = any_bucket(random);
    match random.below(6) {
        0 => Some(LoadingState::Pending),
        1 => Some(LoadingState::PendingCounted { bucket }),
        2 => Some(LoadingState::Obtained { bucket }),
        _ => None,
    }
}

/// A few readers or, at times, a crowd of equal ones; at times one past the length.
fn any_readers(random: &mut Random, value: u64) -> Readers {
    let mut readers = Readers::none();
    for _ in 0..random.below(3) {
        readers.push(any_reader(random, value));
    }
    if random.one_in(12) {
        let crowd = any_reader(random, value);
        let length = random.pick(&CROWDS) - readers.listed().len();
        (0..length).for_each(|_| readers.push(crowd));
    }
    if random.one_in(16) {
        readers.entries[random.below(CAPACITY)] = any_reader(random, value);
    }
    readers
}

fn any_reader(random: &mut Random, value: u64) -> SharedState {
    let bucket = BucketId(random.byte_below(4) + u8::from(random.one_in(16)));
    let value = value ^ u64::from(random.one_in(12));
    match random.below(3) {
        0 => SharedState::Pending { bucket },
        1 => SharedState::Pending2 { bucket },
        _ => SharedState::Obtained { bucket, value },
    }
}

/// Any bytes at all, brought within the ranges that have a meaning.
fn any_bytes(random: &mut Random) -> Image {
    let mut bytes = [0; IMAGE];
    for byte in &mut bytes {
        *byte = random.byte();
    }
    bytes[place::FLAG] %= 11;
    bytes[place::EXC_KIND] = random.pick(&[0, 1, 2, 3, 5]);
    bytes[place::LOADER_KIND] %= 4;
    for place in [place::STORAGE_IN, place::CLEAN, place::WRITEBACK_IN] {
        bytes[place] %= 2;
    }
    for entry in 0..CAPACITY {
        bytes[entry_place(entry)] %= 4;
    }
    Image(bytes)
}
