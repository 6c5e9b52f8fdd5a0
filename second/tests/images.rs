//! Images: their exact bytes, that reading and writing undo each other, and
//! every way not to be an image; and the same of short ones, which are only read.

mod common;

use std::iter;

use common::walks;
use second::image::{read_image, write_image};
use second::kinds::{Count, Refusal, Request, StoredType};
use second::ops::pages::{main_pages, more_pages};
use second::ops::restarts::{main_kept, more_kept};
use second::ops::{stream, Plan};
use second::raw::{read_raw, write_raw};
use second::record::{fresh, sound, Page};
use second::steps::{step, Outcome};

/// A value whose eight bytes are all different, and its bytes.
const VALUE: StoredType = 0x0807_0605_0403_0201;
const BYTES: [u8; 8] = [1, 2, 3, 4, 5, 6, 7, 8];

/// A step with its bucket, its clean and its value.
type Step = (u8, u8, u8, StoredType);

/// The record after these accepted steps.
fn after(page: Page, steps: &[Step]) -> Page {
    steps.iter().fold(page, |page, &(number, b, c, v)| {
        let outcome = step(page, &Request::new(number, b, c, v));
        assert!(outcome.answer.is_ok(), "step {number}");
        outcome.page
    })
}

/// The record after these accepted steps on a loaded page that nobody is at.
fn loaded(steps: &[Step]) -> Page {
    let page = after(fresh(0), &[(12, 0, 0, 0), (17, 0, 0, VALUE)]);
    after(page, steps)
}

/// The steps of a reader that comes to the value at this bucket.
fn reader(bucket: u8) -> [Step; 3] {
    [(19, bucket, 0, 0), (23, bucket, 0, 0), (24, bucket, 0, 0)]
}

/// The record of a claim, at this bucket or without one, after these steps.
fn claimed(bucket: Option<u8>, steps: &[Step]) -> Page {
    let claim = match bucket {
        Some(bucket) => [&reader(bucket)[..], &[(4, bucket, 0, VALUE)]].concat(),
        None => vec![(3, 0, 0, 0)],
    };
    loaded(&[&claim, steps].concat())
}

/// Some bytes, and the place where the first of them stands.
type Part<'a> = (usize, &'a [u8]);

/// Zeros, but for these parts.
fn bytes(parts: &[Part]) -> [u8; 4_160] {
    let mut bytes = [0; 4_160];
    for &(place, part) in parts {
        bytes[place..place + part.len()].copy_from_slice(part);
    }
    bytes
}

fn image(page: &Page) -> [u8; 4_160] {
    let mut image = [170; 4_160];
    assert_eq!(write_image(page, &mut image), Ok(()), "{page:?}");
    image
}

/// What a reading gives that is accepted.
fn restored(page: &Page) -> Outcome {
    Outcome {
        page: page.clone(),
        answer: Ok(None),
    }
}

/// What a reading gives that is refused.
fn refused(refusal: Refusal) -> Outcome {
    Outcome {
        page: fresh(0),
        answer: Err(refusal),
    }
}

/// The record's image has these parts and zeros elsewhere, and is read as it.
fn has_image(page: &Page, parts: &[Part]) {
    let expected = bytes(parts);
    assert_eq!(image(page), expected, "{page:?}");
    assert_eq!(read_image(&expected), restored(page));
}

// Exact bytes.

#[test]
fn fresh_records() {
    has_image(&fresh(0), &[(1, &[1])]);
    has_image(&fresh(VALUE), &[(1, &[1]), (32, &BYTES)]);
    has_image(&fresh(StoredType::MAX), &[(1, &[1]), (32, &[255; 8])]);
}

#[test]
fn a_reader_of_each_phase() {
    let unmapped = after(fresh(0), &[(19, 3, 0, 0)]);
    has_image(&unmapped, &[(1, &[1, 1]), (19, &[1]), (64, &[1, 3])]);
    let head: [Part; 3] = [(0, &[3, 1, 1]), (18, &[1]), (32, &BYTES)];
    let entries: [&[Part]; 3] = [
        &[(64, &[1, 2])],
        &[(64, &[2, 2])],
        &[(64, &[3, 2]), (72, &BYTES)],
    ];
    for (place, entry) in entries.into_iter().enumerate() {
        let page = loaded(&reader(2)[..=place]);
        has_image(&page, &[&head, entry].concat());
    }
}

#[test]
fn readers_stand_as_listed_with_zeros_behind() {
    let page = loaded(&[
        (19, 3, 0, 0),
        (19, 0, 0, 0),
        (19, 3, 0, 0),
        (19, 1, 0, 0),
        (23, 3, 0, 0),
        (23, 1, 0, 0),
        (24, 1, 0, 0),
        (20, 0, 0, 0),
    ]);
    let head: [Part; 3] = [(0, &[3, 1, 3]), (16, &[0, 1, 0, 2]), (32, &BYTES)];
    let first: [Part; 3] = [(64, &[2, 3]), (80, &[3, 1]), (88, &BYTES)];
    let last: [Part; 1] = [(96, &[1, 3])];
    has_image(&page, &[&head[..], &first, &last].concat());
}

/// A record that has one reader after the other at these buckets, and nobody else.
fn crowd(buckets: &[u8]) -> Page {
    let steps: Vec<Step> = buckets.iter().map(|&bucket| (19, bucket, 0, 0)).collect();
    after(fresh(0), &steps)
}

/// Case I: 127 at each of two buckets, and 2 at a third one.
fn crowded() -> Page {
    crowd(&[vec![0; 127], vec![1; 127], vec![2; 2]].concat())
}

/// A list with the length in two bytes, of which the low one is first.
#[test]
fn long_lists() {
    let cases: [(Vec<u8>, [u8; 2], [u8; 4]); 6] = [
        (vec![3; 31], [31, 0], [0, 0, 0, 31]),
        (vec![3; 32], [32, 0], [0, 0, 0, 32]),
        ([[0; 32], [1; 32]].concat(), [64, 0], [32, 32, 0, 0]),
        ([0, 1, 2, 3, 0].repeat(13), [65, 0], [26, 13, 13, 13]),
        ([0, 2, 3].repeat(85), [255, 0], [85, 0, 85, 85]),
        ([0, 1, 2, 3].repeat(64), [0, 1], [64; 4]),
    ];
    for (buckets, length, counts) in cases {
        let entries: Vec<u8> = buckets
            .iter()
            .flat_map(|&bucket| [1, bucket, 0, 0, 0, 0, 0, 0, 0, 0, 0, 0, 0, 0, 0, 0])
            .collect();
        let parts: [Part; 4] = [(1, &[1]), (2, &length), (16, &counts), (64, &entries)];
        has_image(&crowd(&buckets), &parts);
    }
}

#[test]
fn a_full_list() {
    let readers = [vec![0; 127], vec![1; 127], vec![2; 2]].concat();
    let entries: Vec<u8> = readers
        .iter()
        .flat_map(|&bucket| [1, bucket, 0, 0, 0, 0, 0, 0, 0, 0, 0, 0, 0, 0, 0, 0])
        .collect();
    let parts: [Part; 3] = [(1, &[1, 0, 1]), (16, &[127, 127, 2, 0]), (64, &entries)];
    has_image(&crowded(), &parts);
}

#[test]
fn a_writeback() {
    let parts: [Part; 4] = [(0, &[5, 1]), (10, &[1]), (32, &BYTES), (48, &BYTES)];
    has_image(&loaded(&[(1, 0, 0, 0)]), &parts);
}

/// The flag and the exclusive holder's four bytes, after these steps of a claim,
/// without a bucket and at each one.
fn claimant(steps: &[Step], flag: u8, [kind, visited, clean]: [u8; 3]) {
    let buckets = [(None, 255), (Some(0), 0), (Some(1), 1), (Some(3), 3)];
    for (bucket, byte) in buckets {
        let mut counts = [0; 4];
        if let Some(bucket) = bucket {
            counts[usize::from(bucket)] = 1;
        }
        let parts: [Part; 5] = [
            (0, &[flag, 1]),
            (4, &[kind, byte, visited, clean]),
            (16, &counts),
            (32, &BYTES),
            (40, &BYTES),
        ];
        has_image(&claimed(bucket, steps), &parts);
    }
}

#[test]
fn claimants() {
    claimant(&[], 4, [1, 0, 0]);
    claimant(&[(5, 0, 0, 0)], 8, [2, 0, 0]);
    for (clean, flag) in [(0, 10), (1, 9)] {
        let mut steps = vec![(5, 0, 0, 0), (6, 0, clean, 0)];
        for visited in 0..=4 {
            claimant(&steps, flag, [3, visited, clean]);
            steps.push((7, 0, 0, 0));
        }
    }
}

#[test]
fn claimants_beside_a_writeback() {
    let steps: [Step; 3] = [(1, 0, 0, 0), (3, 0, 0, 0), (5, 0, 0, 0)];
    for (place, flag, kind) in [(2, 6, 1), (3, 7, 2)] {
        let parts: [Part; 4] = [
            (0, &[flag, 1]),
            (4, &[kind, 255]),
            (10, &[1]),
            (32, &BYTES.repeat(3)),
        ];
        has_image(&loaded(&steps[..place]), &parts);
    }
}

/// The steps from a claim to the page, clean or not.
fn edit(clean: u8) -> Vec<Step> {
    let visit = (7, 0, 0, 0);
    let start = [(5, 0, 0, 0), (6, 0, clean, 0), visit, visit, visit, visit];
    [&start[..], &[(8, 0, 0, 0)]].concat()
}

/// What they took stands where a claimant's value does.
#[test]
fn editors() {
    for (clean, flag) in [(0, 10), (1, 9)] {
        let steps = edit(clean);
        let none: [Part; 3] = [(0, &[flag]), (4, &[5, 255, 0, clean]), (40, &BYTES)];
        has_image(&claimed(None, &steps), &none);
        for bucket in 0..4 {
            let place = 16 + usize::from(bucket);
            let parts: [Part; 4] = [
                (0, &[flag]),
                (4, &[5, bucket, 0, clean]),
                (place, &[1]),
                (40, &BYTES),
            ];
            has_image(&claimed(Some(bucket), &steps), &parts);
            let counted = [&steps[..], &[(18, bucket, 0, 0)]].concat();
            has_image(&claimed(None, &counted), &parts);
        }
    }
}

/// Any value can be kept, and 0 too.
#[test]
fn editors_that_keep_any_value() {
    for value in [0, 1, 255, 256, 1 << 63, StoredType::MAX] {
        for (clean, flag) in [(0, 10), (1, 9)] {
            let page = after(fresh(0), &[(12, 0, 0, 0), (17, 0, 0, value), (3, 0, 0, 0)]);
            let page = after(page, &edit(clean));
            let kept = value.to_le_bytes();
            let parts: [Part; 3] = [(0, &[flag]), (4, &[5, 255, 0, clean]), (40, &kept)];
            has_image(&page, &parts);
        }
    }
}

#[test]
fn loaders() {
    let pending = after(fresh(VALUE), &[(11, 0, 0, 0)]);
    has_image(&pending, &[(0, &[2]), (8, &[1])]);
    for bucket in 0..4 {
        let place = 16 + usize::from(bucket);
        let counted = after(pending.clone(), &[(13, bucket, 0, 0)]);
        has_image(&counted, &[(0, &[2]), (8, &[2, bucket]), (place, &[1])]);
        let loading = after(counted, &[(14, 0, 0, 0)]);
        has_image(&loading, &[(0, &[1]), (8, &[3, bucket]), (place, &[1])]);
    }
    for way in [&[(12, 0, 0, 0)][..], &[(11, 0, 0, 0), (15, 0, 0, 0)]] {
        let uncounted = after(fresh(VALUE), way);
        has_image(&uncounted, &[(0, &[1]), (8, &[3, 255])]);
    }
}

// There and back.

/// All pages of these seeds' long streams, sound and not.
fn drawn_pages() -> impl Iterator<Item = Page> {
    let requests = 2_000;
    let streams = (1..=3).map(move |seed| stream(&Plan { seed, requests }));
    streams.flat_map(|stream| walks(&stream)).flat_map(|walk| {
        let after = walk.asked.into_iter().map(|asked| (*asked.after).clone());
        iter::once(walk.start).chain(after)
    })
}

#[test]
fn reading_and_writing_undo_each_other() {
    let mut numbers = [0, 0];
    for page in drawn_pages() {
        numbers[usize::from(sound(&page))] += 1;
        if sound(&page) {
            assert_eq!(read_image(&image(&page)), restored(&page));
        } else {
            let mut buffer = [170; 4_161];
            assert_eq!(write_image(&page, &mut buffer), Err(Refusal::NotSound));
            assert_eq!(buffer, [170; 4_161]);
            assert_eq!(read_image(&write_raw(&page)), refused(Refusal::NotImage));
        }
    }
    assert!(numbers.iter().all(|&number| number > 1_000), "{numbers:?}");
}

/// Judged the other way round: the bytes that a sound record has as its image.
fn is_image(bytes: &[u8; 4_160]) -> bool {
    read_raw(bytes).is_some_and(|page| sound(&page) && image(&page) == *bytes)
}

/// The page's image with another byte at one place. Either nothing is read of
/// it, or it is the image of another record. Tells which.
fn damaged(page: &Page, place: usize, byte: u8) -> bool {
    let mut bytes = image(page);
    bytes[place] = byte;
    let outcome = read_image(&bytes);
    if outcome.answer.is_ok() {
        assert_eq!(image(&outcome.page), bytes, "place {place}: {page:?}");
        assert_ne!(&outcome.page, page);
    } else {
        assert_eq!(outcome, refused(Refusal::NotImage));
        assert!(!is_image(&bytes), "place {place}: {page:?}");
    }
    outcome.answer.is_ok()
}

/// The pages that the streams restore.
fn kept() -> Vec<Page> {
    let (seed, requests) = (1, 0);
    let plan = Plan { seed, requests };
    let more = more_kept(&plan).into_iter();
    main_kept().into_iter().chain(more).collect()
}

/// The places of the head and of some entries: the first ones, the last one that is
/// listed and the next, and those around both lengths.
fn some_places(page: &Page) -> Vec<usize> {
    let listed = page.shared_state.listed().len();
    let mut entries = vec![0, 1, 62, 63, 64, 254, 255];
    entries.extend([listed.saturating_sub(1), listed, listed + 1]);
    entries.retain(|&entry| entry < 256);
    let entries = entries.into_iter().map(|entry| 64 + 16 * entry);
    let places = entries.flat_map(|entry| entry..entry + 16);
    (0..64).chain(places).collect()
}

#[test]
fn any_byte_damaged_in_any_way() {
    for page in kept() {
        let image = image(&page);
        for place in some_places(&page) {
            let byte = image[place];
            let others = [byte.wrapping_add(1), byte ^ 128, 0, 1, 4, 255];
            for other in others.into_iter().filter(|&other| other != byte) {
                damaged(&page, place, other);
            }
        }
    }
}

/// The places at which one more is the image of another record.
fn harmless(page: &Page) -> Vec<usize> {
    let image = image(page);
    (0..4_160)
        .filter(|&place| damaged(page, place, image[place].wrapping_add(1)))
        .collect()
}

/// A claim without a bucket beside a writeback, and readers of each phase.
fn busy() -> Page {
    let second = [(19, 3, 0, 0), (23, 3, 0, 0)];
    let last = [(19, 0, 0, 0), (1, 0, 0, 0), (3, 0, 0, 0)];
    loaded(&[&reader(2)[..], &second, &last].concat())
}

#[test]
fn a_rich_page_damaged_at_every_place() {
    // A reader may as well be Pending2, where the claim has closed nothing.
    assert_eq!(harmless(&busy()), [96]);
    // Nobody else has the value, or cares for it.
    let unmapped = after(fresh(VALUE), &[(19, 1, 0, 0)]);
    assert_eq!(harmless(&unmapped), (32..40).collect::<Vec<_>>());
    // An editor has it out, and may have taken another value.
    let editor = after(claimed(Some(0), &edit(1)), &[(19, 0, 0, 0)]);
    assert_eq!(harmless(&editor), (40..48).collect::<Vec<_>>());
    // It may have visited a bucket more.
    assert_eq!(harmless(&claimed(Some(0), &edit(1)[..5])), [6]);
    assert_eq!(harmless(&crowded()), (32..40).collect::<Vec<_>>());
}

// What is no image.

/// Not an image, though but for these parts it is this page's.
fn no_image(page: &Page, parts: &[Part]) {
    let mut bytes = image(page);
    for &(place, part) in parts {
        bytes[place..place + part.len()].copy_from_slice(part);
    }
    assert_eq!(read_image(&bytes), refused(Refusal::NotImage), "{parts:?}");
}

#[test]
fn numbers_without_a_meaning() {
    for (place, least) in [(0, 11), (1, 2), (4, 6), (7, 2), (8, 4), (10, 2), (64, 4)] {
        for byte in least..=255 {
            no_image(&busy(), &[(place, &[byte])]);
            no_image(&fresh(0), &[(place, &[byte])]);
        }
    }
}

/// With 4 in byte 4 nothing is an image: not that of an editor, whatever it is
/// said to have taken, nor any other.
#[test]
fn an_editor_that_does_not_say_what_it_took() {
    for bucket in [None, Some(0), Some(3)] {
        for clean in [0, 1] {
            let editor = claimed(bucket, &edit(clean));
            no_image(&editor, &[(4, &[4])]);
            no_image(&editor, &[(4, &[4]), (40, &[0; 8])]);
            no_image(&editor, &[(4, &[4]), (40, &[255; 8])]);
        }
    }
    for page in kept() {
        no_image(&page, &[(4, &[4])]);
        no_image(&page, &[(4, &[4]), (40, &[0; 8])]);
    }
    for page in drawn_pages().filter(sound).step_by(10) {
        no_image(&page, &[(4, &[4])]);
    }
}

#[test]
fn bytes_between_the_fields() {
    for place in (11..16).chain(20..32).chain(56..64) {
        for byte in [1, 128, 255] {
            no_image(&busy(), &[(place, &[byte])]);
            no_image(&fresh(VALUE), &[(place, &[byte])]);
        }
    }
}

#[test]
fn what_a_kind_does_not_have() {
    let pending = after(fresh(VALUE), &[(11, 0, 0, 0)]);
    let counted = after(pending.clone(), &[(13, 2, 0, 0)]);
    let editor = claimed(None, &edit(0));
    let waiting = claimed(None, &edit(0)[..1]);
    for byte in [1, 255] {
        no_image(&fresh(VALUE), &[(5, &[byte])]);
        no_image(&fresh(VALUE), &[(6, &[byte])]);
        no_image(&fresh(VALUE), &[(9, &[byte])]);
        no_image(&pending, &[(9, &[byte])]);
        no_image(&claimed(None, &[]), &[(6, &[byte])]);
        no_image(&waiting, &[(6, &[byte])]);
        no_image(&editor, &[(6, &[byte])]);
    }
    no_image(&fresh(VALUE), &[(7, &[1])]);
    no_image(&claimed(None, &[]), &[(7, &[1])]);
    no_image(&waiting, &[(7, &[1])]);
    no_image(&counted, &[(9, &[255]), (18, &[0])]);
    no_image(&pending, &[(32, &BYTES)]);
    no_image(&editor, &[(32, &BYTES)]);
    no_image(&fresh(VALUE), &[(40, &BYTES)]);
    no_image(&pending, &[(40, &BYTES)]);
    no_image(&fresh(VALUE), &[(48, &BYTES)]);
    no_image(&claimed(None, &[]), &[(48, &BYTES)]);
}

#[test]
fn a_holder_without_a_bucket_is_not_at_bucket_0() {
    no_image(&claimed(None, &[]), &[(5, &[0])]);
    no_image(&claimed(Some(0), &[]), &[(5, &[255])]);
    no_image(&after(fresh(0), &[(12, 0, 0, 0)]), &[(9, &[0])]);
}

#[test]
fn entries_of_the_list() {
    for place in (66..72).chain(82..88).chain(88..96).chain(98..112) {
        no_image(&busy(), &[(place, &[1])]);
    }
    for entry in [64, 80, 96] {
        no_image(&busy(), &[(entry, &[0])]);
    }
    for entry in [112, 1_072, 1_088, 4_144] {
        for blank in [[1, 0], [0, 1], [2, 0], [3, 0]] {
            no_image(&busy(), &[(entry, &blank)]);
        }
        for place in entry + 2..entry + 16 {
            no_image(&busy(), &[(place, &[1])]);
        }
    }
}

#[test]
fn lengths_of_the_list() {
    for length in [
        [2, 0],
        [4, 0],
        [67, 0],
        [3, 1],
        [3, 128],
        [0, 0],
        [0, 1],
        [255, 255],
    ] {
        no_image(&busy(), &[(2, &length)]);
    }
    for length in [
        [0, 0],
        [1, 0],
        [64, 0],
        [254, 0],
        [255, 0],
        [1, 1],
        [0, 2],
        [255, 255],
    ] {
        no_image(&crowded(), &[(2, &length)]);
    }
}

#[test]
fn images_of_records_that_are_not_sound() {
    assert_eq!(read_image(&[0; 4_160]), refused(Refusal::NotImage));
    for (rule, raw) in main_pages().into_iter().chain(more_pages()) {
        let page = read_raw(&raw.0).unwrap();
        let outcome = read_image(&write_raw(&page));
        assert_eq!(outcome.answer.is_ok(), rule == 0, "{page:?}");
    }
}

// The order of the answers, and what is touched.

#[test]
fn reading_tests_the_length_first() {
    let twice = [image(&busy()), image(&busy())].concat();
    let lengths = (0..=4_200).chain([5_248, 8_319, 8_320]);
    for length in lengths.filter(|length| ![1_088, 4_160].contains(length)) {
        let expected = refused(Refusal::ImageLength);
        assert_eq!(read_image(&twice[..length]), expected);
        assert_eq!(read_image(&vec![0; length]), expected);
        assert_eq!(read_image(&vec![255; length]), expected);
    }
    for length in [1_088, 4_160] {
        assert_eq!(read_image(&vec![255; length]), refused(Refusal::NotImage));
        assert_eq!(read_image(&twice[..length]), restored(&busy()));
    }
}

#[test]
fn writing_judges_the_record_before_the_room() {
    let mut broken = busy();
    broken.ref_counts[3] = Count(2);
    for room in [0, 1, 64, 1_087, 1_088, 1_089, 4_159, 4_160, 4_161, 8_320] {
        let before: Vec<u8> = (0..=255).cycle().take(room).collect();
        let mut buffer = before.clone();
        assert_eq!(write_image(&broken, &mut buffer), Err(Refusal::NotSound));
        assert_eq!(buffer, before);
        let written = write_image(&busy(), &mut buffer);
        if room < 4_160 {
            assert_eq!(written, Err(Refusal::ImageLength));
            assert_eq!(buffer, before);
        } else {
            assert_eq!(written, Ok(()));
            assert_eq!(buffer[..4_160], image(&busy()));
            assert_eq!(buffer[4_160..], before[4_160..]);
        }
    }
}
