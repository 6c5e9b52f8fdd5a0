//! Short images: 1,088 bytes, which are read under the short limits of 64 readers and
//! a count of 31, and never written.

mod common;

use std::iter;

use common::walks;
use second::image::{read_image, write_image};
use second::kinds::{Answer, Refusal, Request, StoredType};
use second::ops::drawn::{any_page, change};
use second::ops::image::of;
use second::ops::pages::{main_pages, more_pages};
use second::ops::random::Random;
use second::ops::restarts::{main_kept, more_kept};
use second::ops::{stream, Plan};
use second::raw::{read_raw, write_raw};
use second::record::{fresh, lowest_broken_rule, sound, Page};
use second::steps::{step, step_in_place};

/// The lengths of both, and the short limits.
const LONG: usize = 4_160;
const SHORT: usize = 1_088;
const READERS: usize = 64;
const COUNT: u8 = 31;

/// A value whose eight bytes are all different.
const VALUE: StoredType = 0x0807_0605_0403_0201;

/// A step with its bucket, its clean and its value.
type Step = (u8, u8, u8, StoredType);

/// The record after these accepted steps.
fn after(page: Page, steps: &[Step]) -> Page {
    steps.iter().fold(page, |page, &(number, b, c, v)| {
        let outcome = step(page, &Request::new(number, b, c, v));
        assert!(outcome.answer.is_ok(), "step {number}");
        outcome.page
    })
}

/// The same record with so many more readers at each bucket.
fn crowded(page: Page, readers: [usize; 4]) -> Page {
    let readers = (0..).zip(readers);
    let steps: Vec<Step> = readers
        .flat_map(|(bucket, number)| vec![(19, bucket, 0, 0); number])
        .collect();
    after(page, &steps)
}

fn crowd(readers: [usize; 4]) -> Page {
    crowded(fresh(VALUE), readers)
}

/// An editor with the page in its hands, which has no bucket.
fn editor() -> Page {
    let visit = (7, 0, 0, 0);
    let start = [(12, 0, 0, 0), (17, 0, 0, VALUE), (3, 0, 0, 0), (5, 0, 0, 0)];
    let take = [(6, 0, 1, 0), visit, visit, visit, visit, (8, 0, 0, 0)];
    after(fresh(0), &[&start[..], &take].concat())
}

fn image(page: &Page) -> [u8; LONG] {
    let mut image = [170; LONG];
    assert_eq!(write_image(page, &mut image), Ok(()), "{page:?}");
    image
}

/// What these bytes are read as, if they are read. A refusal gives a fresh record.
fn read(bytes: &[u8]) -> Option<Page> {
    let outcome = read_image(bytes);
    match outcome.answer {
        Ok(withdrawn) => {
            assert_eq!(withdrawn, None);
            Some(outcome.page)
        }
        Err(refusal) => {
            assert_eq!(refusal, Refusal::NotImage);
            assert_eq!(outcome.page, fresh(0));
            None
        }
    }
}

/// The beginning of the record's image is read as this very record.
fn short(page: &Page) {
    assert_eq!(read(&image(page)[..SHORT]).as_ref(), Some(page));
}

/// The record has an image, and no short one.
fn long_alone(page: &Page) {
    assert_eq!(read(&image(page)).as_ref(), Some(page));
    assert_eq!(read(&image(page)[..SHORT]), None, "{page:?}");
}

/// Bytes and 3,072 zeros.
fn with_zeros(bytes: &[u8]) -> Vec<u8> {
    [bytes, &[0; LONG - SHORT]].concat()
}

/// Whether the record keeps the short limits.
fn keeps_short_limits(page: &Page) -> bool {
    page.shared_state.listed().len() <= READERS
        && page.ref_counts.iter().all(|count| count.0 <= COUNT)
}

/// The pages that the streams restore.
fn kept() -> Vec<Page> {
    let (seed, requests) = (1, 0);
    let plan = Plan { seed, requests };
    let more = more_kept(&plan).into_iter();
    main_kept().into_iter().chain(more).collect()
}

// Exact bytes.

/// Zeros, but for the bytes from these places on.
fn bytes(parts: &[(usize, &[u8])]) -> [u8; SHORT] {
    let mut bytes = [0; SHORT];
    for &(place, part) in parts {
        bytes[place..place + part.len()].copy_from_slice(part);
    }
    bytes
}

#[test]
fn a_short_image_of_each_kind() {
    let value = VALUE.to_le_bytes();
    let loaded = after(fresh(0), &[(12, 0, 0, 0), (17, 0, 0, VALUE)]);
    let cases: [(Page, &[(usize, &[u8])]); 8] = [
        (fresh(0), &[(1, &[1])]),
        (
            after(fresh(VALUE), &[(19, 3, 0, 0)]),
            &[(1, &[1, 1]), (19, &[1]), (32, &value), (64, &[1, 3])],
        ),
        (
            after(loaded.clone(), &[(1, 0, 0, 0)]),
            &[(0, &[5, 1]), (10, &[1]), (32, &value), (48, &value)],
        ),
        (
            after(loaded.clone(), &[(3, 0, 0, 0)]),
            &[(0, &[4, 1]), (4, &[1, 255]), (32, &value), (40, &value)],
        ),
        (
            after(loaded, &[(3, 0, 0, 0), (5, 0, 0, 0)]),
            &[(0, &[8, 1]), (4, &[2, 255]), (32, &value), (40, &value)],
        ),
        (
            editor(),
            &[(0, &[9, 0]), (4, &[5, 255, 0, 1]), (40, &value)],
        ),
        (
            after(fresh(0), &[(11, 0, 0, 0), (13, 2, 0, 0)]),
            &[(0, &[2]), (8, &[2, 2]), (18, &[1])],
        ),
        (
            after(fresh(0), &[(12, 0, 0, 0)]),
            &[(0, &[1]), (8, &[3, 255])],
        ),
    ];
    for (page, parts) in cases {
        assert_eq!(read(&bytes(parts)), Some(page.clone()), "{parts:?}");
        assert_eq!(image(&page)[..], with_zeros(&bytes(parts)));
    }
}

/// 31 at each of two buckets and 2 at a third one, 64 entries in all.
#[test]
fn a_full_short_image() {
    let buckets = [vec![0; 31], vec![1; 31], vec![2; 2]].concat();
    let entries: Vec<u8> = buckets
        .iter()
        .flat_map(|&bucket| [1, bucket, 0, 0, 0, 0, 0, 0, 0, 0, 0, 0, 0, 0, 0, 0])
        .collect();
    assert_eq!(64 + entries.len(), SHORT);
    let parts: [(usize, &[u8]); 3] = [(1, &[1, 64, 0]), (16, &[31, 31, 2, 0]), (64, &entries)];
    let page = crowded(fresh(0), [31, 31, 2, 0]);
    assert_eq!(read(&bytes(&parts)), Some(page));
}

#[test]
fn with_4_in_byte_4_nothing_is_a_short_image() {
    for page in kept().iter().filter(|page| keeps_short_limits(page)) {
        let mut bytes = image(page)[..SHORT].to_vec();
        bytes[4] = 4;
        assert_eq!(read(&bytes), None);
        bytes[40..48].fill(0);
        assert_eq!(read(&bytes), None);
    }
}

// The short limits.

#[test]
fn at_most_64_readers() {
    for readers in [
        [0; 4],
        [1, 0, 0, 0],
        [16; 4],
        [31, 31, 2, 0],
        [2, 0, 31, 31],
    ] {
        short(&crowd(readers));
    }
    short(&crowd([16, 16, 16, 15]));
    for readers in [[17, 16, 16, 16], [16, 16, 16, 17], [31, 31, 3, 0]] {
        long_alone(&crowd(readers));
    }
    for readers in [[31; 4], [64; 4], [127, 127, 2, 0]] {
        long_alone(&crowd(readers));
    }
}

/// The 65th entry is not there, and who takes it for a blank, which is Pending at
/// bucket 0, has a record that is sound but for the limit.
#[test]
fn the_65th_reader_is_not_a_blank() {
    let page = crowded(crowd([0, 31, 31, 0]), [3, 0, 0, 0]);
    assert_eq!(page.shared_state.length, 65);
    assert_eq!(page.shared_state.listed()[64].bucket().0, 0);
    long_alone(&page);
    let mut bytes = image(&page)[..SHORT].to_vec();
    assert_eq!(bytes[16..20], [3, 31, 31, 0]);
    bytes[2] = 64;
    bytes[16] = 2;
    assert!(read(&bytes).is_some(), "64 of them");
}

/// At every bucket, and with everything else right.
#[test]
fn counts_of_at_most_31() {
    for bucket in 0..4 {
        let mut readers = [0; 4];
        for (number, has_short) in [(30, true), (31, true), (32, false), (33, false)] {
            readers[bucket] = number;
            let page = crowd(readers);
            assert_eq!(usize::from(page.ref_counts[bucket].0), number);
            assert_eq!(read(&image(&page)), Some(page.clone()));
            let expected = has_short.then_some(page.clone());
            assert_eq!(read(&image(&page)[..SHORT]), expected, "{readers:?}");
        }
        for number in [64, 126, 127] {
            readers[bucket] = number;
            long_alone(&crowd(readers));
        }
    }
}

/// It is the count that is limited, and not the readers at a bucket.
#[test]
fn a_holder_can_be_the_32nd_at_its_bucket() {
    for bucket in 0..4 {
        let mut readers = [0; 4];
        for (number, has_short) in [(30, true), (31, false)] {
            readers[usize::from(bucket)] = number;
            let editing = after(crowded(editor(), readers), &[(18, bucket, 0, 0)]);
            let loading = after(crowd(readers), &[(11, 0, 0, 0), (13, bucket, 0, 0)]);
            let loaded = after(loading.clone(), &[(14, 0, 0, 0)]);
            for page in [editing, loading, loaded] {
                if has_short {
                    short(&page);
                } else {
                    long_alone(&page);
                }
            }
        }
    }
    short(&after(crowded(editor(), [30, 31, 3, 0]), &[(18, 0, 0, 0)]));
    short(&crowded(editor(), [31, 31, 2, 0]));
    long_alone(&after(crowded(editor(), [31, 31, 2, 0]), &[(18, 0, 0, 0)]));
    long_alone(&after(crowded(editor(), [31, 31, 2, 0]), &[(18, 1, 0, 0)]));
    short(&after(crowded(editor(), [31, 31, 2, 0]), &[(18, 2, 0, 0)]));
}

#[test]
fn lengths_of_the_list_that_do_not_fit() {
    for page in [crowd([31, 31, 2, 0]), crowd([1, 0, 0, 0]), fresh(VALUE)] {
        let bytes = image(&page)[..SHORT].to_vec();
        let length = [bytes[2], bytes[3]];
        for other in [0, 1, 2, 63, 64, 65, 127, 128, 255_u8] {
            for high in [0, 1, 255] {
                let mut bytes = bytes.clone();
                bytes[2..4].copy_from_slice(&[other, high]);
                let expected = ([other, high] == length).then_some(page.clone());
                assert_eq!(read(&bytes), expected, "{other} {high}");
            }
        }
    }
}

#[test]
fn a_record_that_is_not_sound() {
    assert_eq!(read(&[0; SHORT]), None);
    assert_eq!(read(&[255; SHORT]), None);
    let mut numbers = [0, 0];
    for (rule, raw) in main_pages().into_iter().chain(more_pages()) {
        let page = read_raw(&with_zeros(raw.short())).unwrap();
        let bytes = &write_raw(&page)[..SHORT];
        let keeps = lowest_broken_rule(&page).is_none() && keeps_short_limits(&page);
        assert_eq!(read(bytes).is_some(), keeps, "{rule}: {page:?}");
        numbers[usize::from(keeps)] += 1;
    }
    assert!(numbers.iter().all(|&number| number >= 5), "{numbers:?}");
}

// Beside the long form.

/// How often each thing was seen of bytes that are read short.
#[derive(Debug, Default)]
struct Beside {
    read: u32,
    /// Those with zeros after them were read, but a count was above 31.
    high_count: u32,
    refused: u32,
}

impl Beside {
    /// A short image is read as a record just if it is read as that one with zeros
    /// after it, and the record keeps the short limits. Written again, it is those
    /// bytes with the zeros.
    fn judge(&mut self, bytes: &[u8]) {
        let long = with_zeros(bytes);
        let whole = read(&long);
        let expected = whole.clone().filter(keeps_short_limits);
        let short = read(bytes);
        assert_eq!(short, expected, "{whole:?}");
        match (short, whole) {
            (Some(page), _) => {
                assert_eq!(image(&page)[..], long);
                self.read += 1;
            }
            (None, Some(_)) => self.high_count += 1,
            (None, None) => self.refused += 1,
        }
    }
}

/// All pages of these seeds' long streams, sound and not.
fn drawn_pages() -> impl Iterator<Item = Page> {
    let requests = 2_000;
    let streams = (4..=5).map(move |seed| stream(&Plan { seed, requests }));
    streams.flat_map(|stream| walks(&stream)).flat_map(|walk| {
        let after = walk.asked.into_iter().map(|asked| (*asked.after).clone());
        iter::once(walk.start).chain(after)
    })
}

/// Those of every page as it is.
#[test]
fn short_and_long_of_drawn_pages() {
    let mut beside = Beside::default();
    for page in drawn_pages() {
        beside.judge(&write_raw(&page)[..SHORT]);
    }
    assert!(beside.read > 10_000, "{beside:?}");
    assert!(beside.high_count > 100, "{beside:?}");
    assert!(beside.refused > 1_000, "{beside:?}");
}

/// With one thing changed, with any byte at one place, and among bytes that an image
/// has as zero; and any pages.
#[test]
fn short_and_long_of_damaged_pages() {
    let mut random = Random::new(88);
    let mut beside = Beside::default();
    let pages: Vec<Page> = drawn_pages().step_by(5).collect();
    for page in &pages {
        let image = of(page);
        beside.judge(change(&mut random, image.clone()).short());
        let place = random.below(SHORT);
        beside.judge(image.clone().set(place, random.byte()).short());
        beside.judge(image.noise(&mut random).short());
        beside.judge(any_page(&mut random, &pages).short());
    }
    assert!(beside.read > 1_000, "{beside:?}");
    assert!(beside.high_count > 50, "{beside:?}");
    assert!(beside.refused > 10_000, "{beside:?}");
}

/// Another byte at every place, for each page that is kept.
#[test]
fn short_and_long_damaged_at_every_place() {
    let mut beside = Beside::default();
    for page in kept() {
        let bytes = image(&page)[..SHORT].to_vec();
        for place in 0..SHORT {
            for byte in [bytes[place].wrapping_add(1), 32, 255] {
                let mut bytes = bytes.clone();
                bytes[place] = byte;
                beside.judge(&bytes);
            }
        }
    }
    assert!(beside.read > 100, "{beside:?}");
    assert!(beside.refused > 50_000, "{beside:?}");
}

/// The same record, and then another byte at each place of what comes after.
#[test]
fn zeros_after_a_short_image_and_other_bytes() {
    for page in [crowd([31, 31, 2, 0]), editor(), fresh(0)] {
        let mut bytes = with_zeros(&image(&page)[..SHORT]);
        assert_eq!(read(&bytes), Some(page));
        for place in SHORT..LONG {
            for byte in [1, 128] {
                bytes[place] = byte;
                assert_eq!(read(&bytes), None, "place {place}");
            }
            bytes[place] = 0;
        }
    }
}

#[test]
fn an_image_that_is_cut_off() {
    let mut numbers = [0, 0];
    for page in drawn_pages().filter(sound) {
        let cut = read(&image(&page)[..SHORT]);
        let keeps = keeps_short_limits(&page);
        numbers[usize::from(keeps)] += 1;
        assert_eq!(cut, keeps.then_some(page));
    }
    assert!(numbers.iter().all(|&number| number > 1_000), "{numbers:?}");
}

// What is done with a record that was read short.

/// It is long, however few readers there are, and no room for less will do.
#[test]
fn a_record_that_was_read_short_is_written_long() {
    let pages = kept();
    for page in pages.iter().filter(|page| keeps_short_limits(page)) {
        let restored = read(&image(page)[..SHORT]).unwrap();
        for room in [0, 1, 64, 1_087, 1_088, 1_089, 4_159, 4_160, 4_161, 5_000] {
            let mut buffer = vec![170; room];
            let written = write_image(&restored, &mut buffer);
            if room < LONG {
                assert_eq!(written, Err(Refusal::ImageLength));
                assert_eq!(buffer, vec![170; room]);
            } else {
                assert_eq!(written, Ok(()));
                assert_eq!(buffer[..SHORT], image(page)[..SHORT]);
                assert_eq!(buffer[SHORT..LONG], [0; LONG - SHORT]);
                assert_eq!(buffer[LONG..], vec![170; room - LONG]);
            }
        }
    }
}

/// The answers to readers that come at this bucket until none is accepted.
fn fill(page: &mut Page, bucket: u8) -> (usize, Answer) {
    let request = Request::new(19, bucket, 0, 0);
    for accepted in 0.. {
        let answer = step_in_place(page, &request);
        if answer.is_err() {
            return (accepted, answer);
        }
    }
    unreachable!("the list is full at some time")
}

/// Where it goes on, only today's limits count.
#[test]
fn a_record_that_was_read_short_has_todays_limits() {
    let mut page = read(&image(&crowd([31, 31, 2, 0]))[..SHORT]).unwrap();
    assert_eq!(fill(&mut page, 0), (96, Err(Refusal::CountFull)));
    assert_eq!(fill(&mut page, 1), (96, Err(Refusal::CountFull)));
    assert_eq!(fill(&mut page, 2), (0, Err(Refusal::ListFull)));
    assert_eq!(page.ref_counts.map(|count| count.0), [127, 127, 2, 0]);
    long_alone(&page);
    let mut page = read(&image(&crowd([16; 4]))[..SHORT]).unwrap();
    assert_eq!(fill(&mut page, 0), (111, Err(Refusal::CountFull)));
    assert_eq!(fill(&mut page, 1), (81, Err(Refusal::ListFull)));
    assert_eq!(fill(&mut page, 2), (0, Err(Refusal::ListFull)));
    assert_eq!(page.ref_counts.map(|count| count.0), [127, 97, 16, 16]);
    long_alone(&page);
}
