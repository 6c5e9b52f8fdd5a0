//! What the streams of `ops` have of the limits, and of images of both lengths: told
//! by the bytes that go in and by what is answered.

mod common;

use std::collections::BTreeSet;

use common::{manners, operations, walks};
use second::drill::{Drill, Operation};
use second::image::read_image;
use second::kinds::{answer_number, ExcState, LoadingState};
use second::ops::removals::REMOVALS;
use second::ops::{stream, Plan, REQUESTS};
use second::raw::read_raw;
use second::record::{sound, Page};

/// The lengths of an image and of a short one.
const LONG: usize = 4_160;
const SHORT: usize = 1_088;

fn short(seed: u64) -> Vec<u8> {
    let requests = REQUESTS;
    stream(&Plan { seed, requests })
}

fn long(seed: u64) -> Vec<u8> {
    let requests = 4_000;
    stream(&Plan { seed, requests })
}

/// One operation, the page that it met, the number that it was given, and the page
/// that it left.
struct Done {
    operation: Operation,
    before: Page,
    number: u8,
    after: Page,
}

/// All operations of a stream.
fn done(stream: &[u8]) -> Vec<Done> {
    let mut drill = Drill::start();
    let mut done = Vec::new();
    for operation in operations(stream).0 {
        let before = drill.page().clone();
        let number = drill.perform(&operation).unwrap()[0];
        let after = drill.page().clone();
        done.push(Done {
            operation,
            before,
            number,
            after,
        });
    }
    done
}

/// Those that read an image of this many bytes and were given this number.
fn readings(done: &[Done], length: usize, number: u8) -> impl Iterator<Item = &Done> {
    done.iter().filter(move |done| {
        let operation = &done.operation;
        operation.number == 8 && operation.payload.len() == length && done.number == number
    })
}

fn listed(page: &Page) -> usize {
    page.shared_state.listed().len()
}

fn counts(page: &Page) -> [u8; 4] {
    page.ref_counts.map(|count| count.0)
}

/// The list's length as these bytes have it.
fn length_said(payload: &[u8]) -> usize {
    usize::from(payload[2]) + 256 * usize::from(payload[3])
}

fn with_zeros(short: &[u8]) -> Vec<u8> {
    [short, &[0; LONG - SHORT]].concat()
}

/// All of these are there.
#[track_caller]
fn has<T: Ord + std::fmt::Debug>(seen: &BTreeSet<T>, all: impl IntoIterator<Item = T>) {
    for one in all {
        assert!(seen.contains(&one), "{one:?} of {seen:?}");
    }
}

// Images.

#[test]
fn every_stream_reads_short_images_up_to_their_limits() {
    for seed in 1..=12 {
        let done = done(&short(seed));
        let pages: Vec<&Page> = readings(&done, SHORT, 0).map(|done| &done.after).collect();
        let lists: BTreeSet<usize> = pages.iter().map(|page| listed(page)).collect();
        has(&lists, [0, 1, 6, 64]);
        assert_eq!(lists.last(), Some(&64), "seed {seed}");
        let most = pages.iter().flat_map(|page| counts(page)).max();
        assert_eq!(most, Some(31), "seed {seed}");
        let full = |readers: [u8; 4]| pages.iter().any(|page| counts(page) == readers);
        assert!(full([31, 31, 2, 0]) && full([16; 4]), "seed {seed}");
        assert!(full([31, 31, 3, 0]), "seed {seed}: with a holder");
    }
}

/// The numbers of each kind stand in bytes 4, 8 and 10.
#[test]
fn every_stream_reads_short_images_of_every_kind_of_holder() {
    for seed in 1..=12 {
        let done = done(&short(seed));
        let kinds = |place: usize| -> BTreeSet<u8> {
            let payloads = readings(&done, SHORT, 0).map(|done| &done.operation.payload);
            payloads.map(|payload| payload[place]).collect()
        };
        assert_eq!(kinds(4), [0, 1, 2, 3, 5].into(), "seed {seed}");
        assert_eq!(kinds(8), [0, 1, 2, 3].into(), "seed {seed}");
        assert_eq!(kinds(10), [0, 1].into(), "seed {seed}");
        assert_eq!(kinds(7), [0, 1].into(), "seed {seed}");
    }
}

#[test]
fn the_first_stream_reads_long_images_up_to_their_limits() {
    let done = done(&short(1));
    let pages: Vec<&Page> = readings(&done, LONG, 0).map(|done| &done.after).collect();
    let lists: BTreeSet<usize> = pages.iter().map(|page| listed(page)).collect();
    has(&lists, [64, 65, 255, 256]);
    let highest = pages.iter().flat_map(|page| counts(page)).collect();
    has(&highest, [31, 32, 126, 127]);
    assert_eq!(highest.last(), Some(&127));
}

/// What a short image was refused for that is one with zeros after it: its highest
/// count, how many readers it lists, and whether an editor or a loader is among those
/// that are counted there.
fn high_counts(done: &[Done]) -> BTreeSet<(u8, usize, bool, bool)> {
    let mut seen = BTreeSet::new();
    for reading in readings(done, SHORT, 16) {
        let outcome = read_image(&with_zeros(&reading.operation.payload));
        if outcome.answer.is_ok() {
            let page = outcome.page;
            let counts = counts(&page);
            let highest = counts.into_iter().max().unwrap();
            let at = |bucket: usize| counts[bucket] == highest;
            let editor = page.exc_state.and_then(ExcState::bucket);
            let loader = page.loading_state.and_then(LoadingState::bucket);
            let editor = editor.is_some_and(|bucket| at(bucket.index()));
            let loader = loader.is_some_and(|bucket| at(bucket.index()));
            seen.insert((highest, listed(&page), editor, loader));
        }
    }
    seen
}

/// By readers alone, by an editor beside a full list, and by a loader.
#[test]
fn every_stream_refuses_short_images_for_a_count_of_32_alone() {
    for seed in 1..=12 {
        let seen = high_counts(&done(&short(seed)));
        has(&seen, [(32, 32, false, false), (32, 64, true, false)]);
        has(&seen, [(32, 31, false, true)]);
    }
}

/// Whoever takes the reader that is not there for a blank has a sound record.
#[test]
fn every_stream_refuses_short_images_for_the_65th_reader_alone() {
    for seed in 1..=12 {
        let done = done(&short(seed));
        let sixty_five = readings(&done, SHORT, 16).any(|done| {
            let payload = &done.operation.payload;
            let page = read_raw(&with_zeros(payload));
            let page = page.filter(|_| length_said(payload) == 65);
            page.is_some_and(|page| sound(&page) && counts(&page) == [3, 31, 31, 0])
        });
        assert!(sixty_five, "seed {seed}");
    }
}

/// Lengths of the list that are wrong where 64 entries are there, zeros alone, and a
/// byte at the very end.
#[test]
fn every_stream_refuses_other_short_images() {
    for seed in 1..=12 {
        let done = done(&short(seed));
        let payloads: Vec<_> = readings(&done, SHORT, 16)
            .map(|done| &done.operation.payload)
            .collect();
        let full = payloads.iter().filter(|payload| payload[SHORT - 16] > 0);
        let lengths = full.map(|payload| length_said(payload)).collect();
        has(&lengths, [0, 65, 320]);
        assert!(payloads.iter().any(|p| p.iter().all(|&byte| byte == 0)));
        let end = |payload: &[u8]| payload[SHORT - 8..].iter().any(|&byte| byte > 0);
        let at_the_end = payloads.iter().any(|p| end(p) && length_said(p) < 64);
        assert!(at_the_end, "seed {seed}");
        let unsound = payloads.iter().any(|payload| {
            let page = read_raw(&with_zeros(payload));
            page.is_some_and(|page| !sound(&page))
        });
        assert!(unsound, "seed {seed}");
    }
}

/// Those of a list of 256, which are `00 01`, and others in their place.
#[test]
fn every_stream_has_lengths_of_a_full_list() {
    for seed in 1..=12 {
        let done = done(&short(seed));
        let mut seen = BTreeSet::new();
        for number in [0, 16] {
            let payloads = readings(&done, LONG, number).map(|done| &done.operation.payload);
            let full = payloads.filter(|payload| payload[LONG - 16] > 0);
            seen.extend(full.map(|payload| (payload[2], payload[3], number)));
        }
        has(&seen, [(0, 1, 0), (0, 0, 16), (1, 0, 16), (1, 1, 16)]);
    }
}

/// A count of 128 that is right; entries that are listed and have a byte wrong, past
/// the short ones; and blanks there that are written out.
#[test]
fn every_stream_refuses_other_long_images() {
    for seed in 1..=12 {
        let done = done(&short(seed));
        let payloads: Vec<_> = readings(&done, LONG, 16)
            .map(|done| &done.operation.payload)
            .collect();
        let counted = payloads.iter().any(|payload| {
            let page = read_raw(payload);
            page.is_some_and(|page| listed(&page) == 128 && counts(&page) == [0, 128, 0, 0])
        });
        assert!(counted, "seed {seed}");
        let full: Vec<_> = payloads.iter().filter(|p| length_said(p) == 256).collect();
        assert!(full.iter().any(|p| p[SHORT] == 0), "seed {seed}");
        let last = full.iter().any(|p| p[LONG - 14..].iter().any(|&b| b > 0));
        assert!(last, "seed {seed}");
        let few: Vec<_> = payloads.iter().filter(|p| length_said(p) <= 64).collect();
        for blank in [SHORT, LONG - 16] {
            let written_out = few.iter().any(|p| {
                let places = (SHORT..LONG).filter(|&place| p[place] > 0);
                places.eq([blank]) && p[blank] == 1
            });
            assert!(written_out, "seed {seed}: {blank}");
        }
    }
}

/// The same page is read from a short image and from that with zeros.
#[test]
fn every_stream_has_a_short_image_with_zeros_after_it() {
    for seed in 1..=12 {
        let done = done(&short(seed));
        let payloads = |length: usize| -> BTreeSet<Vec<u8>> {
            let readings = readings(&done, length, 0);
            readings
                .map(|done| done.operation.payload.clone())
                .collect()
        };
        let long = payloads(LONG);
        let full = payloads(SHORT).into_iter().filter(|p| length_said(p) == 64);
        let mut both = full.filter(|p| long.contains(&with_zeros(p)));
        assert!(both.next().is_some(), "seed {seed}");
    }
}

#[test]
fn every_stream_has_lengths_that_no_image_has() {
    for seed in 1..=12 {
        let done = done(&short(seed));
        let read = done.iter().filter(|done| done.operation.number == 8);
        let seen: BTreeSet<_> = read
            .map(|done| (done.operation.payload.len(), done.number))
            .collect();
        for length in [0, 1, 16, 1_087, 1_089, 2_624, 4_159, 4_161] {
            has(&seen, [(length, 15)]);
        }
        has(&seen, [(SHORT, 0), (SHORT, 16), (LONG, 0), (LONG, 16)]);
        assert!(seen
            .iter()
            .all(|&(length, number)| (number == 15) != [SHORT, LONG].contains(&length)));
    }
}

/// What follows where a page was read short, until another one comes.
#[derive(Default)]
struct Short {
    /// The rooms that it was written into as it was read, with the number.
    rooms: BTreeSet<(u64, u8)>,
    /// The operations by which a request was accepted.
    accepted: BTreeSet<u8>,
    /// How often a page that had gone on was then read long.
    read_long: usize,
    /// How often it went on past a short limit.
    past_limits: usize,
}

impl Short {
    fn of(done: &[Done]) -> Short {
        let mut seen = Short::default();
        let mut read = None;
        for done in done {
            let operation = &done.operation;
            let went_on = read.as_ref().is_some_and(|page| *page != done.before);
            match operation.number {
                8 if done.number == 0 && went_on && done.before == done.after => {
                    seen.read_long += usize::from(operation.payload.len() == LONG);
                    read = None;
                }
                8 if done.number == 0 && operation.payload.len() == SHORT => {
                    read = Some(done.after.clone());
                }
                1 | 7 | 8 => read = None,
                9 if read.is_some() && !went_on => {
                    seen.rooms.insert((operation.a, done.number));
                }
                2..=4 | 10 | 13 if read.is_some() && done.before != done.after => {
                    seen.accepted.extend(manners(operation.number));
                    let over = counts(&done.after).into_iter().max() > Some(31);
                    seen.past_limits += usize::from(over || listed(&done.after) > 64);
                }
                _ => (),
            }
        }
        seen
    }
}

#[test]
fn every_stream_goes_on_with_pages_that_were_read_short() {
    for seed in 1..=12 {
        let seen = Short::of(&done(&short(seed)));
        has(
            &seen.rooms,
            [(1_088, 15), (4_159, 15), (4_160, 0), (4_161, 0)],
        );
        has(&seen.accepted, [2, 3, 4]);
        assert!(seen.read_long >= 2, "seed {seed}: {}", seen.read_long);
        assert!(seen.past_limits > 0, "seed {seed}");
    }
}

// Requests.

/// Where a request met a limit: the operation, the step and the number; and whether
/// a reader met both limits.
fn met(stream: &[u8]) -> BTreeSet<(u8, u8, u8, bool)> {
    let asked = walks(stream).into_iter().flat_map(|walk| walk.asked);
    let mut seen = BTreeSet::new();
    for asked in asked {
        let number = answer_number(&asked.answer);
        if let 10 | 11 = number {
            let (step, bucket) = (asked.bytes[0], usize::from(asked.bytes[1]));
            let full = listed(&asked.before) == 256;
            let both = full && step == 19 && counts(&asked.before)[bucket] == 127;
            let manners = manners(asked.operation).into_iter();
            seen.extend(manners.map(|operation| (operation, step, number, both)));
        }
    }
    seen
}

/// The steps that need room for a count, and those that need it in the list.
const COUNTED: [u8; 3] = [13, 18, 19];
const LISTED: [u8; 4] = [9, 16, 19, 26];

#[test]
fn every_stream_comes_to_the_limits() {
    for seed in 1..=12 {
        let seen = met(&short(seed));
        let at = |operation: u8, step: u8, number: u8| {
            let met = [false, true].map(|both| (operation, step, number, both));
            let met = met.iter().any(|met| seen.contains(met));
            assert!(met, "seed {seed}: {operation} {step} {number}");
        };
        for operation in [2, 3, 4] {
            for step in COUNTED {
                at(operation, step, 10);
            }
            for step in LISTED {
                if operation < 4 || step != 26 {
                    at(operation, step, 11);
                }
            }
        }
        for operation in [2, 3, 4] {
            has(&seen, [(operation, 19, 10, true)]);
        }
        assert!(!seen
            .iter()
            .any(|&(_, _, number, both)| number == 11 && both));
    }
}

#[test]
fn the_first_stream_comes_to_the_limits_in_pieces_and_everywhere_in_runs() {
    let seen = met(&short(1));
    has(&seen, [(10, 19, 10, false), (10, 19, 10, true)]);
    has(&seen, [(10, 26, 11, false), (10, 9, 11, false)]);
    has(&seen, [(4, 26, 11, false)]);
}

/// Ten seeds in a row do, and a long stream.
#[test]
fn streams_come_to_the_limits_in_every_manner() {
    let ten = (1..=10).flat_map(|seed| met(&short(seed))).collect();
    for seen in [ten, met(&long(2))] {
        for operation in [2, 3, 4, 10, 13] {
            let met = |step, number| (operation, step, number, false);
            has(&seen, LISTED.map(|step| met(step, 11)));
            has(&seen, COUNTED.map(|step| met(step, 10)));
            has(&seen, [(operation, 19, 10, true)]);
        }
    }
}

/// How often each limit is met by a single request.
fn single(seed: u64, requests: usize) -> [usize; 2] {
    let done = done(&stream(&Plan { seed, requests }));
    let single = done
        .iter()
        .filter(|done| matches!(done.operation.number, 2 | 3 | 13));
    let numbers: Vec<u8> = single.map(|done| done.number).collect();
    [10, 11].map(|limit| numbers.iter().filter(|&&number| number == limit).count())
}

/// Not only by script: where walks are longer, there are more.
#[test]
fn walks_step_around_the_limits() {
    for seed in 1..=3 {
        let (few, many) = (single(seed, 2_000), single(seed, 17_000));
        let [counts, lists] = [many[0] - few[0], many[1] - few[1]];
        assert!(counts >= 10, "seed {seed}: {few:?}, {many:?}");
        assert!(lists >= 50, "seed {seed}: {few:?}, {many:?}");
    }
}

// Raw pages.

/// The pages that came in raw, and what a look told right after: the lowest broken
/// rule.
fn raw_pages(stream: &[u8]) -> Vec<(Page, u8)> {
    let mut drill = Drill::start();
    let mut seen = Vec::new();
    let mut raw = false;
    for operation in operations(stream).0 {
        let written = drill.perform(&operation).unwrap();
        if operation.number == 6 && raw {
            seen.push((drill.page().clone(), written[1]));
        }
        raw = operation.number == 7 && written[0] == 0;
    }
    seen
}

#[test]
fn every_stream_has_raw_pages_around_the_limits() {
    for seed in 1..=12 {
        let pages = raw_pages(&short(seed));
        let full = pages.iter().filter(|(page, _)| counts(page) == [64; 4]);
        let lengths = full.map(|(page, rule)| (page.shared_state.length, *rule));
        has(
            &lengths.collect(),
            [(255, 5), (256, 0), (257, 8), (65_535, 8)],
        );
        let fits = |readers: [u8; 4], number: usize, rule: u8| {
            let wanted = |(page, told): &(Page, u8)| {
                counts(page) == readers && listed(page) == number && *told == rule
            };
            assert!(pages.iter().any(wanted), "seed {seed}: {readers:?}");
        };
        fits([1, 0, 128, 0], 129, 8);
        fits([0, 255, 0, 0], 256, 5);
        fits([0; 4], 256, 5);
        let past: BTreeSet<(usize, u8)> = pages
            .iter()
            .filter(|(page, _)| listed(page) < 64)
            .flat_map(|(page, rule)| {
                let entries = page.shared_state.entries.iter().enumerate();
                let past = entries.skip(listed(page));
                past.filter(|(_, entry)| entry.phase() > 0)
                    .map(|(place, _)| (place, *rule))
            })
            .collect();
        has(&past, [(64, 8), (255, 8)]);
    }
}

/// As a raw page 1,088 bytes have no meaning, and a phase past all places of a short
/// image is seen.
#[test]
fn every_stream_has_raw_pages_without_meaning_by_length_and_place() {
    for seed in 1..=12 {
        let done = done(&short(seed));
        let refused = done
            .iter()
            .filter(|done| done.operation.number == 7 && done.number == 255);
        let payloads: Vec<_> = refused.map(|done| &done.operation.payload).collect();
        let lengths = payloads.iter().map(|payload| payload.len()).collect();
        has(&lengths, [0, SHORT, LONG - 1, LONG + 1]);
        let good_short = |p: &&&Vec<u8>| p.len() == SHORT && read_image(p).answer.is_ok();
        assert!(payloads.iter().any(|p| good_short(&p)), "seed {seed}");
        let last = |p: &&&Vec<u8>| p.len() == LONG && p[LONG - 16] > 3;
        assert!(payloads.iter().any(|p| last(&p)), "seed {seed}");
    }
}

// The list.

/// Where a reader left a full list: the step, and the place that came free. A look
/// comes next.
fn left_full(stream: &[u8]) -> BTreeSet<(u8, usize)> {
    let done = done(stream);
    let mut seen = BTreeSet::new();
    for pair in done.windows(2) {
        let (before, after) = (&pair[0].before.shared_state, &pair[0].after.shared_state);
        let single = matches!(pair[0].operation.number, 2 | 3 | 13);
        if single && before.length == 256 && after.length == 255 && pair[1].operation.number == 6 {
            let mut places = 0..255;
            let gap = places.find(|&place| before.entries[place] != after.entries[place]);
            seen.insert((pair[0].operation.payload[0], gap.unwrap_or(255)));
        }
    }
    seen
}

/// The last reader, at place 255, takes the place of the one that leaves.
#[test]
fn readers_leave_a_full_list() {
    let mut all = BTreeSet::new();
    for seed in 1..=10 {
        let seen = left_full(&short(seed));
        assert!(!seen.is_empty(), "seed {seed}");
        all.extend(seen);
    }
    let steps: BTreeSet<u8> = all.iter().map(|&(step, _)| step).collect();
    has(&steps, REMOVALS);
    has(&all, [(20, 255), (21, 254)]);
    assert!(left_full(&short(1)).iter().any(|&(_, gap)| gap < 254));
}
