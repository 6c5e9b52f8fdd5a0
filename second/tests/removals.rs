//! Steps 4, 20, 21 and 22, by which a reader leaves the list: the exact page after
//! each, and that the order of those who stay is to be seen in the list alone.

mod common;

use std::collections::BTreeSet;

use common::{leaver, walks};
use second::kinds::{
    Answer, BucketId, Count, ExcState, Flag, LoadingState, Request, SharedState, StoredType,
};
use second::ops::random::Random;
use second::ops::removals::REMOVALS;
use second::ops::{stream, Plan};
use second::readers::Readers;
use second::record::{census, count_all_refs, fresh, sound, Page};
use second::run::run;
use second::steps::{step, step_in_place, takes_bucket, takes_clean, takes_value};
use second::wire::{answer_bytes, read_request, write_request};

const VALUE: StoredType = 7;

fn pending(bucket: u8) -> SharedState {
    SharedState::Pending {
        bucket: BucketId(bucket),
    }
}

fn pending2(bucket: u8) -> SharedState {
    SharedState::Pending2 {
        bucket: BucketId(bucket),
    }
}

fn obtained(bucket: u8) -> SharedState {
    SharedState::Obtained {
        bucket: BucketId(bucket),
        value: VALUE,
    }
}

fn list_of(readers: &[SharedState]) -> Readers {
    let mut list = Readers::none();
    for &reader in readers {
        list.push(reader);
    }
    list
}

/// A loaded page with these readers, which is sound.
fn page(readers: &[SharedState]) -> Page {
    let mut page = Page {
        flag: Flag::Available,
        shared_state: list_of(readers),
        ..fresh(VALUE)
    };
    for bucket in BucketId::ALL {
        page.ref_counts[bucket.index()] = Count(count_all_refs(&page, bucket) as u8);
    }
    assert!(sound(&page), "{page:?}");
    page
}

/// The request by which a reader at this bucket leaves.
fn leaving(number: u8, bucket: u8) -> Request {
    let value = if takes_value(number) { VALUE } else { 0 };
    Request::new(number, bucket, 0, value)
}

/// The page that an accepted removal leaves, where the reader at this place was the
/// one: the last reader has its place.
fn expected(before: &Page, request: &Request, place: usize) -> Page {
    let bucket = BucketId(request.bucket);
    let mut list = before.shared_state.listed().to_vec();
    let last = list.pop().unwrap();
    if place < list.len() {
        list[place] = last;
    }
    let mut after = Page {
        shared_state: list_of(&list),
        ..before.clone()
    };
    if request.step == 4 {
        after.flag = match before.flag {
            Flag::Available => Flag::Claimed,
            Flag::Writeback => Flag::WritebackAndClaimed,
            flag => panic!("{flag:?}"),
        };
        after.exc_state = Some(ExcState::Claim {
            bucket: Some(bucket),
            value: request.value,
        });
    } else {
        after.ref_counts[bucket.index()].0 -= 1;
    }
    after
}

/// The request is accepted by value, lent and in a run, hands nothing out, and
/// leaves just this page, which is sound.
fn leaves(before: &Page, request: &Request, after: &Page) {
    let outcome = step(before.clone(), request);
    assert_eq!(outcome.answer, Ok(None), "{request:?}: {before:?}");
    assert_eq!(&outcome.page, after, "{request:?}: {before:?}");
    assert!(sound(after), "{request:?}: {before:?}");
    let mut lent = before.clone();
    assert_eq!(step_in_place(&mut lent, request), Ok(None));
    assert_eq!(&lent, after);
    let mut bytes = [0; 16];
    assert_eq!(write_request(request, &mut bytes), Ok(()));
    let mut page = before.clone();
    let mut line = [170; 16];
    assert_eq!(run(&mut page, &bytes, &mut line), Ok(()));
    assert_eq!(line, answer_bytes(&Ok(None)));
    assert_eq!(&page, after);
}

/// So many readers, none of them at bucket 2.
fn others(number: usize) -> Vec<SharedState> {
    let some = [
        pending(1),
        obtained(3),
        pending2(0),
        obtained(0),
        pending(3),
        pending2(1),
        obtained(1),
    ];
    some.into_iter().cycle().take(number).collect()
}

// The exact page.

#[test]
fn the_last_reader_takes_the_place_of_one_that_leaves() {
    for number in REMOVALS {
        let request = leaving(number, 2);
        let reader = leaver(&request).unwrap();
        for length in [1, 2, 3, 4, 5, 8, 64, 65, 255, 256] {
            for place in 0..length {
                let mut list = others(length);
                list[place] = reader;
                let before = page(&list);
                leaves(&before, &request, &expected(&before, &request, place));
            }
        }
    }
}

#[test]
fn the_first_of_two_equal_readers_leaves() {
    for number in REMOVALS {
        let request = leaving(number, 2);
        let reader = leaver(&request).unwrap();
        for length in [2, 3, 6, 65, 256] {
            // Of a long list some, and the last one.
            let places = (1..length).filter(|place| length < 256 || place % 51 == 0);
            for second in places {
                for first in 0..second {
                    let mut list = others(length);
                    list[first] = reader;
                    list[second] = reader;
                    let before = page(&list);
                    let after = expected(&before, &request, first);
                    leaves(&before, &request, &after);
                    let staying = after.shared_state.listed().iter();
                    assert_eq!(staying.filter(|&&other| other == reader).count(), 1);
                }
            }
        }
    }
}

/// Step 4 beside the archive, and the others beside a claim.
#[test]
fn whoever_else_is_there_stays() {
    for number in REMOVALS {
        let request = leaving(number, 2);
        let reader = leaver(&request).unwrap();
        for place in 0..6 {
            let mut list = others(6);
            list[place] = reader;
            let busy = if number == 4 { 1 } else { 3 };
            let outcome = step(page(&list), &Request::new(busy, 0, 0, 0));
            assert_eq!(outcome.answer, Ok(None));
            let before = outcome.page;
            leaves(&before, &request, &expected(&before, &request, place));
        }
    }
}

/// Every accepted removal of these streams, of which many leave another list than
/// one in which those behind move up.
#[test]
fn streams_leave_the_exact_lists() {
    let mut seen = [0; 4];
    let mut told_apart = [0; 4];
    for seed in 1..=4 {
        let requests = 4_000;
        let walks = walks(&stream(&Plan { seed, requests }));
        for asked in walks.into_iter().flat_map(|walk| walk.asked) {
            let (Ok(request), Ok(withdrawn)) = (read_request(&asked.bytes), asked.answer) else {
                continue;
            };
            let Some(turn) = REMOVALS.iter().position(|&n| n == request.step) else {
                continue;
            };
            let mut list = asked.before.shared_state.listed().to_vec();
            let reader = leaver(&request).unwrap();
            let place = list.iter().position(|&other| other == reader).unwrap();
            assert_eq!(withdrawn, None);
            assert_eq!(*asked.after, expected(&asked.before, &request, place));
            list.remove(place);
            seen[turn] += 1;
            told_apart[turn] += u32::from(asked.after.shared_state != list_of(&list));
        }
    }
    assert!(seen.iter().all(|&number| number > 300), "{seen:?}");
    assert!(
        told_apart.iter().all(|&number| number > 100),
        "{told_apart:?}"
    );
}

// The order is not to be seen.

/// A page beside another one. Its list is kept by what the requests say: where one
/// leaves, those behind it move up.
struct Beside {
    page: Page,
    list: Vec<SharedState>,
}

impl Beside {
    fn start(page: &Page) -> Beside {
        Beside {
            page: page.clone(),
            list: page.shared_state.listed().to_vec(),
        }
    }

    /// The answer from a page that lists its readers in this order.
    fn ask(&mut self, request: &Request) -> Answer {
        let before = self.page.clone();
        let answer = step_in_place(&mut self.page, request);
        if answer.is_ok() {
            self.follow(&before, request);
            assert_eq!(
                sorted(self.page.shared_state.listed()),
                sorted(&self.list),
                "{request:?}: {before:?}"
            );
            self.page.shared_state = list_of(&self.list);
        }
        answer
    }

    /// What the accepted request does to the list.
    fn follow(&mut self, before: &Page, request: &Request) {
        let bucket = BucketId(request.bucket);
        let value = request.value;
        let editor = before.exc_state.and_then(ExcState::bucket);
        let loader = before.loading_state.and_then(LoadingState::bucket);
        match request.step {
            4 | 20..=22 => {
                let place = self.place(leaver(request).unwrap());
                self.list.remove(place);
            }
            23 => {
                let place = self.place(SharedState::Pending { bucket });
                self.list[place] = SharedState::Pending2 { bucket };
            }
            24 => {
                let place = self.place(SharedState::Pending2 { bucket });
                let value = before.storage.unwrap();
                self.list[place] = SharedState::Obtained { bucket, value };
            }
            19 => self.list.push(SharedState::Pending { bucket }),
            9 => self.comes(editor, value),
            16 => self.comes(loader, value),
            26 => self.comes(editor, before.storage.unwrap()),
            _ => (),
        }
    }

    fn place(&self, reader: SharedState) -> usize {
        let mut readers = self.list.iter();
        readers.position(|&listed| listed == reader).unwrap()
    }

    fn comes(&mut self, bucket: Option<BucketId>, value: StoredType) {
        let bucket = bucket.unwrap();
        self.list.push(SharedState::Obtained { bucket, value });
    }

    /// Whether the other page is the same but for the order of its list; tells
    /// whether that is another one.
    fn fits(&self, other: &Page) -> bool {
        assert_eq!(self.page.ref_counts, other.ref_counts);
        assert_eq!(census(&self.page), census(other));
        assert_eq!(sound(&self.page), sound(other));
        assert_eq!(
            Page {
                shared_state: Readers::none(),
                ..self.page.clone()
            },
            Page {
                shared_state: Readers::none(),
                ..other.clone()
            }
        );
        let listed = other.shared_state.listed();
        assert_eq!(sorted(&self.list), sorted(listed));
        self.list != listed
    }
}

/// The readers by phase, bucket and value.
fn sorted(readers: &[SharedState]) -> Vec<(usize, u8, StoredType)> {
    let parts = |&reader: &SharedState| match reader {
        SharedState::Obtained { bucket, value } => (2, bucket.0, value),
        _ => (reader.phase(), reader.bucket().0, 0),
    };
    let mut sorted: Vec<_> = readers.iter().map(parts).collect();
    sorted.sort_unstable();
    sorted
}

/// How often a request met two lists of another order.
#[derive(Debug, Default)]
struct Apart {
    /// All requests.
    requests: u32,
    /// Those that met another order: all, and by the step those that were accepted.
    asked: u32,
    accepted: [u32; 31],
    /// The numbers that the others were given.
    refused: BTreeSet<u8>,
}

/// Asks both pages, and sees that they stay the same but for the order.
fn ask_both(page: &mut Page, beside: &mut Beside, request: &Request, apart: &mut Apart) {
    let another = beside.fits(page);
    let answer = step_in_place(page, request);
    assert_eq!(beside.ask(request), answer, "{request:?}: {page:?}");
    beside.fits(page);
    apart.requests += 1;
    if another {
        apart.asked += 1;
        match answer {
            Ok(_) => apart.accepted[usize::from(request.step)] += 1,
            Err(refusal) => _ = apart.refused.insert(refusal as u8),
        }
    }
}

/// The steps that are drawn: readers come more often than they leave, until the
/// list is full. Seldom there is one that is not about them.
const DRAWN: [(usize, &[u8]); 3] = [
    (8, &[19, 23, 24]),
    (3, &[4, 20, 21, 22, 25, 26]),
    (1, &[0, 1, 2, 3, 5, 6, 7, 8, 27, 28, 31]),
];

/// A request with fields that the page may accept.
fn draw(random: &mut Random, page: &Page) -> Request {
    let steps: Vec<u8> = DRAWN
        .iter()
        .flat_map(|&(often, steps)| steps.repeat(often))
        .collect();
    let number = random.pick(&steps);
    let bucket = u8::from(takes_bucket(number)) * random.byte_below(4);
    let clean = u8::from(takes_clean(number)) * random.byte_below(2);
    let stored = page.storage.filter(|_| !random.one_in(8));
    let value = stored.unwrap_or_else(|| random.value());
    let value = u64::from(takes_value(number)) * value;
    Request::new(number, bucket, clean, value)
}

/// From an empty list, from one that is almost full, and where buckets are.
#[test]
fn drawn_requests_do_not_tell_the_order() {
    let mut apart = Apart::default();
    let bucket = vec![pending(2); 124];
    let two = [vec![obtained(0); 125], vec![pending2(3); 125]].concat();
    for (seed, start) in (1..).zip([vec![], others(252), bucket, two]) {
        let mut random = Random::new(seed);
        let mut page = page(&start);
        let mut beside = Beside::start(&page);
        for _ in 0..3_000 {
            let request = draw(&mut random, &page);
            ask_both(&mut page, &mut beside, &request, &mut apart);
        }
    }
    assert_eq!(apart.requests, 12_000);
    assert!(apart.asked > 10_000, "{apart:?}");
    for number in [4, 19, 20, 21, 22, 23, 24, 26] {
        assert!(apart.accepted[number] > 50, "{number}: {apart:?}");
    }
    for number in [2, 5, 6, 9, 10, 11] {
        assert!(apart.refused.contains(&number), "{number}: {apart:?}");
    }
}

/// From every sound page of these streams on, fresh, raw or read.
#[test]
fn streams_do_not_tell_the_order() {
    let mut apart = Apart::default();
    let requests = 4_000;
    let streams = (1..=4).map(|seed| stream(&Plan { seed, requests }));
    let walks = streams.flat_map(|stream| walks(&stream));
    for walk in walks.filter(|walk| sound(&walk.start)) {
        let mut page = walk.start.clone();
        let mut beside = Beside::start(&page);
        for asked in &walk.asked {
            if let Ok(request) = read_request(&asked.bytes) {
                ask_both(&mut page, &mut beside, &request, &mut apart);
            }
            assert_eq!(page, *asked.after);
        }
    }
    assert!(apart.requests > 20_000, "{apart:?}");
    assert!(apart.asked > 3_000, "{apart:?}");
    for number in [4, 19, 20, 21, 22, 23, 24, 26] {
        assert!(apart.accepted[number] > 20, "{number}: {apart:?}");
    }
}
