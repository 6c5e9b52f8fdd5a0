//! What an editor keeps, and that one who took the page as clean puts in nothing
//! else: the exact page after each step, the order of the answers, and the past.

mod common;

use common::history::History;
use second::image::{read_image, write_image};
use second::kinds::{
    Answer, BucketId, Count, ExcState, Flag, LoadingState, Refusal, Request, SharedState,
    StoredType, Visited,
};
use second::record::{count_all_refs, fresh, sound, Page};
use second::run::run;
use second::steps::{step, step_in_place};
use second::wire::{answer_bytes, write_request};

const VALUE: StoredType = 7;

/// Values that are not kept: far off, and different in one bit.
const OTHERS: [StoredType; 6] = [
    0,
    VALUE + 1,
    VALUE ^ 1,
    VALUE ^ 1 << 32,
    VALUE ^ 1 << 63,
    StoredType::MAX,
];

/// The steps by which an editor puts the page in.
const DEPOSITS: [u8; 4] = [9, 10, 29, 30];

/// No bucket, the first and the last.
const BUCKETS: [Option<BucketId>; 3] = [None, Some(BucketId(0)), Some(BucketId(3))];

fn obtained(bucket: Option<BucketId>, clean: bool) -> ExcState {
    ExcState::Obtained {
        bucket,
        clean,
        value: VALUE,
    }
}

fn claim(bucket: Option<BucketId>) -> ExcState {
    ExcState::Claim {
        bucket,
        value: VALUE,
    }
}

fn visiting(bucket: Option<BucketId>, visited: u8, clean: bool) -> ExcState {
    ExcState::Pending {
        bucket,
        visited_count: Visited(visited),
        clean,
        value: VALUE,
    }
}

fn choice(clean: bool) -> Flag {
    if clean {
        Flag::ExcLockClean
    } else {
        Flag::ExcLockDirty
    }
}

/// A sound page of this flag and this exclusive holder, and with so many readers
/// at each bucket, all of them Pending.
fn page(flag: Flag, holder: ExcState, readers: [usize; 4]) -> Page {
    let out = matches!(holder, ExcState::Obtained { .. });
    let mut page = Page {
        storage: (!out).then_some(VALUE),
        flag,
        exc_state: Some(holder),
        ..fresh(0)
    };
    for (bucket, number) in BucketId::ALL.into_iter().zip(readers) {
        for _ in 0..number {
            page.shared_state.push(SharedState::Pending { bucket });
        }
    }
    for bucket in BucketId::ALL {
        page.ref_counts[bucket.index()] = Count(count_all_refs(&page, bucket) as u8);
    }
    assert!(sound(&page), "{page:?}");
    page
}

/// An editor that has the page out and keeps `VALUE`.
fn editing(bucket: Option<BucketId>, clean: bool, readers: [usize; 4]) -> Page {
    page(choice(clean), obtained(bucket, clean), readers)
}

/// The answer and the page after it, which are the same by value, with the page
/// lent and in a run.
fn asked(before: &Page, request: &Request) -> (Answer, Page) {
    let outcome = step(before.clone(), request);
    let mut lent = before.clone();
    assert_eq!(step_in_place(&mut lent, request), outcome.answer);
    assert_eq!(lent, outcome.page);
    let mut bytes = [0; 16];
    if write_request(request, &mut bytes).is_ok() && sound(before) {
        let mut page = before.clone();
        let mut line = [0; 16];
        assert_eq!(run(&mut page, &bytes, &mut line), Ok(()));
        assert_eq!(line, answer_bytes(&outcome.answer));
        assert_eq!(page, outcome.page);
    }
    (outcome.answer, outcome.page)
}

/// The number of the refusal, of a request that changes nothing.
fn refusal(before: &Page, request: &Request) -> u8 {
    let (answer, after) = asked(before, request);
    assert_eq!(&after, before, "{request:?}");
    answer.unwrap_err() as u8
}

/// A request that puts this value in.
fn put(number: u8, value: StoredType) -> Request {
    Request::new(number, 0, 0, value)
}

/// The page after these accepted steps (step, bucket, clean, value).
fn then(page: Page, steps: &[(u8, u8, u8, StoredType)]) -> Page {
    steps.iter().fold(page, |page, &(number, b, c, v)| {
        let outcome = step(page, &Request::new(number, b, c, v));
        assert!(outcome.answer.is_ok(), "step {number}");
        outcome.page
    })
}

/// The steps from a claim to the page.
fn take(clean: u8) -> Vec<(u8, u8, u8, StoredType)> {
    let visit = (7, 0, 0, 0);
    let start = [(5, 0, 0, 0), (6, 0, clean, 0)];
    [&start[..], &[visit; 4], &[(8, 0, 0, 0)]].concat()
}

// What is kept.

#[test]
fn step_8_keeps_what_it_hands_out() {
    for clean in [false, true] {
        for bucket in BUCKETS {
            let before = page(choice(clean), visiting(bucket, 4, clean), [2, 0, 0, 1]);
            let (answer, after) = asked(&before, &Request::new(8, 0, 0, 0));
            assert_eq!(answer, Ok(Some(VALUE)));
            assert_eq!(after, editing(bucket, clean, [2, 0, 0, 1]));
        }
    }
}

#[test]
fn step_18_keeps_the_value_and_the_choice() {
    for clean in [false, true] {
        for bucket in 0..4 {
            let before = editing(None, clean, [1, 2, 3, 4]);
            let (answer, after) = asked(&before, &Request::new(18, bucket, 0, 0));
            assert_eq!(answer, Ok(None));
            let own = Some(BucketId(bucket));
            assert_eq!(after, editing(own, clean, [1, 2, 3, 4]));
        }
    }
}

/// Whatever was chosen, the claim is the same, and the next choice counts.
#[test]
fn step_28_forgets_the_choice() {
    for visited in 0..=4 {
        for bucket in BUCKETS {
            let claimed = page(Flag::Claimed, claim(bucket), [0; 4]);
            for clean in [false, true] {
                let before = page(choice(clean), visiting(bucket, visited, clean), [0; 4]);
                let after = then(before, &[(28, 0, 0, 0)]);
                assert_eq!(after, claimed);
                for next in [0, 1] {
                    let editor = then(after.clone(), &take(next));
                    assert_eq!(editor, editing(bucket, next == 1, [0; 4]));
                }
            }
        }
    }
}

/// The next editor keeps what the one before it has put in, which may be 0.
#[test]
fn each_taking_keeps_its_own_value() {
    let first = editing(Some(BucketId(1)), false, [0; 4]);
    let second = then(first, &[&[(10, 0, 0, 9)], &take(1)[..]].concat());
    assert_eq!(refusal(&second, &put(29, VALUE)), 17);
    let third = then(second, &[&[(10, 0, 0, 9)], &take(0)[..]].concat());
    let of_0 = then(third.clone(), &[&[(10, 0, 0, 0)], &take(1)[..]].concat());
    assert_eq!(refusal(&of_0, &put(29, 1)), 17);
    puts_in(&of_0, 29, 0);
    let fourth = then(third, &[&[(10, 0, 0, VALUE)], &take(1)[..]].concat());
    assert_eq!(refusal(&fourth, &put(29, 9)), 17);
    assert_eq!(fourth, editing(Some(BucketId(1)), true, [0; 4]));
}

#[test]
fn an_image_has_what_is_kept_at_byte_40() {
    for value in [0, 1, 0x0807_0605_0403_0201, StoredType::MAX] {
        for clean in [false, true] {
            for bucket in BUCKETS {
                let mut page = editing(bucket, clean, [1, 0, 0, 2]);
                page.exc_state = Some(ExcState::Obtained {
                    bucket,
                    clean,
                    value,
                });
                let mut image = [170; 4_160];
                assert_eq!(write_image(&page, &mut image), Ok(()));
                assert_eq!(image[4], 5);
                assert_eq!(image[40..48], value.to_le_bytes());
                let outcome = read_image(&image);
                assert_eq!(outcome.answer, Ok(None));
                assert_eq!(outcome.page, page);
                image[4] = 4;
                assert_eq!(read_image(&image).answer, Err(Refusal::NotImage));
                assert_eq!(read_image(&image).page, fresh(0));
            }
        }
    }
}

// What is put in.

/// The page after an editor has put this value in, as the table says.
fn expected(before: &Page, number: u8, value: StoredType) -> Page {
    let bucket = before.exc_state.and_then(ExcState::bucket);
    let mut after = Page {
        storage: Some(value),
        exc_state: None,
        ..before.clone()
    };
    match number {
        9 => {
            let bucket = bucket.unwrap();
            after.flag = Flag::Available;
            after
                .shared_state
                .push(SharedState::Obtained { bucket, value });
        }
        10 => {
            after.flag = Flag::Claimed;
            after.exc_state = Some(ExcState::Claim { bucket, value });
        }
        29 => after.flag = Flag::Available,
        _ => after.flag = Flag::Unmapped,
    }
    if let (29 | 30, Some(bucket)) = (number, bucket) {
        after.ref_counts[bucket.index()].0 -= 1;
    }
    after
}

/// The editor puts the value in.
fn puts_in(before: &Page, number: u8, value: StoredType) {
    let (answer, after) = asked(before, &put(number, value));
    assert_eq!(answer, Ok(None), "{number} {value}");
    assert_eq!(after, expected(before, number, value));
    assert!(sound(&after));
}

#[test]
fn a_clean_editor_puts_in_what_it_keeps_and_nothing_else() {
    for readers in [[0; 4], [3, 0, 1, 0]] {
        let own = editing(Some(BucketId(2)), true, readers);
        let none = editing(None, true, readers);
        for number in DEPOSITS {
            puts_in(&own, number, VALUE);
            for other in OTHERS {
                assert_eq!(refusal(&own, &put(number, other)), 17);
            }
        }
        for number in [29, 30] {
            puts_in(&none, number, VALUE);
            for other in OTHERS {
                assert_eq!(refusal(&none, &put(number, other)), 17);
            }
        }
    }
}

/// The one that it keeps, too.
#[test]
fn a_dirty_editor_puts_in_any_value() {
    for readers in [[0; 4], [3, 0, 1, 0]] {
        let own = editing(Some(BucketId(2)), false, readers);
        let none = editing(None, false, readers);
        for value in OTHERS.into_iter().chain([VALUE]) {
            for number in DEPOSITS {
                puts_in(&own, number, value);
            }
            for number in [29, 30] {
                puts_in(&none, number, value);
            }
        }
    }
}

/// Whoever took the page before, and however: loaders keep nothing.
#[test]
fn a_loader_puts_in_any_value() {
    for clean in [false, true] {
        let editor = editing(Some(BucketId(1)), clean, [0; 4]);
        let unmapped = then(editor, &[(30, 0, 0, VALUE)]);
        let counted = [(11, 0, 0, 0), (13, 2, 0, 0), (14, 0, 0, 0)];
        for value in OTHERS.into_iter().chain([VALUE]) {
            then(unmapped.clone(), &[(12, 0, 0, 0), (17, 0, 0, value)]);
            let loading = then(unmapped.clone(), &counted);
            then(loading.clone(), &[(16, 0, 0, value)]);
            then(loading, &[(17, 0, 0, value)]);
        }
    }
}

// The order of the answers.

/// 17 speaks of an editor that has the page, so it is 6 where there is none.
#[test]
fn number_6_comes_before_17() {
    let own = Some(BucketId(1));
    let loading = |bucket| Page {
        storage: None,
        flag: Flag::Loading,
        loading_state: Some(LoadingState::Obtained { bucket }),
        ..fresh(0)
    };
    let pages = [
        fresh(VALUE),
        loading(None),
        page(Flag::Claimed, claim(own), [0; 4]),
        page(Flag::ExcLockClean, visiting(own, 0, true), [0; 4]),
        page(Flag::ExcLockClean, visiting(own, 4, true), [0; 4]),
        page(Flag::ExcLockClean, visiting(None, 4, true), [64; 4]),
    ];
    for before in pages {
        assert!(sound(&before));
        for number in DEPOSITS {
            for value in [VALUE, VALUE + 1] {
                assert_eq!(refusal(&before, &put(number, value)), 6);
            }
        }
    }
}

#[test]
fn number_7_comes_before_17_and_11() {
    for readers in [[0; 4], [64; 4]] {
        let before = editing(None, true, readers);
        for number in [9, 10] {
            for value in [VALUE, VALUE + 1] {
                assert_eq!(refusal(&before, &put(number, value)), 7);
            }
        }
        for number in [29, 30] {
            assert_eq!(refusal(&before, &put(number, VALUE + 1)), 17);
            puts_in(&before, number, VALUE);
        }
    }
}

/// Only 9 asks for room.
#[test]
fn number_11_comes_before_17() {
    for readers in [[64; 4], [127, 126, 3, 0]] {
        let full = editing(Some(BucketId(1)), true, readers);
        for value in [VALUE, VALUE + 1] {
            assert_eq!(refusal(&full, &put(9, value)), 11);
        }
        for number in [10, 29, 30] {
            assert_eq!(refusal(&full, &put(number, VALUE + 1)), 17);
            puts_in(&full, number, VALUE);
        }
        let roomy = then(full, &[(20, 2, 0, 0)]);
        assert_eq!(refusal(&roomy, &put(9, VALUE + 1)), 17);
        puts_in(&roomy, 9, VALUE);
    }
}

#[test]
fn numbers_1_and_3_come_before_17() {
    for clean in [false, true] {
        let before = editing(Some(BucketId(1)), clean, [1, 0, 0, 0]);
        let mut broken = before.clone();
        broken.ref_counts[3] = Count(1);
        for number in DEPOSITS {
            for value in [VALUE, VALUE + 1] {
                assert_eq!(refusal(&broken, &put(number, value)), 1);
                for (bucket, choice) in [(0, 1), (0, 2), (0, 255), (1, 0), (4, 1)] {
                    let request = Request::new(number, bucket, choice, value);
                    assert_eq!(refusal(&before, &request), 3);
                }
            }
        }
    }
}

// The past.

/// From a page that was read with an editor who has it out, and from a fresh one.
#[test]
fn the_past_of_what_is_kept() {
    let read = editing(None, true, [0, 1, 0, 0]);
    let from_read = [
        vec![(18, 2, 0, 0), (9, 0, 0, VALUE)],
        vec![(20, 1, 0, 0), (29, 0, 0, VALUE)],
        vec![(30, 0, 0, VALUE), (12, 0, 0, 0), (17, 0, 0, 4)],
    ];
    let load = vec![(12, 0, 0, 0), (17, 0, 0, 5), (3, 0, 0, 0)];
    let from_fresh = [
        [&load, &take(1)[..], &[(30, 0, 0, 5), (11, 0, 0, 0)]].concat(),
        [
            &load,
            &take(0)[..],
            &[(18, 1, 0, 0), (10, 0, 0, 6)],
            &take(1),
        ]
        .concat(),
    ];
    let reads = from_read.iter().map(|steps| (&read, steps));
    let start = fresh(3);
    let fresh = from_fresh.iter().map(|steps| (&start, steps));
    for (start, steps) in reads.chain(fresh) {
        let mut page = start.clone();
        let mut history = History::before(&page);
        history.fits(&page);
        for &(number, bucket, clean, value) in steps {
            let request = Request::new(number, bucket, clean, value);
            let outcome = step(page, &request);
            page = outcome.page;
            history.accepted(&request, outcome.answer.unwrap());
            history.fits(&page);
        }
    }
}

/// The history tells a clean editor that puts in another value.
#[test]
#[should_panic(expected = "clean means clean")]
fn the_past_does_not_allow_another_value() {
    let read = editing(None, true, [0; 4]);
    let mut history = History::before(&read);
    history.accepted(&put(29, VALUE + 1), None);
}
