//! Every refusal of a step, and that the lowest number is the one given.

mod common;

use common::{walks, Asked};
use second::kinds::{
    answer_number, Answer, BucketId, Count, ExcState, Flag, LoadingState, Refusal, Request,
    SharedState, StoredType, CAPACITY, CEILING,
};
use second::ops::{stream, Plan};
use second::record::{fresh, sound, Page};
use second::steps::step;
use second::wire::read_request;

/// The record after these accepted steps (step, bucket, clean, value).
fn after(steps: &[(u8, u8, u8, StoredType)]) -> Page {
    steps.iter().fold(fresh(0), |page, &(number, b, c, v)| {
        let outcome = step(page, &Request::new(number, b, c, v));
        assert!(outcome.answer.is_ok(), "step {number}");
        outcome.page
    })
}

/// The same record with so many more readers at each bucket.
fn crowded(mut page: Page, readers: [u8; 4]) -> Page {
    for (bucket, number) in (0..).zip(readers) {
        for _ in 0..number {
            page = step(page, &Request::new(19, bucket, 0, 0)).page;
        }
    }
    page
}

/// The answer, on a record that stays as it was.
fn refusal(page: &Page, number: u8, bucket: u8, clean: u8, value: StoredType) -> Answer {
    let outcome = step(page.clone(), &Request::new(number, bucket, clean, value));
    assert_eq!(&outcome.page, page);
    outcome.answer
}

const LOADED: [(u8, u8, u8, StoredType); 4] =
    [(11, 0, 0, 0), (13, 1, 0, 0), (14, 0, 0, 0), (17, 0, 0, 7)];

fn loaded() -> Page {
    after(&LOADED)
}

/// The record after these steps on a loaded page of value 7.
fn loaded_then(steps: &[(u8, u8, u8, StoredType)]) -> Page {
    after(&[&LOADED, steps].concat())
}

/// An editor without a bucket, the page in its hands, which it took as clean.
fn editor() -> Page {
    let visit = (7, 0, 0, 0);
    loaded_then(&[
        (3, 0, 0, 0),
        (5, 0, 0, 0),
        (6, 0, 1, 0),
        visit,
        visit,
        visit,
        visit,
        (8, 0, 0, 0),
    ])
}

/// The same editor, counted at bucket 1.
fn counted_editor() -> Page {
    step(editor(), &Request::new(18, 1, 0, 0)).page
}

/// A loader that has the page and no bucket, by either way.
fn prefetches() -> [Page; 2] {
    [
        after(&[(12, 0, 0, 0)]),
        after(&[(11, 0, 0, 0), (15, 0, 0, 0)]),
    ]
}

#[test]
fn number_1_comes_first() {
    let mut page = fresh(0);
    page.storage = None;
    assert_eq!(refusal(&page, 19, 0, 0, 0), Err(Refusal::NotSound));
    assert_eq!(refusal(&page, 31, 9, 9, 9), Err(Refusal::NotSound));
}

#[test]
fn number_2() {
    for number in (31..=255).chain([0]) {
        let answer = refusal(&fresh(0), number, 4, 2, 1);
        assert_eq!(answer, Err(Refusal::UnknownStep));
    }
}

#[test]
fn number_3() {
    let takes_bucket = [4, 13, 18, 19, 20, 21, 22, 23, 24];
    let takes_value = [4, 9, 10, 16, 17, 22, 29, 30];
    let bad = Err(Refusal::BadField);
    for number in 1..=30 {
        let fourth_bucket = refusal_or_not(number, 4, 0, 0);
        if takes_bucket.contains(&number) {
            assert_eq!(fourth_bucket, Err(Refusal::BadBucket));
        } else {
            assert_eq!(fourth_bucket, bad);
        }
        let a_value = refusal_or_not(number, 0, 0, 1 << 63);
        assert_eq!(a_value == bad, !takes_value.contains(&number));
        assert_eq!(refusal_or_not(number, 0, 1, 0) == bad, number != 6);
        assert_eq!(refusal_or_not(number, 0, 2, 0), bad);
        assert_eq!(refusal_or_not(number, 255, 255, 0), bad);
    }
}

fn refusal_or_not(number: u8, bucket: u8, clean: u8, value: StoredType) -> Answer {
    step(fresh(0), &Request::new(number, bucket, clean, value)).answer
}

#[test]
fn number_4() {
    for number in [4, 13, 18, 19, 20, 21, 22, 23, 24] {
        for bucket in [4, 5, 31, 255] {
            let answer = refusal(&fresh(0), number, bucket, 0, 0);
            assert_eq!(answer, Err(Refusal::BadBucket));
        }
        let answer = step(fresh(0), &Request::new(number, 3, 0, 0)).answer;
        assert_ne!(answer, Err(Refusal::BadBucket));
    }
}

#[test]
fn number_5() {
    let wrong = Err(Refusal::WrongFlag);
    for number in [1, 3, 4, 23] {
        assert_eq!(refusal(&fresh(0), number, 0, 0, 0), wrong);
    }
    assert_eq!(refusal(&loaded(), 11, 0, 0, 0), wrong);
    assert_eq!(refusal(&loaded(), 12, 0, 0, 0), wrong);
    let loading = after(&[(12, 0, 0, 0), (19, 2, 0, 0), (23, 2, 0, 0)]);
    assert_eq!(refusal(&loading, 24, 2, 0, 0), wrong);
    assert_eq!(refusal(&loading, 24, 1, 0, 0), wrong);
    let writeback = loaded_then(&[(1, 0, 0, 0)]);
    assert_eq!(refusal(&writeback, 6, 0, 0, 0), wrong);
    let waiting = loaded_then(&[(1, 0, 0, 0), (3, 0, 0, 0), (5, 0, 0, 0)]);
    assert_eq!(refusal(&waiting, 6, 0, 1, 0), wrong);
    let pending = loaded_then(&[(19, 0, 0, 0), (3, 0, 0, 0), (5, 0, 0, 0)]);
    assert_eq!(refusal(&pending, 23, 0, 0, 0), wrong);
}

#[test]
fn number_6() {
    let missing = Err(Refusal::NoHolder);
    for number in [2, 5, 6, 7, 8, 9, 10, 13, 14, 15, 16, 17, 18, 20, 21, 22, 24] {
        assert_eq!(refusal(&fresh(0), number, 0, 0, 0), missing);
    }
    for number in 25..=30 {
        assert_eq!(refusal(&fresh(0), number, 0, 0, 0), missing);
        assert_eq!(refusal(&loaded(), number, 0, 0, 0), missing);
    }
    assert_eq!(refusal(&loaded(), 4, 0, 0, 7), missing);
    assert_eq!(refusal(&loaded(), 23, 0, 0, 0), missing);
    let reading = loaded_then(&[(19, 2, 0, 0), (23, 2, 0, 0), (24, 2, 0, 0)]);
    assert_eq!(refusal(&reading, 22, 2, 0, 8), missing);
    assert_eq!(refusal(&reading, 4, 2, 0, 8), missing);
    assert_eq!(refusal(&reading, 22, 1, 0, 7), missing);
    assert_eq!(refusal(&reading, 20, 2, 0, 0), missing);
    assert_eq!(refusal(&reading, 21, 2, 0, 0), missing);
    let claimed_beside_writeback = loaded_then(&[(1, 0, 0, 0), (3, 0, 0, 0)]);
    assert_eq!(refusal(&claimed_beside_writeback, 6, 0, 0, 0), missing);
    let pending = after(&[(11, 0, 0, 0)]);
    for number in [14, 16, 17] {
        assert_eq!(refusal(&pending, number, 0, 0, 0), missing);
    }
    let counted = after(&[(11, 0, 0, 0), (13, 3, 0, 0)]);
    for number in [13, 15, 16, 17] {
        assert_eq!(refusal(&counted, number, 0, 0, 0), missing);
    }
    assert_eq!(refusal(&loaded(), 17, 0, 0, 7), missing);
}

#[test]
fn number_7() {
    let bucket = Err(Refusal::HolderBucket);
    assert_eq!(refusal(&editor(), 9, 0, 0, 1), bucket);
    assert_eq!(refusal(&editor(), 10, 0, 0, 1), bucket);
    assert_eq!(refusal(&counted_editor(), 18, 0, 0, 0), bucket);
    for loading in prefetches() {
        assert_eq!(refusal(&loading, 16, 0, 0, 1), bucket);
    }
    let claimed = loaded_then(&[(3, 0, 0, 0)]);
    assert_eq!(refusal(&claimed, 26, 0, 0, 0), bucket);
    let beside_writeback = loaded_then(&[(1, 0, 0, 0), (3, 0, 0, 0)]);
    assert_eq!(refusal(&beside_writeback, 26, 0, 0, 0), bucket);
}

#[test]
fn number_8() {
    let mut page = loaded_then(&[(3, 0, 0, 0), (5, 0, 0, 0), (6, 0, 0, 0)]);
    for _ in 0..4 {
        assert_eq!(refusal(&page, 8, 0, 0, 0), Err(Refusal::WrongVisited));
        page = step(page, &Request::new(7, 0, 0, 0)).page;
    }
    assert_eq!(refusal(&page, 7, 0, 0, 0), Err(Refusal::WrongVisited));
    assert_eq!(
        step(page, &Request::new(8, 0, 0, 0)).answer,
        Ok(Some(7)),
        "the value last put in"
    );
}

#[test]
fn number_9() {
    let without = loaded_then(&[(3, 0, 0, 0), (5, 0, 0, 0), (6, 0, 0, 0)]);
    let crowd = crowded(without, [1, 0, 0, 0]);
    assert_eq!(refusal(&crowd, 7, 0, 0, 0), Err(Refusal::OtherCount));
    let own = loaded_then(&[
        (19, 0, 0, 0),
        (23, 0, 0, 0),
        (24, 0, 0, 0),
        (4, 0, 0, 7),
        (5, 0, 0, 0),
        (6, 0, 0, 0),
    ]);
    let crowd = crowded(own.clone(), [1, 0, 0, 0]);
    assert_eq!(refusal(&crowd, 7, 0, 0, 0), Err(Refusal::OtherCount));
    assert_eq!(step(own, &Request::new(7, 0, 0, 0)).answer, Ok(None));
}

#[test]
fn number_10() {
    let full = Err(Refusal::CountFull);
    let readers = crowded(fresh(0), [127, 0, 0, 0]);
    assert_eq!(refusal(&readers, 19, 0, 0, 0), full);
    let loading = crowded(after(&[(11, 0, 0, 0)]), [0, 127, 0, 0]);
    assert_eq!(refusal(&loading, 13, 1, 0, 0), full);
    let editing = crowded(editor(), [0, 0, 0, 127]);
    assert_eq!(refusal(&editing, 18, 3, 0, 0), full);
}

#[test]
fn number_11() {
    let full = Err(Refusal::ListFull);
    let readers = crowded(fresh(0), [64; 4]);
    assert_eq!(refusal(&readers, 19, 0, 0, 0), full);
    let loading = after(&[(11, 0, 0, 0), (13, 1, 0, 0), (14, 0, 0, 0)]);
    let loading = crowded(loading, [64; 4]);
    assert_eq!(refusal(&loading, 16, 0, 0, 1), full);
    let editing = crowded(counted_editor(), [64; 4]);
    assert_eq!(refusal(&editing, 9, 0, 0, 1), full);
    assert_eq!(refusal(&editing, 9, 0, 0, 7), full);
    for number in [10, 29, 30] {
        let request = Request::new(number, 0, 0, 7);
        assert!(step(editing.clone(), &request).answer.is_ok());
    }
    assert!(step(loading, &Request::new(17, 0, 0, 1)).answer.is_ok());
    let claimed = step(counted_editor(), &Request::new(10, 0, 0, 7)).page;
    let claimed = crowded(claimed, [64; 4]);
    assert_eq!(refusal(&claimed, 26, 0, 0, 0), full);
    assert!(step(claimed, &Request::new(25, 0, 0, 0)).answer.is_ok());
}

#[test]
fn number_17() {
    let other = Err(Refusal::OtherValue);
    for number in [9, 10, 29, 30] {
        assert_eq!(refusal(&counted_editor(), number, 0, 0, 1), other);
        let request = Request::new(number, 0, 0, 7);
        assert!(step(counted_editor(), &request).answer.is_ok());
    }
    for number in [29, 30] {
        assert_eq!(refusal(&editor(), number, 0, 0, 1), other);
        let request = Request::new(number, 0, 0, 7);
        assert!(step(editor(), &request).answer.is_ok());
    }
}

#[test]
fn the_lower_of_two_is_given() {
    let full_bucket = crowded(fresh(0), [127, 0, 0, 0]);
    assert_eq!(refusal(&full_bucket, 13, 0, 0, 0), Err(Refusal::NoHolder));
    let full_bucket = crowded(counted_editor(), [127, 0, 0, 0]);
    assert_eq!(
        refusal(&full_bucket, 18, 0, 0, 0),
        Err(Refusal::HolderBucket)
    );
    let full_list = crowded(editor(), [64; 4]);
    assert_eq!(refusal(&full_list, 9, 0, 0, 0), Err(Refusal::HolderBucket));
    for full_list in prefetches().map(|page| crowded(page, [64; 4])) {
        assert_eq!(refusal(&full_list, 16, 0, 0, 0), Err(Refusal::HolderBucket));
    }
    let full_list = crowded(loaded_then(&[(3, 0, 0, 0)]), [64; 4]);
    assert_eq!(refusal(&full_list, 26, 0, 0, 0), Err(Refusal::HolderBucket));
    let full_list = crowded(fresh(0), [127, 127, 2, 0]);
    assert_eq!(refusal(&full_list, 26, 0, 0, 0), Err(Refusal::NoHolder));
    assert_eq!(refusal(&full_list, 16, 0, 0, 0), Err(Refusal::NoHolder));
    assert_eq!(refusal(&full_list, 19, 0, 0, 0), Err(Refusal::CountFull));
    assert_eq!(refusal(&full_list, 19, 2, 0, 0), Err(Refusal::ListFull));
    let full_list = crowded(counted_editor(), [64; 4]);
    assert_eq!(refusal(&full_list, 9, 0, 0, 1), Err(Refusal::ListFull));
    assert_eq!(refusal(&full_list, 10, 0, 0, 1), Err(Refusal::OtherValue));
    assert_eq!(refusal(&editor(), 10, 0, 0, 1), Err(Refusal::HolderBucket));
}

#[test]
fn the_first_equal_reader_is_the_one() {
    let pending = |bucket| SharedState::Pending {
        bucket: BucketId(bucket),
    };
    let pending2 = |bucket| SharedState::Pending2 {
        bucket: BucketId(bucket),
    };
    let page = loaded_then(&[
        (19, 0, 0, 0),
        (19, 1, 0, 0),
        (19, 0, 0, 0),
        (19, 1, 0, 0),
        (23, 1, 0, 0),
    ]);
    assert_eq!(
        page.shared_state.listed(),
        [pending(0), pending2(1), pending(0), pending(1)]
    );
    let page = step(page, &Request::new(20, 0, 0, 0)).page;
    assert_eq!(
        page.shared_state.listed(),
        [pending(1), pending2(1), pending(0)]
    );
}

/// Step 17 puts the value in and takes the loader away. The readers stay as
/// they are and stay counted, whether or not the loader had a bucket.
#[test]
fn a_loader_leaves_and_takes_its_own_reference() {
    let loading = |bucket| after(&[(11, 0, 0, 0), (13, bucket, 0, 0), (14, 0, 0, 0)]);
    for page in (0..4).map(loading).chain(prefetches()) {
        for readers in [[0; 4], [3, 0, 0, 0], [1, 2, 0, 5], [126, 126, 2, 2]] {
            let before = checked(crowded(page.clone(), readers));
            let expected = Page {
                storage: Some(9),
                flag: Flag::Available,
                ref_counts: readers.map(Count),
                loading_state: None,
                ..before.clone()
            };
            let outcome = step(before, &Request::new(17, 0, 0, 9));
            assert_eq!(outcome.answer, Ok(None));
            assert_eq!(outcome.page, expected);
            assert!(sound(&outcome.page));
        }
    }
}

/// The same record, where at each bucket one reader passes its first check.
fn checked(mut page: Page) -> Page {
    for bucket in 0..4 {
        page = step(page, &Request::new(23, bucket, 0, 0)).page;
    }
    page
}

/// Whether the refusal of this number (2 to 11, 17) applies, told from the table
/// of premises and without any order.
fn applies(number: u8, page: &Page, request: &Request) -> bool {
    let asked = request.step;
    match number {
        2 => asked == 0 || asked > 30,
        3 => unused_not_zero(request),
        4 => takes_bucket(asked) && request.bucket > 3,
        5 => !flags(asked).contains(&page.flag),
        6 => !holder(page, request),
        7 => holder(page, request) && wrong_bucket(page, asked),
        8 => visited(page).is_some_and(|v| asked == 7 && v == 4 || asked == 8 && v != 4),
        9 => asked == 7 && other_count(page),
        10 => [13, 18, 19].contains(&asked) && count(page, request.bucket) == CEILING.0,
        11 => [9, 16, 19, 26].contains(&asked) && page.shared_state.listed().len() == CAPACITY,
        17 => [9, 10, 29, 30].contains(&asked) && other_value(page, request.value),
        _ => false,
    }
}

fn takes_bucket(asked: u8) -> bool {
    [4, 13, 18, 19, 20, 21, 22, 23, 24].contains(&asked)
}

fn unused_not_zero(request: &Request) -> bool {
    let takes_value = [4, 9, 10, 16, 17, 22, 29, 30].contains(&request.step);
    !takes_bucket(request.step) && request.bucket != 0
        || !takes_value && request.value != 0
        || request.step != 6 && request.clean != 0
        || request.clean > 1
}

fn flags(asked: u8) -> Vec<Flag> {
    use Flag::*;
    let all = vec![
        Unmapped,
        Loading,
        LoadingExcLock,
        Available,
        Claimed,
        Writeback,
        WritebackAndClaimed,
        WritebackAndPendingExcLock,
        PendingExcLock,
        ExcLockClean,
        ExcLockDirty,
    ];
    let but = |left_out: &[Flag]| {
        let kept = all.iter().filter(|flag| !left_out.contains(flag));
        kept.copied().collect()
    };
    match asked {
        1 => vec![Available],
        3 | 4 => vec![Available, Writeback],
        6 => but(&[Writeback, WritebackAndPendingExcLock]),
        11 | 12 => vec![Unmapped],
        23 => vec![Available, Writeback, Claimed, WritebackAndClaimed, Loading],
        24 => but(&[Loading]),
        _ => all,
    }
}

fn holder(page: &Page, request: &Request) -> bool {
    let bucket = BucketId(request.bucket);
    let value = request.value;
    let lists = |reader| page.shared_state.listed().contains(&reader);
    match request.step {
        2 => page.writeback_state.is_some(),
        4 | 22 => lists(SharedState::Obtained { bucket, value }),
        5 | 25 | 26 => matches!(page.exc_state, Some(ExcState::Claim { .. })),
        6 | 27 => matches!(page.exc_state, Some(ExcState::PendingAwaitWriteback { .. })),
        7 | 8 | 28 => matches!(page.exc_state, Some(ExcState::Pending { .. })),
        9 | 10 | 18 | 29 | 30 => matches!(page.exc_state, Some(ExcState::Obtained { .. })),
        13 | 15 => page.loading_state == Some(LoadingState::Pending),
        14 => matches!(
            page.loading_state,
            Some(LoadingState::PendingCounted { .. })
        ),
        16 | 17 => matches!(page.loading_state, Some(LoadingState::Obtained { .. })),
        20 | 23 => lists(SharedState::Pending { bucket }),
        21 | 24 => lists(SharedState::Pending2 { bucket }),
        _ => true,
    }
}

fn wrong_bucket(page: &Page, asked: u8) -> bool {
    match asked {
        9 | 10 | 26 => page.exc_state.and_then(ExcState::bucket).is_none(),
        16 => page.loading_state.and_then(LoadingState::bucket).is_none(),
        18 => page.exc_state.and_then(ExcState::bucket).is_some(),
        _ => false,
    }
}

fn visited(page: &Page) -> Option<u8> {
    match page.exc_state {
        Some(ExcState::Pending { visited_count, .. }) => Some(visited_count.0),
        _ => None,
    }
}

fn other_count(page: &Page) -> bool {
    let own = page.exc_state.and_then(ExcState::bucket);
    visited(page).is_some_and(|v| {
        v < 4 && count(page, v) != u8::from(own.is_some_and(|bucket| bucket.0 == v))
    })
}

fn other_value(page: &Page, value: StoredType) -> bool {
    match page.exc_state {
        Some(ExcState::Obtained {
            clean, value: kept, ..
        }) => clean && value != kept,
        _ => false,
    }
}

fn count(page: &Page, bucket: u8) -> u8 {
    page.ref_counts
        .get(usize::from(bucket))
        .map_or(0, |count| count.0)
}

fn lowest(page: &Page, request: &Request) -> u8 {
    (2..=11)
        .chain([17])
        .find(|&number| applies(number, page, request))
        .unwrap_or(0)
}

/// The requests of a stream that meet a sound page.
fn asked(seed: u64) -> impl Iterator<Item = Asked> {
    let requests = 4_000;
    let walks = walks(&stream(&Plan { seed, requests }));
    let asked = walks.into_iter().flat_map(|walk| walk.asked);
    asked.filter(|asked| sound(&asked.before))
}

#[test]
fn streams_give_the_lowest_number_that_applies() {
    for asked in (1..=8).flat_map(asked) {
        if let Ok(request) = read_request(&asked.bytes) {
            let expected = lowest(&asked.before, &request);
            assert_eq!(answer_number(&asked.answer), expected);
        }
    }
}

#[test]
fn every_request_on_many_records_gets_the_lowest_number() {
    for Asked { before, .. } in asked(9).step_by(20) {
        for request in all_small_requests(value_of(&before)) {
            let answer = step((*before).clone(), &request).answer;
            assert_eq!(answer_number(&answer), lowest(&before, &request));
        }
    }
}

/// The value in storage, or the one that the editor keeps.
fn value_of(page: &Page) -> Option<StoredType> {
    match page.exc_state {
        Some(ExcState::Obtained { value, .. }) => Some(value),
        _ => page.storage,
    }
}

fn all_small_requests(own: Option<StoredType>) -> Vec<Request> {
    let mut all = Vec::new();
    for number in 0..=31 {
        for bucket in 0..=4 {
            for clean in 0..=2 {
                for value in [0, 1, own.unwrap_or(2)] {
                    all.push(Request::new(number, bucket, clean, value));
                }
            }
        }
    }
    all
}
