//! Steps 25 to 30, by which a holder gives back what it has: the exact page
//! after each, every refusal, and that a page that was unmapped is loaded again.

mod common;

use common::walks;
use second::kinds::{
    Answer, BucketId, Count, ExcState, Flag, LoadingState, Refusal, Request, SharedState,
    StoredType, Visited, WritebackState, CEILING,
};
use second::ops::{stream, Plan};
use second::record::{count_all_refs, fresh, sound, Page};
use second::steps::{step, step_in_place};
use second::wire::read_request;

const VALUE: StoredType = 7;

/// No bucket, and each of the four.
const BUCKETS: [Option<BucketId>; 5] = [
    None,
    Some(BucketId(0)),
    Some(BucketId(1)),
    Some(BucketId(2)),
    Some(BucketId(3)),
];

fn claim(bucket: Option<BucketId>) -> ExcState {
    ExcState::Claim {
        bucket,
        value: VALUE,
    }
}

fn waiting(bucket: Option<BucketId>) -> ExcState {
    ExcState::PendingAwaitWriteback {
        bucket,
        value: VALUE,
    }
}

fn visiting(bucket: Option<BucketId>, visited: u8, clean: bool) -> ExcState {
    ExcState::Pending {
        bucket,
        visited_count: Visited(visited),
        clean,
        value: VALUE,
    }
}

fn pending(bucket: u8) -> SharedState {
    SharedState::Pending {
        bucket: BucketId(bucket),
    }
}

fn pending2(bucket: u8) -> SharedState {
    SharedState::Pending2 {
        bucket: BucketId(bucket),
    }
}

fn obtained(bucket: u8) -> SharedState {
    SharedState::Obtained {
        bucket: BucketId(bucket),
        value: VALUE,
    }
}

/// Lists that may stand beside a claim: nobody, readers of every phase, and one
/// who holds the same as the claimant.
fn lists() -> [Vec<SharedState>; 3] {
    [
        vec![],
        vec![
            pending(0),
            obtained(3),
            pending2(1),
            obtained(0),
            pending(2),
        ],
        vec![obtained(2), obtained(1), obtained(2), pending(3)],
    ]
}

/// So many readers at each bucket, all of them Pending.
fn crowd(numbers: [usize; 4]) -> Vec<SharedState> {
    let readers = (0..).zip(numbers);
    readers
        .flat_map(|(bucket, number)| vec![pending(bucket); number])
        .collect()
}

/// A sound page of this flag, this exclusive holder and these readers, beside a
/// writeback where the flag says so.
fn page(flag: Flag, holder: ExcState, readers: &[SharedState]) -> Page {
    let out = matches!(holder, ExcState::Obtained { .. });
    let writeback = matches!(
        flag,
        Flag::WritebackAndClaimed | Flag::WritebackAndPendingExcLock
    );
    let mut page = Page {
        storage: (!out).then_some(VALUE),
        flag,
        exc_state: Some(holder),
        writeback_state: writeback.then_some(WritebackState { value: VALUE }),
        ..fresh(0)
    };
    for &reader in readers {
        page.shared_state.push(reader);
    }
    for bucket in BucketId::ALL {
        page.ref_counts[bucket.index()] = Count(count_all_refs(&page, bucket) as u8);
    }
    assert!(sound(&page), "{page:?}");
    page
}

/// An editor that has the page out.
fn editing(bucket: Option<BucketId>, clean: bool, readers: &[SharedState]) -> Page {
    let holder = ExcState::Obtained {
        bucket,
        clean,
        value: VALUE,
    };
    page(choice(clean), holder, readers)
}

fn choice(clean: bool) -> Flag {
    if clean {
        Flag::ExcLockClean
    } else {
        Flag::ExcLockDirty
    }
}

/// The counts with one less at this bucket, if it is one.
fn one_less(page: &Page, bucket: Option<BucketId>) -> [Count; 4] {
    let mut counts = page.ref_counts;
    if let Some(bucket) = bucket {
        counts[bucket.index()].0 -= 1;
    }
    counts
}

/// The step is accepted, by value and lent, hands nothing out and leaves just
/// this page, which is sound.
fn leaves(before: &Page, number: u8, value: StoredType, after: &Page) {
    let request = Request::new(number, 0, 0, value);
    let outcome = step(before.clone(), &request);
    assert_eq!(outcome.answer, Ok(None), "{number}: {before:?}");
    assert_eq!(&outcome.page, after, "{number}: {before:?}");
    assert!(sound(after), "{number}: {before:?}");
    let mut page = before.clone();
    assert_eq!(step_in_place(&mut page, &request), Ok(None));
    assert_eq!(&page, after);
}

/// The answer, by value and lent, where the page stays as it was.
fn refusal(page: &Page, request: &Request) -> Answer {
    let outcome = step(page.clone(), request);
    assert_eq!(&outcome.page, page, "{request:?}");
    let mut lent = page.clone();
    assert_eq!(step_in_place(&mut lent, request), outcome.answer);
    assert_eq!(&lent, page, "{request:?}");
    outcome.answer
}

// Accepted.

#[test]
fn step_25_drops_a_claim() {
    for (flag, left) in [
        (Flag::Claimed, Flag::Available),
        (Flag::WritebackAndClaimed, Flag::Writeback),
    ] {
        for bucket in BUCKETS {
            for readers in lists() {
                let before = page(flag, claim(bucket), &readers);
                let after = Page {
                    flag: left,
                    exc_state: None,
                    ref_counts: one_less(&before, bucket),
                    ..before.clone()
                };
                leaves(&before, 25, 0, &after);
            }
        }
    }
}

#[test]
fn step_26_makes_a_claim_the_last_reader_and_leaves_the_counts() {
    for (flag, left) in [
        (Flag::Claimed, Flag::Available),
        (Flag::WritebackAndClaimed, Flag::Writeback),
    ] {
        for bucket in 0..4 {
            for readers in lists() {
                let before = page(flag, claim(Some(BucketId(bucket))), &readers);
                let mut after = Page {
                    flag: left,
                    exc_state: None,
                    ..before.clone()
                };
                after.shared_state.push(obtained(bucket));
                leaves(&before, 26, 0, &after);
                assert_eq!(after.shared_state.listed().last(), Some(&obtained(bucket)));
            }
        }
    }
}

#[test]
fn step_27_makes_a_claimant_that_waits_a_claim() {
    for (flag, left) in [
        (Flag::PendingExcLock, Flag::Claimed),
        (Flag::WritebackAndPendingExcLock, Flag::WritebackAndClaimed),
    ] {
        for bucket in BUCKETS {
            for readers in lists() {
                let before = page(flag, waiting(bucket), &readers);
                leaves(&before, 27, 0, &page(left, claim(bucket), &readers));
            }
        }
    }
}

#[test]
fn step_28_makes_a_claimant_that_visits_a_claim_at_any_number() {
    for visited in 0..=4 {
        for clean in [false, true] {
            for bucket in BUCKETS {
                let readers = [pending(0), pending(3)];
                let holder = visiting(bucket, visited, clean);
                let before = page(choice(clean), holder, &readers);
                let after = page(Flag::Claimed, claim(bucket), &readers);
                leaves(&before, 28, 0, &after);
            }
        }
    }
}

/// Readers past the first check stand at buckets that are not visited yet.
#[test]
fn step_28_leaves_readers_of_every_phase() {
    for visited in 0..4 {
        let readers = [
            obtained(3),
            pending(0),
            pending2(visited),
            obtained(visited),
        ];
        let holder = visiting(Some(BucketId(3)), visited, true);
        let before = page(Flag::ExcLockClean, holder, &readers);
        let after = page(Flag::Claimed, claim(Some(BucketId(3))), &readers);
        leaves(&before, 28, 0, &after);
    }
}

/// What editors put in: one that is clean just what it keeps.
const PUT_IN: [(bool, StoredType); 6] = [
    (true, VALUE),
    (false, VALUE),
    (false, 0),
    (false, 9),
    (false, 1 << 63),
    (false, StoredType::MAX),
];

/// Beside an editor there are Pending readers alone, and they stay.
#[test]
fn steps_29_and_30_put_the_page_in_and_leave() {
    for (number, flag) in [(29, Flag::Available), (30, Flag::Unmapped)] {
        for bucket in BUCKETS {
            for readers in [[0; 4], [3, 0, 0, 0], [1, 2, 0, 5], [126, 126, 2, 2]] {
                for (clean, value) in PUT_IN {
                    let before = editing(bucket, clean, &crowd(readers));
                    let after = Page {
                        storage: Some(value),
                        flag,
                        exc_state: None,
                        ref_counts: readers.map(|readers| Count(readers as u8)),
                        ..before.clone()
                    };
                    leaves(&before, number, value, &after);
                }
            }
        }
    }
}

#[test]
fn a_count_at_the_ceiling_goes_down_by_one() {
    let own = Some(BucketId(2));
    let readers = crowd([127, 1, 126, 2]);
    let claimed = page(Flag::Claimed, claim(own), &readers);
    let edited = editing(own, false, &readers);
    assert_eq!(readers.len(), 256);
    for (before, number) in [(&claimed, 25), (&edited, 29), (&edited, 30)] {
        assert_eq!(before.ref_counts[2], CEILING);
        let after = step(before.clone(), &Request::new(number, 0, 0, 0)).page;
        assert_eq!(after.ref_counts.map(|count| count.0), [127, 1, 126, 2]);
        assert_eq!(after.shared_state, before.shared_state);
    }
}

/// The page after these accepted steps (step, bucket, clean, value).
fn then(page: Page, steps: &[(u8, u8, u8, StoredType)]) -> Page {
    steps.iter().fold(page, |page, &(number, b, c, v)| {
        let outcome = step(page, &Request::new(number, b, c, v));
        assert!(outcome.answer.is_ok(), "step {number}");
        outcome.page
    })
}

/// With a reader that stays, by 11 with a bucket and without, and by 12.
#[test]
fn an_unmapped_page_is_loaded_again() {
    let before = editing(Some(BucketId(1)), false, &[pending(1)]);
    let unmapped = then(before, &[(30, 0, 0, 9)]);
    assert_eq!(unmapped.ref_counts.map(|count| count.0), [0, 1, 0, 0]);
    for number in [1, 3, 4, 23] {
        let answer = refusal(&unmapped, &Request::new(number, 0, 0, 0));
        assert_eq!(answer, Err(Refusal::WrongFlag));
    }
    let ways: [(u8, &[(u8, u8, u8, StoredType)]); 3] = [
        (12, &[]),
        (11, &[(15, 0, 0, 0)]),
        (11, &[(13, 3, 0, 0), (14, 0, 0, 0)]),
    ];
    for (number, way) in ways {
        let outcome = step(unmapped.clone(), &Request::new(number, 0, 0, 0));
        assert_eq!(outcome.answer, Ok(Some(9)));
        let loaded = then(outcome.page, &[way, &[(17, 0, 0, 4)]].concat());
        assert_eq!((loaded.flag, loaded.storage), (Flag::Available, Some(4)));
        assert_eq!(loaded.ref_counts, unmapped.ref_counts);
        let read = then(loaded, &[(23, 1, 0, 0), (24, 1, 0, 0)]);
        let reader = SharedState::Obtained {
            bucket: BucketId(1),
            value: 4,
        };
        assert_eq!(read.shared_state.listed(), [reader]);
        let unmapped = then(read, &[(22, 1, 0, 4), (3, 0, 0, 0), (5, 0, 0, 0)]);
        let visits = [(6, 0, 0, 0), (7, 0, 0, 0), (7, 0, 0, 0), (7, 0, 0, 0)];
        let unmapped = then(unmapped, &[&visits[..], &[(7, 0, 0, 0)]].concat());
        let unmapped = then(unmapped, &[(8, 0, 0, 0), (30, 0, 0, 2)]);
        assert_eq!(unmapped, fresh(2));
    }
}

/// Turning back on all the way: the last claim is the first one.
#[test]
fn a_claimant_turns_back_and_comes_to_the_page_after_all() {
    let claimed = page(Flag::Claimed, claim(Some(BucketId(2))), &[pending(3)]);
    let turned = then(claimed.clone(), &[(5, 0, 0, 0), (27, 0, 0, 0)]);
    assert_eq!(turned, claimed);
    for clean in [0, 1] {
        let visits = [(5, 0, 0, 0), (6, 0, clean, 0), (7, 0, 0, 0), (7, 0, 0, 0)];
        for number in 2..=4 {
            let turned = then(then(claimed.clone(), &visits[..number]), &[(28, 0, 0, 0)]);
            assert_eq!(turned, claimed);
        }
    }
    let visit = (7, 0, 0, 0);
    let edit = [(5, 0, 0, 0), (6, 0, 1, 0), visit, visit, visit, visit];
    let alone = then(claimed, &[(20, 3, 0, 0)]);
    let outcome = step(then(alone, &edit), &Request::new(8, 0, 0, 0));
    assert_eq!(outcome.answer, Ok(Some(VALUE)));
}

// Refused.

/// A request of one of the six, with what an editor keeps where it takes a value.
fn asking(number: u8) -> Request {
    let value = if number < 29 { 0 } else { VALUE };
    Request::new(number, 0, 0, value)
}

/// A page for each of the steps that accepts it.
fn accepting(number: u8) -> Page {
    let own = Some(BucketId(1));
    match number {
        25 | 26 => page(Flag::Claimed, claim(own), &[pending(0)]),
        27 => page(Flag::PendingExcLock, waiting(own), &[pending(0)]),
        28 => page(Flag::ExcLockDirty, visiting(own, 0, false), &[pending(0)]),
        _ => editing(own, true, &[pending(0)]),
    }
}

#[test]
fn number_1() {
    for number in 25..=30 {
        let request = asking(number);
        assert_eq!(step(accepting(number), &request).answer, Ok(None));
        let mut more = accepting(number);
        more.ref_counts[3] = Count(1);
        let mut other_flag = accepting(number);
        other_flag.flag = Flag::Available;
        let mut loader = accepting(number);
        loader.loading_state = Some(LoadingState::Pending);
        for page in [more, other_flag, loader] {
            assert_eq!(refusal(&page, &request), Err(Refusal::NotSound));
        }
    }
}

#[test]
fn number_2_from_31_on() {
    for number in 25..=30 {
        for unknown in [0, 31, 32, 255] {
            let answer = refusal(&accepting(number), &Request::new(unknown, 0, 0, 0));
            assert_eq!(answer, Err(Refusal::UnknownStep));
        }
    }
}

#[test]
fn number_3() {
    for number in 25..=30 {
        let page = accepting(number);
        let bad = |bucket, clean, value| {
            let request = Request::new(number, bucket, clean, value);
            assert_eq!(refusal(&page, &request), Err(Refusal::BadField));
        };
        for bucket in [1, 2, 3, 4, 255] {
            bad(bucket, 0, 0);
        }
        for clean in [1, 2, 255] {
            bad(0, clean, 0);
        }
        bad(1, 1, 1);
        bad(0, 1, VALUE);
        for value in [1, VALUE, 1 << 63] {
            if number < 29 {
                bad(0, 0, value);
            }
        }
        assert_eq!(step(page.clone(), &asking(number)).answer, Ok(None));
    }
}

/// One page for each set of holders, and the steps that it accepts of the six.
fn all_holders() -> Vec<(Page, &'static [u8])> {
    let own = Some(BucketId(1));
    let loaded = then(fresh(0), &[(12, 0, 0, 0), (17, 0, 0, VALUE)]);
    vec![
        (fresh(VALUE), &[]),
        (then(fresh(0), &[(11, 0, 0, 0)]), &[]),
        (then(fresh(0), &[(11, 0, 0, 0), (13, 1, 0, 0)]), &[]),
        (then(fresh(0), &[(12, 0, 0, 0)]), &[]),
        (loaded.clone(), &[]),
        (then(loaded, &[(1, 0, 0, 0)]), &[]),
        (page(Flag::Claimed, claim(own), &[]), &[25, 26]),
        (page(Flag::WritebackAndClaimed, claim(own), &[]), &[25, 26]),
        (page(Flag::PendingExcLock, waiting(own), &[]), &[27]),
        (
            page(Flag::WritebackAndPendingExcLock, waiting(own), &[]),
            &[27],
        ),
        (
            page(Flag::ExcLockDirty, visiting(own, 0, false), &[]),
            &[28],
        ),
        (
            page(Flag::ExcLockClean, visiting(None, 4, true), &[]),
            &[28],
        ),
        (editing(own, false, &[]), &[29, 30]),
        (editing(None, true, &[]), &[29, 30]),
    ]
}

#[test]
fn number_6() {
    for (page, accepted) in all_holders() {
        for number in 25..=30 {
            let request = asking(number);
            if accepted.contains(&number) {
                assert_eq!(step(page.clone(), &request).answer, Ok(None));
            } else {
                assert_eq!(refusal(&page, &request), Err(Refusal::NoHolder));
            }
        }
    }
}

#[test]
fn number_7_is_for_26_alone() {
    let full = crowd([64; 4]);
    for readers in [&[][..], &[obtained(0)], &full] {
        for flag in [Flag::Claimed, Flag::WritebackAndClaimed] {
            let before = page(flag, claim(None), readers);
            let answer = refusal(&before, &Request::new(26, 0, 0, 0));
            assert_eq!(answer, Err(Refusal::HolderBucket));
            let answer = step(before, &Request::new(25, 0, 0, 0)).answer;
            assert_eq!(answer, Ok(None));
        }
    }
}

#[test]
fn number_11_is_for_26_alone() {
    let own = Some(BucketId(0));
    for readers in [[64; 4], [126, 127, 3, 0]] {
        let full = crowd(readers);
        for flag in [Flag::Claimed, Flag::WritebackAndClaimed] {
            let before = page(flag, claim(own), &full);
            let request = Request::new(26, 0, 0, 0);
            assert_eq!(refusal(&before, &request), Err(Refusal::ListFull));
            let roomy = page(flag, claim(own), &full[..255]);
            assert_eq!(step(roomy, &request).answer, Ok(None));
            let answer = step(before, &Request::new(25, 0, 0, 0)).answer;
            assert_eq!(answer, Ok(None));
        }
        let before = editing(own, false, &full);
        for number in [29, 30] {
            let answer = step(before.clone(), &Request::new(number, 0, 0, 0)).answer;
            assert_eq!(answer, Ok(None));
        }
    }
}

#[test]
fn number_17_is_for_29_and_30_alone() {
    for bucket in BUCKETS {
        for readers in [[0; 4], [126, 126, 2, 2]] {
            let before = editing(bucket, true, &crowd(readers));
            for number in [29, 30] {
                for value in [0, 1, VALUE ^ 1 << 63, StoredType::MAX] {
                    let answer = refusal(&before, &Request::new(number, 0, 0, value));
                    assert_eq!(answer, Err(Refusal::OtherValue));
                }
                assert_eq!(step(before.clone(), &asking(number)).answer, Ok(None));
            }
        }
    }
}

// Along the streams.

/// What is left of the flag where a claim goes.
fn unclaimed(flag: Flag) -> Flag {
    match flag {
        Flag::Claimed => Flag::Available,
        Flag::WritebackAndClaimed => Flag::Writeback,
        _ => panic!("{flag:?}"),
    }
}

/// The flag of a claim in the place of a claimant that waits or visits.
fn claimed(flag: Flag) -> Flag {
    match flag {
        Flag::WritebackAndPendingExcLock => Flag::WritebackAndClaimed,
        Flag::PendingExcLock | Flag::ExcLockClean | Flag::ExcLockDirty => Flag::Claimed,
        _ => panic!("{flag:?}"),
    }
}

/// The page that an accepted request of one of the six leaves, as the table says.
fn expected(before: &Page, request: &Request) -> Page {
    let bucket = before.exc_state.and_then(ExcState::bucket);
    let mut after = Page {
        exc_state: None,
        ..before.clone()
    };
    if let 25 | 29 | 30 = request.step {
        after.ref_counts = one_less(before, bucket);
    }
    match request.step {
        25 | 26 => after.flag = unclaimed(before.flag),
        29 => after.flag = Flag::Available,
        30 => after.flag = Flag::Unmapped,
        _ => after.flag = claimed(before.flag),
    }
    match request.step {
        26 => after.shared_state.push(SharedState::Obtained {
            bucket: bucket.unwrap(),
            value: before.storage.unwrap(),
        }),
        27 | 28 => {
            after.exc_state = Some(ExcState::Claim {
                bucket,
                value: before.storage.unwrap(),
            });
        }
        29 | 30 => after.storage = Some(request.value),
        _ => (),
    }
    after
}

#[test]
fn streams_leave_what_the_table_says() {
    let mut seen = [0; 6];
    for seed in 1..=4 {
        let requests = 4_000;
        let walks = walks(&stream(&Plan { seed, requests }));
        for asked in walks.into_iter().flat_map(|walk| walk.asked) {
            if let (Ok(request), Ok(withdrawn)) = (read_request(&asked.bytes), asked.answer) {
                if request.step >= 25 {
                    seen[usize::from(request.step) - 25] += 1;
                    assert_eq!(withdrawn, None);
                    assert_eq!(*asked.after, expected(&asked.before, &request));
                }
            }
        }
    }
    assert!(seen.iter().all(|&number| number > 100), "{seen:?}");
}
