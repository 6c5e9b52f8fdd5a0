//! The eight rules, one broken at a time, and the census.

use second::kinds::{
    BucketId, Count, ExcState, Flag, LoadingState, Refusal, SharedState, StoredType, Visited,
    WritebackState,
};
use second::readers::Readers;
use second::record::{census, fresh, judge_record, lowest_broken_rule, sound, Page};

const VALUE: StoredType = 7;

fn at(bucket: u8) -> Option<BucketId> {
    Some(BucketId(bucket))
}

fn claim(bucket: Option<BucketId>) -> ExcState {
    ExcState::Claim {
        bucket,
        value: VALUE,
    }
}

fn await_writeback(bucket: Option<BucketId>) -> ExcState {
    ExcState::PendingAwaitWriteback {
        bucket,
        value: VALUE,
    }
}

fn pending(bucket: Option<BucketId>, visited: u8, clean: bool) -> ExcState {
    ExcState::Pending {
        bucket,
        visited_count: Visited(visited),
        clean,
        value: VALUE,
    }
}

fn obtained(bucket: Option<BucketId>, clean: bool) -> ExcState {
    ExcState::Obtained {
        bucket,
        clean,
        value: VALUE,
    }
}

const WRITEBACK: WritebackState = WritebackState { value: VALUE };

fn list(readers: &[SharedState]) -> Readers {
    let mut list = Readers::none();
    for &reader in readers {
        list.push(reader);
    }
    list
}

/// A record of these holders, its storage and counts made to fit.
fn record(
    flag: Flag,
    exc_state: Option<ExcState>,
    loading_state: Option<LoadingState>,
    writeback_state: Option<WritebackState>,
    readers: &[SharedState],
) -> Page {
    let out = loading_state.is_some() || matches!(exc_state, Some(ExcState::Obtained { .. }));
    let mut page = Page {
        storage: (!out).then_some(VALUE),
        flag,
        exc_state,
        loading_state,
        writeback_state,
        shared_state: list(readers),
        ..fresh(VALUE)
    };
    let buckets = readers.iter().map(|reader| reader.bucket());
    let buckets = buckets.chain(exc_state.and_then(ExcState::bucket));
    for bucket in buckets.chain(loading_state.and_then(LoadingState::bucket)) {
        if let Some(count) = page.ref_counts.get_mut(bucket.index()) {
            count.0 += 1;
        }
    }
    page
}

fn broken(page: &Page, rule: u8) {
    assert_eq!(lowest_broken_rule(page), Some(rule), "{page:?}");
    assert!(!sound(page));
    assert_eq!(judge_record(page), Err(Refusal::NotSound));
    assert_eq!(census(page), [[Count(0); 3]; 4]);
}

#[test]
fn a_fresh_record_is_sound() {
    for value in [0, 1, StoredType::MAX] {
        assert_eq!(judge_record(&fresh(value)), Ok(()));
    }
}

#[test]
fn each_set_of_holders_has_its_flags() {
    let exc_states = [
        None,
        Some(claim(at(3))),
        Some(await_writeback(None)),
        Some(pending(at(0), 4, true)),
        Some(pending(None, 0, false)),
        Some(obtained(at(2), true)),
        Some(obtained(None, false)),
    ];
    let loading_states = [
        None,
        Some(LoadingState::Pending),
        Some(LoadingState::PendingCounted { bucket: at(1) }),
        Some(LoadingState::Obtained { bucket: at(3) }),
        Some(LoadingState::Obtained { bucket: None }),
    ];
    for flag in Flag::ALL {
        for exc_state in exc_states {
            for loading_state in loading_states {
                for writeback_state in [None, Some(WRITEBACK)] {
                    let page = record(flag, exc_state, loading_state, writeback_state, &[]);
                    let fits = fits(flag, exc_state, loading_state, writeback_state);
                    assert_eq!(sound(&page), fits, "{page:?}");
                }
            }
        }
    }
}

fn fits(
    flag: Flag,
    exc_state: Option<ExcState>,
    loading_state: Option<LoadingState>,
    writeback_state: Option<WritebackState>,
) -> bool {
    let flags: &[Flag] = match (exc_state, loading_state, writeback_state) {
        (None, None, None) => &[Flag::Unmapped, Flag::Available],
        (None, None, Some(_)) => &[Flag::Writeback],
        (None, Some(LoadingState::Obtained { .. }), None) => &[Flag::Loading],
        (None, Some(_), None) => &[Flag::LoadingExcLock],
        (Some(ExcState::Claim { .. }), None, None) => &[Flag::Claimed],
        (Some(ExcState::Claim { .. }), None, Some(_)) => &[Flag::WritebackAndClaimed],
        (Some(ExcState::PendingAwaitWriteback { .. }), None, None) => &[Flag::PendingExcLock],
        (Some(ExcState::PendingAwaitWriteback { .. }), None, Some(_)) => {
            &[Flag::WritebackAndPendingExcLock]
        }
        (Some(ExcState::Pending { clean, .. } | ExcState::Obtained { clean, .. }), None, None) => {
            if clean {
                &[Flag::ExcLockClean]
            } else {
                &[Flag::ExcLockDirty]
            }
        }
        _ => &[],
    };
    flags.contains(&flag)
}

#[test]
fn rule_1() {
    let mut page = fresh(VALUE);
    page.storage = None;
    broken(&page, 1);
    let loader = Some(LoadingState::Obtained { bucket: None });
    let mut page = record(Flag::Loading, None, loader, None, &[]);
    page.storage = Some(VALUE);
    broken(&page, 1);
    let editor = Some(obtained(None, true));
    let mut page = record(Flag::ExcLockClean, editor, None, None, &[]);
    page.storage = Some(VALUE);
    broken(&page, 1);
}

#[test]
fn rule_2() {
    for holder in [
        claim(at(4)),
        await_writeback(at(4)),
        pending(at(4), 0, true),
    ] {
        broken(&record(Flag::Claimed, Some(holder), None, None, &[]), 2);
    }
    let editor = Some(obtained(at(4), true));
    broken(&record(Flag::ExcLockClean, editor, None, None, &[]), 2);
    for holder in [claim(None), await_writeback(None), pending(None, 0, true)] {
        let mut page = record(Flag::Claimed, Some(holder), None, None, &[]);
        page.storage = Some(VALUE + 1);
        broken(&page, 2);
    }
    let holder = Some(pending(None, 5, true));
    broken(&record(Flag::ExcLockClean, holder, None, None, &[]), 2);
    for holder in [pending(None, 0, true), obtained(None, true)] {
        let page = record(Flag::ExcLockClean, Some(holder), None, Some(WRITEBACK), &[]);
        broken(&page, 2);
    }
    let loader = Some(LoadingState::Obtained { bucket: None });
    for holder in [claim(None), await_writeback(None), pending(None, 0, true)] {
        broken(&record(Flag::Loading, Some(holder), loader, None, &[]), 2);
    }
    broken(&record(Flag::ExcLockClean, editor, loader, None, &[]), 2);
}

/// No rule speaks of the value that an editor keeps.
#[test]
fn an_editor_may_keep_any_value() {
    for (clean, flag) in [(true, Flag::ExcLockClean), (false, Flag::ExcLockDirty)] {
        for value in [0, 1, VALUE, 1 << 63, StoredType::MAX] {
            for bucket in [None, at(0), at(3)] {
                let editor = Some(ExcState::Obtained {
                    bucket,
                    clean,
                    value,
                });
                assert!(sound(&record(flag, editor, None, None, &[])));
            }
        }
    }
}

#[test]
fn rule_3() {
    let other = Some(WritebackState { value: VALUE + 1 });
    broken(&record(Flag::Writeback, None, None, other, &[]), 3);
    for loader in [
        LoadingState::Pending,
        LoadingState::PendingCounted { bucket: None },
        LoadingState::Obtained { bucket: None },
    ] {
        let page = record(Flag::Writeback, None, Some(loader), Some(WRITEBACK), &[]);
        broken(&page, 3);
    }
}

#[test]
fn rule_4() {
    for bucket in [None, at(4), at(255)] {
        let loader = Some(LoadingState::PendingCounted { bucket });
        broken(&record(Flag::LoadingExcLock, None, loader, None, &[]), 4);
    }
    let loader = Some(LoadingState::Obtained { bucket: at(4) });
    broken(&record(Flag::Loading, None, loader, None, &[]), 4);
}

#[test]
fn rule_5() {
    for bucket in 0..4 {
        let mut page = fresh(VALUE);
        page.ref_counts[bucket].0 = 1;
        broken(&page, 5);
    }
    let reader = SharedState::Pending {
        bucket: BucketId(2),
    };
    let mut page = fresh(VALUE);
    page.shared_state.push(reader);
    broken(&page, 5);
    page.ref_counts[2].0 = 1;
    assert!(sound(&page));
    let mut page = record(Flag::Claimed, Some(claim(at(1))), None, None, &[]);
    page.ref_counts[1].0 = 0;
    broken(&page, 5);
    let loader = Some(LoadingState::PendingCounted { bucket: at(3) });
    let mut page = record(Flag::LoadingExcLock, None, loader, None, &[]);
    page.ref_counts[3].0 = 2;
    broken(&page, 5);
}

#[test]
fn rule_6() {
    broken(&record(Flag::Claimed, None, None, None, &[]), 6);
    let holder = Some(claim(None));
    broken(&record(Flag::Available, holder, None, None, &[]), 6);
    let clean = Some(obtained(None, true));
    broken(&record(Flag::ExcLockDirty, clean, None, None, &[]), 6);
    let loader = Some(LoadingState::Pending);
    broken(&record(Flag::Loading, None, loader, None, &[]), 6);
}

#[test]
fn rule_7_buckets() {
    let bucket = BucketId(4);
    for reader in [
        SharedState::Pending { bucket },
        SharedState::Pending2 { bucket },
        SharedState::Obtained {
            bucket,
            value: VALUE,
        },
    ] {
        broken(&record(Flag::Available, None, None, None, &[reader]), 7);
    }
}

#[test]
fn rule_7_readers_beside_holders() {
    let bucket = BucketId(1);
    let first = SharedState::Pending { bucket };
    let second = SharedState::Pending2 { bucket };
    let third = SharedState::Obtained {
        bucket,
        value: VALUE,
    };
    let counted = LoadingState::PendingCounted { bucket: at(0) };
    let loader = LoadingState::Obtained { bucket: at(0) };
    let exclusive = |exc_state| record(Flag::ExcLockDirty, Some(exc_state), None, None, &[]);
    let loading = |flag, loading_state| record(flag, None, Some(loading_state), None, &[]);
    // The record, and whether a Pending2 and an Obtained reader may stand in it.
    let table = [
        (record(Flag::Unmapped, None, None, None, &[]), false, false),
        (record(Flag::Available, None, None, None, &[]), true, true),
        (
            record(Flag::Claimed, Some(claim(None)), None, None, &[]),
            true,
            true,
        ),
        (exclusive(pending(None, 0, false)), true, true),
        (exclusive(pending(None, 1, false)), true, true),
        (exclusive(pending(None, 2, false)), false, false),
        (exclusive(pending(None, 4, false)), false, false),
        (exclusive(obtained(None, false)), false, false),
        (
            loading(Flag::LoadingExcLock, LoadingState::Pending),
            false,
            false,
        ),
        (loading(Flag::LoadingExcLock, counted), false, false),
        (loading(Flag::Loading, loader), true, false),
    ];
    for (page, second_fits, third_fits) in table {
        for (reader, fits) in [(first, true), (second, second_fits), (third, third_fits)] {
            let mut page = page.clone();
            page.shared_state.push(reader);
            page.ref_counts[1].0 += 1;
            if fits {
                assert!(sound(&page), "{page:?}");
            } else {
                broken(&page, 7);
            }
        }
    }
}

#[test]
fn rule_7_value() {
    let reader = SharedState::Obtained {
        bucket: BucketId(0),
        value: VALUE + 1,
    };
    broken(&record(Flag::Available, None, None, None, &[reader]), 7);
}

/// A record with so many readers at each bucket.
fn crowd(numbers: [usize; 4]) -> Page {
    let mut readers = Vec::new();
    for (bucket, number) in (0..).zip(numbers) {
        let bucket = BucketId(bucket);
        readers.extend(vec![SharedState::Pending { bucket }; number]);
    }
    record(Flag::Unmapped, None, None, None, &readers)
}

/// 256 readers at a bucket are more than its byte can say, and not 0.
#[test]
fn rule_5_past_a_byte() {
    let mut page = crowd([0, 255, 0, 0]);
    page.shared_state.push(SharedState::Pending {
        bucket: BucketId(1),
    });
    for count in [0, 1, 127, 255] {
        page.ref_counts[1] = Count(count);
        broken(&page, 5);
    }
    page.flag = Flag::Claimed;
    page.exc_state = Some(claim(at(1)));
    for count in [0, 1, 2] {
        page.ref_counts[1] = Count(count);
        broken(&page, 5);
    }
}

/// A holder counts, too, and is not a reader.
#[test]
fn rule_8_counts_with_a_holder() {
    let readers = |number| vec![SharedState::BLANK; number];
    let claimed = |number| {
        record(
            Flag::Claimed,
            Some(claim(at(0))),
            None,
            None,
            &readers(number),
        )
    };
    assert!(sound(&claimed(126)));
    broken(&claimed(127), 8);
    let loader = Some(LoadingState::Obtained { bucket: at(0) });
    let loading = |number| record(Flag::Loading, None, loader, None, &readers(number));
    assert!(sound(&loading(126)));
    broken(&loading(127), 8);
    let mut full = crowd([64, 64, 64, 64]);
    full.flag = Flag::Claimed;
    full.exc_state = Some(claim(at(2)));
    full.ref_counts[2] = Count(65);
    assert!(sound(&full), "256 readers, and a claim");
}

#[test]
fn rule_8_counts() {
    assert!(sound(&crowd([127, 127, 2, 0])));
    for bucket in 0..4 {
        let mut numbers = [0; 4];
        numbers[bucket] = 127;
        assert!(sound(&crowd(numbers)));
        for over in [128, 129, 255] {
            numbers[bucket] = over;
            broken(&crowd(numbers), 8);
        }
    }
}

/// A length above the capacity lists all places and no more.
#[test]
fn rule_8_length() {
    let mut page = crowd([64, 64, 64, 64]);
    assert!(sound(&page));
    for length in [257, 258, 511, 512, 65_535] {
        page.shared_state.length = length;
        assert_eq!(page.shared_state.listed().len(), 256);
        assert!(page.shared_state.past().is_empty());
        broken(&page, 8);
    }
    for length in [0, 1, 64, 255] {
        page.shared_state.length = length;
        broken(&page, 5);
    }
    let mut page = fresh(VALUE);
    page.shared_state.length = 257;
    broken(&page, 5);
}

#[test]
fn rule_8_blanks() {
    let other = [
        SharedState::Pending {
            bucket: BucketId(1),
        },
        SharedState::Pending {
            bucket: BucketId(255),
        },
        SharedState::Pending2 {
            bucket: BucketId(0),
        },
        SharedState::Obtained {
            bucket: BucketId(0),
            value: 0,
        },
        SharedState::Obtained {
            bucket: BucketId(0),
            value: VALUE,
        },
    ];
    for readers in [0, 1, 62, 63, 126] {
        for entry in other {
            for place in [readers, readers + 1, 130, 255] {
                let mut page = crowd([0, readers, 0, 0]);
                assert!(sound(&page));
                page.shared_state.entries[place] = entry;
                broken(&page, 8);
            }
        }
    }
}

#[test]
fn the_census_counts_readers_by_bucket_and_phase() {
    let pending = |bucket| SharedState::Pending {
        bucket: BucketId(bucket),
    };
    let pending2 = |bucket| SharedState::Pending2 {
        bucket: BucketId(bucket),
    };
    let obtained = |bucket| SharedState::Obtained {
        bucket: BucketId(bucket),
        value: VALUE,
    };
    let readers = [
        obtained(3),
        pending(0),
        pending2(1),
        pending(0),
        obtained(0),
        pending2(3),
        obtained(3),
    ];
    let page = record(Flag::Available, None, None, None, &readers);
    let rows = census(&page).map(|row| row.map(|count| count.0));
    assert_eq!(rows, [[2, 0, 1], [0, 1, 0], [0, 0, 0], [0, 1, 2]]);
    let full = census(&crowd([127, 0, 2, 127]));
    let rows = full.map(|row| row.map(|count| count.0));
    assert_eq!(rows, [[127, 0, 0], [0, 0, 0], [2, 0, 0], [127, 0, 0]]);
    assert_eq!(census(&crowd([128, 0, 2, 126])), [[Count(0); 3]; 4]);
}
