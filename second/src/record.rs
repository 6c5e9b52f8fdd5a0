//! The page record, its eight rules, and the census.

use crate::kinds::{
    BucketId, Count, ExcState, Flag, LoadingState, Refusal, SharedState, StoredType, Visited,
    WritebackState, CAPACITY, CEILING, RC_WIDTH,
};
use crate::readers::Readers;

/// The record of one page. Every field takes whatever its bytes can say, so
/// that a record that is not sound can be held and judged.
#[derive(Clone, Debug, PartialEq, Eq)]
pub struct Page {
    /// The value behind the lock, or `None` while it is out.
    pub storage: Option<StoredType>,
    /// What the lock's word shows.
    pub flag: Flag,
    /// The four counts.
    pub ref_counts: [Count; RC_WIDTH as usize],
    /// The readers, as they are listed.
    pub shared_state: Readers,
    /// The exclusive holder, if there is one.
    pub exc_state: Option<ExcState>,
    /// The loader, if there is one.
    pub loading_state: Option<LoadingState>,
    /// The writeback, if there is one.
    pub writeback_state: Option<WritebackState>,
}

/// A record with the value in storage, unmapped, and with nobody at it.
pub fn fresh(value: StoredType) -> Page {
    Page {
        storage: Some(value),
        flag: Flag::Unmapped,
        ref_counts: [Count(0); RC_WIDTH as usize],
        shared_state: Readers::none(),
        exc_state: None,
        loading_state: None,
        writeback_state: None,
    }
}

/// Rule 1: the page is in storage unless a loader or an editor has it.
pub fn storage_some_invariant(page: &Page) -> bool {
    let withdrawn =
        matches!(page.exc_state, Some(ExcState::Obtained { .. })) || page.loading_state.is_some();
    page.storage.is_some() != withdrawn
}

/// Rule 2: what holds beside each kind of exclusive holder. What one that is
/// Obtained keeps may be any value: storage is out.
pub fn exc_state_invariants(page: &Page) -> bool {
    match page.exc_state {
        Some(
            ExcState::PendingAwaitWriteback { bucket, value } | ExcState::Claim { bucket, value },
        ) => page.loading_state.is_none() && valid_bucket(bucket) && page.storage == Some(value),
        Some(ExcState::Pending {
            bucket,
            visited_count,
            clean: _,
            value,
        }) => {
            page.loading_state.is_none()
                && page.writeback_state.is_none()
                && valid_visited(visited_count)
                && valid_bucket(bucket)
                && page.storage == Some(value)
        }
        Some(ExcState::Obtained {
            bucket,
            clean: _,
            value: _,
        }) => {
            page.loading_state.is_none() && page.writeback_state.is_none() && valid_bucket(bucket)
        }
        None => true,
    }
}

/// Rule 3: what holds beside a writeback.
pub fn writeback_state_invariants(page: &Page) -> bool {
    match page.writeback_state {
        Some(WritebackState { value }) => {
            page.loading_state.is_none() && page.storage == Some(value)
        }
        None => true,
    }
}

/// Rule 4: what holds beside each kind of loader.
pub fn loading_state_invariants(page: &Page) -> bool {
    match page.loading_state {
        Some(LoadingState::Pending) => page.writeback_state.is_none(),
        Some(LoadingState::PendingCounted { bucket }) => match bucket {
            Some(bucket) => page.writeback_state.is_none() && bucket.valid(),
            None => false,
        },
        Some(LoadingState::Obtained { bucket }) => valid_bucket(bucket),
        None => true,
    }
}

/// Rule 5: each count is the number of references to its bucket.
pub fn ref_count_invariant(page: &Page) -> bool {
    BucketId::ALL.iter().all(|&bucket| {
        let count = page.ref_counts[bucket.index()];
        usize::from(count.0) == count_all_refs(page, bucket)
    })
}

/// Rule 6: who is there under each flag.
pub fn flag_invariant(page: &Page) -> bool {
    match page.flag {
        Flag::Unmapped | Flag::Available => {
            page.exc_state.is_none()
                && page.loading_state.is_none()
                && page.writeback_state.is_none()
        }
        Flag::Loading => {
            matches!(page.loading_state, Some(LoadingState::Obtained { .. }))
                && page.writeback_state.is_none()
        }
        Flag::LoadingExcLock => {
            matches!(
                page.loading_state,
                Some(LoadingState::Pending | LoadingState::PendingCounted { .. })
            ) && page.writeback_state.is_none()
        }
        Flag::Claimed => is_claim(page) && page.writeback_state.is_none(),
        Flag::Writeback => {
            page.exc_state.is_none()
                && page.loading_state.is_none()
                && page.writeback_state.is_some()
        }
        Flag::WritebackAndClaimed => is_claim(page) && page.writeback_state.is_some(),
        Flag::WritebackAndPendingExcLock => {
            is_pending_await_writeback(page) && page.writeback_state.is_some()
        }
        Flag::PendingExcLock => is_pending_await_writeback(page) && page.writeback_state.is_none(),
        Flag::ExcLockClean => exc_lock_clean(page) == Some(true) && page.writeback_state.is_none(),
        Flag::ExcLockDirty => exc_lock_clean(page) == Some(false) && page.writeback_state.is_none(),
    }
}

/// Rule 7: every listed reader is valid.
pub fn shared_storage_invariant(page: &Page) -> bool {
    page.shared_state
        .listed()
        .iter()
        .all(|&reader| shared_state_valid(page, reader))
}

/// Rule 8: everything is within its limits, and blank past the length.
pub fn limits(page: &Page) -> bool {
    let readers = &page.shared_state;
    usize::from(readers.length) <= CAPACITY
        && page.ref_counts.iter().all(|count| count.0 <= CEILING.0)
        && readers
            .listed()
            .iter()
            .all(|reader| reader.bucket().valid())
        && readers
            .past()
            .iter()
            .all(|&entry| entry == SharedState::BLANK)
        && valid_bucket(page.exc_state.and_then(ExcState::bucket))
        && valid_bucket(page.loading_state.and_then(LoadingState::bucket))
        && match page.exc_state {
            Some(ExcState::Pending { visited_count, .. }) => valid_visited(visited_count),
            _ => true,
        }
}

type Rule = fn(&Page) -> bool;

/// The number of the first rule that the record breaks, if it breaks one.
pub fn lowest_broken_rule(page: &Page) -> Option<u8> {
    let rules: [Rule; 8] = [
        storage_some_invariant,
        exc_state_invariants,
        writeback_state_invariants,
        loading_state_invariants,
        ref_count_invariant,
        flag_invariant,
        shared_storage_invariant,
        limits,
    ];
    let broken = (1..).zip(rules).find(|(_, holds)| !holds(page));
    broken.map(|(number, _)| number)
}

/// Whether the record keeps all eight rules.
pub fn sound(page: &Page) -> bool {
    lowest_broken_rule(page).is_none()
}

/// The answer to whether the record is sound: 0, else 1.
pub fn judge_record(page: &Page) -> Result<(), Refusal> {
    if sound(page) {
        Ok(())
    } else {
        Err(Refusal::NotSound)
    }
}

/// Readers per bucket (row) and phase (column); all zeros if unsound.
pub fn census(page: &Page) -> [[Count; 3]; RC_WIDTH as usize] {
    let mut rows = [[Count(0); 3]; RC_WIDTH as usize];
    if sound(page) {
        for reader in page.shared_state.listed() {
            rows[reader.bucket().index()][reader.phase()].0 += 1;
        }
    }
    rows
}

fn valid_bucket(bucket: Option<BucketId>) -> bool {
    bucket.is_none_or(BucketId::valid)
}

fn valid_visited(visited: Visited) -> bool {
    visited.0 <= RC_WIDTH
}

fn count_shared_refs(page: &Page, bucket: BucketId) -> usize {
    page.shared_state
        .listed()
        .iter()
        .filter(|reader| reader.bucket() == bucket)
        .count()
}

fn count_exc_refs(page: &Page, bucket: BucketId) -> usize {
    usize::from(page.exc_state.and_then(ExcState::bucket) == Some(bucket))
}

fn count_loading_refs(page: &Page, bucket: BucketId) -> usize {
    usize::from(page.loading_state.and_then(LoadingState::bucket) == Some(bucket))
}

/// How many references to the bucket there are, of readers and holders.
pub fn count_all_refs(page: &Page, bucket: BucketId) -> usize {
    count_shared_refs(page, bucket)
        + count_exc_refs(page, bucket)
        + count_loading_refs(page, bucket)
}

fn is_claim(page: &Page) -> bool {
    matches!(page.exc_state, Some(ExcState::Claim { .. }))
}

fn is_pending_await_writeback(page: &Page) -> bool {
    matches!(page.exc_state, Some(ExcState::PendingAwaitWriteback { .. }))
}

/// The choice that an exclusive holder has made, if it has come that far.
fn exc_lock_clean(page: &Page) -> Option<bool> {
    match page.exc_state {
        Some(ExcState::Pending { clean, .. } | ExcState::Obtained { clean, .. }) => Some(clean),
        _ => None,
    }
}

fn shared_state_valid(page: &Page, reader: SharedState) -> bool {
    reader.bucket().valid()
        && match reader {
            SharedState::Pending { .. } => true,
            SharedState::Pending2 { bucket } => {
                exc_allows(page, bucket)
                    && !matches!(
                        page.loading_state,
                        Some(LoadingState::Pending | LoadingState::PendingCounted { .. })
                    )
                    && page.flag != Flag::Unmapped
            }
            SharedState::Obtained { bucket, value } => {
                page.storage == Some(value)
                    && exc_allows(page, bucket)
                    && page.loading_state.is_none()
                    && page.flag != Flag::Unmapped
            }
        }
}

/// Whether the exclusive holder leaves room for a reader at the bucket that is
/// past the first check.
fn exc_allows(page: &Page, bucket: BucketId) -> bool {
    match page.exc_state {
        Some(ExcState::Obtained { .. }) => false,
        Some(ExcState::Pending { visited_count, .. }) => visited_count.not_yet(bucket),
        _ => true,
    }
}
