//! The 30 steps. Each is a function by its name in the rules, which for 1 to 24
//! is the source's; it looks at all its premises, in the order of their numbers,
//! before it changes anything.

use crate::kinds::{
    Answer, BucketId, Count, ExcState, Flag, LoadingState, Refusal, Request, SharedState,
    StoredType, Visited, WritebackState, CAPACITY, CEILING,
};
use crate::record::{judge_record, Page};

/// What a step leaves, and what reading an image does: the next record, and the
/// answer.
#[derive(Clone, Debug, PartialEq, Eq)]
#[allow(missing_docs)]
pub struct Outcome {
    pub page: Page,
    pub answer: Answer,
}

/// Takes one step from the record. A refused step leaves the record as it was.
pub fn step(mut page: Page, request: &Request) -> Outcome {
    let answer = step_in_place(&mut page, request);
    Outcome { page, answer }
}

/// The same step, on a record that is lent to be changed.
pub fn step_in_place(page: &mut Page, request: &Request) -> Answer {
    judge_record(page)?;
    judge_fields(request)?;
    take(page, request)
}

/// Whether there is a step of this number.
pub fn known(step: u8) -> bool {
    (1..=30).contains(&step)
}

/// Whether the step takes a bucket.
pub fn takes_bucket(step: u8) -> bool {
    matches!(step, 4 | 13 | 18..=24)
}

/// Whether the step takes a clean choice.
pub fn takes_clean(step: u8) -> bool {
    step == 6
}

/// Whether the step takes a value.
pub fn takes_value(step: u8) -> bool {
    matches!(step, 4 | 9 | 10 | 16 | 17 | 22 | 29 | 30)
}

/// Refusals 2 to 4, in that order.
pub fn judge_fields(request: &Request) -> Result<(), Refusal> {
    judge_step(request)?;
    judge_unused(request)?;
    judge_bucket(request)
}

/// Refusal 2.
pub fn judge_step(request: &Request) -> Result<(), Refusal> {
    allow(known(request.step), Refusal::UnknownStep)
}

/// Refusal 3, as far as the fields go.
pub fn judge_unused(request: &Request) -> Result<(), Refusal> {
    let highest_clean = u8::from(takes_clean(request.step));
    let fits = (takes_bucket(request.step) || request.bucket == 0)
        && (takes_value(request.step) || request.value == 0)
        && request.clean <= highest_clean;
    allow(fits, Refusal::BadField)
}

/// Refusal 4, for a request whose fields not taken are zero.
pub fn judge_bucket(request: &Request) -> Result<(), Refusal> {
    allow(BucketId(request.bucket).valid(), Refusal::BadBucket)
}

/// The step itself, on a sound record and for a request that was judged.
pub(crate) fn take(page: &mut Page, request: &Request) -> Answer {
    let bucket = BucketId(request.bucket);
    let clean = request.clean == 1;
    let value = request.value;
    match request.step {
        1 => take_writeback(page),
        2 => release_writeback(page),
        3 => bucketless_claim(page),
        4 => shared_to_claim(page, bucket, value),
        5 => claim_to_pending(page),
        6 => take_exc_lock_finish_writeback(page, clean),
        7 => take_exc_lock_check_ref_count(page),
        8 => withdraw_take_exc_lock_finish(page),
        9 => deposit_downgrade_exc_lock(page, value),
        10 => deposit_downgrade_exc_lock_to_claim(page, value),
        11 => withdraw_alloc(page),
        12 => withdraw_alloc_no_refcount(page),
        13 => loading_inc_count(page, bucket),
        14 => obtain_loading(page),
        15 => obtain_loading_no_refcount(page),
        16 => deposit_loading_to_shared(page, value),
        17 => deposit_loading_to_done(page, value),
        18 => exc_inc_count(page, bucket),
        19 => shared_inc_count(page, bucket),
        20 => shared_dec_count_pending(page, bucket),
        21 => shared_dec_count_pending2(page, bucket),
        22 => shared_dec_count_obtained(page, bucket, value),
        23 => shared_check_exc(page, bucket),
        24 => shared_check_loading(page, bucket),
        25 => discard_claim(page),
        26 => claim_to_shared(page),
        27 => pending_to_claim(page),
        28 => cancel_exc_lock_to_claim(page),
        29 => deposit_exc_lock_to_done(page, value),
        30 => deposit_exc_lock_to_unmapped(page, value),
        _ => Err(Refusal::UnknownStep),
    }
}

// Writeback and claim.

fn take_writeback(page: &mut Page) -> Answer {
    allow(page.flag == Flag::Available, Refusal::WrongFlag)?;
    page.flag = Flag::Writeback;
    page.writeback_state = Some(WritebackState {
        value: stored(page),
    });
    Ok(None)
}

fn release_writeback(page: &mut Page) -> Answer {
    allow(page.writeback_state.is_some(), Refusal::NoHolder)?;
    page.flag = match page.flag {
        Flag::Writeback => Flag::Available,
        Flag::WritebackAndPendingExcLock => Flag::PendingExcLock,
        Flag::WritebackAndClaimed => Flag::Claimed,
        _ => unreachable!("rule 6: a writeback shows in the flag"),
    };
    page.writeback_state = None;
    Ok(None)
}

fn bucketless_claim(page: &mut Page) -> Answer {
    page.flag = claimed(page.flag)?;
    page.exc_state = Some(ExcState::Claim {
        bucket: None,
        value: stored(page),
    });
    Ok(None)
}

fn shared_to_claim(page: &mut Page, bucket: BucketId, value: StoredType) -> Answer {
    let flag = claimed(page.flag)?;
    let place = find(page, SharedState::Obtained { bucket, value })?;
    page.shared_state.remove(place);
    page.flag = flag;
    page.exc_state = Some(ExcState::Claim {
        bucket: Some(bucket),
        value,
    });
    Ok(None)
}

fn claim_to_pending(page: &mut Page) -> Answer {
    let (bucket, value) = claim(page)?;
    page.flag = match page.flag {
        Flag::Claimed => Flag::PendingExcLock,
        Flag::WritebackAndClaimed => Flag::WritebackAndPendingExcLock,
        _ => unreachable!("rules 2 and 6: a claim shows in the flag"),
    };
    page.exc_state = Some(ExcState::PendingAwaitWriteback { bucket, value });
    Ok(None)
}

// Exclusive.

fn take_exc_lock_finish_writeback(page: &mut Page, clean: bool) -> Answer {
    let waits = matches!(
        page.flag,
        Flag::Writeback | Flag::WritebackAndPendingExcLock
    );
    allow(!waits, Refusal::WrongFlag)?;
    let Some(ExcState::PendingAwaitWriteback { bucket, value }) = page.exc_state else {
        return Err(Refusal::NoHolder);
    };
    page.exc_state = Some(ExcState::Pending {
        bucket,
        visited_count: Visited(0),
        clean,
        value,
    });
    page.flag = if clean {
        Flag::ExcLockClean
    } else {
        Flag::ExcLockDirty
    };
    Ok(None)
}

fn take_exc_lock_check_ref_count(page: &mut Page) -> Answer {
    let Some(ExcState::Pending {
        bucket,
        visited_count,
        clean,
        value,
    }) = page.exc_state
    else {
        return Err(Refusal::NoHolder);
    };
    let Some(here) = visited_count.next_bucket() else {
        return Err(Refusal::WrongVisited);
    };
    let expected = Count(u8::from(bucket == Some(here)));
    allow(
        page.ref_counts[here.index()] == expected,
        Refusal::OtherCount,
    )?;
    page.exc_state = Some(ExcState::Pending {
        bucket,
        visited_count: Visited(visited_count.0 + 1),
        clean,
        value,
    });
    Ok(None)
}

/// Changed from the source: the holder keeps the value that is handed out.
fn withdraw_take_exc_lock_finish(page: &mut Page) -> Answer {
    let Some(ExcState::Pending {
        bucket,
        visited_count,
        clean,
        value,
    }) = page.exc_state
    else {
        return Err(Refusal::NoHolder);
    };
    allow(visited_count.next_bucket().is_none(), Refusal::WrongVisited)?;
    page.exc_state = Some(ExcState::Obtained {
        bucket,
        clean,
        value,
    });
    Ok(Some(withdraw(page)))
}

/// Changed from the source, as the next one is: a clean holder puts in just the
/// value that it keeps.
fn deposit_downgrade_exc_lock(page: &mut Page, value: StoredType) -> Answer {
    let bucket = editor_bucket(page)?.ok_or(Refusal::HolderBucket)?;
    list_room(page)?;
    clean_value(page, value)?;
    page.exc_state = None;
    page.flag = Flag::Available;
    page.storage = Some(value);
    page.shared_state
        .push(SharedState::Obtained { bucket, value });
    Ok(None)
}

fn deposit_downgrade_exc_lock_to_claim(page: &mut Page, value: StoredType) -> Answer {
    let bucket = editor_bucket(page)?.ok_or(Refusal::HolderBucket)?;
    clean_value(page, value)?;
    page.exc_state = Some(ExcState::Claim {
        bucket: Some(bucket),
        value,
    });
    page.flag = Flag::Claimed;
    page.storage = Some(value);
    Ok(None)
}

fn exc_inc_count(page: &mut Page, bucket: BucketId) -> Answer {
    let Some(ExcState::Obtained {
        bucket: own_bucket,
        clean,
        value,
    }) = page.exc_state
    else {
        return Err(Refusal::NoHolder);
    };
    allow(own_bucket.is_none(), Refusal::HolderBucket)?;
    count_room(page, bucket)?;
    page.exc_state = Some(ExcState::Obtained {
        bucket: Some(bucket),
        clean,
        value,
    });
    count_up(page, bucket);
    Ok(None)
}

// Loading.

fn withdraw_alloc(page: &mut Page) -> Answer {
    allow(page.flag == Flag::Unmapped, Refusal::WrongFlag)?;
    page.flag = Flag::LoadingExcLock;
    page.loading_state = Some(LoadingState::Pending);
    Ok(Some(withdraw(page)))
}

fn withdraw_alloc_no_refcount(page: &mut Page) -> Answer {
    allow(page.flag == Flag::Unmapped, Refusal::WrongFlag)?;
    page.flag = Flag::Loading;
    page.loading_state = Some(LoadingState::Obtained { bucket: None });
    Ok(Some(withdraw(page)))
}

fn loading_inc_count(page: &mut Page, bucket: BucketId) -> Answer {
    loader_pending(page)?;
    count_room(page, bucket)?;
    page.loading_state = Some(LoadingState::PendingCounted {
        bucket: Some(bucket),
    });
    count_up(page, bucket);
    Ok(None)
}

fn obtain_loading(page: &mut Page) -> Answer {
    let Some(LoadingState::PendingCounted { bucket }) = page.loading_state else {
        return Err(Refusal::NoHolder);
    };
    page.loading_state = Some(LoadingState::Obtained { bucket });
    page.flag = Flag::Loading;
    Ok(None)
}

fn obtain_loading_no_refcount(page: &mut Page) -> Answer {
    loader_pending(page)?;
    page.loading_state = Some(LoadingState::Obtained { bucket: None });
    page.flag = Flag::Loading;
    Ok(None)
}

fn deposit_loading_to_shared(page: &mut Page, value: StoredType) -> Answer {
    let bucket = loader_bucket(page)?.ok_or(Refusal::HolderBucket)?;
    list_room(page)?;
    page.loading_state = None;
    page.flag = Flag::Available;
    page.storage = Some(value);
    page.shared_state
        .push(SharedState::Obtained { bucket, value });
    Ok(None)
}

/// Changed from the source: a loader without a bucket may finish too, and one
/// with a bucket gives its own reference back.
fn deposit_loading_to_done(page: &mut Page, value: StoredType) -> Answer {
    let bucket = loader_bucket(page)?;
    page.loading_state = None;
    page.flag = Flag::Available;
    page.storage = Some(value);
    give_up(page, bucket);
    Ok(None)
}

// Shared.

fn shared_inc_count(page: &mut Page, bucket: BucketId) -> Answer {
    count_room(page, bucket)?;
    list_room(page)?;
    count_up(page, bucket);
    page.shared_state.push(SharedState::Pending { bucket });
    Ok(None)
}

fn shared_dec_count_pending(page: &mut Page, bucket: BucketId) -> Answer {
    leave(page, SharedState::Pending { bucket })
}

fn shared_dec_count_pending2(page: &mut Page, bucket: BucketId) -> Answer {
    leave(page, SharedState::Pending2 { bucket })
}

fn shared_dec_count_obtained(page: &mut Page, bucket: BucketId, value: StoredType) -> Answer {
    leave(page, SharedState::Obtained { bucket, value })
}

/// Changed from the source: it has no value, which was never used.
fn shared_check_exc(page: &mut Page, bucket: BucketId) -> Answer {
    let passes = matches!(
        page.flag,
        Flag::Available
            | Flag::Writeback
            | Flag::Claimed
            | Flag::WritebackAndClaimed
            | Flag::Loading
    );
    allow(passes, Refusal::WrongFlag)?;
    let place = find(page, SharedState::Pending { bucket })?;
    page.shared_state
        .change(place, SharedState::Pending2 { bucket });
    Ok(None)
}

fn shared_check_loading(page: &mut Page, bucket: BucketId) -> Answer {
    allow(page.flag != Flag::Loading, Refusal::WrongFlag)?;
    let place = find(page, SharedState::Pending2 { bucket })?;
    let value = stored(page);
    page.shared_state
        .change(place, SharedState::Obtained { bucket, value });
    Ok(None)
}

// Giving back. The source has none of these.

fn discard_claim(page: &mut Page) -> Answer {
    let (bucket, _) = claim(page)?;
    page.exc_state = None;
    page.flag = unclaimed(page.flag);
    give_up(page, bucket);
    Ok(None)
}

/// The claimant keeps its reference: it stays as a reader.
fn claim_to_shared(page: &mut Page) -> Answer {
    let (bucket, value) = claim(page)?;
    let bucket = bucket.ok_or(Refusal::HolderBucket)?;
    list_room(page)?;
    page.exc_state = None;
    page.flag = unclaimed(page.flag);
    page.shared_state
        .push(SharedState::Obtained { bucket, value });
    Ok(None)
}

fn pending_to_claim(page: &mut Page) -> Answer {
    let Some(ExcState::PendingAwaitWriteback { bucket, value }) = page.exc_state else {
        return Err(Refusal::NoHolder);
    };
    page.flag = match page.flag {
        Flag::PendingExcLock => Flag::Claimed,
        Flag::WritebackAndPendingExcLock => Flag::WritebackAndClaimed,
        _ => unreachable!("rules 2 and 6: a claimant that waits shows in the flag"),
    };
    page.exc_state = Some(ExcState::Claim { bucket, value });
    Ok(None)
}

/// However many buckets were visited, all of them are open again.
fn cancel_exc_lock_to_claim(page: &mut Page) -> Answer {
    let Some(ExcState::Pending {
        bucket,
        visited_count: _,
        clean: _,
        value,
    }) = page.exc_state
    else {
        return Err(Refusal::NoHolder);
    };
    page.exc_state = Some(ExcState::Claim { bucket, value });
    page.flag = Flag::Claimed;
    Ok(None)
}

fn deposit_exc_lock_to_done(page: &mut Page, value: StoredType) -> Answer {
    deposit_exc_lock(page, value, Flag::Available)
}

/// Rule 7 has only Pending readers beside an editor, and those may stay.
fn deposit_exc_lock_to_unmapped(page: &mut Page, value: StoredType) -> Answer {
    deposit_exc_lock(page, value, Flag::Unmapped)
}

/// The editor puts the value in and leaves; the page gets this flag.
fn deposit_exc_lock(page: &mut Page, value: StoredType, flag: Flag) -> Answer {
    let bucket = editor_bucket(page)?;
    clean_value(page, value)?;
    page.exc_state = None;
    page.flag = flag;
    page.storage = Some(value);
    give_up(page, bucket);
    Ok(None)
}

// Shared premises.

fn allow(holds: bool, refusal: Refusal) -> Result<(), Refusal> {
    if holds {
        Ok(())
    } else {
        Err(refusal)
    }
}

/// The flag after a claim, where one may be made.
fn claimed(flag: Flag) -> Result<Flag, Refusal> {
    match flag {
        Flag::Available => Ok(Flag::Claimed),
        Flag::Writeback => Ok(Flag::WritebackAndClaimed),
        _ => Err(Refusal::WrongFlag),
    }
}

/// The place of the first equal reader.
fn find(page: &Page, reader: SharedState) -> Result<usize, Refusal> {
    page.shared_state.find(reader).ok_or(Refusal::NoHolder)
}

/// The bucket of a claim, if it has one, and its value.
fn claim(page: &Page) -> Result<(Option<BucketId>, StoredType), Refusal> {
    match page.exc_state {
        Some(ExcState::Claim { bucket, value }) => Ok((bucket, value)),
        _ => Err(Refusal::NoHolder),
    }
}

/// The bucket of an editor that is Obtained, if it has one.
fn editor_bucket(page: &Page) -> Result<Option<BucketId>, Refusal> {
    match page.exc_state {
        Some(ExcState::Obtained { bucket, .. }) => Ok(bucket),
        _ => Err(Refusal::NoHolder),
    }
}

/// Whether the editor may put this value in: any one, but where it is clean just
/// the one that it keeps.
fn clean_value(page: &Page, value: StoredType) -> Result<(), Refusal> {
    match page.exc_state {
        Some(ExcState::Obtained {
            bucket: _,
            clean: true,
            value: kept,
        }) => allow(value == kept, Refusal::OtherValue),
        _ => Ok(()),
    }
}

/// The bucket of a loader that is Obtained, if it has one.
fn loader_bucket(page: &Page) -> Result<Option<BucketId>, Refusal> {
    match page.loading_state {
        Some(LoadingState::Obtained { bucket }) => Ok(bucket),
        _ => Err(Refusal::NoHolder),
    }
}

fn loader_pending(page: &Page) -> Result<(), Refusal> {
    allow(
        page.loading_state == Some(LoadingState::Pending),
        Refusal::NoHolder,
    )
}

fn count_room(page: &Page, bucket: BucketId) -> Result<(), Refusal> {
    allow(
        page.ref_counts[bucket.index()] != CEILING,
        Refusal::CountFull,
    )
}

fn list_room(page: &Page) -> Result<(), Refusal> {
    allow(
        page.shared_state.listed().len() < CAPACITY,
        Refusal::ListFull,
    )
}

// Shared changes.

fn count_up(page: &mut Page, bucket: BucketId) {
    page.ref_counts[bucket.index()].0 += 1;
}

/// Rule 5 has the count above 0 wherever a holder at the bucket leaves.
fn count_down(page: &mut Page, bucket: BucketId) {
    page.ref_counts[bucket.index()].0 -= 1;
}

/// Takes off the reference of a holder that leaves, if it has one.
fn give_up(page: &mut Page, bucket: Option<BucketId>) {
    if let Some(bucket) = bucket {
        count_down(page, bucket);
    }
}

/// The flag without its claim.
fn unclaimed(flag: Flag) -> Flag {
    match flag {
        Flag::Claimed => Flag::Available,
        Flag::WritebackAndClaimed => Flag::Writeback,
        _ => unreachable!("rules 2 and 6: a claim shows in the flag"),
    }
}

/// Takes the first equal reader off the list, and its reference with it.
fn leave(page: &mut Page, reader: SharedState) -> Answer {
    let place = find(page, reader)?;
    page.shared_state.remove(place);
    count_down(page, reader.bucket());
    Ok(None)
}

/// The value in storage, where soundness says that it is in.
fn stored(page: &Page) -> StoredType {
    page.storage
        .expect("a sound record has the page in storage here")
}

fn withdraw(page: &mut Page) -> StoredType {
    page.storage
        .take()
        .expect("a sound record has the page in storage here")
}
