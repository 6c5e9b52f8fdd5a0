//! The table of flags: which flag follows where a step is accepted under a flag, and
//! where none is ever accepted. Nobody typed it in; it is found by trying.
//!
//! Every small sound record meets every small request, and that is enough. A step asks
//! for its holder, for one reader at most, for room, and that a value is equal to
//! another one. Whoever else is listed can leave, and the record stays sound: there is
//! more room then, and a count that a claimant found as expected had no reader in it.
//! So a step that some record accepts is accepted by one with one reader or none, and
//! with the same flags. All buckets and visited numbers are tried, and two values.

use std::iter;
use std::sync::OnceLock;

use crate::kinds::{
    BucketId, Count, ExcState, Flag, LoadingState, Request, SharedState, StoredType, Visited,
    WritebackState, RC_WIDTH,
};
use crate::record::{count_all_refs, fresh, sound, Page};
use crate::steps::{judge_fields, step_in_place};

/// How many columns there are: one for each step, and one more for step 6.
pub const COLUMNS: usize = 31;

/// The entry where no sound record with the flag accepts the step.
pub const NEVER: u8 = 255;

/// A row for each flag. Each entry is the number of the flag that follows, or never.
pub type Table = [[u8; COLUMNS]; Flag::ALL.len()];

/// The table. It is found once, when it is first asked for.
pub fn table() -> &'static Table {
    static TABLE: OnceLock<Table> = OnceLock::new();
    TABLE.get_or_init(search)
}

/// The entry of a step under a flag: never for a number that is no step. Any clean
/// but 1 is dirty.
pub fn entry(flag: Flag, step: u8, clean: u8) -> u8 {
    match column(step, clean) {
        Some(column) => table()[usize::from(flag.number())][column],
        None => NEVER,
    }
}

/// The column of a step, if it is one: 1 to 5, 6 clean, 6 dirty, 7 to 30.
pub fn column(step: u8, clean: u8) -> Option<usize> {
    match step {
        1..=5 => Some(usize::from(step) - 1),
        6 if clean == 1 => Some(5),
        6..=30 => Some(usize::from(step)),
        _ => None,
    }
}

/// The values that are tried.
const VALUES: [StoredType; 2] = [0, 1];

/// Tries every small request on every small record.
fn search() -> Table {
    let mut table = [[NEVER; COLUMNS]; Flag::ALL.len()];
    let requests = requests();
    let readers = readers();
    for page in without_readers() {
        for page in readers.iter().filter_map(|&reader| beside(&page, reader)) {
            for request in &requests {
                let mut next = page.clone();
                if step_in_place(&mut next, request).is_ok() {
                    note(&mut table, page.flag, request, next.flag);
                }
            }
        }
    }
    table
}

/// Notes which flag has followed. It must be the same in every record.
fn note(table: &mut Table, flag: Flag, request: &Request, next: Flag) {
    let (step, clean) = (request.step, request.clean);
    let column = column(step, clean).expect("only steps are accepted");
    let entry = &mut table[usize::from(flag.number())][column];
    assert!(
        [NEVER, next.number()].contains(entry),
        "two flags follow {flag:?} by step {step} with clean {clean}: {:?} and {next:?}",
        Flag::ALL[usize::from(*entry)],
    );
    *entry = next.number();
}

/// All small requests that are well formed.
fn requests() -> Vec<Request> {
    let mut requests = Vec::new();
    for step in 0..=u8::MAX {
        for bucket in 0..RC_WIDTH {
            for clean in [0, 1] {
                requests.extend(VALUES.map(|value| Request::new(step, bucket, clean, value)));
            }
        }
    }
    requests.retain(|request| judge_fields(request).is_ok());
    requests
}

/// All small sound records that list nobody.
fn without_readers() -> Vec<Page> {
    let mut page = fresh(0);
    let mut pages = Vec::new();
    for flag in Flag::ALL {
        for storage in or_none(VALUES) {
            for (exc_state, loading_state, writeback_state) in holders() {
                page.flag = flag;
                page.storage = storage;
                page.exc_state = exc_state;
                page.loading_state = loading_state;
                page.writeback_state = writeback_state;
                count(&mut page);
                if sound(&page) {
                    pages.push(page.clone());
                }
            }
        }
    }
    pages
}

/// The record with this reader, if it is sound then; or with nobody more.
fn beside(page: &Page, reader: Option<SharedState>) -> Option<Page> {
    let mut page = page.clone();
    if let Some(reader) = reader {
        page.shared_state.push(reader);
    }
    count(&mut page);
    sound(&page).then_some(page)
}

/// Makes the counts agree with who is there.
fn count(page: &mut Page) {
    for bucket in BucketId::ALL {
        page.ref_counts[bucket.index()] = Count(count_all_refs(page, bucket) as u8);
    }
}

type Holders = (
    Option<ExcState>,
    Option<LoadingState>,
    Option<WritebackState>,
);

/// All holders side by side, whether or not they go together.
fn holders() -> Vec<Holders> {
    let mut holders = Vec::new();
    for exc_state in or_none(exc_states()) {
        for loading_state in or_none(loading_states()) {
            let writebacks = VALUES.map(|value| WritebackState { value });
            let writebacks = or_none(writebacks);
            holders.extend(writebacks.map(|writeback| (exc_state, loading_state, writeback)));
        }
    }
    holders
}

fn exc_states() -> Vec<ExcState> {
    let mut states = Vec::new();
    for (bucket, value) in or_none(BucketId::ALL).flat_map(|bucket| VALUES.map(|v| (bucket, v))) {
        states.push(ExcState::Claim { bucket, value });
        states.push(ExcState::PendingAwaitWriteback { bucket, value });
        for clean in [false, true] {
            let pending = |visited| ExcState::Pending {
                bucket,
                visited_count: Visited(visited),
                clean,
                value,
            };
            states.extend((0..=RC_WIDTH).map(pending));
            states.push(ExcState::Obtained {
                bucket,
                clean,
                value,
            });
        }
    }
    states
}

fn loading_states() -> Vec<LoadingState> {
    let mut states = vec![LoadingState::Pending];
    for bucket in or_none(BucketId::ALL) {
        states.push(LoadingState::PendingCounted { bucket });
        states.push(LoadingState::Obtained { bucket });
    }
    states
}

/// One reader of each phase at each bucket, or nobody.
fn readers() -> Vec<Option<SharedState>> {
    let mut readers = Vec::new();
    for bucket in BucketId::ALL {
        readers.push(SharedState::Pending { bucket });
        readers.push(SharedState::Pending2 { bucket });
        readers.extend(VALUES.map(|value| SharedState::Obtained { bucket, value }));
    }
    or_none(readers).collect()
}

/// None, and then each of these.
fn or_none<T>(all: impl IntoIterator<Item = T>) -> impl Iterator<Item = Option<T>> {
    iter::once(None).chain(all.into_iter().map(Some))
}
