//! Where a page can stand: every flag and every kind of holder, each reached
//! by a script, with readers beside wherever there may be some.

use super::request::{records, step, Draft};
use crate::kinds::{CAPACITY, CEILING};
use crate::record::{fresh, Page};
use crate::run::answer_line;

/// The value that a loaded page has.
pub const LOADED: u64 = 7;

/// A value that a loaded page does not have.
pub const OTHER: u64 = LOADED + 1;

/// The most readers that a bucket can have.
pub const MOST: usize = CEILING.0 as usize;

/// So many readers at each bucket fill the list.
pub const EACH: usize = CAPACITY / 4;

/// So many more fill it where two buckets have the most.
pub const REST: usize = CAPACITY - 2 * MOST;

/// The two ways to a loader that has the page and no bucket.
pub const PREFETCHES: [&[Draft]; 2] = [&[step(12)], &[step(11), step(15)]];

/// The scripts, each from a fresh page of 0.
pub fn all() -> Vec<Vec<Draft>> {
    vec![
        unmapped(),
        load_pending(),
        load_counted(),
        loading(),
        loading_uncounted(),
        available(),
        writeback(),
        claimed(),
        claimed_counted(),
        writeback_and_claimed(),
        writeback_and_claimed_uncounted(),
        writeback_and_pending(),
        pending(),
        visiting(),
        visited(),
        editing(),
        editing_dirty(),
        editing_uncounted(),
        editing_uncounted_clean(),
    ]
}

/// The page that a script leaves.
pub fn page_after(script: &[Draft]) -> Page {
    go_through(fresh(0), script)
}

/// The page that a script leaves where every value in it is this one, and the
/// fresh page's too.
pub fn page_of(script: &[Draft], value: u64) -> Page {
    let script: Vec<Draft> = script.iter().map(|draft| draft.revalued(value)).collect();
    go_through(fresh(value), &script)
}

fn go_through(mut page: Page, script: &[Draft]) -> Page {
    for request in records(script) {
        let _ = answer_line(&mut page, &request);
    }
    page
}

/// Unmapped, with a reader at bucket 1.
pub fn unmapped() -> Vec<Draft> {
    vec![step(19).at(1)]
}

/// A loader that has no bucket yet.
pub fn load_pending() -> Vec<Draft> {
    then(unmapped(), &[step(11)])
}

/// A loader at bucket 2.
pub fn load_counted() -> Vec<Draft> {
    then(load_pending(), &[step(13).at(2)])
}

/// The same, past the flag, and a reader past its first check.
pub fn loading() -> Vec<Draft> {
    let reader = [step(19).at(3), step(23).at(3)];
    then(then(load_counted(), &[step(14)]), &reader)
}

/// A loader that goes without a bucket, and readers of both phases, at bucket
/// 0 too.
pub fn loading_uncounted() -> Vec<Draft> {
    let readers = [step(19).at(3), step(23).at(3), step(19).times(2), step(23)];
    then(then(unmapped(), PREFETCHES[0]), &readers)
}

/// A loaded page: readers of every phase at bucket 1, and two that have
/// obtained it at bucket 3.
pub fn available() -> Vec<Draft> {
    let loaded = then(load_counted(), &[step(14), step(17).of(LOADED)]);
    let readers = [
        step(19).at(3).times(2),
        step(23).at(3).times(2),
        step(24).at(3).times(2),
        step(19).at(1).times(2),
        step(23).at(1).times(2),
        step(24).at(1),
        step(19).at(1),
    ];
    then(loaded, &readers)
}

/// The page is being written back.
pub fn writeback() -> Vec<Draft> {
    then(available(), &[step(1)])
}

/// A claim without a bucket.
pub fn claimed() -> Vec<Draft> {
    then(available(), &[step(3)])
}

/// A claim by the reader at bucket 3.
pub fn claimed_counted() -> Vec<Draft> {
    then(available(), &[step(4).at(3).of(LOADED)])
}

/// The same claim beside a writeback.
pub fn writeback_and_claimed() -> Vec<Draft> {
    then(writeback(), &[step(4).at(3).of(LOADED)])
}

/// A claim without a bucket beside a writeback.
pub fn writeback_and_claimed_uncounted() -> Vec<Draft> {
    then(writeback(), &[step(3)])
}

/// A claimant that waits for the writeback.
pub fn writeback_and_pending() -> Vec<Draft> {
    then(writeback_and_claimed(), &[step(5)])
}

/// A claimant that has nothing to wait for.
pub fn pending() -> Vec<Draft> {
    then(claimed_counted(), &[step(5)])
}

/// A claimant that has visited no bucket yet, because a reader is in its way
/// at each that has one.
pub fn visiting() -> Vec<Draft> {
    then(pending(), &[step(6)])
}

/// The same, but it takes the page as clean.
pub fn visiting_clean() -> Vec<Draft> {
    then(pending(), &[step(6).clean(1)])
}

/// A claimant at bucket 2 that has visited all four, and a reader since. It takes
/// the page as clean.
pub fn visited() -> Vec<Draft> {
    visited_as(1)
}

fn visited_as(clean: u8) -> Vec<Draft> {
    let script = [
        step(11),
        step(13).at(2),
        step(14),
        step(16).of(LOADED),
        step(4).at(2).of(LOADED),
        step(5),
        step(6).clean(clean),
        step(7).times(4),
        step(19).at(1),
    ];
    script.to_vec()
}

/// The same claimant, but it does not take the page as clean.
pub fn visited_dirty() -> Vec<Draft> {
    visited_as(0)
}

/// The clean claimant with the page in its hands.
pub fn editing() -> Vec<Draft> {
    then(visited(), &[step(8)])
}

/// The same, but the page was not taken as clean.
pub fn editing_dirty() -> Vec<Draft> {
    then(visited_dirty(), &[step(8)])
}

/// An editor without a bucket, who did not take the page as clean.
pub fn editing_uncounted() -> Vec<Draft> {
    uncounted_as(0)
}

/// An editor without a bucket, who took the page as clean.
pub fn editing_uncounted_clean() -> Vec<Draft> {
    uncounted_as(1)
}

fn uncounted_as(clean: u8) -> Vec<Draft> {
    let script = [
        step(11),
        step(13).at(2),
        step(14),
        step(17).of(LOADED),
        step(3),
        step(5),
        step(6).clean(clean),
        step(7).times(4),
        step(8),
        step(19).at(1),
    ];
    script.to_vec()
}

/// Unmapped by an editor, with what it put in and a reader that stays.
pub fn unmapped_again() -> Vec<Draft> {
    then(editing(), &[step(30).of(LOADED)])
}

/// A script, and more after it.
pub fn then(mut script: Vec<Draft>, more: &[Draft]) -> Vec<Draft> {
    script.extend(more);
    script
}
