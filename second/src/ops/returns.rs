//! What is given back: a claim, a wait, visits, and the page itself; by holders
//! at a bucket and without one, on pages of every origin.

use super::image::of;
use super::random::Random;
use super::request::{records, step, Draft, EDGES};
use super::restarts::{main_kept, more_kept};
use super::situations::{page_after, pending, then, visited, LOADED};
use super::stream::Stream;
use super::Plan;
use crate::kinds::ExcState;
use crate::record::Page;

/// What a claimant that waits gives back, whose bucket is 3.
const WAITING: [Draft; 8] = [
    step(27),
    step(26),
    step(26),
    step(4).at(3).of(LOADED),
    step(25),
    step(3),
    step(26),
    step(25),
];

/// What a claimant gives back that has visited all buckets, and what it does as
/// an editor; a clean one asks with another value first. Then the page is loaded
/// again, beside a reader at bucket 0.
const VISITING: [Draft; 17] = [
    step(28),
    step(20).at(1),
    step(5),
    step(6),
    step(7).times(4),
    step(8),
    step(29).of(9),
    step(3),
    step(5),
    step(6).clean(1),
    step(7).times(4),
    step(8),
    step(19),
    step(30).of(3),
    step(30).of(9),
    step(12),
    step(17).of(LOADED),
];

/// Claimants that do not come to the page: one at bucket 3 that waits, then
/// beside the archive one at bucket 3, one at bucket 1 and one without a bucket,
/// and at last one whom the archive leaves alone. Each asks for what it cannot
/// give back, too.
const CLAIMANTS: [Draft; 39] = [
    step(25),
    step(28),
    step(27),
    step(27),
    step(28),
    step(26),
    step(26),
    step(25),
    step(1),
    step(4).at(3).of(LOADED),
    step(26),
    step(4).at(1).of(LOADED),
    step(5),
    step(26),
    step(27),
    step(25),
    step(3),
    step(26),
    step(5),
    step(27),
    step(25),
    step(27),
    step(4).at(3).of(LOADED),
    step(25),
    step(3),
    step(2),
    step(26),
    step(5),
    step(27),
    step(5),
    step(6),
    step(25),
    step(27),
    step(28),
    step(5),
    step(6).clean(1),
    step(7),
    step(28),
    step(25),
];

/// What an editor asks for that has the page and bucket 2, until it leaves.
const EDITOR: [Draft; 7] = [
    step(25),
    step(26),
    step(27),
    step(28),
    step(29).of(EDGES[3]),
    step(30).of(9),
    step(20).at(1),
];

/// What editors do that come without a bucket, each with the clean choice that it
/// has made. Some get a bucket. They put the page in beside a reader, which stays,
/// and where it is unmapped it is loaded again. Whoever is clean asks with another
/// value first.
const EDITORS: [(u8, &[Draft]); 4] = [
    (
        0,
        &[
            step(18).at(3),
            step(19),
            step(30).of(EDGES[2]),
            step(30),
            step(23),
            step(11),
            step(15),
            step(17).of(EDGES[1]),
            step(20),
        ],
    ),
    (
        1,
        &[
            step(18).at(1),
            step(19).at(1),
            step(30).of(5),
            step(30).of(EDGES[1]),
            step(12),
            step(23).at(1),
            step(17).of(6),
            step(21).at(1),
        ],
    ),
    (
        1,
        &[step(19), step(29).of(EDGES[0]), step(29).of(6), step(20)],
    ),
    (0, &[step(29).of(LOADED), step(3), step(25)]),
];

/// A claimant at bucket 2 that turns back after its last visit and then comes to
/// the page after all, and other editors after it.
fn editors() -> Vec<Draft> {
    let mut script = then(visited(), &[step(29).of(9), step(30).of(9), step(28)]);
    script.extend([step(29).of(9), step(20).at(1), step(5), step(6)]);
    script.extend([step(7).times(4), step(19).at(1), step(8)]);
    script.extend(EDITOR);
    for (clean, more) in EDITORS {
        script.extend([step(3), step(5), step(6).clean(clean)]);
        script.extend([step(7).times(4), step(8)]);
        script.extend(more);
    }
    script
}

/// All that a holder at this bucket can give back, each from where it is accepted.
/// The claimant turns back before it visits its own bucket. One of the two editors
/// is clean, and puts in just its second value.
fn all_at(bucket: u8) -> Vec<Draft> {
    let claim = step(4).at(bucket).of(LOADED);
    let clean = bucket % 2;
    vec![
        step(11),
        step(13).at(bucket),
        step(14),
        step(16).of(LOADED),
        claim,
        step(26),
        step(1),
        claim,
        step(5),
        step(27),
        step(2),
        step(5),
        step(27),
        step(5),
        step(6).clean(clean),
        step(7).times(usize::from(bucket)),
        step(28),
        step(5),
        step(6).clean(1 - clean),
        step(7).times(4),
        step(8),
        step(29).of(9),
        step(29).of(LOADED),
        step(3),
        step(5),
        step(6).clean(clean),
        step(7).times(4),
        step(8),
        step(18).at(bucket),
        step(30).of(3),
        step(30).of(9),
        step(11),
        step(13).at(bucket),
        step(14),
        step(16).of(LOADED),
        claim,
        step(25),
    ]
}

/// The requests by which an exclusive holder of this kind may give back.
pub fn of_kind(holder: ExcState) -> Vec<Draft> {
    match holder {
        ExcState::Claim { .. } => vec![step(25), step(26)],
        ExcState::PendingAwaitWriteback { .. } => vec![step(27)],
        ExcState::Pending { .. } => vec![step(28)],
        ExcState::Obtained { value, .. } => vec![step(29).of(value), step(30).of(value)],
    }
}

/// The long scripts in runs; the short ones on raw pages and on pages that are
/// read. In a long stream the long ones by single requests too, and every kept
/// page by whatever it can give back.
pub fn play(stream: &mut Stream, random: &mut Random, plan: &Plan) {
    let mut scripts = vec![then(pending(), &CLAIMANTS), editors()];
    scripts.extend((0..4).map(all_at));
    for script in scripts {
        stream.play(&script);
        stream.look();
        if plan.long() {
            play_single(stream, &script);
        }
    }
    for (situation, script) in [(pending(), &WAITING[..]), (visited(), &VISITING)] {
        let page = page_after(&situation);
        stream.lend_next(false);
        stream.raw(&of(&page).noise(random).0);
        go_through(stream, script);
        stream.lend_next(true);
        stream.read_page(&page);
        go_through(stream, script);
    }
    if plan.long() {
        let kept = main_kept().into_iter().chain(more_kept(plan));
        kept.for_each(|page| play_kept(stream, random, &page));
    }
}

/// Each request by value and, from the beginning again, with the page lent.
pub fn play_single(stream: &mut Stream, script: &[Draft]) {
    for lent in [false, true] {
        stream.fresh(0);
        stream.lend_next(lent);
        for request in records(script) {
            stream.ask(&request);
            stream.look_closely();
        }
    }
}

/// A script on the page as it is. What gives back is asked by single requests,
/// with a look after each; all else comes in runs.
fn go_through(stream: &mut Stream, script: &[Draft]) {
    let mut between = Vec::new();
    for request in records(script) {
        if request[0] <= 24 {
            between.push(request);
            continue;
        }
        if !between.is_empty() {
            stream.run_all(&between);
            between.clear();
        }
        stream.ask(&request);
        stream.look_closely();
    }
    stream.run_all(&between);
    stream.look();
}

/// All that the page's exclusive holder may give back, where the page is raw or
/// where it was read, by value or lent as it comes.
fn play_kept(stream: &mut Stream, random: &mut Random, page: &Page) {
    for request in page.exc_state.into_iter().flat_map(of_kind) {
        if random.one_in(2) {
            stream.raw(&of(page).noise(random).0);
        } else {
            stream.read_page(page);
        }
        stream.ask(&request.bytes());
        stream.look_closely();
    }
}
