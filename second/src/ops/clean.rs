//! What an editor puts in: a clean one just what it keeps, and one that is not
//! clean any value. At a bucket and without one, on pages of every origin.

use super::image::of;
use super::random::Random;
use super::request::{records, step, Draft};
use super::returns::play_single;
use super::situations::{
    editing, editing_dirty, editing_uncounted, editing_uncounted_clean, page_of, then,
};
use super::stream::Stream;
use super::Plan;
use crate::raw::IMAGE;
use crate::run::answer_line;
use crate::wire::RECORD;

/// The steps by which an editor puts the page in.
pub const DEPOSITS: [u8; 4] = [9, 10, 29, 30];

/// Case B: a reader at bucket 1 has 5.
const CASE_B: [Draft; 8] = [
    step(11),
    step(13).at(2),
    step(14),
    step(19).at(1),
    step(23).at(1),
    step(24).at(1),
    step(17).of(5),
    step(24).at(1),
];

/// The way from a claim to the page, which is taken as clean or not.
const fn take(clean: u8) -> [Draft; 4] {
    [step(5), step(6).clean(clean), step(7).times(4), step(8)]
}

/// The reader of case B comes to the page.
fn editor(clean: u8) -> Vec<Draft> {
    let claimed = then(CASE_B.to_vec(), &[step(4).at(1).of(5)]);
    then(claimed, &take(clean))
}

/// It leaves, and one comes to the page without a bucket.
fn uncounted_editor(clean: u8) -> Vec<Draft> {
    let claimed = then(CASE_B.to_vec(), &[step(22).at(1).of(5), step(3)]);
    then(claimed, &take(clean))
}

/// What leads to an editor in a run, and what is then asked by single requests.
type Script = (Vec<Draft>, Vec<Draft>);

/// Cases N and O, and what is told before that a value is another one.
fn scripts() -> Vec<Script> {
    vec![
        // Case N, and what one puts in that is not clean.
        (
            editor(1),
            vec![
                step(10).of(6),
                step(29).of(6),
                step(30).of(6),
                step(9).of(6),
                step(9).of(5),
            ],
        ),
        (editor(0), vec![step(9).of(5)]),
        (editor(0), vec![step(10).of(6)]),
        // Case O: the bucket comes later and what is kept stays, but who turns
        // back is no longer clean.
        (
            uncounted_editor(1),
            vec![
                step(9).of(6),
                step(29).of(6),
                step(18).at(2),
                step(9).of(6),
                step(30).of(6),
                step(10).of(5),
                step(5),
                step(6).clean(1),
                step(28),
                step(5),
                step(6),
                step(7).times(4),
                step(8),
                step(30).of(6),
            ],
        ),
        // The other way round: who turns back is clean the next time.
        (
            editor(0),
            vec![
                step(10).of(6),
                step(5),
                step(6),
                step(7),
                step(28),
                step(5),
                step(6).clean(1),
                step(7).times(4),
                step(8),
                step(30).of(5),
                step(30).of(6),
            ],
        ),
        // What is kept may be 0.
        (
            then(vec![step(12), step(17), step(3)], &take(1)),
            vec![step(29).of(1), step(30).of(1), step(30)],
        ),
        // Without a bucket, which is told first.
        (
            uncounted_editor(1),
            vec![
                step(9).of(6),
                step(10).of(6),
                step(9).of(5),
                step(10).of(5),
                step(30).of(6),
                step(29).of(6),
                step(29).of(5),
            ],
        ),
    ]
}

/// Editors one after the other, by every step twice. Each asks with another value
/// than 5 and then with 5. Whoever is clean puts in 5, which it keeps; who is not
/// puts in the other, which the next one keeps and puts in again.
fn one_after_the_other(clean: u8) -> Vec<Draft> {
    let mut script = editor(clean);
    for (number, value) in [(10, 6), (9, 8), (29, 9), (30, 3)] {
        let left = if clean == 1 { 5 } else { value };
        for _ in 0..2 {
            script.extend([step(number).of(value), step(number).of(5)]);
            script.extend(next_claim(number, left));
            script.extend(take(clean));
        }
    }
    script
}

/// The next claim, where this step has put this value in.
fn next_claim(number: u8, value: u64) -> Vec<Draft> {
    match number {
        9 => vec![step(4).at(1).of(value)],
        10 => vec![],
        29 => vec![step(3)],
        _ => vec![step(12), step(17).of(value), step(3)],
    }
}

/// All scripts, and then editors that do not come from a fresh page.
pub fn play(stream: &mut Stream, random: &mut Random, plan: &Plan) {
    for (first, asked) in scripts() {
        stream.play(&first);
        stream.write_image(IMAGE);
        for request in records(&asked) {
            ask(stream, &request);
        }
        stream.look();
    }
    for script in [0, 1].map(one_after_the_other) {
        stream.play(&script);
        stream.look();
        if plan.long() {
            play_single(stream, &script);
        }
    }
    play_origins(stream, random, plan);
}

/// By value or lent as it comes, and where that is refused, in the other way too.
fn ask(stream: &mut Stream, request: &[u8; RECORD]) {
    let refused = answer_line(&mut stream.page().clone(), request).is_err();
    stream.ask(request);
    if refused {
        stream.ask(request);
    }
}

/// An editor that does not come from a fresh page: the script that leads to it,
/// the place of the step that it asks by first, and whether it asks with what it
/// keeps first, or with another value.
type Origin = (Vec<Draft>, usize, bool);

/// Editors of every kind, where every step is once the first.
fn origins() -> Vec<Origin> {
    let mut origins = Vec::new();
    for script in [
        editing(),
        editing_uncounted_clean(),
        editing_dirty(),
        editing_uncounted(),
    ] {
        for first in 0..4 {
            origins.push((script.clone(), first, false));
            origins.push((script.clone(), first, true));
        }
    }
    origins
}

/// A clean editor, and more of every kind, of which a short stream has one.
fn play_origins(stream: &mut Stream, random: &mut Random, plan: &Plan) {
    let clean = (editing(), plan.one_of(0..4), false);
    play_origin(stream, random, &clean);
    for origin in plan.share(origins(), 32) {
        play_origin(stream, random, &origin);
    }
}

/// An editor with a value that is drawn, where the page is raw and where it was
/// read. It asks by every step with one value, and then with the other.
fn play_origin(stream: &mut Stream, random: &mut Random, origin: &Origin) {
    let (script, first, kept_first) = origin;
    let kept = random.value();
    let other = kept ^ 1 << random.below(64);
    let values = if *kept_first {
        [kept, other]
    } else {
        [other, kept]
    };
    let page = page_of(script, kept);
    for raw in [true, false] {
        if raw {
            stream.raw(&of(&page).noise(random).0);
        } else {
            stream.read_page(&page);
        }
        stream.write_image(IMAGE);
        for value in values {
            for number in DEPOSITS.into_iter().cycle().skip(*first).take(4) {
                ask(stream, &step(number).of(value).bytes());
            }
        }
        stream.look_closely();
    }
}
