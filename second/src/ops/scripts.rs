//! What is asked by script: the worked cases (RULES 10), the ceilings, equal
//! readers, loads without a bucket, values of all 64 bits, and every step in
//! every situation.

use super::clean::DEPOSITS;
use super::random::Random;
use super::request::{records, step, Draft, EDGES};
use super::situations::{self, page_after, EACH, LOADED, MOST, OTHER, PREFETCHES, REST};
use super::stream::Stream;
use super::Plan;
use crate::raw::IMAGE;
use crate::run::answer_line;
use crate::steps::{takes_bucket, takes_value};
use crate::wire::RECORD;

/// Cases A to H, K and L, where C and L go on from B, D from C, E from D; then
/// the steps up to 24 that no case accepts, and those that give back, where
/// nobody has anything.
const CASES: [&[Draft]; 12] = [
    // A
    &[step(12), step(17).of(5)],
    &[step(12), step(19).at(1), step(17).of(5)],
    &[step(12), step(19), step(17).of(5)],
    &[step(11), step(15), step(17).of(7)],
    // B to E
    &[
        step(11),
        step(13).at(2),
        step(14),
        step(19).at(1),
        step(23).at(1),
        step(24).at(1),
        step(17).of(5),
        step(24).at(1),
        // C
        step(1),
        step(4).at(1).of(5),
        step(5),
        step(6).clean(1),
        step(2),
        step(6),
        // D
        step(7),
        step(8),
        step(7),
        step(19).at(3),
        step(23).at(3),
        step(7),
        step(7),
        step(20).at(3),
        step(7),
        step(7),
        step(8),
        // E
        step(9).of(6),
    ],
    // F
    &[step(13).at(9), step(13), step(31).at(4), step(1).at(1)],
    // G
    &[step(19).at(4), step(19).at(3)],
    // H
    &[step(24), step(2)],
    // K
    &[
        step(11),
        step(13).at(2),
        step(14),
        step(17).of(5),
        step(3),
        step(5),
        step(6),
        step(7).times(4),
        step(8),
        step(30).of(9),
        step(12),
        step(17).of(1),
    ],
    // L
    &[
        step(11),
        step(13).at(2),
        step(14),
        step(19).at(1),
        step(23).at(1),
        step(24).at(1),
        step(17).of(5),
        step(24).at(1),
        step(4).at(1).of(5),
        step(25),
        step(3),
        step(25),
    ],
    // 16, 21, 22, 3, 18 and 10
    &[
        step(11),
        step(13).at(1),
        step(14),
        step(16).of(5),
        step(19).at(2),
        step(23).at(2),
        step(21).at(2),
        step(22).at(1).of(5),
        step(3),
        step(5),
        step(6).clean(1),
        step(7).times(4),
        step(8),
        step(18).at(3),
        step(10).of(6),
        step(10).of(5),
    ],
    &[
        step(25),
        step(26),
        step(27),
        step(28),
        step(29).of(5),
        step(30).of(5),
    ],
];

/// Which of several equal readers is meant shows where another one stands
/// between them and the list ends with another one, who takes the place of one
/// that leaves. So after each of these comes a look.
const EQUAL_READERS: [&[Draft]; 3] = [
    // Pending: one leaves, then two change.
    &[
        step(19),
        step(19).at(1),
        step(19),
        step(19).at(2),
        step(19),
        step(19).at(3),
        step(20),
        step(23),
        step(23),
    ],
    // Pending2: one leaves, then one changes.
    &[
        step(19),
        step(23),
        step(19).at(1),
        step(19),
        step(23),
        step(19).at(2),
        step(19),
        step(23),
        step(19).at(3),
        step(21),
        step(24),
    ],
    // Obtained: one leaves, then one makes a claim, where another one has come.
    &[
        step(19),
        step(23),
        step(24),
        step(19).at(1),
        step(19),
        step(23),
        step(24),
        step(19).at(2),
        step(19),
        step(23),
        step(24),
        step(19).at(3),
        step(22).of(LOADED),
        step(19).at(1),
        step(4).of(LOADED),
    ],
];

/// How a page gets its first value.
const LOAD: [Draft; 4] = [step(11), step(13), step(14), step(17).of(LOADED)];

/// How an editor without a bucket comes to the page, which it takes as clean.
const EDIT: [Draft; 5] = [
    step(3),
    step(5),
    step(6).clean(1),
    step(7).times(4),
    step(8),
];

/// So many readers at each bucket.
pub const fn readers(numbers: [usize; 4]) -> [Draft; 4] {
    [
        step(19).times(numbers[0]),
        step(19).at(1).times(numbers[1]),
        step(19).at(2).times(numbers[2]),
        step(19).at(3).times(numbers[3]),
    ]
}

/// What fills the page in a run, and what is then asked by single requests.
pub type Ceiling = (Vec<Draft>, Vec<Draft>);

/// Case I, and the ceilings where a loader or an editor is the holder.
pub fn ceilings() -> Vec<Ceiling> {
    let load: &[Draft] = &LOAD;
    let edit: &[Draft] = &EDIT;
    vec![
        // Case I. Without a loader or an editor the ceiling is not asked for.
        // Under every ceiling a loader can leave, with a bucket or without.
        (
            readers([MOST + 1, 0, 0, 0]).to_vec(),
            vec![
                step(19),
                step(13),
                step(18),
                step(11),
                step(15),
                step(17).of(9),
                step(19),
            ],
        ),
        (
            readers([EACH, EACH, EACH, EACH + 1]).to_vec(),
            vec![
                step(19),
                step(16),
                step(9),
                step(12),
                step(16).of(3),
                step(17).of(3),
                step(19),
            ],
        ),
        (
            [&readers([MOST, MOST, REST, 0])[..], &[step(19)]].concat(),
            vec![
                step(19),
                step(19).at(1),
                step(19).at(2),
                step(11),
                step(13).at(3),
                step(14),
                step(17).of(3),
            ],
        ),
        // A loader at a full bucket, and then with one reader less.
        (
            [
                &[step(11)],
                &readers([0, MOST, 0, 0])[..],
                &[step(13).at(1)],
            ]
            .concat(),
            vec![
                step(13).at(1),
                step(20).at(1),
                step(13).at(1),
                step(19).at(1),
                step(14),
                step(17).of(9),
                step(19).at(1).times(2),
            ],
        ),
        // A loader and a full list: it cannot stay as a reader.
        (
            [
                &[step(11), step(13), step(14)],
                &readers([EACH; 4])[..],
                &[step(16).of(3)],
            ]
            .concat(),
            vec![step(16).of(3), step(20).at(2), step(16).of(3), step(19)],
        ),
        // An editor at a full bucket, without a bucket and with one.
        (
            [load, edit, &readers([MOST, 0, 0, 0]), &[step(18)]].concat(),
            vec![
                step(18),
                step(18).at(1),
                step(18).at(2),
                step(18),
                step(10).of(9),
                step(10).of(LOADED),
                step(25),
            ],
        ),
        // An editor and a full list: it cannot stay as a reader. That its value is
        // another one is told last.
        (
            [load, edit, &readers([EACH - 1, EACH, EACH, EACH + 1])].concat(),
            vec![
                step(9).of(1),
                step(18).at(1),
                step(9).of(1),
                step(9).of(LOADED),
                step(19).at(1),
                step(20).at(3),
                step(9).of(1),
                step(9).of(LOADED),
                step(19),
            ],
        ),
        // An editor at a full bucket and a full list can leave.
        (
            [
                load,
                edit,
                &readers([MOST, MOST - 1, REST + 1, 0]),
                &[step(18).at(1)],
            ]
            .concat(),
            vec![
                step(19).at(1),
                step(29).of(9),
                step(29).of(LOADED),
                step(19).at(1),
                step(29).of(9),
            ],
        ),
        // The same, and the page is given back.
        (
            [
                load,
                edit,
                &readers([MOST, 0, REST + 1, MOST - 1]),
                &[step(18).at(3)],
            ]
            .concat(),
            vec![
                step(19).at(3),
                step(30).of(9),
                step(30).of(LOADED),
                step(19).at(3),
                step(20).at(2),
                step(19).at(3).times(2),
                step(30).of(9),
                step(11),
            ],
        ),
        // It can keep its claim, too, but it cannot become a reader before one has
        // left, and then it stays counted. Then it goes. A claim without a bucket
        // cannot become a reader at all, and the list is not asked for.
        (
            [
                load,
                edit,
                &readers([MOST - 1, MOST, REST + 1, 0]),
                &[step(18), step(9).of(LOADED)],
            ]
            .concat(),
            vec![
                step(10).of(9),
                step(10).of(LOADED),
                step(26),
                step(20).at(2),
                step(26),
                step(19),
                step(20).at(2),
                step(4).of(LOADED),
                step(25),
                step(19).times(2),
                step(3),
                step(19).at(3),
                step(26),
                step(25),
                step(26),
            ],
        ),
    ]
}

/// The page's way through a reader, a claimant and two editors, and what each
/// refuses that asks with another value. The second editor is the clean one.
fn values(first: u64, second: u64, third: u64) -> Vec<Draft> {
    vec![
        step(11),
        step(13).at(3),
        step(14),
        step(16).of(first),
        step(22).at(3).of(first ^ 1 << 63),
        step(4).at(3).of(first ^ 1),
        step(4).at(3).of(first),
        step(1),
        step(5),
        step(6),
        step(7).times(4),
        step(8),
        step(10).of(second),
        step(5),
        step(6).clean(1),
        step(7).times(4),
        step(8),
        step(9).of(third),
        step(9).of(second ^ 1 << 63),
        step(9).of(second ^ 1 << 32),
        step(9).of(second ^ 1),
        step(9).of(second),
        step(1),
        step(2),
        step(22).at(3).of(third),
        step(22).at(3).of(second),
    ]
}

/// A load without a bucket beside readers of both phases, at bucket 0 and at
/// this one. The loader cannot stay as a reader; it leaves, and whoever comes
/// next shows that it is gone and that the counts stayed.
fn prefetch(bucket: u8, value: u64) -> Vec<Draft> {
    let (load, claim) = if bucket.is_multiple_of(2) {
        (PREFETCHES[0], step(3))
    } else {
        (PREFETCHES[1], step(4).at(bucket).of(value))
    };
    let first = [step(19), step(19).at(bucket)];
    let then = [
        step(19),
        step(23),
        step(19).at(bucket),
        step(23).at(bucket),
        step(24).at(bucket),
        step(16).of(value),
        step(17).of(value),
        step(17).of(value),
        step(24).at(bucket),
        step(23).at(bucket),
        step(1),
        claim,
        step(2),
    ];
    [&first, load, &then].concat()
}

/// A claimant of this bucket visits all four, and meets a reader at each.
fn visits(own: u8) -> Vec<Draft> {
    let mut script = vec![
        step(11),
        step(13).at(own),
        step(14),
        step(16).of(LOADED),
        step(4).at(own).of(LOADED),
        step(5),
        step(6).clean(own % 2),
    ];
    for bucket in 0..4 {
        let meeting = [
            step(19).at(bucket),
            step(7),
            step(8),
            step(20).at(bucket),
            step(7),
        ];
        script.extend(meeting);
    }
    script.extend([step(7), step(8), step(7), step(8), step(18)]);
    script
}

/// All scripts but the situations.
pub fn play(stream: &mut Stream, random: &mut Random, plan: &Plan) {
    play_cases(stream);
    for script in EQUAL_READERS {
        stream.play(&LOAD);
        for request in records(script) {
            stream.ask(&request);
            stream.look();
        }
    }
    play_ceilings(stream, plan);
    for bucket in 0..4 {
        stream.play(&visits(bucket));
        stream.look();
    }
    for (bucket, value) in (0..).zip(EDGES) {
        stream.play(&prefetch(bucket, value));
        stream.look();
    }
    for value in EDGES {
        let script = values(value, random.number(), random.value());
        stream.fresh(value);
        stream.run_all(&records(&script));
        stream.look();
    }
}

/// Each ceiling by single requests. Some pages are then read as they were filled, and
/// asked the same in a run.
fn play_ceilings(stream: &mut Stream, plan: &Plan) {
    for (filled, asked) in ceilings() {
        stream.play(&filled);
        for request in records(&asked) {
            ask_each(stream, &request);
        }
        stream.look();
    }
    for (filled, asked) in plan.share(ceilings(), 10) {
        stream.read_page(&page_after(&filled));
        stream.run_all(&records(&asked));
        stream.look();
    }
}

/// Each case twice, so that each of its requests is once asked by value and
/// once with the page lent.
fn play_cases(stream: &mut Stream) {
    for (case, lent) in CASES.iter().flat_map(|case| [(case, false), (case, true)]) {
        stream.fresh(0);
        stream.lend_next(lent);
        for request in records(case) {
            stream.ask(&request);
            stream.look();
        }
    }
}

/// By value, and where that is refused, with the page lent and by the table too.
fn ask_each(stream: &mut Stream, request: &[u8; RECORD]) {
    let refused = answer_line(&mut stream.page().clone(), request).is_err();
    stream.lend_next(false);
    stream.ask(request);
    if refused {
        stream.ask(request);
        stream.ask_by_table(request);
    }
}

/// The image of every situation, and every step in it: first all that are refused
/// there, and then one that is accepted, or in a long stream each of them.
pub fn play_situations(stream: &mut Stream, random: &mut Random, plan: &Plan) {
    for situation in situations::all() {
        let page = situations::page_after(&situation);
        let accepts = |request: &[u8; RECORD]| answer_line(&mut page.clone(), request).is_ok();
        let (accepted, refused): (Vec<_>, Vec<_>) = every_step().into_iter().partition(accepts);
        stream.play(&situation);
        stream.look();
        stream.write_image(IMAGE);
        stream.run_all(&refused);
        stream.look();
        let chosen = random.pick(&accepted);
        stream.ask(&chosen);
        stream.look();
        for request in accepted.iter().filter(|_| plan.long()) {
            stream.play(&situation);
            stream.ask(request);
            stream.look_closely();
        }
    }
}

/// A good request of every step, at two buckets where it takes one, and with two
/// values where an editor puts the page in.
pub fn every_step() -> Vec<[u8; RECORD]> {
    let mut requests = vec![step(6).clean(1).bytes()];
    requests.extend(DEPOSITS.map(|number| step(number).of(OTHER).bytes()));
    for number in 1..=30 {
        let value = if takes_value(number) { LOADED } else { 0 };
        let buckets: &[u8] = if takes_bucket(number) { &[1, 3] } else { &[0] };
        for &bucket in buckets {
            requests.push(step(number).at(bucket).of(value).bytes());
        }
    }
    requests
}
