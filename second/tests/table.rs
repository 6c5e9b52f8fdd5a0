//! The table of flags, by entries that are worked out by hand, and the engine that
//! looks there first, beside the plain one.

mod common;

use std::collections::BTreeSet;
use std::process::Command;

use common::{operations, walks};
use second::drill::program;
use second::engine::step_by_table;
use second::kinds::{answer_number, Flag, Refusal, Request, StoredType};
use second::ops::drawn::any_page;
use second::ops::random::Random;
use second::ops::situations::{self, page_after, visited_dirty, visiting_clean, LOADED, OTHER};
use second::ops::stream::operation_bytes;
use second::ops::{stream, Plan, REQUESTS};
use second::raw::read_raw;
use second::record::{fresh, sound, Page};
use second::steps::step;
use second::table::{column, entry, table, COLUMNS, NEVER};

const UNMAPPED: u8 = 0;
const LOADING: u8 = 1;
const LOADING_EXC_LOCK: u8 = 2;
const AVAILABLE: u8 = 3;
const CLAIMED: u8 = 4;
const WRITEBACK: u8 = 5;
const WRITEBACK_AND_CLAIMED: u8 = 6;
const WRITEBACK_AND_PENDING: u8 = 7;
const PENDING: u8 = 8;
const CLEAN: u8 = 9;
const DIRTY: u8 = 10;

/// The flags that a step is accepted under, each with the flag that follows.
type Moves = Vec<(u8, u8)>;

/// Under each of these flags, which stays.
fn stays(flags: &[u8]) -> Moves {
    flags.iter().map(|&flag| (flag, flag)).collect()
}

/// Where each step leads, worked out from the rules: its column (step and clean), and
/// its moves. A flag premise alone does not tell: there must be a holder, too.
fn worked_out() -> Vec<(u8, u8, Moves)> {
    // Where readers can be past the first check while the page is in storage.
    let past_first: Vec<u8> = (AVAILABLE..=DIRTY).collect();
    let all: Vec<u8> = (UNMAPPED..=DIRTY).collect();
    vec![
        (1, 0, vec![(AVAILABLE, WRITEBACK)]),
        (
            2,
            0,
            vec![
                (WRITEBACK, AVAILABLE),
                (WRITEBACK_AND_CLAIMED, CLAIMED),
                (WRITEBACK_AND_PENDING, PENDING),
            ],
        ),
        (3, 0, claims()),
        (4, 0, claims()),
        (
            5,
            0,
            vec![
                (CLAIMED, PENDING),
                (WRITEBACK_AND_CLAIMED, WRITEBACK_AND_PENDING),
            ],
        ),
        (6, 1, vec![(PENDING, CLEAN)]),
        (6, 0, vec![(PENDING, DIRTY)]),
        (7, 0, stays(&[CLEAN, DIRTY])),
        (8, 0, stays(&[CLEAN, DIRTY])),
        (9, 0, vec![(CLEAN, AVAILABLE), (DIRTY, AVAILABLE)]),
        (10, 0, vec![(CLEAN, CLAIMED), (DIRTY, CLAIMED)]),
        (11, 0, vec![(UNMAPPED, LOADING_EXC_LOCK)]),
        (12, 0, vec![(UNMAPPED, LOADING)]),
        (13, 0, stays(&[LOADING_EXC_LOCK])),
        (14, 0, vec![(LOADING_EXC_LOCK, LOADING)]),
        (15, 0, vec![(LOADING_EXC_LOCK, LOADING)]),
        (16, 0, vec![(LOADING, AVAILABLE)]),
        (17, 0, vec![(LOADING, AVAILABLE)]),
        (18, 0, stays(&[CLEAN, DIRTY])),
        (19, 0, stays(&all)),
        (20, 0, stays(&all)),
        (21, 0, stays(&[&[LOADING], &past_first[..]].concat())),
        (22, 0, stays(&past_first)),
        (
            23,
            0,
            stays(&[
                LOADING,
                AVAILABLE,
                CLAIMED,
                WRITEBACK,
                WRITEBACK_AND_CLAIMED,
            ]),
        ),
        (24, 0, stays(&past_first)),
        (25, 0, claims_dropped()),
        (26, 0, claims_dropped()),
        (
            27,
            0,
            vec![
                (PENDING, CLAIMED),
                (WRITEBACK_AND_PENDING, WRITEBACK_AND_CLAIMED),
            ],
        ),
        (28, 0, vec![(CLEAN, CLAIMED), (DIRTY, CLAIMED)]),
        (29, 0, vec![(CLEAN, AVAILABLE), (DIRTY, AVAILABLE)]),
        (30, 0, vec![(CLEAN, UNMAPPED), (DIRTY, UNMAPPED)]),
    ]
}

fn claims() -> Moves {
    vec![(AVAILABLE, CLAIMED), (WRITEBACK, WRITEBACK_AND_CLAIMED)]
}

fn claims_dropped() -> Moves {
    let turned = |(from, to)| (to, from);
    claims().into_iter().map(turned).collect()
}

fn flag(number: u8) -> Flag {
    Flag::ALL[usize::from(number)]
}

// The table.

#[test]
fn every_entry_is_what_the_rules_say() {
    let worked_out = worked_out();
    assert_eq!(worked_out.len(), COLUMNS);
    for (place, (step, clean, moves)) in worked_out.into_iter().enumerate() {
        assert_eq!(column(step, clean), Some(place));
        for from in UNMAPPED..=DIRTY {
            let to = moves.iter().find(|(flag, _)| *flag == from);
            let to = to.map_or(NEVER, |(_, to)| *to);
            assert_eq!(
                entry(flag(from), step, clean),
                to,
                "{from} by {step} {clean}"
            );
            assert_eq!(table()[usize::from(from)][place], to);
        }
    }
}

#[test]
fn ninety_three_entries_are_flags() {
    let entries = table().as_flattened();
    assert_eq!(entries.len(), 341);
    let flags = entries.iter().filter(|&&entry| entry <= DIRTY).count();
    let never = entries.iter().filter(|&&entry| entry == NEVER).count();
    assert_eq!((flags, never), (93, 248));
}

/// Where a premise alone would tell something else.
#[test]
fn entries_that_are_easy_to_get_wrong() {
    use Flag::*;
    assert_eq!(entry(Available, 1, 0), Writeback.number());
    assert_eq!(entry(Unmapped, 19, 0), Unmapped.number());
    assert_eq!(
        entry(Unmapped, 21, 0),
        NEVER,
        "though 21 has no flag premise"
    );
    assert_eq!(entry(Loading, 22, 0), NEVER);
    assert_eq!(entry(Loading, 23, 0), Loading.number());
    assert_eq!(entry(Loading, 24, 0), NEVER);
    assert_eq!(
        entry(Unmapped, 24, 0),
        NEVER,
        "though 24 is only barred by Loading"
    );
    assert_eq!(entry(LoadingExcLock, 24, 0), NEVER);
    assert_eq!(entry(PendingExcLock, 23, 0), NEVER);
    assert_eq!(entry(PendingExcLock, 24, 0), PendingExcLock.number());
    assert_eq!(entry(ExcLockClean, 24, 0), ExcLockClean.number());
    assert_eq!(entry(PendingExcLock, 6, 1), ExcLockClean.number());
    assert_eq!(entry(PendingExcLock, 6, 0), ExcLockDirty.number());
    assert_eq!(entry(WritebackAndPendingExcLock, 6, 1), NEVER);
    assert_eq!(entry(Claimed, 6, 0), NEVER);
    assert_eq!(
        entry(WritebackAndPendingExcLock, 2, 0),
        PendingExcLock.number()
    );
}

#[test]
fn every_number_has_an_entry() {
    for flag in Flag::ALL {
        for step in 0..=255 {
            for clean in 0..=255 {
                let entry = entry(flag, step, clean);
                if !(1..=30).contains(&step) {
                    assert_eq!(entry, NEVER);
                } else if step != 6 || clean != 1 {
                    assert_eq!(entry, second::table::entry(flag, step, 0));
                }
            }
        }
    }
}

/// Eleven lines of 31 numbers.
#[test]
fn the_program_prints_the_table() {
    let output = Command::new(env!("CARGO_BIN_EXE_flags")).output().unwrap();
    assert!(output.status.success());
    assert_eq!(output.stderr, []);
    let text = String::from_utf8(output.stdout).unwrap();
    assert!(text.ends_with('\n'));
    let lines: Vec<&str> = text.lines().collect();
    assert_eq!(lines.len(), 11);
    for (line, row) in lines.iter().zip(table()) {
        let numbers: Vec<u8> = line.split(' ').map(|n| n.parse().unwrap()).collect();
        assert_eq!(numbers, row);
    }
    let unmapped = "255 255 255 255 255 255 255 255 255 255 255 2 1 ";
    assert!(lines[0].starts_with(unmapped), "{}", lines[0]);
}

// The engine.

/// Sees that both engines do the same, and gives back the number.
#[track_caller]
fn same(page: &Page, request: &Request) -> u8 {
    let plain = step(page.clone(), request);
    let by_table = step_by_table(page.clone(), request);
    assert_eq!(
        by_table.answer, plain.answer,
        "{request:?} on {:?}",
        page.flag
    );
    assert!(
        by_table.page == plain.page,
        "{request:?} on {:?}",
        page.flag
    );
    if plain.answer.is_err() {
        assert!(by_table.page == *page, "{request:?} on {:?}", page.flag);
    }
    answer_number(&plain.answer)
}

/// Pages with every flag and every kind of holder.
fn pages() -> Vec<Page> {
    let mut scripts = situations::all();
    scripts.extend([visiting_clean(), visited_dirty()]);
    scripts.iter().map(|script| page_after(script)).collect()
}

/// The steps that have a premise on the flag, with the flags that they may start from.
fn premises() -> [(u8, Vec<u8>); 8] {
    let but = |left_out: &[u8]| -> Vec<u8> {
        let all = UNMAPPED..=DIRTY;
        all.filter(|flag| !left_out.contains(flag)).collect()
    };
    let checked = [
        AVAILABLE,
        WRITEBACK,
        CLAIMED,
        WRITEBACK_AND_CLAIMED,
        LOADING,
    ];
    [
        (1, vec![AVAILABLE]),
        (3, vec![AVAILABLE, WRITEBACK]),
        (4, vec![AVAILABLE, WRITEBACK]),
        (6, but(&[WRITEBACK, WRITEBACK_AND_PENDING])),
        (11, vec![UNMAPPED]),
        (12, vec![UNMAPPED]),
        (23, checked.to_vec()),
        (24, but(&[LOADING])),
    ]
}

/// What a step is answered where its entry is never.
fn never(flag: Flag, step: u8) -> u8 {
    let premises = premises();
    let premise = premises.iter().find(|(number, _)| *number == step);
    match premise {
        Some((_, flags)) if !flags.contains(&flag.number()) => 5,
        _ => 6,
    }
}

/// All good requests with these buckets and values.
fn good_requests() -> Vec<Request> {
    let mut requests = Vec::new();
    for step in 1..=30 {
        let bucketed = matches!(step, 4 | 13 | 18..=24);
        let valued = matches!(step, 4 | 9 | 10 | 16 | 17 | 22 | 29 | 30);
        for bucket in 0..=3 * u8::from(bucketed) {
            for clean in 0..=u8::from(step == 6) {
                let values: &[StoredType] = if valued { &[LOADED, OTHER, 0] } else { &[0] };
                let of = |&value| Request::new(step, bucket, clean, value);
                requests.extend(values.iter().map(of));
            }
        }
    }
    requests
}

/// On pages with every flag every never is answered 5 or 6 by the rule, and every
/// other entry is taken by one of them.
#[test]
fn never_is_5_or_6_and_all_else_is_taken() {
    let mut taken = BTreeSet::new();
    let mut refused = BTreeSet::new();
    for page in pages() {
        for request in good_requests() {
            let number = same(&page, &request);
            let place = (page.flag.number(), column(request.step, request.clean));
            let next = entry(page.flag, request.step, request.clean);
            if next == NEVER {
                assert_eq!(number, never(page.flag, request.step), "{request:?}");
                refused.insert(place);
            } else if number == 0 {
                let after = step_by_table(page.clone(), &request).page;
                assert_eq!(after.flag.number(), next);
                taken.insert(place);
            }
        }
    }
    assert_eq!((taken.len(), refused.len()), (93, 248));
}

/// 24 may not start under Loading. Elsewhere it may, but there is no reader.
#[test]
fn step_24_is_refused_for_its_flag_and_for_its_reader() {
    let request = Request::new(24, 3, 0, 0);
    let loading = page_after(&situations::loading());
    assert_eq!(loading.flag, Flag::Loading);
    let outcome = step_by_table(loading, &request);
    assert_eq!(outcome.answer, Err(Refusal::WrongFlag));
    let outcome = step_by_table(fresh(0), &request);
    assert_eq!(outcome.answer, Err(Refusal::NoHolder));
    let outcome = step_by_table(fresh(0), &Request::new(21, 3, 0, 0));
    assert_eq!(outcome.answer, Err(Refusal::NoHolder));
}

/// A record is judged first, then the fields; only then the table is looked into.
#[test]
fn numbers_1_to_4_come_before_the_table() {
    let mut unsound = fresh(0);
    unsound.storage = None;
    for page in pages() {
        for (request, number) in [
            (Request::new(0, 0, 0, 0), 2),
            (Request::new(31, 4, 2, 1), 2),
            (Request::new(255, 0, 0, 0), 2),
            (Request::new(1, 1, 0, 0), 3),
            (Request::new(6, 0, 2, 0), 3),
            (Request::new(21, 4, 1, 0), 3),
            (Request::new(21, 4, 0, 0), 4),
            (Request::new(24, 255, 0, 0), 4),
        ] {
            assert_eq!(same(&page, &request), number);
            assert_eq!(same(&unsound, &request), 1);
        }
    }
}

/// All step numbers, with buckets and choices that none has, and with the page's own
/// values and others.
fn any_request(random: &mut Random, step: u8, page: &Page) -> Request {
    let own = page.storage.unwrap_or(LOADED);
    let bucket = random.pick(&[0, 0, 1, 2, 3, 4, 255]);
    let clean = random.pick(&[0, 0, 0, 1, 2, 255]);
    let value = random.pick(&[0, 0, own, LOADED, own ^ 1]);
    Request::new(step, bucket, clean, value)
}

/// Pages that walks came by, and drawn ones, sound and not.
#[test]
fn the_engines_agree_on_any_record_and_any_request() {
    let mut random = Random::new(9);
    let mut walked: Vec<Page> = walks(&short(2))
        .into_iter()
        .filter_map(|walk| walk.asked.last().map(|asked| (*asked.after).clone()))
        .collect();
    walked.extend(pages());
    let mut seen = BTreeSet::new();
    for turn in 0..2_000 {
        let page = if turn % 2 == 0 {
            random.pick(&walked)
        } else {
            let image = any_page(&mut random, &walked);
            let Some(page) = read_raw(&image.0) else {
                continue;
            };
            page
        };
        for step in 0..=255 {
            let request = any_request(&mut random, step, &page);
            let number = same(&page, &request);
            seen.insert((sound(&page), number));
        }
        for request in good_requests() {
            let number = same(&page, &request);
            seen.insert((sound(&page), number));
        }
    }
    for number in (2..=11).chain([0, 17]) {
        assert!(seen.contains(&(true, number)), "{number}");
    }
    assert!(seen.contains(&(false, 1)));
    assert_eq!(seen.iter().filter(|(sound, _)| !sound).count(), 1);
}

// The drill.

fn short(seed: u64) -> Vec<u8> {
    let requests = REQUESTS;
    stream(&Plan { seed, requests })
}

fn answers(stream: &[u8]) -> Vec<u8> {
    let mut output = Vec::new();
    program(stream, &mut output).unwrap();
    output
}

/// The stream with all single requests by this operation.
fn by(number: u8, stream: &[u8]) -> Vec<u8> {
    let (operations, rest) = operations(stream);
    let mut bytes: Vec<u8> = operations
        .iter()
        .flat_map(|operation| {
            let single = matches!(operation.number, 2 | 3 | 13);
            let number = if single { number } else { operation.number };
            operation_bytes(number, operation.a, &operation.payload)
        })
        .collect();
    bytes.extend(rest);
    bytes
}

#[test]
fn operation_13_writes_what_operation_2_does() {
    let long = stream(&Plan {
        seed: 5,
        requests: 4_000,
    });
    for stream in (1..=6).map(short).chain([long]) {
        let expected = answers(&stream);
        assert!(answers(&by(2, &stream)) == expected);
        assert!(answers(&by(13, &stream)) == expected);
    }
}
