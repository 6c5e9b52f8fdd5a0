//! What the streams of `ops` promise: everything occurs, and how they end.

mod common;

use std::collections::BTreeSet;

use common::history::History;
use common::{leaver, manners, operations, walks, Asked};
use second::drill::{program, Drill, Operation};
use second::kinds::{
    answer_number, ExcState, Flag, LoadingState, Refusal, SharedState, StoredType, CAPACITY,
    CEILING,
};
use second::ops::ends::{end_of, End, ENDS};
use second::ops::pages::{main_pages, more_pages, more_without_meaning, without_meaning};
use second::ops::removals::REMOVALS;
use second::ops::stream::Stream;
use second::ops::{stream, Plan, REQUESTS};
use second::pieces::Carry;
use second::raw::{read_raw, write_raw};
use second::record::{
    census, exc_state_invariants, flag_invariant, limits, loading_state_invariants,
    lowest_broken_rule, ref_count_invariant, shared_storage_invariant, sound,
    storage_some_invariant, writeback_state_invariants, Page,
};
use second::run::{answer_line, run};
use second::steps::step;
use second::table::{column, entry, NEVER};
use second::wire::read_request;

fn short(seed: u64) -> Vec<u8> {
    let requests = REQUESTS;
    stream(&Plan { seed, requests })
}

fn long(seed: u64) -> Vec<u8> {
    let requests = 4_000;
    stream(&Plan { seed, requests })
}

fn answers(stream: &[u8]) -> Vec<u8> {
    let mut output = Vec::new();
    program(stream, &mut output).unwrap();
    output
}

#[test]
fn a_stream_is_made_the_same_again() {
    assert_eq!(short(1), short(1));
    assert_ne!(short(1), short(13));
    assert_eq!(long(3), long(3));
}

#[test]
fn the_first_stream_is_small() {
    let stream = short(1);
    assert!((80_000..=595_100).contains(&stream.len()));
    assert!(answers(&stream).len() <= 914_600);
}

#[test]
fn a_stream_may_have_no_walks_and_any_seed() {
    for seed in [0, u64::MAX] {
        let requests = 0;
        let stream = stream(&Plan { seed, requests });
        assert!(!answers(&stream).is_empty());
    }
}

/// How a request is made. One by the table is by value, too.
const BY_VALUE: usize = 0;
const LENT: usize = 1;
const IN_A_RUN: usize = 2;
const BY_TABLE: usize = 3;

/// What occurs in a stream.
#[derive(Default)]
struct Seen {
    /// The steps that were accepted, by how they were made.
    accepted: [BTreeSet<u8>; 4],
    /// The numbers that were given to requests, by how they were made.
    numbers: [BTreeSet<u8>; 4],
    /// The numbers that were given to runs as a whole.
    runs: BTreeSet<u8>,
    /// The numbers that were given to pieces as a whole, and where they ended.
    pieces: BTreeSet<u8>,
    finished: BTreeSet<u8>,
    /// The numbers that were given where a request was written back.
    written: BTreeSet<u8>,
    /// The numbers that were given to raw pages.
    raw: BTreeSet<u8>,
    /// The numbers that were given to images that were read, and to images that
    /// were written, with the room.
    images_read: BTreeSet<u8>,
    images_written: BTreeSet<(u8, u64)>,
    /// What looks told: soundness and the lowest broken rule.
    rules: BTreeSet<(u8, u8)>,
    /// What was there when somebody looked: flags, and kinds of holders.
    flags: BTreeSet<u8>,
    holders: BTreeSet<String>,
    /// The same of the pages that were read and of those that were written, and
    /// the phases of readers.
    restored: Kept,
    kept: Kept,
    /// All operations.
    operations: BTreeSet<u8>,
}

/// What occurs in the images of a stream.
#[derive(Default)]
struct Kept {
    flags: BTreeSet<u8>,
    holders: BTreeSet<String>,
    phases: BTreeSet<usize>,
    most_readers: usize,
    highest_count: u8,
    values: BTreeSet<StoredType>,
}

impl Kept {
    fn add(&mut self, page: &Page) {
        let readers = page.shared_state.listed();
        self.flags.insert(page.flag.number());
        self.holders.extend(holders(page));
        self.phases
            .extend(readers.iter().map(|reader| reader.phase()));
        self.most_readers = self.most_readers.max(readers.len());
        let highest = page.ref_counts.iter().map(|count| count.0).max();
        self.highest_count = self.highest_count.max(highest.unwrap());
        self.values.extend(page.storage);
    }
}

impl Seen {
    fn of(streams: impl Iterator<Item = Vec<u8>>) -> Seen {
        let mut seen = Seen::default();
        for stream in streams {
            let mut drill = Drill::start();
            for operation in operations(&stream).0 {
                let written = drill.perform(&operation).unwrap();
                seen.add(&operation, &written, drill.page());
            }
        }
        seen
    }

    fn add(&mut self, operation: &Operation, written: &[u8], page: &Page) {
        self.operations.insert(operation.number);
        match operation.number {
            2 => self.answered(BY_VALUE, &operation.payload, written),
            3 => self.answered(LENT, &operation.payload, written),
            4 => self.run(&operation.payload, written),
            5 => _ = self.written.insert(written[0]),
            6 => self.looked(written, page),
            7 => _ = self.raw.insert(written[0]),
            8 => self.read(written[0], page),
            9 => self.wrote(written[0], operation.a, page),
            10 => _ = self.pieces.insert(written[0]),
            11 => _ = self.finished.insert(written[0]),
            13 => {
                self.answered(BY_VALUE, &operation.payload, written);
                self.answered(BY_TABLE, &operation.payload, written);
            }
            _ => (),
        }
    }

    fn read(&mut self, number: u8, page: &Page) {
        self.images_read.insert(number);
        if number == 0 {
            self.restored.add(page);
        }
    }

    fn wrote(&mut self, number: u8, room: u64, page: &Page) {
        self.images_written.insert((number, room));
        if number == 0 {
            self.kept.add(page);
        }
    }

    fn answered(&mut self, manner: usize, request: &[u8], line: &[u8]) {
        self.numbers[manner].insert(line[0]);
        if line[0] == 0 {
            self.accepted[manner].insert(request[0]);
        }
    }

    fn run(&mut self, requests: &[u8], written: &[u8]) {
        self.runs.insert(written[0]);
        if written[0] == 0 {
            for (request, line) in requests.chunks(16).zip(written[16..].chunks(16)) {
                self.answered(IN_A_RUN, request, line);
            }
        }
    }

    fn looked(&mut self, written: &[u8], page: &Page) {
        self.rules.insert((written[0], written[1]));
        self.flags.insert(written[16]);
        if written[0] == 0 {
            self.holders.extend(holders(page));
        }
    }
}

fn holders(page: &Page) -> [String; 3] {
    [
        "exc ".to_string() + &name(&page.exc_state),
        "loading ".to_string() + &name(&page.loading_state),
        name(&page.writeback_state),
    ]
}

/// The kind of a holder, and whether it has a bucket.
fn name(holder: &impl std::fmt::Debug) -> String {
    let text = format!("{holder:?}");
    let kind = text.split([' ', ')']).next().unwrap().to_string();
    if text.contains("bucket: None") {
        kind + " without"
    } else {
        kind
    }
}

fn set(numbers: impl IntoIterator<Item = u8>) -> BTreeSet<u8> {
    numbers.into_iter().collect()
}

/// What one short stream has to have, and many streams of course.
fn everything(seen: &Seen) {
    for manner in [BY_VALUE, LENT, BY_TABLE] {
        assert_eq!(seen.numbers[manner], set((0..=12).chain([17])));
    }
    assert_eq!(seen.accepted[BY_TABLE], set(1..=30));
    assert_eq!(
        seen.numbers[IN_A_RUN],
        set([0, 2, 3, 4, 5, 6, 7, 8, 9, 10, 11, 17])
    );
    assert_eq!(seen.accepted[IN_A_RUN], set(1..=30));
    assert_eq!(seen.written, set([0, 2, 3, 4, 14]));
    assert_eq!(seen.raw, set([0, 255]));
    let rules: BTreeSet<_> = (0..=8).map(|rule| (u8::from(rule > 0), rule)).collect();
    assert_eq!(seen.rules, rules);
    assert_eq!(seen.flags, set(0..=10));
    assert_eq!(seen.operations, set(1..=13));
    assert_eq!(seen.pieces, set([0, 1, 12, 13, 14]));
    assert_eq!(seen.finished, set([0, 12]));
    for holders in [&seen.holders, &seen.kept.holders] {
        assert!(HOLDERS.iter().all(|&holder| holders.contains(holder)));
    }
    images(seen);
}

const HOLDERS: [&str; 14] = [
    "exc None",
    "exc Some(Claim",
    "exc Some(Claim without",
    "exc Some(PendingAwaitWriteback",
    "exc Some(Pending",
    "exc Some(Obtained",
    "exc Some(Obtained without",
    "loading None",
    "loading Some(Pending",
    "loading Some(PendingCounted",
    "loading Some(Obtained",
    "loading Some(Obtained without",
    "None",
    "Some(WritebackState",
];

/// What one short stream has to have of images.
fn images(seen: &Seen) {
    assert_eq!(seen.images_read, set([0, 15, 16]));
    for room in [0, 1, 1_088, 4_159, 4_160, 4_161] {
        let number = if room < 4_160 { 15 } else { 0 };
        for number in [1, number] {
            assert!(seen.images_written.contains(&(number, room)), "{room}");
        }
    }
    assert_eq!(seen.kept.flags, set(0..=10));
    for images in [&seen.kept, &seen.restored] {
        assert_eq!(images.phases.len(), 3);
        assert_eq!(images.most_readers, 256);
        assert_eq!(images.highest_count, 127);
        for value in [0, 0x0807_0605_0403_0201, StoredType::MAX] {
            assert!(images.values.contains(&value), "{value}");
        }
    }
    let kinds = |holders: &BTreeSet<String>| -> BTreeSet<String> {
        let kind = |holder: &String| holder.trim_end_matches(" without").to_string();
        holders.iter().map(kind).collect()
    };
    let all = HOLDERS.map(String::from).into();
    assert!(kinds(&seen.restored.holders).is_superset(&kinds(&all)));
}

#[test]
fn the_first_stream_has_everything_that_is_cheap() {
    let seen = Seen::of([short(1)].into_iter());
    everything(&seen);
    assert_eq!(seen.runs, set([0, 1, 12, 14]));
    let single = &seen.accepted[BY_VALUE] | &seen.accepted[LENT];
    assert_eq!(single, set(1..=30));
}

#[test]
fn forty_streams_have_everything_in_every_manner() {
    let mut seen = Seen::of((1..=40).map(short));
    everything(&seen);
    for manner in [BY_VALUE, LENT, IN_A_RUN] {
        assert_eq!(seen.accepted[manner], set(1..=30));
    }
    assert_eq!(seen.restored.flags, set(0..=10));
    assert!(HOLDERS
        .iter()
        .all(|&holder| seen.restored.holders.contains(holder)));
    seen = Seen::of([long(41)].into_iter());
    everything(&seen);
    assert_eq!(seen.runs, set([0, 1, 12, 13, 14]));
    assert_eq!(seen.restored.flags, set(0..=10));
    for manner in [BY_VALUE, LENT, IN_A_RUN] {
        assert_eq!(seen.accepted[manner], set(1..=30));
    }
}

/// The step by which a loader without a bucket took the page, 12 or 15; none
/// where it came with a raw page.
type Way = Option<u8>;

const WAYS: [Way; 3] = [None, Some(12), Some(15)];

const UNCOUNTED: Option<LoadingState> = Some(LoadingState::Obtained { bucket: None });

/// What a stream has of loads without a bucket.
#[derive(Default)]
struct Prefetches {
    /// Where 16 was refused.
    refused: BTreeSet<Way>,
    /// Where 17 was accepted: the phase of each reader beside, and whether it
    /// stands at bucket 0.
    left: BTreeSet<(Way, usize, bool)>,
    /// The steps that were accepted after 17.
    after: BTreeSet<u8>,
}

impl Prefetches {
    fn of(stream: &[u8]) -> Prefetches {
        let mut seen = Prefetches::default();
        for walk in walks(stream) {
            seen.add(&walk.asked);
        }
        seen
    }

    fn add(&mut self, walk: &[Asked]) {
        let mut way = None;
        let mut ended = false;
        for asked in walk.iter().filter(|asked| asked.bytes.len() == 16) {
            let number = asked.bytes[0];
            let uncounted = asked.before.loading_state == UNCOUNTED;
            match (number, &asked.answer) {
                (16, Err(Refusal::HolderBucket)) => _ = self.refused.insert(way),
                (17, Ok(_)) if uncounted => {
                    ended = true;
                    self.leaves(way, &asked.before);
                }
                (12 | 15, Ok(_)) => way = Some(number),
                (_, Ok(_)) if ended => _ = self.after.insert(number),
                _ => (),
            }
        }
    }

    fn leaves(&mut self, way: Way, page: &Page) {
        for reader in page.shared_state.listed() {
            let first = reader.bucket().0 == 0;
            self.left.insert((way, reader.phase(), first));
        }
    }
}

#[test]
fn every_stream_has_loads_without_a_bucket() {
    for seed in 1..=40 {
        let seen = Prefetches::of(&short(seed));
        for way in WAYS {
            assert!(seen.refused.contains(&way), "seed {seed}: {way:?}");
            for reader in [(0, true), (0, false), (1, true), (1, false)] {
                let left = (way, reader.0, reader.1);
                assert!(seen.left.contains(&left), "seed {seed}: {left:?}");
            }
        }
        for number in [1, 2, 3, 4, 23, 24] {
            assert!(seen.after.contains(&number), "seed {seed}: {number}");
        }
    }
}

/// What a stream has of the steps that give back.
#[derive(Default)]
struct Returns {
    /// The numbers that each step was given, by the operation.
    numbers: BTreeSet<(u8, u8, u8)>,
    /// Where each was accepted: the operation that made the page.
    origins: BTreeSet<(u8, u8)>,
    /// The flag that it was accepted under, and whether its holder had a bucket;
    /// and the bucket.
    given: BTreeSet<(u8, u8, bool)>,
    buckets: BTreeSet<(u8, u8)>,
    /// The visited numbers at which 28 was accepted.
    visited: BTreeSet<u8>,
    /// The steps that lowered a count of 127, that were accepted on a full list,
    /// and that put the page in beside readers.
    from_ceiling: BTreeSet<u8>,
    on_full_list: BTreeSet<u8>,
    beside_readers: BTreeSet<u8>,
    /// The steps that withdrew the page after 30.
    loaded_again: Vec<u8>,
    /// How often the page came to an editor.
    edited: usize,
}

impl Returns {
    fn of(stream: &[u8]) -> Returns {
        let mut seen = Returns::default();
        seen.written(stream);
        for walk in walks(stream) {
            let mut unmapped = false;
            for asked in walk.asked.iter().filter(|asked| asked.bytes.len() == 16) {
                let number = asked.bytes[0];
                let answer = answer_number(&asked.answer);
                let manners = manners(asked.operation).into_iter();
                seen.numbers
                    .extend(manners.map(|operation| (operation, number, answer)));
                match (number, answer) {
                    (8, 0) => seen.edited += 1,
                    (11 | 12, 0) if unmapped => seen.loaded_again.push(number),
                    (25..=30, 0) => seen.accepted(walk.origin, number, asked),
                    _ => (),
                }
                unmapped = asked.after.flag == Flag::Unmapped && (unmapped || number == 30);
            }
        }
        seen
    }

    /// The numbers that each step was given where it was written back.
    fn written(&mut self, stream: &[u8]) {
        for operation in operations(stream).0 {
            if operation.number == 5 && !operation.payload.is_empty() {
                let answer = Drill::start().perform(&operation).unwrap()[0];
                self.numbers.insert((5, operation.payload[0], answer));
            }
        }
    }

    fn accepted(&mut self, origin: u8, number: u8, asked: &Asked) {
        let (before, after) = (&asked.before, &asked.after);
        let bucket = before.exc_state.and_then(ExcState::bucket);
        let given = (number, before.flag.number(), bucket.is_some());
        self.origins.insert((origin, number));
        self.given.insert(given);
        self.buckets.extend(bucket.map(|bucket| (number, bucket.0)));
        if let Some(ExcState::Pending { visited_count, .. }) = before.exc_state {
            self.visited.insert(visited_count.0);
        }
        let mut counts = before.ref_counts.iter().zip(&after.ref_counts);
        if counts.any(|(before, after)| *before == CEILING && *after != CEILING) {
            self.from_ceiling.insert(number);
        }
        let readers = before.shared_state.listed().len();
        if readers == CAPACITY {
            self.on_full_list.insert(number);
        }
        if readers > 0 {
            self.beside_readers.insert(number);
        }
    }
}

/// The flags that each of the six steps is accepted under.
const GIVEN_UNDER: [(u8, [u8; 2]); 6] = [
    (25, [4, 6]),
    (26, [4, 6]),
    (27, [8, 7]),
    (28, [9, 10]),
    (29, [9, 10]),
    (30, [9, 10]),
];

#[test]
fn every_stream_gives_back_in_every_manner() {
    let mut by_table = BTreeSet::new();
    for seed in 1..=40 {
        let seen = Returns::of(&short(seed));
        by_table.extend(seen.numbers.iter().filter(|asked| asked.0 == 13).copied());
        for number in 25..=30 {
            let single: &[u8] = if number == 26 {
                &[0, 1, 3, 6, 7, 11]
            } else {
                &[0, 1, 3, 6]
            };
            for &answer in single {
                for operation in [2, 3] {
                    let asked = (operation, number, answer);
                    assert!(seen.numbers.contains(&asked), "seed {seed}: {asked:?}");
                }
            }
            for asked in [(4, 0), (4, 3), (4, 6), (5, 0), (5, 3)] {
                let asked = (asked.0, number, asked.1);
                assert!(seen.numbers.contains(&asked), "seed {seed}: {asked:?}");
            }
            for origin in [1, 7, 8] {
                assert!(seen.origins.contains(&(origin, number)), "seed {seed}");
            }
        }
        assert!(seen.numbers.contains(&(4, 26, 7)), "seed {seed}");
        for operation in 2..=5 {
            for unknown in [0, 31, 255] {
                let asked = (operation, unknown, 2);
                assert!(seen.numbers.contains(&asked), "seed {seed}: {asked:?}");
            }
        }
    }
    for number in 25..=30 {
        for answer in [0, 1, 3, 6] {
            assert!(
                by_table.contains(&(13, number, answer)),
                "{number} {answer}"
            );
        }
    }
    for answer in [7, 11] {
        assert!(by_table.contains(&(13, 26, answer)), "{answer}");
    }
}

#[test]
fn every_stream_gives_back_from_everywhere() {
    for seed in 1..=40 {
        let seen = Returns::of(&short(seed));
        for (number, flags) in GIVEN_UNDER {
            for flag in flags {
                for bucket in [false, true] {
                    let given = (number, flag, bucket);
                    let fits = number != 26 || bucket;
                    assert_eq!(seen.given.contains(&given), fits, "seed {seed}: {given:?}");
                }
            }
        }
        for (number, _) in GIVEN_UNDER {
            for bucket in 0..4 {
                let at = (number, bucket);
                assert!(seen.buckets.contains(&at), "seed {seed}: {at:?}");
            }
        }
        assert_eq!(seen.visited, set(0..=4), "seed {seed}");
        assert_eq!(seen.from_ceiling, set([25, 29, 30]), "seed {seed}");
        let on_full_list = &seen.on_full_list;
        assert!(on_full_list.is_superset(&set([25, 29, 30])), "seed {seed}");
        assert_eq!(seen.beside_readers, set(25..=30), "seed {seed}");
        let loaded_again = set(seen.loaded_again.iter().copied());
        assert_eq!(loaded_again, set([11, 12]), "seed {seed}");
    }
}

/// Giving back does not keep the others from coming to the page.
#[test]
fn a_long_stream_edits_the_page_and_loads_it_again_often() {
    for seed in 1..=3 {
        let seen = Returns::of(&long(seed));
        let (edited, loaded_again) = (seen.edited, seen.loaded_again.len());
        assert!(edited >= 150, "seed {seed}: {edited}");
        assert!(loaded_again >= 20, "seed {seed}: {loaded_again}");
    }
}

/// The steps by which an editor puts the page in.
const DEPOSITS: [u8; 4] = [9, 10, 29, 30];

/// What a request met that puts the page in, where an editor has it: the step, the
/// editor's choice, whether the value is the one that it keeps, and the answer.
type Put = (u8, bool, bool, u8);

/// What a stream has of editors that put the page in.
#[derive(Default)]
struct Deposits {
    /// What was asked, by the operation, and by the one that made the page.
    asked: BTreeSet<(u8, Put)>,
    origins: BTreeSet<(u8, Put)>,
    /// The exclusive kinds of raw pages and of images, by the operation, with the
    /// answer.
    kinds: BTreeSet<(u8, u8, u8)>,
}

impl Deposits {
    fn of(stream: &[u8]) -> Deposits {
        let mut seen = Deposits::default();
        for walk in walks(stream) {
            for asked in walk.asked {
                seen.add(walk.origin, &asked);
            }
        }
        let mut drill = Drill::start();
        for operation in operations(stream).0 {
            let written = drill.perform(&operation).unwrap();
            if let (7 | 8, Some(&kind)) = (operation.number, operation.payload.get(4)) {
                seen.kinds.insert((operation.number, kind, written[0]));
            }
        }
        seen
    }

    fn add(&mut self, origin: u8, asked: &Asked) {
        let Ok(request) = read_request(&asked.bytes) else {
            return;
        };
        let Some(ExcState::Obtained { clean, value, .. }) = asked.before.exc_state else {
            return;
        };
        if DEPOSITS.contains(&request.step) {
            let answer = answer_number(&asked.answer);
            let put = (request.step, clean, request.value == value, answer);
            let manners = manners(asked.operation).into_iter();
            self.asked.extend(manners.map(|operation| (operation, put)));
            self.origins.insert((origin, put));
        }
    }
}

/// Single requests meet a clean editor with a value that it does not keep, and
/// runs meet every editor with either value.
#[test]
fn every_stream_has_editors_that_put_in_what_they_keep_and_not() {
    for seed in 1..=40 {
        let seen = Deposits::of(&short(seed));
        let has = |operation: u8, put: Put| {
            let asked = (operation, put);
            assert!(seen.asked.contains(&asked), "seed {seed}: {asked:?}");
        };
        for number in DEPOSITS {
            for operation in [2, 3, 4] {
                has(operation, (number, true, false, 17));
            }
            has(4, (number, true, true, 0));
            has(4, (number, false, true, 0));
            has(4, (number, false, false, 0));
            for origin in [1, 7, 8] {
                let put = (origin, (number, true, false, 17));
                assert!(seen.origins.contains(&put), "seed {seed}: {put:?}");
            }
        }
        for operation in [2, 3] {
            for (number, answer) in [(9, 7), (9, 11), (10, 7)] {
                has(operation, (number, true, true, answer));
                has(operation, (number, true, false, answer));
            }
        }
        for kind in [(7, 5, 0), (7, 4, 255), (8, 5, 0), (8, 4, 16)] {
            assert!(seen.kinds.contains(&kind), "seed {seed}: {kind:?}");
        }
    }
}

/// In every manner and from every origin.
#[test]
fn forty_streams_put_in_everything() {
    let streams: Vec<Deposits> = (1..=40).map(|seed| Deposits::of(&short(seed))).collect();
    let long = [Deposits::of(&long(2))];
    for seen in [&streams[..], &long] {
        for number in DEPOSITS {
            for (clean, kept) in [(true, true), (false, true), (false, false)] {
                let put = (number, clean, kept, 0);
                for operation in [2, 3, 4, 13] {
                    let asked = (operation, put);
                    assert!(seen.iter().any(|s| s.asked.contains(&asked)), "{asked:?}");
                }
                for origin in [1, 7, 8] {
                    let asked = (origin, put);
                    assert!(seen.iter().any(|s| s.origins.contains(&asked)), "{asked:?}");
                }
            }
        }
        for kind in [(7, 6, 255), (8, 6, 16)] {
            assert!(seen.iter().any(|s| s.kinds.contains(&kind)), "{kind:?}");
        }
    }
}

/// How often a clean editor asks with another value than it keeps.
fn other_values(seed: u64, requests: usize) -> usize {
    let stream = stream(&Plan { seed, requests });
    let mut drill = Drill::start();
    let asked = operations(&stream).0.into_iter().filter_map(|operation| {
        let written = drill.perform(&operation).unwrap();
        matches!(operation.number, 2..=4 | 13).then_some(written)
    });
    asked
        .map(|written| written.chunks(16).filter(|line| line[0] == 17).count())
        .sum()
}

/// Not only by script: where walks are longer, there are more.
#[test]
fn walks_have_clean_editors_that_ask_with_another_value() {
    for seed in 1..=3 {
        let (few, many) = (other_values(seed, 2_000), other_values(seed, 17_000));
        assert!(few >= 200, "seed {seed}: {few}");
        assert!(many >= few + 50, "seed {seed}: {few}, {many}");
    }
}

/// Where a reader stood that left.
#[derive(Clone, Copy, Debug, PartialEq, Eq, PartialOrd, Ord)]
enum Gap {
    /// At the beginning or in the middle, with two or more behind it, whose order
    /// shows whether they moved up.
    Beginning,
    Middle,
    /// With one behind it, with none, and alone.
    OneBehind,
    End,
    Only,
    /// Before an equal one, where the list shows which of the two it was.
    FirstEqual,
}

const GAPS: [Gap; 6] = [
    Gap::Beginning,
    Gap::Middle,
    Gap::OneBehind,
    Gap::End,
    Gap::Only,
    Gap::FirstEqual,
];

/// All that holds of the place of a reader that leaves.
fn gaps(listed: &[SharedState], place: usize) -> Vec<Gap> {
    let without = |place: usize| {
        let mut left = listed.to_vec();
        left.swap_remove(place);
        left
    };
    let mut moved_up = listed.to_vec();
    moved_up.remove(place);
    let shows = moved_up != without(place);
    let mut gaps = Vec::new();
    gaps.extend(match (place, listed.len() - place - 1) {
        (0, 0) => Some(Gap::Only),
        (_, 0) => Some(Gap::End),
        (_, 1) => Some(Gap::OneBehind),
        (0, _) => Some(Gap::Beginning).filter(|_| shows),
        _ => Some(Gap::Middle).filter(|_| shows),
    });
    let places = place + 1..listed.len();
    let mut equal = places.filter(|&other| listed[other] == listed[place]);
    if equal.clone().count() > 0 && equal.all(|other| without(other) != without(place)) {
        gaps.push(Gap::FirstEqual);
    }
    gaps
}

/// What a stream has of readers that leave, where a look comes next: the
/// operation, the step, and the gap. In a run the last request counts.
#[derive(Default)]
struct Removals {
    looked: BTreeSet<(u8, u8, Gap)>,
    /// The same where the look is followed by an image.
    imaged: BTreeSet<(u8, u8, Gap)>,
    /// The step and the gap where the list was full.
    full: BTreeSet<(u8, Gap)>,
}

impl Removals {
    fn of(stream: &[u8]) -> Removals {
        let mut seen = Removals::default();
        let mut drill = Drill::start();
        let operations = operations(stream).0;
        for (place, operation) in operations.iter().enumerate() {
            let before = drill.page().clone();
            drill.perform(operation);
            let next = &operations[place + 1..];
            if next.first().is_some_and(|next| next.number == 6) {
                let image = next.get(1).is_some_and(|next| next.number == 9);
                seen.add(before, operation, image);
            }
        }
        seen
    }

    fn add(&mut self, mut page: Page, operation: &Operation, image: bool) {
        let Some((first, last)) = last_request(operation) else {
            return;
        };
        if run(&mut page, first, &mut vec![0; first.len()]).is_err() {
            return;
        }
        let Some(reader) = read_request(last).ok().and_then(|last| leaver(&last)) else {
            return;
        };
        if answer_line(&mut page.clone(), last).is_err() {
            return;
        }
        let listed = page.shared_state.listed();
        let place = listed.iter().position(|&listed| listed == reader).unwrap();
        for gap in gaps(listed, place) {
            for operation in manners(operation.number) {
                let seen = (operation, last[0], gap);
                self.looked.insert(seen);
                if image {
                    self.imaged.insert(seen);
                }
            }
            if listed.len() == CAPACITY {
                self.full.insert((last[0], gap));
            }
        }
    }
}

/// The last request of an operation that asks, and those before it. Not of a run
/// that is refused as a whole for its length or its room.
fn last_request(operation: &Operation) -> Option<(&[u8], &[u8])> {
    let payload = &operation.payload;
    let length = payload.len();
    let asks = match operation.number {
        2 | 3 | 13 => length == 16,
        4 => length > 0 && length.is_multiple_of(16) && operation.a >= length as u64,
        _ => false,
    };
    asks.then(|| payload.split_at(length - 16))
}

#[test]
fn every_stream_shows_who_takes_the_place_of_a_reader_that_leaves() {
    for seed in 1..=40 {
        let seen = Removals::of(&short(seed));
        for number in REMOVALS {
            for gap in GAPS {
                for operation in [2, 3] {
                    let left = (operation, number, gap);
                    assert!(seen.looked.contains(&left), "seed {seed}: {left:?}");
                }
            }
            let left = (4, number, Gap::Middle);
            assert!(seen.looked.contains(&left), "seed {seed}: {left:?}");
            for gap in [Gap::Middle, Gap::FirstEqual, Gap::End] {
                let imaged = [2, 3].map(|operation| (operation, number, gap));
                let imaged = imaged.iter().any(|left| seen.imaged.contains(left));
                assert!(imaged, "seed {seed}: {number} {gap:?}");
            }
        }
    }
}

/// Each step from the middle, and some from elsewhere.
#[test]
fn a_long_stream_has_readers_that_leave_a_full_list() {
    for seed in 1..=3 {
        let seen = Removals::of(&long(seed)).full;
        for left in REMOVALS.map(|number| (number, Gap::Middle)) {
            assert!(seen.contains(&left), "seed {seed}: {left:?}");
        }
        for left in [(4, Gap::Beginning), (20, Gap::End), (21, Gap::OneBehind)] {
            assert!(seen.contains(&left), "seed {seed}: {left:?}");
        }
    }
}

/// What a stream has of pieces.
#[derive(Default)]
struct Pieces {
    /// The bytes that were carried to each accepted piece, and those that it had.
    lengths: BTreeSet<(usize, usize)>,
    /// The room beyond what an accepted piece needs, and what is missing where 14
    /// refuses; whether that is all of it, too.
    spare: BTreeSet<usize>,
    missing: BTreeSet<(usize, bool)>,
    /// All grounds that each refused piece had, and where a look came next.
    grounds: BTreeSet<Vec<u8>>,
    looked: BTreeSet<Vec<u8>>,
    /// The lengths of pieces that 13 refuses.
    too_long: BTreeSet<usize>,
    /// The numbers that were given at the end, and whether the page was sound.
    finished: BTreeSet<(u8, bool)>,
    /// The carries that were set and then finished and taken: their length, and the
    /// one place that is not zero, if just one is not.
    set: BTreeSet<(usize, Option<usize>)>,
    payloads: BTreeSet<usize>,
    /// The operations between two pieces while something was carried.
    between: BTreeSet<u8>,
    /// The most requests in pieces with no other page or carry in between.
    most: usize,
    /// The steps that were accepted in pieces, and the numbers that requests had.
    accepted: BTreeSet<u8>,
    numbers: BTreeSet<u8>,
}

impl Pieces {
    fn of(streams: impl Iterator<Item = Vec<u8>>) -> Pieces {
        let mut seen = Pieces::default();
        for stream in streams {
            seen.follow(&operations(&stream).0);
            for walk in walks(&stream) {
                seen.asked(&walk.asked);
            }
        }
        seen
    }

    fn follow(&mut self, operations: &[Operation]) {
        let mut drill = Drill::start();
        let mut requests = 0;
        for (place, operation) in operations.iter().enumerate() {
            let (page, carry) = (drill.page().clone(), *drill.carry());
            let written = drill.perform(operation).unwrap();
            let number = written[0];
            let next = operations[place + 1..].iter().take(2);
            let next: Vec<u8> = next.map(|next| next.number).collect();
            match operation.number {
                1 | 7 | 8 => requests = 0,
                10 if number == 0 => {
                    requests += self.taken(&carry, operation);
                    self.most = self.most.max(requests);
                }
                10 => self.refused(&page, &carry, operation, next.first() == Some(&6)),
                11 => _ = self.finished.insert((number, sound(&page))),
                12 => {
                    requests = 0;
                    self.payloads.insert(operation.payload.len());
                    if next == [11, 10] {
                        self.carry_set(drill.carry());
                    }
                }
                _ => (),
            }
            let other = !(10..=12).contains(&operation.number);
            if other && carry.len > 0 && next.first() == Some(&10) {
                self.between.insert(operation.number);
            }
        }
    }

    /// Tells how many requests were whole.
    fn taken(&mut self, carry: &Carry, operation: &Operation) -> usize {
        let length = operation.payload.len();
        let whole = (carry.len + length) / 16;
        self.lengths.insert((carry.len, length));
        self.spare.insert(operation.a as usize - whole * 16);
        whole
    }

    fn refused(&mut self, page: &Page, carry: &Carry, operation: &Operation, looked: bool) {
        let length = operation.payload.len();
        let needed = (carry.len + length) / 16 * 16;
        let missing = needed.saturating_sub(operation.a as usize);
        let bad = carry.len > 15 || carry.bytes[carry.len..].iter().any(|&byte| byte > 0);
        let grounds: Vec<u8> = [
            (1, !sound(page)),
            (12, bad),
            (13, length > 4_096),
            (14, missing > 0),
        ]
        .into_iter()
        .filter_map(|(number, holds)| holds.then_some(number))
        .collect();
        if grounds[0] == 13 {
            self.too_long.insert(length);
        }
        if grounds == [14] {
            self.missing.insert((missing, missing == needed));
        }
        if looked {
            self.looked.insert(grounds.clone());
        }
        self.grounds.insert(grounds);
    }

    fn carry_set(&mut self, carry: &Carry) {
        let mut places = (0..15).filter(|&place| carry.bytes[place] > 0);
        let first = places.next();
        if places.next().is_none() {
            self.set.insert((carry.len, first));
        }
    }

    fn asked(&mut self, walk: &[Asked]) {
        for asked in walk.iter().filter(|asked| asked.operation == 10) {
            self.numbers.insert(answer_number(&asked.answer));
            if asked.answer.is_ok() {
                self.accepted.insert(asked.bytes[0]);
            }
        }
    }
}

/// Every ground of a refused piece, and every two.
const GROUNDS: [&[u8]; 10] = [
    &[1],
    &[12],
    &[13],
    &[14],
    &[1, 12],
    &[1, 13],
    &[1, 14],
    &[12, 13],
    &[12, 14],
    &[13, 14],
];

#[test]
fn every_stream_takes_pieces_of_every_kind() {
    for seed in 1..=40 {
        let seen = Pieces::of([short(seed)].into_iter());
        let lengths: BTreeSet<usize> = seen.lengths.iter().map(|taken| taken.1).collect();
        for length in [0, 1, 2, 15, 16, 17, 33, 4_095, 4_096] {
            assert!(lengths.contains(&length), "seed {seed}: {length}");
        }
        assert!(seen.lengths.contains(&(15, 4_096)), "seed {seed}");
        for grounds in GROUNDS {
            assert!(seen.looked.contains(grounds), "seed {seed}: {grounds:?}");
        }
        for length in [4_097, 4_112] {
            assert!(seen.too_long.contains(&length), "seed {seed}: {length}");
        }
        for more in [0, 1, 15, 16, 40] {
            assert!(seen.spare.contains(&more), "seed {seed}: {more}");
        }
        for less in [(1, false), (16, false), (16, true), (32, true)] {
            assert!(seen.missing.contains(&less), "seed {seed}: {less:?}");
        }
        for sound in [false, true] {
            for number in [0, 12] {
                let finished = (number, sound);
                assert!(
                    seen.finished.contains(&finished),
                    "seed {seed}: {finished:?}"
                );
            }
        }
        for number in (1..=9).chain([13]) {
            assert!(seen.between.contains(&number), "seed {seed}: {number}");
        }
        assert!(seen.most > 2_048, "seed {seed}: {}", seen.most);
        assert!(
            seen.accepted.len() >= 14,
            "seed {seed}: {:?}",
            seen.accepted
        );
        let numbers = set([0, 3, 5, 6, 7, 8, 9, 17]);
        let missing: Vec<_> = numbers.difference(&seen.numbers).collect();
        assert!(missing.is_empty(), "seed {seed}: {missing:?}");
        assert!(!seen.numbers.is_disjoint(&set([10, 11])), "seed {seed}");
    }
}

#[test]
fn every_stream_sets_carries_of_every_kind() {
    for seed in 1..=40 {
        let seen = Pieces::of([short(seed)].into_iter());
        let has = |length: usize, place: Option<usize>| {
            let set = (length, place);
            assert!(seen.set.contains(&set), "seed {seed}: {set:?}");
        };
        for length in (0..=17).chain([255]) {
            has(length, None);
            has(length, Some(14));
        }
        for place in 0..15 {
            has(0, Some(place));
            has(place, Some(place));
            has(place + 1, Some(place));
        }
        for length in (0..=17).chain([40]) {
            assert!(seen.payloads.contains(&length), "seed {seed}: {length}");
        }
    }
}

#[test]
fn forty_streams_and_a_long_one_have_everything_in_pieces() {
    for seen in [
        Pieces::of((1..=40).map(short)),
        Pieces::of([long(2)].into_iter()),
    ] {
        assert_eq!(seen.accepted, set(1..=30));
        let numbers = set((2..=11).chain([0, 17]));
        assert_eq!(seen.numbers, numbers);
        let carried: BTreeSet<usize> = seen.lengths.iter().map(|taken| taken.0).collect();
        assert_eq!(carried, (0..=15).collect());
    }
    let seen = Pieces::of([long(3)].into_iter());
    for carried in 0..=15 {
        for length in [0, 1, 2, 15, 16, 17, 31, 32, 33] {
            let taken = (carried, length);
            assert!(seen.lengths.contains(&taken), "{taken:?}");
        }
    }
    for length in (0..=17).chain([255]) {
        for place in 0..15 {
            assert!(seen.set.contains(&(length, Some(place))));
        }
    }
    assert_eq!(seen.grounds.len(), 15);
}

/// What a stream has of the table: places of it, by the flag's number and the column,
/// that operation 13 met with a good request on a sound page, where a look comes next.
#[derive(Default)]
struct Entries {
    /// Those that are flags, where the request was accepted.
    taken: BTreeSet<(u8, usize)>,
    /// Those that are never, with the answer.
    never: BTreeSet<(u8, usize, u8)>,
    /// The numbers that were given on sound pages and on others.
    numbers: BTreeSet<(bool, u8)>,
    /// The steps that were asked where the page was not sound, and the lowest rules
    /// that it broke.
    unsound: BTreeSet<u8>,
    rules: BTreeSet<u8>,
}

impl Entries {
    fn of(stream: &[u8]) -> Entries {
        let mut seen = Entries::default();
        let mut drill = Drill::start();
        let operations = operations(stream).0;
        for (place, operation) in operations.iter().enumerate() {
            let page = drill.page().clone();
            let written = drill.perform(operation).unwrap();
            if operation.number == 13 {
                let next = operations.get(place + 1);
                let looked = next.is_some_and(|next| next.number == 6);
                seen.add(&page, &operation.payload, written[0], looked);
            }
        }
        seen
    }

    fn add(&mut self, page: &Page, payload: &[u8], number: u8, looked: bool) {
        self.numbers.insert((sound(page), number));
        let Ok(request) = read_request(payload) else {
            return;
        };
        if let Some(rule) = lowest_broken_rule(page) {
            self.unsound.insert(request.step);
            self.rules.insert(rule);
            return;
        }
        let flag = page.flag.number();
        let column = column(request.step, request.clean).unwrap();
        if entry(page.flag, request.step, request.clean) == NEVER {
            if looked {
                self.never.insert((flag, column, number));
            }
        } else if looked && number == 0 {
            self.taken.insert((flag, column));
        }
    }
}

/// Each never has one answer, which is 5 or 6. Among all streams a good request meets
/// every broken rule.
#[test]
fn every_stream_goes_through_the_table() {
    let mut rules = BTreeSet::new();
    for stream in (1..=40).map(short).chain([long(2)]) {
        let seen = Entries::of(&stream);
        assert_eq!((seen.taken.len(), seen.never.len()), (93, 248));
        let numbers = seen.never.iter().map(|(_, _, number)| *number);
        assert_eq!(set(numbers), set([5, 6]));
        assert_eq!(seen.unsound, set(1..=30));
        for number in [12, 2, 3, 4] {
            for sound in [false, true] {
                assert!(seen.numbers.contains(&(sound, number)), "{sound} {number}");
            }
        }
        for number in [0, 5, 6, 7, 8, 9, 10, 11, 17] {
            assert!(seen.numbers.contains(&(true, number)), "{number}");
        }
        assert!(seen.numbers.contains(&(false, 1)));
        rules.extend(seen.rules);
    }
    assert_eq!(rules, set(1..=8));
}

/// Half of the steps by value.
#[test]
fn steps_by_value_go_by_either_engine() {
    for seed in 1..=5 {
        let mut stream = Stream::start(seed);
        for _ in 0..2_000 {
            stream.ask(&[2; 16]);
        }
        let bytes = stream.bytes();
        let numbers: Vec<u8> = bytes.chunks(32).map(|operation| operation[0]).collect();
        let often = |number| numbers.iter().filter(|&&other| other == number).count();
        assert_eq!(often(3), 1_000);
        assert_eq!(often(2) + often(13), 1_000);
        assert!((450..=550).contains(&often(13)), "{}", often(13));
    }
}

/// The lengths of runs, of payloads and of buffers that are at a limit.
#[test]
fn a_long_stream_has_what_is_expensive() {
    let operations = operations(&long(2)).0;
    let has = |number: u8, length: usize| {
        operations
            .iter()
            .any(|operation| operation.number == number && operation.payload.len() == length)
    };
    for length in [32_752, 32_767, 32_768, 32_769, 32_784, 65_535, 65_536] {
        assert!(has(4, length), "{length}");
    }
    assert!(has(1, 65_536));
    let around_short = [1_072, 1_087, 1_088, 1_089, 1_104, 2_176, 2_624];
    let around_long = [4_144, 4_159, 4_160, 4_161, 4_176, 8_320, 65_536];
    for length in [0, 1, 64]
        .into_iter()
        .chain(around_short)
        .chain(around_long)
    {
        assert!(has(8, length), "{length}");
    }
    for length in [
        0, 1, 4_095, 4_096, 4_097, 4_112, 8_192, 32_768, 65_535, 65_536,
    ] {
        assert!(has(10, length), "{length}");
    }
    for number in [4, 5, 9, 10] {
        let large: BTreeSet<u64> = (1..=15)
            .flat_map(|seed| common::operations(&short(seed)).0)
            .filter(|operation| operation.number == number)
            .map(|operation| operation.a)
            .collect();
        for a in [65_535, 65_536, 65_537, 1 << 32, u64::MAX] {
            assert!(large.contains(&a), "{number} {a}");
        }
    }
}

/// The payloads that were read as images, and all images that were written.
fn payloads_and_images(stream: &[u8]) -> (Vec<Vec<u8>>, BTreeSet<Vec<u8>>) {
    let mut drill = Drill::start();
    let mut payloads = Vec::new();
    let mut images = BTreeSet::new();
    for operation in operations(stream).0 {
        let written = drill.perform(&operation).unwrap();
        match operation.number {
            8 => payloads.push(operation.payload),
            9 if written[0] == 0 => _ = images.insert(written[16..16 + 4_160].to_vec()),
            _ => (),
        }
    }
    (payloads, images)
}

/// The place at which alone the image's beginning is another than the payload, if
/// there is just one.
fn one_difference(image: &[u8], payload: &[u8]) -> Option<usize> {
    let mut places = (0..payload.len()).filter(|&place| image[place] != payload[place]);
    let place = places.next()?;
    places.next().is_none().then_some(place)
}

/// The places at which alone a payload is another than some image, or than a short
/// one; with the payload's length.
fn damaged_places(stream: &[u8]) -> BTreeSet<(usize, usize)> {
    let (payloads, images) = payloads_and_images(stream);
    let mut places = BTreeSet::new();
    for payload in payloads
        .iter()
        .filter(|p| [1_088, 4_160].contains(&p.len()))
    {
        let differences = images.iter().map(|image| one_difference(image, payload));
        places.extend(differences.flatten().map(|place| (payload.len(), place)));
    }
    places
}

/// The entries are the first one, the first one past the length, and the last. Each
/// place is damaged in a long image or in a short one.
#[test]
fn images_are_damaged_at_every_place_of_the_head_and_of_entries() {
    let places = damaged_places(&long(4));
    let lengths: BTreeSet<usize> = places.iter().map(|&(length, _)| length).collect();
    assert_eq!(lengths, [1_088, 4_160].into());
    let places: BTreeSet<usize> = places.iter().map(|&(_, place)| place).collect();
    for place in (0..64).chain(64..80).chain(160..176) {
        assert!(places.contains(&place), "{place}");
    }
    let streams = (1..=40).map(short);
    let places: BTreeSet<_> = streams.flat_map(|stream| damaged_places(&stream)).collect();
    for place in 20..32 {
        let damaged = [1_088, 4_160].map(|length| (length, place));
        assert!(damaged.iter().any(|damaged| places.contains(damaged)));
    }
    for (length, last) in [(1_088, 1_080..1_088), (4_160, 4_152..4_160)] {
        for damaged in last.map(|place| (length, place)) {
            assert!(places.contains(&damaged), "{damaged:?}");
        }
    }
}

#[test]
fn every_kind_of_end_occurs_and_nothing_after_it_is_answered() {
    let mut ends = Vec::new();
    for seed in 1..=40 {
        let stream = short(seed);
        let (operations, rest) = operations(&stream);
        let mut drill = Drill::start();
        let mut expected: Vec<u8> = operations
            .iter()
            .flat_map(|operation| drill.perform(operation).unwrap())
            .collect();
        if end_of(seed) == End::Clean {
            assert!(rest.is_empty());
        } else {
            expected.extend([255, 0, 0, 0, 0, 0, 0, 0, 0, 0, 0, 0, 0, 0, 0, 0]);
        }
        assert_eq!(answers(&stream), expected, "seed {seed}");
        fits(end_of(seed), rest);
        ends.push(end_of(seed));
    }
    assert!(ENDS.iter().all(|end| ends.contains(end)));
}

/// Whether these last bytes are such an end.
fn fits(end: End, rest: &[u8]) {
    let length = rest.get(4..8).map(|bytes| bytes.to_vec());
    match end {
        End::Clean => assert!(rest.is_empty()),
        End::CutHead => assert!((1..16).contains(&rest.len())),
        End::CutPayload => assert!((16..32).contains(&rest.len()) && rest[4] == 16),
        End::HeadByte(place) => assert_ne!(rest[place], 0),
        End::LongPayload => assert_eq!(length, Some(vec![1, 0, 1, 0])),
        End::LongestPayload => assert_eq!(length, Some(vec![255; 4])),
        End::Unlisted(number) => assert_eq!(rest[0], number),
    }
    if !matches!(end, End::Clean | End::CutHead | End::CutPayload) {
        let last = &rest[rest.len() - 32..];
        assert_eq!(
            [last[0], last[16]],
            [1, 6],
            "something that is not answered"
        );
    }
}

/// In a long stream the payload that is one byte too long is all there.
#[test]
fn a_long_stream_can_end_with_a_whole_payload() {
    let stream = long(6);
    assert_eq!(end_of(6), End::LongPayload);
    let rest = operations(&stream).1;
    assert_eq!(rest.len(), 16 + 65_537 + 32);
}

type Rule = fn(&Page) -> bool;

const RULES: [Rule; 8] = [
    storage_some_invariant,
    exc_state_invariants,
    writeback_state_invariants,
    loading_state_invariants,
    ref_count_invariant,
    flag_invariant,
    shared_storage_invariant,
    limits,
];

#[test]
fn the_pages_break_the_rules_that_they_say() {
    let mut alone = BTreeSet::new();
    let mut several = BTreeSet::new();
    for (rule, image) in main_pages().into_iter().chain(more_pages()) {
        let page = read_raw(&image.0).unwrap();
        assert_eq!(lowest_broken_rule(&page).unwrap_or(0), rule, "{page:?}");
        let broken = RULES.iter().filter(|holds| !holds(&page)).count();
        if broken == 1 {
            alone.insert(rule);
        } else if broken > 1 {
            several.insert(rule);
        }
    }
    assert_eq!(alone, set(1..=8));
    assert_eq!(several, set(1..=7));
    let short: BTreeSet<u8> = main_pages().iter().map(|(rule, _)| *rule).collect();
    assert_eq!(short, set(0..=8));
    for payload in without_meaning().into_iter().chain(more_without_meaning()) {
        assert_eq!(read_raw(&payload), None);
    }
}

fn asked(seed: u64) -> impl Iterator<Item = Asked> {
    walks(&long(seed)).into_iter().flat_map(|walk| walk.asked)
}

#[test]
fn every_page_has_its_raw_bytes() {
    for Asked { after, .. } in (1..=3).flat_map(asked) {
        assert_eq!(read_raw(&write_raw(&after)).as_ref(), Some(&*after));
    }
}

// What holds all along the walks.

#[test]
fn a_refused_request_changes_nothing_and_soundness_stays() {
    for asked in asked(5) {
        if asked.answer.is_err() {
            assert_eq!(asked.before, asked.after);
        } else {
            assert_eq!(lowest_broken_rule(&asked.after), None);
        }
    }
}

#[test]
fn by_value_and_lent_agree() {
    for asked in asked(7) {
        if let Ok(request) = read_request(&asked.bytes) {
            let outcome = step((*asked.before).clone(), &request);
            assert_eq!(outcome.answer, asked.answer);
            assert_eq!(outcome.page, *asked.after);
        }
    }
}

#[test]
fn the_census_adds_up() {
    for Asked { after, .. } in asked(8) {
        let census = census(&after);
        let readers = census.as_flattened().iter().map(|n| usize::from(n.0));
        let listed = after.shared_state.listed().len();
        let sound = lowest_broken_rule(&after).is_none();
        assert_eq!(readers.sum::<usize>(), if sound { listed } else { 0 });
    }
}

/// The past of every sound page, fresh, raw or read, leads to what is there. From
/// each origin editors leave, with a bucket and without, and put the page in where
/// it was taken as clean and where it was not.
#[test]
fn the_past_leads_to_what_is_there() {
    let mut left = BTreeSet::new();
    let mut put_in = BTreeSet::new();
    let walks = (9..=12).flat_map(|seed| walks(&long(seed)));
    for walk in walks.filter(|walk| sound(&walk.start)) {
        let mut history = History::before(&walk.start);
        for asked in walk.asked {
            if let (Ok(request), Ok(withdrawn)) = (read_request(&asked.bytes), asked.answer) {
                let departures = history.departures;
                if DEPOSITS.contains(&request.step) {
                    put_in.insert((walk.origin, request.step, history.out_clean()));
                }
                history.accepted(&request, withdrawn);
                let departed = history.departures != departures;
                left.insert((walk.origin, request.step, departed));
            }
            history.fits(&asked.after);
        }
    }
    for origin in [1, 7, 8] {
        for number in [17, 25, 29, 30] {
            for departed in [false, true] {
                let seen = (origin, number, departed);
                assert!(left.contains(&seen), "{seen:?}");
            }
        }
        for number in DEPOSITS {
            for clean in [false, true] {
                let seen = (origin, number, clean);
                assert!(put_in.contains(&seen), "{seen:?}");
            }
        }
    }
}
