//! Cases A to O, line by line, and the exact lists.

mod common;

use common::history::History;
use common::lists::{rows, Row};
use second::engine::step_by_table;
use second::image::{read_image, write_image};
use second::kinds::{Answer, BucketId, ExcState, Flag, Refusal, Request, SharedState, StoredType};
use second::record::{fresh, sound, Page};
use second::run::run;
use second::steps::{step, step_in_place};
use second::wire::write_request;

/// One request, and what is seen after it.
struct Line {
    request: Request,
    answer: Answer,
    flag: Flag,
    counts: [u8; 4],
    storage: Option<StoredType>,
}

fn line(
    request: Request,
    answer: Answer,
    flag: Flag,
    counts: [u8; 4],
    storage: Option<StoredType>,
) -> Line {
    Line {
        request,
        answer,
        flag,
        counts,
        storage,
    }
}

fn plain(step: u8) -> Request {
    Request::new(step, 0, 0, 0)
}

fn at(step: u8, bucket: u8) -> Request {
    Request::new(step, bucket, 0, 0)
}

fn with(step: u8, value: StoredType) -> Request {
    Request::new(step, 0, 0, value)
}

fn choosing(step: u8, clean: u8) -> Request {
    Request::new(step, 0, clean, 0)
}

fn play(mut page: Page, lines: &[Line]) -> Page {
    for (number, line) in lines.iter().enumerate() {
        let before = page.clone();
        let outcome = step(page, &line.request);
        let by_table = step_by_table(before.clone(), &line.request);
        assert_eq!(by_table, outcome, "by the table at {number}");
        page = outcome.page;
        assert_eq!(outcome.answer, line.answer, "answer at {number}");
        assert_eq!(page.flag, line.flag, "flag at {number}");
        assert_eq!(page.ref_counts.map(|count| count.0), line.counts);
        assert_eq!(page.storage, line.storage, "storage at {number}");
        assert!(sound(&page), "sound at {number}");
        if line.answer.is_err() {
            assert_eq!(page, before, "changed at {number}");
        }
    }
    page
}

fn case_b() -> Page {
    use Flag::{Available, Loading, LoadingExcLock};
    let page = play(
        fresh(0),
        &[
            line(plain(11), Ok(Some(0)), LoadingExcLock, [0, 0, 0, 0], None),
            line(at(13, 2), Ok(None), LoadingExcLock, [0, 0, 1, 0], None),
            line(plain(14), Ok(None), Loading, [0, 0, 1, 0], None),
            line(at(19, 1), Ok(None), Loading, [0, 1, 1, 0], None),
            line(at(23, 1), Ok(None), Loading, [0, 1, 1, 0], None),
            line(
                at(24, 1),
                Err(Refusal::WrongFlag),
                Loading,
                [0, 1, 1, 0],
                None,
            ),
            line(with(17, 5), Ok(None), Available, [0, 1, 0, 0], Some(5)),
            line(at(24, 1), Ok(None), Available, [0, 1, 0, 0], Some(5)),
        ],
    );
    let reader = SharedState::Obtained {
        bucket: BucketId(1),
        value: 5,
    };
    assert_eq!(page.shared_state.listed(), [reader]);
    page
}

fn case_c() -> Page {
    use Flag::{
        ExcLockDirty, PendingExcLock, Writeback, WritebackAndClaimed, WritebackAndPendingExcLock,
    };
    let counts = [0, 1, 0, 0];
    let refused = Err(Refusal::WrongFlag);
    let claim = Request::new(4, 1, 0, 5);
    play(
        case_b(),
        &[
            line(plain(1), Ok(None), Writeback, counts, Some(5)),
            line(claim, Ok(None), WritebackAndClaimed, counts, Some(5)),
            line(
                plain(5),
                Ok(None),
                WritebackAndPendingExcLock,
                counts,
                Some(5),
            ),
            line(
                choosing(6, 1),
                refused,
                WritebackAndPendingExcLock,
                counts,
                Some(5),
            ),
            line(plain(2), Ok(None), PendingExcLock, counts, Some(5)),
            line(choosing(6, 0), Ok(None), ExcLockDirty, counts, Some(5)),
        ],
    )
}

fn case_d() -> Page {
    use Flag::ExcLockDirty as Dirty;
    let own = [0, 1, 0, 0];
    let two = [0, 1, 0, 1];
    let visited = Err(Refusal::WrongVisited);
    let page = play(
        case_c(),
        &[
            line(plain(7), Ok(None), Dirty, own, Some(5)),
            line(plain(8), visited, Dirty, own, Some(5)),
            line(plain(7), Ok(None), Dirty, own, Some(5)),
            line(at(19, 3), Ok(None), Dirty, two, Some(5)),
            line(at(23, 3), Err(Refusal::WrongFlag), Dirty, two, Some(5)),
            line(plain(7), Ok(None), Dirty, two, Some(5)),
            line(plain(7), Err(Refusal::OtherCount), Dirty, two, Some(5)),
            line(at(20, 3), Ok(None), Dirty, own, Some(5)),
            line(plain(7), Ok(None), Dirty, own, Some(5)),
            line(plain(7), visited, Dirty, own, Some(5)),
            line(plain(8), Ok(Some(5)), Dirty, own, None),
        ],
    );
    assert!(page.shared_state.listed().is_empty());
    page
}

#[test]
fn a() {
    use Flag::{Available, Loading, LoadingExcLock};
    let none = [0, 0, 0, 0];
    play(
        fresh(0),
        &[
            line(plain(12), Ok(Some(0)), Loading, none, None),
            line(with(17, 5), Ok(None), Available, none, Some(5)),
        ],
    );
    for (bucket, reader) in [(1, [0, 1, 0, 0]), (0, [1, 0, 0, 0])] {
        play(
            fresh(0),
            &[
                line(plain(12), Ok(Some(0)), Loading, none, None),
                line(at(19, bucket), Ok(None), Loading, reader, None),
                line(with(17, 5), Ok(None), Available, reader, Some(5)),
            ],
        );
    }
    play(
        fresh(0),
        &[
            line(plain(11), Ok(Some(0)), LoadingExcLock, none, None),
            line(plain(15), Ok(None), Loading, none, None),
            line(with(17, 7), Ok(None), Available, none, Some(7)),
        ],
    );
}

#[test]
fn b() {
    case_b();
}

#[test]
fn c() {
    case_c();
}

#[test]
fn d() {
    case_d();
}

#[test]
fn e() {
    let page = play(
        case_d(),
        &[line(
            with(9, 6),
            Ok(None),
            Flag::Available,
            [0, 1, 0, 0],
            Some(6),
        )],
    );
    let reader = SharedState::Obtained {
        bucket: BucketId(1),
        value: 6,
    };
    assert_eq!(page.shared_state.listed(), [reader]);
    assert_eq!(page.exc_state, None);
}

/// A request on a fresh record that leaves it as it was.
fn refused(request: Request, refusal: Refusal) {
    let outcome = step(fresh(0), &request);
    assert_eq!(outcome.answer, Err(refusal));
    assert_eq!(outcome.page, fresh(0));
}

#[test]
fn f() {
    refused(at(13, 9), Refusal::BadBucket);
    refused(at(13, 0), Refusal::NoHolder);
    refused(at(31, 4), Refusal::UnknownStep);
    refused(at(1, 1), Refusal::BadField);
}

#[test]
fn g() {
    refused(at(19, 4), Refusal::BadBucket);
    play(
        fresh(0),
        &[line(
            at(19, 3),
            Ok(None),
            Flag::Unmapped,
            [0, 0, 0, 1],
            Some(0),
        )],
    );
}

#[test]
fn h() {
    refused(at(24, 0), Refusal::NoHolder);
    refused(plain(2), Refusal::NoHolder);
}

/// So many accepted readers at each bucket, then the answer to one more at 0.
fn fill(readers: [u8; 4]) -> Answer {
    let mut page = fresh(0);
    for (bucket, number) in (0..).zip(readers) {
        for _ in 0..number {
            assert_eq!(step_in_place(&mut page, &at(19, bucket)), Ok(None));
        }
    }
    assert_eq!(page.ref_counts.map(|count| count.0), readers);
    step_in_place(&mut page, &at(19, 0))
}

#[test]
fn i() {
    assert_eq!(fill([127, 0, 0, 0]), Err(Refusal::CountFull));
    assert_eq!(fill([64, 64, 64, 64]), Err(Refusal::ListFull));
    assert_eq!(fill([127, 127, 2, 0]), Err(Refusal::CountFull));
}

#[test]
fn j() {
    let of = |length: usize| run(&mut fresh(0), &vec![0; length], &mut vec![0; length]);
    assert_eq!(of(2_048 * 16), Ok(()));
    assert_eq!(of(2_049 * 16), Err(Refusal::TooMany));
    assert_eq!(of(15), Err(Refusal::NotWhole));
}

/// The departures from each bucket along these lines, from this page on.
fn departures(page: &Page, lines: &[Line]) -> [usize; 4] {
    let mut history = History::before(page);
    for line in lines {
        history.accepted(&line.request, line.answer.unwrap());
    }
    history.departures
}

#[test]
fn k() {
    use Flag::{
        Available, Claimed, ExcLockDirty as Dirty, Loading, LoadingExcLock, PendingExcLock,
        Unmapped,
    };
    let none = [0, 0, 0, 0];
    let visit = || line(plain(7), Ok(None), Dirty, none, Some(5));
    let lines = [
        line(plain(11), Ok(Some(0)), LoadingExcLock, none, None),
        line(at(13, 2), Ok(None), LoadingExcLock, [0, 0, 1, 0], None),
        line(plain(14), Ok(None), Loading, [0, 0, 1, 0], None),
        line(with(17, 5), Ok(None), Available, none, Some(5)),
        line(plain(3), Ok(None), Claimed, none, Some(5)),
        line(plain(5), Ok(None), PendingExcLock, none, Some(5)),
        line(choosing(6, 0), Ok(None), Dirty, none, Some(5)),
        visit(),
        visit(),
        visit(),
        visit(),
        line(plain(8), Ok(Some(5)), Dirty, none, None),
        line(with(30, 9), Ok(None), Unmapped, none, Some(9)),
        line(plain(12), Ok(Some(9)), Loading, none, None),
        line(with(17, 1), Ok(None), Available, none, Some(1)),
    ];
    assert_eq!(play(fresh(0), &lines[..13]), fresh(9));
    play(fresh(0), &lines);
    assert_eq!(departures(&fresh(0), &lines), [0, 0, 1, 0]);

    let reader = [0, 0, 0, 1];
    let page = play(
        play(fresh(0), &lines[..12]),
        &[
            line(at(19, 3), Ok(None), Dirty, reader, None),
            line(with(30, 9), Ok(None), Unmapped, reader, Some(9)),
        ],
    );
    let pending = SharedState::Pending {
        bucket: BucketId(3),
    };
    assert_eq!(page.shared_state.listed(), [pending]);
    assert_eq!(page.exc_state, None);
}

#[test]
fn l() {
    use Flag::{Available, Claimed};
    let none = [0, 0, 0, 0];
    let claim = Request::new(4, 1, 0, 5);
    let lines = [
        line(claim, Ok(None), Claimed, [0, 1, 0, 0], Some(5)),
        line(plain(25), Ok(None), Available, none, Some(5)),
        line(plain(3), Ok(None), Claimed, none, Some(5)),
        line(plain(25), Ok(None), Available, none, Some(5)),
    ];
    let page = play(case_b(), &lines);
    assert!(page.shared_state.listed().is_empty());
    assert_eq!(page.exc_state, None);
    assert_eq!(departures(&case_b(), &lines), [0, 1, 0, 0]);
}

#[test]
fn m() {
    use Flag::{
        Available, Claimed, ExcLockClean, PendingExcLock, Writeback, WritebackAndClaimed,
        WritebackAndPendingExcLock as BothPending,
    };
    let own = [0, 1, 0, 0];
    let two = [0, 1, 0, 1];
    let claim = Request::new(4, 1, 0, 5);
    let lines = [
        line(plain(1), Ok(None), Writeback, own, Some(5)),
        line(claim, Ok(None), WritebackAndClaimed, own, Some(5)),
        line(plain(5), Ok(None), BothPending, own, Some(5)),
        line(plain(27), Ok(None), WritebackAndClaimed, own, Some(5)),
        line(plain(5), Ok(None), BothPending, own, Some(5)),
        line(plain(2), Ok(None), PendingExcLock, own, Some(5)),
        line(plain(27), Ok(None), Claimed, own, Some(5)),
        line(plain(5), Ok(None), PendingExcLock, own, Some(5)),
        line(choosing(6, 1), Ok(None), ExcLockClean, own, Some(5)),
        line(plain(7), Ok(None), ExcLockClean, own, Some(5)),
        line(plain(28), Ok(None), Claimed, own, Some(5)),
        line(at(19, 3), Ok(None), Claimed, two, Some(5)),
        line(plain(26), Ok(None), Available, two, Some(5)),
    ];
    let page = play(case_b(), &lines);
    let pending = SharedState::Pending {
        bucket: BucketId(3),
    };
    let obtained = SharedState::Obtained {
        bucket: BucketId(1),
        value: 5,
    };
    assert_eq!(page.shared_state.listed(), [pending, obtained]);
    assert_eq!(page.exc_state, None);
    assert_eq!(page.writeback_state, None);
    assert_eq!(departures(&case_b(), &lines), [0, 0, 0, 0]);

    // What is given back leaves the page that it was taken from.
    let after = |number: usize| play(case_b(), &lines[..number]);
    assert_eq!(after(4), after(2));
    assert_eq!(after(11), after(7));

    let back = [
        line(plain(26), Ok(None), Writeback, own, Some(5)),
        line(plain(2), Ok(None), Available, own, Some(5)),
    ];
    let page = play(after(4), &back[..1]);
    assert_eq!(page, after(1));
    assert_eq!(page.shared_state.listed(), [obtained]);
    let page = play(page, &back[1..]);
    assert_eq!(page, case_b());
    assert_eq!(page.shared_state.listed(), [obtained]);
    assert_eq!(departures(&after(4), &back), [0, 0, 0, 0]);
}

/// Four visits that meet nobody.
fn visits(flag: Flag, counts: [u8; 4]) -> Vec<Line> {
    let visit = || line(plain(7), Ok(None), flag, counts, Some(5));
    vec![visit(), visit(), visit(), visit()]
}

/// Case N up to the page in the editor's hands, clean or not.
fn case_n(clean: u8, flag: Flag) -> Page {
    use Flag::{Claimed, PendingExcLock};
    let own = [0, 1, 0, 0];
    let claim = Request::new(4, 1, 0, 5);
    let mut lines = vec![
        line(claim, Ok(None), Claimed, own, Some(5)),
        line(plain(5), Ok(None), PendingExcLock, own, Some(5)),
        line(choosing(6, clean), Ok(None), flag, own, Some(5)),
    ];
    lines.extend(visits(flag, own));
    lines.push(line(plain(8), Ok(Some(5)), flag, own, None));
    play(case_b(), &lines)
}

#[test]
fn n() {
    use Flag::{Available, Claimed, ExcLockClean as Clean, ExcLockDirty as Dirty};
    let own = [0, 1, 0, 0];
    let other = Err(Refusal::OtherValue);
    let page = play(
        case_n(1, Clean),
        &[
            line(with(10, 6), other, Clean, own, None),
            line(with(29, 6), other, Clean, own, None),
            line(with(30, 6), other, Clean, own, None),
            line(with(9, 6), other, Clean, own, None),
            line(with(9, 5), Ok(None), Available, own, Some(5)),
        ],
    );
    let reader = SharedState::Obtained {
        bucket: BucketId(1),
        value: 5,
    };
    assert_eq!(page.shared_state.listed(), [reader]);
    assert_eq!(page.exc_state, None);
    assert_eq!(page, case_b());

    let same = [line(with(9, 5), Ok(None), Available, own, Some(5))];
    assert_eq!(play(case_n(0, Dirty), &same), case_b());
    let other = [line(with(10, 6), Ok(None), Claimed, own, Some(6))];
    let page = play(case_n(0, Dirty), &other);
    let claim = ExcState::Claim {
        bucket: Some(BucketId(1)),
        value: 6,
    };
    assert_eq!(page.exc_state, Some(claim));
    assert!(page.shared_state.listed().is_empty());
}

#[test]
fn o() {
    use Flag::{
        Available, Claimed, ExcLockClean as Clean, ExcLockDirty as Dirty, PendingExcLock, Unmapped,
    };
    let none = [0, 0, 0, 0];
    let own = [0, 0, 1, 0];
    let leave = Request::new(22, 1, 0, 5);
    let bucket = Err(Refusal::HolderBucket);
    let other = Err(Refusal::OtherValue);
    let mut lines = vec![
        line(leave, Ok(None), Available, none, Some(5)),
        line(plain(3), Ok(None), Claimed, none, Some(5)),
        line(plain(5), Ok(None), PendingExcLock, none, Some(5)),
        line(choosing(6, 1), Ok(None), Clean, none, Some(5)),
    ];
    lines.extend(visits(Clean, none));
    lines.extend([
        line(plain(8), Ok(Some(5)), Clean, none, None),
        line(with(9, 6), bucket, Clean, none, None),
        line(with(29, 6), other, Clean, none, None),
        line(at(18, 2), Ok(None), Clean, own, None),
        line(with(9, 6), other, Clean, own, None),
        line(with(30, 6), other, Clean, own, None),
        line(with(10, 5), Ok(None), Claimed, own, Some(5)),
        line(plain(5), Ok(None), PendingExcLock, own, Some(5)),
        line(choosing(6, 1), Ok(None), Clean, own, Some(5)),
        line(plain(28), Ok(None), Claimed, own, Some(5)),
        line(plain(5), Ok(None), PendingExcLock, own, Some(5)),
        line(choosing(6, 0), Ok(None), Dirty, own, Some(5)),
    ]);
    lines.extend(visits(Dirty, own));
    lines.extend([
        line(plain(8), Ok(Some(5)), Dirty, own, None),
        line(with(30, 6), Ok(None), Unmapped, none, Some(6)),
    ]);
    assert_eq!(play(case_b(), &lines), fresh(6));
    lines.retain(|line| line.answer.is_ok());
    assert_eq!(departures(&case_b(), &lines), [0, 1, 1, 0]);
}

/// The page after these requests, all of them accepted, from a fresh record of 0:
/// by value, lent, and in one run, which is the same.
fn accepted(requests: &[Request]) -> Page {
    let mut page = fresh(0);
    let mut lent = fresh(0);
    let mut bytes = vec![0; 16 * requests.len()];
    for (request, line) in requests.iter().zip(bytes.chunks_mut(16)) {
        let outcome = step(page, request);
        page = outcome.page;
        assert!(outcome.answer.is_ok(), "{request:?}");
        assert!(sound(&page), "{request:?}");
        assert_eq!(step_in_place(&mut lent, request), outcome.answer);
        assert_eq!(lent, page);
        assert_eq!(write_request(request, line), Ok(()));
    }
    let mut run_page = fresh(0);
    let mut answers = vec![0; bytes.len()];
    assert_eq!(run(&mut run_page, &bytes, &mut answers), Ok(()));
    assert_eq!(run_page, page);
    page
}

#[test]
fn the_exact_lists() {
    assert_eq!(rows().len(), 11);
    for Row { requests, list } in rows() {
        let page = accepted(&requests);
        assert_eq!(page.shared_state.listed(), list);
        let past = page.shared_state.past();
        assert!(past.iter().all(|&entry| entry == SharedState::BLANK));
        let mut image = [170; 4_160];
        assert_eq!(write_image(&page, &mut image), Ok(()));
        let restored = read_image(&image);
        assert_eq!(restored.answer, Ok(None));
        assert_eq!(restored.page.shared_state.listed(), list);
    }
}
