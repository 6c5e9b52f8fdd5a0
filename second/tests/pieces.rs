//! Requests in pieces, beside a model that knows nothing of pieces.

use second::kinds::{answer_number, Flag, Refusal};
use second::ops::random::Random;
use second::ops::request::{records, step as draft, Draft};
use second::ops::situations;
use second::ops::walks::Hand;
use second::pieces::{finish, take, Carry, Taken, CARRY, PIECE};
use second::record::{fresh, sound, Page};
use second::run::run;
use second::steps::step;
use second::wire::{answer_bytes, read_request};

/// What every byte of a buffer is beforehand.
const FILLING: u8 = 0xcc;

/// What all bytes at once give: the lines, the page, and what is left.
#[derive(Clone, Debug, PartialEq, Eq)]
struct Model {
    lines: Vec<u8>,
    page: Page,
    left: Vec<u8>,
}

/// All bytes, chopped by sixteen, and each request answered by itself.
fn model(page: &Page, bytes: &[u8]) -> Model {
    let mut page = page.clone();
    let mut lines = Vec::new();
    let mut left = bytes.to_vec();
    while left.len() >= 16 {
        let rest = left.split_off(16);
        let answer = read_request(&left).and_then(|request| {
            let outcome = step(page.clone(), &request);
            page = outcome.page;
            outcome.answer
        });
        lines.extend(answer_bytes(&answer));
        left = rest;
    }
    Model { lines, page, left }
}

/// A carry of these bytes.
fn carry(bytes: &[u8]) -> Carry {
    let mut carry = Carry {
        bytes: [0; 15],
        len: bytes.len(),
    };
    carry.bytes[..bytes.len()].copy_from_slice(bytes);
    carry
}

/// A carry of this length in which one byte is not zero.
fn carry_with(len: usize, place: usize, byte: u8) -> Carry {
    let mut bytes = [0; 15];
    bytes[place] = byte;
    Carry { bytes, len }
}

/// A piece that is accepted with just the room that it needs, and some bytes after
/// it, which stay. Gives back what it left, and its lines.
fn accepted(page: &Page, carry: &Carry, piece: &[u8]) -> (Taken, Vec<u8>) {
    let needed = (carry.len + piece.len()) / 16 * 16;
    let mut answers = vec![FILLING; needed];
    let taken = take(page.clone(), *carry, piece, &mut answers);
    assert_eq!(taken.answer, Ok(None));
    assert_eq!(taken.lines * 16, needed);
    for more in [1, 16, 50] {
        let mut long = vec![FILLING; needed + more];
        assert_eq!(take(page.clone(), *carry, piece, &mut long), taken);
        assert_eq!(long[..needed], answers);
        assert_eq!(long[needed..], vec![FILLING; more]);
    }
    (taken, answers)
}

/// A piece that is refused and changes nothing. Gives back the number.
fn refused(page: &Page, carry: &Carry, piece: &[u8], room: usize) -> u8 {
    let mut answers = vec![FILLING; room];
    let taken = take(page.clone(), *carry, piece, &mut answers);
    assert!(taken.answer.is_err());
    assert_eq!(&taken.page, page);
    assert_eq!(&taken.carry, carry);
    assert_eq!(taken.lines, 0);
    assert_eq!(answers, vec![FILLING; room]);
    answer_number(&taken.answer)
}

/// A page that is not sound.
fn unsound() -> Page {
    let mut page = fresh(0);
    page.flag = Flag::Claimed;
    page
}

/// The first two requests of case A.
fn case_a() -> Vec<u8> {
    let script = [draft(12), draft(17).of(5)];
    records(&script).concat()
}

/// The page that case A leaves.
fn case_a_page() -> Page {
    let mut page = fresh(5);
    page.flag = Flag::Available;
    page
}

/// Readers that come and go at each bucket, so many bytes of requests.
fn readers(length: usize) -> Vec<u8> {
    let script: Vec<Draft> = (0..4)
        .flat_map(|bucket| [draft(19).at(bucket), draft(20).at(bucket)])
        .collect();
    let bytes = records(&script).concat();
    bytes.into_iter().cycle().take(length).collect()
}

// Any cutting.

/// A sound page, and requests that are drawn for it, with a ragged end at times.
fn drawn(random: &mut Random) -> (Page, Vec<u8>) {
    let page = match random.below(3) {
        0 => fresh(random.value()),
        1 => fresh(0),
        _ => situations::page_of(&random.pick(&situations::all()), random.value()),
    };
    assert!(sound(&page));
    let length = random.below(16);
    let mut bytes = Hand::for_page(&page)
        .draw_run(random, &page, length)
        .concat();
    if random.one_in(2) {
        let ragged = random.below(16);
        bytes.extend((0..ragged).map(|_| random.byte()));
    }
    (page, bytes)
}

/// Where the bytes are cut: at a few places, at many, or after each byte.
fn cutting(random: &mut Random, length: usize) -> Vec<usize> {
    if random.one_in(10) {
        return (0..=length).collect();
    }
    let number = random.below(12);
    let mut places: Vec<usize> = (0..number).map(|_| random.below(length + 1)).collect();
    places.push(length);
    places.sort();
    places
}

/// The bytes in pieces, each of which is compared with all bytes so far.
fn in_pieces(page: &Page, bytes: &[u8], places: &[usize]) -> Model {
    let mut last = page.clone();
    let mut kept = Carry::EMPTY;
    let mut lines = Vec::new();
    let mut from = 0;
    for &to in places {
        let (taken, written) = accepted(&last, &kept, &bytes[from..to]);
        lines.extend(written);
        let expected = model(page, &bytes[..to]);
        assert_eq!(lines, expected.lines);
        assert_eq!(taken.page, expected.page);
        assert_eq!(taken.carry, carry(&expected.left));
        (last, kept, from) = (taken.page, taken.carry, to);
    }
    let ended = finish(&kept);
    assert_eq!(ended.is_ok(), bytes.len().is_multiple_of(16));
    Model {
        lines,
        page: last,
        left: kept.bytes[..kept.len].to_vec(),
    }
}

#[test]
fn it_does_not_matter_where_the_bytes_are_cut() {
    let mut random = Random::new(61);
    for _ in 0..3_000 {
        let (page, bytes) = drawn(&mut random);
        let expected = model(&page, &bytes);
        for _ in 0..2 {
            let places = cutting(&mut random, bytes.len());
            assert_eq!(in_pieces(&page, &bytes, &places), expected, "{places:?}");
        }
    }
}

#[test]
fn every_cutting_in_three() {
    let page = fresh(9);
    let bytes = [case_a(), readers(21)].concat();
    let expected = model(&page, &bytes);
    assert_eq!(expected.left.len(), 5);
    for first in 0..=bytes.len() {
        for second in first..=bytes.len() {
            let places = [first, second, bytes.len()];
            assert_eq!(in_pieces(&page, &bytes, &places), expected);
        }
    }
}

#[test]
fn whole_requests_in_pieces_are_a_run() {
    let mut random = Random::new(62);
    for _ in 0..500 {
        let (page, mut bytes) = drawn(&mut random);
        bytes.truncate(bytes.len() / 16 * 16);
        let places = cutting(&mut random, bytes.len());
        let pieces = in_pieces(&page, &bytes, &places);
        let mut last = page.clone();
        let mut answers = vec![FILLING; bytes.len()];
        assert_eq!(run(&mut last, &bytes, &mut answers), Ok(()));
        assert_eq!((pieces.lines, pieces.page), (answers, last));
    }
}

#[test]
fn a_refused_piece_in_between_changes_nothing() {
    let mut random = Random::new(63);
    for _ in 0..300 {
        let (page, bytes) = drawn(&mut random);
        let (mut last, mut kept) = (page.clone(), Carry::EMPTY);
        let mut lines = Vec::new();
        for piece in bytes.chunks(1 + random.below(40)) {
            let needed = (kept.len + piece.len()) / 16 * 16;
            if needed > 0 {
                assert_eq!(refused(&last, &kept, piece, random.below(needed)), 14);
            }
            assert_eq!(refused(&last, &kept, &[0; PIECE + 1], 2 * PIECE), 13);
            let (taken, written) = accepted(&last, &kept, piece);
            (last, kept) = (taken.page, taken.carry);
            lines.extend(written);
        }
        let left = kept.bytes[..kept.len].to_vec();
        let pieces = Model {
            lines,
            page: last,
            left,
        };
        assert_eq!(pieces, model(&page, &bytes));
    }
}

/// The example at the end of RULES 6.1.
#[test]
fn case_a_in_pieces() {
    let bytes = case_a();
    let mut withdrawn = [0; 16];
    withdrawn[1] = 1;
    let (first, lines) = accepted(&fresh(0), &Carry::EMPTY, &bytes[..20]);
    assert_eq!(lines, withdrawn);
    assert_eq!(first.lines, 1);
    assert_eq!(first.carry, carry(&[17, 0, 0, 0]));
    let (second, lines) = accepted(&first.page, &first.carry, &bytes[20..]);
    assert_eq!(lines, [0; 16]);
    assert_eq!(second.page, case_a_page());
    assert_eq!(second.carry, Carry::EMPTY);
    assert_eq!(finish(&second.carry), Ok(None));
    let (second, lines) = accepted(&first.page, &first.carry, &bytes[20..25]);
    assert_eq!(lines, []);
    assert_eq!(second.lines, 0);
    assert_eq!(second.page, first.page);
    assert_eq!(second.carry, carry(&[17, 0, 0, 0, 0, 0, 0, 0, 5]));
    assert_eq!(finish(&second.carry), Err(Refusal::NotWhole));
    let (third, lines) = accepted(&second.page, &second.carry, &bytes[25..]);
    assert_eq!(lines, [0; 16]);
    assert_eq!(third.page, case_a_page());
    assert_eq!(third.carry, Carry::EMPTY);
}

// What is taken.

#[test]
fn the_limits() {
    assert_eq!(PIECE, 4_096);
    assert_eq!(CARRY, 15);
    assert_eq!(
        Carry::EMPTY,
        Carry {
            bytes: [0; 15],
            len: 0
        }
    );
}

#[test]
fn a_piece_may_be_empty() {
    for len in 0..=15 {
        let kept = carry(&[7; 15][..len]);
        let (taken, lines) = accepted(&fresh(3), &kept, &[]);
        assert_eq!(lines, []);
        assert_eq!((taken.page, taken.carry), (fresh(3), kept));
    }
}

#[test]
fn a_piece_may_leave_no_request_whole() {
    for len in 0..=15 {
        let kept = carry(&[7; 15][..len]);
        let (taken, lines) = accepted(&fresh(3), &kept, &[9; 15][len..]);
        assert_eq!(lines, []);
        let expected = [&[7; 15][..len], &[9; 15][len..]].concat();
        assert_eq!((taken.page, taken.carry), (fresh(3), carry(&expected)));
    }
}

#[test]
fn a_refused_request_is_a_line() {
    let script = [
        draft(31),
        draft(17).of(5),
        draft(12).at(1),
        draft(19).at(4),
        draft(12),
        draft(12),
    ];
    let bytes = records(&script).concat();
    let (taken, lines) = accepted(&fresh(8), &carry(&bytes[..3]), &bytes[3..]);
    let numbers: Vec<u8> = lines.chunks(16).map(|line| line[0]).collect();
    assert_eq!(numbers, [2, 6, 3, 4, 0, 5]);
    assert_eq!(lines[65..80], [1, 0, 0, 0, 0, 0, 0, 8, 0, 0, 0, 0, 0, 0, 0]);
    assert_eq!(taken.page.flag, Flag::Loading);
    assert_eq!(taken.carry, Carry::EMPTY);
}

#[test]
fn the_longest_piece_after_the_longest_carry() {
    let bytes = readers(15 + 4_096);
    let kept = carry(&bytes[..15]);
    let (taken, lines) = accepted(&fresh(0), &kept, &bytes[15..]);
    let expected = model(&fresh(0), &bytes);
    assert_eq!(taken.lines, 256);
    assert_eq!(lines, expected.lines);
    assert_eq!(taken.page, expected.page);
    assert_eq!(taken.carry, carry(&bytes[4_096..]));
    assert_eq!(taken.carry.len, 15);
    assert_eq!(refused(&fresh(0), &kept, &bytes[15..], 4_095), 14);
}

#[test]
fn lengths_of_pieces() {
    for (length, number) in [
        (4_095, 0),
        (4_096, 0),
        (4_097, 13),
        (4_112, 13),
        (8_192, 13),
        (65_536, 13),
    ] {
        for len in [0, 1, 15] {
            let kept = carry(&[0; 15][..len]);
            let piece = vec![0; length];
            if number == 0 {
                let (taken, _) = accepted(&fresh(0), &kept, &piece);
                assert_eq!(taken.carry.len, (len + length) % 16);
            } else {
                assert_eq!(refused(&fresh(0), &kept, &piece, 70_000), number);
            }
        }
    }
}

#[test]
fn there_is_no_limit_to_the_pieces_together() {
    let bytes = readers(3 * 2_048 * 16 + 7);
    let (mut page, mut kept) = (fresh(0), Carry::EMPTY);
    let mut lines = Vec::new();
    for piece in bytes.chunks(4_093) {
        let (taken, written) = accepted(&page, &kept, piece);
        (page, kept) = (taken.page, taken.carry);
        lines.extend(written);
    }
    let expected = model(&fresh(0), &bytes);
    assert_eq!((lines, page), (expected.lines, expected.page));
    assert_eq!(kept, carry(&expected.left));
}

/// Where a longer carry was, nothing of it is left past the new one's length.
#[test]
fn the_next_carry_is_zero_past_its_length() {
    for len in 0..=15 {
        for length in 0..=48 {
            let kept = carry(&[19; 15][..len]);
            let (taken, _) = accepted(&fresh(0), &kept, &[20; 48][..length]);
            assert_eq!(taken.carry.len, (len + length) % 16);
            assert_eq!(
                taken.carry.bytes[taken.carry.len..],
                [0; 15][taken.carry.len..]
            );
        }
    }
}

// Refusals.

#[test]
fn refusal_1() {
    for (piece, room) in [(vec![], 0), (vec![19; 5], 0), (readers(32), 32)] {
        for len in [0, 3] {
            let kept = carry(&[0; 15][..len]);
            assert_eq!(refused(&unsound(), &kept, &piece, room), 1);
        }
    }
}

#[test]
fn refusal_12() {
    for len in [16, 17, 31, 32, 255, 256, usize::MAX] {
        for kept in [
            carry_with(len, 0, 0),
            carry_with(len, 0, 1),
            carry_with(len, 14, 255),
        ] {
            for piece in [vec![], readers(16)] {
                assert_eq!(refused(&fresh(0), &kept, &piece, 64), 12);
            }
        }
    }
    for len in 0..=15 {
        for place in 0..15 {
            for byte in [1, 128, 255] {
                let kept = carry_with(len, place, byte);
                if place < len {
                    accepted(&fresh(0), &kept, &[]);
                } else {
                    assert_eq!(refused(&fresh(0), &kept, &[], 0), 12);
                    assert_eq!(refused(&fresh(0), &kept, &readers(40), 48), 12);
                }
            }
        }
    }
}

#[test]
fn refusal_14_counts_the_request_that_the_carry_begins() {
    for len in 0..=15 {
        let kept = carry(&readers(len));
        for length in 0..=49 {
            let piece = &readers(64)[len..][..length];
            let needed = (len + length) / 16 * 16;
            for room in (0..needed).rev().take(17).chain((needed > 0).then_some(0)) {
                assert_eq!(refused(&fresh(0), &kept, piece, room), 14);
            }
            accepted(&fresh(0), &kept, piece);
        }
    }
    let kept = carry(&[19; 15]);
    assert_eq!(refused(&fresh(0), &kept, &[0], 15), 14);
    accepted(&fresh(0), &kept, &[0]);
    accepted(&fresh(0), &kept, &[]);
}

/// What a piece is refused for: every choice of the four grounds.
#[test]
fn refusals_come_in_order() {
    let bad = [
        carry_with(16, 0, 0),
        carry_with(0, 7, 1),
        carry_with(255, 14, 9),
        carry_with(9, 9, 255),
    ];
    for grounds in 1..16 {
        let has = |ground: usize| grounds >> ground & 1 == 1;
        let page = if has(0) { unsound() } else { fresh(4) };
        let length = if has(2) { 4_097 } else { 40 };
        let room = if has(3) { 31 } else { 4_112 };
        let lowest = [1, 12, 13, 14][(0..4).find(|&ground| has(ground)).unwrap()];
        for kept in bad {
            let kept = if has(1) { kept } else { carry(&[19]) };
            let number = refused(&page, &kept, &readers(length), room);
            assert_eq!(number, lowest, "{grounds:b}");
        }
    }
}

#[test]
fn a_refused_piece_can_be_taken_later() {
    let bytes = readers(48);
    let kept = carry(&bytes[..6]);
    assert_eq!(refused(&fresh(1), &kept, &bytes[6..], 47), 14);
    let (taken, lines) = accepted(&fresh(1), &kept, &bytes[6..]);
    let expected = model(&fresh(1), &bytes);
    assert_eq!((lines, taken.page), (expected.lines, expected.page));
}

// The end.

#[test]
fn finishing_is_0_where_nothing_is_carried() {
    assert_eq!(finish(&Carry::EMPTY), Ok(None));
}

#[test]
fn finishing_is_12_elsewhere() {
    for len in (0..=17).chain([255, 256, usize::MAX]) {
        if len > 0 {
            assert_eq!(finish(&carry_with(len, 0, 0)), Err(Refusal::NotWhole));
        }
        for place in 0..15 {
            for byte in [1, 128, 255] {
                let kept = carry_with(len, place, byte);
                assert_eq!(finish(&kept), Err(Refusal::NotWhole));
            }
        }
    }
}

/// A run refuses a ragged input outright; pieces keep what the whole requests gave.
#[test]
fn a_ragged_end_leaves_the_page_of_the_whole_requests() {
    let bytes = [case_a(), vec![19]].concat();
    let (taken, _) = accepted(&fresh(0), &Carry::EMPTY, &bytes);
    assert_eq!(finish(&taken.carry), Err(Refusal::NotWhole));
    assert_eq!(taken.page, case_a_page());
    let mut page = fresh(0);
    let ragged = run(&mut page, &bytes, &mut [0; 48]);
    assert_eq!(ragged, Err(Refusal::NotWhole));
    assert_eq!(page, fresh(0));
}
