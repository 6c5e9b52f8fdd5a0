//! The drill, by streams and answers that are written out by hand.

mod common;

use std::io::{self, Read, Write};
use std::process::{Command, Stdio};

use common::lists::{rows, Row};
use second::drill::program;
use second::kinds::SharedState;

/// An operation of this number, with this number `a` and this payload.
fn op(number: u8, a: u64, payload: &[u8]) -> Vec<u8> {
    let length = payload.len() as u32;
    let mut bytes = vec![number, 0, 0, 0];
    bytes.extend(length.to_le_bytes());
    bytes.extend(a.to_le_bytes());
    bytes.extend(payload);
    bytes
}

/// The bytes of a request.
fn ask(step: u8, bucket: u8, clean: u8, value: u64) -> Vec<u8> {
    let mut bytes = vec![step, bucket, clean, 0, 0, 0, 0, 0];
    bytes.extend(value.to_le_bytes());
    bytes
}

/// A line that carries no value.
fn line(number: u8) -> Vec<u8> {
    let mut bytes = vec![0; 16];
    bytes[0] = number;
    bytes
}

/// What the program writes for these operations, one after the other.
fn answers(operations: &[Vec<u8>]) -> Vec<u8> {
    output(&operations.concat())
}

fn output(input: &[u8]) -> Vec<u8> {
    let mut output = Vec::new();
    program(input, &mut output).unwrap();
    output
}

fn look() -> Vec<u8> {
    op(6, 0, &[])
}

/// What a look writes of a fresh page of 0.
const FRESH: [u8; 32] = [
    0, 0, 0, 0, 0, 0, 0, 0, 0, 0, 0, 0, 0, 0, 0, 0, //
    0, 1, 0, 0, 0, 0, 0, 0, 0, 0, 0, 0, 0, 0, 0, 0,
];

// The input.

#[test]
fn nothing_is_written_where_nothing_is_asked() {
    assert_eq!(output(&[]), []);
}

#[test]
fn the_input_may_end_between_operations() {
    assert_eq!(answers(&[look()]), FRESH);
    assert_eq!(answers(&[look(), look()]), [FRESH, FRESH].concat());
}

#[test]
fn the_length_and_the_number_have_their_low_byte_first() {
    let mut bytes = vec![1, 0, 0, 0, 2, 1, 0, 0, 8, 7, 6, 5, 4, 3, 2, 1];
    bytes.extend([0; 258]);
    bytes.extend(look());
    let mut expected = line(0);
    expected.extend(FRESH);
    expected[16 + 24..].copy_from_slice(&[8, 7, 6, 5, 4, 3, 2, 1]);
    assert_eq!(output(&bytes), expected);
}

/// A look, then this, then another look: the first look is answered, and then
/// comes one line of 255 and nothing more.
fn ends(broken: &[u8]) {
    let expected = [&FRESH[..], &line(255)].concat();
    let stream = [&look(), broken, &look()].concat();
    assert_eq!(output(&stream), expected, "{broken:?}");
}

#[test]
fn an_input_that_ends_inside_a_head() {
    for length in 1..16 {
        let stream = [look(), look()[..length].to_vec()].concat();
        assert_eq!(output(&stream), [&FRESH[..], &line(255)].concat());
    }
}

#[test]
fn an_input_that_ends_inside_a_payload() {
    for missing in 1..=16 {
        let mut stream = [look(), op(3, 0, &ask(19, 1, 0, 0))].concat();
        stream.truncate(stream.len() - missing);
        assert_eq!(output(&stream), [&FRESH[..], &line(255)].concat());
    }
}

#[test]
fn bytes_1_to_3_are_zero() {
    for place in 1..4 {
        for byte in [1, 255] {
            let mut broken = op(1, 5, &[]);
            broken[place] = byte;
            ends(&broken);
        }
    }
}

#[test]
fn a_payload_may_have_65536_bytes_and_no_more() {
    let most = answers(&[op(1, 5, &[9; 65_536]), op(1, 6, &[])]);
    assert_eq!(most, [line(0), line(0)].concat());
    ends(&op(1, 5, &[9; 65_537]));
    ends(&[1, 0, 0, 0, 255, 255, 255, 255, 0, 0, 0, 0, 0, 0, 0, 0]);
    ends(&[1, 0, 0, 0, 0, 0, 0, 1, 0, 0, 0, 0, 0, 0, 0, 0]);
}

#[test]
fn only_operations_1_to_13_are_listed() {
    for number in (0..=255).filter(|number| !(1..=13).contains(number)) {
        ends(&op(number, 0, &[]));
        ends(&op(number, 16, &ask(19, 0, 0, 0)));
    }
}

#[test]
fn what_was_done_before_stays_written() {
    let stream = [
        op(2, 0, &ask(11, 0, 0, 0)),
        op(2, 0, &ask(11, 0, 0, 0)),
        op(0, 0, &[]),
        op(2, 0, &ask(13, 0, 0, 0)),
    ];
    let mut withdrawn = line(0);
    withdrawn[1] = 1;
    assert_eq!(answers(&stream), [withdrawn, line(5), line(255)].concat());
}

/// The limit, and an operation of 65,536 bytes, of which 256 fill it.
const LIMIT: usize = 16_777_216;
const BLOCK: usize = 65_536;

/// The input up to these many bytes before the limit, by operations that each
/// write a line of 0.
fn almost_full(left: usize) -> (Vec<u8>, Vec<u8>) {
    let mut input = op(1, 0, &[0; BLOCK - 16]).repeat(LIMIT / BLOCK - 1);
    input.extend(op(1, 0, &vec![0; BLOCK - 16 - left]));
    assert_eq!(input.len(), LIMIT - left);
    (input, line(0).repeat(LIMIT / BLOCK))
}

#[test]
fn the_input_counts_as_ended_at_the_limit() {
    let (full, expected) = almost_full(0);
    assert_eq!(output(&full), expected);
    for after in [look(), vec![0; 16], vec![255; 3]] {
        assert_eq!(output(&[&full[..], &after].concat()), expected);
    }
}

#[test]
fn an_operation_that_ends_at_the_limit_is_done() {
    let (mut input, mut expected) = almost_full(16);
    input.extend(look());
    input.extend(look());
    expected.extend(FRESH);
    assert_eq!(output(&input), expected);
    let (mut input, mut expected) = almost_full(32);
    input.extend(op(2, 0, &ask(2, 0, 0, 0)));
    input.extend(look());
    expected.extend(line(6));
    assert_eq!(output(&input), expected);
}

#[test]
fn an_operation_that_would_pass_the_limit_is_cut() {
    for left in [1, 8, 15] {
        let (mut input, mut expected) = almost_full(left);
        input.extend(look());
        input.extend(look());
        expected.extend(line(255));
        assert_eq!(output(&input), expected, "inside a head");
    }
    for left in [16, 17, 31] {
        let (mut input, mut expected) = almost_full(left);
        input.extend(op(2, 0, &ask(2, 0, 0, 0)));
        input.extend(look());
        expected.extend(line(255));
        assert_eq!(output(&input), expected, "inside a payload");
    }
}

/// Operations without end; tells how much was read.
struct Endless(usize);

impl Read for &mut Endless {
    fn read(&mut self, buffer: &mut [u8]) -> io::Result<usize> {
        let some = buffer.len().min(1_000);
        // Every fourth block of 16 bytes is the head of an operation 1 that
        // has a payload of 48 bytes.
        for byte in &mut buffer[..some] {
            *byte = match self.0 % 64 {
                0 => 1,
                4 => 48,
                _ => 0,
            };
            self.0 += 1;
        }
        Ok(some)
    }
}

#[test]
fn no_more_than_the_limit_is_read() {
    let mut endless = Endless(0);
    let mut output = Vec::new();
    program(&mut endless, &mut output).unwrap();
    assert_eq!(endless.0, LIMIT);
    assert_eq!(output, line(0).repeat(LIMIT / 64));
}

#[test]
fn a_payload_that_is_not_needed_is_dropped() {
    let stream = [
        op(1, 0, &look()),
        op(6, 77, &op(1, 9, &[])),
        op(6, u64::MAX, &[255; 33]),
    ];
    let expected = [line(0), FRESH.to_vec(), FRESH.to_vec()].concat();
    assert_eq!(answers(&stream), expected);
}

// Operations 1 to 3, and 13.

#[test]
fn operation_1_makes_the_page_fresh() {
    let stream = [
        op(2, 0, &ask(19, 1, 0, 0)),
        op(1, u64::MAX - 1, &[]),
        look(),
    ];
    let mut seen = FRESH;
    seen[24..].copy_from_slice(&[254, 255, 255, 255, 255, 255, 255, 255]);
    assert_eq!(answers(&stream), [line(0), line(0), seen.to_vec()].concat());
}

/// The operations that take one step: by value, lent, and by the table.
const SINGLE: [u8; 3] = [2, 3, 13];

/// Case A, and the value that a withdrawal carries.
#[test]
fn operations_2_3_and_13_take_one_step() {
    for number in SINGLE {
        let stream = [
            op(1, 0x0102_0304_0506_0708, &[]),
            op(number, 0, &ask(12, 0, 0, 0)),
            op(number, 99, &ask(17, 0, 0, 5)),
            look(),
        ];
        let expected = [
            line(0),
            vec![0, 1, 0, 0, 0, 0, 0, 0, 8, 7, 6, 5, 4, 3, 2, 1],
            line(0),
            line(0),
            vec![3, 1, 0, 0, 0, 0, 0, 0, 5, 0, 0, 0, 0, 0, 0, 0],
        ];
        assert_eq!(answers(&stream), expected.concat());
    }
}

/// Case B: what one operation leaves is where the next one starts.
#[test]
fn operations_2_3_and_13_by_turns() {
    let steps: [(Vec<u8>, Vec<u8>); 8] = [
        (ask(11, 0, 0, 0), vec![0, 1, 0, 0, 0, 0, 0, 0]),
        (ask(13, 2, 0, 0), vec![0; 8]),
        (ask(14, 0, 0, 0), vec![0; 8]),
        (ask(19, 1, 0, 0), vec![0; 8]),
        (ask(23, 1, 0, 0), vec![0; 8]),
        (ask(24, 1, 0, 0), vec![5, 0, 0, 0, 0, 0, 0, 0]),
        (ask(17, 0, 0, 5), vec![0; 8]),
        (ask(24, 1, 0, 0), vec![0; 8]),
    ];
    for first in 0..3 {
        let mut stream = Vec::new();
        let mut expected = Vec::new();
        let turns = SINGLE.into_iter().cycle().skip(first);
        for ((request, start), number) in steps.iter().zip(turns) {
            stream.extend(op(number, 0, request));
            expected.extend(start);
            expected.extend([0; 8]);
        }
        stream.extend(look());
        expected.extend([0, 0, 0, 0, 0, 0, 0, 0, 0, 1, 0, 0, 0, 0, 0, 0]);
        expected.extend([3, 1, 1, 0, 0, 1, 0, 0, 5, 0, 0, 0, 0, 0, 0, 0]);
        expected.extend([3, 1, 0, 0, 0, 0, 0, 0, 5, 0, 0, 0, 0, 0, 0, 0]);
        assert_eq!(output(&stream), expected);
    }
}

/// A step on the way, the flag that it leaves, and steps that are never accepted under
/// that flag, with the answer.
type OnTheWay = (u8, u8, [(u8, u8); 6]);

/// By all three operations: 5 where the flag is not one to start from, else 6, and the
/// page stays as it was.
#[test]
fn steps_that_are_never_accepted_under_a_flag() {
    let way: [OnTheWay; 4] = [
        (19, 0, [(21, 6), (24, 6), (23, 5), (6, 6), (1, 5), (2, 6)]),
        (11, 2, [(21, 6), (24, 6), (23, 5), (6, 6), (12, 5), (17, 6)]),
        (15, 1, [(24, 5), (22, 6), (6, 6), (11, 5), (14, 6), (30, 6)]),
        (17, 3, [(11, 5), (6, 6), (16, 6), (25, 6), (2, 6), (30, 6)]),
    ];
    let mut stream = Vec::new();
    for (place, (step, flag, never)) in way.into_iter().enumerate() {
        stream.extend(op(2, 0, &ask(step, 0, 0, 0)));
        let written = output(&[&stream[..], &look()].concat());
        let (before, seen) = written.split_at(16 * (place + 1));
        assert_eq!(seen[16], flag);
        for number in SINGLE {
            for (step, refusal) in never {
                let asked = op(number, 0, &ask(step, 0, 0, 0));
                let written = output(&[&stream[..], &asked, &look()].concat());
                let expected = [before, &line(refusal), seen].concat();
                assert_eq!(written, expected, "{flag} {step}");
            }
        }
    }
}

/// Requests that reading refuses, each with its refusal.
fn unreadable() -> Vec<(Vec<u8>, u8)> {
    let mut third = ask(19, 0, 0, 0);
    third[3] = 1;
    let mut fifth = ask(19, 9, 0, 0);
    fifth[7] = 1;
    vec![
        (vec![], 12),
        (vec![19], 12),
        (ask(19, 0, 0, 0)[..15].to_vec(), 12),
        ([ask(19, 0, 0, 0), vec![0]].concat(), 12),
        ([ask(19, 0, 0, 0), ask(19, 0, 0, 0)].concat(), 12),
        ([0; 17].to_vec(), 12),
        (ask(0, 0, 0, 0), 2),
        (ask(31, 9, 9, 9), 2),
        (ask(19, 0, 1, 0), 3),
        (ask(19, 9, 0, 1), 3),
        (ask(6, 0, 2, 0), 3),
        (third, 3),
        (fifth, 3),
        (ask(19, 4, 0, 0), 4),
        (ask(22, 255, 0, 7), 4),
    ]
}

#[test]
fn a_request_that_reading_refuses_gets_that_refusal() {
    for number in SINGLE {
        for (request, refusal) in unreadable() {
            let stream = [op(number, 0, &request), look()];
            let expected = [&line(refusal)[..], &FRESH].concat();
            assert_eq!(answers(&stream), expected, "{request:?}");
        }
    }
}

#[test]
fn reading_comes_before_the_page_is_judged() {
    for number in SINGLE {
        for (request, refusal) in unreadable() {
            let stream = [op(7, 0, &unsound()), op(number, 0, &request)];
            assert_eq!(answers(&stream), [line(0), line(refusal)].concat());
        }
        let stream = [
            op(7, 0, &unsound()),
            op(number, 0, &ask(2, 0, 0, 0)),
            look(),
        ];
        let expected = [line(0), line(1), UNSOUND.to_vec()].concat();
        assert_eq!(answers(&stream), expected);
    }
}

/// A page that is out, and nobody has it: rule 1 alone is broken.
fn unsound() -> Vec<u8> {
    vec![0; 4_160]
}

const UNSOUND: [u8; 32] = [
    1, 1, 0, 0, 0, 0, 0, 0, 0, 0, 0, 0, 0, 0, 0, 0, //
    0, 0, 0, 0, 0, 0, 0, 0, 0, 0, 0, 0, 0, 0, 0, 0,
];

// Operation 4.

#[test]
fn a_run_answers_each_request_and_leaves_the_rest_of_its_buffer() {
    let requests = [
        ask(12, 0, 0, 0),
        ask(31, 0, 0, 0),
        ask(19, 2, 0, 0),
        ask(16, 0, 0, 5),
        ask(17, 0, 0, 5),
    ];
    let mut withdrawn = line(0);
    withdrawn[1] = 1;
    for more in [0, 1, 16, 100] {
        let stream = [op(4, 80 + more, &requests.concat()), look()];
        let expected = [
            line(0),
            withdrawn.clone(),
            line(2),
            line(0),
            line(7),
            line(0),
            vec![170; more as usize],
            vec![0, 0, 0, 0, 0, 0, 0, 0, 0, 0, 1, 0, 0, 0, 0, 0],
            vec![3, 1, 1, 0, 0, 0, 1, 0, 5, 0, 0, 0, 0, 0, 0, 0],
            vec![1, 2, 0, 0, 0, 0, 0, 0, 0, 0, 0, 0, 0, 0, 0, 0],
        ];
        assert_eq!(answers(&stream), expected.concat());
    }
}

/// A run that is refused as a whole: the buffer is still written out, and the
/// page stays.
fn refused_run(page: &[u8], seen: &[u8], requests: &[u8], room: u64, refusal: u8) {
    let stream = [op(7, 0, page), op(4, room, requests), look()];
    let expected = [
        line(0),
        line(refusal),
        vec![170; room as usize],
        seen.to_vec(),
    ];
    assert_eq!(answers(&stream), expected.concat());
}

#[test]
fn whole_refusals_come_in_order() {
    let mut fresh = vec![0; 4_160];
    fresh[1] = 1;
    let two = ask(19, 0, 0, 0).repeat(2);
    let long = ask(19, 0, 0, 0).repeat(2_049);
    for (requests, room) in [(&two[..], 32), (&two, 0), (&two[..31], 31), (&[], 0)] {
        refused_run(&unsound(), &UNSOUND, requests, room, 1);
    }
    refused_run(&unsound(), &UNSOUND, &long, 0, 1);
    for (requests, room) in [(&two[..1], 0), (&two[..15], 15), (&two[..31], 0)] {
        refused_run(&fresh, &FRESH, requests, room, 12);
    }
    refused_run(&fresh, &FRESH, &long[1..], 65_536, 12);
    refused_run(&fresh, &FRESH, &long, 0, 13);
    refused_run(&fresh, &FRESH, &long, 65_536, 13);
    for room in [0, 15, 16, 31] {
        refused_run(&fresh, &FRESH, &two, room, 14);
    }
}

/// Case J, and a run without requests.
#[test]
fn runs_of_the_shortest_and_of_the_longest() {
    assert_eq!(answers(&[op(4, 0, &[])]), line(0));
    let three = [line(0), vec![170; 3]].concat();
    assert_eq!(answers(&[op(4, 3, &[])]), three);
    let most = [
        line(0).repeat(128),
        line(10).repeat(1_921),
        vec![170; 32_768],
    ];
    let requests = ask(19, 0, 0, 0).repeat(2_048);
    assert_eq!(answers(&[op(4, 65_536, &requests)]), most.concat());
}

#[test]
fn a_buffer_has_65536_bytes_at_most() {
    for a in [65_536, 65_537, 1 << 32, u64::MAX] {
        for number in [4, 5] {
            let written = answers(&[op(number, a, &[])]);
            let number = if number == 4 { 0 } else { 2 };
            assert_eq!(written, [line(number), vec![170; 65_536]].concat());
        }
        let written = answers(&[op(9, a, &[])]);
        let expected = [line(0), raw(&[]), vec![170; 65_536 - 4_160]];
        assert_eq!(written, expected.concat());
    }
    let written = answers(&[op(4, 65_535, &[]), look()]);
    assert_eq!(
        written,
        [line(0), vec![170; 65_535], FRESH.to_vec()].concat()
    );
}

// Operation 5.

#[test]
fn operation_5_writes_the_fields_as_one_request() {
    let example = [0x16, 1, 0, 0, 0, 0, 0, 0, 5, 0, 0, 0, 0, 0, 0, 0];
    for more in [0, 1, 24] {
        let written = answers(&[op(5, 16 + more, &example)]);
        let expected = [line(0), example.to_vec(), vec![170; more as usize]];
        assert_eq!(written, expected.concat());
    }
}

#[test]
fn operation_5_does_not_look_at_bytes_3_to_7_nor_past_15() {
    let mut fields = vec![4, 3, 0, 9, 8, 7, 6, 5, 1, 2, 3, 4, 5, 6, 7, 8];
    fields.extend([255; 40]);
    let expected = [
        0, 0, 0, 0, 0, 0, 0, 0, 0, 0, 0, 0, 0, 0, 0, 0, //
        4, 3, 0, 0, 0, 0, 0, 0, 1, 2, 3, 4, 5, 6, 7, 8,
    ];
    assert_eq!(answers(&[op(5, 16, &fields)]), expected);
}

#[test]
fn operation_5_takes_missing_bytes_as_zero() {
    let cases: [(&[u8], [u8; 16]); 5] = [
        (&[2], [2, 0, 0, 0, 0, 0, 0, 0, 0, 0, 0, 0, 0, 0, 0, 0]),
        (&[19, 3], [19, 3, 0, 0, 0, 0, 0, 0, 0, 0, 0, 0, 0, 0, 0, 0]),
        (&[6, 0, 1], [6, 0, 1, 0, 0, 0, 0, 0, 0, 0, 0, 0, 0, 0, 0, 0]),
        (
            &[17, 0, 0, 1, 1, 1, 1, 1, 7],
            [17, 0, 0, 0, 0, 0, 0, 0, 7, 0, 0, 0, 0, 0, 0, 0],
        ),
        (
            &[17, 0, 0, 0, 0, 0, 0, 0, 1, 2, 3, 4, 5, 6, 7],
            [17, 0, 0, 0, 0, 0, 0, 0, 1, 2, 3, 4, 5, 6, 7, 0],
        ),
    ];
    for (payload, request) in cases {
        let written = answers(&[op(5, 17, payload)]);
        assert_eq!(written, [&line(0)[..], &request, &[170]].concat());
    }
}

#[test]
fn operation_5_refuses_2_to_4_and_then_14() {
    let good = ask(19, 3, 0, 0);
    for room in [0, 1, 15] {
        let cases = [
            (vec![], 2),
            (ask(31, 4, 2, 1), 2),
            (ask(19, 9, 1, 0), 3),
            (ask(1, 0, 0, 1), 3),
            (ask(6, 0, 2, 0), 3),
            (ask(19, 4, 0, 0), 4),
            (good.clone(), 14),
        ];
        for (fields, refusal) in cases {
            for room in [room, room + 16] {
                let refused = refusal != 14 || room < 16;
                let written = answers(&[op(5, room, &fields)]);
                let expected = [line(refusal), vec![170; room as usize]].concat();
                assert_eq!(written == expected, refused, "{fields:?} {room}");
            }
        }
    }
}

#[test]
fn operation_5_leaves_the_page() {
    let stream = [
        op(2, 0, &ask(19, 3, 0, 0)),
        op(5, 0, &ask(11, 0, 0, 0)),
        look(),
    ];
    let expected = [
        line(0),
        line(14),
        vec![0, 0, 0, 0, 0, 0, 0, 0, 0, 0, 0, 0, 0, 1, 0, 0],
        vec![0, 1, 1, 0, 0, 0, 0, 1, 0, 0, 0, 0, 0, 0, 0, 0],
        vec![1, 3, 0, 0, 0, 0, 0, 0, 0, 0, 0, 0, 0, 0, 0, 0],
    ];
    assert_eq!(answers(&stream), expected.concat());
}

// Operations 6 and 7.

/// A sound page: a claim at bucket 2 beside a writeback, and three readers.
/// Every byte that nothing looks at is not zero.
fn busy() -> Vec<u8> {
    let mut raw = vec![0xee; 4_160];
    raw[..11].copy_from_slice(&[6, 1, 3, 0, 1, 2, 0xee, 1, 0, 0xee, 1]);
    raw[16..20].copy_from_slice(&[1, 0, 2, 1]);
    let value = [1, 2, 3, 4, 5, 6, 7, 8];
    raw[32..40].copy_from_slice(&value);
    raw[40..48].copy_from_slice(&value);
    raw[48..56].copy_from_slice(&value);
    for (place, (phase, bucket)) in [(3, 2), (1, 0), (2, 3)].into_iter().enumerate() {
        raw[64 + 16 * place] = phase;
        raw[65 + 16 * place] = bucket;
    }
    raw[72..80].copy_from_slice(&value);
    for entry in raw[112..].chunks_exact_mut(16) {
        entry[..2].copy_from_slice(&[0, 0]);
    }
    raw
}

#[test]
fn a_look_at_a_busy_page() {
    let expected = [
        line(0),
        vec![0, 0, 0, 0, 1, 0, 0, 0, 0, 0, 0, 0, 1, 0, 1, 0],
        vec![6, 1, 3, 0, 1, 0, 2, 1, 1, 2, 3, 4, 5, 6, 7, 8],
        vec![3, 2, 0, 0, 0, 0, 0, 0, 1, 2, 3, 4, 5, 6, 7, 8],
        vec![1, 0, 0, 0, 0, 0, 0, 0, 0, 0, 0, 0, 0, 0, 0, 0],
        vec![2, 3, 0, 0, 0, 0, 0, 0, 0, 0, 0, 0, 0, 0, 0, 0],
    ];
    assert_eq!(answers(&[op(7, 0, &busy()), look()]), expected.concat());
}

/// The holders that a look does not show are those of the payload: they go
/// all the way.
#[test]
fn the_holders_of_a_raw_page_act() {
    busy_page_acts(7, &busy());
}

/// The page that this operation makes of these bytes is the busy one.
fn busy_page_acts(operation: u8, payload: &[u8]) {
    let value = 0x0807_0605_0403_0201;
    let requests = [
        (ask(6, 0, 1, 0), line(6)),
        (ask(5, 0, 0, 0), line(0)),
        (ask(6, 0, 1, 0), line(5)),
        (ask(2, 0, 0, 0), line(0)),
        (ask(6, 0, 1, 0), line(0)),
        (ask(22, 2, 0, value), line(0)),
        (ask(20, 0, 0, 0), line(0)),
        (ask(21, 3, 0, 0), line(0)),
        (ask(7, 0, 0, 0), line(0)),
        (ask(7, 0, 0, 0), line(0)),
        (ask(7, 0, 0, 0), line(0)),
        (ask(8, 0, 0, 0), line(8)),
        (ask(7, 0, 0, 0), line(0)),
        (ask(7, 0, 0, 0), line(8)),
        (
            ask(8, 0, 0, 0),
            vec![0, 1, 0, 0, 0, 0, 0, 0, 1, 2, 3, 4, 5, 6, 7, 8],
        ),
        (ask(18, 0, 0, 0), line(7)),
        (ask(9, 0, 0, 9), line(17)),
        (ask(9, 0, 0, value), line(0)),
    ];
    for number in SINGLE {
        let mut stream = op(operation, 0, payload);
        let mut expected = line(0);
        for (request, answer) in &requests {
            stream.extend(op(number, 0, request));
            expected.extend(answer);
        }
        stream.extend(look());
        expected.extend([0, 0, 0, 0, 0, 0, 0, 0, 0, 0, 0, 0, 1, 0, 0, 0]);
        expected.extend([3, 1, 1, 0, 0, 0, 1, 0, 1, 2, 3, 4, 5, 6, 7, 8]);
        expected.extend([3, 2, 0, 0, 0, 0, 0, 0, 1, 2, 3, 4, 5, 6, 7, 8]);
        assert_eq!(output(&stream), expected);
    }
}

/// A loader without a bucket beside readers at bucket 0, of both phases, and at
/// bucket 3. It leaves, and they stay counted.
#[test]
fn a_loader_without_a_bucket_leaves_the_counts() {
    let readers = [(2, 3), (16, 2), (19, 1), (64, 1), (80, 2), (96, 1), (97, 3)];
    let loader = [(0, 1), (1, 0), (8, 3), (9, 255)];
    let page = raw(&[&readers[..], &loader].concat());
    let stream = [
        op(7, 0, &page),
        op(2, 0, &ask(16, 0, 0, 9)),
        op(3, 0, &ask(17, 0, 0, 9)),
        look(),
        op(2, 0, &ask(17, 0, 0, 9)),
        op(3, 0, &ask(24, 0, 0, 0)),
    ];
    let expected = [
        line(0),
        line(7),
        line(0),
        vec![0, 0, 0, 0, 1, 1, 0, 0, 0, 0, 0, 0, 0, 1, 0, 0],
        vec![3, 1, 3, 0, 2, 0, 0, 1, 9, 0, 0, 0, 0, 0, 0, 0],
        vec![1, 0, 0, 0, 0, 0, 0, 0, 0, 0, 0, 0, 0, 0, 0, 0],
        vec![2, 0, 0, 0, 0, 0, 0, 0, 0, 0, 0, 0, 0, 0, 0, 0],
        vec![1, 3, 0, 0, 0, 0, 0, 0, 0, 0, 0, 0, 0, 0, 0, 0],
        line(6),
        line(0),
    ];
    assert_eq!(answers(&stream), expected.concat());
}

/// The page of these bytes (place, byte) over a fresh one of 0.
fn raw(bytes: &[(usize, u8)]) -> Vec<u8> {
    let mut raw = vec![0; 4_160];
    raw[1] = 1;
    for &(place, byte) in bytes {
        raw[place] = byte;
    }
    raw
}

/// The first two bytes of a look at this raw page.
fn judged(payload: &[u8]) -> (u8, u8) {
    let written = answers(&[op(7, 0, payload), look()]);
    assert_eq!(written[..16], line(0));
    if written[16] == 1 {
        assert_eq!(written[18..32], [0; 14], "a census of zeros");
    }
    (written[16], written[17])
}

#[test]
fn each_rule_broken_alone() {
    let cases: [(u8, &[(usize, u8)]); 14] = [
        (1, &[(1, 0)]),
        (2, &[(0, 4), (4, 1), (5, 255), (40, 1)]),
        (3, &[(0, 5), (10, 1), (55, 1)]),
        (4, &[(0, 2), (1, 0), (8, 2), (9, 255)]),
        (5, &[(19, 1)]),
        (6, &[(0, 4)]),
        (7, &[(2, 1), (64, 2), (16, 1)]),
        (7, &[(0, 3), (2, 1), (64, 3), (72, 1), (16, 1)]),
        (8, &[(65, 1)]),
        (8, &[(64, 2)]),
        (8, &[(64, 3)]),
        (8, &[(4_144, 3), (4_152, 5)]),
        (8, &[(4_145, 255)]),
        (8, &[(2, 1), (65, 1), (17, 1), (80, 3)]),
    ];
    for (rule, bytes) in cases {
        assert_eq!(judged(&raw(bytes)), (1, rule), "{bytes:?}");
    }
}

/// One rule after the other is mended, and the next broken one shows. A page
/// that is in cannot stand beside a loader, so rule 4 has a page of its own.
#[test]
fn the_lowest_broken_rule_is_named() {
    let mut all = vec![(8, 2), (9, 9), (4, 1), (5, 4), (10, 1), (48, 1), (16, 40)];
    all.extend([(0, 4), (2, 1), (64, 2), (80, 3)]);
    assert_eq!(judged(&raw(&all)), (1, 1));
    let mendings: [(&[(usize, u8)], u8); 6] = [
        (&[(8, 0)], 2),
        (&[(4, 0)], 3),
        (&[(48, 0)], 5),
        (&[(16, 1)], 6),
        (&[(0, 0), (10, 0)], 7),
        (&[(64, 1)], 8),
    ];
    for (bytes, next) in mendings {
        all.extend(bytes);
        assert_eq!(judged(&raw(&all)), (1, next));
    }
    all.push((80, 0));
    assert_eq!(judged(&raw(&all)), (0, 0));
    let loader = [(1, 0), (8, 3), (9, 4), (16, 40), (2, 1), (64, 3), (80, 3)];
    assert_eq!(judged(&raw(&loader)), (1, 4));
}

/// A page with 256 readers at bucket 0 to 3 and a length of these two bytes.
fn full(low: u8, high: u8) -> Vec<u8> {
    let mut page = raw(&[(2, low), (3, high), (16, 64), (17, 64), (18, 64), (19, 64)]);
    for (place, entry) in page[64..].chunks_exact_mut(16).enumerate() {
        entry[1] = (place % 4) as u8;
    }
    page
}

#[test]
fn a_length_above_the_capacity_is_shown_as_kept() {
    let listed: Vec<u8> = (0..=255)
        .flat_map(|place| [1, place % 4, 0, 0, 0, 0, 0, 0, 0, 0, 0, 0, 0, 0, 0, 0])
        .collect();
    let sound = [0, 0, 0, 0, 64, 0, 0, 64, 0, 0, 64, 0, 0, 64, 0, 0];
    let rule_8 = [1, 8, 0, 0, 0, 0, 0, 0, 0, 0, 0, 0, 0, 0, 0, 0];
    for (low, high, judgement) in [
        (0, 1, sound),
        (1, 1, rule_8),
        (2, 1, rule_8),
        (0, 2, rule_8),
        (255, 255, rule_8),
    ] {
        let summary = [0, 1, low, high, 64, 64, 64, 64, 0, 0, 0, 0, 0, 0, 0, 0];
        let expected = [&line(0)[..], &judgement, &summary, &listed].concat();
        let written = answers(&[op(7, 0, &full(low, high)), look()]);
        assert_eq!(written, expected);
    }
}

#[test]
fn all_entries_are_listed_above_the_capacity() {
    let mut page = full(1, 1);
    page[4_145] = 0;
    assert_eq!(judged(&page), (1, 5));
    page[4_145] = 4;
    assert_eq!(judged(&page), (1, 5));
    page[19] = 63;
    assert_eq!(judged(&page), (1, 7));
}

#[test]
fn an_entry_counts_as_blank_by_what_it_says() {
    for blank in [[0, 0, 9, 9], [1, 0, 9, 9]] {
        let bytes = [(64, blank[0]), (66, blank[2]), (72, blank[3])];
        assert_eq!(judged(&raw(&bytes)), (0, 0));
    }
    for other in [[0, 1], [1, 255], [2, 0], [3, 0]] {
        assert_eq!(judged(&raw(&[(64, other[0]), (65, other[1])])), (1, 8));
    }
}

#[test]
fn phase_0_is_pending_and_its_value_is_not_looked_at() {
    for phase in [0, 1] {
        let page = raw(&[(2, 1), (16, 1), (64, phase), (72, 200)]);
        let expected = [
            line(0),
            vec![0, 0, 0, 0, 1, 0, 0, 0, 0, 0, 0, 0, 0, 0, 0, 0],
            vec![0, 1, 1, 0, 1, 0, 0, 0, 0, 0, 0, 0, 0, 0, 0, 0],
            vec![1, 0, 0, 0, 0, 0, 0, 0, 0, 0, 0, 0, 0, 0, 0, 0],
            line(0),
        ];
        let stream = [op(7, 0, &page), look(), op(2, 0, &ask(20, 0, 0, 0))];
        assert_eq!(answers(&stream), expected.concat());
    }
}

#[test]
fn a_holders_bucket_255_is_none_and_any_other_is_that_bucket() {
    let claim = |bucket| raw(&[(0, 4), (4, 1), (5, bucket)]);
    assert_eq!(judged(&claim(255)), (0, 0));
    for bucket in [4, 200, 254] {
        assert_eq!(judged(&claim(bucket)), (1, 2));
    }
    assert_eq!(judged(&claim(3)), (1, 5));
    let loader = |kind, bucket| raw(&[(0, 1), (1, 0), (8, kind), (9, bucket)]);
    assert_eq!(judged(&loader(3, 255)), (0, 0));
    assert_eq!(judged(&loader(3, 200)), (1, 4));
    assert_eq!(judged(&loader(3, 0)), (1, 5));
}

#[test]
fn visited_and_counts_are_any_byte() {
    let visiting = |visited| raw(&[(0, 10), (4, 3), (5, 255), (6, visited)]);
    for visited in 0..=4 {
        assert_eq!(judged(&visiting(visited)), (0, 0));
    }
    for visited in [5, 255] {
        assert_eq!(judged(&visiting(visited)), (1, 2));
    }
    let page = raw(&[(16, 255), (17, 128), (18, 1)]);
    let written = answers(&[op(7, 0, &page), look()]);
    assert_eq!(written[32..40], [0, 1, 0, 0, 255, 128, 1, 0]);
}

/// What a kind doesn't have may be anything, within bytes 1, 7 and 10.
#[test]
fn what_a_kind_does_not_have_is_not_looked_at() {
    let nobody = [(5, 9), (6, 9), (7, 1), (9, 9), (40, 9), (48, 9), (11, 9)];
    assert_eq!(judged(&raw(&nobody)), (0, 0));
    let out = [(0, 10), (1, 0), (4, 5), (5, 255), (6, 9), (32, 9), (48, 9)];
    let written = answers(&[op(7, 0, &raw(&out)), look()]);
    assert_eq!(written[16..18], [0, 0]);
    assert_eq!(
        written[32..48],
        [10, 0, 0, 0, 0, 0, 0, 0, 0, 0, 0, 0, 0, 0, 0, 0]
    );
    let loader = [(0, 2), (1, 0), (8, 1), (9, 9), (20, 9), (56, 9), (63, 9)];
    assert_eq!(judged(&raw(&loader)), (0, 0));
}

#[test]
fn a_payload_without_meaning_leaves_the_page_and_the_program_goes_on() {
    let mut without = vec![
        vec![],
        vec![0; 4_159],
        vec![0; 4_161],
        vec![0; 1_088],
        raw(&[])[..1_088].to_vec(),
        raw(&[(0, 11)]),
        raw(&[(0, 255)]),
        raw(&[(1, 2)]),
        raw(&[(7, 2)]),
        raw(&[(7, 255)]),
        raw(&[(10, 2)]),
        raw(&[(4, 4)]),
        raw(&[(4, 6)]),
        raw(&[(4, 255)]),
        raw(&[(0, 10), (1, 0), (4, 4), (5, 255)]),
        raw(&[(8, 4)]),
        raw(&[(8, 255)]),
    ];
    for entry in [64, 80, 1_072, 1_088, 4_144] {
        without.push(raw(&[(entry, 4)]));
        without.push(raw(&[(entry, 255)]));
    }
    without.push(raw(&[(2, 1), (16, 1), (64, 4)]));
    for payload in without {
        let stream = [op(7, 0, &payload), look()];
        assert_eq!(answers(&stream), [&line(255)[..], &FRESH].concat());
        let stream = [op(7, 0, &unsound()), op(7, 0, &payload), look()];
        let expected = [line(0), line(255), UNSOUND.to_vec()];
        assert_eq!(answers(&stream), expected.concat());
    }
}

#[test]
fn a_raw_page_replaces_the_one_before() {
    let stream = [op(7, 0, &unsound()), op(7, 0, &raw(&[])), look()];
    let expected = [line(0), line(0), FRESH.to_vec()].concat();
    assert_eq!(answers(&stream), expected);
    let stream = [op(7, 0, &unsound()), op(1, 0, &[]), look()];
    assert_eq!(answers(&stream), expected);
}

// Operations 8 and 9.

/// The image of the busy page: it has zeros where nothing looks at a raw page.
fn busy_image() -> Vec<u8> {
    let value = [1, 2, 3, 4, 5, 6, 7, 8];
    let mut image = vec![0; 4_160];
    image[..11].copy_from_slice(&[6, 1, 3, 0, 1, 2, 0, 0, 0, 0, 1]);
    image[16..20].copy_from_slice(&[1, 0, 2, 1]);
    image[32..56].copy_from_slice(&value.repeat(3));
    image[64..66].copy_from_slice(&[3, 2]);
    image[72..80].copy_from_slice(&value);
    image[80..82].copy_from_slice(&[1, 0]);
    image[96..98].copy_from_slice(&[2, 3]);
    image
}

#[test]
fn operation_9_writes_the_image_and_leaves_the_rest_of_its_buffer() {
    for more in [0, 1, 100] {
        let stream = [
            op(9, 4_160 + more, &[]),
            op(7, 0, &busy()),
            op(9, 4_160 + more, &[]),
        ];
        let rest = vec![170; more as usize];
        let expected = [
            line(0),
            raw(&[]),
            rest.clone(),
            line(0),
            line(0),
            busy_image(),
            rest,
        ];
        assert_eq!(answers(&stream), expected.concat());
    }
}

#[test]
fn operation_9_refuses_1_and_then_15_and_writes_the_buffer_out() {
    for room in [0, 1, 16, 1_087, 1_088, 1_089, 4_159, 4_160, 4_161, 5_000] {
        let rest = vec![170; room as usize];
        let stream = [op(7, 0, &unsound()), op(9, room, &[]), look()];
        let expected = [line(0), line(1), rest.clone(), UNSOUND.to_vec()];
        assert_eq!(answers(&stream), expected.concat());
        if room < 4_160 {
            let stream = [op(9, room, &[]), look()];
            let expected = [line(15), rest, FRESH.to_vec()];
            assert_eq!(answers(&stream), expected.concat());
        }
    }
}

#[test]
fn operation_9_leaves_the_page_and_drops_its_payload() {
    let stream = [
        op(2, 0, &ask(19, 3, 0, 0)),
        op(9, 0, &busy_image()),
        op(9, 4_160, &[255; 33]),
    ];
    let one = raw(&[(2, 1), (19, 1), (64, 1), (65, 3)]);
    let expected = [line(0), line(15), line(0), one].concat();
    assert_eq!(answers(&stream), expected);
}

#[test]
fn operation_8_makes_the_page_that_the_image_says() {
    let stream = [op(8, 77, &busy_image()), op(9, 4_160, &[]), look()];
    let seen = answers(&[op(7, 0, &busy()), look()]);
    let expected = [&line(0)[..], &seen[..16], &busy_image(), &seen[16..]];
    assert_eq!(answers(&stream), expected.concat());
    busy_page_acts(8, &busy_image());
}

/// Whatever the page was before, sound or not.
#[test]
fn operation_8_gives_a_fresh_page_of_0_where_it_refuses() {
    let long = [busy_image(), busy_image()].concat();
    let mut refused: Vec<(&[u8], u8)> = Vec::new();
    for length in [0, 1, 16, 64, 1_087, 1_089, 2_624, 4_159, 4_161, 8_320] {
        refused.push((&long[..length], 15));
    }
    let raw_page = busy();
    let unsound = unsound();
    refused.extend([(&raw_page[..], 16), (&unsound, 16), (&[255; 4_160], 16)]);
    refused.extend([(&raw_page[..1_088], 16), (&unsound[..1_088], 16)]);
    for (payload, refusal) in refused {
        for before in [&busy(), &unsound] {
            let stream = [op(7, 0, before), op(8, 0, payload), look()];
            let expected = [line(0), line(refusal), FRESH.to_vec()];
            assert_eq!(answers(&stream), expected.concat());
        }
        let stream = [
            op(1, 5, &[]),
            op(8, 5, payload),
            op(2, 0, &ask(12, 0, 0, 0)),
        ];
        let mut withdrawn = line(0);
        withdrawn[1] = 1;
        let expected = [line(0), line(refusal), withdrawn].concat();
        assert_eq!(answers(&stream), expected, "the value is 0");
    }
}

// The limits, and short images.

/// A page of so many readers at each bucket and nobody else, in this many bytes.
fn crowd(readers: [u8; 4], length: usize) -> Vec<u8> {
    let mut page = vec![0; length];
    let buckets = (0..4).flat_map(|bucket| vec![bucket; usize::from(readers[bucket])]);
    let listed = buckets.clone().count();
    page[1] = 1;
    page[2..4].copy_from_slice(&(listed as u16).to_le_bytes());
    page[16..20].copy_from_slice(&readers);
    for (bucket, entry) in buckets.zip(page[64..].chunks_exact_mut(16)) {
        entry[..2].copy_from_slice(&[1, bucket as u8]);
    }
    page
}

/// A look at such a page.
fn crowd_seen(readers: [u8; 4]) -> Vec<u8> {
    let page = crowd(readers, 4_160);
    let listed = readers
        .iter()
        .map(|&number| usize::from(number))
        .sum::<usize>();
    let mut seen = vec![0; 32];
    for (bucket, number) in readers.into_iter().enumerate() {
        seen[4 + 3 * bucket] = number;
    }
    seen[17] = 1;
    seen[18..20].copy_from_slice(&page[2..4]);
    seen[20..24].copy_from_slice(&readers);
    seen.extend(&page[64..][..16 * listed]);
    seen
}

/// Case I, one by one with the page lent, in a run and in one piece. At both limits
/// the lower number is given.
#[test]
fn case_i() {
    let cases = [([127, 0, 0, 0], 0, 10), ([64; 4], 0, 11)];
    let both = [([127, 127, 2, 0], 0, 10), ([127, 127, 2, 0], 3, 11)];
    for (readers, bucket, number) in cases.into_iter().chain(both) {
        let mut requests = Vec::new();
        for (bucket, number) in (0..).zip(readers) {
            requests.extend(vec![ask(19, bucket, 0, 0); number]);
        }
        requests.push(ask(19, bucket, 0, 0));
        let accepted = line(0).repeat(requests.len() - 1);
        let lines = [&accepted[..], &line(number)].concat();
        let seen = crowd_seen(readers.map(|number| number as u8));
        let single: Vec<u8> = requests.iter().flat_map(|r| op(3, 0, r)).collect();
        let written = answers(&[single, look()]);
        assert_eq!(written, [&lines[..], &seen].concat());
        let room = lines.len() as u64;
        let written = answers(&[op(4, room, &requests.concat()), look()]);
        assert_eq!(written, [&line(0), &lines[..], &seen].concat());
        let (first, last) = requests.split_at(requests.len() - 1);
        let piece = op(10, room - 16, &first.concat());
        let written = answers(&[piece, op(10, 16, &last.concat()), look()]);
        let empty = [line(0), vec![0; 16]].concat();
        let expected = [&empty, &accepted, &empty, &line(number), &seen];
        assert_eq!(written, expected.map(|bytes| &bytes[..]).concat());
    }
}

/// `00 01` in bytes 2 and 3. Nothing else is the length of this list.
#[test]
fn a_list_of_256() {
    let page = crowd([127, 127, 2, 0], 4_160);
    assert_eq!(page[2..4], [0, 1]);
    for operation in [7, 8] {
        let stream = [op(operation, 0, &page), look(), op(9, 4_160, &[])];
        let seen = crowd_seen([127, 127, 2, 0]);
        let expected = [line(0), seen, line(0), page.clone()];
        assert_eq!(answers(&stream), expected.concat());
    }
    for length in [[0, 0], [1, 0], [255, 0], [1, 1], [0, 2], [255, 255]] {
        let mut page = page.clone();
        page[2..4].copy_from_slice(&length);
        assert_eq!(answers(&[op(8, 0, &page)]), line(16), "{length:?}");
    }
}

/// 128 readers that are listed and counted; and 256, whose count has no byte.
#[test]
fn a_count_above_127() {
    assert_eq!(judged(&crowd([0, 127, 0, 0], 4_160)), (0, 0));
    for count in [128, 129, 255] {
        let page = crowd([0, count, 0, 0], 4_160);
        assert_eq!(judged(&page), (1, 8));
        assert_eq!(answers(&[op(8, 0, &page)]), line(16));
    }
    let mut page = crowd([0, 255, 0, 0], 4_160);
    page[2..4].copy_from_slice(&[0, 1]);
    page[4_144..4_146].copy_from_slice(&[1, 1]);
    for count in [0, 1, 127, 255] {
        page[17] = count;
        assert_eq!(judged(&page), (1, 5));
        assert_eq!(answers(&[op(8, 0, &page)]), line(16));
    }
}

/// It is the same page as that of the long image, and it is written long. There is
/// no room for it in 1,088 bytes.
#[test]
fn operation_8_takes_a_short_image() {
    let busy_short = &busy_image()[..1_088];
    busy_page_acts(8, busy_short);
    for room in [0, 1_088, 4_159] {
        let stream = [op(8, 0, busy_short), op(9, room, &[])];
        let expected = [line(0), line(15), vec![170; room as usize]];
        assert_eq!(answers(&stream), expected.concat());
    }
    for room in [4_160, 4_161] {
        let stream = [op(8, 0, busy_short), look(), op(9, room, &[])];
        let mut written = answers(&[op(8, 0, &busy_image()), look(), op(9, 4_160, &[])]);
        written.resize(written.len() + room as usize - 4_160, 170);
        assert_eq!(answers(&stream), written);
    }
    let with_zeros = [busy_short, &[0; 3_072]].concat();
    assert_eq!(with_zeros, busy_image());
}

/// The short limits are of the image alone: the page goes on past them.
#[test]
fn the_short_limits() {
    let kept = [[16; 4], [31, 31, 2, 0], [0, 31, 2, 31], [31, 0, 0, 0]];
    for readers in kept {
        let short = crowd(readers, 1_088);
        let stream = [
            op(8, 0, &short),
            look(),
            op(2, 0, &ask(19, 0, 0, 0)),
            op(3, 0, &ask(19, 1, 0, 0)),
            op(9, 4_160, &[]),
        ];
        let written = answers(&stream);
        let seen = [line(0), crowd_seen(readers), line(0), line(0), line(0)].concat();
        assert_eq!(written[..seen.len()], seen);
        let mut image = crowd(readers, 4_160);
        let end = 64 + 16 * usize::from(image[2]);
        image[2] += 2;
        image[16] += 1;
        image[17] += 1;
        image[end] = 1;
        image[end + 16..][..2].copy_from_slice(&[1, 1]);
        assert_eq!(written[seen.len()..], image);
        assert_eq!(answers(&[op(8, 0, &image)]), line(0));
    }
    let long_alone = [
        [32, 0, 0, 0],
        [0, 31, 0, 32],
        [17, 16, 16, 16],
        [31, 31, 3, 0],
    ];
    for readers in long_alone {
        let long = crowd(readers, 4_160);
        let stream = [op(8, 0, &long), op(8, 0, &long[..1_088]), look()];
        let expected = [line(0), line(16), FRESH.to_vec()];
        assert_eq!(answers(&stream), expected.concat(), "{readers:?}");
    }
}

// Giving back.

/// What is written after the page of this operation and payload is asked this,
/// by value, lent and by the table, which is the same.
fn asked_of(operation: u8, payload: &[u8], request: Vec<u8>) -> Vec<u8> {
    let written = SINGLE.map(|number| {
        let stream = [
            op(operation, 0, payload),
            op(number, 0, &request),
            look(),
            op(9, 4_160, &[]),
        ];
        answers(&stream)
    });
    assert!(written.iter().all(|other| *other == written[0]));
    assert_eq!(written[0][..16], line(0));
    written[0][16..].to_vec()
}

/// The claim of the busy page becomes the last reader, at its bucket and with its
/// value, and no count changes.
#[test]
fn the_claim_of_a_busy_page_becomes_a_reader() {
    let value = [1, 2, 3, 4, 5, 6, 7, 8];
    let mut image = busy_image();
    image[..6].copy_from_slice(&[5, 1, 4, 0, 0, 0]);
    image[40..48].fill(0);
    image[112..114].copy_from_slice(&[3, 2]);
    image[120..128].copy_from_slice(&value);
    let expected = [
        line(0),
        vec![0, 0, 0, 0, 1, 0, 0, 0, 0, 0, 0, 0, 2, 0, 1, 0],
        vec![5, 1, 4, 0, 1, 0, 2, 1, 1, 2, 3, 4, 5, 6, 7, 8],
        vec![3, 2, 0, 0, 0, 0, 0, 0, 1, 2, 3, 4, 5, 6, 7, 8],
        vec![1, 0, 0, 0, 0, 0, 0, 0, 0, 0, 0, 0, 0, 0, 0, 0],
        vec![2, 3, 0, 0, 0, 0, 0, 0, 0, 0, 0, 0, 0, 0, 0, 0],
        vec![3, 2, 0, 0, 0, 0, 0, 0, 1, 2, 3, 4, 5, 6, 7, 8],
        line(0),
        image,
    ];
    for (operation, payload) in [(7, busy()), (8, busy_image())] {
        let written = asked_of(operation, &payload, ask(26, 0, 0, 0));
        assert_eq!(written, expected.concat());
    }
}

/// It goes, and there is one less at its bucket.
#[test]
fn the_claim_of_a_busy_page_is_dropped() {
    let mut image = busy_image();
    image[..6].copy_from_slice(&[5, 1, 3, 0, 0, 0]);
    image[18] = 1;
    image[40..48].fill(0);
    let expected = [
        line(0),
        vec![0, 0, 0, 0, 1, 0, 0, 0, 0, 0, 0, 0, 1, 0, 1, 0],
        vec![5, 1, 3, 0, 1, 0, 1, 1, 1, 2, 3, 4, 5, 6, 7, 8],
        vec![3, 2, 0, 0, 0, 0, 0, 0, 1, 2, 3, 4, 5, 6, 7, 8],
        vec![1, 0, 0, 0, 0, 0, 0, 0, 0, 0, 0, 0, 0, 0, 0, 0],
        vec![2, 3, 0, 0, 0, 0, 0, 0, 0, 0, 0, 0, 0, 0, 0, 0],
        line(0),
        image,
    ];
    for (operation, payload) in [(7, busy()), (8, busy_image())] {
        let written = asked_of(operation, &payload, ask(25, 0, 0, 0));
        assert_eq!(written, expected.concat());
    }
}

/// A claim without a bucket beside a reader at bucket 0: it goes, and the counts
/// stay; but it cannot become a reader.
#[test]
fn a_claim_without_a_bucket_leaves_the_counts() {
    let reader = [(2, 1), (16, 1), (64, 1)];
    let claimed = raw(&[&reader[..], &[(0, 4), (4, 1), (5, 255)]].concat());
    let left = raw(&[&reader[..], &[(0, 3)]].concat());
    let written = asked_of(7, &claimed, ask(25, 0, 0, 0));
    assert_eq!(written[..16], line(0));
    assert_eq!(written[written.len() - 4_160..], left);
    let written = asked_of(7, &claimed, ask(26, 0, 0, 0));
    assert_eq!(written[..16], line(7));
    assert_eq!(written[written.len() - 4_160..], claimed);
}

/// A claimant that waits beside the archive, and alone.
#[test]
fn a_claimant_stops_waiting() {
    let mut waiting = busy_image();
    waiting[0] = 7;
    waiting[4] = 2;
    let written = asked_of(8, &waiting, ask(27, 0, 0, 0));
    assert_eq!(written[..16], line(0));
    assert_eq!(written[written.len() - 4_160..], busy_image());
    for bucket in [0, 3] {
        let count = (16 + usize::from(bucket), 1);
        let waiting = raw(&[(0, 8), (4, 2), (5, bucket), count]);
        let written = asked_of(8, &waiting, ask(27, 0, 0, 0));
        let claimed = raw(&[(0, 4), (4, 1), (5, bucket), count]);
        assert_eq!(written[written.len() - 4_160..], claimed);
    }
}

/// After any number of visits, clean or not.
#[test]
fn a_claimant_turns_back() {
    for visited in 0..=4 {
        for (flag, clean) in [(10, 0), (9, 1)] {
            let holder = [(0, flag), (4, 3), (6, visited), (7, clean)];
            let own = [(5, 2), (18, 1)];
            let visiting = raw(&[&holder[..], &own].concat());
            let written = asked_of(8, &visiting, ask(28, 0, 0, 0));
            let claimed = raw(&[&[(0, 4), (4, 1)], &own[..]].concat());
            assert_eq!(written[..16], line(0));
            assert_eq!(written[written.len() - 4_160..], claimed);
        }
    }
}

/// An editor that has the page out and keeps this value, beside a reader at
/// bucket 0. It is at bucket 3, or without a bucket.
fn editing(clean: u8, counted: bool, value: u64) -> Vec<u8> {
    let reader = [(2, 1), (16, 1), (64, 1)];
    let out = [(0, 10 - clean), (1, 0), (4, 5), (7, clean)];
    let own: &[_] = if counted {
        &[(5, 3), (19, 1)]
    } else {
        &[(5, 255)]
    };
    let mut page = raw(&[&reader[..], &out, own].concat());
    page[40..48].copy_from_slice(&value.to_le_bytes());
    page
}

/// At bucket 3 and without a bucket, clean or not.
#[test]
fn an_editor_leaves() {
    let value = 0x0807_0605_0403_0201;
    for (clean, kept) in [(1, value), (0, value), (0, 9)] {
        for counted in [true, false] {
            leaves(&editing(clean, counted, kept));
        }
    }
}

/// The page is in with what the editor puts in, and the next loader gets just
/// that.
fn leaves(editing: &[u8]) {
    let value = 0x0807_0605_0403_0201;
    for (step, flag) in [(29, 3), (30, 0)] {
        let written = asked_of(8, editing, ask(step, 0, 0, value));
        let expected = [
            line(0),
            vec![0, 0, 0, 0, 1, 0, 0, 0, 0, 0, 0, 0, 0, 0, 0, 0],
            vec![flag, 1, 1, 0, 1, 0, 0, 0, 1, 2, 3, 4, 5, 6, 7, 8],
            vec![1, 0, 0, 0, 0, 0, 0, 0, 0, 0, 0, 0, 0, 0, 0, 0],
        ];
        assert_eq!(written[..64], expected.concat());
    }
    for load in [11, 12] {
        let requests = [
            ask(30, 0, 0, value),
            ask(30, 0, 0, value),
            ask(load, 0, 0, 0),
            ask(29, 0, 0, 1),
        ];
        let stream = [op(8, 0, editing), op(4, 64, &requests.concat())];
        let expected = [
            line(0),
            line(0),
            line(0),
            line(6),
            vec![0, 1, 0, 0, 0, 0, 0, 0, 1, 2, 3, 4, 5, 6, 7, 8],
            line(6),
        ];
        assert_eq!(answers(&stream), expected.concat());
    }
}

/// The kept value comes with a raw page and with an image, and stands at 40 in the
/// image that is written. A clean editor puts in nothing else.
#[test]
fn a_clean_editor_keeps_what_it_came_with() {
    let value = 0x0807_0605_0403_0201;
    for operation in [7, 8] {
        for counted in [true, false] {
            let page = editing(1, counted, value);
            assert_eq!(page[40..48], [1, 2, 3, 4, 5, 6, 7, 8]);
            for step in [9, 10, 29, 30] {
                let bucketless = !counted && step < 29;
                for other in [0, 1, value + 1, value ^ 1 << 63] {
                    let number = if bucketless { 7 } else { 17 };
                    let written = asked_of(operation, &page, ask(step, 0, 0, other));
                    assert_eq!(written[..16], line(number));
                    assert_eq!(written[written.len() - 4_160..], page);
                }
                let number = if bucketless { 7 } else { 0 };
                let written = asked_of(operation, &page, ask(step, 0, 0, value));
                assert_eq!(written[..16], line(number));
            }
        }
    }
}

/// What is kept comes in with a raw page whatever it is, and where the editor is
/// not clean any value can be put in.
#[test]
fn a_dirty_editor_puts_in_any_value() {
    for operation in [7, 8] {
        for (kept, value) in [(0, 9), (9, 0), (9, 9), (u64::MAX, 1)] {
            let page = editing(0, true, kept);
            for (step, flag) in [(9, 3), (10, 4), (29, 3), (30, 0)] {
                let written = asked_of(operation, &page, ask(step, 0, 0, value));
                assert_eq!(written[..16], line(0));
                assert_eq!(written[32..34], [flag, 1]);
                assert_eq!(written[40..48], value.to_le_bytes());
            }
        }
    }
}

/// The bucket comes later, and clean and the value stay.
#[test]
fn an_editor_keeps_its_value_where_it_gets_a_bucket() {
    for clean in [0, 1] {
        let uncounted = editing(clean, false, 0x0102_0304_0506_0708);
        let counted = editing(clean, true, 0x0102_0304_0506_0708);
        for operation in [7, 8] {
            let written = asked_of(operation, &uncounted, ask(18, 3, 0, 0));
            assert_eq!(written[..16], line(0));
            assert_eq!(written[written.len() - 4_160..], counted);
        }
    }
}

/// Kind 4 was an editor whose value was not kept. It has no meaning as a raw page
/// and is no image, whatever stands at 40.
#[test]
fn an_editor_that_does_not_say_what_it_took() {
    for clean in [0, 1] {
        for counted in [true, false] {
            for value in [0, 9] {
                let mut old = editing(clean, counted, value);
                assert_eq!(answers(&[op(8, 0, &old)]), line(0));
                old[4] = 4;
                let stream = [op(1, 5, &[]), op(8, 0, &old), look()];
                let expected = [line(0), line(16), FRESH.to_vec()];
                assert_eq!(answers(&stream), expected.concat());
                let stream = [op(7, 0, &unsound()), op(7, 0, &old), look()];
                let expected = [line(0), line(255), UNSOUND.to_vec()];
                assert_eq!(answers(&stream), expected.concat());
            }
        }
    }
}

/// What the six take: 29 and 30 a value, and nothing else. By every operation
/// that takes a request.
#[test]
fn the_fields_of_the_steps_that_give_back() {
    for step in 25..=30 {
        let valued = if step < 29 { 3 } else { 6 };
        let cases = [
            (ask(step, 0, 0, 0), 6),
            (ask(step, 0, 0, 1), valued),
            (ask(step, 1, 0, 0), 3),
            (ask(step, 4, 0, 0), 3),
            (ask(step, 1, 0, 9), 3),
            (ask(step, 0, 1, 0), 3),
            (ask(step, 0, 1, 9), 3),
        ];
        for (request, number) in cases {
            let stream = [
                op(2, 0, &request),
                op(3, 0, &request),
                op(13, 0, &request),
                op(4, 16, &request),
                op(5, 16, &request),
                look(),
            ];
            let (written, buffer) = match number {
                3 => (3, vec![170; 16]),
                _ => (0, request),
            };
            let expected = [
                line(number),
                line(number),
                line(number),
                line(0),
                line(number),
                line(written),
                buffer,
                FRESH.to_vec(),
            ];
            assert_eq!(answers(&stream), expected.concat());
        }
    }
}

// Readers that leave.

/// The bytes of a listed reader, in a look and in an image.
fn entry(reader: SharedState) -> Vec<u8> {
    let (phase, bucket, value) = match reader {
        SharedState::Pending { bucket } => (1, bucket, 0),
        SharedState::Pending2 { bucket } => (2, bucket, 0),
        SharedState::Obtained { bucket, value } => (3, bucket, value),
    };
    ask(phase, bucket.0, 0, value)
}

/// The exact lists, as a look shows them and as an image has them: by value, lent and
/// by the table by turns, and in a run.
#[test]
fn exact_lists() {
    for Row { requests, list } in rows() {
        let asked: Vec<Vec<u8>> = requests
            .iter()
            .map(|request| ask(request.step, request.bucket, 0, request.value))
            .collect();
        let by_turns = |first: usize| -> Vec<u8> {
            let turns = SINGLE.into_iter().cycle().skip(first);
            let single = asked.iter().zip(turns);
            single.flat_map(|(request, n)| op(n, 0, request)).collect()
        };
        let entries: Vec<u8> = list.iter().flat_map(|&reader| entry(reader)).collect();
        let rest = vec![0; 4_096 - entries.len()];
        let lines = 16 * asked.len();
        let run = op(4, lines as u64, &asked.concat());
        let streams = [
            (by_turns(0), lines),
            (by_turns(1), lines),
            (by_turns(2), lines),
            (run, 16 + lines),
        ];
        for (stream, answered) in streams {
            let written = answers(&[stream, look(), op(9, 4_160, &[])]);
            let (answers, seen) = written.split_at(answered);
            assert!(answers.chunks(16).all(|line| line[0] == 0));
            let (look, image) = seen.split_at(32 + entries.len());
            assert_eq!(look[..2], [0, 0]);
            assert_eq!(look[18..20], [list.len() as u8, 0]);
            assert_eq!(look[32..], entries, "{list:?}");
            assert_eq!(image[..16], line(0));
            assert_eq!(image[16 + 2..16 + 4], [list.len() as u8, 0]);
            assert_eq!(image[16 + 64..], [&entries[..], &rest].concat());
        }
    }
}

/// The third of the busy page's readers takes the place of the first, and of the
/// second; where it goes itself, nobody moves.
#[test]
fn one_leaves_a_busy_page() {
    let value = 0x0807_0605_0403_0201;
    let cases = [
        (ask(22, 2, 0, value), vec![(2, 3), (1, 0)]),
        (ask(20, 0, 0, 0), vec![(3, 2), (2, 3)]),
        (ask(21, 3, 0, 0), vec![(3, 2), (1, 0)]),
    ];
    for (request, left) in cases {
        let mut image = busy_image();
        image[2] = 2;
        image[16 + usize::from(request[1])] -= 1;
        image[64..112].fill(0);
        for (place, (phase, bucket)) in left.into_iter().enumerate() {
            let start = 64 + 16 * place;
            let value = if phase == 3 { value } else { 0 };
            image[start..start + 16].copy_from_slice(&ask(phase, bucket, 0, value));
        }
        for (operation, payload) in [(7, busy()), (8, busy_image())] {
            let written = asked_of(operation, &payload, request.clone());
            assert_eq!(written[..16], line(0));
            assert_eq!(written[48..80], image[64..96]);
            assert_eq!(written[written.len() - 4_160..], image);
        }
    }
}

// The program as a process.

fn drill() -> Command {
    let mut command = Command::new(env!("CARGO_BIN_EXE_drill"));
    command
        .stdin(Stdio::piped())
        .stdout(Stdio::piped())
        .stderr(Stdio::piped());
    command
}

#[test]
fn the_exit_status_is_0_after_a_bad_end_too() {
    let streams = [
        (look(), FRESH.to_vec()),
        (vec![1, 2, 3], line(255)),
        (op(99, 0, &[]), line(255)),
    ];
    for (stream, expected) in streams {
        let mut child = drill().spawn().unwrap();
        child.stdin.take().unwrap().write_all(&stream).unwrap();
        let output = child.wait_with_output().unwrap();
        assert!(output.status.success());
        assert_eq!(output.stdout, expected);
        assert_eq!(output.stderr, []);
    }
}

#[test]
fn a_reader_that_has_seen_enough_is_no_fault() {
    let mut child = drill().spawn().unwrap();
    drop(child.stdout.take());
    let mut input = child.stdin.take().unwrap();
    let stream = op(4, 65_536, &[]).repeat(1_000);
    // The program may be gone before all is written.
    let _ = input.write_all(&stream);
    drop(input);
    let output = child.wait_with_output().unwrap();
    assert!(output.status.success());
    assert_eq!(output.stderr, []);
}
