//! What `show` says.

use std::process::Command;

use second::words::side_by_side;

fn request(step: u8, bucket: u8, value: u8) -> Vec<u8> {
    vec![step, bucket, 0, 0, 0, 0, 0, 0, value, 0, 0, 0, 0, 0, 0, 0]
}

fn answer(number: u8) -> Vec<u8> {
    vec![number, 0, 0, 0, 0, 0, 0, 0, 0, 0, 0, 0, 0, 0, 0, 0]
}

/// The words for one request's answer.
fn said(step: u8, number: u8) -> String {
    let lines = side_by_side(&request(step, 0, 0), &answer(number));
    assert_eq!(lines.len(), 2);
    let (_, words) = lines[0].rsplit_once("  ").unwrap();
    words.to_string()
}

#[test]
fn a_request_beside_its_answer_and_the_bytes_below() {
    let withdrawn = vec![0, 1, 0, 0, 0, 0, 0, 0, 9, 1, 0, 0, 0, 0, 0, 0];
    let requests = [request(12, 0, 0), request(22, 1, 5)].concat();
    let lines = side_by_side(&requests, &[withdrawn, answer(6)].concat());
    let expected = [
        "  1  12 withdraw_alloc_no_refcount                  accepted, and hands out 265",
        "     0c000000 00000000 00000000 00000000            00010000 00000000 09010000 00000000",
        "  2  22 shared_dec_count_obtained, bucket 1, value 5  refused, 6: its holder is not there",
        "     16010000 00000000 05000000 00000000            06000000 00000000 00000000 00000000",
    ];
    assert_eq!(lines, expected);
}

#[test]
fn refusals_that_depend_on_the_step() {
    assert_eq!(
        said(7, 8),
        "refused, 8: all four buckets are visited already"
    );
    assert_eq!(
        said(8, 8),
        "refused, 8: not all four buckets are visited yet"
    );
    assert_eq!(said(18, 7), "refused, 7: the holder has a bucket already");
    for step in [9, 10, 16, 26] {
        assert_eq!(said(step, 7), "refused, 7: the holder has no bucket");
    }
}

#[test]
fn another_value_than_a_clean_holder_keeps() {
    for step in [9, 10, 29, 30] {
        let words = "refused, 17: the holder is clean, and keeps another value";
        assert_eq!(said(step, 17), words);
    }
}

/// The words for a request of this step, with a value where it takes one.
fn asked(step: u8, value: u8) -> String {
    let lines = side_by_side(&request(step, 0, value), &answer(0));
    let words = lines[0].strip_suffix("  accepted").unwrap();
    words.trim().to_string()
}

#[test]
fn the_steps_that_give_back() {
    assert_eq!(asked(25, 0), "1  25 discard_claim");
    assert_eq!(asked(26, 0), "1  26 claim_to_shared");
    assert_eq!(asked(27, 0), "1  27 pending_to_claim");
    assert_eq!(asked(28, 0), "1  28 cancel_exc_lock_to_claim");
    assert_eq!(asked(29, 0), "1  29 deposit_exc_lock_to_done, value 0");
    assert_eq!(asked(30, 9), "1  30 deposit_exc_lock_to_unmapped, value 9");
}

#[test]
fn a_number_without_a_step() {
    assert_eq!(asked(0, 0), "1  0 no step");
    assert_eq!(asked(31, 0), "1  31 no step");
    assert_eq!(asked(255, 7), "1  255 no step, value 7");
    assert_eq!(said(31, 2), "refused, 2: no such step");
}

#[test]
fn a_refusal_of_the_whole_input_is_one_line() {
    let cases = [
        (
            15,
            12,
            "15 bytes came in and were refused as a whole, 12: not whole requests",
        ),
        (
            33,
            12,
            "33 bytes came in and were refused as a whole, 12: not whole requests",
        ),
        (
            32_784,
            13,
            "32784 bytes came in and were refused as a whole, 13: too many requests",
        ),
        (
            16,
            1,
            "16 bytes came in and were refused as a whole, 1: the record is not sound",
        ),
        (
            0,
            1,
            "0 bytes came in and were refused as a whole, 1: the record is not sound",
        ),
        (
            16,
            14,
            "16 bytes came in and were refused as a whole, 14: too little space for the answers",
        ),
    ];
    for (length, number, line) in cases {
        assert_eq!(side_by_side(&vec![19; length], &answer(number)), [line]);
    }
}

#[test]
fn one_answer_to_one_request_is_its_own() {
    for number in [0, 2, 3, 4, 5, 6, 7, 8, 9, 10, 11, 17] {
        let lines = side_by_side(&request(19, 0, 0), &answer(number));
        assert!(lines[0].starts_with("  1  19 shared_inc_count, bucket 0"));
    }
}

#[test]
fn no_input_and_missing_answers() {
    let nothing = "No request came in, so there was nothing to answer.";
    assert_eq!(side_by_side(&[], &[]), [nothing]);
    let lines = side_by_side(&request(19, 0, 0).repeat(3), &answer(0));
    assert_eq!(lines.len(), 3);
    assert_eq!(lines[2], "48 bytes of requests, 16 of answers");
    let lines = side_by_side(&[], &answer(0));
    assert_eq!(lines, ["0 bytes of requests, 16 of answers"]);
    let lines = side_by_side(&request(19, 0, 0), &[0; 7]);
    assert!(lines[0].ends_with("not an answer"));
}

#[test]
fn a_file_that_cannot_be_opened_is_named() {
    let output = Command::new(env!("CARGO_BIN_EXE_show"))
        .args(["no such requests", "no such answers"])
        .output()
        .unwrap();
    assert_eq!(output.status.code(), Some(1));
    let said = String::from_utf8(output.stderr).unwrap();
    assert!(said.starts_with("show: no such requests: "), "{said}");
}
