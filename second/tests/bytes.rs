//! Requests and answers as bytes.

use second::kinds::{Refusal, Request, StoredType};
use second::wire::{answer_bytes, read_answer, read_request, write_request};

const EXAMPLE: [u8; 16] = [0x16, 1, 0, 0, 0, 0, 0, 0, 5, 0, 0, 0, 0, 0, 0, 0];

fn all_fields() -> Vec<Request> {
    let mut all = Vec::new();
    for step in 0..=32 {
        for bucket in [0, 1, 2, 3, 4, 255] {
            for clean in [0, 1, 2, 255] {
                for value in [0, 1, 5, 0x0102_0304_0506_0708, StoredType::MAX] {
                    all.push(Request::new(step, bucket, clean, value));
                }
            }
        }
    }
    all
}

/// The bytes of a request, whatever its fields are.
fn raw(request: &Request) -> [u8; 16] {
    let mut line = [0; 16];
    line[0] = request.step;
    line[1] = request.bucket;
    line[2] = request.clean;
    for (place, byte) in line[8..].iter_mut().enumerate() {
        *byte = (request.value >> (8 * place)) as u8;
    }
    line
}

#[test]
fn the_example() {
    let request = Request::new(22, 1, 0, 5);
    assert_eq!(read_request(&EXAMPLE), Ok(request));
    let mut line = [0xff; 16];
    assert_eq!(write_request(&request, &mut line), Ok(()));
    assert_eq!(line, EXAMPLE);
}

#[test]
fn the_low_byte_is_first() {
    let line = [22, 3, 0, 0, 0, 0, 0, 0, 8, 7, 6, 5, 4, 3, 2, 1];
    let request = Request::new(22, 3, 0, 0x0102_0304_0506_0708);
    assert_eq!(read_request(&line), Ok(request));
    assert_eq!(raw(&request), line);
}

#[test]
fn reading_accepts_exactly_what_writing_produces() {
    let mut accepted = 0;
    for request in all_fields() {
        let mut line = [0xee; 20];
        match write_request(&request, &mut line) {
            Ok(()) => {
                accepted += 1;
                assert_eq!(line[..16], raw(&request));
                assert_eq!(line[16..], [0xee; 4]);
                assert_eq!(read_request(&line[..16]), Ok(request));
            }
            Err(refusal) => {
                assert_eq!(line, [0xee; 20]);
                assert_eq!(read_request(&raw(&request)), Err(refusal));
            }
        }
    }
    // Fourteen steps take nothing, one a choice, six a value, seven a bucket,
    // and two a bucket and a value.
    assert_eq!(accepted, 14 + 2 + 6 * 5 + 7 * 4 + 2 * 4 * 5);
}

#[test]
fn reading_tests_the_length_first() {
    for length in (0..40).filter(|&length| length != 16) {
        assert_eq!(read_request(&vec![0xff; length]), Err(Refusal::NotWhole));
    }
    assert_eq!(read_request(&[0xff; 16]), Err(Refusal::UnknownStep));
}

#[test]
fn bytes_3_to_7_are_zero() {
    for place in 3..8 {
        let mut line = EXAMPLE;
        line[place] = 1;
        assert_eq!(read_request(&line), Err(Refusal::BadField));
        line[1] = 4;
        assert_eq!(read_request(&line), Err(Refusal::BadField));
        line[0] = 31;
        assert_eq!(read_request(&line), Err(Refusal::UnknownStep));
    }
}

#[test]
fn writing_judges_fields_before_room() {
    let good = Request::new(19, 3, 0, 0);
    for room in 0..16 {
        let mut line = vec![0xaa; room];
        assert_eq!(write_request(&good, &mut line), Err(Refusal::NoRoom));
        assert_eq!(line, vec![0xaa; room]);
        for (request, refusal) in [
            (Request::new(0, 0, 0, 0), Refusal::UnknownStep),
            (Request::new(19, 0, 1, 0), Refusal::BadField),
            (Request::new(19, 4, 0, 0), Refusal::BadBucket),
        ] {
            assert_eq!(write_request(&request, &mut line), Err(refusal));
            assert_eq!(line, vec![0xaa; room]);
        }
    }
}

#[test]
fn answers_and_back() {
    let answers = [
        Ok(None),
        Ok(Some(0)),
        Ok(Some(1)),
        Ok(Some(StoredType::MAX)),
        Err(Refusal::NotSound),
        Err(Refusal::UnknownStep),
        Err(Refusal::BadField),
        Err(Refusal::BadBucket),
        Err(Refusal::WrongFlag),
        Err(Refusal::NoHolder),
        Err(Refusal::HolderBucket),
        Err(Refusal::WrongVisited),
        Err(Refusal::OtherCount),
        Err(Refusal::CountFull),
        Err(Refusal::ListFull),
        Err(Refusal::NotWhole),
        Err(Refusal::TooMany),
        Err(Refusal::NoRoom),
        Err(Refusal::ImageLength),
        Err(Refusal::NotImage),
        Err(Refusal::OtherValue),
    ];
    for answer in answers {
        assert_eq!(read_answer(&answer_bytes(&answer)), Some(answer));
    }
    assert_eq!(answers.len(), 4 + 17);
    for (number, answer) in (1..=17).zip(&answers[4..]) {
        assert_eq!(answer_bytes(answer)[0], number);
        assert_eq!(answer_bytes(answer)[1..], [0; 15]);
    }
    assert_eq!(answer_bytes(&Ok(None)), [0; 16]);
    assert_eq!(
        answer_bytes(&Ok(Some(0x0102))),
        [0, 1, 0, 0, 0, 0, 0, 0, 2, 1, 0, 0, 0, 0, 0, 0]
    );
}

#[test]
fn other_bytes_are_no_answer() {
    for place in 2..8 {
        let mut line = [0; 16];
        line[place] = 1;
        assert_eq!(read_answer(&line), None);
    }
    let with = |place: usize, byte: u8, number: u8| {
        let mut line = [0; 16];
        line[0] = number;
        line[place] = byte;
        read_answer(&line)
    };
    assert_eq!(with(0, 18, 0), None, "no such number");
    assert_eq!(with(0, 255, 0), None, "no such number");
    assert_eq!(with(1, 2, 0), None, "neither 0 nor 1");
    assert_eq!(with(1, 1, 5), None, "a refusal with a value");
    assert_eq!(with(8, 1, 5), None, "a refusal with a value");
    assert_eq!(with(8, 1, 0), None, "a value that was not withdrawn");
}
