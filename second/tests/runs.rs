//! The run, and the program around it.

use std::io::{self, Read, Write};
use std::process::{Command, Stdio};

use second::kinds::{answer_number, Flag, Refusal};
use second::record::{fresh, Page};
use second::run::{judge_run, program, run};
use second::steps::step_in_place;
use second::wire::{answer_bytes, read_request};

/// Requests of these steps and buckets.
fn requests(steps: &[(u8, u8)]) -> Vec<u8> {
    let mut bytes = Vec::new();
    for &(step, bucket) in steps {
        let mut line = [0; 16];
        line[0] = step;
        line[1] = bucket;
        bytes.extend(line);
    }
    bytes
}

fn unsound() -> Page {
    let mut page = fresh(0);
    page.flag = Flag::Claimed;
    page
}

/// A run that is refused and touches nothing.
fn refused(page: &Page, bytes: &[u8], room: usize) -> u8 {
    let mut after = page.clone();
    let mut answers = vec![0xcc; room];
    let answer = run(&mut after, bytes, &mut answers);
    assert!(answer.is_err());
    assert_eq!(&after, page);
    assert_eq!(answers, vec![0xcc; room]);
    answer_number(&answer)
}

#[test]
fn whole_refusals_come_in_order() {
    let ragged_and_long = vec![19; 2_049 * 16 + 1];
    let long = &ragged_and_long[..2_049 * 16];
    let two = &ragged_and_long[..32];
    assert_eq!(refused(&unsound(), &ragged_and_long, 0), 1);
    assert_eq!(refused(&unsound(), &[], 0), 1);
    assert_eq!(refused(&fresh(0), &ragged_and_long, 0), 12);
    assert_eq!(refused(&fresh(0), &[19], 0), 12);
    assert_eq!(refused(&fresh(0), long, 0), 13);
    assert_eq!(refused(&fresh(0), long, 2_049 * 16), 13);
    for room in [0, 1, 15, 16, 31] {
        assert_eq!(refused(&fresh(0), two, room), 14);
    }
}

#[test]
fn an_empty_run_is_accepted() {
    let mut page = fresh(3);
    let mut answers = [0xcc; 5];
    assert_eq!(run(&mut page, &[], &mut answers), Ok(()));
    assert_eq!(page, fresh(3));
    assert_eq!(answers, [0xcc; 5]);
}

#[test]
fn lengths_of_runs() {
    for (length, number) in [
        (0, 0),
        (1, 12),
        (15, 12),
        (16, 0),
        (17, 12),
        (31, 12),
        (32, 0),
        (33, 12),
        (32_752, 0),
        (32_767, 12),
        (32_768, 0),
        (32_769, 12),
        (32_784, 13),
        (1_048_575, 12),
        (1_048_576, 13),
    ] {
        let mut answers = vec![0; length];
        let answer = run(&mut fresh(0), &vec![0; length], &mut answers);
        assert_eq!(answer_number(&answer), number, "length {length}");
        let judged = judge_run(&fresh(0), length, length);
        assert_eq!(judged, answer);
    }
}

#[test]
fn each_line_has_its_answer_and_the_rest_stays() {
    let bytes = requests(&[(12, 0), (31, 0), (12, 0), (19, 2), (19, 4), (20, 2), (1, 1)]);
    let mut page = fresh(0x0908);
    let mut answers = vec![0xcc; bytes.len() + 3];
    assert_eq!(run(&mut page, &bytes, &mut answers), Ok(()));
    let numbers: Vec<u8> = answers.chunks_exact(16).map(|line| line[0]).collect();
    assert_eq!(numbers, [0, 2, 5, 0, 4, 0, 3]);
    assert_eq!(
        answers[..16],
        [0, 1, 0, 0, 0, 0, 0, 0, 8, 9, 0, 0, 0, 0, 0, 0]
    );
    for line in answers.chunks_exact(16).skip(1) {
        assert_eq!(line[1..], [0; 15]);
    }
    assert_eq!(answers[bytes.len()..], [0xcc; 3]);
    assert_eq!(page.flag, Flag::Loading);
    assert_eq!(page.storage, None);
}

#[test]
fn a_run_is_its_steps_one_by_one() {
    let mut bytes = requests(&[(11, 0), (13, 2), (14, 0), (19, 1), (23, 1), (24, 1)]);
    bytes.extend([17, 0, 0, 0, 0, 0, 0, 0, 5, 0, 0, 0, 0, 0, 0, 0]);
    bytes.extend(requests(&[(24, 1), (1, 0), (0, 0), (24, 9), (2, 0)]));
    let mut page = fresh(0);
    let mut expected = Vec::new();
    for line in bytes.chunks_exact(16) {
        let answer = read_request(line).and_then(|request| step_in_place(&mut page, &request));
        expected.extend(answer_bytes(&answer));
    }
    let mut run_page = fresh(0);
    let mut answers = vec![0; bytes.len()];
    assert_eq!(run(&mut run_page, &bytes, &mut answers), Ok(()));
    assert_eq!(answers, expected);
    assert_eq!(run_page, page);
}

fn output(input: impl Read) -> Vec<u8> {
    let mut output = Vec::new();
    program(input, &mut output).unwrap();
    output
}

#[test]
fn the_program_judges_lengths() {
    for (length, number) in [
        (0, 0),
        (1, 12),
        (15, 12),
        (16, 0),
        (17, 12),
        (31, 12),
        (32, 0),
        (32_767, 12),
        (32_768, 0),
        (32_769, 12),
        (32_783, 12),
        (32_784, 13),
        (1_048_560, 13),
        (1_048_575, 12),
        (1_048_576, 13),
        (1_048_577, 13),
        (1_048_592, 13),
        (2_000_001, 13),
    ] {
        let written = output(&vec![0; length][..]);
        if number == 0 {
            assert_eq!(written.len(), length);
            assert!(written.chunks_exact(16).all(|line| line[0] == 2));
        } else {
            assert_eq!(written.len(), 16, "length {length}");
            assert_eq!(written[0], number, "length {length}");
            assert_eq!(written[1..], [0; 15]);
        }
    }
}

/// A reader without end that tells how much was read from it.
struct Endless(usize);

impl Read for &mut Endless {
    fn read(&mut self, buffer: &mut [u8]) -> io::Result<usize> {
        let some = buffer.len().min(1_000);
        buffer[..some].fill(19);
        self.0 += some;
        Ok(some)
    }
}

#[test]
fn the_program_reads_no_more_than_its_limit() {
    let mut endless = Endless(0);
    let written = output(&mut endless);
    assert_eq!(written, answer_bytes(&Err(Refusal::TooMany)));
    assert_eq!(endless.0, 1_048_576);
}

/// The program itself, as a process.
fn second(input: &[u8]) -> Vec<u8> {
    let mut child = Command::new(env!("CARGO_BIN_EXE_second"))
        .stdin(Stdio::piped())
        .stdout(Stdio::piped())
        .spawn()
        .unwrap();
    child.stdin.take().unwrap().write_all(input).unwrap();
    let output = child.wait_with_output().unwrap();
    assert!(output.status.success());
    output.stdout
}

#[test]
fn the_program_on_case_a() {
    let mut input = requests(&[(12, 0), (17, 0)]);
    input[16 + 8] = 5;
    let mut expected = vec![0; 32];
    expected[1] = 1;
    assert_eq!(second(&input), expected);
}

#[test]
fn the_program_on_whole_refusals() {
    assert_eq!(second(&[]), []);
    assert_eq!(second(&[19]), answer_bytes(&Err(Refusal::NotWhole)));
    let long = vec![0; 2_049 * 16];
    assert_eq!(second(&long), answer_bytes(&Err(Refusal::TooMany)));
    let most = second(&long[16..]);
    assert_eq!(most.len(), 2_048 * 16);
}
