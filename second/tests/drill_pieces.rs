//! Operations 10 to 12 of the drill, by streams and answers that are written out by
//! hand.

use second::drill::program;

/// An operation of this number, with this number `a` and this payload.
fn op(number: u8, a: u64, payload: &[u8]) -> Vec<u8> {
    let length = payload.len() as u32;
    let mut bytes = vec![number, 0, 0, 0];
    bytes.extend(length.to_le_bytes());
    bytes.extend(a.to_le_bytes());
    bytes.extend(payload);
    bytes
}

/// What the program writes for these operations, one after the other.
fn answers(operations: &[Vec<u8>]) -> Vec<u8> {
    let mut output = Vec::new();
    program(&operations.concat()[..], &mut output).unwrap();
    output
}

/// A line that carries no value.
fn line(number: u8) -> Vec<u8> {
    let mut bytes = vec![0; 16];
    bytes[0] = number;
    bytes
}

/// A buffer as it is beforehand.
fn filling(length: usize) -> Vec<u8> {
    vec![170; length]
}

/// A carry of these bytes, as it is written.
fn carry(bytes: &[u8]) -> Vec<u8> {
    let mut written = vec![bytes.len() as u8];
    written.extend(bytes);
    written.resize(16, 0);
    written
}

fn look() -> Vec<u8> {
    op(6, 0, &[])
}

/// The first two requests of case A, step 12, and step 17 with value 5.
const CASE_A: [u8; 32] = [
    12, 0, 0, 0, 0, 0, 0, 0, 0, 0, 0, 0, 0, 0, 0, 0, //
    17, 0, 0, 0, 0, 0, 0, 0, 5, 0, 0, 0, 0, 0, 0, 0,
];

/// The answer to the first of them.
const WITHDRAWN: [u8; 16] = [0, 1, 0, 0, 0, 0, 0, 0, 0, 0, 0, 0, 0, 0, 0, 0];

/// What a look writes of a fresh page of 0, of one that is loading, and of the page
/// of case A.
const FRESH: [u8; 32] = [
    0, 0, 0, 0, 0, 0, 0, 0, 0, 0, 0, 0, 0, 0, 0, 0, //
    0, 1, 0, 0, 0, 0, 0, 0, 0, 0, 0, 0, 0, 0, 0, 0,
];
const LOADING: [u8; 32] = [
    0, 0, 0, 0, 0, 0, 0, 0, 0, 0, 0, 0, 0, 0, 0, 0, //
    1, 0, 0, 0, 0, 0, 0, 0, 0, 0, 0, 0, 0, 0, 0, 0,
];
const LOADED: [u8; 32] = [
    0, 0, 0, 0, 0, 0, 0, 0, 0, 0, 0, 0, 0, 0, 0, 0, //
    3, 1, 0, 0, 0, 0, 0, 0, 5, 0, 0, 0, 0, 0, 0, 0,
];

/// A page as it stands that breaks rule 6: claimed by nobody. And a look at it.
fn unsound() -> Vec<u8> {
    let mut page = vec![0; 4_160];
    page[0] = 4;
    page[1] = 1;
    page
}
const UNSOUND: [u8; 32] = [
    1, 6, 0, 0, 0, 0, 0, 0, 0, 0, 0, 0, 0, 0, 0, 0, //
    4, 1, 0, 0, 0, 0, 0, 0, 0, 0, 0, 0, 0, 0, 0, 0,
];

/// RULES 6.1, at the end.
#[test]
fn case_a_in_two_pieces() {
    let stream = [
        op(10, 16, &CASE_A[..20]),
        look(),
        op(10, 16, &CASE_A[20..]),
        look(),
        op(11, 0, &[]),
    ];
    let expected = [
        line(0),
        vec![4, 17, 0, 0, 0, 0, 0, 0, 0, 0, 0, 0, 0, 0, 0, 0],
        WITHDRAWN.to_vec(),
        LOADING.to_vec(),
        line(0),
        vec![0; 16],
        line(0),
        LOADED.to_vec(),
        line(0),
    ];
    assert_eq!(answers(&stream), expected.concat());
}

#[test]
fn case_a_in_three_pieces() {
    let stream = [
        op(10, 16, &CASE_A[..20]),
        op(10, 0, &CASE_A[20..25]),
        op(11, 0, &[]),
        look(),
        op(10, 20, &CASE_A[25..]),
        look(),
    ];
    let expected = [
        line(0),
        carry(&[17, 0, 0, 0]),
        WITHDRAWN.to_vec(),
        line(0),
        vec![9, 17, 0, 0, 0, 0, 0, 0, 0, 5, 0, 0, 0, 0, 0, 0],
        line(12),
        LOADING.to_vec(),
        line(0),
        vec![0; 16],
        line(0),
        filling(4),
        LOADED.to_vec(),
    ];
    assert_eq!(answers(&stream), expected.concat());
}

#[test]
fn case_a_byte_by_byte() {
    let mut stream = Vec::new();
    let mut expected = Vec::new();
    for (place, byte) in CASE_A.iter().enumerate() {
        stream.push(op(10, 16, &[*byte]));
        expected.extend(line(0));
        let first = place / 16 * 16;
        match place {
            15 => expected.extend([&[0; 16][..], &WITHDRAWN].concat()),
            31 => expected.extend([0; 32]),
            _ => expected.extend([carry(&CASE_A[first..=place]), filling(16)].concat()),
        }
    }
    stream.push(look());
    expected.extend(LOADED);
    assert_eq!(answers(&stream), expected);
}

/// A request that is refused is a line, and its piece is taken.
#[test]
fn a_refused_request_does_not_refuse_its_piece() {
    let mut bytes = [[0; 16]; 3];
    bytes[0][0] = 31;
    bytes[1][..2].copy_from_slice(&[19, 4]);
    bytes[2][..2].copy_from_slice(&[19, 3]);
    let stream = [op(10, 50, bytes.as_flattened()), look()];
    let expected = [
        line(0),
        vec![0; 16],
        line(2),
        line(4),
        line(0),
        filling(2),
        vec![0, 0, 0, 0, 0, 0, 0, 0, 0, 0, 0, 0, 0, 1, 0, 0],
        vec![0, 1, 1, 0, 0, 0, 0, 1, 0, 0, 0, 0, 0, 0, 0, 0],
        vec![1, 3, 0, 0, 0, 0, 0, 0, 0, 0, 0, 0, 0, 0, 0, 0],
    ];
    assert_eq!(answers(&stream), expected.concat());
}

#[test]
fn an_empty_piece_is_accepted() {
    let stream = [op(10, 0, &[]), op(10, 3, &[]), look()];
    let expected = [vec![0; 64], filling(3), FRESH.to_vec()];
    assert_eq!(answers(&stream), expected.concat());
}

/// Too little room, and then just enough.
#[test]
fn refusal_14_leaves_all_as_it_was() {
    let stream = [
        op(10, 0, &CASE_A[..5]),
        op(10, 16, &CASE_A[5..]),
        op(10, 31, &CASE_A[5..]),
        op(10, 0, &CASE_A[5..]),
        look(),
        op(10, 32, &CASE_A[5..]),
        look(),
    ];
    let five = carry(&[12, 0, 0, 0, 0]);
    let expected = [
        line(0),
        five.clone(),
        line(14),
        five.clone(),
        filling(16),
        line(14),
        five.clone(),
        filling(31),
        line(14),
        five,
        FRESH.to_vec(),
        line(0),
        vec![0; 16],
        WITHDRAWN.to_vec(),
        line(0),
        LOADED.to_vec(),
    ];
    assert_eq!(answers(&stream), expected.concat());
}

#[test]
fn refusal_13_from_4097_bytes_on() {
    for (length, number) in [(4_096, 0), (4_097, 13), (4_112, 13), (65_536, 13)] {
        let stream = [op(10, 4_096, &vec![0; length]), op(11, 0, &[]), look()];
        let mut expected = line(number);
        expected.extend([0; 16]);
        if number == 0 {
            expected.extend(line(2).repeat(256));
        } else {
            expected.extend(filling(4_096));
        }
        expected.extend(line(0));
        expected.extend(FRESH);
        assert_eq!(answers(&stream), expected, "{length}");
    }
}

/// 4,096 bytes after 15 are 256 requests, and 15 are left.
#[test]
fn the_longest_piece_after_the_longest_carry() {
    let stream = [
        op(10, 0, &CASE_A[..15]),
        op(10, 4_095, &[0; 4_096]),
        op(10, 4_096, &[0; 4_096]),
        op(11, 0, &[]),
    ];
    let fifteen = carry(&CASE_A[..15]);
    let expected = [
        line(0),
        fifteen.clone(),
        line(14),
        fifteen,
        filling(4_095),
        line(0),
        carry(&[0; 15]),
        WITHDRAWN.to_vec(),
        line(2).repeat(255),
        line(12),
    ];
    assert_eq!(answers(&stream), expected.concat());
}

#[test]
fn refusals_come_in_order() {
    let bad = [16, 1, 0, 0, 0, 0, 0, 0, 0, 0, 0, 0, 0, 0, 0, 2];
    let long = [0; 4_097];
    for (page, set, piece, room, number) in [
        (1, &bad[..], &long[..], 0, 1),
        (1, &bad, &[], 16, 1),
        (1, &[], &long, 5_000, 1),
        (1, &[], &long[..16], 0, 1),
        (1, &[], &[], 0, 1),
        (0, &bad, &long, 0, 12),
        (0, &bad, &long, 5_000, 12),
        (0, &bad, &long[..16], 0, 12),
        (0, &bad, &[], 0, 12),
        (0, &[], &long, 0, 13),
        (0, &[], &long, 5_000, 13),
        (0, &[], &long[..16], 15, 14),
    ] {
        let (given, seen) = if page == 1 {
            (op(7, 0, &unsound()), UNSOUND)
        } else {
            (op(1, 0, &[]), FRESH)
        };
        let stream = [given, op(12, 0, set), op(10, room, piece), look()];
        let mut written = set.to_vec();
        written.resize(16, 0);
        let expected = [
            line(0),
            line(0),
            line(number),
            written,
            filling(room as usize),
            seen.to_vec(),
        ];
        assert_eq!(answers(&stream), expected.concat());
    }
}

#[test]
fn a_buffer_has_65536_bytes_at_most() {
    for a in [65_535, 65_536, 65_537, 1 << 32, u64::MAX] {
        let length = a.min(65_536) as usize;
        let expected = [
            line(0),
            vec![0; 16],
            WITHDRAWN.to_vec(),
            filling(length - 16),
        ];
        assert_eq!(answers(&[op(10, a, &CASE_A[..16])]), expected.concat());
    }
}

/// Operation 11: nothing but the carry counts.
#[test]
fn operation_11_looks_at_the_carry_alone() {
    for (set, number) in [
        (&[][..], 0),
        (&[0], 0),
        (&[0; 16], 0),
        (&[1], 12),
        (&[15], 12),
        (&[16], 12),
        (&[255], 12),
        (&[0, 1], 12),
        (&[0, 0, 0, 0, 0, 0, 0, 0, 0, 0, 0, 0, 0, 0, 0, 128], 12),
        (&[3, 19, 0, 1], 12),
        (&[0, 0, 0, 0, 0, 0, 0, 0, 0, 0, 0, 0, 0, 0, 0, 0, 9], 0),
    ] {
        for (page, seen) in [(op(1, 0, &[]), FRESH), (op(7, 0, &unsound()), UNSOUND)] {
            let stream = [
                page,
                op(12, 77, set),
                op(11, 0, &[]),
                op(11, u64::MAX, &[1; 33]),
                look(),
            ];
            let expected = [line(0), line(0), line(number), line(number), seen.to_vec()];
            assert_eq!(answers(&stream), expected.concat(), "{set:?}");
        }
    }
}

/// Operation 12 takes sixteen bytes, and zero for what is missing; whatever the
/// carry was before.
#[test]
fn operation_12_sets_any_carry() {
    let bytes: Vec<u8> = (201..=240).collect();
    for length in [0, 1, 2, 8, 15, 16, 17, 40] {
        let stream = [
            op(12, 0, &[255; 16]),
            op(12, 9, &bytes[..length]),
            op(10, 2, &CASE_A),
        ];
        let mut written = bytes[..length.min(16)].to_vec();
        written.resize(16, 0);
        let number = if length == 0 { 14 } else { 12 };
        let expected = [line(0), line(0), line(number), written, filling(2)];
        assert_eq!(answers(&stream), expected.concat(), "{length}");
    }
}

/// The bytes that operation 12 sets stand before the piece's.
#[test]
fn a_carry_that_was_set_is_taken() {
    let stream = [
        op(12, 0, &[&[15], &CASE_A[..15]].concat()),
        op(10, 32, &CASE_A[15..]),
        look(),
    ];
    let expected = [
        line(0),
        line(0),
        vec![0; 16],
        WITHDRAWN.to_vec(),
        line(0),
        LOADED.to_vec(),
    ];
    assert_eq!(answers(&stream), expected.concat());
}

/// Every other operation in between; those that are refused, too.
#[test]
fn other_operations_leave_the_carry() {
    let mut image = vec![0; 4_160];
    image[1] = 1;
    let others = [
        op(1, 6, &[]),
        op(2, 0, &CASE_A[..16]),
        op(3, 0, &CASE_A[16..]),
        op(2, 0, &[]),
        op(13, 0, &CASE_A[..16]),
        op(13, 0, &[]),
        op(4, 32, &CASE_A),
        op(4, 0, &CASE_A),
        op(5, 16, &CASE_A),
        look(),
        op(7, 0, &unsound()),
        op(7, 0, &[]),
        op(8, 0, &image),
        op(8, 0, &[]),
        op(9, 0, &[]),
        op(9, 4_160, &[]),
        op(11, 0, &[]),
    ];
    for other in others {
        let first = op(10, 0, &CASE_A[..7]);
        let page = op(1, 0, &[]);
        let alone = answers(std::slice::from_ref(&other));
        let alone = if other[0] == 11 { line(12) } else { alone };
        let stream = [first, other, page, op(10, 32, &CASE_A[7..]), look()];
        let expected = [
            line(0),
            carry(&CASE_A[..7]),
            alone,
            line(0),
            line(0),
            vec![0; 16],
            WITHDRAWN.to_vec(),
            line(0),
            LOADED.to_vec(),
        ];
        assert_eq!(answers(&stream), expected.concat());
    }
}

/// More than 2,048 requests, from one page on.
#[test]
fn there_is_no_limit_to_the_pieces_together() {
    let piece = op(10, 4_096, &[0; 4_096]);
    let written = [line(0), vec![0; 16], line(2).repeat(256)].concat();
    assert_eq!(answers(&vec![piece; 20]), written.repeat(20));
}
