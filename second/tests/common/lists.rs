//! The exact lists (RULES 10), row by row.

use second::kinds::{BucketId, Request, SharedState, StoredType};

/// The value that the page has.
pub const VALUE: StoredType = 5;

/// One row of the table.
struct Line {
    /// Whether it goes on from the one above, or starts with a loaded page.
    goes_on: bool,
    /// Steps, each with its bucket; 4 and 22 with the page's value.
    steps: &'static [(u8, u8)],
    /// Each reader: P, Q or R for Pending, Pending2 or Obtained, and its bucket.
    list: &'static str,
}

const LINES: [Line; 11] = [
    Line {
        goes_on: false,
        steps: &[(19, 0), (19, 1), (19, 2), (19, 3)],
        list: "P0 P1 P2 P3",
    },
    Line {
        goes_on: true,
        steps: &[(20, 1)],
        list: "P0 P3 P2",
    },
    Line {
        goes_on: true,
        steps: &[(20, 2)],
        list: "P0 P3",
    },
    Line {
        goes_on: true,
        steps: &[(20, 0)],
        list: "P3",
    },
    Line {
        goes_on: true,
        steps: &[(20, 3)],
        list: "",
    },
    Line {
        goes_on: false,
        steps: &[(19, 0), (19, 1), (19, 0), (19, 2), (19, 3), (20, 0)],
        list: "P3 P1 P0 P2",
    },
    Line {
        goes_on: true,
        steps: &[(19, 1), (23, 1)],
        list: "P3 Q1 P0 P2 P1",
    },
    Line {
        goes_on: true,
        steps: &[(23, 0), (21, 1)],
        list: "P3 P1 Q0 P2",
    },
    Line {
        goes_on: false,
        steps: &[
            (19, 0),
            (23, 0),
            (24, 0),
            (19, 1),
            (23, 1),
            (24, 1),
            (19, 2),
            (23, 2),
            (24, 2),
            (19, 3),
            (23, 3),
            (24, 3),
        ],
        list: "R0 R1 R2 R3",
    },
    Line {
        goes_on: true,
        steps: &[(4, 1)],
        list: "R0 R3 R2",
    },
    Line {
        goes_on: true,
        steps: &[(22, 0)],
        list: "R2 R3",
    },
];

/// What leads from a fresh record of 0 to the list of a row, and that list.
pub struct Row {
    pub requests: Vec<Request>,
    pub list: Vec<SharedState>,
}

/// All rows. Every request of theirs is accepted.
pub fn rows() -> Vec<Row> {
    let mut requests = Vec::new();
    let mut rows = Vec::new();
    for line in &LINES {
        if !line.goes_on {
            requests = vec![Request::new(12, 0, 0, 0), Request::new(17, 0, 0, VALUE)];
        }
        requests.extend(line.steps.iter().map(|&step| request(step)));
        rows.push(Row {
            requests: requests.clone(),
            list: line.list.split_whitespace().map(reader).collect(),
        });
    }
    rows
}

fn request((number, bucket): (u8, u8)) -> Request {
    let value = if let 4 | 22 = number { VALUE } else { 0 };
    Request::new(number, bucket, 0, value)
}

fn reader(word: &str) -> SharedState {
    let (phase, bucket) = word.split_at(1);
    let bucket = BucketId(bucket.parse().unwrap());
    match phase {
        "P" => SharedState::Pending { bucket },
        "Q" => SharedState::Pending2 { bucket },
        "R" => SharedState::Obtained {
            bucket,
            value: VALUE,
        },
        _ => panic!("{word}"),
    }
}
