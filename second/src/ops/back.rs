//! Requests written back into a buffer.

use super::damage::{every_field, one_wrong, GOOD};
use super::random::Random;
use super::request::{step, EDGES};
use super::stream::Stream;
use crate::steps::{takes_bucket, takes_clean, takes_value};

/// Rooms around that of one request.
const ROOMS: [usize; 6] = [0, 1, 15, 16, 17, 40];

/// Every step, every room, every kind of wrong, short payloads and long ones.
pub fn play(stream: &mut Stream, random: &mut Random) {
    for number in 1..=30 {
        let bucket = u8::from(takes_bucket(number)) * random.byte_below(4);
        let clean = u8::from(takes_clean(number));
        let value = u64::from(takes_value(number)) * random.number();
        let request = step(number).at(bucket).clean(clean).of(value);
        stream.write_back(&request.bytes(), 16 + random.below(2));
    }
    for room in ROOMS {
        for good in GOOD {
            stream.write_back(&good.bytes(), room);
        }
    }
    for (place, request) in one_wrong().iter().enumerate() {
        stream.write_back(request, ROOMS[place % ROOMS.len()]);
    }
    for request in every_field(25..=31) {
        stream.write_back(&request, 16);
    }
    for value in EDGES {
        stream.write_back(&step(22).at(3).of(value).bytes(), 16);
    }
    lengths(stream);
}

/// The first bytes of a request, with bytes that are not looked at in between
/// and after.
fn lengths(stream: &mut Stream) {
    let mut fields = [255; 40];
    fields[..3].copy_from_slice(&[4, 3, 0]);
    for length in [0, 1, 2, 3, 7, 8, 9, 12, 15, 16, 17, 40] {
        stream.write_back(&fields[..length], 20);
    }
}
