//! How a stream ends: between operations, or in one of the bad ways, with
//! something after it that must not be answered.

use super::random::Random;
use super::request::step;
use super::stream::{operation_bytes, Stream};
use super::Plan;
use crate::drill::HEAD;

/// The kinds of ends.
#[derive(Clone, Copy, Debug, PartialEq, Eq)]
pub enum End {
    /// Between operations.
    Clean,
    /// Inside a head.
    CutHead,
    /// Inside a payload.
    CutPayload,
    /// A head whose byte at this place, 1 to 3, is not zero.
    HeadByte(usize),
    /// A payload of one byte too many.
    LongPayload,
    /// A payload of the greatest length that a head can say.
    LongestPayload,
    /// An operation that is not listed.
    Unlisted(u8),
}

/// All ends, in the order in which the seeds go through them.
pub const ENDS: [End; 12] = [
    End::Clean,
    End::CutHead,
    End::CutPayload,
    End::HeadByte(1),
    End::HeadByte(2),
    End::HeadByte(3),
    End::LongPayload,
    End::LongestPayload,
    End::Unlisted(0),
    End::Unlisted(14),
    End::Unlisted(21),
    End::Unlisted(255),
];

/// The end that a seed has.
pub fn end_of(seed: u64) -> End {
    ENDS[(seed % ENDS.len() as u64) as usize]
}

/// Writes the end of this seed, after a last look.
pub fn play(stream: &mut Stream, random: &mut Random, plan: &Plan) {
    stream.look();
    let request = step(19).at(1).bytes();
    let whole = operation_bytes(random.pick(&[2, 13]), 0, &request);
    let bytes = match end_of(plan.seed) {
        End::Clean => return,
        End::CutHead => whole[..1 + random.below(HEAD - 1)].to_vec(),
        End::CutPayload => whole[..HEAD + random.below(request.len())].to_vec(),
        End::HeadByte(place) => followed(changed(&whole, place, 1 + random.byte_below(255))),
        End::LongPayload => long_payload(plan),
        End::LongestPayload => followed(with_length(u32::MAX)),
        End::Unlisted(number) => followed(changed(&whole, 0, number)),
    };
    stream.finish(&bytes);
}

/// A fresh page that must not be made, and a look that must not be taken.
fn followed(mut bytes: Vec<u8>) -> Vec<u8> {
    bytes.extend(operation_bytes(1, 77, &[]));
    bytes.extend(operation_bytes(6, 0, &[]));
    bytes
}

fn changed(operation: &[u8], place: usize, byte: u8) -> Vec<u8> {
    let mut bytes = operation.to_vec();
    bytes[place] = byte;
    bytes
}

/// An operation that needs no payload, with a head that says this length.
fn with_length(length: u32) -> Vec<u8> {
    let mut head = operation_bytes(1, 77, &[]);
    head[4..8].copy_from_slice(&length.to_le_bytes());
    head
}

/// Only a long stream can have the payload too, and does.
fn long_payload(plan: &Plan) -> Vec<u8> {
    let mut bytes = with_length(65_537);
    if plan.long() {
        bytes.extend([0; 65_537]);
    }
    followed(bytes)
}
