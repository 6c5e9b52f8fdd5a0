//! What an operation does not need, and buffers of the longest.

use super::random::Random;
use super::request::{step, EDGES};
use super::stream::Stream;
use super::Plan;

/// The numbers that ask for the longest buffers.
pub const LARGE: [u64; 5] = [65_535, 65_536, 65_537, 1 << 32, u64::MAX];

/// First what is not needed, then the longest buffers.
pub fn play(stream: &mut Stream, random: &mut Random, plan: &Plan) {
    unneeded(stream, random, plan);
    large(stream, plan);
}

/// Fresh pages of all kinds of values, and then what an operation does not
/// need: a payload, or the number `a`.
fn unneeded(stream: &mut Stream, random: &mut Random, plan: &Plan) {
    for value in EDGES {
        stream.fresh(value);
        stream.look();
    }
    let request = step(19).at(2).bytes();
    let a = random.number();
    for number in [1, 6, 2, 3, 13, 6, 8, 6] {
        stream.push(number, a, &request);
    }
    stream.push(6, 16, &[1]);
    stream.push(9, 16, &request);
    if plan.long() {
        stream.push(1, a, &[19; 65_536]);
        stream.look();
    }
}

/// One of the longest buffers in a short stream, and one for each operation
/// that has a buffer in a long one. The seed decides which.
fn large(stream: &mut Stream, plan: &Plan) {
    let request = step(19).at(1).bytes();
    stream.fresh(plan.seed);
    let length = LARGE[(plan.seed % 5) as usize];
    for number in plan.share(vec![9, 5, 4], 3) {
        stream.push(number, length, &request);
    }
    stream.look();
}
