//! Runs of every length and with every room that make a difference.

use super::random::Random;
use super::request::step;
use super::situations;
use super::stream::Stream;
use super::walks::Hand;
use super::Plan;
use crate::raw::{write_raw, IMAGE};

/// Lengths in bytes and rooms: each length exact, with less and with more.
const SHORT: [(usize, usize); 21] = [
    (0, 0),
    (0, 1),
    (0, 16),
    (1, 0),
    (1, 16),
    (15, 15),
    (15, 16),
    (16, 0),
    (16, 15),
    (16, 16),
    (16, 17),
    (17, 0),
    (17, 16),
    (17, 32),
    (31, 31),
    (32, 16),
    (32, 31),
    (32, 32),
    (32, 40),
    (48, 47),
    (48, 48),
];

/// The same around 2,048 requests. Every accepted one fills the list.
const LONG: [(usize, usize); 8] = [
    (32_767, 32_768),
    (32_768, 32_767),
    (32_768, 32_768),
    (32_769, 0),
    (32_784, 0),
    (32_784, 32_784),
    (65_535, 16),
    (65_536, 16),
];

/// All short lengths on a sound page, and then on one that is not, where 1
/// comes first. In a long stream the long ones, too.
pub fn play(stream: &mut Stream, random: &mut Random, plan: &Plan) {
    stream.play(&situations::available());
    for (length, room) in SHORT {
        run(stream, length, room);
        stream.look();
    }
    let mut page = situations::page_after(&situations::available());
    page.storage = None;
    stream.raw(&write_raw(&page));
    for (length, room) in SHORT {
        run(stream, length, room);
    }
    stream.look();
    if plan.long() {
        play_long(stream, random);
    }
}

/// Case J and around it, and a long run that is drawn.
fn play_long(stream: &mut Stream, random: &mut Random) {
    for (length, room) in LONG {
        stream.fresh(random.value());
        run(stream, length, room);
        stream.look();
    }
    stream.raw(&[0; IMAGE]);
    run(stream, 32_784, 0);
    stream.look();
    stream.play(&situations::available());
    let hand = Hand::for_page(stream.page());
    stream.run_all(&hand.draw_run(random, stream.page(), 2_047));
    stream.look();
}

/// A run of so many bytes: a reader comes to each bucket in turn.
fn run(stream: &mut Stream, length: usize, room: usize) {
    let turn = [0, 1, 2, 3].map(|bucket| step(19).at(bucket).bytes());
    let bytes: Vec<u8> = turn
        .as_flattened()
        .iter()
        .copied()
        .cycle()
        .take(length)
        .collect();
    stream.run(&bytes, room);
}
