//! The generator of operations for the drill.
//!
//! What is drawn, scripted or damaged is decided here, once: a stream goes
//! through scripts, wrong requests, runs, walks, raw pages, images, pieces and the
//! table of flags, and ends by its seed. The same seed and size always give the
//! same bytes.

pub mod back;
pub mod clean;
pub mod damage;
pub mod drawn;
pub mod ends;
pub mod extras;
pub mod forms;
pub mod image;
pub mod pages;
pub mod pieces;
pub mod random;
pub mod removals;
pub mod request;
pub mod restarts;
pub mod returns;
pub mod runs;
pub mod scripts;
pub mod situations;
pub mod stream;
pub mod table;
pub mod walks;

use std::ops::Range;

use random::Random;
use stream::Stream;

/// How many requests the walks make where nobody says how many.
pub const REQUESTS: usize = 500;

/// From so many requests on a stream is long, and has what is expensive.
pub const LONG: usize = 2_000;

/// What a stream is made by.
#[derive(Clone, Copy, Debug)]
pub struct Plan {
    /// Decides all that is drawn, and the end.
    pub seed: u64,
    /// About how many requests the walks make in all.
    pub requests: usize,
}

impl Plan {
    /// Whether the stream has what is expensive.
    pub fn long(&self) -> bool {
        self.requests >= LONG
    }

    /// One of these numbers, another one for the next seed.
    pub fn one_of(&self, numbers: Range<usize>) -> usize {
        let turn = self.seed % numbers.len() as u64;
        numbers.start + turn as usize
    }

    /// All of a table in a long stream, and every `n`th of it in a short one, so
    /// that `n` seeds in a row have all of it.
    pub fn share<T>(&self, table: Vec<T>, n: u64) -> impl Iterator<Item = T> {
        let (long, first) = (self.long(), self.seed % n);
        let turns = (first..).zip(table);
        turns
            .filter(move |(turn, _)| long || turn % n == 0)
            .map(|(_, entry)| entry)
    }
}

/// The stream of this plan.
pub fn stream(plan: &Plan) -> Vec<u8> {
    let mut random = Random::new(plan.seed);
    let mut stream = Stream::start(plan.seed);
    stream.look();
    scripts::play(&mut stream, &mut random, plan);
    scripts::play_situations(&mut stream, &mut random, plan);
    returns::play(&mut stream, &mut random, plan);
    clean::play(&mut stream, &mut random, plan);
    removals::play(&mut stream, plan);
    damage::play(&mut stream, plan);
    back::play(&mut stream, &mut random);
    runs::play(&mut stream, &mut random, plan);
    extras::play(&mut stream, &mut random, plan);
    let walked = walks::play(&mut stream, &mut random, plan);
    pages::play(&mut stream, &mut random, plan, &walked);
    restarts::play(&mut stream, &mut random, plan, &walked);
    forms::play(&mut stream, &mut random, plan);
    pieces::play(&mut stream, &mut random, plan, &walked);
    table::play(&mut stream, &mut random, plan);
    ends::play(&mut stream, &mut random, plan);
    stream.bytes()
}
