//! Long walks: requests drawn one after the other, most of them such as the
//! page accepts where it stands.

use super::clean::DEPOSITS;
use super::damage::one_wrong;
use super::random::Random;
use super::request::{records, step, Draft};
use super::scripts::ceilings;
use super::situations::PREFETCHES;
use super::stream::Stream;
use super::Plan;
use crate::kinds::{ExcState, Refusal, SharedState, CAPACITY, CEILING};
use crate::raw::IMAGE;
use crate::record::Page;
use crate::run::answer_line;
use crate::steps::{takes_bucket, takes_clean, takes_value};
use crate::wire::RECORD;

/// How the requests of a walk are drawn.
struct Mix {
    /// Steps, and how often each of them is drawn among all.
    steps: &'static [(usize, &'static [u8])],
    /// How the page is loaded first, if it is.
    load: Option<fn(&mut Random) -> Vec<Draft>>,
    /// How many requests a walk makes before the next one starts.
    length: usize,
    /// How often a request is drawn until the page accepts it.
    tries: usize,
}

const MIXES: [Mix; 7] = [
    READERS, CROWDED, LOADERS, EDITORS, RETURNS, ARCHIVE, EVERYTHING,
];

/// Readers come and go, and more of them come than go, until the list is full.
/// Among them are claimants that change their mind.
const READERS: Mix = Mix {
    steps: &[
        (16, &[19]),
        (6, &[23, 24]),
        (2, &[1, 2, 4, 20, 21, 22]),
        (1, &[3, 25, 26]),
    ],
    load: Some(load),
    length: 1_200,
    tries: TRIES,
};

/// Where there is hardly any room: whoever needs some of the list or of a count, and
/// readers that leave. Many are refused.
const CROWDED: Mix = Mix {
    steps: &[
        (24, &[19]),
        (6, &[9, 13, 16, 18, 20, 26]),
        (2, &[4, 10, 14, 21, 22, 23, 24]),
        (1, &[1, 2, 3, 5, 11, 15, 17, 25, 27, 29, 30]),
    ],
    load: Some(crowd),
    length: 100,
    tries: 2,
};

/// Loaders, until the page is there, and whoever comes next. Nobody unmaps it,
/// so these walks are short.
const LOADERS: Mix = Mix {
    steps: &[
        (2, &[11, 13, 17]),
        (1, &[1, 3, 4, 12, 14, 15, 16, 19, 20, 21, 23, 24]),
    ],
    load: None,
    length: 20,
    tries: TRIES,
};

/// Claimants and editors all the way, and a few readers in their way. Seldom one
/// gives back what he has; so there is time to come to the page.
const EDITORS: Mix = Mix {
    steps: &[
        (12, &[7, 8, 10, 20]),
        (8, &[4, 5, 6, 9, 18, 21, 22]),
        (2, &[3, 19, 23, 24, 26]),
        (1, &[12, 16, 17, 25, 27, 28, 29, 30]),
    ],
    load: Some(load),
    length: 300,
    tries: TRIES,
};

/// Claimants and editors who give back what they have, and loaders who come
/// where the page is unmapped.
const RETURNS: Mix = Mix {
    steps: &[
        (12, &[7, 8, 20]),
        (8, &[4, 5, 6, 16, 21, 30]),
        (4, &[18, 22, 23, 24, 26, 29]),
        (2, &[9, 10, 11, 13, 14, 19]),
        (1, &[1, 2, 3, 12, 15, 17, 25, 27, 28]),
    ],
    load: Some(load),
    length: 200,
    tries: TRIES,
};

/// The archive beside a claim, on a page that was loaded without a bucket.
const ARCHIVE: Mix = Mix {
    steps: &[
        (8, &[7, 8]),
        (5, &[4, 5, 6, 9, 18, 20, 21]),
        (3, &[1, 2, 10, 22, 26]),
        (1, &[3, 19, 23, 24, 25, 27, 29]),
    ],
    load: Some(prefetch),
    length: 200,
    tries: TRIES,
};

/// All steps. Those on the way to the page come more often than those that lead
/// away from it.
const EVERYTHING: Mix = Mix {
    steps: &[
        (8, &[7, 8]),
        (4, &[4, 5, 6, 9, 10, 20]),
        (2, &[18, 21, 22, 26]),
        (
            1,
            &[
                1, 2, 3, 11, 12, 13, 14, 15, 16, 17, 19, 23, 24, 25, 27, 28, 29, 30,
            ],
        ),
    ],
    load: None,
    length: 60,
    tries: TRIES,
};

/// How often a request is drawn in most walks, so that most are accepted.
const TRIES: usize = 20;

/// The longest run in a walk.
const LONGEST_RUN: usize = 12;

/// Walks of every mix. Gives back pages that they came by, at least one.
pub fn play(stream: &mut Stream, random: &mut Random, plan: &Plan) -> Vec<Page> {
    let mut pages = vec![stream.page().clone()];
    for mix in &MIXES {
        let mut left = plan.requests / MIXES.len();
        while left > 0 {
            let length = left.min(mix.length);
            walk(stream, random, plan, mix, length, &mut pages);
            left -= length;
        }
    }
    pages
}

/// One walk from a fresh page, with looks strewn in, seldom where the list is long,
/// with images where the exclusive holder is another than before, and in a long
/// stream with restarts.
fn walk(
    stream: &mut Stream,
    random: &mut Random,
    plan: &Plan,
    mix: &Mix,
    length: usize,
    pages: &mut Vec<Page>,
) {
    let hand = Hand::of(mix, random.byte_below(4));
    stream.fresh(random.value());
    if let Some(load) = mix.load {
        stream.run_all(&records(&load(random)));
    }
    let mut left = length;
    while left > 0 {
        let holder = stream.page().exc_state;
        left -= go_on(stream, random, &hand, left);
        if random.one_in(3 + stream.page().shared_state.listed().len() / 8) {
            stream.look();
        }
        if stream.page().exc_state != holder && random.one_in(12) {
            stream.write_image(IMAGE);
        }
        if plan.long() && random.one_in(50) {
            stream.restart();
        }
        if random.one_in(6) {
            pages.push(stream.page().clone());
        }
    }
    stream.look();
}

/// A load at any bucket; the loader stays as a reader, or leaves.
fn load(random: &mut Random) -> Vec<Draft> {
    let bucket = random.byte_below(4);
    let last = step(16 + random.byte_below(2)).of(random.value());
    vec![step(11), step(13).at(bucket), step(14), last]
}

/// What fills the page up to one of the ceilings.
fn crowd(random: &mut Random) -> Vec<Draft> {
    random.pick(&ceilings()).0
}

/// A load without a bucket, beside readers at bucket 0 and at any.
fn prefetch(random: &mut Random) -> Vec<Draft> {
    let bucket = random.byte_below(4);
    let load = random.pick(&PREFETCHES);
    let first = [step(19), step(19).at(bucket)];
    let then = [step(23).at(bucket), step(17).of(random.value())];
    [&first, load, &then].concat()
}

/// The next requests, by single steps or in a run; tells how many they were.
fn go_on(stream: &mut Stream, random: &mut Random, hand: &Hand, left: usize) -> usize {
    if !random.one_in(4) {
        stream.ask(&hand.draw(random, stream.page()));
        return 1;
    }
    let length = left.min(1 + random.below(LONGEST_RUN));
    let requests = hand.draw_run(random, stream.page(), length);
    let bytes = requests.as_flattened();
    let room = match random.below(8) {
        0 => random.below(bytes.len()),
        1..=3 => bytes.len() + random.below(20),
        _ => bytes.len(),
    };
    stream.run(bytes, room);
    length
}

/// What requests are drawn by: the steps, each as often as it is drawn, and a
/// bucket that is liked best, so that a bucket can come to its ceiling before the
/// list is full.
pub struct Hand {
    steps: Vec<u8>,
    bucket: u8,
    tries: usize,
}

impl Hand {
    fn of(mix: &Mix, bucket: u8) -> Hand {
        let steps = mix.steps.iter();
        let steps = steps.flat_map(|&(often, steps)| steps.repeat(often));
        Hand {
            steps: steps.collect(),
            bucket,
            tries: mix.tries,
        }
    }

    /// One for a page that came from elsewhere: it knows what the holders can
    /// do next, because a look does not show them, and where there is no room.
    pub fn for_page(page: &Page) -> Hand {
        let full = page.shared_state.listed().len() == CAPACITY;
        let mix = if full || page.ref_counts.contains(&CEILING) {
            CROWDED
        } else if page.exc_state.is_some() {
            EDITORS
        } else if page.loading_state.is_some() {
            LOADERS
        } else {
            EVERYTHING
        };
        Hand::of(&mix, 0)
    }

    /// A request: mostly one that the page accepts, at times a wrong one.
    pub fn draw(&self, random: &mut Random, page: &Page) -> [u8; RECORD] {
        match random.below(16) {
            0 => random.pick(&one_wrong()),
            1 => careless(random),
            2..=4 => self.fitting(random, page),
            _ => self.accepted(random, page),
        }
    }

    /// The requests of a run, each drawn for the page that the one before it
    /// leaves.
    pub fn draw_run(&self, random: &mut Random, page: &Page, length: usize) -> Vec<[u8; RECORD]> {
        let mut page = page.clone();
        let mut requests = Vec::new();
        for _ in 0..length {
            let request = self.draw(random, &page);
            let _ = answer_line(&mut page, &request);
            requests.push(request);
        }
        requests
    }

    /// One that the page accepts, if it is found soon. One that is refused for its
    /// value alone will do, too.
    fn accepted(&self, random: &mut Random, page: &Page) -> [u8; RECORD] {
        let mut request = self.fitting(random, page);
        for _ in 1..self.tries {
            match answer_line(&mut page.clone(), &request) {
                Ok(_) | Err(Refusal::OtherValue) => break,
                Err(_) => request = self.fitting(random, page),
            }
        }
        request
    }

    /// A good request whose fields fit the page, as far as one can tell from
    /// its readers, its storage and what an editor keeps.
    fn fitting(&self, random: &mut Random, page: &Page) -> [u8; RECORD] {
        let number = random.pick(&self.steps);
        let mut draft = step(number);
        if takes_bucket(number) {
            draft = draft.at(self.fitting_bucket(random, page, number));
        }
        if takes_clean(number) {
            draft = draft.clean(random.byte_below(2));
        }
        if takes_value(number) {
            draft = draft.of(fitting_value(random, page, number));
        }
        draft.bytes()
    }

    /// The bucket of a reader that the step is about, if there is one.
    fn fitting_bucket(&self, random: &mut Random, page: &Page, number: u8) -> u8 {
        let meant = |reader: &&SharedState| match number {
            20 | 23 => reader.phase() == 0,
            21 | 24 => reader.phase() == 1,
            4 | 22 => reader.phase() == 2,
            _ => false,
        };
        let readers: Vec<_> = page.shared_state.listed().iter().filter(meant).collect();
        if !readers.is_empty() {
            return random.pick(&readers).bucket().0;
        }
        if random.one_in(2) {
            self.bucket
        } else {
            random.byte_below(4)
        }
    }
}

/// The page's own value where the step asks for it, mostly; and half the time what
/// the editor keeps, where it puts the page in.
fn fitting_value(random: &mut Random, page: &Page, number: u8) -> u64 {
    match (page.storage, page.exc_state) {
        (Some(value), _) if matches!(number, 4 | 22) && !random.one_in(12) => value,
        (None, Some(ExcState::Obtained { value, .. })) if DEPOSITS.contains(&number) => {
            kept_or_not(random, value)
        }
        _ => random.value(),
    }
}

/// This value half the time, else one that is another in one bit, or any.
fn kept_or_not(random: &mut Random, value: u64) -> u64 {
    match random.below(4) {
        0 | 1 => value,
        2 => value ^ 1 << random.below(64),
        _ => random.value(),
    }
}

/// A request whose fields nobody fitted: any step, any bucket, any choice.
fn careless(random: &mut Random) -> [u8; RECORD] {
    let mut draft = step(random.byte_below(33)).at(random.byte_below(6));
    if random.one_in(4) {
        draft = draft.clean(random.byte_below(3));
    }
    if random.one_in(2) {
        draft = draft.of(random.value());
    }
    if random.one_in(8) {
        draft = draft.blank(3 + random.below(5), random.byte());
    }
    draft.bytes()
}
