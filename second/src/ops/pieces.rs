//! Requests in pieces: cut anywhere, carried from one piece to the next, finished
//! whole and ragged, and refused for each ground and for every two at once.

use super::extras::LARGE;
use super::image::{after, Image};
use super::pages::main_pages;
use super::random::Random;
use super::request::{records, step, Draft};
use super::restarts::full;
use super::scripts::{ceilings, every_step};
use super::situations::{self, available, page_after, LOADED};
use super::stream::Stream;
use super::walks::Hand;
use super::Plan;
use crate::pieces::{CARRY, PIECE};
use crate::raw::{place, IMAGE};
use crate::record::Page;
use crate::run::RUN_REQUESTS;
use crate::wire::RECORD;

/// Lengths that pieces are cut to; others are drawn.
const LENGTHS: [usize; 9] = [0, 1, 2, 15, 16, 17, 31, 32, 33];

/// Lengths of a carry and of the piece after it, around those by which one request
/// more is whole.
const AROUND: [(usize, usize); 12] = [
    (0, 0),
    (0, 15),
    (0, 16),
    (0, 33),
    (1, 14),
    (1, 15),
    (7, 25),
    (15, 0),
    (15, 1),
    (15, 16),
    (15, 17),
    (15, 33),
];

/// How much more room than it needs a piece gets, by turns.
const MORE: [usize; 5] = [0, 1, 15, 16, 40];

/// Lengths of a carry that operation 12 sets: all that one has, and some that none
/// has.
const CARRIED: [u8; 19] = [
    0, 1, 2, 3, 4, 5, 6, 7, 8, 9, 10, 11, 12, 13, 14, 15, 16, 17, 255,
];

/// What a piece is refused for: each ground alone, and every two of them. First
/// those of a page that is not sound.
const UNSOUND: [&[u8]; 4] = [&[1], &[1, 12], &[1, 13], &[1, 14]];
const SOUND: [&[u8]; 6] = [&[12], &[13], &[14], &[12, 13], &[12, 14], &[13, 14]];

/// Three grounds and all four, which only a long stream has.
const SEVERAL: [&[u8]; 5] = [
    &[1, 12, 13],
    &[1, 12, 14],
    &[1, 13, 14],
    &[12, 13, 14],
    &[1, 12, 13, 14],
];

/// Lengths that no piece has, and that only a long stream has.
const LONG_LENGTHS: [usize; 5] = [PIECE + RECORD, 2 * PIECE, 32_768, 65_535, 65_536];

/// How many bytes a carry has where one is needed that is good.
const SOME: usize = 5;

/// The carry as it is at first, scripts and walks in pieces, the same bytes in
/// several ways, more requests than a run may have, ceilings, carries, rooms, what
/// comes in between, and refusals.
pub fn play(stream: &mut Stream, random: &mut Random, plan: &Plan, walked: &[Page]) {
    stream.finish_pieces();
    play_scripts(stream, random, plan);
    play_walks(stream, random, plan, walked);
    play_ways(stream, random, plan);
    play_many(stream, random);
    play_ceilings(stream, random, plan);
    play_carries(stream, random, plan);
    play_payloads(stream, random);
    play_rooms(stream, random);
    play_between(stream, random);
    play_refusals(stream, random, plan);
    play_large(stream, random, plan);
    if plan.long() {
        play_long(stream, random);
    }
}

/// The page's way round: it is loaded at this bucket, edited by two editors, of whom
/// the second is clean, and unmapped again. A reader is in the first one's way for a
/// while, and some requests are refused, of which one is wrong. What is handed out was
/// put in before.
fn turn(bucket: u8, first: u64, second: u64) -> Vec<Draft> {
    vec![
        step(11),
        step(12),
        step(13).at(bucket),
        step(14),
        step(16).of(first),
        step(2),
        step(4).at(bucket).of(first),
        step(5),
        step(6),
        step(19),
        step(7),
        step(8),
        step(20),
        step(7).times(4),
        step(8),
        step(18).at(bucket),
        step(29).clean(1).of(second),
        step(29).of(second),
        step(3),
        step(5),
        step(6).clean(1),
        step(7).times(4),
        step(8),
        step(30).of(second ^ 1),
        step(30).of(second),
    ]
}

/// So many bytes of requests: from a fresh page on, it goes round and round.
fn turns(random: &mut Random, length: usize) -> Vec<u8> {
    let mut bytes = Vec::new();
    while bytes.len() < length {
        let script = turn(random.byte_below(4), random.value(), random.value());
        bytes.extend(records(&script).as_flattened());
    }
    bytes.truncate(length);
    bytes
}

/// The length of the next piece, where so many bytes are left.
fn cut(random: &mut Random, left: usize) -> usize {
    let length = if random.one_in(3) {
        random.below(4 * RECORD)
    } else {
        random.pick(&LENGTHS)
    };
    length.min(left)
}

/// The bytes in pieces that are cut anywhere, finished at the end.
fn in_pieces(stream: &mut Stream, random: &mut Random, bytes: &[u8]) {
    let mut left = bytes;
    while !left.is_empty() {
        let (piece, rest) = left.split_at(cut(random, left.len()));
        take(stream, random, piece);
        left = rest;
    }
    stream.finish_pieces();
    stream.look_closely();
}

/// A piece, at times once before it with too little room, and at times with more
/// than it needs. Looks are strewn in, and finishing.
fn take(stream: &mut Stream, random: &mut Random, piece: &[u8]) {
    let needed = stream.room_for(piece);
    if needed > 0 && random.one_in(8) {
        stream.piece(piece, needed - random.pick(&[1, RECORD, needed]));
        stream.look();
    }
    let more = random.pick(&MORE) * usize::from(random.one_in(4));
    stream.piece(piece, needed + more);
    match random.below(8) {
        0 | 1 => stream.look(),
        2 => stream.finish_pieces(),
        _ => (),
    }
}

/// A request that is not whole at the end, twice: it is finished so, and then it is
/// dropped, and made whole.
fn play_ragged(stream: &mut Stream, random: &mut Random) {
    let hand = Hand::for_page(stream.page());
    for dropped in [true, false] {
        let request = hand.draw(random, stream.page());
        let (first, rest) = request.split_at(1 + random.below(CARRY));
        stream.piece_all(first);
        stream.finish_pieces();
        stream.look();
        if dropped {
            stream.set_carry(&[]);
        } else {
            stream.piece_all(rest);
        }
        stream.finish_pieces();
    }
}

/// What leads to a situation, any steps there and what is drawn for it, from a fresh
/// page.
fn play_scripts(stream: &mut Stream, random: &mut Random, plan: &Plan) {
    for situation in plan.share(situations::all(), 7) {
        let page = page_after(&situation);
        let steps = (0..4).map(|_| random.pick(&every_step())).collect();
        let drawn = Hand::for_page(&page).draw_run(random, &page, 6);
        let requests = [records(&situation), steps, drawn].concat();
        stream.fresh(0);
        in_pieces(stream, random, requests.as_flattened());
        play_ragged(stream, random);
    }
}

/// Requests that are drawn, from a fresh page, and in a long stream from pages that
/// a walk came by.
fn play_walks(stream: &mut Stream, random: &mut Random, plan: &Plan, walked: &[Page]) {
    for turn in 0..(plan.requests / 250).max(2) {
        if plan.long() && turn % 2 == 1 {
            stream.read_page(&random.pick(walked));
        } else {
            stream.fresh(random.value());
        }
        let hand = Hand::for_page(stream.page());
        let requests = hand.draw_run(random, stream.page(), 16);
        in_pieces(stream, random, requests.as_flattened());
        play_ragged(stream, random);
    }
}

/// The same bytes from the same page: in one run, one by one, and in pieces that
/// are cut in two ways.
fn play_ways(stream: &mut Stream, random: &mut Random, plan: &Plan) {
    for _ in 0..(plan.requests / 1_000).max(1) {
        let value = random.value();
        stream.fresh(value);
        let hand = Hand::for_page(stream.page());
        let requests = hand.draw_run(random, stream.page(), 12);
        stream.run_all(&requests);
        stream.look_closely();
        stream.fresh(value);
        for request in &requests {
            stream.ask_by_value(request);
        }
        stream.look_closely();
        for _ in 0..2 {
            stream.fresh(value);
            in_pieces(stream, random, requests.as_flattened());
        }
        if plan.long() {
            stream.fresh(value);
            let bytes = requests.as_flattened().chunks(1);
            bytes.for_each(|byte| stream.piece_all(byte));
            stream.look_closely();
        }
    }
}

/// More requests in pieces than a run may have, with neither a fresh page nor
/// another carry in between: the longest pieces after the longest carry, one that
/// is a byte shorter, and what makes the last requests whole.
fn play_many(stream: &mut Stream, random: &mut Random) {
    let bytes = turns(random, (RUN_REQUESTS + 2) * RECORD);
    let longest = RUN_REQUESTS * RECORD / PIECE - 1;
    let mut lengths = vec![CARRY];
    lengths.extend(vec![PIECE; longest]);
    lengths.extend([PIECE - 1, 3]);
    let mut left = &bytes[..];
    stream.fresh(random.value());
    for length in lengths {
        let (piece, rest) = left.split_at(length);
        stream.piece_all(piece);
        left = rest;
    }
    stream.finish_pieces();
    stream.look();
    stream.piece_all(left);
    stream.finish_pieces();
    stream.look();
}

/// Ceilings in pieces that are almost as long as they can be, from a fresh page.
fn play_ceilings(stream: &mut Stream, random: &mut Random, plan: &Plan) {
    for (filled, asked) in plan.share(ceilings(), 10) {
        let requests = records(&[filled, asked].concat());
        stream.fresh(0);
        for piece in requests.as_flattened().chunks(PIECE - random.below(RECORD)) {
            stream.piece_all(piece);
        }
        stream.finish_pieces();
        stream.look();
    }
}

/// A carry as it is written, with this byte at one of its places, as far as it is
/// not zero.
fn carry_with(length: u8, place: usize, byte: u8) -> Vec<u8> {
    let mut bytes = vec![0; place + 2];
    bytes[0] = length;
    bytes[place + 1] = byte;
    bytes
}

/// Carries of every length, with zeros and with one byte set: the last one that is
/// carried, the first one past it, and the very last, and where nothing is carried
/// at each place. In a long stream at each place of all.
fn carries(random: &mut Random, plan: &Plan) -> Vec<Vec<u8>> {
    let mut carries = Vec::new();
    for length in CARRIED {
        carries.push(vec![length]);
        let end = usize::from(length);
        for place in 0..CARRY {
            let edge = place + 1 == end || place == end || place == CARRY - 1;
            if edge || length == 0 || plan.long() {
                carries.push(carry_with(length, place, 1 + random.byte_below(255)));
            }
        }
    }
    carries
}

/// Each carry finished, and then with a piece that has no byte; in a long stream
/// with one of one byte, too.
fn play_carries(stream: &mut Stream, random: &mut Random, plan: &Plan) {
    stream.fresh(random.value());
    for carry in carries(random, plan) {
        stream.set_carry(&carry);
        stream.finish_pieces();
        stream.piece(&[], 0);
        if plan.long() {
            stream.piece(&[random.byte()], RECORD);
        }
    }
    stream.look();
    stream.set_carry(&[]);
}

/// Payloads of operation 12 that are long, whole and short, each where one byte more
/// was set before. Then what operations 11 and 12 do not need.
fn play_payloads(stream: &mut Stream, random: &mut Random) {
    for length in [40].into_iter().chain((0..=RECORD + 1).rev()) {
        let mut payload: Vec<u8> = (1..=length).map(|_| 1 + random.byte_below(255)).collect();
        if let Some(first) = payload.first_mut() {
            *first = (length - 1).min(CARRY) as u8;
        }
        stream.set_carry(&payload);
        stream.piece(&[], 0);
    }
    let a = random.number();
    stream.push(12, a, &carry_with(1, 0, 19));
    stream.push(11, a, &[0; 20]);
    stream.push(12, a, &[]);
    stream.push(11, a, &[1; RECORD]);
}

/// Pieces with no room, with room for one request less and for all but a byte, and
/// then with just enough or more.
fn play_rooms(stream: &mut Stream, random: &mut Random) {
    let bytes = turns(random, PIECE);
    let mut left = &bytes[..];
    stream.fresh(random.value());
    for ((carried, length), more) in AROUND.into_iter().zip(MORE.into_iter().cycle()) {
        let (first, rest) = left.split_at(carried);
        let piece = &rest[..length];
        stream.set_carry(&[&[carried as u8], first].concat());
        let needed = stream.room_for(piece);
        let mut rooms = vec![0, needed.saturating_sub(RECORD), needed.saturating_sub(1)];
        rooms.dedup();
        for room in rooms.into_iter().filter(|&room| room < needed) {
            stream.piece(piece, room);
        }
        stream.look();
        stream.piece(piece, needed + more);
        left = &left[needed..];
    }
    stream.look();
    stream.set_carry(&[]);
}

/// Every other operation between two pieces of one byte, which come to the same
/// request; at last it is whole. The payload of operation 7 has no meaning here.
fn play_between(stream: &mut Stream, random: &mut Random) {
    let request = step(4).at(3).of(LOADED).bytes();
    let (first, rest) = request.split_at(2);
    stream.piece_all(first);
    for (number, byte) in (1..=9).chain([13]).zip(rest.chunks(1)) {
        play_other(stream, random, number);
        stream.piece_all(byte);
    }
    stream.finish_pieces();
    stream.piece_all(&rest[10..]);
    stream.finish_pieces();
    stream.look_closely();
}

/// An operation that has nothing to do with pieces. The last page that they leave
/// is a loaded one.
fn play_other(stream: &mut Stream, random: &mut Random, number: u8) {
    let request = step(19).at(random.byte_below(4)).bytes();
    match number {
        1 => stream.fresh(random.value()),
        4 => stream.run_all(&[request]),
        5 => stream.write_back(&request, RECORD),
        8 => stream.read_page(&page_after(&available())),
        9 => stream.write_image(IMAGE),
        _ => stream.push(number, 0, &request),
    }
}

/// A page that is not sound: it is loaded, and storage is out.
fn unsound() -> Image {
    after(&available()).set(place::STORAGE_IN, 0)
}

/// A carry that is not valid.
fn bad_carry(random: &mut Random) -> Vec<u8> {
    let length = random.byte_below(CARRY as u8);
    let past = usize::from(length) + random.below(CARRY - usize::from(length));
    match random.below(4) {
        0 => vec![CARRY as u8 + 1],
        1 => vec![255],
        2 => carry_with(0, random.below(CARRY), 1),
        _ => carry_with(length, past, 1 + random.byte_below(255)),
    }
}

/// A good carry: the beginning of these bytes.
fn good_carry(bytes: &[u8]) -> Vec<u8> {
    [&[SOME as u8], &bytes[..SOME]].concat()
}

/// A piece that is refused for these grounds and no other, with a look after it.
/// The page is sound or not already, and the bytes are more than a piece has.
fn refuse(stream: &mut Stream, random: &mut Random, grounds: &[u8], bytes: &[u8]) {
    let carry = if grounds.contains(&12) {
        bad_carry(random)
    } else {
        good_carry(bytes)
    };
    let length = match (grounds.contains(&13), grounds.contains(&14)) {
        (true, true) => PIECE + RECORD,
        (true, false) => PIECE + 1,
        _ => 2 * RECORD,
    };
    let whole = length / RECORD * RECORD;
    let room = if grounds.contains(&14) {
        whole - random.pick(&[1, RECORD, whole])
    } else {
        (usize::from(carry[0]) + length) / RECORD * RECORD
    };
    stream.set_carry(&carry);
    stream.piece(&bytes[SOME..][..length], room);
    stream.look();
}

/// A good piece after a refused one: with the carry as it was, if that was good.
fn go_on(stream: &mut Stream, grounds: &[u8], bytes: &[u8]) {
    if grounds.contains(&12) {
        stream.set_carry(&good_carry(bytes));
    }
    stream.piece_all(&bytes[SOME..][..2 * RECORD]);
    stream.look();
}

/// Every ground alone and every two at once, each followed by a good piece; in a long
/// stream more of them at once.
fn play_refusals(stream: &mut Stream, random: &mut Random, plan: &Plan) {
    let bytes = turns(random, 2 * PIECE);
    play_unsound(stream, random, &bytes);
    let several = SEVERAL.iter().filter(|_| plan.long());
    for grounds in SOUND.iter().chain(several) {
        let unsound_page = grounds.contains(&1);
        if unsound_page {
            stream.raw(&unsound().0);
        } else {
            stream.fresh(random.value());
        }
        refuse(stream, random, grounds, &bytes);
        if unsound_page {
            stream.fresh(random.value());
        }
        go_on(stream, grounds, &bytes);
    }
    stream.set_carry(&[]);
}

/// A page that is not sound, which leaves a carry that was there before. Pieces are
/// refused, every kind of carry is finished, and then there is a good page again.
fn play_unsound(stream: &mut Stream, random: &mut Random, bytes: &[u8]) {
    stream.set_carry(&good_carry(bytes));
    stream.raw(&unsound().0);
    stream.piece(&[], 0);
    for grounds in UNSOUND {
        refuse(stream, random, grounds, bytes);
        stream.finish_pieces();
    }
    for carry in [vec![], carry_with(0, random.below(CARRY), 1), vec![255]] {
        stream.set_carry(&carry);
        stream.finish_pieces();
    }
    stream.piece(&[], 0);
    stream.set_carry(&good_carry(bytes));
    stream.piece_all(&bytes[SOME..RECORD]);
    stream.fresh(random.value());
    go_on(stream, &[], bytes);
}

/// One of the longest buffers, which the seed decides about, and in a long stream
/// all of them.
fn play_large(stream: &mut Stream, random: &mut Random, plan: &Plan) {
    let bytes = turns(random, 2 * PIECE);
    let large = LARGE.into_iter().cycle().skip((plan.seed % 5) as usize + 1);
    let number = if plan.long() { LARGE.len() } else { 1 };
    stream.fresh(plan.seed);
    for (a, piece) in large.take(number).zip(bytes.chunks(3 * CARRY)) {
        stream.push(10, a, piece);
    }
    stream.look();
}

/// What is expensive.
fn play_long(stream: &mut Stream, random: &mut Random) {
    let bytes = turns(random, 32 * PIECE);
    play_lengths(stream, random, &bytes);
    play_after_carries(stream, random, &bytes);
    play_full(stream, random);
    for (_, image) in main_pages().iter().filter(|(rule, _)| *rule > 0) {
        stream.raw(&image.0);
        refuse(stream, random, &[1], &bytes);
        refuse(stream, random, &[1, 12], &bytes);
        stream.finish_pieces();
    }
}

/// Pieces of any length up to the longest, and lengths that no piece has.
fn play_lengths(stream: &mut Stream, random: &mut Random, bytes: &[u8]) {
    let mut left = bytes;
    stream.fresh(random.value());
    stream.set_carry(&[]);
    while left.len() > PIECE {
        let (piece, rest) = left.split_at(random.below(PIECE + 1));
        take(stream, random, piece);
        left = rest;
    }
    for length in LONG_LENGTHS {
        stream.piece(&bytes[..length], length + RECORD);
        stream.look();
    }
}

/// Every length of the table and one of the longest, after every carry.
fn play_after_carries(stream: &mut Stream, random: &mut Random, bytes: &[u8]) {
    for carried in 0..=CARRY {
        for length in LENGTHS.into_iter().chain([PIECE - carried % 3]) {
            stream.fresh(random.value());
            stream.set_carry(&[&[carried as u8], &bytes[..carried]].concat());
            take(stream, random, &bytes[carried..][..length]);
        }
    }
    stream.set_carry(&[]);
}

/// A full list and full buckets.
fn play_full(stream: &mut Stream, random: &mut Random) {
    let more = [
        step(19),
        step(20).at(2),
        step(19).at(1),
        step(19).at(3).times(2),
    ];
    let requests = records(&[&full()[..], &more].concat());
    stream.fresh(0);
    in_pieces(stream, random, requests.as_flattened());
}
