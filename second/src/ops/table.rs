//! The table of flags, entry by entry, by the engine that looks there first: each flag
//! that follows is come by once, and where none does a step is refused at once. Then
//! what is refused all the same, and what is refused before the table is looked into.

use std::collections::BTreeSet;

use super::damage::one_wrong;
use super::pages::main_pages;
use super::random::Random;
use super::request::{step, Draft};
use super::scripts::every_step;
use super::situations::{self, page_after, then, visited_dirty, visiting, visiting_clean};
use super::stream::Stream;
use super::Plan;
use crate::kinds::{answer_number, Flag};
use crate::record::Page;
use crate::run::answer_line;
use crate::table::{column, table, COLUMNS, NEVER};
use crate::wire::RECORD;

/// Lengths that no request has.
const LENGTHS: [usize; 5] = [0, 1, RECORD - 1, RECORD + 1, 2 * RECORD];

/// A place of the table: its row, which is the flag's number, and its column.
type Place = (usize, usize);

/// A page, and the script that leads to it.
type Situation = (Page, Vec<Draft>);

/// Pages with every flag. Whatever is accepted under a flag is accepted by one of them.
/// The last has a reader in a claimant's way.
fn situations() -> Vec<Situation> {
    let mut scripts = situations::all();
    scripts.extend([visiting_clean(), visited_dirty()]);
    scripts.push(then(visiting(), &[step(7)]));
    let pages = scripts.into_iter();
    pages.map(|script| (page_after(&script), script)).collect()
}

/// The entries that are taken, those that are never, requests that are refused though
/// they are not, and such as do not come so far.
pub fn play(stream: &mut Stream, random: &mut Random, plan: &Plan) {
    let situations = situations();
    play_taken(stream, random, &situations);
    for flag in Flag::ALL {
        let there = situations.iter().filter(|(page, _)| page.flag == flag);
        for (_, script) in one_or_all(random, plan, there.collect()) {
            stream.play(script);
            play_never(stream, random, plan);
        }
    }
    play_refused(stream, &situations);
    play_before(stream, random, plan);
}

/// One of them in a short stream, and in a long one all.
fn one_or_all<T: Clone>(random: &mut Random, plan: &Plan, all: Vec<T>) -> Vec<T> {
    if plan.long() {
        all
    } else {
        vec![random.pick(&all)]
    }
}

/// Every entry that is a flag, once. From a page that accepts some of those that are
/// left, requests go on as long as there is one that takes another.
fn play_taken(stream: &mut Stream, random: &mut Random, situations: &[Situation]) {
    let mut left = taken();
    while !left.is_empty() {
        let mut there = situations.to_vec();
        there.retain(|(page, _)| !taking(page, &left).is_empty());
        stream.play(&random.pick(&there).1);
        let mut requests = taking(stream.page(), &left);
        while !requests.is_empty() {
            let request = random.pick(&requests);
            left.remove(&place(stream.page(), &request));
            stream.ask_by_table(&request);
            stream.look();
            requests = taking(stream.page(), &left);
        }
    }
}

/// Where the table has a flag.
fn taken() -> BTreeSet<Place> {
    let places = (0..Flag::ALL.len()).flat_map(|row| (0..COLUMNS).map(move |column| (row, column)));
    places
        .filter(|&(row, column)| table()[row][column] != NEVER)
        .collect()
}

/// The requests that the page accepts by one of these entries.
fn taking(page: &Page, places: &BTreeSet<Place>) -> Vec<[u8; RECORD]> {
    let mut requests = every_step();
    requests.retain(|request| {
        places.contains(&place(page, request)) && answer_line(&mut page.clone(), request).is_ok()
    });
    requests
}

/// Where the table says what this good request does on this page.
fn place(page: &Page, request: &[u8; RECORD]) -> Place {
    let column = column(request[0], request[2]);
    let row = usize::from(page.flag.number());
    (row, column.expect("a good request has a step"))
}

/// A step for every entry that is never under the page's flag, or in a long stream
/// several where it has a field.
fn play_never(stream: &mut Stream, random: &mut Random, plan: &Plan) {
    let row = table()[usize::from(stream.page().flag.number())];
    for column in (0..COLUMNS).filter(|&column| row[column] == NEVER) {
        let mut requests = every_step();
        requests.retain(|request| place(stream.page(), request).1 == column);
        for request in one_or_all(random, plan, requests) {
            stream.ask_by_table(&request);
            stream.look();
        }
    }
}

/// Requests that the pages refuse where the table has a flag: every step, and every
/// number that it is given.
fn play_refused(stream: &mut Stream, situations: &[Situation]) {
    let mut seen = BTreeSet::new();
    for (page, script) in situations {
        let mut requests = every_step();
        requests.retain(|request| {
            let (row, column) = place(page, request);
            let number = answer_number(&answer_line(&mut page.clone(), request));
            number > 0 && table()[row][column] != NEVER && seen.insert((column, number))
        });
        if !requests.is_empty() {
            stream.play(script);
            let requests = requests.iter();
            requests.for_each(|request| stream.ask_by_table(request));
            stream.look();
        }
    }
}

/// Requests that are wrong or not whole, on a sound page and on one that is not. There
/// good ones are refused too, whatever the table says.
fn play_before(stream: &mut Stream, random: &mut Random, plan: &Plan) {
    stream.play(&random.pick(&situations::all()));
    play_wrong(stream, random, plan);
    let mut pages = main_pages();
    pages.retain(|(rule, _)| *rule > 0);
    let (_, unsound) = random.pick(&pages);
    stream.raw(&unsound.0);
    play_wrong(stream, random, plan);
    for request in every_step() {
        stream.ask_by_table(&request);
    }
    stream.look();
}

/// A third of the wrong requests in a short stream, and all in a long one; and bytes
/// that are not one request.
fn play_wrong(stream: &mut Stream, random: &mut Random, plan: &Plan) {
    let every = if plan.long() { 1 } else { 3 };
    let wrong = one_wrong();
    for request in wrong.iter().skip(random.below(every)).step_by(every) {
        stream.ask_by_table(request);
    }
    for length in LENGTHS {
        let bytes: Vec<u8> = (0..length).map(|_| random.byte_below(32)).collect();
        stream.ask_by_table(&bytes);
    }
    stream.look();
}
