//! A stream in the making. It does each operation as it is written, so that
//! the page it will meet is always known.

use super::image::{of, Image};
use super::random::Random;
use super::request::{records, Draft};
use crate::drill::{Drill, Operation};
use crate::image::read_image;
use crate::pieces::Carry;
use crate::raw::IMAGE;
use crate::record::Page;
use crate::wire::RECORD;

/// What is written so far, and the drill that it leaves.
pub struct Stream {
    bytes: Vec<u8>,
    drill: Drill,
    /// Decides which engine takes a step by value.
    random: Random,
    /// Whether the next single request has its page lent.
    lent: bool,
    /// How many images were read that can be short or long.
    either: usize,
}

impl Stream {
    /// Nothing yet. The seed is the plan's; nothing else is drawn by the same numbers.
    pub fn start(seed: u64) -> Stream {
        Stream {
            bytes: Vec::new(),
            drill: Drill::start(),
            random: Random::new(!seed),
            lent: false,
            either: 0,
        }
    }

    /// The page as the operations so far leave it.
    pub fn page(&self) -> &Page {
        self.drill.page()
    }

    /// The carry as the operations so far leave it.
    pub fn carry(&self) -> &Carry {
        self.drill.carry()
    }

    /// The bytes, at the end.
    pub fn bytes(self) -> Vec<u8> {
        self.bytes
    }

    /// Bytes as they are, after which nothing is known any more.
    pub fn finish(&mut self, bytes: &[u8]) {
        self.bytes.extend(bytes);
    }

    /// Any operation that is listed.
    pub fn push(&mut self, number: u8, a: u64, payload: &[u8]) {
        self.bytes.extend(operation_bytes(number, a, payload));
        let payload = payload.to_vec();
        self.drill.perform(&Operation { number, a, payload });
    }

    /// A fresh page.
    pub fn fresh(&mut self, value: u64) {
        self.push(1, value, &[]);
    }

    /// Says whether the next single request has its page lent.
    pub fn lend_next(&mut self, lent: bool) {
        self.lent = lent;
    }

    /// One request, whole or not: by value and lent by turns.
    pub fn ask(&mut self, request: &[u8]) {
        if self.lent {
            self.push(3, 0, request);
        } else {
            self.ask_by_value(request);
        }
        self.lent = !self.lent;
    }

    /// One request by value: half the time by the plain engine, else by the table.
    pub fn ask_by_value(&mut self, request: &[u8]) {
        if self.random.one_in(2) {
            self.push(2, 0, request);
        } else {
            self.ask_by_table(request);
        }
    }

    /// One request by value, by the engine with the table.
    pub fn ask_by_table(&mut self, request: &[u8]) {
        self.push(13, 0, request);
    }

    /// A run, with so much room for its answers.
    pub fn run(&mut self, requests: &[u8], room: usize) {
        self.push(4, room as u64, requests);
    }

    /// A run of these requests, with just the room that it needs.
    pub fn run_all(&mut self, requests: &[[u8; RECORD]]) {
        let bytes = requests.as_flattened();
        self.run(bytes, bytes.len());
    }

    /// A fresh page of 0, and this script on it in one run.
    pub fn play(&mut self, script: &[Draft]) {
        self.fresh(0);
        self.run_all(&records(script));
    }

    /// One request written back, with so much room.
    pub fn write_back(&mut self, fields: &[u8], room: usize) {
        self.push(5, room as u64, fields);
    }

    /// A look at the page.
    pub fn look(&mut self) {
        self.push(6, 0, &[]);
    }

    /// A look at the page, and its image where there is an exclusive holder,
    /// whom a look does not show.
    pub fn look_closely(&mut self) {
        self.look();
        if self.page().exc_state.is_some() {
            self.write_image(IMAGE);
        }
    }

    /// A raw page.
    pub fn raw(&mut self, image: &[u8; IMAGE]) {
        self.push(7, 0, image);
    }

    /// An image that is read, or something else in its place.
    pub fn read_image(&mut self, bytes: &[u8]) {
        self.push(8, 0, bytes);
    }

    /// These bytes are read, or just as many of them as a short image has, which is
    /// cheaper: by turns one long image, and two short ones.
    pub fn read_either(&mut self, image: &Image) {
        let long = self.either.is_multiple_of(3);
        self.either += 1;
        self.read_image(if long { &image.0 } else { image.short() });
    }

    /// The image of this sound page is read; where it has a short one, either.
    pub fn read_page(&mut self, page: &Page) {
        let image = of(page);
        if read_image(image.short()).answer.is_ok() {
            self.read_either(&image);
        } else {
            self.read_image(&image.0);
        }
    }

    /// The page's image written, with so much room.
    pub fn write_image(&mut self, room: usize) {
        self.push(9, room as u64, &[]);
    }

    /// A piece, with so much room for its answers.
    pub fn piece(&mut self, piece: &[u8], room: usize) {
        self.push(10, room as u64, piece);
    }

    /// A piece, with just the room that it needs after this carry.
    pub fn piece_all(&mut self, piece: &[u8]) {
        self.piece(piece, self.room_for(piece));
    }

    /// The room that a piece needs after this carry, which is valid.
    pub fn room_for(&self, piece: &[u8]) -> usize {
        (self.carry().len + piece.len()) / RECORD * RECORD
    }

    /// The end of the pieces so far; others may come.
    pub fn finish_pieces(&mut self) {
        self.push(11, 0, &[]);
    }

    /// A carry as it is written, or less of it, or more.
    pub fn set_carry(&mut self, bytes: &[u8]) {
        self.push(12, 0, bytes);
    }

    /// The page's image written, and read back, or its short one in its place: the
    /// same page goes on.
    pub fn restart(&mut self) {
        self.write_image(IMAGE);
        let page = self.page().clone();
        self.read_page(&page);
    }
}

/// The bytes of an operation: its head, then its payload.
pub fn operation_bytes(number: u8, a: u64, payload: &[u8]) -> Vec<u8> {
    let mut bytes = vec![number, 0, 0, 0];
    bytes.extend((payload.len() as u32).to_le_bytes());
    bytes.extend(a.to_le_bytes());
    bytes.extend(payload);
    bytes
}
