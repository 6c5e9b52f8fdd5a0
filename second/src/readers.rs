//! The list of readers: its length, and a place for each reader that fits.
//!
//! Every length and every filling can be written down, so that a list that
//! breaks the rules can be held and judged.

use crate::kinds::{SharedState, CAPACITY};

/// The readers. One that comes stands last, and one that goes leaves its place
/// to the last.
#[derive(Clone, Debug, PartialEq, Eq)]
pub struct Readers {
    /// The length as it is kept, above the capacity too.
    pub length: u16,
    /// All places, those past the length too.
    pub entries: [SharedState; CAPACITY],
}

impl Readers {
    /// Nobody, and all places blank.
    pub fn none() -> Readers {
        Readers {
            length: 0,
            entries: [SharedState::BLANK; CAPACITY],
        }
    }

    /// The listed readers: all places, where the length is above the capacity.
    pub fn listed(&self) -> &[SharedState] {
        &self.entries[..self.end()]
    }

    /// The places past the length.
    pub fn past(&self) -> &[SharedState] {
        &self.entries[self.end()..]
    }

    /// The place of the first equal reader, if one is listed. Buckets are
    /// compared first, and the rest only where they agree.
    pub fn find(&self, reader: SharedState) -> Option<usize> {
        let bucket = reader.bucket();
        self.listed()
            .iter()
            .position(|&listed| listed.bucket() == bucket && listed == reader)
    }

    /// Puts a reader at the end of a list that has room.
    pub fn push(&mut self, reader: SharedState) {
        self.entries[self.end()] = reader;
        self.length += 1;
    }

    /// Takes the listed reader at this place out. The last reader moves into the
    /// gap, and every other keeps its place; the place that comes free is blank.
    pub fn remove(&mut self, place: usize) {
        let last = self.end() - 1;
        self.entries[place] = self.entries[last];
        self.entries[last] = SharedState::BLANK;
        self.length -= 1;
    }

    /// Gives the reader at this place another phase; it keeps its place.
    pub fn change(&mut self, place: usize, reader: SharedState) {
        self.entries[place] = reader;
    }

    fn end(&self) -> usize {
        usize::from(self.length).min(CAPACITY)
    }
}
