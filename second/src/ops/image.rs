//! Images in the making, and raw pages, which have the same layout:
//! `after(&claimed()).set(place::FLAG, 3)`.

use super::random::Random;
use super::request::Draft;
use super::situations::page_after;
use crate::image::SHORT_IMAGE;
use crate::kinds::{Flag, CAPACITY};
use crate::raw::{place, unlooked, write_raw, IMAGE};
use crate::record::Page;
use crate::wire::RECORD;

/// Rooms around that of an image, and the one that a short one would need.
pub const ROOMS: [usize; 6] = [0, 1, SHORT_IMAGE, IMAGE - 1, IMAGE, IMAGE + 1];

/// The bytes of an image or of a raw page.
#[derive(Clone)]
pub struct Image(pub [u8; IMAGE]);

/// The page that a script leaves.
pub fn after(script: &[Draft]) -> Image {
    of(&page_after(script))
}

/// This page.
pub fn of(page: &Page) -> Image {
    Image(write_raw(page))
}

impl Image {
    /// The first 1,088 bytes: the short image, where there is one.
    pub fn short(&self) -> &[u8] {
        &self.0[..SHORT_IMAGE]
    }

    /// With this byte at this place.
    pub fn set(mut self, place: usize, byte: u8) -> Image {
        self.0[place] = byte;
        self
    }

    /// With a byte at this place that is one more.
    pub fn bump(self, place: usize) -> Image {
        let byte = self.0[place].wrapping_add(1);
        self.set(place, byte)
    }

    /// With this flag.
    pub fn flag(self, flag: Flag) -> Image {
        self.set(place::FLAG, flag.number())
    }

    /// With this count at this bucket.
    pub fn count(self, bucket: usize, count: u8) -> Image {
        self.set(place::COUNTS + bucket, count)
    }

    /// With a list of this length.
    pub fn length(mut self, length: u16) -> Image {
        self.0[place::LENGTH..][..2].copy_from_slice(&length.to_le_bytes());
        self
    }

    /// With this value in the eight bytes from this place on.
    pub fn value(mut self, place: usize, value: u64) -> Image {
        self.0[place..][..8].copy_from_slice(&value.to_le_bytes());
        self
    }

    /// With an entry of this phase, at this bucket and with this value.
    pub fn entry(self, number: usize, phase: u8, bucket: u8, value: u64) -> Image {
        let place = entry_place(number);
        self.set(place, phase)
            .set(place + 1, bucket)
            .value(place + 8, value)
    }

    /// With any bytes wherever nothing is looked at; it says the same page.
    pub fn noise(mut self, random: &mut Random) -> Image {
        for place in unlooked(&self.0) {
            self.0[place] = random.byte();
        }
        if self.0[place::EXC_KIND] < 3 {
            self.0[place::CLEAN] = random.byte_below(2);
        }
        for number in 0..CAPACITY {
            let phase = &mut self.0[entry_place(number)];
            if *phase < 2 {
                *phase = random.byte_below(2);
            }
        }
        self
    }
}

/// Where an entry of the list begins.
pub fn entry_place(number: usize) -> usize {
    place::READERS + number * RECORD
}
