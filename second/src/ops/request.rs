//! Requests in the making, good ones and bad ones: `step(22).at(1).of(5)`.

use crate::steps::takes_value;
use crate::wire::RECORD;

/// The values at the edges of 64 bits.
pub const EDGES: [u64; 4] = [0, 1, 1 << 63, u64::MAX];

/// A request in the making. Its fields may be such as no step takes.
#[derive(Clone, Copy, Debug, PartialEq, Eq)]
pub struct Draft {
    step: u8,
    bucket: u8,
    clean: u8,
    /// Bytes 3 to 7, which every good request has as zero.
    blank: [u8; 5],
    value: u64,
    times: usize,
}

/// A request of this step, all else zero.
pub const fn step(step: u8) -> Draft {
    Draft {
        step,
        bucket: 0,
        clean: 0,
        blank: [0; 5],
        value: 0,
        times: 1,
    }
}

impl Draft {
    /// Of another step.
    pub const fn step(self, step: u8) -> Draft {
        Draft { step, ..self }
    }

    /// At this bucket.
    pub const fn at(self, bucket: u8) -> Draft {
        Draft { bucket, ..self }
    }

    /// With this clean choice.
    pub const fn clean(self, clean: u8) -> Draft {
        Draft { clean, ..self }
    }

    /// With this value.
    pub const fn of(self, value: u64) -> Draft {
        Draft { value, ..self }
    }

    /// With this value, if its step takes one.
    pub fn revalued(self, value: u64) -> Draft {
        if takes_value(self.step) {
            self.of(value)
        } else {
            self
        }
    }

    /// With this byte at place 3, 4, 5, 6 or 7.
    pub const fn blank(self, place: usize, byte: u8) -> Draft {
        let mut blank = self.blank;
        blank[place - 3] = byte;
        Draft { blank, ..self }
    }

    /// So many times over, where it stands in a script.
    pub const fn times(self, times: usize) -> Draft {
        Draft { times, ..self }
    }

    /// The request's bytes, once.
    pub fn bytes(&self) -> [u8; RECORD] {
        let mut line = [0; RECORD];
        line[..3].copy_from_slice(&[self.step, self.bucket, self.clean]);
        line[3..8].copy_from_slice(&self.blank);
        line[8..].copy_from_slice(&self.value.to_le_bytes());
        line
    }
}

/// The requests of a script, each as often as it says.
pub fn records(script: &[Draft]) -> Vec<[u8; RECORD]> {
    script
        .iter()
        .flat_map(|draft| vec![draft.bytes(); draft.times])
        .collect()
}
