//! A record's image, which keeps it across a restart.
//!
//! An image has the layout of a raw page, but every byte of it is judged: each
//! has the one meaning that is listed for it, or is zero, and the record is
//! sound. Reading looks at the bytes place by place. It does not write the
//! record again to compare, so that no error of writing can hide in it.
//!
//! A short image has fewer entries, and its record keeps the short limits too. It
//! is judged as it stands, and not made longer before.

use crate::kinds::{Refusal, SHORT_CAPACITY, SHORT_CEILING};
use crate::raw::{place, read_places, unlooked, write_raw, IMAGE};
use crate::record::{fresh, judge_record, sound, Page};
use crate::steps::Outcome;
use crate::wire::RECORD;

/// The bytes of a short image, which is read and never written.
pub const SHORT_IMAGE: usize = place::READERS + SHORT_CAPACITY * RECORD;

/// Writes a record's image: refuses 1, then 15, and then writes nothing.
/// Otherwise only the first 4,160 bytes of the buffer change, however few readers
/// there are.
pub fn write_image(page: &Page, buffer: &mut [u8]) -> Result<(), Refusal> {
    judge_record(page)?;
    let image = buffer.get_mut(..IMAGE).ok_or(Refusal::ImageLength)?;
    image.copy_from_slice(&write_raw(page));
    Ok(())
}

/// Reads an image or a short one: refuses 15, then 16, and then gives a fresh
/// record of 0.
pub fn read_image(bytes: &[u8]) -> Outcome {
    match judge_image(bytes) {
        Ok(page) => Outcome {
            page,
            answer: Ok(None),
        },
        Err(refusal) => Outcome {
            page: fresh(0),
            answer: Err(refusal),
        },
    }
}

/// The record whose image, or whose short image, these bytes are. What they cannot
/// say (no such flag, kind or phase, a yes-or-no above 1) is refused first, then
/// what a raw page passes over, then a record that is not sound under the limits
/// of its length.
fn judge_image(bytes: &[u8]) -> Result<Page, Refusal> {
    let sound_there = match bytes.len() {
        IMAGE => sound,
        SHORT_IMAGE => sound_when_short,
        _ => return Err(Refusal::ImageLength),
    };
    let page = read_places(bytes).ok_or(Refusal::NotImage)?;
    let listed = page.shared_state.listed().len();
    let image = unlooked_zero(bytes)
        && clean_fits(bytes)
        && listed_say_their_phase(bytes, listed)
        && past_zero(bytes, listed)
        && sound_there(&page);
    if image {
        Ok(page)
    } else {
        Err(Refusal::NotImage)
    }
}

/// Whether the record is sound with the short limits in rule 8, which are the
/// stricter ones. A reader past them has no place in a short image.
fn sound_when_short(page: &Page) -> bool {
    let counts = &page.ref_counts;
    usize::from(page.shared_state.length) <= SHORT_CAPACITY
        && counts.iter().all(|count| count.0 <= SHORT_CEILING.0)
        && sound(page)
}

/// Whether all is zero between the fields, and where a kind has nothing.
fn unlooked_zero(bytes: &[u8]) -> bool {
    unlooked(bytes).into_iter().all(|place| bytes[place] == 0)
}

/// Whether only an exclusive holder that has made its choice is called clean. A
/// raw page asks of this byte that it is 0 or 1, whatever the kind.
fn clean_fits(bytes: &[u8]) -> bool {
    bytes[place::CLEAN] == 0 || bytes[place::EXC_KIND] >= 3
}

/// Whether no listed reader has phase 0, which a raw page takes as Pending.
fn listed_say_their_phase(bytes: &[u8], listed: usize) -> bool {
    entries(bytes).take(listed).all(|entry| entry[0] != 0)
}

/// Whether the entries past the length are zeros, where a raw page takes Pending
/// at bucket 0 as well.
fn past_zero(bytes: &[u8], listed: usize) -> bool {
    entries(bytes)
        .skip(listed)
        .all(|entry| entry == [0; RECORD])
}

fn entries(bytes: &[u8]) -> impl Iterator<Item = &[u8]> {
    bytes[place::READERS..].chunks_exact(RECORD)
}
