//! A page as raw bytes, in the layout of an image. Nothing is judged: this is
//! how a page that breaks the rules comes in. The table of places is the
//! image's as well.

use crate::kinds::{
    BucketId, Count, ExcState, Flag, LoadingState, SharedState, Visited, WritebackState, CAPACITY,
};
use crate::readers::Readers;
use crate::record::Page;
use crate::wire::{value_at, RECORD};

/// The bytes of one page.
pub const IMAGE: usize = place::READERS + CAPACITY * RECORD;

/// Where each field begins, and what is between the fields.
#[allow(missing_docs)]
pub mod place {
    use std::ops::Range;

    pub const FLAG: usize = 0;
    pub const STORAGE_IN: usize = 1;
    pub const LENGTH: usize = 2;
    pub const EXC_KIND: usize = 4;
    pub const EXC_BUCKET: usize = 5;
    pub const VISITED: usize = 6;
    pub const CLEAN: usize = 7;
    pub const LOADER_KIND: usize = 8;
    pub const LOADER_BUCKET: usize = 9;
    pub const WRITEBACK_IN: usize = 10;
    pub const COUNTS: usize = 16;
    pub const STORAGE: usize = 32;
    pub const EXC_VALUE: usize = 40;
    pub const WRITEBACK: usize = 48;
    pub const READERS: usize = 64;
    pub const GAPS: [Range<usize>; 3] = [11..16, 20..32, 56..64];
}

/// How a holder that can have a bucket says that it has none.
const NO_BUCKET: u8 = 255;

/// The page that these bytes say, or none where they have no meaning.
pub fn read_raw(bytes: &[u8]) -> Option<Page> {
    let bytes: &[u8; IMAGE] = bytes.try_into().ok()?;
    read_places(bytes)
}

/// The page that a head and some entries say, as far as they have a meaning. The
/// places that get no entry are blank.
pub fn read_places(bytes: &[u8]) -> Option<Page> {
    let storage_in = read_bit(bytes[place::STORAGE_IN])?;
    let clean = read_bit(bytes[place::CLEAN])?;
    let writeback_in = read_bit(bytes[place::WRITEBACK_IN])?;
    let writeback = WritebackState {
        value: value_at(bytes, place::WRITEBACK),
    };
    Some(Page {
        storage: storage_in.then_some(value_at(bytes, place::STORAGE)),
        flag: *Flag::ALL.get(usize::from(bytes[place::FLAG]))?,
        ref_counts: [0, 1, 2, 3].map(|bucket| Count(bytes[place::COUNTS + bucket])),
        shared_state: read_readers(bytes)?,
        exc_state: read_exc_state(bytes, clean)?,
        loading_state: read_loading_state(bytes)?,
        writeback_state: writeback_in.then_some(writeback),
    })
}

fn read_bit(byte: u8) -> Option<bool> {
    match byte {
        0 => Some(false),
        1 => Some(true),
        _ => None,
    }
}

fn read_bucket(byte: u8) -> Option<BucketId> {
    (byte != NO_BUCKET).then_some(BucketId(byte))
}

/// The outer none is a kind without meaning, the inner one nobody. Kind 4 has
/// none: it was Obtained, without the value that was taken.
fn read_exc_state(bytes: &[u8], clean: bool) -> Option<Option<ExcState>> {
    let bucket = read_bucket(bytes[place::EXC_BUCKET]);
    let visited_count = Visited(bytes[place::VISITED]);
    let value = value_at(bytes, place::EXC_VALUE);
    Some(match bytes[place::EXC_KIND] {
        0 => None,
        1 => Some(ExcState::Claim { bucket, value }),
        2 => Some(ExcState::PendingAwaitWriteback { bucket, value }),
        3 => Some(ExcState::Pending {
            bucket,
            visited_count,
            clean,
            value,
        }),
        5 => Some(ExcState::Obtained {
            bucket,
            clean,
            value,
        }),
        _ => return None,
    })
}

/// The outer none is a kind without meaning, the inner one nobody.
fn read_loading_state(bytes: &[u8]) -> Option<Option<LoadingState>> {
    let bucket = read_bucket(bytes[place::LOADER_BUCKET]);
    Some(match bytes[place::LOADER_KIND] {
        0 => None,
        1 => Some(LoadingState::Pending),
        2 => Some(LoadingState::PendingCounted { bucket }),
        3 => Some(LoadingState::Obtained { bucket }),
        _ => return None,
    })
}

fn read_readers(bytes: &[u8]) -> Option<Readers> {
    let mut readers = Readers::none();
    readers.length = u16::from_le_bytes([bytes[place::LENGTH], bytes[place::LENGTH + 1]]);
    let lines = bytes[place::READERS..].chunks_exact(RECORD);
    for (entry, line) in readers.entries.iter_mut().zip(lines) {
        *entry = read_reader(line)?;
    }
    Some(readers)
}

fn read_reader(line: &[u8]) -> Option<SharedState> {
    let bucket = BucketId(line[1]);
    match line[0] {
        0 | 1 => Some(SharedState::Pending { bucket }),
        2 => Some(SharedState::Pending2 { bucket }),
        3 => Some(SharedState::Obtained {
            bucket,
            value: value_at(line, 8),
        }),
        _ => None,
    }
}

/// Every place whose byte says nothing: the gaps, and whatever the kinds that
/// stand there do not have. It is passed over here, and an image has zero there.
pub fn unlooked(bytes: &[u8]) -> Vec<usize> {
    let exc_kind = bytes[place::EXC_KIND];
    let mut places: Vec<usize> = place::GAPS.into_iter().flatten().collect();
    let mut add = |unlooked: bool, from: usize, length: usize| {
        places.extend((from..from + length).filter(|_| unlooked));
    };
    add(bytes[place::STORAGE_IN] == 0, place::STORAGE, 8);
    add(bytes[place::WRITEBACK_IN] == 0, place::WRITEBACK, 8);
    add(exc_kind == 0, place::EXC_BUCKET, 1);
    add(exc_kind != 3, place::VISITED, 1);
    add(exc_kind == 0, place::EXC_VALUE, 8);
    add(bytes[place::LOADER_KIND] < 2, place::LOADER_BUCKET, 1);
    for entry in (place::READERS..bytes.len()).step_by(RECORD) {
        add(true, entry + 2, 6);
        add(bytes[entry] < 3, entry + 8, 8);
    }
    places
}

/// The bytes that say this page, with zero wherever nothing is looked at. Those
/// of a sound page are its image.
pub fn write_raw(page: &Page) -> [u8; IMAGE] {
    let mut bytes = [0; IMAGE];
    bytes[place::FLAG] = page.flag.number();
    bytes[place::STORAGE_IN] = u8::from(page.storage.is_some());
    put_value(&mut bytes, place::STORAGE, page.storage.unwrap_or(0));
    for (bucket, count) in page.ref_counts.iter().enumerate() {
        bytes[place::COUNTS + bucket] = count.0;
    }
    write_exc_state(&mut bytes, page.exc_state);
    write_loading_state(&mut bytes, page.loading_state);
    if let Some(WritebackState { value }) = page.writeback_state {
        bytes[place::WRITEBACK_IN] = 1;
        put_value(&mut bytes, place::WRITEBACK, value);
    }
    write_readers(&mut bytes, &page.shared_state);
    bytes
}

fn write_exc_state(bytes: &mut [u8; IMAGE], holder: Option<ExcState>) {
    let Some(holder) = holder else { return };
    let (kind, visited, clean, value) = match holder {
        ExcState::Claim { value, .. } => (1, 0, false, value),
        ExcState::PendingAwaitWriteback { value, .. } => (2, 0, false, value),
        ExcState::Pending {
            visited_count,
            clean,
            value,
            ..
        } => (3, visited_count.0, clean, value),
        ExcState::Obtained { clean, value, .. } => (5, 0, clean, value),
    };
    bytes[place::EXC_KIND] = kind;
    bytes[place::EXC_BUCKET] = write_bucket(holder.bucket());
    bytes[place::VISITED] = visited;
    bytes[place::CLEAN] = u8::from(clean);
    put_value(bytes, place::EXC_VALUE, value);
}

fn write_loading_state(bytes: &mut [u8; IMAGE], loader: Option<LoadingState>) {
    let (kind, bucket) = match loader {
        None => (0, 0),
        Some(LoadingState::Pending) => (1, 0),
        Some(LoadingState::PendingCounted { bucket }) => (2, write_bucket(bucket)),
        Some(LoadingState::Obtained { bucket }) => (3, write_bucket(bucket)),
    };
    bytes[place::LOADER_KIND] = kind;
    bytes[place::LOADER_BUCKET] = bucket;
}

fn write_bucket(bucket: Option<BucketId>) -> u8 {
    bucket.map_or(NO_BUCKET, |bucket| bucket.0)
}

/// Blank entries past the length are written as zeros, all others as they are.
fn write_readers(bytes: &mut [u8; IMAGE], readers: &Readers) {
    bytes[place::LENGTH..][..2].copy_from_slice(&readers.length.to_le_bytes());
    let listed = readers.listed().len();
    let lines = bytes[place::READERS..].chunks_exact_mut(RECORD);
    for (place, (line, &reader)) in lines.zip(&readers.entries).enumerate() {
        if place < listed || reader != SharedState::BLANK {
            line.copy_from_slice(&reader_bytes(reader));
        }
    }
}

/// A reader as an image lists it.
pub fn reader_bytes(reader: SharedState) -> [u8; RECORD] {
    let mut line = [0; RECORD];
    line[0] = reader.phase() as u8 + 1;
    line[1] = reader.bucket().0;
    if let SharedState::Obtained { value, .. } = reader {
        put_value(&mut line, 8, value);
    }
    line
}

fn put_value(bytes: &mut [u8], place: usize, value: u64) {
    bytes[place..][..8].copy_from_slice(&value.to_le_bytes());
}
