//! The kinds that records, requests and answers are made of.

/// A page version, the value that the lock guards.
pub type StoredType = u64;

/// How many buckets there are.
pub const RC_WIDTH: u8 = 4;

/// The highest count that a bucket may show.
pub const CEILING: Count = Count(127);

/// How many readers the list holds.
pub const CAPACITY: usize = 256;

/// The highest count that a bucket could show when images were short. Nothing but a
/// short image is judged by it, nor by the next.
pub const SHORT_CEILING: Count = Count(31);

/// How many readers the list held then.
pub const SHORT_CAPACITY: usize = 64;

/// What the lock's word shows; the order gives the numbers 0 to 10.
#[derive(Clone, Copy, Debug, PartialEq, Eq)]
#[allow(missing_docs)]
pub enum Flag {
    Unmapped,
    Loading,
    LoadingExcLock,
    Available,
    Claimed,
    Writeback,
    WritebackAndClaimed,
    WritebackAndPendingExcLock,
    PendingExcLock,
    ExcLockClean,
    ExcLockDirty,
}

impl Flag {
    /// All flags, each at the place of its number.
    pub const ALL: [Flag; 11] = [
        Flag::Unmapped,
        Flag::Loading,
        Flag::LoadingExcLock,
        Flag::Available,
        Flag::Claimed,
        Flag::Writeback,
        Flag::WritebackAndClaimed,
        Flag::WritebackAndPendingExcLock,
        Flag::PendingExcLock,
        Flag::ExcLockClean,
        Flag::ExcLockDirty,
    ];

    /// The flag's number, 0 to 10.
    pub fn number(self) -> u8 {
        self as u8
    }
}

/// The number of a bucket; 0 to 3 in a sound record.
#[derive(Clone, Copy, Debug, PartialEq, Eq)]
pub struct BucketId(pub u8);

impl BucketId {
    /// The four buckets, in order.
    pub const ALL: [BucketId; RC_WIDTH as usize] =
        [BucketId(0), BucketId(1), BucketId(2), BucketId(3)];

    /// Whether this is one of the four buckets.
    pub fn valid(self) -> bool {
        self.0 < RC_WIDTH
    }

    /// The bucket's place in the table of counts.
    pub fn index(self) -> usize {
        usize::from(self.0)
    }
}

/// How many buckets an exclusive holder has visited; 0 to 4 in a sound record.
#[derive(Clone, Copy, Debug, PartialEq, Eq)]
pub struct Visited(pub u8);

impl Visited {
    /// The bucket to visit next, if any is left.
    pub fn next_bucket(self) -> Option<BucketId> {
        BucketId::ALL.get(usize::from(self.0)).copied()
    }

    /// Whether the bucket is still to be visited.
    pub fn not_yet(self, bucket: BucketId) -> bool {
        self.0 <= bucket.0
    }
}

/// How many references a bucket has; 0 to 127 in a sound record.
#[derive(Clone, Copy, Debug, PartialEq, Eq)]
pub struct Count(pub u8);

/// A reader: it is listed while it comes to its value.
#[derive(Clone, Copy, Debug, PartialEq, Eq)]
#[allow(missing_docs)]
pub enum SharedState {
    Pending { bucket: BucketId },
    Pending2 { bucket: BucketId },
    Obtained { bucket: BucketId, value: StoredType },
}

impl SharedState {
    /// What stands in a place that no reader has.
    pub const BLANK: SharedState = SharedState::Pending {
        bucket: BucketId(0),
    };

    /// The bucket that the reader is counted at.
    pub fn bucket(self) -> BucketId {
        match self {
            SharedState::Pending { bucket }
            | SharedState::Pending2 { bucket }
            | SharedState::Obtained { bucket, .. } => bucket,
        }
    }

    /// The phase's place in source order, which is its column in the census.
    pub fn phase(self) -> usize {
        match self {
            SharedState::Pending { .. } => 0,
            SharedState::Pending2 { .. } => 1,
            SharedState::Obtained { .. } => 2,
        }
    }
}

/// The exclusive holder, from its claim to the page in its hands. The value is
/// storage's; one that is Obtained keeps the value that it took.
#[derive(Clone, Copy, Debug, PartialEq, Eq)]
#[allow(missing_docs)]
pub enum ExcState {
    Claim {
        bucket: Option<BucketId>,
        value: StoredType,
    },
    PendingAwaitWriteback {
        bucket: Option<BucketId>,
        value: StoredType,
    },
    Pending {
        bucket: Option<BucketId>,
        visited_count: Visited,
        clean: bool,
        value: StoredType,
    },
    Obtained {
        bucket: Option<BucketId>,
        clean: bool,
        value: StoredType,
    },
}

impl ExcState {
    /// The bucket that the holder is counted at, if it is counted.
    pub fn bucket(self) -> Option<BucketId> {
        match self {
            ExcState::Claim { bucket, .. }
            | ExcState::PendingAwaitWriteback { bucket, .. }
            | ExcState::Pending { bucket, .. }
            | ExcState::Obtained { bucket, .. } => bucket,
        }
    }
}

/// The loader, which fills the page for the first time.
#[derive(Clone, Copy, Debug, PartialEq, Eq)]
#[allow(missing_docs)]
pub enum LoadingState {
    Pending,
    PendingCounted { bucket: Option<BucketId> },
    Obtained { bucket: Option<BucketId> },
}

impl LoadingState {
    /// The bucket that the loader is counted at, if it is counted.
    pub fn bucket(self) -> Option<BucketId> {
        match self {
            LoadingState::Pending => None,
            LoadingState::PendingCounted { bucket } | LoadingState::Obtained { bucket } => bucket,
        }
    }
}

/// The writeback, which reads the page without being counted.
#[derive(Clone, Copy, Debug, PartialEq, Eq)]
#[allow(missing_docs)]
pub struct WritebackState {
    pub value: StoredType,
}

/// One request, its fields as they came and not yet judged.
#[derive(Clone, Copy, Debug, PartialEq, Eq)]
#[allow(missing_docs)]
pub struct Request {
    pub step: u8,
    pub bucket: u8,
    pub clean: u8,
    pub value: StoredType,
}

impl Request {
    /// A request of these fields.
    pub fn new(step: u8, bucket: u8, clean: u8, value: StoredType) -> Request {
        Request {
            step,
            bucket,
            clean,
            value,
        }
    }
}

/// Why something was refused; each case has its answer number.
#[derive(Clone, Copy, Debug, PartialEq, Eq)]
pub enum Refusal {
    /// The record is not sound.
    NotSound = 1,
    /// The step is not 1 to 30.
    UnknownStep = 2,
    /// A field not taken is not zero, bytes 3 to 7 are not zero, or clean is above 1.
    BadField = 3,
    /// A bucket is taken and is above 3.
    BadBucket = 4,
    /// The flag is not one that the step may start from.
    WrongFlag = 5,
    /// The entry or state that the step removes is not there.
    NoHolder = 6,
    /// The holder lacks a bucket, or has one where it may not.
    HolderBucket = 7,
    /// All buckets are visited already, or not all are.
    WrongVisited = 8,
    /// Another count was found than the one expected.
    OtherCount = 9,
    /// The count at the bucket is 127.
    CountFull = 10,
    /// The list holds 256 readers.
    ListFull = 11,
    /// The bytes are not whole records; a carry is not valid, or not empty at the end.
    NotWhole = 12,
    /// The run has more than 2,048 requests, or the piece more than 4,096 bytes.
    TooMany = 13,
    /// The answer space is too small.
    NoRoom = 14,
    /// An image has neither of the two lengths, or the buffer for one is too small.
    ImageLength = 15,
    /// The bytes are not the image of a sound record, nor a short one.
    NotImage = 16,
    /// The holder is clean, and the value is another than it keeps.
    OtherValue = 17,
}

/// What a request is answered: accepted, with the value if one was withdrawn,
/// or refused.
pub type Answer = Result<Option<StoredType>, Refusal>;

/// An answer's number: 0 where it was accepted, else the refusal's.
pub fn answer_number<T>(answer: &Result<T, Refusal>) -> u8 {
    match answer {
        Ok(_) => 0,
        Err(refusal) => *refusal as u8,
    }
}
