//! The past of a page, kept from accepted requests alone (RULES 9).

use second::kinds::{BucketId, ExcState, LoadingState, Request, SharedState, StoredType};
use second::record::{count_all_refs, Page};

/// What happened to a page since it was first seen.
pub struct History {
    /// The counts that the page started with.
    counts: [usize; 4],
    pub arrivals: [usize; 4],
    pub departures: [usize; 4],
    /// The bucket that the latest 13 named, if one was accepted since the
    /// latest 11 or 12.
    latest_13: Option<usize>,
    /// The bucket that the latest 4 or 18 named, unless a 3 was accepted since.
    editor: Option<usize>,
    /// Whether the latest 6 chose clean.
    clean: bool,
    /// The value that a clean editor took, while it has the page out.
    taken_clean: Option<StoredType>,
    /// The value last put in, where it is known.
    last_put_in: Option<StoredType>,
    out: bool,
}

impl History {
    /// What is taken to have happened just before a sound page.
    pub fn before(page: &Page) -> History {
        let loader = page.loading_state.and_then(LoadingState::bucket);
        let editor = page.exc_state.and_then(ExcState::bucket);
        let clean = page.exc_state.is_some_and(chose_clean);
        let kept = page.exc_state.and_then(kept);
        History {
            counts: page.ref_counts.map(|count| usize::from(count.0)),
            arrivals: [0; 4],
            departures: [0; 4],
            latest_13: loader.map(BucketId::index),
            editor: editor.map(BucketId::index),
            clean,
            taken_clean: kept.filter(|_| clean),
            last_put_in: page.storage.or(kept),
            out: page.storage.is_none(),
        }
    }

    /// One more request that was accepted, and the value that it handed out.
    pub fn accepted(&mut self, request: &Request, withdrawn: Option<StoredType>) {
        self.count(request);
        self.hand_over(request, withdrawn);
        let bucket = usize::from(request.bucket);
        match request.step {
            11 | 12 => self.latest_13 = None,
            13 => self.latest_13 = Some(bucket),
            3 => self.editor = None,
            4 | 18 => self.editor = Some(bucket),
            6 => self.clean = request.clean == 1,
            _ => (),
        }
    }

    fn count(&mut self, request: &Request) {
        let bucket = usize::from(request.bucket);
        let left = match request.step {
            20..=22 => Some(bucket),
            17 => self.latest_13,
            25 | 29 | 30 => self.editor,
            _ => None,
        };
        if let Some(bucket) = left {
            self.departures[bucket] += 1;
        }
        if let 13 | 18 | 19 = request.step {
            self.arrivals[bucket] += 1;
        }
    }

    fn hand_over(&mut self, request: &Request, withdrawn: Option<StoredType>) {
        match request.step {
            8 | 11 | 12 => {
                assert!(!self.out, "taken out twice");
                self.out = true;
                assert!(withdrawn.is_some());
                assert_eq!(withdrawn, self.last_put_in);
                if request.step == 8 && self.clean {
                    self.taken_clean = withdrawn;
                }
                return;
            }
            9 | 10 | 16 | 17 | 29 | 30 => {
                assert!(self.out, "put in twice");
                self.out = false;
                self.last_put_in = Some(request.value);
                if let Some(taken) = self.taken_clean.take() {
                    assert_eq!(request.value, taken, "clean means clean");
                }
            }
            _ => (),
        }
        assert_eq!(withdrawn, None);
    }

    /// Whether an editor that chose clean has the page out.
    pub fn out_clean(&self) -> bool {
        self.taken_clean.is_some()
    }

    /// All that RULES 9 says of the page that this past leads to.
    pub fn fits(&self, page: &Page) {
        for (place, bucket) in BucketId::ALL.into_iter().enumerate() {
            let count = usize::from(page.ref_counts[place].0);
            let came = self.counts[place] + self.arrivals[place];
            assert_eq!(count + self.departures[place], came, "{page:?}");
            assert_eq!(count, count_all_refs(page, bucket), "{page:?}");
        }
        assert_eq!(page.storage, self.last_put_in.filter(|_| !self.out));
        let clean = page.exc_state.filter(|&holder| chose_clean(holder));
        assert_eq!(clean.and_then(kept), self.taken_clean, "{page:?}");
        for value in held(page) {
            assert_eq!(Some(value), self.last_put_in, "{page:?}");
        }
        let phases = page.shared_state.listed().iter().map(|r| r.phase());
        let furthest = phases.max().unwrap_or(0);
        if self.out {
            assert!(furthest < 2 && page.writeback_state.is_none(), "{page:?}");
        }
        if matches!(page.exc_state, Some(ExcState::Obtained { .. })) {
            assert!(self.out && furthest < 1, "{page:?}");
        }
    }
}

/// Whether the holder has chosen clean.
fn chose_clean(holder: ExcState) -> bool {
    matches!(
        holder,
        ExcState::Pending { clean: true, .. } | ExcState::Obtained { clean: true, .. }
    )
}

/// The value that the holder keeps, if it has the page out.
fn kept(holder: ExcState) -> Option<StoredType> {
    match holder {
        ExcState::Obtained { value, .. } => Some(value),
        _ => None,
    }
}

/// Every value that a reader, an exclusive holder or the writeback has.
fn held(page: &Page) -> Vec<StoredType> {
    let readers = page.shared_state.listed().iter();
    let mut values: Vec<StoredType> = readers
        .filter_map(|reader| match reader {
            SharedState::Obtained { value, .. } => Some(*value),
            _ => None,
        })
        .collect();
    values.extend(page.writeback_state.map(|writeback| writeback.value));
    values.extend(page.exc_state.map(|holder| match holder {
        ExcState::Claim { value, .. }
        | ExcState::PendingAwaitWriteback { value, .. }
        | ExcState::Pending { value, .. }
        | ExcState::Obtained { value, .. } => value,
    }));
    values
}
