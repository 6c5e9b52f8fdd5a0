//! Requests and answers in words.

use crate::kinds::Refusal;
use crate::steps::{takes_bucket, takes_clean, takes_value};
use crate::wire::{read_answer, value_at, RECORD};

const STEPS: [&str; 30] = [
    "take_writeback",
    "release_writeback",
    "bucketless_claim",
    "shared_to_claim",
    "claim_to_pending",
    "take_exc_lock_finish_writeback",
    "take_exc_lock_check_ref_count",
    "withdraw_take_exc_lock_finish",
    "deposit_downgrade_exc_lock",
    "deposit_downgrade_exc_lock_to_claim",
    "withdraw_alloc",
    "withdraw_alloc_no_refcount",
    "loading_inc_count",
    "obtain_loading",
    "obtain_loading_no_refcount",
    "deposit_loading_to_shared",
    "deposit_loading_to_done",
    "exc_inc_count",
    "shared_inc_count",
    "shared_dec_count_pending",
    "shared_dec_count_pending2",
    "shared_dec_count_obtained",
    "shared_check_exc",
    "shared_check_loading",
    "discard_claim",
    "claim_to_shared",
    "pending_to_claim",
    "cancel_exc_lock_to_claim",
    "deposit_exc_lock_to_done",
    "deposit_exc_lock_to_unmapped",
];

/// Each request beside its answer, the bytes of both below; or one line, where
/// the input was refused as a whole or there was none.
pub fn side_by_side(requests: &[u8], answers: &[u8]) -> Vec<String> {
    if requests.is_empty() && answers.is_empty() {
        return vec!["No request came in, so there was nothing to answer.".to_string()];
    }
    if let Some(refusal) = whole_refusal(answers) {
        let (length, number) = (requests.len(), refusal as u8);
        let why = refusal_words(0, refusal);
        return vec![format!(
            "{length} bytes came in and were refused as a whole, {number}: {why}"
        )];
    }
    let mut lines = Vec::new();
    let pairs = requests.chunks(RECORD).zip(answers.chunks(RECORD));
    for (number, (request, answer)) in (1..).zip(pairs) {
        let asked = request_words(request);
        let answered = answer_words(request[0], answer);
        lines.push(format!("{number:>3}  {asked:<45}  {answered}"));
        lines.push(format!("     {:<45}  {}", hex(request), hex(answer)));
    }
    if requests.len() != answers.len() {
        let (asked, answered) = (requests.len(), answers.len());
        lines.push(format!("{asked} bytes of requests, {answered} of answers"));
    }
    lines
}

/// The one refusal of the whole input, if the answers are that. The lines of a
/// run have 0, 2 to 11 or 17 only: its record is sound all along, and its
/// requests are whole. So 1, 12, 13 and 14 speak of all that came in, even if
/// that was one request; and any other number is the first request's own, even
/// if the answers to the next ones are missing.
fn whole_refusal(answers: &[u8]) -> Option<Refusal> {
    use Refusal::{NoRoom, NotSound, NotWhole, TooMany};
    match read_answer(answers.try_into().ok()?)? {
        Err(refusal @ (NotSound | NotWhole | TooMany | NoRoom)) => Some(refusal),
        _ => None,
    }
}

fn request_words(request: &[u8]) -> String {
    if request.len() != RECORD {
        return "not a whole request".to_string();
    }
    let (step, bucket, clean) = (request[0], request[1], request[2]);
    let value = value_at(request, 8);
    let place = usize::from(step).wrapping_sub(1);
    let mut words = format!("{step} {}", STEPS.get(place).unwrap_or(&"no step"));
    if takes_bucket(step) || bucket != 0 {
        words += &format!(", bucket {bucket}");
    }
    if takes_clean(step) || clean != 0 {
        words += &format!(", clean {clean}");
    }
    if takes_value(step) || value != 0 {
        words += &format!(", value {value}");
    }
    words
}

/// An answer to a request of this step.
fn answer_words(step: u8, answer: &[u8]) -> String {
    let whole = answer.try_into().ok();
    match whole.and_then(read_answer) {
        None => "not an answer".to_string(),
        Some(Ok(None)) => "accepted".to_string(),
        Some(Ok(Some(value))) => format!("accepted, and hands out {value}"),
        Some(Err(refusal)) => {
            let why = refusal_words(step, refusal);
            format!("refused, {}: {why}", refusal as u8)
        }
    }
}

fn refusal_words(step: u8, refusal: Refusal) -> &'static str {
    match refusal {
        Refusal::NotSound => "the record is not sound",
        Refusal::UnknownStep => "no such step",
        Refusal::BadField => "a field that the step does not take, or clean above 1",
        Refusal::BadBucket => "no such bucket",
        Refusal::WrongFlag => "not under this flag",
        Refusal::NoHolder => "its holder is not there",
        Refusal::HolderBucket if step == 18 => "the holder has a bucket already",
        Refusal::HolderBucket => "the holder has no bucket",
        Refusal::WrongVisited if step == 7 => "all four buckets are visited already",
        Refusal::WrongVisited => "not all four buckets are visited yet",
        Refusal::OtherCount => "the bucket to visit has another count than expected",
        Refusal::CountFull => "the bucket is full",
        Refusal::ListFull => "the list is full",
        Refusal::NotWhole => "not whole requests",
        Refusal::TooMany => "too many requests",
        Refusal::NoRoom => "too little space for the answers",
        Refusal::ImageLength => "not the length of an image",
        Refusal::NotImage => "not the image of a sound record",
        Refusal::OtherValue => "the holder is clean, and keeps another value",
    }
}

/// The bytes in hexadecimal, four to a group.
fn hex(bytes: &[u8]) -> String {
    let groups: Vec<String> = bytes
        .chunks(4)
        .map(|group| group.iter().map(|byte| format!("{byte:02x}")).collect())
        .collect();
    groups.join(" ")
}
