//! The list of readers: a new one at the end, the first equal one found, the last
//! one in the gap, blanks behind.

use second::kinds::{BucketId, SharedState, StoredType};
use second::readers::Readers;

fn pending(bucket: u8) -> SharedState {
    SharedState::Pending {
        bucket: BucketId(bucket),
    }
}

fn pending2(bucket: u8) -> SharedState {
    SharedState::Pending2 {
        bucket: BucketId(bucket),
    }
}

fn obtained(bucket: u8, value: StoredType) -> SharedState {
    SharedState::Obtained {
        bucket: BucketId(bucket),
        value,
    }
}

/// One reader of each phase, all at this bucket.
fn each_phase(bucket: u8) -> [SharedState; 3] {
    [pending(bucket), pending2(bucket), obtained(bucket, 5)]
}

fn list(buckets: &[u8]) -> Readers {
    let entries: Vec<_> = buckets.iter().map(|&bucket| pending(bucket)).collect();
    list_of(&entries)
}

fn list_of(entries: &[SharedState]) -> Readers {
    let mut readers = Readers::none();
    for &entry in entries {
        readers.push(entry);
    }
    readers
}

#[test]
fn an_empty_list_is_blank() {
    let none = Readers::none();
    assert_eq!(none.length, 0);
    assert!(none.listed().is_empty());
    assert_eq!(none.past(), [pending(0); 256]);
}

#[test]
fn a_new_reader_goes_at_the_end() {
    let readers = list(&[3, 1, 2]);
    assert_eq!(readers.length, 3);
    assert_eq!(readers.listed(), [pending(3), pending(1), pending(2)]);
    assert_eq!(readers.past(), [pending(0); 253]);
}

// Removal.

/// Five readers, of whom no two are equal.
fn five() -> [SharedState; 5] {
    let [a, b, c] = each_phase(1);
    [a, pending(2), b, obtained(1, 6), c]
}

/// The list without the reader at this place.
fn without(mut readers: Readers, place: usize) -> Readers {
    readers.remove(place);
    readers
}

#[test]
fn the_last_one_moves_into_the_gap() {
    let [a, b, c, d, e] = five();
    let left = [[e, b, c, d], [a, e, c, d], [a, b, e, d], [a, b, c, e]];
    for (place, left) in left.into_iter().enumerate() {
        let readers = without(list_of(&five()), place);
        assert_eq!(readers, list_of(&left), "place {place}");
        assert_eq!(readers.past(), [pending(0); 252]);
    }
}

#[test]
fn where_the_last_one_goes_nobody_moves() {
    let [a, b, c, d, _] = five();
    assert_eq!(without(list_of(&five()), 4), list_of(&[a, b, c, d]));
    assert_eq!(without(list_of(&[a, b]), 1), list_of(&[a]));
}

#[test]
fn the_only_one_leaves_an_empty_list() {
    for only in each_phase(3) {
        assert_eq!(without(list_of(&[only]), 0), Readers::none());
    }
}

#[test]
fn one_leaves_a_full_list() {
    let full = list_of(&[&five()[..], &[pending(3); 250], &[pending2(2)]].concat());
    assert_eq!(full.length, 256);
    let [a, b, c, d, e] = five();
    let first = [&[pending2(2), b, c, d, e][..], &[pending(3); 250]].concat();
    assert_eq!(without(full.clone(), 0), list_of(&first));
    let middle = [&[a, b, pending2(2), d, e][..], &[pending(3); 250]].concat();
    assert_eq!(without(full.clone(), 2), list_of(&middle));
    let last = [&five()[..], &[pending(3); 250]].concat();
    assert_eq!(without(full, 255), list_of(&last));
}

/// Of the others one stands between the equal ones, and one last.
#[test]
fn the_first_of_several_equal_goes() {
    for equal in each_phase(1) {
        let mut readers = list_of(&[pending(2), equal, pending(0), equal, equal, pending(3)]);
        let left = [pending(2), pending(3), pending(0), equal, equal];
        readers.remove(readers.find(equal).unwrap());
        assert_eq!(readers, list_of(&left));
        readers.remove(readers.find(equal).unwrap());
        assert_eq!(readers, list_of(&left[..4]));
        readers.remove(readers.find(equal).unwrap());
        assert_eq!(readers, list_of(&left[..3]));
        assert_eq!(readers.find(equal), None);
    }
}

/// All entries are different, and none is blank, past the length either. What each
/// place has after a removal at each place, from lists of every length.
#[test]
fn every_other_place_stays_as_it_is() {
    let entries: [_; 256] = std::array::from_fn(|place| obtained(1, place as u64 + 1));
    for length in 1..=256 {
        for gap in 0..length {
            let before = Readers {
                length: length as u16,
                entries,
            };
            let after = without(before.clone(), gap);
            assert_eq!(usize::from(after.length), length - 1);
            for (place, entry) in after.entries.into_iter().enumerate() {
                let expected = if place == length - 1 {
                    pending(0)
                } else if place == gap {
                    before.entries[length - 1]
                } else {
                    before.entries[place]
                };
                assert_eq!(entry, expected, "{length} readers, {gap} goes, {place}");
            }
        }
    }
}

/// One comes and stands last, whoever has left before.
#[test]
fn a_new_reader_goes_at_the_end_after_a_removal() {
    let [a, b, c, d, e] = five();
    let mut readers = without(list_of(&five()), 1);
    readers.push(b);
    assert_eq!(readers, list_of(&[a, e, c, d, b]));
    readers.change(1, pending(3));
    assert_eq!(readers, list_of(&[a, pending(3), c, d, b]));
}

#[test]
fn a_reader_that_changes_keeps_its_place() {
    let mut readers = list(&[3, 1, 2]);
    readers.change(1, pending2(1));
    assert_eq!(readers.listed(), [pending(3), pending2(1), pending(2)]);
}

#[test]
fn a_length_above_the_capacity_lists_every_place() {
    for length in [256, 257, 65_535] {
        let mut readers = list(&[2]);
        readers.length = length;
        assert_eq!(readers.listed(), readers.entries);
        assert!(readers.past().is_empty());
    }
}

#[test]
fn the_first_of_several_equal_is_found() {
    for sought in each_phase(1) {
        assert_eq!(list_of(&[sought; 3]).find(sought), Some(0));
        let later = list_of(&[pending(2), sought, pending(2), sought, sought]);
        assert_eq!(later.find(sought), Some(1));
    }
}

#[test]
fn another_phase_at_the_bucket_is_passed_over() {
    for sought in each_phase(1) {
        let mut entries = each_phase(1).to_vec();
        entries.retain(|&entry| entry != sought);
        assert_eq!(entries.len(), 2);
        assert_eq!(list_of(&entries).find(sought), None);
        entries.push(sought);
        assert_eq!(list_of(&entries).find(sought), Some(2));
    }
    let zero = list_of(&[pending(1), pending2(1), obtained(1, 0)]);
    assert_eq!(zero.find(obtained(1, 0)), Some(2));
}

#[test]
fn another_value_at_the_bucket_is_passed_over() {
    for other in [0, 4, 5 + (1 << 32), 5 + (1 << 63), StoredType::MAX] {
        let without = list_of(&[obtained(1, other)]);
        assert_eq!(without.find(obtained(1, 5)), None);
        let both = list_of(&[obtained(1, other), obtained(1, 5)]);
        assert_eq!(both.find(obtained(1, 5)), Some(1));
    }
}

#[test]
fn the_same_phase_at_another_bucket_is_passed_over() {
    for other in [0, 2, 3, 5, 255] {
        for (sought, elsewhere) in each_phase(1).into_iter().zip(each_phase(other)) {
            assert_eq!(list_of(&[elsewhere]).find(sought), None);
            assert_eq!(list_of(&[elsewhere, sought]).find(sought), Some(1));
        }
    }
}

#[test]
fn nobody_is_found_in_an_empty_list() {
    for sought in [each_phase(0), each_phase(1)].concat() {
        assert_eq!(Readers::none().find(sought), None);
    }
}

#[test]
fn a_full_list_is_searched_to_its_end() {
    for sought in each_phase(1) {
        for other in each_phase(1).into_iter().chain(each_phase(2)) {
            if other != sought {
                let mut full = list_of(&[other; 256]);
                assert_eq!(full.find(sought), None);
                full.change(255, sought);
                assert_eq!(full.find(sought), Some(255));
            }
        }
    }
}

#[test]
fn what_lies_past_the_length_is_not_found() {
    for sought in each_phase(1) {
        for length in 0..256 {
            let mut readers = list(&vec![2; length]);
            readers.entries[length..].fill(sought);
            assert_eq!(readers.find(sought), None);
            readers.length += 1;
            assert_eq!(readers.find(sought), Some(length));
        }
    }
}

#[test]
fn a_length_above_the_capacity_looks_at_every_place() {
    for length in [256, 257, 65_535] {
        for sought in each_phase(1) {
            let mut readers = list(&[2; 256]);
            readers.length = length;
            assert_eq!(readers.find(sought), None);
            for place in (0..256).rev() {
                readers.change(place, sought);
                assert_eq!(readers.find(sought), Some(place));
            }
        }
    }
}

#[test]
fn every_short_list_gives_the_first_equal() {
    let mut few = Vec::new();
    for bucket in [0, 1] {
        few.extend([pending(bucket), pending2(bucket)]);
        few.extend([obtained(bucket, 0), obtained(bucket, 5)]);
    }
    let mut lists = vec![Vec::new()];
    let mut judged = 0;
    for _ in 0..=3 {
        let mut longer = Vec::new();
        for entries in lists {
            let readers = list_of(&entries);
            for &sought in &few {
                let first = readers.listed().iter().position(|r| *r == sought);
                assert_eq!(readers.find(sought), first, "{sought:?} in {entries:?}");
                longer.push([entries.as_slice(), &[sought]].concat());
                judged += 1;
            }
        }
        lists = longer;
    }
    assert_eq!(judged, 8 * (1 + 8 + 64 + 512));
}
