//! Places in a star read on the circle. Stars damaged before are read too, so nothing is asked of the kinds.

use reference::job::Entry;

pub fn kinds_of(star: &[Entry]) -> Vec<u8> {
    star.iter().map(|entry| entry.kind).collect()
}

/// Where a list begins and how long it is; the first stretch that begins, where a damaged star has several.
pub fn list(kinds: &[u8], kind: u8) -> Option<(usize, usize)> {
    let count = kinds.len();
    let of_kind = |place: usize| kinds[place % count] == kind;
    let begins = |place: usize| of_kind(place) && !of_kind(place + count - 1);
    let begin = (0..count)
        .find(|&place| begins(place))
        .or_else(|| (0..count).find(|&place| of_kind(place)))?;
    let length = (0..count).take_while(|step| of_kind(begin + step)).count();
    Some((begin, length))
}

/// The places of a list, in circular order from where it begins.
pub fn places(kinds: &[u8], kind: u8) -> Vec<usize> {
    let (begin, length) = list(kinds, kind).unwrap_or((0, 0));
    (begin..begin + length)
        .map(|place| place % kinds.len())
        .collect()
}

/// Where a kind that is missing belongs: behind the list of the nearest kind before it. A kind past 3 goes anywhere.
pub fn gap(kinds: &[u8], kind: u8) -> usize {
    let earlier = (1..4).map(|back| (kind % 4 + 4 - back) % 4);
    let end = earlier
        .filter_map(|kind| list(kinds, kind))
        .map(|(begin, length)| begin + length)
        .next();
    inserting(kinds, end.unwrap_or(0))
}

/// A place counted on past the end, as one at which an entry can be put in.
pub fn inserting(kinds: &[u8], place: usize) -> usize {
    if place > kinds.len() {
        place - kinds.len()
    } else {
        place
    }
}

#[cfg(test)]
mod tests {
    use super::{gap, list, places};

    #[test]
    fn lists_run_over_the_start() {
        let kinds = [0, 1, 2, 2, 3, 0, 0];
        assert_eq!(list(&kinds, 0), Some((5, 3)));
        assert_eq!(places(&kinds, 0), [5, 6, 0]);
        assert_eq!(places(&kinds, 2), [2, 3]);
        assert_eq!(list(&[1, 1], 1), Some((0, 2)));
        assert_eq!(list(&[], 1), None);
    }

    #[test]
    fn a_missing_kind_goes_behind_the_kinds_before_it() {
        assert_eq!(gap(&[0, 1, 3, 3], 2), 2);
        assert_eq!(gap(&[3, 1, 2, 3], 0), 1);
        assert_eq!(gap(&[2, 0, 2, 2], 1), 2);
        assert_eq!(gap(&[0, 2, 0], 3), 2);
        assert_eq!(gap(&[2], 1), 1);
        assert_eq!(gap(&[], 1), 0);
        assert!(gap(&[0, 1, 2, 3], 255) <= 4);
    }
}
