//! Where a list of numbers is wrong: the first index up to which no legal list agrees with it.
//! The end of a list counts as an entry.

pub const MOST_SPLITS: usize = 33;

/// A list of a set length, with a highest number at each index.
pub fn wrong_bounded(list: &[u64], length: usize, most: impl Fn(usize) -> u64) -> Option<usize> {
    let beyond = list.iter().take(length).enumerate().position(|(index, number)| *number > most(index));
    beyond.or_else(|| (list.len() != length).then_some(length.min(list.len())))
}

/// Splits: 0 first, strictly rising, the size last, 33 numbers at most.
pub fn wrong_splits(splits: &[u64], size: u64) -> Option<usize> {
    let mut before = None;
    for (index, &split) in splits.iter().enumerate() {
        let legal = match before {
            None => split == 0,
            Some(_) if index + 1 >= MOST_SPLITS => before != Some(size) && split == size,
            Some(before) => before < split && split <= size,
        };
        if !legal {
            return Some(index);
        }
        before = Some(split);
    }
    (before != Some(size)).then_some(splits.len())
}

#[cfg(test)]
mod tests {
    use super::*;

    #[test]
    fn splits_of_the_page() {
        assert_eq!(wrong_splits(&[0, 3, 3], 3), Some(2));
        assert_eq!(wrong_splits(&[0, 3], 4), Some(2));
        let rising = |last| (0..=last).collect::<Vec<u64>>();
        assert_eq!(wrong_splits(&rising(33), 33), Some(32));
        assert_eq!(wrong_splits(&rising(32), 32), None);
        assert_eq!(wrong_splits(&rising(33), 32), Some(33));
    }

    #[test]
    fn splits_at_their_ends() {
        assert_eq!(wrong_splits(&[], 3), Some(0));
        assert_eq!(wrong_splits(&[0], 3), Some(1));
        assert_eq!(wrong_splits(&[1, 3], 3), Some(0));
        assert_eq!(wrong_splits(&[0, 4], 3), Some(1));
        assert_eq!(wrong_splits(&[0, 2, 1, 3], 3), Some(2));
    }

    #[test]
    fn bounded_lists() {
        let most = |index| if index < 2 { 10 } else { 5 };
        assert_eq!(wrong_bounded(&[10, 10, 5], 3, most), None);
        assert_eq!(wrong_bounded(&[10, 11, 6], 3, most), Some(1));
        assert_eq!(wrong_bounded(&[10, 10, 6, 1], 3, most), Some(2));
        assert_eq!(wrong_bounded(&[10, 10, 5, 99], 3, most), Some(3));
        assert_eq!(wrong_bounded(&[10], 3, most), Some(1));
        assert_eq!(wrong_bounded(&[], 3, most), Some(0));
    }
}
