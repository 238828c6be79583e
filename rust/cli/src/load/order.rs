//! The order in which a file's pieces are sent.

use crate::block::Block;
use std::collections::HashSet;
use std::ops::RangeInclusive;

/// The pieces without the blocks of some numbers; the first number that no block has is an error.
pub fn without<'a>(
    pieces: &[&'a [u8]],
    drop: &[RangeInclusive<u32>],
) -> Result<Vec<&'a [u8]>, u32> {
    let number = |piece: &[u8]| Block::read(piece).map(|block| block.number);
    let there: HashSet<u32> = pieces.iter().filter_map(|piece| number(piece)).collect();
    let mut asked = drop.iter().cloned().flatten();
    if let Some(k) = asked.find(|k| !there.contains(k)) {
        return Err(k);
    }
    let dropped = |k: u32| drop.iter().any(|range| range.contains(&k));
    let kept = pieces
        .iter()
        .filter(|piece| !number(piece).is_some_and(dropped));
    Ok(kept.copied().collect())
}

/// Each piece so many times, one after the other.
pub fn repeated<'a>(pieces: &[&'a [u8]], times: usize) -> Vec<&'a [u8]> {
    pieces
        .iter()
        .flat_map(|piece| std::iter::repeat_n(*piece, times))
        .collect()
}

/// An order of chance, the same for the same seed: numbers of SplitMix64, swapped from the end on.
pub fn shuffle<T>(list: &mut [T], seed: u64) {
    let mut state = seed;
    for k in (1..list.len()).rev() {
        state = state.wrapping_add(0x9E37_79B9_7F4A_7C15);
        let mut x = state;
        x = (x ^ (x >> 30)).wrapping_mul(0xBF58_476D_1CE4_E5B9);
        x = (x ^ (x >> 27)).wrapping_mul(0x94D0_49BB_1331_11EB);
        x ^= x >> 31;
        list.swap(k, (x % (k as u64 + 1)) as usize);
    }
}

#[cfg(test)]
mod tests {
    use super::*;

    #[test]
    fn orders() {
        let mut list: Vec<u32> = (0..100).collect();
        shuffle(&mut list, 7);
        let mut again: Vec<u32> = (0..100).collect();
        shuffle(&mut again, 7);
        assert_eq!(list, again);
        shuffle(&mut again, 8);
        assert_ne!(list, again);
        list.sort_unstable();
        assert_eq!(list, (0..100).collect::<Vec<u32>>());
        shuffle::<u32>(&mut [], 1);
    }

    #[test]
    fn repeats_and_drops() {
        let mut file = [0; 1536];
        tools::make(&[1; 768], 5, 0x1000_0000, &mut file).expect("a file");
        let pieces: Vec<&[u8]> = file.chunks(512).collect();
        assert_eq!(without(&pieces, &[1..=1]), Ok(vec![pieces[0], pieces[2]]));
        assert_eq!(
            without(&pieces, &[1..=1, 1..=1]),
            Ok(vec![pieces[0], pieces[2]])
        );
        assert_eq!(without(&pieces, &[1..=1, 3..=3]), Err(3));
        assert_eq!(without(&pieces, &[0..=1]), Ok(vec![pieces[2]]));
        assert_eq!(without(&pieces, &[1..=u32::MAX]), Err(3));
        assert_eq!(
            repeated(&pieces[1..], 2),
            [pieces[1], pieces[1], pieces[2], pieces[2]]
        );
    }
}
