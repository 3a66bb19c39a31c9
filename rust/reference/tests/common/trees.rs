//! Right indexes whose answers are worked out by hand, and ways to change their words.

use crate::foreign::index_of;
use crate::marked::{board_of, MARKED};
use reference::*;

/// Places of words in a body.
pub const SIZE: usize = 2;
pub const PARENT: usize = 3;

/// The index of the scope paper's listing: code 3 over the marked rows.
pub fn listing_index() -> Vec<u32> {
    let (mut index, mut totals) = ([77; 70], [77; 12]);
    let board = board_of(&MARKED);
    let built = build_board(&board, 3, None, Start::ParentZero, &mut index, &mut totals);
    assert_eq!(built, Built { refusal: 0, nodes: 9, left: 0 });
    index.to_vec()
}

/// Two roots: rank 1 with children 2, 4 and 5, of which 2 has child 3, and 5 has children 6 and 7;
/// rank 8 with child 9. Sizes 7, 2, 1, 1, 3, 1, 1, 2, 1.
pub fn two_trees() -> Vec<u32> {
    index_of(&[
        (7, 0, 1),
        (2, 1, 2),
        (1, 2, 3),
        (1, 1, 2),
        (3, 1, 2),
        (1, 5, 3),
        (1, 5, 3),
        (2, 0, 1),
        (1, 8, 2),
    ])
}

/// The two trees with words replaced, each by rank and place in the body.
pub fn changed(words: &[(u32, usize, u32)]) -> Vec<u32> {
    let mut index = two_trees();
    for &(rank, place, word) in words {
        index[8 + 6 * (rank as usize - 1) + place] = word;
    }
    index
}

/// The two trees cut short at every place, and with each word of contents that 13 judges changed.
pub fn bad_contents() -> Vec<Vec<u32>> {
    let good = two_trees();
    let mut bad: Vec<Vec<u32>> = (0..good.len()).map(|end| good[..end].to_vec()).collect();
    for (word, value) in [(1, 7), (2, 5), (0, 10), (0, 65_536), (0, u32::MAX)] {
        let mut index = good.clone();
        index[word] = value;
        bad.push(index);
    }
    bad
}

/// The two trees with words 3 to 7 changed and words beyond, none of which 13 judges.
pub fn other_contents() -> Vec<u32> {
    let mut index = two_trees();
    index[3..8].fill(u32::MAX);
    index.extend([u32::MAX; 7]);
    index
}

/// A chain of five: each the child of the one before.
pub fn chain_of_five() -> Vec<u32> {
    index_of(&[(5, 0, 1), (4, 1, 2), (3, 2, 3), (2, 3, 4), (1, 4, 5)])
}

/// Every forest of up to `most` nodes.
pub fn forests(most: usize) -> Vec<Vec<u32>> {
    let mut all = vec![vec![]];
    let mut next = 0;
    while next < all.len() {
        let depths: Vec<u32> = all[next].clone();
        if depths.len() < most {
            let deepest = depths.last().map_or(1, |depth| depth + 1);
            for depth in 1..=deepest {
                all.push([&depths[..], &[depth]].concat());
            }
        }
        next += 1;
    }
    all.iter().map(|depths| forest_of(depths)).collect()
}

/// The index of the forest whose nodes have the given depths, in rank order.
fn forest_of(depths: &[u32]) -> Vec<u32> {
    let mut bodies = Vec::new();
    for (place, depth) in depths.iter().enumerate() {
        let below = depths[place + 1..].iter().take_while(|other| *other > depth).count();
        let above = depths[..place].iter().rposition(|other| other < depth);
        bodies.push((1 + below as u32, above.map_or(0, |place| place as u32 + 1), *depth));
    }
    let index = index_of(&bodies);
    assert!(index_check(&index));
    index
}
