//! Siblings by hops, worked out by hand: what is listed on right indexes, how the walk ends, and what
//! is refused on damaged ones.

#[path = "common/foreign.rs"]
mod foreign;
#[path = "common/marked.rs"]
mod marked;
#[path = "common/trees.rs"]
mod trees;

use foreign::index_of;
use reference::*;
use trees::{
    bad_contents, chain_of_five, changed, forests, listing_index, other_contents, two_trees,
    PARENT, SIZE,
};

/// What the call answers with a list of `room` words: the ranks listed, or the refusal. Length and
/// hops are their number, or 0; all other words are as before.
fn hops_in(index: &[u32], rank: u32, room: usize) -> Result<Vec<u32>, u32> {
    let mut list = vec![77; room];
    let hopped = siblings_by_hops(index, rank, &mut list);
    let length = hopped.length as usize;
    assert_eq!(hopped.hops, hopped.length);
    assert!(list[length..].iter().all(|word| *word == 77));
    if hopped.refusal != 0 {
        assert_eq!(length, 0);
        return Err(hopped.refusal);
    }
    list.truncate(length);
    Ok(list)
}

/// With a list that is long enough.
fn hops(index: &[u32], rank: u32) -> Result<Vec<u32>, u32> {
    hops_in(index, rank, 20)
}

fn listed<const N: usize>(ranks: [u32; N]) -> Result<Vec<u32>, u32> {
    Ok(ranks.to_vec())
}

// Right indexes.

#[test]
fn the_listing() {
    let index = listing_index();
    let expected: [&[u32]; 9] = [&[1, 9], &[2, 6], &[3], &[4], &[5], &[2, 6], &[7], &[8], &[1, 9]];
    for (rank, ranks) in (1..).zip(expected) {
        assert_eq!(hops(&index, rank), Ok(ranks.to_vec()), "{rank}");
    }
    let mut list = [77; 4];
    let expected = Hopped { refusal: 0, length: 2, hops: 2 };
    assert_eq!(siblings_by_hops(&index, 6, &mut list), expected);
    assert_eq!(list, [2, 6, 77, 77]);
    let expected = Hopped { refusal: 0, length: 1, hops: 1 };
    assert_eq!(siblings_by_hops(&index, 8, &mut list), expected);
    assert_eq!(list, [8, 6, 77, 77]);
}

#[test]
fn children_and_roots() {
    let index = two_trees();
    assert!(index_check(&index));
    for rank in [2, 4, 5] {
        assert_eq!(hops(&index, rank), listed([2, 4, 5]));
    }
    for rank in [6, 7] {
        assert_eq!(hops(&index, rank), listed([6, 7]));
    }
    for rank in [1, 8] {
        assert_eq!(hops(&index, rank), listed([1, 8]));
    }
    assert_eq!(hops(&index, 3), listed([3]));
    assert_eq!(hops(&index, 9), listed([9]));
}

#[test]
fn one_node_many_roots_and_a_chain() {
    assert_eq!(hops(&index_of(&[(1, 0, 1)]), 1), listed([1]));
    let roots = index_of(&[(1, 0, 1); 5]);
    let chain = chain_of_five();
    for rank in 1..=5 {
        assert_eq!(hops(&roots, rank), listed([1, 2, 3, 4, 5]));
        assert_eq!(hops(&chain, rank), listed([rank]));
    }
}

/// Levels aren't read: siblings in different columns of a levelled list.
#[test]
fn siblings_of_a_levelled_list() {
    // 1; 1 5; 1 5 8; 1 - 6; 1 - 7.
    let cells = [1, 5, 8, 1, 0, 7, 1, 0, 6];
    let (mut index, mut totals) = ([0; 60], [0; 10]);
    assert_eq!(build_levelled(&cells, 3, &mut index, &mut totals).nodes, 5);
    assert_eq!(hops(&index, 2), listed([2, 4, 5]));
    assert_eq!(hops(&index, 5), listed([2, 4, 5]));
    assert_eq!(hops(&index, 3), listed([3]));
}

/// Every forest of up to 8 nodes: from every rank what the old call lists, in every length of the
/// slice.
#[test]
fn the_same_as_siblings() {
    let forests = forests(8);
    for index in &forests {
        for rank in 1..=index[0] {
            for room in 0..=9 {
                let mut list = vec![77; room];
                let old = siblings(index, rank, &mut list);
                list.truncate(old.length as usize);
                let expected = if old.refusal == 0 { Ok(list) } else { Err(old.refusal) };
                assert_eq!(hops_in(index, rank, room), expected);
            }
        }
    }
    // 1 + 1 + 2 + 5 + 14 + 42 + 132 + 429 + 1,430.
    assert_eq!(forests.len(), 2_056);
}

// The end of the walk.

#[test]
fn a_parent_without_room() {
    // The parent is a node of size 1: 3, the last of all, or the rank itself.
    for parent in [3, 6, 9, 4] {
        let index = changed(&[(4, PARENT, parent)]);
        assert_eq!(hops(&index, 4), listed([]));
        assert_eq!(hops_in(&index, 4, 0), listed([]));
    }
    let index = changed(&[(5, SIZE, 1)]);
    assert_eq!(hops(&index, 6), listed([]));
}

#[test]
fn a_hop_beyond_the_end_of_the_parent() {
    // 5 + 4 = 9, the end of 1 is 7.
    assert_eq!(hops(&changed(&[(5, SIZE, 4)]), 4), listed([2, 4, 5]));
    // 4 + 4 = 8: rank 5 isn't met, not even from itself.
    assert_eq!(hops(&changed(&[(4, SIZE, 4)]), 5), listed([2, 4]));
    // 2 + 6 = 8 and 2 + 7 = 9.
    for size in [6, 7, 8, 9, u32::MAX - 2, u32::MAX - 1, u32::MAX] {
        assert_eq!(hops(&changed(&[(2, SIZE, size)]), 2), listed([2]));
        assert_eq!(hops(&changed(&[(2, SIZE, size)]), 5), listed([2]));
    }
    // 2 + 5 = 7, the end itself.
    assert_eq!(hops(&changed(&[(2, SIZE, 5)]), 2), listed([2, 7]));
    // The parent's own end: 6 and not 7, so that 6 is the last.
    assert_eq!(hops(&changed(&[(5, SIZE, 2)]), 7), listed([6]));
    // 4 + 2 = 6 and 7, which are children of 5.
    assert_eq!(hops(&changed(&[(4, SIZE, 2)]), 2), listed([2, 4, 6, 7]));
    // 2 + 1 = 3.
    assert_eq!(hops(&changed(&[(2, SIZE, 1)]), 2), listed([2, 3, 4, 5]));
}

#[test]
fn a_hop_beyond_n() {
    // Roots: the end of a root above n is no refusal.
    for size in [9, 10, u32::MAX - 1, u32::MAX] {
        assert_eq!(hops(&changed(&[(1, SIZE, size)]), 1), listed([1]));
        assert_eq!(hops(&changed(&[(1, SIZE, size)]), 8), listed([1]));
    }
    // 2^32 - 8 + 8 would be 0, the sizes above it 1 to 7.
    for size in [2, 3, 4, u32::MAX - 7, u32::MAX - 6, u32::MAX - 1, u32::MAX] {
        assert_eq!(hops(&changed(&[(8, SIZE, size)]), 8), listed([1, 8]));
    }
    assert_eq!(hops(&changed(&[(8, SIZE, 1)]), 8), listed([1, 8, 9]));
    // 1 + 8 = 9, the last rank.
    assert_eq!(hops(&changed(&[(1, SIZE, 8)]), 8), listed([1, 9]));
    // Children whose parent ends at n.
    for size in [2, 3, u32::MAX - 8, u32::MAX] {
        assert_eq!(hops(&changed(&[(9, SIZE, size)]), 9), listed([9]));
    }
}

#[test]
fn a_parent_at_or_above_the_rank() {
    // Itself: what is listed are its own children.
    assert_eq!(hops(&changed(&[(5, PARENT, 5)]), 5), listed([6, 7]));
    assert_eq!(hops(&changed(&[(1, PARENT, 1)]), 1), listed([2, 4, 5]));
    // Above it.
    assert_eq!(hops(&changed(&[(2, PARENT, 5)]), 2), listed([6, 7]));
    assert_eq!(hops(&changed(&[(1, PARENT, 8)]), 1), listed([9]));
    // Of two that are each other's parent.
    let index = changed(&[(2, PARENT, 5), (5, PARENT, 2)]);
    assert_eq!(hops(&index, 2), listed([6, 7]));
    assert_eq!(hops(&index, 5), listed([3]));
    // A lower one that isn't the parent.
    assert_eq!(hops(&changed(&[(7, PARENT, 1)]), 7), listed([2, 4, 5]));
    assert_eq!(hops(&changed(&[(7, PARENT, 0)]), 7), listed([1, 8]));
    // Parents of others aren't read.
    let index = changed(&[(2, PARENT, 9), (4, PARENT, u32::MAX), (1, PARENT, 1)]);
    assert_eq!(hops(&index, 5), listed([2, 4, 5]));
}

// Refusals.

#[test]
fn refused_13() {
    assert_eq!(hops(&[], 1), Err(13));
    for bad in bad_contents() {
        for rank in [0, 1, 9, 10, u32::MAX] {
            assert_eq!(hops(&bad, rank), Err(13));
        }
    }
    let other = other_contents();
    assert_eq!(hops(&other, 4), listed([2, 4, 5]));
    assert_eq!(hops(&other, 9), listed([9]));
}

#[test]
fn refused_14() {
    // All sizes are 0, so that 15 would come next.
    let index = index_of(&[(0, 1, 1), (0, 1, 1)]);
    for rank in [0, 3, 4, u32::MAX] {
        assert_eq!(hops(&index, rank), Err(14));
        assert_eq!(hops_in(&index, rank, 0), Err(14));
    }
    for rank in [1, 2] {
        assert_eq!(hops(&index, rank), Err(15));
    }
    let empty = index_of(&[]);
    for rank in [0, 1] {
        assert_eq!(hops(&empty, rank), Err(14));
    }
}

#[test]
fn refused_15_by_the_parent() {
    // A size of 0.
    let index = changed(&[(5, SIZE, 0)]);
    assert_eq!(hops(&index, 6), Err(15));
    assert_eq!(hops(&index, 7), Err(15));
    assert_eq!(hops_in(&index, 7, 0), Err(15));
    assert_eq!(hops(&index, 8), listed([1, 8]));
    let index = changed(&[(5, SIZE, 0), (5, PARENT, 5)]);
    assert_eq!(hops(&index, 5), Err(15));
    // A rank above n, whether or not there are words for it.
    for parent in [10, 11, 65_535, 65_536, u32::MAX - 1, u32::MAX] {
        let mut index = changed(&[(4, PARENT, parent)]);
        assert_eq!(hops(&index, 4), Err(15));
        index.extend([1; 12]);
        assert_eq!(hops(&index, 4), Err(15));
        assert_eq!(hops_in(&index, 4, 0), Err(15));
        assert_eq!(hops(&index, 5), listed([2, 4, 5]));
    }
    // An end above n: 5 + 5 - 1 is n, 5 + 6 - 1 is n + 1.
    assert_eq!(hops(&changed(&[(5, SIZE, 5)]), 7), listed([6, 7, 8]));
    for size in [6, 7, u32::MAX - 5, u32::MAX - 4, u32::MAX - 3, u32::MAX - 1, u32::MAX] {
        let index = changed(&[(5, SIZE, size)]);
        assert_eq!(hops(&index, 6), Err(15));
        assert_eq!(hops_in(&index, 6, 0), Err(15));
    }
    // The same of the last rank, and of one that is its own parent.
    for size in [2, u32::MAX - 8, u32::MAX] {
        assert_eq!(hops(&changed(&[(9, SIZE, size), (4, PARENT, 9)]), 4), Err(15));
        assert_eq!(hops(&changed(&[(9, SIZE, size), (9, PARENT, 9)]), 9), Err(15));
    }
}

#[test]
fn refused_15_by_a_size_of_0_met() {
    // First, in the middle, last; from each of them.
    for zero in [2, 4, 5] {
        for rank in [2, 4, 5] {
            assert_eq!(hops(&changed(&[(zero, SIZE, 0)]), rank), Err(15));
        }
    }
    for zero in [1, 8] {
        for rank in [1, 8] {
            assert_eq!(hops(&changed(&[(zero, SIZE, 0)]), rank), Err(15));
        }
    }
    assert_eq!(hops(&changed(&[(9, SIZE, 0)]), 9), Err(15));
    // Met by a hop of another size.
    assert_eq!(hops(&changed(&[(2, SIZE, 1), (3, SIZE, 0)]), 5), Err(15));
    assert_eq!(hops(&changed(&[(1, SIZE, 8), (9, SIZE, 0)]), 1), Err(15));
    // Not met: between hops, or beyond the parent's end.
    assert_eq!(hops(&changed(&[(3, SIZE, 0), (6, SIZE, 0), (7, SIZE, 0)]), 4), listed([2, 4, 5]));
    assert_eq!(hops(&changed(&[(8, SIZE, 0), (9, SIZE, 0)]), 4), listed([2, 4, 5]));
    assert_eq!(hops(&changed(&[(5, SIZE, 2), (7, SIZE, 0)]), 6), listed([6]));
    assert_eq!(hops(&changed(&[(4, SIZE, 4), (5, SIZE, 0)]), 4), listed([2, 4]));
}

#[test]
fn a_size_of_0_met_when_the_slice_is_full() {
    let index = changed(&[(5, SIZE, 0)]);
    // 2 and 4 are met before it.
    for room in 0..=4 {
        assert_eq!(hops_in(&index, 4, room), Err(15));
    }
    // The same list without it.
    for room in 0..=2 {
        assert_eq!(hops_in(&two_trees(), 4, room), Err(16));
    }
    for room in 0..=3 {
        assert_eq!(hops_in(&changed(&[(8, SIZE, 0)]), 1, room), Err(15));
        assert_eq!(hops_in(&changed(&[(1, SIZE, 0)]), 1, room), Err(15));
    }
}

#[test]
fn the_size_of_the_rank_given() {
    // Met at its place.
    assert_eq!(hops(&changed(&[(3, SIZE, 0)]), 3), Err(15));
    // Not met: its parent is another, or a hop goes past it.
    assert_eq!(hops(&changed(&[(3, SIZE, 0), (3, PARENT, 1)]), 3), listed([2, 4, 5]));
    assert_eq!(hops(&changed(&[(9, SIZE, 0), (9, PARENT, 0)]), 9), listed([1, 8]));
    assert_eq!(hops(&changed(&[(4, SIZE, 0), (4, PARENT, 5)]), 4), listed([6, 7]));
    assert_eq!(hops(&changed(&[(5, SIZE, 0), (4, SIZE, 4)]), 5), listed([2, 4]));
    assert_eq!(hops(&changed(&[(8, SIZE, 0), (1, SIZE, u32::MAX)]), 8), listed([1]));
    // Any other size of a rank that isn't met.
    assert_eq!(hops(&changed(&[(3, SIZE, u32::MAX), (3, PARENT, 1)]), 3), listed([2, 4, 5]));
}

#[test]
fn refused_16() {
    let index = two_trees();
    for (rank, ranks) in [(4, &[2, 4, 5][..]), (7, &[6, 7]), (1, &[1, 8]), (9, &[9])] {
        for room in 0..ranks.len() {
            assert_eq!(hops_in(&index, rank, room), Err(16));
        }
        for room in ranks.len()..=ranks.len() + 5 {
            assert_eq!(hops_in(&index, rank, room), Ok(ranks.to_vec()));
        }
    }
    // A list that a hop beyond the parent's end has made shorter.
    let index = changed(&[(4, SIZE, u32::MAX)]);
    assert_eq!(hops_in(&index, 5, 2), listed([2, 4]));
    assert_eq!(hops_in(&index, 5, 1), Err(16));
}

#[test]
fn a_refused_call_writes_nothing() {
    let mut list = [77; 2];
    let refused = |refusal| Hopped { refusal, length: 0, hops: 0 };
    assert_eq!(siblings_by_hops(&[], 1, &mut list), refused(13));
    assert_eq!(siblings_by_hops(&two_trees(), 10, &mut list), refused(14));
    assert_eq!(siblings_by_hops(&changed(&[(5, SIZE, 0)]), 2, &mut list), refused(15));
    assert_eq!(siblings_by_hops(&two_trees(), 2, &mut list), refused(16));
    assert_eq!(list, [77; 2]);
}

/// The largest index: 65,535 roots, and as many children as can be.
#[test]
fn the_limit_of_nodes() {
    let n = 65_535;
    let mut list = vec![77; n + 1];
    let roots = index_of(&vec![(1, 0, 1); n]);
    let expected = Hopped { refusal: 0, length: 65_535, hops: 65_535 };
    assert_eq!(siblings_by_hops(&roots, 65_535, &mut list), expected);
    assert!(list[..n].iter().copied().eq(1..=65_535) && list[n] == 77);
    let mut bodies = vec![(1, 1, 2); n];
    bodies[0] = (65_535, 0, 1);
    let children = index_of(&bodies);
    let expected = Hopped { refusal: 0, length: 65_534, hops: 65_534 };
    assert_eq!(siblings_by_hops(&children, 2, &mut list[..n - 1]), expected);
    assert!(list[..n - 1].iter().copied().eq(2..=65_535));
    let expected = Hopped { refusal: 16, length: 0, hops: 0 };
    assert_eq!(siblings_by_hops(&children, 2, &mut list[..n - 2]), expected);
}
