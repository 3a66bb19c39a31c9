//! Where two nodes meet, and the climber, worked out by hand: what is answered on right indexes, where
//! links lead elsewhere, and what is refused.

#[path = "common/foreign.rs"]
mod foreign;
#[path = "common/marked.rs"]
mod marked;
#[path = "common/trees.rs"]
mod trees;

use foreign::index_of;
use reference::*;
use trees::{
    bad_contents, chain_of_five, changed, forests, listing_index, other_contents, two_trees,
    PARENT, SIZE,
};

/// Place of the word with the root rank in a body.
const ROOT: usize = 4;
/// Place of the word with the level in a body.
const LEVEL: usize = 5;
/// Ranks that no index of nine nodes has.
const NO_RANKS: [u32; 4] = [0, 10, 11, u32::MAX];
/// Parent ranks that break the link of rank 5 in an index of nine nodes: itself, above it, beyond n.
const BREAKING: [u32; 9] = [5, 6, 7, 9, 10, 11, 65_536, u32::MAX - 1, u32::MAX];

/// What the call answers: the rank, none, or the refusal; the same with the ranks exchanged.
fn met(index: &[u32], a: u32, b: u32) -> Result<Option<u32>, u32> {
    let meeting = meet(index, a, b);
    assert_eq!(meet(index, b, a), meeting, "{b} {a}");
    let Meeting { refusal, found, rank } = meeting;
    assert_eq!(found, rank != 0);
    if refusal != 0 {
        assert!(!found);
        return Err(refusal);
    }
    Ok(found.then_some(rank))
}

/// The ranks that a climber has come to, that where it was made included, and what ends its way: the
/// refusal, 0 at a root. Called again it answers the same and stays.
fn climbed(index: &[u32], rank: u32) -> (Vec<u32>, u32) {
    let mut climber = Climber::at(index, rank);
    let (mut ranks, mut at) = (vec![rank], rank);
    loop {
        let step = climber.up();
        assert!(std::ptr::eq(climber.index, index));
        assert_eq!(climber.rank, step.rank);
        if step.refusal != 0 || step.root {
            assert_eq!(step, Step { refusal: step.refusal, root: step.refusal == 0, rank: at });
            for _ in 0..3 {
                assert_eq!(climber.up(), step);
                assert_eq!(climber.rank, at);
            }
            return (ranks, step.refusal);
        }
        assert!(step.rank < at);
        at = step.rank;
        ranks.push(at);
    }
}

/// The ranks up to a root.
fn to_root<const N: usize>(ranks: [u32; N]) -> (Vec<u32>, u32) {
    (ranks.to_vec(), 0)
}

/// The ranks up to a refusal.
fn to_refusal<const N: usize>(ranks: [u32; N], refusal: u32) -> (Vec<u32>, u32) {
    (ranks.to_vec(), refusal)
}

// Right indexes.

#[test]
fn the_listing() {
    let index = listing_index();
    // Row a, column b; 0 is none.
    let expected = [
        [1, 1, 1, 1, 1, 1, 1, 1, 0],
        [1, 2, 2, 2, 2, 1, 1, 1, 0],
        [1, 2, 3, 3, 3, 1, 1, 1, 0],
        [1, 2, 3, 4, 4, 1, 1, 1, 0],
        [1, 2, 3, 4, 5, 1, 1, 1, 0],
        [1, 1, 1, 1, 1, 6, 6, 6, 0],
        [1, 1, 1, 1, 1, 6, 7, 7, 0],
        [1, 1, 1, 1, 1, 6, 7, 8, 0],
        [0, 0, 0, 0, 0, 0, 0, 0, 9],
    ];
    for (a, row) in (1..).zip(expected) {
        for (b, rank) in (1..).zip(row) {
            assert_eq!(meet(&index, a, b), Meeting { refusal: 0, found: rank != 0, rank });
        }
    }
    assert_eq!(climbed(&index, 5), to_root([5, 4, 3, 2, 1]));
    assert_eq!(climbed(&index, 8), to_root([8, 7, 6, 1]));
    assert_eq!(climbed(&index, 9), to_root([9]));
}

#[test]
fn equal_ranks() {
    for index in [two_trees(), listing_index()] {
        for rank in 1..=9 {
            assert_eq!(met(&index, rank, rank), Ok(Some(rank)));
        }
    }
}

#[test]
fn an_ancestor_and_a_descendant() {
    let index = two_trees();
    for (above, below) in [(1, 2), (1, 3), (2, 3), (1, 4), (1, 5), (1, 6), (1, 7), (5, 6), (5, 7)] {
        assert_eq!(met(&index, above, below), Ok(Some(above)));
    }
    assert_eq!(met(&index, 8, 9), Ok(Some(8)));
}

#[test]
fn siblings_and_cousins() {
    let index = two_trees();
    // Of one parent.
    for (a, b) in [(2, 4), (2, 5), (4, 5)] {
        assert_eq!(met(&index, a, b), Ok(Some(1)));
    }
    assert_eq!(met(&index, 6, 7), Ok(Some(5)));
    // Children of 2 and of 5, and with 4 that has none.
    for (a, b) in [(3, 6), (3, 7), (3, 4), (3, 5), (2, 6), (2, 7), (4, 6), (4, 7)] {
        assert_eq!(met(&index, a, b), Ok(Some(1)));
    }
}

#[test]
fn different_roots() {
    let index = two_trees();
    for a in 1..=7 {
        for b in [8, 9] {
            assert_eq!(meet(&index, a, b), Meeting { refusal: 0, found: false, rank: 0 });
            assert_eq!(meet(&index, b, a), Meeting { refusal: 0, found: false, rank: 0 });
        }
    }
}

#[test]
fn one_node_many_roots_and_a_chain() {
    let one = index_of(&[(1, 0, 1)]);
    assert_eq!(met(&one, 1, 1), Ok(Some(1)));
    assert_eq!(climbed(&one, 1), to_root([1]));
    let (roots, chain) = (index_of(&[(1, 0, 1); 5]), chain_of_five());
    for a in 1..=5 {
        for b in 1..=5 {
            assert_eq!(met(&roots, a, b), Ok((a == b).then_some(a)));
            assert_eq!(met(&chain, a, b), Ok(Some(a.min(b))));
        }
        assert_eq!(climbed(&roots, a), to_root([a]));
    }
    assert_eq!(climbed(&chain, 5), to_root([5, 4, 3, 2, 1]));
}

/// Columns that a levelled list leaves out are no links: 1; 1 6; 1 6 - 7; 1 - 2; 1 - 2 3; 1 - 2 4;
/// 1 - 5; - - 9; - - 9 8.
#[test]
fn a_levelled_list() {
    let cells = [0, 0, 9, 8, 1, 0, 5, 0, 1, 0, 2, 4, 1, 0, 2, 3, 1, 6, 0, 7];
    let (mut index, mut totals) = ([0; 70], [0; 10]);
    assert_eq!(build_levelled(&cells, 4, &mut index, &mut totals).nodes, 9);
    let levels = (1..=9).map(|rank| Body::read(&index, rank).level);
    assert!(levels.eq([1, 2, 4, 3, 4, 4, 3, 3, 4]));
    assert_eq!(met(&index, 5, 6), Ok(Some(4)));
    assert_eq!(met(&index, 2, 3), Ok(Some(2)));
    assert_eq!(met(&index, 8, 9), Ok(Some(8)));
    for (a, b) in [(3, 4), (3, 6), (2, 7), (4, 7), (5, 7), (1, 6)] {
        assert_eq!(met(&index, a, b), Ok(Some(1)));
    }
    for (a, b) in [(1, 8), (7, 8), (6, 9), (3, 9)] {
        assert_eq!(met(&index, a, b), Ok(None));
    }
    assert_eq!(climbed(&index, 3), to_root([3, 2, 1]));
    assert_eq!(climbed(&index, 6), to_root([6, 4, 1]));
    assert_eq!(climbed(&index, 7), to_root([7, 1]));
    assert_eq!(climbed(&index, 9), to_root([9, 8]));
}

/// The guide's section 8.8: the highest rank in whose interval both ranks are.
fn by_intervals(index: &[u32], a: u32, b: u32) -> Option<u32> {
    let holds = |rank: &u32| {
        let size = Body::read(index, *rank as usize).size;
        *rank <= a.min(b) && rank + size > a.max(b)
    };
    (1..=index[0]).rev().find(holds)
}

/// Every forest of up to 7 nodes and every two of its ranks: what the guide's recipe gives, and none
/// exactly for two roots' trees. The climbs are all ancestors, and from either node the answer is the
/// first rank that the other comes to as well.
#[test]
fn every_small_forest() {
    let forests = forests(7);
    let (mut pairs, mut none) = (0, 0);
    for index in &forests {
        for a in 1..=index[0] {
            for b in 1..=index[0] {
                let found = met(index, a, b).unwrap();
                assert_eq!(found, by_intervals(index, a, b), "{index:?} {a} {b}");
                let roots = [a, b].map(|rank| Body::read(index, rank as usize).root);
                assert_eq!(found.is_none(), roots[0] != roots[1]);
                let (from_a, from_b) = (climbed(index, a), climbed(index, b));
                assert_eq!(from_a, to_root_of(index, a));
                assert_eq!(from_a.0.iter().find(|rank| from_b.0.contains(rank)), found.as_ref());
                assert_eq!(from_b.0.iter().find(|rank| from_a.0.contains(rank)), found.as_ref());
                pairs += 1;
                none += found.is_none() as u32;
            }
        }
    }
    // 1 + 1 + 2 + 5 + 14 + 42 + 132 + 429.
    assert_eq!(forests.len(), 626);
    // That many forests of 1 to 7 nodes, times the number of nodes squared.
    assert_eq!(pairs, 1 + 2 * 4 + 5 * 9 + 14 * 16 + 42 * 25 + 132 * 36 + 429 * 49);
    println!("{pairs} pairs, {none} without an answer");
}

/// The ancestors as the older call lists them.
fn to_root_of(index: &[u32], rank: u32) -> (Vec<u32>, u32) {
    let mut list = vec![0; index[0] as usize];
    let climbed = ancestors(index, rank, i32::MIN, i32::MAX, &mut list);
    list.truncate(climbed.length as usize);
    (list, climbed.refusal)
}

// The climber.

#[test]
fn the_climber_from_every_rank() {
    let index = two_trees();
    assert_eq!(climbed(&index, 1), to_root([1]));
    assert_eq!(climbed(&index, 2), to_root([2, 1]));
    assert_eq!(climbed(&index, 3), to_root([3, 2, 1]));
    assert_eq!(climbed(&index, 4), to_root([4, 1]));
    assert_eq!(climbed(&index, 5), to_root([5, 1]));
    assert_eq!(climbed(&index, 6), to_root([6, 5, 1]));
    assert_eq!(climbed(&index, 7), to_root([7, 5, 1]));
    assert_eq!(climbed(&index, 8), to_root([8]));
    assert_eq!(climbed(&index, 9), to_root([9, 8]));
}

#[test]
fn at_a_root_it_says_so_and_stays() {
    let index = two_trees();
    let mut climber = Climber::at(&index, 6);
    assert_eq!(climber.up(), Step { refusal: 0, root: false, rank: 5 });
    assert_eq!(climber, Climber { index: &index, rank: 5 });
    // The call that comes to the root doesn't say it; the next does.
    assert_eq!(climber.up(), Step { refusal: 0, root: false, rank: 1 });
    for _ in 0..10 {
        assert_eq!(climber.up(), Step { refusal: 0, root: true, rank: 1 });
        assert_eq!(climber, Climber { index: &index, rank: 1 });
    }
    let mut climber = Climber::at(&index, 8);
    for _ in 0..10 {
        assert_eq!(climber.up(), Step { refusal: 0, root: true, rank: 8 });
    }
}

#[test]
fn a_refused_climber_stays() {
    let index = changed(&[(5, PARENT, 5)]);
    let mut climber = Climber::at(&index, 7);
    assert_eq!(climber.up(), Step { refusal: 0, root: false, rank: 5 });
    for _ in 0..10 {
        assert_eq!(climber.up(), Step { refusal: 15, root: false, rank: 5 });
        assert_eq!(climber, Climber { index: &index, rank: 5 });
    }
    for rank in NO_RANKS {
        let mut climber = Climber::at(&index, rank);
        for _ in 0..10 {
            assert_eq!(climber.up(), Step { refusal: 14, root: false, rank });
            assert_eq!(climber, Climber { index: &index, rank });
        }
    }
    for rank in [0, 1, 9, u32::MAX] {
        let mut climber = Climber::at(&[], rank);
        for _ in 0..10 {
            assert_eq!(climber.up(), Step { refusal: 13, root: false, rank });
            assert_eq!(climber, Climber { index: &[], rank });
        }
    }
}

#[test]
fn a_step_judges_its_own_link() {
    for parent in BREAKING {
        let index = changed(&[(5, PARENT, parent)]);
        assert_eq!(climbed(&index, 5), to_refusal([5], 15));
        assert_eq!(climbed(&index, 6), to_refusal([6, 5], 15));
        assert_eq!(climbed(&index, 7), to_refusal([7, 5], 15));
        assert_eq!(climbed(&index, 4), to_root([4, 1]));
    }
    // Two broken links: the one that it comes to first.
    let index = changed(&[(2, PARENT, 2), (1, PARENT, 1)]);
    assert_eq!(climbed(&index, 3), to_refusal([3, 2], 15));
    assert_eq!(climbed(&index, 6), to_refusal([6, 5, 1], 15));
    assert_eq!(climbed(&index, 1), to_refusal([1], 15));
    assert_eq!(climbed(&index, 9), to_root([9, 8]));
}

/// A rank of another climb, or 0: followed as it stands.
#[test]
fn the_climber_follows_wrong_links() {
    assert_eq!(climbed(&changed(&[(7, PARENT, 3)]), 7), to_root([7, 3, 2, 1]));
    assert_eq!(climbed(&changed(&[(9, PARENT, 6)]), 9), to_root([9, 6, 5, 1]));
    assert_eq!(climbed(&changed(&[(5, PARENT, 0)]), 7), to_root([7, 5]));
    assert_eq!(climbed(&changed(&[(8, PARENT, 7)]), 9), to_root([9, 8, 7, 5, 1]));
}

// Links that lead elsewhere.

#[test]
fn a_wrong_link_that_is_not_broken() {
    // 7, 3, 2, 1.
    let index = changed(&[(7, PARENT, 3)]);
    assert_eq!(met(&index, 6, 7), Ok(Some(1)));
    assert_eq!(met(&index, 5, 7), Ok(Some(1)));
    assert_eq!(met(&index, 3, 7), Ok(Some(3)));
    assert_eq!(met(&index, 2, 7), Ok(Some(2)));
    // 5 is a root: its children and the others of 1.
    let index = changed(&[(5, PARENT, 0)]);
    assert_eq!(met(&index, 6, 7), Ok(Some(5)));
    assert_eq!(met(&index, 4, 7), Ok(None));
    assert_eq!(met(&index, 1, 5), Ok(None));
    // 8 is no root: 9, 8, 7, 5, 1.
    let index = changed(&[(8, PARENT, 7)]);
    assert_eq!(met(&index, 9, 6), Ok(Some(5)));
    assert_eq!(met(&index, 9, 7), Ok(Some(7)));
    assert_eq!(met(&index, 8, 3), Ok(Some(1)));
    // 4, 3, 2, 1 and 5, 3, 2, 1: the largest of three.
    let index = changed(&[(4, PARENT, 3), (5, PARENT, 3)]);
    assert_eq!(met(&index, 4, 6), Ok(Some(3)));
    assert_eq!(met(&index, 4, 5), Ok(Some(3)));
}

/// Sizes, root ranks, levels, numerals and row numbers aren't read.
#[test]
fn only_parent_ranks_are_read() {
    let good = two_trees();
    for word in [0, 1, 9, u32::MAX] {
        for place in [0, 1, SIZE, ROOT, LEVEL] {
            let words: Vec<(u32, usize, u32)> = (1..=9).map(|rank| (rank, place, word)).collect();
            let other = changed(&words);
            for a in 1..=9 {
                assert_eq!(climbed(&other, a), climbed(&good, a));
                for b in 1..=9 {
                    assert_eq!(met(&other, a, b), met(&good, a, b));
                }
            }
        }
    }
}

// Refusals.

#[test]
fn refused_13() {
    for bad in bad_contents() {
        for a in [0, 1, 9, 10, u32::MAX] {
            for b in [0, 1, 8, 9, 10, u32::MAX] {
                assert_eq!(met(&bad, a, b), Err(13));
            }
            assert_eq!(climbed(&bad, a), to_refusal([a], 13));
        }
    }
    let (other, good) = (other_contents(), two_trees());
    for a in 1..=9 {
        for b in 1..=9 {
            assert_eq!(met(&other, a, b), met(&good, a, b));
        }
        assert_eq!(climbed(&other, a), climbed(&good, a));
    }
    // Words beyond are no bodies.
    assert_eq!(met(&other, 10, 1), Err(14));
    assert_eq!(climbed(&other, 10), to_refusal([10], 14));
}

#[test]
fn refused_14() {
    let index = two_trees();
    for bad in NO_RANKS {
        for good in 1..=9 {
            assert_eq!(meet(&index, bad, good), Meeting { refusal: 14, found: false, rank: 0 });
            assert_eq!(meet(&index, good, bad), Meeting { refusal: 14, found: false, rank: 0 });
        }
        for other in NO_RANKS {
            assert_eq!(met(&index, bad, other), Err(14));
        }
        assert_eq!(climbed(&index, bad), to_refusal([bad], 14));
    }
    let empty = index_of(&[]);
    for rank in [0, 1, u32::MAX] {
        assert_eq!(met(&empty, rank, rank), Err(14));
        assert_eq!(met(&empty, rank, 1), Err(14));
        assert_eq!(climbed(&empty, rank), to_refusal([rank], 14));
    }
}

/// Every link is broken, so that 15 would hold of the rank that is right.
#[test]
fn refused_14_before_15() {
    for link in [3, u32::MAX] {
        let index = index_of(&[(1, link, 1), (1, link, 1), (1, link, 1)]);
        for bad in [0, 4, u32::MAX] {
            for good in [1, 2, 3] {
                assert_eq!(meet(&index, bad, good).refusal, 14);
                assert_eq!(meet(&index, good, bad).refusal, 14);
            }
        }
        for a in [1, 2, 3] {
            for b in [1, 2, 3] {
                assert_eq!(met(&index, a, b), Err(15));
            }
        }
    }
}

/// Rank 5 has the broken link: on the climbs of 5, 6 and 7 and of no others.
#[test]
fn refused_15_of_either_climb() {
    for parent in BREAKING {
        let index = changed(&[(5, PARENT, parent)]);
        for broken in [5, 6, 7] {
            for other in 1..=9 {
                let expected = Meeting { refusal: 15, found: false, rank: 0 };
                assert_eq!(meet(&index, broken, other), expected);
                assert_eq!(meet(&index, other, broken), expected);
            }
        }
        // A broken link that neither climb comes to.
        assert_eq!(met(&index, 3, 4), Ok(Some(1)));
        assert_eq!(met(&index, 2, 3), Ok(Some(2)));
        assert_eq!(met(&index, 1, 9), Ok(None));
        assert_eq!(met(&index, 8, 9), Ok(Some(8)));
    }
}

#[test]
fn refused_15_of_both_climbs() {
    // 3 and 7 broken: before they would meet.
    let index = changed(&[(3, PARENT, 3), (7, PARENT, u32::MAX)]);
    assert_eq!(met(&index, 3, 7), Err(15));
    assert_eq!(met(&index, 3, 6), Err(15));
    assert_eq!(met(&index, 2, 7), Err(15));
    assert_eq!(met(&index, 2, 6), Ok(Some(1)));
    // In two trees.
    let index = changed(&[(1, PARENT, 1), (8, PARENT, 8)]);
    assert_eq!(met(&index, 7, 9), Err(15));
}

#[test]
fn refused_15_above_the_meeting_place() {
    // 6 and 7 meet at 5, whose link is right; that of 1 is broken.
    for parent in [1, 2, 5, 9, 10, u32::MAX] {
        let index = changed(&[(1, PARENT, parent)]);
        assert_eq!(met(&index, 6, 7), Err(15));
        assert_eq!(met(&index, 5, 7), Err(15));
        assert_eq!(met(&index, 3, 7), Err(15));
        // A node and itself, a root and itself.
        assert_eq!(met(&index, 7, 7), Err(15));
        assert_eq!(met(&index, 1, 1), Err(15));
        assert_eq!(met(&index, 8, 9), Ok(Some(8)));
        assert_eq!(met(&index, 7, 9), Err(15));
    }
    // The link of the meeting place itself.
    for parent in BREAKING {
        let index = changed(&[(5, PARENT, parent)]);
        assert_eq!(met(&index, 6, 7), Err(15));
        assert_eq!(met(&index, 5, 5), Err(15));
    }
    // Far above it: a chain of 100 with the root's link broken.
    let mut bodies: Vec<(u32, u32, u32)> = (0..100).map(|at| (100 - at, at, at + 1)).collect();
    bodies[0].1 = 1;
    let index = index_of(&bodies);
    assert_eq!(met(&index, 99, 100), Err(15));
    assert_eq!(climbed(&index, 100).0.len(), 100);
    assert_eq!(climbed(&index, 100).1, 15);
}

/// Two that are each other's parent, and three in a ring: the lower one has the broken link.
#[test]
fn refused_15_of_a_ring() {
    let index = changed(&[(2, PARENT, 5), (5, PARENT, 2)]);
    assert_eq!(met(&index, 2, 5), Err(15));
    assert_eq!(met(&index, 7, 3), Err(15));
    assert_eq!(met(&index, 4, 5), Err(15));
    assert_eq!(met(&index, 1, 4), Ok(Some(1)));
    assert_eq!(climbed(&index, 7), to_refusal([7, 5, 2], 15));
    let index = changed(&[(4, PARENT, 2), (5, PARENT, 4), (2, PARENT, 5)]);
    assert_eq!(met(&index, 4, 5), Err(15));
    assert_eq!(climbed(&index, 5), to_refusal([5, 4, 2], 15));
}

/// The largest index: a chain of 65,535 nodes, and as many roots.
#[test]
fn the_limit_of_nodes() {
    let n = 65_535;
    let chain: Vec<(u32, u32, u32)> = (0..n).map(|at| (n - at, at, at + 1)).collect();
    let index = index_of(&chain);
    assert_eq!(met(&index, n, n - 1), Ok(Some(n - 1)));
    assert_eq!(met(&index, n, 1), Ok(Some(1)));
    assert_eq!(met(&index, n, n + 1), Err(14));
    let (ranks, refusal) = climbed(&index, n);
    assert!(ranks.into_iter().eq((1..=n).rev()) && refusal == 0);
    let roots = index_of(&vec![(1, 0, 1); n as usize]);
    assert_eq!(met(&roots, n, n), Ok(Some(n)));
    assert_eq!(met(&roots, n, n - 1), Ok(None));
    assert_eq!(climbed(&roots, n), to_root([n]));
}
