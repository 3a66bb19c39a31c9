//! Navigation, sums and the index check on built, foreign, damaged and random slices.

use crate::tally::Tally;
use crate::{baseline, pulls};
use flowpewter::sys::{self, ClimbedOne, Hopped, Listed, Meeting};
use flowpewter::{Climber, Refusal, Up};
use generate::meetings::{self, Climb};
use generate::{
    hop_case, hops, index, meeting_case, navigation_case, NavigationCase, PullCase, Random,
};
use reference::navigation::node_count;
use reference::{Body, BODY, CONTENTS};

/// Every navigation call on one case.
pub fn calls(random: &mut Random, tally: &mut Tally) {
    compare(&navigation_case(random), tally);
}

/// Every navigation call on one case of damage around the hops of siblings; counts how the walk ends.
pub fn hop_calls(random: &mut Random, tally: &mut Tally) {
    let case = hop_case(random);
    compare(&case, tally);
    let mut list = case.list.clone();
    let hopped = reference::siblings_by_hops(&case.index, case.rank, &mut list);
    let ranks = &list[..hopped.length as usize];
    match hopped.refusal {
        0 => tally.reach_all(hops::FACTS, hops::facts(&case, ranks)),
        15 => tally.reach_all(hops::REFUSALS, hops::refusals(&case)),
        _ => {}
    }
}

/// The meeting on one case of damage around it, and a climber from each node until it stays and two calls more, which
/// passes through where they meet; counts what they come to.
pub fn meeting_calls(random: &mut Random, tally: &mut Tally) {
    let case = meeting_case(random);
    let index = &case.index[..];
    let meeting = compare_meeting(index, case.a, case.b, tally);
    match meeting.refusal {
        0 => tally.reach_all(meetings::FACTS, meetings::facts(&case)),
        _ => tally.reach_all(meetings::REFUSALS, meetings::refusals(&case)),
    }
    for rank in [case.a, case.b] {
        let climb = meetings::climb(index, rank);
        tally.reach_all(meetings::CLIMBS, meetings::climbs(&climb));
        compare_climber(index, rank, climb.ranks.len() + 2, tally);
        compare_iterator(index, &climb);
        assert!(!meeting.found || climb.ranks.contains(&meeting.rank), "{case:?}");
    }
}

/// Every navigation call from one rank of what a build left, with random limits and list.
pub fn from_rank(random: &mut Random, index: &[u32], totals: &[i64], rank: u32, tally: &mut Tally) {
    let length = random.between(0, index[0] as usize);
    let case = NavigationCase {
        index: index.to_vec(),
        totals: totals.to_vec(),
        rank,
        lower: random.limit(),
        upper: random.limit(),
        list: random.noise(length),
    };
    compare(&case, tally);
}

/// The index check, and every navigation call from two ranks of what a build of so many nodes left.
pub fn of_build(random: &mut Random, nodes: u32, index: &[u32], totals: &[i64], tally: &mut Tally) {
    assert!(sys::index_check(index), "{index:?}");
    for _ in 0..2 {
        let rank = random.between(1, nodes.max(1) as usize) as u32;
        from_rank(random, index, totals, rank, tally);
    }
}

/// Whether a node of the rank's span, which there must be, is further below its parent than one level.
fn levels_left_out(index: &[u32], rank: u32) -> bool {
    let body = |rank: u32| Body::read(index, rank as usize);
    (rank + 1..rank + body(rank).size).any(|below| {
        let Body { parent, level, .. } = body(below);
        (rank..below).contains(&parent) && level > body(parent).level + 1
    })
}

/// Every navigation call on the case, on both sides.
pub fn compare(case: &NavigationCase, tally: &mut Tally) {
    let (index, totals, rank) = (&case.index[..], &case.totals[..], case.rank);

    let span = sys::span(index, rank);
    let expected = reference::span(index, rank);
    tally.note("span", expected.refusal);
    if expected.refusal == 0 && Body::read(index, rank as usize).row == 0 {
        tally.reach("navigation from row number 0");
    }
    assert_eq!(span.refusal, expected.refusal, "{case:?}");
    assert_eq!(span.start..span.start + span.words, expected.words, "{case:?}");

    let (mut list, mut other) = (case.list.clone(), case.list.clone());
    let listed = sys::descendants(index, rank, case.lower, case.upper, &mut list);
    let expected = reference::descendants(index, rank, case.lower, case.upper, &mut other);
    tally.note("descendants", expected.refusal);
    if expected.refusal == 0 && expected.length > 1 && levels_left_out(index, rank) {
        tally.reach("descendants with levels left out");
    }
    assert_eq!(
        (listed.refusal, listed.len),
        (expected.refusal, expected.length as usize),
        "{case:?}"
    );
    assert_eq!(list, other, "{case:?}");

    let (mut list, mut other) = (case.list.clone(), case.list.clone());
    let climbed = sys::ancestors(index, rank, case.lower, case.upper, &mut list);
    let expected = reference::ancestors(index, rank, case.lower, case.upper, &mut other);
    tally.note("ancestors", expected.refusal);
    assert_eq!(
        (climbed.refusal, climbed.len, climbed.links),
        (expected.refusal, expected.length as usize, expected.links as usize),
        "{case:?}"
    );
    assert_eq!(list, other, "{case:?}");

    compare_siblings(case, tally);
    compare_hops(case, tally);
    compare_both_ways(case, tally);
    compare_meeting(index, rank, mirrored(index, rank), tally);
    compare_climber(index, rank, 1, tally);

    let summed = sys::subtree_sum(index, totals, rank);
    let expected = reference::subtree_sum(index, totals, rank);
    tally.note("subtree_sum", expected.refusal);
    assert_eq!((summed.refusal, summed.sum), (expected.refusal, expected.sum), "{case:?}");

    let summed = sys::path_sum(index, totals, rank);
    let expected = reference::path_sum(index, totals, rank);
    tally.note("path_sum", expected.refusal);
    assert_eq!((summed.refusal, summed.sum), (expected.refusal, expected.sum), "{case:?}");

    let pull = pull_of(case);
    let (_, after) = pulls::compare(&pull, tally);
    if after != pull.totals {
        tally.reach("totals moved by a pull");
    }
}

/// A pull of the row that the rank's node ends in, or by the rank where it has no node, for the lower limit as minutes.
fn pull_of(case: &NavigationCase) -> PullCase {
    let rank = case.rank as usize;
    let row = match node_count(&case.index) {
        Some(n) if (1..=n).contains(&rank) => Body::read(&case.index, rank).row,
        _ => case.rank,
    };
    let (index, totals) = (case.index.clone(), case.totals.clone());
    PullCase { index, totals, row, difference: case.lower as i64 }
}

/// Siblings on both sides, and by the baseline that the library is measured against.
fn compare_siblings(case: &NavigationCase, tally: &mut Tally) {
    let (index, rank) = (&case.index[..], case.rank);
    let mut other = case.list.clone();
    let expected = reference::siblings(index, rank, &mut other);
    tally.note("siblings", expected.refusal);
    for call in [sys::siblings, baseline::siblings] {
        let mut list = case.list.clone();
        let Listed { refusal, len } = call(index, rank, &mut list);
        assert_eq!((refusal, len), (expected.refusal, expected.length as usize), "{case:?}");
        assert_eq!(list, other, "{case:?}");
    }
}

/// The safe face's siblings by hops.
fn hops_by_safe_face(index: &[u32], rank: u32, list: &mut [u32]) -> Hopped {
    match flowpewter::siblings_by_hops(index, rank, list) {
        Ok(found) => Hopped { refusal: 0, len: found.ranks.len(), hops: found.hops },
        Err(refusal) => Hopped { refusal: refusal.number(), len: 0, hops: 0 },
    }
}

/// Siblings by hops on both sides, by the safe face too and by the baseline.
fn compare_hops(case: &NavigationCase, tally: &mut Tally) {
    let (index, rank) = (&case.index[..], case.rank);
    let mut other = case.list.clone();
    let expected = reference::siblings_by_hops(index, rank, &mut other);
    let answer = Hopped {
        refusal: expected.refusal,
        len: expected.length as usize,
        hops: expected.hops as usize,
    };
    tally.note("siblings by hops", answer.refusal);
    for call in [sys::siblings_by_hops, hops_by_safe_face, baseline::siblings_by_hops] {
        let mut list = case.list.clone();
        assert_eq!(call(index, rank, &mut list), answer, "{case:?}");
        assert_eq!(list, other, "{case:?}");
    }
}

/// The library's two sibling calls with each other: on an index that the check accepts they list the same, and there is a
/// hop for each sibling.
fn compare_both_ways(case: &NavigationCase, tally: &mut Tally) {
    let (index, rank) = (&case.index[..], case.rank);
    let (mut list, mut met) = (case.list.clone(), case.list.clone());
    let Listed { refusal, len } = sys::siblings(index, rank, &mut list);
    let hopped = sys::siblings_by_hops(index, rank, &mut met);
    if sys::index_check(index) {
        tally.note("siblings both ways", refusal);
        assert_eq!(hopped, Hopped { refusal, len, hops: len }, "{case:?}");
        assert_eq!(met, list, "{case:?}");
    } else if refusal == 0 && hopped.refusal == 0 && met != list {
        tally.reach("other ranks by hops than the siblings");
    }
}

/// The rank as far from the last of the index as the given one is from the first.
fn mirrored(index: &[u32], rank: u32) -> u32 {
    index.first().map_or(0, |n| n.wrapping_add(1).wrapping_sub(rank))
}

/// The safe face's meeting.
fn meet_by_safe_face(index: &[u32], a: u32, b: u32) -> Meeting {
    match flowpewter::meet(index, a, b) {
        Ok(met) => Meeting { refusal: 0, found: met.is_some(), rank: met.unwrap_or(0) },
        Err(refusal) => Meeting { refusal: refusal.number(), found: false, rank: 0 },
    }
}

/// Where two nodes meet, in both orders, on both sides, by the safe face too and by the baseline; on an index that the
/// check accepts they meet exactly where their root ranks are equal.
fn compare_meeting(index: &[u32], a: u32, b: u32, tally: &mut Tally) -> Meeting {
    let reference::Meeting { refusal, found, rank } = reference::meet(index, a, b);
    let expected = Meeting { refusal, found, rank };
    tally.note("meet", refusal);
    for call in [sys::meet, meet_by_safe_face, baseline::meet] {
        assert_eq!(call(index, a, b), expected, "{a} and {b} of {index:?}");
        assert_eq!(call(index, b, a), expected, "{b} and {a} of {index:?}");
    }
    if refusal == 0 {
        compare_with_ancestors(index, a, b, tally);
    }
    if sys::index_check(index) {
        tally.note("meet by root ranks", refusal);
        let root = |rank: u32| Body::read(index, rank as usize).root;
        assert!(refusal != 0 || found == (root(a) == root(b)), "{a} and {b} of {index:?}");
    }
    expected
}

/// The library's meeting with its own ancestors: it is the first of one node that is one of the other, too.
fn compare_with_ancestors(index: &[u32], a: u32, b: u32, tally: &mut Tally) {
    let Meeting { found, rank, .. } = sys::meet(index, a, b);
    tally.reach(if found { "two nodes meet" } else { "two nodes don't meet" });
    let [from_a, from_b] = [a, b].map(|rank| ancestors(index, rank));
    let first = from_a.into_iter().find(|rank| from_b.contains(rank));
    assert_eq!(found.then_some(rank), first, "{a} and {b} of {index:?}");
}

/// All ancestors of a rank by the library, itself included, nearest first.
fn ancestors(index: &[u32], rank: u32) -> Vec<u32> {
    let mut list = vec![0; rank as usize];
    let found = flowpewter::ancestors(index, rank, i32::MIN..=i32::MAX, &mut list);
    found.expect("the climb of an accepted meeting").ranks.to_vec()
}

/// A call of the safe face's climber.
fn up_by_safe_face(climber: &mut Climber) -> ClimbedOne {
    let (refusal, root) = match climber.up() {
        Ok(Up::To(rank)) => {
            assert_eq!(climber.rank(), rank);
            (0, false)
        }
        Ok(Up::Root) => (0, true),
        Err(refusal) => (refusal.number(), false),
    };
    ClimbedOne { refusal, root, rank: climber.rank() }
}

/// So many calls of a climber on both sides, by the safe face's too and by the baseline.
fn compare_climber(index: &[u32], rank: u32, calls: usize, tally: &mut Tally) {
    let mut climber = reference::Climber::at(index, rank);
    let mut safe = Climber::new(index, rank);
    for _ in 0..calls {
        let at = climber.rank;
        let reference::Step { refusal, root, rank } = climber.up();
        let expected = ClimbedOne { refusal, root, rank };
        tally.note("climb", refusal);
        assert_eq!(sys::climb(index, at), expected, "{at} of {index:?}");
        assert_eq!(baseline::climb(index, at), expected, "{at} of {index:?}");
        assert_eq!(up_by_safe_face(&mut safe), expected, "{at} of {index:?}");
    }
}

/// The safe face's climber as an iterator: each parent, then a refusal if there is one, then nothing.
fn compare_iterator(index: &[u32], climb: &Climb) {
    let parents = climb.ranks[1..].iter().map(|rank| Ok(*rank));
    let refusal = Refusal::of_number(climb.refusal).map(Err);
    let mut climber = Climber::new(index, climb.ranks[0]);
    for expected in parents.chain(refusal).map(Some).chain([None; 3]) {
        assert_eq!(climber.next(), expected, "{climb:?} of {index:?}");
    }
    assert_eq!(Some(&climber.rank()), climb.ranks.last(), "{index:?}");
}

/// What levels come to in an index that the check accepts, and in one that it turns down for them alone, by name.
pub const LEVELS: [&str; 5] = [
    "root of a level above 1 accepted",
    "level left out below the parent's accepted",
    "level 65,535 accepted",
    "root of level 0 turned down",
    "level not above the parent's turned down",
];

/// Which of [`LEVELS`] the index has.
fn levels(index: &[u32], accepted: bool) -> [bool; LEVELS.len()] {
    let bodies: Vec<Body> = match node_count(index) {
        None => return [false; LEVELS.len()],
        Some(n) => (1..=n).map(|rank| Body::read(index, rank)).collect(),
    };
    let above = |body: &Body| match body.parent {
        0 => 0,
        parent => bodies.get(parent as usize - 1).map_or(0, |above| above.level),
    };
    let any = |test: &dyn Fn(&Body) -> bool| bodies.iter().any(test);
    let alone = !accepted && reference::index_check(&stepped(index, bodies.len()));
    [
        accepted && any(&|body| body.parent == 0 && body.level > 1),
        accepted && any(&|body| body.parent != 0 && body.level > above(body) + 1),
        accepted && any(&|body| body.level == 0xffff),
        alone && any(&|body| body.parent == 0 && body.level == 0),
        alone && any(&|body| body.parent != 0 && body.level <= above(body)),
    ]
}

/// The index with each level one above the parent's, where that comes before; all other words stay but the check word.
fn stepped(index: &[u32], n: usize) -> Vec<u32> {
    let mut index = index.to_vec();
    for rank in 1..=n {
        let Body { parent, .. } = Body::read(&index, rank);
        let above = match parent as usize {
            0 => 0,
            parent if parent < rank => Body::read(&index, parent).level,
            _ => continue,
        };
        let word = &mut index[CONTENTS + BODY * (rank - 1) + 5];
        let moved = (above + 1).wrapping_sub(*word & 0xffff);
        *word = word.wrapping_add(moved);
        index[3] = index[3].wrapping_add(moved);
    }
    index
}

/// The index check on one slice, and by the baseline that the library is measured against.
pub fn checks(random: &mut Random, tally: &mut Tally) {
    let index = index(random);
    let expected = reference::index_check(&index);
    tally.note(if expected { "index_check yes" } else { "index_check no" }, 0);
    tally.reach_all(LEVELS, levels(&index, expected));
    assert_eq!(sys::index_check(&index), expected, "{index:?}");
    assert_eq!(baseline::index_check(&index), expected, "{index:?}");
}
