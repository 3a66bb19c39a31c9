//! Meetings of two nodes and climbers on generated and on all small indexes: the reference against a
//! table in which both climbs are marked, and against the guide's recipe on right ones.

mod common;

use common::Counts;
use generate::indexes::linked;
use generate::meetings::{self, by_sizes, climb, outcome, Climb, Outcome, Outcome::*};
use generate::*;
use reference::*;

/// The answer of a meeting that comes out so.
fn answer(outcome: Outcome) -> Meeting {
    let (refusal, rank) = match outcome {
        BadContents => (13, 0),
        NoRank(_) => (14, 0),
        Broken(..) => (15, 0),
        Nowhere => (0, 0),
        At(rank) => (0, rank),
    };
    Meeting { refusal, found: rank != 0, rank }
}

/// Climbs from a rank to the end, call by call as the table has it, and three calls more, at which
/// the climber stays.
fn compare_climb(index: &[u32], rank: u32) -> Climb {
    let expected = climb(index, rank);
    let mut climber = Climber::at(index, rank);
    assert_eq!(climber.rank, expected.ranks[0]);
    for &rank in &expected.ranks[1..] {
        assert_eq!(climber.up(), Step { refusal: 0, root: false, rank }, "{index:?}");
        assert_eq!(climber.rank, rank, "{index:?}");
    }
    let (refusal, rank) = (expected.refusal, climber.rank);
    for _ in 0..3 {
        assert_eq!(climber.up(), Step { refusal, root: refusal == 0, rank }, "{index:?}");
        assert_eq!(climber.rank, rank, "{index:?}");
    }
    expected
}

/// Compares the answer, also with the ranks exchanged, and the climbs from both. The refusal is the
/// first of 13 to 15 that ends a climb. Where there is none the climbs end at one root and both come
/// through the answer, and to no higher rank in common, or they end at two. On an index that the
/// check accepts the answer is the recipe's.
fn compare(case: &MeetingCase) -> (Outcome, [Climb; 2]) {
    let (index, a, b) = (&case.index[..], case.a, case.b);
    let outcome = outcome(index, a, b);
    let meeting = meet(index, a, b);
    assert_eq!(meeting, answer(outcome), "{case:?}");
    assert_eq!(meet(index, b, a), meeting, "{case:?}");
    let climbs = [a, b].map(|rank| compare_climb(index, rank));
    let [from_a, from_b] = &climbs;
    let ends = |refusal: &u32| [from_a.refusal, from_b.refusal].contains(refusal);
    assert_eq!(meeting.refusal, [13, 14, 15].into_iter().find(ends).unwrap_or(0), "{case:?}");
    if meeting.refusal == 0 {
        let common = from_a.ranks.iter().copied().find(|rank| from_b.ranks.contains(rank));
        assert_eq!(common, meeting.found.then_some(meeting.rank), "{case:?}");
        assert_eq!(meeting.found, from_a.ranks.last() == from_b.ranks.last(), "{case:?}");
        if index_check(index) {
            assert_eq!(common, by_sizes(index, a, b), "{case:?}");
        }
    }
    (outcome, climbs)
}

#[test]
fn meetings_around_damage() {
    let mut random = Random::announced("meetings around damage", 121);
    let mut seen = [0u32; 16];
    let mut accepted = Counts::new(meetings::FACTS);
    let mut refused = Counts::new(meetings::REFUSALS);
    let mut climbed = Counts::new(meetings::CLIMBS);
    let mut right = 0;
    for _ in 0..30_000 {
        let case = meeting_case(&mut random);
        let (outcome, climbs) = compare(&case);
        let refusal = answer(outcome).refusal;
        seen[refusal as usize] += 1;
        right += index_check(&case.index) as u32;
        match refusal {
            0 => accepted.add(meetings::facts(&case)),
            _ => refused.add(meetings::refusals(&case)),
        }
        climbs.iter().for_each(|climb| climbed.add(meetings::climbs(climb)));
    }
    println!("none {}, 13 to 15 {:?}; the check accepts {right}", seen[0], &seen[13..]);
    assert!([0, 13, 14, 15].iter().all(|refusal| seen[*refusal] >= 1_000));
    assert!(right >= 5_000);
    accepted.expect_above(99, |_| false);
    refused.expect_above(99, |_| false);
    climbed.expect_above(99, |_| false);
}

#[test]
fn meetings_on_any_slices() {
    let mut random = Random::announced("meetings on any slices", 122);
    let mut seen = [0u32; 16];
    let (mut met, mut right) = (0, 0);
    for _ in 0..30_000 {
        let NavigationCase { index, rank: a, .. } = navigation_case(&mut random);
        let b = match random.below(8) {
            0 => a,
            1 => random.word(),
            _ => random.between(1, index.len() / 6 + 1) as u32,
        };
        let case = MeetingCase { index, a, b };
        let meeting = answer(compare(&case).0);
        seen[meeting.refusal as usize] += 1;
        met += meeting.found as u32;
        right += (meeting.refusal == 0 && index_check(&case.index)) as u32;
    }
    println!("none {} of which {met} met, 13 to 15 {:?}", seen[0], &seen[13..]);
    println!("accepted on an index that the check accepts: {right}");
    assert!([0, 13, 14, 15].iter().all(|refusal| seen[*refusal] >= 500));
    assert!(met >= 500 && right >= 500);
}

/// Every index of up to four nodes whose parents are at most 5, or the widest word, and every two
/// ranks up to 5.
#[test]
fn meetings_on_every_small_index() {
    const WORDS: [u32; 7] = [0, 1, 2, 3, 4, 5, u32::MAX];
    let mut seen = [0u32; 16];
    let mut met = 0;
    for n in 0..=4u32 {
        for code in 0..7usize.pow(n) {
            let parents = (0..n).map(|place| WORDS[code / 7usize.pow(place) % 7]);
            let bodies: Vec<(u32, u32)> = parents.map(|parent| (1, parent)).collect();
            let index = linked(&bodies);
            for a in 0..=5 {
                for b in 0..=5 {
                    let case = MeetingCase { index: index.clone(), a, b };
                    let meeting = answer(compare(&case).0);
                    seen[meeting.refusal as usize] += 1;
                    met += meeting.found as u32;
                }
            }
        }
    }
    println!("none {} of which {met} met, 13 to 15 {:?}", seen[0], &seen[13..]);
    // 7^n indexes of n nodes with n^2 pairs of their 36.
    let right = 7 + 49 * 4 + 343 * 9 + 2_401 * 16;
    assert_eq!(seen[0] + seen[15], right);
    assert_eq!(seen[14], (1 + 7 + 49 + 343 + 2_401) * 36 - right);
}
