//! Siblings by hops on generated and on all small indexes: the reference against a walk that counts
//! down, and against siblings on right ones.

mod common;

use common::Counts;
use generate::hops::{self, outcome, Outcome, Outcome::*};
use generate::indexes::linked;
use generate::*;
use reference::*;

/// The refusal that an outcome gives with a list of `room` words.
fn refusal(outcome: &Outcome, room: usize) -> u32 {
    match outcome {
        BadContents => 13,
        NoRank => 14,
        ParentAbove | ParentSize | ParentEnd | Zero(_) => 15,
        Ranks(met) if met.len() > room => 16,
        Ranks(_) => 0,
    }
}

/// Compares the answer and all words of the list with the outcome; on an index that the check
/// accepts also with siblings, and the hops with their number.
fn compare(index: &[u32], rank: u32, list: &[u32]) -> Outcome {
    let outcome = outcome(index, rank);
    let refusal = refusal(&outcome, list.len());
    let (mut expected, mut length) = (list.to_vec(), 0);
    if let (Ranks(met), 0) = (&outcome, refusal) {
        expected[..met.len()].copy_from_slice(met);
        length = met.len() as u32;
    }
    let mut found = list.to_vec();
    let hopped = siblings_by_hops(index, rank, &mut found);
    assert_eq!(hopped, Hopped { refusal, length, hops: length }, "{index:?} {rank}");
    assert_eq!(found, expected, "{index:?} {rank}");
    if index_check(index) {
        let mut old = list.to_vec();
        let listed = siblings(index, rank, &mut old);
        assert_eq!(listed, Listed { refusal, length: hopped.hops }, "{index:?} {rank}");
        assert_eq!(old, found, "{index:?} {rank}");
    }
    outcome
}

const LISTS: [&str; 4] =
    ["the list is one short", "exact", "longer", "of no words and refused by 16"];

#[test]
fn hops_around_damage() {
    let mut random = Random::announced("hops around damage", 111);
    let mut seen = [0u32; 17];
    let (mut accepted, mut refused) = (Counts::new(hops::FACTS), Counts::new(hops::REFUSALS));
    let mut lists = Counts::new(LISTS);
    let mut right = 0;
    for _ in 0..30_000 {
        let case = hop_case(&mut random);
        let (index, rank, room) = (&case.index[..], case.rank, case.list.len());
        let outcome = compare(index, rank, &case.list);
        let refusal = refusal(&outcome, room);
        seen[refusal as usize] += 1;
        right += index_check(index) as u32;
        if let Ranks(met) = &outcome {
            let needed = met.len();
            lists.add([needed == room + 1, needed == room, needed < room, room == 0 && needed > 0]);
        }
        match (&outcome, refusal) {
            (Ranks(met), 0) => accepted.add(hops::facts(&case, met)),
            (_, 15) => refused.add(hops::refusals(&case)),
            _ => {}
        }
    }
    println!("none {}, 13 to 16 {:?}; the check accepts {right}", seen[0], &seen[13..]);
    assert!([0, 13, 14, 15, 16].iter().all(|refusal| seen[*refusal] >= 100));
    assert!(right >= 5_000);
    accepted.expect_above(99, |_| false);
    refused.expect_above(99, |_| false);
    lists.expect_above(99, |_| false);
}

#[test]
fn hops_on_any_slices() {
    let mut random = Random::announced("hops on any slices", 112);
    let mut seen = [0u32; 17];
    for _ in 0..30_000 {
        let case = navigation_case(&mut random);
        let outcome = compare(&case.index, case.rank, &case.list);
        seen[refusal(&outcome, case.list.len()) as usize] += 1;
    }
    println!("none {}, 13 to 16 {:?}", seen[0], &seen[13..]);
    assert!([0, 13, 14, 15, 16].iter().all(|refusal| seen[*refusal] >= 500));
}

/// Every index of up to three nodes whose sizes and parents are at most 4, or the widest word; every
/// rank, and lists of up to four words.
#[test]
fn hops_on_every_small_index() {
    const WORDS: [u32; 6] = [0, 1, 2, 3, 4, u32::MAX];
    let (mut calls, mut right) = (0, 0);
    for n in 0..=3u32 {
        for code in 0..36usize.pow(n) {
            let codes = (0..n).map(|place| code / 36usize.pow(place) % 36);
            let bodies: Vec<(u32, u32)> =
                codes.map(|code| (WORDS[code / 6], WORDS[code % 6])).collect();
            let index = linked(&bodies);
            right += index_check(&index) as u32;
            for rank in 0..=n + 1 {
                for room in 0..=4 {
                    compare(&index, rank, &vec![77; room]);
                    calls += 1;
                }
            }
        }
    }
    println!("{calls} calls");
    // 1, 1, 2 and 5 forests of 0 to 3 nodes.
    assert_eq!(right, 9);
}
