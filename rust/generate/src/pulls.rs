//! Cases around the pull of one part: rows that many nodes end in, one or none, totals and differences
//! at the limit of use and far beyond it, and what comes of it.

use crate::indexes::{bodies, built, damage, foreign, index, row_at, seal, total, totals};
use crate::random::Random;
use reference::{index_check, Body, Row};
use std::collections::HashMap;

/// The limit of use of a total: 2^47 either side, itself allowed.
pub const LIMIT: i64 = 1 << 47;

/// Arguments for a pull.
#[derive(Clone, Debug)]
pub struct PullCase {
    pub index: Vec<u32>,
    pub totals: Vec<i64>,
    pub row: u32,
    pub difference: i64,
}

/// Running totals of `n` nodes with any minutes, and up to eight words beyond.
fn running(random: &mut Random, n: usize) -> Vec<i64> {
    let mut list = vec![0];
    for rank in 1..=n {
        list.push(list[rank - 1] + random.minutes() as i64);
    }
    let beyond = random.below(9);
    list.extend(random.wide_noise(beyond));
    list
}

/// A right index and its totals: built, or of any forest. A few have no nodes.
fn right_with_totals(random: &mut Random) -> (Vec<u32>, Vec<i64>) {
    if random.chance(1, 3) {
        let n = random.below(40);
        return (foreign(random, n), running(random, n));
    }
    loop {
        let (index, totals) = built(random);
        if index[0] != 0 || random.chance(1, 8) {
            return (index, totals);
        }
    }
}

/// The row numbers of the nodes of an index that has its bodies.
fn row_numbers(index: &[u32]) -> Vec<u32> {
    (1..=index[0]).map(|rank| index[row_at(rank)]).collect()
}

/// The row number, not 0, that most nodes have.
fn shared_most(rows: &[u32]) -> Option<u32> {
    let mut counts: HashMap<u32, usize> = HashMap::new();
    rows.iter().filter(|row| **row != 0).for_each(|row| *counts.entry(*row).or_default() += 1);
    counts.into_iter().max_by_key(|(row, count)| (*count, *row)).map(|(row, _)| row)
}

/// A row number: mostly one that a node has, that which most have or that of the first or last node;
/// the widest, one after the highest or any, which mostly no node has; or 0.
fn row_number(random: &mut Random, rows: &[u32]) -> u32 {
    let highest = rows.iter().max().copied().unwrap_or(0);
    let unheld = [u32::MAX, highest.saturating_add(1), random.word()];
    let choice = random.below(16);
    match (choice, shared_most(rows)) {
        (0, _) => 0,
        (1..=3, _) | (_, None) => random.pick(&unheld).max(1),
        (4..=8, Some(most)) => most,
        (9, _) => rows[0].max(1),
        (10, _) => rows[rows.len() - 1].max(1),
        _ => random.pick(rows).max(1),
    }
}

/// Gives the row number to more nodes of a right index: to all, to the first and the last, to a run of
/// them, or to any.
fn share(random: &mut Random, index: &mut [u32], row: u32) {
    let n = index[0] as usize;
    let (one, other) = (random.between(1, n), random.between(1, n));
    let kind = random.below(4);
    for rank in 1..=n {
        let given = match kind {
            0 => true,
            1 => rank == 1 || rank == n,
            2 => one.min(other) <= rank && rank <= one.max(other),
            _ => random.chance(1, 3),
        };
        if given {
            index[row_at(rank as u32)] = row;
        }
    }
    seal(index);
}

/// How many nodes up to each rank end in the row, rank 0 in front.
fn counts(rows: &[u32], row: u32) -> Vec<i64> {
    let mut list = vec![0];
    for held in rows {
        list.push(list[list.len() - 1] + (*held == row) as i64);
    }
    list
}

/// The lowest and the highest difference by which no total comes beyond the limit, where none is;
/// none where no node ends in the row.
fn admitted(totals: &[i64], counts: &[i64]) -> Option<(i64, i64)> {
    let moved = || totals.iter().zip(counts).filter(|(_, count)| **count > 0);
    let lowest = moved().map(|(total, count)| -((LIMIT + total) / count)).max()?;
    let highest = moved().map(|(total, count)| (LIMIT - total) / count).min()?;
    Some((lowest, highest))
}

/// A difference for a row in which `most` nodes end: none, small, near the limits of minutes, near the
/// limit of use, such that products or sums leave 64 bits, at both ends, or any.
pub fn any_difference(random: &mut Random, most: i64) -> i64 {
    let by = random.below(3) as i64 - 1;
    let sign = random.pick(&[1, -1]);
    match random.below(12) {
        0 => 0,
        1 | 2 => sign,
        3 | 4 => random.minutes() as i64,
        5 => sign * (random.pick(&[1 << 31, 1 << 32]) + by),
        6 => sign * (random.pick(&[LIMIT, 2 * LIMIT]) + by),
        7 => sign * (i64::MAX / most.max(2) + by),
        8 => sign * random.pick(&[1 << 61, 1 << 62, 3 << 61]),
        9 => random.pick(&[i64::MIN, i64::MIN + 1, i64::MAX - 1, i64::MAX]),
        10 => sign * random.below(1 << 20) as i64,
        _ => random.draw() as i64,
    }
}

/// A place among `n` + 1 totals: the first, the last, or any.
fn place(random: &mut Random, n: usize) -> usize {
    match random.below(4) {
        0 => 0,
        1 => n,
        _ => random.between(0, n),
    }
}

/// A total at the limit either side, one inside or one beyond.
fn edge(random: &mut Random) -> i64 {
    random.pick(&[1, -1]) * (LIMIT + random.pick(&[0, 0, 1, 1, -1]))
}

/// Puts a total such that the difference brings it to the limit, one inside or one beyond; where it
/// isn't within the limit before, it is left.
fn aim(random: &mut Random, totals: &mut [i64], counts: &[i64], difference: i64) {
    let place = place(random, counts.len() - 1);
    let old = edge(random) as i128 - difference as i128 * counts[place] as i128;
    if old.unsigned_abs() <= LIMIT as u128 {
        totals[place] = old as i64;
    }
}

/// Puts a total at the limit or beyond it: of the n + 1 mostly, or the one after, which is no longer
/// judged.
fn damage_total(random: &mut Random, totals: &mut Vec<i64>, n: usize) {
    let drawn = random.draw() as i64;
    let far = random.pick(&[i64::MIN, i64::MAX, drawn]);
    let value = if random.chance(1, 4) { far } else { edge(random) };
    if random.chance(1, 4) {
        totals.resize(totals.len().max(n + 2), 0);
        totals[n + 1] = value;
    } else {
        totals[place(random, n)] = value;
    }
}

/// Puts a total beyond the limit, and gives a difference that brings it back where it is moved.
fn bring_back(random: &mut Random, totals: &mut [i64], counts: &[i64]) -> i64 {
    let side = random.pick(&[1, -1]);
    let difference = random.between(1, 1_000) as i64;
    let place = place(random, counts.len() - 1);
    totals[place] = side * (LIMIT + random.between(1, 2) as i64);
    -side * difference
}

/// A row number and a difference for a right index and its totals, some of which are put where the
/// difference brings them to the limit, beyond it, or back.
fn aimed(random: &mut Random, mut index: Vec<u32>, mut totals: Vec<i64>) -> PullCase {
    let n = index[0] as usize;
    let row = row_number(random, &row_numbers(&index));
    if n > 0 && row != 0 && random.chance(1, 3) {
        share(random, &mut index, row);
    }
    let counts = counts(&row_numbers(&index), row);
    let mut difference = any_difference(random, counts[n]);
    match (random.below(8), admitted(&totals, &counts)) {
        (0 | 1, Some((lowest, highest))) => {
            difference = random.pick(&[lowest, lowest - 1, highest, highest + 1]);
        }
        (2 | 3, _) => {
            // Not so far that other totals come beyond the limit, too.
            if difference.unsigned_abs() >= 1 << 40 {
                difference /= 1 << 30;
            }
            aim(random, &mut totals, &counts, difference);
        }
        (4, _) => difference = bring_back(random, &mut totals, &counts),
        (5, _) => damage_total(random, &mut totals, n),
        _ => {}
    }
    PullCase { index, totals, row, difference }
}

/// A case around a pull: a right index and its totals, with a row and a difference that often bring a
/// total to the limit of use, or beyond it. Damaged indexes, other slices and short totals are rarer.
pub fn pull_case(random: &mut Random) -> PullCase {
    let (right, of_right) = right_with_totals(random);
    let mut case = aimed(random, right, of_right);
    let n = case.index[0] as usize;
    match random.below(24) {
        0 | 1 => damage(random, &mut case.index),
        2 => case.index[random.below(3)] = random.word(),
        3 => {
            let length = random.below(case.index.len());
            case.index.truncate(length);
        }
        4 => case.index = index(random),
        5 => case.totals = totals(random, n),
        6 => {
            let place = random.below(case.totals.len());
            case.totals[place] = total(random);
        }
        _ => {}
    }
    match random.below(20) {
        0 => case.totals.truncate(n),
        1 => case.totals.truncate(random.below(n + 1)),
        2 | 3 => case.totals.truncate(n + 1),
        4 => case.totals.clear(),
        _ => {}
    }
    if random.chance(1, 40) {
        case.row = 0;
    }
    case
}

/// A case near the limit of 65,535 nodes: most or all of them end in one row, of the least or the most
/// minutes, and the difference leads to the other end of minutes, to the limit of use or one further.
pub fn large_pull_case(random: &mut Random) -> PullCase {
    let n = random.pick(&[65_535, 65_535, 65_534, 65_536]);
    let mut index = foreign(random, n);
    let row = random.numeral();
    let whole = random.chance(1, 2);
    for rank in 1..=n as u32 {
        if whole || random.chance(3, 4) {
            index[row_at(rank)] = row;
        }
    }
    seal(&mut index);
    let minutes = random.pick(&[i32::MIN, i32::MAX, 0]) as i64;
    let mut totals: Vec<i64> = (0..=n as i64).map(|rank| rank * minutes).collect();
    let counts = counts(&row_numbers(&index), row);
    let (lowest, highest) = admitted(&totals, &counts).expect("nodes that end in the row");
    let width = (1 << 32) - 1;
    let wide = i64::MAX / counts[n];
    let ends = [lowest, lowest - 1, highest, highest + 1];
    let others = [width, -width, wide + 1, -wide - 1, i64::MIN, i64::MAX];
    let at_ends = random.chance(2, 3);
    let difference = random.pick(if at_ends { &ends[..] } else { &others });
    if random.chance(1, 4) {
        damage_total(random, &mut totals, n);
    }
    PullCase { index, totals, row, difference }
}

/// A row of a board that gets other minutes, and by how much they differ.
#[derive(Clone, Copy, Debug, PartialEq, Eq)]
pub struct Remark {
    pub row: u32,
    pub minutes: i32,
    pub difference: i64,
}

impl Remark {
    /// The row list with the row's new minutes.
    pub fn on(&self, rows: &[Row]) -> Vec<Row> {
        let mut rows = rows.to_vec();
        rows[self.row as usize - 1].minutes = self.minutes;
        rows
    }
}

/// New minutes for any row of a list, or none of an empty one: often at an end of what minutes can be,
/// mostly at the other where the old ones are at one; sometimes the old ones.
pub fn remark(random: &mut Random, rows: &[Row]) -> Option<Remark> {
    if rows.is_empty() {
        return None;
    }
    let place = random.below(rows.len());
    let old = rows[place].minutes;
    let minutes = match (random.below(8), old) {
        (0, _) => old,
        (1, _) | (2..=6, i32::MAX) => i32::MIN,
        (2, _) | (3..=6, i32::MIN) => i32::MAX,
        _ => random.minutes(),
    };
    Some(Remark { row: place as u32 + 1, minutes, difference: minutes as i64 - old as i64 })
}

/// What comes of a pull.
#[derive(Clone, Debug, PartialEq, Eq)]
pub enum Outcome {
    RowZero,
    BadContents,
    FewTotals,
    /// The ranks whose total is beyond the limit, and those whose total would come beyond it.
    Beyond {
        are: Vec<usize>,
        come: Vec<usize>,
    },
    /// The n + 1 totals afterwards.
    Moved(Vec<i64>),
}
use Outcome::*;

impl Outcome {
    /// The paper's number, 0 for none.
    pub fn refusal(&self) -> u32 {
        match self {
            RowZero => 4,
            BadContents | FewTotals => 13,
            Beyond { .. } => 15,
            Moved(_) => 0,
        }
    }
}

/// The totals that a pull would give: own minutes, those of the row's nodes with the difference, added
/// again node by node to the first total.
fn added_again(bodies: &[&[u32]], totals: &[i64], row: u32, difference: i64) -> Vec<i128> {
    let mut list = vec![totals[0] as i128];
    for (body, pair) in bodies.iter().zip(totals.windows(2)) {
        let own = pair[1] as i128 - pair[0] as i128;
        let own = if body[1] == row { own + difference as i128 } else { own };
        list.push(list[list.len() - 1] + own);
    }
    list
}

/// The places of totals beyond the limit.
fn beyond(totals: impl Iterator<Item = i128>) -> Vec<usize> {
    let is_beyond = |total: i128| total.unsigned_abs() > 1 << 47;
    totals.enumerate().filter(|(_, total)| is_beyond(*total)).map(|(place, _)| place).collect()
}

/// By own minutes.
pub fn outcome(case: &PullCase) -> Outcome {
    if case.row == 0 {
        return RowZero;
    }
    let Some(bodies) = bodies(&case.index) else {
        return BadContents;
    };
    let Some(old) = case.totals.get(..=bodies.len()) else {
        return FewTotals;
    };
    let new = added_again(&bodies, old, case.row, case.difference);
    let are = beyond(old.iter().map(|total| *total as i128));
    let come = beyond(new.iter().copied());
    if are.is_empty() && come.is_empty() {
        return Moved(new.into_iter().map(|total| total as i64).collect());
    }
    Beyond { are, come }
}

/// What an accepted pull comes to, by name.
pub const FACTS: [&str; 30] = [
    "one node ends in the row",
    "several nodes end in the row",
    "every one of several nodes ends in the row",
    "the first node ends in the row",
    "the last node ends in the row",
    "a node and one below it end in the row",
    "a node that closes ends in the row",
    "an orphan ends in the row",
    "no node ends in the row",
    "no node, and its number is the widest",
    "a node, and its number is the widest",
    "no node, and the difference is at an end of 64 bits",
    "the index has no nodes",
    "an entry, of row number 0, is on the index",
    "the difference is 0 and a node ends in the row",
    "the difference is 1",
    "the difference is -1",
    "the difference is wider than minutes",
    "the difference is as wide as minutes can differ",
    "the difference is as high as can be",
    "the difference is as low as can be",
    "a total is at the limit above before",
    "a total is at the limit below before",
    "a total comes to the limit above",
    "a total comes to the limit below",
    "the last total comes to the limit",
    "a total before the last comes to the limit",
    "the total after the last is beyond the limit",
    "there are n + 1 totals",
    "the check doesn't accept the index",
];

/// Which of [`FACTS`] the case has, whose pull was accepted and gave the n + 1 totals.
pub fn facts(case: &PullCase, moved: &[i64]) -> [bool; FACTS.len()] {
    let (index, row, difference) = (&case.index[..], case.row, case.difference);
    let n = moved.len() - 1;
    let old = &case.totals[..=n];
    let rows = row_numbers(index);
    let counts = counts(&rows, row);
    let ending: Vec<u32> = (1..=n as u32).filter(|rank| index[row_at(*rank)] == row).collect();
    let read = |rank: u32| Body::read(index, rank as usize);
    let (none, some) = (ending.is_empty(), !ending.is_empty());
    let right = index_check(index);
    let nested = |rank: &u32| {
        let next = ending.iter().find(|other| *other > rank);
        right && next.is_some_and(|next| *next < rank + read(*rank).size)
    };
    let (lowest, highest) = admitted(old, &counts).unwrap_or((0, 0));
    let ends = [i64::MIN, i64::MAX].contains(&difference);
    let wide = difference.unsigned_abs();
    [
        ending.len() == 1,
        ending.len() > 1,
        n > 1 && ending.len() == n,
        ending.first() == Some(&1),
        n > 0 && ending.last() == Some(&(n as u32)),
        ending.iter().any(nested),
        ending.iter().any(|rank| read(*rank).closing),
        ending.iter().any(|rank| read(*rank).orphan),
        none && n > 0,
        none && row == u32::MAX,
        some && row == u32::MAX,
        none && ends,
        n == 0,
        rows.contains(&0),
        some && difference == 0,
        some && difference == 1,
        some && difference == -1,
        some && wide > 1 << 32,
        some && wide == (1 << 32) - 1,
        some && difference == highest,
        some && difference == lowest,
        old.contains(&LIMIT),
        old.contains(&-LIMIT),
        moved.iter().zip(old).any(|(new, old)| new != old && *new == LIMIT),
        moved.iter().zip(old).any(|(new, old)| new != old && *new == -LIMIT),
        moved[n] != old[n] && moved[n].abs() == LIMIT,
        (0..n).any(|at| moved[at] != old[at] && moved[at].abs() == LIMIT),
        case.totals.get(n + 1).is_some_and(|total| total.unsigned_abs() > LIMIT as u64),
        case.totals.len() == n + 1,
        !right,
    ]
}

/// Why a pull is refused, by name.
pub const REFUSALS: [&str; 38] = [
    "4",
    "4, and a node has row number 0",
    "4, and 13 would hold of the index",
    "4, and 13 would hold of the totals",
    "4, and a total is beyond the limit",
    "13 of the index",
    "13 of the index and of no totals at all",
    "13 of the totals alone",
    "13 of totals one short",
    "13 of no totals at all",
    "13 of the totals, and one is beyond the limit",
    "15 of a total above before",
    "15 of a total below before",
    "15 of a total one beyond before",
    "15 of a total at an end of 64 bits before",
    "15 of the first total alone before",
    "15 of the last total alone before",
    "15 of a total between alone before",
    "15 before, and no node ends in the row",
    "15 before, and the difference is 0",
    "15 before, and every total would come back",
    "15 before, in front of all nodes of the row",
    "15 before, of an index without nodes",
    "15 only after, above",
    "15 only after, below",
    "15 only after, by one",
    "15 only after, of the last total alone",
    "15 only after, of one total before the last",
    "15 only after, of all totals from the first node of the row on",
    "15 only after, of the row's first node alone",
    "15 only after, and several nodes end in the row",
    "15 only after, of the highest difference and one",
    "15 only after, of the lowest difference less one",
    "15 only after, and one such node alone would not do",
    "15 after, and a product leaves 64 bits",
    "15 after, and a sum leaves 64 bits but no product",
    "15 after, and the difference is at an end of 64 bits",
    "15 on an index that the check doesn't accept",
];

/// Which of [`REFUSALS`] the case has, whose pull was refused.
pub fn refusals(case: &PullCase) -> [bool; REFUSALS.len()] {
    let outcome = outcome(case);
    let (four, bad, few) = (outcome == RowZero, outcome == BadContents, outcome == FewTotals);
    let bodies = bodies(&case.index);
    let nodes = bodies.as_ref().map(Vec::len);
    let short = nodes.is_some_and(|n| case.totals.len() <= n);
    let held = &case.totals[..case.totals.len().min(nodes.map_or(0, |n| n + 1))];
    let far = held.iter().any(|total| total.unsigned_abs() > LIMIT as u64);
    let zero = bodies.iter().flatten().any(|body| body[1] == 0);
    let (are, come) = match outcome {
        Beyond { are, come } => (are, come),
        _ => (Vec::new(), Vec::new()),
    };
    let (before, after) = (!are.is_empty(), are.is_empty() && !come.is_empty());
    // Of those refused by 15: the totals before, how many nodes end in the row, and what they get.
    let n = if before || after { case.index[0] as usize } else { 0 };
    let rows = if before || after { row_numbers(&case.index) } else { Vec::new() };
    let counts = counts(&rows, case.row);
    let first = counts.iter().position(|count| *count == 1);
    let difference = case.difference;
    let old = |at: usize| case.totals[at] as i128;
    let new = |at: usize| old(at) + difference as i128 * counts[at] as i128;
    let leaves = |value: i128| i64::try_from(value).is_err();
    let products = difference as i128 * counts[n] as i128;
    let (lowest, highest) = match after {
        true => admitted(&case.totals, &counts).expect("a node that ends in the row"),
        false => (0, 0),
    };
    let alone = |at: usize| (old(at) + difference as i128).unsigned_abs() > 1 << 47;
    [
        four,
        four && zero,
        four && bodies.is_none(),
        four && short,
        four && far,
        bad,
        bad && case.totals.is_empty(),
        few,
        few && nodes == Some(case.totals.len()),
        few && case.totals.is_empty(),
        few && far,
        are.iter().any(|at| old(*at) > 0),
        are.iter().any(|at| old(*at) < 0),
        are.iter().any(|at| old(*at).abs() == LIMIT as i128 + 1),
        are.iter().any(|at| [i64::MIN, i64::MAX].contains(&case.totals[*at])),
        n > 0 && are == [0],
        n > 0 && are == [n],
        are.len() == 1 && 0 < are[0] && are[0] < n,
        before && counts[n] == 0,
        before && difference == 0,
        before && come.is_empty(),
        before && first.is_some_and(|first| are.iter().all(|at| *at < first)),
        before && n == 0,
        after && come.iter().any(|at| new(*at) > 0),
        after && come.iter().any(|at| new(*at) < 0),
        after && come.iter().all(|at| new(*at).abs() == LIMIT as i128 + 1),
        after && come == [n],
        after && come.len() == 1 && come[0] < n,
        after && first.is_some_and(|first| come.len() > 1 && come.len() == n + 1 - first),
        after && n > 1 && come.len() == 1 && first == Some(come[0]) && come[0] < n,
        after && counts[n] > 1,
        after && difference == highest + 1,
        after && difference == lowest - 1,
        after && !come.iter().any(|at| alone(*at)),
        after && leaves(products),
        after && !leaves(products) && come.iter().any(|at| leaves(new(*at))),
        after && [i64::MIN, i64::MAX].contains(&difference),
        (before || after) && !index_check(&case.index),
    ]
}

/// What a remark of a board comes to on its index, by name.
pub const REMARKS: [&str; 11] = [
    "one node ends in the row",
    "several nodes end in the row",
    "no node ends in the row",
    "every node ends in the row",
    "a node that closes ends in the row",
    "an orphan ends in the row",
    "an entry, of row number 0, is on the index",
    "the minutes stay",
    "the minutes go from one end to the other",
    "the last total moves by more than 32 bits hold",
    "a second row of the same numeral stays",
];

/// Which of [`REMARKS`] a remark of the rows has, whose build left the index.
pub fn remarks(remark: &Remark, rows: &[Row], index: &[u32]) -> [bool; REMARKS.len()] {
    let n = index[0] as usize;
    let bodies: Vec<Body> = (1..=n).map(|rank| Body::read(index, rank)).collect();
    let ending: Vec<&Body> = bodies.iter().filter(|body| body.row == remark.row).collect();
    let numeral = rows[remark.row as usize - 1].numeral;
    let wide = remark.difference.unsigned_abs();
    [
        ending.len() == 1,
        ending.len() > 1,
        ending.is_empty(),
        n > 1 && ending.len() == n,
        ending.iter().any(|body| body.closing),
        ending.iter().any(|body| body.orphan),
        bodies.iter().any(|body| body.row == 0),
        remark.difference == 0,
        wide == (1 << 32) - 1,
        wide * ending.len() as u64 > u32::MAX as u64,
        !ending.is_empty()
            && bodies.iter().any(|body| body.numeral == numeral && body.row != remark.row),
    ]
}
