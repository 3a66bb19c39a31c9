//! Cases around the meeting of two nodes: links that both climbs follow or one of them, broken or led
//! elsewhere, and what comes of it.

use crate::indexes::{bodies, foreign_of, parent_at, right, seal};
use crate::random::Random;
use reference::{index_check, Body, BODY, CONTENTS};

/// Arguments for the meeting of two nodes, and for a climber from each.
#[derive(Clone, Debug)]
pub struct MeetingCase {
    pub index: Vec<u32>,
    pub a: u32,
    pub b: u32,
}

/// A right index of one chain of up to 300 nodes, from which another of up to 150 parts, or which has
/// the other beside it.
fn deep(random: &mut Random) -> Vec<u32> {
    let (above, below, other) = (random.below(151), random.between(1, 150), random.below(151));
    let mut parents = vec![0];
    parents.extend(0..above + below + other);
    if other > 0 {
        parents[above + below + 1] = above;
    }
    foreign_of(random, &parents)
}

/// A rank and its ancestors on a right index.
fn chain(index: &[u32], rank: u32) -> Vec<u32> {
    let mut ranks = vec![rank];
    let mut at = index[parent_at(rank)];
    while at != 0 {
        ranks.push(at);
        at = index[parent_at(at)];
    }
    ranks
}

/// Any rank of a right index: of three drawn the one with most ancestors, in half of the cases.
fn any_rank(random: &mut Random, index: &[u32]) -> u32 {
    let drawn = [0; 3].map(|_| random.between(1, index[0] as usize) as u32);
    if random.chance(1, 2) {
        return drawn[0];
    }
    drawn.into_iter().max_by_key(|rank| chain(index, *rank).len()).unwrap()
}

/// Two ranks of a right index, in either order: the same, one above the other, of one parent, of one
/// tree, of two trees, or any where there are no such ranks.
fn pair(random: &mut Random, index: &[u32]) -> (u32, u32) {
    let a = any_rank(random, index);
    let (parent, root) = (body(index, a).parent, body(index, a).root);
    let others = (1..=index[0]).filter(|rank| *rank != a);
    let found: Vec<u32> = match random.below(8) {
        0 => vec![a],
        1 => chain(index, a).split_off(1),
        2 | 3 => others.filter(|rank| body(index, *rank).parent == parent).collect(),
        4 | 5 => others.filter(|rank| body(index, *rank).root == root).collect(),
        6 => others.filter(|rank| body(index, *rank).root != root).collect(),
        _ => others.collect(),
    };
    let b = if found.is_empty() { any_rank(random, index) } else { random.pick(&found) };
    if random.chance(1, 2) {
        (a, b)
    } else {
        (b, a)
    }
}

fn body(index: &[u32], rank: u32) -> Body {
    Body::read(index, rank as usize)
}

/// The climbs of two nodes on a right index.
struct Climbs {
    n: u32,
    /// The ranks of the first alone.
    first: Vec<u32>,
    /// The ranks of the second alone.
    second: Vec<u32>,
    /// The ranks of both, that where they meet in front.
    both: Vec<u32>,
}

impl Climbs {
    fn of(index: &[u32], a: u32, b: u32) -> Climbs {
        let (mut first, mut second) = (chain(index, a), chain(index, b));
        let both: Vec<u32> = first.iter().copied().filter(|rank| second.contains(rank)).collect();
        first.retain(|rank| !both.contains(rank));
        second.retain(|rank| !both.contains(rank));
        Climbs { n: index[0], first, second, both }
    }

    /// The ranks of either climb.
    fn all(&self) -> Vec<u32> {
        [&self.first[..], &self.second, &self.both].concat()
    }

    /// The ranks of neither climb.
    fn others(&self) -> Vec<u32> {
        let all = self.all();
        (1..=self.n).filter(|rank| !all.contains(rank)).collect()
    }

    /// Changes the link of a rank. It breaks when it leads to the rank itself, above it, beyond n or
    /// to the widest word, and doesn't when it leads to 0, the rank before, any lower one or a lower
    /// one of the climbs.
    fn damage_link(&self, random: &mut Random, index: &mut [u32], rank: u32) {
        let n = self.n as usize;
        let above = random.between((rank as usize + 1).min(n), n) as u32;
        let beyond = self.n + random.between(1, 3) as u32;
        let (lower, word) = (random.below(rank as usize) as u32, random.word());
        let mut met = self.all();
        met.retain(|other| *other < rank);
        met.push(0);
        let met = random.pick(&met);
        let choices = [rank, above, above, beyond, u32::MAX, word, 0, rank - 1, lower, met];
        index[parent_at(rank)] = random.pick(&choices);
    }

    /// Changes a link or two, if there are such ranks: before the meeting place, of one climb or of
    /// both, of the meeting place itself, above it, or of ranks that no climb comes to.
    fn damage(&self, random: &mut Random, index: &mut [u32]) {
        let (meeting, above) = self.both.split_at(self.both.len().min(1));
        let others = self.others();
        let parts: [&[u32]; 2] = match random.below(8) {
            0 => [&self.first, &[]],
            1 => [&self.second, &[]],
            2 | 3 => [&self.first, &self.second],
            4 => [meeting, &[]],
            5 | 6 => [above, &[]],
            _ => [&others, &others],
        };
        for part in parts {
            if !part.is_empty() {
                let rank = random.pick(part);
                self.damage_link(random, index, rank);
            }
        }
    }

    /// Changes words that no climb reads, of the ranks that it comes to: sizes, root ranks, levels.
    fn damage_unread(&self, random: &mut Random, index: &mut [u32]) {
        let all = self.all();
        for _ in 0..random.between(1, 6) {
            let (rank, place) = (random.pick(&all), random.pick(&[2, 2, 4, 4, 5]));
            let (any, word) = (random.between(1, self.n as usize) as u32, random.word());
            let at = CONTENTS + BODY * (rank as usize - 1) + place;
            index[at] = random.pick(&[any, any, word]);
        }
    }
}

/// A right index of at least one node: of two drawn the larger, or a deep one.
fn larger(random: &mut Random) -> Vec<u32> {
    if random.chance(1, 6) {
        return deep(random);
    }
    let [one, other] = [0; 2].map(|_| right(random));
    if one[0] < other[0] {
        other
    } else {
        one
    }
}

/// A case around a meeting: a right index, in two of three cases with damage to links that the climbs
/// follow, sometimes to words that they don't read. Ranks that the index hasn't, in either place or
/// in both, and damaged contents are rarer.
pub fn meeting_case(random: &mut Random) -> MeetingCase {
    let mut index = larger(random);
    let (mut a, mut b) = pair(random, &index);
    let climbs = Climbs::of(&index, a, b);
    if random.chance(2, 3) {
        climbs.damage(random, &mut index);
        if random.chance(1, 4) {
            climbs.damage(random, &mut index);
        }
        if random.chance(1, 4) {
            climbs.damage_unread(random, &mut index);
        }
        if random.chance(2, 3) {
            seal(&mut index);
        }
    }
    if random.chance(1, 6) {
        let [one, other] = [0; 2].map(|_| random.pick(&[0, climbs.n + 1, u32::MAX]));
        (a, b) = random.pick(&[(one, b), (a, one), (one, other)]);
    }
    if random.chance(1, 16) {
        index[random.below(3)] = random.word();
    }
    MeetingCase { index, a, b }
}

/// What comes of a meeting.
#[derive(Clone, Copy, Debug, PartialEq, Eq)]
pub enum Outcome {
    BadContents,
    /// Whether the index hasn't the first rank, and the second.
    NoRank([bool; 2]),
    /// The rank whose link ends the first climb, and the second; and where they meet nevertheless.
    Broken([Option<u32>; 2], Option<u32>),
    Nowhere,
    At(u32),
}
use Outcome::*;

/// What the climbs of two ranks come to.
struct Ways {
    /// Whether the first climb comes to a rank, or to 0, and whether the second does.
    come: Vec<[bool; 2]>,
    /// The rank whose link ends each.
    broken: [Option<u32>; 2],
}

impl Ways {
    /// Goes over all ranks, the last first, and marks where the links of marked ones lead: always to
    /// a rank that is still ahead, or they are broken.
    fn of(bodies: &[&[u32]], ranks: [u32; 2]) -> Ways {
        let mut come = vec![[false; 2]; bodies.len() + 1];
        let mut broken = [None; 2];
        for which in 0..2 {
            come[ranks[which] as usize][which] = true;
        }
        for rank in (1..=bodies.len()).rev() {
            let parent = bodies[rank - 1][3] as usize;
            for which in 0..2 {
                if come[rank][which] && parent < rank {
                    come[parent][which] = true;
                } else if come[rank][which] {
                    broken[which] = Some(rank as u32);
                }
            }
        }
        Ways { come, broken }
    }

    /// The ranks marked so, falling.
    fn ranks(&self, marked: impl Fn([bool; 2]) -> bool) -> Vec<u32> {
        let places = (1..self.come.len()).rev();
        places.filter(|rank| marked(self.come[*rank])).map(|rank| rank as u32).collect()
    }

    /// The ranks that both climbs come to, falling.
    fn both(&self) -> Vec<u32> {
        self.ranks(|come| come == [true; 2])
    }
}

fn has(bodies: &[&[u32]], rank: u32) -> bool {
    1 <= rank && rank as usize <= bodies.len()
}

/// By a table of n + 1 places in which both climbs are marked.
pub fn outcome(index: &[u32], a: u32, b: u32) -> Outcome {
    let Some(bodies) = bodies(index) else {
        return BadContents;
    };
    let missing = [a, b].map(|rank| !has(&bodies, rank));
    if missing != [false; 2] {
        return NoRank(missing);
    }
    let ways = Ways::of(&bodies, [a, b]);
    match (ways.broken, ways.both().first().copied()) {
        ([None, None], None) => Nowhere,
        ([None, None], Some(rank)) => At(rank),
        (broken, meeting) => Broken(broken, meeting),
    }
}

/// The ranks that a climber has come to when it stays, that where it was made in front, and why it
/// stays: a refusal, or 0 at a root.
#[derive(Clone, Debug, PartialEq, Eq)]
pub struct Climb {
    pub ranks: Vec<u32>,
    pub refusal: u32,
}

/// By the same table.
pub fn climb(index: &[u32], rank: u32) -> Climb {
    let stay = |refusal| Climb { ranks: vec![rank], refusal };
    let Some(bodies) = bodies(index) else {
        return stay(13);
    };
    if !has(&bodies, rank) {
        return stay(14);
    }
    let ways = Ways::of(&bodies, [rank; 2]);
    Climb { ranks: ways.both(), refusal: ways.broken[0].map_or(0, |_| 15) }
}

/// The guide's recipe for ranks of an index: the highest rank in whose interval both are.
pub fn by_sizes(index: &[u32], a: u32, b: u32) -> Option<u32> {
    let end = |rank: u32| rank as u64 + body(index, rank).size as u64;
    (1..=a.min(b)).rev().find(|rank| end(*rank) > a.max(b) as u64)
}

/// What an accepted meeting comes to, by name.
pub const FACTS: [&str; 18] = [
    "the ranks are equal",
    "the first is an ancestor of the second",
    "the second is an ancestor of the first",
    "they have the same parent",
    "they meet at a root that is neither",
    "they meet below a root, and at neither",
    "several ranks are on both climbs",
    "none, of two roots",
    "none, of two nodes that are no roots",
    "a climb of more than 50 links",
    "by the sizes they meet elsewhere or not at all",
    "by the sizes they meet, but not by the links",
    "they meet and have different root ranks",
    "none, and they have the same root rank",
    "a broken link that no climb comes to",
    "they meet on an index that the check accepts",
    "none on an index that the check accepts",
    "the check doesn't accept the index",
];

/// Which of [`FACTS`] the case has, whose meeting was accepted.
pub fn facts(case: &MeetingCase) -> [bool; FACTS.len()] {
    let (index, a, b) = (&case.index[..], case.a, case.b);
    let bodies = bodies(index).expect("an accepted meeting");
    let ways = Ways::of(&bodies, [a, b]);
    let both = ways.both();
    let met = both.first().copied();
    let parent = |rank: u32| body(index, rank).parent;
    let neither = met.filter(|rank| ![a, b].contains(rank));
    let same_root = body(index, a).root == body(index, b).root;
    let by_sizes = by_sizes(index, a, b);
    let unmet = ways.ranks(|come| come == [false; 2]);
    let longest = (0..2).map(|which| ways.ranks(|come| come[which]).len()).max().unwrap();
    let right = index_check(index);
    [
        a == b,
        a != b && met == Some(a),
        a != b && met == Some(b),
        a != b && parent(a) != 0 && parent(a) == parent(b),
        neither.is_some_and(|rank| parent(rank) == 0),
        neither.is_some_and(|rank| parent(rank) != 0),
        both.len() > 1,
        met.is_none() && parent(a) == 0 && parent(b) == 0,
        met.is_none() && parent(a) != 0 && parent(b) != 0,
        longest > 51,
        met.is_some() && by_sizes != met,
        met.is_none() && by_sizes.is_some(),
        met.is_some() && !same_root,
        met.is_none() && same_root,
        unmet.iter().any(|rank| parent(*rank) >= *rank),
        met.is_some() && right,
        met.is_none() && right,
        !right,
    ]
}

/// Why a meeting is refused, by name.
pub const REFUSALS: [&str; 23] = [
    "13",
    "13, and a rank is 0 or the widest",
    "14 of the first",
    "14 of the second",
    "14 of both",
    "14 of rank 0",
    "14 of rank n + 1",
    "14 of the widest rank",
    "14 of the first, and the second has a broken link",
    "14 of the second, and the first has a broken link",
    "15 on the first climb only",
    "15 on the second climb only",
    "15 on both, of two links",
    "15 on both, of the link of the meeting place",
    "15 on both, of a link above the meeting place",
    "15 of equal ranks",
    "15 of the link of a rank given",
    "15 of links further up only",
    "15 of a link to the rank itself",
    "15 of a link to a rank above it",
    "15 of a link to rank n + 1",
    "15 of another link beyond n",
    "15 of a link to the widest word",
];

/// Which of [`REFUSALS`] the case has, whose meeting was refused.
pub fn refusals(case: &MeetingCase) -> [bool; REFUSALS.len()] {
    let (index, a, b) = (&case.index[..], case.a, case.b);
    let outcome = outcome(index, a, b);
    let n = index.first().copied().unwrap_or(0);
    let given = |rank: u32| a == rank || b == rank;
    let missing = match outcome {
        NoRank(missing) => missing,
        _ => [false; 2],
    };
    let none = missing != [false; 2];
    let (broken, meeting) = match outcome {
        Broken(broken, meeting) => (broken, meeting),
        _ => ([None; 2], None),
    };
    let links: Vec<(u32, u32)> =
        broken.iter().flatten().map(|rank| (*rank, body(index, *rank).parent)).collect();
    let leads = |wanted: &dyn Fn(u32, u32) -> bool| links.iter().any(|link| wanted(link.0, link.1));
    [
        outcome == BadContents,
        outcome == BadContents && (given(0) || given(u32::MAX)),
        missing == [true, false],
        missing == [false, true],
        missing == [true; 2],
        none && given(0),
        none && n < u32::MAX && given(n + 1),
        none && given(u32::MAX),
        missing == [true, false] && climb(index, b).refusal == 15,
        missing == [false, true] && climb(index, a).refusal == 15,
        broken[0].is_some() && broken[1].is_none(),
        broken[0].is_none() && broken[1].is_some(),
        links.len() == 2 && broken[0] != broken[1],
        meeting.is_some() && meeting == broken[0],
        meeting.is_some() && meeting != broken[0],
        !links.is_empty() && a == b,
        leads(&|rank, _| given(rank)),
        !links.is_empty() && !leads(&|rank, _| given(rank)),
        leads(&|rank, parent| parent == rank),
        leads(&|rank, parent| parent > rank && parent <= n),
        leads(&|_, parent| parent == n + 1),
        leads(&|_, parent| parent > n + 1 && parent != u32::MAX),
        leads(&|_, parent| parent == u32::MAX),
    ]
}

/// What a climber comes to, by name.
pub const CLIMBS: [&str; 7] = [
    "a climber refused by 13",
    "a climber refused by 14",
    "a climber refused by 15 at once",
    "a climber refused by 15 later",
    "a climber at a root",
    "a climber that comes to a root",
    "a climber that goes up more than 50 times",
];

/// Which of [`CLIMBS`] a climb has.
pub fn climbs(climb: &Climb) -> [bool; CLIMBS.len()] {
    let (refusal, steps) = (climb.refusal, climb.ranks.len() - 1);
    [
        refusal == 13,
        refusal == 14,
        refusal == 15 && steps == 0,
        refusal == 15 && steps > 0,
        refusal == 0 && steps == 0,
        refusal == 0 && steps > 0,
        steps > 50,
    ]
}
