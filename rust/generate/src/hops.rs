//! Navigation cases around the hops of siblings: damage to words that the walk meets, and what comes
//! of it.

use crate::indexes::{bodies, parent_at, right, seal, size_at, totals, NavigationCase};
use crate::random::Random;
use reference::{index_check, siblings, siblings_by_hops, Body};

/// What a walk by hops on a right index meets: the rank it is asked of, the parent, the last rank
/// up to which it goes, and the siblings.
struct Walk {
    n: u32,
    rank: u32,
    parent: u32,
    last: u32,
    met: Vec<u32>,
}

impl Walk {
    fn of(index: &[u32], rank: u32) -> Walk {
        let (n, parent) = (index[0], index[parent_at(rank)]);
        let last = if parent == 0 { n } else { parent + index[size_at(parent)] - 1 };
        let mut met = vec![0; n as usize];
        let listed = siblings(index, rank, &mut met);
        met.truncate(listed.length as usize);
        Walk { n, rank, parent, last, met }
    }

    /// From any rank: of three drawn the one with most siblings, in half of the cases.
    fn draw(random: &mut Random, index: &[u32]) -> Walk {
        let mut walk = Walk::of(index, random.between(1, index[0] as usize) as u32);
        if random.chance(1, 2) {
            for _ in 0..2 {
                let other = Walk::of(index, random.between(1, index[0] as usize) as u32);
                if other.met.len() > walk.met.len() {
                    walk = other;
                }
            }
        }
        walk
    }

    /// The first sibling, the last, one between, or any.
    fn sibling(&self, random: &mut Random) -> u32 {
        let last = self.met.len() - 1;
        match random.below(4) {
            0 => self.met[0],
            1 => self.met[last],
            2 if last > 1 => self.met[random.between(1, last - 1)],
            _ => random.pick(&self.met),
        }
    }

    /// Changes the size of the parent, where there is one: to 0, by one, such that it has no room or
    /// ends at n or one further, to the widest, or such that its end would wrap to a lower rank.
    fn damage_parent_size(&self, random: &mut Random, index: &mut [u32]) {
        let at = size_at(self.parent);
        let (less, more) = (index[at].wrapping_sub(1), index[at].wrapping_add(1));
        let to_n = self.n - self.parent + 1;
        let wrapped = (random.below(self.parent as usize) as u32 + 1).wrapping_sub(self.parent);
        index[at] = random.pick(&[0, 0, less, more, 1, to_n, to_n + 1, u32::MAX, wrapped]);
    }

    /// Changes the parent rank: to 0, n, the rank itself, the one before, one above, any, or beyond n.
    fn damage_parent(&self, random: &mut Random, index: &mut [u32]) {
        let n = self.n as usize;
        let above = random.between((self.rank as usize + 1).min(n), n) as u32;
        let (any, word) = (random.between(1, n) as u32, random.word());
        let (before, beyond) = (self.rank - 1, random.pick(&[self.n + 1, self.n + 2, u32::MAX]));
        let choices = [0, self.n, self.rank, before, above, above, any, beyond, beyond, word];
        index[parent_at(self.rank)] = random.pick(&choices);
    }

    /// Changes the size of a sibling: to 0, by one, such that the hop goes to the parent's end, one
    /// or two beyond it, to n, one or two beyond it, by wrapping to any rank or to 0, or to the widest.
    fn damage_size(&self, random: &mut Random, index: &mut [u32]) {
        let sibling = self.sibling(random);
        let at = size_at(sibling);
        let (less, more) = (index[at].wrapping_sub(1), index[at].wrapping_add(1));
        let near = random.pick(&[self.last, self.n]) + random.below(3) as u32;
        let any = random.below(self.n as usize + 1) as u32;
        let lower = random.below(sibling as usize) as u32;
        let hop = |to: u32| to.wrapping_sub(sibling);
        let choices = [0, 0, 0, less, more, hop(near), hop(any), hop(lower), u32::MAX];
        index[at] = random.pick(&choices);
    }

    /// Makes the size of the rank 0 and lets the walk go past it, if a sibling comes before it, or
    /// elsewhere: it counts only where it is met.
    fn damage_own_size(&self, random: &mut Random, index: &mut [u32]) {
        index[size_at(self.rank)] = 0;
        let place = self.met.iter().position(|met| *met == self.rank).unwrap_or(0);
        match random.below(3) {
            0 if place > 0 => {
                let before = self.met[random.below(place)];
                let to = random.between(self.rank as usize + 1, self.last as usize + 2) as u32;
                index[size_at(before)] = to - before;
            }
            0 | 1 => self.damage_parent(random, index),
            _ => {}
        }
    }

    /// Changes words that the walk meets: one mostly.
    fn damage(&self, random: &mut Random, index: &mut [u32]) {
        match random.below(8) {
            0 | 1 if self.parent != 0 => self.damage_parent_size(random, index),
            2 | 3 => self.damage_parent(random, index),
            4 => self.damage_own_size(random, index),
            _ => self.damage_size(random, index),
        }
    }
}

/// A navigation case around the hops of siblings: a right index, in three of four cases with damage
/// to words that the walk of the rank meets. The list's length is often what the call needs, or one
/// less; where a size of 0 is met, what the undamaged index would need. Contents and ranks that are
/// refused are rare.
pub fn hop_case(random: &mut Random) -> NavigationCase {
    let mut index = right(random);
    let n = index[0] as usize;
    let walk = Walk::draw(random, &index);
    if random.chance(3, 4) {
        walk.damage(random, &mut index);
        if random.chance(1, 4) {
            walk.damage(random, &mut index);
        }
        if random.chance(2, 3) {
            seal(&mut index);
        }
    }
    let rank = match random.below(32) {
        0 => random.pick(&[0, n as u32 + 1, u32::MAX]),
        _ => walk.rank,
    };
    let mut wide = vec![0; n];
    let hopped = siblings_by_hops(&index, rank, &mut wide);
    let needed = if hopped.refusal == 0 { hopped.length as usize } else { walk.met.len() };
    let length = match random.below(8) {
        0 | 1 => needed.saturating_sub(1),
        2 => random.below(needed + 1),
        3 => 0,
        4 => needed + random.between(1, 9),
        _ => needed,
    };
    if random.chance(1, 32) {
        index[random.below(3)] = random.word();
    }
    let totals = totals(random, n);
    let (lower, upper) = (random.limit(), random.limit());
    let list = random.noise(length);
    NavigationCase { index, totals, rank, lower, upper, list }
}

/// How a walk by hops comes out, whatever the length of the list.
#[derive(Clone, Debug, PartialEq, Eq)]
pub enum Outcome {
    BadContents,
    NoRank,
    ParentAbove,
    ParentSize,
    ParentEnd,
    /// A size of 0, after so many ranks.
    Zero(usize),
    Ranks(Vec<u32>),
}
use Outcome::*;

/// Goes over every rank of the interval and counts down the size of the last one met, on the words
/// as they are.
pub fn outcome(index: &[u32], rank: u32) -> Outcome {
    let Some(bodies) = bodies(index) else {
        return BadContents;
    };
    let n = bodies.len() as u32;
    if !(1..=n).contains(&rank) {
        return NoRank;
    }
    let parent = bodies[rank as usize - 1][3];
    let mut room = n;
    if parent != 0 {
        match bodies.get(parent as usize - 1).map(|body| body[2]) {
            None => return ParentAbove,
            Some(0) => return ParentSize,
            Some(size) if size > n - (parent - 1) => return ParentEnd,
            Some(size) => room = size - 1,
        }
    }
    let mut met = Vec::new();
    let mut left = 0;
    for (body, at) in bodies[parent as usize..][..room as usize].iter().zip(parent + 1..) {
        if left == 0 {
            left = body[2];
            if left == 0 {
                return Zero(met.len());
            }
            met.push(at);
        }
        left -= 1;
    }
    Ranks(met)
}

/// Size and parent rank of a rank.
fn size_and_parent(index: &[u32], rank: u32) -> (u32, u32) {
    let body = Body::read(index, rank as usize);
    (body.size, body.parent)
}

/// What an accepted call comes to, by name.
pub const FACTS: [&str; 15] = [
    "several roots",
    "several children",
    "a parent without room",
    "a parent that ends at n",
    "a parent that is the rank itself",
    "a parent above the rank",
    "a parent that is the last rank",
    "a hop beyond the parent's end, which is below n",
    "a hop beyond n",
    "a hop that would wrap",
    "a hop that would wrap to a rank at the walk's end or before",
    "the rank given isn't listed",
    "the rank given has size 0, and isn't met",
    "a rank with another parent is listed",
    "several siblings on an index that the check accepts",
];

/// Which of [`FACTS`] the case has, whose call was accepted and listed the ranks.
pub fn facts(case: &NavigationCase, ranks: &[u32]) -> [bool; FACTS.len()] {
    let (index, rank) = (&case.index[..], case.rank);
    let n = index[0];
    let (size, parent) = size_and_parent(index, rank);
    let parent_size = if parent == 0 { 0 } else { size_and_parent(index, parent).0 };
    let last = if parent == 0 { n } else { parent + parent_size - 1 };
    let hop = ranks.last().map_or(0, |at| *at as u64 + size_and_parent(index, *at).0 as u64);
    [
        parent == 0 && ranks.len() > 1,
        parent != 0 && ranks.len() > 1,
        parent != 0 && ranks.is_empty(),
        parent != 0 && last == n && !ranks.is_empty(),
        parent == rank,
        parent > rank,
        parent == n,
        parent != 0 && hop > last as u64 + 1 && last < n,
        hop > n as u64 + 1,
        hop >= 1 << 32,
        hop > 1 << 32 && hop - (1 << 32) <= last as u64,
        !ranks.contains(&rank),
        size == 0,
        ranks.iter().any(|at| size_and_parent(index, *at).1 != parent),
        index_check(index) && ranks.len() > 1,
    ]
}

/// Why sentence 15 refuses a call, by name.
pub const REFUSALS: [&str; 8] = [
    "the parent's rank is above n",
    "the parent's size is 0",
    "the parent's end is above n",
    "a size of 0 is met first",
    "a size of 0 is met later",
    "a size of 0 is met when the slice is just full",
    "a size of 0 is met after more ranks than the slice holds",
    "the size of 0 is that of the rank given",
];

/// Which of [`REFUSALS`] the case has, whose call was refused by 15.
pub fn refusals(case: &NavigationCase) -> [bool; REFUSALS.len()] {
    let outcome = outcome(&case.index, case.rank);
    let room = case.list.len();
    let met = match outcome {
        Zero(met) => Some(met),
        _ => None,
    };
    let own = size_and_parent(&case.index, case.rank).0 == 0;
    [
        outcome == ParentAbove,
        outcome == ParentSize,
        outcome == ParentEnd,
        met == Some(0),
        met.is_some_and(|met| met > 0),
        met.is_some_and(|met| met > 0 && met == room),
        met.is_some_and(|met| met > room),
        met.is_some() && own,
    ]
}
