//! Built, foreign, damaged and random index slices, totals, and navigation cases.

use crate::builds::{node_count, options, rows, start, start_of, SHAPES};
use crate::levelled::{fitting_case, LevelledCase, CELLS};
use crate::random::Random;
use reference::{ancestors, build, build_levelled, descendants, siblings, Body, BODY, CONTENTS};

/// The place of a rank's row number in the index.
pub(crate) fn row_at(rank: u32) -> usize {
    CONTENTS + BODY * (rank as usize - 1) + 1
}

/// The place of a rank's size in the index.
pub(crate) fn size_at(rank: u32) -> usize {
    CONTENTS + BODY * (rank as usize - 1) + 2
}

/// The place of a rank's parent rank in the index.
pub(crate) fn parent_at(rank: u32) -> usize {
    CONTENTS + BODY * (rank as usize - 1) + 3
}

/// The words of each body, or none where 13's index conditions hold.
pub(crate) fn bodies(index: &[u32]) -> Option<Vec<&[u32]>> {
    if index.len() < 8 || index[1..3] != [8, 6] || index[0] > 65_535 {
        return None;
    }
    let n = index[0] as usize;
    let bodies: Vec<&[u32]> = index[8..].chunks_exact(6).take(n).collect();
    (bodies.len() == n).then_some(bodies)
}

/// The index of a levelled list of up to 30 lines and its totals, with up to 8 words beyond.
pub fn built_levelled(random: &mut Random) -> (Vec<u32>, Vec<i64>) {
    let cells = random.pick(&CELLS);
    let (count, width) = (random.below(31), random.between(1, 8) as u32);
    let LevelledCase { cells, mut index, mut totals, .. } =
        fitting_case(random, cells, count, width);
    let built = build_levelled(&cells, width, &mut index, &mut totals);
    assert_eq!(built.refusal, 0);
    (index, totals)
}

/// A built index and its totals, with up to 20 words beyond; a quarter are those of levelled lists.
pub fn built(random: &mut Random) -> (Vec<u32>, Vec<i64>) {
    if random.chance(1, 4) {
        return built_levelled(random);
    }
    loop {
        let shape = random.pick(&SHAPES);
        let size = random.between(1, 40);
        let rows = rows(random, shape, size);
        let (code, depth) = options(random);
        let start = start(random, &rows);
        let n = match node_count(&rows, code, depth, start_of(&start), 400) {
            None => continue,
            Some(n) => n,
        };
        let beyond = random.below(20);
        let mut index = random.noise(CONTENTS + BODY * n + beyond);
        let mut totals = random.wide_noise(n + 1 + beyond);
        let built = build(&rows, code, depth, start_of(&start), &mut index, &mut totals);
        if built.refusal == 0 {
            return (index, totals);
        }
    }
}

/// Sets the check word to the sum of the body words.
pub fn seal(index: &mut [u32]) {
    let end = CONTENTS + BODY * index[0] as usize;
    index[3] = index[CONTENTS..end].iter().fold(0, |sum: u32, word| sum.wrapping_add(*word));
}

/// A level for a node that has `height` levels at least below it: the one after the
/// parent's, one further down, or the last that leaves room.
fn level(random: &mut Random, above: u32, height: u32) -> u32 {
    let (next, last) = (above + 1, 0xffff - height);
    match random.below(8) {
        0..=3 => next,
        4 => last,
        _ => (next + random.below(5) as u32).min(last),
    }
}

/// A right index no build made: a random forest of `n` nodes.
pub fn foreign(random: &mut Random, n: usize) -> Vec<u32> {
    // The chain from a root down to the last node.
    let mut chain: Vec<usize> = Vec::new();
    let mut parents = vec![0; n + 1];
    let steep = random.between(1, 6);
    for (rank, parent) in parents.iter_mut().enumerate().skip(1) {
        while !chain.is_empty() && random.chance(1, steep) {
            chain.pop();
        }
        *parent = chain.last().copied().unwrap_or(0);
        chain.push(rank);
    }
    foreign_of(random, &parents)
}

/// A right index of the nodes that have these parents, at place 0 none; with any numerals, row
/// numbers and flags, in half of the cases with levels left out.
pub(crate) fn foreign_of(random: &mut Random, parents: &[usize]) -> Vec<u32> {
    let n = parents.len() - 1;
    let mut sizes = vec![1u32; n + 1];
    let mut heights = vec![0u32; n + 1];
    for rank in (1..=n).rev() {
        let parent = parents[rank];
        if parent != 0 {
            sizes[parent] += sizes[rank];
            heights[parent] = heights[parent].max(heights[rank] + 1);
        }
    }
    let mut levels = vec![0u32; n + 1];
    let mut roots = vec![0u32; n + 1];
    let stepped = random.chance(1, 2);
    for rank in 1..=n {
        let parent = parents[rank];
        let above = levels[parent];
        levels[rank] = if stepped { above + 1 } else { level(random, above, heights[rank]) };
        roots[rank] = if parent == 0 { rank as u32 } else { roots[parent] };
    }
    let mut index = vec![n as u32, 8, 6, 0, 0, 0, 0, 0];
    for rank in 1..=n {
        let flags = (random.below(4) as u32) << 30;
        let parent = parents[rank] as u32;
        let (numeral, row) = (random.word(), random.word());
        index.extend([numeral, row, sizes[rank], parent, roots[rank], levels[rank] + flags]);
    }
    seal(&mut index);
    index
}

/// A right index of at least one node, and words beyond it in most cases, for whole bodies too.
pub(crate) fn right(random: &mut Random) -> Vec<u32> {
    let mut index = if random.chance(1, 3) {
        let n = random.between(1, 40);
        foreign(random, n)
    } else {
        loop {
            let index = built(random).0;
            if index[0] != 0 {
                break index;
            }
        }
    };
    let beyond = BODY * random.below(3);
    index.extend(random.noise(beyond));
    index
}

/// An index of bodies with these sizes and parent ranks, right or not; root ranks and levels are by
/// the links that lead to a lower rank.
pub fn linked(sizes_and_parents: &[(u32, u32)]) -> Vec<u32> {
    let mut index = vec![sizes_and_parents.len() as u32, 8, 6, 0, 0, 0, 0, 0];
    for (&(size, parent), rank) in sizes_and_parents.iter().zip(1u32..) {
        let above = (1..rank).contains(&parent).then(|| Body::read(&index, parent as usize));
        let (root, level) = above.map_or((rank, 1), |above| (above.root, above.level + 1));
        index.extend([7, 7, size, parent, root, level]);
    }
    seal(&mut index);
    index
}

/// A level at the edge of what is right: 0, the parent's, beside it, or the last, in an
/// index that has `n` bodies.
fn edge_level(random: &mut Random, index: &[u32], n: usize, rank: usize) -> u32 {
    let body = |rank: usize| &index[CONTENTS + BODY * (rank - 1)..][..BODY];
    let above = match body(rank)[3] as usize {
        parent if 0 < parent && parent <= n => body(parent)[5] & 0xffff,
        _ => 0,
    };
    random.pick(&[0, above, above.saturating_sub(1), above + 1, above + 2, 0xffff]).min(0xffff)
}

/// Changes one to three words of an index that has its bodies; the check word is
/// put right again in two of three cases.
pub fn damage(random: &mut Random, index: &mut [u32]) {
    let n = index[0] as usize;
    for _ in 0..random.between(1, 3) {
        let at = if n == 0 || random.chance(1, 8) {
            random.below(CONTENTS)
        } else {
            // Sizes, parents, roots and levels more than numerals and row numbers.
            let word = random.pick(&[0, 1, 2, 2, 2, 3, 3, 3, 4, 4, 5, 5, 5]);
            CONTENTS + BODY * random.below(n) + word
        };
        let old = index[at];
        if at >= CONTENTS && (at - CONTENTS) % BODY == 5 && random.chance(1, 2) {
            let rank = (at - CONTENTS) / BODY + 1;
            index[at] = old & !0xffff | edge_level(random, index, n, rank);
            continue;
        }
        index[at] = match random.below(8) {
            0 => 0,
            1 => old.wrapping_add(1),
            2 => old.wrapping_sub(1),
            3 => random.pick(&[u32::MAX, u32::MAX - 1, 1 << 31]),
            4 => old ^ (1 << random.below(32)),
            5 => random.below(n + 3) as u32,
            6 => random.word(),
            _ => random.draw() as u32,
        };
    }
    let header = CONTENTS as u64 + BODY as u64 * index[0] as u64;
    if header <= index.len() as u64 && random.chance(2, 3) {
        seal(index);
    }
}

/// An index slice: built, foreign, damaged, random bodies under a right table of
/// contents, cut short, or noise.
pub fn index(random: &mut Random) -> Vec<u32> {
    match random.below(12) {
        0 | 1 => built(random).0,
        2 | 3 => {
            let n = random.below(60);
            foreign(random, n)
        }
        4..=6 => {
            let mut index = built(random).0;
            damage(random, &mut index);
            index
        }
        7 | 8 => {
            let n = random.below(30);
            let mut index = foreign(random, n);
            damage(random, &mut index);
            index
        }
        9 => {
            // Small words, so that sizes and parents are often in range.
            let n = random.below(12);
            let mut index = vec![n as u32, 8, 6, 0, 0, 0, 0, 0];
            for _ in 0..BODY * n {
                index.push(if random.chance(1, 8) {
                    random.word()
                } else {
                    random.below(n + 2) as u32
                });
            }
            seal(&mut index);
            index
        }
        10 => {
            let mut index = built(random).0;
            let length = random.below(index.len() + 1);
            index.truncate(length);
            index
        }
        _ => {
            let length = random.below(40);
            let mut index = random.noise(length);
            if length > 2 && random.chance(1, 2) {
                index[0] = random.below(8) as u32;
                index[1] = 8;
                index[2] = 6;
            }
            index
        }
    }
}

/// A total: small, at the limits of use, or any.
pub fn total(random: &mut Random) -> i64 {
    let edge = 1i64 << 47;
    match random.below(8) {
        0 => random.pick(&[edge, -edge, edge - 1, 1 - edge]),
        1 => random.pick(&[edge + 1, -edge - 1, i64::MIN, i64::MAX, i64::MIN + 1]),
        2 => random.draw() as i64,
        3 => random.pick(&[1 << 31, (1 << 31) - 1, -(1 << 31), -(1 << 31) - 1]),
        _ => random.minutes() as i64,
    }
}

/// Totals for `n` nodes: running sums mostly, some words replaced, or any words;
/// sometimes too few or more than needed.
pub fn totals(random: &mut Random, n: usize) -> Vec<i64> {
    let length = match random.below(10) {
        0 => random.below(n + 1),
        1 => n,
        2 => n + 1 + random.below(9),
        _ => n + 1,
    };
    if random.chance(1, 4) {
        return (0..length).map(|_| total(random)).collect();
    }
    let mut sum = if random.chance(1, 4) { random.minutes() as i64 * 1_000 } else { 0 };
    let mut list = Vec::new();
    for _ in 0..length {
        list.push(sum);
        sum += random.minutes() as i64;
    }
    if !list.is_empty() && random.chance(1, 3) {
        let place = random.below(length);
        list[place] = total(random);
    }
    list
}

/// Arguments for every navigation call; the list is filled with noise beforehand.
#[derive(Clone, Debug)]
pub struct NavigationCase {
    pub index: Vec<u32>,
    pub totals: Vec<i64>,
    pub rank: u32,
    pub lower: i32,
    pub upper: i32,
    pub list: Vec<u32>,
}

/// A random navigation case. The list's length is often what one of the list
/// calls needs, or one less.
pub fn navigation_case(random: &mut Random) -> NavigationCase {
    let index = index(random);
    let n = index.first().map_or(0, |n| *n as usize).min(index.len() / BODY);
    let totals = totals(random, n);
    let rank = match random.below(12) {
        0 => 0,
        1 => n as u32 + random.between(1, 3) as u32,
        2 => random.word(),
        3 => n as u32,
        _ => random.between(1, n.max(1)) as u32,
    };
    let (lower, upper) = match random.below(4) {
        0 => (i32::MIN, i32::MAX),
        1 => (random.limit().min(0), random.limit().max(0)),
        _ => (random.limit(), random.limit()),
    };
    let mut wide = vec![0; index.len()];
    let needed = match random.below(3) {
        0 => descendants(&index, rank, lower, upper, &mut wide).length,
        1 => ancestors(&index, rank, lower, upper, &mut wide).length,
        _ => siblings(&index, rank, &mut wide).length,
    } as usize;
    let length = match random.below(6) {
        0 => needed.saturating_sub(1),
        1 => random.below(needed + 1),
        2 => 0,
        3 => needed + random.between(1, 9),
        4 => n,
        _ => needed,
    };
    let list = random.noise(length);
    NavigationCase { index, totals, rank, lower, upper, list }
}
