//! Navigation and sums on any slices. Refusals 13 to 16 in order.

use crate::forest::Body;
use crate::{BODY, CONTENTS, MAX_NODES};
use std::ops::Range;

/// A span: the words of the index slice that hold its bodies, none when refused.
#[derive(Clone, Debug, PartialEq, Eq)]
pub struct Spanned {
    pub refusal: u32,
    pub words: Range<usize>,
}

/// A list put to the front of the lent slice.
#[derive(Clone, Copy, Debug, PartialEq, Eq)]
pub struct Listed {
    pub refusal: u32,
    pub length: u32,
}

/// A list of ancestors, and the parent links followed (those to rank 0 not counted): level − 1 on
/// an index built from rows, the number of shorter beginnings that are nodes on a levelled one.
#[derive(Clone, Copy, Debug, PartialEq, Eq)]
pub struct Climbed {
    pub refusal: u32,
    pub length: u32,
    pub links: u32,
}

/// A list of siblings, and the hops made: one for each listed rank.
#[derive(Clone, Copy, Debug, PartialEq, Eq)]
pub struct Hopped {
    pub refusal: u32,
    pub length: u32,
    pub hops: u32,
}

/// A sum.
#[derive(Clone, Copy, Debug, PartialEq, Eq)]
pub struct Summed {
    pub refusal: u32,
    pub sum: i64,
}

/// The node count, or none when 13's index conditions hold.
pub fn node_count(index: &[u32]) -> Option<usize> {
    if index.len() < CONTENTS {
        return None;
    }
    if index[1] != 8 || index[2] != 6 {
        return None;
    }
    let n = index[0] as usize;
    if n > MAX_NODES || CONTENTS + BODY * n > index.len() {
        return None;
    }
    Some(n)
}

/// Refusals 13 and 14 of an index, else the node count.
pub(crate) fn enter(index: &[u32], rank: u32) -> Result<usize, u32> {
    let n = node_count(index).ok_or(13u32)?;
    if rank == 0 || rank as usize > n {
        return Err(14);
    }
    Ok(n)
}

/// Refusal 13 of an index and its totals, else the node count.
pub(crate) fn enter_totals(index: &[u32], totals: &[i64]) -> Result<usize, u32> {
    let n = node_count(index).ok_or(13u32)?;
    if totals.len() < n + 1 {
        return Err(13);
    }
    Ok(n)
}

/// As [`enter`], for a sum.
fn enter_sum(index: &[u32], totals: &[i64], rank: u32) -> Result<usize, u32> {
    enter_totals(index, totals)?;
    enter(index, rank)
}

/// The last rank of the node's interval, or refusal 15.
fn end(index: &[u32], n: usize, rank: u32) -> Result<usize, u32> {
    let size = Body::read(index, rank as usize).size;
    if size == 0 {
        return Err(15);
    }
    let end = rank as u64 + size as u64 - 1;
    if end > n as u64 {
        return Err(15);
    }
    Ok(end as usize)
}

/// The parent rank, 0 of a root, or refusal 15.
pub(crate) fn link(index: &[u32], rank: u32) -> Result<u32, u32> {
    let parent = Body::read(index, rank as usize).parent;
    if parent >= rank {
        return Err(15);
    }
    Ok(parent)
}

/// The node and its ancestors up to the root, or refusal 15.
pub(crate) fn climb(index: &[u32], rank: u32) -> Result<Vec<u32>, u32> {
    let mut chain = vec![rank];
    let mut at = rank;
    loop {
        let parent = link(index, at)?;
        if parent == 0 {
            return Ok(chain);
        }
        chain.push(parent);
        at = parent;
    }
}

/// The ranks of `candidates` whose distance from `rank`, their level less its own, is within the
/// limits. On a levelled index that counts columns and not links.
fn within(index: &[u32], rank: u32, lower: i32, upper: i32, candidates: &[u32]) -> Vec<u32> {
    let own = Body::read(index, rank as usize).level as i64;
    let mut list = Vec::new();
    for &candidate in candidates {
        let distance = Body::read(index, candidate as usize).level as i64 - own;
        if lower as i64 <= distance && distance <= upper as i64 {
            list.push(candidate);
        }
    }
    list
}

/// Puts `found` to the front of `list`, or refusal 16.
fn put(found: &[u32], list: &mut [u32]) -> Result<u32, u32> {
    if found.len() > list.len() {
        return Err(16);
    }
    list[..found.len()].copy_from_slice(found);
    Ok(found.len() as u32)
}

/// The value of a total, or refusal 15 beyond 2^47 either side.
pub(crate) fn within_use(value: i128) -> Result<i128, u32> {
    if value > 1 << 47 || value < -(1 << 47) {
        return Err(15);
    }
    Ok(value)
}

/// A total that may be used, or refusal 15.
pub(crate) fn total(totals: &[i64], at: usize) -> Result<i128, u32> {
    within_use(totals[at] as i128)
}

/// The part of the index that holds the bodies of ranks r to r + size − 1.
pub fn span(index: &[u32], rank: u32) -> Spanned {
    let found = || -> Result<Range<usize>, u32> {
        let n = enter(index, rank)?;
        let end = end(index, n, rank)?;
        Ok(CONTENTS + BODY * (rank as usize - 1)..CONTENTS + BODY * end)
    };
    match found() {
        Ok(words) => Spanned { refusal: 0, words },
        Err(refusal) => Spanned { refusal, words: 0..0 },
    }
}

/// Ranks of the node's span within the limits, rising.
pub fn descendants(index: &[u32], rank: u32, lower: i32, upper: i32, list: &mut [u32]) -> Listed {
    let found = || -> Result<Vec<u32>, u32> {
        let n = enter(index, rank)?;
        let end = end(index, n, rank)?;
        let all: Vec<u32> = (rank..=end as u32).collect();
        Ok(within(index, rank, lower, upper, &all))
    };
    listed(found().and_then(|found| put(&found, list)))
}

/// The node, then parent after parent up to rank 0; those within the limits are listed.
pub fn ancestors(index: &[u32], rank: u32, lower: i32, upper: i32, list: &mut [u32]) -> Climbed {
    let mut found = || -> Result<(u32, u32), u32> {
        enter(index, rank)?;
        let chain = climb(index, rank)?;
        let length = put(&within(index, rank, lower, upper, &chain), list)?;
        Ok((length, chain.len() as u32 - 1))
    };
    match found() {
        Ok((length, links)) => Climbed { refusal: 0, length, links },
        Err(refusal) => Climbed { refusal, length: 0, links: 0 },
    }
}

/// All ranks with the same parent rank, the node included, rising.
pub fn siblings(index: &[u32], rank: u32, list: &mut [u32]) -> Listed {
    let found = || -> Result<Vec<u32>, u32> {
        let n = enter(index, rank)?;
        let parent = Body::read(index, rank as usize).parent;
        let mut same = Vec::new();
        for other in 1..=n {
            if Body::read(index, other).parent == parent {
                same.push(other as u32);
            }
        }
        Ok(same)
    };
    listed(found().and_then(|found| put(&found, list)))
}

/// The first child of the parent (rank 1 for roots), then hop by hop of tree size up to the parent's
/// end, or to n. It is no climb: any parent rank up to n is followed as it stands.
pub fn siblings_by_hops(index: &[u32], rank: u32, list: &mut [u32]) -> Hopped {
    let mut found = || -> Result<(u32, u32), u32> {
        let n = enter(index, rank)?;
        let parent = Body::read(index, rank as usize).parent;
        if parent as usize > n {
            return Err(15);
        }
        let last = if parent == 0 { n } else { end(index, n, parent)? };
        let mut met = Vec::new();
        let mut hops = 0;
        let mut at = parent as u64 + 1;
        while at <= last as u64 {
            let size = Body::read(index, at as usize).size;
            if size == 0 {
                return Err(15);
            }
            met.push(at as u32);
            at += size as u64;
            hops += 1;
        }
        Ok((put(&met, list)?, hops))
    };
    match found() {
        Ok((length, hops)) => Hopped { refusal: 0, length, hops },
        Err(refusal) => Hopped { refusal, length: 0, hops: 0 },
    }
}

/// Total at r + size − 1 less total at r − 1.
pub fn subtree_sum(index: &[u32], totals: &[i64], rank: u32) -> Summed {
    let found = || -> Result<i128, u32> {
        let n = enter_sum(index, totals, rank)?;
        let end = end(index, n, rank)?;
        Ok(total(totals, end)? - total(totals, rank as usize - 1)?)
    };
    summed(found())
}

/// Own minutes over the node and all its ancestors.
pub fn path_sum(index: &[u32], totals: &[i64], rank: u32) -> Summed {
    let found = || -> Result<i128, u32> {
        enter_sum(index, totals, rank)?;
        let mut sum = 0;
        for at in climb(index, rank)? {
            let own = total(totals, at as usize)? - total(totals, at as usize - 1)?;
            if own < i32::MIN as i128 || own > i32::MAX as i128 {
                return Err(15);
            }
            sum += own;
        }
        Ok(sum)
    };
    summed(found())
}

fn listed(found: Result<u32, u32>) -> Listed {
    match found {
        Ok(length) => Listed { refusal: 0, length },
        Err(refusal) => Listed { refusal, length: 0 },
    }
}

/// Sums stay far inside i64: totals within 2^47, or 65,535 times an i32.
fn summed(found: Result<i128, u32>) -> Summed {
    match found {
        Ok(sum) => Summed { refusal: 0, sum: sum as i64 },
        Err(refusal) => Summed { refusal, sum: 0 },
    }
}
