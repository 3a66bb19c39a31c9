//! The index check, by its plain definition.

use crate::forest::Body;
use crate::navigation::node_count;
use crate::{BODY, CONTENTS};

/// Whether the slice holds an index of a forest in preorder; one check for all builds.
pub fn index_check(index: &[u32]) -> bool {
    let n = match node_count(index) {
        None => return false,
        Some(n) => n,
    };
    if index[4..8].iter().any(|word| *word != 0) {
        return false;
    }
    let words = &index[CONTENTS..CONTENTS + BODY * n];
    let sum: u64 = words.iter().map(|word| *word as u64).sum();
    if sum % (1 << 32) != index[3] as u64 {
        return false;
    }
    (1..=n).all(|rank| body_check(index, n, rank))
}

/// The interval's end: rank + size − 1. Of size 0 it lies before the rank.
fn end(index: &[u32], rank: usize) -> u64 {
    let size = index[CONTENTS + BODY * (rank - 1) + 2];
    rank as u64 + size as u64 - 1
}

fn body_check(index: &[u32], n: usize, rank: usize) -> bool {
    let body = Body::read(index, rank);
    if body.size == 0 {
        return false;
    }

    // The largest lower rank whose interval contains this one, else 0.
    let mut parent = 0;
    for lower in (1..rank).rev() {
        if end(index, lower) >= rank as u64 {
            parent = lower;
            break;
        }
    }
    if body.parent as usize != parent {
        return false;
    }

    // "Any level above the parent's, and any from 1 for a root."
    let (last, level_fits, root) = if parent == 0 {
        (n as u64, body.level >= 1, rank as u32)
    } else {
        let above = Body::read(index, parent);
        (end(index, parent), body.level > above.level, above.root)
    };
    let bits = index[CONTENTS + BODY * (rank - 1) + 5] / (1 << 16) % (1 << 14);
    end(index, rank) <= last && level_fits && body.root == root && bits == 0
}
