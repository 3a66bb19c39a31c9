//! Shortest placement: each numeral that a regular path reaches stands once, by the path with fewest
//! rows, and the build of the index image from these paths.
//!
//! The kept paths are formed in two ways: [`kept_of_all`] lists all regular paths, of which a board
//! may have exponentially many; [`kept_by_length`] goes from length to length and keeps at most one
//! path to a numeral. The build takes the first where the paths are few.

use crate::board::{Board, Row};
use crate::forest::{
    accept, bodies, forest, image_fits, left_over, minutes, node_order, refuse, Built, Node, Start,
    IGNORE,
};
use std::collections::HashMap;

/// Most regular paths that the build lists.
pub const LISTED: usize = 2_000;

/// The numeral that a path reaches: that of its last row.
fn reached(rows: &[Row], path: &Node) -> u32 {
    rows[path.rows[path.rows.len() - 1] - 1].numeral
}

/// "For each numeral that a regular path reaches, the path with fewest rows, and among those the
/// first in path order", the kept paths in path order. None if there are more than `most` regular
/// paths.
pub fn kept_of_all(rows: &[Row], start: Start, most: usize) -> Option<Vec<Node>> {
    // They come in path order.
    let paths = forest(rows, IGNORE, None, start, &|n| n <= most).ok()?.nodes;
    let mut to: HashMap<u32, Vec<&Node>> = HashMap::new();
    for path in &paths {
        to.entry(reached(rows, path)).or_default().push(path);
    }
    let is_kept = |path: &Node| {
        let to_the_same = &to[&reached(rows, path)];
        let fewest = to_the_same.iter().map(|other| other.rows.len()).min();
        let first = to_the_same.iter().find(|other| Some(other.rows.len()) == fewest);
        first.is_some_and(|first| first.rows == path.rows)
    };
    Some(paths.iter().filter(|path| is_kept(path)).cloned().collect())
}

/// The same by the request's remark that "every beginning of a kept path is then kept too": a kept
/// path is a start row, or a row behind a kept path that is one row shorter. Among all such of one
/// length the first in path order is kept to each numeral that no shorter one reaches.
pub fn kept_by_length(rows: &[Row], start: Start) -> Vec<Node> {
    let path = |list: Vec<usize>| Node { rows: list, entry: None, orphan: false, closing: false };
    let mut kept: HashMap<u32, Node> = HashMap::new();
    let starts = (1..=rows.len()).filter(|&k| start.takes(&rows[k - 1]));
    let mut of_length: Vec<Node> = starts.map(|k| path(vec![k])).collect();
    while !of_length.is_empty() {
        let mut first: HashMap<u32, Node> = HashMap::new();
        for path in of_length {
            let numeral = reached(rows, &path);
            let earlier =
                first.get(&numeral).is_some_and(|other| node_order(rows, other, &path).is_lt());
            if !kept.contains_key(&numeral) && !earlier {
                first.insert(numeral, path);
            }
        }
        of_length = Vec::new();
        for k in 1..=rows.len() {
            if let Some(before) = first.get(&rows[k - 1].parent) {
                of_length.push(path([before.rows.clone(), vec![k]].concat()));
            }
        }
        kept.extend(first);
    }
    let mut paths: Vec<Node> = kept.into_values().collect();
    paths.sort_by(|a, b| node_order(rows, a, b));
    paths
}

/// The kept paths over `rows`, whose numerals are all 1 or more, in path order.
pub fn kept(rows: &[Row], start: Start) -> Vec<Node> {
    kept_of_all(rows, start, LISTED).unwrap_or_else(|| kept_by_length(rows, start))
}

/// Builds the index image and the running totals of shortest placement over `rows`, whose numerals
/// are all 1 or more. Refusal 9 over the kept paths and no other; a refused build zeroes both slices.
pub fn build_shortest(rows: &[Row], start: Start, index: &mut [u32], totals: &mut [i64]) -> Built {
    let kept = kept(rows, start);
    if !image_fits(kept.len(), index.len(), totals.len()) {
        return refuse(9, index, totals);
    }
    let bodies = bodies(rows, &kept);
    let minutes: Vec<i64> = bodies.iter().map(|body| minutes(rows, body)).collect();
    accept(&bodies, &minutes, left_over(rows, &bodies), index, totals)
}

/// Builds from a board: refusal 1, then as [`build_shortest`].
pub fn build_shortest_board(
    board: &Board,
    start: Start,
    index: &mut [u32],
    totals: &mut [i64],
) -> Built {
    if !board.sound() {
        return refuse(1, index, totals);
    }
    build_shortest(board.held(), start, index, totals)
}
