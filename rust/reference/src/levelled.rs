//! Levelled lists: lines whose columns are levels, the nodes made of their beginnings and the build
//! of the index image from them.

use crate::forest::{accept, image_fits, refuse, Body, Built};
use crate::{MAX_LINES, MAX_WIDTH};
use std::cmp::Ordering;

/// A blank cell.
pub const BLANK: u32 = 0;

/// A node: a beginning of a line that ends in a filled cell.
#[derive(Clone, Debug, PartialEq, Eq)]
pub struct LevelledNode {
    /// The cells of the beginning, blanks included.
    pub beginning: Vec<u32>,
    /// The place in the sorted order, from 1, of the first line that has it.
    pub row: usize,
}

/// A levelled list, read.
#[derive(Clone, Debug, PartialEq, Eq)]
pub struct Levelled {
    /// All lines, sorted; equal ones and those wholly blank have their places too.
    pub lines: Vec<Vec<u32>>,
    /// The nodes, in rank order.
    pub nodes: Vec<LevelledNode>,
    /// The number of lines wholly blank.
    pub blank_lines: usize,
}

impl Levelled {
    /// Reads lines of `width` cells each. Refusals 18 and 19.
    pub fn read(cells: &[u32], width: u32) -> Result<Levelled, u32> {
        if width == 0 || width > MAX_WIDTH {
            return Err(18);
        }
        let width = width as usize;
        if !cells.len().is_multiple_of(width) {
            return Err(18);
        }
        if cells.len() / width > MAX_LINES {
            return Err(19);
        }

        let lent: Vec<Vec<u32>> = cells.chunks(width).map(|line| line.to_vec()).collect();
        let mut lines = lent.clone();
        lines.sort_by(|a, b| line_order(a, b));

        let mut nodes = Vec::new();
        for beginning in beginnings(&lent) {
            let row = first_line(&lines, &beginning);
            nodes.push(LevelledNode { beginning, row });
        }
        nodes.sort_by(node_order);

        let mut blank_lines = 0;
        for line in &lines {
            if line.iter().all(|cell| *cell == BLANK) {
                blank_lines += 1;
            }
        }
        Ok(Levelled { lines, nodes, blank_lines })
    }
}

/// "Smaller first, blanks last."
fn cell_order(a: u32, b: u32) -> Ordering {
    match (a == BLANK, b == BLANK) {
        (true, true) => Ordering::Equal,
        (true, false) => Ordering::Greater,
        (false, true) => Ordering::Less,
        (false, false) => a.cmp(&b),
    }
}

/// Order of two lines of one width: "cell by cell", the first that differs decides.
pub fn line_order(a: &[u32], b: &[u32]) -> Ordering {
    for place in 0..a.len() {
        if a[place] != b[place] {
            return cell_order(a[place], b[place]);
        }
    }
    Ordering::Equal
}

/// Each distinct beginning of a line that ends in a filled cell, as met.
fn beginnings(lines: &[Vec<u32>]) -> Vec<Vec<u32>> {
    let mut found: Vec<Vec<u32>> = Vec::new();
    for line in lines {
        for length in 1..=line.len() {
            let beginning = line[..length].to_vec();
            if line[length - 1] != BLANK && !found.contains(&beginning) {
                found.push(beginning);
            }
        }
    }
    found
}

/// The place in the sorted order, from 1, of the first line that has the beginning.
fn first_line(sorted: &[Vec<u32>], beginning: &[u32]) -> usize {
    let place = sorted.iter().position(|line| line.starts_with(beginning));
    place.expect("a beginning is one of a line") + 1
}

/// "Ranks follow the first sorted line that has the beginning, shorter beginnings first."
fn node_order(a: &LevelledNode, b: &LevelledNode) -> Ordering {
    a.row.cmp(&b.row).then(a.beginning.len().cmp(&b.beginning.len()))
}

/// The rank of "the longest shorter beginning that ends in a filled cell", 0 where there is none.
fn parent(nodes: &[LevelledNode], beginning: &[u32]) -> usize {
    for length in (1..beginning.len()).rev() {
        if beginning[length - 1] != BLANK {
            let place = nodes.iter().position(|node| node.beginning == beginning[..length]);
            return place.expect("each such beginning is a node") + 1;
        }
    }
    0
}

/// The number of nodes that begin with the beginning, its own included.
fn size(nodes: &[LevelledNode], beginning: &[u32]) -> usize {
    nodes.iter().filter(|node| node.beginning.starts_with(beginning)).count()
}

/// The bodies of the nodes, in rank order.
pub fn bodies(nodes: &[LevelledNode]) -> Vec<Body> {
    let mut list: Vec<Body> = Vec::new();
    for (place, node) in nodes.iter().enumerate() {
        let level = node.beginning.len();
        let parent = parent(nodes, &node.beginning);
        let root = match parent {
            0 => place as u32 + 1,
            above => list[above - 1].root,
        };
        list.push(Body {
            numeral: node.beginning[level - 1],
            row: node.row as u32,
            size: size(nodes, &node.beginning) as u32,
            parent: parent as u32,
            root,
            level: level as u32,
            closing: false,
            orphan: false,
        });
    }
    list
}

/// Builds the index image of a levelled list and its totals, which are 0. The second count is that
/// of lines wholly blank. Refusals 18, 19 and 9 in this order; a refused build zeroes both slices.
pub fn build_levelled(cells: &[u32], width: u32, index: &mut [u32], totals: &mut [i64]) -> Built {
    let levelled = match Levelled::read(cells, width) {
        Err(refusal) => return refuse(refusal, index, totals),
        Ok(levelled) => levelled,
    };
    if !image_fits(levelled.nodes.len(), index.len(), totals.len()) {
        return refuse(9, index, totals);
    }
    let minutes = vec![0; levelled.nodes.len()];
    accept(&bodies(&levelled.nodes), &minutes, levelled.blank_lines as u32, index, totals)
}
