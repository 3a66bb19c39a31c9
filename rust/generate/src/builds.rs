//! Random boards' rows, options, start lists and slices for builds.

use crate::random::Random;
use crate::rings::rings;
use reference::forest::forest;
use reference::{Options, Row, Start, BODY, CONTENTS, MAX_ROWS};
use std::cmp::Reverse;

/// Shape of a row list.
#[derive(Clone, Copy, Debug, PartialEq, Eq)]
pub enum Shape {
    /// Distinct numerals, each below an earlier one; some roots.
    Tree,
    /// One long chain, some of its rows with a leaf; its end may close.
    Chain,
    /// Few numerals shared by many rows, at most three levels.
    Wide,
    /// A tree with edges that lead back, or one row to a numeral with parents anywhere.
    Cyclic,
    /// Rings and what hangs from them, alone.
    Rings,
    /// The same beside a tree and beside trees whose roots miss their parents; some
    /// rows of either lead to the other.
    Islands,
    /// Missing parents, with subtrees and rings below, beside a tree; some share
    /// a numeral with it.
    Orphans,
    /// A tree with some rows repeated.
    Duplicates,
    /// Two or three rows of one numeral on every level: exponentially many paths.
    Diamonds,
    /// Parents and numerals from a small range.
    Noise,
    /// Three levels of few numerals and one or two orders: start rows, top orphans
    /// and children of shared numerals that tie.
    Ties,
}

/// All shapes.
pub const SHAPES: [Shape; 11] = [
    Shape::Tree,
    Shape::Chain,
    Shape::Wide,
    Shape::Cyclic,
    Shape::Rings,
    Shape::Islands,
    Shape::Orphans,
    Shape::Duplicates,
    Shape::Diamonds,
    Shape::Noise,
    Shape::Ties,
];

/// Edges of a tree over the numerals `first` to `last`; the first has parent 0.
fn tree(random: &mut Random, first: u32, last: u32, edges: &mut Vec<(u32, u32)>) {
    let near = random.chance(1, 3);
    for numeral in first..=last {
        let number = (numeral - first) as usize;
        let parent = if number == 0 || random.chance(1, 40) {
            0
        } else if near {
            numeral - 1 - random.below(number.min(3)) as u32
        } else {
            first + random.below(number) as u32
        };
        edges.push((parent, numeral));
    }
}

/// A numeral no row bears.
const MISSING: u32 = 10_000;

/// Puts `extra` edges between numerals of the list; most lead to an earlier one.
fn back_edges(random: &mut Random, extra: usize, edges: &mut Vec<(u32, u32)>) {
    for _ in 0..extra {
        let from = random.below(edges.len());
        let to =
            if random.chance(3, 4) { random.below(from + 1) } else { random.below(edges.len()) };
        edges.push((edges[from].1, edges[to].1));
    }
}

/// Edges of a tree over the numerals `first` to `last` whose roots miss their
/// parents, with some rows that miss theirs further down.
fn lost_tree(random: &mut Random, first: u32, last: u32, edges: &mut Vec<(u32, u32)>) {
    let begin = edges.len();
    tree(random, first, last, edges);
    for edge in &mut edges[begin..] {
        if edge.0 == 0 || random.chance(1, 20) {
            edge.0 = MISSING + random.below(3) as u32;
        }
    }
}

/// Edges of rings beside a tree and a tree that misses its parent, either or both
/// of which may be left out, and up to two rows between any two numerals.
fn islands(random: &mut Random, size: usize, edges: &mut Vec<(u32, u32)>) {
    let between = random.below(3).min(size / 4);
    let rest = size - between;
    let own = random.between(1, rest);
    edges.extend(rings(random, 1, own));
    let some = random.between(own, rest);
    let middle = random.pick(&[own, some, rest]);
    if own < middle {
        tree(random, own as u32 + 1, middle as u32, edges);
    }
    if middle < rest {
        lost_tree(random, middle as u32 + 1, rest as u32, edges);
    }
    for _ in 0..between {
        let (above, below) = (random.pick(edges).1, random.pick(edges).1);
        edges.push((above, below));
    }
}

/// Edges of three levels of few numerals; on the first, parents are missing as
/// often as not.
fn tied(random: &mut Random, size: usize, edges: &mut Vec<(u32, u32)>) {
    let range = (size / 4).max(2);
    for number in 0..size {
        let level = number % 3;
        let parent = match level {
            0 if random.chance(1, 2) => 0,
            0 => MISSING + random.below(2) as u32,
            _ => ((level - 1) * range + random.between(1, range)) as u32,
        };
        edges.push((parent, (level * range + random.between(1, range)) as u32));
    }
}

/// Rows of a shape; at most `size` of them, where `size` is 1 to 1,024. Rows
/// come in random order or with falling numerals, those with rings also in the
/// order made or its reverse, with random labels as numerals and ties in the order.
pub fn rows(random: &mut Random, shape: Shape, size: usize) -> Vec<Row> {
    let last = size as u32;
    let mut edges: Vec<(u32, u32)> = Vec::new();
    match shape {
        Shape::Tree => tree(random, 1, last, &mut edges),
        Shape::Chain => {
            let length = (last - last / 4).max(1);
            for numeral in 1..=length {
                edges.push((numeral - 1, numeral));
            }
            for numeral in length + 1..=last {
                edges.push((random.between(0, length as usize) as u32, numeral));
            }
            if random.chance(1, 2) {
                // The end leads back, to the root's numeral as well.
                let place = random.below(size);
                edges[place].0 = length;
            }
        }
        Shape::Wide => {
            let levels = random.between(1, 3) as u32;
            for number in 0..last {
                let level = 1 + number % levels;
                edges.push((level - 1, level));
            }
        }
        Shape::Cyclic => {
            if random.chance(1, 3) {
                for numeral in 1..=last {
                    edges.push((random.between(0, size) as u32, numeral));
                }
            } else {
                let extra = random.between(1, 3).min(last as usize / 2);
                tree(random, 1, last - extra as u32, &mut edges);
                back_edges(random, extra, &mut edges);
            }
        }
        Shape::Rings => edges = rings(random, 1, size),
        Shape::Islands => islands(random, size, &mut edges),
        Shape::Orphans => {
            // A tree, and behind it trees whose roots miss their parents.
            let own = random.between(1, size) as u32;
            tree(random, 1, own, &mut edges);
            let mut lost = Vec::new();
            if own < last {
                let extra = random.below(3).min((last - own) as usize / 2);
                lost_tree(random, own + 1, last - extra as u32, &mut lost);
                back_edges(random, extra, &mut lost);
            }
            edges.extend(lost);
            if random.chance(1, 3) {
                // A top orphan that shares a numeral, the first root's mostly.
                let place = random.below(edges.len());
                let numeral = if random.chance(2, 3) { 1 } else { random.between(1, size) as u32 };
                edges[place] = (MISSING, numeral);
            }
        }
        Shape::Duplicates => {
            let distinct = (last - last / 5).max(1);
            tree(random, 1, distinct, &mut edges);
            while edges.len() < size {
                let edge = random.pick(&edges);
                edges.push(edge);
            }
        }
        Shape::Diamonds => {
            let width = random.between(2, 3) as u32;
            for number in 0..last {
                edges.push((number / width, number / width + 1));
            }
        }
        Shape::Noise => {
            let range = random.between(1, size.min(12));
            for _ in 0..size {
                edges.push((random.between(0, range) as u32, random.between(1, range) as u32));
            }
        }
        Shape::Ties => tied(random, size, &mut edges),
    }
    let rings = shape == Shape::Rings || shape == Shape::Islands;
    match random.below(6) {
        // Tails, and rows between rings, behind all rings before them.
        0 if rings => {}
        // The other way round.
        1 if rings => edges.reverse(),
        _ => random.shuffle(&mut edges),
    }
    let orders: &[usize] = match shape {
        Shape::Ties => &[1, 2],
        Shape::Rings | Shape::Islands => &[1, 1, 3, 1_000],
        _ => &[1, 3, 1_000],
    };
    rows_of(random, orders, edges)
}

/// Rows of the edges, mostly with orders below one of the numbers. Labels are the
/// numbers themselves, or far apart up to the widest word. In every other case the rows
/// have days, which only dated builds read.
pub(crate) fn rows_of(random: &mut Random, orders: &[usize], edges: Vec<(u32, u32)>) -> Vec<Row> {
    let far = random.chance(1, 2);
    let label = |number: u32| match number {
        0 => 0,
        number if far => u32::MAX - (number - 1) * 97,
        number => number,
    };
    let orders = random.pick(orders);
    let dated = random.beside().chance(1, 2);
    // Where all minutes are the same, rows of one parent, numeral and order are equal in all fields.
    let same_minutes = random.chance(1, 4).then(|| random.minutes());
    let mut rows: Vec<Row> = edges
        .into_iter()
        .map(|(parent, numeral)| {
            let order =
                if random.chance(1, 20) { random.word() } else { random.below(orders) as u32 };
            let minutes = same_minutes.unwrap_or_else(|| random.minutes());
            let row = Row::undated(label(parent), label(numeral), order, minutes);
            if dated {
                random.with_days(row)
            } else {
                row
            }
        })
        .collect();
    if random.chance(1, 8) {
        // Row numbers speak against the numerals in every tie.
        rows.sort_by_key(|row| Reverse(row.numeral));
    }
    rows
}

/// A row count: few mostly, sometimes many, up to 1,024.
pub fn size(random: &mut Random) -> usize {
    match random.below(20) {
        0 => random.between(200, MAX_ROWS),
        1 => MAX_ROWS,
        2..=5 => random.between(20, 120),
        _ => random.between(1, 20),
    }
}

/// An option code: 0 to 23 mostly, those that allow all shapes more often;
/// sometimes above.
pub fn code(random: &mut Random) -> u32 {
    match random.below(40) {
        0 => random.pick(&[24, 25, 36, 1 << 16, u32::MAX]),
        1 => random.draw() as u32,
        2..=20 => random.pick(&[0, 1, 2, 2, 3, 3]),
        _ => random.below(24) as u32,
    }
}

/// A code and a depth. With a depth, orphans are mostly ignored, as else the
/// build is refused.
pub fn options(random: &mut Random) -> (u32, Option<i32>) {
    let (code, depth) = (code(random), depth(random));
    if depth.is_some() && random.chance(7, 8) {
        return (code - code % 4, depth);
    }
    (code, depth)
}

/// A depth: none mostly; small, negative, at an extreme, or any.
pub fn depth(random: &mut Random) -> Option<i32> {
    match random.below(20) {
        0 => Some(random.pick(&[i32::MIN, i32::MIN + 1, -1, i32::MAX - 1, i32::MAX])),
        1 => Some(random.draw() as i32),
        2..=4 => Some(random.below(6) as i32),
        _ => None,
    }
}

/// A start rule: none for parent 0, else a list, with doubles, foreign numerals
/// and 0 among it; sometimes empty, sometimes every numeral.
pub fn start(random: &mut Random, rows: &[Row]) -> Option<Vec<u32>> {
    match random.below(16) {
        0..=8 => None,
        9 => Some(Vec::new()),
        10 if rows.len() <= 12 => Some(rows.iter().map(|row| row.numeral).collect()),
        _ => {
            let mut list = Vec::new();
            for _ in 0..random.between(1, 4) {
                list.push(match random.below(6) {
                    0 => 0,
                    1 => random.word(),
                    _ if rows.is_empty() => 1,
                    _ => random.pick(rows).numeral,
                });
            }
            if random.chance(1, 2) {
                let double = random.pick(&list);
                list.push(double);
            }
            Some(list)
        }
    }
}

/// A build with its slices, filled with noise beforehand.
#[derive(Clone, Debug)]
pub struct BuildCase {
    pub rows: Vec<Row>,
    pub code: u32,
    pub depth: Option<i32>,
    /// None for parent 0.
    pub start: Option<Vec<u32>>,
    pub index: Vec<u32>,
    pub totals: Vec<i64>,
}

impl BuildCase {
    /// The start rule.
    pub fn start(&self) -> Start<'_> {
        start_of(&self.start)
    }
}

/// The start rule of an optional list.
pub fn start_of(list: &Option<Vec<u32>>) -> Start<'_> {
    match list {
        None => Start::ParentZero,
        Some(list) => Start::Numerals(list),
    }
}

/// What becomes of orphans by a code; they are ignored where refusal 6 or 7 comes first.
pub fn orphan_choice(code: u32, depth: Option<i32>) -> u32 {
    match Options::read(code) {
        Some(options) if depth.is_none() => options.orphan,
        _ => 0,
    }
}

/// The number of nodes, or none when more than `most`.
pub fn node_count(
    rows: &[Row],
    code: u32,
    depth: Option<i32>,
    start: Start,
    most: usize,
) -> Option<usize> {
    match forest(rows, orphan_choice(code, depth), depth, start, &|n| n <= most) {
        Ok(forest) => Some(forest.nodes.len()),
        Err(8) => Some(0),
        Err(_) => None,
    }
}

/// Slice lengths for `n` nodes: mostly enough; too short by one, far too short,
/// exact and longer.
pub fn slice_lengths(random: &mut Random, n: usize) -> (usize, usize) {
    let words = CONTENTS + BODY * n;
    let index = match random.below(40) {
        0 => words - 1,
        1 => random.below(words),
        2 => random.below(CONTENTS + 1),
        3..=20 => words,
        21..=30 => words + random.between(1, 7),
        _ => words + random.below(200),
    };
    let totals = match random.below(40) {
        0 => n,
        1 => random.below(n + 1),
        2 => 0,
        3..=25 => n + 1,
        _ => n + 1 + random.between(1, 60),
    };
    (index, totals)
}

/// A random build of random rows.
pub fn build_case(random: &mut Random) -> BuildCase {
    let shape = random.pick(&SHAPES);
    let size = size(random);
    let rows = if random.chance(1, 60) { Vec::new() } else { rows(random, shape, size) };
    build_case_of(random, rows)
}

/// A random build of rows with rings.
pub fn island_case(random: &mut Random) -> BuildCase {
    let shape = random.pick(&[Shape::Rings, Shape::Islands]);
    let size = size(random);
    let rows = rows(random, shape, size);
    island_case_of(random, rows)
}

/// A random build of the rows without a depth, under adopt or root mostly.
pub fn island_case_of(random: &mut Random, rows: Vec<Row>) -> BuildCase {
    let code = match random.below(8) {
        0 => random.below(24) as u32,
        1 => random.pick(&[6, 7, 10, 11, 14, 15, 18, 19, 22, 23]),
        2..=4 => 2,
        _ => 3,
    };
    let start = start(random, &rows);
    with_slices(random, rows, (code, None), start)
}

/// A random build of the rows.
pub fn build_case_of(random: &mut Random, rows: Vec<Row>) -> BuildCase {
    let options = options(random);
    let start = start(random, &rows);
    with_slices(random, rows, options, start)
}

/// A random build by default of random rows.
pub fn default_case(random: &mut Random) -> BuildCase {
    let shape = random.pick(&SHAPES);
    let size = size(random);
    let rows = rows(random, shape, size);
    default_case_of(random, rows)
}

/// A random build of the rows by default: code 3, no depth, parent 0.
pub fn default_case_of(random: &mut Random, rows: Vec<Row>) -> BuildCase {
    with_slices(random, rows, (3, None), None)
}

/// The build with random slices. Those of more than 3,000 nodes get slices that
/// are too short; `builds::large_case` makes the ones at the node limit.
fn with_slices(
    random: &mut Random,
    rows: Vec<Row>,
    (code, depth): (u32, Option<i32>),
    start: Option<Vec<u32>>,
) -> BuildCase {
    let n = node_count(&rows, code, depth, start_of(&start), 3_000);
    let (index, totals) = match n {
        Some(n) => slice_lengths(random, n),
        None => {
            let n = random.below(3_000);
            slice_lengths(random, n)
        }
    };
    let (index, totals) = (random.noise(index), random.wide_noise(totals));
    BuildCase { rows, code, depth, start, index, totals }
}

/// A build of `nodes` nodes, near the limit of 65,535: `a` start rows of one
/// numeral and `b` rows below it give a × (b + 1) nodes; single rows, all of them
/// start rows or all orphans made nodes, fill up. Slices hold 65,536 nodes.
pub fn large_case(random: &mut Random, nodes: usize) -> BuildCase {
    let a = random.between(150, 300);
    let b = 65_500 / a - 1;
    let mut rows = Vec::new();
    for _ in 0..a {
        rows.push(Row::undated(0, 1, random.below(9) as u32, random.minutes()));
    }
    for _ in 0..b {
        rows.push(Row::undated(1, 2, random.below(9) as u32, random.minutes()));
    }
    let code = random.pick(&[0, 1, 2, 3, 12, 14, 15]);
    let orphans = code % 4 >= 2 && random.chance(2, 3);
    let parent = if orphans { 7 } else { 0 };
    while a * (b + 1) + (rows.len() - a - b) < nodes {
        let numeral = 100_000 + rows.len() as u32;
        rows.push(Row::undated(parent, numeral, random.below(9) as u32, random.minutes()));
    }
    random.shuffle(&mut rows);
    let index = random.noise(CONTENTS + BODY * 65_536);
    let totals = random.wide_noise(65_537);
    BuildCase { rows, code, depth: None, start: None, index, totals }
}

/// A build of `nodes` nodes, near the limit of 65,535, almost all of them below
/// entries: a ring of two numerals, `a` rows of one and a single row of the other,
/// with `b` rows below the one, gives 1 + a × (b + 2) nodes; rings of one row, an
/// orphan and a start row fill up. Slices hold 65,536 nodes.
pub fn large_island_case(random: &mut Random, nodes: usize) -> BuildCase {
    let a = random.between(150, 300);
    let b = 65_400 / a - 2;
    let mut edges = vec![(2, 1), (0, 4)];
    edges.resize(edges.len() + a, (1, 2));
    edges.resize(edges.len() + b, (2, 3));
    let rest = nodes - (1 + a * (b + 2)) - 1;
    if rest % 2 == 1 {
        edges.push((MISSING, 5));
    }
    edges.extend((0..rest as u32 / 2).map(|number| (100_000 + number, 100_000 + number)));
    random.shuffle(&mut edges);
    // The ring's entry has the numeral of the single row.
    let place = |edge| edges.iter().position(|other| *other == edge).expect("an edge of the ring");
    let (single, first) = (place((2, 1)), place((1, 2)));
    edges.swap(single, single.min(first));
    let rows = edges
        .into_iter()
        .map(|(parent, numeral)| {
            Row::undated(parent, numeral, random.below(9) as u32, random.minutes())
        })
        .collect();
    let code = random.pick(&[2, 3]);
    let index = random.noise(CONTENTS + BODY * 65_536);
    let totals = random.wide_noise(65_537);
    BuildCase { rows, code, depth: None, start: None, index, totals }
}
