//! Boards for shortest placements, slices for their builds, and what the builds of a test come to.

use crate::builds::{
    node_count, rows, rows_of, size, slice_lengths, start, start_of, Shape, SHAPES,
};
use crate::random::Random;
use reference::forest::sibling_order;
use reference::shortest::LISTED;
use reference::{Body, Row, Start, BODY, CONTENTS, MAX_ROWS};
use std::cmp::Ordering;
use std::collections::{HashMap, HashSet};

/// What the rows of a board are.
#[derive(Clone, Copy, Debug, PartialEq, Eq)]
pub enum Net {
    /// Levels of few numerals, each row below any numeral of the level above: several paths of
    /// one length to a numeral.
    Levels,
    /// The same, with rows that leave levels out, lead back, or begin at a deeper level: shorter
    /// paths anywhere in path order, and start rows that hang below others.
    Shortcuts,
    /// A long chain, and rows by which parts of it are left out.
    Detours,
    /// A few start rows, and rows between any two of few numerals: exponentially many paths.
    Dense,
    /// Levels in which every numeral is below each of the level above.
    Ladder,
    /// Several rows of a few start numerals, which also hang below others.
    Starts,
    /// Every numeral once: nothing to choose.
    Tree,
    /// A shape of the plain builds: orphans, islands, noise.
    Plain,
}

/// All kinds of rows.
pub const NETS: [Net; 8] = [
    Net::Levels,
    Net::Shortcuts,
    Net::Detours,
    Net::Dense,
    Net::Ladder,
    Net::Starts,
    Net::Tree,
    Net::Plain,
];

/// A numeral of a level, counted from 0, of `width` numerals each.
fn on_level(random: &mut Random, level: usize, width: usize) -> u32 {
    (level * width + random.between(1, width)) as u32
}

/// `size` edges over levels of few numerals. With `shortcuts`, a quarter of them go from any level,
/// or from none, to any other.
fn levels(random: &mut Random, size: usize, shortcuts: bool) -> Vec<(u32, u32)> {
    let width = random.between(1, 4);
    let count = random.between(2, (size / width).clamp(2, 40));
    let mut edges = Vec::new();
    for number in 0..size {
        // The first rows make all levels, so that most can be reached.
        let level = if number < count { number } else { random.below(count) };
        let below = on_level(random, level, width);
        let above = match level {
            0 => 0,
            _ if shortcuts && random.chance(1, 16) => 0,
            _ if shortcuts && random.chance(1, 4) => {
                let other = random.below(count);
                on_level(random, other, width)
            }
            _ => on_level(random, level - 1, width),
        };
        edges.push((above, below));
    }
    edges
}

/// `size` edges: a chain from 1, and a third of them from a numeral of it to one further down, back
/// or anywhere.
fn detours(random: &mut Random, size: usize) -> Vec<(u32, u32)> {
    let length = (size - size / 3).max(1);
    let mut edges: Vec<(u32, u32)> =
        (1..=length).map(|number| (number as u32 - 1, number as u32)).collect();
    while edges.len() < size {
        let (one, other) = (random.between(1, length) as u32, random.between(1, length) as u32);
        let near = (one + random.between(1, 3) as u32).min(length as u32);
        edges.push(match random.below(4) {
            0 => (one, near),
            1 => (one.max(other), one.min(other)),
            _ => (one.min(other), one.max(other)),
        });
    }
    edges
}

/// `size` edges between any two of few numerals, one to three of them from none.
fn dense(random: &mut Random, size: usize) -> Vec<(u32, u32)> {
    let range = random.between(1, (size / 3).clamp(1, 60));
    let starts = random.between(1, 3);
    let mut edges = Vec::new();
    for number in 0..size {
        let above = if number < starts { 0 } else { random.between(1, range) };
        edges.push((above as u32, random.between(1, range) as u32));
    }
    edges
}

/// At most `size` edges, and one at least: levels of `width` numerals, each below all of the level
/// above.
fn ladder(random: &mut Random, size: usize) -> Vec<(u32, u32)> {
    let width = random.between(2, 4) as u32;
    let mut edges: Vec<(u32, u32)> = (1..=width).map(|numeral| (0, numeral)).collect();
    let mut first = 1;
    while edges.len() + (width * width) as usize <= size {
        for above in first..first + width {
            edges.extend((first + width..first + 2 * width).map(|below| (above, below)));
        }
        first += width;
    }
    edges.truncate(size.max(1));
    edges
}

/// `size` edges: a third of them from none to few numerals, the others between those and as many more.
fn starts(random: &mut Random, size: usize) -> Vec<(u32, u32)> {
    let few = random.between(1, (size / 4).clamp(1, 5));
    let mut edges = Vec::new();
    for number in 0..size {
        edges.push(match number % 3 {
            0 => (0, random.between(1, few) as u32),
            _ => (random.between(1, 2 * few) as u32, random.between(1, 2 * few) as u32),
        });
    }
    edges
}

/// Rows of a kind; at most `size` of them, where `size` is 1 to 1,024, in random order mostly.
pub fn net(random: &mut Random, net: Net, size: usize) -> Vec<Row> {
    let mut edges = match net {
        Net::Levels => levels(random, size, false),
        Net::Shortcuts => levels(random, size, true),
        Net::Detours => detours(random, size),
        Net::Dense => dense(random, size),
        Net::Ladder => ladder(random, size),
        Net::Starts => starts(random, size),
        Net::Tree => return rows(random, Shape::Tree, size),
        Net::Plain => {
            let shape = random.pick(&SHAPES);
            return rows(random, shape, size);
        }
    };
    if random.chance(5, 6) {
        random.shuffle(&mut edges);
    }
    rows_of(random, &[1, 2, 3, 1_000], edges)
}

/// Arguments of one build of a shortest placement; slices are filled with noise beforehand.
#[derive(Clone, Debug)]
pub struct ShortestCase {
    pub rows: Vec<Row>,
    /// None for parent 0.
    pub start: Option<Vec<u32>>,
    pub index: Vec<u32>,
    pub totals: Vec<i64>,
}

impl ShortestCase {
    /// The start rule.
    pub fn start(&self) -> Start<'_> {
        start_of(&self.start)
    }
}

/// The number of different numerals that paths from start rows reach.
pub fn reached(rows: &[Row], start: Start) -> usize {
    let mut below: HashMap<u32, Vec<u32>> = HashMap::new();
    for row in rows {
        below.entry(row.parent).or_default().push(row.numeral);
    }
    let mut waiting: Vec<u32> =
        rows.iter().filter(|row| start.takes(row)).map(|row| row.numeral).collect();
    let mut met = HashSet::new();
    while let Some(numeral) = waiting.pop() {
        if met.insert(numeral) {
            waiting.extend(below.get(&numeral).into_iter().flatten());
        }
    }
    met.len()
}

/// A random build of random rows.
pub fn shortest_case(random: &mut Random) -> ShortestCase {
    let kind = random.pick(&NETS);
    let size = size(random);
    let rows = if random.chance(1, 60) { Vec::new() } else { net(random, kind, size) };
    shortest_case_of(random, rows)
}

/// A random build of the rows.
pub fn shortest_case_of(random: &mut Random, rows: Vec<Row>) -> ShortestCase {
    let start = start(random, &rows);
    let n = reached(&rows, start_of(&start));
    let (index, totals) = slice_lengths(random, n);
    let (index, totals) = (random.noise(index), random.wide_noise(totals));
    ShortestCase { rows, start, index, totals }
}

/// A build of 1,024 rows of a kind, or hardly fewer, in slices that hold it; it starts from rows with
/// parent 0 mostly.
pub fn full_case(random: &mut Random, kind: Net) -> ShortestCase {
    let rows = net(random, kind, MAX_ROWS);
    let start = if random.chance(1, 2) { start(random, &rows) } else { None };
    let n = reached(&rows, start_of(&start));
    let beyond = random.below(9);
    let index = random.noise(CONTENTS + BODY * n + beyond);
    let totals = random.wide_noise(n + 1 + beyond);
    ShortestCase { rows, start, index, totals }
}

/// The placed numerals of a built index: the body of each, its path as row numbers, and those on it.
struct Placed {
    bodies: HashMap<u32, Body>,
    paths: HashMap<u32, Vec<usize>>,
}

impl Placed {
    fn read(index: &[u32]) -> Placed {
        let mut placed = Placed { bodies: HashMap::new(), paths: HashMap::new() };
        let mut paths: Vec<Vec<usize>> = vec![Vec::new()];
        for rank in 1..=index[0] as usize {
            let body = Body::read(index, rank);
            let mut path = paths[body.parent as usize].clone();
            path.push(body.row as usize);
            placed.bodies.insert(body.numeral, body);
            placed.paths.insert(body.numeral, path.clone());
            paths.push(path);
        }
        placed
    }
}

/// A row whose numeral stands by another row.
struct Loser<'a> {
    /// Its number.
    number: usize,
    row: Row,
    starts: bool,
    /// The kept path to its numeral.
    kept: &'a [usize],
    /// The kept path to its parent with it at the end, where there is one.
    own: Option<Vec<usize>>,
}

impl Loser<'_> {
    fn length(&self) -> Option<usize> {
        self.own.as_ref().map(Vec::len)
    }

    /// Whether its own path is as short as the kept one, or it is a start row as the kept one is.
    fn as_close(&self) -> bool {
        self.length() == Some(self.kept.len()) || (self.starts && self.kept.len() == 1)
    }

    fn kept_row(&self) -> usize {
        self.kept[self.kept.len() - 1]
    }

    /// Whether its numeral is on its own path before it.
    fn closes(&self) -> bool {
        self.own.as_ref().is_some_and(|own| own[..own.len() - 1].contains(&self.kept_row()))
    }
}

/// Order of two paths: the first differing row decides, a path comes before its extensions.
fn path_order(rows: &[Row], one: &[usize], other: &[usize]) -> Ordering {
    let differing = one.iter().zip(other).find(|(a, b)| a != b);
    differing.map_or(one.len().cmp(&other.len()), |(a, b)| sibling_order(rows, *a, *b))
}

/// The rows that end no node although their numeral is placed.
fn losers<'a>(case: &ShortestCase, placed: &'a Placed) -> Vec<Loser<'a>> {
    let mut found = Vec::new();
    for (place, row) in case.rows.iter().enumerate() {
        let Some(kept) = placed.paths.get(&row.numeral) else { continue };
        let number = place + 1;
        if kept[kept.len() - 1] == number {
            continue;
        }
        let own = placed.paths.get(&row.parent).map(|above| [above, &[number][..]].concat());
        let starts = case.start().takes(row);
        found.push(Loser { number, row: *row, starts, kept, own });
    }
    found
}

/// What a shortest placement comes to whose build is accepted, by name.
pub const FACTS: [&str; 24] = [
    "rows as close below one parent",
    "rows as close below two parents",
    "two parents, and sibling order of the rows speaks against",
    "two parents, and row numbers speak against",
    "several start rows of one numeral",
    "longer path first in path order",
    "kept row not the first of its numeral",
    "start row that hangs below a placed numeral",
    "start numeral that another row has below a placed one",
    "ring",
    "row below its own numeral",
    "row that no path reaches, of a placed numeral",
    "numeral that no path reaches",
    "every row ends a node",
    "no node of some rows",
    "no rows",
    "several roots",
    "1,024 rows",
    "1,024 nodes",
    "level above 100",
    "more paths than the reference lists",
    "start list that names a numeral twice",
    "start list with a numeral that no row has",
    "empty start list",
];

/// Which of [`FACTS`] the build of the case has, which was accepted and left the index.
pub fn facts(case: &ShortestCase, index: &[u32]) -> [bool; FACTS.len()] {
    let (rows, start) = (&case.rows[..], case.start());
    let placed = Placed::read(index);
    let losers = losers(case, &placed);
    let any = |test: &dyn Fn(&Loser) -> bool| losers.iter().any(test);
    let body = |test: &dyn Fn(&Body) -> bool| placed.bodies.values().any(test);
    let beside = |loser: &Loser| {
        let parent = rows[loser.kept_row() - 1].parent;
        loser.kept.len() > 1 && loser.as_close() && parent == loser.row.parent
    };
    let apart = |loser: &Loser| loser.kept.len() > 1 && loser.as_close() && !beside(loser);
    let earlier =
        |loser: &Loser| sibling_order(rows, loser.number, loser.kept_row()) == Ordering::Less;
    let longer_first = |loser: &Loser| {
        let own = loser.own.as_deref().unwrap_or(&[]);
        own.len() > loser.kept.len()
            && !loser.closes()
            && path_order(rows, own, loser.kept) == Ordering::Less
    };
    let list = case.start.as_deref().unwrap_or(&[]);
    let numerals: HashSet<u32> = rows.iter().map(|row| row.numeral).collect();
    let n = index[0] as usize;
    [
        any(&beside),
        any(&apart),
        any(&|loser| apart(loser) && earlier(loser)),
        any(&|loser| apart(loser) && loser.number < loser.kept_row()),
        any(&|loser| loser.starts),
        any(&longer_first),
        any(&earlier),
        body(&|body| {
            body.level == 1 && placed.bodies.contains_key(&rows[body.row as usize - 1].parent)
        }),
        any(&|loser| loser.kept.len() == 1 && !loser.starts && loser.own.is_some()),
        any(&|loser| loser.closes()),
        any(&|loser| loser.row.parent == loser.row.numeral),
        any(&|loser| loser.own.is_none() && !loser.starts),
        rows.iter().any(|row| !placed.bodies.contains_key(&row.numeral)),
        !rows.is_empty() && n == rows.len(),
        !rows.is_empty() && n == 0,
        rows.is_empty(),
        n > 0 && Body::read(index, n).root > 1,
        rows.len() == MAX_ROWS,
        n == MAX_ROWS,
        body(&|body| body.level > 100),
        node_count(rows, 0, None, start, LISTED).is_none(),
        list.iter().collect::<HashSet<_>>().len() < list.len(),
        list.iter().any(|numeral| !numerals.contains(numeral)),
        case.start.as_ref().is_some_and(Vec::is_empty),
    ]
}

/// Why builds of shortest placements are refused by 9, by name.
pub const REFUSALS: [&str; 6] = [
    "9, index a word short",
    "9, index alone too short",
    "9, totals one short",
    "9, totals alone too short",
    "9, index under 8 words",
    "9, no totals",
];

/// Which of [`REFUSALS`] the case has, whose build was refused.
pub fn refusals(case: &ShortestCase, refused: u32) -> [bool; REFUSALS.len()] {
    let n = reached(&case.rows, case.start());
    let (words, totals) = (case.index.len(), case.totals.len());
    let (short_index, short_totals) = (words < CONTENTS + BODY * n, totals < n + 1);
    [
        words + 1 == CONTENTS + BODY * n,
        short_index && !short_totals,
        totals == n,
        short_totals && !short_index,
        words < CONTENTS,
        totals == 0,
    ]
    .map(|fact| fact && refused == 9)
}
