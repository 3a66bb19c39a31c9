//! Paths, nodes, their order and the build of the index image.

use crate::board::{Board, Row};
use crate::{BODY, CONTENTS, MAX_NODES};
use std::cmp::Ordering;
use std::collections::{HashMap, HashSet};

/// The start rule.
#[derive(Clone, Copy, Debug, PartialEq, Eq)]
pub enum Start<'a> {
    /// Rows with parent 0.
    ParentZero,
    /// Rows whose numeral is in the list.
    Numerals(&'a [u32]),
}

impl Start<'_> {
    /// Whether the row is a start row.
    pub fn takes(&self, row: &Row) -> bool {
        match self {
            Start::ParentZero => row.parent == 0,
            Start::Numerals(list) => list.contains(&row.numeral),
        }
    }
}

/// The three choices of an option code.
#[derive(Clone, Copy, Debug, PartialEq, Eq)]
pub struct Options {
    /// 0 ignore, 1 error, 2 adopt, 3 root.
    pub orphan: u32,
    /// 0 allow, 1 leaves, 2 error.
    pub multi: u32,
    /// 0 break up, 1 error.
    pub cycle: u32,
}

pub const IGNORE: u32 = 0;
pub const ERROR: u32 = 1;
pub const ADOPT: u32 = 2;
pub const ROOT: u32 = 3;

impl Options {
    /// All choices: four of orphan, three of multi, two of cycle.
    fn all() -> impl Iterator<Item = Options> {
        (0..=3).flat_map(|orphan| {
            (0..=2)
                .flat_map(move |multi| (0..=1).map(move |cycle| Options { orphan, multi, cycle }))
        })
    }

    /// "Option code = orphan + 4 × multi + 12 × cycle."
    fn code(self) -> u32 {
        self.orphan + 4 * self.multi + 12 * self.cycle
    }

    /// The choices that have the code, found by trying all; none above 23.
    pub fn read(code: u32) -> Option<Options> {
        Options::all().find(|options| options.code() == code)
    }
}

/// The entry node made for an island, which stands in a path with row number 0.
#[derive(Clone, Copy, Debug, PartialEq, Eq, Hash)]
pub struct IslandEntry {
    /// Its place in the order made, from 1.
    pub made: usize,
    pub numeral: u32,
}

/// A node: a path, as row numbers counted from 1, and 0 at the place of an entry.
#[derive(Clone, Debug, PartialEq, Eq)]
pub struct Node {
    pub rows: Vec<usize>,
    /// The entry that stands in the path; none for regular paths and from a top orphan.
    pub entry: Option<IslandEntry>,
    pub orphan: bool,
    pub closing: bool,
}

/// The nodes over a row list in preorder, and the rows set apart on the way.
#[derive(Clone, Debug, PartialEq, Eq)]
pub struct Forest {
    pub nodes: Vec<Node>,
    /// Start rows, in sibling order.
    pub start_rows: Vec<usize>,
    /// U: rows that end no regular path, by row number.
    pub unreached: Vec<usize>,
    /// Rows of U whose parent is 0 or no row's numeral, in sibling order.
    pub top_orphans: Vec<usize>,
}

/// A body of the index image, unpacked.
#[derive(Clone, Copy, Debug, PartialEq, Eq)]
pub struct Body {
    pub numeral: u32,
    pub row: u32,
    pub size: u32,
    pub parent: u32,
    pub root: u32,
    pub level: u32,
    pub closing: bool,
    pub orphan: bool,
}

/// What a build gives.
#[derive(Clone, Copy, Debug, PartialEq, Eq)]
pub struct Built {
    /// 0 for none.
    pub refusal: u32,
    /// Node count n.
    pub nodes: u32,
    /// Rows that end no node; of a levelled list the lines wholly blank.
    pub left: u32,
}

impl Body {
    /// The six words of a body.
    pub fn words(&self) -> [u32; BODY] {
        let mut last = self.level;
        if self.closing {
            last += 1 << 30;
        }
        if self.orphan {
            last += 1 << 31;
        }
        [self.numeral, self.row, self.size, self.parent, self.root, last]
    }

    /// Unpacks the body of `rank` (from 1); the index must hold it.
    pub fn read(index: &[u32], rank: usize) -> Body {
        let at = CONTENTS + BODY * (rank - 1);
        let last = index[at + 5];
        Body {
            numeral: index[at],
            row: index[at + 1],
            size: index[at + 2],
            parent: index[at + 3],
            root: index[at + 4],
            level: last % (1 << 16),
            closing: last / (1 << 30) % 2 == 1,
            orphan: last / (1 << 31) == 1,
        }
    }
}

/// Sibling order of two row numbers: order, then numeral, then row number, the smaller first.
pub fn sibling_order(rows: &[Row], a: usize, b: usize) -> Ordering {
    let (one, other) = (rows[a - 1], rows[b - 1]);
    one.order.cmp(&other.order).then(one.numeral.cmp(&other.numeral)).then(a.cmp(&b))
}

/// Order of nodes: regular before orphan; "entry nodes come after all other orphans in the order
/// made", each with everything below it; a path before its extensions; else the first differing row
/// decides by sibling order.
pub fn node_order(rows: &[Row], a: &Node, b: &Node) -> Ordering {
    if a.orphan != b.orphan {
        return a.orphan.cmp(&b.orphan);
    }
    let made = |node: &Node| node.entry.map_or(0, |entry| entry.made);
    if made(a) != made(b) {
        return made(a).cmp(&made(b));
    }
    for (&x, &y) in a.rows.iter().zip(&b.rows) {
        if x != y {
            return sibling_order(rows, x, y);
        }
    }
    a.rows.len().cmp(&b.rows.len())
}

/// The numeral of a row number in a path; row number 0 is the path's entry.
fn numeral_at(rows: &[Row], entry: Option<IslandEntry>, k: usize) -> u32 {
    match k {
        0 => entry.expect("row number 0 stands for an entry").numeral,
        _ => rows[k - 1].numeral,
    }
}

/// Whether a path of `length` rows is allowed by the depth.
pub(crate) fn within_depth(length: usize, depth: Option<i32>) -> bool {
    match depth {
        None => true,
        Some(d) => d >= 0 && length as i64 <= d as i64 + 1,
    }
}

/// Lists a path and its extensions by recursion; stops once they don't fit.
struct Lister<'a> {
    rows: &'a [Row],
    /// Rows a path may take, by place.
    allowed: Vec<bool>,
    depth: Option<i32>,
    orphan: bool,
    /// Rows in front that don't count when closing is judged.
    front: Vec<usize>,
    /// The entry that row number 0 stands for.
    entry: Option<IslandEntry>,
    fits: &'a dyn Fn(usize) -> bool,
    found: Vec<Node>,
}

impl Lister<'_> {
    fn numeral(&self, k: usize) -> u32 {
        numeral_at(self.rows, self.entry, k)
    }

    /// Whether the last numeral of `path` equals one earlier. An entry's numeral counts.
    fn closes(&self, path: &[usize]) -> bool {
        let counted = &path[self.front.len()..];
        let (last, earlier) = counted.split_last().expect("a path has rows behind the front");
        earlier.iter().any(|&k| self.numeral(k) == self.numeral(*last))
    }

    /// Lists the path of the front and row number `k`, and its extensions.
    fn list_from(&mut self, k: usize) -> bool {
        let mut path = self.front.clone();
        path.push(k);
        self.list(&mut path)
    }

    /// Gives false once the nodes found don't fit.
    fn list(&mut self, path: &mut Vec<usize>) -> bool {
        if !within_depth(path.len(), self.depth) {
            return true;
        }
        let closing = self.closes(path);
        self.found.push(Node {
            rows: path.clone(),
            entry: self.entry,
            orphan: self.orphan,
            closing,
        });
        if !(self.fits)(self.found.len()) {
            return false;
        }
        if closing {
            return true;
        }
        let numeral = self.numeral(path[path.len() - 1]);
        for k in 1..=self.rows.len() {
            if self.allowed[k - 1] && self.rows[k - 1].parent == numeral {
                path.push(k);
                let going_on = self.list(path);
                path.pop();
                if !going_on {
                    return false;
                }
            }
        }
        true
    }

    /// Lists the orphan paths, from the top orphans and then from entries; `unreached` is U by place.
    /// Refusals 8 and 9. Without a start row under adopt there are no paths before refusal 8.
    fn list_orphans(
        &mut self,
        top_orphans: &[usize],
        unreached: Vec<bool>,
        nobody_adopts: bool,
    ) -> Result<(), u32> {
        if nobody_adopts && !top_orphans.is_empty() {
            return Err(8);
        }
        self.orphan = true;
        self.allowed = unreached.clone();
        for &k in top_orphans {
            if !self.list_from(k) {
                return Err(9);
            }
        }

        // I: the rows of U that end no orphan path.
        let mut island = unreached;
        take_out(&mut island, &self.found);
        if nobody_adopts && island.contains(&true) {
            return Err(8);
        }
        if !self.list_islands(island) {
            return Err(9);
        }
        Ok(())
    }

    /// Lists the paths from entries, `island` being I by place. For each entry "the row of I with the
    /// lowest row number" is taken whose numeral lies on a ring of rows of I; the row itself needn't
    /// be one of the ring's. Rows are looked at once, in number order: I only loses rows, so that a
    /// row passed over is never taken at a later step, and one taken has its numeral on no ring then.
    fn list_islands(&mut self, mut island: Vec<bool>) -> bool {
        let mut below: HashMap<u32, Vec<usize>> = HashMap::new();
        for (place, row) in self.rows.iter().enumerate() {
            below.entry(row.parent).or_default().push(place + 1);
        }
        let mut made = 0;
        for k in 1..=self.rows.len() {
            let numeral = self.rows[k - 1].numeral;
            if !island[k - 1] || !reaches_itself(self.rows, &below, &island, numeral) {
                continue;
            }
            made += 1;
            self.entry = Some(IslandEntry { made, numeral });
            // "Paths go on from it by the rows still in I at that step."
            self.allowed = island.clone();
            let before = self.found.len();
            if !self.list_from(0) {
                return false;
            }
            take_out(&mut island, &self.found[before..]);
        }
        assert!(!island.contains(&true), "the step repeats until I is empty");
        true
    }
}

/// Takes the last rows of `nodes` out of a set of rows, held by place. An entry is no row of it.
fn take_out(set: &mut [bool], nodes: &[Node]) {
    for node in nodes {
        let last = node.rows[node.rows.len() - 1];
        if last != 0 {
            set[last - 1] = false;
        }
    }
}

/// Whether `numeral` "can be reached from itself by rows of I": it lies on a ring of one row or more.
/// `below` has the row numbers under each numeral, and `island` is I by place.
fn reaches_itself(
    rows: &[Row],
    below: &HashMap<u32, Vec<usize>>,
    island: &[bool],
    numeral: u32,
) -> bool {
    let mut reached: HashSet<u32> = HashSet::new();
    let mut waiting = vec![numeral];
    while let Some(at) = waiting.pop() {
        for &k in below.get(&at).into_iter().flatten().filter(|&&k| island[k - 1]) {
            let next = rows[k - 1].numeral;
            if next == numeral {
                return true;
            }
            if reached.insert(next) {
                waiting.push(next);
            }
        }
    }
    false
}

/// The nodes over `rows`, whose numerals are all 1 or more, in preorder.
///
/// Refusals 8 and 9; `fits` says whether a number of nodes fits, and when one
/// number doesn't no larger one does. Refusals 6 and 7 must be settled before,
/// so that under adopt and root there is no depth.
pub fn forest(
    rows: &[Row],
    orphan: u32,
    depth: Option<i32>,
    start: Start,
    fits: &dyn Fn(usize) -> bool,
) -> Result<Forest, u32> {
    let all: Vec<usize> = (1..=rows.len()).collect();

    let is_start = |k: usize| start.takes(&rows[k - 1]);
    let mut start_rows: Vec<usize> = all.iter().copied().filter(|&k| is_start(k)).collect();
    start_rows.sort_by(|&a, &b| sibling_order(rows, a, b));

    let mut lister = Lister {
        rows,
        allowed: vec![true; rows.len()],
        depth,
        orphan: false,
        front: Vec::new(),
        entry: None,
        fits,
        found: Vec::new(),
    };
    for &k in &start_rows {
        // A stop here means a start row, so refusal 8 can't come first.
        if !lister.list_from(k) {
            return Err(9);
        }
    }

    let mut in_unreached = vec![true; rows.len()];
    take_out(&mut in_unreached, &lister.found);
    let unreached: Vec<usize> = all.iter().copied().filter(|&k| in_unreached[k - 1]).collect();
    let is_top = |k: usize| {
        let parent = rows[k - 1].parent;
        parent == 0 || rows.iter().all(|row| row.numeral != parent)
    };
    let mut top_orphans: Vec<usize> = unreached.iter().copied().filter(|&k| is_top(k)).collect();
    top_orphans.sort_by(|&a, &b| sibling_order(rows, a, b));

    if orphan == ADOPT || orphan == ROOT {
        if orphan == ADOPT {
            // The last start row in sibling order; without one refusal 8 leaves nothing to adopt.
            lister.front.extend(start_rows.last());
        }
        let nobody_adopts = orphan == ADOPT && start_rows.is_empty();
        lister.list_orphans(&top_orphans, in_unreached, nobody_adopts)?;
    }

    let mut nodes = lister.found;
    if !fits(nodes.len()) {
        return Err(9);
    }
    nodes.sort_by(|a, b| node_order(rows, a, b));
    Ok(Forest { nodes, start_rows, unreached, top_orphans })
}

/// The first `length` rows of a node's path, with the entry if it is among them: paths from two
/// entries differ although both have row number 0.
fn beginning(node: &Node, length: usize) -> (Option<IslandEntry>, &[usize]) {
    let rows = &node.rows[..length];
    (if rows.contains(&0) { node.entry } else { None }, rows)
}

/// The bodies of the nodes, in rank order.
pub fn bodies(rows: &[Row], nodes: &[Node]) -> Vec<Body> {
    let mut rank_of: HashMap<(Option<IslandEntry>, &[usize]), usize> = HashMap::new();
    for (place, node) in nodes.iter().enumerate() {
        rank_of.insert(beginning(node, node.rows.len()), place + 1);
    }

    // The parent is the path without its last row.
    let mut parents = vec![0; nodes.len() + 1];
    for (place, node) in nodes.iter().enumerate() {
        if node.rows.len() > 1 {
            parents[place + 1] = rank_of[&beginning(node, node.rows.len() - 1)];
        }
    }

    // Each node counts once for itself and once for every node it extends.
    let mut sizes = vec![0; nodes.len() + 1];
    for rank in 1..=nodes.len() {
        let mut counted = rank;
        while counted != 0 {
            sizes[counted] += 1;
            counted = parents[counted];
        }
    }

    let mut list = Vec::new();
    for (place, node) in nodes.iter().enumerate() {
        let rank = place + 1;
        let last = node.rows[node.rows.len() - 1];
        list.push(Body {
            numeral: numeral_at(rows, node.entry, last),
            row: last as u32,
            size: sizes[rank],
            parent: parents[rank] as u32,
            root: rank_of[&beginning(node, 1)] as u32,
            level: node.rows.len() as u32,
            closing: node.closing,
            orphan: node.orphan,
        });
    }
    list
}

/// Whether `n` nodes fit slices of these lengths, so that refusal 9 doesn't apply.
pub(crate) fn image_fits(n: usize, index_words: usize, total_words: usize) -> bool {
    n <= MAX_NODES && index_words >= CONTENTS + BODY * n && total_words >= n + 1
}

/// Refusals 6 to 12 in order, else the bodies and the number of rows that end no node.
fn attempt(
    rows: &[Row],
    code: u32,
    depth: Option<i32>,
    start: Start,
    index_words: usize,
    total_words: usize,
) -> Result<(Vec<Body>, u32), u32> {
    let options = match Options::read(code) {
        None => return Err(6),
        Some(options) => options,
    };
    if depth.is_some() && options.orphan != IGNORE {
        return Err(7);
    }
    let fits = |n: usize| image_fits(n, index_words, total_words);
    let forest = forest(rows, options.orphan, depth, start, &fits)?;

    let bodies = bodies(rows, &forest.nodes);
    refused_by_choice(options, &bodies)?;

    if options.orphan == ERROR && !forest.unreached.is_empty() {
        return Err(12);
    }

    let left = left_over(rows, &bodies);
    Ok((bodies, left))
}

/// Refusals 10 and 11 in order, by the choices of cycle and multi over the nodes.
pub(crate) fn refused_by_choice(options: Options, bodies: &[Body]) -> Result<(), u32> {
    if options.cycle == 1 && bodies.iter().any(|body| body.closing) {
        return Err(10);
    }

    let mut bearers: HashMap<u32, u32> = HashMap::new();
    for body in bodies {
        *bearers.entry(body.numeral).or_insert(0) += 1;
    }
    for body in bodies {
        let shared = bearers[&body.numeral] > 1;
        if options.multi == 2 && shared {
            return Err(11);
        }
        if options.multi == 1 && shared && body.size > 1 {
            return Err(11);
        }
    }
    Ok(())
}

/// The number of rows that end no node.
pub(crate) fn left_over(rows: &[Row], bodies: &[Body]) -> u32 {
    let mut ends = vec![false; rows.len()];
    for body in bodies {
        if body.row != 0 {
            ends[body.row as usize - 1] = true;
        }
    }
    ends.iter().filter(|end| !**end).count() as u32
}

/// The minutes of a node: those of its last row, and 0 of an entry.
pub(crate) fn minutes(rows: &[Row], body: &Body) -> i64 {
    match body.row {
        0 => 0,
        row => rows[row as usize - 1].minutes as i64,
    }
}

/// Builds the index image and the running totals over `rows`, whose numerals
/// are all 1 or more. Refusals 6 to 12; a refused build zeroes both slices.
pub fn build(
    rows: &[Row],
    code: u32,
    depth: Option<i32>,
    start: Start,
    index: &mut [u32],
    totals: &mut [i64],
) -> Built {
    match attempt(rows, code, depth, start, index.len(), totals.len()) {
        Err(refusal) => refuse(refusal, index, totals),
        Ok((bodies, left)) => {
            let minutes: Vec<i64> = bodies.iter().map(|body| minutes(rows, body)).collect();
            accept(&bodies, &minutes, left, index, totals)
        }
    }
}

/// Writes the image of `bodies` and the running totals of `minutes`, of which each body has one.
/// They must fit.
pub(crate) fn accept(
    bodies: &[Body],
    minutes: &[i64],
    left: u32,
    index: &mut [u32],
    totals: &mut [i64],
) -> Built {
    let n = bodies.len();
    let mut check: u64 = 0;
    let mut total: i64 = 0;
    totals[0] = 0;
    for (place, body) in bodies.iter().enumerate() {
        for (word, value) in body.words().iter().enumerate() {
            index[CONTENTS + BODY * place + word] = *value;
            check += *value as u64;
        }
        total += minutes[place];
        totals[place + 1] = total;
    }
    let contents = [n as u32, 8, 6, (check % (1 << 32)) as u32, 0, 0, 0, 0];
    index[..CONTENTS].copy_from_slice(&contents);
    Built { refusal: 0, nodes: n as u32, left }
}

/// Builds from a board: refusal 1, then as [`build`].
pub fn build_board(
    board: &Board,
    code: u32,
    depth: Option<i32>,
    start: Start,
    index: &mut [u32],
    totals: &mut [i64],
) -> Built {
    if !board.sound() {
        return refuse(1, index, totals);
    }
    build(board.held(), code, depth, start, index, totals)
}

/// The option code, depth and start rule of a build by default: "The build by default moves from
/// code 0 to code 3, still with no depth and parent 0".
pub const BY_DEFAULT: (u32, Option<i32>, Start<'static>) = (3, None, Start::ParentZero);

/// The build by default over `rows`, whose numerals are all 1 or more: [`build`] by [`BY_DEFAULT`],
/// "and an accepted one leaves no row without a node". With root, allow and break up no refusal but
/// 9 applies.
pub fn build_default(rows: &[Row], index: &mut [u32], totals: &mut [i64]) -> Built {
    let (code, depth, start) = BY_DEFAULT;
    build(rows, code, depth, start, index, totals)
}

/// Builds from a board: refusal 1, then as [`build_default`].
pub fn build_default_board(board: &Board, index: &mut [u32], totals: &mut [i64]) -> Built {
    if !board.sound() {
        return refuse(1, index, totals);
    }
    build_default(board.held(), index, totals)
}

/// A refused build: both slices and both counts are zeroed.
pub(crate) fn refuse(refusal: u32, index: &mut [u32], totals: &mut [i64]) -> Built {
    index.fill(0);
    totals.fill(0);
    Built { refusal, nodes: 0, left: 0 }
}
