//! Dated builds: the regular paths whose rows have days in common, with each other and with a window,
//! and the build of the index image from these paths.
//!
//! The paths with days are found in two ways: [`dated_of_all`] lists all regular paths, of which a
//! board may have exponentially many; [`dated_by_rows`] goes on from no path without days. The build
//! takes the first where the paths are few.

use crate::board::{Board, Row};
use crate::forest::{
    accept, bodies, forest, image_fits, left_over, minutes, node_order, refuse, refused_by_choice,
    within_depth, Body, Built, Node, Options, Start, IGNORE,
};
use crate::shortest::LISTED;

/// Days from the first to the last, both included; none where the first is after the last.
#[derive(Clone, Copy, Debug, PartialEq, Eq)]
pub struct Days {
    pub first: u32,
    pub last: u32,
}

impl Days {
    /// All days there are.
    pub const ALL: Days = Days::new(0, u32::MAX);

    pub const fn new(first: u32, last: u32) -> Days {
        Days { first, last }
    }

    /// The days of a row.
    pub const fn of(row: &Row) -> Days {
        Days::new(row.first_day, row.last_day)
    }

    pub const fn is_empty(self) -> bool {
        self.first > self.last
    }

    /// The days that both have.
    pub fn common(self, other: Days) -> Days {
        Days::new(self.first.max(other.first), self.last.min(other.last))
    }
}

/// What a dated build is asked for.
#[derive(Clone, Copy, Debug, PartialEq, Eq)]
pub struct Asked<'a> {
    pub code: u32,
    pub depth: Option<i32>,
    pub start: Start<'a>,
    pub window: Days,
}

/// "A path's days are the common days of its rows and the window."
pub fn path_days(rows: &[Row], path: &Node, window: Days) -> Days {
    path.rows.iter().map(|&k| Days::of(&rows[k - 1])).fold(window, Days::common)
}

/// The regular paths, each of which "is a node only if" its days "aren't empty", in path order. None
/// if there are more than `most` regular paths, with days or without.
pub fn dated_of_all(rows: &[Row], asked: Asked, most: usize) -> Option<Vec<Node>> {
    let mut paths = forest(rows, IGNORE, asked.depth, asked.start, &|n| n <= most).ok()?.nodes;
    paths.retain(|path| !path_days(rows, path, asked.window).is_empty());
    Some(paths)
}

/// The same, row by row: every beginning of a path has the path's days, so that nothing is found
/// behind a path without. Refusal 9 once they don't fit; `fits` says whether a number of nodes fits,
/// and when one number doesn't no larger one does.
pub fn dated_by_rows(
    rows: &[Row],
    asked: Asked,
    fits: &dyn Fn(usize) -> bool,
) -> Result<Vec<Node>, u32> {
    let mut lister = Lister { rows, depth: asked.depth, fits, found: Vec::new() };
    for k in (1..=rows.len()).filter(|&k| asked.start.takes(&rows[k - 1])) {
        if !lister.list(&mut vec![k], asked.window) {
            return Err(9);
        }
    }
    let mut paths = lister.found;
    if !fits(paths.len()) {
        return Err(9);
    }
    paths.sort_by(|a, b| node_order(rows, a, b));
    Ok(paths)
}

/// Lists a path and its extensions by recursion; stops once they don't fit.
struct Lister<'a> {
    rows: &'a [Row],
    depth: Option<i32>,
    fits: &'a dyn Fn(usize) -> bool,
    found: Vec<Node>,
}

impl Lister<'_> {
    /// Gives false once the paths found don't fit. `before` are the days that the path has without
    /// its last row.
    fn list(&mut self, path: &mut Vec<usize>, before: Days) -> bool {
        let (&last, earlier) = path.split_last().expect("a path has rows");
        let row = self.rows[last - 1];
        let days = before.common(Days::of(&row));
        if days.is_empty() || !within_depth(path.len(), self.depth) {
            return true;
        }
        let closing = earlier.iter().any(|&k| self.rows[k - 1].numeral == row.numeral);
        self.found.push(Node { rows: path.clone(), entry: None, orphan: false, closing });
        if !(self.fits)(self.found.len()) {
            return false;
        }
        if closing {
            return true;
        }
        for k in 1..=self.rows.len() {
            if self.rows[k - 1].parent == row.numeral {
                path.push(k);
                let going_on = self.list(path, days);
                path.pop();
                if !going_on {
                    return false;
                }
            }
        }
        true
    }
}

/// The nodes of a dated build over `rows`, whose numerals are all 1 or more, in path order, or
/// refusal 9.
fn nodes(rows: &[Row], asked: Asked, fits: &dyn Fn(usize) -> bool) -> Result<Vec<Node>, u32> {
    match dated_of_all(rows, asked, LISTED) {
        Some(nodes) if fits(nodes.len()) => Ok(nodes),
        Some(_) => Err(9),
        None => dated_by_rows(rows, asked, fits),
    }
}

/// Refusals 6, 20, 7 and 9 to 11 in this order, else the bodies and the days of each.
fn attempt(
    rows: &[Row],
    asked: Asked,
    fits: &dyn Fn(usize) -> bool,
) -> Result<(Vec<Body>, Vec<Days>), u32> {
    let options = Options::read(asked.code).ok_or(6u32)?;
    if asked.window.is_empty() {
        return Err(20);
    }
    // "Only orphan 0 is taken, else sentence 7", a depth given or not.
    if options.orphan != IGNORE {
        return Err(7);
    }
    let nodes = nodes(rows, asked, fits)?;
    let bodies = bodies(rows, &nodes);
    refused_by_choice(options, &bodies)?;
    let days = nodes.iter().map(|path| path_days(rows, path, asked.window)).collect();
    Ok((bodies, days))
}

/// Builds the index image and the running totals over `rows`, whose numerals are all 1 or more, and
/// writes the days of each node, the first and the last. A refused build zeroes all three slices.
pub fn build_dated(
    rows: &[Row],
    asked: Asked,
    index: &mut [u32],
    totals: &mut [i64],
    days: &mut [u32],
) -> Built {
    let fits = |n: usize| image_fits(n, index.len(), totals.len()) && days.len() >= 2 * n;
    let (bodies, of_nodes) = match attempt(rows, asked, &fits) {
        Err(refusal) => return refuse_dated(refusal, index, totals, days),
        Ok(found) => found,
    };
    for (place, of_node) in of_nodes.iter().enumerate() {
        days[2 * place] = of_node.first;
        days[2 * place + 1] = of_node.last;
    }
    let minutes: Vec<i64> = bodies.iter().map(|body| minutes(rows, body)).collect();
    accept(&bodies, &minutes, left_over(rows, &bodies), index, totals)
}

/// Builds from a board: refusal 1, then as [`build_dated`].
pub fn build_dated_board(
    board: &Board,
    asked: Asked,
    index: &mut [u32],
    totals: &mut [i64],
    days: &mut [u32],
) -> Built {
    if !board.sound() {
        return refuse_dated(1, index, totals, days);
    }
    build_dated(board.held(), asked, index, totals, days)
}

/// A refused build: all three slices and both counts are zeroed.
fn refuse_dated(refusal: u32, index: &mut [u32], totals: &mut [i64], days: &mut [u32]) -> Built {
    days.fill(0);
    refuse(refusal, index, totals)
}
