//! Ties: siblings of equal order in what a build left, and what decides between them.

use reference::{Body, Row};

/// Which siblings.
#[derive(Clone, Copy, Debug, PartialEq, Eq, PartialOrd, Ord)]
pub enum Among {
    StartRows,
    Children,
    TopOrphans,
}

/// Two siblings of equal order, the second listed right behind the first.
#[derive(Clone, Copy, Debug, PartialEq, Eq)]
pub struct Tie {
    pub among: Among,
    /// Numeral of the node they are below, 0 for none.
    pub below: u32,
    pub first: Body,
    pub second: Body,
}

impl Tie {
    /// Whether the numeral decides, and the row number would decide otherwise.
    pub fn numeral_decides(&self) -> bool {
        self.first.row > self.second.row
    }

    /// Whether the row number decides, as the numerals are equal too.
    pub fn row_number_decides(&self) -> bool {
        self.first.numeral == self.second.numeral
    }
}

fn bodies(index: &[u32]) -> Vec<Body> {
    (1..=index[0] as usize).map(|rank| Body::read(index, rank)).collect()
}

fn row(rows: &[Row], number: u32) -> Row {
    rows[number as usize - 1]
}

fn above(bodies: &[Body], body: &Body) -> Option<Body> {
    (body.parent != 0).then(|| bodies[body.parent as usize - 1])
}

fn among(bodies: &[Body], body: &Body) -> Among {
    match above(bodies, body) {
        None if !body.orphan => Among::StartRows,
        Some(parent) if parent.orphan == body.orphan => Among::Children,
        _ => Among::TopOrphans,
    }
}

/// All ties of an index that was built over the rows.
pub fn ties(rows: &[Row], index: &[u32]) -> Vec<Tie> {
    let bodies = bodies(index);
    let mut found = Vec::new();
    for (place, body) in bodies.iter().enumerate() {
        let Some(next) = bodies.get(place + body.size as usize) else { continue };
        // Regular nodes, orphans and entries below one node aren't in sibling order; the last have
        // no row.
        let siblings = (next.parent, next.orphan) == (body.parent, body.orphan) && next.row != 0;
        if siblings && row(rows, body.row).order == row(rows, next.row).order {
            found.push(Tie {
                among: among(&bodies, body),
                below: above(&bodies, body).map_or(0, |parent| parent.numeral),
                first: *body,
                second: *next,
            });
        }
    }
    found
}

/// Whether orphans were adopted, by another start row than if equal orders went by row number.
fn another_adopter(rows: &[Row], index: &[u32]) -> bool {
    let bodies = bodies(index);
    let top_orphan = bodies.iter().find(|body| among(&bodies, body) == Among::TopOrphans);
    let adopter = top_orphan.and_then(|body| above(&bodies, body));
    let start_rows = bodies.iter().filter(|body| body.parent == 0 && !body.orphan);
    let last = start_rows.map(|body| body.row).max_by_key(|k| (row(rows, *k).order, *k));
    adopter.is_some_and(|body| Some(body.row) != last)
}

/// What ties come to in a build, by name.
pub const FACTS: [&str; 10] = [
    "numeral decides among start rows",
    "numeral decides among children",
    "numeral decides among top orphans",
    "numeral decides below a shared numeral",
    "row number decides among start rows",
    "row number decides among children",
    "row number decides among top orphans",
    "all fields equal",
    "another index by row number alone",
    "another adopting row by row number alone",
];

/// Which of [`FACTS`] an index that was built over the rows has.
pub fn facts(rows: &[Row], index: &[u32]) -> [bool; FACTS.len()] {
    let ties = ties(rows, index);
    let any = |test: &dyn Fn(&Tie) -> bool| ties.iter().any(test);
    let numeral = |among: Among| any(&|tie| tie.among == among && tie.numeral_decides());
    let row_number = |among: Among| any(&|tie| tie.among == among && tie.row_number_decides());
    let shared = |numeral: u32| rows.iter().filter(|row| row.numeral == numeral).count() > 1;
    [
        numeral(Among::StartRows),
        numeral(Among::Children),
        numeral(Among::TopOrphans),
        any(&|tie| tie.among == Among::Children && tie.numeral_decides() && shared(tie.below)),
        row_number(Among::StartRows),
        row_number(Among::Children),
        row_number(Among::TopOrphans),
        any(&|tie| row(rows, tie.first.row) == row(rows, tie.second.row)),
        any(&Tie::numeral_decides),
        another_adopter(rows, index),
    ]
}
