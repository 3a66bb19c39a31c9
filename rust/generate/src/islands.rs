//! Islands: rows that paths from start rows and top orphans don't reach, and the entries that a
//! build makes for them.

use crate::builds::{orphan_choice, BuildCase};
use reference::forest::sibling_order;
use reference::{build, Body, Row, Start};
use std::cmp::Ordering;
use std::collections::{HashMap, HashSet};

/// Row numbers by a column: under each parent, or of each numeral.
fn numbers_by(rows: &[Row], column: fn(&Row) -> u32) -> HashMap<u32, Vec<usize>> {
    let mut numbers: HashMap<u32, Vec<usize>> = HashMap::new();
    for (place, row) in rows.iter().enumerate() {
        numbers.entry(column(row)).or_default().push(place + 1);
    }
    numbers
}

/// Takes the rows in `waiting`, and all below them that are left, out of a set of rows by place.
fn take_out(rows: &[Row], set: &mut [bool], mut waiting: Vec<usize>) {
    let below = numbers_by(rows, |row| row.parent);
    for &k in &waiting {
        set[k - 1] = false;
    }
    while let Some(k) = waiting.pop() {
        for &next in below.get(&rows[k - 1].numeral).into_iter().flatten() {
            if set[next - 1] {
                set[next - 1] = false;
                waiting.push(next);
            }
        }
    }
}

fn is_start(row: &Row, start: Start) -> bool {
    match start {
        Start::ParentZero => row.parent == 0,
        Start::Numerals(list) => list.contains(&row.numeral),
    }
}

/// Whether a row has no parent among the rows: a top orphan, unless a start row reaches it.
fn top(numerals: &HashMap<u32, Vec<usize>>, row: &Row) -> bool {
    row.parent == 0 || !numerals.contains_key(&row.parent)
}

/// The set I by place, before an entry is made: rows that end no path from a start row or a top
/// orphan, by any depth.
pub fn islands(rows: &[Row], start: Start) -> Vec<bool> {
    let numerals = numbers_by(rows, |row| row.numeral);
    let mut set = vec![true; rows.len()];
    let start_rows = (1..=rows.len()).filter(|k| is_start(&rows[k - 1], start)).collect();
    take_out(rows, &mut set, start_rows);
    let orphans = (1..=rows.len()).filter(|k| set[k - 1] && top(&numerals, &rows[k - 1])).collect();
    take_out(rows, &mut set, orphans);
    set
}

/// An entry of a built index.
#[derive(Clone, Debug, PartialEq, Eq)]
pub struct Entered {
    pub rank: usize,
    pub numeral: u32,
    /// Number of the row that was taken: the lowest of the numeral that is in I at that step.
    pub taken: usize,
    /// The nodes below it, in rank order.
    pub below: Vec<Body>,
}

impl Entered {
    /// Whether some node below it ends with the row that was taken.
    fn taken_from_its_ring(&self) -> bool {
        self.below.iter().any(|body| body.row as usize == self.taken)
    }

    /// Different rows below it, by number.
    fn rows(&self) -> HashSet<u32> {
        self.below.iter().map(|body| body.row).collect()
    }
}

/// The entries of an index that was built over the rows, in the order made.
pub fn entries(rows: &[Row], start: Start, index: &[u32]) -> Vec<Entered> {
    let bodies: Vec<Body> = (1..=index[0] as usize).map(|rank| Body::read(index, rank)).collect();
    if bodies.iter().all(|body| body.row != 0) {
        return Vec::new();
    }
    let mut island = islands(rows, start);
    let numerals = numbers_by(rows, |row| row.numeral);
    let mut found = Vec::new();
    for (place, body) in bodies.iter().enumerate().filter(|(_, body)| body.row == 0) {
        let below = bodies[place + 1..place + body.size as usize].to_vec();
        let taken = numerals[&body.numeral].iter().copied().find(|k| island[k - 1]);
        let taken = taken.expect("an entry is made for a row of I");
        for body in &below {
            island[body.row as usize - 1] = false;
        }
        found.push(Entered { rank: place + 1, numeral: body.numeral, taken, below });
    }
    found
}

/// The numerals that lead to one by the given rows, itself included.
fn leading_to(rows: &[Row], numeral: u32, within: &HashSet<u32>) -> HashSet<u32> {
    let mut above: HashMap<u32, Vec<u32>> = HashMap::new();
    for &k in within {
        let row = rows[k as usize - 1];
        above.entry(row.numeral).or_default().push(row.parent);
    }
    let mut found = HashSet::from([numeral]);
    let mut waiting = vec![numeral];
    while let Some(at) = waiting.pop() {
        for &parent in above.get(&at).into_iter().flatten() {
            if found.insert(parent) {
                waiting.push(parent);
            }
        }
    }
    found
}

/// Whether a ring below the entry is another than its own: a node closes on a numeral that doesn't
/// lead back to the entry's.
fn leads_to_a_ring(rows: &[Row], entry: &Entered) -> bool {
    let mut closing = entry.below.iter().filter(|body| body.closing).map(|body| body.numeral);
    let leading = leading_to(rows, entry.numeral, &entry.rows());
    closing.any(|numeral| !leading.contains(&numeral))
}

/// Whether a numeral stands below two entries: what hangs from it is below the first alone.
fn met_again(entries: &[Entered]) -> bool {
    let mut met = HashSet::new();
    entries.iter().any(|entry| {
        let numerals: HashSet<u32> = entry.below.iter().map(|body| body.numeral).collect();
        let again = numerals.iter().any(|numeral| met.contains(numeral));
        met.extend(numerals);
        again
    })
}

/// Whether a row right below the entry closes on it.
fn ring_of_one_row(entry: &Entered) -> bool {
    entry.below.iter().any(|body| body.closing && body.parent as usize == entry.rank)
}

/// Whether several rows of the entry's numeral close on it.
fn several_close(entry: &Entered) -> bool {
    let closing = entry.below.iter().filter(|body| body.numeral == entry.numeral);
    closing.map(|body| body.row).collect::<HashSet<_>>().len() > 1
}

/// Whether two rows below the entry are equal in all fields.
fn equal_rows(rows: &[Row], entry: &Entered) -> bool {
    let numbers = entry.rows();
    let fields = |k: &u32| {
        let row = rows[*k as usize - 1];
        (row.parent, row.numeral, row.order, row.minutes, row.first_day, row.last_day)
    };
    numbers.iter().map(fields).collect::<HashSet<_>>().len() < numbers.len()
}

/// What islands come to in a build that is accepted, by name.
pub const FACTS: [&str; 17] = [
    "entry under root",
    "entry under adopt",
    "two or more entries",
    "entries made against sibling order",
    "entry by a row not on its ring",
    "entry beside top orphans",
    "entry beside start rows, under root",
    "entry by a start list",
    "entry beside an island that a start list opens",
    "entry on 1,024 rows",
    "ring of one row",
    "several rows close on an entry",
    "equal rows below an entry",
    "ring that leads to another",
    "numeral below two entries",
    "tail before its ring",
    "tail behind its ring",
];

/// Which of [`FACTS`] the build of the case has, which was accepted and left the index.
pub fn facts(case: &BuildCase, index: &[u32]) -> [bool; FACTS.len()] {
    let (rows, start) = (&case.rows[..], case.start());
    let entries = entries(rows, start, index);
    let any = |test: &dyn Fn(&Entered) -> bool| entries.iter().any(test);
    if entries.is_empty() {
        return [false; FACTS.len()];
    }
    let orphan = case.code % 4;
    let bodies: Vec<Body> = (1..entries[0].rank).map(|rank| Body::read(index, rank)).collect();
    let regular = bodies.iter().any(|body| !body.orphan);
    let against =
        |pair: &[Entered]| sibling_order(rows, pair[0].taken, pair[1].taken) == Ordering::Greater;
    let rows_on_islands = |start| islands(rows, start).iter().filter(|island| **island).count();
    let leaf = |body: &Body| body.size == 1 && !body.closing;
    [
        orphan == 3,
        orphan == 2,
        entries.len() > 1,
        entries.windows(2).any(against),
        any(&|entry| !entry.taken_from_its_ring()),
        bodies.iter().any(|body| body.orphan),
        orphan == 3 && regular,
        case.start.is_some(),
        case.start.is_some() && rows_on_islands(start) < rows_on_islands(Start::ParentZero),
        rows.len() == 1_024,
        any(&ring_of_one_row),
        any(&several_close),
        any(&|entry| equal_rows(rows, entry)),
        any(&|entry| leads_to_a_ring(rows, entry)),
        met_again(&entries),
        any(&|entry| entry.below.iter().any(|body| (body.row as usize) < entry.taken)),
        any(&|entry| entry.below.iter().any(|b| leaf(b) && b.row as usize > entry.taken)),
    ]
}

/// The refusals that islands bring about, by name.
pub const REFUSALS: [&str; 4] =
    ["8 by islands alone", "9 by entries alone", "10 by entries alone", "11 by entries alone"];

/// Which of [`REFUSALS`] the refused build of the case is: without the rows of islands it would
/// be another refusal, or none.
pub fn refusals(case: &BuildCase, refusal: u32) -> [bool; REFUSALS.len()] {
    let mut found = [false; REFUSALS.len()];
    if !(8..=11).contains(&refusal) || orphan_choice(case.code, case.depth) < 2 {
        return found;
    }
    let island = islands(&case.rows, case.start());
    if island.contains(&true) {
        let others = case.rows.iter().zip(&island).filter(|(_, island)| !**island);
        let others: Vec<Row> = others.map(|(row, _)| *row).collect();
        let (mut index, mut totals) = (case.index.clone(), case.totals.clone());
        let built = build(&others, case.code, case.depth, case.start(), &mut index, &mut totals);
        found[refusal as usize - 8] = built.refusal != refusal;
    }
    found
}
