//! Rows with days, windows and slices for dated builds, and what the builds of a test come to.

use crate::builds::{node_count, rows, size, slice_lengths, start, start_of, Shape, SHAPES};
use crate::random::Random;
use crate::shortest::{net, NETS};
use reference::dated::dated_by_rows;
use reference::shortest::LISTED;
use reference::{build, Asked, Body, Days, Row, Start, BODY, CONTENTS, MAX_ROWS};
use std::collections::{HashMap, HashSet};

/// What the days of a board's rows are.
#[derive(Clone, Copy, Debug, PartialEq, Eq)]
pub enum Dating {
    /// Those of rows entered without.
    Whole,
    /// Most have one day in common with a path to the parent.
    Touching,
    /// Some miss the days of a path to the parent by one.
    Missing,
    /// All within the days of a path to the parent.
    Nested,
    /// A few days for all rows.
    Few,
    /// Any.
    Wide,
    /// Rows of one parent and numeral one after the other, so that a window may have one path of
    /// exponentially many.
    Turns,
    /// Each row by one of the others.
    Mixed,
    /// The same, and some with the first day after the last: no add takes them.
    Backward,
}

/// All kinds of days that an add takes.
pub const DATINGS: [Dating; 8] = [
    Dating::Whole,
    Dating::Touching,
    Dating::Missing,
    Dating::Nested,
    Dating::Few,
    Dating::Wide,
    Dating::Turns,
    Dating::Mixed,
];

/// The places of rows, those of a parent before those below it where no ring is in the way.
fn from_above(rows: &[Row]) -> Vec<usize> {
    let numerals: HashSet<u32> = rows.iter().map(|row| row.numeral).collect();
    let mut below: HashMap<u32, Vec<usize>> = HashMap::new();
    for (place, row) in rows.iter().enumerate() {
        below.entry(row.parent).or_default().push(place);
    }
    let top = |place: &usize| !numerals.contains(&rows[*place].parent);
    let mut waiting: Vec<usize> = (0..rows.len()).filter(|place| !top(place)).rev().collect();
    waiting.extend((0..rows.len()).filter(top).rev());
    let mut taken = vec![false; rows.len()];
    let mut places = Vec::new();
    while let Some(place) = waiting.pop() {
        if !taken[place] {
            taken[place] = true;
            places.push(place);
            waiting.extend(below.get(&rows[place].numeral).into_iter().flatten());
        }
    }
    places
}

/// A day of some.
fn day_of(random: &mut Random, days: Days) -> u32 {
    random.between(days.first as usize, days.last as usize) as u32
}

/// Days that have one in common with others: their first or their last.
fn touching(random: &mut Random, others: Days) -> Days {
    let length = random.below(9) as u32;
    if random.chance(1, 2) {
        Days::new(others.last, others.last.saturating_add(length))
    } else {
        Days::new(others.first.saturating_sub(length), others.first)
    }
}

/// Days that begin right behind others, or end right before them; of all days one.
fn missing(random: &mut Random, others: Days) -> Days {
    let length = random.below(9) as u32;
    let behind = others.last.checked_add(1);
    let before = others.first.checked_sub(1);
    match (behind, before) {
        (Some(first), None) => Days::new(first, first.saturating_add(length)),
        (Some(first), _) if random.chance(1, 2) => Days::new(first, first.saturating_add(length)),
        (_, Some(last)) => Days::new(last.saturating_sub(length), last),
        _ => touching(random, others),
    }
}

/// Days that others have all of.
fn nested(random: &mut Random, others: Days) -> Days {
    let first = day_of(random, others);
    Days::new(first, day_of(random, Days::new(first, others.last)))
}

/// Days from 0 to 5.
fn few(random: &mut Random) -> Days {
    nested(random, Days::new(0, 5))
}

/// Days for a row below a path of the given days; `turn` counts the rows of its parent and numeral.
fn days_below(random: &mut Random, dating: Dating, path: Days, turn: u32) -> Days {
    match dating {
        Dating::Whole => Days::ALL,
        Dating::Touching if random.chance(3, 4) => touching(random, path),
        Dating::Missing if random.chance(1, 3) => missing(random, path),
        Dating::Touching | Dating::Missing | Dating::Nested => nested(random, path),
        Dating::Few => few(random),
        Dating::Wide => random.any_days(),
        Dating::Turns => Days::new(10 * turn, 10 * turn + 9),
        Dating::Backward if random.chance(1, 6) => random.backward_days(),
        Dating::Mixed | Dating::Backward => {
            let kinds = [
                Dating::Whole,
                Dating::Touching,
                Dating::Missing,
                Dating::Nested,
                Dating::Nested,
                Dating::Few,
                Dating::Wide,
            ];
            let kind = random.pick(&kinds);
            days_below(random, kind, path, turn)
        }
    }
}

/// The rows with days of a kind.
pub fn dated(random: &mut Random, dating: Dating, rows: &[Row]) -> Vec<Row> {
    let first = random.pick(&[0, 3, 1_000, u32::MAX - 40]);
    let base = Days::new(first, first + random.below(41) as u32);
    let mut dated = rows.to_vec();
    // The days of some path to each numeral; where it has none, those of its last row.
    let mut paths: HashMap<u32, Days> = HashMap::new();
    let mut turns: HashMap<(u32, u32), u32> = HashMap::new();
    for place in from_above(rows) {
        let row = rows[place];
        let turn = turns.entry((row.parent, row.numeral)).or_insert(0);
        let path = paths.get(&row.parent).copied().unwrap_or(base);
        let days = days_below(random, dating, path, *turn);
        *turn += 1;
        dated[place] = row.on(days.first, days.last);
        let found = [path.common(days), days, base].into_iter().find(|days| !days.is_empty());
        paths.entry(row.numeral).or_insert(found.expect("the last has days"));
    }
    dated
}

/// A day at which the days of a row, a start row often, begin or end, or one beside.
fn day_near(random: &mut Random, rows: &[Row], start: Start) -> u32 {
    if rows.is_empty() {
        return random.word();
    }
    let starts: Vec<Row> = rows.iter().copied().filter(|row| start.takes(row)).collect();
    let from_starts = !starts.is_empty() && random.chance(1, 2);
    let row = random.pick(if from_starts { &starts } else { rows });
    let day = random.pick(&[row.first_day, row.last_day]);
    match random.below(4) {
        0 => day.saturating_sub(1),
        1 => day.saturating_add(1),
        _ => day,
    }
}

/// A window: all days, one day at which days of a row begin or end or one beside, from one such day
/// to another, any, or one whose first day is after its last.
pub fn window(random: &mut Random, rows: &[Row], start: Start) -> Days {
    match random.below(24) {
        0 => random.backward_days(),
        1..=7 => Days::ALL,
        8..=14 => {
            let day = day_near(random, rows, start);
            Days::new(day, day)
        }
        15..=21 => {
            let (one, other) = (day_near(random, rows, start), day_near(random, rows, start));
            Days::new(one.min(other), one.max(other))
        }
        _ => random.any_days(),
    }
}

/// An option code: one that ignores orphans mostly.
fn code(random: &mut Random) -> u32 {
    match random.below(40) {
        0 => random.pick(&[24, 25, 36, 1 << 16, u32::MAX]),
        1..=3 => random.below(24) as u32,
        4..=15 => 0,
        _ => 4 * random.below(6) as u32,
    }
}

/// A depth: none mostly; small, negative, at an extreme.
fn depth(random: &mut Random) -> Option<i32> {
    match random.below(20) {
        0 => Some(random.pick(&[i32::MIN, -1, i32::MAX - 1, i32::MAX])),
        1..=3 => Some(random.below(6) as i32),
        _ => None,
    }
}

/// Arguments of one dated build; slices are filled with noise beforehand.
#[derive(Clone, Debug)]
pub struct DatedCase {
    pub rows: Vec<Row>,
    pub code: u32,
    pub depth: Option<i32>,
    /// None for parent 0.
    pub start: Option<Vec<u32>>,
    pub window: Days,
    pub index: Vec<u32>,
    pub totals: Vec<i64>,
    pub days: Vec<u32>,
}

impl DatedCase {
    /// The start rule.
    pub fn start(&self) -> Start<'_> {
        start_of(&self.start)
    }

    /// What the build is asked for.
    pub fn asked(&self) -> Asked<'_> {
        Asked { code: self.code, depth: self.depth, start: self.start(), window: self.window }
    }
}

/// The number of paths with days in the window, or none when more than `most`.
pub fn dated_count(rows: &[Row], asked: Asked, most: usize) -> Option<usize> {
    dated_by_rows(rows, asked, &|n| n <= most).ok().map(|nodes| nodes.len())
}

/// Words for the days of `n` nodes: mostly enough; too short by one, far too short, exact and longer.
fn day_words(random: &mut Random, n: usize) -> usize {
    match random.below(40) {
        0 | 1 => (2 * n).saturating_sub(1),
        2 => random.below(2 * n + 1),
        3 => 0,
        4..=24 => 2 * n,
        _ => 2 * n + random.between(1, 60),
    }
}

/// A random dated build of random rows with days that an add takes, and in some cases with others.
pub fn dated_case(random: &mut Random) -> DatedCase {
    if random.chance(1, 30) {
        return deep_case(random);
    }
    let size = size(random);
    let plain = if random.chance(1, 60) {
        Vec::new()
    } else if random.chance(1, 3) {
        let kind = random.pick(&NETS);
        net(random, kind, size)
    } else {
        let shape = random.pick(&SHAPES);
        rows(random, shape, size)
    };
    let dating = match random.below(10) {
        0 => Dating::Backward,
        1..=3 => Dating::Mixed,
        _ => random.pick(&DATINGS),
    };
    let rows = dated(random, dating, &plain);
    dated_case_of(random, rows)
}

/// A random dated build of a chain of many rows, or of two or three such chains over the same numerals,
/// of which a window may leave one.
fn deep_case(random: &mut Random) -> DatedCase {
    let size = random.between(200, MAX_ROWS);
    let (shape, dating) = random.pick(&[
        (Shape::Chain, Dating::Whole),
        (Shape::Chain, Dating::Touching),
        (Shape::Diamonds, Dating::Turns),
    ]);
    let plain = rows(random, shape, size);
    let rows = dated(random, dating, &plain);
    dated_case_of(random, rows)
}

/// A random dated build of the rows. Those of more than 3,000 nodes get slices that are too short;
/// [`large_case`] makes the ones at the node limit.
pub fn dated_case_of(random: &mut Random, rows: Vec<Row>) -> DatedCase {
    let (depth, start) = (depth(random), start(random, &rows));
    let window = window(random, &rows, start_of(&start));
    // Where refusal 20 applies, so do 6 and 7 often.
    let any_code = window.is_empty() && random.chance(1, 3);
    let code = if any_code { random.below(30) as u32 } else { code(random) };
    let asked = Asked { code, depth, start: start_of(&start), window };
    let n = dated_count(&rows, asked, 3_000).unwrap_or_else(|| random.below(3_000));
    let (index, totals) = slice_lengths(random, n);
    let days = day_words(random, n);
    let (index, totals) = (random.noise(index), random.wide_noise(totals));
    let days = random.noise(days);
    DatedCase { rows, code, depth, start, window, index, totals, days }
}

/// A dated build of `nodes` nodes, near the limit of 65,535: `a` start rows of one numeral and `b` rows
/// below it give a × (b + 1) nodes, single start rows fill up; and up to 100 rows without days in the
/// window. Slices hold 65,536 nodes.
pub fn large_case(random: &mut Random, nodes: usize) -> DatedCase {
    let a = random.between(150, 300);
    let b = 65_500 / a - 1;
    let mut edges = vec![(0, 1); a];
    edges.resize(a + b, (1, 2));
    let single = nodes - a * (b + 1);
    edges.extend((0..single as u32).map(|number| (0, 100_000 + number)));
    let window = nested(random, Days::new(1_000, 2_000));
    let mut rows: Vec<Row> = Vec::new();
    for (parent, numeral) in edges {
        let row = Row::undated(parent, numeral, random.below(9) as u32, random.minutes());
        // All rows have the first day of the window.
        let (before, behind) = (random.below(500) as u32, random.below(500) as u32);
        rows.push(row.on(window.first - before, window.first + behind));
    }
    for _ in 0..random.below(100).min(MAX_ROWS - rows.len()) {
        let days = missing(random, window);
        rows.push(random.pick(&rows).on(days.first, days.last));
    }
    random.shuffle(&mut rows);
    let index = random.noise(CONTENTS + BODY * 65_536);
    let totals = random.wide_noise(65_537);
    let days = random.noise(2 * 65_536);
    DatedCase { rows, code: 0, depth: None, start: None, window, index, totals, days }
}

/// Every list of up to `most` rows with parents of 0 to 2, numerals 1 and 2, orders below `orders` and
/// days 0, 0 to 1, 1, and 1 to 0, which are none.
pub fn small_dated_boards(most: u32, orders: u32) -> impl Iterator<Item = Vec<Row>> {
    let kinds = 3 * 2 * 4 * orders;
    let row = |kind: u32| {
        let (first, last) = [(0, 0), (0, 1), (1, 1), (1, 0)][(kind / 6 % 4) as usize];
        Row::undated(kind % 3, kind / 3 % 2 + 1, kind / 24, 1 << (kind % 24)).on(first, last)
    };
    (0..=most).flat_map(move |count| {
        let nth =
            move |number| (0..count).map(|place| row(number / kinds.pow(place) % kinds)).collect();
        (0..kinds.pow(count)).map(nth)
    })
}

/// A node of a built index.
struct Found {
    body: Body,
    /// Its days, and those it would have without a window.
    days: Days,
    of_rows: Days,
    /// The numerals on its path.
    numerals: Vec<u32>,
}

fn nodes(case: &DatedCase, index: &[u32], days: &[u32]) -> Vec<Found> {
    let mut found: Vec<Found> = Vec::new();
    for rank in 1..=index[0] as usize {
        let body = Body::read(index, rank);
        let row = Days::of(&case.rows[body.row as usize - 1]);
        let (of_rows, mut numerals) = match body.parent {
            0 => (row, Vec::new()),
            parent => {
                let above = &found[parent as usize - 1];
                (above.of_rows.common(row), above.numerals.clone())
            }
        };
        numerals.push(body.numeral);
        let days = Days::new(days[2 * rank - 2], days[2 * rank - 1]);
        found.push(Found { body, days, of_rows, numerals });
    }
    found
}

/// A row that would end a node behind a path, but for the days.
struct Cut<'a> {
    above: &'a Found,
    row: Row,
}

/// The rows cut off right behind the nodes.
fn cuts<'a>(case: &DatedCase, nodes: &'a [Found]) -> Vec<Cut<'a>> {
    let mut below: HashMap<u32, Vec<Row>> = HashMap::new();
    for row in &case.rows {
        below.entry(row.parent).or_default().push(*row);
    }
    let deepest = |above: &Found| case.depth.is_some_and(|d| above.body.level as i64 > d as i64);
    let mut found = Vec::new();
    for above in nodes.iter().filter(|above| !above.body.closing && !deepest(above)) {
        for &row in below.get(&above.body.numeral).into_iter().flatten() {
            if above.days.common(Days::of(&row)).is_empty() {
                found.push(Cut { above, row });
            }
        }
    }
    found
}

fn one_day(days: Days) -> bool {
    days.first == days.last
}

/// Whether the second begins right behind the first.
fn right_behind(one: Days, other: Days) -> bool {
    one.last.checked_add(1) == Some(other.first)
}

/// What a dated build comes to that is accepted, by name.
pub const FACTS: [&str; 29] = [
    "days that touch at one",
    "days that miss by one",
    "row cut off with days in the window",
    "row cut off by the window alone",
    "days within those of the parent",
    "node of all days of the window",
    "node of day 0",
    "node of the last day there is",
    "window of one day, with nodes",
    "window of all days, with nodes",
    "row whose first day is after its last",
    "closing node",
    "ring open in the window",
    "shared numeral",
    "row that ends nodes of different days",
    "every row ends a node, some with days",
    "no node of some rows",
    "no rows",
    "several roots",
    "start row without days in the window",
    "depth that nodes reach",
    "start list, with nodes",
    "1,024 rows, with nodes",
    "level above 100",
    "over 500 nodes",
    "more regular paths than the reference lists",
    "9 without a window",
    "10 without a window, had they room",
    "11 without a window, had they room",
];

/// Which of [`FACTS`] the build of the case has, which was accepted and left the index and the days.
pub fn facts(case: &DatedCase, index: &[u32], days: &[u32]) -> [bool; FACTS.len()] {
    let (rows, window) = (&case.rows[..], case.window);
    let nodes = nodes(case, index, days);
    let cuts = cuts(case, &nodes);
    let n = nodes.len();
    let node = |test: &dyn Fn(&Found) -> bool| nodes.iter().any(test);
    let cut = |test: &dyn Fn(&Cut) -> bool| cuts.iter().any(test);
    let row_of = |found: &Found| Days::of(&rows[found.body.row as usize - 1]);
    let above = |found: &Found| nodes.get((found.body.parent as usize).wrapping_sub(1));
    let below = |test: &dyn Fn(&Found, Days) -> bool| {
        node(&|found| above(found).is_some_and(|above| test(found, above.days)))
    };
    let numerals: HashSet<u32> = nodes.iter().map(|found| found.body.numeral).collect();
    let ended: HashSet<u32> = nodes.iter().map(|found| found.body.row).collect();
    let row_days: HashSet<(u32, u32, u32)> =
        nodes.iter().map(|found| (found.body.row, found.days.first, found.days.last)).collect();
    let undated = refusal_without_a_window(case, case.index.len(), case.totals.len());
    let with_room = refusal_without_a_window(case, CONTENTS + BODY * 3_000, 3_001);
    [
        below(&|found, above| one_day(found.days) && !one_day(above) && !one_day(row_of(found))),
        cut(&|cut| {
            let own = Days::of(&cut.row);
            right_behind(cut.above.days, own) || right_behind(own, cut.above.days)
        }),
        cut(&|cut| !window.common(Days::of(&cut.row)).is_empty()),
        cut(&|cut| !cut.above.of_rows.common(Days::of(&cut.row)).is_empty()),
        below(&|found, above| found.days == row_of(found) && found.days != above),
        node(&|found| found.days == window),
        node(&|found| found.days.first == 0),
        node(&|found| found.days.last == u32::MAX),
        n > 0 && one_day(window),
        n > 0 && window == Days::ALL,
        rows.iter().any(|row| Days::of(row).is_empty()),
        node(&|found| found.body.closing),
        cut(&|cut| cut.above.numerals.contains(&cut.row.numeral)),
        numerals.len() < n,
        row_days.len() > ended.len(),
        ended.len() == rows.len() && rows.iter().any(|row| Days::of(row) != Days::ALL),
        !rows.is_empty() && n == 0,
        rows.is_empty(),
        nodes.iter().filter(|found| found.body.level == 1).count() > 1,
        rows.iter().any(|row| case.start().takes(row) && window.common(Days::of(row)).is_empty()),
        node(&|found| case.depth.is_some_and(|d| found.body.level as i64 == d as i64 + 1)),
        n > 0 && case.start.is_some(),
        n > 0 && rows.len() == MAX_ROWS,
        node(&|found| found.body.level > 100),
        n > 500,
        node_count(rows, 0, case.depth, case.start(), LISTED).is_none(),
        undated == 9,
        with_room == 10,
        with_room == 11,
    ]
}

/// The refusal of the same build without a window, in slices of these lengths.
fn refusal_without_a_window(case: &DatedCase, index_words: usize, total_words: usize) -> u32 {
    let (mut index, mut totals) = (vec![0; index_words], vec![0; total_words]);
    build(&case.rows, case.code, case.depth, case.start(), &mut index, &mut totals).refusal
}

/// Why dated builds are refused, by name.
pub const REFUSALS: [&str; 16] = [
    "6",
    "6, which comes before 20",
    "20",
    "20, which comes before 7",
    "7 without a depth",
    "7 with a depth",
    "9, index alone too short",
    "9, totals alone too short",
    "9, days a word short",
    "9, days alone too short",
    "9, no days",
    "10",
    "10, which comes before 11",
    "11 by error",
    "11 by leaves",
    "9, too many nodes to count",
];

/// Which of [`REFUSALS`] the case has, whose build was refused.
pub fn refusals(case: &DatedCase, refused: u32) -> [bool; REFUSALS.len()] {
    let n = dated_count(&case.rows, case.asked(), 3_000);
    let short = |n: usize| {
        [case.index.len() < CONTENTS + BODY * n, case.totals.len() < n + 1, case.days.len() < 2 * n]
    };
    let alone = |wanted: [bool; 3]| refused == 9 && n.is_some_and(|n| short(n) == wanted);
    let multi = case.code / 4 % 3;
    [
        refused == 6,
        refused == 6 && case.window.is_empty(),
        refused == 20,
        refused == 20 && !case.code.is_multiple_of(4),
        refused == 7 && case.depth.is_none(),
        refused == 7 && case.depth.is_some(),
        alone([true, false, false]),
        alone([false, true, false]),
        refused == 9 && n.is_some_and(|n| case.days.len() + 1 == 2 * n),
        alone([false, false, true]),
        refused == 9 && case.days.is_empty(),
        refused == 10,
        refused == 10 && multi > 0,
        refused == 11 && multi == 2,
        refused == 11 && multi == 1,
        refused == 9 && n.is_none(),
    ]
}
