//! The guide's base tables (sections 2.3 and 5) as rows.
//!
//! A node id of two characters becomes the numeral made of its two ASCII bytes,
//! so that numerals sort as the ids do. A missing parent is 0.
//!
//! `SIBLING ORDER BY ord` puts ord in the order. By `SIBLING ORDER BY node_id`, and
//! without such a clause, all rows have the same order and the numeral decides.
//!
//! A date is the number of days from 2000-01-01 to it, so that days sort as the dates do.
//!
//! In a levelled source a number stays as it is, and NULL is 0.

use crate::levelled::Source;
use reference::Row;

/// The numeral of a node id; of "-" 0.
pub fn numeral(id: &str) -> u32 {
    match id.as_bytes() {
        [b'-'] => 0,
        [first, second] => *first as u32 * 256 + *second as u32,
        _ => panic!("node id {id}"),
    }
}

/// The node id of a numeral; of 0 "-".
pub fn id(numeral: u32) -> String {
    if numeral == 0 {
        return "-".to_string();
    }
    [(numeral / 256) as u8 as char, (numeral % 256) as u8 as char].iter().collect()
}

/// T_DEMO: parent_id, node_id, ord, amount.
pub const T_DEMO: [(&str, &str, u32, i32); 10] = [
    ("-", "A1", 1, 1),
    ("A1", "B1", 1, 2),
    ("A1", "B2", 2, 4),
    ("B1", "C1", 1, 1),
    ("B1", "C2", 2, 3),
    ("B2", "C3", 3, 1),
    ("B2", "C4", 4, 2),
    ("C3", "D1", 1, 2),
    ("C3", "D2", 2, 3),
    ("C4", "D3", 3, 1),
];

/// T_DEMO_ERR: parent_id, node_id, tree (0 for NULL).
pub const T_DEMO_ERR: [(&str, &str, u32); 18] = [
    ("-", "E1", 1),
    ("E1", "F1", 1),
    ("E1", "F2", 1),
    ("F1", "G1", 1),
    ("F2", "G1", 1),
    ("-", "E2", 2),
    ("E2", "F3", 2),
    ("E2", "F4", 2),
    ("F3", "G2", 2),
    ("F4", "G2", 2),
    ("G2", "H1", 2),
    ("-", "E3", 3),
    ("E3", "F5", 3),
    ("F5", "G3", 3),
    ("G3", "H1", 3),
    ("G3", "H2", 3),
    ("H2", "F5", 3),
    ("E4", "F6", 0),
];

/// T_DEMO_LVL: level_1, level_2, attr_2, level_3, level_4, attr_4.
pub const T_DEMO_LVL: [[&str; 6]; 4] = [
    ["L1", "M1", "1", "N1", "O1", "10"],
    ["L1", "M1", "2", "-", "O2", "20"],
    ["L1", "M2", "3", "-", "-", "-"],
    ["L1", "-", "-", "N2", "O3", "30"],
];

/// T_DEMO_TIME: parent_id, node_id, valid_from, valid_until.
pub const T_DEMO_TIME: [(&str, &str, &str, &str); 4] = [
    ("-", "T1", "2011-01-01", "2016-12-31"),
    ("T1", "U1", "2011-07-01", "2018-12-31"),
    ("U1", "V1", "2011-07-01", "2012-12-31"),
    ("U1", "V2", "2013-01-01", "2016-12-31"),
];

/// H_DEMO_FACTS: node, amount_dec_fact in hundredths.
pub const H_DEMO_FACTS: [(&str, i32); 13] = [
    ("A1", 530),
    ("B1", 190),
    ("B2", 180),
    ("C1", 630),
    ("C3", 440),
    ("C4", 820),
    ("D1", 50),
    ("D2", 270),
    ("D3", 390),
    ("D3", 510),
    ("X1", 800),
    ("X2", 990),
    ("-", 760),
];

/// T_DEMO_COMPOSITE with the components joined: parent, node, ord.
pub const T_DEMO_COMPOSITE: [(&str, &str, u32); 3] =
    [("-", "X1", 1), ("X1", "Y1", 1), ("X1", "Y2", 2)];

/// T_DEMO, siblings ordered by ord, minutes the amount.
pub fn t_demo() -> Vec<Row> {
    T_DEMO
        .iter()
        .map(|&(parent, node, ord, amount)| {
            Row::undated(numeral(parent), numeral(node), ord, amount)
        })
        .collect()
}

/// The same rows, all with one order; entered last to first, so that in every tie
/// the numeral decides against the row numbers.
pub fn unordered(rows: Vec<Row>) -> Vec<Row> {
    rows.into_iter().rev().map(|row| Row { order: 0, ..row }).collect()
}

/// The rows of T_DEMO_ERR in the given trees, siblings ordered by node id.
pub fn t_demo_err(trees: &[u32]) -> Vec<Row> {
    let rows = T_DEMO_ERR
        .iter()
        .filter(|(_, _, tree)| trees.contains(tree))
        .map(|&(parent, node, _)| Row::undated(numeral(parent), numeral(node), 0, 0));
    unordered(rows.collect())
}

/// The tree that T_DEMO_ERR tells of a row.
pub fn tree(row: Row) -> u32 {
    let same = |(parent, node, _): &&(&str, &str, u32)| {
        (numeral(parent), numeral(node)) == (row.parent, row.numeral)
    };
    T_DEMO_ERR.iter().find(same).expect("a row of T_DEMO_ERR").2
}

/// T_DEMO with a measure of the joined facts of each node as minutes.
pub fn t_demo_facts(measure: fn(&[i32]) -> i32) -> Vec<Row> {
    let mut rows = t_demo();
    for row in &mut rows {
        let facts: Vec<i32> = H_DEMO_FACTS
            .iter()
            .filter(|(node, _)| numeral(node) == row.numeral)
            .map(|(_, hundredths)| *hundredths)
            .collect();
        row.minutes = measure(&facts);
    }
    rows
}

/// T_DEMO_COMPOSITE, siblings ordered by ord.
pub fn t_demo_composite() -> Vec<Row> {
    T_DEMO_COMPOSITE
        .iter()
        .map(|&(parent, node, ord)| Row::undated(numeral(parent), numeral(node), ord, 0))
        .collect()
}

/// The source of section 8.9: nodes 1 to 100, four children to a node, siblings
/// ordered by node id.
pub fn synthetic() -> Vec<Row> {
    let rows =
        (1..=100).map(|node| Row::undated(if node <= 4 { 0 } else { (node - 1) / 4 }, node, 0, 0));
    unordered(rows.collect())
}

/// The days of a month, counted from 0, in a year from 2000 to 2099.
fn days_of_month(year: u32, month: usize) -> u32 {
    CALENDAR[month].1 + (year.is_multiple_of(4) && month == 1) as u32
}

/// The dates from 2000-01-01 to 2099-12-31 in order.
fn calendar() -> impl Iterator<Item = String> {
    (2_000..2_100).flat_map(|year| {
        (0..12).flat_map(move |month| {
            (1..=days_of_month(year, month))
                .map(move |day| format!("{year}-{:02}-{day:02}", month + 1))
        })
    })
}

/// The day of a date: how many days it is after 2000-01-01.
pub fn day(date: &str) -> u32 {
    calendar().position(|other| other == date).expect("a date from 2000 to 2099") as u32
}

/// The date of a day.
pub fn date(day: u32) -> String {
    calendar().nth(day as usize).expect("a day from 2000 to 2099")
}

/// T_DEMO_TIME, last row first; with `UNTIL EXCLUDED` the last day is the one before valid_until.
///
/// `SIBLING ORDER BY node_id, valid_from` has two columns, and the paper's order comes before the
/// numeral: so the order is the row's place by both.
pub fn t_demo_time(until_excluded: bool) -> Vec<Row> {
    let mut sorted = T_DEMO_TIME;
    sorted.sort_by_key(|&(_, node, from, _)| (node, from));
    let rows = sorted.iter().enumerate().map(|(place, &(parent, node, from, until))| {
        let last = day(until) - until_excluded as u32;
        Row::undated(numeral(parent), numeral(node), place as u32, 0).on(day(from), last)
    });
    rows.rev().collect()
}

/// The cell of a number or an id; of "-" 0.
fn cell(text: &str) -> u32 {
    text.parse().unwrap_or_else(|_| numeral(text))
}

/// The number or the id of a cell; of 0 "-". Ids are above 255.
pub fn cell_name(cell: u32) -> String {
    match cell {
        1..=255 => cell.to_string(),
        _ => id(cell),
    }
}

/// T_DEMO_LVL, last line first, with the level columns that are named; none means all.
pub fn t_demo_lvl(levels: &[&str]) -> Source {
    let names = ["LEVEL_1", "LEVEL_2", "ATTR_2", "LEVEL_3", "LEVEL_4", "ATTR_4"];
    let lines = T_DEMO_LVL.iter().rev().map(|line| line.map(cell).to_vec());
    Source {
        columns: names.map(|name| (name, levels.is_empty() || levels.contains(&name))).to_vec(),
        lines: lines.collect(),
    }
}

/// Names of months, which sort as text.
const MONTHS: [&str; 12] = [
    "APRIL",
    "AUGUST",
    "DECEMBER",
    "FEBRUARY",
    "JANUARY",
    "JULY",
    "JUNE",
    "MARCH",
    "MAY",
    "NOVEMBER",
    "OCTOBER",
    "SEPTEMBER",
];

/// The cell of the first of these names. Years and days are their own cells, quarters are ids.
const FIRST_MONTH: u32 = 101;

/// The months of a year in calendar order, with their days in 2017.
const CALENDAR: [(&str, u32); 12] = [
    ("JANUARY", 31),
    ("FEBRUARY", 28),
    ("MARCH", 31),
    ("APRIL", 30),
    ("MAY", 31),
    ("JUNE", 30),
    ("JULY", 31),
    ("AUGUST", 31),
    ("SEPTEMBER", 30),
    ("OCTOBER", 31),
    ("NOVEMBER", 30),
    ("DECEMBER", 31),
];

/// The source of section 8.10: the days of the years, 2016 or 2017, in calendar order.
pub fn dates(years: &[u32]) -> Source {
    let mut lines = Vec::new();
    for &year in years {
        for (place, (month, _)) in CALENDAR.into_iter().enumerate() {
            let quarter = numeral(&format!("Q{}", 1 + place / 3));
            let name = MONTHS.iter().position(|name| *name == month).expect("a month");
            for day in 1..=days_of_month(year, place) {
                lines.push(vec![year, quarter, FIRST_MONTH + name as u32, day]);
            }
        }
    }
    let columns = ["YEAR", "QUARTER", "MONTH", "DAY"].map(|name| (name, true)).to_vec();
    Source { columns, lines }
}

/// The name of a cell of [`dates`].
pub fn date_name(cell: u32) -> String {
    match cell {
        FIRST_MONTH..=112 => MONTHS[(cell - FIRST_MONTH) as usize].to_string(),
        1..=2_017 => cell.to_string(),
        _ => id(cell),
    }
}
