//! Section 8.5 asks some questions of the source table alone, by plain SQL. No
//! engine takes part: its printed figures check the copy of T_DEMO_ERR. Nor does one
//! where the days of dates are checked.

use guide::tables::{date, day, id, t_demo_err, H_DEMO_FACTS, T_DEMO_ERR, T_DEMO_TIME};
use reference::Row;

fn rows() -> Vec<Row> {
    t_demo_err(&[0, 1, 2, 3])
}

#[test]
fn s8_5_source_edges() {
    assert_eq!(rows().len(), 18);
    assert_eq!(T_DEMO_ERR.len(), 18);
}

#[test]
fn s8_5_source_roots() {
    assert_eq!(rows().iter().filter(|row| row.parent == 0).count(), 3);
}

#[test]
fn s8_5_source_orphans() {
    let rows = rows();
    let orphans: Vec<String> = rows
        .iter()
        .filter(|row| row.parent != 0 && rows.iter().all(|other| other.numeral != row.parent))
        .map(|row| format!("{} {}", id(row.parent), id(row.numeral)))
        .collect();
    assert_eq!(orphans, ["E4 F6"]);
}

#[test]
fn s8_5_source_leaves() {
    let rows = rows();
    let leaves =
        rows.iter().filter(|row| rows.iter().all(|other| other.parent != row.numeral)).count();
    assert_eq!(leaves, 5);
}

#[test]
fn s8_5_source_multiparents() {
    let rows = rows();
    let mut found: Vec<String> = rows
        .iter()
        .filter(|row| rows.iter().filter(|other| other.numeral == row.numeral).count() > 1)
        .map(|row| format!("{} {}", id(row.parent), id(row.numeral)))
        .collect();
    found.sort();
    let expected = ["E3 F5", "F1 G1", "F2 G1", "F3 G2", "F4 G2", "G2 H1", "G3 H1", "H2 F5"];
    assert_eq!(found, expected);
}

/// The figures the procedure ANALYSE_HIER_SRC prints; its number of leaves is 0,
/// as NOT IN over a list with NULL holds for no row.
#[test]
fn s8_5_source_average_children() {
    let (edges, roots, orphans, leaves) = (18.0, 3.0, 1.0, 0.0);
    let average: f64 = (edges - roots - orphans) / (edges - leaves);
    assert_eq!((average * 1_000.0).round(), 778.0);
}

/// Section 5.5: the facts that join no node of T_DEMO, and all facts.
#[test]
fn s5_5_facts() {
    let nodes: Vec<u32> = guide::tables::t_demo().iter().map(|row| row.numeral).collect();
    let sum = |matched: bool| {
        H_DEMO_FACTS
            .iter()
            .filter(|(node, _)| nodes.contains(&guide::tables::numeral(node)) == matched)
            .fold((0, 0), |(sum, count), (_, hundredths)| (sum + hundredths, count + 1))
    };
    assert_eq!(sum(true), (4_010, 10));
    assert_eq!(sum(false), (2_550, 3));
}

/// Section 2.3: days are counted from 2000-01-01, and every fourth year has one more.
#[test]
fn s2_3_days() {
    for (text, number) in [
        ("2000-01-01", 0),
        ("2000-02-29", 59),
        ("2000-12-31", 365),
        ("2001-01-01", 366),
        ("2001-03-01", 366 + 59),
        ("2011-01-01", 11 * 365 + 3),
        ("2099-12-31", 100 * 365 + 24),
    ] {
        assert_eq!((day(text), date(number).as_str()), (number, text));
    }
    for (_, _, from, until) in T_DEMO_TIME {
        assert!(day(from) < day(until) && from < until);
        assert_eq!((date(day(from)), date(day(until))), (from.to_string(), until.to_string()));
    }
}
