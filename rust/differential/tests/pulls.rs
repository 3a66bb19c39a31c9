//! Pulls of one part against the reference, and against new builds by the library.

use differential::builds::CODES;
use differential::pulls::{self, LINES, OPTIONS, STEPS};
use differential::Tally;
use generate::pulls::{FACTS, REFUSALS, REMARKS};
use generate::{Random, HISTORIES};

/// The remarks without those named.
fn remarks_but(left_out: &[&str]) -> Vec<&'static str> {
    assert!(left_out.iter().all(|name| REMARKS.contains(name)));
    REMARKS.into_iter().filter(|name| !left_out.contains(name)).collect()
}

#[test]
fn pulls_on_damaged_indexes() {
    let tally = Tally::of_runs("pulls", 111, 50_000, pulls::cases);
    tally.expect("pull", &[0, 4, 13, 15], 1_000);
    tally.expect_reached(&FACTS, 100);
    tally.expect_reached(&REFUSALS, 100);
}

#[test]
fn pulls_near_the_limit_of_nodes() {
    let tally = Tally::of_runs("pulls near the limit of nodes", 112, 100, pulls::large);
    tally.expect("pull", &[0, 13, 15], 10);
}

#[test]
fn remarks_of_builds() {
    let tally = Tally::of_runs("remarks of builds", 113, 6_000, pulls::remarks_of_builds);
    tally.expect("pull after a remark", &[0], 2_000);
    tally.expect_reached(&OPTIONS, 200);
    tally.expect_reached(&remarks_but(&["every node ends in the row"]), 20);
}

#[test]
fn remarks_by_every_code() {
    let tally = Tally::of_runs("remarks by every code", 114, 250, pulls::remarks_by_every_code);
    tally.expect("pull after a remark", &[0], 2_000);
    tally.expect_reached(&CODES, 50);
    tally.expect_reached(&OPTIONS[1..], 1_000);
    tally.expect_reached(&REMARKS, 10);
}

#[test]
fn remarks_of_builds_by_default() {
    let tally = Tally::of_runs("remarks by default", 115, 4_000, pulls::remarks_of_defaults);
    tally.expect("pull after a remark", &[0], 2_000);
    // Every row ends a node.
    let left_out = ["every node ends in the row", "no node ends in the row"];
    tally.expect_reached(&remarks_but(&left_out), 20);
}

#[test]
fn remarks_of_shortest_placements() {
    let tally = Tally::of_runs("remarks of placements", 116, 4_000, pulls::remarks_of_placements);
    tally.expect("pull after a remark", &[0], 2_000);
    tally.expect_reached(&OPTIONS[1..], 200);
    // Each numeral stands once, and none closes.
    let left_out = [
        "several nodes end in the row",
        "every node ends in the row",
        "a node that closes ends in the row",
        "an orphan ends in the row",
        "an entry, of row number 0, is on the index",
        "the last total moves by more than 32 bits hold",
        "a second row of the same numeral stays",
    ];
    tally.expect_reached(&remarks_but(&left_out), 20);
}

#[test]
fn remarks_of_dated_builds() {
    let tally =
        Tally::of_runs("remarks of dated builds", 117, 4_000, pulls::remarks_of_dated_builds);
    tally.expect("pull after a remark", &[0], 1_000);
    let ignoring = [0, 4, 8, 12, 16, 20].map(|code| CODES[code]);
    tally.expect_reached(&ignoring, 50);
    tally.expect_reached(&OPTIONS, 100);
    let left_out = [
        "every node ends in the row",
        "an orphan ends in the row",
        "an entry, of row number 0, is on the index",
    ];
    tally.expect_reached(&remarks_but(&left_out), 20);
}

#[test]
fn remarks_after_edits() {
    let tally = Tally::of_runs("remarks after edits", 118, 40, |random, tally| {
        for kind in HISTORIES {
            pulls::remarks_after_edits(random, kind, tally);
        }
    });
    tally.expect("pull after a remark", &[0], 50);
}

#[test]
fn remarks_at_the_limit_of_nodes() {
    let mut random = Random::announced("remarks at the limit of nodes", 119);
    let mut tally = Tally::new();
    for nodes in [65_534, 65_535, 65_536] {
        pulls::remarks_at_the_limit(&mut random, nodes, &mut tally);
    }
    println!("{tally}");
    tally.expect("pull after a remark", &[0], 6);
}

#[test]
fn remarks_of_every_small_board() {
    let mut tally = Tally::new();
    pulls::small(3, 2, &mut tally);
    println!("{tally}");
    tally.expect("pull after a remark", &[0], 10_000);
}

#[test]
fn pulls_one_after_the_other() {
    let tally = Tally::of_runs("pulls one after the other", 121, 1_000, pulls::one_after_the_other);
    tally.expect("build after all pulls", &[0], 500);
    tally.expect("pull", &[0], 5_000);
    tally.expect_reached(&STEPS, 500);
}

#[test]
fn pulls_of_levelled_lists() {
    let tally = Tally::of_runs("pulls of levelled lists", 122, 2_000, pulls::pulls_of_lists);
    tally.expect("pull of a line", &[0], 5_000);
    tally.expect_reached(&LINES, 500);
}
