//! Dated builds against the reference, and builds without a window of rows with any days.

use differential::builds::CODES;
use differential::{dated, Tally};
use generate::dated::{FACTS, REFUSALS};
use generate::{Random, HISTORIES};

#[test]
fn dated_builds() {
    let tally = Tally::of_runs("dated builds", 101, 12_000, dated::cases);
    tally.expect("build_dated", &[0, 6, 7, 9, 10, 11, 20], 200);
    tally.expect_reached(&FACTS, 60);
    tally.expect_reached(&REFUSALS, 40);
    tally.expect_navigation(400);
}

/// All places of a board in use, with exponentially many paths without a window.
#[test]
fn dated_builds_of_1024_rows() {
    let tally = Tally::of_runs("dated builds of 1,024 rows", 102, 10, dated::full);
    tally.expect_reached(&["1,024 rows, with nodes"], 60);
    tally.expect_reached(&["more regular paths than the reference lists"], 40);
}

#[test]
fn dated_builds_after_edits() {
    let tally = Tally::of_runs("dated builds after edits", 103, 40, |random, tally| {
        for kind in HISTORIES {
            dated::edited(random, kind, tally);
        }
    });
    tally.expect("build_dated", &[0, 6, 7, 9, 10, 11, 20], 10);
}

#[test]
fn dated_builds_of_unsound_boards() {
    let tally = Tally::of_runs("dated builds of unsound boards", 104, 100, dated::unsound);
    tally.expect("build_dated", &[1], 4_000);
}

#[test]
fn every_code_with_days() {
    let tally = Tally::of_runs("codes with days", 107, 200, dated::codes);
    let ignoring = [0, 4, 8, 12, 16, 20].map(|code| CODES[code]);
    tally.expect_reached(&ignoring, 50);
    tally.expect("build_dated", &[0, 6, 7, 10, 11, 20], 100);
}

#[test]
fn the_limit_of_nodes_with_days() {
    let mut random = Random::announced("limit of nodes with days", 105);
    let mut tally = Tally::new();
    for nodes in [65_534, 65_535, 65_536] {
        dated::limits(&mut random, nodes, &mut tally);
    }
    println!("{tally}");
    tally.expect("build_dated", &[0, 9], 1);
}

#[test]
fn builds_without_a_window() {
    let tally = Tally::of_runs("builds without a window", 106, 6_000, dated::without_a_window);
    tally.expect("build with other days", &[0, 6, 7, 8, 9, 10, 11, 12], 100);
    tally.expect_reached(&["other days"], 5_000);
    tally.expect("dated build of rows without days", &[0, 9, 10, 11], 40);
}

#[test]
fn dated_builds_of_every_small_board() {
    let mut tally = Tally::new();
    dated::small(2, 2, &mut tally);
    dated::small(3, 1, &mut tally);
    println!("{tally}");
    tally.expect("build_dated", &[0, 10, 11, 20], 4_000);
}
