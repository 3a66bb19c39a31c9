//! Navigation and the index check against the reference.

use differential::navigation::{self, LEVELS};
use differential::Tally;
use generate::{hops, meetings};

#[test]
fn navigation_on_any_slices() {
    let tally = Tally::of_runs("navigation", 51, 50_000, navigation::calls);
    tally.expect("span", &[0, 13, 14, 15], 1_000);
    tally.expect("descendants", &[0, 13, 14, 15, 16], 1_000);
    tally.expect("ancestors", &[0, 13, 14, 15, 16], 1_000);
    tally.expect("siblings", &[0, 13, 14, 16], 1_000);
    tally.expect("siblings by hops", &[0, 13, 14, 15, 16], 1_000);
    tally.expect("siblings both ways", &[0, 14, 16], 1_000);
    tally.expect("meet", &[0, 13, 14, 15], 1_000);
    tally.expect("meet by root ranks", &[0, 14], 1_000);
    tally.expect("climb", &[0, 13, 14, 15], 1_000);
    tally.expect_reached(&["two nodes meet", "two nodes don't meet"], 1_000);
    tally.expect("subtree_sum", &[0, 13, 14, 15], 1_000);
    tally.expect("path_sum", &[0, 13, 14, 15], 1_000);
    tally.expect("pull", &[0, 4, 13, 15], 1_000);
    tally.expect_reached(&["totals moved by a pull"], 1_000);
    tally.expect_reached(&["navigation from row number 0"], 500);
    tally.expect_reached(&["descendants with levels left out"], 200);
}

#[test]
fn hops_on_damaged_indexes() {
    let tally = Tally::of_runs("hops", 53, 50_000, navigation::hop_calls);
    tally.expect("siblings by hops", &[0, 13, 14, 15, 16], 500);
    tally.expect("siblings both ways", &[0, 14, 16], 200);
    tally.expect_reached(&["other ranks by hops than the siblings"], 500);
    tally.expect_reached(&hops::FACTS, 500);
    tally.expect_reached(&hops::REFUSALS, 200);
}

#[test]
fn meetings_on_damaged_indexes() {
    let tally = Tally::of_runs("meetings", 54, 50_000, navigation::meeting_calls);
    tally.expect("meet", &[0, 13, 14, 15], 1_000);
    tally.expect("meet by root ranks", &[0, 14], 1_000);
    tally.expect("climb", &[0, 13, 14, 15], 1_000);
    tally.expect_reached(&["two nodes meet", "two nodes don't meet"], 1_000);
    tally.expect_reached(&meetings::FACTS, 500);
    tally.expect_reached(&meetings::REFUSALS, 200);
    tally.expect_reached(&meetings::CLIMBS, 1_000);
}

#[test]
fn index_checks() {
    let tally = Tally::of_runs("index checks", 52, 50_000, navigation::checks);
    tally.expect("index_check yes", &[0], 5_000);
    tally.expect("index_check no", &[0], 5_000);
    tally.expect_reached(&LEVELS, 100);
}
