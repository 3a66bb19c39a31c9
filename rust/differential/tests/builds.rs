//! Builds against the reference.

use differential::builds::{self, CODES};
use differential::Tally;
use generate::{islands, ties, Random};

#[test]
fn builds_of_generated_rows() {
    let tally = Tally::of_runs("builds", 61, 12_000, builds::cases);
    tally.expect("build", &[0, 6, 7, 8, 9, 10, 11, 12], 200);
    tally.expect("build_default", &[0, 9], 60);
    tally.expect("pull", &[0, 4], 100);
    tally.expect_reached(&["totals moved by a pull"], 1_000);
    tally.expect_reached(&ties::FACTS, 40);
    tally.expect_reached(&islands::FACTS, 10);
    tally.expect_reached(&islands::REFUSALS, 10);
}

#[test]
fn builds_of_islands() {
    let tally = Tally::of_runs("islands", 65, 6_000, builds::islands);
    tally.expect("build", &[0, 8, 9, 10, 11, 12], 50);
    tally.expect_reached(&islands::FACTS, 60);
    tally.expect_reached(&islands::REFUSALS, 60);
    tally.expect_reached(&["navigation from row number 0"], 1_000);
    tally.expect("pull", &[0, 4], 1_000);
    tally.expect_reached(&["totals moved by a pull"], 1_000);
}

#[test]
fn every_code() {
    let tally = Tally::of_runs("codes", 62, 500, builds::codes);
    tally.expect_reached(&CODES, 100);
}

#[test]
fn unsound_boards() {
    let tally = Tally::of_runs("unsound boards", 63, 100, builds::unsound);
    tally.expect("build", &[1], 1_000);
    tally.expect("build_default", &[1], 50);
}

#[test]
fn the_limit_of_nodes() {
    let mut random = Random::announced("limit of nodes", 64);
    let mut tally = Tally::new();
    for nodes in [65_534, 65_535, 65_536] {
        builds::limits(&mut random, nodes, &mut tally);
    }
    println!("{tally}");
}
