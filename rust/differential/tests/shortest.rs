//! Builds of shortest placements against the reference.

use differential::{shortest, Tally};
use generate::shortest::{FACTS, REFUSALS};
use generate::HISTORIES;

#[test]
fn shortest_placements() {
    let tally = Tally::of_runs("shortest placements", 81, 12_000, shortest::cases);
    tally.expect("build_shortest", &[0, 9], 400);
    tally.expect_reached(&FACTS, 20);
    tally.expect_reached(&REFUSALS, 60);
    tally.expect_navigation(400);
}

/// All places of a board in use, with exponentially many paths.
#[test]
fn placements_of_1024_rows() {
    let tally = Tally::of_runs("placements of 1,024 rows", 82, 40, shortest::full);
    tally.expect("build_shortest", &[0], 320);
    tally.expect_reached(&["1,024 rows", "more paths than the reference lists"], 200);
    tally.expect_reached(&["1,024 nodes", "level above 100"], 20);
}

#[test]
fn placements_after_edits() {
    let tally = Tally::of_runs("placements after edits", 83, 40, |random, tally| {
        for kind in HISTORIES {
            shortest::edited(random, kind, tally);
        }
    });
    tally.expect("build_shortest", &[0, 9], 10);
}

#[test]
fn placements_of_unsound_boards() {
    let tally = Tally::of_runs("placements of unsound boards", 84, 100, shortest::unsound);
    tally.expect("build_shortest", &[1], 4_000);
}

#[test]
fn placements_of_every_small_board() {
    let mut tally = Tally::new();
    shortest::small(3, 2, &mut tally);
    shortest::small(4, 1, &mut tally);
    println!("{tally}");
    tally.expect("build_shortest", &[0], 100_000);
}
