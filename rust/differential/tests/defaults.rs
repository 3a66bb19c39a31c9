//! Builds by default against the reference.

use differential::defaults::{self, FACTS};
use differential::Tally;

#[test]
fn builds_by_default() {
    let tally = Tally::of_runs("builds by default", 91, 6_000, defaults::cases);
    tally.expect("build_default", &[0, 9], 400);
    tally.expect_reached(&FACTS, 60);
    tally.expect("pull", &[0, 4], 200);
    tally.expect_reached(&["totals moved by a pull"], 1_000);
}

#[test]
fn parts_drawn_in_any_order() {
    let tally = Tally::of_runs("parts drawn in any order", 92, 200, defaults::drawn_in_any_order);
    tally.expect("build_default", &[0, 9], 200);
    tally.expect_reached(&["a tree drawn in any order"], 200);
    tally.expect_reached(&FACTS[..4], 200);
}

#[test]
fn defaults_of_every_small_board() {
    let mut tally = Tally::new();
    defaults::small(3, 2, &mut tally);
    defaults::small(4, 1, &mut tally);
    println!("{tally}");
    tally.expect("build_default", &[0], 30_000);
}
