//! Builds of levelled lists against the reference.

use differential::levelled::{self, WIDTHS};
use differential::Tally;
use generate::levelled::{FACTS, REFUSALS};
use generate::Random;

#[test]
fn levelled_lists() {
    let tally = Tally::of_runs("levelled lists", 71, 12_000, levelled::cases);
    tally.expect("build_levelled", &[0, 9, 18, 19], 400);
    tally.expect_reached(&WIDTHS, 400);
    tally.expect_reached(&FACTS, 60);
    tally.expect_reached(&REFUSALS, 10);
    tally.expect_navigation(400);
    tally.expect_reached(&["descendants with levels left out"], 400);
}

/// Lines and widths at their limits.
#[test]
fn the_limits_of_lists() {
    let mut random = Random::announced("limits of lists", 72);
    let mut tally = Tally::new();
    for width in [1, 7, 8] {
        for count in [0, 1, 511, 512, 513] {
            levelled::lines(&mut random, count, width, &mut tally);
        }
    }
    println!("{tally}");
    tally.expect("build_levelled", &[0, 19], 18);
}

#[test]
fn every_small_list() {
    let mut tally = Tally::new();
    for (width, most) in [(1, 7), (2, 4), (3, 3), (4, 2), (8, 1)] {
        levelled::small(width, most, &mut tally);
    }
    println!("{tally}");
    tally.expect("build_levelled", &[0], 30_000);
}
