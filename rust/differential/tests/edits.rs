//! Edits, soundness and replay against the reference.

use differential::{edits, Tally};
use generate::HISTORIES;

#[test]
fn histories() {
    let tally = Tally::of_runs("histories", 41, 100, |random, tally| {
        for kind in HISTORIES {
            edits::histories(random, kind, tally);
        }
    });
    tally.expect("add", &[0, 2, 3, 20], 100);
    tally.expect("withdraw", &[0, 4], 100);
    tally.expect("remark", &[0, 4], 100);
    tally.expect("undo", &[0, 5], 100);
    tally.expect("redo", &[0, 17], 100);
    tally.expect("undo to the bottom", &[0, 5], 500);
    tally.expect("redo to the top", &[0, 17], 500);
    tally.expect("build", &[0, 6, 7, 8, 9, 10, 11, 12], 15);
    tally.expect_reached(&["another index by row number alone"], 40);
    tally.expect_reached(&["history that ends in islands"], 60);
    tally.expect_reached(&["entry under root", "entry under adopt", "two or more entries"], 40);
}

#[test]
fn boards_that_no_history_makes() {
    let tally = Tally::of_runs("boards", 42, 100, edits::boards);
    tally.expect("add", &[0, 1, 2, 3, 20], 100);
    tally.expect("withdraw", &[0, 1, 4], 100);
    tally.expect("remark", &[0, 1, 4], 100);
    tally.expect("undo", &[0, 1, 5], 100);
    tally.expect("undo that drops", &[0], 10_000);
    tally.expect("redo", &[0, 1, 17], 100);
    tally.expect("redo that drops", &[0], 10_000);
}

#[test]
fn replays() {
    let tally = Tally::of_runs("replays", 43, 400, |random, tally| {
        for kind in HISTORIES {
            edits::replays(random, kind, tally);
        }
    });
    tally.expect("replay", &[0, 101, 102, 103], 100);
}
