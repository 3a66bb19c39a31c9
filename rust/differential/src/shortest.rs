//! Builds of shortest placements, and navigation of what they leave.

use crate::edits::{after_history, board};
use crate::tally::Tally;
use crate::{baseline, navigation};
use flowpewter::sys;
use generate::builds::start_of;
use generate::shortest::{self, full_case, shortest_case, shortest_case_of, NETS};
use generate::{bare_board, holding, small_boards, unsound_boards, History, Random, ShortestCase};
use reference::{build_shortest_board, Body, Built, Row};
use std::collections::HashSet;

/// One build on both sides, and by the baseline that the library is measured against; counts what its rows come to.
/// Answers the case with its slices as they are afterwards.
pub fn compare(
    reference: &reference::Board,
    case: &ShortestCase,
    tally: &mut Tally,
) -> (Built, ShortestCase) {
    let mut after = case.clone();
    let expected =
        build_shortest_board(reference, case.start(), &mut after.index, &mut after.totals);
    tally.note("build_shortest", expected.refusal);

    let library = board(reference);
    for build in [sys::build_shortest, baseline::build_shortest] {
        let (mut index, mut totals) = (case.index.clone(), case.totals.clone());
        let built = build(&library, case.start.as_deref(), &mut index, &mut totals);
        let what = || format!("{:?} {:?}", case.start, case.rows);
        let answer = (built.refusal, built.nodes, built.left);
        assert_eq!(answer, (expected.refusal, expected.nodes, expected.left), "{}", what());
        assert!(index == after.index, "another index: {}", what());
        assert!(totals == after.totals, "other totals: {}", what());
    }
    if expected.refusal == 0 {
        once_each(&case.rows, expected, &after.index);
        tally.reach_all(shortest::FACTS, shortest::facts(case, &after.index));
    } else {
        tally.reach_all(shortest::REFUSALS, shortest::refusals(case, expected.refusal));
    }
    (expected, after)
}

/// Each numeral once, no flag, each level one above the parent's, and all rows counted.
fn once_each(rows: &[Row], built: Built, index: &[u32]) {
    let bodies: Vec<Body> =
        (1..=built.nodes as usize).map(|rank| Body::read(index, rank)).collect();
    let numerals: HashSet<u32> = bodies.iter().map(|body| body.numeral).collect();
    assert_eq!(numerals.len(), bodies.len(), "a numeral twice: {rows:?}");
    assert_eq!((built.nodes + built.left) as usize, rows.len(), "{rows:?}");
    for body in &bodies {
        let above = if body.parent == 0 { 0 } else { bodies[body.parent as usize - 1].level };
        assert!(!body.closing && !body.orphan && body.level == above + 1, "{body:?} {rows:?}");
    }
}

/// One build on both sides of a sound board that holds the rows of the case, and navigation of what it leaves.
fn run(random: &mut Random, reference: &reference::Board, case: &ShortestCase, tally: &mut Tally) {
    let (built, after) = compare(reference, case, tally);
    if built.refusal == 0 {
        navigation::of_build(random, built.nodes, &after.index, &after.totals, tally);
    }
}

/// One build of generated rows, and every navigation call on what it leaves.
pub fn cases(random: &mut Random, tally: &mut Tally) {
    let case = shortest_case(random);
    let reference = holding(random, &case.rows);
    run(random, &reference, &case, tally);
}

/// Builds of 1,024 rows, or hardly fewer, of each kind.
pub fn full(random: &mut Random, tally: &mut Tally) {
    for kind in NETS {
        let case = full_case(random, kind);
        let reference = holding(random, &case.rows);
        run(random, &reference, &case, tally);
    }
}

/// A build of the board that a list of calls leaves.
pub fn edited(random: &mut Random, kind: History, tally: &mut Tally) {
    let reference = after_history(random, kind);
    let case = shortest_case_of(random, reference.held().to_vec());
    run(random, &reference, &case, tally);
}

/// Builds on boards that aren't sound.
pub fn unsound(random: &mut Random, tally: &mut Tally) {
    for (_, reference) in unsound_boards(random) {
        let mut case = shortest_case(random);
        case.rows.clear();
        let (built, _) = compare(&reference, &case, tally);
        assert_eq!(built.refusal, 1);
    }
}

/// Every small board, by parent 0 and by lists of one and of two numerals.
pub fn small(most: u32, orders: u32, tally: &mut Tally) {
    for rows in small_boards(most, orders) {
        let reference = bare_board(&rows);
        for start in [None, Some(vec![2]), Some(vec![3, 1])] {
            let n = shortest::reached(&rows, start_of(&start));
            let (index, totals) = (vec![7; 8 + 6 * n + 1], vec![7; n + 2]);
            let case = ShortestCase { rows: rows.clone(), start, index, totals };
            let (_, after) = compare(&reference, &case, tally);
            assert!(sys::index_check(&after.index), "{after:?}");
        }
    }
}
