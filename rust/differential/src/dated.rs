//! Dated builds, and navigation of what they leave; builds without a window of rows with any days.

use crate::builds::CODES;
use crate::edits::{after_history, board};
use crate::tally::Tally;
use crate::{baseline, navigation};
use flowpewter::{build_dated_with_code, node_days, sys, Board, Days};
use generate::builds::start_of;
use generate::dated::{self, dated, dated_case, dated_case_of, large_case, Dating, DATINGS};
use generate::shortest::{net, NETS};
use generate::{
    bare_board, build_case, holding, small_dated_boards, unsound_boards, DatedCase, History, Random,
};
use reference::{build_dated_board, Body, Built, MAX_ROWS};

/// The window of a case, as the library has it.
fn window(case: &DatedCase) -> Days {
    Days::new(case.window.first, case.window.last)
}

/// The safe face's build.
#[allow(clippy::too_many_arguments)]
fn by_safe_face(
    board: &Board,
    code: u32,
    depth: Option<i32>,
    list: Option<&[u32]>,
    window: Days,
    index: &mut [u32],
    totals: &mut [i64],
    days: &mut [u32],
) -> sys::Built {
    let start = list.map_or(flowpewter::Start::ParentZero, flowpewter::Start::Numerals);
    match build_dated_with_code(board, code, depth, start, window, index, totals, days) {
        Ok(built) => sys::Built { refusal: 0, nodes: built.nodes, left: built.left },
        Err(refusal) => sys::Built { refusal: refusal.number(), nodes: 0, left: 0 },
    }
}

/// One build on both sides, by the safe face too and by the baseline that the library is measured against; counts what
/// its rows come to. Answers the case with its slices as they are afterwards.
pub fn compare(
    reference: &reference::Board,
    case: &DatedCase,
    tally: &mut Tally,
) -> (Built, DatedCase) {
    let mut after = case.clone();
    let DatedCase { index, totals, days, .. } = &mut after;
    let expected = build_dated_board(reference, case.asked(), index, totals, days);
    tally.note("build_dated", expected.refusal);

    let library = board(reference);
    for build in [sys::build_dated, by_safe_face, baseline::build_dated] {
        let (mut index, mut totals) = (case.index.clone(), case.totals.clone());
        let mut days = case.days.clone();
        let list = case.start.as_deref();
        let (code, depth, window) = (case.code, case.depth, window(case));
        let built = build(&library, code, depth, list, window, &mut index, &mut totals, &mut days);
        let what = || format!("{:?} {:?}", case.asked(), case.rows);
        let answer = (built.refusal, built.nodes, built.left);
        assert_eq!(answer, (expected.refusal, expected.nodes, expected.left), "{}", what());
        assert!(index == after.index, "another index: {}", what());
        assert!(totals == after.totals, "other totals: {}", what());
        assert!(days == after.days, "other days: {}", what());
    }
    if expected.refusal == 0 {
        within_those_above(case, expected, &after);
        tally.reach_all(dated::FACTS, dated::facts(case, &after.index, &after.days));
    } else {
        let zeroed = |words: &[u32]| words.iter().all(|word| *word == 0);
        assert!(zeroed(&after.index) && zeroed(&after.days), "{case:?}");
        assert!(after.totals.iter().all(|total| *total == 0), "{case:?}");
        tally.reach_all(dated::REFUSALS, dated::refusals(case, expected.refusal));
    }
    (expected, after)
}

/// The index check; each node has days, within those of its parent, or of the window at a root; words beyond stay.
fn within_those_above(case: &DatedCase, built: Built, after: &DatedCase) {
    assert!(sys::index_check(&after.index), "{after:?}");
    let days = |rank: u32| node_days(&after.days, rank).expect("two words for each node");
    for rank in 1..=built.nodes {
        let above = match Body::read(&after.index, rank as usize).parent {
            0 => window(case),
            parent => days(parent),
        };
        let own = days(rank);
        assert!(!own.is_empty() && own.common(above) == own, "rank {rank}: {after:?}");
    }
    let written = 2 * built.nodes as usize;
    assert_eq!(after.days[written..], case.days[written..]);
}

/// One build on both sides of a sound board that holds the rows of the case, and every navigation call from some ranks of
/// what it leaves.
fn run(random: &mut Random, reference: &reference::Board, case: &DatedCase, tally: &mut Tally) {
    let (built, after) = compare(reference, case, tally);
    if built.refusal == 0 {
        navigation::of_build(random, built.nodes, &after.index, &after.totals, tally);
    }
}

/// One build of generated rows, and every navigation call on what it leaves.
pub fn cases(random: &mut Random, tally: &mut Tally) {
    let case = dated_case(random);
    let reference = holding(random, &case.rows);
    run(random, &reference, &case, tally);
}

/// Builds of 1,024 rows, or hardly fewer, of each kind, with days of each kind.
pub fn full(random: &mut Random, tally: &mut Tally) {
    for kind in NETS {
        for dating in DATINGS {
            let plain = net(random, kind, MAX_ROWS);
            let rows = dated(random, dating, &plain);
            let case = dated_case_of(random, rows);
            let reference = holding(random, &case.rows);
            run(random, &reference, &case, tally);
        }
    }
}

/// Builds of the board that a list of calls leaves.
pub fn edited(random: &mut Random, kind: History, tally: &mut Tally) {
    let reference = after_history(random, kind);
    for _ in 0..3 {
        let case = dated_case_of(random, reference.held().to_vec());
        run(random, &reference, &case, tally);
    }
}

/// Rows of one kind under every option code and some above, by both start rules, in a window with days and in one without.
pub fn codes(random: &mut Random, tally: &mut Tally) {
    let (kind, dating) = (random.pick(&NETS), random.pick(&DATINGS));
    let size = random.between(1, 16);
    let plain = net(random, kind, size);
    let rows = dated(random, dating, &plain);
    let reference = holding(random, &rows);
    let list = Some(vec![random.pick(&rows).numeral, random.pick(&rows).numeral]);
    for start in [None, list] {
        let window = dated::window(random, &rows, start_of(&start));
        for window in [window, random.backward_days()] {
            let (rows, start, depth) = (rows.clone(), start.clone(), None);
            let (index, totals) = (random.noise(8 + 6 * 2_000), random.wide_noise(2_001));
            let days = random.noise(2 * 2_000);
            let mut case = DatedCase { rows, code: 0, depth, start, window, index, totals, days };
            for code in (0..48).chain((6..32).map(|bit| 1 << bit)).chain([u32::MAX]) {
                case.code = code;
                let (built, _) = compare(&reference, &case, tally);
                if built.refusal == 0 {
                    tally.reach(CODES[code as usize]);
                }
            }
        }
    }
}

/// Builds on boards that aren't sound.
pub fn unsound(random: &mut Random, tally: &mut Tally) {
    for (_, reference) in unsound_boards(random) {
        let mut case = dated_case(random);
        case.rows.clear();
        let (built, _) = compare(&reference, &case, tally);
        assert_eq!(built.refusal, 1);
    }
}

/// A build at the limit of nodes.
pub fn limits(random: &mut Random, nodes: usize, tally: &mut Tally) {
    let case = large_case(random, nodes);
    let reference = holding(random, &case.rows);
    let (built, _) = compare(&reference, &case, tally);
    let expected = if nodes > 65_535 { (9, 0) } else { (0, nodes) };
    assert_eq!((built.refusal, built.nodes as usize), expected);
}

/// Every small board, in a window of all days, of each of two, and of none, by parent 0 and by a list, under codes of
/// each choice that is taken.
pub fn small(most: u32, orders: u32, tally: &mut Tally) {
    let windows = [(0, u32::MAX), (0, 0), (1, 1), (1, 0)];
    for rows in small_dated_boards(most, orders) {
        let reference = bare_board(&rows);
        for (first, last) in windows {
            for (code, start) in [(0, None), (12, None), (4, None), (8, Some(vec![2, 1]))] {
                let (index, totals) = (vec![7; 8 + 6 * 40], vec![7; 41]);
                let (rows, window) = (rows.clone(), reference::Days::new(first, last));
                let days = vec![7; 80];
                let depth = None;
                let case = DatedCase { rows, code, depth, start, window, index, totals, days };
                compare(&reference, &case, tally);
            }
        }
    }
}

/// Builds without a window of rows with any days: the words are those of the same rows without. A dated build of those,
/// in any window, leaves the words of the build without one, and each node has the days of the window.
pub fn without_a_window(random: &mut Random, tally: &mut Tally) {
    let case = build_case(random);
    let list = case.start.as_deref();
    let undated: Vec<reference::Row> = case.rows.iter().map(|row| row.on(0, u32::MAX)).collect();
    let dating = random.pick(&[Dating::Mixed, Dating::Wide, Dating::Turns, Dating::Backward]);
    let others = dated(random, dating, &undated);
    let left = |rows: &[reference::Row]| {
        let library = board(&bare_board(rows));
        let (index, totals) = (&case.index, &case.totals);
        let run = |build: &dyn Fn(&mut [u32], &mut [i64]) -> sys::Built| {
            let (mut index, mut totals) = (index.clone(), totals.clone());
            (build(&mut index, &mut totals), index, totals)
        };
        [
            run(&|index, totals| sys::build(&library, case.code, case.depth, list, index, totals)),
            run(&|index, totals| sys::build_default(&library, index, totals)),
            run(&|index, totals| sys::build_shortest(&library, list, index, totals)),
        ]
    };
    let wanted = left(&undated);
    for built in &wanted {
        tally.note("build with other days", built.0.refusal);
    }
    assert!(left(&case.rows) == wanted && left(&others) == wanted, "{case:?}");
    if others != undated {
        tally.reach("other days");
    }

    if case.code > 23 || !case.code.is_multiple_of(4) {
        return;
    }
    let library = board(&bare_board(&undated));
    let days = random.any_days();
    let window = Days::new(days.first, days.last);
    let (mut index, mut totals) = (case.index.clone(), case.totals.clone());
    let mut days = random.noise(2 * case.totals.len());
    let built = sys::build_dated(
        &library,
        case.code,
        case.depth,
        list,
        window,
        &mut index,
        &mut totals,
        &mut days,
    );
    assert!((built, index, totals) == wanted[0], "{case:?}");
    assert!((1..=built.nodes).all(|rank| node_days(&days, rank) == Some(window)), "{case:?}");
    tally.note("dated build of rows without days", built.refusal);
}
