//! Builds, and navigation of what they leave.

use crate::edits::board;
use crate::tally::Tally;
use crate::{baseline, defaults, navigation};
use flowpewter::sys;
use generate::builds::{large_case, large_island_case, start_of};
use generate::{
    build_case, build_case_of, holding, island_case, island_case_of, islands, rows, ties,
    unsound_boards, BuildCase, Random, SHAPES,
};
use reference::{build_board, Body, Built, Start};

/// One build on both sides, and by the baseline that the library is measured against; counts what ties and islands come
/// to in it. Answers the case with its slices as they are afterwards.
pub fn compare(
    reference: &reference::Board,
    case: &BuildCase,
    tally: &mut Tally,
) -> (Built, BuildCase) {
    let mut after = case.clone();
    let (code, depth) = (case.code, case.depth);
    let start = start_of(&case.start);
    let expected = build_board(reference, code, depth, start, &mut after.index, &mut after.totals);
    tally.note("build", expected.refusal);

    let library = board(reference);
    let list = case.start.as_deref();
    let (mut index, mut totals) = (case.index.clone(), case.totals.clone());
    let built = sys::build(&library, code, depth, list, &mut index, &mut totals);
    same(case, expected, &after, (built.refusal, built.nodes, built.left), &index, &totals);

    let (mut index, mut totals) = (case.index.clone(), case.totals.clone());
    let built = baseline::build(&library, code, depth, list, &mut index, &mut totals);
    same(case, expected, &after, (built.refusal, built.nodes, built.left), &index, &totals);

    // Slices that were made for code 0 are too short for the default where a row is left over.
    if [0, 3].contains(&code) && depth.is_none() && list.is_none() {
        defaults::compare(reference, case, tally);
    }
    if expected.refusal == 0 {
        tally.reach_all(ties::FACTS, ties::facts(&case.rows, &after.index));
        tally.reach_all(islands::FACTS, islands::facts(case, &after.index));
    } else {
        tally.reach_all(islands::REFUSALS, islands::refusals(case, expected.refusal));
    }
    (expected, after)
}

/// Fails where the answer or a word differs from what the reference gives and leaves.
pub fn same(
    case: &BuildCase,
    expected: Built,
    after: &BuildCase,
    answer: (u32, u32, u32),
    index: &[u32],
    totals: &[i64],
) {
    let what = || format!("{:?} {:?} {:?} {:?}", case.code, case.depth, case.start, case.rows);
    assert_eq!(answer, (expected.refusal, expected.nodes, expected.left), "{}", what());
    assert!(index == after.index, "another index: {}", what());
    assert!(totals == after.totals, "other totals: {}", what());
}

/// One build of generated rows, and every navigation call on what it leaves.
pub fn cases(random: &mut Random, tally: &mut Tally) {
    let case = build_case(random);
    let reference = holding(random, &case.rows);
    let (built, after) = compare(&reference, &case, tally);
    if built.refusal == 0 {
        navigation::of_build(random, built.nodes, &after.index, &after.totals, tally);
    }
}

/// Every navigation call from one rank of what a build left.
fn navigate(random: &mut Random, after: &BuildCase, rank: u32, tally: &mut Tally) {
    navigation::from_rank(random, &after.index, &after.totals, rank, tally);
}

/// One build of rows with rings, and every navigation call from an entry, from a node below it and from the one that
/// adopts it.
pub fn islands(random: &mut Random, tally: &mut Tally) {
    let case = island_case(random);
    let reference = holding(random, &case.rows);
    let (built, after) = compare(&reference, &case, tally);
    if built.refusal != 0 {
        return;
    }
    assert!(sys::index_check(&after.index));
    let body = |rank: &u32| Body::read(&after.index, *rank as usize);
    let entries: Vec<u32> = (1..=built.nodes).filter(|rank| body(rank).row == 0).collect();
    if entries.is_empty() {
        return;
    }
    let entry = random.pick(&entries);
    let Body { parent, size, .. } = body(&entry);
    navigate(random, &after, entry, tally);
    let below = entry + random.between(1, size as usize - 1) as u32;
    navigate(random, &after, below, tally);
    if parent != 0 {
        navigate(random, &after, parent, tally);
    }
}

/// A random build of a board that edits have left, and where it has islands one more, under adopt or root mostly.
/// Answers whether it has.
pub fn edited(random: &mut Random, reference: &reference::Board, tally: &mut Tally) -> bool {
    let rows = reference.held().to_vec();
    let has_islands = islands::islands(&rows, Start::ParentZero).contains(&true);
    let case = build_case_of(random, rows.clone());
    compare(reference, &case, tally);
    if has_islands {
        let case = island_case_of(random, rows);
        compare(reference, &case, tally);
    }
    has_islands
}

/// Rows of one shape under every option code and some above, by both start rules.
pub fn codes(random: &mut Random, tally: &mut Tally) {
    let shape = random.pick(&SHAPES);
    let size = random.between(1, 16);
    let rows = rows(random, shape, size);
    let reference = holding(random, &rows);
    let list = Some(vec![random.pick(&rows).numeral, random.pick(&rows).numeral]);
    for start in [None, list] {
        let (rows, index, totals) = (rows.clone(), Vec::new(), Vec::new());
        let mut case = BuildCase { rows, code: 0, depth: None, start, index, totals };
        for code in (0..48).chain((6..32).map(|bit| 1 << bit)).chain([u32::MAX]) {
            case.code = code;
            // Codes from 28 on are all refused, and find the slices that 27 found.
            if code < 28 {
                case.index = random.noise(8 + 6 * 2_000);
                case.totals = random.wide_noise(2_001);
            }
            let (built, _) = compare(&reference, &case, tally);
            if built.refusal == 0 {
                tally.reach(CODES[code as usize]);
            }
        }
    }
}

/// Names under which accepted builds are counted by code.
pub const CODES: [&str; 24] = [
    "code 00", "code 01", "code 02", "code 03", "code 04", "code 05", "code 06", "code 07",
    "code 08", "code 09", "code 10", "code 11", "code 12", "code 13", "code 14", "code 15",
    "code 16", "code 17", "code 18", "code 19", "code 20", "code 21", "code 22", "code 23",
];

/// Builds on boards that aren't sound.
pub fn unsound(random: &mut Random, tally: &mut Tally) {
    for (_, reference) in unsound_boards(random) {
        let mut case = build_case(random);
        case.rows.clear();
        let (built, _) = compare(&reference, &case, tally);
        assert_eq!(built.refusal, 1);
    }
}

/// Two builds at the limit of nodes, one of them with most of its nodes below entries.
pub fn limits(random: &mut Random, nodes: usize, tally: &mut Tally) {
    for case in [large_case(random, nodes), large_island_case(random, nodes)] {
        let reference = holding(random, &case.rows);
        let (built, after) = compare(&reference, &case, tally);
        if nodes > 65_535 {
            assert_eq!(built.refusal, 9);
        } else if built.refusal == 0 {
            assert_eq!(built.nodes as usize, nodes);
            assert!(sys::index_check(&after.index));
        }
    }
}
