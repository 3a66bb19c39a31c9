//! Pulls of one part: on right and damaged slices, and after remarks of boards that builds of every kind have an index
//! of, where a new build must leave what the pull does.

use crate::baseline;
use crate::builds::CODES;
use crate::edits::{after_history, board, edit};
use crate::tally::Tally;
use flowpewter::sys::{self, Built};
use flowpewter::{Board, Days};
use generate::builds::{large_case, large_island_case};
use generate::pulls::{self, remarks};
use generate::{
    bare_board, build_case, build_case_of, dated, dated_case, default_case, default_case_of,
    holding, island_case, large_pull_case, levelled_case, pull_case, remark, rows, shortest_case,
    small_boards, BuildCase, DatedCase, History, LevelledCase, PullCase, Random, Remark, SHAPES,
};
use reference::{Body, Call};
use std::hint::black_box;

/// The safe face's pull.
fn by_safe_face(index: &[u32], totals: &mut [i64], row: u32, difference: i64) -> u32 {
    match flowpewter::pull(index, totals, row, difference) {
        Ok(()) => 0,
        Err(refusal) => refusal.number(),
    }
}

/// One pull on both sides, by the safe face too and by the baseline: the refusal, each of the lent totals afterwards, and
/// that the index stays. Answers the refusal and the totals.
pub fn compare(case: &PullCase, tally: &mut Tally) -> (u32, Vec<i64>) {
    let PullCase { index, totals, row, difference } = case;
    let mut after = totals.clone();
    let expected = reference::pull(index, &mut after, *row, *difference);
    tally.note("pull", expected);
    for call in [sys::pull, by_safe_face, baseline::pull] {
        let (lent, mut lent_totals) = (index.clone(), totals.clone());
        let refusal = call(black_box(&lent), &mut lent_totals, *row, *difference);
        assert_eq!(refusal, expected, "{case:?}");
        assert_eq!(lent_totals, after, "{case:?}");
        assert_eq!(black_box(&lent), index, "{case:?}");
    }
    assert!(expected == 0 || after == *totals, "a refused pull moves totals: {case:?}");
    (expected, after)
}

/// How many nodes of the spans and on the ways up of all ranks of a right index end in a row.
struct Ending {
    below: Vec<i64>,
    above: Vec<i64>,
}

impl Ending {
    fn of(index: &[u32], row: u32) -> Ending {
        let bodies: Vec<Body> = (1..=index[0] as usize).map(|at| Body::read(index, at)).collect();
        let mut up_to = vec![0];
        let mut above = vec![0];
        for body in &bodies {
            let own = (body.row == row) as i64;
            up_to.push(up_to[up_to.len() - 1] + own);
            above.push(above[body.parent as usize] + own);
        }
        let mut below = vec![0];
        for (before, body) in bodies.iter().enumerate() {
            below.push(up_to[before + body.size as usize] - up_to[before]);
        }
        Ending { below, above }
    }
}

/// The library's sums of every rank before and after an accepted pull of what a build left: each moves by the difference
/// for each node that ends in the row, of the span or on the way up, as the row numbers of the index tell.
fn compare_sums(case: &PullCase, after: &[i64]) {
    let (index, before) = (&case.index[..], &case.totals[..]);
    let ending = Ending::of(index, case.row);
    let moved = |sum: fn(&[u32], &[i64], u32) -> sys::Summed, rank: u32| {
        let (old, new) = (sum(index, before, rank), sum(index, after, rank));
        assert_eq!((old.refusal, new.refusal), (0, 0), "{rank} {case:?}");
        new.sum - old.sum
    };
    for rank in 1..=index[0] {
        let by = [ending.below[rank as usize], ending.above[rank as usize]];
        let expected = by.map(|nodes| case.difference * nodes);
        let found = [moved(sys::subtree_sum, rank), moved(sys::path_sum, rank)];
        assert_eq!(found, expected, "{rank} {case:?}");
    }
}

/// One pull on a case around it; counts what it comes to.
pub fn cases(random: &mut Random, tally: &mut Tally) {
    let case = pull_case(random);
    let (refusal, after) = compare(&case, tally);
    if refusal == 0 {
        let moved = &after[..=case.index[0] as usize];
        tally.reach_all(pulls::FACTS, pulls::facts(&case, moved));
    } else {
        tally.reach_all(pulls::REFUSALS, pulls::refusals(&case));
    }
}

/// One pull near the limit of nodes, most or all of which end in the row.
pub fn large(random: &mut Random, tally: &mut Tally) {
    compare(&large_pull_case(random), tally);
}

/// What a build left: its answer, and all slices.
#[derive(Clone, Debug, PartialEq, Eq)]
struct Left {
    built: Built,
    index: Vec<u32>,
    totals: Vec<i64>,
    /// None but of a dated build.
    days: Vec<u32>,
}

/// What a build leaves in copies of the slices.
fn left(
    index: &[u32],
    totals: &[i64],
    build: impl FnOnce(&mut [u32], &mut [i64]) -> Built,
) -> Left {
    let (mut index, mut totals) = (index.to_vec(), totals.to_vec());
    let built = build(&mut index, &mut totals);
    Left { built, index, totals, days: Vec::new() }
}

/// A build before a remark of one row by the library's call, and after it: the same answer, index and days, and the
/// totals that a pull of the first makes. Then the remark is undone, and pulled back. Answers whether the build is
/// accepted.
fn compare_remark(
    reference: &reference::Board,
    remark: Remark,
    build: impl Fn(&Board) -> Left,
    tally: &mut Tally,
) -> bool {
    let Remark { row, minutes, difference } = remark;
    let old = board(reference);
    let before = build(&old);
    if before.built.refusal != 0 {
        return false;
    }
    let edited = sys::remark(&old, row as usize, minutes);
    assert_eq!(edited.refusal, 0);
    let of_row = |board: &Board| board.held()[row as usize - 1].minutes as i64;
    assert_eq!(of_row(&edited.board) - of_row(&old), difference);

    let after = build(&edited.board);
    let what = || format!("{remark:?} {:?}", reference.held());
    let Left { index, totals, .. } = before.clone();
    let case = PullCase { index, totals, row, difference };
    let (refusal, pulled) = compare(&case, tally);
    tally.note("pull after a remark", refusal);
    assert_eq!(refusal, 0, "{}", what());
    assert_eq!(after.built, before.built, "{}", what());
    assert!(after.index == before.index && after.days == before.days, "{}", what());
    assert!(after.totals == pulled, "a build leaves other totals: {}", what());
    compare_sums(&case, &pulled);

    let undone = sys::undo(&edited.board);
    assert_eq!((undone.refusal, of_row(&undone.board)), (0, of_row(&old)));
    let back = PullCase { totals: pulled, difference: -difference, ..case };
    assert!(compare(&back, tally) == (0, before.totals), "pulled back: {}", what());
    tally.reach_all(pulls::REMARKS, remarks(&remark, reference.held(), &before.index));
    true
}

/// Options of a build of a board that a pull was compared on.
pub const OPTIONS: [&str; 4] = ["with a depth", "without a depth", "by a list", "by parent 0"];

/// A remark of any row of a board on which a build leaves what it leaves, where there is one; counts the options of an
/// accepted build.
fn remark_any(
    random: &mut Random,
    reference: &reference::Board,
    (depth, list): (Option<i32>, Option<&[u32]>),
    build: impl Fn(&Board) -> Left,
    tally: &mut Tally,
) -> bool {
    let Some(remark) = remark(random, reference.held()) else { return false };
    let accepted = compare_remark(reference, remark, build, tally);
    if accepted {
        let (deep, listed) = (depth.is_some(), list.is_some());
        tally.reach_all(OPTIONS, [deep, !deep, listed, !listed]);
    }
    accepted
}

/// A remark of a board that is built by a code, with any depth and start rule.
fn remark_of_build(
    random: &mut Random,
    reference: &reference::Board,
    case: &BuildCase,
    tally: &mut Tally,
) {
    let (code, depth, list) = (case.code, case.depth, case.start.as_deref());
    let build = |board: &Board| {
        left(&case.index, &case.totals, |index, totals| {
            sys::build(board, code, depth, list, index, totals)
        })
    };
    if remark_any(random, reference, (depth, list), build, tally) {
        tally.reach(CODES[code as usize]);
    }
}

/// A remark of generated rows, or of rows with rings, built by any code, depth and start rule.
pub fn remarks_of_builds(random: &mut Random, tally: &mut Tally) {
    let with_rings = random.chance(1, 3);
    let case = if with_rings { island_case(random) } else { build_case(random) };
    let reference = holding(random, &case.rows);
    remark_of_build(random, &reference, &case, tally);
}

/// Remarks of rows of one shape, built by every option code and both start rules.
pub fn remarks_by_every_code(random: &mut Random, tally: &mut Tally) {
    let shape = random.pick(&SHAPES);
    let size = random.between(1, 16);
    let rows = rows(random, shape, size);
    let reference = holding(random, &rows);
    let list = Some(vec![random.pick(&rows).numeral, random.pick(&rows).numeral]);
    for start in [None, list] {
        let (rows, index, totals) = (rows.clone(), vec![7; 8 + 6 * 2_000], vec![7; 2_001]);
        let mut case = BuildCase { rows, code: 0, depth: None, start, index, totals };
        for code in 0..24 {
            case.code = code;
            remark_of_build(random, &reference, &case, tally);
        }
    }
}

/// A remark of the board that a list of calls leaves.
pub fn remarks_after_edits(random: &mut Random, kind: History, tally: &mut Tally) {
    let reference = after_history(random, kind);
    let case = build_case_of(random, reference.held().to_vec());
    remark_of_build(random, &reference, &case, tally);
}

/// What a build by default leaves in slices as the case has them.
fn default_left(board: &Board, case: &BuildCase) -> Left {
    left(&case.index, &case.totals, |index, totals| sys::build_default(board, index, totals))
}

/// A remark of generated rows, built by default.
pub fn remarks_of_defaults(random: &mut Random, tally: &mut Tally) {
    let case = if random.chance(1, 4) {
        default_case(random)
    } else {
        let (shape, size) = (random.pick(&SHAPES), random.between(1, 60));
        let rows = rows(random, shape, size);
        default_case_of(random, rows)
    };
    let reference = holding(random, &case.rows);
    let build = |board: &Board| default_left(board, &case);
    remark_any(random, &reference, (None, None), build, tally);
}

/// A remark of generated rows, of which the shortest placement is built.
pub fn remarks_of_placements(random: &mut Random, tally: &mut Tally) {
    let case = shortest_case(random);
    let reference = holding(random, &case.rows);
    let list = case.start.as_deref();
    let build = |board: &Board| {
        left(&case.index, &case.totals, |index, totals| {
            sys::build_shortest(board, list, index, totals)
        })
    };
    remark_any(random, &reference, (None, list), build, tally);
}

/// A remark of a board that is built in a window of days.
fn remark_of_dated(random: &mut Random, case: &DatedCase, tally: &mut Tally) {
    let reference = holding(random, &case.rows);
    let (code, depth, list) = (case.code, case.depth, case.start.as_deref());
    let window = Days::new(case.window.first, case.window.last);
    let build = |board: &Board| {
        let mut days = case.days.clone();
        let left = left(&case.index, &case.totals, |index, totals| {
            sys::build_dated(board, code, depth, list, window, index, totals, &mut days)
        });
        Left { days, ..left }
    };
    if remark_any(random, &reference, (depth, list), build, tally) {
        tally.reach(CODES[code as usize]);
    }
}

/// A remark of generated rows with days, built in a window.
pub fn remarks_of_dated_builds(random: &mut Random, tally: &mut Tally) {
    let case = dated_case(random);
    remark_of_dated(random, &case, tally);
}

/// Remarks of boards with so many nodes, one of them with most of its nodes below entries and one with days.
pub fn remarks_at_the_limit(random: &mut Random, nodes: usize, tally: &mut Tally) {
    for case in [large_case(random, nodes), large_island_case(random, nodes)] {
        let reference = holding(random, &case.rows);
        remark_of_build(random, &reference, &case, tally);
    }
    let case = dated::large_case(random, nodes);
    remark_of_dated(random, &case, tally);
}

/// A remark of each row of every small board, built by default.
pub fn small(most: u32, orders: u32, tally: &mut Tally) {
    for rows in small_boards(most, orders) {
        let reference = bare_board(&rows);
        let (index, totals) = (vec![7; 8 + 6 * 60], vec![7; 61]);
        let case = BuildCase { rows, code: 3, depth: None, start: None, index, totals };
        for (row, old) in (1..).zip(&case.rows) {
            let remark = Remark { row, minutes: old.minutes - 5, difference: -5 };
            let build = |board: &Board| default_left(board, &case);
            assert!(compare_remark(&reference, remark, build, tally), "{:?}", case.rows);
        }
    }
}

/// What leads from one board to the next, by name.
pub const STEPS: [&str; 3] = ["pull of a remark", "pull of an undo", "pull of a redo"];

/// Remarks of a board one after the other, undone and redone by the library: a pull for each, of the totals that the last
/// one left, makes the totals of a build after all. Every other step leaves the minutes.
pub fn one_after_the_other(random: &mut Random, tally: &mut Tally) {
    let (shape, size) = (random.pick(&SHAPES), random.between(1, 30));
    let rows = rows(random, shape, size);
    let case = default_case_of(random, rows);
    let mut library = board(&bare_board(&case.rows));
    let before = default_left(&library, &case);
    if before.built.refusal != 0 {
        return;
    }
    let mut totals = before.totals;
    for _ in 0..20 {
        let old = library;
        let (kind, call) = match random.below(4) {
            0 => (1, Call::Undo),
            1 => (2, Call::Redo),
            _ => (0, Call::Remark(random.between(1, size), random.minutes())),
        };
        library = edit(&old, call).board;
        for (row, (old, new)) in (1..).zip(old.held().iter().zip(library.held())) {
            let difference = new.minutes as i64 - old.minutes as i64;
            if difference != 0 {
                let index = before.index.clone();
                let (refusal, pulled) =
                    compare(&PullCase { index, totals, row, difference }, tally);
                assert_eq!(refusal, 0);
                totals = pulled;
                tally.reach(STEPS[kind]);
            }
        }
    }
    let after = default_left(&library, &case);
    assert!(after.index == before.index && after.totals == totals, "{:?}", case.rows);
    tally.note("build after all pulls", after.built.refusal);
}

/// How many nodes have a pulled line of a levelled list first, by name.
pub const LINES: [&str; 3] = ["a line of no node", "a line of one node", "a line of several nodes"];

/// Pulls of lines of a levelled list, and of the line after the last: the totals are those of nodes with the minutes of
/// the first line that has them.
pub fn pulls_of_lists(random: &mut Random, tally: &mut Tally) {
    let LevelledCase { cells, width, index, totals } = levelled_case(random);
    let before =
        left(&index, &totals, |index, totals| sys::build_levelled(&cells, width, index, totals));
    if before.built.refusal != 0 {
        return;
    }
    let n = before.built.nodes as usize;
    let first_lines: Vec<usize> =
        (1..=n).map(|rank| Body::read(&before.index, rank).row as usize).collect();
    let lines = cells.len() / width as usize;
    let mut minutes = vec![0; lines + 2];
    let mut totals = before.totals.clone();
    for _ in 0..6 {
        let line = random.between(1, lines + 1);
        let new = random.minutes() as i64;
        let difference = new - minutes[line];
        minutes[line] = new;
        let case = PullCase { index: before.index.clone(), totals, row: line as u32, difference };
        let (refusal, pulled) = compare(&case, tally);
        tally.note("pull of a line", refusal);
        assert_eq!(refusal, 0, "{case:?}");
        compare_sums(&case, &pulled);
        totals = pulled;
        let nodes = first_lines.iter().filter(|first| **first == line).count();
        tally.reach(LINES[nodes.min(2)]);
    }
    let mut expected = before.totals;
    for (rank, line) in (1..).zip(first_lines) {
        expected[rank] = expected[rank - 1] + minutes[line];
    }
    assert_eq!(totals, expected, "{width} {cells:?}");
}
