//! Builds by default, and navigation of what they leave.

use crate::baseline;
use crate::builds::same;
use crate::edits::{board, edit};
use crate::navigation;
use crate::tally::Tally;
use flowpewter::{build, sys, Board, Options};
use generate::builds::size;
use generate::{
    bare_board, default_case, default_case_of, holding, rows, small_boards, BuildCase, Random,
    Shape,
};
use reference::{build_board, build_default_board, Body, Built, Call, Start};

/// What an accepted build by default finds among the rows.
pub const FACTS: [&str; 7] = [
    "by default, all rows hang from start rows",
    "by default, a row whose parent isn't there",
    "by default, two such rows or more",
    "by default, rows below such a row",
    "by default, a ring with no way in",
    "by default, no start row",
    "by default, an orphan with the numeral of a row that hangs from a start row",
];

/// The options' default.
fn by_options(board: &Board, index: &mut [u32], totals: &mut [i64]) -> sys::Built {
    match build(board, &Options::default(), index, totals) {
        Ok(built) => sys::Built { refusal: 0, nodes: built.nodes, left: built.left },
        Err(refusal) => sys::Built { refusal: refusal.number(), nodes: 0, left: 0 },
    }
}

/// The baseline that the library is measured against.
fn by_baseline(board: &Board, index: &mut [u32], totals: &mut [i64]) -> sys::Built {
    baseline::build(board, 3, None, None, index, totals)
}

/// The build by default on both sides, in three ways, into slices as the case has them. Of an accepted one each row
/// number is that of a node, and no row is left over. Answers the case with its slices as they are afterwards.
pub fn compare(
    reference: &reference::Board,
    case: &BuildCase,
    tally: &mut Tally,
) -> (Built, BuildCase) {
    let mut after = case.clone();
    let expected = build_default_board(reference, &mut after.index, &mut after.totals);
    tally.note("build_default", expected.refusal);

    let library = board(reference);
    for way in [sys::build_default, by_options, by_baseline] {
        let (mut index, mut totals) = (case.index.clone(), case.totals.clone());
        let built = way(&library, &mut index, &mut totals);
        same(case, expected, &after, (built.refusal, built.nodes, built.left), &index, &totals);
    }
    if expected.refusal == 0 {
        let nodes: Vec<Body> =
            (1..=expected.nodes).map(|rank| Body::read(&after.index, rank as usize)).collect();
        let mut has_node = vec![false; reference.held().len() + 1];
        nodes.iter().for_each(|body| has_node[body.row as usize] = true);
        assert!(has_node[1..].iter().all(|has| *has), "a row without a node: {:?}", case.rows);
        assert_eq!(expected.left, 0, "{:?}", case.rows);
        tally.reach_all(FACTS, facts(&nodes));
    }
    (expected, after)
}

/// What the nodes of an accepted build by default tell of the rows.
fn facts(nodes: &[Body]) -> [bool; 7] {
    let (drawn, orphans): (Vec<Body>, Vec<Body>) = nodes.iter().partition(|body| !body.orphan);
    let tops: Vec<&Body> =
        orphans.iter().filter(|body| body.parent == 0 && body.row != 0).collect();
    [
        !nodes.is_empty() && orphans.is_empty(),
        !tops.is_empty(),
        tops.len() > 1,
        tops.iter().any(|body| body.size > 1),
        orphans.iter().any(|body| body.row == 0),
        !nodes.is_empty() && drawn.is_empty(),
        orphans.iter().any(|body| drawn.iter().any(|other| other.numeral == body.numeral)),
    ]
}

/// One build by default of generated rows, and every navigation call on what it leaves.
pub fn cases(random: &mut Random, tally: &mut Tally) {
    let case = default_case(random);
    let reference = holding(random, &case.rows);
    let (built, after) = compare(&reference, &case, tally);
    if built.refusal == 0 {
        navigation::of_build(random, built.nodes, &after.index, &after.totals, tally);
    }
}

/// A tree that is drawn part by part, in any order, so that parts come before their parents: by default each part is in
/// the index from the start. Where all are drawn it is the index of code 0, word for word.
pub fn drawn_in_any_order(random: &mut Random, tally: &mut Tally) {
    let size = size(random).min(40);
    let mut parts = rows(random, Shape::Tree, size);
    random.shuffle(&mut parts);
    let mut reference = reference::Board::EMPTY;
    let mut library = sys::empty();
    for part in parts {
        reference = reference.call(Call::Add(part)).board;
        library = edit(&library, Call::Add(part)).board;
        assert!(library == board(&reference));
        let case = default_case_of(random, reference.held().to_vec());
        compare(&reference, &case, tally);
    }
    let mut case = default_case_of(random, reference.held().to_vec());
    case.index.resize(8 + 6 * size + 5, 7);
    case.totals.resize(size + 1 + 5, 7);
    let (_, after) = compare(&reference, &case, tally);
    let (mut index, mut totals) = (case.index, case.totals);
    let ignored = build_board(&reference, 0, None, Start::ParentZero, &mut index, &mut totals);
    assert_eq!((ignored.nodes as usize, ignored.left), (size, 0));
    assert!(index == after.index && totals == after.totals, "{:?}", after.rows);
    tally.reach("a tree drawn in any order");
}

/// Every small board.
pub fn small(most: u32, orders: u32, tally: &mut Tally) {
    for rows in small_boards(most, orders) {
        let reference = bare_board(&rows);
        let (index, totals) = (vec![7; 8 + 6 * 60], vec![7; 61]);
        let case = BuildCase { rows, code: 3, depth: None, start: None, index, totals };
        let (_, after) = compare(&reference, &case, tally);
        assert!(sys::index_check(&after.index), "{after:?}");
    }
}
