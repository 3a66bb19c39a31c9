//! Shortest placement: which path is kept, where it stands, what is left over and refused, worked out
//! by hand.

mod common;
#[path = "common/marked.rs"]
mod marked;

use common::{accepted, image_in, refused, zeroed, Image};
use marked::{board_of, MARKED};
use reference::shortest::{kept_by_length, kept_of_all};
use reference::*;

const ON: Start = Start::ParentZero;

/// A row whose minutes are 1.
fn row(parent: u32, numeral: u32, order: u32) -> Row {
    Row::undated(parent, numeral, order, 1)
}

/// Builds with room for one node to a row. Both ways to form the kept paths give the same.
fn build_all(rows: &[Row], start: Start) -> Image {
    let all = kept_of_all(rows, start, usize::MAX).unwrap();
    assert_eq!(all, kept_by_length(rows, start));
    image_in(rows.len(), |index, totals| build_shortest(rows, start, index, totals))
}

/// The six words of each body: numeral, row number, tree size, parent rank, root rank and the level
/// with all other bits 0.
fn bodies(image: &Image) -> Vec<[u32; 6]> {
    let words = &image.index[8..8 + 6 * image.built.nodes as usize];
    words.chunks(6).map(|body| body.try_into().unwrap()).collect()
}

/// The bodies of an accepted build that leaves `left` rows over.
fn bodies_of(rows: &[Row], start: Start, left: u32) -> Vec<[u32; 6]> {
    let image = build_all(rows, start);
    assert_eq!((image.built.refusal, image.built.left), (0, left));
    bodies(&image)
}

// The marked board.

#[test]
fn marked_board() {
    // 40 is reached over 30 and over 20 by three rows, 30 comes first; 20 is nearer below 10 than
    // below 40. Rows 4 and 6 end no kept path, and nobody reaches row 7.
    let image = build_all(&MARKED, ON);
    assert_eq!(image.built, accepted(4, 3));
    assert_eq!(
        bodies(&image),
        [[10, 1, 4, 0, 1, 1], [30, 3, 2, 1, 1, 2], [40, 5, 1, 2, 1, 3], [20, 2, 1, 1, 1, 2]]
    );
    // 17 + 39 + 52 + 27.
    assert_eq!(image.index[..8], [4, 8, 6, 135, 0, 0, 0, 0]);
    assert_eq!(image.totals(), [0, 5, 9, 10, 13]);
}

#[test]
fn marked_board_by_lists() {
    // Start rows in sibling order: row 6 (20), row 3 (30), row 2 (20).
    let image = build_all(&MARKED, Start::Numerals(&[20, 30]));
    assert_eq!(image.built, accepted(3, 4));
    assert_eq!(bodies(&image), [[20, 6, 2, 0, 1, 1], [40, 4, 1, 1, 1, 2], [30, 3, 1, 0, 3, 1]]);
    assert_eq!(image.totals(), [0, -1, 1, 5]);

    // Rows 4 and 5 start, in this order; 20 is below 40 by row 6.
    let image = build_all(&MARKED, Start::Numerals(&[40]));
    assert_eq!(image.built, accepted(2, 5));
    assert_eq!(bodies(&image), [[40, 4, 2, 0, 1, 1], [20, 6, 1, 1, 1, 2]]);

    assert_eq!(bodies_of(&MARKED, Start::Numerals(&[91]), 6), [[91, 7, 1, 0, 1, 1]]);
}

#[test]
fn navigation_over_the_kept_paths() {
    let Image { index, totals, .. } = build_all(&MARKED, ON);
    let sum = |sum| Summed { refusal: 0, sum };
    let subtrees: Vec<Summed> = (1..=4).map(|r| subtree_sum(&index, &totals, r)).collect();
    assert_eq!(subtrees, [sum(13), sum(5), sum(1), sum(3)]);
    let paths: Vec<Summed> = (1..=4).map(|r| path_sum(&index, &totals, r)).collect();
    assert_eq!(paths, [sum(5), sum(9), sum(10), sum(8)]);

    let mut list = [0; 4];
    assert_eq!(descendants(&index, 1, 0, 9, &mut list), Listed { refusal: 0, length: 4 });
    assert_eq!(list, [1, 2, 3, 4]);
    assert_eq!(descendants(&index, 1, 1, 1, &mut list), Listed { refusal: 0, length: 2 });
    assert_eq!(list[..2], [2, 4]);
    assert_eq!(siblings(&index, 4, &mut list), Listed { refusal: 0, length: 2 });
    assert_eq!(list[..2], [2, 4]);
    let climbed = Climbed { refusal: 0, length: 3, links: 2 };
    assert_eq!(ancestors(&index, 3, -9, 0, &mut list), climbed);
    assert_eq!(list[..3], [3, 2, 1]);
    assert_eq!(span(&index, 2).words, 14..26);
}

// Start rows.

#[test]
fn two_start_rows_of_one_numeral() {
    // The smaller order is kept, and 6 stands below it.
    let rows = [row(0, 5, 2), row(0, 5, 1), row(5, 6, 0)];
    assert_eq!(bodies_of(&rows, ON, 1), [[5, 2, 2, 0, 1, 1], [6, 3, 1, 1, 1, 2]]);
    // Of equal orders the smaller row number.
    let rows = [row(0, 5, 1), row(0, 5, 1), row(5, 6, 0)];
    assert_eq!(bodies_of(&rows, ON, 1), [[5, 1, 2, 0, 1, 1], [6, 3, 1, 1, 1, 2]]);
    // By a list their parents don't matter.
    let rows = [row(8, 5, 3), row(6, 5, 2), row(0, 5, 3), row(5, 6, 0)];
    let start = Start::Numerals(&[5]);
    assert_eq!(bodies_of(&rows, start, 2), [[5, 2, 2, 0, 1, 1], [6, 4, 1, 1, 1, 2]]);
}

#[test]
fn start_rows_of_equal_order_by_numeral() {
    // 4 comes before 7, which was entered first; 9 is below both.
    let rows = [row(0, 7, 1), row(0, 4, 1), row(7, 9, 0), row(4, 9, 0)];
    assert_eq!(
        bodies_of(&rows, ON, 1),
        [[4, 2, 2, 0, 1, 1], [9, 4, 1, 1, 1, 2], [7, 1, 1, 0, 3, 1]]
    );
}

#[test]
fn a_start_row_does_not_hang_below_its_parent() {
    let rows = [row(0, 1, 1), row(1, 2, 1), row(2, 3, 1)];
    assert_eq!(
        bodies_of(&rows, Start::Numerals(&[1, 2]), 0),
        [[1, 1, 1, 0, 1, 1], [2, 2, 2, 0, 2, 1], [3, 3, 1, 2, 2, 2]]
    );
    assert_eq!(
        bodies_of(&rows, Start::Numerals(&[1, 3]), 0),
        [[1, 1, 2, 0, 1, 1], [2, 2, 1, 1, 1, 2], [3, 3, 1, 0, 3, 1]]
    );
    assert_eq!(
        bodies_of(&rows, Start::Numerals(&[3, 2, 1]), 0),
        [[1, 1, 1, 0, 1, 1], [2, 2, 1, 0, 2, 1], [3, 3, 1, 0, 3, 1]]
    );
}

#[test]
fn another_row_of_a_start_numeral_does_not_either() {
    // The path 1 over 2 comes first, but the later root has fewer rows.
    let rows = [row(0, 1, 1), row(0, 2, 5), row(1, 2, 1), row(2, 3, 1)];
    assert_eq!(
        bodies_of(&rows, ON, 1),
        [[1, 1, 1, 0, 1, 1], [2, 2, 2, 0, 2, 1], [3, 4, 1, 2, 2, 2]]
    );
    // By a list both rows of 2 are start rows, and row 3 comes first.
    assert_eq!(
        bodies_of(&rows, Start::Numerals(&[1, 2]), 1),
        [[1, 1, 1, 0, 1, 1], [2, 3, 2, 0, 2, 1], [3, 4, 1, 2, 2, 2]]
    );
}

#[test]
fn start_lists() {
    let rows = [row(0, 1, 1), row(1, 2, 1), row(1, 3, 1)];
    // Numerals that no row has; 0 is no row's numeral, though a row has parent 0.
    assert_eq!(build_all(&rows, Start::Numerals(&[99])).built, accepted(0, 3));
    assert_eq!(build_all(&rows, Start::Numerals(&[0])).built, accepted(0, 3));
    assert_eq!(build_all(&rows, Start::Numerals(&[])).built, accepted(0, 3));
    // Beside others, repeated, in any order.
    let two_roots = [[2, 2, 1, 0, 1, 1], [3, 3, 1, 0, 2, 1]];
    for list in [&[2, 3][..], &[3, 2], &[3, 3, 2, 2, 3], &[0, 3, 99, 2, 99, 0]] {
        assert_eq!(bodies_of(&rows, Start::Numerals(list), 1), two_roots);
    }
    // Not parent 0: row 1 is no start row, and nobody reaches it.
    assert_eq!(bodies_of(&rows, Start::Numerals(&[2]), 2), [[2, 2, 1, 0, 1, 1]]);
    // All rows below 1.
    let tree = [[1, 1, 3, 0, 1, 1], [2, 2, 1, 1, 1, 2], [3, 3, 1, 1, 1, 2]];
    assert_eq!(bodies_of(&rows, Start::Numerals(&[1, 1]), 0), tree);
    assert_eq!(bodies_of(&rows, ON, 0), tree);
}

// The path with fewest rows, and the first of those.

#[test]
fn a_shorter_path_later_in_path_order() {
    // 9 by 1, 2, 3 and by 1, 4; what is below 9 goes with it.
    let rows = [
        row(0, 1, 0),
        row(1, 2, 1),
        row(2, 3, 1),
        row(3, 9, 1),
        row(1, 4, 2),
        row(4, 9, 1),
        row(9, 8, 1),
    ];
    assert_eq!(
        bodies_of(&rows, ON, 1),
        [
            [1, 1, 6, 0, 1, 1],
            [2, 2, 2, 1, 1, 2],
            [3, 3, 1, 2, 1, 3],
            [4, 5, 3, 1, 1, 2],
            [9, 6, 2, 4, 1, 3],
            [8, 7, 1, 5, 1, 4],
        ]
    );
}

#[test]
fn a_shorter_path_below_a_later_root() {
    let rows = [row(0, 1, 1), row(1, 2, 0), row(2, 3, 0), row(0, 9, 2), row(9, 3, 7)];
    assert_eq!(
        bodies_of(&rows, ON, 1),
        [[1, 1, 2, 0, 1, 1], [2, 2, 1, 1, 1, 2], [9, 4, 2, 0, 3, 1], [3, 5, 1, 3, 3, 2]]
    );
}

#[test]
fn of_equal_lengths_the_first_in_path_order() {
    // 3 (order 4) comes before 2 (order 5), so that row 5 is kept although row 4 has the smaller
    // order and row number: the first differing row decides.
    let rows = [row(0, 1, 0), row(1, 2, 5), row(1, 3, 4), row(2, 9, 0), row(3, 9, 9)];
    assert_eq!(
        bodies_of(&rows, ON, 1),
        [[1, 1, 4, 0, 1, 1], [3, 3, 2, 1, 1, 2], [9, 5, 1, 2, 1, 3], [2, 2, 1, 1, 1, 2]]
    );
    // Of equal orders the smaller numeral.
    let rows = [row(0, 1, 0), row(1, 3, 4), row(1, 2, 4), row(3, 9, 0), row(2, 9, 9)];
    assert_eq!(
        bodies_of(&rows, ON, 1),
        [[1, 1, 4, 0, 1, 1], [2, 3, 2, 1, 1, 2], [9, 5, 1, 2, 1, 3], [3, 2, 1, 1, 1, 2]]
    );
}

#[test]
fn the_first_differing_row_far_above() {
    // 9 over 4 and 5, whose ancestors 2 and 3 decide: 3 comes first, then 5 and row 8.
    let mut rows = [
        row(0, 1, 0),
        row(1, 2, 2),
        row(1, 3, 1),
        row(2, 4, 0),
        row(3, 5, 8),
        row(4, 9, 0),
        row(9, 7, 0),
        row(5, 9, 8),
    ];
    let mut wanted = [
        [1, 1, 7, 0, 1, 1],
        [3, 3, 4, 1, 1, 2],
        [5, 5, 3, 2, 1, 3],
        [9, 8, 2, 3, 1, 4],
        [7, 7, 1, 4, 1, 5],
        [2, 2, 2, 1, 1, 2],
        [4, 4, 1, 6, 1, 3],
    ];
    assert_eq!(bodies_of(&rows, ON, 1), wanted);
    // Entered last to first: the same tree by other row numbers.
    rows.reverse();
    for body in &mut wanted {
        body[1] = 9 - body[1];
    }
    assert_eq!(bodies_of(&rows, ON, 1), wanted);
}

#[test]
fn the_smallest_number_of_rows_decides_before_the_order() {
    // 3 stands below 1 by order 9, though below 2 it would come by order 0.
    let rows = [row(0, 1, 0), row(1, 2, 0), row(2, 3, 0), row(1, 3, 9)];
    assert_eq!(
        bodies_of(&rows, ON, 1),
        [[1, 1, 3, 0, 1, 1], [2, 2, 1, 1, 1, 2], [3, 4, 1, 1, 1, 2]]
    );
}

#[test]
fn several_rows_of_one_numeral_below_one_parent() {
    // By order, then by row number; the others are reached and left over.
    let rows = [row(0, 1, 0), row(1, 2, 3), row(1, 2, 1), row(1, 2, 1), row(2, 3, 0), row(2, 3, 0)];
    assert_eq!(
        bodies_of(&rows, ON, 3),
        [[1, 1, 3, 0, 1, 1], [2, 3, 2, 1, 1, 2], [3, 5, 1, 2, 1, 3]]
    );
}

#[test]
fn rows_hang_below_the_kept_row_of_their_parent() {
    // 2 stands by row 3, and row 4 below it and not below row 2, which is left over.
    let rows = [row(0, 1, 0), row(1, 2, 9), row(1, 2, 8), row(2, 3, 0), row(1, 4, 8)];
    assert_eq!(
        bodies_of(&rows, ON, 1),
        [[1, 1, 4, 0, 1, 1], [2, 3, 2, 1, 1, 2], [3, 4, 1, 2, 1, 3], [4, 5, 1, 1, 1, 2]]
    );
}

#[test]
fn a_tree_is_built_as_ever() {
    let rows = [
        Row::undated(2, 4, 1, -8),
        Row::undated(0, 1, 1, 1),
        Row::undated(1, 2, 2, 2),
        Row::undated(1, 3, 1, 4),
        Row::undated(0, 9, 0, 16),
        Row::undated(4, 5, 0, 32),
    ];
    let image = build_all(&rows, ON);
    let usual = image_in(rows.len(), |index, totals| build(&rows, 0, None, ON, index, totals));
    assert_eq!(image.built, accepted(6, 0));
    assert_eq!((image.built, image.index, image.totals), (usual.built, usual.index, usual.totals));
}

// Rings.

#[test]
fn a_ring_does_not_close() {
    let rows = [row(0, 1, 0), row(1, 2, 0), row(2, 3, 0), row(3, 1, 0), row(3, 2, 0), row(3, 3, 0)];
    assert_eq!(
        bodies_of(&rows, ON, 3),
        [[1, 1, 3, 0, 1, 1], [2, 2, 2, 1, 1, 2], [3, 3, 1, 2, 1, 3]]
    );
}

#[test]
fn a_ring_entered_by_a_list() {
    let rows = [row(30, 10, 0), row(10, 20, 0), row(20, 30, 0)];
    assert_eq!(
        bodies_of(&rows, Start::Numerals(&[20]), 0),
        [[20, 2, 3, 0, 1, 1], [30, 3, 2, 1, 1, 2], [10, 1, 1, 2, 1, 3]]
    );
    assert_eq!(
        bodies_of(&rows, Start::Numerals(&[20, 10]), 0),
        [[10, 1, 1, 0, 1, 1], [20, 2, 2, 0, 2, 1], [30, 3, 1, 2, 2, 2]]
    );
    // A row that is its own parent, alone and beside another of its numeral.
    assert_eq!(bodies_of(&[row(5, 5, 0)], Start::Numerals(&[5]), 0), [[5, 1, 1, 0, 1, 1]]);
    let rows = [row(5, 5, 1), row(0, 5, 0)];
    assert_eq!(bodies_of(&rows, Start::Numerals(&[5]), 1), [[5, 2, 1, 0, 1, 1]]);
    assert_eq!(bodies_of(&rows, ON, 1), [[5, 2, 1, 0, 1, 1]]);
}

#[test]
fn a_ring_entered_in_two_places() {
    // From 1 at 3, from 2 at 4: both are reached by two rows, and neither by the other.
    let rows = [row(0, 1, 0), row(0, 2, 0), row(1, 3, 0), row(2, 4, 0), row(3, 4, 0), row(4, 3, 0)];
    assert_eq!(
        bodies_of(&rows, ON, 2),
        [[1, 1, 2, 0, 1, 1], [3, 3, 1, 1, 1, 2], [2, 2, 2, 0, 3, 1], [4, 4, 1, 3, 3, 2]]
    );
}

// Orphans.

#[test]
fn orphans_are_ignored() {
    // A top orphan with a row below, a ring with no way in.
    let rows = [row(0, 1, 0), row(7, 2, 0), row(2, 3, 0), row(5, 4, 0), row(4, 5, 0)];
    assert_eq!(bodies_of(&rows, ON, 4), [[1, 1, 1, 0, 1, 1]]);
    // Alone: no start row is no refusal.
    assert_eq!(build_all(&rows[1..], ON).built, accepted(0, 4));
    // By a list a row with parent 0 may be one.
    assert_eq!(bodies_of(&rows, Start::Numerals(&[3]), 4), [[3, 3, 1, 0, 1, 1]]);
}

#[test]
fn a_numeral_reached_by_orphans_too() {
    // 2 stands by row 4, and below it what hangs from the numeral; row 2 is left over.
    let rows = [row(0, 1, 0), row(7, 2, 0), row(2, 3, 0), row(1, 2, 9)];
    assert_eq!(
        bodies_of(&rows, ON, 1),
        [[1, 1, 3, 0, 1, 1], [2, 4, 2, 1, 1, 2], [3, 3, 1, 2, 1, 3]]
    );
}

// Refusals and slices.

#[test]
fn an_empty_board() {
    for start in [ON, Start::Numerals(&[]), Start::Numerals(&[1])] {
        let image =
            image_in(0, |index, totals| build_shortest_board(&Board::EMPTY, start, index, totals));
        assert_eq!(image.built, accepted(0, 0));
        assert_eq!(image.index[..8], [0, 8, 6, 0, 0, 0, 0, 0]);
        assert_eq!(image.totals(), [0]);
    }
}

#[test]
fn from_a_board() {
    // Rows beyond the count aren't read.
    let mut board = board_of(&MARKED);
    board.rows[7] = row(10, 50, 0);
    let Image { built, index, totals } = build_all(&MARKED, ON);
    let image = image_in(7, |index, totals| build_shortest_board(&board, ON, index, totals));
    assert_eq!((image.built, image.index, image.totals), (built, index, totals));

    // Without row 3 the board has 40 below 20, and 20 by row 2 still; undone, all is as before.
    let edited = board.withdraw(3);
    let image = image_in(7, |index, totals| build_shortest_board(&edited.board, ON, index, totals));
    assert_eq!(image.built, accepted(3, 3));
    assert_eq!(bodies(&image), [[10, 1, 3, 0, 1, 1], [20, 2, 2, 1, 1, 2], [40, 3, 1, 2, 1, 3]]);
    let undone = edited.board.undo().board;
    let image = image_in(7, |index, totals| build_shortest_board(&undone, ON, index, totals));
    assert_eq!(image.built, accepted(4, 3));
}

#[test]
fn an_unsound_board() {
    let mut numeral_0 = board_of(&MARKED);
    numeral_0.rows[6].numeral = 0;
    let mut count = board_of(&MARKED);
    count.count = 1_025;
    let mut kept = board_of(&MARKED);
    kept.kept = 257;
    let mut newest = board_of(&MARKED);
    newest.journal[6].at = 7;
    for board in [numeral_0, count, kept, newest] {
        assert!(!board.sound());
        for start in [ON, Start::Numerals(&[]), Start::Numerals(&[10])] {
            let image =
                image_in(7, |index, totals| build_shortest_board(&board, start, index, totals));
            assert_eq!(image.built, refused(1));
            // Before refusal 9.
            let (mut index, mut totals) = ([5; 7], [5; 0]);
            let built = build_shortest_board(&board, start, &mut index, &mut totals);
            assert_eq!((built, index), (refused(1), [0; 7]));
        }
    }
}

#[test]
fn slices_too_short_and_just_enough() {
    // Four kept paths of eight regular ones need 32 words and 5 totals.
    let board = board_of(&MARKED);
    let run = |words: usize, count: usize| {
        let (mut index, mut totals) = (vec![9; words], vec![9; count]);
        let built = build_shortest_board(&board, ON, &mut index, &mut totals);
        if built.refusal != 0 {
            zeroed(&index, &totals);
        }
        built
    };
    assert_eq!(run(32, 5), accepted(4, 3));
    for (words, count) in [(31, 5), (32, 4), (31, 4), (31, 90), (90, 4), (8, 5), (7, 5), (0, 0)] {
        assert_eq!(run(words, count), refused(9), "{words} words, {count} totals");
    }
    for (words, count) in [(33, 5), (32, 6), (100, 100)] {
        assert_eq!(run(words, count), accepted(4, 3), "{words} words, {count} totals");
    }
}

#[test]
fn no_node_needs_eight_words_and_one_total() {
    let (mut index, mut totals) = ([5; 9], [5; 2]);
    assert_eq!(build_shortest(&[], ON, &mut index[..7], &mut totals), refused(9));
    assert_eq!((index, totals), ([0, 0, 0, 0, 0, 0, 0, 5, 5], [0, 0]));
    assert_eq!(build_shortest(&[], ON, &mut index[..8], &mut []), refused(9));
    totals = [5; 2];
    assert_eq!(build_shortest(&[], ON, &mut index[..8], &mut totals[..1]), accepted(0, 0));
    assert_eq!((index, totals), ([0, 8, 6, 0, 0, 0, 0, 0, 5], [0, 5]));
}

#[test]
fn node_limit() {
    // No board has so many rows; a list may.
    let rows: Vec<Row> = (1..=65_536).map(|numeral| row(0, numeral, 0)).collect();
    let mut index = vec![3; 8 + 6 * 65_536];
    let mut totals = vec![3; 65_537];
    let mut run = |rows: &[Row]| build_shortest(rows, ON, &mut index, &mut totals);
    assert_eq!(run(&rows[..65_535]), accepted(65_535, 0));
    assert_eq!(run(&rows), refused(9));
    // Rows that end no kept path don't count.
    let mut shared = rows.clone();
    shared[65_535].numeral = 1;
    assert_eq!(run(&shared), accepted(65_535, 1));
}

// The ends of the numbers, and large boards.

#[test]
fn widest_words() {
    let max = u32::MAX;
    let rows = [
        Row::undated(max, 1, max, i32::MIN),
        Row::undated(0, max, max, i32::MIN),
        Row::undated(max, max - 1, max - 1, i32::MAX),
        Row::undated(max - 1, 1, 0, 3),
    ];
    let image = build_all(&rows, ON);
    assert_eq!(image.built, accepted(3, 1));
    assert_eq!(
        bodies(&image),
        [[max, 2, 3, 0, 1, 1], [max - 1, 3, 1, 1, 1, 2], [1, 1, 1, 1, 1, 2]]
    );
    let (low, high) = (i32::MIN as i64, i32::MAX as i64);
    assert_eq!(image.totals(), [0, low, low + high, 2 * low + high]);
}

#[test]
fn longest_chain() {
    // Entered last to first, and closed by a ring at the start row's numeral.
    let mut rows: Vec<Row> = (1..=1_023).rev().map(|k| row(k - 1, k, 0)).collect();
    rows.push(row(1_023, 1, 0));
    let image = build_all(&rows, ON);
    assert_eq!(image.built, accepted(1_023, 1));
    let chain: Vec<[u32; 6]> =
        (1..=1_023).map(|k| [k, 1_024 - k, 1_024 - k, k - 1, 1, k]).collect();
    assert_eq!(bodies(&image), chain);
    // By the last numeral the ring's row leads to 1.
    let image = build_all(&rows, Start::Numerals(&[1_023]));
    assert_eq!(image.built, accepted(1_023, 1));
    assert_eq!(bodies(&image)[..2], [[1_023, 1, 1_023, 0, 1, 1], [1, 1_024, 1_022, 1, 1, 2]]);
}

#[test]
fn boards_with_more_paths_than_can_be_listed() {
    // Two rows on every level share a numeral: 2^512 paths, 512 kept ones. The second has the
    // smaller order.
    let rows: Vec<Row> = (0..1_024).map(|k| row(k / 2, k / 2 + 1, 1 - k % 2)).collect();
    assert_eq!(kept_of_all(&rows, ON, 100_000), None);
    let image = image_in(512, |index, totals| build_shortest(&rows, ON, index, totals));
    assert_eq!(image.built, accepted(512, 512));
    let chain: Vec<[u32; 6]> = (1..=512).map(|k| [k, 2 * k, 513 - k, k - 1, 1, k]).collect();
    assert_eq!(bodies(&image), chain);

    // Each of 32 numerals below each: all others stand below the first.
    let rows: Vec<Row> = (0..1_024).map(|k| row(k / 32 + 1, k % 32 + 1, 0)).collect();
    let start = Start::Numerals(&[1]);
    let image = image_in(32, |index, totals| build_shortest(&rows, start, index, totals));
    assert_eq!(image.built, accepted(32, 992));
    let mut star = vec![[1, 1, 32, 0, 1, 1]];
    star.extend((2..=32).map(|k| [k, k, 1, 1, 1, 2]));
    assert_eq!(bodies(&image), star);
}
