//! The build by default: root with no depth and parent 0, worked out by hand, and on every small
//! board against code 0, the default before.

mod common;
#[path = "common/flagged.rs"]
mod flagged;
#[path = "common/listing.rs"]
mod listing;
#[path = "common/marked.rs"]
mod marked;

use common::{accepted, image_in, refused, zeroed, Image};
use flagged::bodies;
use listing::LISTING;
use marked::{board_of, MARKED};
use reference::*;

const ON: Start = Start::ParentZero;

/// A row whose minutes are 1.
fn row(parent: u32, numeral: u32, order: u32) -> Row {
    Row::undated(parent, numeral, order, 1)
}

/// A build by default with room enough, which leaves no row without a node.
fn by_default(rows: &[Row]) -> Image {
    let image = image_in(2_000, |index, totals| build_default(rows, index, totals));
    assert_eq!((image.built.refusal, image.built.left), (0, 0));
    image
}

/// What a build with the code answers, with no depth and parent 0.
fn by_code(rows: &[Row], code: u32) -> Built {
    image_in(2_000, |index, totals| build(rows, code, None, ON, index, totals)).built
}

fn bodies_of(rows: &[Row]) -> Vec<[u32; 8]> {
    bodies(&by_default(rows))
}

// The marked board and the empty one.

#[test]
fn an_empty_board() {
    let image = image_in(0, |index, totals| build_default_board(&Board::EMPTY, index, totals));
    assert_eq!(image.built, accepted(0, 0));
    assert_eq!(image.index[..8], [0, 8, 6, 0, 0, 0, 0, 0]);
    assert_eq!(image.totals(), [0]);
}

#[test]
fn m1_listing_by_default() {
    let image = by_default(&MARKED);
    let mut text = String::from("rank size parent level root cycle orphan id sum\n");
    for (rank, body) in (1..).zip(bodies(&image)) {
        let [numeral, _, size, parent, root, level, closing, orphan] = body;
        let Summed { refusal, sum } = subtree_sum(&image.index, &image.totals, rank);
        assert_eq!(refusal, 0);
        text +=
            &format!("{rank} {size} {parent} {level} {root} {closing} {orphan} {numeral} {sum}\n");
    }
    assert_eq!(text, LISTING);
}

#[test]
fn m1_words_by_default() {
    let image = by_default(&MARKED);
    assert_eq!(image.built, accepted(9, 0));
    let (closing, orphan) = (1 << 30, 1 << 31);
    let words = [
        [10, 1, 8, 0, 1, 1],
        [30, 3, 4, 1, 1, 2],
        [40, 5, 3, 2, 1, 3],
        [20, 6, 2, 3, 1, 4],
        [40, 4, 1, 4, 1, closing + 5],
        [20, 2, 3, 1, 1, 2],
        [40, 4, 2, 6, 1, 3],
        [20, 6, 1, 7, 1, closing + 4],
        [91, 7, 1, 0, 9, orphan + 1],
    ]
    .concat();
    assert_eq!(image.index[8..8 + 54], words);
    // 21 + 41 + 54 + 36 + 55 + 29 + 56 + 39 + 109; the three bits make 2^32.
    assert_eq!(image.index[..8], [9, 8, 6, 440, 0, 0, 0, 0]);
    // Minutes 5, 4, 1, −1, 2, 3, 2, −1, 7.
    assert_eq!(image.totals(), [0, 5, 9, 10, 9, 11, 14, 16, 15, 22]);
}

#[test]
fn m2_names_code_0() {
    // The default before: row 7 is left over.
    assert_eq!(by_code(&MARKED, 0), accepted(8, 1));
    assert_eq!(by_default(&MARKED).built, accepted(9, 0));
}

// Parts whose parent isn't drawn yet.

#[test]
fn a_part_whose_parent_is_not_drawn_yet() {
    // 8 has the smallest order and row number of all, but is an orphan: it stands behind the regular
    // nodes, with 6 and 7 below it.
    let rows = [
        Row::undated(9, 8, 0, 10),
        Row::undated(8, 7, 2, 20),
        Row::undated(0, 1, 5, 30),
        Row::undated(1, 2, 5, 40),
        Row::undated(8, 6, 1, 50),
        Row::undated(0, 3, 6, 60),
    ];
    let image = by_default(&rows);
    assert_eq!(
        bodies(&image),
        [
            [1, 3, 2, 0, 1, 1, 0, 0],
            [2, 4, 1, 1, 1, 2, 0, 0],
            [3, 6, 1, 0, 3, 1, 0, 0],
            [8, 1, 3, 0, 4, 1, 0, 1],
            [6, 5, 1, 4, 4, 2, 0, 1],
            [7, 2, 1, 4, 4, 2, 0, 1],
        ]
    );
    assert_eq!(image.totals(), [0, 30, 70, 130, 140, 190, 210]);
    assert_eq!(subtree_sum(&image.index, &image.totals, 4), Summed { refusal: 0, sum: 80 });
    assert_eq!(by_code(&rows, 0), accepted(3, 3));
    // It is a root beside the others.
    let mut list = [0; 3];
    assert_eq!(siblings(&image.index, 1, &mut list), Listed { refusal: 0, length: 3 });
    assert_eq!(list, [1, 3, 4]);
}

#[test]
fn several_such_parts_in_sibling_order() {
    // Order 1: numerals 8 and 9. Order 2: numeral 3, then 7 by row 1 and by row 3. Which parent is
    // missing doesn't matter. 2 stands below both rows of 7.
    let rows = [
        row(60, 7, 2),
        row(60, 9, 1),
        row(50, 7, 2),
        row(70, 8, 1),
        row(0, 99, 9),
        row(50, 3, 2),
        row(7, 2, 0),
        row(8, 1, 5),
    ];
    assert_eq!(
        bodies_of(&rows),
        [
            [99, 5, 1, 0, 1, 1, 0, 0],
            [8, 4, 2, 0, 2, 1, 0, 1],
            [1, 8, 1, 2, 2, 2, 0, 1],
            [9, 2, 1, 0, 4, 1, 0, 1],
            [3, 6, 1, 0, 5, 1, 0, 1],
            [7, 1, 2, 0, 6, 1, 0, 1],
            [2, 7, 1, 6, 6, 2, 0, 1],
            [7, 3, 2, 0, 8, 1, 0, 1],
            [2, 7, 1, 8, 8, 2, 0, 1],
        ]
    );
    assert_eq!(by_code(&rows, 0), accepted(1, 7));
}

#[test]
fn a_part_joins_the_tree_when_its_parent_is_drawn() {
    let mut board = Board::EMPTY;
    let mut seen = Vec::new();
    let (part, parent) = (Row::undated(10, 20, 1, 3), Row::undated(0, 10, 1, 5));
    for call in [Call::Add(part), Call::Add(parent), Call::Withdraw(2), Call::Undo, Call::Undo] {
        let edited = board.call(call);
        assert_eq!(edited.refusal, 0);
        board = edited.board;
        let image = image_in(2, |index, totals| build_default_board(&board, index, totals));
        assert_eq!((image.built.refusal, image.built.left), (0, 0));
        seen.push(bodies(&image));
    }
    let alone = vec![[20, 1, 1, 0, 1, 1, 0, 1]];
    let joined = vec![[10, 2, 2, 0, 1, 1, 0, 0], [20, 1, 1, 1, 1, 2, 0, 0]];
    assert_eq!(seen, [alone.clone(), joined.clone(), alone.clone(), joined, alone]);
}

#[test]
fn no_start_row_at_all() {
    // All is below 4, whose parent isn't drawn. Adopt is refused, as it needs a start row.
    let rows = [row(4, 5, 0), row(9, 4, 0), row(5, 6, 0)];
    assert_eq!(
        bodies_of(&rows),
        [[4, 2, 3, 0, 1, 1, 0, 1], [5, 1, 2, 1, 1, 2, 0, 1], [6, 3, 1, 2, 1, 3, 0, 1]]
    );
    assert_eq!(by_code(&rows, 0), accepted(0, 3));
    assert_eq!(by_code(&rows, 2), refused(8));
}

#[test]
fn an_orphan_of_a_reached_numeral_stays_alone() {
    // 6 is below 5 by the regular row 1, so that it isn't in U and doesn't stand below row 2 too.
    let rows = [row(0, 5, 1), row(99, 5, 1), row(5, 6, 1)];
    assert_eq!(
        bodies_of(&rows),
        [[5, 1, 2, 0, 1, 1, 0, 0], [6, 3, 1, 1, 1, 2, 0, 0], [5, 2, 1, 0, 3, 1, 0, 1]]
    );
    assert_eq!(by_code(&rows, 0), accepted(2, 1));
}

// Rings with no way in.

#[test]
fn a_ring_with_no_way_in() {
    // 2 over 3 over 2, and 4 below 3. Row 1 is the lowest whose numeral is on the ring. The entry 2
    // comes after the other orphan, although all rows of the island have smaller orders.
    let rows = [
        Row::undated(3, 2, 0, 10),
        Row::undated(2, 3, 0, 20),
        Row::undated(0, 1, 9, 1),
        Row::undated(9, 8, 7, 5),
        Row::undated(3, 4, 0, 40),
    ];
    let image = by_default(&rows);
    assert_eq!(
        bodies(&image),
        [
            [1, 3, 1, 0, 1, 1, 0, 0],
            [8, 4, 1, 0, 2, 1, 0, 1],
            [2, 0, 4, 0, 3, 1, 0, 1],
            [3, 2, 3, 3, 3, 2, 0, 1],
            [2, 1, 1, 4, 3, 3, 1, 1],
            [4, 5, 1, 4, 3, 3, 0, 1],
        ]
    );
    // The entry has 0 minutes.
    assert_eq!(image.totals(), [0, 1, 6, 6, 26, 36, 76]);
    assert_eq!(by_code(&rows, 0), accepted(1, 4));
}

#[test]
fn two_rings_alone_on_a_board() {
    // In the order made, by row number: 5 before 2.
    let rows = [row(6, 5, 3), row(5, 6, 3), row(2, 2, 0)];
    assert_eq!(
        bodies_of(&rows),
        [
            [5, 0, 3, 0, 1, 1, 0, 1],
            [6, 2, 2, 1, 1, 2, 0, 1],
            [5, 1, 1, 2, 1, 3, 1, 1],
            [2, 0, 2, 0, 4, 1, 0, 1],
            [2, 3, 1, 4, 4, 2, 1, 1],
        ]
    );
    assert_eq!(by_code(&rows, 0), accepted(0, 3));
}

#[test]
fn a_ring_below_an_orphan_needs_no_entry() {
    let rows = [row(2, 1, 0), row(1, 2, 0), row(9, 1, 0)];
    assert_eq!(
        bodies_of(&rows),
        [[1, 3, 3, 0, 1, 1, 0, 1], [2, 2, 2, 1, 1, 2, 0, 1], [1, 1, 1, 2, 1, 3, 1, 1]]
    );
}

// Multi is allow, cycle is break up, and there is no depth.

#[test]
fn shared_numerals_and_cycles_are_accepted() {
    // 1 stands by rows 1 and 2; below each 2, over 1 by row 4, which closes.
    let rows = [row(0, 1, 0), row(0, 1, 1), row(1, 2, 0), row(2, 1, 0)];
    assert_eq!(
        bodies_of(&rows),
        [
            [1, 1, 3, 0, 1, 1, 0, 0],
            [2, 3, 2, 1, 1, 2, 0, 0],
            [1, 4, 1, 2, 1, 3, 1, 0],
            [1, 2, 3, 0, 4, 1, 0, 0],
            [2, 3, 2, 4, 4, 2, 0, 0],
            [1, 4, 1, 5, 4, 3, 1, 0],
        ]
    );
    assert_eq!(by_code(&rows, 7), refused(11));
    assert_eq!(by_code(&rows, 11), refused(11));
    assert_eq!(by_code(&rows, 15), refused(10));
    // A row twice among the orphans, and a row that is its own parent below one.
    let rows = [row(9, 4, 0), row(9, 4, 0), row(8, 3, 0), row(3, 3, 0)];
    assert_eq!(
        bodies_of(&rows),
        [
            [3, 3, 2, 0, 1, 1, 0, 1],
            [3, 4, 1, 1, 1, 2, 1, 1],
            [4, 1, 1, 0, 3, 1, 0, 1],
            [4, 2, 1, 0, 4, 1, 0, 1],
        ]
    );
}

#[test]
fn no_depth() {
    // A regular chain of 512 rows, and one of 512 orphans.
    let mut rows: Vec<Row> = (1..=512).map(|k| row(k - 1, k, 0)).collect();
    rows.extend((1_001..=1_512).map(|k| row(k - 1, k, 0)));
    let mut expected: Vec<[u32; 8]> =
        (1..=512).map(|k| [k, k, 513 - k, k - 1, 1, k, 0, 0]).collect();
    expected.push([1_001, 513, 512, 0, 513, 1, 0, 1]);
    expected.extend((2..=512).map(|k| [1_000 + k, 512 + k, 513 - k, 511 + k, 513, k, 0, 1]));
    assert_eq!(bodies_of(&rows), expected);
}

#[test]
fn a_full_board_of_orphans() {
    // Entered last to first in sibling order.
    let rows: Vec<Row> = (1..=1_024).map(|k| Row::undated(u32::MAX, k, 1_024 - k, -1)).collect();
    let board = board_of(&rows);
    let image = image_in(1_024, |index, totals| build_default_board(&board, index, totals));
    assert_eq!(image.built, accepted(1_024, 0));
    let expected: Vec<[u32; 8]> =
        (1..=1_024).map(|k| [1_025 - k, 1_025 - k, 1, 0, k, 1, 0, 1]).collect();
    assert_eq!(bodies(&image), expected);
    assert_eq!(image.totals[1_024], -1_024);
}

// The same as code 3, and where it differs from code 0.

#[test]
fn the_default_is_code_3() {
    assert_eq!(forest::BY_DEFAULT, (3, None, Start::ParentZero));
    // Root, allow, break up.
    assert_eq!(Options::read(3), Some(Options { orphan: 3, multi: 0, cycle: 0 }));
    // No other code gives the same on a board that has a top orphan, an island, a shared numeral and
    // a closing path.
    let rows = [row(0, 1, 0), row(0, 1, 0), row(1, 2, 0), row(2, 1, 0), row(9, 8, 0), row(5, 5, 0)];
    let image = by_default(&rows);
    for code in 0..24 {
        let other = image_in(2_000, |index, totals| build(&rows, code, None, ON, index, totals));
        let same = (image.built, &image.index, &image.totals)
            == (other.built, &other.index, &other.totals);
        assert_eq!(same, code == 3, "{code}");
    }
    // Nor does another start rule: by an empty list all are orphans.
    let other =
        image_in(2_000, |index, totals| build(&rows, 3, None, Start::Numerals(&[]), index, totals));
    assert_eq!(other.built.left, 0);
    assert!(other.index != image.index);
}

#[test]
fn a_board_with_no_row_left_over_is_built_as_by_code_0() {
    let image = by_default(&MARKED[..6]);
    let code_0 = image_in(2_000, |index, totals| build(&MARKED[..6], 0, None, ON, index, totals));
    assert_eq!(code_0.built, accepted(8, 0));
    assert_eq!(
        (image.built, image.index, image.totals),
        (code_0.built, code_0.index, code_0.totals)
    );
}

// Refusals and slices.

#[test]
fn slices_too_short_and_just_enough() {
    // Nine nodes need 62 words and 10 totals.
    let board = board_of(&MARKED);
    let run = |words: usize, count: usize| {
        let (mut index, mut totals) = (vec![9; words], vec![9; count]);
        let built = build_default_board(&board, &mut index, &mut totals);
        if built.refusal != 0 {
            zeroed(&index, &totals);
        } else {
            assert!(index[62..].iter().all(|word| *word == 9));
            assert!(totals[10..].iter().all(|total| *total == 9));
        }
        built
    };
    assert_eq!(run(62, 10), accepted(9, 0));
    // 56 words and 9 totals are what code 0 needs.
    for (words, count) in [(61, 10), (62, 9), (61, 9), (56, 9), (61, 90), (900, 9), (7, 0), (0, 0)]
    {
        assert_eq!(run(words, count), refused(9), "{words} words, {count} totals");
    }
    for (words, count) in [(63, 10), (62, 11), (100, 100)] {
        assert_eq!(run(words, count), accepted(9, 0), "{words} words, {count} totals");
    }
}

#[test]
fn no_node_needs_eight_words_and_one_total() {
    let (mut index, mut totals) = ([5; 9], [5; 2]);
    assert_eq!(build_default(&[], &mut index[..7], &mut totals), refused(9));
    assert_eq!((index, totals), ([0, 0, 0, 0, 0, 0, 0, 5, 5], [0, 0]));
    assert_eq!(build_default(&[], &mut index[..8], &mut []), refused(9));
    assert_eq!(index, [0, 0, 0, 0, 0, 0, 0, 0, 5]);
    totals = [5; 2];
    assert_eq!(build_default(&[], &mut index[..8], &mut totals[..1]), accepted(0, 0));
    assert_eq!((index, totals), ([0, 8, 6, 0, 0, 0, 0, 0, 5], [0, 5]));
}

#[test]
fn node_limit() {
    // 255 start rows of numeral 1 and 256 rows below it: 255 × 257 = 65,535 nodes.
    let mut rows = vec![row(0, 1, 1); 255];
    rows.extend(vec![row(1, 2, 1); 256]);
    let mut index = vec![3; 8 + 6 * 65_536];
    let mut totals = vec![3; 65_537];
    assert_eq!(build_default(&rows, &mut index, &mut totals), accepted(65_535, 0));
    assert!(index_check(&index));
    assert_eq!((totals[65_535], totals[65_536]), (65_535, 3));
    // An orphan is one node more, and under code 0 a row left over.
    rows.push(row(9, 8, 1));
    assert_eq!(build_default(&rows, &mut index, &mut totals), refused(9));
    zeroed(&index, &totals);
    assert_eq!(build(&rows, 0, None, ON, &mut index, &mut totals), accepted(65_535, 1));
}

#[test]
fn an_unsound_board() {
    let mut numeral_0 = board_of(&MARKED);
    numeral_0.rows[6].numeral = 0;
    let mut count = board_of(&MARKED);
    count.count = 1_025;
    let mut kept = board_of(&MARKED);
    kept.kept = 257;
    let mut undone = board_of(&MARKED);
    undone.undone = 257;
    // The newest entries name a row which isn't there.
    let mut newest = board_of(&MARKED);
    newest.journal[6].at = 7;
    let mut newest_undone = board_of(&MARKED).withdraw(2).board.undo().board;
    newest_undone.journal[7].at = 7;
    for board in [numeral_0, count, kept, undone, newest, newest_undone] {
        assert!(!board.sound());
        let image = image_in(20, |index, totals| build_default_board(&board, index, totals));
        assert_eq!(image.built, refused(1));
        // Before refusal 9.
        let (mut index, mut totals) = ([5; 7], [5; 0]);
        let built = build_default_board(&board, &mut index, &mut totals);
        assert_eq!((built, index), (refused(1), [0; 7]));
    }
}

#[test]
fn from_a_board() {
    // Rows beyond the count aren't read.
    let mut board = board_of(&MARKED);
    board.rows[7] = row(90, 50, 0);
    let image = image_in(2_000, |index, totals| build_default_board(&board, index, totals));
    let listed = by_default(&MARKED);
    assert_eq!(
        (image.built, image.index, image.totals),
        (listed.built, listed.index, listed.totals)
    );
    // Without row 1 there is no start row. The others move up by one, and 20 and 30 have lost their
    // parent 10 and are roots as 91 is: 30 and 91 by order 1, 20 by order 2.
    let withdrawn = board.withdraw(1).board;
    let image = image_in(9, |index, totals| build_default_board(&withdrawn, index, totals));
    assert_eq!(image.built, accepted(8, 0));
    assert_eq!(
        bodies(&image),
        [
            [30, 2, 4, 0, 1, 1, 0, 1],
            [40, 4, 3, 1, 1, 2, 0, 1],
            [20, 5, 2, 2, 1, 3, 0, 1],
            [40, 3, 1, 3, 1, 4, 1, 1],
            [91, 6, 1, 0, 5, 1, 0, 1],
            [20, 1, 3, 0, 6, 1, 0, 1],
            [40, 3, 2, 6, 6, 2, 0, 1],
            [20, 5, 1, 7, 6, 3, 1, 1],
        ]
    );
    assert_eq!(image.totals(), [0, 4, 5, 4, 6, 13, 16, 18, 17]);
}

// Every small board.

/// Checks every list of `count` rows with these parents, numerals from 1 and orders from 0. Row k
/// has 10^(k − 1) minutes.
fn check_all(count: u32, parents: std::ops::RangeInclusive<u32>, numerals: u32, orders: u32) {
    let mut kinds = Vec::new();
    for parent in parents {
        for numeral in 1..=numerals {
            kinds.extend((0..orders).map(|order| row(parent, numeral, order)));
        }
    }
    for number in 0..kinds.len().pow(count) {
        // The digits of the number in base `kinds.len()` choose the rows.
        let kind = |k: u32| kinds[number / kinds.len().pow(k) % kinds.len()];
        let rows: Vec<Row> =
            (0..count).map(|k| Row { minutes: 10_i32.pow(k), ..kind(k) }).collect();
        check(&rows);
    }
}

/// The rows that are neither a start row nor below one: those left over by code 0.
fn unreached(rows: &[Row]) -> u32 {
    let mut reached = vec![false; rows.len()];
    for _ in rows {
        for k in 0..rows.len() {
            let below = |j: usize| reached[j] && rows[j].numeral == rows[k].parent;
            reached[k] = rows[k].parent == 0 || (0..rows.len()).any(below);
        }
    }
    reached.iter().filter(|reached| !**reached).count() as u32
}

/// What holds of the build by default on every board.
fn check(rows: &[Row]) {
    let image = image_in(30, |index, totals| build_default(rows, index, totals));
    let code_0 = image_in(30, |index, totals| build(rows, 0, None, ON, index, totals));
    let code_3 = image_in(30, |index, totals| build(rows, 3, None, ON, index, totals));
    let all = |image: &Image| (image.built, image.index.clone(), image.totals.clone());
    assert_eq!(all(&image), all(&code_3), "{rows:?}");

    // "An accepted one leaves no row without a node", and none with room is refused.
    let n = image.built.nodes as usize;
    assert_eq!(image.built, accepted(n as u32, 0), "{rows:?}");
    let found = bodies(&image);
    for k in 1..=rows.len() as u32 {
        assert!(found.iter().any(|body| body[1] == k), "row {k} of {rows:?}");
    }

    // The regular nodes come first, just as by code 0, which leaves U over.
    assert_eq!(code_0.built, accepted(code_0.built.nodes, unreached(rows)), "{rows:?}");
    let regular = bodies(&code_0);
    let (first, orphans) = found.split_at(regular.len());
    assert_eq!(first, regular, "{rows:?}");
    assert_eq!(image.totals()[..=regular.len()], *code_0.totals(), "{rows:?}");
    assert!(first.iter().all(|body| body[7] == 0), "{rows:?}");
    assert_eq!(all(&image) == all(&code_0), code_0.built.left == 0, "{rows:?}");

    // Behind them orphans alone. Their roots are the parts whose parent isn't drawn, in sibling
    // order, then the entries, which stand nowhere else.
    let behind = |rank: u32| rank as usize > regular.len();
    assert!(orphans.iter().all(|body| body[7] == 1 && behind(body[4])), "{rows:?}");
    let mut tops: Vec<(u32, u32, u32)> = (1..)
        .zip(rows)
        .filter(|(_, row)| row.parent != 0 && rows.iter().all(|r| r.numeral != row.parent))
        .map(|(k, row)| (row.order, row.numeral, k))
        .collect();
    tops.sort();
    let mut roots: Vec<u32> = tops.iter().map(|top| top.2).collect();
    roots.extend(orphans.iter().filter(|body| body[1] == 0).map(|_| 0));
    let found_roots = orphans.iter().filter(|body| body[3] == 0);
    assert_eq!(found_roots.map(|body| body[1]).collect::<Vec<_>>(), roots, "{rows:?}");

    // Each node adds its row's minutes, an entry 0.
    let minutes = found.iter().filter(|body| body[1] != 0).map(|body| 10_i64.pow(body[1] - 1));
    assert_eq!(image.totals[n], minutes.sum::<i64>(), "{rows:?}");

    // Just enough, and one word or one total too few.
    let run = |words: usize, count: usize| {
        let (mut index, mut totals) = (vec![77; words], vec![77; count]);
        let built = build_default(rows, &mut index, &mut totals);
        if built.refusal == 0 {
            assert_eq!((&index[..], &totals[..]), (&image.index[..words], image.totals()));
        } else {
            zeroed(&index, &totals);
        }
        built
    };
    assert_eq!(run(8 + 6 * n, n + 1), image.built, "{rows:?}");
    assert_eq!(run(8 + 6 * n - 1, n + 1), refused(9), "{rows:?}");
    assert_eq!(run(8 + 6 * n, n), refused(9), "{rows:?}");
    assert_eq!(run(0, 0), refused(9), "{rows:?}");
}

#[test]
fn every_board_of_up_to_three_rows() {
    // Parent 4 is no row's numeral, 1 to 3 may be.
    for count in 0..=3 {
        check_all(count, 0..=4, 3, 2);
    }
}

#[test]
fn every_board_of_four_rows() {
    check_all(4, 0..=3, 3, 1);
}

#[test]
fn every_board_of_four_rows_without_a_start_row() {
    // With numerals 1 to 4 there may be two rings of two rows.
    check_all(4, 1..=4, 4, 1);
}
