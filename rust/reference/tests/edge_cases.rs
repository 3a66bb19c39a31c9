//! Edges of the sentences, worked out by hand.

mod common;
#[path = "common/foreign.rs"]
mod foreign;

use common::{accepted, image_in, refused, Image};
use foreign::{index_of, seal};
use reference::board::{carried_out, inverse, PUT_IN, SET, TAKE_OUT};
use reference::*;

fn row(parent: u32, numeral: u32, order: u32) -> Row {
    Row::undated(parent, numeral, order, 1)
}

fn build_all(rows: &[Row], code: u32, depth: Option<i32>, start: Start) -> Image {
    image_in(4_000, |index, totals| build(rows, code, depth, start, index, totals))
}

/// Row number, parent rank, level, closing, orphan of each node.
fn shape(image: &Image) -> Vec<(u32, u32, u32, bool, bool)> {
    (1..=image.built.nodes as usize)
        .map(|rank| Body::read(&image.index, rank))
        .map(|b| (b.row, b.parent, b.level, b.closing, b.orphan))
        .collect()
}

#[test]
fn options_follow_the_formula() {
    for cycle in 0..2 {
        for multi in 0..3 {
            for orphan in 0..4 {
                let options = Options::read(orphan + 4 * multi + 12 * cycle).unwrap();
                assert_eq!(options, Options { orphan, multi, cycle });
            }
        }
    }
}

#[test]
fn codes_0_to_23_are_read_and_no_others() {
    for code in 0..24 {
        let Options { orphan, multi, cycle } = Options::read(code).unwrap();
        assert!(orphan <= 3 && multi <= 2 && cycle <= 1, "{code}");
        assert_eq!(orphan + 4 * multi + 12 * cycle, code);
    }
    // Root, error, error.
    assert_eq!(Options::read(23), Some(Options { orphan: 3, multi: 2, cycle: 1 }));

    for code in 24..100_000 {
        assert_eq!(Options::read(code), None, "{code}");
    }
    // A code that is one of the 24 but for a higher bit.
    for bit in 5..32 {
        for low in 0..24 {
            assert_eq!(Options::read((1 << bit) + low), None, "{low} and bit {bit}");
        }
    }
    for code in u32::MAX - 23..=u32::MAX {
        assert_eq!(Options::read(code), None, "{code}");
    }
}

#[test]
fn self_ring_entered_at_a_start_row() {
    let rows = [row(5, 5, 1)];
    let image = build_all(&rows, 0, None, Start::Numerals(&[5]));
    assert_eq!(image.built, accepted(2, 0));
    assert_eq!(shape(&image), [(1, 0, 1, false, false), (1, 1, 2, true, false)]);
    assert_eq!(build_all(&rows, 12, None, Start::Numerals(&[5])).built, refused(10));
    assert_eq!(build_all(&rows, 8, None, Start::Numerals(&[5])).built, refused(11));
    assert_eq!(build_all(&rows, 4, None, Start::Numerals(&[5])).built, refused(11));
}

#[test]
fn ring_of_two_entered_at_a_start_row() {
    let rows = [row(2, 1, 1), row(1, 2, 1)];
    let image = build_all(&rows, 0, None, Start::Numerals(&[1]));
    assert_eq!(
        shape(&image),
        [(1, 0, 1, false, false), (2, 1, 2, false, false), (1, 2, 3, true, false)]
    );
    // Both rows start: two trees.
    assert_eq!(build_all(&rows, 0, None, Start::Numerals(&[1, 2])).built, accepted(6, 0));
    // A depth that ends the path before it closes.
    assert_eq!(build_all(&rows, 12, Some(1), Start::Numerals(&[1])).built, accepted(2, 0));
    assert_eq!(build_all(&rows, 12, Some(2), Start::Numerals(&[1])).built, refused(10));
}

#[test]
fn islands_end_nodes_under_adopt_and_root_only() {
    // A ring of two, a row that hangs from it, a self ring.
    let rows = [row(2, 1, 1), row(1, 2, 1), row(2, 3, 1), row(9, 9, 1)];
    assert_eq!(build_all(&rows, 0, None, Start::ParentZero).built, accepted(0, 4));
    assert_eq!(build_all(&rows, 1, None, Start::ParentZero).built, refused(12));
    // No top orphan, but islands need a start row as well.
    assert_eq!(build_all(&rows, 2, None, Start::ParentZero).built, refused(8));
    // Two entries, and each row once.
    assert_eq!(build_all(&rows, 3, None, Start::ParentZero).built, accepted(6, 0));
}

#[test]
fn ring_reached_from_a_top_orphan_is_no_island() {
    let rows = [row(7, 1, 1), row(1, 2, 1), row(2, 1, 1)];
    let image = build_all(&rows, 3, None, Start::ParentZero);
    assert_eq!(image.built, accepted(3, 0));
    assert_eq!(
        shape(&image),
        [(1, 0, 1, false, true), (2, 1, 2, false, true), (3, 2, 3, true, true)]
    );
    assert_eq!(build_all(&rows, 15, None, Start::ParentZero).built, refused(10));
}

#[test]
fn adopting_row_does_not_count_when_closing_is_judged() {
    // Row 2 is a top orphan with the adopting row's numeral.
    let rows = [row(0, 7, 1), row(99, 7, 1)];
    for code in [2, 14] {
        let image = build_all(&rows, code, None, Start::ParentZero);
        assert_eq!(image.built, accepted(2, 0));
        assert_eq!(shape(&image), [(1, 0, 1, false, false), (2, 1, 2, false, true)]);
    }
    assert_eq!(build_all(&rows, 10, None, Start::ParentZero).built, refused(11));
    // Leaves only: the adopting node has size 2 and shares its numeral.
    assert_eq!(build_all(&rows, 6, None, Start::ParentZero).built, refused(11));
}

#[test]
fn adopted_ring_closes_on_its_own_rows() {
    // 99 -> 3 -> 4 -> 3, adopted by the last start row in sibling order, row 1.
    let rows = [row(0, 1, 5), row(0, 2, 4), row(99, 3, 0), row(3, 4, 0), row(4, 3, 0)];
    let image = build_all(&rows, 2, None, Start::ParentZero);
    assert_eq!(
        shape(&image),
        [
            (2, 0, 1, false, false),
            (1, 0, 1, false, false),
            (3, 2, 2, false, true),
            (4, 3, 3, false, true),
            (5, 4, 4, true, true),
        ]
    );
    assert_eq!(Body::read(&image.index, 2).size, 4);
    assert_eq!(Body::read(&image.index, 5).root, 2);
}

#[test]
fn children_of_a_reached_numeral_are_never_orphans() {
    // Row 3's parent 5 is the numeral of an orphan (row 2) and of a reached row (row 1).
    let rows = [row(0, 5, 1), row(99, 5, 1), row(5, 6, 1)];
    let image = build_all(&rows, 3, None, Start::ParentZero);
    assert_eq!(
        shape(&image),
        [(1, 0, 1, false, false), (3, 1, 2, false, false), (2, 0, 1, false, true)]
    );
}

#[test]
fn start_lists() {
    let rows = [row(0, 1, 1), row(1, 2, 1), row(2, 3, 1), row(1, 2, 0)];
    // Empty: no path.
    assert_eq!(build_all(&rows, 0, None, Start::Numerals(&[])).built, accepted(0, 4));
    assert_eq!(build_all(&rows, 1, None, Start::Numerals(&[])).built, refused(12));
    assert_eq!(build_all(&rows, 2, None, Start::Numerals(&[])).built, refused(8));
    // Root: all from the top orphan, row 1.
    assert_eq!(build_all(&rows, 3, None, Start::Numerals(&[])).built, accepted(5, 0));
    // Foreign numerals and 0 start nothing.
    assert_eq!(build_all(&rows, 0, None, Start::Numerals(&[0, 77])).built, accepted(0, 4));
    assert_eq!(build_all(&rows, 2, None, Start::Numerals(&[0, 77])).built, refused(8));
    // Both rows of numeral 2 start; doubles in the list change nothing; row 1 is left over.
    let image = build_all(&rows, 0, None, Start::Numerals(&[2, 2, 77, 2]));
    assert_eq!(image.built, accepted(4, 1));
    assert_eq!(
        shape(&image),
        [
            (4, 0, 1, false, false),
            (3, 1, 2, false, false),
            (2, 0, 1, false, false),
            (3, 3, 2, false, false),
        ]
    );
    // A start row reached below another start row stands at both places.
    let image = build_all(&rows, 0, None, Start::Numerals(&[3, 1]));
    assert_eq!(image.built, accepted(6, 0));
    assert_eq!(Body::read(&image.index, 1).row, 1);
    assert_eq!(Body::read(&image.index, 6).row, 3);
}

#[test]
fn parent_zero_row_can_be_an_orphan() {
    let rows = [row(0, 1, 1), row(1, 2, 1), row(2, 3, 1)];
    let image = build_all(&rows, 3, None, Start::Numerals(&[2]));
    assert_eq!(
        shape(&image),
        [(2, 0, 1, false, false), (3, 1, 2, false, false), (1, 0, 1, false, true)]
    );
}

#[test]
fn depths() {
    let rows = [row(0, 1, 1), row(1, 2, 1), row(2, 3, 1)];
    for (depth, nodes) in
        [(i32::MIN, 0), (-2, 0), (-1, 0), (0, 1), (1, 2), (2, 3), (3, 3), (i32::MAX, 3)]
    {
        let image = build_all(&rows, 0, Some(depth), Start::ParentZero);
        assert_eq!(image.built, accepted(nodes, 3 - nodes), "depth {depth}");
    }
    for code in 0..24 {
        let image = build_all(&rows, code, Some(1), Start::ParentZero);
        let expected = if code % 4 == 0 { accepted(2, 1) } else { refused(7) };
        assert_eq!(image.built, expected, "code {code}");
    }
}

#[test]
fn refusals_in_order() {
    let rows = [row(0, 1, 1), row(1, 1, 1), row(8, 9, 1)];
    let none: &mut [u32] = &mut [];
    let zero: &mut [i64] = &mut [];
    let on = Start::ParentZero;
    let off = Start::Numerals(&[]);
    let mut index = [5; 8 + 6 * 3];
    let mut totals = [5; 4];
    assert_eq!(build(&rows, 24, Some(0), off, none, zero).refusal, 6);
    assert_eq!(build(&rows, 2, Some(0), off, none, zero).refusal, 7);
    assert_eq!(build(&rows, 2, None, off, none, zero).refusal, 8);
    assert_eq!(build(&rows, 2, None, on, none, zero).refusal, 9);
    assert_eq!(build(&rows, 21, None, on, &mut index[..19], &mut totals).refusal, 9);
    assert_eq!(build(&rows, 21, None, on, &mut index[..20], &mut totals[..2]).refusal, 9);
    assert_eq!(build(&rows, 21, None, on, &mut index[..20], &mut totals[..3]).refusal, 10);
    assert_eq!(build(&rows, 9, None, on, &mut index, &mut totals).refusal, 11);
    assert_eq!(build(&rows, 5, None, on, &mut index, &mut totals).refusal, 11);
    assert_eq!(build(&rows, 1, None, on, &mut index, &mut totals).refusal, 12);
    assert_eq!(index, [0; 26]);
    assert_eq!(totals, [0; 4]);
    assert_eq!(build(&rows, 3, None, on, &mut index, &mut totals).refusal, 0);
}

#[test]
fn an_unsound_board_zeroes_the_slices() {
    let mut board = Board::EMPTY;
    board.count = 1;
    let mut index = [5; 10];
    let mut totals = [5; 3];
    let built = build_board(&board, 24, None, Start::ParentZero, &mut index, &mut totals);
    assert_eq!(built, refused(1));
    assert_eq!((index, totals), ([0; 10], [0; 3]));
}

#[test]
fn no_node_needs_eight_words_and_one_total() {
    let mut index = [5; 8];
    let mut totals = [5; 1];
    let on = Start::ParentZero;
    assert_eq!(build(&[], 0, None, on, &mut index[..7], &mut totals).refusal, 9);
    assert_eq!(index, [0, 0, 0, 0, 0, 0, 0, 5]);
    assert_eq!(totals, [0]);
    assert_eq!(build(&[], 0, None, on, &mut index, &mut []).refusal, 9);
    assert_eq!(build(&[], 0, None, on, &mut index, &mut totals).refusal, 0);
    assert_eq!(index, [0, 8, 6, 0, 0, 0, 0, 0]);
}

/// 255 start rows of numeral 1 and 256 rows below it: 255 × 257 = 65,535 nodes.
fn widest() -> Vec<Row> {
    let mut rows = vec![Row::undated(0, 1, 1, i32::MIN); 255];
    rows.extend(vec![Row::undated(1, 2, 1, i32::MIN); 256]);
    rows
}

#[test]
fn node_limit() {
    let mut index = vec![3; 8 + 6 * 65_536];
    let mut totals = vec![3; 65_537];
    let built = build(&widest(), 0, None, Start::ParentZero, &mut index, &mut totals);
    assert_eq!(built, accepted(65_535, 0));
    assert!(index_check(&index));
    assert_eq!(totals[65_535], -65_535 * (1 << 31));
    assert_eq!(totals[65_536], 3);
    assert_eq!(index[8 + 6 * 65_535..], [3; 6]);
    assert_eq!(subtree_sum(&index, &totals, 65_279).sum, -257 * (1 << 31));
    assert_eq!(path_sum(&index, &totals, 65_535), Summed { refusal: 0, sum: -2 * (1 << 31) });

    let mut rows = widest();
    rows.push(row(0, 3, 9));
    let built = build(&rows, 0, None, Start::ParentZero, &mut index, &mut totals);
    assert_eq!(built, refused(9));
    // One more as an orphan counts only when it becomes a node.
    rows[511] = row(77, 3, 9);
    assert_eq!(build(&rows, 0, None, Start::ParentZero, &mut index, &mut totals).refusal, 0);
    assert_eq!(build(&rows, 1, None, Start::ParentZero, &mut index, &mut totals).refusal, 12);
    assert_eq!(build(&rows, 2, None, Start::ParentZero, &mut index, &mut totals).refusal, 9);
    assert_eq!(build(&rows, 3, None, Start::ParentZero, &mut index, &mut totals).refusal, 9);
}

#[test]
fn exponential_boards_stop() {
    // Two rows on every level share a numeral: 2^512 paths.
    let rows: Vec<Row> = (0..1_024).map(|k| row(k / 2, k / 2 + 1, k)).collect();
    let mut index = vec![3; 8 + 6 * 65_536];
    let mut totals = vec![3; 65_537];
    let built = build(&rows, 0, None, Start::ParentZero, &mut index, &mut totals);
    assert_eq!(built, refused(9));
    // With a depth they are few.
    let built = build(&rows, 0, Some(3), Start::ParentZero, &mut index, &mut totals);
    assert_eq!(built, accepted(2 + 4 + 8 + 16, 1_016));
}

#[test]
fn longest_chain() {
    let rows: Vec<Row> = (0..1_024).map(|k| row(k, k + 1, 0)).collect();
    let image = build_all(&rows, 23, None, Start::ParentZero);
    assert_eq!(image.built, accepted(1_024, 0));
    let mut list = vec![0; 1_024];
    let climbed = ancestors(&image.index, 1_024, i32::MIN, i32::MAX, &mut list);
    assert_eq!(climbed, Climbed { refusal: 0, length: 1_024, links: 1_023 });
    assert_eq!(path_sum(&image.index, &image.totals, 1_024).sum, 1_024);

    // Closed by a ring entered at the start row: 1,025 rows.
    let mut ring = rows.clone();
    ring[0].parent = 1_024;
    let image = build_all(&ring, 0, None, Start::Numerals(&[1]));
    assert_eq!(image.built, accepted(1_025, 0));
    let last = Body::read(&image.index, 1_025);
    assert!(last.closing && last.level == 1_025 && last.row == 1);
}

// Equal places: order, then numeral, then row number.

/// The row numbers of each node's path, in rank order: its parent's, then its own.
fn paths(image: &Image) -> Vec<Vec<u32>> {
    let mut paths = vec![vec![]];
    for rank in 1..=image.built.nodes as usize {
        let body = Body::read(&image.index, rank);
        let mut path = paths[body.parent as usize].clone();
        path.push(body.row);
        paths.push(path);
    }
    paths.remove(0);
    paths
}

/// The closing bit of each node.
fn closings(image: &Image) -> Vec<bool> {
    shape(image).iter().map(|node| node.3).collect()
}

/// The orphan bit of each node.
fn orphans(image: &Image) -> Vec<bool> {
    shape(image).iter().map(|node| node.4).collect()
}

/// The forest with no limit on its nodes.
fn forest_of(rows: &[Row], orphan: u32, start: Start) -> Forest {
    forest::forest(rows, orphan, None, start, &|_| true).unwrap()
}

#[test]
fn siblings_of_equal_order_by_numeral() {
    // The order comes first: row 5 has the largest numeral and stands ahead. Of order 5 the larger
    // numeral was entered first and comes last.
    let rows = [row(0, 10, 1), row(10, 30, 5), row(10, 20, 5), row(10, 25, 5), row(10, 40, 4)];
    let image = build_all(&rows, 0, None, Start::ParentZero);
    assert_eq!(paths(&image), [&[1][..], &[1, 5], &[1, 3], &[1, 4], &[1, 2]]);
}

#[test]
fn siblings_of_equal_order_and_numeral_by_row_number() {
    // All fields equal.
    let rows = [row(0, 10, 1), row(10, 20, 5), row(10, 20, 5), row(10, 20, 5)];
    let image = build_all(&rows, 0, None, Start::ParentZero);
    assert_eq!(paths(&image), [&[1][..], &[1, 2], &[1, 3], &[1, 4]]);
    // Neither the parent nor the minutes decide; the totals tell the rows apart.
    let rows = [Row::undated(9, 7, 3, 8), Row::undated(0, 7, 3, -5), Row::undated(8, 7, 3, 1)];
    let image = build_all(&rows, 0, None, Start::Numerals(&[7]));
    assert_eq!(paths(&image), [[1], [2], [3]]);
    assert_eq!(image.totals(), [0, 8, 3, 4]);
}

#[test]
fn equal_rows_follow_their_present_row_numbers() {
    let mut board = Board::EMPTY;
    for (call, expected) in [
        (Call::Add(timed(5)), &[5][..]),
        (Call::Add(timed(60)), &[5, 60]),
        (Call::Add(timed(700)), &[5, 60, 700]),
        // Row 1 goes, and is entered again as row 3.
        (Call::Withdraw(1), &[60, 700]),
        (Call::Add(timed(5)), &[60, 700, 5]),
        (Call::Undo, &[60, 700]),
        (Call::Undo, &[5, 60, 700]),
        (Call::Redo, &[60, 700]),
        (Call::Redo, &[60, 700, 5]),
    ] {
        board = done(board, call);
        let image = build_all(board.held(), 0, None, Start::ParentZero);
        let own: Vec<i64> =
            (1..=image.built.nodes).map(|r| path_sum(&image.index, &image.totals, r).sum).collect();
        assert_eq!(own, expected, "{call:?}");
    }
}

#[test]
fn each_order_and_numeral_twice() {
    // Largest order first and in it largest numeral first, so that each pair of equal rows keeps
    // its order and the nine pairs come in reverse.
    let mut rows = Vec::new();
    for order in [9, 5, 0] {
        for numeral in [9, 5, 1] {
            rows.extend([row(0, numeral, order); 2]);
        }
    }
    let expected = [17, 18, 15, 16, 13, 14, 11, 12, 9, 10, 7, 8, 5, 6, 3, 4, 1, 2];
    let found = forest_of(&rows, 0, Start::ParentZero);
    assert_eq!(found.start_rows, expected);
    assert_eq!(found.nodes.iter().map(|node| node.rows[0]).collect::<Vec<_>>(), expected);
    // The sibling order of any two is that of their places.
    for (place, &a) in expected.iter().enumerate() {
        for (other, &b) in expected.iter().enumerate() {
            assert_eq!(forest::sibling_order(&rows, a, b), place.cmp(&other));
        }
    }
}

#[test]
fn start_rows_of_equal_order() {
    // Order 1: row 6. Order 2: numeral 10 twice, by row number, then 20 and 30. Order 3: row 5.
    let rows = [
        row(0, 30, 2),
        row(0, 10, 2),
        row(0, 20, 2),
        row(0, 10, 2),
        row(0, 5, 3),
        row(0, 40, 1),
        row(10, 50, 0),
    ];
    let image = build_all(&rows, 0, None, Start::ParentZero);
    assert_eq!(paths(&image), [&[6][..], &[2], &[2, 7], &[4], &[4, 7], &[3], &[1], &[5]]);
    assert_eq!(forest_of(&rows, 0, Start::ParentZero).start_rows, [6, 2, 4, 3, 1, 5]);
}

#[test]
fn start_rows_by_list_of_equal_order() {
    // Order 4: numeral 20 twice, by row number whatever their parents, then 30. The order of the
    // list decides nothing. Row 1 is left over, and as an orphan root comes last.
    let rows = [row(0, 1, 1), row(1, 30, 4), row(1, 20, 4), row(9, 20, 4), row(1, 10, 6)];
    for list in [&[30, 10, 20, 20, 77][..], &[10, 20, 30], &[20, 30, 10]] {
        let start = Start::Numerals(list);
        let image = build_all(&rows, 0, None, start);
        assert_eq!(image.built, accepted(4, 1));
        assert_eq!(paths(&image), [[3], [4], [2], [5]]);
        assert_eq!(forest_of(&rows, 0, start).start_rows, [3, 4, 2, 5]);
        assert_eq!(paths(&build_all(&rows, 3, None, start)), [[3], [4], [2], [5], [1]]);
    }
    // Rows 2 and 3 stand as roots and below row 1, both times the lower numeral first.
    let rows = [row(0, 10, 5), row(10, 30, 2), row(10, 20, 2)];
    let image = build_all(&rows, 0, None, Start::Numerals(&[30, 20, 10]));
    assert_eq!(paths(&image), [&[3][..], &[2], &[1], &[1, 3], &[1, 2]]);
}

#[test]
fn adopting_row_is_last_by_order_then_numeral_then_row_number() {
    let adopted = |rows: &[Row], start: Start, expected: &[&[u32]]| {
        let image = build_all(rows, 2, None, start);
        assert_eq!(image.built, accepted(rows.len() as u32, 0));
        assert_eq!(paths(&image), expected);
        // The last node is the only orphan.
        assert_eq!(orphans(&image).iter().position(|orphan| *orphan), Some(rows.len() - 1));
    };
    let on = Start::ParentZero;
    let orphan = row(50, 4, 0);
    // By order: row 2 has the larger numeral and row number.
    adopted(&[row(0, 1, 9), row(0, 3, 8), orphan], on, &[&[2], &[1], &[1, 3]]);
    // By numeral: row 2 has the larger row number.
    adopted(&[row(0, 30, 9), row(0, 20, 9), orphan], on, &[&[2], &[1], &[1, 3]]);
    adopted(&[row(0, 1, 9), row(0, 2, 9), row(0, 3, 8), orphan], on, &[&[3], &[1], &[2], &[2, 4]]);
    // By row number among rows 1 and 2; row 3 has the largest row number and a lower numeral.
    adopted(
        &[row(0, 20, 9), row(0, 20, 9), row(0, 10, 9), orphan],
        on,
        &[&[3], &[1], &[2], &[2, 4]],
    );
    // By list: row 1's parent is no row's numeral, and it starts all the same.
    let list = Start::Numerals(&[20, 30]);
    adopted(&[row(5, 30, 9), row(0, 20, 9), orphan], list, &[&[2], &[1], &[1, 3]]);
    adopted(
        &[row(5, 30, 9), row(0, 30, 9), row(0, 20, 9), orphan],
        list,
        &[&[3], &[1], &[2], &[2, 4]],
    );
}

#[test]
fn adopting_row_of_equal_order_decides_refusal_11() {
    // Leaves only, and row 1 adopts: its tree size is 2, row 2's is 1. Row 3 shares its numeral with
    // row 2, a leaf; then with row 1.
    let rows = [row(0, 30, 9), row(0, 20, 9), row(50, 20, 0)];
    assert_eq!(build_all(&rows, 6, None, Start::ParentZero).built, accepted(3, 0));
    let rows = [row(0, 30, 9), row(0, 20, 9), row(50, 30, 0)];
    assert_eq!(build_all(&rows, 6, None, Start::ParentZero).built, refused(11));
}

#[test]
fn top_orphans_of_equal_order() {
    let rows = [
        row(80, 3, 1),
        row(0, 50, 1),
        row(81, 2, 1),
        row(0, 40, 1),
        row(81, 2, 1),
        row(82, 1, 0),
        row(50, 60, 9),
        row(3, 9, 4),
        row(3, 8, 4),
    ];
    // Regular: 40, 50 with 60 below. Top orphans: order 0, row 6; order 1, numeral 2 twice by row
    // number, then 3 with 8 and 9 below.
    let image = build_all(&rows, 3, None, Start::ParentZero);
    assert_eq!(paths(&image), [&[4][..], &[2], &[2, 7], &[6], &[3], &[5], &[1], &[1, 9], &[1, 8]]);
    assert_eq!(Body::read(&image.index, 2).size, 2);
    let last_six = [false, false, false, true, true, true, true, true, true];
    assert_eq!(orphans(&image), last_six);
    // Adopted by row 2, whose numeral is the larger one, and after its regular row of order 9.
    let image = build_all(&rows, 2, None, Start::ParentZero);
    assert_eq!(
        paths(&image),
        [&[4][..], &[2], &[2, 7], &[2, 6], &[2, 3], &[2, 5], &[2, 1], &[2, 1, 9], &[2, 1, 8]]
    );
    assert_eq!(Body::read(&image.index, 2).size, 8);
    assert_eq!(orphans(&image), last_six);
    for orphan in 0..4 {
        assert_eq!(forest_of(&rows, orphan, Start::ParentZero).top_orphans, [6, 3, 5, 1]);
    }
}

#[test]
fn parent_zero_orphans_of_equal_order() {
    // Row 3 alone starts; the others have parent 0 and end no regular path.
    let rows = [row(0, 5, 1), row(0, 4, 1), row(8, 7, 1), row(0, 4, 1)];
    let start = Start::Numerals(&[7]);
    assert_eq!(paths(&build_all(&rows, 3, None, start)), [[3], [2], [4], [1]]);
    assert_eq!(paths(&build_all(&rows, 2, None, start)), [&[3][..], &[3, 2], &[3, 4], &[3, 1]]);
}

#[test]
fn several_rows_of_one_numeral() {
    // Rows 1 and 2 differ by row number alone, so all paths over row 1 come before those over row 2,
    // whatever the rows that follow.
    let rows = [
        Row::undated(0, 10, 1, 1),
        Row::undated(0, 10, 1, 10),
        Row::undated(10, 20, 5, 100),
        Row::undated(10, 15, 5, 1_000),
    ];
    let image = build_all(&rows, 0, None, Start::ParentZero);
    assert_eq!(paths(&image), [&[1][..], &[1, 4], &[1, 3], &[2], &[2, 4], &[2, 3]]);
    assert_eq!(image.totals(), [0, 1, 1_001, 1_101, 1_111, 2_111, 2_211]);
    for (rank, subtree, path) in [
        (1, 1_101, 1),
        (2, 1_000, 1_001),
        (3, 100, 101),
        (4, 1_110, 10),
        (5, 1_000, 1_010),
        (6, 100, 110),
    ] {
        let (index, totals) = (&image.index, &image.totals);
        assert_eq!(subtree_sum(index, totals, rank), Summed { refusal: 0, sum: subtree });
        assert_eq!(path_sum(index, totals, rank), Summed { refusal: 0, sum: path });
    }
    let mut list = [0; 3];
    assert_eq!(descendants(&image.index, 4, 0, 1, &mut list), Listed { refusal: 0, length: 3 });
    assert_eq!(list, [4, 5, 6]);
    assert_eq!(descendants(&image.index, 1, 1, 1, &mut list), Listed { refusal: 0, length: 2 });
    assert_eq!(list, [2, 3, 6]);

    // By order first, so the rows of one numeral needn't stand together.
    let rows = [row(0, 10, 1), row(10, 20, 5), row(10, 20, 4), row(10, 15, 5)];
    let image = build_all(&rows, 0, None, Start::ParentZero);
    assert_eq!(paths(&image), [&[1][..], &[1, 3], &[1, 4], &[1, 2]]);
}

#[test]
fn rows_below_several_parents_of_equal_order() {
    // 10 over 30 and 20, both over 7, which is over 9 and twice 8. The first differing row decides,
    // 20 before 30, although row 5 below 30 has a smaller order than row 4 below 20.
    let rows = [
        row(0, 10, 1),
        row(10, 30, 1),
        row(10, 20, 1),
        row(20, 7, 9),
        row(30, 7, 0),
        row(7, 9, 3),
        row(7, 8, 3),
        row(7, 8, 3),
    ];
    let image = build_all(&rows, 0, None, Start::ParentZero);
    assert_eq!(
        paths(&image),
        [
            &[1][..],
            &[1, 3],
            &[1, 3, 4],
            &[1, 3, 4, 7],
            &[1, 3, 4, 8],
            &[1, 3, 4, 6],
            &[1, 2],
            &[1, 2, 5],
            &[1, 2, 5, 7],
            &[1, 2, 5, 8],
            &[1, 2, 5, 6],
        ]
    );
    // The order of any two nodes is that of their ranks.
    let nodes = forest_of(&rows, 0, Start::ParentZero).nodes;
    for (place, a) in nodes.iter().enumerate() {
        for (other, b) in nodes.iter().enumerate() {
            assert_eq!(forest::node_order(&rows, a, b), place.cmp(&other));
        }
    }
}

#[test]
fn closing_row_and_open_sibling_of_equal_order() {
    let on = Start::ParentZero;
    // Numeral 10 closes, and comes before the open 30 and the row below it.
    let rows = [row(0, 10, 1), row(10, 20, 1), row(20, 30, 5), row(20, 10, 5), row(30, 40, 0)];
    let image = build_all(&rows, 0, None, on);
    assert_eq!(paths(&image), [&[1][..], &[1, 2], &[1, 2, 4], &[1, 2, 3], &[1, 2, 3, 5]]);
    assert_eq!(closings(&image), [false, false, true, false, false]);
    // Numeral 30 closes, and comes after the open 10.
    let rows = [row(0, 30, 1), row(30, 20, 1), row(20, 30, 5), row(20, 10, 5)];
    let image = build_all(&rows, 0, None, on);
    assert_eq!(paths(&image), [&[1][..], &[1, 2], &[1, 2, 4], &[1, 2, 3]]);
    assert_eq!(closings(&image), [false, false, false, true]);
    // Siblings of one numeral close both, by row number.
    let rows = [row(0, 10, 1), row(10, 20, 1), row(20, 10, 5), row(20, 10, 5)];
    let image = build_all(&rows, 0, None, on);
    assert_eq!(paths(&image), [&[1][..], &[1, 2], &[1, 2, 3], &[1, 2, 4]]);
    assert_eq!(closings(&image), [false, false, true, true]);
    // Row 3 is open below row 2 as a root and closes where row 2 stands below row 3; both times it
    // comes before row 1.
    let rows = [row(20, 15, 5), row(10, 20, 1), row(20, 10, 5)];
    let image = build_all(&rows, 0, None, Start::Numerals(&[10, 20]));
    assert_eq!(
        paths(&image),
        [&[2][..], &[2, 3], &[2, 3, 2], &[2, 1], &[3], &[3, 2], &[3, 2, 3], &[3, 2, 1]]
    );
    assert_eq!(closings(&image), [false, false, true, false, false, false, true, false]);
}

#[test]
fn orders_and_numerals_at_their_ends() {
    let top = u32::MAX;
    let half = 1 << 31;
    // Numeral and order of rows 1 to 11, and the rows in sibling order.
    let places = [
        (top, 0),
        (1, top),
        (top, top),
        (1, 0),
        (half, 0),
        (half - 1, 0),
        (1, 1),
        (top, top),
        (1, top - 1),
        (top, half - 1),
        (1, half),
    ];
    let expected = [4, 6, 5, 1, 7, 10, 11, 9, 2, 3, 8];
    let below = |parent: u32| -> Vec<Row> {
        places.iter().map(|&(numeral, order)| row(parent, numeral, order)).collect()
    };
    // As start rows; the last of them adopts row 12.
    let mut rows = below(0);
    rows.push(row(600, 1, 0));
    let image = build_all(&rows, 2, None, Start::ParentZero);
    let mut roots: Vec<Vec<u32>> = expected.iter().map(|&k| vec![k]).collect();
    roots.push(vec![8, 12]);
    assert_eq!(paths(&image), roots);
    // As rows of one parent, row 12.
    let mut rows = below(500);
    rows.push(row(0, 500, 3));
    let image = build_all(&rows, 0, None, Start::ParentZero);
    let mut children = vec![vec![12]];
    children.extend(expected.map(|k| vec![12, k]));
    assert_eq!(paths(&image), children);
    // As top orphans, after the regular root.
    rows[11].numeral = 501;
    let image = build_all(&rows, 3, None, Start::ParentZero);
    let mut roots = vec![vec![12]];
    roots.extend(expected.map(|k| vec![k]));
    assert_eq!(paths(&image), roots);
}

#[test]
fn sums_and_lists_with_an_adopting_row_of_equal_order() {
    // Rank 1 is row 2 (numeral 20). Rank 2 is row 1 (30), then 5 and 6 below it, then the orphan.
    let rows = [
        Row::undated(0, 30, 9, 1),
        Row::undated(0, 20, 9, 10),
        Row::undated(50, 4, 0, 100),
        Row::undated(30, 6, 2, 1_000),
        Row::undated(30, 5, 2, 10_000),
    ];
    let image = build_all(&rows, 2, None, Start::ParentZero);
    assert_eq!(paths(&image), [&[2][..], &[1], &[1, 5], &[1, 4], &[1, 3]]);
    let sums: Vec<i64> = (1..=5).map(|r| subtree_sum(&image.index, &image.totals, r).sum).collect();
    assert_eq!(sums, [10, 11_101, 10_000, 1_000, 100]);
    let mut list = [0; 4];
    assert_eq!(descendants(&image.index, 1, 0, 9, &mut list), Listed { refusal: 0, length: 1 });
    assert_eq!(list, [1, 0, 0, 0]);
    assert_eq!(descendants(&image.index, 2, 0, 9, &mut list), Listed { refusal: 0, length: 4 });
    assert_eq!(list, [2, 3, 4, 5]);
    assert_eq!(siblings(&image.index, 5, &mut list), Listed { refusal: 0, length: 3 });
    assert_eq!(list, [3, 4, 5, 5]);
    assert_eq!(span(&image.index, 2), Spanned { refusal: 0, words: 14..38 });
}

// Soundness.

/// A board of the rows, the kept entries, oldest first, and the undone ones, newest first.
fn board_of(rows: &[Row], kept: &[Entry], undone: &[Entry]) -> Board {
    let mut board = Board::EMPTY;
    board.count = rows.len();
    board.rows[..rows.len()].copy_from_slice(rows);
    board.kept = kept.len();
    board.undone = undone.len();
    let entries = [kept, undone].concat();
    board.journal[..entries.len()].copy_from_slice(&entries);
    board
}

fn entry(kind: u32, at: u32, numeral: u32) -> Entry {
    Entry { kind, at, row: row(0, numeral, 0) }
}

/// One call of each kind, refused by a later sentence where one can be.
fn each_call() -> [Call; 5] {
    [Call::Add(row(0, 0, 0)), Call::Withdraw(0), Call::Remark(0, 1), Call::Undo, Call::Redo]
}

/// All five calls refuse the board as unsound and give every word back.
fn refused_as_unsound(board: &Board) {
    assert!(!board.sound());
    for call in each_call() {
        let edited = board.clone().call(call);
        assert_eq!(edited.refusal, 1);
        assert_eq!(edited.board, *board);
    }
}

/// Makes a call that is accepted.
fn done(board: Board, call: Call) -> Board {
    let edited = board.call(call);
    assert_eq!(edited.refusal, 0, "{call:?}");
    edited.board
}

#[test]
fn words_of_the_record() {
    assert_eq!(std::mem::size_of::<Row>(), 24);
    assert_eq!(std::mem::size_of::<Entry>(), 32);
    assert_eq!(std::mem::size_of::<Board>(), 40_984);
    assert_eq!((TAKE_OUT, PUT_IN, SET), (0, 1, 2));
    assert_eq!((MAX_KEPT, MAX_UNDONE, JOURNAL_PLACES), (256, 256, 512));
}

/// The entries that can and that can't be carried out, each with the rows it is tried on.
fn good_and_bad_entries() -> Vec<(Vec<Row>, Entry, bool)> {
    let two = || vec![row(0, 1, 1), row(0, 2, 2)];
    let full = || vec![row(0, 1, 1); 1_024];
    vec![
        // Take out: place below the count; the entry's own row is not read.
        (vec![], entry(TAKE_OUT, 0, 1), false),
        (two(), entry(TAKE_OUT, 0, 1), true),
        (two(), entry(TAKE_OUT, 1, 0), true),
        (two(), entry(TAKE_OUT, 2, 1), false),
        (two(), entry(TAKE_OUT, u32::MAX, 1), false),
        (full(), entry(TAKE_OUT, 0, 0), true),
        (full(), entry(TAKE_OUT, 1_023, 0), true),
        (full(), entry(TAKE_OUT, 1_024, 1), false),
        // Put in: place up to the count, room for one more, numeral 1 or more.
        (vec![], entry(PUT_IN, 0, 1), true),
        (vec![], entry(PUT_IN, 1, 1), false),
        (two(), entry(PUT_IN, 2, 1), true),
        (two(), entry(PUT_IN, 3, 1), false),
        (two(), entry(PUT_IN, u32::MAX, 1), false),
        (two(), entry(PUT_IN, 0, 0), false),
        (full(), entry(PUT_IN, 0, 1), false),
        (full(), entry(PUT_IN, 1_024, 1), false),
        (full()[1..].to_vec(), entry(PUT_IN, 1_023, 1), true),
        (full()[1..].to_vec(), entry(PUT_IN, 1_024, 1), false),
        // Set: place below the count, numeral 1 or more.
        (two(), entry(SET, 1, 1), true),
        (two(), entry(SET, 2, 1), false),
        (two(), entry(SET, u32::MAX, 1), false),
        (vec![], entry(SET, 0, 1), false),
        (two(), entry(SET, 0, 0), false),
        (full(), entry(SET, 1_023, 7), true),
        (full(), entry(SET, 1_024, 7), false),
        // Other kinds can't be carried out.
        (two(), entry(3, 0, 1), false),
        (two(), entry(u32::MAX, 0, 1), false),
    ]
}

#[test]
fn soundness() {
    let two = [row(0, 1, 1), row(0, 2, 2)];
    assert!(Board::EMPTY.sound());
    refused_as_unsound(&board_of(&[row(0, 0, 1)], &[], &[]));
    for (rows, newest, good) in good_and_bad_entries() {
        assert_eq!(carried_out(&rows, &newest).is_some(), good, "{newest:?}");
        let fine = if rows.is_empty() { entry(PUT_IN, 0, 1) } else { entry(TAKE_OUT, 0, 0) };
        let bad = entry(9, 0, 0);
        // As the newest kept entry, as the newest undone one, and as both; the entries farther off
        // are not looked at.
        for board in [
            board_of(&rows, &[newest], &[]),
            board_of(&rows, &[bad, newest], &[fine, bad]),
            board_of(&rows, &[], &[newest]),
            board_of(&rows, &[bad, fine], &[newest, bad]),
            board_of(&rows, &[newest], &[newest]),
            board_of(&rows, &[newest; 256], &[fine; 256]),
            board_of(&rows, &[fine; 256], &[newest; 256]),
        ] {
            if good {
                assert!(board.sound(), "{newest:?}");
            } else {
                refused_as_unsound(&board);
            }
        }
    }
    // Entries that are neither kept nor undone are not looked at, nor are places beyond the count.
    let mut board = board_of(&two, &[entry(9, 0, 0)], &[entry(9, 0, 0)]);
    board.kept = 0;
    board.undone = 0;
    board.rows[2].numeral = 0;
    assert!(board.sound());
    let mut board = board_of(&two, &[entry(SET, 0, 1)], &[entry(9, 0, 0)]);
    board.undone = 0;
    assert!(board.sound());
}

#[test]
fn numbers_beyond_the_places() {
    let wide = usize::MAX;
    for (count, kept, undone) in [
        (1_025, 0, 0),
        (wide, 0, 0),
        (1 << 32, 0, 0),
        (0, 257, 0),
        (0, wide, 0),
        (0, 1 << 32, 0),
        (0, 0, 257),
        (0, 256, 257),
        (0, 257, 256),
        (0, 0, 512),
        (0, 0, wide),
        (0, 1, wide),
        (0, wide, 1),
        (0, wide, wide),
        (0, 0, 1 << 32),
        (0, 1, (1 << 32) - 1),
    ] {
        let mut board = Board::EMPTY;
        board.count = count;
        board.kept = kept;
        board.undone = undone;
        board.rows = [row(0, 1, 1); 1_024];
        board.journal = [entry(PUT_IN, 0, 1); 512];
        refused_as_unsound(&board);
    }
}

#[test]
fn inverses_lead_back() {
    let rows = [row(0, 1, 1), row(0, 2, 2), row(0, 3, 3)];
    for (entry, expected) in [
        // The row that was taken out, not the entry's own.
        (entry(TAKE_OUT, 1, 8), Entry { kind: PUT_IN, at: 1, row: rows[1] }),
        (entry(PUT_IN, 1, 8), entry(TAKE_OUT, 1, 8)),
        (entry(PUT_IN, 3, 8), entry(TAKE_OUT, 3, 8)),
        (entry(SET, 2, 8), Entry { kind: SET, at: 2, row: rows[2] }),
    ] {
        let back = inverse(&rows, &entry);
        assert_eq!(back, expected);
        let list = carried_out(&rows, &entry).unwrap();
        assert_eq!(carried_out(&list, &back).unwrap(), rows);
    }
}

#[test]
fn steps_of_a_foreign_board_may_leave_it_unsound() {
    let bad = entry(7, 0, 0);
    let board = board_of(&[row(0, 1, 1)], &[bad, entry(TAKE_OUT, 0, 0)], &[]);
    let edited = board.undo();
    assert_eq!((edited.refusal, edited.board.count), (0, 0));
    assert_eq!((edited.board.kept, edited.board.undone), (1, 1));
    refused_as_unsound(&edited.board);
    let board = board_of(&[row(0, 1, 1)], &[], &[entry(TAKE_OUT, 0, 0), bad]);
    let edited = board.redo();
    assert_eq!((edited.refusal, edited.board.count), (0, 0));
    assert_eq!((edited.board.kept, edited.board.undone), (1, 1));
    refused_as_unsound(&edited.board);
    // A place that is there on the rows held, and not on those it leads to.
    let board = board_of(&[row(0, 1, 1)], &[], &[entry(TAKE_OUT, 0, 0), entry(SET, 0, 1)]);
    refused_as_unsound(&board.redo().board);
    // Each of the two entries is judged on the rows held.
    let board = board_of(&[row(0, 1, 1)], &[entry(PUT_IN, 1, 2)], &[entry(SET, 1, 3)]);
    refused_as_unsound(&board);
}

#[test]
fn edits_refuse_in_order() {
    let full = board_of(&vec![row(0, 1, 1); 1_024], &[], &[]);
    assert_eq!(full.clone().add(row(0, 0, 0)).refusal, 2);
    assert_eq!(full.clone().add(row(0, 1, 0)).refusal, 3);
    assert_eq!(full.clone().withdraw(0).refusal, 4);
    assert_eq!(full.clone().withdraw(1_025).refusal, 4);
    assert_eq!(full.clone().remark(0, 0).refusal, 4);
    assert_eq!(full.clone().remark(usize::MAX, 0).refusal, 4);
    assert_eq!(full.clone().undo().refusal, 5);
    assert_eq!(full.clone().redo().refusal, 17);
    assert_eq!(full.clone().withdraw(1_024).refusal, 0);
    assert_eq!(full.clone().remark(1_024, i32::MIN).board.rows[1_023].minutes, i32::MIN);
}

#[test]
fn the_oldest_of_257_entries_is_dropped() {
    let mut entries: Vec<Entry> = (0..256).map(|k| entry(SET, 0, k + 1)).collect();
    let board = board_of(&[row(0, 1, 1)], &entries, &[]);
    let edited = board.remark(1, 9);
    assert_eq!(edited.refusal, 0);
    entries.remove(0);
    entries.push(Entry { kind: SET, at: 0, row: row(0, 1, 1) });
    assert!(edited.board.kept_entries() == entries);
}

// Undo and redo.

#[test]
fn words_that_edits_write() {
    let (one, two, three) = (row(0, 1, 1), row(1, 2, 2), row(1, 3, 3));
    let mut board = board_of(&[], &[], &[]);
    for added in [one, two, three] {
        board = done(board, Call::Add(added));
    }
    let adds = [
        Entry { kind: TAKE_OUT, at: 0, row: one },
        Entry { kind: TAKE_OUT, at: 1, row: two },
        Entry { kind: TAKE_OUT, at: 2, row: three },
    ];
    assert_eq!(board, board_of(&[one, two, three], &adds, &[]));

    // A withdrawal moves later rows up and leaves the last place as it was.
    let mut expected = board_of(&[one, three, three], &adds, &[]);
    expected.count = 2;
    expected.kept = 4;
    expected.journal[3] = Entry { kind: PUT_IN, at: 1, row: two };
    let withdrawn = done(board.clone(), Call::Withdraw(2));
    assert_eq!(withdrawn, expected);

    // Its undo puts the row back in the middle, and the inverse stands in the entry's place.
    let mut expected = board_of(&[one, two, three], &adds, &[]);
    expected.undone = 1;
    expected.journal[3] = Entry { kind: TAKE_OUT, at: 1, row: two };
    let back = done(withdrawn.clone(), Call::Undo);
    assert_eq!(back, expected);
    // The redone withdrawal is the withdrawal, word by word.
    assert_eq!(done(back.clone(), Call::Redo), withdrawn);

    // An undo further: an add is undone, and the words beyond stay.
    let mut expected = board_of(&[one, two, three], &adds[..2], &[]);
    expected.count = 2;
    expected.undone = 2;
    expected.journal[2] = Entry { kind: PUT_IN, at: 2, row: three };
    expected.journal[3] = Entry { kind: TAKE_OUT, at: 1, row: two };
    let further = done(back.clone(), Call::Undo);
    assert_eq!(further, expected);
    assert_eq!(done(further.clone(), Call::Redo), back);

    // A remark there takes the newest undone entry's place; the other's words stay, uncounted.
    let remarked = Row { minutes: -5, ..one };
    expected.rows[0] = remarked;
    expected.kept = 3;
    expected.undone = 0;
    expected.journal[2] = Entry { kind: SET, at: 0, row: one };
    let edited = done(further, Call::Remark(1, -5));
    assert_eq!(edited, expected);
    // Its undo sets the old row, and its redo the new one.
    expected.rows[0] = one;
    expected.kept = 2;
    expected.undone = 1;
    expected.journal[2] = Entry { kind: SET, at: 0, row: remarked };
    let undone = done(edited.clone(), Call::Undo);
    assert_eq!(undone, expected);
    assert_eq!(done(undone, Call::Redo), edited);
}

#[test]
fn redo_after_undo_gives_the_same_board() {
    let mut board = Board::EMPTY;
    for (place, call) in [
        Call::Add(row(0, 1, 1)),
        Call::Add(row(0, 2, 1)),
        Call::Remark(1, 7),
        Call::Add(row(0, 3, 1)),
        Call::Withdraw(2),
        Call::Withdraw(1),
        Call::Remark(1, i32::MIN),
        Call::Withdraw(1),
        Call::Add(row(0, 4, 1)),
    ]
    .into_iter()
    .enumerate()
    {
        board = done(board, call);
        assert_eq!((board.kept, board.undone), (place + 1, 0));
        // All the way down, and up again over the same boards.
        let mut passed = Vec::new();
        let mut down = board.clone();
        while down.kept > 0 {
            passed.push(down.clone());
            down = done(down, Call::Undo);
        }
        assert_eq!((down.count, down.undone), (0, place + 1));
        let edited = down.undo();
        assert_eq!(edited.refusal, 5);
        let mut up = edited.board;
        while let Some(earlier) = passed.pop() {
            up = done(up, Call::Redo);
            assert!(up.same(&earlier));
        }
        assert_eq!(up, board);
    }
}

#[test]
fn redo_is_refused_with_nothing_undone() {
    let mut machine = Machine::new();
    let mut board = Board::EMPTY;
    let (add, undo, redo) = (Call::Add(row(0, 1, 1)), Call::Undo, Call::Redo);
    for (call, refusal, kept, undone) in [
        // At first.
        (redo, 17, 0, 0),
        (undo, 5, 0, 0),
        (add, 0, 1, 0),
        // After an add.
        (redo, 17, 1, 0),
        (undo, 0, 0, 1),
        (undo, 5, 0, 1),
        (redo, 0, 1, 0),
        (redo, 17, 1, 0),
        (add, 0, 2, 0),
        (undo, 0, 1, 1),
        (undo, 0, 0, 2),
        (redo, 0, 1, 1),
        // Refused calls keep what is undone.
        (Call::Add(row(0, 0, 1)), 2, 1, 1),
        (Call::Withdraw(0), 4, 1, 1),
        (Call::Withdraw(2), 4, 1, 1),
        (Call::Remark(0, 3), 4, 1, 1),
        (Call::Remark(2, 3), 4, 1, 1),
        (redo, 0, 2, 0),
        (undo, 0, 1, 1),
        // Each accepted add, withdraw or remark empties it, also one that changes no word.
        (Call::Remark(1, 1), 0, 2, 0),
        (redo, 17, 2, 0),
        (undo, 0, 1, 1),
        (Call::Withdraw(1), 0, 2, 0),
        (redo, 17, 2, 0),
        (undo, 0, 1, 1),
        (add, 0, 2, 0),
        (redo, 17, 2, 0),
    ] {
        let before = board.clone();
        assert_eq!(machine.call(call), refusal, "{call:?}");
        let edited = board.call(call);
        assert_eq!(edited.refusal, refusal, "{call:?}");
        board = edited.board;
        assert_eq!((board.kept, board.undone), (kept, undone), "{call:?}");
        assert_eq!((machine.kept.len(), machine.undone.len()), (kept, undone), "{call:?}");
        assert_eq!(board.machine(), Some(machine.clone()), "{call:?}");
        assert!(refusal == 0 || board == before);
    }
}

#[test]
fn a_refused_add_to_1_024_rows_keeps_what_is_undone() {
    let full = vec![row(0, 1, 1); 1_024];
    let board = board_of(&full, &[], &[entry(TAKE_OUT, 3, 0), entry(SET, 0, 4)]);
    let edited = board.clone().add(row(0, 1, 1));
    assert_eq!(edited.refusal, 3);
    assert_eq!(edited.board, board);
    let redone = done(board, Call::Redo);
    assert_eq!((redone.count, redone.kept, redone.undone), (1_023, 1, 1));
    // The undone step gives all places again.
    let undone = done(redone, Call::Undo);
    assert_eq!((undone.count, undone.kept, undone.undone), (1_024, 0, 2));
}

#[test]
fn a_withdrawal_redone_in_the_middle() {
    let rows: Vec<Row> = (1..=5).map(|k| row(0, k, k)).collect();
    let mut board = Board::EMPTY;
    for added in &rows {
        board = done(board, Call::Add(*added));
    }
    let withdrawn = done(board, Call::Withdraw(3));
    let held = [rows[0], rows[1], rows[3], rows[4]];
    assert_eq!(withdrawn.held(), held);
    let undone = done(withdrawn.clone(), Call::Undo);
    assert_eq!(undone.held(), rows);
    let redone = done(undone, Call::Redo);
    assert_eq!(redone.held(), held);
    assert_eq!(redone, withdrawn);
    let last = done(redone, Call::Undo);
    assert_eq!(last.held(), rows);
}

// 256 kept and 256 undone steps.

/// A row of the given minutes; the steps below set one such row after the other.
fn timed(minutes: i32) -> Row {
    Row::undated(0, 1, 1, minutes)
}

fn set(minutes: i32) -> Entry {
    Entry { kind: SET, at: 0, row: timed(minutes) }
}

/// Minutes 0 on the only row, with minutes −1 to −`kept` kept and 1 to `undone` undone, and −999 in
/// the words that count for neither.
fn stretched(kept: i32, undone: i32) -> Board {
    let earlier: Vec<Entry> = (1..=kept).rev().map(|k| set(-k)).collect();
    let later: Vec<Entry> = (1..=undone).map(set).collect();
    let mut board = board_of(&[timed(0)], &earlier, &later);
    board.rows[1..].fill(timed(-999));
    board.journal[(kept + undone) as usize..].fill(set(-999));
    board
}

/// The minutes in the rows of the machine's K, R and F.
fn minutes(machine: &Machine) -> (Vec<i32>, i32, Vec<i32>) {
    let all = |lists: &[Vec<Row>]| lists.iter().map(|rows| rows[0].minutes).collect();
    (all(&machine.kept), machine.rows[0].minutes, all(&machine.undone))
}

#[test]
fn undo_with_256_undone_steps() {
    let board = stretched(256, 256);
    let mut machine = board.machine().unwrap();
    // The inverse stands in the entry's place, and no other entry moves; minutes 256 are no longer
    // counted, and their words stay in the last place.
    let mut expected = board.clone();
    expected.rows[0] = timed(-1);
    expected.kept = 255;
    expected.journal[255] = set(0);
    let undone = done(board, Call::Undo);
    assert_eq!(undone, expected);
    assert_eq!(undone.journal[511], set(256));
    assert_eq!(machine.undo(), 0);
    assert_eq!(minutes(&machine), ((-256..=-2).rev().collect(), -1, (0..=255).collect()));
    assert_eq!(undone.machine(), Some(machine.clone()));

    // To the bottom, each undo losing the last undone step; then up by 256 and no further.
    let mut board = undone;
    for k in 2..=256 {
        board = done(board, Call::Undo);
        assert_eq!(machine.undo(), 0);
        assert_eq!(
            (board.held(), board.kept, board.undone),
            (&[timed(-k)][..], 256 - k as usize, 256)
        );
    }
    assert_eq!(board.clone().undo().refusal, 5);
    assert_eq!(machine.undo(), 5);
    assert_eq!(minutes(&machine), (vec![], -256, (-255..=0).collect()));
    assert_eq!(board.machine(), Some(machine.clone()));
    for k in 1..=256 {
        board = done(board, Call::Redo);
        assert_eq!(machine.redo(), 0);
        assert_eq!((board.kept, board.undone), (k, 256 - k));
        assert_eq!(board.held(), [timed(k as i32 - 256)]);
    }
    assert_eq!(board.clone().redo().refusal, 17);
    assert_eq!(machine.redo(), 17);
    assert_eq!(board.machine(), Some(machine));
}

#[test]
fn redo_with_256_kept_steps() {
    let board = stretched(256, 256);
    let mut machine = board.machine().unwrap();
    // All 512 places move up, the oldest kept entry is lost and the last place keeps its words.
    let mut expected = board.clone();
    expected.rows[0] = timed(1);
    expected.undone = 255;
    expected.journal.copy_within(1.., 0);
    expected.journal[255] = set(0);
    let redone = done(board, Call::Redo);
    assert_eq!(redone, expected);
    assert_eq!((redone.journal[0], redone.journal[254]), (set(-255), set(-1)));
    assert_eq!(
        (redone.journal[256], redone.journal[510], redone.journal[511]),
        (set(2), set(256), set(256))
    );
    assert_eq!(machine.redo(), 0);
    assert_eq!(minutes(&machine), ((-255..=0).rev().collect(), 1, (2..=256).collect()));
    assert_eq!(redone.machine(), Some(machine.clone()));

    // To the top, each redo losing the oldest kept step; then down by 256 and no further.
    let mut board = redone;
    for k in 2..=256 {
        board = done(board, Call::Redo);
        assert_eq!(machine.redo(), 0);
        assert_eq!(
            (board.held(), board.kept, board.undone),
            (&[timed(k)][..], 256, 256 - k as usize)
        );
    }
    assert_eq!(board.clone().redo().refusal, 17);
    assert_eq!(machine.redo(), 17);
    assert_eq!(minutes(&machine), ((0..=255).rev().collect(), 256, vec![]));
    assert_eq!(board.machine(), Some(machine.clone()));
    for k in 1..=256 {
        board = done(board, Call::Undo);
        assert_eq!(machine.undo(), 0);
        assert_eq!((board.kept, board.undone), (256 - k, k));
        assert_eq!(board.held(), [timed(256 - k as i32)]);
    }
    assert_eq!(board.clone().undo().refusal, 5);
    assert_eq!(machine.undo(), 5);
    assert_eq!(board.machine(), Some(machine));
}

#[test]
fn redo_of_the_only_undone_step_with_256_kept() {
    // Places 0 to 256 move up, the inverse stands at place 255, and place 256 keeps its words.
    let board = stretched(256, 1);
    let mut expected = board.clone();
    expected.rows[0] = timed(1);
    expected.undone = 0;
    expected.journal.copy_within(1..257, 0);
    expected.journal[255] = set(0);
    let redone = done(board, Call::Redo);
    assert_eq!(redone, expected);
    assert_eq!(redone.journal[257], set(-999));
    assert_eq!(redone.clone().redo().refusal, 17);
    // With two, the last place of 258 keeps its words.
    let board = stretched(256, 2);
    let mut expected = board.clone();
    expected.rows[0] = timed(1);
    expected.undone = 1;
    expected.journal.copy_within(1..258, 0);
    expected.journal[255] = set(0);
    assert_eq!((expected.journal[256], expected.journal[257]), (set(2), set(2)));
    assert_eq!(done(board, Call::Redo), expected);
}

#[test]
fn steps_just_below_the_limits() {
    // 255 kept: a redo moves nothing. 255 undone: an undo counts one more.
    let board = stretched(255, 256);
    let mut expected = board.clone();
    expected.rows[0] = timed(1);
    expected.kept = 256;
    expected.undone = 255;
    expected.journal[255] = set(0);
    assert_eq!(done(board, Call::Redo), expected);
    let board = stretched(256, 255);
    let mut expected = board.clone();
    expected.rows[0] = timed(-1);
    expected.kept = 255;
    expected.undone = 256;
    expected.journal[255] = set(0);
    assert_eq!(done(board, Call::Undo), expected);
}

#[test]
fn edits_with_256_kept_and_256_undone() {
    let board = stretched(256, 256);
    let added = Row::undated(0, 2, 1, 5);
    for (call, noted) in [
        (Call::Add(added), Entry { kind: TAKE_OUT, at: 1, row: added }),
        (Call::Withdraw(1), Entry { kind: PUT_IN, at: 0, row: timed(0) }),
        (Call::Remark(1, 5), set(0)),
    ] {
        // The first 256 places move up; those from 256 on keep their words.
        let mut expected = board.clone();
        match call {
            Call::Add(added) => {
                expected.rows[1] = added;
                expected.count = 2;
            }
            Call::Withdraw(_) => expected.count = 0,
            _ => expected.rows[0] = timed(5),
        }
        expected.undone = 0;
        expected.journal.copy_within(1..256, 0);
        expected.journal[255] = noted;
        assert_eq!(expected.journal[256], set(1));
        let edited = done(board.clone(), call);
        assert_eq!(edited, expected);
        assert_eq!(edited.clone().redo().refusal, 17);
        let mut machine = board.machine().unwrap();
        assert_eq!(machine.call(call), 0);
        assert_eq!((machine.kept.len(), machine.undone.len()), (256, 0));
        assert_eq!(edited.machine(), Some(machine));
    }
    // Refused ones change no word.
    for call in [Call::Add(row(0, 0, 0)), Call::Withdraw(2), Call::Remark(0, 5)] {
        let edited = board.clone().call(call);
        assert!(edited.refusal == 2 || edited.refusal == 4);
        assert_eq!(edited.board, board);
    }
}

#[test]
fn what_counts_when_boards_are_compared() {
    let board = board_of(&[row(0, 1, 1)], &[entry(TAKE_OUT, 0, 5)], &[entry(SET, 0, 6)]);
    // The own row of an entry that takes out, and words beyond, don't count.
    let mut other = board.clone();
    other.journal[0].row = row(7, 7, 7);
    other.journal[2] = entry(9, 9, 9);
    other.rows[1] = row(7, 7, 7);
    assert!(board.same(&other));
    let differs = |change: fn(&mut Board)| {
        let mut other = board.clone();
        change(&mut other);
        assert!(!board.same(&other) && !other.same(&board));
    };
    differs(|other| other.count = 0);
    differs(|other| other.kept = 0);
    differs(|other| other.undone = 0);
    differs(|other| other.undone = 2);
    differs(|other| other.rows[0].minutes = 8);
    differs(|other| other.journal[0].at = 1);
    differs(|other| other.journal[0].kind = PUT_IN);
    differs(|other| other.journal[1].at = 1);
    differs(|other| other.journal[1].row.minutes = 8);
    // The places are told apart by the two numbers alone.
    differs(|other| (other.kept, other.undone) = (2, 0));
    assert_eq!(board.kept_entries(), [entry(TAKE_OUT, 0, 5)]);
    assert_eq!(board.undone_entries(), [entry(SET, 0, 6)]);
}

// Navigation on foreign slices.

fn all_calls(index: &[u32], totals: &[i64], rank: u32) -> [u32; 6] {
    let mut list = [0; 16];
    [
        span(index, rank).refusal,
        descendants(index, rank, i32::MIN, i32::MAX, &mut list).refusal,
        ancestors(index, rank, i32::MIN, i32::MAX, &mut list).refusal,
        siblings(index, rank, &mut list).refusal,
        subtree_sum(index, totals, rank).refusal,
        path_sum(index, totals, rank).refusal,
    ]
}

#[test]
fn headers() {
    let good = index_of(&[(2, 0, 1), (1, 1, 2)]);
    assert_eq!(all_calls(&good, &[0, 1, 2], 1), [0; 6]);
    assert!(index_check(&good));
    // A sum gets under n + 1 totals; the rank comes later.
    assert_eq!(all_calls(&good, &[0, 1], 1), [0, 0, 0, 0, 13, 13]);
    assert_eq!(all_calls(&good, &[0, 1], 0), [14, 14, 14, 14, 13, 13]);
    assert_eq!(all_calls(&good, &[], 3), [14, 14, 14, 14, 13, 13]);
    assert_eq!(all_calls(&good, &[0, 1, 2], 3), [14; 6]);
    assert_eq!(all_calls(&good, &[0, 1, 2], u32::MAX), [14; 6]);
    for end in 0..good.len() {
        assert_eq!(all_calls(&good[..end], &[0, 1, 2], 1), [13; 6]);
        assert!(!index_check(&good[..end]));
    }
    for (word, value) in [(1, 7), (2, 5), (0, 3), (0, 65_536), (0, u32::MAX)] {
        let mut bad = good.clone();
        bad[word] = value;
        assert_eq!(all_calls(&bad, &[0, 1, 2], 1), [13; 6]);
        assert!(!index_check(&bad));
    }
    // Words 3 to 7 don't matter to navigation.
    for word in 3..8 {
        let mut bad = good.clone();
        bad[word] += 1;
        assert_eq!(all_calls(&bad, &[0, 1, 2], 1), [0; 6]);
        assert!(!index_check(&bad));
    }
    // Words beyond don't matter at all.
    let mut longer = good.clone();
    longer.extend([9; 11]);
    assert_eq!(all_calls(&longer, &[0, 1, 2, 3], 1), [0; 6]);
    assert!(index_check(&longer));
    // An index of 65,536 nodes that would fit.
    let mut large = vec![0; 8 + 6 * 65_536];
    large[0] = 65_536;
    large[1] = 8;
    large[2] = 6;
    assert_eq!(all_calls(&large, &vec![0; 65_537], 1), [13; 6]);
}

#[test]
fn sizes_and_parents_of_foreign_indexes() {
    let totals = [0, 0, 0, 0];
    // Size 0, or an end above n, up to the widest word.
    for size in [0, 3, u32::MAX - 1, u32::MAX] {
        let index = index_of(&[(3, 0, 1), (size, 1, 2), (1, 1, 2)]);
        assert_eq!(all_calls(&index, &totals, 2), [15, 15, 0, 0, 15, 0]);
        assert_eq!(all_calls(&index, &totals, 1), [0; 6]);
        assert!(!index_check(&index));
    }
    // A parent rank not below its own, met anywhere on the climb.
    for parent in [2, 3, 4, u32::MAX] {
        let index = index_of(&[(3, 0, 1), (1, parent, 2), (1, 2, 3)]);
        assert_eq!(all_calls(&index, &totals, 2), [0, 0, 15, 0, 0, 15]);
        assert_eq!(all_calls(&index, &totals, 3), [0, 0, 15, 0, 0, 15]);
        assert_eq!(all_calls(&index, &totals, 1), [0; 6]);
    }
    // Refused although the limits would give an empty list.
    let index = index_of(&[(0, 1, 1)]);
    let mut list = [9; 2];
    assert_eq!(descendants(&index, 1, 1, 0, &mut list).refusal, 15);
    assert_eq!(ancestors(&index, 1, 1, 0, &mut list).refusal, 15);
    assert_eq!(list, [9; 2]);
}

#[test]
fn distances_of_foreign_levels() {
    // Levels falling below the node, and bits 16 to 31 set.
    let index = index_of(&[(3, 0, 5), (1, 1, 0xffff), (1, 1, 0xffff_0000)]);
    let mut list = [0; 3];
    assert_eq!(descendants(&index, 1, i32::MIN, -5, &mut list).length, 1);
    assert_eq!(list[0], 3);
    assert_eq!(descendants(&index, 1, 65_530, i32::MAX, &mut list).length, 1);
    assert_eq!(list[0], 2);
    assert_eq!(descendants(&index, 1, -5, -5, &mut list).length, 1);
    // The climb lists a distance above 0 as well.
    assert_eq!(ancestors(&index, 3, 5, 5, &mut list), Climbed { refusal: 0, length: 1, links: 1 });
    assert_eq!(list[0], 1);
    assert_eq!(
        ancestors(&index, 3, -5, -1, &mut list),
        Climbed { refusal: 0, length: 0, links: 1 }
    );
    // A lower limit above the upper.
    assert_eq!(
        descendants(&index, 1, i32::MAX, i32::MIN, &mut []),
        Listed { refusal: 0, length: 0 }
    );
}

#[test]
fn lists_and_their_slices() {
    let index = index_of(&[(3, 0, 1), (1, 1, 2), (1, 1, 2), (1, 0, 1)]);
    let mut list = [9; 3];
    assert_eq!(descendants(&index, 1, 0, 1, &mut list[..2]), Listed { refusal: 16, length: 0 });
    assert_eq!(
        ancestors(&index, 3, -1, 0, &mut list[..1]),
        Climbed { refusal: 16, length: 0, links: 0 }
    );
    assert_eq!(siblings(&index, 4, &mut list[..1]), Listed { refusal: 16, length: 0 });
    assert_eq!(list, [9; 3]);
    assert_eq!(
        ancestors(&index, 3, -1, -1, &mut list[..1]),
        Climbed { refusal: 0, length: 1, links: 1 }
    );
    assert_eq!(list, [1, 9, 9]);
    assert_eq!(siblings(&index, 4, &mut list), Listed { refusal: 0, length: 2 });
    assert_eq!(list, [1, 4, 9]);
    assert_eq!(span(&index, 1), Spanned { refusal: 0, words: 8..26 });
    assert_eq!(span(&index, 3), Spanned { refusal: 0, words: 20..26 });
    assert_eq!(span(&index, 5), Spanned { refusal: 14, words: 0..0 });
}

#[test]
fn totals_at_any_value() {
    let index = index_of(&[(2, 0, 1), (1, 1, 2)]);
    let edge = 1i64 << 47;
    let sum = |totals: [i64; 3]| subtree_sum(&index, &totals, 1);
    assert_eq!(sum([-edge, i64::MAX, edge]), Summed { refusal: 0, sum: 2 * edge });
    assert_eq!(sum([edge, i64::MIN, -edge]), Summed { refusal: 0, sum: -2 * edge });
    for bad in [edge + 1, -edge - 1, i64::MIN, i64::MAX] {
        assert_eq!(sum([bad, 0, 0]), Summed { refusal: 15, sum: 0 });
        assert_eq!(sum([0, 0, bad]), Summed { refusal: 15, sum: 0 });
        assert_eq!(sum([0, bad, 0]).refusal, 0);
        for place in 0..3 {
            let mut totals = [0; 3];
            totals[place] = bad;
            assert_eq!(path_sum(&index, &totals, 2), Summed { refusal: 15, sum: 0 });
        }
        // The total at rank 2 isn't used on the path of rank 1.
        assert_eq!(path_sum(&index, &[0, 0, bad], 1).refusal, 0);
    }
    let path = |totals: [i64; 3]| path_sum(&index, &totals, 2);
    let (low, high) = (i32::MIN as i64, i32::MAX as i64);
    assert_eq!(path([edge - high, edge, edge + low]), Summed { refusal: 0, sum: -1 });
    assert_eq!(path([0, high + 1, 0]).refusal, 15);
    assert_eq!(path([0, low - 1, 0]).refusal, 15);
    assert_eq!(path([-edge, edge, edge]).refusal, 15);
    // A subtree sum may leave i32.
    assert_eq!(sum([0, 0, high + 1]).sum, high + 1);
}

// Index check.

#[test]
fn check_of_each_condition() {
    // 1 (2 3 (4)) 5
    let good = index_of(&[(4, 0, 1), (1, 1, 2), (2, 1, 2), (1, 3, 3), (1, 0, 1)]);
    assert!(index_check(&good));
    let damaged = |rank: usize, word: usize, value: u32| {
        let mut index = good.clone();
        index[8 + 6 * (rank - 1) + word] = value;
        assert!(!index_check(&index), "check word wrong");
        seal(&mut index);
        index_check(&index)
    };
    // Numeral, row number and the two flags are free.
    assert!(damaged(1, 0, 0));
    assert!(damaged(2, 1, u32::MAX));
    assert!(damaged(2, 5, 2 + (3 << 30)));
    // Size 0; an end beyond the parent's or n; a size that swallows the next tree.
    assert!(!damaged(2, 2, 0));
    assert!(!damaged(4, 2, 2));
    assert!(!damaged(5, 2, 2));
    assert!(!damaged(5, 2, u32::MAX));
    assert!(!damaged(1, 2, 5));
    // Parent ranks.
    assert!(!damaged(4, 3, 1));
    assert!(!damaged(5, 3, 1));
    assert!(!damaged(5, 3, 5));
    assert!(!damaged(2, 3, u32::MAX));
    // Levels: any from 1 for a root and any above the parent's, as long as the children's are above.
    assert!(!damaged(1, 5, 0));
    assert!(!damaged(1, 5, 2));
    assert!(!damaged(5, 5, 0));
    assert!(damaged(5, 5, 2));
    assert!(damaged(5, 5, 0xffff));
    assert!(!damaged(3, 5, 1));
    assert!(!damaged(3, 5, 3));
    assert!(!damaged(4, 5, 0));
    assert!(!damaged(4, 5, 1));
    assert!(!damaged(4, 5, 2));
    assert!(damaged(4, 5, 4));
    assert!(damaged(4, 5, 0xffff));
    // Roots, bits 16 to 29.
    assert!(!damaged(4, 4, 3));
    assert!(!damaged(5, 4, 1));
    for bit in 16..30 {
        assert!(!damaged(3, 5, 2 + (1 << bit)));
    }
}

#[test]
fn check_of_the_deepest_chain() {
    let n = 65_535;
    let mut bodies: Vec<(u32, u32, u32)> = (1..=n).map(|k| (n + 1 - k, k - 1, k)).collect();
    assert!(index_check(&index_of(&bodies)));
    for level in [0, n - 1] {
        bodies[65_534].2 = level;
        assert!(!index_check(&index_of(&bodies)));
    }
    // There is no level left above 65,535.
    bodies[65_534].2 = n;
    bodies[65_533].2 = n;
    assert!(!index_check(&index_of(&bodies)));
}

// The listing program.

fn prints(input: &str, output: &str) {
    assert_eq!(String::from_utf8(numerals(input.as_bytes())).unwrap(), output, "{input:?}");
}

#[test]
fn lines_it_cannot_read() {
    for bad in [
        "",
        " ",
        "1",
        "0 1 1",
        "0 1 1 1 1",
        "0  1 1 1",
        " 0 1 1 1",
        "0 1 1 1 ",
        "0 1 1 -",
        "0 1 1 --1",
        "0 1 1 +1",
        "-0 1 1 1",
        "0 -1 1 1",
        "0 1 -1 1",
        "0 1 1 1-",
        "0 1 1 1\r",
        "0\t1 1 1",
        "a 1 1 1",
        "0 1 1 1.0",
        "4294967296 1 1 1",
        "0 4294967296 1 1",
        "0 1 4294967296 1",
        "0 1 1 2147483648",
        "0 1 1 -2147483649",
        "0 1 1 99999999999999999999999999999999999999999",
        "340282366920938463463374607431768211456 1 1 1",
        "0 1 1 \u{0661}",
    ] {
        prints(&format!("{bad}\n"), "bad line 1\n");
        prints(&format!("0 1 1 1\n{bad}\n0 1 1 1"), "bad line 2\n");
    }
    prints("0 1 1 1\n\n", "bad line 2\n");
    prints("\n", "bad line 1\n");
    assert_eq!(numerals(b"0 1 1 \xff"), b"bad line 1\n");
    assert_eq!(numerals(b"0 1 1 1\0"), b"bad line 1\n");
}

#[test]
fn fields_at_their_widths() {
    let header = "rank size parent level root cycle orphan id sum\n";
    let body = |text: &str| format!("{header}{text}");
    prints("0 4294967295 4294967295 -2147483648", &body("1 1 0 1 1 0 0 4294967295 -2147483648\n"));
    prints("4294967295 7 0 2147483647", &body("1 1 0 1 1 0 1 7 2147483647\n"));
    prints("00 0007 000 -0", &body("1 1 0 1 1 0 0 7 0\n"));
    let zeros = "0".repeat(500);
    prints(&format!("0 {zeros}7 0 -{zeros}9\n"), &body("1 1 0 1 1 0 0 7 -9\n"));
}

#[test]
fn the_first_is_all_that_is_printed() {
    prints("0 0 1 1\nbad\n", "refused 2\n");
    prints("bad\n0 0 1 1\n", "bad line 1\n");
    let full = "0 1 1 1\n".repeat(1_024);
    prints(&format!("{full}0 1 1 1\n"), "refused 3\n");
    prints(&format!("{full}0 0 1 1\n"), "refused 2\n");
    prints(&format!("{full}0 1 1\n"), "bad line 1025\n");
    prints(&format!("{full}0 1 1 1\nbad\n"), "refused 3\n");
}

#[test]
fn its_index_holds_2_700_nodes() {
    // 50 start rows of one numeral, each with 53 rows below: 50 × 54 = 2,700.
    let text = "0 1 1 1\n".repeat(50) + &"1 2 1 1\n".repeat(53);
    let output = String::from_utf8(numerals(text.as_bytes())).unwrap();
    assert_eq!(output.lines().count(), 2_701);
    assert_eq!(output.lines().last(), Some("2700 1 2647 2 2647 0 0 2 1"));
    prints(&format!("{text}0 3 1 1\n"), "refused 9\n");
    prints(&format!("{text}8 3 1 1\n"), "refused 9\n");
    prints(&format!("{text}3 3 1 1\n"), "refused 9\n");
}

#[test]
fn lines_of_equal_order() {
    // Regular roots 1 and 2, then the orphans 3 and 4. No two lines have equal order and numeral, so
    // the line's number decides nothing.
    let lines = ["8 4 1 100", "0 2 1 1", "8 3 1 200", "0 1 1 2"];
    let output = "rank size parent level root cycle orphan id sum
1 1 0 1 1 0 0 1 2
2 1 0 1 2 0 0 2 1
3 1 0 1 3 0 1 3 200
4 1 0 1 4 0 1 4 100
";
    for first in 0..4 {
        let mut turned = lines;
        turned.rotate_left(first);
        prints(&turned.join("\n"), output);
        turned.reverse();
        prints(&turned.join("\n"), output);
    }
    // Lines of equal order and numeral keep their order; the sums tell them apart.
    let header = "rank size parent level root cycle orphan id sum\n";
    prints(
        "0 1 1 7\n0 1 1 9\n0 1 1 8\n",
        &format!("{header}1 1 0 1 1 0 0 1 7\n2 1 0 1 2 0 0 1 9\n3 1 0 1 3 0 0 1 8\n"),
    );
}
