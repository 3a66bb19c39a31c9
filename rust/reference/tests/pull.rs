//! The pull of one part, worked out by hand: which totals move and how far, what is refused, and in
//! which order; and every small board by every build, where a pull of a row gives the totals of the
//! remarked board.

mod common;
#[path = "common/foreign.rs"]
mod foreign;
#[path = "common/marked.rs"]
mod marked;

use common::{accepted, image_in, Image};
use foreign::index_of;
use marked::{board_of, MARKED};
use reference::*;

const ON: Start = Start::ParentZero;
/// The limit of use of a total.
const LIMIT: i64 = 1 << 47;
/// One beyond it.
const BEYOND: i64 = LIMIT + 1;
/// Differences, and totals beyond the limit, of any width.
const FAR: [i64; 8] =
    [BEYOND, -BEYOND, 2 * LIMIT, 1 << 62, -(1 << 62), i64::MIN, i64::MIN + 1, i64::MAX];

/// The totals after a pull, or its refusal, which leaves them as they were.
fn pulled(index: &[u32], totals: &[i64], row: u32, difference: i64) -> Result<Vec<i64>, u32> {
    let mut after = totals.to_vec();
    match pull(index, &mut after, row, difference) {
        0 => Ok(after),
        refusal => {
            assert_eq!(after, totals, "refused {refusal}");
            Err(refusal)
        }
    }
}

/// An index of nodes with these row numbers. All other words are wrong: some are those row numbers.
fn index_with(rows: &[u32]) -> Vec<u32> {
    let mut index = vec![rows.len() as u32, 8, 6, 1, 2, 3, 4, u32::MAX];
    for row in rows {
        index.extend([1, *row, 0, 2, u32::MAX, 3]);
    }
    index
}

/// The row numbers of the nodes, in rank order.
fn rows_of(index: &[u32]) -> Vec<u32> {
    (1..=index[0] as usize).map(|rank| Body::read(index, rank).row).collect()
}

/// The subtree sums of all nodes, in rank order.
fn sums(index: &[u32], totals: &[i64]) -> Vec<i64> {
    let sum = |rank| subtree_sum(index, totals, rank);
    (1..=index[0]).map(sum).inspect(|sum| assert_eq!(sum.refusal, 0)).map(|sum| sum.sum).collect()
}

/// Code 3 over the marked rows, as the listing of the scope paper has it, with seven totals beyond.
fn listing() -> Image {
    image_in(9, |index, totals| build(&MARKED, 3, None, ON, index, totals))
}

// Right indexes.

#[test]
fn the_listing() {
    let Image { built, index, totals } = listing();
    assert_eq!(built, accepted(9, 0));
    assert_eq!(rows_of(&index), [1, 3, 5, 6, 4, 2, 4, 6, 7]);
    assert_eq!(totals[..10], [0, 5, 9, 10, 9, 11, 14, 16, 15, 22]);
    // Rows 4 and 6 end two nodes each, once in one that closes.
    let expected = [
        [0, 15, 19, 20, 19, 21, 24, 26, 25, 32],
        [0, 5, 9, 10, 9, 11, 24, 26, 25, 32],
        [0, 5, 19, 20, 19, 21, 24, 26, 25, 32],
        [0, 5, 9, 10, 9, 21, 24, 36, 35, 42],
        [0, 5, 9, 20, 19, 21, 24, 26, 25, 32],
        [0, 5, 9, 10, 19, 21, 24, 26, 35, 42],
        [0, 5, 9, 10, 9, 11, 14, 16, 15, 32],
    ];
    for (row, expected) in (1..).zip(expected) {
        let after = pulled(&index, &totals, row, 10).unwrap();
        assert_eq!(after[..10], expected, "row {row}");
        // The words beyond are as they were.
        assert_eq!(after[10..], [77; 7]);
        // And back.
        assert_eq!(pulled(&index, &after, row, -10), Ok(totals.clone()));
    }
    // Deductions: row 4 by 7, row 1 by 5.
    let after = pulled(&index, &totals, 4, -7).unwrap();
    assert_eq!(after[..10], [0, 5, 9, 10, 9, 4, 7, 2, 1, 8]);
    let after = pulled(&index, &totals, 1, -5).unwrap();
    assert_eq!(after[..10], [0, 0, 4, 5, 4, 6, 9, 11, 10, 17]);
}

/// Row 6 from -1 to 9: it ends ranks 4 and 8. Both are below 1; 4 is below 3 and 2, 8 below 7 and 6.
#[test]
fn sums_of_the_listing() {
    let Image { index, totals, .. } = listing();
    assert_eq!(sums(&index, &totals), [15, 6, 2, 1, 2, 4, 1, -1, 7]);
    let after = pulled(&index, &totals, 6, 10).unwrap();
    assert_eq!(sums(&index, &after), [35, 16, 12, 11, 2, 14, 11, 9, 7]);
    // Row 4 from 2 to -1 ends ranks 5 and 7.
    let after = pulled(&index, &totals, 4, -3).unwrap();
    assert_eq!(sums(&index, &after), [9, 3, -1, -2, -1, 1, -2, -1, 7]);
    // Sums over paths: 10, 30, 40, 20, 40 and 10, 20, 40, 20 have row 6 once each, 10, 20, 40 hasn't.
    let after = pulled(&index, &totals, 6, 10).unwrap();
    for (rank, old, new) in [(5, 11, 21), (8, 9, 19), (7, 10, 10)] {
        assert_eq!(path_sum(&index, &totals, rank), Summed { refusal: 0, sum: old });
        assert_eq!(path_sum(&index, &after, rank), Summed { refusal: 0, sum: new });
    }
}

#[test]
fn a_row_that_no_node_has() {
    let Image { index, totals, .. } = listing();
    // Above the board's count, which the call can't know.
    for row in [8, 9, 10, 1_024, 1_025, 65_536, u32::MAX - 1, u32::MAX] {
        for difference in [0, 1, -1, 10, i64::MIN, i64::MAX] {
            assert_eq!(pulled(&index, &totals, row, difference), Ok(totals.clone()));
        }
    }
    // Rows that end no node: code 0 leaves row 7 over, and depth 1 rows 4 to 7.
    let image = image_in(8, |index, totals| build(&MARKED, 0, None, ON, index, totals));
    assert_eq!(image.built, accepted(8, 1));
    assert_eq!(pulled(&image.index, &image.totals, 7, 10), Ok(image.totals.clone()));
    let image = image_in(8, |index, totals| build(&MARKED, 0, Some(1), ON, index, totals));
    assert_eq!((image.built, image.totals()), (accepted(3, 4), &[0, 5, 9, 12][..]));
    for row in 4..=7 {
        assert_eq!(pulled(&image.index, &image.totals, row, i64::MAX), Ok(image.totals.clone()));
    }
    let after = pulled(&image.index, &image.totals, 2, -3).unwrap();
    assert_eq!(after[..4], [0, 5, 9, 9]);
}

/// Row 7 is adopted by row 1: rank 9 is below rank 1.
#[test]
fn an_adopted_row() {
    let image = image_in(9, |index, totals| build(&MARKED, 2, None, ON, index, totals));
    assert_eq!(Body::read(&image.index, 9).parent, 1);
    assert_eq!(sums(&image.index, &image.totals), [22, 6, 2, 1, 2, 4, 1, -1, 7]);
    let after = pulled(&image.index, &image.totals, 7, -30).unwrap();
    assert_eq!(after[..10], [0, 5, 9, 10, 9, 11, 14, 16, 15, -8]);
    assert_eq!(sums(&image.index, &after), [-8, 6, 2, 1, 2, 4, 1, -1, -23]);
    // The row in front is no node of its own: rank 1 alone ends in row 1.
    let after = pulled(&image.index, &image.totals, 1, 100).unwrap();
    assert_eq!(after[..10], [0, 105, 109, 110, 109, 111, 114, 116, 115, 122]);
}

/// Starts from numeral 40: row 4, below it row 6, below that row 4 again, which closes; row 5, row 6,
/// row 4. Row 4 ends three nodes, two of them on one path.
#[test]
fn a_row_twice_on_a_path() {
    let image =
        image_in(6, |index, totals| build(&MARKED, 0, None, Start::Numerals(&[40]), index, totals));
    assert_eq!(rows_of(&image.index), [4, 6, 4, 5, 6, 4]);
    assert_eq!(image.totals(), [0, 2, 1, 3, 4, 3, 5]);
    assert_eq!(sums(&image.index, &image.totals), [3, 1, 2, 2, 1, 2]);
    let after = pulled(&image.index, &image.totals, 4, 100).unwrap();
    assert_eq!(after[..7], [0, 102, 101, 203, 204, 203, 305]);
    assert_eq!(sums(&image.index, &after), [203, 101, 102, 102, 101, 102]);
}

/// A ring of two rows: the entry with numeral 1 and row number 0, below it row 2, below that row 1,
/// which closes. Only row 0 is the entry's, and a pull of row 0 is refused.
#[test]
fn an_island() {
    let rows = [Row::undated(2, 1, 0, 5), Row::undated(1, 2, 0, 7)];
    let image = image_in(3, |index, totals| build(&rows, 3, None, ON, index, totals));
    assert_eq!(rows_of(&image.index), [0, 2, 1]);
    assert_eq!(image.totals(), [0, 0, 7, 12]);
    assert_eq!(pulled(&image.index, &image.totals, 1, -5).unwrap()[..4], [0, 0, 7, 7]);
    assert_eq!(pulled(&image.index, &image.totals, 2, 1).unwrap()[..4], [0, 0, 8, 13]);
    for difference in [0, 1, -1, i64::MIN, i64::MAX] {
        assert_eq!(pulled(&image.index, &image.totals, 0, difference), Err(4));
    }
}

/// Rows 4, 6 and 7 end no kept path.
#[test]
fn shortest_placement() {
    let image = image_in(4, |index, totals| build_shortest(&MARKED, ON, index, totals));
    assert_eq!(rows_of(&image.index), [1, 3, 5, 2]);
    assert_eq!(image.totals(), [0, 5, 9, 10, 13]);
    for row in [4, 6, 7] {
        assert_eq!(pulled(&image.index, &image.totals, row, 1), Ok(image.totals.clone()));
    }
    assert_eq!(pulled(&image.index, &image.totals, 5, -1).unwrap()[..5], [0, 5, 9, 9, 12]);
    assert_eq!(pulled(&image.index, &image.totals, 3, 6).unwrap()[..5], [0, 5, 15, 16, 19]);
}

/// Row 3 ends before the window, so that 30 and what is below it are no nodes.
#[test]
fn a_dated_build() {
    let mut rows = MARKED;
    rows[2] = rows[2].on(0, 9);
    let asked = Asked { code: 0, depth: None, start: ON, window: Days::new(10, 20) };
    let mut days = [0; 8];
    let image =
        image_in(4, |index, totals| build_dated(&rows, asked, index, totals, &mut days[..]));
    assert_eq!(rows_of(&image.index), [1, 2, 4, 6]);
    assert_eq!(image.totals(), [0, 5, 8, 10, 9]);
    for row in [3, 5, 7] {
        assert_eq!(pulled(&image.index, &image.totals, row, 1), Ok(image.totals.clone()));
    }
    assert_eq!(pulled(&image.index, &image.totals, 6, 4).unwrap()[..5], [0, 5, 8, 10, 13]);
    assert_eq!(pulled(&image.index, &image.totals, 2, -3).unwrap()[..5], [0, 5, 5, 7, 6]);
}

/// The lines 1 2, 1 3 and 4. A levelled list is no board: there is nothing to remark, and its minutes
/// are 0. The row number of a node is the place of the first line that has it, and a pull of it moves
/// the totals by the nodes that the line is the first to have: 1 and 1 2, 1 3, 4.
#[test]
fn a_levelled_list() {
    let cells = [4, 0, 1, 3, 1, 2];
    let image = image_in(4, |index, totals| build_levelled(&cells, 2, index, totals));
    assert_eq!(rows_of(&image.index), [1, 1, 2, 3]);
    assert_eq!(image.totals(), [0; 5]);
    assert_eq!(pulled(&image.index, &image.totals, 1, 5).unwrap()[..5], [0, 5, 10, 10, 10]);
    assert_eq!(pulled(&image.index, &image.totals, 2, -3).unwrap()[..5], [0, 0, 0, -3, -3]);
    assert_eq!(pulled(&image.index, &image.totals, 3, 1).unwrap()[..5], [0, 0, 0, 0, 1]);
    assert_eq!(pulled(&image.index, &image.totals, 4, 1), Ok(image.totals.clone()));
    let after = pulled(&image.index, &image.totals, 1, 5).unwrap();
    assert_eq!(sums(&image.index, &after), [10, 5, 0, 0]);
}

#[test]
fn an_empty_board() {
    let image = image_in(0, |index, totals| build(&[], 3, None, ON, index, totals));
    for row in [1, 2, u32::MAX] {
        for difference in [0, 1, i64::MIN, i64::MAX] {
            let after = pulled(&image.index, &image.totals, row, difference).unwrap();
            assert_eq!(after, [0, 77, 77, 77, 77, 77, 77, 77]);
        }
    }
    assert_eq!(pulled(&image.index, &image.totals, 0, 1), Err(4));
}

// Any slices.

/// Nine nodes of row 7: the k-th total moves by k differences.
#[test]
fn every_node_ends_in_the_row() {
    let index = index_with(&[7; 9]);
    let totals = [4, 0, -3, 8, 8, 1, 0, 2, 100, -100, 55];
    assert_eq!(
        pulled(&index, &totals, 7, 1_000),
        Ok(vec![4, 1_000, 1_997, 3_008, 4_008, 5_001, 6_000, 7_002, 8_100, 8_900, 55])
    );
    assert_eq!(pulled(&index, &totals, 7, -1), Ok(vec![4, -1, -5, 5, 4, -4, -6, -5, 92, -109, 55]));
}

#[test]
fn any_row_numbers() {
    let index = index_with(&[u32::MAX, 3, 0, 65_536, u32::MAX]);
    let totals = [0; 6];
    assert_eq!(pulled(&index, &totals, u32::MAX, 1), Ok(vec![0, 1, 1, 1, 1, 2]));
    assert_eq!(pulled(&index, &totals, 3, 1), Ok(vec![0, 0, 1, 1, 1, 1]));
    assert_eq!(pulled(&index, &totals, 65_536, 1), Ok(vec![0, 0, 0, 0, 1, 1]));
    // 65,536 and 0 have the same 16 bits at the end, 2 and 1 are words beside row numbers.
    for row in [1, 2, 6, 131_072, u32::MAX - 1] {
        assert_eq!(pulled(&index, &totals, row, 1), Ok(totals.to_vec()));
    }
    assert_eq!(pulled(&index, &totals, 0, 1), Err(4));
}

/// Numerals, sizes, links, root ranks, levels, flags and the check word aren't read, nor words beyond.
#[test]
fn only_row_numbers_are_read() {
    let Image { index: good, totals, .. } = listing();
    let mut other = index_with(&rows_of(&good));
    other.extend([1, 4, 1, 0, 1, 1]);
    for row in 0..=9 {
        for difference in [0, 1, -3, LIMIT, i64::MIN] {
            let expected = pulled(&good, &totals, row, difference);
            assert_eq!(pulled(&other, &totals, row, difference), expected);
        }
    }
    // A body beyond n has row number 4: it moves no total.
    assert_eq!(pulled(&other, &totals, 4, 1).unwrap()[9..], [24, 77, 77, 77, 77, 77, 77, 77]);
}

/// The old totals are kept as they are, running or not, and the first isn't put to 0.
#[test]
fn totals_that_no_build_left() {
    let index = index_with(&[2, 1, 2]);
    assert_eq!(pulled(&index, &[9, 9, 9, 9], 2, 1), Ok(vec![9, 10, 10, 11]));
    assert_eq!(pulled(&index, &[-1, 1 << 40, 0, -7], 2, -2), Ok(vec![-1, (1 << 40) - 2, -2, -11]));
    assert_eq!(pulled(&index, &[3, 2, 1, 0], 5, 1), Ok(vec![3, 2, 1, 0]));
    // Own minutes may leave i32, which path sums alone judge.
    assert_eq!(pulled(&index, &[0, 0, 0, 0], 1, 1 << 40), Ok(vec![0, 0, 1 << 40, 1 << 40]));
    assert_eq!(
        pulled(&index, &[0, 0, 0, 0], 2, -(1 << 33)),
        Ok(vec![0, -(1 << 33), -(1 << 33), -(1 << 34)])
    );
}

// Refusals.

#[test]
fn refused_4() {
    let Image { index, totals, .. } = listing();
    for difference in [0, 1, -1, i64::MIN, i64::MAX] {
        assert_eq!(pulled(&index, &totals, 0, difference), Err(4));
        // Nodes of row number 0.
        assert_eq!(pulled(&index_with(&[0, 0, 1]), &[0; 4], 0, difference), Err(4));
        // No nodes.
        assert_eq!(pulled(&index_with(&[]), &[0], 0, difference), Err(4));
    }
}

/// Contents that 13 turns down, of an index of two nodes, both of row 1.
fn bad_contents() -> Vec<Vec<u32>> {
    let good = index_with(&[1, 1]);
    let mut bad: Vec<Vec<u32>> = (0..good.len()).map(|end| good[..end].to_vec()).collect();
    for (word, value) in [
        (1, 7),
        (1, 9),
        (1, 0),
        (2, 5),
        (2, 7),
        (2, u32::MAX),
        (0, 3),
        (0, 65_535),
        (0, 65_536),
        (0, u32::MAX),
    ] {
        let mut index = good.clone();
        index[word] = value;
        bad.push(index);
    }
    bad
}

#[test]
fn refused_13_of_the_index() {
    for bad in bad_contents() {
        for totals in [&[][..], &[0; 3], &[0, 1, 2, 3, 4]] {
            for row in [1, 2, u32::MAX] {
                for difference in [0, 1, i64::MIN, i64::MAX] {
                    assert_eq!(pulled(&bad, totals, row, difference), Err(13), "{bad:?}");
                }
            }
        }
    }
    // Fewer nodes than the slice has bodies.
    let mut fewer = index_with(&[1, 1]);
    fewer[0] = 1;
    assert_eq!(pulled(&fewer, &[0, 0, 0], 1, 5), Ok(vec![0, 5, 0]));
    fewer[0] = 0;
    assert_eq!(pulled(&fewer, &[0, 0, 0], 1, 5), Ok(vec![0, 0, 0]));
}

#[test]
fn refused_13_of_the_totals() {
    let Image { index, totals, .. } = listing();
    for length in 0..=9 {
        for row in [1, 7, 8] {
            for difference in [0, 1, i64::MAX] {
                assert_eq!(pulled(&index, &totals[..length], row, difference), Err(13));
            }
        }
    }
    let after = pulled(&index, &totals[..10], 7, 1).unwrap();
    assert_eq!(after, [0, 5, 9, 10, 9, 11, 14, 16, 15, 23]);
    assert_eq!(pulled(&index_with(&[]), &[], 1, 1), Err(13));
    assert_eq!(pulled(&index_with(&[]), &[6], 1, 1), Ok(vec![6]));
}

/// Row number 0 comes first, whatever the index and the totals; then the index and the number of
/// totals, whatever they are.
#[test]
fn the_order_of_refusals() {
    let index = index_with(&[1, 1]);
    let far = [BEYOND, -BEYOND, i64::MAX];
    for difference in [0, 1, i64::MIN, i64::MAX] {
        // 4 before 13, of the index, of the totals and of both.
        for bad in bad_contents() {
            assert_eq!(pulled(&bad, &[0; 3], 0, difference), Err(4));
            assert_eq!(pulled(&bad, &[], 0, difference), Err(4));
        }
        assert_eq!(pulled(&index, &[0; 2], 0, difference), Err(4));
        // 4 before 15.
        assert_eq!(pulled(&index, &far, 0, difference), Err(4));
        // 4 before both.
        assert_eq!(pulled(&index, &far[..2], 0, difference), Err(4));
        // 13 before 15.
        for bad in bad_contents() {
            assert_eq!(pulled(&bad, &far, 1, difference), Err(13));
        }
        assert_eq!(pulled(&index, &far[..2], 1, difference), Err(13));
        assert_eq!(pulled(&index, &far, 1, difference), Err(15));
    }
}

/// Of three nodes the second ends in row 2. Each of the four totals at the limit, then one beyond it
/// and further; whether the row is that node's or no node's, and the difference moves it or not.
#[test]
fn refused_15_of_old_totals() {
    let index = index_with(&[1, 2, 3]);
    for rank in 0..=3 {
        let with = |total| {
            let mut totals = [0; 4];
            totals[rank] = total;
            totals
        };
        for row in [2, 9, u32::MAX] {
            for limit in [LIMIT, -LIMIT] {
                assert_eq!(pulled(&index, &with(limit), row, 0), Ok(with(limit).to_vec()));
            }
            for total in FAR {
                let back = -total.max(-i64::MAX);
                for difference in [0, 1, -1, back, i64::MIN, i64::MAX] {
                    assert_eq!(pulled(&index, &with(total), row, difference), Err(15));
                }
            }
        }
    }
}

/// A total that is beyond the limit and would come back is refused: "is or would come".
#[test]
fn refused_15_of_a_total_that_would_come_back() {
    let index = index_with(&[1, 1, 1]);
    for (totals, difference) in [
        ([0, BEYOND, 0, 0], -1),
        ([0, BEYOND, 0, 0], -LIMIT / 3),
        ([0, 0, BEYOND, 0], -1),
        ([0, 0, 0, BEYOND], -1),
        ([0, -BEYOND, 0, 0], 1),
        ([0, 0, 0, -BEYOND], 1),
        ([0, BEYOND, BEYOND + 1, BEYOND + 2], -1),
    ] {
        assert_eq!(pulled(&index, &totals, 1, difference), Err(15));
    }
    assert_eq!(pulled(&index, &[0, LIMIT, 0, 0], 1, -1), Ok(vec![0, LIMIT - 1, -2, -3]));
}

/// Nodes 1 and 3 of four end in row 5: the totals move by 0, 1, 1, 2 and 2 differences.
#[test]
fn totals_that_come_to_the_limit() {
    let index = index_with(&[5, 1, 5, 1]);
    for (rank, count) in [(1, 1), (2, 1), (3, 2), (4, 2)] {
        for difference in [1, 2, 1_000, 1 << 40, LIMIT / 2] {
            for sign in [1, -1] {
                // All other totals stay within the limit.
                let mut totals = [0; 5];
                totals[rank] = sign * (LIMIT - count * difference);
                let after = pulled(&index, &totals, 5, sign * difference).unwrap();
                assert_eq!(after[rank], sign * LIMIT);
                assert_eq!(after[0], 0);
                totals[rank] += sign;
                assert_eq!(pulled(&index, &totals, 5, sign * difference), Err(15));
                totals[rank] -= sign;
                let (further, back) = (sign * (difference + 1), sign * (difference - 1));
                assert_eq!(pulled(&index, &totals, 5, further), Err(15));
                assert_eq!(pulled(&index, &totals, 5, back).unwrap()[rank], sign * (LIMIT - count));
            }
        }
    }
    // The first total moves by no difference: at the limit it stays there.
    for sign in [1, -1] {
        let totals = [sign * LIMIT, 0, 0, 0, 0];
        let after = vec![sign * LIMIT, sign * 9, sign * 9, sign * 18, sign * 18];
        assert_eq!(pulled(&index, &totals, 5, sign * 9), Ok(after));
    }
}

/// From one end of the limit to the other.
#[test]
fn the_widest_differences_that_are_accepted() {
    let index = index_with(&[3, 4]);
    let (low, high) = (-LIMIT, LIMIT);
    assert_eq!(pulled(&index, &[0, low, low], 3, 2 * LIMIT), Ok(vec![0, high, high]));
    assert_eq!(pulled(&index, &[0, high, high], 3, -2 * LIMIT), Ok(vec![0, low, low]));
    assert_eq!(pulled(&index, &[0, low, low], 3, 2 * LIMIT + 1), Err(15));
    assert_eq!(pulled(&index, &[0, high, high], 3, -2 * LIMIT - 1), Err(15));
    assert_eq!(pulled(&index, &[low, low, low], 4, 2 * LIMIT), Ok(vec![low, low, high]));
    assert_eq!(pulled(&index, &[0, 0, 0], 3, LIMIT), Ok(vec![0, high, high]));
    assert_eq!(pulled(&index, &[0, 0, 0], 3, LIMIT + 1), Err(15));
    assert_eq!(pulled(&index, &[0, 0, 0], 4, -LIMIT), Ok(vec![0, 0, low]));
    assert_eq!(pulled(&index, &[0, 0, 0], 4, -LIMIT - 1), Err(15));
}

/// One total alone would come beyond the limit, in the middle or last; all others move within it.
#[test]
fn refused_15_of_one_total_that_would_come_beyond() {
    let index = index_with(&[1, 2, 1, 3, 1]);
    for rank in 1..=5 {
        for (sign, difference) in [(1, 1), (-1, -1)] {
            let mut totals = [0; 6];
            totals[rank] = sign * LIMIT;
            assert_eq!(pulled(&index, &totals, 1, difference), Err(15), "{rank}");
            // The other way it comes inside.
            assert!(pulled(&index, &totals, 1, -difference).is_ok());
        }
    }
}

/// Where products or sums of 64 bits would wrap to small numbers or none.
#[test]
fn differences_of_64_bits() {
    for count in [1, 2, 3, 4, 8, 16] {
        let index = index_with(&vec![1; count]);
        for total in [0, 1, -1, LIMIT, -LIMIT] {
            let totals = vec![total; count + 1];
            for difference in FAR.into_iter().chain([1 << 60, 1 << 61, -(1 << 61), 3 << 61]) {
                // Twice a difference wider than the limit leads beyond it from anywhere.
                let comes = total as i128 + difference as i128;
                let allowed = count == 1 && comes.abs() <= LIMIT as i128;
                let expected = if allowed { Ok(vec![total, comes as i64]) } else { Err(15) };
                assert_eq!(pulled(&index, &totals, 1, difference), expected);
            }
        }
    }
    // A wide difference that moves nothing.
    let index = index_with(&[1, 2]);
    for difference in FAR {
        assert_eq!(pulled(&index, &[3, 2, 1], 4, difference), Ok(vec![3, 2, 1]));
        assert_eq!(pulled(&index, &[0, 0, 0], 1, difference), Err(15));
        assert_eq!(pulled(&index, &[0, 0, 0], 2, difference), Err(15));
    }
}

/// Totals behind the (n + 1)-th are neither judged nor written.
#[test]
fn totals_beyond_are_not_judged() {
    let index = index_with(&[1, 1]);
    for total in FAR.into_iter().chain([LIMIT, -LIMIT, 0]) {
        for difference in [0, 1, -1] {
            let expected = vec![0, difference, 2 * difference, total, total];
            assert_eq!(pulled(&index, &[0, 0, 0, total, total], 1, difference), Ok(expected));
        }
        assert_eq!(pulled(&index, &[0, 0, 0, total], 2, 1), Ok(vec![0, 0, 0, total]));
        assert_eq!(pulled(&index_with(&[]), &[0, total], 1, 1), Ok(vec![0, total]));
        // And none of them makes good for one that is.
        assert_eq!(pulled(&index, &[0, 0, BEYOND, total], 1, -1), Err(15));
    }
}

/// The largest index, all nodes of one row. From the least minutes to the most, the last total goes
/// from -65,535 × 2^31 to 65,535 × (2^31 - 1), both within the limit: no remark of a board is refused.
#[test]
fn the_limit_of_nodes() {
    let n = 65_535;
    let index = index_of(&vec![(1, 0, 1); n]);
    assert_eq!(Body::read(&index, n).row, 7);
    let of = |minutes: i64| -> Vec<i64> { (0..=n as i64).map(|rank| rank * minutes).collect() };
    let (least, most) = (i32::MIN as i64, i32::MAX as i64);
    assert_eq!(of(least)[n], -140_735_340_871_680);
    assert_eq!(of(most)[n], 140_735_340_806_145);
    assert_eq!(LIMIT, 140_737_488_355_328);
    assert_eq!(pulled(&index, &of(least), 7, most - least), Ok(of(most)));
    assert_eq!(pulled(&index, &of(most), 7, least - most), Ok(of(least)));
    // 2^47 / 65,535 is between 2,147,516,416 and one more.
    assert_eq!(pulled(&index, &of(0), 7, 2_147_516_416), Ok(of(2_147_516_416)));
    assert_eq!(pulled(&index, &of(0), 7, 2_147_516_417), Err(15));
    assert_eq!(pulled(&index, &of(0), 7, -2_147_516_416), Ok(of(-2_147_516_416)));
    assert_eq!(pulled(&index, &of(0), 7, -2_147_516_417), Err(15));
    assert_eq!(pulled(&index, &of(0), 7, i64::MAX), Err(15));
    assert_eq!(pulled(&index, &of(0), 7, i64::MIN), Err(15));
    assert_eq!(pulled(&index, &of(0)[..n], 7, 1), Err(13));
    let index = index_of(&vec![(1, 0, 1); n + 1]);
    assert_eq!(pulled(&index, &vec![0; n + 2], 7, 1), Err(13));
}

// The totals of the remarked board.

/// New minutes for a row: the least, the most, and others.
const MINUTES: [i32; 3] = [i32::MAX, i32::MIN, -1];

/// Whether a node is another or below it, by the links.
fn is_below(index: &[u32], rank: usize, other: usize) -> bool {
    let mut at = rank;
    while at > other {
        at = Body::read(index, at).parent as usize;
    }
    at == other
}

/// Builds, remarks each row in turn and builds again: the answer and the image are the same, and the
/// totals those of a pull. Every subtree sum moves by the difference for each node of the subtree that
/// ends in the row. Gives the number of remarks, none where the build is refused.
fn compare(
    rows: &[Row],
    room: usize,
    build: impl Fn(&[Row], &mut [u32], &mut [i64]) -> Built,
) -> u32 {
    let before = image_in(room, |index, totals| build(rows, index, totals));
    if before.built.refusal != 0 {
        return 0;
    }
    let old_sums = sums(&before.index, &before.totals);
    let ends = rows_of(&before.index);
    for (place, row) in rows.iter().enumerate() {
        let number = place as u32 + 1;
        let minutes = MINUTES[place % MINUTES.len()];
        let difference = minutes as i64 - row.minutes as i64;
        let mut remarked = rows.to_vec();
        remarked[place].minutes = minutes;
        let after = image_in(room, |index, totals| build(&remarked, index, totals));
        assert_eq!((after.built, &after.index), (before.built, &before.index), "{rows:?}");
        let totals = pulled(&before.index, &before.totals, number, difference).unwrap();
        assert_eq!(totals, after.totals, "{rows:?} {number} {minutes}");
        let new_sums = sums(&before.index, &totals);
        for rank in 1..=ends.len() {
            let ending =
                |other: &usize| ends[other - 1] == number && is_below(&before.index, *other, rank);
            let ending = (1..=ends.len()).filter(ending).count() as i64;
            assert_eq!(new_sums[rank - 1] - old_sums[rank - 1], difference * ending);
        }
    }
    // No node has the next row number.
    let next = rows.len() as u32 + 1;
    assert_eq!(pulled(&before.index, &before.totals, next, 1), Ok(before.totals));
    rows.len() as u32
}

/// Every list of up to `most` rows with parents 0, 1, 2 and one that is missing, numerals 1 and 2.
fn small_boards(most: u32) -> Vec<Vec<Row>> {
    let row = |kind: u32, place: u32| {
        Row::undated([0, 1, 2, 9][kind as usize % 4], kind / 4 + 1, 0, 5 - 7 * place as i32)
    };
    (0..=most)
        .flat_map(|count| (0..8u32.pow(count)).map(move |number| (count, number)))
        .map(|(count, number)| {
            (0..count).map(|place| row(number / 8u32.pow(place) % 8, place)).collect()
        })
        .collect()
}

/// Room for the nodes of any such list of up to four rows.
const ROOM: usize = 40;

#[test]
fn every_small_board_by_every_code() {
    let starts = [ON, Start::Numerals(&[2]), Start::Numerals(&[])];
    let mut counts = [0; 24];
    for rows in small_boards(3) {
        for start in starts {
            for code in 0..24 {
                counts[code as usize] += compare(&rows, ROOM, |rows, index, totals| {
                    build(rows, code, None, start, index, totals)
                });
            }
        }
    }
    println!("remarks by code: {counts:?}");
    assert!(counts.iter().all(|count| *count > 10));
}

#[test]
fn every_small_board_by_depth() {
    let mut counts = [0; 4];
    for rows in small_boards(3) {
        for (place, depth) in (0..).zip([-1, 0, 1, 2]) {
            for code in [0, 4, 8, 12, 16, 20] {
                counts[place] += compare(&rows, ROOM, |rows, index, totals| {
                    build(rows, code, Some(depth), ON, index, totals)
                });
            }
        }
    }
    println!("remarks by depth: {counts:?}");
    assert!(counts.iter().all(|count| *count > 1_000));
}

#[test]
fn every_small_board_by_other_builds() {
    let starts = [ON, Start::Numerals(&[2])];
    let mut counts = [0; 3];
    for mut rows in small_boards(3) {
        counts[0] += compare(&rows, ROOM, build_default);
        for start in starts {
            counts[1] += compare(&rows, ROOM, |rows, index, totals| {
                build_shortest(rows, start, index, totals)
            });
        }
        // Days 1 to 5, 2 to 6, 3 to 7, and windows that some of them, all or none have.
        for (place, row) in (0..).zip(&mut rows) {
            *row = row.on(1 + place, 5 + place);
        }
        for window in [Days::new(0, 1), Days::new(3, 5), Days::new(6, 6), Days::new(8, 9)] {
            for start in starts {
                let asked = Asked { code: 0, depth: None, start, window };
                counts[2] += compare(&rows, ROOM, |rows, index, totals| {
                    build_dated(rows, asked, index, totals, &mut [0; 2 * ROOM])
                });
            }
        }
    }
    println!("remarks: by default {}, shortest {}, dated {}", counts[0], counts[1], counts[2]);
    assert!(counts.iter().all(|count| *count > 1_000));
}

#[test]
fn larger_boards_by_root() {
    let mut count = 0;
    for rows in small_boards(4).into_iter().filter(|rows| rows.len() == 4) {
        count +=
            compare(&rows, ROOM, |rows, index, totals| build(rows, 3, None, ON, index, totals));
    }
    assert_eq!(count, 4 * 8u32.pow(4));
}

/// The board's own remark, by every code; then back by undo.
#[test]
fn remarks_of_a_board() {
    let board = board_of(&MARKED);
    let of = |board: &Board, code| {
        image_in(12, |index, totals| build_board(board, code, None, ON, index, totals))
    };
    let mut seen = 0;
    for code in 0..24 {
        let before = of(&board, code);
        if before.built.refusal != 0 {
            continue;
        }
        for (k, row) in (1..).zip(MARKED) {
            for minutes in MINUTES {
                let edited = board.clone().remark(k, minutes);
                assert_eq!(edited.refusal, 0);
                let after = of(&edited.board, code);
                let difference = minutes as i64 - row.minutes as i64;
                let totals = pulled(&before.index, &before.totals, k as u32, difference);
                assert_eq!(totals.as_ref(), Ok(&after.totals));
                assert_eq!(after.index, before.index);
                let undone = of(&edited.board.undo().board, code);
                assert_eq!(
                    pulled(&after.index, &after.totals, k as u32, -difference),
                    Ok(undone.totals)
                );
                seen += 1;
            }
        }
    }
    // Codes 0, 2 and 3 are accepted: M5 refuses those with an error, leaves or both.
    assert_eq!(seen, 3 * 7 * 3);
    // A row number above the count is refused by the board, and changes nothing here.
    assert_eq!(board.clone().remark(8, 1).refusal, 4);
    let before = of(&board, 3);
    assert_eq!(pulled(&before.index, &before.totals, 8, 1), Ok(before.totals));
}

/// Several rows, one after the other in either order: the totals of the board with all remarks.
#[test]
fn pulls_one_after_the_other() {
    let Image { index, totals, .. } = listing();
    let differences = [(6, 10), (4, -7), (1, 1_000), (6, -4), (7, 0), (2, i32::MAX as i64 - 3)];
    let mut rows = MARKED;
    for (row, difference) in differences {
        let place = row as usize - 1;
        rows[place].minutes = (rows[place].minutes as i64 + difference) as i32;
    }
    let all = image_in(9, |index, totals| build(&rows, 3, None, ON, index, totals)).totals;
    let one_way = differences.iter().fold(totals.clone(), |totals, (row, difference)| {
        pulled(&index, &totals, *row, *difference).unwrap()
    });
    let other_way = differences.iter().rev().fold(totals, |totals, (row, difference)| {
        pulled(&index, &totals, *row, *difference).unwrap()
    });
    assert_eq!((&one_way, &other_way), (&all, &all));
}
