//! Islands join the tree: entries, what goes on from them and their places, worked out by hand.

mod common;
#[path = "common/flagged.rs"]
mod flagged;

use common::{accepted, image_in, refused, Image};
use flagged::bodies;
use reference::*;

const ON: Start = Start::ParentZero;
const ADOPT: u32 = 2;
const ROOT: u32 = 3;

/// A row whose minutes are 1.
fn row(parent: u32, numeral: u32, order: u32) -> Row {
    Row::undated(parent, numeral, order, 1)
}

fn build_all(rows: &[Row], code: u32, start: Start) -> Image {
    image_in(4_000, |index, totals| build(rows, code, None, start, index, totals))
}

/// A build under adopt or root where every row ends a node.
fn whole(rows: &[Row], code: u32, start: Start) -> Image {
    let image = build_all(rows, code, start);
    assert_eq!((image.built.refusal, image.built.left), (0, 0));
    image
}

fn bodies_of(rows: &[Row], code: u32, start: Start) -> Vec<[u32; 8]> {
    bodies(&whole(rows, code, start))
}

/// The numerals of the entries, in rank order.
fn entries(image: &Image) -> Vec<u32> {
    bodies(image).iter().filter(|body| body[1] == 0).map(|body| body[0]).collect()
}

/// 10 over 20 over 30 over 10, entered as a ring with no way in.
const GEAR_TRAIN: [Row; 3] =
    [Row::undated(30, 10, 1, 5), Row::undated(10, 20, 1, 7), Row::undated(20, 30, 1, 11)];

#[test]
fn gear_train_under_root() {
    let image = whole(&GEAR_TRAIN, ROOT, ON);
    assert_eq!(
        bodies(&image),
        [
            [10, 0, 4, 0, 1, 1, 0, 1],
            [20, 2, 3, 1, 1, 2, 0, 1],
            [30, 3, 2, 2, 1, 3, 0, 1],
            [10, 1, 1, 3, 1, 4, 1, 1],
        ]
    );
    assert_eq!(image.totals(), [0, 0, 7, 18, 23]);
}

#[test]
fn words_of_the_gear_train() {
    let image = whole(&GEAR_TRAIN, ROOT, ON);
    let (closing, orphan) = (1 << 30, 1 << 31);
    let words = [
        [10, 0, 4, 0, 1, orphan + 1],
        [20, 2, 3, 1, 1, orphan + 2],
        [30, 3, 2, 2, 1, orphan + 3],
        [10, 1, 1, 3, 1, orphan + closing + 4],
    ]
    .concat();
    assert_eq!(image.index[8..8 + 24], words);
    // The words but for the orphan bits, four of which make 2^33: 16 + 29 + 41 + 2^30 + 20.
    assert_eq!(image.index[..8], [4, 8, 6, closing + 106, 0, 0, 0, 0]);
}

#[test]
fn gear_train_under_adopt() {
    assert_eq!(build_all(&GEAR_TRAIN, ADOPT, ON).built, refused(8));
    let mut rows = GEAR_TRAIN.to_vec();
    rows.push(Row::undated(0, 99, 0, 100));
    let image = whole(&rows, ADOPT, ON);
    assert_eq!(
        bodies(&image),
        [
            [99, 4, 5, 0, 1, 1, 0, 0],
            [10, 0, 4, 1, 1, 2, 0, 1],
            [20, 2, 3, 2, 1, 3, 0, 1],
            [30, 3, 2, 3, 1, 4, 0, 1],
            [10, 1, 1, 4, 1, 5, 1, 1],
        ]
    );
    assert_eq!(image.totals(), [0, 100, 100, 107, 118, 123]);
}

#[test]
fn gear_train_under_ignore_and_error() {
    assert_eq!(build_all(&GEAR_TRAIN, 0, ON).built, accepted(0, 3));
    assert_eq!(build_all(&GEAR_TRAIN, 12, ON).built, accepted(0, 3));
    for code in [1, 5, 9, 13, 17, 21] {
        assert_eq!(build_all(&GEAR_TRAIN, code, ON).built, refused(12));
    }
    let mut rows = GEAR_TRAIN.to_vec();
    rows.push(row(0, 99, 0));
    let image = build_all(&rows, 0, ON);
    assert_eq!(image.built, accepted(1, 3));
    assert_eq!(bodies(&image), [[99, 4, 1, 0, 1, 1, 0, 0]]);
    assert_eq!(build_all(&rows, 1, ON).built, refused(12));
}

#[test]
fn a_tail_behind_its_ring() {
    // Under 2 the closing 1 comes before 3, then 4 below 3.
    let rows = [row(2, 1, 0), row(1, 2, 0), row(2, 3, 0), row(3, 4, 0)];
    assert_eq!(
        bodies_of(&rows, ROOT, ON),
        [
            [1, 0, 5, 0, 1, 1, 0, 1],
            [2, 2, 4, 1, 1, 2, 0, 1],
            [1, 1, 1, 2, 1, 3, 1, 1],
            [3, 3, 2, 2, 1, 3, 0, 1],
            [4, 4, 1, 4, 1, 4, 0, 1],
        ]
    );
}

#[test]
fn a_tail_ahead_of_its_ring() {
    // Numerals 4 and 3 lie on no ring, so that rows 1 and 2 are passed over; row 3 is taken.
    let rows = [row(3, 4, 0), row(2, 3, 0), row(2, 1, 0), row(1, 2, 0)];
    assert_eq!(
        bodies_of(&rows, ROOT, ON),
        [
            [1, 0, 5, 0, 1, 1, 0, 1],
            [2, 4, 4, 1, 1, 2, 0, 1],
            [1, 3, 1, 2, 1, 3, 1, 1],
            [3, 2, 2, 2, 1, 3, 0, 1],
            [4, 1, 1, 4, 1, 4, 0, 1],
        ]
    );
    // Rows 3 and 4 swapped: the entry has the other numeral of the ring.
    let rows = [row(3, 4, 0), row(2, 3, 0), row(1, 2, 0), row(2, 1, 0)];
    assert_eq!(
        bodies_of(&rows, ROOT, ON),
        [
            [2, 0, 5, 0, 1, 1, 0, 1],
            [1, 4, 2, 1, 1, 2, 0, 1],
            [2, 3, 1, 2, 1, 3, 1, 1],
            [3, 2, 2, 1, 1, 2, 0, 1],
            [4, 1, 1, 4, 1, 3, 0, 1],
        ]
    );
}

#[test]
fn a_ring_that_feeds_another() {
    // Ring 1, 2 is taken first, and row 5 leads from it into ring 3, 4: one entry for all.
    let rows = [row(2, 1, 0), row(1, 2, 0), row(4, 3, 0), row(3, 4, 0), row(2, 3, 0)];
    assert_eq!(
        bodies_of(&rows, ROOT, ON),
        [
            [1, 0, 6, 0, 1, 1, 0, 1],
            [2, 2, 5, 1, 1, 2, 0, 1],
            [1, 1, 1, 2, 1, 3, 1, 1],
            [3, 5, 3, 2, 1, 3, 0, 1],
            [4, 4, 2, 4, 1, 4, 0, 1],
            [3, 3, 1, 5, 1, 5, 1, 1],
        ]
    );
}

#[test]
fn a_ring_that_is_fed_by_a_later_one() {
    // Ring 3, 4 is taken first and its rows are gone when entry 1 is made: row 5 stays a leaf.
    let rows = [row(4, 3, 0), row(3, 4, 0), row(2, 1, 0), row(1, 2, 0), row(2, 3, 0)];
    assert_eq!(
        bodies_of(&rows, ROOT, ON),
        [
            [3, 0, 3, 0, 1, 1, 0, 1],
            [4, 2, 2, 1, 1, 2, 0, 1],
            [3, 1, 1, 2, 1, 3, 1, 1],
            [1, 0, 4, 0, 4, 1, 0, 1],
            [2, 4, 3, 4, 4, 2, 0, 1],
            [1, 3, 1, 5, 4, 3, 1, 1],
            [3, 5, 1, 5, 4, 3, 0, 1],
        ]
    );
}

#[test]
fn the_lowest_row_need_not_be_on_the_ring_of_its_numeral() {
    // Row 1 has numeral 1, which lies on the ring of row 3, and hangs from ring 2. The entries are 1
    // and then 2; row 1 itself stands below the second.
    let rows = [row(2, 1, 0), row(2, 2, 0), row(1, 1, 0)];
    assert_eq!(
        bodies_of(&rows, ROOT, ON),
        [
            [1, 0, 2, 0, 1, 1, 0, 1],
            [1, 3, 1, 1, 1, 2, 1, 1],
            [2, 0, 3, 0, 3, 1, 0, 1],
            [1, 1, 1, 3, 3, 2, 0, 1],
            [2, 2, 1, 3, 3, 2, 1, 1],
        ]
    );
    // With row 2 at the front entry 2 takes all.
    let rows = [row(2, 2, 0), row(2, 1, 0), row(1, 1, 0)];
    assert_eq!(
        bodies_of(&rows, ROOT, ON),
        [
            [2, 0, 4, 0, 1, 1, 0, 1],
            [1, 2, 2, 1, 1, 2, 0, 1],
            [1, 3, 1, 2, 1, 3, 1, 1],
            [2, 1, 1, 1, 1, 2, 1, 1],
        ]
    );
}

#[test]
fn a_numeral_between_two_rings_is_no_entry() {
    // 2 hangs from ring 1 and is over ring 3: row 1 is passed over, ring 3 comes first by row number.
    let rows = [row(1, 2, 0), row(3, 3, 0), row(2, 3, 0), row(1, 1, 0)];
    assert_eq!(
        bodies_of(&rows, ROOT, ON),
        [
            [3, 0, 2, 0, 1, 1, 0, 1],
            [3, 2, 1, 1, 1, 2, 1, 1],
            [1, 0, 4, 0, 3, 1, 0, 1],
            [1, 4, 1, 3, 3, 2, 1, 1],
            [2, 1, 2, 3, 3, 2, 0, 1],
            [3, 3, 1, 5, 3, 3, 0, 1],
        ]
    );
}

#[test]
fn a_ring_of_one_row() {
    let rows = [Row::undated(5, 5, 1, -4)];
    let image = whole(&rows, ROOT, ON);
    assert_eq!(bodies(&image), [[5, 0, 2, 0, 1, 1, 0, 1], [5, 1, 1, 1, 1, 2, 1, 1]]);
    assert_eq!(image.totals(), [0, 0, -4]);
    // The largest numeral.
    let rows = [row(u32::MAX, u32::MAX, u32::MAX)];
    assert_eq!(
        bodies_of(&rows, ROOT, ON),
        [[u32::MAX, 0, 2, 0, 1, 1, 0, 1], [u32::MAX, 1, 1, 1, 1, 2, 1, 1]]
    );
}

#[test]
fn equal_rows_of_a_ring() {
    let rows = [row(5, 5, 1); 3];
    assert_eq!(
        bodies_of(&rows, ROOT, ON),
        [
            [5, 0, 4, 0, 1, 1, 0, 1],
            [5, 1, 1, 1, 1, 2, 1, 1],
            [5, 2, 1, 1, 1, 2, 1, 1],
            [5, 3, 1, 1, 1, 2, 1, 1],
        ]
    );
    let rows = [row(2, 1, 0), row(1, 2, 0), row(2, 1, 0), row(1, 2, 0)];
    assert_eq!(
        bodies_of(&rows, ROOT, ON),
        [
            [1, 0, 7, 0, 1, 1, 0, 1],
            [2, 2, 3, 1, 1, 2, 0, 1],
            [1, 1, 1, 2, 1, 3, 1, 1],
            [1, 3, 1, 2, 1, 3, 1, 1],
            [2, 4, 3, 1, 1, 2, 0, 1],
            [1, 1, 1, 5, 1, 3, 1, 1],
            [1, 3, 1, 5, 1, 3, 1, 1],
        ]
    );
}

#[test]
fn two_rows_of_one_numeral_in_a_ring() {
    // 1 over 2, 2 over 1 (row 1) and over 3, 3 over 1 (row 4): both rows of numeral 1 close.
    let rows = [row(2, 1, 0), row(1, 2, 0), row(2, 3, 0), row(3, 1, 0)];
    assert_eq!(
        bodies_of(&rows, ROOT, ON),
        [
            [1, 0, 5, 0, 1, 1, 0, 1],
            [2, 2, 4, 1, 1, 2, 0, 1],
            [1, 1, 1, 2, 1, 3, 1, 1],
            [3, 3, 2, 2, 1, 3, 0, 1],
            [1, 4, 1, 4, 1, 4, 1, 1],
        ]
    );
    // From 3 on, row 2 closes the ring 1, 2 inside: 3, 1 (row 2), 2, then 1 (row 3) and 3 (row 1).
    let rows = [row(2, 3, 0), row(3, 1, 0), row(2, 1, 0), row(1, 2, 0)];
    assert_eq!(
        bodies_of(&rows, ROOT, ON),
        [
            [3, 0, 5, 0, 1, 1, 0, 1],
            [1, 2, 4, 1, 1, 2, 0, 1],
            [2, 4, 3, 2, 1, 3, 0, 1],
            [1, 3, 1, 3, 1, 4, 1, 1],
            [3, 1, 1, 3, 1, 4, 1, 1],
        ]
    );
}

/// Regular: 40, and 50 with 51 below. Orphans: 10, and 60 with 61 below. Island: 4 over 3 and 70, 3
/// over 4.
const MIXED: [Row; 9] = [
    Row::undated(3, 4, 0, 1),
    Row::undated(0, 50, 9, 2),
    Row::undated(77, 60, 5, 4),
    Row::undated(4, 3, 0, 8),
    Row::undated(60, 61, 0, 16),
    Row::undated(50, 51, 0, 32),
    Row::undated(0, 40, 1, 64),
    Row::undated(4, 70, 0, 128),
    Row::undated(78, 10, 1, 256),
];

#[test]
fn island_behind_orphans_and_start_rows_under_root() {
    let image = whole(&MIXED, ROOT, ON);
    assert_eq!(
        bodies(&image),
        [
            [40, 7, 1, 0, 1, 1, 0, 0],
            [50, 2, 2, 0, 2, 1, 0, 0],
            [51, 6, 1, 2, 2, 2, 0, 0],
            [10, 9, 1, 0, 4, 1, 0, 1],
            [60, 3, 2, 0, 5, 1, 0, 1],
            [61, 5, 1, 5, 5, 2, 0, 1],
            [4, 0, 4, 0, 7, 1, 0, 1],
            [3, 4, 2, 7, 7, 2, 0, 1],
            [4, 1, 1, 8, 7, 3, 1, 1],
            [70, 8, 1, 7, 7, 2, 0, 1],
        ]
    );
    assert_eq!(image.totals(), [0, 64, 66, 98, 354, 358, 374, 374, 382, 383, 511]);
}

#[test]
fn island_behind_orphans_and_start_rows_under_adopt() {
    let image = whole(&MIXED, ADOPT, ON);
    assert_eq!(
        bodies(&image),
        [
            [40, 7, 1, 0, 1, 1, 0, 0],
            [50, 2, 9, 0, 2, 1, 0, 0],
            [51, 6, 1, 2, 2, 2, 0, 0],
            [10, 9, 1, 2, 2, 2, 0, 1],
            [60, 3, 2, 2, 2, 2, 0, 1],
            [61, 5, 1, 5, 2, 3, 0, 1],
            [4, 0, 4, 2, 2, 2, 0, 1],
            [3, 4, 2, 7, 2, 3, 0, 1],
            [4, 1, 1, 8, 2, 4, 1, 1],
            [70, 8, 1, 7, 2, 3, 0, 1],
        ]
    );
    assert_eq!(image.totals(), [0, 64, 66, 98, 354, 358, 374, 374, 382, 383, 511]);
}

#[test]
fn the_second_count() {
    // Rows of U under ignore: the two orphans, the one below, and three of the island.
    assert_eq!(build_all(&MIXED, 0, ON).built, accepted(3, 6));
    assert_eq!(build_all(&MIXED, 1, ON).built, refused(12));
    assert_eq!(build_all(&MIXED, 2, ON).built, accepted(10, 0));
    assert_eq!(build_all(&MIXED, 3, ON).built, accepted(10, 0));
    // No list: nothing starts, and the rows with parent 0 are top orphans.
    assert_eq!(build_all(&MIXED, 0, Start::Numerals(&[])).built, accepted(0, 9));
    assert_eq!(build_all(&MIXED, 3, Start::Numerals(&[])).built, accepted(10, 0));
}

#[test]
fn navigation_over_an_entry_under_root() {
    let Image { index, totals, .. } = whole(&MIXED, ROOT, ON);
    let mut list = [0; 6];
    assert_eq!(siblings(&index, 7, &mut list), Listed { refusal: 0, length: 5 });
    assert_eq!(list, [1, 2, 4, 5, 7, 0]);
    assert_eq!(siblings(&index, 8, &mut list), Listed { refusal: 0, length: 2 });
    assert_eq!(list, [8, 10, 4, 5, 7, 0]);
    let mut list = [0; 5];
    assert_eq!(descendants(&index, 7, 0, 9, &mut list), Listed { refusal: 0, length: 4 });
    assert_eq!(list, [7, 8, 9, 10, 0]);
    assert_eq!(descendants(&index, 7, 1, 1, &mut list), Listed { refusal: 0, length: 2 });
    assert_eq!(list, [8, 10, 9, 10, 0]);
    let mut list = [0; 4];
    let climbed = Climbed { refusal: 0, length: 3, links: 2 };
    assert_eq!(ancestors(&index, 9, i32::MIN, 0, &mut list), climbed);
    assert_eq!(list, [9, 8, 7, 0]);
    assert_eq!(span(&index, 7), Spanned { refusal: 0, words: 44..68 });
    let sums = (1..=10).map(|r| subtree_sum(&index, &totals, r).sum).collect::<Vec<_>>();
    assert_eq!(sums, [64, 34, 32, 256, 20, 16, 137, 9, 1, 128]);
    let sums = (1..=10).map(|r| path_sum(&index, &totals, r).sum).collect::<Vec<_>>();
    assert_eq!(sums, [64, 2, 34, 256, 4, 20, 0, 8, 9, 128]);
}

#[test]
fn navigation_over_an_entry_under_adopt() {
    let Image { index, totals, .. } = whole(&MIXED, ADOPT, ON);
    let mut list = [0; 5];
    assert_eq!(siblings(&index, 7, &mut list), Listed { refusal: 0, length: 4 });
    assert_eq!(list, [3, 4, 5, 7, 0]);
    assert_eq!(descendants(&index, 2, 2, 2, &mut list), Listed { refusal: 0, length: 3 });
    assert_eq!(list, [6, 8, 10, 7, 0]);
    let climbed = Climbed { refusal: 0, length: 4, links: 3 };
    assert_eq!(ancestors(&index, 9, -3, 0, &mut list), climbed);
    assert_eq!(list, [9, 8, 7, 2, 0]);
    let sums = (1..=10).map(|r| subtree_sum(&index, &totals, r).sum).collect::<Vec<_>>();
    assert_eq!(sums, [64, 447, 32, 256, 20, 16, 137, 9, 1, 128]);
    let sums = (1..=10).map(|r| path_sum(&index, &totals, r).sum).collect::<Vec<_>>();
    assert_eq!(sums, [64, 2, 34, 258, 6, 22, 2, 10, 11, 130]);
}

#[test]
fn entries_in_the_order_made() {
    // Neither by numeral nor by order; each with everything below it. The top orphan has the largest
    // order and numeral and comes before them all.
    let rows = [
        row(5, 5, 9),
        row(9, 9, 7),
        row(5, 8, 0),
        row(1, 1, 8),
        row(77, u32::MAX, u32::MAX),
        row(9, 2, 0),
    ];
    assert_eq!(
        bodies_of(&rows, ROOT, ON),
        [
            [u32::MAX, 5, 1, 0, 1, 1, 0, 1],
            [5, 0, 3, 0, 2, 1, 0, 1],
            [8, 3, 1, 2, 2, 2, 0, 1],
            [5, 1, 1, 2, 2, 2, 1, 1],
            [9, 0, 3, 0, 5, 1, 0, 1],
            [2, 6, 1, 5, 5, 2, 0, 1],
            [9, 2, 1, 5, 5, 2, 1, 1],
            [1, 0, 2, 0, 8, 1, 0, 1],
            [1, 4, 1, 8, 8, 2, 1, 1],
        ]
    );
    // Under the last start row, behind its regular rows and the adopted orphan.
    let mut adopted = rows.to_vec();
    adopted.extend([row(0, 40, 0), row(0, 30, 0), row(40, 41, 99)]);
    assert_eq!(
        bodies_of(&adopted, ADOPT, ON),
        [
            [30, 8, 1, 0, 1, 1, 0, 0],
            [40, 7, 11, 0, 2, 1, 0, 0],
            [41, 9, 1, 2, 2, 2, 0, 0],
            [u32::MAX, 5, 1, 2, 2, 2, 0, 1],
            [5, 0, 3, 2, 2, 2, 0, 1],
            [8, 3, 1, 5, 2, 3, 0, 1],
            [5, 1, 1, 5, 2, 3, 1, 1],
            [9, 0, 3, 2, 2, 2, 0, 1],
            [2, 6, 1, 8, 2, 3, 0, 1],
            [9, 2, 1, 8, 2, 3, 1, 1],
            [1, 0, 2, 2, 2, 2, 0, 1],
            [1, 4, 1, 11, 2, 3, 1, 1],
        ]
    );
}

#[test]
fn the_lowest_row_is_taken_and_not_the_first_sibling() {
    // Ring 6, 7: row 1 has the larger order and numeral.
    let rows = [row(6, 7, 9), row(7, 6, 1)];
    assert_eq!(
        bodies_of(&rows, ROOT, ON),
        [[7, 0, 3, 0, 1, 1, 0, 1], [6, 2, 2, 1, 1, 2, 0, 1], [7, 1, 1, 2, 1, 3, 1, 1]]
    );
    // Rows swapped: the other numeral.
    let rows = [row(7, 6, 1), row(6, 7, 9)];
    assert_eq!(
        bodies_of(&rows, ROOT, ON),
        [[6, 0, 3, 0, 1, 1, 0, 1], [7, 2, 2, 1, 1, 2, 0, 1], [6, 1, 1, 2, 1, 3, 1, 1]]
    );
}

#[test]
fn rows_below_an_entry_in_sibling_order() {
    // Under 1: order 0, then order 1 by numeral and row number.
    let rows = [row(1, 1, 1), row(1, 9, 1), row(1, 4, 1), row(1, 4, 1), row(1, 7, 0)];
    assert_eq!(
        bodies_of(&rows, ROOT, ON),
        [
            [1, 0, 6, 0, 1, 1, 0, 1],
            [7, 5, 1, 1, 1, 2, 0, 1],
            [1, 1, 1, 1, 1, 2, 1, 1],
            [4, 3, 1, 1, 1, 2, 0, 1],
            [4, 4, 1, 1, 1, 2, 0, 1],
            [9, 2, 1, 1, 1, 2, 0, 1],
        ]
    );
}

#[test]
fn a_ring_reached_from_a_top_orphan_is_no_island() {
    let rows = [row(2, 1, 0), row(1, 2, 0), row(77, 2, 0)];
    assert_eq!(
        bodies_of(&rows, ROOT, ON),
        [[2, 3, 3, 0, 1, 1, 0, 1], [1, 1, 2, 1, 1, 2, 0, 1], [2, 2, 1, 2, 1, 3, 1, 1]]
    );
    // The same with the top orphan's parent 0 and a list that doesn't start it.
    let rows = [row(2, 1, 0), row(1, 2, 0), row(0, 2, 0)];
    assert_eq!(
        bodies_of(&rows, ROOT, Start::Numerals(&[77])),
        [[2, 3, 3, 0, 1, 1, 0, 1], [1, 1, 2, 1, 1, 2, 0, 1], [2, 2, 1, 2, 1, 3, 1, 1]]
    );
}

#[test]
fn rows_of_other_nodes_are_not_gone_on_by() {
    // Ring 3, 4 is reached from the top orphan, row 1. Row 6 hangs from ring 5, 6 with numeral 3, and
    // what lies under 3 is in U but not in I.
    let rows =
        [row(77, 3, 0), row(3, 4, 0), row(4, 3, 0), row(6, 5, 0), row(5, 6, 0), row(5, 3, 0)];
    assert_eq!(
        bodies_of(&rows, ROOT, ON),
        [
            [3, 1, 3, 0, 1, 1, 0, 1],
            [4, 2, 2, 1, 1, 2, 0, 1],
            [3, 3, 1, 2, 1, 3, 1, 1],
            [5, 0, 4, 0, 4, 1, 0, 1],
            [3, 6, 1, 4, 4, 2, 0, 1],
            [6, 5, 2, 4, 4, 2, 0, 1],
            [5, 4, 1, 6, 4, 3, 1, 1],
        ]
    );
    // Numeral 3 is regular, with 4 below; row 4 hangs from ring 5 and stays a leaf.
    let rows = [row(0, 3, 0), row(3, 4, 0), row(5, 5, 0), row(5, 3, 0)];
    assert_eq!(
        bodies_of(&rows, ROOT, ON),
        [
            [3, 1, 2, 0, 1, 1, 0, 0],
            [4, 2, 1, 1, 1, 2, 0, 0],
            [5, 0, 3, 0, 3, 1, 0, 1],
            [3, 4, 1, 3, 3, 2, 0, 1],
            [5, 3, 1, 3, 3, 2, 1, 1],
        ]
    );
}

#[test]
fn start_lists_and_a_ring() {
    let rows = [row(2, 1, 0), row(1, 2, 0), row(0, 9, 0)];
    // 9 starts, by the list or by parent 0: the ring is an island.
    let island = [[1, 0, 3, 0, 2, 1, 0, 1], [2, 2, 2, 2, 2, 2, 0, 1], [1, 1, 1, 3, 2, 3, 1, 1]];
    for start in [ON, Start::Numerals(&[9]), Start::Numerals(&[9, 77, 9])] {
        let found = bodies_of(&rows, ROOT, start);
        assert_eq!(found[0], [9, 3, 1, 0, 1, 1, 0, 0]);
        assert_eq!(found[1..], island);
    }
    // Nothing starts: row 3 is an orphan as well.
    for start in [Start::Numerals(&[]), Start::Numerals(&[0, 77])] {
        let found = bodies_of(&rows, ROOT, start);
        assert_eq!(found[0], [9, 3, 1, 0, 1, 1, 0, 1]);
        assert_eq!(found[1..], island);
        assert_eq!(build_all(&rows, ADOPT, start).built, refused(8));
    }
    // A row of the ring starts, so that the ring is regular.
    assert_eq!(
        bodies_of(&rows, ROOT, Start::Numerals(&[1])),
        [
            [1, 1, 3, 0, 1, 1, 0, 0],
            [2, 2, 2, 1, 1, 2, 0, 0],
            [1, 1, 1, 2, 1, 3, 1, 0],
            [9, 3, 1, 0, 4, 1, 0, 1],
        ]
    );
    assert_eq!(
        bodies_of(&rows, ADOPT, Start::Numerals(&[1])),
        [
            [1, 1, 4, 0, 1, 1, 0, 0],
            [2, 2, 2, 1, 1, 2, 0, 0],
            [1, 1, 1, 2, 1, 3, 1, 0],
            [9, 3, 1, 1, 1, 2, 0, 1],
        ]
    );
}

#[test]
fn a_ring_above_the_start_row_is_an_island() {
    // 3 hangs from ring 1, 2 and starts: row 3 ends a regular path and is not listed again.
    let rows = [row(2, 1, 0), row(1, 2, 0), row(2, 3, 0), row(3, 4, 0)];
    assert_eq!(
        bodies_of(&rows, ROOT, Start::Numerals(&[3])),
        [
            [3, 3, 2, 0, 1, 1, 0, 0],
            [4, 4, 1, 1, 1, 2, 0, 0],
            [1, 0, 3, 0, 3, 1, 0, 1],
            [2, 2, 2, 3, 3, 2, 0, 1],
            [1, 1, 1, 4, 3, 3, 1, 1],
        ]
    );
}

#[test]
fn sentence_8_counts_islands() {
    let rows = [row(5, 5, 0)];
    for code in [2, 6, 10, 14, 18, 22] {
        assert_eq!(build_all(&rows, code, ON).built, refused(8));
        // Before 9, after 7.
        assert_eq!(build(&rows, code, None, ON, &mut [], &mut []).refusal, 8);
        assert_eq!(build(&rows, code, Some(3), ON, &mut [], &mut []).refusal, 7);
    }
    assert_eq!(build(&rows, 3, Some(3), ON, &mut [], &mut []).refusal, 7);
    // A top orphan and an island; a top orphan that reaches the ring.
    assert_eq!(build_all(&[row(5, 5, 0), row(77, 6, 0)], 2, ON).built, refused(8));
    assert_eq!(build_all(&[row(5, 5, 0), row(77, 5, 0)], 2, ON).built, refused(8));
    // With a start row, and where the ring itself starts.
    assert_eq!(build_all(&[row(5, 5, 0), row(0, 6, 0)], 2, ON).built, accepted(3, 0));
    assert_eq!(build_all(&rows, 2, Start::Numerals(&[5])).built, accepted(2, 0));
    // Nothing to adopt.
    assert_eq!(build_all(&[], 2, ON).built, accepted(0, 0));
}

#[test]
fn sentence_9_counts_entries() {
    // Two nodes: 20 words and 3 totals.
    let rows = [row(5, 5, 0)];
    let mut index = [77; 20];
    let mut totals = [77; 3];
    assert_eq!(build(&rows, 3, None, ON, &mut index[..19], &mut totals), refused(9));
    assert_eq!(build(&rows, 3, None, ON, &mut index, &mut totals[..2]), refused(9));
    assert_eq!(build(&rows, 3, None, ON, &mut index, &mut totals), accepted(2, 0));
    // Before 10 and 11.
    assert_eq!(build(&rows, 23, None, ON, &mut index[..19], &mut totals), refused(9));
    assert_eq!(build(&rows, 23, None, ON, &mut index, &mut totals), refused(10));
    assert_eq!((index, totals), ([0; 20], [0; 3]));
    // Under ignore none is needed.
    assert_eq!(build(&rows, 0, None, ON, &mut index[..8], &mut totals[..1]), accepted(0, 1));
}

#[test]
fn entries_at_the_node_limit() {
    // 254 start rows with 256 rows below each, and 255 start rows alone: 65,533 nodes.
    let mut rows = vec![row(0, 1, 1); 254];
    rows.extend(vec![row(1, 2, 1); 256]);
    rows.extend(vec![row(0, 3, 1); 255]);
    rows.push(row(5, 5, 0));
    let mut index = vec![0; 8 + 6 * 65_536];
    let mut totals = vec![0; 65_537];
    assert_eq!(build(&rows, 3, None, ON, &mut index, &mut totals), accepted(65_535, 0));
    assert!(index_check(&index));
    let entry = Body::read(&index, 65_534);
    assert_eq!((entry.numeral, entry.row, entry.size, entry.root), (5, 0, 2, 65_534));
    rows.push(row(0, 3, 1));
    assert_eq!(build(&rows, 3, None, ON, &mut index, &mut totals), refused(9));
    assert_eq!(build(&rows, 0, None, ON, &mut index, &mut totals), accepted(65_534, 1));
}

#[test]
fn an_exponential_island_stops() {
    // 512 numerals in a ring, two rows each: 2^512 paths.
    let rows: Vec<Row> =
        (0..1_024).map(|k| row(if k < 2 { 512 } else { k / 2 }, k / 2 + 1, k)).collect();
    let mut index = vec![0; 8 + 6 * 65_536];
    let mut totals = vec![0; 65_537];
    assert_eq!(build(&rows, 3, None, ON, &mut index, &mut totals), refused(9));
    assert_eq!(build(&rows, 2, None, ON, &mut index, &mut totals), refused(8));
    assert_eq!(build(&rows, 0, None, ON, &mut index, &mut totals), accepted(0, 1_024));
}

#[test]
fn sentence_10_sees_the_ring_close_on_the_entry() {
    for rows in [&GEAR_TRAIN[..], &[row(5, 5, 0)], &[row(2, 1, 0), row(1, 2, 0)]] {
        for code in [15, 19, 23] {
            assert_eq!(build_all(rows, code, ON).built, refused(10));
        }
        let mut rows = rows.to_vec();
        rows.push(row(0, 99, 0));
        for code in [14, 18, 22] {
            assert_eq!(build_all(&rows, code, ON).built, refused(10));
        }
        // No node closes under ignore; error finds U.
        assert_eq!(build_all(&rows, 12, ON).built, accepted(1, rows.len() as u32 - 1));
        assert_eq!(build_all(&rows, 13, ON).built, refused(12));
    }
}

#[test]
fn sentence_11_sees_entries() {
    // The entry shares its numeral with the ring's row, and has a tree size above 1.
    for rows in [&GEAR_TRAIN[..], &[row(5, 5, 0)], &[row(2, 1, 0), row(1, 2, 0)]] {
        assert_eq!(build_all(rows, 7, ON).built, refused(11));
        assert_eq!(build_all(rows, 11, ON).built, refused(11));
        let mut rows = rows.to_vec();
        rows.push(row(0, 99, 0));
        assert_eq!(build_all(&rows, 6, ON).built, refused(11));
        assert_eq!(build_all(&rows, 10, ON).built, refused(11));
        // Nothing is shared under ignore, and error finds U.
        assert_eq!(build_all(&rows, 4, ON).built, accepted(1, rows.len() as u32 - 1));
        assert_eq!(build_all(&rows, 8, ON).built, accepted(1, rows.len() as u32 - 1));
        assert_eq!(build_all(&rows, 5, ON).built, refused(12));
        assert_eq!(build_all(&rows, 9, ON).built, refused(12));
    }
}

#[test]
fn the_adopting_numeral_does_not_count_but_the_entry_numeral_does() {
    // The adopting numeral 5 comes again below entry 7 and doesn't close there; 7 does.
    let rows = [row(0, 5, 0), row(7, 7, 0), row(7, 5, 0)];
    assert_eq!(
        bodies_of(&rows, ADOPT, ON),
        [
            [5, 1, 4, 0, 1, 1, 0, 0],
            [7, 0, 3, 1, 1, 2, 0, 1],
            [5, 3, 1, 2, 1, 3, 0, 1],
            [7, 2, 1, 2, 1, 3, 1, 1],
        ]
    );
    // A ring over the adopting numeral itself is regular: what lies under 5 is reached from row 1.
    let rows = [row(0, 5, 0), row(6, 5, 0), row(5, 6, 0)];
    assert_eq!(
        bodies_of(&rows, ADOPT, ON),
        [[5, 1, 3, 0, 1, 1, 0, 0], [6, 3, 2, 1, 1, 2, 0, 0], [5, 2, 1, 2, 1, 3, 1, 0]]
    );
}

#[test]
fn minutes_of_a_ring_at_their_ends() {
    let rows = [
        Row::undated(2, 1, 0, i32::MIN),
        Row::undated(1, 2, 0, i32::MIN),
        Row::undated(9, 9, 0, i32::MAX),
        Row::undated(9, 8, 0, -1),
    ];
    let image = whole(&rows, ROOT, ON);
    let low = i32::MIN as i64;
    let high = i32::MAX as i64;
    assert_eq!(image.totals(), [0, 0, low, 2 * low, 2 * low, 2 * low - 1, 2 * low - 1 + high]);
    assert_eq!(subtree_sum(&image.index, &image.totals, 1).sum, 2 * low);
    assert_eq!(subtree_sum(&image.index, &image.totals, 4).sum, high - 1);
}

#[test]
fn the_order_of_any_two_nodes_is_that_of_their_ranks() {
    let mut rows = MIXED.to_vec();
    rows.extend([row(5, 5, 0), row(4, 90, 0), row(5, 1, 7), row(2, 2, 0)]);
    for orphan in [ADOPT, ROOT] {
        let found = forest::forest(&rows, orphan, None, ON, &|_| true).unwrap();
        let made: Vec<_> = found
            .nodes
            .iter()
            .filter(|node| node.rows.last() == Some(&0))
            .map(|node| node.entry.unwrap())
            .map(|entry| (entry.made, entry.numeral))
            .collect();
        assert_eq!(made, [(1, 4), (2, 5), (3, 2)]);
        for (place, a) in found.nodes.iter().enumerate() {
            for (other, b) in found.nodes.iter().enumerate() {
                assert_eq!(forest::node_order(&rows, a, b), place.cmp(&other));
            }
        }
    }
}

#[test]
fn a_ring_opened_by_a_withdrawal() {
    let mut board = Board::EMPTY;
    for row in GEAR_TRAIN {
        board = board.add(row).board;
    }
    let mut seen = Vec::new();
    // Without row 1 the row of numeral 20 is a top orphan.
    for call in [Call::Withdraw(1), Call::Undo, Call::Redo, Call::Add(GEAR_TRAIN[0])] {
        board = board.call(call).board;
        let mut index = [0; 8 + 6 * 4];
        let mut totals = [0; 5];
        let built = build_board(&board, 3, None, ON, &mut index, &mut totals);
        let first = Body::read(&index, 1);
        seen.push((built.nodes, first.numeral, first.row, subtree_sum(&index, &totals, 1).sum));
    }
    // Entered again as row 3 it is no longer the lowest: the entry is 20.
    assert_eq!(seen, [(2, 20, 1, 18), (4, 10, 0, 23), (2, 20, 1, 18), (4, 20, 0, 23)]);
}

fn printed(input: &str) -> String {
    String::from_utf8(numerals(input.as_bytes())).unwrap()
}

#[test]
fn the_listing_shows_a_ring() {
    assert_eq!(
        printed("30 10 1 5\n10 20 1 7\n20 30 1 11\n"),
        "rank size parent level root cycle orphan id sum
1 4 0 1 1 0 1 10 23
2 3 1 2 1 0 1 20 23
3 2 2 3 1 0 1 30 16
4 1 3 4 1 1 1 10 5
"
    );
    // The marked board with two rings ahead of its lines: they come last, in the order made.
    let marked = "0 10 1 5\n10 20 2 3\n10 30 1 4\n20 40 1 2\n30 40 1 1\n40 20 1 -1\n90 91 1 7\n";
    let rings = "\
10 2 0 1 10 0 1 71 -6
11 1 10 2 10 1 1 71 -6
12 3 0 1 12 0 1 60 9
13 1 12 2 12 1 1 60 8
14 1 12 2 12 0 1 61 1
";
    let input = format!("71 71 0 -6\n60 60 0 8\n60 61 0 1\n{marked}");
    assert_eq!(printed(&input), printed(marked) + rings);
}

#[test]
fn the_listing_holds_2_700_nodes_entries_included() {
    // Entry 1, 51 rows of numeral 2, below each one of numeral 1 that closes and 50 of numeral 3, and
    // 47 rows more under the entry: 1 + 51 + 51 × 51 + 47 = 2,700.
    let text = String::from("2 1 1 1\n")
        + &"1 2 1 1\n".repeat(51)
        + &"2 3 1 1\n".repeat(50)
        + &"1 4 1 1\n".repeat(47);
    let output = printed(&text);
    assert_eq!(output.lines().count(), 2_701);
    assert_eq!(output.lines().nth(1), Some("1 2700 0 1 1 0 1 1 2699"));
    assert_eq!(output.lines().last(), Some("2700 1 1 2 1 0 1 4 1"));
    assert_eq!(printed(&format!("{text}1 4 1 1\n")), "refused 9\n");
}

#[test]
fn rings_of_one_row_on_a_full_board() {
    let rows: Vec<Row> =
        (1..=1_024).map(|k| Row::undated(1_025 - k, 1_025 - k, k % 7, 3)).collect();
    let image = whole(&rows, ROOT, ON);
    assert_eq!(image.built.nodes, 2_048);
    let mut expected = Vec::new();
    for k in 1..=1_024 {
        let entry = 2 * k - 1;
        expected.push([1_025 - k, 0, 2, 0, entry, 1, 0, 1]);
        expected.push([1_025 - k, k, 1, entry, entry, 2, 1, 1]);
    }
    assert_eq!(bodies(&image), expected);
    assert_eq!(image.totals[2_048], 3 * 1_024);
    // One row as start row: 1,023 entries under it.
    let mut rows = rows;
    rows[1_023].parent = 0;
    let image = whole(&rows, ADOPT, ON);
    assert_eq!(image.built.nodes, 1 + 2 * 1_023);
    assert_eq!(bodies(&image)[0], [1, 1_024, 2_047, 0, 1, 1, 0, 0]);
    assert_eq!(
        bodies(&image)[2_045..],
        [[2, 0, 2, 1, 1, 2, 0, 1], [2, 1_023, 1, 2_046, 1, 3, 1, 1]]
    );
}

#[test]
fn rings_of_two_rows_on_a_full_board() {
    // Ring k, of 512, has row k with numeral 2,000 − k and row 512 + k with numeral k.
    let mut rows: Vec<Row> = (1..=512).map(|k| row(k, 2_000 - k, 600 - k)).collect();
    rows.extend((1..=512).map(|k| row(2_000 - k, k, k)));
    let mut expected = Vec::new();
    for k in 1..=512 {
        let entry = 3 * k - 2;
        expected.push([2_000 - k, 0, 3, 0, entry, 1, 0, 1]);
        expected.push([k, 512 + k, 2, entry, entry, 2, 0, 1]);
        expected.push([2_000 - k, k, 1, entry + 1, entry, 3, 1, 1]);
    }
    assert_eq!(bodies_of(&rows, ROOT, ON), expected);
}

#[test]
fn a_ring_of_1_024_rows() {
    // Numeral k under k − 1, and 1 under 1,024: the entry and each row once, the last one closing.
    let rows: Vec<Row> =
        (1..=1_024).map(|k| row(if k == 1 { 1_024 } else { k - 1 }, k, 0)).collect();
    let image = whole(&rows, ROOT, ON);
    let mut expected = vec![[1, 0, 1_025, 0, 1, 1, 0, 1]];
    expected.extend((2..=1_024).map(|k| [k, k, 1_026 - k, k - 1, 1, k, 0, 1]));
    expected.push([1, 1, 1, 1_024, 1, 1_025, 1, 1]);
    assert_eq!(bodies(&image), expected);
    assert_eq!(image.totals[1_025], 1_024);
}

#[test]
fn a_long_tail_ahead_of_many_rings() {
    // Rows 1 to 256 are a chain that hangs from the last of 768 rings, so that all of them are passed
    // over; its numerals are 2,001 to 2,256.
    let mut rows: Vec<Row> =
        (1..=256).map(|k| row(if k == 1 { 768 } else { 1_999 + k }, 2_000 + k, 0)).collect();
    rows.extend((1..=768).map(|k| row(k, k, 0)));
    let mut expected = Vec::new();
    for k in 1..=768 {
        let entry = 2 * k - 1;
        expected.push([k, 0, if k == 768 { 258 } else { 2 }, 0, entry, 1, 0, 1]);
        expected.push([k, 256 + k, 1, entry, entry, 2, 1, 1]);
    }
    for k in 1..=256 {
        let above = if k == 1 { 1_535 } else { 1_535 + k };
        expected.push([2_000 + k, k, 257 - k, above, 1_535, 1 + k, 0, 1]);
    }
    assert_eq!(bodies_of(&rows, ROOT, ON), expected);
}

/// Rows by place that a list of `allowed` rows reaches from `numeral`, each later row's parent being
/// the numeral before.
fn reached(rows: &[Row], allowed: &[bool], numeral: u32) -> Vec<bool> {
    let mut found = vec![false; rows.len()];
    loop {
        let before = found.clone();
        for k in 0..rows.len() {
            let after = |j: usize| before[j] && rows[j].numeral == rows[k].parent;
            if allowed[k] && (rows[k].parent == numeral || (0..rows.len()).any(after)) {
                found[k] = true;
            }
        }
        if found == before {
            return found;
        }
    }
}

/// The steps of the request from the start each time: all rows of I are looked at again, for as long
/// as I isn't empty.
fn entries_step_by_step(rows: &[Row]) -> Vec<u32> {
    let all = vec![true; rows.len()];
    let mut island = all.clone();
    for (k, row) in rows.iter().enumerate() {
        if row.parent == 0 || rows.iter().all(|other| other.numeral != row.parent) {
            let below = reached(rows, &all, row.numeral);
            (0..rows.len()).filter(|&j| j == k || below[j]).for_each(|j| island[j] = false);
        }
    }
    let mut entries = Vec::new();
    while island.contains(&true) {
        let on_ring = |k: &usize| {
            let below = reached(rows, &island, rows[*k].numeral);
            island[*k] && (0..rows.len()).any(|j| below[j] && rows[j].numeral == rows[*k].numeral)
        };
        let k = (0..rows.len()).find(on_ring).expect("a ring while I isn't empty");
        entries.push(rows[k].numeral);
        let below = reached(rows, &island, rows[k].numeral);
        (0..rows.len()).filter(|&j| below[j]).for_each(|j| island[j] = false);
    }
    entries
}

#[test]
fn entries_of_many_boards_step_by_step() {
    let mut state: u64 = 1;
    let mut draw = |below: u64| {
        state =
            state.wrapping_mul(6_364_136_223_846_793_005).wrapping_add(1_442_695_040_888_963_407);
        ((state >> 33) % below) as u32
    };
    let mut most = 0;
    for _ in 0..4_000 {
        let numerals = 2 + draw(6) as u64;
        let rows: Vec<Row> = (0..1 + draw(9))
            .map(|_| {
                // Parent 0 is rare, so that most boards have an island.
                let parent = if draw(12) == 0 { 0 } else { 1 + draw(numerals) };
                row(parent, 1 + draw(numerals), draw(3))
            })
            .collect();
        let image = build_all(&rows, ROOT, ON);
        if image.built.refusal == 9 {
            continue;
        }
        assert_eq!(image.built.left, 0, "{rows:?}");
        assert_eq!(entries(&image), entries_step_by_step(&rows), "{rows:?}");
        most = most.max(entries(&image).len());
    }
    assert!(most >= 3);
}
