//! Dated rows and builds: which days a path has, which paths are nodes, what is left over, written and
//! refused, worked out by hand; and every small board against the sentences tried on every row list.

mod common;
#[path = "common/marked.rs"]
mod marked;

use common::{accepted, image_in, refused, zeroed};
use marked::{board_of, MARKED};
use reference::dated::{dated_by_rows, dated_of_all};
use reference::*;
use std::cmp::Ordering;

const ON: Start = Start::ParentZero;
const MAX: u32 = u32::MAX;

/// A row whose minutes are 1, with its days.
fn row(parent: u32, numeral: u32, order: u32, first: u32, last: u32) -> Row {
    Row::undated(parent, numeral, order, 1).on(first, last)
}

/// Code 0, no depth, parent 0.
fn within(first: u32, last: u32) -> Asked<'static> {
    Asked { code: 0, depth: None, start: ON, window: Days::new(first, last) }
}

/// What a dated build left.
struct Image {
    image: common::Image,
    days: Vec<u32>,
}

/// Builds with room for the nodes there are and seven words more of each slice. A refused build
/// leaves zeros, an accepted one unchanged words beyond. Both ways to find the nodes give the same.
fn build_all(rows: &[Row], asked: Asked) -> Image {
    let nodes = dated_of_all(rows, asked, usize::MAX).unwrap();
    assert_eq!(dated_by_rows(rows, asked, &|_| true).as_ref(), Ok(&nodes));
    let mut days = vec![77; 2 * nodes.len() + 7];
    let image =
        image_in(nodes.len(), |index, totals| build_dated(rows, asked, index, totals, &mut days));
    match image.built.refusal {
        0 => assert!(days[2 * image.built.nodes as usize..].iter().all(|word| *word == 77)),
        _ => assert!(days.iter().all(|word| *word == 0)),
    }
    Image { image, days }
}

impl Image {
    fn built(&self) -> Built {
        self.image.built
    }

    /// Numeral, row number, tree size, parent rank, root rank, level and closing of each node, and
    /// its two days.
    fn nodes(&self) -> Vec<[u32; 9]> {
        let node = |rank: usize| {
            let body = Body::read(&self.image.index, rank);
            assert!(!body.orphan);
            let [first, last] = [self.days[2 * rank - 2], self.days[2 * rank - 1]];
            let closing = body.closing as u32;
            let Body { numeral, row, size, parent, root, level, .. } = body;
            [numeral, row, size, parent, root, level, closing, first, last]
        };
        (1..=self.built().nodes as usize).map(node).collect()
    }
}

/// The row number and the days of each node, of an accepted build that leaves `left` rows over.
fn days_of(rows: &[Row], asked: Asked, left: u32) -> Vec<(u32, u32, u32)> {
    let image = build_all(rows, asked);
    assert_eq!((image.built().refusal, image.built().left), (0, left));
    image.nodes().iter().map(|node| (node[1], node[7], node[8])).collect()
}

// Days of a path.

#[test]
fn days_that_touch_and_days_that_miss() {
    let below = |first, last| [row(0, 1, 0, 3, 5), row(1, 2, 0, first, last)];
    // One common day, at either end.
    assert_eq!(days_of(&below(5, 9), within(0, MAX), 0), [(1, 3, 5), (2, 5, 5)]);
    assert_eq!(days_of(&below(0, 3), within(0, MAX), 0), [(1, 3, 5), (2, 3, 3)]);
    // By one day none.
    assert_eq!(days_of(&below(6, 9), within(0, MAX), 1), [(1, 3, 5)]);
    assert_eq!(days_of(&below(0, 2), within(0, MAX), 1), [(1, 3, 5)]);
    // Nested either way, equal, overlapping.
    assert_eq!(days_of(&below(4, 4), within(0, MAX), 0), [(1, 3, 5), (2, 4, 4)]);
    assert_eq!(days_of(&below(0, 9), within(0, MAX), 0), [(1, 3, 5), (2, 3, 5)]);
    assert_eq!(days_of(&below(3, 5), within(0, MAX), 0), [(1, 3, 5), (2, 3, 5)]);
    assert_eq!(days_of(&below(4, 9), within(0, MAX), 0), [(1, 3, 5), (2, 4, 5)]);
}

#[test]
fn both_ends_of_a_window_are_included() {
    let rows = [row(0, 1, 0, 10, 20)];
    let days = |first, last| days_of(&rows, within(first, last), 0);
    assert_eq!(days(20, 30), [(1, 20, 20)]);
    assert_eq!(days(0, 10), [(1, 10, 10)]);
    assert_eq!(days(10, 20), [(1, 10, 20)]);
    assert_eq!(days(9, 21), [(1, 10, 20)]);
    assert_eq!(days(12, 13), [(1, 12, 13)]);
    for window in [(21, 30), (0, 9), (21, 21), (9, 9), (21, MAX), (0, 0), (MAX, MAX)] {
        assert_eq!(days_of(&rows, within(window.0, window.1), 1), []);
    }
}

#[test]
fn windows_of_one_day() {
    let rows = [row(0, 1, 0, 3, 5), row(1, 2, 0, 5, 9), row(1, 3, 1, 4, 4)];
    assert_eq!(days_of(&rows, within(2, 2), 3), []);
    assert_eq!(days_of(&rows, within(3, 3), 2), [(1, 3, 3)]);
    assert_eq!(days_of(&rows, within(4, 4), 1), [(1, 4, 4), (3, 4, 4)]);
    assert_eq!(days_of(&rows, within(5, 5), 1), [(1, 5, 5), (2, 5, 5)]);
    // Row 2 has the day, but not the row above it.
    assert_eq!(days_of(&rows, within(6, 6), 3), []);
}

#[test]
fn the_whole_range() {
    let rows = [Row::undated(0, 1, 0, 1), row(1, 2, 0, MAX, MAX), row(1, 3, 1, 0, 0)];
    let all = [(1, 0, MAX), (2, MAX, MAX), (3, 0, 0)];
    assert_eq!(days_of(&rows, within(0, MAX), 0), all);
    assert_eq!(days_of(&rows, within(0, 0), 1), [(1, 0, 0), (3, 0, 0)]);
    assert_eq!(days_of(&rows, within(MAX, MAX), 1), [(1, MAX, MAX), (2, MAX, MAX)]);
    assert_eq!(days_of(&rows, within(1, MAX - 1), 2), [(1, 1, MAX - 1)]);
}

#[test]
fn days_are_common_to_all_rows_of_the_path() {
    // Neighbouring rows have days in common, the first and the last have none.
    let rows = [row(0, 1, 0, 0, 10), row(1, 2, 0, 5, 20), row(2, 3, 0, 11, 30)];
    assert_eq!(days_of(&rows, within(0, MAX), 1), [(1, 0, 10), (2, 5, 10)]);
    // So have the window and each row.
    let rows = [row(0, 1, 0, 0, 10), row(1, 2, 0, 9, 20)];
    assert_eq!(days_of(&rows, within(0, 8), 1), [(1, 0, 8)]);
    assert_eq!(days_of(&rows, within(11, 20), 2), []);
    // A path has its own days, whatever others to the same numeral have.
    let rows = [
        row(0, 1, 0, 0, 5),
        row(0, 2, 1, 6, 9),
        row(1, 3, 0, 0, 9),
        row(2, 3, 0, 0, 9),
        row(3, 4, 0, 5, 6),
    ];
    let days = [(1, 0, 5), (3, 0, 5), (5, 5, 5), (2, 6, 9), (4, 6, 9), (5, 6, 6)];
    assert_eq!(days_of(&rows, within(0, MAX), 0), days);
    assert_eq!(days_of(&rows, within(6, MAX), 2), [(2, 6, 9), (4, 6, 9), (5, 6, 6)]);
}

#[test]
fn a_row_whose_first_day_is_after_its_last() {
    // No board gets it by an add. It has no days, though both are in the window.
    for (first, last) in [(5, 4), (1, 0), (MAX, 0), (MAX, MAX - 1)] {
        let rows = [row(0, 1, 0, 0, MAX), row(1, 2, 0, first, last), row(2, 3, 0, 0, MAX)];
        assert_eq!(days_of(&rows, within(0, MAX), 2), [(1, 0, MAX)]);
        assert_eq!(days_of(&rows[1..], within(0, MAX), 2), []);
        let listed = Asked { start: Start::Numerals(&[2]), ..within(0, MAX) };
        assert_eq!(days_of(&rows, listed, 3), []);
    }
    // Two such rows have no day together either.
    let rows = [row(0, 1, 0, 4, 2), row(1, 2, 0, 8, 6)];
    assert_eq!(days_of(&rows, within(0, MAX), 2), []);
    // The board is sound.
    let mut board = board_of(&MARKED);
    board.rows[1] = board.rows[1].on(5, 4);
    assert!(board.sound());
    let (mut index, mut totals, mut days) = ([0; 100], [0; 20], [0; 40]);
    let built = build_dated_board(&board, within(0, MAX), &mut index, &mut totals, &mut days);
    // 10, 30, 40, 20 and 40 again, one below the other; rows 2 and 7 end no node.
    assert_eq!(built, accepted(5, 2));
}

// Builds as without days.

/// With all days in a window of all days, a build is that of the rows without days.
#[test]
fn rows_without_days() {
    for code in [0, 4, 8, 12, 16, 20] {
        for depth in [None, Some(-1), Some(0), Some(1), Some(3), Some(9)] {
            for start in [ON, Start::Numerals(&[40, 30]), Start::Numerals(&[])] {
                let usual =
                    image_in(20, |index, totals| build(&MARKED, code, depth, start, index, totals));
                let mut days = [77; 50];
                let asked = Asked { code, depth, start, window: Days::ALL };
                let image = image_in(20, |index, totals| {
                    build_dated(&MARKED, asked, index, totals, &mut days)
                });
                assert_eq!((image.index, image.totals), (usual.index, usual.totals));
                assert_eq!(image.built, usual.built);
                if image.built.refusal == 0 {
                    let n = image.built.nodes as usize;
                    assert!(days[..2 * n].chunks(2).all(|pair| pair == [0, MAX]));
                    assert!(days[2 * n..].iter().all(|word| *word == 77));
                }
            }
        }
    }
}

/// A build leaves the same of the marked board's rows with days and without.
fn reads_no_days(build: impl Fn(&[Row], &mut [u32], &mut [i64]) -> Built) {
    let dated: Vec<Row> = MARKED.iter().zip(0..).map(|(row, k)| row.on(9 - k, k)).collect();
    let undated = image_in(20, |index, totals| build(&MARKED, index, totals));
    let dated = image_in(20, |index, totals| build(&dated, index, totals));
    assert_eq!(dated.built, undated.built);
    assert_eq!((dated.index, dated.totals), (undated.index, undated.totals));
}

/// "A build without a window reads no days."
#[test]
fn builds_without_a_window() {
    for code in 0..=24 {
        reads_no_days(|rows, index, totals| build(rows, code, None, ON, index, totals));
        reads_no_days(|rows, index, totals| build(rows, code, Some(2), ON, index, totals));
    }
    reads_no_days(build_default);
    reads_no_days(|rows, index, totals| build_shortest(rows, ON, index, totals));
}

// Nodes, order and counts over the paths with days.

#[test]
fn ranks_and_sizes_count_nodes_only() {
    let rows = [
        row(0, 1, 1, 0, 9),
        row(0, 2, 0, 20, 29),
        row(1, 3, 1, 5, 25),
        row(1, 4, 0, 10, 25),
        row(2, 3, 0, 5, 22),
        row(3, 5, 0, 0, 30),
        row(4, 6, 0, 0, 30),
    ];
    let image = build_all(&rows, within(0, MAX));
    assert_eq!(image.built(), accepted(6, 2));
    assert_eq!(
        image.nodes(),
        [
            [2, 2, 3, 0, 1, 1, 0, 20, 29],
            [3, 5, 2, 1, 1, 2, 0, 20, 22],
            [5, 6, 1, 2, 1, 3, 0, 20, 22],
            [1, 1, 3, 0, 4, 1, 0, 0, 9],
            [3, 3, 2, 4, 4, 2, 0, 5, 9],
            [5, 6, 1, 5, 4, 3, 0, 5, 9],
        ]
    );
    assert_eq!(image.image.totals(), [0, 1, 2, 3, 4, 5, 6]);
    // The first root in path order has no days in the window: the other is rank 1.
    let image = build_all(&rows, within(0, 19));
    assert_eq!(image.built(), accepted(3, 4));
    assert_eq!(
        image.nodes(),
        [[1, 1, 3, 0, 1, 1, 0, 0, 9], [3, 3, 2, 1, 1, 2, 0, 5, 9], [5, 6, 1, 2, 1, 3, 0, 5, 9],]
    );
    // Days don't order: the later one comes first.
    let rows = [row(0, 1, 0, 0, MAX), row(1, 3, 1, 0, 1), row(1, 2, 0, 8, 9), row(1, 4, 0, 0, 0)];
    let days = [(1, 0, MAX), (3, 8, 9), (4, 0, 0), (2, 0, 1)];
    assert_eq!(days_of(&rows, within(0, MAX), 0), days);
}

#[test]
fn rows_that_end_no_node() {
    // One without days in the window, one below it, one below none, one on an island.
    let rows = [
        row(0, 1, 0, 0, 9),
        row(1, 2, 0, 10, 19),
        row(2, 3, 0, 0, 19),
        row(7, 4, 0, 0, 19),
        row(5, 5, 0, 0, 19),
    ];
    assert_eq!(days_of(&rows, within(0, 19), 4), [(1, 0, 9)]);
    assert_eq!(days_of(&rows, within(10, 19), 5), []);
    // A row that ends two paths, of which one has days, ends a node.
    let rows = [row(0, 1, 0, 0, 4), row(0, 1, 1, 5, 9), row(1, 2, 0, 4, 4)];
    assert_eq!(days_of(&rows, within(0, 9), 0), [(1, 0, 4), (3, 4, 4), (2, 5, 9)]);
    assert_eq!(days_of(&rows, within(5, 9), 2), [(2, 5, 9)]);
}

#[test]
fn a_ring_that_closes_on_the_days_of_its_way_back() {
    let rows = [row(0, 1, 0, 0, MAX), row(1, 2, 0, 10, 20), row(2, 1, 0, 15, 30)];
    let image = build_all(&rows, within(0, MAX));
    assert_eq!(image.built(), accepted(3, 0));
    assert_eq!(
        image.nodes(),
        [
            [1, 1, 3, 0, 1, 1, 0, 0, MAX],
            [2, 2, 2, 1, 1, 2, 0, 10, 20],
            [1, 3, 1, 2, 1, 3, 1, 15, 20],
        ]
    );
    let built = |first, last, code| build_all(&rows, Asked { code, ..within(first, last) }).built();
    // The way back is there up to day 30, the ring up to day 20.
    for (first, last, nodes, left) in
        [(0, 9, 1, 2), (10, 14, 2, 1), (0, 14, 2, 1), (21, 30, 1, 2), (31, MAX, 1, 2)]
    {
        assert_eq!(built(first, last, 0), accepted(nodes, left));
        assert_eq!(built(first, last, 12), accepted(nodes, left));
        assert_eq!(built(first, last, 8), accepted(nodes, left));
    }
    for (first, last) in [(0, MAX), (15, 15), (20, 20), (0, 15), (20, MAX)] {
        assert_eq!(built(first, last, 0), accepted(3, 0));
        assert_eq!(built(first, last, 12), refused(10));
        assert_eq!(built(first, last, 8), refused(11));
        assert_eq!(built(first, last, 4), refused(11));
        assert_eq!(built(first, last, 20), refused(10));
    }
}

#[test]
fn shared_numerals_count_where_both_paths_have_days() {
    // 3 below 1 up to day 5 and below 2 from day 5 on; 4 below it from day 5 on.
    let rows = [
        row(0, 1, 0, 0, 9),
        row(0, 2, 1, 0, 9),
        row(1, 3, 0, 0, 5),
        row(2, 3, 0, 5, 9),
        row(3, 4, 0, 5, 9),
    ];
    let built = |first, last, code| build_all(&rows, Asked { code, ..within(first, last) }).built();
    // Also where no day has both.
    for (first, last) in [(0, 9), (5, 5), (4, 5)] {
        assert_eq!(built(first, last, 8), refused(11));
        assert_eq!(built(first, last, 4), refused(11));
        assert_eq!(built(first, last, 0), accepted(6, 0));
    }
    for code in [0, 4, 8, 12, 16, 20] {
        assert_eq!(built(0, 4, code), accepted(3, 2));
        assert_eq!(built(6, 9, code), accepted(4, 1));
    }
    // Shared by two leaves: 4 ends no node on these days.
    let mut rows = rows;
    rows[4] = rows[4].on(10, 10);
    rows[3] = rows[3].on(6, 9);
    let built = |code| build_all(&rows, Asked { code, ..within(0, 9) }).built();
    assert_eq!((built(0), built(4), built(8)), (accepted(4, 1), accepted(4, 1), refused(11)));
}

#[test]
fn depths_with_a_window() {
    let rows = [row(0, 1, 0, 0, 9), row(1, 2, 0, 5, 9), row(2, 3, 0, 9, 9), row(0, 4, 1, 8, 8)];
    let days = |depth, first, last, left| {
        days_of(&rows, Asked { depth: Some(depth), ..within(first, last) }, left)
    };
    assert_eq!(days(0, 0, 9, 2), [(1, 0, 9), (4, 8, 8)]);
    assert_eq!(days(1, 0, 9, 1), [(1, 0, 9), (2, 5, 9), (4, 8, 8)]);
    assert_eq!(days(2, 0, 9, 0), [(1, 0, 9), (2, 5, 9), (3, 9, 9), (4, 8, 8)]);
    assert_eq!(days(i32::MAX, 0, 9, 0).len(), 4);
    assert_eq!(days(2, 0, 7, 2), [(1, 0, 7), (2, 5, 7)]);
    assert_eq!(days(1, 0, 4, 3), [(1, 0, 4)]);
    for depth in [-1, -2, i32::MIN] {
        assert_eq!(days(depth, 0, 9, 4), []);
    }
}

#[test]
fn start_lists() {
    let rows = [row(0, 1, 0, 0, 9), row(1, 2, 0, 5, 9), row(7, 2, 1, 0, 4), row(2, 3, 0, 4, 5)];
    let days = |list: &[u32], first, last, left| {
        days_of(&rows, Asked { start: Start::Numerals(list), ..within(first, last) }, left)
    };
    // The days of the row above a start row don't count.
    assert_eq!(days(&[2], 0, 9, 1), [(2, 5, 9), (4, 5, 5), (3, 0, 4), (4, 4, 4)]);
    assert_eq!(days(&[2], 0, 4, 2), [(3, 0, 4), (4, 4, 4)]);
    assert_eq!(days(&[2, 2, 99, 0], 6, 9, 3), [(2, 6, 9)]);
    assert_eq!(days(&[3, 1], 5, 9, 1), [(1, 5, 9), (2, 5, 9), (4, 5, 5), (4, 5, 5)]);
    assert_eq!(days(&[], 0, 9, 4), []);
    assert_eq!(days(&[99], 0, 9, 4), []);
    // A row with parent 0 is no start row of a list.
    assert_eq!(days(&[3], 0, 9, 3), [(4, 4, 5)]);
}

/// "A dated index answers over the paths with days left."
#[test]
fn navigation() {
    let mut rows = MARKED;
    rows[4] = rows[4].on(0, 99);
    rows[5] = rows[5].on(50, 200);
    // On the marked board's listing, up to day 49: ranks 1, 2, 3, 6 and 7 of it.
    let image = build_all(&rows, within(0, 49));
    assert_eq!(image.built(), accepted(5, 2));
    assert_eq!(
        image.nodes(),
        [
            [10, 1, 5, 0, 1, 1, 0, 0, 49],
            [30, 3, 2, 1, 1, 2, 0, 0, 49],
            [40, 5, 1, 2, 1, 3, 0, 0, 49],
            [20, 2, 2, 1, 1, 2, 0, 0, 49],
            [40, 4, 1, 4, 1, 3, 0, 0, 49],
        ]
    );
    let (index, totals) = (&image.image.index, &image.image.totals);
    assert_eq!(image.image.totals(), [0, 5, 9, 10, 13, 15]);
    // 18 + 39 + 52 + 28 + 53.
    assert_eq!(index[..8], [5, 8, 6, 190, 0, 0, 0, 0]);
    assert!(index_check(index));
    let sums = |sum: &dyn Fn(u32) -> Summed| -> Vec<i64> {
        (1..=5).map(sum).inspect(|s| assert_eq!(s.refusal, 0)).map(|s| s.sum).collect()
    };
    assert_eq!(sums(&|rank| subtree_sum(index, totals, rank)), [15, 5, 1, 5, 2]);
    assert_eq!(sums(&|rank| path_sum(index, totals, rank)), [5, 9, 10, 8, 10]);

    let mut list = [0; 5];
    assert_eq!(descendants(index, 1, 1, 9, &mut list), Listed { refusal: 0, length: 4 });
    assert_eq!(list[..4], [2, 3, 4, 5]);
    assert_eq!(descendants(index, 1, 2, 2, &mut list), Listed { refusal: 0, length: 2 });
    assert_eq!(list[..2], [3, 5]);
    assert_eq!(siblings(index, 4, &mut list), Listed { refusal: 0, length: 2 });
    assert_eq!(list[..2], [2, 4]);
    let climbed = Climbed { refusal: 0, length: 3, links: 2 };
    assert_eq!(ancestors(index, 5, -9, 0, &mut list), climbed);
    assert_eq!(list[..3], [5, 4, 1]);
    assert_eq!(span(index, 2).words, 14..26);
    assert_eq!(subtree_sum(index, totals, 6), Summed { refusal: 14, sum: 0 });

    // From day 100 on 40 is below 20 alone, and 20 closes below it.
    let image = build_all(&rows, within(100, 300));
    assert_eq!(image.built(), accepted(5, 2));
    assert_eq!(
        image.nodes()[2..],
        [
            [20, 2, 3, 1, 1, 2, 0, 100, 300],
            [40, 4, 2, 3, 1, 3, 0, 100, 300],
            [20, 6, 1, 4, 1, 4, 1, 100, 200],
        ]
    );
    assert_eq!(image.image.totals(), [0, 5, 9, 12, 14, 13]);
}

// Refusals and slices.

/// Each sentence alone, before each later one, and before all later ones.
#[test]
fn refusals_in_order() {
    let ring = [Row::undated(0, 1, 0, 1), Row::undated(1, 2, 0, 1), Row::undated(2, 1, 0, 1)];
    let mut unsound = board_of(&ring);
    unsound.rows[2].numeral = 0;
    let sound = board_of(&ring);
    let numbers = [1, 6, 20, 7, 9, 10, 11];
    let run = |applies: &dyn Fn(u32) -> bool| {
        let board = if applies(1) { &unsound } else { &sound };
        // Cycle 1 is refused as 10, multi 1 and 2 as 11, other orphans than 0 as 7.
        let choices = 12 * applies(10) as u32 + 8 * applies(11) as u32 + 3 * applies(7) as u32;
        let code = choices + 24 * applies(6) as u32;
        let window = if applies(20) { Days::new(1, 0) } else { Days::ALL };
        let asked = Asked { code, depth: None, start: ON, window };
        let (mut index, mut totals) = ([5; 30], [5; 6]);
        let mut days = vec![5; if applies(9) { 5 } else { 8 }];
        let built = build_dated_board(board, asked, &mut index, &mut totals, &mut days);
        if built.refusal != 0 {
            zeroed(&index, &totals);
            assert!(days.iter().all(|word| *word == 0));
        }
        built
    };
    assert_eq!(run(&|_| false), accepted(3, 0));
    for (place, &number) in numbers.iter().enumerate() {
        assert_eq!(run(&|other| other == number), refused(number));
        for &later in &numbers[place + 1..] {
            let both = run(&|other| other == number || other == later);
            assert_eq!(both, refused(number), "{number} before {later}");
        }
        let all_from_here = run(&|other| numbers[place..].contains(&other));
        assert_eq!(all_from_here, refused(number));
    }
}

#[test]
fn only_orphan_0_is_taken() {
    for code in 0..=30 {
        for depth in [None, Some(0), Some(9), Some(-1)] {
            let asked = Asked { code, depth, ..within(0, MAX) };
            let one_row = [row(0, 1, 0, 0, 9)];
            let wanted = match code {
                24.. => 6,
                _ if code % 4 != 0 => 7,
                _ => 0,
            };
            for rows in [&[][..], &one_row] {
                assert_eq!(build_all(rows, asked).built().refusal, wanted, "{code}");
            }
        }
    }
    for code in [24, MAX, MAX - 3, 1 << 31] {
        let asked = Asked { code, ..within(1, 0) };
        assert_eq!(build_all(&[], asked).built(), refused(6));
    }
}

#[test]
fn windows_whose_first_day_is_after_their_last() {
    for (first, last) in [(1, 0), (MAX, 0), (MAX, MAX - 1), (20, 19)] {
        for rows in [&[][..], &[row(0, 1, 0, 0, MAX)]] {
            assert_eq!(build_all(rows, within(first, last)).built(), refused(20));
            let orphans = Asked { code: 3, depth: Some(1), ..within(first, last) };
            assert_eq!(build_all(rows, orphans).built(), refused(20));
        }
    }
}

#[test]
fn slices_too_short_and_just_enough() {
    // Two of three rows end a node: 20 words, 3 totals, 4 days.
    let board = board_of(&[row(0, 1, 0, 0, 9), row(1, 2, 0, 9, 9), row(1, 3, 0, 10, 10)]);
    let run = |words: usize, count: usize, day_words: usize| {
        let (mut index, mut totals, mut days) =
            (vec![9; words], vec![9; count], vec![9; day_words]);
        let built = build_dated_board(&board, within(0, MAX), &mut index, &mut totals, &mut days);
        if built.refusal != 0 {
            zeroed(&index, &totals);
            assert!(days.iter().all(|word| *word == 0));
        }
        built
    };
    assert_eq!(run(20, 3, 4), accepted(2, 1));
    for lengths in [(21, 3, 4), (20, 4, 4), (20, 3, 5), (90, 90, 90)] {
        assert_eq!(run(lengths.0, lengths.1, lengths.2), accepted(2, 1), "{lengths:?}");
    }
    let short = [
        (20, 3, 3),
        (20, 3, 2),
        (20, 3, 1),
        (20, 3, 0),
        (19, 3, 4),
        (20, 2, 4),
        (19, 2, 3),
        (90, 90, 3),
        (90, 2, 90),
        (19, 90, 90),
        (7, 90, 90),
        (0, 0, 0),
    ];
    for lengths in short {
        assert_eq!(run(lengths.0, lengths.1, lengths.2), refused(9), "{lengths:?}");
    }
}

#[test]
fn no_node_needs_no_days() {
    for rows in [&[][..], &[row(0, 1, 0, 5, 9)]] {
        let left = rows.len() as u32;
        let (mut index, mut totals) = ([5; 9], [5; 2]);
        let built = build_dated(rows, within(0, 4), &mut index, &mut totals, &mut []);
        assert_eq!(built, accepted(0, left));
        assert_eq!((index, totals), ([0, 8, 6, 0, 0, 0, 0, 0, 5], [0, 5]));
        let mut days = [5; 3];
        let built = build_dated(rows, within(0, 4), &mut index, &mut totals, &mut days);
        assert_eq!((built, days), (accepted(0, left), [5; 3]));
        let built = build_dated(rows, within(0, 4), &mut index[..7], &mut totals, &mut days);
        assert_eq!((built, days), (refused(9), [0; 3]));
        assert_eq!((index, totals), ([0, 0, 0, 0, 0, 0, 0, 0, 5], [0, 0]));
        days = [5; 3];
        let built = build_dated(rows, within(0, 4), &mut index, &mut [], &mut days);
        assert_eq!((built, index, days), (refused(9), [0; 9], [0; 3]));
    }
}

#[test]
fn node_limit() {
    // 255 roots of one numeral with 256 rows below each: 65,535 nodes, and one root more up to day 8.
    let mut rows = vec![row(0, 1, 0, 0, 9); 255];
    rows.extend([row(1, 2, 0, 0, 9); 256]);
    rows.push(row(0, 9, 0, 0, 8));
    let board = board_of(&rows);
    let (mut index, mut totals) = (vec![3; 8 + 6 * 65_536], vec![3; 65_537]);
    let mut days = vec![3; 2 * 65_536];
    let mut run = |first, last| {
        build_dated_board(&board, within(first, last), &mut index, &mut totals, &mut days)
    };
    assert_eq!(run(9, 9), accepted(65_535, 1));
    assert_eq!(run(8, 9), refused(9));
    assert_eq!(run(0, 8), refused(9));
    assert_eq!(run(10, 10), accepted(0, 512));
}

#[test]
fn boards_with_more_paths_than_can_be_listed() {
    // Two rows of one numeral on every level, of which only the second has days: 2^512 paths.
    let rows: Vec<Row> = (0..1_024).map(|k| row(k / 2, k / 2 + 1, 1 - k % 2, k % 2, 1)).collect();
    assert_eq!(dated_of_all(&rows, within(0, 0), 100_000), None);
    let (mut index, mut totals, mut days) = (vec![7; 8 + 6 * 512], vec![7; 513], vec![7; 1_024]);
    let built = build_dated(&rows, within(0, 0), &mut index, &mut totals, &mut days);
    assert_eq!(built, accepted(512, 512));
    assert!(index_check(&index));
    assert!(days.iter().all(|word| *word == 0));
    for rank in 1..=512 {
        let body = Body::read(&index, rank);
        let place = rank as u32;
        assert_eq!((body.row, body.level, body.size), (2 * place - 1, place, 513 - place));
    }
    // On day 1 all have days, and they don't fit.
    let built = build_dated(&rows, within(1, 1), &mut index, &mut totals, &mut days);
    assert_eq!(built, refused(9));
    // A window in which nobody has days.
    let built = build_dated(&rows, within(2, 2), &mut index, &mut totals, &mut days);
    assert_eq!(built, accepted(0, 1_024));
    // Every level is a day shorter: 30 levels.
    let rows: Vec<Row> = (0..1_024)
        .map(|k| row(k / 2, k / 2 + 1, 0, if k % 2 == 0 { k / 2 } else { 40 }, 29))
        .collect();
    let built = build_dated(&rows, within(0, 50), &mut index, &mut totals, &mut days);
    assert_eq!(built, accepted(30, 994));
    assert_eq!(days[58..60], [29, 29]);
}

#[test]
fn longest_chain() {
    // Row k is there from day k on, up to day 2,000 − k.
    let rows: Vec<Row> = (1..=1_024).map(|k| row(k - 1, k, 0, k, 2_000 - k)).collect();
    let image = build_all(&rows, within(0, MAX));
    // The paths have days up to 1,000 rows.
    assert_eq!(image.built(), accepted(1_000, 24));
    let wanted: Vec<[u32; 9]> =
        (1..=1_000).map(|k| [k, k, 1_001 - k, k - 1, 1, k, 0, k, 2_000 - k]).collect();
    assert_eq!(image.nodes(), wanted);
    assert_eq!(build_all(&rows, within(10, 500)).built(), accepted(500, 524));
}

// Edits.

/// The refusals of an add on the board and on the machine with its rows; where both accept it, the
/// rows are the same.
fn add_both(board: &Board, row: Row) -> u32 {
    let edited = board.clone().add(row);
    if edited.refusal == 1 {
        assert_eq!(edited.board, *board);
        return 1;
    }
    let mut machine = Machine { rows: board.held().to_vec(), ..Machine::new() };
    assert_eq!(machine.add(row), edited.refusal);
    assert_eq!(edited.board.held(), machine.rows);
    assert_eq!(edited.board == *board, edited.refusal != 0);
    edited.refusal
}

#[test]
fn an_added_row_is_refused_by_1_2_20_and_3() {
    let full = board_of(&[Row::undated(0, 1, 0, 0); 1_024]);
    let some = board_of(&MARKED);
    let mut unsound = full.clone();
    unsound.rows[9].numeral = 0;
    let good = row(0, 1, 0, 5, 5);
    let late = row(0, 1, 0, 6, 5);
    let nameless = row(0, 0, 0, 5, 5);
    let both = row(0, 0, 0, 6, 5);
    let refusals = |board: &Board| [good, late, nameless, both].map(|row| add_both(board, row));
    assert_eq!(refusals(&some), [0, 20, 2, 2]);
    assert_eq!(refusals(&full), [3, 20, 2, 2]);
    assert_eq!(refusals(&unsound), [1, 1, 1, 1]);
    for (first, last, refusal) in
        [(0, 0, 0), (MAX, MAX, 0), (0, MAX, 0), (1, 0, 20), (MAX, MAX - 1, 20), (MAX, 0, 20)]
    {
        assert_eq!(add_both(&some, row(0, 1, 0, first, last)), refusal);
    }
}

#[test]
fn edits_carry_the_days() {
    let rows = [row(0, 1, 0, 3, 5), row(1, 2, 0, 5, 9), Row::undated(1, 3, 0, 1)];
    let mut machine = Machine::new();
    let mut board = Board::EMPTY;
    let mut calls: Vec<Call> = rows.iter().map(|row| Call::Add(*row)).collect();
    calls.extend([
        Call::Remark(2, -7),
        Call::Withdraw(1),
        Call::Undo,
        Call::Undo,
        Call::Redo,
        Call::Add(row(0, 4, 0, 1, 0)),
        Call::Redo,
        Call::Undo,
    ]);
    for call in calls {
        let refusal = machine.call(call);
        let edited = board.call(call);
        assert_eq!(edited.refusal, refusal);
        // The refused row leaves what is undone.
        assert_eq!(
            refusal,
            if matches!(call, Call::Add(row) if row.numeral == 4) { 20 } else { 0 }
        );
        board = edited.board;
        assert_eq!(board.held(), machine.rows);
        assert_eq!(board.machine().as_ref(), Some(&machine));
    }
    let remarked = Row { minutes: -7, ..rows[1] };
    assert_eq!(board.held(), [rows[0], remarked, rows[2]]);
    // Back to the first row and forward to the last.
    for count in [3, 2, 1] {
        board = board.undo().board;
        assert_eq!(board.held(), &rows[..count]);
    }
    for _ in 0..3 {
        board = board.redo().board;
    }
    assert_eq!(board.held(), [rows[0], remarked, rows[2]]);
    // The places of a board that nobody wrote to hold no days.
    assert_eq!(Board::EMPTY.rows[0], Row::BLANK);
    assert_eq!((Row::BLANK.first_day, Row::BLANK.last_day), (0, 0));
    assert_eq!(Row::default(), Row::BLANK);
}

/// Soundness says nothing of days, nor does an undo or a redo.
#[test]
fn steps_to_rows_whose_first_day_is_after_their_last() {
    let late = row(0, 2, 0, 6, 5);
    let mut board = board_of(&[row(0, 1, 0, 5, 5)]);
    board.journal[0] = Entry { kind: board::SET, at: 0, row: late };
    assert!(board.sound());
    let undone = board.undo();
    assert_eq!((undone.refusal, undone.board.held()), (0, &[late][..]));
    let redone = undone.board.redo();
    assert_eq!((redone.refusal, redone.board.held()), (0, &[row(0, 1, 0, 5, 5)][..]));
    let mut board = redone.board;
    board.rows[0] = late;
    let remarked = board.remark(1, 4);
    assert_eq!(remarked.board.held(), &[Row { minutes: 4, ..late }]);
    let withdrawn = remarked.board.withdraw(1).board;
    assert_eq!(withdrawn.undo().board.held(), &[Row { minutes: 4, ..late }]);
}

#[test]
fn lines_enter_rows_without_days() {
    // A line of six fields is none.
    assert_eq!(numerals(b"0 10 1 5 0 9\n"), b"bad line 1\n");
    let printed = numerals(b"0 10 1 5\n");
    assert_eq!(printed, b"rank size parent level root cycle orphan id sum\n1 1 0 1 1 0 0 10 5\n");
}

// Every small board.

/// A list of rows that the sentences make a node: its row numbers, whether it closes and its days.
#[derive(Clone, Debug)]
struct Tried {
    list: Vec<usize>,
    closing: bool,
    first: u32,
    last: u32,
}

/// "A non-empty list of rows. Its first is a start row. Each later row's parent is the numeral before
/// it. All numerals differ, except that the last may equal one earlier; then the path is closing. With
/// depth d it has at most d + 1 rows; a negative d gives no path."
fn regular(rows: &[Row], list: &[usize], asked: Asked) -> Option<bool> {
    let numeral = |place: usize| rows[list[place] - 1].numeral;
    let starts = match asked.start {
        Start::ParentZero => rows[list[0] - 1].parent == 0,
        Start::Numerals(numerals) => numerals.contains(&numeral(0)),
    };
    let linked = (1..list.len()).all(|place| rows[list[place] - 1].parent == numeral(place - 1));
    let last = list.len() - 1;
    let differ = (0..last).all(|one| (0..one).all(|other| numeral(one) != numeral(other)));
    let short = asked.depth.is_none_or(|d| d >= 0 && list.len() <= d as usize + 1);
    let closing = (0..last).any(|place| numeral(place) == numeral(last));
    (starts && linked && differ && short).then_some(closing)
}

/// The days that all rows of the list and the window have, each tried; all rows' are up to 2.
fn common_days(rows: &[Row], list: &[usize], window: Days) -> Vec<u32> {
    let has = |first: u32, last: u32, day: u32| first <= day && day <= last;
    (0..=2)
        .filter(|&day| has(window.first, window.last, day))
        .filter(|&day| list.iter().all(|&k| has(rows[k - 1].first_day, rows[k - 1].last_day, day)))
        .collect()
}

/// "A path before its extensions; else the first differing row decides by sibling order": order, then
/// numeral, then row number.
fn path_order(rows: &[Row], one: &[usize], other: &[usize]) -> Ordering {
    let key = |list: &[usize]| -> Vec<(u32, u32, usize)> {
        list.iter().map(|&k| (rows[k - 1].order, rows[k - 1].numeral, k)).collect()
    };
    key(one).cmp(&key(other))
}

/// All lists of row numbers 1 to `count` of one to `longest` rows.
fn all_lists(count: usize, longest: usize) -> Vec<Vec<usize>> {
    let mut all: Vec<Vec<usize>> = Vec::new();
    let mut last = vec![Vec::new()];
    for _ in 0..longest {
        last = last
            .iter()
            .flat_map(|list: &Vec<usize>| (1..=count).map(|k| [&list[..], &[k]].concat()))
            .collect();
        all.extend(last.iter().cloned());
    }
    all
}

/// The nodes in order, every list tried.
fn tried(rows: &[Row], lists: &[Vec<usize>], asked: Asked) -> Vec<Tried> {
    let mut found: Vec<Tried> = Vec::new();
    for list in lists {
        let Some(closing) = regular(rows, list, asked) else { continue };
        let days = common_days(rows, list, asked.window);
        if let [first, .., last] | [first @ last] = days[..] {
            found.push(Tried { list: list.clone(), closing, first, last });
        }
    }
    found.sort_by(|one, other| path_order(rows, &one.list, &other.list));
    found
}

/// The refusal of a build of these nodes, or its nodes as [`Image::nodes`] has them.
fn wanted(rows: &[Row], nodes: &[Tried], asked: Asked) -> Result<Vec<[u32; 9]>, u32> {
    let (orphan, multi, cycle) = (asked.code % 4, asked.code / 4 % 3, asked.code / 12);
    if cycle > 1 {
        return Err(6);
    }
    if asked.window.first > asked.window.last {
        return Err(20);
    }
    if orphan != 0 {
        return Err(7);
    }
    if cycle == 1 && nodes.iter().any(|node| node.closing) {
        return Err(10);
    }
    let numeral = |node: &Tried| rows[node.list[node.list.len() - 1] - 1].numeral;
    let size = |node: &Tried| {
        nodes.iter().filter(|other| other.list.starts_with(&node.list)).count() as u32
    };
    let shared =
        |node: &Tried| nodes.iter().filter(|other| numeral(other) == numeral(node)).count() > 1;
    if nodes.iter().any(|node| shared(node) && (multi == 2 || multi == 1 && size(node) > 1)) {
        return Err(11);
    }
    let rank = |list: &[usize]| {
        nodes.iter().position(|node| node.list == list).map_or(0, |place| place as u32 + 1)
    };
    let body = |node: &Tried| {
        let (last, before) = node.list.split_last().unwrap();
        let (parent, root) = (rank(before), rank(&node.list[..1]));
        let (level, closing) = (node.list.len() as u32, node.closing as u32);
        let numeral = rows[last - 1].numeral;
        [numeral, *last as u32, size(node), parent, root, level, closing, node.first, node.last]
    };
    Ok(nodes.iter().map(body).collect())
}

/// Compares one build, in slices of just the length needed and one word more, with what is wanted.
fn compare(rows: &[Row], asked: Asked, nodes: &[Tried], wanted: &Result<Vec<[u32; 9]>, u32>) {
    let n = nodes.len();
    let (mut index, mut totals, mut days) =
        (vec![7; 9 + 6 * n], vec![7; n + 2], vec![7; 2 * n + 1]);
    let built = build_dated(rows, asked, &mut index, &mut totals, &mut days);
    match wanted {
        Err(refusal) => {
            assert_eq!(built, refused(*refusal), "{rows:?} {asked:?}");
            zeroed(&index, &totals);
            assert!(days.iter().all(|word| *word == 0));
        }
        Ok(wanted) => {
            let ends = |k: &usize| wanted.iter().any(|node| node[1] as usize == *k);
            let left = rows.len() - (1..=rows.len()).filter(ends).count();
            assert_eq!(built, accepted(n as u32, left as u32), "{rows:?} {asked:?}");
            assert!(index_check(&index));
            assert_eq!((index[8 + 6 * n], totals[n + 1], days[2 * n]), (7, 7, 7));
            let image = Image { image: common::Image { built, index, totals }, days };
            assert_eq!(image.nodes(), *wanted, "{rows:?} {asked:?}");
            let minutes = |node: &[u32; 9]| rows[node[1] as usize - 1].minutes as i64;
            let mut total = 0;
            for (place, node) in wanted.iter().enumerate() {
                total += minutes(node);
                assert_eq!(image.image.totals[place + 1], total);
            }
        }
    }
}

/// The days that rows of small boards have, the last of them none.
const DAYS: [(u32, u32); 4] = [(0, 0), (0, 1), (1, 1), (1, 0)];

/// Every list of `count` rows with parents of 0 to 2, numerals 1 and 2, orders 0 and 1 and the days
/// above.
fn small_boards(count: u32) -> impl Iterator<Item = Vec<Row>> {
    let kinds = 3 * 2 * 2 * 4u32;
    let row = move |number: u32, place: u32| {
        let kind = number / kinds.pow(place) % kinds;
        let (first, last) = DAYS[(kind / 12) as usize];
        Row::undated(kind % 3, kind / 3 % 2 + 1, kind / 6 % 2, 10_i32.pow(place)).on(first, last)
    };
    (0..kinds.pow(count)).map(move |number| (0..count).map(|place| row(number, place)).collect())
}

/// The start rules, depths and codes tried on the board of a number.
fn turns(count: u32, number: usize) -> Vec<(Start<'static>, Option<i32>, &'static [u32])> {
    let starts = [ON, Start::Numerals(&[2]), Start::Numerals(&[1, 2])];
    let depths = [None, Some(1), Some(0), Some(-1)];
    match count {
        // Each start rule and depth in its turn.
        3 => {
            vec![(ON, None, &[0, 4, 8, 12]), (starts[number % 3], depths[number / 3 % 4], &[0, 20])]
        }
        _ => starts
            .into_iter()
            .flat_map(|start| depths.map(|depth| (start, depth)))
            .map(|(start, depth)| (start, depth, &[0, 4, 8, 12, 16, 20, 3, 24][..]))
            .collect(),
    }
}

#[test]
fn every_small_board() {
    // Those behind the fourth have no nodes and are tried on boards of fewer than three rows.
    let windows = [(0, 0), (1, 1), (0, 1), (0, MAX), (2, 2), (1, 0)];
    let (mut boards, mut builds, mut accepted, mut fewer) = (0, 0, 0, 0);
    let mut refusals = [0; 21];
    for count in 0..=3 {
        // Two numerals: no path has more than three rows.
        let lists = all_lists(count as usize, 3);
        let windows = if count == 3 { &windows[..4] } else { &windows };
        for (number, rows) in small_boards(count).enumerate() {
            boards += 1;
            for (start, depth, codes) in turns(count, number) {
                for &(first, last) in windows {
                    let asked = Asked { code: 0, depth, start, window: Days::new(first, last) };
                    let nodes = tried(&rows, &lists, asked);
                    let by_rows = dated_by_rows(&rows, asked, &|_| true).unwrap();
                    assert!(by_rows
                        .iter()
                        .map(|path| &path.rows)
                        .eq(nodes.iter().map(|n| &n.list)));
                    let regular = lists.iter().filter(|list| regular(&rows, list, asked).is_some());
                    fewer += (regular.count() > nodes.len()) as u32;
                    for &code in codes {
                        let asked = Asked { code, ..asked };
                        let wanted = wanted(&rows, &nodes, asked);
                        compare(&rows, asked, &nodes, &wanted);
                        builds += 1;
                        match wanted {
                            Err(refusal) => refusals[refusal as usize] += 1,
                            Ok(_) => accepted += 1,
                        }
                    }
                }
            }
        }
    }
    let seen = [6, 20, 7, 10, 11].map(|number: usize| refusals[number]);
    println!("{boards} boards, {builds} builds, {accepted} accepted");
    println!("{fewer} windows in which a regular path has no days");
    println!("refused by 6, 20, 7, 10 and 11: {seen:?}");
    assert_eq!(boards, 1 + 48 + 48 * 48 + 48 * 48 * 48);
    assert!(builds > 2_500_000 && accepted > 2_000_000 && fewer > 300_000);
    assert!(seen.iter().all(|count| *count > 10_000));
}
