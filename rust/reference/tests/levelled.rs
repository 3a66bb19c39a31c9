//! Levelled lists: sorted lines, their beginnings as nodes, refusals, and navigation and the check
//! on what they build, worked out by hand.

mod common;

use common::{accepted, image_in, refused, zeroed, Image};
use reference::levelled::line_order;
use reference::*;
use std::cmp::Ordering;

/// Builds in slices for `room` nodes; all totals of an accepted build are 0.
fn build_in(cells: &[u32], width: u32, room: usize) -> Image {
    let image = image_in(room, |index, totals| build_levelled(cells, width, index, totals));
    assert!(image.totals().iter().all(|total| *total == 0));
    image
}

fn image_of<const WIDTH: usize>(lines: &[[u32; WIDTH]]) -> Image {
    build_in(&lines.concat(), WIDTH as u32, WIDTH * lines.len())
}

/// The six words of each body: numeral, row number, tree size, parent rank, root rank and the level
/// with all other bits 0.
fn bodies(image: &Image) -> Vec<[u32; 6]> {
    let words = &image.index[8..8 + 6 * image.built.nodes as usize];
    words.chunks(6).map(|body| body.try_into().unwrap()).collect()
}

fn bodies_of<const WIDTH: usize>(lines: &[[u32; WIDTH]]) -> Vec<[u32; 6]> {
    let image = image_of(lines);
    assert_eq!((image.built.refusal, image.built.left), (0, 0));
    bodies(&image)
}

fn read<const WIDTH: usize>(lines: &[[u32; WIDTH]]) -> Levelled {
    Levelled::read(&lines.concat(), WIDTH as u32).unwrap()
}

// Sorted lines.

#[test]
fn cells_smaller_first_and_blanks_last() {
    assert_eq!(line_order(&[1], &[2]), Ordering::Less);
    assert_eq!(line_order(&[2], &[1]), Ordering::Greater);
    assert_eq!(line_order(&[9], &[10]), Ordering::Less);
    assert_eq!(line_order(&[5], &[5]), Ordering::Equal);
    assert_eq!(line_order(&[0], &[0]), Ordering::Equal);
    for filled in [1, 2, 1 << 31, u32::MAX] {
        assert_eq!(line_order(&[filled], &[0]), Ordering::Less);
        assert_eq!(line_order(&[0], &[filled]), Ordering::Greater);
    }
}

#[test]
fn the_first_differing_cell_decides() {
    assert_eq!(line_order(&[1, 9, 9], &[2, 1, 1]), Ordering::Less);
    assert_eq!(line_order(&[1, 0, 1], &[1, 9, 9]), Ordering::Greater);
    assert_eq!(line_order(&[0, 1, 1], &[0, 2, 0]), Ordering::Less);
    assert_eq!(line_order(&[0, 0, 3], &[0, 0, 0]), Ordering::Less);
    assert_eq!(line_order(&[4, 0, 3], &[4, 0, 3]), Ordering::Equal);
}

#[test]
fn lines_are_sorted() {
    let list = [[0, 0], [2, 1], [0, 1], [1, 0], [10, 1], [1, 9], [u32::MAX, 5], [1, 10], [2, 1]];
    let sorted = [[1, 9], [1, 10], [1, 0], [2, 1], [2, 1], [10, 1], [u32::MAX, 5], [0, 1], [0, 0]];
    assert_eq!(read(&list).lines, sorted);
}

#[test]
fn two_columns_sorted() {
    assert_eq!(
        bodies_of(&[[2, 1], [1, 9], [1, 3], [10, 1]]),
        [
            [1, 1, 3, 0, 1, 1],
            [3, 1, 1, 1, 1, 2],
            [9, 2, 1, 1, 1, 2],
            [2, 3, 2, 0, 4, 1],
            [1, 3, 1, 4, 4, 2],
            [10, 4, 2, 0, 6, 1],
            [1, 4, 1, 6, 6, 2],
        ]
    );
}

#[test]
fn the_largest_numeral_comes_before_a_blank() {
    assert_eq!(
        bodies_of(&[[0, 5], [u32::MAX, 5], [1, 5]]),
        [
            [1, 1, 2, 0, 1, 1],
            [5, 1, 1, 1, 1, 2],
            [u32::MAX, 2, 2, 0, 3, 1],
            [5, 2, 1, 3, 3, 2],
            [5, 3, 1, 0, 5, 2],
        ]
    );
}

#[test]
fn the_order_lent_does_not_matter() {
    let lines = [[1, 2, 3], [1, 0, 3], [0, 2, 0], [0, 0, 0]];
    // Nodes 1, 1 2, 1 2 3, 1 - 3 and - 2; rows 1, 1, 1, 2, 3.
    let wanted = [
        [1, 1, 4, 0, 1, 1],
        [2, 1, 2, 1, 1, 2],
        [3, 1, 1, 2, 1, 3],
        [3, 2, 1, 1, 1, 3],
        [2, 3, 1, 0, 5, 2],
    ];
    for code in 0..256 {
        let places = [code % 4, code / 4 % 4, code / 16 % 4, code / 64];
        if (0..4).all(|place| places.contains(&place)) {
            let image = image_of(&places.map(|place| lines[place]));
            assert_eq!(image.built, accepted(5, 1));
            assert_eq!(bodies(&image), wanted);
        }
    }
}

// Beginnings.

#[test]
fn one_line_of_one_cell() {
    let image = image_of(&[[7]]);
    assert_eq!(image.built, accepted(1, 0));
    // 7 + 1 + 1 + 0 + 1 + 1.
    assert_eq!(image.index[..8], [1, 8, 6, 11, 0, 0, 0, 0]);
    assert_eq!(bodies(&image), [[7, 1, 1, 0, 1, 1]]);
    assert_eq!(image.totals[..2], [0, 0]);
}

#[test]
fn a_line_of_eight_cells() {
    let image = image_of(&[[8, 7, 6, 5, 4, 3, 2, 1]]);
    assert_eq!(image.built, accepted(8, 0));
    assert_eq!(
        bodies(&image),
        [
            [8, 1, 8, 0, 1, 1],
            [7, 1, 7, 1, 1, 2],
            [6, 1, 6, 2, 1, 3],
            [5, 1, 5, 3, 1, 4],
            [4, 1, 4, 4, 1, 5],
            [3, 1, 3, 5, 1, 6],
            [2, 1, 2, 6, 1, 7],
            [1, 1, 1, 7, 1, 8],
        ]
    );
    // Numerals 36, rows 8, sizes 36, parents 28, roots 8, levels 36.
    assert_eq!(image.index[3], 152);
}

#[test]
fn a_numeral_in_several_columns() {
    assert_eq!(
        bodies_of(&[[5, 5, 5]]),
        [[5, 1, 3, 0, 1, 1], [5, 1, 2, 1, 1, 2], [5, 1, 1, 2, 1, 3]]
    );
}

#[test]
fn blanks_behind() {
    // Sorted 1 2 3, 1 2 -, 1 - -: the last two have no beginning that the first has not.
    assert_eq!(
        bodies_of(&[[1, 0, 0], [1, 2, 0], [1, 2, 3]]),
        [[1, 1, 3, 0, 1, 1], [2, 1, 2, 1, 1, 2], [3, 1, 1, 2, 1, 3]]
    );
    // By itself 1 - - is one node and not three.
    assert_eq!(bodies_of(&[[1, 0, 0]]), [[1, 1, 1, 0, 1, 1]]);
}

#[test]
fn blanks_in_front() {
    // Roots on levels 1, 2 and 3.
    assert_eq!(
        bodies_of(&[[0, 0, 4], [0, 2, 4], [1, 2, 4]]),
        [
            [1, 1, 3, 0, 1, 1],
            [2, 1, 2, 1, 1, 2],
            [4, 1, 1, 2, 1, 3],
            [2, 2, 2, 0, 4, 2],
            [4, 2, 1, 4, 4, 3],
            [4, 3, 1, 0, 6, 3],
        ]
    );
    assert_eq!(bodies_of(&[[0, 0, 0, 0, 0, 0, 0, 9]]), [[9, 1, 1, 0, 1, 8]]);
}

#[test]
fn blanks_between() {
    // Parents over a blank; levels skip.
    assert_eq!(
        bodies_of(&[[1, 0, 3, 0, 5], [1, 2, 3, 0, 5]]),
        [
            [1, 1, 6, 0, 1, 1],
            [2, 1, 3, 1, 1, 2],
            [3, 1, 2, 2, 1, 3],
            [5, 1, 1, 3, 1, 5],
            [3, 2, 2, 1, 1, 3],
            [5, 2, 1, 5, 1, 5],
        ]
    );
    // Over six blanks.
    assert_eq!(bodies_of(&[[4, 0, 0, 0, 0, 0, 0, 4]]), [[4, 1, 2, 0, 1, 1], [4, 1, 1, 1, 1, 8]]);
}

#[test]
fn blanks_in_front_between_and_behind() {
    assert_eq!(
        bodies_of(&[[0, 6, 0, 0, 3, 0, 8, 0]]),
        [[6, 1, 3, 0, 1, 2], [3, 1, 2, 1, 1, 5], [8, 1, 1, 2, 1, 7]]
    );
}

#[test]
fn beginnings_that_differ_by_a_blank_alone() {
    // Sorted 1 5 5, 1 5 -, 1 - 5. The first has 1 5 before the second; 1 - 5 is no 1 5.
    let list = [[1, 0, 5], [1, 5, 0], [1, 5, 5]];
    assert_eq!(
        bodies_of(&list),
        [[1, 1, 4, 0, 1, 1], [5, 1, 2, 1, 1, 2], [5, 1, 1, 2, 1, 3], [5, 3, 1, 1, 1, 3]]
    );
    let node = |beginning: &[u32], row| LevelledNode { beginning: beginning.to_vec(), row };
    let nodes = [node(&[1], 1), node(&[1, 5], 1), node(&[1, 5, 5], 1), node(&[1, 0, 5], 3)];
    assert_eq!(read(&list).nodes, nodes);
}

#[test]
fn a_shared_cell_below_different_beginnings() {
    // 3 in the third column below 1 2, below 1 -, below - 2 and below - -: four nodes.
    assert_eq!(
        bodies_of(&[[0, 0, 3], [0, 2, 3], [1, 0, 3], [1, 2, 3]]),
        [
            [1, 1, 4, 0, 1, 1],
            [2, 1, 2, 1, 1, 2],
            [3, 1, 1, 2, 1, 3],
            [3, 2, 1, 1, 1, 3],
            [2, 3, 2, 0, 5, 2],
            [3, 3, 1, 5, 5, 3],
            [3, 4, 1, 0, 7, 3],
        ]
    );
}

#[test]
fn ranks_follow_the_first_line_and_not_the_level() {
    // Sorted 1 2 6 -, 1 2 - 7, 1 3 - -, 1 - - 4, 2 - - -.
    assert_eq!(
        bodies_of(&[[2, 0, 0, 0], [1, 0, 0, 4], [1, 3, 0, 0], [1, 2, 0, 7], [1, 2, 6, 0]]),
        [
            [1, 1, 6, 0, 1, 1],
            [2, 1, 3, 1, 1, 2],
            [6, 1, 1, 2, 1, 3],
            [7, 2, 1, 2, 1, 4],
            [3, 3, 1, 1, 1, 2],
            [4, 4, 1, 1, 1, 4],
            [2, 5, 1, 0, 7, 1],
        ]
    );
}

#[test]
fn equal_lines_have_places_of_their_own() {
    // Sorted three times 1 2, then twice 3 4: nodes of lines 1 and 4.
    let list = [[3, 4], [1, 2], [3, 4], [1, 2], [1, 2]];
    assert_eq!(
        bodies_of(&list),
        [[1, 1, 2, 0, 1, 1], [2, 1, 1, 1, 1, 2], [3, 4, 2, 0, 3, 1], [4, 4, 1, 3, 3, 2]]
    );
    assert_eq!(read(&list).lines, [[1, 2], [1, 2], [1, 2], [3, 4], [3, 4]]);
}

#[test]
fn lines_wholly_blank() {
    let list = [[0, 0], [5, 0], [0, 0], [0, 6], [0, 0]];
    let image = image_of(&list);
    assert_eq!(image.built, accepted(2, 3));
    assert_eq!(bodies(&image), [[5, 1, 1, 0, 1, 1], [6, 2, 1, 0, 2, 2]]);
    let levelled = read(&list);
    assert_eq!(levelled.lines, [[5, 0], [0, 6], [0, 0], [0, 0], [0, 0]]);
    assert_eq!(levelled.blank_lines, 3);

    let image = image_of(&[[0, 0, 0], [0, 0, 0]]);
    assert_eq!(image.built, accepted(0, 2));
    assert_eq!(image.index[..8], [0, 8, 6, 0, 0, 0, 0, 0]);
}

#[test]
fn the_check_word_wraps() {
    // Numerals 2^33 − 3, rows 3, sizes 2, parents 0, roots 3, levels 2.
    assert_eq!(image_of(&[[u32::MAX], [u32::MAX - 1]]).index[3], 7);
}

// Refusals.

#[test]
fn widths_that_are_refused() {
    for width in [0, 9, 10, 16, 256, 1 << 31, u32::MAX] {
        for length in [0, 1, 8, 9, 16, 18, 72] {
            assert_eq!(
                build_in(&vec![1; length], width, 90).built,
                refused(18),
                "{width} {length}"
            );
        }
        assert_eq!(Levelled::read(&[], width), Err(18));
    }
    for width in 1..=8 {
        let cells: Vec<u32> = (1..=width).collect();
        assert_eq!(build_in(&cells, width, 8).built, accepted(width, 0));
    }
}

#[test]
fn slices_that_are_not_whole_lines() {
    for width in 1..=8 {
        for length in 0..=3 * width {
            // Every line is 1, 1 and so on, so that the nodes are those of the first.
            let built = build_in(&vec![1; length as usize], width, 8).built;
            let wanted = match (length % width, length) {
                (0, 0) => accepted(0, 0),
                (0, _) => accepted(width, 0),
                _ => refused(18),
            };
            assert_eq!(built, wanted, "{width} {length}");
        }
    }
    // A cell too few and one too many, blank ones too.
    assert_eq!(build_in(&[0; 4], 5, 8).built, refused(18));
    assert_eq!(build_in(&[0; 6], 5, 8).built, refused(18));
    assert_eq!(build_in(&[0; 5], 5, 8).built, accepted(0, 1));
}

#[test]
fn lines_up_to_512() {
    for width in 1..=8 {
        let cells = |lines: usize, cell: u32| vec![cell; lines * width as usize];
        // Equal lines and blank ones count as well.
        assert_eq!(build_in(&cells(512, 3), width, 8).built, accepted(width, 0));
        assert_eq!(build_in(&cells(512, 0), width, 8).built, accepted(0, 512));
        for lines in [513, 514, 1_024, 5_000] {
            assert_eq!(build_in(&cells(lines, 3), width, 8).built, refused(19));
            assert_eq!(build_in(&cells(lines, 0), width, 8).built, refused(19));
        }
    }
}

#[test]
fn lines_512_of_8_different_nodes_each() {
    // Lines k, k and so on, the last first.
    let mut cells: Vec<u32> = Vec::new();
    for k in (1..=512).rev() {
        cells.extend([k; 8]);
    }
    let n = 4_096;
    let (mut index, mut totals) = (vec![77; 8 + 6 * n], vec![77; n + 1]);
    assert_eq!(build_levelled(&cells, 8, &mut index, &mut totals), accepted(4_096, 0));
    assert!(index_check(&index));
    assert_eq!(totals, vec![0; n + 1]);
    for k in 1..=512 {
        let root = 8 * k - 7;
        for level in 1..=8 {
            let rank = 8 * (k - 1) + level;
            let parent = if level == 1 { 0 } else { rank - 1 };
            let at = 8 + 6 * (rank as usize - 1);
            assert_eq!(index[at..at + 6], [k, k, 9 - level, parent, root, level]);
        }
    }

    for (words, numbers) in [(8 + 6 * n - 1, n + 1), (8 + 6 * n, n), (0, 0)] {
        let (mut index, mut totals) = (vec![77; words], vec![77; numbers]);
        assert_eq!(build_levelled(&cells, 8, &mut index, &mut totals), refused(9));
        zeroed(&index, &totals);
    }
    cells.extend([0; 8]);
    assert_eq!(build_in(&cells, 8, n).built, refused(19));
}

#[test]
fn exact_and_short_slices() {
    // Three nodes: 1, 1 2 and - 2; one blank line.
    let cells = [1, 2, 0, 2, 0, 0];
    let attempt = |words: usize, numbers: usize| {
        let (mut index, mut totals) = (vec![77; words], vec![77; numbers]);
        let built = build_levelled(&cells, 2, &mut index, &mut totals);
        if built.refusal != 0 {
            zeroed(&index, &totals);
        }
        built
    };
    for (words, numbers) in [(26, 4), (27, 4), (26, 5), (100, 100)] {
        assert_eq!(attempt(words, numbers), accepted(3, 1));
    }
    for (words, numbers) in [(25, 4), (26, 3), (8, 4), (7, 4), (0, 4), (26, 1), (26, 0), (0, 0)] {
        assert_eq!(attempt(words, numbers), refused(9), "{words} {numbers}");
    }
}

#[test]
fn no_cells_at_all() {
    for width in 1..=8 {
        let (mut index, mut totals) = ([77; 8], [77; 1]);
        assert_eq!(build_levelled(&[], width, &mut index, &mut totals), accepted(0, 0));
        assert_eq!((index, totals), ([0, 8, 6, 0, 0, 0, 0, 0], [0]));
        assert!(index_check(&index));

        let (mut index, mut totals) = ([77; 7], [77; 1]);
        assert_eq!(build_levelled(&[], width, &mut index, &mut totals), refused(9));
        assert_eq!((index, totals), ([0; 7], [0]));

        let mut index = [77; 8];
        assert_eq!(build_levelled(&[], width, &mut index, &mut []), refused(9));
        assert_eq!(index, [0; 8]);
    }
    assert_eq!(build_levelled(&[], 0, &mut [], &mut []), refused(18));
}

#[test]
fn refusals_in_order() {
    // 18 and 19: widths 0 and 9, and a cell too many, each on more than 512 lines.
    assert_eq!(build_in(&[1; 5_000], 0, 8).built, refused(18));
    assert_eq!(build_in(&[1; 9 * 513], 9, 8).built, refused(18));
    assert_eq!(build_in(&[1; 8 * 513 + 1], 8, 8).built, refused(18));
    assert_eq!(build_in(&[1; 2 * 513 + 1], 2, 8).built, refused(18));
    // 512 lines and a part of the next.
    assert_eq!(build_in(&[1; 2 * 512 + 1], 2, 8).built, refused(18));
    // 18 and 9.
    assert_eq!(build_levelled(&[1, 2], 0, &mut [], &mut []), refused(18));
    assert_eq!(build_levelled(&[1, 2, 3], 2, &mut [], &mut []), refused(18));
    // 19 and 9.
    let (mut index, mut totals) = ([77; 7], [77; 3]);
    assert_eq!(build_levelled(&[1; 513], 1, &mut index, &mut totals), refused(19));
    assert_eq!((index, totals), ([0; 7], [0; 3]));
    assert_eq!(build_levelled(&[0; 513], 1, &mut [], &mut []), refused(19));
    // All three.
    assert_eq!(build_levelled(&[1; 9 * 513], 9, &mut [], &mut []), refused(18));
    // 9 alone.
    assert_eq!(build_levelled(&[1; 512], 1, &mut [], &mut []), refused(9));
}

// Navigation and the check.

/// Sorted as written. Nodes: 1, 1 2, 1 2 - 4, 1 - 3, 1 - 3 4, 1 - 3 5, - 2, - 2 - 4.
const SKIPPING: [[u32; 4]; 4] = [[1, 2, 0, 4], [1, 0, 3, 4], [1, 0, 3, 5], [0, 2, 0, 4]];

#[test]
fn bodies_of_the_skipping_list() {
    assert_eq!(
        bodies_of(&SKIPPING),
        [
            [1, 1, 6, 0, 1, 1],
            [2, 1, 2, 1, 1, 2],
            [4, 1, 1, 2, 1, 4],
            [3, 2, 3, 1, 1, 3],
            [4, 2, 1, 4, 1, 4],
            [5, 3, 1, 4, 1, 4],
            [2, 4, 2, 0, 7, 2],
            [4, 4, 1, 7, 7, 4],
        ]
    );
}

#[test]
fn descendants_by_column() {
    let image = image_of(&SKIPPING);
    let found = |rank: u32, lower: i32, upper: i32| {
        let mut list = [0; 8];
        let listed = descendants(&image.index, rank, lower, upper, &mut list);
        assert_eq!(listed.refusal, 0);
        list[..listed.length as usize].to_vec()
    };
    assert_eq!(found(1, i32::MIN, i32::MAX), [1, 2, 3, 4, 5, 6]);
    assert_eq!(found(1, 0, 0), [1]);
    assert_eq!(found(1, 1, 1), [2]);
    assert_eq!(found(1, 2, 2), [4]);
    assert_eq!(found(1, 3, 3), [3, 5, 6]);
    assert_eq!(found(1, 1, 2), [2, 4]);
    assert_eq!(found(1, 4, i32::MAX), []);
    // 1 2 - 4 is the child of 1 2 but two columns below it.
    assert_eq!(found(2, 1, 1), []);
    assert_eq!(found(2, 2, 2), [3]);
    assert_eq!(found(4, 1, 1), [5, 6]);
    assert_eq!(found(7, 0, 1), [7]);
    assert_eq!(found(7, 2, 2), [8]);
}

#[test]
fn links_are_shorter_beginnings_that_are_nodes() {
    let image = image_of(&SKIPPING);
    let found = |rank: u32, lower: i32, upper: i32| {
        let mut list = [0; 8];
        let climbed = ancestors(&image.index, rank, lower, upper, &mut list);
        assert_eq!(climbed.refusal, 0);
        (list[..climbed.length as usize].to_vec(), climbed.links)
    };
    let all = |rank: u32| found(rank, i32::MIN, i32::MAX);
    assert_eq!(all(1), (vec![1], 0));
    assert_eq!(all(2), (vec![2, 1], 1));
    // Levels 4, 2 and 1.
    assert_eq!(all(3), (vec![3, 2, 1], 2));
    // Level 3, and 1 - isn't a node.
    assert_eq!(all(4), (vec![4, 1], 1));
    assert_eq!(all(5), (vec![5, 4, 1], 2));
    assert_eq!(all(6), (vec![6, 4, 1], 2));
    // A root on level 2.
    assert_eq!(all(7), (vec![7], 0));
    assert_eq!(all(8), (vec![8, 7], 1));
    // Distances of the climb from rank 5 are 0, −1 and −3; the links don't depend on the limits.
    assert_eq!(found(5, -1, 0), (vec![5, 4], 2));
    assert_eq!(found(5, -2, -2), (vec![], 2));
    assert_eq!(found(5, -3, -3), (vec![1], 2));
    assert_eq!(found(5, -3, -1), (vec![4, 1], 2));
}

#[test]
fn siblings_on_different_levels() {
    let image = image_of(&SKIPPING);
    let found = |rank: u32| {
        let mut list = [0; 8];
        let listed = siblings(&image.index, rank, &mut list);
        assert_eq!(listed.refusal, 0);
        list[..listed.length as usize].to_vec()
    };
    assert_eq!(found(1), [1, 7]);
    assert_eq!(found(7), [1, 7]);
    assert_eq!(found(2), [2, 4]);
    assert_eq!(found(4), [2, 4]);
    assert_eq!(found(3), [3]);
    assert_eq!(found(5), [5, 6]);
    assert_eq!(found(8), [8]);
}

#[test]
fn spans_and_sums() {
    let image = image_of(&SKIPPING);
    assert_eq!(span(&image.index, 1), Spanned { refusal: 0, words: 8..44 });
    assert_eq!(span(&image.index, 4), Spanned { refusal: 0, words: 26..44 });
    assert_eq!(span(&image.index, 8), Spanned { refusal: 0, words: 50..56 });
    assert_eq!(span(&image.index, 9), Spanned { refusal: 14, words: 0..0 });
    for rank in 1..=8 {
        let none = Summed { refusal: 0, sum: 0 };
        assert_eq!(subtree_sum(&image.index, &image.totals, rank), none);
        assert_eq!(path_sum(&image.index, &image.totals, rank), none);
    }
}

#[test]
fn check_of_levels_that_skip() {
    let image = image_of(&SKIPPING);
    let with_level = |rank: usize, level: u32| {
        let mut index = image.index.clone();
        let at = 8 + 6 * (rank - 1) + 5;
        // No sum wraps in this image.
        index[3] = index[3] - index[at] + level;
        index[at] = level;
        index_check(&index)
    };
    for (rank, lowest, highest) in [
        // A root above children on 2 and 3, a node above a child on 4 alone, leaves.
        (1, 1, 1),
        (2, 2, 3),
        (3, 3, 65_535),
        (4, 2, 3),
        (5, 4, 65_535),
        (6, 4, 65_535),
        (7, 1, 3),
        (8, 3, 65_535),
    ] {
        for level in 0..=65_536 {
            let fits = lowest <= level && level <= highest;
            assert_eq!(with_level(rank, level), fits, "level {level} of rank {rank}");
        }
    }
}

// Every small list, by another way: column after column instead of line after line.

/// What `lines` have from column `column` on, below `parent`: one group for each cell, smaller
/// first and blanks last. A filled cell is a node over its group, a blank one leads on to the next
/// column with the same parent. `before` lines are sorted before these.
fn by_columns(
    lines: &[Vec<u32>],
    column: usize,
    parent: u32,
    root: u32,
    before: usize,
    found: &mut Vec<[u32; 6]>,
) {
    if lines.is_empty() || column == lines[0].len() {
        return;
    }
    let mut before = before;
    for cell in (1..=SMALL).chain([0]) {
        let group: Vec<Vec<u32>> =
            lines.iter().filter(|line| line[column] == cell).cloned().collect();
        if cell == 0 || group.is_empty() {
            by_columns(&group, column + 1, parent, root, before, found);
        } else {
            let rank = found.len() as u32 + 1;
            let root = if parent == 0 { rank } else { root };
            found.push([cell, before as u32 + 1, 0, parent, root, column as u32 + 1]);
            by_columns(&group, column + 1, rank, root, before, found);
            found[rank as usize - 1][2] = found.len() as u32 - rank + 1;
        }
        before += group.len();
    }
}

/// The largest cell of the small lists.
const SMALL: u32 = 2;

#[test]
fn every_small_list() {
    let mut lists = 0;
    for (width, most) in [(1, 5), (2, 4), (3, 3)] {
        for length in 0..=most {
            let cells = width * length;
            for code in 0..(SMALL + 1).pow(cells as u32) {
                let digit = |place: usize| code / (SMALL + 1).pow(place as u32) % (SMALL + 1);
                let cells: Vec<u32> = (0..cells).map(digit).collect();
                let lines: Vec<Vec<u32>> = cells.chunks(width).map(|line| line.to_vec()).collect();
                let mut wanted = Vec::new();
                by_columns(&lines, 0, 0, 0, 0, &mut wanted);
                let blank = lines.iter().filter(|line| line.iter().sum::<u32>() == 0).count();

                let image = build_in(&cells, width as u32, cells.len());
                assert_eq!(image.built, accepted(wanted.len() as u32, blank as u32));
                assert_eq!(bodies(&image), wanted, "{lines:?}");
                lists += 1;
            }
        }
    }
    // 1 + 3 + … + 3^5, 1 + 9 + … + 9^4, 1 + 27 + 27^2 + 27^3.
    assert_eq!(lists, 364 + 7_381 + 20_440);
}

// The guide's tables.

/// T_DEMO_LVL: level_1, level_2, attr_2, level_3, level_4, attr_4, with `-` for NULL.
const T_DEMO_LVL: [&str; 4] =
    ["L1 M1 1 N1 O1 10", "L1 M1 2 - O2 20", "L1 M2 3 - - -", "L1 - - N2 O3 30"];

/// A letter and a digit become the letter's place, from 0, times 100 plus the digit, so that numbers sort as
/// the texts do and differ from those of the number columns, which stay. A NULL is blank.
fn number(text: &str) -> u32 {
    match text.as_bytes() {
        [b'-'] => 0,
        [letter @ b'A'..=b'Z', digit] => (letter - b'A') as u32 * 100 + (digit - b'0') as u32,
        _ => text.parse().unwrap(),
    }
}

/// The given columns of T_DEMO_LVL as cells.
fn t_demo_lvl(columns: &[usize]) -> Vec<u32> {
    let mut cells = Vec::new();
    for line in T_DEMO_LVL {
        let fields: Vec<&str> = line.split(' ').collect();
        cells.extend(columns.iter().map(|column| number(fields[*column])));
    }
    cells
}

/// Compares with a printed table: rank, tree size, parent rank, level, parent id, node id, then the
/// beginning, with `-` for what is blank. All lines are of the tree of L1, so that all root ranks are 1.
fn compare(columns: &[usize], printed: &str) {
    let width = columns.len();
    let cells = t_demo_lvl(columns);
    let image = build_in(&cells, width as u32, 24);
    let nodes = Levelled::read(&cells, width as u32).unwrap().nodes;
    let table: Vec<Vec<&str>> =
        printed.trim().lines().map(|line| line.split_whitespace().collect()).collect();
    assert_eq!(image.built, accepted(table.len() as u32, 0));
    for (place, fields) in table.iter().enumerate() {
        assert_eq!(fields.len(), 6 + width);
        let body = Body::read(&image.index, place + 1);
        let figures: Vec<u32> = fields[..4].iter().map(|field| field.parse().unwrap()).collect();
        assert_eq!(figures, [place as u32 + 1, body.size, body.parent, body.level]);
        let parent_numeral = match body.parent {
            0 => 0,
            parent => Body::read(&image.index, parent as usize).numeral,
        };
        assert_eq!([number(fields[4]), number(fields[5])], [parent_numeral, body.numeral]);
        assert_eq!((body.root, body.closing, body.orphan), (1, false, false));

        let mut beginning = nodes[place].beginning.clone();
        beginning.resize(width, 0);
        let cells: Vec<u32> = fields[6..].iter().map(|field| number(field)).collect();
        assert_eq!(cells, beginning, "rank {}", place + 1);
    }
}

#[test]
fn the_guides_table_of_all_columns() {
    compare(
        &[0, 1, 2, 3, 4, 5],
        "
         1 14  0 1 -  L1 L1 -  - -  -  -
         2  8  1 2 L1 M1 L1 M1 - -  -  -
         3  4  2 3 M1 1  L1 M1 1 -  -  -
         4  3  3 4 1  N1 L1 M1 1 N1 -  -
         5  2  4 5 N1 O1 L1 M1 1 N1 O1 -
         6  1  5 6 O1 10 L1 M1 1 N1 O1 10
         7  3  2 3 M1 2  L1 M1 2 -  -  -
         8  2  7 5 2  O2 L1 M1 2 -  O2 -
         9  1  8 6 O2 20 L1 M1 2 -  O2 20
        10  2  1 2 L1 M2 L1 M2 - -  -  -
        11  1 10 3 M2 3  L1 M2 3 -  -  -
        12  3  1 4 L1 N2 L1 -  - N2 -  -
        13  2 12 5 N2 O3 L1 -  - N2 O3 -
        14  1 13 6 O3 30 L1 -  - N2 O3 30",
    );
}

#[test]
fn the_guides_table_of_the_level_columns() {
    // LEVELS leaves out the number columns, which the request doesn't have. The guide prints no L1
    // as first level of rank 1, and does for all below it; it is put in here.
    compare(
        &[0, 1, 3, 4],
        "
        1 8 0 1 -  L1 L1 -  -  -
        2 4 1 2 L1 M1 L1 M1 -  -
        3 2 2 3 M1 N1 L1 M1 N1 -
        4 1 3 4 N1 O1 L1 M1 N1 O1
        5 1 2 4 M1 O2 L1 M1 -  O2
        6 1 1 2 L1 M2 L1 M2 -  -
        7 2 1 3 L1 N2 L1 -  N2 -
        8 1 7 4 N2 O3 L1 -  N2 O3",
    );
}

#[test]
fn row_numbers_of_the_guides_lines() {
    // The guide prints none. Its lines are sorted as inserted, here lent the last first.
    let cells: Vec<u32> =
        t_demo_lvl(&[0, 1, 3, 4]).chunks(4).rev().flat_map(|line| line.to_vec()).collect();
    let image = build_in(&cells, 4, 8);
    let rows: Vec<u32> = bodies(&image).iter().map(|body| body[1]).collect();
    assert_eq!(rows, [1, 1, 1, 1, 2, 3, 4, 4]);
}
