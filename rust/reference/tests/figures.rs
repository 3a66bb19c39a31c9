//! Every worked figure of the scope paper: the listing, M1 to M10 and the limits.

#[path = "common/listing.rs"]
mod listing;
#[path = "common/marked.rs"]
mod marked;

use listing::LISTING;
use marked::{board_of, MARKED};
use reference::*;

const INPUT: &[u8] =
    b"0 10 1 5\n10 20 2 3\n10 30 1 4\n20 40 1 2\n30 40 1 1\n40 20 1 -1\n90 91 1 7\n";

fn marked_machine() -> Machine {
    let mut machine = Machine::new();
    for row in MARKED {
        assert_eq!(machine.add(row), 0);
    }
    machine
}

fn marked_board() -> Board {
    board_of(&MARKED)
}

struct Image {
    built: Built,
    index: Vec<u32>,
    totals: Vec<i64>,
}

fn built(code: u32, depth: Option<i32>) -> Image {
    let mut index = vec![77; 8 + 6 * 20];
    let mut totals = vec![77; 21];
    let built =
        build_board(&marked_board(), code, depth, Start::ParentZero, &mut index, &mut totals);
    Image { built, index, totals }
}

fn refused(code: u32, depth: Option<i32>, refusal: u32) {
    let image = built(code, depth);
    assert_eq!(image.built, Built { refusal, nodes: 0, left: 0 });
    assert!(image.index.iter().all(|word| *word == 0));
    assert!(image.totals.iter().all(|word| *word == 0));
}

#[test]
fn m1_listing() {
    assert_eq!(String::from_utf8(numerals(INPUT)).unwrap(), LISTING);
    // The last newline may be missing.
    assert_eq!(numerals(&INPUT[..INPUT.len() - 1]), LISTING.as_bytes());
}

/// The marked board with the order of row 2 made equal to row 3's: 20 comes before 30, in whatever
/// order the lines are, as no two rows of one parent have equal order and numeral.
#[test]
fn the_listing_with_equal_orders() {
    let mut lines: Vec<&[u8]> = INPUT.split_inclusive(|byte| *byte == b'\n').collect();
    assert_eq!(lines[1], b"10 20 2 3\n");
    lines[1] = b"10 20 1 3\n";
    let listing = "rank size parent level root cycle orphan id sum
1 8 0 1 1 0 0 10 15
2 3 1 2 1 0 0 20 4
3 2 2 3 1 0 0 40 1
4 1 3 4 1 1 0 20 -1
5 4 1 2 1 0 0 30 6
6 3 5 3 1 0 0 40 2
7 2 6 4 1 0 0 20 1
8 1 7 5 1 1 0 40 2
9 1 0 1 9 0 1 91 7
";
    for _ in 0..7 {
        lines.rotate_left(1);
        assert_eq!(String::from_utf8(numerals(&lines.concat())).unwrap(), listing);
        let reversed: Vec<&[u8]> = lines.iter().rev().copied().collect();
        assert_eq!(String::from_utf8(numerals(&reversed.concat())).unwrap(), listing);
    }
}

#[test]
fn m1_words() {
    let image = built(3, None);
    assert_eq!(image.built, Built { refusal: 0, nodes: 9, left: 0 });
    let closing = 1 << 30;
    let orphan = 1 << 31;
    let bodies = [
        [10, 1, 8, 0, 1, 1],
        [30, 3, 4, 1, 1, 2],
        [40, 5, 3, 2, 1, 3],
        [20, 6, 2, 3, 1, 4],
        [40, 4, 1, 4, 1, 5 + closing],
        [20, 2, 3, 1, 1, 2],
        [40, 4, 2, 6, 1, 3],
        [20, 6, 1, 7, 1, 4 + closing],
        [91, 7, 1, 0, 9, 1 + orphan],
    ];
    let words: Vec<u32> = bodies.concat();
    let check = words.iter().fold(0u32, |sum, word| sum.wrapping_add(*word));
    assert_eq!(image.index[..8], [9, 8, 6, check, 0, 0, 0, 0]);
    assert_eq!(image.index[8..8 + 54], words);
    assert!(image.index[8 + 54..].iter().all(|word| *word == 77));
    assert_eq!(image.totals[..10], [0, 5, 9, 10, 9, 11, 14, 16, 15, 22]);
    assert!(image.totals[10..].iter().all(|word| *word == 77));
    assert!(index_check(&image.index));
}

#[test]
fn m2_code_0() {
    let image = built(0, None);
    assert_eq!(image.built, Built { refusal: 0, nodes: 8, left: 1 });
}

#[test]
fn m3_adopt() {
    let image = built(2, None);
    assert_eq!(image.built, Built { refusal: 0, nodes: 9, left: 0 });
    let last = Body::read(&image.index, 9);
    assert_eq!((last.parent, last.level, last.root), (1, 2, 1));
    assert!(last.orphan && !last.closing);
    assert_eq!(Body::read(&image.index, 1).size, 9);
    assert!(index_check(&image.index));
}

#[test]
fn m4_depth() {
    assert_eq!(built(0, Some(0)).built, Built { refusal: 0, nodes: 1, left: 6 });
    assert_eq!(built(0, Some(-1)).built, Built { refusal: 0, nodes: 0, left: 7 });
}

#[test]
fn m5_refused_builds() {
    refused(12, None, 10);
    refused(4, None, 11);
    refused(1, None, 12);
}

#[test]
fn m6_descendants() {
    let image = built(3, None);
    let mut list = [0; 4];
    let listed = descendants(&image.index, 2, 2, 3, &mut list);
    assert_eq!(listed, Listed { refusal: 0, length: 2 });
    assert_eq!(list, [4, 5, 0, 0]);
}

#[test]
fn m7_ancestors() {
    let image = built(3, None);
    let mut list = [0; 6];
    let climbed = ancestors(&image.index, 5, -4, 0, &mut list);
    assert_eq!(climbed, Climbed { refusal: 0, length: 5, links: 4 });
    assert_eq!(list, [5, 4, 3, 2, 1, 0]);
}

#[test]
fn m8_withdraw_and_undo() {
    let mut machine = marked_machine();
    assert_eq!(machine.withdraw(2), 0);
    assert_eq!(machine.rows.len(), 6);
    assert_eq!(machine.rows[1], Row::undated(10, 30, 1, 4));
    let withdrawn = machine.rows.clone();
    assert_eq!(machine.undo(), 0);
    assert_eq!(machine.rows, MARKED);
    assert_eq!(machine.kept, marked_machine().kept);
    assert_eq!(machine.undone, [withdrawn]);

    let edited = marked_board().withdraw(2);
    assert_eq!(edited.refusal, 0);
    let edited = edited.board.undo();
    assert_eq!(edited.refusal, 0);
    assert_eq!(edited.board.held(), MARKED);
    assert_eq!(edited.board.kept_entries(), marked_board().kept_entries());
    assert_eq!(edited.board.machine(), Some(machine));
}

/// Withdraws row 2 and remarks row 1, undoes both to look at the older parts tree, and comes back.
#[test]
fn an_older_tree_is_left_again() {
    let mut board = marked_board();
    let mut machine = marked_machine();
    let mut seen = Vec::new();
    for (call, expected) in [
        (Call::Withdraw(2), 0),
        (Call::Remark(1, 50), 0),
        (Call::Undo, 0),
        (Call::Undo, 0),
        (Call::Redo, 0),
        (Call::Redo, 0),
        (Call::Redo, 17),
    ] {
        let edited = board.call(call);
        assert_eq!((edited.refusal, machine.call(call)), (expected, expected));
        board = edited.board;
        assert_eq!(board.machine(), Some(machine.clone()));
        let mut index = vec![77; 8 + 6 * 20];
        let mut totals = vec![77; 21];
        let built = build_board(&board, 3, None, Start::ParentZero, &mut index, &mut totals);
        seen.push((built.nodes, subtree_sum(&index, &totals, 1).sum));
    }
    // Without row 2 the ways over numeral 20 below the first row are gone: ranks 6 to 8.
    assert_eq!(seen, [(6, 11), (6, 56), (6, 11), (9, 15), (6, 11), (6, 56), (6, 56)]);
}

#[test]
fn m9_code_24() {
    refused(24, None, 6);
}

#[test]
fn m10_empty_board() {
    let mut index = [77; 9];
    let mut totals = [77; 2];
    for code in 0..24 {
        let built =
            build_board(&Board::EMPTY, code, None, Start::ParentZero, &mut index, &mut totals);
        assert_eq!(built, Built { refusal: 0, nodes: 0, left: 0 });
        assert_eq!(index, [0, 8, 6, 0, 0, 0, 0, 0, 77]);
        assert_eq!(totals, [0, 77]);
    }
    assert!(index_check(&index));
    assert_eq!(numerals(b""), b"rank size parent level root cycle orphan id sum\n");
}

#[test]
fn limit_of_rows() {
    let mut machine = Machine::new();
    let mut board = Board::EMPTY;
    for k in 1..=1_025 {
        let expected = if k <= 1_024 { 0 } else { 3 };
        let row = Row::undated(0, k, k, 0);
        assert_eq!(machine.add(row), expected);
        let edited = board.add(row);
        assert_eq!(edited.refusal, expected);
        board = edited.board;
    }
    assert_eq!(board.held(), machine.rows);
    assert_eq!(board.kept, machine.kept.len());
    assert_eq!(board.undone, 0);
}

#[test]
fn limit_of_kept_steps() {
    let mut machine = Machine::new();
    let mut board = Board::EMPTY;
    let mut calls = vec![Call::Add(Row::undated(0, 1, 1, 0))];
    calls.extend((1..257).map(|minutes| Call::Remark(1, minutes)));
    assert_eq!(calls.len(), 257);
    calls.extend([Call::Undo; 257]);
    for (place, call) in calls.into_iter().enumerate() {
        let expected = if place < 257 + 256 { 0 } else { 5 };
        assert_eq!(machine.call(call), expected);
        let edited = board.call(call);
        assert_eq!(edited.refusal, expected);
        board = edited.board;
        assert_eq!(board.held(), machine.rows);
        assert_eq!(board.kept, machine.kept.len());
    }
    assert_eq!(machine.rows, [Row::undated(0, 1, 1, 0)]);
}

/// 257 adds, then 256 undos and a refused one, then 256 redos and a refused one; then one step at
/// the limit each way.
#[test]
fn limit_of_undone_steps() {
    let mut machine = Machine::new();
    let mut board = Board::EMPTY;
    let rows: Vec<Row> = (1..=257).map(|k| Row::undated(0, k, k, 0)).collect();
    let mut steps: Vec<(Call, u32, usize, usize)> = Vec::new();
    for (place, row) in rows.iter().enumerate() {
        steps.push((Call::Add(*row), 0, (place + 1).min(256), 0));
    }
    steps.extend((1..=256).map(|k| (Call::Undo, 0, 256 - k, k)));
    steps.push((Call::Undo, 5, 0, 256));
    steps.extend((1..=256).map(|k| (Call::Redo, 0, k, 256 - k)));
    steps.push((Call::Redo, 17, 256, 0));
    steps.push((Call::Undo, 0, 255, 1));
    steps.push((Call::Redo, 0, 256, 0));
    for (call, expected, kept, undone) in steps {
        assert_eq!(machine.call(call), expected);
        let edited = board.call(call);
        assert_eq!(edited.refusal, expected);
        board = edited.board;
        assert_eq!((board.kept, board.undone), (kept, undone));
        assert_eq!((machine.kept.len(), machine.undone.len()), (kept, undone));
        assert_eq!(board.held(), machine.rows);
    }
    assert_eq!(machine.rows, rows);
    assert_eq!(board.machine(), Some(machine));
}

/// The plain machine with 256 lists in K and in F: one more drops the last.
#[test]
fn limits_of_the_machine() {
    let list = |k: i32| vec![Row::undated(0, 1, 1, k)];
    let machine = Machine {
        rows: list(0),
        kept: (1..=256).map(|k| list(-k)).collect(),
        undone: (1..=256).map(list).collect(),
    };
    let mut undone = machine.clone();
    assert_eq!(undone.undo(), 0);
    assert_eq!(undone.rows, list(-1));
    assert_eq!(undone.kept, (2..=256).map(|k| list(-k)).collect::<Vec<_>>());
    assert_eq!(undone.undone, (0..=255).map(list).collect::<Vec<_>>());
    let mut redone = machine.clone();
    assert_eq!(redone.redo(), 0);
    assert_eq!(redone.rows, list(1));
    assert_eq!(redone.kept, (0..=255).map(|k| list(-k)).collect::<Vec<_>>());
    assert_eq!(redone.undone, (2..=256).map(list).collect::<Vec<_>>());
    let mut edited = machine.clone();
    assert_eq!(edited.remark(1, 9), 0);
    assert_eq!(edited.rows, list(9));
    assert_eq!(edited.kept, (0..=255).map(|k| list(-k)).collect::<Vec<_>>());
    assert_eq!(edited.undone, Vec::<Vec<Row>>::new());
}

#[test]
fn slips_of_a_clerk() {
    let image = built(3, None);
    // Rank 6 is open although its numeral was met on another path.
    assert!(!Body::read(&image.index, 6).closing);
    // A shared numeral counts each time.
    let shared = (1..=9).filter(|k| Body::read(&image.index, *k).numeral == 20).count();
    assert_eq!(shared, 3);
    // The orphan root comes after the regular root.
    assert_eq!(Body::read(&image.index, 9).numeral, 91);
}
