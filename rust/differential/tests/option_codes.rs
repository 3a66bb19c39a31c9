//! What each option code means, told from outside by what builds of four small boards answer. The reference has no part
//! in it.

use flowpewter::sys::{self, Built};
use flowpewter::{
    bodies, build, build_dated, days_len, index_len, node_days, span, totals_len, Board, Cycle,
    Days, Multi, Options, Orphan, Row,
};

/// Row 3 is an orphan. No numeral stands twice. The last start row in sibling order is row 1, of rank 2.
const ORPHAN: &[Row] = &[Row::new(0, 10, 2, 5), Row::new(0, 20, 1, 3), Row::new(90, 91, 1, 7)];

/// Numeral 40 stands below 20 and below 30, each time as a leaf. No orphan, and no path closes.
const SHARED_LEAF: &[Row] = &[
    Row::new(0, 10, 1, 5),
    Row::new(10, 20, 1, 3),
    Row::new(10, 30, 2, 4),
    Row::new(20, 40, 1, 2),
    Row::new(30, 40, 1, 1),
];

/// The same with 50 below 40.
const SHARED_INNER: &[Row] = &[
    Row::new(0, 10, 1, 5),
    Row::new(10, 20, 1, 3),
    Row::new(10, 30, 2, 4),
    Row::new(20, 40, 1, 2),
    Row::new(30, 40, 1, 1),
    Row::new(40, 50, 1, 6),
];

/// The path 10, 20, 10 closes. No orphan.
const RING: &[Row] = &[Row::new(0, 10, 1, 5), Row::new(10, 20, 1, 3), Row::new(20, 10, 1, 2)];

const BOARDS: [&[Row]; 4] = [ORPHAN, SHARED_LEAF, SHARED_INNER, RING];

/// Most nodes that a build of these has.
const NODES: usize = 7;

/// What a build answers, and both slices after it.
#[derive(Clone, Copy, Debug, PartialEq, Eq)]
struct Image {
    built: Built,
    index: [u32; index_len(NODES)],
    totals: [i64; totals_len(NODES)],
}

fn accepted(nodes: u32, left: u32) -> Built {
    Built { refusal: 0, nodes, left }
}

fn refused(refusal: u32) -> Built {
    Built { refusal, nodes: 0, left: 0 }
}

fn board(rows: &[Row]) -> Board {
    let mut board = Board::EMPTY;
    for row in rows {
        board.add(*row).unwrap();
    }
    board
}

/// A build by its code.
fn by_code(rows: &[Row], code: u32) -> Image {
    let (mut index, mut totals) = ([99; index_len(NODES)], [99; totals_len(NODES)]);
    let built = sys::build(&board(rows), code, None, None, &mut index, &mut totals);
    if built.refusal != 0 {
        assert_eq!(built, refused(built.refusal), "code {code}");
        assert!(index.iter().all(|word| *word == 0), "code {code} leaves words of the index");
        assert!(totals.iter().all(|total| *total == 0), "code {code} leaves totals");
    }
    Image { built, index, totals }
}

/// A build by the safe face.
fn by_options(rows: &[Row], options: &Options) -> Image {
    let (mut index, mut totals) = ([99; index_len(NODES)], [99; totals_len(NODES)]);
    let built = match build(&board(rows), options, &mut index, &mut totals) {
        Ok(built) => accepted(built.nodes, built.left),
        Err(refusal) => refused(refusal.number()),
    };
    Image { built, index, totals }
}

/// A dated build by its code, in a window of all days, and the days after it.
fn dated_by_code(rows: &[Row], code: u32) -> (Image, [u32; days_len(NODES)]) {
    let (mut index, mut totals) = ([99; index_len(NODES)], [99; totals_len(NODES)]);
    let (mut days, board) = ([99; days_len(NODES)], board(rows));
    let window = Days::ALL;
    let built =
        sys::build_dated(&board, code, None, None, window, &mut index, &mut totals, &mut days);
    (Image { built, index, totals }, days)
}

/// A dated build by the safe face.
fn dated_by_options(rows: &[Row], options: &Options) -> (Image, [u32; days_len(NODES)]) {
    let (mut index, mut totals) = ([99; index_len(NODES)], [99; totals_len(NODES)]);
    let (mut days, board) = ([99; days_len(NODES)], board(rows));
    let built = match build_dated(&board, options, Days::ALL, &mut index, &mut totals, &mut days) {
        Ok(built) => accepted(built.nodes, built.left),
        Err(refusal) => refused(refusal.number()),
    };
    (Image { built, index, totals }, days)
}

/// A refused dated build.
fn dated_refused(refusal: u32) -> (Image, [u32; days_len(NODES)]) {
    let (index, totals) = ([0; index_len(NODES)], [0; totals_len(NODES)]);
    (Image { built: refused(refusal), index, totals }, [0; days_len(NODES)])
}

/// 0 where the orphan is left over, 1 where it is refused, 2 where it stands below the last start row, 3 where it is a
/// root.
fn orphan_seen(code: u32) -> u32 {
    let Image { built, index, .. } = by_code(ORPHAN, code);
    if built == accepted(2, 1) {
        return 0;
    }
    if built == refused(12) {
        return 1;
    }
    assert_eq!(built, accepted(3, 0), "code {code}");
    let orphan = bodies(span(&index, 3).unwrap()).next().unwrap();
    match (orphan.row, orphan.orphan, orphan.parent, orphan.level) {
        (3, true, 2, 2) => 2,
        (3, true, 0, 1) => 3,
        _ => panic!("code {code}: {orphan:?}"),
    }
}

/// 0 where a leaf's and an inner numeral may be shared, 1 where only a leaf's may, 2 where neither may.
fn multi_seen(code: u32) -> u32 {
    let answers = [SHARED_LEAF, SHARED_INNER].map(|rows| by_code(rows, code).built);
    if answers == [accepted(5, 0), accepted(7, 0)] {
        return 0;
    }
    if answers == [accepted(5, 0), refused(11)] {
        return 1;
    }
    assert_eq!(answers, [refused(11), refused(11)], "code {code}");
    2
}

/// 1 where the closing node is refused, else 0. Since it shares its numeral with an inner one, multi may then refuse it;
/// that comes after.
fn cycle_seen(code: u32) -> u32 {
    let answer = by_code(RING, code).built;
    if answer == refused(10) {
        return 1;
    }
    assert!([accepted(3, 0), refused(11)].contains(&answer), "code {code}: {answer:?}");
    0
}

#[test]
fn each_code_is_composed_of_the_choices_seen() {
    for code in 0..24 {
        let (orphan, multi, cycle) = (orphan_seen(code), multi_seen(code), cycle_seen(code));
        assert_eq!(orphan + 4 * multi + 12 * cycle, code, "{orphan} {multi} {cycle}");
    }
}

/// The words are those of the build without a window, where orphans are ignored; else it is refused, without a depth too.
#[test]
fn dated_builds_take_the_codes_under_which_orphans_are_ignored() {
    for code in 0..24 {
        for rows in BOARDS {
            let dated = dated_by_code(rows, code);
            if orphan_seen(code) != 0 {
                assert_eq!(dated, dated_refused(7), "code {code}");
                continue;
            }
            let (image, days) = dated;
            assert_eq!(image, by_code(rows, code), "code {code}");
            if image.built.refusal != 0 {
                assert_eq!(days, [0; days_len(NODES)], "code {code}");
                continue;
            }
            let of_nodes = (1..=image.built.nodes).map(|rank| node_days(&days, rank));
            assert!(of_nodes.into_iter().all(|of_node| of_node == Some(Days::ALL)), "code {code}");
            let beyond = days_len(image.built.nodes as usize);
            assert!(days[beyond..].iter().all(|word| *word == 99), "code {code}");
        }
    }
}

#[test]
fn codes_above_23_are_refused() {
    // Those of the second kind are a code of 0 to 24 but for a higher bit.
    let codes = (24..=300)
        .chain((9..32).flat_map(|bit| (0..=24).map(move |low| (1 << bit) + low)))
        .chain(u32::MAX - 23..=u32::MAX);
    for code in codes {
        for rows in BOARDS {
            assert_eq!(by_code(rows, code).built, refused(6), "code {code}");
            assert_eq!(dated_by_code(rows, code), dated_refused(6), "code {code}");
        }
    }
}

#[test]
fn options_have_the_code_under_which_their_choices_are_seen() {
    let orphans = [(0, Orphan::Ignore), (1, Orphan::Error), (2, Orphan::Adopt), (3, Orphan::Root)];
    let multis = [(0, Multi::Allow), (1, Multi::Leaves), (2, Multi::Error)];
    let cycles = [(0, Cycle::BreakUp), (1, Cycle::Error)];
    for (orphan_number, orphan) in orphans {
        for (multi_number, multi) in multis {
            for (cycle_number, cycle) in cycles {
                let options = Options { orphan, multi, cycle, ..Options::default() };
                let code = options.code();
                assert_eq!(orphan_seen(code), orphan_number, "{options:?}");
                assert_eq!(multi_seen(code), multi_number, "{options:?}");
                assert_eq!(cycle_seen(code), cycle_number, "{options:?}");
                for rows in BOARDS {
                    assert_eq!(by_options(rows, &options), by_code(rows, code), "{options:?}");
                    let dated = dated_by_options(rows, &options);
                    assert_eq!(dated, dated_by_code(rows, code), "{options:?}");
                }
            }
        }
    }
}
