//! Builds of levelled lists, and navigation of what they leave.

use crate::tally::Tally;
use crate::{baseline, navigation};
use flowpewter::sys;
use generate::levelled::{self, fitting_case, levelled_case, CELLS};
use generate::{LevelledCase, Random};
use reference::{build_levelled, Body, Built};

/// Names under which accepted builds are counted by width.
pub const WIDTHS: [&str; 8] =
    ["width 1", "width 2", "width 3", "width 4", "width 5", "width 6", "width 7", "width 8"];

/// One build on both sides, and by the baseline that the library is measured against; counts what its list comes to.
/// Answers the case with its slices as they are afterwards.
pub fn compare(case: &LevelledCase, tally: &mut Tally) -> (Built, LevelledCase) {
    let (cells, width) = (&case.cells[..], case.width);
    let mut after = case.clone();
    let expected = build_levelled(cells, width, &mut after.index, &mut after.totals);
    tally.note("build_levelled", expected.refusal);

    for build in [sys::build_levelled, baseline::build_levelled] {
        let (mut index, mut totals) = (case.index.clone(), case.totals.clone());
        let built = build(cells, width, &mut index, &mut totals);
        let answer = (built.refusal, built.nodes, built.left);
        assert_eq!(answer, (expected.refusal, expected.nodes, expected.left), "{case:?}");
        assert!(index == after.index, "another index: {width} {cells:?}");
        assert!(totals == after.totals, "other totals: {width} {cells:?}");
    }
    if expected.refusal == 0 {
        tally.reach(WIDTHS[width as usize - 1]);
        tally.reach_all(levelled::FACTS, levelled::facts(case, &after.index));
    } else {
        tally.reach_all(levelled::REFUSALS, levelled::refusals(case, expected.refusal));
    }
    (expected, after)
}

/// The index check, and every navigation call from some rank of what a build left; where columns are left out between a
/// node and its parent, also from the two.
fn navigate(random: &mut Random, built: Built, after: &LevelledCase, tally: &mut Tally) {
    let LevelledCase { index, totals, .. } = after;
    assert!(sys::index_check(index), "{after:?}");
    assert!(baseline::index_check(index), "{after:?}");
    let rank = random.between(1, built.nodes.max(1) as usize) as u32;
    navigation::from_rank(random, index, totals, rank, tally);

    let body = |rank: u32| Body::read(index, rank as usize);
    let gaps = (1..=built.nodes).filter(|rank| {
        let Body { parent, level, .. } = body(*rank);
        parent != 0 && level > body(parent).level + 1
    });
    let gaps: Vec<u32> = gaps.collect();
    if !gaps.is_empty() {
        let below = random.pick(&gaps);
        navigation::from_rank(random, index, totals, below, tally);
        navigation::from_rank(random, index, totals, body(below).parent, tally);
    }
}

/// One build of a generated list, and every navigation call on what it leaves.
pub fn cases(random: &mut Random, tally: &mut Tally) {
    let case = levelled_case(random);
    let (built, after) = compare(&case, tally);
    if built.refusal == 0 {
        navigate(random, built, &after, tally);
    }
}

/// Lists of so many lines, of each kind of cells.
pub fn lines(random: &mut Random, count: usize, width: u32, tally: &mut Tally) {
    for cells in CELLS {
        let case = fitting_case(random, cells, count, width);
        let (built, after) = compare(&case, tally);
        if built.refusal == 0 {
            navigate(random, built, &after, tally);
        } else {
            assert_eq!(built.refusal, 19);
        }
    }
}

/// Every list of up to `most` lines of the width, with cells of 0 to 2.
pub fn small(width: u32, most: u32, tally: &mut Tally) {
    for count in 0..=most {
        let places = count * width;
        for number in 0..3u32.pow(places) {
            let cells: Vec<u32> = (0..places).map(|place| number / 3u32.pow(place) % 3).collect();
            let n = levelled::node_count(&cells, width);
            let (index, totals) = (vec![7; 8 + 6 * n + 1], vec![7; n + 2]);
            let (_, after) = compare(&LevelledCase { cells, width, index, totals }, tally);
            assert!(sys::index_check(&after.index), "{after:?}");
        }
    }
}
