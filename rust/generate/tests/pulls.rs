//! Pulls of one part on generated and on all small indexes: the reference against own minutes that are
//! added again; and on generated boards by all builds against the build of the remarked board.

mod common;

use common::Counts;
use generate::pulls::{self, outcome, remarks, Outcome, Outcome::*, LIMIT};
use generate::*;
use reference::*;

/// Compares the refusal and every total, those beyond included, with the outcome.
fn compare(case: &PullCase) -> Outcome {
    let outcome = outcome(case);
    let mut expected = case.totals.clone();
    if let Moved(moved) = &outcome {
        expected[..moved.len()].copy_from_slice(moved);
    }
    let mut totals = case.totals.clone();
    let refusal = pull(&case.index, &mut totals, case.row, case.difference);
    assert_eq!(refusal, outcome.refusal(), "{case:?}");
    assert_eq!(totals, expected, "{case:?}");
    outcome
}

/// Every subtree sum that is given before moves by the difference for each node of the span that ends
/// in the row, where the pull is accepted.
fn compare_sums(case: &PullCase, moved: &[i64]) {
    for rank in 1..=case.index[0] {
        let before = subtree_sum(&case.index, &case.totals, rank);
        let after = subtree_sum(&case.index, moved, rank);
        assert_eq!(after.refusal, before.refusal, "{case:?}");
        if before.refusal == 0 {
            let words = &case.index[span(&case.index, rank).words];
            let ending = words.chunks(6).filter(|body| body[1] == case.row).count();
            let by = (after.sum - before.sum) as i128;
            assert_eq!(by, case.difference as i128 * ending as i128, "{case:?} {rank}");
        }
    }
}

/// The numbers of refusals 0, 4, 13 and 15.
#[derive(Default)]
struct Seen([u32; 16]);

impl Seen {
    fn add(&mut self, outcome: &Outcome) {
        self.0[outcome.refusal() as usize] += 1;
    }

    fn expect(&self, floor: u32) {
        let [none, four, thirteen, fifteen] = [0, 4, 13, 15].map(|refusal| self.0[refusal]);
        println!("none {none}, 4 {four}, 13 {thirteen}, 15 {fifteen}");
        assert!([none, four, thirteen, fifteen].iter().all(|count| *count >= floor));
    }
}

#[test]
fn pulls_around_the_limit() {
    let mut random = Random::announced("pulls around the limit", 131);
    let mut seen = Seen::default();
    let (mut accepted, mut refused) = (Counts::new(pulls::FACTS), Counts::new(pulls::REFUSALS));
    let mut right = 0;
    for _ in 0..40_000 {
        let case = pull_case(&mut random);
        let outcome = compare(&case);
        seen.add(&outcome);
        right += index_check(&case.index) as u32;
        match &outcome {
            Moved(moved) => {
                accepted.add(pulls::facts(&case, moved));
                compare_sums(&case, moved);
            }
            _ => refused.add(pulls::refusals(&case)),
        }
    }
    println!("the check accepts {right}");
    seen.expect(1_000);
    assert!(right >= 10_000);
    accepted.expect_above(49, |_| false);
    refused.expect_above(49, |_| false);
}

#[test]
fn pulls_on_any_slices() {
    let mut random = Random::announced("pulls on any slices", 132);
    let mut seen = Seen::default();
    for _ in 0..30_000 {
        let NavigationCase { index, totals, rank, .. } = navigation_case(&mut random);
        let words = index.len();
        let row = match random.below(8) {
            0 => 0,
            1 => random.word(),
            2 => rank,
            _ if words > 9 => index[9 + 6 * random.below((words - 9).div_ceil(6))],
            _ => 1,
        };
        let difference = match random.below(4) {
            0 => pulls::any_difference(&mut random, 2),
            1 => generate::indexes::total(&mut random),
            _ => random.minutes() as i64,
        };
        seen.add(&compare(&PullCase { index, totals, row, difference }));
    }
    seen.expect(500);
}

/// Every index of up to three nodes with row numbers 0, 1, 2 and the widest; all totals at 0, at the
/// limit and one beyond it, and every row number and difference of a few.
#[test]
fn pulls_on_every_small_index() {
    const ROWS: [u32; 4] = [0, 1, 2, u32::MAX];
    const TOTALS: [i64; 5] = [0, LIMIT, LIMIT + 1, -LIMIT, -LIMIT - 1];
    const DIFFERENCES: [i64; 5] = [0, 1, -2 * LIMIT, i64::MIN, i64::MAX];
    let mut seen = Seen::default();
    for n in 0..=3u32 {
        for code in 0..4usize.pow(n) {
            let mut index = vec![n, 8, 6, 0, 0, 0, 0, 0];
            for place in 0..n {
                index.extend([1, ROWS[code / 4usize.pow(place) % 4], 1, 0, place + 1, 1]);
            }
            for code in 0..5usize.pow(n + 1) {
                let totals = (0..=n).map(|place| TOTALS[code / 5usize.pow(place) % 5]).collect();
                let mut case = PullCase { index: index.clone(), totals, row: 0, difference: 0 };
                for row in ROWS {
                    for difference in DIFFERENCES {
                        case.row = row;
                        case.difference = difference;
                        seen.add(&compare(&case));
                    }
                }
            }
        }
    }
    let [none, four, thirteen, fifteen] = [0, 4, 13, 15].map(|refusal| seen.0[refusal]);
    println!("none {none}, 4 {four}, 13 {thirteen}, 15 {fifteen}");
    // 4^n indexes with 5^(n + 1) totals, five differences and a row number of 0 or one of three others.
    let each = 5 * (5 + 4 * 25 + 16 * 125 + 64 * 625);
    assert_eq!((four, thirteen, none + fifteen), (each, 0, 3 * each));
    assert!(none > 10_000);
}

#[test]
fn pulls_near_the_limit_of_nodes() {
    let mut random = Random::announced("pulls near the limit of nodes", 133);
    let mut seen = Seen::default();
    for _ in 0..60 {
        seen.add(&compare(&large_pull_case(&mut random)));
    }
    let [none, four, thirteen, fifteen] = [0, 4, 13, 15].map(|refusal| seen.0[refusal]);
    println!("none {none}, 4 {four}, 13 {thirteen}, 15 {fifteen}");
    assert!(four == 0 && [none, thirteen, fifteen].iter().all(|count| *count >= 5));
}

/// What a build leaves: its answer, the image and the totals.
#[derive(Debug, PartialEq, Eq)]
struct Left {
    built: Built,
    index: Vec<u32>,
    totals: Vec<i64>,
}

/// Builds the rows and the remarked rows: both answers and images are the same, and a pull of the one's
/// totals gives the other's. None where the build is refused, or there is no row to remark.
fn compare_remark(
    random: &mut Random,
    rows: &[Row],
    build: impl Fn(&[Row]) -> Left,
) -> Option<(Remark, Left)> {
    let before = build(rows);
    if before.built.refusal != 0 {
        return None;
    }
    let remark = remark(random, rows)?;
    let after = build(&remark.on(rows));
    assert_eq!((after.built, &after.index), (before.built, &before.index), "{rows:?} {remark:?}");
    let Left { index, totals, .. } = &before;
    let case = PullCase {
        index: index.clone(),
        totals: totals.clone(),
        row: remark.row,
        difference: remark.difference,
    };
    let Moved(moved) = compare(&case) else {
        panic!("{rows:?} {remark:?}");
    };
    let n = before.built.nodes as usize;
    assert_eq!(moved, after.totals[..=n], "{rows:?} {remark:?}");
    assert_eq!(totals[n + 1..], after.totals[n + 1..]);
    if n <= 200 {
        compare_sums(&case, &moved);
    }
    Some((remark, before))
}

/// Builds into copies of the slices.
fn left(
    index: &[u32],
    totals: &[i64],
    build: impl FnOnce(&mut [u32], &mut [i64]) -> Built,
) -> Left {
    let (mut index, mut totals) = (index.to_vec(), totals.to_vec());
    let built = build(&mut index, &mut totals);
    Left { built, index, totals }
}

/// Compares a remark of each case, and counts what they come to; those that `left_out` names none does.
fn compare_remarks<C>(
    (name, seed, cases): (&str, u64, u32),
    case: impl Fn(&mut Random) -> C,
    rows: impl Fn(&C) -> &[Row],
    build: impl Fn(&C, &[Row]) -> Left,
    left_out: &[&str],
) {
    let mut random = Random::announced(name, seed);
    let mut counts = Counts::new(pulls::REMARKS);
    let mut accepted = 0;
    for _ in 0..cases {
        let case = case(&mut random);
        let rows = rows(&case);
        if let Some((remark, left)) = compare_remark(&mut random, rows, |rows| build(&case, rows)) {
            counts.add(remarks(&remark, rows, &left.index));
            accepted += 1;
        }
    }
    println!("{accepted} of {cases}");
    assert!(accepted > cases / 3);
    counts.expect_above(4, |name| left_out.contains(&name));
}

#[test]
fn remarks_of_builds() {
    compare_remarks(
        ("remarks of builds", 134, 4_000),
        |random| {
            if random.chance(1, 40) {
                return build_case(random);
            }
            let (shape, size) = (random.pick(&SHAPES), random.between(1, 60));
            let rows = rows(random, shape, size);
            build_case_of(random, rows)
        },
        |case| &case.rows,
        |case, rows| {
            left(&case.index, &case.totals, |index, totals| {
                build(rows, case.code, case.depth, case.start(), index, totals)
            })
        },
        &["every node ends in the row"],
    );
}

#[test]
fn remarks_of_builds_by_default_with_islands() {
    compare_remarks(
        ("remarks of builds by default", 135, 2_000),
        |random| {
            if random.chance(1, 40) {
                return default_case(random);
            }
            let shape = random.pick(&[Shape::Rings, Shape::Islands]);
            let size = random.between(1, 60);
            let rows = rows(random, shape, size);
            default_case_of(random, rows)
        },
        |case| &case.rows,
        |case, rows| {
            left(&case.index, &case.totals, |index, totals| build_default(rows, index, totals))
        },
        &["every node ends in the row", "no node ends in the row"],
    );
}

#[test]
fn remarks_of_shortest_placements() {
    compare_remarks(
        ("remarks of shortest placements", 136, 1_500),
        shortest_case,
        |case| &case.rows,
        |case, rows| {
            left(&case.index, &case.totals, |index, totals| {
                build_shortest(rows, case.start(), index, totals)
            })
        },
        // Each numeral stands once, and none closes.
        &[
            "several nodes end in the row",
            "every node ends in the row",
            "a node that closes ends in the row",
            "an orphan ends in the row",
            "an entry, of row number 0, is on the index",
            "the last total moves by more than 32 bits hold",
            "a second row of the same numeral stays",
        ],
    );
}

#[test]
fn remarks_of_dated_builds() {
    compare_remarks(
        ("remarks of dated builds", 137, 2_000),
        dated_case,
        |case| &case.rows,
        |case, rows| {
            left(&case.index, &case.totals, |index, totals| {
                let mut days = case.days.clone();
                build_dated(rows, case.asked(), index, totals, &mut days)
            })
        },
        &[
            "every node ends in the row",
            "an orphan ends in the row",
            "an entry, of row number 0, is on the index",
        ],
    );
}

/// Remarks of a board one after the other, undone and redone: a pull for each, of the totals that the
/// last one left, gives the totals of a build after all.
#[test]
fn pulls_one_after_the_other() {
    let mut random = Random::announced("pulls one after the other", 138);
    let mut seen = [0u32; 3];
    for _ in 0..400 {
        let shape = random.pick(&SHAPES);
        let size = random.between(1, 30);
        let mut machine = Machine::new();
        machine.rows = rows(&mut random, shape, size);
        let code = random.pick(&[0, 2, 3]);
        let of = |rows: &[Row]| {
            left(&[7; 8 + 6 * 500], &[7; 501], |index, totals| {
                build(rows, code, None, Start::ParentZero, index, totals)
            })
        };
        let before = of(&machine.rows);
        if before.built.refusal != 0 {
            continue;
        }
        let mut totals = before.totals;
        for _ in 0..20 {
            let old = machine.rows.clone();
            let (kind, refusal) = match random.below(4) {
                0 => (1, machine.undo()),
                1 => (2, machine.redo()),
                _ => {
                    let remark = remark(&mut random, &old).expect("a row");
                    (0, machine.remark(remark.row as usize, remark.minutes))
                }
            };
            seen[kind] += (refusal == 0) as u32;
            for (row, (old, new)) in (1..).zip(old.iter().zip(&machine.rows)) {
                let difference = new.minutes as i64 - old.minutes as i64;
                if difference != 0 {
                    assert_eq!(pull(&before.index, &mut totals, row, difference), 0);
                }
            }
        }
        let after = of(&machine.rows);
        assert_eq!((after.index, after.totals), (before.index, totals));
    }
    println!("remarks {}, undone {}, redone {}", seen[0], seen[1], seen[2]);
    assert!(seen.iter().all(|count| *count > 300));
}

/// A pull of each line of a levelled list: the totals of nodes whose minutes are those of the first
/// line that has them.
#[test]
fn pulls_of_levelled_lists() {
    let mut random = Random::announced("pulls of levelled lists", 139);
    let (mut several, mut none) = (0, 0);
    for _ in 0..1_000 {
        let (index, mut totals) = generate::indexes::built_levelled(&mut random);
        let n = index[0] as usize;
        let bodies: Vec<Body> = (1..=n).map(|rank| Body::read(&index, rank)).collect();
        let minutes: Vec<i64> = (0..=31).map(|_| random.minutes() as i64).collect();
        for (line, minutes) in (1..).zip(&minutes[1..]) {
            assert_eq!(pull(&index, &mut totals, line, *minutes), 0);
            let having = bodies.iter().filter(|body| body.row == line).count();
            several += (having > 1) as u32;
            none += (having == 0) as u32;
        }
        let mut sum = 0;
        for (body, total) in bodies.iter().zip(&totals[1..]) {
            sum += minutes[body.row as usize];
            assert_eq!(*total, sum);
        }
        assert_eq!(totals[0], 0);
    }
    println!("lines that several nodes have first {several}, none {none}");
    assert!(several > 1_000 && none > 1_000);
}
