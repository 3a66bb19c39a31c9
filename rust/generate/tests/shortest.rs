//! Shortest placement over generated boards: the kept paths by all regular paths, by length, and
//! one by one from what is still to go.

mod common;

use common::Counts;
use generate::builds::{size, start, start_of};
use generate::*;
use reference::forest::{forest, sibling_order};
use reference::shortest::{kept_by_length, kept_of_all};
use reference::*;
use std::collections::HashMap;

fn numeral(rows: &[Row], k: usize) -> u32 {
    rows[k - 1].numeral
}

fn last(path: &Node) -> usize {
    path.rows[path.rows.len() - 1]
}

/// The kept path to a numeral, row by row: each is the first in sibling order of those from which
/// fewest rows are still to go. None if no start row leads there.
fn stepwise(rows: &[Row], start: Start, target: u32) -> Option<Vec<usize>> {
    // Rows still to go from a numeral, by trying all rows until nothing changes.
    let mut to_go: HashMap<u32, usize> = HashMap::from([(target, 0)]);
    loop {
        let before = to_go.clone();
        for row in rows {
            if let Some(rest) = to_go.get(&row.numeral).copied() {
                let over_this_row = to_go.entry(row.parent).or_insert(rest + 1);
                *over_this_row = (*over_this_row).min(rest + 1);
            }
        }
        if to_go == before {
            break;
        }
    }
    let first = |takes: &dyn Fn(&Row) -> bool| {
        let rest = |k: usize| to_go.get(&numeral(rows, k)).copied();
        let numbers = (1..=rows.len()).filter(|k| takes(&rows[k - 1]) && rest(*k).is_some());
        numbers.min_by(|&a, &b| rest(a).cmp(&rest(b)).then(sibling_order(rows, a, b)))
    };
    let mut path = vec![first(&|row| start.takes(row))?];
    while numeral(rows, path[path.len() - 1]) != target {
        let above = numeral(rows, path[path.len() - 1]);
        path.push(first(&|row| row.parent == above).expect("a row leads on"));
    }
    Some(path)
}

/// What boards come to, by name.
const FACTS: [&str; 9] = [
    "a shorter path comes later",
    "paths of equal length",
    "paths of equal length from several roots",
    "a start row below a kept numeral",
    "several start rows of a numeral",
    "a path closes",
    "a reached row is left over",
    "an unreached row is left over",
    "several roots",
];

/// Which of [`FACTS`] a board has, by all its regular paths, in path order.
fn facts(rows: &[Row], start: Start, paths: &[Node], kept: &[Node]) -> [bool; FACTS.len()] {
    let to = |path: &Node| {
        let target = numeral(rows, last(path));
        paths.iter().filter(move |other| numeral(rows, last(other)) == target)
    };
    let rival =
        |path: &Node, other: &Node| other.rows != path.rows && other.rows.len() == path.rows.len();
    let starts = |k: usize| start.takes(&rows[k - 1]);
    let ends = |paths: &[Node], k: usize| paths.iter().any(|path| last(path) == k);
    let any = |test: &dyn Fn(&Node) -> bool| kept.iter().any(test);
    let any_row = |test: &dyn Fn(usize) -> bool| (1..=rows.len()).any(test);
    [
        any(&|path| to(path).next().is_some_and(|first| first.rows != path.rows)),
        any(&|path| to(path).any(|other| rival(path, other))),
        any(&|path| to(path).any(|other| rival(path, other) && other.rows[0] != path.rows[0])),
        any_row(&|k| starts(k) && any(&|path| numeral(rows, last(path)) == rows[k - 1].parent)),
        any(&|path| {
            let same = |k: &usize| starts(*k) && numeral(rows, *k) == numeral(rows, last(path));
            (1..=rows.len()).filter(same).count() > 1
        }),
        paths.iter().any(|path| path.closing),
        any_row(&|k| ends(paths, k) && !ends(kept, k)),
        any_row(&|k| !ends(paths, k)),
        kept.iter().filter(|path| path.rows.len() == 1).count() > 1,
    ]
}

/// Each numeral that `stepwise` finds a path to is kept by that path, and no other is.
fn agrees_stepwise(rows: &[Row], start: Start, kept: &[Node], targets: &[u32]) {
    for target in targets {
        let path = kept.iter().find(|path| numeral(rows, last(path)) == *target);
        let path = path.map(|path| path.rows.clone());
        assert_eq!(path, stepwise(rows, start, *target), "{target} of {rows:?}");
    }
}

/// Small boards of all shapes, all three ways.
#[test]
fn small_boards_three_ways() {
    let mut random = Random::announced("small boards three ways", 81);
    let mut counts = Counts::new(FACTS);
    let mut listed = 0;
    for _ in 0..8_000 {
        let shape = random.pick(&SHAPES);
        let size = random.between(1, 14);
        let rows = rows(&mut random, shape, size);
        let list = start(&mut random, &rows);
        let start = start_of(&list);
        let kept = kept_by_length(&rows, start);
        let numerals: Vec<u32> = rows.iter().map(|row| row.numeral).collect();
        agrees_stepwise(&rows, start, &kept, &numerals);
        // "Every beginning of a kept path is then kept too", and no node closes.
        for path in &kept {
            let before = &path.rows[..path.rows.len() - 1];
            assert!(before.is_empty() || kept.iter().any(|other| other.rows == before));
            assert!(!path.closing && !path.orphan);
        }
        let Some(by_all) = kept_of_all(&rows, start, 3_000) else { continue };
        assert_eq!(by_all, kept, "{rows:?} {start:?}");
        listed += 1;
        let paths = forest(&rows, 0, None, start, &|_| true).unwrap().nodes;
        counts.add(facts(&rows, start, &paths, &kept));
    }
    println!("{listed} boards whose paths are listed");
    assert!(listed > 7_000);
    counts.expect_above(200, |_| false);
}

/// Boards up to 1,024 rows, some of whose paths can't be listed.
#[test]
fn large_boards() {
    let mut random = Random::announced("large boards", 82);
    let (mut listed, mut not_listed) = (0, 0);
    for _ in 0..600 {
        let shape = random.pick(&SHAPES);
        let size = size(&mut random).max(random.between(15, 60));
        let rows = rows(&mut random, shape, size);
        let list = start(&mut random, &rows);
        let start = start_of(&list);
        let kept = kept_by_length(&rows, start);
        let targets: Vec<u32> = (0..4).map(|_| random.pick(&rows).numeral).collect();
        agrees_stepwise(&rows, start, &kept, &targets);
        match kept_of_all(&rows, start, 3_000) {
            Some(by_all) => {
                assert_eq!(by_all, kept, "{rows:?} {start:?}");
                listed += 1;
            }
            None => not_listed += 1,
        }
    }
    println!("{listed} boards whose paths are listed, {not_listed} others");
    assert!(listed > 300 && not_listed > 50);
}
