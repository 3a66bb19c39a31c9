//! Builds of generated levelled lists: the reference against a tree of cells, and navigation
//! against the beginnings.

mod common;

use common::Counts;
use generate::levelled::{self, fitting_case, CELLS};
use generate::*;
use reference::levelled::line_order;
use reference::*;
use std::collections::BTreeMap;

/// A tree of cells, a branch for each blank too; blanks are kept as 2^32, so that they come last.
#[derive(Default)]
struct Tree {
    first_line: usize,
    below: BTreeMap<u64, Tree>,
}

impl Tree {
    fn of(case: &LevelledCase) -> Tree {
        let mut lines: Vec<Vec<u64>> = Vec::new();
        for line in case.cells.chunks(case.width as usize) {
            let cells = line.iter().map(|cell| if *cell == 0 { 1 << 32 } else { *cell as u64 });
            lines.push(cells.collect());
        }
        lines.sort();
        let mut tree = Tree::default();
        for (place, line) in lines.iter().enumerate() {
            let mut at = &mut tree;
            for cell in line {
                at = at.below.entry(*cell).or_default();
                if at.first_line == 0 {
                    at.first_line = place + 1;
                }
            }
        }
        tree
    }

    /// Adds the bodies below, in rank order; `parent` and `root` are 0 for none.
    fn write(&self, level: u32, parent: u32, root: u32, bodies: &mut Vec<[u32; BODY]>) {
        for (cell, tree) in &self.below {
            if *cell == 1 << 32 {
                tree.write(level + 1, parent, root, bodies);
                continue;
            }
            let rank = bodies.len() as u32 + 1;
            let root = if root == 0 { rank } else { root };
            bodies.push([*cell as u32, tree.first_line as u32, 0, parent, root, level + 1]);
            tree.write(level + 1, rank, root, bodies);
            bodies[rank as usize - 1][2] = bodies.len() as u32 + 1 - rank;
        }
    }
}

/// What a build answers and leaves, by the tree.
fn by_tree(case: &LevelledCase) -> (Built, Vec<u32>, Vec<i64>) {
    let (length, width) = (case.cells.len() as u64, case.width as u64);
    let mut bodies = Vec::new();
    let refusal = if !(1..=8).contains(&width) || length % width != 0 {
        18
    } else if length / width > 512 {
        19
    } else {
        Tree::of(case).write(0, 0, 0, &mut bodies);
        let fits = case.index.len() >= 8 + 6 * bodies.len() && case.totals.len() > bodies.len();
        if fits {
            0
        } else {
            9
        }
    };
    let (mut index, mut totals) = (case.index.clone(), case.totals.clone());
    if refusal != 0 {
        index.fill(0);
        totals.fill(0);
        return (Built { refusal, nodes: 0, left: 0 }, index, totals);
    }
    let words = bodies.concat();
    let check = words.iter().map(|word| *word as u64).sum::<u64>() as u32;
    let nodes = bodies.len() as u32;
    index[..8].copy_from_slice(&[nodes, 8, 6, check, 0, 0, 0, 0]);
    index[8..8 + words.len()].copy_from_slice(&words);
    totals[..=bodies.len()].fill(0);
    let lines = case.cells.chunks(case.width as usize);
    let left = lines.filter(|line| line.iter().all(|cell| *cell == 0)).count() as u32;
    (Built { refusal: 0, nodes, left }, index, totals)
}

fn run(case: &LevelledCase) -> (Built, Vec<u32>, Vec<i64>) {
    let (mut index, mut totals) = (case.index.clone(), case.totals.clone());
    let built = build_levelled(&case.cells, case.width, &mut index, &mut totals);
    (built, index, totals)
}

/// The reference by a tree of cells, and how often the generator reaches each case.
#[test]
fn levelled_lists_as_a_tree() {
    let mut random = Random::announced("levelled lists as a tree", 35);
    let mut seen = BTreeMap::new();
    let mut facts = Counts::new(levelled::FACTS);
    let mut refusals = Counts::new(levelled::REFUSALS);
    for _ in 0..6_000 {
        let case = levelled_case(&mut random);
        let (built, index, totals) = run(&case);
        assert!((built, index.clone(), totals) == by_tree(&case), "{case:?}");
        *seen.entry(built.refusal).or_insert(0) += 1;
        if built.refusal == 0 {
            assert!(index_check(&index));
            facts.add(levelled::facts(&case, &index));
        } else {
            refusals.add(levelled::refusals(&case, built.refusal));
        }
    }
    println!("{seen:?}");
    facts.expect_above(30, |_| false);
    refusals.expect_above(10, |_| false);
    assert_eq!(seen.keys().copied().collect::<Vec<_>>(), [0, 9, 18, 19]);
}

/// Navigation on indexes of levelled lists, against the beginnings.
#[test]
fn navigation_by_beginnings() {
    let mut random = Random::announced("navigation by beginnings", 36);
    let mut done = 0;
    while done < 400 {
        let cells = random.pick(&CELLS);
        let (count, width) = (random.between(1, 25), random.between(1, 8));
        let case = fitting_case(&mut random, cells, count, width as u32);
        let (built, index, totals) = run(&case);
        assert_eq!(built.refusal, 0);
        if built.nodes == 0 {
            continue;
        }
        done += 1;
        let mut lines: Vec<&[u32]> = case.cells.chunks(width).collect();
        lines.sort_by(|a, b| line_order(a, b));
        let beginnings: Vec<&[u32]> = (1..=built.nodes as usize)
            .map(|rank| Body::read(&index, rank))
            .map(|body| &lines[body.row as usize - 1][..body.level as usize])
            .collect();
        for _ in 0..10 {
            let rank = random.between(1, beginnings.len());
            navigate(&mut random, &beginnings, rank, &index, &totals);
        }
    }
}

/// Every call from one rank; the beginnings are those of all ranks.
fn navigate(
    random: &mut Random,
    beginnings: &[&[u32]],
    rank: usize,
    index: &[u32],
    totals: &[i64],
) {
    let own = beginnings[rank - 1];
    let (lower, upper) = (random.limit(), random.limit());
    let within = |other: &[u32]| {
        let columns = other.len() as i64 - own.len() as i64;
        lower as i64 <= columns && columns <= upper as i64
    };
    let ranks = |keep: &dyn Fn(&[u32]) -> bool| -> Vec<u32> {
        (1..=beginnings.len()).filter(|k| keep(beginnings[k - 1])).map(|k| k as u32).collect()
    };
    let rank = rank as u32;
    let mut list = vec![0; beginnings.len()];

    let wanted = ranks(&|other| other.starts_with(own) && within(other));
    let listed = descendants(index, rank, lower, upper, &mut list);
    assert_eq!(listed, Listed { refusal: 0, length: wanted.len() as u32 });
    assert_eq!(list[..wanted.len()], wanted);

    let mut wanted = ranks(&|other| own.starts_with(other) && within(other));
    wanted.reverse();
    let climbed = ancestors(index, rank, lower, upper, &mut list);
    let links = ranks(&|other| own.starts_with(other) && other.len() < own.len()).len() as u32;
    assert_eq!(climbed, Climbed { refusal: 0, length: wanted.len() as u32, links });
    assert_eq!(list[..wanted.len()], wanted);

    // The longest shorter beginning that ends in a filled cell.
    let above = |beginning: &[u32]| {
        let end = beginning[..beginning.len() - 1].iter().rposition(|cell| *cell != 0);
        beginning[..end.map_or(0, |end| end + 1)].to_vec()
    };
    let wanted = ranks(&|other| above(other) == above(own));
    let listed = siblings(index, rank, &mut list);
    assert_eq!(listed, Listed { refusal: 0, length: wanted.len() as u32 });
    assert_eq!(list[..wanted.len()], wanted);

    let below = ranks(&|other| other.starts_with(own)).len();
    let start = 8 + 6 * (rank as usize - 1);
    assert_eq!(span(index, rank), Spanned { refusal: 0, words: start..start + 6 * below });
    assert_eq!(subtree_sum(index, totals, rank), Summed { refusal: 0, sum: 0 });
    assert_eq!(path_sum(index, totals, rank), Summed { refusal: 0, sum: 0 });
}
