//! Builds over generated boards, against the sentences tried on every row list.

use generate::builds::{large_case, large_island_case, orphan_choice, start_of};
use generate::*;
use reference::forest::{forest, node_order};
use reference::*;
use std::cmp::Ordering;

fn numeral(rows: &[Row], k: usize) -> u32 {
    rows[k - 1].numeral
}

/// Whether each later row's parent is the numeral before it and all numerals
/// differ, except that the last may equal one earlier; and whether it does.
fn linked(rows: &[Row], list: &[usize]) -> Option<bool> {
    for pair in list.windows(2) {
        if rows[pair[1] - 1].parent != numeral(rows, pair[0]) {
            return None;
        }
    }
    let mut closing = false;
    for i in 0..list.len() {
        for j in i + 1..list.len() {
            if numeral(rows, list[i]) == numeral(rows, list[j]) {
                if j + 1 < list.len() {
                    return None;
                }
                closing = true;
            }
        }
    }
    Some(closing)
}

/// All non-empty lists of row numbers up to a length.
fn all_lists(count: usize, longest: usize) -> Vec<Vec<usize>> {
    let mut all: Vec<Vec<usize>> = Vec::new();
    let mut last: Vec<Vec<usize>> = vec![Vec::new()];
    for _ in 0..longest {
        let mut next = Vec::new();
        for list in &last {
            for k in 1..=count {
                let mut longer = list.clone();
                longer.push(k);
                next.push(longer);
            }
        }
        all.extend(next.iter().cloned());
        last = next;
    }
    all
}

/// The nodes by trying every list.
fn tried(rows: &[Row], orphan: u32, depth: Option<i32>, start: Start) -> Result<Vec<Node>, u32> {
    let is_start = |k: usize| match start {
        Start::ParentZero => rows[k - 1].parent == 0,
        Start::Numerals(list) => list.contains(&numeral(rows, k)),
    };
    let lists = all_lists(rows.len(), rows.len() + 1);
    let mut nodes = Vec::new();
    for list in &lists {
        let deep = depth.is_some_and(|d| d < 0 || list.len() as i64 > d as i64 + 1);
        if is_start(list[0]) && !deep {
            if let Some(closing) = linked(rows, list) {
                nodes.push(Node { rows: list.clone(), entry: None, orphan: false, closing });
            }
        }
    }
    let reached =
        |k: usize, nodes: &[Node]| nodes.iter().any(|node| *node.rows.last().unwrap() == k);
    let unreached: Vec<usize> = (1..=rows.len()).filter(|k| !reached(*k, &nodes)).collect();
    let top = |k: usize| {
        let parent = rows[k - 1].parent;
        unreached.contains(&k) && (parent == 0 || !rows.iter().any(|row| row.numeral == parent))
    };
    let starts: Vec<usize> = (1..=rows.len()).filter(|k| is_start(*k)).collect();
    let key = |k: &usize| (rows[*k - 1].order, numeral(rows, *k), *k);
    let adopting = starts.iter().copied().max_by_key(key);
    if orphan == 2 && adopting.is_none() && !unreached.is_empty() {
        // With no start row each row of U ends a path from a top orphan or from an entry.
        return Err(8);
    }
    if orphan == 2 || orphan == 3 {
        let front = if orphan == 2 { adopting } else { None };
        for list in &lists {
            if top(list[0]) && list.iter().all(|k| unreached.contains(k)) {
                if let Some(closing) = linked(rows, list) {
                    let path = front.into_iter().chain(list.clone()).collect();
                    nodes.push(Node { rows: path, entry: None, orphan: true, closing });
                }
            }
        }
        let left = unreached.iter().copied().filter(|k| !reached(*k, &nodes)).collect();
        nodes.extend(tried_entries(rows, &lists, left, front));
    }
    nodes.sort_by(|a, b| {
        let made = |node: &Node| node.entry.map_or(0, |entry| entry.made);
        let keys = |node: &Node| -> Vec<_> {
            let numbers = node.rows.iter().filter(|k| **k != 0);
            numbers.map(key).collect()
        };
        (a.orphan, made(a), keys(a)).cmp(&(b.orphan, made(b), keys(b)))
    });
    Ok(nodes)
}

/// The nodes from entries by trying every list, step by step; `left` is I, rising.
fn tried_entries(
    rows: &[Row],
    lists: &[Vec<usize>],
    mut left: Vec<usize>,
    front: Option<usize>,
) -> Vec<Node> {
    let mut nodes = Vec::new();
    let mut made = 0;
    while !left.is_empty() {
        let by_rows_left = |list: &[usize]| list.iter().all(|k| left.contains(k));
        // Each later row's parent is the numeral before it, the first's the given one.
        let goes_on = |from: u32, list: &[usize]| {
            rows[list[0] - 1].parent == from
                && list.windows(2).all(|pair| rows[pair[1] - 1].parent == numeral(rows, pair[0]))
        };
        let ringed = |k: &usize| {
            let from = numeral(rows, *k);
            lists.iter().any(|list| {
                by_rows_left(list)
                    && goes_on(from, list)
                    && numeral(rows, list[list.len() - 1]) == from
            })
        };
        let taken = left.iter().copied().find(ringed).expect("the step repeats until I is empty");
        made += 1;
        let entry = Some(IslandEntry { made, numeral: numeral(rows, taken) });
        // The board with the entry as one row more, whose number stands for it in the lists.
        let mut with_entry = rows.to_vec();
        with_entry.push(Row::undated(0, numeral(rows, taken), 0, 0));
        let mut ended = Vec::new();
        for list in std::iter::once(&Vec::new()).chain(lists) {
            let path: Vec<usize> = [&[with_entry.len()], &list[..]].concat();
            if let (true, Some(closing)) = (by_rows_left(list), linked(&with_entry, &path)) {
                ended.extend(list.last().copied());
                let path = front.into_iter().chain([0]).chain(list.iter().copied()).collect();
                nodes.push(Node { rows: path, entry, orphan: true, closing });
            }
        }
        left.retain(|k| !ended.contains(k));
    }
    nodes
}

/// A node's path with its entry, if it has one, counted on behind the rows: no two nodes have one
/// path.
fn path(node: &Node, count: usize) -> Vec<usize> {
    let number = |k: &usize| match k {
        0 => count + node.entry.expect("row number 0 stands for an entry").made,
        _ => *k,
    };
    node.rows.iter().map(number).collect()
}

fn paths(nodes: &[Node], count: usize) -> Vec<Vec<usize>> {
    nodes.iter().map(|node| path(node, count)).collect()
}

fn begins(longer: &[usize], path: &[usize]) -> bool {
    longer.len() >= path.len() && longer[..path.len()] == *path
}

/// Numeral and minutes of a node's last row, or of its entry.
fn last_of(rows: &[Row], node: &Node) -> (u32, i64) {
    match node.rows[node.rows.len() - 1] {
        0 => (node.entry.unwrap().numeral, 0),
        k => (numeral(rows, k), rows[k - 1].minutes as i64),
    }
}

/// The whole result of a build, from the nodes alone.
fn expected(case: &BuildCase, nodes: &[Node]) -> (Built, Vec<u32>, Vec<i64>) {
    let (mut index, mut totals) = (case.index.clone(), case.totals.clone());
    let n = nodes.len();
    let paths = paths(nodes, case.rows.len());
    let rank = |path: &[usize]| paths.iter().position(|other| other == path).unwrap() as u32 + 1;
    let mut check = 0u32;
    let mut total = 0i64;
    totals[0] = 0;
    for (place, node) in nodes.iter().enumerate() {
        let (numeral, minutes) = last_of(&case.rows, node);
        let own = &paths[place];
        let size = paths.iter().filter(|other| begins(other, own)).count();
        let shorter = &own[..own.len() - 1];
        let words = [
            numeral,
            node.rows[node.rows.len() - 1] as u32,
            size as u32,
            if shorter.is_empty() { 0 } else { rank(shorter) },
            rank(&own[..1]),
            own.len() as u32 | (node.closing as u32) << 30 | (node.orphan as u32) << 31,
        ];
        index[8 + 6 * place..][..6].copy_from_slice(&words);
        check = words.iter().fold(check, |sum, word| sum.wrapping_add(*word));
        total += minutes;
        totals[place + 1] = total;
    }
    index[..8].copy_from_slice(&[n as u32, 8, 6, check, 0, 0, 0, 0]);
    let ended = |k: &usize| nodes.iter().any(|node| node.rows.last() == Some(k));
    let left = (1..=case.rows.len()).filter(|k| !ended(k)).count();
    (Built { refusal: 0, nodes: n as u32, left: left as u32 }, index, totals)
}

/// The refusal from the nodes alone, in the order of the sentences.
fn expected_refusal(case: &BuildCase, nodes: &Result<Vec<Node>, u32>) -> u32 {
    let options = match Options::read(case.code) {
        None => return 6,
        Some(options) => options,
    };
    if case.depth.is_some() && options.orphan != 0 {
        return 7;
    }
    let nodes = match nodes {
        Err(refusal) => return *refusal,
        Ok(nodes) => nodes,
    };
    let n = nodes.len();
    if n > 65_535 || case.index.len() < 8 + 6 * n || case.totals.len() < n + 1 {
        return 9;
    }
    if options.cycle == 1 && nodes.iter().any(|node| node.closing) {
        return 10;
    }
    let last = |node: &Node| last_of(&case.rows, node).0;
    let paths = paths(nodes, case.rows.len());
    for (a, own) in nodes.iter().zip(&paths) {
        let shares = nodes.iter().any(|b| a != b && last(a) == last(b));
        let size = paths.iter().filter(|other| begins(other, own)).count();
        if shares && (options.multi == 2 || options.multi == 1 && size > 1) {
            return 11;
        }
    }
    let ended = |k: &usize| nodes.iter().any(|node| node.rows.last() == Some(k));
    if options.orphan == 1 && !(1..=case.rows.len()).all(|k| ended(&k)) {
        return 12;
    }
    0
}

fn run(case: &BuildCase) -> (Built, Vec<u32>, Vec<i64>) {
    let (mut index, mut totals) = (case.index.clone(), case.totals.clone());
    let built = build(&case.rows, case.code, case.depth, case.start(), &mut index, &mut totals);
    (built, index, totals)
}

fn compare(case: &BuildCase, nodes: &Result<Vec<Node>, u32>) -> u32 {
    let refusal = expected_refusal(case, nodes);
    let wanted = if refusal == 0 {
        expected(case, nodes.as_ref().unwrap())
    } else {
        let zeroes = (vec![0; case.index.len()], vec![0; case.totals.len()]);
        (Built { refusal, nodes: 0, left: 0 }, zeroes.0, zeroes.1)
    };
    assert_eq!(run(case), wanted, "{case:?}");
    refusal
}

#[test]
fn every_list_tried() {
    let mut random = Random::announced("every list tried", 21);
    let mut seen = [0; 13];
    for _ in 0..6_000 {
        let shape = random.pick(&SHAPES);
        let size = random.between(1, 4);
        let rows = rows(&mut random, shape, size);
        let (code, depth) = generate::builds::options(&mut random);
        let start = generate::builds::start(&mut random, &rows);
        let orphan = orphan_choice(code, depth);
        let nodes = tried(&rows, orphan, depth, start_of(&start));
        let n = nodes.as_ref().map_or(0, |nodes| nodes.len());
        let (index, totals) = generate::builds::slice_lengths(&mut random, n);
        let (index, totals) = (random.noise(index), random.wide_noise(totals));
        let case = BuildCase { rows, code, depth, start, index, totals };
        seen[compare(&case, &nodes) as usize] += 1;
    }
    println!("refusals 0 to 12: {seen:?}");
    assert!([0, 6, 7, 8, 9, 10, 11, 12].iter().all(|refusal| seen[*refusal] > 20), "{seen:?}");
}

/// A numeral decides some tie exactly where equal orders by row number alone give another order of
/// the nodes.
fn ties_are_found(rows: &[Row], nodes: &[Node], index: &[u32]) {
    let mut by_row_number = nodes.to_vec();
    by_row_number.sort_by_key(|node| {
        let numbers = node.rows.iter().filter(|k| **k != 0);
        let keys: Vec<_> = numbers.map(|k| (rows[k - 1].order, *k)).collect();
        (node.orphan, node.entry.map_or(0, |entry| entry.made), keys)
    });
    let found = ties::ties(rows, index).iter().any(ties::Tie::numeral_decides);
    assert_eq!(found, by_row_number != nodes, "{rows:?}");
}

/// Larger boards: the nodes are taken from the listing by recursion, but order,
/// sizes, ranks, sums and refusals are formed anew.
#[test]
fn generated_builds() {
    let mut random = Random::announced("generated builds", 22);
    let mut seen = [0; 13];
    for _ in 0..1_500 {
        let case = build_case(&mut random);
        let orphan = orphan_choice(case.code, case.depth);
        let found = forest(&case.rows, orphan, case.depth, case.start(), &|n| n <= 600);
        if found == Err(9) {
            // Too many to form anew: only the refusal's zeroes and the index check.
            let (built, index, totals) = run(&case);
            if built.refusal == 0 {
                assert!(index_check(&index));
            } else {
                assert!(
                    index.iter().all(|word| *word == 0) && totals.iter().all(|word| *word == 0)
                );
            }
            seen[built.refusal as usize] += 1;
            continue;
        }
        let nodes = found.map(|forest| forest.nodes);
        if let Ok(nodes) = &nodes {
            for pair in nodes.windows(2) {
                assert_eq!(node_order(&case.rows, &pair[0], &pair[1]), Ordering::Less);
            }
        }
        let refusal = compare(&case, &nodes);
        seen[refusal as usize] += 1;
        if refusal == 0 {
            let index = run(&case).1;
            assert!(index_check(&index));
            ties_are_found(&case.rows, &nodes.unwrap(), &index);
        }
    }
    println!("refusals 0 to 12: {seen:?}");
    assert!([0, 6, 7, 8, 9, 10, 11, 12].iter().all(|refusal| seen[*refusal] > 5), "{seen:?}");
}

/// Accepted builds reach every case of the sentences.
#[test]
fn cases_reached() {
    let mut random = Random::announced("cases reached", 25);
    let names = [
        "no node",
        "closing",
        "closing on the first row",
        "adopted",
        "adopted and closing",
        "adopted, sharing the adopting numeral",
        "orphan root",
        "orphan root and closing",
        "left over under ignore",
        "shared numeral",
        "shared leaf under leaves",
        "start row below a start row",
        "cut by the depth",
        "negative depth",
        "exact slices",
        "over 500 nodes",
    ];
    let names: Vec<&str> = names
        .into_iter()
        .chain(ties::FACTS)
        .chain(islands::FACTS)
        .chain(islands::REFUSALS)
        .collect();
    let mut seen = vec![0; names.len()];
    for round in 0..6_000 {
        let case = if round % 3 == 0 { island_case(&mut random) } else { build_case(&mut random) };
        let board = holding(&mut random, &case.rows);
        let (mut index, mut totals) = (case.index.clone(), case.totals.clone());
        let built =
            build_board(&board, case.code, case.depth, case.start(), &mut index, &mut totals);
        assert_eq!((built, &index, &totals), {
            let (built, index, totals) = &run(&case);
            (*built, &index.clone(), &totals.clone())
        });
        if built.refusal != 0 {
            let refusals = islands::refusals(&case, built.refusal);
            let first = names.len() - islands::REFUSALS.len();
            for (count, fact) in seen[first..].iter_mut().zip(refusals) {
                *count += fact as u32;
            }
            continue;
        }
        let n = built.nodes as usize;
        let options = Options::read(case.code).unwrap();
        assert!(options.orphan < 2 || built.left == 0, "{case:?}");
        let bodies: Vec<Body> = (1..=n).map(|rank| Body::read(&index, rank)).collect();
        let adopt = options.orphan == 2;
        let any = |test: &dyn Fn(&Body) -> bool| bodies.iter().any(test);
        let of = |rank: u32| &bodies[rank as usize - 1];
        let sharing = |body: &Body| bodies.iter().filter(|b| b.numeral == body.numeral).count() > 1;
        let few = n <= 500;
        let facts = [
            n == 0,
            any(&|b| b.closing),
            any(&|b| b.closing && !b.orphan && b.numeral == of(b.root).numeral),
            adopt && any(&|b| b.orphan),
            adopt && any(&|b| b.orphan && b.closing),
            adopt && any(&|b| b.orphan && b.numeral == of(b.root).numeral),
            options.orphan == 3 && any(&|b| b.orphan),
            options.orphan == 3 && any(&|b| b.orphan && b.closing),
            built.left > 0,
            few && any(&|b| sharing(b)),
            few && options.multi == 1 && any(&|b| sharing(b)),
            few && any(&|b| b.level > 1 && bodies.iter().any(|r| r.level == 1 && r.row == b.row)),
            case.depth.is_some_and(|d| d >= 0)
                && any(&|b| b.level as i64 == case.depth.unwrap() as i64 + 1),
            case.depth.is_some_and(|d| d < 0),
            case.index.len() == 8 + 6 * n && case.totals.len() == n + 1,
            !few,
        ];
        let ties = ties::facts(&case.rows, &index);
        let islands = islands::facts(&case, &index);
        for (count, fact) in seen.iter_mut().zip(facts.into_iter().chain(ties).chain(islands)) {
            *count += fact as u32;
        }
    }
    for (name, count) in names.iter().zip(&seen) {
        println!("{name}: {count}");
    }
    for (name, count) in names.iter().zip(&seen) {
        assert!(*count >= 3, "{name}: {count}");
    }
}

#[test]
fn builds_at_the_node_limit() {
    let mut random = Random::announced("builds at the node limit", 23);
    for (round, nodes) in [65_534, 65_535, 65_536].repeat(4).into_iter().enumerate() {
        let large = if round % 2 == 0 { large_case } else { large_island_case };
        let case = large(&mut random, nodes);
        assert!(case.rows.len() <= 1_024);
        let (built, index, totals) = run(&case);
        if nodes <= 65_535 {
            assert_eq!(built, Built { refusal: 0, nodes: nodes as u32, left: 0 });
            assert!(index_check(&index));
            let all: i64 = (1..=nodes as u32)
                .filter(|rank| Body::read(&index, *rank as usize).parent == 0)
                .map(|rank| subtree_sum(&index, &totals, rank).sum)
                .sum();
            assert_eq!(all, totals[nodes]);
            assert_eq!(index[8 + 6 * nodes..], case.index[8 + 6 * nodes..]);
            assert_eq!(totals[nodes + 1..], case.totals[nodes + 1..]);
        } else {
            assert_eq!(built, Built { refusal: 9, nodes: 0, left: 0 });
        }
    }
}

/// Navigation on built indexes, against the paths.
#[test]
fn navigation_by_paths() {
    let mut random = Random::announced("navigation by paths", 24);
    let (mut done, mut with_entries) = (0, 0);
    while done < 400 {
        let mut case =
            if done % 2 == 0 { island_case(&mut random) } else { build_case(&mut random) };
        case.code %= 4;
        if case.code != 0 {
            case.depth = None;
        }
        let found = forest(&case.rows, case.code, case.depth, case.start(), &|n| n <= 150);
        let nodes = match found {
            Ok(forest) if !forest.nodes.is_empty() => forest.nodes,
            _ => continue,
        };
        case.index = random.noise(8 + 6 * nodes.len());
        case.totals = random.wide_noise(nodes.len() + 1);
        let (built, index, totals) = run(&case);
        if built.refusal != 0 {
            continue;
        }
        done += 1;
        let paths = paths(&nodes, case.rows.len());
        let entry = nodes.iter().position(|node| node.rows[node.rows.len() - 1] == 0);
        with_entries += entry.is_some() as u32;
        for round in 0..10 {
            let rank = match entry {
                Some(place) if round == 0 => place + 1,
                _ => random.between(1, nodes.len()),
            };
            let own = &paths[rank - 1][..];
            let (lower, upper) = (random.limit(), random.limit());
            let within = |other: &[usize]| {
                let distance = other.len() as i64 - own.len() as i64;
                lower as i64 <= distance && distance <= upper as i64
            };
            let ranks = |keep: &dyn Fn(&[usize]) -> bool| -> Vec<u32> {
                (1..=paths.len()).filter(|k| keep(&paths[k - 1])).map(|k| k as u32).collect()
            };
            let minutes = |ranks: Vec<u32>| -> i64 {
                ranks.iter().map(|rank| last_of(&case.rows, &nodes[*rank as usize - 1]).1).sum()
            };
            let mut list = vec![0; nodes.len()];

            let wanted = ranks(&|other| begins(other, own) && within(other));
            let listed = descendants(&index, rank as u32, lower, upper, &mut list);
            assert_eq!(listed, Listed { refusal: 0, length: wanted.len() as u32 });
            assert_eq!(list[..wanted.len()], wanted);

            let mut wanted = ranks(&|other| begins(own, other) && within(other));
            wanted.reverse();
            let climbed = ancestors(&index, rank as u32, lower, upper, &mut list);
            let links = own.len() as u32 - 1;
            assert_eq!(climbed, Climbed { refusal: 0, length: wanted.len() as u32, links });
            assert_eq!(list[..wanted.len()], wanted);

            let above = &own[..own.len() - 1];
            let wanted = ranks(&|other| other[..other.len() - 1] == *above);
            let listed = siblings(&index, rank as u32, &mut list);
            assert_eq!(listed, Listed { refusal: 0, length: wanted.len() as u32 });
            assert_eq!(list[..wanted.len()], wanted);

            let below = ranks(&|other| begins(other, own));
            let words = 8 + 6 * (rank - 1)..8 + 6 * (rank - 1 + below.len());
            assert_eq!(span(&index, rank as u32), Spanned { refusal: 0, words });

            let sum = minutes(below);
            assert_eq!(subtree_sum(&index, &totals, rank as u32), Summed { refusal: 0, sum });
            let sum = minutes(ranks(&|other| begins(own, other)));
            assert_eq!(path_sum(&index, &totals, rank as u32), Summed { refusal: 0, sum });
        }
    }
    println!("indexes with entries: {with_entries}");
    assert!(with_entries > 100, "{with_entries}");
}
