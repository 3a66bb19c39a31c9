//! Shortest placements of generated rows: the reference against distances, against the request's sentence tried on every
//! row list, and navigation against the kept paths.

mod common;

use common::Counts;
use generate::builds::start_of;
use generate::shortest::{self, shortest_case_of};
use generate::*;
use reference::*;
use std::collections::{BTreeMap, HashMap};

/// What decides between two rows: order, then numeral, then row number.
type Key = (u32, u32, usize);

fn key(rows: &[Row], number: usize) -> Key {
    (rows[number - 1].order, rows[number - 1].numeral, number)
}

/// The fewest rows by which each numeral is reached, by letting every row shorten what it can until nothing changes.
fn distances(rows: &[Row], start: Start) -> HashMap<u32, usize> {
    let mut fewest: HashMap<u32, usize> = HashMap::new();
    loop {
        let mut changed = false;
        for row in rows {
            let by_row = match fewest.get(&row.parent) {
                _ if start.takes(row) => 1,
                Some(above) => above + 1,
                None => continue,
            };
            let own = fewest.entry(row.numeral).or_insert(usize::MAX);
            changed |= by_row < *own;
            *own = by_row.min(*own);
        }
        if !changed {
            return fewest;
        }
    }
}

/// The kept paths by numeral: of the rows of the numeral that a path of fewest rows can end with, the one behind the
/// first path.
fn by_distances(rows: &[Row], start: Start) -> Vec<Vec<Key>> {
    let fewest = distances(rows, start);
    let mut numerals: Vec<u32> = fewest.keys().copied().collect();
    numerals.sort_by_key(|numeral| fewest[numeral]);
    let mut numbers: HashMap<u32, Vec<usize>> = HashMap::new();
    for (place, row) in rows.iter().enumerate() {
        numbers.entry(row.numeral).or_default().push(place + 1);
    }
    let mut paths: HashMap<u32, Vec<Key>> = HashMap::new();
    for numeral in numerals {
        let mut candidates = Vec::new();
        for number in &numbers[&numeral] {
            let row = rows[number - 1];
            let above = match fewest[&numeral] {
                1 if start.takes(&row) => Vec::new(),
                1 => continue,
                own if fewest.get(&row.parent) == Some(&(own - 1)) => paths[&row.parent].clone(),
                _ => continue,
            };
            candidates.push([above, vec![key(rows, *number)]].concat());
        }
        paths.insert(numeral, candidates.into_iter().min().expect("a path of fewest rows"));
    }
    paths.into_values().collect()
}

/// The kept paths by trying every row list, of up to one row more than there are.
fn by_every_list(rows: &[Row], start: Start) -> Vec<Vec<Key>> {
    let numeral = |number: &usize| rows[number - 1].numeral;
    let mut regular: Vec<Vec<usize>> = Vec::new();
    let mut lists: Vec<Vec<usize>> = vec![Vec::new()];
    for _ in 0..=rows.len() {
        let longer = |list: &Vec<usize>| -> Vec<Vec<usize>> {
            (1..=rows.len()).map(|number| [&list[..], &[number]].concat()).collect()
        };
        lists = lists.iter().flat_map(longer).collect();
        regular.extend(lists.iter().filter(|list| is_regular(rows, start, list)).cloned());
    }
    let keys = |list: &[usize]| -> Vec<Key> { list.iter().map(|k| key(rows, *k)).collect() };
    let sooner = |one: &[usize], other: &[usize]| {
        one.len() < other.len() || (one.len() == other.len() && keys(one) < keys(other))
    };
    let last = |list: &[usize]| numeral(&list[list.len() - 1]);
    let kept = regular.iter().filter(|list| {
        regular.iter().all(|other| last(other) != last(list) || !sooner(other, list))
    });
    kept.map(|list| keys(list)).collect()
}

/// A start row first, each later row below the numeral before it, and all numerals different but perhaps the last.
fn is_regular(rows: &[Row], start: Start, list: &[usize]) -> bool {
    let row = |place: usize| rows[list[place] - 1];
    let before = |end: usize| (0..end).map(row);
    let last = list.len() - 1;
    start.takes(&row(0))
        && (1..=last).all(|place| row(place).parent == row(place - 1).numeral)
        && (1..last).all(|place| before(place).all(|other| other.numeral != row(place).numeral))
}

/// What a build of the kept paths answers and leaves.
fn image(case: &ShortestCase, mut paths: Vec<Vec<Key>>) -> (Built, Vec<u32>, Vec<i64>) {
    let (mut index, mut totals) = (case.index.clone(), case.totals.clone());
    let n = paths.len();
    if index.len() < 8 + 6 * n || totals.len() < n + 1 {
        index.fill(0);
        totals.fill(0);
        return (Built { refusal: 9, nodes: 0, left: 0 }, index, totals);
    }
    paths.sort();
    let ranks: HashMap<&[Key], u32> = paths.iter().map(Vec::as_slice).zip(1..).collect();
    let mut check = 0u32;
    totals[0] = 0;
    for (place, path) in paths.iter().enumerate() {
        let (_, numeral, number) = path[path.len() - 1];
        let size = paths[place..].iter().take_while(|other| other.starts_with(path)).count();
        let parent = ranks.get(&path[..path.len() - 1]).copied().unwrap_or(0);
        let level = path.len() as u32;
        let words = [numeral, number as u32, size as u32, parent, ranks[&path[..1]], level];
        check = words.iter().fold(check, |sum, word| sum.wrapping_add(*word));
        index[8 + 6 * place..][..6].copy_from_slice(&words);
        totals[place + 1] = totals[place] + case.rows[number - 1].minutes as i64;
    }
    index[..8].copy_from_slice(&[n as u32, 8, 6, check, 0, 0, 0, 0]);
    let left = (case.rows.len() - n) as u32;
    (Built { refusal: 0, nodes: n as u32, left }, index, totals)
}

fn run(case: &ShortestCase) -> (Built, Vec<u32>, Vec<i64>) {
    let (mut index, mut totals) = (case.index.clone(), case.totals.clone());
    let built = build_shortest(&case.rows, case.start(), &mut index, &mut totals);
    (built, index, totals)
}

/// The reference by distances, and how often the generator reaches each case.
#[test]
fn shortest_placements_by_distances() {
    let mut random = Random::announced("shortest placements by distances", 37);
    let mut seen = BTreeMap::new();
    let mut facts = Counts::new(shortest::FACTS);
    let mut refusals = Counts::new(shortest::REFUSALS);
    for _ in 0..6_000 {
        let case = shortest_case(&mut random);
        let (built, index, totals) = run(&case);
        let expected = image(&case, by_distances(&case.rows, case.start()));
        assert!((built, index.clone(), totals) == expected, "{case:?}");
        *seen.entry(built.refusal).or_insert(0) += 1;
        if built.refusal == 0 {
            assert!(index_check(&index));
            facts.add(shortest::facts(&case, &index));
        } else {
            refusals.add(shortest::refusals(&case, built.refusal));
        }
    }
    println!("{seen:?}");
    facts.expect_above(10, |_| false);
    refusals.expect_above(30, |_| false);
    assert_eq!(seen.keys().copied().collect::<Vec<_>>(), [0, 9]);
}

/// A board of up to five rows, with few numerals and orders; every other begins with two start rows that both have
/// numeral 3 below them.
fn few_rows(random: &mut Random) -> Vec<Row> {
    let mut edges = if random.chance(1, 2) { vec![(0, 1), (0, 2), (1, 3), (2, 3)] } else { vec![] };
    for _ in 0..random.between(0, 5 - edges.len()) {
        edges.push((random.between(0, 3) as u32, random.between(1, 3) as u32));
    }
    random.shuffle(&mut edges);
    let row = |(parent, numeral): (u32, u32)| {
        Row::undated(parent, numeral, random.below(2) as u32, random.minutes())
    };
    edges.into_iter().map(row).collect()
}

#[test]
fn shortest_placements_by_every_list() {
    let mut random = Random::announced("shortest placements by every list", 38);
    let mut facts = Counts::new(shortest::FACTS);
    let mut accepted = 0;
    for _ in 0..3_000 {
        let rows = few_rows(&mut random);
        let case = shortest_case_of(&mut random, rows);
        let (built, index, totals) = run(&case);
        let expected = image(&case, by_every_list(&case.rows, case.start()));
        assert!((built, index.clone(), totals) == expected, "{case:?}");
        if built.refusal == 0 {
            accepted += 1;
            facts.add(shortest::facts(&case, &index));
        }
    }
    println!("{accepted} accepted");
    // Those of boards that have over 1,000 rows, deep paths or very many don't count.
    let large = |name: &str| {
        name.starts_with("1,024") || name.contains("100") || name.contains("more paths")
    };
    facts.expect_above(10, large);
}

/// Navigation on indexes of shortest placements, against the kept paths.
#[test]
fn navigation_by_kept_paths() {
    let mut random = Random::announced("navigation by kept paths", 39);
    let mut done = 0;
    while done < 400 {
        let case = shortest_case(&mut random);
        let (built, index, totals) = run(&case);
        if built.refusal != 0 || built.nodes == 0 || built.nodes > 200 {
            continue;
        }
        done += 1;
        let mut paths = by_distances(&case.rows, start_of(&case.start));
        paths.sort();
        for _ in 0..10 {
            let rank = random.between(1, paths.len());
            navigate(&mut random, &case.rows, &paths, rank, &index, &totals);
        }
    }
}

/// Every call from one rank; the paths are those of all ranks.
fn navigate(
    random: &mut Random,
    rows: &[Row],
    paths: &[Vec<Key>],
    rank: usize,
    index: &[u32],
    totals: &[i64],
) {
    let own = &paths[rank - 1][..];
    let (lower, upper) = (random.limit(), random.limit());
    let within = |other: &[Key]| {
        let more = other.len() as i64 - own.len() as i64;
        lower as i64 <= more && more <= upper as i64
    };
    let ranks = |keep: &dyn Fn(&[Key]) -> bool| -> Vec<u32> {
        (1..=paths.len()).filter(|k| keep(&paths[k - 1])).map(|k| k as u32).collect()
    };
    let sum = |keep: &dyn Fn(&[Key]) -> bool| -> i64 {
        let kept = paths.iter().filter(|path| keep(path));
        kept.map(|path| rows[path[path.len() - 1].2 - 1].minutes as i64).sum()
    };
    let rank = rank as u32;
    let mut list = vec![0; paths.len()];

    let wanted = ranks(&|other| other.starts_with(own) && within(other));
    let listed = descendants(index, rank, lower, upper, &mut list);
    assert_eq!(listed, Listed { refusal: 0, length: wanted.len() as u32 });
    assert_eq!(list[..wanted.len()], wanted);

    let mut wanted = ranks(&|other| own.starts_with(other) && within(other));
    wanted.reverse();
    let climbed = ancestors(index, rank, lower, upper, &mut list);
    let links = own.len() as u32 - 1;
    assert_eq!(climbed, Climbed { refusal: 0, length: wanted.len() as u32, links });
    assert_eq!(list[..wanted.len()], wanted);

    let above = |path: &[Key]| path[..path.len() - 1].to_vec();
    let wanted = ranks(&|other| above(other) == above(own));
    let listed = siblings(index, rank, &mut list);
    assert_eq!(listed, Listed { refusal: 0, length: wanted.len() as u32 });
    assert_eq!(list[..wanted.len()], wanted);

    let below = ranks(&|other| other.starts_with(own)).len();
    let start = 8 + 6 * (rank as usize - 1);
    assert_eq!(span(index, rank), Spanned { refusal: 0, words: start..start + 6 * below });
    let wanted = sum(&|other| other.starts_with(own));
    assert_eq!(subtree_sum(index, totals, rank), Summed { refusal: 0, sum: wanted });
    let wanted = sum(&|other| own.starts_with(other));
    assert_eq!(path_sum(index, totals, rank), Summed { refusal: 0, sum: wanted });
}
