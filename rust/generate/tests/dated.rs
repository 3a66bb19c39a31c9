//! Dated builds of generated rows: the reference against the request's sentences tried on every row
//! list and on all regular paths, and how often the generator reaches each case.

mod common;

use common::Counts;
use generate::dated::{self, dated, dated_case_of, large_case, Dating, DATINGS};
use generate::*;
use reference::dated::{dated_by_rows, dated_of_all};
use reference::forest::forest;
use reference::*;
use std::collections::{BTreeMap, HashMap};

/// What a dated build answers and leaves.
type Left = (Built, Vec<u32>, Vec<i64>, Vec<u32>);

fn run(case: &DatedCase) -> Left {
    let (mut index, mut totals) = (case.index.clone(), case.totals.clone());
    let mut days = case.days.clone();
    let built = build_dated(&case.rows, case.asked(), &mut index, &mut totals, &mut days);
    (built, index, totals, days)
}

/// What decides between two rows: order, then numeral, then row number.
type Key = (u32, u32, usize);

/// A path as what decides, and whether it closes.
type Path = (Vec<Key>, bool);

/// Whether the path has the day, as its rows and the window all do.
fn has(case: &DatedCase, path: &[Key], day: u32) -> bool {
    let within = |first: u32, last: u32| first <= day && day <= last;
    let row = |key: &Key| case.rows[key.2 - 1];
    within(case.window.first, case.window.last)
        && path.iter().map(row).all(|row| within(row.first_day, row.last_day))
}

/// The first and the last day that all rows of a path and the window have. Where there is one, the
/// first is where the window or some row begins, the last where one of them ends.
fn days_of(case: &DatedCase, path: &[Key]) -> Option<(u32, u32)> {
    let rows = || path.iter().map(|key| case.rows[key.2 - 1]);
    let mut begins = rows().map(|row| row.first_day).chain([case.window.first]);
    let mut ends = rows().map(|row| row.last_day).chain([case.window.last]);
    let first = begins.find(|day| has(case, path, *day))?;
    Some((first, ends.find(|day| has(case, path, *day)).expect("some day is the last")))
}

/// The paths with days, in path order, and the days of each.
fn dated_paths(case: &DatedCase, mut paths: Vec<Path>) -> Vec<(Path, (u32, u32))> {
    paths.sort();
    let with_days = |path: Path| days_of(case, &path.0).map(|days| (path, days));
    paths.into_iter().filter_map(with_days).collect()
}

/// The refusal of a build of these paths, in the order of the sentences.
fn refusal(case: &DatedCase, paths: &[(Path, (u32, u32))]) -> u32 {
    let n = paths.len();
    let (orphan, multi, cycle) = (case.code % 4, case.code / 4 % 3, case.code / 12);
    let short = case.index.len() < 8 + 6 * n || case.totals.len() < n + 1;
    let mut bearers: HashMap<u32, u32> = HashMap::new();
    for ((path, _), _) in paths {
        *bearers.entry(path[path.len() - 1].1).or_insert(0) += 1;
    }
    // In path order the next is an extension where there is one.
    let extended = |place: usize| {
        paths.get(place + 1).is_some_and(|((next, _), _)| next.starts_with(&paths[place].0 .0))
    };
    let shared = |place: usize| {
        let path = &paths[place].0 .0;
        bearers[&path[path.len() - 1].1] > 1
    };
    match () {
        _ if case.code > 23 => 6,
        _ if case.window.first > case.window.last => 20,
        _ if orphan != 0 => 7,
        _ if n > 65_535 || short || case.days.len() < 2 * n => 9,
        _ if cycle == 1 && paths.iter().any(|((_, closing), _)| *closing) => 10,
        _ if multi == 2 && (0..n).any(shared) => 11,
        _ if multi == 1 && (0..n).any(|place| shared(place) && extended(place)) => 11,
        _ => 0,
    }
}

/// What the build has to answer and leave, from the paths alone, with days or without.
fn wanted(case: &DatedCase, paths: Vec<Path>) -> Left {
    let paths = dated_paths(case, paths);
    let refusal = refusal(case, &paths);
    let (mut index, mut totals, mut days) =
        (case.index.clone(), case.totals.clone(), case.days.clone());
    if refusal != 0 {
        index.fill(0);
        totals.fill(0);
        days.fill(0);
        return (Built { refusal, nodes: 0, left: 0 }, index, totals, days);
    }
    let n = paths.len();
    let ranks: HashMap<&[Key], u32> =
        paths.iter().map(|((path, _), _)| path.as_slice()).zip(1..).collect();
    let mut ended = vec![false; case.rows.len()];
    let mut check = 0u32;
    totals[0] = 0;
    for (place, ((path, closing), (first, last))) in paths.iter().enumerate() {
        let (_, numeral, number) = path[path.len() - 1];
        let extends = |other: &&(Path, (u32, u32))| other.0 .0.starts_with(path);
        let size = paths[place..].iter().take_while(extends).count();
        let parent = ranks.get(&path[..path.len() - 1]).copied().unwrap_or(0);
        let level = path.len() as u32 | (*closing as u32) << 30;
        let words = [numeral, number as u32, size as u32, parent, ranks[&path[..1]], level];
        check = words.iter().fold(check, |sum, word| sum.wrapping_add(*word));
        index[8 + 6 * place..][..6].copy_from_slice(&words);
        totals[place + 1] = totals[place] + case.rows[number - 1].minutes as i64;
        days[2 * place..][..2].copy_from_slice(&[*first, *last]);
        ended[number - 1] = true;
    }
    index[..8].copy_from_slice(&[n as u32, 8, 6, check, 0, 0, 0, 0]);
    let left = ended.iter().filter(|end| !**end).count() as u32;
    (Built { refusal: 0, nodes: n as u32, left }, index, totals, days)
}

fn key(rows: &[Row], number: usize) -> Key {
    (rows[number - 1].order, rows[number - 1].numeral, number)
}

/// The regular paths by trying every row list of up to one row more than there are.
fn every_list(case: &DatedCase) -> Vec<Path> {
    let rows = &case.rows;
    let mut paths = Vec::new();
    let mut lists: Vec<Vec<usize>> = vec![Vec::new()];
    for _ in 0..=rows.len() {
        let longer = |list: &Vec<usize>| -> Vec<Vec<usize>> {
            (1..=rows.len()).map(|number| [&list[..], &[number]].concat()).collect()
        };
        lists = lists.iter().flat_map(longer).collect();
        for list in &lists {
            if let Some(closing) = regular(case, list) {
                paths.push((list.iter().map(|number| key(rows, *number)).collect(), closing));
            }
        }
    }
    paths
}

/// Whether the list is a regular path; if so, whether it closes.
fn regular(case: &DatedCase, list: &[usize]) -> Option<bool> {
    let row = |place: usize| case.rows[list[place] - 1];
    let last = list.len() - 1;
    let met = |place: usize| (0..place).any(|other| row(other).numeral == row(place).numeral);
    let regular = case.start().takes(&row(0))
        && (1..=last).all(|place| row(place).parent == row(place - 1).numeral)
        && !(0..last).any(met)
        && case.depth.is_none_or(|d| last as i64 <= d as i64);
    regular.then(|| met(last))
}

/// The regular paths from the reference's build without a window, or none when more than `most`.
fn all_paths(case: &DatedCase, most: usize) -> Option<Vec<Path>> {
    let forest = forest(&case.rows, 0, case.depth, case.start(), &|n| n <= most).ok()?;
    let path = |node: &Node| {
        (node.rows.iter().map(|number| key(&case.rows, *number)).collect(), node.closing)
    };
    Some(forest.nodes.iter().map(path).collect())
}

#[test]
fn dated_builds_by_every_list() {
    let mut random = Random::announced("dated builds by every list", 91);
    let mut facts = Counts::new(dated::FACTS);
    let mut refusals = Counts::new(dated::REFUSALS);
    let mut accepted = 0;
    for _ in 0..20_000 {
        let shape = random.pick(&SHAPES);
        let size = random.between(1, 4);
        let plain = rows(&mut random, shape, size);
        let kinds = [Dating::Mixed, Dating::Backward, random.pick(&DATINGS)];
        let kind = random.pick(&kinds);
        let rows = dated(&mut random, kind, &plain);
        let case = dated_case_of(&mut random, rows);
        let left = run(&case);
        assert_eq!(left, wanted(&case, every_list(&case)), "{case:?}");
        let (built, index, _, days) = left;
        if built.refusal == 0 {
            assert!(index_check(&index));
            accepted += 1;
            facts.add(dated::facts(&case, &index, &days));
        } else {
            refusals.add(dated::refusals(&case, built.refusal));
        }
    }
    println!("{accepted} accepted");
    // Those of boards that have many rows, deep paths or very many don't count, nor does an empty one.
    let large = |name: &str| {
        ["1,024", "above 100", "over 500", "more regular paths", "no rows", "9 without"]
            .iter()
            .any(|part| name.contains(part))
    };
    facts.expect_above(10, large);
    refusals.expect_above(20, |name| name.contains("too many nodes"));
}

/// Boards up to 1,024 rows. Where the regular paths are few, the image is formed anew from them; else
/// from those with days, which are found row by row.
#[test]
fn generated_dated_builds() {
    let mut random = Random::announced("generated dated builds", 92);
    let mut facts = Counts::new(dated::FACTS);
    let mut refusals = Counts::new(dated::REFUSALS);
    let mut seen = BTreeMap::new();
    let (mut by_all, mut by_rows) = (0, 0);
    for _ in 0..6_000 {
        let case = dated_case(&mut random);
        let left = run(&case);
        let of_rows = dated_by_rows(&case.rows, case.asked(), &|n| n <= 3_000);
        if let Some(paths) = all_paths(&case, 1_500) {
            assert!(left == wanted(&case, paths), "{case:?}");
            let of_all = dated_of_all(&case.rows, case.asked(), 1_500);
            assert!(of_all == of_rows.ok(), "{case:?}");
            by_all += 1;
        } else if let Ok(nodes) = of_rows {
            let path = |node: &Node| {
                (node.rows.iter().map(|k| key(&case.rows, *k)).collect(), node.closing)
            };
            assert!(left == wanted(&case, nodes.iter().map(path).collect()), "{case:?}");
            by_rows += 1;
        }
        let (built, index, _, days) = left;
        *seen.entry(built.refusal).or_insert(0) += 1;
        if built.refusal == 0 {
            assert!(index_check(&index));
            facts.add(dated::facts(&case, &index, &days));
        } else {
            refusals.add(dated::refusals(&case, built.refusal));
        }
    }
    println!("{seen:?}; by all regular paths {by_all}, by those with days {by_rows}");
    facts.expect_above(10, |_| false);
    refusals.expect_above(10, |_| false);
    assert_eq!(seen.keys().copied().collect::<Vec<_>>(), [0, 6, 7, 9, 10, 11, 20]);
    assert!(by_all > 4_000 && by_rows > 200);
}

/// From boards, with noise in the words beyond; unsound ones are refused as 1.
#[test]
fn dated_builds_of_boards() {
    let mut random = Random::announced("dated builds of boards", 93);
    for _ in 0..400 {
        let case = dated_case(&mut random);
        let board = holding(&mut random, &case.rows);
        let (mut index, mut totals) = (case.index.clone(), case.totals.clone());
        let mut days = case.days.clone();
        let built = build_dated_board(&board, case.asked(), &mut index, &mut totals, &mut days);
        assert!((built, index, totals, days) == run(&case), "{case:?}");
    }
    for (name, board) in unsound_boards(&mut random) {
        let case = dated_case_of(&mut random, Vec::new());
        let (mut index, mut totals, mut days) = (case.index.clone(), case.totals.clone(), [5; 3]);
        let built = build_dated_board(&board, case.asked(), &mut index, &mut totals, &mut days);
        assert_eq!(built, Built { refusal: 1, nodes: 0, left: 0 }, "{name}");
        assert!(index.iter().all(|word| *word == 0) && totals.iter().all(|word| *word == 0));
        assert_eq!(days, [0; 3]);
    }
}

/// The nodes of a window are those of all days that have days in it.
#[test]
fn smaller_windows() {
    let mut random = Random::announced("smaller windows", 94);
    let mut fewer = 0;
    for _ in 0..2_000 {
        let case = dated_case(&mut random);
        let whole = Asked { window: Days::ALL, ..case.asked() };
        let Ok(all) = dated_by_rows(&case.rows, whole, &|n| n <= 1_000) else { continue };
        let inside = dated_by_rows(&case.rows, case.asked(), &|_| true).unwrap();
        let days = |node: &Node| reference::dated::path_days(&case.rows, node, Days::ALL);
        let kept: Vec<Node> =
            all.iter().filter(|node| !days(node).common(case.window).is_empty()).cloned().collect();
        assert!(inside == kept, "{case:?}");
        fewer += (kept.len() < all.len()) as u32;
    }
    println!("{fewer} windows with fewer nodes");
    assert!(fewer > 500);
}

/// Builds without a window read no days.
#[test]
fn builds_without_a_window() {
    let mut random = Random::announced("builds without a window", 95);
    let mut with_days = 0;
    for _ in 0..1_500 {
        let case = build_case(&mut random);
        let undated: Vec<Row> = case.rows.iter().map(|row| row.on(0, u32::MAX)).collect();
        with_days += (undated != case.rows) as u32;
        let run = |rows: &[Row]| {
            let (mut index, mut totals) = (case.index.clone(), case.totals.clone());
            let built = build(rows, case.code, case.depth, case.start(), &mut index, &mut totals);
            (built, index, totals)
        };
        assert!(run(&case.rows) == run(&undated), "{case:?}");
    }
    println!("{with_days} boards with days");
    assert!(with_days > 500);
}

#[test]
fn node_limit() {
    let mut random = Random::announced("node limit of dated builds", 96);
    let mut left_over = 0;
    for nodes in [65_534, 65_535, 65_536] {
        let case = large_case(&mut random, nodes);
        let (built, index, totals, days) = run(&case);
        if nodes > 65_535 {
            assert_eq!(built, Built { refusal: 9, nodes: 0, left: 0 });
            assert!(index.iter().chain(&days).all(|word| *word == 0));
            assert!(totals.iter().all(|word| *word == 0));
            continue;
        }
        assert_eq!((built.refusal, built.nodes), (0, nodes as u32));
        left_over += built.left;
        assert!(index_check(&index));
        let pairs = days[..2 * nodes].chunks(2);
        assert!(pairs.into_iter().all(|pair| {
            pair[0] == case.window.first && pair[0] <= pair[1] && pair[1] <= case.window.last
        }));
        assert_eq!(days[2 * nodes..], case.days[2 * nodes..]);
        assert!(case.rows.len() <= MAX_ROWS);
    }
    assert!(left_over > 0);
}

#[test]
fn small_boards_are_all_different() {
    let boards: Vec<Vec<Row>> = small_dated_boards(2, 2).collect();
    assert_eq!(boards.len(), 1 + 48 + 48 * 48);
    let words = |row: &Row| (row.parent, row.numeral, row.order, row.first_day, row.last_day);
    let mut lists: Vec<Vec<_>> =
        boards.iter().map(|rows| rows.iter().map(words).collect()).collect();
    lists.sort();
    lists.dedup();
    assert_eq!(lists.len(), boards.len());
}

/// Boards that histories leave, built with windows: what edits carry is what the build reads.
#[test]
fn dated_builds_after_histories() {
    let mut random = Random::announced("dated builds after histories", 97);
    let (mut accepted, mut nodes, mut refused_rows) = (0, 0, 0);
    for _ in 0..400 {
        let (mut board, mut machine) = (Board::EMPTY, Machine::new());
        for call in history(&mut random, History::Dated) {
            let edited = board.call(call);
            assert_eq!(edited.refusal, machine.call(call));
            refused_rows += (edited.refusal == 20) as u32;
            board = edited.board;
        }
        let case = dated_case_of(&mut random, machine.rows);
        let (mut index, mut totals) = (case.index.clone(), case.totals.clone());
        let mut days = case.days.clone();
        let built = build_dated_board(&board, case.asked(), &mut index, &mut totals, &mut days);
        assert!((built, index, totals, days) == run(&case), "{case:?}");
        accepted += (built.refusal == 0) as u32;
        nodes += built.nodes;
    }
    println!("{accepted} accepted, {nodes} nodes, {refused_rows} rows refused by 20");
    assert!(accepted > 150 && nodes > 2_000 && refused_rows > 500);
}
