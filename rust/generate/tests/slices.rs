//! Navigation, the index check and the listing program on generated slices.

use generate::indexes::foreign;
use generate::*;
use reference::*;

/// The index check in one pass over a chain of open intervals.
fn check_in_one_pass(index: &[u32]) -> bool {
    if index.len() < 8 || index[1] != 8 || index[2] != 6 || index[4..8] != [0; 4] {
        return false;
    }
    let n = index[0] as usize;
    if n > 65_535 || index.len() < 8 + 6 * n {
        return false;
    }
    let words = &index[8..8 + 6 * n];
    if words.iter().fold(0u32, |sum, word| sum.wrapping_add(*word)) != index[3] {
        return false;
    }
    // Open intervals: rank and end.
    let mut open: Vec<(usize, u64)> = Vec::new();
    for rank in 1..=n {
        while open.last().is_some_and(|(_, end)| *end < rank as u64) {
            open.pop();
        }
        let body = &words[6 * (rank - 1)..6 * rank];
        let end = rank as u64 + body[2] as u64 - 1;
        let (parent, last, root, above) = match open.last() {
            None => (0, n as u64, rank as u32, 0),
            Some((parent, last)) => {
                let words = &words[6 * (parent - 1)..6 * parent];
                (*parent, *last, words[4], words[5] & 0xffff)
            }
        };
        if body[2] == 0
            || end > last
            || body[3] != parent as u32
            || body[4] != root
            || body[5] & 0x3fff_0000 != 0
            || body[5] & 0xffff <= above
        {
            return false;
        }
        open.push((rank, end));
    }
    true
}

#[test]
fn index_checks() {
    let mut random = Random::announced("index checks", 31);
    let mut seen = [0, 0];
    for _ in 0..20_000 {
        let index = index(&mut random);
        let answer = index_check(&index);
        assert_eq!(answer, check_in_one_pass(&index), "{index:?}");
        seen[answer as usize] += 1;
    }
    println!("no, yes: {seen:?}");
    assert!(seen[0] > 2_000 && seen[1] > 2_000, "{seen:?}");
}

#[test]
fn large_foreign_indexes() {
    let mut random = Random::announced("large foreign indexes", 32);
    for n in [0, 1, 9_000, 12_000] {
        let mut index = foreign(&mut random, n);
        assert!(index_check(&index));
        generate::indexes::damage(&mut random, &mut index);
        assert_eq!(index_check(&index), check_in_one_pass(&index));
    }
    let index = foreign(&mut random, 65_536);
    assert!(!index_check(&index));
}

#[test]
fn navigation_on_any_slices() {
    let mut random = Random::announced("navigation on any slices", 33);
    let mut seen = [[0u32; 17]; 6];
    for _ in 0..30_000 {
        let case = navigation_case(&mut random);
        let (index, totals, rank) = (&case.index[..], &case.totals[..], case.rank);

        let spanned = span(index, rank);
        assert!(spanned.words.end <= index.len());
        assert!(spanned.refusal == 0 || spanned.words == (0..0));
        seen[0][spanned.refusal as usize] += 1;

        let mut list = case.list.clone();
        let listed = descendants(index, rank, case.lower, case.upper, &mut list);
        written(&case, &list, listed.refusal, listed.length, |k| k > 0);
        seen[1][listed.refusal as usize] += 1;

        let mut list = case.list.clone();
        let climbed = ancestors(index, rank, case.lower, case.upper, &mut list);
        written(&case, &list, climbed.refusal, climbed.length, |k| k < 0);
        assert!(climbed.refusal == 0 || climbed.links == 0);
        seen[2][climbed.refusal as usize] += 1;

        let mut list = case.list.clone();
        let listed = siblings(index, rank, &mut list);
        written(&case, &list, listed.refusal, listed.length, |k| k > 0);
        seen[3][listed.refusal as usize] += 1;

        let summed = subtree_sum(index, totals, rank);
        assert!(summed.refusal == 0 || summed.sum == 0);
        seen[4][summed.refusal as usize] += 1;

        let summed = path_sum(index, totals, rank);
        assert!(summed.refusal == 0 || summed.sum == 0);
        seen[5][summed.refusal as usize] += 1;
    }
    for (call, refusals) in seen.iter().enumerate() {
        println!("call {call}: none {}, 13 to 16 {:?}", refusals[0], &refusals[13..]);
        let list = (1..=3).contains(&call);
        let fifteen = call != 3;
        assert!(refusals[0] > 1_000 && refusals[13] > 500 && refusals[14] > 500);
        assert_eq!(refusals[15] > 300, fifteen);
        assert_eq!(refusals[16] > 300, list);
        assert!(list || refusals[16] == 0);
    }
}

/// Words beyond the length are as before; a refused call writes nothing; the
/// ranks listed go one way.
fn written(case: &NavigationCase, list: &[u32], refusal: u32, length: u32, way: fn(i64) -> bool) {
    let length = length as usize;
    assert!(refusal == 0 || length == 0);
    assert_eq!(list[length..], case.list[length..]);
    for pair in list[..length].windows(2) {
        assert!(way(pair[1] as i64 - pair[0] as i64));
    }
}

/// Whether the rows of an input without a bad line have an island, which a table shows as an entry.
fn has_islands(input: &[u8]) -> bool {
    let text = std::str::from_utf8(input).unwrap();
    let rows: Vec<Row> = text
        .lines()
        .map(|line| {
            let fields: Vec<i64> = line.split(' ').map(|field| field.parse().unwrap()).collect();
            Row::undated(fields[0] as u32, fields[1] as u32, fields[2] as u32, fields[3] as i32)
        })
        .collect();
    islands::islands(&rows, Start::ParentZero).contains(&true)
}

#[test]
fn listings() {
    let mut random = Random::announced("listings", 34);
    let (mut tables, mut entries, mut bad, mut refused) = (0, 0, 0, [0; 13]);
    for _ in 0..600 {
        let input = listing(&mut random);
        let output = String::from_utf8(numerals(&input)).unwrap();
        assert!(output.ends_with('\n'));
        if let Some(number) = output.strip_prefix("refused ") {
            refused[number.trim_end().parse::<usize>().unwrap()] += 1;
        } else if output.starts_with("bad line ") {
            bad += 1;
            assert_eq!(output.lines().count(), 1);
        } else {
            tables += 1;
            entries += has_islands(&input) as u32;
            assert!(output.starts_with("rank size parent level root cycle orphan id sum\n"));
            assert!(output.lines().skip(1).all(|line| line.split(' ').count() == 9));
        }
    }
    println!("tables {tables}, {entries} with entries, bad lines {bad}, refusals {refused:?}");
    assert!(
        tables > 100
            && entries > 40
            && bad > 20
            && refused[2] > 3
            && refused[3] > 3
            && refused[9] > 3
    );
}

#[test]
fn the_same_seed_gives_the_same_cases() {
    let text = |seed: u64| {
        let mut random = Random::new(seed);
        let mut text = String::new();
        for kind in HISTORIES {
            text += &format!("{:?}", history(&mut random, kind));
        }
        text += &format!("{:?} {:?}", build_case(&mut random), navigation_case(&mut random));
        text += &format!("{:?} {:?}", levelled_case(&mut random), listing(&mut random));
        text += &format!("{:?} {:?}", hop_case(&mut random), meeting_case(&mut random));
        text += &format!("{:?}", pull_case(&mut random));
        text
    };
    assert!(text(7) == text(7));
    assert!(text(7) != text(8));
}
