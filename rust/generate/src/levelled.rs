//! Levelled lists, slices for their builds, and what the lists of a test come to.

use crate::builds::slice_lengths;
use crate::random::Random;
use reference::levelled::{line_order, BLANK};
use reference::{BODY, CONTENTS, MAX_LINES, MAX_WIDTH};
use std::collections::HashSet;

/// What the cells of a list are.
#[derive(Clone, Copy, Debug, PartialEq, Eq)]
pub enum Cells {
    /// Any numbers; a tenth blank, or none.
    Any,
    /// Two to nine numbers, so that beginnings are shared; a tenth blank, or none.
    Few,
    /// The smallest and the largest numbers, and blanks beside them.
    Ends,
    /// Few filled cells on a line: blanks in front, between and behind.
    Sparse,
    /// A maker's sheet: a tree whose lines are filled from the first column down to
    /// a part; on some, columns in between or in front are left out.
    Sheet,
    /// One to three lines of few numbers, over and over.
    Repeated,
}

/// All kinds of cells.
pub const CELLS: [Cells; 6] =
    [Cells::Any, Cells::Few, Cells::Ends, Cells::Sparse, Cells::Sheet, Cells::Repeated];

/// A number other than 0, or in a tenth of cases a blank where blanks are allowed.
fn cell(random: &mut Random, most: u32, blanks: bool) -> u32 {
    if blanks && random.chance(1, 10) {
        return BLANK;
    }
    1 + (random.draw() % most as u64) as u32
}

/// A line of a sheet: the number of a part, and before it those of the assemblies that it
/// is in, each the number behind it divided. Some end before the part; in some a column
/// in between, or all in front, are blank.
fn sheet_line(random: &mut Random, width: usize, divisor: u32, parts: usize) -> Vec<u32> {
    let mut part = random.below(parts) as u32;
    let mut line = vec![BLANK; width];
    for place in (0..width).rev() {
        line[place] = 1 + part;
        part /= divisor;
    }
    let end = if random.chance(1, 3) { random.between(1, width) } else { width };
    line[end..].fill(BLANK);
    if random.chance(1, 4) {
        line[random.below(width)] = BLANK;
    }
    if random.chance(1, 12) {
        let end = random.below(width);
        line[..end].fill(BLANK);
    }
    line
}

/// Lines of one kind.
pub fn lines(random: &mut Random, cells: Cells, count: usize, width: usize) -> Vec<Vec<u32>> {
    let blanks = random.chance(2, 3);
    let most = random.between(2, 9) as u32;
    let (divisor, parts) = (random.between(2, 4) as u32, random.between(1, 2 * count.max(1)));
    let few = random.between(1, 3);
    let mut list: Vec<Vec<u32>> = Vec::new();
    for number in 0..count {
        list.push(match cells {
            Cells::Any => (0..width).map(|_| cell(random, u32::MAX, blanks)).collect(),
            Cells::Few => (0..width).map(|_| cell(random, most, blanks)).collect(),
            Cells::Ends => {
                let ends = [BLANK, 1, 2, 0x7fff_ffff, 0x8000_0000, u32::MAX - 1, u32::MAX];
                (0..width).map(|_| random.pick(&ends)).collect()
            }
            Cells::Sparse => {
                let filled = random.below(3);
                let mut line = vec![BLANK; width];
                for _ in 0..filled {
                    line[random.below(width)] = cell(random, most, false);
                }
                line
            }
            Cells::Sheet => sheet_line(random, width, divisor, parts),
            Cells::Repeated if number < few => {
                (0..width).map(|_| cell(random, most, blanks)).collect()
            }
            Cells::Repeated => list[random.below(few)].clone(),
        });
    }
    list
}

/// Puts lines in sorted order, that order reversed, or leaves them; some wholly blank
/// ones take the place of others.
fn arrange(random: &mut Random, list: &mut [Vec<u32>]) {
    if random.chance(1, 4) {
        for _ in 0..random.between(1, 3) {
            if !list.is_empty() {
                list[random.below(list.len())].fill(BLANK);
            }
        }
    }
    match random.below(5) {
        0 => list.sort_by(|a, b| line_order(a, b)),
        1 => {
            list.sort_by(|a, b| line_order(a, b));
            list.reverse();
        }
        _ => {}
    }
}

/// Cells of a list of `count` lines.
pub fn list(random: &mut Random, cells: Cells, count: usize, width: usize) -> Vec<u32> {
    let mut list = lines(random, cells, count, width);
    arrange(random, &mut list);
    list.concat()
}

/// The number of distinct beginnings that end in a filled cell; 0 where the cells are no
/// list, or one that is too long.
pub fn node_count(cells: &[u32], width: u32) -> usize {
    if refusal(cells, width) != 0 {
        return 0;
    }
    let mut found = HashSet::new();
    for line in cells.chunks(width as usize) {
        for length in 1..=line.len() {
            if line[length - 1] != BLANK {
                found.insert(&line[..length]);
            }
        }
    }
    found.len()
}

/// 18, 19, or 0.
fn refusal(cells: &[u32], width: u32) -> u32 {
    if width == 0 || width > MAX_WIDTH || !cells.len().is_multiple_of(width as usize) {
        18
    } else if cells.len() / width as usize > MAX_LINES {
        19
    } else {
        0
    }
}

/// Arguments of one build of a levelled list; slices are filled with noise beforehand.
#[derive(Clone, Debug)]
pub struct LevelledCase {
    pub cells: Vec<u32>,
    pub width: u32,
    pub index: Vec<u32>,
    pub totals: Vec<i64>,
}

/// The build with random slices; those of cells that are no list often hold no node.
fn with_slices(random: &mut Random, cells: Vec<u32>, width: u32) -> LevelledCase {
    let list = refusal(&cells, width) == 0;
    let (index, totals) = if !list && random.chance(1, 4) {
        (random.below(CONTENTS + 1), random.below(2))
    } else {
        let n = if list { node_count(&cells, width) } else { random.below(60) };
        slice_lengths(random, n)
    };
    let (index, totals) = (random.noise(index), random.wide_noise(totals));
    LevelledCase { cells, width, index, totals }
}

/// A width that no list has.
fn wrong_width(random: &mut Random) -> u32 {
    match random.below(4) {
        0 => 0,
        1 => MAX_WIDTH + 1,
        2 => MAX_WIDTH + random.between(1, 600) as u32,
        // Those that are a width but for a higher bit are among them.
        _ => random.pick(&[u32::MAX, 1 << 31, (1 << 31) + 3, (1 << 16) + 8, (1 << 8) + 1, 1 << 8]),
    }
}

/// A random build: mostly of a list of up to 40 lines; of no line, of near 512, of more,
/// of a wrong width, or of cells that aren't whole lines.
pub fn levelled_case(random: &mut Random) -> LevelledCase {
    let cells = random.pick(&CELLS);
    let width = random.between(1, MAX_WIDTH as usize);
    let count = match random.below(60) {
        0 => 0,
        1 => 1,
        2 => random.between(100, 300),
        3 | 4 => random.pick(&[MAX_LINES - 1, MAX_LINES]),
        5 | 6 => MAX_LINES + 1,
        7 => MAX_LINES + random.between(1, 600),
        8..=30 => random.between(1, 6),
        _ => random.between(1, 40),
    };
    let mut cells = list(random, cells, count, width);
    let mut width = width as u32;
    match random.below(16) {
        0 => {
            width = wrong_width(random);
            // Whole lines of that width, as often as not.
            if width != 0 && random.chance(1, 2) {
                cells.truncate(cells.len() - cells.len() % width as usize);
            }
        }
        1 if width > 1 => {
            let part = random.between(1, width as usize - 1);
            cells.extend(random.noise(part));
        }
        // Another width, by which the cells are whole lines or aren't.
        2 => width = random.between(1, MAX_WIDTH as usize) as u32,
        _ => {}
    }
    with_slices(random, cells, width)
}

/// A build of `count` lines, in slices that hold it.
pub fn fitting_case(random: &mut Random, kind: Cells, count: usize, width: u32) -> LevelledCase {
    let cells = list(random, kind, count, width as usize);
    let n = node_count(&cells, width);
    let beyond = random.below(9);
    let index = random.noise(CONTENTS + BODY * n + beyond);
    let totals = random.wide_noise(n + 1 + beyond);
    LevelledCase { cells, width, index, totals }
}

/// What a list comes to whose build is accepted, by name.
pub const FACTS: [&str; 18] = [
    "blank in front of a filled cell",
    "blank between filled cells",
    "blank behind filled cells",
    "wholly blank line",
    "wholly blank line not the last",
    "equal lines",
    "beginning shared by lines that differ",
    "line that is a beginning of another but for blanks",
    "lines alike but for the columns",
    "numeral of two nodes",
    "largest number",
    "every cell a node",
    "no lines",
    "512 lines",
    "one column",
    "eight columns",
    "sorted beforehand",
    "reversed beforehand",
];

/// The filled cells of a line.
fn filled(line: &[u32]) -> Vec<u32> {
    line.iter().copied().filter(|cell| *cell != BLANK).collect()
}

/// A line up to its last filled cell.
fn trimmed(line: &[u32]) -> &[u32] {
    let end = line.iter().rposition(|cell| *cell != BLANK).map_or(0, |place| place + 1);
    &line[..end]
}

/// Which of [`FACTS`] the list of the case has, whose build was accepted and left the index.
pub fn facts(case: &LevelledCase, index: &[u32]) -> [bool; FACTS.len()] {
    let lines: Vec<&[u32]> = case.cells.chunks(case.width as usize).collect();
    let any = |test: &dyn Fn(&[u32]) -> bool| lines.iter().any(|line| test(line));
    let blank = |line: &[u32]| trimmed(line).is_empty();
    let mut met = HashSet::new();
    let distinct: Vec<&[u32]> = lines.iter().copied().filter(|line| met.insert(*line)).collect();
    // The first 60 do: so the counts are the same in each run.
    let few = &distinct[..distinct.len().min(60)];
    let pair = |test: &dyn Fn(&[u32], &[u32]) -> bool| {
        few.iter().any(|a| few.iter().any(|b| a != b && test(a, b)))
    };
    let n = index[0] as usize;
    let bodies = index[CONTENTS..CONTENTS + BODY * n].chunks(BODY);
    let numerals: HashSet<u32> = bodies.map(|body| body[0]).collect();
    let mut sorted = lines.clone();
    sorted.sort_by(|a, b| line_order(a, b));
    let several = distinct.len() > 2;
    [
        any(&|line| line[0] == BLANK && !blank(line)),
        any(&|line| {
            let line = trimmed(line);
            let first = line.iter().position(|cell| *cell != BLANK);
            first.is_some_and(|first| line[first..].contains(&BLANK))
        }),
        any(&|line| trimmed(line).len() < line.len() && !blank(line)),
        any(&|line| blank(line)),
        lines.iter().rposition(|line| !blank(line)) > lines.iter().position(|line| blank(line))
            && any(&|line| blank(line)),
        distinct.len() < lines.len(),
        pair(&|a, b| a[0] == b[0] && a[0] != BLANK),
        pair(&|a, b| !blank(a) && trimmed(a).len() < a.len() && b.starts_with(trimmed(a))),
        pair(&|a, b| !blank(a) && filled(a) == filled(b)),
        numerals.len() < n,
        any(&|line| line.contains(&u32::MAX)),
        n == case.cells.len() && n > 0,
        lines.is_empty(),
        lines.len() == MAX_LINES,
        case.width == 1,
        case.width == MAX_WIDTH,
        several && sorted == lines,
        several && sorted.iter().rev().eq(lines.iter()),
    ]
}

/// Why lists are refused, by name.
pub const REFUSALS: [&str; 10] = [
    "18, width 0",
    "18, width above 8",
    "18, width above 8 that fits the cells",
    "18, part of a line",
    "18, part of a line behind 512 lines",
    "18, index under 8 words or no total",
    "19, one line too many",
    "19, index under 8 words or no total",
    "9, index a word short",
    "9, totals one short",
];

/// Which of [`REFUSALS`] the case has, whose build was refused.
pub fn refusals(case: &LevelledCase, refused: u32) -> [bool; REFUSALS.len()] {
    let (length, width) = (case.cells.len(), case.width as usize);
    let n = node_count(&case.cells, case.width);
    let (index, totals) = (case.index.len(), case.totals.len());
    let wide = case.width > MAX_WIDTH;
    let part = refused == 18 && width > 0 && !wide;
    [
        case.width == 0,
        wide,
        wide && length > 0 && length.is_multiple_of(width),
        part,
        part && length / width >= MAX_LINES,
        refused == 18 && (index < CONTENTS || totals == 0),
        refused == 19 && length / width == MAX_LINES + 1,
        refused == 19 && (index < CONTENTS || totals == 0),
        refused == 9 && index == CONTENTS + BODY * n - 1 && totals > n,
        refused == 9 && totals == n && index >= CONTENTS + BODY * n,
    ]
}
