//! Times of the library and of the same jobs in plain Rust (`differential::baseline`), taken in turn in one run, best
//! of several. Prints one line for each job, and for an edit by value how many copies of the board its time comes to
//! beyond that of a call that does nothing; then the same node lists by recursive queries of the databases that are
//! installed.
#![forbid(unsafe_code)]

use differential::baseline;
use differential::databases::DATABASES;
use flowpewter::sys::{self, Built, ClimbedOne, Edited};
use flowpewter::{
    bodies, days_len, index_len, totals_len, Board, Days, Entry, Row, BODY, CONTENTS,
    JOURNAL_PLACES, LAST_DAY, MAX_LINES, MAX_NODES, MAX_WIDTH,
};
use generate::indexes::seal;
use generate::Random;
use std::hint::black_box;
use std::mem::size_of;
use std::time::Instant;

/// Two numerals on each of 15 levels, each row below both of the level above: 65,534 nodes of 58 rows.
fn wide() -> Vec<Row> {
    let mut rows = vec![Row::new(0, 1, 1, 1), Row::new(0, 2, 2, 1)];
    for level in 1..15 {
        for parent in [2 * level - 1, 2 * level] {
            for numeral in [2 * level + 1, 2 * level + 2] {
                rows.push(Row::new(parent, numeral, numeral, 1));
            }
        }
    }
    rows
}

/// Each row below the one of half its number.
fn tree() -> Vec<Row> {
    (1..=1_024).map(|number| Row::new(number / 2, number, number * 7 % 13, 1)).collect()
}

/// The tree without every eighth row: what was below one is an orphan.
fn undrawn_tree() -> Vec<Row> {
    tree().into_iter().filter(|row| row.numeral % 8 != 0).collect()
}

/// The tree, with a parent for its root that no row has: all rows are orphans.
fn orphaned_tree() -> Vec<Row> {
    let mut rows = tree();
    rows[0].parent = 5_000;
    rows
}

/// The tree with equal orders, entered last to first: numerals decide, against all row numbers.
fn tied_tree() -> Vec<Row> {
    tree().into_iter().rev().map(|row| Row { order: 1, ..row }).collect()
}

fn chain() -> Vec<Row> {
    (1..=1_024).map(|number| Row::new(number - 1, number, 1, 1)).collect()
}

/// Seven numerals, each below every one of them: all paths close.
fn cyclic() -> Vec<Row> {
    let mut rows = vec![Row::new(0, 1, 1, 1)];
    for parent in 1..=7 {
        for numeral in 1..=7 {
            rows.push(Row::new(parent, numeral, numeral, 1));
        }
    }
    rows
}

/// Every row a root with nothing below.
fn leaves() -> Vec<Row> {
    (1..=1_024).map(|number| Row::new(0, number, 1, 1)).collect()
}

/// Rings of two rows: as many entries as fit but for rings of one row.
fn rings() -> Vec<Row> {
    (1..=1_024).map(|number| Row::new(((number - 1) ^ 1) + 1, number, number * 7 % 13, 1)).collect()
}

/// A ring of 512 rows with one more row below each: one entry, and the longest way round that leaves room for them.
fn ring_with_leaves() -> Vec<Row> {
    let row = |number, parent| Row::new(parent, number, number * 7 % 13, 1);
    let ring = (1..=512).map(|number| row(number, if number == 1 { 512 } else { number - 1 }));
    ring.chain((513..=1_024).map(|number| row(number, number - 512))).collect()
}

/// A chain of 1,022 rows below a ring of two rows that come last: each row of the chain is asked whether its numeral is
/// on a ring before the ring is found, and has all later rows of the chain below it.
fn chain_below_a_ring() -> Vec<Row> {
    let mut rows: Vec<Row> = (1..=1_022).map(|number| Row::new(number - 1, number, 1, 1)).collect();
    rows[0].parent = 1_024;
    rows.extend([Row::new(1_024, 1_023, 1, 1), Row::new(1_023, 1_024, 1, 1)]);
    rows
}

/// Each row below a drawn numeral of 300, of which the first is a start: plain paths are beyond counting.
fn dense() -> Vec<Row> {
    let mut random = Random::new(1);
    let mut any = || random.between(1, 300) as u32;
    let mut rows: Vec<Row> = (0..1_024).map(|_| Row::new(any(), any(), any() % 13, 1)).collect();
    rows[0] = Row::new(0, 1, 1, 1);
    rows
}

/// The board of the listing program's example in the scope paper: a ring, an orphan, two shared numerals.
fn sample() -> Vec<Row> {
    vec![
        Row::new(0, 10, 1, 5),
        Row::new(10, 20, 2, 3),
        Row::new(10, 30, 1, 4),
        Row::new(20, 40, 1, 2),
        Row::new(30, 40, 1, 1),
        Row::new(40, 20, 1, -1),
        Row::new(90, 91, 1, 7),
    ]
}

fn small() -> Vec<Row> {
    (1..=10).map(|number| Row::new(number / 2, number, 1, 1)).collect()
}

fn board(rows: &[Row]) -> Board {
    let mut board = Board::EMPTY;
    board.rows[..rows.len()].copy_from_slice(rows);
    board.count = rows.len();
    board.kept = 256;
    board.journal = [Entry { kind: Entry::TAKE_OUT, at: 0, row: rows[0] }; JOURNAL_PLACES];
    board
}

/// Best time of one run of each side in nanoseconds, the sides in turn.
fn race(rounds: u32, mut library: impl FnMut(), mut rust: impl FnMut()) -> (f64, f64) {
    let mut best = (f64::MAX, f64::MAX);
    let time = |job: &mut dyn FnMut()| {
        let start = Instant::now();
        for _ in 0..rounds {
            job();
        }
        start.elapsed().as_nanos() as f64 / rounds as f64
    };
    for _ in 0..25 {
        best.0 = best.0.min(time(&mut library));
        best.1 = best.1.min(time(&mut rust));
    }
    best
}

/// Nanoseconds as microseconds, to the nanosecond below 100.
fn micros(time: f64) -> String {
    let places = if time < 100.0 { 3 } else { 2 };
    format!("{:.places$}", time / 1_000.0)
}

/// The first five columns of a line.
fn line(job: &str, work: &str, (library, rust): (f64, f64)) -> String {
    let (l, r) = (micros(library), micros(rust));
    format!("| {job} | {work} | {l} | {r} | {:.2} |", library / rust)
}

fn print(job: &str, work: &str, times: (f64, f64)) {
    println!("{} |", line(job, work, times));
}

/// A build on both sides, into slices for as many nodes as there can be. Answers the library's time in microseconds.
fn race_builds(
    job: &str,
    rows: &[Row],
    rounds: u32,
    library: impl Fn(&Board, &mut [u32], &mut [i64]) -> Built,
    rust: impl Fn(&Board, &mut [u32], &mut [i64]) -> Built,
) -> f64 {
    let board = board(rows);
    let mut index = vec![0; index_len(MAX_NODES)];
    let mut totals = vec![0; totals_len(MAX_NODES)];
    let (mut other, mut others) = (index.clone(), totals.clone());
    let built = library(&board, &mut index, &mut totals);
    assert_eq!(built, rust(&board, &mut other, &mut others));
    assert!(index == other && totals == others);
    let times = race(
        rounds,
        || {
            black_box(library(black_box(&board), &mut index, &mut totals));
        },
        || {
            black_box(rust(black_box(&board), &mut other, &mut others));
        },
    );
    print(job, &format!("{} rows, {} nodes", rows.len(), built.nodes), times);
    times.0 / 1_000.0
}

fn builds(job: &str, rows: &[Row], code: u32, rounds: u32) -> f64 {
    race_builds(
        job,
        rows,
        rounds,
        |board, index, totals| sys::build(board, code, None, None, index, totals),
        |board, index, totals| baseline::build(board, code, None, None, index, totals),
    )
}

fn default_build(job: &str, rows: &[Row], rounds: u32) {
    race_builds(
        &format!("build by default, {job}"),
        rows,
        rounds,
        sys::build_default,
        |board, index, totals| baseline::build(board, 3, None, None, index, totals),
    );
}

fn shortest(job: &str, rows: &[Row], rounds: u32) {
    let board = board(rows);
    let (mut index, mut totals) = (vec![0; index_len(rows.len())], vec![0; totals_len(rows.len())]);
    let (mut other, mut others) = (index.clone(), totals.clone());
    let built = sys::build_shortest(&board, None, &mut index, &mut totals);
    let expected = baseline::build_shortest(&board, None, &mut other, &mut others);
    assert_eq!(built, expected);
    assert!(index == other && totals == others);
    let times = race(
        rounds,
        || {
            black_box(sys::build_shortest(black_box(&board), None, &mut index, &mut totals));
        },
        || {
            let board = black_box(&board);
            black_box(baseline::build_shortest(board, None, &mut other, &mut others));
        },
    );
    let work = format!("{} rows, {} nodes, {} rows left", rows.len(), built.nodes, built.left);
    print(&format!("build shortest, {job}"), &work, times);
}

fn shortest_placements() {
    shortest("tree", &tree()[..1_023], 20);
    shortest("wide", &wide(), 100);
    shortest("dense", &dense(), 20);
    shortest("chain", &chain(), 20);
    shortest("leaf roots", &leaves(), 20);
    shortest("sample", &sample(), 200);
}

/// A dated build by code 0 on both sides, into slices for as many nodes as there can be.
fn dated(job: &str, rows: &[Row], window: Days, rounds: u32) {
    let board = board(rows);
    let (mut index, mut totals) = (vec![0; index_len(MAX_NODES)], vec![0; totals_len(MAX_NODES)]);
    let mut days = vec![0; days_len(MAX_NODES)];
    let (mut other, mut others, mut other_days) = (index.clone(), totals.clone(), days.clone());
    let mut library = |board: &Board| {
        sys::build_dated(board, 0, None, None, window, &mut index, &mut totals, &mut days)
    };
    let mut rust = |board: &Board| {
        let (index, totals, days) = (&mut other, &mut others, &mut other_days);
        baseline::build_dated(board, 0, None, None, window, index, totals, days)
    };
    let built = library(&board);
    assert_eq!(built, rust(&board));
    let times = race(
        rounds,
        || {
            black_box(library(black_box(&board)));
        },
        || {
            black_box(rust(black_box(&board)));
        },
    );
    assert!(index == other && totals == others && days == other_days);
    let work = format!("{} rows, {} nodes, {} rows left", rows.len(), built.nodes, built.left);
    print(&format!("build dated, {job}"), &work, times);
}

/// The ladder; on day 20 and later only its odd numerals have days.
fn wide_by_turns() -> Vec<Row> {
    let days = |numeral| if numeral % 2 == 1 { (0, LAST_DAY) } else { (0, 9) };
    let turned = |row: Row| row.on(days(row.numeral).0, days(row.numeral).1);
    wide().into_iter().map(turned).collect()
}

/// The tree; a row has the days from its number on.
fn growing_tree() -> Vec<Row> {
    tree().into_iter().map(|row| row.on(row.numeral, LAST_DAY)).collect()
}

fn dated_builds() {
    dated("tree, all days", &growing_tree(), Days::ALL, 20);
    dated("tree, a window of half its rows", &growing_tree(), Days::new(512, 512), 20);
    dated("tree, a window of 20 rows", &growing_tree(), Days::new(20, 20), 20);
    dated("wide, all days", &wide_by_turns(), Days::ALL, 1);
    dated("wide, a window of one path", &wide_by_turns(), Days::new(20, 20), 100);
}

const WIDTH: usize = MAX_WIDTH as usize;

/// The largest levelled list, of drawn cells.
fn list(cell: impl Fn(&mut Random) -> u32) -> Vec<u32> {
    let mut random = Random::new(1);
    (0..WIDTH * MAX_LINES).map(|_| cell(&mut random)).collect()
}

fn any_cell(random: &mut Random) -> u32 {
    random.draw() as u32
}

/// 1 to 9, a tenth blank.
fn few(random: &mut Random) -> u32 {
    if random.chance(1, 10) {
        0
    } else {
        random.between(1, 9) as u32
    }
}

/// The lines of a list in sorted order.
fn sorted(cells: &[u32]) -> Vec<u32> {
    let mut lines: Vec<&[u32]> = cells.chunks(WIDTH).collect();
    lines.sort_by_key(|line| line.iter().map(|cell| cell.wrapping_sub(1)).collect::<Vec<_>>());
    lines.concat()
}

fn reversed(cells: &[u32]) -> Vec<u32> {
    cells.chunks(WIDTH).rev().flatten().copied().collect()
}

/// A maker's sheet: two parts to each assembly on every level but the first two, its lines in any order.
fn sheet() -> Vec<u32> {
    let line = |part: u32| [9, 8, 7, 6, 5, 3, 1, 0].map(|halved| 1 + (part >> halved));
    let mut lines: Vec<[u32; WIDTH]> = (0..MAX_LINES as u32).map(line).collect();
    Random::new(1).shuffle(&mut lines);
    lines.concat()
}

fn levelled(job: &str, cells: &[u32]) {
    let nodes = cells.len();
    let (mut index, mut totals) = (vec![0; index_len(nodes)], vec![0; totals_len(nodes)]);
    let (mut other, mut others) = (index.clone(), totals.clone());
    let built = sys::build_levelled(cells, MAX_WIDTH, &mut index, &mut totals);
    let expected = baseline::build_levelled(cells, MAX_WIDTH, &mut other, &mut others);
    assert_eq!(built, expected);
    assert!(index == other && totals == others);
    let times = race(
        20,
        || {
            black_box(sys::build_levelled(black_box(cells), MAX_WIDTH, &mut index, &mut totals));
        },
        || {
            let cells = black_box(cells);
            black_box(baseline::build_levelled(cells, MAX_WIDTH, &mut other, &mut others));
        },
    );
    let lines = cells.len() / WIDTH;
    print(job, &format!("{lines} lines of {WIDTH} cells, {} nodes", built.nodes), times);
}

fn levelled_lists() {
    let few = list(few);
    levelled("levelled list, any cells", &list(any_cell));
    levelled("levelled list, cells of 1 to 9, a tenth blank", &few);
    levelled("levelled list, the same sorted", &sorted(&few));
    levelled("levelled list, the same reversed", &reversed(&sorted(&few)));
    levelled("levelled list, all lines equal", &few[..WIDTH].repeat(MAX_LINES));
    levelled("levelled list, a maker's sheet", &sheet());
}

/// Times in nanoseconds of a call by the C convention that does nothing, and of one copy of the board.
#[derive(Clone, Copy)]
struct HandingOver {
    nothing: f64,
    copy: f64,
}

impl HandingOver {
    /// Prints a line for each.
    fn timed() -> HandingOver {
        let board = stepped(Entry::SET, 100, 100);
        assert_eq!(baseline::nothing(&board), Edited { board, refusal: 0 });
        let mut other = board;
        let (nothing, copy) = race(
            1_000,
            || {
                black_box(baseline::nothing(black_box(&board)));
            },
            || {
                other = *black_box(&board);
                black_box(&mut other);
            },
        );
        let work = format!("{} bytes", size_of::<Board>());
        println!(
            "| a call that does nothing, by value | {work} | | {:.2} | | |",
            nothing / 1_000.0
        );
        println!("| one copy of the board | {work} | | {:.2} | | |", copy / 1_000.0);
        HandingOver { nothing, copy }
    }

    /// The copies that a time comes to beyond that of a call that does nothing.
    fn copies(self, time: f64) -> f64 {
        (time - self.nothing) / self.copy
    }
}

/// An edit by value on both sides, then against Rust in place. In place, the numbers and the two entries beside the
/// cursor are put back before each call, so that each has the same work.
fn edit(
    handing_over: HandingOver,
    name: &str,
    work: &str,
    board: Board,
    library: impl Fn(&Board) -> Edited,
    by_value: impl Fn(Board) -> Edited,
    in_place: impl Fn(&mut Board) -> u32,
) {
    let edited = library(&board);
    assert_eq!(edited, by_value(board));
    let mut own = board;
    assert_eq!(edited.refusal, in_place(&mut own));
    assert_eq!(edited.board, own);

    let library = || {
        black_box(library(black_box(&board)));
    };
    let times = race(1_000, library, || {
        black_box(by_value(*black_box(&board)));
    });
    let by_value_line = line(&format!("{name}, both by value"), work, times);
    println!("{by_value_line} {:.1} |", handing_over.copies(times.0));
    let places = board.kept - 1..=board.kept;
    let in_place_times = race(1_000, library, || {
        (own.count, own.kept, own.undone) = (board.count, board.kept, board.undone);
        own.journal[places.clone()].copy_from_slice(&board.journal[places.clone()]);
        black_box(in_place(black_box(&mut own)));
    });
    print(&format!("{name}, Rust in place"), work, in_place_times);
}

fn add(handing_over: HandingOver, work: &str, board: Board) {
    let row = Row::new(3, 5, 7, 9);
    edit(
        handing_over,
        "add",
        work,
        board,
        |board| sys::add(board, row),
        |board| baseline::add(board, row),
        |board| baseline::add_in_place(board, row),
    )
}

fn undo(handing_over: HandingOver, step: &str, work: &str, board: Board) {
    let name = format!("undo of a {step}");
    edit(handing_over, &name, work, board, sys::undo, baseline::undo, baseline::undo_in_place)
}

fn redo(handing_over: HandingOver, step: &str, work: &str, board: Board) {
    let name = format!("redo of a {step}");
    edit(handing_over, &name, work, board, sys::redo, baseline::redo, baseline::redo_in_place)
}

/// 1,000 rows of the chain, and so many kept and undone steps, each an entry of the kind for row 500.
fn stepped(kind: u32, kept: usize, undone: usize) -> Board {
    let entry = Entry { kind, at: 499, row: Row::new(3, 5, 7, 9) };
    let board = board(&chain()[..1_000]);
    Board { kept, undone, journal: [entry; JOURNAL_PLACES], ..board }
}

fn edits() {
    let room = "1,000 rows, room in the journal";
    let full = "1,000 rows, full journal";
    let handing_over = HandingOver::timed();
    add(handing_over, room, stepped(Entry::SET, 100, 100));
    add(handing_over, full, stepped(Entry::SET, 256, 256));
    undo(handing_over, "remark", room, stepped(Entry::SET, 100, 100));
    undo(handing_over, "remark", full, stepped(Entry::SET, 256, 256));
    undo(handing_over, "withdrawal", room, stepped(Entry::PUT_IN, 100, 100));
    redo(handing_over, "remark", room, stepped(Entry::SET, 100, 100));
    redo(handing_over, "remark", full, stepped(Entry::SET, 256, 256));
    redo(handing_over, "withdrawal", room, stepped(Entry::TAKE_OUT, 100, 100));
}

/// The index of the wide board.
fn wide_index() -> Vec<u32> {
    let mut index = vec![0; index_len(MAX_NODES)];
    let mut totals = vec![0; totals_len(MAX_NODES)];
    baseline::build(&board(&wide()), 0, None, None, &mut index, &mut totals);
    index
}

fn navigation() {
    let index = wide_index();
    let n = index[0];
    let (mut list, mut other) = (vec![0; n as usize], vec![0; n as usize]);
    let found = sys::descendants(&index, 1, 3, 12, &mut list);
    assert_eq!(found, baseline::descendants(&index, 1, 3, 12, &mut other));
    assert_eq!(list, other);
    let times = race(
        10,
        || {
            black_box(sys::descendants(black_box(&index), 1, 3, 12, &mut list));
        },
        || {
            black_box(baseline::descendants(black_box(&index), 1, 3, 12, &mut other));
        },
    );
    print("descendants, distances 3 to 12", &format!("{} of {n} ranks", found.len), times);

    assert!(sys::index_check(&index) && baseline::index_check(&index));
    let times = race(
        10,
        || {
            black_box(sys::index_check(black_box(&index)));
        },
        || {
            black_box(baseline::index_check(black_box(&index)));
        },
    );
    print("index check", &format!("{n} nodes"), times);
}

/// An index of 65,534 nodes, by the parent of each rank.
fn forest(parent_of: impl Fn(usize) -> usize) -> Vec<u32> {
    let n = 65_534;
    let mut index = vec![0; index_len(n)];
    index[..3].copy_from_slice(&[n as u32, CONTENTS as u32, BODY as u32]);
    let body_at = |rank: usize| CONTENTS + BODY * (rank - 1);
    for rank in 1..=n {
        let parent = parent_of(rank);
        let (root, level) = match parent {
            0 => (rank as u32, 1),
            _ => (index[body_at(parent) + 4], index[body_at(parent) + 5] + 1),
        };
        let body = [rank as u32, rank as u32, 1, parent as u32, root, level];
        index[body_at(rank)..][..BODY].copy_from_slice(&body);
    }
    for rank in (1..=n).rev().filter(|rank| parent_of(*rank) != 0) {
        index[body_at(parent_of(rank)) + 2] += index[body_at(rank) + 2];
    }
    seal(&mut index);
    assert!(sys::index_check(&index));
    index
}

/// Ten nodes below the first, with thousands of nodes below each.
fn ten_siblings() -> Vec<u32> {
    const TREE: usize = 6_554;
    forest(|rank| match rank {
        1 => 0,
        _ if rank % TREE == 2 => 1,
        _ => (rank - 2) / TREE * TREE + 2,
    })
}

/// Both sibling calls from a rank, the one by hops `rounds` times.
fn siblings(job: &str, index: &[u32], rank: u32, rounds: u32) {
    let n = index[0] as usize;
    let (mut list, mut other) = (vec![0; n], vec![0; n]);
    let listed = sys::siblings(index, rank, &mut list);
    assert_eq!(listed, baseline::siblings(index, rank, &mut other));
    assert_eq!(list, other);
    let scan = race(
        10,
        || {
            black_box(sys::siblings(black_box(index), rank, &mut list));
        },
        || {
            black_box(baseline::siblings(black_box(index), rank, &mut other));
        },
    );
    print(&format!("siblings, {job}"), &format!("{} of {n} ranks", listed.len), scan);

    let (mut met, mut others) = (vec![0; n], vec![0; n]);
    let hopped = sys::siblings_by_hops(index, rank, &mut met);
    assert_eq!(hopped, baseline::siblings_by_hops(index, rank, &mut others));
    assert_eq!(hopped.hops, listed.len);
    assert!(met == list && others == list);
    let hops = race(
        rounds,
        || {
            black_box(sys::siblings_by_hops(black_box(index), rank, &mut met));
        },
        || {
            black_box(baseline::siblings_by_hops(black_box(index), rank, &mut others));
        },
    );
    let gain = scan.0 / hops.0;
    let work = format!("{} of {n} ranks; siblings / by hops {gain:.2}", hopped.len);
    print(&format!("siblings by hops, {job}"), &work, hops);
}

fn sibling_calls() {
    siblings("ten", &ten_siblings(), 32_772, 10_000);
    siblings("all nodes", &forest(|_| 0), 32_772, 10);
}

/// A chain of 21,844 nodes that forks into two of 21,845.
fn forked_chain() -> Vec<u32> {
    forest(|rank| if rank == 43_690 { 21_844 } else { rank - 1 })
}

fn level(index: &[u32], rank: u32) -> u32 {
    index[index_len(rank as usize) - 1]
}

/// The calls by which a climber comes to a root, that which says so included.
fn calls_to_root(call: impl Fn(&[u32], u32) -> ClimbedOne, index: &[u32], rank: u32) -> u32 {
    let mut climbed = call(index, rank);
    let mut calls = 1;
    while !climbed.root {
        climbed = call(index, climbed.rank);
        calls += 1;
    }
    calls
}

/// Where two nodes of a right index meet, and a climber from the second, `rounds` times.
fn meeting(job: &str, index: &[u32], a: u32, b: u32, rounds: u32) {
    let met = sys::meet(index, a, b);
    assert!(met.found && met == baseline::meet(index, a, b));
    let times = race(
        rounds,
        || {
            black_box(sys::meet(black_box(index), a, b));
        },
        || {
            black_box(baseline::meet(black_box(index), a, b));
        },
    );
    let [first, second, at] = [a, b, met.rank].map(|rank| level(index, rank));
    print(&format!("meet, {job}"), &format!("levels {first} and {second}, at level {at}"), times);

    let calls = calls_to_root(sys::climb, index, b);
    assert_eq!(calls, calls_to_root(baseline::climb, index, b));
    let times = race(
        rounds,
        || {
            black_box(calls_to_root(sys::climb, black_box(index), b));
        },
        || {
            black_box(calls_to_root(baseline::climb, black_box(index), b));
        },
    );
    print(&format!("climb to the root, {job}"), &format!("{calls} calls"), times);
}

fn meetings() {
    meeting("a chain that forks", &forked_chain(), 43_689, 65_534, 10);
    meeting("wide", &wide_index(), 15, 32_767, 10_000);
}

/// The wide board with a minute more for a row, and what is built of it.
fn remarked(board: &Board, row: u32) -> (Vec<u32>, Vec<i64>) {
    let edited = sys::remark(board, row as usize, 2);
    assert_eq!(edited.refusal, 0);
    let mut index = vec![0; index_len(MAX_NODES)];
    let mut totals = vec![0; totals_len(MAX_NODES)];
    assert_eq!(sys::build(&edited.board, 0, None, None, &mut index, &mut totals).refusal, 0);
    (index, totals)
}

/// A pull of a row on both sides, by a minute less and by a minute more in turn, so that the totals stay where they are;
/// `rebuild` is the time of the library's build.
fn pull(job: &str, board: &Board, index: &[u32], totals: &[i64], row: u32, rebuild: f64) {
    let n = index[0] as usize;
    let nodes = bodies(&index[CONTENTS..][..BODY * n]).filter(|body| body.row == row).count();
    let (mut own, mut others) = (totals.to_vec(), totals.to_vec());
    assert_eq!(sys::pull(index, &mut own, row, 1), 0);
    assert_eq!(baseline::pull(index, &mut others, row, 1), 0);
    let (rebuilt, sums) = remarked(board, row);
    assert!(rebuilt == index && own == sums && others == sums);
    let (mut by, mut rust_by) = (-1, -1);
    let times = race(
        20,
        || {
            black_box(sys::pull(black_box(index), black_box(&mut own), row, by));
            by = -by;
        },
        || {
            black_box(baseline::pull(black_box(index), black_box(&mut others), row, rust_by));
            rust_by = -rust_by;
        },
    );
    assert_eq!(sys::pull(index, &mut own, row, by), 0);
    assert_eq!(baseline::pull(index, &mut others, row, rust_by), 0);
    assert!(own == totals && others == totals);
    let gain = rebuild / times.0;
    let work = format!("{nodes} of {n} nodes; rebuild / pull {gain:.2}");
    print(&format!("pull, wide, {job}"), &work, times);
}

/// A build of the wide board into slices that hold one of it, and pulls of rows that end the fewest and the most nodes.
fn pulls() {
    let board = board(&wide());
    let mut index = vec![0; index_len(MAX_NODES)];
    let mut totals = vec![0; totals_len(MAX_NODES)];
    let built = sys::build(&board, 0, None, None, &mut index, &mut totals);
    let (mut other, mut others) = (index.clone(), totals.clone());
    let times = race(
        1,
        || {
            black_box(sys::build(black_box(&board), 0, None, None, &mut index, &mut totals));
        },
        || {
            let board = black_box(&board);
            black_box(baseline::build(board, 0, None, None, &mut other, &mut others));
        },
    );
    assert!(index == other && totals == others);
    print("rebuild, wide", &format!("{} rows, {} nodes", board.count, built.nodes), times);
    pull("a row of one node", &board, &index, &totals, 1, times.0);
    pull("a row of most nodes", &board, &index, &totals, 58, times.0);
}

/// The node list as a recursive query; `library` is the time of the whole build in microseconds.
fn queries(job: &str, rows: &[Row], library: f64) {
    for database in DATABASES {
        match database.time(rows) {
            None => println!(
                "| {job} | {} isn't installed or doesn't answer: left out | | |",
                database.name
            ),
            Some((time, nodes)) => println!(
                "| {job} | {}, {nodes} nodes | {time:.1} | {:.0} |",
                database.name,
                1_000.0 * time / library
            ),
        }
    }
}

fn main() {
    let copies = "library, copies of the board more than a call that does nothing";
    println!("| job | work | library, µs | Rust, µs | library / Rust | {copies} |");
    println!("|---|---|---|---|---|---|");
    let wide_time = builds("build, wide", &wide(), 0, 1);
    let tree_time = builds("build, tree", &tree(), 0, 20);
    builds("build, tree, orphans as roots", &tree(), 3, 20);
    builds("build, tree of orphans", &orphaned_tree(), 3, 20);
    builds("build, tree, equal orders", &tied_tree(), 0, 20);
    builds("build, chain", &chain(), 0, 20);
    builds("build, leaf roots", &leaves(), 0, 20);
    builds("build, cyclic", &cyclic(), 0, 20);
    builds("build, 512 rings of two rows, as roots", &rings(), 3, 20);
    builds("build, ring of 512 rows with a row on each, as roots", &ring_with_leaves(), 3, 20);
    builds("build, worst board for the ring test, as roots", &chain_below_a_ring(), 3, 2);
    builds("build, small", &small(), 0, 200);
    default_build("tree", &tree(), 20);
    default_build("tree, every eighth row not drawn", &undrawn_tree(), 20);
    default_build("sample", &sample(), 200);
    shortest_placements();
    dated_builds();
    levelled_lists();
    edits();
    navigation();
    sibling_calls();
    meetings();
    pulls();
    println!();
    println!("| node list | by | query, ms | query / library's build |");
    println!("|---|---|---|---|");
    queries("wide", &wide(), wide_time);
    queries("tree", &tree(), tree_time);
}
