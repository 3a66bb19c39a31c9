//! A renewal shows the parts as they were: a pump whose design changed between two filings. Days are counted from the
//! first filing.
#![forbid(unsafe_code)]

use flowpewter::{
    bodies, build_dated, days_len, index_len, node_days, totals_len, Board, Days, Options, Orphan,
    Refusal, Row, BODY, CONTENTS, LAST_DAY,
};

/// Parent, numeral, order on the sheet, drawing minutes; days of those that aren't shown on all.
const PUMP: [Row; 7] = [
    Row::new(0, 10, 1, 90),                    // pump
    Row::new(10, 20, 1, 45),                   // housing
    Row::new(20, 40, 1, 12).on(0, 399),        // valve, in the housing at first
    Row::new(10, 40, 2, 30).on(400, LAST_DAY), // and then beside it
    Row::new(20, 30, 2, 60).on(200, LAST_DAY), // cover, which came later
    Row::new(40, 41, 1, 8),                    // spring of the valve
    Row::new(40, 42, 2, 6).on(0, 499),         // seat of the valve, given up
];

fn text(days: Days) -> String {
    match days {
        Days { first, last } if first == last => format!("day {first}"),
        Days { first, last: LAST_DAY } => format!("from day {first} on"),
        Days { first, last } => format!("days {first} to {last}"),
    }
}

/// The parts in a window of days.
fn print_parts(board: &Board, when: &str, window: Days) -> Result<(), Refusal> {
    let attached = Options { orphan: Orphan::Ignore, ..Options::default() };
    let mut index = [0; index_len(100)];
    let mut totals = [0; totals_len(100)];
    let mut days = [0; days_len(100)];
    let built = build_dated(board, &attached, window, &mut index, &mut totals, &mut days)?;
    let nodes = built.nodes as usize;
    println!("{when}: {nodes} nodes, {} drawing minutes", totals[nodes]);
    // A numeral as far to the right as it is down, and its days.
    for (rank, body) in (1..).zip(bodies(&index[CONTENTS..][..BODY * nodes])) {
        let own = node_days(&days, rank).expect("a node has days");
        let column = 4 * body.level as usize;
        println!("{:column$}{:<rest$}{}", "", body.numeral, text(own), rest = 24 - column);
    }
    Ok(())
}

fn main() -> Result<(), Refusal> {
    let mut board = Board::EMPTY;
    for row in PUMP {
        board.add(row)?;
    }
    print_parts(&board, "first filing, day 0", Days::new(0, 0))?;
    print_parts(&board, "second filing, day 450", Days::new(450, 450))?;
    print_parts(&board, "all days", Days::ALL)
}
