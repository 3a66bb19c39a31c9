//! The minutes of one part are corrected, and the totals of an index follow without a build: a pull. The part is the
//! spring of a pump's valve, numeral 40, which is shown in three places.
#![forbid(unsafe_code)]

use flowpewter::{
    bodies, build, index_len, pull, subtree_sum, totals_len, Board, Options, Refusal, Row, BODY,
    CONTENTS,
};

/// Parent, numeral, order on the sheet, drawing minutes.
const PUMP: [Row; 7] = [
    Row::new(0, 10, 1, 90),  // pump
    Row::new(10, 20, 1, 45), // housing
    Row::new(10, 30, 2, 60), // cover
    Row::new(10, 40, 3, 30), // valve, beside the pump
    Row::new(20, 40, 1, 12), // valve, in the housing
    Row::new(30, 40, 1, 15), // valve, in the cover
    Row::new(40, 41, 1, 8),  // spring
];

/// Prints the minutes under numeral 40, place by place and of all.
fn print_valves(index: &[u32], totals: &[i64], nodes: u32) -> Result<(), Refusal> {
    let mut minutes = 0;
    for (rank, body) in (1..).zip(bodies(&index[CONTENTS..][..BODY * nodes as usize])) {
        if body.numeral == 40 {
            let sum = subtree_sum(index, totals, rank)?;
            println!("numeral 40 at rank {rank}: {sum} minutes");
            minutes += sum;
        }
    }
    println!("{minutes} drawing minutes hang under numeral 40");
    Ok(())
}

fn main() -> Result<(), Refusal> {
    let mut board = Board::EMPTY;
    for row in PUMP {
        board.add(row)?;
    }
    let mut index = vec![0; index_len(100)];
    let mut totals = vec![0; totals_len(100)];
    let built = build(&board, &Options::default(), &mut index, &mut totals)?;
    print_valves(&index, &totals, built.nodes)?;

    // The spring, row 7, in each of the three places.
    board.remark(7, 11)?;
    println!("the spring takes 11 minutes, not 8:");
    pull(&index, &mut totals, 7, 11 - 8)?;
    print_valves(&index, &totals, built.nodes)
}
