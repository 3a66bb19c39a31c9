//! How many drawing minutes hang under numeral 40? A pump whose valve, numeral 40, is shown in three places, and a
//! gasket whose parent isn't drawn yet. Then the numeral list beside figure 1, in which each numeral stands once, and
//! the caption of two parts that a leader joins.
#![forbid(unsafe_code)]

use flowpewter::{
    bodies, build, build_shortest, index_len, meet, span, subtree_sum, totals_len, Board, Climber,
    Options, Orphan, Refusal, Row, Start, BODY, CONTENTS,
};

/// Parent, numeral, order on the sheet, drawing minutes.
const PUMP: [Row; 10] = [
    Row::new(0, 10, 1, 90),  // pump
    Row::new(10, 20, 1, 45), // housing
    Row::new(10, 30, 2, 60), // cover
    Row::new(10, 40, 3, 30), // valve, beside the pump
    Row::new(20, 40, 1, 12), // valve, in the housing
    Row::new(30, 40, 1, 15), // valve, in the cover
    Row::new(40, 41, 1, 8),  // spring
    Row::new(40, 42, 2, 6),  // seat
    Row::new(42, 43, 1, -2), // seal, taken over from an older drawing
    Row::new(50, 51, 1, 20), // gasket of the flange, numeral 50, which isn't drawn yet
];

/// Names the smallest assembly that holds two parts, and the way up from the second.
fn caption(index: &[u32], a: u32, b: u32) -> Result<(), Refusal> {
    let numeral = |rank: u32| index[index_len(rank as usize - 1)];
    let meeting = meet(index, a, b)?;
    print!("a leader joins {} and {}: ", numeral(a), numeral(b));
    match meeting {
        Some(rank) => println!("{} holds both", numeral(rank)),
        None => println!("nothing holds both"),
    }

    print!("up from {}:", numeral(b));
    for parent in Climber::new(index, b) {
        print!(" {}", numeral(parent?));
    }
    println!();
    Ok(())
}

fn main() -> Result<(), Refusal> {
    let mut board = Board::EMPTY;
    for row in PUMP {
        board.add(row)?;
    }

    let mut index = [0; index_len(100)];
    let mut totals = [0; totals_len(100)];
    let built = build(&board, &Options::default(), &mut index, &mut totals)?;
    println!("{} nodes, {} rows left over", built.nodes, built.left);

    let mut minutes = 0;
    let nodes = &index[CONTENTS..][..BODY * built.nodes as usize];
    for (rank, body) in (1..).zip(bodies(nodes)) {
        if body.numeral == 40 {
            let sum = subtree_sum(&index, &totals, rank)?;
            println!("numeral 40 at rank {rank}, level {}: {sum} minutes", body.level);
            minutes += sum;
        }
    }
    println!("{minutes} drawing minutes hang under numeral 40");

    // By default no part is lost sight of: what hangs from nothing drawn is a root, and marked.
    for (rank, body) in (1..).zip(bodies(nodes)) {
        if body.parent == 0 && body.orphan {
            println!("numeral {} at rank {rank}: its parent isn't drawn yet", body.numeral);
        }
    }

    // What hangs from the pump alone: orphans are ignored, and counted.
    let attached = Options { orphan: Orphan::Ignore, ..Options::default() };
    let built = build(&board, &attached, &mut index, &mut totals)?;
    println!("without it: {} nodes, {} row left over", built.nodes, built.left);

    // Each numeral as close to the pump as it can stand: the valve beside it, with spring, seat and seal.
    let built = build_shortest(&board, Start::ParentZero, &mut index, &mut totals)?;
    println!("beside figure 1: {} numerals, {} rows left over", built.nodes, built.left);
    for body in bodies(span(&index, 1)?) {
        println!("{:indent$}{}", "", body.numeral, indent = 4 * body.level as usize);
    }
    let once = subtree_sum(&index, &totals, 1)?;
    println!("{once} drawing minutes, each numeral drawn once");

    // The spring, rank 5, and the seal, rank 7, are parts of the valve.
    caption(&index, 5, 7)
}
