//! A maker's sheet, whose columns are levels, as a tree: which parts are below assembly 100?
#![forbid(unsafe_code)]

use flowpewter::{
    bodies, build_levelled, descendants, index_len, totals_len, Refusal, BODY, CONTENTS,
};

const WIDTH: usize = 3;

/// Assembly, subassembly, part; 0 is blank.
const SHEET: [[u32; WIDTH]; 9] = [
    [100, 120, 121], // pump, housing, bearing
    [100, 120, 122], // pump, housing, seal
    [100, 110, 112], // pump, drive, gear
    [100, 110, 111], // pump, drive, shaft
    [0, 0, 0],       // left out by the maker
    [100, 110, 112], // the gear once more
    [100, 0, 130],   // pump, bolt
    [200, 210, 0],   // stand, plate, which isn't taken apart
    [0, 0, 900],     // label, of no assembly
];

const NODES: usize = WIDTH * SHEET.len();

fn main() -> Result<(), Refusal> {
    let mut index = [0; index_len(NODES)];
    let mut totals = [0; totals_len(NODES)];
    let built = build_levelled(SHEET.as_flattened(), WIDTH as u32, &mut index, &mut totals)?;
    println!("{} nodes of {} lines, {} of them blank", built.nodes, SHEET.len(), built.left);

    // Each numeral in its own column, and the first line that it is on, in the order of the sorted sheet.
    let numeral = |rank: u32| index[index_len(rank as usize - 1)];
    for body in bodies(&index[CONTENTS..][..BODY * built.nodes as usize]) {
        let column = 4 * (body.level as usize - 1);
        print!("{:column$}{:<rest$}line {}", "", body.numeral, body.row, rest = 13 - column);
        match body.parent {
            0 => println!(),
            parent => println!(", below {}", numeral(parent)),
        }
    }

    // Assembly 100 has rank 1. Distances count columns: the bolt is two columns on, as all other parts are.
    let mut list = [0; NODES];
    print!("parts below 100:");
    for rank in descendants(&index, 1, 2..=2, &mut list)? {
        print!(" {}", numeral(*rank));
    }
    println!();
    Ok(())
}
