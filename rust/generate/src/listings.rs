//! Random input of the listing program.

use crate::builds::{rows, size, SHAPES};
use crate::random::Random;
use reference::MAX_ROWS;

/// A line the program can't read, or one whose number leaves its width.
pub fn bad_line(random: &mut Random) -> Vec<u8> {
    let fixed: [&[u8]; 24] = [
        b"",
        b" ",
        b"0 1 1",
        b"0 1 1 1 1",
        b"0  1 1 1",
        b" 0 1 1 1",
        b"0 1 1 1 ",
        b"0 1 1 1\r",
        b"0\t1 1 1",
        b"0 1 1 -",
        b"0 1 1 --1",
        b"0 1 1 +1",
        b"-0 1 1 1",
        b"0 -1 1 1",
        b"0 1 -1 1",
        b"0 1 1 1-",
        b"x 1 1 1",
        b"0 1 1 1.5",
        b"4294967296 1 1 1",
        b"0 18446744073709551617 1 1",
        b"0 1 4294967296 1",
        b"0 1 1 2147483648",
        b"0 1 1 -2147483649",
        b"0 1 1 \xff",
    ];
    random.pick(&fixed).to_vec()
}

/// A field with leading zeros in some cases.
fn field(random: &mut Random, value: u32) -> String {
    let zeros = if random.chance(1, 20) { random.below(25) } else { 0 };
    format!("{}{value}", "0".repeat(zeros))
}

/// Lines of a random board, sometimes with a bad line, a numeral 0, more than
/// 1,024 rows, more than 2,700 nodes, or no last newline.
pub fn listing(random: &mut Random) -> Vec<u8> {
    let mut lines: Vec<Vec<u8>> = Vec::new();
    let shape = random.pick(&SHAPES);
    let size = size(random);
    let mut list = if random.chance(1, 30) { Vec::new() } else { rows(random, shape, size) };
    if random.chance(1, 20) {
        let more = MAX_ROWS + random.below(3);
        while list.len() < more {
            list.push(random.row());
        }
    }
    if !list.is_empty() && random.chance(1, 16) {
        let place = random.below(list.len());
        list[place].numeral = 0;
    }
    for row in list {
        let sign = if row.minutes < 0 || random.chance(1, 60) { "-" } else { "" };
        let line = format!(
            "{} {} {} {sign}{}",
            field(random, row.parent),
            field(random, row.numeral),
            field(random, row.order),
            field(random, row.minutes.unsigned_abs())
        );
        lines.push(line.into_bytes());
    }
    if random.chance(1, 8) {
        let place = random.below(lines.len() + 1);
        lines.insert(place, bad_line(random));
    }
    let mut text = lines.join(&b'\n');
    if !random.chance(1, 4) {
        text.push(b'\n');
    }
    text
}
