//! The listing program `numerals` as a function from input to output.

use crate::board::Row;
use crate::forest::{build, Body, Start};
use crate::machine::Machine;
use crate::navigation::subtree_sum;
use crate::{BODY, CONTENTS};

/// Nodes the program's index holds.
pub const LISTING_NODES: usize = 2_700;

/// What the program prints for `input`.
///
/// Lines are taken one by one, read and then added; the first bad line or
/// refusal is all that is printed. Every printed line ends in a newline.
pub fn numerals(input: &[u8]) -> Vec<u8> {
    let mut machine = Machine::new();
    for (place, line) in lines(input).iter().enumerate() {
        let row = match read_line(line) {
            None => return format!("bad line {}\n", place + 1).into_bytes(),
            Some(row) => row,
        };
        let refusal = machine.add(row);
        if refusal != 0 {
            return format!("refused {refusal}\n").into_bytes();
        }
    }

    let mut index = vec![0; CONTENTS + BODY * LISTING_NODES];
    let mut totals = vec![0; LISTING_NODES + 1];
    let built = build(&machine.rows, 3, None, Start::ParentZero, &mut index, &mut totals);
    if built.refusal != 0 {
        return format!("refused {}\n", built.refusal).into_bytes();
    }

    let mut output = String::from("rank size parent level root cycle orphan id sum\n");
    for rank in 1..=built.nodes {
        let body = Body::read(&index, rank as usize);
        let summed = subtree_sum(&index, &totals, rank);
        if summed.refusal != 0 {
            return format!("refused {}\n", summed.refusal).into_bytes();
        }
        output.push_str(&format!(
            "{} {} {} {} {} {} {} {} {}\n",
            rank,
            body.size,
            body.parent,
            body.level,
            body.root,
            body.closing as u32,
            body.orphan as u32,
            body.numeral,
            summed.sum
        ));
    }
    output.into_bytes()
}

/// The lines; a last newline ends the last line and begins none.
fn lines(input: &[u8]) -> Vec<&[u8]> {
    let mut list: Vec<&[u8]> = input.split(|byte| *byte == b'\n').collect();
    if list[list.len() - 1].is_empty() {
        list.pop();
    }
    list
}

/// A line `parent numeral order minutes`, one space between. Its row is entered without days.
fn read_line(line: &[u8]) -> Option<Row> {
    let fields: Vec<&[u8]> = line.split(|byte| *byte == b' ').collect();
    if fields.len() != 4 {
        return None;
    }
    let (negative, minutes) = match fields[3].strip_prefix(b"-") {
        Some(rest) => (true, rest),
        None => (false, fields[3]),
    };
    let magnitude = digits(minutes)?;
    let minutes = if negative { -magnitude } else { magnitude };
    Some(Row::undated(
        u32::try_from(digits(fields[0])?).ok()?,
        u32::try_from(digits(fields[1])?).ok()?,
        u32::try_from(digits(fields[2])?).ok()?,
        i32::try_from(minutes).ok()?,
    ))
}

/// The value of one or more digits; a value too large for any field is held at 2^40.
fn digits(field: &[u8]) -> Option<i64> {
    if field.is_empty() {
        return None;
    }
    let mut value: i64 = 0;
    for byte in field {
        if !byte.is_ascii_digit() {
            return None;
        }
        value = (value * 10 + (byte - b'0') as i64).min(1 << 40);
    }
    Some(value)
}
