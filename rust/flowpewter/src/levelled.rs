//! The build of a levelled list: lines whose columns are levels, as large makers send them.
#![forbid(unsafe_code)]

use crate::build::Built;
use crate::refusal::Refusal;
use crate::sys;

/// Most cells of a line.
pub const MAX_WIDTH: u32 = 8;
/// Most lines of a list.
pub const MAX_LINES: usize = 512;

/// Builds the index of a levelled list, and its running totals, which are all 0, into the two slices; words beyond
/// stay. Refused with 18, 19 or 9, in this order, and then both slices are zeroed.
///
/// `cells` holds lines of `width` cells each, in any order; the column of a cell is its level, and 0 is a blank. The
/// lines are sorted cell by cell, the smaller first and blanks last. Each distinct beginning of a line that ends in a
/// filled cell is a node; blanks before that cell are part of the beginning. Its numeral is that cell, its level the
/// column's number, its row number the place, from 1, of the first line that has it among all sorted lines. Its parent
/// is the longest shorter beginning that ends in a filled cell; where there is none, it is a root, of whatever level.
/// Ranks follow the lines, and on a line the columns.
///
/// [`Built::left`] is the number of lines wholly blank. No list has more than [`MAX_LINES`] × [`MAX_WIDTH`] nodes.
///
/// A maker's sheet, of assembly, subassembly and part:
///
/// ```
/// use flowpewter::{
///     ancestors, bodies, build_levelled, descendants, index_len, span, totals_len, Built, Refusal,
/// };
///
/// let sheet = [
///     200, 210, 0, // nothing below 210
///     100, 110, 112,
///     100, 0, 130, // a part of the assembly itself
///     100, 110, 111,
///     0, 0, 0,
/// ];
/// let mut index = [0; index_len(7)];
/// let mut totals = [0; totals_len(7)];
/// let built = build_levelled(&sheet, 3, &mut index, &mut totals)?;
/// assert_eq!(built, Built { nodes: 7, left: 1 });
///
/// // Numeral, level and line of assembly 100 and all that is below it.
/// let assembly: Vec<_> =
///     bodies(span(&index, 1)?).map(|body| (body.numeral, body.level, body.row)).collect();
/// assert_eq!(assembly, [(100, 1, 1), (110, 2, 1), (111, 3, 1), (112, 3, 2), (130, 3, 3)]);
///
/// // Distances count columns: 130 hangs from 100 and is two columns below it.
/// let mut list = [0; 5];
/// assert_eq!(descendants(&index, 1, 2..=2, &mut list)?, [3, 4, 5]);
/// let found = ancestors(&index, 5, i32::MIN..=0, &mut list)?;
/// assert_eq!((found.ranks, found.links), ([5, 1].as_slice(), 1));
/// # Ok::<(), Refusal>(())
/// ```
///
/// What is no list:
///
/// ```
/// use flowpewter::{build_levelled, Refusal, MAX_LINES};
///
/// let (mut index, mut totals) = ([7; 8], [7; 1]);
/// let mut refusal =
///     |cells: &[u32], width| build_levelled(cells, width, &mut index, &mut totals).unwrap_err();
/// assert_eq!(refusal(&[], 0), Refusal::NotWholeLines);
/// assert_eq!(refusal(&[1; 18], 9), Refusal::NotWholeLines);
/// assert_eq!(refusal(&[1, 2, 3], 2), Refusal::NotWholeLines);
/// assert_eq!(refusal(&[1; MAX_LINES + 1], 1), Refusal::TooManyLines);
/// assert_eq!(refusal(&[1, 2], 2), Refusal::TooManyNodes);
/// assert_eq!((index, totals), ([0; 8], [0; 1]));
/// ```
pub fn build_levelled(
    cells: &[u32],
    width: u32,
    index: &mut [u32],
    totals: &mut [i64],
) -> Result<Built, Refusal> {
    let built = sys::build_levelled(cells, width, index, totals);
    Refusal::check(built.refusal)?;
    Ok(Built { nodes: built.nodes, left: built.left })
}
